"""The list of decisions: who decided what, on which sagas, as a call and as a page."""

from __future__ import annotations

from typing import Any
from urllib.parse import urlencode

from starlette.responses import Response

from sagas.core import page_tokens
from sagas.core.decisions import Decision, DecisionEntry, Way
from sagas.core.merged_lists import MergedList, page_of
from sagas.inspection import decision_questions
from sagas.inspection.decision_questions import MAX_KEYS, DecisionFilter
from sagas.server import answers
from sagas.server.auth import Permission, Principal
from sagas.server.dashboard import show_page
from sagas.server.database_reads import of_each, unavailable_of
from sagas.server.json_bodies import Json, times
from sagas.server.operations import Answer, Call, Routes
from sagas.server.routes import filters
from sagas.server.routes.filters import LIMIT
from sagas.server.service import Service
from sagas.server.shapes import Choice, Either, Field, Number, Text

routes = Routes("operators", "/v1")
page_routes = Routes("pages", is_page=True)
MAX_NUMBER = 1 << 62
AFTER = Field(
    Either(
        Number(1, MAX_NUMBER, whole=True),
        Text(max_length=filters.MAX_TOKEN, pattern=filters.MERGED),
    ),
    "`next` of the previous page",
    default=None,
)
FILTERS = {
    "key": Field(Text(max_length=512), "only decisions on this saga", default=None),
    "definition": Field(
        Text(max_length=64), "only decisions on sagas of this definition", default=None
    ),
    "decision": Field(Choice((*Decision,)), "only decisions of this kind", default=None),
}
SHOWN, LISTED = 5, 50
"""How many keys of an entry, and how many entries, a page of the dashboard has."""


def filter_of(principal: Principal, query: Any) -> DecisionFilter:
    """Return the filter of a query, within what the principal may see."""
    names = query["key"] or None, query["definition"] or None, query["decision"] or None
    return DecisionFilter(*names, scope=principal.scope)


def positions_of(after: int | str | None, count: int) -> list[int | None]:
    """Return the number of the last entry of the previous page, in each database.

    Raises `Problem`.
    """
    if count == 1 and not isinstance(after, str):
        return [after]
    return filters.positions_of("decisions", after, count, page_tokens.number)


async def entries_of(call: Call, limit: int, ahead: int = 0) -> MergedList[DecisionEntry]:
    """Return a page of decisions of all databases, the newest first, with the next position.

    `ahead`: 1 if the next page must not be empty. Raises `Problem`.
    """
    of, count = filter_of(call.principal, call.query), call.service.database_count
    positions = positions_of(call.query["after"], count)

    async def part(service: Service, index: int) -> list[DecisionEntry]:
        return await service.look(decision_questions.listed(of, positions[index], limit + ahead))

    parts = await of_each(call, part)
    return page_of(
        "decisions",
        parts,
        lambda entry: -entry.at,
        positions,
        lambda entry: entry.number,
        limit,
        {},
        limit + ahead,
    )


def next_of(call: Call, page: MergedList[DecisionEntry]) -> int | str | None:
    """Return `after` for the next page: a token, or a number if the store has one database."""
    is_one = call.service.database_count == 1
    return page[-1].number if is_one and page.next is not None else page.next


def entry_json(entry: DecisionEntry) -> dict[str, Any]:
    """Return a decision, with at most `MAX_KEYS` of its sagas."""
    return {
        "number": entry.number,
        "decision": entry.command,
        **times(at=entry.at),
        "by": entry.by,
        "via": entry.via,
        "note": entry.note,
        "bulk": entry.is_bulk,
        "subject": entry.subject,
        "count": len(entry.sagas),
        **entry.counts,
        "sagas": [
            {
                "key": saga.key,
                "definition": saga.saga,
                "step": saga.step,
                "undo": saga.undo,
                "answer": saga.answer,
            }
            for saga in entry.sagas[:MAX_KEYS]
        ],
    }


@routes.get(
    "/decisions",
    "listDecisions",
    permission=Permission.LOOK,
    query=FILTERS | {"after": AFTER, "limit": LIMIT},
    answers={200: Answer("A page of decisions.", answers.DECISIONS)},
)
async def decisions(call: Call) -> Response:
    """List who decided what, newest first.

    Returns decisions on sagas that the token may see, and pauses; those on nodes only if it may
    see all sagas. A decision on many sagas at once is one entry, with the sagas that the token may
    see, at most 1,000. Decisions are deleted with their sagas.
    """
    entries = await entries_of(call, call.query["limit"])
    rows = [entry_json(entry) for entry in entries]
    return Json({"decisions": rows, "next": next_of(call, entries)} | unavailable_of(call))


@page_routes.get("/ui/decisions", permission=Permission.BROWSE, query=FILTERS | {"after": AFTER})
async def page(call: Call) -> Response:
    """Show who decided what."""
    principal, query = call.principal, dict(call.query)
    entries = await entries_of(call, LISTED, ahead=1)
    counts, _ = await call.service.figures.of(principal.scope)
    older = None
    if (after := next_of(call, entries)) is not None:
        parts = {name: value for name, value in query.items() if value and name != "after"}
        older = f"/ui/decisions?{urlencode(parts | {'after': after})}"
    values: dict[str, Any] = {"entries": entries, "keys": SHOWN, "older": older, "query": query}
    values |= {"names": counts, "decisions": [*Decision], "ways": WAYS}
    return show_page(call.request, "decisions.html", here="decisions", **values)


WAYS = {
    Way.DASHBOARD.value: "the dashboard",
    Way.HTTP.value: "the HTTP API",
    Way.COMMAND.value: "the command",
    Way.PROGRAM.value: "a program",
}
"""The ways of decisions, in words."""
