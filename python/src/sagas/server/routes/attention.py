"""Routes of what requires an operator."""

from __future__ import annotations

import re

from starlette.responses import Response

from sagas.inspection import attention_pages
from sagas.inspection.attention_pages import Entry, EntryPosition
from sagas.inspection.question import Question
from sagas.server import answers, json_views
from sagas.server.auth import Permission
from sagas.server.json_bodies import parted
from sagas.server.operations import Answer, Call, Routes
from sagas.server.routes import filters
from sagas.server.shapes import Choice, Field, Text
from sagas.storage.filters import Filter

routes = Routes("operators", "/v1")
KINDS = attention_pages.KINDS
KIND = "|".join(KINDS)
CURSOR = rf"({KIND})\.{filters.POSITION}\.-?[0-9]{{1,4}}"


def parse_cursor(cursor: str | None) -> tuple[str | None, EntryPosition]:
    """Return the kind and the position in a cursor."""
    if cursor is None:
        return None, None
    if not re.fullmatch(CURSOR, cursor):
        raise filters.other_list()
    kind, _, rest = cursor.partition(".")
    position, _, step = rest.rpartition(".")
    at, id = filters.parse_position(position)
    return kind, (at, id, int(step))


def checked_cursor(position: object) -> str:
    """Return a cursor of a merged list. Raises `ValueError` for any other value."""
    if not isinstance(position, str) or not re.fullmatch(CURSOR, position):
        raise ValueError
    return position


def cursor_of(entry: Entry) -> str:
    """Return the cursor of an entry, which `parse_cursor` reads."""
    return f"{entry.kind}.{filters.cursor_of((entry.started, entry.id))}.{entry.step_index}"


def pages(
    kinds: list[str],
    sagas: Filter,
    step: str | None,
    after: EntryPosition,
    newest: bool,
    limit: int,
) -> Question[list[Entry]]:
    """Return a page of entries of several kinds, one kind after the other."""
    entries: list[Entry] = []
    for kind in kinds:
        left = limit - len(entries)
        more = yield from attention_pages.entries(
            kind, sagas, step, after=after, newest=newest, limit=left
        )
        entries, after = entries + more, None
        if len(entries) >= limit:
            break
    return entries


@routes.get(
    "/attention",
    "listAttention",
    permission=Permission.LOOK,
    query=filters.SAGAS
    | filters.MORE
    | {
        "kind": Field(Choice(KINDS), "only entries of this kind", default=None),
        "step": Field(Text(max_length=32), "only entries of this step", default=None),
        "order": Field(
            Choice(("oldest", "newest")), "which entries of each kind come first", default="oldest"
        ),
        "after": Field(
            Text(max_length=filters.MAX_TOKEN, pattern=f"{CURSOR}|{filters.MERGED}"),
            "`next` of the previous page",
            default=None,
        ),
        "limit": filters.LIMIT,
    },
    answers={200: Answer("A page of entries.", answers.ATTENTION)},
)
async def listed(call: Call) -> Response:
    """List what needs an operator.

    These are stuck sagas, permanently failed compensations, unused reports, attempts with an
    unknown outcome, exhausted attempts, errors of the program, stored values that cannot be read,
    `on_end` calls that no program could start, sagas of damaged shards, and approvals: one kind
    after the other.
    """
    query = call.query
    kind, after = parse_cursor(query["after"])
    kinds = [query["kind"]] if query["kind"] else list(KINDS)
    left = kinds[kinds.index(kind) :] if kind in kinds else kinds
    sagas, limit = filters.of(call.principal, query), query["limit"]
    matching = await call.service.look(
        pages(left, sagas, query["step"], after, query["order"] == "newest", limit)
    )
    details = await call.service.shown_fields.of(matching)
    _, counts = await call.service.figures.of(call.principal.scope)
    last = matching[-1] if len(matching) == limit else None
    more = last and cursor_of(last)

    def answer() -> Response:
        pairs = zip(matching, details)
        entries = [json_views.entry(entry, detail.shown) for entry, detail in pairs]
        return parted({"counts": counts, "entries": entries, "next": more}, "entries")

    return await call.service.threads.answers.do(answer)
