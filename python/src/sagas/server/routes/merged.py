"""Calls of the API that concern all databases of a store, and are merged in their own ways.

The handlers of other lists read all databases by themselves: see `database_reads.py`.
"""

from __future__ import annotations

import dataclasses
import json
import logging
from collections.abc import Awaitable, Callable, Iterable, Mapping
from typing import TYPE_CHECKING, Any

from starlette.responses import Response

from sagas.base.errors import StoreUnavailable
from sagas.core import page_tokens
from sagas.core.merged_lists import page_of
from sagas.inspection import pages
from sagas.server import json_views
from sagas.server.json_bodies import Json
from sagas.server.operations import Call, Operation
from sagas.server.problems import Problem
from sagas.server.routes import attention, filters
from sagas.server.routes.operators import MAX_TARGETS, SHOWN
from sagas.server.service_set import NO_ANSWER, ServiceSet, of_service

if TYPE_CHECKING:
    from sagas.api.store import Store
    from sagas.inspection.attention_pages import Entry

logger = logging.getLogger("sagas.server")
Work = Callable[[ServiceSet, Operation, Call], Awaitable[Response]]
Body = dict[str, Any]
Parts = Mapping[int, Body]


async def answer_of(services: ServiceSet, operation: Operation, call: Call, store: Store) -> Body:
    """Return the JSON answer of one database."""
    response = await operation.handler(of_service(call, services.chosen(store)))
    body: Body = json.loads(bytes(response.body))
    return body


async def each(
    services: ServiceSet, operation: Operation, call: Call
) -> tuple[Parts, dict[str, str]]:
    """Return the answer of each database, and why the others have none, by number.

    Raises `Problem` if no database answers.
    """
    parts, missing = await services.member_set.each(
        lambda store, _: answer_of(services, operation, call, store)
    )
    if not parts:
        raise services.refused(missing)
    return parts, services.numbered(missing)


# -- lists with pages


async def sagas(services: ServiceSet, operation: Operation, call: Call) -> Response:
    """List sagas of all databases, newest first."""
    query, limit = call.query, call.query["limit"]
    count = len(services.members)
    positions = filters.positions_of("sagas", query["after"], count, page_tokens.start_and_id)
    of = filters.of(call.principal, query, query["phase"])

    async def page(store: Store, index: int) -> list[Any]:
        question = pages.page(before=positions[index], limit=limit, of=of)
        return await services.chosen(store).look(question)

    parts, missing = await services.member_set.each(page)
    result = page_of(
        "sagas",
        parts,
        lambda row: (-row.started, -row.id),
        positions,
        lambda row: [*pages.position_of(row)],
        limit,
        missing,
    )
    rows = [json_views.summary(row) for row in result]
    return Json({"sagas": rows, "next": result.next, "unavailable": services.numbered(missing)})


async def attention_of(services: ServiceSet, operation: Operation, call: Call) -> Response:
    """List what needs an operator, of all databases: one kind after the other."""
    query, limit = call.query, call.query["limit"]
    count, after = len(services.members), query["after"]
    positions = filters.positions_of("attention", after, count, attention.checked_cursor)
    of, newest = filters.of(call.principal, query), query["order"] == "newest"
    kinds = [query["kind"]] if query["kind"] else [*attention.KINDS]
    counts: dict[str, int] = {}
    shown: dict[int, Any] = {}

    async def page(store: Store, index: int) -> list[Entry]:
        service = services.chosen(store)
        kind, after = attention.parse_cursor(positions[index])
        left = kinds[kinds.index(kind) :] if kind in kinds else kinds
        question = attention.pages(left, of, query["step"], after, newest, limit)
        entries = await service.look(question)
        details = await service.shown_fields.of(entries)
        shown.update({id(entry): detail.shown for entry, detail in zip(entries, details)})
        _, numbers = await service.figures.of(call.principal.scope)
        for name, number in numbers.items():
            counts[name] = counts.get(name, 0) + number
        return entries

    sign = -1 if newest else 1
    parts, missing = await services.member_set.each(page)
    result = page_of(
        "attention",
        parts,
        lambda entry: (kinds.index(entry.kind), sign * entry.started, sign * entry.id),
        positions,
        attention.cursor_of,
        limit,
        missing,
    )
    rows = [json_views.entry(entry, shown[id(entry)]) for entry in result]
    return Json(
        {
            "counts": counts,
            "entries": rows,
            "next": result.next,
            "unavailable": services.numbered(missing),
        }
    )


# -- changes


async def start(services: ServiceSet, operation: Operation, call: Call) -> Response:
    """Start a saga in the database of its key."""
    return await services.of_key(operation, call, call.body["key"])


async def bulk(services: ServiceSet, operation: Operation, call: Call) -> Response:
    """Count in all databases. If it is not a dry run and the sum is unchanged, act in each."""
    body = call.body
    counting = with_body(call, {**body, "dry_run": True, "count": None})
    counts, missing = await each(services, operation, counting)
    total = sum(part["count"] for part in counts.values())
    if body["dry_run"]:
        return Json(_bulk(counts.values(), True) | {"unavailable": missing})
    if body["count"] is None:
        raise Problem("InvalidRequest", "count: pass the count of the dry run", "count")
    if body["count"] != total:
        raise Problem(
            "CountChanged",
            f"the filter now selects {total} instead of {body['count']}. Nothing was changed; "
            "repeat the dry run",
            "count",
        )
    answers, limit = list[Body](), min(body["limit"], MAX_TARGETS)
    for index, part in sorted(counts.items()):
        if limit <= 0 or not part["count"]:
            answers.append(part)
            continue
        changing = with_body(call, {**body, "count": part["count"], "limit": limit})
        try:
            store = services.member_set.member(index)
            done = await answer_of(services, operation, changing, store)
        except StoreUnavailable as error:
            logger.info("%s: %s", operation.name, error)
            missing[str(index + 1)] = NO_ANSWER
            done = part
        except Problem as problem:  # it selects another number than a moment ago
            if problem.name != "CountChanged" or not any(answer["done"] for answer in answers):
                raise
            done = part
        limit -= done["done"] + len(done["refused"])
        answers.append(done)
    return Json(_bulk(answers, False) | {"unavailable": missing})


def with_body(call: Call, body: Body) -> Call:
    """Return a call with another body."""
    return dataclasses.replace(call, body=body)


def _bulk(answers: Iterable[Body], is_dry: bool) -> Body:
    parts = [*answers]
    merged = {name: sum(part[name] for part in parts) for name in ("count", "done", "undoing")}
    keys = [key for part in parts for key in part["keys"]][:SHOWN]
    refused = [row for part in parts for row in part["refused"]]
    left = max(0, merged["count"] - merged["done"] - len(refused))
    warnings = parts[0]["warnings"] if all(part["warnings"] for part in parts) else []
    more = {"dry_run": is_dry, "keys": keys, "refused": refused, "left": left}
    return {**merged, **more, "warnings": warnings}


# -- all of them


MERGED: dict[str, Work] = {
    "startSaga": start,
    "listSagas": sagas,
    "listAttention": attention_of,
    **{f"{verb}Many": bulk for verb in ("abort", "resolve", "retry", "complete", "fail")},
}
"""The work of each call, by the name of its operation. Calls with a key have one database. The
others, for example lists and the claims of workers, are carried out by the set itself.
"""
