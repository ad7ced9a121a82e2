"""Routes for operators: metrics, health, queues, and actions on one saga or on many."""

from __future__ import annotations

import asyncio
from collections.abc import Awaitable, Callable, Mapping
from typing import Any

from starlette.responses import Response

from sagas.api.worker_set import summed
from sagas.base.errors import SagasError, StepNotWaiting
from sagas.core.decisions import Decision, Requester, Way, new_bulk
from sagas.definition.child_sagas import key_of
from sagas.inspection import attention_pages, lists, names as names_module
from sagas.inspection.attention_pages import KINDS
from sagas.inspection.question import Question
from sagas.server import answers, json_views, problems
from sagas.server.access import over_http
from sagas.server.auth import DECISIONS, Permission
from sagas.server.database_reads import of_each, unavailable_of
from sagas.server.decision_log import log_decision
from sagas.server.json_bodies import Json
from sagas.server.metrics import TYPE
from sagas.server.operations import Answer, Call, Handler, Routes
from sagas.server.problems import Problem
from sagas.server.routes import filters
from sagas.server.routes.sagas import ERROR, NOTE, UNDO
from sagas.server.service import Service
from sagas.server.shapes import Anything, Choice, Field, Flag, Nullable, Number, Record, Text
from sagas.storage.filters import Filter

routes = Routes("operators")
NEEDED_NOTE = Field(
    Text(max_length=2000, min_length=1, strip=True),
    "what was done; stored with the name of the token and the time",
)
COMPENSATE = Record("CompensateRequest", {"note": NOTE})
ERASE = Record("EraseRequest", {}, "An empty object.")
RESOLVE = Record("ResolveRequest", {"note": NEEDED_NOTE}, example={"note": "bought one by hand"})


@routes.get(
    "/health/live", "isLive", answers={200: Answer("The process is alive.", answers.HEALTH)}
)
async def live(call: Call) -> Response:
    """Check that the process is alive.

    Returns 200 while the event loop runs. A supervisor restarts a service that does not answer.
    """
    return Json({"alive": True})


@routes.get(
    "/health/ready",
    "isReady",
    answers={
        200: Answer("The service accepts requests.", answers.READY),
        503: Answer("The service does not accept requests, with the reason.", answers.READY),
    },
)
async def ready(call: Call) -> Response:
    """Check that the service accepts requests.

    Returns 503 if the store cannot be written or the service is stopping. A proxy then uses
    another service.
    """
    reason, unavailable = call.service.ready(), call.service.unavailable
    fields: dict[str, Any] = {"ready": reason is None, "reason": reason}
    if unavailable is not None:
        fields["unavailable"] = unavailable
    return Json(fields, 200 if reason is None else 503)


@routes.get(
    "/metrics",
    "getMetrics",
    permission=Permission.MEASURE,
    answers={200: Answer("Metrics in Prometheus's text format.", media_type="text/plain")},
)
async def metrics(call: Call) -> Response:
    """Get metrics for Prometheus.

    They cover all definitions, so a token that is restricted to some definitions cannot read
    them.
    """
    if call.principal.definitions is not None:
        raise Problem(
            "Forbidden",
            f"{call.principal.name} is restricted to some definitions, and metrics cover all: "
            "use a token with the role metrics",
        )
    return Response(await call.service.metrics.text(), media_type=TYPE)


@routes.post(
    "/v1/sagas/{key}/resolve",
    "resolveSaga",
    permission=DECISIONS[Decision.RESOLVE],
    body=RESOLVE,
    answers={200: Answer("The saga is resolved.", answers.RESOLVED)},
    problems=("NoSuchSaga", "StepNotWaiting"),
)
async def resolve(call: Call) -> Response:
    """Mark a saga as resolved.

    The saga is stuck, a compensation failed permanently, or a report was not used.
    """
    await call.service.check_sees(call.principal, call.key)
    await call.service.store.resolve(call.key, call.body["note"], by=over_http(call.principal))
    log_decision(call.principal.name, Decision.RESOLVE)
    call.service.figures.forget()
    return Json({"key": call.key, "resolved": True})


@routes.post(
    "/v1/sagas/{key}/erase",
    "eraseSaga",
    permission=DECISIONS[Decision.ERASE],
    body=ERASE,
    answers={200: Answer("The data of the saga is erased.", answers.ERASED)},
    problems=("NoSuchSaga", "NotErasable"),
)
async def erase(call: Call) -> Response:
    """Erase the data of an ended saga.

    Its input, results, errors and labels are erased, also of all sagas below it. Its key stays
    used, and its events and its plan stay. This cannot be undone, and may be repeated.
    """
    await call.service.check_sees(call.principal, call.key)
    is_new = await call.service.store.erase(call.key, by=over_http(call.principal))
    log_decision(call.principal.name, Decision.ERASE)
    call.service.figures.forget()
    return Json({"key": call.key, "erased": True, "new": is_new})


@routes.post(
    "/v1/sagas/{key}/steps/{step}/compensate",
    "compensateStep",
    permission=DECISIONS[Decision.COMPENSATE],
    body=COMPENSATE,
    answers={200: Answer("Another saga compensates the step.", answers.COMPENSATED)},
    problems=("NoSuchSaga", "StepNotWaiting"),
)
async def compensate(call: Call) -> Response:
    """Compensate a step whose early report was not used.

    Another saga calls the compensation with the reported result until it succeeds.
    """
    service, step = call.service, call.path["step"]
    await service.check_sees(call.principal, call.key)
    options = {"by": over_http(call.principal), "note": call.body["note"]}
    await service.in_time(service.store.compensate(call.key, step, **options))
    log_decision(call.principal.name, Decision.COMPENSATE)
    service.figures.forget()
    return Json({"key": call.key, "step": step, "undo": key_of(call.key, step, undo=True)})


@routes.get(
    "/v1/queues",
    "listQueues",
    permission=Permission.QUEUES,
    answers={200: Answer("The queues of all nodes, by step.", answers.QUEUES)},
)
async def queues(call: Call) -> Response:
    """List the tasks that wait for workers.

    Returns, for each step that the token may claim, how many tasks are ready and claimed, and
    since when the oldest one waits.
    """
    parts = await of_each(call, lambda service, _: service.queues(call.principal))
    visible = summed(queue for part in parts.values() for queue in part)
    rows = [json_views.queue(waiting) for waiting in visible]
    return Json({"queues": rows} | unavailable_of(call))


# -- many sagas at once: first a count, then the action


MAX_TARGETS = 1000
"""The maximum number of changes by one request."""
SHOWN = 20
AT_ONCE = 50
Target = tuple[str, str, bool]
"""A saga's key, a step or "", and whether its compensation is the target."""
Action = Callable[[Target], Awaitable[Any]]
SAGAS = Record(
    "SagaFilter", {**filters.SAGAS, **filters.LABELS}, "Selects sagas. Omitted fields select all."
)
STEPS = Record(
    "AttentionFilter",
    {
        **filters.SAGAS,
        **filters.LABELS,
        "kind": Field(Choice(tuple(KINDS[3:])), "only attempts of this kind"),
        "step": Field(Text(max_length=32), "only this step; for a step with items, all of them"),
        "undo": UNDO,
    },
)
RESOLVABLE = Record(
    "ResolvableFilter",
    {
        **filters.SAGAS,
        **filters.LABELS,
        "kind": Field(Choice(tuple(KINDS[:3])), "only entries of this kind"),
    },
)
MODE: Mapping[str, Field] = {
    "dry_run": Field(Flag(), "only count, and change nothing", default=True),
    "count": Field(
        Nullable(Number(0, 10**9, whole=True)),
        "the count of the dry run; required unless this is one",
        default=None,
    ),
    "limit": Field(
        Number(1, MAX_TARGETS, whole=True), "maximum number of changes", default=MAX_TARGETS
    ),
}


def bulk_body(name: str, filter_record: Record, more: Mapping[str, Field]) -> Record:
    """Return the body of a bulk action."""
    return Record(name, {"filter": Field(filter_record), **MODE, **more})


def sagas_of(sagas: Filter) -> Question[tuple[int, list[Target]]]:
    """Count the sagas of a filter without an abort request, and return the first of them."""
    total, keys = yield from lists.to_abort(sagas, MAX_TARGETS)
    return total, [(key, "", False) for key in keys]


def entries_of(
    kind: str, sagas: Filter, step: str | None, undo: bool | None
) -> Question[tuple[int, list[Target]]]:
    """Count the entries of a filter, and return the first. Without a step, each saga once."""
    by_saga = step is None
    total = yield from attention_pages.count(kind, sagas, step, undo, by_saga=by_saga)
    entries = yield from attention_pages.entries(kind, sagas, step, undo, limit=MAX_TARGETS)
    targets: dict[Target, None] = {}
    for entry in entries:
        targets[
            (entry.key, "", False) if by_saga else (entry.key, entry.step or "", entry.undo)
        ] = None
    return total, list(targets)


async def warnings_of(call: Call, sagas: Filter) -> list[str]:
    """Return what may be misspelled in a filter that selects nothing."""
    names = [name for saga in call.service.store.sagas for name, _ in saga.declared_steps]
    step = call.body["filter"].get("step")
    return await call.service.look(names_module.unmatched_warnings(sagas, step, names))


async def count_and_act(
    call: Call,
    sagas: Filter,
    question: Question[tuple[int, list[Target]]],
    action: Action,
    undoing: int = 0,
) -> Response:
    """Count the targets. If it is not a dry run and the count is unchanged, act on each.

    `undoing`: how many are excluded because they undo children or call `on_end`.
    """
    body, (total, targets) = call.body, await call.service.look(question)
    warnings = [] if total else await warnings_of(call, sagas)
    done, refused = 0, list[Any]()
    if not body["dry_run"]:
        if body["count"] is None:
            raise Problem("InvalidRequest", "count: pass the count of the dry run", "count")
        if body["count"] != total:
            raise Problem(
                "CountChanged",
                f"the filter now selects {total} instead of {body['count']}. Nothing was changed; "
                "repeat the dry run",
                "count",
            )
        done, refused = await act_on_each(call.service, targets[: body["limit"]], action)
        verb = call.request.url.path.rpartition("/")[2]
        log_decision(call.principal.name, verb, done, len(refused))
    fields = {
        "count": total,
        "dry_run": body["dry_run"],
        "keys": [key for key, *_ in targets[:SHOWN]],
    }
    left = total - done - len(refused)
    fields |= {"done": done, "refused": refused, "left": max(0, left), "undoing": undoing}
    return Json(fields | {"warnings": warnings})


async def act_on_each(
    service: Service, targets: list[Target], action: Action
) -> tuple[int, list[dict[str, Any]]]:
    """Act on each target, several at once so that they share commits.

    Returns how many were done, and which were refused and why.
    """
    refused: list[dict[str, Any]] = []

    async def act_on(target: Target) -> None:
        try:
            await service.in_time(action(target))
        except SagasError as error:
            refused.append({"key": target[0], "problem": problems.body(problems.of(error))})

    for first in range(0, len(targets), AT_ONCE):
        await asyncio.gather(*map(act_on, targets[first : first + AT_ONCE]))
    service.figures.forget()
    return len(targets) - len(refused), refused


def action_of(
    service: Service, verb: str, options: dict[str, Any], result: Any, error: Any
) -> Action:
    """Return the action on one target. `options`: the name of the principal, and the note."""
    store = service.store

    async def do(target: Target) -> None:
        key, step, undo = target
        if verb == "abort":
            if not await store.abort(key, **options):
                raise StepNotWaiting(f"saga {key!r} has ended, or was aborted before")
        elif verb == "resolve":
            await store.resolve(key, str(options["note"]), by=options["by"])
        elif verb == "compensate":
            await store.compensate(key, step, **options)
        elif verb == "retry":
            await store.retry(key, step, undo=undo, **options)
        elif verb == "done":
            await store.complete(key, step, result, undo=undo, **options)
        else:
            await store.fail(key, step, error, undo=undo, **options)

    return do


def declare_bulk(name: str, body: Record, verb: str, description: str) -> Handler:
    """Declare the route of a bulk action."""

    async def handler(call: Call) -> Response:
        selection, sent = call.body["filter"], call.body
        if selection["labels"] is not None and not selection["labels"]:
            why = "an empty object selects every saga. Leave out the field to do so"
            raise Problem("InvalidRequest", f"filter.labels: {why}", "filter.labels")
        user = Requester(call.principal.name, Way.HTTP, new_bulk())
        options = {"by": user, "note": sent["note"]}
        action = action_of(call.service, verb, options, sent.get("result"), sent.get("error"))
        if "kind" not in selection:
            sagas = filters.of(call.principal, selection, "open")
            undoing = await call.service.look(lists.undoing(sagas))
            return await count_and_act(call, sagas, sagas_of(sagas), action, undoing)
        sagas = filters.of(call.principal, selection)
        entries = entries_of(selection["kind"], sagas, selection.get("step"), selection.get("undo"))
        return await count_and_act(call, sagas, entries, action)

    handler.__doc__ = description
    answer = Answer("What the filter selects, and what was changed.", answers.BULK)
    return routes.post(
        f"/v1/bulk/{name}",
        f"{name}Many",
        permission=Permission.OPERATE,
        body=body,
        answers={200: answer},
        problems=("CountChanged",),
    )(handler)


DRY_RUN_FIRST = (
    "First make a dry run, which is the default. Then send its count with `dry_run` false. One "
    "request changes at most 1,000, the oldest first. Repeat it while `left` is not 0."
)
abort_many = declare_bulk(
    "abort",
    bulk_body("AbortMany", SAGAS, {"note": NOTE}),
    "abort",
    "Abort the open sagas of a filter.\n\nSagas with an earlier abort request, and sagas "
    f"that undo children or call `on_end`, are excluded. {DRY_RUN_FIRST}",
)
resolve_many = declare_bulk(
    "resolve",
    bulk_body("ResolveMany", RESOLVABLE, {"note": NEEDED_NOTE}),
    "resolve",
    f"Mark the sagas of a filter as resolved.\n\n{DRY_RUN_FIRST}",
)
retry_many = declare_bulk(
    "retry",
    bulk_body("RetryMany", STEPS, {"note": NOTE}),
    "retry",
    f"Retry a step of each saga of a filter.\n\n{DRY_RUN_FIRST}",
)
complete_many = declare_bulk(
    "complete",
    bulk_body("CompleteMany", STEPS, {"result": Field(Anything()), "note": NOTE}),
    "done",
    f"Report that a step of each saga of a filter is done.\n\n{DRY_RUN_FIRST}",
)
fail_many = declare_bulk(
    "fail",
    bulk_body("FailMany", STEPS, {"error": ERROR, "note": NOTE}),
    "failed",
    f"Report that a step of each saga of a filter failed permanently.\n\n{DRY_RUN_FIRST}",
)
