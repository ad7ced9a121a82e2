"""Routes for callers and approvers: start, inspect, wait for and abort sagas, and decide
approvals.
"""

from __future__ import annotations

import asyncio
from collections.abc import Callable
from typing import Any, Optional
from urllib.parse import quote

from starlette.requests import Request
from starlette.responses import PlainTextResponse, Response

from sagas.api.run import Run
from sagas.base.errors import DefinitionError, KeyConflict, NoSuchSaga
from sagas.core.decisions import Decision
from sagas.definition import child_sagas, tracing
from sagas.definition.saga import Saga
from sagas.engine.plan import certificate_text
from sagas.inspection import (
    pages,
    picture as picture_module,
    views,
    what_if as what_if_module,
)
from sagas.inspection.wording import StoredValue
from sagas.inspection.views import SagaView
from sagas.server import answers, json_views, renderer, table_rows
from sagas.server.access import (
    SIZE,
    check_definition,
    check_key,
    client_key,
    is_unchanged,
    over_http,
    service_of,
    wait_for,
    waiting,
)
from sagas.server.answers import TIMELINE
from sagas.server.auth import DECISIONS, Permission, Principal
from sagas.server.decision_log import log_decision
from sagas.server.event_stream import Listener, Stream
from sagas.server.json_bodies import Json, parted, tagged
from sagas.server.limits import RequestKind
from sagas.server.middleware import GONE
from sagas.server.operations import Answer, Call, Routes
from sagas.server.problems import Problem
from sagas.server.routes import filters
from sagas.server.routes.filters import CURSOR, LIMIT
from sagas.server.shapes import (
    Anything,
    Choice,
    Field,
    Flag,
    Mapped,
    Nullable,
    Number,
    Record,
    Text,
)

routes = Routes("sagas", "/v1")
LONGEST = 60.0  # seconds that a wait may take
FEW = 16
"""Maximum number of steps of a saga whose answer is serialized at once, if no value is large."""
KEY = Text(max_length=512, min_length=1)
LABELS = Mapped(Text(max_length=256))
VERSION = Nullable(Number(1, 1_000_000_000, whole=True))
MAX_DEADLINE = 100 * 365.25 * 86_400
"""Maximum seconds of a deadline: a hundred years."""
DEADLINE = Nullable(Number(0.0, MAX_DEADLINE))
TRACE = {"traceparent": Field(Text(), "the W3C trace context of its start", default=None)}
NOTE = Field(
    Nullable(Text(max_length=2000)),
    "the reason; stored with the name of the token and the time",
    default=None,
)
UNDO = Field(Flag(), "whether the report is about the compensation", default=False)
EARLY = Field(Flag(), "if the step has not started, store the report until it begins", default=True)
ERROR = Field(Text(max_length=4000), "the reason", example="too expensive")
REPORT = {"undo": UNDO, "early": EARLY, "note": NOTE}
RESTART = Record(
    "RestartRequest",
    {
        "key": Field(KEY, "the key of the new saga, as in `startSaga`"),
        "note": NOTE,
    },
    example={"key": "order-1-2", "note": "back in stock"},
)
START = Record(
    "StartRequest",
    {
        "definition": Field(Text(max_length=64), "the name of the definition"),
        "key": Field(
            KEY,
            "the key of the saga: repeating a start with the same key and input returns the same "
            "saga; only keys of children contain `/:`",
        ),
        "input": Field(Anything(), "the input for its steps", default=None),
        "labels": Field(LABELS, "texts by name, for filters of lists", default=None),
        "version": Field(
            VERSION,
            "the version. If the key has a saga of another version, the response is 409. Default: "
            "the newest for a new saga, and any for an existing one",
            default=None,
        ),
        "deadline": Field(
            DEADLINE,
            "seconds until it is aborted; default: that of its definition. 0 aborts it at once",
            default=None,
        ),
    },
    example={"definition": "trip", "key": "order-1", "input": {"to": "Rome"}},
)
COMPLETE = Record(
    "CompleteRequest",
    {"result": Field(Anything(), "the result, or null"), **REPORT},
    example={"result": {"by": "Ada"}, "note": "within the limit"},
)
FAIL = Record("FailRequest", {"error": ERROR, **REPORT}, example={"error": "too expensive"})
RETRY = Record(
    "RetryRequest", {"undo": UNDO, "note": NOTE}, example={"note": "the bank is available again"}
)
WHY = Record("AbortRequest", {"note": NOTE}, example={"note": "the customer has left"})
SUPPOSE = Record(
    "WhatIfRequest",
    {
        "abort": Field(Flag(), "abort the saga", default=False),
        "fail": Field(Nullable(Text(max_length=32)), "let this step fail", default=None),
    },
    "Exactly one of both.",
    {"abort": True},
)
SAGA = Answer("The saga.", answers.SAGA, headers={"ETag": "changes with the saga"})
DECIDED = {200: Answer("The report is stored.", answers.DECIDED)}


def trace_of(request: Request) -> str | None:
    """Return the trace context of a request's header. An invalid one is ignored, as the standard
    demands.
    """
    headers = request.headers.getlist("traceparent")
    return tracing.read(headers[0]) if len(headers) == 1 else None


async def view_of(call: Call, key: str | None = None) -> SagaView:
    """Return the view of a saga, with its active attempts. Raises `NoSuchSaga`."""
    await call.service.check_sees(call.principal, key or call.key)
    view = there(await call.service.saga(key or call.key), key or call.key)
    return views.seen_by(view, call.principal.scope)


async def kept_of(service: Any, principal: Principal, key: str) -> SagaView:
    """Return the stored view of a saga. Raises `NoSuchSaga`."""
    await service.check_sees(principal, key)
    return there(await service.kept(key), key)


async def answered(call: Call) -> Response:
    """Return the saga's current state as the response. Raises `NoSuchSaga`."""
    view = await view_of(call)

    def answer() -> Response:
        return tagged(call.request, parted(json_views.saga(view), "results"))

    return answer() if is_small(view) else await call.service.threads.answers.do(answer)


def is_small(view: SagaView) -> bool:
    """Return whether the answer takes less time than handing it to a thread."""
    values = (view.input, *view.results.values())
    return len(view.steps) <= FEW and not any(isinstance(value, StoredValue) for value in values)


def there(view: SagaView | None, key: str) -> SagaView:
    """Return the view. Raises `NoSuchSaga` if it is None."""
    if view is None:
        raise NoSuchSaga(f"no saga has the key {key!r}")
    return view


@routes.post(
    "/sagas",
    "startSaga",
    permission=Permission.START,
    body=START,
    headers=TRACE,
    answers={
        201: Answer(
            "The saga was started.", answers.STARTED, headers={"Location": "the path of the saga"}
        ),
        200: Answer("The key already has this saga.", answers.STARTED),
    },
    problems=(
        "NoSuchDefinition",
        "KeyConflict",
        "InvalidKey",
        "InvalidLabel",
        "InvalidInput",
        "NotSerializable",
        "TooLarge",
        "QuotaExceeded",
        "StartsPaused",
        "OwnerUnavailable",
    ),
)
async def start(call: Call) -> Response:
    """Start a saga.

    The saga is stored before the response is sent. Repeat the request until it is answered. The
    response has the version of the stored saga.
    """
    key, name = call.body["key"], call.body["definition"]
    check_definition(call.principal, name)
    check_new_key(call.principal, key)
    saga = call.service.saga_named(call.principal, name, call.body["version"])
    arguments = [call.body[field] for field in ("input", "labels", "deadline")]
    arguments.append(trace_of(call.request))
    size: int = call.request.scope[SIZE]
    run = await call.service.start(call.principal, size, saga, key, *arguments)
    version = saga.version if run.new else await call.service.version_of(key, saga.version)
    if call.body["version"] not in (None, version):
        raise KeyConflict(
            f"the key {key!r} belongs to a saga of version {version}, not {call.body['version']}. "
            "Use another key, or leave out the version"
        )
    return started(saga, run, version)


@routes.post(
    "/sagas/{key}/restart",
    "restartSaga",
    permission=DECISIONS[Decision.RESTART],
    body=RESTART,
    answers={
        201: Answer(
            "The new saga was started.",
            answers.STARTED,
            headers={"Location": "the path of the new saga"},
        ),
        200: Answer("The saga was already restarted under this key.", answers.STARTED),
    },
    problems=(
        "NoSuchSaga",
        "NoSuchDefinition",
        "NotRestartable",
        "KeyConflict",
        "InvalidKey",
        "InvalidInput",
        "TooLarge",
        "QuotaExceeded",
        "StartsPaused",
        "OwnerUnavailable",
    ),
)
async def restart(call: Call) -> Response:
    """Start an ended saga again, under a new key.

    The new saga has the input and labels of the old one, and its definition as the service has it
    today, in the same version. The old saga is stuck, recovered or resolved, and stays unchanged.
    The two refer to one another. Repeat the request until it is answered.
    """
    new_key = call.body["key"]
    check_new_key(call.principal, new_key)
    saga, run = await call.service.restart(
        call.principal, call.key, new_key, over_http(call.principal), call.body["note"]
    )
    log_decision(call.principal.name, Decision.RESTART)
    return started(saga, run, saga.version)


def check_new_key(principal: Principal, key: str) -> None:
    """Raise `Problem` if the token may not start a saga with this key, or no URL can have it."""
    if key in (".", ".."):
        raise Problem(
            "InvalidKey", f"the key {key!r} cannot be used in a URL: use another key", "key"
        )
    check_key(principal, key)


def started(saga: Saga[Any], run: Run, version: int) -> Response:
    """Return the response to a start."""
    fields = {"key": run.key, "definition": saga.name, "version": version, "new": run.new}
    location = f"/v1/sagas/{quote(run.key, safe='')}"
    return Json(fields, 201 if run.new else 200, {"Location": location})


@routes.get(
    "/sagas",
    "listSagas",
    permission=Permission.LOOK,
    query=filters.SAGAS
    | filters.MORE
    | {
        "phase": Field(
            Choice((*answers.PHASES, "undo_failed")),
            "only sagas in this phase; `undo_failed`: recovered ones with a permanently failed "
            "compensation",
            default=None,
        ),
        "after": Field(CURSOR, "`next` of the previous page", default=None),
        "limit": LIMIT,
    },
    answers={200: Answer("A page of sagas.", answers.PAGE)},
)
async def listed(call: Call) -> Response:
    """List sagas, newest first.

    Returns a page of sagas of the definitions that the token may see.
    """
    query = call.query
    limit, before = query["limit"], filters.position_of(query["after"])
    page = pages.page(
        before=before, limit=limit, of=filters.of(call.principal, query, query["phase"])
    )
    summaries = await call.service.look(page)
    last = pages.position_of(summaries[-1]) if len(summaries) == limit else None
    more = last and filters.cursor_of(last)
    return Json({"sagas": [json_views.summary(summary) for summary in summaries], "next": more})


@routes.get(
    "/sagas/{key}",
    "getSaga",
    permission=Permission.LOOK,
    answers={200: SAGA},
    problems=("NoSuchSaga",),
)
async def get(call: Call) -> Response:
    """Get a saga.

    A step is `running` if it is being called or a worker has it. It is `begun` if it waits, or
    the service does not know. With `If-None-Match`, the response is 304 if nothing has changed.
    """
    return await answered(call)


@routes.get(
    "/sagas/{key}/wait",
    "waitForSaga",
    permission=Permission.LOOK,
    query={"seconds": Field(Number(0.0, LONGEST), "maximum seconds to wait", default=30.0)},
    answers={200: SAGA},
    problems=("NoSuchSaga", "Unauthorized", "RightsChanged", "TooManyWaits"),
)
async def wait(call: Call) -> Response:
    """Wait until a saga is over.

    Returns the same as `getSaga` when the saga is over or the time has passed; `over` says
    which. Any further data from the client ends the wait.
    """
    await call.service.check_sees(call.principal, call.key)
    with waiting(call.request, call.principal, RequestKind.WAIT):
        ending = asyncio.ensure_future(call.service.store._over(call.key))
        if await wait_for(call.request, call.principal, ending, call.query["seconds"]):
            ending.result()  # raises if the saga does not exist
    if call.request.scope[GONE].done():
        return Response()  # the client is gone
    return await answered(call)


@routes.post(
    "/sagas/{key}/abort",
    "abortSaga",
    permission=DECISIONS[Decision.ABORT],
    body=WHY,
    answers={200: Answer("Whether it was aborted now.", answers.ABORTED)},
    problems=("NoSuchSaga", "NotAbortable", "OwnerUnavailable"),
)
async def abort(call: Call) -> Response:
    """Abort a saga.

    No further step starts, and the saga is undone by a least-cost plan. A saga that undoes a
    child, or calls `on_end`, cannot be aborted.
    """
    service, note = call.service, call.body["note"]
    await service.check_sees(call.principal, call.key)
    done = await service.in_time(
        service.store.abort(call.key, by=over_http(call.principal), note=note)
    )
    log_decision(call.principal.name, Decision.ABORT, int(done), int(not done))
    return Json({"key": call.key, "aborted": done})


@routes.post(
    "/sagas/{key}/what-if",
    "whatIf",
    permission=Permission.LOOK,
    body=SUPPOSE,
    answers={200: Answer("The plan, which is not executed.", answers.WHAT_IF)},
    problems=("NoSuchSaga", "SagaOver", "NotAbortable"),
)
async def what_if(call: Call) -> Response:
    """Compute what an abort, or a failure of a step, would cost now.

    Nothing is changed. Running steps are assumed to succeed. Steps that wait and were not
    called are given up. `assumed` has the state of each step.
    """
    suppose, step = call.body, call.body["fail"]
    if suppose["abort"] == (step is not None):
        raise Problem("InvalidRequest", 'pass either {"abort": true} or {"fail": STEP}', "abort")
    view = await view_of(call)
    if view.phase != "open":
        raise Problem("SagaOver", f"saga {call.key!r} is {view.phase}: there is nothing to plan")
    if suppose["abort"]:
        child_sagas.check_abortable(call.key)

    def answer() -> Response:
        try:
            forecast = what_if_module.of(view, abort=suppose["abort"], failed=step)
        except ValueError as error:
            raise Problem("InvalidRequest", f"fail: {error}", "fail") from None
        return Json(json_views.what_if(forecast))

    return await call.service.threads.answers.do(answer)


@routes.get(
    "/sagas/{key}/picture.svg",
    "getPicture",
    permission=Permission.LOOK,
    problems=("NoSuchSaga",),
    query={"unfold": table_rows.UNFOLD},
    answers={200: Answer("An SVG picture.", media_type="image/svg+xml")},
)
async def picture(call: Call) -> Response:
    """Get a picture of a saga.

    It shows the steps with their states, and what the plan keeps and why. The items of a step,
    and the steps of an included saga, are one box.
    """
    view, unfold = await view_of(call), table_rows.names_in(call.query["unfold"])
    return Response(
        await call.service.threads.answers.do(
            lambda: renderer.encoded(picture_module.document(view, unfold))
        ),
        media_type="image/svg+xml",
        headers={"Content-Security-Policy": "default-src 'none'; style-src 'unsafe-inline'"},
    )


@routes.get(
    "/sagas/{key}/certificate",
    "getCertificate",
    permission=Permission.LOOK,
    problems=("NoSuchSaga", "NoPlan"),
    query={"form": Field(Choice(("json", "text")), "the format of the response", default="json")},
    answers={
        200: Answer(
            "Definition, case and answer; with `form=text` as plain text.",
            answers.CERTIFICATE,
            or_text=True,
        )
    },
)
async def certificate(call: Call) -> Response:
    """Get what `sagas check` needs to verify the plan.

    As text, it is the standard input of `sagas check`.
    """
    view = await kept_of(call.service, call.principal, call.key)
    if view.plan is None:
        raise Problem(
            "NoPlan", f"saga {view.key!r} has no plan: no step has failed, and it was not aborted"
        )
    if call.query["form"] == "text":
        return PlainTextResponse(certificate_text(view.plan))
    return Json(json_views.certificate(view.plan))


@routes.get(
    "/sagas/{key}/export",
    "exportSaga",
    permission=Permission.LOOK,
    problems=("NoSuchSaga",),
    answers={200: Answer("The saga.", answers.EXPORT)},
)
async def export(call: Call) -> Response:
    """Get all that is stored of a saga, with its definition and its log.

    The planner page replays it event by event.
    """
    view, now = await view_of(call), call.service.store._now()
    return await call.service.threads.answers.do(lambda: Json(json_views.export(view, now)))


async def check_reports(call: Call, key: str, step: str, undo: bool) -> None:
    """Raise `Problem` if the principal may not report this step."""
    principal = call.principal
    await call.service.check_sees(principal, key)
    if principal.has_permission(Permission.OPERATE):
        return
    try:
        why = f"{step[:64]!r} is not an approval: only an operator can report other steps"
        is_approval = not undo and await call.service.is_approval(key, step)
    except DefinitionError as error:
        is_approval, why = False, f"{error}. Use a service that has it"
    if not is_approval:
        raise Problem("Forbidden", f"{principal.name} is an approver: {why}")


async def decided(call: Call, outcome: str, value: Any) -> Response:
    """Report how a step ended."""
    step, body, store = call.path["step"], call.body, call.service.store
    await check_reports(call, call.key, step, body["undo"])
    options = {name: body[name] for name in ("undo", "early", "note") if name in body}
    options["by"] = over_http(call.principal)
    commands: dict[str, Any] = {
        "complete": store.complete,
        "fail": store.fail,
        "retry": store.retry,
    }
    value = () if outcome == "retry" else (value,)
    await call.service.in_time(commands[outcome](call.key, step, *value, **options))
    log_decision(call.principal.name, outcome)
    return Json({"key": call.key, "step": step, "kept": True})


@routes.post(
    "/sagas/{key}/steps/{step}/complete",
    "completeStep",
    permission=DECISIONS[Decision.COMPLETE],
    body=COMPLETE,
    answers=DECIDED,
    problems=(
        "NoSuchSaga",
        "StepNotWaiting",
        "ConflictingReport",
        "NotSerializable",
        "InvalidResult",
        "OwnerUnavailable",
    ),
)
async def complete(call: Call) -> Response:
    """Report that a step is done.

    Approvers can report approvals. Operators can also report steps with an unknown outcome, and
    tasks that no worker claims. If an approval or a worker's step has not started, the report is
    stored until it begins. The result of a step that starts a child must have the key of a
    child that this step started, or a null key if there is nothing to undo.
    """
    return await decided(call, "complete", call.body["result"])


@routes.post(
    "/sagas/{key}/steps/{step}/fail",
    "failStep",
    permission=DECISIONS[Decision.FAIL],
    body=FAIL,
    answers=DECIDED,
    problems=("NoSuchSaga", "StepNotWaiting", "ConflictingReport", "OwnerUnavailable"),
)
async def fail(call: Call) -> Response:
    """Report that a step failed permanently.

    The same rules as for `completeStep` apply. An approval is rejected.
    """
    return await decided(call, "fail", call.body["error"])


@routes.post(
    "/sagas/{key}/steps/{step}/retry",
    "retryStep",
    permission=DECISIONS[Decision.RETRY],
    body=RETRY,
    answers=DECIDED,
    problems=("NoSuchSaga", "StepNotWaiting", "OwnerUnavailable"),
)
async def retry(call: Call) -> Response:
    """Retry a step.

    The attempts of the step, or of its compensation, are used up, or its outcome is unknown.
    The same attempt is repeated at once, with its idempotency key.
    """
    return await decided(call, "retry", None)


@routes.get(
    "/events",
    "followEvents",
    permission=Permission.LOOK,
    streams=True,
    problems=("TooManyStreams",),
    query={
        "key": Field(Text(max_length=512), "only events of this saga", default=None),
        "definition": Field(Text(max_length=64), "only events of this definition", default=None),
    },
    answers={200: Answer("Server-sent events.", media_type="text/event-stream")},
)
async def events(call: Call) -> Response:
    """Follow events, as server-sent events.

    The stream begins now, or after the event in the header `Last-Event-ID`. It has events of
    the definitions that the token may see. An event `missed` says that some events are no
    longer stored: read the sagas themselves.
    """
    check_definition(call.principal, call.query["definition"], starts=False)
    listener = Listener(call.query["key"], call.query["definition"], call.principal.sees_event)
    return stream(
        call.request,
        call.principal,
        listener,
        None,
        lambda: is_unchanged(call.request, call.principal),
    )


def stream(
    request: Request,
    principal: Principal,
    listener: Listener,
    since: Optional[str],
    still: Callable[[], bool],
    dashboard: bool = False,
) -> Response:
    """Return the hub's stream, after `since` if the client names no event, while `still()` is
    true.

    Raises `Problem` if there are too many streams.
    """
    service, name = service_of(request), client_key(request, principal)
    if full := service.streams.full(name, dashboard):
        raise Problem("TooManyStreams", full)
    last = request.headers.get("last-event-id") or since
    return Stream(service.hub.stream(listener, last, still), service.streams.take(name, dashboard))


# -- history


@routes.get(
    "/sagas/{key}/log",
    "getHistory",
    permission=Permission.LOOK,
    problems=("NoSuchSaga",),
    answers={200: Answer("The events of the saga, in order.", answers.HISTORY)},
)
async def log(call: Call) -> Response:
    """Get the history of a saga.

    Returns each event with its time and result, the commands of operators, and the repeated calls
    of attempts.
    """
    view, now = await kept_of(call.service, call.principal, call.key), call.service.store._now()
    return await call.service.threads.answers.do(
        lambda: parted({"events": json_views.log(view, now)}, "events")
    )


@routes.get(
    "/sagas/{key}/timeline",
    "getTimeline",
    permission=Permission.LOOK,
    problems=("NoSuchSaga",),
    answers={200: Answer("The attempts of the saga, in the order of their starts.", TIMELINE)},
)
async def timeline(call: Call) -> Response:
    """Get when each attempt of a saga was queued, ran, waited and backed off.

    Returns also each call with its node, the workers that had it, and the decisions of operators
    with their reasons.
    """
    view, now = await view_of(call), call.service.store._now()
    return await call.service.threads.answers.do(lambda: Json(json_views.timeline(view, now)))
