"""Routes of workers: claim, heartbeat, report."""

from __future__ import annotations

import asyncio
import contextlib
import dataclasses
import functools
import re
from collections.abc import Callable
from typing import Any

from starlette.responses import Response

from sagas.base.errors import CannotDecode, SagasError
from sagas.definition.serialization import is_deeper
from sagas.runtime.leased_tasks import LeasedTask, Word
from sagas.server import answers, json_views, problems
from sagas.server.access import check_steps, wait_for, waiting
from sagas.server.auth import Permission
from sagas.server.json_bodies import Json, parted, times
from sagas.server.limits import RequestKind
from sagas.server.middleware import GONE
from sagas.server.operations import Answer, Call, Routes
from sagas.server.problems import Problem
from sagas.server.siblings import ProcessQuestion
from sagas.server.shapes import (
    Anything,
    Choice,
    Field,
    Flag,
    Nullable,
    Number,
    Record,
    Several,
    Text,
)
from sagas.server.threads import LARGE

routes = Routes("workers", "/v1/tasks")
NAME = "[a-z][a-z0-9_-]{0,31}"
STEP_NAME = re.compile(rf"({NAME})/((?:{NAME}/)*?{NAME})(/undo)?\Z")
HEARTBEATS = 3
"""How many heartbeats fit into a lease, so that two of them may be lost."""
MAX_WRITTEN = 512
"""Maximum levels of a stored value in an answer. Results of children, which contain results of
their children, may have more levels than inputs.
"""
PATIENCE = 25.0
"""Seconds that a claim may take in addition to its wait for tasks."""


def parse_steps(steps: list[str], path: str = "steps") -> list[Word]:
    """Return the requested steps. Raises `Problem`."""
    steps_read: list[Word] = []
    for number, step in enumerate(steps):
        parsed = _parse_step(step)
        if parsed is None:
            location = f"{path}.{number}"
            raise Problem(
                "InvalidRequest",
                f"{location}: {step[:80]!r} must be DEFINITION/STEP or DEFINITION/STEP/undo",
                location,
            )
        steps_read.append(parsed)
    return steps_read


@functools.lru_cache(1000)  # workers ask for the same again
def _parse_step(step: str) -> Word | None:
    answer_fields = STEP_NAME.match(step)
    return (
        (answer_fields[1], answer_fields[2], "undo" if answer_fields[3] else "run")
        if answer_fields
        else None
    )


@dataclasses.dataclass(frozen=True, slots=True)
class Claimed:
    """The answer to a claim: its tasks, and further fields."""

    tasks: list[LeasedTask]
    more: dict[str, Any]
    now: float

    @property
    def is_large(self) -> bool:
        """Return whether its values take long to serialize."""
        return sum(task.size for task in self.tasks) > LARGE

    def answer_fields(self) -> dict[str, Any]:
        """Return the answer as JSON."""
        return {"tasks": [json_views.task(task, self.now) for task in self.tasks], **self.more}


def _texts(leased: LeasedTask) -> list[str]:
    """Return the stored values of a task."""
    texts = leased.task._portable
    return [leased.given, texts["input"], texts["result"] or "", *texts["results"].values()]


async def claim_tasks(call: Call, body: dict[str, Any]) -> Claimed:
    """Claim tasks while the client is connected. Returns none if the service is about to stop."""
    tasks = await _await_claim(call, body, body["limit"], body["wait"])
    return _answer(call, body, await _handed(call, tasks))


async def answered(
    call: Call, made: Callable[[Any], Any], claim: Claimed | None, *path: str
) -> Response:
    """Return the response that `made` builds from a claim, which is at this path of it.

    A task that cannot be serialized is set aside, so that it does not block others.
    """
    if claim is None:
        return Json(made(None))
    if not any(map(_is_too_deep, claim.tasks)):
        with contextlib.suppress(CannotDecode):
            return await _written(call, made, claim, *path)
    return await _written(call, made, await _writable(call, claim), *path)


def _is_too_deep(task: LeasedTask) -> bool:
    """Return whether a task has too many levels for an answer."""
    return any(is_deeper(text, MAX_WRITTEN) for text in _texts(task))


async def _written(call: Call, made: Callable[[Any], Any], claim: Claimed, *path: str) -> Response:
    if not claim.is_large:
        return Json(made(claim.answer_fields()))
    body_of_claim = claim.answer_fields
    return await call.service.threads.answers.do(
        lambda: parted(made(body_of_claim()), *path, "tasks", "*", "results")
    )


async def _writable(call: Call, claim: Claimed) -> Claimed:
    """Return the claim without tasks that cannot be serialized, which are set aside."""
    tasks: list[LeasedTask] = []
    for task in claim.tasks:
        try:
            if _is_too_deep(task):
                raise CannotDecode(f"it has more than {MAX_WRITTEN} levels of lists and objects")
            json_views.task(task, claim.now)
            tasks.append(task)
        except CannotDecode as error:
            workers = call.service.store.workers
            await workers.set_aside(task, str(error), holder=call.principal.name)
    return dataclasses.replace(claim, tasks=tasks)


class NextClaim:
    """A claim that is made together with reports.

    It begins when the last report is stored. In the meantime, the reports become part of their
    sagas. A second claim takes tasks that are offered because of them, up to the limit. Tasks
    that the client does not receive are released.
    """

    def __init__(self, call: Call, body: dict[str, Any] | None, reports: int = 1) -> None:
        """`body`: the claim, or None. `reports`: how many reports come first."""
        self._call, self._body, self._missing = call, body, reports
        self._claiming: asyncio.Task[list[LeasedTask]] | None = None
        self._tasks: list[LeasedTask] = []

    async def __aenter__(self) -> NextClaim:
        return self

    async def __aexit__(self, fault: type[BaseException] | None, *_: object) -> None:
        if fault is None:
            return
        if self._claiming is not None:
            self._claiming.cancel()
            with contextlib.suppress(asyncio.CancelledError, Exception):
                self._tasks = await self._claiming
        await _give_back(self._call, self._tasks)

    def stored(self) -> None:
        """Record that a report is stored."""
        self._missing -= 1
        if self._body is None or self._missing:
            return
        if not self._call.service.is_stopping and not _is_gone(self._call):
            self._claiming = _claim(self._call, self._body, self._body["limit"], 0.0)

    async def answer(self) -> Claimed | None:
        """Return the result of the claim, once the reports are stored."""
        if self._body is None:
            return None
        call, body = self._call, self._body
        if self._claiming is not None:
            if not await _is_over(call, self._claiming, 0.0):
                return _answer(call, body, [])
            claiming, self._claiming = self._claiming, None
            self._tasks = claiming.result()
        if not self._tasks:
            with contextlib.ExitStack() as stack:
                wait = body["wait"]
                try:
                    stack.enter_context(waiting(call.request, call.principal, RequestKind.CLAIM))
                except Problem:  # the report is stored: it is answered now
                    wait = 0.0
                self._tasks = await _await_claim(call, body, body["limit"], wait)
        elif len(self._tasks) < body["limit"]:
            with contextlib.suppress(SagasError):  # the client gets those that it has
                self._tasks += await _await_claim(call, body, body["limit"] - len(self._tasks), 0.0)
        return _answer(call, body, await _handed(call, self._tasks))


def _is_gone(call: Call) -> bool:
    """Return whether the client is gone."""
    is_gone: bool = call.request.scope[GONE].done()
    return is_gone


async def _handed(call: Call, tasks: list[LeasedTask]) -> list[LeasedTask]:
    """Return the tasks for the client. If it is gone, release them for others."""
    if not _is_gone(call):
        return tasks
    await _give_back(call, tasks)
    return []


async def _give_back(call: Call, tasks: list[LeasedTask]) -> None:
    with contextlib.suppress(SagasError):  # then the leases end by themselves
        await call.service.store.workers.give_back(tasks, holder=call.principal.name)


def worker_of(call: Call, body: dict[str, Any]) -> str:
    """Return the name of a worker: that of its token, and its own."""
    return f"{call.principal.name}/{body['worker']}" if body["worker"] else call.principal.name


def _claim(
    call: Call, body: dict[str, Any], limit: int, wait: float
) -> asyncio.Task[list[LeasedTask]]:
    service, name = call.service, worker_of(call, body)
    service.saw(name, body["steps"])
    work = service.store.workers.claim(
        parse_steps(body["steps"]),
        limit=limit,
        wait=wait,
        lease=body["lease"],
        worker=name,
        holder=call.principal.name,
    )
    return asyncio.get_running_loop().create_task(work)


async def _is_over(
    call: Call, claiming: asyncio.Task[list[LeasedTask]], wait: float, *ends: asyncio.Future[None]
) -> bool:
    """Return whether a claim finished while the client was connected and before any of the `ends`.

    Otherwise, it is cancelled.
    """
    return claiming.done() or await wait_for(
        call.request, call.principal, claiming, wait + PATIENCE, *ends
    )


async def _await_claim(
    call: Call, body: dict[str, Any], limit: int, wait: float
) -> list[LeasedTask]:
    if call.service.is_stopping:
        return []
    claiming = _claim(call, body, limit, wait)
    with call.service.claims.waiting(worker_of(call, body)) as end:
        return claiming.result() if await _is_over(call, claiming, wait, end) else []


def _answer(call: Call, body: dict[str, Any], tasks: list[LeasedTask]) -> Claimed:
    more = {
        "heartbeat_seconds": round(body["lease"] / HEARTBEATS, 3),
        "repeat_statuses": problems.REPEAT,
        "unknown_steps": sorted(set(body["steps"]) - call.service.task_names()),
    }
    return Claimed(tasks, more, call.service.store._now())


# -- claims, heartbeats and reports of one task


LONGEST_LEASE = 3600.0
CLAIM = {
    "steps": Field(
        Several(Text(max_length=200), min_items=1, max_items=1000),
        "the steps to claim: `trip/car`, `trip/car/undo`, or `trip/hotel/room` in an included saga",
    ),
    "limit": Field(Number(1, 100, whole=True), "maximum number of tasks", default=1),
    "wait": Field(Number(0.0, 30.0), "seconds to wait for a task", default=30.0),
    "lease": Field(
        Number(0.5, LONGEST_LEASE),
        "seconds after which another worker may claim a task",
        default=30.0,
    ),
    "worker": Field(Text(max_length=64), "the worker's name", default=""),
}
END = Record(
    "EndClaimsRequest",
    {"worker": Field(Text(max_length=64), "the worker's name, as in its claims", default="")},
    example={"worker": "host-7"},
)
ENDED = Record("EndedClaims", {"ended": Field(answers.COUNT, "how many claims were ended")})
CLAIM_REQUEST = Record(
    "ClaimRequest", CLAIM, example={"steps": ["trip/car", "trip/car/undo"], "wait": 20, "lease": 30}
)
NEXT = Record(
    "NextClaim",
    CLAIM | {"wait": Field(Number(0.0, 30.0), "seconds to wait for a task", default=0.0)},
    "A claim that is made with a report, so that each task needs only one request.",
)
LEASE = {"lease": Field(Text(max_length=100), "the lease of the task", example="1.c0ffee")}
MORE = {"next": Field(Nullable(NEXT), "a claim that is made with the report", default=None)}
EXAMPLE = {"lease": "1.c0ffee"}
HEARTBEAT = Record(
    "HeartbeatRequest",
    LEASE
    | {
        "seconds": Field(
            Number(0.5, LONGEST_LEASE), "seconds from now until the lease expires", default=30.0
        ),
        "progress": Field(
            Nullable(Number(0.0, 1.0)), "the progress of the task, from 0 to 1", default=None
        ),
        "detail": Field(Nullable(Text(max_length=200)), "a text about the progress", default=None),
    },
    example=EXAMPLE,
)
COMPLETE = Record(
    "CompleteTaskRequest",
    LEASE | {"result": Field(Anything(), "the result of the step", default=None)} | MORE,
    "The step had its effect, or the compensation is done.",
    EXAMPLE | {"result": {"id": 7}},
)
FAIL = Record(
    "FailTaskRequest",
    LEASE
    | {
        "error": Field(Text(max_length=4000), "the reason"),
        "final": Field(Flag(), "no further attempt will help", default=False),
    }
    | MORE,
    "There was no effect.",
    EXAMPLE | {"error": "the hotel is full"},
)
UNKNOWN = Record(
    "UnknownTaskRequest",
    LEASE
    | {
        "error": Field(Text(max_length=4000), "the reason", default=""),
        "program_error": Field(
            Flag(),
            "the worker's program has a bug, so no call is made until a retry",
            default=False,
        ),
    }
    | MORE,
    "The outcome is unknown: there may have been an effect.",
    EXAMPLE | {"error": "the connection was lost"},
)
CLAIMED_EXAMPLE = {
    "tasks": [],
    "heartbeat_seconds": 10.0,
    "repeat_statuses": problems.REPEAT,
    "unknown_steps": [],
}
REPORTED = {200: Answer("The report is stored.", answers.REPORTED)}
OF_LEASES = ("NoSuchTask", "InvalidLease", "LeaseLost", "OwnerUnavailable")


@routes.post(
    "/claim",
    "claimTasks",
    permission=Permission.WORK,
    body=CLAIM_REQUEST,
    answers={200: Answer("The tasks.", answers.CLAIMED, example=CLAIMED_EXAMPLE)},
    problems=("Stopping", "RightsChanged", "TooManyWaits"),
)
async def claim(call: Call) -> Response:
    """Claim tasks.

    Returns the tasks that have waited longest, or none if no task arrives in time. Leases are
    stored before the response is sent. If the token may not claim one of the steps, the
    response is 403.
    """
    parse_steps(call.body["steps"])
    check_steps(call.principal, call.body["steps"], call.service.ended_definitions)
    if call.service.is_stopping:
        raise Problem("Stopping", "the service is stopping: retry later")
    with waiting(call.request, call.principal, RequestKind.CLAIM):
        tasks = await claim_tasks(call, call.body)
    return await answered(call, lambda claimed_tasks: claimed_tasks, tasks)


@routes.post(
    "/claim/end",
    "endClaims",
    permission=Permission.WORK,
    body=END,
    answers={200: Answer("The claims are ended.", ENDED, example={"ended": 1})},
)
async def end(call: Call) -> Response:
    """End claims that wait.

    For a worker that stops: this service answers the waiting claims of this token with this
    `worker` at once, without tasks.
    """
    worker, siblings = worker_of(call, call.body), call.service.settings.siblings
    ended = call.service.claims.end(worker)
    if siblings:
        with contextlib.suppress(TimeoutError):
            ended += sum(filter(None, await siblings.ask(ProcessQuestion.END_CLAIMS, worker)))
    return Json({"ended": ended})


@routes.post(
    "/{attempt_id}/heartbeat",
    "heartbeat",
    permission=Permission.WORK,
    body=HEARTBEAT,
    problems=OF_LEASES,
    answers={200: Answer("The lease is extended.", answers.HELD)},
)
async def heartbeat(call: Call) -> Response:
    """Extend a lease.

    If `cancelled` is set, the saga is being undone: stop if possible, and report how the task
    ended. 409 `LeaseLost`: another worker has the task, or its outcome was reported, so stop.
    403 `InvalidLease`: the lease was not issued to this worker.
    """
    body = call.body
    kept = await call.service.store.workers.heartbeat(
        call.path["attempt_id"],
        body["lease"],
        body["seconds"],
        holder=call.principal.name,
        progress=body["progress"],
        detail=body["detail"],
    )
    return Json({**times(until=kept.until), "cancelled": kept.cancelled})


def check_next(call: Call, more: dict[str, Any] | None) -> None:
    """Raise `Problem` if the next claim is not allowed, before a report is stored."""
    if more is not None:
        parse_steps(more["steps"], "next.steps")
        check_steps(call.principal, more["steps"], call.service.ended_definitions)


async def _report(call: Call, **outcome: Any) -> Response:
    """Store the report, and then make the next claim."""
    body, more = call.body, call.body["next"]
    check_next(call, more)
    async with NextClaim(call, more) as claim:
        kept = await call.service.store.workers.report(
            call.path["attempt_id"],
            body["lease"],
            holder=call.principal.name,
            stored=claim.stored,
            **outcome,
        )
        fields = {"kept": True, "repeated": not kept}
        claimed = await claim.answer()
        return await answered(call, lambda next: {**fields, "next": next}, claimed, "next")


@routes.post(
    "/{attempt_id}/complete",
    "completeTask",
    permission=Permission.WORK,
    body=COMPLETE,
    answers=REPORTED,
    problems=(*OF_LEASES, "ConflictingReport", "NotSerializable"),
)
async def complete(call: Call) -> Response:
    """Report that a task is done.

    The report counts under any lease that this worker had for the task. Repeating the same
    report has no effect. 409 `ConflictingReport`: another report came first. 409 `LeaseLost`:
    an operator must report how the task ended.
    """
    return await _report(call, result=call.body["result"])


@routes.post(
    "/{attempt_id}/fail",
    "failTask",
    permission=Permission.WORK,
    body=FAIL,
    answers=REPORTED,
    problems=(*OF_LEASES, "ConflictingReport"),
)
async def fail(call: Call) -> Response:
    """Report that a task had no effect.

    The report counts only under the newest lease. Otherwise, the response is 409 `LeaseLost`.
    """
    return await _report(call, error=call.body["error"], final=call.body["final"])


@routes.post(
    "/{attempt_id}/unknown",
    "unknownTask",
    permission=Permission.WORK,
    body=UNKNOWN,
    answers=REPORTED,
    problems=(*OF_LEASES, "ConflictingReport"),
)
async def unknown(call: Call) -> Response:
    """Report that the outcome is unknown.

    The report counts only under the newest lease. Otherwise, the response is 409 `LeaseLost`.
    The same task is offered again after its back-off, or an operator must report it. With
    `program_error` it waits until an operator retries or reports it.
    """
    body = call.body
    unknown = body["error"] or "the worker does not know"
    return await _report(call, unknown=unknown, program_error=body["program_error"])


# -- several reports in one request


MAX_REPORTS = 100
"""The maximum number of reports in one request."""
REPORT = Record(
    "TaskReport",
    {
        "attempt_id": Field(Text(max_length=130), "the attempt id of the task"),
        **LEASE,
        "outcome": Field(
            Choice(("complete", "fail", "unknown")), "the same as the requests for one task"
        ),
        "result": Field(Anything(), "for `complete`: the result of the step", default=None),
        "error": Field(
            Nullable(Text(max_length=4000)), "for `fail` and `unknown`: the reason", default=None
        ),
        "final": Field(Flag(), "for `fail`: no further attempt will help", default=False),
        "program_error": Field(
            Flag(), "for `unknown`: the worker's program has a bug", default=False
        ),
    },
)
REPORTS = Record(
    "TaskReports",
    {
        "reports": Field(
            Several(REPORT, min_items=1, max_items=MAX_REPORTS),
            "the reports; each counts as if it was sent alone",
        ),
        **MORE,
    },
    example={
        "reports": [
            {"attempt_id": "c0ffee-1-car-run-1", "lease": "1.c0ffee", "outcome": "complete"}
        ]
    },
)


def outcome_of(report: dict[str, Any], index: int) -> dict[str, Any]:
    """Return how a task ended, as arguments for the store. Raises `Problem`."""
    outcome, error = report["outcome"], report["error"]
    if outcome == "complete":
        return {"result": report["result"]}
    if outcome == "unknown":
        unknown = error or "the worker does not know"
        return {"unknown": unknown, "program_error": report["program_error"]}
    if error is None:
        location = f"reports.{index}.error"
        raise Problem("InvalidRequest", f"{location}: is required", location)
    return {"error": error, "final": report["final"]}


async def _store_report(
    call: Call, claim: NextClaim, report: dict[str, Any], outcome: dict[str, Any]
) -> dict[str, Any]:
    """Store one report, and return the answer to it."""
    attempt_id = report["attempt_id"]
    fields: dict[str, Any] = {"attempt_id": attempt_id, "kept": True, "repeated": False}
    try:
        kept = await call.service.store.workers.report(
            attempt_id, report["lease"], holder=call.principal.name, stored=claim.stored, **outcome
        )
    except SagasError as error:
        return {**fields, "kept": False, "problem": problems.body(problems.of(error))}
    return {**fields, "repeated": not kept, "problem": None}


@routes.post(
    "/report",
    "reportTasks",
    permission=Permission.WORK,
    body=REPORTS,
    answers={200: Answer("The results of the reports, in their order.", answers.REPORTED_TASKS)},
)
async def report(call: Call) -> Response:
    """Report several tasks.

    Each report counts as if it was sent alone, and has its own problem if it is not stored.
    Repeat the reports whose problem has a repeatable status.
    """
    body, more = call.body, call.body["next"]
    outcomes = [outcome_of(entry, index) for index, entry in enumerate(body["reports"])]
    check_next(call, more)
    async with NextClaim(call, more, len(outcomes)) as claim:
        stored = (_store_report(call, claim, *entry) for entry in zip(body["reports"], outcomes))
        answers_of_reports = await asyncio.gather(*stored)
        claimed = await claim.answer()
        return await answered(
            call, lambda next: {"reports": answers_of_reports, "next": next}, claimed, "next"
        )
