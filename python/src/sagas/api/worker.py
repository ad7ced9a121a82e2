"""A worker over HTTP: it claims tasks, calls functions and reports outcomes.

    worker = sagas.Worker("http://127.0.0.1:8080", token="...")

    @worker.step("trip", "car")
    def car(task):
        return cars.book(task.input["car"], key=task.idempotency_key)

    worker.run()

It needs only the standard library. A function has the same meaning as in a store. It returns, or
raises (it had no effect), or raises `Fail`. If it raises `Unknown`, or after a timeout or a lost
connection, the outcome is unknown.
"""

from __future__ import annotations

import asyncio
import contextlib
import dataclasses
import enum
import inspect
import itertools
import json
import logging
import os
import queue
import signal
import socket
import threading
import time
from collections import deque
from collections.abc import Callable, Coroutine, Iterator, Sequence
from typing import Any, TypeVar

from sagas.api.service_connection import REPEAT, ServiceConnection, ServiceRefused, is_final
from sagas.base.errors import DefinitionError, NotSerializable
from sagas.core import outcomes
from sagas.core.states import OutcomeKind
from sagas.definition import step as step_module
from sagas.definition import awaitables, end_calls, serialization, task_data, tracing
from sagas.definition.arguments import shown
from sagas.definition.definition_text import end_name_of
from sagas.definition.end_calls import EndTask
from sagas.definition.task_data import Context, TaskSnapshot
from sagas.definition.step_location import RemoteStepLocation
from sagas.definition.task import Task
from sagas.definition.call_options import Exceptions
from sagas.definition.tracing import Tracer

logger = logging.getLogger("sagas.worker")
Function = Callable[[Task[Any]], Any]
EndFunction = Callable[[EndTask[Any]], Any]
F = TypeVar("F", bound=Callable[[Any], Any])
AHEAD, MAX_AHEAD = 0.1, 10
"""One request claims as many tasks as were recently done in `AHEAD` seconds, but at most
`MAX_AHEAD`.
"""
NO_CONTEXT = "the worker has no context. Pass one with sagas.Worker(..., context=...)"
HEARTBEAT, REPORT = 10.0, 40.0
"""Maximum seconds of one try. It is less with a short lease, so that the next service is reached in
time.
"""
LOOK = 0.5
"""Seconds between checks of tasks that were claimed ahead; also the shortest lease of the service.
"""
MAX_TEXT = 4000
KINDS = {
    "complete": OutcomeKind.SUCCEEDED,
    "fail": OutcomeKind.FAILED,
    "unknown": OutcomeKind.UNKNOWN,
}
"""The outcome that the verb of a report means."""


class LifeEvent(enum.Enum):
    """What the thread that runs a worker waits for."""

    THREAD_ENDED = "thread ended"
    STOPPED = "stopped"
    TERMINATION = "SIGTERM"
    INTERRUPT = "SIGINT"


class Worker:
    """Execute steps for a service: claim tasks, call functions, report outcomes.

    It uses only the standard library. Each task runs in a thread. If the functions are short, one
    request claims up to ten tasks, and returns those that no thread starts within half a second.
    While a function runs, its lease is renewed three times before it would expire. The renewal
    reports an abort to the worker, which sets `task.cancelled`.

    Attributes:
        concurrency: Maximum number of tasks that run at once.
        lease: Seconds after which another worker may have the task of a worker that is gone.
        wait: Seconds that one request for tasks waits at the service.
        name: The worker's name, for people.
        shutdown_timeout: Seconds that running functions have after a stop.
    """

    def __init__(
        self,
        url: str | Sequence[str],
        token: str | None = None,
        *,
        concurrency: int = 4,
        lease: float = 30.0,
        wait: float = 20.0,
        name: str | None = None,
        context: Any = None,
        shutdown_timeout: float | None = 20.0,
    ) -> None:
        """Make a worker; `run` starts it.

        Args:
            url: The service, or several services over one database. The worker begins with a
                random one. If one does not answer, it asks the next one.
            token: The worker's token (default: None).
            concurrency: Maximum number of tasks that run at once (default: 4).
            lease: Seconds after which another worker may have the task of a worker that is gone
                (default: 30).
            wait: Seconds that one request for tasks waits at the service, at most 30 (default: 20).
            name: The worker's name, for people (default: from host and process).
            context: What functions get as `task.context` (default: none): an object; or a function
                that returns a plain context manager, which `run` enters and leaves.
            shutdown_timeout: Seconds that running functions have after a stop (default: 20). None:
                no limit.

        Raises:
            ValueError: The URL is not the address of a service.
        """
        self.concurrency, self.lease, self.wait = concurrency, lease, wait
        self.shutdown_timeout = shutdown_timeout
        self.name = (name or f"{socket.gethostname()}-{os.getpid()}")[:64]
        self._context_source, self._context = context, Context(NO_CONTEXT)
        self._tracer = tracing.tracer()
        self._stop = threading.Event()
        self._life: queue.SimpleQueue[LifeEvent] = queue.SimpleQueue()
        self._service = ServiceConnection(url, token, wait + 40.0, self._stop)
        self._steps: dict[str, WorkerStep] = {}
        self._ahead: deque[HeldTask] = deque()  # claimed, and not started
        self._held: set[HeldTask] = set()  # started
        self._condition = threading.Condition()
        self._busy = self._asking = self._handled = 0
        # recent seconds of a function; the initial value makes one task at a time
        self._mean = AHEAD
        self._fault: BaseException | None = None

    @property
    def url(self) -> str:
        """The service that the worker asks now."""
        return self._service.url

    # -- what it can do

    def step(
        self, saga: str, step: str, *, no_effect: Exceptions = (), cancel_on_abort: bool = False
    ) -> Callable[[Function], Function]:
        """Declare the function that performs a step, by `@worker.step(saga, step)`.

        It gets a `Task`. Its result or exception has the same meaning as that of a step's function.

        Args:
            saga: The saga's name.
            step: The step's name.
            no_effect: Exceptions that mean that there was no effect now, as `Retry` does (default:
                none).
            cancel_on_abort: Whether an abort raises `asyncio.CancelledError` in the async function
                (default: False). The worker learns of an abort by its next heartbeat, within a
                third of `lease`.

        Raises:
            DefinitionError: The step has a function already, or `cancel_on_abort` is set for a
                plain function.
        """
        return self._declare(f"{saga}/{step}", no_effect, cancel_on_abort)

    def compensation(
        self, saga: str, step: str, *, no_effect: Exceptions = ()
    ) -> Callable[[Function], Function]:
        """Declare the function that undoes a step. See `Worker.step`.

        Its task has the step's result as `task.result`.
        """
        return self._declare(f"{saga}/{step}/undo", no_effect)

    def on_end(
        self, saga: str, *, no_effect: Exceptions = ()
    ) -> Callable[[EndFunction], EndFunction]:
        """Declare the function to call after each end of a saga. See `Saga.on_end`.

        The service declares `on_end(external=True)`, or `[on_end]` in `NAME.service.toml`. The
        function gets an `EndTask`.

        Args:
            saga: The saga's name.
            no_effect: As of `Worker.step`.

        Raises:
            DefinitionError: There is such a function already.
        """
        name = f"{end_name_of(saga)}/{end_calls.STEP}"
        return self._declare(name, no_effect, task_of=end_calls.end_task)

    def _declare(
        self,
        step: str,
        no_effect: Exceptions,
        cancel_on_abort: bool = False,
        task_of: Callable[[Task[Any]], Task[Any]] | None = None,
    ) -> Callable[[F], F]:
        def declare(function: F) -> F:
            if cancel_on_abort and not inspect.iscoroutinefunction(function):
                raise DefinitionError(
                    f"{step}: cancel_on_abort needs an async function. In a plain function, check "
                    "task.cancelled"
                )
            existing = self._steps.get(step)
            if existing is not None:
                locations = (
                    f"{step_module.location_of(function) or '?'} and "
                    f"{step_module.location_of(existing.function) or '?'}"
                )
                raise DefinitionError(
                    f"{step} is declared twice, at {locations}. Remove one of them"
                )
            self._steps[step] = WorkerStep(function, no_effect, cancel_on_abort, task_of)
            return function

        return declare

    # -- life

    def run(self) -> None:
        """Work until SIGTERM, Ctrl-C or `stop`.

        Another thread calls `stop`, or a signal's handler. Running functions then have
        `shutdown_timeout` seconds to end, and are reported. Tasks of functions that are still
        running are released: another worker gets them, with the same idempotency key. A second
        SIGTERM releases them at once, and a second Ctrl-C is raised.

        A signal is handled if the call is made in the main thread and the program has no handler of
        its own for it. So SIGTERM also ends a worker that is process 1 of a container.

        Raises:
            ServiceRefused: The service refuses the worker, for example its token.
            ValueError: The worker has no function.
            Exception: A thread of the worker failed. The log has its traceback.
        """
        if not self._steps:
            raise ValueError(
                "the worker has no function. Declare one with @worker.step(saga, step)"
            )
        with lifespan(self._context_source, self._context):
            self._run()
        if self._fault:
            raise self._fault

    def _run(self) -> None:
        works = {f"sagas-worker-{number}": self._work for number in range(self.concurrency)}
        works["sagas-worker-heartbeat"] = self._keep_leases
        threads = [
            threading.Thread(target=self._live, args=(work,), name=name, daemon=True)
            for name, work in works.items()
        ]
        with self._signals():
            try:
                for thread in threads:
                    thread.start()
                left = self._ended(len(threads))
                if left:
                    self._release_running()
            finally:
                self._service.close_idle()

    @contextlib.contextmanager
    def _signals(self) -> Iterator[None]:
        """Handle SIGTERM and Ctrl-C, if this is the main thread and the program does not.

        A handler of a signal may only put into the queue: a lock could be held by the code that it
        interrupts. A second Ctrl-C is raised.
        """
        handled: list[tuple[int, Any]] = []
        if threading.current_thread() is threading.main_thread():
            if signal.getsignal(signal.SIGTERM) is signal.SIG_DFL:
                handled.append((signal.SIGTERM, signal.SIG_DFL))
                signal.signal(signal.SIGTERM, lambda *_: self._life.put(LifeEvent.TERMINATION))
            if signal.getsignal(signal.SIGINT) is signal.default_int_handler:
                handled.append((signal.SIGINT, signal.default_int_handler))
                signal.signal(signal.SIGINT, self._interrupt)
        try:
            yield
        finally:
            for number, handler in handled:
                signal.signal(number, handler)

    def _interrupt(self, *_: object) -> None:
        signal.signal(signal.SIGINT, signal.default_int_handler)
        self._life.put(LifeEvent.INTERRUPT)

    def _ended(self, running: int) -> int:
        """Wait until the threads have ended, or the time after a stop is over.

        Returns how many threads are still running.
        """
        until: float | None = None
        while running:
            try:
                left = None if until is None else max(0.0, until - time.monotonic())
                event = self._life.get(timeout=left)
            except queue.Empty:
                return running
            match event:
                case LifeEvent.THREAD_ENDED:
                    running -= 1
                case LifeEvent.STOPPED:
                    if until is None and self.shutdown_timeout is not None:
                        until = time.monotonic() + self.shutdown_timeout
                case LifeEvent.TERMINATION if self._stop.is_set():
                    return running
                case LifeEvent.INTERRUPT if self._stop.is_set():
                    raise KeyboardInterrupt
                case LifeEvent.TERMINATION | LifeEvent.INTERRUPT:
                    logger.info("%s: the worker stops", event.value)
                    self.stop()
        return 0

    def _release_running(self) -> None:
        """Release the tasks of functions that run on after a stop.

        If the service does not receive that, the leases expire.
        """
        with self._condition:
            held = [task for task in self._held if not task.is_lost]
        for task in held:
            task.is_lost = True  # its lease is not renewed any more
        for task in held:
            logger.warning(
                "%s: its function is still running, so its task is released", task.attempt_id
            )
            self._renew(task, LOOK)
            task.task.cancelled.set("lost")
            if task.is_unanswered:
                return

    def stop(self) -> None:
        """Claim nothing more; running functions end and are reported.

        Tasks that have not started are released. After `shutdown_timeout` seconds, tasks of
        functions that are still running are released, too.
        """
        self._stop.set()
        self._life.put(LifeEvent.STOPPED)

    def _live(self, work: Callable[[], None]) -> None:
        """Run a thread. If it fails, the worker stops with the same error."""
        try:
            work()
        except BaseException as fault:
            if not isinstance(fault, ServiceRefused):
                logger.exception("a thread of this worker failed")
            self._fault = self._fault or fault
            self.stop()
        finally:
            self._life.put(LifeEvent.THREAD_ENDED)

    def _work(self) -> None:
        while held := self._next_task():
            reply = None
            try:
                reply = self._do(held)
            finally:
                with self._condition:
                    self._busy -= 1
                    self._add(reply)

    def _next_task(self) -> HeldTask | None:
        """Return a task to start, or None if the worker was stopped.

        It is a task that was claimed ahead, or a new one. If a request may return several tasks,
        only one thread sends it.
        """
        while True:
            with self._condition:
                self._condition.wait_for(
                    lambda: self._ahead
                    or self._stop.is_set()
                    or not self._asking
                    or self._claim_limit() == 1
                )
                while self._ahead and not self._stop.is_set():
                    held = self._ahead.popleft()
                    self._handled += 1
                    if time.monotonic() < held.until:  # otherwise another worker may claim it
                        self._held.add(held)
                        self._busy += 1
                        return held
                self._asking += 1
            reply = None
            try:
                if self._stop.is_set():
                    self._give_back()
                    return None
                wait = (
                    self.wait if self._service.has_answered else 0.0
                )  # the first reply comes at once, and names the steps that are unknown there
                reply = self._service.ask_until_answered(
                    "/v1/tasks/claim", {**self._claim_body(), "wait": wait}, giving_up=True
                )
            finally:
                with self._condition:
                    self._asking -= 1
                    self._add(reply)

    def _claim_limit(self) -> int:
        return max(1, min(MAX_AHEAD, int(AHEAD / max(self._mean, 1e-6))))

    def _claim_body(self) -> dict[str, Any]:
        return {
            "steps": sorted(self._steps),
            "limit": self._claim_limit(),
            "lease": self.lease,
            "worker": self.name,
        }

    def _add(self, reply: dict[str, Any] | None) -> None:
        """Add the tasks of a reply. The caller holds the lock."""
        claimed = (reply.get("next") or reply) if reply else {}
        for task in claimed.get("tasks", ()):
            self._ahead.append(
                HeldTask(
                    task["attempt_id"],
                    task["lease"],
                    task_of(task, self._context),
                    time.monotonic() + task["seconds"] / 2,
                )
            )
            self._handled += 1
        self._condition.notify_all()

    def _do(self, held: HeldTask) -> dict[str, Any] | None:
        """Execute a task and report it; return the reply, which may contain new tasks."""
        task, began = held.task, time.monotonic()
        try:
            verb, body = perform(
                self._steps[step_name(task)],
                task,
                self._tracer,
            )
        finally:
            with self._condition:
                self._held.discard(held)
                self._mean += (time.monotonic() - began - self._mean) / 4
                more = {} if self._ahead or self._stop.is_set() else {"next": self._claim_body()}
        return self._report(held, verb, body, more)

    def _report(
        self,
        held: HeldTask,
        verb: str,
        body: dict[str, Any],
        more: dict[str, Any],
    ) -> dict[str, Any] | None:
        """Report the outcome of a task, and claim more in the same request if allowed."""
        path, report = f"/v1/tasks/{held.attempt_id}/{verb}", {"lease": held.lease, **body}
        try:
            seconds = min(REPORT, max(1.0, self.lease / 3))
            return self._service.ask_until_answered(path, {**report, **more}, seconds)
        except ServiceRefused as refusal:
            if is_final(refusal):
                if refusal.status == 403 and more:
                    return self._report(held, verb, body, {})
                raise
            if refusal.status in (413, 422) and verb == "complete" and not held.is_unstorable:
                held.is_unstorable = True  # the effect happened, but its result cannot be stored
                return self._report(held, verb, unstorable(str(refusal)), more)
            logger.warning("%s: %s was rejected: %s", held.attempt_id, verb, refusal)
            return None

    def _keep_leases(self) -> None:
        """Renew the leases of running tasks.

        Tasks that were claimed ahead are released if no thread has started them since the last
        check, and at a stop.
        """
        looks, seen, ends = max(1, round(self.lease / 3 / LOOK)), -1, True  # checks per heartbeat
        pause = self.lease / 3 / looks
        for look in itertools.count(1):
            stopped = self._stop.wait(pause)
            if stopped or self._handled == seen:
                self._give_back()
            seen = self._handled
            if stopped and self._asking and ends:
                ends = self._service.try_once("/v1/tasks/claim/end", {"worker": self.name}, LOOK)
            with self._condition:
                if stopped:
                    self._condition.notify_all()  # threads that wait for a reply
                    if self._condition.wait_for(lambda: not self._held and not self._asking, pause):
                        return
                is_time = look % looks == 0
                held = [
                    task
                    for task in self._held
                    if task.is_unanswered or is_time and not task.is_lost
                ]
            for task in held:
                self._renew(task, self.lease)

    def _give_back(self) -> None:
        """Release tasks that were claimed ahead, by shortening their leases.

        If the service does not receive that, the leases expire.
        """
        with self._condition:
            returned = list(self._ahead)
            if not returned:
                return
            self._ahead.clear()
            self._busy += 1
            self._mean = max(self._mean, LOOK)
        try:
            for held in returned:
                self._renew(held, LOOK)
        finally:
            with self._condition:
                self._busy -= 1
                self._condition.notify_all()

    def _renew(self, held: HeldTask, seconds: float) -> None:
        url, progress = self.url, held.task._take_progress()
        more = {"progress": progress.fraction, "detail": progress.detail} if progress else {}
        path = f"/v1/tasks/{held.attempt_id}/heartbeat"
        body = {"lease": held.lease, "seconds": seconds, **more}
        try:
            reply = self._service.ask(url, path, body, min(HEARTBEAT, self.lease / 6))
            held.is_unanswered = False
            if reason := reply.get("cancelled"):
                held.task.cancelled.set(reason)
        except ServiceRefused as refusal:
            held.is_unanswered = refusal.status in REPEAT
            if refusal.status in (403, 404, 409):
                held.is_lost = True
                held.task.cancelled.set("lost")
            logger.warning("%s: %s", held.attempt_id, refusal)
        except (OSError, ValueError) as error:
            held.is_unanswered = True
            logger.info("%s: the heartbeat failed: %s", held.attempt_id, error)
        if held.is_unanswered:
            self._service.turn_from(url)


@dataclasses.dataclass(frozen=True, slots=True)
class WorkerStep:
    """A function of a worker, with its options.

    Attributes:
        function: The function.
        no_effect: Exceptions that mean that there was no effect.
        cancel_on_abort: Whether an abort cancels it.
        task_of: Returns what it is called with, given the task; None for the task itself.
    """

    function: Callable[[Any], Any]
    no_effect: Exceptions
    cancel_on_abort: bool = False
    task_of: Callable[[Task[Any]], Task[Any]] | None = None


@dataclasses.dataclass(slots=True, eq=False)
class HeldTask:
    """A task that a worker has claimed.

    Attributes:
        attempt_id: The id of the attempt.
        lease: The lease.
        task: What its function is called with.
        until: When half of its lease is over. Later it is not started, so that its first heartbeat
            is in time.
        is_lost: Whether another worker may have it.
        is_unanswered: Whether no service replied to its last heartbeat.
        is_unstorable: Whether its result could not be stored.
    """

    attempt_id: str
    lease: str
    task: Task[Any]
    until: float
    is_lost: bool = False
    is_unanswered: bool = False
    is_unstorable: bool = False


@contextlib.contextmanager
def lifespan(source: Any, shared: Context) -> Iterator[None]:
    """Enter and leave the context of a worker.

    Raises `TypeError` if it is an async context manager, because threads have no event loop.
    """
    if not task_data.is_context_factory(source):
        if source is not None:
            shared.put(source)
        yield
        return
    manager = task_data.context_manager(source)
    if not isinstance(manager, contextlib.AbstractContextManager):
        raise TypeError(
            f"context={shown(source)}: returned {type(manager).__name__}, but a worker has no "
            "event loop. Return a plain context manager (@contextlib.contextmanager)"
        )
    with manager as value:
        shared.put(value)
        yield


def step_name(task: Task[Any]) -> str:
    """Return the name of a task's step for claims: `trip/car`, or `trip/car/undo`."""
    return f"{task.saga}/{task.declared_step}{'/undo' if task.is_compensation else ''}"


def task_of(reply: dict[str, Any], shared: Context) -> Task[Any]:
    """Return the argument of a function, from a reply of the service."""
    undo, step = reply["undo"], reply["step"]
    saga_token = reply["idempotency_key"].removesuffix(f"-{step}-{'undo' if undo else 'run'}")
    results = {name: serialization.write(value) for name, value in reply["results"].items()}
    result = serialization.write(reply["result"]) if undo else None
    task: Task[Any] = Task(
        TaskSnapshot(
            reply["definition"],
            reply["key"],
            step,
            undo,
            reply["attempt"],
            saga_token,
            serialization.write(reply["input"]),
            results,
            result,
            deadline=reply.get("deadline"),
            traceparent=reply.get("traceparent"),
            context=shared,
            location=None if reply.get("shape") is None else RemoteStepLocation(reply),
        )
    )
    if reason := reply.get("cancelled"):
        task.cancelled.set(reason)
    return task


async def _awaited(manner: WorkerStep, task: Task[Any], work: Coroutine[Any, Any, Any]) -> Any:
    """Return the result of an async function; cancel it once if an abort must end it."""
    if not manner.cancel_on_abort or task.cancelled.reason == "aborted":
        return await work
    async with asyncio.TaskGroup() as group:
        job = group.create_task(work)
        abort = group.create_task(task.cancelled.aborted())
        await asyncio.wait((job, abort), return_when=asyncio.FIRST_COMPLETED)
        (abort if job.done() else job).cancel()
    return job.result()


def perform(
    manner: WorkerStep, task: Task[Any], tracer: Tracer | None = None
) -> tuple[str, dict[str, Any]]:
    """Call a function; return the verb and the body of the report."""
    if tracer is None:
        return _perform(manner, task)[:2]
    with tracer.attempt(task, manner.function) as span:
        verb, reply, error = _perform(manner, task)
        kind = OutcomeKind.FAILED_PERMANENTLY if reply.get("final") else KINDS[verb]
        span.ended(kind.value, reply.get("error", ""), error)
    return verb, reply


def _perform(
    manner: WorkerStep, task: Task[Any]
) -> tuple[str, dict[str, Any], BaseException | None]:
    """Call a function; return verb and body of the report, and the exception."""
    try:
        result = manner.function(task if manner.task_of is None else manner.task_of(task))
        if inspect.isawaitable(result):
            result = asyncio.run(_awaited(manner, task, awaitables.awaited(result)))
    except asyncio.CancelledError:
        return "unknown", {"error": "cancelled, since the saga was aborted"}, None
    except BaseException as error:  # also sys.exit(): the thread of the function continues
        kind = outcomes.classify(error, manner.no_effect)
        text = outcomes.describe_error(error)
        if kind in (outcomes.FAILED, outcomes.PERMANENT):
            reply = {"error": text[:MAX_TEXT]} | (
                {"final": True} if kind is outcomes.PERMANENT else {}
            )
            return "fail", reply, error
        if kind is not outcomes.PROGRAM_ERROR:  # another worker may be able to decode the values
            return "unknown", {"error": text[:MAX_TEXT]}, error
        text = outcomes.located(error, text)
        return "unknown", {"error": text[:MAX_TEXT], "program_error": True}, error
    try:
        return "complete", {"result": json.loads(serialization.write_value(result))}, None
    except NotSerializable as error:
        logger.warning("a result could not be stored: %s", error)
        return "complete", unstorable(str(error)), None


def unstorable(why: str) -> dict[str, Any]:
    """Return the body of a report whose result cannot be stored: the step succeeded."""
    return {"result": {"unstorable": why[:MAX_TEXT]}}
