"""Calls step functions, and tracks the calls that run.

One task calls many async functions that end without waiting. A function that waits gets its own
task.
"""

from __future__ import annotations

import asyncio
import contextvars
import functools
import inspect
import logging
import os
import time
import types
from collections import deque
from collections.abc import Awaitable, Callable, Coroutine, Generator, Sequence
from concurrent.futures import Executor as Threads
from typing import TYPE_CHECKING, Any

from sagas.base.errors import CannotDecode, ShardLost
from sagas.base.fork_guard import private_descriptors
from sagas.base.logger import logger
from sagas.base.wording import number
from sagas.core import outcomes
from sagas.core.attempt.model import Attempt, QUEUED, RUNNING, finish_all, start_all
from sagas.core.attempt.instance import SagaInstance
from sagas.core.outcomes import Outcome
from sagas.core.attempt.step_transactions import StepTransactions
from sagas.definition import awaitables
from sagas.definition.payloads import BlobUnavailable
from sagas.definition.call_options import Function, Manner
from sagas.definition.task import Task
from sagas.definition.tracing import Tracer
from sagas.runtime import invocation
from sagas.runtime.acknowledgements import Acknowledgements
from sagas.runtime.fleet_limits import Gate
from sagas.runtime.invocation import CALLED

if TYPE_CHECKING:
    from sagas.runtime.coordinator import Coordinator
    from sagas.runtime.executor import Executor

QUIET = 1.0
"""Seconds that closing waits before it logs which functions it waits for."""
MAX_NAMED = 8
"""Functions that a line of the log names."""
FORKED = 70
"""The exit status of a forked child process that returned from a step function."""
MAX_BATCH = 256
"""Maximum number of successes that are reported at once, while further functions are called."""
RECHECK_AFTER = 100
"""Number of calls after which a function that waited is tried without its own task again."""
LONG = 1.0
"""Seconds for which a function may block the loop before a warning."""
TURN = 0.001
"""Seconds of calls after which new attempts wait for the next turn of the loop, so that other tasks
run. A turn costs as much as a short step.
"""


class Dispatcher:
    """Calls the functions of attempts in the order in which they arrive.

    Each function has its own copy of the context. Measured on 2026-11-28 against a task for each
    call, in instructions for a saga of three steps over SQLite: 27 % less for 16 sagas at a time,
    24 % less for 256, and 4 % more for one.
    """

    def __init__(
        self,
        calls: Calls,
        coordinator: Coordinator,
        jobs: dict[Attempt, asyncio.Task[None] | None],
        inside: StepTransactions | None = None,
    ) -> None:
        """Make a dispatcher.

        Args:
            calls: Decides about each call, and receives its outcome.
            coordinator: Decides when other tasks get their turn.
            jobs: Receives the task that calls each attempt.
            inside: Provides connections for functions in transactions, if there are any.
        """
        self._loop = asyncio.get_running_loop()
        self._context = contextvars.copy_context()
        self._begins, self._ended = calls.begins, calls.ended
        self._done, self._held = calls.done, calls.held_loop
        self._batch_size = coordinator.commits.batch_size
        self._must_yield = coordinator.sagas.must_yield
        self._batch_limit = MAX_BATCH
        self._jobs, self._inside = jobs, inside
        self._flushed_at = time.monotonic()
        self._ready: deque[Attempt] = deque()
        self._next: asyncio.Task[None] | None = None  # the task that calls those
        # functions that waited at their last call, and how many calls get their own task
        self._waiters: dict[Function, int] = {}
        self._succeeded: list[Attempt] = []  # successes that are not reported
        self._failures: list[tuple[Attempt, float, Outcome | None]] = []  # with their seconds
        self._driver = _CoroutineDriver()

    def call(self, attempts: Sequence[Attempt]) -> None:
        """Call the simple functions of these attempts soon."""
        self._ready.extend(
            [attempt for attempt in attempts if not self._starts_own_task(attempt)]
            if self._waiters
            else attempts
        )
        if self._ready and (
            self._next is None or self._next.done()
        ):  # a function may have cancelled it
            self._next = self.start(self._work())

    def _starts_own_task(self, attempt: Attempt) -> bool:
        """Start a task for a function that waited before; return whether it did."""
        function = attempt.action.simple
        assert function
        left = self._waiters.pop(function, 0)
        if left > 1:
            self._waiters[function] = left - 1
        if left:
            self._jobs[attempt] = self.start(self._alone(attempt, function))
        return left > 0

    def start(self, work: Coroutine[Any, Any, None]) -> asyncio.Task[None]:
        """Start a task with its own copy of the context."""
        return self._loop.create_task(work, context=self._context.copy())

    @property
    def waiting(self) -> int:
        """How many attempts are queued."""
        return len(self._ready)

    async def settled(self) -> None:
        """Wait until all queued attempts are called."""
        while self._ready and self._next and not self._next.done():
            await asyncio.sleep(0)

    async def _work(self) -> None:
        """Call the attempts that are ready.

        Later attempts follow, or wait for the next turn of the loop, so that notified callers run
        first. Otherwise, a saga could end before its caller waits for the end.
        """
        job, rest, since = asyncio.current_task(), None, time.monotonic()
        assert job
        self._must_yield()  # notified callers had their turn before this one
        try:
            while (
                self._ready and rest is None and not job.cancelling()
            ):  # a function may cancel the task that it is in
                rest = self._call_ready(job)
                if (
                    self._ready
                    and rest is None
                    and (self._must_yield() or time.monotonic() - since > TURN)
                ):
                    await asyncio.sleep(0)
                    since = time.monotonic()
        finally:
            self._next = self.start(self._work()) if self._ready else None
        if rest is not None:
            await rest

    def _call_ready(self, job: asyncio.Task[None]) -> Coroutine[Any, Any, None] | None:
        """Call ready attempts until one waits; return the rest of that one."""
        ready, jobs = self._ready, self._jobs
        self._batch_limit = min(MAX_BATCH, self._batch_size(len(ready)))
        try:
            for _ in range(len(ready)):
                attempt = ready.popleft()
                if self._waiters and self._starts_own_task(attempt):
                    continue
                if self._begins(attempt):
                    jobs[attempt] = job
                    rest = self._call(attempt)
                    if rest is not None or job.cancelling():
                        return rest
            return None
        finally:
            if self._succeeded or self._failures:
                self._flush()

    def _flush(self) -> None:
        """Report ended calls, failures first.

        So all attempts of a shard continue together.
        """
        succeeded, self._succeeded = self._succeeded, []
        failures, self._failures = self._failures, []
        for attempt, took, outcome in failures:
            self._ended(attempt, time.monotonic() - took, outcome)
        previous, self._flushed_at = self._flushed_at, time.monotonic()
        if self._flushed_at - previous > LONG:  # otherwise, no call took that long
            for attempt in succeeded:
                self._check_loop_held(attempt, attempt.call_seconds or 0.0)
        if succeeded:
            self._done(succeeded)

    def _check_loop_held(self, attempt: Attempt, seconds: float) -> None:
        if seconds > LONG:
            self._held(attempt, seconds)

    async def _alone(self, attempt: Attempt, function: Function) -> None:
        if not self._begins(attempt):
            return
        began = time.monotonic()
        CALLED.set(attempt)
        try:
            task: Task[Any] = Task(attempt)
            work = self._inside.within(attempt, function, task) if self._inside else function(task)
            outcome: Outcome | None = await invocation.ended(work, task)
        except BaseException as error:
            outcome = invocation.interrupted(error, attempt.manner)
        self._ended(attempt, began, outcome)

    def _call(self, attempt: Attempt) -> Coroutine[Any, Any, None] | None:
        """Call the function until it ends or waits; return the rest if it waits."""
        function, began, context = attempt.action.simple, time.monotonic(), self._context.copy()
        driver, inside = self._driver, self._inside
        assert function
        context.run(CALLED.set, attempt)
        task: Task[Any] = Task(attempt)
        if inside:
            take = inside.enter(attempt)
            if take is None:
                return self._wait(attempt, began, task, inside.within(attempt, function, task))
            task._enter_by(take)
        try:
            work = function(task)
            if type(work) is not types.CoroutineType:  # an awaitable of another type
                work = _awaited(work)
            waits_for = context.run(driver.send, work)
        except BaseException as error:
            self._driver = _CoroutineDriver()
            if inside and task._leave() is not None:
                return self._wait(attempt, began, task, inside.end(attempt, task, _raised(error)))
            self._failed(attempt, began, inside.raised(error) if inside else error)
            return None
        if waits_for is not driver.over:
            self._driver = _CoroutineDriver()
            rest = _whole_result(_Continuation(driver, waits_for, context))
            return self._suspended(attempt, function, began, task, rest)
        value, attempt.call_seconds = waits_for.pop(), time.monotonic() - began
        try:
            attempt.outcome = outcomes.succeeded(value, task)
        except outcomes.Unawaited:
            return self._suspended(attempt, function, began, task, _awaited_value(value, context))
        if inside and task._leave() is not None:
            return self._suspended(attempt, function, began, task, awaitables.awaited(value))
        self._succeeded.append(attempt)
        if len(self._succeeded) >= self._batch_limit:
            self._flush()
        return None

    def _failed(self, attempt: Attempt, began: float, error: BaseException) -> None:
        """Handle that a function raised before it waited for anything."""
        outcome = invocation.interrupted(error, attempt.manner)
        took = time.monotonic() - began
        self._check_loop_held(attempt, took)
        self._failures.append((attempt, took, outcome))
        if outcome is None or len(self._succeeded) + len(self._failures) >= self._batch_limit:
            self._flush()

    def _suspended(
        self,
        attempt: Attempt,
        function: Function,
        began: float,
        task: Task[Any],
        rest: Awaitable[Any],
    ) -> Coroutine[Any, Any, None]:
        """Return the rest of a function that waits."""
        self._waiters[function] = RECHECK_AFTER
        self._check_loop_held(attempt, time.monotonic() - began)
        if self._inside:
            rest = self._inside.end(attempt, task, rest)
        return self._wait(attempt, began, task, rest)

    async def _wait(
        self, attempt: Attempt, began: float, task: Task[Any], rest: Awaitable[Any]
    ) -> None:
        CALLED.set(attempt)
        try:
            outcome: Outcome | None = outcomes.succeeded(await rest, task)
        except BaseException as error:
            outcome = invocation.interrupted(error, attempt.manner)
        self._ended(attempt, began, outcome)


async def _awaited(work: Awaitable[Any]) -> Any:
    return await work


async def _raised(error: BaseException) -> Any:
    raise error


async def _awaited_value(value: Any, context: contextvars.Context) -> Any:
    """Return the value of an awaitable that a function returned, in its context."""
    return await _Continuation(_CoroutineDriver(), None, context, awaitables.awaited(value))


async def _whole_result(rest: _Continuation) -> Any:
    """Return the result of a suspended function, awaited if it is an awaitable."""
    value = await rest
    return await _awaited_value(value, rest.context) if inspect.isawaitable(value) else value


class _CoroutineDriver:
    """Runs one coroutine after another, each until it waits or ends.

    A coroutine that is resumed directly ends by an exception, which takes as long as a short
    function. So the driver yields `over`, a list with the result, and is then sent the next
    coroutine.
    """

    __slots__ = ("over", "send", "throw")

    def __init__(self) -> None:
        self.over: list[Any] = []
        generator = _drive(self.over)
        next(generator)
        self.send: Callable[[Any], Any] = generator.send
        self.throw: Callable[[BaseException], Any] = generator.throw


@types.coroutine
def _drive(over: list[Any]) -> Generator[Any, Any, None]:
    work = yield
    while True:
        over.append((yield from work))
        work = yield over


class _Continuation:
    """The rest of a function that waits, executed in the context of the function.

    `waits_for` is what it waits for; None means the next turn of the loop. Awaiting the
    continuation returns the result of the function.
    """

    def __init__(
        self,
        driver: _CoroutineDriver,
        waits_for: Any,
        context: contextvars.Context,
        work: Coroutine[Any, Any, Any] | None = None,
    ) -> None:
        """Make one. `work` is a coroutine that has not started, to be continued first."""
        self._driver, self._waits_for, self.context, self._work = driver, waits_for, context, work

    def __await__(self) -> Generator[Any, Any, Any]:
        driver, waits_for, work = self._driver, self._waits_for, self._work
        while waits_for is not driver.over:
            try:
                resume, value = driver.send, (yield waits_for)
            except BaseException as error:
                resume, value = driver.throw, error
                if work is not None:
                    work.close()
            else:
                if work is not None:
                    value, work = work, None
            waits_for = self.context.run(resume, value)
        return waits_for.pop()


class Calls:
    """Calls functions, each within a slot.

    Attributes:
        running: The attempts that have a slot, each with the task that calls its function.
        acknowledgements: The acknowledgements, if the program has a record.
    """

    def __init__(
        self,
        executor: Executor,
        coordinator: Coordinator,
        threads: Threads,
        tracer: Tracer | None,
    ) -> None:
        self._executor, self._store = executor, coordinator.store
        self._slots, self._fleet, self._fill = executor.slots, executor.fleet, executor.values.fill
        self._threads, self._external = threads, coordinator.external
        self._teller, self._clock = coordinator.teller, coordinator.clock
        self._forks, self._tracer = private_descriptors.forks, tracer
        self.acknowledgements: Acknowledgements | None = Acknowledgements.of(coordinator.store)
        self._called = self.acknowledgements.called if self.acknowledgements else None
        self.running: dict[Attempt, asyncio.Task[None] | None] = {}
        self._dispatcher = Dispatcher(self, coordinator, self.running)
        self._transaction_dispatcher = Dispatcher(
            self, coordinator, self.running, coordinator.store.inside
        )
        self._has_transactions = coordinator.store.inside is not None
        self._blocking: set[tuple[str, str, str]] = set()  # functions that were warned of

    def coming(self) -> int:
        """Return how many functions are about to be called, and may end at once."""
        return self._dispatcher.waiting + self._transaction_dispatcher.waiting

    async def settled(self) -> None:
        """Wait until all queued simple functions are called."""
        await self._dispatcher.settled()
        await self._transaction_dispatcher.settled()

    # -- call

    def start(self, attempt: Attempt) -> None:
        """Call the function of an attempt that has a slot."""
        if attempt.action.simple and self._tracer is None and not attempt.lacks_values():
            self.start_simple([attempt])
            return
        gate = self._fleet.gate(attempt)
        self.running[attempt] = None
        if gate is None:
            attempt.start()
            work = self._call(attempt)
        else:
            work = self._call_limited(attempt, gate)
        self.running[attempt] = self._dispatcher.start(work)

    def start_simple(self, attempts: Sequence[Attempt]) -> None:
        """Call the simple functions of attempts that have slots."""
        if self._tracer is not None:  # each call has a span, and so its own task
            for attempt in attempts:
                self.start(attempt)
            return
        self.running.update(dict.fromkeys(attempts))
        start_all(attempts)
        inside = (
            [attempt for attempt in attempts if attempt.action.inside]
            if self._has_transactions
            else ()
        )
        if not inside:
            self._dispatcher.call(attempts)
            return
        if len(inside) < len(attempts):
            self._dispatcher.call([attempt for attempt in attempts if not attempt.action.inside])
        self._transaction_dispatcher.call(inside)

    async def _call_limited(self, attempt: Attempt, gate: Gate) -> None:
        """Call the function if its fleet limit grants a slot; otherwise, let it wait."""
        granted = await gate.ask(attempt)
        if granted and attempt.state is QUEUED and not self._executor.closing:
            attempt.start()
            await self._call(attempt)
            return
        del self.running[attempt]
        self._leave(attempt)
        if attempt.state is QUEUED and not self._executor.closing:
            gate.hold(attempt, first=True)
            attempt.note(self._clock())

    async def _call(self, attempt: Attempt) -> None:
        if not self.begins(attempt):
            return
        fault, outcome, began = None, None, time.monotonic()
        CALLED.set(attempt)
        try:
            if await self._has_values(attempt):
                outcome = await self._outcome(attempt, attempt.manner)
        except ShardLost as error:
            fault = error
        except BlobUnavailable as error:
            outcome = outcomes.values_unavailable(error)
        self._ended(attempt, began, outcome, fault, at_once=False)

    async def _has_values(self, attempt: Attempt) -> bool:
        """Read missing values; return False if the call was cancelled.

        Raises `BlobUnavailable`.
        """
        if attempt.lacks_values():
            try:
                await self._fill(attempt)
            except asyncio.CancelledError:
                return False
        return True

    async def _outcome(self, attempt: Attempt, manner: Manner) -> Outcome | None:
        """Call a function that is not simple: in a thread, a transaction, or at a worker."""
        if manner.queue:
            return await self._external.call(manner, attempt)
        inside = self._store.inside if manner.transaction else None
        call = inside.call if inside else invocation.call_alone
        late = functools.partial(self._executor.emit, attempt, "step_overdue")
        try:
            task = attempt.task()
        except CannotDecode as error:  # by the store's codec
            return outcomes.raised(error, manner)
        if self._tracer is None or manner.function is None:
            return await call(attempt, manner, task, self._threads, late)
        with self._tracer.attempt(task, manner.function) as span:
            outcome = await call(attempt, manner, task, self._threads, late)
            if outcome is not None:
                span.ended(outcome.kind.value, outcomes.error_text(outcome), outcome.error)
            return outcome

    async def end(self, timeout: float | None) -> set[asyncio.Task[None]]:
        """Wait for running functions; return the tasks that did not end in time.

        It logs the functions that it waits for: at once for information, and after a while as a
        warning, which a program without a log prints.
        """
        running = {job for job in self.running.values() if job}
        if not running:
            return set()
        quiet = QUIET if timeout is None else min(timeout, QUIET)
        if quiet:
            self._log_wait(logging.INFO, running, timeout)
        _, late = await asyncio.wait(running, timeout=quiet)
        if late and (timeout is None or timeout > QUIET):
            self._log_wait(logging.WARNING, late, timeout)
            _, late = await asyncio.wait(late, timeout=None if timeout is None else timeout - QUIET)
        return late

    def _log_wait(self, level: int, jobs: set[asyncio.Task[None]], timeout: float | None) -> None:
        """Log the functions that closing waits for."""
        calls = [attempt for attempt, job in self.running.items() if job in jobs]
        names = sorted(f"{attempt.name} of {attempt.key!r}" for attempt in calls)
        more = ", ..." if len(names) > MAX_NAMED else ""
        logger.log(
            level,
            "closing waits for %s%s: %s%s",
            number(len(names), "running function"),
            f", for at most {timeout:g} s" if timeout else "",
            ", ".join(names[:MAX_NAMED]),
            more,
        )

    # -- calls by the dispatchers

    def begins(self, attempt: Attempt) -> bool:
        """Return whether the attempt is called now.

        It is not called if it was forgotten, or if its shard may belong to another program.
        """
        if (
            private_descriptors.forks != self._forks
        ):  # a forked child process returned from a function
            os._exit(FORKED)
        if attempt.state is RUNNING and self._store.holds():
            if self._called is not None:
                self._called(attempt)
            if attempt.extras is not None:
                attempt.note_again(self._clock())
            if self._teller.has_hook:
                self._executor.emit(attempt, "step_started")
            return True
        if attempt.state is RUNNING:  # another node may own the shard: it is loaded again first
            attempt.claim()
        del self.running[attempt]
        self._leave(attempt)
        return False

    def ended(self, attempt: Attempt, began: float, outcome: Outcome | None) -> None:
        """Handle that a simple function waited, failed or was cancelled."""
        fault = attempt.record.lost() if attempt.record else None
        self._ended(attempt, began, outcome, fault, at_once=True)

    def done(self, attempts: list[Attempt]) -> None:
        """Handle that simple functions succeeded without waiting."""
        self._check_fork()
        for attempt in attempts:
            del self.running[attempt]
        self._slots.leave_many(len(attempts))
        self._executor.succeeded(finish_all(attempts, self._clock()))

    def held_loop(self, attempt: Attempt, seconds: float) -> None:
        """Warn once for each function that it blocked the event loop."""
        function_id = attempt.saga, attempt.declared_name, attempt.kind
        if function_id not in self._blocking:
            self._blocking.add(function_id)
            subject = "the compensation of step" if attempt.undo else "step"
            logger.warning(
                "saga %r: %s %r blocked the event loop for %.1f s. Make it a plain function "
                "(def), which runs in a thread",
                function_id[0],
                subject,
                attempt.name,
                seconds,
            )

    # -- end

    def _ended(
        self,
        attempt: Attempt,
        began: float,
        outcome: Outcome | None,
        fault: ShardLost | None,
        at_once: bool,
    ) -> None:
        record, attempt.record = attempt.record, None
        attempt.is_recorded = record is not None and record.done
        if not self._leave_running(attempt, began):
            return
        if fault is not None:
            self._executor.lost(attempt, fault)
        elif record is not None and record.again:
            attempt.claim()
            self._executor.enter(attempt)
        elif outcome is None and attempt.extras and attempt.extras.control:
            if attempt.extras.control.is_stopped:
                attempt.extras.control.is_stopped = False
                outcome_unknown = outcomes.unknown("cancelled, since the saga was aborted")
                self._executor.ended(attempt, outcome_unknown, at_once)
        elif outcome is not None:
            self._executor.ended(attempt, outcome, at_once)

    def _leave_running(self, attempt: Attempt, began: float) -> bool:
        """Release the slot of a call; return whether its outcome still counts."""
        self._check_fork()
        attempt.call_seconds = time.monotonic() - began
        del self.running[attempt]
        self._leave(attempt)
        return attempt.state is RUNNING

    def _leave(self, attempt: Attempt) -> None:
        """Release the slot, and the slot of the fleet limit."""
        self._slots.leave(attempt)
        if gate := self._fleet.gate(attempt):
            gate.leave(attempt)

    def _check_fork(self) -> None:
        if (
            private_descriptors.forks != self._forks
        ):  # a forked child process returned from the function
            os._exit(FORKED)

    # -- cancellation and progress

    def cancel(self, instance: SagaInstance) -> None:
        """Inform the functions of a draining saga that their work may no longer be needed.

        If the saga was aborted, functions that opted in (`cancel_on_abort`) are cancelled.
        """
        if not instance.draining:  # its plan was adopted in the meantime
            return
        for attempt in instance.busy.values():
            if attempt.undo or attempt.state is not RUNNING or attempt not in self.running:
                continue
            control, job = attempt.control, self.running[attempt]
            was_aborted = control.cancelled.reason == "aborted"
            control.cancelled.set(instance.drain_reason)
            if instance.aborted and not was_aborted and attempt.manner.cancel_on_abort and job:
                control.is_stopped = job.cancel()

    def close(self) -> None:
        """Inform all functions that the store is about to be closed."""
        for attempt in self.running:
            attempt.control.cancelled.set("closing")

    def with_new_progress(self) -> list[Attempt]:
        """Return the attempts whose functions reported progress since the last call."""
        attempts = []
        for attempt in self.running:
            control = attempt.extras.control if attempt.extras else None
            if control and attempt.state is RUNNING and control.take_progress():
                attempts.append(attempt)
        return attempts

    def forget(self, attempt: Attempt) -> None:
        """Stop the function of an attempt that its shard no longer has.

        A function in a thread continues. The attempt keeps its slot until its function has ended.
        """
        job = self.running.get(attempt)
        if attempt in self.running:
            attempt.control.cancelled.set("lost")
        else:
            self._slots.cancel(attempt)
        if job is None or self._is_in_thread(attempt):
            return
        state = inspect.getcoroutinestate(job.get_coro())  # type: ignore[arg-type]
        if state == inspect.CORO_CREATED:  # the coroutine has not started
            del self.running[attempt]
            self._leave(attempt)
        job.cancel()

    def _is_in_thread(self, attempt: Attempt) -> bool:
        """Return whether its function is a plain one that is called in this program."""
        function = attempt.manner.function
        is_here = attempt.manner.queue is None and function is not None
        return is_here and not awaitables.is_async(function)
