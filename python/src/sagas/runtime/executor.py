"""Carries out the decisions of `AttemptMachine`.

It also stores reports that arrive before their steps start.
"""

from __future__ import annotations

import asyncio
import contextlib
import logging
from collections.abc import Callable, Sequence
from concurrent.futures import Executor as Threads
from typing import TYPE_CHECKING

from sagas.base.errors import Closed, SagaMoved, SagasError, ShardLost, StepNotWaiting
from sagas.core import outcomes
from sagas.core.shard import driver as shard_module
from sagas.core.attempt.directives import Decision, Do
from sagas.core.attempt.machine import AttemptMachine
from sagas.core.attempt.pause_index import Pauses
from sagas.core.shard.batch import RequestRef
from sagas.core.attempt.declared_values import OptionCalls
from sagas.core.reports import EarlyReport, Refusal
from sagas.core.effects import Effects
from sagas.core.shard.limits import Slots
from sagas.core.attempt.model import (
    Attempt,
    CLAIMED,
    FINISHED,
    QUEUED,
    SUSPENDED,
    SuspensionRow,
    undoes_failure,
)
from sagas.core.attempt.instance import SagaInstance
from sagas.core.outcomes import Outcome, is_optional_failure
from sagas.core.shard.driver import ShardDriver
from sagas.core.states import UNCERTAIN, OutcomeKind, RowState, Suspension
from sagas.definition.payloads import BlobUnavailable
from sagas.definition.compiled import ActionKey
from sagas.definition.tracing import Tracer
from sagas.runtime.calls import Calls
from sagas.runtime.children import Children
from sagas.runtime.fleet_limits import Fleet, GateContext
from sagas.runtime.instances import Waiters
from sagas.runtime.stored_values import ValueReader

if TYPE_CHECKING:
    from sagas.runtime.coordinator import Coordinator
    from sagas.runtime.shard_runner import ShardRunner

UNDECIDED = (Do.READ, Do.ASK)
"""Decisions that need more data first."""
PAUSE_BATCH = 256
"""The number of sagas in which attempts are held or released in one turn of the loop."""
LIMITS = (Suspension.STEP_LIMIT, Suspension.FLEET_LIMIT)
"""Suspensions of an attempt that is called when a limit allows it."""
DONE = ("commit", "undone")
RETRYING = {"missed": "step_retrying", "undo_missed": "step_retrying"}


class Executor:
    """Starts attempts within the slots, and reports their outcomes to the shards.

    Attributes:
        machine: Decides the next action of each attempt.
        slots: How many functions may run.
        fleet: The limits over all nodes.
        values: Reads values that are not in memory.
        calls: The functions that run.
        children: The attempts that wait for child sagas.
        changes: Callers that wait until an attempt is suspended or finished.
        kept: Callers that wait until the report of an attempt is stored.
        early: The reports of steps that have not started, while they are being stored.
        closing: Whether nothing starts any more.
    """

    def __init__(
        self,
        coordinator: Coordinator,
        concurrency: int,
        threads: Threads,
        tracer: Tracer | None = None,
    ) -> None:
        self._coordinator, self._external = coordinator, coordinator.external
        self._loop, self._clock = coordinator.loop, coordinator.clock
        self._teller = coordinator.teller
        self.machine: AttemptMachine = AttemptMachine()
        self.slots: Slots = Slots(concurrency, self._start, coordinator.feed, self._holds)
        context = GateContext(
            coordinator.store,
            coordinator.loop,
            coordinator.spawn,
            lambda: coordinator.closed is not None,
        )
        self.fleet: Fleet = Fleet(context, self.slots.enter)
        self.values: ValueReader = ValueReader(coordinator.store, self._unread)
        self.calls: Calls = Calls(self, coordinator, threads, tracer)
        self.changes: Waiters[Attempt] = Waiters(coordinator.loop)
        self.kept: Waiters[Attempt] = Waiters(coordinator.loop)
        self.children = Children(coordinator, self, self.values)
        self.early: EarlyReports = EarlyReports(coordinator)
        self._timers: dict[Attempt, asyncio.TimerHandle] = {}
        self._doubted: set[Attempt] = set()  # reports of their workers are being looked up
        self.closing: bool = False

    # -- begin

    def begin_all(self, attempts: Sequence[Attempt]) -> None:
        """Start attempts that are stored, for which slots were reserved. Most are called at once.

        Measured on 2026-11-28 against `begin` of each, in instructions for a saga of three steps
        over SQLite: 8 % less for 16 sagas at a time, and 4 % more for one.
        """
        simple = [
            attempt
            for attempt in attempts
            if attempt.action.simple is not None
            and attempt.attempt == 1
            and attempt.missing_function is None
            and not attempt.instance.draining
            and not (attempt.instance.is_partial and attempt.lacks_values())
        ]
        pauses = self.machine.pauses
        if pauses.by_scope or pauses.moving:
            paused = pauses.of_attempt
            simple = [attempt for attempt in simple if paused(attempt) is None]
        self.slots.release(len(attempts))
        count = 0 if self.closing else self.slots.take_slots(len(simple))
        if count < len(attempts):
            called = set(simple[:count])
            for attempt in attempts:
                if attempt not in called:
                    self.begin(attempt)
        if count:
            self.calls.start_simple(simple[:count])

    def begin(self, attempt: Attempt) -> None:
        """Start an attempt that is stored."""
        self._do(attempt, self.machine.begin(attempt, self._clock()))

    def resume(self, attempt: Attempt) -> None:
        """Resume an attempt of a recovered shard."""
        is_claimed, has_row = attempt.state is CLAIMED, attempt.row_state is not RowState.ABSENT
        if is_claimed and not attempt.is_uncalled and not has_row:
            attempt.note_earlier_call()
        decision = self.machine.resume(attempt, self._clock())
        if decision.do is Do.REPORT_AGAIN:
            self._report_again(attempt)
        else:
            self._do(attempt, decision)

    def drain(self, instance: SagaInstance) -> None:
        """Drain a saga that is about to be planned, and inform its running functions."""
        if not instance.busy:
            return
        self.calls.cancel(instance)
        for attempt, decision in self.machine.drain(instance, self._clock()):
            self._drop_timer(attempt)
            if decision.do is Do.REPORT:
                self.slots.cancel(attempt)
            self._do(attempt, decision)

    # -- carry out decisions

    def _do(self, attempt: Attempt, decision: Decision, at_once: bool = False) -> None:
        if decision.event:
            self.emit(attempt, *decision.event, error=_new_error(attempt, decision))
        if decision.do is Do.CALL:
            self.enter(attempt)
        elif decision.do is Do.READ:
            self._coordinator.spawn(self.values.then(attempt, self._go_on))
        elif decision.do is Do.ASK:
            self._ask(attempt, decision, self._go_on)
        elif decision.do is Do.REPORT:
            self._finished(attempt, at_once)
        elif decision.do is Do.OFFER:
            if self.machine.pauses:
                self.machine.pauses.note(attempt)
            self.changes.notify(attempt)
            self._external.offer(attempt)
        elif decision.do is Do.WITHDRAW:
            self._external.withdraw(attempt)
        elif decision.do is Do.FOLLOW:
            self.changes.notify(attempt)
            self.children.follow(attempt)
        elif decision.do is Do.SUSPEND:
            if decision.timer:
                self._set_timer(attempt)
            self.changes.notify(attempt)
        if attempt.state is SUSPENDED and decision.do not in UNDECIDED:
            if decision.do is not Do.WITHDRAW:
                self._add_to_history(attempt, decision.row)
            attempt.instance.release()
        if decision.row:
            self._put(attempt, decision.row)

    def _go_on(self, attempt: Attempt) -> None:
        """Continue an attempt: its values are read, and its questions are answered."""
        if not self.closing:
            self._do(attempt, self.machine.decide_again(attempt, self._clock()))

    def _ask(self, attempt: Attempt, decision: Decision, go_on: Callable[[Attempt], None]) -> None:
        """Call functions of the definition in the background, then continue the attempt."""
        assert decision.option_calls
        question, is_same = decision.option_calls, attempt.pause_guard()
        self._coordinator.spawn(self._answer_question(attempt, question, is_same, go_on))

    async def _answer_question(
        self,
        attempt: Attempt,
        question: OptionCalls,
        is_same: Callable[[], bool],
        go_on: Callable[[Attempt], None],
    ) -> None:
        if await self._coordinator.declared.answer(attempt, question, is_same):
            go_on(attempt)
        attempt.instance.release()

    def _unread(self, attempt: Attempt, error: BlobUnavailable) -> None:
        """Handle that the values of an attempt cannot be read now."""
        if not self.closing:
            self._do(attempt, self.machine.values_unavailable(attempt, error, self._clock()))

    def _add_to_history(self, attempt: Attempt, row: SuspensionRow | None = None) -> None:
        """Add the suspension to the history of the attempt.

        External attempts have their own table, so their first suspension is left out.
        """
        is_first = not (attempt.extras and attempt.extras.notes.last)
        if not (is_first and attempt.reason is Suspension.EXTERNAL):
            attempt.note(self._clock(), row.error if row else None)

    def _set_timer(self, attempt: Attempt) -> None:
        self._drop_timer(attempt)
        delay = self.machine.timer_delay(attempt, self._clock())
        if delay is not None:
            self._timers[attempt] = self._loop.call_later(delay, self._timer_fired, attempt)

    def _drop_timer(self, attempt: Attempt) -> None:
        if self._timers and (timer := self._timers.pop(attempt, None)):
            timer.cancel()

    def _timer_fired(self, attempt: Attempt) -> None:
        self._timers.pop(attempt, None)
        if not self.closing:
            self._do(attempt, self.machine.timer(attempt, self._clock()))

    def _put(self, attempt: Attempt, row: SuspensionRow) -> None:
        """Store why the attempt waits, so that other programs know it."""
        attempt.expect_row(row)
        if runner := self._runner(attempt):
            if row.reason in (Suspension.CANNOT_DECODE, Suspension.NO_DEFINITION):
                runner.has_unread = True
            runner.suspend(attempt, row)

    def stored(self, attempt: Attempt, row: SuspensionRow) -> None:
        """Continue an attempt whose row is stored, unless a later row is being stored."""
        if attempt.pending_row is not row:
            return
        self._do(attempt, self.machine.stored(attempt))
        if attempt.state is not FINISHED:
            self.kept.notify(attempt)
        self.changes.notify(attempt)
        if attempt.is_external and attempt.state is SUSPENDED:
            if attempt.reason is Suspension.EXTERNAL:  # it became external in the meantime
                self._external.offer(attempt)
            self._external.look()

    def enter(self, attempt: Attempt) -> None:
        """Call an attempt once its limits allow it."""
        if self.closing:
            return
        decision = self.machine.decide_limits(attempt, self._clock())
        if decision.do is Do.READ:
            self._coordinator.spawn(self.values.then(attempt, self.enter))
            return
        if decision.do is Do.ASK:
            self._ask(attempt, decision, self.enter)
            return
        if decision.do is not Do.CALL:
            self._do(attempt, decision)
            return
        gate = self.fleet.gate(attempt)
        if gate and gate.is_waited_for():
            gate.hold(attempt)
        else:
            self.slots.enter(attempt)
        if attempt.state in (SUSPENDED, QUEUED):
            self._add_to_history(attempt)
            attempt.instance.release()

    def _start(self, attempt: Attempt) -> None:
        self.calls.start(attempt)

    # -- pauses

    def _holds(self, attempt: Attempt) -> bool:
        """Suspend an attempt that would get a slot, if it is paused; return whether it is."""
        if not self.machine.pauses.hold(attempt):
            return False
        self.changes.notify(attempt)
        self._add_to_history(attempt)
        attempt.instance.release()
        return True

    def _end_pause(self, attempt: Attempt) -> None:
        """Continue an attempt that was held: its step was resumed."""
        attempt.end_pause()
        if attempt.reason is Suspension.PAUSED:
            self._go_on(attempt)
        elif attempt.reason is Suspension.WAIT_OVER:
            self.enter(attempt)
        else:
            self._timer_fired(attempt)

    async def set_pauses(self, pauses: Pauses) -> None:
        """Hold the attempts that wait and are paused now, and release the others."""
        pauses.moving, self.machine.pauses = self.machine.pauses.moving, pauses
        for number, saga in enumerate(list(self._coordinator.sagas.by_key.values()), 1):
            for attempt in list(saga.busy.values()):
                self._apply_pauses(attempt)
            if number % PAUSE_BATCH == 0:
                await asyncio.sleep(0)

    def set_moving(self, shard: ShardDriver, is_moving: bool) -> None:
        """Hold the attempts of a shard that is about to move, or release them again."""
        moving = self.machine.pauses.moving
        if is_moving:
            moving.add(shard)
        else:
            moving.discard(shard)
        for saga in list(shard.sagas.values()):
            for attempt in list(saga.busy.values()):
                self._apply_pauses(attempt)

    def has_running(self, shard: ShardDriver) -> bool:
        """Return whether a function of a shard runs, or is about to be called."""
        return any(attempt.instance.shard is shard for attempt in self.calls.running)

    def _apply_pauses(self, attempt: Attempt) -> None:
        """Hold an attempt that waits and is paused now, or continue one that is not any more."""
        state, reason = attempt.state, attempt.reason
        if attempt.instance.busy.get(attempt.action_key) is not attempt or self.closing:
            return
        if attempt.is_held and state is SUSPENDED:
            if not self.machine.pauses.hold(attempt):
                self._end_pause(attempt)
        elif state is SUSPENDED and reason is Suspension.EXTERNAL:
            self.machine.pauses.note(attempt)
        elif self.slots.is_waiting(attempt) or (state is SUSPENDED and reason in LIMITS):
            if self._holds(attempt):
                self.slots.cancel(attempt)

    # -- end

    def ended(self, attempt: Attempt, outcome: Outcome, at_once: bool = False) -> None:
        """Handle the outcome of a function that ran here or at a worker.

        With `at_once`, no other operation of its shard is half done.
        """
        at_once = at_once and outcome.kind is OutcomeKind.SUCCEEDED
        self._do(attempt, self.machine.ended(attempt, outcome, self._clock()), at_once)

    def succeeded(self, attempts: Sequence[Attempt]) -> None:
        """Report many finished attempts at once."""
        shards: dict[ShardDriver, None] = {}
        is_awaited = self.changes.futures
        for attempt in attempts:
            if is_awaited:
                self.changes.notify(attempt)
            shard = attempt.instance.shard
            assert shard
            shard.reports[attempt] = shards[shard] = None
        for shard in shards:
            if runner := self._coordinator.shards.runner(shard):
                runner.poke(at_once=True)

    def keep_progress(self) -> None:
        """Store the progress that functions have reported since the last call."""
        shards: dict[ShardDriver, Effects] = {}
        now = self._clock()
        for attempt in self.calls.with_new_progress():
            shard, control = attempt.instance.shard, attempt.control
            if shard and shard.is_current and control.progress:
                effects = shards.setdefault(shard, shard.effects(now))
                effects.batch.rare_rows.progress.append((*attempt.row, *control.progress, now))
        for shard, effects in shards.items():
            if runner := self._coordinator.shards.runner(shard):
                runner.keep(effects)

    def finish(self, attempt: Attempt, outcome: Outcome) -> None:
        """Finish an attempt with a reported outcome."""
        self._do(attempt, self.machine.finish(attempt, outcome, self._clock()))

    async def retry(self, attempt: Attempt, request: RequestRef) -> None:
        """Retry an attempt that waits, by a command, and wait until that is stored."""
        if request is not None:
            attempt.rare.request = request
        kept = self.kept.wait(attempt)
        self._do(attempt, self.machine.retry(attempt, self._clock()))
        await kept

    async def until_kept(self, attempt: Attempt) -> bool:
        """Wait until the report of a finished attempt is stored, or cannot be stored here.

        Only the store shows which is true. Return False if the attempt has no report.
        """
        if attempt.state is not FINISHED or attempt.outcome is None:
            return False
        if self._runner(attempt) and attempt.is_report_unstored:
            with contextlib.suppress(SagasError):  # the caller checks the store
                await self.kept.wait(attempt)
        return True

    def withdrawn(self, attempt: Attempt) -> None:
        """Handle that no worker has the task, and that none will get it."""
        self._do(attempt, self.machine.withdrawn(attempt, self._clock()))

    def lost(self, attempt: Attempt, fault: ShardLost) -> None:
        """Recover the shard, because it is unknown whether a transaction was committed."""
        self.emit(attempt, "commit_failed", str(fault))
        attempt.claim()
        if runner := self._runner(attempt):
            runner.fail(fault)

    def _finished(self, attempt: Attempt, at_once: bool) -> None:
        self._drop_timer(attempt)
        self._stop_following(attempt)
        if self.changes.futures:
            self.changes.notify(attempt)
        self._report(attempt, at_once)

    def _stop_following(self, attempt: Attempt) -> None:
        """Stop following the worker or the child of an attempt."""
        if attempt.action.is_external:
            self._external.gone(attempt)
        elif attempt.reason is Suspension.CHILD:
            self.children.gone(attempt)

    def _report(self, attempt: Attempt, at_once: bool = False) -> None:
        if runner := self._runner(attempt):
            runner.report(attempt, at_once)

    def _runner(self, attempt: Attempt) -> ShardRunner | None:
        shard = attempt.instance.shard
        return self._coordinator.shards.runner(shard) if shard else None

    # -- reports that were not stored

    def _report_again(self, attempt: Attempt) -> None:
        """Report an attempt whose report was not stored.

        If it did not succeed, its worker may have reported a success in the meantime. That would
        explain why the report was not stored, so the store is checked first.
        """
        outcome = attempt.outcome
        is_success = outcome and outcome.kind is OutcomeKind.SUCCEEDED
        if not attempt.is_external or (is_success and not is_optional_failure(outcome)):
            self.machine.report(attempt)
            self._report(attempt)
        elif attempt not in self._doubted:
            self._doubted.add(attempt)
            self._coordinator.spawn(self._report_what_was_done(attempt))

    async def _report_what_was_done(self, attempt: Attempt) -> None:
        """Report an attempt; a success that its worker has reported counts.

        Callers that reported another outcome receive an error.
        """
        try:
            done = await self._external.find_done(attempt.token())
        except asyncio.CancelledError:  # the store is closed
            coordinator = self._coordinator
            self._refuse(attempt, coordinator.closed or Closed(str(coordinator.store.path)))
            raise
        finally:
            self._doubted.discard(attempt)
        shard = attempt.instance.shard
        is_gone = shard is None or not shard.is_current  # the recovery reports it
        if is_gone or attempt.instance.busy.get(attempt.action_key) is not attempt:
            return
        if done:
            subject = f"saga {attempt.key!r}, step {attempt.name!r}"
            message = f"{subject}: its worker has reported success, and that counts"
            self._refuse(attempt, StepNotWaiting(message))
            attempt.outcome = done
        self.machine.report(attempt)
        self._report(attempt)

    def _refuse(self, attempt: Attempt, error: SagasError) -> None:
        """Raise an error in callers whose report of this attempt does not count."""
        attempt.rare.request = None
        self.kept.notify(attempt, error)

    # -- reports in the store

    def reported(self, attempts: Sequence[Attempt]) -> None:
        """Handle that reports are stored, each with its event."""
        is_wanted = self._teller.is_wanted("step_succeeded")
        if self.kept.futures:
            for attempt in attempts:
                self.kept.notify(attempt)
        for attempt in attempts:
            outcome = attempt.outcome
            if attempt.event in DONE and outcome and not outcome.encoded and not is_wanted:
                continue  # most
            if attempt.event not in DONE or is_optional_failure(outcome):
                self._emit_failure(attempt)
            elif is_wanted and not undoes_failure(attempt):
                self.emit(attempt, "step_succeeded")

    def _emit_failure(self, attempt: Attempt) -> None:
        """Emit what was raised, with its traceback if no further attempt follows.

        Nothing is emitted for attempts that were given up after a permanent failure.
        """
        outcome = attempt.outcome
        assert outcome
        final = outcome.kind is OutcomeKind.FAILED_PERMANENTLY
        if final and not outcome.called:
            return
        name = "step_failed" if final else RETRYING.get(attempt.event, "step_failed")
        level = None if outcome.called else logging.INFO
        if name == "step_failed":
            self._coordinator.trends.counts.add_failed_step(attempt.saga)
        if not self._teller.is_wanted(name):
            return
        detail = outcomes.error_text(outcome)
        self.emit(attempt, name, detail, level, outcome.error if name == "step_failed" else None)

    def emit(
        self,
        attempt: Attempt,
        name: str,
        detail: str | None = None,
        level: int | None = None,
        error: BaseException | None = None,
    ) -> None:
        """Emit an event of an attempt."""
        took = None if attempt.call_seconds is None else round(attempt.call_seconds, 6)
        self._teller.emit(
            name,
            level=level,
            error=error,
            seconds=took,
            optional=is_optional_failure(attempt.outcome),
            key=attempt.key,
            saga=attempt.saga,
            step=attempt.declared_name,
            index=attempt.index,
            undo=attempt.undo,
            attempt=attempt.attempt,
            detail=detail,
        )

    def planned(self, instance: SagaInstance) -> None:
        """Emit that a plan was adopted."""
        answer = instance.answer or {}
        detail: str | None = f"cost {answer['cost']}" if "cost" in answer else "blocked"
        if instance.kind.pivot and "cost" in answer:
            detail = None  # the package computed the costs
        self._teller.emit("plan_adopted", key=instance.key, saga=instance.kind.name, detail=detail)

    # -- forget

    def forget(self, attempt: Attempt) -> None:
        """Forget an attempt that the store does not have as open.

        It had not started, or its report is stored, or another node has its shard. Callers that
        wait for its report check the store.
        """
        self._drop_timer(attempt)
        self._stop_following(attempt)
        self.kept.notify(attempt, SagaMoved(f"saga {attempt.key!r}"))
        self.changes.notify(attempt)
        attempt.forget()
        self.calls.forget(attempt)


class EarlyReports:
    """Writes early reports into their shards, and notifies the callers that wait.

    A shard that has to be recovered does not write them. Then the callers check the store again.
    """

    def __init__(self, coordinator: Coordinator) -> None:
        self._coordinator, self._clock = coordinator, coordinator.clock
        self._waiting: dict[EarlyReport | Refusal, asyncio.Future[None]] = {}

    def put(self, report: EarlyReport | Refusal) -> asyncio.Future[None]:
        """Return a future that is done once a report is stored.

        For a refusal, it is done once the state that justifies the refusal is stored. It fails with
        `SagaMoved` if its caller has to check again.

        Raises:
            Moved: This program does not execute the saga.
            NotSerializable: The codec failed.
        """
        shard = report.saga.shard
        runner = self._coordinator.shards.runner(shard) if shard else None
        if shard is None or runner is None:
            raise SagaMoved(f"saga {report.saga.key!r}")
        effects = (
            shard_module.early_report_effects(shard, report, self._clock())
            if shard.is_current
            else None
        )
        future = self._waiting[report] = self._coordinator.loop.create_future()
        if effects:
            runner.keep(effects)
        return future

    def waiting(self, saga: SagaInstance, word: ActionKey) -> asyncio.Future[None] | None:
        """Return the future of a report of this step that is being stored, or None."""
        for report, future in self._waiting.items():
            if (
                isinstance(report, EarlyReport)
                and report.saga is saga
                and report.action_key == word
            ):
                return future
        return None

    def stored(self, report: EarlyReport | Refusal) -> None:
        """Complete the future of a report or a refusal."""
        if (future := self._waiting.pop(report, None)) and not future.done():
            future.set_result(None)

    def look_again(self, shard: int, error: SagasError | None = None) -> None:
        """Have callers check again: a shard was recovered, or moved to another node."""
        for report in [report for report in self._waiting if _number(report) == shard]:
            future = self._waiting.pop(report)
            if not future.done():
                future.set_exception(error or SagaMoved(f"saga {report.saga.key!r}"))
                future.exception()  # the caller may have been cancelled


def _new_error(attempt: Attempt, decision: Decision) -> BaseException | None:
    """Return the exception to log with its traceback, once for each reason, and forget it.

    The traceback would keep the values of its frames while the attempt waits.
    """
    outcome = attempt.outcome
    if decision.row is None or outcome is None or outcome.error is None:
        return None
    attempt.outcome = outcome._replace(error=None)
    is_logged = attempt.reason in UNCERTAIN and (attempt.count <= 1 or attempt.until is None)
    return outcome.error if is_logged else None


def _number(report: EarlyReport | Refusal) -> int | None:
    return report.saga.shard.number if report.saga.shard else None
