"""`AttemptMachine`: starts, suspends, retries, drains and finishes attempts.

Each event is looked up in the table of `core.attempt.table`, whose rule names the handler here.
This module has no clock, no event loop and no database. The caller passes the time as `now` and
carries out the `Decision` that a method returns.
"""

from __future__ import annotations

import datetime
import json
from collections.abc import Callable, Mapping
from typing import Any

from sagas.base.errors import CannotDecode, Fail
from sagas.core.attempt.directives import (
    CALL,
    FOLLOW,
    HELD,
    NOTHING,
    OFFER,
    READ,
    REPORT,
    REPORT_AGAIN,
    SLEEP,
    WITHDRAW,
    Decision,
    Do,
)
from sagas.core.attempt.model import (
    CLAIMED,
    FINISHED,
    SUSPENDED,
    Attempt,
    FunctionOption,
    SuspensionRow,
    has_nothing_to_undo,
    needs_stored_value,
)
from sagas.core.attempt.table import (
    OUTCOME_EVENTS,
    RULES,
    AttemptEvent,
    Handler,
    check_following,
    rule,
)
from sagas.core.attempt.declared_values import (
    OptionCalls,
    due_time,
    limit_calls,
    limit_subjects,
    until_call,
)
from sagas.core.outcomes import (
    FAILED,
    MAX_TEXT,
    PERMANENT,
    SUCCEEDED,
    Outcome,
    approval_outcome,
    failure,
    optional_failure,
    raised,
    values_unavailable,
)
from sagas.core.attempt.pause_index import Pauses
from sagas.core.reports import stored_report
from sagas.core.attempt.instance import SagaInstance
from sagas.core.states import (
    NEEDS_PROGRAM,
    PARKED,
    PARKING,
    RETRYABLE,
    UNCERTAIN,
    Action,
    Check,
    OutcomeKind,
    RowState,
    Suspension,
)
from sagas.definition import serialization
from sagas.definition.payloads import BlobUnavailable
from sagas.definition.step import Step

MAX_SLEEP = 30.0
"""Seconds: the wall clock may jump, so no timer sleeps longer before it reads the clock."""
COUNTED_DOWN = frozenset({Suspension.BACKOFF, Suspension.UNKNOWN, Suspension.RETRY})
"""Short suspensions, whose seconds are counted down: a clock that is set back does not make them
longer.
"""
ANNOUNCED = PARKED | {Suspension.TIMER, Suspension.APPROVAL}
"""Suspensions that emit the event `step_suspended`."""
LEAST_UNREAD, MAX_UNREAD = 1.0, 60.0
"""Seconds until the values are read again if the blob store did not return them."""
NO_TIME = 0.0
"""The time for an event whose handlers read none."""
MIN_PAUSE = 0.05
"""Seconds between two calls of the same attempt."""
MIN_YIELD, MAX_YIELD = 1.0, 60.0
"""Seconds for which an attempt whose wait for a saga was given up leaves its slot to others."""


AttemptDecisions = list[tuple[Attempt, Decision]]


# -- questions about an attempt


def is_called_at_once(attempt: Attempt) -> bool:
    """Whether the function is called at once, without any decision."""
    return (
        attempt.action.simple is not None and attempt.attempt == 1 and not attempt.instance.draining
    )


def is_reportable(attempt: Attempt) -> bool:
    """Whether a caller may report the attempt now: it is suspended for that."""
    return attempt.condition in RULES[AttemptEvent.REPORTED]


def becomes_reportable(attempt: Attempt) -> bool:
    """Whether the attempt is about to be suspended until a caller reports it."""
    if attempt.missing_function is not None:
        return False
    step = attempt.declared
    if step.manner(attempt.kind).external:
        return attempt.state is CLAIMED
    condition = attempt.condition
    if condition.is_row_pending:
        if condition._replace(is_row_pending=False) in RULES[AttemptEvent.REPORTED]:
            return True
    if attempt.undo or attempt.state is FINISHED:
        return False
    return step.kind == "approval" or (step.kind == "wait" and not attempt.is_wait_over)


def may_retry(attempt: Attempt) -> bool:
    """Whether an operator may retry the attempt at once."""
    return attempt.condition in RULES[AttemptEvent.RETRIED]


# -- the machine


class AttemptMachine:
    """Decide the next state of attempts, from the attempts and their sagas alone.

    Each method sets the attempt's state before it returns. `CALL` is the exception: the runtime
    queues and starts the attempt when it has a slot.

    Each method for an event raises `IllegalTransition` if the table has no rule for it.

    Attributes:
        leased: Whether external workers get leases. Otherwise the performer of an external step
            may start before this program knows of it.
        pauses: What is paused: such attempts are not called, and start no child.
    """

    def __init__(self, leased: bool = False) -> None:
        self.leased, self.pauses = leased, Pauses()

    def _decide(self, event: AttemptEvent, attempt: Attempt, now: float) -> Decision:
        """Decide by the rule for an event."""
        before = attempt.condition
        decision = DECISIONS[rule(event, before).handler](self, attempt, now)
        if Check.is_on:
            check_following(event, before, attempt.condition)
        return decision

    def _conclude(
        self, event: AttemptEvent, attempt: Attempt, outcome: Outcome, now: float
    ) -> Decision:
        """Decide by the rule for an event with an outcome."""
        before = attempt.condition
        decision = CONCLUSIONS[rule(event, before).handler](self, attempt, outcome, now)
        if Check.is_on:
            check_following(event, before, attempt.condition)
        return decision

    def _none(self, attempt: Attempt, now: float) -> Decision:
        return NOTHING

    # -- begin

    def begin(self, attempt: Attempt, now: float) -> Decision:
        """Decide how an attempt continues that the store has as started.

        Args:
            attempt: An attempt in the state `CLAIMED`.
            now: Wall time in seconds.

        Returns:
            `CALL`, `OFFER`, `SUSPEND`, or `REPORT` if it is given up without a call. `READ` if the
            decision needs values that are not held, and `ASK` if it needs a function of the
            definition; then the runtime calls `decide_again`.
        """
        return self._decide(AttemptEvent.BEGUN, attempt, now)

    def _begin(self, attempt: Attempt, now: float) -> Decision:
        instance = attempt.instance
        if (missing := attempt.missing_function) is not None:
            return self._park(attempt, Outcome(OutcomeKind.NO_DEFINITION, missing), now)
        if is_called_at_once(attempt):
            return CALL
        if needs_stored_value(attempt):
            return READ
        if has_nothing_to_undo(attempt):
            return self._finish(attempt, Outcome(OutcomeKind.SUCCEEDED, "null"), now)
        if attempt.action_key in instance.rare.final:
            return self._give_up(attempt, "the step failed permanently", now, True)
        if instance.extras is not None and (outcome := _early_outcome(attempt)):
            is_read = outcome.kind is not OutcomeKind.CANNOT_DECODE
            return (self._finish if is_read else self._park)(attempt, outcome, now)
        if instance.draining and self._may_give_up(attempt) and attempt.offered != 0:
            return self._give_up_undone(attempt, now)
        if attempt.attempt > 1 and (pause := backoff_seconds(attempt, now)) > 0:
            attempt.suspend(Suspension.BACKOFF, now + pause)
            return SLEEP
        return self._start(attempt, now)

    def resume(self, attempt: Attempt, now: float) -> Decision:
        """Decide how an attempt continues after its shard was recovered.

        The attempt is under way in this program, or recovery made it from the rows of the store.

        Returns:
            As `begin`; `REPORT_AGAIN` if it is finished, `NOTHING` if it continues unchanged.
        """
        return self._decide(AttemptEvent.RESUMED, attempt, now)

    def _report_again(self, attempt: Attempt, now: float) -> Decision:
        return REPORT_AGAIN

    def _call(self, attempt: Attempt, now: float) -> Decision:
        return CALL

    def _store_again(self, attempt: Attempt, now: float) -> Decision:
        """Store its row again, which may not be stored: the call does not need it."""
        return Decision(Do.NOTHING, attempt.pending_row)

    def _store_remote_again(self, attempt: Attempt, now: float) -> Decision:
        return self._store_again(attempt, now) if attempt.is_remote else NOTHING

    def _suspend_again(self, attempt: Attempt, now: float) -> Decision:
        """Suspend it again: its row was on the way to the store and may not be stored."""
        row = attempt.pending_row
        assert row is not None
        is_parked = row.reason in NEEDS_PROGRAM  # its row has no time of a further try
        attempt.suspend(row.reason, attempt.until if is_parked else row.until)
        is_timed = row.reason in RETRYABLE - {Suspension.RETRY}  # `stored` sets the timer of that
        return Decision(Do.SUSPEND, row, timer=is_parked or is_timed)

    def _suspend_by_row(self, attempt: Attempt, now: float) -> Decision:
        assert attempt.reason is not None
        attempt.suspend(attempt.reason, attempt.until)
        return NOTHING if attempt.until is None else SLEEP

    def _wait_by_row(self, attempt: Attempt, now: float) -> Decision:
        assert attempt.reason is not None
        attempt.is_uncalled = True
        attempt.suspend(attempt.reason, attempt.until)
        return SLEEP

    def _follow_by_row(self, attempt: Attempt, now: float) -> Decision:
        attempt.is_uncalled = False  # its row is in the store, and its child may be
        attempt.suspend(Suspension.CHILD)
        return FOLLOW if attempt.missing_function is None else NOTHING

    def _offer_again(self, attempt: Attempt, now: float) -> Decision:
        attempt.suspend(Suspension.EXTERNAL)
        return OFFER

    def _start(self, attempt: Attempt, now: float) -> Decision:
        step = attempt.declared
        if step.kind == "wait" and attempt.kind == Action.RUN and not step.manner("run").external:
            return self._wait(attempt, step, now)
        return self._call_again(attempt, now)

    def _call_again(self, attempt: Attempt, now: float) -> Decision:
        """Call its function here, or leave it to an external worker or a child saga."""
        if attempt.is_child:
            if self.pauses.hold(attempt):
                return HELD
            attempt.waiting_since = now
            attempt.suspend(Suspension.CHILD)
            return Decision(Do.SUSPEND, SuspensionRow(Suspension.CHILD))
        if not attempt.manner.external:
            return CALL
        attempt.is_uncalled = (
            attempt.is_uncalled and self.leased
        )  # else its worker may have started
        attempt.suspend(Suspension.EXTERNAL)
        return OFFER

    def _wait(self, attempt: Attempt, step: Step[Any], now: float) -> Decision:
        """Let it wait until its time, which the first attempt that can compute it sets.

        If the time cannot be computed, the attempt fails and its function is not called.
        """
        if attempt.is_wait_over:
            attempt.keep_row()  # an earlier attempt's
            return CALL
        wait_ends = attempt.instance.rare.wait_ends
        due = wait_ends.get(attempt.action_key)
        if due is None:
            returned = attempt.take_returned(FunctionOption.UNTIL)
            needs_call = callable(step.until) and returned is None
            if needs_call and attempt.lacks_values():
                return READ
            try:
                if needs_call:
                    return Decision(Do.ASK, option_calls=until_call(attempt))
                due = due_time(step.until if returned is None else returned.get(), now)
            except Exception as error:
                return self._finish_uncalled(attempt, error, now)
        wait_ends[attempt.action_key] = until = max(due, 1.0)
        return self._suspend(attempt, Suspension.TIMER, until, now)

    def decide_again(self, attempt: Attempt, now: float) -> Decision:
        """Decide again after `READ` or `ASK`, except if `decide_limits` returned them."""
        return self._decide(AttemptEvent.CONTINUED, attempt, now)

    def _finish_uncalled(self, attempt: Attempt, error: Exception, now: float) -> Decision:
        """Finish or park an attempt whose definition's function raised: it is not called."""
        outcome = raised(error, attempt.manner)
        if outcome.kind in PARKING:
            return self._park(attempt, outcome, now)
        detail = f"{type(error).__name__}: {error}"
        outcome = failure(detail, final=isinstance(error, Fail))
        return self._finish(attempt, outcome._replace(error=error), now)

    def decide_limits(self, attempt: Attempt, now: float) -> Decision:
        """Decide which key the limits of the step use for an attempt that may be called.

        Returns:
            `CALL`; or as `ended`, if the function that returns the key raised; or `READ` or
            `ASK`, and then the runtime calls this method again. `REPORT` if its saga drains now.
            `SUSPEND` if it is paused.
        """
        return self._decide(AttemptEvent.CALL_DECIDED, attempt, now)

    def _decide_limits(self, attempt: Attempt, now: float) -> Decision:
        if attempt.instance.may_cancel_work and self._may_give_up(attempt):
            return self._give_up_undone(attempt, now)
        if self.pauses.hold(attempt):
            return HELD
        if (missing := attempt.missing_function) is not None:
            return self._park(attempt, Outcome(OutcomeKind.NO_DEFINITION, missing), now)
        try:
            if (tenant := attempt.take_returned(FunctionOption.TENANT)) is not None:
                attempt.instance.rare.tenant = tenant.get()
            if (key := attempt.take_returned(FunctionOption.LIMIT_KEY)) is not None:
                attempt.rare.limit_key = key.get()
            if not (subjects := limit_subjects(attempt)):
                return CALL
            if attempt.lacks_values():
                return READ
            return Decision(Do.ASK, option_calls=limit_calls(attempt, subjects))
        except Exception as error:
            return self._finish_uncalled(attempt, error, now)

    def _suspend(
        self, attempt: Attempt, reason: Suspension, until: float | None, now: float
    ) -> Decision:
        """Suspend an attempt until its time or an approval; if its saga drains, give it up."""
        attempt.waiting_since, attempt.is_uncalled = now, True
        if attempt.instance.draining and self._may_give_up(attempt):
            return self._give_up_undone(attempt, now)
        attempt.suspend(reason, until)
        return Decision(Do.SUSPEND, SuspensionRow(reason, until))

    # -- time

    def timer_delay(self, attempt: Attempt, now: float) -> float | None:
        """Return in how many seconds `timer` is called for a suspended attempt; None if never."""
        if attempt.until is None or attempt.missing_function is not None:
            return None
        longest = MAX_SLEEP
        if attempt.reason in COUNTED_DOWN:
            longest = max(MIN_PAUSE, attempt.manner.backoff.maximum, attempt.rare.pause)
        return max(0.0, min(longest, attempt.until - now))

    def timer(self, attempt: Attempt, now: float) -> Decision:
        """Decide how an attempt continues whose timer fired.

        Returns:
            `SUSPEND` if its time has not come, or to store the end of its wait; else as `begin`.
        """
        if attempt.until is None:
            return NOTHING
        return self._decide(AttemptEvent.TIMER_FIRED, attempt, now)

    def _end_wait(self, attempt: Attempt, now: float) -> Decision:
        if _is_early(attempt, now):
            return SLEEP
        attempt.instance.rare.end_wait(attempt.action_key)
        attempt.suspend(Suspension.WAIT_OVER)
        return Decision(Do.SUSPEND, SuspensionRow(Suspension.WAIT_OVER))

    def _expire_approval(self, attempt: Attempt, now: float) -> Decision:
        if _is_early(attempt, now):
            return SLEEP
        return self._finish(attempt, failure("it was not approved in time", final=True), now)

    def _read_again(self, attempt: Attempt, now: float) -> Decision:
        return SLEEP if _is_early(attempt, now) else self._start(attempt, now)

    def stored(self, attempt: Attempt) -> Decision:
        """Decide how an attempt continues after its row was stored."""
        decision = self._decide(AttemptEvent.ROW_STORED, attempt, NO_TIME)
        attempt.take_row()
        return decision

    def _announce(self, attempt: Attempt, now: float) -> Decision:
        return Decision(Do.SUSPEND, event=_suspended_event(attempt))

    def _announce_wait(self, attempt: Attempt, now: float) -> Decision:
        return Decision(Do.SUSPEND, timer=True, event=_suspended_event(attempt))

    def _announce_child(self, attempt: Attempt, now: float) -> Decision:
        attempt.is_uncalled = False
        return Decision(Do.FOLLOW, event=_suspended_event(attempt))

    # -- outcomes

    def ended(self, attempt: Attempt, outcome: Outcome, now: float) -> Decision:
        """Decide what follows from the outcome of a call.

        Args:
            attempt: An attempt that is `RUNNING`, or that an external worker performs.
            outcome: The outcome of the call.
            now: Wall time in seconds.

        Returns:
            `REPORT`; or `SUSPEND` if it needs an approval, if the same attempt is called again,
            or if an operator or another program has to act.
        """
        event = OUTCOME_EVENTS[outcome.kind]
        attempt.is_uncalled = False  # also where the worker got it from another node
        return self._conclude(event, attempt, outcome, now)

    def _complete(self, attempt: Attempt, outcome: Outcome, now: float) -> Decision:
        if not self._is_approval(attempt):
            return self._finish(attempt, outcome, now)
        timeout = attempt.declared.approval_timeout
        until = None if timeout is None else now + timeout.total_seconds()
        return self._suspend(attempt, Suspension.APPROVAL, until, now)

    def _fail(self, attempt: Attempt, outcome: Outcome, now: float) -> Decision:
        return after_failure(attempt, outcome, now) or self._finish(attempt, outcome, now)

    def _answer(self, attempt: Attempt, outcome: Outcome, now: float) -> Decision:
        return self._finish(attempt, approval_outcome(outcome), now)

    def finish(self, attempt: Attempt, outcome: Outcome, now: float) -> Decision:
        """Set the final outcome of an attempt that `is_reportable`, as a caller reported it."""
        return self._conclude(AttemptEvent.REPORTED, attempt, outcome, now)

    def _finish(self, attempt: Attempt, outcome: Outcome, now: float) -> Decision:
        attempt.finish(kept_outcome(attempt, outcome), now)
        return self.report(attempt)

    def report(self, attempt: Attempt) -> Decision:
        """Report a finished attempt; also if an earlier report of it was not stored."""
        if attempt.outcome and attempt.outcome.kind is OutcomeKind.FAILED_PERMANENTLY:
            attempt.instance.rare.final.add(attempt.action_key)
        return REPORT

    def _is_approval(self, attempt: Attempt) -> bool:
        return attempt.kind == Action.RUN and attempt.declared.kind == "approval"

    def _call_later(self, attempt: Attempt, outcome: Outcome, now: float) -> Decision:
        """Call the same attempt again after its backoff, or wait until an operator reports it."""
        manner, rare = attempt.manner, attempt.rare
        rare.count += 1
        attempt.waiting_since = attempt.waiting_since or now
        attempt.outcome = outcome
        limit = manner.max_unknown
        if isinstance(limit, datetime.timedelta):
            is_spent = now - attempt.waiting_since >= limit.total_seconds()
        else:
            is_spent = limit is not None and rare.count >= limit
        rare.pause = max(MIN_PAUSE, manner.backoff.after(rare.count), yield_seconds(attempt))
        until = None if is_spent else now + rare.pause
        times = f"; {rare.count} times so far" if rare.count > 1 else ""
        detail = f"{outcome.value}{times}{'; a person must report it' if is_spent else ''}"
        attempt.suspend(Suspension.UNKNOWN, until)
        return Decision(
            Do.SUSPEND,
            SuspensionRow(Suspension.UNKNOWN, until, outcome.value),
            timer=True,
            event=("step_unknown", detail),
        )

    def values_unavailable(self, attempt: Attempt, error: BlobUnavailable, now: float) -> Decision:
        """Decide how an attempt continues if the blob store does not return its values."""
        event = AttemptEvent.VALUES_UNAVAILABLE
        return self._conclude(event, attempt, values_unavailable(error), now)

    def _park(self, attempt: Attempt, outcome: Outcome, now: float) -> Decision:
        """Park an attempt that this program cannot perform, for another program or an operator.

        The attempt does not count as failed. If only the blob store does not answer, the values are
        read again after a pause, and the event is emitted once.
        """
        previous, attempt.outcome = attempt.outcome, outcome
        attempt.waiting_since = attempt.waiting_since or now
        until = None
        if isinstance(outcome.error, BlobUnavailable):
            attempt.rare.pause = min(MAX_UNREAD, max(LEAST_UNREAD, 2 * attempt.rare.pause))
            until = now + attempt.rare.pause
            is_same = previous is not None and previous[:2] == outcome[:2]
            has_row = attempt.row_state is RowState.STORED
            if row := attempt.pending_row:  # the pause may be over before it is stored
                has_row = row.reason is Suspension.CANNOT_DECODE
            if is_same and has_row:
                attempt.suspend(Suspension.CANNOT_DECODE, until)
                return SLEEP
        reason = Suspension(outcome.kind.value)
        attempt.suspend(reason, until)
        return Decision(
            Do.SUSPEND,
            SuspensionRow(reason, error=outcome.value, is_wait_over=attempt.is_wait_over),
            timer=until is not None,
            event=(f"step_{reason}", outcome.value),
        )

    def retry(self, attempt: Attempt, now: float) -> Decision:
        """Call an attempt that an operator `may_retry` again at once."""
        return self._decide(AttemptEvent.RETRIED, attempt, now)

    def _retry(self, attempt: Attempt, now: float) -> Decision:
        """Call an attempt again at once for an operator, with new counts and a new time.

        The engine keeps the attempt's number, so failures count from it. A new `waiting_since`
        distinguishes the wait that the operator answered from a later one. An exhausted attempt is
        called once its row is stored: with the row before, its last failure would still count.
        """
        is_unknown = attempt.reason in UNCERTAIN
        is_exhausted = attempt.reason is Suspension.EXHAUSTED
        reason = Suspension.UNKNOWN if is_unknown else Suspension.RETRY
        if attempt.child is None:  # else they number its children
            attempt.rare.failures = 0 if is_unknown else 1 - attempt.attempt
            attempt.rare.count = 0
        detail = attempt.outcome.value if attempt.outcome else ""
        if not is_unknown:
            detail = str(json.loads(detail or "{}").get("error", ""))
        attempt.waiting_since = now
        attempt.suspend(reason, now)
        return Decision(Do.SUSPEND, SuspensionRow(reason, now, detail), timer=not is_exhausted)

    def _give_up(self, attempt: Attempt, why: str, now: float, final: bool = False) -> Decision:
        if attempt.is_wait:
            attempt.keep_row()  # an earlier attempt's
        return self._finish(attempt, failure(f"not called: {why}", final, called=False), now)

    def _give_up_undone(self, attempt: Attempt, now: float) -> Decision:
        return self._give_up(attempt, "the saga is being undone", now)

    # -- a saga that drains

    def drain(self, instance: SagaInstance, now: float) -> AttemptDecisions:
        """Drain a saga, so that the engine can plan it.

        Attempts that were not called are given up. Attempts that wait for their backoff continue
        now. If the saga was planned in the meantime, nothing is done. The runtime calls this after
        the commit that stores why the saga drains.
        """
        decisions: AttemptDecisions = []
        if not instance.draining:
            return decisions
        instance.rare.may_cancel_work = True
        for attempt in list(instance.busy.values()):
            decision = self._decide(self._drain_event(attempt), attempt, now)
            if decision is not NOTHING:
                decisions.append((attempt, decision))
        return decisions

    def _drain_event(self, attempt: Attempt) -> AttemptEvent:
        if attempt.undo:
            return AttemptEvent.DRAINED_UNDOING
        may_give_up = self._may_give_up(attempt)
        return AttemptEvent.DRAINED_UNCALLED if may_give_up else AttemptEvent.DRAINED

    def _withdraw(self, attempt: Attempt, now: float) -> Decision:
        return WITHDRAW  # unless a worker has it by now

    def _follow(self, attempt: Attempt, now: float) -> Decision:
        return FOLLOW if attempt.missing_function is None else NOTHING

    def _end_failed(self, attempt: Attempt, now: float) -> Decision:
        if attempt.rare.has_unknown_call and not attempt.is_child:
            return self._call_again(attempt, now)  # that call may have had its effect
        assert attempt.outcome is not None
        return self._finish(attempt, attempt.outcome, now)

    def _end_exhausted(self, attempt: Attempt, now: float) -> Decision:
        if not attempt.instance.aborted:
            return NOTHING  # an operator may have performed it by hand
        return self._end_failed(attempt, now)

    def _call_now(self, attempt: Attempt, now: float) -> Decision:
        """Call it again: to give it up would report a failure that did not happen."""
        return NOTHING if attempt.until is None else self._call_again(attempt, now)

    def withdrawn(self, attempt: Attempt, now: float) -> Decision:
        """Give up an attempt whose offer was withdrawn, because its saga drains."""
        return self._decide(AttemptEvent.OFFER_WITHDRAWN, attempt, now)

    def _may_give_up(self, attempt: Attempt) -> bool:
        if not attempt.is_uncalled or attempt.undo:
            return False
        instance = attempt.instance
        return instance.aborted or attempt.attempt < instance.kind.tries["run"][attempt.step]


DECISIONS: Mapping[Handler, Callable[[AttemptMachine, Attempt, float], Decision]] = {
    Handler.NONE: AttemptMachine._none,
    Handler.BEGIN: AttemptMachine._begin,
    Handler.START: AttemptMachine._start,
    Handler.CALL: AttemptMachine._call,
    Handler.CALL_AGAIN: AttemptMachine._call_again,
    Handler.DECIDE_LIMITS: AttemptMachine._decide_limits,
    Handler.REPORT_AGAIN: AttemptMachine._report_again,
    Handler.STORE_AGAIN: AttemptMachine._store_again,
    Handler.STORE_REMOTE_AGAIN: AttemptMachine._store_remote_again,
    Handler.SUSPEND_AGAIN: AttemptMachine._suspend_again,
    Handler.SUSPEND_BY_ROW: AttemptMachine._suspend_by_row,
    Handler.WAIT_BY_ROW: AttemptMachine._wait_by_row,
    Handler.OFFER_AGAIN: AttemptMachine._offer_again,
    Handler.FOLLOW_BY_ROW: AttemptMachine._follow_by_row,
    Handler.ANNOUNCE: AttemptMachine._announce,
    Handler.ANNOUNCE_WAIT: AttemptMachine._announce_wait,
    Handler.ANNOUNCE_CHILD: AttemptMachine._announce_child,
    Handler.END_WAIT: AttemptMachine._end_wait,
    Handler.EXPIRE_APPROVAL: AttemptMachine._expire_approval,
    Handler.READ_AGAIN: AttemptMachine._read_again,
    Handler.RETRY: AttemptMachine._retry,
    Handler.GIVE_UP: AttemptMachine._give_up_undone,
    Handler.WITHDRAW: AttemptMachine._withdraw,
    Handler.FOLLOW: AttemptMachine._follow,
    Handler.END_FAILED: AttemptMachine._end_failed,
    Handler.END_EXHAUSTED: AttemptMachine._end_exhausted,
    Handler.CALL_NOW: AttemptMachine._call_now,
}
"""The method of each handler."""
CONCLUSIONS: Mapping[Handler, Callable[[AttemptMachine, Attempt, Outcome, float], Decision]] = {
    Handler.COMPLETE: AttemptMachine._complete,
    Handler.FAIL: AttemptMachine._fail,
    Handler.CALL_LATER: AttemptMachine._call_later,
    Handler.PARK: AttemptMachine._park,
    Handler.ANSWER: AttemptMachine._answer,
    Handler.FINISH: AttemptMachine._finish,
}
"""The method of each handler that gets an outcome."""


# -- outcomes


def _early_outcome(attempt: Attempt) -> Outcome | None:
    """Return the outcome that was reported before an attempt started.

    Its function is not called, and no operator is asked. The report also counts if the saga drains
    by now, because the effect exists.

    Returns:
        None if no report is stored; an outcome of the kind `CANNOT_DECODE` if the codec cannot
        read it.
    """
    report = None if attempt.undo else stored_report(attempt.instance, attempt.action_key)
    if report is None:
        return None
    attempt.keep_row()
    if report.kind is not SUCCEEDED:
        return report
    try:
        return report._replace(value=attempt.instance.kind.payloads.decode(report.value))
    except CannotDecode as error:
        return Outcome(OutcomeKind.CANNOT_DECODE, str(error)[:MAX_TEXT])


def kept_outcome(attempt: Attempt, outcome: Outcome) -> Outcome:
    """Return the outcome to report for an attempt.

    The last failure of an optional step, or of a collected item, becomes a result: for the engine
    the step is void, and costs nothing. It stays a failure if the saga is aborted.
    """
    instance = attempt.instance
    if outcome.kind not in (FAILED, PERMANENT) or attempt.undo or instance.aborted:
        return outcome
    kind, step = instance.kind, attempt.step
    if step not in kind.optional and step not in kind.collected:
        return outcome
    is_last = outcome.kind is PERMANENT or attempt.attempt >= kind.tries["run"][step]
    if not is_last or not outcome.called:
        return outcome
    detail = str(json.loads(outcome.value).get("error", ""))
    return optional_failure(detail)._replace(error=outcome.error)


def after_failure(attempt: Attempt, outcome: Outcome, now: float) -> Decision | None:
    """Decide how a failed attempt continues that the engine would not retry.

    The same attempt is called again, or waits for an operator: for the engine it is under way.

    Returns:
        None if the failure is reported: the engine makes another attempt, or the step fails.
    """
    manner, is_final = attempt.manner, outcome.kind is OutcomeKind.FAILED_PERMANENTLY
    tries = attempt.instance.kind.tries[attempt.kind][attempt.step]
    is_kept = attempt.undo or attempt.declared.saga.ends is not None  # an operator is asked
    if (is_final and not is_kept) or (not is_final and attempt.attempt < tries):
        return None
    if attempt.instance.draining and not attempt.undo:
        return None
    attempts_made = attempt.attempt + attempt.failures
    repeats = manner.on_exhausted == "retry" or attempts_made < max(tries, manner.tries)
    if manner.on_exhausted == "fail" and (is_final or not repeats):
        return None
    failure = json.loads(outcome.value)
    detail = str(failure.get("error", ""))[:MAX_TEXT]
    attempt.rare.failures += 1
    attempt.rare.has_unknown_call = False
    attempt.waiting_since, attempt.outcome = attempt.waiting_since or now, outcome
    if is_final or not repeats:
        attempt.suspend(Suspension.EXHAUSTED)
        row = SuspensionRow(Suspension.EXHAUSTED, None, detail)
        return Decision(Do.SUSPEND, row, event=("step_exhausted", detail))
    pause = failure.get("retry_after", manner.backoff.after(attempts_made))
    attempt.rare.pause = max(MIN_PAUSE, pause)
    attempt.suspend(Suspension.RETRY, now + attempt.rare.pause)
    row = SuspensionRow(Suspension.RETRY, attempt.until, detail)
    return Decision(Do.SUSPEND, row, timer=True, event=("step_retrying", detail))


def backoff_seconds(attempt: Attempt, now: float) -> float:
    """Return the seconds until the call; if the clock was set back, at most the whole pause."""
    failed_at = attempt.instance.rare.failed_at.get(attempt.action_key)
    if failed_at is None:
        return 0.0
    pause = attempt.instance.rare.retry_pauses.get(attempt.action_key)
    if pause is None:
        pause = attempt.manner.backoff.after(attempt.attempt - 1)
    else:
        attempt.rare.pause = pause
    return min(pause, failed_at + pause - now)


def yield_seconds(attempt: Attempt) -> float:
    """Return the seconds for which it leaves its slot to others after its wait was given up."""
    rare = attempt.rare
    gave_way, rare.gave_way = rare.gave_way, False
    return min(MAX_YIELD, MIN_YIELD * 2.0 ** min(rare.count - 1, 16)) if gave_way else 0.0


def _is_early(attempt: Attempt, now: float) -> bool:
    """Whether the time of an attempt is ahead: the clock was set back, or the sleep was bounded."""
    return attempt.until is not None and attempt.until > now


def _suspended_event(attempt: Attempt) -> tuple[str, str]:
    """Return the event that says why an attempt is suspended, by the row that is stored now."""
    row = attempt.pending_row
    assert row is not None
    return "step_suspended", row.reason.text
