"""The state of an attempt that failed: another one, the same one again, attention, or none."""

from __future__ import annotations

from typing import Any

import pytest

import sagas
from sagas.core import outcomes
from sagas.core.attempt import machine as attempt_machine
from sagas.core.attempt.directives import CALL, Do, NOTHING, REPORT, SLEEP
from sagas.core.attempt.machine import AttemptMachine, is_reportable
from sagas.core.attempt.model import Attempt
from sagas.core.attempt.instance import SagaInstance
from sagas.core.states import OutcomeKind, Suspension
from sagas.definition.registry import DefinitionRegistry

NOW = 1000.0
WAIT = sagas.Backoff(initial=10, maximum=60)
MACHINE = AttemptMachine()
NO, NEVER = outcomes.failure("no"), outcomes.failure("never", final=True)
SOON = outcomes.failure("soon", retry_after=3.0)


def attempt_of(kind: str = "run", number: int = 1, **options: Any) -> Attempt:
    """Return a running attempt, of two tries."""
    saga = sagas.Saga("s")
    forward = options if kind == "run" else {}
    step = saga.step(name="a", backoff=WAIT, **{"tries": 2} | forward)(lambda task: None)
    backward = {} if kind == "run" else options
    step.compensation(**{"tries": 2} | backward)(lambda task: None)
    instance = SagaInstance("k", "null", DefinitionRegistry([saga]).kinds[0], 0)
    instance.token = "test-0"
    attempt = Attempt(instance, 0, kind, number, True)
    instance.busy[attempt.action_key] = attempt
    attempt.start()
    return attempt


def again(attempt: Attempt) -> None:
    """Call the attempt again."""
    attempt.queue()
    attempt.start()


@pytest.mark.parametrize(
    ("kind", "number", "options", "outcome", "comes"),
    [
        ("run", 2, {}, NO, None),
        ("run", 1, {"on_exhausted": "ask"}, NO, None),
        ("run", 2, {"on_exhausted": "ask"}, NO, Suspension.EXHAUSTED),
        ("run", 2, {"on_exhausted": "ask"}, NEVER, None),
        ("run", 2, {"on_exhausted": "retry"}, NEVER, None),
        ("run", 2, {"on_exhausted": "retry"}, NO, Suspension.RETRY),
        ("run", 9, {"tries": 9}, NO, None),
        ("run", 1, {"tries": 12}, NO, None),
        ("run", 2, {"tries": 12}, NO, Suspension.RETRY),
        ("undo", 1, {}, NO, None),
        ("undo", 2, {}, NO, Suspension.EXHAUSTED),
        ("undo", 1, {}, NEVER, Suspension.EXHAUSTED),
        ("undo", 1, {"on_exhausted": "retry"}, NEVER, Suspension.EXHAUSTED),
        ("undo", 2, {"on_exhausted": "retry"}, NO, Suspension.RETRY),
        ("undo", 1, {"on_exhausted": "fail"}, NEVER, None),
        ("undo", 1, {"on_exhausted": "fail", "tries": 12}, NEVER, None),
    ],
)
def test_the_decision_after_a_failure(
    kind: str, number: int, options: dict[str, Any], outcome: outcomes.Outcome, comes: Any
) -> None:
    attempt = attempt_of(kind, number, **options)
    decision = MACHINE.ended(attempt, outcome, NOW)
    if comes is None:
        assert decision is REPORT and attempt.outcome is outcome
        return
    assert decision.do is Do.SUSPEND and decision.row and decision.row.reason is comes
    asks = comes is Suspension.EXHAUSTED
    assert (attempt.until is None) is asks and decision.timer is not asks and is_reportable(attempt)
    name = "step_exhausted" if asks else "step_retrying"
    assert decision.event == (name, decision.row.error) and attempt.failures == 1


def test_attempts_up_to_the_limit() -> None:
    """The pauses grow up to the longest one.

    Then the attempt needs an operator, who may retry it: attempts count from the first one again.
    """
    attempt, now = attempt_of(number=9, tries=12, on_exhausted="ask"), NOW
    first = (10.0, 20.0, 40.0)
    for pauses in ((60.0, 60.0, 60.0), (*first, *8 * (60.0,))):
        for pause in pauses:
            MACHINE.ended(attempt, NO, now)
            assert attempt.until == now + pause and MACHINE.timer_delay(attempt, now) == pause
            now += pause
            attempt.take_row()
            assert MACHINE.timer(attempt, now) is CALL
            again(attempt)
        MACHINE.ended(attempt, NO, now)
        assert attempt.reason is Suspension.EXHAUSTED
        assert MACHINE.timer(attempt, now) is NOTHING and attempt_machine.may_retry(attempt)
        attempt.take_row()
        decision = MACHINE.retry(attempt, now)
        assert decision.row and (decision.row.reason, decision.row.until) == (Suspension.RETRY, now)
        assert MACHINE.timer(attempt, now) is CALL
        attempt.take_row()
        again(attempt)


def test_a_retried_unknown_attempt_stays_unknown() -> None:
    """A retry does not make the outcome known: the attempt may have had its effect.

    Its time restarts.
    """
    attempt = attempt_of(number=2, max_unknown=1)
    MACHINE.ended(attempt, outcomes.unknown("lost"), NOW)
    assert attempt.waiting_since == NOW
    decision = MACHINE.retry(attempt, NOW + 5)
    assert attempt.waiting_since == NOW + 5
    assert decision.row and (decision.row.reason, decision.row.error) == (
        Suspension.UNKNOWN,
        "lost",
    )
    assert attempt.count == 0 and attempt.outcome and attempt.outcome.kind is OutcomeKind.UNKNOWN


@pytest.mark.parametrize("options", [{"on_exhausted": "ask"}, {"on_exhausted": "retry"}])
def test_a_saga_that_drains_waits_for_no_failure(options: dict[str, Any]) -> None:
    """An attempt that failed has failed, unless an operator was asked and the saga is not aborted.

    A compensation continues to wait.
    """
    attempt, undo = attempt_of(number=2, **options), attempt_of("undo", 2, **options)
    for exhausted in (attempt, undo):
        MACHINE.ended(exhausted, NO, NOW)
        exhausted.instance.draining = True
    if options["on_exhausted"] == "ask":
        assert MACHINE.drain(attempt.instance, NOW) == [] and attempt_machine.may_retry(attempt)
        attempt.instance.aborted = True
    assert MACHINE.drain(attempt.instance, NOW) == [(attempt, REPORT)] and attempt.outcome is NO
    assert MACHINE.drain(undo.instance, NOW) == []
    late = attempt_of(number=2, **options)
    late.instance.draining = True
    assert MACHINE.ended(late, NO, NOW) is REPORT


@pytest.mark.parametrize("number", [1, 9])
def test_the_pause_that_a_function_wants(number: int) -> None:
    """It counts after an attempt of the definition, and after the last one."""
    attempt = attempt_of(number=number, tries=12)
    decision = MACHINE.ended(attempt, SOON, NOW)
    if number == 9:
        assert attempt.until == NOW + 3 and decision.timer
        return
    instance = attempt.instance
    instance.note_failure(attempt.action_key, NOW, {"error": "soon", "retry_after": 3.0})
    following = Attempt(instance, 0, "run", 2, True)
    assert MACHINE.begin(following, NOW) is SLEEP and following.until == NOW + 3
    instance.note_failure(attempt.action_key, NOW, {"error": "no"})
    assert MACHINE.begin(Attempt(instance, 0, "run", 2, True), NOW + 9) is SLEEP


@pytest.mark.parametrize("reason", [Suspension.RETRY, Suspension.EXHAUSTED, Suspension.UNKNOWN])
def test_a_restart_continues_a_wait(reason: Suspension) -> None:
    """No function is called because of a restart."""
    asks = reason is Suspension.EXHAUSTED
    attempt = Attempt(attempt_of(number=2).instance, 0, "run", 2, False)
    until = attempt.until = None if asks else NOW + 30
    attempt.reason, attempt.waiting_since = reason, NOW
    attempt.keep_row()
    assert MACHINE.resume(attempt, NOW) is (NOTHING if asks else SLEEP)
    assert (attempt.reason, attempt.until) == (reason, until) and attempt_machine.may_retry(attempt)
