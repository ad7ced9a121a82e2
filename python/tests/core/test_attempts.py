"""The states of an attempt: each decision of the state machine, without a clock, loop or database.
"""

from __future__ import annotations

import datetime
import types
from collections.abc import Iterator
from typing import Any

import hypothesis
import hypothesis.strategies as st
import pytest

import sagas
from sagas.core import outcomes, reports, states
from sagas.core.attempt.directives import (
    CALL,
    Decision,
    Do,
    FOLLOW,
    NOTHING,
    OFFER,
    REPORT,
    REPORT_AGAIN,
    SLEEP,
    WITHDRAW,
)
from sagas.core.attempt.machine import (
    AttemptMachine,
    MAX_SLEEP,
    becomes_reportable,
    is_called_at_once,
    is_reportable,
)
from sagas.core.reports import EarlyReport
from sagas.core.attempt.model import Attempt, SuspensionRow
from sagas.core.attempt.instance import SagaInstance
from sagas.core.outcomes import Outcome
from sagas.core.states import AttemptState, EarlyReason, OutcomeKind, RowState, Suspension
from sagas.definition.registry import DefinitionRegistry

NOW = 1000.0
WAIT = sagas.Backoff(initial=10, maximum=100)
MACHINE = AttemptMachine()


class QueueStub:
    """A queue of workers that does not exist."""

    timeout = 60.0

    def declare(self, *arguments: Any) -> None:
        ...


def due(task: sagas.Task[Any]) -> Any:
    """Return the time at which the wait `later` is over, as its input says."""
    if task.input == "raises":
        raise ValueError("no idea")
    if task.input == "fails":
        raise sagas.Fail("never")
    return {"text": "2030-01-01", "naive": datetime.datetime(2030, 1, 1), "none": None}.get(
        task.input, datetime.datetime.fromtimestamp(NOW + 50, datetime.timezone.utc)
    )


def trip() -> sagas.Saga:
    """Return a saga with a step of each kind."""
    saga = sagas.Saga("trip")

    @saga.step(undo=0, tries=3, backoff=WAIT)
    async def simple(task: sagas.Task[Any]) -> None:
        ...

    @saga.step(undo=0, tries=3, backoff=WAIT, max_unknown=3)
    def plain(task: sagas.Task[Any]) -> None:
        ...

    @saga.step(undo=0, backoff=WAIT, max_unknown=datetime.timedelta(seconds=30))
    def timed(task: sagas.Task[Any]) -> None:
        ...

    @saga.wait(until=datetime.timedelta(seconds=30), tries=2)
    def pause(task: sagas.Task[Any]) -> None:
        ...

    @saga.wait(until=due, tries=2)
    def later(task: sagas.Task[Any]) -> None:
        ...

    @saga.approval(timeout=60)
    def sign(task: sagas.Task[Any]) -> None:
        ...

    saga.step(name="outside", undo=0, tries=2, external=True, backoff=WAIT)
    asks: Any = saga.step(name="asks", undo=0, tries=1, on_exhausted="ask", backoff=WAIT)
    asks(lambda task: None)
    queue: Any = QueueStub()
    saga.step(name="sent", undo=0, queue=queue, backoff=WAIT)(lambda task: None)
    return saga


KIND = DefinitionRegistry([trip()]).kinds[0]


@pytest.fixture(autouse=True)
def checked() -> Iterator[None]:
    """Check each transition."""
    before, states.Check.is_on = states.Check.is_on, True
    yield
    states.Check.is_on = before


def attempt_of(
    step: str, number: int = 1, kind: str = "run", text: str = "null", is_uncalled: bool = True
) -> Attempt:
    """Return an attempt that was claimed, alone in its saga."""
    instance = SagaInstance("k", text, KIND, 0)
    instance.token = "test-0"
    attempt = Attempt(instance, KIND.names.index(step), kind, number, is_uncalled)
    instance.busy[attempt.action_key] = attempt
    return attempt


def running(step: str, number: int = 1, kind: str = "run") -> Attempt:
    """Return an attempt whose function is being called."""
    attempt = attempt_of(step, number, kind)
    attempt.start()
    return attempt


def error_of(attempt: Attempt) -> str:
    """Return the error of a finished attempt."""
    assert attempt.outcome
    return attempt.outcome.value


# -- begin


@pytest.mark.parametrize("step", ["simple", "plain", "sign", "sent"])
def test_a_function_is_called(step: str) -> None:
    attempt = attempt_of(step)
    assert MACHINE.begin(attempt, NOW) is CALL and attempt.state is AttemptState.CLAIMED
    assert is_called_at_once(attempt) is (step == "simple")


def test_a_retry_waits_for_its_back_off() -> None:
    attempt = attempt_of("simple", 3)
    attempt.instance.rare.failed_at[attempt.action_key] = NOW - 5
    assert MACHINE.begin(attempt, NOW) is SLEEP
    assert (attempt.reason, attempt.until) == (
        Suspension.BACKOFF,
        NOW + 15,
    ) and MACHINE.timer_delay(attempt, NOW) == 15
    assert MACHINE.timer(attempt, NOW + 15) is CALL


def test_no_pause_after_an_elapsed_or_unknown_back_off() -> None:
    late, new = attempt_of("simple", 2), attempt_of("simple", 2)
    late.instance.rare.failed_at[late.action_key] = NOW - 10
    assert MACHINE.begin(late, NOW) is CALL and MACHINE.begin(new, NOW) is CALL


def test_a_clock_that_jumped_back_makes_no_back_off_longer() -> None:
    attempt = attempt_of("simple", 2)
    attempt.instance.rare.failed_at[attempt.action_key] = NOW + 5000
    assert MACHINE.begin(attempt, NOW) is SLEEP and attempt.until == NOW + 10
    assert MACHINE.timer_delay(attempt, NOW - 5000) == 100  # no longer than the longest pause
    assert MACHINE.timer(attempt, NOW - 5000) is CALL  # it is counted here, whatever the clock says


def test_no_call_after_a_permanent_failure() -> None:
    attempt = attempt_of("simple", 2)
    attempt.instance.rare.final.add(attempt.action_key)
    assert MACHINE.begin(attempt, NOW) is REPORT and attempt.finished_at == NOW
    assert (
        attempt.outcome
        and attempt.outcome.kind is OutcomeKind.FAILED_PERMANENTLY
        and not attempt.outcome.called
    )


@pytest.mark.parametrize(
    ("number", "aborted", "fresh", "kind", "leaves"),
    [
        (1, False, True, "run", True),
        (
            3,
            False,
            True,
            "run",
            False,
        ),  # the last attempt: to give it up would count as a failure
        (3, True, True, "run", True),
        (1, False, False, "run", False),  # it may have been called
        (1, True, True, "undo", False),
    ],
)
def test_attempts_that_a_draining_saga_drops(
    number: int, aborted: bool, fresh: bool, kind: str, leaves: bool
) -> None:
    attempt = attempt_of("plain", number, kind, is_uncalled=fresh)
    attempt.instance.draining, attempt.instance.aborted = True, aborted
    assert MACHINE.begin(attempt, NOW) is (REPORT if leaves else CALL)
    assert not leaves or "being undone" in error_of(attempt)


@pytest.mark.parametrize("leased", [False, True])
def test_an_external_step_is_offered(leased: bool) -> None:
    attempt = attempt_of("outside")
    assert becomes_reportable(attempt) and not is_reportable(attempt)
    assert AttemptMachine(leased).begin(attempt, NOW) is OFFER
    assert (
        attempt.reason is Suspension.EXTERNAL and attempt.until is None and is_reportable(attempt)
    )
    assert attempt.is_uncalled is leased  # else a worker may have started it


# -- waits


def test_a_wait_is_stored_then_waits_then_is_called() -> None:
    attempt = attempt_of("pause")
    assert becomes_reportable(attempt)
    decision = MACHINE.begin(attempt, NOW)
    assert (
        decision == Decision(Do.SUSPEND, SuspensionRow(Suspension.TIMER, NOW + 30))
        and not decision.timer
    )
    attempt.expect_row(decision.row)
    assert not is_reportable(attempt) and becomes_reportable(attempt)
    assert MACHINE.stored(attempt) == Decision(
        Do.SUSPEND, timer=True, event=("step_suspended", "wait")
    )
    assert (
        is_reportable(attempt)
        and MACHINE.timer_delay(attempt, NOW) == 30
        and MACHINE.timer_delay(attempt, NOW - 900) == MAX_SLEEP
    )
    assert MACHINE.timer(attempt, NOW - 900) is SLEEP  # a clock that jumped back
    decision = MACHINE.timer(attempt, NOW + 30)
    assert decision == Decision(Do.SUSPEND, SuspensionRow(Suspension.WAIT_OVER))
    attempt.expect_row(decision.row)
    assert MACHINE.stored(attempt) is CALL and not becomes_reportable(attempt)


def test_the_next_attempt_of_a_wait_does_not_wait_again() -> None:
    attempt = attempt_of("pause", 2)
    attempt.instance.rare.end_wait(attempt.action_key)
    assert MACHINE.begin(attempt, NOW) is CALL and attempt.row_state is RowState.STORED
    attempt = attempt_of("pause", 2)
    attempt.instance.rare.wait_ends[attempt.action_key] = NOW + 7
    assert MACHINE.begin(attempt, NOW).row == SuspensionRow(Suspension.TIMER, NOW + 7)


def answered(attempt: Attempt) -> Decision:
    """Return the next state of an attempt whose definition is asked first, with its functions
    called.
    """
    decision = MACHINE.begin(attempt, NOW)
    assert decision.do is Do.ASK and decision.option_calls and attempt.state is AttemptState.CLAIMED
    assert decision.option_calls.option_names == "until="
    attempt.rare.returned |= decision.option_calls.answers()
    return MACHINE.decide_again(attempt, NOW)


def test_a_wait_until_a_time_of_the_program() -> None:
    attempt = attempt_of("later")
    assert answered(attempt).row == SuspensionRow(Suspension.TIMER, NOW + 50)
    assert not attempt.rare.returned


@pytest.mark.parametrize(
    ("text", "kind", "message"),
    [
        ('"raises"', OutcomeKind.FAILED, "ValueError: no idea"),
        ('"fails"', OutcomeKind.FAILED_PERMANENTLY, "Fail: never"),
    ],
)
def test_a_wait_whose_function_raises_has_failed(
    text: str, kind: OutcomeKind, message: str
) -> None:
    attempt = attempt_of("later", text=text)
    assert answered(attempt) is REPORT
    assert attempt.outcome and attempt.outcome.kind is kind and message in error_of(attempt)


@pytest.mark.parametrize(
    ("text", "message"),
    [
        ('"text"', "fromisoformat"),
        ('"naive"', "a datetime without a time zone"),
        ('"none"', "NoneType"),
    ],
)
def test_a_wait_whose_function_returns_no_time_has_a_bug(text: str, message: str) -> None:
    """No try reports a failure: the step waits until the program is corrected."""
    attempt = attempt_of("later", text=text)
    decision = answered(attempt)
    assert decision.do is Do.SUSPEND and decision.row
    assert decision.row.reason is Suspension.PROGRAM_ERROR and decision.row.until is None
    assert message in (decision.row.error or "")
    assert attempt.outcome and attempt.outcome.kind is OutcomeKind.PROGRAM_ERROR


def test_a_saga_drains_while_the_time_of_a_wait_is_computed() -> None:
    """The result of its function is not used: the attempt is given up."""
    attempt = attempt_of("later", 1)
    decision = MACHINE.begin(attempt, NOW)
    assert decision.option_calls
    attempt.instance.draining = True
    attempt.rare.returned |= decision.option_calls.answers()
    assert (
        MACHINE.drain(attempt.instance, NOW) == [] and MACHINE.decide_again(attempt, NOW) is REPORT
    )


def test_a_wait_of_a_saga_that_drains_is_given_up_before_it_waits() -> None:
    attempt = attempt_of("pause", is_uncalled=False)  # an earlier program had started it
    attempt.instance.draining = True
    assert MACHINE.begin(attempt, NOW) is REPORT and attempt.row_state is RowState.STORED
    last = attempt_of("pause", 2)
    last.instance.draining = True
    assert MACHINE.begin(last, NOW).do is Do.SUSPEND


# -- outcomes


@pytest.mark.parametrize(
    "outcome",
    [outcomes.succeeded({"a": 1}), outcomes.failure("no"), outcomes.failure("no", final=True)],
)
def test_an_outcome_is_reported(outcome: Outcome) -> None:
    attempt = running("plain")
    assert MACHINE.ended(attempt, outcome, NOW) is REPORT
    assert (attempt.outcome, attempt.finished_at, attempt.state) == (
        outcome,
        NOW,
        AttemptState.FINISHED,
    )
    assert (attempt.action_key in attempt.instance.rare.final) is (
        outcome.kind is OutcomeKind.FAILED_PERMANENTLY
    )


def test_an_unknown_outcome_is_called_again_until_a_person_has_to_say() -> None:
    attempt, now = running("plain"), NOW
    for count, pause in ((1, 10.0), (2, 20.0)):
        decision = MACHINE.ended(attempt, outcomes.unknown("lost"), now)
        assert (
            decision.row == SuspensionRow(Suspension.UNKNOWN, now + pause, "lost")
            and decision.timer
        )
        assert decision.event == ("step_unknown", "lost" if count == 1 else "lost; 2 times so far")
        assert (attempt.count, attempt.waiting_since, MACHINE.timer_delay(attempt, now)) == (
            count,
            NOW,
            pause,
        )
        now += pause
        assert MACHINE.timer(attempt, now) is CALL
        attempt.queue()
        attempt.start()
    decision = MACHINE.ended(attempt, outcomes.unknown("lost"), now)
    assert decision.row == SuspensionRow(Suspension.UNKNOWN, None, "lost") and attempt.until is None
    assert (
        decision.event and "a person must report it" in decision.event[1] and is_reportable(attempt)
    )
    assert MACHINE.timer_delay(attempt, now) is None and MACHINE.timer(attempt, now) is NOTHING
    assert MACHINE.finish(attempt, outcomes.succeeded(1), now) is REPORT


def test_an_unknown_outcome_may_be_bounded_by_time() -> None:
    attempt = running("timed")
    MACHINE.ended(attempt, outcomes.unknown("lost"), NOW)
    attempt.queue()
    attempt.start()
    assert MACHINE.ended(attempt, outcomes.unknown("lost"), NOW + 30).row == SuspensionRow(
        Suspension.UNKNOWN, None, "lost"
    )


def test_an_abandoned_wait_frees_its_slot() -> None:
    attempt = running("simple")
    attempt.rare.gave_way = True
    attempt.rare.count = 6
    MACHINE.ended(attempt, outcomes.unknown("all places are taken"), NOW)
    # its back-off is longer than the 60 s
    assert attempt.until == NOW + 100 and not attempt.rare.gave_way


def test_a_retry_of_an_exhausted_attempt_is_stored_before_the_call() -> None:
    """With the row before, a program that is killed would count the failure before."""
    attempt = running("asks")
    decision = MACHINE.ended(attempt, outcomes.failure("no"), NOW)
    assert decision.row == SuspensionRow(Suspension.EXHAUSTED, None, "no") and not decision.timer
    for reason in (Suspension.EXHAUSTED, Suspension.RETRY):
        attempt.expect_row(decision.row)
        assert MACHINE.stored(attempt).timer is (reason is Suspension.RETRY)
        decision = MACHINE.retry(attempt, NOW)
        assert decision.row == SuspensionRow(Suspension.RETRY, NOW, "no")
        assert decision.timer is (reason is Suspension.RETRY)
    attempt.expect_row(decision.row)
    assert MACHINE.stored(attempt).timer and MACHINE.timer_delay(attempt, NOW) == 0.0
    assert MACHINE.timer(attempt, NOW) is CALL


def test_undecodable_values_park_an_attempt() -> None:
    attempt = running("plain")
    outcome = Outcome(OutcomeKind.CANNOT_DECODE, "input lacks x")
    decision = MACHINE.ended(attempt, outcome, NOW)
    assert decision == Decision(
        Do.SUSPEND,
        SuspensionRow(Suspension.CANNOT_DECODE, None, "input lacks x"),
        event=("step_cannot_decode", "input lacks x"),
    )
    attempt.expect_row(decision.row)
    assert (
        MACHINE.stored(attempt).timer is False
        and MACHINE.timer_delay(attempt, NOW) is None
        and is_reportable(attempt)
    )
    wait = running("pause")
    wait.instance.rare.end_wait(wait.action_key)
    assert MACHINE.ended(wait, outcome, NOW).row == SuspensionRow(
        Suspension.CANNOT_DECODE, error="input lacks x", is_wait_over=True
    )


def test_an_approval_is_requested_and_times_out() -> None:
    attempt = running("sign")
    decision = MACHINE.ended(attempt, outcomes.succeeded(None), NOW)
    assert (
        decision == Decision(Do.SUSPEND, SuspensionRow(Suspension.APPROVAL, NOW + 60))
        and attempt.is_uncalled
    )
    attempt.expect_row(decision.row)
    assert MACHINE.stored(attempt) == Decision(
        Do.SUSPEND, timer=True, event=("step_suspended", "approval")
    )
    assert MACHINE.timer(attempt, NOW + 59) is SLEEP and MACHINE.timer(attempt, NOW + 60) is REPORT
    assert (
        "it was not approved" in error_of(attempt)
        and attempt.action_key in attempt.instance.rare.final
    )


@pytest.mark.parametrize(
    ("answer", "kind"),
    [
        (sagas.Approved(5), OutcomeKind.SUCCEEDED),
        (sagas.Rejected("no"), OutcomeKind.FAILED_PERMANENTLY),
    ],
)
def test_an_approval_may_be_decided_by_its_function(answer: Any, kind: OutcomeKind) -> None:
    attempt = running("sign")
    outcome = outcomes.succeeded(outcomes.Answer(answer))
    assert outcome.kind is OutcomeKind.ANSWERED and MACHINE.ended(attempt, outcome, NOW) is REPORT
    assert attempt.outcome and attempt.outcome.kind is kind


def test_a_compensation_of_an_approval_needs_no_operator() -> None:
    assert MACHINE.ended(running("sign", kind="undo"), outcomes.succeeded(None), NOW) is REPORT


def test_an_approval_in_a_saga_that_drains_is_given_up() -> None:
    attempt = running("sign")
    attempt.instance.draining = attempt.instance.aborted = True
    assert MACHINE.ended(
        attempt, outcomes.succeeded(None), NOW
    ) is REPORT and "being undone" in error_of(attempt)


def test_external_attempts_are_withdrawn_first() -> None:
    attempt = attempt_of("outside")
    leased = AttemptMachine(leased=True)
    assert leased.begin(attempt, NOW) is OFFER
    attempt.instance.busy[attempt.action_key] = attempt
    attempt.instance.draining = attempt.instance.aborted = True
    assert (
        leased.drain(attempt.instance, NOW) == [(attempt, WITHDRAW)]
        and attempt.state is AttemptState.SUSPENDED
    )
    assert leased.withdrawn(attempt, NOW) is REPORT and "being undone" in error_of(attempt)
    assert leased.withdrawn(attempt, NOW) is NOTHING


def test_an_offered_attempt_is_withdrawn_first() -> None:
    attempt = attempt_of("outside")
    attempt.instance.draining = attempt.instance.aborted = True
    attempt.rare.offered = 0
    assert AttemptMachine(leased=True).begin(attempt, NOW) is OFFER


# -- rows


def test_a_row_that_is_stored_when_the_attempt_continued_leads_to_nothing() -> None:
    attempt = running("plain")
    attempt.expect_row(MACHINE.ended(attempt, outcomes.unknown("lost"), NOW).row)
    attempt.queue()
    assert MACHINE.stored(attempt) is NOTHING and attempt.pending_row is None
    assert MACHINE.stored(attempt) is NOTHING


# -- a shard that was recovered


def test_a_finished_attempt_is_reported_again() -> None:
    attempt = running("plain")
    MACHINE.ended(attempt, outcomes.failure("no", final=True), NOW)
    assert MACHINE.resume(attempt, NOW) is REPORT_AGAIN and MACHINE.report(attempt) is REPORT


def test_running_and_waiting_attempts_continue() -> None:
    asleep = attempt_of("plain")
    asleep.suspend(Suspension.BACKOFF, NOW + 1)
    queued = attempt_of("plain")
    queued.queue()
    assert [MACHINE.resume(attempt, NOW) for attempt in (running("plain"), asleep, queued)] == [
        NOTHING
    ] * 3


def test_a_row_that_was_on_its_way_is_put_again() -> None:
    attempt = running("plain")
    row = MACHINE.ended(attempt, outcomes.unknown("lost"), NOW).row
    attempt.expect_row(row)
    assert MACHINE.resume(attempt, NOW + 1) == Decision(Do.SUSPEND, row, timer=True)
    attempt.queue()
    assert (
        MACHINE.resume(attempt, NOW + 1) == Decision(Do.NOTHING, row)
        and attempt.state is AttemptState.QUEUED
    )
    attempt.start()
    assert MACHINE.resume(attempt, NOW + 1) is NOTHING


@pytest.mark.parametrize(
    ("step", "reason", "until", "decision"),
    [
        ("plain", Suspension.UNKNOWN, NOW + 5, SLEEP),
        ("plain", Suspension.UNKNOWN, None, NOTHING),
        ("plain", Suspension.CANNOT_DECODE, None, CALL),
        ("pause", Suspension.TIMER, NOW + 5, SLEEP),
        ("pause", Suspension.WAIT_OVER, None, CALL),
        ("sign", Suspension.APPROVAL, NOW + 5, SLEEP),
        ("sign", Suspension.APPROVAL, None, SLEEP),
        ("outside", Suspension.EXTERNAL, None, OFFER),
    ],
)
def test_an_earlier_attempt_continues_by_its_row(
    step: str, reason: Suspension, until: float | None, decision: Decision
) -> None:
    made = attempt_of(step)
    attempt = Attempt(made.instance, made.step, "run", 1, is_uncalled=False)
    attempt.reason, attempt.waiting_since, attempt.until = reason, NOW - 9, until
    attempt.keep_row()
    assert not attempt.is_uncalled and attempt.waiting_since == NOW - 9
    assert MACHINE.resume(attempt, NOW) == decision
    assert attempt.is_uncalled is (reason in (Suspension.TIMER, Suspension.APPROVAL))
    if decision is not CALL:
        assert (attempt.state, attempt.reason, attempt.until) == (
            AttemptState.SUSPENDED,
            reason,
            until,
        )


def test_an_earlier_attempt_without_a_row_starts_again() -> None:
    assert MACHINE.resume(attempt_of("plain", is_uncalled=False), NOW) is CALL
    assert MACHINE.resume(attempt_of("outside", is_uncalled=False), NOW) is OFFER


def test_an_attempt_with_a_child_is_resumed() -> None:
    """Its child may exist, also if the attempt was given up before its row was stored: it is
    followed, and not given up again.
    """
    attempt = attempt_of("plain", is_uncalled=True)
    attempt.reason = Suspension.CHILD
    attempt.keep_row()
    assert MACHINE.resume(attempt, NOW) is FOLLOW and not attempt.is_uncalled
    attempt.instance.busy[attempt.action_key] = attempt
    attempt.instance.aborted = attempt.instance.draining = True
    assert MACHINE.drain(attempt.instance, NOW) == [(attempt, FOLLOW)]


# -- a saga that drains


def test_a_draining_saga_ends_waiting_attempts() -> None:
    instance = attempt_of("plain").instance
    made: dict[str, Attempt] = {}
    for step, number in (
        ("simple", 2),
        ("plain", 3),
        ("timed", 1),
        ("sign", 1),
        ("pause", 1),
        ("later", 1),
    ):
        attempt = Attempt(instance, KIND.names.index(step), "run", number, is_uncalled=True)
        made[step] = instance.busy[attempt.action_key] = attempt
    made["simple"].suspend(Suspension.BACKOFF, NOW + 5)
    made["plain"].suspend(Suspension.BACKOFF, NOW + 5)  # the last attempt
    made["timed"].start()
    MACHINE.ended(made["timed"], outcomes.unknown("lost"), NOW)
    made["sign"].start()
    MACHINE.begin(made["pause"], NOW)
    made["later"].queue()
    assert MACHINE.drain(instance, NOW) == []  # it was planned in the meantime
    instance.draining = True
    decisions = dict(MACHINE.drain(instance, NOW))
    assert decisions == {
        made["simple"]: REPORT,
        made["plain"]: CALL,
        made["timed"]: CALL,
        made["pause"]: REPORT,
        made["later"]: REPORT,
    }
    assert made["sign"].state is AttemptState.RUNNING  # its function continues


def test_an_attempt_is_named_by_the_shard_that_its_saga_comes_into() -> None:
    """A commit may be refused: what it offered is then not offered from another shard."""
    attempt: Any = attempt_of("outside")
    instance: Any = attempt.instance
    instance.token, instance.committed = None, False

    def shard_named(name: str) -> Any:
        return types.SimpleNamespace(identity=types.SimpleNamespace(name=name))

    instance.shard, instance.number = shard_named("aa"), 30
    assert attempt.token() == f"aa-30-{attempt.name}-run-1"
    instance.shard, instance.number = shard_named("bb"), 0
    assert attempt.token() == f"bb-0-{attempt.name}-run-1"
    instance.committed = True
    assert attempt.token() == f"bb-0-{attempt.name}-run-1" and instance.token == "bb-0"


# -- all of it, in any order

OUTCOMES = (
    outcomes.succeeded(1),
    outcomes.failure("no"),
    outcomes.failure("no", final=True),
    outcomes.unknown("lost"),
    Outcome(OutcomeKind.CANNOT_DECODE, "input lacks x"),
)
CHOICES = {
    AttemptState.CLAIMED: ("begin", "resume"),
    AttemptState.QUEUED: ("start", "limit", "resume", "drain", "stored"),
    AttemptState.RUNNING: ("ended", "ended", "claim", "resume", "drain", "stored"),
    AttemptState.SUSPENDED: (
        "timer",
        "timer",
        "stored",
        "withdrawn",
        "resume",
        "drain",
        "report",
        "enter",
    ),
}


def decide(operation: str, attempt: Attempt, outcome: Outcome, now: float) -> Decision:
    """Apply one event to an attempt, as the runtime does."""
    if operation == "ended":
        return MACHINE.ended(attempt, outcome, now)
    if operation == "report":
        return (
            MACHINE.finish(attempt, outcomes.succeeded(3), now)
            if is_reportable(attempt)
            else NOTHING
        )
    if operation == "stored":
        return MACHINE.stored(attempt)
    if operation == "drain":
        attempt.instance.draining = True
        return dict(MACHINE.drain(attempt.instance, now)).get(attempt, NOTHING)
    if operation == "begin" and attempt.reason is not None:  # it was called before
        operation = "resume"
    if operation == "limit":
        attempt.limit(Suspension.STEP_LIMIT)
    elif operation == "enter":
        if attempt.reason is Suspension.STEP_LIMIT:
            attempt.queue()
    elif operation in ("start", "claim"):
        getattr(attempt, operation)()
    else:
        return getattr(MACHINE, operation)(attempt, now)  # type: ignore[no-any-return]
    return NOTHING


@hypothesis.settings(max_examples=300, deadline=None)
@hypothesis.given(step=st.sampled_from(KIND.names), number=st.integers(1, 3), data=st.data())
def test_whatever_happens_each_decision_fits_the_state(
    step: str, number: int, data: st.DataObject
) -> None:
    """No transition is missing from the table, finished attempts stay finished, and no attempt is
    called that waits for its row.
    """
    attempt, now = attempt_of(step, number), NOW
    attempt.instance.rare.failed_at[attempt.action_key] = NOW
    for _ in range(12):
        if attempt.state is AttemptState.FINISHED:
            break
        now += data.draw(st.sampled_from((0.0, 1.0, 100.0, -1000.0)))
        operation = data.draw(st.sampled_from(CHOICES[attempt.state]))
        decision = decide(operation, attempt, data.draw(st.sampled_from(OUTCOMES)), now)
        if decision.row:
            attempt.expect_row(decision.row)
        if decision.do is Do.CALL:
            attempt.queue()
        assert (decision.do is Do.REPORT) <= (attempt.state is AttemptState.FINISHED)
        assert (decision.do in (Do.SUSPEND, Do.OFFER)) <= (attempt.state is AttemptState.SUSPENDED)
        assert not decision.timer or attempt.state is AttemptState.SUSPENDED
    if attempt.state is AttemptState.FINISHED:
        first = attempt.outcome
        assert first and MACHINE.resume(attempt, now) is REPORT_AGAIN
        assert MACHINE.drain(attempt.instance, now) == [] and MACHINE.timer(attempt, now) is NOTHING
        assert attempt.outcome is first


def test_early_reports() -> None:
    """It is the attempt's outcome, also if its saga drains.

    A compensation takes none, and neither does an attempt whose step failed permanently.
    """
    for step in ("sign", "outside"):
        for aborted in (False, True):
            attempt = attempt_of(step)
            instance, word = attempt.instance, attempt.action_key
            instance.aborted = instance.draining = aborted
            EarlyReport(instance, word, Outcome(OutcomeKind.SUCCEEDED, '"yes"')).keep()
            assert reports.stored_report(instance, word) == Outcome(OutcomeKind.SUCCEEDED, '"yes"')
            assert MACHINE.begin(attempt, NOW) == REPORT and attempt.row_state is RowState.STORED
            assert attempt.outcome == Outcome(OutcomeKind.SUCCEEDED, '"yes"')
    attempt = attempt_of("sign")
    EarlyReport(attempt.instance, attempt.action_key, outcomes.reported_outcome(None, "no")).keep()
    assert (
        MACHINE.begin(attempt, NOW) == REPORT and attempt.action_key in attempt.instance.rare.final
    )
    again = Attempt(attempt.instance, attempt.step, "run", 2, True)
    assert MACHINE.begin(again, NOW) == REPORT and again.outcome and not again.outcome.called
    undo = attempt_of("outside", kind="undo")
    undo.instance.rare.early_reports[undo.step, "run"] = (EarlyReason.RESULT, "1")
    assert MACHINE.begin(undo, NOW) == CALL


def test_which_reports_are_taken_early() -> None:
    """Those of approvals and of external steps, while the saga continues."""
    for step, kind in (("simple", "run"), ("pause", "run"), ("sent", "run"), ("outside", "undo")):
        instance = attempt_of(step).instance
        assert reports.refusal_reason(instance, KIND.names.index(step), kind)
    for step in ("sign", "outside"):
        instance = attempt_of(step).instance
        number = KIND.names.index(step)
        assert reports.refusal_reason(instance, number, "run") is None
        instance.draining = True
        assert "is being undone" in str(reports.refusal_reason(instance, number, "run"))
