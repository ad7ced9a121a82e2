"""The table of an attempt's transitions, and the machine that reads it.

`explore` lets the machine do whatever the table allows, from new attempts of steps of each kind. It
reaches each rule in each condition, and each state that a rule lets follow.
"""

from __future__ import annotations

import datetime
import functools
import itertools
from collections import defaultdict
from collections.abc import Callable, Iterator
from typing import Any

import pytest

import sagas
from sagas.core import outcomes, recovery, states
from sagas.core.attempt.model import Attempt, SuspensionRow
from sagas.core.attempt.directives import Decision, Do
from sagas.core.attempt.machine import CONCLUSIONS, DECISIONS, AttemptMachine
from sagas.core.attempt.table import (
    ALL,
    ATTEMPT_TRANSITIONS,
    LINES,
    OUTCOME_EVENTS,
    RULES,
    AttemptEvent,
    Condition,
    Handler,
    Standing,
)
from sagas.core.outcomes import Outcome
from sagas.core.attempt.pause_index import Pauses
from sagas.core.pauses import Pause
from sagas.core.attempt.instance import SagaInstance
from sagas.core.states import AttemptState, IllegalTransition, OutcomeKind, RowState, Suspension
from sagas.definition.payloads import BlobUnavailable
from sagas.definition.registry import DefinitionRegistry

NOW = 1000.0
MACHINE, PAUSED = AttemptMachine(leased=True), AttemptMachine(leased=True)
"""The second one, while an operator has paused everything."""
PAUSE = Pause(None, None, None, False, False, "an outage", "ada", 0.0)
PAUSED.pauses = Pauses([PAUSE])
OUTCOMES = {
    AttemptEvent.SUCCEEDED: outcomes.succeeded(None),
    AttemptEvent.FAILED: outcomes.failure("no"),
    AttemptEvent.FAILED_PERMANENTLY: outcomes.failure("no", final=True),
    AttemptEvent.UNKNOWN: outcomes.unknown("lost"),
    AttemptEvent.CANNOT_DECODE: Outcome(OutcomeKind.CANNOT_DECODE, "input lacks x"),
    AttemptEvent.PROGRAM_ERROR: outcomes.program_error("a bug"),
    AttemptEvent.ANSWERED: outcomes.succeeded(outcomes.Answer(sagas.Approved(1))),
}
ACTIONS = (
    *(("plain", 1, "run"), ("plain", 2, "run"), ("plain", 2, "undo"), ("asks", 9, "run")),
    *(("pause", 1, "run"), ("pause", 2, "run"), ("blind", 1, "run"), ("blind", 2, "run")),
    *(("broken", 1, "run"), ("broken", 2, "run"), ("keyed", 1, "run")),
    *(("sign", 1, "run"), ("sign", 2, "run"), ("outside", 1, "run"), ("outside", 1, "undo")),
    *(("stay", 1, "run"), ("stay", 1, "undo"), ("sent", 1, "run")),
    *(("outside", 2, "run"), ("stay", 2, "run"), ("repeated", 9, "run")),
)
"""The attempts of new steps: name, number and action."""
SOON = sagas.Backoff(initial=10, maximum=60)


@pytest.fixture(autouse=True)
def checked() -> Iterator[None]:
    """Check each transition."""
    before, states.Check.is_on = states.Check.is_on, True
    yield
    states.Check.is_on = before


def nothing(task: sagas.Task[Any]) -> None:
    """A step that is never called."""


def unreadable(task: sagas.Task[Any]) -> Any:
    """Return no time: the values of the saga cannot be read."""
    raise sagas.CannotDecode("input lacks x")


def broken(task: sagas.Task[Any]) -> Any:
    """Return no time: the function has a bug."""
    raise NameError("hours")


class Queue:
    """A queue of workers that does not exist."""

    name, timeout = "far", 60.0

    def declare(self, *arguments: Any) -> None:
        ...


@functools.cache
def kind() -> Any:
    """Return a definition with a step of each kind."""
    saga, child, queue = sagas.Saga("trip"), sagas.Saga("leaf"), Queue()
    child.step(name="a", undo=0)(nothing)
    saga.step(name="plain", undo=0, tries=2, backoff=SOON, max_unknown=2)(nothing).compensation(
        tries=2, backoff=SOON, on_exhausted="ask", max_unknown=None
    )(nothing)
    saga.step(name="asks", undo=0, backoff=SOON, on_exhausted="ask", tries=10)(nothing)
    saga.wait(name="pause", until=datetime.timedelta(seconds=30), tries=2, backoff=SOON)(nothing)
    saga.wait(name="blind", until=unreadable, tries=2, backoff=SOON)(nothing)
    keyed = saga.step(name="keyed", undo=0, concurrency=1, concurrency_by=broken)
    keyed(nothing)
    saga.wait(name="broken", until=broken, tries=2, backoff=SOON)(nothing)
    saga.approval(name="sign", tries=2, timeout=60)(nothing)
    saga.step(name="outside", undo=0, tries=2, external=True, backoff=SOON).compensation(
        external=True, backoff=SOON
    )
    saga.step(name="repeated", undo=0, tries=10, external=True, backoff=SOON)
    saga.step(name="sent", undo=0, queue=queue, backoff=SOON)(nothing)  # type: ignore[arg-type]
    saga.child(child, name="stay", input=lambda task: None)
    kinds = DefinitionRegistry([saga, child]).kinds
    return next(kind for kind in kinds if kind.name == "trip")


def new_attempt(step: str, number: int = 1, action: str = "run") -> Attempt:
    """Return an attempt that has started; an earlier one failed, if there was one."""
    instance = SagaInstance("k", "null", kind(), 0)
    instance.token = "test-0"
    attempt = Attempt(instance, kind().names.index(step), action, number, is_uncalled=True)
    instance.busy[attempt.action_key] = attempt
    if number > 1:
        instance.note_failure(attempt.action_key, NOW, {"error": "no"})
    return attempt


@functools.cache
def slots_of(kind: type) -> list[str]:
    """Return the names of the attributes of a class with slots."""
    return [name for base in kind.__mro__ for name in getattr(base, "__slots__", ())]


def copy_of(original: Any) -> Any:
    """Return a copy of an object with slots, with copies of its collections."""
    if original is None:
        return None
    twin = object.__new__(type(original))
    for name in slots_of(type(original)):
        if hasattr(original, name):
            value = getattr(original, name)
            is_collection = isinstance(value, (dict, set, list))
            setattr(twin, name, value.copy() if is_collection else value)
    return twin


def fork(attempt: Attempt) -> Attempt:
    """Return a copy of an attempt, alone in a copy of its saga."""
    twin, saga = copy_of(attempt), copy_of(attempt.instance)
    saga.extras, twin.extras = copy_of(saga.extras), copy_of(attempt.extras)
    twin.instance, saga.busy = saga, {attempt.action_key: twin}
    return twin


# -- one event


def finish(outcome: Outcome) -> Callable[[Attempt, float], Decision]:
    """Return what lets an attempt end with an outcome."""
    return lambda attempt, now: MACHINE.ended(attempt, outcome, now)


def drain(
    aborted: bool, machine: AttemptMachine = MACHINE
) -> Callable[[Attempt, float], Decision | None]:
    """Return what lets the saga of an attempt drain."""

    def apply(attempt: Attempt, now: float) -> Decision | None:
        attempt.instance.draining, attempt.instance.aborted = True, aborted
        return dict(machine.drain(attempt.instance, now)).get(attempt)

    return apply


EVENTS: dict[AttemptEvent, Callable[[Attempt, float], Decision | None]] = {
    AttemptEvent.BEGUN: MACHINE.begin,
    AttemptEvent.CONTINUED: MACHINE.decide_again,
    AttemptEvent.RESUMED: MACHINE.resume,
    AttemptEvent.ROW_STORED: lambda attempt, now: MACHINE.stored(attempt),
    AttemptEvent.TIMER_FIRED: MACHINE.timer,
    AttemptEvent.CALL_DECIDED: MACHINE.decide_limits,
    AttemptEvent.VALUES_UNAVAILABLE: lambda attempt, now: MACHINE.values_unavailable(
        attempt, BlobUnavailable("no blob"), now
    ),
    **{event: finish(outcome) for event, outcome in OUTCOMES.items()},
    AttemptEvent.REPORTED: lambda attempt, now: MACHINE.finish(attempt, outcomes.succeeded(1), now),
    AttemptEvent.RETRIED: MACHINE.retry,
    AttemptEvent.OFFER_WITHDRAWN: MACHINE.withdrawn,
    AttemptEvent.SLOT_REQUESTED: lambda attempt, now: attempt.queue(),
    AttemptEvent.LIMIT_REACHED: lambda attempt, now: attempt.limit(Suspension.STEP_LIMIT),
    AttemptEvent.PAUSED: lambda attempt, now: attempt.pause(PAUSE),
    AttemptEvent.CALLED: lambda attempt, now: attempt.start(),
    AttemptEvent.CALL_UNDONE: lambda attempt, now: attempt.claim(),
    AttemptEvent.FORGOTTEN: lambda attempt, now: attempt.forget(),
}
"""What makes each event happen, except that a saga drains."""
WHILE_PAUSED: dict[AttemptEvent, Callable[[Attempt, float], Decision]] = {
    AttemptEvent.BEGUN: PAUSED.begin,
    AttemptEvent.CONTINUED: PAUSED.decide_again,
    AttemptEvent.RESUMED: PAUSED.resume,
    AttemptEvent.TIMER_FIRED: PAUSED.timer,
    AttemptEvent.CALL_DECIDED: PAUSED.decide_limits,
}
"""What makes these events happen during a pause."""
DRAINED = {
    AttemptEvent.DRAINED,
    AttemptEvent.DRAINED_UNCALLED,
    AttemptEvent.DRAINED_UNDOING,
}


def restarts(attempt: Attempt, stored_row: SuspensionRow | None) -> Iterator[Attempt]:
    """Yield the attempts that recovery makes of the rows: here, or in another program, which may
    not have the functions of the saga.
    """
    outcome = attempt.outcome
    has_failed = stored_row is not None and stored_row.reason is Suspension.RETRY
    is_uncalled = outcome and not outcome.called and not has_failed  # a failed one was called
    was_given_up = attempt.state is AttemptState.FINISHED and is_uncalled
    previous_attempts = (attempt, None) if was_given_up else (None,)
    for previous, missing in itertools.product(previous_attempts, (None, "no function")):
        saga = fork(attempt).instance
        if missing is not None or saga.extras is not None:
            saga.rare.missing_function = missing
        key = attempt.step, attempt.kind, attempt.attempt
        made = recovery._restored_attempt(saga, key, previous, is_ours=True)
        saga.busy = {made.action_key: made}
        if stored_row is not None:
            reason, until = stored_row.stored
            suspension = (7000, *key, reason, 1, NOW, until, stored_row.error)
            recovery._apply_suspension(made, suspension)
        yield made


def carry_out(attempt: Attempt, decision: Decision | None) -> None:
    """Do what the runtime does with a decision before the next event."""
    if decision is not None and decision.row is not None:
        attempt.expect_row(decision.row)
    if decision is not None and decision.do is Do.REPORT:
        assert attempt.state is AttemptState.FINISHED
    if decision is not None and decision.option_calls is not None:
        attempt.rare.returned |= decision.option_calls.answers()


def steps_of(attempt: Attempt) -> Iterator[tuple[AttemptEvent, Attempt, Decision | None]]:
    """Yield each event that the table allows now, with what becomes of a copy of the attempt."""
    before = attempt.condition
    for event, apply in EVENTS.items():
        if before in RULES[event]:
            due = NOW if attempt.until is None else attempt.until
            for now in (due - 1, due) if event is AttemptEvent.TIMER_FIRED else (due,):
                twin = fork(attempt)
                yield event, twin, apply(twin, now)
            if event in WHILE_PAUSED:
                twin = fork(attempt)
                yield event, twin, WHILE_PAUSED[event](twin, due)
    if before in RULES[AttemptEvent.LIMIT_REACHED]:
        twin = fork(attempt)
        yield AttemptEvent.LIMIT_REACHED, twin, twin.limit(Suspension.FLEET_LIMIT)
    for aborted, machine in itertools.product({attempt.instance.draining, True}, (MACHINE, PAUSED)):
        twin = fork(attempt)
        decide = drain(aborted, machine)
        twin.instance.draining, twin.instance.aborted = True, aborted
        event = MACHINE._drain_event(twin)
        yield event, twin, decide(twin, NOW)


def state_of(attempt: Attempt, stored_row: SuspensionRow | None) -> tuple[Any, ...]:
    """Return what decides how an attempt may continue, without its counts and its outcome."""
    saga, outcome = attempt.instance, attempt.outcome
    if attempt.state is AttemptState.FINISHED:
        rows = [row and row.reason for row in (attempt.pending_row, stored_row)]
        return attempt.condition, outcome and outcome.called, *rows
    is_answered = bool(attempt.extras and attempt.extras.returned)
    has_unknown_call = bool(attempt.extras and attempt.extras.has_unknown_call)
    is_timed = attempt.until is not None
    flags = (attempt.is_uncalled, is_timed, attempt.is_wait_over, is_answered, has_unknown_call)
    is_missing = attempt.missing_function is not None
    return attempt.condition, attempt.reason, flags, is_missing, saga.draining, saga.aborted


@functools.cache
def explore() -> dict[tuple[AttemptEvent, Condition], set[Condition]]:
    """Return each condition that follows an event in a condition, over all that may happen."""
    reached: dict[tuple[AttemptEvent, Condition], set[Condition]] = defaultdict(set)
    for action in ACTIONS:
        first = new_attempt(*action)
        seen, left = {state_of(first, None)}, [(first, None)]
        while left:
            attempt, row = left.pop()
            following = [(made, row) for made in restarts(attempt, row)]
            for event, twin, decision in steps_of(attempt):
                reached[event, attempt.condition].add(twin.condition)
                is_stored = event is AttemptEvent.ROW_STORED and attempt.pending_row
                carry_out(twin, decision)
                following.append((twin, attempt.pending_row if is_stored else row))
            for node in following:
                if (state := state_of(*node)) not in seen:
                    seen.add(state)
                    left.append(node)
    return reached


# -- the table


def test_the_machine_reaches_each_rule_in_each_condition() -> None:
    entries = {(event, condition) for event in RULES for condition in RULES[event]}
    assert entries - explore().keys() == set()


def in_condition(condition: Condition) -> Attempt:
    """Return an attempt in a condition that may not be possible."""
    attempt = new_attempt("plain")
    attempt.state, attempt.reason = condition.state, condition.reason
    if condition.is_row_pending:
        attempt.expect_row(SuspensionRow(Suspension.UNKNOWN, NOW))
    return attempt


@pytest.mark.parametrize("event", [event for event in AttemptEvent if event not in DRAINED])
def test_a_pair_that_is_absent_is_refused(event: AttemptEvent) -> None:
    for state, reason, pending in itertools.product(
        AttemptState, (None, *Suspension), (False, True)
    ):
        attempt = in_condition(Condition(state, reason, pending))
        before = attempt.condition
        attempt.until = NOW
        if event is AttemptEvent.PAUSED and state is AttemptState.SUSPENDED:
            continue  # one that waits for something else keeps its reason
        if before not in RULES[event]:
            with pytest.raises(IllegalTransition, match=f"{event.name} in {state.name}"):
                EVENTS[event](attempt, NOW)
            assert attempt.condition == before


def test_a_state_that_the_rule_does_not_name_is_refused(monkeypatch: pytest.MonkeyPatch) -> None:
    def wrong(machine: AttemptMachine, attempt: Attempt, now: float) -> Decision:
        attempt.suspend(Suspension.APPROVAL)
        return Decision(Do.SUSPEND)

    monkeypatch.setitem(DECISIONS, Handler.BEGIN, wrong)  # type: ignore[misc]
    with pytest.raises(IllegalTransition, match="in CLAIMED -> SUSPENDED .APPROVAL."):
        MACHINE.begin(new_attempt("plain"), NOW)


def test_each_handler_has_its_method() -> None:
    """A rule for an event with an outcome names a handler that gets the outcome."""
    assert {*DECISIONS, *CONCLUSIONS, Handler.SET_STATE} == set(Handler)
    assert set(RULES) == set(AttemptEvent) == {*EVENTS, *DRAINED}
    assert set(OUTCOME_EVENTS) == set(OutcomeKind) - {OutcomeKind.NO_DEFINITION}  # none is called
    for event, rules in RULES.items():
        with_outcome = event in {
            *OUTCOMES,
            AttemptEvent.REPORTED,
            AttemptEvent.VALUES_UNAVAILABLE,
        }
        for rule in rules.values():
            assert rule.handler is Handler.SET_STATE or (
                (rule.handler in CONCLUSIONS) is with_outcome
            )
        assert rules.keys() <= ALL


def test_the_states_of_the_five() -> None:
    """The states that follow each state over all events, as the page of the architecture shows."""
    claimed, suspended, queued, running, finished = AttemptState
    assert ATTEMPT_TRANSITIONS == {
        claimed: {suspended, queued, running, finished},
        suspended: {suspended, queued, finished},
        queued: {suspended, running, finished},
        running: {claimed, suspended, finished},
        finished: set(),
    }


def test_each_state_that_a_rule_names_follows() -> None:
    """A rule names no state that never follows."""
    unused = set()
    for event, lines in LINES.items():
        for conditions, rule in lines:
            followed: set[Standing] = set()
            stayed = False
            for condition in conditions:
                for after in explore()[event, condition]:
                    followed.add(after[:2])
                    stayed = stayed or after[:2] == condition[:2]
            for missing in rule.following - followed:
                unused.add((event.name, rule.handler.name, missing))
            if rule.stays and not stayed:
                unused.add((event.name, rule.handler.name, None))
    assert unused == set()
