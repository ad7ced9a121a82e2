"""The states, their transitions, and the words for each."""

from __future__ import annotations

import enum
import itertools
from collections.abc import Callable, Iterator
from typing import Any

import pytest

import sagas
from sagas.core import states
from sagas.core.attempt.model import Attempt, finish_all, start_all
from sagas.core.attempt.table import ATTEMPT_TRANSITIONS
from sagas.core.attempt.instance import SagaInstance
from sagas.core.outcomes import succeeded
from sagas.core.states import AttemptState, IllegalTransition, StepState, Suspension
from sagas.definition.registry import DefinitionRegistry

TABLES: dict[type[enum.Enum], Any] = {
    AttemptState: ATTEMPT_TRANSITIONS,
    StepState: states.STEP_TRANSITIONS,
    states.SagaPhase: states.SAGA_TRANSITIONS,
    states.EnginePhase: states.ENGINE_TRANSITIONS,
    states.ShardState: states.SHARD_TRANSITIONS,
}
FIRST = {
    AttemptState: AttemptState.CLAIMED,
    StepState: StepState.WAITING,
    states.SagaPhase: states.SagaPhase.OPEN,
    states.EnginePhase: states.EnginePhase.GOING,
    states.ShardState: states.ShardState.STALE,
}
WRITERS: dict[AttemptState, Callable[[Attempt], object]] = {
    AttemptState.CLAIMED: Attempt.claim,
    AttemptState.SUSPENDED: lambda attempt: attempt.suspend(Suspension.BACKOFF, 1.0),
    AttemptState.QUEUED: Attempt.queue,
    AttemptState.RUNNING: Attempt.start,
    AttemptState.FINISHED: lambda attempt: attempt.finish(succeeded(1), 2.0),
}


@pytest.fixture(autouse=True)
def checked() -> Iterator[None]:
    """Check each transition."""
    before, states.Check.is_on = states.Check.is_on, True
    yield
    states.Check.is_on = before


def attempt_in(state: AttemptState) -> Attempt:
    """Return an attempt in that state."""
    saga = sagas.Saga("one")

    @saga.step(undo=0)
    async def a(task: sagas.Task[Any]) -> None:
        ...

    attempt = Attempt(
        SagaInstance("k", "{}", DefinitionRegistry([saga]).kinds[0], 0),
        0,
        "run",
        1,
        is_uncalled=True,
    )
    attempt.state = state
    attempt.reason = Suspension.BACKOFF if state is AttemptState.SUSPENDED else None
    return attempt


@pytest.mark.parametrize("machine", TABLES)
def test_a_table_has_each_state_and_each_is_reached(machine: type[enum.Enum]) -> None:
    table = TABLES[machine]
    assert set(table) == set(machine)
    seen, left = set(), {FIRST[machine]}
    while left:
        state = left.pop()
        seen.add(state)
        left |= table[state] - seen
    more = {states.ShardState.IDLE} if machine is states.ShardState else set()
    assert seen | more == set(machine)


@pytest.mark.parametrize(("before", "after"), itertools.product(AttemptState, AttemptState))
def test_an_attempt_follows_the_table_of_transitions(
    before: AttemptState, after: AttemptState
) -> None:
    attempt = attempt_in(before)
    if after in ATTEMPT_TRANSITIONS[before]:
        WRITERS[after](attempt)
        assert attempt.state is after
        assert attempt.is_uncalled is (after is not AttemptState.RUNNING)
    else:
        with pytest.raises(IllegalTransition, match=f"{before.name}"):
            WRITERS[after](attempt)
        assert attempt.state is before


def test_finished_is_never_left() -> None:
    assert ATTEMPT_TRANSITIONS[AttemptState.FINISHED] == frozenset()
    attempt = attempt_in(AttemptState.FINISHED)
    attempt.forget()
    assert attempt.state is AttemptState.FINISHED and attempt.outcome is None
    with pytest.raises(IllegalTransition):
        start_all([attempt])


@pytest.mark.parametrize(
    "before", [state for state in AttemptState if state is not AttemptState.FINISHED]
)
def test_an_attempt_is_forgotten_from_each_state(before: AttemptState) -> None:
    attempt = attempt_in(before)
    attempt.forget()
    assert attempt.state is AttemptState.FINISHED


def test_many_are_started_and_finished_at_once() -> None:
    some = [attempt_in(AttemptState.CLAIMED) for _ in range(3)]
    start_all(some)
    assert all(item.state is AttemptState.RUNNING and not item.is_uncalled for item in some)
    some[1].forget()
    assert finish_all(some, 3.0) == [some[0], some[2]]
    assert [item.finished_at for item in some] == [3.0, 0.0, 3.0]


def test_without_the_check_nothing_is_looked_up() -> None:
    states.Check.is_on = False
    attempt = attempt_in(AttemptState.SUSPENDED)
    attempt.start()
    assert attempt.state is AttemptState.RUNNING


def test_the_events_of_a_step_keep_to_its_table() -> None:
    at = StepState.WAITING
    for event in (
        "start_run",
        "missed",
        "start_run",
        "commit",
        "start_undo",
        "undo_missed",
        "start_undo",
        "undo_fail",
    ):
        states.check(states.STEP_TRANSITIONS, at, states.EVENT_STATES[event])
        at = states.EVENT_STATES[event]
    assert at is StepState.COMPENSATION_FAILED == states.step_state("fixed")
    assert set(states.EVENT_STATES.values()) == set(StepState)


def test_each_suspension_has_its_text() -> None:
    assert {reason.text for reason in Suspension} <= set(states.WAITS_FOR)
    assert {Suspension.stored(reason.text, 1.0) for reason in Suspension} == (
        set(Suspension) - {Suspension.WAIT_OVER}
    )
    assert Suspension.stored("wait", 0.0) is Suspension.WAIT_OVER
