"""Slots: the order of calls, with a step's own limit, without a loop."""

from __future__ import annotations

import random
from collections import Counter
from collections.abc import Iterator

import pytest

import sagas
from sagas.core import states
from sagas.core.shard.limits import Slots
from sagas.core.attempt.model import Attempt
from sagas.core.attempt.instance import SagaInstance
from sagas.core.outcomes import Outcome
from sagas.core.attempt.pause_index import Pauses
from sagas.core.pauses import Pause
from sagas.core.states import AttemptState, OutcomeKind, Suspension
from sagas.definition.registry import DefinitionRegistry

SAGA = sagas.Saga("one")


@SAGA.step(undo=0, concurrency=1)
async def narrow(task: sagas.Task[None]) -> None:
    ...


@SAGA.step(undo=0)
async def wide(task: sagas.Task[None]) -> None:
    ...


KIND = DefinitionRegistry([SAGA]).kinds[0]


class Shard:
    """A shard that waits for slots, and counts its notifications."""

    pokes = 0

    def poke(self, now: bool = False) -> None:
        self.pokes += 1


class Store:
    """Slots, and the attempts that have one."""

    def __init__(self, capacity: int) -> None:
        self.called: list[Attempt] = []
        self.slots = Slots(capacity, self._start, self._feed)
        self.fed = 0

    def _start(self, attempt: Attempt) -> None:
        attempt.start()
        self.called.append(attempt)

    def _feed(self) -> None:
        self.fed += 1

    def enter(self, step: str) -> Attempt:
        attempt = Attempt(
            SagaInstance("k", "{}", KIND, 0), KIND.names.index(step), "run", 1, is_uncalled=True
        )
        self.slots.enter(attempt)
        return attempt


@pytest.fixture(autouse=True)
def checked() -> Iterator[None]:
    """Check each transition."""
    before, states.Check.is_on = states.Check.is_on, True
    yield
    states.Check.is_on = before


def test_attempts_come_in_turn() -> None:
    store = Store(2)
    first, second, third, fourth = (store.enter("wide") for _ in range(4))
    assert store.called == [first, second] and third.state is AttemptState.QUEUED
    assert store.slots.is_waiting(third) and store.slots.free_count() == -2
    store.slots.leave(first)
    assert store.called[2:] == [third] and not store.slots.is_waiting(third)
    store.slots.cancel(fourth)
    store.slots.leave_many(2)
    assert len(store.called) == 3 and store.slots.running == 0 and store.slots.free_count() == 2


def test_a_paused_attempt_takes_no_slot() -> None:
    """Neither does one that waited for a slot, or for a place under its step's limit."""
    pauses = Pauses([Pause("one", "narrow", None, False, False, "an outage", None, 0.0)])
    store = Store(1)
    store.slots = Slots(1, store._start, store._feed, lambda attempt: held[0].hold(attempt))
    held = [Pauses()]
    wide, narrow, over = store.enter("wide"), store.enter("narrow"), store.enter("narrow")
    assert store.slots.is_waiting(narrow) and over.reason is Suspension.STEP_LIMIT
    held[0] = pauses
    store.slots.leave(wide)
    assert store.called == [wide] and store.slots.running == 0
    assert narrow.is_held and narrow.reason is Suspension.PAUSED
    assert pauses.hold(over) and store.enter("narrow").is_held
    store.slots.cancel(over)
    held[0] = Pauses()
    for attempt in (narrow, over):
        attempt.end_pause()
        store.slots.enter(attempt)
    assert store.called == [wide, narrow] and over.reason is Suspension.STEP_LIMIT
    store.slots.leave(narrow)
    assert store.called == [wide, narrow, over]


def test_an_attempt_over_its_limit_delays_no_other() -> None:
    store = Store(3)
    first, second, third = (store.enter("narrow") for _ in range(3))
    assert store.called == [first] and (second.state, second.reason) == (
        AttemptState.SUSPENDED,
        Suspension.STEP_LIMIT,
    )
    other = store.enter("wide")
    assert store.called == [first, other]
    second.forget()  # it was given up in the meantime
    store.slots.leave(first)
    assert store.called == [first, other, third]


def test_an_unused_limit_is_dropped() -> None:
    """The same holds if the waiting attempt was given up in the meantime: limits of keys come and
    go.
    """
    store = Store(3)
    first, second = (store.enter("narrow") for _ in range(2))
    second.forget()
    store.slots.leave(first)
    assert not store.slots._limits


def test_slots_are_taken_for_many_at_once() -> None:
    store = Store(5)
    assert (
        store.slots.take_slots(3) == 3
        and store.slots.take_slots(9) == 2
        and store.slots.take_slots() == 0
    )
    store.slots.leave_many(5)
    assert store.slots.running == 0


def test_waiting_shards_are_notified_of_slots() -> None:
    store, shard, other = Store(2), Shard(), Shard()
    store.slots.reserve(2)
    store.slots.add_waiting_shard(shard)
    store.slots.add_waiting_shard(other)
    store.slots.feed()
    assert store.slots.free_count() == 0 and shard.pokes == 0
    store.slots.remove_waiting_shard(other)
    store.slots.release(1)
    assert store.fed == 1
    store.slots.feed()
    assert (shard.pokes, other.pokes) == (1, 0) and not store.slots.waiting_shards


def test_a_store_that_is_closed_begins_nothing() -> None:
    store = Store(1)
    first, _, narrow = store.enter("wide"), store.enter("wide"), store.enter("narrow")
    store.slots.clear()
    store.slots.leave(first)
    assert store.called == [first] and narrow.state is AttemptState.QUEUED


def test_slots_are_shared_among_tenants() -> None:
    """The next one is always of a waiting tenant with the fewest slots, and each tenant's attempts
    run in their order.
    """
    draw = random.Random(62)
    saga = sagas.Saga("fair", fair_by=lambda input: input)
    saga.step(name="a", undo=0)(wide.run.function)
    kind, store = DefinitionRegistry([saga]).kinds[0], Store(3)
    store.slots.is_fair = True
    waiting: dict[str | None, list[Attempt]] = {}
    for number in range(600):
        running = [attempt for attempt in store.called if attempt.state is AttemptState.RUNNING]
        counts = Counter(attempt.instance.tenant for attempt in running)
        if draw.random() < 0.55:
            tenant = draw.choice("aaaabbc")
            attempt = Attempt(
                SagaInstance(f"k{number}", f'"{tenant}"', kind, 0), 0, "run", 1, is_uncalled=True
            )
            store.slots.request_slot(attempt)
            if len(running) == 3:
                waiting.setdefault(attempt.instance.tenant, []).append(attempt)
        elif running and draw.random() < 0.9:
            gone = draw.choice(running)
            gone.finish(Outcome(OutcomeKind.SUCCEEDED, "null"), 0.0)
            store.slots.leave(gone)
            counts[gone.instance.tenant] -= 1
            there = {tenant: batches for tenant, batches in waiting.items() if batches}
            if there:
                following = store.called[-1]
                assert counts[following.instance.tenant] == min(counts[tenant] for tenant in there)
                assert following is waiting[following.instance.tenant].pop(0)
        elif any(waiting.values()):
            tenant = draw.choice([tenant for tenant, batches in waiting.items() if batches])
            store.slots.cancel(waiting[tenant].pop(draw.randrange(len(waiting[tenant]))))
        assert store.slots.running == min(
            3, len([attempt for attempt in store.called if attempt.state is AttemptState.RUNNING])
        )
        assert len(store.slots._queued) == sum(map(len, waiting.values()))
