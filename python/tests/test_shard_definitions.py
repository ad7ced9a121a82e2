"""The questions to an engine about a shard's definitions, with the real engine."""

from __future__ import annotations

import pathlib
from collections.abc import Iterator, Sequence
from contextlib import contextmanager
from typing import Any

import pytest
from cases import ended, run, until
from core_world import Engine

import sagas
from sagas.core.protocol import EngineDisagrees
from sagas.core.shard.driver import ShardDefinitions, ShardDriver, ShardIdentity
from sagas.core.attempt.instance import SagaInstance
from sagas.core.states import ShardState
from sagas.definition.compiled import CompiledDefinition


def kind(name: str) -> CompiledDefinition:
    """Return a definition of one step."""
    saga = sagas.Saga(name)

    @saga.step
    async def step(task: sagas.Task[Any]) -> None:
        ...

    return CompiledDefinition(saga.toml(), saga)


@contextmanager
def engine(folder: pathlib.Path, kinds: Sequence[CompiledDefinition]) -> Iterator[Engine]:
    """Run `sagas drive --lines` with these definitions."""
    paths = [folder / f"{number}.toml" for number in range(len(kinds))]
    for path, kind in zip(paths, kinds):
        path.write_text(kind.text)
    started = Engine(paths, None)
    try:
        yield started
    finally:
        started.kill()


def turn(driver: ShardDriver, engine: Engine, *opened: SagaInstance) -> list[str]:
    """Open sagas by one question. Returns its lines."""
    for saga in opened:
        driver.open(saga)
    lines = driver.requests(0)
    answer = driver.replies(*engine.ask(lines), 1.0)
    assert not isinstance(answer, list)
    driver.begin_commit(answer)
    driver.committed(answer)
    return lines


def driver_of(kinds: Sequence[CompiledDefinition]) -> tuple[ShardDriver, ShardDefinitions]:
    definitions = ShardDefinitions(kinds)
    driver = ShardDriver.created(ShardIdentity(0, "shard", definitions))
    driver.set_state(ShardState.STARTING)
    driver.set_state(ShardState.ACTIVE)
    return driver, definitions


def instance(definitions: ShardDefinitions, of: CompiledDefinition) -> SagaInstance:
    return SagaInstance(of.name, "null", of, definitions.definition_index(of))


def test_the_first_definition_is_known_before_a_saga_of_it_is_opened(
    tmp_path: pathlib.Path,
) -> None:
    """After it, a saga is opened by the same question that adds its definition."""
    first, second, third, fourth = map(kind, ("first", "second", "third", "fourth"))
    driver, definitions = driver_of([first])
    with engine(tmp_path, [first]) as started:
        requests = turn(
            driver, started, instance(definitions, first), instance(definitions, second)
        )
        assert ['"do":"define"' in line for line in requests] == [True, False]
        assert (driver.opened, definitions.known_count) == (1, 2)
        assert len(turn(driver, started)) == 1 and driver.opened == 2
        both = instance(definitions, third), instance(definitions, fourth)
        requests = turn(driver, started, *both, instance(definitions, third))
        assert ['"do":"define"' in line for line in requests] == [True, True, False, False, False]
    assert (driver.opened, definitions.known_count) == (5, 4)
    assert [saga.definition_index for saga in driver.sagas.values()] == [0, 1, 2, 3, 2]


def test_no_saga_is_opened_with_another_definition(tmp_path: pathlib.Path) -> None:
    """The engine assigns a definition another slot: its replies about it do not count, and the
    shard requests an engine that begins with all definitions.
    """
    first, second, third = map(kind, ("first", "second", "third"))
    driver, definitions = driver_of([first])
    with engine(tmp_path, [first]) as started:
        turn(driver, started, instance(definitions, second))
        turn(driver, started)
        started.ask([kind_line(kind("beside"))])
        with pytest.raises(EngineDisagrees, match="definition 2"):
            turn(driver, started, instance(definitions, third))
        assert definitions.is_fixed and definitions.known_count == 2
        assert [saga.kind.name for saga in driver.sagas.values()] == ["second"]
        driver.fail()
        assert driver.state is ShardState.STALE


def kind_line(of: CompiledDefinition) -> str:
    """Return the request that adds a definition, which the driver does not know."""
    definitions = ShardDefinitions([])
    definitions.definition_index(of)
    return definitions.define_lines()[0]


def test_the_undo_of_an_older_child_is_stored(location: str) -> None:
    """This holds also in a shard of sagas whose steps come from their inputs, where no other saga
    has it.
    """

    def declared(is_later: bool) -> list[sagas.Saga]:
        hotel, trip, order = sagas.Saga("hotel"), sagas.Saga("trip"), sagas.Saga("order")
        room = hotel.step(name="room", keep=9)(lambda task: "R-7")
        room.compensation(lambda task: None)
        if is_later:
            hotel.step(name="bar", needs=[room])(lambda task: None)
        stay = trip.child(hotel, name="stay", input=lambda task: None, undo=1, keep=9)
        trip.step(name="pay", external=True, needs=[stay])
        order.step(name="send", for_each="items")(lambda task: None)
        return [hotel, trip, order]

    async def main() -> None:
        older, later = declared(False), declared(True)
        async with sagas.open(location, older) as store:
            await store.start(older[1], "trip-1")
            await until(lambda: store.get("trip-1/:stay"))
            await store.wait("trip-1/:stay")
        async with sagas.open(location, later) as store:
            assert (await ended(store, later[2], "order-1", {"items": [1]})).ok
            await store.fail("trip-1", "pay", "no")
            assert (await store.wait("trip-1")).states == {"stay": "undone", "pay": "failed"}
        async with sagas.open(location, later) as store:
            assert (await ended(store, later[2], "order-2", {"items": [1]})).ok
            assert all(verdict.startswith("yes") for verdict in (await store.audit()).values())

    run(main())
