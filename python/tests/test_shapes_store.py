"""Sagas whose steps come from their input, in both stores."""

from __future__ import annotations

import asyncio
import contextlib
import dataclasses
import datetime
import pathlib
import random
import time
from collections.abc import Sequence
from typing import Any

import psycopg
import pytest
import shaped
from cases import run, surely_ended, until
from shaped import Hotel, Order, Package, Parcel, Trip, booking, order, parcels, plain, ship, trip

import sagas
from sagas.cli import store_command
from sagas.core.shard.driver import ShardDefinitions
from sagas.definition.capacity import MAX_ADDED
from sagas.runtime import shard_runner
from sagas.storage import admin

ALL = [order, plain, trip, booking, shaped.package, shaped.hire]


def rows(location: str, query: str) -> list[Any]:
    """Return the rows of a query."""
    with contextlib.closing(admin.connect(location)) as link:
        return [tuple(row) for row in link.ask(query)]


async def ended(store: sagas.Store, saga: sagas.Saga, key: str, value: Any) -> sagas.SagaResult:
    """Run a saga to its end."""
    return await (await store.start(saga, key, value)).wait(120)


def is_good(verdicts: dict[str, str]) -> bool:
    """Return whether each shard's audit passes."""
    return all(verdict.startswith("yes") for verdict in verdicts.values())


def test_many_shapes_among_fixed_sagas(location: str) -> None:
    """After a restart, each end is the same as before."""

    async def start_and_wait(store: sagas.Store, number: int) -> sagas.SagaResult:
        if number % 4 == 3:
            return await ended(store, plain, f"p{number}", None)
        value = parcels(number, 1 if number % 4 == 1 else None)
        return await ended(store, order, f"o{number}", value)

    async def main() -> None:
        async with sagas.open(location, ALL) as store:
            ends = await asyncio.gather(*(start_and_wait(store, number) for number in range(60)))
            for number, end in enumerate(ends):
                if number % 4 == 3:
                    assert end.results == {"one": 1, "two": 2}
                elif number % 4 == 1 and number > 1:
                    assert end.states["ship-1"] == "failed" and end.each(ship)[0] == "0:t0"
                    assert end.cost == (await least(store, f"o{number}"))
                else:
                    assert end.ok
                    assert end.result_of(ship) == [f"{item}:t{item}" for item in range(number)]
            assert is_good(await store.audit())
        async with sagas.open(location, ALL) as store:
            for number, end in enumerate(ends):
                again = await store.wait(f"{'p' if number % 4 == 3 else 'o'}{number}")
                assert again == end
                if number % 4 == 0:
                    assert again.result_of(ship) == end.result_of(ship)
            assert is_good(await store.audit())

    run(main())
    assert rows(location, "SELECT count(*) FROM shapes") == [(45,)]


def test_no_shard_is_without_a_definition(location: str) -> None:
    """This holds also if its first saga has a key that another one has, as a wrong guess
    finds out.
    """

    async def main() -> None:
        async with sagas.open(location, [order, plain]) as store:
            for number in range(40):  # new keys, so that the next one is guessed to be new, too
                await ended(store, plain, f"p{number}", None)
            with pytest.raises(sagas.KeyConflict):
                await store.start(order, "p3", parcels(2))
            assert is_good(await store.audit())
        async with sagas.open(location, [order, plain]) as store:
            await until(lambda: not rows(location, "SELECT 1 FROM shards WHERE closed = 0"))
            assert is_good(await store.audit())

    run(main())
    lacking = "SELECT shard FROM shards WHERE shard NOT IN (SELECT shard FROM shard_definitions)"
    assert rows(location, lacking) == []
    assert rows(location, "SELECT count(*) FROM shards WHERE closed = 2") == [(0,)]


async def least(store: sagas.Store, key: str) -> int:
    """Return the cost of the saga's plan, which `sagas check` verifies to be the least."""
    plan = await store.plan(key)
    assert plan and str(plan.check()).startswith("least")
    assert plan.cost is not None
    return plan.cost


def test_inclusion_and_its_plan(location: str) -> None:
    async def main() -> None:
        async with sagas.open(location, ALL) as store:
            good = Trip(Package(Hotel("Rome", ["a"], True), ["vw", "bmw"]))
            end = await ended(store, trip, "good", good)
            confirmed = ["booked in Rome", ["booked in Rome: a"], "by LH1"]
            assert end.result_of(shaped.tour) == [
                "LH1",
                confirmed,
                ["booked in Rome: a"],
                ["vw", "bmw"],
            ]
            bad = await ended(store, trip, "bad", Trip(Package(Hotel("Rome", ["a"]), ["none"])))
            assert bad.cost == 12 == await least(store, "bad")
            assert bad.errors == {"p-car-0-take": "sagas.Fail: no car"}
        async with sagas.open(location, ALL) as store:
            again = await store.wait("good")
            assert again.result_of(shaped.inside[shaped.cars[shaped.take]]) == ["vw", "bmw"]

    run(main())


def held() -> tuple[sagas.Saga, asyncio.Event]:
    """Return a saga of two items that wait for their gate."""
    saga, go = sagas.Saga("held"), asyncio.Event()

    @saga.step(for_each=lambda input: {key: {"of": key} for key in input["keys"]})
    async def work(task: sagas.Task[Any]) -> Any:
        await go.wait()
        return [task.index, task.item]

    @saga.step(needs=[work])
    def last(task: sagas.Task[Any]) -> Any:
        return task.result_of(work)

    return saga, go


def test_items_are_those_of_the_start(location: str) -> None:
    """After a restart, a later release that would compute other items gets the stored ones."""
    first, _ = held()
    later = sagas.Saga("held")

    @later.step(for_each=lambda input: 1 / 0, name="work")
    def work(task: sagas.Task[Any]) -> Any:
        return [task.index, task.item]

    @later.step(needs=[work], name="last")
    def last(task: sagas.Task[Any]) -> Any:
        return task.result_of(work)

    async def main() -> None:
        async with sagas.open(location, [first], shutdown_timeout=0) as store:
            await store.start(first, "k", {"keys": ["b/1", "a \x01"]})
        async with sagas.open(location, [later]) as store:
            end = await store.wait("k", 60)
            wanted = {"a \x01": ["a \x01", {"of": "a \x01"}], "b/1": ["b/1", {"of": "b/1"}]}
            assert end.result_of(last) == wanted == end.each(work)
            with pytest.raises(sagas.InvalidInput, match="for_each= raised ZeroDivisionError"):
                await store.start(later, "new", {"keys": []})
            # the existing saga has the key, whatever its shape would be now
            assert not (await store.start(later, "k", {"keys": ["b/1", "a \x01"]})).new
            with pytest.raises(sagas.KeyConflict):
                await store.start(later, "k", {"keys": []})

    run(main())


def test_each_its_own_definition(location: str) -> None:
    """There are more definitions than a shard has, each text once in the store."""

    async def main() -> None:
        async with sagas.open(location, [order]) as store:
            orders = [Order([Parcel("a", number)] * 3, number=number) for number in range(150)]
            ends = await asyncio.gather(
                *(ended(store, order, f"k{number}", value) for number, value in enumerate(orders)),
                *(ended(store, order, f"t{number}", value) for number, value in enumerate(orders)),
            )
            assert all(end.ok for end in ends) and is_good(await store.audit())

    run(main())
    assert rows(location, "SELECT count(*) FROM definitions") == [(150,)]


def test_definitions_start_no_further_engine(
    location: str, monkeypatch: pytest.MonkeyPatch
) -> None:
    """Each saga has its own definition, and each shard still has one engine, its first."""
    engines: list[str] = []

    class Counted(shard_runner.EngineProcess):
        def __init__(self, program: str, of: Sequence[str], text: str, listener: Any) -> None:
            engines.append(listener.driver.name)
            begun.append(len(of))
            super().__init__(program, of, text, listener)

    begun: list[int] = []
    monkeypatch.setattr(shard_runner, "EngineProcess", Counted)

    async def main() -> None:
        async with sagas.open(location, [order]) as store:
            numbers = iter(range(300))

            async def lane() -> None:
                for number in numbers:
                    value = Order([Parcel("a")] * (number % 3), number=number)
                    assert (await ended(store, order, f"k{number}", value)).ok

            await asyncio.gather(*(lane() for _ in range(6)))
            assert is_good(await store.audit())

    run(main())
    shards = -(-300 // MAX_ADDED)
    assert rows(location, "SELECT count(*) FROM shards") == [(shards,)]
    assert len(engines) == len({*engines}) == shards
    assert sum(begun) < 300 // 4  # nearly all of them came later
    assert rows(location, "SELECT count(*) FROM shard_definitions") == [(300,)]


def test_a_definition_that_is_too_long_for_a_request(location: str) -> None:
    """Its shard gets another engine, whatever else is in progress there."""
    large = sagas.Saga("large")
    pack = large.step(external=True, name="pack-and-label", for_each="items", undo=1, skip=1)
    pack.compensation(external=True)
    large.step(external=True, name="send", needs=[pack], undo=0)

    async def main() -> None:
        async with sagas.open(location, [large]) as store:
            for key, count in (("few", 2), ("many", 1000), ("more", 1001)):
                started = store.start(large, key, {"items": list(range(count))})
                assert (await asyncio.wait_for(started, 60)).new
            both = (store.start(large, f"k{count}", {"items": [0] * count}) for count in (3, 900))
            await asyncio.wait_for(asyncio.gather(*both), 60)

    run(main())
    assert rows(location, "SELECT count(*) FROM shards") == [(1,)]


def test_invalid_starts_start_nothing(location: str) -> None:
    async def main() -> None:
        async with sagas.open(location, [order]) as store:
            with pytest.raises(sagas.InvalidInput, match="parcels"):
                await store.start(order, "k", {"parcels": 3})
            with pytest.raises(sagas.TooLarge):
                await store.start(order, "k", parcels(600))
            assert await store.get("k") is None
            assert (await ended(store, order, "k", Order())).ok

    run(main())


def test_a_limit_holds_over_all_items(location: str) -> None:
    saga, now, highest = sagas.Saga("limited"), 0, 0

    @saga.step(for_each="n", concurrency=3)
    async def work(task: sagas.Task[Any]) -> None:
        nonlocal now, highest
        now += 1
        highest = max(highest, now)
        await asyncio.sleep(0.002)
        now -= 1

    async def main() -> None:
        async with sagas.open(location, [saga]) as store:
            value = {"n": [0] * 7}
            ends = await asyncio.gather(*(ended(store, saga, f"k{n}", value) for n in range(4)))
            assert all(end.ok for end in ends) and highest == 3

    run(main())


def test_a_program_without_the_step_is_refused(tmp_path: pathlib.Path) -> None:
    path = str(tmp_path / "s.db")
    saga, _ = held()
    other = sagas.Saga("held")

    @other.step(for_each="keys", name="worked")
    def worked(task: sagas.Task[Any]) -> None:
        ...

    async def main() -> None:
        async with sagas.open(path, [saga], shutdown_timeout=0) as store:
            await store.start(saga, "k", {"keys": ["a"]})
        with pytest.raises(sagas.MissingStep, match="work-0"):
            async with sagas.open(path, [other]):
                pass

    run(main())


def test_another_version_of_an_included_saga(tmp_path: pathlib.Path) -> None:
    path = str(tmp_path / "s.db")

    def outer(version: int, go: asyncio.Event) -> sagas.Saga:
        inner, saga = sagas.Saga("inner", version=version), sagas.Saga("outer")

        @inner.step(name="work")
        async def work(task: sagas.Task[Any]) -> None:
            await go.wait()

        saga.include(inner)
        return saga

    async def main() -> None:
        first = outer(1, asyncio.Event())
        async with sagas.open(path, [first], shutdown_timeout=0) as store:
            await store.start(first, "k")
        with pytest.raises(sagas.MissingStep, match="includes saga 'inner' .version 1.*version 2"):
            async with sagas.open(path, [outer(2, asyncio.Event())]):
                pass

    run(main())


def test_engines_are_killed_while_definitions_come(location: str) -> None:
    """Each saga has its own definition; at the same time each engine is killed."""

    async def main() -> None:
        draw, kills = random.Random(5), 0
        async with sagas.open(location, [order, plain]) as store:

            async def kill() -> None:
                nonlocal kills
                while True:
                    await asyncio.sleep(draw.uniform(0.03, 0.2))
                    for runner in list(store._coordinator.shards.runners.values()):
                        if runner.engine and not runner.engine.is_dead:
                            runner.engine.process.kill()
                            kills += 1

            async def start_and_wait(number: int) -> sagas.SagaResult:
                await asyncio.sleep(draw.uniform(0, 2))
                bad = 1 if number % 3 == 1 else None
                value = parcels(3, bad, lambda item: number * 3 + item)
                return await surely_ended(store, order, f"o{number}", value)

            killer = asyncio.create_task(kill())
            ends = await asyncio.gather(*(start_and_wait(number) for number in range(40)))
            killer.cancel()
            assert kills > 3
            assert all(end.ok == (number % 3 != 1) for number, end in enumerate(ends))
            assert is_good(await store.audit())

    run(main())


def test_an_engine_refuses_definitions_while_sagas_of_them_are_opened(
    location: str, monkeypatch: pytest.MonkeyPatch
) -> None:
    """Those after a refused one have other slots in that engine. No saga gets one of them."""
    refused, right = 0, ShardDefinitions.define_lines

    def define_lines(self: ShardDefinitions) -> list[str]:
        nonlocal refused
        lines = right(self)
        if self.has_grown and len(lines) > 1:  # the second one gets the slot of the first
            refused += 1
            lines[0] = '{"definition":"","do":"define"}'
        return lines

    monkeypatch.setattr(ShardDefinitions, "define_lines", define_lines)

    async def main() -> None:
        async with sagas.open(location, [order, plain]) as store:

            async def start_and_wait(number: int) -> sagas.SagaResult:
                await asyncio.sleep(number // 10 / 10)
                bad = 1 if number % 3 == 1 else None
                value = parcels(number % 7 + 2, bad, lambda item: number * 9 + item)
                return await surely_ended(store, order, f"o{number}", value)

            ends = await asyncio.gather(*(start_and_wait(number) for number in range(100)))
            assert refused
            assert all(end.ok == (number % 3 != 1) for number, end in enumerate(ends))
            assert is_good(await store.audit())

    run(main())


def test_a_codec_has_the_items_too(location: str) -> None:
    class Codec:
        def encode(self, data: bytes) -> bytes:
            return data[::-1]

        def decode(self, data: bytes) -> bytes:
            return data[::-1]

    async def main() -> None:
        async with sagas.open(location, [order], codec=Codec()) as store:
            assert (await ended(store, order, "k", Order([Parcel("secret town")]))).ok
        async with sagas.open(location, [order], codec=Codec()) as store:
            assert (await store.wait("k")).result_of(ship) == ["0:secret town"]

    run(main())
    assert "secret" not in str(rows(location, "SELECT shape FROM shapes"))


# -- clients


def test_a_client_starts_a_shaped_saga(url: str) -> None:
    async def main() -> None:
        async with sagas.open(url, ALL) as _, sagas.Client(url) as client:
            end = await (await client.start(order, "a", parcels(3))).wait(60)
            assert end.ok and end.result_of(ship) == ["0:t0", "1:t1", "2:t2"]
            with pytest.raises(sagas.InvalidInput, match="parcels"):
                await client.start(order, "b", {"parcels": 3})
            assert await client.get("b") is None

    run(main())


def other_code(
    theirs: Any = lambda input: input["gone"],
) -> tuple[sagas.Saga, sagas.Saga]:
    """Return a saga as a client and as a node have it; only the node's function raises."""

    def made(function: Any) -> sagas.Saga:
        saga = sagas.Saga("made")

        @saga.step(for_each=function, name="work")
        def work(task: sagas.Task[Any]) -> Any:
            return task.item

        return saga

    return made(lambda input: input["items"]), made(theirs)


@pytest.mark.parametrize(
    "function, message",
    [
        (lambda input: input["gone"], "for_each= raised KeyError"),
        (lambda input: (int(f"x{item}") for item in input["items"]), "for_each= raised ValueError"),
    ],
)
def test_a_start_that_raises_in_the_node_is_refused(url: str, function: Any, message: str) -> None:
    """It is kept as such, and taken again if it is started again; other starts continue."""
    mine, theirs = other_code(function)

    async def main() -> None:
        async with sagas.Client(url) as client:
            async with sagas.open(url, [theirs, plain]) as store:
                started = await client.start(mine, "a", {"items": [1]})
                for wait in (started.wait, lambda time: store.wait("a", time)):
                    with pytest.raises(sagas.InvalidInput, match=message):
                        await wait(60)
                assert (await (await client.start(plain, "b")).wait(60)).ok
                with pytest.raises(sagas.InvalidInput):
                    await client.complete("a", "work-0", 1)
            async with sagas.open(url, [mine]) as store:
                assert not (await client.start(mine, "a", {"items": [1]})).new
                assert (await client.wait("a", 60)).result_of("work") == [1]

    async def withdrawn() -> None:
        async with sagas.Client(url) as client:
            async with sagas.open(url, [theirs]):
                await client.start(mine, "c", {"items": [1]})
                with pytest.raises(sagas.InvalidInput):
                    await client.wait("c", 60)
                assert await client.abort("c") and await client.get("c") is None

    async def prepared() -> None:
        async with sagas.open(url, [plain]):
            pass

    run(prepared())
    run(main())
    run(withdrawn())


def test_refused_starts_are_pruned_as_ended_sagas(
    url: str, capsys: pytest.CaptureFixture[str]
) -> None:
    """By their age since they were refused, by the command and by an open store; others stay."""
    mine, theirs = other_code()

    async def refused(client: sagas.Client, *keys: str) -> None:
        for key in keys:
            await client.start(mine, key, {"items": [1]})
            with pytest.raises(sagas.InvalidInput):
                await client.wait(key, 60)

    async def main() -> None:
        async with sagas.Client(url) as client, sagas.open(url, [theirs]):
            await refused(client, "old", "new")
            with psycopg.connect(url) as link:
                link.execute("UPDATE sagas.pending_starts SET at = at - 7200 WHERE key = 'old'")
            arguments = [url, "prune", "--older-than", "1h"]
            assert await asyncio.to_thread(store_command.main, arguments) == 0
            assert await client.get("old") is None
            with pytest.raises(sagas.NoSuchSaga):
                await client.wait("old", 1)
            with pytest.raises(sagas.InvalidInput):
                await client.wait("new", 1)
        async with sagas.Client(url) as client:  # its age is counted from the refusal on
            await client.start(mine, "slow", {"items": [1]})
            with psycopg.connect(url) as link:
                link.execute("UPDATE sagas.pending_starts SET at = 7 WHERE key = 'slow'")
            async with sagas.open(url, [theirs]):
                with pytest.raises(sagas.InvalidInput):
                    await client.wait("slow", 60)
            ((at,),) = rows(url, "SELECT at FROM pending_starts WHERE key = 'slow'")
            assert abs(at - time.time()) < 600
        nothing = datetime.timedelta(0)
        async with sagas.open(url, [theirs], retention=nothing):
            await until(lambda: not rows(url, "SELECT 1 FROM pending_starts"))

    async def prepared() -> None:
        async with sagas.open(url, [plain]):
            pass

    run(prepared())
    run(main())
    assert capsys.readouterr().out == "deleted 0 sagas (0 shards) and 1 refused start\n"


def test_another_node_takes_over(url: str) -> None:
    """Its definitions and items are those of the store."""

    async def main() -> None:
        first, _ = held()
        second, go = held()
        async with sagas.open(url, [first], node="a", lease=1, shutdown_timeout=0) as store:
            for number in range(5):
                await store.start(first, f"k{number}", {"keys": ["x", "y", "z"][: number % 4]})
        go.set()
        async with sagas.open(url, [second], node="b", lease=1) as store:
            for number in range(5):
                end = await store.wait(f"k{number}", 60)
                keys = ["x", "y", "z"][: number % 4]
                assert end.result_of("last") == {key: [key, {"of": key}] for key in keys}
            await store.start(second, "new", {"keys": ["q"]})
            assert (await store.wait("new", 60)).ok

    run(main())
    with psycopg.connect(url) as link:
        (count,) = link.execute("SELECT count(*) FROM sagas.shapes").fetchone() or (0,)
    assert count == 6


def test_no_shape_outlives_its_saga(location: str) -> None:
    from sagas.runtime import retention

    async def main() -> None:
        async with sagas.open(location, [order]) as store:
            assert (await ended(store, order, "k", parcels(2))).ok
        async with sagas.open(location, [order]):
            await until(lambda: not rows(location, "SELECT 1 FROM shards WHERE closed = 0"))

    run(main())
    assert retention.prune(location, 0).sagas == 1
    for table in ("shapes", "definitions", "shard_definitions"):
        assert rows(location, f"SELECT count(*) FROM {table}") == [(0,)], table


def test_two_inputs_are_two_sagas() -> None:
    assert dataclasses.replace(Order(), gift=True) != Order()
