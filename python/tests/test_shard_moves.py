"""Shards that move between the nodes of a database: shares, drains, and nodes that are killed."""

from __future__ import annotations

import asyncio
import contextlib
import os
import pathlib
import signal
import sys
from collections import Counter
from collections.abc import AsyncIterator, Sequence
from typing import Any

import psycopg
import pytest
from cases import Task, run, until
from driving import program

import sagas
from sagas.core.states import ShardState
from sagas.storage.postgresql.storage import PostgreSQL

LEASE = 1.0
ROOM = 2
"""How many sagas a shard has."""


@pytest.fixture(autouse=True)
def small_shards(monkeypatch: pytest.MonkeyPatch) -> None:
    monkeypatch.setattr("sagas.definition.registry.SHARD_CAPACITY", ROOM)


def rows(url: str, query: str, *parameters: Any) -> list[tuple[Any, ...]]:
    with psycopg.connect(url, autocommit=True) as link:
        cursor = link.execute(query, parameters or None)  # type: ignore[call-overload]
        return cursor.fetchall() if cursor.description else []


OWNED = """
SELECT split_part(l.owner, '/', 1), count(DISTINCT l.shard) FROM sagas.shards l
JOIN sagas.sagas s ON s.id / 1000 = l.shard AND s.phase IS NULL
WHERE l.closed = 0 GROUP BY 1 ORDER BY 1
"""
TAKEOVERS = "SELECT count(*) FROM sagas.takeovers"
DRAIN = """
INSERT INTO sagas.drains(name, note, at) VALUES(%s, 'a test', 0) ON CONFLICT DO NOTHING
"""
UNDRAIN = "DELETE FROM sagas.drains WHERE name = %s"


def owned(url: str) -> dict[str, int]:
    """Return how many shards with open sagas each node has."""
    return {name: count for name, count in rows(url, OWNED)}


def waiting(
    gate: asyncio.Event, calls: Counter[str], concurrency: int | None = None
) -> sagas.Saga[Any]:
    """Return a saga that waits for an approval, and then for a gate."""
    saga: sagas.Saga[Any] = sagas.Saga("pair")

    @saga.approval(undo=0)
    def agree(task: Task) -> None:
        ...

    @saga.step(needs=[agree], undo=sagas.NOTHING, concurrency=concurrency)
    async def b(task: Task) -> int:
        calls[task.key] += 1
        await gate.wait()
        return 2

    return saga


class Nodes:
    """Nodes of one program over one database."""

    def __init__(self, url: str, *names: str, concurrency: int | None = None) -> None:
        self.url, self.names = url, names
        self.gate, self.calls = asyncio.Event(), Counter[str]()
        self.saga = waiting(self.gate, self.calls, concurrency)
        self.stores: dict[str, sagas.Store] = {}
        self.events: dict[str, list[str]] = {}
        self._stacks: dict[str, contextlib.AsyncExitStack] = {}

    async def __aenter__(self) -> Nodes:
        for name in self.names:
            await self.open(name)
        return self

    async def open(self, name: str, **options: Any) -> sagas.Store:
        stack = self._stacks[name] = contextlib.AsyncExitStack()
        names = self.events[name] = []
        settings = {"node": name, "lease": LEASE, **options}
        store = self.stores[name] = await stack.enter_async_context(
            sagas.open(
                self.url, [self.saga], on_event=lambda event: names.append(event.name), **settings
            )
        )
        return store

    async def close(self, name: str) -> None:
        del self.stores[name]
        await self._stacks.pop(name).aclose()

    async def __aexit__(self, *error: object) -> None:
        self.gate.set()
        for name in [*self.stores]:
            await self.close(name)

    async def start(self, at: str, count: int) -> list[str]:
        keys = [f"{at}-{number}" for number in range(count)]
        for key in keys:
            await self.stores[at].start(self.saga, key)
        return keys

    async def finish(self, keys: Sequence[str], at: str) -> None:
        """Approve, and check that each saga ends with one call of each step."""
        self.gate.set()
        store = self.stores[at]
        await asyncio.gather(*(store.complete(key, "agree", True) for key in keys))
        ends = await asyncio.gather(*(store.wait(key) for key in keys))
        assert all(end.results == {"agree": True, "b": 2} for end in ends)
        assert self.calls == Counter(keys)
        assert all(text.startswith("yes") for text in (await store.audit()).values())


def test_a_later_node_gets_its_share(url: str) -> None:
    """Of twelve sagas in six shards, and each saga ends with one call."""

    async def main() -> None:
        async with Nodes(url, "one") as nodes:
            keys = await nodes.start("one", 12)
            assert owned(url) == {"one": 6}
            await nodes.open("two")
            await until(lambda: owned(url) == {"one": 3, "two": 3})
            await nodes.open("three")
            await until(lambda: owned(url) == {"one": 2, "three": 2, "two": 2})
            await nodes.finish(keys, "two")

    run(main())


def test_nodes_at_rest_exchange_nothing(url: str) -> None:
    """Three nodes with shards of their own and of others: no shard moves, once they have shares.

    Each round of each node is awaited, so that no clock decides.
    """

    async def main() -> None:
        async with Nodes(url, "one") as nodes:
            keys = await nodes.start("one", 7)
            for name in ("two", "three"):
                await nodes.open(name)
                await nodes.stores[name].start(nodes.saga, f"{name}'s")
            accepting = "SELECT sum(accepting) FROM sagas.nodes"
            await until(lambda: rows(url, accepting) == [(0,)] and len(owned(url)) == 3)
            await rounds(nodes, 2)
            await until(lambda: at_rest(nodes) == 6)
            before = await rounds(nodes, 1)
            assert await rounds(nodes, 4) == before and at_rest(nodes) == 6
            assert owned(url) == {"one": 2, "three": 2, "two": 2}
            await nodes.finish([*keys, "two's", "three's"], "three")

    run(main())


def at_rest(nodes: Nodes) -> int:
    """Return how many shards with open sagas are loaded."""
    runners = [
        runner
        for store in nodes.stores.values()
        for runner in store._coordinator.shards.runners.values()
    ]
    states = ShardState.ACTIVE, ShardState.IDLE
    return sum(runner.driver.state in states and bool(runner.driver.sagas) for runner in runners)


async def rounds(nodes: Nodes, count: int) -> int:
    """Return the number of takeovers once each node has looked so often at its shards."""
    for store in nodes.stores.values():
        moves = store._coordinator.shards.relocation.moves
        for _ in range(count):
            await moves._move_some()
    ((takeovers,),) = rows(nodes.url, TAKEOVERS)
    return int(takeovers)


def test_a_shard_with_a_running_function_waits_for_it(url: str) -> None:
    """It starts no further attempt, and moves when the function has ended.

    A shard whose attempts only wait for a limit moves at once.
    """

    async def main() -> None:
        async with Nodes(url, "one", "two", concurrency=1) as nodes:
            keys = await nodes.start("one", 4)
            north, south = nodes.stores["one"], nodes.stores["two"]
            for number, key in enumerate(keys):
                await north.complete(key, "agree", True)
                waits = "" if number == 0 else "concurrency"
                await until(
                    lambda: [(entry.step, entry.waits) for entry in north.active_attempts(key)]
                    == [("b", waits)]
                )
            await until(lambda: nodes.calls == {keys[0]: 1})
            await north.drain("one", note="a test", by="Ada")
            moving = north._coordinator.executor.machine.pauses.moving
            await until(lambda: moving)
            paused = "its shard moves to another node"
            await until(
                lambda: [attempt.paused for attempt in north.active_attempts(keys[1])] == [paused]
            )
            await until(lambda: owned(url) == {"one": 1, "two": 1})
            await until(lambda: nodes.calls[keys[2]] == 1 and nodes.calls[keys[1]] == 0)
            assert owned(url) == {"one": 1, "two": 1}
            nodes.gate.set()
            ends = await asyncio.gather(*(south.wait(key) for key in keys))
            assert all(end.ok for end in ends) and nodes.calls == Counter(keys)

    run(main())


def test_a_shard_that_does_not_come_to_rest_stays(
    url: str, monkeypatch: pytest.MonkeyPatch
) -> None:
    """Its attempts start again."""
    monkeypatch.setattr("sagas.runtime.shard_moves.DRAIN_SECONDS", 0.3)

    async def main() -> None:
        async with Nodes(url, "one", "two") as nodes:
            keys = await nodes.start("one", 2)
            north = nodes.stores["one"]
            for key in keys:
                await north.complete(key, "agree", True)
            await until(lambda: len(nodes.calls) == 2)
            late = await north.start(nodes.saga, "late")
            await north.drain("one", note="a test")
            await until(lambda: owned(url) == {"one": 1, "two": 1})
            moves = north._coordinator.shards.relocation.moves
            await until(lambda: len(moves._stays) == 1)
            await north.undrain("one")
            await until(lambda: not moves.is_drained)
            assert moves._loads() == []  # it is not tried again for a time
            await nodes.stores["two"].complete("late", "agree", True)
            await until(lambda: nodes.calls["late"])
            nodes.gate.set()
            assert (await late.wait()).ok
            assert all(end.ok for end in await asyncio.gather(*(north.wait(key) for key in keys)))
            assert nodes.calls == Counter([*keys, "late"])

    run(main())


def test_a_drained_node(url: str) -> None:
    """It has no shards, takes none, and its sagas are started by another node, until undrained."""

    async def main() -> None:
        async with Nodes(url, "one", "two") as nodes:
            north, south = nodes.stores["one"], nodes.stores["two"]
            keys = await nodes.start("one", 5)
            with pytest.raises(sagas.NoSuchNode, match="no node has the name 'three'"):
                await south.drain("three", note="none")
            with pytest.raises(sagas.NoSuchNode, match="node 'one' is not drained"):
                await south.undrain("one")
            with pytest.raises(ValueError):
                await south.drain("one", note=" ")
            await south.drain("one", note="its machine is replaced", by="Ada")
            await until(lambda: owned(url) == {"two": 3})
            run_of = await north.start(nodes.saga, "new")
            assert run_of.new and owned(url) == {"two": 4}
            assert not (await north.start(nodes.saga, "new")).new
            with pytest.raises(sagas.KeyConflict):
                await north.start(nodes.saga, "new", "another input")
            starts = await asyncio.gather(
                *(north.start(nodes.saga, "at once", number % 2) for number in range(6)),
                *(south.start(nodes.saga, "at once", number % 2) for number in range(6)),
                return_exceptions=True,
            )
            done = [entry for entry in starts if not isinstance(entry, BaseException)]
            assert sum(entry.new for entry in done) == 1 and len(done) == 6
            assert all(isinstance(entry, (sagas.Run, sagas.KeyConflict)) for entry in starts)
            states = {node.name: node.state.value for node in await south.nodes()}
            assert states == {"one": "drained", "two": "running"}
            await nodes.close("one")
            (ended,) = [node for node in await south.nodes() if node.name == "one"]
            assert (ended.state, ended.run, ended.drain and ended.drain.note) == (
                "gone",
                None,
                "its machine is replaced",
            )
            north = await nodes.open("one")  # its next run is drained, too
            assert (await north.start(nodes.saga, "newer")).new and set(owned(url)) == {"two"}
            await north.undrain("one", note="done", by="Bob")
            await until(lambda: owned(url).get("one", 0) >= 1)
            entries = rows(
                url,
                "SELECT command FROM sagas.operator_commands WHERE key = '/:node:one' ORDER BY id",
            )
            assert [command for (command,) in entries] == ["drain", "undrain"]
            await nodes.finish([*keys, "new", "newer", "at once"], "one")

    run(main())


def test_a_restart_at_a_drained_node(url: str) -> None:
    """It starts there, so that a repeated restart sees the link, and moves with its shard."""

    async def main() -> None:
        async with Nodes(url, "one", "two") as nodes:
            north, south = nodes.stores["one"], nodes.stores["two"]
            run = await north.start(nodes.saga, "k")
            await north.abort("k")
            assert (await run.wait()).aborted
            await south.drain("one", note="a test")
            await until(lambda: north._coordinator.shards.relocation.moves.is_drained)
            runs = await asyncio.gather(*(north.restart("k", "again") for _ in range(4)))
            assert sum(run.new for run in runs) == 1
            await until(lambda: owned(url) == {"two": 1})
            assert not (await south.restart("k", "again")).new
            await nodes.finish(["again"], "two")

    run(main())


def test_a_drain_of_the_only_node_has_no_effect(url: str) -> None:
    """It executes its sagas, and takes the shards of another node that is gone, until one comes."""

    async def main() -> None:
        async with Nodes(url, "one") as nodes:
            north = nodes.stores["one"]
            keys = await nodes.start("one", 2)
            await north.drain("one", note="a mistake")
            await north.start(nodes.saga, "here")
            assert owned(url) == {"one": 2}
            (status,) = await north.nodes()
            assert (status.state, status.shards, status.open_sagas) == ("draining", 2, 3)
            await nodes.open("two")
            await until(lambda: owned(url) == {"two": 2})
            await nodes.close("two")
            await until(lambda: owned(url) == {"one": 2})
            await nodes.finish([*keys, "here"], "one")

    run(main())


def test_a_drain_ends_a_day_after_its_node(url: str) -> None:
    async def main() -> None:
        async with Nodes(url, "one", "two") as nodes:
            await nodes.stores["one"].drain("one", note="a test")
            await until(lambda: nodes.stores["one"]._coordinator.shards.relocation.moves.is_drained)
            await nodes.close("one")
            rows(url, "UPDATE sagas.drains SET seen = now() - interval '25 hours'")
            assert [node.name for node in await nodes.stores["two"].nodes()] == ["two"]
            north = await nodes.open("one")
            assert rows(url, "SELECT name FROM sagas.drains") == []
            assert not north._coordinator.shards.relocation.moves.is_drained

    run(main())


def test_a_shard_stays_where_its_definitions_are(url: str) -> None:
    """A drained node keeps what no other node can execute, and the start of such a saga."""

    async def main() -> None:
        other: sagas.Saga[Any] = sagas.Saga("other")
        other.step(name="x")(lambda task: 1)
        async with Nodes(url, "one") as nodes, sagas.open(
            url, [other], node="other", lease=LEASE
        ) as store:
            north = nodes.stores["one"]
            keys = await nodes.start("one", 4)
            await north.drain("one", note="a test")
            await until(lambda: north._coordinator.shards.relocation.moves.is_drained)
            await north.start(nodes.saga, "here")
            await north._coordinator.shards.relocation.moves._move_some()
            assert owned(url) == {"one": 3}
            assert (await store.start(other, "x")).new
            await nodes.open("two")
            await until(lambda: owned(url) == {"two": 3})
            await nodes.finish([*keys, "here"], "two")

    run(main())


def steps(gate: asyncio.Event, *names: str) -> sagas.Saga[Any]:
    """Return a saga of these steps in order, after an approval."""
    saga: sagas.Saga[Any] = sagas.Saga("pair")
    before: Any = saga.approval(undo=0, name="agree")(lambda task: None)
    for name in names:
        before = saga.step(name=name, needs=[before], undo=sagas.NOTHING)(lambda task: 1)
    return saga


def test_a_drain_during_a_deploy(url: str) -> None:
    """A node with a later definition of the same version takes the shard, if it has the steps.

    A node that does not have them leaves the shard, which returns and does not move there again.
    """
    gate = asyncio.Event()

    async def main() -> None:
        old, later, other = steps(gate, "a"), steps(gate, "a", "b"), steps(gate, "c")
        async with sagas.open(url, [old], node="old", lease=LEASE) as store:
            await store.start(old, "k")
            moves = store._coordinator.shards.relocation.moves
            async with sagas.open(url, [other], node="other", lease=LEASE):
                await store.drain("old", note="a deploy")
                await until(lambda: moves._refused)
                await until(lambda: moves._loads() and owned(url) == {"old": 1})
                await moves._move_some()
                assert owned(url) == {"old": 1}
                async with sagas.open(url, [later], node="later", lease=LEASE) as third:
                    await until(lambda: owned(url) == {"later": 1})
                    await store.complete("k", "agree", True)
                    assert (await third.wait("k")).results == {"agree": True, "a": 1}

    run(main())


# -- nodes that are killed

HERE = pathlib.Path(__file__).resolve().parent
PROGRAM = """
import asyncio, collections, os, signal, sys
import sagas, sagas.definition.registry, test_shard_moves
from sagas.storage.postgresql.node_lease import Lease
from sagas.storage.postgresql.storage import PostgreSQL

url, name, count, crash = sys.argv[1:]
sagas.definition.registry.SHARD_CAPACITY = test_shard_moves.ROOM
move, take = PostgreSQL.move, Lease.take

async def die_before(*arguments):
    os.kill(os.getpid(), signal.SIGKILL)

async def die_after(*arguments):
    if await move(*arguments):
        os.kill(os.getpid(), signal.SIGKILL)

async def main():
    saga = test_shard_moves.waiting(asyncio.Event(), collections.Counter())
    async with sagas.open(url, [saga], node=name, lease=test_shard_moves.LEASE) as store:
        for number in range(int(count)):
            await store.start(saga, f"one-{number}")
        if crash == "taker":
            Lease.take = die_before
        else:
            PostgreSQL.move = {"before": die_before, "after": die_after}[crash]
        print("open", flush=True)
        await store.serve()

asyncio.run(main())
"""


@contextlib.asynccontextmanager
async def crashing(url: str, name: str, count: int, crash: str) -> AsyncIterator[Any]:
    """Run a node in its own process, which kills itself in a move."""
    path = f"{HERE.parent / 'src'}{os.pathsep}{HERE}"
    environment = os.environ | {"PYTHONPATH": path, "SAGAS_PROGRAM": program()}
    command = [sys.executable, "-c", PROGRAM, url, name, str(count), crash]
    process = await asyncio.create_subprocess_exec(
        *command, stdout=asyncio.subprocess.PIPE, env=environment
    )
    try:
        assert process.stdout
        assert await process.stdout.readline() == b"open\n"
        yield process
    finally:
        with contextlib.suppress(ProcessLookupError):
            process.kill()
        await process.wait()


@pytest.mark.parametrize("crash", ["before", "after"])
def test_a_node_is_killed_as_it_moves_a_shard(url: str, crash: str) -> None:
    """The other node has all its shards after its lease, and executes each saga once."""

    async def main() -> None:
        async with crashing(url, "one", 6, crash) as process:
            async with Nodes(url, "two") as nodes:
                assert await process.wait() == -signal.SIGKILL
                await until(lambda: owned(url) == {"two": 3})
                await nodes.finish([f"one-{number}" for number in range(6)], "two")

    run(main())


def test_a_node_is_killed_as_it_takes_a_shard(url: str) -> None:
    """The shard has an owner all the time, and the others take it after its lease."""

    async def main() -> None:
        async with Nodes(url, "one") as nodes:
            keys = await nodes.start("one", 6)
            async with crashing(url, "two", 0, "taker") as process:
                assert await process.wait() == -signal.SIGKILL
                assert set(owned(url)) <= {"one", "two"} and sum(owned(url).values()) == 3
                await until(lambda: owned(url) == {"one": 3})
                await until(lambda: at_rest(nodes) == 3)
                await nodes.finish(keys, "one")

    run(main())


def test_the_answer_of_a_move_is_lost(url: str, monkeypatch: pytest.MonkeyPatch) -> None:
    """The node looks whether it still has the shard, and the other one has it."""
    move, lost = PostgreSQL.move, list[int]()

    async def lose_the_answer(self: PostgreSQL, shard: int, *arguments: Any) -> bool:
        is_moved = await move(self, shard, *arguments)
        if is_moved and len(lost) < 2:
            lost.append(shard)
            raise sagas.StoreUnavailable("the answer is lost")
        return is_moved

    async def main() -> None:
        monkeypatch.setattr(PostgreSQL, "move", lose_the_answer)
        async with Nodes(url, "one") as nodes:
            keys = await nodes.start("one", 8)
            await nodes.open("two")
            await until(lambda: len(lost) == 2 and owned(url) == {"one": 2, "two": 2})
            await until(lambda: at_rest(nodes) == 4)
            await nodes.finish(keys, "two")

    run(main())
