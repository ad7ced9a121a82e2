"""A backup replaces a database while nodes run."""

from __future__ import annotations

import asyncio
import contextlib
import pathlib
from collections import Counter, defaultdict

import psycopg
import pytest
from cases import Task, ended, run, until
from server import Server

import sagas


class World:
    """A saga of two steps, and the second waits at a gate.

    The class keeps the calls, with their idempotency keys.
    """

    def __init__(self) -> None:
        self.calls: Counter[tuple[str, str]] = Counter()
        self.keys: defaultdict[str, set[str]] = defaultdict(set)
        self.gates: defaultdict[str, asyncio.Event] = defaultdict(asyncio.Event)
        self.saga = sagas.Saga("pair")

        @self.saga.step
        async def a(task: Task) -> None:
            self.called(task, "a")

        @self.saga.step(needs=[a])
        async def b(task: Task) -> None:
            self.called(task, "b")
            await self.gates[task.key].wait()

    def called(self, task: Task, step: str) -> None:
        self.calls[task.key, step] += 1
        self.keys[task.idempotency_key].add(f"{task.key} {step} {task.input}")

    async def waits(self, store: sagas.Store, key: str) -> sagas.Run:
        """Start a saga, and return when its second step waits."""
        begun = await store.start(self.saga, key)
        await until(lambda: self.calls[key, "b"])
        return begun

    async def goes_well(self, store: sagas.Store, key: str, value: str = "") -> None:
        """Check that a saga ends; start it again while the store is unavailable."""
        self.gates[key].set()
        while True:
            with contextlib.suppress(sagas.StoreUnavailable):
                assert (await ended(store, self.saga, key, value)).ok
                return
            await asyncio.sleep(0.02)


@pytest.mark.parametrize(
    ("room", "is_quiet", "is_snapshot"),
    [(1000, False, False), (1000, True, False), (1, True, False), (1000, False, True)],
)
def test_a_backup_is_restored_under_a_running_node(
    postgresql: Server,
    url: str,
    monkeypatch: pytest.MonkeyPatch,
    caplog: pytest.LogCaptureFixture,
    room: int,
    is_quiet: bool,
    is_snapshot: bool,
) -> None:
    """The node loads its shards as the backup has them, also if it has nothing to write, and logs
    the reason. Sagas that were open then end; later ones do not exist and can be started again,
    under other idempotency keys. No log has a gap.
    """
    monkeypatch.setattr("sagas.definition.registry.SHARD_CAPACITY", room)
    world = World()
    back_up, restore = (
        (postgresql.snapshot, postgresql.go_back)
        if is_snapshot
        else (postgresql.back_up, postgresql.restore)
    )

    async def main() -> None:
        async with sagas.open(url, [world.saga], lease=60, shutdown_timeout=1) as store:
            await world.goes_well(store, "over")
            await world.waits(store, "open")
            await world.waits(store, "waits")
            backup = await asyncio.to_thread(back_up, url)
            await world.goes_well(store, "late")
            new = await world.waits(store, "new")
            world.gates["open"].set()
            assert (await store.wait("open")).ok
            await asyncio.to_thread(restore, url, backup)
            if not is_quiet:
                await world.goes_well(store, "late", "again")
            await until(lambda: world.calls["open", "b"] == 2)
            with pytest.raises(sagas.NoSuchSaga):
                await new.wait()
            world.gates["waits"].set()
            for key in ("over", "open", "waits"):
                assert (await store.wait(key)).ok
            assert (await store.get("late") is None) == is_quiet
            await world.goes_well(store, "new", "again")
            assert all(verdict.startswith("yes") for verdict in (await store.audit()).values())

    run(main())
    errors = [
        record.message
        for record in caplog.records
        if record.levelname == "ERROR" and "commit_failed" not in record.message
    ]
    assert (
        len(errors) == 1 and "the database lacks commits that this node wrote" in errors[0]
    ), errors
    assert all(len(calls) == 1 for calls in world.keys.values()), world.keys
    assert world.calls["waits", "b"] == world.calls["over", "b"] == 1


def test_a_step_inside_of_a_saga_that_the_backup_lacks(postgresql: Server, url: str) -> None:
    """Its work over its connection is not committed: the database does not know that it started."""
    saga, backup = sagas.Saga("booked"), list[pathlib.Path]()
    with psycopg.connect(url, autocommit=True) as link:
        link.execute("CREATE TABLE book(key text)")

    async def main() -> None:
        async with sagas.open(url, [saga], lease=600) as store:
            assert (await ended(store, saga, "over")).ok
            backup.append(await asyncio.to_thread(postgresql.back_up, url))
            begun = await store.start(saga, "late")
            with pytest.raises(sagas.NoSuchSaga):
                await begun.wait()

    @saga.step(transaction=True)
    async def book(task: Task) -> None:
        if backup:
            await asyncio.to_thread(postgresql.restore, url, backup.pop())
        await task.connection.execute("INSERT INTO book VALUES (%s)", (task.key,))

    run(main())
    with psycopg.connect(url) as link:
        assert link.execute("SELECT key FROM book").fetchall() == [("over",)]
