"""Starts that begin without a look for their keys.

A start of an existing key gets the same reply as if the key had been looked for.
"""

from __future__ import annotations

import asyncio
import contextlib
import pathlib
from collections import Counter
from collections.abc import Sequence
from typing import Any

import psycopg
import pytest
import records
from cases import Task, ended, run, simple, until

import sagas
from sagas.api import store_access
from sagas.core.shard.batch import Batch
from sagas.storage.postgresql.commit_statement import Commit
from sagas.storage.postgresql.storage import PostgreSQL
from sagas.storage.postgresql.writer import Writer
from sagas.storage.sqlite import writer
from sagas.storage.sqlite.storage import Sqlite


@pytest.fixture
def looks(monkeypatch: pytest.MonkeyPatch) -> list[str]:
    """Return the keys that were looked for. No commit may be refused for its keys."""
    keys: list[str] = []
    find = PostgreSQL.find

    async def noted(self: PostgreSQL, key: str) -> Any:
        keys.append(key)
        return await find(self, key)

    async def refused(self: Writer, *arguments: Any) -> None:
        raise AssertionError("a key was refused by the server")

    here, many = Sqlite.find, Sqlite.find_many

    async def noted_here(self: Sqlite, key: str) -> Any:
        keys.append(key)
        return await here(self, key)

    def noted_many(self: Sqlite, some: Sequence[str]) -> Any:
        keys.extend(some)
        return many(self, some)

    monkeypatch.setattr(Sqlite, "find", noted_here)
    monkeypatch.setattr(Sqlite, "find_many", noted_many)
    monkeypatch.setattr(PostgreSQL, "find", noted)
    monkeypatch.setattr(Writer, "_one_by_one", refused)
    return keys


def step(gate: asyncio.Event | None = None) -> sagas.Saga:
    """Return a saga of one step, which waits for a gate if there is one."""

    async def a(task: Task) -> Any:
        if gate:
            await gate.wait()
        return task.input

    return simple(a)


def count(location: str) -> int:
    """Return how many sagas there are."""
    return len(records.read(location).sagas)


def test_a_new_key_is_not_looked_for(location: str, looks: list[str]) -> None:
    """A lone start's, and those of many at once."""
    kind = step()

    async def main() -> None:
        async with sagas.open(location, [kind]) as store:
            for number in range(5):
                assert (await ended(store, kind, f"k{number}", number)).results == {"a": number}
            ends = await asyncio.gather(
                *(ended(store, kind, f"more-{number}", number) for number in range(200))
            )
            assert [end.results["a"] for end in ends] == list(range(200))
            assert looks == []

    run(main())
    assert count(location) == 205


@pytest.mark.parametrize("old", [1, 20])
def test_keys_that_are_there_among_new_ones(location: str, looks: list[str], old: int) -> None:
    """They return their sagas.

    The others are started, and open sagas next to them continue: no function is called twice, and
    no key is refused.
    """
    gate, calls = asyncio.Event(), Counter[str]()

    async def a(task: Task) -> Any:
        calls[task.attempt_id] += 1
        if task.input == "waits":
            await gate.wait()
        return task.input

    kind = simple(a)

    async def main() -> None:
        async with sagas.open(location, [kind]) as store:
            await asyncio.gather(
                *(ended(store, kind, f"old-{number}", number) for number in range(old))
            )
        async with sagas.open(location, [kind]) as store:
            waiting = [await store.start(kind, f"open-{number}", "waits") for number in range(10)]
            keys = [f"new-{number}" for number in range(30)] + [
                f"old-{number}" for number in range(old)
            ]
            values: list[Any] = [*range(30), *range(old)]
            runs = await asyncio.gather(
                *(store.start(kind, key, value) for key, value in zip(keys, values))
            )
            assert [run.new for run in runs] == [True] * 30 + [False] * old
            gate.set()
            assert [(await run.wait()).results["a"] for run in runs] == values
            assert [(await run.wait()).results["a"] for run in waiting] == ["waits"] * 10
            assert all(verdict.startswith("yes") for verdict in (await store.audit()).values())

    run(main())
    assert count(location) == old + 40 and len(calls) == old + 40 and set(calls.values()) == {1}


def test_a_key_that_is_over(
    location: str, looks: list[str], monkeypatch: pytest.MonkeyPatch
) -> None:
    """It is in the same log: its saga is returned, the next keys are looked for, and after enough
    new ones no more. It is the same after a restart.
    """
    monkeypatch.setattr(store_access, "LOOKUPS_AFTER_TAKEN_KEY", 3)
    kind = step()

    async def main() -> None:
        async with sagas.open(location, [kind]) as store:
            assert (await ended(store, kind, "k", 1)).results == {"a": 1}
        async with sagas.open(location, [kind]) as store:
            for _ in range(2):
                again = await store.start(kind, "k", 1)
                assert not again.new and (await again.wait()).results == {"a": 1}
            assert looks.count("k") >= 2
            looks.clear()
            for number in range(5):
                await ended(store, kind, f"new{number}")
            assert looks == ["new0", "new1", "new2"]
            with pytest.raises(sagas.KeyConflict, match="another input"):
                await store.start(kind, "k", 2)
            await ended(store, kind, "last")
            assert all(verdict.startswith("yes") for verdict in (await store.audit()).values())

    run(main())
    assert count(location) == 7


def test_a_key_of_another_node(url: str, looks: list[str]) -> None:
    """It is open there: a caller that starts it here gets its end.

    Another saga with that key is a conflict.
    """
    gate = asyncio.Event()
    kinds, other = [step(gate), step()], sagas.Saga("other")

    @other.step
    async def b(task: Task) -> None:
        ...

    async def main() -> None:
        async with sagas.open(url, [kinds[0]]) as first, sagas.open(
            url, [kinds[1], other]
        ) as second:
            await first.start(kinds[0], "k", 1)
            there = await second.start(kinds[1], "k", 1)
            assert not there.new
            with pytest.raises(sagas.KeyConflict, match="'simple'"):
                await second.start(other, "k", 1)
            gate.set()
            assert (await asyncio.wait_for(there.wait(), 60)).results == {"a": 1}
            assert (await ended(second, kinds[1], "own")).ok

    run(main())
    assert count(url) == 2


def test_offers_of_a_refused_commit(url: str, looks: list[str]) -> None:
    """Its sagas are opened again, in other slots: only what is offered then is theirs."""
    kinds = [outside(), outside()]

    async def main() -> None:
        async with sagas.open(url, [kinds[0]]) as first, sagas.open(url, [kinds[1]]) as second:
            await first.start(kinds[0], "taken", 1)
            keys = ["a", "taken", "b", "c"]
            runs = await asyncio.gather(*(second.start(kinds[1], key, 1) for key in keys))
            assert [run.new for run in runs] == [True, False, True, True]
            await until(lambda: len(offered(url)) == 4)
            assert all(attempt.startswith(f"{saga}-") for attempt, saga in offered(url))

    run(main())


def outside() -> sagas.Saga:
    """Return a saga with an external step."""
    saga = sagas.Saga("outside")
    saga.step(name="a", external=True)
    return saga


def offered(url: str) -> list[tuple[str, str]]:
    """Return the attempts that are offered, each with its saga's own id."""
    text = (
        "SELECT attempt, coalesce(name || '-' || s.id % 1000, '') FROM external_attempts e LEFT"
        " JOIN (sagas s JOIN shards l ON l.shard = s.id / 1000) ON s.id = e.id"
    )
    with psycopg.connect(url, options="-csearch_path=sagas") as link:
        return link.execute(text).fetchall()


def test_a_key_that_a_client_started(url: str, looks: list[str]) -> None:
    """No node has its saga: it waits, and a node's start of the key is one of that saga's, or a
    conflict.
    """
    kind, other = step(), sagas.Saga("other")

    @other.step
    async def b(task: Task) -> None:
        ...

    async def main() -> None:
        async with sagas.open(url, [kind]) as store, sagas.Client(url) as client:
            await client.start(other, "k", 1)
            with pytest.raises(sagas.KeyConflict, match="'other'"):
                await store.start(kind, "k", 1)
            assert (await ended(store, kind, "own")).ok

    run(main())
    assert count(url) == 1


def test_requests_during_a_guess(url: str, looks: list[str]) -> None:
    """While a guess is being stored, a caller that aborts, waits for or starts its key waits, and
    gets the saga that has it.
    """
    kind = step()

    async def main() -> None:
        async with sagas.open(url, [kind]) as store:
            await ended(store, kind, "k", 1)
        async with sagas.open(url, [kind]) as store:
            starting = asyncio.create_task(store.start(kind, "k", 1))
            await asyncio.sleep(0)  # it has started
            assert store._coordinator and "k" in store._coordinator.sagas.by_key
            replies = await asyncio.gather(
                store.abort("k"),
                store.wait("k"),
                store.start(kind, "k", 2),
                store.start(kind, "k", 1),
                store.complete("k", "a", 3),
                return_exceptions=True,
            )
            assert (
                replies[0] is False
                and isinstance(replies[1], sagas.SagaResult)
                and replies[1].results == {"a": 1}
            )
            assert (
                isinstance(replies[2], sagas.KeyConflict)
                and isinstance(replies[3], sagas.Run)
                and not replies[3].new
            )
            assert isinstance(replies[4], sagas.StepNotWaiting) and "it has succeeded" in str(
                replies[4]
            )
            assert not (await starting).new
            assert all(verdict.startswith("yes") for verdict in (await store.audit()).values())

    run(main())
    assert count(url) == 1


def test_an_answer_that_is_lost(
    url: str, looks: list[str], monkeypatch: pytest.MonkeyPatch
) -> None:
    """The commit of each start is done, and its reply lost: the saga exists once, and its start has
    its reply.
    """
    kind, lost, read = step(), list[str](), Writer._read

    def loses(self: Writer, commit: Commit, rows: Any, fault: Any, began: float) -> Any:
        opened = [row[1] for batch in commit.batches for row in batch.opened]
        if opened and fault is None:
            lost.extend(opened)
            return read(self, commit, [], psycopg.OperationalError("the answer is lost"), began)
        return read(self, commit, rows, fault, began)

    monkeypatch.setattr(Writer, "_read", loses)

    async def main() -> None:
        async with sagas.open(url, [kind]) as store:
            for number in range(3):
                assert (await ended(store, kind, f"k{number}", number)).results == {"a": number}

    run(main())
    assert lost == ["k0", "k1", "k2"] and count(url) == 3


@pytest.mark.parametrize("fast", [True, False])
def test_a_wrong_guess_in_a_file(
    tmp_path: pathlib.Path, looks: list[str], monkeypatch: pytest.MonkeyPatch, fast: bool
) -> None:
    """Nothing of its log is written, by the loop as by the thread, and the other logs of that
    commit are; then all its sagas are started.
    """
    monkeypatch.setattr("sagas.definition.registry.SHARD_CAPACITY", 10)
    monkeypatch.setattr(writer, "AT_ONCE", 60.0 if fast else 0.0)
    path, kind, lost = str(tmp_path / "store.db"), step(), set[int]()
    put = writer.Writer._put

    def noted(self: writer.Writer, batches: Sequence[Batch], patient: bool) -> Any:
        result = put(self, batches, patient)
        lost.update(result[1])
        assert not result[1] & result[0].keys()
        return result

    monkeypatch.setattr(writer.Writer, "_put", noted)

    async def main() -> None:
        async with sagas.open(path, [kind]) as store:
            await ended(store, kind, "old", 1)
        async with sagas.open(path, [kind]) as store:
            ends = await asyncio.gather(
                *(ended(store, kind, f"k{number}", number) for number in range(35)),
                ended(store, kind, "old", 1),
            )
            assert [end.results["a"] for end in ends] == [*range(35), 1]
            assert lost and looks
            assert all(verdict.startswith("yes") for verdict in (await store.audit()).values())

    run(main())
    assert count(path) == 36


def test_a_store_that_takes_nothing(url: str, looks: list[str]) -> None:
    """A start of an existing key gets its reply, and a new one is not started."""
    kind = step()

    async def main() -> None:
        async with sagas.open(url, [kind]) as store:
            await ended(store, kind, "k", 1)
        async with sagas.open(url, [kind]) as store:
            with psycopg.connect(url, autocommit=True) as link:
                link.execute(
                    "CREATE FUNCTION refuse() RETURNS trigger LANGUAGE plpgsql AS $$ BEGIN RAISE"
                    " EXCEPTION 'full'; END $$"
                )
                link.execute(
                    "CREATE TRIGGER refuse BEFORE INSERT OR UPDATE ON sagas.shards FOR EACH ROW"
                    " EXECUTE FUNCTION refuse()"
                )
                link.execute(
                    "CREATE TRIGGER refuse BEFORE INSERT ON sagas.event_log FOR EACH ROW EXECUTE"
                    " FUNCTION refuse()"
                )
            again = await store.start(kind, "k", 1)
            assert not again.new and (await again.wait()).results == {"a": 1}
            with pytest.raises(sagas.KeyConflict):
                await store.start(kind, "k", 2)
            with pytest.raises(sagas.StoreUnavailable, match="full"):
                await store.start(kind, "new")
            with psycopg.connect(url, autocommit=True) as link:
                link.execute("DROP FUNCTION refuse() CASCADE")
            end = None
            while end is None:
                with contextlib.suppress(sagas.StoreUnavailable):  # until its log is tried again
                    end = await ended(store, kind, "new")
            assert end.ok

    run(main())
    assert count(url) == 2
