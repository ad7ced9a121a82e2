"""Loading logs from PostgreSQL: many at once, and none of them delays the others."""

from __future__ import annotations

import asyncio
import contextlib
import json
from collections.abc import AsyncIterator

import psycopg
import pytest
from cases import Task, run, until

import sagas
from sagas.base.errors import StoreUnavailable
from sagas.core.shard.batch import Batch, LoadedShard
from sagas.storage.postgresql import connections
from sagas.storage.postgresql.application_name import Purpose
from sagas.storage.postgresql.shard_loader import ShardLoader
from sagas.storage.postgresql.writer import Writer

LOGS, ROOM = 6, 3
BORN = "another", [(0, "digest", "text")]
REFUSES = """
CREATE FUNCTION refuses() RETURNS trigger LANGUAGE plpgsql AS
    $$ BEGIN RAISE 'it is not read'; END $$;
CREATE TRIGGER refuses BEFORE UPDATE ON sagas.shards
    FOR EACH ROW WHEN (NEW.shard = {}) EXECUTE FUNCTION refuses();
"""


@pytest.fixture
def logs(url: str, monkeypatch: pytest.MonkeyPatch) -> list[int]:
    """Return logs of a node `me`, with sagas whose first step is over, at a whole second, and whose
    second one waits for an operator.
    """
    monkeypatch.setattr("sagas.definition.registry.SHARD_CAPACITY", ROOM)
    kind, events = sagas.Saga("signed"), list[sagas.Event]()

    @kind.step
    async def write(task: Task) -> str:
        return 'a "word"'

    @kind.approval(needs=[write], timeout=3600)
    async def sign(task: Task) -> None:
        ...

    async def main() -> None:
        async with sagas.open(
            url, [kind], settings=sagas.Settings(clock=lambda: 1000.0), on_event=events.append
        ) as store:
            for number in range(LOGS * ROOM):
                await store.start(kind, f"k{number}", {"n": number}, deadline=7200)
            await until(
                lambda: sum(event.name == "step_suspended" for event in events) == LOGS * ROOM
            )

    run(main())
    with psycopg.connect(url, autocommit=True) as link:
        link.execute("UPDATE sagas.shards SET owner = 'me', epoch = 1")
        return [
            int(str(log))
            for (log,) in link.execute("SELECT shard FROM sagas.shards ORDER BY shard").fetchall()
        ]


@contextlib.asynccontextmanager
async def loading(url: str) -> AsyncIterator[ShardLoader]:
    """Return a loader, as the node `me` uses it."""
    asker = connections.Asker(url, url, 3, Purpose.LEASE)
    await asker.open()
    yield ShardLoader(asker, "me", asyncio.get_running_loop().create_task)
    await asker.close()


def is_whole(loaded: LoadedShard | None, index: int, epoch: int) -> bool:
    """Return whether the loaded log is complete, under a new epoch."""
    assert loaded
    ids = [id for id, *_ in loaded.open]
    numbers = [*range(index * ROOM, index * ROOM + ROOM)]
    open = [(key, json.loads(text), until) for _, key, _, text, until, *_ in loaded.open]
    assert open == [(f"k{number}", {"n": number}, 8200.0) for number in numbers]
    assert all(type(until) is float for *_, until, _, _, _ in loaded.open)
    assert {(id, step, outcome, value) for id, step, _, _, outcome, value, _ in loaded.results} == {
        (id, 0, "commit", '"a \\"word\\""') for id in ids
    }
    assert {(id, step, why, until) for id, step, _, _, why, _, _, until, _ in loaded.held} == {
        (id, 1, "approval", 4600.0) for id in ids
    }
    assert all(type(at) is float for *_, at in loaded.results) and all(
        type(row[6]) is type(row[7]) is float for row in loaded.held
    )
    return (
        loaded.opened == ROOM
        and loaded.events == loaded.text.count("\n") > ROOM
        and loaded.epoch == epoch
    )


def test_all_that_are_wanted_go_together(url: str, logs: list[int]) -> None:
    """Existing logs are loaded whole.

    Logs of other nodes, closed and missing ones are not, and new ones are empty.
    """

    async def main() -> None:
        with psycopg.connect(url, autocommit=True) as link:
            link.execute("UPDATE sagas.shards SET owner = 'other' WHERE shard = %s", (logs[0],))
            link.execute("UPDATE sagas.shards SET closed = 1 WHERE shard = %s", (logs[1],))
        async with loading(url) as loads:
            for epoch in (2, 3):
                others, closed, *mine = await asyncio.gather(
                    *(loads.load(log, 0, None) for log in logs)
                )
                assert others is None and closed is None
                assert all(is_whole(loaded, index, epoch) for index, loaded in enumerate(mine, 2))
            gone, unborn, there, born = await asyncio.gather(
                loads.load(10**6, 7, None),
                loads.load(10**6 + 1, 7, BORN),
                loads.load(logs[2], 7, BORN),
                loads.load(logs[0], 7, BORN),
            )
            assert gone is None and is_whole(there, 2, 4) and born is None
            ((line,),) = (
                psycopg.connect(url).execute(f"SELECT {connections.TIMELINE}".encode()).fetchall()
            )
            assert (
                unborn == LoadedShard("", 0, 0, [], [], [], 8, line, 1)
                and there
                and there.timeline == line
            )

    run(main())


@pytest.mark.parametrize("together", [False, True])
@pytest.mark.parametrize("has_lines", [False, True])
def test_a_commit_after_a_missing_chunk(
    url: str, logs: list[int], together: bool, has_lines: bool
) -> None:
    """Nothing is written of a log whose last chunk is missing or different in the database; of the
    others all is written, alone and in one commit.
    """
    lacks, differs, *_ = logs
    last = "first_seq = (SELECT max(first_seq) FROM sagas.event_log WHERE shard = e.shard)"

    async def nothing(*_: object) -> None:
        ...

    def batch(loaded: LoadedShard, log: int) -> Batch:
        written = Batch(log, 5.5, loaded.events, loaded.epoch)
        written.text = "{}\n" if has_lines else ""
        written.rare_rows.requested.append((("key", "abort", str(log), 1.0), "null"))
        return written

    async def main() -> None:
        writer = Writer(url, url, "me", nothing, lambda commit: None, lambda: None)
        async with loading(url) as loads:
            known = await asyncio.gather(*(loads.load(log, 0, None) for log in logs))
        batches = [batch(loaded, log) for log, loaded in zip(logs, known) if loaded]
        for log, loaded in zip(logs, known):
            assert loaded
            writer.reached(log, loaded.events, loaded.tail)
        with psycopg.connect(url, autocommit=True) as link:
            link.execute(f"DELETE FROM sagas.event_log e WHERE shard = {lacks} AND {last}".encode())
            link.execute(
                "UPDATE sagas.event_log e SET committed_at = 0"
                f" WHERE shard = {differs} AND {last}".encode()
            )
        lost = set[int]()
        for group in [batches] if together else [[batch] for batch in batches]:
            written = asyncio.get_running_loop().create_future()
            writer.commit(group, lambda *result, written=written: written.set_result(result))
            _, fault, refused = await written
            assert fault is None
            lost |= refused
        await writer.close()
        assert lost == {lacks, differs}

    run(main())
    with psycopg.connect(url) as link:
        written = {str(log) for log in logs} - {str(lacks), str(differs)}
        assert {
            value
            for (value,) in link.execute("SELECT value FROM sagas.operator_commands").fetchall()
        } == written
        rows = link.execute(
            "SELECT shard::text FROM sagas.event_log WHERE committed_at = 5.5"
        ).fetchall()
        assert {log for (log,) in rows} == (written if has_lines else set())


def test_loading_a_log_waits_for_its_commit(url: str, logs: list[int]) -> None:
    """It is loaded after that commit; logs that are requested with it and after it are loaded
    before.
    """

    async def main() -> None:
        with psycopg.connect(url) as commit:
            async with loading(url) as loads:
                commit.execute("SELECT 1 FROM sagas.shards WHERE shard = %s FOR SHARE", (logs[2],))
                waits = asyncio.create_task(loads.load(logs[2], 1, None))
                rest = [log for log in logs if log != logs[2]]
                # else they came only once the server had given the first statement up
                async with asyncio.timeout(connections.PATIENCE / 2):
                    assert all(await asyncio.gather(*(loads.load(log, 1, None) for log in rest)))
                    assert await loads.load(logs[0], 2, None)
                assert not waits.done()
                commit.execute(
                    (
                        "INSERT INTO sagas.event_log SELECT shard, 1000, 0, text, epoch FROM"
                        " sagas.event_log WHERE shard = %s AND first_seq = 0"
                    ),
                    (logs[2],),
                )
                commit.commit()
                loaded = await waits
                assert loaded and loaded.epoch == 2 and loaded.text.count('"open"') == ROOM + 1

    run(main())


def test_locked_logs_delay_no_request(url: str, logs: list[int]) -> None:
    """More of them than there are connections are requested at once: another request gets a
    connection.
    """

    async def main() -> None:
        with psycopg.connect(url) as stranger, psycopg.connect(url, autocommit=True) as observer:
            async with loading(url) as loads:
                stranger.execute("SELECT 1 FROM sagas.shards FOR UPDATE")
                waits = [asyncio.create_task(loads.load(log, 1, None)) for log in logs]
                await until(
                    lambda: observer.execute(
                        "SELECT 1 FROM pg_stat_activity WHERE datname = current_database() AND"
                        " wait_event_type = 'Lock'"
                    ).fetchall()
                )
                # else it is after them, and the pool stops
                assert await loads._asker.ask("SELECT 1") == [(1,)]
                assert not any(wait.done() for wait in waits)
                stranger.rollback()
                assert all([is_whole(await wait, index, 2) for index, wait in enumerate(waits)])

    run(main())


def test_a_log_that_cannot_be_taken_up(url: str, logs: list[int]) -> None:
    """The others are loaded."""

    async def main() -> None:
        with psycopg.connect(url, autocommit=True) as link:
            link.execute(REFUSES.format(logs[3]))
        async with loading(url) as loads:
            loaded_logs = await asyncio.gather(
                *(loads.load(log, 1, None) for log in logs), return_exceptions=True
            )
            assert isinstance(loaded_logs[3], StoreUnavailable) and "it is not read" in str(
                loaded_logs[3]
            )
            assert all(
                is_whole(loaded, index, 2) for index, loaded in enumerate(loaded_logs) if index != 3
            )
            with psycopg.connect(url, autocommit=True) as link:
                link.execute("DROP TRIGGER refuses ON sagas.shards")
            assert is_whole(await loads.load(logs[3], 1, None), 3, 2)

    run(main())


def test_the_server_does_not_answer(url: str, logs: list[int]) -> None:
    """Each waiting caller gets the error, and a repeated call succeeds."""

    async def main() -> None:
        async with loading(url) as loads, loading(url) as others:
            await others._asker.close()
            faults = await asyncio.gather(
                *(others.load(log, 1, None) for log in logs), return_exceptions=True
            )
            assert [type(fault) for fault in faults] == [StoreUnavailable] * LOGS
            assert all(
                [
                    is_whole(await loads.load(log, 1, None), index, 2)
                    for index, log in enumerate(logs)
                ]
            )

    run(main())
