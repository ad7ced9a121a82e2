"""Clients: they start sagas that nodes take, in their own transaction or in the caller's."""

from __future__ import annotations

import asyncio
import contextlib
import json
import os
import threading
from typing import Any

import psycopg
import pytest
import records
from cases import Task, hears, in_child, run, simple, until
from kills import children
from psycopg.rows import dict_row
from server import Server

import sagas
from sagas.cli import store_command
from sagas.storage import operator_requests
from sagas.storage.postgresql import notifications


def shop() -> sagas.Saga:
    """Return a saga with a step, an approval if the input requests one, and a step that
    may fail.
    """
    shop = sagas.Saga("shop")

    @shop.step
    async def reserve(task: Task) -> dict[str, Any]:
        return {"for": task.key}

    @reserve.compensation
    async def release(task: Task) -> None:
        ...

    @shop.step(needs=[reserve])
    async def charge(task: Task) -> str:
        if task.input == "fails":
            raise sagas.Fail("no")
        return "charged"

    return shop


def inbox(url: str) -> int:
    """Return how many starts no log has yet."""
    with psycopg.connect(url) as link:
        row = link.execute("SELECT count(*) FROM sagas.pending_starts").fetchone()
        assert row
        return int(row[0])


LOCKED = """
SELECT count(*) FROM pg_stat_activity
WHERE wait_event_type = 'Lock' AND starts_with(application_name, 'sagas')
"""


async def connected(url: str, client: sagas.Client, kind: sagas.Saga, count: int) -> None:
    """Start `count` sagas at once, so that the client has that many connections."""
    with psycopg.connect(url) as link, psycopg.connect(url, autocommit=True) as observer:
        link.execute("LOCK TABLE sagas.pending_starts")
        some = [
            asyncio.create_task(client.start(kind, f"first-{number}")) for number in range(count)
        ]
        while observer.execute(LOCKED).fetchone() != (count,):
            await asyncio.sleep(0.05)
        link.commit()
        assert [(await item).new for item in some] == [True] * count


def test_a_start_after_a_restart_of_the_server(postgresql: Server, url: str) -> None:
    """The client skips connections that have ended in the meantime, however many it has: the start
    is made, and once.
    """
    kind = shop()

    async def main() -> None:
        async with sagas.open(url, [kind], node="a"):
            pass  # makes the tables
        async with sagas.Client(url, connections=3) as client:
            await connected(url, client, kind, 3)
            for mode in ("fast", "immediate"):
                postgresql.stop(mode)
                postgresql.start()
                for number in range(4):
                    assert (await client.start(kind, f"{mode}-{number}", number)).new is True
                    assert (await client.start(kind, f"{mode}-{number}", number)).new is False
            with pytest.raises(sagas.KeyConflict):
                await client.start(kind, "fast-1", 5)
            postgresql.stop("fast")
            try:
                with pytest.raises(sagas.StoreUnavailable):
                    await client.start(kind, "nowhere")
            finally:
                postgresql.start()

    run(main())
    assert inbox(url) == 11


def test_a_client_starts_and_waits(url: str) -> None:
    """Two clients make many starts, some of the same keys: nodes take each of them once.

    Ends, lists and conflicts are as at a node.
    """
    kind = shop()

    async def main() -> None:
        async with sagas.open(url, [kind], node="a"), sagas.open(url, [kind], node="b"):
            async with sagas.Client(url) as first, sagas.Client(url) as other:
                runs = await asyncio.gather(
                    *(
                        client.start(kind, f"k{number}", number)
                        for number in range(40)
                        for client in (first, other)
                    )
                )
                ends = await asyncio.gather(*(run.wait() for run in runs))
                assert (
                    all(end.ok and end.results["reserve"] == {"for": end.key} for end in ends)
                    and len(ends) == 80
                )
                assert (await (await first.start(kind, "bad", "fails")).wait()).states == {
                    "reserve": "undone",
                    "charge": "failed",
                }
                with pytest.raises(sagas.KeyConflict):
                    await other.start(kind, "bad", "other input")
                assert await other.get("bad") is not None and await other.get("none") is None
                assert (
                    len(await other.list(limit=1000)) == 41
                    and [row.key for row in await first.list(phase="stuck")] == []
                )
                with pytest.raises(sagas.NoSuchSaga):
                    await first.wait("none")
                with pytest.raises(sagas.InvalidKey):
                    await first.start(kind, "")
                with pytest.raises(sagas.NotSerializable, match=r"input\[0\]: object is not JSON"):
                    await first.start(kind, "new", [object()])
        with pytest.raises(sagas.Closed):
            await first.start(kind, "late")

    run(main())
    assert len(records.read(url).sagas) == 41 and inbox(url) == 0


def test_invalid_arguments_of_a_client() -> None:
    """The error comes before it connects."""
    for url in (None, 5, "store.db"):
        with pytest.raises(sagas.InvalidStore, match="not a URL of a PostgreSQL database"):
            sagas.Client(url)  # type: ignore[arg-type]
    with pytest.raises(ValueError, match="connections=0: must be an integer >= 1"):
        sagas.SyncClient("postgresql://h/a", connections=0)


def test_a_start_waits_for_a_node(url: str, capsys: pytest.CaptureFixture[str]) -> None:
    """It is kept while no node runs, and the operators' command shows it; the first node takes
    it. A node without the saga leaves it.
    """
    kind, other = shop(), sagas.Saga("other")

    @other.step
    def x(task: Task) -> int:
        return 1

    async def main() -> None:
        async with sagas.open(url, [other]) as store:  # makes the tables
            async with sagas.Client(url) as client:
                started = await client.start(kind, "k")
                with pytest.raises(sagas.KeyConflict):
                    await client.start(other, "k")
                assert (await (await client.start(other, "x")).wait()).ok
                assert inbox(url) == 1 and (await store.start(other, "y")) is not None
                assert await asyncio.to_thread(store_command.main, [url, "nodes"]) == 0
                output = capsys.readouterr().out
                assert (
                    "No node has accepted these starts:" in output and "shop (version 1)" in output
                )
                assert await asyncio.to_thread(store_command.main, [url, "show", "k"]) == 1
                assert (
                    "k has not started: it waits for a node that has shop (version 1)"
                    in capsys.readouterr().err
                )
                async with sagas.open(url, [kind]):
                    assert (await started.wait()).ok

    run(main())


def test_a_cancelled_start_returns_its_connection(url: str) -> None:
    """It waits for the client's only connection, and its caller has no time.

    Later callers get the connection, and one of them may be a start.
    """
    kind = simple(lambda task: 1)

    async def main() -> None:
        async with sagas.open(url, [kind]):
            pass
        async with sagas.Client(url, connections=1) as client:
            with psycopg.connect(url) as stranger:
                stranger.execute("LOCK TABLE sagas.pending_starts IN EXCLUSIVE MODE")
                first = asyncio.create_task(client.start(kind, "first"))
                await until(lambda: waits_for_a_lock(url))
                second = asyncio.create_task(client.start(kind, "second"))
                await until(lambda: client._asker.pool.get_stats().get("requests_waiting"))
                second.cancel()
                with pytest.raises(asyncio.CancelledError):
                    await second
            assert (await first).new
            assert (await client.start(kind, "third")).new
            await client.start(kind, "second")

    run(main())


def waits_for_a_lock(url: str) -> list[Any]:
    """Return the server's processes that wait for a lock in this database."""
    with psycopg.connect(url) as link:
        return link.execute(
            "SELECT 1 FROM pg_stat_activity WHERE datname = current_database() AND wait_event_type"
            " = 'Lock'"
        ).fetchall()


def test_a_start_that_no_node_has_taken_is_withdrawn(
    url: str, capsys: pytest.CaptureFixture[str]
) -> None:
    """`pending` lists it, and `abort` withdraws it.

    One that a node has just taken is aborted once it has started.
    """
    kind, other = sagas.Saga("signed"), shop()

    @kind.approval
    def sign(task: Task) -> None:
        ...

    async def run_command(*arguments: str) -> str:
        assert await asyncio.to_thread(store_command.main, [url, *arguments]) == 0
        return capsys.readouterr().out

    async def main() -> None:
        async with sagas.open(url, [other]), sagas.Client(url) as client:
            started = await client.start(kind, "t1")
            (row,) = json.loads(await run_command("pending", "--json"))
            assert (
                row["key"],
                row["kind"],
                row["why"],
                row["saga"],
                row["version"],
                row["step"],
            ) == ("t1", "start", "node", "signed", 1, None)
            assert "a node with signed version 1" in await run_command("pending")
            assert (
                await run_command("abort", "t1")
                == "t1: start withdrawn; no node had accepted it, and nothing has started\n"
            )
            assert inbox(url) == 0 and json.loads(await run_command("pending", "--json")) == []
            with pytest.raises(sagas.NoSuchSaga):
                await started.wait()
            assert (
                await asyncio.to_thread(store_command.main, [url, "abort", "t1"]) == 1
                and "no saga has the key t1" in capsys.readouterr().err
            )
            await client.start(kind, "t2")
            with psycopg.connect(url, autocommit=True) as link:  # a node is about to open it
                link.execute(
                    "UPDATE sagas.pending_starts SET node = (SELECT node FROM sagas.nodes)"
                )
            assert json.loads(await run_command("pending", "--json")) == []
            abort = asyncio.create_task(run_command("abort", "t2", "--timeout", "60"))
            await until(lambda: requests(url))
            assert not abort.done() and inbox(url) == 1
            async with sagas.open(url, [kind]) as store:
                with psycopg.connect(url, autocommit=True) as link:
                    link.execute("UPDATE sagas.pending_starts SET node = NULL")
                assert await abort == "t2: aborted\n" and (await store.wait("t2")).aborted

    run(main())


def requests(url: str) -> int:
    """Return how many requests have no reply."""
    with psycopg.connect(url) as link:
        text = "SELECT count(*) FROM sagas.operator_commands WHERE answer IS NULL"
        of_sagas = link.execute(text).fetchone()
        text = "SELECT coalesce(sum(jsonb_array_length(commands)), 0) FROM sagas.pending_starts"
        of_starts = link.execute(text).fetchone()
        assert of_sagas and of_starts
        return int(of_sagas[0] + of_starts[0])


def fast(called: list[str]) -> sagas.Saga:
    """Return a saga of one step, which notes its key."""
    fast = sagas.Saga("fast")

    @fast.step
    async def a(task: Task) -> None:
        called.append(task.key)

    return fast


def test_an_abort_before_a_node_comes_wins(url: str) -> None:
    """The start is withdrawn at once, and the node that opens later calls nothing."""
    called: list[str] = []
    kind = fast(called)
    made(url, kind)

    async def main() -> None:
        async with sagas.Client(url) as client:
            runs = [await client.start(kind, f"k{number}") for number in range(3)]
            waits = asyncio.create_task(runs[0].wait())
            await asyncio.sleep(0.1)
            async with asyncio.timeout(20):
                assert await asyncio.gather(*(run.abort() for run in runs)) == [True] * 3
                with pytest.raises(sagas.NoSuchSaga):
                    await waits
                with pytest.raises(sagas.NoSuchSaga):
                    await runs[0].abort()
            assert inbox(url) == requests(url) == 0
            async with sagas.open(url, [kind]):
                again = await client.start(kind, "k0")
                assert again.new and (await again.wait()).ok and called == ["k0"]

    run(main())
    with sagas.SyncClient(url) as plain:
        late = plain.start(kind, "late")
        assert late.abort() is True and plain.get("late") is None


def test_a_node_withdraws_a_start_of_a_saga_that_it_lacks(url: str) -> None:
    """`Store.abort` of a client's start that no node has taken works as `Client.abort`."""
    kind, other = shop(), sagas.Saga("other")

    @other.step
    def x(task: Task) -> int:
        return 1

    with sagas.open_sync(url, [other]) as store, sagas.SyncClient(url) as client:
        client.start(kind, "k")
        assert store.abort("k") is True and inbox(url) == 0
        with pytest.raises(sagas.NoSuchSaga):
            store.abort("k")


def test_an_abort_of_a_start_that_is_removed(url: str) -> None:
    """A node has taken the start, so the abort waits.

    It returns when the start is deleted, and withdraws it when the node releases it.
    """
    kind = shop()
    made(url, kind)

    async def main() -> None:
        async with sagas.Client(url) as client:
            for key in ("gone", "withdrawn", "back"):
                run = await client.start(kind, key)
                with psycopg.connect(url) as link:
                    link.execute("UPDATE sagas.pending_starts SET node = 'other/1'")
                abort = asyncio.create_task(run.abort())
                await until(lambda: requests(url))
                with psycopg.connect(url, options="-c search_path=sagas") as link:
                    link.execute("UPDATE pending_starts SET node = NULL")
                    if key == "gone":
                        link.execute("DELETE FROM pending_starts")
                    elif key == "withdrawn":
                        assert link.execute(
                            operator_requests.WITHDRAW.replace("?", "%s"), (key,)
                        ).fetchall()
                async with asyncio.timeout(60):
                    if key == "back":
                        assert await abort is True
                    else:
                        with pytest.raises(sagas.NoSuchSaga):
                            await abort
                assert inbox(url) == requests(url) == 0

    run(main())


def test_a_finish_of_a_withdrawn_start_raises(url: str) -> None:
    """It waits for a node; the abort of another client removes the start, and the request
    with it.
    """
    kind = shop()
    made(url, kind)

    async def main() -> None:
        async with sagas.Client(url) as client, sagas.Client(url) as other:
            run = await client.start(kind, "k")
            finish = asyncio.create_task(run.complete("reserve"))
            await until(lambda: requests(url))
            assert await other.abort("k") is True and requests(url) == inbox(url) == 0
            with pytest.raises(sagas.NoSuchSaga):
                async with asyncio.timeout(60):
                    await finish

    run(main())


def test_an_abort_and_a_node_at_once(url: str) -> None:
    """Whichever has the start first, the reply to the abort is true.

    True: nothing was called and the key is free, or the end says so. False: the saga is over.
    """
    called: list[str] = []
    kind = fast(called)
    made(url, kind)

    async def wait_later(run: sagas.ClientRun, pause: float) -> str:
        await asyncio.sleep(pause)
        done = await run.abort()
        try:
            end = await run.wait()
        except sagas.NoSuchSaga:
            assert done and run.key not in called
            return "withdrawn"
        assert end.aborted is done and (done or end.ok and run.key in called)
        return "aborted" if done else "over"

    async def started(client: sagas.Client, name: str) -> list[sagas.ClientRun]:
        return [await client.start(kind, f"{name}-{number}") for number in range(10)]

    async def answers(runs: list[sagas.ClientRun], step: float) -> list[str]:
        return await asyncio.gather(
            *(wait_later(run, step * number) for number, run in enumerate(runs))
        )

    async def main() -> None:
        outcomes: set[str] = set()
        async with sagas.Client(url, connections=8) as client:
            for turn in range(5):
                before = asyncio.create_task(
                    answers(await started(client, f"before{turn}"), 0.01 + 0.002 * turn)
                )
                async with sagas.open(url, [kind], node="a"), sagas.open(url, [kind], node="b"):
                    async with asyncio.timeout(60):
                        outcomes.update(await before)
                        for part in range(3):
                            outcomes.update(
                                await answers(
                                    await started(client, f"beside{turn}-{part}"), 0.0002 * turn
                                )
                            )
            assert "withdrawn" in outcomes and inbox(url) == requests(url) == 0
            for key in {*called}:
                assert called.count(key) == 1 and await client.get(key) is not None

    run(main())


def test_a_start_is_in_the_inbox_or_in_a_log(url: str) -> None:
    """It is in one of them at each moment, and never in both; a start that a dead node took goes to
    another one.
    """
    kind = shop()

    def node_loads() -> list[int]:
        with psycopg.connect(url) as link:
            text = (
                "SELECT count(*) FROM (SELECT key FROM sagas.pending_starts UNION ALL SELECT key"
                " FROM sagas.sagas) one GROUP BY key"
            )
            return [count for (count,) in link.execute(text).fetchall()]

    async def main() -> None:
        async with sagas.Client(url) as client:
            for number in range(40):
                await client.start(kind, f"k{number}")
            with psycopg.connect(url) as link:
                link.execute("UPDATE sagas.pending_starts SET node = 'gone' WHERE id % 2 = 0")
            assert inbox(url) == 40
            async with sagas.open(url, [kind], shutdown_timeout=0.0):
                await until(lambda: inbox(url) < 40 and node_loads() == [1] * 40)
            assert node_loads() == [1] * 40
            async with sagas.open(url, [kind]):
                work = asyncio.gather(*(client.wait(f"k{number}") for number in range(40)))
                while not work.done():
                    assert node_loads() == [1] * 40
                    await asyncio.sleep(0.01)
                assert all(end.ok for end in await work)

    async def make() -> None:
        async with sagas.open(url, [kind], accept_new=False):
            pass

    run(make())
    run(main())
    assert inbox(url) == 0


def made(url: str, kind: sagas.Saga) -> None:
    """Let a node make the tables."""

    async def main() -> None:
        async with sagas.open(url, [kind]):
            pass

    run(main())


def test_a_locked_start_delays_no_other(url: str) -> None:
    """Its row is locked: a node takes the starts before and after it, and takes it later."""
    kind = shop()
    made(url, kind)

    async def main() -> None:
        async with sagas.Client(url) as client:
            runs = [await client.start(kind, f"k{number}") for number in range(5)]
            with psycopg.connect(url) as stranger:
                stranger.execute("SELECT 1 FROM sagas.pending_starts WHERE key = 'k2' FOR UPDATE")
                async with sagas.open(url, [kind]):
                    async with asyncio.timeout(15):
                        assert all(
                            end.ok
                            for end in await asyncio.gather(
                                *(run.wait() for run in runs if run.key != "k2")
                            )
                        )
                    assert inbox(url) == 1
                    stranger.rollback()
                    assert (await runs[2].wait()).ok

    run(main())


def test_a_client_drives_nothing(url: str) -> None:
    """It has no engine, no lease and no log."""
    kind = shop()
    made(url, kind)
    others = set(children(os.getpid()))  # servers that other tests use

    async def main() -> None:
        async with sagas.Client(url) as client:
            await client.start(kind, "k")
            with psycopg.connect(url) as link:
                for table in ("nodes", "shards"):
                    assert link.execute(f"SELECT count(*) FROM sagas.{table}").fetchone() == (0,)
            assert set(children(os.getpid())) <= others

    run(main())


def test_abort_and_finish_by_a_client(url: str) -> None:
    """Both wait until the node that has the saga has replied."""
    saga = sagas.Saga("signed")

    @saga.approval()
    def sign(task: Task) -> None:
        ...

    async def main() -> None:
        async with sagas.open(url, [saga]):
            async with sagas.Client(url) as client:
                first, second = await client.start(saga, "one"), await client.start(saga, "two")
                await until(lambda: inbox(url) == 0)  # else the start is withdrawn
                assert await first.abort() is True and await first.abort() is False
                assert (await first.wait()).aborted
                await second.complete("sign", {"by": "Ada"})
                assert (await second.wait()).results == {"sign": {"by": "Ada"}}
                with pytest.raises(sagas.StepNotWaiting):
                    await second.complete(sign)

    run(main())


@pytest.mark.parametrize("commits", [True, False])
def test_a_start_in_the_callers_transaction(url: str, commits: bool) -> None:
    """The saga exists exactly if the caller's transaction commits."""
    kind = shop()

    async def main() -> None:
        async with sagas.open(url, [kind]) as store, sagas.Client(url) as client:
            async with await psycopg.AsyncConnection.connect(url) as link:
                await link.execute("CREATE TABLE orders(number integer)")
                await link.commit()
                await link.execute("INSERT INTO orders VALUES(1)")
                started = await client.start(kind, "k", connection=link)
                assert await client.get("k") is None
                await (link.commit() if commits else link.rollback())
                rows = await (await link.execute("SELECT number FROM orders")).fetchall()
            if commits:
                assert rows == [(1,)] and (await started.wait()).ok
            else:
                assert rows == [] and inbox(url) == 0
                with pytest.raises(sagas.NoSuchSaga):
                    await started.wait()
                assert await store.list() == []

    run(main())


@pytest.mark.parametrize("plain", [False, True], ids=["async", "plain"])
@pytest.mark.parametrize("how", ["begun", "idle"])
def test_a_start_that_fails_in_the_callers_transaction(url: str, how: str, plain: bool) -> None:
    """Its row is written, and the look for the key fails.

    Nothing of the start is left, and the caller's own writes in the transaction stay, before the
    start and after it.
    """
    kind = shop()
    made(url, kind)
    late = {"options": "-c lock_timeout=500ms"}
    with psycopg.connect(url, autocommit=True) as link:
        link.execute("CREATE TABLE orders(number integer)")

    async def main(stranger: psycopg.Connection[Any]) -> None:
        async with await psycopg.AsyncConnection.connect(url, **late) as link, sagas.Client(
            url
        ) as client:
            for number in range(2) if how == "begun" else ():
                await link.execute("INSERT INTO orders VALUES(%s)", (number,))
            with pytest.raises(sagas.StoreUnavailable, match="lock timeout"):
                await client.start(kind, "k", connection=link)
            await link.execute("INSERT INTO orders VALUES(2)")
            await asyncio.to_thread(stranger.rollback)
            assert (await client.start(kind, "later", connection=link)).new

    with psycopg.connect(url) as stranger:
        stranger.execute("LOCK TABLE sagas.sagas")
        if plain:
            with psycopg.connect(url, **late) as link, sagas.SyncClient(url) as client:
                for number in range(2) if how == "begun" else ():
                    link.execute("INSERT INTO orders VALUES(%s)", (number,))
                with pytest.raises(sagas.StoreUnavailable, match="lock timeout"):
                    client.start(kind, "k", connection=link)
                link.execute("INSERT INTO orders VALUES(2)")
                stranger.rollback()
                assert client.start(kind, "later", connection=link).new
        else:
            run(main(stranger))
    with psycopg.connect(url) as link:
        assert link.execute("SELECT key FROM sagas.pending_starts").fetchall() == [("later",)]
        (count,) = link.execute("SELECT count(*) FROM orders").fetchone() or (0,)
        assert count == (3 if how == "begun" else 1)


def test_a_client_without_async(url: str) -> None:
    """`SyncClient` works, and so does a start in the transaction of a plain connection."""
    kind = shop()
    with sagas.open_sync(url, [kind]), sagas.SyncClient(url) as client:
        assert client.start(kind, "k").wait(200).ok
        with psycopg.connect(url) as link:
            started = client.start(kind, "in", connection=link)
        assert started.wait(200).ok and client.get("in") is not None and len(client.list()) == 2
        with psycopg.connect(url) as link, pytest.raises(sagas.KeyConflict):
            client.start(kind, "in", "another", connection=link)
        assert client.abort("in") is False
    with pytest.raises(sagas.Closed):
        client.wait("k")


def test_a_client_in_a_forked_child(url: str) -> None:
    """With async and without it, it raises at once that it is another process's.

    Closing it there does not affect that one.
    """
    kind = shop()
    text = (
        "the client was opened in another process, before a fork. Create and open one in this"
        " process"
    )
    with sagas.open_sync(url, [kind]), sagas.SyncClient(url) as client:
        calls: list[Any] = [
            lambda: client.start(kind, "c"),
            lambda: client.wait("k", timeout=60),
            client.list,
            client.__enter__,
        ]
        for call in calls:
            result = in_child(call)
            assert result.startswith("Closed: ") and text in result
        assert in_child(client.close) == "None"
        inner = client._inner
        calls = [
            lambda: inner.start(kind, "c"),
            lambda: inner.wait("k"),
            lambda: inner.abort("k"),
            inner.__aenter__,
        ]
        for call in calls:
            assert text in in_child(lambda: asyncio.run(call()))
        assert in_child(lambda: asyncio.run(inner.close())) == "None"
        assert client.start(kind, "k").wait(200).ok and len(client.list()) == 1


def test_a_client_that_is_entered_twice(url: str) -> None:
    """The second entry is an error that says so, and the first one continues."""
    kind = shop()

    async def main() -> None:
        async with sagas.open(url, [kind]):
            client = sagas.Client(url)
            async with client:
                with pytest.raises(RuntimeError, match="the client is already open. Enter it once"):
                    async with client:
                        pass
                assert (await (await client.start(kind, "k")).wait()).ok

    run(main())
    with sagas.open_sync(url, [kind]), sagas.SyncClient(url) as client:
        with pytest.raises(RuntimeError, match="the client is already open. Enter it once"), client:
            pass
        assert client.start(kind, "two").wait(200).ok


@pytest.mark.parametrize("is_client", [True, False], ids=["client", "store"])
def test_closing_ends_the_waits_of_other_threads(
    url: str, is_client: bool, monkeypatch: pytest.MonkeyPatch
) -> None:
    """The saga is executed elsewhere: threads that wait for it get the error at once that the
    client is closed.
    """
    entered, whole = threading.Semaphore(0), notifications.Notifications.wait

    async def entering(*arguments: Any) -> None:
        entered.release()
        await whole(*arguments)

    monkeypatch.setattr(notifications.Notifications, "wait", entering)
    kind, other = shop(), sagas.Saga("other")
    other.step(lambda task: None, name="a")
    made(url, kind)
    with sagas.SyncClient(url) as client:
        client.start(kind, "k")
    heard: list[BaseException] = []
    opened = sagas.SyncClient(url) if is_client else sagas.open_sync(url, [other])

    def wait() -> None:
        try:
            opened.wait("k")
        except sagas.Closed as error:
            heard.append(error)

    with opened:
        threads = [threading.Thread(target=wait) for _ in range(3)]
        for thread in threads:
            thread.start()
        for _ in threads:
            assert entered.acquire(timeout=30)
    for thread in threads:
        thread.join(10)
    assert len(heard) == 3


def test_a_client_by_the_other_kind_of_with() -> None:
    """`with` and `async with` each say which one is meant."""
    url = "postgresql://a@127.0.0.1/b"
    with pytest.raises(
        TypeError,
        match=(
            r"^a sagas.Client needs `async with`. Without async, use `with"
            r" sagas\.SyncClient\(\.\.\.\)`$"
        ),
    ):
        with sagas.Client(url):  # type: ignore[attr-defined]
            pass

    async def main() -> None:
        async with sagas.SyncClient(url):  # type: ignore[attr-defined]
            pass

    with pytest.raises(TypeError, match=r"needs `with`. With async, use `async with sagas\.Client"):
        run(main())


def test_the_attributes_of_a_clients_run(url: str) -> None:
    """It returns whether this start began the saga, its events and its plan, as at a node; before a
    node has it there are none.
    """
    kind = shop()
    made(url, kind)

    async def main() -> None:
        async with sagas.Client(url) as client:
            run = await client.start(kind, "bad", "fails")
            again, known = await client.start(kind, "bad", "fails"), await client.get("bad")
            assert run.new and not again.new and known and not known.new
            assert await run.log() == [] and await run.plan() is None
            with pytest.raises(
                TimeoutError, match="'bad' is still open after 0.01 s: no node has started it yet"
            ):
                await run.wait(timeout=0.01)
            async with sagas.open(url, [kind]) as store:
                assert (await run.wait(timeout=60)).states == {
                    "reserve": "undone",
                    "charge": "failed",
                }
                assert await run.log() == await store.log("bad")
                assert await run.plan() == await store.plan("bad") is not None
                with pytest.raises(sagas.NoSuchSaga):
                    await client.log("none")

    run(main())
    with sagas.open_sync(url, [kind]) as store, sagas.SyncClient(url) as plain:
        again = plain.start(kind, "bad", "fails")
        assert (
            not again.new and again.log() == store.log("bad") and again.plan() == store.plan("bad")
        )
        assert plain.start(kind, "well").new and plain.plan("bad") is not None


def test_a_client_waits_too_long(url: str) -> None:
    """The error says what the saga waits for."""
    saga = sagas.Saga("signed")

    @saga.approval()
    def sign(task: Task) -> None:
        ...

    with sagas.open_sync(url, [saga]), sagas.SyncClient(url) as client:
        started = client.start(saga, "k")
        hears(
            lambda: started.wait(0.01), "'k' is still open after 0.01 s: sign waits for an approval"
        )
        client.complete("k", sign)
        assert client.wait("k", timeout=60).ok


def test_a_start_that_loses_its_race_with_a_node(url: str) -> None:
    """A node starts a key while a client's start of it, with another input, is not yet committed:
    the node's counts, and the client gets the conflict.
    """
    kind = shop()

    async def main() -> None:
        async with sagas.open(url, [kind]) as store, sagas.Client(url) as client:
            async with await psycopg.AsyncConnection.connect(url) as link:
                late = await client.start(kind, "k", "the client's", connection=link)
                assert (await (await store.start(kind, "k", "the node's")).wait()).ok
                await link.commit()
            await until(lambda: inbox(url) == 0)
            with pytest.raises(sagas.KeyConflict):
                await late.wait()

    run(main())


STAYS = """
CREATE SEQUENCE sagas.turns;
CREATE FUNCTION sagas.stays_once() RETURNS trigger LANGUAGE plpgsql AS
  'BEGIN
    IF current_query() NOT LIKE ''%INSERT INTO sagas(%'' AND nextval(''sagas.turns'') = 1 THEN
      RAISE EXCEPTION ''once'';
    END IF;
    RETURN OLD;
  END';
CREATE TRIGGER stays_once BEFORE DELETE ON sagas.pending_starts
  FOR EACH ROW EXECUTE FUNCTION sagas.stays_once()
"""


@pytest.mark.parametrize("is_seen", [True, False], ids=["seen", "met"])
def test_a_start_of_a_taken_key_is_removed(
    url: str, monkeypatch: pytest.MonkeyPatch, is_seen: bool
) -> None:
    """The commit that removes it fails: the next one removes it, and it is never opened."""
    kind, event_names = shop(), list[str]()

    async def main() -> None:
        async with sagas.open(
            url, [kind], on_event=lambda event: event_names.append(event.name)
        ) as store, sagas.Client(url) as client:
            with psycopg.connect(url) as stranger:
                stranger.execute(STAYS)
            async with await psycopg.AsyncConnection.connect(url) as link:
                late = await client.start(kind, "k", "same", connection=link)
                assert (await (await store.start(kind, "k", "same")).wait()).ok
                if not is_seen:
                    database, is_blind = store._coordinator.store, True
                    right = database.find

                    async def find(key: str) -> Any:
                        nonlocal is_blind
                        was_blind, is_blind = is_blind, False
                        return None if was_blind else await right(key)

                    monkeypatch.setattr(database, "find", find)
                await link.commit()
            await until(lambda: inbox(url) == 0, 20)
            assert (await late.wait()).ok and len(records.read(url).sagas) == 1

    run(main())
    assert event_names.count("commit_failed") == 1


@pytest.mark.parametrize("function", ["starts", "find", "new_shard"])
def test_a_start_that_fails_at_first_is_taken_again(
    url: str, function: str, monkeypatch: pytest.MonkeyPatch
) -> None:
    """The reply to its taking is lost, or the node cannot open it then: the node, which has it,
    retries by itself.
    """
    kind = shop()

    async def main() -> None:
        async with sagas.open(url, [kind]) as store, sagas.Client(url) as client:
            database = store._coordinator.store
            right: Any = getattr(database, function)
            left = 1

            def failed() -> bool:
                nonlocal left
                left -= 1
                return left == 0

            async def later(*arguments: Any) -> Any:
                taken = await right(*arguments)
                if taken != [] and failed():
                    raise sagas.StoreUnavailable("lost")
                return taken

            def now() -> Any:
                if failed():
                    raise sagas.StoreUnavailable("none at hand")
                return right()

            monkeypatch.setattr(database, function, now if function == "new_shard" else later)
            run = await client.start(kind, "k", 1)
            assert (await asyncio.wait_for(run.wait(), 60)).ok and left <= 0 and inbox(url) == 0

    run(main())


def test_a_race_for_a_key_fails_no_other_start(url: str, monkeypatch: pytest.MonkeyPatch) -> None:
    """Two nodes start one key at once.

    The loser finds the other's saga, and starts the other sagas of the same commit again; no caller
    notices it.
    """
    kind = shop()

    async def main() -> None:
        async with sagas.open(url, [kind]) as first, sagas.open(url, [kind]) as second:
            assert (await (await second.start(kind, "k5", 5)).wait()).ok
            database = first._coordinator.store
            right, blind = database.find, 10

            async def find(key: str) -> Any:
                nonlocal blind
                blind -= 1
                return None if blind >= 0 else await right(key)

            monkeypatch.setattr(database, "find", find)
            runs = await asyncio.gather(
                *(first.start(kind, f"k{number}", number) for number in range(10))
            )
            assert all(end.ok for end in await asyncio.gather(*(run.wait() for run in runs)))
            assert len(records.read(url).sagas) == 10

    run(main())


@pytest.mark.parametrize("plain", [False, True])
def test_errors_of_a_given_connection(url: str, postgresql: Server, plain: bool) -> None:
    """The connection is closed, in a failed transaction, to a database without the tables, or to
    that of another store. Nothing is written, and each text says what to do.
    """
    kind, bare, other = shop(), postgresql.create(), postgresql.create()
    for location in (url, other):
        made(location, kind)

    def tried(to: str, spoil: str) -> str:
        with sagas.SyncClient(url) as client, psycopg.connect(to) as link:
            spoilt(link, spoil)
            with pytest.raises((sagas.StoreUnavailable, ValueError)) as error:
                client.start(kind, "k", connection=link)
            return str(error.value)

    async def tried_async(to: str, spoil: str) -> str:
        async with sagas.Client(url) as client, await psycopg.AsyncConnection.connect(to) as link:
            if spoil == "close":
                await link.close()
            elif spoil:
                with contextlib.suppress(psycopg.Error):
                    await link.execute(spoil)
            with pytest.raises((sagas.StoreUnavailable, ValueError)) as error:
                await client.start(kind, "k", connection=link)
            return str(error.value)

    texts = {
        (url, "close"): "the given connection is closed. Nothing was written. Give an open one",
        (
            url,
            "SELECT 1 / 0",
        ): (
            "in which a statement failed. Nothing was written. Roll it back, and start the saga in"
            " the next one"
        ),
        (
            url,
            "SET TRANSACTION READ ONLY",
        ): "by the given connection: cannot execute INSERT in a read-only transaction",
        (bare, ""): "the given connection is to another database (database '",
        (other, ""): "Nothing was written. Give a connection to the store's database",
    }
    for (to, spoil), text in texts.items():
        assert text in (tried(to, spoil) if plain else run(tried_async(to, spoil)))
    assert inbox(url) == inbox(other) == 0
    for location in (bare, other):
        postgresql.drop(location)


def spoilt(link: psycopg.Connection[Any], how: str) -> None:
    """Close it, or do something in its transaction, which may fail."""
    if how == "close":
        link.close()
    elif how:
        with contextlib.suppress(psycopg.Error):
            link.execute(how)


def test_a_given_connection_with_rows_of_its_own_kind(url: str) -> None:
    """Rows are dicts, by cursors of another class: a start reads its own rows anyway, also if the
    key exists.
    """
    kind = shop()
    made(url, kind)

    async def main() -> None:
        other: dict[str, Any] = {
            "row_factory": dict_row,
            "cursor_factory": psycopg.AsyncClientCursor,
        }
        async with sagas.Client(url) as client, await psycopg.AsyncConnection.connect(
            url, **other
        ) as link:
            assert (await client.start(kind, "k", 1, connection=link)).new
            assert not (await client.start(kind, "k", 1, connection=link)).new
            with pytest.raises(sagas.NoSuchSaga):
                await client.wait("k")
            await link.commit()

    run(main())
    with sagas.SyncClient(url) as plain, psycopg.connect(url, row_factory=dict_row) as link:
        assert (
            not plain.start(kind, "k", 1, connection=link).new
            and plain.start(kind, "l", connection=link).new
        )
    assert inbox(url) == 2


def test_a_store_and_a_client_wait_by_key_for_some_time(url: str) -> None:
    """`wait(key, timeout=)` works as that of a run; a store without the version of a client's start
    says so too.
    """
    kind, later = shop(), sagas.Saga("shop", version=2)

    @later.step
    def x(task: Task) -> int:
        return 1

    async def main() -> None:
        async with sagas.open(url, [kind]) as store, sagas.Client(url) as client:
            await client.start(later, "k")
            text = "'k' is still open after 0.01 s: no node has started it yet"
            with pytest.raises(TimeoutError, match=text):
                await client.wait("k", timeout=0.01)
            with pytest.raises(TimeoutError, match=text):
                await store.wait("k", timeout=0.01)
            assert not (run_again := await store.start(kind, "k")).new
            with pytest.raises(TimeoutError, match=text):
                await run_again.wait(timeout=0.01)
            with pytest.raises(sagas.NoSuchSaga):
                await store.wait("none", timeout=60)
            assert (await (await store.start(kind, "l")).wait(timeout=60)).ok and (
                await client.wait("l", timeout=60)
            ).ok

    run(main())
