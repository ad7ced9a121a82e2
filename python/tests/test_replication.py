"""A synchronous standby that is down.

Waits for it have a limit, and block nothing else. They are not acknowledged if the server is set
to wait no longer.
"""

from __future__ import annotations

import asyncio
import contextlib
import pathlib
import socket
from collections.abc import Iterator
from typing import Any

import httpx
import psycopg
import pytest
from cases import Task, run, simple, until
from driving import program
from psycopg import errors, pq, waiting
from server import Server, serving
from serving import Served, host

import sagas
from sagas.definition import definition_files
from sagas.server import uvicorn_server
from sagas.server.settings import Settings
from sagas.storage.postgresql import connections, replication

WAITS = "FROM pg_stat_activity WHERE wait_event = 'SyncRep'"


class Away:
    """A server whose synchronous standby is down, or back."""

    def __init__(self, server: Server) -> None:
        self.server = server

    def rows(self, text: str, database: str = "postgres") -> list[tuple[Any, ...]]:
        with psycopg.connect(self.server.url(database), autocommit=True) as link:
            cursor = link.execute(text.encode())
            return cursor.fetchall() if cursor.description else []

    def waiting(self) -> int:
        """Return how many commits wait for the standby."""
        return int(self.rows(f"SELECT count(*) {WAITS}")[0][0])

    def go(self) -> None:
        """Let commits wait for it from now on."""
        self.rows("ALTER SYSTEM SET synchronous_standby_names = 'away'")
        self.rows("SELECT pg_reload_conf()")
        with psycopg.connect(self.server.url("postgres"), autocommit=True) as link:
            mine = f"WHERE pid = {link.info.backend_pid}"
            waits = f"SELECT 1 FROM pg_stat_activity {mine} AND wait_event = 'SyncRep'"
            while not self.rows(waits):  # the server reads its settings with a delay
                link.pgconn.send_query(replication.REPLICATED.encode())
                while link.pgconn.is_busy() and not self.rows(waits):
                    link.pgconn.consume_input()
                while not link.pgconn.is_busy() and link.pgconn.get_result():
                    pass
            link.pgconn.finish()
        self.rows(f"SELECT pg_cancel_backend(pid) FROM pg_stat_activity {mine}")
        while self.rows(f"SELECT 1 FROM pg_stat_activity {mine}"):
            pass

    def come(self) -> None:
        """Let all waiting commits continue."""
        self.rows("ALTER SYSTEM RESET synchronous_standby_names")
        self.rows("SELECT pg_reload_conf()")

    def cancel(self) -> None:
        """Cancel them, as an operator does who thinks that a statement hangs."""
        self.rows(f"SELECT pg_cancel_backend(pid) {WAITS}")


@pytest.fixture(scope="module")
def server() -> Iterator[Server]:
    with serving() as server:
        yield server


@pytest.fixture
def away(server: Server) -> Iterator[Away]:
    standby = Away(server)
    try:
        yield standby
    finally:
        standby.come()


@pytest.fixture
def kind() -> sagas.Saga:
    return simple(lambda task: "done")


@pytest.fixture
def store(server: Server, kind: sagas.Saga) -> str:
    """Return a database with the tables, and no node."""
    url = server.create()

    async def make() -> None:
        async with sagas.open(url, [kind]):
            pass

    run(make())
    return url


async def cancels(self: Any, gen: Any, *arguments: Any) -> Any:
    """Wait as psycopg 3.2 does: a cancelled caller cancels the statement."""
    try:
        return await waiting.wait_async(gen, self.pgconn.socket)
    except asyncio.CancelledError:
        if self.pgconn.transaction_status == pq.TransactionStatus.ACTIVE:
            self.pgconn.get_cancel().cancel()
            with contextlib.suppress(errors.QueryCanceled):
                await waiting.wait_async(gen, self.pgconn.socket)
        raise


@pytest.mark.parametrize("psycopg_is", ["3.1", "3.2"])
def test_a_start_has_a_limit(
    away: Away, store: str, kind: sagas.Saga, monkeypatch: pytest.MonkeyPatch, psycopg_is: str
) -> None:
    """The error says that the outcome is unknown, and no reader sees its row before the standby has
    it.
    """
    monkeypatch.setattr(connections, "PATIENCE", 1.0)
    if psycopg_is == "3.2":
        monkeypatch.setattr(psycopg.AsyncConnection, "wait", cancels)
    there = "SELECT key FROM sagas.pending_starts"

    async def main() -> None:
        async with sagas.Client(store, connections=2) as client:
            await asyncio.to_thread(away.go)
            for _ in range(2):
                with pytest.raises(
                    sagas.StoreUnavailable,
                    match="unknown whether the saga was started. Start it again",
                ):
                    await client.start(kind, "k")
                assert away.rows(there, store.rpartition("/")[2]) == []
            assert away.waiting() == 1
            await asyncio.to_thread(away.come)
            assert not (await client.start(kind, "k")).new
        assert away.rows(there, store.rpartition("/")[2]) == [("k",)]

    run(main())


def test_starts_wait_for_the_standby_side_by_side(away: Away, store: str, kind: sagas.Saga) -> None:
    """No start holds resources that others need while it waits."""

    async def main() -> None:
        async with sagas.Client(store, connections=3) as client:
            await asyncio.to_thread(away.go)
            starts = [asyncio.create_task(client.start(kind, f"k{number}")) for number in range(3)]
            await until(lambda: away.waiting() == 3, 20)
            await asyncio.to_thread(away.come)
            assert all(run.new for run in await asyncio.gather(*starts))

    run(main())


def test_a_canceled_wait_is_not_acknowledged(away: Away, store: str, kind: sagas.Saga) -> None:
    """The server answers a start as if all was well.

    It is not acknowledged, and neither is the next one of its key, before the standby is back.
    """

    async def main() -> None:
        async with sagas.Client(store) as client:
            await asyncio.to_thread(away.go)
            first = asyncio.create_task(client.start(kind, "k"))
            await until(away.waiting)
            away.cancel()
            with pytest.raises(
                sagas.StoreUnavailable, match="a synchronous standby may not have it"
            ):
                await first
            for plain in (False, True):
                second = asyncio.create_task(started(store, client, kind, plain))
                await until(away.waiting)
                assert not second.done()
                if plain:
                    await asyncio.to_thread(away.come)
                    assert not await second
                else:
                    away.cancel()
                    with pytest.raises(
                        sagas.StoreUnavailable, match="a synchronous standby may not"
                    ):
                        await second

    run(main())


async def started(store: str, client: sagas.Client, kind: sagas.Saga, plain: bool) -> bool:
    """Start a saga by a client, or by another node; return whether it is new."""
    if not plain:
        return (await client.start(kind, "k")).new

    def start() -> bool:
        with sagas.SyncClient(store) as other:
            return other.start(kind, "k").new

    return await asyncio.to_thread(start)


def test_a_canceled_wait_of_a_node(away: Away, store: str) -> None:
    """A node acknowledges neither its commit nor one that another node has committed so, and calls
    nothing, before the standby is back.
    """
    called: list[str] = []

    async def step(task: Task) -> None:
        called.append(task.key)

    kind, event_names = simple(step), list[str]()

    async def main() -> None:
        hook = lambda event: event_names.append(event.name)
        async with sagas.open(store, [kind], lease=60, on_event=hook) as first:
            async with sagas.open(store, [kind], lease=60, accept_new=False) as second:
                assert (await (await first.start(kind, "first")).wait()).ok
                await asyncio.to_thread(away.go)
                mine = asyncio.create_task(first.start(kind, "k"))

                async def is_visible() -> bool:
                    """Cancel the wait of each commit, until the start of `k` was in one."""
                    away.rows(f"SELECT pg_cancel_backend(pid) {WAITS} AND query LIKE '%event_log%'")
                    return await second._coordinator.store.find("k") is not None

                await until(is_visible)
                await until(lambda: "commit_failed" in event_names)
                await until(
                    lambda: away.rows(
                        f"SELECT 1 {WAITS} AND (query = 'COMMIT' OR query LIKE '%takeovers%')"
                    )
                )
                other = asyncio.create_task(second.start(kind, "k"))
                await until(lambda: away.rows(f"SELECT 1 {WAITS} AND query LIKE '%emit%'"))
                assert not mine.done() and not other.done() and called == ["first"]
                await asyncio.to_thread(away.come)
                assert (await (await mine).wait()).ok and not (await other).new
        assert called == ["first", "k"]

    run(main())


def test_a_start_over_http_has_a_limit(
    away: Away, store: str, tmp_path: pathlib.Path, monkeypatch: pytest.MonkeyPatch
) -> None:
    """The response is 503, and the start is kept anyway once the standby is back."""
    monkeypatch.setenv("SAGAS_PROGRAM", program())
    Served(tmp_path)
    settings = Settings(store, definition_files.read(tmp_path / "definitions"), patience=1.0)
    body = {"definition": "trip", "key": "k"}

    async def main() -> None:
        opened = asyncio.Event()
        with socket.create_server((host(), 0)) as listening:
            at_work = asyncio.create_task(uvicorn_server.run(settings, listening, opened.set))
            await opened.wait()
            name, port = listening.getsockname()
            async with httpx.AsyncClient(base_url=f"http://{name}:{port}", timeout=15) as client:
                assert (
                    await client.post("/v1/sagas", json=body | {"key": "first"})
                ).status_code == 201
                await asyncio.to_thread(away.go)
                late = await client.post("/v1/sagas", json=body)
                assert late.status_code == 503 and "retry the same request" in late.text.lower()
                await asyncio.to_thread(away.come)
                again = await client.post("/v1/sagas", json=body)
                assert again.status_code == 200 and again.json()["key"] == "k"
            at_work.cancel()
            await asyncio.wait([at_work])

    run(main())
