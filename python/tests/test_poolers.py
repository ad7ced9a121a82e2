"""PgBouncer before the server: what works over sessions, over transactions and over statements."""

from __future__ import annotations

import asyncio
import concurrent.futures
import contextlib
import pathlib
import threading
from collections.abc import Iterator

import psycopg
import pytest
from cases import Task, run, simple, until
from poolers import pooled
from server import Server
from serving import DEFINITIONS, Served, all_done, start

import sagas
from sagas.cli import store_command
from sagas.storage.postgresql.worker_session import PostgreSQLWorkerSession

SETTINGS = {
    "search_path": '"$user", public',
    "enable_seqscan": "on",
    "jit": "on",
    "statement_timeout": "0",
    "default_transaction_isolation": "read committed",
}
"""What a stranger must find in each session."""
MODES = {
    "transaction": ("transaction",),
    "round robin": ("transaction", "server_round_robin = 1"),
}


def make_tables(url: str) -> None:
    """Create the tables of the store."""
    assert store_command.main([url, "init"]) == 0


def over(server: Server, url: str, port: int) -> str:
    """Return the address of a database through a pooler."""
    return server.url(url.rpartition("/")[2], port=port)


def check_untouched(there: str, count: int = 5) -> None:
    """Check that no session of the pooler has a setting or a prepared statement of ours."""
    with contextlib.ExitStack() as stack:
        for _ in range(count):
            link = stack.enter_context(psycopg.connect(there))  # each holds a session
            for name, expected in SETTINGS.items():
                ((value,),) = link.execute(f"SHOW {name}".encode()).fetchall()
                assert value == expected, name
            prepared = link.execute("SELECT name FROM pg_prepared_statements").fetchall()
            assert prepared == [], prepared
            listens = link.execute("SELECT pg_listening_channels()").fetchall()
            assert listens == [], listens


@pytest.fixture(params=MODES.values(), ids=MODES)
def there(request: pytest.FixtureRequest, postgresql: Server, url: str) -> Iterator[str]:
    """Return the address of the database through a pooler of transactions."""
    with pooled(postgresql, *request.param) as port:
        yield over(postgresql, url, port)


def test_a_pooler_of_sessions(postgresql: Server, url: str) -> None:
    """It is like the server, for a node and for a client."""
    kind = simple(lambda task: "done")
    with pooled(postgresql, "session") as port:
        pooler = over(postgresql, url, port)
        with sagas.open_sync(pooler, [kind]), sagas.SyncClient(pooler) as client:
            assert client.start(kind, "k").wait(60).ok
            with psycopg.connect(pooler) as link:
                started = client.start(kind, "other", connection=link)
            assert started.wait(60).ok
        assert store_command.main([pooler, "stats"]) == 0


def test_a_pooler_of_statements(postgresql: Server, url: str) -> None:
    """It is refused by name, also with the URL of the server."""
    make_tables(url)
    kind = simple(lambda task: "done")
    with pooled(postgresql, "statement") as port:
        pooler = over(postgresql, url, port)
        with psycopg.connect(pooler, autocommit=True) as idle:
            idle.execute("SELECT 1")
        for opens in (
            sagas.open_sync(pooler, [kind]),
            sagas.open_sync(pooler, [kind], direct_url=url),
            sagas.SyncClient(pooler),
            sagas.SyncClient(pooler, direct_url=url),
        ):
            with pytest.raises(sagas.InvalidStore, match="pools statements, as PgBouncer does"):
                with opens:
                    pass


def test_what_needs_the_server_itself(there: str) -> None:
    """A node, the command, a blob store and a Celery worker are refused, and set nothing."""
    kind = simple(lambda task: "done")
    for opens in (
        sagas.open_sync(there, [kind]),
        sagas.open_sync(there, [kind], direct_url=there),
    ):
        with pytest.raises(sagas.InvalidStore, match="take it as direct_url"):
            with opens:
                pass
    assert store_command.main([there, "stats"]) == 4
    with pytest.raises(psycopg.OperationalError, match="pools transactions"):
        sagas.PostgresBlobStore(there).put("a", b"one")
    with pytest.raises(sagas.InvalidStore, match="pools transactions"):
        PostgreSQLWorkerSession(there).say()
    check_untouched(there)


def test_while_others_use_the_pooler(url: str, there: str) -> None:
    """A node and a client that know the server itself open their store each time."""
    is_over, kind = threading.Event(), simple(lambda task: 1)

    def use() -> None:
        with psycopg.connect(there, autocommit=True) as connection:
            while not is_over.is_set():
                connection.execute("SELECT 1", prepare=False)

    with concurrent.futures.ThreadPoolExecutor() as pool:
        users = [pool.submit(use) for _ in range(3)]
        try:
            for number in range(10):
                with sagas.open_sync(there, [kind], direct_url=url) as store:
                    store.start(kind, f"k{number}")
                    assert store.wait(f"k{number}", 30).ok
                with sagas.SyncClient(there, direct_url=url) as client:
                    assert client.wait(f"k{number}", 30).ok
        finally:
            is_over.set()
    assert all(user.exception() is None for user in users)


@pytest.mark.parametrize("has_direct_url", [False, True], ids=["polls", "listens"])
def test_a_client(url: str, there: str, has_direct_url: bool) -> None:
    """It starts, waits, lists, aborts and reports, with many calls at once."""
    kind = sagas.Saga("kind")

    @kind.approval
    def approves(task: Task) -> None:
        ...

    quick = simple(lambda task: task.input)

    async def main() -> None:
        direct_url = url if has_direct_url else None
        async with sagas.open(url, [kind, quick]) as store:
            async with sagas.Client(there, direct_url=direct_url) as client:
                starts = (client.start(quick, f"k{number}", number) for number in range(50))
                ends = await asyncio.gather(
                    *(run.wait(60) for run in await asyncio.gather(*starts))
                )
                assert [end.result_of("a") for end in ends] == [*range(50)]
                assert not (await client.start(quick, "k1", 1)).new
                with pytest.raises(sagas.KeyConflict):
                    await client.start(quick, "k1", 2)
                for key in ("approved", "aborted"):
                    await client.start(kind, key)
                    await until(lambda: store.active_attempts(key))
                await client.complete("approved", "approves", None)
                assert (await client.wait("approved", 60)).ok
                assert await client.abort("aborted")
                assert not (await client.wait("aborted", 60)).ok
                assert len(await client.list()) == 52
                assert (await client.attention()) == []
                assert await client.log("approved")
                await client.pause(kind, note="by hand")
                await client.start(kind, "last")
                await client.schedule("nightly", quick, 1, cron="0 2 * * *")
                await client.resume(kind)
                assert (await client.abort_all(saga=kind)).done == ["last"]
                assert await client.erase("approved")
                assert [each.name for each in await client.schedules()] == ["nightly"]

    run(main())
    check_untouched(there)


def test_a_start_in_the_transaction_of_a_caller(url: str, there: str) -> None:
    """The caller's own connection may be over the pooler as well."""
    kind = simple(lambda task: "done")
    with sagas.open_sync(url, [kind]), sagas.SyncClient(there) as client:
        with psycopg.connect(there) as link:
            started = client.start(kind, "k", connection=link)
        assert started.wait(60).ok
    check_untouched(there)


def read_in_a_thread(store: sagas.Store) -> None:
    """Ask the store over a connection for reads, as the service does."""
    with contextlib.closing(store._reader()) as reader:
        for _ in range(3):
            assert reader.rows("SELECT count(*) FROM sagas WHERE id >= ?", 0) == [(20,)]


def test_a_node(url: str, there: str) -> None:
    """Its questions use the pooler, and its lease, its commits and its steps the server."""
    kind = sagas.Saga("kind")
    names = "SELECT application_name FROM pg_stat_activity WHERE datname = current_database()"

    @kind.step(transaction=True, undo=sagas.NOTHING)
    async def books(task: Task) -> None:
        await task.connection.execute("SELECT 1")

    async def main() -> None:
        async with sagas.open(there, [kind], node="one", direct_url=url) as store:
            runs = [await store.start(kind, f"k{number}") for number in range(20)]
            assert all([(await each.wait()).ok for each in runs])
            assert len(await store.list()) == 20
            await store.pause(kind, note="by hand")
            await store.resume(kind)
            await asyncio.to_thread(read_in_a_thread, store)
            assert all(verdict.startswith("yes") for verdict in (await store.audit()).values())
            with psycopg.connect(url, autocommit=True) as link:
                names_now = {name for (name,) in link.execute(names)}
            assert {"sagas/one lease", "sagas/one commit", "sagas/one step"} <= names_now, names_now

    run(main())
    check_untouched(there)


def test_a_service(url: str, there: str, tmp_path: pathlib.Path) -> None:
    """Starts, claims, reports, waits and lists of a service whose store is the pooler."""
    service = Served(tmp_path, DEFINITIONS, "--direct-url", url, "--wait", "60", store=there)
    service.start()
    assert service.process and service.process.stdout
    try:
        service.process.stdout.readline()
        with service.client() as client:
            for key in ("k", "other"):
                assert start(client, "trip", key).status_code == 201
                all_done(client, "trip/flight", "trip/car", "trip/tour")
                assert client.get(f"/v1/sagas/{key}/wait").json()["phase"] == "completed"
                assert client.get(f"/v1/sagas/{key}/timeline").status_code == 200
            assert len(client.get("/v1/sagas").json()["sagas"]) == 2
            assert client.get("/v1/attention").json()["entries"] == []
            check_untouched(there)
        assert service.stop() == 0
    finally:
        service.kill()


def test_the_url_of_another_database(postgresql: Server, url: str, there: str) -> None:
    """It is refused by a node and by a client, because nothing would be as they expect."""
    make_tables(url)
    other = postgresql.create()
    make_tables(other)
    kind = simple(lambda task: "done")
    for opens in (
        sagas.open_sync(there, [kind], direct_url=other),
        sagas.SyncClient(there, direct_url=other),
    ):
        with pytest.raises(sagas.InvalidStore, match="direct_url leads to another database"):
            with opens:
                pass
    postgresql.drop(other)
