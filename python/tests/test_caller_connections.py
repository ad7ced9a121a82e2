"""Starts in transactions of callers, by each kind of connection that is taken."""

from __future__ import annotations

import ast
import asyncio
import contextlib
import importlib
import inspect
import pathlib
import re
from collections.abc import Iterator
from typing import Any

import psycopg
import pytest
from caller_libraries import LIBRARIES, AsyncPsycopg, Django, Library, Psycopg, Runner, library
from cases import Task, simple
from server import Server

import sagas
from sagas.storage.postgresql import connection_adapters

KIND: sagas.Saga[Any] = simple(lambda task: task.input)
GUIDES = pathlib.Path(__file__).parents[2] / "docs/guides"
SELECT = "SELECT key FROM {} WHERE key LIKE %s ORDER BY 1"


@pytest.fixture(scope="module")
def shop(postgresql: Server) -> Iterator[str]:
    """Return a database with a table of its own, in which a node executes sagas."""
    url = postgresql.create()
    with psycopg.connect(url) as link:
        link.execute("CREATE TABLE orders(key text)")
    with sagas.open_sync(url, [KIND]):
        yield url
    postgresql.drop(url)


@contextlib.contextmanager
def caller(of: type[Library], url: str, runner: Runner, **options: Any) -> Iterator[Library]:
    """Return a connection of a library, until the block ends."""
    made = of()
    runner.do(made.connect(url, **options))
    try:
        yield made
    finally:
        runner.do(made.close())


@contextlib.contextmanager
def client_of(of: type[Library], url: str, runner: Runner) -> Iterator[Any]:
    """Return the client that takes a library's connections."""
    if not of.is_async:
        with sagas.SyncClient(url) as plain:
            yield plain
        return
    client = sagas.Client(url)
    runner.do(client.__aenter__())
    try:
        yield client
    finally:
        runner.do(client.close())


@pytest.fixture
def runner() -> Iterator[Runner]:
    """Return an event loop for the calls of a test."""
    runner = Runner()
    yield runner
    runner.close()


def keys(url: str, table: str, of: type[Library]) -> list[str]:
    """Return the keys of a library in a table."""
    with psycopg.connect(url) as link:
        return [key for (key,) in link.execute(SELECT.format(table), (f"{of.__name__}-%",))]


@pytest.mark.parametrize("of", LIBRARIES)
def test_a_start_in_a_transaction_of_each_library(
    of: type[Library], shop: str, runner: Runner
) -> None:
    """A saga exists exactly if the transaction commits. The second start of a key is none, and a
    conflict leaves the transaction as it is.
    """
    labels = {"of": of.__name__}
    with client_of(of, shop, runner) as client, caller(of, shop, runner) as link:

        def start(name: str, input: Any) -> Any:
            options = {"labels": labels, "deadline": 300, "connection": link.connection}
            return runner.do(client.start(KIND, f"{of.__name__}-{name}", input, **options))

        def insert(name: str) -> None:
            runner.do(link.execute(f"INSERT INTO orders VALUES ('{of.__name__}-{name}')"))

        runner.do(link.begin())
        insert("no")
        assert start("no", 1).new
        runner.do(link.rollback())
        runner.do(link.begin())
        insert("yes")
        run = start("yes", {"amount": 2})
        assert run.new and not start("yes", {"amount": 2}).new
        with pytest.raises(sagas.KeyConflict):
            start("yes", {"amount": 3})
        with pytest.raises(sagas.NoSuchSaga):
            runner.do(run.wait())
        insert("after")
        runner.do(link.commit())
        end = runner.do(run.wait(timeout=120))
        assert end.ok and end.results == {"a": {"amount": 2}}
        runner.do(link.begin())
        assert not start("yes", {"amount": 2}).new
        runner.do(link.commit())
        (row,) = runner.do(client.list(labels=labels))
        assert row.key == run.key and row.deadline is not None
    names = [f"{of.__name__}-{name}" for name in ("after", "yes")]
    assert keys(shop, "orders", of) == names
    assert keys(shop, "sagas.sagas", of) == names[1:] and not keys(shop, "sagas.pending_starts", of)


@pytest.mark.parametrize("of", LIBRARIES)
def test_a_connection_that_cannot_be_used(
    of: type[Library], shop: str, postgresql: Server, runner: Runner
) -> None:
    """It commits each statement, or is to another database; its transaction has failed, or it is
    closed. Nothing is written, and each text says what to do.
    """
    other = postgresql.create()

    def refused(link: Library, kind: type[Exception], text: str) -> None:
        with pytest.raises(kind, match=re.escape(text)) as error:
            runner.do(
                client.start(KIND, f"{of.__name__}-bad", "value-9", connection=link.connection)
            )
        assert "value-9" not in "".join(map(str, (error.value, error.value.__cause__)))

    with client_of(of, shop, runner) as client:
        with caller(of, shop, runner, autocommit=True) as link:
            refused(link, ValueError, "has no open transaction: it commits each statement")
        with caller(of, other, runner) as link:
            runner.do(link.begin())
            name = other.rpartition("/")[2]
            refused(link, ValueError, f"is to another database (database '{name}' at 127.0.0.1:")
            runner.do(link.execute("CREATE TABLE orders(key text)"))
            runner.do(link.rollback())
        with caller(of, shop, runner) as link:
            runner.do(link.begin())
            runner.do(link.execute("SET LOCAL lock_timeout = '300ms'"))
            runner.do(link.execute(f"INSERT INTO orders VALUES ('{of.__name__}-bad')"))
            with psycopg.connect(shop) as stranger:
                stranger.execute("LOCK TABLE sagas.secrets")
                refused(link, sagas.StoreUnavailable, "by the given connection: canceling")
            runner.do(link.execute(f"INSERT INTO orders VALUES ('{of.__name__}-bad')"))
            with pytest.raises(Exception, match="division by zero"):
                runner.do(link.execute("SELECT 1 / 0"))
            refused(link, sagas.StoreUnavailable, "in which a statement failed")
            runner.do(link.rollback())
            runner.do(link.close())
            if not of.connects_again:
                refused(link, sagas.StoreUnavailable, "")
    assert not keys(shop, "orders", of) or keys(shop, "orders", of)[-1] != f"{of.__name__}-bad"
    assert f"{of.__name__}-bad" not in keys(shop, "sagas.pending_starts", of)
    postgresql.drop(other)


def test_a_connection_of_another_kind(shop: str, runner: Runner) -> None:
    """The error says what is taken, and where a connection of the other kind goes."""
    blocking = "takes a psycopg.Connection, a connection of psycopg2, SQLAlchemy's Connection or"
    other = "takes a psycopg.AsyncConnection, a connection of asyncpg, or SQLAlchemy's"
    with sagas.SyncClient(shop) as plain, client_of(AsyncPsycopg, shop, runner) as client:
        with caller(AsyncPsycopg, shop, runner) as link:
            remedy = f"{blocking}.*not a psycopg.AsyncConnection. It needs an event loop"
            with pytest.raises(TypeError, match=f"sagas.SyncClient {remedy}"):
                plain.start(KIND, "bad", connection=link.connection)
        with caller(Psycopg, shop, runner) as link:
            remedy = f"{other}.*not a psycopg.Connection. It would block the event loop"
            with pytest.raises(TypeError, match=f"sagas.Client {remedy}"):
                runner.do(client.start(KIND, "bad", connection=link.connection))
        for wrong in (shop, library("psycopg2"), object()):
            with pytest.raises(
                TypeError, match=f"{blocking}.*not a builtins.{type(wrong).__name__}"
            ):
                plain.start(KIND, "bad", connection=wrong)
        sqlite = library("sqlalchemy").create_engine("sqlite://", future=True).connect()
        with pytest.raises(ValueError, match=r"is to another database \(sqlite\)"):
            plain.start(KIND, "bad", connection=sqlite)
        assert plain.get("bad") is None


def test_a_store_takes_the_connections_of_its_clients(shop: str, tmp_path: Any) -> None:
    """Its own node executes the saga after the commit; a store in a file takes none."""
    called: list[str] = []
    kind = sagas.Saga("of-store")

    @kind.step(transaction=True)
    async def a(task: Task) -> None:
        called.append(task.key)
        if task.key == "outer":  # a step's own transaction is one too
            await store.start(kind, "inner", connection=task.connection)

    async def main() -> None:
        nonlocal store
        async with sagas.open(shop, [kind]) as store:
            async with await psycopg.AsyncConnection.connect(shop) as link:
                run = await store.start(kind, "outer", connection=link)
                assert run.new and called == []
                with pytest.raises(sagas.DefinitionError, match="was not opened with it"):
                    await store.start(sagas.Saga("other"), "k", connection=link)
            assert (await run.wait(timeout=120)).ok
            async with asyncio.timeout(120):
                while await store.get("inner") is None:
                    await asyncio.sleep(0.05)
            assert (await store.wait("inner", timeout=120)).ok and called == ["outer", "inner"]
            with psycopg.connect(shop) as plain, pytest.raises(
                TypeError, match="Store.start takes"
            ):
                await store.start(kind, "k", connection=plain)
            async with sagas.open(shop, [kind], accept_new=False) as closing:
                with pytest.raises(sagas.Closed, match="accept_new=False"):
                    await closing.start(kind, "k", connection=link)

    store: sagas.Store
    asyncio.run(main())
    with sagas.open_sync(shop, [kind]) as opened:
        with psycopg.connect(shop) as link:
            run = opened.start(kind, "blocking", connection=link)
        assert run.new and run.wait(timeout=120).ok
    with sagas.open_sync(str(tmp_path / "s.db"), [KIND]) as opened, psycopg.connect(shop) as link:
        with pytest.raises(ValueError, match="connection= needs a store over PostgreSQL"):
            opened.start(KIND, "k", connection=link)


def test_the_table_names_classes_of_the_libraries() -> None:
    """Each row is the name of a class, by which a connection finds its adapter."""
    modules = {
        "psycopg": ("psycopg",),
        "psycopg2": ("psycopg2.extensions",),
        "sqlalchemy": ("sqlalchemy.engine", "sqlalchemy.orm", "sqlalchemy.ext.asyncio"),
        "django": ("django.db.backends.base.base", "django.utils.connection"),
        "asyncpg": ("asyncpg", "asyncpg.pool"),
    }
    for package, name in (*connection_adapters.BLOCKING, *connection_adapters.ASYNC):
        some = [importlib.import_module(module) for module in modules[package]]
        (kind,) = {getattr(module, name) for module in some if hasattr(module, name)}
        assert (kind.__module__.partition(".")[0], kind.__name__) == (package, name)


def programs(page: str) -> list[str]:
    """Return the programs of a page."""
    return re.findall(r"^```python\n(.*?)^```", (GUIDES / page).read_text(), re.M | re.S)


def table(name: str) -> Any:
    """Return a table of SQLAlchemy with the column `key`."""
    sqlalchemy = library("sqlalchemy")
    column = sqlalchemy.Column("key", sqlalchemy.String)
    return sqlalchemy.Table(name, sqlalchemy.MetaData(), column)


def test_the_programs_of_the_page(shop: str, runner: Runner) -> None:
    """Each writes its row, and starts its saga, in one transaction."""

    async def pool() -> Any:
        return await library("asyncpg").create_pool(shop, min_size=1, max_size=1)

    Django().connect(shop)
    names: dict[str, Any] = {name: library(name) for name in ("psycopg", "psycopg2", "sqlalchemy")}
    library("sqlalchemy.orm")
    names |= vars(library("sqlalchemy.ext.asyncio"))
    names |= {"URL": shop, "ASYNC_URL": shop.replace("postgresql:", "postgresql+asyncpg:")}
    names |= {"order": KIND, "orders": table("orders"), "input": {"amount": 1}}
    names["pool"] = runner.do(pool())
    with sagas.SyncClient(shop) as plain, client_of(AsyncPsycopg, shop, runner) as client:
        blocks = programs("connections.md")
        assert len(blocks) == 9
        for number, block in enumerate(blocks):
            code = compile(block, block, "exec", flags=ast.PyCF_ALLOW_TOP_LEVEL_AWAIT)
            is_async = bool(code.co_flags & inspect.CO_COROUTINE)
            names |= {"key": f"page-{number}", "client": client if is_async else plain}
            runner.do(eval(code, names))
            assert plain.wait(f"page-{number}", timeout=120).ok
        library("django.db").connection.close()
        runner.do(names["pool"].close())
    with psycopg.connect(shop) as link:
        rows = link.execute("SELECT key FROM orders WHERE key LIKE 'page-%' ORDER BY 1")
        assert [key for (key,) in rows] == [f"page-{number}" for number in range(len(blocks))]


def test_a_statement_of_sqlalchemy_in_a_step(shop: str) -> None:
    """The program of the page writes its row in the transaction of the step."""
    (block,) = (block for block in programs("transactions.md") if "sqlalchemy" in block)
    trip = sagas.Saga("trip")
    exec(block, {"trip": trip, "bookings": table("orders")})
    with sagas.open_sync(shop, [trip]) as store:
        assert store.start(trip, "trip-1").wait(timeout=120).ok
    with psycopg.connect(shop) as link:
        assert link.execute("SELECT key FROM orders WHERE key = 'trip-1'").fetchall() == [
            ("trip-1",)
        ]
