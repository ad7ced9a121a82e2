"""What the store asks of a PostgreSQL server: one module names it. And what holds without it."""

from __future__ import annotations

import ast
import asyncio
import contextlib
import pathlib
import re
import time
from collections.abc import AsyncIterator, Iterator

import psycopg
import pytest
from server import Server, serving
from serving import command

import sagas
from sagas.storage.postgresql.server import REQUIREMENTS, SERVER

TOP = pathlib.Path(__file__).resolve().parents[2]
SRC = TOP / "python" / "src" / "sagas"
PAGE = (TOP / "docs" / "reference" / "servers.md").read_text()
NAMES = re.compile(
    r"pg_walfile|pg_current_wal|pg_control_|pg_notify|pg_logical_emit|pg_backend_pid|"
    r"advisory_|hashtext|SyncRepWait|^LISTEN |^NOTIFY "
)
"""The functions and statements of the server that only one module may name."""
trip = sagas.Saga("trip")


@trip.step(undo=sagas.NOTHING)
async def book(task: sagas.Task) -> int:
    return 1


def texts(tree: ast.AST) -> Iterator[str]:
    """Yield each text of a module, except of docstrings."""
    docs = {
        id(node.value)
        for node in ast.walk(tree)
        if isinstance(node, ast.Expr) and isinstance(node.value, ast.Constant)
    }
    for node in ast.walk(tree):
        if isinstance(node, ast.Constant) and isinstance(node.value, str) and id(node) not in docs:
            yield node.value


def test_one_module_names_the_functions_of_the_server() -> None:
    named = {
        str(path.relative_to(SRC))
        for path in SRC.rglob("*.py")
        if any(NAMES.search(text) for text in texts(ast.parse(path.read_text())))
    }
    assert named == {"storage/postgresql/server.py"}


def test_the_page_has_the_list() -> None:
    """Each item with its property and its statement, in their order."""
    (block,) = re.findall(r"^```sql\n(.*?)^```$", PAGE, re.S | re.M)
    assert block == "".join(
        f"-- {item.name}: {item.property}\n{item.probe};\n" for item in REQUIREMENTS
    )


@pytest.fixture
def app(postgresql: Server, prepared: str) -> Iterator[str]:
    """Return a database with the tables, for a user who has the least rights."""
    url = postgresql.create(template=prepared)
    yield postgresql.url(url.rpartition("/")[2], user="app")
    postgresql.drop(url)


@contextlib.contextmanager
def sessions(url: str, number: int) -> Iterator[list[psycopg.Connection[tuple[object, ...]]]]:
    """Open connections that commit each statement."""
    with contextlib.ExitStack() as stack:
        yield [stack.enter_context(psycopg.connect(url, autocommit=True)) for _ in range(number)]


def value(connection: psycopg.Connection[tuple[object, ...]], expression: str) -> object:
    """Return the value of an expression."""
    ((only,),) = connection.execute(f"SELECT {expression}".encode()).fetchall()
    return only


def test_each_statement_of_the_list_runs(app: str) -> None:
    with sessions(app, 1) as (connection,):
        for item in REQUIREMENTS:
            connection.execute(item.probe.encode())


def test_locks_and_sessions_are_what_the_list_says(app: str) -> None:
    with sessions(app, 2) as (first, second):
        assert value(first, SERVER.session) == value(first, SERVER.session)
        assert value(first, SERVER.session) != value(second, SERVER.session)
        value(first, SERVER.lock("7"))
        assert value(second, SERVER.try_lock("7")) is False
        first.close()
        value(second, SERVER.lock("7"))  # the end of a session frees it, which takes a moment
        assert value(second, SERVER.unlock("7")) is True
    with sessions(app, 2) as (first, second):
        text = SERVER.lock_text("'task'", 5)
        second.execute("SET lock_timeout = '50ms'")
        with first.transaction():
            value(first, text)
            with pytest.raises(psycopg.errors.LockNotAvailable):
                value(second, text)
        value(second, text)


def test_messages_are_sent_by_commits(app: str) -> None:
    """Those of a transaction that is rolled back are not sent."""
    with sessions(app, 2) as (first, second):
        received = list[str]()
        second.add_notify_handler(lambda message: received.append(message.payload))
        second.execute(SERVER.listen("news").encode())
        with contextlib.suppress(psycopg.Rollback), first.transaction():
            value(first, SERVER.notify("news", "'lost'"))
            raise psycopg.Rollback
        for text in ("a", "b"):
            value(first, SERVER.notify("news", f"'{text}'"))
        until = time.monotonic() + 60
        while len(received) < 2 and time.monotonic() < until:
            second.execute("SELECT 1")  # reads what has arrived
        assert received == ["a", "b"]


def test_a_promotion_has_another_timeline_of_the_same_system(tmp_path: pathlib.Path) -> None:
    with serving() as primary:
        url = primary.create()
        standby = Server(primary.folder.parent / f"{primary.folder.name}-standby")
        standby.copy(primary)
        standby.start()
        try:
            with sessions(url, 1) as (connection,):
                names = (SERVER.timeline, SERVER.system, SERVER.database)
                before = [value(connection, name) for name in names]
            standby.promote()
            with sessions(standby.url(url.rpartition("/")[2]), 1) as (connection,):
                after = [value(connection, name) for name in names]
        finally:
            standby.stop("immediate")
    assert str(after[0]) > str(before[0]) and after[1:] == before[1:]


@contextlib.asynccontextmanager
async def client(url: str) -> AsyncIterator[tuple[sagas.Client, psycopg.AsyncConnection[object]]]:
    async with sagas.Client(url) as opened:
        async with await psycopg.AsyncConnection.connect(url) as connection:
            yield opened, connection


@pytest.mark.parametrize(
    "function, opens, starts",
    [
        ("pg_walfile_name(pg_lsn)", False, False),
        ("pg_backend_pid()", False, False),
        ("pg_notify(text, text)", True, False),
        ("pg_advisory_lock(bigint)", True, True),
        ("pg_try_advisory_lock(bigint)", True, True),
        ("pg_advisory_xact_lock(bigint)", True, True),
        ("pg_logical_emit_message(boolean, text, text)", True, True),
        ("pg_control_system()", True, True),
    ],
    ids=lambda it: it.partition("(")[0] if isinstance(it, str) else None,
)
def test_without_a_function(
    postgresql: Server, app: str, function: str, opens: bool, starts: bool
) -> None:
    """A node, a client of it, and a start in the caller's transaction, as the page says."""
    with sessions(postgresql.url(app.rpartition("/")[2]), 1) as (owner,):
        owner.execute(f"REVOKE EXECUTE ON FUNCTION {function} FROM PUBLIC".encode())
        asyncio.run(run(app, starts) if opens else refused(app))
        assert opens or owner.execute("SELECT 1 FROM sagas.nodes").fetchall() == []


async def refused(url: str) -> None:
    """A node is refused."""
    with pytest.raises(sagas.StoreUnavailable, match="permission denied for function"):
        async with sagas.open(url, [trip]):
            pass


async def run(url: str, starts: bool) -> None:
    """A node executes sagas: its own, that of a client, and that of a caller's transaction."""
    async with sagas.open(url, [trip]) as store:
        assert (await (await store.start(trip, "k1")).wait(60)).ok
        async with client(url) as (opened, connection):
            assert (await (await opened.start(trip, "k2")).wait(60)).ok
            if not starts:
                with pytest.raises(sagas.StoreUnavailable, match="pg_notify"):
                    await opened.start(trip, "k3", connection=connection)
                return
            await opened.start(trip, "k3", connection=connection)
            await connection.commit()
            assert (await opened.wait("k3", 60)).ok


def test_commands_without_their_locks(postgresql: Server, app: str, url: str) -> None:
    """The role of each is not a superuser, who may call everything."""
    database = url.rpartition("/")[2]
    for name in (app.rpartition("/")[2], database):
        with sessions(postgresql.url(name), 1) as (owner,):
            owner.execute(f'GRANT CREATE ON DATABASE "{name}" TO app'.encode())
            for lock in ("pg_advisory_lock(bigint)", "pg_try_advisory_lock(bigint)"):
                owner.execute(f"REVOKE EXECUTE ON FUNCTION {lock} FROM PUBLIC".encode())
    made = command("store", postgresql.url(database, user="app"), "init")
    pruned = command("store", app, "prune", "--older-than", "0d")
    for done in (made, pruned):
        assert done.returncode != 0 and "permission denied for function" in done.stderr, done
