"""A start in the caller's own transaction.

The start is a savepoint there, which the server refuses if no transaction is open.
"""

from __future__ import annotations

import contextlib
from collections.abc import Generator, Iterator, Mapping, Sequence
from typing import Any, TypeVar

from sagas.base.errors import StoreUnavailable, TransactionConflict
from sagas.storage.postgresql import conflicts, connections
from sagas.storage.postgresql.connection_adapters import (
    POSTGRESQL,
    Adapter,
    AsyncAdapter,
    BlockingAdapter,
    Problem,
    Statement,
    adapter_of,
)
from sagas.storage.postgresql.server import SERVER

T = TypeVar("T")
Work = Generator[tuple[Statement, Mapping[str, Any]], Sequence[connections.Row], T]
"""Yields each statement with its parameters, and is sent its rows."""
HERE = Statement(f"SELECT {SERVER.system}, {SERVER.database}")
"""Identifies the server and the database.

A standby that takes over has the same values.
"""
LOCATION = Statement(
    "SELECT current_database(), coalesce(host(inet_server_addr()), 'a socket'), "
    "current_setting('port')"
)
SAVEPOINT = Statement("SAVEPOINT sagas_start", returns_rows=False)
ROLLBACK = Statement("ROLLBACK TO SAVEPOINT sagas_start", returns_rows=False)
RELEASE = Statement("RELEASE SAVEPOINT sagas_start", returns_rows=False)
TAKEN = {
    BlockingAdapter: (
        "a psycopg.Connection, a connection of psycopg2, SQLAlchemy's Connection or Session, or "
        "Django's connection"
    ),
    AsyncAdapter: (
        "a psycopg.AsyncConnection, a connection of asyncpg, or SQLAlchemy's AsyncConnection or "
        "AsyncSession"
    ),
}
PROBLEMS = {"25P01": Problem.NOT_OPEN, "25P02": Problem.FAILED}
"""The SQLSTATEs by which the server reports a problem."""
NO_RIGHT = "42501"
"""The SQLSTATE of a role without a right."""
A = TypeVar("A", BlockingAdapter, AsyncAdapter)


# -- which connections are taken


def take_blocking(connection: object, taker: str) -> BlockingAdapter:
    """Return the adapter of a connection for a thread.

    `taker` is the call that takes it. Raises `TypeError`, before anything is written.
    """
    other = "It needs an event loop: give it to sagas.Client, or to a store of sagas.open"
    return _take(connection, taker, BlockingAdapter, other)


def take_async(connection: object, taker: str) -> AsyncAdapter:
    """See `take_blocking`, for a connection of an event loop."""
    other = "It would block the event loop: give it to sagas.SyncClient, in a thread"
    return _take(connection, taker, AsyncAdapter, other)


def _take(connection: object, taker: str, kind: type[A], other: str) -> A:
    adapter = adapter_of(connection)
    if isinstance(adapter, kind):
        return adapter
    name = f"{type(connection).__module__}.{type(connection).__name__}"
    remedy = f". {other}" if adapter is not None else ""
    raise TypeError(f"nothing was written: {taker} takes {TAKEN[kind]}, not a {name}{remedy}")


# -- statements in the caller's transaction


def run(adapter: BlockingAdapter, work: Work[T]) -> T:
    """Execute the statements of `work` one after another; return its value."""
    try:
        request = next(work)
        while True:
            request = work.send(adapter.rows(*request))
    except StopIteration as end:
        value: T = end.value
        return value


async def run_async(adapter: AsyncAdapter, work: Work[T]) -> T:
    """See `run`, for a connection of an event loop."""
    try:
        request = next(work)
        while True:
            request = work.send(await adapter.rows(*request))
    except StopIteration as end:
        value: T = end.value
        return value


def run_in_savepoint(adapter: BlockingAdapter, work: Work[T], path: str) -> T:
    """Execute `work` within the caller's transaction, as a whole or not at all.

    If it raises, the transaction is as before, and can continue.

    Raises:
        StoreUnavailable: The connection is closed or failed, or the server refuses a statement.
        TransactionConflict: The server ended the transaction because of a concurrent one.
        ValueError: The connection has no transaction, or is to another database.
    """
    with translate_errors(adapter, path):
        check(adapter, adapter.find_problem(), path)
        adapter.rows(SAVEPOINT, {})
        try:
            value = run(adapter, work)
        except BaseException:
            with contextlib.suppress(Exception):
                adapter.rows(ROLLBACK, {})
                adapter.rows(RELEASE, {})
            raise
        adapter.rows(RELEASE, {})
        return value


async def run_in_savepoint_async(adapter: AsyncAdapter, work: Work[T], path: str) -> T:
    """See `run_in_savepoint`, for a connection of an event loop."""
    with translate_errors(adapter, path):
        check(adapter, await adapter.find_problem(), path)
        await adapter.rows(SAVEPOINT, {})
        try:
            value = await run_async(adapter, work)
        except BaseException:
            with contextlib.suppress(Exception):
                await adapter.rows(ROLLBACK, {})
                await adapter.rows(RELEASE, {})
            raise
        await adapter.rows(RELEASE, {})
        return value


# -- problems


def check(adapter: Adapter, problem: Problem | None, path: str) -> None:
    """Raise the error of a connection that cannot be used."""
    if adapter.database != POSTGRESQL:
        raise _other_database(path, adapter.database)
    if problem is not None:
        raise _error_of(adapter, problem, path)


def _error_of(adapter: Adapter, problem: Problem, path: str) -> Exception:
    if problem is Problem.CLOSED:
        return StoreUnavailable(
            f"{path}: the given connection is closed. Nothing was written. Give an open one"
        )
    if problem is Problem.FAILED:
        return StoreUnavailable(
            f"{path}: the given connection has an open transaction in which a statement failed. "
            "Nothing was written. Roll it back, and start the saga in the next one"
        )
    return ValueError(
        f"{path}: the given connection has no open transaction: it commits each statement. Nothing "
        f"was written. Open one: `{adapter.begins}`"
    )


def _other_database(path: str, other: str) -> ValueError:
    return ValueError(
        f"{path}: the given connection is to another database ({other}). Nothing was written. Give "
        "a connection to the store's database"
    )


def code_of(error: BaseException) -> str | None:
    """Return the SQLSTATE of an error, or None."""
    codes = (getattr(error, name, None) for name in ("sqlstate", "pgcode"))
    return next((code for code in codes if isinstance(code, str)), None)


def driver_error(error: Exception) -> BaseException:
    """Return the error of the driver, without what a library says of the parameters."""
    chain: list[BaseException] = [error]
    while (inner := getattr(chain[-1], "orig", None) or chain[-1].__cause__) is not None:
        chain.append(inner)
    return next((cause for cause in reversed(chain) if code_of(cause)), chain[-1])


@contextlib.contextmanager
def translate_errors(adapter: Adapter, path: str) -> Iterator[None]:
    """Raise errors of a connection as `StoreUnavailable` that names the given connection.

    Raises `ValueError` if the connection has no open transaction, and `TransactionConflict` if it
    met another one.
    """
    try:
        yield
    except adapter.errors as error:
        cause = driver_error(error)
        code = code_of(cause)
        if code in PROBLEMS:
            raise _error_of(adapter, PROBLEMS[code], path) from cause
        text = str(cause).strip()
        message = text.splitlines()[0] if text else type(cause).__name__
        if code in conflicts.CODES:
            raise TransactionConflict(
                f"{path}, by the given connection: {message}. Roll the transaction back, and "
                "repeat all of it"
            ) from cause
        if code == NO_RIGHT:
            message += f": {connections.RIGHTS.format(role='NAME')}"
        raise StoreUnavailable(f"{path}, by the given connection: {message}") from cause


def check_database(store: Sequence[connections.Row], path: str) -> Work[None]:
    """Check that the connection is to the store's database.

    Raises `ValueError` otherwise. `store` has the rows of `HERE` for the store.
    """
    if [tuple(row) for row in (yield HERE, {})] != [tuple(row) for row in store]:
        ((name, address, port),) = yield LOCATION, {}
        raise _other_database(path, f"database {name!r} at {address}:{port}")
