"""Connection poolers, and connections to one that pools transactions.

A pooler of sessions is like the server. A pooler of transactions executes each one in any of its
sessions. So nothing may be left in a session: no setting, no prepared statement, no lock and no
LISTEN. The connections of this module set what a transaction needs within it, and prepare nothing.
"""

from __future__ import annotations

import asyncio
import contextlib
from collections.abc import AsyncIterator, Iterator
from typing import Any

import psycopg
from psycopg import errors, pq

from sagas.storage.postgresql.replication import PlainStoreConnection, Row, StoreConnection
from sagas.storage.postgresql.server import SERVER

TRANSACTIONS = (
    "this is a connection pooler that pools transactions, as PgBouncer does with "
    "pool_mode=transaction. Sessions of its own are needed here. Nothing was written or set. Name "
    "the server itself, or a pooler that pools sessions. A node and a client take it as direct_url"
)
STATEMENTS = (
    "this is a connection pooler that pools statements, as PgBouncer does with "
    "pool_mode=statement, so it has no transactions. Nothing was written or set. Set "
    "pool_mode=transaction, or name the server itself"
)
SESSION = f"SELECT {SERVER.session}"
PROBES = 3
"""How often a second session is compared. While others use the pooler, a probe may miss it."""
SESSION_PATIENCE = 2.0
"""Seconds for a second session: a pooler that has none left pools sessions."""
STATEMENT_POOLING = "statement pooling"
"""PgBouncer's error for BEGIN if each statement may have another session."""


class TransactionPooled(errors.OperationalError):
    """The transactions of one connection run in several sessions."""

    def __init__(self, message: str = TRANSACTIONS) -> None:
        super().__init__(message)


class StatementPooled(TransactionPooled):
    """The statements of one transaction run in several sessions."""

    def __init__(self) -> None:
        super().__init__(STATEMENTS)


async def check_sessions(connection: psycopg.AsyncConnection[Any], address: str) -> None:
    """Raise `TransactionPooled` if the connection is one of such a pooler.

    A pooler has its own session numbers, so most connections need no second one.

    Args:
        connection: A new connection that commits each statement.
        address: Its address, for another connection.
    """
    first = await _session(connection)
    if first == connection.info.backend_pid:
        return
    is_shared = False
    other = await psycopg.AsyncConnection.connect(address, autocommit=True)
    try:
        async with asyncio.timeout(SESSION_PATIENCE):
            for _ in range(PROBES):
                is_shared = is_shared or await _is_shared(connection, other, first)
    except TimeoutError:
        pass
    except errors.OperationalError as error:
        if STATEMENT_POOLING not in str(error):
            raise
        raise StatementPooled from error
    finally:
        await other.close()
    if is_shared:
        raise TransactionPooled


async def _session(connection: psycopg.AsyncConnection[Any]) -> int:
    rows = await (await connection.execute(SESSION, prepare=False)).fetchall()
    return int(rows[0][0])


async def _is_shared(
    connection: psycopg.AsyncConnection[Any], other: psycopg.AsyncConnection[Any], first: int
) -> bool:
    await other.execute("BEGIN")
    if await _session(other) == first or await _session(connection) != first:
        return True
    await other.execute("COMMIT")
    # of the free sessions the pooler takes the last one, or each in turn
    return {await _session(connection), await _session(connection)} != {first}


async def is_pooler(address: str) -> bool:
    """Return whether the connections of an address are those of a pooler of any kind."""
    connection = await psycopg.AsyncConnection.connect(address, autocommit=True)
    try:
        return await _session(connection) != connection.info.backend_pid
    finally:
        await connection.close()


def check_sessions_now(connection: psycopg.Connection[Any], address: str) -> None:
    """See `check_sessions`, for a connection of a thread."""
    first = _session_now(connection)
    if first == connection.info.backend_pid:
        return
    other = psycopg.connect(address, autocommit=True)
    is_shared = False
    try:
        for _ in range(PROBES):
            is_shared = is_shared or _is_shared_now(connection, other, first)
    except errors.OperationalError as error:
        if STATEMENT_POOLING not in str(error):
            raise
        raise StatementPooled from error
    finally:
        other.close()
    if is_shared:
        raise TransactionPooled


def _session_now(connection: psycopg.Connection[Any]) -> int:
    return int(connection.execute(SESSION, prepare=False).fetchall()[0][0])


def _is_shared_now(
    connection: psycopg.Connection[Any], other: psycopg.Connection[Any], first: int
) -> bool:
    other.execute("BEGIN")
    if _session_now(other) == first or _session_now(connection) != first:
        return True
    other.execute("COMMIT")
    return {_session_now(connection), _session_now(connection)} != {first}


# -- connections to a pooler of transactions

PATIENCE = 20  # seconds
LOCAL = (
    "SET LOCAL search_path = sagas; SET LOCAL jit = off; SET LOCAL enable_seqscan = off; "
    "SET LOCAL enable_hashjoin = off; SET LOCAL enable_mergejoin = off; SET LOCAL "
    f"statement_timeout = '{PATIENCE}s'; SET LOCAL idle_in_transaction_session_timeout = "
    f"'{PATIENCE}s'; SELECT set_config('synchronous_commit', 'on', true) WHERE "
    "current_setting('synchronous_commit') IN ('off', 'local')"
)
"""The settings of a connection, as `SETTINGS` of `connections`, for one transaction."""
BEGIN = f"BEGIN ISOLATION LEVEL READ COMMITTED; {LOCAL}"


class PooledConnection(StoreConnection):
    """A connection to a pooler of transactions. Each statement is a transaction by itself."""

    async def execute(self, query: Any, params: Any = None, **_: Any) -> psycopg.AsyncCursor[Row]:
        """Execute a statement within a transaction, or as one of its own."""
        if self.info.transaction_status != pq.TransactionStatus.IDLE:
            return await super().execute(query, params, prepare=False)
        await super().execute(BEGIN, prepare=False)
        try:
            cursor = await super().execute(query, params, prepare=False)
            await super().execute("COMMIT", prepare=False)
        except BaseException:
            with contextlib.suppress(psycopg.Error):
                await self.rollback()
            raise
        return cursor

    @contextlib.asynccontextmanager
    async def transaction(self, *_: Any, **__: Any) -> AsyncIterator[psycopg.AsyncTransaction]:
        """Return a transaction with the settings of the store."""
        async with super().transaction() as transaction:
            await super().execute(LOCAL, prepare=False)
            yield transaction


class PooledPlainConnection(PlainStoreConnection):
    """See `PooledConnection`, for threads."""

    def execute(self, query: Any, params: Any = None, **_: Any) -> psycopg.Cursor[Row]:
        """Execute a statement within a transaction, or as one of its own."""
        if self.info.transaction_status != pq.TransactionStatus.IDLE:
            return super().execute(query, params, prepare=False)
        super().execute(BEGIN, prepare=False)
        try:
            cursor = super().execute(query, params, prepare=False)
            super().execute("COMMIT", prepare=False)
        except BaseException:
            with contextlib.suppress(psycopg.Error):
                self.rollback()
            raise
        return cursor

    @contextlib.contextmanager
    def transaction(self, *_: Any, **__: Any) -> Iterator[psycopg.Transaction]:
        """Return a transaction with the settings of the store."""
        with super().transaction() as transaction:
            super().execute(LOCAL, prepare=False)
            yield transaction
