"""Adapters for the connections of callers: an adapter executes a statement.

`adapter_of` finds the adapter by the names of the connection's class and of its package. So no
driver is imported that the program does not use.

A `Statement` has psycopg's placeholders, and casts each parameter from a text, a number or a
Boolean. So no driver needs to know the types of columns, and no codec of the caller is used.
"""

from __future__ import annotations

import enum
import functools
import importlib
import re
from collections.abc import Mapping, Sequence
from typing import Any, ClassVar, NamedTuple

import psycopg
from psycopg.rows import tuple_row

from sagas.storage.postgresql.connections import Row

Parameters = Mapping[str, Any]
Errors = tuple[type[Exception], ...]
PLACEHOLDER = re.compile(r"%\((\w+)\)s")
POSTGRESQL = "postgresql"
"""The name of the database in SQLAlchemy and in Django."""


class Statement(NamedTuple):
    """A statement, with `%(name)s` for a parameter."""

    text: str
    returns_rows: bool = True


class Problem(enum.Enum):
    """Why a connection cannot be used."""

    CLOSED = "closed"
    FAILED = "failed"
    """A statement of its transaction failed."""
    NOT_OPEN = "not open"
    """It has no transaction, and would commit each statement."""


class Adapter:
    """A caller's connection.

    Attributes:
        begins: How its caller opens a transaction.
        connection: The connection.
        errors: The errors of its library.
        server_connection: An object that is one connection to a server as long as it exists, and
            can be referred to weakly. None if there is none.
        database: The kind of its database.
    """

    begins: ClassVar[str]
    database = POSTGRESQL
    errors: Errors = ()

    def __init__(self, connection: Any) -> None:
        self.connection = connection
        self.server_connection: object | None = connection


class BlockingAdapter(Adapter):
    """A connection that blocks its thread."""

    def find_problem(self) -> Problem | None:
        """Return why the connection cannot be used, as far as its library knows."""
        raise NotImplementedError

    def rows(self, statement: Statement, parameters: Parameters) -> Sequence[Row]:
        """Execute a statement in the open transaction; return its rows."""
        raise NotImplementedError


class AsyncAdapter(Adapter):
    """A connection of an event loop."""

    async def find_problem(self) -> Problem | None:
        """See `BlockingAdapter.find_problem`."""
        raise NotImplementedError

    async def rows(self, statement: Statement, parameters: Parameters) -> Sequence[Row]:
        """See `BlockingAdapter.rows`."""
        raise NotImplementedError


def _errors(*names: str) -> Errors:
    """Return exceptions by their full names, of a library that is imported already."""
    parts = (name.rpartition(".") for name in names)
    return tuple(getattr(importlib.import_module(module), name) for module, _, name in parts)


def _values(parameters: Parameters, text: str) -> dict[str, Any]:
    """Return the parameters that a statement has."""
    return {name: parameters[name] for name in PLACEHOLDER.findall(text)}


# -- psycopg 3 and psycopg2


class Psycopg(BlockingAdapter):
    """A `psycopg.Connection`, with any row factory and any cursors."""

    begins = "with connection.transaction():"
    errors = (psycopg.Error, OSError)

    def find_problem(self) -> Problem | None:
        """Return whether it is closed. The server knows the rest."""
        return Problem.CLOSED if self.connection.closed else None

    def rows(self, statement: Statement, parameters: Parameters) -> Sequence[Row]:
        """Execute a statement with a cursor of psycopg's own class."""
        cursor = psycopg.Cursor(self.connection, row_factory=tuple_row)
        cursor.execute(statement.text, parameters)
        return cursor.fetchall() if statement.returns_rows else ()


class AsyncPsycopg(AsyncAdapter):
    """A `psycopg.AsyncConnection`, with any row factory and any cursors."""

    begins = "async with connection.transaction():"
    errors = (psycopg.Error, OSError)

    async def find_problem(self) -> Problem | None:
        """Return whether it is closed. The server knows the rest."""
        return Problem.CLOSED if self.connection.closed else None

    async def rows(self, statement: Statement, parameters: Parameters) -> Sequence[Row]:
        """Execute a statement with a cursor of psycopg's own class."""
        cursor = psycopg.AsyncCursor(self.connection, row_factory=tuple_row)
        await cursor.execute(statement.text, parameters)
        return await cursor.fetchall() if statement.returns_rows else ()


class Psycopg2(BlockingAdapter):
    """A connection of psycopg2, with any cursor factory."""

    begins = "connection.autocommit = False"

    def __init__(self, connection: Any) -> None:
        super().__init__(connection)
        self.errors = _errors("psycopg2.Error")
        self._cursor = importlib.import_module("psycopg2.extensions").cursor

    def find_problem(self) -> Problem | None:
        """Return whether it is closed, or of psycopg2's async kind, which always commits."""
        if self.connection.closed:
            return Problem.CLOSED
        return Problem.NOT_OPEN if self.connection.async_ else None

    def rows(self, statement: Statement, parameters: Parameters) -> Sequence[Row]:
        """Execute a statement with a cursor of psycopg2's own class."""
        with self.connection.cursor(cursor_factory=self._cursor) as cursor:
            cursor.execute(statement.text, parameters)
            return list(cursor.fetchall()) if statement.returns_rows else ()


# -- Django


class Django(BlockingAdapter):
    """Django's `connection`, or one of `connections`, over psycopg2 or psycopg 3."""

    begins = "with transaction.atomic():"

    def __init__(self, connection: Any) -> None:
        super().__init__(connection)
        self.database = connection.vendor
        self.server_connection = None  # it connects again by itself
        self.errors = _errors("django.db.Error")

    def find_problem(self) -> Problem | None:
        """Return whether the block of `atomic` can only roll back."""
        is_failed = self.connection.in_atomic_block and self.connection.needs_rollback
        return Problem.FAILED if is_failed else None

    def rows(self, statement: Statement, parameters: Parameters) -> Sequence[Row]:
        """Execute a statement with a cursor of Django."""
        with self.connection.cursor() as cursor:
            cursor.execute(statement.text, parameters)
            return [tuple(row) for row in cursor.fetchall()] if statement.returns_rows else ()


# -- SQLAlchemy


@functools.cache
def _sqlalchemy_text(text: str) -> Any:
    return importlib.import_module("sqlalchemy").text(PLACEHOLDER.sub(r":\1", text))


def _sqlalchemy_problem(connection: Any) -> Problem | None:
    """Return the problem of a `Connection`.

    One of the 2.0 style begins a transaction by itself, and has `commit`. Others commit each
    statement until they begin one.
    """
    if connection.closed:
        return Problem.CLOSED
    begins = hasattr(connection, "commit")
    return None if begins or connection.in_transaction() else Problem.NOT_OPEN


class SqlalchemyConnection(BlockingAdapter):
    """A `Connection` of SQLAlchemy, over any driver."""

    begins = "with connection.begin():"

    def __init__(self, connection: Any) -> None:
        super().__init__(connection)
        self.server_connection = None
        self.errors = _errors("sqlalchemy.exc.SQLAlchemyError")

    def find_problem(self) -> Problem | None:
        """Return whether it is closed, or has no transaction and begins none."""
        self.database = self.connection.dialect.name
        return _sqlalchemy_problem(self.connection)

    def rows(self, statement: Statement, parameters: Parameters) -> Sequence[Row]:
        """Execute a statement as a text with named parameters."""
        text, values = _sqlalchemy_text(statement.text), _values(parameters, statement.text)
        result = self.connection.execute(text, values)
        return [tuple(row) for row in result.fetchall()] if statement.returns_rows else ()


class SqlalchemySession(SqlalchemyConnection):
    """A `Session` or a `scoped_session` of SQLAlchemy: the connection of its transaction."""

    begins = "with session.begin():"

    def find_problem(self) -> Problem | None:
        """Return the problem of the connection in its transaction, which may begin here."""
        self.connection = self.connection.connection()
        return super().find_problem()


class SqlalchemyAsyncConnection(AsyncAdapter):
    """An `AsyncConnection` of SQLAlchemy, over any driver."""

    begins = "async with connection.begin():"

    def __init__(self, connection: Any) -> None:
        super().__init__(connection)
        self.server_connection = None
        self.errors = (*_errors("sqlalchemy.exc.SQLAlchemyError"), OSError)

    async def find_problem(self) -> Problem | None:
        """Return whether it is closed. The server knows the rest."""
        self.database = self.connection.dialect.name
        return Problem.CLOSED if self.connection.closed else None

    async def rows(self, statement: Statement, parameters: Parameters) -> Sequence[Row]:
        """Execute a statement as a text with named parameters."""
        text, values = _sqlalchemy_text(statement.text), _values(parameters, statement.text)
        result = await self.connection.execute(text, values)
        return [tuple(row) for row in result.fetchall()] if statement.returns_rows else ()


class SqlalchemyAsyncSession(SqlalchemyAsyncConnection):
    """An `AsyncSession` of SQLAlchemy: the connection of its transaction."""

    begins = "async with session.begin():"

    async def find_problem(self) -> Problem | None:
        """Return the problem of the connection in its transaction, which may begin here."""
        self.connection = await self.connection.connection()
        return await super().find_problem()


# -- asyncpg


@functools.cache
def _numbered(text: str) -> tuple[str, tuple[str, ...]]:
    """Return a statement with `$1` for the first parameter, and the names of the parameters."""
    names = tuple(dict.fromkeys(PLACEHOLDER.findall(text)))
    return PLACEHOLDER.sub(lambda match: f"${names.index(match[1]) + 1}", text), names


class Asyncpg(AsyncAdapter):
    """A `Connection` of asyncpg."""

    begins = "async with connection.transaction():"

    def __init__(self, connection: Any) -> None:
        super().__init__(connection)
        names = ("asyncpg.PostgresError", "asyncpg.InterfaceError", "asyncpg.InternalClientError")
        self.errors = (*_errors(*names), OSError)

    async def find_problem(self) -> Problem | None:
        """Return whether it is closed, or has no transaction."""
        if self.connection.is_closed():
            return Problem.CLOSED
        return None if self.connection.is_in_transaction() else Problem.NOT_OPEN

    async def rows(self, statement: Statement, parameters: Parameters) -> Sequence[Row]:
        """Execute a statement with numbered parameters."""
        text, names = _numbered(statement.text)
        records = await self.connection.fetch(text, *(parameters[name] for name in names))
        return [tuple(record) for record in records]


class PooledAsyncpg(Asyncpg):
    """A connection that a pool of asyncpg lends."""

    def __init__(self, connection: Any) -> None:
        super().__init__(connection)
        self.server_connection = None  # it cannot be referred to weakly


# -- the table

BLOCKING: dict[tuple[str, str], type[BlockingAdapter]] = {
    ("psycopg", "Connection"): Psycopg,
    ("psycopg2", "connection"): Psycopg2,
    ("sqlalchemy", "Connection"): SqlalchemyConnection,
    ("sqlalchemy", "Session"): SqlalchemySession,
    ("sqlalchemy", "scoped_session"): SqlalchemySession,
    ("django", "BaseDatabaseWrapper"): Django,
    ("django", "ConnectionProxy"): Django,
}
ASYNC: dict[tuple[str, str], type[AsyncAdapter]] = {
    ("psycopg", "AsyncConnection"): AsyncPsycopg,
    ("asyncpg", "Connection"): Asyncpg,
    ("asyncpg", "PoolConnectionProxy"): PooledAsyncpg,
    ("sqlalchemy", "AsyncConnection"): SqlalchemyAsyncConnection,
    ("sqlalchemy", "AsyncSession"): SqlalchemyAsyncSession,
    ("sqlalchemy", "async_scoped_session"): SqlalchemyAsyncSession,
}
"""Adapters by the package and the name of a connection's class, or of a class that it extends."""


def adapter_of(connection: object) -> BlockingAdapter | AsyncAdapter | None:
    """Return the adapter of a connection, or None if no library that is known made it."""
    for kind in type(connection).__mro__:
        names = kind.__module__.partition(".")[0], kind.__name__
        adapter = BLOCKING.get(names) or ASYNC.get(names)
        if adapter is not None:
            return adapter(connection)
    return None
