"""Libraries whose connections hold a transaction of PostgreSQL: one class for each kind of
connection, for `test_caller_connections.py`.

Debian 12 has these versions: psycopg 3.1, psycopg2 2.9, SQLAlchemy 1.4, Django 3.2, asyncpg 0.27.
"""

from __future__ import annotations

import asyncio
import contextlib
import importlib
from typing import Any

import psycopg


def library(name: str) -> Any:
    """Import a library that has no type hints."""
    return importlib.import_module(name)


class Library:
    """A connection of a library, which opens a transaction with its first statement.

    The names of its calls are psycopg's. Coroutines are for `Runner`.
    """

    is_async = False
    connects_again = False
    """Whether a closed connection connects again by itself."""
    connection: Any

    def connect(self, url: str, autocommit: bool = False) -> Any:
        """Connect. With `autocommit`, no transaction is ever open."""
        raise NotImplementedError

    def begin(self) -> Any:
        """Open a transaction, if the library does not by itself."""

    def execute(self, text: str) -> Any:
        """Execute a statement."""
        return self.connection.execute(text)

    def commit(self) -> Any:
        """Commit."""
        return self.connection.commit()

    def rollback(self) -> Any:
        """Roll back."""
        return self.connection.rollback()

    def close(self) -> Any:
        """Close the connection."""
        return self.connection.close()


class Psycopg(Library):
    """psycopg 3, for threads."""

    def connect(self, url: str, autocommit: bool = False) -> None:
        """Connect."""
        self.connection = psycopg.connect(url, autocommit=autocommit)


class AsyncPsycopg(Library):
    """psycopg 3, for event loops."""

    is_async = True

    async def connect(self, url: str, autocommit: bool = False) -> None:
        """Connect."""
        self.connection = await psycopg.AsyncConnection.connect(url, autocommit=autocommit)


class Psycopg2(Library):
    """psycopg2, with rows as dicts."""

    def connect(self, url: str, autocommit: bool = False) -> None:
        """Connect."""
        factory = library("psycopg2.extras").RealDictCursor
        self.connection = library("psycopg2").connect(url, cursor_factory=factory)
        self.connection.autocommit = autocommit

    def execute(self, text: str) -> None:
        """Execute a statement."""
        self.connection.cursor().execute(text)


class SqlalchemyConnection(Library):
    """A connection of SQLAlchemy, of the 2.0 style."""

    future = True

    def connect(self, url: str, autocommit: bool = False) -> None:
        """Connect."""
        options = {"isolation_level": "AUTOCOMMIT"} if autocommit else {}
        url = url.replace("postgresql:", "postgresql+psycopg2:")
        pool = library("sqlalchemy.pool").NullPool
        create = library("sqlalchemy").create_engine
        engine = create(url, poolclass=pool, future=self.future, **options)
        self.connection = self.of_engine(engine)

    def of_engine(self, engine: Any) -> Any:
        """Return the connection, or a session."""
        return engine.connect()

    def execute(self, text: str) -> None:
        """Execute a statement."""
        self.connection.execute(library("sqlalchemy").text(text))


class SqlalchemyLegacyConnection(SqlalchemyConnection):
    """A connection of SQLAlchemy 1.4's own style, which commits without `begin`."""

    future = False

    def begin(self) -> None:
        """Begin."""
        self.connection.begin()

    def commit(self) -> None:
        """Commit."""
        self.connection.get_transaction().commit()

    def rollback(self) -> None:
        """Roll back."""
        self.connection.get_transaction().rollback()


class SqlalchemySession(SqlalchemyConnection):
    """A session of SQLAlchemy."""

    connects_again = True

    def of_engine(self, engine: Any) -> Any:
        """Return a session."""
        return library("sqlalchemy.orm").Session(engine, future=True)


class SqlalchemyAsyncConnection(Library):
    """A connection of SQLAlchemy for event loops, over asyncpg."""

    is_async = True

    async def connect(self, url: str, autocommit: bool = False) -> None:
        """Connect."""
        options = {"isolation_level": "AUTOCOMMIT"} if autocommit else {}
        create = library("sqlalchemy.ext.asyncio").create_async_engine
        url = url.replace("postgresql:", "postgresql+asyncpg:")
        pool = library("sqlalchemy.pool").NullPool
        self.connection = await self.of_engine(create(url, poolclass=pool, **options))

    async def of_engine(self, engine: Any) -> Any:
        """Return the connection, or a session."""
        return await engine.connect()

    def execute(self, text: str) -> Any:
        """Execute a statement."""
        return self.connection.execute(library("sqlalchemy").text(text))


class SqlalchemyAsyncSession(SqlalchemyAsyncConnection):
    """A session of SQLAlchemy for event loops."""

    connects_again = True

    async def of_engine(self, engine: Any) -> Any:
        """Return a session."""
        return library("sqlalchemy.ext.asyncio").AsyncSession(engine)


class Django(Library):
    """Django's connection, within `atomic`."""

    connects_again = True

    def connect(self, url: str, autocommit: bool = False) -> None:
        """Make a connection, which connects at its first use."""
        info = psycopg.conninfo.conninfo_to_dict(url)
        options = {"USER": info["user"], "HOST": info["host"], "PORT": info["port"]}
        options |= {"ENGINE": "django.db.backends.postgresql", "NAME": info["dbname"]}
        settings, database = library("django.conf").settings, library("django.db")
        if not settings.configured:
            settings.configure()
        database.connections.databases["default"] = options
        database.connections["default"] = database.connections.create_connection("default")
        self.connection = database.connection
        self._atomic: Any = None

    def begin(self) -> None:
        """Enter `atomic`."""
        self._atomic = library("django.db.transaction").atomic()
        self._atomic.__enter__()

    def execute(self, text: str) -> None:
        """Execute a statement."""
        with self.connection.cursor() as cursor:
            cursor.execute(text)

    def commit(self) -> None:
        """Leave `atomic`."""
        self._atomic.__exit__(None, None, None)

    def rollback(self) -> None:
        """Leave `atomic` so that it rolls back."""
        library("django.db.transaction").set_rollback(True)
        self.commit()


class Asyncpg(Library):
    """asyncpg."""

    is_async = True

    async def connect(self, url: str, autocommit: bool = False) -> None:
        """Connect."""
        self.connection = await library("asyncpg").connect(url)

    async def begin(self) -> None:
        """Start a transaction."""
        self._transaction = self.connection.transaction()
        await self._transaction.start()

    def commit(self) -> Any:
        """Commit."""
        return self._transaction.commit()

    def rollback(self) -> Any:
        """Roll back."""
        return self._transaction.rollback()


class PooledAsyncpg(Asyncpg):
    """A connection of a pool of asyncpg."""

    async def connect(self, url: str, autocommit: bool = False) -> None:
        """Acquire it."""
        self._pool = await library("asyncpg").create_pool(url, min_size=1, max_size=1)
        self.connection = await self._pool.acquire()

    async def close(self) -> None:
        """Release it, and close the pool."""
        with contextlib.suppress(library("asyncpg").InterfaceError):  # it is released already
            await self._pool.release(self.connection)
        await self._pool.close()


LIBRARIES: tuple[type[Library], ...] = (
    Psycopg,
    AsyncPsycopg,
    Psycopg2,
    SqlalchemyConnection,
    SqlalchemyLegacyConnection,
    SqlalchemySession,
    SqlalchemyAsyncConnection,
    SqlalchemyAsyncSession,
    Django,
    Asyncpg,
    PooledAsyncpg,
)


class Runner:
    """Calls of a library or of a client, whether they are coroutines or not."""

    def __init__(self) -> None:
        self._runner = asyncio.Runner()

    def do(self, value: Any) -> Any:
        """Return a value, or the result of a coroutine."""
        if not hasattr(value, "__await__"):
            return value

        async def wait() -> Any:
            return await value

        return self._runner.run(wait())

    def close(self) -> None:
        """Close the event loop."""
        self._runner.close()
