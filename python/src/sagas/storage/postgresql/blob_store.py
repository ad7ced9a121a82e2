"""A blob store in a table of PostgreSQL."""

from __future__ import annotations

import contextlib
import re
import threading
from collections.abc import Iterator
from typing import TYPE_CHECKING, Any

from sagas.base.errors import InvalidStore
from sagas.storage.postgresql.application_name import Purpose
from sagas.storage.postgresql.conflicts import is_conflict, repeated_now

if TYPE_CHECKING:
    import psycopg

TABLE = re.compile(r"[a-z_][a-z0-9_]{0,62}")
PATIENCE = 300
LIMITED = f"SET statement_timeout = '{PATIENCE}s'"
"""The timeout of a statement: a value may have 1 GB."""


class PostgresBlobStore:
    """Keep large values in a table of a PostgreSQL database.

    The database may be the store's own. The table has a column of type `bytea`: large objects would
    need rights on each object, and would remain if a row is deleted by hand. A value has at most 1
    GB.
    """

    def __init__(self, url: str, *, table: str = "sagas_blobs") -> None:
        """Use a database. If the table does not exist, it is created with the first value.

        Args:
            url: The database: `postgresql://user@host/database`. With several hosts, the one
                that accepts writes is used.
            table: The table's name (default: `sagas_blobs`).

        Raises:
            ValueError: The name is not one of small letters, digits and `_`.
        """
        if not TABLE.fullmatch(table):
            raise ValueError(f"table={table[:80]!r}: must be a name of small letters, digits and _")
        self._url, self._table = url, table
        self._idle: list[psycopg.Connection[Any]] = []
        self._lock, self._is_made = threading.Lock(), False

    @contextlib.contextmanager
    def _connection(self) -> Iterator[psycopg.Connection[Any]]:
        """Return a connection. It is kept for the next call, unless the block fails."""
        with self._lock:
            connection = self._idle.pop() if self._idle else None
        if connection is None or connection.closed:
            connection = self._connect()
        try:
            yield connection
        except BaseException:
            connection.close()
            raise
        with self._lock:
            self._idle.append(connection)

    def _connect(self) -> psycopg.Connection[Any]:
        import psycopg

        from sagas.storage.postgresql import connections

        connection = connections.connect_now(
            self._url, Purpose.BLOBS, f"{connections.DURABLE}; {LIMITED}", PATIENCE
        )
        with self._lock:
            if self._is_made:
                return connection
            exists = connection.execute(
                "SELECT to_regclass(%s) IS NOT NULL", (self._table,)
            ).fetchone()
            if exists != (True,):
                try:
                    connection.execute(
                        f"CREATE TABLE IF NOT EXISTS {self._table}(key text PRIMARY KEY, "
                        "data bytea NOT NULL, at timestamptz NOT NULL DEFAULT now())"
                    )
                except psycopg.errors.InsufficientPrivilege as error:
                    raise InvalidStore(
                        f"the table {self._table} does not exist, and this role may not create it. "
                        "Create it as the owner of the database"
                    ) from error
            self._is_made = True
        return connection

    def _do(self, text: str, *parameters: Any) -> list[tuple[Any, ...]]:
        """Execute a statement.

        If the server has closed the connection, or no longer accepts writes, the statement is
        executed again over a new connection. After a conflict it is repeated as well.
        """
        return repeated_now(lambda: self._do_once(text, parameters))

    def _do_once(self, text: str, parameters: tuple[Any, ...]) -> list[tuple[Any, ...]]:
        import psycopg

        for is_last in (False, True):
            try:
                with self._connection() as connection:
                    cursor = connection.execute(text.format(self._table), parameters)
                    return cursor.fetchall() if cursor.description else []
            except (psycopg.OperationalError, psycopg.errors.ReadOnlySqlTransaction) as error:
                if is_last or is_conflict(error):
                    raise
                self.close()
        raise AssertionError

    def put(self, key: str, data: bytes, /) -> None:
        """Store a value. See `BlobStore.put`."""
        text = "INSERT INTO {}(key, data) VALUES(%s, %s) ON CONFLICT (key) DO UPDATE SET data = "
        self._do(text + "excluded.data", key, data)  # the second write waits for a standby, too

    def get(self, key: str, /) -> bytes:
        """Return a value. See `BlobStore.get`."""
        rows = self._do("SELECT data FROM {} WHERE key = %s", key)
        if not rows:
            raise KeyError(key)
        return bytes(rows[0][0])

    def delete(self, key: str, /) -> None:
        """Delete a value. See `BlobStore.delete`."""
        self._do("DELETE FROM {} WHERE key = %s", key)

    def keys(self, prefix: str, before: float, /) -> Iterator[str]:
        """Return the keys of older values. See `BlobStore.keys`."""
        text = "SELECT key FROM {} WHERE starts_with(key, %s) AND at < to_timestamp(%s)"
        return iter([key for (key,) in self._do(text, prefix, before)])

    def close(self) -> None:
        """Close the idle connections."""
        with self._lock:
            idle, self._idle = self._idle, []
        for connection in idle:
            connection.close()
