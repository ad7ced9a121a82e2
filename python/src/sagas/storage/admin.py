"""Short-lived connections to a store's file or database, for operator commands.

Other programs may have the store open at the same time.
"""

from __future__ import annotations

import contextlib
import functools
import json
import os
import pathlib
import sqlite3
import time
from collections.abc import Callable, Iterator
from typing import Any, Protocol, TypeVar

from sagas.base.errors import SagasError, StoreUnavailable
from sagas.definition.serialization import cleaned
from sagas.storage import queries, store_name
from sagas.storage.filters import Filter
from sagas.storage.operator_requests import ANSWER, ASK, ASK_START, WITHDRAW
from sagas.storage.postgresql import conflicts
from sagas.storage.postgresql.application_name import Purpose
from sagas.storage.postgresql.server import SERVER
from sagas.storage.sqlite import store_file
from sagas.storage.sqlite.schema import DELETED_SAGAS, VERSION

T = TypeVar("T")
Row = tuple[Any, ...]
CANNOT = 4
LEAVE = """
INSERT INTO operator_commands(key, command, value, at)
SELECT key, ?, ?, ? FROM sagas WHERE id = ? RETURNING id
"""
PRUNE_LOCK = 5_777_002
"""The advisory lock of the program that deletes ended sagas."""
STARTS = """
SELECT key, saga, version, at FROM pending_starts i
WHERE NOT EXISTS (SELECT 1 FROM nodes n WHERE n.node = i.node AND n.lease > now()) ORDER BY id
"""
NODE_DEFINITIONS = "SELECT DISTINCT unnest(kinds) FROM nodes WHERE lease > now()"
UNUSED = """
DELETE FROM definitions
WHERE NOT EXISTS (SELECT 1 FROM shard_definitions d WHERE d.definition = definitions.definition)
"""
REFUSED = "DELETE FROM pending_starts WHERE refused IS NOT NULL AND at < ?"
STARTS_OF = "SELECT key FROM pending_starts WHERE node IS NULL AND labels @> CAST(? AS jsonb)"


class Trouble(Exception):
    """An error that ends the command with one line on standard error."""

    def __init__(self, text: str, status: int = 1) -> None:
        super().__init__(text)
        self.status = status


class Source(Protocol):
    """A connection. SQLite and PostgreSQL both understand its queries.

    A query has a `?` for each parameter.
    """

    name: str
    """The store's name for messages: the file, or the URL without its password."""

    def begin(self) -> None:
        """Begin a snapshot: all queries from now on see the same moment."""

    def end(self) -> None:
        """End the snapshot, if one was started."""

    def transaction(self) -> contextlib.AbstractContextManager[object]:
        """Write all that is written within the block, or nothing."""

    def atomically(self, work: Callable[[], T]) -> T:
        """Return the value of `work`, whose writes are all made, or none of them.

        After a conflict with another transaction, `work` is called again.
        """

    def migrate(self) -> None:
        """Create the tables that a store of an older release does not have.

        Raises `InvalidStore` if this user may not create them.
        """

    def has_table(self, name: str) -> bool:
        """Return whether the store has a table: a store of an older release may not."""

    def now(self) -> float:
        """Return the time by the store's own clock, in seconds."""

    def take_prune_lock(self) -> bool:
        """Take the lock of the only program that deletes sagas. Return False if it is taken."""

    def ask(self, text: str, *parameters: Any) -> list[Row]:
        """Return the rows of a query, or of a statement that returns some."""

    def changed(self, text: str, *parameters: Any) -> int:
        """Execute a statement, and return the number of rows that it changed."""

    def notify(self, message: str) -> None:
        """Wake the programs that have the store open, if the database can do that."""

    def is_driven(self) -> bool:
        """Whether a program has the store open."""

    def missing_saga_error(self, key: str) -> Trouble:
        """Return the error for a key that no saga has."""

    def node_definitions(self) -> set[str]:
        """Return the names of the definitions that the running nodes have stored."""

    def starts(self) -> list[Row]:
        """Return the untaken starts of clients: key, saga, version and time of each."""

    def waiting_starts(self, filter: Filter) -> list[str]:
        """Return the keys of the untaken starts of clients that a filter selects."""

    def withdraw(self, key: str) -> bool:
        """Withdraw a client's start.

        Return False if there is none, or if a node has taken it.
        """

    def start_of(self, key: str) -> int | None:
        """Return the id of the client's start that has the key and no shard yet."""

    def add_request(self, saga: int, command: str, value: str) -> int | None:
        """Add a request for a saga, or for a client's start (the negative of its id).

        Return the request's id; None if the saga or start is gone.
        """

    def answer(self, number: int, saga: int) -> tuple[bool, str | None]:
        """Return whether a request still exists, and its answer."""

    def drop_definitions(self) -> None:
        """Delete the definitions that no shard has any more."""

    def drop_refused(self, before: float) -> int:
        """Delete the starts that were refused before this time, and return their number."""

    def overwrite_deleted(self) -> None:
        """Overwrite what this connection deletes or replaces from now on, if the store can."""

    def drop_journal(self) -> None:
        """Drop the journal that still has what was replaced, if the store can."""

    def close(self) -> None:
        """Close the connection."""


class FileSource:
    """A connection to a SQLite file; `mode` is `ro` or `rw`."""

    def __init__(self, name: str, mode: str) -> None:
        self.name, self.path = name, pathlib.Path(name)
        self._prune_lock: int | None = None
        try:
            if not self.path.is_file():
                problem = (
                    "this is a folder. Name a file"
                    if self.path.is_dir()
                    else "the file does not exist. sagas.open creates a store"
                )
                raise Trouble(f"{name}: {problem}", CANNOT)
            self.connection = sqlite3.connect(
                f"{self.path.resolve().as_uri()}?mode={mode}",
                uri=True,
                timeout=5.0,
                isolation_level=None,
            )
        except OSError as error:
            raise Trouble(
                f"{name}: {error.strerror}. This user must be able to read its folder and to "
                "write there",
                CANNOT,
            ) from error
        except sqlite3.Error as error:
            raise Trouble(f"{name}: {store_file.describe_error(error)}", CANNOT) from error
        try:
            version = self._version(mode)
        except sqlite3.Error as error:
            self.connection.close()
            message = store_file.describe_error(error)  # a reader also writes to `-shm`
            raise Trouble(
                f"{name}: {message}"
                if message != str(error)
                else f"{name} is not a store: {error}",
                CANNOT,
            ) from error
        if version > VERSION:
            self.connection.close()
            raise Trouble(
                f"{name} has tables of version {version}, and this command knows {VERSION}. "
                "Use a later release",
                CANNOT,
            )

    def _version(self, mode: str) -> int:
        (version,) = self.connection.execute("PRAGMA user_version").fetchone()
        self.connection.execute("SELECT 1 FROM sagas LIMIT 1").fetchone()
        if mode == "rw":
            self.connection.execute("PRAGMA synchronous=FULL")
        return int(version)

    def _run(self, text: str, parameters: tuple[Any, ...] = ()) -> sqlite3.Cursor:
        """Execute a statement. Raises `StoreUnavailable` if the file cannot be used."""
        try:
            return self.connection.execute(text, cleaned(parameters))
        except sqlite3.Error as error:
            raise StoreUnavailable(f"{self.name}: {store_file.describe_error(error)}") from error

    def begin(self) -> None:
        self._run("BEGIN")

    def end(self) -> None:
        if self.connection.in_transaction:
            self._run("ROLLBACK")

    @contextlib.contextmanager
    def transaction(self) -> Iterator[None]:
        self._run("BEGIN IMMEDIATE")
        try:
            yield
            self._run("COMMIT")
        except BaseException:
            if self.connection.in_transaction:
                self.connection.execute("ROLLBACK")
            raise

    def atomically(self, work: Callable[[], T]) -> T:
        with self.transaction():
            return work()

    def migrate(self) -> None:
        self._run(DELETED_SAGAS)

    def has_table(self, name: str) -> bool:
        return bool(self.ask("SELECT 1 FROM sqlite_master WHERE type = 'table' AND name = ?", name))

    def now(self) -> float:
        return time.time()

    def take_prune_lock(self) -> bool:
        if self._prune_lock is None:
            path = f"{os.path.realpath(self.path)}.prune.lock"
            self._prune_lock = store_file.take_lock(
                path, os.O_RDONLY
            )  # another user may have made it
        return self._prune_lock is not None

    def ask(self, text: str, *parameters: Any) -> list[Row]:
        cursor = self._run(text, parameters)
        try:
            return cursor.fetchall()
        except sqlite3.Error as error:
            raise StoreUnavailable(f"{self.name}: {store_file.describe_error(error)}") from error

    def changed(self, text: str, *parameters: Any) -> int:
        return self._run(text, parameters).rowcount

    def notify(self, message: str) -> None:
        """Do nothing: the program looks for changes of the file by itself."""

    def is_driven(self) -> bool:
        return store_file.is_held(self.path)

    def missing_saga_error(self, key: str) -> Trouble:
        return Trouble(f"no saga has the key {key}")

    def node_definitions(self) -> set[str]:
        return set()

    def starts(self) -> list[Row]:
        return []

    def waiting_starts(self, filter: Filter) -> list[str]:
        return []

    def withdraw(self, key: str) -> bool:
        return False

    def start_of(self, key: str) -> int | None:
        return None

    def add_request(self, saga: int, command: str, value: str) -> int | None:
        rows = self.ask(LEAVE, command, value, time.time(), saga)
        return int(rows[0][0]) if rows else None

    def answer(self, number: int, saga: int) -> tuple[bool, str | None]:
        rows = self.ask("SELECT answer FROM operator_commands WHERE id = ?", number)
        return bool(rows), rows[0][0] if rows else None

    def drop_definitions(self) -> None:
        self.changed(UNUSED)

    def drop_refused(self, before: float) -> int:
        return 0  # a file has no clients

    def overwrite_deleted(self) -> None:
        self.ask("PRAGMA secure_delete = ON")

    def drop_journal(self) -> None:
        """Move the WAL into the file and truncate it.

        A reader may delay that. Then the next checkpoint moves the rows, and later commits
        overwrite the WAL.
        """
        self.ask("PRAGMA wal_checkpoint(TRUNCATE)")

    def close(self) -> None:
        self.connection.close()
        if self._prune_lock is not None:
            store_file.close_lock(self._prune_lock)
            self._prune_lock = None


class DatabaseSource:
    """A connection to a PostgreSQL database."""

    def __init__(self, url: str, mode: str) -> None:
        try:
            from sagas.storage.postgresql import connections, schema
        except ImportError as error:
            raise Trouble(str(store_name.missing_client(error)), CANNOT) from error

        self.name = connections.named(url)
        self._translating_errors = functools.partial(connections.translate_errors, self.name)
        with self._translating_errors():
            self.connection = connections.connect_now(url, Purpose.ADMIN)
            version = schema.version_of(self.connection)
        if not 0 < version <= schema.VERSION:
            self.connection.close()
            known = schema.VERSION
            problem = (
                f"has tables of version {version}, and this command knows {known}. Use a "
                "later release"
                if version
                else "has no tables yet. Start a node, or run `sagas store URL init`"
            )
            raise Trouble(f"{self.name} {problem}", CANNOT)

    def begin(self) -> None:
        with self._translating_errors():
            self.connection.execute("BEGIN ISOLATION LEVEL REPEATABLE READ READ ONLY")

    def end(self) -> None:
        with self._translating_errors():
            self.connection.rollback()

    @contextlib.contextmanager
    def transaction(self) -> Iterator[None]:
        with self._translating_errors(), self.connection.transaction():
            yield

    def atomically(self, work: Callable[[], T]) -> T:
        def whole() -> T:
            with self.transaction():
                return work()

        return conflicts.repeated_now(whole)

    def _alone(self, work: Callable[[], T]) -> T:
        """Execute a statement. If it is a transaction of its own, it is repeated after conflicts.

        In a transaction, its caller repeats all of it.
        """
        is_alone = self.connection.info.transaction_status.name == "IDLE"
        return conflicts.repeated_now(work) if is_alone else work()

    def migrate(self) -> None:
        from sagas.storage.postgresql import schema

        with self._translating_errors():
            schema.migrate(self.connection, self.name)

    def has_table(self, name: str) -> bool:
        return bool(self.ask("SELECT to_regclass('sagas.' || ?) IS NOT NULL", name)[0][0])

    def now(self) -> float:
        return float(self.ask("SELECT extract(epoch FROM now())")[0][0])

    def take_prune_lock(self) -> bool:
        return bool(self.ask(f"SELECT {SERVER.try_lock('?')}", PRUNE_LOCK)[0][0])

    def ask(self, text: str, *parameters: Any) -> list[Row]:
        form, values = queries.for_postgresql(text), cleaned(parameters)
        return self._alone(lambda: [*self._executed(form, values).fetchall()])

    def changed(self, text: str, *parameters: Any) -> int:
        form, values = text.replace("?", "%s"), cleaned(parameters)
        return self._alone(lambda: int(self._executed(form, values).rowcount))

    def notify(self, message: str) -> None:
        from sagas.storage.postgresql import notifications

        def send() -> None:
            self._executed(notifications.NOTIFY, {"messages": [message]})

        self._alone(send)

    def _executed(self, text: str, parameters: Any) -> Any:
        """Return the cursor of a statement."""
        with self._translating_errors():
            return self.connection.execute(text, parameters)

    def is_driven(self) -> bool:
        return bool(self.ask("SELECT 1 FROM nodes WHERE lease > now() LIMIT 1"))

    def missing_saga_error(self, key: str) -> Trouble:
        for saga, version, node in self.ask(
            "SELECT saga, version, node FROM pending_starts WHERE key = ?", key
        ):
            if node is not None:
                return Trouble(
                    f"{key} has not started: node {node} has accepted it, and starts it, or "
                    "another node does when that one is gone"
                )
            message = (
                f"{key} has not started: it waits for a node that has {saga} (version "
                f"{version})"
            )
            return Trouble(
                f"{message}. Run `sagas store URL nodes` to see the nodes, or `sagas store URL "
                f"abort {key}` to withdraw it"
            )
        return Trouble(f"no saga has the key {key}")

    def node_definitions(self) -> set[str]:
        return {str(kind).partition("/")[0] for (kind,) in self.ask(NODE_DEFINITIONS)}

    def starts(self) -> list[Row]:
        return self.ask(STARTS)

    def waiting_starts(self, filter: Filter) -> list[str]:
        text = STARTS_OF if filter.saga is None else f"{STARTS_OF} AND saga = ?"
        rows = self.ask(text, json.dumps(dict(filter.labels)), *filter.saga_parameters)
        return [key for (key,) in rows]

    def withdraw(self, key: str) -> bool:
        messages = [message for (message,) in self.ask(WITHDRAW, key)]
        for message in messages:
            self.notify(message)
        return bool(messages)

    def start_of(self, key: str) -> int | None:
        rows = self.ask("SELECT id FROM pending_starts WHERE key = ?", key)
        return int(rows[0][0]) if rows else None

    def add_request(self, saga: int, command: str, value: str) -> int | None:
        rows = (
            self.ask(ASK, command, value, saga)
            if saga >= 0
            else self.ask(ASK_START, command, value, -saga)
        )
        return int(rows[0][0]) if rows else None

    def answer(self, number: int, saga: int) -> tuple[bool, str | None]:
        ((has_saga, answer, has_start, _),) = self.ask(ANSWER, number, -saga if saga < 0 else None)
        return has_saga or has_start, answer

    def drop_definitions(self) -> None:
        def drop() -> None:
            # a commit that makes a shard has written both rows, or waits
            self.changed("LOCK TABLE definitions IN SHARE ROW EXCLUSIVE MODE")
            self.changed(UNUSED)

        self.atomically(drop)

    def drop_refused(self, before: float) -> int:
        return self.changed(REFUSED, before)

    def overwrite_deleted(self) -> None:
        """Do nothing: VACUUM deletes what was replaced."""

    def drop_journal(self) -> None:
        """Do nothing: the server reuses its WAL by itself."""

    def close(self) -> None:
        self.connection.close()


def connect(name: str, mode: str = "ro") -> Source:
    """Connect to a store. Raises `Trouble`, `StoreUnavailable`, `InvalidStore`."""
    store_name.check_name(name)
    if store_name.is_url(name):
        return DatabaseSource(name, mode)
    return FileSource(name, mode)


@contextlib.contextmanager
def writing(name: str) -> Iterator[Source]:
    """Connect for a short write, in parallel with the programs that have the store open."""
    connection = connect(name, "rw")
    try:
        yield connection
    except SagasError as error:
        message = str(error).removeprefix(f"{connection.name}: ")
        raise Trouble(f"cannot write {connection.name}: {message}", CANNOT) from error
    finally:
        connection.close()
