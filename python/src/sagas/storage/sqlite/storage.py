"""A store in a file: its lock, its reads, and the slots of its steps."""

from __future__ import annotations

import asyncio
import bisect
import contextlib
import functools
import os
import secrets
import shlex
import sqlite3
import time
from collections.abc import Callable, Sequence
from typing import Any

from sagas.base.errors import (
    InvalidStore,
    MissingStep,
    OwnerUnavailable,
    SagasError,
    StoreLocked,
    StoreUnavailable,
)
from sagas.base.fork_guard import private_descriptors
from sagas.core.attempt import child_attempts
from sagas.core.shard.balance import NodeShare
from sagas.core.shard.batch import (
    Grant,
    LoadedShard,
    NewShard,
    NewStart,
    PendingRequest,
    PendingStart,
    SagaRow,
    ShardRow,
)
from sagas.core.attempt.child_attempts import CompletedChild
from sagas.definition.payloads import Payloads
from sagas.definition.serialization import cleaned
from sagas.definition.call_options import Bounds
from sagas.storage import codec_note, queries
from sagas.storage.external import ExternalAttempts
from sagas.storage.interface import FunctionCheck, Watcher
from sagas.storage.record_file import RecordFile
from sagas.storage.sqlite.external_attempts import SqliteExternalAttempts
from sagas.storage.sqlite.schema import VERSION
from sagas.storage.sqlite.store_file import (
    FileWatch,
    Reader,
    check_file,
    close_lock,
    connect,
    describe_error,
    file_identity,
    holder_of,
    lengthen,
    lock_of,
    migrate,
    take_lock,
)
from sagas.storage.sqlite.writer import Writer

LOOK = 0.2  # seconds: another program's commit sends no notification
MAX_LOOK = 30.0


def migrate_file(path: str) -> str:
    """Migrate a file that no program has open, and return a text with both versions.

    Raises `StoreLocked`, `StoreSchemaTooNew`, `InvalidStore`, `StoreUnavailable`.
    """
    if not os.path.isfile(path):
        raise InvalidStore(f"{path}: the file does not exist")
    store = Sqlite(path)
    store._take_lock()
    before = store._make()
    store._reader.close()
    store._db.close()
    store._drop_lock()
    return f"{path}: tables of version {VERSION}" + (
        "" if before == VERSION else f", {before} before"
    )


class Sqlite(queries.Questions):
    """The file and its lock.

    Short reads happen in the loop, and long ones in a thread. A `Writer` writes.
    """

    supports_nodes = False
    is_member = False
    answers_at_once = True
    node = ""
    lease_seconds = 0.0
    commit_seconds = 0.0
    pending_lookups = 0
    inside = None
    blobs = None
    record: RecordFile | None = None

    def __init__(self, path: str | os.PathLike[str], encodes: bool = False) -> None:
        """Create a store that is not open yet. `encodes`: whether there is a codec."""
        self.path, self._encodes = os.fspath(path), encodes
        self.file = os.path.abspath(path)
        self._lock: int | None = None
        self._timer: asyncio.Handle | None = None
        self._files = FileWatch(self.path)
        self._next_log = 0
        self.external: ExternalAttempts = SqliteExternalAttempts(self.rows)
        self._writer = writer = Writer(self._files)
        self.commit, self.finish_commit = writer.commit, writer.finish_commit

    @property
    def commits(self) -> int:
        """The number of transactions that were written."""
        return self._writer.commits

    # -- opening and closing

    async def open(self, check_functions: FunctionCheck) -> list[ShardRow]:
        """Take the lock and create the tables.

        Raises `StoreLocked`, `StoreUnavailable`, `InvalidStore` or `MissingStep`.
        """
        self._take_lock()
        self._make()
        lengthen(self._db)
        self._files.begin(self.file, f"{self.file}-wal")
        self._writer.open(self._db)
        self._note_codec()
        self._next_log = int(self.rows("SELECT coalesce(max(shard) + 1, 0) FROM shards")[0][0])
        rows = self.open_logs()
        completed = self.completed_children()
        for row in rows:
            below = completed.get(row.shard, [])
            missing = (
                check_functions(row.texts, self.definition_indexes(row.shard), below)
                if row.open
                else None
            )
            if missing:
                count = sum(row.open for row in rows)
                hint = (
                    f"open sagas: {count:,}; `sagas store {shlex.quote(self.path)} list --phase "
                    "open` lists them"
                )
                raise MissingStep(
                    f"{self.path}: {missing}. Declare it again, or let the older program finish "
                    f"them with open(..., accept_new=False); {hint}"
                )
        return rows

    def _make(self) -> int:
        """Create the tables, and return their version before."""
        try:
            self._db = connect(self.file)
            self._db.execute("PRAGMA journal_mode=WAL")
            before = migrate(self._db, self.path)
            self._reader = connect(self.file)
            return before
        except sqlite3.DatabaseError as error:
            self._drop_lock()
            if isinstance(error, sqlite3.OperationalError):
                raise StoreUnavailable(f"{self.path}: {describe_error(error)}") from error
            raise InvalidStore(f"{self.path}: {error}") from error
        except BaseException:
            self._drop_lock()
            raise

    def _note_codec(self) -> None:
        """Store that values are encoded.

        Raises `MissingCodec` if they are encoded, and the program has no codec.
        """
        try:
            is_noted = bool(self._db.execute(codec_note.NOTED).fetchall())
            if self._encodes and not is_noted:
                self._db.execute(codec_note.NOTE)
        except sqlite3.Error as error:
            raise StoreUnavailable(f"{self.path}: {describe_error(error)}") from error
        if is_noted and not self._encodes:
            raise codec_note.missing(self.path)

    def _take_lock(self) -> None:
        check_file(self.path)
        path = lock_of(self.file)
        self._lock = take_lock(path)
        if self._lock is None:
            holder = holder_of(path)
            holder_text = (
                "this program"
                if holder == str(os.getpid())
                else f"another program{f' (process {holder})' if holder else ''}"
            )
            raise StoreLocked(f"{self.path}: {holder_text} has this store open. Close it first")
        with contextlib.suppress(OSError):  # the process id is only for messages
            os.ftruncate(self._lock, 0)
            os.pwrite(self._lock, str(os.getpid()).encode(), 0)

    def _drop_lock(self) -> None:
        if self._lock is not None:
            close_lock(self._lock)
            self._lock = None

    async def secret(self) -> bytes:
        """See `Database.secret`. No commit may be under way."""
        try:
            self._db.execute(
                "INSERT OR IGNORE INTO secrets VALUES ('leases', ?)", (secrets.token_hex(32),)
            )
        except sqlite3.Error as error:
            raise StoreUnavailable(f"{self.path}: {error}") from error
        return bytes.fromhex(self.rows("SELECT value FROM secrets WHERE name = 'leases'")[0][0])

    def peers(self) -> None:
        """Return None: a file has no other nodes."""

    def watch(self, watcher: Watcher) -> None:
        """Look for requests of other programs whenever the file has changed."""
        loop, version = asyncio.get_running_loop(), -1

        def look() -> None:
            nonlocal version
            self._timer = loop.call_later(LOOK, look)
            with contextlib.suppress(StoreUnavailable):
                self._files.check()
            self._look_for_lock()
            with contextlib.suppress(StoreUnavailable):
                now = self.rows("PRAGMA data_version")[0][0]
                if now != version:
                    version = now
                    watcher.look()

        self._timer = loop.call_soon(look)

    def _look_for_lock(self) -> None:
        """Create the lock file again if it was deleted.

        Without it another program could open the store.
        """
        lock = self._lock
        if lock is None or file_identity(lock_of(self.file)) == file_identity(lock):
            return
        self._lock = None
        try:
            self._take_lock()
        except SagasError as error:
            self._lock = lock
            self._files.give_up(f"{error} The lock file was deleted while this program held it")
        else:
            private_descriptors.discard(lock)
            os.close(lock)

    async def close(self) -> None:
        """Close after the commits that were given to the writer."""
        if self._timer:
            self._timer.cancel()
        if self._lock is None:
            return
        self._writer.close()
        with contextlib.suppress(sqlite3.Error):
            self._reader.close()
            self._db.close()
        self._drop_lock()

    # -- writing

    def new_shard(self) -> int:
        """Return the number of a shard that is about to be created."""
        self._next_log += 1
        return self._next_log - 1

    @property
    def timeline(self) -> str:
        """A file has no timeline."""
        return ""

    def holds(self) -> bool:
        """Return True: the lock is held until the end."""
        return True

    async def admit(self, name: str, bounds: Bounds, want: int, have: Sequence[int]) -> Grant:
        """Take slots of a step: this program is the only node."""
        slots = free_slots(bounds.concurrency, want, have) if bounds.concurrency else []
        count, pause = len(slots) if bounds.concurrency else want, MAX_LOOK
        if bounds.rate_limit and count:
            # a killed program has counted its calls, since only a crash of the machine loses them
            connected = functools.partial(connect, self.file, "NORMAL")
            count, pause = await asyncio.to_thread(
                take_slots, connected, self.path, name, bounds.rate_limit, count, time.time()
            )
        return Grant(count, slots[:count], pause)

    # -- reading

    def rows(self, query: str, *parameters: Any) -> list[tuple[Any, ...]]:
        """Return the rows of a query on the reading connection.

        Raises `StoreUnavailable` if the file cannot be read.
        """
        return self._read(self._reader, query, cleaned(parameters))

    def _read(
        self, db: sqlite3.Connection, query: str, parameters: Sequence[Any]
    ) -> list[tuple[Any, ...]]:
        try:
            return db.execute(query, parameters).fetchall()
        except sqlite3.Error as error:
            raise StoreUnavailable(f"{self.path}: {error}") from error

    def open_logs(self) -> list[ShardRow]:
        """Return the shards that are not closed, in order."""
        rows = self.rows(f"{queries.LOGS} WHERE closed = 0 ORDER BY shard")
        definitions = self.rows(queries.TEXTS, rows[0][0], rows[-1][0]) if rows else []
        texts = queries.texts_of(definitions)
        return [
            ShardRow(shard, name, texts.get(shard, []), opened, open, note=note)
            for shard, name, note, opened, open in rows
        ]

    def definition_indexes(self, shard: int) -> list[int]:
        """Return the indexes of the definitions of a shard's open sagas."""
        return [index for (index,) in self.rows(queries.DEFINITION_INDEXES, *queries.bounds(shard))]

    def completed_children(self) -> dict[int, list[CompletedChild]]:
        """Return the completed children below the open sagas of each shard."""
        rows = self.rows(queries.COMPLETED_IN_FILE)
        if not rows:
            return {}
        return child_attempts.children_by_shard(rows, self.rows(queries.ALL_DEFINITIONS))

    def find_many(self, keys: Sequence[str]) -> dict[str, SagaRow]:
        """Return the sagas that have these keys, by key."""
        sagas: dict[str, SagaRow] = {}
        # the writing connection knows its own writes; another one would have to look for them
        db = self._reader if self._writer.is_lent else self._db
        for index in range(0, len(keys), queries.MAX_KEYS):
            batch = [*keys[index : index + queries.MAX_KEYS]]
            count = queries.COUNTS[bisect.bisect_left(queries.COUNTS, len(batch))]
            batch += batch[:1] * (count - len(batch))
            for row in self._read(db, queries.FIND_MANY[count], batch):
                sagas[row[1]] = SagaRow(*row)
        return sagas

    async def read(self, query: str, *parameters: Any) -> list[tuple[Any, ...]]:
        """See `rows`: the file can be read at once."""
        return self.rows(query, *parameters)

    async def read_long(self, query: str, *parameters: Any) -> list[tuple[Any, ...]]:
        """As `read`, in a thread."""
        return await asyncio.to_thread(self._read_apart, query, parameters)

    def _read_apart(self, query: str, parameters: Sequence[Any]) -> list[tuple[Any, ...]]:
        with contextlib.closing(self.reader()) as reader:
            return reader.rows(query, *parameters)

    def reader(self) -> Reader:
        """Return another connection, for a thread that only reads."""
        return Reader(self.file)

    def forget(self, shard: int) -> None:
        """Do nothing: all that is known was just read."""

    async def spare(self, shard: int) -> bool:
        """Return False: there are no other nodes."""
        return False

    async def shares(self) -> list[NodeShare]:
        """Return no node: there are no other ones."""
        return []

    async def leave_start(self, start: NewStart) -> bool:
        """Return False: there are no other nodes."""
        return False

    async def move(self, shard: int, epoch: int, node: str, difference: int | None) -> bool:
        """Return False: there are no other nodes."""
        return False

    async def take_up(self, shard: int, epoch: int) -> tuple[str, int]:
        """Return a shard's event log and its number of events. See `Database.take_up`.

        No commit of the shard may be on its way.
        """
        text, self._writer.events[shard] = queries.joined(self.rows(queries.LINES, shard))
        return text, self._writer.events[shard]

    async def load(self, shard: int, epoch: int, born: NewShard | None) -> LoadedShard:
        """Load a shard. No batch of it may be on its way."""
        within = queries.bounds(shard)
        text, events = await self.take_up(shard, epoch)
        opened = self.rows(queries.COUNT, *within, *within)[0][0]
        open, results, held = (
            self.rows(query, *within)
            for query in (queries.OPEN_SAGAS, queries.OPEN_RESULTS, queries.OPEN_HELD)
        )
        loaded = LoadedShard(
            text, events, opened, open, results, held, epoch  # type: ignore[arg-type]
        )
        loaded.definition_count = self.rows(queries.DEFINITIONS, shard)[0][0]
        loaded.damage = queries.damage_of(text, events)
        return loaded

    async def refusal(self, key: str) -> None:
        """See `Database.refusal`. A file is the only database of its store."""

    async def find(self, key: str) -> SagaRow | None:
        """Return the saga with this key."""
        rows = self.rows(queries.FIND, key)
        return SagaRow(*rows[0]) if rows else None

    async def requests(self, after: int, limit: int) -> list[PendingRequest]:
        """Return the requests without an answer."""
        return self.rows(queries.REQUESTS, after, limit)  # type: ignore[return-value]

    async def starts(
        self, limit: int, under_way: Sequence[int] | None, left: Sequence[int] = ()
    ) -> list[PendingStart]:
        """Return no starts: a program that starts a saga has the store open."""
        return []

    async def give_back(self, start: int, reason: str | None) -> None:
        """A file has no starts of clients."""
        raise NotImplementedError

    async def ask(self, row: SagaRow, command: str, value: str, payloads: Payloads) -> Any:
        """Raise `OwnerUnavailable`: the shard of this saga is set aside.

        No other node could own the sagas of a file.
        """
        raise OwnerUnavailable(
            f"saga {row.key!r} is not executed, because its shard is damaged. Repair the shard, or "
            "delete it: `sagas store STORE attention` lists its sagas"
        )

    async def replicated(self) -> None:
        """Return at once: a file has no standby."""

    async def wait_for_end(self, id: int, turn: int) -> None:
        """Pause: the saga ends when its shard is repaired.

        The shard is set aside, so that seldom happens.
        """
        await asyncio.sleep(min(MAX_LOOK, LOOK * 2 ** min(turn, 10)))


# -- slots of limits and of rate limits

FREE_SLOTS = (
    "SELECT slot FROM limit_slots WHERE name = ? AND kind = 'rate' AND slot <= ? AND (until IS "
    "NULL OR until <= ? OR until > ?) ORDER BY slot LIMIT ?"
)
NEXT_SLOT = (
    "SELECT min(until) FROM limit_slots WHERE name = ? AND kind = 'rate' AND slot <= ? AND until > "
    "?"
)


def free_slots(limit: int, want: int, have: Sequence[int]) -> list[int]:
    """Return the free slots of a limit. One program is the only node of a file."""
    taken = set(have)
    return [slot for slot in range(1, limit + 1) if slot not in taken][:want]


def take_slots(
    connect: Callable[[], sqlite3.Connection],
    store_name: str,
    name: str,
    rate: tuple[int, float],
    want: int,
    now: float,
) -> tuple[int, float]:
    """Take slots of a rate limit for calls that begin now. For a thread.

    They are stored, so that a restarted program does not begin to count again.

    Returns:
        The number of calls that may begin now, and the seconds until more may begin.
    """
    calls, seconds = rate
    try:
        with contextlib.closing(connect()) as db:
            db.execute("BEGIN IMMEDIATE")
            db.executemany(
                "INSERT OR IGNORE INTO limit_slots(name, kind, slot) VALUES(?, 'rate', ?)",
                [(name, slot) for slot in range(1, calls + 1)],
            )
            rows = db.execute(FREE_SLOTS, (name, calls, now, now + seconds, want)).fetchall()
            db.executemany(
                "UPDATE limit_slots SET until = ? WHERE name = ? AND kind = 'rate' AND slot = ?",
                [(now + seconds, name, slot) for (slot,) in rows],
            )
            (soon,) = db.execute(NEXT_SLOT, (name, calls, now)).fetchone()
            db.execute("COMMIT")
    except sqlite3.Error as error:
        raise StoreUnavailable(f"{store_name}: {error}") from error
    return len(rows), seconds if soon is None else soon - now
