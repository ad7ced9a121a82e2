"""The file of a store: its lock, its owner, its write-ahead log."""

from __future__ import annotations

import contextlib
import fcntl
import os
import pathlib
import pwd
import sqlite3
import threading
import time
from typing import Any

from sagas.base.errors import InvalidStore, StoreSchemaTooNew, StoreUnavailable
from sagas.base.fork_guard import private_descriptors
from sagas.base.logger import logger
from sagas.definition.serialization import cleaned
from sagas.storage.sqlite.schema import (
    DELETED_SAGAS,
    PAUSES,
    STARTED,
    TRENDS,
    VERSION,
    statements,
)

BUSY = 5000  # ms: an operator's command may be writing
CHECKPOINT = 750
"""Pages of the WAL at which the thread's next commit moves it into the file.

That takes as long as about ten commits.
"""
LONG = 1000
"""Pages that the loop writes into the WAL, by its estimate, before the thread commits once."""
FRAME = 24  # bytes before each page of a WAL
LENGTH = CHECKPOINT + LONG * 3 // 4
"""The initial length of the WAL, in pages.

If the WAL has just fewer pages than a checkpoint needs, commits continue in the loop until the
thread makes the next one.
"""
LOOKS = 1.0
"""Seconds that a program waits at most for commands that check whether a program has the store
open.
"""
RIGHTS = "this user must be able to read and write it, and to write to its folder"


def connect(path: str, synchronous: str = "FULL") -> sqlite3.Connection:
    """Return a connection that commits explicitly.

    Only the user of the process may read a file that this creates, or the files that SQLite creates
    for it.
    """
    with contextlib.suppress(OSError):  # it exists, or SQLite reports the error
        os.close(os.open(path, os.O_RDWR | os.O_CREAT | os.O_EXCL | os.O_CLOEXEC, 0o600))
    db = sqlite3.connect(
        path,
        isolation_level=None,
        check_same_thread=False,
        cached_statements=256,
        timeout=BUSY / 1000,
    )
    db.execute(f"PRAGMA synchronous={synchronous}")
    # (on macOS, a sync would otherwise end in the disk's cache)
    db.execute("PRAGMA fullfsync=ON")
    return db


def describe_error(error: sqlite3.Error) -> str:
    """Return SQLite's message.

    If the file cannot be opened or written, the message also says what to do.
    """
    text = str(error)
    if is_of_disk(error):
        return f"{text}. Make room if the disk is full, and check it otherwise"
    return f"{text}: {RIGHTS}" if "readonly" in text or "unable to open" in text else text


def is_of_disk(error: sqlite3.Error) -> bool:
    """Whether the disk is full, or could not be read or written.

    Such an error says nothing about the file.
    """
    code = getattr(error, "sqlite_errorcode", 0) & 0xFF
    return code in (sqlite3.SQLITE_FULL, sqlite3.SQLITE_IOERR)


def check_file(path: str) -> None:
    """Check an existing file, before anything is created next to it.

    Raises `InvalidStore` if it is not a store, and `StoreUnavailable` if this user may not read it.

    The check uses SQLite. If this program has the file open, closing it in another way would drop
    its locks.
    """
    if os.path.isdir(path):
        raise InvalidStore(f"{path}: this is a folder. Name a file in it")
    if not os.path.isfile(path):
        return
    if (names := os.stat(path).st_nlink) > 1:
        remedy = (
            "one program would not see what another one writes. Remove the other names "
            "(`find -samefile` lists them), or open a copy"
        )
        raise InvalidStore(f"{path}: the file has {names} names (hard links), so {remedy}")
    if not os.access(path, os.R_OK, effective_ids=True):
        raise StoreUnavailable(f"{path}: unable to open database file: {RIGHTS}")
    try:
        uri = f"{pathlib.Path(path).absolute().as_uri()}?mode=ro&immutable=1"
        with contextlib.closing(sqlite3.connect(uri, uri=True)) as db:
            check_tables(db, path)
    except sqlite3.Error as error:
        # opening reports all other errors, as of a page that another program is just writing
        if getattr(error, "sqlite_errorcode", None) == sqlite3.SQLITE_NOTADB:
            raise InvalidStore(
                f"{path}: {error}. Give the path of a store, or of a file that does not exist"
            ) from error


def check_tables(db: sqlite3.Connection, path: str) -> None:
    """Raise `InvalidStore` if a database has tables, and they are not those of a store."""
    (version,) = db.execute("PRAGMA user_version").fetchone()
    names = {name for (name,) in db.execute("SELECT name FROM sqlite_master")}
    if names and (not version or "sagas" not in names):
        raise InvalidStore(
            f"{path}: this is a database of another program, and not a store. Give the path of a "
            "store, or of a file that does not exist"
        )


def lock_of(path: str | os.PathLike[str]) -> str:
    """Return the lock file that the program with an open store holds.

    All links to the store have the same one, as they have the same WAL.
    """
    return f"{os.path.realpath(path)}.lock"


def open_lock(path: str, access: int) -> int:
    """Open a lock file, or create it if it is missing.

    A forked process does not keep it open. Raises `StoreUnavailable`, and `InvalidStore` if the
    path is of no folder.
    """
    try:
        lock = os.open(path, access | os.O_CREAT | os.O_CLOEXEC, 0o644)
    except FileNotFoundError as error:
        raise InvalidStore(
            f"folder {os.path.dirname(path)} does not exist. Create it first"
        ) from error
    except NotADirectoryError as error:
        raise InvalidStore(
            f"{path}: a part of this path is a file, and not a folder. Name another folder"
        ) from error
    except PermissionError as error:
        owner = owner_of(path)
        theirs = (
            f"it belongs to {owner}. Open the store as {owner}, or change the owner of "
            "the store's files (chown)"
        )
        remedy = (
            theirs if owner else f"{error.strerror}. This user must be able to write to its folder"
        )
        raise StoreUnavailable(f"{path}: {remedy}") from error
    except OSError as error:
        raise StoreUnavailable(f"{path}: {error.strerror}") from error
    private_descriptors.add(lock)
    return lock


def take_lock(path: str, access: int = os.O_RDWR) -> int | None:
    """Lock a file for this program, and create it if it is missing.

    Return None if another program has the lock. Commands that check the lock (`is_held`) share it
    for a moment, and this waits for them. Raises `StoreUnavailable`.
    """
    lock, end = open_lock(path, access), time.monotonic() + LOOKS
    try:
        while not try_lock(lock, fcntl.LOCK_EX):
            if not try_lock(lock, fcntl.LOCK_SH) or time.monotonic() > end:
                close_lock(lock)
                return None
            fcntl.flock(lock, fcntl.LOCK_UN)
            os.sched_yield()
    except OSError as error:
        close_lock(lock)
        raise StoreUnavailable(f"{path}: {error.strerror}") from error
    return lock


def try_lock(lock: int, manner: int) -> bool:
    """Take a lock if it is free. Return False otherwise."""
    try:
        fcntl.flock(lock, manner | fcntl.LOCK_NB)
    except BlockingIOError:
        return False
    return True


def holder_of(path: str) -> str:
    """Return the number of the process that has a lock, or had it last, if it is known."""
    try:
        text = pathlib.Path(path).read_text(encoding="utf-8", errors="replace")
    except OSError:
        return ""
    return text if len(text) <= 20 and text.isdigit() else ""


def close_lock(lock: int) -> None:
    """Release a lock. A process that was just forked may still have it open."""
    private_descriptors.discard(lock)
    with contextlib.suppress(OSError):
        fcntl.flock(lock, fcntl.LOCK_UN)
    os.close(lock)


def is_held(path: str | os.PathLike[str]) -> bool:
    """Whether a program has a store open."""
    try:
        lock = os.open(lock_of(path), os.O_RDONLY | os.O_CLOEXEC)
    except FileNotFoundError:
        return False
    except OSError:  # it belongs to another user: a program may hold it
        return True
    try:  # shared, so that two checks do not take each other for a program
        return not try_lock(lock, fcntl.LOCK_SH)
    finally:
        os.close(lock)


def file_identity(path: str | int) -> tuple[int, int]:
    """Return the device and inode of a path or descriptor; zeros if the file is missing."""
    try:
        status = os.stat(path)
    except OSError:
        return 0, 0
    return status.st_dev, status.st_ino


class FileWatch:
    """Notices that a file of an open store was deleted or replaced.

    SQLite would continue to write into the deleted file, and the data would be lost. So nothing is
    written from then on. All threads may call it.

    Attributes:
        failure: Why nothing is written any more.
    """

    def __init__(self, path: str) -> None:
        self._path = path
        self._identities: dict[str, tuple[int, int]] = {}
        self._lock = threading.Lock()
        self.failure: StoreUnavailable | None = None

    def begin(self, *names: str) -> None:
        """Note which files the store has opened."""
        self._identities = {name: file_identity(name) for name in names}

    def check(self) -> None:
        """Raise `StoreUnavailable` if a file was deleted or replaced, now or before."""
        for name, identity in self._identities.items():
            if file_identity(name) != identity:
                self.give_up(
                    f"{self._path}: {name} was deleted or replaced while the store was open, so "
                    "nothing is written any more. Close the store, restore the file (a copy with "
                    "its -wal, or a backup), and open it again"
                )
        if self.failure:
            raise self.failure

    def give_up(self, reason: str) -> None:
        """Write nothing any more, for this reason. The first reason stays."""
        with self._lock:
            if self.failure:
                return
            self.failure = StoreUnavailable(reason)
        logger.critical("%s", reason)


def owner_of(path: str) -> str | None:
    """Return the owner of a file, if it is another user."""
    try:
        user = os.stat(path).st_uid
    except OSError:
        return None
    if user == os.geteuid():
        return None
    try:
        return pwd.getpwuid(user).pw_name
    except KeyError:
        return f"user {user}"


def migrate(db: sqlite3.Connection, path: str) -> int:
    """Create missing tables in one transaction, and return the version before.

    Raises `StoreSchemaTooNew` and `InvalidStore`.
    """
    db.execute("BEGIN IMMEDIATE")
    version = int(db.execute("PRAGMA user_version").fetchone()[0])
    try:
        if version > VERSION:
            raise StoreSchemaTooNew(
                f"{path}: its tables have version {version}, and this program knows "
                f"{VERSION}. Use a later release"
            )
        check_tables(db, path)
    except BaseException:
        db.execute("ROLLBACK")
        raise
    if version < VERSION:
        for statement in statements():
            db.execute(statement)
    db.execute(STARTED)
    db.execute(PAUSES)
    db.execute(TRENDS)
    db.execute(DELETED_SAGAS)
    # written even if it is the same, to check that the file can be written
    db.execute(f"PRAGMA user_version = {VERSION}")
    db.execute("COMMIT")
    return version


def lengthen(db: sqlite3.Connection) -> None:
    """Extend the WAL to the length at which it is moved into the file.

    A commit that extends its file takes the disk about twice as long.

    SQLite does not take the added bytes for a commit. They are written under the writer's lock, so
    that no other program writes there. If the disk is full, the WAL is left as it is.
    """
    db.execute("BEGIN IMMEDIATE")
    try:
        path = db.execute("PRAGMA database_list").fetchone()[2]
        page = db.execute("PRAGMA page_size").fetchone()[0]
        # closing the WAL drops no lock: SQLite has none on it
        with contextlib.suppress(OSError), open(f"{path}-wal", "r+b", buffering=0) as wal:
            size = wal.seek(0, os.SEEK_END)
            zeros = bytes(max(0, LENGTH * (page + FRAME) - size))
            if wal.write(zeros) < len(zeros):
                wal.truncate(size)
            getattr(os, "fdatasync", os.fsync)(wal.fileno())  # macOS has only the second
    finally:
        db.execute("ROLLBACK")


class Reader:
    """A connection that only reads. One thread at a time may use it."""

    def __init__(self, path: str) -> None:
        self._path = path
        self._db = sqlite3.connect(
            f"{pathlib.Path(path).resolve().as_uri()}?mode=ro",
            uri=True,
            isolation_level=None,
            check_same_thread=False,
            timeout=BUSY / 1000,
        )

    def rows(self, query: str, *parameters: Any) -> list[tuple[Any, ...]]:
        """Return the rows of a query. Raises `StoreUnavailable` if the file cannot be read."""
        try:
            return self._db.execute(query, cleaned(parameters)).fetchall()
        except sqlite3.Error as error:
            raise StoreUnavailable(f"{self._path}: {error}") from error

    def close(self) -> None:
        self._db.close()
