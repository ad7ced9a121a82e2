"""A database whose large values are in a blob store.

A value is stored before the commit of the row that refers to it. Rows that are read have the values
again, so nothing above this module knows of it. If the commit is refused, the value is an orphan.
`Blobs.sweep` deletes orphans, unless the values belong to another store.

A copy of a store refers to the values of the original. It does not know the values that the
original stores later, and would take them for orphans. So a store deletes values only if it has the
mark that is in the blob store (`Marks`). A mark is a random token, which the store has too, and the
store's location. Each check replaces the mark with a new one, so that a copy has an older token or
another location.
"""

from __future__ import annotations

import asyncio
import hashlib
import inspect
import json
import os
import secrets
import time
from collections.abc import Awaitable, Callable, Iterable, Sequence
from typing import TYPE_CHECKING, Any, NamedTuple, cast

from sagas.base.errors import SagasError, StoreUnavailable
from sagas.base.logger import logger
from sagas.core.shard.batch import Batch, LoadedShard, NewShard, SagaRow, StoredSaga
from sagas.definition.serialization import FAILED_HEAD
from sagas.definition.payloads import (
    ABSENT,
    BLOB_HEAD,
    BlobStore,
    BlobUnavailable,
    Payloads,
    Reference,
)
from sagas.storage import admin, store_name
from sagas.storage.postgresql.server import SERVER

if TYPE_CHECKING:
    from sagas.storage.interface import CommitCallback, Database

# -- the values and the database

AT_ONCE = 8
"""Maximum number of values that are stored or fetched at the same time."""
PAUSES = (0.02, 0.1, 0.4)
"""Seconds between the attempts to fetch a value that could not be fetched."""
AGE = 86_400.0
"""Seconds after which a value without a row is an orphan: its commit was refused long ago."""
INPUT, RESULT, SHAPE = 4, 5, 1
"""The columns of the texts in the rows of sagas, attempts and shapes."""
DONE = ("commit", "ok")
EVENT, HELD = 4, ("commit", "undone")
"""The events of results that no report needs any more, and their column."""
PATTERN = BLOB_HEAD + "%"
REFERRED_BY = (
    "SELECT input FROM sagas WHERE {ids} AND input LIKE ? "
    "UNION ALL SELECT value FROM attempts WHERE {ids} AND value LIKE ? "
    "UNION ALL SELECT shape FROM shapes WHERE {ids} AND shape LIKE ?"
)
"""The values of sagas that may refer to the blob store. `ids` is a condition on their ids."""
REFERRED = REFERRED_BY.format(ids="id >= ? AND id < ?")
Row = tuple[Any, ...]


def _without(row: Row) -> Row:
    """Return a row in which values of the blob store are absent."""
    return tuple(ABSENT if isinstance(cell, str) and Reference.of(cell) else cell for cell in row)


def referred(rows: Iterable[Row]) -> list[str]:
    """Return the keys to which rows of `REFERRED` refer."""
    references = (Reference.of(text) for (text,) in rows)
    return [reference.key for reference in references if reference is not None]


def within(first: int, end: int) -> tuple[Any, ...]:
    """Return the parameters of `REFERRED` for the sagas of these ids."""
    return (first, end, PATTERN) * 3


class Blobs:
    """The large values of a store.

    Attributes:
        prefix: The prefix of this store's keys: several stores may share a blob store.
        other: The location of the other store, if the values belong to one.
        under_way: The keys of values whose rows are being committed.
    """

    def __init__(self, store: BlobStore, threshold: int, payloads: Payloads, path: str) -> None:
        self._store, self._threshold, self._payloads = store, threshold, payloads
        self._path, self.prefix = path, ""
        self.other: Location | None = None
        self.under_way: set[str] = set()
        self._slots = asyncio.Semaphore(AT_ONCE)
        self._marks: Marks | None = None
        self._own_prefix = ""
        self._is_named, self._renewing = asyncio.Event(), asyncio.Lock()

    def mark(self, file: str, secret: bytes) -> Marks:
        """Return the marks of a store."""
        return Marks(file, secret, self._call, self._store)

    async def name(self, file: str, secret: bytes) -> None:
        """Take the store's own prefix, if the values belong to this store.

        Otherwise new values get another prefix. The store to which the values belong does not know
        them, and would delete them.
        """
        self._marks = self.mark(file, secret)
        self._own_prefix = hashlib.sha256(b"blobs" + secret).hexdigest()[:16]
        try:
            await self._renew()
        except Exception as error:  # a blob store may raise anything, and values are still stored
            detail = error if isinstance(error, SagasError) else type(error).__name__
            logger.warning("%s: whose the blobs are could not be seen: %s", self._path, detail)
            self.prefix = secrets.token_hex(8)
        self._is_named.set()

    async def is_own(self) -> bool:
        """Whether the values belong to this store. Raises `StoreUnavailable`."""
        await self._is_named.wait()
        return await self._renew()

    async def _renew(self) -> bool:
        assert self._marks
        async with self._renewing:
            self.other = await self._marks.renew()
            if self.other is None:
                self.prefix = self._own_prefix
            elif self.prefix in ("", self._own_prefix):
                self.prefix = secrets.token_hex(8)
        return self.other is None

    async def _call(self, function: Callable[..., Any], *arguments: Any) -> Any:
        """Call a function of the blob store.

        Raises `KeyError`, and `BlobUnavailable` for any other exception of the blob store.
        """
        try:
            if inspect.iscoroutinefunction(function):
                return await function(*arguments)
            return await asyncio.to_thread(function, *arguments)
        except KeyError:
            raise
        except Exception as error:  # its text may contain the value
            name = type(error).__name__
            raise BlobUnavailable(f"{self._path}: the blob store raised {name}") from error

    # -- written

    def is_large(self, text: str | None) -> bool:
        """Whether a value goes into the blob store.

        A value that looks like a reference always does. An optional failure never does, so that
        each program can show it.
        """
        if text is None or text.startswith(FAILED_HEAD):
            return False
        if 4 * len(text) <= self._threshold:
            return text.startswith(BLOB_HEAD)
        size = len(text.encode("utf-8", "surrogatepass"))
        return size > self._threshold or text.startswith(BLOB_HEAD)

    def large_rows(self, batches: Sequence[Batch]) -> list[tuple[list[Any], int, int]]:
        """Return the locations of large values: the rows, the row's index, and the column."""
        large: list[tuple[list[Any], int, int]] = []
        for batch in batches:
            for index, opened in enumerate(batch.opened):
                if self.is_large(opened[4]):
                    large.append((batch.opened, index, INPUT))
            for index, result in enumerate(batch.results):
                if result[4] in DONE and self.is_large(result[5]):
                    large.append((batch.results, index, RESULT))
            shapes: list[Any] = batch.rare.shapes if batch.rare else []
            for index, (_, shape) in enumerate(shapes):
                if self.is_large(shape):
                    large.append((shapes, index, SHAPE))
        return large

    async def put_all(self, large: Sequence[tuple[list[Any], int, int]]) -> None:
        """Store values, and put references into their rows. Raises `StoreUnavailable`."""
        await self._is_named.wait()
        texts = [rows[index][cell] for rows, index, cell in large]
        ids = [rows[index][0] for rows, index, _ in large]
        references = await asyncio.gather(*map(self._put, ids, texts))
        for (rows, index, cell), reference in zip(large, references):
            row = rows[index]
            rows[index] = (*row[:cell], reference, *row[cell + 1 :])

    async def _put(self, id: int, text: str) -> str:
        key = f"{self.prefix}/{id:x}/{secrets.token_hex(16)}"
        self.under_way.add(key)
        data = text.encode("utf-8", "surrogatepass")
        async with self._slots:
            await self._call(self._store.put, key, data)
        return str(Reference.to(key, self._payloads.decode(text), len(data)))

    # -- read

    async def text(self, text: str) -> str:
        """Return the original value of a stored text.

        A reference whose value is missing is returned as it is. Raises `BlobUnavailable`.
        """
        reference = Reference.of(text)
        if reference is None:
            return text
        try:
            data = await self._got(reference.key)
        except KeyError:
            logger.error("%s: the blob %s is missing", self._path, reference.key)
            return text
        return data.decode("utf-8", "surrogatepass")

    async def _got(self, key: str) -> bytes:
        """Fetch a value, with several attempts. Raises `KeyError`, `BlobUnavailable`."""
        for pause in (*PAUSES, None):
            try:
                async with self._slots:
                    data: bytes = await self._call(self._store.get, key)
                return data
            except BlobUnavailable:
                if pause is None:
                    raise
                await asyncio.sleep(pause)
        raise AssertionError

    async def rows(self, rows: Sequence[Row]) -> list[Row]:
        """Return rows with their values."""
        whole_rows = list(rows)
        references = [
            (number, cell, text)
            for number, row in enumerate(rows)
            for cell, text in enumerate(row)
            if isinstance(text, str) and text.startswith(BLOB_HEAD)
        ]
        texts = await asyncio.gather(*(self.text(text) for _, _, text in references))
        for (number, cell, _), text in zip(references, texts):
            row = whole_rows[number]
            whole_rows[number] = (*row[:cell], text, *row[cell + 1 :])
        return whole_rows

    # -- deleted

    async def delete(self, keys: Sequence[str]) -> None:
        """Delete values to which no row refers any more, unless they belong to another store.

        Raises `StoreUnavailable`.
        """
        if keys and await self.is_own():
            await self._delete(keys)

    async def _delete(self, keys: Iterable[str]) -> None:
        for key in keys:
            await self._call(self._store.delete, key)

    async def sweep(self, read: Callable[..., Any]) -> int:
        """Delete orphans: old values to which no row refers.

        If the values belong to another store, nothing is deleted.

        Args:
            read: Returns the rows of a query, with their references.

        Returns:
            The number of deleted values.
        """
        if not await self.is_own():
            return 0
        before = time.time() - AGE
        by_id: dict[int, list[str]] = {}
        for key in await self._call(self._store.keys, f"{self.prefix}/", before):
            by_id.setdefault(int(key.split("/")[1], 16), []).append(key)
        count = 0
        for id, keys in by_id.items():
            referred_keys = set(self.under_way)
            referred_keys.update(referred(await read(REFERRED, *within(id, id + 1))))
            orphans = [key for key in keys if key not in referred_keys]
            await self._delete(orphans)
            count += len(orphans)
        return count


class BlobDatabase:
    """A database whose rows have no large values; its callers see them in each row."""

    def __init__(self, inner: Database, blobs: Blobs) -> None:
        self._inner, self.blobs = inner, blobs
        self._putting: set[asyncio.Task[None]] = set()
        self._naming: asyncio.Task[None] | None = None

    def __getattr__(self, name: str) -> Any:
        return getattr(self._inner, name)

    @classmethod
    def over(
        cls, inner: Database, store: BlobStore | None, threshold: int, payloads: Payloads
    ) -> Database:
        """Return the database, with a blob store if there is one."""
        if store is None:
            return inner
        return cast("Database", cls(inner, Blobs(store, threshold, payloads, inner.path)))

    async def open(self, check_functions: Any) -> Any:
        """Open the database. Then the blobs of this store get their prefix."""
        rows = await self._inner.open(check_functions)
        naming = self.blobs.name(self._inner.file, await self._inner.secret())
        self._naming = asyncio.get_running_loop().create_task(naming)
        return rows

    async def close(self) -> None:
        """Close the database."""
        if self._naming is not None:
            self._naming.cancel()
            await asyncio.wait([self._naming])
        await self._inner.close()

    def commit(self, batches: Sequence[Batch], then: CommitCallback, now: bool) -> None:
        """Store the large values, and then commit. See `CommitWriter.commit`.

        Nothing else is written until the values are stored.
        """
        large = self.blobs.large_rows(batches)
        if not large:
            self._inner.commit(batches, then, now)
            return
        task = asyncio.get_running_loop().create_task(self._put(large, batches, then))
        self._putting.add(task)
        task.add_done_callback(self._putting.discard)

    async def _put(
        self,
        large: Sequence[tuple[list[Any], int, int]],
        batches: Sequence[Batch],
        then: CommitCallback,
    ) -> None:
        def committed(*result: Any) -> None:
            self.blobs.under_way.clear()  # there is one commit at a time
            then(*result)

        try:
            await self.blobs.put_all(large)
        except Exception as error:
            committed(batches, error, frozenset())
        else:
            self._inner.commit(batches, committed, True)

    async def load(self, shard: int, epoch: int, born: NewShard | None) -> LoadedShard | None:
        """Load a shard. See `Database.load`.

        The large values of open sagas are fetched when a function needs them.
        """
        loaded = await self._inner.load(shard, epoch, born)
        if loaded is not None:
            loaded.open = cast(Any, [_without(row) for row in loaded.open])
            held = [_without(row) if row[EVENT] in HELD else row for row in loaded.results]
            loaded.results = cast(Any, await self.blobs.rows(held))
        return loaded

    async def known(self, row: SagaRow) -> StoredSaga:
        """See `Database.known`."""
        return await self._whole(await self._inner.known(row))

    async def history(self, row: SagaRow) -> StoredSaga:
        """See `Database.history`."""
        return await self._whole(await self._inner.history(row))

    async def _whole(self, known: StoredSaga) -> StoredSaga:
        shape = known.shape and await self.blobs.text(known.shape)
        results = cast(Any, await self.blobs.rows(known.results))
        return known._replace(results=results, shape=shape)

    async def read(self, query: str, *arguments: Any) -> list[Row]:
        """See `Database.read`."""
        return await self.blobs.rows(await self._inner.read(query, *arguments))

    async def read_stored(self, query: str, *arguments: Any) -> list[Row]:
        """See `Database.read_stored`."""
        return await self._inner.read(query, *arguments)

    async def read_long(self, query: str, *arguments: Any) -> list[Row]:
        """See `Database.read_long`."""
        return await self.blobs.rows(await self._inner.read_long(query, *arguments))

    async def swept(self) -> int:
        """Delete the values to which no row refers, and return their number."""
        return await self.blobs.sweep(self._inner.read)


# -- the marks by which a store knows that the values are its own

TURNS, MARK_PAUSE = 4, 0.25
"""The number of checks before the marks count as those of another store, and the pause in seconds.

Another node may be about to put a new mark.
"""
LATER = 10 * 86_400.0
"""Seconds by which the clocks of a blob store's machines may differ."""
NOTED = "SELECT value FROM secrets WHERE name = 'blobs'"
NOTE = "INSERT INTO secrets(name, value) VALUES('blobs', '') ON CONFLICT DO NOTHING"
CHANGE = "UPDATE secrets SET value = ? WHERE name = 'blobs' AND value = ?"
MAY = f"SELECT {SERVER.may_read_system}"
SYSTEM = f"SELECT CAST({SERVER.system} AS text)"
DATABASE = f"SELECT CAST({SERVER.database} AS text)"
Call = Callable[..., Awaitable[Any]]


class Location(NamedTuple):
    """The location of a store: a name for people, and an id that no copy has."""

    name: str
    id: str

    def written(self) -> bytes:
        """Return the location as a mark contains it."""
        return json.dumps({"store": self.name, "id": self.id}).encode()

    @classmethod
    def read(cls, data: bytes) -> Location:
        """Return the location that a mark contains."""
        try:
            fields = json.loads(data)
            return cls(str(fields["store"]), str(fields["id"]))
        except (ValueError, KeyError, TypeError):
            return cls("another store", "")


class Notes:
    """The tokens that a store has of its marks, separated by blanks.

    Each method is for a thread.
    """

    def __init__(self, file: str) -> None:
        self._file = file

    def location(self) -> Location:
        """Return the location of the store."""
        with admin.writing(self._file) as connection:
            if store_name.is_url(self._file):
                server = connection.ask(SYSTEM)[0][0] if connection.ask(MAY)[0][0] else ""
                return Location(connection.name, f"{server}/{connection.ask(DATABASE)[0][0]}")
            path = os.path.realpath(self._file)
            return Location(path, f"{path} {os.stat(path).st_ino}")

    def tokens(self) -> str:
        """Return the tokens that the store has."""
        with admin.writing(self._file) as connection:
            return "".join(value for (value,) in connection.ask(NOTED))

    def change(self, before: str, tokens: str) -> bool:
        """Replace the tokens, unless they are no longer those of `before`."""
        with admin.writing(self._file) as connection:
            connection.changed(NOTE)
            return bool(connection.changed(CHANGE, tokens, before))


class Marks:
    """The marks of one store in a blob store."""

    def __init__(self, file: str, secret: bytes, call: Call, store: Any) -> None:
        """Create the marks of a store. `call` calls a function of the blob store."""
        self._notes, self._call, self._store = Notes(file), call, store
        self._prefix = hashlib.sha256(b"marks" + secret).hexdigest()[:16]
        self._mine: str | None = None

    def _key(self, token: str) -> str:
        return f"{self._prefix}/{token}"

    async def _there(self) -> dict[str, Location]:
        """Return the marks that are in the blob store, by token."""
        marks = {}
        for key in await self._call(self._store.keys, f"{self._prefix}/", time.time() + LATER):
            try:
                data: bytes = await self._call(self._store.get, key)
            except KeyError:  # another program deleted it
                continue
            marks[key.rpartition("/")[2]] = Location.read(data)
        return marks

    async def renew(self) -> Location | None:
        """Replace the marks of this store with a new one.

        Returns:
            None if the values belong to this store, else the location of the store that owns
                them.

        Raises:
            StoreUnavailable: The blob store or the database does not answer.
        """
        own_location = await _in_thread(self._notes.location)
        for turn in range(TURNS):
            if turn:
                await asyncio.sleep(MARK_PAUSE)
            noted: str = await _in_thread(self._notes.tokens)
            marks = await self._there()
            own_tokens = set(noted.split())
            others = [location for token, location in marks.items() if token not in own_tokens]
            others += [location for location in marks.values() if location.id != own_location.id]
            if not others and await self._replace(noted, [*own_tokens], own_location):
                return None
        if not others:
            raise StoreUnavailable(
                f"{own_location.name}: other nodes change the marks of the blob store"
            )
        if self._mine is not None and self._mine not in marks:
            # another store took the values of this one: neither deletes any from now on
            await self._call(self._store.put, self._key(self._mine), own_location.written())
        return others[0]

    async def take(self) -> None:
        """Replace all marks with one of this store."""
        own_location = await _in_thread(self._notes.location)
        for _ in range(TURNS):
            noted: str = await _in_thread(self._notes.tokens)
            if await self._replace(noted, [*await self._there()], own_location):
                return
        raise StoreUnavailable(
            f"{own_location.name}: other nodes change the marks of the blob store"
        )

    async def _replace(self, noted: str, before: list[str], own_location: Location) -> bool:
        """Replace marks with a new one.

        Return False if another program changes the tokens, too.
        """
        new = secrets.token_hex(16)
        both = " ".join([*noted.split(), new])
        if not await _in_thread(self._notes.change, noted, both):
            return False
        await self._call(self._store.put, self._key(new), own_location.written())
        for token in before:
            await self._call(self._store.delete, self._key(token))
        if not await _in_thread(self._notes.change, both, new):
            await self._call(self._store.delete, self._key(new))
            return False
        self._mine = new
        return True


async def _in_thread(function: Callable[..., Any], *arguments: Any) -> Any:
    """Query the database in a thread."""
    try:
        return await asyncio.to_thread(function, *arguments)
    except (admin.Trouble, OSError) as error:
        raise StoreUnavailable(str(error)) from error
