"""Lookups of sagas: by keys, by ids, and by any query of a thread.

Programs that wait for sagas of other nodes look up many sagas at once, as they end. All that is
asked for at the same time is looked up together.
"""

from __future__ import annotations

import asyncio
import json
from collections.abc import Callable, Coroutine, Sequence
from typing import Any

import psycopg

from sagas.base.errors import Closed, NoSuchSaga, SagasError, StoreUnavailable
from sagas.core.shard.batch import SagaRow, StoredSaga
from sagas.definition.serialization import clean, cleaned
from sagas.storage import queries
from sagas.storage.postgresql import conflicts, connections, wire
from sagas.storage.postgresql.application_name import Purpose
from sagas.storage.postgresql.connections import Asker, Hosts

# -- by keys

KEYS = "key = ANY(ARRAY(SELECT json_array_elements_text(%(keys)s::json)))"
FIND = f"""
SELECT {queries.SAGA} FROM sagas WHERE {KEYS}
UNION ALL SELECT -id, key, saga, -1, input, at, NULL, NULL, NULL, refused FROM pending_starts WHERE
{KEYS}
"""
FIND_WIRED = FIND.replace("%(keys)s", "$1")
FIND_ONE = FIND.replace(KEYS, "key = $1")


class KeyFinder:
    """Looks up keys over its own connection.

    Keys that are wanted during a query go into the next query.
    """

    def __init__(
        self, url: str, store_name: str, spawn: Callable[[Coroutine[Any, Any, None]], object]
    ) -> None:
        self._connection, self._store_name, self._spawn = (
            wire.ReconnectingWire(url, store_name, Purpose.KEYS),
            store_name,
            spawn,
        )
        self._wanted: dict[str, list[asyncio.Future[SagaRow | None]]] = {}
        self._is_finding = False
        self._seeking = 0  # keys of the query under way

    @property
    def pending_lookups(self) -> int:
        """The number of keys that are being looked up."""
        return len(self._wanted) + self._seeking

    async def open(self) -> None:
        """Connect. Raises `StoreUnavailable`."""
        await self._connection.open()

    def cut(self) -> None:
        """End the connection: it is to a former server."""
        self._connection.cut()

    def close(self) -> None:
        """Close the connection."""
        self._connection.close()

    async def find(self, key: str) -> SagaRow | None:
        """Return the saga with this key.

        An id below 0 is that of a client's start that no shard has yet. No saga has a key that is
        not a text.
        """
        if not isinstance(key, str):
            return None
        loop = asyncio.get_running_loop()
        future: asyncio.Future[SagaRow | None] = loop.create_future()
        self._wanted.setdefault(key, []).append(future)
        if not self._is_finding:
            self._is_finding = True
            loop.call_soon(self._find)
        return await future

    def _find(self) -> None:
        """Look up all keys that are wanted, in one query."""
        wanted, self._wanted = self._wanted, {}
        self._seeking = len(wanted)
        keys = [clean(key) for key in wanted]
        query, parameter = (
            (FIND_ONE, keys[0].encode())
            if len(keys) == 1
            else (FIND_WIRED, json.dumps(keys).encode())
        )

        def then(rows: list[wire.Values], failure: Exception | None) -> None:
            if failure is None:
                self._resolve(wanted, rows)
            else:
                self._spawn(self._find_after_connecting(wanted, query, parameter))

        if not self._connection.send(query, [parameter], then):
            self._spawn(self._find_after_connecting(wanted, query, parameter))

    async def _find_after_connecting(
        self, wanted: dict[str, list[asyncio.Future[SagaRow | None]]], query: str, parameter: bytes
    ) -> None:
        """As `_find`, over a new connection."""
        try:
            rows = await self._connection.read(query, parameter)
        except StoreUnavailable as failure:
            self._resolve(wanted, [], failure)
        except asyncio.CancelledError:
            added, self._wanted = self._wanted, {}
            for futures in (wanted, added):
                self._resolve(futures, [], Closed(f"{self._store_name}: the store is closed"))
            raise
        else:
            self._resolve(wanted, rows)

    def _resolve(
        self,
        wanted: dict[str, list[asyncio.Future[SagaRow | None]]],
        rows: list[wire.Values],
        failure: SagasError | None = None,
    ) -> None:
        """Answer the callers of a query, and look up the keys that are wanted by now."""
        sagas: dict[str, SagaRow] = {}
        for row in map(saga_row, rows):
            if row.key not in sagas or row.id >= 0:
                sagas[row.key] = row
        for key, futures in wanted.items():
            for future in futures:
                if not future.done():
                    future.set_exception(failure) if failure else future.set_result(sagas.get(key))
        self._is_finding, self._seeking = bool(self._wanted), 0
        if self._is_finding:
            self._find()


def saga_row(values: wire.Values) -> SagaRow:
    """Return a row of `FIND_WIRED`."""
    id, key, saga, definition_index, input, at, phase, end, ended, note = (
        None if value is None else value.decode() for value in values
    )
    assert id and key and saga and definition_index and input is not None and at
    return SagaRow(
        int(id),
        key,
        saga,
        int(definition_index),
        input,
        float(at),
        phase,
        end,
        None if ended is None else float(ended),
        note,
    )


# -- what the store has of sagas

MANY = 256
"""Maximum number of sagas in one lookup."""
MAX_TEXTS = 256
"""Maximum number of cached texts of definitions."""
KNOWN = f"""
SELECT s.id, -1, d.definition, 0, '', (SELECT p.shape FROM shapes p WHERE p.id = s.id), 0.0
FROM sagas s {queries.OF_SHARD} WHERE s.id = ANY(%(ids)s::bigint[])
UNION ALL SELECT id, step, action, number, event, value, at FROM attempts
WHERE id = ANY(%(ids)s::bigint[])
"""
"""Of each saga, as of one moment: first the digest of its definition and its shape, then its
attempts.
"""
TEXTS = "SELECT definition, text FROM definitions WHERE definition = ANY(%(digests)s::text[])"
"""Definitions are never changed or deleted."""


class Lookups:
    """The lookups of a node. Those that arrive during a query go into the next one."""

    def __init__(self, asker: Asker, spawn: Callable[[Coroutine[Any, Any, None]], object]) -> None:
        self._asker, self._spawn = asker, spawn
        self._wanted: dict[int, list[asyncio.Future[StoredSaga | None]]] = {}
        self._texts: dict[str, str] = {}
        self._is_looking = False

    async def known(self, row: SagaRow) -> StoredSaga:
        """Return what the store has of a saga.

        Raises `NoSuchSaga` if it was deleted since its row was read, and `StoreUnavailable`.
        """
        future: asyncio.Future[StoredSaga | None] = asyncio.get_running_loop().create_future()
        self._wanted.setdefault(row.id, []).append(future)
        if not self._is_looking:
            self._is_looking = True
            self._spawn(self._look())
        known = await future
        if known is None:
            raise NoSuchSaga(f"saga {row.key!r} was deleted while it was looked up")
        return known

    async def _look(self) -> None:
        try:
            while self._wanted:
                ids = [*self._wanted][:MANY]
                futures = {id: self._wanted.pop(id) for id in ids}
                try:
                    known = await self._ask(ids)
                except BaseException as error:
                    self._fail(futures, error)
                    if not isinstance(error, StoreUnavailable):
                        raise
                else:
                    self._resolve(futures, known)
        finally:
            self._is_looking = False

    def _resolve(
        self,
        futures: dict[int, list[asyncio.Future[StoredSaga | None]]],
        known: dict[int, StoredSaga],
    ) -> None:
        for id, waiting in futures.items():
            for future in waiting:
                if not future.done():
                    future.set_result(known.get(id))

    def _fail(
        self, futures: dict[int, list[asyncio.Future[StoredSaga | None]]], error: BaseException
    ) -> None:
        """Fail these lookups.

        If the error is not one of the server, all other lookups fail, too.
        """
        if not isinstance(error, StoreUnavailable):
            futures, self._wanted = futures | self._wanted, {}
            error = StoreUnavailable(f"{self._asker.store_name}: cannot be read: {error}")
        for waiting in futures.values():
            for future in waiting:
                if not future.done():
                    future.set_exception(error)

    async def _ask(self, ids: Sequence[int]) -> dict[int, StoredSaga]:
        digests_and_shapes: dict[int, tuple[str, str | None]] = {}
        results: dict[int, list[Any]] = {id: [] for id in ids}
        for id, step, action, attempt, event, value, at in await self._asker.read(KNOWN, ids=ids):
            if step < 0:
                digests_and_shapes[id] = action, value
            else:
                results[id].append((step, action, attempt, event, value, at))
        await self._fetch({digest for digest, _ in digests_and_shapes.values()})
        return {
            id: StoredSaga(
                self._texts[digest], sorted(results[id], key=lambda row: row[:3]), [], shape
            )
            for id, (digest, shape) in digests_and_shapes.items()
        }

    async def _fetch(self, digests: set[str]) -> None:
        """Cache the texts of these definitions."""
        missing = [digest for digest in digests if digest not in self._texts]
        if not missing:
            return
        rows = await self._asker.read(TEXTS, digests=missing)
        if len(self._texts) + len(rows) > MAX_TEXTS:
            self._texts = {
                digest: self._texts[digest] for digest in digests if digest in self._texts
            }
        self._texts |= dict(rows)  # type: ignore[arg-type]


# -- queries of a thread


class Reader:
    """A connection that only reads. One thread at a time may use it."""

    def __init__(self, url: str, path: str) -> None:
        self._url, self._path = url, path
        self._connection: psycopg.Connection[connections.Row] | None = None
        self._turn = 0

    def rows(self, query: str, *parameters: Any) -> list[tuple[Any, ...]]:
        """Return the rows of a query.

        A connection that broke unnoticed is made again. Raises `StoreUnavailable` if the server
        does not answer.
        """
        arguments = cleaned(parameters)
        for turn in (0, 1):
            try:
                return self._rows(queries.for_postgresql(query), arguments)
            except StoreUnavailable as error:
                if conflicts.is_conflict(error):
                    break
                if turn or (self._connection and not self._connection.closed):
                    raise
        return conflicts.repeated_now(lambda: self._rows(queries.for_postgresql(query), arguments))

    def _rows(self, text: str, arguments: Sequence[Any]) -> list[tuple[Any, ...]]:
        self._follow()
        with connections.translate_errors(self._path):
            if self._connection is None or self._connection.closed:
                self._connection = connections.connect_now(self._url, Purpose.READS)
            return self._connection.execute(text, arguments).fetchall()

    def _follow(self) -> None:
        """Leave a server that another one has replaced."""
        turn = self._url.turn if isinstance(self._url, Hosts) else 0
        if turn != self._turn:
            self._turn = turn
            self.close()

    def close(self) -> None:
        if self._connection:
            self._connection.close()
