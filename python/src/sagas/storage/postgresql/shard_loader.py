"""Loads many shards in one round trip.

Shards that are wanted at the same time are loaded together, by one message to the server and its
reply.
"""

from __future__ import annotations

import asyncio
import json
from collections.abc import Callable, Coroutine, Sequence
from typing import Any, NamedTuple

import psycopg

from sagas.base.errors import StoreUnavailable
from sagas.core.shard.batch import (
    LoadedShard,
    NewShard,
    OpenSagaRow,
    ResultRow,
    StoredSuspension,
    Tail,
)
from sagas.definition.capacity import SHARD_CAPACITY
from sagas.storage import queries
from sagas.storage.postgresql import conflicts, connections
from sagas.storage.record_file import RecordFile

MAX_LOADED = 64
"""Maximum number of shards that are loaded at once."""

LOGS = "shard = ANY(%(shards)s::bigint[])"
MINE = "owner = %(node)s AND closed = 0"
SAGAS = (
    f"sagas s WHERE s.id >= l.shard * {SHARD_CAPACITY} AND s.id < (l.shard + 1) * {SHARD_CAPACITY}"
)
MARKS = f"deleted_{SAGAS}"
TOGETHER = f"""
WITH mine AS (UPDATE shards SET epoch = epoch + 1 WHERE shard IN (
  SELECT shard FROM shards WHERE {LOGS} AND {MINE} FOR NO KEY UPDATE SKIP LOCKED)
  RETURNING shard, epoch),
noted AS ({connections.READ})
SELECT shard, epoch FROM mine;
SELECT shard, {MINE},
  (SELECT string_agg(text, '' ORDER BY first_seq) FROM event_log WHERE event_log.shard = l.shard),
  (SELECT count(*) FROM {SAGAS}) + (SELECT count(*) FROM {MARKS}),
  (SELECT json_agg(json_build_array(s.id, s.key, s.definition_index,
    {queries.SMALL_INPUT}, s.deadline,
    (SELECT json_agg(json_build_array({queries.SMALL_RESULT}) ORDER BY r.step, r.action, r.number)
      FROM attempts r WHERE r.id = s.id),
    (SELECT json_agg(json_build_array({queries.HELD})) FROM suspensions h WHERE h.id = s.id),
    s.traceparent, (SELECT {queries.SMALL_SHAPE} FROM shapes p WHERE p.id = s.id), s.at)
    ORDER BY s.id)::text FROM {SAGAS} AND s.phase IS NULL),
  (SELECT count(*) FROM shard_definitions d WHERE d.shard = l.shard),
  (SELECT json_build_array(first_seq, committed_at,
      length(text) - length(replace(text, E'\\n', '')))
    FROM event_log e WHERE e.shard = l.shard ORDER BY first_seq DESC LIMIT 1)::text,
  {connections.TIMELINE} FROM shards l WHERE {LOGS}
"""
"""Loads shards in one transaction.

The second part sees all that was written under the former epochs, and nothing is written in
between. A shard with a commit under way is skipped. A shard's sagas are one text, since psycopg
takes longer for a thousand cells than the server takes for all sagas.
"""
NEW = connections.TAKEOVER.format(node="%(node)s", last="-1", taken="born")
BORN = f"""
WITH definition AS (SELECT place, digest, text
  FROM unnest(%(places)s::integer[], %(digests)s::text[], %(texts)s::text[])
    AS of(place, digest, text)),
new AS (INSERT INTO definitions SELECT DISTINCT digest, text FROM definition ORDER BY 1
  ON CONFLICT DO NOTHING),
new2 AS (INSERT INTO shard_definitions SELECT %(shard)s, place, digest FROM definition
  ON CONFLICT DO NOTHING),
born AS (INSERT INTO shards(shard, name, owner, epoch)
  VALUES (%(shard)s, %(name)s, %(node)s, %(epoch)s) ON CONFLICT DO NOTHING
  RETURNING shard, epoch)
{NEW}
"""
"""Creates a shard that is not in the store, as far as this node knows.

The commit that was to create it may still arrive, and then finds a later epoch.
"""
DEFINITIONS = "SELECT count(*) FROM shard_definitions WHERE shard = %(shard)s"
ALONE = (
    f"WITH mine AS (UPDATE shards SET epoch = epoch + 1 WHERE {LOGS} AND {MINE} "
    f"RETURNING shard, epoch), noted AS ({connections.READ}) "
    f"SELECT epoch, {connections.TIMELINE} FROM mine"
)
"""Loads one shard, whatever its epoch is.

As above, this node may not know the last epoch that it began.
"""


class LoadRequest(NamedTuple):
    """A shard that is to be loaded."""

    shard: int
    epoch: int
    born: NewShard | None
    loaded_shard: asyncio.Future[LoadedShard | None]

    def resolve(self, loaded: LoadedShard | None, failure: Exception | None = None) -> None:
        """Answer the caller, if it still waits."""
        if not self.loaded_shard.done():
            self.loaded_shard.set_exception(failure) if failure else self.loaded_shard.set_result(
                loaded
            )


WAKE = """
SELECT NOT EXISTS (SELECT 1 FROM shards WHERE shard = %(shard)s AND (owner IS DISTINCT FROM %(node)s
OR epoch <> %(epoch)s OR closed <> 0)), l.first_seq, l.committed_at, l.text
FROM (SELECT) single LEFT JOIN event_log l ON l.shard = %(shard)s ORDER BY l.first_seq
"""
"""Returns each chunk of a shard's log.

The first column says, as of the same moment, whether this node owns the shard under this epoch, or
the shard does not exist yet.
"""


CHUNKS = f"SELECT first_seq, committed_at, text FROM event_log WHERE {LOGS} ORDER BY first_seq"


class EventLog(NamedTuple):
    """What the store has of an event log.

    Attributes:
        text: Its lines.
        events: The number of lines.
        tail: Its last chunk, if it has any.
    """

    text: str
    events: int
    tail: Tail | None

    @classmethod
    def of(cls, chunks: Sequence[tuple[int, float, str]]) -> EventLog:
        """Join the chunks of a log."""
        text, events = queries.joined([(first, text) for first, _, text in chunks])
        return cls(text, events, Tail(*chunks[-1][:2]) if chunks else None)


class ShardLoader:
    """Loads shards for one node."""

    def __init__(
        self,
        asker: connections.Asker,
        node: str,
        spawn: Callable[[Coroutine[Any, Any, None]], object],
        record: RecordFile | None = None,
    ) -> None:
        self._record = record
        self._asker, self._node, self._spawn = asker, node, spawn
        self._wanted: list[LoadRequest] = []
        self._is_loading = False
        # locked shards are loaded one by one: each may need a connection for a long time
        self._loading_alone = asyncio.Lock()

    async def take_up(self, shard: int, epoch: int, timeline: str) -> EventLog | None:
        """See `Database.take_up`. The server has this timeline."""
        rows = await self._asker.read(WAKE, shard=shard, node=self._node, epoch=epoch)
        if not rows[0][0]:
            return None
        read = EventLog.of([(first, at, text) for _, first, at, text in rows if first is not None])
        if self._record:
            self._record.read((shard, epoch, timeline), read.events, read.text)
        return read

    async def load(self, shard: int, epoch: int, born: NewShard | None) -> LoadedShard | None:
        """See `Database.load`."""
        request = LoadRequest(shard, epoch, born, asyncio.get_running_loop().create_future())
        if born:
            self._spawn(self._load_alone(request))
        else:
            self._wanted.append(request)
            if not self._is_loading:
                self._is_loading = True
                self._spawn(self._load())
        loaded = await request.loaded_shard
        if loaded and self._record:
            self._record.took((shard, loaded.epoch, loaded.timeline), loaded.events, loaded.text)
        return loaded

    async def _load(self) -> None:
        """Load all shards that are wanted, one batch after the other."""
        try:
            while self._wanted:
                batch, self._wanted = self._wanted[:MAX_LOADED], self._wanted[MAX_LOADED:]
                await self._load_batch(batch)
        finally:
            self._is_loading = False

    async def _load_batch(self, batch: Sequence[LoadRequest]) -> None:
        """Load a batch, and answer the callers.

        A shard with a commit under way is loaded alone. If the server refused the batch, each shard
        is loaded alone, since one of them may be the reason.
        """
        try:
            rest = await self._together(batch)
        except Exception as failure:
            rest = [request for request in batch if not request.loaded_shard.done()]
            if not _was_answered(failure):
                for request in rest:
                    request.resolve(None, failure)
                return
        for request in rest:
            self._spawn(self._load_alone(request))

    async def _load_alone(self, request: LoadRequest) -> None:
        try:
            async with self._loading_alone:
                loaded = await conflicts.repeated(lambda: self._alone(request))
        except Exception as failure:
            request.resolve(None, failure)
        else:
            request.resolve(loaded)

    async def _together(self, batch: Sequence[LoadRequest]) -> list[LoadRequest]:
        """Load shards, and return the requests of those that are locked.

        The callers are answered one after the other, so that others have their turns in the loop.
        """
        parameters = {
            "shards": f"{{{','.join(str(request.shard) for request in batch)}}}",
            "node": self._node,
        }
        waiting, locked = list(batch), list[LoadRequest]()
        async with self._asker.connection() as connection:
            cursor = await psycopg.AsyncClientCursor(connection).execute(TOGETHER, parameters)
            epochs: dict[int, int] = {shard: epoch for shard, epoch in await cursor.fetchall()}
            cursor.nextset()
            while row := await cursor.fetchone():
                shard, is_mine, text, opened, sagas, defined, tail, timeline = row
                requests, waiting = [request for request in waiting if request.shard == shard], [
                    request for request in waiting if request.shard != shard
                ]
                if shard not in epochs and is_mine:
                    locked += requests
                    continue
                loaded = None
                if shard in epochs:
                    loaded = _loaded(text or "", opened, json.loads(sagas or "[]"))
                    loaded.epoch, loaded.timeline = epochs[shard], timeline
                    loaded.definition_count = defined
                    if tail is not None:
                        first, at, lines = json.loads(tail)
                        loaded.tail = Tail(first, float(at))
                        loaded.damage = queries.damage_of(loaded.text, first + lines)
                for request in requests:
                    request.resolve(loaded)
                await asyncio.sleep(0)
        for request in waiting:
            request.resolve(None)
        return locked

    async def _alone(self, request: LoadRequest) -> LoadedShard | None:
        """Load a shard row by row, for any size."""
        low, high = queries.bounds(request.shard)
        parameters = {
            "low": low,
            "high": high,
            "shard": request.shard,
            "shards": [request.shard],
            "node": self._node,
        }

        async def rows(query: str) -> list[Any]:
            return await (
                await connection.execute(
                    queries.named(query, "low", "high", "low", "high"), parameters
                )
            ).fetchall()

        async with self._asker.connection() as connection, connection.transaction():
            if request.born:
                await connection.execute(
                    BORN, parameters | _born(request.born) | {"epoch": request.epoch}
                )
            taken = await rows(ALONE)
            if not taken:
                return None
            text, events, tail = EventLog.of(await rows(CHUNKS))
            ((opened,),) = await rows(queries.COUNT)
            ((defined,),) = await rows(DEFINITIONS)
            open, results, held = [
                await rows(query)
                for query in (queries.OPEN_SAGAS, queries.OPEN_RESULTS, queries.OPEN_HELD)
            ]
        loaded = LoadedShard(
            text, events, opened, open, results, held, definition_count=defined, tail=tail
        )
        loaded.damage = queries.damage_of(text, events)
        ((loaded.epoch, loaded.timeline),) = taken
        return loaded


def _born(born: NewShard) -> dict[str, Any]:
    """Return a shard's name and definitions as parameters of `BORN`."""
    name, defined = born
    indexes, digests, texts = zip(*defined) if defined else ((), (), ())
    return {"name": name, "places": [*indexes], "digests": [*digests], "texts": [*texts]}


def _was_answered(failure: Exception) -> bool:
    """Whether the server answered with an error, or took too long."""
    cause = failure.__cause__ if isinstance(failure, StoreUnavailable) else failure
    return isinstance(cause, TimeoutError) or getattr(cause, "sqlstate", None) is not None


def _loaded(text: str, opened: int, sagas: Sequence[Any]) -> LoadedShard:
    """Return a shard from its cells. JSON may have whole numbers of seconds."""
    results: list[ResultRow] = [
        (id, step, action, attempt, outcome, value, float(at))
        for saga in sagas
        for id, step, action, attempt, outcome, value, at in saga[5] or ()
    ]
    held: list[StoredSuspension] = [
        (
            id,
            step,
            action,
            attempt,
            reason,
            count,
            float(since),
            None if until is None else float(until),
            error,
        )
        for saga in sagas
        for id, step, action, attempt, reason, count, since, until, error in saga[6] or ()
    ]
    open: list[OpenSagaRow] = [
        (
            id,
            key,
            definition_index,
            text,
            None if deadline is None else float(deadline),
            traceparent,
            shape,
            float(at),
        )
        for id, key, definition_index, text, deadline, _, _, traceparent, shape, at in sagas
    ]
    return LoadedShard(text, text.count("\n"), opened, open, results, held)
