"""Node leases, epochs and takeovers.

A node has a lease on its shards, and takes over shards of other nodes. Only the database's clock
decides. The node's own clock only measures durations.

A node is one run of a program. It renews its lease each second. If the lease expires, other nodes
may take its shards. Then its commits write nothing, since the shards have other epochs.

No node without a codec has a lease once the note that values are encoded is in the database.
"""

from __future__ import annotations

import importlib
import json
import secrets
import time
from collections import deque
from collections.abc import Sequence
from typing import TYPE_CHECKING, Any

import tomllib

from sagas.base.errors import StoreLocked
from sagas.base.logger import logger
from sagas.base.wording import number
from sagas.core.attempt import child_attempts
from sagas.core.shard.balance import NodeFigures
from sagas.core.shard.batch import ShardRow
from sagas.core.attempt.child_attempts import CompletedChild
from sagas.definition.capacity import SHARD_CAPACITY
from sagas.definition.definition_text import version_of
from sagas.storage import store_name
from sagas.storage.codec_note import NOTE, NOTED, missing
from sagas.storage.postgresql import conflicts, notifications
from sagas.storage.postgresql.connections import RAISED, TIMELINE, Asker, translate_errors
from sagas.storage.postgresql.shard_moves import FORGET, IS_DRAINED, SEEN
from sagas.storage.queries import COMPLETED_CHILDREN, OPEN_COUNT, OPENED

if TYPE_CHECKING:
    from sagas.storage.interface import FunctionCheck

# -- the note that values are encoded

ALLOWS = "(%(encodes)s OR NOT EXISTS (SELECT 1 FROM secrets WHERE name = 'codec'))"
"""Whether a node may have a lease, by whether it encodes values."""
LOCK_LEASES = "LOCK TABLE nodes IN SHARE ROW EXCLUSIVE MODE"
"""Locks the leases.

No node gets or renews a lease until the transaction ends. Each sees the note afterwards.
"""
LIVE_NODES = "SELECT name FROM nodes WHERE lease > now() ORDER BY 1"
"""The nodes that have the store open. Without a note, none of them has a codec."""


async def agree_on_encoding(asker: Asker, encodes: bool) -> None:
    """Store the note that values are encoded, or check that there is none.

    Raises:
        MissingCodec: The values are encoded, and this program has no codec.
        StoreLocked: A node without a codec has the store open.
    """
    if await asker.read(NOTED):
        if not encodes:
            raise missing(asker.store_name)
    elif encodes:
        await asker.whole(conflicts.repeated(lambda: _note_encoding(asker)))


async def _note_encoding(asker: Asker) -> None:
    with translate_errors(asker.store_name):
        async with asker.pool.connection() as connection, connection.transaction():
            await connection.execute(LOCK_LEASES)
            nodes = await (await connection.execute(LIVE_NODES)).fetchall()
            noted = await (await connection.execute(NOTED)).fetchall()
            if nodes and not noted:
                raise StoreLocked(
                    f"{asker.store_name}: node {nodes[0][0]} has this store open without a "
                    "codec, or is of an earlier release. Stop all such nodes first"
                )
            await connection.execute(NOTE)


# -- leases

BEAT = 1.0
"""Maximum number of seconds between two heartbeats of a node."""
SHARDS_PER_LOOK = 64
"""The number of shards up to which each heartbeat looks for unknown shards of this node.

A node with twice as many looks at every second heartbeat.
"""
TAKEOVER_BATCH = 50
"""Maximum number of shards of one takeover: other nodes take theirs at the same time."""
MAX_MOVED = 1000
"""The number of shards that a node remembers after it has moved them."""
SPARED = 3.0
"""Seconds that other nodes have to take a shard that this node has released."""

LIVE = "EXISTS (SELECT 1 FROM nodes n WHERE n.node = {} AND n.lease > now())"
ORPHAN = (
    "l.closed = 0 AND CASE WHEN l.owner = %(node)s THEN %(own)s AND l.shard <> "
    "ALL(%(mine)s::bigint[]) WHEN l.owner IS NULL AND l.shard = ANY(%(moved)s::bigint[]) THEN true "
    f"ELSE %(takes)s AND NOT {LIVE.format('l.owner')} END"
)
"""Whether this node has to take a shard, which no node drives.

Its node is gone, or it is this one, which does not know that it has the shard. The latter is
checked only with `own`, because that takes long for many shards. Without `takes`, shards of other
nodes are left to other nodes, except for those that this node has `moved`, and that the other node
has left.
"""
UNTAKEN = f"(i.refused IS NULL AND NOT {LIVE.format('i.node')})"

FIGURES = {
    "open_sagas": "%(open_sagas)s::integer",
    "accepting": "%(accepting)s::integer",
    "running": "%(running)s::integer",
    "concurrency": "nullif(%(concurrency)s::integer, 0)",
    "stopping": "%(is_stopping)s",
}
"""The columns of a node that each heartbeat writes, with their values."""
RENEWED = "lease = now() + make_interval(secs => %(lease)s), beat = now()"
RENEW_OR_ENTER = f"""
WITH renewed AS (UPDATE nodes
  SET {RENEWED}, {', '.join(f'{name} = {value}' for name, value in FIGURES.items())}
  WHERE node = %(node)s AND {ALLOWS} RETURNING 1),
entered AS (INSERT INTO nodes(node, name, version, kinds, release, since, lease, beat,
    {', '.join(FIGURES)})
  SELECT %(node)s, %(name)s, %(version)s, %(kinds)s, %(release)s, now(),
    now() + make_interval(secs => %(lease)s), now(), {', '.join(FIGURES.values())}
  WHERE %(enters)s AND NOT EXISTS (SELECT 1 FROM renewed) AND {ALLOWS} RETURNING 1),
seen AS ({SEEN})
"""
RENEW = f"UPDATE nodes SET {RENEWED} WHERE node = %(node)s AND {ALLOWS} RETURNING 1"
LOOK = f"""
SELECT {TIMELINE}, EXISTS (SELECT 1 FROM renewed UNION ALL SELECT 1 FROM entered),
  EXISTS (SELECT 1 FROM shards l WHERE {ORPHAN} AND l.shard <> ALL(%(left)s::bigint[])),
  EXISTS (SELECT 1 FROM pending_starts i WHERE {UNTAKEN})
    OR EXISTS (SELECT 1 FROM operator_commands WHERE answer IS NULL),
  (SELECT coalesce(json_agg(json_build_array(l.shard, l.epoch, {LIVE.format('l.owner')})), '[]')
   FROM shards l WHERE l.shard = ANY(%(left)s::bigint[]) AND l.closed = 0),
  {IS_DRAINED}
"""
"""Returns what a heartbeat has to know.

The last column but one has the shards that are left to other nodes and not closed, with their
epochs, and whether a node drives each.
"""
DEFINITION_INDEXES = f"""ARRAY(SELECT DISTINCT definition_index FROM sagas
    WHERE id >= l.shard * {SHARD_CAPACITY} AND id < (l.shard + 1) * {SHARD_CAPACITY}
    AND phase IS NULL)"""
"""The indexes of a shard's definitions that have open sagas."""
TEXTS = """(SELECT coalesce(json_agg(text ORDER BY place), '[]')
    FROM shard_definitions d JOIN definitions USING (definition) WHERE d.shard = l.shard)"""
"""The definitions of a shard."""
CANDIDATES = f"""
SELECT json_build_array(l.shard, {TEXTS}, {DEFINITION_INDEXES}, l.epoch)::text FROM shards l
WHERE {ORPHAN} AND l.shard <> ALL(%(left)s::bigint[]) ORDER BY l.shard LIMIT {TAKEOVER_BATCH}
"""
TAKE = f"""
WITH mine AS (UPDATE shards SET owner = %(node)s, epoch = epoch + 1 WHERE shard IN (
  SELECT l.shard FROM shards l WHERE l.shard = ANY(%(shards)s::bigint[]) AND {ORPHAN}
  ORDER BY l.shard FOR UPDATE SKIP LOCKED) RETURNING shard, epoch),
noted AS ({RAISED})
SELECT shard FROM mine
"""
TAKEN = f"""
SELECT json_build_array(shard, name, {TEXTS}, {OPENED}, ({OPEN_COUNT}), epoch,
  {DEFINITION_INDEXES}, audit)::text
FROM shards l
WHERE shard = ANY(%(shards)s::bigint[]) AND owner = %(node)s ORDER BY shard
"""
"""Returns the shards that were taken, by a statement after the takeover.

A statement that counted while it takes the shards would not see the last commit of a node that was
still writing.

Each row is one text, which psycopg reads faster than several cells.
"""
COMPLETED = COMPLETED_CHILDREN.format(which="l.shard = ANY(%(shards)s::bigint[])")
TEXTS_OF = "SELECT definition, text FROM definitions WHERE definition = ANY(%(digests)s::text[])"
UNDRIVEN = f"""
SELECT text, count(DISTINCT l.shard), count(*)
FROM shards l
JOIN sagas s ON s.id >= l.shard * {SHARD_CAPACITY} AND s.id < (l.shard + 1) * {SHARD_CAPACITY}
  AND phase IS NULL
JOIN shard_definitions d ON d.shard = l.shard AND d.place = s.definition_index
JOIN definitions USING (definition)
WHERE l.shard = ANY(%(shards)s::bigint[]) GROUP BY 1 ORDER BY 1
"""
"""Of these shards: the definitions of open sagas, with the numbers of shards and sagas."""
LEAVE = f"""
WITH mine AS (UPDATE shards SET owner = NULL, epoch = epoch + 1
  WHERE shard = ANY(%(shards)s::bigint[]) AND owner = %(node)s RETURNING shard, epoch)
{RAISED}
"""
SPARE = f"""
WITH mine AS (UPDATE shards l SET owner = NULL, epoch = epoch + 1
  WHERE l.shard = %(shard)s AND l.owner = %(node)s AND EXISTS (
    SELECT 1 FROM nodes n
    WHERE n.node <> %(node)s AND n.lease > now() AND n.since > to_timestamp(%(before)s))
  RETURNING shard, epoch),
noted AS ({RAISED})
SELECT extract(epoch FROM now())::float8 FROM mine
"""
"""Releases a shard if another node has come since its last release."""
GONE = f"""
WITH old AS (DELETE FROM nodes WHERE name = %(name)s AND node <> %(node)s),
old2 AS (DELETE FROM nodes n WHERE lease < now() - interval '1 day'
  AND NOT EXISTS (SELECT 1 FROM shards WHERE owner = n.node AND closed = 0)),
old3 AS ({FORGET})
SELECT 1
"""
HAND_OVER = f"""
WITH me AS (DELETE FROM nodes WHERE node = %(node)s),
mine AS (UPDATE shards SET owner = NULL, epoch = epoch + 1 WHERE owner = %(node)s AND closed = 0
  RETURNING shard, epoch),
noted AS ({RAISED}),
starts AS (UPDATE pending_starts SET node = NULL WHERE node = %(node)s)
SELECT 1
"""


def now() -> float:
    """Return the seconds of a clock that runs during sleep, and that is never set."""
    return time.clock_gettime(time.CLOCK_BOOTTIME)


SECRET = """
INSERT INTO secrets(name, value) VALUES ('leases', %(value)s)
ON CONFLICT (name) DO NOTHING RETURNING value
"""


class Lease:
    """This node's name, its lease as far as it knows, and its takeovers.

    Attributes:
        is_drained: Whether an operator has drained this node, and another one does its work.
        moved: The last shards that this node has moved to others.
    """

    def __init__(
        self,
        asker: Asker,
        name: str | None,
        seconds: float,
        version: str,
        kinds: Sequence[str] = (),
        encodes: bool = False,
    ) -> None:
        self.encodes = encodes  # by a codec
        self.name = store_name.node_name(name)
        self.node = f"{self.name}/{secrets.token_hex(4)}"
        self.seconds, self.version, self._asker, self._kinds = seconds, version, asker, [*kinds]
        self._release: str = importlib.import_module("sagas").__version__
        # open shards whose functions this program does not have, with their epochs then
        self.left: dict[int, int] = {}
        self._undriven: dict[int, float] = {}  # when each was first seen without a node, by `now`
        self._reported: set[int] = set()  # of these, those that were reported
        # until when this node does not take a shard, and its release, by the server's clock
        self._spared: dict[int, tuple[float, float]] = {}
        self.is_drained = self._is_stopping = False
        self.moved: deque[int] = deque(maxlen=MAX_MOVED)
        self.fresh = True  # no function was held back since the last heartbeat
        self._enters = True  # the next heartbeat inserts the node's row if it is missing
        self._has_reported_codec = False
        self._until = 0.0
        self._turn = -1

    @property
    def pause(self) -> float:
        """Seconds between two heartbeats."""
        return min(BEAT, self.seconds / 4)

    def holds(self) -> bool:
        """Whether the lease holds. It counts as expired a tenth of its time before its end."""
        held = now() < self._until - self.seconds / 10
        self.fresh = self.fresh and held
        return held

    async def beat(
        self, mine: list[int], figures: NodeFigures = NodeFigures()
    ) -> tuple[bool, bool, bool, str]:
        """Renew the lease; `mine` are the shards that this node drives.

        If another run under its name has replaced it, that run has the time until the next
        heartbeat to take the shards.

        Returns:
            Whether the lease had expired, whether there are shards to take, whether there are
                requests, and the server's timeline.
        """
        started = now()
        self._turn += 1
        includes_own = self._turn % max(1, len(mine) // SHARDS_PER_LOOK) == 0
        excluded = self._passed()
        parameters = {
            "own": includes_own,
            "node": self.node,
            "name": self.name,
            "version": self.version,
            "kinds": self._kinds,
            "lease": self.seconds,
            "left": excluded,
            "mine": mine,
            "encodes": self.encodes,
            "takes": self.takes,
            "moved": [] if self._is_stopping else [*self.moved],
            "release": self._release,
            **figures._asdict(),
        }
        rows = await self._asker.ask(RENEW_OR_ENTER + LOOK, enters=self._enters, **parameters)
        ((timeline, has_row, has_orphans, has_requests, left, self.is_drained),) = rows
        self._is_stopping = figures.is_stopping
        self._look_at_left(left)
        self._enters = not has_row
        if not has_row:
            self._until = started
            await self._look_for_codec()
            return False, False, False, timeline
        has_expired = self._until > 0 and not (self.holds() and self.fresh)
        self._until, self.fresh = started + self.seconds, True
        return has_expired, has_orphans, has_requests, timeline

    @property
    def takes(self) -> bool:
        """Whether this node takes shards of other nodes."""
        return not self.is_drained and not self._is_stopping

    async def renew(self) -> None:
        """Renew the lease only. The next heartbeat returns what happened since the last one."""
        started, _ = now(), self.holds()
        has_row = await self._asker.ask(
            RENEW, node=self.node, lease=self.seconds, encodes=self.encodes
        )
        self._until = started + self.seconds if has_row else started

    def _passed(self) -> list[int]:
        """Return the shards that this node does not take now."""
        return [*self.left, *(shard for shard, (until, _) in self._spared.items() if until > now())]

    async def spare(self, shard: int) -> bool:
        """Release a shard that this node cannot read, and another node may be able to read.

        Return False if no node has come since the last try.
        """
        before = self._spared.get(shard, (0.0, 0.0))[1]
        rows = await self._asker.ask(SPARE, shard=shard, node=self.node, before=before)
        for (at,) in rows:
            self._spared[shard] = now() + SPARED, at
        if rows:
            await self._asker.ask(notifications.NOTIFY, messages=["logs"])
        return bool(rows)

    def _look_at_left(self, rows: Sequence[tuple[int, int, bool]]) -> None:
        """Update the shards that were left to other nodes.

        The rows are those that are still open: their epochs, and whether a node drives each. If
        another node has executed one since then, this node checks it again.
        """
        still_left = {shard for shard, at, driven in rows if driven or self.left.get(shard) == at}
        self.left = {shard: at for shard, at in self.left.items() if shard in still_left}
        undriven = [shard for shard, _, driven in rows if shard in self.left and not driven]
        self._undriven = since = {shard: self._undriven.get(shard, now()) for shard in undriven}
        self._reported &= since.keys()

    def undriven(self) -> list[int]:
        """Return the shards that no node has executed for the time of a lease, each once.

        A node that is gone had that time to return, and other nodes had it to take the shards.
        """
        old = [shard for shard, since in self._undriven.items() if now() - since >= self.seconds]
        shards = [shard for shard in old if shard not in self._reported]
        self._reported.update(shards)
        return shards

    def unreport(self, shards: Sequence[int]) -> None:
        """Note that the report on these shards failed."""
        self._reported -= {*shards}

    async def secret(self) -> bytes:
        """See `Database.secret`."""
        rows = await self._asker.read(SECRET, value=secrets.token_hex(32))
        rows = rows or await self._asker.read("SELECT value FROM secrets WHERE name = 'leases'")
        return bytes.fromhex(rows[0][0])

    async def begin(self) -> str:
        """Begin the lease, and return the server's timeline.

        An earlier run under this name is over: its shards are free at once. Raises `MissingCodec`,
        `StoreLocked`.
        """
        await self._asker.ask(GONE, node=self.node, name=self.name)
        await agree_on_encoding(self._asker, self.encodes)
        timeline = (await self.beat([]))[3]
        if self._enters:
            await agree_on_encoding(self._asker, self.encodes)
        return timeline

    async def _look_for_codec(self) -> None:
        """Log why this node has no lease, if the store's values are encoded now."""
        if self.encodes or self._has_reported_codec or not await self._asker.read(NOTED):
            return
        self._has_reported_codec = True
        logger.error("%s. This node does nothing more", missing(self._asker.store_name))

    async def take(self, check_functions: FunctionCheck, mine: list[int]) -> list[ShardRow] | None:
        """Take a batch of the shards without a node, if this program has their functions.

        Return None if there are no more, or if other nodes take them.
        """
        moved = [] if self._is_stopping else [*self.moved]
        of_node = {"node": self.node, "mine": mine, "own": True}
        parameters: dict[str, Any] = {**of_node, "takes": self.takes, "moved": moved}
        rows = await self._asker.read(CANDIDATES, left=self._passed(), **parameters)
        fit = await self._fit(check_functions, [json.loads(text) for (text,) in rows])
        taken = await self._asker.ask(TAKE, shards=fit, **parameters) if fit else []
        if taken:
            return await self._has(check_functions, [shard for (shard,) in taken])
        return [] if rows and not fit else None

    async def _fit(
        self, check_functions: FunctionCheck, candidates: Sequence[Sequence[Any]]
    ) -> list[int]:
        """Return those of these shards that this program has the functions for.

        The others are left to other nodes, and released if this node owns them by now.
        """
        completed = await self._completed([shard for shard, *_ in candidates]) if candidates else {}
        missing_functions = {
            shard: check_functions(texts, indexes, completed.get(shard, []))
            for shard, texts, indexes, _ in candidates
        }
        left = {shard: at for shard, _, _, at in candidates if missing_functions[shard] is not None}
        if left:
            await self._asker.ask(LEAVE, node=self.node, shards=[*left])
            self.left |= left
            logger.info(
                "left %d shards to other nodes: %s", len(left), missing_functions[next(iter(left))]
            )
        return [shard for shard in missing_functions if shard not in left]

    async def _completed(self, shards: Sequence[int]) -> dict[int, list[CompletedChild]]:
        """Return the completed children below the open sagas of these shards."""
        rows = await self._asker.read(COMPLETED, shards=[*shards])
        if not rows:
            return {}
        digests = [*{digest for _, _, parent, _, child in rows for digest in (parent, child)}]
        return child_attempts.children_by_shard(
            rows, await self._asker.read(TEXTS_OF, digests=digests)
        )

    async def _has(self, check_functions: FunctionCheck, taken: list[int]) -> list[ShardRow]:
        """Return the shards that were just taken.

        A saga that was opened before the takeover may need a function that this program does not
        have.
        """
        rows = [
            json.loads(text)
            for (text,) in await self._asker.read(TAKEN, node=self.node, shards=taken)
        ]
        fit = await self._fit(check_functions, [(row[0], row[2], row[6], row[5]) for row in rows])
        return [ShardRow(*row[:6], *row[7:]) for row in rows if row[0] in fit]

    async def end(self) -> None:
        """Release all that this node has."""
        await self._asker.ask(HAND_OVER, node=self.node)
        await self._asker.ask(notifications.NOTIFY, messages=["logs", notifications.STARTS])


def describe_undriven(store_name: str, shards: Sequence[int], rows: Sequence[Sequence[Any]]) -> str:
    """Return a message that no node drives these shards, from the rows of `UNDRIVEN`."""
    descriptions = []
    for text, count, sagas in rows:
        name = f"{tomllib.loads(text)['name']} (version {version_of(text)})"
        descriptions.append(f"{name}: {number(sagas, 'saga')} in {number(count, 'shard')}")
    return (
        f"{store_name}: no node executes {number(len(shards), 'shard')}, because none has "
        f"the functions of their open sagas: {'; '.join(descriptions)}. Start a program that "
        "has them, and see `sagas store URL nodes`"
    )
