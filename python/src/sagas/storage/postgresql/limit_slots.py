"""Slots of fleet limits and rate limits.

The slots of steps that are limited over all nodes are rows. One statement takes and frees them, by
the server's clock.
"""

from __future__ import annotations

from collections.abc import Callable, Sequence

from sagas.core.shard.batch import Grant
from sagas.definition.call_options import Bounds
from sagas.storage.postgresql.connections import Asker
from sagas.storage.postgresql.node_lease import LIVE

MAKE = """
INSERT INTO limit_slots(name, kind, slot)
SELECT %(name)s, 'limit', n FROM generate_series(1, %(limit)s) n
UNION ALL SELECT %(name)s, 'rate', n FROM generate_series(1, %(calls)s) n
ON CONFLICT DO NOTHING
"""
SLACK = 1
"""Seconds that a slot may be taken for longer than its rate.

A slot that is taken for longer was taken before the clock was set back. But another statement may
have read the clock a moment later than this one, and ended before it.
"""
TAKE = f"""
WITH clock AS MATERIALIZED (SELECT extract(epoch FROM clock_timestamp())::double precision AS now),
back AS (UPDATE limit_slots SET node = NULL
  WHERE name = %(name)s AND kind = 'limit' AND node = %(node)s
    AND slot <> ALL(%(have)s::integer[]) RETURNING slot),
room AS MATERIALIZED (SELECT slot FROM limit_slots p
  WHERE name = %(name)s AND kind = 'limit' AND slot <= %(limit)s
    AND (node IS NULL OR NOT {LIVE.format('p.node')})
  ORDER BY slot LIMIT %(want)s FOR UPDATE SKIP LOCKED),
times AS MATERIALIZED (SELECT slot FROM limit_slots, clock
  WHERE name = %(name)s AND kind = 'rate' AND slot <= %(calls)s
    AND (until IS NULL OR until <= now OR until > now + %(seconds)s::double precision + {SLACK})
  ORDER BY slot LIMIT %(want)s FOR UPDATE OF limit_slots SKIP LOCKED),
most AS MATERIALIZED (SELECT least(%(want)s::bigint,
  CASE WHEN %(limit)s > 0 THEN (SELECT count(*) FROM room) END,
  CASE WHEN %(calls)s > 0 THEN (SELECT count(*) FROM times) END) AS most),
mine AS (UPDATE limit_slots p SET node = %(node)s
  FROM (SELECT slot FROM room ORDER BY slot LIMIT (SELECT most FROM most)) r
  WHERE p.name = %(name)s AND p.kind = 'limit' AND p.slot = r.slot RETURNING p.slot),
taken AS (UPDATE limit_slots p SET until = now + %(seconds)s::double precision
  FROM (SELECT slot FROM times ORDER BY slot LIMIT (SELECT most FROM most)) r, clock
  WHERE p.name = %(name)s AND p.kind = 'rate' AND p.slot = r.slot RETURNING p.slot)
SELECT (SELECT most FROM most), ARRAY(SELECT slot FROM mine ORDER BY slot),
  (SELECT count(*) FROM back),
  (SELECT min(until) - min(now) FROM limit_slots, clock
    WHERE name = %(name)s AND kind = 'rate' AND slot <= %(calls)s AND until > now),
  CASE WHEN (SELECT most FROM most) < %(want)s THEN (
    SELECT count(*) < %(limit)s + %(calls)s FROM limit_slots
    WHERE name = %(name)s AND slot <= CASE kind WHEN 'limit' THEN %(limit)s ELSE %(calls)s END) END
"""
"""Takes slots.

The last column, if not all slots are taken: whether rows of slots are missing. They are missing at
first, and after another server has taken over without them. So no program remembers that they
exist.
"""


TAKE_KEYED = f"""
WITH back AS (DELETE FROM limit_slots
  WHERE name = %(name)s AND kind = 'limit' AND node = %(node)s
    AND slot <> ALL(%(have)s::integer[]) RETURNING slot),
mine AS (INSERT INTO limit_slots(name, kind, slot, node)
  SELECT %(name)s, 'limit', n, %(node)s FROM generate_series(1, %(limit)s) n
  WHERE NOT EXISTS (SELECT 1 FROM limit_slots p
    WHERE p.name = %(name)s AND p.kind = 'limit' AND p.slot = n
      AND (p.node = %(node)s OR {LIVE.format('p.node')}))
  ORDER BY n LIMIT %(want)s
  ON CONFLICT (name, kind, slot) DO UPDATE SET node = excluded.node
    WHERE limit_slots.node IS NULL OR NOT {LIVE.format('limit_slots.node')}
  RETURNING slot)
SELECT (SELECT count(*) FROM mine), ARRAY(SELECT slot FROM mine ORDER BY slot),
  (SELECT count(*) FROM back), NULL::double precision, false
"""
"""As `TAKE`, for the limit of a key.

There may be any number of keys, so a slot has a row only while a node has the slot.
"""
TIDY = f"""
DELETE FROM limit_slots WHERE (name, kind, slot) IN (SELECT name, kind, slot FROM limit_slots p
  WHERE kind = 'limit' AND name LIKE '%%/%%/%%'
    AND (node IS NULL OR NOT {LIVE.format('p.node')}) FOR UPDATE SKIP LOCKED)
"""
"""Deletes the slots of keys that no live node has, and those of earlier releases.

The name of a slot has two parts, and that of a keyed slot has three.
"""


class LimitSlots:
    """Takes slots for one node."""

    def __init__(self, asker: Asker, node: str, say: Callable[[list[str]], object]) -> None:
        """Create the slots of a node. `say` notifies the other nodes of freed slots."""
        self._asker, self._node, self._say = asker, node, say

    async def take(
        self, name: str, bounds: Bounds, want: int, have: Sequence[int], look: float
    ) -> Grant:
        """See `Database.admit`.

        `look`: seconds until the next look for slots of nodes that are gone.
        """
        calls, seconds = bounds.rate_limit or (0, 0.0)
        parameters = {"name": name, "limit": bounds.concurrency or 0, "calls": calls}
        counts = {"seconds": seconds, "node": self._node, "want": want, "have": list(have)}
        take = TAKE_KEYED if bounds.is_keyed else TAKE
        (row,) = await self._asker.ask(take, **parameters, **counts)
        if row[2]:
            self._say(["places"])
        if row[-1]:
            await self._asker.ask(MAKE, **parameters)
            (row,) = await self._asker.ask(take, **parameters, **counts)
        count, slots, _, pause, _ = row
        pause_until_free = float(pause if pause is not None else seconds) if calls else look
        return Grant(
            int(count),
            slots,
            min(pause_until_free, look) if bounds.concurrency else pause_until_free,
        )
