"""Moves of shards between nodes, and the nodes that an operator has drained.

A shard that moves gets the other node as its owner in one statement. So it always has an owner: the
other node takes it with its next heartbeat, or, if that node is gone, any node takes it once the
lease has expired.
"""

from __future__ import annotations

from sagas.core.shard.balance import NodeShare
from sagas.storage.postgresql import connections, notifications
from sagas.storage.postgresql.connections import RAISED

OTHERS = """EXISTS (SELECT 1 FROM nodes n WHERE n.node <> %(node)s AND n.lease > now()
  AND NOT n.stopping AND NOT EXISTS (SELECT 1 FROM drains d WHERE d.name = n.name))"""
"""Whether another node runs that is not drained."""
IS_DRAINED = f"(EXISTS (SELECT 1 FROM drains d WHERE d.name = %(name)s) AND {OTHERS})"
"""Whether this node is drained. It has no effect while no other node could do the work."""
SEEN = """UPDATE drains SET seen = now()
  WHERE name = %(name)s AND seen < now() - interval '1 minute'"""
"""Notes that a drained node still runs."""
FORGET = "DELETE FROM drains WHERE seen < now() - interval '1 day'"
"""Forgets the drains of nodes that have been gone for a day."""
SHARES = """
SELECT n.node, n.name, coalesce(c.shards, 0) - coalesce(n.accepting, 0),
  coalesce(n.open_sagas, 0), coalesce(n.kinds, '{}'),
  n.concurrency IS NOT NULL AND NOT n.stopping AND d.name IS NULL, d.name IS NOT NULL
FROM nodes n LEFT JOIN drains d ON d.name = n.name
LEFT JOIN (SELECT owner, count(*) AS shards FROM shards WHERE closed = 0 GROUP BY owner) c
  ON c.owner = n.node
WHERE n.lease > now() ORDER BY n.node
"""
MOVE = f"""
WITH counts AS (SELECT count(*) FILTER (WHERE owner = %(node)s) AS here,
  count(*) FILTER (WHERE owner = %(taker)s) AS there
  FROM shards WHERE closed = 0 AND owner IN (%(node)s, %(taker)s)),
mine AS (UPDATE shards l SET owner = t.node, epoch = l.epoch + 1 FROM counts c, nodes m, nodes t
  WHERE l.shard = %(shard)s AND l.owner = %(node)s AND l.epoch = %(epoch)s AND l.closed = 0
  AND m.node = %(node)s AND m.lease > now() AND t.node = %(taker)s AND t.lease > now()
  AND t.concurrency IS NOT NULL AND NOT t.stopping
  AND NOT EXISTS (SELECT 1 FROM drains d WHERE d.name = t.name)
  AND (%(difference)s::bigint IS NULL OR c.here - coalesce(m.accepting, 0)
    - (c.there - coalesce(t.accepting, 0)) >= %(difference)s::bigint)
  RETURNING l.shard, l.epoch),
noted AS ({RAISED})
SELECT shard FROM mine
"""
"""Passes a shard to another node.

The difference is checked again, because several nodes may move shards to the same one.
"""


async def shares(asker: connections.Asker) -> list[NodeShare]:
    """Return the nodes with a valid lease."""
    return [
        NodeShare(node, name, shards, open_sagas, frozenset(kinds), accepts, is_drained)
        for node, name, shards, open_sagas, kinds, accepts, is_drained in await asker.read(SHARES)
    ]


async def move(
    asker: connections.Asker, shard: int, epoch: int, node: str, taker: str, difference: int | None
) -> bool:
    """Pass a shard to another node. See `Database.move`."""
    parameters = {"shard": shard, "epoch": epoch, "node": node, "taker": taker}
    moved = await asker.ask(MOVE, difference=difference, **parameters)
    if moved:
        await asker.ask(notifications.NOTIFY, messages=["logs"])
    return bool(moved)
