"""Questions about the nodes of a PostgreSQL store."""

from __future__ import annotations

import json

from sagas.core.nodes import Drain, NodeStatus
from sagas.definition.capacity import SHARD_CAPACITY
from sagas.inspection.question import Query, Question, Row

OPEN = f"""s.id >= l.shard * {SHARD_CAPACITY} AND s.id < (l.shard + 1) * {SHARD_CAPACITY}
    AND s.phase IS NULL"""
"""The open sagas `s` of a shard `l`."""
OWNED = "SELECT 1 FROM shards l WHERE l.owner = n.node AND l.closed = 0"
NODES = f"""
SELECT n.name, n.node, n.release, n.version, array_to_json(coalesce(n.kinds, '{{}}'))::text,
  extract(epoch FROM n.since), extract(epoch FROM n.lease - now()),
  extract(epoch FROM now() - n.beat),
  (SELECT count(*) FROM shards l WHERE l.owner = n.node AND l.closed = 0),
  (SELECT count(*) FROM shards l JOIN sagas s ON {OPEN} WHERE l.owner = n.node AND l.closed = 0),
  n.running, n.concurrency, n.stopping, d.note, d.drained_by, d.at
FROM nodes n LEFT JOIN drains d ON d.name = n.name AND d.seen > now() - interval '1 day'
WHERE n.lease > now() OR EXISTS ({OWNED})
ORDER BY n.name, n.since
"""
ENDED = """
SELECT d.name, d.note, d.drained_by, d.at FROM drains d
WHERE d.seen > now() - interval '1 day' AND NOT EXISTS (
  SELECT 1 FROM nodes n WHERE n.name = d.name AND n.lease > now()) ORDER BY 1
"""
"""Nodes that have ended while they were drained."""


def nodes() -> Question[list[NodeStatus]]:
    """Return the nodes that run or have shards, and those that ended while they were drained."""
    running = [_status(row) for row in (yield Query(NODES, is_long=True))]
    names = {node.name for node in running}
    ended = yield Query(ENDED)
    return running + [
        NodeStatus(name, drain=Drain(note, by, float(at)))
        for name, note, by, at in ended
        if name not in names
    ]


def _status(row: Row) -> NodeStatus:
    name, node, release, version, kinds, since, lease, age, *figures, note, by, at = row
    shards, open_sagas, running, concurrency, is_stopping = figures
    return NodeStatus(
        name,
        str(node).rpartition("/")[2],
        release,
        version,
        tuple(json.loads(kinds)),
        float(since),
        float(lease),
        None if age is None else float(age),
        int(shards),
        int(open_sagas),
        running,
        concurrency,
        is_stopping,
        None if note is None else Drain(note, by, float(at)),
    )
