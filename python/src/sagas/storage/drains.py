"""The table `drains`: its statements. Only a store over PostgreSQL has nodes."""

from __future__ import annotations

from sagas.base.errors import NoSuchNode
from sagas.core.decisions import Decision
from sagas.storage import store_decisions, store_name
from sagas.storage.admin import Source

NODE = """
SELECT 1 FROM nodes n WHERE n.name = ? AND (n.lease > now()
  OR EXISTS (SELECT 1 FROM shards l WHERE l.owner = n.node AND l.closed = 0))
UNION ALL SELECT 1 FROM drains WHERE name = ? LIMIT 1
"""
PUT = """
INSERT INTO drains(name, note, drained_by, at) VALUES(?, ?, ?, ?)
ON CONFLICT(name) DO UPDATE
SET note = excluded.note, drained_by = excluded.drained_by, at = excluded.at, seen = now()
"""
DRAINED = "drained"
"""The message that a node was drained, or not any more."""


def put(connection: Source, node: str, note: str, by: str | None) -> None:
    """Drain a node. It replaces the note of an earlier drain.

    Raises:
        NoSuchNode: No node of the store has the name.
    """
    _check(connection, node)
    if not connection.ask(NODE, node, node):
        raise NoSuchNode(f"no node has the name {node!r}. `nodes` lists them")
    at = connection.now()

    def write() -> None:
        connection.changed(PUT, node, note, None if by is None else str(by), at)
        store_decisions.put(connection, Decision.DRAIN, subject_of(node), at, by, note)

    connection.atomically(write)
    connection.notify(DRAINED)


def remove(connection: Source, node: str, note: str | None, by: str | None) -> None:
    """End the drain of a node.

    Raises:
        NoSuchNode: The node is not drained.
    """
    _check(connection, node)

    def delete() -> None:
        if not connection.changed("DELETE FROM drains WHERE name = ?", node):
            raise NoSuchNode(f"node {node!r} is not drained. `nodes` lists which are")
        at = connection.now()
        store_decisions.put(connection, Decision.UNDRAIN, subject_of(node), at, by, note)

    connection.atomically(delete)
    connection.notify(DRAINED)


def _check(connection: Source, node: str) -> None:
    if not store_name.supports_nodes(connection.name):
        raise NoSuchNode(
            f"{connection.name} is a SQLite file. It has one node, and no other takes its shards"
        )


def subject_of(node: str) -> str:
    """Return the subject of a decision on a node."""
    return f"node:{node}"
