"""The statement that ends a step's transaction.

The record and the commit are one text. The server stops at the first part that it refuses. The text
names every table with its schema, and leaves the user's settings unchanged. The record is prepared
when a connection is made, since planning it takes the server longer than executing it.
"""

from __future__ import annotations

from collections.abc import Sequence
from typing import Any, NamedTuple

from psycopg import pq

from sagas.core.shard.batch import Tail
from sagas.storage.postgresql import connections
from sagas.storage.postgresql.step_connections import encoding_of, is_prepared

COMMIT = "; COMMIT"
UNPREPARED = ("26000", "42P05")
"""SQLSTATEs of a statement that is no longer prepared, or is already prepared.

A function deallocated it unnoticed, or a pooler changed the session.
"""
PREPARED = "sagas_record"
"""The name of the prepared record."""
PARAMETERS = {
    "id": "bigint",
    "step": "integer",
    "action": "text",
    "attempt": "integer",
    "shard": "bigint",
    "node": "text",
    "epoch": "bigint",
    "timeline": "text",
    "first_seq": "integer",
    "committed_at": "double precision",
    "value": "text",
}
TABLE = "sagas", "attempts"
"""The schema and the name of the table that a record is written to."""
RECORD = f"""INSERT INTO {'.'.join(TABLE)} VALUES ({{id}}, {{step}}, {{action}}, {{attempt}},
  (SELECT 'ok' FROM sagas.shards WHERE shard = {{shard}} AND owner = {{node}}
    AND epoch = {{epoch}} AND {connections.TIMELINE} = {{timeline}}
    AND EXISTS (SELECT 1 FROM sagas.event_log WHERE shard = {{shard}}
      AND first_seq = {{first_seq}} AND committed_at = {{committed_at}}) FOR SHARE),
  {{value}}, extract(epoch FROM clock_timestamp()))"""
"""Records a result.

If this node no longer owns the shard, or the shard lacks a commit from before the attempt began,
the outcome is null. The server refuses that, and nothing is committed.
"""


def prepares() -> str:
    """Return the statements that prepare the record when a connection is made.

    They also plan it, by keys: a plan for small tables would be kept while the tables grow. The
    settings are only for this text.
    """
    parameters = {name: f"${number}" for number, name in enumerate(PARAMETERS, 1)}
    types, nulls = ", ".join(PARAMETERS.values()), ", ".join("NULL" for _ in PARAMETERS)
    return "; ".join(
        [
            "SET LOCAL enable_seqscan = off; SET LOCAL plan_cache_mode = force_generic_plan",
            f"PREPARE {PREPARED}({types}) AS {RECORD.format(**parameters)}",
            f"EXPLAIN EXECUTE {PREPARED}({nulls})",
        ]
    )


class Fence(NamedTuple):
    """The owner that a shard must have for a commit, and a chunk of its log."""

    shard: int
    node: str
    epoch: int
    timeline: str
    tail: Tail


def _literal(connection: Any, text: str) -> str:
    """Return a text as a literal of this connection."""
    if text.isascii() and "'" not in text and "\\" not in text and "\0" not in text:
        return f"'{text}'"
    encoding = encoding_of(connection)
    escaped = pq.Escaping(connection.pgconn).escape_literal(text.encode(encoding))
    return bytes(escaped).decode(encoding)


def record_and_commit(connection: Any, row: Sequence[Any], fence: Fence, value: str) -> str:
    """Return the record of a result, which locks the shard's row, and the commit."""
    id, step, action, attempt = row
    shard, node, epoch, timeline, (first_seq, committed_at) = fence
    parameters = [
        str(id),
        str(step),
        f"'{action}'",
        str(attempt),
        str(shard),
        _literal(connection, node),
        str(epoch),
        f"'{timeline}'",
        str(first_seq),
        f"'{committed_at!r}'",
        _literal(connection, value),
    ]
    if is_prepared(connection):
        return f"EXECUTE {PREPARED}({', '.join(parameters)}){COMMIT}"
    return RECORD.format(**dict(zip(PARAMETERS, parameters))) + COMMIT
