"""Another node's saga with the same key does not prevent a start."""

from __future__ import annotations

from sagas.storage.postgresql import commit_statement

FINDS = {"keys"}
STRIKES = "nodes"
MOMENT = "two_nodes_start_a_key_at_once"
UNRECORDED = "each record is of one shard, and the two sagas are in two"


def apply() -> None:
    """Leave the row out if the key exists, and keep the lines."""
    commit_statement.PARTS["opened"] += " ON CONFLICT DO NOTHING"
