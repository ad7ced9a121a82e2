"""Only the epoch fences, and a node that takes over a log does not change it."""

from __future__ import annotations

from sagas.storage.postgresql import commit_statement, node_lease, shard_loader

FINDS = {
    "illegal",
    "audit",
    "results",
    "end",
    "gap",
    "no-effect",
    "told-early",
    "begun-early",
    "effect-lost",
    "wrong-attempt",
}
STRIKES = "sleep"
MOMENT = "another_node_has_the_log"


def apply() -> None:
    """Keep epochs, and do not compare owners."""
    setattr(node_lease, "TAKE", node_lease.TAKE.replace("epoch = epoch + 1", "epoch = epoch"))
    for name in ("TOGETHER", "ALONE"):
        setattr(
            shard_loader,
            name,
            getattr(shard_loader, name).replace("SET epoch = epoch + 1", "SET epoch = epoch"),
        )
    for name in ("ALONE", "LISTED"):
        setattr(
            commit_statement,
            name,
            getattr(commit_statement, name).replace("owner = $2", "$2::text IS NOT NULL"),
        )
    commit_statement.PARTS["lines"] += " ON CONFLICT DO NOTHING"
