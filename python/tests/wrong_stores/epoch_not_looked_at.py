"""A commit writes everything, whichever node has the log now."""

from __future__ import annotations

from sagas.storage.postgresql import commit_statement

FINDS = {
    "illegal",
    "audit",
    "results",
    "end",
    "gap",
    "no-effect",
    "told-early",
    "begun-early",
    "effect-lost",
    "wrong-attempt",
}
STRIKES = "sleep"
MOMENT = "another_node_has_the_log"


def apply() -> None:
    """Take each log for this node's, and the stored lines for its own."""
    setattr(commit_statement, "KEPT", commit_statement.KEPT.replace(" FOR SHARE", ""))
    setattr(
        commit_statement,
        "ALONE",
        (
            "shard = $3::bigint AND $2::text IS NOT NULL AND $4::bigint IS NOT NULL AND"
            " num_nulls($5::integer, $6::float8) >= 0"
        ),
    )
    setattr(
        commit_statement,
        "LISTED",
        (
            "shard = ANY($3::bigint[]) AND $2::text IS NOT NULL AND $4::bigint[] IS NOT NULL AND"
            " num_nulls($5::integer[], $6::float8[]) >= 0"
        ),
    )
    commit_statement.PARTS["lines"] += " ON CONFLICT DO NOTHING"
