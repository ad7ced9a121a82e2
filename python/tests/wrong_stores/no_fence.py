"""A commit of one log writes all lines that join on, whichever node has the log now."""

from __future__ import annotations

from sagas.storage.postgresql import commit_statement

FINDS = {"not-its-own"}
MOMENT = "another_node_has_the_only_log"


def apply() -> None:
    """Compare neither owner nor epoch; the primary key of `lines` refuses what it did before."""
    fence = (
        "shard = $3::bigint AND $2::text IS NOT NULL AND $4::bigint IS NOT NULL AND"
        " num_nulls($5::integer, $6::float8) >= 0"
    )
    setattr(commit_statement, "ALONE", fence)
