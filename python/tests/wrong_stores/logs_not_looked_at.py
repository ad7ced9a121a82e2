"""A commit of several logs writes everything, whichever nodes have them now."""

from __future__ import annotations

from sagas.storage.postgresql import commit_statement

FINDS = {"not-its-own"}
MOMENT = "another_node_has_one_of_two_logs"


def apply() -> None:
    """Take each log for this node's."""
    setattr(
        commit_statement,
        "LISTED",
        (
            "shard = ANY($3::bigint[]) AND $2::text IS NOT NULL AND $4::bigint[] IS NOT NULL AND"
            " num_nulls($5::integer[], $6::float8[]) >= 0"
        ),
    )
