"""As `epoch_of_a_log_not_compared`, of a commit of several logs."""

from __future__ import annotations

from sagas.storage.postgresql import commit_statement

FINDS = {"came-late"}
MOMENT = "a_commit_of_two_logs_comes_late"


def apply() -> None:
    """Compare only the owner."""
    right = commit_statement.LISTED
    setattr(
        commit_statement,
        "LISTED",
        right.replace(
            "epoch = ($4::bigint[])[array_position($3, shard)]", "$4::bigint[] IS NOT NULL"
        ),
    )
