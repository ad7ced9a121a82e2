"""A commit of one log writes everything if the log is this node's, even after another takeover."""

from __future__ import annotations

from sagas.storage.postgresql import commit_statement

FINDS = {"keys"}
MOMENT = "a_refused_start_comes_late"


def apply() -> None:
    """Compare only the owner."""
    setattr(
        commit_statement,
        "ALONE",
        commit_statement.ALONE.replace("epoch = $4::bigint", "$4::bigint > 0"),
    )
