"""The record of a step inside is written, whichever node has the log now."""

from __future__ import annotations

from sagas.storage.postgresql import step_commit

FINDS = {"not-its-own"}
MOMENT = "another_node_has_the_logs_of_steps_inside"
UNRECORDED = "a step's own transaction has no event, so no record has it"


def apply() -> None:
    """Take each log for this node's."""
    text = (
        step_commit.RECORD.replace(" FOR SHARE)", ")")
        .replace("owner = {node}", "{node}::text > ''")
        .replace("epoch = {epoch}", "{epoch}::bigint > 0")
    )
    assert "FOR SHARE" not in text and text.count("::bigint > 0") == text.count("::text > ''") == 1
    setattr(step_commit, "RECORD", text)
