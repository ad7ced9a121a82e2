"""The effect of a step inside is committed, and the record of its result later, by itself."""

from __future__ import annotations

from collections.abc import Sequence
from typing import Any

from sagas.storage.postgresql import step_commit

FINDS = {"not-its-own", "inside-twice"}
MOMENT = "another_node_has_the_logs_of_steps_inside"
UNRECORDED = "a step's own transaction has no event, so no record has it"


def apply() -> None:
    """Commit first."""
    right = step_commit.record_and_commit

    def wrong(link: Any, row: Sequence[Any], fence: step_commit.Fence, value: str) -> str:
        return "COMMIT; " + right(link, row, fence, value).removesuffix(step_commit.COMMIT)

    setattr(step_commit, "record_and_commit", wrong)
