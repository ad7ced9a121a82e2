"""The lines are committed, and the results are not."""

from __future__ import annotations

from sagas.core.effects import Effects
from sagas.runtime.shard_runner import ShardRunner

FINDS = "results"
STRIKES = "child"


def apply() -> None:
    """Leave each seventh batch's results out."""
    right, count = ShardRunner._commit, 0

    def commit(self: ShardRunner, effects: Effects, at_once: bool) -> None:
        nonlocal count
        count += 1
        if count % 7 == 0:
            effects.batch.results.clear()
        right(self, effects, at_once)

    setattr(ShardRunner, "_commit", commit)
