"""The results are committed, and a line of the log is not."""

from __future__ import annotations

from sagas.core.effects import Effects
from sagas.runtime.shard_runner import ShardRunner

FINDS = "audit"
STRIKES = "closing"


def apply() -> None:
    """Leave the last line of a batch out, once.

    It is the third batch, or the first later one that has several lines.
    """
    right, count, is_done = ShardRunner._commit, 0, False

    def commit(self: ShardRunner, effects: Effects, at_once: bool) -> None:
        nonlocal count, is_done
        count += 1
        whole = effects.batch.text.splitlines(keepends=True)
        if count >= 3 and len(whole) > 1 and not is_done:
            is_done = True
            effects.batch.text = "".join(whole[:-1])
            self.driver.events -= 1
        right(self, effects, at_once)

    setattr(ShardRunner, "_commit", commit)
