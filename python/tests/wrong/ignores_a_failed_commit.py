"""A commit that failed is taken for one that succeeded."""

from __future__ import annotations

from sagas.core.effects import Effects
from sagas.runtime.shard_runner import ShardRunner

FINDS = "told-early"
STRIKES = "disk"


def apply() -> None:
    """Act whatever the result of the commit."""

    def failed(self: ShardRunner, effects: Effects, fault: BaseException | None) -> None:
        self.committed(effects)

    setattr(ShardRunner, "failed", failed)
