"""Functions are called, and callers notified, before the commit."""

from __future__ import annotations

from wrong import slow_disk

from sagas.core.effects import Effects
from sagas.runtime.shard_runner import EffectHandler, ShardRunner

FINDS = "begun-early"
STRIKES = "program"


def apply() -> None:
    """Act first, and commit then."""
    slow_disk()
    right, act = ShardRunner._commit, EffectHandler.committed

    def commit(self: ShardRunner, effects: Effects, at_once: bool) -> None:
        act(self._effects, effects)
        right(self, effects, at_once)

    setattr(ShardRunner, "_commit", commit)
    setattr(EffectHandler, "committed", lambda self, effects: None)
