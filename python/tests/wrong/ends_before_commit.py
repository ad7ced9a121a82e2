"""Callers that wait for the end are notified before the commit."""

from __future__ import annotations

from wrong import slow_disk

from sagas.core.effects import Effects
from sagas.runtime.shard_runner import EffectHandler

FINDS = "told-early"
STRIKES = "program"


def apply() -> None:
    """Report an end as soon as the engine has replied."""
    slow_disk()
    right = EffectHandler.at_once

    def at_once(self: EffectHandler, effects: Effects) -> None:
        right(self, effects)
        self._ended(effects.ended)
        effects.ended = []

    setattr(EffectHandler, "at_once", at_once)
