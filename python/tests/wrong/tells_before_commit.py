"""Callers that wait for a start are notified before the commit."""

from __future__ import annotations

from wrong import slow_disk

from sagas.core.effects import Effects
from sagas.runtime.shard_runner import EffectHandler

FINDS = "told-early"
STRIKES = "program"


def apply() -> None:
    """Report an opening as soon as the engine has replied."""
    slow_disk()
    right = EffectHandler.at_once

    def at_once(self: EffectHandler, effects: Effects) -> None:
        right(self, effects)
        for saga in effects.opened:
            self._sagas.notify_started(saga)

    setattr(EffectHandler, "at_once", at_once)
