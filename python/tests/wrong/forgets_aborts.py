"""An abort is promised, and does not reach the engine."""

from __future__ import annotations

from sagas.api.store import Store

FINDS = "lost"
STRIKES = "child"


def apply() -> None:
    """Accept each abort, and drop it."""

    async def abort(self: Store, key: str) -> bool:
        return True

    setattr(Store, "abort", abort)
