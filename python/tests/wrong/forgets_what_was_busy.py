"""Attempts that an earlier program had started are not recovered."""

from __future__ import annotations

from typing import Any

from sagas.core import recovery

FINDS = "not-over"
STRIKES = "program"


def apply() -> None:
    """Take nothing for busy."""
    right = recovery._resume

    def resume(recovered: recovery.Recovery, *arguments: Any) -> None:
        right(recovered, *arguments)
        recovered.resumed.clear()

    setattr(recovery, "_resume", resume)
