"""Attempts that an earlier program had started count as done."""

from __future__ import annotations

from typing import Any

from sagas.core import outcomes, recovery
from sagas.core.states import AttemptState

FINDS = "no-effect"
STRIKES = "program"


def apply() -> None:
    """Report busy attempts without a call."""
    right = recovery._resume

    def resume(recovered: recovery.Recovery, *arguments: Any) -> None:
        right(recovered, *arguments)
        for attempt in recovered.resumed:
            if attempt.state is AttemptState.CLAIMED:
                attempt.finish(outcomes.succeeded(None), 0.0)

    setattr(recovery, "_resume", resume)
