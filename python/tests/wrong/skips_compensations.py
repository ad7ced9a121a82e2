"""Compensations count as done, and are not called."""

from __future__ import annotations

from sagas.core import outcomes
from sagas.core.attempt.directives import Decision
from sagas.core.attempt.machine import AttemptMachine
from sagas.core.attempt.model import Attempt

FINDS = "no-effect"
STRIKES = "child"


def apply() -> None:
    """Report them as done."""
    right = AttemptMachine.begin

    def begin(self: AttemptMachine, attempt: Attempt, now: float) -> Decision:
        return (
            self._finish(attempt, outcomes.succeeded(None), now)
            if attempt.undo
            else right(self, attempt, now)
        )

    setattr(AttemptMachine, "begin", begin)
