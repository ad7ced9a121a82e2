"""A step that runs again after a kill has another token."""

from __future__ import annotations

import os
from typing import Any

from sagas.definition.task import Task

FINDS = "no-effect"
STRIKES = "program"


def apply() -> None:
    """Put the number of the process into the token."""

    def idempotency_key(self: Task[Any]) -> str:
        kind = "undo" if self.is_compensation else "run"
        return f"{self._data.saga_token}-{self.step}-{kind}{os.getpid()}"

    setattr(Task, "idempotency_key", property(idempotency_key))
