"""All steps of a saga have one token."""

from __future__ import annotations

from typing import Any

from sagas.definition.task import Task

FINDS = "tokens"
STRIKES = "child"


def apply() -> None:
    """Leave the step out."""

    def idempotency_key(self: Task[Any]) -> str:
        return f"{self._data.saga_token}-step-{'undo' if self.is_compensation else 'run'}"

    setattr(Task, "idempotency_key", property(idempotency_key))
