"""A compensation gets its own token instead of that of the action which it undoes."""

from __future__ import annotations

from typing import Any

from sagas.definition.task import Task

FINDS = "wrong-action"
STRIKES = "child"


def apply() -> None:
    """Mistake one token for the other."""

    def original_idempotency_key(self: Task[Any]) -> str:
        return self.idempotency_key

    setattr(Task, "original_idempotency_key", property(original_idempotency_key))
