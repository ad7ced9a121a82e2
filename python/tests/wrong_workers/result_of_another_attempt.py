"""The outcome of the first attempt is taken for that of each one."""

from __future__ import annotations

from typing import Any

from sagas.celery import worker
from sagas.core.outcomes import Outcome
from sagas.definition.call_options import Function, Manner
from sagas.definition.task import Task

FINDS = "not-called"
STRIKES = "run"


def apply() -> None:
    """Keep outcomes by the effect's token, and not by the attempt's."""
    right = worker._call
    kept: dict[str, Outcome] = {}

    def call(function: Function, manner: Manner, task: Task[Any]) -> Outcome:
        if task.idempotency_key not in kept:
            outcome = right(function, manner, task)
            if outcome.kind == "unknown":
                return outcome
            kept[task.idempotency_key] = outcome
        return kept[task.idempotency_key]

    setattr(worker, "_call", call)
