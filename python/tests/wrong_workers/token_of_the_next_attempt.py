"""A function gets the token of the next attempt."""

from __future__ import annotations

import dataclasses
from typing import Any

from sagas.celery.worker import Work
from sagas.definition.task import Task
from sagas.definition.task_data import snapshot
from sagas.core.attempt.external_work import AttemptTexts, Order

FINDS = "begun-early"
STRIKES = "run"


def apply() -> None:
    """Count the attempt before it starts."""
    right = Work._task

    def task(self: Work, order: Order, begun: AttemptTexts) -> Task[Any]:
        task_data = snapshot(right(self, order, begun)._data)
        return Task(dataclasses.replace(task_data, attempt=task_data.attempt + 1))

    setattr(Work, "_task", task)
