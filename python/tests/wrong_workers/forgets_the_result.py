"""A compensation does not get the result that it undoes."""

from __future__ import annotations

import dataclasses
from typing import Any

from sagas.celery.worker import Work
from sagas.definition.task import Task
from sagas.definition.task_data import snapshot
from sagas.core.attempt.external_work import AttemptTexts, Order

FINDS = "handed"
STRIKES = "run"


def apply() -> None:
    """Pass no result to a compensation."""
    right = Work._task

    def task(self: Work, order: Order, begun: AttemptTexts) -> Task[Any]:
        task_data = snapshot(right(self, order, begun)._data)
        return Task(dataclasses.replace(task_data, own_result="null" if task_data.undo else None))

    setattr(Work, "_task", task)
