"""A function gets the results of another saga."""

from __future__ import annotations

import dataclasses
from typing import Any

from sagas.celery.worker import Work
from sagas.definition.task import Task
from sagas.definition.task_data import snapshot
from sagas.core.attempt.external_work import AttemptTexts, Order

FINDS = "handed"
STRIKES = "run"


def apply() -> None:
    """Keep results by the step's name only."""
    right = Work._task
    seen: dict[str, str] = {}

    def task(self: Work, order: Order, begun: AttemptTexts) -> Task[Any]:
        task_data = snapshot(right(self, order, begun)._data)
        return Task(
            dataclasses.replace(
                task_data,
                needed_results={
                    name: seen.setdefault(name, text)
                    for name, text in task_data.needed_results.items()
                },
            )
        )

    setattr(Work, "_task", task)
