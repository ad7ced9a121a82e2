"""The attempts that a node has offered, in the order of their offers.

A claim at the node looks for them first. They are only hints: the database decides who gets an
attempt, and every attempt is also found without a hint.
"""

from __future__ import annotations

import heapq
import itertools
from collections.abc import Iterable, Sequence
from operator import itemgetter


class ReadyAttempts:
    """The attempts that wait for a worker, by task, as far as their node knows."""

    def __init__(self) -> None:
        self._by_task: dict[str, dict[str, int]] = {}
        self._count = itertools.count()

    def add(self, task: str, attempt: str) -> None:
        """Add an attempt that was offered."""
        self._by_task.setdefault(task, {}).setdefault(attempt, next(self._count))

    def discard(self, tasks: Iterable[str], attempts: Sequence[str]) -> None:
        """Remove attempts of these tasks that no longer wait."""
        for task in tasks if attempts else ():
            if waiting := self._by_task.get(task):
                for attempt in attempts:
                    waiting.pop(attempt, None)
                if not waiting:
                    del self._by_task[task]

    def first(self, tasks: Sequence[str], limit: int) -> list[str]:
        """Return attempts of these tasks: those that were offered first, up to a limit."""
        queues = [queue.items() for task in tasks if (queue := self._by_task.get(task))]
        if len(queues) == 1:
            return [attempt for attempt, _ in itertools.islice(queues[0], limit)]
        merged = heapq.merge(*queues, key=itemgetter(1))
        return [attempt for attempt, _ in itertools.islice(merged, limit)]
