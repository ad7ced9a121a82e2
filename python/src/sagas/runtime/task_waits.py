"""Claims that wait for tasks."""

from __future__ import annotations

import asyncio
import collections
from collections.abc import Sequence


def _set(future: asyncio.Future[None]) -> None:
    if not future.done():
        future.set_result(None)


class TaskWaits:
    """The claims of this program that wait for tasks, by task."""

    def __init__(self, loop: asyncio.AbstractEventLoop) -> None:
        self._loop = loop
        self._by_task: dict[str, dict[asyncio.Future[None], None]] = {}

    def __bool__(self) -> bool:
        """Return whether a claim waits."""
        return bool(self._by_task)

    def wake(self, task: str, count: int = 1) -> None:
        """Wake up to `count` claims that wait for a task, the longest first."""
        for future in self._by_task.get(task, ()):
            if count <= 0:
                break
            if not future.done():
                _set(future)
                count -= 1

    def wake_each(self) -> None:
        """Wake a claim of each task."""
        for task in self._by_task:
            self.wake(task)

    def wake_all(self) -> None:
        """Wake all claims, so that they end."""
        for waiting in list(self._by_task.values()):
            for future in list(waiting):
                _set(future)

    def suffice(self, tasks: Sequence[str]) -> bool:
        """Return whether a claim waits for each of these tasks, which are offered now."""
        return all(count <= self._idle(task) for task, count in collections.Counter(tasks).items())

    def _idle(self, task: str) -> int:
        """Return how many claims wait for a task, and are not woken."""
        return sum(not future.done() for future in self._by_task.get(task, ()))

    async def wait(self, tasks: Sequence[str], seconds: float) -> None:
        """Wait until there may be one of these tasks."""
        future: asyncio.Future[None] = self._loop.create_future()
        timer = self._loop.call_later(seconds, _set, future)
        for task in tasks:
            self._by_task.setdefault(task, {})[future] = None
        is_woken = False
        try:
            await future
            is_woken = True
        finally:
            timer.cancel()
            self._leave(tasks, future)
            if future.done() and not future.cancelled() and not is_woken:
                for task in tasks:  # the caller was cancelled: another claim takes the task
                    self.wake(task)

    def _leave(self, tasks: Sequence[str], future: asyncio.Future[None]) -> None:
        for task in tasks:
            waiting = self._by_task.get(task, {})
            waiting.pop(future, None)
            if not waiting:
                self._by_task.pop(task, None)
