"""Stores the counts of this node's events by time, for charts."""

from __future__ import annotations

import asyncio
import contextlib
from collections.abc import Awaitable, Callable

from sagas.base.errors import SagasError
from sagas.base.logger import logger
from sagas.core.trends import Counted, TrendCounts, rows_of
from sagas.runtime.leased_tasks import Queue
from sagas.storage import admin, trends
from sagas.storage.interface import Database

INTERVAL = 60.0
"""Seconds between two writes."""
CLOSING = 2.0
"""Seconds for which the last write may delay closing."""


class TrendKeeper:
    """Counts events in memory, and adds the counts to the table once a minute.

    Only charts read them. A kill loses the counts of the last minute. Counts that could not be
    stored are stored with the next ones.

    Attributes:
        counts: What is not stored yet.
    """

    def __init__(
        self,
        store: Database,
        clock: Callable[[], float],
        queues: Callable[[], Awaitable[list[Queue]]],
    ) -> None:
        """`queues` returns the queues of the tasks of workers."""
        self._store, self._clock, self._queues = store, clock, queues
        self.counts = TrendCounts()

    async def run(self) -> None:
        """Store the counts at the end of each minute, and once more when cancelled."""
        try:
            while True:
                await asyncio.sleep(INTERVAL - self._clock() % INTERVAL)
                await self.write()
        finally:
            if self.counts and self._store.holds():
                with contextlib.suppress(TimeoutError, RuntimeError):  # the interpreter ends
                    async with asyncio.timeout(CLOSING):
                        await self._keep()

    async def write(self) -> None:
        """Store the counts, and the age of the oldest task of each definition."""
        await self._note_ages()
        await self._keep()

    async def _note_ages(self) -> None:
        try:
            queues = await self._queues()
        except SagasError as error:
            logger.debug("the queues were not read: %s", type(error).__name__)
            return
        now = self._clock()
        for queue in queues:
            if queue.ready and queue.oldest is not None:
                self.counts.add_age(queue.saga, now - queue.oldest)

    async def _keep(self) -> None:
        counts, now = self.counts.take(), self._clock()
        if not counts:
            return
        try:
            await asyncio.to_thread(_add, self._store.file, counts, now)
        except (SagasError, admin.Trouble, OSError) as error:
            self.counts.put_back(counts)
            logger.debug("the counts for charts were not stored: %s", type(error).__name__)


def _add(name: str, counts: Counted, now: float) -> None:
    """Add counts in a thread. They are of the time before `now`, which may begin a bucket."""
    with admin.writing(name) as connection:
        trends.add(connection, rows_of(counts, now - 1), now)
