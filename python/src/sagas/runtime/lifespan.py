"""Enters the context of a store as it opens, and leaves it as it closes."""

from __future__ import annotations

import asyncio
import contextlib
import sys
from collections.abc import Callable, Coroutine
from typing import Any

from sagas.base.logger import logger
from sagas.definition import task_data
from sagas.definition.task_data import Context, ContextManager


class Lifespan:
    """The context of a store from its opening to its end.

    One task enters and leaves the context manager, because task groups and timeouts require that. A
    store may be closed by another task than the one that opened it.

    Attributes:
        hurry: Done when a further call asks to close the store sooner.
    """

    def __init__(self, source: Any, shared: Context) -> None:
        self._source, self._shared = source, shared
        self._job: asyncio.Task[None] | None = None
        self._is_over = asyncio.Event()
        self._closing: asyncio.Task[None] | None = None
        self.hurry: asyncio.Future[None] = asyncio.get_running_loop().create_future()

    async def enter(self) -> None:
        """Enter the context. Raises what the factory or the context manager raises."""
        if not task_data.is_context_factory(self._source):
            if self._source is not None:
                self._shared.put(self._source)
            return
        ready = asyncio.get_running_loop().create_future()
        job = asyncio.create_task(self._hold(ready))
        try:
            await asyncio.wait([job, ready], return_when=asyncio.FIRST_COMPLETED)
        except asyncio.CancelledError:
            job.cancel()
            raise
        if ready.done():
            self._job = job
        else:
            job.result()

    @property
    def is_over(self) -> bool:
        """Whether the store is closed, and the context left."""
        return self._closing is not None and self._closing.done()

    async def end(self, close: Callable[[], Coroutine[Any, Any, None]], left: float | None) -> None:
        """Close the store, and leave the context.

        If a caller is cancelled, the closing continues. Each further call waits for it, and asks it
        to hurry after `left` seconds.
        """
        if self._closing is None:
            self._closing = asyncio.create_task(self._end(close))
        elif self._closing.done():  # its caller got the outcome
            return
        elif left is not None:
            await asyncio.wait([self._closing], timeout=left)
            if not self.hurry.done():
                self.hurry.set_result(None)
        await asyncio.shield(self._closing)

    async def _end(self, close: Callable[[], Coroutine[Any, Any, None]]) -> None:
        try:
            await close()
        finally:
            await self.leave()

    async def leave(self) -> None:
        """Leave the context. Raises what its context manager raises."""
        job, self._job = self._job, None
        if job:
            self._is_over.set()
            await job

    async def _hold(self, ready: asyncio.Future[None]) -> None:
        async with _entered(task_data.context_manager(self._source)) as value:
            self._shared.put(value)
            ready.set_result(None)
            try:
                await self._is_over.wait()
            except asyncio.CancelledError:
                logger.error("the context ended by itself, and functions that use it may fail")
                raise


def _entered(manager: ContextManager) -> contextlib.AbstractAsyncContextManager[Any]:
    if isinstance(manager, contextlib.AbstractAsyncContextManager):
        return manager
    return _in_threads(manager)


@contextlib.asynccontextmanager
async def _in_threads(manager: contextlib.AbstractContextManager[Any]) -> Any:
    """Enter and leave a plain context manager in a thread, because it may block."""
    value = await asyncio.to_thread(manager.__enter__)
    try:
        yield value
    except BaseException:
        if not await asyncio.to_thread(manager.__exit__, *sys.exc_info()):
            raise
    else:
        await asyncio.to_thread(manager.__exit__, None, None, None)
