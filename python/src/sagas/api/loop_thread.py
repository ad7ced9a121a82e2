"""An event loop in a thread, and blocking calls of the objects in it, for other threads."""

from __future__ import annotations

import asyncio
import concurrent.futures
import contextlib
import functools
import threading
from collections.abc import Callable, Coroutine
from typing import Any, Concatenate, Generic, ParamSpec, TypeVar

from sagas.base.errors import Closed
from sagas.base.fork_guard import OpenState
from sagas.core.attempt import waits as waits_module
from sagas.runtime import invocation

A = TypeVar("A")
A_co = TypeVar("A_co", covariant=True)
P = ParamSpec("P")
T = TypeVar("T")
SOON = 2.0
"""Seconds to find out what a saga waits for, or to end tasks that still run."""


class Loop:
    """An event loop in its own thread, which runs coroutines of other threads.

    While it does not run, its calls raise `Closed` with `path`, `subject` and `remedy`.
    """

    def __init__(self, path: str, subject: str, remedy: str) -> None:
        self.path, self._closed = path, f"{subject} {remedy}"
        self._opened = OpenState(subject)
        self._loop: asyncio.AbstractEventLoop | None = None
        self._pending: set[concurrent.futures.Future[Any]] = set()
        self._guard = threading.Lock()

    @property
    def runs(self) -> bool:
        """Whether the loop runs in this process."""
        return self._loop is not None and not self._opened.is_other_process

    def start(self) -> None:
        """Start the thread.

        Raises `RuntimeError` if it runs, and `Closed` if it runs in the parent of this process.
        """
        self._opened.begin(self.path)
        self._loop = asyncio.new_event_loop()
        self._thread = threading.Thread(
            target=self._loop.run_forever, name="sagas-loop", daemon=True
        )
        self._thread.start()

    def end(self) -> None:
        """End the thread. Pending calls of other threads raise `Closed`."""
        with self._guard:
            loop, self._loop = self._loop, None
        if loop is None:  # another thread has ended the loop
            return
        asyncio.run_coroutine_threadsafe(_finish(loop), loop).result()
        loop.call_soon_threadsafe(loop.stop)
        self._thread.join()
        loop.close()
        for future in [*self._pending]:
            future.cancel()
        self._opened.end()

    def do(self, work: Coroutine[Any, Any, T], timeout: float | None = None) -> T:
        """Run a coroutine in the loop; return or raise its outcome.

        Raises `TimeoutError` after `timeout` seconds. Raises `RuntimeError` in the loop's own
        thread, which would wait for itself.
        """
        with self._guard:
            loop = self._loop if self.runs else None
            if loop and threading.current_thread() is not self._thread:
                with invocation.blocking():
                    future = asyncio.run_coroutine_threadsafe(work, loop)
                self._pending.add(future)
        if loop is None:
            work.close()
            self._opened.check(self.path)
            raise self._is_closed()
        if threading.current_thread() is self._thread:
            work.close()
            raise RuntimeError(
                f"{self.path}: the call would wait for its own event loop. Make the function "
                "a plain def, or use the async API"
            )
        try:
            return future.result(timeout)
        except concurrent.futures.CancelledError:
            if self.runs:
                raise
            raise self._is_closed() from None
        except BaseException:
            future.cancel()
            raise
        finally:
            self._pending.discard(future)

    def _is_closed(self) -> Closed:
        return Closed(f"{self.path}: {self._closed}")

    def in_time(
        self,
        key: str,
        work: Coroutine[Any, Any, T],
        timeout: float | None,
        waits: Callable[[], Coroutine[Any, Any, list[str]]],
    ) -> T:
        """Run a coroutine that waits for a saga; a timeout says what the saga waits for."""
        try:
            return self.do(work, timeout)
        except TimeoutError:
            if timeout is None:
                raise
        waited_for: list[str] = []
        with contextlib.suppress(Exception):  # the loop may be blocked
            waited_for = self.do(waits(), SOON)
        raise waits_module.timeout_error(key, timeout, waited_for)


async def _finish(loop: asyncio.AbstractEventLoop) -> None:
    """Cancel all tasks of a loop, and wait until they have ended."""
    tasks = asyncio.all_tasks(loop) - {asyncio.current_task(loop)}
    for task in tasks:
        task.cancel()
    if tasks:
        await asyncio.wait(tasks, timeout=SOON)
    await loop.shutdown_asyncgens()


class Facade(Generic[A_co]):
    """The calls of an object in an event loop, for any thread."""

    def __init__(self, inner: A_co, loop: Loop) -> None:
        self._inner, self._loop = inner, loop


def blocking(
    method: Callable[Concatenate[A, P], Coroutine[Any, Any, T]]
) -> Callable[Concatenate[Facade[A], P], T]:
    """Return a blocking method for an async one. It waits for the loop's thread."""

    @functools.wraps(method)
    def call(self: Facade[A], /, *args: P.args, **kwargs: P.kwargs) -> T:
        work: Coroutine[Any, Any, T] = getattr(self._inner, method.__name__)(*args, **kwargs)
        return self._loop.do(work)

    return call


def blocking_plain(
    method: Callable[Concatenate[A, P], T]
) -> Callable[Concatenate[Facade[A], P], T]:
    """Return a method that calls a plain one in the loop's thread."""

    @functools.wraps(method)
    def call(self: Facade[A], /, *args: P.args, **kwargs: P.kwargs) -> T:
        async def run() -> T:
            result: T = getattr(self._inner, method.__name__)(*args, **kwargs)
            return result

        return self._loop.do(run())

    return call
