"""Calls functions of definitions in threads, so that a slow one delays nothing.

One thread calls many short functions. Others call functions that follow a slow one.
"""

from __future__ import annotations

import asyncio
import contextvars
import os
import threading
import time
from collections import Counter, deque
from collections.abc import Callable
from concurrent.futures import ThreadPoolExecutor
from typing import Any, NamedTuple, TypeVar

from sagas.core.attempt.declared_values import OptionCalls
from sagas.core.attempt.model import Attempt
from sagas.definition.parts import SagaParts
from sagas.definition.registry import DefinitionRegistry, Fitted

FORKED = 70
"""The exit status of a forked child process that returned from a function."""
SLOW_AFTER = 0.01
"""Seconds after which a function counts as slow, and another thread calls the next ones."""
DELIVERY_INTERVAL = 0.001
"""Seconds after which a thread delivers its results to the loop, and continues."""
T = TypeVar("T")
MIN_THREADS = 4
"""Minimum number of threads. Slow functions of one definition use only some of them."""


class Call(NamedTuple):
    """A queued call of a function."""

    name: str
    context: contextvars.Context
    function: Callable[[], object]
    future: asyncio.Future[tuple[Any, Exception | None]]


class FunctionThreads:
    """Calls functions in threads, for one event loop.

    To wake a thread takes longer than most functions. So one thread calls all queued functions in
    turn. If a slow function blocks it, another thread continues with the others. Names are served
    in turn, and the functions of one name use at most half of the threads.
    """

    def __init__(self, max_threads: int, title: str) -> None:
        """Make the object. A thread starts when a function is queued.

        Args:
            max_threads: Maximum number of threads, at least 2.
            title: The prefix of the names of the threads.
        """
        self._max_threads, self._title = max_threads, title
        self._pool: ThreadPoolExecutor | None = None
        self._lock = threading.Lock()
        # guarded by the lock: queued calls, and the numbers of threads and functions that run
        self._waiting: dict[str, deque[Call]] = {}
        self._running: Counter[str] = Counter()
        self._active = 0
        self._moves = 0  # number of calls that were taken
        self._over: deque[tuple[Call, Any, Exception | None]] = deque()
        self._is_delivering = self._is_sending = self._is_watching = False
        self._seen = 0
        self._idle = asyncio.Event()
        self._loop: asyncio.AbstractEventLoop | None = None

    async def call(self, name: str, function: Callable[[], Any]) -> Any:
        """Call a function in the context of the caller; return or raise its outcome.

        Args:
            name: The name under which the function is served.
            function: The function.
        """
        loop = self._loop = asyncio.get_running_loop()
        call = Call(name, contextvars.copy_context(), function, loop.create_future())
        with self._lock:
            self._waiting.setdefault(name, deque()).append(call)
        if not self._is_sending:  # further calls may follow in this turn of the loop
            self._is_sending = True
            loop.call_soon(self._send)
        value, error = await call.future
        if error is not None:
            raise error
        return value

    # -- in the loop

    def _send(self) -> None:
        self._is_sending = False
        with self._lock:
            is_new = self._active == 0
            self._active += is_new
        if is_new:
            self._add()
        if not self._is_watching:
            self._watch()

    def _add(self) -> None:
        if self._pool is None:
            self._pool = ThreadPoolExecutor(self._max_threads, self._title)
        self._pool.submit(self._work)

    def _watch(self) -> None:
        assert self._loop
        self._is_watching, self._seen = True, self._moves
        self._loop.call_later(SLOW_AFTER, self._look)

    def _look(self) -> None:
        """Start another thread if no call has moved since the last check."""
        self._is_watching = False
        self._deliver()
        with self._lock:
            is_open = any(self._running[name] < self._max_threads // 2 for name in self._waiting)
            is_stuck = is_open and self._moves == self._seen and self._active < self._max_threads
            self._active += is_stuck
            is_over = not (self._active or self._waiting)
        if is_stuck:
            self._add()
        if not is_over:
            self._watch()

    def _deliver(self) -> None:
        """Deliver results to the callers."""
        self._is_delivering = False
        while self._over:
            call, value, error = self._over.popleft()
            if not call.future.done():
                call.future.set_result((value, error))
        if not (self._active or self._waiting):
            self._idle.set()

    async def end(self, timeout: float | None) -> None:
        """Wait until no function runs, for at most `timeout` seconds."""
        if self._active or self._waiting:
            self._idle.clear()
            try:
                async with asyncio.timeout(timeout):
                    await self._idle.wait()
            except TimeoutError:
                pass

    def close(self) -> None:
        """Call nothing any more. A function that still runs continues unobserved."""
        pool, self._pool = self._pool, None
        with self._lock:
            self._waiting.clear()
        if pool is not None:
            pool.shutdown(wait=not self._active, cancel_futures=True)

    # -- in a thread

    def _take(self, done: str | None) -> Call | None:
        """Take the next call, after one that has ended. Return None if the thread is done."""
        with self._lock:
            if done is not None:
                self._running[done] -= 1
            for name, calls in self._waiting.items():
                if self._running[name] >= self._max_threads // 2:
                    continue
                call = calls.popleft()
                del self._waiting[name]
                if calls:
                    self._waiting[name] = calls  # the last one in turn
                self._running[name] += 1
                self._moves += 1
                return call
            self._active -= 1
            return None

    def _work(self) -> None:
        done, delivered_at = None, time.monotonic()
        while call := self._take(done):
            done = call.name
            if not call.future.cancelled():
                self._over.append((call, *_called(call)))
            if (now := time.monotonic()) - delivered_at > DELIVERY_INTERVAL:
                delivered_at = now
                self._request_delivery()
        self._request_delivery()

    def _request_delivery(self) -> None:
        if not self._is_delivering:
            self._is_delivering = True
            assert self._loop
            try:
                self._loop.call_soon_threadsafe(self._deliver)
            except RuntimeError:  # the loop is closed, so no caller waits
                pass


def _called(call: Call) -> tuple[Any, Exception | None]:
    pid = os.getpid()
    try:
        return call.context.run(call.function), None
    except Exception as error:
        return None, error
    except BaseException as error:  # an exception in a thread must not end the program
        return None, RuntimeError(f"{type(error).__name__}: {error}")
    finally:
        if os.getpid() != pid:  # a forked child process returned here, and has no loop
            os._exit(FORKED)


class DefinitionCaller:
    """Calls functions of definitions: which steps exist, and when they run.

    They have their own threads, because steps may occupy all threads of the steps for a long time.
    """

    def __init__(self, threads: int) -> None:
        self._threads = FunctionThreads(max(MIN_THREADS, threads), "sagas-declared")
        self.end, self.close = self._threads.end, self._threads.close

    async def call(self, name: str, function: Callable[[], T]) -> T:
        """Call a function in a thread; return its result, or raise its exception.

        Args:
            name: The name of the definition.
            function: The function.
        """
        value: T = await self._threads.call(name, function)
        return value

    async def answer(
        self, attempt: Attempt, question: OptionCalls, is_same: Callable[[], bool]
    ) -> bool:
        """Store the answers of a question in an attempt.

        Args:
            attempt: The attempt.
            question: The functions to call.
            is_same: A guard of the attempt, from the moment at which it asked.

        Returns:
            False if the attempt has changed since then.
        """
        extras = attempt.rare
        extras.called_options = question.option_names
        try:
            answers = await self.call(attempt.instance.kind.name, question.answers)
        finally:
            extras.called_options = ""
        if not is_same():
            return False
        extras.returned |= answers
        return True

    async def fit(self, registry: DefinitionRegistry, saga: SagaParts, text: str) -> Fitted:
        """Return the definition of a saga with an input."""
        fitted = registry.fit(saga, text)
        if fitted is None:
            fitted = registry.shaped(text, await self.call(saga.name, registry.shaping(saga, text)))
        return fitted
