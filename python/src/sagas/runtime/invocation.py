"""Calls one function: in the loop or in a thread, with its timeout.

While a function runs, its context has the attempt that it is called for.
"""

from __future__ import annotations

import asyncio
import contextlib
import contextvars
import inspect
import os
import sys
import threading
from collections.abc import Awaitable, Callable, Iterator, Mapping
from concurrent.futures import Executor
from contextvars import ContextVar
from typing import Any

from sagas.core import outcomes
from sagas.core.attempt.model import Attempt, RUNNING
from sagas.core.outcomes import Outcome, Unawaited
from sagas.core.states import OutcomeKind
from sagas.definition import awaitables
from sagas.definition.waits import answering
from sagas.definition.call_options import Manner
from sagas.definition.task import Task

Running = Mapping[Attempt, "asyncio.Task[None] | None"]
"""The attempts of a store that have a slot, each with the task that calls its function."""
CALLED: ContextVar[Attempt | None] = ContextVar("sagas_called", default=None)
"""The attempt whose function is called. Tasks and threads that the function starts inherit it."""
_BLOCKS: ContextVar[Attempt | None] = ContextVar("sagas_blocks", default=None)
"""The attempt whose thread is blocked until a call in the store's loop returns."""
_THREAD: ContextVar[int | None] = ContextVar("sagas_thread", default=None)
"""The thread that runs the plain function."""
MAX_FRAMES = 12
"""Maximum number of frames that are named: the innermost and the outermost ones."""


@contextlib.contextmanager
def in_thread() -> Iterator[None]:
    """Mark that this thread runs a plain function, for the duration of the call."""
    token = _THREAD.set(threading.get_ident())
    try:
        yield
    finally:
        _THREAD.reset(token)


@contextlib.contextmanager
def blocking() -> Iterator[None]:
    """Mark that this thread is blocked by what it submits to the loop."""
    token = _BLOCKS.set(CALLED.get() if _THREAD.get() == threading.get_ident() else None)
    try:
        yield
    finally:
        _BLOCKS.reset(token)


def waiter(running: Running) -> Attempt | None:
    """Return the attempt that is blocked until the awaited call returns, or None.

    A task or a thread that a function started may not be awaited by the function, so the function
    does not count as blocked by it.
    """
    attempt = CALLED.get()
    if attempt is None or attempt.state is not RUNNING or attempt not in running:
        return None
    is_here = _BLOCKS.get() is attempt or asyncio.current_task() is running[attempt]
    return attempt if is_here else None


async def ended(work: Awaitable[Any], task: Task[Any]) -> Outcome:
    """Return the outcome of an awaitable that a function returned, and of nested ones."""
    while True:
        try:
            return outcomes.succeeded(await work, task)
        except Unawaited as forgot:
            work = forgot.value


async def call(
    manner: Manner,
    task: Task[Any],
    executor: Executor | None,
    late: Callable[[str], object] | None = None,
    function: Callable[[Task[Any]], Any] | None = None,
) -> Outcome | None:
    """Call a function: an async one in the loop, a plain one in a thread.

    If it returns an awaitable, for example a coroutine, that is awaited in the loop.

    Args:
        manner: How it is called.
        task: Its argument.
        executor: The threads; None for those of the loop.
        late: Called with the stack of a thread whose function exceeds its timeout. The function is
            awaited nevertheless, because a thread cannot be stopped.
        function: A function in place of the one of `manner`.

    Returns:
        The outcome. None if the call was cancelled from outside, and the outcome is unknown.
    """
    function = function or manner.function
    assert function
    if manner.asks:
        function = answering(function)
    try:
        if not awaitables.is_async(function):
            return await _in_thread(function, manner, task, executor, late)
        if manner.timeout is not None:
            return await _in_time(function(task), manner.timeout, task, manner)
        return await ended(function(task), task)
    except BaseException as error:
        return interrupted(error, manner)


def interrupted(error: BaseException, manner: Manner) -> Outcome | None:
    """Return the outcome of an exception; None if the call was cancelled from outside."""
    if isinstance(error, asyncio.CancelledError):
        current = asyncio.current_task()
        if current and current.cancelling():
            return None
    return outcomes.raised(error, manner)


async def call_alone(
    about: object,
    manner: Manner,
    task: Task[Any],
    executor: Executor | None,
    late: Callable[[str], object] | None,
) -> Outcome | None:
    """Call a function outside of any transaction of the store. See `call`."""
    return await call(manner, task, executor, late)


async def _in_time(work: Awaitable[Any], left: float, task: Task[Any], manner: Manner) -> Outcome:
    """Await what a function returned, within the rest of its timeout."""
    scope = asyncio.timeout(left)
    try:
        async with scope:
            return await ended(work, task)
    except TimeoutError as error:
        return (
            outcomes.overdue(f"took longer than {manner.timeout} s", manner)
            if scope.expired()
            else outcomes.raised(error, manner)
        )


def stack_of(thread: int | None) -> str:
    """Return the stack of a thread, innermost call first, out to the step's function."""
    frame, frames = sys._current_frames().get(thread or 0), list[str]()
    while frame is not None and frame.f_code.co_filename != __file__:
        code = frame.f_code
        frames.append(f"{code.co_filename}:{frame.f_lineno} in {code.co_qualname}")
        frame = frame.f_back
    if len(frames) > MAX_FRAMES:
        frames[MAX_FRAMES // 2 : -MAX_FRAMES // 2] = ["..."]
    return " < ".join(frames) or "it waits for a thread"


def _guarded(
    function: Callable[[Task[Any]], Any], task: Task[Any], threads: list[int]
) -> tuple[Any, BaseException | None]:
    pid = os.getpid()
    threads.append(threading.get_ident())
    try:
        with in_thread():
            return function(task), None
    except BaseException as error:  # a future does not accept every exception
        return None, error
    finally:
        if os.getpid() != pid:  # a forked child process returned here, without a store
            os._exit(70)


async def _in_thread(
    function: Callable[[Task[Any]], Any],
    manner: Manner,
    task: Task[Any],
    executor: Executor | None,
    late: Callable[[str], object] | None,
) -> Outcome:
    loop = asyncio.get_running_loop()
    overdue, threads = False, list[int]()

    def over() -> None:
        nonlocal overdue
        overdue = True
        if late:
            late(stack_of(threads[0] if threads else None))

    timer = loop.call_later(manner.timeout, over) if manner.timeout is not None else None
    try:
        context = contextvars.copy_context()
        value, error = await loop.run_in_executor(
            executor, lambda: context.run(_guarded, function, task, threads)
        )
    finally:
        if timer:
            timer.cancel()
    if error is None and timer and inspect.isawaitable(value):
        return await _in_time(value, timer.when() - loop.time(), task, manner)
    if error is None:
        return outcomes.succeeded(
            await awaitables.awaited(value) if inspect.isawaitable(value) else value, task
        )
    outcome = outcomes.raised(error, manner)
    if overdue and outcome.kind in (OutcomeKind.FAILED, OutcomeKind.UNKNOWN):
        return outcomes.overdue(
            f"took longer than {manner.timeout} s, then raised {type(error).__name__}: {error}",
            manner,
        )
    return outcome
