"""What the tests of a store share."""

from __future__ import annotations

import asyncio
import inspect
import itertools
import os
import pathlib
import select
import signal
import time
from collections.abc import Callable, Coroutine, Sequence
from typing import Any, TypeVar

import sagas
from sagas.inspection import lists
from sagas.inspection.views import Waits

T = TypeVar("T")
Task = sagas.Task[Any]
QUICK = sagas.Backoff(initial=0.01, maximum=0.02)
HOUR = sagas.Backoff(initial=3600, maximum=3600)
STORE_KINDS = ("sqlite", "postgresql")
"""The values of the fixture `location`."""


def pairs(*options: Sequence[Any]) -> list[tuple[Any, ...]]:
    """Return a few of all cases, in which each pair of values of two options occurs."""
    rows = [*itertools.product(*(range(len(values)) for values in options))]
    met = {row: {*itertools.combinations(enumerate(row), 2)} for row in rows}
    left, chosen = set().union(*met.values()), []
    while left:
        row = max(rows, key=lambda row: len(met[row] & left))
        left -= met[row]
        chosen.append(row)
    return [tuple(values[at] for values, at in zip(options, row)) for row in sorted(chosen)]


def types_in(folder: pathlib.Path) -> str:
    """Return the cache of mypy: that of the whole run if `tests/python.sh` names one, else a test's
    own.
    """
    return os.environ.get("MYPY_CACHE_DIR") or str(folder)


def run(main: Coroutine[Any, Any, T]) -> T:
    """Run a case, with a limit of four minutes, which is enough on a busy machine."""
    return asyncio.run(asyncio.wait_for(main, 240))


def simple(function: Callable[[Task], Any], **options: Any) -> sagas.Saga:
    """Return a saga of one step, `a`."""
    saga = sagas.Saga("simple")
    saga.step(name="a", backoff=options.pop("backoff", QUICK), **options)(function)
    return saga


async def ended(
    store: sagas.Store, saga: sagas.Saga, key: str = "k", value: Any = None
) -> sagas.SagaResult:
    """Run a saga from its start to its end."""
    return await (await store.start(saga, key=key, input=value)).wait()


async def surely_ended(
    store: sagas.Store, saga: sagas.Saga, key: str = "k", value: Any = None
) -> sagas.SagaResult:
    """Run a saga to its end; repeat the calls while the store is unavailable."""
    while True:
        try:
            return await ended(store, saga, key, value)
        except sagas.StoreUnavailable:
            await asyncio.sleep(0.02)


async def until(condition: Callable[[], Any], seconds: float = 120) -> Any:
    """Wait for a change that another part of the program makes.

    The condition may be a coroutine function.
    """
    async with asyncio.timeout(seconds):
        while True:
            value = condition()
            if inspect.isawaitable(value):
                value = await value
            if value:
                return value
            await asyncio.sleep(0.005)


async def unknown_attempts(store: sagas.Store) -> list[Waits]:
    """Return the attempts with an unknown outcome."""
    return await store._answer(lists.waits(1000, person=False, why="unknown"))


async def attempts_to_report(store: sagas.Store) -> list[Waits]:
    """Return the attempts whose outcome an operator has to report."""
    return [held for held in await unknown_attempts(store) if held.asks]


async def stuck_keys(store: sagas.Store) -> list[str]:
    """Return the keys of the stuck sagas that are not resolved."""
    return [entry.key for entry in await store.attention() if entry.why == "stuck"]


def in_child(work: Callable[[], object], seconds: float = 60) -> str:
    """Return the result of a function in a forked child: its value, or the error with its text."""
    back, to = os.pipe()
    child = os.fork()
    if child == 0:
        try:
            result = repr(work())
        except BaseException as error:
            result = f"{type(error).__name__}: {error}"
        os.write(to, result.encode())
        os._exit(0)
    os.close(to)
    if not select.select([back], [], [], seconds)[0]:
        os.kill(child, signal.SIGKILL)
    result = os.read(back, 1 << 16).decode() or "it hangs"
    os.close(back)
    os.waitpid(child, 0)
    return result


def hears(wait: Callable[[], object], text: str, seconds: float = 120) -> None:
    """Repeat a wait that takes too long each time, until its error has this text."""
    end, message = time.monotonic() + seconds, ""
    while message != text and time.monotonic() < end:
        try:
            wait()
        except TimeoutError as error:
            message = str(error)
    assert message == text
