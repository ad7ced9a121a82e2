"""Conflicts: the server ends a transaction because of a concurrent one.

PostgreSQL reports a serialization failure or a deadlock. Then the transaction is rolled back, and
is tried again. That is safe if all of its statements are repeated. A single statement is a
transaction.
"""

from __future__ import annotations

import asyncio
import random
import time
from collections.abc import Awaitable, Callable
from typing import TypeVar

from sagas.base.errors import StoreUnavailable

CODES = ("40001", "40P01")
"""The SQLSTATEs of a serialization failure and of a deadlock."""
MAX_TURNS = 8
"""Maximum number of repetitions: they take about two seconds in all."""
FIRST_PAUSE, MAX_PAUSE = 0.01, 0.5  # seconds

T = TypeVar("T")


def is_conflict(error: BaseException | None) -> bool:
    """Whether an error, or the cause of a `StoreUnavailable`, is a conflict."""
    cause = error.__cause__ if isinstance(error, StoreUnavailable) else error
    return getattr(cause, "sqlstate", None) in CODES


def pause_before(turn: int) -> float:
    """Return the seconds before a repetition, which grow with each turn.

    They are random, so that two programs do not meet again.

    Args:
        turn: The number of repetitions before.
    """
    return min(MAX_PAUSE, FIRST_PAUSE * 2.0**turn) * random.uniform(0.5, 1.5)


def check_repeatable(error: BaseException, turn: int) -> None:
    """Raise an error unless it is a conflict whose transaction may be tried once more."""
    if turn >= MAX_TURNS or not is_conflict(error):
        raise error


async def pause(error: BaseException, turn: int) -> None:
    """Wait before a repetition. Raises the error as `check_repeatable` does."""
    check_repeatable(error, turn)
    await asyncio.sleep(pause_before(turn))


async def repeated(work: Callable[[], Awaitable[T]]) -> T:
    """Return the value of a transaction, which is repeated after a conflict.

    Args:
        work: Executes the whole transaction.

    Raises:
        Exception: That of `work`, also of a conflict that has lasted for all repetitions.
    """
    turn = 0
    while True:
        try:
            return await work()
        except Exception as error:
            await pause(error, turn)
        turn += 1


def repeated_now(work: Callable[[], T]) -> T:
    """See `repeated`, for a thread."""
    turn = 0
    while True:
        try:
            return work()
        except Exception as error:
            check_repeatable(error, turn)
        time.sleep(pause_before(turn))
        turn += 1
