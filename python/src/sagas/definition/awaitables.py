"""Awaitable results of functions."""

from __future__ import annotations

import functools
import inspect
from typing import Any

from sagas.base.errors import ProgramError

is_async = functools.lru_cache(maxsize=4096)(inspect.iscoroutinefunction)


async def awaited(value: Any) -> Any:
    """Return a function's result after awaiting it, as often as it is awaitable.

    A plain function may return a coroutine, a task or a future, for example.
    """
    while inspect.isawaitable(value):
        value = await value
    return value


def plain_result(value: Any) -> Any:
    """Return the result of a plain function that runs in a transaction.

    The transaction ends when the function returns, so its result cannot be awaited.

    Raises:
        ProgramError: The result is awaitable.
    """
    if not hasattr(value, "__await__"):
        return value
    if inspect.iscoroutine(value):
        value.close()
    raise ProgramError(
        f"a plain function with transaction=True returned {type(value).__name__}, "
        "which must be awaited. Declare it with async def, and await it there"
    )
