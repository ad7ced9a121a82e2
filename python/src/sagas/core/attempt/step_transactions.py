"""The interface of steps that run in a database transaction."""

from __future__ import annotations

from collections.abc import Awaitable, Callable
from typing import Any, Protocol

from sagas.core.attempt.model import Attempt
from sagas.definition.call_options import Function
from sagas.definition.task import Task

TakeConnection = Callable[[], Any]
"""A callable that returns a connection for a function that asks for one."""


class StepTransactions(Protocol):
    """The calls of functions that may use a connection of the store.

    Such a function is called without a connection until it asks for one.
    """

    def enter(self, attempt: Attempt) -> TakeConnection | None:
        """Return a callable for a connection, for a function that is about to be called.

        The connection is available until the function first waits. None if no connection is free.
        """

    async def end(self, attempt: Attempt, task: Task[Any], work: Awaitable[Any]) -> Any:
        """Await the rest of an entered function and the end of its transaction.

        Returns and raises what the function returns and raises.
        """

    def raised(self, error: BaseException) -> BaseException:
        """Return the exception to report for a function that got no connection."""

    async def within(self, attempt: Attempt, function: Function, task: Task[Any]) -> Any:
        """Call a function in a transaction as soon as a connection is free."""
