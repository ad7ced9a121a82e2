"""The handle of a saga that a program started, or found by its key."""

from __future__ import annotations

from typing import TYPE_CHECKING, Any

from sagas.core.results import HistoryEvent
from sagas.definition.saga_result import SagaResult
from sagas.definition.step import Step
from sagas.engine.plan import Plan

if TYPE_CHECKING:
    from sagas.api.store import Store


class Run:
    """Follow a saga that was started, or found by its key. Made by `Store.start`.

    Attributes:
        key: The saga's key.
        new: Whether this start created the saga.
    """

    def __init__(self, store: Store, key: str, new: bool = False) -> None:
        self._store, self.key, self.new = store, key, new

    async def wait(self, timeout: float | None = None) -> SagaResult:
        """Wait until the saga has ended. See `Store.wait`."""
        return await self._store.wait(self.key, timeout)

    async def abort(self) -> bool:
        """Abort the saga. See `Store.abort`."""
        return await self._store.abort(self.key)

    async def complete(
        self, step: Step[Any] | str, result: Any = None, *, undo: bool = False, early: bool = True
    ) -> None:
        """Report that a step succeeded. See `Store.complete`."""
        await self._store.complete(self.key, step, result, undo=undo, early=early)

    async def fail(
        self, step: Step[Any] | str, error: str, *, undo: bool = False, early: bool = True
    ) -> None:
        """Report that a step failed permanently. See `Store.fail`."""
        await self._store.fail(self.key, step, error, undo=undo, early=early)

    async def plan(self) -> Plan | None:
        """Return the saga's last plan. See `Store.plan`."""
        return await self._store.plan(self.key)

    async def log(self) -> list[HistoryEvent]:
        """Return the saga's events. See `Store.log`."""
        return await self._store.log(self.key)

    def __repr__(self) -> str:
        return f"<run {self.key!r}>"
