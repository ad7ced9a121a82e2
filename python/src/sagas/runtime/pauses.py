"""Holds attempts back while an operator has paused their steps."""

from __future__ import annotations

import asyncio
from collections.abc import Awaitable, Callable, Iterable, Sequence

from sagas.base.errors import StartsPaused, StoreUnavailable
from sagas.base.logger import logger
from sagas.core.attempt.external_work import task_name
from sagas.core.attempt.pause_index import Pauses
from sagas.core.pauses import Pause
from sagas.core.states import Action
from sagas.definition.parts import SagaParts, patterns
from sagas.storage import pauses as pauses_module
from sagas.storage.interface import Database

INTERVAL = 1.0
"""Seconds between two looks at the pauses of a database: a notification may be lost."""
MIN_INTERVAL = 0.05
"""Seconds between two looks at most that often: a file changes with each commit."""


class PauseKeeper:
    """The pauses of the store, as this program knows them.

    Attributes:
        pauses: What is paused. It is read each second, and when the store notifies this program.
        has_any: Whether anything is paused.
        listeners: Functions that are called when the pauses have changed.
    """

    def __init__(
        self,
        store: Database,
        sagas: Iterable[SagaParts],
        apply: Callable[[Pauses], Awaitable[None]],
    ) -> None:
        """`apply` holds the attempts that wait and are paused now, and releases the others."""
        self._store, self._apply = store, apply
        self.pauses, self.has_any = Pauses(), False
        self._declared: dict[str, tuple[str, str]] = {}
        for saga in sagas:
            for pattern in patterns(saga):
                name = task_name(saga.name, pattern.path, Action.RUN)
                self._declared[name] = pattern.step.saga.name, pattern.step.name
        self._look_requested = asyncio.Event()
        self._reading = asyncio.Lock()
        self.listeners: list[Callable[[], None]] = []

    def look(self) -> None:
        """Read the pauses soon, because they may have changed."""
        self._look_requested.set()

    async def run(self) -> None:
        """Read the pauses until cancelled."""
        interval = INTERVAL if self._store.supports_nodes else None
        while True:
            self._look_requested.clear()
            try:
                await self.refresh()
            except StoreUnavailable:
                pass  # the pauses that are known stay in effect
            await asyncio.sleep(MIN_INTERVAL)
            try:
                async with asyncio.timeout(interval):
                    await self._look_requested.wait()
            except TimeoutError:
                pass

    async def refresh(self) -> None:
        """Read the pauses, and hold or release attempts. Raises `StoreUnavailable`."""
        async with self._reading:
            rows = await self._store.read(pauses_module.ALL)
            pauses = [pauses_module.of_row(row) for row in rows]
            before = [*self.pauses]
            if pauses == before:
                return
            self.pauses, self.has_any = Pauses(pauses), bool(pauses)
            _log(before, pauses)
            await self._apply(self.pauses)
            for listener in self.listeners:
                listener()

    # -- claims, starts and schedules

    def unpaused(self, tasks: Sequence[str]) -> Sequence[str]:
        """Return the tasks of workers that are not paused."""
        if not self.pauses:
            return tasks
        return [task for task in tasks if not self._is_task_paused(task)]

    def _is_task_paused(self, task: str) -> bool:
        saga, _, named = task.partition("/")
        step, _, action = named.rpartition("/")
        if self.pauses.of_step(saga, step, action):
            return True
        declared = self._declared.get(task_name(saga, step, Action.RUN))
        return declared is not None and bool(self.pauses.of_step(*declared, action))

    def refusal(self, saga: str) -> StartsPaused | None:
        """Return the error if new sagas of a definition are refused, else None."""
        pause = self.pauses.of_start(saga) if self.pauses else None
        if pause is None:
            return None
        return StartsPaused(
            f"no saga of {saga!r} is started: {pause.scope.text} is paused: {pause.text}. Start it "
            "again later, with the same key"
        )

    def is_definition_paused(self, saga: str) -> bool:
        """Whether a whole definition is paused, and its schedules with it."""
        return bool(self.pauses) and self.pauses.of_definition(saga) is not None


def _log(before: list[Pause], after: list[Pause]) -> None:
    """Log which scopes are paused or resumed, without the notes."""
    earlier, later = {pause.scope for pause in before}, {pause.scope for pause in after}
    for pause in after:
        if pause.scope not in earlier:
            by = "" if pause.by is None else f" by {pause.by}"
            logger.warning("%s is paused%s", pause.scope.text, by)
    for pause in before:
        if pause.scope not in later:
            logger.warning("%s is resumed", pause.scope.text)
