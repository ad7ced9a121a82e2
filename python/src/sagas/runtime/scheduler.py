"""Starts the sagas of schedules when they are due."""

from __future__ import annotations

import asyncio
from collections.abc import Awaitable, Callable
from typing import TYPE_CHECKING

from sagas.base.errors import Closed, InvalidSchedule, SagasError, TemporaryError
from sagas.base.logger import logger
from sagas.definition import timing
from sagas.storage import schedules
from sagas.storage.schedules import Schedule

if TYPE_CHECKING:
    from sagas.runtime.coordinator import Coordinator

MAX_PAUSE = 5.0
"""Maximum seconds between checks: another node may have changed a schedule."""
AGAIN = 1.0
"""Seconds until a failed operation of the store is tried again."""
MAX_STARTS = 100
"""Maximum number of sagas of one schedule that are started in a turn."""

OPEN = "SELECT 1 FROM sagas WHERE key = ? AND phase IS NULL"
"""Whether a saga is open."""
StartSaga = Callable[[Schedule, str], Awaitable[object]]
"""Starts the saga of a schedule under a key."""
Advance = Callable[[Schedule, float, "float | None", "str | None"], Awaitable[object]]
"""Stores the next time of a schedule, its last time, and why that could not be started."""


class Scheduler:
    """Starts what is due, for definitions that this program has.

    Other nodes do the same concurrently. The key identifies the saga of a time, and the first node
    that advances the schedule counts.
    """

    def __init__(self, coordinator: Coordinator, start: StartSaga, advance: Advance) -> None:
        self._coordinator, self._start, self._advance = coordinator, start, advance
        self._changed = asyncio.Event()
        self._left: dict[str, str] = {}  # schedules that are left to other nodes, and why

    def look(self) -> None:
        """Check the schedules, because one may have changed."""
        self._changed.set()

    async def run(self) -> None:
        """Start what is due, until cancelled."""
        while True:
            self._changed.clear()
            try:
                pause = await self._turn()
            except Closed:
                return
            except SagasError as error:
                logger.info("retrying the schedules: %s", error)
                pause = AGAIN
            try:
                async with asyncio.timeout(pause):
                    await self._changed.wait()
            except TimeoutError:
                pass

    async def _turn(self) -> float:
        """Start what is due; return the seconds until the next check."""
        coordinator = self._coordinator
        pause = MAX_PAUSE
        for row in await coordinator.store.read(schedules.DUE):
            now = coordinator.clock()
            try:
                schedule = schedules.of_row(row)
            except ValueError:
                self._leave(row[0], row[1], "a later release of sagas has declared it")
                continue
            if (schedule.saga, schedule.version) not in coordinator.registry.sagas:
                await self._report_missing(schedule, now)
                continue
            if coordinator.pauses.is_definition_paused(schedule.saga):
                continue  # its missed times are due after the pause, as `catch_up` says
            if schedule.next_at > now:
                pause = min(pause, schedule.next_at - now)
                break  # the others are due later
            pause = min(pause, await self._fire(schedule, now))
        return max(pause, 0.0)

    async def _fire(self, schedule: Schedule, now: float) -> float:
        """Start what is due of a schedule; return the seconds until its next time.

        It stops if the schedule was changed since it was read.
        """
        try:
            times, next_at = schedule.timing.due(schedule.next_at, now, MAX_STARTS)
            first = schedule.timing.first_of(schedule.next_at, now)
        except InvalidSchedule as invalid:  # a node that has the time zone starts them
            self._leave(schedule.name, schedule.saga, str(invalid))
            return MAX_PAUSE
        self._left.pop(schedule.name, None)
        if times and schedule.catch_up == timing.CatchUp.ALL and first > schedule.next_at:
            reason = f"{schedule.name}: only the last {schedule.max:,} missed times are started"
            await self._advance(schedule, first, None, reason)  # the first node that does so counts
            self._coordinator.teller.emit("schedule_missed", saga=schedule.saga, detail=reason)
            return 0.0
        last = error = None
        for at in times:
            before = schedule.last_at if last is None else last
            if await self._is_open(schedule, before):
                if schedule.overlap == timing.Overlap.SKIP:
                    reason = f"{schedule.name}: the saga of the previous time is still open"
                    self._coordinator.teller.emit(
                        "schedule_missed", saga=schedule.saga, detail=reason
                    )
                    continue
                if last is None:
                    return AGAIN
                next_at = at
                break
            if not await self._is_unchanged(schedule):  # the next turn sees what it is now
                if last is None:
                    return 0.0
                next_at = at
                break
            last, error = at, await self._try(schedule, timing.key_of(schedule.name, at))
        if not times:
            self._coordinator.teller.emit(
                "schedule_missed", saga=schedule.saga, detail=schedule.name
            )
        await self._advance(schedule, next_at, last, error)
        return next_at - self._coordinator.clock()

    async def _is_open(self, schedule: Schedule, before: float | None) -> bool:
        """Return whether the saga of the previous time is open, if that matters."""
        if schedule.overlap == timing.Overlap.ALLOW or before is None:
            return False
        return bool(await self._coordinator.store.read(OPEN, timing.key_of(schedule.name, before)))

    async def _report_missing(self, schedule: Schedule, now: float) -> None:
        """Report that no node has the definition of a schedule that is overdue.

        The schedule stores the reason as its error.
        """
        grace = timing.LATE if self._coordinator.store.supports_nodes else 0.0
        if schedule.next_at + grace > now:
            return
        why = f"no program has its saga {schedule.saga!r} (version {schedule.version})"
        self._leave(schedule.name, schedule.saga, why)
        if schedule.error != why:
            await self._advance(schedule, schedule.next_at, None, why)

    def _leave(self, name: str, saga: str, why: str) -> None:
        """Leave a schedule to other nodes, and report that once."""
        if self._left.get(name) != why:
            self._left[name] = why
            detail = f"{name}: {why}"
            self._coordinator.teller.emit("schedule_failed", saga=saga, detail=detail)

    async def _is_unchanged(self, schedule: Schedule) -> bool:
        """Return whether the stored schedule is unchanged since it was read."""
        rows = await self._coordinator.store.read(schedules.BY_NAME, schedule.name)
        return [schedules.of_row(row) for row in rows] == [schedule]

    async def _try(self, schedule: Schedule, key: str) -> str | None:
        """Start a saga of a schedule; return why it cannot be started, or None.

        Raises `TemporaryError`: the same times are due again.
        """
        try:
            await self._start(schedule, key)
        except TemporaryError:
            raise
        except (SagasError, TypeError, ValueError) as failure:
            error = f"{type(failure).__name__}: {failure}"
            self._coordinator.teller.emit(
                "schedule_failed", key=key, saga=schedule.saga, detail=error
            )
            return error
        return None
