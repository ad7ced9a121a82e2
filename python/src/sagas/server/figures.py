"""Cached counts of sagas by name and phase, and of what needs an operator."""

from __future__ import annotations

import asyncio
import dataclasses
import functools
import logging
import time
from collections.abc import Awaitable, Callable, Sequence

from sagas.inspection import lists, store_figures
from sagas.inspection.question import Question
from sagas.inspection.store_figures import AttentionFigures
from sagas.server.event_stream import Hub
from sagas.storage.filters import EVERYTHING, Scope

Counts = tuple[dict[str, dict[str, int]], dict[str, int]]
"""Counts of sagas by name and phase, and counts of what waits for an operator."""
Phases = dict[str, dict[str, int]]
"""Counts of sagas by name and phase."""
Counted = tuple[Phases, AttentionFigures]
QUIET = 20.0
"""Seconds for which figures stay valid longer if no event arrived. An operator's command in
another program makes no event here.
"""
logger = logging.getLogger("sagas.server")
MAX_KEPT = 100
"""Maximum number of scopes whose figures are cached."""


@dataclasses.dataclass(frozen=True, slots=True)
class CachedFigures:
    """Figures, the monotonic time until which they are valid, and the number of events before
    them.
    """

    phases: Phases
    attention: AttentionFigures
    until: float
    seen: int


def summed(parts: Sequence[Counts]) -> Counts:
    """Return the sums of the figures of several databases."""
    phases: Phases = {}
    for counts, _ in parts:
        for name, numbers in counts.items():
            before = phases.get(name, {})
            phases[name] = {phase: before.get(phase, 0) + n for phase, n in numbers.items()}
    kinds = dict.fromkeys(kind for _, numbers in parts for kind in numbers)
    return phases, {kind: sum(numbers.get(kind, 0) for _, numbers in parts) for kind in kinds}


class Figures:
    """Cached figures by scope. They are counted at most once a second, and less often if that
    takes long.
    """

    def __init__(self, hub: Hub, ask: Callable[[Question[Counted]], Awaitable[Counted]]) -> None:
        self._hub, self._ask = hub, ask
        self._kept: dict[Scope, CachedFigures] = {}
        self._counting: dict[Scope, asyncio.Task[CachedFigures]] = {}

    async def of(self, scope: Scope) -> Counts:
        """Return the figures of a scope."""
        figures = await self.current(scope)
        return figures.phases, store_figures.totals(figures.attention)

    async def current(self, scope: Scope) -> CachedFigures:
        """Return the figures of a scope, with what requires an operator by definition."""
        counted = self._kept.get(scope)
        if counted is None or time.monotonic() > self._until(counted):
            counted = await asyncio.shield(self._begin(scope))
        return counted

    def _until(self, counted: CachedFigures) -> float:
        """Return until when figures are valid: longer if this service received no event since."""
        return counted.until + (QUIET if counted.seen == self._hub.count else 0.0)

    def _begin(self, scope: Scope) -> asyncio.Task[CachedFigures]:
        counting = self._counting.get(scope)
        if counting is None:
            counting = asyncio.get_running_loop().create_task(self._count(scope))
            self._counting[scope] = counting
            counting.add_done_callback(functools.partial(self._counted, scope))
        return counting

    def prime(self) -> None:
        """Count all sagas at the start of a service, so that the first request need not wait."""
        self._begin(EVERYTHING)

    async def _count(self, scope: Scope) -> CachedFigures:
        began, seen = time.monotonic(), self._hub.count

        def question() -> Question[Counted]:
            every = scope if scope.keys is not None else EVERYTHING  # which has the indexes
            counts = yield from lists.counts(every)
            by_name = {name: phases for name, phases in counts.items() if scope.may_have(name)}
            if any(not scope.has_definition(name) for name in by_name):  # by their keys
                by_name = yield from lists.counts(scope)
            return by_name, (yield from store_figures.attention(scope))

        phases, attention = await self._ask(question())
        now = time.monotonic()
        if len(self._kept) >= MAX_KEPT:
            self._kept.clear()
        until = now + max(1.0, 20 * (now - began))
        counted = CachedFigures(phases, attention, until, seen)
        self._kept[scope] = counted
        return counted

    def _counted(self, scope: Scope, task: asyncio.Task[CachedFigures]) -> None:
        self._counting.pop(scope, None)
        if not task.cancelled() and task.exception():
            logger.debug("the sagas could not be counted: %s", type(task.exception()).__name__)

    def lag(self, scope: Scope) -> float | None:
        """Return the seconds until these figures are counted again, or None if they are current."""
        counted = self._kept.get(scope)
        if counted is None or counted.seen == self._hub.count:
            return None
        return max(0.0, counted.until - time.monotonic())

    def forget(self) -> None:
        """Drop all figures, after a user changed something and looks at once."""
        self._kept.clear()

    async def rest(self) -> None:
        """Wait until no count runs."""
        if self._counting:
            await asyncio.wait([*self._counting.values()])
