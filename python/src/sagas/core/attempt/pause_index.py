"""`Pauses`: which attempts are not started until an operator resumes them."""

from __future__ import annotations

from collections.abc import Iterable, Iterator, Mapping

from sagas.core.attempt import external_work
from sagas.core.attempt.model import Attempt
from sagas.core.pauses import Pause, PauseScope


MOVING = Pause(None, None, None, False, False, "its shard moves to another node", None, 0.0)
"""Holds the attempts of a shard that is about to move."""


class Pauses:
    """The pauses of a store, as this program last read them.

    Attributes:
        by_scope: The pauses.
        moving: The shards of this program that are about to move: their attempts are paused, too.
    """

    def __init__(self, pauses: Iterable[Pause] = ()) -> None:
        self.by_scope: Mapping[PauseScope, Pause] = {pause.scope: pause for pause in pauses}
        self.moving: set[object] = set()

    def __bool__(self) -> bool:
        return bool(self.by_scope or self.moving)

    def __iter__(self) -> Iterator[Pause]:
        return iter(self.by_scope.values())

    def of_step(self, saga: str, step: str, action: str, queue: str | None = None) -> Pause | None:
        """Return the pause of a step's action, or None."""
        scopes = [PauseScope(), PauseScope(saga), PauseScope(saga, step)]
        if queue is not None:
            scopes.append(PauseScope(queue=queue))
        pauses = (self.by_scope.get(scope) for scope in scopes)
        return next((pause for pause in pauses if pause and pause.covers(action)), None)

    def of_attempt(self, attempt: Attempt) -> Pause | None:
        """Return the pause of an attempt, or None.

        A step of an included saga is paused with that saga, and with the one that includes it.
        """
        if self.moving and attempt.instance.shard in self.moving:
            return MOVING
        if not self.by_scope:
            return None
        saga, step, action = external_work.offered_action(attempt)
        queue = attempt.manner.queue
        queue_name = None if queue is None else queue.name
        pause = self.of_step(saga, step, action, queue_name)
        if pause is None and (declared := attempt.limit_name) != (saga, step):
            pause = self.of_step(*declared, action)
        return pause

    def hold(self, attempt: Attempt) -> bool:
        """Suspend an attempt that may be called now, if it is paused; return whether it is."""
        if (pause := self.of_attempt(attempt)) is None:
            return False
        attempt.pause(pause)
        return True

    def note(self, attempt: Attempt) -> None:
        """Note whether an attempt that waits for a worker is paused."""
        if (pause := self.of_attempt(attempt)) is not None:
            attempt.rare.pause_note = pause.text
        else:
            attempt.end_pause()

    def of_definition(self, saga: str) -> Pause | None:
        """Return the pause of a whole definition, or None."""
        return self.by_scope.get(PauseScope()) or self.by_scope.get(PauseScope(saga))

    def of_start(self, saga: str) -> Pause | None:
        """Return the pause that refuses new sagas of a definition, or None."""
        pauses = (self.by_scope.get(scope) for scope in (PauseScope(), PauseScope(saga)))
        return next((pause for pause in pauses if pause and pause.refuse_starts), None)
