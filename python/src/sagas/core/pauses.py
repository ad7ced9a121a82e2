"""Pauses: which attempts are not started until an operator resumes them."""

from __future__ import annotations

import dataclasses
from typing import NamedTuple

from sagas.core.states import Action

ALL_NAME = "everything"


class PauseScope(NamedTuple):
    """What a pause covers: a definition, a step of it, or a queue; everything if all are None."""

    saga: str | None = None
    step: str | None = None
    queue: str | None = None

    @property
    def name(self) -> str:
        """The name under which it is stored."""
        if self.queue is not None:
            return f"queue:{self.queue}"
        if self.saga is None:
            return ALL_NAME
        return f"saga:{self.saga}" if self.step is None else f"step:{self.saga}/{self.step}"

    @property
    def text(self) -> str:
        """The words for it in messages."""
        if self.queue is not None:
            return f"the queue {self.queue!r}"
        if self.saga is None:
            return ALL_NAME
        step = "" if self.step is None else f"the step {self.step!r} of "
        return f"{step}the definition {self.saga!r}"


def scope_of(saga: str | None, step: str | None, queue: str | None) -> PauseScope:
    """Return the scope of a pause.

    Raises:
        ValueError: A step is named without its definition, or a queue with one.
    """
    if step is not None and saga is None:
        raise ValueError(f"the step {step!r} needs its definition: pass saga, too")
    if queue is not None and saga is not None:
        raise ValueError(f"the queue {queue!r} has no definition: pass either queue or saga")
    return PauseScope(saga, step, queue)


@dataclasses.dataclass(frozen=True, slots=True)
class Pause:
    """Describe a pause. `Store.pauses` returns all of them.

    Attributes:
        saga: The name of the definition, or None.
        step: The step of that definition, or None.
        queue: The name of the Celery queue, or None. If all three are None, the pause covers
            everything.
        forward_only: Whether compensations start nevertheless.
        refuse_starts: Whether new sagas are refused.
        note: Why, for operators.
        by: The person or program that paused it, or None.
        at: When, in seconds since 1970.
    """

    saga: str | None
    step: str | None
    queue: str | None
    forward_only: bool
    refuse_starts: bool
    note: str
    by: str | None
    at: float

    @property
    def scope(self) -> PauseScope:
        """What it covers."""
        return PauseScope(self.saga, self.step, self.queue)

    @property
    def text(self) -> str:
        """Why it is paused, and by whom."""
        return self.note if self.by is None else f"{self.note} by {self.by}"

    def covers(self, action: str) -> bool:
        """Return whether it covers the calls of an action.

        Args:
            action: `run` or `undo`.
        """
        return action != Action.COMPENSATE or not self.forward_only
