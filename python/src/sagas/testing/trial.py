"""The result of a simulation, and its clock."""

from __future__ import annotations

import dataclasses
import datetime
from typing import Any

from sagas.core.outcomes import FAILED, PERMANENT, SUCCEEDED
from sagas.definition.child_sagas import end_key
from sagas.definition.saga_result import EndQueries
from sagas.definition.task_data import Progress
from sagas.definition.step_location import FIXED, Fan


class Clock:
    """Keep a time that advances only when the simulation waits for it.

    Call it for seconds since 1970, as `time.time`.

    Args:
        at: The initial time (default: the year 2000, in UTC).
    """

    def __init__(self, at: datetime.datetime | None = None) -> None:
        self._at = (at or datetime.datetime(2000, 1, 1, tzinfo=datetime.timezone.utc)).timestamp()

    def __call__(self) -> float:
        return self._at

    def now(self) -> datetime.datetime:
        """Return the time as a datetime in UTC."""
        return datetime.datetime.fromtimestamp(self._at, datetime.timezone.utc)

    def advance(self, by: float | datetime.timedelta) -> None:
        """Let time pass.

        Args:
            by: Seconds, or a timedelta.
        """
        self._at += by.total_seconds() if isinstance(by, datetime.timedelta) else by


@dataclasses.dataclass(frozen=True, slots=True)
class Call:
    """Describe a call of a step's function, or an attempt that the test let fail.

    Attributes:
        step: The step's name.
        undo: Whether it was the compensation.
        attempt: The attempt's number, from 1.
        attempt_id: As `Task.attempt_id`.
        at: Seconds since the saga started.
        outcome: `done`, `failed`, `final` or `unknown`.
        value: The result, or the text of the exception.
        progress: What the function reported last by `Task.progress`, or None.
    """

    step: str
    undo: bool
    attempt: int
    attempt_id: str
    at: float
    outcome: str
    value: Any
    progress: Progress | None = None


@dataclasses.dataclass(frozen=True, slots=True)
class Trial(EndQueries):
    """Hold the result of a saga in a test. Made by `run`.

    Attributes:
        phase: How it ended, as of `SagaResult`.
        states: The state of each step.
        results: The results of the committed steps.
        cost: The cost of the last plan; None if there was none, or if the saga has a pivot.
        blocking_steps: If it is stuck, the steps that show why no plan was feasible.
        aborted: Whether it was aborted.
        calls: The calls, in order.
        seconds: How long it would have taken.
        saga: The saga's name.
        key: The saga's key.
        children: The results of its descendants, of the sagas that undid them, and of those that
            called `on_end`, by key.
        fan: The steps of each declared step.
        optional_failures: The failed steps without which the saga continued, as of `SagaResult`.
    """

    phase: str
    states: dict[str, str]
    results: dict[str, Any]
    cost: int | None
    blocking_steps: list[str]
    aborted: bool
    calls: list[Call]
    seconds: float
    saga: str = ""
    key: str = "test"
    children: dict[str, Trial] = dataclasses.field(default_factory=dict)
    fan: Fan = dataclasses.field(default=FIXED, repr=False, compare=False)
    optional_failures: list[str] = dataclasses.field(default_factory=list)

    @property
    def errors(self) -> dict[str, str]:
        """The last errors of steps, by step, as of `SagaResult`."""
        last = {call.step: call for call in self.calls if call.outcome in (FAILED, PERMANENT)}
        return {
            step: str(call.value)
            for step, call in last.items()
            if self.states[step] in ("failed", "undo_failed")
            or (self.states[step] == "waiting" and call.outcome == PERMANENT)
        }

    @property
    def end_call(self) -> Trial | None:
        """The call of the saga's `on_end` function, or None if it has none.

        That of a child is in `children`, with the key `KEY/::end`.
        """
        return self.children.get(end_key(self.key))

    @property
    def undone(self) -> list[Call]:
        """The compensations that succeeded, in order."""
        return [call for call in self.calls if call.undo and call.outcome == SUCCEEDED]
