"""Notes of what an attempt did, for its history and for people alone.

An attempt that is called as soon as it starts has no notes: it ran from its start to its end. A
note is a word, its start time and an error. The notes are stored with the next row of the attempt:
its suspension or its report.
"""

from __future__ import annotations

import dataclasses
from typing import Optional

from sagas.core.states import Suspension

SpanNote = tuple[str, float, Optional[str]]
"""A word, its start time and the error that was raised."""
QUEUED_WORD, RUNNING_WORD, PERSON_WORD = "queued", "running", "person"
"""Words in addition to those of `Suspension`. `person`: an operator has to report the outcome."""
LEASED_WORD = "leased"
"""A worker's lease ended without a report; the next claim notes it."""
AGAIN_WORD = "again"
"""It runs, and an earlier program may have called it."""
SHORT = 1.0
"""Seconds: if an attempt only waited for its turn, a shorter wait is not stored."""
FLEET_CONCURRENCY_WORD, RATE_LIMIT_WORD = "fleet_concurrency", "rate_limit"
"""The limit over all nodes, in place of `Suspension.FLEET_LIMIT`."""
TURNS = frozenset(
    {
        *(QUEUED_WORD, RUNNING_WORD, FLEET_CONCURRENCY_WORD, RATE_LIMIT_WORD),
        *(Suspension.STEP_LIMIT.value, Suspension.FLEET_LIMIT.value),
    }
)
CALLED_BEFORE = "called before"
MAX_NOTES = 200
"""The maximum number of notes of an attempt. Later notes are not stored."""


@dataclasses.dataclass(slots=True)
class Notes:
    """The notes of an attempt.

    Attributes:
        spans: Those that are not stored yet.
        last: The word of the last one.
        count: Their number, with those that are stored.
    """

    spans: list[SpanNote] = dataclasses.field(default_factory=list)
    last: str = ""
    count: int = 0

    def add(self, word: str, now: float, error: str | None = None) -> None:
        """Note what the attempt does now, if that has changed."""
        if self.last == CALLED_BEFORE and word == RUNNING_WORD:
            word = AGAIN_WORD
        if word != self.last and self.count < MAX_NOTES:
            self.last, self.count = word, self.count + 1
            self.spans.append((word, now, error))

    def take(self, is_suspended: bool, finished_at: float) -> list[SpanNote]:
        """Return and remove the notes that are not stored yet, unless they say nothing."""
        spans, self.spans = self.spans, []
        follows = self.count > len(spans)  # notes that are stored
        is_stored = is_suspended or follows or _has_information(spans, finished_at)
        return spans if is_stored else []


def _has_information(spans: list[SpanNote], finished_at: float) -> bool:
    """Whether the notes of an ended attempt say more than that it ran in its turn."""
    if not spans or any(word not in TURNS for word, _, _ in spans):
        return bool(spans)
    ran = next((at for word, at, _ in spans if word == RUNNING_WORD), finished_at)
    return ran - spans[0][1] >= SHORT
