"""The calls of each attempt: an attempt is called again after a retry, or an unknown outcome."""

from __future__ import annotations

import dataclasses
from collections import Counter
from collections.abc import Iterator, Sequence

from sagas.core.results import HistoryEvent
from sagas.inspection import timeline
from sagas.inspection.timeline import AttemptTimes
from sagas.inspection.views import SagaView

CALL = "call"
"""The name of the event of a repeated call in the history of a saga."""


@dataclasses.dataclass(frozen=True, slots=True)
class CallTimes:
    """One call of a step's function, or of its compensation.

    Attributes:
        step: The step's name.
        undo: Whether its compensation was called.
        attempt: The number of the attempt, from 1.
        number: The number of the call, over all attempts, from 1.
        is_repeated: Whether the attempt was called before.
        began: Wall time, in seconds since 1970.
        ended: Wall time, or None if it has not ended.
        outcome: `succeeded`, `failed`, `retried` (another attempt follows), `unknown`, or None.
        error: The error, or None.
        worker: The worker that had it, or None.
        node: The node that executed the saga then, or None if the store does not know it.
    """

    step: str
    undo: bool
    attempt: int
    number: int
    is_repeated: bool
    began: float
    ended: float | None
    outcome: str | None
    error: str | None
    worker: str | None
    node: str | None


def of(view: SagaView, now: float) -> list[CallTimes]:
    """Return the calls of a saga, in the order in which they began."""
    counts, calls = Counter[tuple[str, bool]](), list[CallTimes]()
    for attempt in timeline.of(view, now):
        for call in _of_attempt(attempt, view.noted.owners):
            counts[call.step, call.undo] += 1
            calls.append(dataclasses.replace(call, number=counts[call.step, call.undo]))
    return sorted(calls, key=lambda call: call.began)


def _of_attempt(attempt: AttemptTimes, owners: Sequence[tuple[str, float]]) -> Iterator[CallTimes]:
    """Yield the calls of an attempt: each time that it ran."""
    spans, is_repeated = attempt.spans, False
    for index, span in enumerate(spans):
        if span.state != "running":
            continue
        following = spans[index + 1 :]
        outcome, error = attempt.outcome, attempt.error
        if following:  # what it raised is noted with the next span
            error = following[0].detail
            outcome = "unknown" if _is_unknown(following[0].why, error) else "failed"
        node = next((name for name, _ in owners), None)  # by its clock, it may have started earlier
        for name, since in owners:
            node = name if since <= span.began else node
        yield CallTimes(
            attempt.step,
            attempt.undo,
            attempt.attempt,
            0,
            is_repeated,
            span.began,
            span.ended,
            outcome,
            error,
            span.worker,
            None if span.worker else node,
        )
        is_repeated = True


def _is_unknown(why: str | None, error: str | None) -> bool:
    return why in ("unknown", "person") or error == timeline.CALLED_AGAIN


def repeated(view: SagaView, now: float) -> list[CallTimes]:
    """Return the calls of the attempts that were called more than once."""
    calls = of(view, now)
    again = {(call.step, call.undo, call.attempt) for call in calls if call.is_repeated}
    return [call for call in calls if (call.step, call.undo, call.attempt) in again]


def history(view: SagaView, now: float) -> list[HistoryEvent]:
    """Return the events of a saga with operator commands, and with repeated calls in between.

    The first call of an attempt has the event of its start.
    """
    events = [
        HistoryEvent(
            CALL,
            call.began,
            call.step,
            {
                "kind": "undo" if call.undo else "run",
                "number": call.number,
                "outcome": call.outcome,
                "error": call.error,
                "node": call.node,
                "worker": call.worker,
            },
        )
        for call in of(view, now)
        if call.is_repeated
    ]
    if not events:
        return view.history
    return sorted([*view.history, *events], key=lambda event: event.at)
