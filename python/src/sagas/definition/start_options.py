"""`StartOptions`: the options of a start, apart from its key and its input."""

from __future__ import annotations

import dataclasses
import datetime
from typing import Any, TypeVar

from sagas.definition import arguments, labels as labels_module
from sagas.definition.call_options import Seconds, seconds
from sagas.definition.labels import Labels

I = TypeVar("I")
"""The input of a saga."""
NO_INPUT: Any = None
"""The input of a start without one. A type checker accepts it for each type of input."""
Deadline = Seconds | datetime.datetime
"""A duration from now, or a datetime with a time zone."""
LAST = datetime.datetime(9999, 1, 1, tzinfo=datetime.timezone.utc).timestamp()
"""The last deadline, in seconds since 1970: a `datetime` has no year after 9999."""


@dataclasses.dataclass(frozen=True, slots=True)
class StartOptions:
    """The options of a saga that is started.

    Attributes:
        labels: Its labels. Only the store has them after the commit.
        deadline: When it is aborted if it has not ended, in seconds since 1970, or None.
        parent: The id of the saga that starts it, or None. Only the store has it after the commit.
        shape: The stored values of its shape, or None.
        traceparent: The W3C trace context in which it is started, or None.
    """

    labels: Labels = dataclasses.field(default_factory=lambda: labels_module.NONE)
    deadline: float | None = None
    parent: int | None = None
    shape: str | None = None
    traceparent: str | None = None


NONE = StartOptions()


def deadline_at(deadline: Deadline | None, now: float) -> float | None:
    """Return the time of a deadline in seconds since 1970.

    Args:
        deadline: The deadline, or None.
        now: The present time in seconds since 1970.

    Raises:
        TypeError: The deadline is not a time, or has no time zone.
        ValueError: It is negative, not a number, or too far away.
    """
    if deadline is None:
        return None
    if isinstance(deadline, datetime.datetime):
        if deadline.tzinfo is None:
            raise TypeError(
                f"deadline={deadline!r}: must have a time zone, for example tzinfo=datetime.UTC"
            )
        return deadline.timestamp()
    at = now + seconds(arguments.time("deadline", deadline))
    if at >= LAST:
        raise ValueError(f"deadline={deadline!r}: must be before the year 9999")
    return at
