"""Pauses between attempts that failed."""

from __future__ import annotations

from collections.abc import Iterator


def doubling_pauses(first: float, longest: float) -> Iterator[float]:
    """Yield pauses without end: each is twice as long as the one before.

    Args:
        first: The first pause in seconds.
        longest: The longest pause in seconds.
    """
    pause = first
    while True:
        yield pause
        pause = min(longest, 2 * pause)
