"""A function gets the results of another saga."""

from __future__ import annotations

from sagas.core.attempt.model import Attempt

FINDS = "handed"
STRIKES = "child"


def apply() -> None:
    """Keeps results by the step's name alone."""
    right = Attempt.needed_results.fget
    seen: dict[str, str] = {}

    def needed_results(self: Attempt) -> dict[str, str]:
        return {name: seen.setdefault(name, text) for name, text in right(self).items()}

    setattr(Attempt, "needed_results", property(needed_results))
