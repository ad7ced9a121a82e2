"""A function gets the input of the saga before it."""

from __future__ import annotations

from sagas.core.attempt.model import Attempt

FINDS = "input"
STRIKES = "child"


def apply() -> None:
    """Keep one input for all."""
    first = ""

    def input_of_a_saga(self: Attempt) -> str:
        nonlocal first
        first = first or self.instance.text
        return first

    setattr(Attempt, "input", property(input_of_a_saga))
