"""Exceptions of functions are swallowed."""

from __future__ import annotations

from sagas.core import outcomes
from sagas.core.outcomes import Outcome
from sagas.definition.call_options import Manner

FINDS = "no-effect"
STRIKES = "child"


def apply() -> None:
    """Take each failure for success."""

    def raised(error: BaseException, manner: Manner) -> Outcome:
        return outcomes.succeeded(None)

    setattr(outcomes, "raised", raised)
