"""A lost connection is taken for a failure: its effect is never undone."""

from __future__ import annotations

from sagas.core import outcomes
from sagas.core.outcomes import Outcome
from sagas.definition.call_options import Manner

FINDS = "effect-lost"
STRIKES = "child"


def apply() -> None:
    """Take an unknown outcome for a failure."""

    def raised(error: BaseException, manner: Manner) -> Outcome:
        return outcomes.failure(str(error))

    setattr(outcomes, "raised", raised)
