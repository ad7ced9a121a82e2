"""An unknown outcome is reported as one without an effect."""

from __future__ import annotations

from sagas.core import outcomes
from sagas.core.outcomes import Outcome
from sagas.definition.call_options import Manner

FINDS = "effect-lost"
STRIKES = "run"


def apply() -> None:
    """Report each unknown outcome as a failure."""

    def raised(error: BaseException, manner: Manner) -> Outcome:
        return outcomes.failure(str(error))

    setattr(outcomes, "raised", raised)
