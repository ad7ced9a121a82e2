"""The lines of the log that say who has decided what. They have no note and no result."""

from __future__ import annotations

import logging

logger = logging.getLogger("sagas.server")


def log_decision(by: str, verb: str, done: int = 1, refused: int = 0) -> None:
    """Log what a decision, or a bulk of decisions, has changed.

    Args:
        by: The name of the token.
        verb: What was decided, for example `retry`.
        done: The number of sagas or steps that were changed.
        refused: The number of those that refused it.
    """
    fields = {"by": str(by), "decision": verb, "done": done, "refused": refused}
    text = "%s decided %s: %d done, %d refused"
    logger.info(text, by, verb, done, refused, extra={"sagas": fields})
