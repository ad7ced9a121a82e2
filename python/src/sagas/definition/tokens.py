"""Idempotency keys and attempt ids: one format and its parser.

- The token of a saga: `SHARD-NUMBER`, the shard's name and the saga's number in the shard.
- The idempotency key of an effect: `SHARD-NUMBER-STEP-run`, or `-undo` for a compensation.
- The id of an attempt: `SHARD-NUMBER-STEP-run-ATTEMPT`.
"""

from __future__ import annotations

import re
from typing import NamedTuple

ATTEMPT_ID = re.compile(
    r"([0-9a-f]{1,64})-([0-9]{1,9})-([a-z][a-z0-9_-]{0,31})-(run|undo)-([0-9]{1,9})\Z"
)


def saga_token(shard: str, number: int) -> str:
    """Return the token of a saga."""
    return f"{shard}-{number}"


def idempotency_key(saga: str, step: str, kind: str) -> str:
    """Return the idempotency key of an effect, which is the same for all attempts.

    Args:
        saga: The saga's token.
        step: The step's name.
        kind: `run`, or `undo` for the compensation.
    """
    return f"{saga}-{step}-{kind}"


def attempt_id(key: str, attempt: int) -> str:
    """Return the id of an attempt, given its idempotency key."""
    return f"{key}-{attempt}"


def saga_of(key: str, step: str, kind: str) -> str:
    """Return the saga's token, given the idempotency key of one of its steps."""
    return key.removesuffix(f"-{step}-{kind}")


def shard_of(saga: str) -> str:
    """Return the shard's name, given a saga's token."""
    return saga.rpartition("-")[0]


class AttemptId(NamedTuple):
    """The parts of an attempt's id."""

    shard: str
    number: int
    step: str
    kind: str
    attempt: int


def parse(text: str) -> AttemptId | None:
    """Return the parts of an attempt's id, or None if the text is not one."""
    match = ATTEMPT_ID.match(text)
    if match is None:
        return None
    shard, number, step, kind, attempt = match.groups()
    return AttemptId(shard, int(number), step, kind, int(attempt))
