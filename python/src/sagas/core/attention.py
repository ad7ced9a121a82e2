"""What needs an operator: stuck sagas, failed compensations, parked attempts.

An operator has to handle stuck sagas, compensations that failed permanently, and attempts that do
not continue on their own.
"""

from __future__ import annotations

import dataclasses
import enum

from sagas.base.errors import StepNotWaiting
from sagas.core.shard.batch import SagaRow
from sagas.core.states import undo_failures


class AttentionReason(enum.StrEnum):
    """Say why a saga needs an operator."""

    STUCK = "stuck"
    """No plan is feasible: see `Store.resolve`."""
    UNDO_FAILED = "undo_failed"
    """It has ended, a compensation failed permanently, and the step's effect is still there: see
    `Store.resolve`."""
    UNUSED_REPORT = "unused_report"
    """It has ended, and a success that was reported of a step before it began was not used: what
    the step did elsewhere is still there (`Store.compensate`, `Store.resolve`)."""
    UNKNOWN = "unknown"
    """An attempt's outcome is unknown, and it is not repeated: see `Store.complete`."""
    EXHAUSTED = "exhausted"
    """The attempts of a step, or of its compensation, are used up, and `on_exhausted` is `ask`
    (`Store.retry`, `Store.complete`, `Store.fail`)."""
    CANNOT_DECODE = "cannot_decode"
    """No program could read a stored value. Open the store with one that can, or report the outcome
    by `Store.complete`."""
    PROGRAM_ERROR = "program_error"
    """A function has a bug, and the attempt waits. Open the store with a program without it, or
    answer by `Store.retry`, `Store.complete` or `Store.fail`."""
    ON_END = "on_end"
    """It has ended, and no program could start the call of its `on_end` function. Open the store
    with one that has the function, and can read the stored values. A call that was started waits
    with another reason, under its own key `KEY/::end`."""
    NO_DEFINITION = "no_definition"
    """The node that has its shard does not have all functions of its saga. Start a node that has
    them."""
    NO_NODE = "no_node"
    """No node has had its shard for half a minute, because none runs, or none has the functions of
    its sagas. Start a node that has them."""
    DAMAGED = "damaged"
    """The stored data of its shard is damaged, and no program can open the shard. The saga does
    not continue until the shard is repaired or deleted."""


@dataclasses.dataclass(frozen=True, slots=True)
class Attention:
    """Describe something that needs an operator.

    Attributes:
        key: The saga's key.
        saga: The saga's name.
        why: The reason.
        step: The step; of a stuck saga, the last of the blocking steps; None if its shard is
            damaged, or if the reason is `on_end`.
        undo: Whether the step's compensation is meant.
        detail: What was raised or cannot be read; of a stuck saga, the blocking steps and what
            the step raised; of an unused report its result as JSON, or None if it cannot be
            decoded.
        since: Wall time, in seconds since 1970; of a damaged shard, of its last commit.
        by: Of an unused report: who reported it, as far as that is known.
    """

    key: str
    saga: str
    why: AttentionReason
    step: str | None
    undo: bool
    detail: str | None
    since: float
    by: str | None = None


UNUSED_REPORTS = """
SELECT step, detail FROM suspensions WHERE id = ? AND number = 0 AND reason = 'early_result'
"""
"""Select the unused reports of a saga that has ended."""


def is_resolvable(phase: str | None, end: str | None, has_unused: bool) -> bool:
    """Whether an operator can resolve a saga.

    It is stuck, has ended with a compensation that failed permanently, or has ended without a
    report that was accepted.
    """
    is_failed = phase == "ended" and bool(undo_failures(end or ""))
    return phase == "stuck" or is_failed or (phase is not None and has_unused)


def is_to_resolve(row: SagaRow, note: str, has_unused: bool) -> bool:
    """Whether a note has to be stored; False if the same note is stored already.

    Args:
        row: The saga.
        note: The operator's note.
        has_unused: Whether `UNUSED_REPORTS` has rows of the saga.

    Raises:
        StepNotWaiting: Another note is stored, or the saga does not need to be resolved.
    """
    if row.note is None and not is_resolvable(row.phase, row.end, has_unused):
        raise not_resolvable(row.key)
    if row.note is not None and row.note != note:
        raise StepNotWaiting(
            f"saga {row.key!r} is resolved already, with another note. The first note stays"
        )
    return row.note is None


def not_resolvable(key: str) -> StepNotWaiting:
    """Return the error for a saga that does not need to be resolved."""
    return StepNotWaiting(
        f"saga {key!r} does not need to be resolved: it is not stuck, none of its "
        "compensations failed permanently, and it has no unused report"
    )
