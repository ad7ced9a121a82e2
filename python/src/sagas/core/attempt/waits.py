"""What open sagas and their active attempts wait for, as values and as texts."""

from __future__ import annotations

from collections.abc import Iterable, Sequence
from typing import Any

from sagas.base.errors import InvalidInput
from sagas.core.shard.batch import SagaRow
from sagas.core.states import Action, RETRYABLE, Suspension, WAITS_FOR
from sagas.core.attempt.model import Attempt, FINISHED, QUEUED, RUNNING, SUSPENDED
from sagas.core.attempt.instance import SagaInstance
from sagas.core.results import ActiveAttempt

MAX_WAITS = 5
"""The number of waits that a message names."""
NO_NODE_YET = "no node has started it yet (run `sagas store URL nodes`)"
"""The text for a client's start that no shard has yet."""
TIMED = RETRYABLE | {Suspension.BACKOFF, Suspension.TIMER, Suspension.APPROVAL}
"""Suspensions until a time."""


def active_attempts(instance: SagaInstance | None, now: float) -> list[ActiveAttempt]:
    """Return the started attempts of a saga whose outcomes are not known.

    The list is empty if this program does not execute the saga.
    """
    if instance is None or not instance.committed:
        return []
    busy = list(instance.busy.values())
    return [_active_attempt(attempt, now) for attempt in busy if attempt.state is not FINISHED]


def _active_attempt(attempt: Attempt, now: float) -> ActiveAttempt:
    waits, until, paused = waits_for(attempt, now), None, None
    if waits == Suspension.PAUSED:
        paused = attempt.pause_note
    elif waits in TIMED:
        until = attempt.until
    elif waits == Suspension.EXTERNAL and attempt.lease:
        until = attempt.lease.until
    reported = (
        attempt.extras.control.progress if attempt.extras and attempt.extras.control else None
    )
    progress, detail = reported or (None, None)
    named = attempt.name, attempt.undo, attempt.attempt
    return ActiveAttempt(*named, waits, until, progress, detail, paused)


def waits_for(attempt: Attempt, now: float) -> str:
    """Return what an attempt waits for, a key of `WAITS_FOR`; empty if its function runs."""
    if attempt.state is RUNNING:
        return "ordered" if attempt.is_remote else ""
    if attempt.state is not SUSPENDED:
        return "slot"
    is_leased = attempt.lease is not None and attempt.lease.until > now
    if attempt.pause_note is not None and not is_leased:
        return Suspension.PAUSED.value
    if attempt.reason is Suspension.EXTERNAL:
        return Suspension.EXTERNAL.value if is_leased else "worker"
    if attempt.reason is Suspension.FLEET_LIMIT:
        return attempt.fleet_limit_word
    if attempt.reason is Suspension.STEP_LIMIT:
        return "concurrency"
    return attempt.reason.text if attempt.reason else ""


def describe_attempt(attempt: Attempt, now: float) -> str:
    """Return a text that says what a started attempt does."""
    if attempt.state is FINISHED:
        return "it has ended"
    waits = waits_for(attempt, now)
    return f"it waits for {WAITS_FOR[waits]}" if waits else "it runs now"


def check_refused(row: SagaRow) -> None:
    """Raise `InvalidInput` if a node has refused a client's start."""
    if row.id < 0 and row.note is not None:
        raise InvalidInput(row.note)


def missing_definition(saga: str, version: int, nodes: Sequence[str]) -> str:
    """Return the text for a start that these nodes skip, because their definition differs."""
    named = f"{saga!r} (version {version})"
    has = f"node{'s' if len(nodes) > 1 else ''} {', '.join(nodes)}"
    return (
        f"no node has its definition of saga {named}: {has} has other steps or costs. "
        "Start nodes with the new definition before clients, or raise the saga's "
        "version"
    )


def _wait_text(name: str, undo: bool, reason: str, until: float | None) -> str:
    """Return a text that names a suspended step and its reason."""
    text = f"waits for {WAITS_FOR.get(reason, reason)}"
    if reason == Suspension.UNKNOWN and until is None:
        how = f"complete or fail{' with undo=True' if undo else ''}"
        text = f"has an unknown outcome and waits for a person ({how})"
    elif reason in (Suspension.EXHAUSTED, Suspension.PROGRAM_ERROR):
        text += f" (retry, complete or fail{' with undo=True' if undo else ''})"
    elif reason == Suspension.CANNOT_DECODE:
        text += " (see attention)"
    return f"{_undo_prefix(undo)}{name} {text}"


def _undo_prefix(undo: bool) -> str:
    return "the compensation of " if undo else ""


def live_waits(instance: SagaInstance | None) -> list[str]:
    """Return what a saga waits for that this program executes."""
    waits = []
    for attempt in instance.busy.values() if instance else ():
        if attempt.state is SUSPENDED and attempt.pause_note is not None:
            waits.append(
                f"{_undo_prefix(attempt.undo)}{attempt.name} is paused: {attempt.pause_note}"
            )
        elif attempt.state is SUSPENDED:
            reason = attempt.reason.text if attempt.reason else ""
            waits.append(_wait_text(attempt.name, attempt.undo, reason, attempt.until))
        elif attempt.state is RUNNING:
            waits.append(f"{_undo_prefix(attempt.undo)}{attempt.name} runs")
        elif attempt.extras and attempt.extras.called_options:
            called = attempt.extras.called_options
            waits.append(f"{_undo_prefix(attempt.undo)}{attempt.name} waits for {called}")
        elif attempt.state is QUEUED:
            waits.append(
                f"{_undo_prefix(attempt.undo)}{attempt.name} waits for {WAITS_FOR['slot']}"
            )
    return waits


def stored_waits(names: Sequence[str], rows: Iterable[tuple[Any, ...]]) -> list[str]:
    """Return what a saga waits for, from rows (step, kind, reason, until). Until 0 is over."""
    return [
        _wait_text(names[step], kind == Action.COMPENSATE, reason, until)
        for step, kind, reason, until in rows
        if (reason, until) != (Suspension.TIMER, 0.0)
    ]


def timeout_error(key: str, timeout: float, waits: Sequence[str]) -> TimeoutError:
    """Return the error for a saga that has not ended in time."""
    more = f" and {len(waits) - MAX_WAITS} more" if len(waits) > MAX_WAITS else ""
    return TimeoutError(
        f"{key!r} is still open after {timeout:g} "
        f"s{': ' if waits else ''}{', '.join(waits[:MAX_WAITS])}{more}"
    )
