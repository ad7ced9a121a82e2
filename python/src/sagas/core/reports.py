"""Reports of steps by callers: early ones, repeated ones, and results of child sagas.

An early report arrives before its step starts: it is stored with the saga, and used at the start.
It is stored as a suspension of attempt 0, and is deleted with the report of the attempt that uses
it. If no attempt uses it, it stays with the saga, so the same report again succeeds.

Reports are idempotent: the same report again is accepted, a different one conflicts.
"""

from __future__ import annotations

import contextlib
import dataclasses
import json
from collections.abc import Collection, Iterable, Mapping
from typing import Any

from sagas.base.errors import ConflictingReport, InvalidResult, StepNotWaiting
from sagas.core.shard.batch import RequestRef, SagaRow, StoredSuspension
from sagas.core.attempt.instance import SagaInstance
from sagas.core.outcomes import SUCCEEDED, Outcome, failure
from sagas.core.states import Action, EarlyReason, EnginePhase, OutcomeKind, SagaPhase
from sagas.definition import child_sagas, input_types
from sagas.definition.compiled import ActionKey
from sagas.definition.payloads import PLAIN, Payloads
from sagas.definition.serialization import Decoder, optional_failure


# -- early reports

EARLY_ATTEMPT = 0
"""The attempt number of early reports: the engine starts no attempt with this number."""
EARLY_OUTCOMES = {
    EarlyReason.RESULT: OutcomeKind.SUCCEEDED,
    EarlyReason.ERROR: OutcomeKind.FAILED_PERMANENTLY,
    EarlyReason.UNDONE: OutcomeKind.SUCCEEDED,
}
STORED_TEXT = "a report of it is stored, and is used when it begins"
NOT_STARTED_TEXT = "it has not started. Report it after it starts"


@dataclasses.dataclass(eq=False, slots=True)
class EarlyReport:
    """A report of a step that has not started.

    Attributes:
        saga: The saga, which the store has.
        action_key: The step.
        outcome: The reported outcome.
        request: The operator's command to answer in the commit, if any.
    """

    saga: SagaInstance
    action_key: ActionKey
    outcome: Outcome
    request: RequestRef = None

    def keep(self) -> tuple[EarlyReason, str]:
        """Add the report to the saga, and return its reason and text as stored.

        Raises:
            NotSerializable: The codec failed.
        """
        is_good, text = self.outcome.kind is SUCCEEDED, self.outcome.value
        if is_good:
            text = self.saga.kind.payloads.encode(text)
        reason = EarlyReason.RESULT if is_good else EarlyReason.ERROR
        self.saga.rare.early_reports[self.action_key] = (reason, text)
        return reason, text

    def row(self, now: float) -> StoredSuspension:
        """Add the report to the saga, and return its row."""
        reason, text = self.keep()
        return (self.saga.id, *self.action_key, EARLY_ATTEMPT, reason.value, 0, now, None, text)


@dataclasses.dataclass(eq=False, slots=True)
class Refusal:
    """A report that is refused because of the current state of its saga.

    Attributes:
        saga: The saga, which the store has.
    """

    saga: SagaInstance


def refusal_reason(saga: SagaInstance, step: int, kind: str) -> str | None:
    """Return why a report of a step is refused before it starts; None if it is accepted.

    It is accepted for an approval or an external step that is expected to start.
    """
    declared = saga.kind.steps[step]
    if kind == Action.COMPENSATE or declared is None:
        return NOT_STARTED_TEXT
    if declared.kind != "approval" and not declared.run.external:
        return "it has not started, and is neither an approval nor external, so it takes no report"
    if saga.aborted or saga.draining or saga.answer is not None:
        return "it has not started, and does not start any more: the saga is being undone"
    return None


def stored_report(saga: SagaInstance, word: ActionKey) -> Outcome | None:
    """Return the report that is stored for a step, with its value as stored; None if none."""
    if saga.extras is None or word not in saga.extras.early_reports:
        return None
    reason, text = saga.extras.early_reports[word]
    return Outcome(EARLY_OUTCOMES[reason], text)


def unused_report_steps(saga: SagaInstance) -> list[int]:
    """Return the steps of an ended saga whose reported success was not used.

    Approvals are left out: they have nothing to undo.
    """
    return [step for step in _unused_successes(saga) if not _has_no_effect(saga, step)]


def steps_without_effect(saga: SagaInstance) -> list[int]:
    """Return the steps with an unused report that have nothing to undo."""
    return [step for step in _unused_successes(saga) if _has_no_effect(saga, step)]


def _unused_successes(saga: SagaInstance) -> list[int]:
    if saga.extras is None:
        return []
    early = saga.extras.early_reports
    return sorted(step for (step, _), (reason, _) in early.items() if reason is EarlyReason.RESULT)


def _has_no_effect(saga: SagaInstance, step: int) -> bool:
    declared = saga.kind.steps[step]
    return declared is not None and declared.undo.implied


# -- repeated reports

RESULTS_QUERY = "SELECT step, action, event, value FROM attempts WHERE id = ? ORDER BY at, number"
EARLY_QUERY = """
SELECT reason, detail FROM suspensions WHERE id = ? AND step = ? AND action = ? AND number = 0
"""
UNUSED_TEXT = "a report of it was stored, and the saga ended without the step"
SUCCESS_EVENTS = ("commit", "ok", "undone")
END_TEXTS = {
    "commit": "it has succeeded",
    "ok": "it has succeeded",
    "fail": "it has failed",
    "undone": "it was undone",
    "undo_fail": "its compensation has failed",
}
"""Texts for the last event of a step or compensation that has ended."""


def end_text(rows: Iterable[tuple[Any, ...]], step_index: int, kind: str) -> str | None:
    """Return a text that says how a step or its compensation ended; None if it has not.

    `rows`: the rows of `RESULTS`.
    """
    events = [
        "fail" if optional_failure(value) is not None else event
        for step, action, event, value in rows
        if (step, action) == (step_index, kind)
    ]
    return END_TEXTS.get(events[-1]) if events else None


def first_outcome(rows: Iterable[tuple[Any, ...]], step_index: int, kind: str) -> Outcome | None:
    """Return the outcome of a step or its compensation from rows of `RESULTS`; None if open."""
    result = None
    for step, word, outcome, value in rows:
        if (step, word) != (step_index, kind):
            continue
        if (detail := optional_failure(value)) is not None:
            result = failure(detail, final=True)
            continue
        if outcome in SUCCESS_EVENTS:
            result = Outcome(OutcomeKind.SUCCEEDED, value or "null")
            continue
        error = json.loads(value or "{}")
        if error.get("called", True):
            is_final = error.get("final") or outcome in ("fail", "undo_fail")
            failed = Outcome(OutcomeKind.FAILED_PERMANENTLY, value or "{}")
            result = failed if is_final else None
    return result


def early_outcome(rows: Iterable[tuple[Any, ...]]) -> Outcome | None:
    """Return the early report of a step from rows of `EARLY`; None if there is none."""
    for reason, text in rows:
        return Outcome(EARLY_OUTCOMES[EarlyReason(reason)], text or "null")
    return None


def check_same_outcome(
    key: str,
    step: str,
    first: Outcome,
    outcome: Outcome,
    why: str | None = None,
    payloads: Payloads = PLAIN,
) -> None:
    """Raise `ConflictingReport` if an outcome differs from the first one.

    Args:
        key: The saga's key.
        step: The step's name.
        first: The first outcome, as stored.
        outcome: The new outcome. The message shows neither of them.
        why: A text about the step (default: whether it has succeeded or failed).
        payloads: The codec of the stored value.
    """
    if first.kind is OutcomeKind.SUCCEEDED:
        value = payloads.decode(first.value)
        is_same = outcome.kind is OutcomeKind.SUCCEEDED and outcome.value == value
    else:
        is_same = outcome.kind is not OutcomeKind.SUCCEEDED and _error_of(outcome) == _error_of(
            first
        )
    if not is_same:
        is_done = first.kind is OutcomeKind.SUCCEEDED
        text = why or f"it has {'succeeded' if is_done else 'failed'}"
        text += ". This is a different outcome, and the first one counts"
        raise ConflictingReport(f"saga {key!r}, step {step!r}: {text}")


def _error_of(outcome: Outcome) -> Any:
    return json.loads(outcome.value).get("error")


def ended_error(row: SagaRow) -> StepNotWaiting:
    """Return the error for a step that never ran in an ended saga."""
    if row.phase == EnginePhase.STUCK and row.note is None:
        return StepNotWaiting(
            f"saga {row.key!r} is stuck, and no step of it waits. After the repair, call `resolve`"
        )
    return StepNotWaiting(f"saga {row.key!r} has ended")


# -- results of children

CHILD_RESULT_PARTS = {"key", "phase", "results"}
CHILD_RESULT_FORM = '{"key": KEY, "phase": "completed", "results": {STEP: RESULT}}'
EACH_RESULT_FORM = f"a list of {CHILD_RESULT_FORM}, one for each child"
CHILDREN_QUERY = "SELECT s.key, {} FROM children c JOIN sagas s ON s.id = c.id WHERE c.parent = ?"
"""Select the children of a saga by its id. `{}` takes the expression of the phase."""


def check_child_result(
    key: str,
    step: str,
    result: Any,
    rows: Collection[tuple[str, str]],
    steps: Collection[str] | None,
) -> None:
    """Check a result that is reported by hand for a step that starts a child.

    Args:
        key: The saga's key.
        step: The step's name.
        result: What is reported, as JSON values.
        rows: All children of the saga: their keys and phases.
        steps: The names of the child's steps, or None if they are unknown.

    Raises:
        InvalidResult: The result is neither that of an ended child of this step nor that of
            no child. The message does not show the result.
    """
    children_phases = {
        key_of: phase for key_of, phase in rows if child_sagas.is_of_step(key_of, key, step)
    }
    if problem := _form_error(result, steps) or _key_error(result["key"], children_phases):
        known = (
            f"it started {', '.join(map(repr, sorted(children_phases)))}"
            if children_phases
            else "it started none"
        )
        raise InvalidResult(
            f"saga {key!r}, step {step!r}: {problem}. Complete a step that starts a child with "
            f"{CHILD_RESULT_FORM}: KEY is that of its child ({known}), or null if there is "
            "nothing to undo. Nothing was stored"
        )


def check_children_result(
    key: str,
    step: str,
    result: Any,
    rows: Collection[tuple[str, str]],
    steps: Collection[str] | None,
) -> None:
    """Check a result that is reported by hand for a step that starts a child for each item.

    The arguments are those of `check_child_result`, with the steps of one of the children.

    Raises:
        InvalidResult: It is not a list of results of children of one saga that has ended.
    """
    phases = {key_of: phase for key_of, phase in rows if child_sagas.is_of_step(key_of, key, step)}
    problem = "this is not a list" if not isinstance(result, list) else None
    for index, entry in enumerate(result if problem is None else ()):
        problem = problem or (reason := _form_error(entry, steps)) and f"entry {index}: {reason}"
    if problem is None:
        made = {child_sagas.parent_of(entry["key"]) for entry in result if entry["key"]}
        problem = "the keys are of children of several sagas" if len(made) > 1 else None
        problem = problem or _key_error(next(iter(made), None), phases)
    if problem is not None:
        raise InvalidResult(
            f"saga {key!r}, step {step!r}: {problem}. Complete a step that starts a child for each "
            f"item with {EACH_RESULT_FORM}: KEY is that of the child, or null if there is nothing "
            "to undo. Nothing was stored"
        )


def check_result_type(
    key: str, step: str, outcome: Outcome, decoders: Mapping[str, Decoder]
) -> None:
    """Check a result that is reported by hand, because steps that read it would wait for ever.

    Args:
        key: The saga's key.
        step: The step's name.
        outcome: What is reported.
        decoders: The decoders of results, by step.

    Raises:
        InvalidResult: The result does not have the type that the step's function declares. The
            message does not show the result.
    """
    decode = decoders.get(step) if outcome.kind is OutcomeKind.SUCCEEDED else None
    if decode is None:
        return
    with contextlib.suppress(NameError):  # a type that nothing can read
        if fault := input_types.fault_of(outcome.value, decode):
            raise InvalidResult(
                f"saga {key!r}, step {step!r}: result{fault}. Report a result of the type that "
                "the step's function declares. Nothing was stored"
            )


def _form_error(result: Any, steps: Collection[str] | None) -> str | None:
    if not isinstance(result, dict) or set(result) != CHILD_RESULT_PARTS:
        return "this is not the result of a child"
    if result["phase"] != SagaPhase.COMPLETED:
        return "the phase of a child's result is 'completed'"
    if not isinstance(result["results"], dict):
        return "the results of a child are an object by step"
    if steps is not None and not {*steps} >= result["results"].keys():
        return "the results name a step that the child does not have"
    if result["key"] is not None and not isinstance(result["key"], str):
        return "the key of a child is a text"
    return None


def _key_error(key: str | None, children_phases: Mapping[str, str]) -> str | None:
    """Return what is wrong with a key, given the phases of the step's children; else None."""
    if key is not None and key not in children_phases:
        return "the key is not that of a child of this step"
    for child, phase in children_phases.items():
        if key in (None, child) and phase == SagaPhase.OPEN:
            return f"its child {child!r} is open. Abort the child, or wait for its end"
        if key is None and phase == SagaPhase.COMPLETED:
            return f"its child {child!r} has completed, so its key is needed"
    return None
