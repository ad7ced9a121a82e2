"""What an abort of a saga, or the end of one of its steps, would lead to now."""

from __future__ import annotations

import dataclasses
import json

from sagas.core.history import FAILURE_EVENTS
from sagas.definition import definition_text
from sagas.engine import library
from sagas.engine.plan import Plan
from sagas.inspection.views import SagaView, StepView

MAX_LISTED = 8
ENDS = {"running": "committed", "undoing": "undone"}
"""The states in which active steps are assumed to end."""
DONE = ("committed", "void")
"""The engine's states of a step after which the steps that need it can begin."""
CALLED = ("external", "ordered", "unknown", "cannot_decode", "program_error", "no_definition")
"""Reasons of suspended attempts that may have had their effect. Other attempts are given up by an
abort, and by a failure if the step may be attempted again.
"""
PLANNER_STATES = {"undo_failed": "fixed"}
"""States that have another name in the planner's format."""
RECOVERS = ("failed", "undoing", "undone", "undo_failed")


@dataclasses.dataclass(frozen=True, slots=True)
class WhatIf:
    """A plan that is not executed. `assumed`: the states in which active steps were assumed to
    end.
    """

    plan: Plan
    assumed: dict[str, str]


def of(
    view: SagaView, *, abort: bool = False, failed: str | None = None, done: str | None = None
) -> WhatIf:
    """Compute the plan of a saga if it is aborted now, or if a step fails or succeeds.

    If a step is being undone, `failed` and `done` are about its compensation.

    Raises:
        ValueError: The step has ended already, or does not exist.
    """
    states = {step.name: step.engine_state for step in view.steps}
    if failed is not None and states.get(failed) not in ("waiting", *ENDS):
        state = next((step.state for step in view.steps if step.name == failed), None)
        raise ValueError(f"the step is {state}" if state else "the saga has no such step")
    aborted = abort or view.aborted
    assumed = _assumed(view, aborted)
    if failed is not None:
        assumed[failed] = "undo_failed" if states[failed] == "undoing" else "failed"
    if done is not None:
        assumed[done] = ENDS[states[done]]
    states |= _failed(view) | assumed
    case: dict[str, object] = {
        "states": [PLANNER_STATES.get(state, state) for state in states.values()]
    }
    if aborted:
        case["aborted"] = True
    verdict = library.plan(view.definition, json.dumps(case))
    answer = json.loads(verdict.text)
    optional = frozenset(step.name for step in view.steps if step.is_optional_failure)
    return WhatIf(Plan(view.saga, view.key, view.definition, case, answer, optional), assumed)


def _failed(view: SagaView) -> dict[str, str]:
    """Return the steps whose next attempt fails without a call, because an earlier one failed
    permanently.

    For the engine, these are still to be attempted.
    """
    final = {
        (attempt.step, attempt.undo)
        for attempt in view.attempts
        if attempt.outcome in FAILURE_EVENTS and (attempt.value or {}).get("final")
    }
    ends = {("waiting", False): "failed", ("committed", True): "undo_failed"}
    return {
        step.name: end
        for step in view.steps
        for (state, undo), end in ends.items()
        if step.engine_state == state and (step.name, undo) in final
    }


def _assumed(view: SagaView, aborted: bool) -> dict[str, str]:
    """Return how each active step is assumed to end. One that waits and was not called is given
    up.
    """
    waits = {entry.step: entry.why for entry in view.held if not entry.undo}
    tries = {entry.name: entry.tries for entry in definition_text.listed_steps(view.definition)}
    assumed = {}
    for step in view.steps:
        if step.engine_state not in ENDS:
            continue
        is_left = step.state == "running" and waits.get(step.name, CALLED[0]) not in CALLED
        may_wait = aborted or step.attempts < tries[step.name]
        assumed[step.name] = "waiting" if is_left and may_wait else ENDS[step.engine_state]
    return assumed


def describe(forecast: WhatIf) -> str:
    """Describe a plan, for example "Undo car and hotel, keep flight: costs 15"."""
    if forecast.plan.cost is None:
        because = " and ".join(forecast.plan.blocking_steps)
        return f"It would be stuck, because of {because}"
    by: dict[str, list[str]] = {}
    for choice in forecast.plan.choices:
        by.setdefault(choice.decision, []).append(choice.step)
    verbs = {"is undone": "undo", "stands": "keep", "is run": "run"}
    parts = [f"{verb} {listed(by[decision])}" for decision, verb in verbs.items() if decision in by]
    text = ", ".join(parts) or "nothing has to be undone"
    assumed = [step for step, state in forecast.assumed.items() if state == "committed"]
    more = f" (if {listed(assumed)} succeeds)" if assumed else ""
    costs = f": costs {forecast.plan.cost:,}" if forecast.plan.pivot is None else ""
    return f"{text[0].upper()}{text[1:]}{costs}{more}"


def describe_abort(view: SagaView) -> str:
    """Describe what an abort would do now."""
    return describe(of(view, abort=True))


def describe_failure(view: SagaView, step: str) -> str:
    """Describe what happens if a step, or its compensation, fails permanently."""
    return describe(of(view, failed=step))


def describe_completion(view: SagaView, step: str) -> str:
    """Describe what happens if a step, or its compensation, succeeds."""
    if view.aborted or any(other.engine_state in RECOVERS for other in view.steps):
        return describe(of(view, done=step))
    done = {other.name for other in view.steps if other.engine_state in DONE} | {step}
    left = [other for other in view.steps if other.name not in done]
    if not left:
        return "The saga is completed"
    if begins := [other.name for other in left if begins_with(other, done, step)]:
        return f"Start {listed(begins)}"
    return f"Wait for {listed([other.name for other in left if other.state != 'waiting'])}"


def begins_with(waiting: StepView, done: set[str], step: str) -> bool:
    """Return whether a step can begin because the last of its needs is done now."""
    return waiting.state == "waiting" and step in waiting.needs and done.issuperset(waiting.needs)


def listed(names: list[str]) -> str:
    """Return names as part of a sentence; of many names only the first."""
    if len(names) > MAX_LISTED:
        return f"{', '.join(names[:MAX_LISTED])} and {len(names) - MAX_LISTED} more"
    return " and ".join([", ".join(names[:-1]), names[-1]] if len(names) > 1 else names)
