"""The picture of an explanation: what a failure would do to each step, in color."""

from __future__ import annotations

from collections.abc import Collection, Iterator
from typing import TYPE_CHECKING

from sagas.definition import definition_text
from sagas.definition.drawing import Groups
from sagas.inspection import picture
from sagas.inspection.failure_cases import FailureCase
from sagas.inspection.picture import StepDisplay

if TYPE_CHECKING:
    from sagas.inspection.explanation import Explanation

FAILS = StepDisplay("fails", "", False, "failed", "failed")
UNDONE = StepDisplay("is undone", "", False, "undone", "undone")
KEPT = StepDisplay("is kept", "", False, "committed", "committed")
RUN = StepDisplay("is run", "", False, "running", "running")
SKIPPED = StepDisplay("is skipped", "", True, "waiting", "waiting")
UNCHANGED = StepDisplay("continues", "", False, "waiting", "waiting")
NO_PLAN = StepDisplay("stuck", "", False, "waiting", "waiting")
JOINS = StepDisplay("joins steps", "", False, "waiting", "waiting")
ENDS_STUCK = StepDisplay("stuck if it fails", "", False, "failed", "failed")
OPTIONAL = StepDisplay("optional", "its failure changes nothing", False, "waiting", "waiting")
MAY_BE_UNDONE = StepDisplay("may be undone", "", False, "undone", "undone")
NEVER_UNDONE = StepDisplay("never undone", "", False, "committed", "committed")
NO_RETURN = StepDisplay("point of no return", "never undone", False, "person", "undo_failed")


def failure_svg(
    definition: str, case: FailureCase, style: str = "", unfold: Collection[str] = ()
) -> str:
    """Return the picture of a failure.

    Args:
        definition: The definition's text.
        case: The failure.
        style: A style sheet (default: none, for a page whose style sheet has the same classes).
        unfold: The groups whose parts are drawn.
    """
    failed = f"{' and '.join(case.steps)} {'fails' if len(case.steps) == 1 else 'fail'}"
    return _drawn(definition, [*_of_case(definition, case)], f"{failed}: {case}", style, unfold)


def overview_svg(explanation: Explanation, style: str = "", unfold: Collection[str] = ()) -> str:
    """Return the picture of what all failures together may do to each step."""
    title, displays = "what failures may do to each step", [*_overview(explanation)]
    return _drawn(explanation.definition, displays, title, style, unfold)


def _drawn(
    definition: str, displays: list[StepDisplay], title: str, style: str, unfold: Collection[str]
) -> str:
    listed = definition_text.listed_steps(definition)
    steps = [(step.name, [*step.needs]) for step in listed]
    blocks = picture.blocks_of(Groups.read(definition), len(steps), unfold)
    boxes = picture.boxes_of(blocks, [name for name, _ in steps], displays)
    saga = definition_text.name_of(definition)
    return picture.drawn(steps, boxes, f"{saga}: {title}", style)


def _of_case(definition: str, case: FailureCase) -> Iterator[StepDisplay]:
    """Yield how each step is shown after a failure."""
    shown = {name: UNDONE for name in case.undone} | {name: KEPT for name in case.kept}
    shown |= {name: RUN for name in case.run} | {name: SKIPPED for name in case.skipped}
    shown |= {name: FAILS for name in case.steps}
    costs = {} if definition_text.pivot_of(definition) else _costs(case)
    blocking = {*case.blocking_steps}
    for step in definition_text.listed_steps(definition):
        display = shown.get(step.name, NO_PLAN if case.is_stuck else UNCHANGED)
        if step.name in blocking:
            display = display._replace(why="why it is stuck", tone="failed")
        elif cost := costs.get(step.name):
            display = display._replace(why=f"costs {cost:,}")
        yield display


def _costs(case: FailureCase) -> dict[str, int]:
    """Return what the decision about each step costs."""
    plan = None if case.is_stuck else case.plan
    costs = {
        choice.step: choice.cost_to_keep if choice.kept else choice.cost_to_drop
        for choice in (plan.choices if plan else ())
    }
    return {name: cost for name, cost in costs.items() if cost}


def _overview(explanation: Explanation) -> Iterator[StepDisplay]:
    """Yield how each step is shown without a failure."""
    stuck = {case.steps[0] for case in explanation.failures if case.is_stuck}
    for step in definition_text.listed_steps(explanation.definition):
        if step.name not in explanation.steps:
            yield JOINS
        elif step.name in stuck:
            yield ENDS_STUCK
        elif step.name in explanation.point_of_no_return:
            yield NO_RETURN
        elif step.name in explanation.never_undone:
            yield NEVER_UNDONE
        else:
            yield OPTIONAL if step.is_optional else MAY_BE_UNDONE
