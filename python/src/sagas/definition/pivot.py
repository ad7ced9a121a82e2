"""The costs of a saga with a pivot: failures undo until it has committed, and not afterwards.

The package computes the costs with which the engine decides this. Users do not declare any.
"""

from __future__ import annotations

import enum
from collections.abc import Iterator, Mapping
from typing import Any

from sagas.definition import definition_text
from sagas.definition.call_options import COST_NAMES, Cost, NEVER
from sagas.definition.parts import SagaParts
from sagas.definition.step import Inclusion, Part, Step, need_name, saga_error, step_error


class Role(enum.Enum):
    """The position of a part of a saga with a pivot."""

    BEFORE = "before"
    """The pivot needs it, directly or not."""
    PIVOT = "pivot"
    AFTER = "after"
    """It needs the pivot, directly or not."""


COSTS: Mapping[Role, Mapping[str, Cost]] = {
    Role.BEFORE: {"run": NEVER, "undo": 0, "skip": 0, "keep": 1},
    Role.PIVOT: {"run": NEVER, "undo": NEVER, "skip": 0, "keep": 0},
    Role.AFTER: {"run": 0, "undo": 1, "skip": 1, "keep": 0},
}
"""The costs of the steps that can be undone.

A plan that finds the pivot not committed cannot run it, so it undoes what it can: keeping costs
more. A committed pivot cannot be undone, so what it needs stays. Each later step that can run is
run, because leaving it out costs more.
"""


def pivot_of(saga: SagaParts) -> Step[Any] | None:
    """Return the pivot of a saga, or None."""
    return next((step for step in saga.steps if step.is_pivot), None)


def pivot_lines(saga: SagaParts) -> list[str]:
    """Return what the text of a definition says of its pivot."""
    pivot = pivot_of(saga)
    return [f"{definition_text.PIVOT_HEAD}{pivot.name}"] if pivot else []


def roles_of(saga: SagaParts) -> Mapping[str, Role]:
    """Return the role of each part of a saga, by its name; an empty dict without a pivot.

    A part that neither needs the pivot nor is needed by it has no role.
    """
    if (pivot := pivot_of(saga)) is None:
        return {}
    parts = saga.parts_by_name
    needs = {name: {need_name(need) for need in part._needs} for name, part in parts.items()}
    needed_by: dict[str, set[str]] = {name: set() for name in parts}
    for name, needed in needs.items():
        for need in needed & needed_by.keys():
            needed_by[need].add(name)
    before, after = _reached(pivot.name, needs), _reached(pivot.name, needed_by)
    roles = dict.fromkeys(after, Role.AFTER) | dict.fromkeys(before, Role.BEFORE)
    return roles | {pivot.name: Role.PIVOT}


def _reached(name: str, edges: Mapping[str, set[str]]) -> set[str]:
    """Return the names that are reached from a name by one or more edges."""
    reached, left = set[str](), [name]
    while left:
        fresh = edges.get(left.pop(), set()) - reached
        reached |= fresh
        left += fresh
    return reached


def cost_of(step: Step[Any], word: str, role: Role) -> Cost:
    """Return a cost of a step of a saga with a pivot.

    Args:
        step: The step.
        word: `run`, `undo`, `skip` or `keep`.
        role: The role of the step, or of the included saga that it belongs to.
    """
    if word == "undo" and _cannot_be_undone(step):
        return NEVER
    return COSTS[role][word]


def _cannot_be_undone(step: Step[Any]) -> bool:
    if step.declared_cost("undo") is NEVER or not step.has_compensation:
        return True
    is_child = step.child is not None and step.undo.implied
    return is_child and step.own_cost("undo") is NEVER


# -- errors


def check_pivot(step: Step[Any]) -> None:
    """Raise `DefinitionError` if a step cannot be the pivot."""
    if not step.is_pivot:
        return
    given = [word for word in COST_NAMES if step.declared_cost(word) not in (None, 0)]
    if given or step.declared_cost("undo") is not None:
        options = " and ".join(f"{word}=" for word in given or ["undo"])
        raise step_error(
            step, f"a pivot has no costs, because the package computes them. Remove {options}"
        )
    if step.for_each is not None or step.when is not None:
        word = "for_each" if step.for_each is not None else "when"
        raise step_error(
            step,
            f"a pivot exists once in each saga. Remove {word}=, or make a step that needs this one "
            "the pivot",
        )
    if step.is_optional:
        raise step_error(
            step, "a pivot decides how the saga ends, so it cannot be optional. Remove one of them"
        )
    other = pivot_of(step.saga)
    if other is not None and other is not step:
        raise step_error(
            step,
            f"the saga has the pivot {other.name!r} already, and can have one. Remove pivot=True "
            "of one of them",
        )


def check_saga(saga: SagaParts, is_included: bool = False) -> None:
    """Raise `DefinitionError` if the parts of a saga contradict its pivot.

    Args:
        saga: The saga, with all of its parts declared.
        is_included: Whether another saga includes it.
    """
    if (pivot := pivot_of(saga)) is None:
        return
    if is_included:
        raise saga_error(
            saga,
            f"it has the pivot {pivot.name!r}, so it cannot be included in another saga. Start it "
            "as a child saga instead",
        )
    roles = roles_of(saga)
    for part in saga.parts:
        if part.name not in roles:
            raise step_error(
                part,
                f"it neither needs the pivot {pivot.name!r} nor is needed by it, so nothing says "
                f"what a failure does with it. Add one of them to needs= of the other, or set "
                f'order="declared" of the saga',
            )
        for step in _steps_within(part):
            _check_costs(step, pivot)


def _steps_within(part: Part) -> Iterator[Step[Any]]:
    """Yield a step, or the steps of an included saga."""
    if isinstance(part, Inclusion):
        yield from part.inner.all_steps
    else:
        yield part


def _check_costs(step: Step[Any], pivot: Step[Any]) -> None:
    """Raise `DefinitionError` if a step has costs that the pivot determines."""
    if step.declared_cost("skip") is NEVER:
        raise step_error(
            step,
            f"skip=sagas.NEVER, but a failure before the pivot {pivot.name!r} ends the saga "
            'without this step. Remove it, or set on_exhausted="ask" in its place: then a person '
            "decides after a failure",
        )
    for word in COST_NAMES:
        cost = step.declared_cost(word)
        allowed = (None, 0, NEVER) if word == "undo" else (None, 0)
        if cost not in allowed:
            text = "a function" if callable(cost) else repr(cost)
            raise step_error(
                step,
                f"{word}={text}: the package computes the costs of a saga with the pivot "
                f"{pivot.name!r}. Remove it",
            )
