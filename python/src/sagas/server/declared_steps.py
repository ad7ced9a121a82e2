"""The steps of a definition as declared, including steps that depend on the input."""

from __future__ import annotations

import dataclasses
from collections.abc import Iterator
from typing import Any, Union

from sagas.definition.call_options import COST_NAMES, NEVER
from sagas.definition.compiled import CompiledDefinition
from sagas.definition.layout import Scope, StepOrigin
from sagas.definition.parts import SagaParts
from sagas.definition.saga import Saga
from sagas.definition.step import Inclusion, Step, need_name

COMPUTED = "input"
"""Replaces a cost that depends on the input."""
DeclaredCost = Union[int, str, None]


@dataclasses.dataclass(frozen=True, slots=True)
class DeclaredStep:
    """A step, or one of an included saga.

    Attributes:
        spot: Where it is declared.
        step: The step.
        needs: The declared names of the steps that it needs, also outside of its own saga.
        for_each: Whether it exists once for each item, by itself or in an included saga.
        conditional: Whether it, or the saga that includes it, exists only for some inputs.
    """

    origin: StepOrigin
    step: Step[Any]
    needs: list[str]
    for_each: bool
    conditional: bool

    @property
    def name(self) -> str:
        """Return the declared name, such as `hotel/room`."""
        return self.origin.declared

    @property
    def costs(self) -> dict[str, DeclaredCost]:
        """Return its costs: a number, None (never), or `COMPUTED`."""
        return {name: _cost(self.step, name) for name in COST_NAMES}

    @property
    def note(self) -> str:
        """Describe when the step exists, and whether its failure ends the saga."""
        notes = ["for each item"] * self.for_each + ["for some inputs"] * self.conditional
        notes += ["optional"] * self.step.is_optional + ["pivot"] * self.step.is_pivot
        return ", ".join(notes)


def _cost(step: Step[Any], name: str) -> DeclaredCost:
    if callable(step.declared_cost(name)):
        return COMPUTED
    cost = step.cost(name)
    return None if cost is NEVER else cost


def approvals(saga: Saga[Any], definition: str) -> set[str]:
    """Return the names of a definition's approval steps, including items and included sagas.

    `saga` is the saga that the definition belongs to.
    """
    kind = CompiledDefinition(definition, saga)
    steps = zip(kind.names, kind.steps)
    return {name for name, step in steps if step is not None and step.kind == "approval"}


def of(saga: Saga[Any]) -> list[DeclaredStep]:
    """Return the steps of a saga and of the sagas that it includes, in their order."""
    return [*_within(saga, (), [], False, False)]


def _within(
    saga: SagaParts, scope: Scope, outer: list[str], for_each: bool, conditional: bool
) -> Iterator[DeclaredStep]:
    """Yield the steps of a scope. `outer`: what its first steps need outside of it."""
    ends: dict[str, list[str]] = {}
    for part in saga.parts:
        needs = [end for need in part._needs for end in ends[need_name(need)]] or outer
        is_each = for_each or part.for_each is not None
        is_some = conditional or part.when is not None
        if isinstance(part, Inclusion):
            below = (*scope, (part.name, None))
            inner = [*_within(part.inner, below, needs, is_each, is_some)]
            needed = {need for step in inner for need in step.needs}
            ends[part.name] = [step.name for step in inner if step.name not in needed]
            yield from inner
        else:
            step = DeclaredStep(StepOrigin(scope, part.name), part, needs, is_each, is_some)
            ends[part.name] = [step.name]
            yield step
