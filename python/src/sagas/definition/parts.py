"""`SagaParts`: the declared steps and inclusions of a saga, and what they say together."""

from __future__ import annotations

import re
from collections.abc import Callable, Iterator
from typing import Any, Literal, NamedTuple

from sagas.definition.call_options import Cost, MAX_COST, NEVER, SagaOptions, Seconds
from sagas.definition.step import (
    Decorator,
    Inclusion,
    Part,
    Step,
    has_computed_costs,
    is_shaped_step,
    saga_error,
)

Order = Literal["needs", "declared"]
"""Which steps a step needs: those that it names, or also the step that is declared before it."""


class SagaParts:
    """The part of `Saga` that others read: its options, its steps and its inclusions.

    Steps refer to their saga by it. `Saga` has the methods that declare them.

    Attributes:
        name: The name.
        version: The version.
        deadline: The deadline.
        where: File and line of the declaration.
        fair_by: The function that names the tenant, or None.
        input_type: As given to `Saga`.
        order: As given to `Saga`.
        defaults: The options of its steps that do not have their own, by name.
        parts: The steps and the inclusions, in the order of their declaration.
        steps: The steps.
        outers: The sagas that include it.
        decorators: Decorators that no function has yet.
        has_children: Whether a step of it, or of a saga that it includes, starts another saga.
        undoes: The saga whose completed runs it undoes, or None.
        undoes_step: The step whose unused report it undoes, or None.
        undo_text: Its definition as a text if it undoes another saga.
        end_saga: The saga that calls its `on_end` function, or None.
        ends: The saga after whose end it calls, or None.
        starts_for: The step whose children it starts, one for each item, or None.
    """

    name: str
    version: int
    where: str
    deadline: Seconds | None
    fair_by: Callable[[Any], Any] | None
    input_type: Any
    order: Order
    defaults: SagaOptions
    parts: list[Part]
    steps: list[Step[Any]]
    outers: list[SagaParts]
    decorators: list[Decorator]
    has_children: bool = False
    undoes: SagaParts | None = None
    undoes_step: Step[Any] | None = None
    undo_text: str = ""
    end_saga: SagaParts | None = None
    ends: SagaParts | None = None
    starts_for: Step[Any] | None = None

    def cost_of(self, step: Step[Any], word: str) -> Cost:
        """Return one of the costs of a step, as `Step.cost` does.

        Args:
            step: A step of this saga.
            word: `run`, `undo`, `skip` or `keep`.
        """
        raise NotImplementedError

    def total_cost(self, word: str) -> Cost:
        """Return the cost of undoing all steps of a completed saga, or of keeping them.

        A saga with a pivot costs nothing to keep, and cannot be undone as a whole. For a saga that
        starts children for items it is the cost of one of them.

        Args:
            word: `undo` or `keep`.
        """
        if self.starts_for is not None:
            return self.steps[0].own_cost(word)
        if self.is_shaped:
            raise saga_error(
                self,
                "its steps come from its input, so its costs as a child are not known. Set keep=, "
                "and undo= with a compensation or undo=sagas.NEVER, for the step that starts it",
            )
        if word == "keep" and any(step.is_pivot for step in self.steps):
            return 0
        total = 0
        for step in self.steps:
            cost = step.cost(word)
            if cost is NEVER:
                return NEVER
            total += cost
        return min(total, MAX_COST)

    @property
    def is_shaped(self) -> bool:
        """Whether its steps, or their costs, come from its input."""
        return any(isinstance(part, Inclusion) or is_shaped_step(part) for part in self.parts)

    @property
    def calls_functions(self) -> bool:
        """Whether functions of the input determine its steps or their costs."""
        return any(
            callable(part.for_each)
            or part.when is not None
            or (
                callable(part.input) or part.inner.calls_functions
                if isinstance(part, Inclusion)
                else has_computed_costs(part)
            )
            for part in self.parts
        )

    @property
    def parts_by_name(self) -> dict[str, Part]:
        """Its steps and inclusions, by name."""
        return {part.name: part for part in self.parts}

    def outer(self, name: str, version: int) -> SagaParts | None:
        """Return this saga, or one that includes it, directly or not.

        Args:
            name: The name of the saga to return.
            version: Its version.

        Returns:
            The saga, or None.
        """
        if (self.name, self.version) == (name, version):
            return self
        candidates = (outer.outer(name, version) for outer in self.outers)
        return next((candidate for candidate in candidates if candidate is not None), None)

    @property
    def declared_steps(self) -> Iterator[tuple[str, Step[Any]]]:
        """Its steps and those of included sagas, with their declared names: `hotel/room`."""
        for part in self.parts:
            if isinstance(part, Inclusion):
                for name, step in part.inner.declared_steps:
                    yield f"{part.name}/{name}", step
            else:
                yield part.name, part

    @property
    def all_steps(self) -> Iterator[Step[Any]]:
        """Its steps, and those of the sagas that it includes."""
        for part in self.parts:
            if isinstance(part, Inclusion):
                yield from part.inner.all_steps
            else:
                yield part


# -- what the parts say


def needed_parts(saga: SagaParts, name: str) -> set[str]:
    """Return the names of the parts that a part needs, directly or not, by its declaration.

    Args:
        saga: The saga that declares the part.
        name: The name of the step or of the inclusion. The result is empty if it does not exist.
    """
    parts, needed = saga.parts_by_name, set[str]()
    left = [name]
    while left:
        part = parts.get(left.pop())
        for need in part.needs if part is not None else ():
            if need not in needed:
                needed.add(need)
                left.append(need)
    return needed


def plain_steps(saga: SagaParts) -> dict[str, Step[Any]]:
    """Return the steps without `for_each`, by name."""
    return {step.name: step for step in saga.steps if step.for_each is None}


class Pattern(NamedTuple):
    """The possible names of a declared step.

    Attributes:
        name: The name, with `#` for the number of an item.
        path: The declared name: `hotel/room`.
        step: The step.
        location: File and line of the step, or of the inclusion in the outermost saga.
    """

    name: str
    path: str
    step: Step[Any]
    location: str

    def is_of(self, name: str) -> bool:
        """Return whether a name, or a path, is one of the step."""
        return name == self.path or bool(self.names.match(name))

    @property
    def names(self) -> re.Pattern[str]:
        """The regular expression that matches the names."""
        return re.compile(self.name.replace("#", r"\d+") + r"\Z")


def patterns(
    saga: SagaParts, prefix: str = "", path: str = "", location: str = ""
) -> Iterator[Pattern]:
    """Yield the patterns of a saga's steps and of those of included sagas."""
    for part in saga.parts:
        name = prefix + part.name + ("" if part.for_each is None else "-#")
        if isinstance(part, Inclusion):
            inner = f"{path}{part.name}/"
            yield from patterns(part.inner, f"{name}-", inner, location or part.where)
        else:
            yield Pattern(name, f"{path}{part.name}", part, location or part.where)


def step_named(saga: SagaParts, name: str) -> Step[Any] | None:
    """Return the declared step of a name: `ship`, `ship-2` or `hotel/room`."""
    return next((pattern.step for pattern in patterns(saga) if pattern.is_of(name)), None)
