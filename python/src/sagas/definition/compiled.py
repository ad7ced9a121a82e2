"""`CompiledDefinition`: a stored definition with the functions of this program."""

from __future__ import annotations

import copy
import functools
import json
from collections.abc import Callable, Iterator, Mapping
from typing import Any, NamedTuple

import tomllib

from sagas.base.errors import CannotDecode
from sagas.definition import definition_text, input_types, serialization, type_checks
from sagas.definition.call_options import Function, Manner, nothing
from sagas.definition.definition_text import name_of, version_of
from sagas.definition.input_types import InputTypes
from sagas.definition.layout import Layout, ShapeValues, layout_of
from sagas.definition.payloads import PLAIN as PLAIN_PAYLOADS, Payloads
from sagas.definition.serialization import Decoder
from sagas.definition.declaration import Declaration
from sagas.definition.parts import SagaParts, plain_steps
from sagas.definition.step import Step
from sagas.definition.step_location import StepLocation
from sagas.definition.task_data import Context

ActionKey = tuple[int, str]
"""A step's number, and `run` or `undo`."""


def _simple(
    step: Step[Any] | None, kind: str, is_fair: bool, may_be_failed: bool
) -> Function | None:
    """Return the async function of a step that can start at once, or None.

    Args:
        step: The step, or None if the program does not have it.
        kind: `run`, or `undo` for its compensation.
        is_fair: Whether the root saga shares its slots among tenants.
        may_be_failed: Whether the step may have an optional failure as its result.

    Returns:
        None if the step has a limit, waits, or is done elsewhere.
    """
    if step is None or is_fair or may_be_failed:
        return None
    if step.saga.undoes is not None or step.child is not None:
        return None
    if kind == "run" and (step.kind != "step" or step.concurrency is not None or step.bounds):
        return None
    return step.manner(kind).function if step.manner(kind).is_simple else None


def _fault(text: str, decoder: Decoder) -> type_checks.Mismatch | None:
    """Return why a decoder cannot read a stored value, or None if it can."""
    try:
        return input_types.fault_of(text, decoder)
    except NameError as error:
        return type_checks.Mismatch(f": {error}")


def _undoing_nothing(step: Step[Any]) -> Step[Any]:
    """Return a step that has nothing to undo, unless it has a compensation by now."""
    if step.has_compensation:
        return step
    step = copy.copy(step)
    step.undo = Manner(nothing, implied=True)
    return step


class MissingPart(NamedTuple):
    """A part of a stored definition that this program does not have.

    Attributes:
        step: The declared name of the step; None for the whole saga.
        is_compensation: Whether it is the compensation, and not the function.
        reason: What is missing, for people.
    """

    step: str | None
    is_compensation: bool
    reason: str


class CompiledAction:
    """A step's action or its compensation, the same for all sagas of a definition.

    Attributes:
        name: The step's name.
        word: The step's number, and `run` or `undo`.
        kind: `run` or `undo`.
        undo: Whether it is a compensation.
        simple: The function if it can start at once and is awaited in the event loop, else None.
        inside: Whether the function runs in a transaction of the store's database.
        needed_results: The steps whose results the function may read, by number and name.
        hint: The decoder of the input, or None.
        is_remote: Whether workers of a queue call the function.
        is_external: Whether workers, a person or another program report the outcome.
        context: The context that the functions of the store share.
    """

    __slots__ = (
        "name",
        "word",
        "kind",
        "undo",
        "simple",
        "inside",
        "needed_results",
        "hint",
        "is_remote",
        "is_external",
        "context",
    )

    def __init__(
        self,
        name: str,
        word: ActionKey,
        step: Step[Any] | None,
        needed_results: list[tuple[int, str]],
        hint: Decoder | None,
        context: Context,
        is_fair: bool,
        may_be_failed: bool,
    ) -> None:
        self.name, self.word, self.hint, self.context = name, word, hint, context
        self.needed_results = needed_results
        self.kind = word[1]
        self.undo = self.kind == "undo"
        self.simple = _simple(step, self.kind, is_fair, may_be_failed)
        self.inside = bool(step and step.manner(self.kind).transaction)
        self.is_remote = bool(step and step.manner(self.kind).queue)
        self.is_external = self.is_remote or bool(step and step.manner(self.kind).external)


Hooks = Mapping[str, tuple[str, ...]]
"""The names of the webhooks that receive events, by the type of event."""


class CompiledDefinition:
    """A stored definition with the steps and functions that this program has for it.

    Attributes:
        text: The definition as it is stored.
        name: The saga's name.
        names: The names of the steps.
        steps: The declared steps, with None for a step that the program does not have.
        layout: The origins of the steps if they come from the input, else None.
        payloads: How inputs and results are stored.
        hooks: The webhooks that receive events of its sagas.
        declared: The declaration of the saga in this program.
        calls_end: Whether the program has an `on_end` function for the ends of its sagas.
        undoes: The name of the child that its sagas undo, or None.
        starts_each: Whether its sagas start the children of one step, one for each item.
        below: The numbers of the steps that each step needs, directly or not.
        optional: The numbers of the optional steps, as of the definition with which a saga started.
        collected: The numbers of the steps that the program collects.
        pivot: The name of its pivot, or None.
        input_types: The types of the input of its sagas, as this program declares them.
        reads: Whether stored values are decoded before a function gets them.
    """

    def __init__(
        self,
        text: str,
        saga: SagaParts | None,
        context: Context | None = None,
        payloads: Payloads = PLAIN_PAYLOADS,
        declared: Declaration | None = None,
    ) -> None:
        self.payloads = payloads
        self.hooks: Hooks = {}
        self.declared = declared or Declaration(saga)
        root = self.declared.root
        self.calls_end = root is not None and root.end_saga is not None
        is_shaped = definition_text.is_shaped(text)
        listed = definition_text.shaped_steps(text) if is_shaped else tomllib.loads(text)["step"]
        self.layout: Layout | None = layout_of(text, listed) if is_shaped else None
        self.text, self.name = text, name_of(text)
        self.starts_each = definition_text.starts_each(text)
        self.undoes = definition_text.child_of(text)
        if self.undoes is None and saga is not None and saga.undoes is not None:
            self.undoes = saga.undoes.name  # a text of an older release
        self.names: list[str] = [step["name"] for step in listed]
        self.steps: list[Step[Any] | None] = self._declared_steps(saga)
        self.tries = {
            kind: [int(step.get(word, 1)) for step in listed]
            for kind, word in (("run", "tries"), ("undo", "undo_tries"))
        }
        number_of = {name: number for number, name in enumerate(self.names)}
        self.below = self._below(
            [[number_of[need] for need in step.get("needs", ())] for step in listed]
        )
        self.pivot = definition_text.pivot_of(text)
        optional = definition_text.optional_steps(text)
        self.optional = frozenset(number_of[name] for name in optional)
        self.collected = frozenset(
            number
            for number, step in enumerate(self.steps)
            if step is not None and step.is_collected
        )
        step_decoders = [self.declared.hints(step) for step in self.steps]
        self.inputs = [decoder for decoder, _, _ in step_decoders]
        undo_inputs = [decoder for _, _, decoder in step_decoders]
        self.all_done = json.dumps(
            {
                "aborted": False,
                "answer": None,
                "kept": list(range(self.count)),
                "states": ["committed"] * self.count,
            },
            separators=(",", ":"),
        )
        self.actions = {
            "run": self._actions("run", self.inputs, context or Context()),
            "undo": self._actions("undo", undo_inputs, context or Context()),
        }
        self.has_bounds = any(step and step.bounds for step in self.steps)
        self.has_external = any(
            action.is_external for actions in self.actions.values() for action in actions
        )
        self.decoders = {
            name: decoder for name, (_, decoder, _) in zip(self.names, step_decoders) if decoder
        }
        self.input_types: InputTypes = self.declared.input_types
        is_typed = any((*self.inputs, *undo_inputs, *self.input_types.readers))
        self.reads = bool(payloads.reads or self.decoders or is_typed)

    def with_costs(self, text: str) -> CompiledDefinition:
        """Return the definition of a text that differs from this one's only in its costs."""
        copy = CompiledDefinition.__new__(CompiledDefinition)
        copy.__dict__ |= self.__dict__  # only the text depends on costs
        copy.text = text
        return copy

    def _declared_steps(self, saga: SagaParts | None) -> list[Step[Any] | None]:
        """Return the steps as this program declares them."""
        if self.layout is not None:
            steps = [self.declared.step(origin) for origin in self.layout.origins.values()]
        else:
            plain = plain_steps(saga) if saga else {}
            steps = [plain.get(name) for name in self.names]
        free = definition_text.steps_with_nothing(self.text)
        return [
            _undoing_nothing(step) if step is not None and name in free else step
            for name, step in zip(self.names, steps)
        ]

    def location(self, step: str, values: ShapeValues, input: str) -> StepLocation | None:
        """Return the location of a step; None if the steps do not come from the input.

        Args:
            step: The step's name.
            values: The stored values of the saga's shape.
            input: The saga's input as JSON.
        """
        if self.layout is None:
            return None
        return StepLocation(self.layout.origins[step], self.layout, values, self.declared, input)

    def declared_name(self, step: int) -> str:
        """Return the declared name of the step with this number, for example `hotel/room`."""
        name = self.names[step]
        return name if self.layout is None else self.layout.origins[name].declared

    @property
    def saga(self) -> SagaParts | None:
        """The saga with this name and version that this program declares, or None."""
        return self.declared.root

    @property
    def version(self) -> int:
        """The saga's version."""
        return version_of(self.text)

    @property
    def count(self) -> int:
        """The number of steps."""
        return len(self.names)

    @property
    def fair_by(self) -> Callable[[Any], Any] | None:
        """The function that names the tenant of a saga, or None."""
        return self.saga.fair_by if self.saga else None

    def _actions(
        self, kind: str, hints: list[Decoder | None], context: Context
    ) -> list[CompiledAction]:
        """Return the actions of all steps, or their compensations."""
        needed = [[(number, self.names[number]) for number in below] for below in self.below]
        is_fair = self.fair_by is not None
        return [
            CompiledAction(
                name,
                (number, kind),
                self.steps[number],
                needed[number],
                hints[number],
                context,
                is_fair,
                number in self.optional or number in self.collected,
            )
            for number, name in enumerate(self.names)
        ]

    def _below(self, needs: list[list[int]]) -> list[list[int]]:
        """Return the steps that each step needs, directly or not."""
        below: dict[int, set[int]] = {}
        left = list(range(len(needs)))
        while left:
            for step in [step for step in left if all(need in below for need in needs[step])]:
                left.remove(step)
                below[step] = set(needs[step]).union(*(below[need] for need in needs[step]))
        return [sorted(below[step]) for step in range(len(needs))]

    def own_input(self, number: int, text: str | None, values: ShapeValues | None) -> str | None:
        """Return the input that the functions of a step read, as JSON.

        Args:
            number: The step's number.
            text: The input of the saga.
            values: The values of its shape; None if they are not known.

        Returns:
            The input of the included saga if one declares the step. None if it is not known.
        """
        scope = self.layout.origins[self.names[number]].scope if self.layout is not None else ()
        if not scope:
            return text
        return None if values is None else values.input(scope)

    def unread(
        self, text: str | None, results: dict[int, str], shape: str | None = None
    ) -> str | None:
        """Return the first value of an open saga that this program cannot read.

        Args:
            text: The stored input, or None if it is not to be checked.
            results: The stored results of committed steps, by number.
            shape: The stored values of its shape, or None if they are not to be checked.

        Returns:
            The step and the error, or None if the program can read all values.
        """
        decode = self.payloads.decode
        try:
            inputs = [] if text is None else [(self.input_types, decode(text))]
            values = None if shape is None else ShapeValues.read(decode(shape))
            results = {step: decode(stored) for step, stored in results.items()}
        except CannotDecode as error:
            return str(error)
        if values is not None:
            inputs += [
                (self.declared.types_within(path), serialization.write(value))
                for path, value in values.inputs.items()
            ]
        for types, input in inputs:
            for name, reader in types.readers:
                if fault := _fault(input, reader):
                    return f"{types.saga if name is None else f'step {name!r}'}: input{fault}"
        for number, text in results.items():
            decoder = self.decoders.get(self.names[number])
            if (
                decoder
                and not serialization.is_plain(serialization.read(text))
                and (fault := _fault(text, decoder))
            ):
                return f"step {self.names[number]!r}: result{fault}"
        return None

    @functools.cached_property
    def missing_function(self) -> str | None:
        """See `lacks`."""
        return self.lacks()

    def lacks(self) -> str | None:
        """Return which function of the definition this program does not have.

        Returns:
            The first step without a function, or without a compensation that may be called; or
            None.
        """
        return next((missing.reason for missing in self.missing()), None)

    def missing(self) -> Iterator[MissingPart]:
        """Yield the functions of the definition that this program does not have."""
        if self.saga is None:
            reason = "this program did not open the store with that saga"
            if (ended := definition_text.ended_of(self.text)) is not None:
                reason = f"this program has no on_end function of saga {ended!r}"
            yield MissingPart(None, False, reason)
            return
        for path, (name, version) in definition_text.included(self.text).items():
            inner = self.declared.included(path)
            if inner is None or (inner.name, inner.version) != (name, version):
                has = f"version {inner.version} of {inner.name!r}" if inner else "no saga"
                reason = (
                    f"it includes saga {name!r} (version {version}) as {path!r}, and this program "
                    f"includes {has} there"
                )
                yield MissingPart(path, False, reason)
                return
        function = "function" if self.undoes is None else "compensation"
        for number, listed in enumerate(definition_text.listed_steps(self.text)):
            step = self.steps[number]
            if step is None:
                reason = f"step {listed.name!r} has no {function} in this program"
                yield MissingPart(self.declared_name(number), self.undoes is not None, reason)
                continue
            has_compensation = step.has_compensation and not (
                step.undo.implied and listed.is_compensated
            )
            if listed.undo != "never" and not has_compensation:
                reason = f"step {listed.name!r} has no compensation in this program"
                yield MissingPart(self.declared_name(number), True, reason)
