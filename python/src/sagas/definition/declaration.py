"""`Declaration`: a saga as this program declares it, and the types that it names."""

from __future__ import annotations

from collections.abc import Callable, Iterator, Sequence
from typing import Any

from sagas.definition import child_sagas, decoders, layout, type_hints
from sagas.definition.call_options import COST_NAMES, Manner, nothing
from sagas.definition.input_types import InputReader, InputTypes, UNTYPED
from sagas.definition.layout import JOIN_ENDING, Scope, StepOrigin
from sagas.definition.parts import SagaParts
from sagas.definition.serialization import Decoder
from sagas.definition.step import FanOut, Inclusion, Part, Step

ComputedCosts = Sequence[tuple[str, Callable[[Any], Any]]]
"""The costs of a step that are functions, in the order of `COST_NAMES`."""
Hints = tuple[Decoder | None, Decoder | None, Decoder | None]
"""The decoders of a step's input, of its result, and of the input of its compensation."""


class Declaration:
    """A saga as this program declares it. Look up its steps by their origins.

    It caches what it looks up, since the definitions of all shapes of the saga look up the same.
    """

    def __init__(self, saga: SagaParts | None) -> None:
        self.root: SagaParts | None = saga
        self._sagas: dict[tuple[str, ...], SagaParts | None] = {(): saga}
        self._hints: dict[Step[Any], Hints] = {}
        self._inputs: dict[SagaParts, Decoder | None] = {}
        self._items: dict[Any, Decoder | None] = {}
        self._types: dict[SagaParts, InputTypes] = {}
        self._unread_items: dict[Any, bool] = {}
        self._costs: dict[Step[Any], ComputedCosts] = {}

    def _within(self, names: tuple[str, ...]) -> SagaParts | None:
        if names not in self._sagas:
            part = self._part(names[:-1], names[-1])
            self._sagas[names] = part.inner if isinstance(part, Inclusion) else None
        return self._sagas[names]

    def _part(self, names: tuple[str, ...], name: str) -> Any:
        saga = self._within(names)
        return None if saga is None else saga.parts_by_name.get(name)

    def step(self, origin: StepOrigin) -> Step[Any] | None:
        """Return the step that is declared at an origin.

        Returns:
            None if the program does not declare the step, or if only one of the program and the
            definition has items for it.
        """
        names = tuple(name for name, _ in origin.scope)
        part = self._part(names, origin.name)
        if part is None and (saga := self._within(names)) is not None:
            part = joining_step(saga, origin.name)
        if part is None or isinstance(part, Inclusion):
            return None
        step: Step[Any] = part
        return step if (step.for_each is None) == (origin.number is None) else None

    def included(self, path: str) -> SagaParts | None:
        """Return the saga that is included at a path of names, for example `p/hotel`."""
        return self._within(tuple(path.split("/")))

    def hints(self, step: Step[Any] | None) -> Hints:
        """Return the decoders of a step's values."""
        if step is None:
            return None, None, None
        if step not in self._hints:
            undo = step.undo.function
            undo_input = decoders.input_decoder(undo) if undo else None
            self._hints[step] = (*child_sagas.hints(step), undo_input)
        return self._hints[step]

    def computed_costs(self, step: Step[Any]) -> ComputedCosts:
        """Return the costs of a step that are functions of the input."""
        if step not in self._costs:
            costs = ((name, step.declared_cost(name)) for name in COST_NAMES)
            self._costs[step] = [(name, cost) for name, cost in costs if callable(cost)]
        return self._costs[step]

    # -- of a scope

    def saga(self, scope: Scope) -> str:
        """Return the name of the saga in a scope."""
        saga = self._within(tuple(name for name, _ in scope))
        return saga.name if saga else ""

    def input(self, scope: Scope) -> Decoder | None:
        """Return the decoder of the input of the saga in a scope."""
        saga = self._within(tuple(name for name, _ in scope))
        if saga is None:
            return None
        if saga not in self._inputs:
            self._inputs[saga] = saga_input_decoder(saga)
        return self._inputs[saga]

    @property
    def input_types(self) -> InputTypes:
        """The types of the saga's input."""
        return UNTYPED if self.root is None else self.types_of(self.root)

    def types_within(self, path: str) -> InputTypes:
        """Return the types of the input of an included saga.

        Args:
            path: The path of the inclusion, with numbers of items: `car[1]/room`.
        """
        saga = self.included(layout.parse_origin(path).declared)
        return UNTYPED if saga is None else self.types_of(saga)

    def types_of(self, saga: SagaParts) -> InputTypes:
        """Return the types of the input of the saga, or of an included one."""
        if saga not in self._types:
            self._types[saga] = input_types(saga)
        return self._types[saga]

    def has_unread_items(self, part: Part) -> bool:
        """Return whether the items of a step have a type with which the input was not read."""
        if part not in self._unread_items:
            self._unread_items[part] = isinstance(part, Step) and _has_own_item_hint(part)
        return self._unread_items[part]

    def item(self, origin: StepOrigin) -> Decoder | None:
        """Return the decoder of the items of a step, or of an inclusion."""
        part = self._part(tuple(name for name, _ in origin.scope), origin.name)
        if part is None:
            return None
        if part not in self._items:
            self._items[part] = item_decoder(part)
        return self._items[part]

    def fan_outs(self, scope: Scope) -> Sequence[str]:
        """Return the names of the fan-outs of the saga in a scope."""
        saga = self._within(tuple(name for name, _ in scope))
        parts = saga.parts_by_name.values() if saga else ()
        return [part.name for part in parts if isinstance(part, FanOut)]

    def given_function(self, scope: Scope) -> Callable[[Any], Any] | None:
        """Return the function `given=` of the inclusion of a scope, or None."""
        names = tuple(name for name, _ in scope)
        part = self._part(names[:-1], names[-1])
        return part.given if isinstance(part, Inclusion) else None


async def _join(task: object) -> None:
    """Do nothing: the step exists for its needs."""


def joining_step(saga: SagaParts, name: str) -> Step[Any] | None:
    """Return the joining step with this name, or None if the saga has no such part."""
    part = saga.parts_by_name.get(name.removesuffix(JOIN_ENDING))
    if part is None or not name.endswith(JOIN_ENDING):
        return None
    costs: dict[str, Any] = dict.fromkeys(COST_NAMES, 0)
    step: Step[Any] = Step(saga, name, part.where, "step", (part,), costs, Manner(_join))
    step.undo = Manner(nothing, implied=True)
    return step


# -- types of inputs and items


def saga_hint(saga: SagaParts) -> Any:
    """Return the type of a saga's input: its own, or of the first function that names it."""
    return next((hint for _, hint in _hints(saga) if hint is not None), None)


def input_types(saga: SagaParts) -> InputTypes:
    """Return the types of a saga's input: its own, and those of its functions."""
    readers: list[InputReader] = []
    hints: list[Any] = []
    is_complete = len(saga.parts) == len(saga.steps)  # included sagas may read other fields
    for step, hint in _hints(saga):
        decode = decoders.hinted(hint)
        is_complete = is_complete and (step is None or decode is not None)
        if decode is not None and hint not in hints:
            hints.append(hint)
            readers.append(InputReader(step, decode))
    return InputTypes(saga.name, readers, is_complete)


def _hints(saga: SagaParts) -> Iterator[tuple[str | None, Any]]:
    """Yield the type of the saga, and that of each function with its step.

    The type is None if a function does not name it, or is in another program.
    """
    if saga.input_type is not None:
        yield None, saga.input_type
    for step in saga.steps:
        for manner in (step.run, step.undo):
            if manner.function is not None and not manner.implied:
                yield step.name, type_hints.input_hint(manner.function)
            elif manner.external:
                yield step.name, None


def saga_input_decoder(saga: SagaParts) -> Decoder | None:
    """Return the decoder of a saga's input for the functions that compute its shape."""
    return decoders.hinted(saga_hint(saga))


def item_decoder(part: Part) -> Decoder | None:
    """Return the decoder of the items of a fan-out."""
    hint = _named_item_hint(part)
    return decoders.hinted(_source_item_hint(part) if hint is None else hint)


def _has_own_item_hint(step: Step[Any]) -> bool:
    """Return whether the items have a type that is not that of the items in the input."""
    named, source = _named_item_hint(step), _source_item_hint(step)
    if callable(step.for_each):
        return named is not None or source is not None
    return named is not None and named != source


def _named_item_hint(part: Part) -> Any:
    """Return the item's type of the hint `ItemTask[..., T]`, or None."""
    if isinstance(part, Step) and part.run.function:
        return type_hints.second_hint(part.run.function, "ItemTask")
    return None


def _source_item_hint(part: Part) -> Any:
    """Return the item's type by the list or dict that `for_each` names or returns, or None."""
    items = part.for_each
    if isinstance(items, str):
        return type_hints.item_hint(type_hints.part_hint(saga_hint(part.saga), items))
    if items is None:
        return None
    hint = type_hints.result_hint(items)
    return type_hints.item_hint(hint)
