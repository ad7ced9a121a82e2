"""`Shape`: the steps of a saga for an input, with their needs and costs, and its definition.

A shape is computed once, when a saga starts. The store keeps the definition that it makes, and the
values of the shape.
"""

from __future__ import annotations

import dataclasses
import traceback
from collections.abc import Callable, Iterator, Mapping, Sequence
from typing import Any

from sagas.base.errors import InvalidInput, SagasError, TooLarge
from sagas.definition import serialization, type_checks
from sagas.definition.call_options import COST_NAMES, Cost, MAX_COST, NEVER, is_cost
from sagas.definition.declaration import Declaration, joining_step
from sagas.definition.definition_text import OF, each_line
from sagas.definition.layout import JOIN_ENDING, Scope, ShapeValues, StepOrigin
from sagas.definition.parts import SagaParts
from sagas.definition.pivot import cost_of, pivot_lines, roles_of
from sagas.definition.step import (
    ForEach,
    Inclusion,
    MAX_NEEDS,
    MAX_STEPS,
    Part,
    Step,
    is_each,
    mark_lines,
    need_name,
)

NO_INDEX = (None,)
"""The numbers of items of a part without `for_each`."""
MAX_PAIRS = 256
"""Maximum number of needs between two fan-outs. With more needs a joining step connects them."""
PLAIN = frozenset({dict, list, str, int, float, bool, type(None)})


@dataclasses.dataclass(slots=True)
class Entry:
    """One step of a part, or one inclusion of a part with the level inside it."""

    index: int | None
    name: str
    inside: Level | None = None


class Level:
    """The parts of the saga, or of an included one.

    Attributes:
        outer: The level of the inclusion, the inclusion and its number; None for the root.
        indices: The numbers of each part's items; `NO_INDEX` without `for_each`, ()
            if it is left out.
        inner: The levels of included sagas, by the part and the number.
    """

    __slots__ = ("saga", "scope", "prefix", "outer", "indices", "inner", "_entries")

    def __init__(
        self,
        saga: SagaParts,
        scope: Scope,
        prefix: str,
        outer: tuple[Level, Inclusion, int | None] | None = None,
    ) -> None:
        self.saga, self.scope, self.prefix, self.outer = saga, scope, prefix, outer
        self.indices: dict[str, Sequence[int | None]] = {}
        self.inner: dict[tuple[str, int | None], Level] = {}
        self._entries: dict[str, dict[int | None, Entry]] | None = None

    def name(self, part: str, index: int | None) -> str:
        """Return the full name of a step or an inclusion."""
        return self.prefix + part + ("" if index is None else f"-{index}")

    @property
    def entries(self) -> dict[str, dict[int | None, Entry]]:
        """The entries of each part, by their numbers.

        They are computed at the first use, because most shapes reuse a cached definition.
        """
        if self._entries is None:
            self._entries = {
                part: {
                    index: Entry(index, self.name(part, index), self.inner.get((part, index)))
                    for index in indices
                }
                for part, indices in self.indices.items()
            }
        return self._entries


@dataclasses.dataclass(frozen=True, slots=True)
class ShapedStep:
    """A step of a shape, with the declared step and the origin."""

    name: str
    step: Step[Any]
    origin: StepOrigin
    needs: list[str]


class Shape:
    """A saga's steps for one input.

    Attributes:
        saga: The saga.
        values: The values to store with the saga.
        structure: The numbers that determine steps and needs. Two shapes of a saga with the same
            structure differ only in costs.
        costs: The computed costs, in the order of `steps` and `COST_NAMES`.
        count: The number of steps, without joining steps.
    """

    def __init__(self, saga: SagaParts, text: str, declared: Declaration | None = None) -> None:
        """Compute the shape.

        Args:
            saga: The saga, with all of its parts declared.
            text: Its input, as JSON.
            declared: The saga's declaration with cached decoders (default: a new one).

        Raises:
            InvalidInput: A function raised, or did not return items or a cost.
            TooLarge: The saga has too many steps for this input.
        """
        self.saga, self.values = saga, ShapeValues()
        self._declared = declared or Declaration(saga)
        self.structure: list[int] = []
        self.costs: list[Cost] = []
        self.count = 0
        self._needs: dict[tuple[int, str, int | None], list[str]] = {}
        self._ends: dict[int, list[str]] = {}
        self._joins: dict[str, tuple[Level, ShapedStep]] = {}
        try:
            value = serialization.read(text, self._declared.input(()))
        except Exception as error:  # of the type's own code
            raise InvalidInput(
                f"saga {saga.name!r}: input{type_checks.mismatch_of(error)}"
            ) from None
        self.root = self._fill(Level(saga, (), ""), value)
        if not self.count:
            raise InvalidInput(
                f"saga {saga.name!r} has no steps for this input. Declare one without when= and "
                "for_each="
            )

    # -- items and costs

    def _fill(self, level: Level, value: Any) -> Level:
        kept: dict[Any, tuple[str, int, set[str]]] = {}
        for part in level.saga.parts:
            level.indices[part.name] = indices = self._indices(level, part, value, kept)
            if isinstance(part, Inclusion):
                for index in indices:
                    inside = self._inside(level, part, index, value)
                    level.inner[part.name, index] = inside
                continue
            self.count += len(indices)
            if self.count > MAX_STEPS:
                raise self._too_many()
            if costs := self._declared.computed_costs(part):
                for index in indices:
                    origin = StepOrigin(level.scope, part.name, index)
                    self.costs += [
                        self._cost(part, word, cost, origin, value) for word, cost in costs
                    ]
        return level

    def _indices(
        self, level: Level, part: Part, value: Any, kept: dict[Any, tuple[str, int, set[str]]]
    ) -> Sequence[int | None]:
        """Keep a part's items and return their numbers; `NO_INDEX` if it has no `for_each`."""
        if part.when is not None:
            is_included = _called(part, "when", _truth(part.when), value)
            self.structure.append(is_included)
            if not is_included:
                return ()
        if part.for_each is None:
            return NO_INDEX
        group = StepOrigin(level.scope, part.name).path if level.scope else part.name
        if part.for_each in kept:
            self.values.items[group], count, types = kept[part.for_each]
        else:
            types = self._keep(part, group, value)
            count = len(self.values.items[group])
            kept[part.for_each] = group, count, types
        if types:
            self._check_types(level, part, types)
        if self._declared.has_unread_items(part):
            for index in range(count):
                self._item(part, StepOrigin(level.scope, part.name, index))
        self.structure.append(count)
        return range(count)

    def _keep(self, part: Part, group: str, value: Any) -> set[str]:
        """Keep the items of a fan-out, and return their types that are not JSON."""
        assert part.for_each is not None
        reader = _reader(part.for_each)
        items, keys = _called(part, "for_each", lambda input: _listed(part, reader(input)), value)
        if keys is not None:
            self.values.keys[group] = keys
        self.values.items[group] = [_plain(part, "an item", item) for item in items]
        return {type(item).__name__ for item in items if type(item) not in PLAIN}

    def _check_types(self, level: Level, part: Part, types: set[str]) -> None:
        """Raise `InvalidInput` if items are not JSON values and no type hint decodes them."""
        if types and self._declared.item(StepOrigin(level.scope, part.name)) is None:
            name = min(types)
            raise _invalid(
                part,
                f"the items are of type {name}, which no type hint names. Write "
                f"task: sagas.ItemTask[..., {name}], or annotate the result of the function "
                "for_each",
            )

    def _cost(
        self,
        step: Step[Any],
        word: str,
        function: Callable[[Any], Any],
        origin: StepOrigin,
        value: Any,
    ) -> Cost:
        argument = value if origin.number is None else self._item(step, origin)
        cost: Cost = _called(step, word, function, argument)
        if not is_cost(cost):
            rule = f"an integer from 0 to {MAX_COST:,}, or sagas.NEVER"
            raise _invalid(step, f"{word}= returned a {type(cost).__name__} that is not {rule}")
        if step.is_optional and word in ("undo", "skip") and cost is NEVER:
            raise _invalid(step, f"{word}= returned sagas.NEVER, but the step is optional")
        return cost

    def _item(self, part: Part, origin: StepOrigin) -> Any:
        try:
            return self.values.item(origin, self._declared.item(origin))
        except Exception as error:  # of the type's own code
            raise _invalid(part, f"item {origin.number}{type_checks.mismatch_of(error)}") from None

    def _inside(self, level: Level, part: Inclusion, index: int | None, value: Any) -> Level:
        origin = StepOrigin(level.scope, part.name, index)
        inner = value if index is None else self._item(part, origin)
        if part.input is not None:
            inner = _called(part, "input", _reader(part.input), inner)
        plain = self.values.inputs[origin.path] = _plain(part, "its input", inner)
        scope, prefix = (*level.scope, (part.name, index)), f"{level.name(part.name, index)}-"
        try:
            text = serialization.write_value(plain)
            value = serialization.read(text, self._declared.input(scope))
        except Exception as error:  # of the type's own code
            raise _invalid(part, f"input{type_checks.mismatch_of(error)}") from None
        if invalid := self._declared.types_of(part.inner).error(text):
            raise invalid
        return self._fill(Level(part.inner, scope, prefix, (level, part, index)), value)

    # -- needs

    def steps(self) -> list[ShapedStep]:
        """Return the steps in the order of their parts, then the joining steps.

        Raises:
            TooLarge: There are more steps than a saga can have.
        """
        steps = self._within(self.root)
        if len(steps) > MAX_STEPS:
            raise self._too_many()
        return steps

    def _too_many(self) -> TooLarge:
        return TooLarge(
            f"saga {self.saga.name!r} has more than {MAX_STEPS:,} steps for this "
            "input. Nothing was started. Give it fewer items, or start several sagas"
        )

    def _within(self, level: Level) -> list[ShapedStep]:
        """Return the steps of a level and of the levels within it."""
        count, steps = len(level.scope), [*self._steps(level)]
        joins = (join for at, join in self._joins.values() if at.scope[:count] == level.scope)
        return steps + [*joins]

    def _steps(self, level: Level) -> Iterator[ShapedStep]:
        for part in level.saga.parts:
            if not level.entries[part.name]:  # in this order a long chain needs no deep recursion
                self._needed(level, part, None)
            for index, entry in level.entries[part.name].items():
                if entry.inside is not None:
                    yield from self._steps(entry.inside)
                elif not isinstance(part, Inclusion):
                    origin = StepOrigin(level.scope, part.name, index)
                    needs = self._needed(level, part, index)
                    yield ShapedStep(entry.name, part, origin, needs)

    def _all_of(self, level: Level, part: Part) -> list[str]:
        """Return the steps of a part by name; if it has none, those that it needs."""
        entries = level.entries[part.name]
        if not entries:
            return self._needed(level, part, None)
        return [name for entry in entries.values() for name in self._last_steps(level, part, entry)]

    def _last_steps(self, level: Level, part: Part, entry: Entry) -> list[str]:
        """Return the names of an entry's last steps: of a step, or of an included saga.

        The last steps of an included saga are those that no other of its steps needs.
        """
        if entry.inside is None:
            return [entry.name]
        if id(entry) not in self._ends:
            steps = self._within(entry.inside)
            needed = {need for step in steps for need in step.needs}
            self._ends[id(entry)] = [step.name for step in steps if step.name not in needed]
        return self._ends[id(entry)] or self._needed(level, part, entry.index)

    def _needed(self, level: Level, part: Part, index: int | None) -> list[str]:
        """Return the names of the steps that a part, or one item of it, needs."""
        at = (id(level), part.name, index)
        if at not in self._needs:
            self._needs[at] = self._find_needs(level, part, index)
        return self._needs[at]

    def _join(self, level: Level, part: Part, names: list[str]) -> str:
        """Return the name of the joining step that needs all steps of a part."""
        name = level.prefix + part.name + JOIN_ENDING
        if name not in self._joins:
            origin = StepOrigin(level.scope, part.name + JOIN_ENDING)
            step = joining_step(level.saga, origin.name)
            assert step is not None
            self._joins[name] = level, ShapedStep(name, step, origin, names)
        return name

    def _find_needs(self, level: Level, part: Part, index: int | None) -> list[str]:
        needed: dict[str, None] = {}
        parts = level.saga.parts_by_name
        for need in part._needs:
            other = parts[need_name(need)]
            is_own = is_each(need) and index is not None
            own_entry = level.entries[other.name].get(index) if is_own else None
            if own_entry is not None:
                names = self._last_steps(level, other, own_entry)
            elif is_own and not level.entries[other.name]:
                names = self._needed(level, other, index)
            else:
                names = self._all_of(level, other)
                count = len(level.entries[part.name])
                if index is not None and len(names) > 1 and count * len(names) > MAX_PAIRS:
                    names = [self._join(level, other, names)]
            needed.update(dict.fromkeys(names))
        if not needed and level.outer:
            outer, inclusion, index = level.outer
            return self._needed(outer, inclusion, index)
        return [*needed]


def _reader(part: ForEach | str | Callable[[Any], Any]) -> Callable[[Any], Any]:
    """Return a function that reads a part of a value.

    Args:
        part: The function itself, or the part's name, which may have dots.
    """
    if not isinstance(part, str):
        return part
    names = part.split(".")

    def read(value: Any) -> Any:
        for name in names:
            value = value[name] if isinstance(value, Mapping) else getattr(value, name)
        return value

    return read


def _truth(function: Callable[[Any], Any]) -> Callable[[Any], bool]:
    """Wrap a function to return a bool: the conversion may call user code, too."""
    return lambda value: bool(function(value))


def _listed(part: Part, items: Any) -> tuple[list[Any], list[str] | None]:
    """Return the items and their keys. Listing them may run user code."""
    if isinstance(items, Mapping):
        if not all(isinstance(key, str) for key in items):
            raise _invalid(part, "for_each: the keys of the dict must be texts")
        keys = sorted(items)
        return [items[key] for key in keys], keys
    if isinstance(items, (str, bytes)) or not hasattr(items, "__iter__"):
        kind = type(items).__name__
        raise _invalid(part, f"for_each returned a {kind}: it must be a list or a dict of items")
    return [*items], None


def _invalid(part: Part, why: str) -> InvalidInput:
    kind = "inclusion" if isinstance(part, Inclusion) else "step"
    return InvalidInput(f"saga {part.saga.name!r}, {kind} {part.name!r}: {why}")


def _called(part: Part, word: str, function: Callable[[Any], Any], value: Any) -> Any:
    """Return the result of a function of the declaration.

    Raises:
        InvalidInput: The function raised. The message has the line, but not the message of the
            error, which may contain the input.
    """
    try:
        return function(value)
    except SagasError:
        raise
    except Exception as error:
        frames = traceback.extract_tb(error.__traceback__)
        line = f" in line {frames[-1].lineno} of {frames[-1].filename}"
        location = "" if frames[-1].filename == __file__ else line
        raise _invalid(part, f"{word}= raised {type(error).__name__}{location}") from None


def _plain(part: Part, name: str, value: Any) -> Any:
    """Return a value as a JSON value."""
    if value is None or type(value) is bool:
        return value
    if type(value) is int and value.bit_length() <= 64:  # a longer one may have no text
        return value
    try:
        return serialization.read(serialization.write_value(value, name))
    except SagasError as error:
        raise _invalid(part, str(error)) from None


# -- definitions


class Template:
    """The text that the definitions of all shapes with one structure have in common."""

    __slots__ = ("_pieces", "_cost_names", "_roles")

    def __init__(self, shape: Shape) -> None:
        """Make the template from one of the shapes.

        Raises:
            TooLarge: The shape has more needs than a saga can have.
        """
        self._pieces: list[str] = []  # with a computed cost between each two pieces
        self._cost_names: list[str] = []
        saga, needs = shape.saga, 0
        self._roles = roles_of(saga)
        lines = [f"# version {saga.version}"] if saga.version != 1 else []
        lines += [
            f"# includes {path} {part.inner.name} {part.inner.version}"
            f"{' given' if part.given else ''}"
            for path, part in inclusions(saga)
        ]
        lines += pivot_lines(saga)
        if saga.starts_for is not None:
            lines.append(each_line(saga.starts_for.name))
        lines += ["format = 2", f'name = "{saga.name}"']
        for step in shape.steps():
            needs += len(step.needs)
            lines = self._step(step, lines)
        if needs > MAX_NEEDS:
            raise TooLarge(
                f"saga {saga.name!r} has {needs:,} needs for this input, and may have at most "
                f"{MAX_NEEDS:,}. Nothing was started. Declare a step in between"
            )
        self._pieces.append(_joined_lines(lines))

    def _step(self, shaped: ShapedStep, lines: list[str]) -> list[str]:
        """Add a step to the lines, and return the lines after the last computed cost."""
        lines += ("", "[[step]]", f'name = "{shaped.name}"', f"{OF}{shaped.origin.path}")
        lines += mark_lines(shaped.step)
        if shaped.needs:
            lines.append("needs = [" + ", ".join([f'"{need}"' for need in shaped.needs]) + "]")
        for name in COST_NAMES:
            if callable(shaped.step.declared_cost(name)):
                self._pieces.append(_joined_lines(lines))
                self._cost_names.append(name)
                lines = []
            elif cost := _cost_line(name, self._cost(shaped, name)):
                lines.append(cost[:-1])
        if shaped.step.run.engine_tries != 1:
            lines.append(f"tries = {shaped.step.run.engine_tries}")
        if shaped.step.undo.engine_tries != 1:
            lines.append(f"undo_tries = {shaped.step.undo.engine_tries}")
        return lines

    def _cost(self, shaped: ShapedStep, word: str) -> Cost:
        """Return a cost of a step. In a saga with a pivot, included steps have the part's role."""
        scope = shaped.origin.scope
        part = scope[0][0] if scope else shaped.origin.name.removesuffix(JOIN_ENDING)
        role = self._roles.get(part)
        return shaped.step.own_cost(word) if role is None else cost_of(shaped.step, word, role)

    def text(self, costs: Sequence[Cost]) -> str:
        """Return the definition with these computed costs."""
        parts = [self._pieces[0]]
        for name, cost, piece in zip(self._cost_names, costs, self._pieces[1:], strict=True):
            parts += (_cost_line(name, cost), piece)
        return "".join(parts)


def write_definition(shape: Shape) -> str:
    """Return the definition of a shape.

    Raises:
        TooLarge: It has more needs than a saga can have.
    """
    return Template(shape).text(shape.costs)


def fixed_text(saga: SagaParts) -> str:
    """Return the definition of a saga whose steps do not come from its input."""
    if saga.undo_text:
        return saga.undo_text
    lines = [f"# version {saga.version}"] if saga.version != 1 else []
    lines += [f"# ends {saga.ends.name}"] if saga.ends is not None else []
    lines += [*pivot_lines(saga), "format = 2", f'name = "{saga.name}"']
    for step in saga.steps:
        lines += ["", "[[step]]", f'name = "{step.name}"', *mark_lines(step)]
        if step.needs:
            lines.append("needs = [" + ", ".join(f'"{need}"' for need in step.needs) + "]")
        for word in COST_NAMES:
            cost = step.cost(word)
            if cost is NEVER:
                lines.append(f'{word} = "never"')
            elif cost:
                lines.append(f"{word} = {cost}")
        if step.run.engine_tries != 1:
            lines.append(f"tries = {step.run.engine_tries}")
        if step.undo.engine_tries != 1:
            lines.append(f"undo_tries = {step.undo.engine_tries}")
    return "\n".join(lines) + "\n"


def _joined_lines(lines: list[str]) -> str:
    return "".join([f"{line}\n" for line in lines])


def _cost_line(name: str, cost: Cost) -> str:
    """Return the line of a cost; the empty text for the default 0."""
    if isinstance(cost, int):
        return f"{name} = {cost}\n" if cost else ""
    return f'{name} = "never"\n'


def inclusions(saga: SagaParts, outer: str = "") -> Iterator[tuple[str, Inclusion]]:
    """Yield the inclusions of a saga and of its included sagas, each with its path."""
    for part in saga.parts:
        if isinstance(part, Inclusion):
            path = f"{outer}{part.name}"
            yield path, part
            yield from inclusions(part.inner, f"{path}/")
