"""The layout of a saga whose steps come from its input: origins, items and names of its steps."""

from __future__ import annotations

import re
from collections.abc import Callable, Collection, Iterator, Sequence
from typing import Any, NamedTuple

from sagas.definition import serialization
from sagas.definition.definition_text import giving
from sagas.definition.serialization import Decoder

JOIN_ENDING = "--all"
"""The ending of the name of a joining step, after the name of the part that it joins."""
Scope = tuple[tuple[str, "int | None"], ...]
"""The inclusions around a step, the outermost first, each with the number of its item."""
ORIGIN_PART = re.compile(r"([a-z][a-z0-9_-]*)(?:\[(\d+)\])?\Z")


class StepOrigin(NamedTuple):
    """The origin of a step: its inclusions, declared name and item's number."""

    scope: Scope
    name: str
    number: int | None = None

    @property
    def declared(self) -> str:
        """The declared step without numbers of items, for people and labels: `hotel/room`."""
        return "/".join([*(name for name, _ in self.scope), self.name])

    @property
    def path(self) -> str:
        """The declared step with the numbers of items: `hotel/room[2]`."""
        return "/".join([_path_part(*part) for part in (*self.scope, (self.name, self.number))])

    @property
    def group(self) -> str:
        """The key under which `ShapeValues` keeps the items: `car[1]/room`."""
        return StepOrigin(self.scope, self.name).path


def _path_part(name: str, index: int | None) -> str:
    return name if index is None else f"{name}[{index}]"


def parse_origin(path: str) -> StepOrigin:
    """Return the origin with this path.

    Raises:
        ValueError: It is not the path of an origin.
    """
    matches = [ORIGIN_PART.match(part) for part in path.split("/")]
    parts = [(match[1], None if match[2] is None else int(match[2])) for match in matches if match]
    if len(parts) < len(matches):
        raise ValueError(f"{path!r} is not the path of a step")
    return StepOrigin(tuple(parts[:-1]), *parts[-1])


class ShapeValues:
    """The JSON values of one saga's shape, computed once and stored.

    Attributes:
        inputs: The inputs of included sagas, by the paths of their scopes (`hotel`, `car[1]`).
        items: The items of fan-outs, by group (`ship`, `car[1]/room`). If two fan-outs have the
            same items, the second one has the group of the first instead.
        keys: The keys of the items that came from a dict, by group.
    """

    def __init__(
        self,
        inputs: dict[str, Any] | None = None,
        items: dict[str, list[Any] | str] | None = None,
        keys: dict[str, list[str]] | None = None,
    ) -> None:
        self.inputs, self.items, self.keys = inputs or {}, items or {}, keys or {}

    @classmethod
    def read(cls, text: str) -> ShapeValues:
        """Return the values that `text` wrote."""
        parts = serialization.read(text)
        return cls(parts.get("inputs"), parts.get("items"), parts.get("keys"))

    @classmethod
    def of_numbering(cls, numbering: dict[str, Any]) -> ShapeValues:
        """Return values with only the numbers and keys that `numbering` returned."""
        items: dict[str, list[Any] | str] = {
            group: [None] * count for group, count in numbering["counts"].items()
        }
        return cls(None, items, numbering["keys"])

    def numbering(self, scope: Scope) -> dict[str, Any]:
        """Return the numbers and the keys of the items within a scope.

        They are by group, relative to the scope.
        """
        head = f"{StepOrigin(scope[:-1], *scope[-1]).path}/" if scope else ""
        counts, keys = {}, {}
        for full_group in self.items:
            if full_group.startswith(head):
                items, group = self.items[full_group], full_group[len(head) :]
                source = items if isinstance(items, str) else full_group
                counts[group] = len(self.items[source])
                if source in self.keys:
                    keys[group] = self.keys[source]
        return {"counts": counts, "keys": keys}

    def text(self) -> str:
        """Return the values as JSON, for the store."""
        parts = {"inputs": self.inputs, "items": self.items, "keys": self.keys}
        return serialization.write({name: part for name, part in parts.items() if part})

    def _items(self, scope: Scope, name: str) -> tuple[str, list[Any]] | None:
        """Return the group that has the items of a fan-out, and the items."""
        group = StepOrigin(scope, name).path
        items = self.items.get(group)
        if isinstance(items, str):
            group, items = items, self.items[items]
        return None if items is None else (group, items)  # type: ignore[return-value]

    def count(self, scope: Scope, name: str) -> int | None:
        """Return the number of items of a fan-out; None if the saga has no such fan-out."""
        entry = self._items(scope, name)
        return None if entry is None else len(entry[1])

    def keys_of(self, scope: Scope, name: str) -> list[str] | None:
        """Return the keys of a fan-out's items; None if they did not come from a dict."""
        entry = self._items(scope, name)
        return None if entry is None else self.keys.get(entry[0])

    def key(self, origin: StepOrigin) -> int | str | None:
        """Return the key of a step's item, or its number; None if the step has no item."""
        if origin.number is None:
            return None
        keys = self.keys_of(origin.scope, origin.name)
        return origin.number if keys is None else keys[origin.number]

    def item(self, origin: StepOrigin, decoder: Decoder | None = None) -> Any:
        """Return a step's item: a new object at each call."""
        entry = self._items(origin.scope, origin.name)
        assert entry is not None and origin.number is not None
        item = entry[1][origin.number]
        if decoder is None and not isinstance(item, (dict, list)):
            return item  # it is immutable
        return serialization.read(serialization.write(item), decoder)

    def input(self, scope: Scope) -> str:
        """Return the input of an included saga, as JSON."""
        *outer, last = scope
        return serialization.write(self.inputs[StepOrigin(tuple(outer), *last).path])


class Layout:
    """The steps of a definition, by the declared steps that they come from.

    Attributes:
        origins: The origins of the steps, by name, in order.
    """

    def __init__(
        self, names: Sequence[str], origins: Sequence[StepOrigin], giving: Collection[str] = ()
    ) -> None:
        self.origins, self._giving = dict(zip(names, origins)), giving
        self._groups: dict[tuple[Scope, str], dict[int | None, str]] = {}
        for name, origin in self.origins.items():
            self._groups.setdefault((origin.scope, origin.name), {})[origin.number] = name

    def gives(self, scope: Scope) -> bool:
        """Return whether an inclusion of a scope has a function `given=`."""
        names = [name for name, _ in scope]
        return any("/".join(names[: depth + 1]) in self._giving for depth in range(len(names)))

    def prefix(self, scope: Scope) -> str:
        """Return the common beginning of the names of the steps in a scope."""
        return "".join(f"{name}-" if at is None else f"{name}-{at}-" for name, at in scope)

    def name(self, scope: Scope, name: str, index: int | None) -> str:
        """Return the full name of a step in a scope."""
        return self.prefix(scope) + name + ("" if index is None else f"-{index}")

    def within(self, scope: Scope) -> Iterator[tuple[str, str]]:
        """Yield the steps in a scope and in the scopes within it.

        Each is a pair: the name relative to the scope, and the full name.
        """
        count, cut = len(scope), len(self.prefix(scope))
        for name, origin in self.origins.items():
            if origin.scope[:count] == scope:
                yield name[cut:], name

    def item_name(self, scope: Scope, name: str, index: int | None) -> str:
        """Return the full name of a declared step's item.

        Raises:
            KeyError: The definition has no such step.
        """
        step = self._groups.get((scope, name), {}).get(index)
        if step is None:
            raise KeyError(
                f"step {StepOrigin(scope, name, index).path!r} does not exist for this input"
            )
        return step

    def gather(
        self, scope: Scope, path: Sequence[str], values: ShapeValues, value_of: Callable[[str], Any]
    ) -> Any:
        """Return the values of the steps that a path selects.

        Args:
            scope: The scope in which the path begins.
            path: The names of inclusions, and last that of a declared step.
            values: The stored values of the saga's shape.
            value_of: Returns the value of a step, given its full name.

        Returns:
            The value of a single step. For a fan-out a list, or a dict by the keys of the items.

        Raises:
            KeyError: The definition has no such step.
        """
        name, *rest = path
        count = values.count(scope, name)
        if not rest:
            if count is None:
                return value_of(self.item_name(scope, name, None))
            gathered = [value_of(self.item_name(scope, name, index)) for index in range(count)]
        else:
            if count is None:
                return self.gather((*scope, (name, None)), rest, values, value_of)
            gathered = [
                self.gather((*scope, (name, index)), rest, values, value_of)
                for index in range(count)
            ]
        keys = values.keys_of(scope, name)
        return gathered if keys is None else dict(zip(keys, gathered))


class RemoteLayout(Layout):
    """The layout for a worker outside of the store.

    It knows the numbers of items, but not the names of the steps. It computes them.
    """

    def __init__(self, values: ShapeValues) -> None:
        super().__init__((), ())
        self._values = values

    def item_name(self, scope: Scope, name: str, index: int | None) -> str:
        """Return the full name of a declared step's item, which may have no result.

        Raises:
            KeyError: Only one of the step and the arguments has items.
        """
        if (index is None) != (self._values.count(scope, name) is None):
            raise KeyError(
                f"step {StepOrigin(scope, name, index).path!r} does not exist for this input"
            )
        return self.name(scope, name, index)


def layout_of(text: str, steps: list[dict[str, Any]]) -> Layout:
    """Return the layout of a definition, given its text and its steps."""
    names, origins = [step["name"] for step in steps], [parse_origin(step["of"]) for step in steps]
    return Layout(names, origins, giving(text))
