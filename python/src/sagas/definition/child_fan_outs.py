"""`ChildFanOut`: a step that starts a child saga for each item of a list.

Its child is a saga that the package makes. That one has a child for each item, so each of them
starts, ends and is undone as any child.
"""

from __future__ import annotations

import dataclasses
from collections.abc import Callable, Mapping, Sequence
from typing import Any, Union

from sagas.base.errors import CannotDecode, InvalidInput, ProgramError, TooLarge
from sagas.definition import decoders, serialization, type_checks, type_hints
from sagas.definition.arguments import BELOW
from sagas.definition.call_options import Manner
from sagas.definition.child_sagas import ChildResult
from sagas.definition.definition_text import each_name_of
from sagas.definition.parts import SagaParts
from sagas.definition.step import Collectable, Step
from sagas.definition.task import ItemTask, Task

MAX_CHILDREN = 1_000
ITEMS = "items"
"""The field of the made saga's input that has the inputs of the children."""
ChildItems = Union[str, Callable[[Any], Sequence[Any]]]
"""The items: the name of a list in the input, or a function of the task that returns a list."""


class ChildFanOut(Collectable[list[ChildResult], ChildResult]):
    """Hold a step that starts a child saga for each item of a list.

    Made by `Saga.child` with `for_each=`. Its result is the list of the children's results.

    Attributes:
        items: As given to `Saga.child` as `for_each`.
        starter: The step of the made saga that exists once for each item.
    """

    items: ChildItems
    starter: Step[Any]

    def collect_failures(self) -> None:
        """As of `Collectable`: the failures of the children are results."""
        self.starter.is_collected = True


def starting_saga(step: ChildFanOut, child: SagaParts, undo_on_exhausted: Any) -> SagaParts:
    """Return the saga that starts a child for each item, and set `starter` of the step.

    Each child has the costs that are declared for the step. Who is asked after a failure is asked
    for one child.
    """
    parent: Any = step.saga
    saga: Any = type(parent)(each_name_of(parent.name, step.name), version=parent.version)
    saga.where, saga.starts_for = step.where, step
    costs = {"run": 0, "undo": step._costs["undo"], "skip": 0, "keep": step._costs["keep"]}
    manner = Manner(_item, on_exhausted=step.run.on_exhausted)
    starter = saga._add(_item, step.name, "child", (), costs, manner, None, for_each=ITEMS)
    starter.child, starter.where = child, step.where
    starter.undo.on_exhausted = undo_on_exhausted
    saga.has_children = True
    step.starter = starter
    step.run.on_exhausted = "fail"  # the starter asks
    made: SagaParts = saga
    return made


def _item(task: Task[Any]) -> Any:
    """Return the input of one child."""
    return task.item


# -- the items


class _ListedItem(ItemTask[Any, Any]):
    """The task of the step with one of its items."""

    __slots__ = ("_item", "_index")

    def __init__(self, task: Task[Any], item: Any, index: int) -> None:
        super().__init__(task._data)
        self._needed_results = task._texts
        self._item, self._index = item, index

    @property
    def has_item(self) -> bool:
        """As of `Task`: always."""
        return True

    @property
    def item(self) -> Any:
        """As of `Task`."""
        return self._item

    @property
    def index(self) -> int:
        """As of `Task`."""
        return self._index


def input_of(step: ChildFanOut, task: Task[Any]) -> dict[str, list[Any]]:
    """Return the input of the made saga: the inputs of all children.

    A thread may call it.

    Raises:
        ProgramError: `for_each` did not return a list.
        InvalidInput: The input does not have what `for_each` names.
        TooLarge: There are too many items.
        CannotDecode: An item does not have the type that the function names.
        Exception: Whatever the functions raise.
    """
    function = step.run.function
    assert function
    decoder = decoders.hinted(type_hints.second_hint(function, "ItemTask"))
    inputs = []
    for index, item in enumerate(_items(step, task)):
        try:
            value = item
            if decoder is not None:
                value = serialization.read(serialization.write_value(item), decoder)
        except Exception as error:  # of the type's own code
            detail = f"item {index}{type_checks.mismatch_of(error)}"
            raise CannotDecode(f"{_of(step)}: {detail}") from None
        inputs.append(function(_ListedItem(task, value, index)))
    return {ITEMS: inputs}


def _items(step: ChildFanOut, task: Task[Any]) -> list[Any]:
    """Return the items of a step, after checking that they are a list of a possible length."""
    items = step.items(task) if callable(step.items) else _part(step, task.input, step.items)
    is_listed = hasattr(items, "__iter__") and not isinstance(items, (str, bytes, Mapping))
    if not is_listed:
        raise ProgramError(
            f"{_of(step)}: for_each returned a {type(items).__name__}: it must be a list of items"
        )
    listed = [*items]
    if len(listed) > MAX_CHILDREN:
        raise TooLarge(
            f"{_of(step)}: for_each returned {len(listed):,} items, and may return at most "
            f"{MAX_CHILDREN:,}. No child was started. Let each child have several of them"
        )
    return listed


def _part(step: ChildFanOut, input: Any, path: str) -> Any:
    """Return the part of the input with this name, which may have dots."""
    value = input
    for name in path.split("."):
        try:
            value = value[name] if isinstance(value, Mapping) else getattr(value, name)
        except (KeyError, AttributeError):
            raise InvalidInput(
                f"{_of(step)}: for_each={path!r}: the input has no {name!r}"
            ) from None
    return value


def _of(step: ChildFanOut) -> str:
    return f"saga {step.saga.name!r}, step {step.name!r}"


# -- results


def made_key(result: Any) -> str | None:
    """Return the key of the made saga, given the step's result; None if no child completed."""
    for entry in result if isinstance(result, list) else ():
        key = entry.get("key") if isinstance(entry, dict) else None
        if isinstance(key, str):
            return key.rpartition(BELOW)[0]
    return None
