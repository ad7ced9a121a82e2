"""`StepLocation`: what one step of one saga may see, and the values that it reads."""

from __future__ import annotations

import contextlib
import dataclasses
from collections.abc import Callable, Iterator, Mapping
from typing import Any, TYPE_CHECKING

from sagas.base.errors import ProgramError
from sagas.definition import serialization
from sagas.definition.layout import Layout, RemoteLayout, ShapeValues, StepOrigin
from sagas.definition.step import Selection
from sagas.definition.task import Task
from sagas.definition.task_data import NO_ITEM, TaskData, snapshot

if TYPE_CHECKING:
    from sagas.definition.declaration import Declaration


class StepLocation:
    """The location of one step in one saga. It reads the values that the step may see.

    Attributes:
        origin: The origin of the step.
        layout: The steps of the saga's definition.
        values: The stored values of the saga's shape.
    """

    __slots__ = ("origin", "layout", "values", "_declared", "_input")

    def __init__(
        self,
        origin: StepOrigin,
        layout: Layout,
        values: ShapeValues,
        declared: Declaration,
        input: str,
    ) -> None:
        self.origin, self.layout, self.values = origin, layout, values
        self._declared, self._input = declared, input

    @property
    def saga(self) -> str:
        """The name of the saga that declares the step."""
        return self._declared.saga(self.origin.scope)

    @property
    def index(self) -> int | str | None:
        """The number of its item, or the item's key in a dict; None if it has no item."""
        return self.values.key(self.origin)

    @property
    def input(self) -> str:
        """The input of the saga that declares the step, as JSON."""
        return self.values.input(self.origin.scope) if self.origin.scope else self._input

    def item(self) -> Any:
        """Return its item. Errors of the item's type pass through."""
        return self.values.item(self.origin, self._declared.item(self.origin))

    @property
    def plain(self) -> dict[str, Any]:
        """Its item as JSON values, for a worker outside of the store."""
        number, key = self.origin.number, self.index
        if number is None:
            return NO_ITEM
        index = {"index": number, "item_key": key if isinstance(key, str) else None}
        return index | {"item": self.values.item(self.origin)}

    @property
    def shape(self) -> dict[str, Any]:
        """The saga's name, and numbers and keys of items, for a remote worker."""
        return {"saga": self.saga, **self.values.numbering(self.origin.scope)}

    def visible(self, texts: Mapping[str, str]) -> Iterator[tuple[str, str]]:
        """Yield the steps of its own saga that have results.

        Each is a pair: the name in its own saga, and the full name.
        """
        if not self.origin.scope:
            return ((name, name) for name in texts)
        return (pair for pair in self.layout.within(self.origin.scope) if pair[1] in texts)

    def groups(self, texts: Mapping[str, str]) -> Iterator[tuple[str, Any]]:
        """Yield the results of the fan-outs of its own saga whose items all have results.

        Each is a pair: the declared name, and a list, or a dict by the keys of the items.
        """
        for name in self._declared.fan_outs(self.origin.scope):
            with contextlib.suppress(KeyError):
                yield name, self.gather(name, lambda step: serialization.read(texts[step]))

    def gather(self, step: Selection[Any] | str, value_of: Callable[[str], Any]) -> Any:
        """Return the values of the steps that are selected, as `Layout.gather` does.

        Args:
            step: The declared step, or its name.
            value_of: Returns the value of a step, given its full name.

        Raises:
            KeyError: This saga does not have the steps.
            ProgramError: They are of another saga.
        """
        scope, name = self.origin.scope, self.saga
        if isinstance(step, str):
            full_name = self.layout.prefix(scope) + step
            if full_name in self.layout.origins:
                return value_of(full_name)
            path: tuple[str, ...] = (step,)
        elif step.saga.name != name:
            raise ProgramError(
                f"{step!r} is a step of saga {step.saga.name!r}, and this task is of {name!r}. "
                "Write inclusion[step] for a step of an included saga, and pass values to an "
                "included saga by given="
            )
        else:
            path = step.path
            if step.is_own:
                return value_of(self.layout.item_name(scope, path[0], self.origin.number))
        return self.layout.gather(scope, path, self.values, value_of)

    @property
    def lacks_given(self) -> bool:
        """Whether the definition has a function `given=` that this program does not have."""
        return self._declared.root is None and self.layout.gives(self.origin.scope)

    def given(self, data: TaskData) -> Any:
        """Return the result of `given=`, called with the task of the including saga.

        Args:
            data: The data of the task.

        Returns:
            None if the inclusion has no `given=`.
        """
        scope = self.origin.scope
        function = self._declared.given_function(scope) if scope else None
        if function is None:
            return None
        outer = StepOrigin(scope[:-1], *scope[-1])
        location = StepLocation(outer, self.layout, self.values, self._declared, self._input)
        outer_data = dataclasses.replace(
            snapshot(data),
            location=location,
            input=location.input,
            hint=self._declared.input(outer.scope),
        )
        return function(Task(outer_data))


class RemoteStepLocation(StepLocation):
    """The location of a task in a worker outside of the store.

    Args:
        message: The task as the service wrote it, of a saga that has a shape. Its results have the
            names that they have in their own saga.
    """

    __slots__ = ("_saga", "_key", "_item", "_given_text", "_full_name", "_name")

    def __init__(self, message: dict[str, Any]) -> None:
        shape, declared, number = message["shape"], message["declared_step"], message["index"]
        self.origin, self.values = StepOrigin((), declared, number), ShapeValues.of_numbering(shape)
        self.layout = RemoteLayout(self.values)
        self._saga, self._key, self._full_name = shape["saga"], message["item_key"], message["step"]
        self._name = self.layout.name((), declared.rpartition("/")[2], number)
        self._item = serialization.write(message["item"])
        self._given_text = serialization.write(message["given"])

    @property
    def saga(self) -> str:
        """As of `StepLocation`."""
        name: str = self._saga
        return name

    @property
    def index(self) -> int | str | None:
        """As of `StepLocation`."""
        key: str | None = self._key
        return self.origin.number if key is None else key

    def item(self) -> Any:
        """Return the item as a JSON value: a new object at each call."""
        return serialization.read(self._item)

    @property
    def plain(self) -> dict[str, Any]:
        """As of `StepLocation`."""
        return {"index": self.origin.number, "item_key": self._key, "item": self.item()}

    def visible(self, texts: Mapping[str, str]) -> Iterator[tuple[str, str]]:
        """Yield all steps that have results: the service left out those of other sagas."""
        return ((name, name) for name in texts)

    def groups(self, texts: Mapping[str, str]) -> Iterator[tuple[str, Any]]:
        """Yield nothing: the results have the groups already."""
        return iter(())

    def gather(self, step: Selection[Any] | str, value_of: Callable[[str], Any]) -> Any:
        """Return the values of the selected steps, by names in their own saga.

        Only the task's own step is called by its full name.
        """
        own_name, full_name = self._name, self._full_name
        return super().gather(step, lambda name: value_of(full_name if name == own_name else name))

    @property
    def lacks_given(self) -> bool:
        """Whether `given` is missing: never, since the service computed it."""
        return False

    def given(self, data: TaskData) -> Any:
        """Return the value that the service computed: a new object at each call."""
        return serialization.read(self._given_text)


class Fan:
    """Find the steps of a declared step in one saga.

    Args:
        layout: The layout of the definition, or None if the saga has fixed steps.
        text: The stored values of the saga's shape, or None. It is parsed at the first use.
    """

    __slots__ = ("_layout", "_text", "_values")

    def __init__(self, layout: Layout | None, text: str | None = None) -> None:
        self._layout, self._text = layout, text
        self._values: ShapeValues | None = None

    def gather(self, step: Selection[Any] | str, value_of: Callable[[str], Any]) -> Any:
        """Return the values of the steps that are selected, as `Layout.gather` does.

        Args:
            step: The declared step, or its name.
            value_of: Returns the value of a step, given its name.

        Raises:
            KeyError: The saga has no such step.
        """
        layout, name = self._layout, step if isinstance(step, str) else step.path[0]
        if layout is None and getattr(step, "for_each", None) is not None:
            raise KeyError(f"the items of {step!r} are not known here. Name one: {name}-0")
        if layout is None or name in layout.origins:
            return value_of(name)
        path = (step,) if isinstance(step, str) else step.path
        if self._values is None:
            self._values = ShapeValues() if self._text is None else ShapeValues.read(self._text)
        return layout.gather((), path, self._values, value_of)


FIXED = Fan(None)
