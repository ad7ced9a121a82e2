"""Type hints of functions, of classes and of their fields, without aliases and variables."""

from __future__ import annotations

import collections.abc
import dataclasses
import functools
import inspect
import types
import typing
from collections.abc import Callable
from typing import Any

from sagas.definition.arguments import meant

AWAITABLES = (collections.abc.Awaitable, collections.abc.Coroutine)
LISTS = (
    list,
    tuple,
    set,
    frozenset,
    collections.abc.Sequence,
    collections.abc.Collection,
    collections.abc.Iterable,
    collections.abc.Set,
)
DICTS = (dict, collections.abc.Mapping, collections.abc.MutableMapping)


# -- hints of functions


def input_hint(function: Callable[..., Any]) -> Any:
    """Return the type of a function's input, `Order` of the hint `Task[Order]`."""
    arguments = task_hints(function)
    return arguments[0] if arguments else None


def task_hints(function: Callable[..., Any]) -> tuple[Any, ...]:
    """Return the type arguments of a function's task, `Order` of `Task[Order]`."""
    return typing.get_args(_task_hint(function))


def second_hint(function: Callable[..., Any], name: str) -> Any:
    """Return the second type argument of a function's task, if the task's class has this name.

    For example, `Parcel` of `ItemTask[Order, Parcel]`. None if there is none.
    """
    hint = _task_hint(function)
    arguments = typing.get_args(hint)
    kind = typing.get_origin(hint)
    is_named = isinstance(kind, type) and name in {base.__name__ for base in kind.__mro__}
    return arguments[1] if is_named and len(arguments) > 1 else None


def _task_hint(function: Callable[..., Any]) -> Any:
    try:
        hints = typing.get_type_hints(hinted_function(function))
        names = [name for name in hints if name != "return"]
        if isinstance(function, functools.partial):  # without the parameters that have values
            names = [*inspect.signature(function).parameters]
    except Exception:  # for example, only a type checker imports a name
        return None
    return hints.get(names[0]) if names else None


def result_hint(function: Callable[..., Any]) -> Any:
    """Return the type of a function's result, also if the function returns an awaitable of it.

    It is `Any` if the function has no hint of it, or a hint that cannot be read.
    """
    try:
        hint = typing.get_type_hints(hinted_function(function)).get("return", Any)
    except Exception:  # as in `_task_hint`
        return Any
    arguments = typing.get_args(hint)
    return arguments[-1] if typing.get_origin(hint) in AWAITABLES and arguments else hint


def hinted_function(function: Any) -> Any:
    """Return the function with the hints, for a partial function or a callable object."""
    function = inspect.unwrap(function)
    if isinstance(function, functools.partial):
        return hinted_function(function.func)
    is_object = callable(function) and not isinstance(function, type)
    return type(function).__call__ if is_object and not inspect.isroutine(function) else function


def unread(function: Callable[..., Any]) -> str | None:
    """Return why the type hints of a function cannot be read, or None if they can."""
    try:
        typing.get_type_hints(hinted_function(function))
    except NameError as error:
        return str(error)
    except Exception:  # for example, it is not a function
        return None
    return None


# -- one hint


def bare(hint: Any) -> Any:
    """Return a hint without annotations and new names; for `List` the class `list`."""
    while True:
        if typing.get_origin(hint) in (typing.Annotated, typing.Required, typing.NotRequired):
            hint = typing.get_args(hint)[0]
        elif isinstance(hint, typing.NewType):
            hint = hint.__supertype__
        elif type(hint).__name__ == "TypeAliasType":  # of the statement `type`
            hint = hint.__value__
        elif hint is None:
            return type(None)
        elif _is_alias(hint):
            return typing.get_origin(hint)
        else:
            return hint


def _is_alias(hint: Any) -> bool:
    """Return whether a hint is a bare name of `typing`: `List`, not `List[int]`."""
    is_complete = typing.get_args(hint) or isinstance(hint, (type, types.GenericAlias))
    return typing.get_origin(hint) is not None and not is_complete and hint != typing.Tuple[()]


def is_typed_dict(kind: Any) -> bool:
    """Return whether a class is a `TypedDict`, of `typing` or of `typing_extensions`."""
    return isinstance(kind, type) and issubclass(kind, dict) and hasattr(kind, "__required_keys__")


def required_keys(kind: Any) -> frozenset[str]:
    """Return the keys that a `TypedDict` requires, also if its hints are stored as texts."""
    required = set(kind.__required_keys__)
    for name, hint in typing.get_type_hints(kind, include_extras=True).items():
        if typing.get_origin(hint) is typing.NotRequired:
            required.discard(name)
        elif typing.get_origin(hint) is typing.Required:
            required.add(name)
    return frozenset(required)


# -- fields of classes


def field_hints(whole: Any) -> dict[str, Any]:
    """Return the type hints of a class's fields, with type variables filled.

    Args:
        whole: The class, or a generic class with arguments, for example `Box[Order]`.
    """
    kind = typing.get_origin(whole) or whole
    arguments: dict[type, dict[Any, Any]] = {}
    _set_variables(whole, arguments)
    return {
        name: _filled(
            hint, next((arguments.get(base, {}) for base in kind.__mro__ if _has(base, name)), {})
        )
        for name, hint in typing.get_type_hints(kind).items()
    }


def _has(kind: type, name: str) -> bool:
    return name in inspect.get_annotations(kind)


def _set_variables(whole: Any, arguments: dict[type, dict[Any, Any]]) -> None:
    """Add the arguments of a class's type variables, and of those of its base classes."""
    kind = typing.get_origin(whole) or whole
    if kind in arguments:
        return
    arguments[kind] = dict(zip(getattr(kind, "__parameters__", ()), typing.get_args(whole)))
    for base in kind.__dict__.get("__orig_bases__", kind.__bases__):
        is_class = isinstance(typing.get_origin(base) or base, type)
        if is_class and typing.get_origin(base) not in (typing.Generic, typing.Protocol):
            _set_variables(_filled(base, arguments[kind]), arguments)


def _filled(hint: Any, arguments: dict[Any, Any]) -> Any:
    if isinstance(hint, typing.TypeVar):
        return arguments.get(hint, Any)
    variables = getattr(hint, "__parameters__", ()) if typing.get_origin(hint) else ()
    if not all(isinstance(variable, typing.TypeVar) for variable in variables):
        return Any  # a variable for many types
    if not variables or not arguments:
        return hint
    return hint[tuple(arguments.get(variable, Any) for variable in variables)]


def item_hint(hint: Any) -> Any:
    """Return the type of the items of a list or a dict, or None if the hint does not say it."""
    hint = bare(hint)
    origin, arguments = typing.get_origin(hint), typing.get_args(hint)
    if origin in LISTS and arguments:
        return arguments[0]
    if origin in DICTS and len(arguments) == 2:
        return arguments[1]
    return None


def part_hint(hint: Any, path: str) -> Any:
    """Return the type of a part of a value, for a path such as `hotel.rooms`, or None."""
    for name in path.split("."):
        kind = typing.get_origin(hint) or hint
        if not isinstance(kind, type):
            return None
        try:
            hint = field_hints(hint).get(name)
        except Exception:  # only a type checker imports a name, for example
            return None
    return hint


def field_names(kind: Any) -> set[str] | None:
    """Return the names of the fields of a class; None if it is not a class with fields.

    These are dataclasses, `TypedDict`s and pydantic models.
    """
    if dataclasses.is_dataclass(kind):
        return {field.name for field in dataclasses.fields(kind)}
    if is_typed_dict(kind):
        return {*kind.__annotations__}
    fields = getattr(kind, "model_fields", None) or getattr(kind, "__fields__", None)
    return None if fields is None else {*fields}


def items_fault(hint: Any, path: str) -> str | None:
    """Return why a type has no list or dict at a path, or None if it has, or may have one.

    Args:
        hint: The type.
        path: The names of the fields: `hotel.rooms`.
    """
    for name in path.split("."):
        kind = typing.get_origin(hint) or hint
        names = field_names(kind) if isinstance(kind, type) else None
        if names is None:
            return None
        if name not in names and not hasattr(kind, name):
            return _unknown_field(kind, name, names)
        hint = bare(part_hint(hint, name))
    kind = typing.get_origin(hint) or hint
    is_class = isinstance(kind, type) and kind is not types.NoneType
    has_items = is_class and hasattr(kind, "__iter__") and not issubclass(kind, (str, bytes))
    if has_items or not is_class or kind in (object, Any):
        return None
    return f"{path!r} is of type {kind.__name__}, which is not a list or a dict"


def field_fault(hint: Any, path: str) -> str | None:
    """Return why a value of a type has no field at a path, or None if it has, or may have one.

    Args:
        hint: The type.
        path: The names of the fields: `customer.name`.
    """
    hint = bare(hint)
    for name in path.split("."):
        kind = typing.get_origin(hint) or hint
        if kind in VALUES:
            return f"a value of type {kind.__name__} has no field {name!r}"
        names = field_names(kind) if isinstance(kind, type) else None
        if names is None:
            return None
        if name not in names | _aliases(kind):
            return _unknown_field(kind, name, names)
        hint = bare(part_hint(hint, name))
    return None


VALUES = (str, int, float, bool, types.NoneType)
"""The types of values without fields."""


def _aliases(kind: Any) -> set[str]:
    """Return the other names that the fields of a pydantic model have in JSON."""
    fields = getattr(kind, "model_fields", None) or {}
    return {field.alias for field in fields.values() if getattr(field, "alias", None)}


def _unknown_field(kind: type, name: str, names: set[str]) -> str:
    return f"{kind.__name__} has no field {name!r}{meant(name, names)}"
