"""Strict decoders of JSON values, made from type hints.

This is the only walk over types. A decoder checks a value and makes the Python value of it, or
raises `Mismatch`. Inputs are decoded when a saga starts, stored values when a function reads them,
and two inputs are compared by what a decoder makes of both.
"""

from __future__ import annotations

import collections
import collections.abc
import contextlib
import dataclasses
import datetime
import decimal
import enum
import functools
import math
import types
import typing
import uuid
from collections.abc import Callable, Iterable, Sequence
from typing import Any, NoReturn

from sagas.definition import serialization, type_hints
from sagas.definition.serialization import Decoder, is_old_model
from sagas.definition.type_checks import (
    Mismatch,
    NAMES,
    lacking_fields,
    mismatch_of,
    missing_names,
    part_path,
    wrong_type,
)

NONE: type = types.NoneType
NATIVE = (str, int, float, bool, NONE)
JSON_TYPES: frozenset[type] = frozenset({*NATIVE, dict, list})
MAX_EXACT = 2**53
"""Up to this, a `float` has each integer, so it was not rounded."""
MADE: dict[Any, type] = {
    collections.abc.Sequence: list,
    collections.abc.MutableSequence: list,
    collections.abc.Collection: list,
    collections.abc.Iterable: list,
    collections.abc.Set: set,
    collections.abc.MutableSet: set,
    collections.abc.Mapping: dict,
    collections.abc.MutableMapping: dict,
}
"""The class of the decoded value, by the abstract class that a hint names."""


# -- decoders of functions


def input_decoder(function: Callable[..., Any]) -> Decoder | None:
    """Return the decoder of a function's input, by its hint `Task[Order]`.

    It is None if the function has no hint, or one that cannot be read, for example because only a
    type checker imports its name.
    """
    return hinted(type_hints.input_hint(function))


def result_decoder(function: Callable[..., Any]) -> Decoder | None:
    """Return the decoder of a function's result; None if the function returns None."""
    hint = type_hints.result_hint(function)
    return None if type_hints.bare(hint) is NONE else decoder(hint)


def hinted(hint: Any) -> Decoder | None:
    """Return the decoder of a type hint, or None without a hint."""
    return None if hint is None else decoder(hint)


# -- one type


def decoder(hint: Any) -> Decoder | None:
    """Return a function that makes a value of this type from JSON.

    It raises `Mismatch` if the value does not have the type. None means that each JSON value has
    the type, and is used unchanged.
    """
    hint = type_hints.bare(hint)
    if isinstance(hint, type) and not isinstance(hint, types.GenericAlias):
        return _of_class(MADE.get(hint, hint))
    arguments = typing.get_args(hint)
    origin: Any = MADE.get(typing.get_origin(hint), typing.get_origin(hint))
    if origin in (typing.Union, types.UnionType):
        return _of_union([type_hints.bare(argument) for argument in arguments])
    if origin is typing.Literal:
        return _of_literal(arguments)
    if origin in (list, set, frozenset) or (
        origin is tuple and len(arguments) == 2 and arguments[1] is Ellipsis
    ):
        return _of_items(origin, arguments[0])
    if origin is tuple:
        return _of_tuple(tuple, arguments, len(arguments))
    if origin is dict:
        return _of_dict(arguments[0], arguments[1])
    if dataclasses.is_dataclass(origin):
        return _of_dataclass(origin, hint)
    if type_hints.is_typed_dict(origin):
        return _of_typed_dict(origin, hint)
    if isinstance(origin, type) and issubclass(origin, dict) and len(arguments) == 2:
        return _of_subclass(origin, _of_dict(arguments[0], arguments[1]))
    return None


class _Part(typing.NamedTuple):
    """The type of a part of a value.

    Attributes:
        unchanged: The JSON types whose values have the type and are used unchanged, so that they
            need no call of the decoder.
        decode: The decoder.
    """

    unchanged: frozenset[type]
    decode: Decoder

    @classmethod
    def of(cls, hint: Any) -> _Part:
        decode = decoder(hint)
        return cls(JSON_TYPES, _same) if decode is None else cls(_unchanged(hint), decode)

    def or_none(self) -> _Part:
        """Return the type that has null, too."""
        return _Part(self.unchanged | {NONE}, self.decode)


def _unchanged(hint: Any) -> frozenset[type]:
    hint = type_hints.bare(hint)
    if isinstance(hint, type) and hint in _NATIVE_DECODERS:
        return frozenset({hint})
    if typing.get_origin(hint) in (typing.Union, types.UnionType):
        members = [type_hints.bare(member) for member in typing.get_args(hint)]
        if all(member in NATIVE for member in members):
            return frozenset(members)
        return frozenset({NONE} if NONE in members else ())
    return frozenset()


def _same(value: Any) -> Any:
    return value


def _of_class(hint: type) -> Decoder | None:
    if hint in _NATIVE_DECODERS:
        return _NATIVE_DECODERS[hint]
    if hint in (object, Any):
        return None
    if hasattr(hint, "model_validate"):
        return _of_model(typing.cast(Decoder, hint.model_validate))
    if is_old_model(hint):
        return _of_model(typing.cast(Decoder, getattr(hint, "parse_obj")))
    if dataclasses.is_dataclass(hint):
        return _of_dataclass(hint, hint)
    if type_hints.is_typed_dict(hint):
        return _of_typed_dict(hint, hint)
    if issubclass(hint, enum.Enum):
        return _of_enum(hint)
    if hint in (tuple, set, frozenset):
        return _of_items(hint, Any)
    if issubclass(hint, tuple) and hasattr(hint, "_fields"):
        return _of_named_tuple(hint)
    if hint in _BY_TEXT:
        return _of_text(hint, _BY_TEXT[hint])
    return _of_other_class(hint)


# -- leaves


def _decode_text(value: Any) -> str:
    if type(value) is str:
        return value
    raise wrong_type(NAMES[str], value)


def _decode_integer(value: Any) -> int:
    """Return an integer: also of a number without a fraction, which is the same in JSON."""
    if type(value) is int:
        return value
    if type(value) is float:
        if value.is_integer() and abs(value) <= MAX_EXACT:
            return int(value)
        raise Mismatch(": must be an integer, not a number with a fraction")
    raise wrong_type(NAMES[int], value)


def _decode_float(value: Any) -> float:
    """Return a float: also of an integer that a float has exactly."""
    if type(value) is float:
        return value
    if type(value) is int:
        with contextlib.suppress(OverflowError):
            if (number := float(value)) == value:
                return number
        raise Mismatch(": must be a number, not an integer with more digits than a float has")
    raise wrong_type(NAMES[float], value)


def _decode_boolean(value: Any) -> bool:
    if type(value) is bool:
        return value
    raise wrong_type(NAMES[bool], value)


def _decode_null(value: Any) -> None:
    if value is not None:
        raise wrong_type(NAMES[NONE], value)


def _decode_object(value: Any) -> dict[str, Any]:
    if type(value) is dict:
        return value
    raise wrong_type(NAMES[dict], value)


def _decode_list(value: Any) -> list[Any]:
    if type(value) is list:
        return value
    raise wrong_type(NAMES[list], value)


_NATIVE_DECODERS: dict[type, Decoder] = {
    str: _decode_text,
    int: _decode_integer,
    float: _decode_float,
    bool: _decode_boolean,
    NONE: _decode_null,
    dict: _decode_object,
    list: _decode_list,
}


def _decimal(value: Any) -> decimal.Decimal:
    """Return a decimal number as JSON writes it: 19.99, not a binary fraction."""
    if isinstance(value, bool) or not isinstance(value, (str, int, float)):
        raise TypeError
    return decimal.Decimal(repr(value) if isinstance(value, float) else value)


def _datetime(value: Any) -> datetime.datetime:
    if len(value) <= len("2026-01-02"):
        raise ValueError  # a date has no time
    return datetime.datetime.fromisoformat(value)


_BY_TEXT: dict[type, Decoder] = {
    datetime.datetime: _datetime,
    datetime.date: datetime.date.fromisoformat,
    datetime.time: datetime.time.fromisoformat,
    uuid.UUID: uuid.UUID,
    decimal.Decimal: _decimal,
}


def _of_text(hint: type, make: Decoder) -> Decoder:
    """Wrap a class with an error of its own: those of the class may show the value."""

    def read(value: Any) -> Any:
        try:
            return make(value)
        except Mismatch as error:
            if error.path:
                raise
            raise Mismatch(f": cannot be read as {hint.__name__}") from None
        except Exception:
            raise Mismatch(f": cannot be read as {hint.__name__}") from None

    return read


def _of_subclass(hint: type, plain: Decoder) -> Decoder:
    """Return the decoder of a class that is stored as the class that it inherits from.

    Args:
        hint: The class.
        plain: The decoder of the other class.
    """
    make: Callable[[Any], Any] = hint
    if issubclass(hint, collections.defaultdict):
        make = functools.partial(hint, None)
    return _of_text(hint, lambda value: make(plain(value)))


def _of_other_class(hint: type) -> Decoder:
    """Return the decoder of a class that JSON does not have."""
    base = next((base for base in (str, int, float, dict, list) if issubclass(hint, base)), None)
    if base is not None:
        return _of_subclass(hint, _NATIVE_DECODERS[base])

    def read(value: Any) -> Any:
        try:
            is_of_hint = isinstance(value, hint)
        except TypeError:  # a protocol, for example
            return value
        if not is_of_hint:
            raise Mismatch(f": cannot be read as {hint.__name__}")
        return value

    return read


def _of_model(make: Decoder) -> Decoder:
    """Wrap a pydantic model: its errors may show the value."""

    def read(value: Any) -> Any:
        try:
            return make(value)
        except Exception as error:
            raise mismatch_of(error) from None

    return read


def _values_by_form(members: Iterable[tuple[Any, Any]]) -> Decoder:
    """Return a function that finds a member by its JSON value. It raises `KeyError`.

    Args:
        members: The JSON value of each member, or what is written as it, and the member.
    """
    scalars: dict[tuple[type, Any], Any] = {}
    texts: dict[str, Any] = {}
    for form, member in members:
        if type(form) in NATIVE:
            scalars.setdefault((type(form), form), member)
        else:
            try:
                texts.setdefault(serialization.write(form), member)
            except TypeError:  # it has no form in JSON: `NotSerializable`
                continue

    def find(value: Any) -> Any:
        if type(value) in NATIVE and (type(value), value) in scalars:
            return scalars[type(value), value]
        return texts[serialization.write(value)]

    return find


def _of_enum(hint: type[enum.Enum]) -> Decoder:
    find = _values_by_form((member.value, member) for member in hint)
    makes_members = issubclass(hint, enum.Flag) or "_missing_" in vars(hint)

    def read(value: Any) -> Any:
        try:
            return find(value)
        except KeyError:
            if makes_members:
                return _made_member(hint, value)
            raise Mismatch(f": not a value of {hint.__name__}") from None

    return read


def _made_member(hint: type[enum.Enum], value: Any) -> Any:
    """Return the member that an enum makes of another value, or combines of flags."""
    try:
        return hint(value)
    except Exception:
        raise Mismatch(f": not a value of {hint.__name__}") from None


def _of_literal(options: Sequence[Any]) -> Decoder:
    find = _values_by_form(
        (option.value if isinstance(option, enum.Enum) else option, option) for option in options
    )

    def read(value: Any) -> Any:
        try:
            return find(value)
        except KeyError:
            forms = (
                option.value if isinstance(option, enum.Enum) else option for option in options
            )
            raise Mismatch(f": must be one of {', '.join(map(repr, forms))}") from None

    return read


# -- objects


def _of_dataclass(hint: Any, whole: Any) -> Decoder:
    parts: list[tuple[str, _Part]] = []

    def make(value: Any) -> Any:
        if type(value) is not dict:
            raise Mismatch(f": {hint.__name__} requires an object")
        if not parts:  # not before the first value, since a class may name itself
            parts[:] = _field_parts(hint, whole)
        decoded = {}
        for name, (unchanged, decode) in parts:
            if name in value:
                item = value[name]
                decoded[name] = item if type(item) in unchanged else _decoded(decode, item, name)
        try:
            return hint(**decoded)
        except Exception as error:
            raise lacking_fields(value, hint) or Mismatch(
                f": {hint.__name__} rejects it ({type(error).__name__})"
            ) from None

    return make


def _field_parts(hint: Any, whole: Any) -> list[tuple[str, _Part]]:
    """Return the fields of a dataclass with their types. A field with the default None has null."""
    field_hints = type_hints.field_hints(whole)
    parts: list[tuple[str, _Part]] = []
    for field in dataclasses.fields(hint):
        if field.init:
            part = _Part.of(field_hints[field.name])
            parts.append((field.name, part.or_none() if field.default is None else part))
    return parts


def _decoded(decode: Decoder, value: Any, name: object) -> Any:
    """Return the decoded value of a field or an entry. Its error has the path."""
    try:
        return decode(value)
    except NameError:
        raise
    except Exception as error:
        raise mismatch_of(error, part_path(name)) from None


def _of_typed_dict(hint: Any, whole: Any) -> Decoder:
    """Return the decoder of a `TypedDict`. Entries that it does not name stay unchanged."""
    parts: dict[str, _Part] = {}
    required: list[str] = []

    def make(value: Any) -> Any:
        if type(value) is not dict:
            raise Mismatch(f": {hint.__name__} requires an object")
        if not parts:  # as for a dataclass
            hints = type_hints.field_hints(whole).items()
            required[:] = sorted(type_hints.required_keys(hint))
            parts.update({name: _Part.of(field_hint) for name, field_hint in hints})
        if missing := missing_names(value, hint.__name__, required, parts):
            raise missing
        decoded = {}
        for name, item in value.items():
            part = parts.get(name)
            is_same = part is None or type(item) in part.unchanged
            decoded[name] = item if is_same or part is None else _decoded(part.decode, item, name)
        return decoded

    return make


def _of_dict(key_hint: Any, hint: Any) -> Decoder:
    key, (unchanged, decode) = _key_decoder(type_hints.bare(key_hint)), _Part.of(hint)

    def read(value: Any) -> Any:
        if type(value) is not dict:
            raise wrong_type(NAMES[dict], value)
        if key is None and all(map(unchanged.__contains__, map(type, value.values()))):
            return value
        decoded = {}
        for text, item in value.items():
            name = text if key is None else _decoded(key, text, text)
            decoded[name] = item if type(item) in unchanged else _decoded(decode, item, text)
        return decoded

    return read


def _key_decoder(hint: Any) -> Decoder | None:
    """Return the decoder of the keys of a dict, which are texts in JSON."""
    if hint is bool:
        make: Decoder = {"true": True, "false": False}.__getitem__
    elif hint is int:
        make = _integer_key
    elif hint is float:
        make = _finite_key
    elif typing.get_origin(hint) is typing.Literal:
        return decoder(hint)
    elif isinstance(hint, type) and issubclass(hint, enum.Enum):
        make = _enum_key(hint)
    elif isinstance(hint, type) and hint in _BY_TEXT:
        make = _BY_TEXT[hint]
    else:
        return None

    def read(text: Any) -> Any:
        try:
            return make(text)
        except Exception:
            raise Mismatch(f": its key cannot be read as {hint.__name__}") from None

    return read


def _integer_key(text: str) -> int:
    number = int(text)
    if str(number) != text:
        raise ValueError
    return number


def _finite_key(text: str) -> float:
    number = float(text)
    if not math.isfinite(number):
        raise ValueError
    return number


def _enum_key(hint: type[enum.Enum]) -> Decoder:
    by_text = {str(member.value): member for member in hint}
    return lambda key: by_text[key] if key in by_text else hint(key)


# -- lists


def _of_items(make: Any, hint: Any) -> Decoder:
    unchanged, decode = _Part.of(hint)

    def read(value: Any) -> Any:
        if type(value) is not list:
            raise wrong_type(NAMES[list], value)
        if all(map(unchanged.__contains__, map(type, value))):
            items = value
        else:
            items = []
            for index, item in enumerate(value):
                if type(item) in unchanged:
                    items.append(item)
                else:
                    items.append(_decoded_item(decode, item, index))
        if make is list:
            return items
        try:
            return make(items)
        except Exception:  # an item of a set has no hash
            raise Mismatch(": its items cannot be read") from None

    return read


def _decoded_item(decode: Decoder, value: Any, index: int) -> Any:
    """Return the decoded value of an item. Its error has the path."""
    try:
        return decode(value)
    except NameError:
        raise
    except Exception as error:
        raise mismatch_of(error, f"[{index}]") from None


def _of_tuple(make: Any, hints: Sequence[Any], required: int) -> Decoder:
    """Return the decoder of a tuple, whose last items may have defaults.

    Args:
        make: Makes the tuple of its items.
        hints: The types of the items.
        required: The number of items without a default.
    """
    parts = [_Part.of(hint) for hint in hints]

    def read(value: Any) -> Any:
        if type(value) is not list:
            raise wrong_type(NAMES[list], value)
        if not required <= len(value) <= len(parts):
            raise Mismatch(f": must be a list of {len(parts)}, not of {len(value)}")
        return make(
            [
                item if type(item) in part.unchanged else _decoded_item(part.decode, item, index)
                for index, (part, item) in enumerate(zip(parts, value))
            ]
        )

    return read


def _of_named_tuple(hint: Any) -> Decoder:
    made: list[Decoder] = []

    def read(value: Any) -> Any:
        if not made:  # as for a dataclass
            field_hints = typing.get_type_hints(hint)
            hints = [field_hints.get(name, Any) for name in hint._fields]
            required = len(hints) - len(hint._field_defaults)
            made.append(_of_tuple(lambda items: hint(*items), hints, required))
        if type(value) is not list:
            raise Mismatch(f": {hint.__name__} requires a list of {len(hint._fields)}")
        return made[0](value)

    return read


# -- unions


def _of_union(members: Sequence[Any]) -> Decoder | None:
    """Return the decoder of a union.

    Null and numbers are what they are in JSON. Of the other types, the first counts that can read
    the value and has all its fields; texts come last.
    """
    natives = [member for member in members if member in NATIVE]
    others = [(member, decoder(member)) for member in members if member not in NATIVE]
    decode_native = _of_natives(natives)
    if not others:
        return decode_native
    parts = [(member, part) for member, part in others if part is not None]
    has_any = len(parts) < len(others)
    has_numbers_first = decimal.Decimal in members and (int in natives or float in natives)
    if not parts:
        return None

    def read(value: Any) -> Any:
        if value is None and NONE in natives:
            return None
        if has_numbers_first and type(value) in (int, float):  # a `Decimal` is stored as a text
            return decode_native(value)
        errors, decoded = list[Mismatch](), list[Any]()
        for member, part in parts:
            try:
                decoded.append(part(value))
            except NameError:
                raise
            except Exception as error:
                errors.append(mismatch_of(error))
                continue
            if len(parts) == 1 or _has_all_fields(member, value):
                return decoded[-1]
        if decoded:
            return decoded[0]
        if has_any:
            return value
        try:
            return decode_native(value)
        except Mismatch:
            _raise_nearest(errors, value, [member for member in natives if member is not NONE])

    return read


def _raise_nearest(errors: list[Mismatch], value: Any, natives: Sequence[Any]) -> NoReturn:
    """Raise the error of the type of a union that comes nearest to a value."""
    if len(errors) == 1 and (isinstance(value, (dict, list)) or not natives):
        raise errors[0]
    deepest = max(errors, key=lambda error: len(error.path))
    raise deepest if deepest.path else Mismatch(": matches none of its types")


def _of_natives(members: Sequence[Any]) -> Decoder:
    """Return the decoder of a union of texts, numbers, booleans and null."""
    unchanged = frozenset(members)
    expected = " or ".join(NAMES[member] for member in members)
    number = next((member for member in (int, float) if member in unchanged), None)

    def read(value: Any) -> Any:
        if type(value) in unchanged:
            return value
        if number is not None and type(value) in (int, float):
            return _NATIVE_DECODERS[number](value)
        raise wrong_type(expected, value)

    return read


def _has_all_fields(hint: Any, value: Any) -> bool:
    """Return whether a type has fields for all entries of a JSON object."""
    if type(value) is not dict:
        return True
    kind = typing.get_origin(hint) or hint
    names = type_hints.field_names(kind)
    if names is None:
        return True
    fields = getattr(kind, "model_fields", None) or getattr(kind, "__fields__", None) or {}
    aliases = {str(getattr(field, "alias", "")) for field in fields.values()}
    return names | aliases >= value.keys()
