"""Shapes of JSON: they validate requests, and describe themselves as JSON Schema."""

from __future__ import annotations

import abc
import dataclasses
import math
import re
from collections.abc import Mapping
from typing import Any

from sagas.definition.arguments import meant

Schema = dict[str, Any]
MAX_SHOWN = 80
WHOLE = re.compile("-?[0-9]{1,20}")
DECIMAL = re.compile(r"-?[0-9]{1,20}(\.[0-9]{1,20})?([eE][+-]?[0-9]{1,3})?")
"""Numbers of a query, in JSON's syntax: without underscores, and with ASCII digits only."""


class Invalid(ValueError):
    """A value does not match its shape. `field` is its path, such as `next.steps.0`."""

    def __init__(self, field: str, text: str) -> None:
        super().__init__(text)
        self.field = field


class Shape(abc.ABC):
    """The expected form of a value."""

    @abc.abstractmethod
    def read(self, value: Any, field: str) -> Any:
        """Return the validated value. Raises `Invalid`."""

    @abc.abstractmethod
    def schema(self) -> Schema:
        """Return the JSON Schema."""

    def of_text(self, text: str, field: str) -> Any:
        """Return the value of a query or path parameter. Raises `Invalid`."""
        return self.read(text, field)


@dataclasses.dataclass(frozen=True)
class Anything(Shape):
    """Any JSON value."""

    def read(self, value: Any, field: str) -> Any:
        return value

    def schema(self) -> Schema:
        return {}


@dataclasses.dataclass(frozen=True)
class Text(Shape):
    """A string with limits on its length. `pattern` must match all of it. `strip` removes outer
    blanks.
    """

    max_length: int | None = None
    min_length: int = 0
    pattern: str | None = None
    form: str | None = None
    strip: bool = False

    def read(self, value: Any, field: str) -> str:
        if not isinstance(value, str):
            raise Invalid(field, "must be a string")
        text = value.strip() if self.strip else value
        if len(text) < self.min_length:
            least = (
                "not be empty"
                if self.min_length == 1
                else f"have at least {self.min_length} characters"
            )
            raise Invalid(field, f"must {least}")
        if self.max_length is not None and len(text) > self.max_length:
            raise Invalid(field, f"must have at most {self.max_length} characters")
        if self.pattern is not None and not re.fullmatch(self.pattern, text):
            raise Invalid(field, f"must match {self.pattern}")
        return text

    def schema(self) -> Schema:
        keywords = {
            "minLength": self.min_length or None,
            "maxLength": self.max_length,
            "pattern": None if self.pattern is None else f"^{self.pattern}$",
            "format": self.form,
        }
        return {"type": "string"} | {
            name: value for name, value in keywords.items() if value is not None
        }


@dataclasses.dataclass(frozen=True)
class Choice(Shape):
    """One of several strings."""

    some: tuple[str, ...]

    def read(self, value: Any, field: str) -> str:
        if not isinstance(value, str) or value not in self.some:
            raise Invalid(field, f"must be one of {', '.join(self.some)}")
        return value

    def schema(self) -> Schema:
        return {"type": "string", "enum": list(self.some)}


def bounds(minimum: float | None, maximum: float | None) -> str:
    """Return in words which numbers are accepted; at least one bound is given."""
    if maximum is None:
        return f"at least {minimum}"
    return f"at most {maximum}" if minimum is None else f"from {minimum} to {maximum}"


@dataclasses.dataclass(frozen=True)
class Number(Shape):
    """A number within bounds. `whole`: an integer."""

    minimum: float | None = None
    maximum: float | None = None
    whole: bool = False

    def read(self, value: Any, field: str) -> float:
        is_number = isinstance(value, (int, float)) and not isinstance(value, bool)
        if not is_number or (isinstance(value, float) and not math.isfinite(value)):
            raise Invalid(field, "must be a number")
        if self.whole and value != int(value):
            raise Invalid(field, "must be a whole number")
        if (self.minimum is not None and value < self.minimum) or (
            self.maximum is not None and value > self.maximum
        ):
            raise Invalid(field, f"must be {bounds(self.minimum, self.maximum)}")
        return int(value) if self.whole else float(value)

    def of_text(self, text: str, field: str) -> float:
        if not (WHOLE if self.whole else DECIMAL).fullmatch(text):
            raise Invalid(field, f"must be a {'whole ' if self.whole else ''}number")
        return self.read(int(text) if self.whole else float(text), field)

    def schema(self) -> Schema:
        keywords = {"minimum": self.minimum, "maximum": self.maximum}
        kind = "integer" if self.whole else "number"
        return {"type": kind} | {
            name: value for name, value in keywords.items() if value is not None
        }


@dataclasses.dataclass(frozen=True)
class Flag(Shape):
    """True or false."""

    def read(self, value: Any, field: str) -> bool:
        if not isinstance(value, bool):
            raise Invalid(field, "must be true or false")
        return value

    def of_text(self, text: str, field: str) -> bool:
        return self.read({"true": True, "false": False}.get(text), field)

    def schema(self) -> Schema:
        return {"type": "boolean"}


@dataclasses.dataclass(frozen=True)
class Either(Shape):
    """A value of one shape, or else of another one."""

    first: Shape
    second: Shape

    def read(self, value: Any, field: str) -> Any:
        try:
            return self.first.read(value, field)
        except Invalid:
            return self.second.read(value, field)

    def of_text(self, text: str, field: str) -> Any:
        try:
            return self.first.of_text(text, field)
        except Invalid:
            return self.second.of_text(text, field)

    def schema(self) -> Schema:
        return {"anyOf": [self.first.schema(), self.second.schema()]}


@dataclasses.dataclass(frozen=True)
class Nullable(Shape):
    """A shape, or null."""

    shape: Shape

    def read(self, value: Any, field: str) -> Any:
        return None if value is None else self.shape.read(value, field)

    def of_text(self, text: str, field: str) -> Any:
        return self.shape.of_text(text, field)

    def schema(self) -> Schema:
        inner = self.shape.schema()
        if "anyOf" in inner:
            return {"anyOf": [*inner["anyOf"], {"type": "null"}]}
        if "$ref" in inner or "enum" in inner:
            return {"oneOf": [inner, {"type": "null"}]}
        return inner if "type" not in inner else {**inner, "type": [inner["type"], "null"]}


@dataclasses.dataclass(frozen=True)
class Several(Shape):
    """A list of values of one shape."""

    of: Shape
    min_items: int = 0
    max_items: int | None = None

    def read(self, value: Any, field: str) -> list[Any]:
        if not isinstance(value, list):
            raise Invalid(field, "must be a list")
        if len(value) < self.min_items or (
            self.max_items is not None and len(value) > self.max_items
        ):
            raise Invalid(field, f"must have {bounds(self.min_items, self.max_items)} entries")
        return [self.of.read(item, f"{field}.{index}") for index, item in enumerate(value)]

    def schema(self) -> Schema:
        keywords = {"minItems": self.min_items or None, "maxItems": self.max_items}
        result = {"type": "array", "items": self.of.schema()}
        return result | {name: value for name, value in keywords.items() if value is not None}


@dataclasses.dataclass(frozen=True)
class Mapped(Shape):
    """An object with any keys, whose values have one shape."""

    of: Shape

    def read(self, value: Any, field: str) -> dict[str, Any]:
        if not isinstance(value, dict):
            raise Invalid(field, "must be an object")
        return {name: self.of.read(item, f"{field}.{name}") for name, item in value.items()}

    def schema(self) -> Schema:
        return {"type": "object", "additionalProperties": self.of.schema()}


REQUIRED: Any = object()
"""The default of a required field."""


@dataclasses.dataclass(frozen=True)
class Field:
    """A field of an object, or a parameter of a query. Without a default, it is required."""

    shape: Shape
    description: str = ""
    default: Any = REQUIRED
    example: Any = None

    @property
    def is_required(self) -> bool:
        """Return whether it is required."""
        return self.default is REQUIRED

    def schema(self) -> Schema:
        """Return the schema of its shape, with its description."""
        result = self.shape.schema()
        if self.description:
            result = {**result, "description": self.description}
        if not self.is_required and self.default is not None:
            result = {**result, "default": self.default}
        return result


@dataclasses.dataclass(frozen=True, eq=False)
class Record(Shape):
    """An object with exactly these fields. `name`: its name in the OpenAPI document."""

    name: str
    fields: Mapping[str, Field]
    description: str = ""
    example: Any = None

    def read(self, value: Any, field: str) -> dict[str, Any]:
        if not isinstance(value, dict):
            raise Invalid(field, "must be an object")
        return read_fields(self.fields, value, field)

    def schema(self) -> Schema:
        return {"$ref": f"#/components/schemas/{self.name}"}

    def whole(self) -> Schema:
        """Return the full schema, which other schemas refer to."""
        required = [name for name, field in self.fields.items() if field.is_required]
        result: Schema = {
            "type": "object",
            "properties": {name: field.schema() for name, field in self.fields.items()},
            "additionalProperties": False,
        }
        if required:
            result["required"] = required
        if self.description:
            result["description"] = self.description
        return result if self.example is None else {**result, "examples": [self.example]}

    @property
    def is_optional(self) -> bool:
        """Return whether an empty object is valid."""
        return not any(field.is_required for field in self.fields.values())


def read_fields(fields: Mapping[str, Field], value: dict[str, Any], path: str) -> dict[str, Any]:
    """Return the values of all fields, with defaults for missing ones. Raises `Invalid`."""
    for name in value:
        if name not in fields:
            shown = name[:MAX_SHOWN]
            raise Invalid(within(path, shown), f"unknown field{meant(shown, [*fields])}")
    result: dict[str, Any] = {}
    for name, field in fields.items():
        if name in value:
            result[name] = field.shape.read(value[name], within(path, name))
        elif field.is_required:
            raise Invalid(within(path, name), "is required")
        else:
            result[name] = field.default
    return result


def within(path: str, name: str) -> str:
    """Return the path of a field of an object."""
    return f"{path}.{name}" if path else name


def records(shape: Shape) -> dict[str, Record]:
    """Return the records that a shape consists of, by name."""
    if isinstance(shape, Record):
        result = {shape.name: shape}
        for field in shape.fields.values():
            result |= records(field.shape)
        return result
    if isinstance(shape, Nullable):
        return records(shape.shape)
    return records(shape.of) if isinstance(shape, (Several, Mapped)) else {}
