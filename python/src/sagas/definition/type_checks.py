"""Mismatches of JSON values and their types, and the differences of two JSON values."""

from __future__ import annotations

import dataclasses
import json
import sys
from collections.abc import Collection, Iterator
from typing import Any

MAX_UNKNOWN = 80
MAX_LISTED = 5
MIN_LENGTH = 3
"""The least number of words of a message that is cut."""
REJECTED = "a validator of the model rejects it"
MAY_SHOW_VALUE = {
    "discriminator_value",
    "error",
    "error_message",
    "path",
    "reason",
    "tag",
    "value",
}
"""Parts of a message of pydantic that may be the value."""


class Mismatch(TypeError):
    """A JSON value that does not match its type.

    Attributes:
        why: The reason, with its leading separator: `: must be a list`.
        path: The path to the value from the outermost one: `.seats[0]`.
    """

    def __init__(self, why: str, path: str = "") -> None:
        super().__init__(f"{path}{why}")
        self.why, self.path = why, path

    def within(self, part: str) -> Mismatch:
        """Return the mismatch of the outer value that has this value as a part."""
        return Mismatch(self.why, part + self.path)


def part_path(name: object) -> str:
    """Return how a path names a field or an entry of an object."""
    plain = isinstance(name, str) and name.isidentifier()
    return f".{name}" if plain else f"[{json.dumps(name if isinstance(name, str) else str(name))}]"


def mismatch_of(error: Exception, at: str = "") -> Mismatch:
    """Return the mismatch for an error of a decoder.

    Args:
        error: The error.
        at: The path of the decoded part in the outer value.
    """
    if isinstance(error, Mismatch):
        return error.within(at)
    mismatch = next(_of_model(error), None) or Mismatch(
        f": cannot be read ({type(error).__name__})"
    )
    return mismatch.within(at)


NAMES: dict[Any, str] = {
    str: "a text",
    int: "an integer",
    float: "a number",
    bool: "true or false",
    type(None): "null",
    dict: "an object",
    list: "a list",
}
"""The types of JSON, as messages name them."""


def type_name(value: Any) -> str:
    """Return the name of a value's JSON type, for a message."""
    return NAMES.get(type(value), type(value).__name__)


def wrong_type(expected: str, value: Any) -> Mismatch:
    """Return the mismatch of a value whose JSON type is not the expected one."""
    return Mismatch(f": must be {expected}, not {type_name(value)}")


def lacking_fields(value: dict[str, Any], hint: Any) -> Mismatch | None:
    """Return the mismatch for missing fields of a dataclass, or None."""
    fields = [field for field in dataclasses.fields(hint) if field.init]
    none = dataclasses.MISSING
    required = [
        field.name for field in fields if field.default is none and field.default_factory is none
    ]
    return missing_names(value, hint.__name__, required, {field.name for field in fields})


def missing_names(
    value: dict[str, Any], kind: str, required: Collection[str], names: Collection[str]
) -> Mismatch | None:
    """Return the mismatch for missing names of an object, or None.

    Args:
        value: The object.
        kind: The name of its type.
        required: The names that the type requires.
        names: All names that the type has.
    """
    missing = [repr(name) for name in required if name not in value]
    if not missing:
        return None
    unknown = ", ".join(repr(name) for name in value if name not in names)
    shown = f"{unknown[:MAX_UNKNOWN]}{'...' if unknown[MAX_UNKNOWN:] else ''}"
    more = f"; it has {shown}, which {kind} does not" if unknown else ""
    return Mismatch(f": missing {' and '.join(missing)}, which {kind} requires{more}")


# -- errors of pydantic


def _of_model(error: Exception) -> Iterator[Mismatch]:
    """Yield the errors of a pydantic model, in the words of pydantic.

    Messages of the model's own validators are left out, because they may contain the value.
    """
    errors = getattr(error, "errors", None)
    entries = errors() if callable(errors) else ()
    own_types = _types_of_pydantic(error) if entries else ()
    for entry in entries:
        path = "".join(
            f"[{key}]" if isinstance(key, int) else part_path(key) for key in entry["loc"]
        )
        text = _message(entry) if entry["type"] in own_types else REJECTED
        yield Mismatch(f": {text}", path)


def _message(entry: Any) -> str:
    """Return the message of an error, up to the first part that may be the value."""
    message: str = entry["msg"]
    parts = [str(part) for name, part in entry.get("ctx", {}).items() if name in MAY_SHOW_VALUE]
    if not parts:
        return message
    head = min((message.partition(part)[0] for part in parts), key=len).rstrip(" ,;:('\"")
    return head if len(head.split()) >= MIN_LENGTH else REJECTED


def _types_of_pydantic(error: Exception) -> Collection[str]:
    """Return the types of errors that pydantic itself raises, with messages of its own."""
    module = type(error).__module__
    if module.startswith("pydantic_core"):
        core: Any = sys.modules["pydantic_core"]
        types = {entry["type"] for entry in core.list_all_errors()}
        return types - {"value_error", "assertion_error"}
    errors = sys.modules.get(module.replace("error_wrappers", "errors"))
    if errors is None:  # a class of the same form, of another package
        return ()
    return {
        f"{'type_error' if issubclass(kind, TypeError) else 'value_error'}."
        + (getattr(kind, "code", None) or kind.__name__.replace("Error", "").lower())
        for kind in vars(errors).values()
        if isinstance(kind, type) and issubclass(kind, (TypeError, ValueError))
    }


# -- two values


def joined_paths(paths: list[str]) -> str:
    """Return the first paths as a list for a message, and how many others there are."""
    named = [path or "the top level" for path in paths]
    more = f" and {len(named) - MAX_LISTED} more" if len(named) > MAX_LISTED else ""
    return f"{', '.join(named[:MAX_LISTED])}{more}"


def differences(first: Any, second: Any, at: str = "") -> Iterator[str]:
    """Yield the paths at which two JSON values differ."""
    if isinstance(first, dict) and isinstance(second, dict):
        for name in sorted(first.keys() | second.keys()):
            if name in first and name in second:
                yield from differences(first[name], second[name], at + part_path(name))
            else:
                yield at + part_path(name)
    elif isinstance(first, list) and isinstance(second, list):
        for index, pair in enumerate(zip(first, second)):
            yield from differences(*pair, f"{at}[{index}]")
        if len(first) != len(second):
            yield f"{at}[{min(len(first), len(second))}]"
    elif type(first) is not type(second) or first != second:
        yield at
