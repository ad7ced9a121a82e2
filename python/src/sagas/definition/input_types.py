"""`InputTypes`: the types that a saga and its functions have for the saga's input."""

from __future__ import annotations

import contextlib
from collections.abc import Sequence
from typing import Any, NamedTuple

from sagas.base.errors import InvalidInput
from sagas.definition import serialization, type_checks
from sagas.definition.serialization import Decoder


class InputReader(NamedTuple):
    """One type of an input.

    Attributes:
        step: The first step with a function that has the type; None: the saga itself has it.
        decode: The decoder of the type.
    """

    step: str | None
    decode: Decoder


class InputTypes(NamedTuple):
    """The types of a saga's input.

    Attributes:
        saga: The saga's name.
        readers: The different types, each with its decoder.
        is_complete: Whether each function has a type, so that none reads other fields.
    """

    saga: str
    readers: Sequence[InputReader]
    is_complete: bool

    def error(self, text: str) -> InvalidInput | None:
        """Return why an input does not have all of the types, or None if it has them.

        Args:
            text: The input as JSON.
        """
        for step, decode in self.readers:
            with contextlib.suppress(NameError):  # it names what only a type checker imports
                fault = fault_of(text, decode)
                if fault is not None and step is None:
                    return InvalidInput(f"saga {self.saga!r}: input{fault}")
                if fault is not None:
                    return InvalidInput(f"saga {self.saga!r}, step {step!r}: input{fault}")
        return None

    def differences(self, first: str, second: str) -> list[str]:
        """Return the paths of the values in which two inputs differ, under their present types.

        A stored input may be older than a field of its type, so it is decoded before it is
        compared. The list is empty if the decoders make equal values of both inputs. If some
        function reads the input without a type, fields that no type declares are compared as well.
        If a decoder fails, the inputs are compared as JSON.

        Args:
            first: An input as JSON.
            second: Another input as JSON.
        """
        values = serialization.read(first), serialization.read(second)
        if not self.readers:
            return list(type_checks.differences(*values))
        paths: dict[str, None] = {}
        for _, decode in self.readers:
            normalized = _normalized(first, decode), _normalized(second, decode)
            if normalized[0] is None or normalized[1] is None:
                return list(type_checks.differences(*values))
            pair = serialization.read(normalized[0]), serialization.read(normalized[1])
            if not self.is_complete:
                pair = _merged(values[0], pair[0]), _merged(values[1], pair[1])
            paths |= dict.fromkeys(type_checks.differences(*pair))
        return list(paths)


UNTYPED = InputTypes("", (), True)
"""The types of the input of a saga that this program does not declare."""


def fault_of(text: str, decode: Decoder) -> type_checks.Mismatch | None:
    """Return why a decoder cannot read a value, or None if it can.

    Args:
        text: The value as JSON.
        decode: The decoder.

    Raises:
        NameError: The type names what only a type checker imports.
    """
    try:
        decode(serialization.read(text))
    except NameError:
        raise
    except Exception as error:  # of the type's own code
        return type_checks.mismatch_of(error)
    return None


def _normalized(text: str, decode: Decoder) -> str | None:
    """Return the JSON of a value after decoding it; None if it cannot be decoded."""
    try:
        return serialization.write(decode(serialization.read(text)))
    except Exception:  # of the type's own code
        return None


def _merged(value: Any, normalized: Any) -> Any:
    """Return a normalized value with those fields that its type does not have."""
    if isinstance(value, dict) and isinstance(normalized, dict):
        return value | {
            name: _merged(value[name], part) if name in value else part
            for name, part in normalized.items()
        }
    if isinstance(value, list) and isinstance(normalized, list) and len(value) == len(normalized):
        return [_merged(*pair) for pair in zip(value, normalized)]
    return normalized
