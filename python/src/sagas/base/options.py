"""Values of command options: numbers, durations and references to modules."""

from __future__ import annotations

import argparse
import importlib
import re
import sys
from collections.abc import Callable
from typing import Any


MAX_OPTION = 10**12
"""The maximum of all options. The integers of each database can hold it."""
UNITS = {"s": 1, "m": 60, "h": 3600, "d": 86400, "w": 7 * 86400}
MAX_SHOWN = 40
"""Characters of a value that a message repeats."""


def integer_from(least: int) -> Callable[[str], int]:
    """Return a type for integers from this one on."""

    def read(text: str) -> int:
        if not re.fullmatch(r"[0-9]{1,13}", text) or not least <= int(text) <= MAX_OPTION:
            raise invalid(text, f"an integer from {least} to {MAX_OPTION}")
        return int(text)

    return read


def positive(text: str) -> float:
    """Return a number above 0. Raises `argparse.ArgumentTypeError`."""
    value = _number(text)
    if not 0 < value <= MAX_OPTION:
        raise invalid(text, f"a number above 0, up to {MAX_OPTION}")
    return value


def not_negative(text: str) -> float:
    """Return a number of 0 or more. Raises `argparse.ArgumentTypeError`."""
    value = _number(text)
    if not 0 <= value <= MAX_OPTION:
        raise invalid(text, f"a number from 0 to {MAX_OPTION}")
    return value


def age(text: str) -> float:
    """Return the seconds of a number with a unit, for example `30d` or `12h`."""
    match = re.fullmatch(r"(\d{1,9})([smhdw])", text)
    if not match:
        raise argparse.ArgumentTypeError(
            f"invalid duration {text!r}: use an integer and a unit s, m, h, d or w, for "
            "example 30d"
        )
    return float(int(match[1]) * UNITS[match[2]])


def _number(text: str) -> float:
    try:
        return float(text)
    except ValueError:
        return float("nan")


def invalid(text: str, rule: str) -> argparse.ArgumentTypeError:
    """Return the error for an invalid value of an option."""
    shown = text if len(text) <= MAX_SHOWN else f"{text[:MAX_SHOWN]}..."
    return argparse.ArgumentTypeError(f"invalid value {shown!r}: use {rule}")


def load_reference(option: str, reference: str) -> Any:
    """Return the value that `MODULE:NAME` refers to. The current folder is searched, too.

    Raises:
        ValueError: The reference has another form, or the module or the name does not exist.
    """
    module, _, name = reference.partition(":")
    if not name or not module or module.startswith("."):
        raise ValueError(f"invalid {option} {reference!r}: use MODULE:NAME")
    if "" not in sys.path:
        sys.path.insert(0, "")
    try:
        return getattr(importlib.import_module(module), name)
    except (ImportError, AttributeError) as error:
        raise ValueError(f"cannot load {option} {reference}: {error}") from error
