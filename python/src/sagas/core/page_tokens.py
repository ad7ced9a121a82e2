"""Tokens of pages of merged lists: a position for each database. They survive a restart.

A caller may change a token, so each position is checked. It selects no row that the filter of the
caller does not select.
"""

from __future__ import annotations

import base64
import binascii
import json
import math
from collections.abc import Callable, Sequence
from typing import Any, TypeVar

T = TypeVar("T")
VERSION = 1
MAX_LENGTH = 4096
"""Maximum number of characters. A token of 64 databases has about 2,700."""
MAX_ID = 1 << 62
"""Above the id of each saga, and the number of each decision."""


def written(kind: str, positions: Sequence[Any]) -> str:
    """Return the token of a page.

    Args:
        kind: The kind of the list, so that a token of another list is refused.
        positions: The position in each database, as JSON; None: its beginning.
    """
    text = json.dumps([VERSION, kind, *positions], separators=(",", ":"))
    return base64.urlsafe_b64encode(text.encode()).decode().rstrip("=")


def positions_of(kind: str, token: str, count: int, read: Callable[[Any], T]) -> list[T | None]:
    """Return the position in each of `count` databases.

    A database that joined the store after the token was made begins with its first row.

    Args:
        kind: As for `written`.
        token: The token.
        count: The number of databases.
        read: Returns a position, given its JSON. It raises `ValueError` for any other value.

    Raises:
        ValueError: It is not a token of this list.
    """
    try:
        if len(token) > MAX_LENGTH:
            raise ValueError
        text = base64.b64decode(token + "=" * (-len(token) % 4), b"-_", validate=True)
        version, of_kind, *positions = json.loads(text)
        if version != VERSION or of_kind != kind or len(positions) > count:
            raise ValueError
        parts = [None if position is None else read(position) for position in positions]
    except (binascii.Error, ValueError, TypeError, RecursionError):
        raise _invalid(token) from None
    return [*parts, *[None] * (count - len(parts))]


def start_and_id(position: Any) -> tuple[float, int]:
    """Return a position in a list of sagas: when one started, and its id. Raises `ValueError`."""
    started, id = position
    if type(started) not in (int, float) or not math.isfinite(started) or abs(started) >= MAX_ID:
        raise ValueError
    return float(started), number(id, -1)


def number(position: Any, least: int = 0) -> int:
    """Return a position that is a number. Raises `ValueError`."""
    if type(position) is not int or not least <= position <= MAX_ID:
        raise ValueError
    return position


def _invalid(token: str) -> ValueError:
    shown = token if len(token) <= 40 else f"{token[:40]}..."
    return ValueError(f"after={shown!r}: must be `next` of a page of this list")
