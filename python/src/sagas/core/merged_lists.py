"""Merged pages: the rows of several databases in one order, with a position for each database."""

from __future__ import annotations

import heapq
from collections.abc import Callable, Iterable, Mapping, Sequence
from typing import Any, TypeVar

from sagas.core import page_tokens

T = TypeVar("T")


class MergedList(list[T]):
    """Hold a page of a list over several databases.

    Attributes:
        next: What `after` takes for the next page, also after a restart of the program; None if
            this is the last page, or the list has no pages.
        unavailable: Why rows of a database are missing, by the database's name.
    """

    def __init__(
        self,
        rows: Iterable[T] = (),
        next: str | None = None,
        unavailable: Mapping[str, str] | None = None,
    ) -> None:
        super().__init__(rows)
        self.next, self.unavailable = next, dict(unavailable or {})


def page_of(
    kind: str,
    parts: Mapping[int, Sequence[T]],
    order: Callable[[T], Any],
    positions: Sequence[Any],
    position: Callable[[T], Any],
    limit: int,
    unavailable: Mapping[str, str],
    requested: int | None = None,
) -> MergedList[T]:
    """Return a merged page.

    Args:
        kind: The kind of the list, for the token.
        parts: The next rows of each database that answered, in their order.
        order: What the rows are sorted by. Rows that are equal have the order of the databases.
        positions: The position in each database before the page; None: its beginning.
        position: The position of a row in its database, as JSON.
        limit: Maximum number of rows.
        unavailable: Why rows of a database are missing, by name.
        requested: How many rows each database was asked for (default: `limit`).
    """
    streams = (
        [(order(row), index, number, row) for number, row in enumerate(rows)]
        for index, rows in sorted(parts.items())
    )
    merged = [*heapq.merge(*streams, key=lambda item: item[:3])]
    after = [*positions]
    for _, index, _, row in merged[:limit]:
        after[index] = position(row)
    is_full = any(len(rows) == (requested or limit) for rows in parts.values())
    has_more = len(merged) > limit or is_full
    token = page_tokens.written(kind, after) if has_more else None
    return MergedList((row for *_, row in merged[:limit]), token, unavailable)


def merged(
    parts: Mapping[int, Sequence[T]],
    order: Callable[[T], Any],
    unavailable: Mapping[str, str],
    limit: int | None = None,
) -> MergedList[T]:
    """Return the rows of all databases in one order, without pages."""
    rows = [row for _, part in sorted(parts.items()) for row in part]
    return MergedList(sorted(rows, key=order)[:limit], None, unavailable)
