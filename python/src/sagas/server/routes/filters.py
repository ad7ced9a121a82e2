"""Parameters that select sagas."""

from __future__ import annotations

import datetime
import re
from collections.abc import Callable, Iterable, Mapping
from decimal import Decimal
from typing import Any, TypeVar

from sagas.core import page_tokens
from sagas.definition.labels import Labels, checked
from sagas.inspection.pages import Position
from sagas.server.access import check_definition
from sagas.server.auth import Principal
from sagas.server.problems import Problem
from sagas.server.shapes import (
    DECIMAL,
    Field,
    Invalid,
    Mapped,
    Number,
    Schema,
    Several,
    Shape,
    Text,
)
from sagas.storage.filters import Filter

T = TypeVar("T")
LIMIT = Field(Number(1, 1000, whole=True), "maximum number of entries", default=100)
POSITION = r"-?[0-9]+(\.[0-9]+)?-[0-9]+"
MERGED = "[A-Za-z0-9_-]+"
"""The form of a token of a store over several databases."""
MAX_TOKEN = page_tokens.MAX_LENGTH
CURSOR = Text(max_length=MAX_TOKEN, pattern=f"{POSITION}|{MERGED}")
"""A position in the list: when a saga started, and its id, such as 1795934845.949-1048577."""


class Moment(Shape):
    """A time: RFC 3339, or seconds since 1970."""

    def read(self, value: Any, field: str) -> float:
        if isinstance(value, (int, float)) and not isinstance(value, bool):
            return Number(0, 1e11).read(value, field)
        try:
            text = str(value)
            moment = datetime.datetime.fromisoformat(text if text.isascii() else "")
        except ValueError:
            raise Invalid(field, "must be a time, for example 2027-01-31T12:00:00Z") from None
        if moment.tzinfo is None:
            raise Invalid(field, "must have an offset, for example 2027-01-31T12:00:00Z")
        return moment.timestamp()

    def of_text(self, text: str, field: str) -> float:
        if DECIMAL.fullmatch(text):
            return self.read(float(text), field)
        return self.read(text.replace(" ", "+"), field)  # a + that was not escaped

    def schema(self) -> Schema:
        return {"oneOf": [{"type": "string", "format": "date-time"}, {"type": "number"}]}


LABEL = Text(max_length=400, pattern="[^=]+=.*")
MORE = {
    "label": Field(
        Several(LABEL, max_items=16),
        "only sagas with this label, such as `customer=7`",
        default=None,
    )
}
"""Parameters of a query. A body has `labels` as an object."""
LABELS = {"labels": Field(Mapped(Text()), "only sagas with these labels", default=None)}
SAGAS: dict[str, Field] = {
    "definition": Field(Text(max_length=64), "only sagas of this definition", default=None),
    "search": Field(Text(max_length=512), "only sagas whose key contains this", default=None),
    "started_after": Field(Moment(), "only sagas started at this time or later", default=None),
    "started_before": Field(Moment(), "only sagas started before this time", default=None),
    "error": Field(
        Text(max_length=512), "only sagas with an error that contains this", default=None
    ),
}


def of(principal: Principal, parameters: Mapping[str, Any], phase: str | None = None) -> Filter:
    """Return the filter of sagas that the principal may see. Raises `Problem`."""
    check_definition(principal, parameters["definition"], starts=False)
    fields = {
        name: parameters[name] for name in ("search", "started_after", "started_before", "error")
    }
    labels = checked(parameters.get("labels") or labels_of(parameters.get("label") or ()))
    return Filter(
        phase=phase, saga=parameters["definition"], labels=labels, scope=principal.scope, **fields
    )


def label_filter(text: str | None) -> Labels:
    """Return the label that a field of a page selects, given as `name=value`.

    Raises `ValueError`, `InvalidLabel`.
    """
    if not text:
        return checked(None)
    name, sign, value = text.partition("=")
    if not sign:
        raise ValueError("a label must be NAME=VALUE, for example customer=7")
    return checked({name: value})


def labels_of(texts: Iterable[str]) -> dict[str, str]:
    """Return labels from a query's texts, each `name=value`."""
    return dict(text.partition("=")[::2] for text in texts)


PAGE_CURSOR = Text(max_length=80, pattern=rf"{POSITION}(-[0-9]{{1,2}})?")
"""A position in the list of the dashboard: that of a saga, and the index of its database."""


def page_cursor(position: tuple[float, int], index: int) -> str:
    """Return the cursor of a saga in the list of the dashboard."""
    return f"{cursor_of(position)}-{index}" if index else cursor_of(position)


def bound_of(cursor: str | None, index: int, *, is_newer: bool) -> Position:
    """Return the bound of a page in a database: what is next to a cursor of any database.

    Args:
        cursor: As `page_cursor` returns it. None: no bound.
        index: The index of the database.
        is_newer: Whether the page has newer sagas than the cursor, or older ones. Of sagas that
            started at once, those of the first database come first in a list with the newest first.
    """
    if cursor is None:
        return None
    text, _, last = cursor.rpartition("-")
    if not re.fullmatch(POSITION, text):
        text, last = cursor, "0"
    (at, id), of = parse_position(text), int(last)
    if is_newer:
        return at, id - (index < of)
    return at, id + (index > of)


def cursor_of(position: tuple[float, int]) -> str:
    """Return the text of a position. Parsing it returns exactly the same position."""
    at, id = position
    return f"{Decimal(repr(at)):f}-{id}"  # no exponent, which has signs


def position_of(cursor: str | None) -> Position:
    """Return the position in a cursor."""
    if cursor is None:
        return None
    if not re.fullmatch(POSITION, cursor):
        raise other_list()
    return parse_position(cursor)


def positions_of(kind: str, after: object, count: int, read: Callable[[Any], T]) -> list[T | None]:
    """Return the position in each database after which a page begins. Raises `Problem`.

    Args:
        kind: The kind of the list.
        after: The token of the previous page, or None.
        count: The number of databases.
        read: As for `page_tokens.positions_of`.
    """
    if after is None:
        return [None] * count
    try:
        return page_tokens.positions_of(kind, str(after), count, read)
    except ValueError:
        raise other_list() from None


def other_list() -> Problem:
    """Return the problem for a token of another list, or of another store."""
    return Problem("InvalidRequest", "after: must be `next` of the previous page", "after")


def parse_position(cursor: str) -> tuple[float, int]:
    """Parse the text of `cursor_of`. An id that is too large is after all others."""
    at, _, id = cursor.rpartition("-")
    return float(at), min(int(id), 2**62)
