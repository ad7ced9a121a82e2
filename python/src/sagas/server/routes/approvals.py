"""The table of approvals in the inbox: what each shows of its saga, in a chosen order."""

from __future__ import annotations

import dataclasses
from collections.abc import Sequence
from typing import Any

from sagas.inspection import shown_fields
from sagas.inspection.attention_pages import Entry
from sagas.server.service import Service
from sagas.server.shown_fields import Details

MAX_COLUMNS = 6
"""Maximum number of fields with a column. The others share one."""
SORTED = ("up.", "down.")
"""The beginnings of an order by a shown field: the lowest or the highest value first."""
ORDER = r"oldest|newest|(up|down)\.[A-Za-z0-9_.-]{1,128}"
"""The orders of the inbox, as a pattern."""


@dataclasses.dataclass(frozen=True, slots=True)
class Row:
    """An approval, and what is shown of its saga."""

    entry: Entry
    details: Details

    def more(self, columns: Sequence[str]) -> dict[str, Any]:
        """Return the shown fields that have no column."""
        return {name: value for name, value in self.details.shown.items() if name not in columns}


@dataclasses.dataclass(frozen=True, slots=True)
class Table:
    """Rows of approvals. `columns`: the fields that have a column of their own."""

    rows: list[Row]
    columns: list[str]
    paths: list[str]

    def is_number(self, column: str) -> bool:
        """Return whether all values of a column are numbers."""
        values = [row.details.shown.get(column) for row in self.rows]
        return all(value is None or type(value) in (int, float) for value in values)

    @property
    def has_more(self) -> bool:
        """Whether some fields have no column."""
        return len(self.paths) > len(self.columns)

    @property
    def has_labels(self) -> bool:
        """Whether some saga has a label."""
        return any(row.details.labels for row in self.rows)


async def ordered(service: Service, entries: list[Entry], order: str) -> list[Entry]:
    """Return approvals in the order of a shown field, and the oldest first among equals.

    Entries without the field are last. An order by time changes nothing.
    """
    if not order.startswith(SORTED):
        return entries
    path = order.partition(".")[2]
    details = await service.shown_fields.of(entries)

    def work() -> list[Entry]:
        pairs = [(detail.shown.get(path), entry) for entry, detail in zip(entries, details)]
        present = [pair for pair in pairs if pair[0] is not None]
        absent = [pair for pair in pairs if pair[0] is None]
        is_down = order.startswith("down.")
        present.sort(key=lambda pair: shown_fields.rank_of(pair[0]), reverse=is_down)
        return [entry for _, entry in present + absent]

    return await service.threads.pages.do(work)


async def table_of(service: Service, entries: list[Entry]) -> Table:
    """Return the rows for approvals, in their order."""
    details = await service.shown_fields.of(entries, with_labels=True)
    paths = shown_fields.all_paths([detail.shown for detail in details])
    rows = [Row(*pair) for pair in zip(entries, details)]
    return Table(rows, paths[:MAX_COLUMNS], paths)
