"""The table `trends`: its statements, for both databases."""

from __future__ import annotations

from collections.abc import Sequence

from sagas.core.trends import OLDEST_TASK, RANGES, TrendRow
from sagas.storage.admin import Source

BATCH = 1000
"""Maximum number of rows of a statement."""
ADD = """
INSERT INTO trends(width, at, saga, measure, count) VALUES {rows}
ON CONFLICT(width, at, saga, measure) DO UPDATE SET count = CASE
  WHEN excluded.measure <> '{oldest}' THEN trends.count + excluded.count
  WHEN excluded.count > trends.count THEN excluded.count ELSE trends.count END
"""
PRUNE = "DELETE FROM trends WHERE width = ? AND at < ?"
READ = """
SELECT at, measure, {total} FROM trends
WHERE width = ? AND at >= ? AND {condition} GROUP BY at, measure ORDER BY at, measure
"""
TOTAL = f"CASE WHEN measure = '{OLDEST_TASK}' THEN max(count) ELSE sum(count) END"


def add(connection: Source, rows: Sequence[TrendRow], now: float) -> None:
    """Add counts to the stored ones, and delete those that no range has any more."""
    connection.atomically(lambda: _add(connection, rows, now))


def _add(connection: Source, rows: Sequence[TrendRow], now: float) -> None:
    for begin in range(0, len(rows), BATCH):
        batch = rows[begin : begin + BATCH]
        text = ADD.format(rows=", ".join(["(?, ?, ?, ?, ?)"] * len(batch)), oldest=OLDEST_TASK)
        connection.changed(text, *(value for row in batch for value in row))
    for seconds, width in RANGES.values():
        connection.changed(PRUNE, width, int(now) - seconds - width)
