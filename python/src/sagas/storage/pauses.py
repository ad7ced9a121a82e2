"""The table `pauses`: its statements, for both databases."""

from __future__ import annotations

from typing import Any

from sagas.base.errors import NoSuchPause
from sagas.core.decisions import Decision
from sagas.core.pauses import Pause, PauseScope
from sagas.storage import store_decisions
from sagas.storage.admin import Row, Source

COLUMNS = "saga, step, queue, forward_only, refuse_starts, note, paused_by, at"
ALL = f"SELECT {COLUMNS} FROM pauses ORDER BY at, scope"
PUT = f"""
INSERT INTO pauses(scope, {COLUMNS}) VALUES(?, ?, ?, ?, ?, ?, ?, ?, ?)
ON CONFLICT(scope) DO UPDATE SET forward_only = excluded.forward_only,
  refuse_starts = excluded.refuse_starts, note = excluded.note, paused_by = excluded.paused_by,
  at = excluded.at
"""
PAUSED = "paused"
"""The message that the pauses of a store have changed."""


def of_row(row: Row) -> Pause:
    """Return the pause of a row."""
    saga, step, queue, forward_only, refuse_starts, note, by, at = row
    return Pause(saga, step, queue, bool(forward_only), bool(refuse_starts), note, by, at)


def put(connection: Source, pause: Pause, by: str | None) -> None:
    """Store a pause and the decision. It replaces an earlier one of the same scope.

    Args:
        connection: The connection.
        pause: The pause.
        by: The person or program that decided, also with the way.
    """
    flags, name = (int(pause.forward_only), int(pause.refuse_starts)), pause.scope.name
    values: tuple[Any, ...] = *pause.scope, *flags, pause.note, pause.by, pause.at

    def write() -> None:
        connection.changed(PUT, name, *values)
        store_decisions.put(connection, Decision.PAUSE, name, pause.at, by, pause.note)

    connection.atomically(write)
    connection.notify(PAUSED)


def remove(connection: Source, scope: PauseScope, at: float, by: str | None) -> None:
    """Delete a pause, and store the decision.

    Args:
        connection: The connection.
        scope: What is paused.
        at: When, in seconds since 1970.
        by: The person or program that decided.

    Raises:
        NoSuchPause: The scope is not paused.
    """

    def delete() -> None:
        if not connection.changed("DELETE FROM pauses WHERE scope = ?", scope.name):
            raise NoSuchPause(f"{scope.text} is not paused. `pauses` lists what is")
        store_decisions.put(connection, Decision.RESUME, scope.name, at, by)

    connection.atomically(delete)
    connection.notify(PAUSED)
