"""A worker's session with a store's file."""

from __future__ import annotations

import contextlib
import os
import sqlite3
from typing import Any
from urllib.parse import quote

from sagas.base.errors import StoreUnavailable, WrongStore
from sagas.core.attempt.external_work import AttemptTexts, Order
from sagas.core.outcomes import Outcome
from sagas.definition.call_options import Function
from sagas.storage.sqlite.external_attempts import REPORT
from sagas.storage.worker_session import BEGIN, fetched

BUSY = 1.0
"""Seconds that a worker waits for other writers in one try."""


class SqliteWorkerSession:
    """A worker's connection to the file, for one thread."""

    def __init__(self, path: str) -> None:
        self.path = os.path.abspath(path)
        self._db: sqlite3.Connection | None = None

    def _ask(self, text: str, parameters: Any) -> list[tuple[Any, ...]]:
        try:
            if self._db is None:
                # without `create`: a missing file would be another store
                self._db = sqlite3.connect(
                    f"file:{quote(self.path)}?mode=rw", uri=True, isolation_level=None, timeout=BUSY
                )
                # the owner's next commit syncs the report, and lost attempts are ordered again
                self._db.execute("PRAGMA synchronous=NORMAL")
            return self._db.execute(text, parameters).fetchall()
        except sqlite3.Error as error:
            self.close()
            if not os.path.exists(self.path):
                raise WrongStore(
                    f"{self.path}: the file does not exist for this worker. Over SQLite, workers "
                    "and store must share it. Otherwise use PostgreSQL"
                ) from error
            raise StoreUnavailable(f"{self.path}: {error}") from error

    def begin(self, order: Order) -> AttemptTexts | None:
        """Return the texts that the order does not contain.

        Return None if the attempt is closed. Raises `WrongStore`, `StoreUnavailable`.
        """
        return fetched(
            order, self._ask(BEGIN, (order.token, order.log)), self._first_text, self.path
        )

    def _first_text(self, text: str, *parameters: Any) -> str:
        rows = self._ask(text, parameters)
        return str(rows[0][0]) if rows and rows[0][0] is not None else "null"

    def report(self, order: Order, outcome: Outcome) -> None:
        """Store the outcome in one statement. Raises `StoreUnavailable`."""
        self._ask(
            REPORT,
            {
                "attempt": order.token,
                "lease": order.lease,
                "outcome": str(outcome.kind),
                "value": outcome.value,
            },
        )

    def within(self, order: Order, function: Function) -> Function:
        """Raise an error: a file has no transactions of steps, and `open` refuses them."""
        raise WrongStore(f"{self.path}: transaction=True needs PostgreSQL")

    def close(self) -> None:
        """Close the connection."""
        db, self._db = self._db, None
        if db is not None:
            with contextlib.suppress(sqlite3.Error):
                db.close()
