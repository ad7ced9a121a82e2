"""A report that cannot be written is dropped, and its message is acknowledged."""

from __future__ import annotations

import contextlib
from typing import Any

from celery.exceptions import Reject

from sagas.celery.worker import Work

FINDS = "report-lost"
STRIKES = "store"


def apply() -> None:
    """Take each message for done."""
    right = Work.perform

    def perform(self: Work, message: dict[str, Any]) -> None:
        with contextlib.suppress(Reject):
            right(self, message)

    setattr(Work, "perform", perform)
