"""The package log: an exception in a handler never reaches a saga."""

from __future__ import annotations

import contextlib
import logging
import sys
import traceback
from collections.abc import MutableMapping
from types import TracebackType
from typing import Any

ExceptionInfo = tuple[type[BaseException], BaseException, "TracebackType | None"]
"""An exception for a log, with the traceback that is shown."""


class GuardedLogger(logging.LoggerAdapter[logging.Logger]):
    """A logger whose handlers' exceptions go to standard error, if possible."""

    def process(
        self, msg: Any, kwargs: MutableMapping[str, Any]
    ) -> tuple[Any, MutableMapping[str, Any]]:
        """Return the message unchanged."""
        return msg, kwargs

    def log(self, level: int, msg: object, *args: object, **kwargs: Any) -> None:
        """Log a message, as `logging.Logger.log`."""
        try:
            super().log(level, msg, *args, stacklevel=2, **kwargs)
        except Exception:
            _print_handler_error()

    def event(
        self,
        level: int,
        name: str,
        text: str,
        logged_fields: dict[str, Any],
        error: ExceptionInfo | None,
    ) -> None:
        """Log an event with its fields, as `log` would.

        The location of each record is this function, since a lookup of the caller is slow.
        """
        inner = self.logger
        try:
            record = inner.makeRecord(
                inner.name,
                level,
                __file__,
                0,
                "%s %s",
                (name, text),
                error,
                "event",
                {"sagas": logged_fields},
            )
            inner.handle(record)
        except Exception:
            _print_handler_error()


def _print_handler_error() -> None:
    """Print the exception of a handler to standard error."""
    with contextlib.suppress(Exception):
        print(
            f"sagas: a handler or a filter of the log raised:\n{traceback.format_exc()}",
            end="",
            file=sys.stderr,
        )


logger = GuardedLogger(logging.getLogger("sagas"), {})
