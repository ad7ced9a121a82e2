"""Events for hooks, logs and metrics."""

from __future__ import annotations

import dataclasses
import json
import logging
import os
import re
from collections.abc import Callable
from typing import Any

from sagas.base.logger import ExceptionInfo, logger

_quoted: Callable[[str], str] = getattr(json.encoder, "encode_basestring")
PLAIN = re.compile(r'[^\s"=\\]+\Z')
PACKAGE_FOLDER = os.path.dirname(os.path.dirname(os.path.abspath(__file__))) + os.sep


@dataclasses.dataclass(frozen=True, slots=True)
class Event:
    """Tell a hook what happened, after it was committed.

    Attributes:
        name: One of the names on the page of events, for example `saga_started`, `step_retrying`
            (the attempt failed, another follows), `step_failed` (none follows), `step_exhausted`
            (a person decides) or `saga_stuck`.
        at: Wall time, in seconds since 1970.
        key: The saga's key, or None.
        saga: The saga's name, or None.
        step: The declared name of the step (`ship`, `hotel/room`), or None.
        index: The number of the step's item, or its key in a dict; None if it has none.
        undo: Whether it is the step's compensation.
        attempt: The attempt's number, from 1, or None.
        seconds: How long the function took; None if it was not called here. Of `saga_ended` and
            `saga_stuck`: how long the saga took, since its start.
        optional: Of `step_failed`: whether the saga continues without the step, because the step
            is optional, or an item that is collected.
        detail: What was raised or planned. Of `saga_ended`: the phase. Of `step_suspended`:
            `approval`, `wait` (for its time), `child` (for the end of its child saga), `retry`
            (for its next attempt beyond `tries`), `exhausted` (for a person), `unknown` (for its
            backoff, or a person), `cannot_decode` (for a program that can read what is stored),
            `no_definition` (for a node that has its definition) or `program_error` (for a program
            without the bug, or a person).
    """

    name: str
    at: float
    key: str | None = None
    saga: str | None = None
    step: str | None = None
    index: int | str | None = None
    undo: bool = False
    attempt: int | None = None
    seconds: float | None = None
    detail: str | None = None
    optional: bool = False


Hook = Callable[[Event], object]
LOGGED_FIELDS = ("key", "saga", "step", "index", "undo", "attempt", "optional", "detail")
"""The fields of a log line."""

LEVELS = {
    "step_retrying": logging.WARNING,
    "step_failed": logging.WARNING,
    "step_exhausted": logging.ERROR,
    "step_unknown": logging.WARNING,
    "step_overdue": logging.WARNING,
    "step_offered_again": logging.WARNING,
    "step_cannot_decode": logging.WARNING,
    "step_program_error": logging.ERROR,
    "step_no_definition": logging.WARNING,
    "plan_adopted": logging.INFO,
    "saga_aborted": logging.INFO,
    "saga_ended": logging.DEBUG,
    "saga_overdue": logging.WARNING,
    "saga_stuck": logging.ERROR,
    "saga_undo_failed": logging.ERROR,
    "saga_unused_report": logging.WARNING,
    "shards_pruned": logging.INFO,
    "sagas_pruned": logging.INFO,
    "audit_failed": logging.CRITICAL,
    "engine_died": logging.WARNING,
    "lease_expired": logging.WARNING,
    "shard_taken": logging.INFO,
    "shard_lost": logging.INFO,
    "shard_damaged": logging.ERROR,
    "commit_failed": logging.ERROR,
    "schedule_failed": logging.ERROR,
    "schedule_missed": logging.WARNING,
}


def quoted(value: object) -> str:
    """Return a field of a log line: unchanged if it is one plain word, else in quotes.

    So an event is one line, and its fields are separate.
    """
    text = str(value)
    if text.isprintable():
        return text if PLAIN.match(text) else _quoted(text)
    return "".join(
        character if character.isprintable() else json.dumps(character)[1:-1]
        for character in json.dumps(text, ensure_ascii=False)
    )


def exception_info(error: BaseException) -> ExceptionInfo:
    """Return an exception for the log, with a traceback that begins in the user's function."""
    trace = error.__traceback__
    while trace and trace.tb_next and trace.tb_frame.f_code.co_filename.startswith(PACKAGE_FOLDER):
        trace = trace.tb_next
    return type(error), error, trace


class EventEmitter:
    """Pass each event to the hook, and to the log `sagas` with its fields in `extra["sagas"]`."""

    def __init__(self, hook: Hook | None, clock: Callable[[], float]) -> None:
        self._hook, self._clock = hook, clock
        self.has_hook = hook is not None

    def is_wanted(self, name: str) -> bool:
        """Whether a hook or the log gets an event of this name; checked before frequent events."""
        return self.has_hook or logger.logger.isEnabledFor(LEVELS.get(name, logging.DEBUG))

    def emit(
        self,
        name: str,
        *,
        level: int | None = None,
        error: BaseException | None = None,
        **fields: Any,
    ) -> None:
        """Emit an event with its fields.

        Args:
            name: The event's name.
            level: The level in the log (default: that of `LEVELS`).
            error: An exception whose traceback is logged.
            fields: The fields of `Event`.
        """
        if not self.is_wanted(name):
            return
        at = self._clock()
        level = LEVELS.get(name, logging.DEBUG) if level is None else level
        if logger.logger.isEnabledFor(level):
            logged = {"name": name, "at": at, "undo": False, "optional": False, **fields}
            logged = {field: value for field, value in logged.items() if value is not None}
            parts = [
                f"{field}={quoted(logged[field])}"
                for field in LOGGED_FIELDS
                if logged.get(field) or (field == "index" and field in logged)
            ]
            logger.event(
                level, name, " ".join(parts), logged, exception_info(error) if error else None
            )
        if self._hook is not None:
            event = Event(name, at, **fields)
            try:
                self._hook(event)
            except Exception:  # a metric that fails must not stop a saga
                logger.exception("on_event raised at %s", name)
