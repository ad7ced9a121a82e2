"""Commands to many sagas, for example to all of a filter: at most 1,000 per transaction.

A command is stored for each saga, as a command to one saga is (`operator_requests`). The program
that drives the saga executes it, or a later program does. If a batch is interrupted, its last
transaction is complete, or the next one has not started. The same abort can be repeated, and
continues with the rest.
"""

from __future__ import annotations

import dataclasses
import functools
import json
import threading
import time
from collections.abc import Callable, Iterator, Sequence
from typing import Any, Optional, TypeVar

from sagas.base.pauses import doubling_pauses
from sagas.core.decisions import request_fields, request_text
from sagas.definition.serialization import clean
from sagas.storage.admin import Row, Source
from sagas.storage.filters import Filter
from sagas.storage.operator_requests import reason
from sagas.storage.queries import PHASES, RESOLVABLE, RESOLVE, NOT_ABORTED, UNDOING_KEYS

T = TypeVar("T")
MAX_SAGAS = 1000
"""Maximum number of sagas per transaction."""
LOOK = 0.02, 0.25
"""Seconds between two polls for answers: the first pause, and the longest."""
ABORTABLE = f"""{PHASES["open"]} AND NOT {NOT_ABORTED} AND NOT EXISTS (
SELECT 1 FROM operator_commands r
WHERE r.key = s.key AND r.command = 'abort' AND (r.answer IS NULL OR r.answer = 'true'))"""
"""The sagas that are open, that are aborted by themselves, and that no command has aborted."""
UNDOING = f"{PHASES['open']} AND {NOT_ABORTED}"
TO_RESOLVE = f"{RESOLVABLE} AND note IS NULL"
NOTED = """
INSERT INTO operator_commands(key, command, value, at, answer) VALUES(?, 'resolve', ?, ?, 'true')
"""


@dataclasses.dataclass(slots=True)
class BatchResult:
    """The result of a command to many sagas.

    Attributes:
        done: The keys of the sagas for which it is executed.
        refused: Why it was refused, by key.
        waiting: The keys of the sagas without an answer: their program will execute it later.
        undoing: The keys of the sagas that an abort left out, because each undoes a child or calls
            `on_end`.
        warnings: What may be misspelled, if the filter selects nothing: labels that no saga
            has.
        unavailable: Why nothing was done in a database, by its name, if the store has several.
    """

    done: list[str] = dataclasses.field(default_factory=list)
    refused: dict[str, str] = dataclasses.field(default_factory=dict)
    waiting: list[str] = dataclasses.field(default_factory=list)
    undoing: list[str] = dataclasses.field(default_factory=list)
    warnings: list[str] = dataclasses.field(default_factory=list)
    unavailable: dict[str, str] = dataclasses.field(default_factory=dict)


def resolve_one(connection: Source, key: str, note: str, by: str | None = None) -> bool:
    """Mark one saga as resolved, in a transaction of the caller.

    Return False if the saga is not one that waits for this.
    """
    if not connection.changed(RESOLVE, note, key):
        return False
    connection.changed(NOTED, key, request_text(request_fields(by, clean(note))), connection.now())
    return True


class Batch:
    """A command to the sagas of a filter, over its own connection. For a thread."""

    def __init__(
        self, connection: Source, filter: Filter, stop: threading.Event | None = None
    ) -> None:
        self._connection, self._filter, self._stop = connection, filter, stop or threading.Event()
        self._result = BatchResult()

    def abort_count(self) -> int:
        """Return how many sagas `abort` would abort now."""
        waiting = len(self._connection.waiting_starts(self._filter))
        return self._count(ABORTABLE, UNDOING_KEYS) + waiting

    def undoing_count(self) -> int:
        """Return how many sagas `abort` would leave out, because they undo children."""
        return self._count(UNDOING, UNDOING_KEYS)

    def resolve_count(self) -> int:
        """Return how many sagas `resolve` would mark now."""
        return self._count(TO_RESOLVE)

    def abort(self, command: dict[str, Any] | None, timeout: float | None = None) -> BatchResult:
        """Request to abort the sagas, and wait for the answers.

        Args:
            command: What is stored of the command.
            timeout: Maximum number of seconds to wait for the answers. With None, wait as long
                as a program has the store open.
        """
        value, after = request_text(command), -1
        for key in self._connection.waiting_starts(self._filter):
            if self._connection.withdraw(key):
                self._result.done.append(key)
        until = None if timeout is None else time.monotonic() + timeout
        while not self._stop.is_set():
            rows, requests = self._connection.atomically(
                functools.partial(self._request_aborts, after, value)
            )
            if not rows:
                break
            after = rows[-1][0]
            self._connection.notify("requests")
            self._result.waiting += self._await(requests, until, self._answered).values()
        self._result.undoing += self._undoing()
        return self._result

    def _request_aborts(self, after: int, value: str) -> tuple[Sequence[Row], dict[int, str]]:
        """Add requests to the next sagas; return these, and the keys of the requests."""
        rows = self._next_rows(ABORTABLE, after, UNDOING_KEYS)
        left = [(self._connection.add_request(id, "abort", value), key) for id, key in rows]
        return rows, {number: key for number, key in left if number is not None}

    def _undoing(self) -> Iterator[str]:
        """Return the keys of the sagas that `abort` leaves out."""
        after = -1
        while not self._stop.is_set() and (rows := self._next_rows(UNDOING, after, UNDOING_KEYS)):
            yield from (key for _, key in rows)
            after = rows[-1][0]

    def ask(self, command: str, values: Sequence[tuple[int, Any]], timeout: float) -> list[Any]:
        """Send a request to each of some sagas, and then wait for all answers.

        Args:
            command: The command.
            values: The ids of the sagas, each with what is stored of the command.
            timeout: Maximum number of seconds to wait for all answers.

        Returns:
            The answers, in the same order: None if an answer is missing, and False if the saga
                does not exist any more.
        """
        answers: list[Any] = [None] * len(values)
        requests_of_batches: list[dict[int, int]] = []
        for first in range(0, len(values), MAX_SAGAS):
            batch = values[first : first + MAX_SAGAS]
            numbers = self._connection.atomically(
                functools.partial(self._add_requests, command, batch)
            )
            requests_of_batches.append({})
            for index, number in enumerate(numbers, first):
                if number is None:
                    answers[index] = False
                else:
                    requests_of_batches[-1][number] = index
            self._connection.notify("requests")
        until = time.monotonic() + timeout
        for requests in requests_of_batches:
            self._await(requests, until, answers.__setitem__)
        return answers

    def _add_requests(self, command: str, values: Sequence[tuple[int, Any]]) -> list[Optional[int]]:
        """Return the number of each request; None if the saga does not exist."""
        return [
            self._connection.add_request(id, command, request_text(value)) for id, value in values
        ]

    def resolve(self, note: str, by: str | None) -> BatchResult:
        """Mark the sagas as resolved.

        Args:
            note: What was done about them.
            by: The operator who did it.
        """
        while not self._stop.is_set():
            keys = self._connection.atomically(lambda: self._resolve_next(note, by))
            if not keys:
                break
            self._result.done += keys
        return self._result

    def _resolve_next(self, note: str, by: str | None) -> list[str]:
        """Mark the next sagas as resolved; return their keys."""
        keys = [str(key) for _, key in self._next_rows(TO_RESOLVE, -1)]
        for key in keys:
            resolve_one(self._connection, key, note, by)
        return keys

    def _count(self, condition: str, *condition_parameters: Any) -> int:
        matches, parameters = self._filter.condition()
        query = f"SELECT count(*) FROM sagas s WHERE {condition} AND {matches}"
        return int(self._connection.ask(query, *condition_parameters, *parameters)[0][0])

    def _next_rows(self, condition: str, after: int, *condition_parameters: Any) -> Sequence[Row]:
        """Return the next sagas of the filter. `condition_parameters`: those of the condition."""
        matches, parameters = self._filter.condition()
        query = f"""SELECT id, key FROM sagas s WHERE {condition} AND {matches} AND id > ?
        ORDER BY id LIMIT {MAX_SAGAS}"""
        return self._connection.ask(query, *condition_parameters, *parameters, after)

    def _await(
        self, requests: dict[int, T], until: float | None, answered: Callable[[T, Any], None]
    ) -> dict[int, T]:
        """Wait for answers, and return the requests that have none.

        It stops when no program has the store open, and at the deadline. If a request does not
        exist any more, its answer is False.
        """
        pauses = doubling_pauses(*LOOK)
        while requests and not self._stop.is_set():
            marks = ", ".join("?" * len(requests))
            query = f"SELECT id, answer FROM operator_commands WHERE id IN ({marks})"
            rows = {number: answer for number, answer in self._connection.ask(query, *requests)}
            for number, item in list(requests.items()):
                if number not in rows or rows[number] is not None:
                    answered(item, json.loads(rows.get(number) or "false"))
                    del requests[number]
            is_late = until is not None and time.monotonic() >= until
            if not requests or is_late or not self._connection.is_driven():
                break
            self._stop.wait(next(pauses))
        return requests

    def _answered(self, key: str, answer: Any) -> None:
        if answer is True:
            self._result.done.append(key)
        else:
            error = (
                reason(answer)
                if isinstance(answer, dict)
                else "it has ended, or was aborted before"
            )
            self._result.refused[key] = error
