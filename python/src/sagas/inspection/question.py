"""A question as a generator of statements, independent of how it is executed.

A question yields the queries that it needs, is sent their rows, and returns its answer. So one
question serves a program with threads and one with an event loop, over either database.
"""

from __future__ import annotations

import dataclasses
from collections.abc import Awaitable, Callable, Generator
from typing import Any, TypeVar

from sagas.storage.interface import Reader

T = TypeVar("T")
Row = tuple[Any, ...]


@dataclasses.dataclass(frozen=True, slots=True)
class Query:
    """A query in the common dialect of SQLite and PostgreSQL, with `?` for each parameter.

    `is_long`: the result may have many megabytes, so an event loop must not wait for it.
    """

    text: str
    parameters: tuple[Any, ...] = ()
    is_long: bool = False


Question = Generator[Query, list[Row], T]


class StoreReader:
    """Answers questions over a read-only connection. Only one thread at a time may use it."""

    def __init__(self, reader: Reader) -> None:
        self._reader = reader

    def ask(self, question: Question[T]) -> T:
        """Return the answer to a question.

        Raises:
            StoreUnavailable: The database does not answer.
        """
        try:
            query = next(question)
            while True:
                query = question.send(self._reader.rows(query.text, *query.parameters))
        except StopIteration as end:
            answer: T = end.value
            return answer

    def close(self) -> None:
        """Close the connection."""
        self._reader.close()


Read = Callable[..., Awaitable[list[Row]]]


class AsyncStoreReader:
    """Answers questions in an event loop. `read_long` executes queries with large results."""

    def __init__(self, read: Read, read_long: Read) -> None:
        self._read, self._read_long = read, read_long

    async def ask(self, question: Question[T]) -> T:
        """Return the answer to a question. Raises the same errors as `StoreReader.ask`."""
        try:
            query = next(question)
            while True:
                read = self._read_long if query.is_long else self._read
                query = question.send(await read(query.text, *query.parameters))
        except StopIteration as end:
            answer: T = end.value
            return answer
