"""Sagas by hand over PostgreSQL: a state machine in a table, without a coordinator.

It stores what a store has of a saga that completes: key, input, the current step, each result and
the end. It has no compensations, retries, plans, timeouts or idempotency keys.
"""

from __future__ import annotations

import asyncio
import json
import logging
import time
from collections.abc import Awaitable, Callable, Sequence
from typing import Any

import psycopg

TABLES = """
CREATE TABLE by_hand(
    id bigint PRIMARY KEY, key text NOT NULL UNIQUE, input text NOT NULL,
    step integer NOT NULL, phase text NOT NULL
) WITH (fillfactor = 70);
CREATE TABLE by_hand_result(
    saga bigint NOT NULL, step integer NOT NULL, value text, at double precision,
    PRIMARY KEY(saga, step)
);
"""
SETTINGS = (
    "SET enable_seqscan = off; SET enable_hashjoin = off; SET enable_mergejoin = off; SET jit = off"
)
OPEN = "INSERT INTO by_hand VALUES(%s, %s, %s, 0, 'going')"
DONE = """WITH r AS (INSERT INTO by_hand_result VALUES(%(id)s, %(step)s, %(value)s, %(at)s))
UPDATE by_hand SET step = %(step)s + 1, phase = %(phase)s WHERE id = %(id)s"""
MANY = """WITH a AS (
    INSERT INTO by_hand SELECT o.*, 0, 'going'
    FROM unnest(%s::bigint[], %s::text[], %s::text[]) AS o(id, key, input)
), b AS (
    INSERT INTO by_hand_result SELECT d.id, d.step, d.value, d.at
    FROM unnest(%s::bigint[], %s::int[], %s::text[], %s::float8[]) AS d(id, step, value, at)
)
UPDATE by_hand SET step = d.step + 1, phase = d.phase
FROM unnest(%s::bigint[], %s::int[], %s::text[]) AS d(id, step, phase) WHERE by_hand.id = d.id"""

Opened = tuple[int, str, str]
Done = tuple[int, int, str, float, str]
"""id, step, value, at, phase"""


def columns(rows: Sequence[Sequence[Any]], width: int) -> list[list[Any]]:
    """Return the columns of rows."""
    return [list(column) for column in zip(*rows)] if rows else [[] for _ in range(width)]


class Each:
    """A commit for each change of a state, over some connections."""

    def __init__(self, url: str, links: int = 16) -> None:
        self.url, self.count = url, links

    async def open(self) -> None:
        """Connect, and create the tables."""
        self.links: asyncio.Queue[psycopg.AsyncConnection[Any]] = asyncio.Queue()
        self.all = [
            await psycopg.AsyncConnection.connect(self.url, autocommit=True, prepare_threshold=2)
            for _ in range(self.count)
        ]
        await self.all[0].execute(TABLES)
        for link in self.all:
            await link.execute(SETTINGS)
            self.links.put_nowait(link)

    async def close(self) -> None:
        """Close the connections."""
        for link in self.all:
            await link.close()

    async def write(self, opened: Opened | None, done: Done | None) -> None:
        """Commit one change."""
        link = await self.links.get()
        if opened:
            await link.execute(OPEN, opened)
        if done:
            await link.execute(DONE, dict(zip(("id", "step", "value", "at", "phase"), done)))
        self.links.put_nowait(link)


class Shared(Each):
    """All changes that wait go into one commit."""

    def __init__(self, url: str) -> None:
        super().__init__(url, 1)
        self.queue: list[tuple[asyncio.Future[None], Opened | None, Done | None]] = []
        self.busy = False

    async def write(self, opened: Opened | None, done: Done | None) -> None:
        """Commit one change, with those of other sagas."""
        future = asyncio.get_running_loop().create_future()
        self.queue.append((future, opened, done))
        if not self.busy:
            self.busy = True
            self.job = asyncio.get_running_loop().create_task(self._drain())
        await future

    async def _drain(self) -> None:
        while self.queue:
            batch, self.queue = self.queue, []
            opened = [change for _, change, _ in batch if change]
            done = [change for _, _, change in batch if change]
            ends = [(id, step, phase) for id, step, _, _, phase in done]
            await self.all[0].execute(
                MANY,
                (*columns(opened, 3), *columns([row[:4] for row in done], 4), *columns(ends, 3)),
            )
            for future, _, _ in batch:
                future.set_result(None)
        self.busy = False


UNDONE = 1000
"""The number of the row that undoes step 0. A step that fails has such a row too."""


class Machine:
    """Run the steps of a saga one after another.

    If a step raises `LookupError`, the steps before it are undone in reverse order, each with its
    own change, by a call of the first step's function. A line of the log reports the failure.
    """

    def __init__(self, store: Each, steps: Sequence[Callable[[Any], Awaitable[Any]]]) -> None:
        self.store, self.steps, self.next = store, steps, 0

    async def run(self, key: str, saga_input: Any) -> None:
        """Run a saga from its start to its end."""
        id, self.next = self.next, self.next + 1
        await self.store.write((id, key, json.dumps(saga_input)), None)
        for number, step in enumerate(self.steps):
            try:
                value = await step(saga_input)
            except LookupError as error:
                logging.getLogger("by hand").warning(
                    "step_failed key=%s step=%d detail=%r", key, number, error
                )
                await self._back(id, number, saga_input)
                return
            await self.store.write(
                None,
                (
                    id,
                    number,
                    json.dumps(value),
                    time.time(),
                    "ended" if number == len(self.steps) - 1 else "going",
                ),
            )

    async def _back(self, id: int, failed: int, saga_input: Any) -> None:
        await self.store.write(None, (id, UNDONE + failed, "null", time.time(), "undoing"))
        for number in reversed(range(failed)):
            await self.steps[0](saga_input)
            await self.store.write(
                None, (id, UNDONE + number, "null", time.time(), "undoing" if number else "ended")
            )
