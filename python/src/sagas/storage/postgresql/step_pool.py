"""The pool of connections of transactional steps.

A caller gets an idle connection at once, else the next one that is free or made.

It is not psycopg_pool, for three reasons. psycopg_pool loses the connection that arrives for a
cancelled caller, such as a step's function. It returns connections that broke while they were idle
(both in 3.1). And it takes the loop several turns for each connection.
"""

from __future__ import annotations

import asyncio
import contextlib
import enum
import threading
import time
from collections import deque
from typing import TypeVar

import psycopg
from psycopg import errors, pq
from psycopg.rows import tuple_row

from sagas.base.pauses import doubling_pauses
from sagas.storage.postgresql import connections
from sagas.storage.postgresql.application_name import Purpose
from sagas.storage.postgresql.step_connections import (
    AsyncStepLink,
    Prepares,
    StepLink,
    converted,
    is_as_made,
)

L = TypeVar("L", AsyncStepLink, StepLink)
REST = 600.0
"""Seconds that a connection may be idle before it is closed."""
AGAIN = 0.1, 2.0
"""Seconds between two attempts to connect: the first pause, and the longest."""
NONE_FREE = f"no connection for a step in {connections.PATIENCE:g} s"
CLOSED = "the store is closed"
BROKE = "the connection broke before the function asked for it"


def is_good(connection: AsyncStepLink | StepLink) -> bool:
    """Whether it may be used again."""
    is_open = not (connection.closed or connection.spent) and is_as_made(connection)
    return is_open and connection.pgconn.transaction_status == pq.TransactionStatus.IDLE


class Pool:
    """The connections of a node's functions in the loop, and in threads with a `Loan`.

    A connection is made while a caller waits and there are fewer than `max_size`: one at a time. An
    idle connection is for either kind of function: it is converted into the other kind of object.

    A function in the loop that may want a connection reserves one. It stays idle until it is
    wanted. The loop watches idle connections, so that one that breaks is dropped before a caller
    gets it. Those of functions in threads are checked when they are taken.
    """

    def __init__(self, url: str, max_size: int, prepares: Prepares | None = None) -> None:
        self._url, self._max_size, self._count, self._prepares = url, max_size, 0, prepares
        self._reserved = 0  # number of idle connections that are reserved
        self._idle: list[tuple[AsyncStepLink, float]] = []  # with the time; the newest is last
        self._idle_for_threads: list[tuple[StepLink, float]] = []
        self._waiting: deque[asyncio.Future[AsyncStepLink | StepLink]] = deque()
        self._connecting: asyncio.Task[None] | None = None
        self._failure: Exception | None = None
        self._drops: set[asyncio.Task[None]] = set()
        self._is_over = False

    def has_idle(self) -> bool:
        """Whether there is an idle connection that is not reserved."""
        return len(self._idle) + len(self._idle_for_threads) > self._reserved

    async def reserve(self) -> Reservation:
        """Reserve a connection, at once if there is an idle one.

        Raises:
            psycopg.OperationalError: It takes too long.
        """
        if not self.has_idle():
            self._add_idle(await self.acquire())
        return self.reserve_now()

    def reserve_now(self) -> Reservation:
        """Reserve an idle connection (`has_idle`)."""
        self._reserved += 1
        return Reservation(self)

    def acquire_reserved(self) -> AsyncStepLink:
        """Return the one that was reserved (`Reservation.acquire`)."""
        connection = self._next_idle()
        if connection is None:
            raise errors.OperationalError(BROKE)
        self._reserved -= 1
        return connection

    def release_reserved(self) -> None:
        """Release the one that was reserved (`Reservation.release`)."""
        self._reserved -= 1
        if self._waiting and (connection := self.try_acquire()):
            self.release(connection)

    def acquire_now(self) -> AsyncStepLink:
        """Return an idle connection.

        Raises:
            psycopg.OperationalError: All idle connections are broken.
        """
        connection = self.try_acquire()
        if connection is None:
            raise errors.OperationalError(BROKE)
        return connection

    def try_acquire(self) -> AsyncStepLink | None:
        """Return an idle connection that is not reserved, if there is one."""
        return self._next_idle() if self.has_idle() else None

    def _next_idle(self) -> AsyncStepLink | None:
        connection = self._last(self._idle)
        if connection is None and (plain := self._last(self._idle_for_threads)) is not None:
            connection = converted(plain, AsyncStepLink)
        return connection

    def _next_idle_for_thread(self) -> StepLink | None:
        if not self.has_idle():
            return None
        plain = self._last(self._idle_for_threads)
        if plain is None and (connection := self._last(self._idle)) is not None:
            plain = converted(connection, StepLink)
        return plain

    def _last(self, idle: list[tuple[L, float]]) -> L | None:
        """Return the connection that was used last, of those that are not broken."""
        while idle:
            connection, _ = idle.pop()
            if connection.is_there():
                return connection
            self._drop(connection)
        return None

    def _add_idle(self, connection: AsyncStepLink | StepLink) -> None:
        if isinstance(connection, StepLink):
            self._idle_for_threads.append((connection, time.monotonic()))
            return
        connection.heard = self._heard
        connection.watch()
        self._idle.append((connection, time.monotonic()))

    def _heard(self, connection: AsyncStepLink) -> None:
        """Drop an idle connection if it broke, and watch it otherwise."""
        index = next(
            (index for index, (resting, _) in enumerate(self._idle) if resting is connection), None
        )
        if index is not None and connection.is_there():
            connection.watch()
        elif index is not None:
            del self._idle[index]
            self._drop(connection)

    async def acquire(self) -> AsyncStepLink:
        """Return a connection, as soon as there is one.

        Raises:
            psycopg.OperationalError: It takes too long.
        """
        return self.try_acquire() or converted(await self._next(), AsyncStepLink)

    async def lend(self) -> Loan:
        """As `acquire`, for a function in a thread."""
        return Loan(self, self._next_idle_for_thread() or converted(await self._next(), StepLink))

    async def _next(self) -> AsyncStepLink | StepLink:
        """Return the next connection that is made or released."""
        if self._is_over:
            raise errors.OperationalError(CLOSED)
        loop = asyncio.get_running_loop()
        future: asyncio.Future[AsyncStepLink | StepLink] = loop.create_future()
        self._waiting.append(future)
        self._grow()
        try:
            async with asyncio.timeout(connections.PATIENCE):
                return await future
        except BaseException as error:
            with contextlib.suppress(ValueError):
                self._waiting.remove(future)
            # the connection arrived together with the error
            if future.done() and not future.cancelled() and not future.exception():
                self.release(future.result())
            if isinstance(error, TimeoutError):
                raise errors.OperationalError(NONE_FREE) from self._failure
            raise

    def release(self, connection: AsyncStepLink | StepLink) -> None:
        """Take back a connection that is not used any more."""
        connection.row_factory = tuple_row  # the default
        if self._is_over or not is_good(connection):
            self._drop(connection)
            return
        while self._waiting:
            future = self._waiting.popleft()
            if not future.done():
                future.set_result(connection)
                return
        self._add_idle(connection)

    def look(self, rest: float = REST) -> None:
        """Close the connections that were idle for this time."""
        self._close_resting(self._idle_for_threads, rest)
        self._close_resting(self._idle, rest)

    def _close_resting(self, idle: list[tuple[L, float]], rest: float) -> None:
        while idle and self.has_idle() and time.monotonic() - idle[0][1] >= rest:
            connection, _ = idle.pop(0)
            self._drop(connection)

    def _drop(self, connection: AsyncStepLink | StepLink) -> None:
        """Close a connection. It is counted until then."""
        job = asyncio.get_running_loop().create_task(_close(connection))
        self._drops.add(job)
        job.add_done_callback(self._dropped)

    def _dropped(self, job: asyncio.Task[None]) -> None:
        self._drops.discard(job)
        self._count -= 1
        self._grow()

    def _grow(self) -> None:
        if (
            self._waiting
            and self._count < self._max_size
            and self._connecting is None
            and not self._is_over
        ):
            self._count += 1
            self._connecting = asyncio.get_running_loop().create_task(self._connect())

    async def _connect(self) -> None:
        connection: AsyncStepLink | None = None
        pauses = doubling_pauses(*AGAIN)
        try:
            while connection is None and self._waiting:
                try:
                    made = await AsyncStepLink.connect(connections.address(self._url, Purpose.STEP))
                    assert isinstance(made, AsyncStepLink)
                    if self._prepares and self._prepares.works:
                        await made.prepare(self._prepares)
                    connection = made
                except connections.CLIENT_ERRORS as error:
                    self._failure = error
                    await asyncio.sleep(next(pauses))
        finally:
            self._connecting = None
            if connection is None:
                self._count -= 1
        if connection is not None:
            self.release(connection)
        self._grow()

    async def close(self) -> None:
        """Close all connections. Callers that wait get an error."""
        self._is_over = True
        if self._connecting:
            self._connecting.cancel()
            await asyncio.wait([self._connecting])
        while self._waiting:
            future = self._waiting.popleft()
            if not future.done():
                future.set_exception(errors.OperationalError(CLOSED))
        while self._idle:
            self._drop(self._idle.pop()[0])
        while self._idle_for_threads:
            self._drop(self._idle_for_threads.pop()[0])
        if self._drops:
            await asyncio.wait(list(self._drops))


async def _close(connection: AsyncStepLink | StepLink) -> None:
    with contextlib.suppress(psycopg.Error):
        if isinstance(connection, StepLink):
            connection.close()
        else:
            await connection.close()


class Reservation:
    """An idle connection that is kept for one function. It is used once."""

    def __init__(self, pool: Pool) -> None:
        self._pool = pool

    def acquire(self) -> AsyncStepLink:
        """Return the connection.

        Raises:
            psycopg.OperationalError: All idle connections are broken.
        """
        return self._pool.acquire_reserved()

    def release(self) -> None:
        """Release the connection without use."""
        self._pool.release_reserved()


class LoanState(enum.Enum):
    """The state of a loan."""

    WAITS = "waits"
    """The function has not started."""
    HELD = "held"
    OVER = "over"
    LEFT = "left"
    """No caller waits for the function any more."""


class Loan:
    """A connection for a function in a thread. It is released once.

    That is when the caller of the function continues (`leave`), or at the end of the function, if
    that is later (`end`).
    """

    def __init__(self, pool: Pool, connection: StepLink) -> None:
        self._pool, self._connection, self._state = pool, connection, LoanState.WAITS
        self._loop, self._lock = asyncio.get_running_loop(), threading.Lock()

    def begin(self) -> StepLink:
        """Begin the function, in its thread.

        Raises `psycopg.OperationalError` if it is too late.
        """
        with self._lock:
            if self._state is not LoanState.WAITS:
                raise errors.OperationalError(CLOSED)
            self._state = LoanState.HELD
        return self._connection

    def end(self) -> None:
        """End the function, in its thread."""
        with self._lock:
            is_left, self._state = self._state is LoanState.LEFT, LoanState.OVER
        if is_left:
            try:
                self._loop.call_soon_threadsafe(self._pool.release, self._connection)
            except RuntimeError:  # the loop is closed
                self._connection.close()

    def leave(self) -> None:
        """Continue in the loop: the function is over, or no caller waits for it."""
        with self._lock:
            is_held, self._state = self._state is LoanState.HELD, LoanState.LEFT
        if not is_held:
            self._pool.release(self._connection)
