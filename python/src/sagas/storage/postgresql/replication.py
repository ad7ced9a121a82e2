"""Connections that notice a commit which no synchronous standby has.

The server has no time limit for a commit that waits for a standby. If that wait is canceled, the
server reports a success, and only warns: the transaction is visible, and a standby that takes over
may not have it. These connections raise `NotReplicated` then.
"""

from __future__ import annotations

import asyncio
import contextlib
import os
import selectors
import socket
import weakref
from collections.abc import AsyncIterator, Callable, Coroutine
from typing import TYPE_CHECKING, Any, TypeVar, Union

import psycopg
from psycopg import errors, waiting

from sagas.storage.postgresql.server import SERVER

if TYPE_CHECKING:
    from psycopg.abc import PQGen

RV = TypeVar("RV")
Row = tuple[Any, ...]
CANCELED = SERVER.wait_canceled
"""The PostgreSQL function that warns.

The text of the warning is in the server's language.
"""
REPLICATED = f"SELECT {SERVER.replicated}"
"""A commit that changes nothing.

Once it is done, a synchronous standby has all that this connection could see.
"""


class NotReplicated(errors.OperationalError):
    """The transaction is committed, and no synchronous standby is known to have it."""

    def __init__(self) -> None:
        super().__init__(
            "the server committed it, but a synchronous standby may not have it, because the wait "
            "for the standby was canceled. Repeat the request"
        )


class StoreConnection(psycopg.AsyncConnection[Row]):
    """A connection of the store's own."""

    def __init__(self, *args: Any, **kwargs: Any) -> None:
        super().__init__(*args, **kwargs)
        self.warned = False
        _watch(self)

    async def wait(self, gen: PQGen[RV], *args: Any, **kwargs: Any) -> RV:
        """Check for the warning after each operation of psycopg."""
        value = await super().wait(gen, *args, **kwargs)
        check(self)
        return value


class PlainStoreConnection(psycopg.Connection[Row]):
    """A connection of the store's own, for threads.

    Attributes:
        patience: The seconds for which the server may be silent. If it is silent for longer, the
            connection is closed. So a thread does not wait for ever if a commit does.
    """

    patience: float | None = None

    def __init__(self, *args: Any, **kwargs: Any) -> None:
        super().__init__(*args, **kwargs)
        self.warned = False
        _watch(self)

    def wait(self, gen: PQGen[RV], *_: Any, **__: Any) -> RV:
        """Check for the warning after each operation of psycopg.

        Nothing is canceled on the server: see `limited`.
        """
        try:
            value = _result_of(gen, self.pgconn.socket, self.patience)
        except (KeyboardInterrupt, Silence):
            self.pgconn.finish()
            raise
        check(self)
        return value


class Silence(errors.OperationalError):
    """The server was silent for too long. It may yet do what it was asked."""


def _result_of(operation: PQGen[RV], socket_number: int, patience: float | None) -> RV:
    """Return the result of an operation of psycopg. Raises `Silence`."""
    try:
        wanted = next(operation)
        with selectors.DefaultSelector() as selector:
            selector.register(socket_number, wanted)
            while events := selector.select(patience):
                wanted = operation.send(waiting.Ready(events[0][1]))
                selector.modify(socket_number, wanted)
    except StopIteration as end:
        result: RV = end.value
        return result
    operation.close()
    raise Silence(f"no answer in {patience:g} s")


Connection = Union[StoreConnection, PlainStoreConnection]


def _watch(connection: Connection) -> None:
    """Note the warning.

    psycopg keeps the handler, so the handler does not keep the connection.
    """
    reference = weakref.ref(connection)

    def note(notice: errors.Diagnostic) -> None:
        watched = reference()
        if watched is not None and notice.source_function == CANCELED:
            watched.warned = True

    connection.add_notice_handler(note)


def check(connection: Connection) -> None:
    """Raise `NotReplicated` if the server has warned since the last call."""
    if connection.warned:
        connection.warned = False
        raise NotReplicated


def shut(connection: StoreConnection) -> None:
    """Shut the socket down, so that psycopg notices it.

    Its descriptor is not closed, so that no other file gets it before.
    """
    with contextlib.suppress(OSError, psycopg.Error):
        with socket.socket(fileno=os.dup(connection.pgconn.socket)) as end:
            end.shutdown(socket.SHUT_RDWR)


@contextlib.asynccontextmanager
async def limited(connection: StoreConnection, seconds: float) -> AsyncIterator[None]:
    """Cut the connection if the block takes longer. Raises `TimeoutError` then.

    Nothing is canceled on the server, as psycopg 3.2 does for a cancelled caller. A commit that
    waits for a standby must not become visible before the standby has it.
    """
    is_late = False

    def cut() -> None:
        nonlocal is_late
        is_late = True
        shut(connection)

    timer = asyncio.get_running_loop().call_later(seconds, cut)
    try:
        yield
    except errors.OperationalError as error:
        if is_late:
            raise TimeoutError(f"no answer in {seconds:g} s") from error
        raise
    finally:
        timer.cancel()


class Barrier:
    """Waits until the synchronous standbys have what is visible.

    One commit serves all callers that ask before it is sent.
    """

    def __init__(self, ask: Callable[[str], Coroutine[Any, Any, object]]) -> None:
        self._ask, self._sending = ask, asyncio.Lock()
        self._next: asyncio.Task[None] | None = None

    async def passed(self) -> None:
        """Wait for the standbys. Raises `StoreUnavailable`."""
        if self._next is None:
            self._next = asyncio.get_running_loop().create_task(self._pass())
            self._next.add_done_callback(lambda job: job.cancelled() or job.exception())
        await asyncio.shield(self._next)

    async def _pass(self) -> None:
        async with self._sending:
            self._next = None
            await self._ask(REPLICATED)
