"""A connection that repeats prepared statements through libpq.

It is for the few statements that a node repeats all the time: each is prepared once, and then
executed by libpq, which psycopg exposes.

A cursor of psycopg handles each statement, each parameter and each row again. That takes about four
times as much processor time as the rest.
"""

from __future__ import annotations

import asyncio
import contextlib
from collections import deque
from collections.abc import Callable, Iterable, Sequence
from typing import TYPE_CHECKING, Optional

from psycopg import errors, pq

from sagas.storage.postgresql import conflicts, connections
from sagas.storage.postgresql.application_name import Purpose
from sagas.storage.postgresql.replication import NotReplicated

if TYPE_CHECKING:
    from psycopg.pq.abc import PGresult

Parameters = Sequence[Optional[bytes]]
"""The values of $1 and so on, in PostgreSQL's text format."""
Values = tuple[Optional[bytes], ...]
"""The values of a row, in PostgreSQL's text format."""
ReplyCallback = Callable[[list[Values], Optional[Exception]], object]
"""Called with the rows, or with the error."""
MAX_PREPARED = 96
"""Maximum number of prepared statements: each takes the server about 270 kB."""
GOOD = (pq.ExecStatus.TUPLES_OK, pq.ExecStatus.COMMAND_OK)


Job = tuple[str, Parameters, ReplyCallback]
"""A statement that is being executed or waits, its parameters, and its callback."""


class Wire:
    """Executes one statement at a time, and calls the callback in the loop.

    If the connection breaks, or a reply is late, the connection is closed.
    """

    def __init__(
        self,
        connection: connections.Link,
        on_notification: Callable[[str], object] | None = None,
        patience: float | None = None,
    ) -> None:
        """Take over a connection.

        Args:
            connection: The connection.
            on_notification: Called with each notification of a channel on which the connection
                listens.
            patience: Maximum number of seconds for a reply (default: `connections.PATIENCE`).
        """
        self._connection, self._pgconn, self._heard = connection, connection.pgconn, on_notification
        self._patience = connections.PATIENCE if patience is None else patience
        self._loop = asyncio.get_running_loop()
        self._fd = self._pgconn.socket
        self._names: dict[str, bytes] = {}
        self._jobs: deque[Job] = deque()
        self._preparing: bytes | None = None
        self._is_deallocating = False  # all prepared statements, before the next one
        self._result: PGresult | None = None
        self._is_full = False  # the socket accepts no more bytes now
        # one timer for all statements, which checks `_until`
        self._timer: asyncio.TimerHandle | None = None
        self._until = 0.0
        self._conflict: tuple[Job, int] | None = None
        self.closed = False
        self.gone = asyncio.Event()
        """Set when it is closed."""
        self._loop.add_reader(self._fd, self._readable)

    def ask(self, text: str, parameters: Parameters, then: ReplyCallback) -> None:
        """Execute a statement after those before.

        `then` gets the rows, an error of psycopg, or a `TimeoutError`.
        """
        self._jobs.append((text, parameters, then))
        if self.closed:
            self._loop.call_soon(
                self._fail_all, errors.OperationalError("the connection is closed")
            )
        elif len(self._jobs) == 1:
            self._begin_next()

    async def rows(self, text: str, *parameters: bytes | None) -> list[Values]:
        """Return a statement's rows.

        If the caller is cancelled, the statement continues to its end.
        """
        future: asyncio.Future[list[Values]] = self._loop.create_future()

        def then(rows: list[Values], failure: Exception | None) -> None:
            if not future.done():
                future.set_exception(failure) if failure else future.set_result(rows)

        self.ask(text, parameters, then)
        return await future

    async def rest(self) -> None:
        """Wait until all statements so far have ended."""
        if not self._jobs:
            return
        future: asyncio.Future[None] = self._loop.create_future()
        text, parameters, then = self._jobs[-1]

        def last(rows: list[Values], failure: Exception | None) -> None:
            then(rows, failure)
            if not future.done():
                future.set_result(None)

        self._jobs[-1] = text, parameters, last
        await future

    def close(self) -> None:
        """Close it. The outcome of the statement under way is unknown."""
        self._break(errors.OperationalError("the connection is closed"))

    # -- sending

    def _begin_next(self) -> None:
        """Begin the next statement, whose timeout starts now."""
        self._until = self._loop.time() + self._patience
        if self._timer is None:
            self._timer = self._loop.call_at(self._until, self._look)
        self._begin()

    def _begin(self) -> None:
        text, parameters, _ = self._jobs[0]
        try:
            name = self._names.get(text)
            if name is None and len(self._names) >= MAX_PREPARED:
                self._is_deallocating = True
                self._pgconn.send_query(b"DEALLOCATE ALL")
            elif name is None:
                self._preparing = b"sagas%d" % len(self._names)
                self._pgconn.send_prepare(self._preparing, text.encode())
            else:
                self._pgconn.send_query_prepared(name, parameters)
            self._flush()
        except Exception as error:
            self._loop.call_soon(self._break, error)

    def _flush(self) -> None:
        is_full = self._pgconn.flush() == 1
        if is_full != self._is_full:
            self._is_full = is_full
            if is_full:
                self._loop.add_writer(self._fd, self._writable)
            else:
                self._loop.remove_writer(self._fd)

    def _writable(self) -> None:
        try:
            self._flush()
        except Exception as error:
            self._break(error)

    # -- receiving

    def _readable(self) -> None:
        try:
            is_over = self._receive()
        except Exception as error:
            self._break(error)
            return
        if is_over:
            self._over()

    def _receive(self) -> bool:
        """Return whether the server's reply to the last statement is complete."""
        self._pgconn.consume_input()
        while self._heard and (notification := self._pgconn.notifies()):
            self._loop.call_soon(self._heard, notification.extra.decode())
        while self._jobs and not self._pgconn.is_busy():
            result = self._pgconn.get_result()
            if result is None:
                return True
            self._result = result
        return False

    def _over(self) -> None:
        result, self._result = self._result, None
        preparing, self._preparing = self._preparing, None
        assert result
        failure = None if result.status in GOOD else errors.error_from_result(result)
        if failure is not None and conflicts.is_conflict(failure) and self._repeats():
            return
        if failure is None and self._connection.warned:
            self._connection.warned, failure = False, NotReplicated()
        is_deallocating, self._is_deallocating = self._is_deallocating, False
        if is_deallocating and not failure:
            self._names.clear()
            self._begin()
            return
        if preparing and not failure:
            self._names[self._jobs[0][0]] = preparing
            self._begin()
            return
        _, _, then = self._jobs.popleft()
        rows = [] if failure else read(result)
        if self._jobs:
            self._begin_next()
        then(rows, failure)

    # -- errors

    def _repeats(self) -> bool:
        """Whether the statement is repeated, after a conflict that has rolled it back."""
        job, turn = self._jobs[0], 0
        if self._conflict is not None and self._conflict[0] is job:
            turn = self._conflict[1] + 1
        if turn >= conflicts.MAX_TURNS:
            return False
        self._conflict = job, turn
        self._loop.call_later(conflicts.pause_before(turn), self._repeat, job)
        return True

    def _repeat(self, job: Job) -> None:
        if self._jobs and self._jobs[0] is job and not self.closed:
            self._begin()

    def _look(self) -> None:
        """Check whether the statement under way is late."""
        self._timer = None
        if self._jobs and self._loop.time() >= self._until:
            self._break(TimeoutError(f"no answer in {self._patience:g} s"))
        elif self._jobs:
            self._timer = self._loop.call_at(self._until, self._look)

    def _break(self, error: Exception) -> None:
        """Close the connection after an error."""
        if not self.closed:
            self.closed = True
            self.gone.set()
            self._loop.remove_reader(self._fd)
            if self._is_full:
                self._loop.remove_writer(self._fd)
            if self._timer:
                self._timer.cancel()
            self._pgconn.finish()
        self._fail_all(error)

    def _fail_all(self, error: Exception) -> None:
        jobs, self._jobs = self._jobs, deque()
        for _, _, then in jobs:
            then([], error)


LOCAL = (
    "SELECT set_config('search_path', 'sagas', true), set_config('jit', 'off', true), "
    "set_config('enable_seqscan', 'off', true), set_config('enable_hashjoin', 'off', true), "
    "set_config('enable_mergejoin', 'off', true), set_config('synchronous_commit', CASE WHEN "
    "current_setting('synchronous_commit') IN ('off', 'local') THEN 'on' "
    "ELSE current_setting('synchronous_commit') END, true), "
    f"set_config('statement_timeout', '{int(connections.PATIENCE)}s', true)"
).encode()
"""The settings of one transaction, over a pooler of transactions."""


class PooledWire(Wire):
    """A wire over a pooler of transactions: nothing is prepared, and nothing remains set.

    The settings and the statement are sent together, as one transaction.
    """

    def _begin(self) -> None:
        text, parameters, _ = self._jobs[0]
        try:
            if self._pgconn.pipeline_status == pq.PipelineStatus.OFF:
                self._pgconn.enter_pipeline_mode()
            self._pgconn.send_query_params(LOCAL, None)
            self._pgconn.send_query_params(text.encode(), parameters)
            self._pgconn.pipeline_sync()
            self._flush()
        except Exception as error:
            self._loop.call_soon(self._break, error)

    def _receive(self) -> bool:
        self._pgconn.consume_input()
        is_between = True
        while self._jobs and not self._pgconn.is_busy():
            result = self._pgconn.get_result()
            if result is None:
                if is_between:
                    return False
            elif result.status == pq.ExecStatus.PIPELINE_SYNC:
                return True
            elif self._result is None or self._result.status in GOOD:
                self._result = result
            is_between = result is None
        return False


def array(texts: Iterable[str]) -> bytes:
    """Return an array of texts, as a parameter. The texts have no zero bytes."""
    escaped = [
        text.replace("\\", "\\\\").replace('"', '\\"') if '"' in text or "\\" in text else text
        for text in texts
    ]
    return ('{"' + '","'.join(escaped) + '"}').encode() if escaped else b"{}"


def numbered(text: str, *names: str) -> str:
    """Return the statement with $1 and so on in place of `%(NAME)s`."""
    for number, name in enumerate(names, 1):
        text = text.replace(f"%({name})s", f"${number}")
    return text


def read(result: PGresult) -> list[Values]:
    """Return the rows of a result."""
    count = result.ntuples
    if not count:
        return []
    if count == 1 and result.nfields == 1:  # most commits have one cell
        return [(result.get_value(0, 0),)]
    columns = range(result.nfields)
    return [tuple([result.get_value(row, column) for column in columns]) for row in range(count)]


class ReconnectingWire:
    """A wire for short statements that is made again when it breaks."""

    def __init__(self, url: str, store_name: str, purpose: Purpose) -> None:
        self._url, self._store_name, self._purpose = url, store_name, purpose
        self._wire: Wire | None = None
        self._making = asyncio.Lock()
        self._is_over = False

    @property
    def is_open(self) -> bool:
        """Whether there is a connection now."""
        return self._wire is not None and not self._wire.closed

    async def open(self) -> None:
        """Connect. Raises `StoreUnavailable`."""
        with connections.translate_errors(self._store_name):
            await self._made()

    async def ask(self, text: str, *parameters: bytes | None) -> list[Values]:
        """Return a statement's rows.

        Raises `StoreUnavailable`. Then it is unknown whether the statement was executed.
        """
        with connections.translate_errors(self._store_name):
            wire = self._wire
            if wire is None or wire.closed:
                wire = await self._made()
            return await wire.rows(text, *parameters)

    def send(self, text: str, parameters: Parameters, then: ReplyCallback) -> bool:
        """As `Wire.ask`, without a task of the loop.

        Return False without a connection.
        """
        if self._wire is None or self._wire.closed:
            return False
        self._wire.ask(text, parameters, then)
        return True

    async def read(self, text: str, *parameters: bytes | None) -> list[Values]:
        """As `ask`, for a query that may be executed twice, if its connection broke unnoticed."""
        return await connections.tried(lambda: self.ask(text, *parameters))

    async def _made(self) -> Wire:
        async with self._making:
            if self._is_over:
                raise errors.OperationalError("the connection is closed")
            if self._wire is None or self._wire.closed:
                connection = await connections.connect(
                    self._url, self._purpose, f"{connections.REPEATED}; {connections.LIMITED}"
                )
                if self._is_over:  # it was closed during the connect
                    await connection.close()
                    raise errors.OperationalError("the connection is closed")
                # the server times out first
                kind = PooledWire if connections.is_pooled(self._url) else Wire
                self._wire = kind(connection, patience=connections.PATIENCE + 1)
            return self._wire

    def cut(self) -> None:
        """End it at once. The next one is made when it is needed."""
        if self._wire:
            self._wire.close()

    async def finish(self) -> None:
        """End it permanently, after the statements under way, unless they take long."""
        self._is_over = True
        if self._wire:
            with contextlib.suppress(TimeoutError):
                async with asyncio.timeout(connections.CONNECT):
                    await self._wire.rest()
        self.cut()

    def close(self) -> None:
        """End it permanently, at once."""
        self._is_over = True
        self.cut()
