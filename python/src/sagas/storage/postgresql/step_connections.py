"""Connections of transactional steps, and the protocol of a transaction."""

from __future__ import annotations

import asyncio
import contextlib
import enum
import re
import threading
import time
from collections.abc import Callable, Iterator, Mapping, Sequence
from typing import TYPE_CHECKING, Any, TypeVar

import psycopg
from psycopg import errors, generators, pq, waiting

from sagas.base.errors import ProgramError
from sagas.base.pauses import doubling_pauses
from sagas.storage.postgresql.connections import Row

if TYPE_CHECKING:
    from psycopg.abc import PQGen

# -- the protocol, over any connection

RV = TypeVar("RV")
AS_MADE = "RESET ALL; RESET ROLE; RESET SESSION AUTHORIZATION"
"""Resets a connection: the settings of a step must not affect the next one."""
MAY_SET = re.compile(r"set_config|;\s*\S", re.IGNORECASE)
"""Matches a statement that may change a setting, although the server reports another command.

For example, the server reports only the first of several statements in one text.
"""
FORBIDDEN = "Explicit {}() forbidden: the transaction is the step's, and ends with it"
ENDED = (
    "the transaction was over before its step: it is the step's, and no statement of the function "
    "(such as COMMIT or ROLLBACK) may end it. Remove the statement. What it committed stays, "
    "without a record"
)
BROKE = (
    "the connection of the step broke before its function was over, so what it did there is rolled "
    "back: {}"
)
OPEN = (pq.TransactionStatus.INTRANS, pq.TransactionStatus.INERROR)
JOINS = pq.version() >= 140000
"""Whether libpq can send one statement after another, without waiting."""
DEALLOCATE = "DEALLOCATE ALL"
"""A statement, and the server's report of it; psycopg sends it after a rollback."""
FIRST_PAUSE, MAX_PAUSE = 1.0, 600.0
"""Seconds without prepared statements, once a server did not know them.

The values are the first pause, and the longest.
"""


class Prepares:
    """The statements that are prepared on each connection, for the transaction's end."""

    def __init__(self, text: str) -> None:
        self.text = text
        self.until = 0.0
        self._pauses = doubling_pauses(FIRST_PAUSE, MAX_PAUSE)

    @property
    def works(self) -> bool:
        """Whether to use them. They are not used for a while after a server did not know them."""
        return not self.until or time.monotonic() >= self.until

    def refused(self) -> None:
        """Note that a server did not know them.

        A function deallocated them, or a pooler changed the session.
        """
        self.until = time.monotonic() + next(self._pauses)


class Statements(enum.Enum):
    """The state of the prepared statements on a connection."""

    NONE = "none"
    """They were not prepared."""
    KEPT = "kept"
    DEALLOCATED = "deallocated"
    """psycopg deallocated all statements, and knows it: they are prepared again."""
    LOST = "lost"
    """A statement of the function deallocated them, and psycopg does not know it.

    No other step gets the connection.
    """


def look_at(connection: AsyncStepLink | StepLink, command: object) -> None:
    """Note a command that psycopg is about to send by itself."""
    if command == DEALLOCATE.encode() and connection.statements is Statements.KEPT:
        connection.statements = Statements.DEALLOCATED


def check_whole(connection: AsyncStepLink | StepLink) -> None:
    """Check that the transaction can be ended; nothing of its end was sent.

    Raises psycopg's error if the connection broke, for example while the function did something
    else. Raises `ProgramError` if the function ended the transaction.
    """
    try:
        # the server's last bytes, and the end of the connection
        for _ in range(2 if connection.is_unheard else 0):
            if not connection.closed:
                connection.pgconn.consume_input()
    except psycopg.Error as error:
        raise errors.OperationalError(BROKE.format(error)) from error
    if connection.closed:
        raise errors.OperationalError(BROKE.format("it is closed"))
    if connection.spent or connection.pgconn.transaction_status == pq.TransactionStatus.IDLE:
        raise ProgramError(ENDED)


def note(cursor: Any) -> None:
    """Note the effect of a function's statement on its connection, by the server's report.

    Raises `ProgramError` if it ended the transaction: a repetition would end it again.
    """
    status = cursor.pgresult.command_status if cursor.pgresult else None
    if status == b"SET":
        cursor.connection.is_set = True
    elif status == DEALLOCATE.encode():
        cursor.connection.statements = Statements.LOST
    elif status == b"COMMIT":
        cursor.connection.spent = True
        raise ProgramError(ENDED)


def joined(connection: Any, query: Any, params: Any, more: dict[str, Any]) -> dict[str, Any]:
    """Return the arguments for psycopg.

    The first statement of a transaction is not prepared if it is one statement with parameters. So
    it takes one round trip, and can be sent together with BEGIN.
    """
    if MAY_SET.search(query if isinstance(query, str) else str(query)):
        connection.is_set = True
    if (
        connection.begun is False
        and JOINS
        and params
        and more.get("prepare") is None
        and isinstance(query, str)
    ):
        has_parameters = (
            "%(" in query.replace("%%", "")
            if isinstance(params, Mapping)
            else isinstance(params, (tuple, list))
        )
        if has_parameters:
            connection.joins = threading.get_ident()
            return more | {"prepare": False}
    return more


def continue_generator(gen: PQGen[RV], state: Any) -> PQGen[RV]:
    """Continue a generator that has already returned what it waits for."""
    while True:
        ready = yield state
        try:
            state = gen.send(ready)
        except StopIteration as end:
            return end.value  # type: ignore[no-any-return]


def raising(error: BaseException) -> PQGen[None]:
    raise error
    yield


def encoding_of(connection: Any) -> str:
    """Return the encoding in which psycopg writes texts.

    PostgreSQL's SQL_ASCII accepts any bytes.
    """
    encoding: str = connection.info.encoding
    return "utf-8" if encoding == "ascii" else encoding


def run_text(connection: Any, text: str, encoding: str) -> PQGen[None]:
    """Execute statements in one text. Raises the server's error of the first that fails."""
    connection.pgconn.send_query(text.encode(encoding))
    yield from generators.send(connection.pgconn)
    raise_first(connection, (yield from fetched(connection.pgconn)))


def fetched(pgconn: Any) -> PQGen[list[Any]]:
    """Return the results of the last statements.

    It is as `generators.fetch_many`, which calls libpq twice as often.
    """
    results: list[Any] = []
    while True:
        while pgconn.is_busy():
            yield waiting.WAIT_R
            pgconn.consume_input()
        result = pgconn.get_result()
        if result is None:
            return results
        results.append(result)
        if result.status == pq.ExecStatus.PIPELINE_SYNC:  # nothing follows it
            return results


def raise_first(connection: Any, results: Sequence[Any]) -> None:
    for result in results:
        if result.status == pq.ExecStatus.FATAL_ERROR:
            raise errors.error_from_result(result, encoding=encoding_of(connection))


def after_begin(connection: Any, gen: PQGen[RV]) -> PQGen[RV]:
    """Execute the function's first operation, in a transaction."""
    joins, connection.joins, connection.begun = connection.joins == threading.get_ident(), 0, True
    if joins and connection.pgconn.transaction_status == pq.TransactionStatus.IDLE:
        return (yield from with_begin(connection, gen))
    yield from run_text(connection, "BEGIN", encoding_of(connection))
    return (yield from gen)


def with_begin(connection: Any, gen: PQGen[RV]) -> PQGen[RV]:
    """Send BEGIN and one statement at once.

    If BEGIN is refused, the server does not execute the statement.
    """
    pgconn, failure, value = connection.pgconn, None, None
    connection.halfway = True
    pgconn.enter_pipeline_mode()
    pgconn.send_query_params(b"BEGIN", None)
    try:
        next(gen)  # the statement is sent
    except Exception as error:  # psycopg refused it
        failure = error
    pgconn.pipeline_sync()
    yield from generators.send(pgconn)
    begun = yield from fetched(pgconn)
    try:
        if failure is None:
            value = yield from resume(gen)
    except Exception as error:
        if pgconn.status == pq.ConnStatus.BAD:  # the server sends nothing more
            raise
        failure = error
    yield from fetched(pgconn)  # the end of both
    pgconn.exit_pipeline_mode()
    connection.halfway = False
    raise_first(connection, begun)
    if failure is not None:
        raise failure
    return value  # type: ignore[return-value]


def resume(gen: PQGen[RV]) -> PQGen[RV]:
    """Continue a generator that waits for a reply, which may have arrived."""
    try:
        state = gen.send(waiting.READY_R)
    except StopIteration as end:
        return end.value  # type: ignore[no-any-return]
    return (yield from continue_generator(gen, state))


# -- connections in the loop and in threads


class AsyncStepCursor(psycopg.AsyncCursor[Row]):
    """Sends BEGIN together with the function's first statement.

    It does so only if the text is certainly one statement.
    """

    async def execute(self, query: Any, params: Any = None, **kwargs: Any) -> Any:
        """Execute a statement, as psycopg does."""
        await super().execute(query, params, **joined(self.connection, query, params, kwargs))
        note(self)
        return self


class AsyncStepLink(psycopg.AsyncConnection[Row]):
    """For functions in the loop.

    `begun` is None if no step has the connection, else whether a statement was executed.

    The connection is registered with the loop once, until it is closed. psycopg itself registers it
    again for each reply, which takes as long as the rest.
    """

    begun: bool | None = None
    heard: Callable[[AsyncStepLink], None] | None = None
    """Called if something arrives while no statement waits for a reply."""
    prepares: Prepares | None = None
    """The prepared statements."""
    statements = Statements.NONE
    spent = False
    """Whether it must not be used again.

    A statement of the function ended the transaction, or the server refused its end, as a former
    server does.
    """
    is_set = False
    """Whether a statement changed a setting of it."""
    joins = 0
    """The thread whose next statement may be sent together with BEGIN."""
    halfway = False
    """Whether such a pair is under way. If it is left so, the connection is of no use."""
    _reads: int | None = None  # the socket, if the loop watches it
    _gen: PQGen[Any] | None = None  # the generator that waits for the server
    _answer: asyncio.Future[tuple[Any, Any]] | None = None
    """The reply, or what the generator waits for instead of a reply."""

    def __init__(self, *args: Any, **kwargs: Any) -> None:
        super().__init__(*args, **kwargs)
        self.cursor_factory = AsyncStepCursor
        self._loop = asyncio.get_running_loop()
        self._pool = None  # psycopg's attribute for a connection that its user must not close

    async def wait(self, gen: PQGen[RV], *args: Any, **kwargs: Any) -> RV:
        """Run a generator of psycopg. All operations of a connection use this method."""
        if self.begun is False:
            gen = after_begin(self, gen)
        try:
            value, state = self._step(gen, None)
            if state == waiting.WAIT_R:
                value, state = await self._answered(gen)
            if state is not None:
                self.silence()
                value = await super().wait(continue_generator(gen, state), *args, **kwargs)
        except asyncio.CancelledError as error:
            self._gen = None
            # psycopg handles an interruption so
            await super().wait(raising(error), *args, **kwargs)
            raise
        finally:
            if self.halfway:
                await self._shut()
        return value  # type: ignore[no-any-return]

    async def prepare(self, prepares: Prepares) -> None:
        """Prepare statements, before any step has the connection.

        If the server refuses them, the connection is used without them.
        """
        try:
            async with self.lock:
                await self.wait(run_text(self, prepares.text, encoding_of(self)))
                self.prepares, self.statements = prepares, Statements.KEPT
        except BaseException as error:
            if (
                isinstance(error, psycopg.Error)
                and not self.closed
                and self.pgconn.transaction_status == pq.TransactionStatus.IDLE
            ):
                return
            await self._shut()
            raise

    def watch(self) -> None:
        """Let the loop report when something arrives."""
        if self._reads is None:
            self._reads = self.pgconn.socket
            self._loop.add_reader(self._reads, self._came)

    def _answered(self, gen: PQGen[Any]) -> asyncio.Future[tuple[Any, Any]]:
        """Return a future that steps through a generator until it wants something else."""
        self.watch()
        answer: asyncio.Future[tuple[Any, Any]] = self._loop.create_future()
        self._gen, self._answer = gen, answer
        return answer

    def _step(self, gen: PQGen[Any], ready: Any) -> tuple[Any, Any]:
        """Do one step. Return the result of the generator, or what it waits for."""
        try:
            return None, gen.send(ready)
        except BaseException as end:
            # libpq closes the socket of a bad connection
            if self._reads is not None and self.pgconn.status == pq.ConnStatus.BAD:
                self.silence()
            if isinstance(end, StopIteration):
                return end.value, None
            raise

    def silence(self) -> None:
        """Remove the connection from the loop."""
        if self._reads is not None:
            self._loop.remove_reader(self._reads)
            self._reads = None

    def _came(self) -> None:
        """Handle bytes that arrived."""
        gen, answer = self._gen, self._answer
        if gen is None or answer is None or answer.done():
            self.silence()  # no statement waits: the next one reads it
            if self.heard:
                self.heard(self)
            return
        try:
            result = self._step(gen, waiting.READY_R)
        except Exception as error:
            self._gen = None
            answer.set_exception(error)
        else:
            if result[1] != waiting.WAIT_R:
                self._gen = None
                answer.set_result(result)

    @property
    def is_unheard(self) -> bool:
        """Whether something may have arrived that the loop does not report."""
        return self._reads is None

    def is_there(self) -> bool:
        """Whether it can be used, as far as is known without a query."""
        if self._reads is None and not self.closed:  # something arrived that no statement waits for
            try:
                self.pgconn.consume_input()
            except psycopg.Error:
                return False
        return not self.closed

    async def close(self) -> None:
        """Close it. A step must not do so."""
        if self.begun is not None:
            raise errors.ProgrammingError(FORBIDDEN.format("close"))
        await self._shut()

    async def _shut(self) -> None:
        self.silence()
        await super().close()

    async def leave(self) -> None:
        """End a step: roll back what it did not commit, and restore the settings."""
        self.begun = None
        with contextlib.suppress(psycopg.Error):  # then the pool drops it
            for text in _put_back(self):
                async with self.lock:
                    await self.wait(run_text(self, text, encoding_of(self)))

    def _exec_command(self, command: Any, *args: Any, **kwargs: Any) -> Any:
        look_at(self, command)
        return super()._exec_command(command, *args, **kwargs)

    async def commit(self) -> None:
        """Commit. A step must not do so."""
        if self.begun is not None:
            raise errors.ProgrammingError(FORBIDDEN.format("commit"))
        await super().commit()

    async def rollback(self) -> None:
        """Roll back. A step must not do so."""
        if self.begun is not None:
            raise errors.ProgrammingError(FORBIDDEN.format("rollback"))
        await super().rollback()

    async def end(self, text: str, then: Callable[[], object]) -> None:
        """Execute the last statements and the commit, in one text.

        `then` is called before they are sent. Raises the server's error of the first that it
        refuses.
        """
        async with self.lock:
            then()
            self.spent = True
            await self.wait(run_text(self, text, encoding_of(self)))
            self.spent = False


class StepCursor(psycopg.Cursor[Row]):
    """See `AsyncStepCursor`."""

    def execute(self, query: Any, params: Any = None, **kwargs: Any) -> Any:
        """Execute a statement, as psycopg does."""
        super().execute(query, params, **joined(self.connection, query, params, kwargs))
        note(self)
        return self


class StepLink(psycopg.Connection[Row]):
    """For functions in threads. See `AsyncStepLink`."""

    begun: bool | None = None
    prepares: Prepares | None = None
    statements = Statements.NONE
    spent = is_set = False
    joins = 0
    halfway = False
    is_unheard = True

    def __init__(self, *args: Any, **kwargs: Any) -> None:
        super().__init__(*args, **kwargs)
        self.cursor_factory = StepCursor
        self._pool = None

    def prepare(self, prepares: Prepares) -> None:
        """See `AsyncStepLink.prepare`."""
        try:
            with self.lock:
                self.wait(run_text(self, prepares.text, encoding_of(self)))
                self.prepares, self.statements = prepares, Statements.KEPT
        except BaseException as error:
            if (
                isinstance(error, psycopg.Error)
                and not self.closed
                and self.pgconn.transaction_status == pq.TransactionStatus.IDLE
            ):
                return
            self.close()
            raise

    def wait(self, gen: PQGen[RV], *args: Any, **kwargs: Any) -> RV:
        """Run a generator of psycopg. All operations of a connection use this method."""
        if self.begun is False:
            gen = after_begin(self, gen)
        try:
            return super().wait(gen, *args, **kwargs)
        finally:
            if self.halfway:
                super().close()

    def is_there(self) -> bool:
        """See `AsyncStepLink.is_there`. Nothing reports what arrives."""
        with contextlib.suppress(psycopg.Error):
            self.pgconn.consume_input()
        return not self.closed

    def leave(self) -> None:
        """See `AsyncStepLink.leave`."""
        self.begun = None
        with contextlib.suppress(psycopg.Error):
            for text in _put_back(self):
                with self.lock:
                    self.wait(run_text(self, text, encoding_of(self)))

    def _exec_command(self, command: Any, *args: Any, **kwargs: Any) -> Any:
        look_at(self, command)
        return super()._exec_command(command, *args, **kwargs)

    def close(self) -> None:
        """Close it. A step must not do so."""
        if self.begun is not None:
            raise errors.ProgrammingError(FORBIDDEN.format("close"))
        super().close()

    def commit(self) -> None:
        """Commit. A step must not do so."""
        if self.begun is not None:
            raise errors.ProgrammingError(FORBIDDEN.format("commit"))
        super().commit()

    def rollback(self) -> None:
        """Roll back. A step must not do so."""
        if self.begun is not None:
            raise errors.ProgrammingError(FORBIDDEN.format("rollback"))
        super().rollback()

    def end(self, text: str, then: Callable[[], object]) -> None:
        """See `AsyncStepLink.end`."""
        with self.lock:
            then()
            self.spent = True
            self.wait(run_text(self, text, encoding_of(self)))
            self.spent = False


To = TypeVar("To", AsyncStepLink, StepLink)


def converted(connection: AsyncStepLink | StepLink, kind: type[To]) -> To:
    """Return an idle connection as an object for functions of this kind.

    The former object is of no use any more.
    """
    if isinstance(connection, kind):
        return connection
    if isinstance(connection, AsyncStepLink):
        connection.silence()
    made = kind(connection.pgconn)
    made._prepared = connection._prepared  # the statements that psycopg prepared
    made.prepares, made.statements = connection.prepares, connection.statements
    return made


def is_prepared(connection: AsyncStepLink | StepLink) -> bool:
    """Whether the statements of the transaction's end are prepared."""
    return (
        connection.statements is Statements.KEPT
        and connection.prepares is not None
        and connection.prepares.works
    )


def is_as_made(connection: AsyncStepLink | StepLink) -> bool:
    """Whether a step left nothing on it that must be restored."""
    return not connection.is_set and connection.statements in (Statements.KEPT, Statements.NONE)


def _put_back(connection: AsyncStepLink | StepLink) -> Iterator[str]:
    """Return the statements that restore a connection.

    Each is executed before the next is requested.

    The rollback is not that of psycopg, which deallocates all prepared statements.
    """
    if connection.pgconn.transaction_status in OPEN:
        yield "ROLLBACK"
    if connection.is_set and not connection.closed:
        yield AS_MADE
        connection.is_set = False
    if (
        connection.statements is Statements.DEALLOCATED
        and connection.prepares
        and not connection.closed
    ):
        yield connection.prepares.text
        connection.statements = Statements.KEPT
