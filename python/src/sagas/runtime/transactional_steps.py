"""Steps with `transaction=True`: the function and its result in one transaction.

The effect happens exactly once. The record names the attempt, and is written only if this node
still owns the shard of the attempt. If the reply to the commit is lost, the shard is loaded again,
and the record shows the outcome.
"""

from __future__ import annotations

import asyncio
import dataclasses
import functools
from collections.abc import Awaitable, Callable
from typing import TYPE_CHECKING, Any

import psycopg

from sagas.base.errors import ShardLost, Unknown
from sagas.core import outcomes
from sagas.core.shard.batch import Tail
from sagas.core.attempt.model import RUNNING
from sagas.core.outcomes import Outcome
from sagas.definition import awaitables
from sagas.definition.call_options import Function, Manner
from sagas.definition.task import Task
from sagas.runtime import invocation
from sagas.storage.postgresql import step_commit
from sagas.storage.postgresql.step_commit import TABLE, UNPREPARED, Fence
from sagas.storage.postgresql.step_connections import (
    AsyncStepLink,
    Prepares,
    StepLink,
    check_whole,
    is_prepared,
)
from sagas.storage.postgresql.step_pool import REST, Loan, Pool, Reservation

if TYPE_CHECKING:
    from concurrent.futures import Executor

    from sagas.core.attempt.model import Attempt
    from sagas.core.attempt.step_transactions import TakeConnection

PLAIN = frozenset((type(None), bool, int, float, str, dict, list))
"""Types of results that are never awaitable."""
CLEANUP_INTERVAL = REST / 10
"""Seconds between checks for connections that are idle for too long."""
NO_TAIL = Tail(-1, 0.0)
"""The tail of a shard that this node no longer has: no shard has this chunk."""
ROLLED_BACK = ("23", "25P02", "25P03", "40001", "40P01", "P0")
"""SQLSTATEs after which the transaction is rolled back: a constraint, also one that is deferred to
the commit; an unnoticed failure of an earlier statement; an idle transaction; conflicts with
others; an error that a trigger raised.
"""


def as_raised(error: psycopg.Error) -> Exception:
    """Return the exception for an error of a transaction.

    If the connection was lost, the outcome is unknown.
    """
    if not isinstance(error, psycopg.OperationalError):
        return error
    unknown = Unknown(str(error))
    unknown.__cause__ = error
    return unknown


async def _called(function: Function, task: Task[Any]) -> Any:
    value = await function(task)
    return value if type(value) in PLAIN else await awaitables.awaited(value)


def text_of(attempt: Attempt, value: Any) -> str:
    """Return the result of a function as it is stored."""
    return outcomes.encode_result(attempt.instance.kind.payloads, outcomes.succeeded(value).value)


@dataclasses.dataclass(slots=True)
class Record:
    """Whether the record of a result was written, or is about to be."""

    attempt: Attempt
    location: str
    node: str
    prepares: Prepares
    tail: Tail
    """The last chunk of its shard at the start: it has the attempt's start, or comes later."""
    line: str = ""
    """The timeline of the server that it is sent to, set before it is sent."""
    was_sent: bool = False
    done: bool = False
    prepared: bool = False
    """Whether it is sent as a prepared statement."""
    again: bool = False
    """The server did not know that statement and rolled back, so the function is called again."""

    def lost(self) -> ShardLost | None:
        """Return the error of an unknown commit, or None if the outcome is known."""
        return (
            ShardLost(
                f"{self.location}: it is unknown whether {self.attempt.token()} was committed"
            )
            if self.was_sent and not self.done
            else None
        )

    def refused(self, error: psycopg.Error) -> None:
        """Handle an error of the server, which may prove a rollback.

        After a rollback, the function had no effect. An error about the record, or about the lines
        of the event log, means that the shard or the attempt belongs to another run.
        """
        if (error.sqlstate or "").startswith(ROLLED_BACK) and (
            error.diag.schema_name,
            error.diag.table_name,
        ) != TABLE:
            self.was_sent = False
        elif self.was_sent and self.prepared and error.sqlstate in UNPREPARED:
            self.was_sent, self.again = False, True
            self.prepares.refused()

    def judged(self, error: psycopg.Error) -> Exception:
        """Return the exception for an error, after checking whether it proves a rollback."""
        self.refused(error)
        return as_raised(error)

    def sending(self) -> None:
        """Note that the commit is about to be sent. Before that, nothing can be committed."""
        self.was_sent = True

    def fence(self) -> Fence:
        """Return who must own the shard for the commit to be valid, and on which server.

        The values are those of the time at which the attempts were loaded. A shard that is about to
        be taken up from another server may not have the attempt there, although its epoch is the
        same.
        """
        shard = self.attempt.instance.shard
        assert shard
        epoch, self.line = shard.fence
        return Fence(shard.number, self.node, epoch, self.line, self.tail)

    def check(self) -> None:
        """Raise `ShardLost` if the attempt was forgotten when its shard was loaded again.

        A function that ended before that, and whose commit is sent later, has the earlier epoch.
        """
        if self.attempt.state is not RUNNING:
            raise ShardLost(f"{self.location}: {self.attempt.token()} does not exist any more")

    def text(self, link: AsyncStepLink | StepLink, value: str) -> str:
        """Return the statements that write the record and commit."""
        self.prepared = is_prepared(link)
        return step_commit.record_and_commit(link, self.attempt.row, self.fence(), value)


class Transactions:
    """The connections of steps, separate from the store's own.

    They have the settings of the user.
    """

    def __init__(
        self,
        url: str,
        location: str,
        node: str,
        line: Callable[[], str],
        tail: Callable[[int], Tail | None],
        max_connections: int,
    ) -> None:
        self._location, self._node, self._line, self._tail = location, node, line, tail
        self._prepares = Prepares(step_commit.prepares())
        self._pool = Pool(url, max_connections, self._prepares)
        self._timer: asyncio.TimerHandle | None = None
        self._entered: Attempt | None = None
        self._take: TakeConnection = self._taken_at_once

    async def close(self) -> None:
        """Close the connections."""
        if self._timer:
            self._timer.cancel()
        await self._pool.close()

    def close_idle(self) -> None:
        """Close all idle connections.

        The server may have none left for the store, or another server has taken over.
        """
        self._pool.look(0.0)

    def _look(self) -> None:
        self._pool.look()
        self._timer = asyncio.get_running_loop().call_later(CLEANUP_INTERVAL, self._look)

    async def call(
        self,
        attempt: Attempt,
        manner: Manner,
        task: Task[Any],
        executor: Executor | None,
        late: Callable[[str], object] | None,
    ) -> Outcome | None:
        """Call a function as `invocation.call` does, and commit its transaction.

        If the function did nothing over its connection, nothing is committed, and no record is
        written. Raises `ShardLost` if it is unknown whether the transaction was committed, or if
        another node owns the shard. Then the record is looked up.
        """
        function = manner.function
        assert function
        if awaitables.is_async(function):
            within = functools.partial(self.within, attempt, function)
            outcome = await invocation.call(manner, task, executor, late, within)
        else:
            outcome = await self._call_plain(attempt, function, manner, task, executor, late)
        record = attempt.record
        if record and (lost := record.lost()):
            raise lost
        return outcome

    async def _call_plain(
        self,
        attempt: Attempt,
        function: Function,
        manner: Manner,
        task: Task[Any],
        executor: Executor | None,
        late: Callable[[str], object] | None,
    ) -> Outcome | None:
        """Call a plain function in a thread, with a connection that is lent before."""
        try:
            loan = await self._pool.lend()
        except BaseException as error:
            fault = as_raised(error) if isinstance(error, psycopg.Error) else error
            return invocation.interrupted(fault, manner)
        try:
            within = functools.partial(self._in_thread, self._record(attempt), loan, function)
            return await invocation.call(manner, task, executor, late, within)
        finally:
            loan.leave()

    def enter(self, attempt: Attempt) -> TakeConnection | None:
        """Provide a connection for an async function that is called now.

        A function that asks for no connection before it first waits costs little more than one
        without a transaction. See `StepTransactions`.
        """
        if not self._pool.has_idle():
            return None
        self._entered = attempt
        return self._take

    def _taken_at_once(self) -> AsyncStepLink:
        """Take a connection for the attempt that was entered last.

        No other attempt has run since.
        """
        assert self._entered
        return self._taken(self._entered, self._pool.acquire_now)

    async def end(self, attempt: Attempt, task: Task[Any], work: Awaitable[Any]) -> Any:
        """Continue a function that waits, and reserve a connection for it.

        See `StepTransactions`.
        """
        reservation = None
        if task._leave() is None and self._pool.has_idle():
            reservation = self._pool.reserve_now()
        acquire = reservation.acquire if reservation else self._pool.acquire_now
        task._enter_by(functools.partial(self._taken, attempt, acquire))
        return await self._ended(attempt, task, work, reservation)

    def raised(self, error: BaseException) -> BaseException:
        """Return the exception for an error of a function. See `StepTransactions`."""
        return as_raised(error) if isinstance(error, psycopg.Error) else error

    async def within(self, attempt: Attempt, function: Function, task: Task[Any]) -> Any:
        """Call an async function with a reserved connection.

        See `StepTransactions`.
        """
        if self._timer is None:
            self._look()
        try:
            reservation = await self._pool.reserve()
        except psycopg.Error as error:
            raise as_raised(error)
        task._enter_by(functools.partial(self._taken, attempt, reservation.acquire))
        return await self._ended(attempt, task, _called(function, task), reservation)

    async def _ended(
        self,
        attempt: Attempt,
        task: Task[Any],
        work: Awaitable[Any],
        reservation: Reservation | None,
    ) -> Any:
        """Return the result of a function, and commit or release its connection."""
        try:
            try:
                value = await work
            except BaseException:
                if (link := task._leave()) is not None:
                    await self._left(link)
                elif reservation:
                    reservation.release()
                raise
            if (link := task._leave()) is not None:
                await self._end(attempt, link, value)
            elif reservation:
                reservation.release()
        except psycopg.Error as error:
            raise attempt.record.judged(error) if attempt.record else as_raised(error)
        return value

    async def _end(self, attempt: Attempt, link: AsyncStepLink, value: Any) -> None:
        """Commit what the function did, together with its record."""
        record = attempt.record
        assert isinstance(record, Record)
        try:
            if link.begun:
                check_whole(link)
                text = text_of(attempt, value)
                record.check()
                await link.end(record.text(link, text), record.sending)
                self._answered(record, link)
        finally:
            await self._left(link)

    def _answered(self, record: Record, link: AsyncStepLink | StepLink) -> None:
        """Handle that the commit succeeded, unless another server has taken over since."""
        record.done = record.line == self._line()
        link.spent = not record.done

    def _taken(self, attempt: Attempt, take: Callable[[], AsyncStepLink]) -> AsyncStepLink:
        link = take()
        link.begun = False
        self._record(attempt)
        return link

    def _record(self, attempt: Attempt) -> Record:
        if self._timer is None:
            self._look()
        shard = attempt.instance.shard
        tail = (self._tail(shard.number) if shard else None) or NO_TAIL
        record = Record(attempt, self._location, self._node, self._prepares, tail)
        attempt.record = record
        return record

    async def _left(self, link: AsyncStepLink) -> None:
        try:
            if link.begun is False:
                link.begun = None
            else:
                await link.leave()
        finally:
            self._pool.release(link)

    def _in_thread(self, record: Record, loan: Loan, function: Function, task: Task[Any]) -> Any:
        try:
            link = loan.begin()
            try:
                task._enter(link)
                link.begun = False
                value = awaitables.plain_result(function(task))
                if link.begun:
                    check_whole(link)
                    text = text_of(record.attempt, value)
                    record.check()
                    link.end(record.text(link, text), record.sending)
                    self._answered(record, link)
            finally:
                try:
                    link.leave()
                finally:
                    loan.end()
        except psycopg.Error as error:
            raise record.judged(error)
        return value
