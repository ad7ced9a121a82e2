"""A worker's session with a PostgreSQL store.

A worker reports from any machine, and the node that drives the saga is notified.
"""

from __future__ import annotations

import contextlib
from typing import Any

import psycopg
from psycopg.rows import tuple_row

from sagas.base.errors import StoreUnavailable, Unknown
from sagas.core import outcomes
from sagas.core.attempt.external_work import AlreadyReported, AttemptTexts, Order
from sagas.core.outcomes import Outcome
from sagas.definition import awaitables
from sagas.definition.call_options import Function
from sagas.definition.task import Task
from sagas.storage.external import REPORT_COUNTS
from sagas.storage.postgresql import conflicts, connections
from sagas.storage.postgresql.application_name import Purpose
from sagas.storage.postgresql.external_attempts import NOTIFY_REPORTED, REPORT
from sagas.storage.postgresql.step_connections import AS_MADE, AsyncStepLink, StepLink, check_whole
from sagas.storage.postgresql.step_pool import is_good
from sagas.storage.worker_session import BEGIN, fetched

RECORD = f"""
UPDATE sagas.external_attempts SET outcome = 'succeeded', value = %(value)s, reported = %(lease)s
WHERE attempt = %(attempt)s
  AND {REPORT_COUNTS.format(lease="%(lease)s", outcome="'succeeded'::text")}
RETURNING attempt
"""
COMMIT = f"COMMIT; {AS_MADE}"
"""In one text, so that a pooler uses one session for both."""


class PostgreSQLWorkerSession:
    """A worker's connection to the database, for one thread."""

    def __init__(self, url: str) -> None:
        self.url, self.path = url, connections.named(url)
        self._connection: psycopg.Connection[connections.Row] | None = None
        self._for_functions: StepLink | None = None  # for functions that are transactions

    def _ask(self, text: str, parameters: Any) -> list[Any]:
        return conflicts.repeated_now(lambda: self._ask_once(text, parameters))

    def _ask_once(self, text: str, parameters: Any) -> list[Any]:
        try:
            with connections.translate_errors(self.path):
                if self._connection is None or self._connection.closed:
                    self._connection = connections.connect_now(self.url, Purpose.WORKER)
                cursor = self._connection.execute(text, parameters)
                return cursor.fetchall() if cursor.description else []
        except BaseException:
            self.close()
            raise

    def begin(self, order: Order) -> AttemptTexts | None:
        """Return the texts that the order does not contain.

        Return None if the attempt is closed. Raises `WrongStore`, `StoreUnavailable`.
        """
        return fetched(
            order,
            self._ask(BEGIN.replace("?", "%s"), (order.token, order.log)),
            self._first_text,
            self.path,
        )

    def _first_text(self, text: str, *parameters: Any) -> str:
        rows = self._ask(text.replace("?", "%s"), parameters)
        return str(rows[0][0]) if rows and rows[0][0] is not None else "null"

    def report(self, order: Order, outcome: Outcome) -> None:
        """Store the outcome in one statement, and notify the nodes afterwards.

        Raises `StoreUnavailable`.
        """
        parameters = {
            "attempt": order.token,
            "lease": order.lease,
            "outcome": str(outcome.kind),
            "value": outcome.value,
        }
        self._ask(REPORT, parameters)
        self.say()

    def say(self) -> None:
        """Notify the nodes that there is a report."""
        with contextlib.suppress(
            StoreUnavailable
        ):  # the report is stored, and the nodes look for it
            self._ask(NOTIFY_REPORTED, None)

    def within(self, order: Order, function: Function) -> Function:
        """Return the function as a transaction, whose last statement is its report."""

        def record(connection: AsyncStepLink | StepLink, value: Any) -> dict[str, Any]:
            if connection.begun:
                check_whole(connection)
            connection.row_factory = tuple_row
            stored_value = outcomes.succeeded(value).value
            return {"attempt": order.token, "lease": order.lease, "value": stored_value}

        def in_thread(task: Task[Any]) -> Any:
            try:
                connection = self._function_connection()
                task._enter(connection)
                connection.begun = False
                value = awaitables.plain_result(function(task))
                recorded = connection.execute(RECORD, record(connection, value), prepare=False)
                if not recorded.fetchall():
                    raise AlreadyReported(order.token)
                connection.end(COMMIT, _nothing)
                connection.begun, connection.is_set = None, False
            except BaseException as error:  # the state of its transaction is unknown
                self._drop()
                if isinstance(error, psycopg.OperationalError):
                    raise Unknown(str(error)) from error
                raise
            if not is_good(connection):
                self._drop()
            self.say()
            return value

        async def in_loop(task: Task[Any]) -> Any:
            connection: AsyncStepLink | None = None
            try:
                connection = await self._new_connection()
                task._enter(connection)
                connection.begun = False
                value = await awaitables.awaited(await function(task))
                recorded = await connection.execute(
                    RECORD, record(connection, value), prepare=False
                )
                if not await recorded.fetchall():
                    raise AlreadyReported(order.token)
                await connection.end("COMMIT", _nothing)
            except psycopg.OperationalError as error:
                raise Unknown(str(error)) from error
            finally:
                if connection is not None:
                    connection.begun = None
                    await connection.close()
            self.say()
            return value

        return in_loop if awaitables.is_async(function) else in_thread

    def _function_connection(self) -> StepLink:
        if self._for_functions is None or self._for_functions.closed:
            made = StepLink.connect(connections.address(self.url, Purpose.STEP))
            assert isinstance(made, StepLink)
            self._for_functions = made
        return self._for_functions

    async def _new_connection(self) -> AsyncStepLink:
        made = await AsyncStepLink.connect(connections.address(self.url, Purpose.STEP))
        assert isinstance(made, AsyncStepLink)
        return made

    def close(self) -> None:
        """Close the store's connection.

        The connection of functions is checked when it is used.
        """
        connection, self._connection = self._connection, None
        if connection is not None:
            connection.close()

    def _drop(self) -> None:
        connection, self._for_functions = self._for_functions, None
        if connection is not None:
            connection.begun = None
            connection.close()


def _nothing() -> None:
    """Do nothing before the commit is sent."""
