"""A client's start: one row, in its own transaction or in the caller's."""

from __future__ import annotations

import contextlib
import json
import time
from collections.abc import Callable, Coroutine, Sequence
from typing import TYPE_CHECKING, Any, NamedTuple
from weakref import WeakKeyDictionary, WeakSet

import psycopg

from sagas.base.errors import StoreUnavailable
from sagas.definition import saga as saga_module, waits
from sagas.definition import (
    arguments,
    child_sagas,
    serialization,
    shape,
    tracing,
)
from sagas.definition.definition_text import digest_of
from sagas.definition.declaration import input_types
from sagas.definition.input_types import InputTypes
from sagas.definition.labels import Labels, checked
from sagas.definition.payloads import Payloads
from sagas.definition.saga import Saga
from sagas.definition.shape import Shape
from sagas.definition.start_options import Deadline, deadline_at
from sagas.runtime import instances
from sagas.runtime.declared_calls import DefinitionCaller
from sagas.storage import codec_note
from sagas.storage.postgresql import (
    caller_connection,
    conflicts,
    connections,
    notifications,
    replication,
)
from sagas.storage.postgresql.caller_connection import Work
from sagas.storage.postgresql.connection_adapters import (
    AsyncAdapter,
    AsyncPsycopg,
    BlockingAdapter,
    Statement,
)
from sagas.storage.postgresql.server import SERVER

if TYPE_CHECKING:
    from sagas.storage.postgresql.connections import Row

AskDatabase = Callable[[Coroutine[Any, Any, list["Row"]]], list["Row"]]
ReadDatabase = Callable[[str], Coroutine[Any, Any, list["Row"]]]

START = Statement(
    """
INSERT INTO sagas.pending_starts(
  key, saga, version, input, digest, labels, deadline, traceparent, at)
SELECT CAST(%(key)s AS text), CAST(%(saga)s AS text), CAST(%(version)s AS integer),
  CAST(%(input)s AS text), CAST(%(digest)s AS text), CAST(CAST(%(labels)s AS text) AS jsonb),
  CAST(%(deadline)s AS double precision), CAST(%(traceparent)s AS text),
  extract(epoch FROM clock_timestamp())
WHERE CAST(%(encodes)s AS boolean)
  OR NOT EXISTS (SELECT 1 FROM sagas.secrets WHERE name = 'codec')
ON CONFLICT (key) DO NOTHING RETURNING id
"""
)
EXISTING = Statement(
    """
SELECT saga, input, CAST(NULL AS text) FROM sagas.sagas WHERE key = CAST(%(key)s AS text)
UNION ALL SELECT saga, input, CASE WHEN refused IS NULL THEN digest ELSE '' END
FROM sagas.pending_starts
WHERE key = CAST(%(key)s AS text) AND NOT CAST(%(is_added)s AS boolean)
"""
)
"""Finds what has the key. If the start was added, it is the only start with the key."""
RENEW = Statement(
    """
UPDATE sagas.pending_starts SET digest = CAST(%(digest)s AS text), refused = NULL
WHERE key = CAST(%(key)s AS text) AND version = CAST(%(version)s AS integer) AND node IS NULL
RETURNING id
"""
)
"""A start that no node has taken gets the definition of its latest start. A refused start is
accepted again.
"""
NOTED = Statement("SELECT 1 FROM sagas.secrets WHERE name = 'codec'")
BACK = Statement(
    "DELETE FROM sagas.pending_starts WHERE key = CAST(%(key)s AS text)", returns_rows=False
)
"""Deletes the start that was added."""
STARTS = f"'{notifications.STARTS}'"
NOTIFY = Statement(f"SELECT {SERVER.notify(notifications.CHANNEL, STARTS)}")
"""In the caller's transaction, only its commit sends the notification. For its own transactions,
the client notifies after the commit: a commit that notifies holds a lock of the whole server, also
while it waits for a standby.
"""
REPLICATED = Statement(replication.REPLICATED)
UNSURE = "It is unknown whether the saga was started. Start it again, with the same key"


def has_other_definition(request: dict[str, Any], rows: Sequence[Row]) -> bool:
    """Return whether an existing start of the same key has another definition."""
    digest = request["digest"]
    known = (None, digest) if digest is not None else (None,)
    return any(
        stored_digest not in known
        for _, _, stored_digest in rows
        if stored_digest == "" or digest is not None
    )


def check_same(request: dict[str, Any], rows: Sequence[Row]) -> None:
    """Raise `KeyConflict` if another saga or input has the key."""
    for saga, text, *_ in rows:
        error = instances.conflict(
            request["key"], request["of"], request["input"], saga, text, request["payloads"]
        )
        if error:
            raise error


class Written(NamedTuple):
    """Whether a start wrote its row, and whether the nodes must be notified."""

    is_new: bool
    must_notify: bool


def check_written(request: dict[str, Any], noted: Sequence[Row]) -> None:
    """Raise `MissingCodec` if nothing was written because values must be encoded."""
    if noted and not request["encodes"]:
        raise codec_note.missing(request["path"])


def start(request: dict[str, Any]) -> Work[Written]:
    """Write a row, then check whether another start has the key.

    In this order, no concurrent start of the same key can be missed. An existing row may belong to
    a commit that no standby has yet.
    """
    is_added = bool((yield START, request))
    rows = yield EXISTING, {"key": request["key"], "is_added": is_added}
    if rows and is_added:
        yield BACK, request
    check_same(request, rows)
    if not (is_added or rows):
        check_written(request, (yield NOTED, {}))
    if renewed := has_other_definition(request, rows):
        yield RENEW, request
    if not is_added:
        yield REPLICATED, {}
    is_new = is_added and not rows
    return Written(is_new, is_new or renewed)


def start_for_caller(request: dict[str, Any], store: list[Row]) -> Work[bool]:
    """Write a row in the transaction of a caller; return whether it is new.

    `store` identifies the database. If it is empty, the database is known or cannot be checked.
    """
    if store:
        yield from caller_connection.check_database(store, request["path"])
    written = yield from start(request)
    if written.must_notify:
        yield NOTIFY, {}
    return written.is_new


class StartNotifier:
    """Notifies nodes of committed starts.

    Starts during a notification share the next one. A node also checks for starts each second.
    """

    def __init__(self, asker: connections.Asker) -> None:
        self._asker, self._has_more, self._is_sending = asker, False, False

    def notify(self) -> None:
        """Notify the nodes of a start, in the background."""
        self._has_more = True
        if not self._is_sending:
            self._is_sending = True
            self._asker.spawn(self._send())

    async def _send(self) -> None:
        try:
            while self._has_more:
                self._has_more = False
                with contextlib.suppress(StoreUnavailable):
                    await self._asker.ask(notifications.NOTIFY, messages=[notifications.STARTS])
        finally:
            self._is_sending = False


def shape_check(saga: Saga[Any], input: Any) -> Callable[[], object] | None:
    """Return a check of the steps that come from an input; None if there are none.

    The check calls functions of the definition, and raises what they raise.
    """
    if not saga.is_shaped:
        return None
    plain = serialization.write_value(input, "input")
    return lambda: shape.write_definition(Shape(saga, plain))


class CallerStarter:
    """Writes starts in the transactions of callers, by their connections."""

    take_async = staticmethod(caller_connection.take_async)
    take_blocking = staticmethod(caller_connection.take_blocking)

    def __init__(self, read: ReadDatabase, path: str, payloads: Payloads) -> None:
        self._payloads, self._tracer = payloads, tracing.tracer()
        self._read, self._path = read, path
        self._digests: WeakKeyDictionary[Saga[Any], str | None] = WeakKeyDictionary()
        self._types: WeakKeyDictionary[Saga[Any], InputTypes] = WeakKeyDictionary()
        self._checked: WeakSet[Any] = WeakSet()
        """Connections to servers that are known to lead to the store's database."""

    def start_request(
        self,
        saga: Saga[Any],
        key: str,
        input: Any,
        labels: Labels | None,
        deadline: Deadline | None,
        traceparent: str | None,
    ) -> dict[str, Any]:
        """Return the columns of a start, and its definition.

        A definition without steps has no digest: it only names a saga.
        """
        arguments.key(key)
        labels_text = json.dumps(dict(checked(labels)))
        waits.check_is_saga(saga)
        if saga.has_children:
            child_sagas.check_key(key, saga)
        if saga not in self._digests:  # its definition is whole by now
            self._digests[saga] = digest_of(saga_module.declared_text(saga)) if saga.parts else None
        request = {"key": key, "saga": saga.name, "version": saga.version, "of": saga}
        plain = serialization.write_value(input, "input")
        self.check_input(saga, plain)
        text = self._payloads.encode(plain)
        request |= {"payloads": self._payloads, "path": self._path}
        request["encodes"] = self._payloads.codec is not None
        request["traceparent"] = tracing.of_start(self._tracer, traceparent)
        deadline_time = deadline_at(saga.deadline if deadline is None else deadline, time.time())
        digest = self._digests[saga]
        return request | {
            "input": text,
            "digest": digest,
            "labels": labels_text,
            "deadline": deadline_time,
        }

    def check_input(self, saga: Saga[Any], text: str) -> None:
        """Raise `InvalidInput` if an input does not have the types that the saga declares.

        Args:
            saga: The saga, with all of its parts declared.
            text: The input as JSON.
        """
        if saga not in self._types:
            self._types[saga] = input_types(saga)
        if invalid := self._types[saga].error(text):
            raise invalid

    async def start(self, request: dict[str, Any], adapter: AsyncAdapter) -> bool:
        """Write a start; return whether its row is new."""
        store = [] if self._is_checked(adapter) else await self.database()
        work = start_for_caller(request, store)
        is_new = await caller_connection.run_in_savepoint_async(adapter, work, self._path)
        self._note_checked(adapter)
        return is_new

    def start_now(
        self, request: dict[str, Any], adapter: BlockingAdapter, ask: AskDatabase
    ) -> bool:
        """Write a start in the transaction of a blocking connection. See `start`."""
        store = [] if self._is_checked(adapter) else ask(self.database())
        work = start_for_caller(request, store)
        is_new = caller_connection.run_in_savepoint(adapter, work, self._path)
        self._note_checked(adapter)
        return is_new

    def _is_checked(self, adapter: AsyncAdapter | BlockingAdapter) -> bool:
        return adapter.server_connection in self._checked

    def _note_checked(self, adapter: AsyncAdapter | BlockingAdapter) -> None:
        if adapter.server_connection is not None:
            self._checked.add(adapter.server_connection)

    async def database(self) -> list[Row]:
        """Return the identity of the store's database.

        It is empty if this role may not read it.
        """
        try:
            return await self._read(caller_connection.HERE.text)
        except StoreUnavailable as error:
            if isinstance(error.__cause__, psycopg.errors.InsufficientPrivilege):
                return []
            raise


class ClientStarter(CallerStarter):
    """Writes starts of a client, in its own transactions or in those of the callers."""

    def __init__(
        self, asker: connections.Asker, path: str, max_connections: int, payloads: Payloads
    ) -> None:
        super().__init__(asker.read, path, payloads)
        self._asker, self._max_connections = asker, max_connections
        self._notifier, self._declared = StartNotifier(asker), DefinitionCaller(max_connections)

    async def check_shape(self, saga: Saga[Any], input: Any) -> None:
        """Raise the error for which the nodes would refuse a start.

        That concerns sagas with steps that come from the input. Functions of the definition decide
        it, in a thread.
        """
        if (check := shape_check(saga, input)) is not None:
            await self._declared.call(saga.name, check)

    async def start_alone(self, request: dict[str, Any]) -> bool:
        """Write a start in its own transaction.

        It retries over connections that the server has ended, up to the size of the pool, and after
        conflicts. A repeated start has no further effect, because of its key.
        """
        left, turn = self._max_connections, 0
        while True:
            try:
                return await self._asker.whole(self._begin(request))
            except StoreUnavailable as error:
                if isinstance(error.__cause__, (TimeoutError, psycopg.errors.QueryCanceled)):
                    raise StoreUnavailable(f"{error}. {UNSURE}") from error.__cause__
                if left and connections.was_cut(error):
                    left -= 1
                    continue
                await conflicts.pause(error, turn)
            turn += 1

    async def _begin(self, request: dict[str, Any]) -> bool:
        async with self._asker.connection() as link, link.transaction():
            written = await caller_connection.run_async(AsyncPsycopg(link), start(request))
        if written.must_notify:
            self._notifier.notify()
        return written.is_new

    def close(self) -> None:
        """Stop calling functions of definitions."""
        self._declared.close()
