"""A client of a PostgreSQL store: it starts and inspects sagas, and executes none."""

from __future__ import annotations

import builtins
import inspect
import json
import os
import secrets
from collections.abc import Callable, Coroutine, Sequence
from types import TracebackType
from typing import TYPE_CHECKING, Any, TypeVar

from sagas.api import client_start, database_set, store_access
from sagas.api.commands import check_repeated_report
from sagas.api.restarts import check_restartable
from sagas.api.shared_calls import SharedCalls, declared_names
from sagas.base.errors import Closed, InvalidStore, NoSuchSaga
from sagas.base.fork_guard import OpenState
from sagas.core import attention, history, reports
from sagas.core.database_map import MapRow, check_alone
from sagas.core.attempt import waits
from sagas.core.decisions import request_fields
from sagas.core.shard.batch import SagaRow, StoredSaga
from sagas.core.outcomes import Outcome, reported_outcome
from sagas.core.results import HistoryEvent
from sagas.definition.saga_result import SagaResult
from sagas.core.states import SagaPhase
from sagas.definition.payloads import MIN_THRESHOLD, Codec, Payloads
from sagas.definition import arguments, child_sagas, payloads, serialization
from sagas.definition.payloads import BlobStore, check_blobs
from sagas.definition.compiled import CompiledDefinition
from sagas.definition.definition_text import version_of
from sagas.definition.labels import Labels
from sagas.definition.saga import Saga
from sagas.definition.start_options import Deadline, I, NO_INPUT
from sagas.definition.step import Step
from sagas.engine.plan import Plan
from sagas.inspection import saga as one_saga
from sagas.inspection.question import AsyncStoreReader, Question
from sagas.inspection.views import Waits
from sagas.runtime import operator_commands, stored_values
from sagas.storage import operator_requests, queries
from sagas.storage.blob_layer import Blobs
from sagas.storage.store_name import FORM
from sagas.storage.postgresql import (
    connections as connections_module,
    database_maps,
    lookups,
    node_lease,
    notifications,
    pooler_urls,
    saga_requests,
    schema,
)
from sagas.storage.postgresql.application_name import Purpose
from sagas.storage.record_file import RecordFile, record_path

if TYPE_CHECKING:
    from sagas.storage.postgresql.connections import Row

T = TypeVar("T")
WAITS = """
SELECT step, action, reason, until FROM suspensions WHERE id = ? AND number > 0 ORDER BY since
"""
LEFT_BY = f"SELECT i.version, {queries.OTHERS} FROM pending_starts i WHERE i.id = %(id)s"
RESOLVE = f"""
WITH done AS (
    UPDATE sagas AS s SET note = %(note)s
    WHERE key = %(key)s AND {queries.RESOLVABLE} AND note IS NULL RETURNING 1
),
noted AS (INSERT INTO operator_commands(key, command, value, at, answer)
  SELECT %(key)s, 'resolve', %(details)s::text, extract(epoch FROM clock_timestamp()), 'true'
  FROM done)
SELECT 1 FROM done
"""


def _signature_of(init: Callable[..., None]) -> inspect.Signature:
    """Return the signature of a class whose `__new__` only selects a subclass."""
    signature = inspect.signature(init)
    return signature.replace(parameters=[*signature.parameters.values()][1:])


class Client(SharedCalls):
    """Start and inspect sagas of a PostgreSQL store, without executing any.

    Use it by `async with sagas.Client("postgresql://...") as client`, with all calls in the event
    loop in which it was opened. It has no engine process, no shard and no lease.

    Attributes:
        path: The database, without the password.
    """

    def __new__(cls, url: str | Sequence[str] = "", *_args: Any, **_options: Any) -> Client:
        """Return a client; over several databases a `ClientSet`."""
        if cls is Client and database_set.is_several(url):
            from sagas.api.client_set import ClientSet

            cls = ClientSet
        return super().__new__(cls)

    def __init__(
        self,
        url: str | Sequence[str],
        *,
        connections: int = 4,
        codec: Codec | None = None,
        blobs: BlobStore | None = None,
        record: str | os.PathLike[str] | None = None,
        direct_url: str | Sequence[str] | None = None,
    ) -> None:
        """Make a client, to be entered by `async with`.

        Args:
            url: The store's database. If the store has several, a list of all of them, in the order
                of its map.
            connections: Maximum number of concurrent statements (default: 4). One more connection
                listens for notifications.
            codec: As for `sagas.open` (default: values are stored as JSON).
            blobs: As for `sagas.open`: where large results are read (default: in the database).
            record: As for `sagas.open`: a file that records the ends that this client has seen.
            direct_url: The URL of the server itself, for notifications, if `url` is that of a
                pooler that pools transactions (default: over such a pooler, a call that waits asks
                each second).

        Raises:
            InvalidStore: It is not a URL of PostgreSQL.
            ValueError: The number of connections is not valid.
        """
        if not isinstance(url, str) or not (direct_url is None or isinstance(direct_url, str)):
            raise InvalidStore(
                f"{arguments.shown(url)}: this is not a URL of a PostgreSQL database. Write {FORM}"
            )
        arguments.count("connections", connections)
        self._url, self.path = connections_module.hosts_of(url), connections_module.named(url)
        self._asker = connections_module.Asker(self._url, self.path, connections, Purpose.CLIENT)
        self._asker.late = self._look_at_hosts
        direct_url = arguments.url("direct_url", direct_url)
        self._direct_url = connections_module.hosts_of(direct_url) if direct_url else None
        self._reader = AsyncStoreReader(self._read, self._read)
        self._opened = OpenState("the client")
        self._notifier: notifications.Notifications | None = None
        self._record = RecordFile.of(record_path(arguments.record(record)), secrets.token_hex(4))
        self._kinds: dict[str, CompiledDefinition] = {}
        check_blobs(blobs, MIN_THRESHOLD)
        self._payloads = payloads.checked(codec)
        self._blobs = (
            Blobs(blobs, MIN_THRESHOLD, self._payloads, self.path) if blobs is not None else None
        )
        self._sagas: dict[tuple[str, int], Saga[Any]] = {}
        self._is_member = False
        self._starter = client_start.ClientStarter(
            self._asker, self.path, connections, self._payloads
        )

    @property
    def codec(self) -> Codec | None:
        """The codec of values, or None."""
        return self._payloads.codec

    async def __aenter__(self) -> Client:
        """Connect.

        Raises:
            StoreUnavailable: The server does not answer.
            InvalidStore: The database does not exist, or refuses this user. Or it has no tables of
                the store: a node or `sagas store URL init` makes them. Or the URL is that of a
                pooler that pools statements, or `direct_url` one that pools transactions.
            StoreSchemaTooNew: The tables are of a later version.
            MissingCodec: The store's values are encoded, and this client has no codec.
            StoreLocked: This client has a codec, and a node without one has the store open.
            RuntimeError: The client is open already.
        """
        with self._opened.opening(self.path):
            await self._open()
        return self

    if not TYPE_CHECKING:  # a type checker reports that itself

        def __enter__(self) -> Client:
            raise TypeError(
                "a sagas.Client needs `async with`. Without async, use `with "
                "sagas.SyncClient(...)`"
            )

        def __exit__(self, *_: object) -> None:
            ...

    async def _open(self) -> None:
        if self._direct_url is None:
            await connections_module.check_access(self._url, self.path, Purpose.CLIENT)
        else:
            await pooler_urls.check(self._url, self._direct_url)
        await self._asker.open()
        try:
            version = (await self._asker.read("SELECT to_regclass('sagas.store') IS NOT NULL"))[0][
                0
            ] and (await self._asker.read("SELECT version FROM sagas.store"))[0][0]
            schema.check(version, self.path)
            if not version:
                raise InvalidStore(
                    f"{self.path}: the store has no tables yet. Start a node, or run `sagas store "
                    "URL init`"
                )
            if not self._is_member and (await self._asker.read(database_maps.HAS_TABLE))[0][0]:
                row = database_maps.row_of(await self._asker.read(database_maps.READ_NOW))
                check_alone(row, self.path)
            await node_lease.agree_on_encoding(self._asker, self._payloads.codec is not None)
            if self._record:
                self._record.open()
        except BaseException:
            await self._asker.close()
            raise
        polls = self._url.is_pooled and self._direct_url is None
        listen_url = None if polls else self._direct_url or self._url
        self._notifier = notifications.Notifications(listen_url, lambda message: None)
        self._asker.attach(self._notifier.listener)

    def _look_at_hosts(self) -> None:
        """Check the hosts, because a statement took too long.

        A server that was replaced may be waiting for its standby.
        """
        if self._url.are_several:
            self._asker.spawn(self._choose_host())

    async def _choose_host(self) -> None:
        before = self._url.turn
        await self._url.choose(connections_module.address(self._url, Purpose.HOSTS))
        if self._url.turn != before and self._notifier is not None:
            await self._asker.renew(cuts=True)

    async def __aexit__(
        self,
        kind: type[BaseException] | None,
        error: BaseException | None,
        trace: TracebackType | None,
    ) -> None:
        await self.close()

    async def close(self) -> None:
        """Close the connections."""
        if self._opened.is_other_process:  # another process owns the connections
            return
        notifier, self._notifier = self._notifier, None
        try:
            if notifier:
                await notifier.close()
                await self._asker.close()
        finally:
            self._starter.close()
            self._opened.end()
            if self._record:
                self._record.close()

    @property
    def _open_notifier(self) -> notifications.Notifications:
        self._opened.check(self.path)
        if self._notifier is None:
            raise Closed(
                f"{self.path}: the client is not open. Use `async with sagas.Client(...) as "
                "client`"
            )
        return self._notifier

    async def database_of(self, key: str) -> str:
        """Return the URL of the database that has a key, or that a start of it goes to.

        If the store has one database, it is that one.

        Args:
            key: The saga's key.

        Raises:
            StoreUnavailable: The database does not answer.
            Closed: The client is closed.
        """
        self._open_notifier
        return str(self._url)

    # -- sagas

    async def _check_input(self, saga: Saga[Any], text: str) -> None:
        self._starter.check_input(saga, text)

    async def start(
        self,
        saga: Saga[I],
        key: str,
        input: I = NO_INPUT,
        *,
        labels: Labels | None = None,
        deadline: Deadline | None = None,
        traceparent: str | None = None,
        connection: object | None = None,
    ) -> ClientRun:
        """Start a saga, or return the one with this key. See `Store.start`.

        When it returns, a node will execute the saga, even if this program dies.

        Args:
            saga: The definition. The nodes must have it.
            connection: As for `Store.start`. A second start of the key waits for the end of the
                transaction (default: a connection of the client).

        Raises:
            StoreUnavailable: The connection is closed or failed. Or the server, or a synchronous
                standby, does not answer in 21 seconds: start it again, with the same key.
            TransactionConflict: The transaction of `connection` met another one: repeat all of it.
            ValueError: The connection has no open transaction, or is to another database.
            TypeError: The connection is of another kind, for example one that blocks its thread.
            Closed: The client is closed.
        """
        self._open_notifier
        adapter = None
        if connection is not None:
            adapter = self._starter.take_async(connection, "sagas.Client")
        request = self._starter.start_request(saga, key, input, labels, deadline, traceparent)
        await self._starter.check_shape(saga, input)
        self._sagas[saga.name, saga.version] = saga
        if adapter is None:
            new = await self._starter.start_alone(request)
        else:
            new = await self._starter.start(request, adapter)
        return ClientRun(self, key, request, new)

    async def wait(self, key: str, timeout: float | None = None) -> SagaResult:
        """Wait until a saga has ended. See `Store.wait`."""
        return await self._in_time(key, self._wait(key, None), timeout)

    async def _in_time(
        self, key: str, work: Coroutine[Any, Any, SagaResult], timeout: float | None
    ) -> SagaResult:
        if timeout is None:
            return await work
        return await store_access.in_time(key, work, timeout, lambda: self.waits_for(key))

    async def _wait(self, key: str, request: dict[str, Any] | None) -> SagaResult:
        turn, before = 0, None
        while True:
            row = await stored_values.until_answered(lambda: self._row(key))
            if request:
                client_start.check_same(request, [(row.saga, row.input)])
            if row.phase is not None:
                if self._record:
                    self._record.seen(row.id, "client")
                return await self._end(row)
            waits.check_refused(row)
            turn, before = (turn + 1 if row.id == before else 0), row.id
            await self._open_notifier.of(row.id, turn)

    async def abort(self, key: str, *, by: str | None = None, note: str | None = None) -> bool:
        """Abort a saga, and wait for its node's reply. See `Store.abort`.

        A start that no node has opened is withdrawn at once, and then no saga has the key.
        """
        row = await self._row(key)
        if row.phase is not None:
            return False
        child_sagas.check_abortable(key)
        value = serialization.write(request_fields(by, note) if by is not None else None)
        return bool(await self._request(row, "abort", value))

    async def complete(
        self,
        key: str,
        step: Step[Any] | str,
        result: Any = None,
        *,
        undo: bool = False,
        early: bool = True,
        by: str | None = None,
        note: str | None = None,
    ) -> None:
        """Report that a step succeeded. See `Store.complete`."""
        outcome = reported_outcome(result, None)
        await self._report(await self._row(key), step, outcome, undo, early, by, note)

    async def fail(
        self,
        key: str,
        step: Step[Any] | str,
        error: str,
        *,
        undo: bool = False,
        early: bool = True,
        by: str | None = None,
        note: str | None = None,
    ) -> None:
        """Report that a step failed permanently. See `Store.fail`."""
        outcome = reported_outcome(None, error)
        await self._report(await self._row(key), step, outcome, undo, early, by, note)

    async def retry(
        self,
        key: str,
        step: Step[Any] | str,
        *,
        undo: bool = False,
        by: str | None = None,
        note: str | None = None,
    ) -> None:
        """Attempt an exhausted step again. See `Store.retry`."""
        await self._retry(await self._row(key), step, undo, by, note)

    async def _retry(
        self, row: SagaRow, step: Step[Any] | str, undo: bool, by: str | None, note: str | None
    ) -> None:
        if row.phase is not None:
            raise reports.ended_error(row)
        name, kind = step if isinstance(step, str) else step.name, "undo" if undo else "run"
        requester = {} if by is None else request_fields(by, note)
        value = serialization.write({**requester, "step": name, "kind": kind})
        await self._request(row, "retry", value)

    async def _settle(self, wait: Waits, outcome: Outcome | None, details: dict[str, Any]) -> None:
        row = await self._row(wait.key)
        if row.id != wait.id:  # another saga has the key by now
            raise NoSuchSaga(f"saga {wait.key!r} does not exist any more")
        by, note = details["by"], details["note"]
        if outcome is None:
            await self._retry(row, wait.step, wait.undo, by, note)
        else:
            await self._report(row, wait.step, outcome, wait.undo, False, by, note)

    def _declared(self) -> dict[str, builtins.list[str]]:
        return declared_names(self._sagas.values())

    async def _request(self, row: SagaRow, command: str, value: str) -> Any:
        """Ask the node that executes the saga; return its reply, or raise its error."""
        asker, payloads = self._asker, self._payloads
        answer = await saga_requests.ask(asker, self._open_notifier, row, command, value, payloads)
        return operator_requests.checked_answer(answer)

    async def _report(
        self,
        row: SagaRow,
        step: Step[Any] | str,
        outcome: Outcome,
        undo: bool,
        early: bool,
        by: str | None,
        note: str | None,
    ) -> None:
        kind, name = "undo" if undo else "run", step if isinstance(step, str) else step.name
        if row.phase is not None:
            await self._check_kept(row, name, kind, outcome)
            return
        await node_lease.agree_on_encoding(self._asker, self._payloads.codec is not None)
        command, arguments = operator_commands.report_command(
            name, kind, outcome, early, self._payloads
        )
        requester = {} if by is None else request_fields(by, note)
        await self._request(row, command, serialization.write({**requester, **arguments}))

    async def _check_kept(self, row: SagaRow, step: str, kind: str, outcome: Outcome) -> None:
        """Check a report of a saga that has ended. See `check_repeated_report`."""
        names = self._kind(row, (await self._known(row)).definition).names
        await check_repeated_report(self._read, row, names, (step, kind), outcome, self._payloads)

    # -- questions

    async def get(self, key: str) -> ClientRun | None:
        """Return the saga with this key, or None. See `Store.get`.

        A start that no node has opened counts as a saga here.
        """
        return ClientRun(self, key) if await self._find(key) else None

    async def _answer(self, question: Question[T]) -> T:
        return await self._reader.ask(question)

    def _stored(self) -> Payloads:
        return self._payloads

    def _location(self) -> str:
        self._open_notifier
        return self._direct_url or self._url

    async def resolve(self, key: str, note: str, *, by: str | None = None) -> None:
        """Mark a saga as resolved. See `Store.resolve`."""
        arguments.text("note", note, "what was done about it")
        note = serialization.clean(note)
        details = serialization.write(request_fields(by, note))
        if not await self._ask(RESOLVE, key=key, note=note, details=details):
            row = await self._row(key)
            unused = await self._ask(queries.named(attention.UNUSED_REPORTS, "id"), id=row.id)
            attention.is_to_resolve(row, note, bool(unused))

    async def compensate(
        self, key: str, step: Step[Any] | str, *, by: str | None = None, note: str | None = None
    ) -> None:
        """Compensate a step whose report was not used. See `Store.compensate`.

        A node that has the definition executes the command.
        """
        name = step if isinstance(step, str) else step.name
        arguments = {**request_fields(by, note), "step": name}
        await self._request(await self._row(key), "compensate", serialization.write(arguments))

    async def restart(
        self, key: str, new_key: str, *, by: str | None = None, note: str | None = None
    ) -> ClientRun:
        """Start an ended saga again, under a new key. See `Store.restart`.

        A node that has the definition executes the command, and this call waits for it.
        """
        arguments.key(new_key)
        before = await self._find(new_key)
        await self._request_restart(key, new_key, by, note)
        return ClientRun(self, new_key, None, before is None)

    async def _request_restart(
        self, key: str, new_key: str, by: str | None, note: str | None
    ) -> None:
        row = await self._row(key)
        if row.phase is None:
            check_restartable(key, SagaPhase.OPEN)
        value = serialization.write({**request_fields(by, note), "new_key": new_key})
        await self._request(row, "restart", value)

    async def plan(self, key: str) -> Plan | None:
        """Return a saga's last plan. See `Store.plan`."""
        row = await self._row(key)
        return None if row.id < 0 else await self._answer(one_saga.plan(row))

    async def log(self, key: str) -> builtins.list[HistoryEvent]:
        """Return a saga's events so far. See `Store.log`."""
        row = await self._row(key)
        return [] if row.id < 0 else await self._answer(one_saga.log(row, self._payloads.read))

    async def waits_for(self, key: str) -> builtins.list[str]:
        """Return what a saga waits for, as the database has it. See `Store.waits_for`."""
        row = await self._row(key)
        if row.id < 0:
            holders = await self._ask(LEFT_BY, id=-row.id)
            is_left = holders and holders[0][1]
            return [
                waits.missing_definition(row.saga, *holders[0]) if is_left else waits.NO_NODE_YET
            ]
        without_node = [str(text) for (text,) in await self._read(queries.NO_NODE_OF, row.id)]
        rows = await self._read(WAITS, row.id)
        if not rows:
            return without_node
        known = await self._known(row)
        names = self._kind(row, known.definition).names
        return [*without_node, *waits.stored_waits(names, rows)]

    async def _ask(self, query: str, **parameters: Any) -> builtins.list[Row]:
        self._open_notifier
        return await self._asker.read(query, **parameters)

    async def _read(self, query: str, *parameters: Any) -> builtins.list[Row]:
        """Return the rows of a query with a `?` for each parameter."""
        self._open_notifier
        text, cells = queries.for_postgresql(query), serialization.cleaned(parameters)
        rows = await self._asker.rows(text, *cells)
        return rows if self._blobs is None else await self._blobs.rows(rows)

    async def _find(self, key: str) -> SagaRow | None:
        keys = [serialization.clean(key)] if isinstance(key, str) else []  # only texts are keys
        rows = [SagaRow(*row) for row in await self._ask(lookups.FIND, keys=json.dumps(keys))]
        return max(rows, key=lambda row: row.id) if rows else None

    async def _has_key(self, key: str) -> bool:
        """Return whether the database has a saga, or a start, with this key."""
        return await self._find(key) is not None

    async def _read_map(self) -> MapRow | None:
        """Return the map of a store over several databases, as this one has it."""
        return database_maps.row_of(await self._read(database_maps.READ))

    async def _client_of(self, key: str) -> Client:
        """Return the client of the database that has a key, or that a start of it goes to."""
        return self

    async def _row(self, key: str) -> SagaRow:
        row = await self._find(key)
        if row is None:
            raise NoSuchSaga(f"no saga has the key {key!r}")
        return row

    async def _known(self, row: SagaRow) -> StoredSaga:
        """Return what the store has of a saga. Raises `NoSuchSaga` if it was deleted."""
        query = queries.known_query(row.id, history=False)
        return queries.known(await self._read(*query), row.key)

    def _kind(self, row: SagaRow, text: str) -> CompiledDefinition:
        """Return the definition of a text; that of this client's start, if there is one."""
        if text not in self._kinds:
            saga = self._sagas.get((row.saga, version_of(text)))
            self._kinds[text] = CompiledDefinition(text, saga, payloads=self._payloads)
        return self._kinds[text]

    async def _end(self, row: SagaRow) -> SagaResult:
        known = await self._known(row)
        kind = self._kind(row, known.definition)
        return history.stored_result(kind, row, known.results, known.shape)


setattr(Client, "__signature__", _signature_of(Client.__init__))


class ClientRun:
    """Follow a saga that a client started, or found by its key. Made by `Client`.

    Attributes:
        key: The saga's key.
        new: Whether this start wrote the saga, because its key was free. It is also True if a node
            started the key at the same moment, or if the caller's transaction does not commit. It
            is False if the connection was lost during the commit, and the start had to be repeated.
    """

    def __init__(
        self, client: Client, key: str, request: dict[str, Any] | None = None, new: bool = False
    ) -> None:
        self._client, self.key, self._request, self.new = client, key, request, new

    async def wait(self, timeout: float | None = None) -> SagaResult:
        """Wait until the saga has ended. See `Client.wait`.

        Raises:
            KeyConflict: A node started the key with another input at the same moment.
        """
        work = self._client._wait(self.key, self._request)
        return await self._client._in_time(self.key, work, timeout)

    async def abort(self) -> bool:
        """Abort the saga. See `Client.abort`."""
        return await self._client.abort(self.key)

    async def complete(
        self, step: Step[Any] | str, result: Any = None, *, undo: bool = False, early: bool = True
    ) -> None:
        """Report that a step succeeded. See `Store.complete`."""
        await self._client.complete(self.key, step, result, undo=undo, early=early)

    async def fail(
        self, step: Step[Any] | str, error: str, *, undo: bool = False, early: bool = True
    ) -> None:
        """Report that a step failed permanently. See `Store.fail`."""
        await self._client.fail(self.key, step, error, undo=undo, early=early)

    async def plan(self) -> Plan | None:
        """Return the saga's last plan. See `Store.plan`."""
        return await self._client.plan(self.key)

    async def log(self) -> list[HistoryEvent]:
        """Return the saga's events so far. See `Store.log`."""
        return await self._client.log(self.key)

    def __repr__(self) -> str:
        return f"<run {self.key!r}>"
