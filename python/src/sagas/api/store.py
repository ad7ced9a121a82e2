"""An open store, and how it is opened."""

from __future__ import annotations

import asyncio
import builtins
import contextlib
import datetime
import os
from collections.abc import Coroutine, Iterable, Mapping, Sequence
from types import TracebackType
from typing import TYPE_CHECKING, Any

from sagas.api.child_operations import ChildOperations
from sagas.api.claims import Deliveries, Workers
from sagas.api.database_set import is_several
from sagas.api.operators import Operators
from sagas.api.run import Run
from sagas.api.settings import DEFAULTS, Settings
from sagas.api.shared_calls import over_own_connection
from sagas.api.store_access import StoreAccess
from sagas.base import program as program_module
from sagas.base.errors import Closed, InvalidStore, TemporaryError, WouldWaitForever
from sagas.base.events import EventEmitter, Hook
from sagas.base.logger import logger
from sagas.base.stop_signals import until_stopped
from sagas.core.decisions import request_fields
from sagas.core.shard.batch import SagaRow
from sagas.core.attempt.instance import SagaInstance
from sagas.definition.saga_result import SagaResult
from sagas.definition.payloads import Codec
from sagas.definition import arguments, call_options, payloads, serialization, tracing
from sagas.definition.payloads import BlobStore, check_blobs
from sagas.definition.labels import Labels
from sagas.definition.saga import Saga
from sagas.definition.registry import DefinitionRegistry
from sagas.definition.start_options import Deadline, I, NO_INPUT
from sagas.definition.call_options import Seconds
from sagas.runtime import (
    invocation,
    operator_commands,
    retention as retention_module,
)
from sagas.runtime.client_starts import StartReader
from sagas.runtime.coordinator import Coordinator
from sagas.runtime.scheduler import Scheduler
from sagas.storage import factory, store_name
from sagas.storage.blob_layer import BlobDatabase
from sagas.storage.schedules import Schedule, Schedules

if TYPE_CHECKING:
    from sagas.api.client_start import CallerStarter


def open(
    path: str | os.PathLike[str] | Sequence[str],
    sagas: Iterable[Saga[Any]],
    *,
    concurrency: int = 16,
    accept_new: bool = True,
    threads: int | None = None,
    shutdown_timeout: Seconds | None = None,
    on_event: Hook | None = None,
    node: str | None = None,
    lease: Seconds = 10.0,
    retention: datetime.timedelta | None = None,
    archive_dir: str | os.PathLike[str] | None = None,
    context: Any = None,
    codec: Codec | None = None,
    blobs: BlobStore | None = None,
    blob_threshold: int = 65_536,
    record: str | os.PathLike[str] | None = None,
    direct_url: str | Sequence[str] | None = None,
    settings: Settings = DEFAULTS,
) -> Store:
    """Open a store: `async with sagas.open("trips.db", [trip]) as store`.

    Definitions and arguments are checked at once; the file or the server, and the program `sagas`,
    when the store is entered.

    Args:
        path: A SQLite file, which is created if it does not exist, for one program at a time. Or
            `postgresql://user@host/database`, for any number of programs: each is a node. When a
            node ends, the others execute its sagas. Or a list of several URLs, in the order of the
            store's map: the store is then a `StoreSet`, and a saga lives in one of the databases.
        sagas: The definitions, at least one.
        concurrency: Maximum number of functions that run at once (default: 16). Steps that wait for
            a time or for a decision take no slot.
        accept_new: Whether to start new sagas (default: True). If not, only open ones continue.
        threads: Maximum number of plain functions that run at once (default: `concurrency`).
            Functions of definitions, such as `when` and `until`, have as many threads, at least 4.
        shutdown_timeout: Seconds, or a timedelta, after which closing cancels running functions
            (default: never).
        on_event: A plain function that is called in the event loop with each `Event`.
        node: This node's name (default: of host and process). A node that restarts under its name
            gets its sagas back at once.
        lease: Seconds, or a timedelta, without a heartbeat of a node after which other nodes
            execute its sagas (default: 10).
        retention: A timedelta for which ended sagas are kept (default: without limit). They are
            deleted together with all sagas below them; then their keys are free again.
        archive_dir: A directory to which shards and single sagas are written before they are
            deleted.
        context: What functions get as `task.context` (default: none): an object; or a function that
            returns a context manager, which is entered and left together with the store.
        codec: Encodes inputs and results before they are stored, for example to encrypt them
            (default: they are stored as JSON).
        blobs: Where inputs and results over `blob_threshold` are kept (default: in the database).
        blob_threshold: Bytes of a value, as it is stored (default: 65,536).
        record: PostgreSQL only: a file to which the node adds the replies to its commits and its
            acknowledgements, for `sagas store URL record` (default: the one that the
            environment variable `SAGAS_RECORD` names, if any).
        direct_url: PostgreSQL only: the URL of the server itself, if `path` is that of a pooler
            that pools transactions. Questions and claims use the pooler, and all else the server
            (default: `path`, which has to be the server or a pooler of sessions). For several
            databases, a list.
        settings: For tests and tuning (default: `Settings()`).

    Returns:
        The store, to be entered.

    Raises:
        DefinitionError: A definition is not valid.
        InvalidStore: The path is not a path.
        TypeError: An argument has the wrong type.
        ValueError: An argument is out of range.

    Example:
        >>> async def main():
        ...     async with sagas.open("orders.db", [order]) as store:
        ...         run = await store.start(order, "order-1", {"amount": 40})
        ...         return await run.wait(timeout=60)
        >>> print(asyncio.run(main()))
        refund 40
        order order-1: recovered, plan of cost 4
          undone    charge
          failed    send: sagas.Fail: sold out
    """
    options = locals()
    if is_several(path):
        try:
            from sagas.api.store_set import StoreSet

            store: Store = StoreSet(**options)
        except ImportError as error:
            raise store_name.missing_client(error) from error
    else:
        store = Store(**options)
    store.opened_with = options
    return store


class Store(Operators):
    """Hold an open store of sagas. Made by `sagas.open`, and used by `async with`.

    Make all calls in the event loop in which it was opened.

    Attributes:
        leased: Whether workers claim the tasks of steps with `external=True` (default: False). Set
            it before opening. Then such a step starts when it is claimed.
        workers: The tasks for workers.
        deliveries: The deliveries for webhooks.
        opened_with: The arguments of `sagas.open`, by name, for `--app` of commands.
    """

    opened_with: Mapping[str, Any] = {}

    def __init__(
        self,
        path: str | os.PathLike[str],
        sagas: Iterable[Saga[Any]],
        *,
        concurrency: int,
        accept_new: bool,
        threads: int | None,
        shutdown_timeout: Seconds | None,
        on_event: Hook | None,
        node: str | None,
        lease: Seconds,
        retention: datetime.timedelta | None,
        archive_dir: str | os.PathLike[str] | None,
        context: Any,
        codec: Codec | None,
        blobs: BlobStore | None,
        blob_threshold: int,
        record: str | os.PathLike[str] | None,
        direct_url: str | None,
        settings: Settings,
    ) -> None:
        threads = concurrency if threads is None else threads
        counts = {"concurrency": concurrency, "threads": threads}
        for name, number in counts.items():
            arguments.count(name, number)
        if not isinstance(settings, Settings):
            raise TypeError(f"settings={arguments.shown(settings)}: must be a sagas.Settings")
        if on_event is not None:
            arguments.calls("on_event", on_event, "that takes an Event")
        arguments.node(node)
        arguments.keeping(retention, archive_dir)
        self._name = arguments.path(path)
        self._node, self._lease = node, arguments.time("lease", lease, none=False)
        self._retention, self._archive_dir = retention, archive_dir
        check_blobs(blobs, blob_threshold)
        self._blobs = blobs, blob_threshold
        self._server_options: dict[str, Any] = {
            "record": arguments.record(record),
            "direct_url": arguments.url("direct_url", direct_url),
        }
        self._registry = DefinitionRegistry(sagas, payloads.checked(codec, blobs is not None))
        self._options: dict[str, Any] = {
            **counts,
            "engine_processes": settings.engine_processes,
            "idle": call_options.seconds(settings.idle),
            "clock": settings.clock,
        }
        self._tracer = tracing.tracer()
        self._options |= {"context": context, "tracer": self._tracer}
        self._shutdown_timeout = (
            None
            if shutdown_timeout is None
            else arguments.time("shutdown_timeout", shutdown_timeout)
        )
        self._teller = EventEmitter(on_event, settings.clock)
        self._program = settings.program
        access = StoreAccess(store_name.shown_name(self._name))
        super().__init__(access, self._name, self._registry, accept_new)
        self._requests: operator_commands.RequestExecutor | None = None
        self.workers = Workers(self._access)
        self.deliveries = Deliveries(self._access, self._registry)
        self._caller_starter: CallerStarter | None = None
        self.leased = False

    @property
    def path(self) -> str:
        """The file of the store, or its database without the password."""
        return self._access.path

    def _location(self) -> str:
        location = super()._location()
        return self._server_options["direct_url"] or location

    @property
    def sagas(self) -> builtins.list[Saga[Any]]:
        """The definitions that the store was opened with."""
        return [*self._registry.declared]

    @property
    def codec(self) -> Codec | None:
        """The codec of values, or None."""
        return self._registry.payloads.codec

    async def __aenter__(self) -> Store:
        """Open the store: take the lock, and continue each open saga.

        Raises:
            StoreLocked: Another program has the file open. Or a codec was given, and a node without
                one has the database open.
            StoreUnavailable: The file or the server does not answer.
            InvalidStore: It is not a store, or not one that this program can continue. Or the
                folder or the database does not exist, or refuses this user.
            ImportError: The store is a database, and its driver is not installed.
            MissingCodec: Its values are encoded, and no codec was given.
            MissingStep: An open saga needs a step that this program has no function for, or may
                undo a completed child whose compensation this program does not have.
            EngineError: The program `sagas` cannot be started, or refuses a shard.
            RuntimeError: The store is open already.
        """
        with self._access.opened.opening(self.path):
            await self._open()
        return self

    async def _open(self) -> None:
        for saga in self._registry.sagas.values():
            for warning in saga.warnings():
                logger.warning("%s", warning)
        program_path = program_module.path(self._program)
        limit: Any = self._options["concurrency"]
        database = factory.make(
            self._name,
            self._registry,
            self._node,
            self._lease,
            limit,
            transactions,
            **self._server_options,
        )
        database = BlobDatabase.over(database, *self._blobs, self._registry.payloads)
        self._access.path = database.path
        options: dict[str, Any] = {"program": program_path, "teller": self._teller, **self._options}
        coordinator = self._access.opened_coordinator = Coordinator(
            database, self._registry, **options
        )
        coordinator.executor.children.operations = ChildOperations(
            self._access, self._lookup, self._starter, self._commands
        )
        coordinator.external.leased = coordinator.executor.machine.leased = self.leased
        try:
            await coordinator.open()
        except BaseException:
            await coordinator.close(0.0)
            raise
        self._requests = operator_commands.RequestExecutor(
            coordinator, self._commands, self._reports, self._restarts
        )
        coordinator.listeners.append(self._requests.look)
        if self._starter.accepts_new:
            coordinator.listeners.append(StartReader(coordinator).look)
            scheduler = Scheduler(coordinator, self._start_scheduled, self._advance)
            coordinator.listeners.append(scheduler.look)
            coordinator.pauses.listeners.append(scheduler.look)
            coordinator.spawn(scheduler.run())
        steps = [step for saga in self._registry.sagas.values() for step in saga.all_steps]
        if any(step.early_unused == "compensate" for step in steps):
            coordinator.sagas.on_unused_report = self._reports.look
            coordinator.spawn(self._reports.run())
        coordinator.sagas.on_end_due = self._end_calls.look
        with contextlib.suppress(TemporaryError):  # it is read again
            await self._end_calls.read(coordinator)
        coordinator.spawn(self._end_calls.run(coordinator))
        database.watch(coordinator)
        if isinstance(database, BlobDatabase):
            coordinator.spawn(retention_module.sweep_blobs(database))
        if self._retention is not None:
            seconds = self._retention.total_seconds()
            coordinator.spawn(
                retention_module.keep(coordinator, database.file, seconds, self._archive_dir)
            )

    if not TYPE_CHECKING:  # a type checker reports that itself

        def __enter__(self) -> Store:
            raise TypeError(
                "a store of sagas.open needs `async with`. Without async, use `with "
                "sagas.open_sync(...)`"
            )

        def __exit__(self, *_: object) -> None:
            ...

    async def __aexit__(
        self,
        kind: type[BaseException] | None,
        error: BaseException | None,
        trace: TracebackType | None,
    ) -> None:
        await self.close()

    async def close(self, shutdown_timeout: Seconds | None = None) -> None:
        """Close the store: accept nothing new, and wait for running functions.

        Their outcomes are stored. A cancelled function runs again, with its idempotency key, when
        the store is opened again. Calls that still wait raise `Closed`. If this call is cancelled,
        the closing continues, and a further call waits for it.

        Args:
            shutdown_timeout: Seconds, or a timedelta, after which running functions are cancelled
                (default: as given to `open`).

        Raises:
            TypeError: It is not a time.
            ValueError: It is negative.
        """
        seconds = (
            self._shutdown_timeout
            if shutdown_timeout is None
            else arguments.time("shutdown_timeout", shutdown_timeout)
        )
        if self._access.opened.is_other_process:  # another process owns the store
            return
        if self._requests:
            self._requests.stop()
        try:
            if self._access.opened_coordinator:
                await self._access.opened_coordinator.close(seconds)
        finally:
            if self._is_over:
                self._access.opened.end()

    @property
    def _is_over(self) -> bool:
        """Whether the store is closed: a cancelled call of `close` may still continue."""
        coordinator = self._access.opened_coordinator
        return coordinator is None or coordinator.is_over

    def _replies(self, key: str) -> None:
        """Record that a service is about to reply that a saga is started."""
        coordinator = self._coordinator
        if acknowledgements := coordinator.executor.calls.acknowledgements:
            acknowledgements.replied(coordinator.sagas.by_key.get(key))

    @property
    def _coordinator(self) -> Coordinator:
        return self._access.coordinator

    @property
    def _refusal(self) -> asyncio.Future[InvalidStore]:
        """Done, with the reason, when this node can no longer execute anything."""
        return self._coordinator.refusal

    async def serve(self) -> None:
        """Wait for SIGTERM or SIGINT, in a program that only executes sagas.

        Then close the store: its sagas continue at another node, or when it is opened again.

        Raises:
            InvalidStore: The database has no tables of the store any more, and this node cannot
                create them. Then nothing is executed.
            Closed: The store is not open.
        """
        refusal = self._refusal
        await until_stopped(refusal)
        if refusal.done():
            raise refusal.result()

    async def start(
        self,
        saga: Saga[I],
        key: str,
        input: I = NO_INPUT,
        *,
        labels: Labels | None = None,
        deadline: Deadline | None = None,
        traceparent: str | None = None,
        connection: object | None = None,
    ) -> Run:
        """Start a saga, or return the one with this key.

        The call is idempotent. When it returns, the saga is durable: it continues even if this
        program dies.

        Args:
            saga: A definition that was given to `open`.
            key: The saga's identity, for example an order number: 1 to 512 printable characters,
                without `/:`. It is used as long as the saga is kept.
            input: What the steps read as `task.input`: JSON, or a value of their type hints
                (default: None).
            labels: Texts by name, by which lists find the saga: `{"customer": "7"}` (default:
                none). The labels of the first start of a key count.
            deadline: When the saga is aborted if it has not ended: seconds or a timedelta from now
                on, or a datetime with a time zone (default: that of `Saga`). That of the first
                start of a key counts. A deadline in the past aborts the saga at once, and calls no
                function.
            traceparent: The W3C trace context that the saga is started in (default: of the current
                span, if `opentelemetry-api` is installed). That of the first start of a key counts.
            connection: A connection to the same PostgreSQL database, with an open transaction
                (default: a connection of the store): a `psycopg.AsyncConnection`, a connection of
                asyncpg, or SQLAlchemy's `AsyncConnection` or `AsyncSession`. The saga is written in
                that transaction, and exists if and only if it commits. If this call raises, it
                wrote nothing there.

        Returns:
            The saga. `Run.new` says whether this start created it.

        Raises:
            KeyConflict: The key belongs to a saga of another name or input.
            StoreUnavailable: The saga could not be written: repeat the call.
            TooLarge: The saga has too many steps or needs for its input.
            InvalidKey: The key is not valid.
            InvalidInput: The input does not have a type that the saga or its functions name.
            InvalidLabel: A label is not valid.
            StartsPaused: An operator has paused new sagas of the definition.
            TypeError: The deadline is not a time, the trace context not a text, or the connection
                of a kind that is not taken.
            ValueError: The deadline is negative, or the trace context is not valid. Or the
                connection has no open transaction, is to another database, or the store is a file.
            NotSerializable: The input is not JSON.
            DefinitionError: The store was not opened with the saga.
            Closed: The store is closed, or was opened with `accept_new=False`.
            RuntimeError: The call is made in another event loop.
        """
        if connection is not None:
            starter = self._starter_for_callers()
            adapter = starter.take_async(connection, "Store.start")
            request = starter.start_request(saga, key, input, labels, deadline, traceparent)
            await self._check_caller_start(saga, input)
            return Run(self, key, await starter.start(request, adapter))
        return await self._start(None, saga, key, input, labels, deadline, traceparent)

    async def _store_of(self, key: str) -> Store:
        """Return the store of the database that has a key, or that a start of it goes to."""
        return self

    def _starter_for_callers(self) -> CallerStarter:
        """Return what writes starts by connections of callers. It needs psycopg.

        Raises `ValueError` if the store is a file, and `Closed`.
        """
        database = self._access.coordinator.store
        if not database.supports_nodes:
            raise ValueError(
                f"{self.path}: nothing was written: connection= needs a store over PostgreSQL, and "
                "this one is a SQLite file. Start the saga after your transaction, without it"
            )
        if self._caller_starter is None:
            from sagas.api.client_start import CallerStarter

            payloads = self._registry.payloads
            self._caller_starter = CallerStarter(database.read, self.path, payloads)
        return self._caller_starter

    async def _check_caller_start(self, saga: Saga[Any], input: Any) -> None:
        """Raise what a start without `connection=` raises for this saga and input."""
        self._access.coordinator_here()
        if not self._starter.accepts_new:
            raise Closed(f"{self.path}: opened with accept_new=False, so it starts no new sagas")
        if refusal := self._access.coordinator.pauses.refusal(saga.name):
            raise refusal
        await self._check_input(saga, serialization.write_value(input, "input"))

    async def _start(
        self,
        token: str | None,
        saga: Saga[Any],
        key: str,
        input: Any,
        labels: Labels | None,
        deadline: Deadline | None,
        traceparent: str | None,
    ) -> Run:
        """Start a saga. `token` is the name of a service's token, or None."""
        trace = traceparent
        if traceparent is not None or self._tracer is not None:
            trace = tracing.of_start(self._tracer, traceparent)
        new = await self._starter.start(saga, key, input, labels, deadline, trace, token)
        return Run(self, key, new)

    async def restart(
        self, key: str, new_key: str, *, by: str | None = None, note: str | None = None
    ) -> Run:
        """Start an ended saga again, under a new key.

        The new saga has the input and the labels of the old one. Its definition is the one that the
        program has today under the same name and version, with its own deadline. It has new
        idempotency keys, so each of its effects is a new one. The old saga stays unchanged, and the
        two refer to one another. The call is idempotent. When it returns, the new saga is durable.

        Only a stuck, recovered or resolved saga is restarted. If a stuck saga has left effects,
        repair them first, and resolve it.

        Args:
            key: The key of the old saga.
            new_key: The key of the new saga, as for `start`.
            by: The person or program that requests it. The store keeps it with `note` and the time.
            note: The reason.

        Returns:
            The new saga. `Run.new` says whether this call created it.

        Raises:
            NotRestartable: The old saga is open, has completed, or is a child.
            KeyConflict: The new key belongs to a saga that is not a restart of the old one.
            DefinitionError: No program that has the store open has the definition.
            InvalidInput: The functions of the present definition cannot read the input.
            CannotDecode: The codec or the blob store cannot read the input.
            NoSuchSaga: No saga has the key.
            InvalidKey: The new key is not valid.
            StoreUnavailable: The saga could not be written: repeat the call.
            Closed: The store is closed, or was opened with `accept_new=False`.
            RuntimeError: The call is made in another event loop.

        Example:
            >>> async def again():
            ...     async with sagas.open("orders.db", [order]) as store:
            ...         await (await store.start(order, "order-7", {"amount": 40})).wait()
            ...         run = await store.restart("order-7", "order-7-2", note="back in stock")
            ...         return await run.wait(timeout=60)
            >>> print(asyncio.run(again()))
            refund 40
            refund 40
            order order-7-2: recovered, plan of cost 4
              undone    charge
              failed    send: sagas.Fail: sold out
        """
        return await self._restart(None, key, new_key, by, note)

    async def _restart(
        self, token: str | None, key: str, new_key: str, by: str | None, note: str | None
    ) -> Run:
        """Restart a saga. `token` is the name of a service's token, or None."""
        clock = self._access.coordinator_here().clock
        trace = tracing.of_start(self._tracer, None)
        value = serialization.write({**request_fields(by, note), "new_key": new_key})
        command = key, "restart", value, clock()
        new = await self._restarts.restart(key, new_key, command, None, trace, token)
        return Run(self, new_key, new)

    async def _check_input(self, saga: Saga[Any], text: str) -> None:
        fitted = await self._coordinator.declared.fit(self._registry, saga, text)
        if fitted.wrong:
            raise fitted.wrong

    async def _start_scheduled(self, schedule: Schedule, key: str) -> None:
        saga = self._registry.sagas[schedule.saga, schedule.version]
        input = self._registry.payloads.decode_value(schedule.input)
        await self._starter.start(saga, key, input, schedule.labels, None)

    async def _advance(self, schedule: Schedule, *change: Any) -> None:
        await over_own_connection(
            self._name, lambda link: Schedules(link).advance(schedule, *change)
        )

    async def get(self, key: str) -> Run | None:
        """Return the saga with this key; None if no node has started one.

        Args:
            key: The saga's key.

        Raises:
            StoreUnavailable: The database does not answer.
            Closed: The store is closed.
        """
        coordinator = self._access.coordinator_here()
        live = coordinator.sagas.by_key.get(key)
        if live and live.committed:
            return Run(self, key)
        row = await coordinator.store.find(key)
        return Run(self, key) if row and row.id >= 0 else None

    async def wait(self, key: str, timeout: float | None = None) -> SagaResult:
        """Wait until a saga has ended. A saga that fails raises nothing: look at `ok`.

        Args:
            key: The saga's key.
            timeout: Seconds (default: without limit).

        Returns:
            How it ended.

        Raises:
            TimeoutError: It has not ended in time. The message says what it waits for.
            NoSuchSaga: No saga has the key.
            WouldWaitForever: The call is made in a step without which the saga cannot end.
            Closed: The store is closed.
            RuntimeError: The call is made in another event loop.
        """
        return await self._lookup.wait(key, timeout)

    async def waits_for(self, key: str) -> builtins.list[str]:
        """Return what a saga waits for, in words; nothing if another node executes it.

        Args:
            key: The saga's key.

        Raises:
            Closed: The store is closed.
        """
        return await self._lookup.waits_for(key)

    async def _over(self, key: str) -> SagaInstance | SagaRow:
        """Wait until a saga has ended, for callers that read its row. See `Store.wait`."""
        return await self._lookup.over(key)

    def _until_ended(self, key: str) -> Coroutine[Any, Any, SagaResult]:
        """Wait until a saga has ended, for callers that limit the time themselves."""
        return self._lookup.until_ended(key)

    async def _until_idle(self) -> None:
        """Wait until no saga is open, for callers that are no steps."""
        await self._coordinator.settled()

    async def wait_idle(self) -> None:
        """Wait until no saga is open.

        Raises:
            WouldWaitForever: The call is made in a step.
            Closed: The store is closed.
        """
        if caller := invocation.waiter(self._coordinator.executor.calls.running):
            raise WouldWaitForever(
                f"step {caller.name!r} of saga {caller.instance.key!r} waits until no saga is "
                "open, but its own is. Wait for that outside of a step"
            )
        await self._coordinator.settled()


def transactions(*arguments: Any) -> Any:
    """Return the caller of functions in transactions of PostgreSQL. It needs psycopg."""
    from sagas.runtime.transactional_steps import Transactions

    return Transactions(*arguments)
