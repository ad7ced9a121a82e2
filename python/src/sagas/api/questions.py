"""The read calls of an open store."""

from __future__ import annotations

import asyncio
import builtins
import importlib
import os
from collections.abc import Iterable
from typing import TypeVar

from sagas.api.shared_calls import SharedCalls
from sagas.api.store_access import StoreAccess
from sagas.base import program
from sagas.base.errors import NoSuchSaga
from sagas.core.database_map import MapRow
from sagas.core.shard.batch import SagaRow
from sagas.core.attempt.waits import active_attempts
from sagas.core.nodes import NodeStatus
from sagas.core.pauses import Pause
from sagas.core.results import ActiveAttempt, HistoryEvent
from sagas.definition import drawing
from sagas.definition.payloads import Payloads
from sagas.engine.plan import Plan
from sagas.inspection import saga as one_saga
from sagas.inspection.question import AsyncStoreReader, Question
from sagas.runtime.coordinator import Coordinator
from sagas.storage import store_name
from sagas.storage.blob_layer import BlobDatabase
from sagas.storage.factory import definition_names
from sagas.storage.interface import Reader

T = TypeVar("T")


def file_node(coordinator: Coordinator) -> NodeStatus:
    """Return the only node of a file: this program."""
    figures = coordinator.shards.relocation.moves.figures()
    name, run = store_name.node_name(None), str(os.getpid())
    return NodeStatus(
        name,
        run,
        importlib.import_module("sagas").__version__,
        coordinator.registry.digest,
        tuple(definition_names(coordinator.registry)),
        coordinator.opened_at,
        shards=len(coordinator.shards.runners),
        open_sagas=figures.open_sagas,
        running=figures.running,
        concurrency=figures.concurrency,
        is_stopping=figures.is_stopping,
    )


class Questions(SharedCalls):
    """Read an open store. These calls change nothing."""

    def __init__(self, access: StoreAccess) -> None:
        self._access = access

    async def _answer(self, question: Question[T]) -> T:
        store = self._access.coordinator_here().store
        return await AsyncStoreReader(store.read, store.read_long).ask(question)

    async def _row(self, key: str) -> SagaRow:
        """Return the row of a saga.

        Raises `NoSuchSaga`, also for a client's start that no node has opened.
        """
        row = await self._access.coordinator_here().store.find(key)
        if row is None or row.id < 0:
            raise NoSuchSaga(f"no saga has the key {key!r}")
        return row

    async def _has_key(self, key: str) -> bool:
        """Return whether the database has a saga, or a start, with this key."""
        coordinator = self._access.coordinator_here()
        is_live = key in coordinator.sagas.by_key
        return is_live or await coordinator.store.find(key) is not None

    async def _read_map(self) -> MapRow | None:
        """Return the map of a store over several databases, as this one has it."""
        from sagas.storage.postgresql import database_maps

        read = self._access.coordinator_here().store.read
        return database_maps.row_of(await read(database_maps.READ))

    async def database_of(self, key: str) -> str:
        """Return the URL of the database that has a key, or that a start of it goes to.

        If the store has one database, it is that one, or the file.

        Args:
            key: The saga's key.

        Raises:
            StoreUnavailable: The database does not answer.
            Closed: The store is closed.
        """
        return self._location()

    def active_attempts(self, key: str) -> builtins.list[ActiveAttempt]:
        """Return the attempts of a saga that have started, and what each waits for.

        It reads nothing from the store, so the list of a saga that another node executes is empty.

        Args:
            key: The saga's key.

        Raises:
            Closed: The store is closed.
        """
        coordinator = self._access.coordinator
        return active_attempts(coordinator.sagas.by_key.get(key), coordinator.clock())

    async def log(self, key: str) -> builtins.list[HistoryEvent]:
        """Return a saga's events so far, in order.

        Args:
            key: The saga's key.

        Raises:
            NoSuchSaga: No saga has the key.
            StoreUnavailable: The database does not answer.
            Closed: The store is closed.
        """
        read = self._access.coordinator.registry.payloads.read
        return await self._answer(one_saga.log(await self._row(key), read))

    async def plan(self, key: str) -> Plan | None:
        """Return a saga's last plan, with its certificate.

        Args:
            key: The saga's key.

        Returns:
            The `Plan`; None if there was none, because nothing failed.

        Raises:
            NoSuchSaga: No saga has the key.
            StoreUnavailable: The database does not answer.
            Closed: The store is closed.
        """
        return await self._answer(one_saga.plan((await self._row(key))))

    async def draw(self, key: str, *, unfold: Iterable[str] = ()) -> str:
        """Return a saga's last plan, or its definition, as text for Graphviz.

        Args:
            key: The saga's key.
            unfold: As for `Saga.draw` (default: none).

        Raises:
            NoSuchSaga: No saga has the key.
            EngineError: The program `sagas` cannot be run.
            StoreUnavailable: The database does not answer.
            Closed: The store is closed.
        """
        row = await self._row(key)
        if (last_plan := await self._answer(one_saga.plan(row))) is not None:
            return await asyncio.to_thread(last_plan.draw, unfold=unfold)
        text = await self._answer(one_saga.definition(row.id))
        return drawing.fold(await asyncio.to_thread(program.draw, text), text, {*unfold})

    async def audit(self) -> dict[str, str]:
        """Audit every shard, including shards that still grow.

        Returns:
            The verdict by the shard's name. It begins with `yes` if every event was allowed.

        Raises:
            EngineError: The program `sagas` cannot be run.
            StoreUnavailable: The database does not answer.
            Closed: The store is closed.
        """
        return await self._access.coordinator_here().shards.auditor.all_shards()

    async def nodes(self) -> builtins.list[NodeStatus]:
        """Return the nodes of the store, by name.

        Those that have ended are returned while they have shards or are drained. A file has one.

        Raises:
            StoreUnavailable: The database does not answer.
            Closed: The store is closed.
        """
        coordinator = self._access.coordinator_here()
        if coordinator.store.supports_nodes:
            return await super().nodes()
        return [file_node(coordinator)]

    def _holds(self) -> bool:
        """Return whether this node still has its lease, as far as it knows."""
        return self._access.coordinator.store.holds()

    @property
    def _payloads(self) -> Payloads:
        """What encodes and decodes the stored values."""
        return self._access.coordinator.registry.payloads

    async def _whole_text(self, text: str) -> str:
        """Return a stored text; if it refers to a value in the blob store, that value.

        Raises:
            StoreUnavailable: The blob store does not answer.
        """
        store = self._access.coordinator.store
        return await store.blobs.text(text) if isinstance(store, BlobDatabase) else text

    @property
    def _pauses(self) -> builtins.list[Pause]:
        """The pauses that this program obeys now."""
        return [*self._access.coordinator.pauses.pauses]

    @property
    def _commits(self) -> int:
        """How many transactions this program has written."""
        return self._access.coordinator.store.commits

    def _now(self) -> float:
        """Return the store's wall time, in seconds since 1970."""
        return self._access.coordinator.clock()

    def _reader(self) -> Reader:
        """Open another connection, for a thread that only reads.

        Raises:
            StoreUnavailable: The database does not answer.
            Closed: The store is closed.
        """
        return self._access.coordinator.store.reader()
