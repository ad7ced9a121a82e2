"""Starts the sagas that call `on_end` functions after the ends of other sagas."""

from __future__ import annotations

import asyncio
import contextlib
from collections.abc import Mapping
from typing import Any

from sagas.api.store_access import SagaLookup, Starter
from sagas.base.errors import (
    Closed,
    KeyConflict,
    MissingStep,
    NoSuchSaga,
    SagaMoved,
    SagasError,
    TemporaryError,
)
from sagas.base.logger import logger
from sagas.core import history
from sagas.core.shard.batch import Batch, SagaRow, StoredSaga
from sagas.definition import child_sagas
from sagas.definition.compiled import CompiledDefinition
from sagas.definition.definition_text import end_name_of
from sagas.definition.end_calls import input_of
from sagas.definition.start_options import StartOptions
from sagas.runtime import stored_values
from sagas.runtime.coordinator import Coordinator
from sagas.storage import queries

PAUSE = 30.0
"""Seconds between checks for calls that another node, or an earlier try, left."""
RETRY_PAUSE = 1.0
"""Seconds until a call is tried again that a temporary error kept from being started."""
AT_ONCE = 32
"""Maximum number of calls that are started at once."""
DUE = """
SELECT s.id, s.key, h.detail FROM suspensions h JOIN sagas s ON s.id = h.id
WHERE h.step = -1 AND h.reason = 'end_call' ORDER BY h.since
"""
PARENT = "SELECT c.parent FROM sagas s LEFT JOIN children c ON c.id = s.id WHERE s.key = ?"
TRACE = "SELECT traceparent FROM sagas WHERE id = ?"


class EndCalls:
    """Starts a saga for each `on_end` call that is due.

    The commit of a saga's end stores that its call is due, and a later one, after the start of the
    calling saga, deletes that. In between, any program may start it, because its key identifies one
    saga. A call that no program can start is kept, with the reason for `attention`.
    """

    def __init__(self, lookup: SagaLookup, starter: Starter) -> None:
        self._lookup, self._starter = lookup, starter
        self._changed = asyncio.Event()
        self._next_read = 0.0
        self._faults: dict[int, str] = {}
        """Why calls could not be started, as stored, by the ids of the sagas that have ended."""

    def look(self) -> None:
        """Start the calls that are due, because a saga has ended."""
        self._changed.set()

    async def read(self, coordinator: Coordinator) -> None:
        """Read which calls are due, also those that other programs have left."""
        rows = await coordinator.store.read(DUE)
        self._faults = {int(id): str(detail) for id, _, detail in rows if detail is not None}
        coordinator.sagas.due_ends |= {int(id): str(key) for id, key, _ in rows}
        self._next_read = coordinator.loop.time() + PAUSE

    async def run(self, coordinator: Coordinator) -> None:
        """Start calls until the store closes."""
        loop, sagas = coordinator.loop, coordinator.sagas
        while not coordinator.closed:
            self._changed.clear()
            if loop.time() >= self._next_read:
                with contextlib.suppress(TemporaryError):
                    await self.read(coordinator)
            await self._start_all(coordinator, dict(sagas.due_ends))
            pause = RETRY_PAUSE if sagas.due_ends else self._next_read - loop.time()
            with contextlib.suppress(TimeoutError):
                async with asyncio.timeout(max(RETRY_PAUSE, pause)):
                    await self._changed.wait()

    async def _start_all(self, coordinator: Coordinator, due: Mapping[int, str]) -> None:
        """Start calls, some at a time."""
        left = iter(due.items())

        async def start_some() -> None:
            for id, key in left:
                await self._start_or_note(coordinator, id, key)

        async with asyncio.TaskGroup() as group:
            for _ in range(min(AT_ONCE, len(due))):
                group.create_task(start_some())

    async def _start_or_note(self, coordinator: Coordinator, id: int, key: str) -> None:
        """Start the call of a saga, or store why this program cannot."""
        batch, fault = Batch(-1, coordinator.clock()), None
        try:
            if await self._start(coordinator, id, key):
                batch.rare_rows.end_called.append((id,))
        except (Closed, TemporaryError, SagaMoved):
            return  # it is tried again
        except NoSuchSaga:
            pass
        except Exception as error:
            detail = f": {error}" if isinstance(error, SagasError) else ""
            fault = f"{type(error).__name__}{detail}"
            if self._faults.get(id) != fault:
                batch.rare_rows.end_faults.append((fault, id))
                logger.warning("on_end of saga %r is not called yet: %s", key, fault)
        try:
            if batch:
                await coordinator.kept(batch)
        except SagasError:  # a further try finds the saga that was started
            return
        if fault is not None:
            self._faults[id] = fault
        coordinator.sagas.end_call_left(id)

    async def _start(self, coordinator: Coordinator, id: int, key: str) -> bool:
        """Start the saga that calls `on_end`; return False if it is left to another node.

        Raises:
            MissingStep: No program that has the store open has the function.
            CannotDecode: The codec cannot read what is stored.
            NoSuchSaga: The saga was deleted.
        """
        number = 1
        while True:
            end_key = child_sagas.end_key(key, number)
            parent = await self._parent_of(coordinator, end_key)
            if parent == id:
                return True
            if parent is not None:  # of an earlier saga with the key
                number += 1
                continue
            row = await self._lookup.row(key, id)
            known = await coordinator.store.known(row)
            kind = coordinator.registry.kind(known.definition)
            end_kind = coordinator.registry.end_kind(kind)
            if end_kind is None:
                await self._check_elsewhere(coordinator, kind)
                return False
            input = await self._input(coordinator, row, kind, known)
            options = await self._options(coordinator, row)
            try:
                if await self._starter.start_child(end_kind, end_key, input, options):
                    return True
            except KeyConflict:  # another program was faster: the next turn finds its saga
                if await self._parent_of(coordinator, end_key) is None:
                    raise

    async def _parent_of(self, coordinator: Coordinator, end_key: str) -> int | None:
        """Return the id of the parent of a saga, -1 if it has none; None if none has the key."""
        for (parent,) in await coordinator.store.read(PARENT, end_key):
            return -1 if parent is None else int(parent)
        return None

    async def _check_elsewhere(self, coordinator: Coordinator, kind: CompiledDefinition) -> None:
        """Raise `MissingStep` if no other node has the function."""
        name = queries.start_of_kind(end_name_of(kind.name), kind.version)
        store = coordinator.store
        if not (store.supports_nodes and await store.read(queries.NODES_WITH, name)):
            raise MissingStep(
                f"this program has no on_end function of saga {kind.name!r} (version "
                f"{kind.version}). Declare it again, and open the store with it"
            )

    async def _input(
        self, coordinator: Coordinator, row: SagaRow, kind: CompiledDefinition, known: StoredSaga
    ) -> dict[str, Any]:
        """Return the input of the calling saga. All programs compute the same.

        The note of an operator, who may resolve a stuck saga, is not a part of its end.
        """
        decode, shape = kind.payloads.decode, known.shape
        row = row._replace(note=None)
        end = history.stored_result(kind, row, known.results, shape, is_typed=False)
        text = decode(await stored_values.input_of(coordinator.store, row.id, row.input))
        return input_of(text, end, kind.text, None if shape is None else decode(shape))

    async def _options(self, coordinator: Coordinator, row: SagaRow) -> StartOptions:
        """Return the labels and the trace context of the ended saga."""
        read = coordinator.store.read
        labels = queries.visible_labels(await read(queries.LABELS_OF, row.id))
        traces = await read(TRACE, row.id)
        trace = next((trace for (trace,) in traces), None)
        return StartOptions(labels, parent=row.id, traceparent=trace)
