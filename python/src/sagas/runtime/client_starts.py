"""Reads the starts that clients wrote into the store, and opens their sagas."""

from __future__ import annotations

import asyncio
from typing import Any, TYPE_CHECKING

from sagas.base.errors import CannotDecode, DefinitionError, InvalidInput, StoreUnavailable
from sagas.base.logger import logger
from sagas.core.shard.batch import Batch, PendingStart
from sagas.definition import undo_sagas
from sagas.definition.saga import Saga
from sagas.definition.registry import Fitted
from sagas.definition.start_options import StartOptions
from sagas.runtime.instances import conflict_with_stored

if TYPE_CHECKING:
    from sagas.runtime.coordinator import Coordinator

MANY = 64
"""Maximum number of starts that one read takes, so that other nodes get some too."""
LEAVE_SECONDS = 10.0
"""Seconds for which a start with an undecodable input is left to other nodes."""


class StartReader:
    """Reads starts of clients in batches, one after another."""

    def __init__(self, coordinator: Coordinator) -> None:
        self._coordinator, self._store = coordinator, coordinator.store
        self._definitions, self._sagas = coordinator.registry, coordinator.sagas
        self._commits, self._clock = coordinator.commits, coordinator.clock
        self._doubt = coordinator.shards.start_doubt
        self._is_taking = self._again = False
        self._left: dict[int, float] = {}
        self._fitted: set[int] = set()  # starts for which functions of definitions run

    def look(self) -> None:
        """Read starts, because there may be some."""
        self._again = True
        if not self._is_taking:
            self._is_taking = True
            self._coordinator.spawn(self._take())

    async def _take(self) -> None:
        try:
            while self._again and not self._coordinator.closed:
                self._again = False
                rows = await self._store.starts(MANY, self._under_way(), self._left_now())
                opening = (self._open(row) for row in rows)
                errors = await asyncio.gather(*opening, return_exceptions=True)
                for failure in errors:
                    if failure is not None:
                        raise failure
                self._again = self._again or len(rows) == MANY
        except Exception as error:
            logger.info("starts of clients could not be read: %s. Retrying", error)
            self._doubt.doubt(not self._coordinator.closed)
            if not isinstance(error, StoreUnavailable):
                raise
        finally:
            self._is_taking = False

    def _under_way(self) -> list[int] | None:
        """Return the starts in progress if claimed starts may be lost, otherwise None.

        The store returns all other starts of this node again.
        """
        if not self._doubt.settle():
            return None
        start_ids = [
            saga.client_start
            for saga in self._sagas.by_key.values()
            if saga.client_start is not None
        ]
        return [*start_ids, *self._fitted]

    def _left_now(self) -> list[int]:
        """Return the starts that are left to other nodes at this moment."""
        now = asyncio.get_running_loop().time()
        self._left = {id: until for id, until in self._left.items() if until > now}
        return [*self._left]

    async def _open(self, row: PendingStart) -> None:
        """Open a start; leave it to other nodes if this one cannot decode its input."""
        try:
            await self._begin(row)
        except CannotDecode as error:
            id, key, saga, *_ = row
            self._left[id] = asyncio.get_running_loop().time() + LEAVE_SECONDS
            logger.warning(
                "saga %r: the input of the start with the key %r cannot be decoded: %s. It is left "
                "to a node that can decode it",
                saga,
                key,
                error,
            )
            await self._store.give_back(id, None)

    async def _begin(self, row: PendingStart) -> None:
        id, key, saga, version, text, *_ = row
        by_key = self._sagas.by_key
        if id in self._fitted or (key in by_key and by_key[key].client_start == id):
            return
        stored = await self._store.find(key)
        if self._coordinator.closed:
            return
        if key in by_key and not (stored and stored.id >= 0):
            # started here too, and not stored yet: if that fails, this start counts
            self._doubt.doubt()
            return
        declared, payloads = self._definitions.sagas[saga, version], self._definitions.payloads
        if stored and stored.id >= 0:
            batch = Batch(-1, self._clock())
            error = await conflict_with_stored(
                self._store, key, declared, text, stored.saga, stored.input, payloads
            )
            batch.rare_rows.begun.append((id, stored.id if error is None else None))
            await self._commits.kept(batch)
            return
        try:
            undo_sagas.check_started(declared)
        except DefinitionError as error:
            await self._store.give_back(id, str(error))
            return
        value = payloads.decode(text)
        try:
            fitted = self._definitions.fit(declared, value)
        except Exception as error:  # raised by user code: its text may contain the input
            fitted = self._misfit(saga, error)
        if fitted is not None:
            await self._put(row, fitted)
            return
        self._fitted.add(id)  # in the background, so that slow functions delay no other start
        self._coordinator.spawn(self._fit(row, declared, value))

    @staticmethod
    def _misfit(saga: str, error: Exception) -> Fitted:
        invalid_input = InvalidInput(
            f"saga {saga!r}: a function of the definition raised {type(error).__name__} for this "
            "input. Correct the input or the function"
        )
        return Fitted(None, None, invalid_input)

    async def _fit(self, row: PendingStart, declared: Saga[Any], value: str) -> None:
        """Open a start whose steps come from its input."""
        definitions = self._definitions
        try:
            try:
                fitted = await self._coordinator.declared.fit(definitions, declared, value)
            except Exception as error:  # raised by user code: its text may contain the input
                fitted = self._misfit(declared.name, error)
            if not self._coordinator.closed:
                await self._put(row, fitted)
        except Exception as error:
            logger.info("retrying the start of a client: %s", error)
            self._doubt.doubt(not self._coordinator.closed)
            if not isinstance(error, StoreUnavailable):
                raise
        finally:
            self._fitted.discard(row[0])

    async def _put(self, row: PendingStart, fitted: Fitted) -> None:
        """Open a start with its definition, or refuse it if its input is invalid."""
        id, key, _, _, text, labels, deadline, traceparent = row
        kind, shape, error = fitted
        if kind is None:
            assert error
            await self._store.give_back(id, str(error))
            return
        if key in self._sagas.by_key:  # started here in the meantime: if that fails, this counts
            self._doubt.doubt()
            return
        options = StartOptions(labels, deadline, shape=shape, traceparent=traceparent)
        instance = self._sagas.add(key, text, kind, options)
        instance.client_start = id
        self._coordinator.shards.assign(instance)
