"""Restarts: new sagas with the definition, input and labels of ended ones."""

from __future__ import annotations

import asyncio
import json
from collections.abc import Awaitable, Callable

from sagas.api.commands import Commands
from sagas.api.store_access import SagaLookup, Starter, StoreAccess
from sagas.base.errors import DefinitionError, KeyConflict, NoSuchSaga, NotRestartable
from sagas.core.shard.batch import Batch, RequestRef, SagaRow
from sagas.core.states import SagaPhase
from sagas.definition import arguments, serialization
from sagas.definition.arguments import BELOW
from sagas.definition.definition_text import version_of
from sagas.definition.erasure import erasure_of
from sagas.definition.labels import RESTART, restart_value
from sagas.runtime import stored_values
from sagas.storage import queries

PHASE = f"SELECT {queries.PHASE} FROM sagas s WHERE id = ?"
LINK = f"SELECT 1 FROM labels WHERE id = ? AND name = '{RESTART}' AND value = ?"
COMMANDS = "SELECT value FROM operator_commands WHERE key = ? AND command = 'restart'"
RESTARTABLE = (SagaPhase.STUCK, SagaPhase.RECOVERED, SagaPhase.RESOLVED)
"""The phases of sagas that can be restarted."""
REMEDY = {
    SagaPhase.OPEN: "is open. Wait for its end, or abort it",
    SagaPhase.COMPLETED: "has completed. Start a new saga",
}


def is_restartable(key: str, phase: str) -> bool:
    """Return whether a saga with this key, in this phase, can be restarted."""
    return BELOW not in key and SagaPhase(phase) in RESTARTABLE


def check_restartable(key: str, phase: str) -> None:
    """Raise `NotRestartable` if a saga with this key, in this phase, cannot be restarted."""
    if BELOW in key:
        raise NotRestartable(
            f"saga {key!r} was started by another saga, so it is not restarted. Restart "
            f"{arguments.root_of(key)!r} instead"
        )
    if SagaPhase(phase) not in RESTARTABLE:
        raise NotRestartable(f"saga {key!r} {REMEDY[SagaPhase(phase)]}")


def _check_not_erased(row: SagaRow) -> None:
    if erasure := erasure_of(row.input):
        raise NotRestartable(f"saga {row.key!r} was {erasure.text}. Start a new saga instead")


class Restarts:
    """Starts sagas again, under new keys.

    The new saga and its link to the old one are one commit. The command in the history of the old
    saga follows: if the program dies before, the repeated call writes it.
    """

    def __init__(
        self, access: StoreAccess, lookup: SagaLookup, starter: Starter, commands: Commands
    ) -> None:
        self._access, self._lookup = access, lookup
        self._starter, self._commands = starter, commands
        self._storing = asyncio.Lock()
        self.route: Callable[[str], Awaitable[Restarts]] = self._here
        """Returns what starts a new key: of another database, if the store has several."""

    async def _here(self, new_key: str) -> Restarts:
        return self

    async def restart(
        self,
        key: str,
        new_key: str,
        request: RequestRef,
        of: int | None = None,
        trace: str | None = None,
        token: str | None = None,
    ) -> bool:
        """Start a saga again under a new key; return whether this call created the new saga.

        `of` is the id of the saga, if a later saga with the same key is not meant. `trace` and
        `token` are as in `Starter.start`.
        """
        arguments.key(new_key)
        row = await self._lookup.row_with_end(key, of)
        coordinator = self._access.coordinator
        phases = await coordinator.store.read(PHASE, row.id)
        check_restartable(key, str(phases[0][0]) if phases else SagaPhase.OPEN.value)
        _check_not_erased(row)
        known = await coordinator.store.known(row)
        version = version_of(known.definition)
        saga = coordinator.registry.sagas.get((row.saga, version))
        if saga is None:
            await self._check_elsewhere(key, row.saga, version)
            was_there = await (await self.route(new_key)).has(new_key)
            await self._commands.hand_over(row, "restart", {"new_key": new_key}, request)
            return not was_there
        text = await stored_values.input_of(coordinator.store, row.id, row.input)
        input = serialization.read(coordinator.registry.payloads.decode(text))
        labels = queries.visible_labels(await coordinator.store.read(queries.LABELS_OF, row.id))
        await self._check_unchanged(row)  # else the labels may be gone, and the input not
        there = await self.route(new_key)
        is_new = await there._starter.start(
            saga, new_key, input, labels, None, trace, token, (row.id, key)
        )
        if not is_new:
            await there._check_link(row, new_key)
        await self._store_command(key, new_key, request)
        return is_new

    async def has(self, key: str) -> bool:
        """Return whether the database has a saga with this key."""
        return await self._access.coordinator.store.find(key) is not None

    async def _check_unchanged(self, row: SagaRow) -> None:
        """Raise an error if a saga was erased or deleted while it was read."""
        row_now = await self._access.coordinator.store.find(row.key)
        if row_now is None or row_now.id != row.id:
            raise NoSuchSaga(f"saga {row.key!r} was deleted while it was read")
        _check_not_erased(row_now)

    async def _check_elsewhere(self, key: str, saga: str, version: int) -> None:
        """Raise `DefinitionError` if no other node has a definition."""
        store = self._access.coordinator.store
        if not (
            store.supports_nodes
            and await store.read(queries.NODES_WITH, queries.start_of_kind(saga, version))
        ):
            raise DefinitionError(
                f"saga {key!r} is not restarted: no program that has the store open has "
                f"{saga!r} of version {version}. Declare it again, or start a new saga of a later "
                "version"
            )

    async def _check_link(self, row: SagaRow, new_key: str) -> None:
        """Raise `KeyConflict` if the saga with the new key does not restart this one."""
        store = self._access.coordinator.store
        new = await self._lookup.row(new_key)
        if not await store.read(LINK, new.id, restart_value(row.id, row.key)):
            raise KeyConflict(
                f"the key {new_key!r} belongs to a saga that is not a restart of {row.key!r}. "
                "Nothing was started. Use another key"
            )

    async def _store_command(self, key: str, new_key: str, request: RequestRef) -> None:
        """Store the command of a caller, unless the history of the old saga has it.

        The command of an operator is in the store already, and is answered there.
        """
        if request is None or isinstance(request, int):
            return
        coordinator = self._access.coordinator
        async with self._storing:
            rows = await coordinator.store.read(COMMANDS, key)
            if any(json.loads(value or "{}").get("new_key") == new_key for (value,) in rows):
                return
            batch = Batch(-1, coordinator.clock())
            batch.answer(request, "true")
            await coordinator.kept(batch)
