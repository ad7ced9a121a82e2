"""The operations that the runtime performs on child sagas."""

from __future__ import annotations

import asyncio
import functools
from typing import Any

from sagas.api.commands import Commands
from sagas.api.store_access import SagaLookup, Starter, StoreAccess
from sagas.core import history
from sagas.core.attempt.instance import SagaInstance
from sagas.definition.compiled import CompiledDefinition
from sagas.definition.parts import SagaParts
from sagas.definition.start_options import StartOptions
from sagas.inspection import saga as saga_questions, what_if
from sagas.inspection.question import AsyncStoreReader
from sagas.runtime import stored_values
from sagas.runtime.children import ChildEnd


class ChildOperations:
    """The operations that the runtime performs on child sagas, by key."""

    def __init__(
        self, access: StoreAccess, lookup: SagaLookup, starter: Starter, commands: Commands
    ) -> None:
        self._access, self._lookup = access, lookup
        self._starter, self._commands = starter, commands

    async def start(
        self, saga: SagaParts | CompiledDefinition, key: str, input: Any, options: StartOptions
    ) -> bool:
        """Start a child; return False if the key is used."""
        return await self._starter.start_child(saga, key, input, options)

    async def end(self, key: str) -> ChildEnd:
        """Wait until a saga has ended."""
        ended = await self._lookup.whole(key)
        if isinstance(ended, SagaInstance):
            end = history.live_result(ended)
            return ChildEnd(end, ended.id, ended.kind, ended.text, ended.results)
        coordinator = self._access.coordinator
        known = await stored_values.until_answered(
            functools.partial(coordinator.store.known, ended)
        )
        kind = coordinator.registry.kind(known.definition)
        results = {
            step: value or "null"
            for step, _, _, event, value, _ in known.results
            if event == "commit"
        }
        return ChildEnd(
            history.stored_result(kind, ended, known.results), ended.id, kind, ended.input, results
        )

    async def abort(self, key: str, by: str) -> None:
        """Abort a saga, unless it has ended."""
        await self._commands.abort(key, self._commands.command_row(key, "abort", by, None))

    async def is_dropped(self, key: str, id: int, step: int) -> bool:
        """Return whether a plan would undo a step if all running attempts succeed."""
        store = self._access.coordinator.store
        view = await AsyncStoreReader(store.read, store.read_long).ask(saga_questions.view(key))
        if view is None or view.id != id:
            return False
        answer = (await asyncio.to_thread(what_if.of, view)).plan.answer
        return "cost" in answer and step not in answer.get("kept", ())
