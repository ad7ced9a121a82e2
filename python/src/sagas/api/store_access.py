"""Access to the sagas of an open store by their keys: find, wait for and start one."""

from __future__ import annotations

import asyncio
import builtins
import contextlib
import dataclasses
import functools
from collections.abc import Awaitable, Callable, Coroutine
from typing import Any, TypeGuard, TypeVar

from sagas.base.errors import (
    CannotDecode,
    Closed,
    KeyConflict,
    NoSuchSaga,
    SagaMoved,
    SagasError,
    StartsPaused,
    StoreUnavailable,
)
from sagas.base.fork_guard import OpenState, private_descriptors
from sagas.core import history
from sagas.core.attempt import waits as waits_module
from sagas.core.shard.batch import NewStart, SagaRow
from sagas.core.attempt.instance import SagaInstance
from sagas.core.attempt.waits import timeout_error
from sagas.definition.saga_result import SagaResult
from sagas.definition import arguments, child_sagas, serialization, start_options, undo_sagas
from sagas.definition.compiled import CompiledDefinition
from sagas.definition.definition_text import digest_of
from sagas.definition.erasure import erasure_of
from sagas.definition.labels import RESTART, Labels, checked, restart_value, with_token
from sagas.definition.payloads import ABSENT
from sagas.definition.parts import SagaParts
from sagas.definition.saga import Saga, declared_text
from sagas.definition.registry import DefinitionRegistry, Fitted
from sagas.definition.start_options import Deadline, StartOptions, deadline_at
from sagas.runtime import instances, invocation, stored_values
from sagas.runtime.coordinator import Coordinator
from sagas.storage.queries import NO_NODE_OF

T = TypeVar("T")
SOON = 2.0
"""Seconds to find out what a saga waits for."""
LOOKUPS_AFTER_TAKEN_KEY = 1000
"""After a start with a taken key: the number of starts with new keys until a lookup is skipped."""
StartWork = Coroutine[Any, Any, bool]
"""Whether a start created the saga. Await it at once: its key is taken already."""


class StoreAccess:
    """The coordinator of a store, while the store is open."""

    def __init__(self, path: str) -> None:
        self.path = path
        self.opened = OpenState("the store")
        self.opened_coordinator: Coordinator | None = None

    @property
    def coordinator(self) -> Coordinator:
        """The coordinator. Raises `Closed` if the store is not open."""
        if self.opened_coordinator is None:
            raise Closed(
                f"{self.path}: the store is not open. Use `async with sagas.open(...) as store`"
            )
        if self.opened_coordinator.forks != private_descriptors.forks:
            self.opened.check(self.path)
        if self.opened_coordinator.closed:
            raise self.opened_coordinator.closed
        return self.opened_coordinator

    def coordinator_here(self) -> Coordinator:
        """Return the coordinator, for a call that waits in the store's loop.

        Raises `Closed`, and `RuntimeError` in another loop.
        """
        coordinator = self.opened_coordinator
        if (
            coordinator is None
            or coordinator.closed
            or coordinator.forks != private_descriptors.forks
        ):
            coordinator = self.coordinator  # raises
        if asyncio.get_running_loop() is not coordinator.loop:
            raise RuntimeError(
                f"{self.path}: the store was opened in another event loop. Make the call "
                "there, or use sagas.open_sync, for any thread"
            )
        return coordinator


async def in_time(
    key: str,
    work: Coroutine[Any, Any, T],
    timeout: float,
    waits: Callable[[], Awaitable[list[str]]],
) -> T:
    """Return the result of `work`; a timeout says what the saga waits for.

    Raises `TimeoutError`.
    """
    scope = asyncio.timeout(timeout)
    try:
        async with scope:
            return await work
    except TimeoutError:
        if not scope.expired():
            raise
    try:
        async with asyncio.timeout(SOON):
            waited_for = await waits()
    except TimeoutError:
        waited_for = ["its store does not answer"]
    except SagasError as error:
        waited_for = [str(error)]
    raise timeout_error(key, timeout, waited_for)


class KeyLookupPolicy:
    """Decide when a start may skip the lookup of its key.

    If the key turns out to be taken, the shard needs a new engine process, for which all its sagas
    wait. So after a start with a taken key, lookups are required for a while.

    Over PostgreSQL a start without a lookup saves a round trip. Over a file it gains nothing:
    measured on 2026-11-28, in instructions a saga of three steps, 0 % for 1 and for 256 at a time.
    """

    def __init__(self) -> None:
        self._looks = 0

    def may_skip_lookup(self) -> bool:
        """Whether the next start may skip the lookup, because recent keys were new."""
        return not self._looks

    def record_start(self, was_there: bool) -> None:
        """Record whether the key of a start was taken."""
        if was_there:
            self._looks = LOOKUPS_AFTER_TAKEN_KEY
        elif self._looks:
            self._looks -= 1


class SagaLookup:
    """Finds sagas by their keys, and waits for their ends."""

    def __init__(self, access: StoreAccess) -> None:
        self._access = access
        self.finding: dict[str, asyncio.Future[None]] = {}  # keys that are being looked up
        self.guessing = KeyLookupPolicy()

    async def live(self, key: str) -> SagaInstance | None:
        """Return the saga with this key, if this program executes it.

        It waits until the key is known to belong to the saga.
        """
        while (live := self._access.coordinator.sagas.by_key.get(key)) and live.has_unchecked_key:
            with contextlib.suppress(SagasError):  # its start raises that
                await self._access.coordinator.sagas.started(live)
        return live

    async def find(self, key: str) -> SagaRow | None:
        """Look up a key that is about to be started."""
        coordinator = self._access.coordinator
        finding = self.finding.setdefault(key, coordinator.loop.create_future())
        try:
            row = await coordinator.store.find(key)
            if row is not None:
                self.guessing.record_start(was_there=True)
            return row
        finally:
            self.finding.pop(key, None)
            if not finding.done():
                finding.set_result(None)

    async def row(self, key: str, of: int | None = None) -> SagaRow:
        """Return the row of a saga. Raises `NoSuchSaga`.

        `of` is the id of the saga, if a later saga with the same key is not meant.
        """
        row = await self._access.coordinator.store.find(key)
        if row is None or (of is not None and row.id != of):
            if row is None:
                raise NoSuchSaga(f"no saga has the key {key!r}")
            raise NoSuchSaga(
                f"the saga with the key {key!r} that this request was for does not exist any more"
            )
        return row

    async def row_with_end(self, key: str, of: int | None = None) -> SagaRow:
        """Return the row of a saga, with its end if it has ended here. See `row`."""
        live = await self.live(key)
        if live is not None and live.over:
            with contextlib.suppress(SagaMoved):
                await self._access.coordinator.sagas.ends.wait(live)
        return await self.row(key, of)

    def wait(self, key: str, timeout: float | None) -> Coroutine[Any, Any, SagaResult]:
        """Wait until a saga has ended, for at most `timeout` seconds."""
        if timeout is not None:
            work = self.until_ended(key)
            return in_time(key, work, timeout, lambda: self.waits_for(key))
        coordinator = self._access.coordinator_here()
        if caller := invocation.waiter(coordinator.executor.calls.running):
            return coordinator.waits.guard(caller, key, self.until_ended(key))
        return self.until_ended(key)

    async def until_ended(self, key: str) -> SagaResult:
        """Wait until a saga has ended, for callers that limit the time themselves."""
        coordinator = self._access.coordinator_here()
        live = coordinator.sagas.by_key.get(key)
        if live is not None and live.has_unchecked_key:
            live = await self.live(key)
        if live is not None:  # the common case: this program executes it
            try:
                await coordinator.sagas.ends.wait(live)
                if live.is_whole:
                    return history.live_result(live)
            except SagaMoved:
                pass
        over = await self.whole(key)
        if isinstance(over, SagaInstance):
            return history.live_result(over)
        return await stored_values.until_answered(functools.partial(self._end_of, over))

    async def _end_of(self, row: SagaRow) -> SagaResult:
        try:
            return await self._result_of(row)
        except CannotDecode:  # its large values may have been erased since its row was read
            now = await self.row(row.key, row.id)
            if erasure_of(now.input) is None:
                raise
            return await self._result_of(now)

    async def _result_of(self, row: SagaRow) -> SagaResult:
        coordinator = self._access.coordinator
        known = await coordinator.store.known(row)
        kind = coordinator.registry.kind(known.definition)
        return history.stored_result(kind, row, known.results, known.shape)

    async def whole(self, key: str) -> SagaInstance | SagaRow:
        """Wait until a saga has ended; return the saga, or its row.

        It is the row if large values of the saga are not in memory.
        """
        while True:
            over = await self.over(key)
            if isinstance(over, SagaRow) or over.is_whole:
                return over
            row = await stored_values.until_answered(lambda: self.row(key))
            if row.phase is not None:
                return row

    async def over(self, key: str) -> SagaInstance | SagaRow:
        """Wait until a saga has ended; return it if it was executed here, or its row."""
        turn, coordinator = 0, self._access.coordinator_here()
        while True:
            live = await self.live(key)
            if live is None:
                row = await stored_values.until_answered(lambda: self.row(key))
                if row.phase is not None:
                    if record := coordinator.store.record:
                        record.seen(row.id, "wake")
                    return row
                waits_module.check_refused(row)
                if key not in self._access.coordinator.sagas.by_key:
                    await coordinator.store.wait_for_end(row.id, turn)
                    turn += 1
            else:
                try:
                    await coordinator.sagas.ends.wait(live)
                    return live
                except SagaMoved:
                    pass
            coordinator = self._access.coordinator

    async def waits_for(self, key: str) -> builtins.list[str]:
        """Return what a saga waits for, in words.

        The list is empty for a saga that another node executes.
        """
        coordinator = self._access.coordinator
        live = coordinator.sagas.by_key.get(key)
        if live is None and (row := await coordinator.store.find(key)):
            if row.id < 0:
                return [waits_module.NO_NODE_YET]
            return [str(detail) for (detail,) in await coordinator.store.read(NO_NODE_OF, row.id)]
        return waits_module.live_waits(live)


def may_leave(saga: SagaParts | CompiledDefinition, options: StartOptions) -> TypeGuard[SagaParts]:
    """Return whether another node may start a saga.

    A child starts with its parent. The link of a restart is known only once its saga is open.
    """
    is_linked = options.parent is not None or RESTART in options.labels
    return not isinstance(saga, CompiledDefinition) and not is_linked


NO_OPTIONS = (None, None, None, None, None)
"""The optional arguments of `Starter.start`, if none is given."""


class Starter:
    """Starts sagas. Without `accepts_new`, it only finds existing ones."""

    def __init__(
        self,
        access: StoreAccess,
        lookup: SagaLookup,
        registry: DefinitionRegistry,
        accepts_new: bool,
    ) -> None:
        self._access, self._lookup, self._registry = access, lookup, registry
        self.accepts_new = accepts_new

    def start(
        self,
        saga: Saga[Any],
        key: str,
        input: Any,
        labels: Labels | None,
        deadline: Deadline | None,
        traceparent: str | None = None,
        token: str | None = None,
        restarts: tuple[int, str] | None = None,
    ) -> StartWork:
        """Start a saga; return whether this start created it.

        `token` is the name of a service's token, and `restarts` the id and key of the saga that
        this one restarts.
        """
        coordinator = self._access.coordinator_here()
        arguments.key(key)
        undo_sagas.check_started(saga)
        text = serialization.write_value(input, "input")
        fitted = self._registry.fit(saga, text)
        if saga.has_children:
            child_sagas.check_key(key, saga)
        options = start_options.NONE
        if deadline is None:
            deadline = saga.deadline
        if (labels, deadline, traceparent, token, restarts) != NO_OPTIONS:
            deadline_time, saga_labels = deadline_at(deadline, coordinator.clock()), checked(labels)
            saga_labels = (
                saga_labels if token is None else with_token(saga_labels, token, len(text))
            )
            if restarts is not None:
                saga_labels = {**saga_labels, RESTART: restart_value(*restarts)}
            options = StartOptions(saga_labels, deadline_time, None, None, traceparent)
        pauses = coordinator.pauses
        refusal = pauses.refusal(saga.name) if pauses.has_any else None
        if fitted is None:
            return self._shape(coordinator, saga, key, text, options, self.accepts_new, refusal)
        fitted = fitted if refusal is None else fitted._replace(wrong=refusal)
        return self._start(coordinator, saga, fitted, key, text, options, self.accepts_new)

    def start_child(
        self, saga: SagaParts | CompiledDefinition, key: str, input: Any, options: StartOptions
    ) -> StartWork:
        """Start a child, also if the store accepts no new sagas: its parent is not new.

        A saga that undoes a child is passed as its compiled definition.
        """
        coordinator = self._access.coordinator_here()
        arguments.key(key, or_child=True)
        # the input of a saga that undoes a child contains the child's results
        if isinstance(saga, CompiledDefinition):
            text = serialization.write(input, "input")
            return self._start(
                coordinator, saga, Fitted(saga, None, None), key, text, options, accepts=True
            )
        text = serialization.write_value(input, "input")
        fitted = self._registry.fit(saga, text)
        if fitted is None:
            return self._shape(coordinator, saga, key, text, options, accepts=True)
        return self._start(coordinator, saga, fitted, key, text, options, accepts=True)

    async def _shape(
        self,
        coordinator: Coordinator,
        saga: SagaParts,
        key: str,
        text: str,
        options: StartOptions,
        accepts: bool,
        refusal: StartsPaused | None = None,
    ) -> bool:
        """Start a saga whose steps come from its input, after computing the steps.

        Its key is not taken before that. `refusal`: why a new saga is refused.
        """
        fitted = await coordinator.declared.fit(self._registry, saga, text)
        fitted = fitted if refusal is None else fitted._replace(wrong=refusal)
        self._access.coordinator_here()  # it may be closed by now
        return await self._start(coordinator, saga, fitted, key, text, options, accepts)

    def _start(
        self,
        coordinator: Coordinator,
        saga: SagaParts | CompiledDefinition,
        fitted: Fitted,
        key: str,
        text: str,
        options: StartOptions,
        accepts: bool,
    ) -> StartWork:
        kind, shape, invalid = fitted
        if shape is not None:
            options = dataclasses.replace(options, shape=shape)
        text = self._registry.payloads.encode(text)
        is_new = invalid is None and accepts and key not in coordinator.sagas.by_key
        if coordinator.shards.relocation.moves.is_drained:
            is_new = False  # another node may start it
        if is_new and self._lookup.guessing.may_skip_lookup():  # judging by the last starts
            assert kind
            new = coordinator.sagas.add(key, text, kind, options)
            return self._begin(coordinator, new, guessed=True)
        return self._start_looked_up(coordinator, saga, fitted, key, text, options, accepts)

    async def _start_looked_up(
        self,
        coordinator: Coordinator,
        saga: SagaParts | CompiledDefinition,
        fitted: Fitted,
        key: str,
        text: str,
        options: StartOptions,
        accepts: bool,
    ) -> bool:
        """Start a saga after looking up its key."""
        lookup, payloads = self._lookup, self._registry.payloads
        kind, _, invalid = fitted
        live = coordinator.sagas.by_key.get(key)
        is_sound = invalid is None and accepts
        if live is not None and live.has_unchecked_key:
            live = await lookup.live(key)
        # otherwise its key is looked up with others, when it is assigned to a shard
        looks = not coordinator.store.answers_at_once or not is_sound
        row = await lookup.find(key) if looks and live is None else None
        live = coordinator.sagas.by_key.get(key)  # another start may have arrived
        stored = (live.kind.name, live.text) if live else (row.saga, row.input) if row else None
        if live and live.text == ABSENT and (row := await coordinator.store.find(key)):
            stored = row.saga, row.input
        if stored:
            kind_or_saga, store = kind or saga, coordinator.store
            error = await instances.conflict_with_stored(
                store, key, kind_or_saga, text, *stored, payloads
            )
            if error and live and not live.committed and coordinator.store.answers_at_once:
                # that start may have no right to the key either
                row = await coordinator.store.find(key)
                if row:
                    stored = row.saga, row.input
                    error = await instances.conflict_with_stored(
                        store, key, kind_or_saga, text, *stored, payloads
                    )
                    live = None
            if error:
                raise error
        elif not accepts:
            raise Closed(
                f"{self._access.path}: opened with accept_new=False, so it starts no new sagas"
            )
        elif invalid:
            raise invalid
        else:
            assert kind
            if coordinator.shards.relocation.moves.is_drained and may_leave(saga, options):
                if await self._is_left(saga, kind, key, text, options):
                    return True
                if await lookup.find(key) is not None:  # another start was first
                    again = coordinator, saga, fitted, key, text, options, accepts
                    return await self._start_looked_up(*again)
            new = coordinator.sagas.add(key, text, kind, options)
            return await self._begin(coordinator, new, guessed=False)
        if live and not live.committed:
            await coordinator.sagas.started(live)
        elif live is None:  # another node wrote it, and may not know yet that it is stored
            await coordinator.store.replicated()
        return False

    async def _is_left(
        self,
        saga: SagaParts,
        kind: CompiledDefinition,
        key: str,
        text: str,
        options: StartOptions,
    ) -> bool:
        """Leave a start to another node, because this one is drained; return whether that was done.

        Another start may have been first, or no other node has the definition.
        """
        store = self._access.coordinator.store
        declared = declared_text(saga) if saga.is_shaped else kind.text
        start = NewStart(
            key,
            saga.name,
            saga.version,
            digest_of(declared),
            text,
            dict(options.labels),
            options.deadline,
            options.traceparent,
        )
        if not await store.leave_start(start):
            return False
        turn = 0
        with contextlib.suppress(TimeoutError, StoreUnavailable):  # it is durable
            async with asyncio.timeout(SOON):
                while (row := await store.find(key)) is not None and row.id < 0:
                    await store.wait_for_end(row.id, turn)
                    turn += 1
        return True

    async def _begin(self, coordinator: Coordinator, live: SagaInstance, guessed: bool) -> bool:
        """Start a saga whose key seems to be free; return False if another node was first."""
        live.has_unchecked_key = guessed
        # before it is assigned, since it may be stored or refused at once
        stored = coordinator.sagas.started(live)
        coordinator.shards.assign(live)
        try:
            await stored
        except KeyConflict:
            self._lookup.guessing.record_start(was_there=True)
            raise
        except StoreUnavailable:
            if not (guessed and await self._is_there(live)):
                raise
        self._lookup.guessing.record_start(was_there=not live.committed)
        return live.committed

    async def _is_there(self, live: SagaInstance) -> bool:
        """Return whether the store has a saga whose start has failed.

        Raises `KeyConflict` and `StoreUnavailable`.
        """
        row = await self._lookup.find(live.key)
        if row is None:
            return False
        store = self._access.coordinator.store
        error = await instances.conflict_with_stored(
            store, live.key, live.kind, live.text, row.saga, row.input
        )
        if error:
            raise error
        return True
