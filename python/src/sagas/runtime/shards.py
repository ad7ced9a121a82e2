"""The shards of this program: created, loaded, lost and closed, with the placement of new sagas.

A saga whose key another shard has, or whose shard moved to another node, is moved too.
"""

from __future__ import annotations

import asyncio
import contextlib
import secrets
import time
from collections.abc import Callable
from typing import TYPE_CHECKING

from sagas.base.errors import DamagedShard, EngineError, SagaMoved, SagasError, StoreUnavailable
from sagas.base.logger import logger
from sagas.base.wording import number
from sagas.core import recovery
from sagas.core.shard.batch import Batch, LoadedShard, RequestRef, SagaRow, ShardRow
from sagas.core.effects import Abort
from sagas.core.attempt.instance import SagaInstance
from sagas.core.shard.driver import ShardDefinitions, ShardDriver, ShardIdentity
from sagas.core.states import ShardState
from sagas.definition.payloads import Reference
from sagas.definition.compiled import CompiledDefinition
from sagas.definition.registry import DefinitionSet
from sagas.engine.process import EnginePool, EngineProcess
from sagas.runtime import stored_values
from sagas.runtime.audits import Auditor
from sagas.runtime.instances import INPUT, Deadlines, conflict
from sagas.runtime.shard_moves import ShardMoves
from sagas.runtime.shard_runner import EffectHandler, ShardRunner
from sagas.runtime.stored_values import until_answered

if TYPE_CHECKING:
    from sagas.runtime.coordinator import Coordinator

STALE, ACTIVE, IDLE = ShardState.STALE, ShardState.ACTIVE, ShardState.IDLE
RETRY_DELAY = 1.0
"""Seconds after which failed starts are read again."""
REMEDY = "The other shards are served. See the guide on damaged shards"


class StartDoubt:
    """Whether starts that this node has claimed may have been lost.

    No other node takes such starts, so this node reads them again.
    """

    def __init__(self, loop: asyncio.AbstractEventLoop, look: Callable[[], None]) -> None:
        self._loop, self._look = loop, look
        self._is_set = False

    def doubt(self, looks: bool = True) -> None:
        """Mark that some may be lost. With `looks`, they are read again after a delay."""
        self._is_set = True
        if looks:
            self._loop.call_later(RETRY_DELAY, self._look)

    def settle(self) -> bool:
        """Return whether some may be lost, and clear the mark."""
        was_set, self._is_set = self._is_set, False
        return was_set


class Shards:
    """The shards that this program executes.

    Attributes:
        runners: The shards, by number.
        program: The program `sagas`.
        engines: Their engine processes.
        auditor: Audits finished shards.
        placement: Assigns new sagas to shards.
        relocation: Moves sagas between shards and nodes.
        effects: Carries out the effects of the shards.
        closed: Why nothing starts any more.
        is_closing: Whether nothing starts any more.
        start_doubt: Whether claimed starts of clients may be lost.
        deadlines: Aborts the sagas whose deadlines have passed.
    """

    def __init__(
        self, coordinator: Coordinator, program: str, engine_processes: int, idle: float
    ) -> None:
        self._store, self._definitions = coordinator.store, coordinator.registry
        self._sagas, self._commits = coordinator.sagas, coordinator.commits
        self._clock, self._teller = coordinator.clock, coordinator.teller
        self._spawn = coordinator.spawn
        self._coordinator, self._loop = coordinator, coordinator.loop
        self.program: str = program
        self._idle = idle
        self.runners: dict[int, ShardRunner] = {}
        self.engines: EnginePool[ShardRunner] = EnginePool(engine_processes)
        self.auditor = Auditor(self._store, program, self._commits, self._clock, self._teller)
        self.closed: SagasError | None = None
        self.is_closing: bool = False
        self.start_doubt = StartDoubt(self._loop, coordinator.look)
        self.deadlines: Deadlines = Deadlines(self._sagas, self.abort, self._teller, self._clock)
        self._sagas.on_executed = self.deadlines.add
        self.placement: Placement = Placement(coordinator, self)
        self.relocation: Relocation = Relocation(coordinator, self)
        self.effects: EffectHandler = EffectHandler(coordinator, self)
        self._opening = Opening()
        self._closing: dict[int, asyncio.Task[None]] = {}  # finished, and not marked as closed
        self._change: asyncio.Future[None] | None = None

    # -- load

    async def open(self, rows: list[ShardRow]) -> None:
        """Load the shards that are not closed.

        Raises:
            EngineError: An engine process cannot be started, or its output is invalid.
            StoreUnavailable: The store cannot be read.
        """
        began = time.monotonic()
        adopted = [runner for runner in self.adopt(rows) if runner.driver.state is STALE]
        self._opening.begin(adopted)
        for runner in adopted:
            self.engines.request_engine(runner)
        await self._opening.over()
        if rows:
            opened = (number(len(rows), "shard"), time.monotonic() - began)
            logger.info("opened the store with %s in %.1f s", *opened)

    def adopt(self, rows: list[ShardRow]) -> list[ShardRunner]:
        """Return runners of shards that this program has taken. They accept no new sagas.

        The store may be an older copy, so that tokens of new sagas might be in use already.
        """
        adopted = []
        for row in rows:
            kinds = self._kinds(row.texts)
            identity = ShardIdentity(row.shard, row.name, ShardDefinitions(kinds))
            state = STALE if row.open else IDLE
            runner = self.run(ShardDriver(identity, state, row.epoch, row.opened))
            runner.note = row.note
            self.relocation.moves.adopted(row)
            adopted.append(runner)
        return adopted

    def _kinds(self, texts: list[str]) -> list[CompiledDefinition]:
        """Return the definitions of a shard, up to the first invalid one.

        Sagas of later ones are then found to be damaged.
        """
        kinds = []
        for text in texts:
            try:
                kinds.append(self._definitions.kind(text))
            except (ValueError, LookupError, TypeError, SagasError):
                break
        return kinds

    def run(self, driver: ShardDriver) -> ShardRunner:
        """Execute a shard from now on."""
        runner = self.runners[driver.number] = ShardRunner(driver, self._coordinator, self)
        return runner

    def taken(self, rows: list[ShardRow]) -> None:
        """Continue shards that another node had."""
        if self.closed:
            return
        adopted = self.adopt([row for row in rows if row.shard not in self.runners])
        self._opening.take_over([runner for runner in adopted if runner.driver.state is STALE])
        for runner in adopted:
            self._teller.emit("shard_taken", detail=runner.driver.name)
            if runner.driver.state is STALE:
                self.engines.request_engine(runner)
            else:
                self.close_if_over(runner)

    def ready(self, runner: ShardRunner) -> None:
        """Handle that a shard is loaded or lost."""
        is_here = self.runners.get(runner.driver.number) is runner
        if runner.is_set_aside and is_here:
            logger.info("shard %s can be opened again", runner.driver.name)
        runner.is_set_aside = False
        if runner.note is not None and is_here:
            self._spawn(self._note(runner, None))
        self._opening.ready(runner)

    def _set_aside(self, runner: ShardRunner, error: DamagedShard) -> None:
        """Set a damaged shard aside: no saga is opened in it, and the others are served."""
        self._store.forget(runner.driver.number)
        if runner.is_set_aside:
            if runner.note != str(error):
                self._spawn(self._note(runner, str(error)))
            return
        runner.is_set_aside, driver = True, runner.driver
        self._spawn(self._report(runner, error))
        self.placement.forget(runner)
        driver.is_full = True
        sent, unsent = recovery.take_unopened(driver, None, self._sagas.by_key)
        for saga in sent:
            unsure = "It is unknown whether the saga was started"
            self.refuse(saga, StoreUnavailable(f"shard {driver.name}: {error}. {unsure}"))
        for saga in unsent:
            self.assign(saga)
        self.changed(runner)
        self._opening.ready(runner)

    async def _report(self, runner: ShardRunner, error: DamagedShard) -> None:
        """Report a damaged shard, after its reason is stored.

        The metrics are computed again after an event, and need the reason.
        """
        await self._note(runner, str(error))
        driver = runner.driver
        detail = f"shard {driver.number} ({driver.name}): {error}. {REMEDY}"
        self._teller.emit("shard_damaged", detail=detail, error=error.__cause__)

    async def _note(self, runner: ShardRunner, why: str | None) -> None:
        """Store why no program can open a shard. If that fails, the next try stores it."""
        driver = runner.driver
        batch = Batch(driver.number, self._clock(), epoch=driver.epoch)
        batch.rare_rows.set_aside = (why,)
        with contextlib.suppress(SagasError):
            await self._commits.kept(batch)
            runner.note = why

    def trouble(self, runner: ShardRunner, error: SagasError) -> None:
        """Handle that a shard could not be loaded, which is tried again.

        While the store opens, that is an error, unless the shard is set aside.
        """
        name = runner.driver.name
        if isinstance(error, DamagedShard):
            self._set_aside(runner, error)
            return
        if isinstance(error, StoreUnavailable):
            detail = f"shard {name} is not open yet: {error}"
            self._teller.emit("commit_failed", detail=detail)
        else:
            self._teller.emit("engine_died", detail=f"shard {name}: {error}")
        self.changed(runner)
        is_named = isinstance(error, (EngineError, StoreUnavailable))
        self._opening.fail(error if is_named else EngineError(str(error)))

    # -- questions

    @property
    def pause(self) -> float:
        """Seconds between two calls of `tick`."""
        return max(0.05, min(1.0, self._idle))

    def runner(self, shard: ShardDriver) -> ShardRunner | None:
        """Return the runner of a shard; None if this program no longer has the shard."""
        runner = self.runners.get(shard.identity.number)
        return runner if runner is not None and runner.driver is shard else None

    def numbered(self, number: int) -> ShardDriver | None:
        """Return the shard with this number, if this program has it."""
        runner = self.runners.get(number)
        return runner.driver if runner else None

    def named(self, name: str) -> ShardDriver | None:
        """Return the shard with this name, if this program has it."""
        drivers = (runner.driver for runner in self.runners.values())
        return next((driver for driver in drivers if driver.name == name), None)

    def numbers(self) -> list[int]:
        """Return the shards that this program executes, or is about to close."""
        return [*self.runners, *self._closing]

    def coming(self) -> int:
        """Return how many replies of engines, and how many new sagas, are expected."""
        pending = sum(runner.pending_answers() for runner in self.engines.borrowers())
        return pending + len(self.placement.waiting)

    def abort(self, saga: SagaInstance, command: RequestRef = None) -> asyncio.Future[bool]:
        """Ask to abort a saga; return a future of whether this command aborts it."""
        abort, runner = Abort(saga, command), self.runner(saga.shard) if saga.shard else None
        future = self._sagas.aborted(abort)
        if runner:
            runner.abort(abort)
        else:
            self._sagas.fail_abort(abort, SagaMoved("this node does not execute the saga"))
        return future

    # -- new sagas

    def assign(self, saga: SagaInstance) -> None:
        """Open a saga in a shard."""
        self.placement.assign(saga)

    def withdraw(self, saga: SagaInstance) -> None:
        """Do not open a saga in any shard."""
        for runner in self.runners.values():
            runner.driver.withdraw(saga)

    def refuse(self, saga: SagaInstance, error: SagasError) -> None:
        """Refuse the start of a saga, and notify its callers."""
        self._sagas.leave(saga, error, error)
        if saga.client_start is not None:
            self.doubt()

    def doubt(self) -> None:
        """Mark that claimed starts of clients may be lost, so that they are read again.

        No other node takes them.
        """
        self.start_doubt.doubt(not self.closed)

    # -- recovery

    def reopen(
        self, driver: ShardDriver, rows: LoadedShard | None, fault: BaseException | None
    ) -> None:
        """Open sagas again whose start in a shard was not stored.

        If that failed, or the shard could not be read, refuse them. A server may still receive a
        late commit of them, until the shard is loaded.
        """
        sent, new = recovery.take_unopened(driver, rows, self._sagas.by_key)
        if fault is None:
            for saga in sent + new:
                self.assign(saga) if driver.is_full else driver.open(saga)
            return
        store_path, message = str(self._store.path), str(fault)
        message = message if message.startswith(store_path) else f"{store_path}: {message}"
        nothing = StoreUnavailable(
            f"{message}. Nothing was started. Make room if the disk is full, and start the "
            "saga again"
        )
        unsure = StoreUnavailable(
            f"{message}. It is unknown whether the saga was started. Start it again, with "
            "the same key"
        )
        for saga in sent:
            self.refuse(saga, nothing if rows or self._store.answers_at_once else unsure)
        for saga in new:
            self.refuse(saga, nothing)

    # -- loss

    def lease_expired(self, is_older: bool) -> None:
        """Load all shards again, because another node may have taken any of them.

        If the store is older than what was acknowledged, no shard accepts further sagas. Otherwise,
        they would get the tokens of lost sagas.
        """
        self._teller.emit("lease_expired")
        if is_older:
            self.placement.current.clear()
            self._forget_closing()
            for runner in self.runners.values():
                runner.driver.is_full = True
            self.doubt()  # the older store may have claimed starts that were finished
        for runner in list(self.runners.values()):
            if runner.driver.is_current:
                runner.fail(None)

    def _forget_closing(self) -> None:
        """Forget the shards that are about to be closed.

        The store may not have their last commits. Other nodes can take them over, like all shards
        without an owner.
        """
        closing, self._closing = self._closing, {}
        for job in closing.values():
            job.cancel()
        self._commits.drop([*closing])

    def lose(self, runner: ShardRunner) -> None:
        """Release a shard that another node has."""
        driver = runner.driver
        self._teller.emit("shard_lost", detail=driver.name)
        moved = SagaMoved("the saga moved to another node")
        for abort in (*driver.aborts, *driver.aborts_sent):
            self._sagas.fail_abort(abort, moved)
        self._stop(runner)
        self.relocation.stop_shard(driver)
        self._notify_change()
        self.ready(runner)

    def _stop(self, runner: ShardRunner) -> None:
        runner.stop()
        self.effects.over(runner.driver.sagas.values())
        self.runners.pop(runner.driver.number, None)
        self.placement.forget(runner)

    # -- end

    def changed(self, runner: ShardRunner) -> None:
        """Handle that a write of a shard succeeded or failed."""
        if runner.is_moving:
            self.relocation.moves.changed()
        if not runner.driver.sagas:
            self.close_if_over(runner)
        if self._change:
            self._notify_change()

    def close_if_over(self, runner: ShardRunner) -> None:
        """Audit and close a finished shard that accepts no more sagas."""
        driver = runner.driver
        is_current = self.placement.is_current(runner)
        takes_more = is_current and not driver.is_full and driver.opened < self._definitions.room
        if self.closed or driver.new_shard or takes_more:
            return
        if not driver.is_over or driver.state not in (ACTIVE, IDLE):
            return
        for abort in (*driver.aborts, *driver.aborts_sent):  # all its sagas had ended before
            abort.done = False
            self._sagas.answer_abort(abort)
        self._stop(runner)
        self._closing[driver.number] = self._spawn(self._close(driver))

    def retire(self) -> None:
        """Have no shard accept new sagas, and close those that are finished."""
        for runner in list(self.placement.current.values()):
            self.placement.forget(runner)
            self.close_if_over(runner)

    def close_all_over(self) -> None:
        """Close all finished shards. See `close_if_over`."""
        for runner in list(self.runners.values()):
            self.close_if_over(runner)

    async def _close(self, driver: ShardDriver) -> None:
        try:
            await self.auditor.close(driver)
        finally:
            if self._closing.get(driver.number) is asyncio.current_task():
                del self._closing[driver.number]

    # -- from time to time

    def tick(self) -> None:
        """Stop engine processes that hang or are not used."""
        now = time.monotonic()
        for runner in list(self.runners.values()):
            if runner.engine and runner.engine.is_hung(now):
                runner.engine.process.kill()  # handled as if it had died by itself
            if runner.is_idle(now, self._idle):
                runner.sleep()
                self.engines.release(runner)
        self.engines.lend()

    def offer_unread(self) -> None:
        """Offer shards with unreadable values to other nodes."""
        for runner in self.runners.values():
            is_here = runner.driver.state in (ACTIVE, IDLE)
            if runner.has_unread and is_here and not stored_values.is_at_work(runner.driver):
                self._spawn(self._offer(runner))

    async def _offer(self, runner: ShardRunner) -> None:
        number, name = runner.driver.number, runner.driver.name
        try:
            is_left = await self._store.spare(number)
        except StoreUnavailable:
            return
        if is_left and self.runners.get(number) is runner:
            remedy = "which may be able to read its values"
            logger.info("left shard %s to other nodes, %s", name, remedy)
            self.lose(runner)

    # -- closing

    def begin_close(self, error: SagasError) -> None:
        """Start nothing any more."""
        self.closed, self.is_closing = error, True
        for runner in self.runners.values():
            for saga in [*runner.driver.opens]:
                runner.driver.withdraw(saga)
                self.refuse(saga, error)

    async def drained(self) -> None:
        """Wait until all outcomes are stored, as long as the store can be written."""
        while any(runner.owes() for runner in self.runners.values()):
            self._change = self._loop.create_future()
            await self._change

    def _notify_change(self) -> None:
        if self._change and not self._change.done():
            self._change.set_result(None)

    def stop(self, error: SagasError) -> list[EngineProcess]:
        """Stop all shards, and return their engine processes.

        Callers that wait for an abort or a report are notified that it was not stored.
        """
        engines = [runner.engine for runner in self.runners.values() if runner.engine]
        for runner in self.runners.values():
            runner.stop()
            self.relocation.notify_closed(runner.driver, error)
        self._sagas.fail_aborts(error)
        return engines


class Takeover:
    """Shards that were taken over at one time, until all are open."""

    def __init__(self, runners: list[ShardRunner]) -> None:
        self._began, self._count = time.monotonic(), len(runners)
        self._loading = {*runners}

    def is_over(self, runner: ShardRunner) -> bool:
        """Note that a shard is open or lost, and return whether that was the last one."""
        if runner in self._loading:
            self._loading.discard(runner)
            if not self._loading:
                opened = (number(self._count, "shard"), time.monotonic() - self._began)
                logger.info("took over %s in %.1f s", *opened)
        return not self._loading


class Opening:
    """The shards that are loaded while the store opens, and those that were taken over."""

    def __init__(self) -> None:
        self._takeovers: list[Takeover] = []
        self._loading: set[ShardRunner] = set()
        self._over: asyncio.Future[None] | None = None

    def begin(self, runners: list[ShardRunner]) -> None:
        """Set the shards that are to be loaded."""
        self._loading = {*runners}
        if runners:
            self._over = asyncio.get_running_loop().create_future()

    async def over(self) -> None:
        """Wait until all are loaded."""
        if self._over:
            await self._over

    def take_over(self, runners: list[ShardRunner]) -> None:
        """Note shards of other nodes that are to be loaded."""
        if runners:
            self._takeovers.append(Takeover(runners))

    def ready(self, runner: ShardRunner) -> None:
        """Handle that a shard is loaded, lost or set aside."""
        self._takeovers = [takeover for takeover in self._takeovers if not takeover.is_over(runner)]
        self._loading.discard(runner)
        if not self._loading and self._over and not self._over.done():
            self._over.set_result(None)

    def fail(self, error: SagasError) -> None:
        """Fail the opening, because a shard could not be loaded."""
        if self._over and not self._over.done():
            self._over.set_exception(error)


class Placement:
    """Assigns sagas to shards.

    Attributes:
        current: The shards that accept sagas, by the digest of their definitions.
        waiting: Sagas that are assigned in this turn of the loop.
    """

    def __init__(self, coordinator: Coordinator, shards: Shards) -> None:
        self._store, self._definitions = coordinator.store, coordinator.registry
        self._sagas, self._loop, self._shards = coordinator.sagas, coordinator.loop, shards
        self.current: dict[str, ShardRunner] = {}
        self.waiting: list[SagaInstance] = []

    def assign(self, saga: SagaInstance) -> None:
        """Assign a saga to a shard, together with others of this turn of the loop.

        If the store is a file, the key is looked up first. If the key is taken, callers receive the
        reason in a later turn, so that they can wait for it.
        """
        self.waiting.append(saga)
        if len(self._sagas.by_key) == 1:
            self.fill()
        elif len(self.waiting) == 1:
            self._loop.call_soon(self.fill)

    def fill(self, asker: ShardRunner | None = None) -> None:
        """Assign all waiting sagas. `asker` is a shard that is about to ask its engine."""
        if not self.waiting:
            return
        waiting, self.waiting = self.waiting, []
        stored_rows: dict[str, SagaRow] = {}
        try:
            if self._shards.closed:
                raise self._shards.closed
            if self._store.answers_at_once:
                stored_rows = self._store.find_many(
                    [saga.key for saga in waiting if not saga.has_unchecked_key]
                )
        except SagasError as error:
            for saga in waiting:
                self._loop.call_soon(self._shards.refuse, saga, error)
            return
        filled: dict[ShardRunner, None] = {}
        for saga in waiting:
            if saga.key in stored_rows:
                self._loop.call_soon(self._shards.relocation.key_taken, saga, stored_rows[saga.key])
            elif runner := self._put(saga):
                filled[runner] = None
        for runner in filled:
            if runner is not asker:
                runner.poke(at_once=True)

    def forget(self, runner: ShardRunner) -> None:
        """Have a shard accept no more sagas."""
        if self.is_current(runner):
            del self.current[runner.driver.identity.definitions.digest]

    def is_current(self, runner: ShardRunner) -> bool:
        """Return whether a shard accepts sagas."""
        return self.current.get(runner.driver.identity.definitions.digest) is runner

    def _put(self, saga: SagaInstance) -> ShardRunner | None:
        definitions, kind = self._definitions.set_of(saga.kind), saga.kind
        runner = self.current.get(definitions.digest)
        if runner is None or not self._takes(runner, kind):
            try:
                runner = self._create(definitions, kind)
            except SagasError as error:
                self._loop.call_soon(self._shards.refuse, saga, error)
                return None
        saga.definition_index = runner.driver.identity.definitions.definition_index(kind)
        runner.driver.open(saga)
        return runner

    def _takes(self, runner: ShardRunner, kind: CompiledDefinition) -> bool:
        """Return whether a shard has room for one more saga of this definition."""
        has_room = runner.driver.identity.definitions.has_room(kind)
        return has_room and runner.driver.has_room(self._definitions.room)

    def _create(self, definitions: DefinitionSet, kind: CompiledDefinition) -> ShardRunner:
        """Create a shard. It has at least one definition, because an audit needs one."""
        before = self.current.get(definitions.digest)
        number, name = self._store.new_shard(), secrets.token_hex(8)
        of = ShardDefinitions(definitions.kinds or [kind], definitions.digest)
        identity = ShardIdentity(number, name, of)
        runner = self._shards.run(ShardDriver.created(identity, self._store.timeline))
        self.current[definitions.digest] = runner
        if before:
            self._loop.call_soon(self._shards.close_if_over, before)
        return runner


class Relocation:
    """Releases sagas that other nodes execute, and opens sagas in another shard.

    Attributes:
        moves: Moves shards to other nodes.
    """

    def __init__(self, coordinator: Coordinator, shards: Shards) -> None:
        self.moves: ShardMoves = ShardMoves(coordinator)
        self._store, self._sagas = coordinator.store, coordinator.sagas
        self._executor, self._commits = coordinator.executor, coordinator.commits
        self._clock, self._spawn, self._shards = coordinator.clock, coordinator.spawn, shards

    def leave(self, saga: SagaInstance, error: SagasError | None) -> None:
        """Stop executing a saga here.

        Callers that wait for its end check the store. Callers that started it receive `error`.
        """
        self._sagas.leave(saga, error, SagaMoved("this node does not execute the saga"))
        for attempt in saga.busy.values():
            self._executor.changes.notify(attempt)

    def key_taken(self, saga: SagaInstance, row: SagaRow, is_whole: bool = False) -> None:
        """Handle that another shard has the key: with the same saga, or with a conflict.

        With `is_whole`, a large input was read from the blob store.
        """
        error = conflict(saga.key, saga.kind, saga.text, row.saga, row.input)
        # a large input may be equal with other types
        if error and Reference.of(row.input) and not is_whole:
            self._spawn(self._move(saga))
            return
        if saga.client_start is not None:
            self._spawn(self._begun(saga.client_start, None if error else row.id))
        self.leave(saga, error)

    def compare_with_stored(self, saga: SagaInstance) -> None:
        """Read the stored saga of the same key, and compare it with this one."""
        self._spawn(self._compare_with_stored(saga))

    async def _compare_with_stored(self, saga: SagaInstance) -> None:
        row = await until_answered(lambda: self._whole(saga.key))
        if row is not None and row.id >= 0:
            self.key_taken(saga, row, is_whole=True)
        else:
            self.leave(saga, None)

    async def _whole(self, key: str) -> SagaRow | None:
        """Return the saga with this key, with its whole input."""
        row = await self._store.find(key)
        if row is not None and Reference.of(row.input):
            for (text,) in await self._store.read(INPUT, key):
                row = row._replace(input=text)
        return row

    async def _begun(self, start: int, saga: int | None) -> None:
        """Mark a client's start as done, with its saga or None, so that no node opens it."""
        batch = Batch(-1, self._clock())
        batch.rare_rows.begun.append((start, saga))
        try:
            await self._commits.kept(batch)
        except SagasError:
            self._shards.doubt()

    async def find_elsewhere(self, driver: ShardDriver, rows: LoadedShard) -> None:
        """Withdraw unconfirmed starts in a shard whose keys other sagas have.

        These sagas are in another shard, or have ended in this one. Starts that another database
        of the store has to make are refused.
        """
        open_keys = {key for _, key, *_ in rows.open}
        unconfirmed = [
            saga for saga in driver.opens_sent if not saga.committed and saga.key not in open_keys
        ]
        others = await asyncio.gather(*(self._store.find(saga.key) for saga in unconfirmed))
        for saga, other in zip(unconfirmed, others):
            if other is not None and (other.id >= 0 or saga.has_unchecked_key):
                driver.opens_sent.pop(saga, None)
                saga.number, saga.shard = -1, None
                self.key_taken(saga, other)
            elif other is None and (refusal := await self._store.refusal(saga.key)) is not None:
                driver.opens_sent.pop(saga, None)
                saga.number, saga.shard = -1, None
                self._shards.refuse(saga, refusal)

    def stop_shard(self, driver: ShardDriver) -> None:
        """Stop what was started in a shard that another node has now.

        Callers that wait check the store.
        """
        moved = SagaMoved("the saga moved to another node")
        sagas, opens = list(driver.sagas.values()), [*driver.opens_sent, *driver.opens]
        attempts = dict.fromkeys(driver.unstored_reports())
        attempts |= {attempt: None for saga in sagas for attempt in saga.busy.values()}
        for attempt in attempts:
            self._executor.kept.notify(attempt, moved)
            self._executor.forget(attempt)
        self._executor.early.look_again(driver.number, moved)
        for saga in sagas:
            if saga.committed:
                self.leave(saga, None)
        driver.clear_opens()
        for saga in opens:
            if not saga.committed:
                saga.forget()
                saga.number, saga.shard = -1, None
                self._spawn(self._move(saga))

    def notify_closed(self, driver: ShardDriver, error: SagasError) -> None:
        """Notify callers that wait for steps of a shard that the store is closed."""
        self._executor.early.look_again(driver.number, error)
        for attempt in driver.unstored_reports():
            self._executor.kept.notify(attempt, error)
        for saga in driver.sagas.values():
            for attempt in saga.busy.values():
                self._executor.kept.notify(attempt, error)  # a retry was requested
                self._executor.changes.notify(attempt)

    async def _move(self, saga: SagaInstance) -> None:
        """Open a saga of a lost shard elsewhere, unless it is stored already."""
        row = await until_answered(lambda: self._whole(saga.key))
        if self._sagas.by_key.get(saga.key) is not saga:
            return
        if row is not None and (row.id >= 0 or saga.client_start is None):
            self.key_taken(saga, row, is_whole=True)
        else:
            self._shards.assign(saga)
