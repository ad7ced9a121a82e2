"""Runs one shard: driver, engine process, commits, and the effects of its decisions."""

from __future__ import annotations

import time
from collections.abc import Collection, Sequence
from typing import TYPE_CHECKING

from sagas.base.errors import DamagedShard, SagasError
from sagas.base.logger import logger
from sagas.core import recovery, reports
from sagas.core.shard.batch import LoadedShard
from sagas.core.effects import Abort, Effects, NO_RARE_EFFECTS, RareEffects
from sagas.core.attempt.model import Attempt, SuspensionRow
from sagas.core.protocol import MAX_REPORTS, EngineDisagrees
from sagas.core.attempt.instance import SagaInstance
from sagas.core.recovery import Recovery
from sagas.core.shard.driver import ShardDriver
from sagas.core.states import ShardState, saga_phase, undo_failures
from sagas.definition.payloads import ABSENT
from sagas.engine.process import EngineProcess, Listener
from sagas.runtime import stored_values
from sagas.runtime.instances import conflict

if TYPE_CHECKING:
    from sagas.runtime.coordinator import Coordinator
    from sagas.runtime.shards import Shards

FEW = 64  # number of requests that are answered quickly
TURN = 0.1  # seconds for which a shard keeps its engine while other shards wait for one
FIRST_PAUSE, MAX_PAUSE = 0.02, 2.0  # seconds until a shard is loaded again
PAUSE_ASIDE = 60.0  # seconds until a shard that is set aside is loaded again
STALE, LOADING, IDLE = ShardState.STALE, ShardState.LOADING, ShardState.IDLE
STARTING, ACTIVE, CLOSED = ShardState.STARTING, ShardState.ACTIVE, ShardState.CLOSED


class ShardRunner:
    """Executes one shard.

    Attributes:
        driver: The state of the shard, and its decisions.
        engine: Its engine process, if it has one.
        fault: Why it could not be loaded or written.
        is_set_aside: Whether its data is damaged, so that it is rarely loaded again.
        note: The stored reason why it is set aside.
        has_unread: Whether this program cannot execute some of its open sagas, because it cannot
            read their values or does not have their functions.
        used: When its engine was last asked, by the monotonic clock.
        is_moving: Whether it is about to move to another node, and claims no tasks.
    """

    def __init__(self, driver: ShardDriver, coordinator: Coordinator, shards: Shards) -> None:
        self.driver = driver
        self.engine: EngineProcess | None = None
        self.fault: BaseException | None = None
        self.is_set_aside = False
        self.note: str | None = None
        self.has_unread = self.is_moving = False
        self.used = 0.0
        self._coordinator, self._store, self._shards = coordinator, coordinator.store, shards
        self._slots, self._engines = coordinator.executor.slots, shards.engines
        self._commits, self._effects = coordinator.commits, shards.effects
        self._clock, self._loop = coordinator.clock, coordinator.loop
        self._woke = self._pause = 0.0
        self._is_scheduled = self._is_coming = False
        self._rows: LoadedShard | None = None  # the rows that it is recovered from
        self._overdue: list[int] = []  # the sagas that are aborted during its recovery

    # -- calls by the executor

    def report(self, attempt: Attempt, at_once: bool = False) -> None:
        """Report a finished attempt. With `at_once`, no other operation is half done."""
        self.driver.reports[attempt] = None
        self.poke(at_once)

    def suspend(self, attempt: Attempt, row: SuspensionRow) -> None:
        """Store why an attempt waits."""
        self.keep(self.driver.suspended(attempt, row, self._clock()))

    def abort(self, abort: Abort) -> None:
        """Ask to abort a saga."""
        self.driver.abort(abort)
        self.poke()

    # -- a turn

    def poke(self, at_once: bool = False) -> None:
        """Send what is due, in the next turn of the loop.

        With `at_once`, send it now if no running function may add more, or if there are many
        reports.
        """
        if self.driver.state is ACTIVE:
            assert self.engine
            if self.engine.unanswered:  # after its reply, it gets the next requests
                return
            running = self._slots.running
            if at_once and (not running or len(self.driver.reports) >= MAX_REPORTS):
                self._turn(waits=not running)
            elif not self._is_scheduled:
                self._is_scheduled = True
                self._loop.call_soon(self._turn)
        elif self.driver.state is IDLE:
            self._engines.request_engine(self)

    def _turn(self, waits: bool = False) -> None:
        """Send what is due. With `waits`, nothing else can be done until the reply."""
        self._is_scheduled = False
        engine = self.engine
        if self.driver.state is not ACTIVE or engine is None or engine.unanswered:
            return
        if self._engines.waiting and time.monotonic() - self._woke > TURN:
            self._loop.call_soon(self.give_up_engine)
            if not self.driver.commits_in_flight:
                return
        if self._clock() >= self._shards.deadlines.next_at:
            self._shards.deadlines.look()
        if self._shards.placement.waiting:
            self._shards.placement.fill(self)
        if self.driver.state is not ACTIVE or engine.unanswered:  # another shard took its engine
            return
        lines = self._requests()
        if not lines:
            if self.driver.needs_new_engine:  # also if a definition was too long for a request
                self._renew()
            elif self._engines.waiting:
                self._offer()
            return
        self.used = time.monotonic()
        engine.ask(lines)
        if waits and len(lines) <= FEW and (answer := engine.wait()):
            self.answered(*answer)

    def _renew(self) -> None:
        """Replace the engine by one that knows all definitions.

        The events of the old engine are stored first.
        """
        if not self.driver.commits_in_flight:
            self._stop_engine()
            self.engine = None
            self.driver.set_state(IDLE)
            self.driver.set_state(STARTING)
            self._coordinator.spawn(self._start())

    def _requests(self) -> list[str]:
        is_closing, driver = self._claims_nothing, self.driver
        free_slots = 0 if is_closing else self._slots.free_count()
        if driver.needs_new_engine:
            return []
        lines = driver.requests(free_slots, self._clock())
        if (request := driver.unanswered) and request.claim_count:
            self._slots.reserve(request.claim_count)
        elif driver.may_have_tasks and not is_closing:
            self._slots.add_waiting_shard(self)
        return lines

    def answered(self, replies: list[str], log_text: str) -> None:
        """Handle the reply of the engine."""
        if self._rows is not None:
            self._recover(self._rows, replies, log_text)
            return
        try:
            outcome = self.driver.replies(replies, log_text, self._clock())
        except EngineDisagrees as error:
            logger.warning("shard %s: %s. Recovering", self.driver.name, error)
            self.fail(None)
        except Exception as error:
            logger.exception(
                "shard %s: a reply of the engine could not be parsed", self.driver.name
            )
            self.fail(error)
        else:
            if isinstance(outcome, Effects):
                self._read(outcome)
            else:
                assert self.engine
                self.engine.ask(outcome)

    def _read(self, effects: Effects) -> None:
        """Carry out a reply.

        The next requests are sent before the commit. A commit may block this thread, and the engine
        works in the meantime.
        """
        self.driver.begin_commit(effects)  # so it keeps its engine until the commit
        try:
            self._effects.at_once(effects)
            if self._is_due():
                self._turn()
        finally:
            self._commit(effects, at_once=True)
        if self._engines.waiting:
            self._offer()

    # -- commits

    def keep(self, effects: Effects) -> None:
        """Store effects that no reply of the engine led to."""
        self.driver.begin_commit(effects)
        self._commit(effects, at_once=False)

    def _commit(self, effects: Effects, at_once: bool) -> None:
        if effects.is_written:
            self._commits.put(effects, self, at_once)
        else:
            self.driver.committed(effects)
            self._effects.committed(effects)

    def committed(self, effects: Effects) -> None:
        """Handle that a batch is durable."""
        self.driver.committed(effects)
        self._pause = 0.0
        self._effects.committed(effects)
        self._settle()

    def failed(self, effects: Effects, fault: BaseException | None) -> None:
        """Handle that a batch is not durable, as far as is known: discard the engine."""
        was_known = self.driver.is_current
        unanswered = self.driver.failed(effects)
        self._effects.lost(effects)
        self._fail(fault, was_known, unanswered)
        self._settle()

    def broken(self, error: Exception) -> None:
        """Recover the shard, because handling a commit raised an error."""
        self.fail(error)

    def _settle(self) -> None:
        """Continue if nothing of the shard is being stored any more."""
        if not self.driver.commits_in_flight:
            if self.driver.state is STALE:
                self._load_soon()
            if self.driver.identity.definitions.is_fixed:  # it may need a new engine
                self.poke()
            if self._engines.waiting:
                self._offer()
            self._shards.changed(self)

    # -- its engine

    def _is_due(self) -> bool:
        """Return whether a request to the engine is due."""
        driver = self.driver
        if driver.reports or driver.opens or driver.aborts:
            return True
        is_waiting = self in self._slots.waiting_shards
        return driver.may_have_tasks and not (is_waiting or self._claims_nothing)

    @property
    def _claims_nothing(self) -> bool:
        """Whether it starts no further attempts."""
        return self._shards.is_closing or self.is_moving

    @property
    def is_quiescent(self) -> bool:
        """Whether all of it is stored, and nothing of it is in progress except functions."""
        driver, engine = self.driver, self.engine
        requested = driver.opens or driver.reports or driver.aborts or driver.unanswered
        sent = driver.opens_sent or driver.reports_sent or driver.aborts_sent
        has_work = requested or sent or driver.commits_in_flight or driver.new_shard
        is_here = driver.state in (ACTIVE, IDLE) and not (engine and engine.unanswered)
        return is_here and not has_work

    def pending_answers(self) -> int:
        """Return how much its engine is about to reply to."""
        if self.driver.state is not ACTIVE:
            return 0
        return len(self.driver.reports) + (self.engine.unanswered if self.engine else 0)

    def owes(self) -> bool:
        """Return whether something is to be stored, and the store accepts it."""
        driver = self.driver
        has_more = driver.reports or driver.reports_sent or driver.opens or driver.opens_sent
        return bool(driver.commits_in_flight or (has_more and not self.fault and not self._pause))

    def rests(self) -> bool:
        """Return whether its engine may end: nothing is in progress, and all is stored."""
        engine = self.engine
        if (
            self.driver.state is not ACTIVE
            or self.driver.commits_in_flight
            or not engine
            or engine.unanswered
        ):
            return False
        return not self._is_due() or time.monotonic() - self._woke > TURN

    def is_idle(self, now: float, idle: float) -> bool:
        """Return whether its engine was not used for `idle` seconds, and is not needed."""
        is_unused = self.driver.state is ACTIVE and now - self.used > idle
        return is_unused and self.rests() and not self._is_due()

    def _offer(self) -> None:
        """Give up the engine if it rests, because another shard waits for one."""
        if self.rests():
            self._loop.call_soon(self.give_up_engine)

    def give_up_engine(self) -> None:
        """Give up the engine if it rests, so that another shard may have it."""
        if self.rests():
            self.sleep()
            self._engines.release(self)

    def sleep(self) -> None:
        """Stop the engine."""
        self._stop_engine()
        self.driver.set_state(IDLE)
        if self._is_due():
            self._loop.call_soon(self.poke)

    def granted(self) -> None:
        """Start an engine, which the pool has granted."""
        if self.driver.state is STALE:
            self.driver.set_state(LOADING)
            self._coordinator.spawn(self._load())
        elif self.driver.state is IDLE:
            self.driver.set_state(STARTING)
            self._coordinator.spawn(self._start())
        else:
            self._engines.release(self)

    async def _start(self) -> None:
        """Start an engine on the shard, unless another node has written the shard."""
        driver = self.driver
        try:
            taken = await self._store.take_up(driver.number, driver.epoch)
            if driver.state is not STARTING:
                return
            if taken is None:  # another node may own it: load it again, as after a failure
                self.fail(None)
                return
            text, driver.events = taken
            self.engine = engine_on(self._shards.program, driver, text, self)
        except Exception as error:
            self.fail(named(error))
            return
        driver.set_state(ACTIVE)
        self.used = self._woke = time.monotonic()
        self.poke()

    def _stop_engine(self) -> None:
        if self.engine:
            self.engine.stop()

    def died(self, engine: EngineProcess, last: str) -> None:
        """Handle that its engine has ended by itself."""
        if engine is not self.engine:
            return
        if self.driver.state is ACTIVE:
            detail = f"shard {self.driver.name}: {last}"
            self._coordinator.teller.emit("engine_died", detail=detail)
            self.fail(None)
        else:  # while the shard was loaded
            self.engine = self._rows = None
            message = f"sagas drive: {last.removeprefix('sagas: ')}"
            is_refused = engine.has_refused()
            in_shard = SagasError(f"shard {self.driver.name}: {message}")
            self._trouble(DamagedShard(message) if is_refused else in_shard)

    # -- failure and recovery

    def fail(self, fault: BaseException | None) -> None:
        """Discard all that is not stored, and load the shard again after a pause."""
        self._fail(fault, self.driver.is_current, self.driver.fail())

    def _fail(self, fault: BaseException | None, was_known: bool, unanswered: int) -> None:
        self._slots.release(unanswered)
        if not was_known:
            self.fault = self.fault or fault
            return
        self.fault = fault
        self._loop.call_soon(self._shards.changed, self)
        self._recover_soon()

    def _recover_soon(self) -> None:
        """Discard the engine and what it knows beyond the store."""
        self._stop_engine()
        self.engine = self._rows = None
        self._engines.release(self)
        if not self.driver.commits_in_flight:
            self._load_soon()

    def _load_soon(self) -> None:
        """Load the shard once nothing of it is being stored."""
        if self._is_coming:
            return
        self._is_coming = True
        pause, self._pause = self._pause, min(MAX_PAUSE, max(FIRST_PAUSE, 2 * self._pause))
        if self.is_set_aside:
            pause = PAUSE_ASIDE
        if pause:
            self._loop.call_later(pause, self._want)
        else:
            self._want()

    def _want(self) -> None:
        self._is_coming = False
        if self.driver.state is STALE and not self.driver.commits_in_flight:
            self._engines.request_engine(self)

    async def _load(self) -> None:
        """Read the shard from the store, and start an engine on it."""
        driver = self.driver
        try:
            rows = await self._store.load(driver.number, driver.epoch, driver.new_shard)
            if driver.state is not LOADING:
                return
            if rows is not None and (damage := recovery.damage_of(rows, driver)):
                driver.loaded(rows)
                raise DamagedShard(damage)
            if rows is None or await self._is_left(rows):
                self._shards.lose(self)
                return
            if driver.state is not LOADING:
                return
            driver.loaded(rows)
            await self._shards.relocation.find_elsewhere(driver, rows)
            if driver.state is not LOADING:
                return
            self._shards.reopen(driver, rows, self.fault)
            self.engine = engine_on(self._shards.program, driver, rows.text, self)
        except Exception as error:
            if driver.state is LOADING:
                self._shards.reopen(driver, None, fault := named(error))
                self._trouble(fault)
            return
        self._rows, self._overdue = rows, recovery.overdue(rows, self._clock())
        self.engine.ask(recovery.requests(rows, self._overdue))

    async def _is_left(self, rows: LoadedShard) -> bool:
        """Return whether the shard is left to another node, which may execute all of its sagas.

        If no other node takes it, this program logs a warning once.
        """
        driver, store = self.driver, self._store
        kinds = driver.identity.definitions.kinds
        errors = [error async for error in stored_values.unreadable_sagas(kinds, rows, store)]
        if not errors:
            return False
        if not stored_values.is_at_work(driver) and await store.spare(driver.number):
            logger.info("left shard %s to other nodes: %s", driver.name, errors[0])
            return True
        if not self.has_unread:
            count = "1 open saga" if len(errors) == 1 else f"{len(errors)} open sagas"
            has_functions = all(
                kinds[index].missing_function is None for _, _, index, *_ in rows.open
            )
            logger.warning(
                "shard %s: this program cannot %s %s: %s. The first one: %s",
                driver.name,
                "read" if has_functions else "execute",
                count,
                stored_values.REMEDY,
                errors[0],
            )
        self.has_unread = True
        return False

    def _recover(self, rows: LoadedShard, replies: list[str], log_text: str) -> None:
        """Set the driver to the stored state, and continue what was started."""
        self._rows, driver, store = None, self.driver, self._store
        known = self._coordinator.sagas.by_key
        try:
            recovered = recovery.recover(
                rows,
                replies,
                self._clock(),
                driver,
                known,
                store.supports_nodes,
                self._overdue,
                log_text,
            )
            self._effects.recovered(recovered)
        except Exception as error:
            self._trouble(not_understood(error))
            return
        self.fault = None
        self.used = self._woke = time.monotonic()
        self.keep(recovered.effects)
        self._effects.resume(recovered)
        self._shards.ready(self)
        self.poke()

    def stop(self) -> None:
        """Stop the runner and its engine permanently."""
        self.driver.set_state(CLOSED)
        self._stop_engine()
        self._slots.release(self.driver.drop_request())
        self._engines.release(self)
        self._slots.remove_waiting_shard(self)

    def _trouble(self, fault: SagasError) -> None:
        """Handle that the shard could not be loaded; it is tried again."""
        self.fault = fault
        self._shards.trouble(self, fault)
        self.driver.set_state(STALE)
        self._recover_soon()


class EffectHandler:
    """Carries out effects: some at once, others after their batch is durable."""

    def __init__(self, coordinator: Coordinator, shards: Shards) -> None:
        self._executor, self._slots = coordinator.executor, coordinator.executor.slots
        self._sagas, self._teller = coordinator.sagas, coordinator.teller
        self._trends = coordinator.trends.counts
        self._clock = coordinator.clock
        self._shards, self._offers = shards, coordinator.external
        self._acknowledgements = coordinator.executor.calls.acknowledgements

    def at_once(self, effects: Effects) -> None:
        """Carry out the effects that do not wait for the commit."""
        if self._acknowledgements is not None:
            self._acknowledgements.decided(effects)
        if effects.unclaimed:
            self._slots.release(effects.unclaimed)
        for saga in effects.rare.displaced:
            self._shards.assign(saga)

    def lost(self, effects: Effects) -> None:
        """Discard the effects, because the batch is not durable."""
        if self._acknowledgements is not None:
            self._acknowledgements.lost(effects)
        self._slots.release(len(effects.dispatch))

    def committed(self, effects: Effects) -> None:
        """Carry out the effects that wait for the commit."""
        rare = effects.rare
        if effects.reported:
            self._executor.reported(effects.reported)
        if rare is not NO_RARE_EFFECTS:
            self._kept(rare)
        if effects.opened:
            self._opened(effects.opened)
        for saga in rare.overdue:
            self._overdue(saga)
        for saga in rare.planned:
            self._executor.planned(saga)
        if effects.ended:
            self._ended(effects.ended)
            if self._acknowledgements is not None:
                self._acknowledgements.over(effects.ended)
        if dispatch := effects.dispatch:
            self._executor.begin_all(dispatch)
        for saga in effects.opened:
            if saga.is_large:  # it may wait for a slot
                saga.release()
        for attempt in effects.reported:
            if attempt.instance.is_large and not attempt.instance.over:
                attempt.instance.release()

    def _kept(self, rare: RareEffects) -> None:
        """Carry out what follows from stored rows, offers, reports and answers."""
        if rare.taken:
            self._executor.reported(rare.taken)
        for attempt, row in rare.suspended:
            self._executor.stored(attempt, row)
        for attempt in rare.offered:
            self._offers.offered(attempt)
        for attempt, withdrawal in rare.withdrawn:
            self._offers.withdrawn(attempt, withdrawal.is_done)
        for saga in rare.draining:
            self._executor.drain(saga)
        for report in rare.early:
            self._executor.early.stored(report)
        for abort in rare.aborted:
            self._aborted(abort)

    def over(self, sagas: Collection[SagaInstance]) -> None:
        """Forget the acknowledgements of these sagas."""
        if self._acknowledgements is not None:
            self._acknowledgements.over(sagas)

    # -- recovery

    def recovered(self, recovery: Recovery) -> None:
        """Apply the recovered state of a shard to its sagas."""
        if self._acknowledgements is not None:
            self._acknowledgements.recovered(recovery)
        for before, saga in recovery.replaced:
            kind = saga.kind
            if saga.text == ABSENT:
                self._shards.withdraw(before)
                self._shards.relocation.compare_with_stored(before)
                continue
            if error := conflict(saga.key, before.kind, before.text, kind.name, saga.text):
                self._sagas.starts.notify(before, error)
                self._sagas.ends.notify(before, error)
            self._shards.withdraw(before)
            self._sagas.replace(before, saga)
        for saga in recovery.restored:
            self._sagas.by_key[saga.key] = saga
            self._sagas.notify_started(saga)
        for saga in recovery.gone:
            self._shards.relocation.leave(saga, None)
            if saga.client_start is not None:
                self._shards.doubt()
        for attempt in recovery.forgotten:
            self._executor.forget(attempt)
        for abort in recovery.aborted:
            self._sagas.answer_abort(abort)
        self._executor.early.look_again(recovery.effects.batch.shard)

    def resume(self, recovery: Recovery) -> None:
        """Resume the attempts of a recovered shard."""
        for attempt in recovery.resumed:
            self._executor.resume(attempt)
        for saga in recovery.draining:
            self._executor.drain(saga)
        self._offers.look()

    # -- events

    def _aborted(self, abort: Abort) -> None:
        saga = abort.saga
        if abort.done:
            self._executor.drain(saga)
            self._teller.emit("saga_aborted", key=saga.key, saga=saga.kind.name)
        self._sagas.answer_abort(abort)

    def _overdue(self, saga: SagaInstance) -> None:
        """Emit that a saga was aborted because its deadline had passed, and drain it."""
        self._teller.emit("saga_overdue", key=saga.key, saga=saga.kind.name)
        self._executor.drain(saga)
        self._teller.emit("saga_aborted", key=saga.key, saga=saga.kind.name)

    def _opened(self, sagas: Sequence[SagaInstance]) -> None:
        is_wanted = self._teller.is_wanted("saga_started")
        self._trends.add_starts(sagas)
        for saga in sagas:
            self._sagas.notify_started(saga)
            if is_wanted:
                self._teller.emit("saga_started", key=saga.key, saga=saga.kind.name)

    def _ended(self, sagas: Sequence[SagaInstance]) -> None:
        is_wanted = self._teller.is_wanted("saga_ended")
        self._trends.add_ends(sagas, self._clock())
        for saga in sagas:
            self._sagas.notify_ended(saga)
            if is_wanted or saga.phase != "ended":
                self._emit_end(saga)
            if saga.has_deviated and saga.phase == "ended" and (steps := undo_failures(saga.end)):
                self._emit_undo_failed(saga, steps)
            has_early = saga.extras is not None and saga.extras.early_reports
            if has_early and (unused := reports.unused_report_steps(saga)):
                self._emit_unused(saga, unused)

    def _emit_end(self, saga: SagaInstance) -> None:
        """Emit how a saga ended: its phase, and the blocking steps of a stuck one."""
        chain = (saga.answer or {}).get("chain", ()) if saga.phase == "stuck" else ()
        names = " and ".join(saga.kind.names[step] for step in chain)
        detail = f"because of {names}" if names else None
        if saga.phase != "stuck":
            recovered = (saga.answer or {}).get("kind") == "plan"
            detail = saga_phase(saga.phase, recovered, None).value
        self._teller.emit(
            f"saga_{saga.phase}",
            key=saga.key,
            saga=saga.kind.name,
            seconds=max(0.0, self._clock() - saga.started_at),
            detail=detail,
        )

    def _emit_unused(self, saga: SagaInstance, steps: Sequence[int]) -> None:
        """Emit that a saga ended without using successes that were reported early."""
        names = " and ".join(saga.kind.names[step] for step in steps)
        detail = f"{names}: a success was reported before the step began, and was not used"
        self._teller.emit("saga_unused_report", key=saga.key, saga=saga.kind.name, detail=detail)
        self._sagas.on_unused_report()

    def _emit_undo_failed(self, saga: SagaInstance, steps: Sequence[int]) -> None:
        """Emit that a saga ended, but effects of these steps remain against its plan."""
        stands = [saga.kind.names[step] for step in steps]
        remedy = (
            "the compensation failed permanently. Repair the effect, then mark the saga "
            "as resolved"
        )
        detail = f"{' and '.join(stands)}: {remedy}"
        self._teller.emit("saga_undo_failed", key=saga.key, saga=saga.kind.name, detail=detail)


def engine_on(
    program: str, driver: ShardDriver, log_text: str, listener: Listener
) -> EngineProcess:
    """Start an engine on a shard's event log, with all definitions of the shard."""
    definitions = driver.identity.definitions
    engine = EngineProcess(program, definitions.texts, log_text, listener)
    definitions.started()
    return engine


def named(error: Exception) -> SagasError:
    """Return why a shard could not be loaded.

    An error of another type is caused by the rows of the shard.
    """
    return error if isinstance(error, SagasError) else not_understood(error)


def not_understood(error: Exception) -> DamagedShard:
    """Return the error of a shard whose rows raised `error`, without its text.

    The text of the error may contain values of the rows.
    """
    damaged = DamagedShard(f"its data could not be parsed ({type(error).__name__})")
    damaged.__cause__ = error
    return damaged
