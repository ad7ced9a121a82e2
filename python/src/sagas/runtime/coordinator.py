"""Wires, opens and closes the parts of a store, and refuses waits that could never end."""

from __future__ import annotations

import asyncio
import contextlib
import dataclasses
import functools
import time
from collections.abc import Callable, Coroutine, Sequence
from concurrent.futures import ThreadPoolExecutor
from typing import TYPE_CHECKING, Any, TypeVar

from sagas.base.errors import Closed, InvalidStore, SagasError, SlotsTaken, WouldWaitForever
from sagas.base.events import EventEmitter
from sagas.base.fork_guard import private_descriptors
from sagas.base.logger import logger
from sagas.core.attempt import child_attempts
from sagas.core.shard.balance import NodeFigures
from sagas.core.shard.batch import Batch, ShardRow
from sagas.core.shard.limits import Slots
from sagas.core.states import ShardState
from sagas.core.attempt.child_attempts import CompletedChild
from sagas.definition.registry import DefinitionRegistry
from sagas.definition.tracing import Tracer
from sagas.runtime import remote_steps, stored_values
from sagas.runtime.commit_queue import CommitQueue
from sagas.runtime.declared_calls import DefinitionCaller
from sagas.runtime.executor import Executor
from sagas.runtime.external_queue import ExternalQueue
from sagas.runtime.instances import Instances
from sagas.runtime.lifespan import Lifespan
from sagas.runtime.pauses import PauseKeeper
from sagas.runtime.shards import Shards
from sagas.runtime.trends import TrendKeeper
from sagas.storage.interface import Database

if TYPE_CHECKING:
    from sagas.core.attempt.model import Attempt
    from sagas.core.attempt.instance import SagaInstance

T = TypeVar("T")
REMEDY = "Wait for it outside of the saga's steps"
QUIET = 1.0
"""Seconds that closing waits for the last commits, and then for ended engine processes."""


class Coordinator:
    """Owns and connects the parts of an open store.

    All its methods are called in the event loop of the store.

    Attributes:
        store: The database.
        registry: The definitions that the store was opened with.
        teller: Receives events.
        clock: Wall time in seconds.
        loop: The event loop.
        sagas: The open sagas of this program.
        executor: Executes attempts.
        commits: Writes to the store.
        shards: The shards of this program.
        declared: Calls functions of definitions.
        external: The tasks of external workers.
        pauses: What operators have paused.
        waits: Functions that wait for sagas.
        trends: Counts events for charts.
        closed: Why nothing starts any more.
        opened_at: When it was opened, in seconds since 1970.
        forks: The number of this process.
        refusal: Done, with the reason, when this node can no longer execute anything.
        listeners: Functions that are called when there may be commands or starts.
    """

    def __init__(
        self,
        store: Database,
        registry: DefinitionRegistry,
        *,
        program: str,
        concurrency: int,
        threads: int,
        engine_processes: int,
        idle: float,
        teller: EventEmitter,
        clock: Callable[[], float],
        context: Any = None,
        tracer: Tracer | None = None,
    ) -> None:
        self.store, self.registry, self.teller, self.clock = store, registry, teller, clock
        self.loop = asyncio.get_running_loop()
        self.forks = private_descriptors.forks
        self.closed: SagasError | None = None
        self.opened_at: float = clock()
        self.refusal: asyncio.Future[InvalidStore] = self.loop.create_future()
        self.listeners: list[Callable[[], None]] = []
        self._is_feeding = False
        self._threads = ThreadPoolExecutor(threads, "sagas-step")
        self._jobs: set[asyncio.Task[None]] = set()
        self._timer: asyncio.TimerHandle | None = None
        self.declared = DefinitionCaller(threads)
        self.external: ExternalQueue = ExternalQueue(self)
        self.sagas: Instances = Instances(self.loop)
        self.commits: CommitQueue = CommitQueue(store, self, teller, self.loop)
        self.trends = TrendKeeper(store, clock, self.external.queues_here)
        self.executor = Executor(self, concurrency, self._threads, tracer)
        if acknowledgements := self.executor.calls.acknowledgements:
            acknowledgements.follow(self.sagas, self.executor.kept)
        self.executor.slots.is_fair = any(saga.fair_by for saga in registry.sagas.values())
        sagas = registry.sagas.values()
        self.pauses = PauseKeeper(store, sagas, self.executor.set_pauses)
        self.pauses.listeners.append(self.external.offered_elsewhere)
        self.shards: Shards = Shards(self, program, engine_processes, idle)
        self.waits = DeadlockCheck(self)
        self.listeners += [self.executor.children.look, self.pauses.look]
        self._lifespan = Lifespan(context, registry.context)

    # -- opening

    async def open(self) -> None:
        """Load each shard that is not closed.

        Raises:
            MissingStep: This program has no function for a step.
            EngineError: An engine process cannot be started, or its output is invalid.
            StoreUnavailable: The store cannot be read or written.
        """
        rows = await self.store.open(self.missing_functions)
        await self.external.open()
        await remote_steps.check(self.store, self.registry.sagas.values())
        await self.pauses.refresh()  # before any attempt starts
        self.spawn(self.pauses.run())
        self.spawn(self.trends.run())
        await self._lifespan.enter()
        await self.shards.open(rows)
        self.executor.children.open()
        self.shards.close_all_over()
        if self.store.supports_nodes:
            self.spawn(self.shards.relocation.moves.run())
        self._timer = self.loop.call_later(1.0, self._tick, 0.0)

    def missing_functions(
        self, texts: list[str], indexes: list[int], completed: Sequence[CompletedChild]
    ) -> str | None:
        """Return which function of a shard this program does not have, or None.

        A node of several takes a shard if it can execute one of its sagas. The others are parked.

        Args:
            texts: The definitions of a shard.
            indexes: The indexes of those that its open sagas have.
            completed: The completed children that its open sagas may undo.
        """
        missing_functions = list[str]()
        for index in indexes:
            try:
                kind = self.registry.kind(texts[index])
            except (ValueError, LookupError, TypeError, SagasError):
                continue  # the shard of an invalid definition is set aside
            if (missing := kind.missing_function) is not None:
                name = f"saga {kind.name!r} (version {kind.version})"
                missing_functions.append(f"{name} has open sagas, but {missing}")
        if missing_functions:
            is_partial = self.store.supports_nodes and len(missing_functions) < len(indexes)
            return None if is_partial else missing_functions[0]
        try:
            return child_attempts.missing_compensation(self.registry.kind, completed)
        except (ValueError, LookupError, TypeError, SagasError):  # an invalid definition
            return None

    def _tick(self, offered: float) -> None:
        """Run the periodic checks.

        `offered` is the time at which shards were last offered to other nodes.
        """
        self.shards.tick()
        self.waits.look()
        self.shards.deadlines.look()
        self.executor.keep_progress()
        now = time.monotonic()
        if self.store.supports_nodes and now >= offered + stored_values.OFFER_PAUSE:
            offered = now
            self.shards.offer_unread()
        self._timer = self.loop.call_later(self.shards.pause, self._tick, offered)

    # -- notifications by the store (`storage.interface.Watcher`)

    def look(self) -> None:
        """Check for commands and starts."""
        if not self.closed:
            for listener in self.listeners:
                listener()

    def lease_expired(self, is_older: bool = False) -> None:
        """Handle that the lease expired.

        With `is_older`, another server has taken over, and may have lost recent commits.
        """
        self.shards.lease_expired(is_older)

    def taken(self, rows: list[ShardRow]) -> None:
        """Execute shards that this node has taken over."""
        self.shards.taken(rows)
        self.look()

    def drained(self, is_drained: bool) -> None:
        """Handle that an operator has drained this node, or not any more."""
        self.shards.relocation.moves.set_drained(is_drained)

    def figures(self) -> NodeFigures:
        """Return what this node stores about itself."""
        return self.shards.relocation.moves.figures()

    def paused(self) -> None:
        """Read the pauses, because they may have changed."""
        self.pauses.look()

    def slots_freed(self) -> None:
        """Handle that a node released slots of a fleet limit."""
        self.executor.fleet.look()

    def reported(self) -> None:
        """Read reports of external attempts."""
        self.external.look()

    def suffice(self, tasks: Sequence[str]) -> bool:
        """Return whether a claim waits here for each of these tasks, which are offered now."""
        return self.external.waits.suffice(tasks)

    def reported_in(self, shards: Sequence[int]) -> None:
        """Read reports of external attempts, if this node drives one of the shards."""
        self.external.look_in(shards)

    def offered(self) -> None:
        """Wake waiting claims, because another node offers tasks."""
        self.external.offered_elsewhere()

    def refused(self, error: InvalidStore) -> None:
        """Handle that the database has no tables that this node may use or create."""
        if not self.refusal.done():
            self.refusal.set_result(error)

    def logs(self) -> list[int]:
        """Return the shards that this program executes, or is about to close."""
        return self.shards.numbers()

    # -- load (`commit_queue.CommitLoad`)

    def coming(self) -> int:
        """Return how many calls are on their way to a commit."""
        return self.calls() + self.shards.coming() + self.store.pending_lookups

    def calls(self) -> int:
        """Return how many functions are about to be called."""
        return self.executor.calls.coming()

    def is_alone(self) -> bool:
        """Return whether there is one saga, and no function runs."""
        return not self.slots.running and len(self.sagas.by_key) == 1

    @property
    def slots(self) -> Slots:
        """The slots for running functions."""
        return self.executor.slots

    def feed(self) -> None:
        """Resume shards that wait for slots, in the next turn of the loop."""
        if not self._is_feeding:
            self._is_feeding = True
            self.loop.call_soon(self._feed)

    def _feed(self) -> None:
        self._is_feeding = False
        self.slots.feed()

    # -- in the background

    def spawn(self, work: Coroutine[None, None, None]) -> asyncio.Task[None]:
        """Run a coroutine in the background, and log what it raises."""
        job = self.loop.create_task(work)
        self._jobs.add(job)
        job.add_done_callback(self._done)
        return job

    def _done(self, job: asyncio.Task[None]) -> None:
        self._jobs.discard(job)
        if not job.cancelled() and job.exception():
            logger.error("a background task failed: %r", job.exception(), exc_info=job.exception())

    async def kept(self, batch: Batch) -> None:
        """Write a batch, and wait until it is durable. See `CommitQueue.kept`."""
        await self.commits.kept(batch)

    async def settled(self) -> None:
        """Wait until no saga is open, and no `on_end` call is to be started here."""
        while self.sagas.are_open:
            if self.closed:
                raise self.closed
            await self.sagas.emptied()

    # -- closing

    async def close(self, shutdown_timeout: float | None) -> None:
        """Accept nothing new, wait for running functions, and leave the context.

        After `shutdown_timeout` seconds, running functions are cancelled. See `Lifespan.end`.
        """
        self.closed = self.closed or Closed(
            f"{self.store.path}: the store is closed. Open sagas continue when it is opened again"
        )
        work = functools.partial(self._close, self.closed, shutdown_timeout)
        await self._lifespan.end(work, shutdown_timeout)

    @property
    def is_over(self) -> bool:
        """Whether the store is closed and the context left."""
        return self._lifespan.is_over

    async def _close(self, closed: SagasError, shutdown_timeout: float | None) -> None:
        self.executor.closing = True
        self.executor.calls.close()
        self.external.close()
        self.slots.clear()
        self.shards.begin_close(closed)
        await self.executor.calls.settled()
        late = await self._late(shutdown_timeout)
        for job in late:
            job.cancel()
        await self.shards.drained()
        if self._timer:
            self._timer.cancel()
        engines = self.shards.stop(closed)
        for job in list(self._jobs):
            job.cancel()
        if self._jobs:
            await asyncio.wait(list(self._jobs))
        self.sagas.close(closed)
        for saga in list(self.sagas.by_key.values()):
            self.shards.refuse(saga, closed)
        with contextlib.suppress(TimeoutError):
            async with asyncio.timeout(QUIET):
                await self.commits.written()
        await self.store.close()
        self._threads.shutdown(wait=not late, cancel_futures=True)
        self.declared.close()
        if engines:
            await asyncio.wait([engine.reaped for engine in engines], timeout=QUIET)

    async def _late(self, shutdown_timeout: float | None) -> set[asyncio.Task[None]]:
        """Wait for running functions; return the tasks that did not end in time."""
        calls = self.executor.calls
        ending = asyncio.create_task(self._ended(shutdown_timeout))
        either: list[asyncio.Future[Any]] = [ending, self._lifespan.hurry]
        await asyncio.wait(either, return_when=asyncio.FIRST_COMPLETED)
        if ending.done():
            return ending.result()
        ending.cancel()
        return {job for job in calls.running.values() if job}

    async def _ended(self, shutdown_timeout: float | None) -> set[asyncio.Task[None]]:
        late, _ = await asyncio.gather(
            self.executor.calls.end(shutdown_timeout), self.declared.end(shutdown_timeout)
        )
        return late


@dataclasses.dataclass
class SagaWait:
    """A function that waits for a saga without a timeout.

    Attributes:
        key: The key of the saga.
        scope: Ends the wait.
        is_given_up: Whether the wait was ended because no slot is free for the saga.
    """

    key: str
    scope: asyncio.Timeout
    is_given_up: bool = False


class DeadlockCheck:
    """The step functions of a store that wait for sagas of the same store."""

    def __init__(self, coordinator: Coordinator) -> None:
        self._coordinator = coordinator
        self._waits: dict[Attempt, SagaWait] = {}
        self._full_before: tuple[Attempt, ...] = ()  # attempts that had all slots at the last check

    async def guard(self, attempt: Attempt, key: str, work: Coroutine[object, object, T]) -> T:
        """Return the result of `work`, which waits for the saga with this key.

        Raises `WouldWaitForever` if the wait can never end, also if that becomes true later.
        """
        try:
            self._check(attempt, key)
        except WouldWaitForever:
            work.close()
            raise
        wait = SagaWait(key, asyncio.timeout(None))
        self._waits[attempt] = wait
        try:
            async with wait.scope:
                return await work
        except TimeoutError:
            if not wait.is_given_up:
                raise
            attempt.rare.gave_way = True
            raise SlotsTaken(self._slots_taken(attempt, key)) from None
        finally:
            del self._waits[attempt]

    def _check(self, attempt: Attempt, key: str) -> None:
        """Raise `WouldWaitForever` if the saga can end only after this function."""
        chain, last = [key], key
        while last != attempt.instance.key:
            waited_keys = [
                wait.key for other, wait in self._waits.items() if other.instance.key == last
            ]
            following = next(
                (waited_key for waited_key in waited_keys if waited_key not in chain), None
            )
            if following is None:
                return
            chain.append(following)
            last = following
        step = f"{attempt.name!r} of saga {attempt.instance.key!r}"
        if len(chain) == 1:
            raise WouldWaitForever(
                f"step {step} waits for its own saga, which ends only after it. {REMEDY}"
            )
        chain_text = ", which waits for ".join(f"saga {waited_key!r}" for waited_key in chain)
        raise WouldWaitForever(
            f"step {step} waits for {chain_text}, so none of them would ever end. {REMEDY}"
        )

    def _slots_taken(self, attempt: Attempt, key: str) -> str:
        limit = self._coordinator.slots.capacity
        return (
            f"step {attempt.name!r} of saga {attempt.instance.key!r} waits for saga "
            f"{key!r}, and all {limit} slots of the store's concurrency are taken by steps "
            "that wait like this. Open the store with a larger concurrency=, or let the "
            "last step of the child complete an external step of the parent"
        )

    def look(self) -> None:
        """End one wait if all slots are taken by waits for sagas that need a slot.

        This has to be true at two checks in a row.
        """
        slots = self._coordinator.slots
        if (
            len(self._waits) < slots.capacity
            or len(self._waits) < slots.running
            or not all(map(self._needs_slot, self._waits.values()))
        ):
            self._full_before = ()
            return
        now = tuple(self._waits)
        if self._full_before == now:
            wait = self._waits[now[-1]]
            wait.is_given_up = True
            wait.scope.reschedule(self._coordinator.loop.time())
            self._full_before = ()
        else:
            self._full_before = now

    def _needs_slot(self, wait: SagaWait) -> bool:
        """Return whether the awaited saga needs the slot of a waiting function."""
        saga = self._coordinator.sagas.by_key.get(wait.key)
        if saga is None or not saga.committed or saga.over or not self._is_quiet(saga):
            return False
        if not saga.busy:
            runner = self._coordinator.shards.runner(saga.shard) if saga.shard else None
            return runner is not None and self._coordinator.slots.is_shard_waiting(runner)
        return any(
            attempt in self._waits or self._coordinator.slots.is_waiting(attempt)
            for attempt in saga.busy.values()
        )

    def _is_quiet(self, saga: SagaInstance) -> bool:
        """Return whether nothing in progress in the saga's shard could end the saga."""
        shard = saga.shard
        is_here = shard is not None and shard.state in (ShardState.ACTIVE, ShardState.IDLE)
        if shard is None or not is_here or shard.commits_in_flight or shard.unanswered:
            return False
        return not (shard.reports or shard.aborts)
