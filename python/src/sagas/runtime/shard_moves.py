"""Moves shards at rest to other nodes, so that the nodes share the sagas."""

from __future__ import annotations

import asyncio
import contextlib
import random
import time
from collections.abc import Iterator
from typing import TYPE_CHECKING

from sagas.base.errors import StoreUnavailable
from sagas.base.logger import logger
from sagas.core.shard import balance
from sagas.core.shard.balance import Move, NodeFigures, ShardLoad
from sagas.core.shard.batch import ShardRow
from sagas.core.shard.driver import ShardDriver
from sagas.core.states import ShardState
from sagas.definition.definition_text import digest_of

if TYPE_CHECKING:
    from sagas.runtime.coordinator import Coordinator
    from sagas.runtime.shard_runner import ShardRunner

REST_SECONDS, DRAIN_SECONDS = 10.0, 60.0
"""Seconds that a shard has to come to rest; the second one is for a node that is drained."""
MAX_PASSED = 10_000
"""The number of moved shards that a node remembers, to notice that they come back."""
MAX_CANDIDATES = 32
"""Maximum number of shards whose definitions a round reads."""
STAY_SECONDS = 300.0
"""Seconds for which a shard that did not come to rest stays, if its node is not drained."""
DRAIN_PAUSE = 1.0
"""Seconds between two rounds of a node that is drained."""
REST_LOOK = 0.1
"""Seconds between two looks at a shard that comes to rest: a function may end without a commit."""


class ShardMoves:
    """The shards that this program moves to other nodes.

    Attributes:
        is_drained: Whether an operator has drained this node, and another one takes its shards.
    """

    def __init__(self, coordinator: Coordinator) -> None:
        self._coordinator, self._store = coordinator, coordinator.store
        self._executor = coordinator.executor
        self.is_drained = False
        self._wanted, self._changed = asyncio.Event(), asyncio.Event()
        # of the shards that accept sagas: how many sagas each had opened, and since when
        self._opened: dict[int, tuple[int, float]] = {}
        self._passed: dict[int, tuple[str, int]] = {}  # the nodes of moved shards, with epochs
        self._refused: dict[int, set[str]] = {}
        self._stays: dict[int, float] = {}  # those that did not come to rest, until when they stay

    # -- notifications

    def set_drained(self, is_drained: bool) -> None:
        """Note whether this node is drained."""
        if is_drained == self.is_drained:
            return
        self.is_drained = is_drained
        logger.warning("this node is %s", "drained" if is_drained else "not drained any more")
        self._wanted.set()
        if not is_drained:
            self._coordinator.look()

    def changed(self) -> None:
        """Look again whether shards are at rest."""
        self._changed.set()

    def adopted(self, row: ShardRow) -> None:
        """Note that this node has a shard again, if it has moved it before.

        If the other node never loaded the shard, it does not get it again.
        """
        node, epoch = self._passed.pop(row.shard, ("", 0))
        if node and row.epoch - epoch <= balance.SAME_EPOCHS:
            self._refused.setdefault(row.shard, set()).add(node)

    def figures(self) -> NodeFigures:
        """Return what this node stores with its heartbeat."""
        coordinator, now = self._coordinator, time.monotonic()
        current = {
            runner.driver.number: runner for runner in coordinator.shards.placement.current.values()
        }
        opened = self._opened
        self._opened = {
            number: opened[number]
            if number in opened and opened[number][0] == runner.driver.reserved
            else (runner.driver.reserved, now)
            for number, runner in current.items()
        }
        stored = (runner for runner in current.values() if runner.driver.new_shard is None)
        return NodeFigures(
            sum(len(runner.driver.sagas) for runner in coordinator.shards.runners.values()),
            sum(map(self._accepts_sagas, stored)),
            coordinator.slots.running,
            coordinator.slots.capacity,
            coordinator.closed is not None,
        )

    def _accepts_sagas(self, runner: ShardRunner) -> bool:
        """Return whether a shard accepts sagas, and has opened one a short time ago."""
        if not self._coordinator.shards.placement.is_current(runner):
            return False
        _, since = self._opened.get(runner.driver.number, (0, time.monotonic()))
        return not runner.driver.sagas or time.monotonic() - since < self._store.lease_seconds

    # -- rounds

    async def run(self) -> None:
        """Move shards until cancelled."""
        while True:
            self._wanted.clear()
            with contextlib.suppress(StoreUnavailable):
                await self._move_some()
            pause = self._store.lease_seconds * random.uniform(1.0, 1.5)
            with contextlib.suppress(TimeoutError):
                async with asyncio.timeout(DRAIN_PAUSE if self.is_drained else pause):
                    await self._wanted.wait()

    async def _move_some(self) -> None:
        """Move a few shards, if this node is drained, or others have fewer."""
        if self._coordinator.closed:
            return
        if self.is_drained:
            self._coordinator.shards.retire()
        if not (loads := self._loads()):
            return
        shares = await self._store.shares()
        moves = balance.planned_moves(self._store.node, shares, loads)
        await asyncio.gather(*(self._move(move) for move in moves))

    def _loads(self) -> list[ShardLoad]:
        """Return some shards that could move. Those in which no function runs are first."""
        runners = self._coordinator.shards.runners.values()
        movable = [runner for runner in runners if self._is_movable(runner)]
        self._forget_others()
        random.shuffle(movable)
        movable.sort(key=lambda runner: self._executor.has_running(runner.driver))
        return [
            ShardLoad(
                runner.driver.number,
                len(runner.driver.sagas),
                frozenset(_kinds(runner.driver)),
                self._accepts_sagas(runner),
                self._refused.get(runner.driver.number, ()),
            )
            for runner in movable[:MAX_CANDIDATES]
        ]

    def _forget_others(self) -> None:
        """Forget what is known of shards that this node does not have."""
        numbers, now = self._coordinator.shards.runners.keys(), time.monotonic()
        refused, stays = self._refused.items(), self._stays.items()
        self._refused = {number: nodes for number, nodes in refused if number in numbers}
        self._stays = {
            number: until for number, until in stays if number in numbers and until > now
        }

    def _is_movable(self, runner: ShardRunner) -> bool:
        driver = runner.driver
        is_here = driver.state in (ShardState.ACTIVE, ShardState.IDLE) and not driver.new_shard
        is_free = not (runner.is_moving or runner.is_set_aside)
        stays = driver.number in self._stays or self._accepts_sagas(runner)
        may_leave = self.is_drained or not stays
        return is_here and is_free and bool(driver.sagas) and may_leave

    # -- one move

    async def _move(self, move: Move) -> None:
        """Start no attempts of a shard, wait until it is at rest, and move it.

        If it does not come to rest in time, it stays.
        """
        runner = self._coordinator.shards.runners.get(move.shard)
        if runner is None or not self._is_movable(runner):
            return
        with self._held(runner):
            is_at_rest = await self._comes_to_rest(
                runner, DRAIN_SECONDS if move.difference is None else REST_SECONDS
            )
            if not is_at_rest:
                self._stays[move.shard] = time.monotonic() + STAY_SECONDS
                logger.info("shard %s stays: its functions did not end", runner.driver.name)
            elif await self._is_moved(runner, move):
                logger.info("moved shard %s to node %s", runner.driver.name, move.node)
                self._store.forget(move.shard)
                self._coordinator.shards.lose(runner)

    @contextlib.contextmanager
    def _held(self, runner: ShardRunner) -> Iterator[None]:
        """Start no attempts of a shard."""
        self._coordinator.shards.placement.forget(runner)
        runner.is_moving = True
        self._executor.set_moving(runner.driver, True)
        try:
            yield
        finally:
            runner.is_moving = False
            self._executor.set_moving(runner.driver, False)
            if self._is_here(runner):
                runner.poke()

    def _is_here(self, runner: ShardRunner) -> bool:
        coordinator = self._coordinator
        is_known = coordinator.shards.runners.get(runner.driver.number) is runner
        return is_known and not coordinator.closed

    async def _comes_to_rest(self, runner: ShardRunner, seconds: float) -> bool:
        """Wait until nothing of a shard is in progress; return whether it is so."""
        deadline = time.monotonic() + seconds
        while self._is_here(runner) and time.monotonic() < deadline:
            self._changed.clear()
            if self._is_at_rest(runner):
                return True
            with contextlib.suppress(TimeoutError):
                async with asyncio.timeout(REST_LOOK):
                    await self._changed.wait()
        return False

    def _is_at_rest(self, runner: ShardRunner) -> bool:
        return runner.is_quiescent and not self._executor.has_running(runner.driver)

    async def _is_moved(self, runner: ShardRunner, move: Move) -> bool:
        """Pass a shard to another node; return whether that was done.

        If that is unknown, the shard is loaded again.
        """
        epoch = runner.driver.epoch
        try:
            is_moved = await self._store.move(move.shard, epoch, move.node, move.difference)
        except StoreUnavailable:
            if self._is_here(runner):
                runner.fail(None)
            return False
        if is_moved:
            self._passed[move.shard] = move.node, epoch + 1
            if len(self._passed) > MAX_PASSED:
                del self._passed[next(iter(self._passed))]
        return is_moved and self._is_here(runner)


def _kinds(driver: ShardDriver) -> Iterator[str]:
    """Yield the definitions of the open sagas of a shard, as saga/version/digest."""
    kinds = driver.identity.definitions.kinds
    for index in {saga.definition_index for saga in driver.sagas.values()}:
        yield f"{kinds[index].name}/{kinds[index].version}/{digest_of(kinds[index].text)}"
