"""Group commit: queued batches go into the next transaction."""

from __future__ import annotations

import asyncio
from collections.abc import Sequence
from typing import Protocol

from sagas.base.errors import SagasError, ShardLost, StoreUnavailable
from sagas.base.events import EventEmitter
from sagas.base.logger import logger
from sagas.core.shard.batch import Batch
from sagas.core.effects import Effects
from sagas.core.shard.group_commit import GroupCommitPolicy, first_half
from sagas.storage.interface import CommitWriter


class CommitListener(Protocol):
    """Is notified whether its batches were committed."""

    def committed(self, effects: Effects) -> None:
        """Handle that the batch is durable."""

    def failed(self, effects: Effects, fault: BaseException | None) -> None:
        """Handle that the batch is not durable, as far as is known.

        `fault` is the error; None if the batch was refused because another node has the shard, or
        because one of its keys belongs to another saga.
        """

    def broken(self, error: Exception) -> None:
        """Handle that a method of this listener raised: an error of this package."""


class CommitLoad(Protocol):
    """How much work is about to reach a commit."""

    def coming(self) -> int:
        """Return how many calls are on their way to a commit."""

    def calls(self) -> int:
        """Return how many functions are about to be called."""

    def is_alone(self) -> bool:
        """Return whether there is only one saga, and no function runs."""


Entry = tuple[Effects, CommitListener | None]
"""A batch that waits or is being written, with its listener."""


class BatchWaiter:
    """A caller that waits for one batch."""

    def __init__(self, path: str, durable: asyncio.Future[None]) -> None:
        self._path, self._durable = path, durable

    def committed(self, effects: Effects) -> None:
        """See `CommitListener`."""
        if not self._durable.done():  # the caller may have been cancelled
            self._durable.set_result(None)

    def failed(self, effects: Effects, fault: BaseException | None) -> None:
        """See `CommitListener`."""
        if self._durable.done():
            return
        if fault is None:
            fault = ShardLost(f"shard {effects.batch.shard}")
        is_ours = isinstance(fault, SagasError)
        self._durable.set_exception(
            fault if is_ours else StoreUnavailable(f"{self._path}: {fault}")
        )

    def broken(self, error: Exception) -> None:
        """See `CommitListener`."""


def _rows_of(entries: Sequence[Entry]) -> int:
    """Return how many sagas the batches open, plus how many results they have."""
    batches = [effects.batch for effects, _ in entries]
    return sum(len(batch.results) + len(batch.opened) for batch in batches)


class CommitQueue:
    """Writes batches in the order of their arrival, one transaction at a time."""

    def __init__(
        self,
        store: CommitWriter,
        load: CommitLoad,
        teller: EventEmitter,
        loop: asyncio.AbstractEventLoop,
    ) -> None:
        self._store, self._load, self._teller, self._loop = store, load, teller, loop
        self._policy = GroupCommitPolicy()
        self._queue: list[Entry] = []
        self._under_way: list[Entry] = []
        self._is_under_way = False
        self._is_urgent = False
        self._timer: asyncio.TimerHandle | None = None
        self._idle: asyncio.Future[None] | None = None

    @property
    def is_writing(self) -> bool:
        """Whether a commit is in progress, or a batch waits for one."""
        return self._is_under_way or bool(self._queue)

    def batch_size(self, ready: int) -> int:
        """Return how many of `ready` calls are reported at once.

        That is half of them if the server would otherwise be idle until all calls ended.
        """
        return first_half(ready) if self._store.commit_seconds and not self.is_writing else ready

    # -- queue

    def put(self, effects: Effects, listener: CommitListener | None, at_once: bool = False) -> None:
        """Put a batch into the next transaction.

        Args:
            effects: The effects whose batch it is.
            listener: Is notified whether the batch was committed.
            at_once: Whether no other operation of this program is half done. Then the listener may
                be notified before this call returns.
        """
        if self._store.commit_seconds:
            self._policy.batch_arrived(self._loop.time())
        self._queue.append((effects, listener))
        if self._is_under_way:
            return
        self._is_urgent = at_once
        try:
            self.write()
        finally:
            self._is_urgent = False

    def put_alone(self, batch: Batch) -> None:
        """Put a batch into the next transaction, and ignore whether it is committed."""
        self.put(Effects(batch), None)

    async def kept(self, batch: Batch) -> None:
        """Put a batch into the next transaction, and wait until it is durable.

        Raises:
            StoreUnavailable: It cannot be written now.
            Lost: Another node owns the shard.
        """
        durable: asyncio.Future[None] = self._loop.create_future()
        self.put(Effects(batch), BatchWaiter(self._store.path, durable))
        await durable

    async def written(self) -> None:
        """Wait until no batch waits for a commit, including batches of cancelled callers."""
        while self.is_writing:
            self._idle = self._loop.create_future()
            await self._idle

    def drop(self, shards: Sequence[int]) -> None:
        """Discard the waiting batches of these shards."""
        self._queue = [entry for entry in self._queue if entry[0].batch.shard not in shards]

    # -- write

    def write(self) -> None:
        """Write the waiting batches, unless a commit is in progress or waiting pays off."""
        if not self._queue or self._is_under_way:
            return
        commit_seconds = self._store.commit_seconds
        if commit_seconds and self._waits_for_more(commit_seconds):
            return
        entries, self._queue = self._queue, []
        at_once, self._is_urgent, self._is_under_way = self._is_urgent, False, True
        self._under_way = entries
        try:
            self._store.commit([effects.batch for effects, _ in entries], self._written, at_once)
        except BaseException:
            self._settle_soon()
            raise
        if not at_once:
            self._settle_soon()

    def _waits_for_more(self, commit_seconds: float) -> bool:
        if self._load.is_alone():
            return False
        policy, now = self._policy, self._loop.time()
        waits = policy.should_wait(self._load.coming(), _rows_of(self._queue), commit_seconds, now)
        if self._timer and not waits:
            self._timer.cancel()
            self._timer = None
        elif waits and self._timer is None and policy.until is not None:
            self._timer = self._loop.call_at(policy.until, self._timer_fired)
        return waits

    def _timer_fired(self) -> None:
        self._timer = None
        self.write()

    def _settle_soon(self) -> None:
        """Have the result of a commit to a file delivered in the next turn of the loop."""
        if self._store.answers_at_once:  # the reply of a server arrives in its own turn
            self._loop.call_soon(self._store.finish_commit)

    def _written(
        self, batches: Sequence[Batch], fault: BaseException | None, lost: frozenset[int]
    ) -> None:
        entries, self._under_way, self._is_under_way = self._under_way, [], False
        if fault is not None or lost:
            entries = self._with_later_entries(entries, fault, lost)
        commit_seconds = self._store.commit_seconds
        if self._queue and fault is None:
            is_soon = commit_seconds and self._policy.is_soon(
                _rows_of(entries), _rows_of(self._queue), commit_seconds
            )
            if not is_soon:
                self.write()
        for effects, listener in entries:
            if listener is not None:
                _notify(effects, listener, fault, fault is not None or effects.batch.shard in lost)
        if commit_seconds:
            self._policy.committed(self._load.calls(), self._loop.time())
        if self._queue:
            self.write()
        if self._idle and not self._idle.done() and not self.is_writing:
            self._idle.set_result(None)

    def _with_later_entries(
        self, entries: list[Entry], fault: BaseException | None, lost: frozenset[int]
    ) -> list[Entry]:
        """Return the failed entries with later ones of their shards, which fail too."""
        if fault is not None:
            self._teller.emit("commit_failed", detail=str(fault))
        shards = {effects.batch.shard for effects, _ in entries} if fault else lost
        later = [entry for entry in self._queue if entry[0].batch.shard in shards]
        self.drop(list(shards))
        return [*entries, *later]


def _notify(
    effects: Effects, listener: CommitListener, fault: BaseException | None, is_lost: bool
) -> None:
    try:
        if is_lost:
            listener.failed(effects, None if isinstance(fault, ShardLost) else fault)
        else:
            listener.committed(effects)
    except Exception as error:  # the other listeners must still be notified
        logger.exception("shard %d: an error after a commit", effects.batch.shard)
        listener.broken(error)
