"""Concurrency limits of the program and of steps, shared fairly among tenants."""

from __future__ import annotations

from collections import Counter, deque
from collections.abc import Callable
from typing import Protocol

from sagas.core.attempt.model import Attempt, SUSPENDED
from sagas.core.states import Action, Suspension

MAX_AHEAD = 1 << 20
"""The number of tasks that may be claimed without a slot if tenants share the slots."""
Tenant = str | None
"""The tenant of a saga, which the definition's `fair_by` returns, as JSON; None if it has none."""


class FairQueue:
    """Attempts that wait for a slot, in turn among tenants.

    The next attempt belongs to the tenant with the fewest slots; among several, to the one that
    was served longest ago. Attempts of one tenant are served in the order of their arrival.

    Attributes:
        running: The number of slots that each tenant has.
    """

    def __init__(self) -> None:
        self.running: Counter[Tenant] = Counter()
        self._waiting: dict[Tenant, dict[Attempt, None]] = {}
        self._count = 0

    def __len__(self) -> int:
        return self._count

    def __contains__(self, attempt: Attempt) -> bool:
        return attempt in self._waiting.get(attempt.instance.tenant, ())

    def push(self, attempt: Attempt) -> None:
        """Add an attempt to the queue of its tenant."""
        self._waiting.setdefault(attempt.instance.tenant, {})[attempt] = None
        self._count += 1

    def pop(self) -> Attempt:
        """Remove and return the next attempt."""
        tenant = min(self._waiting, key=self.running.__getitem__)
        waiting = self._waiting.pop(tenant)
        attempt = next(iter(waiting))
        del waiting[attempt]
        if waiting:
            self._waiting[tenant] = waiting  # after the other tenants
        self._count -= 1
        return attempt

    def discard(self, attempt: Attempt) -> None:
        """Remove an attempt, if it waits."""
        if attempt in self:
            waiting = self._waiting[attempt.instance.tenant]
            del waiting[attempt]
            self._count -= 1
            if not waiting:
                del self._waiting[attempt.instance.tenant]

    def begin(self, tenant: Tenant, count: int = 1) -> None:
        """Count slots that a tenant takes."""
        if count:
            self.running[tenant] += count

    def end(self, tenant: Tenant, count: int = 1) -> None:
        """Count slots that a tenant releases."""
        self.running[tenant] -= count
        if not self.running[tenant]:
            del self.running[tenant]

    def clear(self) -> None:
        """Remove all attempts."""
        self._waiting.clear()
        self._count = 0


class SlotUser(Protocol):
    """A shard that has more tasks than there are slots."""

    def poke(self) -> None:
        """Continue, because slots are free."""


def never(attempt: Attempt) -> bool:
    """Return False: there are no pauses."""
    return False


def _limit_of(attempt: Attempt) -> tuple[str, str, str]:
    """Return the name of the limit that counts an attempt: its step's, or that of its key."""
    key = attempt.extras.limit_key if attempt.extras else None
    return *attempt.limit_name, key or ""


class Slots:
    """The slots of running functions.

    An attempt over its step's limit waits in a separate queue, and does not block others. An
    attempt that `holds` keeps, because it is paused, has no slot and is in no queue.

    Attributes:
        is_fair: Whether tenants share the slots. Then all tasks are claimed, because the engine
            does not know the tenants.
        capacity: The store's concurrency.
        running: The number of taken slots.
        waiting_shards: The shards whose tasks wait for slots. If there are any, `freed` is called
            when slots may be free.
    """

    def __init__(
        self,
        capacity: int,
        start: Callable[[Attempt], None],
        freed: Callable[[], None],
        holds: Callable[[Attempt], bool] = never,
    ) -> None:
        self.capacity, self._start, self._freed, self._holds = capacity, start, freed, holds
        self.is_fair = False
        self.running = self._reserved = 0
        self.waiting_shards: dict[SlotUser, None] = {}
        self._queued = FairQueue()
        self._limits: dict[tuple[str, str, str], tuple[set[Attempt], deque[Attempt]]] = {}

    def free_count(self) -> int:
        """Return how many tasks may be claimed: slots that are not taken, awaited or reserved."""
        if self.is_fair:
            return MAX_AHEAD
        return self.capacity - self.running - self._reserved - len(self._queued)

    def reserve(self, count: int) -> None:
        """Reserve slots for requested tasks that have not started."""
        self._reserved += count

    def release(self, count: int) -> None:
        """Release reserved slots: their tasks start now, or do not exist."""
        self._reserved -= count
        if count and self.waiting_shards:
            self._freed()

    def take_slots(self, count: int = 1) -> int:
        """Take up to `count` slots for attempts that wait for nothing else; return how many."""
        available = self.capacity - self.running
        if count > available:
            count = max(0, available)
        self.running += count
        if self.is_fair:
            self._queued.begin(None, count)
        return count

    def enter(self, attempt: Attempt) -> None:
        """Start an attempt when its step's limit and a slot allow it, unless it is paused."""
        if self._holds(attempt):
            return
        step = attempt.instance.kind.steps[attempt.step]
        if step is not None and step.concurrency is not None and attempt.kind == Action.RUN:
            inside, queue = self._limits.setdefault(_limit_of(attempt), (set(), deque()))
            if len(inside) >= step.concurrency:
                attempt.limit(Suspension.STEP_LIMIT)
                queue.append(attempt)
                return
            inside.add(attempt)
        self.request_slot(attempt)

    def request_slot(self, attempt: Attempt) -> None:
        """Start an attempt when a slot is free, without a limit of its step."""
        if self._holds(attempt):
            self.cancel(attempt)
            return
        attempt.queue()
        if self.running < self.capacity:
            self._begin(attempt)
        else:
            self._queued.push(attempt)

    def _begin(self, attempt: Attempt) -> None:
        self.running += 1
        if self.is_fair:
            self._queued.begin(attempt.instance.tenant)
        self._start(attempt)

    def leave(self, attempt: Attempt) -> None:
        """Release the slot of an attempt that ended or is not called; start the next attempt."""
        if self._limits:
            self.cancel(attempt)
        self._left(attempt.instance.tenant if self.is_fair else None, 1)

    def leave_many(self, count: int) -> None:
        """Release the slots of attempts without limits and tenants."""
        self._left(None, count)

    def _left(self, tenant: Tenant, count: int) -> None:
        self.running -= count
        if self.is_fair:
            self._queued.end(tenant, count)
        while self._queued and self.running < self.capacity:
            attempt = self._queued.pop()
            if self._holds(attempt):
                self.cancel(attempt)
            else:
                self._begin(attempt)
        if self.waiting_shards:
            self._freed()

    def cancel(self, attempt: Attempt) -> None:
        """Remove a waiting attempt, and pass its place under its step's limit to the next."""
        self._queued.discard(attempt)
        limit = self._limits.get(key := _limit_of(attempt))
        if limit is None or attempt not in limit[0]:
            return
        inside, queue = limit
        inside.discard(attempt)
        while queue:
            following = queue.popleft()
            if following.state is SUSPENDED and following.reason is Suspension.STEP_LIMIT:
                if self._holds(following):
                    continue
                inside.add(following)
                self.request_slot(following)
                return
        if not inside:
            del self._limits[key]

    def is_waiting(self, attempt: Attempt) -> bool:
        """Whether an attempt waits for a slot."""
        return attempt in self._queued

    def clear(self) -> None:
        """Remove all waiting attempts."""
        self._queued.clear()
        for _, queue in self._limits.values():
            queue.clear()

    # -- shards

    def add_waiting_shard(self, shard: SlotUser) -> None:
        """Note that a shard waits for slots."""
        self.waiting_shards[shard] = None

    def is_shard_waiting(self, shard: SlotUser) -> bool:
        """Whether a shard waits for slots."""
        return shard in self.waiting_shards

    def remove_waiting_shard(self, shard: SlotUser) -> None:
        """Note that a shard does not wait for slots any more."""
        self.waiting_shards.pop(shard, None)

    def feed(self) -> None:
        """Wake the shards that wait, if slots are free."""
        if self.free_count() > 0:
            starved, self.waiting_shards = self.waiting_shards, {}
            for shard in starved:
                shard.poke()
