"""The tasks for workers of a store over several databases."""

from __future__ import annotations

import asyncio
import builtins
import contextlib
from collections import OrderedDict
from collections.abc import Callable, Iterable
from typing import TYPE_CHECKING, Any

from sagas.api.claims import Workers
from sagas.base.errors import SagasError, StoreUnavailable
from sagas.definition import tokens
from sagas.runtime.leased_tasks import Heartbeat, LeasedTask, Queue, Word

if TYPE_CHECKING:
    from sagas.api.database_set import DatabaseSet
    from sagas.api.store import Store
    from sagas.storage.interface import Peers

MAX_SHARDS = 10_000
"""Maximum number of shards whose databases are remembered."""


class WorkerSet(Workers):
    """Hand the tasks of all databases to workers. See `Workers`.

    A task is reported to the database that has its shard.
    """

    def __init__(self, databases: DatabaseSet[Store]) -> None:
        self._set = databases
        self._shards: OrderedDict[str, int] = OrderedDict()
        self._turn = 0

    async def claim(
        self,
        steps: Iterable[Word],
        *,
        limit: int = 1,
        wait: float = 0.0,
        lease: float = 30.0,
        worker: str = "",
        holder: str = "",
    ) -> builtins.list[LeasedTask]:
        """Claim tasks for a worker, of each database in turn. See `Workers.claim`."""
        wanted = [*steps]
        options: dict[str, Any] = {"lease": lease, "worker": worker, "holder": holder}
        members, tasks = self._in_turn(), builtins.list[LeasedTask]()
        failure: StoreUnavailable | None = None
        for member in members:
            try:
                rest = limit - len(tasks)
                tasks += await member.workers.claim(wanted, limit=rest, **options)
            except StoreUnavailable as error:
                failure = error
            if len(tasks) == limit:
                break
        if tasks or wait <= 0:
            if failure is not None and not tasks and len(members) == 1:
                raise failure
            return tasks
        return await self._first(members, wanted, limit, wait, options)

    def _in_turn(self) -> builtins.list[Store]:
        """Return the members that are used, beginning with the next one."""
        members = self._set.in_use()
        if not members:
            raise StoreUnavailable("; ".join(self._set.unavailable.values()))
        self._turn = (self._turn + 1) % len(members)
        return members[self._turn :] + members[: self._turn]

    async def _first(
        self,
        members: builtins.list[Store],
        steps: builtins.list[Word],
        limit: int,
        wait: float,
        options: dict[str, Any],
    ) -> builtins.list[LeasedTask]:
        """Wait at all databases, and return the tasks of the first one that has some."""
        loop = asyncio.get_running_loop()
        until = loop.time() + wait
        claims = {
            loop.create_task(member.workers.claim(steps, limit=limit, wait=wait, **options))
            for member in members
        }
        tasks: builtins.list[LeasedTask] = []
        kept = 0
        try:
            while claims and not tasks and (left := until - loop.time()) > 0:
                done, claims = await asyncio.wait(
                    claims, timeout=left, return_when=asyncio.FIRST_COMPLETED
                )
                tasks += [task for claim in done for task in _result(claim)]
            kept = limit
        finally:  # if the caller is cancelled, all tasks are released
            for claim in claims:
                claim.cancel()
            if claims:
                await asyncio.wait(claims)
            tasks += [task for claim in claims for task in _result(claim)]
            if extra := tasks[kept:]:
                await self.give_back(extra, holder=options["holder"])
        return tasks[:limit]

    async def _workers_of(self, attempt_id: str) -> Workers:
        """Return the tasks of the database that has an attempt."""
        name = tokens.parse(attempt_id)
        shard = name.shard if name else ""
        if shard in self._shards:
            return self._set.member(self._shards[shard]).workers

        async def has_shard(member: Store, _: int) -> bool:
            return await member.workers._has_shard(shard)

        values, missing = await self._set.each(has_shard)
        for index, has in values.items():
            if has:
                self._shards[shard] = index
                if len(self._shards) > MAX_SHARDS:
                    self._shards.popitem(last=False)
                return self._set.member(index).workers
        if missing:
            raise StoreUnavailable("; ".join(missing.values()))
        return self._set.opened()[0].workers  # it raises that the task does not exist

    async def heartbeat(
        self,
        attempt_id: str,
        lease: str,
        seconds: float = 30.0,
        *,
        holder: str = "",
        progress: float | None = None,
        detail: str | None = None,
    ) -> Heartbeat:
        """Extend a lease. See `Workers.heartbeat`."""
        workers = await self._workers_of(attempt_id)
        options: dict[str, Any] = {"holder": holder, "progress": progress, "detail": detail}
        return await workers.heartbeat(attempt_id, lease, seconds, **options)

    async def give_back(self, tasks: Iterable[LeasedTask], *, holder: str = "") -> None:
        """Release tasks that are not performed. See `Workers.give_back`."""
        for task in tasks:
            with contextlib.suppress(StoreUnavailable):  # its lease ends by itself
                workers = await self._workers_of(task.attempt_id)
                await workers.give_back([task], holder=holder)

    async def set_aside(self, task: LeasedTask, why: str, *, holder: str = "") -> None:
        """Set a claimed task aside whose values cannot be read or written."""
        workers = await self._workers_of(task.attempt_id)
        await workers.set_aside(task, why, holder=holder)

    async def report(
        self,
        attempt_id: str,
        lease: str,
        result: Any = None,
        *,
        error: str | None = None,
        final: bool = False,
        unknown: str | None = None,
        program_error: bool = False,
        holder: str = "",
        stored: Callable[[], object] | None = None,
    ) -> bool:
        """Report how a task ended. See `Workers.report`."""
        workers = await self._workers_of(attempt_id)
        options: dict[str, Any] = {"error": error, "final": final, "unknown": unknown}
        options |= {"program_error": program_error, "holder": holder, "stored": stored}
        return await workers.report(attempt_id, lease, result, **options)

    async def queues(self) -> builtins.list[Queue]:
        """Return the tasks that wait for workers in all databases, by step."""
        parts, _ = await self._set.each(lambda member, _: member.workers.queues())
        return summed(queue for part in parts.values() for queue in part)

    @property
    def takeovers(self) -> int:
        """How many tasks another worker claimed because their leases ended."""
        return sum(member.workers.takeovers for member in self._set.opened())

    def observe_claims(self, observer: Callable[[str, float], object]) -> None:
        """Have a function called at each claim of a task. See `Workers.observe_claims`."""
        for member in self._set.opened():
            member.workers.observe_claims(observer)

    def peers(self) -> Peers | None:
        """Return None: each database has its own nodes."""
        return None


def summed(queues: Iterable[Queue]) -> builtins.list[Queue]:
    """Return one queue for each step."""
    sums: dict[tuple[str, str, bool], Queue] = {}
    for queue in queues:
        name = queue.saga, queue.step, queue.undo
        before = sums.get(name, Queue(*name, 0, None, 0))
        oldest = [at for at in (before.oldest, queue.oldest) if at is not None]
        ready, claimed = before.ready + queue.ready, before.claimed + queue.claimed
        sums[name] = Queue(*name, ready, min(oldest, default=None), claimed)
    return [*sums.values()]


def _result(claim: asyncio.Task[builtins.list[LeasedTask]]) -> builtins.list[LeasedTask]:
    """Return the tasks of a claim. One that failed or was cancelled has none."""
    if claim.cancelled():
        return []
    error = claim.exception()
    if error is not None and not isinstance(error, SagasError):
        raise error
    return [] if error is not None else claim.result()
