"""What other processes claim of a store: tasks for workers, and deliveries for webhooks."""

from __future__ import annotations

import builtins
from collections.abc import Callable, Iterable
from typing import Any

from sagas.api.store_access import StoreAccess
from sagas.core import outcomes
from sagas.core.webhook_rows import ENDS
from sagas.core.outcomes import reported_outcome
from sagas.definition.task_data import checked_progress
from sagas.definition.compiled import Hooks
from sagas.definition.registry import DefinitionRegistry
from sagas.runtime.leased_tasks import Heartbeat, LeasedTask, Queue, Word
from sagas.storage import webhook_deliveries
from sagas.storage.webhook_deliveries import Claimed, Posted
from sagas.storage.interface import Peers

HAS_SHARD = "SELECT 1 FROM shards WHERE name = ?"


class Workers:
    """Hand the tasks of external steps to workers. Made by `Store.workers`.

    A lease is durable before the worker gets it. Make all calls in the event loop in which the
    store was opened.
    """

    def __init__(self, access: StoreAccess) -> None:
        self._access = access

    async def claim(
        self,
        steps: Iterable[Word],
        *,
        limit: int = 1,
        wait: float = 0.0,
        lease: float = 30.0,
        worker: str = "",
        holder: str = "",
    ) -> builtins.list[LeasedTask]:
        """Claim tasks for a worker, the oldest first. Open the store with `leased` set.

        Args:
            steps: What the worker can do, each `(saga, step, "run" or "undo")`.
            limit: Maximum number of tasks (default: 1).
            wait: Seconds to wait for a task (default: 0).
            lease: Seconds without a heartbeat after which another worker may claim a task (default:
                30).
            worker: The worker's name, for people.
            holder: The identity that may report the tasks: pass the same to `heartbeat` and
                `report`.

        Returns:
            The tasks with their leases; an empty list if none came in time.

        Raises:
            StoreUnavailable: The leases could not be written, and nothing was claimed.
            Closed: The store is closed.
        """
        coordinator = self._access.coordinator
        return await coordinator.external.claim([*steps], limit, wait, lease, worker, holder)

    async def heartbeat(
        self,
        attempt_id: str,
        lease: str,
        seconds: float = 30.0,
        *,
        holder: str = "",
        progress: float | None = None,
        detail: str | None = None,
    ) -> Heartbeat:
        """Extend a lease, because the worker still performs the task.

        Args:
            attempt_id: The task's `attempt_id`.
            lease: The lease of the claim.
            seconds: How long the lease lasts from now (default: 30).
            holder: As given to `claim`.
            progress: How far the worker is, from 0 to 1 (default: not reported).
            detail: A text with it, for people; at most 200 characters are kept (default: None).

        Returns:
            When the lease ends, and whether the saga is being undone. The worker still reports how
                the task ended.

        Raises:
            InvalidLease: The lease was not issued for this task to this holder.
            LeaseLost: Another worker has the task, or its outcome was reported.
            NoSuchTask: No task has this id.
            TypeError: The progress is not a number, or the detail is not a text.
            ValueError: The progress is not from 0 to 1.
            OwnerUnavailable: The node that executes the saga does not answer.
            StoreUnavailable: The database does not answer.
            Closed: The store is closed.
        """
        reported_progress = None if progress is None else checked_progress(progress, detail)
        external = self._access.coordinator.external
        return await external.heartbeat(attempt_id, lease, holder, seconds, reported_progress)

    async def give_back(self, tasks: Iterable[LeasedTask], *, holder: str = "") -> None:
        """Release tasks that are not performed, so that others may claim them at once.

        If the database does not answer, the leases expire.

        Args:
            tasks: What `claim` returned, or a part of it.
            holder: As given to `claim`.

        Raises:
            InvalidLease: A lease was not issued for its task to this holder.
            Closed: The store is closed.
        """
        await self._access.coordinator.external.give_back(tasks, holder)

    async def set_aside(self, task: LeasedTask, why: str, *, holder: str = "") -> None:
        """Set a claimed task aside whose values cannot be read or written.

        The task has not failed. It waits for a program that can read it, or for an operator, and is
        listed by `Store.attention`.

        Args:
            task: One that `claim` returned.
            why: The reason, without a value.
            holder: As given to `claim`.

        Raises:
            InvalidLease: The lease was not issued for this task to this holder.
            Closed: The store is closed.
        """
        await self._access.coordinator.external.set_aside(task, holder, why)

    async def report(
        self,
        attempt_id: str,
        lease: str,
        result: Any = None,
        *,
        error: str | None = None,
        final: bool = False,
        unknown: str | None = None,
        program_error: bool = False,
        holder: str = "",
        stored: Callable[[], object] | None = None,
    ) -> bool:
        """Report how a task ended. When it returns, the report is durable.

        A success counts under any lease that was issued for the task, other outcomes only under the
        newest. The same report again is not an error.

        Args:
            attempt_id: The task's `attempt_id`.
            lease: The lease of the claim.
            result: The result, if it succeeded (default: None).
            error: Why it failed, without an effect (default: None: it did not fail).
            final: With `error`: whether the failure is permanent (default: False).
            unknown: Why the outcome is unknown (default: None: it is known).
            program_error: With `unknown`: whether the worker's program has a bug, so the attempt
                waits for a retry (default: False).
            holder: As given to `claim`.
            stored: Called once the report is stored, if this node executes the saga. The report
                becomes part of the saga after that (default: None).

        Returns:
            False if the same was reported before.

        Raises:
            InvalidLease: The lease was not issued for this task to this holder.
            ConflictingReport: Another outcome was reported first, and that one counts.
            LeaseLost: The lease is not the newest, or an operator has to report the task.
            NoSuchTask: No task has this id.
            OwnerUnavailable: The node that executes the saga does not answer.
            NotSerializable: The result is not JSON.
            StoreUnavailable: The database does not answer.
            Closed: The store is closed.
        """
        if unknown is not None:
            outcome = outcomes.unknown(unknown)
            if program_error:
                outcome = outcomes.worker_report(outcomes.program_error(unknown))
        else:
            outcome = reported_outcome(result, error, final)
        external = self._access.coordinator.external
        return await external.report(attempt_id, lease, holder, outcome, stored)

    async def queues(self) -> builtins.list[Queue]:
        """Return the tasks that wait for workers at any node, by step.

        Raises:
            StoreUnavailable: The database does not answer.
            Closed: The store is closed.
        """
        return await self._access.coordinator.external.queues()

    async def _has_shard(self, name: str) -> bool:
        """Return whether the database has a shard with this name."""
        return bool(await self._access.coordinator.store.read(HAS_SHARD, name))

    @property
    def takeovers(self) -> int:
        """How many tasks another worker claimed because their leases ended."""
        return self._access.coordinator.external.takeovers

    def observe_claims(self, observer: Callable[[str, float], object]) -> None:
        """Have a function called at each claim of a task, except after an expired lease.

        Args:
            observer: Called with the name of the saga, and the seconds for which the task was
                offered.
        """
        self._access.coordinator.external.on_claim = observer

    def peers(self) -> Peers | None:
        """Return the connection to other nodes; None over a file."""
        return self._access.coordinator.store.peers()


class Deliveries:
    """Hand out deliveries for webhooks. Made by `Store.deliveries`.

    A delivery is stored in the commit of its event. Make all calls in the event loop in which the
    store was opened. Each call can raise `StoreUnavailable` and `Closed`.
    """

    def __init__(self, access: StoreAccess, registry: DefinitionRegistry) -> None:
        self._access, self._registry = access, registry

    @property
    def _table(self) -> webhook_deliveries.Deliveries:
        return self._access.coordinator.store.external.deliveries

    def announce(self, hooks: Callable[[str], Hooks]) -> None:
        """Have deliveries stored. Without this call, none are stored.

        Args:
            hooks: Returns the webhooks for a saga's name, by type.
        """
        self._registry.announce(hooks)

    async def claim(self, webhook: str, limit: int, lease: float) -> builtins.list[Claimed]:
        """Claim deliveries that are due, the longest due first.

        Args:
            webhook: The name of the webhook.
            limit: Maximum number of deliveries.
            lease: Seconds for which no other process claims them.
        """
        parameters = {"webhook": webhook, "most": limit, "lease": lease}
        rows = await self._table.change(webhook_deliveries.CLAIM, **parameters)
        claimed = [Claimed(*row) for row in rows]
        if record := self._access.coordinator.store.record:
            for delivery in claimed:
                if delivery.type in ENDS:
                    record.seen(delivery.saga, "webhook")
        return claimed

    async def settle(self, id: str, attempts: int, posted: Posted) -> bool:
        """Store the outcome of a post.

        Args:
            id: The delivery.
            attempts: The number of attempts of the claim.
            posted: The outcome.

        Returns:
            False if the delivery was claimed again in the meantime, and nothing was stored.
        """
        parameters = posted._asdict() | {"id": id, "attempts": attempts}
        return bool(await self._table.change(webhook_deliveries.SETTLE, **parameters))

    async def due(self, webhook: str) -> float | None:
        """Return the seconds until the next delivery is due; None if none is pending."""
        rows = await self._table.ask(webhook_deliveries.NEXT, webhook=webhook)
        return None if rows[0][0] is None else float(rows[0][0])

    async def redeliver(self, id: str) -> bool:
        """Post a delivery again, with all its attempts. Return False if it does not exist."""
        return bool(await self._table.change(webhook_deliveries.REDELIVER, id=id))

    async def forget(self, delivered: float, failed: float) -> int:
        """Delete old deliveries, by the seconds since their events. Return how many."""
        parameters = {"delivered": delivered, "failed": failed}
        return len(await self._table.change(webhook_deliveries.FORGET, **parameters))
