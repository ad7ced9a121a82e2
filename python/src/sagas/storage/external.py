"""The table `external_attempts`: attempts that external workers execute.

The module has the interface of the table, and what both databases share: the statements, and the
batches of requests.

The row of an attempt is written in the commit that offers it. Any node claims it, with a lease that
ends by the database's clock, and accepts its report. The node that drives the shard of the attempt
writes the report into the shard, and closes the row in the same commit, under the shard's epoch.
"""

from __future__ import annotations

import asyncio
import json
from collections import deque
from collections.abc import Awaitable, Callable, Hashable, Sequence
from typing import Generic, NamedTuple, Protocol, TypeVar, Union

from sagas.base.errors import SagasError, StoreUnavailable
from sagas.core.shard.batch import Batch
from sagas.core.spans import LEASED_WORD
from sagas.storage import queries
from sagas.storage.webhook_deliveries import Deliveries

OFFER = "attempt, shard, id, step, action, number, task, concurrency, lease, offered_at, cancelled"
OPEN = "outcome IS NULL"
REPORTED = "outcome IN ('succeeded', 'failed', 'failed_permanently', 'unknown')"
REPORTED_IN_PAIRS = (
    "(outcome IN ('succeeded', 'failed') OR outcome IN ('failed_permanently', 'unknown'))"
)
"""The same condition, for SQLite.

SQLite makes a temporary table whenever it evaluates a list of more than two values. Measured on
2026-11-28: an update of an outcome takes 50,000 instructions instead of 112,000 with the condition
of the index.
"""
OFFERED_AGAIN = """
task = excluded.task, lease = CASE WHEN excluded.lease IS NULL THEN e.lease
  ELSE greatest(excluded.lease, coalesce(e.lease, 0) + 1) END,
offered_at = CASE WHEN e.outcome IS NULL THEN e.offered_at ELSE excluded.offered_at END,
until = CASE WHEN e.outcome IS NULL THEN e.until END, outcome = NULL,
cancelled = coalesce(excluded.cancelled, e.cancelled)
WHERE e.outcome IS NULL OR e.outcome IN ('suspended', 'withdrawn') OR e.outcome = 'person'
"""
"""What changes if an attempt is offered again.

Its position in the queue and its lease stay, and so does a worker's report. The task may have a
name that an older release gave it.
"""
REPORT_COUNTS = """(
  {outcome} = 'succeeded' AND lease >= {lease}
    AND (outcome IS NULL OR outcome IN ('unknown', 'suspended')
      OR outcome IN ('failed', 'failed_permanently'))
  OR lease = {lease} AND (reported IS NULL OR reported <> {lease})
    AND (outcome IS NULL OR outcome = 'suspended' AND {outcome} <> 'unknown'))"""
"""Whether a report counts: a success under any lease, the other outcomes under the newest lease.

A success replaces a failure that no commit has handled yet, and also `unknown`.
"""


TEXTS = (
    "SELECT s.id, s.key, s.input, s.deadline, s.traceparent, text, "
    "(SELECT p.shape FROM shapes p WHERE p.id = s.id) "
    f"FROM {queries.DEFINED} WHERE s.id = ?"
)
RESULTS = "SELECT step, value FROM attempts WHERE id = ? AND action = 'run' AND event = 'commit'"
UNCLAIMED = f"lease IS NULL AND ({OPEN} OR outcome = 'withdrawn')"
"""Whether an attempt may be withdrawn.

An attempt that is already withdrawn counts too, because the first answer may have been lost.
"""


def earlier(since: float, worker: str, lease: int, until: float | None) -> str:
    """Return the spans of a lease that ended without a report, as JSON.

    They include the wait for the next worker, if the lease has expired.
    """
    ended = [] if until is None else [["external", until, None]]
    return json.dumps([[LEASED_WORD, since, None, worker, lease], *ended])


class Claim(NamedTuple):
    """A claimed attempt.

    It has the seconds of its lease, why its saga is being undone, if it is, whether an earlier
    lease of it had expired, and for how many seconds it was offered.
    """

    attempt: str
    lease: int
    seconds: float
    id: int
    step: int
    action: str
    cancelled: str | None
    is_takeover: bool
    waited: float


class ClaimRequest(NamedTuple):
    """A claim of attempts of these tasks.

    It has the maximum number of attempts, and the seconds of a lease.
    """

    tasks: tuple[str, ...]
    limit: int
    seconds: float
    worker: str


class ReportRequest(NamedTuple):
    """The outcome of an attempt, as a worker reports it under a lease."""

    attempt: str
    lease: int
    outcome: str
    value: str


ExternalRequest = Union[ClaimRequest, ReportRequest]


class Heartbeat(NamedTuple):
    """For how many seconds a lease holds, and why the task is to be undone, if it is."""

    seconds: float
    cancelled: str | None


class Row(NamedTuple):
    """What is stored of an attempt.

    It has the newest lease, the outcome, and the lease under which that outcome was reported.
    """

    lease: int | None
    outcome: str | None
    value: str | None
    reported: int | None


class Report(NamedTuple):
    """The reported outcome of an attempt."""

    attempt: str
    outcome: str
    value: str


class SagaTexts(NamedTuple):
    """What the task of an attempt is made of: the texts of its saga, as they are stored.

    `results` has the index of each step that has one, and its result.
    """

    id: int
    key: str
    input: str
    deadline: float | None
    traceparent: str | None
    definition: str
    shape: str | None
    results: list[tuple[int, str | None]]


class QueueState(NamedTuple):
    """The queue of one task.

    It has the number of attempts that wait for a worker, the time of the oldest one, and the number
    of leases.
    """

    task: str
    ready: int
    oldest: float | None
    claimed: int


class ExternalAttempts(Protocol):
    """The table, for a program that has the store open.

    All methods raise `StoreUnavailable`.
    """

    deliveries: Deliveries
    """The deliveries to webhooks."""

    def begin(
        self,
        write: Callable[[Batch], Awaitable[None]],
        clock: Callable[[], float],
        unwanted: Callable[[Sequence[Claim]], object],
    ) -> None:
        """Start the use of the table.

        Args:
            write: Adds a batch to the next transaction.
            clock: Returns the time of attempts and leases.
            unwanted: Called with claims whose caller was cancelled before it received them.
        """

    async def claim(
        self, tasks: Sequence[str], limited: Sequence[str], limit: int, seconds: float, worker: str
    ) -> list[Claim]:
        """Lease attempts that wait, the oldest first.

        `limited`: those of the tasks that have a concurrency limit.
        """

    async def heartbeat(self, attempt: str, lease: int, seconds: float) -> Heartbeat | None:
        """Extend a lease. Return None if it is not the newest one, or has ended."""

    async def advance(self, attempt: str, fraction: float, detail: str | None, at: float) -> None:
        """Store the progress of an attempt."""

    async def report(self, attempt: str, lease: int, outcome: str, value: str) -> int | None:
        """Store the outcome of an attempt, and return its shard.

        Return None if the report does not count.
        """

    async def find(self, attempt: str) -> Row | None:
        """Return what is stored of an attempt."""

    async def outcomes(self, attempts: Sequence[str]) -> dict[str, str | None]:
        """Return the outcomes of those attempts that have rows; None for open ones."""

    async def reported(self, shards: Sequence[int]) -> list[Report]:
        """Return the reports on attempts of these shards that no commit has handled."""

    async def waiting(self) -> list[QueueState]:
        """Return what waits for workers, or is leased, by task."""

    async def texts(self, id: int) -> SagaTexts | None:
        """Return the texts of a saga; None if it was deleted."""

    def offered(self, task: str, attempt: str) -> None:
        """Note that this node has offered an attempt. Its claims look for such attempts first."""

    def gone(self, task: str, attempt: str) -> None:
        """Note that an attempt of this node does not wait for a worker."""

    def follow(self) -> None:
        """Have the other nodes report offers without delay, because a claim waits here."""

    def notify_owner(self, shard: int) -> None:
        """Wake the node that drives a shard with a new report."""


# -- one statement for all requests that arrive while the one before is executed

Item = TypeVar("Item")
Answer = TypeVar("Answer")


class Batcher(Generic[Item, Answer]):
    """Sends requests in batches, one batch after the other.

    Concurrent callers share a transaction, as the batches of a commit do. The items of a batch have
    the same group, or no group.
    """

    def __init__(
        self,
        ask: Callable[[Sequence[Item]], Awaitable[Sequence[Answer]]],
        limit: int,
        dropped: Callable[[Item, Answer], object],
        group: Callable[[Item], Hashable] = lambda _: None,
    ) -> None:
        """Create a batcher.

        Args:
            ask: Returns the answers to a batch, in its order.
            limit: Maximum number of items in a batch.
            dropped: Called with an item and its answer if its caller was cancelled before the
                answer.
            group: Returns the group of an item, or None (default: no item has a group).
        """
        self._ask, self._max_batch, self._dropped, self._group = ask, limit, dropped, group
        self._waiting: deque[tuple[Item, asyncio.Future[Answer]]] = deque()
        self._job: asyncio.Task[None] | None = None

    async def ask(self, item: Item) -> Answer:
        """Return the answer to an item. Raises what the statement of its batch raises."""
        loop = asyncio.get_running_loop()
        future: asyncio.Future[Answer] = loop.create_future()
        self._waiting.append((item, future))
        if self._job is None:
            self._job = loop.create_task(self._work())
        try:
            return await future
        except asyncio.CancelledError:
            if future.done() and not future.cancelled() and not future.exception():
                self._dropped(item, future.result())
            raise

    def _next(self) -> list[tuple[Item, asyncio.Future[Answer]]]:
        """Return the next batch: the item that has waited longest, and those that fit its group.

        Cancelled items are left out. If all are cancelled, the batch is empty.
        """
        batch: list[tuple[Item, asyncio.Future[Answer]]] = []
        left: deque[tuple[Item, asyncio.Future[Answer]]] = deque()
        group: Hashable = None
        for entry in self._waiting:
            if entry[1].done():
                continue
            item_group = self._group(entry[0])
            if len(batch) < self._max_batch and (
                item_group is None or group is None or item_group == group
            ):
                group = item_group if group is None else group
                batch.append(entry)
            else:
                left.append(entry)
        self._waiting = left
        return batch

    async def _work(self) -> None:
        batch: list[tuple[Item, asyncio.Future[Answer]]] = []
        try:
            while batch := self._next():
                try:
                    answers = await self._ask([item for item, _ in batch])
                except SagasError as error:
                    _fail(batch, error)
                else:
                    for (item, future), answer in zip(batch, answers, strict=True):
                        if future.done():
                            self._dropped(item, answer)
                        else:
                            future.set_result(answer)
        except BaseException as error:
            _fail([*batch, *self._waiting], StoreUnavailable(f"cannot be asked: {error!r}"))
            self._waiting.clear()
            raise
        finally:
            self._job = None


def _fail(batch: Sequence[tuple[Item, asyncio.Future[Answer]]], error: SagasError) -> None:
    for _, future in batch:
        if not future.done():
            future.set_exception(error)
