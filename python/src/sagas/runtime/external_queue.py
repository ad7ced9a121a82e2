"""Attempts for external workers: offers, claims, leases and reports.

Everything is stored in the table `external_attempts` (storage/external.py). Any node of the
database claims a task, with a signed lease that cannot be guessed (lease_signature.py).

*Done* counts under any lease of the attempt, because it is the same effect. *Failed* and *unknown*
count only under the newest lease. A report is stored in the table. Then the node that owns the
shard reports it there, and settles the row in the same commit.

The row of an attempt is open from the commit that offers it until the attempt is reported. If it is
not, after a failure or a manual change of the table, no worker would ever get the attempt. So
attempts are compared with their rows from time to time, and are offered again.
"""

from __future__ import annotations

import asyncio
import contextlib
import secrets
from collections.abc import Callable, Iterable, Iterator, Sequence
from typing import TYPE_CHECKING

from sagas.base.errors import (
    CannotDecode,
    ConflictingReport,
    LeaseLost,
    NoSuchTask,
    OwnerUnavailable,
    SagasError,
    StoreUnavailable,
)
from sagas.base.logger import logger
from sagas.core import outcomes
from sagas.core.states import OutcomeKind, RETRYABLE, Suspension, UNCERTAIN
from sagas.core.attempt.external_work import Signer, offered_task_name, task_name
from sagas.core.attempt.model import Attempt, FINISHED, Lease, SUSPENDED
from sagas.core.outcomes import FAILED, HAS_TEXT, PERMANENT, SUCCEEDED, UNKNOWN, Outcome
from sagas.core.shard.driver import ShardDriver
from sagas.definition import (
    definition_text,
    tokens,
    undo_sagas,
)
from sagas.definition.parts import patterns
from sagas.definition.payloads import BlobUnavailable
from sagas.definition.capacity import SHARD_CAPACITY
from sagas.definition.task_data import Progress
from sagas.definition.call_options import Manner
from sagas.runtime import leased_tasks, remote_steps
from sagas.runtime.leased_tasks import Heartbeat, LeasedTask, Queue, Word
from sagas.runtime.stored_values import until_answered
from sagas.runtime.task_waits import TaskWaits
from sagas.storage import queries
from sagas.storage.external import Claim, Report, Row

if TYPE_CHECKING:
    from sagas.runtime.coordinator import Coordinator

BUDGET = 16 << 20
"""Maximum characters of the values of a claim, unless its first task alone has more."""
RETRY_DELAY = 2.0
"""Seconds after which a failed read of the store is repeated."""
LOOK = 0.5
"""Seconds between checks for tasks and reports: a notification of another program may be lost."""
LOOK_AT_FILE = 0.02
"""Seconds between checks of a file: a commit of a queue's worker sends no notification."""
GOOD = ("commit", "undone")
KNOWN = (SUCCEEDED, FAILED, PERMANENT)
"""The outcomes of a report that says what the attempt did."""
OF_TOKEN = f"""
SELECT l.shard, s.id, s.phase, text FROM shards l
JOIN sagas s ON s.id = l.shard * {SHARD_CAPACITY} + ? {queries.OF_SHARD}
JOIN definitions USING (definition) WHERE l.name = ?
"""
EVENT = "SELECT event, value FROM attempts WHERE id = ? AND step = ? AND action = ? AND number = ?"
CHECK_INTERVAL = 30.0
"""Seconds between two checks."""
OFFERED_AGAIN = "step_offered_again"
REASONS = {
    None: "its row was missing",
    "withdrawn": "its row was withdrawn",
    "suspended": "its row was closed as if its outcome was unknown",
    "person": "its row was closed as if an operator had to decide",
}
"""Why no worker could get an attempt, by the outcome of its row; None without a row."""


def awaits_worker(attempt: Attempt) -> bool:
    """Return whether an attempt waits for a worker, or for the one that has it."""
    return attempt.state is SUSPENDED and attempt.reason is Suspension.EXTERNAL


def may_end(attempt: Attempt) -> bool:
    """Return whether the report of a worker ends an attempt.

    A worker of a queue may have a paused attempt, because an earlier program sent its message.
    """
    is_paused = attempt.state is SUSPENDED and attempt.reason is Suspension.PAUSED
    return awaits_worker(attempt) or (is_paused and attempt.is_remote)


class ExternalQueue:
    """Offers attempts to workers, hands them out under leases, and accepts their reports.

    Reports are also read that other nodes wrote into the table.

    Attributes:
        leased: Whether this program serves workers. If not, other nodes serve its tasks, or
            `Store.complete` and `Store.fail` report them.
        takeovers: How many tasks were claimed after a lease had expired.
        has_any: Whether a definition of this program has a step for workers or queues.
        on_claim: Called at each claim of a task, except after an expired lease, with the name of
            the saga and the seconds for which the task was offered.
    """

    def __init__(self, coordinator: Coordinator) -> None:
        self.coordinator = coordinator
        self._table = coordinator.store.external
        self._signer = Signer(secrets.token_bytes(32))
        self.has_any: bool = False
        self._is_looking = False
        self._unread: set[int] = set()  # shards whose reports are to be read
        self._reports: dict[str, asyncio.Future[Outcome]] = {}
        self.leased = False
        self.takeovers = 0
        self.on_claim: Callable[[str, float], object] = lambda saga, seconds: None
        self._limited: set[str] = set()
        self.waits: TaskWaits = TaskWaits(coordinator.loop)
        self._offering: set[Attempt] = set()
        self._withdrawing: set[Attempt] = set()
        self._check = OfferCheck(self.coordinator, self._is_moving, self._offer)
        self._dispatched: dict[Attempt, asyncio.Future[None]] = {}
        self._timer: asyncio.TimerHandle | None = None
        self._pause, self._next_wake = LOOK, 0.0

    async def open(self) -> None:
        """Read the secret that signs leases. Raises `StoreUnavailable`."""
        for saga in self.coordinator.registry.sagas.values():
            for pattern in patterns(saga):
                step = pattern.step
                if step.concurrency is not None:
                    self._limited.add(task_name(saga.name, pattern.path, "run"))
                for manner in (step.run, step.undo):
                    self.has_any |= manner.external or manner.queue is not None
                    if manner.queue is not None and not self.coordinator.store.supports_nodes:
                        self._pause = LOOK_AT_FILE
        self._table.begin(
            self.coordinator.commits.kept, self.coordinator.clock, self._give_back_all
        )
        if self.leased:
            self._signer = Signer(await self.coordinator.store.secret())
        self._look_later()

    def close(self) -> None:
        """Wake all waiting claims, so that they end."""
        if self._timer:
            self._timer.cancel()
        self.waits.wake_all()

    def _raise_if_closed(self) -> None:
        if self.coordinator.closed:
            raise self.coordinator.closed

    # -- offers

    def offer(self, attempt: Attempt) -> None:
        """Offer an attempt to workers, or wait for the worker that has it."""
        self._withdrawing.discard(attempt)  # its commit failed, or its outcome is unknown
        if self.coordinator.closed or attempt.pending_row:
            return
        if attempt.offered is not None:
            attempt.rare.offered = None
            self.offered(attempt)
            return
        self._offer(attempt)

    def _store_offer(self, attempt: Attempt) -> None:
        shard = attempt.instance.shard
        if shard and (runner := self.coordinator.shards.runner(shard)):
            runner.keep(shard.offered(attempt, self.coordinator.clock()))

    def offered(self, attempt: Attempt) -> None:
        """Handle that the row of an attempt is stored."""
        self._offering.discard(attempt)
        self._check.offered(attempt)
        if committed := self._dispatched.get(attempt):
            if not committed.done():
                committed.set_result(None)
            return
        if attempt.instance.draining:
            self.coordinator.executor.drain(attempt.instance)
        if not attempt.is_remote:
            task = offered_task_name(attempt)
            self._table.offered(task, attempt.token())
            self.waits.wake(task)

    def withdraw(self, attempt: Attempt) -> None:
        """Withdraw an attempt of a saga that is being undone, unless a worker has it.

        That is a commit of its shard after the offer, so that no offer of another node is
        withdrawn.
        """
        if self._is_moving(attempt):
            return  # the saga is drained again when the offer is stored
        shard = attempt.instance.shard
        if shard and (runner := self.coordinator.shards.runner(shard)):
            self._withdrawing.add(attempt)
            runner.keep(shard.withdrawn(attempt, self.coordinator.clock()))

    def withdrawn(self, attempt: Attempt, is_done: bool) -> None:
        """Handle the reply of the store to a withdrawal."""
        self._withdrawing.discard(attempt)
        if is_done:
            self.coordinator.executor.withdrawn(attempt)

    def gone(self, attempt: Attempt) -> None:
        """Forget an attempt that is finished, or that another program has."""
        self._offering.discard(attempt)
        self._withdrawing.discard(attempt)
        self._check.gone(attempt)
        if not attempt.is_remote and attempt.instance.shard is not None:
            self._table.gone(offered_task_name(attempt), attempt.token())

    def _is_moving(self, attempt: Attempt) -> bool:
        """Return whether an offer or a withdrawal of the attempt is being stored."""
        return attempt in self._offering or attempt in self._withdrawing

    def _offer(self, attempt: Attempt) -> None:
        self._offering.add(attempt)
        self._store_offer(attempt)

    async def call(self, manner: Manner, attempt: Attempt) -> Outcome | None:
        """Send an attempt to a worker of a queue, and wait for its report.

        Returns:
            The outcome. None if the call was cancelled here, and the outcome is unknown.
        """
        remote_queue = manner.queue
        assert remote_queue
        timeout = manner.timeout if manner.timeout is not None else remote_queue.timeout
        try:
            with self.reports(attempt) as report:
                async with asyncio.timeout(timeout):
                    lease = await self.dispatch(attempt)
                    if not report.done():
                        await remote_steps.send(remote_queue, remote_steps.order_of(attempt, lease))
                    return await report
        except asyncio.CancelledError:
            return None
        except TimeoutError:
            return outcomes.unknown(f"no report within {timeout:g} s from {remote_queue!r}")

    async def dispatch(self, attempt: Attempt) -> int:
        """Store the row of an attempt; return the lease for its message.

        If the attempt has been reported already, the report is delivered.
        """
        number, attempt.rare.offered = attempt.offered, None
        while attempt.pending_row:  # a commit writes its row once
            await self.coordinator.executor.changes.wait(attempt)
        committed = self._dispatched[attempt] = self.coordinator.loop.create_future()
        try:
            while number is None:
                self._store_offer(attempt)
                await asyncio.wait([committed], timeout=RETRY_DELAY)
                number = await self._dispatched_under(attempt, committed.done())
        finally:
            del self._dispatched[attempt]
        return number

    async def _dispatched_under(self, attempt: Attempt, is_committed: bool) -> int | None:
        """Return the lease of a stored row; None if the row may not be stored."""
        with contextlib.suppress(StoreUnavailable):
            row = await self._table.find(attempt.token())
            if row is not None and row.outcome is not None:
                self.look()
                return row.lease or 0
            if row is not None and is_committed:
                return row.lease
        return None

    # -- claims

    def offered_elsewhere(self) -> None:
        """Wake waiting claims, because another node has offered a task."""
        self.waits.wake_each()

    async def claim(
        self,
        steps: Sequence[Word],
        limit: int,
        wait: float,
        seconds: float,
        worker: str,
        holder: str,
    ) -> list[LeasedTask]:
        """Claim tasks. See `Workers.claim`."""
        deadline, tasks = self.coordinator.loop.time() + wait, [
            *dict.fromkeys((task_name(*step) for step in steps))
        ]
        while True:
            self._raise_if_closed()
            claims = await self._claimed(tasks, limit, seconds, worker)
            for task in tasks if claims else ():  # there may be more than were taken
                self.waits.wake(task)
            leased = await self._all_leased(claims, worker, holder)
            left = deadline - self.coordinator.loop.time()
            if leased or left <= 0:
                return leased
            if claims:  # no claimed task could be leased
                await asyncio.sleep(min(left, 1.0))
            else:
                self._table.follow()
                await self.waits.wait(tasks, left)

    async def _claimed(
        self, tasks: Sequence[str], limit: int, seconds: float, worker: str
    ) -> list[Claim]:
        tasks = self.coordinator.pauses.unpaused(tasks)
        if not tasks:
            return []
        limited = [task for task in tasks if task in self._limited]
        claims = await self._table.claim(tasks, limited, limit, seconds, worker)
        self.takeovers += sum(claim.is_takeover for claim in claims)
        return claims

    async def _all_leased(
        self, claims: Sequence[Claim], worker: str, holder: str
    ) -> list[LeasedTask]:
        """Return tasks with their leases, within `BUDGET`, and release the other claims.

        If the store does not answer, all claims are released. A claim with undecodable values is
        set aside, so that it does not block others.
        """
        leased: list[LeasedTask | None] = []
        size = largest = 0
        for number, claim in enumerate(claims):
            if size + largest > BUDGET:
                self._give_back_all(claims[number:])
                break
            try:
                leased.append(task := await self._leased(claim, worker, holder))
                if task and not claim.is_takeover:
                    self.on_claim(task.task.saga, claim.waited)
                largest = max(largest, task.size if task else 0)
                size += task.size if task else 0
            except (CannotDecode, BlobUnavailable) as error:
                await self.park(claim.attempt, claim.lease, error)
            except BaseException as error:
                is_passing = isinstance(error, (StoreUnavailable, asyncio.CancelledError))
                self._give_back_all([other for other in claims if is_passing or other is not claim])
                raise
        return [claim for claim in leased if claim]

    def _give_back_all(self, claims: Sequence[Claim]) -> None:
        """Release claims in the background."""
        if not self.coordinator.closed:
            for claim in claims:
                self.coordinator.spawn(self._give_back(claim.attempt, claim.lease))

    async def give_back(self, tasks: Iterable[LeasedTask], holder: str) -> None:
        """Release claimed tasks. See `Workers.give_back`."""
        self._raise_if_closed()
        numbers = {
            task.attempt_id: self._signer.number(task.attempt_id, task.lease, holder)
            for task in tasks
        }
        await asyncio.gather(*(self._give_back(*task) for task in numbers.items()))

    async def set_aside(self, task: LeasedTask, holder: str, why: str) -> None:
        """Set a task aside. See `Workers.set_aside`."""
        self._raise_if_closed()
        number = self._signer.number(task.attempt_id, task.lease, holder)
        await self.park(task.attempt_id, number, CannotDecode(why))

    async def _give_back(self, attempt: str, lease: int) -> None:
        with contextlib.suppress(StoreUnavailable):  # then the lease expires
            await self._table.heartbeat(attempt, lease, 0.0)
            self.offered_elsewhere()

    async def _leased(self, claim: Claim, worker: str, holder: str) -> LeasedTask | None:
        """Return the task of a claim; None if its values cannot be computed here."""
        now, attempt = self.coordinator.clock(), self.find(claim.attempt)
        if attempt is None:
            store, registry = self.coordinator.store, self.coordinator.registry
            kind, task = await leased_tasks.stored_task(store, registry, claim)
        else:
            kind = attempt.instance.kind
            attempt.rare.lease = Lease(claim.lease, worker, now, now + claim.seconds)
            attempt.is_uncalled = False
            await self.coordinator.executor.values.fill(attempt)
            task = attempt.task()
            attempt.instance.release()
        if claim.cancelled is not None:
            task.cancelled.set(claim.cancelled)
        self.coordinator.teller.emit(
            "step_started",
            key=task.key,
            saga=task.saga,
            step=task.declared_step,
            index=task.index if task.has_item else None,
            undo=task.is_compensation,
            attempt=task.attempt,
        )
        if kind.saga is not None and kind.saga.undoes_step is not None:
            task = undo_sagas.report_task(task, kind.saga)
        elif kind.undoes is not None:
            sees = definition_text.sees_of(kind.text).get(task.step, ())
            task = undo_sagas.compensation_task(task, kind.undoes, sees)
        lease = self._signer.issue(claim.attempt, claim.lease, holder)
        try:
            given_text = leased_tasks.given_text(task)
        except leased_tasks.DeclarationMissing as error:
            logger.warning("%s: %s", claim.attempt, error)
            await self._give_back(claim.attempt, claim.lease)
            return None
        except Exception as error:  # raised by the user's function
            with contextlib.suppress(SagasError):  # the lease expires, and the task is free again
                await self.report(claim.attempt, lease, holder, leased_tasks.given_failure(error))
            return None
        return LeasedTask(claim.attempt, lease, now + claim.seconds, task, given_text)

    async def heartbeat(
        self, token: str, lease: str, holder: str, seconds: float, progress: Progress | None
    ) -> Heartbeat:
        """Extend the lease of a worker, and store its progress."""
        number = self._signer.number(token, lease, holder)
        self._raise_if_closed()
        extension = await self._table.heartbeat(token, number, seconds)
        if extension is None:
            if await self._table.find(token) is None:
                await self.outcome_of(token)
            raise LeaseLost(
                f"lease {number} of {token} is not the newest, or has ended. Stop the task, "
                "because another worker may perform it"
            )
        until = self.coordinator.clock() + extension.seconds
        if progress is not None:
            await self._table.advance(token, *progress, self.coordinator.clock())
        attempt = self.find(token)
        if attempt is not None and attempt.lease and attempt.lease.number == number:
            attempt.lease.until = until
        return Heartbeat(until, extension.cancelled)

    async def queues(self) -> list[Queue]:
        """Return how many tasks wait or are leased at any node, by step."""
        counts = []
        for task, ready, oldest, claimed in await self._table.waiting():
            saga, _, named = task.partition("/")
            step, _, action = named.rpartition("/")
            counts.append(Queue(saga, step, action == "undo", ready, oldest, claimed))
        return counts

    async def queues_here(self) -> list[Queue]:
        """Return the same, or nothing if no step of this program has a worker."""
        return await self.queues() if self.has_any else []

    # -- reports

    @contextlib.contextmanager
    def reports(self, attempt: Attempt) -> Iterator[asyncio.Future[Outcome]]:
        """Provide the future of the report of an attempt whose message is sent."""
        token = attempt.token()
        future = self._reports[token] = self.coordinator.loop.create_future()
        try:
            yield future
        finally:
            if self._reports.get(token) is future:
                del self._reports[token]

    def find(self, token: str) -> Attempt | None:
        """Return the attempt with this id, if it is in progress here."""
        parts = tokens.parse(token)
        if not parts:
            raise NoSuchTask(
                f"{token!r} is not the attempt id of a task. Pass the attempt_id of a claimed task"
            )
        name, number, step, kind, count = parts
        shard = self.coordinator.shards.named(name)
        saga = shard.sagas.get(number) if shard else None
        if shard is None or saga is None or step not in saga.kind.names:
            return None
        action_key = (saga.kind.names.index(step), kind)
        busy = saga.busy.get(action_key)
        if busy is not None and busy.attempt == count:
            return busy
        for candidate in shard.unstored_reports():  # finished
            if (
                candidate.instance is saga
                and candidate.action_key == action_key
                and candidate.attempt == count
            ):
                return candidate
        return None

    async def report(
        self,
        token: str,
        lease: str,
        holder: str,
        outcome: Outcome,
        stored: Callable[[], object] | None = None,
    ) -> bool:
        """Report a task. See `Workers.report`.

        The lease is verified first, so that a caller without one learns nothing about the task.
        """
        number = self._signer.number(token, lease, holder)
        self._raise_if_closed()
        value = self._encoded(outcome)
        shard = await self._table.report(token, number, str(outcome.kind), value)
        if shard is None:
            return await self._repeated(token, number, outcome)
        if shard in self.coordinator.shards.runners:
            if stored is not None:
                stored()
            await self._apply(Report(token, str(outcome.kind), value))
        else:
            self._table.notify_owner(shard)
        return True

    def _encoded(self, outcome: Outcome) -> str:
        """Return the value of an outcome as the table stores it: a result is encoded."""
        payloads = self.coordinator.registry.payloads
        is_result = payloads.codec is not None and outcome.kind is SUCCEEDED
        return outcomes.encode_result(payloads, outcome.value) if is_result else outcome.value

    def _delivered(self, outcome: OutcomeKind, value: str) -> Outcome:
        """Return the outcome of a stored report."""
        reported = outcomes.read_report(outcome, value)
        return reported._replace(encoded=self.coordinator.registry.payloads.is_encoded(value))

    async def park(self, token: str, number: int, why: CannotDecode | BlobUnavailable) -> None:
        """Set a claimed task aside whose values cannot be read.

        It waits for a program that can read them, for an operator, or for the blob store.
        """
        logger.warning("task %s cannot be given to a worker: %s", token, why)
        outcome = outcomes.unreadable(str(why), passes=isinstance(why, BlobUnavailable))
        with contextlib.suppress(StoreUnavailable):  # the lease expires, and is claimed again
            shard = await self._table.report(token, number, str(outcome.kind), outcome.value)
            if shard in self.coordinator.shards.runners:
                await self._apply(Report(token, str(outcome.kind), outcome.value))
            elif shard is not None:
                self._table.notify_owner(shard)

    async def _apply(self, report: Report) -> None:
        """Report an outcome into its shard if possible now, and wait until it is stored."""
        attempt = self.find(report.attempt)
        if attempt is None or not self._deliver(report, attempt):
            return
        if attempt.state is FINISHED:
            with contextlib.suppress(SagasError):  # it is stored, and is checked again
                await self.coordinator.executor.kept.wait(attempt)

    def _deliver(self, report: Report, attempt: Attempt) -> bool:
        """Deliver a report to an attempt in progress here; return whether that worked."""
        outcome = self._delivered(OutcomeKind(report.outcome), report.value)
        if attempt.pending_row or attempt.missing_function is not None:
            return False
        if (waiting := self._reports.get(report.attempt)) is not None:
            if not waiting.done():
                waiting.set_result(outcome)
            return True
        is_known = attempt.reason in RETRYABLE
        if attempt.state is not SUSPENDED or not (is_known or may_end(attempt)):
            return False
        if outcome.kind in HAS_TEXT and attempt.lease:
            attempt.rare.lease = None  # the lease has ended: the next claim gets another
        if outcome.kind is SUCCEEDED or not is_known:
            self.coordinator.executor.ended(attempt, outcome)
        elif outcome.kind is not UNKNOWN and attempt.reason in UNCERTAIN:
            self.coordinator.executor.ended(attempt, outcome)
        return True

    def look(self) -> None:
        """Read the reports on all attempts of this program, because there may be some."""
        self.look_in([*self.coordinator.shards.runners])

    def look_in(self, shards: Iterable[int]) -> None:
        """Read the reports on attempts of those shards that this program has."""
        if self.coordinator.closed or not self.has_any:
            return
        self._unread.update(self.coordinator.shards.runners.keys() & shards)
        if not self._is_looking and self._unread:
            self._is_looking = True
            self.coordinator.spawn(self._look())

    async def _look(self) -> None:
        try:
            while self._unread and not self.coordinator.closed:
                shards, self._unread = self._unread, set()
                for report in await self._table.reported([*shards]):
                    if attempt := self.find(report.attempt):
                        self._deliver(report, attempt)
        except StoreUnavailable:
            pass  # the next check finds it
        finally:
            self._is_looking = False

    async def find_done(self, token: str) -> Outcome | None:
        """Return a worker's success of an attempt, or None; retry until the store answers."""
        row = await until_answered(lambda: self._table.find(token))
        is_done = row is not None and row.outcome == SUCCEEDED
        return self._delivered(SUCCEEDED, row.value or "null") if row and is_done else None

    async def _repeated(self, token: str, number: int, outcome: Outcome) -> bool:
        """Return False if the same outcome was reported before; otherwise raise an error."""
        row = await self._table.find(token)
        if row is None or row.outcome == "settled":
            return await self._settled(token, outcome)
        subject = f"lease {number} of {token}"
        if row.reported == number and row.value == outcome.value and row.outcome not in KNOWN:
            return False
        if row.outcome in KNOWN:
            stored_value = row.value or "null"
            is_same = stored_value == outcome.value or (
                outcome.kind is SUCCEEDED
                and self.coordinator.registry.payloads.is_same(self._encoded(outcome), stored_value)
            )
            if row.outcome != outcome.kind or not is_same:
                raise ConflictingReport(f"{token} was reported before, with another outcome")
            await self._apply(Report(token, str(outcome.kind), stored_value))
            return False
        _raise_lost(row, token, number, subject, outcome)
        return False

    async def _settled(self, token: str, outcome: Outcome) -> bool:
        event, value = await self.outcome_of(token)
        is_same = (event in GOOD) == (outcome.kind is SUCCEEDED) and value == outcome.value
        if is_same and outcome.kind is not UNKNOWN:
            return False
        raise ConflictingReport(f"{token} was reported before, with another outcome ({event})")

    async def outcome_of(self, token: str) -> tuple[str, str | None]:
        """Return the event of a reported task, and its value.

        Raises `NoSuchTask` and `OwnerUnavailable`.
        """
        parts, read = tokens.parse(token), self.coordinator.store.read
        rows = await read(OF_TOKEN, parts.number, parts.shard) if parts else []
        for _, id, phase, text in rows:
            assert parts
            names = self.coordinator.registry.kind(text).names
            step = names.index(parts.step) if parts.step in names else -1
            for event, value in await read(EVENT, id, step, parts.kind, parts.attempt):
                return event, value and self.coordinator.registry.payloads.decode(value)
            if phase is None and await self._table.find(token):
                raise OwnerUnavailable(f"{token!r}: its outcome is being stored. Report it again")
        raise NoSuchTask(f"no task that has started has the attempt id {token!r}")

    # -- periodic checks

    def _look_later(self) -> None:
        loop = self.coordinator.loop
        self._timer = loop.call_later(min(LOOK, self._pause), self._look_later)
        self.look()
        if self.has_any:
            self._check.look()
        if self.waits:
            self._table.follow()
        if self.waits and not self.coordinator.closed and loop.time() >= self._next_wake:
            self._next_wake = loop.time() + LOOK
            self.coordinator.spawn(self._wake_all())

    async def _wake_all(self) -> None:
        """Wake claims for tasks whose leases expired, or whose notification was lost."""
        with contextlib.suppress(StoreUnavailable):
            for task, ready, _, _ in await self._table.waiting():
                self.waits.wake(task, ready)


def _raise_lost(row: Row, token: str, number: int, subject: str, outcome: Outcome) -> None:
    """Raise why a report of an unfinished attempt does not count."""
    if row.outcome == "person" and outcome.kind is SUCCEEDED:
        raise LeaseLost(
            f"{token}: its outcome is unknown, and an operator must report it. Ask an operator to "
            "complete the step"
        )
    if row.reported == row.lease == number:
        raise ConflictingReport(f"{subject} was reported as unknown before")
    raise LeaseLost(f"{subject} is not the newest, so its report {outcome.kind} is rejected")


class OfferCheck:
    """Checks the attempts of this program's shards from time to time.

    Args:
        coordinator: The coordinator.
        is_moving: Returns whether a row of an attempt is being stored.
        offer: Offers an attempt again.
    """

    def __init__(
        self,
        coordinator: Coordinator,
        is_moving: Callable[[Attempt], bool],
        offer: Callable[[Attempt], None],
    ) -> None:
        self._coordinator, self._is_moving, self._offer = coordinator, is_moving, offer
        self._due = coordinator.loop.time() + CHECK_INTERVAL
        self._reasons: dict[Attempt, str] = {}

    def look(self) -> None:
        """Start a check if it is due."""
        now = self._coordinator.loop.time()
        if now >= self._due and not self._coordinator.closed:
            self._due = now + CHECK_INTERVAL
            self._coordinator.spawn(self.check())

    async def check(self) -> None:
        """Offer attempts again that wait for a worker and have no open row."""
        for runner in list(self._coordinator.shards.runners.values()):
            with contextlib.suppress(StoreUnavailable):  # the next check repeats it
                await self._check(runner.driver)
            await asyncio.sleep(0)

    async def _check(self, shard: ShardDriver) -> None:
        epoch = shard.epoch
        attempts = {attempt.token(): attempt for attempt in self._waiting(shard)}
        if not attempts:
            return
        outcomes = await self._coordinator.store.external.outcomes([*attempts])
        if shard.epoch != epoch:
            return  # its attempts were offered again, and may be claimed
        waiting = set(self._waiting(shard))
        for token, attempt in attempts.items():
            outcome = outcomes.get(token)
            is_closed = token not in outcomes or (outcome is not None and outcome in REASONS)
            if is_closed and attempt in waiting:
                self._reasons[attempt] = REASONS[outcome]
                self._offer(attempt)

    def _waiting(self, shard: ShardDriver) -> Iterator[Attempt]:
        """Yield the attempts of a shard whose rows are open, as far as this program knows."""
        if not shard.is_current:
            return
        for saga in shard.sagas.values():
            if saga.kind.has_external:
                for attempt in saga.busy.values():
                    if (
                        awaits_worker(attempt)
                        and not attempt.pending_row
                        and not self._is_moving(attempt)
                    ):
                        yield attempt

    def offered(self, attempt: Attempt) -> None:
        """Emit an event if the row of an attempt was missing, and is stored now."""
        if reason := self._reasons.pop(attempt, None):
            self._coordinator.executor.emit(
                attempt, OFFERED_AGAIN, f"no worker could get it: {reason}"
            )

    def gone(self, attempt: Attempt) -> None:
        """Forget an attempt that is over, or that another program has."""
        self._reasons.pop(attempt, None)
