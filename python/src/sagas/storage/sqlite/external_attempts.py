"""External attempts in a store's file.

Claims and reports go into the next transaction of the program that has the file open, and so do
the changes of deliveries of webhooks.
"""

from __future__ import annotations

import itertools
import sqlite3
from collections.abc import Awaitable, Callable, Iterable, Iterator, Sequence
from typing import Any

from sagas.core.shard.batch import Batch
from sagas.definition.serialization import clean
from sagas.storage import external
from sagas.storage.webhook_deliveries import Deliveries
from sagas.storage.external import (
    Batcher,
    Claim,
    ClaimRequest,
    ExternalRequest,
    Heartbeat,
    OPEN,
    QueueState,
    REPORTED_IN_PAIRS,
    REPORT_COUNTS,
    Report,
    ReportRequest,
    Row,
    SagaTexts,
    earlier,
)
from sagas.storage.sqlite.writer import SPANS

MAX_BATCH = 200
"""Maximum number of claims and reports in one transaction."""
HELD = f"SELECT count(*) FROM external_attempts WHERE task = ? AND {OPEN} AND until > ?"
BOUND = f"""
SELECT concurrency FROM external_attempts
WHERE task = ? AND {OPEN} AND concurrency IS NOT NULL LIMIT 1
"""
CLAIMABLE = f"""
SELECT offered_at, attempt, lease, given_back, id, step, action, cancelled, number, worker, since,
  until
FROM external_attempts
WHERE task = ? AND {OPEN} AND (until IS NULL OR until <= ?) ORDER BY offered_at LIMIT ?
"""
LEASE = """
UPDATE external_attempts SET worker = ?, since = ?, until = ?, given_back = 0, lease = ?
WHERE attempt = ?
"""
CURRENT_LEASE = f"""
SELECT task, concurrency, until, cancelled FROM external_attempts
WHERE attempt = ? AND lease = ? AND {OPEN} AND until IS NOT NULL
"""
LENGTHEN = "UPDATE external_attempts SET until = ?, given_back = ? WHERE attempt = ?"
REPORT = f"""
UPDATE external_attempts SET outcome = :outcome, value = :value, reported = :lease
WHERE attempt = :attempt AND {REPORT_COUNTS.format(lease=":lease", outcome=":outcome")}
"""
SHARD = "SELECT shard FROM external_attempts WHERE attempt = ?"
FIND = "SELECT lease, outcome, value, reported FROM external_attempts WHERE attempt = ?"
OUTCOME = "SELECT outcome FROM external_attempts WHERE attempt = ?"
ALL_REPORTED = (
    f"SELECT attempt, outcome, value, shard FROM external_attempts WHERE {REPORTED_IN_PAIRS}"
)
WAITING = f"""
SELECT task, count(*) FILTER (WHERE until IS NULL OR until <= ?1),
  min(offered_at) FILTER (WHERE until IS NULL OR until <= ?1), count(*) FILTER (WHERE until > ?1)
FROM external_attempts WHERE {OPEN} AND task > '' GROUP BY task ORDER BY task
"""
ADVANCE = """
INSERT OR REPLACE INTO progress SELECT id, step, action, number, ?, ?, ?
FROM external_attempts WHERE attempt = ?
"""


def _answers(db: sqlite3.Connection, requests: Sequence[ExternalRequest], now: float) -> list[Any]:
    """Store reports, and then claim attempts.

    By then a reported attempt does not count as leased.
    """
    claims: dict[tuple[str, ...], list[ClaimRequest]] = {}
    shards_of_reports: list[int | None] = []
    for request in requests:
        if isinstance(request, ClaimRequest):
            claims.setdefault(request.tasks, []).append(request)
        else:
            shards_of_reports.append(_reported(db, request))
    shards: Iterator[Any] = iter(shards_of_reports)
    leases: dict[tuple[str, ...], Iterator[Any]] = {
        tasks: iter(_claimed(db, tasks, claims_of_tasks, now))
        for tasks, claims_of_tasks in claims.items()
    }
    return [
        next(leases[request.tasks] if isinstance(request, ClaimRequest) else shards)
        for request in requests
    ]


def _reported(db: sqlite3.Connection, report: ReportRequest) -> int | None:
    """Store a report. Return the attempt's shard, or None if the report does not count."""
    # `RETURNING` would create a temporary table
    if not db.execute(REPORT, report._asdict()).rowcount:
        return None
    ((shard,),) = db.execute(SHARD, (report.attempt,)).fetchall()
    return int(shard)


def _claimed(
    db: sqlite3.Connection, tasks: Sequence[str], claims: Sequence[ClaimRequest], now: float
) -> list[list[Claim]]:
    """Return the leases of each claim of these tasks.

    The claims that came first have the attempts that have waited longest.
    """
    limit = sum(claim.limit for claim in claims)
    candidates: list[tuple[Any, ...]] = []
    for task in tasks:
        free = limit
        for (bound,) in db.execute(BOUND, (task,)).fetchall():
            (held,) = db.execute(HELD, (task, now)).fetchone()
            free = max(0, min(limit, bound - held))
        candidates += db.execute(CLAIMABLE, (task, now, free)).fetchall()
    rows = iter(sorted(candidates, key=lambda row: row[:2])[:limit])
    return [
        [_leased(db, claim, row, now) for row in itertools.islice(rows, claim.limit)]
        for claim in claims
    ]


def _leased(db: sqlite3.Connection, claim: ClaimRequest, row: tuple[Any, ...], now: float) -> Claim:
    """Lease the attempt of a row."""
    offered_at, attempt, lease, given_back, id, step, action, cancelled, *earlier_lease = row
    count, earlier_worker, since, until = earlier_lease
    number = max(int(now * 1000), (lease or 0) + 1)
    if since is not None:
        spans = earlier(since, earlier_worker, lease, until)
        db.execute(SPANS, (id, step, action, count, since, spans))
    db.execute(LEASE, (claim.worker, now, now + claim.seconds, number, attempt))
    is_takeover = lease is not None and not given_back
    outcome = cancelled, is_takeover, now - offered_at
    return Claim(attempt, number, claim.seconds, id, step, action, *outcome)


class SqliteExternalAttempts:
    """See `ExternalAttempts`. This is the only program that has the file open."""

    def __init__(self, rows: Callable[..., list[tuple[Any, ...]]]) -> None:
        self._rows = rows
        self._batcher: Batcher[ExternalRequest, Any] = Batcher(
            self._ask_all, MAX_BATCH, self._dropped
        )
        self.deliveries: Deliveries = SqliteDeliveries()

    def begin(
        self,
        write: Callable[[Batch], Awaitable[None]],
        clock: Callable[[], float],
        unwanted: Callable[[Sequence[Claim]], object],
    ) -> None:
        self.write, self.clock, self._unwanted = write, clock, unwanted
        self.deliveries.begin(write, clock)

    async def _within(self, work: Callable[[sqlite3.Connection], Any]) -> Any:
        """Return the result of a function, once its transaction is in the file."""
        batch = Batch(-1, self.clock())
        result: list[Any] = []

        def run(db: sqlite3.Connection) -> None:
            result[:] = [work(db)]

        batch.rare_rows.work.append(run)
        await self.write(batch)
        return result[0]

    async def claim(
        self, tasks: Sequence[str], limited: Sequence[str], limit: int, seconds: float, worker: str
    ) -> list[Claim]:
        wanted = ClaimRequest((*map(clean, tasks),), max(0, limit), seconds, clean(worker))
        claims: list[Claim] = await self._batcher.ask(wanted)
        return claims

    async def _ask_all(self, requests: Sequence[ExternalRequest]) -> list[Any]:
        """Return the claims' leases and the reports' shards."""
        tasks = {
            task
            for request in requests
            if isinstance(request, ClaimRequest)
            for task in request.tasks
        }
        if not any(
            isinstance(request, ReportRequest) for request in requests
        ) and not self._has_any(tasks):
            return [[] for _ in requests]
        answers: list[Any] = await self._within(lambda db: _answers(db, requests, self.clock()))
        return answers

    def _dropped(self, request: ExternalRequest, answer: Any) -> None:
        if isinstance(request, ClaimRequest):
            self._unwanted(answer)

    def _has_any(self, tasks: Iterable[str]) -> bool:
        """Whether an attempt waits for a worker. Otherwise nothing need be written."""
        now = self.clock()
        return any(self._rows(CLAIMABLE, task, now, 1) for task in tasks)

    async def heartbeat(self, attempt: str, lease: int, seconds: float) -> Heartbeat | None:
        def extend(db: sqlite3.Connection) -> Heartbeat | None:
            now = self.clock()
            for task, bound, until, cancelled in db.execute(
                CURRENT_LEASE, (attempt, lease)
            ).fetchall():
                if bound is not None and until <= now:
                    (held,) = db.execute(HELD, (task, now)).fetchone()
                    if held >= bound:
                        return None
                db.execute(LENGTHEN, (now + seconds, now + seconds < until, attempt))
                return Heartbeat(seconds, cancelled)
            return None

        heartbeat: Heartbeat | None = await self._within(extend)
        return heartbeat

    async def advance(self, attempt: str, fraction: float, detail: str | None, at: float) -> None:
        parameters = (fraction, detail, at, attempt)
        await self._within(lambda db: db.execute(ADVANCE, parameters) and None)

    async def report(self, attempt: str, lease: int, outcome: str, value: str) -> int | None:
        shard: int | None = await self._batcher.ask(ReportRequest(attempt, lease, outcome, value))
        return shard

    async def find(self, attempt: str) -> Row | None:
        rows = self._rows(FIND, attempt)
        return Row(*rows[0]) if rows else None

    async def outcomes(self, attempts: Sequence[str]) -> dict[str, str | None]:
        rows = {attempt: self._rows(OUTCOME, attempt) for attempt in attempts}
        return {attempt: matches[0][0] for attempt, matches in rows.items() if matches}

    async def reported(self, shards: Sequence[int]) -> list[Report]:
        return [Report(*row[:3]) for row in self._rows(ALL_REPORTED) if row[3] in shards]

    async def waiting(self) -> list[QueueState]:
        return [QueueState(*row) for row in self._rows(WAITING, self.clock())]

    async def texts(self, id: int) -> SagaTexts | None:
        results = [(step, value) for step, value in self._rows(external.RESULTS, id)]
        rows = self._rows(external.TEXTS, id)
        return SagaTexts._make((*rows[0], results)) if rows else None

    def offered(self, task: str, attempt: str) -> None:
        """Do nothing: there are no other nodes."""

    def gone(self, task: str, attempt: str) -> None:
        """Do nothing: there are no other nodes."""

    def follow(self) -> None:
        """Do nothing: there are no other nodes."""

    def notify_owner(self, shard: int) -> None:
        """Do nothing: there are no other nodes."""


# -- deliveries of webhooks


class SqliteDeliveries:
    """See `Deliveries`. This is the only program that has the file open."""

    def begin(self, write: Callable[[Batch], Awaitable[None]], clock: Callable[[], float]) -> None:
        """Start the use of the table. `write` adds a batch to the next transaction."""
        self._write, self._clock = write, clock

    async def change(self, text: str, **parameters: Any) -> list[tuple[Any, ...]]:
        batch = Batch(-1, self._clock())
        rows: list[tuple[Any, ...]] = []

        def work(db: sqlite3.Connection) -> None:
            rows[:] = db.execute(*self._form(text, parameters)).fetchall()

        batch.rare_rows.work.append(work)
        await self._write(batch)
        return rows

    async def ask(self, text: str, **parameters: Any) -> list[tuple[Any, ...]]:
        return await self.change(text, **parameters)

    def _form(self, text: str, parameters: dict[str, Any]) -> tuple[str, dict[str, Any]]:
        return text.format(now=":now", locked=""), {**parameters, "now": self._clock()}
