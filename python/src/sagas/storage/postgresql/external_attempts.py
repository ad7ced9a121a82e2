"""External attempts: claims and reports of many in one statement.

The deliveries of webhooks, which the same programs change, take one statement each.
"""

from __future__ import annotations

import asyncio
import contextlib
import functools
import json
import re
from collections.abc import Awaitable, Callable, Sequence
from typing import Any, Optional, Union

from sagas.base.errors import StoreUnavailable
from sagas.core.shard.batch import Batch
from sagas.definition.serialization import clean
from sagas.storage import external, queries
from sagas.storage.ready_attempts import ReadyAttempts
from sagas.storage.webhook_deliveries import Deliveries
from sagas.storage.external import (
    Batcher,
    Claim,
    ClaimRequest,
    ExternalRequest,
    Heartbeat,
    OPEN,
    QueueState,
    REPORT_COUNTS,
    Report,
    ReportRequest,
    Row,
    SagaTexts,
    earlier,
)
from sagas.storage.postgresql import conflicts, connections, notifications, wire
from sagas.storage.postgresql.application_name import Purpose
from sagas.storage.postgresql.connections import Asker
from sagas.storage.postgresql.server import SERVER

CHANNEL = "sagas_reports"
MAX_BATCH = 200
"""Maximum number of claims and reports in one statement."""
MAX_TEXTS = 16
"""Maximum number of sagas whose texts one statement reads, because they may be long."""
CLOCK = "clock AS MATERIALIZED (SELECT extract(epoch FROM clock_timestamp())::float8 AS now)"
HELD = (
    f"SELECT count(*) FROM external_attempts t WHERE t.task = {{}} AND t.{OPEN} AND t.until > "
    "clock.now"
)
BOUND = (
    f"(SELECT o.concurrency FROM external_attempts o WHERE o.task = w.task AND o.{OPEN} AND "
    "o.concurrency IS NOT NULL LIMIT 1)"
)


AHEAD, SHARE = 1.0, 4
"""By how much a claim prefers the attempts of its own node: seconds, and a part of their wait.

The attempts of other nodes cost more: the claim reads their values from the database, and their
report goes through it. So no attempt is leased while another one of the same task has waited for a
second longer and for a quarter longer.
"""
TURN = f"e.offered_at - greatest({AHEAD}, (clock.now - e.offered_at) / {SHARE})"
"""The time from which an attempt of the own node counts as offered."""
CELLS = """e.attempt, e.offered_at, e.lease IS NOT NULL AND NOT e.given_back AS is_takeover,
  e.since, e.worker, e.lease, e.until"""


def _claimed(expired: str) -> str:
    """Return the statement parts of many claims of the same tasks.

    There is a worker and its seconds for each attempt that may be claimed. `expired` is the
    condition for attempts that had a lease. `own` has the attempts that this node has offered. If
    they suffice, the statement only looks whether another one has waited for longer (`TURN`).
    """
    free = f"e.{OPEN} AND (e.until IS NULL OR {expired})"
    others = f"e.task = w.task AND {free} AND e.attempt <> ALL(%(own)s::text[])"
    return f"""
own AS MATERIALIZED (
  SELECT {CELLS}, {TURN} AS turn FROM unnest(%(own)s::text[]) AS w(attempt)
  JOIN external_attempts e USING (attempt), clock
  WHERE e.task = ANY(%(tasks)s::text[]) AND {free} AND {BOUND.replace("w.task", "e.task")} IS NULL
  FOR UPDATE OF e SKIP LOCKED),
own_turn AS (
  SELECT %(limit)s::bigint - count(*) AS missing, max(turn) AS first FROM own),
candidates AS MATERIALIZED (
  SELECT * FROM own
  UNION ALL SELECT x.*, x.offered_at FROM unnest(%(tasks)s::text[]) AS w(task), clock, own_turn,
  LATERAL (SELECT {BOUND} AS bound) b, LATERAL (
    SELECT least(own_turn.missing + count(*), %(limit)s::bigint) AS limit FROM (
      SELECT FROM external_attempts e
      WHERE {others} AND e.offered_at < own_turn.first LIMIT %(limit)s::bigint) o) older,
  LATERAL (
    SELECT {CELLS} FROM external_attempts e WHERE {others} ORDER BY e.offered_at
    LIMIT CASE WHEN b.bound IS NULL THEN older.limit
      ELSE greatest(0, least(older.limit, b.bound - ({HELD.format("w.task")}))) END
    FOR UPDATE SKIP LOCKED) x
  ORDER BY turn LIMIT %(limit)s::bigint),
taken AS (
  UPDATE external_attempts e SET worker = s.worker, since = clock.now,
    until = clock.now + s.seconds, given_back = false,
    lease = greatest((clock.now * 1000)::bigint, coalesce(e.lease, 0) + 1)
  FROM (SELECT *, row_number() OVER (ORDER BY offered_at, attempt) AS place FROM candidates) f
  JOIN unnest(%(workers)s::text[], %(seconds)s::float8[]) WITH ORDINALITY
    AS s(worker, seconds, place) USING (place), clock
  WHERE e.attempt = f.attempt
  RETURNING e.attempt, e.lease, e.until - clock.now AS seconds, e.id, e.step, e.action, e.cancelled,
    f.is_takeover, clock.now - f.offered_at AS waited, place, e.number, f.since, f.worker,
    f.lease AS had, f.until)
"""


CLAIMED = _claimed("e.until <= clock.now")
UNREPORTED = _claimed("e.until <= clock.now AND e.attempt <> ALL(%(attempts)s::text[])")
"""For claims in a statement that also has reports.

It does not claim the attempts that it reports, because a statement changes a row once.
"""
ROWS = """
json_agg(json_build_array(attempt, lease, seconds, id, step, action, cancelled, is_takeover, waited,
  place, number, since, worker, had, until) ORDER BY place)::text
"""
"""All rows as one text, which is read faster than several cells of each."""
FREE = "(SELECT json_agg(attempt)::text FROM own)"
"""The attempts of this node that could be claimed."""
CLAIM = f"WITH {CLOCK}, {CLAIMED} SELECT {ROWS}, {FREE} FROM taken"
EARLIER = """
INSERT INTO attempt_spans VALUES(%(id)s, %(step)s, %(action)s, %(number)s, %(at)s, %(spans)s)
ON CONFLICT DO NOTHING RETURNING 1
"""
"""Stores the span of an earlier lease. Only people read it."""
LOCK = f"""
SELECT {SERVER.lock_text("task", 5777002)}
FROM (SELECT task FROM unnest(%(limited)s::text[]) AS l(task) ORDER BY task) l
"""
"""Claims of a task with a concurrency limit are counted one after the other."""
HEARTBEAT = f"""
WITH {CLOCK}
UPDATE external_attempts e SET until = clock.now + %(seconds)s, given_back = clock.now + %(seconds)s
< e.until
FROM clock WHERE e.attempt = %(attempt)s AND e.lease = %(lease)s AND e.{OPEN}
  AND e.until IS NOT NULL AND (e.until > clock.now OR e.concurrency IS NULL OR
  ({HELD.format("e.task")}) < e.concurrency)
RETURNING e.until - clock.now, e.cancelled
"""
REPORT = f"""
UPDATE external_attempts SET outcome = %(outcome)s, value = %(value)s, reported = %(lease)s
WHERE attempt = %(attempt)s AND {REPORT_COUNTS.format(lease="%(lease)s", outcome="%(outcome)s")}
RETURNING shard
"""
REPORTED = f"""
r AS MATERIALIZED (
  SELECT * FROM unnest(%(attempts)s::text[], %(leases)s::bigint[], %(outcomes)s::text[],
    %(values)s::text[]) AS r(attempt, number, came, reported_value)),
free AS MATERIALIZED (
  SELECT e.attempt FROM external_attempts e JOIN r USING (attempt) FOR UPDATE OF e SKIP LOCKED),
kept AS (
  UPDATE external_attempts SET outcome = r.came, value = r.reported_value, reported = r.number
  FROM free JOIN r USING (attempt) WHERE external_attempts.attempt = free.attempt
    AND {REPORT_COUNTS.format(lease="r.number", outcome="r.came")}
  RETURNING free.attempt, shard)
"""
"""Stores reports, each attempt once.

An attempt whose row another transaction has locked is skipped. A statement that waited for several
rows could deadlock.
"""
SHARDS = "json_object_agg(attempt, shard)::text"
CLAIM_PARAMETERS = ("tasks", "limit", "workers", "seconds", "own")
REPORT_PARAMETERS = ("attempts", "leases", "outcomes", "values")
CLAIMS_WIRED = wire.numbered(
    f"WITH {CLOCK}, {CLAIMED} SELECT {ROWS}, {FREE}, NULL FROM taken", *CLAIM_PARAMETERS
)
REPORTS_WIRED = wire.numbered(
    f"WITH {REPORTED} SELECT NULL, NULL, {SHARDS} FROM kept", *REPORT_PARAMETERS
)
BOTH_WIRED = wire.numbered(
    f"WITH {CLOCK}, {UNREPORTED}, {REPORTED} "
    f"SELECT (SELECT {ROWS} FROM taken), {FREE}, (SELECT {SHARDS} FROM kept)",
    *CLAIM_PARAMETERS,
    *REPORT_PARAMETERS,
)
"""Returns the rows of claims, which attempts of this node were free, and the shards of the reports
that count.
"""
FIND = "SELECT lease, outcome, value, reported FROM external_attempts WHERE attempt = %(attempt)s"
OUTCOMES = (
    "SELECT attempt, outcome FROM external_attempts WHERE attempt = ANY(%(attempts)s::text[])"
)
ALL_REPORTED = (
    "SELECT json_agg(json_build_array(attempt, outcome, value))::text FROM external_attempts "
    f"WHERE shard = ANY(%(shards)s::bigint[]) AND {external.REPORTED}"
)
REPORTED_WIRED = wire.numbered(ALL_REPORTED, "shards")
WAITING = f"""
WITH {CLOCK}
SELECT task, count(*) FILTER (WHERE until IS NULL OR until <= now),
  min(offered_at) FILTER (WHERE until IS NULL OR until <= now), count(*) FILTER (WHERE until > now)
FROM external_attempts, clock WHERE {OPEN} AND task > '' GROUP BY task ORDER BY task
"""
ADVANCE = """
INSERT INTO progress SELECT id, step, action, number, %(fraction)s, %(detail)s, %(at)s
FROM external_attempts WHERE attempt = %(attempt)s
ON CONFLICT (id, step, action, number) DO UPDATE SET fraction = excluded.fraction,
  detail = excluded.detail, at = excluded.at
RETURNING 1
"""
NOTIFY_REPORTED = notifications.notify_statement(CHANNEL).replace("%(messages)s", "'{reported}'")


ALL_TEXTS = f"""
SELECT json_agg(json_build_array(s.id, s.key, s.input, s.deadline, s.traceparent, text,
  (SELECT p.shape FROM shapes p WHERE p.id = s.id),
  (SELECT coalesce(json_agg(json_build_array(a.step, a.value)), '[]') FROM attempts a
   WHERE a.id = s.id AND a.action = 'run' AND a.event = 'commit')))::text
FROM {queries.DEFINED} WHERE s.id = ANY(%(ids)s::bigint[])
"""
TEXTS_WIRED = wire.numbered(ALL_TEXTS, "ids")


_Answer = Union[list[list[Any]], Optional[int]]
"""The rows of a claim; or the shard of a report, or None if it does not count."""


def _group(request: ExternalRequest) -> tuple[str, ...] | None:
    """Return the tasks of a claim: one statement makes claims of the same tasks.

    Reports have no group.
    """
    return request.tasks if isinstance(request, ClaimRequest) else None


def rows_of(text: str | bytes | None) -> list[list[Any]]:
    """Return the rows of `CLAIM`, from its text."""
    rows: list[list[Any]] = json.loads(text) if text else []
    return rows


def _divided(claims: Sequence[ClaimRequest], rows: Sequence[list[Any]]) -> list[list[list[Any]]]:
    """Return the rows of each claim.

    The claims that came first have the attempts that have waited longest.
    """
    by_number = {row[9]: row for row in rows}
    rows_of_claims, taken = [], 0
    for claim in claims:
        numbers = range(taken + 1, taken + claim.limit + 1)
        rows_of_claims.append([by_number[number] for number in numbers if number in by_number])
        taken += claim.limit
    return rows_of_claims


class PostgreSQLExternalAttempts:
    """See `ExternalAttempts`. It uses a node's connections.

    Claims and reports share a connection of their own, which is made with the first of them and
    repeats prepared statements. Those that arrive while a statement is executed go into the next
    one. Claims of tasks with a concurrency limit use the pool. All others use the pool too while
    the server has no spare connection. Measured on 2026-11-28 in batches of ten, on a busy machine:
    a claim takes 33 us to 48 us of the node's processor instead of 121 us by the pool, and a report
    30 us to 37 us instead of 81 us to 90 us.
    """

    def __init__(self, url: str, asker: Asker) -> None:
        """Create the table's part of a node.

        Args:
            url: The URL for the connection of its own, which may be that of a pooler.
            asker: The node's connections.
        """
        self._asker = asker
        self._own_wire = wire.ReconnectingWire(url, asker.store_name, Purpose.CLAIM)
        asker.attach(self._own_wire)
        # claims that wait for other nodes hold a connection of the pool
        self._locking = asyncio.Lock()
        self._batcher: Batcher[ExternalRequest, Any] = Batcher(
            self._ask_all, MAX_BATCH, self._dropped, _group
        )
        self._texts: Batcher[int, SagaTexts | None] = Batcher(
            self._ask_texts, MAX_TEXTS, lambda id, texts: None
        )
        self._unwanted: Callable[[Sequence[Claim]], object] = lambda claims: None
        self._ready = ReadyAttempts()
        self.notify: Callable[[list[str]], object] = lambda messages: None
        """Sends messages to the other nodes, soon."""
        self.follows: Callable[[str], object] = lambda event: None
        """Has the other nodes send messages of an event without delay."""
        self.deliveries: Deliveries = PostgreSQLDeliveries(asker)

    def begin(
        self,
        write: Callable[[Batch], Awaitable[None]],
        clock: Callable[[], float],
        unwanted: Callable[[Sequence[Claim]], object],
    ) -> None:
        """Start the use of the table: each call is a statement of its own."""
        self._unwanted = unwanted

    async def claim(
        self, tasks: Sequence[str], limited: Sequence[str], limit: int, seconds: float, worker: str
    ) -> list[Claim]:
        names = (*map(clean, tasks),)
        wanted = ClaimRequest(names, max(0, limit), float(seconds), clean(worker))
        if limited:
            rows = await self._alone(limited, wanted)
        else:
            rows = await self._batcher.ask(wanted)
        claims = [Claim(*row[:9]) for row in rows]
        try:
            await self._note_earlier(rows)
        except asyncio.CancelledError:
            self._unwanted(claims)
            raise
        return claims

    async def _note_earlier(self, rows: Sequence[list[Any]]) -> None:
        """Store the earlier leases of claimed attempts."""
        for _, _, _, id, step, action, _, _, _, _, number, since, had, lease, until in rows:
            if since is not None:
                span = {"at": since, "spans": earlier(since, had, lease, until)}
                attempt = {"id": id, "step": step, "action": action, "number": number}
                with contextlib.suppress(StoreUnavailable):
                    await self._asker.ask(EARLIER, **attempt, **span)

    def _dropped(self, request: ExternalRequest, answer: Any) -> None:
        if isinstance(request, ClaimRequest):
            self._unwanted([Claim(*row[:9]) for row in answer])

    async def _ask_all(self, requests: Sequence[ExternalRequest]) -> list[_Answer]:
        """Return the rows of claims of the same tasks, and the shards of reports."""
        claims = [request for request in requests if isinstance(request, ClaimRequest)]
        reports = {
            request.attempt: request
            for request in reversed(requests)
            if isinstance(request, ReportRequest)
        }
        if self._own_wire.is_open or await self._has_own():
            rows, shards = await self._ask_own(claims, [*reports.values()])
        else:
            rows, shards = await self._claim_all(claims), {}  # each report is executed alone
        answers = iter(_divided(claims, rows))
        return [
            next(answers)
            if isinstance(request, ClaimRequest)
            else shards.get(request.attempt)
            if reports[request.attempt] is request
            else None
            for request in requests
        ]

    async def _ask_own(
        self, claims: Sequence[ClaimRequest], reports: Sequence[ReportRequest]
    ) -> tuple[list[list[Any]], dict[str, int]]:
        parameters: list[bytes] = []
        own_attempts: list[str] = []
        if claims:
            each = [claim for claim in claims for _ in range(claim.limit)]
            own_attempts = self._ready.first(claims[0].tasks, len(each))
            seconds = wire.array([repr(claim.seconds) for claim in each])
            workers = wire.array([claim.worker for claim in each])
            parameters += [wire.array(claims[0].tasks), b"%d" % len(each), workers, seconds]
            parameters.append(wire.array(own_attempts))
        if reports:
            attempts, leases, outcomes, values = zip(*reports)
            parameters += map(wire.array, (attempts, map(str, leases), outcomes, values))
        text = CLAIMS_WIRED if not reports else BOTH_WIRED if claims else REPORTS_WIRED
        ((rows_text, free, shards),) = await self._own_wire.ask(text, *parameters)
        rows = rows_of(rows_text)
        if claims:
            self._note_taken(claims[0].tasks, own_attempts, free, rows)
        return rows, json.loads(shards) if shards else {}

    def _note_taken(
        self,
        tasks: Sequence[str],
        own_attempts: Sequence[str],
        free: str | bytes | None,
        rows: Sequence[list[Any]],
    ) -> None:
        """Forget the attempts of this node that were not free, or were claimed now."""
        left = set(json.loads(free) if free else ()) - {row[0] for row in rows}
        self._ready.discard(tasks, [attempt for attempt in own_attempts if attempt not in left])

    async def _claim_all(self, claims: Sequence[ClaimRequest]) -> list[list[Any]]:
        """Return the rows of claims of the same tasks, by the pool."""
        if not claims:
            return []
        each = [claim for claim in claims for _ in range(claim.limit)]
        tasks = [*claims[0].tasks]
        own_attempts = self._ready.first(tasks, len(each))
        parameters = {
            "tasks": tasks,
            "limit": len(each),
            "workers": [claim.worker for claim in each],
            "seconds": [claim.seconds for claim in each],
            "own": own_attempts,
        }
        ((text, free),) = await self._asker.ask(CLAIM, **parameters)
        rows = rows_of(text)
        self._note_taken(tasks, own_attempts, free, rows)
        return rows

    async def _has_own(self) -> bool:
        """Connect, if the server has a spare connection."""
        try:
            await self._own_wire.open()
        except StoreUnavailable:
            return False
        return True

    async def _alone(self, limited: Sequence[str], wanted: ClaimRequest) -> list[list[Any]]:
        """Claim tasks with a concurrency limit.

        The claim continues if its caller is cancelled.
        """
        claiming = asyncio.get_running_loop().create_task(self._claim_limited(limited, wanted))
        try:
            return await asyncio.shield(claiming)
        except asyncio.CancelledError:
            claiming.add_done_callback(functools.partial(self._over, wanted))
            raise

    def _over(self, wanted: ClaimRequest, claiming: asyncio.Task[list[list[Any]]]) -> None:
        if not claiming.cancelled() and not claiming.exception():
            self._dropped(wanted, claiming.result())

    async def _claim_limited(
        self, limited: Sequence[str], wanted: ClaimRequest, turn: int = 0
    ) -> list[list[Any]]:
        """Return the rows of a claim of tasks with a concurrency limit.

        No other node claims them at the same time.
        """
        workers = [wanted.worker] * wanted.limit
        parameters = {
            "tasks": [*wanted.tasks],
            "limit": wanted.limit,
            "workers": workers,
            "own": [],
        }
        asker = self._asker
        try:
            async with self._locking, asker.connection() as connection, connection.transaction():
                await connection.execute(LOCK, {"limited": list(limited)})
                seconds = {"seconds": [wanted.seconds] * wanted.limit}
                row = await (await connection.execute(CLAIM, parameters | seconds)).fetchone()
                return rows_of(row[0]) if row else []
        except StoreUnavailable as error:
            await conflicts.pause(error, turn)
        return await self._claim_limited(limited, wanted, turn + 1)

    async def heartbeat(self, attempt: str, lease: int, seconds: float) -> Heartbeat | None:
        rows = await self._asker.ask(HEARTBEAT, attempt=attempt, lease=lease, seconds=seconds)
        return Heartbeat(float(rows[0][0]), rows[0][1]) if rows else None

    async def advance(self, attempt: str, fraction: float, detail: str | None, at: float) -> None:
        parameters = {"attempt": attempt, "fraction": fraction, "detail": detail, "at": at}
        await self._asker.ask(ADVANCE, **parameters)

    async def report(self, attempt: str, lease: int, outcome: str, value: str) -> int | None:
        request = ReportRequest(attempt, lease, outcome, value)
        shard: int | None = await self._batcher.ask(request)
        if shard is None:  # it does not count, or another transaction has locked its row
            rows = await self._asker.ask(REPORT, **request._asdict())
            shard = int(rows[0][0]) if rows else None
        return shard

    async def find(self, attempt: str) -> Row | None:
        rows = await self._asker.read(FIND, attempt=attempt)
        return Row(*rows[0]) if rows else None

    async def outcomes(self, attempts: Sequence[str]) -> dict[str, str | None]:
        rows = await self._asker.read(OUTCOMES, attempts=list(attempts))
        return {attempt: outcome for attempt, outcome in rows}

    async def reported(self, shards: Sequence[int]) -> list[Report]:
        if self._own_wire.is_open:
            ((text,),) = await self._own_wire.read(REPORTED_WIRED, wire.array(map(str, shards)))
        else:
            ((text,),) = await self._asker.read(ALL_REPORTED, shards=list(shards))
        return [Report(*row) for row in rows_of(text)]

    async def waiting(self) -> list[QueueState]:
        return [QueueState(*row) for row in await self._asker.read(WAITING)]

    async def texts(self, id: int) -> SagaTexts | None:
        return await self._texts.ask(id)

    async def _ask_texts(self, ids: Sequence[int]) -> list[SagaTexts | None]:
        if self._own_wire.is_open:
            ((text,),) = await self._own_wire.read(TEXTS_WIRED, wire.array(map(str, ids)))
        else:
            ((text,),) = await self._asker.read(ALL_TEXTS, ids=list(ids))
        texts = {row[0]: SagaTexts(*row) for row in rows_of(text)}
        return [texts.get(id) for id in ids]

    def offered(self, task: str, attempt: str) -> None:
        self._ready.add(task, attempt)

    def gone(self, task: str, attempt: str) -> None:
        self._ready.discard((task,), (attempt,))

    def follow(self) -> None:
        self.follows(notifications.TASKS)

    def notify_owner(self, shard: int) -> None:
        self.notify(notifications.payloads(notifications.REPORTED, [shard]))


# -- deliveries of webhooks

DELIVERY_NOW = "extract(epoch FROM clock_timestamp())::float8"
DELIVERY_PARAMETER = re.compile(r"(?<!:):([a-z]+)")
DELIVERY_CASTS = {"status": "::integer", "pause": "::float8", "error": "::text", "state": "::text"}


class PostgreSQLDeliveries:
    """See `Deliveries`. It uses a node's connections."""

    def __init__(self, asker: Asker) -> None:
        self._asker = asker

    def begin(self, *_: object) -> None:
        """Do nothing: each call is a statement of its own."""

    async def change(self, text: str, **parameters: Any) -> list[connections.Row]:
        return await self._asker.ask(delivery_form(text), **parameters)

    async def ask(self, text: str, **parameters: Any) -> list[connections.Row]:
        return await self._asker.read(delivery_form(text), **parameters)


def delivery_form(text: str) -> str:
    """Return a statement for psycopg."""
    named = DELIVERY_PARAMETER.sub(
        lambda match: f"%({match[1]})s{DELIVERY_CASTS.get(match[1], '')}", text
    )
    return named.format(now=DELIVERY_NOW, locked=" FOR UPDATE SKIP LOCKED")
