"""The only writer of a store's file.

All batches that wait go into one transaction. The loop inserts the rows of a small transaction.
While the disk is fast, the loop also commits it. Otherwise a thread commits.
"""

from __future__ import annotations

import asyncio
import bisect
import contextlib
import functools
import itertools
import math
import queue
import sqlite3
import threading
import time
from collections.abc import Callable, Iterable, Sequence
from typing import Any

from sagas.core.shard.batch import Batch, DefinitionRow, EndedRow, RareRows, Withdrawal
from sagas.definition.serialization import clean, cleaned
from sagas.storage import external
from sagas.storage.interface import CommitCallback
from sagas.storage.sqlite.store_file import BUSY, CHECKPOINT, LONG, FileWatch

# -- the statements of a commit

LINES = "INSERT INTO event_log VALUES(?, ?, ?, ?)"
OPENED = (
    "INSERT INTO sagas(id, key, saga, definition_index, input, at, deadline, traceparent) VALUES {}"
)
RESULTS = "INSERT INTO attempts VALUES {}"
ENDED = """
UPDATE sagas SET phase = ?, outcome = ?, recovered = ?, undo_failed = ?, ended = ? WHERE id IN ({})
"""
DEFINITION = "INSERT OR IGNORE INTO definitions VALUES(?, ?)"
DEFINED = "INSERT OR IGNORE INTO shard_definitions VALUES(?, ?, ?)"
SHAPES = "INSERT INTO shapes VALUES(?, ?)"
LABELS = "INSERT INTO labels VALUES(?, ?, ?)"
CHILDREN = "INSERT INTO children VALUES(?, ?)"
OFFERS = f"""
INSERT INTO external_attempts AS e({external.OFFER}) VALUES(?, ?, ?, ?, ?, ?, ?, ?, ?, ?, ?)
ON CONFLICT(attempt) DO UPDATE SET {external.OFFERED_AGAIN.replace("greatest", "max")}
"""
CANCELLED = """
UPDATE external_attempts SET cancelled = ? WHERE id = ? AND action = 'run' AND outcome IS NULL
"""
FREED = "DELETE FROM suspensions WHERE id = ? AND step = ? AND action = ? AND number <= ?"
DELIVERIES = """
INSERT OR IGNORE INTO webhook_deliveries(id, webhook, type, saga, key, body, at)
VALUES(?, ?, ?, ?, ?, ?, ?)
"""
SPANS = "INSERT OR IGNORE INTO attempt_spans VALUES(?, ?, ?, ?, ?, ?)"
PROGRESS = "INSERT OR REPLACE INTO progress VALUES(?, ?, ?, ?, ?, ?, ?)"
SUSPENDED = """
UPDATE external_attempts SET outcome = ?2, until = NULL
WHERE attempt = ?1 AND (outcome IS NULL
  OR outcome IN ('unknown', 'suspended') OR outcome IN ('failed', 'failed_permanently'))
"""
WITHDRAWN = f"""
UPDATE external_attempts SET outcome = 'withdrawn' WHERE attempt = ? AND {external.UNCLAIMED}
"""
SETTLED = """
UPDATE external_attempts SET outcome = 'settled', value = NULL,
shard = CASE WHEN outcome IS NOT 'succeeded' OR ?2 = 'succeeded' THEN shard END WHERE attempt = ?1
"""
"""If a worker reported a success, and the commit says otherwise, the shard is null, which is
refused.
"""
DONE = "SELECT 1 FROM external_attempts WHERE attempt = ? AND outcome = 'succeeded'"

HELD = "INSERT OR REPLACE INTO suspensions VALUES(?, ?, ?, ?, ?, ?, ?, ?, ?)"
ANSWERS = "UPDATE operator_commands SET answer = ? WHERE id = ?"
REQUESTS = "INSERT INTO operator_commands(key, command, value, at, answer) VALUES(?, ?, ?, ?, ?)"
NOTES = "UPDATE sagas SET note = ? WHERE id = ? AND note IS NULL"
UNDONE = """
UPDATE suspensions SET reason = 'early_undone'
WHERE id = ? AND step = ? AND action = 'run' AND number = 0 AND reason = 'early_result'
"""
END_CALLED = "DELETE FROM suspensions WHERE id = ? AND step = -1 AND reason = 'end_call'"
END_FAULTS = """
UPDATE suspensions SET detail = ? WHERE id = ? AND step = -1 AND reason = 'end_call'
"""
CLOSED = "UPDATE shards SET closed = ?, audit = ? WHERE shard = ?"
SET_ASIDE = "UPDATE shards SET audit = ? WHERE shard = ? AND closed = 0"
RowsOf = Callable[[int, RareRows], Sequence[Sequence[Any]]]
"""The parameters of a part of a batch, by the number of its shard."""
PARTS: dict[str, tuple[str, RowsOf]] = {
    "held": (HELD, lambda shard, rare: [cleaned(row) for row in rare.held]),
    "freed": (FREED, lambda shard, rare: rare.freed),
    "progress": (PROGRESS, lambda shard, rare: rare.progress),
    "work": ("", lambda shard, rare: ()),
    "labels": (LABELS, lambda shard, rare: rare.labels),
    "shapes": (SHAPES, lambda shard, rare: rare.shapes),
    "children": (CHILDREN, lambda shard, rare: rare.children),
    "offers": (OFFERS, lambda shard, rare: rare.offers),
    "cancelled": (CANCELLED, lambda shard, rare: rare.cancelled),
    "suspended": (
        SUSPENDED,
        lambda shard, rare: [(at, outcome) for at, _, outcome in rare.suspended],
    ),
    "withdrawn": (WITHDRAWN, lambda shard, rare: ()),
    "settled": (SETTLED, lambda shard, rare: [(at, outcome) for at, _, outcome in rare.settled]),
    "deliveries": (DELIVERIES, lambda shard, rare: [cleaned(row) for row in rare.deliveries]),
    "spans": (SPANS, lambda shard, rare: [cleaned(row) for row in rare.spans]),
    "answers": (ANSWERS, lambda shard, rare: rare.answers),
    "requested": (REQUESTS, lambda shard, rare: [(*row, answer) for row, answer in rare.requested]),
    "notes": (NOTES, lambda shard, rare: [(clean(note), id) for note, id in rare.notes]),
    "undone": (UNDONE, lambda shard, rare: rare.undone),
    "end_called": (END_CALLED, lambda shard, rare: rare.end_called),
    "end_faults": (
        END_FAULTS,
        lambda shard, rare: [(clean(detail), id) for detail, id in rare.end_faults],
    ),
    "closed": (CLOSED, lambda shard, rare: [(*rare.closed, shard)] if rare.closed else ()),
    "set_aside": (
        SET_ASIDE,
        lambda shard, rare: [(*rare.set_aside, shard)] if rare.set_aside else (),
    ),
}
"""The statement of each part of a batch, in order.

`work` and `withdrawn` are handled separately. Definitions are written before all others (`define`).
"""


def define(db: sqlite3.Connection, shards: Iterable[tuple[int, Sequence[DefinitionRow]]]) -> None:
    """Insert the definitions of shards that are not stored yet."""
    rows = [(shard, *row) for shard, defined in shards for row in defined]
    if rows:
        db.executemany(DEFINITION, [row[2:] for row in rows])
        db.executemany(DEFINED, [row[:3] for row in rows])


def withdraw(db: sqlite3.Connection, withdrawals: Iterable[Withdrawal]) -> None:
    """Withdraw the attempts that no worker has."""
    for withdrawal in withdrawals:
        withdrawal.is_done = db.execute(WITHDRAWN, (withdrawal.attempt,)).rowcount > 0


@functools.lru_cache(maxsize=256)
def rows_statement(statement: str, width: int, count: int) -> str:
    """Return a statement with marks for this number of rows."""
    row = "?" if width == 1 else f"({', '.join('?' * width)})"
    return statement.format(", ".join([row] * count))


# -- the writer

MAX_WAL_PAGES = 6000
"""Pages of the WAL at which any next commit moves it into the file.

Large values make it that long.
"""
ROWS = (
    *range(1, 17),
    *range(20, 33, 4),
    *range(40, 65, 8),
    *range(80, 129, 16),
    *range(160, 257, 32),
    *range(320, 513, 64),
)
"""The numbers of rows of a statement.

They are few, so that the statements stay cached, and close together, so that few statements make
any number.
"""
FEW_ROWS = 1000
"""Maximum number of results and sagas that the loop inserts.

A thread waits at each statement for the interpreter's lock. It gets the lock when the loop has
nothing to do, and that takes longer than the rows do.
"""
AT_ONCE = 0.002
"""Seconds: if the loop's last commits took the disk longer, the thread makes the next ones.

The thread cannot measure the disk, since it also waits for the interpreter's lock. So after some
commits the loop tries again.
"""
LAST = 0.125  # a commit's weight in the average: a single slow one does not make a slow disk
FORGET = 0.97  # the factor of the average at each commit of the thread
NONE: frozenset[int] = frozenset()
Events = dict[int, int]
"""The number of events of each shard."""
PutResult = tuple[Events, frozenset[int]]
"""The number of events of each shard after a transaction, and the lost shards.

Nothing of a lost shard is written. It opened a saga without a lookup of its key, and another saga
has the key.
"""


class Gap(Exception):
    """A batch does not follow its shard's log: an error of this package.

    Nothing is written.
    """


class Writer:
    """Owns the connection that writes, once `open` was called.

    `events` has the number of events of each shard that was read or written last. `files` is
    checked before each commit, in either thread.
    """

    _db: sqlite3.Connection
    _thread: threading.Thread | None = None

    def __init__(self, files: FileWatch) -> None:
        self._files = files
        self.commits = 0
        self.events: dict[int, int] = {}
        self._jobs: queue.SimpleQueue[
            tuple[Sequence[Batch], CommitCallback, PutResult | None] | None
        ] = queue.SimpleQueue()
        self._took = AT_ONCE  # seconds, the average of the loop's last commits
        self._patient: bool | None = None  # whether the connection waits for other programs
        self._moves: bool | None = None  # whether the connection moves the WAL into the file
        self.is_lent = False
        """Whether the thread has the connection."""
        self._pages = 0  # estimate of the pages that the loop wrote into the WAL
        self._over: tuple[
            CommitCallback, Sequence[Batch], BaseException | None, frozenset[int]
        ] | None = None  # a commit of the loop whose `then` is to be called

    def open(self, db: sqlite3.Connection) -> None:
        """Start the thread."""
        self._db, self._loop = db, asyncio.get_running_loop()
        self._execute = db.cursor().execute  # one cursor for all statements without rows
        self._thread = threading.Thread(target=self._work, name="sagas-writer", daemon=True)
        self._thread.start()

    def close(self) -> None:
        """Close after the commits that were given."""
        if self._thread:
            self._jobs.put(None)
            self._thread.join()

    def commit(self, batches: Sequence[Batch], then: CommitCallback, now: bool) -> None:
        """See `CommitWriter.commit`."""
        rows = 0
        for batch in batches:
            rows += len(batch.results) + len(batch.opened)
        failure: Exception | None = None
        lost = NONE
        try:
            if self._files.failure:
                raise self._files.failure
            put = self._put_here(batches) if rows <= FEW_ROWS else None
            if put is None or not self._sync_here(put[0], rows):
                self._pages, self.is_lent = 0, True
                self._jobs.put((batches, then, put))
                return
            lost = put[1]
        except Exception as error:
            failure = error
        except BaseException as error:  # for example Ctrl-C: it is unknown how far it came
            self._over = then, batches, error, NONE
            raise
        if now:
            then(batches, failure, lost)
        else:
            self._over = then, batches, failure, lost

    def _put_here(self, batches: Sequence[Batch]) -> PutResult | None:
        """Insert the rows in the loop. Return None if another program is just writing."""
        try:
            return self._put(batches, patient=False)
        except sqlite3.OperationalError as failure:
            if failure.sqlite_errorcode & 0xFF == sqlite3.SQLITE_BUSY:
                return None
            raise

    def _sync_here(self, events: Events, rows: int) -> bool:
        """Commit in the loop if the disk is fast and the WAL need not be moved.

        Return whether that was done. Measured on 2026-11-28: a saga of three steps takes 18 % fewer
        instructions than with the thread, and 7 % fewer if there are 16 sagas at a time.
        """
        if self._took >= AT_ONCE or self._pages >= LONG:
            return False
        self._pages += 1 + math.isqrt(
            4 * rows
        )  # an estimate: rows share pages with their neighbors
        took = self._sync(events, patient=False)
        self._took += LAST * (took - self._took)
        if self._took >= AT_ONCE:
            self._took = max(took, self._took)
        return True

    def finish_commit(self) -> None:
        """See `CommitWriter.finish_commit`."""
        if self._over:
            (then, batches, failure, lost), self._over = self._over, None
            then(batches, failure, lost)

    def _work(self) -> None:
        while (job := self._jobs.get()) is not None:
            batches, then, put = job
            failure, lost = self._try(batches, put)
            self._took *= FORGET
            with contextlib.suppress(RuntimeError):  # the loop is closed
                self._loop.call_soon_threadsafe(self._done, batches, then, failure, lost)

    def _try(
        self, batches: Sequence[Batch], put: PutResult | None
    ) -> tuple[Exception | None, frozenset[int]]:
        """End a transaction. If it was `put`, all its rows are inserted.

        Return the error, or the lost shards. The coordinator gets the error, and loads its shards
        again.
        """
        try:
            events, lost = self._put(batches, patient=True) if put is None else put
            self._sync(events, patient=True)
        except Exception as failure:
            return failure, NONE
        return None, lost

    def _done(
        self,
        batches: Sequence[Batch],
        then: CommitCallback,
        failure: Exception | None,
        lost: frozenset[int],
    ) -> None:
        self.is_lent = False
        then(batches, failure, lost)

    def _put(self, batches: Sequence[Batch], patient: bool) -> PutResult:
        """Begin a transaction, and insert all rows.

        With `patient`, it waits for another program's commit.
        """
        try:
            self._begin(patient)
            return self._put_rows(batches), NONE
        except sqlite3.IntegrityError as error:
            return self._put_those_that_may(batches, patient, error)
        except BaseException:
            self._roll_back()
            raise

    def _put_those_that_may(
        self, batches: Sequence[Batch], patient: bool, error: sqlite3.IntegrityError
    ) -> PutResult:
        """Begin again, without the shards that cannot be written.

        They guessed a key that is taken (`Batch.guessed`), or a worker reported another outcome of
        an attempt (`Rare.settled`).
        """
        try:
            self._roll_back()
            self._begin(patient)
            lost = frozenset(batch.shard for batch in batches if self._is_refused(batch))
            if not lost:
                raise error
            rest = [batch for batch in batches if batch.shard not in lost]
            return self._put_rows(rest), lost
        except BaseException:
            self._roll_back()
            raise

    def _is_refused(self, batch: Batch) -> bool:
        """Whether a shard's batch cannot be written.

        A key that it guessed to be free is taken, or a worker reported a success of an attempt with
        another outcome.
        """
        settled = batch.rare.settled if batch.rare else ()
        tokens = [token for token, _, outcome in settled if outcome is None]
        is_done = (self._db.execute(DONE, (token,)).fetchone() for token in tokens)
        return any(map(self._has, batch.unchecked_keys)) or any(is_done)

    def _has(self, key: str) -> bool:
        """Whether a saga has the key."""
        return self._db.execute("SELECT 1 FROM sagas WHERE key = ?", (key,)).fetchone() is not None

    def _begin(self, patient: bool) -> None:
        if patient != self._patient:
            self._patient = None
            self._db.execute(f"PRAGMA busy_timeout = {BUSY if patient else 0}")
            self._patient = patient
        self._execute("BEGIN IMMEDIATE")

    def _sync(self, events: Events, patient: bool) -> float:
        """Commit the transaction, and return how many seconds the disk took.

        With `patient`, it may move the WAL into the file.
        """
        try:
            if patient != self._moves:
                self._moves = None
                self._db.execute(
                    f"PRAGMA wal_autocheckpoint = {CHECKPOINT if patient else MAX_WAL_PAGES}"
                )
                self._moves = patient
            self._files.check()
            began = time.perf_counter()
            self._execute("COMMIT")
        except BaseException:
            self._roll_back()
            raise
        self.commits += 1
        self.events.update(events)
        return time.perf_counter() - began

    def _roll_back(self) -> None:
        """Undo a failed transaction."""
        if self._db.in_transaction:
            with contextlib.suppress(sqlite3.Error):
                self._execute("ROLLBACK")

    def _put_rows(self, batches: Sequence[Batch]) -> Events:
        """Insert all rows, and return the number of events of each shard then."""
        events: Events = {}
        if len(batches) == 1:
            (batch,) = batches
            opened, results, ended = batch.opened, batch.results, batch.ended
            self._put_lines(batches, events)
        else:
            opened = [row for batch in batches for row in batch.opened]
            results = [row for batch in batches for row in batch.results]
            ended = [row for batch in batches for row in batch.ended]
            shards: dict[int, list[Batch]] = {}
            for batch in batches:
                shards.setdefault(batch.shard, []).append(batch)
            for of in shards.values():
                self._put_lines(of, events)
        if opened:
            self._put_many(OPENED, 8, opened)
        if results:
            self._put_many(RESULTS, 7, results)
        if ended:
            self._put_ended(ended)
        for batch in batches:
            if batch.rare:
                self._put_rare([(batch.shard, batch.rare) for batch in batches if batch.rare])
                break
        return events

    def _put_lines(self, batches: Sequence[Batch], events: Events) -> None:
        """Insert the lines of batches of one shard, as one row.

        The shard's new number of events goes into `events`.
        """
        shard = batches[0].shard
        had = has = self.events.get(shard, 0)
        for batch in batches:
            if batch.new_shard:
                name, defined = batch.new_shard
                define(self._db, [(shard, defined)])
                self._execute(
                    "INSERT OR IGNORE INTO shards(shard, name) VALUES(?, ?)", (shard, name)
                )
            if batch.text:
                if batch.first != has:
                    raise Gap(f"shard {shard}: event {batch.first} follows event {has}")
                has += batch.text.count("\n")
        if has > had:
            text = batch.text if len(batches) == 1 else "".join([batch.text for batch in batches])
            self._execute(LINES, (shard, had, batch.at, text))
            events[shard] = has

    def _put_ended(self, rows: Sequence[EndedRow]) -> None:
        """Update ended sagas. Most of them ended in the same way, and at the same time."""
        if len(rows) == 1:
            self._execute(rows_statement(ENDED, 1, 1), rows[0])
            return
        ways: dict[tuple[Any, ...], list[tuple[int]]] = {}
        for row in rows:
            ways.setdefault(row[:-1], []).append((row[-1],))
        for way, ids in ways.items():
            self._put_many(ENDED, 1, ids, way)

    def _put_rare(self, rare: Sequence[tuple[int, RareRows]]) -> None:
        """Write the rare parts of shards with these numbers."""
        has = {part for _, parts in rare for part in vars(parts)}
        if "defined" in has:
            define(self._db, ((shard, parts.defined) for shard, parts in rare))
        for part in filter(has.__contains__, PARTS):
            if part == "work":
                for _, parts in rare:
                    for work in parts.work:
                        work(self._db)
            elif part == "withdrawn":
                for _, parts in rare:
                    withdraw(self._db, parts.withdrawn)
            else:
                statement, rows_of = PARTS[part]
                self._many(statement, [rows_of(shard, parts) for shard, parts in rare])

    def _many(self, statement: str, lists: Iterable[Sequence[Sequence[Any]]]) -> None:
        rows = [row for rows in lists for row in rows]
        if rows:
            self._db.executemany(statement, rows)

    def _put_many(
        self,
        statement: str,
        width: int,
        rows: Sequence[Sequence[Any]],
        parameters: Sequence[Any] = (),
    ) -> None:
        """Insert rows by a statement for many rows. `parameters` come before them.

        One statement for each row takes longer, and releases the interpreter's lock each time.
        """
        if len(rows) == 1 and not parameters:
            self._execute(rows_statement(statement, width, 1), rows[0])
            return
        first = 0
        while first < len(rows):
            count = ROWS[bisect.bisect_right(ROWS, len(rows) - first) - 1]
            self._execute(
                rows_statement(statement, width, count),
                [*parameters, *itertools.chain.from_iterable(rows[first : first + count])],
            )
            first += count
