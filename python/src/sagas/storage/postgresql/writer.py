"""The writing connection, and a check that none of its commits was lost.

There is one commit at a time.

The database loses commits if a backup is restored under a running node: the timeline, the owner of
each shard and its epoch are as before.
"""

from __future__ import annotations

import asyncio
import contextlib
import functools
import time
from collections.abc import Callable, Collection, Coroutine, Sequence
from typing import Any, Optional

from psycopg import errors

from sagas.base.errors import StoreUnavailable
from sagas.base.logger import logger
from sagas.core.shard.batch import Batch, Tail
from sagas.storage.interface import CommitCallback
from sagas.storage.postgresql import connections
from sagas.storage.postgresql.application_name import Purpose
from sagas.storage.postgresql.commit_statement import HAS_MOVED, Commit
from sagas.storage.postgresql.wire import Values, Wire
from sagas.storage.record_file import RecordFile

NONE: frozenset[int] = frozenset()
OF_ONE = (errors.UniqueViolation, errors.NotNullViolation)
"""The errors of the server that are because of one shard.

Another shard has one of its keys or wrote it before, or a worker has reported a success of an
attempt with another outcome.
"""
AnswerCallback = Callable[[frozenset[int], Optional[Exception]], object]
"""Called with the shards that this node lost, or with the error that kept all from being written.
"""


class Writer:
    """Writes commits, one after the other.

    `events` has the number of events of each shard, as the server said. The shard that was read or
    written last is the last one. `tails` has the last chunk of each shard that has one. `check` is
    called with a new connection, and raises if it must not be used. `refused` is called if there is
    no connection. Commits and replies are written to `record`.
    """

    def __init__(
        self,
        url: str,
        store_name: str,
        node: str,
        check: Callable[[connections.Link], Coroutine[Any, Any, None]],
        kept: Callable[[Commit], object],
        refused: Callable[[], object],
        record: RecordFile | None = None,
    ) -> None:
        self._url, self._store_name, self._node = url, store_name, node.encode()
        self._check, self._kept, self._refused = check, kept, refused
        self.record = record
        self.late: Callable[[], object] = lambda: None
        """Called if a commit took too long."""
        self.commits = 0
        self.commit_seconds = 0.0
        """Seconds that a commit takes: a moving average of the last ones."""
        self.events: dict[int, int] = {}
        self.tails: dict[int, Tail] = {}
        self._wire: Wire | None = None
        self._job: asyncio.Task[None] | None = None
        self._rests = asyncio.Event()
        self._rests.set()
        self._is_over = False

    def commit(self, batches: Sequence[Batch], then: CommitCallback) -> None:
        """See `CommitWriter.commit`."""
        self._rests.clear()
        if self._is_over:
            asyncio.get_running_loop().call_soon(self._over, batches, then, self._closed(), NONE)
        elif self._wire is None or self._wire.closed:
            self._spawn(self._connect(batches, then))
        else:
            self._write(self._wire, batches, functools.partial(self._came, batches, then))

    def reached(self, shard: int, events: int, tail: Tail | None) -> None:
        """Note that a shard was read or written up to this chunk."""
        self.events.pop(shard, None)
        self.events[shard] = events
        if tail is not None:
            self.tails[shard] = tail
        else:
            self.tails.pop(shard, None)

    def latest(self, shards: Collection[int]) -> tuple[int, Tail] | None:
        """Return which of these shards was read or written last, and its tail."""
        for shard in reversed(self.events):
            if shard in shards and shard in self.tails:
                return shard, self.tails[shard]
        return None

    def forget(self, shard: int) -> None:
        """Forget what is known of a shard: it has a later epoch."""
        self.events.pop(shard, None)
        self.tails.pop(shard, None)

    def cut(self) -> None:
        """Close the connection: its statement is over, or the next epoch fences it."""
        wire, self._wire = self._wire, None
        if wire:
            wire.close()

    async def close(self) -> None:
        """Close after the commit under way, unless that takes long."""
        with contextlib.suppress(TimeoutError):
            async with asyncio.timeout(connections.CONNECT):
                await self._rests.wait()
        self._is_over = True
        if self._job:
            self._job.cancel()
        self.cut()

    def _closed(self) -> StoreUnavailable:
        return StoreUnavailable(f"{self._store_name}: closed")

    def _spawn(self, work: Coroutine[Any, Any, None]) -> None:
        self._job = asyncio.get_running_loop().create_task(work)

    def _over(
        self,
        batches: Sequence[Batch],
        then: CommitCallback,
        failure: BaseException | None,
        lost: frozenset[int],
    ) -> None:
        self._rests.set()
        then(batches, failure, lost)

    # -- one statement

    async def _connect(self, batches: Sequence[Batch], then: CommitCallback) -> None:
        failure: BaseException | None = None
        try:
            with connections.translate_errors(self._store_name):
                async with asyncio.timeout(connections.PATIENCE):
                    wire = self._wire = Wire(await self._connected())
        except Exception as error:
            failure = error
        except asyncio.CancelledError:
            failure = self._closed()
        if failure:
            self._refused()
            self._over(batches, then, failure, NONE)
        else:
            self._write(wire, batches, functools.partial(self._came, batches, then))

    async def _connected(self) -> connections.Link:
        connection = await connections.connect(self._url, Purpose.COMMIT, connections.REPEATED)
        try:
            await self._check(connection)
        except BaseException:
            await connection.close()
            raise
        return connection

    def _write(self, wire: Wire, batches: Sequence[Batch], on_answer: AnswerCallback) -> None:
        try:
            commit = Commit(batches, lambda shard: self.events.get(shard, 0), self.tails)
            text, parameters = commit.bind(self._node)
        except Exception as error:  # the coordinator gets it, and loads its shards again
            asyncio.get_running_loop().call_soon(on_answer, NONE, error)
        else:
            if self.record is not None:
                self.record.commit = commit
            began = time.monotonic()
            wire.ask(
                text,
                parameters,
                lambda rows, failure: on_answer(*self._read(commit, rows, failure, began)),
            )

    def _read(
        self, commit: Commit, rows: list[Values], failure: Exception | None, began: float
    ) -> tuple[frozenset[int], Exception | None]:
        self.commit_seconds += (time.monotonic() - began - self.commit_seconds) / 8
        if failure is not None:
            if not isinstance(failure, OF_ONE):
                self.cut()
                if isinstance(failure, (TimeoutError, errors.QueryCanceled)):
                    self.late()
                if self.record:
                    self.record.unanswered()
            elif self.record:
                self.record.failed()
            return NONE, failure
        mine = {int(row[0]) for row in rows if row[0] is not None}
        if HAS_MOVED in mine:
            mine.discard(HAS_MOVED)
            commit.has_moved = True
        if commit.rows("withdrawn"):
            commit.answer(next((row[1] for row in rows if row[1] is not None), None))
        if self.record is not None:
            self.record.heard(commit, mine)
            if commit.rare:
                self._note_closed(self.record, commit, mine)
        self.commits += 1
        tails = {shard: Tail(first, at) for shard, first, at, *_ in commit.rows("lines")}
        for shard, events in commit.events.items():
            if shard in mine:
                self.reached(shard, events, tails.get(shard) or self.tails.get(shard))
        self._kept(commit)
        lost = commit.epochs.keys() - mine
        return frozenset(lost) if lost else NONE, None

    def _note_closed(self, record: RecordFile, commit: Commit, mine: set[int]) -> None:
        for shard, *_ in commit.rows("closed"):
            if shard in mine:
                record.closed((shard, commit.epochs[shard], record.timeline))

    def _came(
        self,
        batches: Sequence[Batch],
        then: CommitCallback,
        lost: frozenset[int],
        failure: Exception | None,
    ) -> None:
        if isinstance(failure, OF_ONE):
            self._spawn(self._one_by_one(batches, then))
        else:
            self._over(batches, then, failure and self._translated(failure), lost)

    # -- one statement for each log

    async def _one_by_one(self, batches: Sequence[Batch], then: CommitCallback) -> None:
        """Write each shard alone: one of them cannot be written (`OF_ONE`)."""
        lost: set[int] = set()
        failure: Exception | None = None
        try:
            for shard in dict.fromkeys(batch.shard for batch in batches):
                lost |= await self._written(
                    shard, [batch for batch in batches if batch.shard == shard]
                )
        except Exception as error:
            failure = error
        except asyncio.CancelledError:
            failure = self._closed()
        self._over(batches, then, failure, NONE if failure else frozenset(lost))

    async def _written(self, shard: int, batches: Sequence[Batch]) -> frozenset[int]:
        """Write the batches of a shard, unless it cannot be written."""
        if self._wire is None:
            raise StoreUnavailable(f"{self._store_name}: the connection is closed")
        future: asyncio.Future[
            tuple[frozenset[int], Exception | None]
        ] = asyncio.get_running_loop().create_future()

        def on_answer(lost: frozenset[int], failure: Exception | None) -> None:
            if not future.done():
                future.set_result((lost, failure))

        self._write(self._wire, batches, on_answer)
        lost, failure = await future
        if failure is None:
            return lost
        if isinstance(failure, OF_ONE):
            return frozenset({shard})
        raise self._translated(failure)

    def _translated(self, failure: Exception) -> Exception:
        """Return the error for the coordinator."""
        return (
            connections.store_unavailable(self._store_name, failure)
            if isinstance(failure, connections.CLIENT_ERRORS)
            else failure
        )


# -- commits that the database has lost

COMMITS_MISSING = (
    "the database lacks commits that this node wrote. A backup was restored while the node ran, or "
    "the server lost them"
)
REMEDY = "Opening its shards again. Stop all nodes before you restore a backup"
IS_THERE = "SELECT EXISTS (SELECT 1 FROM shards WHERE shard = %(shard)s)"
IMPATIENT = "SET LOCAL lock_timeout = '0.2s'"
HAS = (
    "SELECT EXISTS (SELECT 1 FROM event_log WHERE shard = %(shard)s AND first_seq = %(first_seq)s "
    "AND committed_at = %(committed_at)s)"
)


class Continuity:
    """Compares what the database has with what it acknowledged.

    A commit is refused if the chunk before it is missing. So a shard is compared when it is read
    again. While a node makes no commit, it looks for its last one.
    """

    def __init__(
        self,
        asker: connections.Asker,
        questions: connections.Asker,
        writer: Writer,
        shards: Callable[[], Collection[int]],
        begin_again: Callable[[], object],
    ) -> None:
        """Create the check.

        Args:
            asker: The connections for short statements.
            questions: The connection for a lookup that may wait.
            writer: The writer, which knows what was acknowledged.
            shards: Returns the shards that this node drives.
            begin_again: Called if commits are missing.
        """
        self._asker, self._questions, self._writer = asker, questions, writer
        self._logs, self._begin_again = shards, begin_again
        self._commits = -1  # the number at the last look
        self._is_looking = False

    def lacks(self, shard: int, events: int) -> bool:
        """Whether the database has fewer events of a shard than were written."""
        return events < self._writer.events.get(shard, 0)

    async def compare(self, shard: int, events: int | None) -> None:
        """Compare the number of events that the database has of a shard with the written one.

        `events` is None if this node does not own the shard.
        """
        written = self._writer.events.get(shard, 0)
        if events is not None:
            if events < written:
                self._report(shard, f"has {events} events, and {written} were written")
        elif written and not (await self._asker.read(IS_THERE, shard=shard))[0][0]:
            self._report(shard, f"does not exist, and {written} of its events were written")

    async def look(self) -> None:
        """Look for the last commit if there was none since the last look.

        A heartbeat does not do this, because it waits for no table.
        """
        is_quiet, self._commits = self._writer.commits == self._commits, self._writer.commits
        last = self._writer.latest(self._logs()) if is_quiet and not self._is_looking else None
        if last is None:
            return
        self._is_looking = True
        try:
            has_it = await self._questions.whole(self._has(*last))
        except StoreUnavailable:
            return
        finally:
            self._is_looking = False
        shard, tail = last
        is_last = self._writer.latest([shard]) == last and shard in self._logs()
        if is_last and not has_it:  # this node still owns the shard, and has not read it again
            self._report(shard, f"has no commit at event {tail.first_seq}")
            self._writer.cut()

    async def _has(self, shard: int, tail: Tail) -> bool:
        """Whether a shard has this chunk.

        Raises `StoreUnavailable` if another program has locked the table.
        """
        parameters = {
            "shard": shard,
            "first_seq": tail.first_seq,
            "committed_at": tail.committed_at,
        }
        with connections.translate_errors(self._asker.store_name):
            async with self._questions.pool.connection() as connection, connection.transaction():
                await connection.execute(IMPATIENT)
                return await (await connection.execute(HAS, parameters)).fetchone() == (True,)

    def _report(self, shard: int, reason: str) -> None:
        logger.error(
            "%s: %s: shard %d %s. %s",
            self._asker.store_name,
            COMMITS_MISSING,
            shard,
            reason,
            REMEDY,
        )
        self._begin_again()
