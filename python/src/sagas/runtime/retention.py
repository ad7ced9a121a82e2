"""Deletes ended sagas after their retention, and large values that no row refers to any more.

A whole closed shard is deleted when the retention of all its sagas is over. Of the other shards,
single families are deleted: a saga that no other saga started, with all sagas below it. Their
events stay in the event log until the shard is deleted. If an archive directory is given, shards
and families are exported first.

A shard is deleted only if its audit succeeded, no `on_end` call of its sagas is due, and no family
has sagas in shards that stay. A stuck saga, or one with a compensation that failed permanently,
counts as ended once an operator has resolved it. The key of a deleted saga is free again. Each
shard and each batch of families is deleted in its own transaction, on its own connection, and
followed by an equally long pause. So a start waits for at most one of them in a file. In PostgreSQL
it does not wait, because other rows are touched.
"""

from __future__ import annotations

import asyncio
import dataclasses
import os
import pathlib
import threading
import time
from collections.abc import Callable
from typing import TYPE_CHECKING, Any

from sagas.base.errors import SagasError
from sagas.base.logger import logger
from sagas.base.wording import number
from sagas.definition.capacity import SHARD_CAPACITY
from sagas.storage import (
    admin,
    archive,
    blob_layer,
    families,
    family_archive,
    store_decisions,
)
from sagas.storage.admin import Source
from sagas.storage.queries import END_DUE, RESOLVABLE

if TYPE_CHECKING:
    from sagas.runtime.coordinator import Coordinator
    from sagas.storage.blob_layer import BlobDatabase

MAX_SAGAS = 100_000
"""Maximum number of sagas that one run deletes."""
HOUR, SOON = 3600.0, 60.0
"""Seconds until the next run: if nothing more is due, and if there is more."""

WITHIN = f"s.id >= l.shard * {SHARD_CAPACITY} AND s.id < (l.shard + 1) * {SHARD_CAPACITY}"
IS_OVER = f"""
l.closed = 1 AND NOT EXISTS (
  SELECT 1 FROM sagas s WHERE {WITHIN} AND (s.phase IS NULL OR s.ended >= ?
    OR (s.note IS NULL AND {RESOLVABLE}) OR {END_DUE}))
"""
OVER = f"SELECT l.shard FROM shards l WHERE {IS_OVER}"
SHARD = f"""
SELECT l.name, (SELECT count(*) FROM sagas s WHERE {WITHIN}) FROM shards l
WHERE l.shard = ? AND {IS_OVER}
"""
PARENTS = f"""
SELECT DISTINCT c.id / {SHARD_CAPACITY}, c.parent / {SHARD_CAPACITY}
FROM children c JOIN sagas p ON p.id = c.parent
WHERE c.id / {SHARD_CAPACITY} <> c.parent / {SHARD_CAPACITY}
"""
"""The shards of children, each with an existing shard of their parents."""
OF_SAGAS = (
    *(text.format(ids=families.IS_WITHIN) for text in families.OF_SAGAS),
    f"DELETE FROM deleted_sagas WHERE {families.IS_WITHIN}",
)
IS_DAMAGED = "(closed = 2 OR (closed = 0 AND audit IS NOT NULL))"
OF_LOG = (
    "DELETE FROM event_log WHERE shard = ?",
    "DELETE FROM shard_definitions WHERE shard = ?",
)
DAY = 86_400.0
"""Seconds between two sweeps of blobs. Between two checks of the blob store's owner is an hour."""
COPY = (
    "%s: the values in the blob store belong to %s, and this store is a copy of it. No value is "
    "deleted. Give this store its own blob store, with a copy of the values. Or run `sagas store "
    "STORE own-blobs --blobs ...` if this store replaces the original"
)


@dataclasses.dataclass
class Pruned:
    """What a run has deleted.

    Attributes:
        logs: The names of the shards.
        sagas: How many sagas were deleted: those of the shards, and those of families.
        families: How many families of other shards.
        family_sagas: How many sagas these families had.
        more: Whether further sagas are due, for another run.
        other: Whether another program is pruning now.
        blobs: Blobs that no row refers to any more.
        starts: How many refused starts of clients.
    """

    logs: list[str] = dataclasses.field(default_factory=list)
    sagas: int = 0
    families: int = 0
    family_sagas: int = 0
    more: bool = False
    other: bool = False
    blobs: list[str] = dataclasses.field(default_factory=list)
    starts: int = 0


@dataclasses.dataclass(frozen=True)
class Run:
    """One run: its connection, and what it may delete.

    Attributes:
        link: The connection.
        before: Sagas that ended before this time are deleted, in seconds since 1970.
        export: The archive directory, if there is one.
        max_sagas: Maximum number of sagas.
        has_blobs: Whether the store has a blob store.
        stop: Ends the run after the current transaction.
        pruned: What it has deleted.
    """

    link: Source
    before: float
    export: str | os.PathLike[str] | None
    max_sagas: int
    has_blobs: bool
    stop: threading.Event
    pruned: Pruned

    @property
    def blobs(self) -> list[str] | None:
        """Return the list of blobs that no row refers to any more, if there are blobs."""
        return self.pruned.blobs if self.has_blobs else None

    def has_room(self, count: int) -> bool:
        """Return whether the run may delete this number of sagas more; else note it."""
        self.pruned.more = self.pruned.more or self.pruned.sagas + count > self.max_sagas
        return not self.pruned.more

    def pause(self, began: float) -> None:
        """Wait as long as the last work took, by the monotonic clock."""
        self.stop.wait(time.monotonic() - began)


def prune(
    name: str,
    keep: float,
    export: str | os.PathLike[str] | None = None,
    *,
    max_sagas: int = MAX_SAGAS,
    has_blobs: bool = False,
    clock: Callable[[], float] = time.time,
    stop: threading.Event | None = None,
) -> Pruned:
    """Delete sagas that ended more than `keep` seconds ago, at most `max_sagas` of them.

    Whole shards are deleted first, and then families of other shards. Call it in a thread. The time
    is the earlier one of `clock` and of the store's clock, so that a clock that is set forward
    deletes nothing. With `export`, each shard (`archive.write`) and each family
    (`family_archive.append`) is written there and synced before it is deleted. `stop` ends the run
    after the current transaction.

    Raises `Trouble`, `StoreUnavailable`, `InvalidStore`, and `OSError` of the export. Then what
    was deleted before is deleted, and the rest is complete.
    """
    pruned, stop = Pruned(), stop or threading.Event()
    with admin.writing(name) as link:
        if not link.take_prune_lock():
            pruned.other = True
            return pruned
        link.migrate()
        before = min(clock(), link.now()) - keep
        run = Run(link, before, export, max_sagas, has_blobs, stop, pruned)
        prune_shards(run)
        prune_families(run)
        pruned.starts = link.drop_refused(before)
        store_decisions.drop_old(link, before)
        if pruned.logs:
            link.drop_definitions()
    return pruned


def prune_shards(run: Run) -> None:
    """Delete the closed shards whose sagas are all due."""
    link, pruned = run.link, run.pruned
    for shard in _due_shards(link, run.before):
        rows = link.ask(SHARD, shard, run.before)
        if run.stop.is_set():
            return
        if not rows:
            continue
        ((log, sagas),) = rows
        if not run.has_room(sagas):
            return
        if run.export is not None:
            if archive.write(link, shard, pathlib.Path(run.export)) is None:
                continue  # another program has deleted it
        began = time.monotonic()
        if _delete(link, shard, run.blobs):
            pruned.logs.append(log)
            pruned.sagas += sagas
        run.pause(began)


def _due_shards(link: Source, before: float) -> list[int]:
    """Return the shards to delete, in this order: those of children before those of parents.

    A shard is left out if a family has sagas in it and in a shard that is not over, or if no order
    is right because two shards have children of each other. Their families are deleted one by one.
    """
    pairs = link.ask(PARENTS)
    due = {shard for (shard,) in link.ask(OVER, before)}
    while kept := {shard for pair in pairs if not due.issuperset(pair) for shard in pair} & due:
        due -= kept
    ordered = list[int]()
    while ready := due - {parent for child, parent in pairs if child in due}:
        ordered += sorted(ready)
        due -= ready
    return ordered


def prune_families(run: Run) -> None:
    """Delete the families whose sagas are all due, in the order of the ids of their roots."""
    link, after = run.link, -1
    while not run.stop.is_set():
        began = time.monotonic()
        end = families.page_end(link, after)
        if end is None:
            return
        roots = families.due_roots(link, after, end, run.before)
        after = end
        run.pause(began)
        for first in range(0, len(roots), families.MAX_ROOTS):
            chunk = roots[first : first + families.MAX_ROOTS]
            for batch in families.batches(link, chunk, run.before):
                if run.stop.is_set() or not run.has_room(len(batch.ids)):
                    return
                _prune_batch(run, batch)


def _prune_batch(run: Run, batch: families.Batch) -> None:
    """Export and delete a batch of families."""
    if run.export is not None:
        family_archive.append(run.link, batch.ids, pathlib.Path(run.export))
    began = time.monotonic()
    deleted = families.delete(run.link, batch, run.before, run.blobs)
    run.pruned.families += deleted.family_count
    run.pruned.family_sagas += len(deleted.ids)
    run.pruned.sagas += len(deleted.ids)
    run.pause(began)


def _delete(link: Source, log: int, blobs: list[str] | None) -> bool:
    """Delete a shard and all its rows, except blobs.

    Returns:
        False if another program has deleted it.
    """
    left = link.atomically(lambda: _delete_rows(link, log, blobs is not None))
    if blobs is not None and left:
        blobs += left
    return left is not None


def _delete_rows(link: Source, log: int, has_blobs: bool) -> list[str] | None:
    """Delete a shard in a transaction of the caller.

    Returns:
        The keys of its blobs; None if another program has deleted it.
    """
    if not link.changed("DELETE FROM shards WHERE shard = ? AND closed = 1", log):
        return None
    ids = log * SHARD_CAPACITY, (log + 1) * SHARD_CAPACITY
    left = (
        blob_layer.referred(link.ask(blob_layer.REFERRED, *blob_layer.within(*ids)))
        if has_blobs
        else []
    )
    for text in OF_SAGAS:
        link.changed(text, *ids)
    for text in OF_LOG:
        link.changed(text, log)
    return [*left]


def delete_damaged(name: str, log: int, export: str | os.PathLike[str] | None) -> int:
    """Delete the sagas of a damaged shard, and return how many there were.

    A shard is damaged if no program can open it, or if its audit failed. Raises `Trouble` if the
    shard is not damaged, and the errors of `prune`.
    """
    with admin.writing(name) as link:
        link.migrate()
        if not link.ask(f"SELECT 1 FROM shards WHERE shard = ? AND {IS_DAMAGED}", log):
            raise admin.Trouble(
                f"shard {log} is not damaged. `sagas store {link.name} audit` lists the shards"
            )
        if export is not None:
            archive.write(link, log, pathlib.Path(export))
        count = link.atomically(lambda: _delete_damaged_rows(link, log))
        link.drop_definitions()
    return count


def _delete_damaged_rows(link: Source, log: int) -> int:
    """Delete a damaged shard in a transaction of the caller; return the number of its sagas."""
    if not link.changed(f"DELETE FROM shards WHERE shard = ? AND {IS_DAMAGED}", log):
        raise admin.Trouble(f"shard {log} is not damaged any more")
    ids = log * SHARD_CAPACITY, (log + 1) * SHARD_CAPACITY
    count = link.ask("SELECT count(*) FROM sagas WHERE id >= ? AND id < ?", *ids)[0][0]
    for text in OF_SAGAS:
        link.changed(text, *ids)
    for text in OF_LOG:
        link.changed(text, log)
    return int(count)


async def keep(
    coordinator: Coordinator, name: str, seconds: float, export: str | os.PathLike[str] | None
) -> None:
    """Delete due sagas at the opening and then each hour, until cancelled.

    If the retention is shorter than a day, it runs more often.
    """
    blobs = coordinator.store.blobs
    while True:
        stop = threading.Event()
        options: dict[str, Any] = {
            "clock": coordinator.clock,
            "stop": stop,
            "has_blobs": blobs is not None,
        }
        work = asyncio.ensure_future(asyncio.to_thread(prune, name, seconds, export, **options))
        try:
            pruned = await asyncio.shield(work)
            if blobs is not None:  # after the rows that referred to them
                await blobs.delete(pruned.blobs)
            _report(coordinator, pruned)
            pause = SOON if pruned.more else HOUR
        except asyncio.CancelledError:  # the store is closed after the current transaction
            stop.set()
            await asyncio.wait([work])
            work.exception()  # ignored: the next opening continues
            raise
        except (SagasError, admin.Trouble, OSError) as error:
            logger.warning(
                "%s: ended sagas could not be deleted: %s", coordinator.store.path, error
            )
            pause = HOUR
        await asyncio.sleep(min(pause, max(1.0, seconds / 24)))


def _report(coordinator: Coordinator, pruned: Pruned) -> None:
    """Emit the events of a run that has deleted something."""
    shard_sagas = pruned.sagas - pruned.family_sagas
    if pruned.logs:
        detail = f"{number(len(pruned.logs), 'shard')}, {number(shard_sagas, 'saga')}"
        coordinator.teller.emit("shards_pruned", detail=detail)
    if pruned.family_sagas:
        families_text = number(pruned.families, "family", "families")
        detail = f"{families_text}, {number(pruned.family_sagas, 'saga')}"
        coordinator.teller.emit("sagas_pruned", detail=detail)


async def sweep_blobs(database: BlobDatabase) -> None:
    """Delete orphaned blobs when the store opens, and then once a day.

    Each hour it checks whether the blob store belongs to this store or to the original of a copy.
    It runs until it is cancelled.
    """
    loop, blobs, warned_name = asyncio.get_running_loop(), database.blobs, ""
    due = loop.time()
    while True:
        try:
            if loop.time() < due:
                await blobs.is_own()
            else:
                count = await database.swept()
                due = loop.time() + (DAY if blobs.other is None else 0)
                if count:
                    logger.info("deleted %s without a row", number(count, "blob"))
            if blobs.other is not None and blobs.other.name != warned_name:
                warned_name = blobs.other.name
                logger.warning(COPY, database.path, warned_name)
        except SagasError as error:
            logger.warning("blobs without a row could not be deleted: %s", error)
        await asyncio.sleep(HOUR)
