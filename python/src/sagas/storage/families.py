"""Families: a saga that no other saga started, with all sagas below it.

Retention deletes families of shards that remain. A family is deleted as a whole: its sagas read
each other while they are open, and the keys of descendants are below the key of the root. The rows
of a saga are replaced by a mark in `deleted_sagas`, and its events stay in the event log of its
shard. So in an audit, a deleted saga differs from one whose rows were lost.
"""

from __future__ import annotations

import itertools
from collections.abc import Iterator, Sequence
from typing import Any, NamedTuple

from sagas.definition.capacity import SHARD_CAPACITY
from sagas.storage import blob_layer
from sagas.storage.admin import Row, Source
from sagas.storage.queries import END_DUE, LOCKED, RESOLVABLE

MAX_ROOTS = 200
"""Maximum number of families of one transaction."""
MAX_SAGAS = 1000
"""Maximum number of sagas of one transaction, as of a shard.

A larger family is deleted in several transactions, from its last descendants up.
"""
PAGE = 4096
"""Number of sagas that one query looks at."""
IDS = 100
"""Number of ids that one statement names."""

IN_IDS = f"IN ({', '.join('?' * IDS)})"
IS_WITHIN = "id >= ? AND id < ?"
"""The condition for the sagas of a shard, with the parameters of `queries.bounds`."""

IS_DUE = f"""
s.phase IS NOT NULL AND s.ended < ? AND NOT (s.note IS NULL AND {RESOLVABLE}) AND NOT {END_DUE}
AND EXISTS (SELECT 1 FROM shards l WHERE l.shard = s.id / {SHARD_CAPACITY}
  AND (l.closed = 1 OR l.closed = 0 AND l.audit IS NULL))
AND NOT EXISTS (SELECT 1 FROM external_attempts x WHERE x.id = s.id AND (x.outcome IS NULL
  OR x.outcome IN ('succeeded', 'failed', 'failed_permanently', 'unknown')))
AND NOT EXISTS (SELECT 1 FROM operator_commands x WHERE x.key = s.key AND x.answer IS NULL)
AND s.id NOT IN (SELECT x.saga FROM webhook_deliveries x WHERE x.state = 'pending')
"""
"""Whether a saga `s` ended before a time, and nothing needs its rows any more.

Rows are needed by an operator, by the call of `on_end`, by a worker that has an attempt or whose
report no commit has handled, by a request without an answer, and by a webhook. Nothing of a damaged
shard is due, because an operator has to look at it.
"""
IS_ROOT = """NOT EXISTS (
  SELECT 1 FROM children c JOIN sagas p ON p.id = c.parent WHERE c.id = s.id)"""
"""Whether a saga `s` has no parent, or has lost it to a release that deleted only whole shards."""
PAGE_END = "SELECT max(id) FROM (SELECT id FROM sagas WHERE id > ? ORDER BY id LIMIT ?) page"
ROOTS = f"""
SELECT s.id FROM sagas s WHERE s.id > ? AND s.id <= ? AND {IS_DUE} AND {IS_ROOT} ORDER BY s.id
"""
TREES = f"""
WITH RECURSIVE tree(root, depth, id) AS (
  SELECT id, 0, id FROM sagas WHERE id {IN_IDS}
  UNION ALL SELECT t.root, t.depth + 1, c.id FROM tree t JOIN children c ON c.parent = t.id)
SELECT t.root, t.depth, s.id, CASE WHEN {IS_DUE} THEN 1 ELSE 0 END
FROM tree t JOIN sagas s ON s.id = t.id ORDER BY t.root, t.depth DESC, s.id
"""
LOCK = f"SELECT s.id FROM sagas s WHERE s.id {IN_IDS} ORDER BY s.id {LOCKED}"
"""Locks rows in the order in which an erasure locks them."""
STILL_DUE = f"SELECT s.id FROM sagas s WHERE s.id {IN_IDS} AND {IS_DUE}"
CHILDREN = (
    f"SELECT c.parent, c.id FROM children c JOIN sagas s ON s.id = c.id WHERE c.parent {IN_IDS}"
)
MARK = f"""
INSERT INTO deleted_sagas(id, definition_index, phase, recovered, undo_failed, ended, deleted_at)
SELECT id, definition_index, phase, recovered, undo_failed, ended, ? FROM sagas WHERE id {IN_IDS}
"""
OF_SAGAS = (
    "DELETE FROM operator_commands WHERE key IN (SELECT key FROM sagas WHERE {ids})",
    "DELETE FROM labels WHERE {ids}",
    "DELETE FROM shapes WHERE {ids}",
    "DELETE FROM children WHERE {ids}",
    "DELETE FROM attempts WHERE {ids}",
    "DELETE FROM suspensions WHERE {ids}",
    "DELETE FROM attempt_spans WHERE {ids}",
    "DELETE FROM progress WHERE {ids}",
    "DELETE FROM external_attempts WHERE {ids}",
    "DELETE FROM sagas WHERE {ids}",
)
"""Delete the rows of sagas. `ids` is a condition on their ids."""
OF_IDS = tuple(text.format(ids=f"id {IN_IDS}") for text in OF_SAGAS)
REFERRED = blob_layer.REFERRED_BY.format(ids=f"id {IN_IDS}")

Ids = Sequence[int]


class Batch(NamedTuple):
    """What one transaction deletes.

    Attributes:
        groups: The sagas of each family, or a part of one large family.
        family_count: How many families end with it.
    """

    groups: list[list[int]]
    family_count: int

    @property
    def ids(self) -> list[int]:
        """Return all of its sagas."""
        return [id for group in self.groups for id in group]


def page_end(link: Source, after: int) -> int | None:
    """Return the last id of the page of sagas after an id; None if there are no more."""
    ((end,),) = link.ask(PAGE_END, after, PAGE)
    return None if end is None else int(end)


def due_roots(link: Source, after: int, end: int, before: float) -> list[int]:
    """Return the roots that are due, of the sagas after an id up to another one.

    Args:
        link: The connection.
        after: The id before the page.
        end: The last id of the page.
        before: They ended before this time, in seconds since 1970.
    """
    return [id for (id,) in link.ask(ROOTS, after, end, before)]


def batches(link: Source, roots: Ids, before: float) -> Iterator[Batch]:
    """Yield the families of these roots in batches, if all of their sagas are due.

    Args:
        link: The connection.
        roots: Ids of due roots.
        before: Each saga ended before this time, in seconds since 1970.
    """
    batch, size = Batch([], 0), 0
    for family in _families(link, roots, before):
        if size and size + len(family) > MAX_SAGAS:
            yield batch
            batch, size = Batch([], 0), 0
        while len(family) > MAX_SAGAS:
            part, family = family[:MAX_SAGAS], family[MAX_SAGAS:]
            yield Batch([part], 0)
        batch = Batch([*batch.groups, family], batch.family_count + 1)
        size += len(family)
    if batch.groups:
        yield batch


def _families(link: Source, roots: Ids, before: float) -> Iterator[list[int]]:
    """Yield the sagas of each family if all of them are due, descendants first."""
    rows = _rows(link, TREES, roots, before)
    for _, members in itertools.groupby(rows, key=lambda row: int(row[0])):
        family = [*members]
        if all(is_due for *_, is_due in family):
            yield [id for _, _, id, _ in family]


def delete(link: Source, batch: Batch, before: float, blobs: list[str] | None) -> Batch:
    """Delete sagas, and mark them as deleted, in one transaction.

    A family is left out if it is not due any more.

    Args:
        link: The connection.
        batch: The sagas.
        before: They ended before this time, in seconds since 1970.
        blobs: The keys of the large values of deleted sagas are added here, once the rows are
            deleted; None if the store has no blob store.

    Returns:
        What was deleted.
    """
    deleted, referred = link.atomically(
        lambda: _delete_rows(link, batch, before, blobs is not None)
    )
    if blobs is not None:
        blobs += referred
    return deleted


def _delete_rows(
    link: Source, batch: Batch, before: float, has_blobs: bool
) -> tuple[Batch, list[str]]:
    """Delete sagas in a transaction of the caller; see `delete`.

    Returns:
        What was deleted, and the keys of its large values.
    """
    _rows(link, LOCK, batch.ids)  # the next statements see what was written before the locks
    due = {id for (id,) in _rows(link, STILL_DUE, batch.ids, before)}
    children = _rows(link, CHILDREN, batch.ids)
    groups = [group for group in batch.groups if _is_whole(group, due, children)]
    left_count = len(batch.groups) - len(groups)
    deleted = Batch(groups, max(0, batch.family_count - left_count))
    ids = deleted.ids
    referred = [*blob_layer.referred(_referred(link, ids))] if has_blobs else []
    _mark(link, ids, link.now())
    for text in OF_IDS:
        for chunk in chunks(ids):
            link.changed(text, *chunk)
    return deleted, referred


def _is_whole(group: Ids, due: set[int], children: Sequence[Row]) -> bool:
    """Return whether all of a group is due, with all that is below it."""
    members = {*group}
    return members <= due and not any(
        parent in members and id not in members for parent, id in children
    )


def _mark(link: Source, ids: Ids, at: float) -> None:
    """Write the marks of sagas, whose rows are deleted next."""
    for chunk in chunks(ids):
        link.changed(MARK, at, *chunk)


def _referred(link: Source, ids: Ids) -> Iterator[Row]:
    """Yield the values of sagas that refer to a blob store."""
    for chunk in chunks(ids):
        yield from link.ask(REFERRED, *(*chunk, blob_layer.PATTERN) * 3)


def _rows(link: Source, text: str, ids: Ids, *more: Any) -> list[Row]:
    """Return the rows of a query on ids, whose further parameters follow the ids."""
    return [row for chunk in chunks(ids) for row in link.ask(text, *chunk, *more)]


def chunks(ids: Ids) -> Iterator[Ids]:
    """Yield the ids in chunks of `IDS`. The last one repeats its last id."""
    ordered = sorted(ids)
    for first in range(0, len(ordered), IDS):
        chunk = ordered[first : first + IDS]
        yield chunk + chunk[-1:] * (IDS - len(chunk))
