"""Functions are called, and callers and other nodes notified, before the commit."""

from __future__ import annotations

from collections.abc import Sequence
from typing import Any

from sagas.core.shard.batch import Batch
from sagas.storage.interface import CommitCallback
from sagas.storage.postgresql.storage import PostgreSQL
from sagas.storage.postgresql.writer import NONE

FINDS = {"told-early", "begun-early", "lost"}
STRIKES = "nodes"
MOMENT = "the_commit_takes_long"


def apply() -> None:
    """Report the write, and do it then."""
    right = PostgreSQL.commit

    def commit(self: PostgreSQL, batches: Sequence[Batch], then: CommitCallback, now: bool) -> None:
        queue: Any = then.__self__  # type: ignore[attr-defined]
        entries, queue._under_way = queue._under_way, []
        for effects, owner in entries:
            if owner:
                owner.committed(effects)
        right(self, batches, lambda batches, fault, lost: then(batches, None, NONE), now)

    setattr(PostgreSQL, "commit", commit)
