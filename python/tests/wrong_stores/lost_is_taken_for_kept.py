"""The statement writes nothing of a log that is another node's, and its reply is ignored."""

from __future__ import annotations

from collections.abc import Sequence

from sagas.core.shard.batch import Batch
from sagas.storage.interface import CommitCallback
from sagas.storage.postgresql.storage import PostgreSQL
from sagas.storage.postgresql.writer import NONE

FINDS = {"told-early", "begun-early", "lost", "told-otherwise", "wrong-attempt", "effect-lost"}
STRIKES = "sleep"
MOMENT = "another_node_has_the_log"


def apply() -> None:
    """Report each log as written."""
    right = PostgreSQL.commit

    def commit(self: PostgreSQL, batches: Sequence[Batch], then: CommitCallback, now: bool) -> None:
        right(self, batches, lambda batches, fault, lost: then(batches, fault, NONE), now)

    setattr(PostgreSQL, "commit", commit)
