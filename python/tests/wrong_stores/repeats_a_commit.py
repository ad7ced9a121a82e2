"""A commit whose reply was lost is made again."""

from __future__ import annotations

import asyncio
from collections.abc import Sequence

from sagas.base.errors import StoreUnavailable
from sagas.core.shard.batch import Batch
from sagas.storage.interface import CommitCallback
from sagas.storage.postgresql.storage import PostgreSQL

FINDS = {"illegal", "audit", "gap", "results", "end"}
STRIKES = "relay"
MOMENT = "the_answer_to_a_commit_is_lost"


def apply() -> None:
    """Append the same lines again."""
    right, jobs = PostgreSQL.commit, set[asyncio.Task[None]]()

    def commit(self: PostgreSQL, batches: Sequence[Batch], then: CommitCallback, now: bool) -> None:
        async def again() -> None:
            for log in {batch.shard for batch in batches if batch.text}:
                mine = [batch for batch in batches if batch.shard == log and batch.text]
                taken = await self.take_up(log, mine[0].epoch)
                at = taken[1] if taken else mine[0].first
                for batch in mine:
                    batch.first, at = at, at + batch.text.count("\n")
            right(self, batches, then, now)

        def reported(
            batches: Sequence[Batch], fault: BaseException | None, lost: frozenset[int]
        ) -> None:
            if isinstance(fault, StoreUnavailable):
                job = asyncio.get_running_loop().create_task(again())
                jobs.add(job)
                job.add_done_callback(jobs.discard)
            else:
                then(batches, fault, lost)

        right(self, batches, reported, now)

    setattr(PostgreSQL, "commit", commit)
