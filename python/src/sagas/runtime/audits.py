"""The background audit of finished shards."""

from __future__ import annotations

import asyncio
from collections.abc import Callable

from sagas.base import program
from sagas.base.errors import EngineError, SagasError, ShardLost
from sagas.base.events import EventEmitter
from sagas.base.pauses import doubling_pauses
from sagas.core.shard.batch import Batch
from sagas.core.shard.driver import ShardDriver
from sagas.definition.capacity import HEADER
from sagas.runtime.commit_queue import CommitQueue
from sagas.storage import queries
from sagas.storage.interface import Database

ALL_SHARDS = "SELECT shard, name FROM shards ORDER BY shard"
FIRST_PAUSE, MAX_PAUSE = 1.0, 300.0
"""Seconds until a shard that could not be closed is tried again: the first and the longest pause.
"""


async def verdict(program_path: str, text: str, definitions: list[str]) -> tuple[bool, str]:
    """Return whether `sagas audit` accepts an event log, and its message.

    Args:
        program_path: The program `sagas`.
        text: The event log, without the header.
        definitions: The definitions of the shard.

    Raises:
        EngineError: The program returned no verdict, for example because it was killed.
    """
    process = await asyncio.to_thread(
        program.run, "audit", [HEADER + text, *definitions], program_path
    )
    message = (process.stdout + process.stderr).strip()
    if process.returncode < 0 or process.returncode == program.SYSTEM_ERROR_STATUS:
        raise EngineError(
            f"sagas audit exited with status {process.returncode}: {message or 'it was killed'}"
        )
    return process.returncode == 0, message


class Auditor:
    """Audits finished shards in the background, one at a time."""

    def __init__(
        self,
        store: Database,
        program: str,
        commits: CommitQueue,
        clock: Callable[[], float],
        teller: EventEmitter,
    ) -> None:
        self._store, self._program, self._commits = store, program, commits
        self._clock, self._teller = clock, teller
        self._turn = asyncio.Semaphore(1)

    async def close(self, driver: ShardDriver) -> None:
        """Audit a finished shard, and mark it as closed.

        If the shard cannot be read, audited or written, the auditor retries with longer pauses.
        """
        pauses = doubling_pauses(FIRST_PAUSE, MAX_PAUSE)
        while True:
            try:
                await self._close(driver)
            except ShardLost:  # another node owns the shard
                return
            except (SagasError, OSError) as error:
                detail = f"shard {driver.name} could not be closed yet: {error}"
                self._teller.emit("commit_failed", detail=detail)
                await asyncio.sleep(next(pauses))
            else:
                self._teller.emit("shard_closed", detail=driver.name)
                return

    async def _close(self, driver: ShardDriver) -> None:
        async with self._turn:
            text = await self._store.text(driver.number)
            is_good, message = await verdict(self._program, text, driver.identity.definitions.texts)
        if not is_good:
            self._teller.emit("audit_failed", detail=f"shard {driver.name}: {message}")
        batch = Batch(driver.number, self._clock(), epoch=driver.epoch)
        batch.rare_rows.closed = 1 if is_good else 2, message
        await self._commits.kept(batch)

    async def all_shards(self) -> dict[str, str]:
        """Return the verdict of each shard by its name."""
        verdicts = {}
        for number, name in await self._store.read(ALL_SHARDS):
            text = await self._store.text(number)
            texts = [text for _, text in await self._store.read(queries.TEXTS, number, number)]
            _, verdicts[name] = await verdict(self._program, text, texts)
        return verdicts
