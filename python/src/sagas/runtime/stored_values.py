"""Values of open sagas that are not in memory: they are read when a function needs them.

When a shard is loaded, the stored values of its open sagas are checked. The shard is left to
another node if this program cannot decode them. If no other node takes it, the program logs that,
and offers the shard again from time to time.
"""

from __future__ import annotations

import asyncio
from collections.abc import AsyncIterator, Awaitable, Callable, Coroutine, Iterator, Sequence
from typing import Any, TypeVar, cast

from sagas.base.errors import StoreUnavailable
from sagas.base.pauses import doubling_pauses
from sagas.core.shard.batch import LoadedShard
from sagas.core.attempt.instance import StoredValues
from sagas.core.attempt.model import Attempt, RUNNING
from sagas.core.shard.driver import ShardDriver
from sagas.definition.payloads import ABSENT, BlobUnavailable, Reference
from sagas.definition.compiled import CompiledDefinition
from sagas.storage.interface import Database

T = TypeVar("T")
FIRST_PAUSE, MAX_PAUSE = 0.02, 2.0
"""Seconds until the store is asked again: the first and the longest pause."""
AT_ONCE = 4
"""Maximum number of attempts whose values are read at once, to limit the memory."""
INPUT = """
SELECT s.input, (SELECT p.shape FROM shapes p WHERE p.id = s.id) FROM sagas s WHERE s.id = ?
"""
RESULTS = """
SELECT step, value FROM attempts WHERE id = ? AND action = 'run' AND event = 'commit' AND step IN
"""
MANY = 32
"""Number of sagas that are checked in one turn of the loop."""
OFFER_PAUSE = 2.0
"""Seconds between checks whether another node can take the shard."""
REMEDY = "they wait for a program that can. Give new fields a default"


async def until_answered(ask: Callable[[], Awaitable[T]], with_blobs: bool = True) -> T:
    """Repeat a read until the store answers.

    Args:
        ask: The read.
        with_blobs: Whether to retry also if a large value cannot be read. If not, `BlobUnavailable`
            is raised.
    """
    pauses: Iterator[float] | None = None  # most reads are answered at once
    while True:
        try:
            return await ask()
        except StoreUnavailable as error:
            if isinstance(error, BlobUnavailable) and not with_blobs:
                raise
            pauses = pauses or doubling_pauses(FIRST_PAUSE, MAX_PAUSE)
            await asyncio.sleep(next(pauses))


async def values_of(
    store: Database, id: int, steps: Sequence[int], with_blobs: bool = True
) -> StoredValues | None:
    """Return the stored values of a saga with the results of these steps, or None.

    None means that the saga does not exist any more. Without `with_blobs`, values in the blob store
    are returned as references.
    """
    read = store.read if with_blobs else store.read_stored
    rows = await read(INPUT, id)
    marks = ", ".join("?" * len(steps))
    results = await read(f"{RESULTS} ({marks})", id, *steps) if steps else []
    if not rows:
        return None
    text, shape = rows[0]
    return StoredValues(text, shape, {step: value or "null" for step, value in results})


async def input_of(store: Database, id: int, text: str) -> str:
    """Return the input of a saga, given the text of its row.

    The text may be a reference to a blob. Raises `BlobUnavailable`.
    """
    stored = await values_of(store, id, ()) if Reference.of(text) else None
    return text if stored is None else stored.text


class ValueReader:
    """Reads missing values of attempts.

    It retries until the database answers, and retries a blob store a limited number of times.

    Attributes:
        count: How often values were read.
    """

    def __init__(
        self,
        store: Database,
        unread: Callable[[Attempt, BlobUnavailable], None],
    ) -> None:
        """Make a reader. `unread` is called if the blob store does not return a value."""
        self._store, self._slots = store, asyncio.Semaphore(AT_ONCE)
        self._unread = unread
        self.count = 0

    async def fill(self, attempt: Attempt) -> None:
        """Read missing values of an attempt. Raises `BlobUnavailable`."""
        async with self._slots:
            await self._fill(attempt)

    def then(self, attempt: Attempt, go_on: Callable[[Attempt], None]) -> Coroutine[Any, Any, None]:
        """Read missing values of an attempt, and continue it unless it has changed since the call.

        If the attempt waits after that, its values are released.
        """
        return self._then(attempt, attempt.pause_guard(), go_on)

    async def _then(
        self, attempt: Attempt, is_same: Callable[[], bool], go_on: Callable[[Attempt], None]
    ) -> None:
        fault = None
        async with self._slots:
            try:
                await self._fill(attempt)
            except BlobUnavailable as error:
                fault = error
            if is_same():
                self._unread(attempt, fault) if fault else go_on(attempt)
            attempt.instance.release()

    async def _fill(self, attempt: Attempt) -> None:
        if not attempt.lacks_values():
            return
        self.count += 1
        instance = attempt.instance
        steps = [number for number, _ in attempt.action.needed_results] + [attempt.step]
        stored = await until_answered(
            lambda: values_of(self._store, instance.id, steps), with_blobs=False
        )
        if stored is not None:  # otherwise the saga and the attempt are gone
            instance.fill(stored, attempt.results)


async def unreadable_sagas(
    kinds: Sequence[CompiledDefinition], rows: LoadedShard, store: Database
) -> AsyncIterator[str]:
    """Yield the first unreadable value of each open saga, or a function that is missing.

    Values in a blob store are not checked. They are read when a function needs them.
    """
    results: dict[int, dict[int, str]] = {}
    for id, step, word, _, outcome, value, _ in rows.results:
        if outcome in ("commit", "ok") and word == "run":
            results.setdefault(id, {})[step] = value or "null"
    for count, (id, key, index, input, _, _, shape, _) in enumerate(rows.open):
        kind, text = kinds[index], cast("str | None", input)
        if count % MANY == MANY - 1:
            await asyncio.sleep(0)
        if kind.missing_function is not None:
            yield f"saga {kind.name!r}, key {key!r}, {kind.missing_function}"
            continue
        if not kind.reads:
            continue
        known = results.get(id, {})
        if ABSENT in (text, shape, *known.values()):
            lacking = [step for step, value in known.items() if value == ABSENT]
            stored = await until_answered(lambda: values_of(store, id, lacking, with_blobs=False))
            if stored is None:
                continue
            text = None if Reference.of(stored.text) else stored.text
            shape = None if stored.shape is None or Reference.of(stored.shape) else stored.shape
            known = {**known, **stored.results}
            known = {step: value for step, value in known.items() if not Reference.of(value)}
        is_here = shape is not None and shape != ABSENT and not Reference.of(shape)
        if why := kind.unread(text, known, shape if is_here else None):
            yield f"saga {kind.name!r}, key {key!r}, {why}"


def is_at_work(driver: ShardDriver) -> bool:
    """Return whether a function runs that another node would call again."""
    attempts = (attempt for saga in driver.sagas.values() for attempt in saga.busy.values())
    return any(attempt.state is RUNNING for attempt in attempts)
