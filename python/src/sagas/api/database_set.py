"""The databases of a store over several: which are open, and which has a key.

It holds a store or a client for each database, routes each call by its key, and decides nothing
that these decide. `core/database_map.py` has the rule, and the triggers of each database refuse a
start that breaks it.
"""

from __future__ import annotations

import asyncio
import contextlib
import dataclasses
import os
from collections.abc import Awaitable, Callable, Sequence
from typing import Any, Generic, Protocol, TypeVar

from sagas.base.cancellation import cancel_all
from sagas.base.errors import Closed, InvalidStore, NoSuchSaga, SagasError, StoreUnavailable
from sagas.base.logger import logger
from sagas.core.database_map import (
    DatabaseMap,
    MapRead,
    MapRow,
    is_refusal,
    missing_map,
    state_of,
)
from sagas.definition import arguments
from sagas.storage import store_name
from sagas.storage.store_name import FORM
from sagas.storage.record_file import record_path

T = TypeVar("T")
PAUSE = 2.0
"""Seconds between two reads of the map of each database."""
PATIENCE = 5.0
"""Seconds that a database has for the read of its map."""


class Member(Protocol):
    """What the set needs of the store or client of one database."""

    async def __aenter__(self) -> Any:
        """Open it."""

    async def close(self) -> None:
        """Close it."""

    async def _has_key(self, key: str) -> bool:
        """Return whether the database has a saga, or a start, with this key."""

    async def _read_map(self) -> MapRow | None:
        """Return the map of the database. Raises `StoreUnavailable`."""


M = TypeVar("M", bound=Member)


def is_several(path: object) -> bool:
    """Return whether the argument of `open` or `Client` names several databases."""
    return isinstance(path, Sequence) and not isinstance(path, (str, bytes))


def checked_urls(urls: Sequence[object]) -> list[str]:
    """Return the URLs of the databases. Raises `InvalidStore`."""
    for url in urls:
        if not isinstance(url, str) or not store_name.supports_nodes(url):
            raise InvalidStore(
                f"{arguments.shown(url)}: this is not a URL of a PostgreSQL database. Write {FORM}"
            )
    return [str(url) for url in urls]


def checked_direct(direct_url: object, count: int) -> list[str | None]:
    """Return the URL of each server, or None for each.

    Raises `ValueError` if there is not one for each database.
    """
    if direct_url is None:
        return [None] * count
    urls = [direct_url] if isinstance(direct_url, str) else direct_url
    if not isinstance(urls, Sequence) or len(urls) != count:
        raise ValueError(f"direct_url: must have {count} URLs, one for each database, in order")
    return [*urls]


def numbered(path: str | os.PathLike[str] | None, index: int) -> str | None:
    """Return the record file of a database: the name with the number of the database."""
    name = record_path(arguments.record(path))
    return None if name is None else f"{name}.{index + 1}"


class DatabaseSet(Generic[M]):
    """The members of a store over several databases.

    Attributes:
        urls: The URL of each database, as the caller names them.
        names: The same, without passwords.
        members: The store or client of each.
    """

    def __init__(
        self, urls: Sequence[str], members: Sequence[M], direct: Sequence[str | None] = ()
    ) -> None:
        """Compose the members of a store.

        Args:
            urls: The URL of each database.
            members: The store or client of each.
            direct: The URL of each server, if `urls` are those of poolers, else None.
        """
        from sagas.storage.postgresql import map_changes

        self.urls, self.members = [*urls], [*members]
        servers = [*direct] or [None] * len(self.urls)
        self._servers = [server or url for server, url in zip(servers, self.urls)]
        self.enter: Callable[[M], Awaitable[object]] = lambda member: member.__aenter__()
        """Opens a member."""
        self.leave: Callable[[M], Awaitable[object]] = lambda member: member.close()
        """Closes a member."""
        self.joined: Callable[[M], object] = lambda member: None
        """Is called with each member that was opened."""
        self.names = map_changes.named(urls)
        self._map: DatabaseMap | None = None
        self._faults: dict[int, str] = {}  # of databases that are not open, or do not answer
        self._reverted: dict[int, str] = {}  # of databases whose map went back
        self._away = [asyncio.Event() for _ in self.urls]
        self._open: set[int] = set()
        self._opening: set[int] = set()
        self._jobs: set[asyncio.Task[Any]] = set()
        self._reading, self._begun_reads = asyncio.Lock(), 0

    # -- life

    async def open(self, is_node: bool) -> None:
        """Read the map, and open each database that answers.

        Args:
            is_node: Whether the map is created, if the databases are empty.

        Raises:
            InvalidStore: The databases are not those of the store, in its order.
            StoreUnavailable: None of them answers. Or the map does not exist yet, and one does not
                answer.
        """
        from sagas.storage.postgresql import map_changes

        reads = await asyncio.to_thread(map_changes.read_all, self._servers, self.names)
        state = state_of(reads, self.names)
        if state is None:
            if not is_node:
                raise missing_map(self.names[0])
            await asyncio.to_thread(map_changes.create, self._servers, logger.warning)
            reads = await asyncio.to_thread(map_changes.read_all, self._servers, self.names)
            state = state_of(reads, self.names)
        assert state is not None
        self._map = state.map
        await self._open_all(reads)
        self._spawn(self._watch())

    async def _open_all(self, reads: Sequence[MapRead]) -> None:
        positions = [index for index, read in enumerate(reads) if isinstance(read, MapRow)]
        for index, read in enumerate(reads):
            if isinstance(read, StoreUnavailable):
                self._fail(index, str(read))
        results = await asyncio.gather(
            *(self._open_member(index) for index in positions), return_exceptions=True
        )
        for result in results:
            if isinstance(result, BaseException):
                await self.close()
                raise result
        if not self._open:
            raise StoreUnavailable("; ".join(self._faults.values()))

    async def _open_member(self, index: int) -> None:
        """Open a database. If it does not answer, it is opened later."""
        try:
            await self.enter(self.members[index])
        except StoreUnavailable as error:
            self._fail(index, str(error))
        else:
            self._open.add(index)
            self._recover(index)
            self.joined(self.members[index])

    async def close(self, leave: Callable[[M], Awaitable[object]] | None = None) -> None:
        """Close all members.

        Args:
            leave: Closes one (default: `leave` of the set).
        """
        jobs, self._jobs = self._jobs, set()
        await cancel_all(jobs)
        members, self._open = self.opened(), set()
        leave = leave or self.leave
        results = await asyncio.gather(*map(leave, members), return_exceptions=True)
        self._map = None
        for result in results:
            if isinstance(result, BaseException):
                raise result

    def _spawn(self, work: Any) -> None:
        job = asyncio.get_running_loop().create_task(work)
        self._jobs.add(job)
        job.add_done_callback(self._jobs.discard)

    # -- what is known of the databases

    @property
    def is_open(self) -> bool:
        """Whether the map was read, and the store is not closed."""
        return self._map is not None

    @property
    def map(self) -> DatabaseMap:
        """The map. Raises `Closed` if the store is not open."""
        if self._map is None:
            raise Closed(f"{self.names[0]}: the store is not open. Use `async with`")
        return self._map

    @property
    def all_names(self) -> list[str]:
        """The names of all databases: of those that this program was opened with, as it has them.

        The map has the names that `map add` got, which may have another user or host.
        """
        return [*self.names, *self.map.names[len(self.names) :]]

    @property
    def unavailable(self) -> dict[str, str]:
        """Why each database that cannot be used now cannot be used, by its name."""
        faults = self._faults | self._reverted
        missing = {self.names[index]: fault for index, fault in sorted(faults.items())}
        for name in self.map.names[len(self.urls) :]:
            missing[name] = f"{name}: this program was opened without this database"
        return missing

    def _fail(self, index: int, reason: str) -> None:
        if index not in self._faults:
            logger.warning("%s: the database is not used: %s", self.names[index], reason)
        self._faults[index] = reason
        self._away[index].set()

    def _recover(self, index: int) -> None:
        if self._faults.pop(index, None) is not None:
            logger.info("%s: the database is used again", self.names[index])
        self._away[index].clear()
        self._reverted.pop(index, None)

    async def _watch(self) -> None:
        while True:
            await asyncio.sleep(PAUSE)
            try:
                await self.refresh()
            except SagasError as error:
                logger.error("%s", error)

    async def refresh(self) -> bool:
        """Read the map of each database again; return whether it has changed.

        Callers at the same time share a read, if it begins after their calls. Databases that
        answer again are opened, and databases that do not are noted.
        """
        called, before = self._begun_reads, self._map
        async with self._reading:
            if self._begun_reads == called:
                self._begun_reads += 1
                await self._read_maps()
        return self._map != before

    async def _read_maps(self) -> None:
        reads = await asyncio.gather(*(self._look(index) for index in range(len(self.urls))))
        rows = [row for row in reads if isinstance(row, MapRow)]
        if self._map is None or not rows:
            return
        before = self._map
        newest = max((before, *(row.map for row in rows)), key=lambda item: item.generation)
        counts = [row.map.counts for row in rows if row.map.generation == newest.generation]
        if newest.count == len(self.urls):
            self._compare(reads, newest.generation)
        self._map = dataclasses.replace(newest, counts=min(counts or [newest.counts], key=len))
        if self._map != before:
            logger.info("generation %d: %d databases", newest.generation, newest.count)

    async def _look(self, index: int) -> MapRow | None:
        """Return the map of a database, and note whether it answers."""
        if index not in self._open:
            if index not in self._opening:
                self._opening.add(index)
                self._spawn(self._open_later(index))
            return None
        try:
            async with asyncio.timeout(PATIENCE):
                row = await self.members[index]._read_map()
        except TimeoutError:
            self._fail(index, f"{self.names[index]}: the database does not answer")
            return None
        except SagasError as error:
            self._fail(index, str(error))
            return None
        if row is None:
            self._fail(index, f"{self.names[index]}: the database has no map of the store any more")
            return None
        self._recover(index)
        return row

    async def _open_later(self, index: int) -> None:
        """Open a database that did not answer."""
        try:
            await self._open_member(index)
        except SagasError as error:
            self._fail(index, str(error))
        finally:
            self._opening.discard(index)

    def _compare(self, reads: Sequence[MapRow | None], generation: int) -> None:
        """Note the databases whose map went back."""
        gone = StoreUnavailable("the database does not answer")
        try:
            state_of([gone if read is None else read for read in reads], self.names)
        except InvalidStore as error:
            for index, read in enumerate(reads):
                if isinstance(read, MapRow) and read.map.generation < generation:
                    self._reverted[index] = str(error)

    # -- routing

    def opened(self) -> list[M]:
        """Return the members that are open."""
        return [self.members[index] for index in sorted(self._open)]

    def in_use(self) -> list[M]:
        """Return the members that are open and answer."""
        faults = self._faults | self._reverted
        return [self.members[index] for index in sorted(self._open - {*faults})]

    def member(self, position: int) -> M:
        """Return the member of a database.

        Raises `StoreUnavailable` if it is not open, or if this program was opened without it.
        """
        names = self.map.names
        if position >= len(self.members):
            raise StoreUnavailable(
                f"{names[position]}: this database joined the store in generation "
                f"{self.map.generation}, and this program was opened without it. Open the "
                "store with all of its databases"
            )
        if position not in self._open:
            raise StoreUnavailable(self._faults.get(position, f"{names[position]}: not open"))
        return self.members[position]

    def used(self, position: int) -> M:
        """As `member`, if the database has the present map. Raises `StoreUnavailable`."""
        member = self.member(position)
        if position in self._reverted:
            raise StoreUnavailable(self._reverted[position])
        return member

    async def position(self, key: str) -> int:
        """Return the index of the database that has a key, or that a start of it goes to.

        A key that an earlier generation may have is looked up.

        Raises:
            StoreUnavailable: A database that may have the key does not answer.
        """
        if not isinstance(key, str):  # no saga has it
            return 0
        positions = self.map.positions(key)
        if len(positions) == 1:
            return positions[0]
        newest, *older = positions
        results = await asyncio.gather(
            *(self._has(position, key) for position in older), return_exceptions=True
        )
        for position, result in zip(older, results):
            if result is True:
                return position
        failures = [result for result in results if isinstance(result, BaseException)]
        if failures and not await self._has(newest, key):
            raise failures[0]
        return newest

    async def _has(self, position: int, key: str) -> bool:
        """Return whether a database has a key, as of the present generation.

        The map is read before the key: from then on the database refuses new starts of the key.
        """
        member, generation = self.used(position), self.map.generation
        row = await member._read_map()
        if row is None or row.map.generation < generation:
            raise StoreUnavailable(
                f"{self.names[position]}: the map of this database is older than generation "
                f"{generation}. If `map add` was interrupted, run it again"
            )
        return await member._has_key(key)

    async def of(self, key: str) -> M:
        """Return the member that has a key, or that a start of it goes to. See `position`."""
        return self.used(await self.position(key))

    async def call(self, key: str, work: Callable[[M], Awaitable[T]]) -> T:
        """Call the member that has a key.

        If it does not have the key, or refuses it, the map may have changed: then it is read again.
        """
        try:
            return await work(await self.of(key))
        except (NoSuchSaga, StoreUnavailable) as error:
            if isinstance(error, StoreUnavailable) and not is_refusal(error):
                raise
            if not await self.refresh():
                raise
            return await work(await self.of(key))

    # -- all databases

    async def each(
        self, work: Callable[[M, int], Awaitable[T]]
    ) -> tuple[dict[int, T], dict[str, str]]:
        """Call each database that answers, all at once.

        Returns:
            The results, by the index of the database, and why the others have none, by name.
        """
        faults = self._faults | self._reverted
        positions = [index for index in range(len(self.urls)) if index not in faults]
        results = await asyncio.gather(
            *(self._unless_away(index, work) for index in positions), return_exceptions=True
        )
        missing, values = self.unavailable, dict[int, T]()
        for index, result in zip(positions, results):
            if isinstance(result, StoreUnavailable):
                missing[self.names[index]] = str(result)
            elif isinstance(result, BaseException):
                raise result
            else:
                values[index] = result
        return values, missing

    async def all(self, work: Callable[[M, int], Awaitable[T]]) -> dict[int, T]:
        """As `each`, for calls that need all databases.

        Raises:
            StoreUnavailable: One does not answer. The others have done it.
        """
        values, missing = await self.each(work)
        if missing:
            raise StoreUnavailable("; ".join(missing.values()))
        return values

    async def _unless_away(self, index: int, work: Callable[[M, int], Awaitable[T]]) -> T:
        """Call a database, until it is found not to answer."""
        job = asyncio.ensure_future(work(self.member(index), index))
        away = asyncio.ensure_future(self._away[index].wait())
        try:
            await asyncio.wait([job, away], return_when=asyncio.FIRST_COMPLETED)
            if job.done():
                return job.result()
            raise StoreUnavailable(self._faults.get(index, f"{self.names[index]}: no answer"))
        finally:
            away.cancel()
            if not job.done():
                job.cancel()
                with contextlib.suppress(asyncio.CancelledError, SagasError):
                    await job
