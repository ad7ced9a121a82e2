"""The map of a store over several databases: which database has a key, in each generation.

A saga lives in one database, with all that it starts. The digest of its root key selects the
database, by a consistent hash of Lamping and Veach: a further database takes its part of the keys
from the others, and no key moves among those.

A *generation* is a number of databases. A new one begins with each change of the number. Keys of
earlier generations stay where they are, so a key has a position for each generation that still has
sagas.
"""

from __future__ import annotations

import dataclasses
import functools
import hashlib
import itertools
import re
import struct
from collections.abc import Iterator, Sequence

from sagas.base.errors import InvalidStore, StoreUnavailable
from sagas.definition.arguments import root_of

SCHEDULED = re.compile(r"@[0-9]{4}-[0-9]{2}-[0-9]{2}T[0-9]{2}:[0-9]{2}:[0-9]{2}Z\Z")
"""The end of a key that a schedule made: the time of the start."""
MAX_DATABASES = 64
"""Maximum number of databases of a store."""
CONSTRAINT = "database_map"
"""The name of the constraint in the errors of a database that refuses a start."""


class Misplaced(StoreUnavailable):
    """The key belongs to another database, by a map that the program has not read yet."""


def is_refusal(error: BaseException) -> bool:
    """Return whether a database refused a start because another one has the key."""
    if isinstance(error, Misplaced):
        return True
    cause = error.__cause__
    details = getattr(cause, "diag", cause)
    return getattr(details, "constraint_name", None) == CONSTRAINT


def routed_part(key: str) -> str:
    """Return the part of a key that selects its database: its root, without a schedule's time."""
    return SCHEDULED.sub("", root_of(key))


def position_of(part: str, count: int) -> int:
    """Return the index of the database that has a key, of `count` databases.

    The key jumps from one position to a later one, at random, and stays at the last one before
    `count`.

    Args:
        part: The key's `routed_part`.
        count: The number of databases.
    """

    following = 0
    for numbers in map(functools.partial(_numbers, part), itertools.count()):
        for number in numbers:
            position, following = following, ((following + 1) << 32) // number
            if following >= count:
                return position
    raise AssertionError("each number leads to a larger position")


def _numbers(part: str, block: int) -> Iterator[int]:
    """Yield eight numbers from 1 to 2 to the 32, of the digest of a block."""
    digest = hashlib.sha256(f"{block} {part}".encode(errors="replace")).digest()
    return (number + 1 for number in struct.unpack(">8I", digest))


@dataclasses.dataclass(frozen=True, slots=True)
class DatabaseMap:
    """Which databases a store has, and how many in each generation.

    Attributes:
        store: A random name of the store, the same in all of its databases.
        generation: The number of the newest generation, from 1.
        counts: The number of databases of each generation that may still have sagas. The last
            one is of the newest generation.
        databases: A random name of each database, in their order.
        names: The URL of each database, without the password.
    """

    store: str
    generation: int
    counts: tuple[int, ...]
    databases: tuple[str, ...]
    names: tuple[str, ...]

    @property
    def count(self) -> int:
        """The number of databases that the newest generation has."""
        return self.counts[-1]

    def generations(self) -> list[tuple[int, int]]:
        """Return each generation that may still have sagas, with its number of databases."""
        first = self.generation - len(self.counts) + 1
        return [*enumerate(self.counts, first)]

    def positions(self, key: str) -> tuple[int, ...]:
        """Return the databases that may have a key: that of the newest generation first.

        Args:
            key: The key of a saga, or of a child.
        """
        part = routed_part(key)
        return tuple(dict.fromkeys(position_of(part, count) for count in reversed(self.counts)))

    def grown(self, database: str, name: str) -> DatabaseMap:
        """Return the map of the next generation, with one more database.

        Args:
            database: A random name of the new database.
            name: Its URL, without the password.
        """
        check_count(self.count + 1)
        return dataclasses.replace(
            self,
            generation=self.generation + 1,
            counts=(*self.counts, self.count + 1),
            databases=(*self.databases, database),
            names=(*self.names, name),
        )

    def without_oldest(self) -> DatabaseMap:
        """Return the map without its oldest generation, which has no saga any more."""
        return dataclasses.replace(self, counts=self.counts[1:])

    def ordered(self) -> str:
        """Return the names of the databases in their order, for messages."""
        return ", ".join(self.names)


@dataclasses.dataclass(frozen=True, slots=True)
class MapRow:
    """What a database has of the map.

    Attributes:
        map: The map.
        position: The index of this database.
        is_active: Whether it accepts starts. A database that joins does so once all others know.
    """

    map: DatabaseMap
    position: int
    is_active: bool


MapRead = MapRow | StoreUnavailable | None
"""What a read of a database returned: its row, why it does not answer, or None without a row."""


@dataclasses.dataclass(frozen=True, slots=True)
class MapState:
    """The map, as the databases have it together.

    Attributes:
        map: The newest map.
        faults: Why a database cannot be used now, by its index.
        is_complete: Whether all databases have the map, as far as they answer. If not, a change
            of the map is in progress or was interrupted.
    """

    map: DatabaseMap
    faults: dict[int, str]
    is_complete: bool


def check_count(count: int) -> None:
    """Raise `InvalidStore` if a store cannot have this number of databases."""
    if not 0 < count <= MAX_DATABASES:
        raise InvalidStore(f"{count} databases: a store has 1 to {MAX_DATABASES}")


def missing_map(name: str) -> InvalidStore:
    """Return the error for a store without a map."""
    return InvalidStore(
        f"{name}: the store has no map yet. Start a node, or run `sagas store URL,URL init`"
    )


def interrupted(name: str) -> InvalidStore:
    """Return the error for a map that not all databases have."""
    return InvalidStore(
        f"{name}: the last `map add` was interrupted. Nothing was written. Run it again"
    )


def created(store: str, databases: Sequence[str], names: Sequence[str]) -> DatabaseMap:
    """Return the map of the first generation."""
    check_count(len(names))
    return DatabaseMap(store, 1, (len(names),), tuple(databases), tuple(names))


def state_of(reads: Sequence[MapRead], names: Sequence[str]) -> MapState | None:
    """Return the map that the databases have; None if it does not exist yet, or not everywhere.

    Args:
        reads: What each database has, in the order in which the caller names them.
        names: Their names.

    Raises:
        InvalidStore: The databases are not those of the store in its order, or one has an older
            map than it had.
        StoreUnavailable: None of the databases that answer has a map.
    """
    check_names(names)
    rows = [(index, row) for index, row in enumerate(reads) if isinstance(row, MapRow)]
    away = {index: str(read) for index, read in enumerate(reads) if _is_away(read)}
    if not rows:
        if away:
            raise StoreUnavailable(next(iter(away.values())))
        return None
    newest = max((row for _, row in rows), key=lambda row: row.map.generation).map
    _check_store(rows, names, newest)
    _check_order(rows, names, newest)
    if all(not row.is_active for _, row in rows) and newest.generation == 1:
        return None  # its creation was interrupted
    is_complete = all(row.is_active for _, row in rows if _is_new(row, newest))
    is_complete = is_complete and all(isinstance(read, MapRow) for read in reads)
    missing = [names[index] for index, read in enumerate(reads) if read is None]
    if missing:
        raise InvalidStore(
            f"{missing[0]}: this database has no map of the store, which others have. It was "
            "created again, or restored from a backup before the map. Restore a later backup"
        )
    if is_complete:
        for index, row in rows:
            if not _is_new(row, newest):
                raise InvalidStore(reverted(names[index], row.map.generation, newest.generation))
    counts = min((row.map.counts for _, row in rows if _is_new(row, newest)), key=len)
    return MapState(dataclasses.replace(newest, counts=counts), away, is_complete)


def check_names(names: Sequence[str]) -> None:
    """Raise `InvalidStore` if there are no names or too many, or one is there twice."""
    check_count(len(names))
    for index, name in enumerate(names):
        if name in names[:index]:
            raise InvalidStore(f"{name} is named twice. Name each database once")


def reverted(name: str, generation: int, newest: int) -> str:
    """Return the message about a database whose map went back."""
    return (
        f"{name}: its map has generation {generation}, and the store has generation {newest}. It "
        "was restored from an older backup. If nothing newer can be restored, run `sagas store "
        "URL,URL map repair`"
    )


def _is_away(read: MapRead) -> bool:
    return isinstance(read, StoreUnavailable)


def _is_new(row: MapRow, newest: DatabaseMap) -> bool:
    return row.map.generation == newest.generation


def _check_store(
    rows: Sequence[tuple[int, MapRow]], names: Sequence[str], newest: DatabaseMap
) -> None:
    """Raise `InvalidStore` if a database belongs to another store."""
    for index, row in rows:
        is_part = newest.databases[: len(row.map.databases)] == row.map.databases
        if row.map.store != newest.store or not is_part:
            first = next(names[other] for other, it in rows if it.map.store == newest.store)
            raise InvalidStore(
                f"{names[index]} belongs to another store than {first}. Nothing was written. Name "
                "the databases of one store"
            )


def _check_order(
    rows: Sequence[tuple[int, MapRow]], names: Sequence[str], newest: DatabaseMap
) -> None:
    """Raise `InvalidStore` if the caller names another number of databases, or another order."""
    if len(names) != newest.count:
        raise InvalidStore(
            f"{len(names)} databases are named, and there are {newest.count}. Nothing was written. "
            f"The order is {newest.ordered()}"
        )
    for index, row in rows:
        if row.position != index:
            raise InvalidStore(
                f"{names[index]} is database {row.position + 1}, and is named as {index + 1}. "
                f"Nothing was written. The order is {newest.ordered()}"
            )


def check_alone(row: MapRow | None, name: str) -> None:
    """Raise `InvalidStore` if a database is opened alone, and the store has several."""
    if row is not None and row.map.count > 1:
        raise InvalidStore(
            f"{name} is database {row.position + 1} of {row.map.count}. Nothing was written. Open "
            f"all of them: {row.map.ordered()}"
        )
