"""Changes of the map of a store over several databases.

They may be interrupted, and repeated.

One program at a time changes the map: it has a lock in each database. A new generation begins in
this order:

1. The new database gets the pauses and drains of the others, and then the map. It accepts no
   starts.
2. Each other database gets the map. From then on it refuses keys that are the new database's.
3. The schedules that are the new database's move there.
4. The new database accepts starts.

So a key that moves is started in neither database between 2 and 4, and in the new one only after
all others refuse it. If the program ends in between, `map add` continues where it was.
"""

from __future__ import annotations

import contextlib
import dataclasses
import secrets
import time
from collections.abc import Callable, Iterator, Sequence
from typing import Any

from psycopg import sql

from sagas.base.errors import InvalidStore, StoreUnavailable
from sagas.core.database_map import (
    DatabaseMap,
    MapRead,
    MapRow,
    check_names,
    created,
    interrupted,
    missing_map,
    position_of,
    routed_part,
    state_of,
)
from sagas.definition import timing
from sagas.storage import schedules
from sagas.storage.postgresql import connections, database_maps, schema
from sagas.storage.postgresql.database_maps import Connection
from sagas.storage.postgresql.server import SERVER

LOCK = 5_777_003
"""The advisory lock of the program that changes the map."""
LOCK_SECONDS, LOCK_PAUSE = 20.0, 0.2
TRY_LOCK = f"SELECT {SERVER.try_lock('%s')}"
UNLOCK = f"SELECT {SERVER.unlock('%s')}"
Notify = Callable[[str], None]
"""Gets a line about what is being done."""
SCHEDULES = f"SELECT {schedules.COLUMNS} FROM sagas.schedules ORDER BY name"
INSERT_SCHEDULE = f"""
INSERT INTO sagas.schedules({schedules.COLUMNS})
VALUES (%s, %s, %s, %s, %s, %s, %s, %s, %s, %s, %s, %s, %s) ON CONFLICT (name) DO NOTHING
"""
RULES = {"pauses": "scope", "drains": "name"}
"""The tables that are the same in all databases, and their keys."""
DELETE_SCHEDULE = "DELETE FROM sagas.schedules WHERE name = %s"
NEXT_AT = 9
"""The column of a schedule's next time."""
STARTED = "SELECT key FROM sagas.sagas WHERE key = ANY(%s)"


@dataclasses.dataclass(frozen=True, slots=True)
class GenerationCount:
    """The sagas of a generation that another one would put elsewhere.

    Attributes:
        generation: Its number.
        databases: Its number of databases.
        open: How many of its sagas are open; None for the newest generation, which has the others.
        sagas: How many sagas it has; None for the newest generation.
    """

    generation: int
    databases: int
    open: int | None
    sagas: int | None


def named(urls: Sequence[str]) -> list[str]:
    """Return the names of databases for messages. Raises `InvalidStore`."""
    names = [connections.named(url) for url in urls]
    check_names(names)
    return names


def read_all(urls: Sequence[str], names: Sequence[str]) -> list[MapRead]:
    """Return what each database has of the map, or why it does not answer."""
    reads: list[MapRead] = []
    for url, name in zip(urls, names):
        try:
            with database_maps.connected(url, name) as connection:
                reads.append(database_maps.read_row(connection))
        except StoreUnavailable as error:
            cause = error.__cause__
            if isinstance(cause, Exception) and connections.FINAL.search(str(cause)):
                raise connections.refused_login(name, cause) from error
            reads.append(error)
    return reads


@contextlib.contextmanager
def _locked(urls: Sequence[str], names: Sequence[str]) -> Iterator[list[Connection]]:
    """Yield a connection to each database, with the lock of the map in all.

    Programs take the locks in the order of the names, so that two do not wait for each other.
    """
    with contextlib.ExitStack() as stack:
        links: dict[str, Connection] = {}
        for name, url in sorted(zip(names, urls)):
            links[name] = stack.enter_context(database_maps.connected(url, name))
            until = time.monotonic() + LOCK_SECONDS
            while links[name].execute(TRY_LOCK, (LOCK,)).fetchone() != (True,):
                if time.monotonic() > until:
                    raise StoreUnavailable(f"{name}: another program changes the map. Try again")
                time.sleep(LOCK_PAUSE)
        yield [links[name] for name in names]


def create(urls: Sequence[str], notify: Notify) -> DatabaseMap:
    """Create the map of a store, unless its databases have it; return the map.

    Raises:
        InvalidStore: The databases are those of another store, or have another order. Or one of
            several has sagas. Or this user may not create tables.
        StoreUnavailable: A database does not answer. All of them are needed.
    """
    names = named(urls)
    with _locked(urls, names) as links:
        state = state_of([database_maps.read_row(link) for link in links], names)
        if state is not None:
            if state.map.generation == 1:  # all have the row, so a creation was interrupted
                _activate(links, names, state.map)
            return state.map
        for link, name in zip(links, names):
            if len(names) > 1 and database_maps.is_used(link):
                raise InvalidStore(
                    f"{name} has sagas, and no map. Begin with it alone: `sagas store URL map add "
                    "URL`"
                )
        for link, name in zip(links, names):
            schema.migrate(link, name)
        databases = [secrets.token_hex(8) for _ in names]
        new = created(secrets.token_hex(8), databases, names)
        for index, (link, name) in enumerate(zip(links, names)):
            database_maps.change(link, MapRow(new, index, False), name, notify)
        _activate(links, names, new)
        return new


def _activate(links: Sequence[Connection], names: Sequence[str], of_store: DatabaseMap) -> None:
    """Have databases accept starts, if they do not yet. Raises `InvalidStore`."""
    for link, name in zip(links, names):
        row = database_maps.read_row(link)
        if row is not None and not row.is_active:
            database_maps.activate(link, of_store.generation, name)


def add(urls: Sequence[str], url: str, notify: Notify) -> DatabaseMap:
    """Begin a generation with one more database, or continue that; return the map.

    Raises:
        InvalidStore: The databases are not those of the store. Or the new one has sagas.
        StoreUnavailable: A database does not answer. All of them are needed.
    """
    names = named([*urls, url])
    with _locked([*urls, url], names) as links:
        new_map = _target(links, names, notify)
        for index, (link, name) in enumerate(zip(links[:-1], names)):
            row = database_maps.read_row(link)
            if row is None or row.map.generation < new_map.generation:
                database_maps.change(link, MapRow(new_map, index, True), name, notify)
                notify(f"{name}: generation {new_map.generation}")
        _move_schedules(links, new_map)
        _copy_rules(links)
        _activate(links[-1:], names[-1:], new_map)
        return new_map


def _target(links: Sequence[Connection], names: Sequence[str], notify: Notify) -> DatabaseMap:
    """Return the map with the new database, which has it when this returns."""
    reads: list[MapRead] = [database_maps.read_row(link) for link in links]
    if reads[-1] is not None:
        state = state_of(reads, names)
        assert state is not None
        return state.map
    state = state_of(reads[:-1], names[:-1])
    if state is None and len(names) > 2:
        raise missing_map(names[0])
    if state is not None and not state.is_complete:
        raise interrupted(names[0])
    if database_maps.is_used(links[-1]):
        raise InvalidStore(f"{names[-1]} has sagas. Nothing was written. Add an empty database")
    for link, name in zip(links, names):
        schema.migrate(link, name)
    if state is not None:
        before = state.map
    else:
        before = created(secrets.token_hex(8), [secrets.token_hex(8)], names[:1])
        database_maps.change(links[0], MapRow(before, 0, True), names[0], notify)
    _copy_rules(links)  # a node that opens the new database reads them first
    new_map = before.grown(secrets.token_hex(8), names[-1])
    row = MapRow(new_map, new_map.count - 1, False)
    database_maps.change(links[-1], row, names[-1], notify)
    return new_map


def _copy_rules(links: Sequence[Connection]) -> None:
    """Copy pauses and drains into a new database, unless it accepts starts."""
    row = database_maps.read_row(links[-1])
    if row is not None and row.is_active:
        return
    for table, key in RULES.items():
        for link in links[:-1]:
            cursor = link.execute(sql.SQL("SELECT * FROM sagas.{}").format(sql.Identifier(table)))
            columns = [column.name for column in cursor.description or ()]
            insert = sql.SQL("INSERT INTO sagas.{} ({}) VALUES ({}) ON CONFLICT ({}) DO NOTHING")
            text = insert.format(
                sql.Identifier(table),
                sql.SQL(", ").join(map(sql.Identifier, columns)),
                sql.SQL(", ").join([sql.Placeholder()] * len(columns)),
                sql.Identifier(key),
            )
            for values in cursor.fetchall():
                links[-1].execute(text, values)


def _move_schedules(links: Sequence[Connection], of_store: DatabaseMap) -> None:
    """Move the schedules whose names belong to the new database.

    The others start nothing of them any more, since their databases refuse it.
    """
    for index, link in enumerate(links[:-1]):
        for row in link.execute(SCHEDULES).fetchall():
            position = position_of(routed_part(str(row[0])), of_store.count)
            if position != index:
                links[position].execute(INSERT_SCHEDULE, _continued(link, row))
                link.execute(DELETE_SCHEDULE, (row[0],))


def _continued(link: Connection, row: tuple[Any, ...]) -> tuple[Any, ...]:
    """Return a schedule's row without the times that this database has started."""
    try:
        schedule = schedules.of_row(row)
        times, _ = schedule.timing.due(schedule.next_at, time.time(), timing.MAX_MISSED)
        keys = {timing.key_of(schedule.name, at): at for at in times}
        started = [keys[str(key)] for (key,) in link.execute(STARTED, ([*keys],)).fetchall()]
        next_at = schedule.timing.next_after(max(started)) if started else schedule.next_at
    except ValueError:  # a later release has declared it, or its time zone is unknown here
        return row
    return (*row[:NEXT_AT], next_at, *row[NEXT_AT + 1 :])


def repair(urls: Sequence[str], notify: Notify) -> DatabaseMap:
    """Write the newest map into databases that have an older one, or none; return the map.

    Raises `InvalidStore` if no database has a map, and `StoreUnavailable`.
    """
    names = named(urls)
    with _locked(urls, names) as links:
        for link, name in zip(links, names):
            schema.migrate(link, name)
        rows = [database_maps.read_row(link) for link in links]
        present = [row for row in rows if row is not None]
        if not present:
            raise missing_map(names[0])
        newest = max(present, key=lambda row: row.map.generation).map
        as_new: list[MapRead] = [
            MapRow(newest, index if row is None else row.position, True)
            for index, row in enumerate(rows)
        ]
        state_of(as_new, names)  # the number and the order
        for index, (link, name, row) in enumerate(zip(links, names, rows)):
            if row is None or row.map.generation < newest.generation:
                database_maps.change(link, MapRow(newest, index, True), name, notify)
                notify(f"{name}: generation {newest.generation}")
        return newest


def counts(urls: Sequence[str], of_store: DatabaseMap) -> list[GenerationCount]:
    """Return the sagas of each generation, from all databases. Raises `StoreUnavailable`."""
    names = named(urls)
    with contextlib.ExitStack() as stack:
        links = [
            stack.enter_context(database_maps.connected(url, name))
            for url, name in zip(urls, names)
        ]
        result = [*_counts(links, of_store)]
    return result


def _counts(links: Sequence[Connection], of_store: DatabaseMap) -> Iterator[GenerationCount]:
    generations = of_store.generations()
    for (number, before), (_, after) in zip(generations, generations[1:]):
        numbers = [
            database_maps.count_moved(link, index, before, after)
            for index, link in enumerate(links[:before])
        ]
        yield GenerationCount(number, before, *(sum(column) for column in zip(*numbers)))
    yield GenerationCount(*generations[-1], None, None)


def retire(urls: Sequence[str], notify: Notify) -> DatabaseMap:
    """Forget the oldest generations that have no saga any more; return the map.

    Their keys are not looked up in two databases any more. It may be interrupted: then some
    databases have forgotten, and programs use the shortest list.

    Raises `InvalidStore` and `StoreUnavailable`.
    """
    names = named(urls)
    with _locked(urls, names) as links:
        state = state_of([database_maps.read_row(link) for link in links], names)
        if state is None:
            raise missing_map(names[0])
        if not state.is_complete:
            raise interrupted(names[0])
        of_store = state.map
        for count in [*_counts(links, of_store)][:-1]:
            if count.sagas:
                break
            of_store = of_store.without_oldest()
        for index, (link, name) in enumerate(zip(links, names)):
            database_maps.change(link, MapRow(of_store, index, True), name, notify)
        return of_store
