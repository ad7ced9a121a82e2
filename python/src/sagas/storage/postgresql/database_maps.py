"""The map of a store over several databases, as each database has it.

The map is one row. Two triggers keep the promise that no key is started in two databases: they
compare each new saga and each new start with the row. A change of the map locks both tables, so
that it waits for starts in progress, and later starts see the new row. Programs that know an older
map are refused by the database itself.
"""

from __future__ import annotations

import contextlib
from collections.abc import Callable, Iterator, Sequence
from typing import Any

import psycopg
from psycopg import errors

from sagas.base.errors import InvalidStore
from sagas.core.database_map import CONSTRAINT, DatabaseMap, MapRow
from sagas.storage.postgresql import connections
from sagas.storage.postgresql.application_name import Purpose

Connection = psycopg.Connection[tuple[Any, ...]]
TABLE = """
-- The map of a store over several databases: one row, or none. position: the index of this
-- database. active: whether it accepts starts. counts: the number of databases of each generation
-- that may have sagas; the last one is of `generation`. names: URLs without passwords.
CREATE TABLE sagas.database_map(
  store text NOT NULL, position integer NOT NULL, generation integer NOT NULL,
  active boolean NOT NULL, counts integer[] NOT NULL, databases text[] NOT NULL,
  names text[] NOT NULL);
CREATE UNIQUE INDEX database_map_row ON sagas.database_map((true));
"""
COLUMNS = "store, position, generation, active, counts, databases, names"
READ = f"SELECT {COLUMNS} FROM database_map"
"""The row, for an open store or client. It may be absent, and so may the table."""
READ_NOW = f"SELECT {COLUMNS} FROM sagas.database_map"
HAS_TABLE = "SELECT to_regclass('sagas.database_map') IS NOT NULL"
WRITE = f"""
INSERT INTO sagas.database_map({COLUMNS}) VALUES (%s, %s, %s, %s, %s, %s, %s)
ON CONFLICT ((true)) DO UPDATE SET store = excluded.store, position = excluded.position,
  generation = excluded.generation, active = excluded.active, counts = excluded.counts,
  databases = excluded.databases, names = excluded.names
"""
ACTIVATE = "UPDATE sagas.database_map SET active = true WHERE generation = %s"

FUNCTIONS = f"""
CREATE OR REPLACE FUNCTION sagas.position_of(part text, count integer) RETURNS integer
LANGUAGE plpgsql IMMUTABLE STRICT AS $$
DECLARE digest bytea; step integer := 0; at integer; result bigint; following bigint := 0;
BEGIN
  IF count = 1 THEN RETURN 0; END IF;
  LOOP
    IF step % 8 = 0 THEN
      digest := sha256(convert_to(step / 8 || ' ' || part, 'UTF8'));
    END IF;
    at := 4 * (step % 8);
    result := following;
    following := ((result + 1) << 32) / (1 + (get_byte(digest, at)::bigint << 24)
      + (get_byte(digest, at + 1) << 16) + (get_byte(digest, at + 2) << 8)
      + get_byte(digest, at + 3));
    IF following >= count THEN RETURN result; END IF;
    step := step + 1;
  END LOOP;
END $$;

CREATE OR REPLACE FUNCTION sagas.routed_part(key text) RETURNS text
LANGUAGE sql IMMUTABLE STRICT AS $$
  SELECT CASE WHEN position('@' IN key) = 0 THEN split_part(key, '/:', 1)
    ELSE regexp_replace(split_part(key, '/:', 1),
      '@[0-9]{{4}}-[0-9]{{2}}-[0-9]{{2}}T[0-9]{{2}}:[0-9]{{2}}:[0-9]{{2}}Z$', '') END
$$;

-- Returns why this database does not start a saga with the key, or null. An older snapshot of the
-- caller's transaction must not hide a change of the map, so it then fails with a conflict.
CREATE OR REPLACE FUNCTION sagas.misplaced(key text) RETURNS text
LANGUAGE plpgsql VOLATILE SECURITY DEFINER SET search_path = pg_catalog, pg_temp AS $$
DECLARE here sagas.database_map; index integer;
BEGIN
  IF current_setting('transaction_isolation') = 'read committed' THEN
    SELECT * INTO here FROM sagas.database_map;
  ELSE
    SELECT * INTO here FROM sagas.database_map FOR SHARE;
  END IF;
  IF here.store IS NULL THEN RETURN NULL; END IF;
  index := sagas.position_of(sagas.routed_part(key), here.counts[cardinality(here.counts)]);
  IF index <> here.position THEN
    RETURN format('the key belongs to %s, database %s of the store since generation %s. Nothing '
      'was written. Start it with a program that was opened with all databases',
      here.names[index + 1], index + 1, here.generation);
  END IF;
  IF NOT here.active THEN
    RETURN format('the database joins the store in generation %s, and accepts no starts yet. '
      'Nothing was written. If `init` or `map add` was interrupted, run it again',
      here.generation);
  END IF;
  RETURN NULL;
END $$;

-- A saga that a node opens for a client was checked as a start. The function is stable, so it sees
-- the start although the same statement deletes it.
CREATE OR REPLACE FUNCTION sagas.check_new_saga() RETURNS trigger
LANGUAGE plpgsql STABLE SECURITY DEFINER SET search_path = pg_catalog, pg_temp AS $$
DECLARE reason text;
BEGIN
  reason := sagas.misplaced(NEW.key);
  IF reason IS NULL THEN RETURN NEW; END IF;
  IF EXISTS (SELECT 1 FROM sagas.pending_starts WHERE key = NEW.key AND node IS NOT NULL) THEN
    RETURN NEW;
  END IF;
  RAISE EXCEPTION USING ERRCODE = 'unique_violation', CONSTRAINT = '{CONSTRAINT}',
    MESSAGE = reason;
END $$;

-- A start of a key that this database has is not a new one: `start` finds what has the key. The
-- locks keep that in the database until the start is over.
CREATE OR REPLACE FUNCTION sagas.check_new_start() RETURNS trigger
LANGUAGE plpgsql VOLATILE SECURITY DEFINER SET search_path = pg_catalog, pg_temp AS $$
DECLARE reason text;
BEGIN
  reason := sagas.misplaced(NEW.key);
  IF reason IS NULL THEN RETURN NEW; END IF;
  PERFORM 1 FROM sagas.sagas WHERE key = NEW.key FOR KEY SHARE;
  IF FOUND THEN RETURN NEW; END IF;
  PERFORM 1 FROM sagas.pending_starts WHERE key = NEW.key FOR KEY SHARE;
  IF FOUND THEN RETURN NEW; END IF;
  RAISE EXCEPTION USING ERRCODE = 'unique_violation', CONSTRAINT = '{CONSTRAINT}',
    MESSAGE = reason;
END $$;

DROP TRIGGER IF EXISTS check_new_saga ON sagas.sagas;
CREATE TRIGGER check_new_saga BEFORE INSERT ON sagas.sagas FOR EACH ROW
  WHEN (position('/:' IN NEW.key) = 0) EXECUTE FUNCTION sagas.check_new_saga();
DROP TRIGGER IF EXISTS check_new_start ON sagas.pending_starts;
CREATE TRIGGER check_new_start BEFORE INSERT ON sagas.pending_starts FOR EACH ROW
  EXECUTE FUNCTION sagas.check_new_start();
"""
"""What compares starts with the map. Child sagas are where their roots are, and are not compared.

The error of a new saga is one that the writer of a node takes for a conflict of one shard.
"""
TABLES = "LOCK TABLE sagas.sagas, sagas.pending_starts IN SHARE ROW EXCLUSIVE MODE"
"""Waits for starts in progress, and holds new ones back until the transaction ends."""
PATIENCE = "SET LOCAL lock_timeout = '2s'"
"""Starts wait as long, while a transaction of a caller is open."""
REASON = "SELECT sagas.misplaced(?)"
HAS_FUNCTION = "SELECT to_regprocedure('sagas.misplaced(text)') IS NOT NULL"
MOVED = """
SELECT count(*) FILTER (WHERE is_open), count(*) FROM (
  SELECT key, phase IS NULL AS is_open FROM sagas.sagas WHERE position('/:' IN key) = 0
  UNION ALL SELECT key, true FROM sagas.pending_starts) roots
CROSS JOIN LATERAL sagas.routed_part(key) part
WHERE sagas.position_of(part, %s) = %s AND sagas.position_of(part, %s) <> %s
"""
"""The sagas of a generation that have another position in the next: how many are open, and all."""
HAS_SAGAS = "SELECT to_regclass('sagas.sagas') IS NOT NULL"
IS_USED = """
SELECT EXISTS (SELECT 1 FROM sagas.sagas) OR EXISTS (SELECT 1 FROM sagas.pending_starts)
  OR EXISTS (SELECT 1 FROM sagas.schedules)
"""


def row_of(rows: Sequence[Sequence[Any]]) -> MapRow | None:
    """Return the row of a read."""
    if not rows:
        return None
    store, position, generation, is_active, counts, databases, names = rows[0]
    texts = tuple(map(str, databases)), tuple(map(str, names))
    numbers = tuple(map(int, counts))
    of_store = DatabaseMap(str(store), int(generation), numbers, *texts)
    return MapRow(of_store, int(position), bool(is_active))


def read_row(connection: Connection) -> MapRow | None:
    """Return the map of a database; None if it has none."""
    if connection.execute(HAS_TABLE).fetchone() != (True,):
        return None
    return row_of(connection.execute(READ_NOW).fetchall())


def write_row(connection: Connection, row: MapRow) -> None:
    """Write the map, in a transaction of the caller."""
    of_store = row.map
    texts = [*of_store.databases], [*of_store.names]
    values = (of_store.store, row.position, of_store.generation, row.is_active, [*of_store.counts])
    connection.execute(WRITE, (*values, *texts))


def change(connection: Connection, row: MapRow, name: str, again: Callable[[str], None]) -> None:
    """Write the map, so that each start is before it or sees it.

    It waits for starts in progress. If a caller's transaction with a start stays open, starts are
    let through between the tries, and `again` is called with the reason.

    Raises:
        InvalidStore: This user does not own the tables.
    """
    while True:
        try:
            with connection.transaction():
                connection.execute(PATIENCE)
                connection.execute(TABLES)
                connection.execute(FUNCTIONS)
                write_row(connection, row)
            return
        except errors.LockNotAvailable:
            again(f"{name}: waiting for a transaction that has started a saga")
        except errors.InsufficientPrivilege as error:
            raise _not_owner(error, name) from error


def activate(connection: Connection, generation: int, name: str) -> None:
    """Have a database accept starts, because all others have the map of the generation.

    Raises:
        InvalidStore: This user does not own the tables.
    """
    try:
        connection.execute(ACTIVATE, (generation,))
    except errors.InsufficientPrivilege as error:
        raise _not_owner(error, name) from error


def _not_owner(error: Exception, name: str) -> InvalidStore:
    text = str(error).splitlines()[0]
    return InvalidStore(f"{name}: {text}. Run the command as the owner of the schema `sagas`")


def is_used(connection: Connection) -> bool:
    """Return whether a database has sagas, starts or schedules."""
    has_tables = connection.execute(HAS_SAGAS).fetchone() == (True,)
    return has_tables and connection.execute(IS_USED).fetchone() == (True,)


def count_moved(connection: Connection, position: int, before: int, after: int) -> tuple[int, int]:
    """Return how many sagas of this database another one would have among more databases.

    Args:
        connection: The connection to the database.
        position: The index of the database.
        before: The number of databases of the generation that put the sagas here.
        after: The number of databases of the next generation.

    Returns:
        The number of open ones, and of all.
    """
    row = connection.execute(MOVED, (before, position, after, position)).fetchone()
    return (int(row[0]), int(row[1])) if row else (0, 0)


@contextlib.contextmanager
def connected(url: str, name: str) -> Iterator[Connection]:
    """Yield a connection for a change of the map. Raises `StoreUnavailable`, `InvalidStore`."""
    with connections.translate_errors(name):
        with contextlib.closing(connections.connect_now(url, Purpose.ADMIN)) as connection:
            yield connection
