"""The tables and grants.

An asynchronous standby may be promoted that was copied before the store was created. A node then
creates the tables there, and continues (`MissingTables`). On the server that had the tables,
nothing is created: they were deleted, or the database is being restored.
"""

from __future__ import annotations

import asyncio
import contextlib

import psycopg
from psycopg import errors, sql

from sagas.base.errors import InvalidStore, StoreSchemaTooNew, StoreUnavailable
from sagas.base.logger import logger
from sagas.storage.postgresql import conflicts, connections, database_maps
from sagas.storage.postgresql.application_name import Purpose
from sagas.storage.postgresql.connections import RIGHTS
from sagas.storage.postgresql.server import SERVER

LOCK = 5_777_001
"""The advisory lock under which tables are created and migrated."""

SCHEMA = """
-- Nodes: a node is one run of a program (its name, and a random suffix). It owns its shards until
-- `lease`. serves: whether other nodes may call it. kinds: its definitions, each as
-- saga/version/digest.
CREATE TABLE sagas.nodes(
  node text PRIMARY KEY, name text NOT NULL, version text NOT NULL, since timestamptz NOT NULL,
  lease timestamptz NOT NULL,
  serves boolean NOT NULL DEFAULT false, kinds text[]);

-- Definitions: TOML texts, each once, by their digests.
CREATE TABLE sagas.definitions(definition text PRIMARY KEY, text text NOT NULL);

-- The definitions of a shard, by their indexes (`place`). A shard of sagas whose steps come from
-- their input gets more definitions with its sagas.
CREATE TABLE sagas.shard_definitions(
  shard bigint NOT NULL, place integer NOT NULL, definition text NOT NULL,
  PRIMARY KEY(shard, place));

-- closed: 0 if the shard is open, 1 if it is closed and passed its audit, 2 if it is closed and
-- failed its audit. audit: the verdict of the audit, or why no program can drive an open shard.
-- owner: the node that drives it, or null. epoch: grows with each owner and each load, and a commit
-- must name it.
CREATE SEQUENCE sagas.shard_numbers MINVALUE 0 START 0;
CREATE TABLE sagas.shards(
  shard bigint PRIMARY KEY, name text NOT NULL UNIQUE, owner text, epoch bigint NOT NULL,
  closed smallint NOT NULL DEFAULT 0, audit text) WITH (fillfactor = 50);
CREATE INDEX shards_open ON sagas.shards(shard) WHERE closed = 0;

-- The events of one commit, one per line. first_seq: the shard's number of events before them.
-- epoch: the epoch of the shard under which the commit was written.
CREATE TABLE sagas.event_log(
  shard bigint NOT NULL, first_seq integer NOT NULL, committed_at double precision NOT NULL,
  text text NOT NULL, epoch bigint NOT NULL,
  PRIMARY KEY(shard, first_seq));

-- Each new epoch of a shard, from its creation on: the node that began it, and the timeline of the
-- server. last_seq: first_seq of the last commit before it, -1 if there is none, or null if it was
-- not read.
CREATE TABLE sagas.takeovers(
  shard bigint NOT NULL REFERENCES sagas.shards ON DELETE CASCADE,
  id bigint GENERATED ALWAYS AS IDENTITY, epoch bigint NOT NULL, node text NOT NULL,
  last_seq integer, timeline text NOT NULL, at timestamptz NOT NULL DEFAULT now(),
  PRIMARY KEY(shard, id));

-- Returns first_seq of a shard's last commit. It is volatile, so that it sees all commits before
-- the statement got the lock of the shard's row, and not only those before the statement began.
CREATE FUNCTION sagas.last_seq(number bigint) RETURNS integer LANGUAGE sql VOLATILE AS
  'SELECT coalesce(max(first_seq), -1) FROM sagas.event_log WHERE shard = number';

-- definition_index: the index of its definition in the shard. deadline: when it is aborted.
-- traceparent: the W3C trace context of its start. phase: null while open, then ended or stuck.
-- outcome: JSON (aborted, answer, kept, states). recovered: a plan ended it. undo_failed: and a
-- compensation failed permanently. note: the note of the operator who resolved it, or null.
CREATE TABLE sagas.sagas(
  id bigint PRIMARY KEY, key text NOT NULL UNIQUE, saga text NOT NULL,
  definition_index integer NOT NULL, input text NOT NULL,
  at double precision NOT NULL, deadline double precision, phase text, outcome text,
  recovered boolean NOT NULL DEFAULT false, undo_failed boolean NOT NULL DEFAULT false,
  ended double precision, note text, traceparent text) WITH (fillfactor = 70);
CREATE INDEX sagas_open ON sagas.sagas(id) WHERE phase IS NULL;
CREATE INDEX sagas_stuck ON sagas.sagas(id) WHERE phase = 'stuck';
CREATE INDEX sagas_recovered ON sagas.sagas(id) WHERE recovered;
CREATE INDEX sagas_started ON sagas.sagas(at, id);

-- The shapes of sagas whose steps come from their input: items, their keys, and the inputs of
-- included sagas, as a JSON object.
CREATE TABLE sagas.shapes(id bigint PRIMARY KEY, shape text NOT NULL);

-- The labels of sagas.
CREATE TABLE sagas.labels(
  id bigint NOT NULL, name text NOT NULL, value text NOT NULL, PRIMARY KEY(id, name));
CREATE INDEX labels_value ON sagas.labels(name, value, id);

-- The children: sagas that other sagas started, each with the id of its parent.
CREATE TABLE sagas.children(id bigint PRIMARY KEY, parent bigint NOT NULL);
CREATE INDEX children_parent ON sagas.children(parent);

-- The outcomes of attempts. action: run or undo. number: the number of the attempt. event: the
-- event of the report (commit, missed, fail, undone, undo_missed, undo_fail), or ok before the
-- report. value: the result, or an object with `error`, `final` and `called`.
CREATE TABLE sagas.attempts(
  id bigint NOT NULL, step integer NOT NULL, action text NOT NULL, number integer NOT NULL,
  event text NOT NULL, value text, at double precision NOT NULL, PRIMARY KEY(id, step, action,
  number));

-- Attempts that are suspended. reason:
-- unknown: the outcome is unknown. count: how often; detail: the error; until: the next attempt, or
--   null once an operator must answer.
-- wait: until a time.
-- approval: it was requested; until: when the request expires, or null.
-- child: count children did not complete.
-- cannot_decode, program_error, no_definition: the detail has the error.
-- Attempt 0 never begins. It holds a report on a step that has not started: early_result and
-- early_error (detail: as the value of an attempt), and early_undone: a result of a saga that ended
-- without it, where another saga undoes the step, if there is anything to undo.
-- Attempt 0 of step -1 with the reason end_call: the saga has ended, and the saga that calls its
-- on_end function is not started yet. detail: why it cannot be started.
CREATE TABLE sagas.suspensions(
  id bigint NOT NULL, step integer NOT NULL, action text NOT NULL, number integer NOT NULL,
  reason text NOT NULL,
  count integer NOT NULL, since double precision NOT NULL, until double precision, detail text,
  PRIMARY KEY(id, step, action, number));

-- The spans of attempts that waited, or were called again. at: the time of the first span. spans: a
-- JSON list of [word, start, error] (core/spans.py). Only people read them.
CREATE TABLE sagas.attempt_spans(
  id bigint NOT NULL, step integer NOT NULL, action text NOT NULL, number integer NOT NULL,
  at double precision NOT NULL, spans text NOT NULL, PRIMARY KEY(id, step, action, number, at));

-- The last progress that the functions of attempts reported (`Task.progress`). Only people read it.
CREATE TABLE sagas.progress(
  id bigint NOT NULL, step integer NOT NULL, action text NOT NULL, number integer NOT NULL,
  fraction double precision NOT NULL, detail text, at double precision NOT NULL,
  PRIMARY KEY(id, step, action, number)) WITH (fillfactor = 70);

-- Requests to the node that has a saga. command: abort or finish. value and answer: JSON. saga: the
-- id of the saga, so that a later saga with the same key does not get the request.
CREATE TABLE sagas.operator_commands(
  id bigint GENERATED ALWAYS AS IDENTITY PRIMARY KEY, key text NOT NULL, command text NOT NULL,
  value text,
  at double precision NOT NULL, answer text, saga bigint);
CREATE INDEX operator_commands_open ON sagas.operator_commands(id) WHERE answer IS NULL;
CREATE INDEX operator_commands_key ON sagas.operator_commands(key);

-- Sagas that clients started and that no shard has yet. node: the node that is about to open it.
-- digest: of the client's definition, or null if the client has no steps of it. Then any node takes
-- it that has a saga of that name and version. commands: the requests for it: a JSON list of lists
-- with id, command, value and at. They are deleted with the start, or move to `operator_commands`
-- in the commit that opens its saga. refused: why the input yields no steps. Then no node takes it,
-- and `at` is the time when it was refused.
CREATE TABLE sagas.pending_starts(
  id bigint GENERATED ALWAYS AS IDENTITY PRIMARY KEY, key text NOT NULL UNIQUE,
  saga text NOT NULL, version integer NOT NULL,
  input text NOT NULL, at double precision NOT NULL, node text, digest text,
  labels jsonb NOT NULL DEFAULT '{}', deadline double precision, traceparent text,
  commands jsonb NOT NULL DEFAULT '[]', refused text);

-- Attempts that external workers execute, from the commit that offers them on. attempt: its id.
-- task: what a worker claims, saga/step/action, or empty if a message carries it. concurrency: the
-- maximum number of leases of the task, or null. lease: the newest one, or null. until: when the
-- lease ends, by this server's clock. outcome: null, then the reported one (OutcomeKind) under the
-- lease `reported`, or one of: suspended (the outcome is unknown, and it is offered again), person
-- (an operator must answer), withdrawn (no worker had it), `settled` (a commit has it). value: as
-- in attempts. cancelled: why its saga is to be undone (aborted or failed), which its worker gets
-- with its heartbeat.
CREATE TABLE sagas.external_attempts(
  attempt text PRIMARY KEY, shard bigint NOT NULL, id bigint NOT NULL, step integer NOT NULL,
  action text NOT NULL,
  number integer NOT NULL, task text NOT NULL, concurrency integer,
  offered_at double precision NOT NULL, lease bigint,
  worker text, since double precision, until double precision,
  given_back boolean NOT NULL DEFAULT false, outcome text,
  value text, reported bigint, cancelled text) WITH (fillfactor = 70);
CREATE INDEX external_attempts_offered ON sagas.external_attempts(task, offered_at)
  WHERE outcome IS NULL;
CREATE INDEX external_attempts_bound ON sagas.external_attempts(task)
  WHERE outcome IS NULL AND concurrency IS NOT NULL;
CREATE INDEX external_attempts_reported ON sagas.external_attempts(shard)
  WHERE outcome IN ('succeeded', 'failed', 'failed_permanently', 'unknown');
CREATE INDEX external_attempts_id ON sagas.external_attempts(id);

-- Deliveries to webhooks, written with the event that they report. state: pending, delivered or
-- failed. attempts: the number of posts that began. status: of the last response. error: why there
-- was none. due: when it is posted next, or again if the program that posts it ends.
CREATE TABLE sagas.webhook_deliveries(
  id text PRIMARY KEY, webhook text NOT NULL, type text NOT NULL, saga bigint NOT NULL,
  key text NOT NULL, body text NOT NULL, at double precision NOT NULL,
  state text NOT NULL DEFAULT 'pending', attempts integer NOT NULL DEFAULT 0, status integer,
  error text, due double precision DEFAULT 0);
CREATE INDEX webhook_deliveries_due ON sagas.webhook_deliveries(webhook, due)
  WHERE state = 'pending';
CREATE INDEX webhook_deliveries_at ON sagas.webhook_deliveries(at);

-- Slots of steps that are limited over all nodes, by saga and step. A keyed limit also has the
-- digest of the key, and a slot only while a node has it. kind: limit (each running call has a
-- slot, as long as the lease of its node holds) or rate (a call takes a slot until a time, in
-- seconds of this server's clock).
CREATE TABLE sagas.limit_slots(
  name text NOT NULL, kind text NOT NULL, slot integer NOT NULL, node text, until double precision,
  PRIMARY KEY(name, kind, slot)) WITH (fillfactor = 50);

-- Schedules. cron: an expression, or empty. every: seconds, or 0. catch_up: last, all or skip.
-- next_at: the first time that was not started. error: why the last saga could not be started.
CREATE TABLE sagas.schedules(
  name text PRIMARY KEY, saga text NOT NULL, version integer NOT NULL, input text NOT NULL,
  labels text NOT NULL, cron text NOT NULL, every double precision NOT NULL,
  timezone text NOT NULL, catch_up text NOT NULL, next_at double precision NOT NULL,
  last_at double precision, paused smallint NOT NULL DEFAULT 0, error text);

-- Calls between services. command: a word. payload and answer: JSON. The caller deletes the row,
-- and a crash of the server may lose it.
CREATE UNLOGGED TABLE sagas.peer_calls(
  id text PRIMARY KEY, node text NOT NULL, command text NOT NULL, payload text NOT NULL,
  at timestamptz NOT NULL DEFAULT now(), answer text);

-- Secrets of the store. `leases`: the key that signs leases of workers, in hex. `codec`: a program
-- with a codec has opened the store, whose values are encoded.
CREATE TABLE sagas.secrets(name text PRIMARY KEY, value text NOT NULL);
"""

PAUSES = """
-- Pauses. scope: the name of what it covers: everything, a definition (`saga`), a `step` of it, or
-- a `queue`. forward_only: whether compensations start. refuse_starts: whether new sagas are
-- refused. paused_by: who paused it, or null.
CREATE TABLE sagas.pauses(
  scope text PRIMARY KEY, saga text, step text, queue text, forward_only smallint NOT NULL,
  refuse_starts smallint NOT NULL, note text NOT NULL, paused_by text,
  at double precision NOT NULL);
"""
DRAINS = """
-- What a node stores with each heartbeat. beat: its time. release: of the package. accepting: how
-- many of its shards accept new sagas. running: how many functions run, of at most `concurrency`;
-- null until the node has opened. stopping: whether it is about to end.
ALTER TABLE sagas.nodes ADD COLUMN IF NOT EXISTS beat timestamptz,
  ADD COLUMN IF NOT EXISTS release text, ADD COLUMN IF NOT EXISTS open_sagas integer,
  ADD COLUMN IF NOT EXISTS accepting integer, ADD COLUMN IF NOT EXISTS running integer,
  ADD COLUMN IF NOT EXISTS concurrency integer,
  ADD COLUMN IF NOT EXISTS stopping boolean NOT NULL DEFAULT false;

-- Nodes that an operator has drained, by name. drained_by: who did it, or null. seen: when the node
-- last ran. The row is deleted a day later.
CREATE TABLE sagas.drains(
  name text PRIMARY KEY, note text NOT NULL, drained_by text, at double precision NOT NULL,
  seen timestamptz NOT NULL DEFAULT now());
"""
TRENDS = """
-- Counts of events by time, for charts. Each is kept for three widths of a bucket. at: when the
-- bucket begins. measure: what is counted (core/trends.py). The count of `oldest_task` is seconds.
CREATE TABLE sagas.trends(
  width integer NOT NULL, at bigint NOT NULL, saga text NOT NULL, measure text NOT NULL,
  count bigint NOT NULL, PRIMARY KEY(width, at, saga, measure)) WITH (fillfactor = 70);
"""
DELETED_SAGAS = """
-- The marks of sagas that retention has deleted and whose shard remains, with the columns of their
-- rows that the audit compares with the event log. The event log still has their events.
CREATE TABLE sagas.deleted_sagas(
  id bigint PRIMARY KEY, definition_index integer NOT NULL, phase text NOT NULL,
  recovered boolean NOT NULL, undo_failed boolean NOT NULL, ended double precision NOT NULL,
  deleted_at double precision NOT NULL);
"""
VERSION = 1

STARTED = "CREATE INDEX IF NOT EXISTS sagas_started ON sagas.sagas(at, id)"
"""For tables of older releases, which have no index of start times."""
LACKS_STARTED = """
SELECT to_regclass('sagas.sagas_started') IS NULL AND pg_has_role(relowner, 'USAGE')
FROM pg_class WHERE oid = to_regclass('sagas.sagas')
"""
"""Whether the index is missing, and this user may create it."""
ADDED = {
    "pauses": PAUSES,
    "drains": DRAINS,
    "trends": TRENDS,
    "deleted_sagas": DELETED_SAGAS,
    "database_map": database_maps.TABLE,
}
"""The tables that stores of older releases do not have, with their statements."""
LACKS = "SELECT to_regclass(%s) IS NULL"
GRANTS = """
SELECT format('GRANT %%s ON sagas.%%I TO %%I', CAST(%s AS text), CAST(%s AS text), grantee)
FROM information_schema.role_table_grants
WHERE table_schema = 'sagas' AND table_name = 'schedules' AND privilege_type = 'INSERT'
  AND grantee <> current_user
"""
"""The rights on an added table for those who have them on the schedules."""
ROWS = "SELECT, INSERT, UPDATE, DELETE"
READ_ONLY = ("store", "database_map")
"""The tables whose rows only commands of the owner change."""
REMEDY = "Run `CREATE INDEX CONCURRENTLY sagas_started ON sagas.sagas(at, id)`"

TABLES = (
    "nodes",
    "pending_starts",
    "shards",
    "event_log",
    "takeovers",
    "sagas",
    "labels",
    "children",
    "attempts",
    "suspensions",
    "attempt_spans",
    "progress",
    "operator_commands",
    "external_attempts",
    "definitions",
    "shard_definitions",
    "shapes",
    "limit_slots",
    "webhook_deliveries",
    "schedules",
    "pauses",
    "drains",
    "trends",
    "deleted_sagas",
    "peer_calls",
    "secrets",
)
"""The tables whose rows a node and a client read and write."""


def version_of(connection: psycopg.Connection[tuple[object, ...]]) -> int:
    """Return the version of the tables; 0 if there are none."""
    if connection.execute("SELECT to_regclass('sagas.store')").fetchone() == (None,):
        return 0
    row = connection.execute("SELECT version FROM sagas.store").fetchone()
    return int(str(row[0])) if row else 0


def check(version: int, store_name: str) -> None:
    """Raise `StoreSchemaTooNew` if the tables are of a later version."""
    if version > VERSION:
        raise StoreSchemaTooNew(
            f"{store_name}: its tables have version {version}, and this program knows "
            f"{VERSION}. Use a later release"
        )


def migrate(connection: psycopg.Connection[tuple[object, ...]], store_name: str) -> int:
    """Create missing tables in one transaction, and return the version before.

    Older stores get the tables of `ADDED`, and the index of start times if this user may create
    it.

    The connection commits each statement. Raises `StoreSchemaTooNew`, or `InvalidStore` if this
    user may not create the tables.
    """
    return conflicts.repeated_now(lambda: _migrate(connection, store_name))


def _migrate(connection: psycopg.Connection[tuple[object, ...]], store_name: str) -> int:
    try:
        version = version_of(connection)
        check(version, store_name)
        if version == VERSION and not _lacks_started(connection) and not _missing(connection):
            return version
        # before the transaction: one that waits for the lock may not see new tables
        connection.execute(f"SELECT {SERVER.lock('%s')}", (LOCK,))
        try:
            version = version_of(connection)
            check(version, store_name)
            if version < VERSION:
                with connection.transaction():
                    _make(connection)
            elif _lacks_started(connection):
                _add_started(connection, store_name)
            for table in _missing(connection):
                _add(connection, table)
        finally:
            connection.execute(f"SELECT {SERVER.unlock('%s')}", (LOCK,))
        return version
    except errors.InsufficientPrivilege as error:
        raise InvalidStore(
            f"{store_name}: {str(error).splitlines()[0]}: "
            f"{RIGHTS.format(role=connection.info.user)}"
        ) from error


def _missing(connection: psycopg.Connection[tuple[object, ...]]) -> list[str]:
    """Return the tables that a store of an older release does not have."""
    return [
        table
        for table in ADDED
        if connection.execute(LACKS, (f"sagas.{table}",)).fetchone() == (True,)
    ]


def _add(connection: psycopg.Connection[tuple[object, ...]], table: str) -> None:
    """Create a table in a store of an older release."""
    with connection.transaction():
        connection.execute(ADDED[table])
        rights = "SELECT" if table in READ_ONLY else ROWS
        for (grant,) in connection.execute(GRANTS, (rights, table)).fetchall():
            connection.execute(str(grant))


def _lacks_started(connection: psycopg.Connection[tuple[object, ...]]) -> bool:
    return connection.execute(LACKS_STARTED).fetchone() == (True,)


def _add_started(connection: psycopg.Connection[tuple[object, ...]], store_name: str) -> None:
    """Create the index, unless other nodes would have to wait for it for long.

    Lists are slow without it.
    """
    try:
        with connection.transaction():
            connection.execute("SET LOCAL lock_timeout = '5s'")
            connection.execute(STARTED)
    except (errors.InsufficientPrivilege, errors.LockNotAvailable, errors.QueryCanceled) as error:
        detail = str(error).splitlines()[0]
        logger.warning("%s: %s. Lists are slow without an index. %s", store_name, detail, REMEDY)


def _make(connection: psycopg.Connection[tuple[object, ...]]) -> None:
    connection.execute("CREATE SCHEMA IF NOT EXISTS sagas")
    connection.execute("CREATE TABLE sagas.store(version integer NOT NULL)")
    connection.execute(SCHEMA)
    for statement in ADDED.values():
        connection.execute(statement)
    connection.execute(f"INSERT INTO sagas.store VALUES({VERSION})")


def allow(connection: psycopg.Connection[tuple[object, ...]], role: str) -> None:
    """Grant a role the rights that a node and a client need: only the rows of these tables.

    Raises `InvalidStore` if this user cannot grant them.
    """
    conflicts.repeated_now(lambda: _allow(connection, role))


def _allow(connection: psycopg.Connection[tuple[object, ...]], role: str) -> None:
    name = sql.Identifier(role)
    with connection.transaction():
        connection.execute(sql.SQL("GRANT USAGE ON SCHEMA sagas TO {}").format(name))
        for table in READ_ONLY:
            read = sql.SQL("GRANT SELECT ON sagas.{} TO {}")
            connection.execute(read.format(sql.Identifier(table), name))
        for table in TABLES:
            connection.execute(
                sql.SQL("GRANT SELECT, INSERT, UPDATE, DELETE ON sagas.{} TO {}").format(
                    sql.Identifier(table), name
                )
            )
        connection.execute(
            sql.SQL("GRANT USAGE ON ALL SEQUENCES IN SCHEMA sagas TO {}").format(name)
        )
        connection.execute(sql.SQL("GRANT EXECUTE ON FUNCTION sagas.last_seq TO {}").format(name))
        are_granted = (
            "has_schema_privilege(%(role)s, 'sagas', 'USAGE') "
            "AND has_table_privilege(%(role)s, 'sagas.shards', 'INSERT')"
        )
        # PostgreSQL only warns if nothing was granted
        (is_granted,) = connection.execute(f"SELECT {are_granted}", {"role": role}).fetchone() or (
            False,
        )
        if is_granted is not True:
            raise InvalidStore(
                f"{connection.info.user} cannot grant these rights to {role}. Run the command as "
                "the owner of the schema `sagas`"
            )


# -- tables that a promoted standby does not have

MISSING = (errors.UndefinedTable, errors.InvalidSchemaName)
"""The errors of a server that has no tables of a store."""


class MissingTables:
    """Checks whether the tables are missing, for one node."""

    def __init__(self, url: str, path: str) -> None:
        self._url, self._path = url, path
        self._timeline = ""  # of the last server that had the tables
        self.refusal: InvalidStore | None = None
        """Why they cannot be created. It was logged."""

    def seen(self, timeline: str) -> None:
        """Note that the server with this timeline has the tables."""
        self._timeline, self.refusal = timeline, None

    async def make(self, error: StoreUnavailable) -> bool:
        """Create the tables if they are the reason of this error.

        Return whether that was done.

        If they cannot be created, the reason is logged once.
        """
        if not isinstance(error.__cause__, MISSING):
            return False
        try:
            await asyncio.to_thread(self._make)
        except StoreUnavailable:
            return False  # the next error is reported
        except InvalidStore as refusal:
            if str(self.refusal) != str(refusal):
                logger.error("%s", refusal)
            self.refusal = refusal
            return False
        logger.warning("%s: made the tables, which this server did not have", self._path)
        return True

    def _make(self) -> None:
        with connections.translate_errors(self._path):
            with contextlib.closing(
                connections.connect_now(self._url, Purpose.ADMIN)
            ) as connection:
                (timeline,) = connection.execute(f"SELECT {connections.TIMELINE}").fetchone() or (
                    "",
                )
                if timeline == self._timeline:
                    raise InvalidStore(
                        f"{self._path}: the tables of the store are gone, and nothing is executed. "
                        "Close all nodes, restore the database, and start them again"
                    )
                migrate(connection, self._path)
