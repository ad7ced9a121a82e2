"""The tables."""

from __future__ import annotations

PLANNED = "recovered"
"""Whether a plan ended a saga, because a step failed or the saga was aborted."""

UNDO_FAILED = "recovered AND undo_failed"
"""Whether a compensation of such a saga failed permanently.

The index of the sagas that a plan ended is used to find them.
"""

TABLES = """
-- Definitions: TOML texts, each once, by their digests.
CREATE TABLE definitions(definition TEXT PRIMARY KEY, text TEXT NOT NULL) WITHOUT ROWID;

-- The definitions of a shard, by their indexes (`place`). A shard of sagas whose steps come from
-- their input gets more definitions with its sagas.
CREATE TABLE shard_definitions(
  shard INTEGER NOT NULL, place INTEGER NOT NULL, definition TEXT NOT NULL,
  PRIMARY KEY(shard, place)) WITHOUT ROWID;

-- closed: 0 if the shard is open, 1 if it is closed and passed its audit, 2 if it is closed and
-- failed its audit. audit: the verdict of the audit, or why no program can drive an open shard.
CREATE TABLE shards(
  shard INTEGER PRIMARY KEY, name TEXT NOT NULL UNIQUE,
  closed INTEGER NOT NULL DEFAULT 0, audit TEXT);
CREATE INDEX shards_open ON shards(shard) WHERE closed = 0;

-- The events of one commit, one per line. first_seq: the shard's number of events before them.
CREATE TABLE event_log(
  shard INTEGER NOT NULL, first_seq INTEGER NOT NULL, committed_at REAL NOT NULL,
  text TEXT NOT NULL,
  PRIMARY KEY(shard, first_seq)) WITHOUT ROWID;

-- definition_index: the index of its definition in the shard. deadline: when it is aborted.
-- traceparent: the W3C trace context of its start. phase: null while open, then ended or stuck.
-- outcome: JSON (aborted, answer, kept, states). recovered: a plan ended it. undo_failed: and a
-- compensation failed permanently. note: the note of the operator who resolved it, or null. Open
-- sagas are found by the shards that are not closed: an index of open sagas would cost each saga
-- two more pages of the WAL.
CREATE TABLE sagas(
  id INTEGER PRIMARY KEY, key TEXT NOT NULL UNIQUE, saga TEXT NOT NULL,
  definition_index INTEGER NOT NULL,
  input TEXT NOT NULL, at REAL NOT NULL, deadline REAL, phase TEXT, outcome TEXT,
  recovered INTEGER NOT NULL DEFAULT 0,
  undo_failed INTEGER NOT NULL DEFAULT 0, ended REAL, note TEXT, traceparent TEXT);
CREATE INDEX sagas_stuck ON sagas(id) WHERE phase = 'stuck';
CREATE INDEX sagas_recovered ON sagas(id) WHERE recovered;
CREATE INDEX sagas_started ON sagas(at);

-- The labels of sagas.
CREATE TABLE labels(
  id INTEGER NOT NULL, name TEXT NOT NULL, value TEXT NOT NULL, PRIMARY KEY(id, name))
  WITHOUT ROWID;
CREATE INDEX labels_value ON labels(name, value, id);

-- The children: sagas that other sagas started, each with the id of its parent.
CREATE TABLE children(id INTEGER PRIMARY KEY, parent INTEGER NOT NULL);
CREATE INDEX children_parent ON children(parent);

-- The shapes of sagas whose steps come from their input: items, their keys, and the inputs of
-- included sagas, as a JSON object.
CREATE TABLE shapes(id INTEGER PRIMARY KEY, shape TEXT NOT NULL);

-- The outcomes of attempts. action: run or undo. number: the number of the attempt. event: the
-- event of the report (commit, missed, fail, undone, undo_missed, undo_fail). value: the result, or
-- an object with `error`, `final` and `called`.
CREATE TABLE attempts(
  id INTEGER NOT NULL, step INTEGER NOT NULL, action TEXT NOT NULL, number INTEGER NOT NULL,
  event TEXT NOT NULL, value TEXT, at REAL NOT NULL,
  PRIMARY KEY(id, step, action, number)) WITHOUT ROWID;

-- Attempts that are suspended. reason:
-- unknown: the outcome is unknown. count: how often; detail: the error; until: the next attempt, or
--   null once an operator must answer.
-- wait: until a time.
-- approval: it was requested; until: when the request expires, or null.
-- child: count children did not complete.
-- cannot_decode, program_error, no_definition: the detail has the error.
-- Attempt 0 never begins. It holds a report on a step that has not started: early_result and
-- early_error (detail: as the value of an attempt), and early_undone: a result of a saga that ended
-- without it, where another saga undoes the step, if there is anything to undo.
-- Attempt 0 of step -1 with the reason end_call: the saga has ended, and the saga that calls its
-- on_end function is not started yet. detail: why it cannot be started.
CREATE TABLE suspensions(
  id INTEGER NOT NULL, step INTEGER NOT NULL, action TEXT NOT NULL, number INTEGER NOT NULL,
  reason TEXT NOT NULL,
  count INTEGER NOT NULL, since REAL NOT NULL, until REAL, detail TEXT, PRIMARY KEY(id, step,
  action, number)) WITHOUT ROWID;

-- The spans of attempts that waited, or were called again. at: the time of the first span. spans: a
-- JSON list of [word, start, error] (core/spans.py). Only people read them.
CREATE TABLE attempt_spans(
  id INTEGER NOT NULL, step INTEGER NOT NULL, action TEXT NOT NULL, number INTEGER NOT NULL,
  at REAL NOT NULL, spans TEXT NOT NULL, PRIMARY KEY(id, step, action, number, at)) WITHOUT ROWID;

-- The last progress that the functions of attempts reported (`Task.progress`). Only people read it.
CREATE TABLE progress(
  id INTEGER NOT NULL, step INTEGER NOT NULL, action TEXT NOT NULL, number INTEGER NOT NULL,
  fraction REAL NOT NULL, detail TEXT, at REAL NOT NULL,
  PRIMARY KEY(id, step, action, number)) WITHOUT ROWID;

-- Requests of operators to the program that has the store open. command: abort or finish. value and
-- answer: JSON.
CREATE TABLE operator_commands(
  id INTEGER PRIMARY KEY, key TEXT NOT NULL, command TEXT NOT NULL, value TEXT, at REAL NOT NULL,
  answer TEXT);
CREATE INDEX operator_commands_open ON operator_commands(id) WHERE answer IS NULL;
CREATE INDEX operator_commands_key ON operator_commands(key);

-- Attempts that external workers execute, from the commit that offers them on.
-- attempt: its id. task: what a worker claims, saga/step/action, or empty if a message carries it.
-- concurrency: the maximum number of leases of the task, or null. lease: the newest one, or null.
-- until: when the lease ends. outcome: null, then the reported one (OutcomeKind) under the lease
-- `reported`, or one of: suspended (the outcome is unknown, and it is offered again), person (an
-- operator must answer), withdrawn (no worker had it), `settled` (a commit has it). value: as in
-- attempts. cancelled: why its saga is to be undone (aborted or failed), which its worker gets with
-- its heartbeat.
CREATE TABLE external_attempts(
  attempt TEXT PRIMARY KEY, shard INTEGER NOT NULL, id INTEGER NOT NULL, step INTEGER NOT NULL,
  action TEXT NOT NULL,
  number INTEGER NOT NULL, task TEXT NOT NULL, concurrency INTEGER, offered_at REAL NOT NULL,
  lease INTEGER, worker TEXT,
  since REAL, until REAL, given_back INTEGER NOT NULL DEFAULT 0, outcome TEXT, value TEXT,
  reported INTEGER, cancelled TEXT) WITHOUT ROWID;
CREATE INDEX external_attempts_offered ON external_attempts(task, offered_at) WHERE outcome IS NULL;
CREATE INDEX external_attempts_bound ON external_attempts(task)
  WHERE outcome IS NULL AND concurrency IS NOT NULL;
CREATE INDEX external_attempts_reported ON external_attempts(shard)
  WHERE (outcome IN ('succeeded', 'failed') OR outcome IN ('failed_permanently', 'unknown'));
CREATE INDEX external_attempts_id ON external_attempts(id);

-- Deliveries to webhooks, written with the event that they report. state: pending, delivered or
-- failed. attempts: the number of posts that began. status: of the last response. error: why there
-- was none. due: when it is posted next, or again if the program that posts it ends.
CREATE TABLE webhook_deliveries(
  id TEXT PRIMARY KEY, webhook TEXT NOT NULL, type TEXT NOT NULL, saga INTEGER NOT NULL,
  key TEXT NOT NULL, body TEXT NOT NULL, at REAL NOT NULL,
  state TEXT NOT NULL DEFAULT 'pending', attempts INTEGER NOT NULL DEFAULT 0, status INTEGER,
  error TEXT, due REAL DEFAULT 0) WITHOUT ROWID;
CREATE INDEX webhook_deliveries_due ON webhook_deliveries(webhook, due)
  WHERE state = 'pending';
CREATE INDEX webhook_deliveries_at ON webhook_deliveries(at);

-- Slots of steps with a rate limit, by saga and step. Each is taken until a time. Only PostgreSQL
-- has slots with a node.
CREATE TABLE limit_slots(
  name TEXT NOT NULL, kind TEXT NOT NULL, slot INTEGER NOT NULL, node TEXT, until REAL,
  PRIMARY KEY(name, kind, slot)) WITHOUT ROWID;

-- Schedules. cron: an expression, or empty. every: seconds, or 0. catch_up: last, all or skip.
-- next_at: the first time that was not started. error: why the last saga could not be started.
CREATE TABLE schedules(
  name TEXT PRIMARY KEY, saga TEXT NOT NULL, version INTEGER NOT NULL, input TEXT NOT NULL,
  labels TEXT NOT NULL, cron TEXT NOT NULL, every REAL NOT NULL, timezone TEXT NOT NULL,
  catch_up TEXT NOT NULL, next_at REAL NOT NULL, last_at REAL, paused INTEGER NOT NULL DEFAULT 0,
  error TEXT) WITHOUT ROWID;

-- Secrets of the store. `leases`: the key that signs leases of workers, in hex. `codec`: a program
-- with a codec has opened the store, whose values are encoded.
CREATE TABLE secrets(name TEXT PRIMARY KEY, value TEXT NOT NULL) WITHOUT ROWID;
"""
PAUSES = """
-- Pauses. scope: the name of what it covers: everything, a definition (`saga`), a `step` of it, or
-- a `queue`. forward_only: whether compensations start. refuse_starts: whether new sagas are
-- refused. paused_by: who paused it, or null.
CREATE TABLE IF NOT EXISTS pauses(
  scope TEXT PRIMARY KEY, saga TEXT, step TEXT, queue TEXT, forward_only INTEGER NOT NULL,
  refuse_starts INTEGER NOT NULL, note TEXT NOT NULL, paused_by TEXT, at REAL NOT NULL)
  WITHOUT ROWID
"""
"""Also for files of older releases, which have no such table."""

TRENDS = """
-- Counts of events by time, for charts. Each is kept for three widths of a bucket. at: when the
-- bucket begins. measure: what is counted (core/trends.py). The count of `oldest_task` is seconds.
CREATE TABLE IF NOT EXISTS trends(
  width INTEGER NOT NULL, at INTEGER NOT NULL, saga TEXT NOT NULL, measure TEXT NOT NULL,
  count INTEGER NOT NULL, PRIMARY KEY(width, at, saga, measure)) WITHOUT ROWID
"""
"""Also for files of older releases."""

DELETED_SAGAS = """
-- The marks of sagas that retention has deleted and whose shard remains, with the columns of their
-- rows that the audit compares with the event log. The event log still has their events.
CREATE TABLE IF NOT EXISTS deleted_sagas(
  id INTEGER PRIMARY KEY, definition_index INTEGER NOT NULL, phase TEXT NOT NULL,
  recovered INTEGER NOT NULL, undo_failed INTEGER NOT NULL, ended REAL NOT NULL,
  deleted_at REAL NOT NULL)
"""
"""Also for files of older releases."""

STARTED = "CREATE INDEX IF NOT EXISTS sagas_started ON sagas(at)"
"""For files of older releases, which have no index of start times."""

VERSION = 1
"""The value of `PRAGMA user_version`. A program refuses a store of a later version."""


def statements() -> list[str]:
    """Return the statements that create the tables: each ends with a semicolon and its line."""
    return [part for part in TABLES.split(";\n") if part.strip()]
