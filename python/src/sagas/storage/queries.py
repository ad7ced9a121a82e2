"""Statements that both databases understand.

SQLite and PostgreSQL both understand these queries, which have a `?` for each parameter.
"""

from __future__ import annotations

import json
from collections.abc import Iterable, Sequence
from typing import Any

from sagas.base.errors import NoSuchSaga
from sagas.core.shard.batch import SagaRow, StoredSaga
from sagas.definition import arguments
from sagas.definition.capacity import SHARD_CAPACITY
from sagas.definition.child_sagas import END, UNDO
from sagas.definition.labels import is_hidden
from sagas.definition.payloads import ABSENT, LARGE_VALUE
from sagas.storage.sqlite.schema import PLANNED, UNDO_FAILED

SAGA = "id, key, saga, definition_index, input, at, phase, outcome, ended, note"
RESULT = "r.id, r.step, r.action, r.number, r.event, r.value, r.at"
HELD = "h.id, h.step, h.action, h.number, h.reason, h.count, h.since, h.until, h.detail"


def small(column: str) -> str:
    """Return an expression for a stored value, or for `ABSENT` if the value is large.

    Large values of open sagas are read when a function needs them.
    """
    return f"CASE WHEN length({column}) > {LARGE_VALUE} THEN '{ABSENT}' ELSE {column} END"


OPEN = "s.id >= ? AND s.id < ? AND s.phase IS NULL"

OF_SHARDS = f"WHERE id >= shard * {SHARD_CAPACITY} AND id < (shard + 1) * {SHARD_CAPACITY}"
OPENED = (
    f"(SELECT count(*) FROM sagas {OF_SHARDS}) + (SELECT count(*) FROM deleted_sagas {OF_SHARDS})"
)
"""The number of sagas that a shard has opened, also those that retention has deleted since.

One statement counts both: a deletion moves a saga from one table to the other.
"""
OPEN_COUNT = f"SELECT count(*) FROM sagas {OF_SHARDS} AND phase IS NULL"
LOGS = f"SELECT shard, name, audit, {OPENED}, ({OPEN_COUNT}) FROM shards"
TEXTS = """
SELECT shard, text FROM shard_definitions JOIN definitions USING (definition)
WHERE shard >= ? AND shard <= ? ORDER BY shard, place
"""
"""The definitions of shards, in the order of their indexes."""
DEFINITIONS = "SELECT count(*) FROM shard_definitions WHERE shard = ?"
LINES = "SELECT first_seq, text FROM event_log WHERE shard = ? ORDER BY first_seq"
SMALL_INPUT, SMALL_SHAPE = small("s.input"), small("p.shape")
SMALL_RESULT = RESULT.replace(
    "r.value", f"CASE WHEN r.event IN ('commit', 'undone') THEN {small('r.value')} ELSE r.value END"
)
"""A row of an attempt without a large result.

The errors of failed attempts are needed, and so are the results of transactions that are not
reported yet.
"""
OPEN_SAGAS = (
    f"SELECT s.id, s.key, s.definition_index, {SMALL_INPUT}, s.deadline, s.traceparent, "
    f"(SELECT {SMALL_SHAPE} FROM shapes p WHERE p.id = s.id), s.at "
    f"FROM sagas s WHERE {OPEN} ORDER BY s.id"
)
OPEN_RESULTS = f"""
SELECT {SMALL_RESULT} FROM sagas s CROSS JOIN attempts r WHERE {OPEN} AND r.id = s.id
ORDER BY s.id, r.step, r.action, r.number
"""
OPEN_HELD = f"SELECT {HELD} FROM sagas s CROSS JOIN suspensions h WHERE {OPEN} AND h.id = s.id"
"""SQLite evaluates a CROSS JOIN from left to right, so that the open sagas come first."""
DEFINITION_INDEXES = f"SELECT DISTINCT definition_index FROM sagas s WHERE {OPEN}"
CALLS_END = f"s.key LIKE '%%{arguments.BELOW}{END}%%'"
"""Whether a saga `s` calls an `on_end` function, as `definition.child_sagas.calls_end`.

Each % is doubled for psycopg, which does not change the meaning.
"""
DESCENDANTS = f"""
WITH RECURSIVE below(shard, id, parent) AS (
  SELECT l.shard, c.id, c.parent FROM shards l CROSS JOIN sagas s CROSS JOIN children c
  WHERE EXISTS (SELECT 1 FROM children) AND {{which}} AND s.phase IS NULL AND c.parent = s.id
    AND s.id >= l.shard * {SHARD_CAPACITY} AND s.id < (l.shard + 1) * {SHARD_CAPACITY}
  UNION ALL SELECT b.shard, c.id, c.parent FROM below b CROSS JOIN children c WHERE c.parent = b.id)
"""
"""The descendants of the open sagas of shards, with these shards, and their parents."""
COMPLETED = f"""
FROM below b CROSS JOIN sagas s CROSS JOIN sagas p CROSS JOIN shard_definitions d
WHERE s.id = b.id AND s.phase = 'ended' AND NOT s.{PLANNED}
  AND p.id = b.parent AND (p.phase IS NULL OR p.phase = 'ended' AND NOT p.{PLANNED})
  AND substr(s.key, length(p.key)) NOT LIKE '%%{UNDO}%%' AND NOT {CALLS_END}
  AND NOT EXISTS (SELECT 1 FROM sagas u
    WHERE u.key = s.key || '{UNDO}' AND u.phase = 'ended' AND NOT u.{PLANNED})
  AND d.shard = s.id / {SHARD_CAPACITY} AND d.place = s.definition_index
"""
"""Those descendants that completed, undo no child, do not call `on_end` and are not undone.

They are `s`, with the parent `p` and the definition `d`. Each % is doubled for psycopg, which does
not change the meaning.
"""
COMPLETED_CHILDREN = f"""
{DESCENDANTS} SELECT DISTINCT b.shard, p.phase IS NULL,
  (SELECT q.definition FROM shard_definitions q
   WHERE q.shard = p.id / {SHARD_CAPACITY} AND q.place = p.definition_index),
  substr(s.key, length(p.key) + 3), d.definition {COMPLETED}
"""
"""The columns of a completed child.

They are its shard, whether its parent is open, the parent's definition, the part of its key after
the parent's key, and its definition.
"""
UNDOABLE = f"""
{DESCENDANTS.format(which="l.closed = 0")}
SELECT d.definition, s.saga, count(*) {COMPLETED} GROUP BY 1, 2
"""
"""The number of completed children of each definition, in the whole store."""
COMPLETED_IN_FILE = COMPLETED_CHILDREN.format(which="l.closed = 0")
ALL_DEFINITIONS = "SELECT definition, text FROM definitions"
COUNT = """
SELECT (SELECT count(*) FROM sagas s WHERE s.id >= ? AND s.id < ?)
  + (SELECT count(*) FROM deleted_sagas d WHERE d.id >= ? AND d.id < ?)
"""
"""The number of sagas that a shard has opened. See `OPENED`."""
MARKS = """
SELECT id, definition_index, phase, recovered, undo_failed FROM deleted_sagas
WHERE id >= ? AND id < ? ORDER BY id
"""
"""The marks of deleted sagas."""
LOCKED = "/* locked */"
"""At the end of a query: lock its rows, if the database does not lock all of the store."""
FIND = f"SELECT {SAGA} FROM sagas WHERE key = ?"
FIND_MANY = {
    count: f"SELECT {SAGA} FROM sagas WHERE key IN ({', '.join('?' * count)})"
    for count in (1, 2, 4, 8, 16, 32, 64, 128, 256)
}
"""The statement for each number of keys: few numbers, so that all statements stay cached."""
COUNTS, MAX_KEYS = [*FIND_MANY], max(FIND_MANY)
IN_OPEN_LOGS = f""" AND s.id IN (
  SELECT o.id FROM shards CROSS JOIN sagas o
  WHERE closed = 0 AND o.id >= shard * {SHARD_CAPACITY} AND o.id < (shard + 1) * {SHARD_CAPACITY}
  AND o.phase IS NULL)"""
"""How a file finds open sagas, since it has no index of them.

A shard is closed only when none of its sagas is open, so the sagas of closed shards are not
scanned. The order of the tables is also fast. PostgreSQL has an index, and leaves this out. The
table is `sagas AS s`.
"""
PHASES = {
    "open": f"phase IS NULL{IN_OPEN_LOGS}",
    "completed": f"phase = 'ended' AND NOT {PLANNED}",
    "recovered": f"{PLANNED} AND note IS NULL",
    "undo_failed": f"{UNDO_FAILED} AND note IS NULL",
    "stuck": "phase = 'stuck' AND note IS NULL",
    "resolved": f"(phase = 'stuck' OR ({PLANNED})) AND note IS NOT NULL",
}
"""The phases that a list may select.

- `completed`: all steps succeeded.
- `recovered`: a plan ended the saga, because a step failed or the saga was aborted.
- `undo_failed`: a recovered saga with a compensation that failed permanently.
- `resolved`: an operator has resolved a saga that was stuck or `undo_failed`.
"""
HELD_BADLY = (
    "((reason = 'unknown' AND until IS NULL) "
    "OR reason IN ('exhausted', 'cannot_decode', 'program_error', 'no_definition'))"
)
"""Rows of attempts that need an operator, or another program. Approvals are not among them."""
PERSON = f"(reason = 'approval' OR {HELD_BADLY})"
NOT_ABORTED, UNDOING_KEYS = f"(s.key LIKE ? OR {CALLS_END})", f"%{arguments.BELOW}%{UNDO}%"
"""Whether a saga `s` undoes a child or calls `on_end`, and the parameter for the condition.

Another saga started it, and it is not aborted. `definition.child_sagas.undoes_child` and
`calls_end` are the same conditions on a key.
"""
DAMAGED = f"""FROM shards l CROSS JOIN sagas s
LEFT JOIN shard_definitions d ON d.shard = l.shard AND d.place = s.definition_index
WHERE l.closed = 0 AND l.audit IS NOT NULL AND s.phase IS NULL
AND s.id >= l.shard * {SHARD_CAPACITY} AND s.id < (l.shard + 1) * {SHARD_CAPACITY}"""
"""The open sagas `s` of shards that no program can open.

Their definitions may be missing.
"""
TAKEOVERS = "(SELECT '' AS node, 0.0 AS at, 0 AS id, -1 AS shard)"
"""The takeovers of shards by nodes, as a table. A file has none. `for_postgresql` replaces it."""
WITHOUT_NODE, WITHOUT_NODE_SINCE, LAST_NODES = (
    "(l.shard <> l.shard)",
    "(s.at + 0)",
    "(l.name || '')",
)
"""Whether no node has had a shard `l` for `GRACE`, since when, and the names of the last ones.

A program has each shard of a file, so nothing is without a node there. `for_postgresql` replaces
them.
"""
MAX_NODES = 3
"""How many of the last nodes of a shard are named."""
GRACE = 30.0
"""Seconds for which a shard without a node is not listed: a takeover takes a lease."""
IN_POSTGRESQL = {
    LOCKED: "FOR UPDATE",
    TAKEOVERS: """(SELECT regexp_replace(t.node, '/[0-9a-f]+$', '') AS node,
  extract(epoch FROM t.at)::float8 AS at, t.id, t.shard FROM takeovers t)""",
    WITHOUT_NODE: f"""(NOT EXISTS (SELECT 1 FROM nodes n
  WHERE n.node = l.owner AND n.lease > now() - make_interval(secs => {GRACE}))
AND NOT EXISTS (SELECT 1 FROM takeovers t
  WHERE t.shard = l.shard AND t.at > now() - make_interval(secs => {GRACE})))""",
    WITHOUT_NODE_SINCE: """extract(epoch FROM greatest(
  (SELECT n.lease FROM nodes n WHERE n.node = l.owner),
  (SELECT max(t.at) FROM takeovers t WHERE t.shard = l.shard)))::float8""",
    LAST_NODES: f"""(SELECT string_agg(x.name, ', ' ORDER BY x.id DESC) FROM (
  SELECT regexp_replace(t.node, '/[0-9a-f]+$', '') AS name, max(t.id) AS id FROM takeovers t
  WHERE t.shard = l.shard GROUP BY 1 ORDER BY 2 DESC LIMIT {MAX_NODES}) x)""",
}
NO_NODE = f"""FROM shards l CROSS JOIN sagas s
LEFT JOIN shard_definitions d ON d.shard = l.shard AND d.place = s.definition_index
WHERE {WITHOUT_NODE} AND l.closed = 0 AND l.audit IS NULL AND s.phase IS NULL
AND s.id >= l.shard * {SHARD_CAPACITY} AND s.id < (l.shard + 1) * {SHARD_CAPACITY}"""
"""The open sagas `s` of shards that no node has."""
NO_NODE_DETAIL = f"""('saga ' || s.saga || ' (version ' || coalesce((SELECT CASE
  WHEN substr(x.text, 1, 10) = '# version ' THEN substr(x.text, 11, instr(x.text, '\n') - 11)
  ELSE '1' END FROM definitions x WHERE x.definition = d.definition), 'unknown')
  || '): no node has its shard; it was on ' || coalesce({LAST_NODES}, 'an unknown node'))"""
"""What is missing, and which nodes had it, the last one first."""
NO_NODE_OF = f"SELECT {NO_NODE_DETAIL} {NO_NODE} AND s.id = ?"
"""The detail of one open saga, if no node executes it."""
LAST_COMMIT = "SELECT max(committed_at) FROM event_log e WHERE e.shard = l.shard"
DAMAGED_SINCE = f"coalesce(({LAST_COMMIT}), s.at)"
SORTED_AT = "+(s.at)"
"""The start time of a saga `s` if no index selects few sagas.

It is faster for SQLite to sort than to use the index of start times, which it would choose.
PostgreSQL knows the number of rows.
"""
UNUSED = """(phase IS NOT NULL AND EXISTS (SELECT 1 FROM suspensions x
WHERE x.id = s.id AND x.number = 0 AND x.reason = 'early_result'))"""
"""Whether a saga `s` ended without using an accepted report on one of its steps."""
END_DUE = """EXISTS (SELECT 1 FROM suspensions x
WHERE x.id = s.id AND x.step = -1 AND x.reason = 'end_call')"""
"""Whether the `on_end` call of a saga `s` is due."""
RESOLVABLE = f"(phase = 'stuck' OR ({UNDO_FAILED}) OR {UNUSED})"
"""The sagas `s` that an operator resolves, including those that are resolved."""
RESOLVE = f"UPDATE sagas AS s SET note = ? WHERE key = ? AND {RESOLVABLE} AND note IS NULL"
"""The first note stays."""
LABELS = """CAST((SELECT json_group_object(b.name, b.value) FROM labels b WHERE b.id = s.id)
AS TEXT)"""
"""The labels of a saga `s`, as a JSON object or null. `labels_of` parses it."""
LABELS_OF = "SELECT name, value FROM labels WHERE id = ?"
"""The labels of a saga, in rows. `visible_labels` drops the hidden ones."""
HEAD_LENGTH = 40
"""How many characters the line of a definition may have that contains its version."""
HEAD = f"""(SELECT substr(v.text, 1, {HEAD_LENGTH}) FROM shard_definitions w
JOIN definitions v ON v.definition = w.definition
WHERE w.shard = s.id / {SHARD_CAPACITY} AND w.place = s.definition_index)"""
"""The beginning of the definition of a saga `s`, or null if a damaged shard has lost it."""
PHASE = f"""CASE WHEN phase IS NULL THEN 'open' WHEN note IS NOT NULL THEN 'resolved'
WHEN {PLANNED} THEN 'recovered' WHEN phase = 'ended' THEN 'completed' ELSE phase END"""
OF_SHARD = f"""JOIN shard_definitions d ON d.shard = s.id / {SHARD_CAPACITY}
AND d.place = s.definition_index"""
"""Joins the digest of the definition to a saga `s`."""
DEFINED = f"sagas s {OF_SHARD} JOIN definitions USING (definition)"
"""Sagas, each with the text of its definition."""
DEFINITION = f"SELECT text FROM {DEFINED} WHERE id = ?"
RESULTS = """
SELECT step, action, number, event, value, at FROM attempts WHERE id = ?
ORDER BY step, action, number
"""
"""The outcomes of a saga's attempts: the attempts of each step, then its compensations.

They are not ordered by time, since a clock may step back.
"""
KNOWN = f"""
SELECT 0, 0, '', 0, '', text, 0.0
FROM {DEFINED} WHERE id = ?
UNION ALL SELECT 1, step, action, number, event, value, at FROM attempts WHERE id = ?
UNION ALL SELECT 3, 0, '', 0, '', shape, 0.0 FROM shapes WHERE id = ?
"""
HISTORY = f"""{KNOWN}
UNION ALL SELECT 2, first_seq, '', 0, '', text, committed_at FROM event_log
WHERE shard = ? AND (text LIKE ? OR text LIKE ?)
"""
"""All that is stored of a saga, in one statement.

So a shard that is deleted at the same time is either complete or missing. Of the event log it has
the chunks that name the saga: a line has the saga's number after `"saga":`.
"""
OF_START = "i.saga || '/' || i.version || '/'"
FITS = f"""EXISTS (SELECT 1 FROM nodes n, unnest(n.kinds) k
  WHERE n.lease > now() AND starts_with(k, {OF_START})
  AND k = {OF_START} || coalesce(i.digest, substr(k, length({OF_START}) + 1)))"""
"""Whether a node can take a client's start `i`, by PostgreSQL's tables."""
OTHERS = f"""ARRAY(SELECT DISTINCT n.name FROM nodes n, unnest(n.kinds) k
  WHERE n.lease > now() AND starts_with(k, {OF_START}) AND NOT {FITS} ORDER BY n.name)"""
"""The nodes that have the saga of a start in that version, but only with another definition."""
NODES_WITH = """
SELECT 1 FROM nodes n, unnest(n.kinds) k WHERE n.lease > now() AND starts_with(k, ?) LIMIT 1
"""
"""Whether a node has a definition, by PostgreSQL's tables. See `start_of_kind`."""
NODE_FIGURES = f"""
SELECT (SELECT count(*) FROM nodes n WHERE n.lease > now()), (SELECT count(*) FROM shards l
  WHERE l.closed = 0
  AND NOT EXISTS (SELECT 1 FROM nodes n WHERE n.node = l.owner AND n.lease > now())
  AND EXISTS (SELECT 1 FROM sagas s WHERE s.phase IS NULL
    AND s.id >= l.shard * {SHARD_CAPACITY} AND s.id < (l.shard + 1) * {SHARD_CAPACITY})),
  (SELECT count(*) FROM nodes n WHERE n.lease > now()
    AND EXISTS (SELECT 1 FROM drains d WHERE d.name = n.name))
"""
"""The number of nodes, of shards with open sagas that no node has, and of drained nodes, by
PostgreSQL's tables.
"""
REQUESTS = """
SELECT r.id, r.key, r.command, r.value, s.id FROM operator_commands r LEFT JOIN sagas s USING (key)
WHERE r.answer IS NULL AND r.id > ? ORDER BY r.id LIMIT ?
"""
"""The requests of a file. Requests for a key are deleted together with its saga."""


ERROR = "json_extract(x.value, '$.error')"
"""The error of an attempt `x`, whose value is JSON."""
ERROR_IN_POSTGRESQL = r"""CASE WHEN
  x.value ~ '\\u0000|\\ud[89ab]..(?!\\ud[c-f])|(?<!\\ud[89ab]..)\\ud[c-f]'
  THEN x.value ELSE x.value::json ->> 'error' END"""
"""The same for PostgreSQL.

PostgreSQL does not parse JSON with a NUL or half of a surrogate pair. Such a text is used as it is.
"""


def for_postgresql(query: str, mark: str = "%s") -> str:
    """Return a query for psycopg and PostgreSQL, with a mark for each parameter."""
    query = query.replace(IN_OPEN_LOGS, "").replace("json_group_object", "json_object_agg")
    for text, replacement in IN_POSTGRESQL.items():
        query = query.replace(text, replacement)
    query = query.replace(SORTED_AT, "s.at").replace("instr(", "strpos(")
    return query.replace("?", mark).replace(ERROR, ERROR_IN_POSTGRESQL)  # it contains ?, too


def labels_of(text: str | None) -> dict[str, str]:
    """Return the labels of `LABELS`, sorted by name, without the hidden ones."""
    return visible_labels(sorted(json.loads(text or "{}").items()))


def visible_labels(rows: Iterable[Sequence[Any]]) -> dict[str, str]:
    """Return the labels of rows with name and value, without the hidden ones."""
    return {str(name): str(value) for name, value in rows if not is_hidden(name)}


def start_of_kind(saga: str, version: int) -> str:
    """Return how the definitions of a saga and version begin in `nodes.kinds`."""
    return f"{saga}/{version}/"


def named(query: str, *names: str) -> str:
    """Return a query with a named parameter of psycopg in place of each `?`."""
    for name in names:
        query = query.replace("?", f"%({name})s", 1)
    return query


def texts_of(rows: list[tuple[Any, ...]]) -> dict[int, list[str]]:
    """Return the definitions of each shard, from the rows of `TEXTS`."""
    texts = dict[int, list[str]]()
    for shard, text in rows:
        texts.setdefault(shard, []).append(text)
    return texts


def bounds(shard: int) -> tuple[int, int]:
    """Return the first id of a shard's sagas, and the id after the last."""
    return shard * SHARD_CAPACITY, (shard + 1) * SHARD_CAPACITY


def joined(chunks: list[tuple[Any, ...]]) -> tuple[str, int]:
    """Return a shard's event log and its number of events, from its chunks."""
    events = chunks[-1][0] + chunks[-1][1].count("\n") if chunks else 0
    return "".join(text for _, text in chunks), events


def damage_of(text: str, end: int) -> str | None:
    """Return what is wrong with an event log, if its number of events is not `end`."""
    events = text.count("\n")
    if events == end:
        return None
    return f"its event log has a gap: the last commit ends at event {end}, and {events} are there"


def known_query(id: int, history: bool) -> tuple[Any, ...]:
    """Return the query for what is stored of a saga, and its parameters."""
    if not history:
        return KNOWN, id, id, id
    shard, number = divmod(id, SHARD_CAPACITY)
    return HISTORY, id, id, id, shard, f'%"saga":{number},%', f'%"saga":{number}}}%'


def known(rows: Sequence[tuple[Any, ...]], key: str) -> StoredSaga:
    """Return what these rows contain. Raises `NoSuchSaga` if the saga was deleted."""
    parts: tuple[list[Any], ...] = [], [], [], []
    for row in sorted(rows, key=lambda row: row[:4]):
        parts[row[0]].append(row[1:])
    if not parts[0]:
        raise NoSuchSaga(f"saga {key!r} was deleted while it was read")
    ((*_, text, _),) = parts[0]
    chunks = [(at, chunk) for _, _, _, _, chunk, at in parts[2]]
    shape = parts[3][0][4] if parts[3] else None
    return StoredSaga(text, parts[1], chunks, shape)


class Questions:
    """The queries that each database answers in its own way, by `read`."""

    async def read(self, query: str, *parameters: Any) -> list[tuple[Any, ...]]:
        """Return the rows of a query."""
        raise NotImplementedError

    async def read_stored(self, query: str, *parameters: Any) -> list[tuple[Any, ...]]:
        """As `read`, with references in place of values that are in a blob store."""
        return await self.read(query, *parameters)

    async def read_long(self, query: str, *parameters: Any) -> list[tuple[Any, ...]]:
        """As `read`, for rows that may have many megabytes."""
        return await self.read(query, *parameters)

    async def text(self, shard: int) -> str:
        """Return a shard's event log."""
        return joined(await self.read_long(LINES, shard))[0]

    async def known(self, row: SagaRow) -> StoredSaga:
        """Return what the store has of a saga. Raises `NoSuchSaga` if it was deleted."""
        return known(await self.read(*known_query(row.id, history=False)), row.key)

    async def history(self, row: SagaRow) -> StoredSaga:
        """As `known`, with the chunks of the event log that name the saga."""
        return known(await self.read_long(*known_query(row.id, history=True)), row.key)
