"""One fenced statement for all that a commit writes.

Each part of a commit has its columns and its statement (`PARTS`). All rows go as one JSON text,
each as a list. If no part has more than one row, each value is a parameter of its own instead,
which takes the server about four fifths of the time. Parts without rows are left out, and each form
of the statement is prepared once.

A shard may open a saga without a lookup of its key (`Batch.guessed`). If the key is taken, nothing
of the shard is written, as if another node owned it. So no row is refused, which would end the
whole transaction.
"""

from __future__ import annotations

import functools
import itertools
import json
from collections.abc import Callable, Iterable, Mapping, Sequence
from typing import Any

from sagas.core.shard.batch import Batch, EndedRow, OpenedRow, RareRows, StoredSuspension, Tail
from sagas.core.states import EarlyReason
from sagas.definition import tokens
from sagas.definition.capacity import SHARD_CAPACITY
from sagas.definition.serialization import clean
from sagas.storage import webhook_deliveries, external
from sagas.storage.postgresql import connections
from sagas.storage.postgresql.wire import array

# -- the parts: their columns and statements

FREE = "(v.shard < 0 OR v.shard IN (SELECT shard FROM mine))"
"""Whether a row belongs to no shard, or to one that this node still owns."""

ROWS = {
    "born": "shard bigint, name text",
    "guessed": "shard bigint, key text",
    "definitions": "definition text, text text",
    "defined": "shard bigint, place integer, definition text",
    "lines": "shard bigint, first_seq integer, committed_at double precision, text text, "
    "epoch bigint",
    "opened": (
        "id bigint, key text, saga text, definition_index integer, input text, at double precision"
    ),
    "opened_with": "id bigint, key text, saga text, definition_index integer, input text, "
    "at double precision, deadline double precision, traceparent text",
    "opened_over": (
        "id bigint, key text, saga text, definition_index integer, input text, "
        "at double precision, deadline double precision, traceparent text, phase text, "
        "outcome text, recovered boolean, undo_failed boolean, ended double precision"
    ),
    "results": (
        "id bigint, step integer, action text, number integer, event text, value text, at double "
        "precision"
    ),
    "ended": "phase text, outcome text, ended double precision, id bigint",
    "ended_with": (
        "phase text, outcome text, recovered boolean, undo_failed boolean, ended double precision, "
        "id bigint"
    ),
    "held": (
        "id bigint, step integer, action text, number integer, reason text, count bigint, since "
        "double precision, until double precision, detail text"
    ),
    "freed": "id bigint, step integer, action text, number integer",
    "labels": "id bigint, name text, value text",
    "shapes": "id bigint, shape text",
    "children": "id bigint, parent bigint",
    "progress": (
        "id bigint, step integer, action text, number integer, fraction double precision, detail "
        "text, at double precision"
    ),
    "offers": (
        "attempt text, shard bigint, id bigint, step integer, action text, number integer, task "
        "text, concurrency integer, lease bigint, offered_at double precision, cancelled text"
    ),
    "cancelled": "cancelled text, id bigint, others text[]",
    "suspended": "attempt text, shard bigint, outcome text",
    "withdrawn": "attempt text, shard bigint",
    "settled": "attempt text, shard bigint, came text",
    "deliveries": (
        "id text, webhook text, type text, saga bigint, key text, body text, at double precision"
    ),
    "spans": (
        "id bigint, step integer, action text, number integer, at double precision, spans text"
    ),
    "answers": "shard bigint, answer text, id bigint",
    "requested": (
        "shard bigint, key text, command text, value text, at double precision, answer text"
    ),
    "begun": "shard bigint, id bigint, saga bigint",
    "notes": "note text, id bigint",
    "undone": "id bigint, step integer",
    "end_called": "id bigint",
    "end_faults": "detail text, id bigint",
    "closed": "shard bigint, closed smallint, audit text",
    "set_aside": "shard bigint, audit text",
}
"""The columns of the rows of each part.

Most sagas are opened without a deadline and a trace context, and end without a plan. Their rows are
written without these columns, since psycopg handles each parameter by itself. The gain of that
alone is not measured.

`opened_over`: sagas that also end in the commit. A part that updates a row does not see what
another part inserts.
"""
COLUMNS = {
    part: [
        (name, sql_type)
        for name, _, sql_type in (column.partition(" ") for column in columns.split(", "))
    ]
    for part, columns in ROWS.items()
}

OF_LOG = f"JOIN mine ON mine.shard = v.id / {SHARD_CAPACITY}"
PARTS = {
    "definitions": "INSERT INTO definitions SELECT v.* FROM {rows} ON CONFLICT DO NOTHING",
    "defined": (
        "INSERT INTO shard_definitions SELECT v.* FROM {rows} JOIN mine USING (shard) "
        "ON CONFLICT DO NOTHING"
    ),
    "lines": "INSERT INTO event_log SELECT v.* FROM {rows} JOIN mine USING (shard)",
    "opened": (
        "INSERT INTO sagas(id, key, saga, definition_index, input, at) "
        f"SELECT v.* FROM {{rows}} {OF_LOG}"
    ),
    "opened_with": (
        "INSERT INTO sagas(id, key, saga, definition_index, input, at, deadline, traceparent) "
        f"SELECT v.* FROM {{rows}} {OF_LOG}"
    ),
    "opened_over": (
        "INSERT INTO sagas(id, key, saga, definition_index, input, at, deadline, traceparent, "
        f"phase, outcome, recovered, undo_failed, ended) SELECT v.* FROM {{rows}} {OF_LOG}"
    ),
    "results": f"INSERT INTO attempts SELECT v.* FROM {{rows}} {OF_LOG} "
    "ON CONFLICT (id, step, action, number) DO UPDATE SET event = excluded.event WHERE "
    "attempts.event = 'ok'",
    "ended": (
        "UPDATE sagas SET phase = v.phase, outcome = v.outcome, recovered = false, "
        f"undo_failed = false, ended = v.ended FROM {{rows}} {OF_LOG} WHERE sagas.id = v.id"
    ),
    "ended_with": (
        "UPDATE sagas SET phase = v.phase, outcome = v.outcome, recovered = v.recovered, "
        f"undo_failed = v.undo_failed, ended = v.ended FROM {{rows}} {OF_LOG} WHERE sagas.id = v.id"
    ),
    "held": f"INSERT INTO suspensions SELECT v.* FROM {{rows}} {OF_LOG} "
    "ON CONFLICT (id, step, action, number) DO UPDATE SET reason = excluded.reason, "
    "count = excluded.count, since = excluded.since, until = excluded.until, "
    "detail = excluded.detail",
    "labels": f"INSERT INTO labels SELECT v.* FROM {{rows}} {OF_LOG}",
    "shapes": f"INSERT INTO shapes SELECT v.* FROM {{rows}} {OF_LOG}",
    "children": f"INSERT INTO children SELECT v.* FROM {{rows}} {OF_LOG}",
    "freed": (
        f"DELETE FROM suspensions USING {{rows}} {OF_LOG} WHERE suspensions.id = v.id AND "
        "suspensions.step = v.step AND suspensions.action = v.action AND suspensions.number <= "
        "v.number"
    ),
    "progress": f"INSERT INTO progress SELECT v.* FROM {{rows}} {OF_LOG} "
    "ON CONFLICT (id, step, action, number) DO UPDATE SET fraction = excluded.fraction, "
    "detail = excluded.detail, at = excluded.at",
    "offers": f"INSERT INTO external_attempts AS e({external.OFFER}) "
    "SELECT v.attempt, v.shard, v.id, v.step, v.action, v.number, v.task, v.concurrency, v.lease, "
    "extract(epoch FROM clock_timestamp()), v.cancelled FROM {rows} JOIN mine USING (shard) "
    f"ON CONFLICT (attempt) DO UPDATE SET {external.OFFERED_AGAIN}",
    "cancelled": f"UPDATE external_attempts e SET cancelled = v.cancelled FROM {{rows}} {OF_LOG} "
    "WHERE e.id = v.id AND e.action = 'run' AND e.outcome IS NULL AND e.attempt <> ALL(v.others)",
    "suspended": "UPDATE external_attempts e SET outcome = v.outcome, until = NULL "
    "FROM {rows} JOIN mine USING (shard) WHERE e.attempt = v.attempt AND (e.outcome IS NULL OR "
    "e.outcome IN ('unknown', 'suspended', 'failed', 'failed_permanently'))",
    "withdrawn": "UPDATE external_attempts e SET outcome = 'withdrawn' FROM {rows} "
    f"JOIN mine USING (shard) WHERE e.attempt = v.attempt AND {external.UNCLAIMED} "
    "RETURNING e.attempt",
    "settled": "UPDATE external_attempts e SET outcome = 'settled', value = NULL, "
    "shard = CASE WHEN e.outcome IS DISTINCT FROM 'succeeded' OR v.came = 'succeeded' "
    "THEN e.shard END "
    "FROM {rows} JOIN mine USING (shard) WHERE e.attempt = v.attempt",
    "deliveries": f"INSERT INTO webhook_deliveries({webhook_deliveries.COLUMNS}) "
    "SELECT v.* FROM {rows} "
    f"JOIN mine ON mine.shard = v.saga / {SHARD_CAPACITY} ON CONFLICT DO NOTHING",
    "spans": (
        f"INSERT INTO attempt_spans SELECT v.* FROM {{rows}} {OF_LOG} ON CONFLICT DO NOTHING"
    ),
    "answers": (
        "UPDATE operator_commands SET answer = v.answer FROM {rows} WHERE operator_commands.id "
        f"= v.id AND operator_commands.answer IS NULL AND {FREE}"
    ),
    "requested": (
        "INSERT INTO operator_commands(key, command, value, at, answer) SELECT v.key, v.command, "
        f"v.value, v.at, v.answer FROM {{rows}} WHERE {FREE}"
    ),
    "begun": f"DELETE FROM pending_starts USING {{rows}} WHERE pending_starts.id = v.id AND {FREE} "
    "RETURNING key, commands, v.saga",
    "notes": "UPDATE sagas SET note = v.note FROM {rows} WHERE sagas.id = v.id "
    "AND sagas.note IS NULL",
    "undone": "UPDATE suspensions h SET reason = 'early_undone' FROM {rows} WHERE h.id = v.id "
    "AND h.step = v.step AND h.action = 'run' AND h.number = 0 AND h.reason = 'early_result'",
    "end_called": "DELETE FROM suspensions h USING {rows} WHERE h.id = v.id AND h.step = -1 "
    "AND h.reason = 'end_call'",
    "end_faults": "UPDATE suspensions h SET detail = v.detail FROM {rows} WHERE h.id = v.id "
    "AND h.step = -1 AND h.reason = 'end_call'",
    "closed": (
        "UPDATE shards SET closed = v.closed, audit = v.audit FROM {rows} JOIN mine USING (shard) "
        "WHERE shards.shard = v.shard"
    ),
    "set_aside": (
        "UPDATE shards SET audit = v.audit FROM {rows} JOIN mine USING (shard) "
        "WHERE shards.shard = v.shard AND shards.closed = 0"
    ),
}
"""The statement of each part.

`cancelled`: it changes all attempts of a saga, except those that another part of the commit
changes.

`settled`: if a worker reported a success, and the commit says otherwise, the row's shard would be
null. That is refused, and with it the whole statement. It is also refused if the worker's
transaction was open when this statement began.
"""


# -- the statement

MOVED = """
moved AS (INSERT INTO operator_commands(id, key, command, value, at, saga) OVERRIDING SYSTEM VALUE
  SELECT (request ->> 0)::bigint, key, request ->> 1, request ->> 2,
    (request ->> 3)::double precision, saga
  FROM begun_, jsonb_array_elements(commands) request WHERE saga IS NOT NULL RETURNING id)"""
"""Moves the requests for a start to its saga.

It uses the row that is deleted, in its last version. A part of the statement that looked for rows
would not see requests that were added since the statement began.
"""
HAS_MOVED = -1
"""A row of the reply in place of a shard's number: requests moved.

The nodes are notified of them after the commit.
"""
KEPT = "SELECT shard FROM shards WHERE {mine}{free} FOR SHARE"
CONTINUED = (
    "({first} IS NULL OR EXISTS (SELECT 1 FROM event_log e WHERE e.shard = {shard} "
    "AND e.first_seq = {first} AND e.committed_at = {at}))"
)
"""Whether a shard's last chunk exists, if this node knows one.

A database that was restored from a backup may not have it, with the same owner and epoch.
"""
ALONE = "shard = $3::bigint AND owner = $2 AND epoch = $4::bigint AND " + CONTINUED.format(
    shard="$3::bigint", first="$5::integer", at="$6::double precision"
)
LISTED = (
    "shard = ANY($3::bigint[]) AND owner = $2 "
    "AND epoch = ($4::bigint[])[array_position($3, shard)] AND "
) + CONTINUED.format(
    shard="shards.shard",
    first="($5::integer[])[array_position($3, shards.shard)]",
    at="($6::double precision[])[array_position($3, shards.shard)]",
)
"""Whether this node still owns a shard, and the shard continues from what this node knows.

`ALONE` is for the only shard of a commit, and `LISTED` for one of several.
"""
BORN = (
    "INSERT INTO shards(shard, name, owner, epoch) SELECT v.shard, v.name, $2, 1 "
    "FROM {rows}{free} ON CONFLICT DO NOTHING RETURNING shard, epoch"
)
BIRTHS = connections.TAKEOVER.format(node="$2", last="-1", taken="born")
TAKEN = (
    "SELECT v.shard FROM {rows} JOIN sagas s ON s.key = v.key UNION ALL SELECT v.shard FROM {rows} "
    "JOIN pending_starts i ON i.key = v.key"
)
"""The shards that guessed wrong: a saga has the key, or a client's start without a shard.

Two conditions with `EXISTS` and `OR` may be planned as a scan of all sagas.
"""
WITHDRAWN = ", (SELECT json_agg(attempt)::text FROM withdrawn_)"
"""The attempts that were withdrawn."""
MAX_PARSED = 100 << 20
"""Bytes of rows that PostgreSQL parses at once.

It parses more than about 200 MiB only piece by piece, which takes longer.
"""
dumps = json.JSONEncoder(separators=(",", ":"), check_circular=False).encode


SINGLE_ROWS = "words"
"""The form of a statement with one row of each part."""


@functools.lru_cache(maxsize=None)
def statement(parts: tuple[str, ...], form: str = "jsonb", alone: bool = False) -> str:
    """Return the statement with these parts.

    $1 has the rows of each part, by its name. $2 is the node. $3 to $6 are the node's shards, their
    epochs and the two parts of their tails. If the statement is `alone`, they are those of the only
    shard, which the server looks up in less time.

    In the form of single rows, $1, $7 and so on are the values, part by part.
    """
    rows = _rows_of_parameters(parts) if form == SINGLE_ROWS else _rows_of_json(form)
    guessed, texts = "guessed" in parts, []
    if guessed:
        texts.append(f"taken AS MATERIALIZED ({TAKEN.format(rows=rows('guessed'))})")
    kept = KEPT.format(
        mine=ALONE if alone else LISTED, free=f" AND {_free('shards')}" if guessed else ""
    )
    if "born" in parts:
        born = BORN.format(rows=rows("born"), free=f" WHERE {_free('v')}" if guessed else "")
        texts += [f"kept AS MATERIALIZED ({kept})", f"born AS ({born})", f"births AS ({BIRTHS})"]
        kept = "SELECT shard FROM kept UNION ALL SELECT shard FROM born"
    texts.append(f"mine AS MATERIALIZED ({kept})")
    texts += [
        f"{part}_ AS ({PARTS[part].format(rows=rows(part))})" for part in parts if part in PARTS
    ]
    if "begun" in parts:
        texts.append(MOVED)
    condition = "" if parts else f" WHERE $1::{form} IS NOT NULL"  # each parameter has a type
    withdrawn = WITHDRAWN if "withdrawn" in parts else ""
    moved = ""
    if "begun" in parts:
        moved = f" UNION ALL SELECT {HAS_MOVED}{', NULL' if withdrawn else ''} FROM moved"
    return f"WITH {', '.join(texts)} SELECT shard{withdrawn} FROM mine{condition}{moved}"


def _free(name: str) -> str:
    """Return the condition that no guess of that shard was wrong."""
    return f"NOT EXISTS (SELECT 1 FROM taken WHERE taken.shard = {name}.shard)"


def _attempts(rare: RareRows, part: str) -> Sequence[Sequence[Any]]:
    """Return the rows of a part, if each row is about an external attempt."""
    if part not in EXTERNAL:
        return ()
    if part == "withdrawn":
        return [(withdrawal.attempt, withdrawal.shard) for withdrawal in rare.withdrawn]
    rows: Sequence[Sequence[Any]] = getattr(rare, part)
    return rows


def _undone(row: StoredSuspension) -> StoredSuspension:
    """Return the row of a report for which nothing is left to be undone."""
    is_report = row[3] == 0 and row[4] == EarlyReason.RESULT
    return (*row[:4], EarlyReason.UNDONE.value, *row[5:]) if is_report else row


def _saga_of(shard: int, attempt: str) -> int:
    """Return the id of the saga of an attempt."""
    name = tokens.parse(attempt)
    return shard * SHARD_CAPACITY + name.number if name else -1


def _rows_of_json(form: str) -> Callable[[str], str]:
    def rows(part: str) -> str:
        cells = (
            f"(e ->> {index}){'' if sql_type == 'text' else f'::{sql_type}'} AS {name}"
            for index, (name, sql_type) in enumerate(COLUMNS[part])
        )
        return f"(SELECT {', '.join(cells)} FROM {form}_array_elements($1::{form} -> '{part}') e) v"

    return rows


def _rows_of_parameters(parts: tuple[str, ...]) -> Callable[[str], str]:
    numbers = itertools.chain([1], itertools.count(7))
    cells = {
        part: ", ".join(
            f"${next(numbers)}::{sql_type} AS {name}" for name, sql_type in COLUMNS[part]
        )
        for part in parts
    }
    return lambda part: f"(SELECT {cells[part]}) v"


EXTERNAL = ("offers", "suspended", "withdrawn", "settled")
"""The parts about external attempts. Each of their rows is about one attempt.

Only the last row of an attempt counts, since a statement changes a row once, whatever the order of
its parts. `settled` is always the last.
"""
PLAIN: dict[str, Callable[[int, RareRows], Iterable[Any]]] = {
    "shapes": lambda shard, rare: rare.shapes,
    "labels": lambda shard, rare: rare.labels,
    "children": lambda shard, rare: rare.children,
    "deliveries": lambda shard, rare: rare.deliveries,
    "spans": lambda shard, rare: [(*row[:5], clean(row[5])) for row in rare.spans],
    "answers": lambda shard, rare: [(shard, *answer) for answer in rare.answers],
    "requested": lambda shard, rare: [(shard, *row, answer) for row, answer in rare.requested],
    "begun": lambda shard, rare: [(shard, *row) for row in rare.begun],
    "notes": lambda shard, rare: [(clean(note), id) for note, id in rare.notes],
    "undone": lambda shard, rare: rare.undone,
    "end_called": lambda shard, rare: rare.end_called,
    "end_faults": lambda shard, rare: [(clean(detail), id) for detail, id in rare.end_faults],
    "closed": lambda shard, rare: [(shard, *rare.closed)] if rare.closed else [],
    "set_aside": lambda shard, rare: [(shard, *rare.set_aside)] if rare.set_aside else [],
}
"""The rows of independent parts, by the number of the shard."""


class Commit:
    """All that a list of batches writes.

    If several batches change the same row, it has the final state of the row.

    Attributes:
        batches: The batches.
        epochs: The epoch of each shard.
        events: The number of events after the commit, of each shard that gains some.
        tails: The last chunk before the commit, of each shard that has one.
        parts: The rows of each part that has any.
        rare: What most batches do not have, with the shard.
        has_moved: Whether requests moved from starts to sagas. The reply sets it.
    """

    def __init__(
        self, batches: Sequence[Batch], events: Callable[[int], int], tails: Mapping[int, Tail]
    ) -> None:
        self.batches = batches
        self.tails = tails
        self.epochs = {batch.shard: batch.epoch for batch in batches if batch.shard >= 0}
        self.events: dict[int, int] = {}
        self._before = events
        self.parts: dict[str, Sequence[Any]] = {}
        self.rare: list[tuple[int, RareRows]] = []
        self.has_moved = False
        if len(batches) == 1:
            self._put_one(batches[0])
        else:
            self._put_many(batches)

    def answer(self, withdrawn: str | bytes | None) -> None:
        """Set of each withdrawal whether it was done."""
        attempts = set(json.loads(withdrawn or "[]"))
        for _, rare in self.rare:
            if "withdrawn" in vars(rare):
                for withdrawal in rare.withdrawn:
                    withdrawal.is_done = withdrawal.attempt in attempts

    @property
    def ended(self) -> list[int]:
        """The sagas that end in it."""
        ended = [row[-1] for row in self.rows("ended") or self.rows("ended_with")]
        return ended + [row[0] for row in self.rows("opened_over")]

    def rows(self, part: str) -> Sequence[Sequence[Any]]:
        """Return the rows of a part."""
        return self.parts.get(part, ())

    def _put_one(self, batch: Batch) -> None:
        rows = self.parts
        if batch.text:
            rows["lines"] = [(batch.shard, self._lines(batch), batch.at, batch.text, batch.epoch)]
        if batch.opened or batch.ended:
            self._put_sagas(batch.opened, batch.ended)
        if batch.results:
            rows["results"] = batch.results
        if batch.unchecked_keys:
            rows["guessed"] = [(batch.shard, key) for key in batch.unchecked_keys]
        if batch.rare:
            self.rare.append((batch.shard, batch.rare))
        if batch.rare or batch.new_shard:
            self._others()

    def _put_many(self, batches: Sequence[Batch]) -> None:
        chunks: dict[int, tuple[int, float, list[str]]] = {}
        for batch in batches:
            if batch.text:
                had = self._lines(batch)
                chunks.setdefault(batch.shard, (had, batch.at, []))[2].append(batch.text)
        rows: dict[str, Sequence[Any]] = {
            "lines": [
                (shard, first, at, "".join(texts), self.epochs[shard])
                for shard, (first, at, texts) in chunks.items()
            ],
            "results": [row for batch in batches for row in batch.results],
            "guessed": [(batch.shard, key) for batch in batches for key in batch.unchecked_keys],
        }
        self.parts.update(
            (part, rows_of_part) for part, rows_of_part in rows.items() if rows_of_part
        )
        opened = [row for batch in batches for row in batch.opened]
        self._put_sagas(opened, [row for batch in batches for row in batch.ended])
        self.rare += [(batch.shard, batch.rare) for batch in batches if batch.rare]
        if self.rare or any(batch.new_shard for batch in batches):
            self._others()

    def _put_sagas(self, opened: Sequence[OpenedRow], ended: Sequence[EndedRow]) -> None:
        ends = {row[-1]: row for row in ended} if opened else {}
        if over := [(*row, *ends[row[0]][:-1]) for row in opened if row[0] in ends]:
            self.parts["opened_over"] = over
            ids = {row[0] for row in over}
            opened = [row for row in opened if row[0] not in ids]
            ended = [row for row in ended if row[-1] not in ids]
        self._put_opened(opened)
        self._put_ended(ended)

    def _put_opened(self, rows: Sequence[OpenedRow]) -> None:
        for row in rows:
            if row[6] is not None or row[7] is not None:
                self.parts["opened_with"] = rows
                return
        if rows:
            self.parts["opened"] = [row[:6] for row in rows]

    def _put_ended(self, rows: Sequence[EndedRow]) -> None:
        for row in rows:
            if row[2] or row[3]:
                self.parts["ended_with"] = rows
                return
        if rows:
            self.parts["ended"] = [(*row[:2], *row[4:]) for row in rows]

    def _lines(self, batch: Batch) -> int:
        """Return the number of events of its shard before it."""
        shard = batch.shard
        had = self.events[shard] if shard in self.events else self._before(shard)
        if batch.first != had:
            raise ValueError(f"shard {shard}: event {batch.first} follows event {had}")
        self.events[shard] = had + batch.text.count("\n")
        return had

    def _held(self) -> None:
        """Put the last state of each suspended attempt."""
        held: dict[tuple[int, int, str], dict[int, StoredSuspension]] = {}
        freed: dict[tuple[int, int, str], int] = {}
        for _, rare in self.rare:
            for row in rare.held:
                held.setdefault(row[:3], {})[row[3]] = (
                    (*row[:8], clean(row[8])) if row[8] is not None else row
                )
            for id, step, action, attempt in rare.freed:
                attempt_key = id, step, action
                freed[attempt_key] = max(attempt, freed.get(attempt_key, 0))
                held[attempt_key] = {
                    number: row
                    for number, row in held.get(attempt_key, {}).items()
                    if number > attempt
                }
        undone_rows = [rare.undone for _, rare in self.rare if "undone" in vars(rare)]
        undone = {(*row, "run") for rows in undone_rows for row in rows}
        for attempt_key in (
            undone & held.keys()
        ):  # the part `undone` does not see rows of this commit
            held[attempt_key] = {number: _undone(row) for number, row in held[attempt_key].items()}
        rows = [row for of in held.values() for row in of.values()]
        if rows:
            self.parts["held"] = rows
        if freed:
            self.parts["freed"] = [
                (*attempt_key, attempt) for attempt_key, attempt in freed.items()
            ]

    def _others(self) -> None:
        """Put what most commits do not have."""
        has = {part for _, rare in self.rare for part in vars(rare)}
        if "held" in has or "freed" in has:
            self._held()
        if "defined" in has or any(batch.new_shard for batch in self.batches):
            self._definitions()
        if "cancelled" in has or not has.isdisjoint(EXTERNAL):
            self._external()
        if "progress" in has:
            last = {row[:4]: row for _, rare in self.rare for row in rare.progress}
            self._put("progress", [*last.values()])
        for part, rows_of in PLAIN.items():
            if part in has:
                self._put(part, [row for shard, rare in self.rare for row in rows_of(shard, rare)])

    def _put(self, part: str, rows: Sequence[Any]) -> None:
        if rows:
            self.parts[part] = rows

    def _definitions(self) -> None:
        born = {batch.shard: batch.new_shard for batch in self.batches if batch.new_shard}
        self._put("born", [(shard, name) for shard, (name, _) in born.items()])
        defined = {(shard, *row) for shard, (_, rows) in born.items() for row in rows}
        defined |= {(shard, *row) for shard, rare in self.rare for row in rare.defined}
        # in order, so that two commits with the same definitions cannot deadlock
        self._put("definitions", sorted({row[2:] for row in defined}))
        self._put("defined", sorted({row[:3] for row in defined}))

    def _external(self) -> None:
        """Put the last change of each external attempt."""
        last: dict[str, tuple[str, Any]] = {}
        for _, rare in self.rare:
            for part in vars(rare):
                for row in _attempts(rare, part):
                    if part == "settled" or last.get(row[0], ("",))[0] != "settled":
                        last[row[0]] = part, row
        ended = {
            id: reason for _, rare in self.rare for reason, id in vars(rare).get("cancelled", ())
        }
        for part in EXTERNAL:
            self._put(part, [row for of, row in last.values() if of == part])
        offers = [
            (*row[:-1], ended[row[2]]) if row[2] in ended and row[4] == "run" else row
            for row in self.rows("offers")
        ]
        self._put("offers", offers)
        if ended:
            changed: dict[int, list[str]] = {}
            for attempt, (_, row) in last.items():
                changed.setdefault(_saga_of(row[1], attempt), []).append(attempt)
            cancelled = [
                (reason, id, array(changed.get(id, ())).decode()) for id, reason in ended.items()
            ]
            self._put("cancelled", cancelled)

    def bind(self, node: bytes) -> tuple[str, list[bytes | None]]:
        """Return the statement and its parameters."""
        parts, alone = tuple(sorted(self.parts)), len(self.epochs) == 1
        mine: list[bytes | None]
        if alone:
            ((shard, epoch),) = self.epochs.items()
            tail = self.tails.get(shard)
            mine = [node, b"%d" % shard, b"%d" % epoch, None, None]
            if tail is not None:
                mine[3:] = b"%d" % tail.first_seq, repr(tail.committed_at).encode()
        else:
            tails = [self.tails.get(shard) or ("NULL", "NULL") for shard in self.epochs]
            lists = self.epochs, self.epochs.values(), *(zip(*tails) if tails else ((), ()))
            mine = [
                node,
                *(f"{{{','.join(map(str, parameters))}}}".encode() for parameters in lists),
            ]
        if parts and max(map(len, self.parts.values())) == 1 and (parameters := self._cells(parts)):
            return statement(parts, SINGLE_ROWS, alone), [parameters[0], *mine, *parameters[1:]]
        rows = dumps(self.parts).encode()
        return statement(parts, "jsonb" if len(rows) < MAX_PARSED else "json", alone), [rows, *mine]

    def _cells(self, parts: Iterable[str]) -> list[bytes | None] | None:
        """Return the cells of one row of each part.

        Return None if a cell contains a NUL, or if they are too long. The other form then fails on
        the NUL, or can be that long.
        """
        cells = [*itertools.chain.from_iterable([self.parts[part][0] for part in parts])]
        text = "\0".join(map(str, cells)).encode()
        values: list[bytes | None] = [*text.split(b"\0")]
        if len(values) != len(cells) or len(text) >= MAX_PARSED:
            return None
        return (
            values
            if None not in cells
            else [None if cell is None else word for cell, word in zip(cells, values)]
        )
