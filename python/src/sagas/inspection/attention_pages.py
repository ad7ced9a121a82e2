"""Pages of what requires an operator, one kind at a time, and groups of the same cause."""

from __future__ import annotations

import dataclasses
import json
import re
from collections.abc import Iterable
from typing import Any, Optional

from sagas.core.attention import AttentionReason
from sagas.definition.payloads import unescaped
from sagas.inspection import lists, names as names_module
from sagas.inspection.lists import chain_of
from sagas.inspection.names import Names
from sagas.inspection.question import Query, Question
from sagas.storage.filters import Filter
from sagas.storage.queries import (
    DAMAGED,
    DAMAGED_SINCE,
    NO_NODE,
    NO_NODE_DETAIL,
    OF_SHARD,
    PHASES,
    WITHOUT_NODE_SINCE,
)

EntryPosition = Optional[tuple[float, int, int]]
"""The last entry of the previous page: its saga's start and id, and its step's index or -1."""
APPROVAL = "approval"
KINDS = (*(reason.value for reason in AttentionReason), APPROVAL)
FAILED_STEPS = "SELECT f.step FROM attempts f WHERE f.id = s.id AND f.event = 'fail'"
UNCALLED = """instr({}.value, '"called":false') > 0"""
CAUSE = f"""(SELECT x.value FROM attempts x WHERE x.id = s.id AND x.event IN ('missed', 'fail')
  AND x.step = (SELECT c.step FROM attempts c WHERE c.id = s.id AND c.event IN ('missed', 'fail')
    AND c.step IN ({FAILED_STEPS}) ORDER BY {UNCALLED.format("c")}, c.at, c.step LIMIT 1)
  ORDER BY {UNCALLED.format("x")}, x.at DESC LIMIT 1)"""
"""Selects the last error of the step that failed first, if possible of attempts that were called.

Other steps fail after it, or are given up because of it.
"""
STUCK = f"""
SELECT s.at AS started, s.id, -1 AS place, s.key, s.saga, d.definition, '' AS action,
  s.outcome, {CAUSE}, s.ended, NULL
FROM sagas s {OF_SHARD} WHERE {PHASES["stuck"]}
"""
UNDO_FAILED = f"""
SELECT s.at AS started, s.id, r.step, s.key, s.saga, d.definition, 'undo', NULL,
  {lists.LAST_ERROR}, r.at, NULL
FROM sagas s CROSS JOIN attempts r {OF_SHARD}
WHERE r.id = s.id AND r.event = 'undo_fail' AND {PHASES["undo_failed"]}
"""
HELD = f"""
SELECT s.at AS started, s.id, h.step, s.key, s.saga, d.definition, h.action, NULL, h.detail,
  h.since, h.until
FROM suspensions h JOIN sagas s ON s.id = h.id AND s.phase IS NULL {OF_SHARD}
WHERE h.reason = """
UNUSED = f"""
SELECT s.at AS started, s.id, h.step, s.key, s.saga, d.definition, h.action, NULL, h.detail,
  h.since, NULL
FROM suspensions h JOIN sagas s ON s.id = h.id {OF_SHARD} WHERE {lists.UNUSED_REPORT}
"""
ON_END = f"""
SELECT s.at AS started, s.id, -1 AS place, s.key, s.saga, d.definition, 'run', NULL, h.detail,
  h.since, NULL
FROM suspensions h JOIN sagas s ON s.id = h.id {OF_SHARD} WHERE {lists.END_FAULT}
"""
IN_DAMAGED = f"""
SELECT s.at AS started, s.id, -1 AS place, s.key, s.saga, coalesce(d.definition, ''), '' AS action,
  NULL, l.audit, {DAMAGED_SINCE}, NULL
{DAMAGED}
"""
WITHOUT_NODE = f"""
SELECT s.at AS started, s.id, -1 AS place, s.key, s.saga, coalesce(d.definition, ''), '' AS action,
  NULL, {NO_NODE_DETAIL}, {WITHOUT_NODE_SINCE}, NULL
{NO_NODE}
"""
BY_KIND = {
    "stuck": (STUCK, "-1", "s.ended"),
    "undo_failed": (UNDO_FAILED, "r.step", "r.at"),
    "unused_report": (UNUSED, "h.step", "h.since"),
    "unknown": (f"{HELD} 'unknown' AND h.until IS NULL", "h.step", "h.since"),
    "exhausted": (f"{HELD} 'exhausted'", "h.step", "h.since"),
    "cannot_decode": (f"{HELD} 'cannot_decode'", "h.step", "h.since"),
    "program_error": (f"{HELD} 'program_error'", "h.step", "h.since"),
    "on_end": (ON_END, "-1", "h.since"),
    "no_definition": (f"{HELD} 'no_definition'", "h.step", "h.since"),
    "no_node": (WITHOUT_NODE, "-1", WITHOUT_NODE_SINCE),
    "damaged": (IN_DAMAGED, "-1", DAMAGED_SINCE),
    APPROVAL: (f"{HELD} 'approval'", "h.step", "h.since"),
}
"""The entries of each kind, and the columns that have their steps and since when they wait."""
NOTHING = Filter()
NUMBERS = re.compile(r"[0-9a-f]{8,}(?:-[0-9a-f]{4,})*|\d+")
"""The parts that differ between errors of one cause: numbers and hexadecimal identifiers."""
MAX_GROUPED = 20_000


@dataclasses.dataclass(frozen=True, slots=True)
class Entry:
    """An item that needs an operator.

    Attributes:
        step: The step's name. None if the saga is stuck, its shard is damaged or without a node, or
            no program could start its `on_end` call.
        blocking: The steps that make every plan infeasible, if the saga is stuck.
        detail: The error, or what cannot be read. For an unused report, its result as stored.
        by: The sender of the unused report.
        digest: That of the saga's definition.
        database: The index of the database that has the saga, if the store has several.
    """

    kind: str
    started: float
    id: int
    step_index: int
    key: str
    saga: str
    step: str | None
    undo: bool
    blocking: list[str]
    detail: str | None
    since: float
    until: float | None
    by: str | None = None
    digest: str = ""
    database: int = 0

    @property
    def subject(self) -> str:
        """The step, or the blocking steps of a stuck saga."""
        return " and ".join(self.blocking) or self.step or ""

    @property
    def error(self) -> str:
        """The error without numbers. Results of unused reports are not errors: they differ."""
        if self.kind == AttentionReason.UNUSED_REPORT or not self.detail:
            return ""
        return NUMBERS.sub("…", self.detail)

    @property
    def cause(self) -> str:
        """What is equal for all entries of a group: the error, or the step if there is none.

        An action and a compensation have two causes, and so have stuck sagas with other steps.
        """
        is_of_step = not self.error or self.kind == AttentionReason.STUCK
        return json.dumps([self.undo, self.subject if is_of_step else "", self.error])


MAX_SUBJECTS = 3
"""How many steps the title of a group names."""


@dataclasses.dataclass(frozen=True, slots=True)
class Group:
    """Entries of one definition and one cause, in their order.

    Attributes:
        saga: The name of the definition.
        cause: As `Entry.cause`. It identifies the group.
        entries: The entries. There is at least one.
    """

    saga: str
    cause: str
    entries: list[Entry]

    @property
    def subjects(self) -> list[str]:
        """The steps of the entries, each once, in their order."""
        return list(dict.fromkeys(entry.subject for entry in self.entries if entry.subject))

    @property
    def title(self) -> str:
        """The steps and the error, for people."""
        subjects = self.subjects
        named = ", ".join(subjects[:MAX_SUBJECTS])
        if len(subjects) > MAX_SUBJECTS:
            named += f" and {len(subjects) - MAX_SUBJECTS} more steps"
        first = self.entries[0]
        of = f"undoing {named}" if first.undo and named else named
        return ": ".join(part for part in (of, first.error) if part)


def entries(
    kind: str,
    sagas: Filter = NOTHING,
    step: str | None = None,
    undo: bool | None = None,
    *,
    after: EntryPosition = None,
    newest: bool = False,
    limit: int = 100,
    since_before: float | None = None,
) -> Question[list[Entry]]:
    """Return a page of entries of one of `KINDS`, ordered by the starts of the sagas.

    Args:
        kind: The kind of entries.
        sagas: The filter of sagas, without a phase.
        step: The name or the declared name of a step. Default: entries of all steps.
        undo: Whether to return compensations (True) or actions (False) of `step`. Default: both.
        after: The last entry of the previous page.
        newest: Whether the newest sagas come first.
        limit: The maximum number of entries.
        since_before: Only entries that have waited since before this time. Default: all.
    """
    text, step_column, _ = BY_KIND[kind]
    conditions, parameters = _among(kind, sagas, since_before)
    if after is not None:
        sign, (at, id, _) = "<" if newest else ">", after
        conditions.append(f"(+s.at, s.id) {sign}= (?, ?) AND (s.id <> ? OR {step_column} > ?)")
        parameters += [at, id, *after[1:]]
    down = " DESC" if newest else ""  # few are sorted: a + keeps from the index of all
    order = f"ORDER BY +s.at{down}, s.id{down}{'' if step_column == '-1' else ', ' + step_column}"
    wanted = limit if step is None else MAX_GROUPED
    query = " AND ".join([text, *conditions]) + f" {order} LIMIT ?"
    rows = yield Query(query, (*parameters, wanted))
    names = yield from names_module.of_digests(row[5] for row in rows)
    is_whole = kind in (AttentionReason.DAMAGED, AttentionReason.NO_NODE)  # it has no step
    listed = [row for row in rows if is_whole or row[5] in names]
    if step is not None:
        listed = [row for row in listed if row[2] >= 0 and names.is_of(step, row[5], row[2])]
    result = [_entry(kind, names, *row) for row in listed]
    if kind == AttentionReason.UNUSED_REPORT:
        by = yield from lists.reporters(entry.key for entry in result)
        reported = ((entry, by.get((entry.key, entry.step or ""))) for entry in result)
        result = [dataclasses.replace(entry, by=reporter) for entry, reporter in reported]
    if step is None:
        return result
    return [entry for entry in result if undo in (None, entry.undo)][:limit]


def _among(kind: str, sagas: Filter, since_before: float | None) -> tuple[list[str], list[Any]]:
    """Return the conditions of a filter and their parameters, for a small result."""
    condition, parameters = sagas.condition(of_few=True)
    if since_before is None:
        return [condition], parameters
    return [condition, f"{BY_KIND[kind][2]} < ?"], [*parameters, since_before]


def _entry(
    kind: str,
    names: Names,
    started: float,
    id: int,
    step_index: int,
    key: str,
    saga: str,
    digest: str,
    action: str,
    outcome: str | None,
    detail: str | None,
    *times: Any,
) -> Entry:
    steps = names.of(digest) if digest in names else []
    blocking = chain_of(steps, outcome) if kind == AttentionReason.STUCK else []
    if detail is not None and kind in (AttentionReason.STUCK, AttentionReason.UNDO_FAILED):
        detail = str((json.loads(detail) or {}).get("error", ""))
    if detail is not None and kind == AttentionReason.UNUSED_REPORT:
        detail = unescaped(detail)
    step = None if step_index < 0 else steps[step_index]
    undo = action == "undo"
    since, until = times
    parts = (key, saga, step, undo, blocking, detail, since, until)
    return Entry(kind, started, id, step_index, *parts, digest=digest)


def count(
    kind: str,
    sagas: Filter = NOTHING,
    step: str | None = None,
    undo: bool | None = None,
    *,
    by_saga: bool = False,
    since_before: float | None = None,
) -> Question[int]:
    """Count the entries of a kind. With `by_saga`, count each saga once.

    The other arguments are those of `entries`.
    """
    if step is not None:
        selected = entries(kind, sagas, step, undo, limit=MAX_GROUPED, since_before=since_before)
        return len((yield from selected))
    conditions, parameters = _among(kind, sagas, since_before)
    text = " AND ".join([BY_KIND[kind][0], *conditions])
    counted = "DISTINCT c.id" if by_saga else "*"
    rows = yield Query(f"SELECT count({counted}) FROM ({text}) c", (*parameters,))
    return int(rows[0][0])


def groups(listed: Iterable[Entry]) -> list[Group]:
    """Group entries by definition and cause, in the order of the first entry of each group."""
    result: dict[tuple[str, str], Group] = {}
    for entry in listed:
        at = entry.saga, entry.cause
        result.setdefault(at, Group(*at, [])).entries.append(entry)
    return list(result.values())
