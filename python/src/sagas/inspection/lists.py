"""Questions about many sagas: counts, lists, and what waits for an operator."""

from __future__ import annotations

import dataclasses
import json
from collections.abc import Callable, Iterable, Mapping
from typing import Any

from sagas.base.errors import CannotDecode
from sagas.core import states
from sagas.core.attention import Attention, AttentionReason
from sagas.core.states import AFTER_FAILURE
from sagas.core.history import FAILURE_EVENTS, was_called
from sagas.core.results import DefinitionCount, Summary
from sagas.definition.definition_text import version_of
from sagas.definition.labels import TOKEN
from sagas.definition.payloads import unescaped
from sagas.inspection import names as names_module
from sagas.inspection.names import Names
from sagas.inspection.question import Query, Question, Row
from sagas.inspection.views import Waits
from sagas.storage import schedules as schedules_module
from sagas.storage.filters import EVERYTHING, Filter, Scope
from sagas.storage.queries import (
    DAMAGED,
    DAMAGED_SINCE,
    HEAD,
    HEAD_LENGTH,
    HELD,
    HELD_BADLY,
    LABELS,
    NO_NODE,
    NO_NODE_DETAIL,
    OF_SHARD,
    PERSON,
    PHASES,
    UNDOABLE,
    NOT_ABORTED,
    UNDOING_KEYS,
    WITHOUT_NODE_SINCE,
    labels_of,
)
from sagas.storage.schedules import Schedule

Counts = dict[str, dict[str, int]]
COUNTED = ("open", "completed", "recovered", "stuck", "resolved")
SUMMARY = (
    "s.id, s.key, s.saga, s.phase, s.at, s.ended, s.note, s.recovered, s.undo_failed, s.deadline, "
    f"{LABELS}, {HEAD}"
)
LAST_ERROR = """coalesce((SELECT v.value FROM attempts v
  WHERE v.id = r.id AND v.step = r.step AND v.action = r.action
    AND v.event IN ('undo_missed', 'undo_fail') AND instr(v.value, '"called":false') = 0
  ORDER BY v.number DESC LIMIT 1), r.value)"""
"""The error of the last attempt `r` of a compensation that was called.

After a permanent failure the attempts that are left are given up without a call.
"""
SAME = (
    "{0}.id = {1}.id AND {0}.step = {1}.step AND {0}.action = {1}.action AND {0}.number = "
    "{1}.number"
)
SUSPENDED = f"""(
  SELECT u.* FROM suspensions u WHERE NOT (reason IN ('unknown', 'retry') AND EXISTS (
    SELECT 1 FROM external_attempts e WHERE {SAME.format("e", "u")} AND e.outcome IS NULL)){{u}}
  UNION ALL SELECT e.id, e.step, e.action, e.number, 'external',
    coalesce((SELECT count FROM suspensions u WHERE {SAME.format("u", "e")}), 0), e.since, e.until,
    e.worker
  FROM external_attempts e
  WHERE e.outcome IS NULL AND e.worker IS NOT NULL AND e.until IS NOT NULL{{e}}{{unclaimed}})"""
"""Suspended attempts and claimed tasks, with room for a further condition on each.

A task that is offered again is not listed, although its row still names the last worker.
"""
UNCLAIMED = """
  UNION ALL SELECT e.id, e.step, e.action, e.number, 'worker', 0, e.offered_at, NULL, NULL
  FROM external_attempts e
  WHERE e.outcome IS NULL AND e.task > '' AND e.worker IS NULL AND e.offered_at < ?"""
"""Tasks that were offered to workers before a given time, and that no worker has claimed."""
OF_KEY = " AND {}.id = (SELECT id FROM sagas WHERE key = ?)"
WAITS = "NOT (reason = 'wait' AND until = 0) AND number > 0"
"""Excludes timers that have expired, whose rows remain, and reports of steps that have not started
(attempt 0).
"""
COUNTS = f"""
SELECT saga, 'completed', count(*) FROM sagas s WHERE {{0}} GROUP BY saga
UNION ALL SELECT saga, 'open', count(*) FROM sagas s WHERE {PHASES["open"]} AND {{0}} GROUP BY saga
UNION ALL SELECT saga, CASE WHEN note IS NULL THEN 'stuck' ELSE 'resolved' END, count(*)
  FROM sagas s WHERE phase = 'stuck' AND {{0}} GROUP BY 1, 2
UNION ALL SELECT saga, CASE WHEN note IS NULL THEN 'recovered' ELSE 'resolved' END, count(*)
  FROM sagas s WHERE recovered AND {{0}} GROUP BY 1, 2
"""
"""All sagas of each definition, and those of each phase that has an index. So the query sorts only
names.
"""
UNASKED = """NOT EXISTS (SELECT 1 FROM operator_commands r WHERE r.key = s.key
  AND r.command = 'abort' AND (r.answer IS NULL OR r.answer IN ('true', 'false')))"""
"""No operator has requested to abort saga `s`. A request that was refused counts: it would be
refused again.
"""
OLDEST = "ORDER BY +s.at, s.id"
"""Oldest first, for small results. The + keeps the databases from using the index of all sagas."""
DEFAULT_LIMIT, ALL, ALL_SAGAS = 100, 1 << 60, Filter()


def summary_of(row: Row) -> Summary:
    """Return a saga summary from the columns of `SUMMARY`."""
    id, key, saga, phase, at, ended, note, recovered, undo_failed, deadline, labels, head = row
    return Summary(
        id,
        key,
        saga,
        states.saga_phase(phase, bool(recovered), note).value,
        at,
        ended,
        note,
        bool(undo_failed),
        labels_of(labels),
        deadline,
        None if head is None else version_of(head),
    )


def counts(scope: Scope = EVERYTHING) -> Question[Counts]:
    """Count sagas by name and phase."""
    result: Counts = {}
    condition, parameters = scope.condition()
    rows = yield Query(
        COUNTS.format(condition), (*parameters, *parameters, *parameters, *parameters)
    )
    for saga, phase, count in sorted(rows, key=lambda row: str(row[1]) != "completed"):
        phases = result.setdefault(saga, dict.fromkeys(COUNTED, 0))
        phases[phase] += count
        if phase != "completed":  # includes all phases so far
            phases["completed"] -= count
    return dict(sorted(result.items()))


HEADS = f"SELECT definition, substr(text, 1, {HEAD_LENGTH}) FROM definitions"
"""The beginning of each definition, which contains its version."""


OpenByToken = dict[str, tuple[int, int]]
OPEN_BY_TOKEN = f"""
SELECT b.value FROM sagas s JOIN labels b ON b.id = s.id AND b.name = '{TOKEN}'
WHERE {PHASES["open"]}
"""


def open_by_token() -> Question[OpenByToken]:
    """Return, by token name, how many open sagas a service started for it, and the bytes of their
    inputs.
    """
    result: OpenByToken = {}
    for (text,) in (yield Query(OPEN_BY_TOKEN, is_long=True)):
        size, _, name = text.partition(" ")
        count, total = result.get(name, (0, 0))
        result[name] = count + 1, total + int(size)
    return result


def definitions() -> Question[list[DefinitionCount]]:
    """Count the sagas of each version of each definition, ordered by name and version."""
    rows = yield Query(
        f"""
        SELECT d.definition, s.saga, count(*), count(CASE WHEN s.phase IS NULL THEN 1 END)
        FROM sagas s {OF_SHARD} GROUP BY 1, 2
        """,
        is_long=True,
    )
    heads: dict[str, str] = {digest: head for digest, head in (yield Query(HEADS, is_long=True))}
    undoable = {row[:2]: row[2] for row in (yield Query(UNDOABLE, is_long=True))}
    result = dict[tuple[str, int], tuple[int, int, int]]()
    for digest, saga, total, open in rows:
        if digest in heads:  # else it was deleted concurrently
            name = saga, version_of(heads[digest])
            before, held = result.get(name, (0, 0, 0)), undoable.get((digest, saga), 0)
            result[name] = open + before[0], total + before[1], held + before[2]
    return [DefinitionCount(*name, *counts) for name, counts in sorted(result.items())]


def schedules() -> Question[list[Schedule]]:
    """Return the schedules, ordered by name."""
    rows = yield Query(schedules_module.ALL)
    return [schedules_module.of_row(row) for row in rows]


def count(filter: Filter) -> Question[int]:
    """Count the sagas that a filter selects."""
    condition, parameters = filter.condition()
    rows = yield Query(f"SELECT count(*) FROM sagas s WHERE {condition}", (*parameters,))
    return int(rows[0][0])


def to_abort(sagas: Filter, limit: int) -> Question[tuple[int, list[str]]]:
    """Count the sagas of a filter without an abort request, and return the keys of the oldest.

    Sagas that undo children or call `on_end` are left out.
    """
    condition, parameters = sagas.condition()
    source = f"FROM sagas s WHERE {condition} AND {UNASKED} AND NOT {NOT_ABORTED}"
    rows = yield Query(f"SELECT count(*) {source}", (*parameters, UNDOING_KEYS))
    keys = yield Query(
        f"SELECT s.key {source} {OLDEST} LIMIT ?", (*parameters, UNDOING_KEYS, limit)
    )
    return int(rows[0][0]), [str(key) for key, in keys]


def undoing(sagas: Filter) -> Question[int]:
    """Count the sagas of a filter that undo children or call `on_end`: they are not aborted."""
    condition, parameters = sagas.condition()
    query = f"SELECT count(*) FROM sagas s WHERE {condition} AND {NOT_ABORTED}"
    rows = yield Query(query, (*parameters, UNDOING_KEYS))
    return int(rows[0][0])


def waits(
    limit: int = DEFAULT_LIMIT,
    *,
    person: bool = True,
    why: str | None = None,
    key: str | None = None,
    scope: Scope = EVERYTHING,
    within: Filter | None = None,
    offered_before: float | None = None,
    step: str | None = None,
) -> Question[list[Waits]]:
    """Return suspended attempts, the oldest first.

    Args:
        limit: The maximum number of attempts.
        person: Whether to return only attempts that wait for an operator.
        why: Only attempts with this reason.
        key: Only attempts of the saga with this key.
        scope: Only attempts of sagas in this scope.
        within: Only attempts of sagas that this filter selects.
        offered_before: Also return tasks offered to workers before this time that none has claimed,
            with the reason `worker`.
        step: Only attempts of steps with this name or declared name.
    """
    visible, parameters = scope.condition()
    conditions = [WAITS, visible]
    if within is not None:
        condition, more = within.condition()
        conditions.append(condition)
        parameters += more
    if person:
        conditions.append(PERSON)
    if why is not None:
        conditions.append("reason = ?")
        parameters.append(why)
    held, keys = "suspensions", list[Any]()
    if key is not None and person:
        conditions.append(f"h.id = h.id{OF_KEY.format('h')}")
        parameters.append(key)
    elif not person:
        of_key = {part: OF_KEY.format(part) if key is not None else "" for part in ("u", "e")}
        unclaimed = "" if offered_before is None else UNCLAIMED
        held, keys = SUSPENDED.format(**of_key, unclaimed=unclaimed), [key, key] if key else []
        keys += [offered_before] if unclaimed else []
    rows = yield Query(
        f"""
        SELECT s.key, s.saga, d.definition, {HELD}
        FROM {held} h JOIN sagas s ON s.id = h.id {OF_SHARD}
        WHERE {' AND '.join(conditions)} ORDER BY h.since LIMIT ?
        """,
        (*keys, *parameters, limit if step is None else ALL),  # the rows have no names of steps
    )
    names = yield from names_module.of_digests(row[2] for row in rows)
    known = (row for row in rows if row[2] in names)
    return [
        _waits(names, *row) for row in known if step is None or names.is_of(step, row[2], row[4])
    ][:limit]


def _waits(
    names: Names,
    key: str,
    saga: str,
    digest: str,
    id: int,
    step: int,
    action: str,
    number: int,
    why: str,
    count: int,
    *times: Any,
) -> Waits:
    since, until, detail = times
    name = names.of(digest)[step]
    if why in AFTER_FAILURE:  # its row counts on from the engine's last attempt, or from a retry
        count += number - 1
    rest = why, max(0, count), since, until, detail
    return Waits(id, key, saga, name, action == "undo", number, *rest)


def stuck(
    limit: int = DEFAULT_LIMIT, scope: Scope = EVERYTHING
) -> Question[list[tuple[Summary, list[str]]]]:
    """Return the unresolved stuck sagas with their blocking steps, the oldest first."""
    condition, parameters = scope.condition()
    rows = yield Query(
        f"""
        SELECT {SUMMARY}, d.definition, s.outcome FROM sagas s {OF_SHARD}
        WHERE {PHASES["stuck"]} AND {condition} {OLDEST} LIMIT ?
        """,
        (*parameters, limit),
    )
    names = yield from names_module.of_digests(row[-2] for row in rows)
    return [
        (summary_of((*columns,)), chain_of(names.of(digest), end))
        for *columns, digest, end in rows
        if digest in names
    ]


def chain_of(names: list[str], end: str | None) -> list[str]:
    """Return the names of the steps that block a stuck saga, from its stored outcome."""
    answer = (json.loads(end).get("answer") if end else None) or {}
    return [names[step] for step in answer.get("chain", ())]


UNUSED_REPORT = (
    "h.number = 0 AND h.reason = 'early_result' AND s.phase IS NOT NULL AND s.note IS NULL"
)
"""Selects the unresolved reports `h` of sagas `s`."""
UNUSED_REPORTS = f"""
SELECT s.key, s.saga, d.definition, 'unused_report', h.step, h.action, h.detail, h.since
FROM suspensions h JOIN sagas s ON s.id = h.id {OF_SHARD}
WHERE {UNUSED_REPORT} AND {{0}} ORDER BY h.since LIMIT ?
"""
END_FAULT = "h.step = -1 AND h.reason = 'end_call' AND h.detail IS NOT NULL"
"""Selects the `on_end` calls `h` that no program could start."""
END_FAULTS = f"""
SELECT s.key, s.saga, d.definition, 'on_end', NULL, 'run', h.detail, h.since
FROM suspensions h JOIN sagas s ON s.id = h.id {OF_SHARD}
WHERE {END_FAULT} AND {{0}} ORDER BY h.since LIMIT ?
"""
REPORTERS = """
SELECT key, value FROM operator_commands
WHERE command = 'complete' AND answer = 'true' AND key IN ({}) ORDER BY id
"""
MAX_KEYS = 500
"""How many keys one query has."""
Reporters = dict[tuple[str, str], str]
"""Who first reported a step, by the saga's key and the step's name."""


def reporters(keys: Iterable[str]) -> Question[Reporters]:
    """Return who reported steps of sagas, if the store has a name."""
    result: Reporters = {}
    left = sorted(set(keys))
    while left:
        batch, left = left[:MAX_KEYS], left[MAX_KEYS:]
        rows = yield Query(REPORTERS.format(", ".join("?" * len(batch))), (*batch,))
        for key, value in rows:
            report = json.loads(value or "null") or {}
            if report.get("by") and report.get("kind", "run") == "run":
                result.setdefault((key, str(report.get("step"))), str(report["by"]))
    return result


IN_DAMAGED = f"""
SELECT s.key, s.saga, coalesce(d.definition, ''), 'damaged', NULL, '', l.audit, {DAMAGED_SINCE}
{DAMAGED} AND {{0}} ORDER BY s.id LIMIT ?
"""


WITHOUT_NODE = f"""
SELECT s.key, s.saga, coalesce(d.definition, ''), 'no_node', NULL, '', {NO_NODE_DETAIL},
  {WITHOUT_NODE_SINCE}
{NO_NODE} AND {{0}} ORDER BY s.id LIMIT ?
"""


def without_node(
    limit: int = DEFAULT_LIMIT, *, key: str | None = None, scope: Scope = EVERYTHING
) -> Question[list[Waits]]:
    """Return the sagas that no node executes, each as what it waits for.

    Args:
        limit: The maximum number of sagas.
        key: Only the saga with this key.
        scope: Only sagas in this scope.
    """
    condition, parameters = scope.condition()
    if key is not None:
        condition, parameters = f"{condition} AND s.key = ?", [*parameters, key]
    rows = yield Query(
        f"SELECT s.id, s.key, s.saga, {WITHOUT_NODE_SINCE}, {NO_NODE_DETAIL} "
        f"{NO_NODE} AND {condition} ORDER BY s.id LIMIT ?",
        (*parameters, limit),
    )
    why = AttentionReason.NO_NODE.value
    return [
        Waits(id, key, saga, "", False, 0, why, 0, since, None, detail)
        for id, key, saga, since, detail in rows
    ]


def attention(
    limit: int = DEFAULT_LIMIT,
    decode: Callable[[str], str] = unescaped,
    sagas: Filter = ALL_SAGAS,
) -> Question[list[Attention]]:
    """Return what needs an operator, the oldest first.

    Args:
        limit: The maximum number of entries.
        decode: Reads a stored result.
        sagas: The filter of sagas, without a phase.
    """
    condition, values = sagas.condition(of_few=True)
    parameters = (*values, limit)
    stuck_sagas = f"""
        SELECT s.key, s.saga, d.definition, 'stuck', NULL, NULL, s.outcome,
          s.ended
        FROM sagas s {OF_SHARD} WHERE {PHASES["stuck"]} AND {condition}
        ORDER BY s.ended, s.id LIMIT ?
        """
    attempts = f"""
        SELECT s.key, s.saga, d.definition,
          h.reason, h.step, h.action, h.detail, h.since
        FROM suspensions h JOIN sagas s ON s.id = h.id {OF_SHARD}
        WHERE {HELD_BADLY} AND {condition} ORDER BY h.since LIMIT ?
        """
    raised = f"""
        SELECT s.key, r.step, r.event, r.value FROM attempts r JOIN sagas s ON s.id = r.id
        WHERE r.event IN {FAILURE_EVENTS} AND r.id IN (
          SELECT s.id FROM sagas s WHERE {PHASES["stuck"]} AND {condition}
          ORDER BY s.ended, s.id LIMIT ?)
        ORDER BY r.at, r.number
        """
    rows = yield Query(stuck_sagas, parameters)
    errors = {
        (key, step): (event.startswith("undo"), value.get("error", ""))
        for key, step, event, text in (yield Query(raised, parameters))
        if was_called(event, value := json.loads(text or "null") or {})
    }
    rows = rows + (yield undone_query(limit, sagas))
    rows = rows + (yield Query(attempts, parameters))
    for text in (IN_DAMAGED, WITHOUT_NODE, END_FAULTS):
        rows = rows + (yield Query(text.format(condition), parameters))
    unused = yield Query(UNUSED_REPORTS.format(condition), parameters)
    sent_by = yield from reporters(row[0] for row in unused)
    entries = yield from _entries(rows + unused, limit, errors)
    return [_reported(entry, sent_by, decode) for entry in entries]


def _reported(entry: Attention, sent_by: Reporters, decode: Callable[[str], str]) -> Attention:
    """Return an entry for an unused report with its result and the sender's name."""
    if entry.why is not AttentionReason.UNUSED_REPORT or entry.step is None:
        return entry
    try:
        detail = decode(entry.detail or "null")
    except CannotDecode:
        detail = None
    return dataclasses.replace(entry, detail=detail, by=sent_by.get((entry.key, entry.step)))


def undone(limit: int = DEFAULT_LIMIT, scope: Scope = EVERYTHING) -> Question[list[Attention]]:
    """Return permanently failed compensations of unresolved sagas that have ended, oldest first."""
    rows = yield undone_query(limit, Filter(scope=scope))
    return (yield from _entries(rows, limit))


def undone_query(limit: int, sagas: Filter) -> Query:
    """Return the query for permanently failed compensations."""
    condition, parameters = sagas.condition(of_few=True)
    return Query(
        f"""
        SELECT s.key, s.saga, d.definition,
          'undo_failed', r.step, 'undo', {LAST_ERROR}, r.at
        FROM sagas s CROSS JOIN attempts r {OF_SHARD}
        WHERE r.id = s.id AND r.event = 'undo_fail' AND {PHASES["undo_failed"]}
          AND {condition} ORDER BY r.at, s.id, r.step LIMIT ?
        """,
        (*parameters, limit),
    )


def _entries(
    rows: list[Row], limit: int, errors: Mapping[tuple[str, int], tuple[bool, str]] = {}
) -> Question[list[Attention]]:
    """Return entries from rows.

    `errors` maps the key of a stuck saga and a step to the last error, and to whether its
    compensation raised it.
    """
    names = yield from names_module.of_digests(row[2] for row in rows)
    entries = []
    for key, saga, digest, reason, step, action, text, since in rows:
        why = AttentionReason(reason)
        if digest not in names and why not in (AttentionReason.DAMAGED, AttentionReason.NO_NODE):
            continue
        steps = names.of(digest) if digest in names else []
        name, detail, undo = None if step is None else steps[step], text, action == "undo"
        if why is AttentionReason.STUCK:
            chain = chain_of(steps, text)
            name = chain[-1] if chain else None
            undo, error = errors.get((key, steps.index(name)), (False, "")) if name else (False, "")
            because = f"because of {' and '.join(chain)}" if chain else ""
            detail = ": ".join(filter(None, [because, error])) or None
        elif why is AttentionReason.UNDO_FAILED and text is not None:
            detail = str(json.loads(text).get("error", ""))
        entries.append(Attention(key, saga, why, name, undo, detail, since))
    return sorted(entries, key=lambda entry: entry.since)[:limit]
