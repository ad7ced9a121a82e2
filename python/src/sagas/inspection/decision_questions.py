"""Questions about decisions: who commanded what, on which sagas or on the store.

A decision is a row of `operator_commands` that names who decides. The rows of a bulk share an id,
and are one entry. A decision is stored in the commit that carries it out, or before that. A
decision on the store, for example a pause, has a key that no saga has.
"""

from __future__ import annotations

import dataclasses
import json
from typing import Any

from sagas.core.decisions import BULK_LENGTH, OF_STORE, DecidedSaga, DecisionEntry, Way
from sagas.inspection.question import Query, Question, Row
from sagas.storage.filters import EVERYTHING, Scope

MAX_KEYS = 1000
"""Maximum number of keys of an entry in a list. An export has all."""
NAMED = """substr(r.value, 1, 6) IN ('{"by":', '{"bulk')"""
"""Selects the commands that name who decides: the keys of the JSON text are sorted."""
ENTRY = f"""CASE WHEN substr(r.value, 1, 9) = '{{"bulk":"' THEN substr(r.value, 10, {BULK_LENGTH})
ELSE CAST(r.id AS TEXT) END"""
"""The id of the entry of a command: that of its bulk, or its own number."""
SOURCE = "FROM operator_commands r LEFT JOIN sagas s ON s.key = r.key"
SUBJECTS = f"substr(r.key, 1, {len(OF_STORE)}) = '{OF_STORE}'"
"""Selects the decisions on the store."""
COLUMNS = f"{ENTRY}, r.id, r.key, s.saga, r.command, r.at, r.value, r.answer"


@dataclasses.dataclass(frozen=True, slots=True)
class DecisionFilter:
    """The decisions that a list has.

    Attributes:
        key: Only those on the saga with this key.
        saga: Only those on sagas with this name.
        command: Only these, for example `retry`.
        scope: Only those on these sagas.
    """

    key: str | None = None
    saga: str | None = None
    command: str | None = None
    scope: Scope = EVERYTHING

    def condition(self) -> tuple[str, list[Any]]:
        """Return the condition on a command `r` of a saga `s`, and its parameters."""
        of_sagas, of_store = self._of_sagas(), self._of_store()
        conditions = [NAMED, f"(({of_sagas[0]}) OR ({of_store[0]}))"]
        values = [*of_sagas[1], *of_store[1]]
        for column, value in {"r.key": self.key, "r.command": self.command}.items():
            if value is not None:
                conditions.append(f"{column} = ?")
                values.append(value)
        return " AND ".join(conditions), values

    def _of_sagas(self) -> tuple[str, list[Any]]:
        condition, parameters = self.scope.condition()
        if self.saga is None:
            return f"s.id IS NOT NULL AND {condition}", parameters
        return f"s.id IS NOT NULL AND {condition} AND s.saga = ?", [*parameters, self.saga]

    def _of_store(self) -> tuple[str, list[Any]]:
        """Return the condition on decisions on the store.

        Like the list of pauses, it has those on everything and on queues for each reader, and those
        on a definition for readers of its sagas. The rest is for readers of all sagas.
        """
        names = self.scope.definitions
        conditions, parameters = list[str](), list[Any]()
        if self.saga is not None:
            conditions.append(_of_definitions(1))
            parameters += _subjects([self.saga])
        if names is not None:
            general = f"r.key = '{OF_STORE}everything' OR {_begins(f'{OF_STORE}queue:')}"
            visible = f" OR {_of_definitions(len(names))}" if names else ""
            conditions.append(f"({general}{visible})")
            parameters += _subjects(sorted(names))
        elif self.scope.keys is not None:
            conditions.append(f"NOT {_begins(f'{OF_STORE}node:')}")
        return " AND ".join([SUBJECTS, *conditions]), parameters


def _begins(text: str) -> str:
    return f"substr(r.key, 1, {len(text)}) = '{text}'"


def _of_definitions(count: int) -> str:
    """Return the condition that a decision is on one of some definitions, or on a step of one."""
    part = "(r.key = ? OR substr(r.key, 1, length(?)) = ?)"
    return f"({' OR '.join([part] * count)})"


def _subjects(names: list[str]) -> list[str]:
    """Return the parameters of `_of_definitions`."""
    result = list[str]()
    for name in names:
        steps = f"{OF_STORE}step:{name}/"
        result += [f"{OF_STORE}saga:{name}", steps, steps]
    return result


def listed(
    of: DecisionFilter, before: int | None = None, limit: int = 100
) -> Question[list[DecisionEntry]]:
    """Return decisions, the newest first.

    Args:
        of: The filter.
        before: Only those with a smaller number.
        limit: The maximum number of entries.
    """
    condition, parameters = of.condition()
    end = "" if before is None else "HAVING min(r.id) < ?"
    first = yield Query(
        f"SELECT {ENTRY}, min(r.id) {SOURCE} WHERE {condition} GROUP BY 1 {end} "
        "ORDER BY 2 DESC LIMIT ?",
        (*parameters, *(() if before is None else (before,)), limit),
        is_long=True,
    )
    entries: dict[str, list[Row]] = {str(name): [] for name, _ in first}
    names = [*entries]
    for begin in range(0, len(names), 100):
        some = names[begin : begin + 100]
        rows = yield Query(
            f"SELECT {COLUMNS} {SOURCE} WHERE {condition} AND {ENTRY} IN "
            f"({', '.join('?' * len(some))}) ORDER BY r.id",
            (*parameters, *some),
            is_long=True,
        )
        for row in rows:
            entries[str(row[0])].append(row)
    return [_entry(rows) for rows in entries.values() if rows]


def _entry(rows: list[Row]) -> DecisionEntry:
    _, number, first_key, _, command, at, value, _ = rows[0]
    fields, of_store = json.loads(value), first_key.startswith(OF_STORE)
    of_sagas = [] if of_store else rows
    return DecisionEntry(
        number,
        command,
        at,
        fields.get("by"),
        fields.get("via", Way.PROGRAM.value),
        fields.get("note"),
        "bulk" in fields,
        first_key.removeprefix(OF_STORE) if of_store else None,
        [_decided(key, saga, value, answer) for _, _, key, saga, _, _, value, answer in of_sagas],
    )


def _decided(key: str, saga: str, value: str, answer: str | None) -> DecidedSaga:
    fields = json.loads(value)
    reply = json.loads(answer) if answer is not None else None
    outcome = "waiting" if answer is None else "done" if reply is True else "refused"
    return DecidedSaga(key, saga, fields.get("step"), fields.get("kind") == "undo", outcome)
