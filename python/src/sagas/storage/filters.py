"""The sagas that a list or a command selects."""

from __future__ import annotations

import dataclasses
from typing import Any

from sagas.definition import labels as labels_module
from sagas.definition.arguments import BELOW, root_of
from sagas.definition.child_sagas import calls_end, undoes_child
from sagas.definition.labels import Labels
from sagas.definition.definition_text import end_name_of, undo_name_of
from sagas.storage.queries import (
    ERROR,
    IN_OPEN_LOGS,
    NOT_ABORTED,
    PERSON,
    PHASES,
    UNDOING_KEYS,
)
from sagas.storage.sqlite.schema import PLANNED

MISSES = "('missed', 'fail', 'undo_missed', 'undo_fail')"
"""The events of attempts whose value has an error."""
LABELED = "s.id IN (SELECT id FROM labels WHERE name = ? AND value = ?)"
WITH_LABEL = "(SELECT b.value FROM labels b WHERE b.id = s.id AND b.name = ?) = ?"
"""For sagas in an order, or sagas that another condition has selected.

The label of each saga is looked up.
"""
KEYED = "s.id IN (SELECT id FROM sagas WHERE instr(key, ?) > 0)"
"""Only the keys are scanned, by their index."""
WITH_ERROR = f"""(EXISTS (SELECT 1 FROM attempts x WHERE x.id = s.id AND x.event IN {MISSES}
  AND instr({ERROR}, ?) > 0)
  OR EXISTS (SELECT 1 FROM suspensions x WHERE x.id = s.id AND x.number > 0
  AND instr(x.detail, ?) > 0))"""
"""For few sagas: the attempts of each one are looked up."""
AMONG_ERRORS = f"""s.id IN (
  SELECT x.id FROM attempts x WHERE x.event IN {MISSES} AND instr({ERROR}, ?) > 0
  UNION SELECT x.id FROM suspensions x WHERE x.number > 0 AND instr(x.detail, ?) > 0)"""
"""For many sagas: all attempts are scanned once."""
FOR_OPERATOR = f"s.id IN (SELECT x.id FROM suspensions x WHERE x.number > 0 AND {PERSON})"
"""Whether an attempt of a saga waits for an operator."""
IN_ORDER = {
    phase: text.replace(IN_OPEN_LOGS, "").replace(f"{PLANNED} AND", f"{PLANNED} IS TRUE AND")
    for phase, text in PHASES.items()
}
"""As `PHASES`, for sagas in an order: no other index is used."""
FEW = ("open", "stuck", "recovered", "undo_failed", "resolved")
"""The phases that few sagas of a store have."""


@dataclasses.dataclass(frozen=True, slots=True)
class Scope:
    """The sagas that a caller may see.

    Attributes:
        definitions: The names of their definitions, or None for all. A saga that undoes a child
            belongs to the child's definition, and one that calls `on_end` to that of the saga
            that has ended.
        keys: Their keys, or prefixes of keys with `*` at the end, or None for all. A child has
            the key of its root.
    """

    definitions: frozenset[str] | None = None
    keys: frozenset[str] | None = None

    def has_definition(self, name: str | None) -> bool:
        """Whether sagas of a definition are in the scope.

        What belongs to no definition is only in the scope of all.
        """
        return self.definitions is None or name in self.definitions

    def may_have(self, name: str | None) -> bool:
        """Whether sagas of a definition may be in the scope.

        The definition may be one that undoes children of the scope, or calls `on_end`.
        """
        return self.has_definition(name) or name in self._undoing or name in self._ending

    def has_saga(self, name: str | None, key: str | None) -> bool:
        """Whether a saga of a definition, and with a key, is in the scope."""
        is_undoing = key is not None and undoes_child(key) and name in self._undoing
        is_ending = key is not None and calls_end(key) and name in self._ending
        return (self.has_definition(name) or is_undoing or is_ending) and self.has_key(key)

    @property
    def _undoing(self) -> frozenset[str]:
        """The names of the definitions that undo children of the scope's definitions."""
        return frozenset(map(undo_name_of, self.definitions or ()))

    @property
    def _ending(self) -> frozenset[str]:
        """The names of the definitions that call `on_end` of the scope's definitions."""
        return frozenset(map(end_name_of, self.definitions or ()))

    def has_key(self, key: str | None) -> bool:
        """Whether a saga's key is in the scope.

        What belongs to no saga is only in the scope of all.
        """
        if self.keys is None:
            return True
        if key is None:
            return False
        root = root_of(key)
        return any(
            root.startswith(pattern[:-1]) if pattern.endswith("*") else root == pattern
            for pattern in self.keys
        )

    def condition(self) -> tuple[str, list[Any]]:
        """Return a condition on rows of `sagas AS s`, and its parameters."""
        conditions, parameters = ["1 = 1"], list[Any]()
        if self.definitions:
            names, undoing = sorted(self.definitions), sorted(self._undoing | self._ending)
            of_names, of_undoing = (", ".join("?" * len(some)) for some in (names, undoing))
            conditions.append(
                f"s.saga IN ({of_names}, {of_undoing}) "
                f"AND (s.saga IN ({of_names}) OR {NOT_ABORTED})"
            )
            parameters += [*names, *undoing, *names, UNDOING_KEYS]
        elif self.definitions is not None:
            conditions.append("1 = 0")
        if self.keys is not None:
            some = [_keyed(pattern) for pattern in sorted(self.keys)]
            conditions.append(f"({' OR '.join(condition for condition, _ in some)})")
            parameters += [word for _, more in some for word in more]
        return " AND ".join(conditions), parameters


def _keyed(pattern: str) -> tuple[str, list[Any]]:
    """Return a condition that a saga, or its root, has a key, and its parameters.

    A prefix may end within the separator between a root's key and a step.
    """
    text = pattern.removesuffix("*")
    if pattern == text:
        below = text + BELOW
        return f"(s.key = ? OR substr(s.key, 1, {len(below)}) = ?)", [text, below]
    begins = f"substr(s.key, 1, {len(text)}) = ?"
    if not text.endswith(BELOW[0]):
        return begins, [text]
    return f"({begins} AND substr(s.key, {len(text)}, {len(BELOW)}) <> ?)", [text, BELOW]


EVERYTHING, NOTHING = Scope(), Scope(definitions=frozenset())


@dataclasses.dataclass(frozen=True, slots=True)
class Filter:
    """A selection of sagas. A saga must match all attributes.

    Attributes:
        phase: One of `queries.PHASES`.
        saga: The name of their definition.
        labels: Labels that they have.
        search: A text that their keys contain.
        scope: The sagas that the caller may see.
        started_after: They started at this time or later, in seconds of wall time.
        started_before: They started before this time.
        error: A part of an error that an attempt raised.
        is_for_operator: Whether an attempt of them waits for an operator.
    """

    phase: str | None = None
    saga: str | None = None
    labels: Labels = dataclasses.field(default_factory=lambda: labels_module.NONE)
    search: str | None = None
    scope: Scope = EVERYTHING
    started_after: float | None = None
    started_before: float | None = None
    error: str | None = None
    is_for_operator: bool = False

    @property
    def saga_parameters(self) -> list[str]:
        """The name of their definition as a list of parameters."""
        return [] if self.saga is None else [self.saga]

    def condition(
        self, of_few: bool = False, in_order: bool = False, each_label: bool = False
    ) -> tuple[str, list[Any]]:
        """Return a condition on rows of `sagas AS s`, and its parameters.

        A + keeps the databases from using the index of start times, which selects more sagas than
        the other conditions.

        Args:
            of_few: Another condition has already selected few sagas.
            in_order: The sagas are scanned one by one in the order of an index, until there are
                enough.
            each_label: Most sagas have the label, so that the label of each is looked up.
        """
        of_few = of_few or in_order
        within, parameters = self.scope.condition()
        conditions = [within]
        if self.phase is not None:
            conditions.append((IN_ORDER if in_order else PHASES)[self.phase])
        if self.is_for_operator:
            conditions.append(FOR_OPERATOR)
        if self.saga is not None:
            conditions.append("s.saga = ?")
        parameters += self.saga_parameters
        for label in self.labels.items():
            conditions.append(WITH_LABEL if in_order or each_label else LABELED)
            parameters += label
        if self.search:
            conditions.append(KEYED if not of_few else "instr(s.key, ?) > 0")
            parameters.append(self.search)
        times, bounds = self.times()
        conditions += [f"+{condition}" for condition in times]
        parameters += bounds
        if self.error:
            is_few = of_few or bool(self.labels) or self.phase in FEW
            conditions.append(WITH_ERROR if is_few else AMONG_ERRORS)
            parameters += [self.error, self.error]
        return " AND ".join(conditions), parameters

    def times(self) -> tuple[list[str], list[Any]]:
        """Return the conditions on the start times, and their parameters."""
        bounds = (("s.at >= ?", self.started_after), ("s.at < ?", self.started_before))
        bounds_in_use = [(condition, word) for condition, word in bounds if word is not None]
        return [condition for condition, _ in bounds_in_use], [word for _, word in bounds_in_use]

    @property
    def has_times_alone(self) -> bool:
        """Whether only the start times select them."""
        is_of_any = self.phase is None and self.saga is None and self.scope == EVERYTHING
        return is_of_any and not (self.labels or self.search or self.error or self.is_for_operator)
