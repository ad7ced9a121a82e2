"""The question whether a program can continue the open sagas of a store."""

from __future__ import annotations

import dataclasses
from collections.abc import Iterable, Iterator, Mapping, Sequence
from typing import Any

from sagas.base.errors import SagasError
from sagas.base.wording import number
from sagas.core.attempt import child_attempts
from sagas.core.attempt.child_attempts import CompletedChild
from sagas.definition import definition_text, serialization, undo_sagas
from sagas.definition.capacity import SHARD_CAPACITY
from sagas.definition.compiled import CompiledDefinition
from sagas.definition.end_calls import STEP
from sagas.definition.payloads import ABSENT, PLAIN
from sagas.definition.registry import DefinitionRegistry
from sagas.definition.upgrade import Fetch, Obstacle, Problem, StoredState, UpgradeCheck
from sagas.inspection.question import Query, Question
from sagas.storage import queries

UNREADABLE = ValueError, LookupError, TypeError, SagasError
"""What an invalid definition raises."""
OPEN_SHARDS = "SELECT shard FROM shards WHERE closed = 0 ORDER BY shard"
VALUES = """
SELECT s.input, (SELECT p.shape FROM shapes p WHERE p.id = s.id) FROM sagas s WHERE s.id = ?
"""
RESULT = "SELECT value FROM attempts WHERE id = ? AND step = ? AND action = 'run' AND event IN ({})"
COMMITTED = "commit", "ok"
UNDOABLE = f"""
{queries.DESCENDANTS.format(which="l.closed = 0")}
SELECT p.phase IS NULL,
  (SELECT q.definition FROM shard_definitions q
   WHERE q.shard = p.id / {SHARD_CAPACITY} AND q.place = p.definition_index),
  substr(s.key, length(p.key) + 3), d.definition, min(s.key), count(*)
{queries.COMPLETED} GROUP BY 1, 2, 3, 4 ORDER BY 5
"""
"""The completed children that open sagas may undo, as of `queries.COMPLETED_CHILDREN`.

Each row has the first key, and the number of children.
"""


END_CALLS = f"""
SELECT d.definition, min(s.key), count(*) FROM suspensions h JOIN sagas s ON s.id = h.id
{queries.OF_SHARD} WHERE h.step = -1 AND h.reason = 'end_call' GROUP BY 1 ORDER BY 2
"""
"""The sagas that have ended, and whose `on_end` calls are due, by their definitions."""


@dataclasses.dataclass(frozen=True, slots=True)
class UpgradeFinding:
    """Sagas that a program cannot continue for one reason.

    Attributes:
        kind: `missing_step`, `missing_compensation`, `cannot_decode`, `missing_result`, or
            `not_checked`: a stored value could not be looked at.
        saga: The name of their definition.
        version: Its version.
        step: The declared name of the step; None for the whole saga.
        detail: What is missing, or cannot be read, in the first of them. It has no values.
        first_key: The key of the first of them.
        count: Their number.
    """

    kind: str
    saga: str
    version: int
    step: str | None
    detail: str
    first_key: str
    count: int

    @property
    def definition(self) -> str:
        """The name of the definition, and its version if that is not 1."""
        return self.saga if self.version == 1 else f"{self.saga} (version {self.version})"

    def __str__(self) -> str:
        return (
            f"{self.kind}: {number(self.count, 'saga')} of {self.definition}, the first is "
            f"{self.first_key!r}: {self.detail}"
        )


@dataclasses.dataclass(frozen=True, slots=True)
class UpgradeReport:
    """Hold which open sagas a program can continue. Made by `check_upgrade`.

    Attributes:
        sagas: The number of open sagas.
        blocked: The number of open sagas that have at least one finding.
        findings: Why the program cannot continue them.
    """

    sagas: int
    blocked: int
    findings: list[UpgradeFinding]

    @property
    def ok(self) -> bool:
        """Whether the program can continue each open saga."""
        return not self.findings

    def __str__(self) -> str:
        if self.ok:
            return f"the program can continue {number(self.sagas, 'open saga')}"
        head = f"{self.blocked} of {number(self.sagas, 'open saga')} cannot continue"
        return "\n".join([head, *(f"  {finding}" for finding in self.findings)])


class Findings:
    """Counts problems by their reason.

    Attributes:
        sagas: The number of sagas that were looked at.
        blocked: The number of those with a problem.
    """

    def __init__(self) -> None:
        self.sagas = self.blocked = 0
        self._by_reason: dict[tuple[Any, ...], UpgradeFinding] = {}

    def add_saga(self, kind: CompiledDefinition, key: str, problems: Iterable[Problem]) -> None:
        """Add an open saga with its problems."""
        self.sagas += 1
        is_blocked = self._add(kind.name, kind.version, key, 1, problems)
        self.blocked += is_blocked

    def add_children(
        self, kind: CompiledDefinition, key: str, count: int, problems: Iterable[Problem]
    ) -> None:
        """Add completed children of one definition, with their problems."""
        self._add(kind.name, kind.version, key, count, problems)

    def _add(
        self, saga: str, version: int, key: str, count: int, problems: Iterable[Problem]
    ) -> bool:
        seen = set[tuple[Any, ...]]()
        for problem in problems:
            step = None if problem.subject == "input" else problem.step  # all steps read it
            reason = saga, version, problem.obstacle, step, problem.subject
            if reason in seen:
                continue
            seen.add(reason)
            finding = self._by_reason.get(reason)
            if finding is None:
                finding = UpgradeFinding(
                    problem.obstacle.value, saga, version, problem.step, problem.detail, key, 0
                )
            self._by_reason[reason] = dataclasses.replace(finding, count=finding.count + count)
        return bool(seen)

    def report(self) -> UpgradeReport:
        """Return the result. The most frequent findings of each kind come first."""
        kinds = [obstacle.value for obstacle in Obstacle]
        findings = sorted(
            self._by_reason.values(),
            key=lambda finding: (kinds.index(finding.kind), -finding.count),
        )
        return UpgradeReport(self.sagas, self.blocked, findings)


def check(registry: DefinitionRegistry, fetch: Fetch) -> Question[UpgradeReport]:
    """Compare each open saga of a store with the functions of a program.

    Args:
        registry: The sagas of the program.
        fetch: Reads values of the blob store.
    """
    findings, comparison = Findings(), UpgradeCheck(registry.payloads, fetch)
    for (shard,) in (yield Query(OPEN_SHARDS)):
        yield from _check_shard(shard, registry, comparison, findings)
    yield from _check_children(registry, comparison, findings)
    yield from _check_end_calls(registry, findings)
    return findings.report()


def _check_shard(
    shard: int, registry: DefinitionRegistry, comparison: UpgradeCheck, findings: Findings
) -> Question[None]:
    """Add the open sagas of a shard."""
    texts = [text for _, text in (yield Query(queries.TEXTS, (shard, shard)))]
    bounds = queries.bounds(shard)
    rows = yield Query(queries.OPEN_SAGAS, bounds, is_long=True)
    ends = yield Query(queries.OPEN_RESULTS, bounds, is_long=True)
    results: dict[int, dict[int, str]] = {}
    undone: dict[int, set[int]] = {}
    for id, step, action, _, event, value, _ in ends:
        if action == "run" and event in COMMITTED:
            results.setdefault(id, {})[step] = value or "null"
        elif event in ("undone", "undo_fail"):
            undone.setdefault(id, set()).add(step)
    for id, key, index, input, _, _, shape, _ in rows:
        try:
            kind = registry.kind(texts[index])
        except UNREADABLE:
            findings.sagas += 1  # `attention` lists its shard as damaged
            continue
        stored = StoredState(input, shape, results.get(id, {}), frozenset(undone.get(id, ())))
        if ABSENT in (input, shape, *stored.results.values()):
            stored = yield from _whole(id, stored)
        findings.add_saga(kind, key, comparison.problems(kind, stored))


def _whole(id: int, stored: StoredState) -> Question[StoredState]:
    """Return the values of a saga with those that are too large for a list."""
    ((input, shape),) = yield Query(VALUES, (id,), is_long=True)
    results = dict(stored.results)
    marks = ", ".join("?" * len(COMMITTED))
    for step, value in stored.results.items():
        if value == ABSENT:
            rows = yield Query(RESULT.format(marks), (id, step, *COMMITTED), is_long=True)
            results[step] = rows[-1][0] or "null"
    return dataclasses.replace(stored, input=input, shape=shape, results=results)


def _check_children(
    registry: DefinitionRegistry, comparison: UpgradeCheck, findings: Findings
) -> Question[None]:
    """Add the completed children that open sagas may undo."""
    rows = yield Query(UNDOABLE)
    if not rows:
        return
    texts: dict[str, str] = dict((yield Query(queries.ALL_DEFINITIONS)))  # type: ignore[arg-type]
    groups: dict[CompletedChild, tuple[str, int]] = {}
    for is_open, parent, below, child, key, count in rows:
        if parent in texts and child in texts:  # else its shard is damaged
            step = below.partition("/")[0]
            group = CompletedChild(bool(is_open), texts[parent], step, texts[child])
            first, total = groups.get(group, (key, 0))
            groups[group] = first, total + count
    for completed, _, kind in child_attempts.undoable_children(registry.kind, groups):
        first, total = groups[completed]
        findings.add_children(kind, first, total, _child_problems(kind, comparison))


def _check_end_calls(registry: DefinitionRegistry, findings: Findings) -> Question[None]:
    """Add the sagas that have ended, and whose `on_end` calls this program cannot start."""
    rows = yield Query(END_CALLS)
    if not rows:
        return
    texts: dict[str, str] = dict((yield Query(queries.ALL_DEFINITIONS)))  # type: ignore[arg-type]
    for digest, key, count in rows:
        kind = registry.kind(texts[digest])
        if registry.end_kind(kind) is None:
            reason = f"this program has no on_end function of saga {kind.name!r}"
            problem = Problem(Obstacle.MISSING_STEP, STEP, "function", reason)
            findings.add_children(kind, key, count, [problem])


def _child_problems(kind: CompiledDefinition, comparison: UpgradeCheck) -> Iterator[Problem]:
    """Yield which compensations of a completed child are missing, or cannot undo it."""
    for step, reason in undo_sagas.missing_compensations(kind.saga, kind.text):
        yield Problem(Obstacle.MISSING_COMPENSATION, step, "compensation", reason)
    if kind.saga is not None:
        yield from comparison.child_problems(kind)


# -- sagas that were exported


def check_exports(
    registry: DefinitionRegistry, exports: Sequence[Mapping[str, Any]]
) -> UpgradeReport:
    """Compare exported sagas with the functions of a program.

    Args:
        registry: The sagas of the program.
        exports: What `sagas store STORE export KEY` prints, of each saga.
    """
    findings, comparison = Findings(), UpgradeCheck(PLAIN, lambda reference: None)
    for export in exports:
        if export["phase"] == "open":
            kind = registry.kind(export["definition"])
            findings.add_saga(kind, export["key"], comparison.problems(kind, _exported(export)))
    return findings.report()


def _exported(export: Mapping[str, Any]) -> StoredState:
    """Return the values of an exported saga."""
    names = [step.name for step in definition_text.listed_steps(export["definition"])]
    results: dict[int, str] = {}
    undone = set[int]()
    for end in export["results"]:
        step = names.index(end["step"])
        if end["kind"] == "run" and end["outcome"] in COMMITTED:
            results[step] = _stored(end["value"])
        elif end["outcome"] in ("undone", "undo_fail"):
            undone.add(step)
    shape = export.get("shape")
    return StoredState(
        _stored(export["input"]),
        None if shape is None else _stored(shape),
        results,
        frozenset(undone),
    )


def _stored(value: Any) -> str:
    """Return the stored text of an exported value, which is decoded."""
    return PLAIN.encode(serialization.write(value))
