"""Questions about the sagas of one definition: their steps and their costs."""

from __future__ import annotations

import dataclasses
import json
from collections import Counter

from sagas.definition import serialization
from sagas.inspection import names as names_module
from sagas.inspection.lists import WAITS
from sagas.inspection.question import Query, Question
from sagas.storage.filters import Scope
from sagas.storage.queries import OF_SHARD, PERSON, PHASES

MAX_COSTS, MAX_FAILED = 5000, 2000
"""How many of the latest recovered sagas are used for the costs and for the failures."""
DAY = 86400.0
DAYS = 14
AT = "d.definition"
HELD = f"""
SELECT {AT}, h.step, CASE WHEN {PERSON} THEN 'person' ELSE 'waits' END, count(*)
FROM suspensions h CROSS JOIN sagas s {OF_SHARD}
WHERE s.id = h.id AND {WAITS} AND s.saga = ? AND {{scope}} GROUP BY 1, 2, 3
"""
OFFERED = f"""
SELECT {AT}, e.step, CASE WHEN e.worker IS NULL THEN 'waits' ELSE 'worker' END, count(*)
FROM external_attempts e CROSS JOIN sagas s {OF_SHARD}
WHERE s.id = e.id AND e.outcome IS NULL AND s.saga = ? AND {{scope}}
GROUP BY 1, 2, 3
"""
FAILED = f"""
SELECT {AT}, r.step, 'failed', count(*) FROM (
  SELECT id, definition_index FROM sagas s
  WHERE saga = ? AND {{{{scope}}}} AND {{}} ORDER BY id DESC LIMIT {MAX_FAILED}) s
{OF_SHARD} JOIN attempts r ON r.id = s.id AND (r.event IN ('fail', 'undo_fail')
  OR (r.event = 'commit' AND substr(r.value, 2, 10) = '"{serialization.FAILED}":'))
GROUP BY 1, 2
"""
WITH_FAILURES = (
    FAILED.format(PHASES["open"]),
    FAILED.format(PHASES["stuck"]),
    FAILED.format(PHASES["recovered"]),
)
"""Queries for failed steps, one for each phase, so that each uses the index of that phase."""
COSTS = """
SELECT ended, outcome FROM sagas s WHERE saga = ? AND {scope} AND recovered AND ended >= ?
ORDER BY id DESC LIMIT ?
"""


@dataclasses.dataclass(frozen=True, slots=True)
class AtStep:
    """Counts of attempts at one step.

    Attributes:
        person: Attempts that wait for an operator.
        worker: Attempts that workers have claimed.
        waits: Attempts that wait for something else.
        failed: Permanent failures of the step or its compensation, in sagas that are open or
            stuck, or among the latest recovered ones, and that no operator has resolved.
    """

    person: int = 0
    worker: int = 0
    waits: int = 0
    failed: int = 0

    @property
    def open(self) -> int:
        """Return the number of active attempts of the step."""
        return self.person + self.worker + self.waits


def at_steps(name: str, scope: Scope) -> Question[dict[str, AtStep]]:
    """Count the attempts at each step of a definition, by declared step name."""
    rows, (condition, parameters) = [], scope.condition()
    for text in (HELD, OFFERED, *WITH_FAILURES):
        rows += yield Query(text.format(scope=condition), (name, *parameters))
    names = yield from names_module.of_digests(digest for digest, *_ in rows)
    tallies = dict[str, Counter[str]]()
    for digest, step, category, count in rows:
        if digest in names:  # else it was deleted concurrently
            named = names.declared(digest)[step]
            tallies.setdefault(named, Counter())[category] += count
    return {step: AtStep(**counts) for step, counts in tallies.items()}


def costs(name: str, now: float, scope: Scope) -> Question[list[tuple[float, int, int]]]:
    """Return the costs of recoveries of the last 14 days: day, count and total cost of each."""
    first = (now // DAY - DAYS + 1) * DAY
    condition, parameters = scope.condition()
    rows = yield Query(COSTS.format(scope=condition), (name, *parameters, first, MAX_COSTS))
    counts, sums = Counter[float](), Counter[float]()
    known: dict[str | None, int] = {}  # most ended in one of a few ways
    for ended, outcome in rows:
        if outcome not in known:
            answer = json.loads(outcome or "{}").get("answer") or {}
            known[outcome] = answer.get("cost") or 0
        day = ended // DAY * DAY
        counts[day] += 1
        sums[day] += known[outcome]
    return [(day, counts[day], sums[day]) for day in (first + DAY * n for n in range(DAYS))]
