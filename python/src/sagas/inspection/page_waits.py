"""What the open sagas of a page wait for, and how many wait for an operator."""

from __future__ import annotations

import dataclasses
from collections.abc import Iterable

from sagas.core.results import Summary
from sagas.inspection.lists import SAME, WAITS
from sagas.inspection.question import Query, Question
from sagas.storage.filters import EVERYTHING, Filter, Scope
from sagas.storage.queries import PERSON

HELD_OF = f"""
SELECT u.id, CASE WHEN reason = 'unknown' AND until IS NULL THEN 'person' ELSE reason END,
  count(*), min(until), max(CASE WHEN {PERSON} THEN 1 ELSE 0 END)
FROM suspensions u WHERE u.id IN ({{ids}}) AND {WAITS.replace("number", "u.number")}
  AND NOT (reason IN ('unknown', 'retry') AND EXISTS (
    SELECT 1 FROM external_attempts e WHERE {SAME.format("e", "u")} AND e.outcome IS NULL))
GROUP BY 1, 2
UNION ALL
SELECT e.id, CASE WHEN e.worker IS NULL THEN 'worker' ELSE 'external' END, count(*), NULL, 0
FROM external_attempts e WHERE e.id IN ({{ids}}) AND e.outcome IS NULL AND e.task > ''
GROUP BY 1, 2
"""
FOR_OPERATOR = "SELECT count(*) FROM sagas s WHERE {condition}"


@dataclasses.dataclass(frozen=True, slots=True)
class PageWait:
    """Why attempts of a saga wait.

    Attributes:
        why: As `Waits.why`; `person` if an operator must report an unknown outcome.
        count: The number of attempts.
        until: When the first of them ends, in seconds of wall time, or None.
        asks: Whether they wait for an operator, or for another program.
    """

    why: str
    count: int
    until: float | None
    asks: bool


def page_waits(summaries: Iterable[Summary]) -> Question[dict[int, list[PageWait]]]:
    """Return what each open saga of a page waits for, by its id. Others are left out."""
    ids = [summary.id for summary in summaries if summary.phase == "open"]
    result: dict[int, list[PageWait]] = {}
    if not ids:
        return result
    query = HELD_OF.format(ids=", ".join("?" * len(ids)))
    for id, why, count, until, asks in (yield Query(query, (*ids, *ids))):
        wait = PageWait(str(why), int(count), until or None, bool(asks))
        result.setdefault(int(id), []).append(wait)
    for waits in result.values():
        waits.sort(key=lambda wait: (not wait.asks, wait.why))
    return result


def for_operator(scope: Scope = EVERYTHING) -> Question[int]:
    """Count the open sagas that wait for an operator."""
    condition, parameters = Filter("open", scope=scope, is_for_operator=True).condition()
    rows = yield Query(FOR_OPERATOR.format(condition=condition), (*parameters,))
    return int(rows[0][0])
