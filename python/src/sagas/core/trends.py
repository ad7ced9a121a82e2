"""Counts of sagas by time, for charts: their buckets, and percentiles of durations."""

from __future__ import annotations

import dataclasses
import enum
import math
from bisect import bisect_left
from collections import defaultdict
from collections.abc import Iterable, Mapping
from typing import TYPE_CHECKING

if TYPE_CHECKING:
    from sagas.core.attempt.instance import SagaInstance

STARTED, COMPLETED, RECOVERED = "started", "completed", "recovered"
STUCK, FAILED_STEPS, OLDEST_TASK = "stuck", "failed_steps", "oldest_task"
COUNTS = (STARTED, COMPLETED, RECOVERED, STUCK, FAILED_STEPS)
"""The measures that are sums. `OLDEST_TASK` is the greatest age in seconds."""
DURATION = "duration:"
"""How the measure of a duration begins. The number of its bucket follows."""
BOUNDS = tuple(0.001 * 10 ** (step / 10) for step in range(95))
"""The upper bounds of durations in seconds: ten in each decade, from 1 ms to 29 days."""
DURATIONS = tuple(f"{DURATION}{bucket}" for bucket in range(len(BOUNDS) + 1))
"""The measures of durations. The last one has no bound."""
PERCENTILES = (50, 95, 99)


class TrendRange(enum.StrEnum):
    """The time that a chart shows, until now."""

    HOUR = "hour"
    DAY = "day"
    WEEK = "week"

    @property
    def seconds(self) -> int:
        """The seconds of the range."""
        return RANGES[self][0]

    @property
    def width(self) -> int:
        """The seconds of each bucket of time."""
        return RANGES[self][1]

    def buckets(self, now: float) -> range:
        """Return the beginnings of the buckets, in seconds since 1970. The last one has `now`."""
        end = beginning_of(now, self.width) + self.width
        return range(end - self.seconds, end, self.width)


RANGES = {
    TrendRange.HOUR: (3600, 60),
    TrendRange.DAY: (86_400, 900),
    TrendRange.WEEK: (604_800, 7200),
}
"""The seconds of each range and of its buckets. Each count is stored once for each width."""


def beginning_of(moment: float, width: int) -> int:
    """Return when the bucket of a time begins, in seconds since 1970."""
    return int(moment // width) * width


Counted = dict[tuple[str, str], int]
"""Counts by the name of the definition and the measure. Those of 0 are left out."""
MEASURES = (*COUNTS, *DURATIONS)
"""The measures of a definition, by their positions in its list of counts."""
STARTS, COMPLETIONS, RECOVERIES, STUCKS, FAILURES = range(len(COUNTS))
FIRST_DURATION = len(COUNTS)


class TrendCounts:
    """The counts of events that are not stored yet.

    Each saga adds to a list, which costs less than to a dict with a key of two.
    """

    def __init__(self) -> None:
        self._tallies: defaultdict[str, list[int]] = defaultdict(lambda: [0] * len(MEASURES))
        self._ages: dict[str, int] = {}

    def __bool__(self) -> bool:
        return bool(self._tallies or self._ages)

    def add_starts(self, sagas: Iterable[SagaInstance]) -> None:
        """Count the starts of sagas."""
        for saga in sagas:
            self._tallies[saga.kind.name][STARTS] += 1

    def add_ends(self, sagas: Iterable[SagaInstance], now: float) -> None:
        """Count sagas that ended at this time, or got stuck, and how long the others took."""
        for saga in sagas:
            tally = self._tallies[saga.kind.name]
            if saga.phase == "stuck":
                tally[STUCKS] += 1
            else:
                is_planned = saga.answer is not None and saga.answer.get("kind") == "plan"
                tally[RECOVERIES if is_planned else COMPLETIONS] += 1
                tally[FIRST_DURATION + bisect_left(BOUNDS, now - saga.started_at)] += 1

    def add_failed_step(self, saga: str) -> None:
        """Count a step that failed permanently."""
        self._tallies[saga][FAILURES] += 1

    def add_age(self, saga: str, seconds: float) -> None:
        """Note the age of the oldest task in a queue."""
        self._ages[saga] = max(self._ages.get(saga, 0), math.ceil(seconds))

    def take(self) -> Counted:
        """Return the counts, and begin at 0 again."""
        counts = {
            (saga, measure): count
            for saga, tally in self._tallies.items()
            for measure, count in zip(MEASURES, tally)
            if count
        }
        counts |= {(saga, OLDEST_TASK): age for saga, age in self._ages.items()}
        self._tallies.clear()
        self._ages.clear()
        return counts

    def put_back(self, counts: Counted) -> None:
        """Add counts that could not be stored."""
        for (saga, measure), count in counts.items():
            if measure == OLDEST_TASK:
                self.add_age(saga, count)
            else:
                self._tallies[saga][MEASURES.index(measure)] += count


TrendRow = tuple[int, int, str, str, int]
"""The width of a bucket, its beginning, the definition, the measure and the count."""


def rows_of(counts: Counted, moment: float) -> list[TrendRow]:
    """Return the rows that store the counts of a time, in the order of their keys.

    Nodes write them in this order, so that none waits for another in a circle.
    """
    return [
        (width, beginning_of(moment, width), saga, measure, count)
        for _, width in RANGES.values()
        for (saga, measure), count in sorted(counts.items())
    ]


# -- what is read of them


@dataclasses.dataclass(frozen=True, slots=True)
class TrendBucket:
    """What happened in a time.

    Attributes:
        at: When it begins, in seconds since 1970.
        counts: The number for each of `COUNTS`.
        durations: The percentiles of the durations of sagas that ended, in seconds, in the order
            of `PERCENTILES`. None if none ended.
        oldest_task: The greatest age of a task that waited for a worker, in seconds, or None.
    """

    at: int
    counts: Mapping[str, int]
    durations: tuple[float, ...] | None
    oldest_task: int | None


@dataclasses.dataclass(frozen=True, slots=True)
class Trends:
    """The buckets of a range in the order of time, and the whole range as one of them."""

    range: TrendRange
    buckets: list[TrendBucket]
    total: TrendBucket

    @property
    def is_empty(self) -> bool:
        """Whether nothing was counted."""
        return not any(self.total.counts.values()) and self.total.oldest_task is None


CountedRow = tuple[int, str, int]
"""The beginning of a bucket, a measure and its count."""


def trends_of(kind: TrendRange, now: float, rows: Iterable[CountedRow]) -> Trends:
    """Return the trends until now."""
    tallies: dict[int, dict[str, int]] = {at: {} for at in kind.buckets(now)}
    whole: dict[str, int] = {}
    for at, measure, count in rows:
        if at not in tallies:
            continue
        for tally in (tallies[at], whole):
            if measure == OLDEST_TASK:
                tally[measure] = max(tally.get(measure, 0), count)
            else:
                tally[measure] = tally.get(measure, 0) + count
    buckets = [_bucket(at, tally) for at, tally in tallies.items()]
    return Trends(kind, buckets, _bucket(buckets[0].at, whole))


def _bucket(at: int, tally: Mapping[str, int]) -> TrendBucket:
    histogram = {
        int(measure.removeprefix(DURATION)): count
        for measure, count in tally.items()
        if measure.startswith(DURATION) and measure.removeprefix(DURATION).isdecimal()
    }
    percentiles = tuple(percentile(histogram, percent) for percent in PERCENTILES)
    return TrendBucket(
        at,
        {name: tally.get(name, 0) for name in COUNTS},
        percentiles if histogram else None,
        tally.get(OLDEST_TASK),
    )


def percentile(histogram: Mapping[int, int], percent: float) -> float:
    """Return a percentile of durations in seconds, from their number in each bucket.

    It is between the bounds of the right bucket, so it is wrong by less than 26 percent. Return
    0 if there are none.
    """
    wanted, passed = sum(histogram.values()) * percent / 100, 0
    for bucket, count in sorted(histogram.items()):
        if count > 0 and passed + count >= wanted:
            upper = BOUNDS[min(bucket, len(BOUNDS) - 1)]
            if bucket == 0 or bucket >= len(BOUNDS):
                return upper
            lower = BOUNDS[bucket - 1]
            return float(lower * (upper / lower) ** ((wanted - passed) / count))
        passed += count
    return 0.0
