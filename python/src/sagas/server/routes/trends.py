"""The route of trends, and their charts on pages."""

from __future__ import annotations

import datetime
import time
from collections.abc import Callable
from typing import Any

from sagas.core.trends import (
    COUNTS,
    PERCENTILES,
    CountedRow,
    TrendBucket,
    TrendRange,
    Trends,
    trends_of,
)
from sagas.inspection import charts, trends as questions
from sagas.server import answers
from sagas.server.access import check_definition
from sagas.server.auth import Permission, Principal
from sagas.server.database_reads import of_each, unavailable_of
from sagas.server.json_bodies import Json, times
from sagas.server.operations import Answer, Call, Routes
from sagas.server.problems import Problem
from sagas.server.service import Service
from sagas.server.shapes import Choice, Field

routes = Routes("sagas", "/v1")
RANGE = Field(
    Choice(tuple(TrendRange)), "the time until now that the buckets cover", default="hour"
)
TITLES = {
    TrendRange.HOUR: "Last hour",
    TrendRange.DAY: "Last day",
    TrendRange.WEEK: "Last week",
}


def bucket_json(bucket: TrendBucket) -> dict[str, Any]:
    """Return a bucket as JSON values."""
    durations = bucket.durations and {
        f"p{percent}": round(seconds, 6) for percent, seconds in zip(PERCENTILES, bucket.durations)
    }
    return {
        **times(at=bucket.at),
        **bucket.counts,
        "durations": durations,
        "oldest_task": bucket.oldest_task,
    }


def trends_json(trends: Trends, definition: str | None) -> dict[str, Any]:
    """Return trends as JSON values."""
    return {
        "definition": definition,
        "range": trends.range,
        "bucket_seconds": trends.range.width,
        "total": bucket_json(trends.total),
        "buckets": [bucket_json(bucket) for bucket in trends.buckets],
    }


async def read(call: Call, kind: TrendRange, definition: str | None) -> Trends:
    """Return the trends of all databases that the principal may see."""
    now, scope = time.time(), call.principal.scope

    async def part(service: Service, _: int) -> list[CountedRow]:
        return await service.look(questions.rows(kind, now, definition, scope))

    parts = await of_each(call, part)
    return trends_of(kind, now, [row for rows in parts.values() for row in rows])


@routes.get(
    "/trends",
    "getTrends",
    permission=Permission.LOOK,
    query={
        "definition": Field(answers.NAME, "only sagas of this definition", default=None),
        "range": RANGE,
    },
    answers={200: Answer("The buckets, in the order of time.", answers.TRENDS)},
)
async def trends(call: Call) -> Json:
    """Get counts of sagas by time.

    Returns how many sagas were started and ended, how many steps failed, percentiles of durations,
    and the age of the oldest task. They cover the definitions that the token may see. A token that
    is limited to keys cannot read them, because the counts have no keys.
    """
    principal, definition = call.principal, call.query["definition"]
    check_definition(principal, definition)  # a name alone does not show whether it undoes a child
    if principal.scope.keys is not None:
        raise Problem("Forbidden", f"{principal.name} is limited to keys, and counts have no keys")
    kind = TrendRange(call.query["range"])
    stored = await read(call, kind, definition)
    return Json(trends_json(stored, definition) | unavailable_of(call))


async def page_values(
    call: Call, principal: Principal, definition: str | None, url: Callable[[str], str]
) -> dict[str, Any]:
    """Return the template values of charts.

    `url`: returns the address of the page with another range.
    """
    service, kind = call.service, TrendRange(call.query["range"])
    stored = await read(call, kind, definition)
    shown = [bucket for bucket in stored.buckets if not is_empty(bucket)]
    return {
        "charts": await service.threads.pages.do(lambda: charts.charts_of(stored)),
        "chart_range": kind,
        "chart_ranges": TITLES,
        "chart_url": lambda name: f"{url(name)}#trends",
        "chart_rows": [(time_text(bucket.at), bucket) for bucket in reversed(shown)],
    }


def is_empty(bucket: TrendBucket) -> bool:
    """Return whether nothing was counted in a bucket."""
    return not any(bucket.counts[name] for name in COUNTS) and bucket.oldest_task is None


def time_text(at: int) -> str:
    """Return the beginning of a bucket in UTC, to the minute."""
    return datetime.datetime.fromtimestamp(at, datetime.timezone.utc).strftime("%Y-%m-%d %H:%M")
