"""Counts by time and their charts: buckets, percentiles, the table, and the route."""

from __future__ import annotations

import contextlib
import math
import pathlib
import re
import sqlite3
from collections.abc import Iterator

import pytest
from cases import QUICK, Task, run
from serving import DEFINITIONS, error_of, served, start, stuck, token
from test_service_tokens import World

import sagas
from sagas.core import trends
from sagas.core.attempt.instance import SagaInstance
from sagas.core.trends import BOUNDS, TrendCounts, TrendRange, percentile, rows_of, trends_of
from sagas.definition.registry import DefinitionRegistry
from sagas.inspection import charts
from sagas.storage import admin, trends as table

TRIP = sagas.Saga("trip")
TRIP.step(name="book", undo=0)(lambda task: None)
KIND = DefinitionRegistry([TRIP]).kinds[0]
NOW = 1_800_000_000.0 + 125  # two minutes and five seconds after a full hour


# -- buckets, percentiles and paths


@pytest.mark.parametrize(
    ("kind", "count", "seconds"), [("hour", 60, 60), ("day", 96, 900), ("week", 84, 7200)]
)
def test_a_range_ends_with_the_bucket_of_now(kind: str, count: int, seconds: int) -> None:
    buckets = TrendRange(kind).buckets(NOW)
    assert (len(buckets), buckets.step) == (count, seconds)
    assert buckets[-1] <= NOW < buckets[-1] + seconds


def trip() -> SagaInstance:
    """Return a saga that was started at `NOW`, and is about to end."""
    instance = SagaInstance("k", "null", KIND, 0)
    instance.started_at = NOW
    return instance


def test_each_count_is_stored_once_for_each_width() -> None:
    counts = TrendCounts()
    first, second = trip(), trip()
    counts.add_starts([first, second])
    counts.add_ends([first], now=NOW + 0.25)
    counts.add_age("trip", 7.2)
    counts.add_age("trip", 3.0)
    taken = counts.take()
    assert not counts and not counts.take()
    rows = rows_of(taken, NOW)
    assert rows == sorted(rows)
    minute = {row[3]: row[4] for row in rows if row[0] == 60}
    assert minute.pop("duration:24") == 1 and BOUNDS[23] < 0.25 <= BOUNDS[24]
    assert minute == {"started": 2, "completed": 1, "oldest_task": 8}
    assert {(width, at) for width, at, *_ in rows} == {
        (width, trends.beginning_of(NOW, width)) for width in (60, 900, 7200)
    }


def test_counts_that_could_not_be_stored_are_stored_later() -> None:
    counts = TrendCounts()
    counts.add_starts([trip()])
    counts.add_age("trip", 9.0)
    taken = counts.take()
    counts.add_starts([trip()])
    counts.add_age("trip", 4.0)
    counts.put_back(taken)
    assert counts.take() == {("trip", "started"): 2, ("trip", "oldest_task"): 9}


def bucket_of(seconds: float) -> int:
    """Return the bucket of a duration."""
    counts = TrendCounts()
    counts.add_ends([trip()], NOW + seconds)
    (measure,) = [name for _, name in counts.take() if name.startswith(trends.DURATION)]
    return int(measure.removeprefix(trends.DURATION))


@pytest.mark.parametrize("seconds", [0.0, 0.0004, 0.02, 1.0, 59.9, 3600.0, 9e5, 1e12])
def test_a_percentile_is_in_the_bucket_of_the_duration(seconds: float) -> None:
    bucket = bucket_of(seconds)
    for percent in (1, 50, 99, 100):
        value = percentile({bucket: 5}, percent)
        lower = BOUNDS[bucket - 1] if 0 < bucket < len(BOUNDS) else 0.0
        assert lower <= value <= BOUNDS[min(bucket, len(BOUNDS) - 1)]
        if 0.001 < seconds < BOUNDS[-1]:
            assert abs(value - seconds) < 0.26 * seconds


def test_percentiles_of_many_durations() -> None:
    durations = [0.01 * number for number in range(1, 1001)]
    histogram: dict[int, int] = {}
    for seconds in durations:
        bucket = bucket_of(seconds)
        histogram[bucket] = histogram.get(bucket, 0) + 1
    for percent in (50, 95, 99):
        exact = durations[math.ceil(len(durations) * percent / 100) - 1]
        assert abs(percentile(histogram, percent) - exact) < 0.1 * exact
    assert percentile({}, 50) == 0.0


def test_rows_of_a_range_become_buckets_and_a_total() -> None:
    first, last = TrendRange.HOUR.buckets(NOW)[0], TrendRange.HOUR.buckets(NOW)[-1]
    rows = [
        (first, "started", 3),
        (last, "started", 4),
        (last, "duration:20", 2),
        (last, "oldest_task", 5),
        (first, "oldest_task", 30),
        (first - 60, "started", 100),  # before the range
        (last, "of a later release", 1),
    ]
    result = trends_of(TrendRange.HOUR, NOW, rows)
    assert [bucket.counts["started"] for bucket in result.buckets] == [3, *[0] * 58, 4]
    assert (result.total.counts["started"], result.total.oldest_task) == (7, 30)
    assert result.total.durations == result.buckets[-1].durations is not None
    assert result.buckets[0].durations is None


def test_paths_have_only_what_was_measured() -> None:
    scale = charts.linear(10.0)
    assert charts.bars_path([0, 5, 0], [0, 5, 0], scale) == "M10.75 50.00V0.00h8.5V50.00z"
    assert charts.line_path([None, 10.0, 0.0, None, 5.0], scale) == (
        "M15 0.00L25 100.00M40.75 50.00h8.5"
    )
    assert [charts.top_of(value) for value in (0, 0.3, 1, 3, 7, 10, 11)] == [
        1,
        0.5,
        1,
        5,
        10,
        10,
        20,
    ]
    assert [charts.top_of_seconds(value) for value in (0.3, 11, 700, 90_000, 200_000)] == [
        0.5,
        20,
        1800,
        172_800,
        432_000,
    ]
    log = charts.logarithmic(0.1, 10.0)
    assert [round(log(value)) for value in (0.01, 0.1, 1.0, 10.0, 99.0)] == [0, 0, 50, 100, 100]


def test_a_chart_says_what_it_shows() -> None:
    first = TrendRange.DAY.buckets(NOW)[0]
    rows = [(first, "started", 1200), (first, "completed", 9), (first, "duration:30", 9)]
    drawn = {chart.name: chart for chart in charts.charts_of(trends_of(TrendRange.DAY, NOW, rows))}
    sagas_svg = drawn["sagas"].svg
    assert sagas_svg is not None and 'role="img"' in sagas_svg
    assert (
        '<desc id="chart-sagas-desc">9 completed, 0 recovered, 0 stuck, 1,200 started.</desc>'
        in (sagas_svg)
    )
    assert drawn["failures"].svg is None and drawn["oldest"].svg is None
    assert "median" in drawn["durations"].description


# -- the table


def quick() -> tuple[sagas.Saga, sagas.Saga]:
    """Return a saga that completes or recovers, and one that gets stuck."""
    trip, licence = sagas.Saga("trip"), sagas.Saga("licence")

    @trip.step(undo=sagas.NOTHING, tries=1, backoff=QUICK)
    def flight(task: Task) -> None:
        if task.input == "recover":
            raise sagas.Fail("full")

    @licence.step(undo=sagas.NEVER, skip=sagas.NEVER, tries=1, backoff=QUICK)
    def server(task: Task) -> None:
        raise sagas.Fail("none left")

    return trip, licence


def stored(path: str) -> dict[str, int]:
    """Return the counts of the last hour by measure; all durations are one."""
    with admin.writing(path) as connection:
        rows = connection.ask("SELECT measure, sum(count) FROM trends WHERE width = 60 GROUP BY 1")
    counts: dict[str, int] = {}
    for measure, count in rows:
        name = str(measure).partition(":")[0]
        counts[name] = counts.get(name, 0) + int(count)
    return counts


def test_nodes_add_up_their_counts(location: str) -> None:
    """The counts of a store that is closed are stored, and those of the next are added."""

    async def main() -> None:
        for node in range(2):
            trip, licence = quick()
            async with sagas.open(location, [trip, licence]) as store:
                for saga, text in ((trip, "complete"), (trip, "recover"), (licence, "stuck")):
                    await (await store.start(saga, key=f"{text}-{node}", input=text)).wait()

    run(main())
    assert stored(location) == {
        "started": 6,
        "completed": 2,
        "recovered": 2,
        "stuck": 2,
        "failed_steps": 4,
        "duration": 4,
    }


def test_counts_of_an_earlier_time_are_deleted(tmp_path: pathlib.Path) -> None:
    path = str(tmp_path / "store.db")
    with sagas.open_sync(path, quick()):
        pass
    with admin.writing(path) as connection:
        for moment in (NOW - 8 * 86_400, NOW - 2 * 86_400, NOW - 7000, NOW):
            rows = rows_of({("trip", "started"): 1}, moment)
            table.add(connection, rows, moment)
        kept = connection.ask("SELECT width, count(*) FROM trends GROUP BY width ORDER BY width")
    assert kept == [(60, 1), (900, 2), (7200, 3)]


def test_stores_of_an_older_release_get_the_table(tmp_path: pathlib.Path, url: str) -> None:
    path = str(tmp_path / "store.db")
    for location in (path, url):
        with sagas.open_sync(location, quick()):
            pass
    with contextlib.closing(sqlite3.connect(path)) as file:
        file.execute("DROP TABLE trends")
    with contextlib.closing(admin.connect(url, "rw")) as link:
        link.changed("DROP TABLE trends")
    for location in (path, url):
        with sagas.open_sync(location, (declared := quick())) as store:
            store.start(declared[0], key="k").wait()
        assert stored(location)["started"] == 1


def test_a_store_without_the_table_still_executes(tmp_path: pathlib.Path) -> None:
    """Counts that cannot be stored harm nothing."""
    path, (trip, licence) = str(tmp_path / "store.db"), quick()
    with sagas.open_sync(path, [trip, licence]) as store:
        with contextlib.closing(sqlite3.connect(path)) as file:
            file.execute("DROP TABLE trends")
        assert store.start(trip, key="k", input="complete").wait().ok


# -- the route and the pages

TOKENS: dict[str, tuple[str, ...]] = {
    "operator": ("operator",),
    "caller": ("caller",),
    "worker": ("worker",),
    "of-trip": ("operator", "--definition", "trip"),
    "of-order": ("caller", "--definition", "order"),
    "team": ("caller", "--key", "team-*"),
}


@pytest.fixture(scope="module")
def world(tmp_path_factory: pytest.TempPathFactory, store: str | None) -> Iterator[World]:
    """A service that was started again, so that its counts are stored."""
    folder = tmp_path_factory.mktemp("trends")
    tokens = {name: token(folder, name, *options) for name, options in TOKENS.items()}
    arguments = "--token-file", str(folder / "tokens.toml")
    with served(folder, DEFINITIONS, *arguments, store=store) as service:
        services = World(service, tokens)
        start(services["caller"], "trip", "a")
        start(services["caller"], "few", "b")
        stuck(services["operator"], "c")
        for client in services.clients.values():
            client.close()
        services.clients.clear()
        assert service.stop() == 0
        service.start()
        yield services
        for client in services.clients.values():
            client.close()


def test_the_counts_of_a_range(world: World) -> None:
    for kind, seconds, count in (("hour", 60, 60), ("day", 900, 96), ("week", 7200, 84)):
        reply = world["caller"].get("/v1/trends", params={"range": kind}).json()
        assert (reply["range"], reply["definition"]) == (kind, None)
        assert (reply["bucket_seconds"], len(reply["buckets"])) == (seconds, count)
        total = reply["total"]
        assert (total["started"], total["stuck"], total["failed_steps"]) == (3, 1, 1)
        assert total["durations"] is None
        assert sum(bucket["started"] for bucket in reply["buckets"]) == 3
    reply = world["caller"].get("/v1/trends?definition=licence").json()
    assert (reply["definition"], reply["total"]["started"]) == ("licence", 1)


def test_a_token_reads_only_the_counts_of_its_definitions(world: World) -> None:
    assert world["of-trip"].get("/v1/trends").json()["total"]["started"] == 1
    assert world["of-order"].get("/v1/trends").json()["total"]["started"] == 0
    for name, query, status, problem in [
        ("of-trip", "?definition=few", 403, "Forbidden"),
        ("of-order", "?definition=trip", 403, "Forbidden"),
        ("team", "", 403, "Forbidden"),
        ("team", "?definition=trip", 403, "Forbidden"),
        ("worker", "", 403, "Forbidden"),
        ("caller", "?range=month", 422, "InvalidRequest"),
        ("caller", "?definition=", 422, "InvalidRequest"),
        ("of-trip", "?definition=Trip", 422, "InvalidRequest"),
    ]:
        reply = world[name].get(f"/v1/trends{query}")
        assert (reply.status_code, error_of(reply)) == (status, problem), (name, query)
    with world.service.client() as anonymous:
        assert anonymous.get("/v1/trends").status_code == 401


def test_the_pages_have_charts(world: World) -> None:
    for path in ("/ui", "/ui/definitions/trip"):
        text = world.page("operator").get(path).text
        links = re.findall(r'href="([^"]+#trends)"', text)
        assert [f"range={kind}" in link for kind, link in zip(("day", "week"), links[-2:])] == [
            True,
            True,
        ]
        for link in [path, *(link.replace("&amp;", "&") for link in links)]:
            page = world.page("operator").get(link).text
            assert 'id="trends-title">Trends' in page and "<svg viewBox" in page
            assert re.search(r"<desc[^>]*>0 completed, 0 recovered, . stuck, . started", page)
            assert "The charts as a table" in page
    tabs = world.page("operator").get("/ui?range=day").text
    assert "?kind=stuck&amp;range=day" in tabs
    assert "3 started." in world.page("operator").get("/ui").text
    assert "1 started." in world.page("of-trip").get("/ui").text
    assert "1 started." in world.page("operator").get("/ui?definition=few").text
