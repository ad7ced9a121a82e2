"""The timeline of each attempt: queued, running at a worker, waiting, backing off; and decisions.
"""

from __future__ import annotations

import asyncio
import time
from collections.abc import Iterator
from typing import Any

import httpx
import pytest
from serving import LONG, Served, report, served, start, take

import sagas
from sagas.inspection import saga as one_saga, timeline
from sagas.inspection.question import StoreReader


@pytest.fixture(scope="module")
def service(tmp_path_factory: pytest.TempPathFactory, store: str | None) -> Iterator[Served]:
    with served(tmp_path_factory.mktemp("service"), store=store) as service:
        yield service


@pytest.fixture
def client(service: Served) -> Iterator[httpx.Client]:
    with service.client() as client:
        yield client


def attempts(client: httpx.Client, key: str) -> list[dict[str, Any]]:
    """Return the attempts of a saga, whose parts follow one another without gaps."""
    listed: list[dict[str, Any]] = client.get(f"/v1/sagas/{key}/timeline").json()["attempts"]
    for summary in listed:
        spans = summary["spans"]
        assert summary["ready"] <= summary["began"] and spans[0]["began"] in (
            summary["ready"],
            summary["began"],
        ), summary
        assert all(
            first["ended"] == then["began"] for first, then in zip(spans, spans[1:])
        ), summary
        assert spans[-1]["ended"] == summary["ended"], summary
    return listed


def states_of(entry: dict[str, Any]) -> list[tuple[str, str | None]]:
    """Return the parts from the begin on."""
    return [(span["state"], span["why"]) for span in entry["spans"] if span["state"] != "queued"]


def test_workers_people_and_pauses(client: httpx.Client) -> None:
    """A worker's lease that ends, the next worker, a retry, an unknown outcome, and its reporter
    with the reason.
    """
    start(client, "trip", "t")
    claim = {"steps": ["trip/flight"], "wait": 30, "limit": 1}
    first = client.post("/v1/tasks/claim", json={**claim, "lease": 600, "worker": "first"}).json()[
        "tasks"
    ][0]
    (now,) = attempts(client, "t")
    assert now["outcome"] is None and states_of(now) == [
        ("waiting", "worker"),
        ("running", "worker"),
    ]
    assert (now["spans"][-1]["worker"], now["spans"][-1]["ended"]) == ("local/first", None)
    beat = {"lease": first["lease"], "seconds": 1}
    assert client.post(f"/v1/tasks/{first['attempt_id']}/heartbeat", json=beat).status_code == 200
    second = client.post("/v1/tasks/claim", json={**claim, "lease": 60, "worker": "second"}).json()[
        "tasks"
    ][0]
    assert second["attempt_id"] == first["attempt_id"]
    assert report(client, second, result=1).status_code == 200
    (flight, *_) = attempts(client, "t")
    assert states_of(flight) == [
        ("waiting", "worker"),
        ("running", "worker"),
        ("waiting", "worker"),
        ("running", "worker"),
    ]
    had = [span for span in flight["spans"] if span["state"] == "running"]
    assert [span["worker"] for span in had] == ["local/first", "local/second"] and had[0][
        "lease"
    ] < had[1]["lease"]
    assert (flight["outcome"], flight["unknown_outcomes"], flight["decision"]) == (
        "succeeded",
        0,
        None,
    )
    assert report(client, take(client, "trip/car")[0]).status_code == 200
    assert (
        report(client, take(client, "trip/tour")[0], "fail", error="closed today").status_code
        == 200
    )
    assert (
        report(
            client, take(client, "trip/tour")[0], "unknown", error="the line went dead"
        ).status_code
        == 200
    )
    deadline = time.monotonic() + LONG
    while not client.get("/v1/attention?search=t&kind=unknown").json()["entries"]:
        assert time.monotonic() < deadline
    body = {"result": "booked", "note": "they say so"}
    assert client.post("/v1/sagas/t/steps/tour/complete", json=body).status_code == 200
    assert client.get("/v1/sagas/t/wait").json()["phase"] == "completed"
    first, second = attempts(client, "t")[-2:]
    assert (first["attempt"], first["outcome"], first["error"]) == (1, "retried", "closed today")
    assert (second["attempt"], second["outcome"], second["unknown_outcomes"]) == (2, "succeeded", 1)
    assert states_of(second)[-1] == ("waiting", "person")
    assert ("running", "worker") in states_of(second) and second["spans"][-1][
        "detail"
    ] == "the line went dead"
    assert (second["decision"]["command"], second["decision"]["note"]) == (
        "complete",
        "they say so",
    )
    (done,) = client.get("/v1/sagas/t/timeline").json()["decisions"]
    assert (done["command"], done["step"], done["accepted"]) == ("complete", "tour", True)


def test_an_approval_waits(client: httpx.Client) -> None:
    """It waits for a decision, which is named with its operator; the steps after it were ready
    then. An unknown saga has no timeline.
    """
    start(client, "order", "o")
    deadline = time.monotonic() + LONG
    while states_of(attempts(client, "o")[0])[-1:] != [("waiting", "approval")]:
        assert time.monotonic() < deadline
    assert (
        client.post(
            "/v1/sagas/o/steps/review/complete", json={"result": None, "note": "fine"}
        ).status_code
        == 200
    )
    report(client, take(client, "order/send")[0])
    review, send = attempts(client, "o")
    assert (review["decision"]["note"], review["spans"][-1]["why"]) == ("fine", "approval")
    assert (
        send["ready"] == review["ended"]
        and review["ready"] >= client.get("/v1/sagas/o").json()["started"]
    )
    assert client.get("/v1/sagas/none/timeline").status_code == 404


def test_functions(location: str) -> None:
    """For a function that is called at once nothing is stored.

    The next program reports a retry, a limit that lasts, and a program that ended during a call.
    """
    shop = sagas.Saga("shop")
    held, calls = asyncio.Event(), list[str]()

    @shop.step
    async def plain(task: sagas.Task[Any]) -> None:
        ...

    @shop.step(needs=[plain], tries=2, backoff=sagas.Backoff(1.0, 1.0))
    async def again(task: sagas.Task[Any]) -> None:
        if task.attempt == 1:
            raise sagas.Retry("not yet")

    @shop.step(needs=[again])
    async def last(task: sagas.Task[Any]) -> None:
        calls.append(task.key)
        if len(calls) == 1:
            held.set()
            await asyncio.Event().wait()

    async def first() -> None:
        async with sagas.open(location, [shop]) as store:
            await store.start(shop, "one")
            await held.wait()
            await store.close(0)

    async def then() -> list[timeline.AttemptTimes]:
        async with sagas.open(location, [shop]) as store:
            run = await store.start(shop, "one")
            assert (await run.wait()).ok
            reader = StoreReader(store._reader())
            view = reader.ask(one_saga.view("one"))
            reader.close()
            assert view and len(view.noted.spans) == 2
            return timeline.of(view, store._now())

    asyncio.run(first())
    by_attempt = {(row.step, row.attempt): row for row in asyncio.run(then())}
    spans = {
        at: [(span.state, span.why) for span in row.spans if span.state != "queued"]
        for at, row in by_attempt.items()
    }
    assert spans == {
        ("plain", 1): [("running", None)],
        ("again", 1): [("running", None)],
        ("again", 2): [("backoff", None), ("running", None)],
        ("last", 1): [("running", None), ("running", None)],
    }
    assert by_attempt["last", 1].spans[-1].detail == timeline.CALLED_AGAIN
    assert (
        by_attempt["again", 1].error == "sagas.Retry: not yet"
        and by_attempt["again", 2].seconds(0.0)["backoff"] > 0.03
    )


def test_a_call_after_the_last_attempt(location: str) -> None:
    """It waits for its pause, as one after an attempt of the definition."""
    shop, calls = sagas.Saga("shop"), list[int]()

    @shop.step(on_exhausted="retry", backoff=sagas.Backoff(0.5, 0.5), tries=1)
    async def plain(task: sagas.Task[Any]) -> None:
        calls.append(task.attempt)
        if len(calls) == 1:
            raise sagas.Retry("not yet")

    async def main() -> None:
        async with sagas.open(location, [shop]) as store:
            run = await store.start(shop, "one")
            waited = list[tuple[str, str | None]]()
            while ("backoff", None) not in waited and len(calls) < 2:
                waited = seen(store)
                await asyncio.sleep(0.02)
            assert ("backoff", None) in waited
            assert (await run.wait()).ok
            states = seen(store)
            assert states == [("running", None), ("backoff", None), ("running", None)]

    def seen(store: sagas.Store) -> list[tuple[str, str | None]]:
        reader = StoreReader(store._reader())
        view = reader.ask(one_saga.view("one"))
        reader.close()
        assert view
        timelines = timeline.of(view, store._now())
        return [
            (span.state, span.why)
            for timeline in timelines
            for span in timeline.spans
            if span.state != "queued"
        ]

    asyncio.run(main())
