"""Several services over one PostgreSQL database.

Each offers all tasks, takes all reports, and shows all sagas; one is killed.
"""

from __future__ import annotations

import asyncio
import contextlib
import pathlib
import subprocess
import threading
import time
from collections.abc import Callable, Iterator
from typing import Any

import httpx
import pytest
from hypothesis import HealthCheck, settings
from server import Server, folder_of_programs
from serving import (
    DEFINITIONS,
    LONG,
    Served,
    all_done,
    error_of,
    report,
    served,
    start,
    stuck,
    take,
)
from test_service_hostile import is_well, send_any_json, send_odd_texts
from test_service_workers import working

import sagas
from sagas.base.events import Event
from sagas.server.event_stream import Hub, Listener

LEASE = 3.0


class Pair:
    """Two services over one database, `one` and `two`, and a client of each."""

    def __init__(self, folder: pathlib.Path, url: str, stack: contextlib.ExitStack) -> None:
        self.services = []
        for name in ("one", "two"):
            (folder / name).mkdir()
            service = Served(
                folder / name,
                DEFINITIONS,
                "--node",
                f'the "{name}"',
                "--lease",
                str(LEASE),
                store=url,
            )
            stack.callback(service.kill)
            service.start()
            self.services.append(service)
        self.first, self.second = (
            stack.enter_context(service.client()) for service in self.services
        )


@contextlib.contextmanager
def pair(folder: pathlib.Path, url: str) -> Iterator[Pair]:
    with contextlib.ExitStack() as stack:
        yield Pair(folder, url, stack)


@pytest.fixture(scope="module")
def both(tmp_path_factory: pytest.TempPathFactory, postgresql: Server) -> Iterator[Pair]:
    """Return a pair for the cases without kills."""
    url = postgresql.create()
    with pair(tmp_path_factory.mktemp("pair"), url) as services:
        yield services
    postgresql.drop(url)


def test_a_worker_is_notified_of_an_abort_at_either_service(both: Pair) -> None:
    """Whichever service drives the saga, and whichever took the abort."""
    start(both.first, "trip", "off")
    (flight,) = take(both.second, "trip/flight")
    path, body = f"/v1/tasks/{flight['attempt_id']}/heartbeat", {"lease": flight["lease"]}
    for client in (both.first, both.second):
        assert client.post(path, json=body).json()["cancelled"] is None
    assert both.second.post("/v1/sagas/off/abort", json={}).json()["aborted"] is True
    for client in (both.first, both.second):
        assert client.post(path, json=body).json()["cancelled"] == "aborted"
    assert report(both.first, flight, "fail", error="stopped").status_code == 200
    assert both.first.get("/v1/sagas/off/wait?seconds=60").json()["phase"] == "recovered"


def test_a_task_goes_through_both(both: Pair) -> None:
    """It is started at one, claimed and renewed at the other, and reported at the first; each shows
    all of it.
    """
    first, second = both.first, both.second
    assert start(first, "trip", "both", {"to": "Rome"}).status_code == 201
    again = start(second, "trip", "both", {"to": "Rome"})
    assert (again.status_code, again.json()["new"]) == (200, False)
    assert error_of(start(second, "trip", "both", {"to": "Oslo"})) == "KeyConflict"
    (flight,) = take(second, "trip/flight")
    assert (flight["key"], flight["input"]) == ("both", {"to": "Rome"}) and 500 < flight[
        "seconds"
    ] <= 600
    assert take(first, "trip/flight", wait=0) == take(second, "trip/flight", wait=0) == []
    assert (
        second.post(
            f"/v1/tasks/{flight['attempt_id']}/heartbeat",
            json={"lease": flight["lease"], "seconds": 700},
        ).json()["until"]
        > time.time() + 600
    )
    number, _, signed = flight["lease"].partition(".")
    forged = {**flight, "lease": f"{int(number) - 1}.{signed}"}
    for client in (first, second):
        body = {"lease": forged["lease"]}
        answer = client.post(f"/v1/tasks/{flight['attempt_id']}/heartbeat", json=body)
        assert error_of(answer) == "InvalidLease"
        assert error_of(report(client, forged, "fail", error="no")) == "InvalidLease"
    assert report(first, flight, result={"seat": 1}).json() == {
        "kept": True,
        "repeated": False,
        "next": None,
    }
    assert report(second, flight, result={"seat": 1}).json() == {
        "kept": True,
        "repeated": True,
        "next": None,
    }
    assert error_of(report(second, flight, result={"seat": 2})) == "ConflictingReport"
    assert (
        error_of(
            second.post(
                f"/v1/tasks/{flight['attempt_id']}/heartbeat", json={"lease": flight["lease"]}
            )
        )
        == "LeaseLost"
    )
    (car,) = take(second, "trip/car")
    assert car["results"] == {"flight": {"seat": 1}}
    answer = report(
        second, car, result=7, next={"steps": ["trip/tour"], "wait": 10, "lease": 600}
    ).json()
    (tour,) = answer["next"]["tasks"]
    report(second, tour, "fail", error="full", final=True)
    (undo,) = take(second, "trip/car/undo")
    assert undo["result"] == 7 and undo["original_idempotency_key"] == car["idempotency_key"]
    report(second, undo)
    for client in (first, second):
        end = client.get("/v1/sagas/both/wait?seconds=60").json()
        assert (
            end["states"] == {"flight": "committed", "car": "undone", "tour": "failed"}
            and end["plan"]["cost"] == 15
        )
        assert client.get("/v1/sagas?search=both").json()["sagas"][0]["key"] == "both"
        until = time.monotonic() + LONG  # the figures are counted again within seconds
        while 'phase="completed",saga="trip"' not in client.get("/metrics").text:
            assert time.monotonic() < until
            time.sleep(0.05)
        assert "both" in client.get("/ui/sagas/both").text


def test_started_attempts_at_the_other_service(both: Pair) -> None:
    """Each reports what a step waits for, whichever of them has the saga."""
    start(both.first, "trip", "begun")
    for client in (both.first, both.second):
        deadline = time.monotonic() + LONG
        while not (waits := client.get("/v1/sagas/begun").json()["waits"]):
            assert time.monotonic() < deadline
        assert [(wait["step"], wait["why"]) for wait in waits] == [("flight", "worker")]
        assert "waits for a worker" in client.get("/ui/sagas/begun").text
    assert both.second.post("/v1/sagas/begun/abort", json={}).json()["aborted"] is True
    assert both.first.get("/v1/sagas/begun/wait?seconds=60").json()["aborted"] is True


def test_a_waiting_claim_gets_a_task_of_the_other_service(both: Pair) -> None:
    """A worker that waits at one gets what comes at the other; one that has gone gets none."""
    with pytest.raises(httpx.ReadTimeout), both.services[1].client() as gone:
        gone.post("/v1/tasks/claim", json={"steps": ["licence/server"], "wait": 30}, timeout=0.5)
    claimed: list[Any] = []
    taker = threading.Thread(
        target=lambda: claimed.extend(take(both.second, "licence/server", wait=30, limit=5))
    )
    with both.services[0].client() as client:
        taker.start()
        time.sleep(0.5)
        start(client, "licence", "heard")
        taker.join(LONG)
        assert [task["key"] for task in claimed] == ["heard"]
        (queue,) = [
            queue
            for queue in client.get("/v1/queues").json()["queues"]
            if queue["step"] == "server"
        ]
        assert queue == both.second.get("/v1/queues").json()["queues"][0] and (
            queue["ready"],
            queue["claimed"],
        ) == (0, 1)
        assert "local/w" in client.get("/ui/workers").text  # the worker that claimed at the other
    report(both.second, claimed[0])
    all_done(both.second, "licence/licence")


def test_the_longest_waiting_task_comes_first(both: Pair) -> None:
    """Whichever service has it; and many workers that wait at one get what comes at the other, all
    of them.
    """
    start(both.first, "licence", "first")
    deadline = time.monotonic() + LONG
    while not any(
        queue["oldest"] < time.time() - 2
        for queue in both.second.get("/v1/queues").json()["queues"]
    ):
        assert time.monotonic() < deadline
        time.sleep(0.1)
    start(both.second, "licence", "second")
    (first,) = take(both.second, "licence/server")
    (second,) = take(both.second, "licence/server")
    assert (first["key"], second["key"]) == ("first", "second")
    for task in (first, second):
        report(both.first, task, "fail", error="no", final=True)
    order: list[str] = []

    def work() -> None:
        with both.services[1].client() as client:
            (task,) = take(client, "licence/server")
            order.append(task["key"])
            report(client, task, "fail", error="no", final=True)

    keys = [f"many-{number}" for number in range(8)]
    takers = [threading.Thread(target=work) for _ in keys]
    for taker in takers:
        taker.start()
    for key in keys:
        start(both.first, "licence", key)
    for taker in takers:
        taker.join(LONG)
    assert sorted(order) == keys


def test_people_say_it_anywhere(both: Pair) -> None:
    """An approval, an abort and a stuck saga that is resolved, each at the service that does not
    have the saga.
    """
    start(both.first, "order", "approved")
    deadline = time.monotonic() + LONG
    while not both.second.get("/v1/sagas/approved").json()["waits"]:
        assert time.monotonic() < deadline
    answered = both.second.post(
        "/v1/sagas/approved/steps/review/complete", json={"result": "yes", "note": "by two"}
    )
    assert answered.status_code == 200
    other = both.second.post("/v1/sagas/approved/steps/review/complete", json={"result": 1})
    assert error_of(other) == "ConflictingReport"
    all_done(both.second, "order/send")
    assert (
        both.second.get("/v1/sagas/approved/wait?seconds=60").json()["results"]["review"] == "yes"
    )
    notes = [
        event["value"]
        for event in both.first.get("/v1/sagas/approved/log").json()["events"]
        if event["event"] == "note"
    ]
    assert [
        (note["by"], note["note"], note["answer"]) for note in notes if note["answer"] is True
    ] == [("local", "by two", True)]
    start(both.first, "order", "aborted")
    assert (
        both.second.post("/v1/sagas/aborted/abort", json={"note": "no"}).json()["aborted"] is True
    )
    assert both.first.get("/v1/sagas/aborted/wait?seconds=60").json()["aborted"] is True
    stuck(both.first, "stuck")
    assert (
        both.second.post("/v1/sagas/stuck/resolve", json={"note": "bought one"}).status_code == 200
    )
    assert both.first.get("/v1/sagas/stuck").json()["phase"] == "resolved"


def test_events_of_all(both: Pair) -> None:
    """A stream at one has the events of the other."""
    with both.services[1].client() as other, other.stream(
        "GET", "/v1/events?key=streamed"
    ) as stream:
        lines = stream.iter_lines()
        assert next(lines).startswith("retry")
        start(both.first, "licence", "streamed")
        all_done(both.first, "licence/server", "licence/licence")
        names: list[str] = []
        for line in lines:
            if line.startswith("event:"):
                names.append(line[7:].strip())
                if names[-1] == "saga_ended":
                    break
    assert (
        names[0] == "saga_started"
        and names.count("step_started") == 2
        and "step_succeeded" in names
    )


def test_events_that_a_service_did_not_hear() -> None:
    """A stream reports that some are lost, and continues; so does one that was disconnected,
    whatever came later.
    """

    async def main() -> None:
        hub, event = Hub(), Event("saga_ended", 0.0)
        hub.publish(event)
        away, there = hub.now, hub.stream(
            Listener(None, None, lambda saga: True), hub.now, lambda: True
        )
        for _ in range(2):  # it is open
            await anext(there)
        hub.missed()
        assert hub.events_after(away) == ([], True)
        hub.publish(event)
        assert hub.events_after(away) == ([(3, event)], True)
        texts = [await anext(there) for _ in range(2)]
        assert [text.split("\n")[:2] for text in texts] == [
            [f"id: {hub.boot}-2", "event: missed"],
            [f"id: {hub.boot}-3", "event: saga_ended"],
        ]
        assert hub.events_after(f"{hub.boot}-2") == ([(3, event)], False)

    asyncio.run(main())


def test_any_request(both: Pair) -> None:
    """As over a file: no request leads to an internal error, of PostgreSQL or of the service that
    has the saga.
    """
    start(both.first, "trip", "there")
    start(both.first, "order", "ordered")
    service = both.services[1]
    send_odd_texts(service)
    send_any_json(
        service, settings(max_examples=60, deadline=None, suppress_health_check=list(HealthCheck))
    )
    is_well(service)
    is_well(both.services[0])


def test_one_is_killed(tmp_path: pathlib.Path, url: str) -> None:
    """Its sagas are the other's after its lease; its tasks are claimed and reported there
    at once.
    """
    with pair(tmp_path, url) as second:
        start(second.first, "trip", "k")
        (flight,) = take(second.second, "trip/flight")
        start(second.first, "trip", "waits")
        start(second.first, "order", "o")
        second.first.post("/v1/sagas/o/steps/review/complete", json={"result": 1})
        second.services[0].kill()
        (waits,) = take(second.second, "trip/flight")
        assert (waits["key"], waits["definition"], waits["step"]) == ("waits", "trip", "flight")
        assert report(second.second, flight, result=5).json() == {
            "kept": True,
            "repeated": False,
            "next": None,
        }
        assert report(second.second, waits, result=6).json() == {
            "kept": True,
            "repeated": False,
            "next": None,
        }
        assert report(second.second, flight, result=5).json()["repeated"] is True
        worker = sagas.Worker([service.url for service in second.services], wait=1.0)
        for saga, step in (("order", "send"), ("trip", "car"), ("trip", "tour")):
            worker.step(saga, step)(lambda task: task.step)
        with working(worker):  # its first service does not answer
            second.second.get("/v1/sagas/k/wait?seconds=60")
            second.second.get("/v1/sagas/waits/wait?seconds=60")
        assert second.second.get("/v1/sagas/o/wait?seconds=60").json()["phase"] == "completed"
        for key, flown in (("k", 5), ("waits", 6)):
            results = second.second.get(f"/v1/sagas/{key}/wait?seconds=60").json()["results"]
            assert results == {"flight": flown, "car": "car", "tour": "tour"}
        assert "sagas_shards_taken_over_total 1.0" in second.second.get("/metrics").text
        second.services[0].start()
        assert second.services[0].stop() == second.services[1].stop() == 0
    assert '"message": "took over 1 shard in ' in second.services[1].log_text()
    for service in second.services:
        assert "Traceback" not in service.log_text() and '"trace"' not in service.log_text()


def test_the_database_goes_away(tmp_path: pathlib.Path, postgresql: Server, url: str) -> None:
    """It reports that, and refuses what it cannot store; once the database is back, all continues,
    and a task's report is accepted.
    """

    def until(status: int, ask: Callable[[], httpx.Response]) -> httpx.Response:
        deadline = time.monotonic() + 2 * LONG
        while (answer := ask()).status_code != status:
            assert time.monotonic() < deadline and answer.status_code in (200, 503), answer.text
            time.sleep(0.1)
        return answer

    with served(
        tmp_path, DEFINITIONS, "--lease", "2", store=url
    ) as service, service.client() as client:
        start(client, "trip", "k")
        (flight,) = take(client, "trip/flight")
        postgresql.stop()
        try:
            until(503, lambda: client.get("/health/ready"))
            assert client.get("/health/live").status_code == 200
            assert (
                error_of(client.get("/v1/sagas/k"))
                == error_of(start(client, "trip", "x"))
                == "StoreUnavailable"
            )
        finally:
            postgresql.start()
        until(200, lambda: client.get("/health/ready"))
        assert until(200, lambda: report(client, flight, result=1)).json()["kept"] is True
        until(200, lambda: client.get("/v1/sagas/k"))
        all_done(client, "trip/car", "trip/tour")
        assert client.get("/v1/sagas/k/wait?seconds=60").json()["phase"] == "completed"
    assert '"trace"' not in service.log_text(), service.log_text()[-3000:]


def test_a_backup_of_the_database(tmp_path: pathlib.Path, postgresql: Server, url: str) -> None:
    """`pg_dump` runs while a service does, and the copy is served: open sagas continue, and the
    task has the same token.
    """
    programs = [str(folder_of_programs() / name) for name in ("pg_dump", "pg_restore")]
    with served(
        tmp_path, DEFINITIONS, "--node", "one", "--lease", str(LEASE), store=url
    ) as service, service.client() as client:
        start(client, "trip", "k")
        (flight,) = take(client, "trip/flight")
        subprocess.run([programs[0], "-Fc", "-f", str(tmp_path / "dump"), url], check=True)
        report(client, flight)
    copy = postgresql.create()
    subprocess.run([programs[1], "-d", copy, str(tmp_path / "dump")], check=True)
    (tmp_path / "copy").mkdir()
    with served(
        tmp_path / "copy", DEFINITIONS, "--node", "one", store=copy
    ) as service, service.client() as client:
        assert take(client, "trip/flight", wait=0) == []  # its lease holds
        assert report(client, flight, result=1).json() == {
            "kept": True,
            "repeated": False,
            "next": None,
        }
        all_done(client, "trip/car", "trip/tour")
        assert client.get("/v1/sagas/k/wait?seconds=60").json()["phase"] == "completed"
    postgresql.drop(copy)
