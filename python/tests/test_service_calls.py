"""The service for callers and workers: a real process, and its responses."""

from __future__ import annotations

import datetime
import json
import pathlib
import subprocess
import threading
import time
from collections.abc import Iterator
from typing import Any

import httpx
import pytest
from driving import program
from serving import (
    DEFINITIONS,
    LONG,
    Served,
    all_done,
    command,
    error_of,
    report,
    served,
    start,
    stuck,
    take,
)

import sagas


@pytest.fixture(scope="module")
def service(tmp_path_factory: pytest.TempPathFactory, store: str | None) -> Iterator[Served]:
    """Return a service for the cases of this file, over each kind of database; each case has its
    own keys, and takes only its own tasks.
    """
    with served(tmp_path_factory.mktemp("service"), store=store) as service:
        yield service


@pytest.fixture
def client(service: Served) -> Iterator[httpx.Client]:
    with service.client() as client:
        yield client


def get(client: httpx.Client, path: str, status: int = 200) -> Any:
    answer = client.get(path)
    assert answer.status_code == status, answer.text
    return answer.json()


def measured(client: httpx.Client, line: str) -> bool:
    """Return whether `/metrics` gets this line: it is counted again at most each second."""
    deadline = time.monotonic() + LONG
    while line not in client.get("/metrics").text.splitlines():
        if time.monotonic() > deadline:
            return False
        time.sleep(0.02)
    return True


def test_a_start_is_once(client: httpx.Client) -> None:
    """The same key again is the same saga; another input, or another definition, is a conflict; an
    unknown saga is an error.
    """
    assert start(client, "order", "once", {"a": 1}).status_code == 201
    again = start(client, "order", "once", {"a": 1})
    assert (again.status_code, again.json()) == (
        200,
        {"key": "once", "definition": "order", "version": 1, "new": False},
    )
    assert error_of(start(client, "order", "once", {"a": 2})) == "KeyConflict"
    assert start(client, "trip", "once", {"a": 1}).status_code == 409
    none = start(client, "nothing", "x")
    assert (none.status_code, none.json()["detail"]) == (
        404,
        "the service has no definition 'nothing'. It has: few, licence, order, trip",
    )
    for body, kind, status, says in (
        ('{"key":', "application/json", 400, "the body is not valid JSON (line 1)"),
        ("NaN", "application/json", 400, "the body is not accepted as JSON"),
        ("{}", "text/plain", 415, "send it with Content-Type: application/json"),
        ("[1]", "application/json", 422, "must be an object"),
    ):
        wrong = client.post("/v1/sagas", content=body, headers={"content-type": kind})
        assert wrong.status_code == status and says in wrong.json()["detail"]
    assert start(client, "order", "a\nb").status_code == 422
    assert (
        client.post(
            "/v1/sagas",
            content='{"definition":"order","key":"n","input":NaN}',
            headers={"content-type": "application/json"},
        ).status_code
        == 400
    )
    assert get(client, "/v1/sagas/nobody", 404)["type"] == "urn:sagas:problem:NoSuchSaga"
    assert client.post("/v1/sagas/once/abort", json={}).json()["aborted"] is True


def test_a_saga_through_workers(client: httpx.Client) -> None:
    """Tasks have their inputs, results and tokens; a failure leads to a plan, and the plan's
    certificate is right.
    """
    start(client, "trip", "t/1 ü", {"to": "Rome"})
    (flight,) = take(client, "trip/flight")
    assert (flight["key"], flight["input"], flight["results"], flight["attempt"]) == (
        "t/1 ü",
        {"to": "Rome"},
        {},
        1,
    )
    assert (
        flight["attempt_id"] == flight["idempotency_key"] + "-1"
        and flight["original_idempotency_key"] == flight["idempotency_key"]
    )
    assert report(client, flight, result={"seat": 1}).json() == {
        "kept": True,
        "repeated": False,
        "next": None,
    }
    (car,) = take(client, "trip/tour", "trip/car")
    assert car["results"] == {"flight": {"seat": 1}}
    report(client, car, result=7)
    for attempt in (1, 2):
        (tour,) = take(client, "trip/tour")
        assert tour["attempt"] == attempt
        report(client, tour, "fail", error="full")
    (undo,) = take(client, "trip/car/undo")
    assert (undo["undo"], undo["result"], undo["original_idempotency_key"]) == (
        True,
        7,
        car["idempotency_key"],
    )
    report(client, undo)
    end = get(client, "/v1/sagas/t%2F1%20%C3%BC/wait?seconds=60")
    assert (end["phase"], end["states"]) == (
        "recovered",
        {"flight": "committed", "car": "undone", "tour": "failed"},
    )
    assert (
        end["results"] == {"flight": {"seat": 1}}
        and end["plan"]["cost"] == 15
        and end["errors"] == {"tour": "full"}
    )
    assert [step["decision"] for step in end["plan"]["steps"]] == [
        "stands",
        "is undone",
        "is left out",
    ]
    text = client.get("/v1/sagas/t%2F1%20%C3%BC/certificate?form=text").text
    assert (
        subprocess.run([program()], input=text, capture_output=True, text=True).stdout
        == "least 15\n"
    )
    certificate = get(client, "/v1/sagas/t%2F1%20%C3%BC/certificate")
    assert certificate["answer"]["cost"] == 15 and certificate["case"] == {
        "states": ["committed", "committed", "failed"]
    }
    events = get(client, "/v1/sagas/t%2F1%20%C3%BC/log")["events"]
    assert [event["event"] for event in events if event["step"] == "tour"] == [
        "start_run",
        "missed",
        "start_run",
        "fail",
    ]
    picture = client.get("/v1/sagas/t%2F1%20%C3%BC/picture.svg")
    assert (
        picture.headers["content-type"] == "image/svg+xml"
        and "plan: undo, costs 5" in picture.text
        and "t/1 ü" in picture.text
    )


def test_leases(client: httpx.Client) -> None:
    """An expired lease passes the task to another worker with the same token.

    A failure counts only under the newest lease, success under any that was issued; the first
    report stays.
    """
    start(client, "trip", "leases")
    (old,) = take(client, "trip/flight", lease=0.5)
    (new,) = take(client, "trip/flight")
    assert take(client, "trip/flight", wait=0) == []
    assert new["attempt_id"] == old["attempt_id"] and new["lease"] > old["lease"]
    assert error_of(report(client, old, "fail", error="no")) == "LeaseLost"
    assert error_of(report(client, old, "unknown", error="no")) == "LeaseLost"
    assert (
        client.post(
            f"/v1/tasks/{old['attempt_id']}/heartbeat", json={"lease": old["lease"]}
        ).status_code
        == 409
    )
    assert (
        client.post(
            f"/v1/tasks/{new['attempt_id']}/heartbeat", json={"lease": new["lease"], "seconds": 500}
        ).json()["until"]
        > time.time() + 400
    )
    assert report(client, old, result=1).json() == {"kept": True, "repeated": False, "next": None}
    assert report(client, new, result=1).json() == {"kept": True, "repeated": True, "next": None}
    assert error_of(report(client, new, result=2)) == "ConflictingReport"
    assert report(client, new, "fail", error="no").status_code == 409
    assert (
        error_of(
            client.post(f"/v1/tasks/{new['attempt_id']}/heartbeat", json={"lease": new["lease"]})
        )
        == "LeaseLost"
    )
    for token in ("0" * 16 + "-0-flight-run-1", "x"):
        none = report(client, {**new, "attempt_id": token})
        assert (none.status_code, error_of(none)) == (403, "InvalidLease")
    client.post("/v1/sagas/leases/abort", json={"note": "it was a try"})
    assert get(client, "/v1/sagas/leases/wait?seconds=60")["aborted"] is True


def test_a_deadline(service: Served, client: httpx.Client) -> None:
    """A saga has the default until its start overrides it; workers and operators see it; an invalid
    time is refused, and starts nothing.
    """

    def put(key: str, deadline: Any) -> httpx.Response:
        return client.post(
            "/v1/sagas", json={"definition": "trip", "key": key, "deadline": deadline}
        )

    for wrong in (-1, "soon", True, [1], 1e300, 4e9):
        refused = put("timely", wrong)
        assert (refused.status_code, refused.json()["field"]) == (422, "deadline")
    get(client, "/v1/sagas/timely", 404)
    began = time.time()
    assert put("timely", 3600).status_code == 201 and put("timely", 7200).json()["new"] is False
    saga = get(client, "/v1/sagas/timely")
    assert began + 3599 < saga["deadline"] < time.time() + 3601 and saga["deadline_at"].endswith(
        "Z"
    )
    (listed,) = get(client, "/v1/sagas?search=timely")["sagas"]
    assert (listed["deadline"], listed["deadline_at"]) == (saga["deadline"], saga["deadline_at"])
    assert (
        f'<dt>Deadline</dt><dd><time class="exact" datetime="{saga["deadline_at"][:16]}'
        in client.get("/ui/sagas/timely").text
    )
    (flight,) = take(client, "trip/flight")
    assert (
        flight["deadline"] == pytest.approx(saga["deadline"], abs=1e-3)
        and flight["until"] < flight["deadline"]
    )
    assert report(client, flight, result=1).status_code == 200
    worker, seen = sagas.Worker(service.url, wait=1.0), list[Any]()

    @worker.step("trip", "car")
    def car(task: sagas.Task[Any]) -> None:
        seen.append(task.deadline)
        worker.stop()

    worker.run()
    assert seen[0].tzinfo is datetime.timezone.utc and seen[0].timestamp() == pytest.approx(
        saga["deadline"], abs=1e-3
    )
    assert client.post("/v1/sagas/timely/abort", json={}).json()["aborted"] is True
    all_done(client, "trip/car/undo")
    assert put("late", 0.2).status_code == 201 and put("never", None).status_code == 201
    late = get(client, "/v1/sagas/late/wait?seconds=60")
    assert late["aborted"] and late["phase"] == "recovered"
    (other,) = take(client, "trip/flight")
    assert (other["key"], other["deadline"], other["deadline_at"]) == ("never", None, None)
    assert not get(client, "/v1/sagas/never")["aborted"]
    assert "<dt>Deadline" not in client.get("/ui/sagas/never").text
    report(client, other)
    client.post("/v1/sagas/never/abort", json={})


def test_started_attempts(client: httpx.Client) -> None:
    """Until a worker takes it, it has started and waits for one; then it runs at that worker; and
    when the lease has expired it waits again.
    """

    def flight() -> tuple[str, list[tuple[str, str | None]]]:
        saga = get(client, "/v1/sagas/begun")
        return saga["states"]["flight"], [(wait["why"], wait["detail"]) for wait in saga["waits"]]

    def comes(wanted: tuple[str, list[tuple[str, str | None]]]) -> None:
        deadline = time.monotonic() + LONG
        while flight() != wanted:
            assert time.monotonic() < deadline, flight()
            time.sleep(0.02)

    start(client, "trip", "begun")
    comes(("begun", [("worker", None)]))
    take(client, "trip/flight", lease=0.5)
    comes(("begun", [("worker", "the lease of local/w expired")]))
    (task,) = take(client, "trip/flight")
    comes(("running", [("external", "local/w")]))
    report(client, task, "fail", error="no seat", final=True)
    saga = get(client, "/v1/sagas/begun/wait?seconds=60")
    assert (saga["states"]["flight"], saga["errors"], saga["waits"]) == (
        "failed",
        {"flight": "no seat"},
        [],
    )


def test_a_refund_that_fails(client: httpx.Client) -> None:
    """With defaults it is in the inbox, in the metrics and on the page; one call, or one for all,
    retries it.
    """
    figure = 'sagas_attention_required{reason="exhausted",saga="few"} '
    for key in ("refund-1", "refund-2"):
        start(client, "few", key)
        all_done(client, "few/a")
        (b,) = take(client, "few/b")
        report(client, b, "fail", error="full", final=True)
        (undo,) = take(client, "few/a/undo")
        report(client, undo, "fail", error="the bank is closed")
        assert not report(client, undo, "fail", error="the bank is closed").is_error
    assert measured(client, f"{figure}2.0")
    listed = get(client, "/v1/attention?kind=exhausted")
    assert listed["counts"]["exhausted"] == 2
    entry = listed["entries"][0]
    assert (entry["key"], entry["step"], entry["undo"], entry["detail"]) == (
        "refund-1",
        "a",
        True,
        "the bank is closed",
    )
    assert entry["calls"] == ["retry", "complete", "fail", "abort"]
    page = client.get("/ui/sagas/refund-1").text
    assert (
        "Undoing a has used up its attempts" in page
        and "the bank is closed" in page
        and "Exhausted" in client.get("/ui?kind=exhausted").text
    )
    assert (
        "/steps/a/retry?undo=true" in page
        and client.get("/ui/sagas/refund-1/steps/a/retry?undo=true").status_code == 200
    )
    wrong = client.post("/v1/sagas/refund-1/steps/b/retry", json={})
    assert (wrong.status_code, error_of(wrong)) == (409, "StepNotWaiting")
    assert (
        client.post("/v1/sagas/refund-1/steps/a/retry", json={"undo": True}).json()["kept"] is True
    )
    all_done(client, "few/a/undo")
    many = {"filter": {"kind": "exhausted", "definition": "few", "step": "a", "undo": True}}
    assert client.post("/v1/bulk/retry", json=many).json()["count"] == 1
    done = client.post("/v1/bulk/retry", json={**many, "dry_run": False, "count": 1}).json()
    assert (done["done"], done["refused"]) == (1, [])
    all_done(client, "few/a/undo")
    for key in ("refund-1", "refund-2"):
        assert get(client, f"/v1/sagas/{key}/wait?seconds=60")["states"]["a"] == "undone"
    assert measured(client, f"{figure}0.0")
    assert get(client, "/v1/attention?kind=exhausted")["counts"]["exhausted"] == 0


def test_a_compensation_that_failed(client: httpx.Client) -> None:
    """The list has such sagas by their own phase; each shows its error."""
    start(client, "trip", "undo-failed")
    all_done(client, "trip/flight", "trip/car")
    for _ in range(2):
        (tour,) = take(client, "trip/tour")
        report(client, tour, "fail", error="full")
    all_done(client, "trip/car/undo", failing=["trip/car/undo"])
    saga = get(client, "/v1/sagas/undo-failed/wait?seconds=60")
    assert (saga["phase"], saga["states"]["car"], saga["errors"]) == (
        "recovered",
        "undo_failed",
        {"car": "no", "tour": "full"},
    )
    assert [
        (saga["key"], saga["undo_failed"])
        for saga in get(client, "/v1/sagas?phase=undo_failed")["sagas"]
    ] == [("undo-failed", True)]
    page = client.get("/ui/sagas/undo-failed").text
    assert (
        "Undoing <b>car</b> failed permanently: “no”" in page
        and "Undo failed" in client.get("/ui/sagas?phase=undo_failed").text
    )
    assert (
        "car: undo failed, plan: keep, costs 30"
        in client.get("/v1/sagas/undo-failed/picture.svg").text
    )
    figure = 'sagas_attention_required{reason="undo_failed",saga="trip"} '
    assert measured(client, f"{figure}1.0")
    first = client.get("/ui?kind=undo_failed&search=undo-failed").text
    assert "undoing car: no" in first and "/resolve" in page
    assert client.get("/ui/sagas/undo-failed/resolve").status_code == 200
    answer = client.post("/v1/sagas/undo-failed/resolve", json={"note": "returned by hand"})
    assert answer.status_code == 200
    assert get(client, "/v1/sagas/undo-failed")["phase"] == "resolved"
    assert get(client, "/v1/sagas?phase=undo_failed")["sagas"] == []
    assert measured(client, f"{figure}0.0")
    assert "undoing car" not in client.get("/ui?kind=undo_failed&search=undo-failed").text
    assert (
        "A compensation had failed, and it is resolved" in client.get("/ui/sagas/undo-failed").text
    )


def test_a_beaten_lease_holds(client: httpx.Client) -> None:
    """As long as heartbeats come, no other worker gets the task."""
    start(client, "trip", "beats")
    (task,) = take(client, "trip/flight", lease=2)
    until = client.post(
        f"/v1/tasks/{task['attempt_id']}/heartbeat", json={"lease": task["lease"], "seconds": 600}
    ).json()["until"]
    time.sleep(2.5)
    assert until > time.time() and take(client, "trip/flight", wait=0) == []
    report(client, task)
    all_done(client, "trip/car", "trip/tour")
    assert get(client, "/v1/sagas/beats/wait?seconds=60")["phase"] == "completed"


def test_a_report_takes_the_next(client: httpx.Client) -> None:
    """They are in one request; its errors are reported before anything is stored."""
    for key in ("next-1", "next-2"):
        start(client, "trip", key)
    (first,) = take(client, "trip/flight")
    assert report(client, first, next={"steps": ["no step"]}).status_code == 422
    answer = report(client, first, next={"steps": ["trip/flight"], "lease": 600}).json()
    (second,) = answer.pop("next")["tasks"]
    assert answer == {"kept": True, "repeated": False} and {first["key"], second["key"]} == {
        "next-1",
        "next-2",
    }
    assert (
        report(client, second, "fail", error="no", next={"steps": ["trip/flight"]}).json()["next"][
            "tasks"
        ]
        == []
    )
    all_done(client, "trip/car", "trip/tour")
    for key in ("next-1", "next-2"):
        assert get(client, f"/v1/sagas/{key}/wait?seconds=60")["phase"] in (
            "completed",
            "recovered",
        )


def test_a_limit_holds_for_leases(service: Served, client: httpx.Client) -> None:
    """Two are out at once.

    A waiting worker gets the next one when one is reported, is unknown, or its lease has expired;
    compensations are not counted.
    """
    for number in range(5):
        start(client, "few", f"few-{number}")
    first, second = take(client, "few/a", limit=10)
    assert take(client, "few/a", wait=0) == []
    claimed: list[Any] = []
    with service.client() as other:
        taker = threading.Thread(
            target=lambda: claimed.extend(take(other, "few/a", limit=10, lease=1))
        )
        taker.start()
        report(client, first)
        taker.join(LONG)
    (third,) = claimed  # its lease expires, and then the next one is available
    (fourth,) = take(client, "few/a", limit=10)
    assert {first["key"], second["key"], third["key"], fourth["key"]} >= {
        f"few-{number}" for number in range(3)
    }
    if fourth["key"] != third["key"]:
        late = client.post(
            f"/v1/tasks/{third['attempt_id']}/heartbeat", json={"lease": third["lease"]}
        )
        assert error_of(late) == "LeaseLost" and "have its place" in late.json()["detail"]
        assert report(client, third).status_code == 200  # success counts anyway
    report(client, second, "unknown", error="who knows")
    left = {f"few-{number}" for number in range(5)} - {first["key"]}
    assert report(client, fourth).status_code == 200
    while True:
        for task in take(client, "few/a", wait=1, limit=10):
            report(client, task)
        states = {key: client.get(f"/v1/sagas/{key}").json()["states"]["a"] for key in left}
        if set(states.values()) == {"committed"}:
            break
    tasks = take(client, "few/b", limit=10)
    assert len(tasks) == 5
    for task in tasks:
        report(client, task, "fail", error="no")
    undone = []
    while len(undone) < 5:
        undone += take(client, "few/a/undo", limit=10)
    assert [
        queue for queue in client.get("/v1/queues").json()["queues"] if queue["definition"] == "few"
    ] == [
        {
            "definition": "few",
            "step": "a",
            "undo": True,
            "ready": 0,
            "oldest": None,
            "oldest_at": None,
            "claimed": 5,
        }
    ]
    for task in undone:
        report(client, task)
    for number in range(5):
        assert get(client, f"/v1/sagas/few-{number}/wait?seconds=60")["states"] == {
            "a": "undone",
            "b": "failed",
        }


def test_a_task_that_is_offered_again_has_no_worker(client: httpx.Client) -> None:
    """After an unknown outcome, until it is claimed again: the dashboard's page shows that no
    worker has it, and no lease has expired.
    """
    start(client, "few", "offered-again")
    (task,) = [task for task in take(client, "few/a", limit=100) if task["key"] == "offered-again"]
    assert "offered-again" in client.get("/ui/workers").text
    assert report(client, task, "unknown", error="no answer").status_code == 200
    deadline, whys = time.monotonic() + 30, {"unknown"}
    while whys != {"worker"}:
        assert time.monotonic() < deadline, whys
        page = client.get("/ui/workers")
        assert page.status_code == 200 and "offered-again" not in page.text
        waits = client.get("/v1/sagas/offered-again").json()["waits"]
        assert not any("expired" in (wait["detail"] or "") for wait in waits), waits
        whys = {wait["why"] for wait in waits}
    (task,) = [task for task in take(client, "few/a", limit=100) if task["key"] == "offered-again"]
    assert report(client, task).status_code == 200
    all_done(client, "few/b")


def test_unknown_is_reported_once_per_lease(client: httpx.Client) -> None:
    """It holds also when the task waits for a worker again; under that lease only a success counts
    then.
    """
    start(client, "few", "hazy-few")
    (task,) = take(client, "few/a")
    assert report(client, task, "unknown", error="who knows").json()["repeated"] is False
    deadline = time.monotonic() + LONG
    while not any(
        queue["step"] == "a" and queue["ready"] for queue in get(client, "/v1/queues")["queues"]
    ):
        assert time.monotonic() < deadline
    assert report(client, task, "unknown", error="who knows").json()["repeated"] is True
    assert error_of(report(client, task, "fail", error="no")) == "ConflictingReport"
    assert (
        error_of(
            client.post(f"/v1/tasks/{task['attempt_id']}/heartbeat", json={"lease": task["lease"]})
        )
        == "LeaseLost"
    )
    (again,) = take(client, "few/a")
    assert again["attempt_id"] == task["attempt_id"] and again["lease"] > task["lease"]
    assert error_of(report(client, task, "fail", error="no")) == "LeaseLost"
    assert report(client, task, result=1).json() == {"kept": True, "repeated": False, "next": None}
    all_done(client, "few/b")
    assert get(client, "/v1/sagas/hazy-few/wait?seconds=60")["results"]["a"] == 1


def test_unknown_outcomes(client: httpx.Client) -> None:
    """After the last unknown outcome an operator must report; no earlier lease passes the task to a
    worker.
    """
    start(client, "trip", "hazy")
    all_done(client, "trip/flight", "trip/car")
    (tour,) = take(client, "trip/tour", lease=1)
    assert report(client, tour, "unknown", error="the line went dead").json()["repeated"] is False
    assert report(client, tour, "unknown", error="the line went dead").json()["repeated"] is True
    assert take(client, "trip/tour", wait=2) == []
    (held,) = get(client, "/v1/sagas/hazy")["waits"]
    assert (held["why"], held["person"], held["detail"]) == ("unknown", True, "the line went dead")
    assert (
        client.post(
            "/v1/sagas/hazy/steps/tour/complete",
            json={"result": "it is there", "note": "asked them"},
        ).status_code
        == 200
    )
    end = get(client, "/v1/sagas/hazy/wait?seconds=60")
    assert end["results"]["tour"] == "it is there"
    notes = [
        event["value"]
        for event in get(client, "/v1/sagas/hazy/log")["events"]
        if event["event"] == "note"
    ]
    assert [(note["what"], note["by"], note["note"], note["answer"]) for note in notes] == [
        ("complete", "local", "asked them", True)
    ]


def test_an_approval(client: httpx.Client) -> None:
    """It waits for a decision; a second one is too late."""
    start(client, "order", "approve-me")
    deadline = time.monotonic() + LONG
    while not get(client, "/v1/sagas/approve-me")["waits"]:
        assert time.monotonic() < deadline
    assert (
        error_of(
            client.post(
                "/v1/sagas/approve-me/steps/send/complete", json={"result": 1, "early": False}
            )
        )
        == "StepNotWaiting"
    )
    assert (
        client.post(
            "/v1/sagas/approve-me/steps/review/complete", json={"result": {"by": "Ada"}}
        ).status_code
        == 200
    )
    assert (
        client.post("/v1/sagas/approve-me/steps/review/fail", json={"error": "no"}).status_code
        == 409
    )
    all_done(client, "order/send")
    assert get(client, "/v1/sagas/approve-me/wait?seconds=60")["results"]["review"] == {"by": "Ada"}


def test_a_report_comes_before_its_step(client: httpx.Client) -> None:
    """It is stored until the step starts, and no worker gets that step; the page of the saga shows
    it.
    """
    start(client, "order", "ahead")
    url = "/v1/sagas/ahead/steps"
    for _ in range(2):
        assert client.post(f"{url}/send/complete", json={"result": "sent"}).json()["kept"] is True
    assert error_of(client.post(f"{url}/send/fail", json={"error": "no"})) == "ConflictingReport"
    assert get(client, "/v1/sagas/ahead")["early"] == {"send": "complete"}
    assert "its success is reported" in client.get("/ui/sagas/ahead").text
    assert client.post(f"{url}/review/complete", json={"result": 1}).status_code == 200
    end = get(client, "/v1/sagas/ahead/wait?seconds=60")
    assert end["phase"] == "completed" and end["results"]["send"] == "sent" and end["early"] == {}


def test_an_aborted_task_without_a_worker_is_not_started(client: httpx.Client) -> None:
    start(client, "order", "early")
    client.post("/v1/sagas/early/steps/review/complete", json={"result": None})
    assert client.post("/v1/sagas/early/abort", json={"note": "wrong address"}).json() == {
        "key": "early",
        "aborted": True,
    }
    end = get(client, "/v1/sagas/early/wait?seconds=60")
    assert end["phase"] == "recovered" and end["states"]["send"] != "committed"
    assert client.post("/v1/sagas/early/abort", json={}).json()["aborted"] is False


def test_a_long_take_is_woken(service: Served, client: httpx.Client) -> None:
    """A worker that waits for a task gets it when it comes; one that has gone gets none."""
    with pytest.raises(httpx.ReadTimeout), service.client() as gone:
        gone.post("/v1/tasks/claim", json={"steps": ["licence/server"], "wait": 30}, timeout=0.5)
    claimed: list[Any] = []
    with service.client() as other:
        taker = threading.Thread(
            target=lambda: claimed.extend(take(other, "licence/server", wait=30))
        )
        taker.start()
        time.sleep(1.0)
        start(client, "licence", "woken")
        taker.join(LONG)
    assert [task["key"] for task in claimed] == ["woken"]
    report(client, claimed[0])
    all_done(client, "licence/licence")


def test_the_list(client: httpx.Client) -> None:
    """It is newest first, by pages, filtered and searched; a search is not a pattern."""
    keys = [f"list%_{number}" for number in range(5)]
    for key in keys:
        start(client, "order", key)
    listed: list[str] = []
    after = ""
    while True:
        page = get(client, f"/v1/sagas?search=list%25_&definition=order&phase=open&limit=2{after}")
        listed += [saga["key"] for saga in page["sagas"]]
        if page["next"] is None:
            break
        after = f"&after={page['next']}"
    assert listed == keys[::-1]
    assert get(client, "/v1/sagas?search=list_%25")["sagas"] == []
    assert client.get("/v1/sagas?phase=none").status_code == 422


def test_events_are_streamed(service: Served, client: httpx.Client) -> None:
    """The stream has those of one saga, from now on; again after the last one that the
    client saw.
    """
    with service.client() as other, other.stream("GET", "/v1/events?key=streamed") as stream:
        lines = stream.iter_lines()
        assert next(lines).startswith("retry")
        start(client, "licence", "streamed")
        all_done(client, "licence/server", "licence/licence")
        names, last = [], ""
        for line in lines:
            if line.startswith("event:"):
                names.append(line[7:].strip())
            if line.startswith("id:"):
                last = line[3:].strip()
            if line.startswith("data:") and names[-1] == "saga_ended":
                assert json.loads(line[5:])["key"] == "streamed"
                break
    assert (
        names[0] == "saga_started"
        and names.count("step_started") == 2
        and "step_succeeded" in names
    )
    boot, _, number = last.partition("-")
    with service.client() as other, other.stream(
        "GET", "/v1/events?key=streamed", headers={"Last-Event-ID": f"{boot}-{int(number) - 1}"}
    ) as stream:
        again = next(line.strip() for line in stream.iter_lines() if line.startswith("event:"))
    assert again == "event: saga_ended"
    with service.client() as other, other.stream(
        "GET", "/v1/events", headers={"Last-Event-ID": "0-0"}
    ) as stream:
        assert "event: missed" in [line.strip() for _, line in zip(range(3), stream.iter_lines())]


def test_a_stuck_saga_is_resolved(client: httpx.Client) -> None:
    stuck(client, "stuck-1")
    assert get(client, "/v1/sagas/stuck-1")["plan"] == {
        "cost": None,
        "pivot": None,
        "blocking_steps": ["licence"],
        "steps": [
            {
                "step": "server",
                "found": "committed",
                "cost_to_keep": 0,
                "cost_to_drop": None,
                "decision": "stuck",
            },
            {
                "step": "licence",
                "found": "failed",
                "cost_to_keep": None,
                "cost_to_drop": None,
                "decision": "stuck",
            },
        ],
    }
    assert client.post("/v1/sagas/stuck-1/resolve", json={"note": ""}).status_code == 422
    assert client.post("/v1/sagas/stuck-1/resolve", json={"note": "bought one"}).status_code == 200
    assert client.post("/v1/sagas/stuck-1/resolve", json={"note": "bought one"}).status_code == 200
    assert client.post("/v1/sagas/stuck-1/resolve", json={"note": "again"}).status_code == 409
    assert [get(client, "/v1/sagas/stuck-1")[word] for word in ("phase", "note")] == [
        "resolved",
        "bought one",
    ]


def test_an_answer_is_sent_at_once(client: httpx.Client) -> None:
    """Its body does not wait until the client's system has acknowledged its head: each response
    would take 40 ms on a kept connection.
    """

    def seconds() -> float:
        began = time.monotonic()
        get(client, "/health/live")
        return time.monotonic() - began

    for _ in range(40):
        seconds()
    assert any(seconds() < 0.03 for _ in range(500))


def test_figures_and_life(client: httpx.Client) -> None:
    """Prometheus reads each metric that the page of the docs names."""
    start(client, "licence", "figures")
    all_done(client, "licence/server", "licence/licence")
    get(client, "/v1/sagas/figures/wait?seconds=60")
    deadline = time.monotonic() + LONG
    while 'sagas_current{phase="completed",saga="licence"}' not in (
        text := client.get("/metrics").text
    ):
        assert time.monotonic() < deadline  # they are counted once in a while
        time.sleep(0.1)
    for name in (
        'sagas_started_total{saga="licence"}',
        'sagas_current{phase="completed",saga="licence"}',
        'sagas_steps_total{action="run",outcome="succeeded",saga="licence",step="server"}',
        "sagas_step_seconds_bucket",
        "sagas_attention_required",
        "sagas_tasks_ready",
        "sagas_tasks_reclaimed_total",
        "sagas_commits_total",
        "sagas_http_requests_total",
    ):
        assert name in text, name
    assert get(client, "/health/live") == {"alive": True}
    assert get(client, "/health/ready") == {"ready": True, "reason": None}


def test_the_log_is_lines_of_json(service: Served, client: httpx.Client) -> None:
    """It has the events of a saga, and each request with its token."""
    start(client, "licence", "logged")
    all_done(client, "licence/server", "licence/licence", failing=["licence/licence"])
    get(client, "/v1/sagas/logged/wait?seconds=60")
    client.post("/v1/sagas/logged/resolve", json={"note": "bought one"})
    deadline = time.monotonic() + LONG
    # a request is logged once it is answered
    while '"/v1/sagas/logged/resolve"' not in service.log_text():
        assert time.monotonic() < deadline
        time.sleep(0.05)
    # the lines before are the service's start
    log_lines = [
        json.loads(line)
        for line in service.log_text().splitlines()
        if not line.startswith("sagas serve: ")
    ]
    assert all({"at", "level", "logger", "message"} <= set(line) for line in log_lines)
    (stuck,) = (
        line for line in log_lines if line.get("name") == "saga_stuck" and line["key"] == "logged"
    )
    assert (stuck["level"], stuck["logger"], stuck["saga"]) == ("error", "sagas", "licence")
    request_line = next(
        line for line in log_lines if line.get("path") == "/v1/sagas/logged/resolve"
    )
    assert (
        request_line["logger"],
        request_line["method"],
        request_line["status"],
        request_line["who"],
    ) == (
        "sagas.http",
        "POST",
        200,
        "local",
    )


def test_it_continues_after_a_kill(tmp_path: pathlib.Path, location: str) -> None:
    """Leases, approvals and reports outlive the service; the same report again is still one."""
    with served(
        tmp_path, DEFINITIONS, "--node", "one", store=location
    ) as service, service.client() as client:
        start(client, "trip", "k")
        (flight,) = take(client, "trip/flight", lease=600)
        start(client, "order", "o")
        client.post("/v1/sagas/o/steps/review/complete", json={"result": 1})
        service.kill()
        service.start()
        assert take(client, "trip/flight", wait=0) == []
        assert report(client, flight, result=5).json()["repeated"] is False
        service.kill()
        service.start()
        assert report(client, flight, result=5).json()["repeated"] is True
        all_done(client, "order/send")
        assert get(client, "/v1/sagas/o/wait?seconds=60")["results"]["review"] == 1
        assert service.stop() == 0
    assert "Traceback" not in service.log_text()


def test_it_stops_although_clients_ask_on(tmp_path: pathlib.Path) -> None:
    """Connections that come while it ends, and one that repeats its requests, do not delay it."""
    with served(tmp_path, DEFINITIONS) as service:
        over, ended = threading.Event(), []

        def ask_on(is_new: bool) -> None:
            client = service.client()
            while not over.is_set():
                try:
                    client.get("/health/live")
                except httpx.TransportError:
                    ended.append(is_new)
                    if not is_new:
                        break
                if is_new:
                    client.close()
                    client = service.client()
            client.close()

        threads = [threading.Thread(target=ask_on, args=(number % 2 == 0,)) for number in range(6)]
        for thread in threads:
            thread.start()
        try:
            time.sleep(1.0)
            began = time.monotonic()
            assert service.stop() == 0
            assert time.monotonic() - began < LONG
        finally:
            over.set()
            for thread in threads:
                thread.join(LONG)
        assert ended.count(False) == 3


@pytest.mark.parametrize(
    "files, arguments, says",
    [
        ({}, (), "has no definition NAME.toml"),
        ({"a.toml": "format = 2\nname = "}, (), "a.toml:2: invalid TOML: Invalid value"),
        (
            {"a.toml": 'format = 2\nname = "a"\n[[step]]\nname = "x"\nprice = 1\n'},
            (),
            "a.toml:5: invalid definition: step 'x' has no key 'price'",
        ),
        (
            DEFINITIONS | {"order.service.toml": '[step.review]\nkind = "x"\n'},
            (),
            "order.service.toml:2: step 'review': kind must be one of",
        ),
        (DEFINITIONS, ("--listen", "0.0.0.0:0"), "only a loopback address is allowed"),
        (DEFINITIONS, ("--listen", "here"), "use HOST:PORT"),
        (
            DEFINITIONS,
            ("--blobs", "definitions/order.toml"),
            "order.toml: this is a file; pass a directory",
        ),
        (
            DEFINITIONS,
            ("--token-file", "nowhere.toml"),
            "nowhere.toml: file does not exist; create it with `sagas token",
        ),
        (DEFINITIONS, ("--app", "nowhere:store"), "--app nowhere:store: No module"),
    ],
)
def test_invalid_options_of_a_service(
    tmp_path: pathlib.Path, files: dict[str, str], arguments: tuple[str, ...], says: str
) -> None:
    """It reports what is wrong and where, and does not start."""
    from serving import environment

    service = Served(tmp_path, files, *arguments)
    done = subprocess.run(
        service.command(),
        env=environment(),
        capture_output=True,
        text=True,
        timeout=LONG,
        cwd=tmp_path,
    )
    assert done.returncode in (1, 2, 4) and says in done.stderr, done.stderr
    assert "Traceback" not in done.stderr


def test_invalid_option_values() -> None:
    """They end the command with status 2 and a line that says what to use, before anything starts;
    so do invalid names.
    """
    for option in (
        "--rate",
        "--lease",
        "--concurrency",
        "--most-body",
        "--most-connections",
        "--blob-threshold",
    ):
        for value in ("0", "-1", "nan", "inf", "1e99", "x", "9" * 20):
            done = command("serve", "x.db", option, value)
            assert (
                done.returncode == 2
                and f"argument {option}: invalid value '{value}': use " in done.stderr
            ), done.stderr
    for arguments in (
        ("--app", ":x"),
        ("--app", ".shop:x"),
        ("--listen", "127.0.0.1:²"),
        ("--listen", "127.0.0.1:" + "1" * 5000),
    ):
        done = command("serve", "x.db", *arguments)
        assert (
            done.returncode == 2 and f"sagas serve: invalid {arguments[0]} " in done.stderr
        ), done.stderr


def test_connection_parameters_instead_of_a_file(tmp_path: pathlib.Path) -> None:
    """Connection parameters and a misspelled URL are not a file's name: nothing is made, and the
    password is not printed.
    """
    from serving import environment

    for store in ("password=s3cret host=127.0.0.1", "postgresql//me:s3cret@host/a"):
        arguments = Served(tmp_path, store=store).command()
        done = subprocess.run(
            arguments, env=environment(), capture_output=True, text=True, timeout=LONG, cwd=tmp_path
        )
        assert done.returncode == 2 and "a store is an SQLite file" in done.stderr, done.stderr
        assert "s3cret" not in done.stderr + done.stdout
    assert [path.name for path in tmp_path.iterdir()] == ["definitions"]


def test_a_module_s_steps_run_here(tmp_path: pathlib.Path) -> None:
    """`--app module:store`: functions in the service, and steps of the same saga by workers."""
    (tmp_path / "shop.py").write_text(
        'import sagas, threading\nshop = sagas.Saga("shop")\n\n@shop.step\ndef price(task):\n   '
        ' return task.input * 2\n\nsend = shop.step(external=True, name="send",'
        ' needs=[price])\nlong = sagas.Saga("long")\n\n@long.step(concurrency=1)\ndef once(task):\n'
        '    threading.Event().wait()\n\nstore = sagas.open("unused.db", [shop, long])\n'
    )
    with served(
        tmp_path, {"order.toml": ORDER_OF_ONE}, "--app", "shop:store"
    ) as service, service.client() as client:
        start(client, "shop", "s", 21)
        (task,) = take(client, "shop/send")
        assert task["results"] == {"price": 42}
        report(client, task)
        assert get(client, "/v1/sagas/s/wait?seconds=60")["phase"] == "completed"
        for key in ("long-1", "long-2"):  # the second waits until the first is over
            start(client, "long", key)
            assert get(client, f"/v1/sagas/{key}/wait?seconds=0.2")["over"] is False
        first, second = (get(client, f"/v1/sagas/{key}") for key in ("long-1", "long-2"))
        assert (first["states"], first["waits"]) == ({"once": "running"}, [])
        assert (second["states"], [wait["why"] for wait in second["waits"]]) == (
            {"once": "begun"},
            ["concurrency"],
        )
        assert "once: running, attempt 1" in client.get("/v1/sagas/long-1/picture.svg").text
        assert (
            "once: waits, for a slot of its concurrency"
            in client.get("/v1/sagas/long-2/picture.svg").text
        )


ORDER_OF_ONE = 'format = 2\nname = "one"\n[[step]]\nname = "a"\n'
