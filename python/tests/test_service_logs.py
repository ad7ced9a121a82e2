"""The log of a service: its life, the requests that change something, and its rotation."""

from __future__ import annotations

import json
import pathlib
import signal
import time
from collections.abc import Callable, Iterator
from typing import Any

import httpx
import pytest
from serving import DEFINITIONS, LONG, Served, report, served, start, take, token

Line = dict[str, Any]


def lines_of(file: pathlib.Path) -> list[Line]:
    """Return the lines of a log, as JSON."""
    return [json.loads(line) for line in file.read_text().splitlines()]


def line_when(file: pathlib.Path, condition: Callable[[Line], bool]) -> Line:
    """Return the first line that satisfies a condition, as soon as the log has it."""
    deadline = time.monotonic() + LONG
    while not (match := [line for line in lines_of(file) if condition(line)]):
        assert time.monotonic() < deadline, file.read_text()[-3000:]
        time.sleep(0.05)
    return match[0]


@pytest.fixture(scope="module")
def logging_service(tmp_path_factory: pytest.TempPathFactory) -> Iterator[Served]:
    """Return a service with a log file."""
    folder = tmp_path_factory.mktemp("logs")
    options = ("--log-file", str(folder / "log"), "--node", "north", "--retention", "30d")
    options += ("--token-file", str(folder / "tokens.toml"))
    operator = token(folder, "olga", "operator")
    (folder / "secret").write_text(operator)
    with served(folder, DEFINITIONS, *options) as service:
        yield service


@pytest.fixture
def client(logging_service: Served) -> Iterator[httpx.Client]:
    """Return a client with an operator's token."""
    with logging_service.client((logging_service.folder / "secret").read_text()) as client:
        yield client


def test_the_start_is_logged_with_the_settings_and_without_secrets(
    logging_service: Served,
) -> None:
    folder = logging_service.folder
    begun = line_when(folder / "log", lambda line: line["message"].startswith("service started"))
    assert (begun["level"], begun["node"], begun["tokens"]) == ("info", "north", True)
    assert begun["store"] == str(folder / "store.db") and begun["version"] in begun["message"]
    assert "trip (version 1)" in begun["definitions"] and begun["retention"] == "30 days, 0:00:00"
    assert (folder / "secret").read_text() not in (folder / "log").read_text()


def test_requests_are_logged_if_they_change_something_or_fail(
    logging_service: Served, client: httpx.Client
) -> None:
    """Reads, claims and heartbeats are not. Each line has the id of its request."""
    log, path = logging_service.folder / "log", "/v1/sagas/quiet"
    assert client.get(path, headers={"X-Request-Id": "missed"}).status_code == 404
    assert start(client, "trip", "quiet").status_code == 201
    assert client.get(path, headers={"X-Request-Id": "silent"}).status_code == 200
    (flight,) = take(client, "trip/flight")
    heartbeat = {"lease": flight["lease"]}
    assert client.post(f"/v1/tasks/{flight['attempt_id']}/heartbeat", json=heartbeat).is_success
    done = report(client, flight, result=1)
    id = done.headers["X-Request-Id"]
    reported = line_when(log, lambda line: line.get("request_id") == id)
    assert (reported["level"], reported["who"], reported["status"]) == ("info", "olga", 200)
    missed = line_when(log, lambda line: line.get("request_id") == "missed")
    assert (missed["status"], missed["method"], missed["path"]) == (404, "GET", path)
    requests = [line for line in lines_of(log) if line["logger"] == "sagas.http"]
    assert not [line for line in requests if line["request_id"] == "silent"]
    assert not [line for line in requests if line["path"].endswith(("/claim", "/heartbeat"))]


@pytest.mark.parametrize(
    "sent, is_taken",
    [("a-7.b/c=", True), ("x" * 128, True), ("x" * 129, False), ('a" level=error', False)],
)
def test_the_id_of_a_request_is_taken_if_it_is_well_formed(
    logging_service: Served, client: httpx.Client, sent: str, is_taken: bool
) -> None:
    """The answer, the problem and the log have the same one."""
    answer = client.post("/v1/sagas", json={}, headers={"X-Request-Id": sent})
    id = answer.headers["X-Request-Id"]
    assert answer.status_code == 422 and answer.json()["request_id"] == id
    assert (id == sent) is is_taken and len(id) >= 8
    line = line_when(logging_service.folder / "log", lambda line: line.get("request_id") == id)
    assert line["status"] == 422


def test_a_refused_request_has_an_id(logging_service: Served) -> None:
    """The id is there before the token is checked, and on each page."""
    with logging_service.client() as stranger:
        refused = stranger.get("/v1/sagas", headers={"X-Request-Id": "abc"})
        assert refused.status_code == 401 and refused.json()["request_id"] == "abc"
        assert stranger.get("/ui/login").headers["X-Request-Id"]
        missing = stranger.get("/nowhere")
        assert missing.status_code == 404
        assert missing.json()["request_id"] == missing.headers["X-Request-Id"]


def test_a_rotated_log_is_opened_again(logging_service: Served, client: httpx.Client) -> None:
    """No line is lost. If the file cannot be opened, the former one gets the lines."""
    log = logging_service.folder / "log"
    process = logging_service.process
    assert process
    start(client, "trip", "before")
    log.rename(log.with_suffix(".1"))
    log.mkdir()
    process.send_signal(signal.SIGHUP)
    line_when(log.with_suffix(".1"), lambda line: "cannot be opened again" in line["message"])
    log.rmdir()
    process.send_signal(signal.SIGHUP)
    deadline = time.monotonic() + LONG
    while not log.exists():
        assert time.monotonic() < deadline
        time.sleep(0.05)
    line_when(log, lambda line: "was opened again" in line["message"])
    id = start(client, "trip", "after").headers["X-Request-Id"]
    line_when(log, lambda line: line.get("request_id") == id)
    assert id not in log.with_suffix(".1").read_text()


def test_the_stop_is_logged_with_its_reason(tmp_path: pathlib.Path, location: str) -> None:
    """With the shards at the next start. A file that cannot be opened is refused."""
    log = tmp_path / "log"
    with served(tmp_path, DEFINITIONS, "--log-file", str(log), store=location) as service:
        with service.client() as client:
            start(client, "trip", "k")
        assert service.stop() == 0
        messages = [line["message"] for line in lines_of(log) if line["level"] == "info"]
        assert "service stops: SIGTERM" in messages
        assert messages[-1].startswith("service stopped: its store was closed in ")
        service.start()
        line_when(log, lambda line: line["message"].startswith("opened the store with 1 shard in"))
        service.stop()
        service.arguments = ("--log-file", str(tmp_path))
        with pytest.raises(AssertionError, match="--log-file .*: Is a directory"):
            service.start()
