"""Several processes of one service: one port, one set of metrics, and their ends."""

from __future__ import annotations

import collections
import contextlib
import os
import pathlib
import signal
import socket
import subprocess
import sys
import threading
import time
from collections.abc import Iterator
from typing import Any

import httpx
import pytest
from server import Server, serving
from serving import DEFINITIONS, LONG, Served, command, environment, served, start, take, token

import sagas
from sagas.server import siblings
from sagas.server.metric_sums import dumped, summed

COUNT = 3


@pytest.fixture(scope="module")
def folder(tmp_path_factory: pytest.TempPathFactory) -> pathlib.Path:
    """Return the folder of the module's service, and of its tokens."""
    return tmp_path_factory.mktemp("processes")


@pytest.fixture(scope="module")
def tokens(folder: pathlib.Path) -> dict[str, str]:
    return {role: token(folder, role, role) for role in ("operator", "worker", "caller")}


@pytest.fixture(scope="module")
def service(
    postgresql: Server, prepared: str, folder: pathlib.Path, tokens: dict[str, str]
) -> Iterator[Served]:
    """Return a service of several processes."""
    url = postgresql.url(postgresql.create(template=prepared).rpartition("/")[2], user="app")
    arguments = ("--processes", str(COUNT), "--token-file", str(folder / "tokens.toml"))
    with served(folder, DEFINITIONS, *arguments, store=url) as running:
        yield running
        assert running.stop() == 0


def children(service: Served) -> list[int]:
    """Return the processes that the command has started, in the order of their starts."""
    assert service.process
    path = pathlib.Path(f"/proc/{service.process.pid}/task/{service.process.pid}/children")
    return [int(word) for word in path.read_text().split()]


def is_alive(process: int) -> bool:
    """Return whether a process has not ended."""
    try:
        state = pathlib.Path(f"/proc/{process}/stat").read_text().rpartition(")")[2].split()[0]
    except FileNotFoundError:
        return False
    return state != "Z"


def wait_until(condition: Any) -> None:
    """Look until a condition holds."""
    until = time.monotonic() + LONG
    while not condition():
        assert time.monotonic() < until
        time.sleep(0.02)


def sockets(process: int) -> int:
    """Return how many sockets a process has."""
    count = 0
    for path in pathlib.Path(f"/proc/{process}/fd").iterdir():
        with contextlib.suppress(FileNotFoundError):
            count += os.readlink(path).startswith("socket:")
    return count


def samples(service: Served, token: str) -> dict[str, float]:
    """Return the sums of the metrics by their names, over a new connection."""
    with service.client(token) as client:
        answer = client.get("/metrics")
    assert answer.status_code == 200, answer.text
    sums = collections.Counter[str]()
    for line in answer.text.splitlines():
        if not line.startswith("#"):
            name, _, value = line.rpartition(" ")
            sums[name.partition("{")[0]] += float(value)
    return dict(sums)


def test_connections_are_spread(service: Served) -> None:
    """Each process has some of sixty connections."""
    before = {process: sockets(process) for process in children(service)}
    host, _, port = service.address.rpartition(":")
    with contextlib.ExitStack() as stack:
        for _ in range(60):
            connection = stack.enter_context(socket.create_connection((host, int(port)), LONG))
            connection.sendall(b"GET /health/live HTTP/1.1\r\nHost: a\r\n\r\n")
            assert connection.recv(1000).startswith(b"HTTP/1.1 200")
        more = [sockets(process) - number for process, number in before.items()]
    assert len(more) == COUNT and sum(more) >= 60 and min(more) >= 5, more


def test_metrics_are_sums(service: Served, tokens: dict[str, str]) -> None:
    """Any process answers with what all have counted, and with the store's gauges once."""
    before = samples(service, tokens["operator"])
    for number in range(30):
        with service.client(tokens["caller"]) as client:  # another connection each time
            assert start(client, "order", f"counted-{number}").status_code == 201
    after = [samples(service, tokens["operator"]) for _ in range(6)]
    for now in after:
        assert now["sagas_started_total"] - before.get("sagas_started_total", 0) == 30
        assert now["sagas_http_requests_total"] - before["sagas_http_requests_total"] >= 30
        assert now["sagas_processes"] == now["sagas_nodes"] == COUNT
        assert now["sagas_build_info"] == 1
        assert time.time() - 600 < now["sagas_start_time_seconds"] < time.time()
    requests = [now["sagas_http_requests_total"] for now in after]
    assert requests == sorted(requests)
    wait_until(lambda: samples(service, tokens["operator"]).get("sagas_current") == 30)


def test_a_session_holds_in_each_process(service: Served, tokens: dict[str, str]) -> None:
    """So does its end. A cookie that was changed is refused."""
    with httpx.Client(base_url=service.url, timeout=LONG, trust_env=False) as browser:
        done = browser.post(
            "/ui/login",
            data={"token": tokens["operator"], "next": "/ui"},
            headers={"Origin": service.url},
        )
        assert done.status_code == 303, done.text
        ((name, cookie),) = browser.cookies.items()
        page = browser.get("/ui").text
    csrf = page.partition('name="csrf" value="')[2].partition('"')[0]

    def status(value: str) -> int:
        with httpx.Client(base_url=service.url, timeout=LONG, trust_env=False) as other:
            return other.get("/ui", headers={"Cookie": f"{name}={value}"}).status_code

    assert [status(cookie) for _ in range(4 * COUNT)] == [200] * 4 * COUNT
    text, _, signature = cookie.strip('"').partition(".")
    for wrong in (f"{text}.{signature[:-1]}", f"{text[:-4]}AAAA.{signature}", "none", "é"):
        with contextlib.suppress(UnicodeEncodeError):
            assert status(wrong) == 303
    with httpx.Client(base_url=service.url, timeout=LONG, trust_env=False) as browser:
        form = {"Cookie": f"{name}={cookie}", "Origin": service.url}
        assert browser.post("/ui/logout", data={"csrf": csrf}, headers=form).status_code == 303
    wait_until(lambda: {status(cookie) for _ in range(4 * COUNT)} == {303})


def test_many_ended_sessions(monkeypatch: pytest.MonkeyPatch) -> None:
    """The latest are kept one by one, and for all older ones one time: none is valid again."""
    monkeypatch.setattr(siblings, "MAX_ENDED", 4)
    ended, restarted = siblings.EndedSessions(), siblings.EndedSessions()
    for number in range(1, 10):
        ended.add({f"digest-{number}": 100.0 + number})
    restarted.add(*ended.arguments())
    for known in (ended, restarted):
        assert all(known.has(f"digest-{number}", 100.0 + number) for number in range(1, 10))
        assert known.has("another", 101.0) and not known.has("another", 110.0)
        assert len(known.arguments()[0]) <= 4


def test_claims_end_in_each_process(service: Served, tokens: dict[str, str]) -> None:
    """A worker that stops has all its claims answered, wherever they wait."""
    answers = list[Any]()

    def claim() -> None:
        with service.client(tokens["worker"]) as client:
            answers.append(take(client, "trip/flight", wait=30))

    claims = [threading.Thread(target=claim) for _ in range(12)]
    for thread in claims:
        thread.start()
    ended = 0
    until = time.monotonic() + 20  # less than a claim waits
    while ended < len(claims) and time.monotonic() < until:
        with service.client(tokens["worker"]) as client:
            ended += client.post("/v1/tasks/claim/end", json={"worker": "w"}).json()["ended"]
    for thread in claims:
        thread.join(LONG)
    assert ended == len(claims) and answers == [[]] * len(claims)


def test_a_waiting_claim_gets_the_tasks_of_each_process(
    service: Served, tokens: dict[str, str]
) -> None:
    """Claims wait at all processes, and each task goes to one of them, wherever it was started."""
    count = 12
    answers = list[Any]()

    def claim() -> None:
        with service.client(tokens["worker"]) as client:
            for task in take(client, "licence/server", wait=30):
                status = client.post(
                    f"/v1/tasks/{task['attempt_id']}/complete", json={"lease": task["lease"]}
                ).status_code
                answers.append((task["key"], status))

    claims = [threading.Thread(target=claim) for _ in range(count)]
    for thread in claims:
        thread.start()
    began = time.monotonic()
    for number in range(count):
        with service.client(tokens["caller"]) as client:  # another connection each time
            assert start(client, "licence", f"waited-{number}").status_code == 201
    for thread in claims:
        thread.join(LONG)
    expected = [(f"waited-{number}", 200) for number in range(count)]
    assert sorted(answers) == sorted(expected) and time.monotonic() - began < LONG


def test_a_killed_process_starts_again(
    postgresql: Server, prepared: str, tmp_path: pathlib.Path
) -> None:
    """Its sagas continue at once, under its name; no counter falls, and no saga is lost."""
    url = postgresql.url(postgresql.create(template=prepared).rpartition("/")[2], user="app")
    record = tmp_path / "record"
    arguments = ("--processes", str(COUNT), "--node", "shop", "--lease", "600")
    arguments += ("--record", str(record))
    with served(tmp_path, DEFINITIONS, *arguments, store=url) as service:
        worker = sagas.Worker(service.url, wait=1.0)
        for step in ("flight", "car", "tour"):
            worker.step("trip", step)(lambda task: {"of": task.step})
        worker.compensation("trip", "car")(lambda task: None)
        working = threading.Thread(target=worker.run)
        working.start()
        try:
            before = samples(service, "")
            for number in range(60):
                if number in (20, 40):
                    before = samples(service, "")
                    victim = children(service)[number // 20 - 1]
                    os.kill(victim, signal.SIGKILL)
                with contextlib.suppress(httpx.TransportError), service.client() as client:
                    start(client, "trip", f"k{number}")
            for number in range(60):
                with sagas.ServiceClient(service.url) as client:
                    client.start("trip", f"k{number}", None)
                    assert client.wait(f"k{number}", 2 * LONG).phase == "completed"
            after = samples(service, "")
            assert after["sagas_http_requests_total"] >= before["sagas_http_requests_total"]
            assert after["sagas_processes"] == len(children(service)) == COUNT
            assert after["sagas_nodes"] == COUNT
        finally:
            worker.stop()
            working.join(LONG)
        assert service.stop() == 0
    assert service.log_text().count("has ended (SIGKILL): it starts again") == 2
    records = [f"{record}.{number}" for number in range(1, COUNT + 1)]
    assert command("store", url, "record", *records).returncode == 0
    nodes = {line.partition(", node ")[2].partition('"')[0] for line in starts(service)}
    assert nodes == {f"shop-{number}" for number in range(1, COUNT + 1)}


def starts(service: Served) -> list[str]:
    """Return the lines of its log that say that a process has started."""
    return [line for line in service.log_text().splitlines() if "service started" in line]


def test_a_stop_under_load_loses_nothing(
    postgresql: Server, prepared: str, tmp_path: pathlib.Path
) -> None:
    """Each start that was answered is stored, and no process is left.

    Each process has opened the log again after its rotation.
    """
    url = postgresql.url(postgresql.create(template=prepared).rpartition("/")[2], user="app")
    answered, refused, lock = set[str](), list[str](), threading.Lock()
    log = tmp_path / "log"
    arguments = ("--processes", str(COUNT), "--log-file", str(log))
    service = Served(tmp_path, DEFINITIONS, *arguments, store=url)
    service.start()
    log.rename(tmp_path / "log.1")
    assert service.process
    service.process.send_signal(signal.SIGHUP)
    wait_until(lambda: log.exists() and log.read_text().count("was opened again") == COUNT + 1)

    def load(number: int) -> None:
        for turn in range(100_000):
            key = f"{number}-{turn}"
            try:
                with service.client() as client:
                    status = start(client, "order", key).status_code
            except httpx.TransportError:
                return
            with lock:
                if status == 201:
                    answered.add(key)
                else:
                    refused.append(f"{status}")
                    return

    threads = [threading.Thread(target=load, args=(number,)) for number in range(8)]
    for thread in threads:
        thread.start()
    wait_until(lambda: len(answered) > 100)
    processes = children(service)
    assert service.stop() == 0
    for thread in threads:
        thread.join(LONG)
    assert len(processes) == COUNT and not any(is_alive(process) for process in processes)
    assert {*refused} <= {"503"}
    listed = command("store", url, "list", "--json", "--limit", "100000").stdout
    assert all(f'"{key}"' in listed for key in answered)


def test_processes_end_with_their_command(
    postgresql: Server, prepared: str, tmp_path: pathlib.Path
) -> None:
    """If the command is killed, they stop by themselves; a signal to one starts it again."""
    url = postgresql.url(postgresql.create(template=prepared).rpartition("/")[2], user="app")
    with served(tmp_path, DEFINITIONS, "--processes", "2", store=url) as service:
        first, second = children(service)
        os.kill(first, signal.SIGTERM)
        wait_until(lambda: len(children(service)) == 2 and first not in children(service))
        third = children(service)[-1]
        assert "has ended (status 0): it starts again" in service.log_text()
        service.kill()
        wait_until(lambda: not is_alive(second) and not is_alive(third))
    assert "the command that started this process has ended: it stops" in service.log_text()


def test_a_process_that_dies_again_and_again_ends_the_service(
    postgresql: Server, prepared: str, tmp_path: pathlib.Path
) -> None:
    url = postgresql.url(postgresql.create(template=prepared).rpartition("/")[2], user="app")
    with served(tmp_path, DEFINITIONS, "--processes", "2", store=url) as service:
        assert service.process
        other, victim = children(service)
        while service.process.poll() is None:
            with contextlib.suppress(ProcessLookupError, FileNotFoundError):
                for process in {*children(service)} - {other}:
                    os.kill(process, signal.SIGKILL)
        assert service.process.wait(LONG) == 4
        assert not is_alive(other) and not is_alive(victim)
    assert "died again and again: the service ends" in service.log_text()


def test_a_service_that_waits_for_its_database(tmp_path: pathlib.Path) -> None:
    """It is alive and not ready. Then all processes start; or a signal ends the wait."""
    with serving() as server:
        url = server.create()
        server.stop("fast")
        service = Served(tmp_path, DEFINITIONS, "--processes", "2", "--wait", "600", store=url)
        service.start()
        try:
            with service.client() as client:
                assert client.get("/health/live").json() == {"alive": True}
                assert client.get("/health/ready").status_code == 503
            server.start()
            assert service.process and service.process.stdout
            assert b"waits" not in service.process.stdout.readline()
            assert len(children(service)) == 2 and len(starts(service)) == 2
            assert service.stop() == 0
            server.stop("fast")
            service.start()
            assert len(children(service)) == 1 and service.stop() == 0
        finally:
            service.kill()


def run(*arguments: str) -> subprocess.CompletedProcess[str]:
    """Run `sagas serve ARGUMENTS` as a process of its own, until it ends."""
    line = [sys.executable, "-m", "sagas", "serve", *arguments]
    return subprocess.run(line, env=environment(), capture_output=True, text=True, timeout=LONG)


def test_wrong_values(service: Served, tmp_path: pathlib.Path, url: str) -> None:
    """Each is refused with one line, and its status."""
    (tmp_path / "definitions").mkdir()
    (tmp_path / "definitions" / "bad.toml").write_text("format = 3\n")
    good = ("--definitions", str(service.folder / "definitions"))
    bad = ("--definitions", str(tmp_path / "definitions"))
    gone = "postgresql://owner@127.0.0.1:9/shop"
    cases: list[tuple[tuple[str, ...], int, str]] = [
        ((url, *good, "--processes", "0"), 2, "argument --processes"),
        ((url, *good, "--processes", "two"), 2, "argument --processes"),
        ((str(tmp_path / "s.db"), *good, "--processes", "2"), 2, "--processes requires a postgres"),
        ((url, *good, "--processes", "2", "--listen", service.address), 2, "already in use"),
        ((url, *good, "--processes", "2", "--listen", "0.0.0.0:0"), 2, "without --token-file"),
        ((url, *bad, "--processes", "2", "--listen", "127.0.0.1:0"), 1, "bad.toml"),
        ((gone, *good, "--processes", "2", "--listen", "127.0.0.1:0"), 4, "127.0.0.1:9"),
    ]
    for arguments, status, text in cases:
        done = run(*arguments)
        assert (done.returncode, done.stdout) == (status, ""), (arguments, done)
        assert text in done.stderr, done.stderr
        assert "Traceback" not in done.stderr and done.stderr.count("sagas serve: ") == 1


def test_one_process_is_as_without_the_option(tmp_path: pathlib.Path) -> None:
    with served(tmp_path, DEFINITIONS, "--processes", "1") as service:
        assert children(service) == [] or not any(
            b"serve" in pathlib.Path(f"/proc/{process}/cmdline").read_bytes()
            for process in children(service)
        )
        assert samples(service, "")["sagas_processes"] == 1
        assert service.stop() == 0


def test_sums() -> None:
    """Counters, histograms and gauges are added; times of a start are the earliest."""
    first = [
        ["a", "counter", "A", [["a_total", {"x": "1"}, 2.0], ["a_total", {"x": "2"}, 3.0]]],
        ["sagas_start_time_seconds", "gauge", "S", [["sagas_start_time_seconds", {}, 7.0]]],
        ["g", "gauge", "G", [["g", {}, 1.0]]],
    ]
    second = [
        ["a", "counter", "A", [["a_total", {"x": "2"}, 4.0]]],
        ["sagas_start_time_seconds", "gauge", "S", [["sagas_start_time_seconds", {}, 5.0]]],
        ["g", "gauge", "G", [["g", {}, 2.0]]],
    ]
    total = {
        (name, *labels): value
        for family in summed([first, second]).values()
        for (name, labels), value in family.samples.items()
    }
    assert total == {
        ("a_total", ("x", "1")): 2.0,
        ("a_total", ("x", "2")): 7.0,
        ("sagas_start_time_seconds",): 5.0,
        ("g",): 3.0,
    }
    dead = dumped(summed([first], only_counters=True))
    assert [name for name, *_ in dead] == ["a"] and dumped(summed([dead])) == dead
