"""Workers over HTTP: `sagas.Worker`, and the examples in Python, Node and shell.

They are killed, and lose their service.
"""

from __future__ import annotations

import asyncio
import contextlib
import os
import pathlib
import shutil
import signal
import socket
import subprocess
import sys
import threading
import time
from collections.abc import Callable, Iterator
from typing import Any

import httpx
import pytest
from serving import (
    DEFINITIONS,
    LONG,
    Served,
    all_done,
    environment,
    host,
    report,
    served,
    start,
    take,
    token,
)

import sagas

EXAMPLES = pathlib.Path(__file__).resolve().parents[2] / "examples" / "service"
STEPS = """format = 2
name = "steps"
[[step]]
name = "flaky"
tries = 3
[[step]]
name = "hazy"
needs = ["flaky"]
[[step]]
name = "slow"
needs = ["hazy"]
[[step]]
name = "odd"
needs = ["slow"]
undo = "never"
[[step]]
name = "last"
needs = ["odd"]
undo = "never"
skip = 10
tries = 9
"""
ONE_STEP = 'format = 2\nname = "one"\n[[step]]\nname = "a"\nundo = "never"\n'
SERVICE = "[step.flaky]\nbackoff = { initial = 0.01 }\n[step.hazy]\nbackoff = { initial = 0.01 }\n"


@contextlib.contextmanager
def working(worker: sagas.Worker) -> Iterator[None]:
    """Run a worker in a thread, until the block ends."""
    thread = threading.Thread(target=worker.run)
    thread.start()
    try:
        yield
    finally:
        worker.stop()
        thread.join(LONG)


def test_a_step_is_declared_twice() -> None:
    """That is refused by name, with the location of each."""
    worker = sagas.Worker("http://127.0.0.1:1")

    @worker.step("trip", "car")
    def car(task: sagas.Task[Any]) -> None:
        ...

    worker.compensation("trip", "car")(car)
    with pytest.raises(
        sagas.DefinitionError,
        match=(
            r"trip/car is declared twice, at .*test_service_workers.py:\d+ and"
            r" .*test_service_workers.py:\d+"
        ),
    ):

        @worker.step("trip", "car")
        def another(task: sagas.Task[Any]) -> None:
            ...


def test_a_worker(tmp_path: pathlib.Path, caplog: pytest.LogCaptureFixture) -> None:
    """Its functions have the outcomes that they have in a store; a long one keeps its lease by
    heartbeats. A step that no definition has is logged, once.
    """
    calls: list[tuple[str, bool, str]] = []
    with served(
        tmp_path, {"steps.toml": STEPS, "steps.service.toml": SERVICE}, "--log-level", "debug"
    ) as service, service.client() as client:
        worker = sagas.Worker(service.url, lease=3.0, wait=1.0, concurrency=2)

        @worker.step("steps", "flaky")
        def flaky(task: sagas.Task[int]) -> int:
            calls.append((task.step, task.is_compensation, task.idempotency_key))
            if task.attempt < 3:
                raise sagas.Retry("not yet")
            return task.input + 1

        @worker.step("steps", "hazy")
        async def hazy(task: sagas.Task[int]) -> str:
            calls.append((task.step, task.is_compensation, task.idempotency_key))
            await asyncio.sleep(0)
            if len([call for call in calls if call[0] == "hazy"]) == 1:
                raise sagas.Unknown("who knows")
            return f"{task.results['flaky']}"

        @worker.step("steps", "slow")
        def slow(task: sagas.Task[int]) -> None:
            calls.append((task.step, task.is_compensation, task.idempotency_key))
            deadline = time.monotonic() + LONG
            while service.log_text().count("/heartbeat 200") < 3 and time.monotonic() < deadline:
                time.sleep(0.1)

        @worker.step("steps", "odd")
        def odd(task: sagas.Task[int]) -> object:
            return object()

        @worker.step("steps", "last")
        def last(task: sagas.Task[int]) -> None:
            raise sagas.Fail("never")

        @worker.compensation("steps", "slow")
        @worker.compensation("steps", "hazy")
        @worker.compensation("steps", "flaky")
        def undo(task: sagas.Task[int]) -> None:
            calls.append((task.step, task.is_compensation, task.original_idempotency_key))

        worker.step("steps", "tree")(last)
        start(client, "steps", "s", 41)
        with working(worker):
            end = client.get("/v1/sagas/s/wait?seconds=60").json()
        log = client.get("/v1/sagas/s/log").json()["events"]
    assert (
        end["phase"] == "recovered"
        and end["results"]["flaky"] == 42
        and end["results"]["hazy"] == "42"
    )
    assert "unstorable" in end["results"]["odd"] and end["states"]["last"] == "failed"
    assert [event["event"] for event in log if event["step"] == "flaky"] == [
        "start_run",
        "missed",
    ] * 2 + ["start_run", "commit"]
    first = next(event for event in log if event["event"] == "missed" and event["step"] == "last")
    assert first["value"] == {"error": "sagas.Fail: never", "final": True}
    assert [step for step, undone, _ in calls][:6] == ["flaky"] * 3 + ["hazy"] * 2 + ["slow"]
    assert len({effect for _, _, effect in calls}) == 3 and "/heartbeat 200" in service.log_text()
    assert caplog.text.count("no definition of the service has step steps/tree") == 1


def test_a_worker_that_is_interrupted(tmp_path: pathlib.Path) -> None:
    """Ctrl-C ends it once its current tasks have ended, and are reported.

    It comes while most of the threads are not started yet. An address without a scheme is refused.
    """
    with pytest.raises(ValueError, match="not the address of a service"):
        sagas.Worker("127.0.0.1:8080")
    (tmp_path / "worker.py").write_text(INTERRUPTED)
    with served(tmp_path) as service, service.client() as client:
        start(client, "trip", "x")
        command = [sys.executable, str(tmp_path / "worker.py"), service.url]
        with subprocess.Popen(
            command,
            env=environment(),
            stdin=subprocess.PIPE,
            stdout=subprocess.PIPE,
            stderr=subprocess.PIPE,
            text=True,
        ) as worker:
            assert worker.stdin and worker.stdout and worker.stderr
            assert worker.stdout.readline() == "at work\n"
            worker.send_signal(signal.SIGINT)
            worker.stdin.write("\n")
            worker.stdin.flush()
            assert worker.stdout.readline() == "over\n"
            assert (worker.wait(LONG), worker.stderr.read()) == (0, "")
        assert client.get("/v1/sagas/x").json()["states"]["flight"] == "committed"


INTERRUPTED = """import sagas, signal, sys
signal.signal(signal.SIGINT, signal.default_int_handler)  # which a job in the background ignores
worker = sagas.Worker(sys.argv[1], concurrency=100)

@worker.step("trip", "flight")
def flight(task):
    print("at work", flush=True)
    sys.stdin.readline()

worker.run()
print("over", flush=True)
"""


TERMINATED = """import logging, os, sagas, sys
logging.basicConfig(stream=sys.stderr, format="%(message)s")
worker = sagas.Worker(sys.argv[1], lease=600, concurrency=1, shutdown_timeout=float(sys.argv[2]))

@worker.step("one", "a")
def a(task):
    print("at work", task.key, os.getpid(), flush=True)
    sys.stdin.readline()
    return "done"

worker.run()
print("over", flush=True)
"""
HELD_ON = "its function is still running, so its task is released"


@pytest.mark.parametrize(
    ("seconds", "signals", "ends", "first"),
    [
        pytest.param(60, 1, True, False, id="its function ends"),
        pytest.param(60, 1, True, True, id="it is process 1"),
        pytest.param(60, 2, False, False, id="a second SIGTERM"),
        pytest.param(0.5, 1, False, False, id="its function outlives the time"),
        pytest.param(0.5, 1, False, True, id="process 1, and its function outlives the time"),
    ],
)
def test_a_worker_that_is_terminated(
    tmp_path: pathlib.Path, seconds: float, signals: int, ends: bool, first: bool
) -> None:
    """On SIGTERM it reports what ends in time, and releases the rest, long before leases expire."""
    (tmp_path / "worker.py").write_text(TERMINATED)
    command = [sys.executable, str(tmp_path / "worker.py")]
    if first:
        command = ["unshare", "--pid", "--fork", "--kill-child", *command]
        if subprocess.run(["unshare", "--pid", "--fork", "true"]).returncode:
            pytest.skip("a process may make no namespace here")
    with served(tmp_path, {"one.toml": ONE_STEP}) as service, service.client() as client:
        start(client, "one", "x")
        with subprocess.Popen(
            [*command, service.url, str(seconds)],
            env=environment(),
            stdin=subprocess.PIPE,
            stdout=subprocess.PIPE,
            stderr=subprocess.PIPE,
            text=True,
        ) as worker:
            assert worker.stdin and worker.stdout and worker.stderr
            called = worker.stdout.readline().split()
            assert called[:3] == ["at", "work", "x"] and (called[3] == "1") is first
            start(client, "one", "y")
            pid = worker.pid if not first else child_of(worker.pid)
            os.kill(pid, signal.SIGTERM)
            (other,) = take(client, "one/a")  # the worker does not claim it any more
            assert other["key"] == "y"
            if ends:
                worker.stdin.write("\n")
                worker.stdin.flush()
            for _ in range(signals - 1):
                os.kill(pid, signal.SIGTERM)
            assert worker.wait(LONG) == 0
            errors = worker.stderr.read()
            assert worker.stdout.read() == "over\n" and (errors.count(HELD_ON) == 1) is not ends
        if not ends:
            (again,) = take(client, "one/a")
            assert again["key"] == "x" and again["idempotency_key"].endswith("-a-run")
            assert report(client, again, result="done").status_code == 200
        assert client.get("/v1/sagas/x/wait").json()["results"] == {"a": "done"}


def child_of(pid: int) -> int:
    """Return the process that another one has started."""
    return int(pathlib.Path(f"/proc/{pid}/task/{pid}/children").read_text().split()[0])


def test_a_handler_of_the_program_remains(tmp_path: pathlib.Path) -> None:
    """A worker does not replace it, and one that calls `stop` ends the worker."""
    with served(tmp_path, {"one.toml": ONE_STEP}) as service:
        worker, came = sagas.Worker(service.url, wait=1.0), threading.Event()
        worker.step("one", "a")(lambda task: came.set())
        mine = signal.signal(signal.SIGTERM, lambda *_: worker.stop())
        try:
            with service.client() as client:
                start(client, "one", "x")
                ending = threading.Thread(
                    target=lambda: came.wait(LONG) and os.kill(os.getpid(), signal.SIGTERM)
                )
                ending.start()
                worker.run()
                ending.join(LONG)
                assert came.is_set() and signal.getsignal(signal.SIGTERM) is not signal.SIG_DFL
        finally:
            signal.signal(signal.SIGTERM, mine)


def test_a_worker_that_may_not(tmp_path: pathlib.Path) -> None:
    """It ends with the reason; one without a service waits for it."""
    wrong = token(tmp_path, "shop", "caller")
    with served(tmp_path, DEFINITIONS, "--token-file", str(tmp_path / "tokens.toml")) as service:
        for text in (wrong, "nobody's"):
            worker = sagas.Worker(service.url, text)
            worker.step("trip", "flight")(lambda task: None)
            with pytest.raises(sagas.ServiceRefused) as refused:
                worker.run()
            assert refused.value.status in (401, 403)
        right = token(tmp_path, "worker", "worker")
        caller = service.client(wrong)
        assert start(caller, "trip", "later").status_code == 201
        service.kill()
        done = threading.Event()
        worker = sagas.Worker(service.url, right, wait=1.0)
        worker.step("trip", "flight")(lambda task: done.set())
        with working(worker):
            service.start()
            assert done.wait(LONG)
        caller.close()
    with pytest.raises(ValueError):
        sagas.Worker("http://127.0.0.1:1").run()


def rewritten(service: Served, old: str, new: str) -> None:
    """Change the token file, and wait until the service has read it."""
    file = service.folder / "tokens.toml"
    file.write_text(file.read_text().replace(old, new))
    marker = token(service.folder, f"seen-{time.monotonic_ns()}", "caller")
    deadline = time.monotonic() + LONG
    with service.client(marker) as client:
        while client.get("/v1/sagas").status_code != 200:
            assert time.monotonic() < deadline
            time.sleep(0.1)


def test_a_worker_that_may_less_than_before(tmp_path: pathlib.Path) -> None:
    """It still reports finished work; then it ends, and names the steps that it may not take."""
    word = token(tmp_path, "w", "worker", "--step", "trip/flight", "--step", "trip/car")
    caller = token(tmp_path, "c", "caller")
    with served(tmp_path, DEFINITIONS, "--token-file", str(tmp_path / "tokens.toml")) as service:
        worker = sagas.Worker(service.url, word, wait=1.0, concurrency=1)

        @worker.step("trip", "flight")
        def flight(task: sagas.Task[Any]) -> int:
            rewritten(service, '"trip/car", ', "")
            return 5

        worker.step("trip", "car")(lambda task: None)
        with service.client(caller) as client:
            assert start(client, "trip", "less").status_code == 201
            with pytest.raises(sagas.ServiceRefused, match="w has no right to the steps trip/car"):
                worker.run()
            assert client.get("/v1/sagas/less").json()["results"] == {"flight": 5}


def test_a_worker_with_the_lease_of_another(
    tmp_path: pathlib.Path, caplog: pytest.LogCaptureFixture
) -> None:
    """Its report is refused, which its log has; it continues with other tasks."""
    word = token(tmp_path, "before", "worker")
    caller = token(tmp_path, "c", "caller")
    with served(tmp_path, DEFINITIONS, "--token-file", str(tmp_path / "tokens.toml")) as service:
        worker, calls = sagas.Worker(service.url, word, wait=1.0, concurrency=1, lease=1.0), []
        again = threading.Event()

        @worker.step("trip", "flight")
        def flight(task: sagas.Task[Any]) -> int:
            calls.append(task.idempotency_key)
            if len(calls) == 1:
                rewritten(service, '"before"', '"after"')
            else:
                again.set()
            return len(calls)

        with service.client(caller) as client:
            assert start(client, "trip", "other").status_code == 201
            with working(worker):
                assert again.wait(LONG)
                deadline = time.monotonic() + LONG
                while client.get("/v1/sagas/other").json()["states"]["flight"] != "committed":
                    assert time.monotonic() < deadline
            assert client.get("/v1/sagas/other").json()["results"] == {"flight": 2}
    assert calls[0] == calls[1] and "complete was rejected" in caplog.text
    assert "InvalidLease" in caplog.text


class Endless(Exception):
    """An exception that cannot even be described."""

    def __str__(self) -> str:
        raise SystemExit


ODD = SystemExit, KeyboardInterrupt, GeneratorExit, asyncio.CancelledError


@pytest.mark.parametrize("is_async", [False, True])
def test_a_function_raises_a_base_exception(
    batches: tuple[Served, httpx.Client], is_async: bool
) -> None:
    """The outcome is unknown, as in a store: the same thread calls it again, with the same
    idempotency key.
    """
    service, client = batches
    calls: list[tuple[str, str]] = []
    worker = sagas.Worker(service.url, wait=1.0, concurrency=1)

    def odd(task: sagas.Task[int]) -> None:
        calls.append((task.key, task.idempotency_key))
        if len([key for key, _ in calls if key == task.key]) == 1:
            raise ODD[task.input]("during the call")

    async def odd_in_loop(task: sagas.Task[int]) -> None:
        odd(task)

    worker.step("one", "a", cancel_on_abort=is_async)(odd_in_loop if is_async else odd)
    keys = [f"odd-{is_async}-{number}" for number in range(len(ODD))]
    for number, key in enumerate(keys):
        start(client, "one", key, number)
    with working(worker):
        for kind, key in zip(ODD, keys):
            assert (
                client.get(f"/v1/sagas/{key}/wait?seconds=20", timeout=LONG).json()["phase"]
                == "completed"
            ), kind
    assert len(calls) == 2 * len(set(calls)) == 2 * len(ODD)


def test_no_thread_of_a_worker_ends_silently(
    batches: tuple[Served, httpx.Client], caplog: pytest.LogCaptureFixture
) -> None:
    """The worker ends with it, and its log has the reason: a claiming thread, or one that keeps
    leases; `run` raises the exception.
    """
    service, client = batches
    claims = sagas.Worker(service.url, wait=1.0, lease=1.0)

    @claims.step("one", "a")
    def endless(task: sagas.Task[Any]) -> None:
        raise Endless

    beats = sagas.Worker("http://127.0.0.1:1", lease="30")  # type: ignore[arg-type]
    beats.step("one", "a")(endless)
    start(client, "one", "endless")
    for worker, fault in ((claims, SystemExit), (beats, TypeError)):
        caplog.clear()
        heard: list[BaseException] = []

        def runs(worker: sagas.Worker = worker, heard: list[BaseException] = heard) -> None:
            try:
                worker.run()
            except BaseException as error:
                heard.append(error)

        thread = threading.Thread(target=runs)
        thread.start()
        thread.join(20.0)
        worker.stop()
        assert not thread.is_alive() and "a thread of this worker failed" in caplog.text
        assert [type(event) for event in heard] == [fault]
    all_done(client, "one/a")


class Asking(sagas.Worker):
    """A client that counts the tasks of each response."""

    def __init__(self, url: str, **more: Any) -> None:
        super().__init__(url, wait=0.2, **more)
        self.claim_sizes: list[int] = []
        right = self._service.ask_until_answered

        def ask_until_answered(*arguments: Any, **more: Any) -> dict[str, Any] | None:
            reply = right(*arguments, **more)
            claimed = (reply.get("next") or reply) if reply else {}
            if claimed.get("tasks"):
                self.claim_sizes.append(len(claimed["tasks"]))
            return reply

        self._service.ask_until_answered = ask_until_answered  # type: ignore[method-assign]


class Calls:
    """The calls by saga. One worker holds a task, while others wait in its queue."""

    def __init__(self) -> None:
        self.all: list[tuple[str, str]] = []
        self._came = threading.Condition()
        self.held, self.hold = threading.Event(), threading.Event()

    def of(
        self, name: str, seconds: float = 0.0, holds: Asking | None = None
    ) -> Callable[[sagas.Task[None]], None]:
        def function(task: sagas.Task[None]) -> None:
            with self._came:
                self.all.append((name, task.key))
                self._came.notify_all()
            if holds and sum(holds.claim_sizes) - self.count(name) > 1 and not self.held.is_set():
                self.held.set()
                self.hold.wait(LONG)
            elif seconds:
                threading.Event().wait(seconds)

        return function

    def count(self, name: str) -> int:
        return len([event_name for event_name, _ in self.all if event_name == name])

    def until(self, count: int, seconds: float = LONG) -> None:
        with self._came:
            assert self._came.wait_for(lambda: len(self.all) >= count, seconds), self.all


@pytest.fixture(scope="module")
def batches(tmp_path_factory: pytest.TempPathFactory) -> Iterator[tuple[Served, httpx.Client]]:
    """Return a service for sagas of one step."""
    with served(
        tmp_path_factory.mktemp("ones"), {"one.toml": ONE_STEP}, "--log-level", "debug"
    ) as service, service.client() as client:
        yield service, client


def left_open(client: httpx.Client) -> list[str]:
    """Return the sagas that do not end, although their tasks were reported."""
    for saga in client.get("/v1/sagas?phase=open").json()["sagas"]:
        client.get(f"/v1/sagas/{saga['key']}/wait?seconds=20", timeout=LONG)
    return [saga["key"] for saga in client.get("/v1/sagas?phase=open").json()["sagas"]]


def test_reports_together(batches: tuple[Served, httpx.Client]) -> None:
    """Each counts as if it was sent alone, and has its own problem; a malformed one is refused
    before anything is stored.
    """
    _, client = batches
    for number in range(6):
        start(client, "one", f"together-{number}")
    tasks = take(client, "one/a", limit=6)
    outcomes: list[dict[str, Any]] = [
        {"outcome": "complete", "result": {"n": 1}},
        {"outcome": "complete"},
        {"outcome": "fail", "error": "no", "final": True},
        {"outcome": "unknown", "error": "who knows"},
        {"outcome": "complete"},
        {"outcome": "complete"},
    ]
    reports = [
        {"attempt_id": task["attempt_id"], "lease": task["lease"], **outcome}
        for task, outcome in zip(tasks, outcomes)
    ]
    reports[4] |= {"lease": tasks[5]["lease"]}
    reports[5] |= {"attempt_id": "0-1-a-run-1"}

    def sent(*some: dict[str, Any], **more: Any) -> httpx.Response:
        return client.post("/v1/tasks/report", json={"reports": some, **more})

    for wrong in (
        sent(),
        sent(*reports * 17),
        sent({**reports[0], "outcome": "done"}),
        sent(reports[0], {**reports[2], "error": None}),
        sent(reports[0], next={"steps": ["one"]}),
    ):
        assert wrong.status_code == 422
    assert sent(reports[0], {**reports[2], "error": None}).json()["field"] == "reports.1.error"
    reply = sent(*reports, next={"steps": ["one/a"]}).json()
    assert [report["attempt_id"] for report in reply["reports"]] == [
        report["attempt_id"] for report in reports
    ]
    assert [report["kept"] for report in reply["reports"]] == [True] * 4 + [False] * 2 and reply[
        "next"
    ]["unknown_steps"] == []
    assert [report["problem"]["type"].rpartition(":")[2] for report in reply["reports"][4:]] == [
        "InvalidLease"
    ] * 2
    again = sent(*reports[:3], {**reports[2], "outcome": "complete"}).json()
    assert [(report["kept"], report["repeated"]) for report in again["reports"]] == [
        (True, True)
    ] * 3 + [(False, False)]
    assert again["next"] is None and again["reports"][3]["problem"]["status"] == 409
    for task, word in zip(tasks, ("completed", "completed", "recovered")):
        assert client.get(f"/v1/sagas/{task['key']}/wait").json()["phase"] == word
    for task in (tasks[4], tasks[5], *take(client, "one/a")):
        assert report(client, task).status_code == 200


def test_a_worker_takes_short_ones_ahead(batches: tuple[Served, httpx.Client]) -> None:
    """It claims as many in one request as it does in a short time, and long ones one at a time."""
    service, client = batches
    for seconds, count in ((0.0, 40), (0.15, 4)):
        calls = Calls()
        worker = Asking(service.url, concurrency=2)
        worker.step("one", "a")(calls.of("it", seconds))
        for number in range(count):
            start(client, "one", f"{seconds}-{number}")
        with working(worker):
            calls.until(count)
        assert len(set(calls.all)) == count
        if seconds:
            assert worker.claim_sizes == [1] * count
        else:
            assert (
                worker.claim_sizes[0] == 1
                and 2 < max(worker.claim_sizes) <= 10
                and len(worker.claim_sizes) < count
            ), worker.claim_sizes
    assert not left_open(client)


def test_tasks_that_a_worker_claimed_ahead(batches: tuple[Served, httpx.Client]) -> None:
    """If a function is slow, or the worker is stopped, other workers soon get the tasks in its
    queue, long before its lease is over; each is done once.
    """
    service, client = batches
    reclaimed = [
        line
        for line in client.get("/metrics").text.splitlines()
        if line.startswith("sagas_tasks_reclaimed_total ")
    ]
    assert len(reclaimed) == 1
    for stopped in (False, True):
        calls, before = Calls(), service.log_text().count("/heartbeat 200")
        slow, other = Asking(service.url, concurrency=1, lease=600.0), Asking(service.url)
        slow.step("one", "a")(calls.of("slow", holds=slow))
        other.step("one", "a")(calls.of("other"))
        for number in range(20):
            start(client, "one", f"{stopped}-{number}")
        with working(slow):
            assert calls.held.wait(LONG)
            count = calls.count("slow")
            if stopped:
                slow.stop()
            try:
                with working(other):
                    calls.until(20, 15.0)
            finally:
                calls.hold.set()
        assert calls.count("slow") == count and len(set(calls.all)) == 20
        assert service.log_text().count("/heartbeat 200") - before >= sum(slow.claim_sizes) - count
        assert not left_open(client) and reclaimed[0] in client.get("/metrics").text.splitlines()


class Workers:
    """The three examples as processes, each started again when it is killed."""

    def __init__(self, service: Served) -> None:
        folder = service.folder / "bin"
        folder.mkdir()
        (folder / "python3").write_text(f'#!/bin/sh\nexec {sys.executable} "$@"\n')
        (folder / "python3").chmod(0o755)
        self.environment = environment() | {"PATH": f"{folder}:{environment()['PATH']}"}
        node = shutil.which("node")
        assert node
        self.commands = [
            [sys.executable, str(EXAMPLES / "worker.py")],
            [node, str(EXAMPLES / "worker.mjs")],
            [str(EXAMPLES / "worker.sh")],
        ]
        self.service = service
        self.there = [self._start(command) for command in self.commands]

    def _start(self, command: list[str]) -> subprocess.Popen[bytes]:
        with open(self.service.folder / "workers", "ab") as log:
            return subprocess.Popen(
                [*command, self.service.url],
                env=self.environment,
                stdout=log,
                stderr=log,
                start_new_session=True,
            )

    def kill(self, index: int) -> None:
        self._end(self.there[index])
        self.there[index] = self._start(self.commands[index])

    def _end(self, process: subprocess.Popen[bytes]) -> None:
        with contextlib.suppress(ProcessLookupError):
            import os
            import signal

            os.killpg(process.pid, signal.SIGKILL)  # its own session: the shell with its curl
        process.wait(LONG)

    def end(self) -> None:
        for process in self.there:
            self._end(process)


@contextlib.contextmanager
def hotel(answer: bytes) -> Iterator[str]:
    """Run a hotel that sends this response to each request, and then ends the connection; return
    its address.
    """
    with socket.create_server((host(), 0)) as listening:
        threading.Thread(target=accept, args=(listening, answer), daemon=True).start()
        yield "http://%s:%d/" % listening.getsockname()
        listening.shutdown(socket.SHUT_RDWR)


def accept(listening: socket.socket, answer: bytes) -> None:
    while True:
        try:
            connection, _ = listening.accept()
        except OSError:
            return
        with connection, contextlib.suppress(OSError):
            connection.recv(65536)
            connection.sendall(answer)
            connection.shutdown(socket.SHUT_WR)
            while connection.recv(65536):  # the data still to come: else the response would be lost
                pass


FULL = b"HTTP/1.1 409 Conflict\r\nContent-Length: 0\r\nConnection: close\r\n\r\n"


@pytest.mark.parametrize(
    "answer, says",
    [
        (b"", "fetch failed"),
        (b"HTTP/1.1 200 OK\r\nContent-Le", "fetch failed"),
        (FULL.replace(b"409 Conflict", b"503 Busy"), "the hotel answers 503"),
        (FULL, None),
    ],
    ids=["no answer", "half an answer", "a fault of the hotel", "a refusal"],
)
def test_the_worker_in_node_does_not_know(
    tmp_path: pathlib.Path, answer: bytes, says: str | None
) -> None:
    """If its connection to the hotel breaks, the outcome is unknown, since the hotel may have
    booked; a refusal is a failure.
    """
    files = {path.name: path.read_text() for path in (EXAMPLES / "definitions").glob("*.toml")}
    node = shutil.which("node")
    assert node
    with served(tmp_path, files) as service, service.client() as client, hotel(answer) as address:
        start(client, "trip", "t")
        all_done(client, "trip/flight")
        command = [node, str(EXAMPLES / "worker.mjs"), service.url]
        with subprocess.Popen(command, env=environment() | {"HOTEL": address}) as worker:
            try:
                deadline, entries = time.monotonic() + LONG, []
                while not entries:
                    assert time.monotonic() < deadline
                    log = client.get("/v1/sagas/t/log").json()["events"]
                    waits = client.get("/v1/sagas/t").json()["waits"]
                    entries = [
                        wait["detail"]
                        for wait in waits
                        if (wait["step"], wait["why"]) == ("hotel", "unknown") and wait["detail"]
                    ]
                    entries += [
                        event["value"]["error"]
                        for event in log
                        if (event["event"], event["step"]) == ("missed", "hotel")
                    ]
            finally:
                worker.kill()
    assert (says or "the hotel answers 409") in entries[0]
    missed = [
        event for event in log if event["event"] in ("missed", "fail") and event["step"] == "hotel"
    ]
    assert bool(missed) is (says is None)


def test_the_examples_continue(tmp_path: pathlib.Path) -> None:
    """Service and workers are killed; each saga ends, with the results of all three workers."""
    files = {path.name: path.read_text() for path in (EXAMPLES / "definitions").glob("*.toml")}
    with served(tmp_path, files) as service, service.client() as client:
        workers = Workers(service)
        try:
            keys = [f"t{number}" for number in range(6)]
            for key in keys[:3]:
                start(client, "trip", key, {"to": "Rome"})
            service.kill()
            service.start()
            for key in keys[3:]:
                start(client, "trip", key, {"to": "Rome"})
            for index in range(3):
                workers.kill(index)
            waiting = set(keys)
            deadline = time.monotonic() + 2 * LONG
            while waiting and time.monotonic() < deadline:
                for key in sorted(waiting):
                    if (
                        client.post(
                            f"/v1/sagas/{key}/steps/review/complete", json={"result": "yes"}
                        ).status_code
                        == 200
                    ):
                        waiting.discard(key)
                time.sleep(0.1)
            service.kill()
            service.start()
            for key in keys:
                end = client.get(f"/v1/sagas/{key}/wait?seconds=60").json()
                assert end["phase"] == "completed" and end["results"]["hotel"]["room"] == 4, end
                assert end["results"]["tour"].startswith("booked under ") and end["results"][
                    "tour"
                ].endswith("-tour-run"), end
        finally:
            workers.end()
