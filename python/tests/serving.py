"""A real service for tests: `sagas serve` as its own process.

It has its own address, which it keeps when it is started again.
"""

from __future__ import annotations

import contextlib
import io
import itertools
import os
import pathlib
import signal
import subprocess
import sys
from collections.abc import Iterator, Sequence
from contextlib import contextmanager
from typing import Any

import contract
import httpx
from driving import program

from sagas.__main__ import main

HERE = pathlib.Path(__file__).resolve().parent
LONG = 60.0  # seconds
COUNT = itertools.count()

TRIP = """format = 2
name = "trip"
[defaults]
tries = 1
[[step]]
name = "flight"
undo = "never"
[[step]]
name = "car"
needs = ["flight"]
undo = 5
keep = 30
[[step]]
name = "tour"
needs = ["car"]
undo = "never"
skip = 10
tries = 2
"""
ORDER = """format = 2
name = "order"
[defaults]
tries = 1
[[step]]
name = "review"
tries = 9
[[step]]
name = "send"
needs = ["review"]
"""
LICENCE = """format = 2
name = "licence"
[defaults]
tries = 1
[[step]]
name = "server"
undo = "never"
skip = "never"
[[step]]
name = "licence"
needs = ["server"]
undo = "never"
skip = "never"
"""
FEW = """format = 2
name = "few"
[defaults]
tries = 1
[[step]]
name = "a"
keep = 9
undo = 1
[[step]]
name = "b"
needs = ["a"]
undo = "never"
"""
DEFINITIONS = {
    "trip.toml": TRIP,
    "trip.service.toml": (
        "[step.tour]\nbackoff = { initial = 0.05 }\nmax_unknown = 1\n"
        '[step.car]\nundo_on_exhausted = "fail"\n'
    ),
    "order.toml": ORDER,
    "order.service.toml": '[step.review]\nkind = "approval"\n',
    "licence.toml": LICENCE,
    "few.toml": FEW,
    "few.service.toml": "[step.a]\nconcurrency = 2\nbackoff = { initial = 0.05 }\n",
}


def host() -> str:
    """Return an address of the loopback that no other test has.

    No process takes its port while the service is down.
    """
    pid, count = os.getpid(), next(COUNT)
    return f"127.{1 + pid // 250 % 250}.{1 + pid % 250}.{1 + count % 250}"


def environment() -> dict[str, str]:
    return os.environ | {
        "PYTHONPATH": str(HERE.parent / "src"),
        "SAGAS_PROGRAM": program(),
        "PYTHONUNBUFFERED": "1",
    }


class Served:
    """A service over `folder/store.db`, or another store, with definitions in
    `folder/definitions`.
    """

    def __init__(
        self,
        folder: pathlib.Path,
        files: dict[str, str] = DEFINITIONS,
        *arguments: str,
        store: str | None = None,
    ) -> None:
        self.folder, self.arguments, self.address = folder, arguments, f"{host()}:0"
        self.store, self.errors = store or str(folder / "store.db"), folder / "errors"
        self.process: subprocess.Popen[bytes] | None = None
        (folder / "definitions").mkdir(exist_ok=True)
        for name, text in files.items():
            (folder / "definitions" / name).write_text(text)

    @property
    def url(self) -> str:
        return f"http://{self.address}"

    def command(self) -> list[str]:
        return [
            sys.executable,
            "-m",
            "sagas",
            "serve",
            self.store,
            "--definitions",
            str(self.folder / "definitions"),
            "--listen",
            self.address,
            *self.arguments,
        ]

    def start(self) -> None:
        """Start it, and wait until it answers."""
        with open(self.errors, "ab") as errors:
            self.process = subprocess.Popen(
                self.command(),
                env=environment(),
                stdout=subprocess.PIPE,
                stderr=errors,
                cwd=self.folder,
            )
        assert self.process.stdout
        line = self.process.stdout.readline().decode()
        if "http://" not in line:
            self.stop()
            raise AssertionError(f"it did not start: {self.errors.read_text()[-3000:]}")
        self.address = line.split("http://")[1].partition("/")[0]

    def kill(self) -> None:
        """Kill it."""
        if self.process:
            self.process.kill()
            self._ended()

    def stop(self) -> int:
        """Ask it to end, and wait; return its status."""
        process = self.process
        if process is None:
            return 0
        process.send_signal(signal.SIGTERM)
        try:
            process.wait(LONG)
        finally:
            process.kill()
            self._ended()
        return process.returncode

    def _ended(self) -> None:
        assert self.process and self.process.stdout
        self.process.wait(LONG)
        self.process.stdout.close()
        self.process = None

    def client(self, token: str | None = None, **options: Any) -> httpx.Client:
        """Return a client of it, which follows no proxy settings."""
        headers = {"Authorization": f"Bearer {token}"} if token else {}
        # each response is as the OpenAPI document defines it
        hooks = {"response": [contract.check]}
        options = {"verify": False} | options  # it speaks no TLS, so no certificates need be read
        return httpx.Client(
            base_url=self.url,
            timeout=LONG,
            trust_env=False,
            headers=headers,
            event_hooks=hooks,
            **options,
        )

    def log_text(self) -> str:
        """Return its log output."""
        return self.errors.read_text(errors="replace")


@contextmanager
def served(
    folder: pathlib.Path,
    files: dict[str, str] = DEFINITIONS,
    *arguments: str,
    store: str | None = None,
) -> Iterator[Served]:
    """Run a service until the block ends."""
    service = Served(folder, files, *arguments, store=store)
    service.start()
    try:
        yield service
    finally:
        service.kill()


def command(*arguments: str) -> subprocess.CompletedProcess[str]:
    """Run `sagas ARGUMENTS` in this process; return its status and output."""
    out, errors = io.StringIO(), io.StringIO()
    with contextlib.redirect_stdout(out), contextlib.redirect_stderr(errors):
        try:
            status = main([*arguments])
        except SystemExit as ended:  # as `argparse` refuses arguments
            status = int(str(ended.code))
    return subprocess.CompletedProcess(arguments, status, out.getvalue(), errors.getvalue())


def token(folder: pathlib.Path, name: str, *roles: str) -> str:
    """Return a token of the file `folder/tokens.toml`."""
    done = command("token", str(folder / "tokens.toml"), name, *roles)
    done.check_returncode()
    return done.stdout.strip()


def take(
    client: httpx.Client, *steps: str, wait: float = 30, lease: float = 600, limit: int = 1
) -> list[dict[str, Any]]:
    """Claim tasks."""
    answer = client.post(
        "/v1/tasks/claim",
        json={"steps": steps, "wait": wait, "lease": lease, "limit": limit, "worker": "w"},
    )
    assert answer.status_code == 200, answer.text
    tasks: list[dict[str, Any]] = answer.json()["tasks"]
    return tasks


def error_of(answer: httpx.Response) -> str:
    """Return the name of a response's problem."""
    problem: dict[str, Any] = answer.json()
    return str(problem["type"]).rpartition(":")[2]


def report(
    client: httpx.Client, task: dict[str, Any], word: str = "complete", **more: Any
) -> httpx.Response:
    """Report a task."""
    return client.post(
        f"/v1/tasks/{task['attempt_id']}/{word}", json={"lease": task["lease"], **more}
    )


def start(client: httpx.Client, definition: str, key: str, value: Any = None) -> httpx.Response:
    """Start a saga."""
    return client.post("/v1/sagas", json={"definition": definition, "key": key, "input": value})


def all_done(client: httpx.Client, *steps: str, failing: Sequence[str] = ()) -> None:
    """Do these tasks, one after the other, each once it exists."""
    for step in steps:
        (task,) = take(client, step)
        answer = (
            report(client, task, "fail", error="no", final=True)
            if step in failing
            else report(client, task, result={"of": task["step"]})
        )
        assert answer.status_code == 200, answer.text


def stuck(client: httpx.Client, key: str) -> None:
    """Make a saga that is stuck."""
    assert start(client, "licence", key).status_code == 201
    all_done(client, "licence/server", "licence/licence", failing=["licence/licence"])
    assert client.get(f"/v1/sagas/{key}/wait").json()["phase"] == "stuck"
