"""`sagas demo`: what it shows, and that its end leaves nothing."""

from __future__ import annotations

import contextlib
import os
import pathlib
import signal
import socket
import subprocess
import sys
import time
from collections import Counter
from collections.abc import Iterator

import httpx
import pytest
from serving import LONG, command, environment

from sagas.server.demo_orders import COUNT, Fate, starts

KINDS = {"stuck", "unknown", "exhausted", "program_error", "approval"}
PHASES = {
    Fate.SUCCESS: "completed",
    Fate.BUSY_BANK: "completed",
    Fate.DECLINED_CARD: "recovered",
    Fate.BAD_ADDRESS: "recovered",
    Fate.LOST_MAIL: "recovered",
    Fate.NO_LICENSE: "stuck",
}
"""How sagas end that wait for no person."""


@contextlib.contextmanager
def demo(
    folder: pathlib.Path, *arguments: str, **variables: str
) -> Iterator[subprocess.Popen[str]]:
    """Run the demo in its own process group, with its files below a folder."""
    process = subprocess.Popen(
        [sys.executable, "-m", "sagas", "demo", *arguments],
        env=environment() | {"TMPDIR": str(folder), **variables},
        stdout=subprocess.PIPE,
        stderr=subprocess.STDOUT,
        text=True,
        start_new_session=True,
    )
    try:
        yield process
    finally:
        with contextlib.suppress(ProcessLookupError):
            os.killpg(process.pid, signal.SIGKILL)
        process.communicate(timeout=LONG)


def is_alone(process: subprocess.Popen[str]) -> bool:
    """Return whether no process is left of the group of one that has ended."""
    try:
        os.killpg(process.pid, 0)
    except ProcessLookupError:
        return True
    return False


def address(process: subprocess.Popen[str]) -> str:
    """Return the address that the demo prints first."""
    assert process.stdout
    line = process.stdout.readline()
    assert line.startswith("sagas demo: http://127.0.0.1:"), line
    return line.split()[-1]


def test_each_state_is_shown_and_nothing_is_left(tmp_path: pathlib.Path) -> None:
    """An operator's answer continues a saga, and Ctrl-C ends all within seconds."""
    with demo(tmp_path, "--no-browser") as process:
        url = address(process)
        with httpx.Client(base_url=url, trust_env=False, timeout=LONG) as client:
            assert "<h1>Inbox" in client.get("/ui").text
            until = time.monotonic() + LONG
            while True:
                counts = client.get("/v1/attention?limit=1").json()["counts"]
                if {kind for kind, count in counts.items() if count} >= KINDS:
                    break
                assert time.monotonic() < until, counts
                time.sleep(0.2)
            entries = client.get("/v1/attention?kind=approval").json()["entries"]
            keys = {start.key for start in starts() if start.fate is Fate.SUCCESS}
            path = "/v1/sagas/" + next(row["key"] for row in entries if row["key"] in keys)
            client.post(f"{path}/steps/review/complete", json={"result": "yes"}).raise_for_status()
            assert client.get(f"{path}/wait?seconds=60").json()["phase"] == "completed"
            wanted = {start.key: PHASES[start.fate] for start in starts() if start.fate in PHASES}
            rows = client.get("/v1/sagas?limit=200").json()["sagas"]
            phases = {row["key"]: row["phase"] for row in rows if row["phase"] != "open"}
            assert len(phases) > 50
            wrong = {key for key, phase in phases.items() if wanted.get(key, phase) != phase}
            assert wrong == set()
        began = time.monotonic()
        process.send_signal(signal.SIGINT)
        assert process.wait(LONG) == 0 and time.monotonic() - began < 30
        assert process.stdout and "Traceback" not in process.stdout.read()
        assert is_alone(process)
    assert [*tmp_path.iterdir()] == []


@pytest.mark.parametrize("number", [signal.SIGTERM, signal.SIGHUP])
def test_a_signal_at_its_start_leaves_nothing(tmp_path: pathlib.Path, number: int) -> None:
    """Its sagas are being started then."""
    with demo(tmp_path, "--no-browser") as process:
        address(process)
        process.send_signal(number)
        process.send_signal(signal.SIGTERM)  # an impatient user
        assert process.wait(LONG) == 0
        assert is_alone(process)
    assert [*tmp_path.iterdir()] == []


def test_it_opens_a_browser(tmp_path: pathlib.Path) -> None:
    """A browser in a window opens the address, and no other one."""
    (tmp_path / "browser").write_text(f'#!/bin/sh\necho "$1" >>{tmp_path}/opened\n')
    (tmp_path / "browser").chmod(0o755)
    options = {"BROWSER": f"{tmp_path}/browser", "WAYLAND_DISPLAY": ""}
    for display in ("", ":9"):
        with demo(tmp_path, DISPLAY=display, **options) as process:
            url = address(process)
            until = time.monotonic() + (LONG if display else 0.5)
            while not (tmp_path / "opened").exists() and time.monotonic() < until:
                time.sleep(0.05)
            process.send_signal(signal.SIGTERM)
            assert process.wait(LONG) == 0
        opened = (tmp_path / "opened").read_text() if (tmp_path / "opened").exists() else ""
        assert opened.strip() == (url if display else "")


def test_what_is_wrong_with_its_address() -> None:
    """The message says what to do."""
    with socket.socket() as other:
        other.bind(("127.0.0.1", 0))
        other.listen()
        busy = f"127.0.0.1:{other.getsockname()[1]}"
        texts = {
            busy: "leave --listen out",
            "0.0.0.0:0": "only a loopback address",
            "x": "HOST:PORT",
        }
        for listen, text in texts.items():
            done = command("demo", "--no-browser", "--listen", listen)
            assert (done.returncode, text in done.stderr) == (2, True), done.stderr


def test_a_missing_package_is_named() -> None:
    """So is the command that installs it."""
    for name in ("uvicorn", "jinja2"):
        code = f"import sys; sys.modules[{name!r}] = None; from sagas.__main__ import main; "
        code += "sys.exit(main(['demo']))"
        done = subprocess.run(
            [sys.executable, "-c", code], env=environment(), capture_output=True, text=True
        )
        assert done.returncode == 2 and "Traceback" not in done.stderr, done.stderr
        assert name in done.stderr and "pip install 'sagas[server]'" in done.stderr


def test_each_demo_is_the_same() -> None:
    """Each fate occurs, among the first sagas too."""
    sagas = [*starts()]
    assert sagas == [*starts()] and len({start.key for start in sagas}) == COUNT
    assert {*Counter(start.fate for start in sagas[:160])} == {*Fate}
