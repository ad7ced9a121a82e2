"""`sagas new`: each project does what its README says, and nothing is half made."""

from __future__ import annotations

import os
import pathlib
import pty
import re
import resource
import shlex
import subprocess
import sys
from typing import Any

import pytest
from serving import LONG, command, environment, host

from sagas.cli.new_project import LANGUAGES
from sagas.server.command import parser as serve

TOP = pathlib.Path(__file__).resolve().parents[2]


def commands(readme: str) -> list[tuple[str, str]]:
    """Return each command of a README, with its output."""
    blocks = re.findall(r"^```\n(.*?)^```$", readme, re.S | re.M)
    parts = [part for block in blocks for part in re.split(r"^\$ ", block, flags=re.M)[1:]]
    return [(command, output) for command, _, output in (part.partition("\n") for part in parts)]


def script_of(pairs: list[tuple[str, str]], out: pathlib.Path, address: str) -> str:
    """Return a script that runs all commands, and writes each output into its own file."""
    lines = ["trap 'kill $(jobs -p) 2>/dev/null; wait' EXIT"]
    for number, (text, _) in enumerate(pairs):
        text = text.replace("127.0.0.1", address)
        lines.append(f"{{ {text}\n}} >{out}/{number} 2>&1")
        if "sagas serve" in text:
            lines.append(
                f"for _ in {{1..1200}}; do [ -s {out}/{number} ] && break; sleep 0.1; done"
            )
    return "\n".join(lines)


def variables(folder: pathlib.Path) -> dict[str, str]:
    """Return an environment in which `python3` and `sagas` are those of this checkout."""
    folder.mkdir()
    for name, arguments in (("python3", ""), ("sagas", "-m sagas ")):
        (folder / name).write_text(
            f'#!/bin/sh\nexec {shlex.quote(sys.executable)} {arguments}"$@"\n'
        )
        (folder / name).chmod(0o755)
    path = f"{folder}:{os.environ['PATH']}"
    return environment() | {"PATH": path, "CHECKOUT": str(TOP), "PYTHONDONTWRITEBYTECODE": "1"}


@pytest.mark.parametrize("language", LANGUAGES)
def test_a_project_does_what_its_readme_says(tmp_path: pathlib.Path, language: str) -> None:
    """Its commands in order, each output compared, and its unit."""
    project, out, address = tmp_path / "shop", tmp_path / "out", host()
    out.mkdir()
    done = command("new", str(project), "--language", language)
    assert done.returncode == 0 and "README.md" in done.stdout, done.stderr
    pairs = commands((project / "README.md").read_text())
    assert len(pairs) >= 6
    ran = subprocess.run(
        ["bash", "-c", script_of(pairs, out, address)],
        cwd=project,
        env=variables(tmp_path / "bin"),
        stdin=subprocess.DEVNULL,
        capture_output=True,
        text=True,
        timeout=300,
    )
    for number, (text, wanted) in enumerate(pairs):
        output = (out / str(number)).read_text().replace(address, "127.0.0.1")
        output = re.sub(r"( passed) in .*", r"\1", output)
        log = (project / "service.log").read_text() if (project / "service.log").exists() else ""
        assert (
            output == wanted
        ), f"$ {text}\n{output}\nand not\n{wanted}\n{ran.stderr}\n{log[-2000:]}"
    (unit,) = project.glob("*.service")
    (started,) = re.findall(r"^ExecStart=\S+/sagas serve (.*)$", unit.read_text(), re.M)
    assert serve().parse_args(shlex.split(started)).listen == "127.0.0.1:8080"


def test_a_directory_with_files_is_refused(tmp_path: pathlib.Path) -> None:
    """So are a file, and a directory in one that does not exist. An empty one is filled."""
    (tmp_path / "full").mkdir()
    (tmp_path / "full" / "mine").write_text("mine")
    (tmp_path / "empty").mkdir()
    refused = {
        "full": "is not empty",
        "full/mine": "not a directory",
        "none/shop": "does not exist",
    }
    for name, text in refused.items():
        done = command("new", str(tmp_path / name))
        assert (done.returncode, text in done.stderr) == (2, True), done.stderr
    assert [path.name for path in (tmp_path / "full").iterdir()] == ["mine"]
    assert sorted(path.name for path in tmp_path.iterdir()) == ["empty", "full"]
    assert command("new", str(tmp_path / "empty")).returncode == 0
    assert (tmp_path / "empty" / "order.py").exists()


@pytest.mark.parametrize("exists", [False, True])
def test_a_full_disk_leaves_nothing(tmp_path: pathlib.Path, exists: bool) -> None:
    """The project is complete, or does not exist."""
    project = tmp_path / "shop"
    if exists:
        project.mkdir()
    done = subprocess.run(
        [sys.executable, "-m", "sagas", "new", str(project)],
        env=environment(),
        capture_output=True,
        text=True,
        preexec_fn=lambda: resource.setrlimit(resource.RLIMIT_FSIZE, (1000, 1000)),
    )
    assert done.returncode == 4 and "cannot write" in done.stderr, done.stderr
    assert [*tmp_path.rglob("*")] == ([project] if exists else [])


def ask(project: pathlib.Path, typed: bytes) -> tuple[int, str]:
    """Run `sagas new` in a terminal in which a user types; return its status and its output."""
    process, terminal = pty.fork()
    if process == 0:
        arguments = [sys.executable, "-m", "sagas", "new", str(project)]
        os.execve(sys.executable, arguments, environment())
    os.write(terminal, typed)
    output = b""
    try:
        while part := os.read(terminal, 4096):
            output += part
    except OSError:  # Linux, at the end of the process
        pass
    finally:
        os.close(terminal)
    return os.waitstatus_to_exitcode(os.waitpid(process, 0)[1]), output.decode()


def test_the_language_is_asked_for_in_a_terminal(tmp_path: pathlib.Path) -> None:
    """A wrong answer is asked for again, and the end of the input creates nothing."""
    cases: dict[bytes, Any] = {b"\n": "order.py", b"perl\ngo\n": "go.mod", b"\x04": None}
    for typed, name in cases.items():
        project = tmp_path / str(name)
        status, output = ask(project, typed)
        assert "Language (python, node, go, java)" in output
        assert status == (130 if name is None else 0), output
        assert project.exists() == (name is not None)
        assert name is None or (project / name).exists()
