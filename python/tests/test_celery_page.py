"""The guide to Celery, executed: its code is saved, its commands run and their outputs compared.

The example runs, too.
"""

from __future__ import annotations

import os
import pathlib
import re
import subprocess
import sys

from brokers import Program, free_port

import sagas

PACKAGE = pathlib.Path(sagas.__file__).resolve().parents[2]
TOP = PACKAGE.parent
PAGE = (TOP / "docs" / "guides" / "celery.md").read_text()
READY = {"redis-server": "Ready to accept", "celery": r" ready\."}


def blocks(language: str, page: str) -> list[str]:
    return [
        text
        for block_language, text in re.findall(r"^```(\w*)\n(.*?)^```$", page, re.S | re.M)
        if block_language == language
    ]


def test_the_page(tmp_path: pathlib.Path) -> None:
    """It needs a broker and a worker.

    One trip completes, and of another one the car is returned. The broker has its own port.
    """
    page = PAGE.replace("6379", str(free_port()))
    shop, book = blocks("python", page)[:2]
    (tmp_path / "shop.py").write_text(shop)
    (tmp_path / "book.py").write_text(book)
    environment = environment_in(tmp_path)
    commands = [
        part.partition("\n")
        for block in blocks("", page)
        for part in re.split(r"^\$ ", block, flags=re.M)[1:]
    ]
    assert commands[0][0].startswith("pip install") and len(commands) == 5
    running: list[Program] = []
    try:
        for command, _, wanted in commands[1:]:
            if command.endswith(" &"):
                arguments = command.removesuffix(" &").split()
                running.append(
                    Program(
                        [*arguments, *(["-l", "INFO"] if arguments[0] == "celery" else [])],
                        tmp_path,
                        environment,
                        f"{arguments[0]}.log",
                    )
                )
                running[-1].wait_for(READY[arguments[0]])
            else:
                done = subprocess.run(
                    ["bash", "-c", command],
                    cwd=tmp_path,
                    env=environment,
                    capture_output=True,
                    text=True,
                    timeout=120,
                    check=False,
                )
                assert done.stdout == wanted, done.stderr
        running[-1].wait_for("cancelled")
    finally:
        for program in reversed(running):
            program.kill()


def environment_in(folder: pathlib.Path) -> dict[str, str]:
    """Return an environment with commands `python` and `celery` of this Python."""
    (folder / "bin").mkdir()
    for name, module_arguments in (("python", ""), ("celery", "-m celery")):
        (folder / "bin" / name).write_text(
            f'#!/bin/sh\nexec {sys.executable} {module_arguments} "$@"\n'
        )
        (folder / "bin" / name).chmod(0o755)
    return os.environ | {
        "PATH": f"{folder / 'bin'}:{os.environ['PATH']}",
        "PYTHONPATH": str(PACKAGE / "src"),
        "PYTHONUNBUFFERED": "1",
    }


def test_the_example() -> None:
    """One command shows broker, worker, saga, a failure and its compensations."""
    path = "examples/celery/run.py"
    assert f"PYTHONPATH=python/src python3 {path}" in (TOP / path).read_text()
    environment = os.environ | {"PYTHONPATH": "python/src"}
    done = subprocess.run(
        [sys.executable, path],
        cwd=TOP,
        env=environment,
        capture_output=True,
        text=True,
        timeout=180,
        check=False,
    )
    assert done.returncode == 0, done.stderr
    lines = done.stdout.splitlines()
    first, second = lines.index("trip order-1: completed"), lines.index(
        "trip order-2: recovered, plan of cost 15"
    )
    assert lines[first + 1 : second] == [
        "  committed flight",
        "  committed car",
        "  committed tour",
        "all went well",
    ]
    assert lines[second + 1 : second + 4] == [
        "  committed flight",
        "  undone    car",
        "  failed    tour: sagas.Fail: the tour is full",
    ]
    worker = lines[lines.index("what the worker did:") + 1 :]
    assert worker.count("  a car for seat 12A") == 2 and worker.count("  car 7 is canceled") == 1
