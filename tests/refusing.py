"""Run programs with the library of `refusing.c`.

The library refuses growths of memory, and reports how much memory was in use.
"""

from __future__ import annotations

import functools
import os
import signal
import subprocess
from dataclasses import dataclass
from pathlib import Path

TOP = Path(__file__).resolve().parent.parent

# The time limit of a run, in seconds.
SECONDS = 120


@functools.cache
def path_of(which: str) -> str:
    """Return the path of sagas (`program`) or saga_trials (`trials`).

    The variables SAGAS and TRIALS can name them.
    """
    named = os.environ.get("SAGAS" if which == "program" else "TRIALS")
    return (
        named
        or subprocess.run(
            [TOP / "tests" / which], check=True, stdout=subprocess.PIPE, text=True
        ).stdout.strip()
    )


def build(folder: Path) -> Path:
    """Build the library in a folder, and return its path."""
    library = folder / "refusing.so"
    subprocess.run(
        ["gcc", "-O2", "-shared", "-fPIC", "-o", library, TOP / "tests" / "refusing.c"], check=True
    )
    return library


@dataclass(frozen=True)
class Run:
    """The outcome of a run.

    Attributes:
        status: The exit status, or below 0 the signal.
        out: Standard output.
        err: Standard error.
        seconds: The processor time.
    """

    status: int
    out: bytes
    err: bytes
    seconds: float


def run(
    command: list[str],
    room: Path,
    stdin: Path = Path(os.devnull),
    settings: dict[str, str] | None = None,
) -> Run:
    """Run a command. The folder `room` has the files of its output."""
    out, err = room / ".out", room / ".err"
    flags = os.O_WRONLY | os.O_CREAT | os.O_TRUNC
    files = [
        (os.POSIX_SPAWN_OPEN, 0, str(stdin), os.O_RDONLY, 0),
        (os.POSIX_SPAWN_OPEN, 1, str(out), flags, 0o600),
        (os.POSIX_SPAWN_OPEN, 2, str(err), flags, 0o600),
    ]
    child = os.posix_spawn(
        command[0], command, {**os.environ, **(settings or {})}, file_actions=files
    )
    signal.signal(signal.SIGALRM, lambda _number, _frame: os.kill(child, signal.SIGKILL))
    signal.alarm(SECONDS)
    _, status, used = os.wait4(child, 0)
    signal.alarm(0)
    return Run(
        os.waitstatus_to_exitcode(status),
        out.read_bytes(),
        err.read_bytes(),
        used.ru_utime + used.ru_stime,
    )


@dataclass(frozen=True)
class Report:
    """The report of the library on a run.

    Attributes:
        growths: The number of growths.
        refused: The number of refused growths.
        held: The peak memory in bytes.
    """

    growths: int
    refused: int
    held: int


def refused(
    library: Path,
    number: int | None,
    command: list[str],
    room: Path,
    stdin: Path = Path(os.devnull),
    **more: str,
) -> tuple[Run, Report | None]:
    """Run a program with one refused growth, or none; return its outcome, and the report if any."""
    report = room / ".told"
    report.unlink(missing_ok=True)
    settings = {
        "LD_PRELOAD": str(library),
        "TOLD": str(report),
        **({} if number is None else {"REFUSE": str(number)}),
        **more,
    }
    outcome = run(command, room, stdin, settings)
    if not report.exists():
        return outcome, None
    line = report.read_text().split()
    return outcome, Report(int(line[1]), int(line[3]), int(line[5]))
