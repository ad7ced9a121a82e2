"""The scripts `tests/NAME.sh`: their names, the files that they read, and their runs."""

from __future__ import annotations

import contextlib
import os
import select
import signal
import subprocess
import tempfile
import time
from collections.abc import Iterable
from dataclasses import dataclass
from pathlib import Path

from costs import Cost
from mutants import used_seconds

SKIPPED = 77
"""The status of a script on a machine that lacks the subject of the script."""

FIRST = ("format", "mutants", "definitions", "release", "errors", "rows")
"""Scripts of some seconds over the release, which run before the proofs."""

LAST = ("built", "memory")
"""Scripts over the crates that `rt ci` builds."""

TIMED = ("python", "clients", "page")
"""Scripts with leases, servers and browsers, which start after the proofs."""

LONG = ("docs", "library", "platforms", "python", "clients", "page")
"""The longest scripts, which start first, in their order."""

WIDE = {"models": 2, "python": 64}
"""The processors that a script uses, if more than one. With 64 it runs alone."""

LIMIT = 50 * 60
"""The seconds after which a script counts as failed."""

READS = {
    "built": ("crates/", "crates.txt", "dist/", "library/", "platforms/", "page/", "release"),
    "clients": ("clients/", "python/src/", "dist/"),
    "definitions": ("crates/", "docs/"),
    "docs": ("docs/", "*.md", "mkdocs.yml", "python/src/", "examples/", "clients/", "dist/"),
    "drive": ("crates/", "dist/", "examples/"),
    "errors": ("crates/", "dist/", "docs/", "examples/"),
    "format": ("crates/", "python/", "bench/", "*.py"),
    "hostile": ("crates/", "dist/", "examples/"),
    "library": ("dist/", "library/", "examples/"),
    "memory": ("crates/", "dist/"),
    "models": ("models/", "python/src/", "crates/saga_drive/src/", "crates/saga_fleet/src/"),
    "mutants": ("crates/", "crates.txt"),
    "page": ("dist/", "page/"),
    "pages": ("docs/", "*.md", "dist/", "examples/", "python/src/"),
    "pictures": ("docs/", "dist/", "examples/"),
    "platforms": ("dist/",),
    "python": ("python/", "dist/", "examples/", "docs/"),
    "release": ("crates/", "crates.txt", "dist/", "page/", "library/", "python/", "docs/"),
    "rows": ("crates/", "dist/", "examples/"),
}
"""The other files that a script reads: folders, files, and patterns of files at the top."""

STYLE = "docs"
"""The script that checks the style of each Python file."""


@dataclass(frozen=True)
class Ran:
    """The outcome of a script: its status, its cost, and its last line."""

    name: str
    status: int
    cost: Cost
    last: str


def names(top: Path) -> list[str]:
    """Return the names of all scripts, in the order in which they run one after another."""
    every = {path.stem for path in (top / "tests").glob("*.sh")}
    rest = sorted(every - {*FIRST, *LAST, *LONG})
    order = [*FIRST, *LONG, *rest, *LAST]
    return [name for name in order if name in every]


def concerned(top: Path, changed: Iterable[str]) -> list[str]:
    """Return the scripts that read one of these files. All read a file that none names."""
    files = list(changed)
    concerned_names: set[str] = set()
    for file in files:
        readers = {name for name, reads in READS.items() if any(is_below(file, it) for it in reads)}
        owners = {
            name for name in names(top) if file.startswith((f"tests/{name}.", f"tests/{name}/"))
        }
        if not readers | owners and not file.endswith(".md"):
            return names(top)
        concerned_names |= readers | owners | ({STYLE} if file.endswith(".py") else set())
    return [name for name in names(top) if name in concerned_names]


def is_below(file: str, pattern: str) -> bool:
    """Return whether a file matches a pattern of READS."""
    if pattern.endswith("/"):
        return file.startswith(pattern)
    return file == pattern or "/" not in file and pattern[:1] == "*" and file.endswith(pattern[1:])


def run(top: Path, name: str, *, is_quick: bool) -> Ran:
    """Run a script. If it takes too long, it is stopped, with all its children.

    Args:
        is_quick: Whether it builds nothing, and may be skipped.
    """
    environment = {**os.environ, **({"QUICK": "1"} if is_quick else {})}
    began = time.monotonic()
    with tempfile.TemporaryFile() as output:
        child = subprocess.Popen(
            ["bash", str(top / "tests" / f"{name}.sh")],
            cwd=top,
            env=environment,
            stdin=subprocess.DEVNULL,
            stdout=output,
            stderr=subprocess.STDOUT,
            start_new_session=True,
        )
        try:
            status, seconds = wait_for(child, began + LIMIT)
        finally:
            with contextlib.suppress(ProcessLookupError):
                os.killpg(child.pid, signal.SIGKILL)
        output.seek(0)
        text = output.read().decode(errors="replace")
    if status is None:
        text += f"\ntest: {name}.sh is stopped after {LIMIT // 60} minutes\n"
    print(f"== tests/{name}.sh\n{text}", end="" if text.endswith("\n") else "\n", flush=True)
    last = next((line for line in reversed(text.splitlines()) if line.strip()), "")
    cost = Cost(seconds, time.monotonic() - began)
    return Ran(name, 1 if status is None else status, cost, last)


def wait_for(child: subprocess.Popen[bytes], until: float) -> tuple[int | None, float]:
    """Wait for a process; return its status, None if it was stopped, and its processor seconds."""
    handle = os.pidfd_open(child.pid)
    try:
        ended, _, _ = select.select([handle], [], [], max(0.0, until - time.monotonic()))
    finally:
        os.close(handle)
    if not ended:
        os.killpg(child.pid, signal.SIGKILL)
    _, status, used = os.wait4(child.pid, 0)
    child.returncode = os.waitstatus_to_exitcode(status)
    return child.returncode if ended else None, used_seconds(used)
