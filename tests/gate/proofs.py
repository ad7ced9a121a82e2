"""Runs `rt ci`, which proves every crate and its tests from nothing, and follows what it says."""

from __future__ import annotations

import os
import re
import subprocess
import threading
import time
from collections.abc import Callable
from pathlib import Path

from costs import Cost, Watch
from crates import Tree
from mutants import used_seconds

PROVED = re.compile(r"rt: (\w+) (?:proved\n|is kept: )")
"""The line of a crate that `rt ci` proved in this run, or kept from an earlier one."""

MEMORY = 4 * 1024 * 1024
"""The memory that a proof may take, in KiB.

If each processor has this memory, `rt ci` assigns one processor to each proof. A proof with several
jobs takes half as much processor time again.
"""


def processors() -> int:
    """Return the number of processors that this process may use."""
    return len(os.sched_getaffinity(0))


def lanes() -> dict[str, str]:
    """Return the setting of `rt ci` for as many parallel proofs as the machine allows."""
    available = re.search(r"MemAvailable:\s+(\d+)", Path("/proc/meminfo").read_text())
    is_ample = available is not None and int(available[1]) >= MEMORY * processors()
    return {"RT_JOBS": str(processors())} if is_ample else {}


class Proofs:
    """A run of `rt ci`: the crates that are proved so far, and its outcome."""

    def __init__(self, tree: Tree, wake: Callable[[], None]) -> None:
        self.tree = tree
        self.wake = wake
        self.proved: set[str] = set()
        self.faults: list[str] = []
        self.passed = 0
        self.failed = 0
        self.costs: dict[str, Cost] = {}
        self.crates: dict[str, dict[str, float]] = {}
        self.began = time.monotonic()
        self.child = subprocess.Popen(
            ["rt", "ci"],
            cwd=tree.top,
            env={**lanes(), **os.environ},
            stdin=subprocess.DEVNULL,
            stdout=subprocess.PIPE,
            stderr=subprocess.STDOUT,
            text=True,
            errors="replace",
        )
        self.watch = Watch(self.child.pid, {*tree.below("saga_tool"), "saga_tool"})
        self.is_over = False
        self.thread = threading.Thread(target=self.follow, daemon=True)
        self.thread.start()

    @property
    def running(self) -> int:
        """How many proofs are under way."""
        return self.watch.running

    def has(self, crate: str) -> bool:
        """Return whether a crate and all below it are proved, so that its mutants can be tried."""
        return self.proved.issuperset([*self.tree.below(crate), crate])

    def follow(self) -> None:
        """Print what `rt ci` says until it ends, and takes its result."""
        assert self.child.stdout
        for line in self.child.stdout:
            print(line, end="", flush=True)
            if proved := PROVED.match(line):
                self.proved.add(proved[1])
                self.wake()
            elif line.startswith("rt: FAILED: "):
                self.faults.append(f"rt ci: {line.removeprefix('rt: FAILED: ').strip()}")
            elif counts := re.fullmatch(r"(\d+) passed, (\d+) failed\n", line):
                self.passed, self.failed = int(counts[1]), int(counts[2])
        _, status, used = os.wait4(self.child.pid, 0)
        self.child.returncode = os.waitstatus_to_exitcode(status)
        self.end(self.child.returncode, used_seconds(used))

    def end(self, status: int, seconds: float) -> None:
        """Take the status and the cost of the run."""
        self.watch.stop()
        if status or not self.passed:
            self.failed = max(self.failed, 1)
            self.faults = self.faults or [f"rt ci: it ended with status {status}"]
        self.costs = self.watch.costs()
        self.crates = self.watch.crates()
        seen = sum(cost.processor for cost in self.costs.values())
        wall = time.monotonic() - self.began
        self.costs["rt itself"] = Cost(max(0.0, seconds - seen), wall)
        self.is_over = True
        self.wake()

    def stop(self) -> None:
        """End the run early."""
        self.child.terminate()
        self.thread.join()
