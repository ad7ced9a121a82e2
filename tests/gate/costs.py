"""What the parts of a run cost: processor seconds and wall-clock seconds, by kind of work and by
crate."""

from __future__ import annotations

import os
import threading
import time
from collections import defaultdict
from collections.abc import Iterator
from dataclasses import dataclass
from pathlib import Path

PAUSE = 0.5
"""How often the processes of `rt ci` are sampled, in seconds."""

TICKS = os.sysconf("SC_CLK_TCK")

UNKNOWN = ("programs", "")
"""What a process works for until its command line says more."""


@dataclass
class Cost:
    """Processor seconds and wall-clock seconds."""

    processor: float = 0.0
    wall: float = 0.0


@dataclass(frozen=True)
class Process:
    """A process, as /proc has it."""

    number: int
    parent: int
    seconds: float
    began: int

    @property
    def key(self) -> tuple[int, int]:
        """The identity of the process, also among later ones with its number."""
        return self.number, self.began


def processes() -> Iterator[Process]:
    """Yield all processes of the machine."""
    for name in os.listdir("/proc"):
        if name.isdigit():
            try:
                fields = Path(f"/proc/{name}/stat").read_text().rpartition(")")[2].split()
            except OSError:
                continue
            seconds = (int(fields[11]) + int(fields[12])) / TICKS
            yield Process(int(name), int(fields[1]), seconds, int(fields[19]))


class Watch:
    """The costs of the processes below one process, sampled until the watch is stopped."""

    def __init__(self, top: int, below_the_program: set[str]) -> None:
        self.top = top
        self.below_the_program = below_the_program
        self.running = 0
        self.kinds: dict[tuple[int, int], tuple[str, str]] = {}
        self.seconds: dict[tuple[int, int], float] = {}
        self.walls: dict[str, float] = defaultdict(float)
        self.ended = threading.Event()
        self.thread = threading.Thread(target=self.run, daemon=True)
        self.thread.start()

    def run(self) -> None:
        """Take samples until the watch is stopped."""
        before = time.monotonic()
        while not self.ended.wait(PAUSE):
            now = time.monotonic()
            for kind in self.look():
                self.walls[kind] += now - before
            before = now

    def look(self) -> set[str]:
        """Sample each process once, and return the kinds of work that run."""
        seen = {process.number: process for process in processes()}
        kinds: set[str] = set()
        running = 0
        for process in seen.values():
            at = process
            while at.number != self.top and at.parent in seen:
                at = seen[at.parent]
            if at.number != self.top or process.number == self.top:
                continue
            if self.kinds.get(process.key, UNKNOWN) == UNKNOWN:
                self.kinds[process.key] = self.kind_of(process.number)
            self.seconds[process.key] = process.seconds
            kinds.add(self.kinds[process.key][0])
            running += bool(self.kinds[process.key][1])
        self.running = running
        return kinds

    def kind_of(self, number: int) -> tuple[str, str]:
        """Return the kind of work of a process, and its crate."""
        try:
            command = Path(f"/proc/{number}/cmdline").read_bytes().decode(errors="replace")
        except OSError:
            return UNKNOWN
        arguments = command.split("\0")
        if os.path.basename(arguments[0]) != "rattle":
            return UNKNOWN
        crate = (
            arguments[arguments.index("--crate-name") + 1] if "--crate-name" in arguments else ""
        )
        if "--test" in arguments:
            return "tests", crate
        return ("proofs" if crate in self.below_the_program or not crate else "programs"), crate

    def stop(self) -> None:
        """Stop sampling."""
        self.ended.set()
        self.thread.join()
        self.running = 0

    def costs(self) -> dict[str, Cost]:
        """Return the cost of each kind of work."""
        costs = {kind: Cost() for kind in ("proofs", "tests", "programs")}
        for key, seconds in self.seconds.items():
            costs[self.kinds[key][0]].processor += seconds
        for kind, wall in self.walls.items():
            costs[kind].wall = wall
        return costs

    def crates(self) -> dict[str, dict[str, float]]:
        """Return the processor seconds of each crate, by kind of work."""
        crates: dict[str, dict[str, float]] = defaultdict(lambda: defaultdict(float))
        for key, seconds in self.seconds.items():
            kind, crate = self.kinds[key]
            if crate:
                crates[crate][kind] += seconds
        return crates
