"""Measure `sagas explain` of definitions of 1,024 steps, by the number of threads.

    PYTHONPATH=python/src /usr/bin/python3 bench/explain.py [--turns N] [--steps N]
        [--threads 1,2,4]

It needs the library (dist/libsagas.so). The definitions are a chain, a fan, layers of 32 steps, and
a random one. Each has at most 2,000 needs, and costs from 0 to 99. In each turn, every number of
threads makes the plans of each. The answers have to be the same.

On a machine with other work, a thread waits for a processor. The script reads from the scheduler of
Linux how long each thread waited for that, and prints the wall time without it, too: the time that
idle processors would take.
"""

from __future__ import annotations

import argparse
import os
import random
import statistics
import threading
import time
from typing import Any, NamedTuple

from sagas.engine.planner import Planner
from sagas.inspection import explanation
from sagas.inspection.failure_cases import StepGraph

NEEDS, LAYER = 2000, 32
COSTS = ("run", "undo", "skip", "keep")


def chain(steps: int, numbers: random.Random) -> list[set[int]]:
    """Return the needs of a chain, whose steps need some more of the eight before them."""
    needs = [{step - 1} if step else set() for step in range(steps)]
    for _ in range(NEEDS - steps):
        step = numbers.randrange(2, steps)
        needs[step].add(numbers.randrange(max(0, step - 8), step))
    return needs


def fan(steps: int, numbers: random.Random) -> list[set[int]]:
    """Return the needs of steps that all need the first one."""
    return [{0} if step else set() for step in range(steps)]


def layers(steps: int, numbers: random.Random) -> list[set[int]]:
    """Return the needs of layers, whose steps need two steps of the layer before them."""
    firsts = [step // LAYER * LAYER - LAYER for step in range(steps)]
    return [
        {first + step % LAYER, first + (step * 7 + 3) % LAYER} if first >= 0 else set()
        for step, first in enumerate(firsts)
    ]


def at_random(steps: int, numbers: random.Random) -> list[set[int]]:
    """Return the needs of steps that need any steps before them."""
    needs: list[set[int]] = [set() for _ in range(steps)]
    for _ in range(NEEDS):
        step = numbers.randrange(1, steps)
        needs[step].add(numbers.randrange(step))
    return needs


SHAPES = {"chain": chain, "fan": fan, "layers": layers, "random": at_random}


def definition(shape: str, steps: int) -> str:
    """Return the text of a definition."""
    numbers = random.Random(shape)
    lines = ["format = 1", f'name = "{shape}"']
    for step, needs in enumerate(SHAPES[shape](steps, numbers)):
        quoted = ", ".join(f'"step-{need}"' for need in sorted(needs))
        lines += ["[[step]]", f'name = "step-{step}"', f"needs = [{quoted}]"]
        lines += [f"{word} = {numbers.randrange(100)}" for word in COSTS if numbers.random() < 0.6]
    return "\n".join(lines) + "\n"


class Timed(Planner):
    """A planner that knows how long its threads waited for a processor."""

    def __init__(self, *arguments: Any) -> None:
        super().__init__(*arguments)
        self._first: dict[int, int] = {}
        self._last: dict[int, int] = {}
        self._of_caller = 0

    def _mapped(self, *arguments: Any) -> Any:
        before = waited()
        result = super()._mapped(*arguments)
        self._of_caller += waited() - before
        return result

    def _decisions(self, *arguments: Any) -> Any:
        thread = threading.get_native_id()
        self._first.setdefault(thread, waited())
        result = super()._decisions(*arguments)
        self._last[thread] = waited()
        return result

    @property
    def waited(self) -> float:
        """The seconds that a thread waited on average, less those of the caller at that time."""
        if self.threads == 1:
            return 0.0
        together = sum(self._last[thread] - self._first[thread] for thread in self._last)
        return (together / self.threads - self._of_caller) / 1e9


def waited() -> int:
    """Return for how many nanoseconds this thread has waited for a processor."""
    with open("/proc/thread-self/schedstat", encoding="ascii") as file:
        return int(file.read().split()[1])


class Turn(NamedTuple):
    """The seconds of a turn."""

    processor: float
    wall: float
    idle: float


def turn(text: str, threads: int) -> tuple[Turn, dict[str, Any]]:
    """Explain a definition; return its seconds and its answers."""
    waited_before, wall, processor = waited(), time.perf_counter(), time.process_time()
    planner = Timed(StepGraph.read(text).steps, threads)
    document = explanation.of_definition(text, planner=planner).json()
    wall, processor = time.perf_counter() - wall, time.process_time() - processor
    idle = wall - (waited() - waited_before) / 1e9 - planner.waited
    return Turn(processor, wall, idle), document


def main() -> None:
    """Run the command."""
    parser = argparse.ArgumentParser(
        description=__doc__, formatter_class=argparse.RawDescriptionHelpFormatter
    )
    parser.add_argument("--turns", type=int, default=3)
    parser.add_argument("--steps", type=int, default=1024)
    parser.add_argument("--threads", default="1,2,4")
    options = parser.parse_args()
    counts = [int(count) for count in options.threads.split(",")]
    print("measurement,condition,median,low,high,unit")
    for shape in SHAPES:
        text, turns, documents = definition(shape, options.steps), {}, []
        for _ in range(options.turns):
            for count in counts:
                measured, document = turn(text, count)
                turns.setdefault(count, []).append(measured)
                documents.append(document)
        assert all(document == documents[0] for document in documents)
        for count in counts:
            for field, name in zip(Turn._fields, ("processor time", "wall time", "idle wall time")):
                row = [getattr(measured, field) for measured in turns[count]]
                cells = (statistics.median(row), min(row), max(row))
                values = ",".join(f"{cell:.2f}" for cell in cells)
                print(f"{name},{shape}; threads: {count},{values},s", flush=True)
    print(f"# load at the end: {os.getloadavg()[0]:.1f}")


if __name__ == "__main__":
    main()
