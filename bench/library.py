#!/usr/bin/env python3
"""Compare calls of the C library a second with starts of the program for the same texts.

The calls are plans, verifications and an audit, at 4, 100 and 1,024 steps (8 needs a step at most),
through the Python package. The program reads files in memory, and is started by posix_spawn. The
script checks that both return the same bytes. Both take turns, and the script prints the best of
each, and their ratio. The status is 1 if a call is not 20 times as fast as a start at 4 steps, or
if it is slower at 1,024.
"""

from __future__ import annotations

import argparse
import json
import os
import random
import subprocess
import sys
import tempfile
import time
from collections.abc import Callable, Iterator
from pathlib import Path

ROOT = Path(__file__).resolve().parent.parent
sys.path.insert(0, str(ROOT / "python" / "src"))

from sagas.engine import library  # noqa: E402

Work = tuple[str, str, list[bytes]]
LEAST = {4: 20.0, 1024: 1.0}


def large(steps: int) -> list[bytes]:
    """Return a definition with this number of steps, and a case in which some have failed.

    Each step needs up to 8 of the previous 40 steps.
    """
    chance = random.Random(steps)
    lines = ["format = 1", 'name = "large"']
    for step in range(steps):
        needs = chance.sample(range(max(0, step - 40), step), min(8, step))
        costs = "".join(
            f"{key} = {chance.randrange(1000)}\n" for key in ("run", "undo", "skip", "keep")
        )
        names = json.dumps([f"s{need}" for need in needs])
        lines.append(f'[[step]]\nname = "s{step}"\nneeds = {names}\n{costs}')
    states = ["committed"] * (steps * 3 // 4) + ["failed"] * 2 + ["waiting"] * steps
    return ["\n".join(lines).encode(), json.dumps({"states": states[:steps]}).encode()]


def works(call: Callable[[str, list[bytes]], bytes]) -> Iterator[tuple[int, Work]]:
    """Yield the number of steps, and the work to time: a command, a call and its texts."""
    trip = [(ROOT / "examples" / f"trip.{kind}").read_bytes() for kind in ("toml", "case.json")]
    for steps, texts in ((4, trip), (100, large(100)), (1024, large(1024))):
        yield steps, ("plan", "sagas_plan", texts)
        yield steps, ("check", "sagas_check", [*texts, call("sagas_plan", texts)])
        if steps == 4:
            yield steps, (
                "audit",
                "sagas_audit",
                [(ROOT / "examples" / "trip.log").read_bytes(), trip[0]],
            )


def rate(once: Callable[[], object], seconds: float) -> float:
    """Return the calls of a function a second, measured over some seconds."""
    began, count = time.perf_counter(), 0
    while (took := time.perf_counter() - began) < seconds:
        once()
        count += 1
    return count / took


def main() -> int:
    """Run all works in turns, and print a line for each."""
    parser = argparse.ArgumentParser(
        description=__doc__, formatter_class=argparse.RawDescriptionHelpFormatter
    )
    parser.add_argument("--turns", type=int, default=5, help="the number of turns")
    parser.add_argument("--seconds", type=float, default=0.5, help="the length of a turn")
    options = parser.parse_args()
    path_of_library = library.path()
    loaded = library.loaded(path_of_library) if path_of_library else None
    if loaded is None:
        sys.exit("library.py: dist/libsagas.so is missing: ./release makes it")
    loaded_library = loaded
    program = subprocess.run(
        [ROOT / "tests" / "program"], check=True, capture_output=True, text=True
    ).stdout.strip()

    def call(name: str, texts: list[bytes]) -> bytes:
        return library.call(loaded_library, name, texts)[1]

    slow = 0
    for steps, (command, name, texts) in works(call):
        with tempfile.TemporaryDirectory(
            dir="/dev/shm" if os.path.isdir("/dev/shm") else None
        ) as folder:
            paths = [Path(folder, str(number)) for number in range(len(texts))]
            for path, text in zip(paths, texts):
                path.write_bytes(text)
            line = [program, command, *map(str, paths)]

            def start() -> bytes:
                return subprocess.run(
                    line,
                    stdin=subprocess.DEVNULL,
                    capture_output=True,
                    close_fds=False,
                    check=False,
                ).stdout

            if start() != call(name, texts):
                sys.exit(f"library.py: {command} at {steps} steps: they differ")
            calls = starts = 0.0
            for _ in range(options.turns):
                calls = max(calls, rate(lambda: call(name, texts), options.seconds))
                starts = max(starts, rate(start, options.seconds))
        ratio = calls / starts
        slow += ratio < LEAST.get(steps, 0.0)
        print(
            f"{command}, {steps} steps: {calls:.0f} calls a second, {starts:.0f} starts, "
            f"ratio {ratio:.1f}",
            flush=True,
        )
    return 1 if slow else 0


if __name__ == "__main__":
    sys.exit(main())
