#!/usr/bin/env python3
"""Compare a start by `./sagas` with a start of the program itself.

`sagas check` verifies the answer of examples/licence in three ways: by the program itself, by
`./sagas` after it has chosen the program, and by `./sagas` before that. The ways take turns. The
script prints the best time of each, its ratio to that of the program, and the difference.
"""

from __future__ import annotations

import argparse
import subprocess
import time
from pathlib import Path

ROOT = Path(__file__).resolve().parent.parent
EXAMPLE = [
    str(ROOT / "examples" / f"licence.{kind}") for kind in ("toml", "case.json", "answer.json")
]
STAMP = ROOT / "out" / "start"


def seconds(program: Path, must_choose: bool) -> float:
    """Return the seconds of one run, with the stored choice or without it."""
    if must_choose:
        STAMP.unlink(missing_ok=True)
    began = time.perf_counter()
    subprocess.run([program, "check", *EXAMPLE], stdout=subprocess.DEVNULL, check=True)
    return time.perf_counter() - began


def main() -> None:
    """Run all ways in turns, and print a line for each."""
    parser = argparse.ArgumentParser(
        description=__doc__, formatter_class=argparse.RawDescriptionHelpFormatter
    )
    parser.add_argument("--turns", type=int, default=100, help="the number of runs of each way")
    turns = parser.parse_args().turns
    chosen = subprocess.run(
        [ROOT / "tests" / "program"], check=True, capture_output=True, text=True
    ).stdout.strip()
    ways = {
        "the program": (Path(chosen), False),
        "./sagas": (ROOT / "sagas", False),
        "./sagas, first start": (ROOT / "sagas", True),
    }
    best = dict.fromkeys(ways, float("inf"))
    for _ in range(turns):
        # The start that chooses comes last, so that its choice is stored for the next turn.
        for name, (program, must_choose) in ways.items():
            best[name] = min(best[name], seconds(program, must_choose))
    least = best["the program"]
    for name, took in best.items():
        more = (took - least) * 1e3
        print(f"{name}: {took * 1e3:.1f} ms, ratio {took / least:.1f}, {more:.1f} ms more")


if __name__ == "__main__":
    main()
