#!/usr/bin/env python3
"""Time `sagas audit --fleet` on records of many nodes, by the number of events.

In a record, sessions take over from one another. Each writes some chunks, with a synchronous
standby. The time is the processor time of the program, over several runs. The script prints a line
for each size in the form of bench/results.
"""

from __future__ import annotations

import argparse
import resource
import statistics
import subprocess
import sys
import tempfile
from pathlib import Path

TOP = Path(__file__).resolve().parent.parent
SIZES = (10_000, 100_000, 1_000_000)

# The number of chunks that a session writes before another one takes over.
CHUNKS = 50


def record(events: int) -> str:
    """Make a record of this number of events, all of them allowed."""
    lines: list[str] = []
    chunks = session = 0
    while len(lines) < events:
        lines += [f"took {session + 1} {chunks} {chunks}", f"heard {session}"]
        for _ in range(CHUNKS):
            lines += [f"sent {session} {chunks + 1}", f"wrote {session} {chunks} {chunks + 1}"]
            chunks += 1
            lines += [f"safe {chunks}", f"heard {session}", f"told {session} {chunks}"]
        session += 1
    return "\n".join(["fleet 1 sync", *lines[:events]]) + "\n"


def seconds(program: str, path: Path) -> float:
    """Return the processor time of an audit, which must print yes."""
    before = resource.getrusage(resource.RUSAGE_CHILDREN)
    done = subprocess.run([program, "audit", "--fleet", path], capture_output=True, text=True)
    after = resource.getrusage(resource.RUSAGE_CHILDREN)
    if not done.stdout.startswith("yes "):
        sys.exit(f"records: {done.stdout}{done.stderr}")
    return after.ru_utime + after.ru_stime - before.ru_utime - before.ru_stime


def main() -> None:
    """Time the audit of each size."""
    parser = argparse.ArgumentParser(description=(__doc__ or "").splitlines()[0])
    parser.add_argument("--turns", type=int, default=11, help="the number of audits of each record")
    parser.add_argument("--program", default=str(TOP / "sagas"), help="the program")
    options = parser.parse_args()
    with tempfile.TemporaryDirectory() as folder:
        for events in SIZES:
            path = Path(folder) / "record"
            path.write_text(record(events))
            times = [1000 * seconds(options.program, path) for _ in range(options.turns)]
            median, low, high = statistics.median(times), min(times), max(times)
            print(f"audit of a record,{events} events,{median:.1f},{low:.1f},{high:.1f},ms")


if __name__ == "__main__":
    main()
