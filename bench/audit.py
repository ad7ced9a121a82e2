#!/usr/bin/env python3
"""Time audits of histories, by one thread and by four workers, against the calls of the book.

The definitions have random needs, eight a step. In the first load each step of 1,000 sagas is
missed seven times and then succeeds, which makes a million events. In the second one the last step
of each of 200 sagas fails, and a plan keeps nothing. The book's time does not include planning. The
script prints the time per event of the book, of `audit` and of `audit_with` with four workers, and
then how much longer an audit of ten times the sagas takes. The status is 1 if an audit of an event
takes more than twice the time of the book's calls, or an audit of ten times the sagas more than 12
times as long.
"""
import sys
import tempfile

import book
import runs

LOADS = [
    ("1,000 sagas of 64 steps, each missed seven times", 64, 1000, ["7"]),
    ("200 sagas of 1,024 steps, a plan each", 1024, 200, ["0", "1023"]),
]
PARTS = ["book", "audit", "audit_with 4"]
WORKERS = "4"


def main():
    options = runs.options(__doc__)
    program = runs.built(options)
    good = True
    with tempfile.TemporaryDirectory() as folder:
        for name, steps, sagas, rest in LOADS:
            file = runs.put(folder, str(steps), book.definition(steps))
            events, best = runs.events_of(
                program, ["audit", file, str(sagas), WORKERS, *rest], len(PARTS), options.turns
            )
            each = [time / events * 1e9 for time in best]
            print(
                f"{name}: {events} events; "
                + ", ".join(f"{part} {time:.0f} ns an event" for part, time in zip(PARTS, each))
                + f"; audit takes {each[1] / each[0]:.2f} of the book's time,"
                f" four workers {each[2] / each[1]:.2f} of one's",
                flush=True,
            )
            _, small = runs.events_of(
                program,
                ["audit", file, str(sagas // 10), WORKERS, *rest],
                len(PARTS),
                options.turns,
            )
            print(
                f"ten times the sagas take an audit {best[1] / small[1]:.1f} times as long",
                flush=True,
            )
            good = good and best[1] <= 2 * best[0] and best[1] <= 12 * small[1]
    sys.exit(0 if good else 1)


if __name__ == "__main__":
    main()
