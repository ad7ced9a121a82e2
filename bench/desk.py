#!/usr/bin/env python3
"""Time the end of a desk: 16 seats compare their receipts with the histories of 16 shards.

The seats take turns until all sagas have ended, and each has a receipt for each of its events. The
script prints the number of receipts, and the median milliseconds of the comparison, in all and for
a million receipts.
"""
import tempfile

import runs

STEPS = 32
LOADS = [1600, 16000]


def definition():
    """Return steps without needs and without costs."""
    return "s waiting 0 0 0 0\n" * STEPS


def main():
    options = runs.options(__doc__)
    program = runs.built(options)
    with tempfile.TemporaryDirectory() as folder:
        file = runs.put(folder, "steps", definition())
        for sagas in LOADS:
            [(printed, took)] = runs.timed(
                [[*program, "desk", file, str(sagas)]], options.turns, runs.KEPT
            )
            receipts = int(printed[1])
            print(
                f"{receipts} receipts of 16 seats on 16 shards: {took * 1e3:.1f} ms,"
                f" {took / receipts * 1e9:.1f} ms a million",
                flush=True,
            )


if __name__ == "__main__":
    main()
