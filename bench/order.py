#!/usr/bin/env python3
"""Time `Order::of` at 128, 256, 512 and 1,024 steps with eight needs each.

The definitions are random, from `case_net.py`: steps need any of the steps before them, or `near`
ones. The script prints for each size the median time over the seeds 1, 2 and so on, and its ratio
to the time at 128 steps.
"""
import statistics
import tempfile

import case_net
import runs

SIZES = [128, 256, 512, 1024]
NEEDS = 8


def main():
    options = runs.options(__doc__)
    program = runs.built(options)
    with tempfile.TemporaryDirectory() as folder:
        for shape in ["near", "any"]:
            times_by_seed = []
            for seed in range(1, options.seeds + 1):
                commands = []
                for steps in SIZES:
                    text = case_net.case(*case_net.made(shape, steps, NEEDS * steps, seed))
                    commands.append([*program, "order", runs.put(folder, str(steps), text)])
                times_by_seed.append(
                    [seconds for _, seconds in runs.timed(commands, options.turns)]
                )
            middles = [statistics.median(times) for times in zip(*times_by_seed)]
            for steps, middle in zip(SIZES, middles):
                print(
                    f"{steps} steps {NEEDS * steps} needs {shape}: {middle * 1e6:.0f} us, "
                    f"ratio {middle / middles[0]:.2f}"
                )


if __name__ == "__main__":
    main()
