#!/usr/bin/env python3
"""Time `Definition::build` alone at 128, 256, 512 and 1,024 steps.

The needs are eight a step, random (`any`), or one chain, in which each step needs the previous one
in the file (`forward`) or the next one (`backward`). The script prints for each size the median
time over the seeds 1, 2 and so on, and its ratio to the time at 128 steps.
"""
import statistics
import tempfile

import case_net
import runs

SIZES = [128, 256, 512, 1024]
NEEDS = 8


def random_needs(steps, seed):
    return case_net.case(*case_net.made("any", steps, NEEDS * steps, seed))


def chain(needs):
    """Return the text of a case of one chain."""
    steps = len(needs) + 1
    return "".join(["s waiting 1 1 1 1\n"] * steps + [f"n {step} {on}\n" for step, on in needs])


def forward(steps, _seed):
    return chain([(step, step - 1) for step in range(1, steps)])


def backward(steps, _seed):
    return chain([(step, step + 1) for step in range(steps - 1)])


def main():
    options = runs.options(__doc__)
    program = runs.built(options)
    with tempfile.TemporaryDirectory() as folder:
        for kind, made in [("any", random_needs), ("forward", forward), ("backward", backward)]:
            times_by_seed = []
            for seed in range(1, options.seeds + 1):
                commands = [
                    [*program, "build", runs.put(folder, str(steps), made(steps, seed))]
                    for steps in SIZES
                ]
                times_by_seed.append(
                    [seconds for _, seconds in runs.timed(commands, options.turns)]
                )
            middles = [statistics.median(times) for times in zip(*times_by_seed)]
            for steps, middle in zip(SIZES, middles):
                print(
                    f"{steps} steps {kind}: {middle * 1e6:.0f} us, ratio {middle / middles[0]:.2f}",
                    flush=True,
                )


if __name__ == "__main__":
    main()
