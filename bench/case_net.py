#!/usr/bin/env python3
"""Print a random case as bench/saga_timing reads it, or with `--net` its network in DIMACS form.

Each step needs some of the steps before it: any of them, or with `near` some of the last ones. The
saga ran in order until near its end. The first three quarters of the steps are committed. Some of
the other steps failed, and steps wait if a step that they need is not committed. On average it
costs as much to undo a step and to end without it as to keep it. With `mixed` each step has any
state, and needs any of the steps before it.
"""
import argparse
import random

from flow_net import dimacs
from greatest import needs_of_each

UNBOUNDED = 10**15
DEAREST = 10**6


def made(shape, steps, needs, seed):
    """Return the steps and their needs.

    A step is its state and its costs (run, undo, skip, keep), a need is a pair of steps.
    """
    draw = random.Random(f"{shape} {steps} {needs} {seed}")
    drawn, pairs = [], []
    for step, count in enumerate(needs_of_each(steps, needs)):
        first = max(0, step - 3 * count) if shape == "near" else 0
        needed = draw.sample(range(first, step), count)
        pairs += [(step, on) for on in needed]
        if shape == "mixed":
            state = draw.choice(["committed", "committed", "waiting", "failed"])
        elif any(drawn[on][0] != "committed" for on in needed):
            state = "waiting"
        elif 4 * step > 3 * steps and draw.random() < 0.05:
            state = "failed"
        else:
            state = "committed"
        drawn.append((state, [draw.randint(0, factor * DEAREST) for factor in [1, 1, 1, 2]]))
    return drawn, pairs


def costs_of(state, run, undo, skip, keep):
    """Return the costs of leaving a step out and of keeping it in effect."""
    if state == "committed":
        return undo + skip, keep
    return skip, run + keep if state == "waiting" else UNBOUNDED


def case(drawn, pairs):
    """Return the text of a case."""
    lines = [" ".join(["s", state, *map(str, four)]) for state, four in drawn]
    lines += [f"n {step} {on}" for step, on in pairs]
    return "\n".join(lines) + "\n"


def network(drawn, pairs):
    """Return the network of a case: arcs for leaving out, arcs for keeping, and links."""
    both = [costs_of(state, *four) for state, four in drawn]
    arcs = [(1, 3 + step, leave) for step, (leave, _) in enumerate(both)]
    arcs += [(3 + step, 2, keep) for step, (_, keep) in enumerate(both)]
    arcs += [(3 + step, 3 + on, UNBOUNDED) for step, on in pairs]
    return dimacs(len(drawn) + 2, arcs)


def main():
    parser = argparse.ArgumentParser(description=__doc__.splitlines()[0])
    parser.add_argument("--steps", type=int, default=1024)
    parser.add_argument("--needs", type=int, default=8192)
    parser.add_argument("--seed", type=int, default=1)
    parser.add_argument("--shape", choices=["near", "any", "mixed"], default="near")
    parser.add_argument("--net", action="store_true")
    options = parser.parse_args()
    drawn = made(options.shape, options.steps, options.needs, options.seed)
    print(network(*drawn) if options.net else case(*drawn), end="")


if __name__ == "__main__":
    main()
