#!/usr/bin/env python3
"""Print a definition, by default the greatest one: 1,024 steps and 8,192 needs, without a cycle.

Each step needs steps before it. The needs are spread evenly, except over the first steps, which
have fewer steps before them.
"""
import argparse


def needs_of_each(steps, needs):
    """Return the number of needs of each step: at most a common number, and `needs` in all."""
    if needs > steps * (steps - 1) // 2:
        raise SystemExit(f"{steps} steps cannot have {needs} needs")
    common = 0
    while sum(min(step, common) for step in range(steps)) < needs:
        common += 1
    counts = [min(step, common) for step in range(steps)]
    for step in reversed(range(steps)):
        if sum(counts) == needs:
            break
        if counts[step] == common:
            counts[step] -= 1
    return counts


def main():
    parser = argparse.ArgumentParser(description=__doc__.splitlines()[0])
    parser.add_argument("--steps", type=int, default=1024)
    parser.add_argument("--needs", type=int, default=8192)
    options = parser.parse_args()
    print('format = 1\nname = "greatest"')
    for step, count in enumerate(needs_of_each(options.steps, options.needs)):
        names = ", ".join(f'"s{on}"' for on in range(step - count, step))
        print(f'\n[[step]]\nname = "s{step}"\nneeds = [{names}]\nundo = 1\nkeep = 2')


if __name__ == "__main__":
    main()
