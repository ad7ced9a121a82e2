#!/usr/bin/env python3
"""Print a random network in DIMACS form, the same one for the same seed.

`steps` is a network like those of the planner: an arc from the source to each step, one from each
step to the sink, and arcs between steps with a capacity above the sum of all others. `any` is a
network with arcs between any two nodes.
"""
import argparse
import random


def steps_net(nodes, arcs, draw):
    """Return arcs with the source 1, the sink 2, and steps from 3."""
    steps = range(3, nodes + 1)
    drawn = [(1, step, draw.randint(0, 1000)) for step in steps]
    drawn += [(step, 2, draw.randint(0, 1000)) for step in steps]
    while len(drawn) < arcs:
        after, before = draw.sample(steps, 2)
        drawn.append((max(after, before), min(after, before), 10**9))
    return drawn


def any_net(nodes, arcs, draw):
    """Return arcs with the source 1 and the sink 2, and capacities up to a million."""
    drawn = []
    while len(drawn) < arcs:
        start, end = draw.sample(range(1, nodes + 1), 2)
        drawn.append((start, end, draw.randint(1, 10**6)))
    return drawn


def dimacs(nodes, arcs):
    """Return the text of a network with the source 1 and the sink 2."""
    lines = [f"p max {nodes} {len(arcs)}", "n 1 s", "n 2 t"]
    lines += [f"a {start} {end} {capacity}" for start, end, capacity in arcs]
    return "\n".join(lines) + "\n"


def text(shape, nodes, arcs, seed):
    """Return the network of a shape, a size and a seed."""
    draw = random.Random(f"{shape} {nodes} {arcs} {seed}")
    made = steps_net if shape == "steps" else any_net
    return dimacs(nodes, made(nodes, arcs, draw))


def main():
    parser = argparse.ArgumentParser(description=__doc__.splitlines()[0])
    parser.add_argument("--nodes", type=int, default=1026)
    parser.add_argument("--arcs", type=int, default=10240)
    parser.add_argument("--seed", type=int, default=1)
    parser.add_argument("--shape", choices=["steps", "any"], default="steps")
    options = parser.parse_args()
    print(text(options.shape, options.nodes, options.arcs, options.seed), end="")


if __name__ == "__main__":
    main()
