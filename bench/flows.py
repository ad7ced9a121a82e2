#!/usr/bin/env python3
"""Compare maximum flows of saga_flow with those of LEMON's preflow: the values, and the times.

The networks are random, from `flow_net.py`: of the shape of a case's network (`steps`) and of any
shape (`any`), at two sizes, with the seeds 1, 2 and so on. Each program builds its network in each
run. The times do not include reading the text. The script prints for each network the value, both
median times and their ratio, and then the ratios of each size and shape. The status is 1 if values
differ.
"""
import sys
from functools import partial

import flow_net
import runs

SIZES = [(66, 640), (1026, 10240)]


def made(shape, nodes, arcs, seed):
    """Return the text for both programs, which is the same."""
    text = flow_net.text(shape, nodes, arcs, seed)
    return text, text


def kinds():
    """Yield each size in each shape."""
    for nodes, arcs in SIZES:
        for shape in ["steps", "any"]:
            yield f"{nodes} nodes {arcs} arcs {shape}", partial(made, shape, nodes, arcs)


if __name__ == "__main__":
    sys.exit(0 if runs.compared(__doc__, "flow", kinds()) else 1)
