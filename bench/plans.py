#!/usr/bin/env python3
"""Compare plans of saga_plan with flows of LEMON's preflow on the same networks, in one run.

The cost of a plan must be the value of a maximum flow. Planning makes the network, the flow and the
answer from a case in memory. LEMON makes its graph and the flow from the arcs of the network. The
cases are random, from `case_net.py`, at two sizes and in three shapes, with the seeds 1, 2 and so
on. The script prints for each case the cost, both median times and their ratio, and then the ratios
of each size and shape. The status is 1 if a cost and a value differ.
"""
import sys
from functools import partial

import case_net
import runs

SIZES = [(64, 512), (1024, 8192)]


def made(shape, steps, needs, seed):
    """Return a case and its network."""
    drawn = case_net.made(shape, steps, needs, seed)
    return case_net.case(*drawn), case_net.network(*drawn)


def kinds():
    """Yield each size in each shape."""
    for steps, needs in SIZES:
        for shape in ["near", "any", "mixed"]:
            yield f"{steps} steps {needs} needs {shape}", partial(made, shape, steps, needs)


if __name__ == "__main__":
    sys.exit(0 if runs.compared(__doc__, "plan", kinds()) else 1)
