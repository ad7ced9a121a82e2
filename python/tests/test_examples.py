"""The examples, each run as its head says, and their output."""

from __future__ import annotations

import os
import pathlib
import subprocess
import sys

import pytest

TOP = pathlib.Path(__file__).resolve().parents[2]
EXAMPLES = sorted(path.stem for path in (TOP / "examples" / "python").glob("*.py"))

SAYS = {
    "order": [
        "  send the lamp",
        "  completed: reserve committed, charge committed, send committed",
        "  give 900 euros back",
        "  put the piano back",
        "  recovered: reserve undone, charge undone, send failed",
    ],
    "parcels": [
        "  wrap 2 parcels",
        "  completed: T-ROM and T-OSL",
        "  call back T-OSL from Oslo",
        "  recovered, on its way: {0: 'T-ROM'}",
        "  completed: sent to Oslo, Rome; not to nowhere",
    ],
    "trip": [
        "  completed, in effect: flight, car, hotel, tour",
        "  hotel in Lisbon: full (attempt 3)",
        "  give car 7 back",
        "  recovered, in effect: flight; it costs 40",
        "  recovered, in effect: flight, hotel; it costs 15",
    ],
    "provisioning": [
        "  request-1: start a small server at 192.0.2.17, approved by Ada",
        "  request-1: bill it",
        "  request-2: give 192.0.2.17 back",
        "  request-3: remove server 4",
        "  request-3: give 192.0.2.17 back",
        "  recovered: address undone, approve undone, server undone, watch undone, bill failed",
    ],
}


@pytest.mark.parametrize("name", EXAMPLES)
def test_an_example_runs(name: str) -> None:
    """It ends well, and prints these lines in this order."""
    path = TOP / "examples" / "python" / f"{name}.py"
    assert f"PYTHONPATH=python/src python3 examples/python/{name}.py" in path.read_text()
    environment = os.environ | {"PYTHONPATH": "python/src"}
    command = [sys.executable, str(path.relative_to(TOP))]
    done = subprocess.run(
        command, cwd=TOP, env=environment, capture_output=True, text=True, timeout=60, check=False
    )
    assert done.returncode == 0, done.stderr
    lines = iter(done.stdout.splitlines())
    for wanted in SAYS[name]:
        assert wanted in lines, f"{wanted!r} is missing, or is elsewhere, in:\n{done.stdout}"


def test_each_example_is_tried() -> None:
    """Each has some expected output."""
    assert set(EXAMPLES) == set(SAYS)
