"""Mutants of the store over PostgreSQL under random faults, which may miss a mutant.

test_wrong_stores.py finds each of them reliably. By hand:

    python3 -m pytest tests/finds_wrong_stores.py
"""

from __future__ import annotations

import importlib
import pathlib
import pkgutil
import shutil

import pytest
import wrong_stores
from kills_nodes import play
from server import Server

NAMES = sorted(module.name for module in pkgutil.iter_modules(wrong_stores.__path__))


def test_there_are_enough() -> None:
    """At least six are needed."""
    assert len(NAMES) >= 6


@pytest.mark.parametrize("name", NAMES)
def test_a_mutant_is_detected(postgresql: Server, name: str) -> None:
    """The kind of strike that reveals it finds it within a few databases."""
    module = importlib.import_module(f"wrong_stores.{name}")
    if not hasattr(module, "STRIKES"):
        pytest.skip(
            "no strike shows it: the verifier cannot distinguish a live node from a killed one,"
            " or the moment is too short"
        )
    faults: set[str] = set()
    for seed in range(6):
        played = play(module.STRIKES, seed, 24, postgresql, time_limit=20, wrong=name, quiet=4)
        faults |= played.verdict.names
        if played.folder is not None:
            shutil.rmtree(pathlib.Path(played.folder))
        if faults & module.FINDS:
            return
    pytest.fail(f"{name} was not found by {module.FINDS}, but by {sorted(faults)}")
