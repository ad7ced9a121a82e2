"""Mutants of the coordinator, each found by name by the verifier of the kill tests."""

from __future__ import annotations

import importlib
import pathlib
import pkgutil
import shutil

import pytest
import wrong
from kills import play

NAMES = sorted(module.name for module in pkgutil.iter_modules(wrong.__path__))


def test_there_are_enough() -> None:
    """At least eight are needed."""
    assert len(NAMES) >= 8


@pytest.mark.parametrize("name", NAMES)
def test_a_mutant_of_the_coordinator_is_detected(name: str) -> None:
    """The kind of strike that reveals it finds it within a few stores."""
    module = importlib.import_module(f"wrong.{name}")
    faults: set[str] = set()
    for seed in range(4):
        played = play(module.STRIKES, seed, 30, time_limit=15, wrong=name, quiet=5)
        faults |= played.verdict.names
        if played.folder is not None:
            shutil.rmtree(pathlib.Path(played.folder))
        if module.FINDS in faults:
            return
    pytest.fail(f"{name} was not found by {module.FINDS}, but by {sorted(faults)}")
