"""Mutants of the store over PostgreSQL, each found by name each time, at the moment that reveals
it.

At random moments by hand: finds_wrong_stores.py.
"""

from __future__ import annotations

import importlib
import pkgutil

import pytest
import wrong_stores
from moments import MOMENTS, play
from server import Server

NAMES = sorted(module.name for module in pkgutil.iter_modules(wrong_stores.__path__))


def test_there_are_enough() -> None:
    """At least six are needed."""
    assert len(NAMES) >= 6


@pytest.mark.parametrize("name", MOMENTS)
def test_the_right_store_does_right(postgresql: Server, name: str) -> None:
    """No fault is found at any of these moments."""
    names, faults = play(postgresql, name)
    assert not names, faults


@pytest.mark.parametrize("name", NAMES)
def test_a_mutant_of_the_store_is_detected(postgresql: Server, name: str) -> None:
    """It is found by one of the names that it lists, and by the records of its nodes."""
    module = importlib.import_module(f"wrong_stores.{name}")
    names, faults = play(postgresql, module.MOMENT, name)
    assert names & module.FINDS, f"{name} was not found by {module.FINDS}, but by {faults}"
    assert ("record" in names) != hasattr(module, "UNRECORDED"), faults
