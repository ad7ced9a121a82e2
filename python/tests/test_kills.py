"""Kills at random moments: each store is run to its end, and the verifier finds no fault.

`tests/kills.py --rounds N` makes N rounds.
"""

from __future__ import annotations

import pytest
from kills import KINDS, play

AGAIN = 5
"""Stores, until one of them gets a fault: a quick program may be done before its first strike."""
ROUNDS = 3
"""Stores of each kind. A store has up to twelve faults, at different moments."""


@pytest.mark.parametrize("number", range(ROUNDS))
@pytest.mark.parametrize("kind", KINDS)
def test_nothing_is_lost_and_nothing_is_done_twice(kind: str, number: int) -> None:
    """The program or its engine is killed, it is asked to close, its disk is full: witness,
    database and logs agree in the end.
    """
    for again in range(AGAIN):
        played = play(kind, 1000 * number + 100 * again + KINDS.index(kind), 40)
        assert not played.problems, f"{played.folder}: {played.problems[:5]}"
        if played.kills:
            break
    assert sum(played.kills.values()) > 0
