"""Two nodes over one database, with faults at random moments: the verifier finds no fault.

`tests/kills_nodes.py --rounds N` makes N rounds.
"""

from __future__ import annotations

import pytest
from kills_nodes import KINDS, play
from server import Server

SAGAS = 21
"""Three of each kind of saga; two are aborted."""
ROUNDS = 1
"""Databases of each kind; each has up to twelve faults."""


@pytest.mark.parametrize("number", range(ROUNDS))
@pytest.mark.parametrize("kind", KINDS)
def test_nothing_is_lost_and_nothing_is_done_twice(
    postgresql: Server, kind: str, number: int
) -> None:
    """Witness, database and logs agree in the end."""
    played = play(kind, 1000 * number + KINDS.index(kind), SAGAS, postgresql)
    assert not played.problems, f"{played.folder}: {played.problems[:5]}"
    assert sum(played.kills.values()) > 0
