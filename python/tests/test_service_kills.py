"""Service and workers killed at random; the witness, the store and its logs must agree.

By hand: `service_kills.py`.
"""

from __future__ import annotations

import random

import pytest
from server import Server
from service_kills import play


@pytest.mark.parametrize("kind", ["sqlite", "postgresql"])
def test_no_acknowledgement_is_lost(kind: str, request: pytest.FixtureRequest) -> None:
    """Four workers and six callers over forty sagas; the service, over PostgreSQL two of them, and
    the workers get ten faults.
    """
    server: Server | None = request.getfixturevalue("postgresql") if kind == "postgresql" else None
    seed = random.randrange(10**6)
    verdict, kills, folder = play(seed, sagas=40, workers=4, callers=6, strikes=10, server=server)
    assert verdict.faults == [], f"seed {seed}, {folder}: {verdict.faults[:5]}"
    assert sum(kills.values()) > 0 and verdict.figures["committed"] > 40
