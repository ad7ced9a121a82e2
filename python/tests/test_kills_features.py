"""Faults over the features together: right nodes pass the verifier, and wrong ones do not.

`tests/kills_features.py --rounds N` makes N rounds, and `--wrong all` tries every wrong variant.
"""

from __future__ import annotations

import pytest
from features_options import BLOCK, EACH, OPTIONS, SERVED, STORES, block, options_of, pairs_of
from features_wrong import VARIANTS
from kills_features import play, try_wrong
from server import Server

SOME = (
    "early_report_dropped",
    "end_not_called",
    "optional_failure_counts",
    "optional_failure_fails",
    "plain_input_kept",
    "wrong_result_handed",
)
"""Wrong variants that are quick."""


@pytest.mark.parametrize("store", STORES)
def test_forty_rounds_have_all_pairs(store: str) -> None:
    """Each round has eight features that the store can have together, whatever the first seed."""
    options = [option for option in OPTIONS if store != "sqlite" or option not in SERVED]
    for number in range(4):
        rows = block(store, number)
        assert len(rows) == BLOCK
        assert {len(set(row)) for row in rows} == {EACH}
        assert set().union(*map(pairs_of, rows)) == pairs_of(options)
        assert all(len(pairs_of(row)) == EACH * (EACH - 1) / 2 for row in rows)
    for first in (0, 7, 19, 33):
        rows = tuple(options_of(store, seed) for seed in range(first, first + 40))
        assert set().union(*map(pairs_of, rows)) == pairs_of(options)


def test_a_round_over_sqlite() -> None:
    """One node, two faults, and a deploy. Some optional steps fail, children of a list are started,
    each end is followed by a call, and ended sagas are erased.
    """
    played = play(17, 8, 2, options=["each", "optional", "label", "on_end", "erase"])
    assert not played.verdict.faults, f"{played.folder}: {played.verdict.faults[:5]}"
    assert played.kills and played.verdict.figures["acknowledged"] >= 16
    assert played.verdict.figures["optional failures"] and played.verdict.figures["ends"] == 8


def test_a_round_over_postgresql(postgresql: Server) -> None:
    """Three nodes, and faults of one. Operators pause steps, drain nodes and erase sagas. A step is
    a pivot.
    """
    options = ["for_each", "when", "early", "codec", "pause", "erase", "pivot", "drain"]
    played = play(17, 8, 1, postgresql, options=options)
    assert not played.verdict.faults, f"{played.folder}: {played.verdict.faults[:5]}"
    assert played.kills and played.verdict.figures["acknowledged"] >= 16
    assert played.verdict.figures["pivots"] + played.verdict.figures["without pivot"] == 8


def test_there_are_enough_wrong_variants() -> None:
    """At least fifteen, and each is found by the name of a fault."""
    assert len(VARIANTS) >= 15


@pytest.mark.parametrize("name", SOME)
def test_a_mutant_of_the_package_is_detected(name: str) -> None:
    """One round without faults finds it."""
    played = try_wrong(name)
    assert VARIANTS[name].finds in played.names, played.verdict.faults[:5]
