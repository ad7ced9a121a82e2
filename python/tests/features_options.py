"""The features that a round of `kills_features.py` combines.

Each block of twenty seeds has rounds in which each pair of features occurs.
"""

from __future__ import annotations

import functools
import itertools
import random
from collections.abc import Iterable

OPTIONS = (
    "child",
    "each",
    "for_each",
    "optional",
    "when",
    "inclusion",
    "deadline",
    "schedule",
    "label",
    "concurrency_by",
    "fair_by",
    "early",
    "blobs",
    "codec",
    "webhooks",
    "on_exhausted",
    "context",
    "retention",
    "restart",
    "ordered",
    "external",
    "on_end",
    "pause",
    "erase",
    "pivot",
    "drain",
    "celery",
)
SERVED = ("celery", "drain")
"""Drawn over PostgreSQL only, with one database or several."""
APART = {frozenset(("celery", "codec")), frozenset(("celery", "blobs"))}
"""Combinations that a store refuses."""
EACH, BLOCK = 8, 20
"""Features of a round, and rounds of a block."""
STORES = ("sqlite", "postgresql", "databases")
"""`databases`: several of PostgreSQL."""
Pair = frozenset[str]


def options_over(store: str) -> list[str]:
    """Return the features that a round over this database may have."""
    return [option for option in OPTIONS if store != "sqlite" or option not in SERVED]


def pairs_of(options: Iterable[str]) -> set[Pair]:
    """Return the pairs of some features that a store can have together."""
    return {frozenset(pair) for pair in itertools.combinations(options, 2)} - APART


def _row(options: list[str], left: set[Pair], draw: random.Random) -> list[str]:
    """Return features that cover as many of the remaining pairs as possible."""
    chosen: list[str] = []
    while len(chosen) < EACH:
        free = [
            option
            for option in options
            if option not in chosen
            and not any(frozenset((option, other)) in APART for other in chosen)
        ]
        weight = {
            option: (
                sum(frozenset((option, other)) in left for other in chosen),
                sum(option in pair for pair in left),
                draw.random(),
            )
            for option in free
        }
        chosen.append(max(free, key=weight.__getitem__))
    return chosen


@functools.cache
def block(store: str, number: int) -> tuple[tuple[str, ...], ...]:
    """Return the rounds of a block, which cover all pairs."""
    draw, options = random.Random(f"{store} {number}"), options_over(store)
    while True:
        left, rows = pairs_of(options), list[tuple[str, ...]]()
        while len(rows) < BLOCK:
            chosen = _row(options, left or pairs_of(options), draw)
            left -= pairs_of(chosen)
            rows.append(tuple(option for option in options if option in chosen))
        if not left:
            draw.shuffle(rows)
            return tuple(rows)


def options_of(store: str, seed: int) -> tuple[str, ...]:
    """Return the features of the round of a seed."""
    return block(store, seed // BLOCK)[seed % BLOCK]
