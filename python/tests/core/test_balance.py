"""Which shards move to which node, over tables of nodes and shards."""

from __future__ import annotations

import random
from collections.abc import Sequence

import pytest

from sagas.core.shard.balance import (
    DIFFERENCE,
    MAX_MOVES,
    Move,
    NodeShare,
    ShardLoad,
    fits,
    planned_moves,
)

BOTH, NEW = frozenset({"pay/1/a", "trip/1/b"}), frozenset({"pay/2/c"})


def share(node: str, shards: int, sagas: int = 0, state: str = "", kinds: frozenset[str] = BOTH):
    accepts = state == ""
    return NodeShare(node, node, shards, sagas, kinds, accepts, is_drained=state == "drained")


def shards(*sagas: int, kinds: Sequence[str] = ("pay/1/a",)) -> list[ShardLoad]:
    return [ShardLoad(number, count, frozenset(kinds)) for number, count in enumerate(sagas)]


CASES: dict[str, tuple[list[NodeShare], list[ShardLoad], list[tuple[int, str]]]] = {
    "alone": ([share("a", 6)], shards(*[1] * 6), []),
    "unknown": ([share("b", 0), share("c", 0)], shards(1, 1), []),
    "a later node": (
        [share("a", 6, 60), share("b", 0)],
        shards(*[10] * 6),
        [(0, "b"), (1, "b"), (2, "b")],
    ),
    "the difference is one": ([share("a", 3, 3), share("b", 2, 2)], shards(1, 1, 1), []),
    "the difference is two": ([share("a", 3, 3), share("b", 1, 1)], shards(1, 1, 1), [(0, "b")]),
    "a few at a time": (
        [share("a", 40, 40), share("b", 0)],
        shards(*[1] * 40),
        [(number, "b") for number in range(MAX_MOVES)],
    ),
    "two later nodes in turn": (
        [share("a", 6, 6), share("b", 0), share("c", 0)],
        shards(*[1] * 6),
        [(0, "b"), (1, "c"), (2, "b"), (3, "c")],
    ),
    "the node with fewest": (
        [share("a", 5, 5), share("b", 3, 3), share("c", 1, 1)],
        shards(*[1] * 5),
        [(0, "c"), (1, "c")],
    ),
    "this node has fewest": ([share("a", 1, 1), share("b", 5, 5)], shards(1), []),
    "a node that stops": ([share("a", 6, 6), share("b", 0, 0, "stops")], shards(*[1] * 6), []),
    "a drained node takes none": (
        [share("a", 6, 6), share("b", 0, 0, "drained")],
        shards(*[1] * 6),
        [],
    ),
    "this node is drained": (
        [share("a", 2, 2, "drained"), share("b", 9, 9), share("c", 8, 8)],
        shards(1, 1),
        [(0, "c"), (1, "b")],
    ),
    "drained, and no other node": (
        [share("a", 2, 2, "drained"), share("b", 0, 0, "drained")],
        shards(1, 1),
        [],
    ),
    "no definition": ([share("a", 6, 6), share("b", 0, kinds=NEW)], shards(*[1] * 6), []),
    "the node with the definition": (
        [share("a", 6, 6), share("b", 1, 1), share("c", 0, kinds=NEW)],
        shards(*[1] * 6),
        [(0, "b"), (1, "b")],
    ),
    "drained, and another definition of the version": (
        [
            share("a", 1, 1, "drained"),
            share("b", 0, kinds=NEW),
            share("c", 3, kinds=frozenset({"pay/1/other"})),
        ],
        shards(1),
        [(0, "c")],
    ),
    "another definition of the version": (
        [share("a", 6, 6), share("b", 0, kinds=frozenset({"pay/1/other"}))],
        shards(*[1] * 6),
        [],
    ),
    "drained, and no definition elsewhere": (
        [share("a", 1, 1, "drained"), share("b", 0, kinds=NEW)],
        shards(1),
        [],
    ),
    "a definition of the input": (
        [share("a", 2, 2), share("b", 0)],
        shards(1, 1, kinds=["pay/1/of an input"]),
        [(0, "b")],
    ),
    "a definition that this node has lost": (
        [share("a", 2, 2), share("b", 0, kinds=NEW), share("c", 1, 1)],
        shards(1, 1, kinds=["pay/2/c"]),
        [(0, "b")],
    ),
    "the load decides which": (
        [share("a", 3, 1111), share("b", 1, 1)],
        shards(1000, 100, 11),
        [(0, "b")],
    ),
    "a move of load": ([share("a", 2, 600), share("b", 1, 10)], shards(300, 300), [(0, "b")]),
    "too little load": ([share("a", 2, 9), share("b", 1, 1)], shards(4, 5), []),
    "as many shards": ([share("a", 2, 600), share("b", 2, 10)], shards(300, 300), []),
}


@pytest.mark.parametrize("case", CASES)
def test_moves(case: str) -> None:
    shares, loads, moves = CASES[case]
    planned = planned_moves("a", shares, loads)
    assert [(move.shard, move.node) for move in planned] == moves


def test_a_shard_that_accepts_sagas_moves_only_from_a_drained_node() -> None:
    current = ShardLoad(1, 5, frozenset(["pay/1/a"]), accepts_sagas=True)
    empty = ShardLoad(2, 0, frozenset())
    assert planned_moves("a", [share("a", 4, 5), share("b", 0)], [current, empty]) == []
    drained = [share("a", 0, 5, "drained"), share("b", 0)]
    assert planned_moves("a", drained, [current]) == [Move(1, "b", None)]


def test_a_shard_is_not_moved_again_to_a_node_that_left_it() -> None:
    load = ShardLoad(1, 5, frozenset(["pay/1/a"]), refused_by={"b"})
    assert not fits(load, share("b", 0), share("a", 6))
    nodes = [share("a", 6, 6), share("b", 0), share("c", 2)]
    assert planned_moves("a", nodes, [load]) == [Move(1, "c", DIFFERENCE)]


@pytest.mark.parametrize("seed", range(60))
def test_nodes_come_to_rest(seed: int) -> None:
    """Nodes that decide one after the other, in any order, move shards a few times only.

    Then they have as many shards, except for one, and a further round moves nothing.
    """
    draw = random.Random(seed)
    names = [f"n{number}" for number in range(draw.randint(2, 5))]
    held = {
        name: {
            f"{name}-{number}": draw.choice((1, 10, 500)) for number in range(draw.randint(0, 12))
        }
        for name in names
    }
    total = sum(map(len, held.values()))
    moved, quiet = 0, 0
    while quiet < 20:
        node = draw.choice(names)
        shares = [share(name, len(held[name]), sum(held[name].values())) for name in names]
        mine = list(held[node].items())
        loads = [ShardLoad(number, sagas, BOTH) for number, (_, sagas) in enumerate(mine)]
        moves = planned_moves(node, shares, loads)
        for move in moves:
            name, sagas = mine[move.shard]
            del held[node][name]
            held[move.node][name] = sagas
        moved += len(moves)
        quiet = 0 if moves else quiet + 1
        assert moved <= 4 * total + 4, "they do not come to rest"
    counts = [len(held[name]) for name in names]
    for node in names:
        shares = [share(name, len(held[name]), sum(held[name].values())) for name in names]
        loads = [ShardLoad(index, sagas, BOTH) for index, sagas in enumerate(held[node].values())]
        assert planned_moves(node, shares, loads) == []
    assert sum(counts) == total and max(counts) - min(counts) < DIFFERENCE
