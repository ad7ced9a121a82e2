"""Decides which shards move to other nodes, so that the nodes share the sagas.

Each node decides for its own shards only, from what the database has of all nodes. A shard moves
from a node with at least two shards more than the other one. So two nodes never exchange shards:
after a move, the node that had the shard has at least as many as the other one. If it has one
shard more, a shard moves only if that brings their open sagas closer together by a tenth of all.

A shard that accepts new sagas does not count: its node received them, and gets the next ones.
"""

from __future__ import annotations

import dataclasses
from collections.abc import Collection, Sequence
from typing import NamedTuple

DIFFERENCE = 2
"""A node with this number of shards more than another one moves shards there."""
MAX_MOVES = 4
"""Maximum number of shards that a node moves at a time."""
MIN_GAIN, MIN_SAGAS = 0.1, 10
"""A move between nodes with nearly as many shards brings their loads closer by this part of both,
and by this number of open sagas.
"""
SAME_EPOCHS = 3
"""A shard that comes back with at most this number of epochs more was never loaded elsewhere."""


@dataclasses.dataclass(frozen=True, slots=True)
class NodeShare:
    """A node with a valid lease, as the database has it.

    Attributes:
        node: The run of the node. It owns shards.
        name: The name of the node.
        shards: How many shards it has, without those that accept new sagas.
        open_sagas: How many open sagas it has.
        kinds: Its definitions, as saga/version/digest.
        accepts: Whether it takes shards: it is not drained and does not stop, and its release
            moves shards.
        is_drained: Whether an operator has drained it.
    """

    node: str
    name: str
    shards: int
    open_sagas: int
    kinds: frozenset[str]
    accepts: bool = True
    is_drained: bool = False


class NodeFigures(NamedTuple):
    """What a node stores about itself with its heartbeat.

    Attributes:
        open_sagas: The number of its open sagas.
        accepting: The number of its shards that accept new sagas.
        running: The number of functions that run.
        concurrency: The maximum number of functions that run.
        is_stopping: Whether it is about to end.
    """

    open_sagas: int = 0
    accepting: int = 0
    running: int = 0
    concurrency: int = 0
    is_stopping: bool = False


@dataclasses.dataclass(frozen=True, slots=True)
class ShardLoad:
    """A shard of this node that could move.

    Attributes:
        number: Its number.
        open_sagas: How many open sagas it has.
        kinds: The definitions of its open sagas, as saga/version/digest.
        accepts_sagas: Whether it accepts new sagas, and opened one a short time ago.
        refused_by: The nodes that did not execute it.
    """

    number: int
    open_sagas: int
    kinds: frozenset[str]
    accepts_sagas: bool = False
    refused_by: Collection[str] = ()


class Move(NamedTuple):
    """A shard that moves to another node.

    Attributes:
        shard: The number of the shard.
        node: The run of the other node.
        difference: By how many shards this node must exceed the other one when it moves; None if
            that does not matter.
    """

    shard: int
    node: str
    difference: int | None


def fits(load: ShardLoad, taker: NodeShare, mine: NodeShare) -> bool:
    """Return whether a node can execute the open sagas of a shard, as far as is known.

    A definition that depends on the input, or on a child, is in no list. A node has it if it has
    all definitions of this node.
    """
    if taker.node in load.refused_by:
        return False
    missing = load.kinds - taker.kinds
    return not missing or (not missing & mine.kinds and mine.kinds <= taker.kinds)


def resembles(load: ShardLoad, taker: NodeShare) -> bool:
    """Return whether a node has another definition of the same name and version for each one.

    It probably has the functions, too, for example after a deploy. If not, it leaves the shard.
    """
    versions = {kind.rpartition("/")[0] for kind in taker.kinds}
    missing = {kind.rpartition("/")[0] for kind in load.kinds - taker.kinds}
    return taker.node not in load.refused_by and missing <= versions


def planned_moves(
    node: str, shares: Sequence[NodeShare], loads: Sequence[ShardLoad], limit: int = MAX_MOVES
) -> list[Move]:
    """Return the shards that a node moves now, and where.

    Args:
        node: The run of this node.
        shares: All nodes with a valid lease.
        loads: The shards of this node that could move.
        limit: The maximum number of moves.
    """
    mine = next((share for share in shares if share.node == node), None)
    takers = {share.node: share for share in shares if share.node != node and share.accepts}
    if mine is None or not takers:
        return []
    moves = list[Move]()
    left = {load.number: load for load in loads}
    while left and len(moves) < limit:
        move = _drain(mine, takers, left) if mine.is_drained else _balance(mine, takers, left)
        if move is None:
            break
        moves.append(move)
        load, taker = left.pop(move.shard), takers[move.node]
        mine = _changed(mine, -1, load)
        takers[move.node] = _changed(taker, 1, load)
    return moves


def _changed(share: NodeShare, shards: int, load: ShardLoad) -> NodeShare:
    return dataclasses.replace(
        share,
        shards=share.shards + shards,
        open_sagas=max(0, share.open_sagas + shards * load.open_sagas),
    )


def _by_load(share: NodeShare) -> tuple[int, int, str]:
    return share.shards, share.open_sagas, share.node


def _drain(
    mine: NodeShare, takers: dict[str, NodeShare], loads: dict[int, ShardLoad]
) -> Move | None:
    """Return the next move of a drained node: each shard that another node can execute.

    Nodes that surely have the definitions come first.
    """
    ordered = sorted(takers.values(), key=_by_load)
    for is_sure in (True, False):
        for taker in ordered:
            for load in loads.values():
                if fits(load, taker, mine) if is_sure else resembles(load, taker):
                    return Move(load.number, taker.node, None)
    return None


def _balance(
    mine: NodeShare, takers: dict[str, NodeShare], loads: dict[int, ShardLoad]
) -> Move | None:
    """Return the next move that brings this node and another one closer together."""
    for taker in sorted(takers.values(), key=_by_load):
        difference = mine.shards - taker.shards
        if difference < DIFFERENCE - 1:
            return None
        fitting = [
            load
            for load in loads.values()
            if load.open_sagas and not load.accepts_sagas and fits(load, taker, mine)
        ]
        if not fitting:
            continue
        distance = mine.open_sagas - taker.open_sagas
        best = min(fitting, key=lambda load: (abs(distance - 2 * load.open_sagas), load.number))
        if difference >= DIFFERENCE:
            return Move(best.number, taker.node, DIFFERENCE)
        gain = abs(distance) - abs(distance - 2 * best.open_sagas)
        if gain >= max(MIN_SAGAS, MIN_GAIN * (mine.open_sagas + taker.open_sagas)):
            return Move(best.number, taker.node, DIFFERENCE - 1)
    return None
