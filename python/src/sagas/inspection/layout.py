"""Layered layout of a step graph."""

from __future__ import annotations

import dataclasses
from collections.abc import Sequence

WIDTH, HEIGHT = 180, 74
GAP_X, GAP_Y = 56, 18
THIN = 10  # the height of a line that passes a layer
MAX_PASSING = 4000
SWEEPS = 6

Point = tuple[float, float]


@dataclasses.dataclass(slots=True)
class Item:
    """A step in its layer, or a line that passes the layer. `y` is its vertical center."""

    step: int | None
    layer: int
    left: list[int] = dataclasses.field(default_factory=list)
    right: list[int] = dataclasses.field(default_factory=list)
    lay_out: float = 0.0
    y: float = 0.0

    @property
    def height(self) -> int:
        return THIN if self.step is None else HEIGHT


@dataclasses.dataclass(frozen=True, slots=True)
class Placed:
    """The upper left corner of each step, and the points of each line.

    The key of a line is the step and the index in its needs.
    """

    corners: Sequence[Point]
    lines: dict[tuple[int, int], list[Point]]
    width: float
    height: float


def layers_of(needs: Sequence[Sequence[int]]) -> list[int]:
    """Return the layer of each step: one more than the last layer among its needs."""
    layers: dict[int, int] = {}
    for first in range(len(needs)):
        stack = [first]
        while stack:
            step = stack[-1]
            missing = [need for need in needs[step] if need not in layers]
            if step in layers or not missing:
                layers.setdefault(step, 1 + max((layers[need] for need in needs[step]), default=-1))
                stack.pop()
            else:
                stack += missing
    return [layers[step] for step in range(len(needs))]


class Layout:
    """The layers of a definition, ordered and placed."""

    def __init__(self, needs: Sequence[Sequence[int]]) -> None:
        self.needs = needs
        self.of = layers_of(needs)
        self.items = [Item(step, layer) for step, layer in enumerate(self.of)]
        self.chains: dict[tuple[int, int], list[int]] = {}
        passing = sum(
            self.of[step] - self.of[need] - 1
            for step, needed in enumerate(needs)
            for need in needed
        )
        for step, needed in enumerate(needs):
            for index, need in enumerate(needed):
                self._link(step, index, need, passing <= MAX_PASSING)
        self.layers: list[list[int]] = [[] for _ in range(max(self.of) + 1)]
        for number, item in enumerate(self.items):
            self.layers[item.layer].append(number)

    def _link(self, step: int, index: int, need: int, passes: bool) -> None:
        chain = [need]
        if passes:
            for layer in range(self.of[need] + 1, self.of[step]):
                self.items.append(Item(None, layer))
                chain.append(len(self.items) - 1)
        chain.append(step)
        for left, right in zip(chain, chain[1:]):
            self.items[left].right.append(right)
            self.items[right].left.append(left)
        self.chains[step, index] = chain

    def _order(self) -> None:
        """Move each item near the mean of its neighbors, in alternating sweeps."""
        for layer in self.layers:
            self._number(layer)
        for sweep in range(SWEEPS):
            forward = sweep % 2 == 0
            for layer in self.layers[1:] if forward else self.layers[-2::-1]:
                wanted = {
                    number: self._middle(
                        self.items[number].left if forward else self.items[number].right,
                        self.items[number].lay_out,
                    )
                    for number in layer
                }
                layer.sort(key=lambda number: wanted[number])
                self._number(layer)

    def _number(self, layer: list[int]) -> None:
        for position, number in enumerate(layer):
            self.items[number].lay_out = (position + 0.5) / len(layer)

    def _middle(self, neighbors: list[int], default: float) -> float:
        return (
            sum(self.items[number].lay_out for number in neighbors) / len(neighbors)
            if neighbors
            else default
        )

    def _stack(self) -> None:
        """Give each item its vertical position, as near to its neighbors as the order allows."""
        for layer in self.layers:
            self._put(layer, [0.0] * len(layer))
        for sweep in range(SWEEPS):
            forward = sweep % 2 == 0
            for layer in self.layers[1:] if forward else self.layers[-2::-1]:
                wanted = []
                for number in layer:
                    item = self.items[number]
                    neighbors = item.left if forward else item.right
                    wanted.append(
                        sum(self.items[neighbor].y for neighbor in neighbors) / len(neighbors)
                        if neighbors
                        else item.y
                    )
                self._put(layer, wanted)

    def _put(self, layer: list[int], wanted: list[float]) -> None:
        bottom = -1e12
        for number, want in zip(layer, wanted):
            item = self.items[number]
            item.y = max(want, bottom + item.height / 2)
            bottom = item.y + item.height / 2 + GAP_Y
        off = sum(want - self.items[number].y for number, want in zip(layer, wanted)) / len(layer)
        for number in layer:
            self.items[number].y += off

    def placed(self) -> Placed:
        """Return all corners and lines."""
        self._order()
        self._stack()
        top = min(item.y - item.height / 2 for item in self.items)
        for item in self.items:
            item.y -= top
        corners = [
            (item.layer * (WIDTH + GAP_X), item.y - HEIGHT / 2)
            for item in self.items
            if item.step is not None
        ]
        lines = {
            need: [self._port(number) for number in chain] for need, chain in self.chains.items()
        }
        height = max(item.y + item.height / 2 for item in self.items)
        return Placed(corners, lines, len(self.layers) * (WIDTH + GAP_X) - GAP_X, height)

    def _port(self, number: int) -> Point:
        item = self.items[number]
        return item.layer * (WIDTH + GAP_X), item.y


def lay_out(needs: Sequence[Sequence[int]]) -> Placed:
    """Return the layout of steps, given what each needs."""
    return Layout(needs).placed()
