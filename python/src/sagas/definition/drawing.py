"""Groups of the steps of a definition, and drawings for Graphviz in which a group is one node."""

from __future__ import annotations

import dataclasses
import re
from collections import Counter
from collections.abc import Collection, Iterable, Sequence

from sagas.definition import definition_text
from sagas.definition.layout import JOIN_ENDING, StepOrigin, parse_origin

ALL = "*"
"""The name that unfolds every group."""


@dataclasses.dataclass(slots=True)
class Group:
    """A fan-out with its steps, or an included saga with its steps.

    Attributes:
        name: The declared name: `hotel/room`, or `hotel` for an included saga.
        steps: The numbers of its steps, without joining steps.
        items: The number of items; None for a saga that is included once.
    """

    name: str
    steps: list[int] = dataclasses.field(default_factory=list)
    items: int | None = None

    @property
    def title(self) -> str:
        """The name with the number of items or of steps."""
        if self.items is None:
            return f"{self.name}: {len(self.steps):,} steps"
        return f"{self.name} ×{self.items:,}"


@dataclasses.dataclass(frozen=True, slots=True)
class Block:
    """A node of a drawing: a single step, or a group that is not unfolded.

    Attributes:
        steps: The numbers of the steps.
        group: The group; None for a single step.
        within: The innermost unfolded group around it, or None.
        item_of: The declared name if it is an item of an unfolded fan-out, else None.
    """

    steps: list[int]
    group: Group | None = None
    within: Group | None = None
    item_of: str | None = None


class Groups:
    """The groups of a definition.

    Attributes:
        origins: The origins of the steps; empty if no step comes from the input.
        by_name: The groups by name, outer groups first.
    """

    def __init__(self, origins: Sequence[StepOrigin]) -> None:
        self.origins = origins
        paths = [_paths(origin) for origin in origins]
        members: dict[str, Group] = {}
        copies: dict[str, set[StepOrigin]] = {}
        for number, path in enumerate(paths):
            for name, copy in path:
                members.setdefault(name, Group(name)).steps.append(number)
                copies.setdefault(name, set()).add(copy)
        for name, group in members.items():
            is_repeated = any(_is_item(copy) for copy in copies[name])
            group.items = len(copies[name]) if is_repeated else None
        self.by_name: dict[str, Group] = {}
        for name in sorted(members, key=lambda name: name.count("/")):
            outer = self._outer(name)
            is_same = outer is not None and outer.steps == members[name].steps
            if len(members[name].steps) > 1 and not is_same:
                self.by_name[name] = members[name]
        self._of = [
            [self.by_name[name] for name, _ in path if name in self.by_name] for path in paths
        ]
        self._add_joins()

    @classmethod
    def read(cls, text: str) -> Groups:
        """Return the groups of a definition, given its text."""
        listed = definition_text.shaped_steps(text) if definition_text.is_shaped(text) else []
        return cls([parse_origin(step["of"]) for step in listed])

    def _outer(self, name: str) -> Group | None:
        """Return the innermost group around the group with this name."""
        while "/" in name:
            name = name.rpartition("/")[0]
            if name in self.by_name:
                return self.by_name[name]
        return None

    def _add_joins(self) -> None:
        """Add the joining step that follows a group to the group."""
        for number, origin in enumerate(self.origins):
            joined = StepOrigin(origin.scope, origin.name.removesuffix(JOIN_ENDING)).declared
            if origin.name.endswith(JOIN_ENDING) and joined in self.by_name:
                self._of[number].append(self.by_name[joined])

    def of(self, step: int) -> list[Group]:
        """Return the groups around a step, the outermost first."""
        return self._of[step] if step < len(self._of) else []

    def blocks(self, count: int, unfold: Collection[str]) -> list[Block]:
        """Return the nodes of a drawing, in the order of their first steps.

        Args:
            count: The number of steps of the definition.
            unfold: The names of the groups whose parts are drawn, or `ALL`.
        """
        blocks: dict[str | int, Block] = {}
        for step in range(count):
            groups = self.of(step)
            folded = next((group for group in groups if not {group.name, ALL} & {*unfold}), None)
            within = groups[: groups.index(folded)] if folded else groups
            key: str | int = folded.name if folded else step
            if key not in blocks:
                is_item = bool(within) and not folded and _is_item(self.origins[step])
                item_of = self.origins[step].declared if is_item else None
                blocks[key] = Block([], folded, within[-1] if within else None, item_of)
            blocks[key].steps.append(step)
        return list(blocks.values())

    def known(self, names: Iterable[str]) -> frozenset[str]:
        """Return the names that are names of groups."""
        return frozenset(name for name in names if name in self.by_name)


def _paths(origin: StepOrigin) -> list[tuple[str, StepOrigin]]:
    """Return the possible groups around a step, the outermost first.

    Each is the group's name, and the origin of the inclusion or item in it that has the step.
    """
    groups = []
    for depth in range(1, len(origin.scope) + 1):
        copy = StepOrigin(origin.scope[: depth - 1], *origin.scope[depth - 1])
        groups.append((copy.declared, copy))
    if _is_item(origin):
        groups.append((origin.declared, origin))
    return groups


def _is_item(origin: StepOrigin) -> bool:
    """Return whether a step, or an inclusion around it, exists once for each item."""
    return origin.number is not None or any(number is not None for _, number in origin.scope)


# -- drawings


NODE = re.compile(r'  "([^"]+)" \[(.*?) ?label="(.*)"\];')
EDGE = re.compile(r'  "([^"]+)" -> "([^"]+)"(.*);')
COSTS = ("run ", "undo ", "skip ", "keep ", "tries ", "undo_tries ")
"""The beginnings of the lines of a node's label that show costs and tries."""
FAILED = "octagon"
"""The shape of a step that has failed."""


def fold(drawing: str, definition: str, unfold: Collection[str]) -> str:
    """Return a drawing of a definition with a node for each group.

    Args:
        drawing: The drawing of the engine program, with a node for each step.
        definition: The definition.
        unfold: The declared names of the groups whose parts are drawn, or `ALL`.
    """
    groups = Groups.read(definition)
    if ALL in unfold or not groups.by_name:
        return drawing
    lines = drawing.splitlines()
    nodes = {name: (style, label) for name, style, label in _matches(NODE, lines)}
    names = list(nodes)
    node_of = {name: name for name in names}
    drawn = []
    for block in groups.blocks(len(names), unfold):
        members = [names[step] for step in block.steps]
        if block.group is None:
            drawn.append(_line(members[0], *nodes[members[0]]))
            continue
        node_of |= dict.fromkeys(members, block.group.name)
        grouped = [nodes[names[step]] for step in block.group.steps]
        drawn.append(_line(block.group.name, _style(grouped), _label(block.group.title, grouped)))
    edges: dict[tuple[str, str], str] = {}
    for step, need, style in _matches(EDGE, lines):
        ends = node_of[step], node_of[need]
        if ends[0] != ends[1]:
            edges[ends] = max(style, edges.get(ends, ""))
    drawn += [f'  "{step}" -> "{need}"{style};' for (step, need), style in edges.items()]
    head = lines[: next(at for at, line in enumerate(lines) if NODE.fullmatch(line))]
    return "\n".join([*head, *drawn, "}"]) + "\n"


def _matches(pattern: re.Pattern[str], lines: Sequence[str]) -> list[tuple[str, ...]]:
    return [match.groups() for line in lines if (match := pattern.fullmatch(line))]


def _line(name: str, style: str, label: str) -> str:
    return f'  "{name}" [{style} label="{label}"];'


def _style(nodes: Sequence[tuple[str, str]]) -> str:
    """Return the style of a group: of a failed step, or the one of all steps."""
    styles = [style for style, _ in nodes]
    failed = [style for style in styles if FAILED in style]
    return failed[0] if failed else styles[0] if len({*styles}) == 1 else "shape=box"


def _label(title: str, nodes: Sequence[tuple[str, str]]) -> str:
    """Return a group's title, its numbers of steps by state, and common costs."""
    lines = Counter(line for _, label in nodes for line in label.split(r"\n")[1:])
    shown = [f"{count:,} {line}" for line, count in lines.items() if not line.startswith(COSTS)]
    shown += [
        line for line, count in lines.items() if line.startswith(COSTS) and count == len(nodes)
    ]
    return r"\n".join([title, *shown])
