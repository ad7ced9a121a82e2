"""The graph of a saga as SVG: boxes of its steps with their states, and a plan with its costs."""

from __future__ import annotations

import dataclasses
from collections import Counter
from collections.abc import Callable, Collection, Hashable, Sequence
from html import escape
from typing import NamedTuple, Optional

from sagas.core.outcomes import CANNOT_DECODE, PROGRAM_ERROR
from sagas.core.states import WAITS_FOR
from sagas.definition.drawing import ALL, Block, Group, Groups
from sagas.engine.plan import Choice
from sagas.inspection import wording
from sagas.inspection.layout import GAP_X, HEIGHT, WIDTH, Placed, Point, lay_out
from sagas.inspection.views import SagaView, Waits, state_of

EARLY = {"complete": "its success is reported", "fail": "its failure is reported"}
QUESTION_STATES = {
    "approval": "to approve",
    "unknown": "unknown",
    "exhausted": "exhausted",
    "cannot_decode": "unreadable",
    "program_error": "program error",
    "no_definition": "no definition",
}
"""The state of a step that waits for an operator."""
TURNS = {
    "ordered": "in its queue",
    "unknown": "unknown; retried soon",
    "approval": "waits for a decision",
    "exhausted": "attempts used up",
    CANNOT_DECODE: "stored value unreadable",
    PROGRAM_ERROR: "error in its program",
    "no_definition": "no node has its definition",
}
"""What some attempts wait for, in a few words."""
SLOTS = ("concurrency", "fleet_concurrency", "rate_limit", "slot")
"""Reasons that are described by `WAITS_FOR`."""


class StepDisplay(NamedTuple):
    """How a step is shown: its state in words, a remark, its color and its icon. `left` is true if
    the step will not run.
    """

    state: str
    why: str
    left: bool
    tone: str
    icon: str


def urgency(display: StepDisplay) -> int:
    """Return the rank of a state: failures first, then questions to an operator, then active
    steps.
    """
    return {"failed": 0, "undo_failed": 0, "person": 1, "running": 2, "undoing": 2}.get(
        display.tone, 3 if display.tone != "waiting" else 4
    )


def displays_of(view: SagaView) -> list[StepDisplay]:
    """Return how each step of a saga is shown."""
    choices = (
        {choice.step: choice for choice in view.plan.choices}
        if view.plan and view.plan.cost is not None
        else {}
    )
    has_costs = view.plan is not None and view.plan.pivot is None
    chain = set(view.plan.blocking_steps) if view.plan and view.plan.cost is None else set()
    held = {waits_of_step.step: waits_of_step for waits_of_step in view.held}
    result = []
    for step in view.steps:
        wait, choice = held.get(step.name), choices.get(step.name)
        over = view.phase != "open"
        why = (
            waiting(wait)
            if wait
            else "why it is stuck"
            if step.name in chain
            else decided(choice, has_costs)
            if choice and not step.is_optional_failure
            else tried(step.attempts, step.state)
        )
        if step.early:
            why = EARLY[step.early]
        left = step.state == "waiting" and (over or bool(choice and not choice.kept))
        state = (
            "not run"
            if left
            else "to do"
            if step.state == "waiting"
            else wording.OPTIONAL_FAILURE
            if step.is_optional_failure
            else wording.STATES[state_of(view, step)]
        )
        tone = icon = step.state
        if wait and wait.asks:
            state, tone = QUESTION_STATES.get(wait.why, "waits"), "person"
        elif wait and wait.why == "worker":
            state, icon, why = (
                "waits for a worker",
                "waiting",
                why or (tried(step.attempts, "") if step.state == "running" else ""),
            )
        elif wait and wait.why not in ("external", "ordered"):
            state, icon = "paused" if wait.why == "paused" else "waits", "waiting"
        result.append(StepDisplay(state, why, left, tone, icon))
    return result


def waiting(held: Waits) -> str:
    """Describe in a few words what a suspended attempt waits for."""
    if held.why == "external":
        return f"at {held.detail}" if held.detail else "claimed by a worker"
    if held.why in ("worker", "paused"):
        return held.detail or ""
    if held.asks and held.why == "unknown":
        return "report its outcome"
    if held.why in ("backoff", "retry"):
        return f"retried at {wording.clock(held.until)[11:]}"
    if held.why in SLOTS:
        return f"for {WAITS_FOR[held.why]}"
    return TURNS.get(held.why) or f"until {wording.clock(held.until)}"


def decided(choice: Choice, has_costs: bool) -> str:
    """Describe what the plan decided about a step, and the cost of that if it was declared."""
    cost = choice.cost_to_keep if choice.kept else choice.cost_to_drop
    text = f", costs {cost:,}" if cost and has_costs else ""
    return f"plan: {wording.DECISIONS[choice.decision]}{text}"


def tried(attempts: int, state: str) -> str:
    """Describe the number of an attempt, if it is worth mentioning."""
    return f"attempt {attempts}" if attempts > 1 or state == "running" else ""


MAX_ITEMS = 12
"""How many items of an unfolded group have a box of their own. The others share one box."""


class Box(NamedTuple):
    """A box of a picture.

    Attributes:
        title: Its title.
        display: The state that it shows.
        steps: The numbers of its steps.
        href: The target of a click on it.
        alone: Whether it is never folded with equal boxes.
    """

    title: str
    display: StepDisplay
    steps: list[int]
    href: Optional[str] = None
    alone: bool = False


Link = Callable[[Group], Optional[str]]
"""Returns the target of a click on a group."""


def counted(displays: Sequence[StepDisplay]) -> StepDisplay:
    """Return the state of several steps: how many are in each state, the most urgent first."""
    counts = Counter(display.state for display in displays)
    first = {display.state: display for display in reversed(displays)}
    states = sorted(counts, key=lambda state: urgency(first[state]))
    state, *others = [f"{counts[state]:,} {state}" for state in states]
    display = first[states[0]]
    return StepDisplay(
        state,
        ", ".join(others),
        all(display.left for display in displays),
        display.tone,
        display.icon,
    )


def blocks_of(groups: Groups, count: int, unfold: Collection[str]) -> list[Block]:
    """Return the blocks of a picture: groups, or each step if all is unfolded."""
    if ALL in unfold:
        return [Block([step]) for step in range(count)]
    return groups.blocks(count, unfold)


def boxes_of(
    blocks: list[Block],
    names: Sequence[str],
    displays: Sequence[StepDisplay],
    link: Link | None = None,
) -> list[Box]:
    """Return the boxes of a picture.

    An unfolded group has a box for each of its most urgent items, and one box for the others.
    """
    boxes, items = list[Box](), dict[str, list[int]]()
    for block in blocks:
        group, (first, *_) = block.group, block.steps
        if group is not None:
            display = counted([displays[step] for step in group.steps])
            href = link(group) if link else None
            boxes.append(Box(group.title, display, block.steps, href, True))
        elif block.item_of is not None:
            items.setdefault(block.item_of, []).append(first)
            boxes.append(Box(names[first], displays[first], block.steps, None, True))
        else:
            boxes.append(Box(names[first], displays[first], block.steps))
    for name, steps in items.items():
        boxes = _few(boxes, name, steps, displays)
    return boxes


def _few(
    boxes: list[Box], name: str, items: list[int], displays: Sequence[StepDisplay]
) -> list[Box]:
    """Return the boxes with the less urgent items of a group joined into one box."""
    rest = sorted(items, key=lambda step: urgency(displays[step]))[MAX_ITEMS:]
    if len(rest) < 2:
        return boxes
    display = counted([displays[step] for step in sorted(rest)])
    kept = [box for box in boxes if box.steps[0] not in set(rest)]
    return [*kept, Box(f"{name}: {len(rest):,} more", display, sorted(rest), None, True)]


FEW = 6
"""From this number on, equal steps are drawn as one box."""


@dataclasses.dataclass(frozen=True, slots=True)
class Folded:
    """A box: the numbers of its steps in the order of the definition, and the indexes of the boxes
    that it needs.
    """

    steps: list[int]
    needs: list[int]


def folded(needs: Sequence[Sequence[int]], looks: Sequence[Hashable]) -> list[Folded]:
    """Return the boxes of steps.

    Steps are equal if they have the same needs, are needed by the same steps, and look the
    same.
    """
    needed_by: list[list[int]] = [[] for _ in needs]
    for step, needed in enumerate(needs):
        for need in needed:
            needed_by[need].append(step)
    groups: dict[Hashable, list[int]] = {}
    for step, needed in enumerate(needs):
        at = (frozenset(needed), frozenset(needed_by[step]), looks[step])
        groups.setdefault(at, []).append(step)
    boxes: dict[int, list[int]] = {}
    for steps in groups.values():
        if len(steps) >= FEW:
            boxes[steps[0]] = steps
        else:
            boxes |= {step: [step] for step in steps}
    in_order = [boxes[first] for first in sorted(boxes)]
    box_of = {step: number for number, steps in enumerate(in_order) for step in steps}
    return [
        Folded(steps, list(dict.fromkeys(box_of[need] for need in needs[steps[0]])))
        for steps in in_order
    ]


MARGIN = 6
ICONS = {
    "waiting": '<circle r="5"/>',
    "running": '<circle r="5"/><circle class="full" r="2.4"/>',
    "committed": '<path d="M-5 0.5 L-1.6 4 L5 -4"/>',
    "failed": '<path d="M-4 -4 L4 4 M4 -4 L-4 4"/>',
    "undoing": '<path d="M-4.5 -1 A4.8 4.8 0 1 1 -2.5 4 M-5 -5 L-4.6 -0.8 L-0.6 -1.6"/>',
    "undone": (
        '<path d="M4.5 4 L4.5 1 A2.6 2.6 0 0 0 2 -1.8 L-4.5 -1.8 M-1.4 -5 L-4.8 -1.8 L-1.4 1.4"/>'
    ),
    "undo_failed": (
        '<rect x="-4" y="-0.5" width="8" height="5.5" rx="1"/>'
        '<path d="M-2.4 -0.5 V-2.4 A2.4 2.4 0 0 1 2.4 -2.4 V-0.5"/>'
    ),
}
STYLE = """
svg{font:13px system-ui,-apple-system,"Segoe UI",Roboto,"Helvetica Neue",Arial,sans-serif;
color-scheme:light dark;
--card:#fff;--line:#7b8695;--text:#16202c;--soft:#55606e;--grey:#6b7685;--blue:#1f5fbf;
--green:#157347;--red:#b42318;--amber:#8a5300;--violet:#6541b0}
@media (prefers-color-scheme:dark){svg{--card:#1b222b;--line:#6f7a88;--text:#e8edf3;--soft:#a9b4c1;
--grey:#98a3b1;--blue:#7fb2ff;--green:#5fce94;--red:#ff8f84;--amber:#f0b95a;--violet:#b99cf5}}
.box{fill:var(--card);stroke:var(--tone);stroke-width:1.5}.bar{fill:var(--tone)}
.name{fill:var(--text);font-weight:600}.long{font-size:11.5px}
.state{fill:var(--tone);font-weight:600;font-size:12px}
.why{fill:var(--soft);font-size:11px}.need{fill:none;stroke:var(--line);stroke-width:1.5}
.icon{fill:none;stroke:var(--tone);stroke-width:2;stroke-linecap:round;stroke-linejoin:round}
.icon .full{fill:var(--tone);stroke:none}.left .box{stroke-dasharray:5 4}.arrow{fill:var(--line)}
.waiting{--tone:var(--grey)}.running,.undoing{--tone:var(--blue)}.committed{--tone:var(--green)}
.failed{--tone:var(--red)}.undone{--tone:var(--violet)}.undo_failed{--tone:var(--amber)}
.person{--tone:var(--amber)}
"""


def shorten(text: str, limit: int) -> str:
    """Return a text, cut off after `limit` characters."""
    return text if len(text) <= limit else text[: limit - 1] + "…"


def shorten_name(text: str, limit: int) -> str:
    """Return a name, shortened in its middle, because names often differ in their ends."""
    return (
        text
        if len(text) <= limit
        else f"{text[: limit // 2]}…{text[len(text) - (limit - limit // 2 - 1) :]}"
    )


def line(points: list[Point]) -> str:
    """Return the SVG path from a step to one that needs it. It is level where it enters and leaves
    a layer.
    """
    path = []
    for index, ((x, y), (to, below)) in enumerate(zip(points, points[1:])):
        start = x + WIDTH
        if index:
            path.append(f"H{start:.0f}")
        else:
            path.append(f"M{start:.0f} {y:.1f}")
        end = to - (8 if index == len(points) - 2 else 0)
        middle = (start + end) / 2 if to - start <= GAP_X + 1 else start + GAP_X / 2
        path.append(f"C{middle:.0f} {y:.1f} {middle:.0f} {below:.1f} {end:.0f} {below:.1f}")
    return " ".join(path)


def boxes(shown: list[Box], placed: Placed) -> list[str]:
    """Draw the steps.

    The keyboard skips the links of boxes, because the table next to the picture has the same
    links.
    """
    result = []
    for (step, display, _, href, _), (x, y) in zip(shown, placed.corners):
        spoken = escape(f"{step}: {display.state}{', ' + display.why if display.why else ''}")
        left, is_long = " left" if display.left else "", len(step) > 20
        name = escape(shorten_name(step, 22 if is_long else 20))
        before, after = (f'<a href="{escape(href)}" tabindex="-1">', "</a>") if href else ("", "")
        result.append(
            f'{before}<g class="step {display.tone}{left}" transform="translate({x:.0f} {y:.1f})">'
            f"<title>{spoken}</title>"
            f'<rect class="box" width="{WIDTH}" height="{HEIGHT}" rx="9"/>'
            f'<rect class="bar" x="0" y="12" width="4" height="{HEIGHT - 24}" rx="2"/>'
            f'<text class="name{" long" if is_long else ""}" x="15" y="24">{name}</text>'
            f'<g class="icon" transform="translate(21 41) scale(.95)">{ICONS[display.icon]}</g>'
            f'<text class="state" x="33" y="45">{escape(display.state)}</text>'
            f'<text class="why" x="15" y="62">{escape(shorten(display.why, 28))}</text></g>{after}'
        )
    return result


def titled(equal: list[Box]) -> Box:
    """Return one box for several equal ones, titled with their number and the first title."""
    first = equal[0]
    if len(equal) == 1:
        return first
    return first._replace(title=f"{len(equal)} × {first.title} …")


def spoken(view: SagaView, shown: list[Box]) -> str:
    """Describe the picture in words."""
    steps = "; ".join(
        f"{box.title} {box.display.state}{' (' + box.display.why + ')' if box.display.why else ''}"
        for box in shown
    )
    return f"{view.saga} {view.key}, {view.phase}: {steps}"


def svg(
    view: SagaView,
    style: str = "",
    *,
    displays: list[StepDisplay] | None = None,
    groups: Groups | None = None,
    unfold: Collection[str] = (),
    link: Link | None = None,
) -> str:
    """Return the picture of a saga.

    Args:
        view: The saga.
        style: A style sheet. Default: none, for a page whose style sheet has the same classes.
        displays: How the steps are shown, if this is known already.
        groups: The groups of steps, if these are known already.
        unfold: The groups whose parts are drawn.
        link: Returns the target of a click on a group.
    """
    displays = displays_of(view) if displays is None else displays
    groups = Groups.read(view.definition) if groups is None else groups
    steps = [(step.name, step.needs) for step in view.steps]
    shown = boxes_of(
        blocks_of(groups, len(steps), unfold), [step.name for step in view.steps], displays, link
    )
    return drawn(steps, shown, spoken(view, shown), style)


def ordered(needs: list[list[int]], displays: list[StepDisplay]) -> Placed:
    """Return the layout of boxes: urgent ones are above others if lines allow it."""
    order = sorted(range(len(needs)), key=lambda box: urgency(displays[box]))
    number = {box: count for count, box in enumerate(order)}
    layout = lay_out([[number[need] for need in needs[box]] for box in order])
    corners = [layout.corners[number[box]] for box in range(len(needs))]
    return dataclasses.replace(layout, corners=corners)


def plain_boxes(steps: list[tuple[str, list[str]]], displays: list[StepDisplay]) -> list[Box]:
    """Return a box for each step."""
    return [
        Box(name, display, [index])
        for index, ((name, _), display) in enumerate(zip(steps, displays))
    ]


def needs_of(steps: list[tuple[str, list[str]]], shown: list[Box]) -> list[list[int]]:
    """Return the indexes of the boxes that each box needs."""
    number = {name: index for index, (name, _) in enumerate(steps)}
    at = {step: index for index, box in enumerate(shown) for step in box.steps}
    result = []
    for index, box in enumerate(shown):
        needed = (at[number[need]] for step in box.steps for need in steps[step][1])
        result.append([other for other in dict.fromkeys(needed) if other != index])
    return result


def drawn(
    steps: list[tuple[str, list[str]]], shown: list[Box], description: str, style: str = ""
) -> str:
    """Draw boxes of steps and their needs. Equal boxes are folded, except those that stay alone."""
    looks = [object() if box.alone else box.display for box in shown]
    groups = folded(needs_of(steps, shown), looks)
    joined = [titled([shown[index] for index in group.steps]) for group in groups]
    placed = ordered([group.needs for group in groups], [box.display for box in joined])
    needs = [
        f'<path class="need" marker-end="url(#to)" d="{line(points)}"/>'
        for points in placed.lines.values()
    ]
    wide, high = placed.width + 2 * MARGIN, placed.height + 2 * MARGIN
    head = (
        f'<svg xmlns="http://www.w3.org/2000/svg" class="picture" role="img" width="{wide:.0f}" '
        f'height="{high:.0f}" viewBox="{-MARGIN} {-MARGIN} {wide:.0f} {high:.0f}"'
    )
    arrow = (
        '<defs><marker id="to" viewBox="0 0 8 8" refX="1" refY="4" markerWidth="7" '
        'markerHeight="7" orient="auto"><path class="arrow" d="M0 0 L8 4 L0 8 z"/></marker></defs>'
    )
    inside = f"<style>{style}</style>" if style else ""
    label = escape(shorten(description, 2000))
    parts = [inside, arrow, *needs, *boxes(joined, placed)]
    return f'{head} aria-label="{label}">{"".join(parts)}</svg>'


def document(view: SagaView, unfold: Collection[str] = ()) -> str:
    """Return the picture as a self-contained file."""
    return svg(view, STYLE, unfold=unfold)
