"""Rows of the dashboard's tables: of steps, attempts and events.

Of many rows, some are shown and the others are folded. Groups of steps are one row until they are
unfolded.
"""

from __future__ import annotations

import dataclasses
from collections import Counter
from collections.abc import Callable, Iterable, Mapping, Sequence
from typing import Any, Union
from urllib.parse import urlencode

from sagas.core.results import HistoryEvent
from sagas.definition.drawing import ALL, Block, Group, Groups
from sagas.engine.plan import Choice
from sagas.inspection import wording
from sagas.inspection.calls import CALL
from sagas.inspection.picture import StepDisplay, counted, urgency
from sagas.inspection.timeline import AttemptTimes, Span
from sagas.inspection.views import Note, StepView
from sagas.server.shapes import Field, Text

FEW = 15
"""How many rows are shown at once."""


@dataclasses.dataclass(frozen=True, slots=True)
class Rows:
    """Rows that are shown, and `more` rows that are folded."""

    shown: list[Any]
    more: list[Any]


def folded(rows: Sequence[Any], urgency: Callable[[Any], tuple[int, ...]]) -> Rows:
    """Return all rows in order; of many, the most urgent ones, with the others folded."""
    if len(rows) <= 1.5 * FEW:
        return Rows([*rows], [])
    order = sorted(range(len(rows)), key=lambda index: urgency(rows[index]))
    return Rows(
        [rows[index] for index in order[:FEW]], [rows[index] for index in sorted(order[FEW:])]
    )


# -- groups of steps


UNFOLD = Field(
    Text(max_length=8192),
    "comma-separated declared names of the groups whose parts are drawn; *: all groups",
    default=None,
)
ANCHOR = "steps"
"""The part of a page that a link leads to."""


def names_in(text: str | None) -> frozenset[str]:
    """Return the comma-separated names in a text."""
    return frozenset(part for part in (text or "").split(",") if part)


class Unfolding:
    """The unfolded groups of a page.

    Attributes:
        groups: All groups.
        names: The names of the unfolded groups.
    """

    def __init__(self, groups: Groups, requested: str | None, base: str) -> None:
        self.groups, self._base = groups, base
        names = names_in(requested)
        self.names = frozenset(groups.by_name) if ALL in names else groups.known(names)

    def link(self, group: Group) -> str:
        """Return the page with a group unfolded, or with it and its parts folded."""
        if group.name in self.names:
            inner = f"{group.name}/"
            return self._address(
                name for name in self.names if name != group.name and not name.startswith(inner)
            )
        return self._address({*self.names, group.name})

    @property
    def all(self) -> str | None:
        """Return the page with all groups unfolded, or None if there is nothing to unfold."""
        if self.names == frozenset(self.groups.by_name):
            return None
        return f"{self._base}?{urlencode({'unfold': ALL}, safe=ALL)}#{ANCHOR}"

    @property
    def none(self) -> str | None:
        """Return the page with all groups folded, or None if they are."""
        return f"{self._base}#{ANCHOR}" if self.names else None

    def _address(self, names: Iterable[str]) -> str:
        joined = ",".join(sorted(names))
        query = f"?{urlencode({'unfold': joined}, safe=',/')}" if joined else ""
        return f"{self._base}{query}#{ANCHOR}"


# -- steps


@dataclasses.dataclass(frozen=True, slots=True)
class StepRow:
    """A row of a step or of a group.

    Attributes:
        title: The step's name; for a group, its name and size.
        display: The state that is shown.
        needs: The names of the steps and groups that it needs.
        attempts: How often the action was started.
        step: The step. None for a group.
        item: A description of its item.
        href: The target of a click on a group.
        is_open: Whether the group is unfolded.
        note: The first error of a group.
        decision: What the plan decided about a group.
        depth: How many unfolded groups enclose it.
    """

    title: str
    display: StepDisplay
    needs: list[str]
    attempts: int
    step: StepView | None = None
    item: str | None = None
    href: str | None = None
    is_open: bool = False
    note: str = ""
    decision: str = ""
    depth: int = 0


@dataclasses.dataclass(slots=True)
class Node:
    """An unfolded group with its parts."""

    group: Group
    parts: list[Part] = dataclasses.field(default_factory=list)


Part = Union[Block, Node]


class StepTable:
    """The rows of a saga's steps.

    Attributes:
        blocks: The steps that are shown as one.
    """

    def __init__(
        self,
        unfolding: Unfolding,
        steps: Sequence[StepView],
        displays: Sequence[StepDisplay],
        choices: Mapping[str, Choice],
        items: Mapping[str, str],
        has_costs: bool = True,
    ) -> None:
        """Make the table. `has_costs`: the costs of the plan were declared."""
        self._unfolding, self._steps, self._displays = unfolding, steps, displays
        self._choices, self._items, self._has_costs = choices, items, has_costs
        self.blocks = unfolding.groups.blocks(len(steps), unfolding.names)
        self._name_of = {
            steps[step].name: block.group.name if block.group else steps[step].name
            for block in self.blocks
            for step in block.steps
        }

    def titles(self) -> dict[str, str]:
        """Return the titles of folded groups, by the names of their steps."""
        return {
            self._steps[step].name: block.group.title
            for block in self.blocks
            if block.group
            for step in block.steps
        }

    def rows(self) -> Rows:
        """Return the rows. If there are many, the urgent ones come first and the others are
        folded.
        """
        top = self._tree()
        few = folded(top, lambda part: (self._urgency(part),))
        shown, more = list[StepRow](), list[StepRow]()
        for part in few.shown:
            self._add(part, 0, shown, more)
        for part in few.more:
            self._add(part, 0, more, more)
        return Rows(shown, more)

    def _tree(self) -> list[Part]:
        top, nodes = list[Part](), dict[str, Node]()
        for block in self.blocks:
            parts, enclosing = top, self._unfolding.groups.of(block.steps[0])
            for group in enclosing[: enclosing.index(block.group)] if block.group else enclosing:
                if group.name not in nodes:
                    nodes[group.name] = Node(group)
                    parts.append(nodes[group.name])
                parts = nodes[group.name].parts
            parts.append(block)
        return top

    def _urgency(self, part: Part) -> int:
        """Return the rank of a part. An unfolded group always stays visible."""
        if isinstance(part, Node):
            return 0
        return min(urgency(self._displays[step]) for step in part.steps)

    def _add(self, part: Part, depth: int, shown: list[StepRow], more: list[StepRow]) -> None:
        """Add the rows of a part. Items after the first ones are folded."""
        if isinstance(part, Block):
            group = part.group
            shown.append(self._group(group, depth) if group else self._step(part.steps[0], depth))
            return
        shown.append(self._group(part.group, depth))
        items = [item for item in part.parts if isinstance(item, Block) and item.item_of]
        for index, item in enumerate(sorted(items, key=self._urgency)):
            self._add(item, depth + 1, shown if index < FEW else more, more)
        for other in part.parts:
            if not (isinstance(other, Block) and other.item_of):
                self._add(other, depth + 1, shown, more)

    def _needs(self, steps: Sequence[int]) -> list[str]:
        own_names = {self._name_of[self._steps[step].name] for step in steps}
        needed = (self._name_of[need] for step in steps for need in self._steps[step].needs)
        return [name for name in dict.fromkeys(needed) if len(steps) == 1 or name not in own_names]

    def _step(self, number: int, depth: int) -> StepRow:
        step = self._steps[number]
        return StepRow(
            step.name,
            self._displays[number],
            self._needs([number]),
            step.attempts,
            step,
            self._items.get(step.name),
            depth=depth,
        )

    def _group(self, group: Group, depth: int) -> StepRow:
        steps = [self._steps[step] for step in group.steps]
        return StepRow(
            group.title,
            counted([self._displays[step] for step in group.steps]),
            self._needs(group.steps),
            sum(step.attempts for step in steps),
            href=self._unfolding.link(group),
            is_open=group.name in self._unfolding.names,
            note=error_summary(steps),
            decision=self._decisions(steps),
            depth=depth,
        )

    def _decisions(self, steps: list[StepView]) -> str:
        """Describe what the plan decided about a group's steps, and the cost."""
        choices = [self._choices[step.name] for step in steps if step.name in self._choices]
        counts = Counter(wording.DECISIONS[choice.decision] for choice in choices)
        cost = sum(
            (choice.cost_to_keep if choice.kept else choice.cost_to_drop) or 0 for choice in choices
        )
        text = ", ".join(f"{decision} {count:,}" for decision, count in counts.items())
        return f"{text}: costs {cost:,}" if cost and self._has_costs else text


def error_summary(steps: Sequence[StepView]) -> str:
    """Return the first error of a group's steps, and how many more there are."""
    listed = [f"{step.name}: {step.raised or step.detail}" for step in steps if _is_bad(step)]
    if not listed:
        return ""
    more = f" and {len(listed) - 1:,} more" if len(listed) > 1 else ""
    return wording.short(listed[0]) + more


def _is_bad(step: StepView) -> bool:
    return step.state in ("failed", "undo_failed")


# -- attempts and events


Titles = Mapping[str, str]
"""The titles of folded groups, by the names of their steps."""
OUTCOMES = ("failed", "retried", None, "not_called", "succeeded")
"""How attempts ended, in the order in which they are shown."""


@dataclasses.dataclass(frozen=True, slots=True)
class AttemptRow:
    """An attempt, or those of a group.

    Attributes:
        title: The step's name, or the group's title.
        undo: Whether it is an attempt of the compensation.
        number: The number of the attempt, from 1. None for a group.
        outcome: How it ended, in words.
        seconds: The time that it spent in each state; for a group the longest.
        workers: The spans at workers.
        error: The error.
        decision: The operator's command.
        urgency: Its rank in the table.
    """

    title: str
    undo: bool
    number: int | None
    outcome: str
    seconds: dict[str, float]
    workers: list[Span]
    error: str
    decision: Note | None
    urgency: int


def attempt_rows(attempts: Iterable[AttemptTimes], titles: Titles, now: float) -> list[AttemptRow]:
    """Return a row for each attempt.

    A folded group has one row for actions and one for compensations, at the position of the
    first attempt.
    """
    result, groups = dict[Any, AttemptRow | None](), dict[Any, list[AttemptTimes]]()
    for attempt in attempts:
        title = titles.get(attempt.step)
        if title is None:
            result[attempt.step, attempt.undo, attempt.attempt] = _attempt_row(attempt, now)
        else:
            result.setdefault((title, attempt.undo), None)
            groups.setdefault((title, attempt.undo), []).append(attempt)
    return [row or _group_row(at[0], at[1], groups[at], now) for at, row in result.items()]


SHORT = {"failed": "failed", "retried": "retried", "not_called": "not called"}
"""How some attempts ended, after their number."""


def _outcome_text(attempt: AttemptTimes) -> str:
    last = attempt.spans[-1] if attempt.spans else None
    if attempt.outcome:
        return wording.OUTCOMES[attempt.outcome]
    return wording.wait(last.why, last.state) if last else ""


def _short_outcome(attempt: AttemptTimes) -> str:
    return SHORT.get(attempt.outcome or "") or _outcome_text(attempt)


def _attempt_row(attempt: AttemptTimes, now: float) -> AttemptRow:
    outcome = _outcome_text(attempt) + (
        f", {attempt.unknowns} × unknown" if attempt.unknowns else ""
    )
    workers = [span for span in attempt.spans if span.worker]
    return AttemptRow(
        attempt.step,
        attempt.undo,
        attempt.attempt,
        outcome,
        attempt.seconds(now),
        workers,
        attempt.error or "",
        attempt.decision,
        OUTCOMES.index(attempt.outcome),
    )


def _group_row(title: str, undo: bool, attempts: list[AttemptTimes], now: float) -> AttemptRow:
    order = sorted(attempts, key=lambda attempt: OUTCOMES.index(attempt.outcome))
    counts = Counter(map(_short_outcome, order))
    longest: dict[str, float] = {}
    for attempt in attempts:
        for state, seconds in attempt.seconds(now).items():
            longest[state] = max(longest.get(state, 0.0), seconds)
    failed = [attempt for attempt in order if attempt.error]
    more = f" and {len(failed) - 1:,} more" if len(failed) > 1 else ""
    error = f"{failed[0].step}: {wording.short(failed[0].error, 120)}{more}" if failed else ""
    outcome = ", ".join(f"{count:,} {label}" for label, count in counts.items())
    urgency = OUTCOMES.index(order[0].outcome)
    return AttemptRow(title, undo, None, outcome, longest, [], error, None, urgency)


@dataclasses.dataclass(frozen=True, slots=True)
class EventRow:
    """An event, or equal events of a group.

    Attributes:
        event: The event's name, as in `HistoryEvent`, or `optional_failure`.
        at: When it happened; for several events, the first time.
        until: For several events, the last time.
        step: The step's name, or the group's title.
        value: As in `HistoryEvent`; for a group, the first error.
        count: How many events the row represents.
    """

    event: str
    at: float
    until: float
    step: str | None
    value: Any
    count: int = 1


def event_rows(events: Sequence[HistoryEvent], titles: Titles) -> list[EventRow]:
    """Return a row for each event.

    Consecutive equal events of a folded group share one row, at the position of the first.
    """
    result, joined = list[EventRow](), dict[tuple[str, str], int]()
    for event in events:
        title, name = titles.get(event.step) if event.step else None, _name_of(event)
        if title is None or event.event == "note":
            joined = {}
            result.append(EventRow(name, event.at, event.at, event.step, _value_of(event)))
        elif (title, name) not in joined:
            joined[title, name] = len(result)
            result.append(EventRow(name, event.at, event.at, title, _first_error(event)))
        else:
            at = joined[title, name]
            row = result[at]
            until, count = max(row.until, event.at), row.count + 1
            result[at] = dataclasses.replace(row, until=until, count=count)
    return result


def _value_of(event: HistoryEvent) -> Any:
    return wording.call_text(event.value) if event.event == CALL else event.value


def _name_of(event: HistoryEvent) -> str:
    """Return the name of an event, or `optional_failure`."""
    is_optional = event.event == "fail" and (event.value or {}).get("optional") is True
    return "optional_failure" if is_optional else event.event


def _first_error(event: HistoryEvent) -> Any:
    """Return the value of several events: the first error, with its step."""
    is_error = isinstance(event.value, dict) and "error" in event.value
    return f"{event.step}: {wording.short(event.value)}" if is_error else ""
