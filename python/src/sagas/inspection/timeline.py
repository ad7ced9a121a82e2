"""What each attempt of a saga did, and for how long; and the picture of that as SVG."""

from __future__ import annotations

import dataclasses
import json
from collections.abc import Iterable, Mapping
from html import escape
from typing import Any, NamedTuple

from sagas.base.wording import number
from sagas.core.history import FAILURE_EVENTS, START_EVENTS, AttemptEnd, Stretch, was_called
from sagas.core.spans import (
    AGAIN_WORD,
    FLEET_CONCURRENCY_WORD,
    LEASED_WORD,
    PERSON_WORD,
    QUEUED_WORD,
    RATE_LIMIT_WORD,
    RUNNING_WORD,
)
from sagas.core.states import Suspension
from sagas.definition import definition_text
from sagas.inspection import wording
from sagas.inspection.picture import shorten_name
from sagas.inspection.views import Note, SagaView, Waits

Key = tuple[str, bool, int]
"""A step, whether the attempt is a compensation, and the attempt's number."""
STATES: dict[str, tuple[str, str | None]] = {
    QUEUED_WORD: ("queued", "slot"),
    "slot": ("queued", "slot"),
    "concurrency": ("queued", "concurrency"),
    FLEET_CONCURRENCY_WORD: ("queued", "fleet_limit"),
    RATE_LIMIT_WORD: ("queued", "rate_limit"),
    Suspension.STEP_LIMIT.value: ("queued", "concurrency"),
    Suspension.FLEET_LIMIT.value: ("queued", "fleet_limit"),
    Suspension.PAUSED.value: ("queued", "paused"),
    RUNNING_WORD: ("running", None),
    AGAIN_WORD: ("running", None),
    LEASED_WORD: ("running", "worker"),
    Suspension.EXTERNAL.value: ("waiting", "worker"),
    "worker": ("waiting", "worker"),
    "ordered": ("waiting", "worker"),
    Suspension.BACKOFF.value: ("backoff", None),
    Suspension.RETRY.value: ("backoff", None),
    Suspension.UNKNOWN.value: ("waiting", "unknown"),
    PERSON_WORD: ("waiting", "person"),
    Suspension.EXHAUSTED.value: ("waiting", "exhausted"),
    Suspension.CANNOT_DECODE.value: ("waiting", "cannot_decode"),
    Suspension.PROGRAM_ERROR.value: ("waiting", "program_error"),
    Suspension.NO_DEFINITION.value: ("waiting", "no_definition"),
    Suspension.TIMER.value: ("waiting", "wait"),
    Suspension.APPROVAL.value: ("waiting", "approval"),
    Suspension.CHILD.value: ("waiting", "child"),
}
"""State and reason of a span, by the recorded word (`core.spans`) or the reason that the node
reports.
"""
OUTCOMES = {
    "commit": "succeeded",
    "undone": "succeeded",
    "missed": "retried",
    "undo_missed": "retried",
    "fail": "failed",
    "undo_fail": "failed",
}
FIRST = {
    ("backoff", None),
    ("waiting", "wait"),
    ("waiting", "worker"),
    ("waiting", "child"),
    ("queued", "slot"),
    ("queued", "concurrency"),
    ("queued", "fleet_limit"),
    ("queued", "rate_limit"),
    ("queued", "paused"),
}
"""First spans that can begin an attempt. All other recorded spans follow a call."""
CALLED_AGAIN = "called again: the program that called it before has ended"
UNKNOWNS = (Suspension.UNKNOWN.value, PERSON_WORD)
DECIDED = ("complete", "fail", "retry")


@dataclasses.dataclass(frozen=True, slots=True)
class Span:
    """A part of an attempt. Spans follow one another without gaps.

    Attributes:
        state: `queued`, `running`, `waiting` or `backoff`.
        why: The reason: of a queued attempt `slot`, `concurrency`, `fleet_limit`, `rate_limit` or
            `paused`; of a waiting one `approval`, `wait`, `child`, `worker`, `unknown`, `person`,
            `exhausted`, `cannot_decode` or `program_error`; of a running one `worker` if a worker
            has it.
        began: Wall time, in seconds since 1970.
        ended: Wall time, or None if it has not ended.
        worker: The worker that had the attempt, if any.
        lease: The number of that worker's lease.
        detail: The error before this span.
    """

    state: str
    why: str | None
    began: float
    ended: float | None
    worker: str | None = None
    lease: int | None = None
    detail: str | None = None


@dataclasses.dataclass(frozen=True, slots=True)
class AttemptTimes:
    """The times of one attempt.

    Attributes:
        step: The step's name.
        undo: Whether it is an attempt of the compensation.
        attempt: Its number, from 1.
        ready: When the order of the steps first allowed it to begin.
        began: When it began.
        ended: When it ended, or None.
        outcome: `succeeded`, `failed` (no attempt follows), `retried` (one follows), `not_called`
            (it was given up before its function was called), or None.
        error: The error, if it failed.
        unknowns: How often its outcome was unknown.
        spans: Its parts, from `ready` on.
        decision: The operator's command that ended it, or that last retried it.
    """

    step: str
    undo: bool
    attempt: int
    ready: float
    began: float
    ended: float | None
    outcome: str | None
    error: str | None
    unknowns: int
    spans: list[Span]
    decision: Note | None

    def seconds(self, now: float) -> dict[str, float]:
        """Return the time that it spent in each state."""
        totals: dict[str, float] = {}
        for span in self.spans:
            duration = (now if span.ended is None else span.ended) - span.began
            totals[span.state] = totals.get(span.state, 0.0) + max(0.0, duration)
        return totals


def of(view: SagaView, now: float) -> list[AttemptTimes]:
    """Return the attempts of a saga, in the order in which they began."""
    ready, marks = _ready(view), _marks(view)
    ends = {(entry.step, entry.undo, entry.attempt): entry for entry in view.attempts}
    held = {(entry.step, entry.undo, entry.attempt): entry for entry in view.held}
    notes = [note for note in view.notes if note.what in DECIDED and note.answer is True]
    result = []
    for entry in view.stretches:
        at = entry.step, entry.undo, entry.attempt
        spans = marks.get(at, [])
        if entry.ended is None:
            spans = spans + _now(view, entry, spans, held.get(at), now)
        begin = min(ready.get(at, entry.began), entry.began)
        result.append(_times(entry, begin, spans, ends.get(at), notes, now))
    return result


def _times(
    stretch: Stretch,
    ready: float,
    marks: list[Span],
    end: AttemptEnd | None,
    notes: list[Note],
    now: float,
) -> AttemptTimes:
    """Return the times of an attempt from its recorded spans."""
    outcome, error = OUTCOMES.get(stretch.outcome or ""), None
    if end is not None and end.outcome in FAILURE_EVENTS:
        error = str((end.value or {}).get("error", ""))
        if not was_called(end.outcome, end.value):
            outcome = "not_called"
    last = now if stretch.ended is None else stretch.ended
    decisions_of_attempt = [
        note for note in notes if _is_of(note, stretch) and note.at <= last + 1.0
    ]
    return AttemptTimes(
        stretch.step,
        stretch.undo,
        stretch.attempt,
        ready,
        stretch.began,
        stretch.ended,
        outcome,
        error,
        sum(mark.why in ("unknown", "person") for mark in marks),
        _joined(ready, stretch, marks),
        decisions_of_attempt[-1] if decisions_of_attempt else None,
    )


def _is_of(note: Note, stretch: Stretch) -> bool:
    """Return whether a command concerns this attempt. A report may come before its step begins."""
    is_undo, is_early = (
        note.arguments.get("kind") == "undo",
        note.what != "retry" and stretch.attempt == 1,
    )
    is_same = (note.arguments.get("step"), is_undo) == (stretch.step, stretch.undo)
    return is_same and (note.at >= stretch.began or is_early)


def _joined(ready: float, stretch: Stretch, marks: list[Span]) -> list[Span]:
    """Return spans without gaps: each lasts until the next one, or to the end."""
    first = Span("running", None, stretch.began, None)
    is_first = bool(marks) and marks[0].detail is None  # else it was called, and that was raised
    if is_first and (marks[0].state, marks[0].why) in FIRST:
        first = dataclasses.replace(marks[0], began=stretch.began)
        marks = marks[1:]
    spans = [Span("queued", "slot", ready, stretch.began)] if ready < stretch.began else []
    spans.append(first)
    for mark in marks:
        began = max(mark.began, spans[-1].began)
        if stretch.ended is not None:
            began = min(began, stretch.ended)
        spans[-1] = dataclasses.replace(spans[-1], ended=began)
        spans.append(dataclasses.replace(mark, began=began))
    spans[-1] = dataclasses.replace(spans[-1], ended=stretch.ended)
    return [
        span for span in spans if span.ended is None or span.ended > span.began or span is spans[-1]
    ]


def _marks(view: SagaView) -> dict[Key, list[Span]]:
    """Return the recorded marks of each attempt, in the order of time. A mark has no end yet."""
    names, result = [step.name for step in view.steps], dict[Key, list[Span]]()
    for step, action, number, offered, since, worker, lease in view.noted.elsewhere:
        marks = result.setdefault((names[step], action == "undo", number), [])
        marks.append(_mark(Suspension.EXTERNAL.value, offered))
        if since is not None:
            marks.append(_mark(LEASED_WORD, since, None, worker, lease))
    for step, action, number, text in view.noted.spans:
        marks = result.setdefault((names[step], action == "undo", number), [])
        marks += [_mark(*mark) for mark in json.loads(text)]
    for marks in result.values():
        marks.sort(key=lambda mark: mark.began)
    return result


def _mark(
    word: str,
    at: float,
    raised: str | None = None,
    worker: str | None = None,
    lease: int | None = None,
) -> Span:
    state, why = STATES.get(word, ("waiting", word))
    detail = CALLED_AGAIN if word == AGAIN_WORD else raised
    return Span(state, why, at, None, worker, lease, detail)


def _now(
    view: SagaView, stretch: Stretch, marks: list[Span], held: Waits | None, now: float
) -> list[Span]:
    """Return the current span of an active attempt, if the store has no mark for it."""
    last = (marks[-1].state, marks[-1].why) if marks else ("running", None)
    if held is None:
        is_known = (stretch.step, stretch.undo) in view.running and last[0] != "running"
        return [_mark(RUNNING_WORD, now)] if is_known else []
    word = PERSON_WORD if held.why == "unknown" and held.until is None else held.why
    if word == "external":  # a worker has it
        word = LEASED_WORD
    if STATES.get(word, ("", word)) == last or last == ("running", "worker") == STATES.get(word):
        return []
    worker = held.detail if word == LEASED_WORD else None
    return [_mark(word, max(held.since, stretch.began), None, worker)]


def _ready(view: SagaView) -> dict[Key, float]:
    """Return when each attempt could begin.

    That is when its needs were committed, or what needed it was undone; when the plan was
    adopted; and when the previous attempt ended.
    """
    names = [step.name for step in view.steps]
    needs = {step.name: [*step.needs] for step in definition_text.listed_steps(view.definition)}
    above: dict[str, list[str]] = {}
    for name, needed in needs.items():
        for need in needed:
            above.setdefault(need, []).append(name)
    done: dict[tuple[str, bool], float] = {}
    counts: dict[tuple[str, bool], int] = {}
    ready, planned = dict[Key, float](), view.started
    for at, event in view.lines:
        word = event["event"]
        name = names[event["step"]] if "step" in event else ""
        if word == "adopt":
            planned = at
        elif word in START_EVENTS:
            undo = START_EVENTS[word]
            number = counts[name, undo] = counts.get((name, undo), 0) + 1
            before = _before(name, undo, above if undo else needs)
            ready[name, undo, number] = max(
                [planned, *(done.get(earlier, 0.0) for earlier in before)]
            )
        elif word in OUTCOMES:
            done[name, word.startswith("undo")] = at
    return ready


def _before(name: str, undo: bool, others: dict[str, list[str]]) -> Iterable[tuple[str, bool]]:
    """Return what must end before an attempt, including the previous attempt."""
    return [(name, undo), *((other, undo) for other in others.get(name, ()))]


def decisions(view: SagaView) -> list[dict[str, Any]]:
    """Return the operator commands in the order of time.

    `accepted` is None if a command has no answer yet.
    """
    return [
        {
            "command": note.what,
            "at": note.at,
            "step": note.arguments.get("step"),
            "undo": note.arguments.get("kind") == "undo",
            "by": note.arguments.get("by"),
            "note": note.arguments.get("note"),
            "accepted": None if note.answer is None else note.answer is True,
        }
        for note in view.notes
    ]


LONG, ROW, TOP = 900, 28, 24
MAX_NAME = 20
MAX_ROWS = 20
"""How many steps are drawn. Failed and active steps are preferred, then the longest."""
TICKS = (
    *(0.01, 0.02, 0.05, 0.1, 0.2, 0.5, 1, 2, 5, 10, 15, 30),
    *(60, 120, 300, 600, 900, 1800, 3600, 7200, 14400, 43200),
    *(86400, 172800, 604800, 2592000, 31536000),
)
TONES = {"retried": "missed", "not_called": "waiting", None: "running"}
VERBS = {"queued": "queued", "running": "ran", "waiting": "waited", "backoff": "backed off"}
HEIGHTS = {"running": 16, "waiting": 10, "queued": 4, "backoff": 2}
"""The height of the bar of each state."""
PERSON = ("approval", "exhausted", "person", "cannot_decode", "program_error", "no_definition")
"""The reasons for which an attempt waits for an operator."""


def ticks(long: float) -> list[float]:
    """Return round moments within a duration."""
    step = next((step for step in TICKS if long / step <= 6), TICKS[-1])
    return [count * step for count in range(int(long / step) + 1)]


def rows_of(attempts: list[AttemptTimes], now: float, titles: Mapping[str, str]) -> list[str]:
    """Return the steps and groups that are drawn, in the order in which they began."""
    weights: dict[str, tuple[bool, float]] = {}
    for attempt in attempts:
        name = titles.get(attempt.step, attempt.step)
        is_bad, long = weights.get(name, (False, 0.0))
        attempt_is_bad = attempt.outcome not in ("succeeded", "not_called")
        weights[name] = is_bad or attempt_is_bad, long + (attempt.ended or now) - attempt.ready
    kept = sorted(weights, key=lambda step: weights[step], reverse=True)[:MAX_ROWS]
    return [step for step in weights if step in set(kept)]


def drawn(
    attempts: list[AttemptTimes], started: float, now: float, titles: Mapping[str, str] = {}
) -> str:
    """Draw a row for each step, with a bar for each span of its attempts.

    `titles` maps the names of steps to groups. A group has one row, in which overlapping spans
    are merged.
    """
    rows = {step: row for row, step in enumerate(rows_of(attempts, now, titles))}
    shown = [attempt for attempt in attempts if titles.get(attempt.step, attempt.step) in rows]
    if not shown:
        return ""
    first = min(started, *(attempt.ready for attempt in shown))
    last = max(first + 0.001, *(attempt.ended or now for attempt in shown))
    left = 14 + 7.8 * min(MAX_NAME, max(len(step) for step in rows))
    scale, high = LONG / (last - first), TOP + ROW * len(rows) + 6
    marks = "".join(
        f'<line class="tick" x1="{left + at * scale:.1f}" x2="{left + at * scale:.1f}" '
        f'y1="{TOP - 4}" y2="{high - 4}"/>'
        f'<text class="at" x="{left + at * scale:.1f}" y="14">{wording.span(at)}</text>'
        for at in ticks(last - first)
    )
    names = "".join(
        f'<text class="row" x="0" y="{TOP + ROW * row + 18}">'
        f"{escape(shorten_name(name, MAX_NAME))}</text>"
        for name, row in rows.items()
    )
    at = Scale(first, now, left, scale)
    bars = "".join(
        bar(attempt, at, TOP + ROW * rows[attempt.step])
        for attempt in shown
        if attempt.step not in titles
    )
    for title, members in by_group(shown, titles).items():
        bars += group_bar(title, members, at, TOP + ROW * rows[title])
    label = (
        f"when the attempts of {len(rows)} steps were queued, ran, waited and backed off, over "
        f"{wording.span(last - first)}; the table of attempts has the same in words"
    )
    wide = round(left) + LONG + 30
    return (
        f'<svg class="timeline" role="img" aria-label="{label}" width="{wide}" height="{high}" '
        f'viewBox="0 0 {wide} {high}">{marks}{names}{bars}</svg>'
    )


class Scale(NamedTuple):
    """The horizontal scale. `left` is the position of the first moment."""

    first: float
    now: float
    left: float
    scale: float


def by_group(
    attempts: Iterable[AttemptTimes], titles: Mapping[str, str]
) -> dict[str, list[AttemptTimes]]:
    """Return the attempts of the groups that have a row."""
    groups: dict[str, list[AttemptTimes]] = {}
    for attempt in attempts:
        if attempt.step in titles:
            groups.setdefault(titles[attempt.step], []).append(attempt)
    return groups


def tone_of(attempt: AttemptTimes) -> str:
    """Return the color of an attempt."""
    tone = TONES.get(attempt.outcome, attempt.outcome or "")
    tone = {"succeeded": "undone" if attempt.undo else "committed"}.get(tone, tone)
    return "undo_failed" if tone == "failed" and attempt.undo else tone


def bar(attempt: AttemptTimes, at: Scale, top: float) -> str:
    """Draw an attempt, with a part for each of its spans."""
    parts = "".join(part(span, at, top) for span in attempt.spans)
    title = escape(describe(attempt, at.now))
    return f'<g class="run {tone_of(attempt)}"><title>{title}</title>{parts}</g>'


ORDER = ("waiting", "committed", "undone", "running", "missed", "undo_failed", "failed")
"""The colors of a group's bars. Later ones are drawn above earlier ones."""


def group_bar(title: str, attempts: list[AttemptTimes], at: Scale, top: float) -> str:
    """Draw the attempts of a group. Overlapping spans of one color and state are merged."""
    result = []
    for tone in ORDER:
        of_tone = [attempt for attempt in attempts if tone_of(attempt) == tone]
        spans_by_state: dict[tuple[str, bool], list[Span]] = {}
        for span in (span for attempt in of_tone for span in attempt.spans):
            spans_by_state.setdefault((span.state, span.why in PERSON), []).append(span)
        parts = "".join(
            part(span, at, top)
            for state in VERBS
            for is_person in (False, True)
            for span in merged(spans_by_state.get((state, is_person), []), at.now)
        )
        if parts:
            title_text = escape(f"{title}: {number(len(of_tone), 'attempt')}, {TONE_TEXTS[tone]}")
            result.append(f'<g class="run {tone}"><title>{title_text}</title>{parts}</g>')
    return "".join(result)


TONE_TEXTS = {
    "waiting": "not called",
    "committed": "succeeded",
    "undone": "undone",
    "running": "under way",
    "missed": "failed, and retried",
    "undo_failed": "whose compensation failed",
    "failed": "failed",
}


def merged(spans: list[Span], now: float) -> list[Span]:
    """Merge overlapping spans of one state."""
    result = list[Span]()
    for span in sorted(spans, key=lambda span_of_state: span_of_state.began):
        ended = now if span.ended is None else span.ended
        last = result[-1] if result else None
        if last is not None and last.ended is not None and span.began <= last.ended:
            result[-1] = dataclasses.replace(last, ended=max(last.ended, ended))
        else:
            result.append(dataclasses.replace(span, ended=ended))
    return result


def part(span: Span, at: Scale, top: float) -> str:
    """Draw a span. Its height shows how active the state is."""
    high = HEIGHTS[span.state]
    wide = ((span.ended or at.now) - span.began) * at.scale
    wide = max(wide, 3.0 if span.state == "running" else 0.0)
    css_class = " person" if span.why in PERSON else ""
    return (
        f'<rect class="in-{span.state}{css_class}" '
        f'x="{at.left + (span.began - at.first) * at.scale:.1f}" '
        f'y="{top + (ROW - high) / 2:.0f}" width="{wide:.1f}" height="{high}" '
        f'rx="{min(4, high / 2):.0f}"/>'
    )


def describe(attempt: AttemptTimes, now: float) -> str:
    """Describe an attempt in words."""
    action = "compensation" if attempt.undo else "action"
    outcome = wording.OUTCOMES.get(attempt.outcome or "", "under way")
    after = f" after {wording.span((attempt.ended or now) - attempt.began)}"
    seconds = attempt.seconds(now)
    spans = [
        f"{verb} {wording.span(seconds[state])}"
        for state, verb in VERBS.items()
        if seconds.get(state)
    ]
    more = f"; {', '.join(spans)}" if spans else ""
    return f"{attempt.step}, {action}, attempt {attempt.attempt}: {outcome}{after}{more}"
