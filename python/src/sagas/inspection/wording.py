"""Phases, states, times and values in words."""

from __future__ import annotations

import datetime
import json
import re
from collections.abc import Iterable, Iterator, Mapping
from typing import Any

from sagas.definition.payloads import unescaped

STATES = {
    "waiting": "waiting",
    "begun": "begun",
    "running": "running",
    "committed": "done",
    "failed": "failed",
    "undoing": "being undone",
    "undone": "undone",
    "undo_failed": "undo failed",
}
OPTIONAL_FAILURE = "failed, optional"
"""The state of a failed step without which the saga continued."""
PHASES = {
    "open": "Open",
    "completed": "Completed",
    "recovered": "Recovered",
    "undo_failed": "Undo failed",
    "stuck": "Stuck",
    "resolved": "Resolved",
}
EVENTS = {
    "open": "started",
    "start_run": "begins",
    "call": "is called again",
    "commit": "is done",
    "missed": "failed, will be retried",
    "fail": "failed permanently",
    "optional_failure": "failed, and is optional",
    "start_undo": "is being undone",
    "undone": "is undone",
    "undo_missed": "compensation failed, will be retried",
    "undo_fail": "compensation failed permanently",
    "start_plan": "planning begins",
    "drop_plan": "plan dropped",
    "adopt": "plan adopted",
    "abort": "aborted",
}
TONES = {
    "commit": "good",
    "fail": "ill",
    "optional_failure": "warn",
    "undo_fail": "ill",
    "missed": "warn",
    "undo_missed": "warn",
    "undone": "undo",
    "abort": "warn",
    "adopt": "plan",
}
OUTCOMES = {
    "succeeded": "succeeded",
    "failed": "failed",
    "retried": "failed, will be retried",
    "not_called": "was not called",
}
"""How an attempt ended, by `AttemptTimes.outcome`."""
WAITS = {
    "approval": "waits for a decision",
    "worker": "waits for a worker",
    "exhausted": "exhausted: an operator decides",
    "person": "unknown: an operator reports it",
    "unknown": "unknown: will be called again",
    "cannot_decode": "unreadable",
    "program_error": "error in its program: an operator decides",
    "no_definition": "waits for a node that has its definition",
    "wait": "waits for its timer",
}
"""What an attempt waits for, by `Span.why`."""
WAITED_FOR = {
    "approval": "a decision",
    "worker": "a worker",
    "external": "a worker's report",
    "exhausted": "an operator: exhausted",
    "person": "an operator: unknown",
    "unknown": "another call",
    "retry": "another call",
    "cannot_decode": "a program that can read it",
    "program_error": "an operator: program error",
    "no_definition": "a node with its definition",
    "wait": "its timer",
    "child": "a child",
}
"""What a saga waits for, by `PageWait.why`."""
DECISIONS = {"stands": "keep", "is run": "run", "is undone": "undo", "is left out": "skip"}
"""What a plan does with a step, by `Choice.decision`, in the words of definitions and of the
planner page.
"""
ACTS = {
    "abort": "aborted the saga",
    "complete": "reported that a step succeeded",
    "fail": "reported that a step failed",
    "retry": "retried a step",
    "compensate": "compensated a step",
    "restart": "restarted the saga",
    "resolve": "resolved it",
    "erase": "erased its data",
}


def wait(why: str | None, state: str) -> str:
    """Describe what an active attempt does now, by its last span."""
    if state == "waiting" and why in WAITS:
        return WAITS[why]
    if why == "paused":
        return "is paused"
    return {"backoff": "backs off", "running": "runs", "queued": "is queued"}.get(state, "waits")


def clock(at: float | None) -> str:
    """Return a wall time in UTC, as the command line prints it."""
    return "" if at is None else moment(at).strftime("%Y-%m-%d %H:%M:%SZ")


def iso(at: float | None) -> str:
    """Return a wall time as RFC 3339 text."""
    return (
        ""
        if at is None
        else moment(at).strftime("%Y-%m-%dT%H:%M:%S.") + f"{int(at * 1000) % 1000:03}Z"
    )


def moment(at: float) -> datetime.datetime:
    return datetime.datetime.fromtimestamp(min(max(at, 0.0), 253e9), datetime.timezone.utc)


def span(seconds: float) -> str:
    """Return a duration in words."""
    seconds = max(0.0, seconds)
    if seconds < 1:
        return f"{seconds * 1000:.0f} ms"
    if seconds < 60:
        return f"{seconds:.1f} s".replace(".0 s", " s")
    parts = [(86400, "d"), (3600, "h"), (60, "min"), (1, "s")]
    for index, (length, unit) in enumerate(parts[:-1]):
        if seconds >= length:
            count, rest = divmod(seconds, length)
            smaller, name = parts[index + 1]
            more = int(rest // smaller)
            return f"{count:.0f} {unit}" + (f" {more} {name}" if more else "")
    return f"{seconds:.0f} s"


def ago(seconds: float) -> str:
    """Return a relative time in one unit: "5 min ago" or "in 2 h"."""
    long, form = (seconds, "{} {} ago") if seconds > -1 else (-seconds, "in {} {}")
    for length, unit in ((86400, "d"), (3600, "h"), (60, "min")):
        if long >= length:
            return form.format(int(long // length), unit)
    return form.format(int(max(0.0, long)), "s")


LARGE = 10_000
"""A value of this many characters is not parsed at once: 1 MiB takes about 20 ms."""
TOKENS = re.compile(r'("(?:[^"\\]|\\u[0-9a-f]{4}|\\[^u])*)("?)|[,:]')
"""The parts of compact JSON that look different when shown: strings, which may be cut off, and
separators.
"""
LONGEST = len("\\ud83d\\ude00")
"""The maximum number of characters that encode one character."""


class StoredValue:
    """A result or an input that is parsed only on demand.

    Attributes:
        text: Its JSON.
    """

    __slots__ = ("text",)

    def __init__(self, text: str) -> None:
        self.text = text

    def __str__(self) -> str:
        return self.text

    def read(self) -> Any:
        """Return the parsed value."""
        return json.loads(self.text)

    def beginning(self, limit: int) -> str:
        """Return at least the first `limit` characters.

        A string is returned unquoted. Other values are returned as JSON with blanks between
        values.
        """
        if self.text.startswith('"'):
            return str(self.read())
        return TOKENS.sub(_shown, self.text[: limit * LONGEST])


def _shown(token: re.Match[str]) -> str:
    if token[1] is None:
        return f"{token[0]} "
    text = json.dumps(json.loads(f'{token[1]}"'), ensure_ascii=False)
    return text if token[2] else text[:-1]


def stored(text: str) -> Any:
    """Return a parsed value, or a `StoredValue` if it is large. Unescapes encoded values."""
    text = unescaped(text)
    return json.loads(text) if len(text) < LARGE else StoredValue(text)


def whole(value: Any) -> Any:
    """Return a serializable form of a value, for the JSON encoder. Raises `TypeError` if there is
    none.
    """
    if isinstance(value, StoredValue):
        return value.read()
    raise TypeError(f"{type(value).__name__} is not JSON")


LINES = json.JSONEncoder(indent=2, ensure_ascii=False, default=whole)
LINE = json.JSONEncoder(ensure_ascii=False, default=whole)
PIECE = 1000
"""How many characters of a long text are processed at once."""


def pretty(value: Any, limit: int = 20_000) -> str:
    """Return a value as indented JSON. Only the shown part of a large value is serialized."""
    chunks, count = list[str](), 0
    for chunk in LINES.iterencode(value):
        chunks.append(chunk)
        count += len(chunk)
        if count > limit:
            return "".join(chunks)[:limit] + "\n… (shortened; see the saga's log)"
    return "".join(chunks)


def one_line(value: Any) -> str:
    """Return a value on one line: a string unquoted, other values as JSON."""
    if value is None:
        return ""
    text = value if isinstance(value, str) else json.dumps(value, ensure_ascii=False)
    return " ".join(text.split())


def short(value: Any, limit: int = 90) -> str:
    """Return the beginning of `one_line`. Only the shown part of a large value is serialized."""
    if isinstance(value, StoredValue):
        return _beginning([value.beginning(limit)], limit)[: limit - 1] + "…"
    if isinstance(value, dict) and isinstance(value.get("error"), str):
        value = value["error"]
    if value is None:
        return ""
    text = _beginning([value] if isinstance(value, str) else LINE.iterencode(value), limit)
    return text if len(text) <= limit else text[: limit - 1] + "…"


def _beginning(chunks: Iterable[str], limit: int) -> str:
    """Return a text on one line. A longer text is cut off after more than `limit` characters."""
    pieces, count = list[str](), 0
    for piece in _pieces(chunks):
        pieces.append(piece)
        count += sum(map(len, piece.split()))
        if count > limit:
            break
    return " ".join("".join(pieces).split())


def _pieces(chunks: Iterable[str]) -> Iterator[str]:
    for chunk in chunks:
        for at in range(0, len(chunk), PIECE):
            yield chunk[at : at + PIECE]


def call_text(value: Mapping[str, Any]) -> str:
    """Return a repeated call of an attempt on one line."""
    outcome = {"retried": "failed", None: "under way"}.get(value["outcome"], value["outcome"])
    by = value["worker"] or value["node"]
    parts = [f"call {value['number']}: {outcome}", value["error"], by and f"on {by}"]
    return ", ".join(part for part in parts if part)
