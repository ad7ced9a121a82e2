"""Tables, JSON, times, errors and progress that the commands print."""

from __future__ import annotations

import contextlib
import io
import json
import os
import re
import sys
from collections.abc import Sequence
from typing import Any

from sagas.base.wording import escaped
from sagas.inspection.wording import clock, one_line

GOOD, NO, CANNOT, INTERRUPTED = 0, 1, 4, 130
"""Exit statuses. Status 2 means invalid arguments."""
UNPRINTED = re.compile(r"[\x7f-\x9f\u2028\u2029\u202a-\u202e\u2066-\u2069]")
"""Characters that JSON does not escape and that terminals interpret: controls, and changes of
direction.
"""


def moment(at: float | None) -> str:
    """Return a time in UTC, as the dashboard and the service's log print it."""
    return clock(at)


def short(value: Any, limit: int = 60) -> str:
    """Return a value on one line, safe for a terminal. It is shortened only on a terminal."""
    text = escaped(one_line(value))
    is_whole = len(text) <= limit or not sys.stdout.isatty()
    return text if is_whole else text[: limit - 3] + "..."


def table(heads: Sequence[str], rows: Sequence[Sequence[object]]) -> str:
    """Return aligned columns, with one line for each row. Numbers are right-aligned."""
    cells = [[escaped(str(cell)) for cell in row] for row in rows]
    widths = [max(len(row[at]) for row in [list(heads), *cells]) for at in range(len(heads))]
    numeric = [
        bool(rows) and all(isinstance(row[at], int) for row in rows) for at in range(len(heads))
    ]

    def line(row: Sequence[str]) -> str:
        parts = [
            cell.rjust(width) if right else cell.ljust(width)
            for cell, width, right in zip(row[:-1], widths, numeric)
        ]
        last = row[-1].rjust(widths[-1]) if numeric[-1] else row[-1]  # it may be long
        return "  ".join([*parts, last]).rstrip()

    return "\n".join([line(heads), *map(line, cells)])


def show_json(value: object) -> None:
    """Print a value as JSON. Unprintable characters, and those the output cannot encode, are
    escaped.
    """
    text = json.dumps(value, indent=1, ensure_ascii=False)
    try:
        text.encode(sys.stdout.encoding or "utf-8")
    except UnicodeEncodeError:
        text = json.dumps(value, indent=1)
    print(UNPRINTED.sub(lambda match: f"\\u{ord(match[0]):04x}", text))


def lines(text: str) -> str:
    """Return lines that are safe for a terminal."""
    return "\n".join(map(escaped, text.split("\n")))


def complain(text: str) -> None:
    """Print an error on one line of standard error."""
    line = " ".join(filter(None, map(str.strip, text.split("\n"))))
    print(f"sagas store: {escaped(line)}", file=sys.stderr)


def escape() -> None:
    """From now on, escape characters that standard output and error cannot encode.

    For example, a saga's texts may hold lone surrogates. If a stream is closed, its output is
    dropped.
    """
    for name in ("stdout", "stderr"):
        if getattr(sys, name) is None:
            setattr(sys, name, open(os.devnull, "w", encoding="utf-8"))
    for stream in (sys.stdout, sys.stderr):
        if isinstance(stream, io.TextIOWrapper):
            stream.reconfigure(errors="backslashreplace")


def drop_output() -> None:
    """Drop output that cannot be written. Otherwise, Python would write it again at exit."""
    with contextlib.suppress(OSError), open(os.devnull, "wb") as nowhere:
        os.dup2(nowhere.fileno(), sys.stdout.fileno())


class Progress:
    """A progress line on standard error, if that is a terminal."""

    def __init__(self, title: str, total: int) -> None:
        self.title, self.total, self.shown = title, total, sys.stderr.isatty()

    def at(self, done: int) -> None:
        """Print how many units are done."""
        if self.shown:
            print(
                f"\r{self.title}: {done} of {self.total}",
                end="\n" if done == self.total else "",
                file=sys.stderr,
                flush=True,
            )
