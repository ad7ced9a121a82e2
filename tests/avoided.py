"""Read the tables of docs/dev/style.md: the words and the names to avoid.

`docs/lint` reads pages by them, and `tests/wording.py` reads code.
"""

from __future__ import annotations

import re
from pathlib import Path
from typing import NamedTuple

STYLE = Path(__file__).resolve().parent.parent / "docs/dev/style.md"
ROW = re.compile(r"^\| (`[^|]*`) \| ([^|]+?) \| (yes|no) \|$", re.M)


class Avoided(NamedTuple):
    """A word to avoid, what to write instead, and its pattern."""

    word: str
    instead: str
    pattern: re.Pattern[str]


def rows(heading: str) -> list[tuple[str, str, bool]]:
    """Return the table below a heading: each word, what to write, and whether the mark is "yes"."""
    section = STYLE.read_text(encoding="utf-8").partition(f"\n## {heading}\n")[2]
    table = ROW.findall(section.partition("\n## ")[0])
    if not table:
        raise ValueError(f"{STYLE} has no table below '{heading}'")
    return [
        (word, instead.replace("`", ""), mark == "yes")
        for cell, instead, mark in table
        for word in re.findall(r"`([^`]+)`", cell)
    ]


def pattern_of(word: str) -> re.Pattern[str]:
    """Return the pattern of a wording; a `*` in it is any word, and blanks may be line ends."""
    parts = [r"\S+" if part == "*" else re.escape(part) for part in word.split()]
    end = r"(?![\w./-])" if word.endswith(".") else r"(?![\w/-])"
    return re.compile(r"(?<![\w./-])" + r"\s+".join(parts) + end, re.I)


def wordings(for_code: bool = False) -> list[Avoided]:
    """Return the words to avoid in prose, or those to avoid in code as well."""
    table = rows("Words to avoid")
    return [
        Avoided(word, instead, pattern_of(word))
        for word, instead, in_code in table
        if in_code or not for_code
    ]


def names() -> tuple[dict[str, str], dict[str, str]]:
    """Return the words that no name has as a part, and those that are no whole name."""
    table = rows("Names")
    return (
        {word: instead for word, instead, is_part in table if is_part},
        {word: instead for word, instead, is_part in table if not is_part},
    )
