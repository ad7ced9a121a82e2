"""Values in words: of a large one only the beginning is written, the same as in the whole text."""

from __future__ import annotations

import json
from collections.abc import Iterator
from typing import Any

import pytest

from sagas.definition import serialization
from sagas.inspection import wording
from sagas.inspection.wording import StoredValue, stored

SIZES = (2, 10, 90, 300, 20_000)
VALUES: list[Any] = [
    None,
    True,
    -1.5,
    10**20,
    "",
    "two  words\n\tand \u2003 more",
    "é😀" * 200,
    " " * 5000 + "end",
    "x" * 30_000,
    [],
    {},
    [[], {}, [{}], ""],
    {"error": "it  is\nfull", "more": 1},
    {"error": 7},
    {"a b": [1, 2.5, None, "c, d: e"], "é": {"in": {"deep": ["\\", '"', "\u2028", "\ud83d"]}}},
    {
        f"key {number}": {"place": number, "text": f'n° {number}, \\ "{number}"'}
        for number in range(3000)
    },
    [0] * 30_000,
    ["😀 "] * 9000,
    {"one": "y" * 25_000, "two": " " * 25_000, "three": [1]},
]


def whole(value: Any, width: int) -> str:
    """Return the output of `pretty`, by the whole text."""
    text = json.dumps(value, indent=2, ensure_ascii=False)
    return text if len(text) <= width else text[:width] + "\n… (shortened; see the saga's log)"


def line(value: Any, width: int) -> str:
    """Return the output of `short`, by the whole text."""
    if isinstance(value, dict) and isinstance(value.get("error"), str):
        value = value["error"]
    text = wording.one_line(value)
    return text if len(text) <= width else text[: width - 1] + "…"


@pytest.mark.parametrize("value", VALUES, ids=range(len(VALUES)))
def test_a_value_is_cut_where_its_text_is(value: Any) -> None:
    """On several lines and on one; also of a large one that was not read before."""
    text = serialization.write(value)
    kept = stored(text)
    assert isinstance(kept, StoredValue) == (len(text) >= 10_000)
    for width in SIZES:
        assert wording.pretty(value, width) == whole(value, width)
        assert wording.short(value, width) == line(value, width)
        ordered = json.loads(text)
        assert wording.pretty({"step": kept}, width) == whole({"step": ordered}, width)
        if (
            not isinstance(kept, StoredValue) or len(line(ordered, width)) == width
        ):  # it was cut off
            assert wording.short(kept, width) == line(ordered, width)


class Counted(list[int]):
    """A list that counts how many of its members were written."""

    written = 0

    def __iter__(self) -> Iterator[int]:
        for file in super().__iter__():
            self.written += 1
            yield file


def test_no_more_is_written_than_is_shown() -> None:
    """Of a value with very many members, on several lines and on one, also within another one."""
    for show, width in ((wording.pretty, 20_000), (wording.short, 90)):
        some = Counted([7] * 200_000)
        show({"some": [some]})
        assert 0 < some.written <= width


def test_a_deep_value_is_shown() -> None:
    """However deep it is: parts that are not shown are not read."""
    deep: Any = 0
    for _ in range(5000):
        deep = [deep]
    assert wording.short(deep) == "[" * 89 + "…"
    assert wording.pretty(deep).endswith("shortened; see the saga's log)")
