"""The page in Chromium, Firefox and WebKit: each example, the bytes for all rows, and a picture."""

from __future__ import annotations

import sys
from collections.abc import Iterator
from pathlib import Path

import pytest
from browsers import Browser, Chromium, Firefox, WebKit
from test_page import EXAMPLES, PAGE, PICTURES, TOP

sys.path[:0] = [str(TOP / "tests" / "library")]

import same  # noqa: E402

KINDS: list[type[Browser]] = [Chromium, Firefox, WebKit]


@pytest.fixture(scope="module", params=KINDS, ids=[kind.__name__ for kind in KINDS])
def browser(request: pytest.FixtureRequest) -> Iterator[Browser]:
    """Each browser once."""
    made: Browser = request.param()
    made.open(PAGE.as_uri())
    yield made
    made.close()


@pytest.fixture(scope="session")
def questions() -> list[tuple[same.Question, same.Reply]]:
    """The questions of tests/rows, with the replies of the program."""
    questions_of_rows = [
        question for question in same.of_rows() if sum(map(len, question[1])) < 1 << 20
    ]
    return [(question, same.by_program(question)) for question in questions_of_rows]


def test_examples(browser: Browser, request: pytest.FixtureRequest) -> None:
    for mode, example, kind, verdict, marked, shall in EXAMPLES:
        shown = browser.show(mode, example)
        assert (shown["kind"], shown["verdict"], shown["shall"]) == (kind, verdict, shall)
        assert mode == "audit" or (shown["marked"], shown["nodes"]) == (marked, len(shall))
    browser.show("plan", 0)
    PICTURES.mkdir(parents=True, exist_ok=True)
    picture = PICTURES / f"{type(browser).__name__.lower()}.png"
    browser.picture(picture)
    assert picture.read_bytes()[:4] == b"\x89PNG"


def test_rows(browser: Browser, questions: list[tuple[same.Question, same.Reply]]) -> None:
    questions_of_rows = [question for question, _ in questions]
    assert len(questions_of_rows) > 100
    assert browser.calls(questions_of_rows) == [reply for _, reply in questions]
