"""The WebAssembly module in Node: the program's bytes for all rows and other texts."""

from __future__ import annotations

import base64
import json
import os
import random
import re
import shutil
import subprocess
import sys
from pathlib import Path

import pytest

TOP = Path(__file__).resolve().parent.parent.parent
sys.path[:0] = [
    str(TOP / "tests"),
    str(TOP / "tests" / "library"),
    str(TOP / "python" / "src"),
    str(TOP / "page"),
]

import module as translation  # noqa: E402
import narrow  # noqa: E402
import same  # noqa: E402
from sagas.engine import library  # noqa: E402

NODE = os.environ.get("NODE") or "node"


def answers(questions: list[same.Question], file: Path) -> list[same.Reply]:
    """Return the replies of Node. The file gets the questions."""
    with file.open("wb") as out:
        out.write(
            json.dumps([[call, list(map(len, texts))] for call, texts in questions]).encode()
            + b"\n"
        )
        out.writelines(text for _, texts in questions for text in texts)
    command = [
        NODE,
        str(Path(__file__).with_name("answers.mjs")),
        str(TOP / "dist" / "sagas.mjs"),
        str(file),
    ]
    done = subprocess.run(
        command, stdin=subprocess.DEVNULL, capture_output=True, timeout=300, check=False
    )
    assert done.returncode == 0, done.stderr.decode()
    return [(status, base64.b64decode(text)) for status, text in json.loads(done.stdout)]


@pytest.mark.skipif(shutil.which(NODE) is None, reason="Node is not installed")
def test_the_programs_bytes(tmp_path: Path) -> None:
    library_path = library.path()
    loaded = library.loaded(library_path) if library_path else None
    assert loaded is not None
    questions = [*same.of_rows(), *same.deep()]
    for number in range(75):
        questions += same.at_random(random.Random(f"module {number}"), loaded)
    actual = answers(questions, tmp_path / "questions")
    wrong = [
        (question, here, there)
        for question, here, there in zip(questions, actual, map(same.by_program, questions))
        if here != there
    ]
    assert wrong == []


def test_the_module_asks_for_nothing() -> None:
    """It has no import, one memory of 32 bits, and calls: three for memory, and those of sagas.h.

    Only the calls of a coordinator are missing.
    """
    module = (TOP / "dist" / "sagas.wasm").read_bytes()
    actual = dict(narrow.sections(module))
    assert 2 not in actual and actual[narrow.MEMORY][:2] == bytes([1, 0])
    names = {name for name in narrow.exports(module) if name.startswith("sagas_")}
    header = (TOP / "dist" / "sagas.h").read_text()
    calls = set(re.findall(r"^(?:uint32_t|void) (sagas_\w+)\(", header, re.M))
    assert translation.COORDINATOR < calls
    assert names - {"sagas_clear", "sagas_memory", "sagas_give_back"} == (
        calls - translation.COORDINATOR
    )


def section(kind: int, data: bytes) -> bytes:
    """Return a section of a module."""
    return bytes([kind, len(data)]) + data


def with_code(code: bytes) -> bytes:
    """Return a module of a function from a number of 64 bits to one, with a memory of 64 bits."""
    body = b"\x00" + code + b"\x0b"
    parts = [
        (1, b"\x01\x60\x01\x7e\x01\x7e"),
        (3, b"\x01\x00"),
        (5, b"\x01\x04\x01"),
        (10, bytes([1, len(body)]) + body),
    ]
    return b"\0asm\1\0\0\0" + b"".join(section(kind, data) for kind, data in parts)


CODES = [
    ("load", b"\x20\x00\x29\x03\x88\x80\x00", b"\x00\x20\x00\xa7\x29\x03\x08\x0b"),
    (
        "store",
        b"\x20\x00\x42\x07\x37\x03\x00\x20\x00",
        b"\x00\x20\x00\xa7\x42\x07\x37\x03\x00\x20\x00\x0b",
    ),
    ("size", b"\x3f\x00", b"\x00\x3f\x00\xad\x0b"),
    ("grow", b"\x20\x00\x40\x00", b"\x00\x20\x00\xa7\x40\x00\xac\x0b"),
]


@pytest.mark.parametrize(
    ("code", "wanted"),
    [(code, wanted) for _, code, wanted in CODES],
    ids=[name for name, *_ in CODES],
)
def test_what_narrowing_changes(code: bytes, wanted: bytes) -> None:
    made = dict(narrow.sections(narrow.narrowed(with_code(code))))
    assert made[narrow.MEMORY] == b"\x01\x00\x01"
    assert made[narrow.CODE] == bytes([1, len(wanted)]) + wanted


def test_a_value_that_is_in_the_way_is_put_aside() -> None:
    code = b"\x20\x00\x20\x00\x20\x00\x7c\x37\x03\x00\x20\x00"
    made = dict(narrow.sections(narrow.narrowed(with_code(code))))
    assert (
        made[narrow.CODE][2:]
        == b"\x01\x01\x7e\x20\x00\x20\x00\x20\x00\x7c\x21\x01\xa7\x20\x01\x37\x03\x00\x20\x00\x0b"
    )


STOPS = {
    "an instruction": with_code(b"\xfd\x0c" + bytes(16)),
    "an access past 4 GiB": with_code(b"\x20\x00\x29\x03\x80\x80\x80\x80\x10"),
    "a memory of 32 bits": with_code(b"").replace(b"\x01\x04\x01", b"\x01\x00\x01"),
    "another version": b"\0asm\2\0\0\0",
}


@pytest.mark.parametrize("module", list(STOPS.values()), ids=list(STOPS))
def test_narrowing_stops_at_what_it_does_not_know(module: bytes) -> None:
    with pytest.raises(SystemExit, match="page: the module has what this script does not know"):
        narrow.narrowed(module)
