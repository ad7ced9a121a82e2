"""Plans, judgements and audits of texts, by the library and by the program."""

from __future__ import annotations

import pathlib
import threading

import pytest

import sagas
from sagas.engine import library

EXAMPLES = pathlib.Path(__file__).resolve().parents[2] / "examples"
DEFINITION = (EXAMPLES / "trip.toml").read_text()
CASE = (EXAMPLES / "trip.case.json").read_text()
ANSWER = (EXAMPLES / "trip.answer.json").read_text().rstrip("\n")
LOG = (EXAMPLES / "trip.log").read_text()
OTHER = (EXAMPLES / "order.toml").read_bytes()
TWO = '{"def":0,"event":"open","saga":0}\n{"def":1,"event":"open","saga":1}\n'


@pytest.fixture(params=["library", "program"])
def way(request: pytest.FixtureRequest, monkeypatch: pytest.MonkeyPatch) -> str:
    """Use the library, or, without it, the program."""
    if request.param == "program":
        monkeypatch.setenv("SAGAS_LIBRARY", "/nowhere/libsagas.so")
    else:
        assert library.path() is not None, "dist/libsagas.so is missing: ./release makes it"
    return str(request.param)


def test_answers(way: str) -> None:
    assert sagas.plan(DEFINITION, CASE) == sagas.Verdict(True, ANSWER)
    assert sagas.plan(DEFINITION.encode(), CASE.encode()).yes
    assert sagas.check(DEFINITION, CASE, ANSWER) == (True, "least 38")
    assert sagas.check(DEFINITION, CASE, ANSWER.replace("38", "37")) == (False, "no wrong-cost")
    assert sagas.audit(LOG, DEFINITION) == (True, "yes sagas 1 ended 1 stuck 0 events 13")
    assert sagas.audit(TWO, DEFINITION) == (False, "no 1 no-such-definition")
    assert sagas.audit(TWO, DEFINITION, OTHER) == (True, "yes sagas 2 ended 0 stuck 0 events 2")


def test_a_chain(way: str) -> None:
    definition, case = (EXAMPLES / "licence.toml").read_text(), (
        EXAMPLES / "licence.case.json"
    ).read_text()
    chain = sagas.plan(definition, case)
    assert chain == (False, '{"chain":[1,0],"kind":"blocked"}')
    assert sagas.check(definition, case, chain.text) == (True, "blocked")


@pytest.mark.parametrize(
    ("definition", "case", "line"),
    [
        ("", CASE, "sagas: definition: bad-format"),
        ("\0", CASE, "sagas: definition: not-toml"),
        (b"#\xff", CASE, "sagas: definition: not-toml"),
        (b"#" * 1048577, CASE, "sagas: definition: too-long"),
        (DEFINITION, "", "sagas: case: not-json"),
        (DEFINITION, CASE.replace("failed", "running"), "sagas: case: busy 2"),
    ],
    ids=["empty", "zero", "no UTF-8", "too long", "no case", "busy"],
)
def test_texts_that_are_not_of_their_form(
    way: str, definition: str | bytes, case: str, line: str
) -> None:
    with pytest.raises(sagas.InvalidText) as error:
        sagas.plan(definition, case)
    assert str(error.value) == line


def test_definitions_are_named_by_their_index(way: str) -> None:
    with pytest.raises(sagas.InvalidText, match="^sagas: definition 1: bad-format$"):
        sagas.audit("", DEFINITION, "")
    with pytest.raises(sagas.InvalidText, match="^sagas: too many definitions$"):
        sagas.audit("", *[DEFINITION] * 1001)


def test_any_buffer() -> None:
    path = library.path()
    assert path is not None
    loaded = library.loaded(path)
    assert loaded is not None
    for size in (0, 1, len(ANSWER), len(ANSWER) + 1, len(ANSWER) + 2):
        assert library.call(
            loaded, "sagas_plan", [DEFINITION.encode(), CASE.encode()], size=size
        ) == (0, ANSWER.encode() + b"\n")


def test_a_library_that_cannot_be_loaded(
    monkeypatch: pytest.MonkeyPatch, tmp_path: pathlib.Path
) -> None:
    (tmp_path / "libsagas.so").write_bytes(b"no library")
    monkeypatch.setenv("SAGAS_LIBRARY", str(tmp_path / "libsagas.so"))
    assert sagas.plan(DEFINITION, CASE).yes


def test_neither_library_nor_program(monkeypatch: pytest.MonkeyPatch) -> None:
    monkeypatch.setenv("SAGAS_LIBRARY", "/nowhere/libsagas.so")
    monkeypatch.setenv("SAGAS_PROGRAM", "/nowhere/sagas")
    with pytest.raises(sagas.EngineError, match="/nowhere/sagas"):
        sagas.plan(DEFINITION, CASE)


def test_many_threads() -> None:
    wrong: list[sagas.Verdict] = []

    def work() -> None:
        for _ in range(100):
            result = sagas.plan(DEFINITION, CASE)
            if result != (True, ANSWER):
                wrong.append(result)

    threads = [threading.Thread(target=work) for _ in range(16)]
    for thread in threads:
        thread.start()
    for thread in threads:
        thread.join(60)
    assert not wrong and not any(thread.is_alive() for thread in threads)
