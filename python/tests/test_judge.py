"""Mutation tests of the verifier: a good store is damaged in each way that has a fault's name.

The verifier must find each by that name.
"""

from __future__ import annotations

import json
import pathlib
import shutil
import sqlite3
from collections.abc import Callable
from typing import Any

import pytest
from judge import FAULTS, judge
from kills import run_once

Json = dict[str, Any]
Notes = list[Json]
COUNT = 24


class Copy:
    """A copy of a good store, to be damaged."""

    def __init__(self, folder: pathlib.Path) -> None:
        self.store, self.path = folder / "store.db", folder / "notes"
        self.notes: Notes = [json.loads(line) for line in self.path.read_text().splitlines()]
        self.db = sqlite3.connect(self.store, isolation_level=None)

    def write(self, *arguments: Any) -> None:
        """Change the database, which must change something."""
        assert self.db.execute(*arguments).rowcount > 0, arguments

    def first(self, **wanted: Any) -> Json:
        """Return the first note that has these values."""
        return next(
            note
            for note in self.notes
            if all(note.get(word) == value for word, value in wanted.items())
        )

    def names(self) -> set[str]:
        """Return the faults that the verifier finds."""
        self.db.close()
        self.path.write_text("".join(json.dumps(note) + "\n" for note in self.notes))
        return judge(self.store, self.path, COUNT).names


def lose_a_key(copy: Copy) -> None:
    copy.write("DELETE FROM sagas WHERE key = 'k3'")


def lose_lines(copy: Copy) -> None:
    copy.write(
        "DELETE FROM event_log WHERE first_seq = (SELECT min(first_seq) FROM event_log WHERE"
        " first_seq > 0)"
    )


def change_a_step(copy: Copy) -> None:
    copy.write(
        """UPDATE event_log SET text = replace(text, '"event":"commit"', '"event":"undone"')"""
    )


def reopen(copy: Copy) -> None:
    copy.write("UPDATE sagas SET phase = NULL, outcome = NULL WHERE key = 'k1'")


def change_an_end(copy: Copy) -> None:
    copy.write(
        "UPDATE sagas SET outcome = json_set(outcome, '$.states[0]', 'another') WHERE key = 'k4'"
    )


def lose_a_result(copy: Copy) -> None:
    copy.write(
        "DELETE FROM attempts WHERE (id, step, action, number) IN (SELECT id, step, action, number"
        " FROM attempts LIMIT 1)"
    )


def report_too_early(copy: Copy) -> None:
    copy.first(what="started")["there"] = False


def report_another_end(copy: Copy) -> None:
    note = copy.first(what="over")
    note["states"] = {step: "another" for step in note["states"]}


def begin_too_early(copy: Copy) -> None:
    copy.first(what="begin")["begun"] = 0


def change_a_token(copy: Copy) -> None:
    copy.first(what="begin")["token"] += "0"


def lose_an_effect(copy: Copy) -> None:
    """Remove each note of it: a function that was interrupted is called again under its token."""
    token = copy.first(what="effect")["token"]
    copy.notes = [note for note in copy.notes if note["what"] != "effect" or note["token"] != token]


def miss_without_a_call(copy: Copy) -> None:
    failed = copy.db.execute(
        "SELECT name || '-' || (id % 1000) FROM attempts JOIN shards ON shard = id / 1000 WHERE"
        " event = 'missed' LIMIT 1"
    ).fetchone()[0]
    copy.notes = [
        note
        for note in copy.notes
        if note["what"] != "begin" or not note["token"].startswith(f"{failed}-")
    ]


def miss_with_an_effect(copy: Copy) -> None:
    note = copy.first(what="effect")
    copy.notes.append(note | {"token": note["token"][:-1] + "7"})


def do_what_was_not_begun(copy: Copy) -> None:
    over = next(
        note
        for note in copy.notes
        if note["what"] == "over" and "waiting" in note["states"].values()
    )
    step = next(step for step, state in over["states"].items() if state == "waiting")
    copy.notes.append(
        copy.first(what="effect") | {"key": over["key"], "step": step, "token": f"x-1-{step}-run-1"}
    )


def undo_again(copy: Copy) -> None:
    note = copy.first(what="effect", kind="undo")
    copy.notes.append(note | {"token": note["token"][:-1] + "8"})


def undo_another(copy: Copy) -> None:
    copy.first(what="effect", kind="undo")["of"] = "another-1-step-run"


def hand_another_input(copy: Copy) -> None:
    copy.first(what="begin")["input"] = {"i": -1}


def hand_another_result(copy: Copy) -> None:
    next(note for note in copy.notes if note["what"] == "effect" and "reserve" in note["results"])[
        "results"
    ] = {"reserve": "another"}


SPOILT: list[tuple[Callable[[Copy], None], str]] = [
    (lose_a_key, "keys"),
    (lose_a_key, "lost"),
    (lose_lines, "gap"),
    (lose_lines, "illegal"),
    (change_a_step, "audit"),
    (change_a_step, "illegal"),
    (reopen, "not-over"),
    (change_an_end, "end"),
    (change_an_end, "told-otherwise"),
    (lose_a_result, "results"),
    (report_too_early, "told-early"),
    (report_another_end, "told-otherwise"),
    (begin_too_early, "begun-early"),
    (change_a_token, "tokens"),
    (miss_without_a_call, "not-called"),
    (lose_an_effect, "no-effect"),
    (miss_with_an_effect, "wrong-attempt"),
    (do_what_was_not_begun, "effect-lost"),
    (undo_again, "undone-twice"),
    (undo_another, "wrong-action"),
    (hand_another_input, "input"),
    (hand_another_result, "handed"),
]


@pytest.fixture(scope="module")
def good(tmp_path_factory: pytest.TempPathFactory) -> pathlib.Path:
    """Return a store without faults, and its witness's notes."""
    folder = tmp_path_factory.mktemp("good")
    assert run_once(folder, COUNT) == 0
    return folder


def test_a_good_store_is_good(good: pathlib.Path) -> None:
    """A good store has no fault."""
    verdict = judge(good / "store.db", good / "notes", COUNT)
    assert not verdict.faults
    assert verdict.figures["committed"] > COUNT and verdict.figures["undone"] > 0


@pytest.mark.parametrize("spoil, name", SPOILT)
def test_damage_is_detected(
    good: pathlib.Path, tmp_path: pathlib.Path, spoil: Callable[[Copy], None], name: str
) -> None:
    """The verifier finds each fault by its name."""
    for path in good.iterdir():
        if path.name.startswith("store.db") or path.name == "notes":
            shutil.copy(path, tmp_path)
    copy = Copy(tmp_path)
    spoil(copy)
    assert name in copy.names()


def test_each_name_is_tried() -> None:
    """Each fault has a damage that shows it; for a broken file SQLite's own word is used."""
    assert {name for _, name in SPOILT} | {"broken-file"} == set(FAULTS)
