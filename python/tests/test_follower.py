"""Random definitions, failures and aborts in `sagas drive`, compared with the reference model."""

from __future__ import annotations

import json
import pathlib
import tempfile
from typing import Any

import pytest
from definitions import steps, toml
from driving import Drive, audit
from follower import Definition, Follower, Illegal, follow
from hypothesis import HealthCheck, given, settings, strategies as st

Json = dict[str, Any]

EXAMPLES = settings(
    max_examples=60,
    deadline=None,
    suppress_health_check=[HealthCheck.too_slow, HealthCheck.data_too_large],
)


def request(draw: st.DataObject, follower: Follower) -> Json:
    """Return a request that is mostly one that may be granted."""
    busy = follower.busy()
    many = len(follower.sagas)
    do = draw.draw(
        st.sampled_from(["next"] * 5 + ["report"] * 5 + ["open", "show", "busy", "abort", "wild"])
    )
    if do == "open" or not many:
        number = draw.draw(
            st.sampled_from([{}, {"saga": many}, {"saga": many}, {"saga": many + 1}])
        )
        return {"do": "open", "def": draw.draw(st.integers(0, len(follower.definitions)))} | number
    if do == "report" and busy:
        task = draw.draw(st.sampled_from(busy))
        outcome = draw.draw(st.sampled_from(["ok", "ok", "void", "fail"]))
        attempt = task["attempt"] + draw.draw(st.sampled_from([0, 0, 0, 0, 1]))
        of = draw.draw(st.sampled_from([{}, {"task": task["task"], "attempt": attempt}]))
        return {"do": "report", "outcome": outcome, "saga": task["saga"], "step": task["step"]} | of
    if do == "wild":
        return {
            "do": "report",
            "outcome": "ok",
            "saga": draw.draw(st.integers(0, many)),
            "step": draw.draw(st.integers(0, 6)),
        }
    if do in ("show", "abort"):
        return {"do": do, "saga": draw.draw(st.integers(0, many))}
    if do == "next" and draw.draw(st.booleans()):
        return {"do": "next", "most": draw.draw(st.integers(1, 4))}
    return {"do": "busy" if do == "busy" else "next"}


def finish(drive: Drive, follower: Follower) -> None:
    """Drive until all is finished, with every task succeeding."""
    while True:
        ask: Json = {"do": "next"}
        (reply,) = drive.ask(ask)
        follower.answer(ask, reply)
        if reply["task"] in ("run", "undo"):
            ask = {"do": "report", "outcome": "ok", "saga": reply["saga"], "step": reply["step"]}
            follower.answer(ask, drive.ask(ask)[0])
        elif reply["task"] == "none":
            for task in follower.busy():
                ask = {"do": "report", "outcome": "ok", "saga": task["saga"], "step": task["step"]}
                follower.answer(ask, drive.ask(ask)[0])
            if follower.is_settled:
                return


@EXAMPLES
@given(st.lists(steps(), min_size=1, max_size=2), st.data())
def test_drive_follows_the_rules(definitions: list[Any], data: st.DataObject) -> None:
    """Each reply is the model's; the log is the replies' events; an audit and a restart agree with
    both.
    """
    with tempfile.TemporaryDirectory() as name:
        folder = pathlib.Path(name)
        log = folder / "log"
        texts = [toml(f"d{number}", drawn) for number, drawn in enumerate(definitions)]
        follower = Follower([Definition.read(text) for text in texts])
        events: list[Json] = []
        with Drive(folder, texts, log) as drive:
            for _ in range(data.draw(st.integers(1, 40))):
                ask = request(data, follower)
                events += follower.answer(ask, drive.ask(ask)[0])
        lines = [json.loads(line) for line in log.read_text().splitlines()]
        assert lines == [{"format": 2}, *events]
        with Drive(folder, texts, log) as drive:
            (busy,) = drive.ask({"do": "busy"})
            assert busy == {"busy": follower.busy()}
            for number in range(len(follower.sagas)):
                assert drive.ask({"do": "show", "saga": number}) == [follower.show(number)]
            finish(drive, follower)
        lines = [json.loads(line) for line in log.read_text().splitlines()]
        again = follow(texts, lines)
        assert [saga.states for saga in again.sagas] == [saga.states for saga in follower.sagas]
        ended = sum(saga.phase == "ended" for saga in again.sagas)
        verdict = (
            f"yes sagas {len(again.sagas)} ended {ended} stuck {len(again.sagas) - ended} events"
            f" {len(lines) - 1}"
        )
        assert audit(log, sorted(folder.glob("*.toml"))) == verdict


TRIP = """format = 2
name = "trip"
[[step]]
name = "flight"
undo = "never"
[[step]]
name = "car"
needs = ["flight"]
undo = 5
keep = 3
tries = 2
"""


def trip_log() -> list[Json]:
    """Return a whole history of the trip, with a failed attempt."""
    steps = [
        ("start_run", 0),
        ("commit", 0),
        ("start_run", 1),
        ("missed", 1),
        ("start_run", 1),
        ("commit", 1),
    ]
    return [{"def": 0, "event": "open", "saga": 0}] + [
        {"event": word, "saga": 0, "step": step} for word, step in steps
    ]


def test_the_follower_follows_a_history() -> None:
    """A legal history is followed to its end."""
    assert follow([TRIP], trip_log()).sagas[0].phase == "ended"


@pytest.mark.parametrize("number", range(7))
def test_the_follower_finds_an_event_left_out(number: int) -> None:
    """Each missing event makes a later one illegal, or the saga not ended."""
    log = trip_log()
    del log[number]
    try:
        assert follow([TRIP], log).sagas[0].phase != "ended"
    except Illegal:
        pass


@pytest.mark.parametrize("number", range(1, 7))
def test_the_follower_finds_an_event_doubled(number: int) -> None:
    """No event is allowed twice in a row."""
    log = trip_log()
    log.insert(number, log[number])
    with pytest.raises(Illegal):
        follow([TRIP], log)


@pytest.mark.parametrize(
    "change",
    [
        {"cost": 4},
        {"kept": [0]},
        {"kept": [1]},
        {"kept": [0, 1], "cost": 0},
        {"stand": [3, 0]},
        {"links": [1]},
        {"leave": [0, 0]},
    ],
)
def test_the_follower_finds_a_plan_that_is_not_right(change: Json) -> None:
    """The trip is aborted once all is done: all is kept for 3, and no other answer is right."""
    right: Json = {
        "cost": 3,
        "kept": [0, 1],
        "kind": "plan",
        "leave": [0, 3],
        "links": [0],
        "stand": [0, 3],
    }
    plan = {"event": "start_plan", "saga": 0}
    head = [*trip_log()[:-1], {"event": "abort", "saga": 0}, trip_log()[-1], plan]
    assert (
        follow([TRIP], [*head, {"answer": right, "event": "adopt", "saga": 0}]).sagas[0].phase
        == "ended"
    )
    with pytest.raises(Illegal):
        follow([TRIP], [*head, {"answer": right | change, "event": "adopt", "saga": 0}])
