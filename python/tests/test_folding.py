"""Pictures and tables of many steps.

Equal parallel steps are one box, none is lost, and failed ones come first.
"""

from __future__ import annotations

import time

from hypothesis import given, settings, strategies as st

from sagas.inspection import picture, timeline
from sagas.inspection.picture import FEW, StepDisplay, folded
from sagas.inspection.timeline import AttemptTimes, Span
from sagas.server import table_rows

PLAIN = StepDisplay("to do", "", False, "waiting", "waiting")
FAILED = StepDisplay("failed", "", False, "failed", "failed")


def test_equal_steps_are_one_box() -> None:
    """They are between a first and a last one; a failed step has its own box."""
    needs = [[], *([0] for _ in range(20)), [*range(1, 21)]]
    looks = ["x"] * 22
    looks[7] = "failed"
    boxes = folded(needs, looks)
    assert [len(box.steps) for box in boxes] == [1, 19, 1, 1]
    assert [box.needs for box in boxes] == [[], [0], [0], [1, 2]]


@settings(max_examples=200, deadline=None)
@given(st.data())
def test_none_is_lost(data: st.DataObject) -> None:
    """Each step is in one box, whose needs are the boxes of its needs."""
    count = data.draw(st.integers(1, 30))
    needs = [
        sorted(data.draw(st.sets(st.integers(0, step - 1), max_size=3))) if step else []
        for step in range(count)
    ]
    looks = data.draw(st.lists(st.sampled_from("ab"), min_size=count, max_size=count))
    boxes = folded(needs, looks)
    assert sorted(step for box in boxes for step in box.steps) == [*range(count)]
    box_of = {step: number for number, box in enumerate(boxes) for step in box.steps}
    for box in boxes:
        assert len(box.steps) == 1 or len(box.steps) >= FEW
        for step in box.steps:
            assert {box_of[need] for need in needs[step]} == set(box.needs)
            assert looks[step] == looks[box.steps[0]]


def test_a_thousand_steps_are_drawn() -> None:
    """It takes seconds of the processor at most, as chains and as one wide layer."""
    wide = [("first", list[str]())]
    wide += [(f"s{number}", ["first"]) for number in range(1022)]
    wide.append(("last", [name for name, _ in wide[1:]]))
    chains = [(f"s{number}", [f"s{number - 8}"] if number >= 8 else []) for number in range(1024)]
    for steps in (wide, chains):
        displays = [FAILED if number == 500 else PLAIN for number in range(len(steps))]
        began = time.process_time()
        text = picture.drawn(steps, picture.plain_boxes(steps, displays), "many")
        assert time.process_time() - began < 20
        assert "failed" in text
    assert "1021 × s0 …" in picture.drawn(
        wide,
        picture.plain_boxes(wide, [FAILED if n == 500 else PLAIN for n in range(1024)]),
        "",
    )


def test_failed_steps_come_first() -> None:
    """It is first in its layer of the picture, in a table whose rows mostly are folded, and in a
    timeline.
    """
    needs = [[], *([0] for _ in range(5)), [*range(1, 6)]]
    displays = [FAILED if number == 4 else PLAIN for number in range(7)]
    corners = picture.ordered(needs, displays).corners
    assert min(range(1, 6), key=lambda step: corners[step][1]) == 4
    rows = table_rows.folded(range(200), lambda row: (row != 150,))
    assert rows.shown[0] == 150 and sorted(rows.shown + rows.more) == [*range(200)]
    assert len(rows.shown) == table_rows.FEW and rows.more == sorted(rows.more)
    assert table_rows.folded([3, 1, 2], lambda row: (row,)).shown == [3, 1, 2]
    spans = [Span("queued", "slot", 10.0, 11.0), Span("running", None, 11.0, 12.0)]
    attempts = [
        AttemptTimes(f"s{n}", False, 1, 10.0, 11.0, 12.0, "succeeded", None, 0, spans, None)
        for n in range(300)
    ]
    waits = [*spans[:1], Span("waiting", "approval", 11.0, None)]
    name = "<b>late"
    attempts[299:] = [
        AttemptTimes("bad", True, 2, 10.0, 11.0, 12.0, "failed", "no", 0, spans, None),
        AttemptTimes(name, False, 1, 10.0, 11.0, None, None, None, 0, waits, None),
    ]
    text = timeline.drawn(attempts, 10.0, 71.0)
    assert text.count('class="row"') == timeline.MAX_ROWS
    assert "bad, compensation, attempt 2: failed after 1 s; queued 1 s, ran 1 s" in text
    assert '<g class="run undo_failed">' in text and 'class="in-waiting person"' in text
    assert (
        "&lt;b&gt;late, action, attempt 1: under way after 1 min; queued 1 s, waited 1 min" in text
    )
    assert timeline.drawn([], 10.0, 71.0) == ""
