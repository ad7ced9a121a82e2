"""The core as a whole: random definitions, outcomes, refused commits, engine deaths, recovery.

No event loop, database or network takes part; `core_world.py` describes how the result is judged.
"""

from __future__ import annotations

import datetime
import pathlib
import tempfile
from typing import Any

import pytest
from core_world import World
from definitions import StepDraw, steps
from hypothesis import HealthCheck, given, settings, strategies as st

import sagas
from sagas.core import states
from sagas.core.attempt import model as attempt
from sagas.core.shard import driver as shard

MOVES, SAGAS = 20_000, 135
ENDS: dict[str, dict[str, Any]] = {
    "asks": {"on_exhausted": "ask"},
    "continues": {"on_exhausted": "retry"},
    "many": {"tries": 12},
}
SOON = sagas.Backoff(initial=5, maximum=60)
MANNERS = st.sampled_from(
    (
        "simple",
        "plain",
        "timed",
        "wait",
        "approval",
        "timed approval",
        "external",
        "transaction",
        "asks",
        "continues",
        "many",
    )
)


def cost(value: int | str) -> sagas.Cost:
    """Return a cost as the package takes it."""
    return value if isinstance(value, int) else sagas.NEVER


def nothing(task: sagas.Task[Any]) -> None:
    """A step that is never called: the world decides its outcome."""


async def simple(task: sagas.Task[Any]) -> None:
    """As `nothing`."""


def declare(
    saga: sagas.Saga, drawn: list[StepDraw], number: int, manner: str, is_optional: bool
) -> None:
    """Declare one step of that kind. It is not optional if it must not be skipped."""
    drawn_step = drawn[number]
    options: dict[str, Any] = {
        "name": drawn_step.name,
        "needs": [saga.steps[need] for need in drawn_step.needs],
        "skip": cost(drawn_step.skip),
        "optional": is_optional and drawn_step.skip != "never",
    }
    if drawn_step.undo != "never":
        options["undo"] = cost(drawn_step.undo)
    if manner == "wait":
        step = saga.wait(
            until=datetime.timedelta(hours=1),
            tries=drawn_step.tries,
            backoff=SOON,
            keep=cost(drawn_step.keep),
            **options,
        )(nothing)
    elif manner.endswith("approval"):
        timeout = 3600 if manner.startswith("timed") else None
        step = saga.approval(timeout=timeout, tries=drawn_step.tries, backoff=SOON, **options)(
            nothing
        )
    else:
        options |= {
            "run": cost(drawn_step.run),
            "keep": cost(drawn_step.keep),
            "tries": drawn_step.tries,
            "backoff": SOON,
        }
        if manner == "external":
            step = saga.step(external=True, **options)
            if drawn_step.undo != "never":
                step.compensation(external=True, tries=drawn_step.undo_tries, backoff=SOON)
            return
        max_unknown = datetime.timedelta(minutes=1) if manner == "timed" else 2
        function = simple if manner == "simple" else nothing
        options |= ENDS.get(manner, {})
        step = saga.step(max_unknown=max_unknown, transaction=manner == "transaction", **options)(
            function
        )
    if drawn_step.undo != "never":
        options = ENDS.get(manner, {"on_exhausted": "fail"})
        options = {"tries": drawn_step.undo_tries} | options
        step.compensation(backoff=SOON, max_unknown=1, **options)(nothing)


@st.composite
def definitions(draw: st.DrawFn) -> sagas.Saga:
    """Return a saga with steps of any kind."""
    drawn = draw(steps())
    saga = sagas.Saga(f"saga{draw(st.integers(0, 10**6))}")
    for number in range(len(drawn)):
        declare(saga, drawn, number, draw(MANNERS), draw(st.booleans()))
    return saga


@pytest.mark.parametrize("part", range(4))
def test_whatever_happens(part: int, monkeypatch: pytest.MonkeyPatch) -> None:
    """Each saga ends by the rules, over at least 25,000 transitions of attempts, shards and steps
    in each part.
    """
    transitions, voids = 0, 0

    def count(table: Any, before: Any, after: Any) -> None:
        nonlocal transitions
        transitions += 1
        states.check(table, before, after)

    for module in (attempt, shard):
        monkeypatch.setattr(module, "check", count)

    @settings(
        max_examples=14, deadline=None, suppress_health_check=list(HealthCheck), derandomize=True
    )
    @given(
        st.lists(definitions(), min_size=1, max_size=3, unique_by=lambda saga: saga.name),
        st.integers(0, 10**9),
    )
    def play(kinds: list[sagas.Saga], seed: int) -> None:
        nonlocal transitions, voids
        with tempfile.TemporaryDirectory() as folder:
            world = World(kinds, pathlib.Path(folder), seed + part, SAGAS)
            world.play(MOVES)
            world.judge()
            transitions += world.store.events
            voids += world.store.text.count('"event":"void"')

    play()
    assert transitions >= 25_000, transitions
    assert voids >= 10, voids
