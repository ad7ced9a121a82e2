"""Random sagas in the package, in a store and in memory, compared with the reference model."""

from __future__ import annotations

import asyncio
import json
import pathlib
import tempfile
from collections.abc import Sequence
from typing import Any

import pytest
import records
from definitions import StepDraw, steps, toml
from follower import Definition, Follower, follow
from hypothesis import HealthCheck, given, settings, strategies as st

import sagas
import sagas.testing
from sagas.testing.simulation import Engine

Task = sagas.Task[Any]
Failures = dict[tuple[str, str], int]
"""How many attempts fail, by step and `run` or `undo`."""

EXAMPLES = settings(max_examples=40, deadline=None, suppress_health_check=list(HealthCheck))
NO_WAIT = sagas.Backoff(initial=0.0, maximum=0.0)


def price(value: int | str) -> sagas.Cost:
    """Return a cost as the package takes it."""
    return value if isinstance(value, int) else sagas.NEVER


def build(drawn: list[StepDraw], failures: Failures) -> sagas.Saga:
    """Return a saga of a random definition, whose functions fail as scripted."""
    saga = sagas.Saga("random")

    def act(task: Task) -> str:
        if task.attempt <= failures.get((task.step, "undo" if task.is_compensation else "run"), 0):
            raise sagas.Retry("it has to fail")
        assert not task.is_compensation or task.result == f"{task.step} is done"
        return f"{task.step} is done"

    async def act_in_loop(task: Task) -> str:
        return act(task)

    for number, drawn_step in enumerate(drawn):
        options: dict[str, Any] = {
            "run": price(drawn_step.run),
            "skip": price(drawn_step.skip),
            "keep": price(drawn_step.keep),
            "tries": drawn_step.tries,
        }
        needs = [saga.steps[need] for need in drawn_step.needs]
        if drawn_step.undo != "never":
            options["undo"] = price(drawn_step.undo)
        step = saga.step(name=drawn_step.name, needs=needs, backoff=NO_WAIT, **options)(
            act if number % 2 else act_in_loop
        )
        if drawn_step.undo != "never":
            step.compensation(tries=drawn_step.undo_tries, backoff=NO_WAIT, on_exhausted="fail")(
                act_in_loop if number % 2 else act
            )
    return saga


def failures_of(drawn: list[StepDraw]) -> st.SearchStrategy[Failures]:
    """Draw failures of some steps, for some attempts or for all."""
    keys = [
        (step.name, kind)
        for step in drawn
        for kind in ("run", "undo")
        if kind == "run" or step.undo != "never"
    ]
    return st.dictionaries(st.sampled_from(keys), st.integers(1, 3), max_size=4)


def same_definition(drawn: list[StepDraw], saga: sagas.Saga) -> None:
    """Check that the package writes the definition that was drawn.

    If nothing can be undone, the tries of compensations do not count.
    """
    wanted, written = Definition.read(toml("random", drawn)), Definition.read(saga.toml())
    for step, other in zip(wanted.steps, written.steps):
        assert (step.name, step.needs, step.run, step.undo, step.skip, step.keep, step.tries) == (
            other.name,
            other.needs,
            other.run,
            other.undo,
            other.skip,
            other.keep,
            other.tries,
        )


@EXAMPLES
@given(st.data())
def test_a_store_keeps_the_rules(data: st.DataObject) -> None:
    """Each log is legal, each end is the model's, and the results are those of the steps that are
    kept.
    """
    drawn = data.draw(steps())
    many = [data.draw(failures_of(drawn)) for _ in range(1)]
    aborts = data.draw(st.lists(st.booleans(), min_size=3, max_size=3))
    together = data.draw(st.sampled_from([1, 2, 16]))
    saga = build(drawn, many[0])
    same_definition(drawn, saga)

    async def start_and_wait(store: sagas.Store, number: int) -> sagas.SagaResult:
        run = await store.start(saga, key=f"k{number}")
        if aborts[number]:
            await run.abort()
        return await run.wait()

    async def main(path: pathlib.Path) -> list[sagas.SagaResult]:
        async with sagas.open(path, [saga], concurrency=together) as store:
            return await asyncio.gather(*(start_and_wait(store, number) for number in range(3)))

    with tempfile.TemporaryDirectory() as name:
        path = pathlib.Path(name) / "store.db"
        ends = asyncio.run(asyncio.wait_for(main(path), 60))
        kept = records.read(path)
    (log,) = kept.logs.values()
    follower = follow(log.texts, log.events)
    for number, end in enumerate(ends):
        state = follower.sagas[kept.sagas[f"k{number}"].number]
        assert (end.phase, list(end.states.values()), end.aborted) == seen_end(state)
        answer = state.answer or {"cost": 0}
        assert (end.cost or 0) == answer.get("cost", 0)
        assert set(end.results) == {
            step for step, word in end.states.items() if word in ("committed", "undo_failed")
        }
        assert all(value == f"{step} is done" for step, value in end.results.items())


def seen_end(state: Any) -> tuple[str, list[str], bool]:
    """Return the model's saga in the words of the package."""
    phase = (
        "stuck"
        if state.phase == "stuck"
        else "recovered"
        if (state.answer or {}).get("kind") == "plan"
        else "completed"
    )
    states = ["undo_failed" if word == "fixed" else word for word in state.states]
    return phase, states, state.aborted


@EXAMPLES
@given(st.data())
def test_a_saga_in_memory_keeps_the_rules(data: st.DataObject) -> None:
    """Each reply that `sagas.testing` gets is the model's, and so is the end."""
    drawn = data.draw(steps())
    saga = build(drawn, {})
    fails = data.draw(failures_of(drawn))
    names = [step.name for step in drawn]
    abort = data.draw(st.one_of(st.none(), st.sampled_from(names)))
    unknown = data.draw(st.dictionaries(st.sampled_from(names), st.integers(1, 2), max_size=2))
    follower = Follower([Definition.read(saga.toml())])
    right = Engine.ask

    def ask(self: Engine, lines: Sequence[str]) -> list[str]:
        replies = right(self, lines)
        for line, reply in zip(lines, replies, strict=True):
            follower.answer(json.loads(line), json.loads(reply))
        return replies

    with pytest.MonkeyPatch.context() as patch:
        patch.setattr(Engine, "ask", ask)
        trial = sagas.testing.run(
            saga,
            fail={step: count for (step, kind), count in fails.items() if kind == "run"},
            fail_undo={step: count for (step, kind), count in fails.items() if kind == "undo"},
            unknown=unknown,
            abort=abort,
        )
    (state,) = follower.sagas
    assert (trial.phase, list(trial.states.values()), trial.aborted) == seen_end(state)
    assert trial.phase in ("completed", "recovered", "stuck")
