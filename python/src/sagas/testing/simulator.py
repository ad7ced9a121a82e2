"""`sagas.testing.run` and `run_async`.

    trial = sagas.testing.run(trip, {"flight": "LH400"}, fail={"hotel": 3})
    assert trial.states == {
        "flight": "committed", "car": "committed", "hotel": "failed", "tour": "waiting"
    }
    assert [call.step for call in trial.undone] == []

The program `sagas` decides, attempts behave as in a store, and the steps' own functions are called.
"""

from __future__ import annotations

import asyncio
import dataclasses
from typing import Any, NamedTuple

from sagas.definition import arguments, child_sagas, payloads, waits
from sagas.definition.task_data import Context
from sagas.definition.parts import SagaParts
from sagas.definition.payloads import Codec
from sagas.definition.saga import Saga
from sagas.definition.step import Selection
from sagas.definition.start_options import Deadline, I, NO_INPUT, deadline_at
from sagas.runtime.lifespan import Lifespan
from sagas.testing.simulation import Family, Scenario
from sagas.testing.scripts import Answers, Script, answers_of, early_of, name_of, part_of, script
from sagas.testing.trial import Clock, Trial


def run(
    saga: Saga[I],
    input: I = NO_INPUT,
    *,
    key: str = "test",
    fail: Script | None = None,
    fail_undo: Script | None = None,
    unknown: Script | None = None,
    unknown_undo: Script | None = None,
    answers: Answers | None = None,
    early: Answers | None = None,
    abort: str | Selection[Any] | None = None,
    clock: Clock | None = None,
    connection: Any = None,
    context: Any = None,
    deadline: Deadline | None = None,
    codec: Codec | None = None,
    concurrency: int | None = None,
) -> Trial:
    """Run a whole saga in memory, from its start to its end, in milliseconds.

    The program `sagas` decides, and the steps' own functions are called. Waits, backoffs and
    approvals take no time: the clock advances to them. Child sagas run, too, one after another.
    Name a step by the step itself or by its name. Name a step of a child as `stay/room`, with the
    step that starts the child. After the end, the function of `Saga.on_end` is called: name its
    call `on_end`. `Trial.end_call` has its result.

    Args:
        saga: The definition.
        input: The saga's input (default: None).
        key: The saga's key (default: `"test"`).
        fail: Attempts that fail without a call. `{"tour": 3}`: the first three; `{"tour": [2]}`:
            only the second; `{"tour": sagas.Fail("sold out")}`: each of them, with this exception.
        fail_undo: The same for compensations.
        unknown: Calls whose outcome is lost, counted as in `fail`: the function is called, and the
            attempt repeats with the same idempotency key.
        unknown_undo: The same for compensations.
        answers: The answers of a person, or of another program, by step: for approvals, external
            steps and unknown outcomes. A value completes the step; an exception fails it; a
            function of the task returns or raises either.
        early: Reports before the step starts, by step: for approvals and external steps. A value
            completes the step, and an exception fails it; its function is not called.
        abort: The step after whose commit the saga is aborted (default: none).
        clock: A `Clock`, for functions that ask for the time (default: a new one).
        connection: `task.connection` of steps with `transaction=True`. You commit it or roll it
            back.
        context: `task.context`, for example a fake; or a function, as for `sagas.open`.
        deadline: As of `Store.start`, by the clock of the simulation.
        codec: As for `sagas.open`.
        concurrency: Maximum concurrent calls of functions, as for `sagas.open` (default: no limit).
            With a limit, steps that have not started when a step fails do not start.

    Returns:
        A `Trial`.

    Raises:
        DefinitionError: The definition is not valid.
        KeyError: A step that is named does not exist, or does not exist for this input.
        TypeError: A script or the answers do not have one of these forms.
        ValueError: A script is impossible, for example if a compensation does not exist.
        InvalidInput: The input does not have a type that the saga or its functions name.
        NotSerializable: The input is not JSON.
        ResultNotSerializable: A result is not JSON.
        CannotDecode: A stored value does not fit the type of a hint.
        EngineError: The program `sagas` cannot be run.
        RuntimeError: An event loop is running: await `run_async`. Or the saga makes too many calls.

    Example:
        >>> trial = sagas.testing.run(order, {"amount": 40})
        refund 40
        >>> trial.phase, trial.states, trial.cost
        ('recovered', {'charge': 'undone', 'send': 'failed'}, 4)
        >>> sagas.testing.run(order, {"amount": 40}, fail={charge: sagas.Fail}).states
        {'charge': 'failed', 'send': 'waiting'}
    """
    try:
        asyncio.get_running_loop()
    except RuntimeError:
        pass
    else:
        raise RuntimeError("an event loop is running. Await sagas.testing.run_async(...)")
    return asyncio.run(
        run_async(
            saga,
            input,
            key=key,
            fail=fail,
            fail_undo=fail_undo,
            unknown=unknown,
            unknown_undo=unknown_undo,
            answers=answers,
            early=early,
            abort=abort,
            clock=clock,
            connection=connection,
            context=context,
            deadline=deadline,
            codec=codec,
            concurrency=concurrency,
        )
    )


async def run_async(
    saga: Saga[I],
    input: I = NO_INPUT,
    *,
    key: str = "test",
    fail: Script | None = None,
    fail_undo: Script | None = None,
    unknown: Script | None = None,
    unknown_undo: Script | None = None,
    answers: Answers | None = None,
    early: Answers | None = None,
    abort: str | Selection[Any] | None = None,
    clock: Clock | None = None,
    connection: Any = None,
    context: Any = None,
    deadline: Deadline | None = None,
    codec: Codec | None = None,
    concurrency: int | None = None,
) -> Trial:
    """Run a whole saga in memory, in a running event loop. See `testing.run`."""
    waits.check_is_saga(saga)
    saga.check()
    script_arguments = ScriptArguments(
        fail, fail_undo, unknown, unknown_undo, answers, early, abort
    )
    clock, shared = clock or Clock(), Context()
    at = deadline_at(saga.deadline if deadline is None else deadline, clock())
    if concurrency is not None:
        arguments.count("concurrency", concurrency)
    scenario = _scenario(saga, script_arguments, connection)
    scenario = dataclasses.replace(scenario, deadline=at, concurrency=concurrency)
    family = Family(clock, shared, payloads.checked(codec))
    lifespan = Lifespan(context, shared)
    await lifespan.enter()
    try:
        trial = await family.play(saga, key, input, scenario)
    finally:
        await lifespan.leave()
    return dataclasses.replace(trial, children=family.trials)


class ScriptArguments(NamedTuple):
    """The arguments of `run` that determine events, unchanged."""

    fail: Script | None
    fail_undo: Script | None
    unknown: Script | None
    unknown_undo: Script | None
    answers: Answers | None
    early: Answers | None
    abort: str | Selection[Any] | None

    def part(self, saga: SagaParts, child: str | None) -> ScriptArguments:
        """Return the entries for a saga's own steps, or for those of a child."""
        fail, fail_undo, unknown, unknown_undo, answers, early = (
            part_of(saga, child, argument) for argument in self[:6]
        )
        stops = part_of(saga, child, {self.abort: True}) if self.abort else {}
        abort = next(iter(stops), None)
        return ScriptArguments(fail, fail_undo, unknown, unknown_undo, answers, early, abort)


def _scenario(saga: SagaParts, script_arguments: ScriptArguments, connection: Any) -> Scenario:
    """Return the scenario of a saga, with those of its children."""
    own_arguments = script_arguments.part(saga, None)
    rules = {
        ("failed", "run"): script(saga, "fail", own_arguments.fail),
        ("failed", "undo"): script(saga, "fail_undo", own_arguments.fail_undo),
        ("unknown", "run"): script(saga, "unknown", own_arguments.unknown),
        ("unknown", "undo"): script(saga, "unknown_undo", own_arguments.unknown_undo),
    }
    stop = name_of(saga, own_arguments.abort) if own_arguments.abort else None
    below = {
        step.name: _scenario(child, script_arguments.part(saga, step.name), connection)
        for step, child in child_sagas.children_of(saga)
    }
    answers, early = answers_of(saga, own_arguments.answers), early_of(saga, own_arguments.early)
    end = None
    if saga.end_saga is not None:
        end_arguments = script_arguments.part(saga, child_sagas.END)
        end = _scenario(saga.end_saga, end_arguments, connection)
    return Scenario(rules, answers, stop, connection, None, early, below, end=end)
