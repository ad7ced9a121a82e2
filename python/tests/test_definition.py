"""The definition of a declared saga, and each error in one, with file, line and step."""

from __future__ import annotations

import dataclasses
import datetime
import inspect
import pathlib
import subprocess
import sys
import textwrap
from collections.abc import Callable
from typing import Any

import pytest
import tomllib
from cases import Task, ended, run, types_in
from driving import program

import sagas
import sagas.testing
from sagas.definition.step import StepName

HERE = pathlib.Path(__file__).resolve().parent


def trip() -> sagas.Saga:
    """Return a saga with all parts of a definition."""
    trip = sagas.Saga("trip")

    @trip.step(timeout=datetime.timedelta(seconds=30))
    async def flight(task: Task) -> None:
        ...

    @trip.step(needs=[flight], undo=5, keep=30, tries=3, run=1, skip=sagas.NEVER)
    def car(task: Task) -> None:
        ...

    @car.compensation(tries=2)
    def cancel_car(task: Task) -> None:
        ...

    @trip.step(needs=[car, flight])
    def tour(task: Task) -> None:
        ...

    return trip


def test_toml(tmp_path: pathlib.Path) -> None:
    """Costs, tries and needs become the definition's TOML.

    Without a compensation `undo` is never; with one it is 0 by default.
    """
    text = trip().toml()
    assert tomllib.loads(text) == {
        "format": 2,
        "name": "trip",
        "step": [
            {"name": "flight", "undo": "never", "tries": 2},
            {
                "name": "car",
                "needs": ["flight"],
                "run": 1,
                "undo": 5,
                "skip": "never",
                "keep": 30,
                "tries": 3,
                "undo_tries": 2,
            },
            {"name": "tour", "needs": ["car", "flight"], "undo": "never", "tries": 2},
        ],
    }
    assert trip().steps[0].run.timeout == 30
    path = tmp_path / "trip.toml"
    path.write_text(text)
    assert subprocess.run(
        [program(), "draw", str(path)], capture_output=True, check=True
    ).stdout.startswith(b"digraph")


def test_the_public_names_of_the_package() -> None:
    """It shows its names for users, and none of the modules inside."""
    shown = dir(sagas)
    assert set(sagas.__all__) < set(shown) and {
        "testing",
        "celery",
        "inspection",
        "__version__",
    } < set(shown)
    assert not {"coordinator", "pump", "sqlite", "definition"} & set(shown) and len(shown) == len(
        set(shown)
    )
    assert all(hasattr(sagas, name) for name in shown)


SLOW, FAST = sagas.Backoff(initial=5), sagas.Backoff(initial=2)
DEFAULTED: list[tuple[str, dict[str, Any], dict[str, Any]]] = [
    ("a", {"tries": 4, "backoff": SLOW, "timeout": 7.0, "on_exhausted": "ask"}, {"max_unknown": 3}),
    ("a-undo", {"tries": 4, "backoff": SLOW, "timeout": 7.0, "on_exhausted": "ask"}, {}),
    ("b", {"tries": 2, "backoff": FAST, "timeout": None, "on_exhausted": "fail"}, {}),
    ("b-undo", {"tries": 4, "backoff": FAST, "timeout": 7.0, "on_exhausted": "retry"}, {}),
    ("elsewhere", {"tries": 4, "backoff": SLOW, "timeout": None, "max_unknown": 3}, {}),
    ("elsewhere-undo", {"tries": 4, "backoff": SLOW, "timeout": None, "max_unknown": 3}, {}),
    ("later", {"tries": 4, "backoff": SLOW, "timeout": 7.0}, {}),
    ("review", {"tries": 4, "backoff": SLOW, "timeout": 7.0}, {}),
    ("inner", {"tries": 10, "backoff": sagas.Backoff(), "timeout": None}, {"max_unknown": 10}),
]


@pytest.mark.parametrize("name, options, more", DEFAULTED, ids=[row[0] for row in DEFAULTED])
def test_a_step_takes_the_defaults_of_its_saga(
    name: str, options: dict[str, Any], more: dict[str, Any]
) -> None:
    """An option of its own wins. A saga that is included has its own defaults."""
    inner = sagas.Saga("inner")
    inner.step(name="inner")(lambda task: None)
    saga = sagas.Saga(
        "outer",
        tries=4,
        backoff=SLOW,
        timeout=datetime.timedelta(seconds=7),
        max_unknown=3,
        on_exhausted="ask",
    )
    saga.step(name="a")(lambda task: None).compensation(lambda task: None)
    b = saga.step(name="b", tries=2, backoff=FAST, timeout=None, on_exhausted="fail")
    b(lambda task: None).compensation(on_exhausted="retry")(lambda task: None)
    saga.step(external=True, name="elsewhere").compensation(external=True)
    saga.wait(until=datetime.timedelta(1), name="later")(lambda task: None)
    saga.approval(name="review", timeout=99)(lambda task: None)
    saga.include(inner)
    step = next(step for step in saga.all_steps if step.name == name.removesuffix("-undo"))
    manner = step.manner("undo" if name.endswith("-undo") else "run")
    expected = options | more
    assert {word: getattr(manner, word) for word in expected} == expected


def test_a_failed_compensation_asks_also_if_the_steps_of_its_saga_fail() -> None:
    saga = sagas.Saga("outer", on_exhausted="fail")
    step = saga.step(name="a")(lambda task: None)
    step.compensation(lambda task: None)
    assert (step.run.on_exhausted, step.undo.on_exhausted) == ("fail", "ask")


@pytest.mark.parametrize(
    "options, error, message",
    [
        ({"tries": 0}, sagas.DefinitionError, r"saga 'a': tries=0: must be an integer from 1"),
        ({"timeout": -1}, sagas.DefinitionError, r"saga 'a': timeout=-1: must be seconds"),
        ({"on_exhausted": "no"}, sagas.DefinitionError, "saga 'a': on_exhausted='no': must be one"),
        ({"queue": 3}, sagas.DefinitionError, "saga 'a': queue=3: must be a sagas.celery.Queue"),
        ({"trys": 3}, TypeError, "argument 'trys'; did you mean 'tries'?"),
        ({"keep": 3}, TypeError, "argument 'keep'"),
    ],
)
def test_a_wrong_default_of_a_saga(
    options: dict[str, Any], error: type[Exception], message: str
) -> None:
    with pytest.raises(error, match=message):
        sagas.Saga("a", **options)


def test_draw() -> None:
    """The picture, as text for Graphviz."""
    assert trip().draw().startswith('digraph "trip"')


def test_version() -> None:
    """Another version is another text, and the same definition otherwise."""
    first, second = sagas.Saga("a"), sagas.Saga("a", version=2)
    for saga in (first, second):
        saga.step(name="s")(lambda task: None)
    assert first.toml() != second.toml() and tomllib.loads(first.toml()) == tomllib.loads(
        second.toml()
    )


# -- faults


def two_of_a_name(saga: sagas.Saga) -> None:
    @saga.step
    def a(task: Task) -> None:
        ...

    @saga.step(name="a")
    def b(task: Task) -> None:
        ...


def no_argument(saga: sagas.Saga) -> None:
    @saga.step  # type: ignore[arg-type]
    def a() -> None:
        ...


def a_generator(saga: sagas.Saga) -> None:
    @saga.step
    def a(task: Task) -> Any:
        yield 1


def a_need_that_is_not_there(saga: sagas.Saga) -> None:
    @saga.step(needs=[StepName("b")])
    def a(task: Task) -> None:
        ...


def a_need_that_is_a_text(saga: sagas.Saga) -> None:
    @saga.step(needs=["b"])  # type: ignore[list-item]
    def a(task: Task) -> None:
        ...


def a_need_twice(saga: sagas.Saga) -> None:
    @saga.step
    def a(task: Task) -> None:
        ...

    @saga.step(needs=[a, a])
    def b(task: Task) -> None:
        ...


def a_circle(saga: sagas.Saga) -> None:
    @saga.step(needs=[StepName("b")])
    def a(task: Task) -> None:
        ...

    @saga.step(needs=[a])
    def b(task: Task) -> None:
        ...


def undo_without_a_compensation(saga: sagas.Saga) -> None:
    @saga.step(undo=3)
    def a(task: Task) -> None:
        ...


def never_with_a_compensation(saga: sagas.Saga) -> None:
    @saga.step(undo=sagas.NEVER)
    def a(task: Task) -> None:
        ...

    @a.compensation
    def b(task: Task) -> None:
        ...


def two_compensations(saga: sagas.Saga) -> None:
    @saga.step
    def a(task: Task) -> None:
        ...

    @a.compensation
    def b(task: Task) -> None:
        ...

    @a.compensation
    def c(task: Task) -> None:
        ...


def a_price_below_0(saga: sagas.Saga) -> None:
    @saga.step(keep=-1)
    def a(task: Task) -> None:
        ...


def a_price_that_is_no_number(saga: sagas.Saga) -> None:
    @saga.step(keep=1.5)  # type: ignore[call-overload, misc]
    def a(task: Task) -> None:
        ...


def too_many_tries(saga: sagas.Saga) -> None:
    @saga.step(tries=1001)
    def a(task: Task) -> None:
        ...


def too_many_tries_of_a_compensation(saga: sagas.Saga) -> None:
    @saga.step
    def a(task: Task) -> None:
        ...

    @a.compensation(tries=1001)
    def b(task: Task) -> None:
        ...


def a_step_of_another_saga(saga: sagas.Saga) -> None:
    other = sagas.Saga("other").step(name="x")(lambda task: None)

    @saga.step(needs=[other])
    def a(task: Task) -> None:
        ...


def a_name_with_capitals(saga: sagas.Saga) -> None:
    @saga.step(name="No")
    def a(task: Task) -> None:
        ...


def a_time_of_0(saga: sagas.Saga) -> None:
    @saga.step(timeout=0)
    def a(task: Task) -> None:
        ...


def a_limit_of_0(saga: sagas.Saga) -> None:
    @saga.step(concurrency=0)
    def a(task: Task) -> None:
        ...


def a_time_without_a_zone(saga: sagas.Saga) -> None:
    @saga.wait(until=datetime.datetime(2030, 1, 1))
    def a(task: Task) -> None:
        ...


def a_need_by_itself(saga: sagas.Saga) -> None:
    @saga.step
    def flight(task: Task) -> None:
        ...

    @saga.step(needs=flight)  # type: ignore[call-overload, misc]
    def a(task: Task) -> None:
        ...


def a_name_by_itself(saga: sagas.Saga) -> None:
    @saga.step
    def flight(task: Task) -> None:
        ...

    @saga.step(needs="flight")
    def a(task: Task) -> None:
        ...


def a_pause_in_seconds(saga: sagas.Saga) -> None:
    @saga.step(backoff=3)  # type: ignore[call-overload, misc]
    def a(task: Task) -> None:
        ...


def a_pause_below_0(saga: sagas.Saga) -> None:
    @saga.step(backoff=sagas.Backoff(initial=-1))
    def a(task: Task) -> None:
        ...


def a_need_that_is_misspelt(saga: sagas.Saga) -> None:
    @saga.step
    def flight(task: Task) -> None:
        ...

    @saga.step(needs=[StepName("fligth")])
    def a(task: Task) -> None:
        ...


def a_need_that_is_no_step(saga: sagas.Saga) -> None:
    def flight(task: Task) -> None:
        ...

    @saga.step(needs=[flight])  # type: ignore[list-item]
    def a(task: Task) -> None:
        ...


def a_step_on_a_circle(saga: sagas.Saga) -> None:
    saga.step(name="z", needs=[StepName("a")])(lambda task: None)
    saga.step(name="a", needs=[StepName("b")])(lambda task: None)
    saga.step(name="b", needs=[StepName("a")])(lambda task: None)


def an_approval_within_a_text(saga: sagas.Saga) -> None:
    @saga.approval(timeout="3600")  # type: ignore[call-overload, misc]
    def a(task: Task) -> None:
        ...


def an_approval_within_no_time(saga: sagas.Saga) -> None:
    @saga.approval(timeout=0)
    def a(task: Task) -> None:
        ...


def a_decorator_as_a_need(saga: sagas.Saga) -> None:
    pause = saga.wait(until=datetime.timedelta(1), name="pause")

    @saga.step(needs=[pause])  # type: ignore[list-item]
    def a(task: Task) -> None:
        ...


def a_wait_that_is_left_alone(saga: sagas.Saga) -> None:
    saga.step(name="a")(lambda task: None)
    saga.wait(until=datetime.timedelta(1), name="pause")


def an_approval_that_is_left_alone(saga: sagas.Saga) -> None:
    saga.step(name="a")(lambda task: None)
    saga.approval(name="review")


def a_pause_that_is_less_than_the_first(saga: sagas.Saga) -> None:
    @saga.step(backoff=sagas.Backoff(initial=1, maximum=0.1))
    def a(task: Task) -> None:
        ...


def a_rate_in_a_text(saga: sagas.Saga) -> None:
    @saga.step(rate_limit=(100, "minute"))  # type: ignore[arg-type]
    def a(task: Task) -> None:
        ...


def one_exception_by_itself(saga: sagas.Saga) -> None:
    @saga.step(no_effect=TimeoutError)  # type: ignore[call-overload, misc]
    def a(task: Task) -> None:
        ...


def a_queue_by_its_name(saga: sagas.Saga) -> None:
    @saga.step(queue="slow")  # type: ignore[call-overload, misc]
    def a(task: Task) -> None:
        ...


def no_name(saga: sagas.Saga) -> None:
    saga.step(external=True)  # type: ignore[call-overload]


FAULTY: list[tuple[Callable[[sagas.Saga], None], str]] = [
    (a_queue_by_its_name, "queue='slow' of its function: must be a sagas.celery.Queue"),
    (two_of_a_name, "another step"),
    (no_argument, "one argument"),
    (a_generator, "a generator, which would not run. Return the result"),
    (a_need_that_is_not_there, "needs unknown step 'b'"),
    (a_need_that_is_a_text, "which is a text. Pass the step itself: needs=[b]"),
    (a_need_twice, "twice"),
    (a_circle, "a needs b needs a"),
    (
        undo_without_a_compensation,
        (
            "undo=3, but it has no compensation. Declare @a.compensation, or set undo=sagas.NOTHING"
            " if there is nothing to undo"
        ),
    ),
    (never_with_a_compensation, "never called. Remove one"),
    (
        two_compensations,
        (
            "two compensations, but one must undo everything. Call both from one function, or"
            " remove one"
        ),
    ),
    (a_price_below_0, "an integer from 0"),
    (a_price_that_is_no_number, "an integer from 0"),
    (too_many_tries, "1 to 1,000"),
    (too_many_tries_of_a_compensation, "1 to 1,000"),
    (a_step_of_another_saga, "of saga 'other'"),
    (a_name_with_capitals, "1 to 32"),
    (a_time_of_0, "a timedelta, > 0"),
    (a_limit_of_0, "an integer >= 1"),
    (a_time_without_a_zone, "time zone"),
    (a_need_by_itself, "needs=["),
    (a_name_by_itself, "needs=["),
    (a_pause_in_seconds, "sagas.Backoff"),
    (a_pause_below_0, "must be >= 0"),
    (a_need_that_is_misspelt, "did you mean 'flight'?"),
    (a_need_that_is_no_step, "Declare it with @s.step"),
    (a_step_on_a_circle, "step 'a': is in a cycle of needs: a needs b needs a"),
    (an_approval_within_a_text, "seconds or a timedelta"),
    (an_approval_within_no_time, "a timedelta, > 0"),
    (a_decorator_as_a_need, "needs s.wait(...) of"),
    (
        a_wait_that_is_left_alone,
        "s.wait(...) declares nothing, because it is a decorator. Apply it to a function",
    ),
    (
        an_approval_that_is_left_alone,
        "s.approval(...) declares nothing, because it is a decorator. Apply it to a function",
    ),
    (a_pause_that_is_less_than_the_first, "Set maximum=1 or more"),
    (a_rate_in_a_text, "seconds or a timedelta"),
    (one_exception_by_itself, "no_effect=(ConnectionRefusedError,)"),
    (no_name, "Set name="),
]


@pytest.mark.parametrize("make, text", FAULTY)
def test_a_fault_names_step_file_and_line(make: Callable[[sagas.Saga], None], text: str) -> None:
    """Each is a DefinitionError, reported at the line to change."""
    saga = sagas.Saga("s")
    with pytest.raises(sagas.DefinitionError) as error:
        make(saga)
        saga.toml()
    message = str(error.value)
    file, line, _ = message.split(":", 2)
    lines, first = inspect.getsourcelines(make)
    assert file == __file__ and first < int(line) < first + len(lines), message
    assert text in message and "step '" in message


def test_a_saga_without_steps_and_two_of_a_name(tmp_path: pathlib.Path) -> None:
    """They are reported by file and line too."""
    with pytest.raises(sagas.DefinitionError, match=f"{pathlib.Path(__file__).name}:.*no step"):
        sagas.Saga("empty").toml()
    with pytest.raises(sagas.DefinitionError, match=r"\.py:\d+: saga 'Empty'"):
        sagas.Saga("Empty")
    with pytest.raises(sagas.DefinitionError, match="another saga"):
        sagas.open(tmp_path / "store.db", [trip(), trip()])
    for argument in (trip(), [trip().steps[0]], 17):
        with pytest.raises(
            sagas.DefinitionError, match="expected a (list of sagas|sagas.Saga), got"
        ):
            sagas.open(tmp_path / "store.db", argument)  # type: ignore[arg-type]


def test_a_compensation_that_is_never_called(
    tmp_path: pathlib.Path, caplog: pytest.LogCaptureFixture
) -> None:
    """It is valid, and probably a mistake: a warning, with file and line, which `open` logs; with
    both costs there is none.
    """
    saga = sagas.Saga("s")

    @saga.step(undo=5, keep=3)
    def a(task: Task) -> None:
        ...

    @a.compensation
    def not_a(task: Task) -> None:
        ...

    (warning,) = saga.warnings()
    assert "can never be called" in warning and warning.startswith(f"{__file__}:")
    assert warning.endswith(
        "(keep=3) costs less than undoing it (undo=5). Set keep= to more than 5, or remove the"
        " compensation"
    )
    assert trip().warnings() == []

    async def main() -> None:
        async with sagas.open(tmp_path / "store.db", [saga, trip()]):
            pass

    run(main())
    assert [record.getMessage() for record in caplog.records if record.levelname == "WARNING"] == [
        warning
    ]


def chained(receipt: Any = ..., has_follower: bool = True) -> tuple[sagas.Saga, list[str]]:
    """Return a charge, a receipt for it whose `undo` is set or not, and a later step that fails;
    and the undone steps.
    """
    saga, undone = sagas.Saga("order"), list[str]()
    charge = saga.step(name="charge")(lambda task: None)
    charge.compensation(lambda task: undone.append(task.step))
    receipt_step = saga.step(
        name="receipt", needs=[charge], **({} if receipt is ... else {"undo": receipt})
    )(lambda task: None)

    def send(task: Task) -> None:
        raise sagas.Fail("no such address")

    if has_follower:
        saga.step(name="send", needs=[receipt_step])(send)
    return saga, undone


def test_nothing_to_undo(location: str) -> None:
    """A step without a compensation keeps the steps that it needs from being undone; with
    `undo=NOTHING` it is undone by doing nothing.
    """
    kept, gone = chained()[0], chained(sagas.NOTHING)
    gone[0].name = "gone"

    async def main() -> tuple[sagas.SagaResult, sagas.SagaResult, str, list[str | None]]:
        async with sagas.open(location, [kept, gone[0]]) as store:
            ends = await ended(store, kept, "kept"), await ended(store, gone[0], "gone")
            plans = await store.plan("kept"), await store.plan("gone")
            assert plans[0] and plans[1]
            return *ends, str(plans[0]), [choice.needed_by for choice in plans[1].choices]

    first, other, warning, needed = run(main())
    assert warning.splitlines()[2:] == [
        "  charge   committed             0             0  stands: receipt needs it",
        "  receipt  committed             0         never  stands",
        "  send     failed            never             0  is left out",
    ]
    assert needed == [None, None, None]
    assert first.states == {"charge": "committed", "receipt": "committed", "send": "failed"}
    assert other.states == {"charge": "undone", "receipt": "undone", "send": "failed"} and gone[
        1
    ] == ["charge"]


def test_a_compensation_with_undo_0() -> None:
    """A declared compensation replaces doing nothing."""
    saga, undone = chained(0)
    saga.steps[1].compensation(lambda task: undone.append(task.step))
    assert sagas.testing.run(saga).states["charge"] == "undone" and undone == ["receipt", "charge"]
    plain = chained(0)[0].toml()
    assert tomllib.loads(saga.toml().replace("undo_tries = 2\n", "")) == tomllib.loads(
        plain.replace("undo_tries = 2\n", "")
    )
    # so that a program without it is noticed
    assert '"receipt"\n# compensated\n' in saga.toml() and '"receipt"\n# comp' not in plain


def test_steps_that_keep_others_from_being_undone() -> None:
    """A step without a compensation follows one with a compensation, and does not say what it
    means. It causes no warning if no later or parallel step may fail.
    """
    saga = chained()[0]
    (warning,) = saga.warnings()
    assert (
        warning
        == f"{saga.steps[1].where}: saga 'order', step 'receipt' has no compensation, so 'charge',"
        " which it needs, can never be undone after it commits. Set undo=sagas.NOTHING if there"
        " is nothing to undo, or undo=sagas.NEVER to confirm"
    )
    assert warning.startswith(f"{__file__}:")
    for quiet in (chained(sagas.NOTHING), chained(sagas.NEVER), chained(has_follower=False)):
        assert quiet[0].warnings() == []


def test_a_keeping_step_is_reported_once() -> None:
    """It holds for the last step too; the warning names all steps that it keeps, except those that
    an earlier step keeps already.
    """
    saga = chained()[0]
    hire = saga.step(name="hire")(lambda task: None)
    hire.compensation(lambda task: None)
    saga.step(name="mail", needs=[saga.parts_by_name["send"], hire])(lambda task: None)
    saga.step(name="beside")(lambda task: None)
    causes = [warning.split("step ", 1)[1].partition("; say")[0] for warning in saga.warnings()]
    assert causes == [
        (
            "'receipt' has no compensation, so 'charge', which it needs, can never be undone after"
            " it commits. Set undo=sagas.NOTHING if there is nothing to undo, or undo=sagas.NEVER"
            " to confirm"
        ),
        (
            "'mail' has no compensation, so 'hire', which it needs, can never be undone after it"
            " commits. Set undo=sagas.NOTHING if there is nothing to undo, or undo=sagas.NEVER to"
            " confirm"
        ),
    ]
    saga = sagas.Saga("two")
    for name in ("a", "b"):
        saga.step(name=name)(lambda task: None).compensation(lambda task: None)
    saga.step(name="c", needs=saga.steps[:])(lambda task: None)
    saga.step(name="d")(lambda task: None)
    (warning,) = saga.warnings()
    assert "'a' and 'b', which it needs, can never be undone" in warning


def test_the_reason_to_keep_a_step() -> None:
    """Another step that is kept, or is running, needs it.

    That is not the reason if keeping it costs less, or it cannot be dropped.
    """
    text = """
        format = 2
        name = "s"
        step = [
            {name = "a", keep = 1}, {name = "b", needs = ["a"], undo = 5, keep = 3},
            {name = "c", needs = ["a"], skip = 9},
            {name = "d", undo = "never", needs = ["b"]}, {name = "e", needs = ["a"]},
        ]
    """
    states = ["committed", "committed", "waiting", "committed", "failed"]
    plan = sagas.Plan("s", "k", text, {"states": states}, {"cost": 4, "kept": [0, 1, 2, 3]})
    assert [choice.detail for choice in plan.choices] == [
        "stands: b needs it",
        "stands",
        "is run",
        "stands",
        "is left out",
    ]
    assert [choice.decision for choice in plan.choices] == [
        "stands",
        "stands",
        "is run",
        "stands",
        "is left out",
    ]


def test_hints_that_cannot_be_evaluated() -> None:
    """A name that only the type checker has: `open` reports that values are as JSON has them."""
    saga = sagas.Saga("s")

    @saga.step
    def a(task: sagas.Task[Elsewhere]) -> None:
        ...  # type: ignore[name-defined]

    (warning,) = saga.warnings()
    assert "'Elsewhere' is not defined" in warning and warning.startswith(f"{__file__}:")


def test_decorators_with_and_without_arguments() -> None:
    """`@saga.approval` works as `@saga.step`; a function is decorated, and not passed as
    `handler`.
    """
    saga = sagas.Saga("s")

    @saga.approval
    def review(task: Task) -> None:
        ...

    assert (review.kind, review.name, review.approval_timeout) == ("approval", "review", None)
    with pytest.raises(
        sagas.DefinitionError, match=r"test_definition\.py:\d+: saga 's': external="
    ):
        saga.step(external=print, name="x")  # type: ignore[call-overload]


def test_a_decorator_without_a_function() -> None:
    """The error for such a step or compensation has its line.

    One decorator may make several steps.
    """
    saga = sagas.Saga("s")
    both = saga.step(tries=2)

    @both
    def a(task: Task) -> None:
        ...

    @both
    def b(task: Task) -> None:
        ...

    assert [step.run.tries for step in saga.steps] == [2, 2] and saga.toml()
    a.compensation(tries=2)
    with pytest.raises(
        sagas.DefinitionError,
        match=(
            r"test_definition\.py:\d+: saga 's': a\.compensation\(\.\.\.\) declares nothing,"
            r" because it is a decorator"
        ),
    ):
        saga.toml()


def test_times_are_seconds_or_a_timedelta() -> None:
    """This holds for an approval and a rate, as for `timeout`.

    Pauses that are cut because no longest one is set are a warning.
    """
    saga = sagas.Saga("s")
    minute = datetime.timedelta(minutes=1)
    ways: tuple[tuple[str, float | datetime.timedelta], ...] = ("a", minute), ("b", 60)
    for name, time in ways:
        step = saga.step(name=name, rate_limit=(100, time))(lambda task: None)
        assert step.bounds is not None and step.bounds.rate_limit == (100, 60)
        assert (
            saga.approval(name=f"{name}2", timeout=time)(lambda task: None).approval_timeout
            == minute
        )
    assert saga.warnings() == []
    saga.step(name="c", tries=2, backoff=sagas.Backoff(initial=300))(lambda task: None)
    (warning,) = saga.warnings()
    assert (
        "the pauses of its function are 60.0 s, not 300 s, because that is the default maximum. Set"
        " sagas.Backoff(initial=300, maximum=300)" in warning
    )


# -- types


@dataclasses.dataclass
class Booking:
    """A value that is stored as JSON and read again."""

    city: str
    day: datetime.date
    seats: list[int]


def test_dataclasses_cross_as_json(tmp_path: pathlib.Path) -> None:
    """Inputs and results, by type hints; also in compensations, and after a restart."""
    seen: list[Any] = []
    saga = sagas.Saga("typed")

    @saga.step
    def book(task: sagas.Task[Booking]) -> Booking:
        seen.append(task.input)
        return dataclasses.replace(task.input, seats=[*task.input.seats, 9])

    @book.compensation
    def cancel(task: sagas.Task[Booking]) -> None:
        seen.append(task.result)

    @saga.step(needs=[book])
    def check(task: sagas.Task[Booking]) -> None:
        seen.append(task.result_of(book))
        raise sagas.Fail("no")

    value = Booking("Lisbon", datetime.date(2031, 5, 1), [1, 2])

    async def main() -> None:
        async with sagas.open(tmp_path / "store.db", [saga]) as store:
            await ended(store, saga, value=value)

    run(main())
    booked = dataclasses.replace(value, seats=[1, 2, 9])
    assert seen == [value, booked, booked]


TYPED = """
    from typing import Any
    import sagas

    trip = sagas.Saga("trip")

    @trip.step
    async def flight(task: sagas.Task[dict[str, str]]) -> str:
        return task.input["flight"]

    @trip.step(needs=[flight], tries=3)
    def car(task: sagas.Task[dict[str, str]]) -> int:
        return len(task.result_of(flight))

    @trip.step(needs=[car], undo=sagas.NOTHING)
    def tour(task: sagas.Task[Any]) -> None:
        reveal_type(task.result_of(flight))
        reveal_type(task.result_of(car))
        reveal_type(task.result_of(car, default=None))

    @trip.step(tires=3)
    def typo(task: sagas.Task[Any]) -> None: ...

    trip.step(external=True, timeout=3)

    @car.compensation(tries="3")
    def cancel(task: sagas.Task[Any]) -> None: ...

    @trip.wait(until=None)
    def late(task: sagas.Task[Any]) -> None: ...

    @trip.approval(keep=3)
    def review(task: sagas.Task[Any]) -> None: ...
"""
WRONG = ("step", "step", "compensation", "wait", "approval")
"""The call with the wrong option, in each of the errors."""


def test_types_are_seen(tmp_path: pathlib.Path) -> None:
    """`task.result_of(flight)` has the return type of `flight`, and mypy finds each wrong option
    in a program, and no other error.
    """
    path = tmp_path / "typed.py"
    path.write_text(textwrap.dedent(TYPED))
    feature = "--enable-incomplete-feature=Unpack"
    arguments = ["mypy", "--strict", feature, "--cache-dir", types_in(tmp_path), str(path)]
    try:
        done = subprocess.run(
            arguments,
            capture_output=True,
            text=True,
            env={"MYPYPATH": str(HERE.parent / "src"), "PATH": "/usr/bin:/bin"},
            check=False,
        )
    except FileNotFoundError:
        done = subprocess.run(
            [sys.executable, "-m", *arguments], capture_output=True, text=True, check=False
        )
    lines = [line for line in done.stdout.splitlines() if line.startswith(str(path))]
    assert ['"builtins.str"', '"builtins.int"', '"Union[builtins.int, None]"'] == [
        line.split("Revealed type is ")[1] for line in lines if "Revealed" in line
    ], done.stdout
    errors = [line for line in lines if ": error: " in line and "[misc]" not in line]
    assert len(errors) == len(WRONG), done.stdout
    assert all(f'"{call}" of "' in error for call, error in zip(WRONG, errors)), done.stdout
