"""`sagas.testing`: a whole saga in memory, with failures by step and attempt.

Its clock needs no real time.
"""

from __future__ import annotations

import asyncio
import dataclasses
import datetime
import sys
import time
from collections.abc import Callable
from typing import Any

import pytest

import sagas
import sagas.testing
from sagas.testing import Clock, run

DAY = datetime.timedelta(days=1)


def trip() -> sagas.Saga:
    """Return a saga: a flight without a compensation, a car worth keeping, a hotel with three
    tries, and a tour that needs it.
    """
    trip = sagas.Saga("trip")

    @trip.step
    async def flight(task: sagas.Task[Any]) -> str:
        return f"flight {task.input}"

    @trip.step(needs=[flight], undo=5, keep=3, max_unknown=3)
    def car(task: sagas.Task[Any]) -> str:
        return f"car for {task.result_of(flight)}"

    @car.compensation(tries=2)
    def cancel_car(task: sagas.Task[Any]) -> None:
        assert task.result == "car for flight LH400"

    @trip.step(needs=[flight], skip=25, tries=3, backoff=sagas.Backoff(initial=60, maximum=90))
    async def hotel(task: sagas.Task[Any]) -> int:
        return task.attempt

    @hotel.compensation
    async def cancel_hotel(task: sagas.Task[Any]) -> None:
        assert task.result

    @trip.step(needs=[hotel], run=30, skip=10)
    async def tour(task: sagas.Task[Any]) -> str:
        return "tour"

    return trip


def late(approves: bool = True) -> sagas.Saga:
    """Return a saga: a step that can be undone, a wait of three days, and an approval."""
    late = sagas.Saga("late")

    @late.step
    def order(task: sagas.Task[Any]) -> int:
        return 7

    @order.compensation(on_exhausted="fail", tries=1)
    def cancel(task: sagas.Task[Any]) -> None:
        ...

    @late.wait(needs=[order], until=3 * DAY)
    def wait(task: sagas.Task[Any]) -> str:
        return "waited"

    @late.approval(needs=[wait], timeout=2 * DAY if approves else None, name="manager")
    def ask(task: sagas.Task[Any]) -> None:
        ...

    @late.step(needs=[ask])
    def go(task: sagas.Task[Any]) -> Any:
        return task.results["manager"]

    return late


def test_all_goes_well() -> None:
    """Each step is called once, with the results of the steps that it needs."""
    trial = run(trip(), "LH400")
    assert trial.phase == "completed" and set(trial.states.values()) == {"committed"}
    assert trial.results == {
        "flight": "flight LH400",
        "car": "car for flight LH400",
        "hotel": 1,
        "tour": "tour",
    }
    assert (trial.cost, trial.blocking_steps, trial.aborted, trial.seconds) == (
        None,
        [],
        False,
        0.0,
    )
    assert len(trial.calls) == 4 and not trial.undone


def test_fails_by_number() -> None:
    """The first two attempts fail, the third succeeds, and the back-off takes no time."""
    began = time.perf_counter()
    trial = run(trip(), "LH400", fail={"hotel": 2})
    assert time.perf_counter() - began < 2
    assert trial.results["hotel"] == 3
    assert [
        (call.attempt, call.outcome, call.at) for call in trial.calls if call.step == "hotel"
    ] == [
        (1, "failed", 0.0),
        (2, "failed", 60.0),
        (3, "succeeded", 150.0),
    ]


def test_fails_permanently() -> None:
    """Flight and car are kept, for 0 + 3 + 25 + 10; the other tries are not made after `Fail`."""
    ways: tuple[sagas.testing.Attempts, ...] = (3, sagas.Fail("full"))
    for fail in ways:
        trial = run(trip(), "LH400", fail={"hotel": fail})
        assert trial.states == {
            "flight": "committed",
            "car": "committed",
            "hotel": "failed",
            "tour": "waiting",
        }
        assert trial.cost == 38 and set(trial.results) == {"flight", "car"}
    assert len([call for call in trial.calls if call.step == "hotel"]) == 1


def test_fails_at_one_attempt() -> None:
    """A list names attempts."""
    trial = run(trip(), "LH400", fail={"hotel": [1]})
    assert trial.results["hotel"] == 2


def test_unknown_is_made_again_with_the_same_token() -> None:
    """The function's result is lost twice: three calls, one token, one attempt."""
    trial = run(trip(), "LH400", unknown={"car": 2})
    cars = [call for call in trial.calls if call.step == "car"]
    assert [call.outcome for call in cars] == ["unknown", "unknown", "succeeded"]
    assert len({call.attempt_id for call in cars}) == 1 and trial.phase == "completed"


def test_unknown_for_ever_waits_for_a_person() -> None:
    """After three of them an operator has to report."""
    with pytest.raises(LookupError, match="car"):
        run(trip(), "LH400", unknown={"car": 99})
    assert (
        run(trip(), "LH400", unknown={"car": 99}, answers={"car": "it was hired"}).results["car"]
        == "it was hired"
    )


def test_abort_undoes_what_costs_less_to_undo() -> None:
    """Once the order exists the saga is aborted: it is undone, and no step waits three days."""
    trial = run(late(), abort="order")
    assert trial.aborted and trial.states["order"] == "undone" and trial.phase == "recovered"
    assert [call.step for call in trial.undone] == ["order"] and trial.seconds == 0.0


def test_a_compensation_fails() -> None:
    """It has one try: the order stays, and the saga ends with it."""
    trial = run(late(), abort="order", fail_undo={"order": 1})
    assert trial.states["order"] == "undo_failed" and trial.phase == "recovered"


def test_three_days_take_no_time() -> None:
    """The clock advances to the next event."""
    clock = Clock(datetime.datetime(2031, 5, 1, tzinfo=datetime.timezone.utc))
    trial = run(late(), answers={"manager": "yes"}, clock=clock)
    assert trial.results["go"] == "yes" and trial.seconds == 3 * 86400
    assert clock.now().isoformat() == "2031-05-04T00:00:00+00:00"


def test_an_approval_that_times_out() -> None:
    """After two more days it has failed, and the steps that can be undone are undone."""
    trial = run(late())
    assert (
        trial.states["manager"] == "failed"
        and trial.states["order"] == "undone"
        and trial.seconds == 5 * 86400
    )


def test_an_approval_needs_an_answer() -> None:
    """Without a time an approval needs an answer: a value, a function or an exception."""
    with pytest.raises(LookupError, match="manager"):
        run(late(approves=False))
    assert (
        run(late(), answers={"manager": lambda task: task.results["order"] + 1}).results["go"] == 8
    )
    assert run(late(), answers={"manager": sagas.Fail("no")}).states["manager"] == "failed"


def test_stuck() -> None:
    """A step that must not be left out fails permanently."""
    must = sagas.Saga("must")

    @must.step(skip=sagas.NEVER)
    def licence(task: sagas.Task[Any]) -> None:
        ...

    trial = run(must, fail={licence: sagas.Fail})
    assert trial.phase == "stuck" and trial.blocking_steps == ["licence"]


def test_a_trial_is_as_an_end() -> None:
    """`ok`, `of` and `errors`, as of `SagaResult`; an exception is given by its class, too."""
    saga = trip()
    trial = run(saga, "LH400")
    assert trial.ok and trial.result_of(saga.steps[0]) == "flight LH400" and trial.errors == {}
    trial = run(saga, "LH400", fail={"hotel": sagas.Retry})
    assert not trial.ok and trial.errors == {"hotel": "sagas.Retry"}


def test_a_trial_is_printed_as_an_end() -> None:
    """One line, and one for each step; `of` takes names, too."""
    trial = run(trip(), "LH400", key="order-1", fail={"hotel": sagas.Fail("full")})
    assert str(trial).splitlines() == [
        "trip order-1: recovered, plan of cost 38",
        "  committed flight",
        "  committed car",
        "  failed    hotel: sagas.Fail: full",
        "  not run   tour",
    ]
    assert trial.result_of("car") == "car for flight LH400"
    with pytest.raises(KeyError, match="step 'hotel' is not committed: it is failed"):
        trial.result_of("hotel")


FORMS = r"must be a number of attempts \(1\), a list of attempts"


@pytest.mark.parametrize(
    "script, kind, text",
    [
        ({"fail": {"boat": 1}}, KeyError, "no step 'boat'"),
        ({"fail": {"hotle": 1}}, KeyError, "no step 'hotle'; did you mean 'hotel'"),
        ({"fail": {17: 1}}, TypeError, "17: must be a step of saga 'trip', or its name"),
        ({"fail": {"hotel": "full"}}, TypeError, rf"fail=\{{'hotel': 'full'\}}: {FORMS}"),
        ({"fail": {"hotel": int}}, TypeError, FORMS),
        ({"fail": {"hotel": 1.5}}, TypeError, FORMS),
        ({"fail": {"hotel": True}}, TypeError, FORMS),
        ({"fail": {"hotel": [0]}}, ValueError, "numbered from 1"),
        ({"fail": {"hotel": -1}}, ValueError, "numbered from 1"),
        (
            {"fail": ["hotel"]},
            TypeError,
            rf"fail=\['hotel'\]: must be a dict of attempts by step: fail=",
        ),
        ({"unknown": "hotel"}, TypeError, "unknown='hotel': must be a dict"),
        (
            {"fail_undo": {"flight": 1}},
            ValueError,
            (
                "fail_undo: step 'flight' has no compensation, so it is never undone. Declare one"
                " with @flight.compensation"
            ),
        ),
        ({"answers": ["hotel"]}, TypeError, "must be a dict of answers by step"),
        ({"abort": "boat"}, KeyError, "no step 'boat'"),
    ],
)
def test_an_invalid_script(script: dict[str, Any], kind: type[Exception], text: str) -> None:
    """A script without a meaning is an error of the test, by its name."""
    with pytest.raises(kind, match=text):
        run(trip(), "LH400", **script)


def test_all_attempts_by_a_number() -> None:
    """However large it is, it is not counted up."""
    assert run(trip(), "LH400", fail={"hotel": sys.maxsize}).states["hotel"] == "failed"


def test_failures_of_doing_nothing() -> None:
    """Doing nothing cannot fail; and an argument that is not a saga is reported as that."""
    with pytest.raises(
        ValueError, match="unknown_undo: step 'wait' .* undoing it does nothing, which cannot fail"
    ):
        run(late(), unknown_undo={"wait": 1})
    with pytest.raises(sagas.DefinitionError, match="expected a sagas.Saga, got 'trip'"):
        run("trip")  # type: ignore[arg-type]


def saga_of(function: Any, **options: Any) -> sagas.Saga:
    """Return a saga of one step."""
    saga = sagas.Saga("one")
    saga.step(name="a", **options)(function)
    return saga


def test_a_result_that_is_not_json() -> None:
    """It raises, as an answer does: a store keeps the effect and loses the result.

    The return value of a compensation is ignored.
    """
    with pytest.raises(
        sagas.ResultNotSerializable,
        match="step 'a' returned a value that is not JSON: object is not JSON",
    ):
        run(saga_of(lambda task: object()))
    with pytest.raises(sagas.NotSerializable, match=r"answers\['manager'\]: object is not JSON"):
        run(late(approves=False), answers={"manager": object()})
    saga = saga_of(lambda task: {1, 2})
    saga.steps[0].compensation(lambda task: object())
    saga.step(name="b", needs=saga.steps[:1])(lambda task: None)
    assert run(saga, fail={"b": sagas.Fail}).states == {"a": "undone", "b": "failed"}


@dataclasses.dataclass
class Half:
    """A type with a name that only the type checker has."""

    other: Elsewhere  # type: ignore[name-defined]


def test_an_input_that_does_not_fit() -> None:
    """It is refused as by a store; parts that cannot be checked are left to the step."""

    def reads(task: sagas.Task[dict[int, datetime.date]]) -> None:
        ...

    def half(task: sagas.Task[Half]) -> None:
        ...

    with pytest.raises(sagas.InvalidInput, match=r"saga 'one', step 'a': input\[.1.\]"):
        run(saga_of(reads), {"1": "no day"})
    assert run(saga_of(half), {"other": 1}).ok


def test_a_transaction() -> None:
    """Simulations have no database: a test passes a connection in, if a step requests one."""
    asks = saga_of(lambda task: [*task.connection], transaction=True)
    with pytest.raises(RuntimeError, match=r"sagas.testing has no database. Set connection=\.\.\."):
        run(asks)
    assert run(asks, connection=[1, 2]).results == {"a": [1, 2]}
    assert run(saga_of(lambda task: 1, transaction=True)).ok


@pytest.mark.parametrize("until", [5, datetime.datetime(2031, 5, 1)])
def test_a_wait_until_something_else(until: datetime.datetime) -> None:
    """The simulation raises this bug of the program. In a store, the attempt waits."""
    saga = sagas.Saga("late")
    until_time: Callable[[sagas.Task[Any]], datetime.datetime] = lambda task: until
    saga.wait(until=until_time, name="wait")(lambda task: None)
    rule = "until returned .*: it must be a timedelta or a datetime with a time zone"
    with pytest.raises(sagas.ProgramError, match=rule):
        run(saga)


def test_in_a_loop() -> None:
    """`run_async` works while a loop runs."""

    async def main() -> sagas.testing.Trial:
        return await sagas.testing.run_async(trip(), "LH400")

    assert asyncio.run(main()).phase == "completed"

    async def wrong() -> None:
        run(trip(), "LH400")

    with pytest.raises(RuntimeError, match="Await sagas.testing.run_async"):
        asyncio.run(wrong())
