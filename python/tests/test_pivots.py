"""A pivot: a failure undoes until it has committed; afterwards the saga goes forward."""

from __future__ import annotations

import pathlib
from collections.abc import Callable
from typing import Any

import pytest
from cases import QUICK, Task, run
from serving import FEW, served, start

import sagas
import sagas.testing
from sagas.cli import store_command
from sagas.definition import definition_text

NO = sagas.Fail("no")
SHORT = {
    "committed": "+",
    "failed": "x",
    "undone": "u",
    "waiting": "-",
    "undo_failed": "!",
}
"""The states of steps in one character."""


def act(task: Task) -> str:
    """Do the step."""
    return str(task.step)


def order(calls: list[str] | None = None) -> sagas.Saga:
    """Return a saga: two steps, the pivot, and three steps.

    reserve, note -> charge -> ship -> mail
                           \\-> book
    """
    saga, called = sagas.Saga("order"), [] if calls is None else calls
    reserve = saga.step(name="reserve")(act)
    reserve.compensation(lambda task: called.append("release"))
    note = saga.step(name="note")(act)  # it stays
    charge = saga.step(name="charge", needs=[reserve, note], pivot=True, tries=2, backoff=QUICK)(
        act
    )
    ship = saga.step(name="ship", needs=[charge])(act)
    saga.step(name="mail", needs=[ship])(act)
    saga.step(name="book", needs=[charge])(act)
    return saga


def shown(states: dict[str, str]) -> str:
    """Return the states in the order of the steps."""
    return "".join(SHORT[state] for state in states.values())


ENDS = {
    "": ("completed", "++++++"),
    "reserve": ("recovered", "x+----"),
    "note": ("recovered", "ux----"),
    "charge": ("recovered", "u+x---"),
    "ship": ("recovered", "+++x-+"),
    "mail": ("recovered", "++++x+"),
    "book": ("recovered", "+++++x"),
}
"""How it ends if a step fails. Of two steps that run in parallel, the other one has committed."""


@pytest.mark.parametrize("failing", ENDS)
def test_each_step_fails(failing: str) -> None:
    calls = list[str]()
    trial = sagas.testing.run(order(calls), fail={failing: NO} if failing else {})
    phase, states = ENDS[failing]
    assert (trial.phase, shown(trial.states)) == (phase, states)
    assert trial.cost is None and "cost" not in str(trial)
    assert calls == ["release"] * ("u" in states)


ABORTS = {
    "reserve": "u+----",
    "charge": "++++-+",
    "ship": "++++++",
}
"""How it ends if it is aborted when a step has committed, and the next ones have started."""


@pytest.mark.parametrize("step", ABORTS)
def test_it_is_aborted(step: str) -> None:
    """Before the pivot all is undone. Afterwards all that is done stays."""
    trial = sagas.testing.run(order(), abort=step)
    assert (trial.phase, shown(trial.states)) == ("recovered", ABORTS[step])


def test_views_print_decisions(location: str, capsys: pytest.CaptureFixture[str]) -> None:
    """Neither the plan nor a command prints a cost. The certificate has the costs."""
    saga = order()
    events = list[sagas.Event]()

    def sold_out(task: Task) -> None:
        raise sagas.Fail("sold out")

    saga.steps[3].run.function = sold_out

    async def main() -> None:
        async with sagas.open(location, [saga], on_event=events.append) as store:
            end = await (await store.start(saga, "k")).wait()
            assert shown(end.states) == "+++x-+" and end.cost is None and "cost" not in str(end)
            plan = await store.plan("k")
            assert plan is not None and plan.pivot == "charge"
            assert plan.check().startswith("least")
            lines = str(plan).splitlines()
            assert lines[0] == "plan of order k: decided by the pivot charge"
            assert lines[1].split() == ["step", "found", "decision"]
            assert [choice.kept for choice in plan.choices][:5] == [*3 * [True], *2 * [False]]

    run(main())
    (planned,) = [event for event in events if event.name == "plan_adopted"]
    assert planned.detail is None
    for command in (["show", "k"], ["plan", "k"], ["draw", "k", "--svg"]):
        assert store_command.main([location, *command]) == 0
        text = capsys.readouterr().out
        assert "cost" not in text and ("charge" in text), text
    assert store_command.main([location, "plan", "k", "--text"]) == 0
    assert "# pivot charge" in capsys.readouterr().out


APP = """
import sagas
order = sagas.Saga("order", order="declared")
@order.step
def reserve(task): ...
@reserve.compensation
def release(task): ...
@order.step(pivot=True)
def charge(task): ...
@order.step
def ship(task): raise sagas.Fail("sold out")
@order.step
def mail(task): ...
store = sagas.open("other.db", [order])
"""


def test_the_service_shows_decisions(
    tmp_path: pathlib.Path, monkeypatch: pytest.MonkeyPatch, url: str
) -> None:
    """No page has a cost, and the API says that the costs are computed."""
    (tmp_path / "pivot_app.py").write_text(APP)
    monkeypatch.chdir(tmp_path)
    monkeypatch.setenv("PYTHONPATH", str(tmp_path), prepend=":")
    files = {"few.toml": FEW}
    with served(tmp_path, files, "--app", "pivot_app:store", store=url) as service:
        with service.client() as client:
            assert start(client, "order", "k").status_code == 201
            saga = client.get("/v1/sagas/k/wait").json()
            assert saga["plan"]["pivot"] == "charge" and saga["phase"] == "recovered", saga
            assert shown(saga["states"]) == "++x-"
            for path in ("/ui/sagas/k", "/ui/definitions/order"):
                page = client.get(path).text.partition("<main")[2].lower()
                assert "charge" in page and "cost" not in page, page
            definitions = client.get("/v1/definitions").json()["definitions"]
            (listed,) = [entry for entry in definitions if entry["name"] == "order"]
            assert [step["pivot"] for step in listed["steps"]] == [False, True, False, False]
            assert all(step["computed"] and step["keep"] is None for step in listed["steps"])
            forecast = client.get("/v1/sagas/k").json()["plan"]["steps"]
            assert [step["decision"] for step in forecast][2:] == 2 * ["is left out"]


def test_parts_of_the_input() -> None:
    """Items, a left-out step and an included saga are before or after the pivot, as their parts."""
    called = list[str]()
    inner = sagas.Saga("inner", order="declared")
    for name in ("a", "b"):
        inner.step(name=name)(act).compensation(lambda task: called.append(task.step))
    saga = sagas.Saga("shaped", order="declared")
    saga.step(name="item", for_each="items")(act).compensation(
        lambda task: called.append(task.step)
    )
    saga.include(inner, name="hotel")
    saga.step(name="rare", when=lambda parcels: parcels["rare"])(act)
    saga.step(name="charge", pivot=True)(act)
    saga.step(name="ship", for_each="items")(act)
    parcels = {"items": [1, 2], "rare": False}
    assert definition_text.pivot_of(saga.toml(parcels)) == "charge"
    trial = sagas.testing.run(saga, parcels, fail={"charge": NO})
    assert shown(trial.states) == "uuuux--", trial
    assert called[:2] == ["hotel-b", "hotel-a"] and sorted(called[2:]) == ["item-0", "item-1"]
    trial = sagas.testing.run(saga, parcels, fail={"ship-0": NO})
    assert shown(trial.states) == "+++++x+", trial
    assert saga.warnings() == []


def test_a_child_with_a_pivot_stays() -> None:
    """Its parent keeps it, at no cost."""
    parent = sagas.Saga("parent", order="declared")
    parent.child(order(), input=lambda task: None)
    parent.step(name="last")(act)
    trial = sagas.testing.run(parent, fail={"last": NO})
    assert shown(trial.states) == "+x" and trial.cost == 0


def test_an_external_pivot_is_unknown_until_it_is_reported(location: str) -> None:
    """Another step fails in the meantime: what follows depends on the report."""
    saga = sagas.Saga("external")
    reserve = saga.step(name="reserve")(act)
    undone, failed = list[str](), list[str]()
    reserve.compensation(lambda task: undone.append(task.key))
    charge = saga.step(name="charge", external=True, needs=[reserve], pivot=True)
    saga.step(name="ship", needs=[charge])(act)

    async def main() -> None:
        async with sagas.open(
            location, [saga], on_event=lambda event: failed.append(event.name)
        ) as store:
            for key in ("good", "bad"):
                await store.start(saga, key)
            await store.complete("good", "charge", 1)
            await store.fail("bad", "charge", "no money")
            good, bad = await store.wait("good"), await store.wait("bad")
            assert shown(good.states) == "+++" and shown(bad.states) == "ux-"
            assert undone == ["bad"]

    run(main())


# -- errors of declarations


def with_pivot(**options: Any) -> sagas.Saga:
    """Return a saga of a pivot, with a step before it that has options."""
    saga = sagas.Saga("s", order="declared")
    saga.step(name="a", **options)(act).compensation(act)
    saga.step(name="charge", pivot=True)(act)
    return saga


def pivot_with(**options: Any) -> object:
    return sagas.Saga("s").step(name="charge", pivot=True, **options)(act)


def two() -> object:
    saga = with_pivot()
    return saga.step(name="other", pivot=True)(act)


def parallel() -> object:
    saga = sagas.Saga("s")
    saga.step(name="charge", pivot=True)(act)
    saga.step(name="mail")(act)
    return saga.toml()


def compensated() -> object:
    return sagas.Saga("s").step(name="charge", pivot=True)(act).compensation(act)


def included() -> object:
    outer = sagas.Saga("outer", order="declared")
    outer.include(with_pivot())
    outer.step(name="charge", pivot=True)(act)
    return outer.toml({})


def included_alone() -> object:
    outer = sagas.Saga("outer")
    outer.include(with_pivot())
    return outer.toml({})


ODD: Any = {"pivot": "yes"}
UNORDERED: Any = {"order": "file"}
WRONG: dict[str, Callable[[], object]] = {
    "a pivot has no costs, because the package computes them. Remove keep=": lambda: pivot_with(
        keep=3
    ),
    "a pivot has no costs, because the package computes them. Remove undo=": lambda: pivot_with(
        undo=0
    ),
    "a pivot exists once in each saga. Remove for_each=": lambda: pivot_with(for_each="items"),
    "a pivot exists once in each saga. Remove when=": lambda: pivot_with(when=bool),
    "pivot='yes': must be True or False": lambda: sagas.Saga("s").step(**ODD)(act),
    "the saga has the pivot 'charge' already": two,
    "step 'mail': it neither needs the pivot 'charge' nor is needed by it": parallel,
    "is the pivot, which is never undone, so it cannot have a compensation": compensated,
    "it has the pivot 'charge', so it cannot be included": included,
    "saga 's': it has the pivot 'charge', so it cannot": included_alone,
    "undo=5: the package computes the costs of a saga with the pivot": lambda: with_pivot(
        undo=5
    ).toml(),
    "keep=sagas.NEVER: the package computes": lambda: with_pivot(keep=sagas.NEVER).toml(),
    "skip=a function: the package computes": lambda: with_pivot(skip=lambda parcels: 1).toml({}),
    "skip=sagas.NEVER, but a failure before the pivot": lambda: with_pivot(skip=sagas.NEVER).toml(),
    "order='file': must be needs or declared": lambda: sagas.Saga("s", **UNORDERED),
}


@pytest.mark.parametrize("error", WRONG)
def test_a_contradiction_is_refused(error: str) -> None:
    with pytest.raises(sagas.DefinitionError) as raised:
        WRONG[error]()
    assert error in str(raised.value)


def test_a_compensation_after_the_pivot_is_never_called() -> None:
    saga = with_pivot()
    saga.step(name="ship")(act).compensation(act)
    (warning,) = saga.warnings()
    assert "step 'ship': the compensation can never be called" in warning
    assert "needs the pivot 'charge'" in warning and "keep" not in warning


# -- the order of declaration, and results that are read without a need


def test_the_order_of_declaration() -> None:
    """Each step needs the one before it, once, and what it names."""
    calls = list[str]()
    saga = sagas.Saga("s", order="declared")
    ship = saga.step(name="ship")(lambda task: calls.append("ship"))
    charge = saga.step(name="charge", needs=[ship])(lambda task: calls.append("charge"))
    items = saga.step(name="item", for_each="items", needs=[ship])(lambda task: None)
    saga.step(name="label", for_each="items", needs=[items.each])(lambda task: None)
    assert charge.needs == ["ship"] and items.needs == ["ship", "charge"]
    trial = sagas.testing.run(saga, {"items": [1, 2]})
    assert trial.ok and calls == ["ship", "charge"]
    needs = {
        step.name: step.needs for step in definition_text.listed_steps(saga.toml({"items": [1, 2]}))
    }
    assert needs["label-1"] == ("item-1",)


def reading() -> tuple[sagas.Saga, list[str]]:
    """Return a saga whose steps read results in many ways, and those that need what they read."""
    saga = sagas.Saga("reads")
    charge = saga.step(name="charge")(act)
    parcels = saga.step(name="parcel", for_each="parcels")(act)
    inner = sagas.Saga("inner")
    room = inner.step(name="room")(act)
    hotel = saga.include(inner, name="hotel")

    @saga.step
    def plain(task: Task) -> Any:
        return task.result_of(charge)

    @saga.step
    def by_name(task: Task) -> Any:
        return [task.result_of("charge") for _ in range(2)]

    @saga.step
    def failure(task: Task) -> Any:
        return (lambda: task.failure_of(charge))()

    @saga.step
    def collects(task: Task) -> Any:
        return task.result_of(sagas.collect(parcels)).results

    @saga.step
    def included(task: Task) -> Any:
        return task.result_of(hotel[room])

    @saga.step(needs=[plain])
    def through(task: Task) -> Any:
        return task.result_of(charge), task.result_of(plain)

    @saga.step(needs=[charge, parcels, hotel])
    def needed(task: Task) -> Any:
        return task.result_of(charge), task.result_of(parcels), task.result_of(hotel[room])

    @saga.step(needs=[needed])
    def transitively(task: Task) -> Any:
        step = charge
        return task.result_of(step), task.result_of(charge), str(charge), task.results["hotel"]

    @needed.compensation
    def undo(task: Task) -> Any:
        return task.result_of(needed), task.result_of(plain)

    return saga, [
        "'plain': it reads the result of 'charge'",
        "'by_name': it reads the result of 'charge'",
        "'failure': it reads the result of 'charge'",
        "'collects': it reads the result of 'parcel'",
        "'included': it reads the result of 'hotel'",
        "'through': it reads the result of 'charge'",
        "'needed': it reads the result of 'plain'",
    ]


def test_open_warns_of_results_that_are_not_needed(
    tmp_path: Any, caplog: pytest.LogCaptureFixture
) -> None:
    """Once for each step, and never if needs of needs have the step."""
    saga, expected = reading()
    warnings = [text for text in saga.warnings() if "does not need it" in text]
    assert [text.partition("step ")[2].partition(" and")[0] for text in warnings] == expected
    assert all('order="declared"' in text and __file__ in text for text in warnings)
    with sagas.open_sync(str(tmp_path / "store.db"), [saga]):
        pass
    logged = [record for record in caplog.records if "does not need it" in record.getMessage()]
    assert len(logged) == len(expected)


def test_the_declared_order_needs_what_it_reads() -> None:
    """A saga in its declared order has no such warning."""
    saga = sagas.Saga("s", order="declared")
    charge = saga.step(name="charge", undo=sagas.NOTHING)(act)
    saga.step(name="between", undo=sagas.NOTHING)(act)

    @saga.step(undo=sagas.NOTHING)
    def ship(task: Task) -> Any:
        return task.result_of(charge)

    assert saga.warnings() == []
