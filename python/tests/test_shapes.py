"""Sagas whose steps come from their input, without a store."""

from __future__ import annotations

import dataclasses
import os
import pathlib
import subprocess
import sys
import tomllib
from typing import Any

import pytest
from cases import types_in
from shaped import (
    Hotel,
    Order,
    Package,
    Parcel,
    Trip,
    booking,
    cars,
    confirm,
    hire,
    label,
    mail,
    order,
    parcels,
    reserve,
    ship,
    tour,
    trip,
    wrap,
)

import sagas
from sagas.definition import serialization
from sagas.definition.registry import DefinitionRegistry, Fitted


def names(saga: sagas.Saga, input: Any) -> dict[str, list[str]]:
    """Return the steps of a shape with their needs."""
    steps = tomllib.loads(saga.toml(input))["step"]
    return {step["name"]: step.get("needs", []) for step in steps}


# -- fan-out


@pytest.mark.parametrize("count", [0, 1, 3, 50, 500])
def test_a_step_for_each_item(count: int) -> None:
    trial = sagas.testing.run(order, parcels(count))
    assert trial.ok
    sent = [f"{location}:t{location}" for location in range(count)]
    assert trial.result_of(mail) == trial.result_of(ship) == sent
    assert len(trial.states) == 2 + 2 * count


def test_no_item_leaves_the_order_of_the_others() -> None:
    assert names(order, Order([])) == {"reserve": [], "mail": ["reserve"]}
    gift = names(order, Order([], gift=True))
    assert gift == {"reserve": [], "wrap": ["reserve"], "mail": ["wrap"]}


def test_each_needs_its_own_and_all_need_all() -> None:
    needs_of = names(order, parcels(2))
    assert needs_of["label-1"] == ["ship-1"]
    assert needs_of["mail"] == ["label-0", "label-1"]  # wrap is missing: what it needs


@pytest.mark.parametrize("count, bad", [(1, 0), (3, 1), (50, 20)])
def test_one_item_fails_and_the_plan_chooses_by_cost(count: int, bad: int) -> None:
    """A parcel that is worth less than 10 is kept; the others are called back."""
    trial = sagas.testing.run(order, parcels(count, bad))
    for location in range(count):
        state = trial.states[f"ship-{location}"]
        wanted = "failed" if location == bad else "committed" if location < 10 else "undone"
        assert state == wanted, location
    assert trial.errors == {f"ship-{bad}": "sagas.Fail: no such address"}
    stands = {
        location: f"{location}:t{location}" for location in range(min(count, 10)) if location != bad
    }
    assert trial.each(ship) == stands
    with pytest.raises(KeyError, match="is not committed"):
        trial.result_of(ship)


def test_a_closing_store_starts_no_waiting_attempt() -> None:
    trial = sagas.testing.run(order, parcels(20, 3), concurrency=4)
    states = [trial.states[f"ship-{location}"] for location in range(20)]
    assert states[:4] == ["committed"] * 3 + ["failed"] and set(states[8:]) == {"waiting"}


def test_scripts_name_all_items_or_one() -> None:
    assert sagas.testing.run(order, parcels(3), fail={ship: 1}).ok
    trial = sagas.testing.run(order, parcels(3), fail={"ship": 1})
    failed = [call.step for call in trial.calls if call.outcome == "failed"]
    assert failed == ["ship-0", "ship-1", "ship-2"]
    assert sagas.testing.run(order, parcels(3), fail={"ship-1": 2}).states["ship-1"] == "failed"
    with pytest.raises(KeyError, match="did you mean 'ship'"):
        sagas.testing.run(order, parcels(3), fail={"shop": 1})
    message = (
        "no step 'ship-7' for this input: the items of step 'ship' are ship-0, ship-1, ship-2. "
    )
    for script in ({"fail": {"ship-7": 1}}, {"abort": "ship-7"}, {"unknown_undo": {"ship-7": 1}}):
        with pytest.raises(KeyError, match=message):
            sagas.testing.run(order, parcels(3), **script)
    with pytest.raises(KeyError, match="the items of step 'ship' are none"):
        sagas.testing.run(order, parcels(0), fail={"ship-0": 1})
    with pytest.raises(KeyError, match="are ship-0, ship-1, ship-2 and others"):
        sagas.testing.run(order, parcels(4), fail={"ship-04": 1})
    assert sagas.testing.run(order, parcels(0), fail={ship: 1, "wrap": 1}).ok


def test_a_dict_has_keys_and_numbers() -> None:
    saga = sagas.Saga("keyed")

    @saga.step(
        for_each=lambda input: {item["sku"]: item for item in input["items"]},
        keep=lambda item: item["count"],
        undo=0,
    )
    def pick(task: sagas.Task[Any]) -> str:
        return f"{task.item['count']} of {task.index}"

    @saga.step(needs=[pick])
    def pack(task: sagas.Task[Any]) -> Any:
        return task.result_of(pick)

    input = {"items": [{"sku": "Piano 1/2 \0", "count": 1}, {"sku": "lämp", "count": 3}]}
    trial = sagas.testing.run(saga, input)
    results = {"Piano 1/2 \0": "1 of Piano 1/2 \0", "lämp": "3 of lämp"}
    assert trial.result_of(pack) == trial.result_of(pick) == trial.each(pick) == results
    assert list(trial.states) == ["pick-0", "pick-1", "pack"]


def test_a_task_without_an_item() -> None:
    saga = sagas.Saga("plain")

    @saga.step
    def work(task: sagas.Task[Any]) -> Any:
        with pytest.raises(sagas.ProgramError, match="has no item"):
            task.index
        return task.item

    with pytest.raises(sagas.ProgramError, match="has no item. Declare it with for_each="):
        sagas.testing.run(saga)


def test_items_are_new_objects() -> None:
    saga = sagas.Saga("fresh")

    @saga.step(for_each="lists")
    def work(task: sagas.Task[Any]) -> bool:
        task.item.append(1)
        return bool(task.item == [0] and task.declared_step == "work" and task.step == "work-0")

    assert sagas.testing.run(saga, {"lists": [[0]]}).result_of("work") == [True]


# -- errors


def broken(**options: Any) -> sagas.Saga:
    saga = sagas.Saga("wrong")

    @saga.step(**options)
    def many(task: sagas.Task[Any]) -> None:
        ...

    return saga


SECRET = "4111-1111"


class Odd(str):
    """A value that is neither true nor false, and reports its name."""

    def __bool__(self) -> bool:
        raise ValueError(self)


@pytest.mark.parametrize(
    "options, input, message",
    [
        ({"for_each": "many"}, {}, "for_each= raised KeyError"),
        ({"for_each": "many"}, {"many": 3}, "for_each returned a int: it must be a list"),
        ({"for_each": "many"}, {"many": SECRET}, "for_each returned a str"),
        ({"for_each": "many"}, {"many": []}, "has no steps for this input"),
        ({"for_each": lambda i: {1: 2}}, {}, "the keys of the dict must be texts"),
        ({"for_each": lambda i: {1: 2, "a": 3}}, {}, "the keys of the dict must be texts"),
        ({"for_each": lambda i: map(int, i)}, [SECRET], "for_each= raised ValueError"),
        ({"for_each": lambda i: (int(item) for item in i)}, [SECRET], "raised ValueError in line"),
        ({"for_each": "many", "keep": lambda i: i}, {"many": [-1]}, "keep= returned a int that"),
        ({"when": lambda i: i["secret"].x}, {"secret": SECRET}, "when= raised AttributeError in"),
        ({"when": lambda i: Odd(i)}, SECRET, "when= raised ValueError in line"),
        ({"skip": lambda i: int(i)}, SECRET, "skip= raised ValueError in line"),
        ({"for_each": lambda i: [Parcel(SECRET)]}, {}, "the items are of type Parcel"),
        ({"for_each": lambda i: [10**5000]}, {}, "an item: Exceeds the limit"),
    ],
)
def test_errors_do_not_contain_the_input(options: Any, input: Any, message: str) -> None:
    with pytest.raises(sagas.InvalidInput, match=message) as caught:
        sagas.testing.run(broken(**options), input)
    assert SECRET not in str(caught.value) and caught.value.__cause__ is None


def test_too_many_steps_and_a_misfit() -> None:
    with pytest.raises(sagas.TooLarge, match="more than 1,024 steps for this input"):
        broken(for_each="many").toml({"many": [0] * 2000})
    with pytest.raises(sagas.InvalidInput, match="parcels"):
        sagas.testing.run(order, {"parcels": 7})


def test_declarations_that_are_wrong() -> None:
    other = sagas.Saga("other")

    @other.step(for_each="a")
    def a(task: sagas.Task[Any]) -> None:
        ...

    with pytest.raises(sagas.DefinitionError, match="does not have the same items"):

        @other.step(for_each="b", needs=[a.each])
        def b(task: sagas.Task[Any]) -> None:
            ...

        other.check()
    for options, message in (
        ({"for_each": 3}, "for_each=3: must be the name of a part"),
        ({"when": True}, "when=True: must be a plain function"),
        ({"keep": -1}, "keep=-1: must be an integer"),
        ({"for_each": "x", "name": "a" * 28}, "at most 27"),
    ):
        with pytest.raises(sagas.DefinitionError, match=message):
            broken(**options)
    with pytest.raises(sagas.DefinitionError, match="undo=.* has no compensation"):
        broken(undo=lambda input: 3).check()


def test_names_that_may_meet() -> None:
    saga = sagas.Saga("meets")

    @saga.step(for_each="x", name="ship")
    def first(task: sagas.Task[Any]) -> None:
        ...

    @saga.step(name="ship-0")
    def second(task: sagas.Task[Any]) -> None:
        ...

    with pytest.raises(sagas.DefinitionError, match="two steps may have the name 'ship-0'"):
        saga.check()


def test_an_inclusion_in_itself() -> None:
    saga = sagas.Saga("self")
    saga.include(saga, name="again")
    with pytest.raises(sagas.DefinitionError, match="includes itself"):
        saga.check()


def test_a_shaped_child_is_refused_where_its_costs_are_needed() -> None:
    parent = sagas.Saga("parent")
    stay = parent.child(order, input=lambda task: task.input)
    with pytest.raises(sagas.DefinitionError, match="its costs as a child are not known"):
        parent.toml()
    assert stay.kind == "child"


# -- conditions


def test_a_missing_step() -> None:
    assert "wrap" in names(order, Order(gift=True)) and "wrap" not in names(order, Order())
    assert sagas.testing.run(order, Order([Parcel("a")], gift=True)).result_of(wrap) == "wrapped"
    with pytest.raises(KeyError, match="'wrap' does not exist for this input"):
        sagas.testing.run(order, Order()).result_of(wrap)


# -- costs


def test_costs_come_from_the_item_and_the_input() -> None:
    steps = tomllib.loads(order.toml(Order([Parcel("a", 4), Parcel("b", 0)], number=9)))["step"]
    by_name = {step["name"]: step for step in steps}
    assert by_name["ship-0"]["keep"] == 4 and "keep" not in by_name["ship-1"]
    assert by_name["mail"]["skip"] == 9
    never = broken(skip=lambda input: sagas.NEVER)
    assert 'skip = "never"' in never.toml()


# -- inclusion


def test_inclusion_two_deep() -> None:
    needs_of = names(trip, Trip(Package(Hotel("Rome", ["a", "b"]), ["vw", "bmw"])))
    assert needs_of == {
        "flight": [],
        "p-hotel-book": ["flight"],
        "p-hotel-room-0": ["p-hotel-book"],
        "p-hotel-room-1": ["p-hotel-book"],
        "p-hotel-confirm": ["p-hotel-room-0", "p-hotel-room-1"],
        "p-car-0-take": ["p-hotel-confirm"],
        "p-car-1-take": ["p-hotel-confirm"],
        "tour": ["p-car-0-take", "p-car-1-take"],
    }
    trial = sagas.testing.run(trip, Trip(Package(Hotel("Rome", ["a"], True), ["vw", "bmw"])))
    rooms = ["booked in Rome: a"]
    confirmed = ["booked in Rome", rooms, "by LH1"]
    assert trial.result_of(tour) == ["LH1", confirmed, rooms, ["vw", "bmw"]]


def test_one_plan_over_all_that_is_included() -> None:
    trial = sagas.testing.run(trip, Trip(Package(Hotel("Rome", ["a", "b"]), ["vw", "none"])))
    assert trial.cost == 5 + 5 + 7
    assert trial.states["p-hotel-book"] == trial.states["p-car-0-take"] == "undone"
    assert trial.states["flight"] == "committed"
    assert [call.step for call in trial.undone][-1] == "p-hotel-book"


def test_the_included_saga_continues_by_itself() -> None:
    trial = sagas.testing.run(booking, Hotel("Bonn", ["x"], True))
    assert trial.result_of(confirm) == ["booked in Bonn", ["booked in Bonn: x"], None]


def test_an_inclusion_of_nothing_is_passed_through() -> None:
    outer = sagas.Saga("outer")

    @outer.step
    def before(task: sagas.Task[Any]) -> None:
        ...

    left = outer.include(hire, when=lambda input: input["hire"], needs=[before])

    @outer.step(needs=[left])
    def following(task: sagas.Task[Any]) -> None:
        ...

    assert names(outer, {"hire": ""}) == {"before": [], "following": ["before"]}
    there = names(outer, {"hire": "yes", "car": "vw"})
    assert there == {"before": [], "hire-take": ["before"], "following": ["hire-take"]}


def test_a_long_chain_of_steps_that_are_left_out() -> None:
    """A step that needs the last of them needs what the first one needs."""
    chain = sagas.Saga("chain")
    last = chain.step(name="first")(lambda task: None)
    for number in range(700):
        options = {"when": lambda input: False} if number % 2 else {"for_each": lambda input: []}
        last = chain.step(name=f"s{number}", needs=[last], **options)(lambda task: None)
    chain.step(name="last", needs=[last])(lambda task: None)
    assert names(chain, None) == {"first": [], "last": ["first"]}


def test_the_versions_of_included_sagas_are_in_the_definition() -> None:
    text = trip.toml(Trip(Package(Hotel("Rome", []))))
    assert "# includes p/hotel booking 1 given\n" in text and "# of p/hotel/confirm\n" in text


def test_an_inclusion_for_each_item_needs_that_of_the_same() -> None:
    saga = sagas.Saga("fleet")
    first = saga.include(hire, name="a", for_each="cars", input=lambda name: {"car": name})
    second = saga.include(
        hire, name="b", for_each="cars", input=lambda name: {"car": name}, needs=[first.each]
    )

    @saga.step(needs=[second])
    def last(task: sagas.Task[Any]) -> Any:
        from shaped import take

        return task.result_of(first[take])

    needs_of = names(saga, {"cars": ["x", "y"]})
    assert needs_of["b-1-take"] == ["a-1-take"] and needs_of["last"] == ["b-0-take", "b-1-take"]
    assert sagas.testing.run(saga, {"cars": ["x", "y"]}).result_of(last) == ["x", "y"]
    assert sagas.testing.run(saga, {"cars": []}).result_of(last) == []


def test_a_step_of_another_saga_is_not_seen() -> None:
    saga = sagas.Saga("outer")

    @saga.step
    def before(task: sagas.Task[Any]) -> int:
        return 1

    inner = sagas.Saga("inner")

    @inner.step
    def within(task: sagas.Task[Any]) -> Any:
        return task.result_of(before)

    saga.include(inner, needs=[before])
    with pytest.raises(sagas.ProgramError, match="is a step of saga 'outer'"):
        sagas.testing.run(saga)


def test_the_names_of_shapes_are_those_of_the_package() -> None:
    assert isinstance(ship, sagas.FanOut) and isinstance(cars, sagas.FanOutInclusion)
    assert not isinstance(reserve, sagas.FanOut) and dataclasses.is_dataclass(Order)
    assert label.needs == ["ship"]


# -- failures that are collected


def batch() -> tuple[sagas.Saga, sagas.FanOut[list[float], float], list[Any]]:
    """Return a saga whose items may fail, and the arguments of its compensation's calls."""
    saga, undone = sagas.Saga("batch"), list[Any]()

    @saga.step(for_each="numbers", tries=2, no_effect=(ZeroDivisionError,))
    def invert(task: sagas.Task[Any]) -> float:
        return 1 / float(task.item)

    @invert.compensation
    def back(task: sagas.Task[Any]) -> None:
        undone.append(task.result)

    return saga, invert, undone


def test_a_failure_that_is_collected() -> None:
    saga, invert, undone = batch()

    @saga.step(needs=[sagas.collect(invert)], undo=0)
    def report(task: sagas.Task[Any]) -> Any:
        collected = task.result_of(sagas.collect(invert))
        with pytest.raises(sagas.StepFailed, match="'invert-1' failed"):
            task.result_of(invert)
        return [list(collected.results.values()), list(collected.errors)]

    trial = sagas.testing.run(saga, {"numbers": [2, 0, 4]})
    assert trial.ok and trial.result_of(report) == [[0.5, 0.25], [1]]
    assert trial.each(invert) == {0: 0.5, 2: 0.25}
    errors = {1: "ZeroDivisionError: float division by zero"}
    assert trial.result_of(sagas.collect(invert)).errors == errors
    with pytest.raises(sagas.StepFailed):
        trial.result_of(invert)
    assert [call.attempt for call in trial.calls if call.step == "invert-1"][:2] == [1, 2]
    assert not undone


def test_a_collected_failure_has_nothing_to_undo() -> None:
    saga, invert, undone = batch()

    @saga.step(needs=[sagas.collect(invert)])
    def last(task: sagas.Task[Any]) -> None:
        raise sagas.Fail("no")

    invert._costs["keep"] = 9
    trial = sagas.testing.run(saga, {"numbers": [2, 0, 4]})
    assert sorted(undone) == [0.25, 0.5]
    states = [trial.states[f"invert-{number}"] for number in range(3)]
    assert states == ["undone", "failed", "undone"] and trial.optional_failures == ["invert-1"]


def test_only_a_fan_out_is_collected() -> None:
    with pytest.raises(sagas.DefinitionError, match="with for_each=. Declare it with optional="):
        sagas.collect(reserve)  # type: ignore[arg-type]


def test_a_fan_out_without_a_cost_of_skipping_is_warned_of() -> None:
    saga, _, _ = batch()
    (warning,) = saga.warnings()
    assert "items that have not started are skipped, because skip=0" in warning


# -- all to all


def test_all_of_one_fan_out_for_each_of_another() -> None:
    """There is a step in between, so that the limit of 8,192 needs is not reached."""
    saga = sagas.Saga("wide")

    @saga.step(for_each="a", undo=0)
    def first(task: sagas.Task[Any]) -> int:
        return int(task.item)

    @saga.step(for_each="b", needs=[first], undo=0)
    def second(task: sagas.Task[Any]) -> int:
        return sum(task.result_of(first))

    few = names(saga, {"a": [1] * 16, "b": [1] * 16})
    assert len(few) == 32 and len(few["second-3"]) == 16
    many = names(saga, {"a": [1] * 200, "b": [1] * 200})
    assert len(many) == 401 and many["second-7"] == ["first--all"]
    assert len(many["first--all"]) == 200
    trial = sagas.testing.run(saga, {"a": [1] * 100, "b": [1] * 100})
    assert trial.ok and trial.result_of(second) == [100] * 100
    failing = sagas.testing.run(saga, {"a": [1] * 20, "b": [1] * 20}, fail={"second-3": sagas.Fail})
    assert failing.cost == 0 and failing.states["second-3"] == "failed"


# -- types

TYPED = """
from dataclasses import dataclass
import sagas

@dataclass
class Parcel:
    to: str

@dataclass
class Letter:
    text: str

@dataclass
class Order:
    parcels: list[Parcel]

def parcels(order: Order) -> list[Parcel]:
    return order.parcels

def by_town(order: Order) -> dict[str, Parcel]:
    return {parcel.to: parcel for parcel in order.parcels}

order = sagas.Saga("order")

@order.step(for_each=parcels, keep=lambda parcel: len(parcel.to))
def good(task: sagas.ItemTask[Order, Parcel]) -> int:
    return len(task.item.to)

@order.step(for_each=by_town, needs=[good])
async def keyed(task: sagas.ItemTask[Order, Parcel]) -> int:
    return 1

@order.step(for_each=parcels)
def wrong(task: sagas.ItemTask[Order, Letter]) -> str:
    return task.item.text

@order.step(needs=[keyed, sagas.collect(good)])
def last(task: sagas.Task[Order]) -> None:
    reveal_type(task.result_of(good))
    reveal_type(task.result_of(keyed))
    reveal_type(task.result_of(good.each))
    reveal_type(task.result_of(sagas.collect(good)).results)
"""


def test_a_wrong_type_of_items_is_detected(tmp_path: pathlib.Path) -> None:
    path, source = tmp_path / "typed.py", pathlib.Path(__file__).resolve().parents[1] / "src"
    path.write_text(TYPED)
    command = [
        sys.executable,
        "-m",
        "mypy",
        "--strict",
        "--cache-dir",
        types_in(tmp_path),
        str(path),
    ]
    environment = os.environ | {"MYPYPATH": str(source)}
    done = subprocess.run(command, capture_output=True, text=True, env=environment, check=False)
    lines = [line for line in done.stdout.splitlines() if line.startswith(str(path))]
    seen = [line.split("Revealed type is ")[1].strip('"') for line in lines if "Revealed" in line]
    number = "builtins.int"
    key = f"Union[{number}, builtins.str]"
    assert seen == [
        f"builtins.list[{number}]",
        f"builtins.dict[builtins.str, {number}]",
        number,
        f"builtins.dict[{key}, {number}]",
    ]
    (error,) = [line for line in lines if ": error: " in line]
    assert "ItemTask[Order, Letter]" in error and "ItemTask[Any, Parcel]" in error


def fitted(definitions: DefinitionRegistry, saga: sagas.Saga, text: str) -> Fitted:
    """Return the definition of a saga with an input, whose functions are called here."""
    return definitions.fit(saga, text) or definitions.shaped(
        text, definitions.shaping(saga, text)()
    )


def test_definitions_that_differ_in_costs_share_the_rest() -> None:
    """Each has the text of a separately written one, also when it is read back from a store."""
    saga = sagas.Saga("costs")

    def cost(item: int) -> Any:
        return sagas.NEVER if item % 3 == 2 else item % 3

    first = saga.step(
        name="first", run=lambda value: len(value["items"]), undo=sagas.NEVER, keep=7
    )(lambda task: None)
    work = saga.step(
        name="work", for_each="items", needs=[first], skip=cost, undo=cost, keep=cost, tries=2
    )(lambda task: None)
    work.compensation(lambda task: None)
    saga.step(name="last", when=lambda value: value["last"], needs=[first], undo=0, skip=3)(
        lambda task: None
    )
    inputs = [
        {"items": [number, *range(count)], "last": bool(last)}
        for number in range(4)
        for count in range(3)
        for last in (0, 1)
    ]
    definitions, again = DefinitionRegistry([saga]), DefinitionRegistry([saga])
    kinds = [fitted(definitions, saga, serialization.write(value)).kind for value in inputs]
    shared: dict[int, list[str]] = {}
    for value, kind in zip(inputs, kinds):
        assert kind is not None
        assert kind.text == saga.toml(value) == again.kind(kind.text).text
        assert kind.lacks() is None and again.kind(kind.text).lacks() is None
        assert kind.names == [step["name"] for step in tomllib.loads(kind.text)["step"]]
        shared.setdefault(id(kind.actions), []).append(kind.text)
    assert len(shared) == 6  # the number of structures
    assert all(len({*texts}) == 3 for texts in shared.values())  # 0 and 3 cost the same
