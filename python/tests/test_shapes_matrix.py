"""Sagas whose steps come from their input, each kind of input in each way.

Over both databases with a restart, by a client, and with a node that takes over from another one.
"""

from __future__ import annotations

import contextlib
import itertools
from collections.abc import Callable
from typing import Any, NamedTuple

import pytest
import shaped
from cases import run
from shaped import Hotel, Order, Package, Parcel, Trip, order, parcels, ship, trip

import sagas
from sagas.definition import definition_text
from sagas.engine.plan import Plan

many = sagas.Saga("many")
FEW = 14
"""Steps of a plan that is compared with each other possible plan."""
KEYS = ["", " ", "ship-0", "a/b[1]", "é\u202e\U0001f600", "x" * 400, '"\\\n', "ship"]


@many.step(for_each="items", undo=1, skip=2, keep=lambda item: item)
def each(task: sagas.ItemTask[dict[str, Any], int]) -> list[Any]:
    if task.item == 13:
        raise sagas.Fail("thirteen")
    return [task.index, task.item]


@each.compensation
def no_more(task: sagas.Task[Any]) -> None:
    assert task.result == [task.index, task.item]  # type: ignore[attr-defined]


@many.step(for_each="items", needs=[each.each], when=lambda input: input.get("twice"), undo=0)
def again(task: sagas.Task[Any]) -> Any:
    return task.result_of(each.each)


@many.step(needs=[again], undo=0, skip=lambda input: len(input["items"]))
def last(task: sagas.Task[Any]) -> Any:
    return task.result_of(each)


class Case(NamedTuple):
    """An input, and its result: the number of steps, and the result of a step if all succeeds."""

    saga: sagas.Saga
    value: Any
    steps: int
    of: Any = None
    result: Any = None


def items(count: int, twice: bool = False, **more: Any) -> Case:
    """Return a list of `count` items, each once or twice."""
    value = {"items": [number % 12 for number in range(count)], "twice": twice}
    result = [[number, number % 12] for number in range(count)]
    return Case(many, value | more, count * (2 if twice else 1) + 1, last, result)


def keyed(**more: Any) -> Case:
    """Return keys that are not names."""
    numbered = {key: number for number, key in enumerate(KEYS)}
    result = {key: [key, number] for key, number in numbered.items()}
    return Case(many, {"items": numbered, **more}, len(KEYS) + 1, last, result)


def travel(rooms: int, cars: list[str], breakfast: bool) -> Case:
    """Return inclusions two deep, and one for each item."""
    names = [f"r{number}" for number in range(rooms)]
    value = Trip(Package(Hotel("Rome", names, breakfast), cars))
    booked = [f"booked in Rome: {name}" for name in names]
    result = ["LH1", ["booked in Rome", booked, "by LH1"], booked, cars]
    steps = 4 + rooms + len(cars) + breakfast
    return Case(trip, value, steps, shaped.tour, result)


def sent(count: int, gift: bool = False) -> Case:
    """Return orders of parcels."""
    value = Order(parcels(count).parcels, gift)
    return Case(order, value, 2 + 2 * count + gift, ship, [f"{n}:t{n}" for n in range(count)])


def bad(case: Case, value: Any) -> Case:
    """Return the case with an item that fails, so that a plan is made."""
    return Case(case.saga, value, case.steps)


THIRTEEN = [5, 13, 0, 2]
CASES = {
    **{f"items-{count}": items(count) for count in (0, 1, 3, 50, 500)},
    "twice-0": items(0, True),
    "twice-3": items(3, True),
    "twice-200": items(200, True),
    "keys": keyed(),
    "no-keys": Case(many, {"items": {}}, 1, last, {}),
    **{f"order-{count}": sent(count, count == 3) for count in (0, 1, 3, 50)},
    "trip-0": travel(0, [], False),
    "trip-1": travel(1, ["vw"], True),
    "trip-50": travel(50, ["vw"] * 9, True),
    "fails-1": bad(items(1), {"items": [13]}),
    "fails-4": bad(items(4), {"items": THIRTEEN}),
    "fails-50": bad(items(50), {"items": [13, *[number % 9 for number in range(49)]]}),
    "fails-500": bad(items(500), {"items": [*[number % 9 for number in range(499)], 13]}),
    "fails-twice": bad(items(4, True), {"items": THIRTEEN, "twice": True}),
    "fails-key": bad(keyed(), {"items": dict(zip(KEYS, [0, 5, 13, 2, 1, 9, 3, 0]))}),
    "fails-order": bad(sent(3), Order([Parcel("Rome", 7), Parcel("nowhere"), Parcel("Oslo", 99)])),
    "fails-trip": bad(
        travel(1, ["vw", "none"], True), Trip(Package(Hotel("Rome", ["a"], True), ["vw", "none"]))
    ),
}
SAGAS = [many, order, trip, shaped.booking, shaped.package, shaped.hire]
Ways = Callable[[str], Any]


def is_closed(kept: set[str], needs: dict[str, list[str]]) -> bool:
    return all(need in kept for step in kept for need in needs[step])


def least_of_all(plan: Plan) -> int:
    """Return the least cost of all plans, and each is tried."""
    needs = {
        shaped_step["name"]: shaped_step.get("needs", [])
        for shaped_step in definition_text.shaped_steps(plan.definition)
    }
    costs = {choice.step: (choice.cost_to_keep, choice.cost_to_drop) for choice in plan.choices}
    sums = []
    for word in itertools.product((True, False), repeat=len(costs)):
        kept = {step for step, is_kept in zip(costs, word) if is_kept}
        some = [costs[step][0 if step in kept else 1] for step in costs]
        if None not in some and is_closed(kept, needs):
            sums.append(sum(cost for cost in some if cost is not None))
    return min(sums)


async def judged(store: Any, key: str, case: Case) -> None:
    """Check that the end is as wanted; a plan is the least of all."""
    end = await store.wait(key, 120)
    assert len(end.states) == case.steps
    if case.of is not None:
        assert end.ok and end.result_of(case.of) == case.result
        assert await store.plan(key) is None
        return
    assert end.phase == "recovered" and "failed" in end.states.values()
    plan = await store.plan(key)
    assert plan and plan.check() == f"least {plan.cost}" and plan.cost == end.cost
    if case.steps <= FEW:
        assert plan.cost == least_of_all(plan)


@contextlib.asynccontextmanager
async def restarted(location: str) -> Any:
    """Return a store that is closed halfway, and opened again."""

    async def begin() -> None:
        async with sagas.open(location, SAGAS, shutdown_timeout=0) as store:
            for name, case in CASES.items():
                await store.start(case.saga, name, case.value)

    await begin()
    async with sagas.open(location, SAGAS) as store:
        yield store
        assert all(verdict.startswith("yes") for verdict in (await store.audit()).values())


@contextlib.asynccontextmanager
async def by_a_client(location: str) -> Any:
    """Return a client that starts them, and a node."""
    async with sagas.open(location, SAGAS) as _, sagas.Client(location) as client:
        for name, case in CASES.items():
            await client.start(case.saga, name, case.value)
        yield client


@contextlib.asynccontextmanager
async def taken_over(location: str) -> Any:
    """Return a node that is closed halfway; another one takes over."""
    first = sagas.open(location, SAGAS, node="a", lease=1, shutdown_timeout=0)
    async with sagas.open(location, SAGAS, node="b", lease=1) as second:
        async with first:
            for name, case in CASES.items():
                await first.start(case.saga, name, case.value)
        yield second


def test_after_a_restart(location: str) -> None:
    async def main() -> None:
        async with restarted(location) as store:
            for name, case in CASES.items():
                await judged(store, name, case)

    run(main())


@pytest.mark.parametrize("way", [by_a_client, taken_over])
def test_with_others(url: str, way: Any) -> None:
    async def main() -> None:
        async with way(url) as store:
            for name, case in CASES.items():
                await judged(store, name, case)

    run(main())
