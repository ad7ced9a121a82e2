"""Sagas whose steps come from their input, for tests and for programs that are killed."""

from __future__ import annotations

import json
import os
import pathlib
import time
from dataclasses import dataclass, field
from typing import Any

import sagas

WORLD = os.environ.get("SAGAS_TEST_WORLD")


def note(task: sagas.Task[Any], event: str) -> None:
    """Append a call of a function to a file, as a service outside would."""
    if WORLD is not None:
        with pathlib.Path(WORLD).open("a") as file:
            file.write(json.dumps([task.key, event, task.idempotency_key, task.attempt]) + "\n")


@dataclass
class Parcel:
    to: str
    value: int = 0
    slow: float = 0.0


@dataclass
class Order:
    parcels: list[Parcel] = field(default_factory=list)
    gift: bool = False
    number: int = 0
    """A separate definition for each: the cost to end without the mail, which chooses nothing."""


order = sagas.Saga("order")


@order.step
def reserve(task: sagas.Task[Order]) -> int:
    note(task, "reserve")
    return len(task.input.parcels)


@reserve.compensation(tries=3)
def release(task: sagas.Task[Order]) -> None:
    note(task, "release")


@order.step(
    for_each="parcels",
    needs=[reserve],
    undo=10,
    keep=lambda parcel: parcel.value,
    tries=2,
    backoff=sagas.Backoff(initial=0.01),
)
def ship(task: sagas.ItemTask[Order, Parcel]) -> str:
    parcel = task.item
    assert parcel == task.input.parcels[int(task.index)]
    note(task, f"ship {task.index}")
    if parcel.slow:
        time.sleep(parcel.slow)
    if parcel.to == "nowhere":
        raise sagas.Fail("no such address")
    return f"{task.index}:{parcel.to}"


@ship.compensation(tries=3)
def call_back(task: sagas.ItemTask[Order, Parcel]) -> None:
    assert task.result == f"{task.index}:{task.item.to}"
    note(task, f"call back {task.index}")


@order.step(for_each="parcels", needs=[ship.each], undo=0)
def label(task: sagas.Task[Order]) -> str:
    return f"label of {task.result_of(ship.each)}"


@order.step(when=lambda order: order.gift, needs=[label], undo=0)
async def wrap(task: sagas.Task[Order]) -> str:
    return "wrapped"


@order.step(needs=[wrap], undo=0, skip=lambda order: order.number)
async def mail(task: sagas.Task[Order]) -> list[str]:
    return task.result_of(ship)


plain = sagas.Saga("plain")


@plain.step(name="one")
async def first(task: sagas.Task[None]) -> int:
    return 1


@plain.step(needs=[first])
async def two(task: sagas.Task[None]) -> int:
    return task.result_of(first) + 1


@dataclass
class Hotel:
    city: str
    rooms: list[str]
    breakfast: bool = False


@dataclass
class Package:
    hotel: Hotel
    cars: list[str] = field(default_factory=list)


@dataclass
class Trip:
    package: Package


booking = sagas.Saga("booking")


@booking.step
def book(task: sagas.Task[Hotel]) -> str:
    return f"booked in {task.input.city}"


@book.compensation
def cancel(task: sagas.Task[Hotel]) -> None:
    assert task.result == f"booked in {task.input.city}"


@booking.step(for_each="rooms", needs=[book], undo=5, keep=20)
def room(task: sagas.ItemTask[Hotel, str]) -> str:
    return f"{task.result_of(book)}: {task.item}"


@room.compensation
def free(task: sagas.Task[Hotel]) -> None:
    assert str(task.result).startswith("booked")


@booking.step(when=lambda hotel: hotel.breakfast, needs=[room], undo=0)
def breakfast(task: sagas.Task[Hotel]) -> None:
    return None


@booking.step(needs=[breakfast], undo=0)
def confirm(task: sagas.Task[Hotel]) -> list[Any]:
    return [task.results["book"], task.result_of(room), task.given]


hire = sagas.Saga("hire")


@hire.step
def take(task: sagas.Task[dict[str, str]]) -> str:
    if task.input["car"] == "none":
        raise sagas.Fail("no car")
    return task.input["car"]


@take.compensation
def give(task: sagas.Task[Any]) -> None:
    assert task.result == task.input["car"]


package = sagas.Saga("package", input=Package)
hotel = package.include(
    booking, name="hotel", input="hotel", given=lambda task: task.given or "no flight"
)
cars = package.include(
    hire, name="car", for_each="cars", input=lambda name: {"car": name}, needs=[hotel]
)
trip = sagas.Saga("trip", input=Trip)


@trip.step
def flight(task: sagas.Task[Trip]) -> str:
    return "LH1"


inside = trip.include(
    package,
    name="p",
    needs=[flight],
    input="package",
    given=lambda task: f"by {task.result_of(flight)}",
)


@trip.step(needs=[inside], skip=7)
def tour(task: sagas.Task[Trip]) -> list[Any]:
    rooms, taken = task.result_of(inside[hotel[room]]), task.result_of(inside[cars[take]])
    return [task.result_of(flight), task.result_of(inside[hotel[confirm]]), rooms, taken]


def wanted(number: int) -> Order:
    """Return the order of this number: 0 to 6 parcels, some with one that cannot be sent."""
    count, is_bad = number % 7, number % 3 == 2
    parcels = [
        Parcel("nowhere" if is_bad and index == count // 2 else f"t{index}", index * 4, 0.003)
        for index in range(count)
    ]
    return Order(parcels, number % 2 == 1, number)


def parcels(count: int, bad: int | None = None, value: Any = lambda index: index) -> Order:
    """Return an order of `count` parcels, one that cannot be sent."""
    made = (
        Parcel("nowhere" if index == bad else f"t{index}", value(index)) for index in range(count)
    )
    return Order([*made])
