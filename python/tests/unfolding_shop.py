"""A service's sagas whose steps come from their input, for tests of the dashboard."""

from __future__ import annotations

from typing import Any

import sagas

order = sagas.Saga("order")


@order.step(for_each="parcels", undo=1, skip=1, keep=lambda parcel: 0 * len(parcel))
def ship(task: sagas.Task[Any]) -> str:
    if task.item == "nowhere":
        raise sagas.Fail("no such <address>")
    return f"to {task.item}"


@ship.compensation
def call_back(task: sagas.Task[Any]) -> None:
    ...


@order.step(when=lambda order: order.get("gift"), needs=[ship], undo=0)
def wrap(task: sagas.Task[Any]) -> None:
    ...


order.step(external=True, name="mail", needs=[wrap], undo=0)

hotel = sagas.Saga("hotel")


@hotel.step(undo=0)
def book(task: sagas.Task[Any]) -> str:
    return "booked"


@hotel.step(for_each="rooms", needs=[book], undo=0, skip=1)
def room(task: sagas.Task[Any]) -> str:
    return str(task.item)


trip = sagas.Saga("trip")


@trip.step(undo=0)
def flight(task: sagas.Task[Any]) -> int:
    return 1


stays = trip.include(hotel, name="stay", needs=[flight], for_each="stays")


@trip.step(needs=[stays], undo=0)
def tour(task: sagas.Task[Any]) -> int:
    return 1


store = sagas.open("unused.db", [order, trip, hotel])
