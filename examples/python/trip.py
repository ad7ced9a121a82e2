#!/usr/bin/env python3
"""A trip with costs: if the hotel is full, the recovery with the least cost is executed.

    PYTHONPATH=python/src python3 examples/python/trip.py

Flight and hotel cannot be undone. It costs 5 to cancel the car, and 30 to keep it for a trip that
failed. A trip without a hotel costs 25, and one without the tour 10. So if no hotel has a room, the
flight remains in effect and the car is canceled, for 5 + 25 + 10 = 40. If the tour is sold out,
flight and hotel remain in effect, for 5 + 10 = 15.
"""

from __future__ import annotations

import asyncio
import pathlib
import tempfile
from typing import Any

import sagas

Trip = dict[str, Any]
trip = sagas.Saga("trip")


@trip.step
async def flight(task: sagas.Task[Trip]) -> str:
    """Book the flight. It has no compensation, so that it is never undone."""
    print(f"  flight {task.input['flight']}")
    return "Lisbon"


@trip.step(needs=[flight], undo=5, keep=30)
async def car(task: sagas.Task[Trip]) -> str:
    """Hire a car at the destination of the flight."""
    print(f"  car in {task.result_of(flight)}")
    return "car 7"


@car.compensation
async def cancel_car(task: sagas.Task[Trip]) -> None:
    """Cancel the car."""
    print(f"  give {task.result} back")


@trip.step(needs=[flight], skip=25, tries=3, backoff=sagas.Backoff(initial=0.05, maximum=0.1))
async def hotel(task: sagas.Task[Trip]) -> str:
    """Book a hotel, if one has a room."""
    if not task.input["rooms"]:
        print(f"  hotel in {task.result_of(flight)}: full (attempt {task.attempt})")
        raise sagas.Retry("no room is free")
    print(f"  hotel in {task.result_of(flight)}")
    return "room 12"


@trip.step(needs=[car, hotel], skip=10)
async def tour(task: sagas.Task[Trip]) -> str:
    """Book a tour from the hotel, if it is not sold out."""
    if not task.input["seats"]:
        print("  tour: sold out")
        raise sagas.Fail("no seat is free")
    print(f"  tour from {task.result_of(hotel)}, by {task.result_of(car)}")
    return "seat 3"


async def main(path: pathlib.Path) -> None:
    """Make three trips: one completes, one finds no hotel, and one no tour."""
    async with sagas.open(path, [trip]) as store:
        for key, rooms, seats in (("trip-1", 2, 9), ("trip-2", 0, 9), ("trip-3", 2, 0)):
            print(key)
            run = await store.start(
                trip, key=key, input={"flight": "LH1166", "rooms": rooms, "seats": seats}
            )
            end = await run.wait()
            cost = f"; it costs {end.cost}" if end.cost else ""
            print(f"  {end.phase}, in effect: {', '.join(end.results)}{cost}")


if __name__ == "__main__":
    with tempfile.TemporaryDirectory() as folder:
        asyncio.run(main(pathlib.Path(folder) / "trips.db"))
