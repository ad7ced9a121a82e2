"""A trip: Celery's workers book its flight and its car.

The program (run.py) and the workers import this module.
"""

from __future__ import annotations

import os
from dataclasses import dataclass

import celery

import sagas
import sagas.celery

app = celery.Celery("shop", broker=os.environ.get("BROKER", "redis://localhost:6379"))
# The workers report to the store that run.py opens.
app.conf.sagas_store = os.environ.get("STORE", "trips.db")
flights = sagas.celery.Queue(app, "flights", timeout=60)
cars = sagas.celery.Queue(app, "cars", timeout=60)


@dataclass
class Order:
    """The input: a destination and a wish."""

    to: str
    wish: str = ""


@dataclass
class Car:
    """A car that was booked."""

    id: int


trip = sagas.Saga("trip")


@trip.step(queue=flights)
def flight(task: sagas.Task[Order]) -> str:
    """Book a seat. Without a compensation the step is never undone."""
    print(f"a seat to {task.input.to}, under the key {task.idempotency_key}")
    return "12A"


@trip.step(queue=cars, needs=[flight], undo=5, keep=30)
def car(task: sagas.Task[Order]) -> Car:
    """Book a car. It costs 5 to cancel it, and 30 to keep it for a trip that failed."""
    print(f"a car for seat {task.result_of(flight)}")
    return Car(7)


@car.compensation(tries=5)
def cancel_car(task: sagas.Task[Order]) -> None:
    """Cancel the car, on the queue of its step."""
    print(f"car {task.result.id} is canceled")


@trip.step(needs=[car], skip=10, tries=3, backoff=sagas.Backoff(initial=0.1))
def tour(task: sagas.Task[Order]) -> str:
    """Book a tour, in the program that has the store: not every step needs a worker."""
    if task.input.wish == "a tour that is full":
        raise sagas.Fail("the tour is full")
    return "booked"
