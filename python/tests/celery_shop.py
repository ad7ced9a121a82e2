"""The sagas of test_celery.py.

The test makes them, and its workers make them again with the same arguments (`python3 -m celery -A
celery_shop worker`).
"""

from __future__ import annotations

import dataclasses
import importlib
import json
import os
import pathlib
import time
from typing import Any

import celery
from brokers import Broker, Program
from cases import QUICK
from driving import program

import sagas
import sagas.celery

SETTINGS = "SAGAS_TEST_SHOP"
BIG = 300_000
"""Characters of a large result."""


@dataclasses.dataclass
class Trip:
    """An input."""

    to: str
    wish: str = ""


@dataclasses.dataclass
class Seat:
    """A result."""

    row: int
    name: str


class Shop:
    """An app, a queue, and sagas whose functions append each call to a file."""

    def __init__(
        self,
        broker: str,
        store: str,
        notes: str,
        queue: str = "shop",
        patience: float = 60.0,
        timeout: float = 300.0,
    ) -> None:
        self.settings = {
            "broker": broker,
            "store": store,
            "notes": notes,
            "queue": queue,
            "patience": patience,
            "timeout": timeout,
        }
        self.app = celery.Celery("shop", broker=broker)
        self.app.conf.update(sagas_store=store, broker_connection_max_retries=None)
        self.queue = sagas.celery.Queue(self.app, queue, patience=patience, timeout=timeout)
        self.notes = pathlib.Path(notes)
        self.trip, self.large, self.odd, self.slow, self.held = (
            self._trip(),
            self._large(),
            self._odd(),
            self._slow(),
            self._held(),
        )
        self.order, self.fair = self._shaped()
        self.bank = self._bank() if store.startswith("postgresql:") else None

    @property
    def sagas(self) -> list[sagas.Saga]:
        return [
            self.trip,
            self.large,
            self.odd,
            self.slow,
            self.held,
            self.order,
            self.fair,
            *([self.bank] if self.bank else []),
        ]

    def open(self, **options: Any) -> sagas.Store:
        """Open the store."""
        return sagas.open(
            self.settings["store"],
            self.sagas,
            settings=sagas.Settings(program=program()),
            **options,
        )

    def worker(self, folder: pathlib.Path, *more: str, name: str = "w", **other: Any) -> Program:
        """Start a worker and wait until it is ready; `other` replaces options of its command."""
        here = pathlib.Path(__file__).resolve().parent
        environment = os.environ | {
            SETTINGS: json.dumps(self.settings | other),
            "PYTHONPATH": f"{here.parent / 'src'}{os.pathsep}{here}",
            "PYTHONUNBUFFERED": "1",
        }
        command = [
            "/usr/bin/python3",
            "-m",
            "celery",
            "-A",
            "celery_shop",
            "worker",
            "-Q",
            str(self.settings["queue"]),
            "-c",
            "2",
            "-n",
            f"{name}@%h",
            "-l",
            "INFO",
        ]
        started = Program([*command, *more], folder, environment, f"{name}.log")
        try:
            started.wait_for(r" ready\.")
        except BaseException:
            started.kill()
            raise
        return started

    def note(self, task: Any, **more: Any) -> None:
        """Append a call as a line."""
        call = {
            "key": task.key,
            "step": task.step,
            "undo": task.is_compensation,
            "attempt": task.attempt,
            "token": task.attempt_id,
            "effect": task.idempotency_key,
            "pid": os.getpid(),
        }
        call["deadline"] = task.deadline and task.deadline.timestamp()
        with open(self.notes, "a", encoding="utf-8") as notes:
            notes.write(json.dumps(call | more) + "\n")

    def calls(self, key: str | None = None) -> list[dict[str, Any]]:
        """Return the calls up to now."""
        lines = self.notes.read_text().splitlines() if self.notes.exists() else []
        return [call for line in lines if key in (None, (call := json.loads(line))["key"])]

    def _trip(self) -> sagas.Saga:
        trip = sagas.Saga("trip", version=2)

        @sagas.celery.step(
            self.app, trip, "flight", queue=str(self.settings["queue"]), keep=9, undo=1
        )
        def flight(task: sagas.Task[Trip]) -> Seat:
            self.note(task, to=task.input.to)
            return Seat(12, task.input.to)

        @flight.compensation
        async def cancel_flight(task: sagas.Task[Trip]) -> None:
            self.note(task, row=task.result.row, of=task.original_idempotency_key)

        # this step is called in the process of the store
        @trip.step(needs=[flight], keep=9, undo=1)
        def meal(task: sagas.Task[Trip]) -> str:
            self.note(task)
            return "soup"

        @meal.compensation(queue=self.queue)
        def cancel_meal(task: sagas.Task[Trip]) -> None:
            self.note(task, result=task.result)

        @trip.step(needs=[flight, meal], tries=3, backoff=QUICK, queue=self.queue)
        async def tour(task: sagas.Task[Trip]) -> dict[str, Any]:
            self.note(task, row=task.result_of(flight).row, meal=task.result_of(meal))
            if task.input.wish == "full":
                raise sagas.Retry("full")
            if task.input.wish == "never":
                raise sagas.Fail("never")
            if task.input.wish == "lost" and len(self.calls(task.key)) < 5:
                raise (
                    sagas.Unknown("who knows")
                    if len(self.calls(task.key)) < 4
                    else ConnectionError("lost")
                )
            return {"seat": task.result_of(flight).name}

        return trip

    def _large(self) -> sagas.Saga:
        large = sagas.Saga("large")

        @large.step(queue=self.queue, keep=9, undo=1)
        def first(task: Any) -> str:
            return str(task.input["letter"]) * BIG

        @first.compensation
        def undo_first(task: Any) -> None:
            self.note(task, size=len(task.result), input=len(task.input["more"]))

        @large.step(needs=[first], queue=self.queue)
        def second(task: Any) -> Any:
            self.note(
                task,
                size=len(task.result_of(first)),
                letter=task.result_of(first)[0],
                input=len(task.input["more"]),
            )
            if task.input["fail"]:
                raise sagas.Fail("no")
            return object()  # cannot be written as JSON

        return large

    def _odd(self) -> sagas.Saga:
        odd = sagas.Saga("odd")

        @odd.step(
            queue=sagas.celery.Queue(
                self.app, str(self.settings["queue"]), soft_time_limit=1, time_limit=60, priority=3
            ),
            backoff=QUICK,
            max_unknown=1,
        )
        def long(task: Any) -> None:
            self.note(task)
            time.sleep(60)  # longer than its limit

        return odd

    def _slow(self) -> sagas.Saga:
        slow = sagas.Saga("slow")

        @slow.step(queue=self.queue, timeout=1, backoff=QUICK, max_unknown=1)
        def once(task: Any) -> str:
            self.note(task)
            return "late"

        return slow

    def _held(self) -> sagas.Saga:
        held = sagas.Saga("held")

        @held.step(queue=self.queue, timeout=120)
        def once(task: Any) -> None:
            self.note(task)
            until = time.monotonic() + 60
            while not self._released.exists() and time.monotonic() < until:
                time.sleep(0.01)  # until the test has looked

        return held

    @property
    def _released(self) -> pathlib.Path:
        return self.notes.with_name("released")

    def release(self) -> None:
        """Let the step of `held` continue."""
        self._released.touch()

    def _shaped(self) -> tuple[sagas.Saga, sagas.Saga]:
        """Return a saga with a step for each item, and one that includes it."""
        order = sagas.Saga("order")

        @order.step(
            for_each=lambda order: order["parcels"], queue=self.queue, keep=lambda seat: 5, undo=1
        )
        def ship(task: sagas.ItemTask[Any, Seat]) -> Seat:
            self.note(task, index=task.index, declared=task.declared_step)
            if task.item.name == "nowhere":
                raise sagas.Fail("no such place")
            return Seat(task.item.row, task.item.name.upper())

        @ship.compensation
        def call_back(task: sagas.Task[Any]) -> None:
            self.note(task, index=task.index, result=task.result.name)

        @order.step(needs=[ship], queue=self.queue)
        def mail(task: sagas.Task[Any]) -> list[str]:
            shipped: Any = task.result_of(ship)
            return [
                seat.name for seat in (shipped.values() if isinstance(shipped, dict) else shipped)
            ]

        fair = sagas.Saga("fair")
        fair.include(order, name="stall", for_each="stalls")
        return order, fair

    def _bank(self) -> sagas.Saga:
        bank = sagas.Saga("bank")
        row = "INSERT INTO book(key, step, token) VALUES(%s, %s, %s)"

        @bank.step(
            queue=self.queue, transaction=True, tries=2, backoff=QUICK, keep=9, undo=1, timeout=60
        )
        def book(task: Any) -> str:
            self.note(task)
            task.connection.execute(row, (task.key, "book", task.idempotency_key))
            if task.input == "once" and task.attempt == 1:
                raise ValueError("after its row")
            until = time.monotonic() + 30
            while task.key == "good" and len(self.calls("good")) < 2 and time.monotonic() < until:
                time.sleep(0.01)  # until the duplicated message is started twice
            return "booked"

        @book.compensation(timeout=60)
        async def unbook(task: Any) -> None:
            self.note(task)
            await task.connection.execute(row, (task.key, "unbook", task.idempotency_key))

        @bank.step(needs=[book])
        def check(task: Any) -> None:
            if task.input == "fails":
                raise sagas.Fail("no")

        return bank


def shop_in(broker: Broker, folder: pathlib.Path, store: str | None = None, **more: Any) -> Shop:
    """Return a shop in a folder; its store is a file there, unless `store` names another one."""
    return Shop(
        broker.url,
        store or str(folder / "store.db"),
        str(folder / "notes"),
        queue=folder.name,
        **more,
    )


if SETTINGS in os.environ:
    settings = json.loads(os.environ[SETTINGS])
    if wrong := settings.pop("wrong", None):
        importlib.import_module(f"wrong_workers.{wrong}").apply()
    lacks = settings.pop("lacks", None)
    shop = Shop(**settings)
    if lacks:
        shop.app.tasks.pop(lacks)
    app = shop.app
