"""The sagas of `sagas demo`: their definitions, their inputs, and functions that fail at times.

What happens to a saga depends on its number alone, so each demo shows the same.
"""

from __future__ import annotations

import dataclasses
import enum
import random
import threading
from collections import Counter
from collections.abc import Iterator
from typing import Any

from sagas.api.worker import Worker
from sagas.base.errors import Fail, Retry
from sagas.definition.call_options import NEVER, Backoff
from sagas.definition.saga import Saga
from sagas.definition.task import Task

COUNT = 200
"""The number of sagas."""
SEED = 84
LARGE = 500
"""An order of a larger amount waits for an approval."""
MAX_UNKNOWN = 2
CUSTOMERS = "Ada Ben Cleo Dora Emil Finn Gwen Hugo Ines Jan Kim Lena Milo Nora Omar Pia".split()
ARTICLES = {"lamp": 40, "chair": 90, "desk": 310, "piano": 900, "book": 15, "clock": 65}
CITIES = ("Rome", "Oslo", "Bern", "Lima", "Cork")
RETRIES = Backoff(initial=0.5, maximum=5)


class Fate(enum.Enum):
    """What happens to a saga."""

    SUCCESS = "each step succeeds"
    BUSY_BANK = "the bank refuses two requests"
    DECLINED_CARD = "the card is declined"
    BAD_ADDRESS = "the parcel cannot be sent"
    LOST_MAIL = "the customer gets no mail"
    LOST_ANSWER = "the answer of the bank is lost, more than once"
    NO_REFUND = "the parcel cannot be sent, and the bank refuses the refund"
    BUG = "the worker has a bug"
    NO_LICENSE = "a mandatory license is not to be had"


ORDER_FATES = {
    Fate.SUCCESS: 60,
    Fate.BUSY_BANK: 10,
    Fate.DECLINED_CARD: 9,
    Fate.BAD_ADDRESS: 8,
    Fate.LOST_MAIL: 8,
    Fate.LOST_ANSWER: 2,
    Fate.NO_REFUND: 2,
    Fate.BUG: 1,
}
"""The fates of orders, with their shares in percent."""
SERVER_FATES = {Fate.SUCCESS: 4, Fate.NO_LICENSE: 1}
WORK = {"order": ("reserve", "charge", "label", "ship", "mail"), "server": ("machine", "license")}
"""The steps that the worker performs."""
COMPENSATIONS = ("reserve", "charge", "label")
"""The steps of an order that it undoes."""


@dataclasses.dataclass(frozen=True, slots=True)
class Start:
    """A saga to start."""

    definition: str
    key: str
    input: dict[str, Any]
    fate: Fate


def definitions() -> list[Saga[Any]]:
    """Return the definitions. Workers execute the steps, and a person decides approvals."""
    order: Saga[Any] = Saga("order", max_unknown=MAX_UNKNOWN, backoff=RETRIES)
    reserve = order.step(external=True, name="reserve", undo=1, keep=2)
    charge = order.step(external=True, name="charge", needs=[reserve], undo=3, keep=5)
    label = order.step(external=True, name="label", undo=4, keep=1)

    @order.approval(needs=[charge], when=is_large, show=["amount", "customer", "article"])
    def review(task: Task[Any]) -> None:
        """Notify no person: the inbox has the approval."""

    ship = order.step(external=True, name="ship", needs=[review, label], undo=NEVER)
    order.step(external=True, name="mail", needs=[ship], undo=NEVER, skip=2)
    for step in (reserve, charge, label):
        step.compensation(external=True)
    server: Saga[Any] = Saga("server", max_unknown=MAX_UNKNOWN, backoff=RETRIES)
    machine = server.step(external=True, name="machine", undo=NEVER, skip=NEVER)
    server.step(external=True, name="license", needs=[machine], undo=NEVER, skip=NEVER)
    return [order, server]


def is_large(value: Any) -> bool:
    """Return whether a person has to look at an order."""
    amount = value.get("amount") if isinstance(value, dict) else None
    return isinstance(amount, (int, float)) and amount > LARGE


def starts(count: int = COUNT, seed: int = SEED) -> Iterator[Start]:
    """Yield the sagas of a demo, always the same."""
    draw = random.Random(seed)
    for number in range(1, count + 1):
        if draw.random() < 0.1:
            size = draw.choice(["small", "large"])
            yield Start("server", f"server-{number}", {"size": size}, fate_of(draw, SERVER_FATES))
            continue
        article = draw.choice([*ARTICLES])
        quantity = draw.choice([1, 1, 1, 2])
        value = {
            "customer": draw.choice(CUSTOMERS),
            "article": article,
            "amount": ARTICLES[article] * quantity,
            "city": draw.choice(CITIES),
        }
        fate = fate_of(draw, ORDER_FATES)
        if is_large(value) and draw.random() < 0.8:
            value["article"], value["amount"] = "lamp", ARTICLES["lamp"]  # few wait for a person
        yield Start("order", f"order-{number}", value, fate)


def fate_of(draw: random.Random, shares: dict[Fate, int]) -> Fate:
    """Draw a fate."""
    return draw.choices([*shares], [*shares.values()])[0]


class Shop:
    """The functions of the worker: they take a moment, and some fail.

    `stopping`: once it is set, they take no time.
    """

    def __init__(self, fates: dict[str, Fate], stopping: threading.Event) -> None:
        self._fates, self._stopping = fates, stopping
        self._calls: Counter[tuple[str, str]] = Counter()

    def worker(self, url: str) -> Worker:
        """Return a worker that performs all steps of the definitions."""
        worker = Worker(url, name="demo", concurrency=8)
        for saga, steps in WORK.items():
            for step in steps:
                worker.step(saga, step)(self._run)
        for step in COMPENSATIONS:
            worker.compensation("order", step)(self._undo)
        return worker

    def _run(self, task: Task[Any]) -> dict[str, str]:
        """Perform a step. A saga that a person starts has no failure."""
        self._take_time(task)
        self._calls[task.key, task.step] += 1
        call = self._calls[task.key, task.step]
        fate = self._fates.get(task.key, Fate.SUCCESS)
        match fate, task.step:
            case Fate.BUSY_BANK, "charge" if call <= 2:
                raise Retry("the bank answers 503")
            case Fate.DECLINED_CARD, "charge":
                raise Fail("the card is declined")
            case Fate.LOST_ANSWER, "charge" if call <= MAX_UNKNOWN:
                raise ConnectionError("the bank does not answer")
            case (Fate.BAD_ADDRESS | Fate.NO_REFUND), "ship":
                raise Fail("no such address")
            case Fate.LOST_MAIL, "mail":
                raise Fail("the mailbox is full")
            case Fate.BUG, "label" if call == 1:
                raise NameError("name 'pirnter' is not defined")
            case Fate.NO_LICENSE, "license":
                raise Fail("there are no licenses left")
        return {"id": f"{task.step}-{task.key.rpartition('-')[2]}"}

    def _undo(self, task: Task[Any]) -> None:
        """Undo a step."""
        self._take_time(task)
        if self._fates.get(task.key) is Fate.NO_REFUND and task.step == "charge":
            raise Fail("the account is closed")

    def _take_time(self, task: Task[Any]) -> None:
        """Wait, as for a service of another company."""
        name = f"{task.key} {task.step} {task.is_compensation} {task.attempt}"
        self._stopping.wait(random.Random(name).uniform(0.02, 0.2))
