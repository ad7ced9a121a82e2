#!/usr/bin/env python3
"""An order in three steps: the stock is reserved, the card is charged, and the parcel is sent.

    PYTHONPATH=python/src python3 examples/python/order.py

The program makes two orders. The first one completes. The parcel of the second one cannot be sent,
so the money is refunded, and then the stock is released, since the charge needs the reservation. A
service executes an action once for each idempotency key, so that a step may run again after a kill.
"""

from __future__ import annotations

import asyncio
import pathlib
import tempfile
from dataclasses import dataclass

import sagas


@dataclass
class Order:
    """The input: an item, and the amount to pay for it."""

    item: str
    amount: int


class Service:
    """An external service, which executes an action once for each idempotency key."""

    def __init__(self) -> None:
        self.done: dict[str, str] = {}

    def execute(self, key: str, action: str) -> str:
        """Execute an action, unless it was executed under this idempotency key."""
        if key not in self.done:
            self.done[key] = action
            print(f"  {action}")
        return action


service = Service()
order = sagas.Saga("order")


@order.step
def reserve(task: sagas.Task[Order]) -> str:
    """Take the item from the stock."""
    return service.execute(task.idempotency_key, f"reserve one {task.input.item}")


@reserve.compensation(tries=5)
def release(task: sagas.Task[Order]) -> None:
    """Put the item back."""
    service.execute(task.idempotency_key, f"put the {task.input.item} back")


@order.step(needs=[reserve], tries=3, backoff=sagas.Backoff(initial=0.1))
def charge(task: sagas.Task[Order]) -> int:
    """Charge the card."""
    service.execute(task.idempotency_key, f"charge {task.input.amount} euros")
    return task.input.amount


@charge.compensation(tries=5)
def refund(task: sagas.Task[Order]) -> None:
    """Return the money. `task.result` is what the step returned."""
    service.execute(task.idempotency_key, f"give {task.result} euros back")


@order.step(needs=[charge])
async def send(task: sagas.Task[Order]) -> None:
    """Send the parcel. `Fail` says that nothing was sent, and nothing will be."""
    if task.input.item == "piano":
        raise sagas.Fail("a piano does not fit into a parcel")
    service.execute(task.idempotency_key, f"send the {task.input.item}")


async def main(path: pathlib.Path) -> None:
    """Make two orders."""
    async with sagas.open(path, [order]) as store:
        for key, details in (("order-1", Order("lamp", 40)), ("order-2", Order("piano", 900))):
            print(f"{key}: one {details.item}")
            run = await store.start(order, key=key, input=details)
            end = await run.wait()
            print(
                f"  {end.phase}: "
                + ", ".join(f"{step} {state}" for step, state in end.states.items())
            )


if __name__ == "__main__":
    with tempfile.TemporaryDirectory() as folder:
        asyncio.run(main(pathlib.Path(folder) / "orders.db"))
