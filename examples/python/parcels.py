#!/usr/bin/env python3
"""An order with a step for each of its parcels, and with the steps of another saga.

    PYTHONPATH=python/src python3 examples/python/parcels.py

The program makes three orders. The first one completes. In the second one a parcel cannot be sent:
sent parcels that are worth more than their recall costs are recalled. The third one continues
without the parcel, since its step collects the failures.
"""

from __future__ import annotations

import asyncio
import pathlib
import tempfile
from dataclasses import dataclass

import sagas


@dataclass
class Parcel:
    """A parcel: its town and its value."""

    to: str
    value: int


@dataclass
class Order:
    """The input: parcels, and whether they are a gift."""

    parcels: list[Parcel]
    gift: bool = False


def by_town(order: Order) -> dict[str, Parcel]:
    """Return the parcels by their towns."""
    return {parcel.to: parcel for parcel in order.parcels}


def send(parcel: Parcel) -> str:
    """Hand a parcel to the carrier."""
    if parcel.to == "nowhere":
        raise sagas.Fail("no such address")
    return f"T-{parcel.to[:3].upper()}"


packing = sagas.Saga("packing", input=Order)


@packing.step(when=lambda order: order.gift, undo=sagas.NOTHING)
def wrap(task: sagas.Task[Order]) -> None:
    print(f"  wrap {len(task.input.parcels)} parcels")


@packing.step(needs=[wrap], undo=sagas.NOTHING)
def pack(task: sagas.Task[Order]) -> int:
    return len(task.input.parcels)


order = sagas.Saga("order")
packed = order.include(packing)


@order.step(for_each="parcels", needs=[packed], skip=1, undo=10, keep=lambda parcel: parcel.value)
def ship(task: sagas.ItemTask[Order, Parcel]) -> str:
    return send(task.item)


@ship.compensation
def call_back(task: sagas.ItemTask[Order, Parcel]) -> None:
    print(f"  call back {task.result} from {task.item.to}")


@order.step(needs=[ship])
def mail(task: sagas.Task[Order]) -> list[str]:
    numbers: list[str] = task.result_of(ship)
    return numbers


best_effort = sagas.Saga("best-effort")


@best_effort.step(for_each=by_town, undo=sagas.NOTHING)
def try_to_ship(task: sagas.ItemTask[Order, Parcel]) -> str:
    return send(task.item)


@best_effort.step(needs=[sagas.collect(try_to_ship)])
def report(task: sagas.Task[Order]) -> str:
    shipped = task.result_of(sagas.collect(try_to_ship))
    sent, failed = (", ".join(map(str, towns)) for towns in (shipped.results, shipped.errors))
    return f"sent to {sent}; not to {failed}"


async def main(folder: pathlib.Path) -> None:
    good = Order([Parcel("Rome", 0), Parcel("Oslo", 14)], gift=True)
    bad = Order([*good.parcels, Parcel("nowhere", 3)])
    async with sagas.open(folder / "orders.db", [order, packing, best_effort]) as store:
        end = await (await store.start(order, "order-1", good)).wait()
        print(f"  {end.phase}: {' and '.join(end.result_of(ship))}")
        end = await (await store.start(order, "order-2", bad)).wait()
        print(f"  {end.phase}, on its way: {end.each(ship)}")
        end = await (await store.start(best_effort, "order-3", bad)).wait()
        print(f"  {end.phase}: {end.result_of(report)}")


if __name__ == "__main__":
    with tempfile.TemporaryDirectory() as name:
        asyncio.run(main(pathlib.Path(name)))
