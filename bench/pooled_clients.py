#!/usr/bin/env python3
"""Time the starts and waits of a client over the server, and over PgBouncer in two modes.

    PYTHONPATH=python/src:python/tests /usr/bin/python3 bench/pooled_clients.py
        [--count N] [--turns N] [--connections N]

A node is connected to the server itself. One client starts N sagas of one step, as many at once as
it has connections, and then waits for their ends. The client is connected to the server, to a
pooler of sessions, or to a pooler of transactions, in turns. The rows have the median, the lowest
and the highest value of starts a second, of the milliseconds of a single start, and of the seconds
until all sagas have ended.
"""

from __future__ import annotations

import argparse
import asyncio
import os
import statistics
import time
from typing import NamedTuple

from poolers import pooled
from server import Server, serving

import sagas

UNITS = "a second", "ms", "s"
"""The units of a `Figure`."""
ALONE = 50
"""The number of starts one after another."""


class Figure(NamedTuple):
    """Starts a second, milliseconds of a single start, and seconds until all sagas have ended."""

    rate: float
    alone: float
    ended: float


def definition() -> sagas.Saga:
    """Return a saga of one step that returns at once."""
    kind = sagas.Saga("one")

    @kind.step(undo=sagas.NOTHING)
    async def a(task: sagas.Task[None]) -> None:
        ...

    return kind


async def timed(
    url: str, there: str, direct_url: str | None, options: argparse.Namespace
) -> Figure:
    """Return the figures of a client that is connected to `there`."""
    kind, gate = definition(), asyncio.Semaphore(options.connections)
    async with sagas.open(url, [kind]):
        async with sagas.Client(
            there, connections=options.connections, direct_url=direct_url
        ) as client:

            async def start(number: int) -> None:
                async with gate:
                    await client.start(kind, f"k{number}")

            began = time.perf_counter()
            await asyncio.gather(*(start(number) for number in range(options.count)))
            started = time.perf_counter()
            await asyncio.gather(*(client.wait(f"k{number}") for number in range(options.count)))
            ended = time.perf_counter()
            alone = []
            for number in range(ALONE):
                before = time.perf_counter()
                await client.start(kind, f"alone{number}")
                alone.append(time.perf_counter() - before)
    rate = options.count / (started - began)
    return Figure(rate, 1000 * statistics.median(alone), ended - began)


def measure(server: Server, options: argparse.Namespace) -> dict[str, list[Figure]]:
    """Return the figures of each turn, by the way to the server."""
    figures: dict[str, list[Figure]] = {}
    with pooled(server, "session") as of_sessions, pooled(server, "transaction") as of_transactions:
        for _ in range(options.turns):
            for way, port in (
                ("server", None),
                ("sessions", of_sessions),
                ("transactions", of_transactions),
                ("transactions without direct_url", of_transactions),
            ):
                url = server.create()
                there = url if port is None else server.url(url.rpartition("/")[2], port=port)
                direct_url = url if way == "transactions" else None
                figure = asyncio.run(timed(url, there, direct_url, options))
                figures.setdefault(way, []).append(figure)
                server.drop(url)
    return figures


def main() -> None:
    """Measure, and print a table."""
    parser = argparse.ArgumentParser(description=__doc__.partition("\n")[0])
    parser.add_argument("--count", type=int, default=2000, help="sagas of a turn (default: 2000)")
    parser.add_argument("--turns", type=int, default=3, help="turns of each way (default: 3)")
    parser.add_argument(
        "--connections", type=int, default=4, help="connections of the client (default: 4)"
    )
    options = parser.parse_args()
    print(f"load before: {os.getloadavg()[0]:.1f}, processors: {os.cpu_count()}")
    with serving({"fsync": "on"}) as server:
        figures = measure(server, options)
    print(f"load after: {os.getloadavg()[0]:.1f}")
    print("measurement,condition,median,low,high,unit")
    for way, turns in figures.items():
        for name, unit, values in zip(Figure._fields, UNITS, zip(*turns)):
            row = (statistics.median(values), min(values), max(values))
            print(f"{name},{way},{','.join(f'{value:.1f}' for value in row)},{unit}")


if __name__ == "__main__":
    main()
