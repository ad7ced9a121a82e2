#!/usr/bin/env python3
"""Time clients' starts with a synchronous standby that applies commits late.

    PYTHONPATH=python/src:python/tests /usr/bin/python3 bench/standby.py
        [--delay MS] [--at 1,4,16] [--seconds S] [--turns N]

A server and its standby run on this machine. Commits wait until the standby has applied them, which
happens after the delay. No node runs. The script compares `Client.start` with inserts by hand over
as many connections: rows alone, and rows whose transaction also notifies. PostgreSQL commits the
latter one after another, over the whole server. The values are rows a second: the median, the
lowest and the highest turn.
"""

from __future__ import annotations

import argparse
import asyncio
import secrets
import statistics
import time
from collections.abc import Awaitable, Callable, Iterator

import psycopg
from psycopg import sql
from server import Pair, paired

import sagas

ROW = "INSERT INTO public.starts VALUES(%s, %s)"
NOTIFY = "SELECT pg_notify('bench', 'starts')"
INPUT = "x" * 200
Write = Callable[[int, str], Awaitable[object]]
"""A function that writes a row with a key over one of the connections."""


def kind() -> sagas.Saga:
    """Return a saga for which no node runs."""
    saga = sagas.Saga("bench")
    saga.step(lambda task: None, name="a")
    return saga


def prepare(pair: Pair, delay: float) -> str:
    """Create a database whose commits wait for the late standby, and return its URL."""
    url = pair.primary.create()
    name = sql.Identifier(url.rpartition("/")[2])
    with sagas.open_sync(url, [kind()]):
        pass
    with psycopg.connect(url, autocommit=True) as link:
        link.execute("CREATE TABLE starts(key text PRIMARY KEY, input text NOT NULL)")
        link.execute(
            sql.SQL("ALTER DATABASE {} SET synchronous_commit = remote_apply").format(name)
        )
    with psycopg.connect(pair.standby.url("postgres"), autocommit=True) as link:
        link.execute(f"ALTER SYSTEM SET recovery_min_apply_delay = '{int(delay)}ms'".encode())
        link.execute("SELECT pg_reload_conf()")
    return url


async def rate(write: Write, count: int, seconds: float) -> float:
    """Return the rows a second of `count` writers."""
    until, tag, done = time.perf_counter() + seconds, secrets.token_hex(4), 0

    async def go(number: int) -> None:
        nonlocal done
        while time.perf_counter() < until:
            await write(number, f"{tag}-{number}-{done}")
            done += 1

    began = time.perf_counter()
    await asyncio.gather(*(go(number) for number in range(count)))
    return done / (time.perf_counter() - began)


async def turn(url: str, count: int, seconds: float) -> Iterator[tuple[str, float]]:
    """Return the rates of all ways with `count` connections."""
    saga, rates = kind(), list[tuple[str, float]]()
    async with sagas.Client(url, connections=count) as client:
        start: Write = lambda number, key: client.start(saga, key, INPUT)
        rates.append(("Client.start", await rate(start, count, seconds)))
    links = [await psycopg.AsyncConnection.connect(url) for _ in range(count)]
    for name, more in (("rows by hand", None), ("rows by hand that notify", NOTIFY)):

        async def write(number: int, key: str, more: str | None = more) -> None:
            await links[number].execute(ROW, (key, INPUT))
            if more:
                await links[number].execute(more.encode())
            await links[number].commit()

        rates.append((name, await rate(write, count, seconds)))
    for link in links:
        await link.close()
    return iter(rates)


def main() -> None:
    """Run the command."""
    parser = argparse.ArgumentParser(
        description=__doc__, formatter_class=argparse.RawTextHelpFormatter
    )
    parser.add_argument("--delay", type=float, default=5, help="milliseconds (default: 5)")
    parser.add_argument("--at", default="1,4,16", help="connections (default: 1,4,16)")
    parser.add_argument("--seconds", type=float, default=3, help="of each way (default: 3)")
    parser.add_argument("--turns", type=int, default=3, help="(default: 3)")
    options = parser.parse_args()
    with paired(synchronous=True) as pair:
        url = prepare(pair, options.delay)
        print("measurement,condition,median,low,high,unit")
        for count in map(int, options.at.split(",")):
            rates: dict[str, list[float]] = {}
            for _ in range(options.turns):
                for name, value in asyncio.run(turn(url, count, options.seconds)):
                    rates.setdefault(name, []).append(value)
            for name, values in rates.items():
                cells = [
                    f"{value:.0f}"
                    for value in (statistics.median(values), min(values), max(values))
                ]
                condition = f"{options.delay:g} ms away; {count} connections"
                print(f"{name},{condition},{','.join(cells)},a second", flush=True)


if __name__ == "__main__":
    main()
