#!/usr/bin/env python3
"""Time a store over three servers against a store of one server.

    PYTHONPATH=python/src:python/tests python3 bench/databases.py [--count N] [--programs N]
        [--concurrency N] [--turns N]

Each turn runs three stores, one after the other: `one` is a database, `map` a list of that one
database, and `three` a list of three databases, each on its own server with `fsync=on`. N programs
start sagas of two steps and wait for their ends. `map` against `one` is the cost of the triggers.
The table has the medians: sagas a second, commits of the servers for one saga, and the connections
of all programs. The ratios are against `one` in the same turn.

All servers and programs share this machine: `three` shows what the routing costs, and gains by more
servers only if the servers are what limits `one`.
"""

from __future__ import annotations

import argparse
import asyncio
import contextlib
import statistics
import subprocess
import sys
import time
from collections.abc import Sequence
from typing import Any, NamedTuple

import psycopg
from server import Server, serving

import sagas

COMMITS = "SELECT xact_commit FROM pg_stat_database WHERE datname = current_database()"
CONNECTIONS = """
SELECT count(*) FROM pg_stat_activity
WHERE datname = current_database() AND starts_with(application_name, 'sagas')
"""
STORES = "one", "map", "three"


class Figure(NamedTuple):
    """Sagas a second, commits for a saga, and connections of all programs."""

    rate: float
    commits: float
    connections: float


def pair() -> sagas.Saga[Any]:
    """Return a saga of two steps, whose functions return at once."""
    saga = sagas.Saga("pair")

    @saga.step
    async def first(task: sagas.Task[Any]) -> int:
        return 1

    @saga.step(needs=[first])
    async def second(task: sagas.Task[Any]) -> int:
        return 2

    return saga


# -- a program


async def load(store_name: str, urls: list[str], name: str, count: int, concurrency: int) -> None:
    """Open the store, wait for a line, and start sagas until all have ended."""
    saga = pair()
    path: str | list[str] = urls[0] if store_name == "one" else urls
    async with sagas.open(path, [saga], node=name) as store:
        print("open", flush=True)
        await asyncio.to_thread(sys.stdin.readline)
        numbers = iter(range(count))

        async def start_all() -> None:
            for number in numbers:
                await (await store.start(saga, f"{name}-{number}")).wait()

        await asyncio.gather(*(start_all() for _ in range(concurrency)))
        print("done", flush=True)
        await asyncio.to_thread(sys.stdin.readline)


# -- a turn


def summed(urls: Sequence[str], query: str) -> int:
    """Return the sum of a number of each database."""
    total = 0
    for url in urls:
        with psycopg.connect(url) as link:
            (number,) = link.execute(query).fetchone() or (0,)  # type: ignore[call-overload]
            total += int(number)
    return total


def timed(name: str, servers: Sequence[Server], options: argparse.Namespace) -> Figure:
    """Run the programs over one store."""
    of_store = servers if name == "three" else servers[:1]
    urls = [server.create() for server in of_store]
    count = options.count // options.programs
    with contextlib.ExitStack() as stack:
        programs = []
        for number in range(options.programs):
            arguments = ["--load", name, ",".join(urls), f"n{number}", str(count)]
            program = subprocess.Popen(
                [sys.executable, __file__, *arguments, str(options.concurrency)],
                stdin=subprocess.PIPE,
                stdout=subprocess.PIPE,
                text=True,
            )
            stack.callback(program.wait)
            stack.callback(program.kill)
            programs.append(program)
            expect(program, "open")
        before, began = summed(urls, COMMITS), time.perf_counter()
        for program in programs:
            send(program)
        for program in programs:
            expect(program, "done")
        seconds, connections = time.perf_counter() - began, summed(urls, CONNECTIONS)
        for program in programs:
            send(program)
        for program in programs:
            program.wait()
        commits = summed(urls, COMMITS) - before
    for server, url in zip(of_store, urls):
        server.drop(url)
    done = count * options.programs
    return Figure(done / seconds, commits / done, connections)


def send(program: subprocess.Popen[str]) -> None:
    """Have a program continue."""
    assert program.stdin
    program.stdin.write("\n")
    program.stdin.flush()


def expect(program: subprocess.Popen[str], word: str) -> None:
    """Wait for a line of a program."""
    assert program.stdout
    line = program.stdout.readline().strip()
    if line != word:
        raise RuntimeError(f"a program has ended before it was {word}")


def main() -> None:
    """Run the command."""
    parser = argparse.ArgumentParser(
        description=__doc__, formatter_class=argparse.RawDescriptionHelpFormatter
    )
    parser.add_argument("--count", type=int, default=6000)
    parser.add_argument("--programs", type=int, default=3)
    parser.add_argument("--concurrency", type=int, default=64)
    parser.add_argument("--turns", type=int, default=5)
    options = parser.parse_args()
    figures: dict[str, list[Figure]] = {name: [] for name in STORES}
    with contextlib.ExitStack() as stack:
        servers = [stack.enter_context(serving({"fsync": "on"})) for _ in range(3)]
        for _ in range(options.turns):
            for name in STORES:
                figures[name].append(timed(name, servers, options))
    print(f"{'store':8}{'sagas/s':>10}{'ratio':>8}{'commits':>10}{'connections':>13}")
    for name, of_store in figures.items():
        ratios = [turn.rate / single.rate for turn, single in zip(of_store, figures["one"])]
        rate, commits, connections = (statistics.median(column) for column in zip(*of_store))
        ratio = statistics.median(ratios)
        print(f"{name:8}{rate:10.0f}{ratio:8.2f}{commits:10.2f}{connections:13.0f}")


if __name__ == "__main__":
    if sys.argv[1:2] == ["--load"]:
        name, urls, node, count, concurrency = sys.argv[2:7]
        asyncio.run(load(name, urls.split(","), node, int(count), int(concurrency)))
    else:
        main()
