"""Measure the cost of a definition for each saga.

The steps of such sagas come from their input, so that each saga has another definition. They are
compared with fixed sagas of as many steps.

    PYTHONPATH=python/src /usr/bin/python3 bench/shapes.py [--turns N] [--at 64] [--sagas N]
        [--definitions 64,128] [--store sqlite|postgresql]

It needs the package's program (`SAGAS_PROGRAM`, or dist/sagas). For PostgreSQL it also needs
psycopg and Debian's postgresql, and starts a server of its own.

A saga has a first step, one to five items that need it, and a last step that needs all items. No
step does anything. The fixed ones are five sagas, one for each number of items. The others are one
saga with `for_each=`. The cost of its last step comes from the input and differs for each saga.
Each turn runs both, each over an empty store. In odd turns the fixed ones are second.
`--definitions` is the maximum number of definitions in a shard.
"""

from __future__ import annotations

import argparse
import asyncio
import contextlib
import pathlib
import statistics
import sys
import tempfile
import time
from collections.abc import Iterator
from typing import Any, NamedTuple

sys.path.insert(0, str(pathlib.Path(__file__).resolve().parents[1] / "python" / "tests"))

from server import Server, serving  # noqa: E402

import sagas  # noqa: E402
from sagas.core.shard import driver  # noqa: E402
from sagas.runtime import shard_runner  # noqa: E402

FIXED, FROM_INPUT = "fixed", "a definition of its own"
MAX_ITEMS = 5
WARM = 10
"""The number of sagas that run before the timed ones."""


class Turn(NamedTuple):
    """The figures of a run.

    Attributes:
        rate: Sagas a second.
        cpu: Microseconds of the Python process, a saga.
        engines: Engines that were started, a thousand sagas.
    """

    rate: float
    cpu: float
    engines: float


class Engines:
    """The number of engines that were started."""

    started = 0

    class Counted(shard_runner.EngineProcess):
        """An engine that is counted."""

        def __init__(self, *arguments: Any) -> None:
            Engines.started += 1
            super().__init__(*arguments)


async def nothing(task: sagas.Task[Any]) -> None:
    """A step that has nothing to do."""


def fixed(items: int) -> sagas.Saga:
    """Make a saga with this number of items, each a declared step."""
    saga = sagas.Saga(f"fixed{items}")
    first = saga.step(name="first", undo=0)(nothing)
    needs = [
        saga.step(name=f"item-{item}", needs=[first], undo=0)(nothing) for item in range(items)
    ]
    saga.step(name="last", needs=needs, undo=0)(nothing)
    return saga


def from_input() -> sagas.Saga:
    """Make the same saga, whose input has the items and the cost of the last step."""
    saga = sagas.Saga("own")
    first = saga.step(name="first", undo=0)(nothing)
    item = saga.step(name="item", for_each="items", needs=[first], undo=0)(nothing)
    saga.step(name="last", needs=[item], undo=0, skip=lambda saga_input: saga_input["number"])(
        nothing
    )
    return saga


def kinds(way: str) -> list[sagas.Saga]:
    """Return the sagas of a way, by the number of items less one."""
    return (
        [from_input()] * MAX_ITEMS
        if way == FROM_INPUT
        else [fixed(1 + items) for items in range(MAX_ITEMS)]
    )


async def turn(location: str, way: str, at: int, count: int) -> Turn:
    """Run `count` sagas from start to end, `at` at once."""
    of = kinds(way)
    async with sagas.open(location, [*dict.fromkeys(of)], concurrency=max(16, at)) as store:

        async def lane(numbers: Iterator[int]) -> None:
            for number in numbers:
                items = number % MAX_ITEMS
                saga_input = {"items": [0] * (1 + items), "number": number}
                assert (await (await store.start(of[items], f"k{number}", saga_input)).wait()).ok

        numbers = iter(range(WARM + count))
        await asyncio.gather(*(lane(iter([next(numbers)])) for _ in range(WARM)))
        engines, cpu, began = Engines.started, time.process_time(), time.perf_counter()
        await asyncio.gather(*(lane(numbers) for _ in range(at)))
        took, cpu = time.perf_counter() - began, time.process_time() - cpu
    return Turn(count / took, cpu / count * 1e6, (Engines.started - engines) * 1000 / count)


@contextlib.contextmanager
def empty(server: Server | None) -> Iterator[str]:
    """Yield an empty store: a file, or a database."""
    if server is None:
        with tempfile.TemporaryDirectory(prefix="sagas-bench-") as folder:
            yield f"{folder}/sagas.db"
    else:
        url = server.create()
        yield url
        server.drop(url)


def measure(server: Server | None, options: argparse.Namespace) -> None:
    """Measure both ways over one kind of store, for each number of definitions."""
    name = "SQLite" if server is None else "PostgreSQL"
    for limit in map(int, options.definitions.split(",")):
        driver.MAX_ADDED = limit  # type: ignore[attr-defined]
        turns_by_way: dict[str, list[Turn]] = {FIXED: [], FROM_INPUT: []}
        for number in range(options.turns):
            for way in (FIXED, FROM_INPUT) if number % 2 == 0 else (FROM_INPUT, FIXED):
                with empty(server) as location:
                    turns_by_way[way].append(
                        asyncio.run(turn(location, way, options.at, options.sagas))
                    )
        condition = f"{options.at} open; {name}; up to {limit} definitions a shard"
        for way, turns in turns_by_way.items():
            row(f"{way},{condition}", [turn.rate for turn in turns], "sagas a second", 0)
        pairs = zip(turns_by_way[FROM_INPUT], turns_by_way[FIXED])
        rates = [shaped.rate / fixed.rate for shaped, fixed in pairs]
        row(f"own compared with fixed,{condition}", rates, "times", 2)
        for way, turns in turns_by_way.items():
            row(
                f"processor time of Python: {way},{condition}",
                [turn.cpu for turn in turns],
                "us a saga",
                0,
            )
        for way, turns in turns_by_way.items():
            engines = [turn.engines for turn in turns]
            row(f"engines: {way},{condition}", engines, "a thousand sagas", 1)


def row(label: str, values: list[float], unit: str, digits: int) -> None:
    """Print a row: the median, the lowest and the highest value."""
    cells = (statistics.median(values), min(values), max(values))
    print(",".join([label, *(f"{cell:.{digits}f}" for cell in cells), unit]), flush=True)


def main() -> None:
    """Run the command."""
    parser = argparse.ArgumentParser(
        description=__doc__, formatter_class=argparse.RawDescriptionHelpFormatter
    )
    parser.add_argument("--turns", type=int, default=5)
    parser.add_argument("--at", type=int, default=64)
    parser.add_argument("--sagas", type=int, default=600, help="of a turn")
    parser.add_argument("--definitions", default=str(driver.MAX_ADDED))
    parser.add_argument("--store", choices=["sqlite", "postgresql"], action="append")
    options = parser.parse_args()
    shard_runner.EngineProcess = Engines.Counted  # type: ignore[misc]
    print("measurement,condition,median,low,high,unit")
    stores = options.store or ["sqlite", "postgresql"]
    if "sqlite" in stores:
        measure(None, options)
    if "postgresql" in stores:
        with serving() as server:
            measure(server, options)


if __name__ == "__main__":
    main()
