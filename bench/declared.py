"""Measure what it costs that functions of definitions run in threads: `when`, `concurrency_by`,
`fair_by` and `until`, which return at once, called in a thread or in the event loop.

    PYTHONPATH=python/src /usr/bin/python3 bench/declared.py [--turns N] [--at 16] [--sagas N]

It needs the package's program (`SAGAS_PROGRAM`, or dist/sagas). A saga has three async steps that
do nothing, over SQLite, and one function of its definition. Each turn runs all of them, in threads
and in the loop, each over an empty store; in odd turns the loop is first. The table has the median
of the turns, in microseconds of the Python process for each saga.
"""

from __future__ import annotations

import argparse
import asyncio
import datetime
import logging
import pathlib
import statistics
import tempfile
import time
from collections.abc import Callable
from typing import Any

import sagas
from sagas.runtime.declared_calls import FunctionThreads

WARM = 3
"""Sagas of each caller that run before the timed ones."""
IN_THREAD = FunctionThreads.call


async def in_loop(threads: FunctionThreads, name: str, function: Callable[[], Any]) -> Any:
    """Call a function in the event loop."""
    return function()


async def nothing(task: sagas.Task[Any]) -> None:
    """A step that has nothing to do."""


def declared(name: str, fair_by: Any = None, until: Any = None, **options: Any) -> sagas.Saga:
    """Make a saga of three steps."""
    saga = sagas.Saga(name, fair_by=fair_by)
    if until is None:
        first = saga.step(name="first", undo=0, **options)(nothing)
    else:
        first = saga.wait(name="first", undo=0, until=until)(nothing)
    second = saga.step(name="second", undo=0, needs=[first])(nothing)
    saga.step(name="third", undo=0, needs=[second])(nothing)
    return saga


def definitions() -> list[sagas.Saga]:
    """Make a saga for each function."""
    return [
        declared("none"),
        declared("when", when=lambda value: True),
        declared("concurrency_by", concurrency=1000, concurrency_by=lambda value: value["of"]),
        declared("fair_by", fair_by=lambda value: value["of"]),
        declared("until", until=lambda task: datetime.timedelta(0)),
    ]


async def timed(saga: sagas.Saga, at: int, count: int) -> float:
    """Run `count` sagas, `at` at a time; return the microseconds of each."""
    with tempfile.TemporaryDirectory() as folder:
        path = pathlib.Path(folder) / "store.db"
        async with sagas.open(path, [saga], concurrency=64) as store:

            async def run(caller: str, sagas_of: int) -> None:
                for number in range(sagas_of):
                    await (await store.start(saga, f"{caller}-{number}", {"of": 1})).wait()

            await asyncio.gather(*[run(f"warm{caller}", WARM) for caller in range(at)])
            began = time.process_time()
            await asyncio.gather(*[run(str(caller), count // at) for caller in range(at)])
            return (time.process_time() - began) / (count // at * at) * 1e6


def main() -> None:
    """Measure, and print the table."""
    parser = argparse.ArgumentParser(description=__doc__.partition("\n")[0])
    parser.add_argument("--turns", type=int, default=7)
    parser.add_argument("--at", type=int, default=16)
    parser.add_argument("--sagas", type=int, default=640)
    options = parser.parse_args()
    logging.disable(logging.CRITICAL)
    times: dict[tuple[str, str], list[float]] = {}
    for turn in range(options.turns):
        ways = [("loop", in_loop), ("thread", IN_THREAD)]
        for saga in definitions():
            for way, call in ways if turn % 2 else reversed(ways):
                FunctionThreads.call = call  # type: ignore[method-assign]
                took = asyncio.run(timed(saga, options.at, options.sagas))
                times.setdefault((saga.name, way), []).append(took)
    print("| function | in the loop | in a thread | more |\n|---|---|---|---|")
    for saga in definitions():
        loop, thread = (statistics.median(times[saga.name, way]) for way in ("loop", "thread"))
        print(f"| {saga.name} | {loop:.0f} µs | {thread:.0f} µs | {thread - loop:+.0f} µs |")


if __name__ == "__main__":
    main()
