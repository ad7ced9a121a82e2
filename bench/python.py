#!/usr/bin/env python3
"""Time the Python package against a coordinator by hand, in one run.

    PYTHONPATH=python/src python3 bench/python.py [--turns N] [--scale X] [--at 1,16] [--failing]
    PYTHONPATH=python/src python3 bench/python.py --open N [--each M]
    PYTHONPATH=python/src python3 bench/python.py --ended N

A saga has three steps in a row, each with a small result. All ways use one SQLite file with durable
defaults (WAL, synchronous=FULL). There are three ways:

- `sagas`: the package. It plans, compensates, retries and has idempotency keys.
- `by hand`: a state machine in a table, with one transaction for each change of state: a saga's
  start, and each step's end, which starts the next step. It neither plans nor compensates.
- `by hand, shared`: the same, and one commit has all changes that wait.

With `--failing` the third step fails permanently, and both others are undone, by two compensations
in the package and by hand. The package plans them. By hand each is undone with its own change,
since a program that is killed has to know which steps are undone. Both log a line for each saga
that fails. The table also compares the transactions that the package writes for such a saga with
those for a saga that completes.

Each turn runs all ways at each concurrency, so that a slower moment of the machine affects each.
The table has the turn with the median rate. CPU is the processor time of the Python process for a
saga, with all its threads, and without the engine process.

`--open` starts N sagas whose first step does not end, with at most M of them in a shard, and kills
the program with -9. It times the next program until the first function is called again, and prints
the memory of all its processes. `--ended` runs N sagas to their end. It prints the time that a
store with them takes to open, and their size on the disk.
"""

from __future__ import annotations

import argparse
import asyncio
import concurrent.futures
import dataclasses
import json
import logging
import os
import pathlib
import shutil
import sqlite3
import statistics
import subprocess
import sys
import tempfile
import time
from collections.abc import Awaitable, Callable
from dataclasses import dataclass
from typing import Any

import sagas

COUNTS = {1: 200, 16: 1_500, 256: 6_000, 1_000: 10_000}
"""The number of timed sagas, by concurrency."""

SCHEMA = """
CREATE TABLE saga(
    id INTEGER PRIMARY KEY, key TEXT NOT NULL UNIQUE, input TEXT NOT NULL,
    step INTEGER NOT NULL, phase TEXT NOT NULL
);
CREATE TABLE result(
    saga INTEGER NOT NULL, step INTEGER NOT NULL, value TEXT, at REAL, PRIMARY KEY(saga, step)
) WITHOUT ROWID;
"""

WARM = 20
"""The number of sagas that run before the timed runs."""
Step = Callable[[Any], Awaitable[Any]]
RunSaga = Callable[[str, Any], Awaitable[None]]


# -- by hand


@dataclass(frozen=True)
class Started:
    """The start of a saga and of its first step."""

    id: int
    key: str
    input: str

    def write(self, db: sqlite3.Connection) -> None:
        db.execute("INSERT INTO saga VALUES(?, ?, ?, 0, 'going')", (self.id, self.key, self.input))


@dataclass(frozen=True)
class Done:
    """The end of a step, and the start of the next one."""

    id: int
    step: int
    value: str
    at: float
    phase: str

    def write(self, db: sqlite3.Connection) -> None:
        db.execute(
            "INSERT INTO result VALUES(?, ?, ?, ?)", (self.id, self.step, self.value, self.at)
        )
        db.execute(
            "UPDATE saga SET step = ?, phase = ? WHERE id = ?", (self.step + 1, self.phase, self.id)
        )


@dataclass(frozen=True)
class Undone:
    """The failure of a step, or the end of its compensation, and the start of the next one."""

    id: int
    step: int
    at: float
    phase: str

    def write(self, db: sqlite3.Connection) -> None:
        db.execute("INSERT INTO result VALUES(?, ?, NULL, ?)", (self.id, -1 - self.step, self.at))
        db.execute(
            "UPDATE saga SET step = ?, phase = ? WHERE id = ?", (self.step, self.phase, self.id)
        )


Change = Started | Done | Undone


class Table:
    """The table of the state machine.

    A thread writes it, with one transaction for each change or for all changes that wait.
    """

    def __init__(self, path: pathlib.Path, shared: bool) -> None:
        self.shared = shared
        self.db = sqlite3.connect(path, isolation_level=None, check_same_thread=False)
        self.db.execute("PRAGMA journal_mode=WAL")
        self.db.execute("PRAGMA synchronous=FULL")
        self.db.executescript(SCHEMA)
        self.thread = concurrent.futures.ThreadPoolExecutor(1)
        self.loop = asyncio.get_running_loop()
        self.queue: list[tuple[asyncio.Future[None], Change]] = []
        self.draining: asyncio.Task[None] | None = None

    def close(self) -> None:
        self.thread.shutdown()
        self.db.close()

    def _commit(self, changes: list[Change]) -> None:
        self.db.execute("BEGIN IMMEDIATE")
        for change in changes:
            change.write(self.db)
        self.db.execute("COMMIT")

    def write(self, change: Change) -> asyncio.Future[None]:
        """Commit a change. The future is done when the change is durable."""
        if not self.shared:
            return self.loop.run_in_executor(self.thread, self._commit, [change])
        future = self.loop.create_future()
        self.queue.append((future, change))
        if self.draining is None or self.draining.done():
            self.draining = self.loop.create_task(self._drain())
        return future

    async def _drain(self) -> None:
        while self.queue:
            batch, self.queue = self.queue, []
            await self.loop.run_in_executor(
                self.thread, self._commit, [change for _, change in batch]
            )
            for future, _ in batch:
                future.set_result(None)


class ByHand:
    """Run steps in a row, and store each before the next one starts.

    If a step fails, the steps before it are undone in reverse order.
    """

    def __init__(self, table: Table, steps: list[Step], undo: Step) -> None:
        self.table, self.steps, self.undo, self.started = table, steps, undo, 0

    async def run(self, key: str, saga_input: Any) -> None:
        """Run a saga from its start to its end."""
        id, self.started = self.started, self.started + 1
        await self.table.write(Started(id, key, json.dumps(saga_input, sort_keys=True)))
        for number, step in enumerate(self.steps):
            try:
                value = await step(saga_input)
            except LookupError as error:
                logging.getLogger("by hand").warning(
                    "step_failed key=%s step=%d detail=%r", key, number, error
                )
                await self._back(id, number, saga_input)
                return
            phase = "ended" if number + 1 == len(self.steps) else "going"
            await self.table.write(Done(id, number, json.dumps(value), time.time(), phase))

    async def _back(self, id: int, failed: int, saga_input: Any) -> None:
        await self.table.write(Undone(id, failed, time.time(), "undoing"))
        for number in reversed(range(failed)):
            await self.undo(saga_input)
            await self.table.write(
                Undone(id, number, time.time(), "undoing" if number else "ended")
            )


async def small(saga_input: Any) -> Any:
    """Do nothing, and return a small result."""
    return {"id": 17}


async def fails(saga_input: Any) -> Any:
    """Fail."""
    raise LookupError("sold out")


# -- with the package

row = sagas.Saga("row")


@row.step
async def first(task: sagas.Task[Any]) -> dict[str, int]:
    """Return a small result."""
    return {"id": 17}


@row.step(needs=[first], undo=1, keep=2)
async def second(task: sagas.Task[Any]) -> dict[str, int]:
    """Return a small result. This step can be undone."""
    return {"id": 17}


@second.compensation
async def not_second(task: sagas.Task[Any]) -> None:
    """Do nothing. It is never called here."""


@row.step(needs=[second])
async def third(task: sagas.Task[Any]) -> dict[str, int]:
    """Return a small result."""
    return {"id": 17}


back = sagas.Saga("back")


@back.step(keep=2)
async def initial(task: sagas.Task[Any]) -> dict[str, int]:
    """Return a small result."""
    return {"id": 17}


@initial.compensation
async def not_initial(task: sagas.Task[Any]) -> None:
    """Do nothing."""


@back.step(needs=[initial], keep=2)
async def middle_step(task: sagas.Task[Any]) -> dict[str, int]:
    """Return a small result."""
    return {"id": 17}


@middle_step.compensation
async def not_middle(task: sagas.Task[Any]) -> None:
    """Do nothing."""


@back.step(needs=[middle_step])
async def sold_out(task: sagas.Task[Any]) -> None:
    """Fail permanently."""
    raise sagas.Fail("sold out")


# -- times


@dataclass(frozen=True)
class Timing:
    """The times of a run."""

    rate: float
    """Sagas a second."""
    middle: float
    """Median milliseconds from a saga's start to its end."""
    cpu: float
    """Microseconds of this process's CPU, a saga."""
    commits: float = 0.0
    """Transactions of the package, a saga."""


async def timed(run_saga: RunSaga, count: int, together: int) -> Timing:
    """Time `count` sagas, with `together` concurrent runs, after a few to warm up."""
    spent: list[float] = []

    async def worker(keys: Any) -> None:
        for key in keys:
            began = time.perf_counter()
            await run_saga(f"key-{together}-{key}", {"n": 1})
            spent.append(time.perf_counter() - began)

    warm = iter([f"warm-{number}" for number in range(WARM)])
    await asyncio.gather(*(worker(warm) for _ in range(4)))
    spent.clear()
    keys, cpu, began = iter(range(count)), time.process_time(), time.perf_counter()
    await asyncio.gather(*(worker(keys) for _ in range(together)))
    took, cpu = time.perf_counter() - began, time.process_time() - cpu
    return Timing(count / took, statistics.median(spent) * 1e3, cpu / count * 1e6)


async def with_package(folder: pathlib.Path, saga: sagas.Saga, count: int, together: int) -> Timing:
    """Run a turn of the package."""
    async with sagas.open(folder / "sagas.db", [saga], concurrency=max(16, together)) as store:
        last: list[sagas.SagaResult] = []

        async def run_saga(key: str, saga_input: Any) -> None:
            run = await store.start(saga, key=key, input=saga_input)
            # A result is read when it is used, which is not a part of this measurement.
            last[:] = [await run.wait()]

        timing = await timed(run_saga, count, together)
        assert last[0].ok if saga is row else last[0].states["initial"] == "undone", last
        return dataclasses.replace(timing, commits=store._commits / (count + WARM))


async def by_hand(
    folder: pathlib.Path, failing: bool, count: int, together: int, shared: bool
) -> Timing:
    """Run a turn by hand."""
    table = Table(folder / "table.db", shared)
    try:
        steps = [small, small, fails if failing else small]
        return await timed(ByHand(table, steps, small).run, count, together)
    finally:
        table.close()


def turn(way: str, failing: bool, count: int, together: int) -> Timing:
    """Run one way on a new store."""
    folder = pathlib.Path(tempfile.mkdtemp(prefix="sagas-bench-"))
    try:
        if way == "sagas":
            return asyncio.run(with_package(folder, back if failing else row, count, together))
        return asyncio.run(by_hand(folder, failing, count, together, way.endswith("shared")))
    finally:
        shutil.rmtree(folder)


# -- a store with many sagas

MANY = """
import asyncio, os, pathlib, signal, sys, time
import sagas, sagas.definition.registry

path, count, each, again = sys.argv[1], int(sys.argv[2]), int(sys.argv[3]), sys.argv[4] == "again"
began = time.perf_counter()
saga = sagas.Saga("open")

@saga.step
async def first(task):
    if not called.is_set():
        called.set()
    await asyncio.sleep(3600)

@saga.step(needs=[first])
async def second(task): ...

def memory(pid):
    text = pathlib.Path(f"/proc/{pid}/smaps_rollup").read_text()
    return next(int(line.split()[1]) for line in text.splitlines() if line.startswith("Pss:"))

async def main():
    sagas.definition.registry.SHARD_CAPACITY = each
    async with sagas.open(path, [saga]) as store:
        if not again:
            for begin in range(0, count, 500):
                numbers = range(begin, min(begin + 500, count))
                await asyncio.gather(*(store.start(saga, key=f"k{n}") for n in numbers))
            os.kill(os.getpid(), signal.SIGKILL)
        opened = time.perf_counter() - began
        await called.wait()
        took = time.perf_counter() - began
        await asyncio.sleep(1)  # until all shards have had their turn
        tasks = f"/proc/{os.getpid()}/task/{os.getpid()}/children"
        pids = [os.getpid(), *map(int, pathlib.Path(tasks).read_text().split())]
        print(opened, took, len(pids) - 1, sum(map(memory, pids)) / 1024, flush=True)
        os.kill(os.getpid(), signal.SIGKILL)

called = asyncio.Event()
asyncio.run(main())
"""


def open_again(count: int, each: int) -> None:
    """Time how a program continues many open sagas after kill -9."""
    folder = pathlib.Path(tempfile.mkdtemp(prefix="sagas-bench-"))
    try:
        command = [sys.executable, "-c", MANY, str(folder / "sagas.db"), str(count), str(each)]
        subprocess.run([*command, "fill"], check=False)
        done = subprocess.run([*command, "again"], check=False, capture_output=True, text=True)
        opened, called, children, memory = map(float, done.stdout.split())
        shards = -(-count // each)
        print(
            f"{count:,} open sagas in {shards} shards: open after {opened:.2f} s, "
            f"the first step called again after {called:.2f} s,"
        )
        print(f"  {children:.0f} children, {memory:.0f} MB in all")
    finally:
        shutil.rmtree(folder)


async def fill(path: pathlib.Path, count: int) -> None:
    """Run `count` sagas to their end."""
    async with sagas.open(path, [row], concurrency=256) as store:
        for begin in range(0, count, 1_000):

            async def run_saga(number: int) -> None:
                run = await store.start(row, key=f"key-{number}", input={"n": number})
                await run.wait()

            await asyncio.gather(
                *(run_saga(number) for number in range(begin, min(begin + 1_000, count)))
            )


async def opening(path: pathlib.Path) -> float:
    """Return the seconds that a store takes to open."""
    began = time.perf_counter()
    async with sagas.open(path, [row]):
        return time.perf_counter() - began


def ended(count: int) -> None:
    """Measure the costs of ended sagas."""
    folder = pathlib.Path(tempfile.mkdtemp(prefix="sagas-bench-"))
    try:
        path = folder / "sagas.db"
        asyncio.run(fill(path, count))
        took = statistics.median(asyncio.run(opening(path)) for _ in range(5))
        size = sum(file.stat().st_size for file in folder.iterdir())
        print(f"{count:,} ended sagas: open in {took * 1e3:.0f} ms, {size / count:,.0f} bytes each")
    finally:
        shutil.rmtree(folder)


WAYS = ("sagas", "by hand", "by hand, shared")


def middle(timings: list[Timing]) -> Timing:
    """Return the turn with the median rate."""
    return sorted(timings, key=lambda timing: timing.rate)[len(timings) // 2]


def main() -> int:
    """Run the command, and return its status."""
    parser = argparse.ArgumentParser(
        description=__doc__, formatter_class=argparse.RawDescriptionHelpFormatter
    )
    parser.add_argument("--turns", type=int, default=3)
    parser.add_argument(
        "--scale", type=float, default=1.0, help="a factor of the number of sagas (default: 1)"
    )
    parser.add_argument("--open", type=int, metavar="N", help="continue N open sagas after kill -9")
    parser.add_argument(
        "--each",
        type=int,
        default=1_000,
        metavar="M",
        help="at most M of them in a shard (default: 1000)",
    )
    parser.add_argument("--ended", type=int, metavar="N", help="open a store with N ended sagas")
    parser.add_argument("--at", default=",".join(map(str, COUNTS)), help="the concurrencies")
    parser.add_argument(
        "--failing", action="store_true", help="the third step fails, and the others are undone"
    )
    options = parser.parse_args()
    logging.basicConfig(filename=os.devnull)  # the log is written, and not read
    if options.open:
        open_again(options.open, options.each)
    if options.ended:
        ended(options.ended)
    if options.open or options.ended:
        return 0
    compare(options)
    return 0


def compare(options: argparse.Namespace) -> None:
    """Time the three ways, and print their table."""
    sizes = [int(size) for size in options.at.split(",")]
    timings: dict[tuple[int, str], list[Timing]] = {
        (size, way): [] for size in sizes for way in WAYS
    }
    for _ in range(options.turns):
        for size in sizes:
            for way in WAYS:
                count = max(20, int(COUNTS.get(size, 6 * size) * options.scale))
                timings[size, way].append(
                    turn(
                        way, options.failing, min(count, 1_500) if way == "by hand" else count, size
                    )
                )
    print(
        f"{'':>11}  {'':16} {'sagas/s':>8} {'(least, most)':>17} {'latency ms':>11} {'CPU us':>7}"
    )
    for (size, way), runs in timings.items():
        chosen, rates = middle(runs), [timing.rate for timing in runs]
        spread = f"({min(rates):,.0f}, {max(rates):,.0f})"
        print(
            f"{size:>5} at once  {way:16} {chosen.rate:>8,.0f} {spread:>17} "
            f"{chosen.middle:>11.1f} {chosen.cpu:>7,.0f}"
        )
        if way == WAYS[-1]:
            rate = {name: middle(timings[size, name]).rate for name in WAYS}
            print(
                f"{'':>11}  sagas is {rate['sagas'] / rate['by hand']:.2f} of by hand, "
                f"{rate['sagas'] / rate[way]:.2f} of shared"
            )
            if options.failing:
                well = turn(
                    "sagas", False, max(20, int(COUNTS.get(size, 6 * size) * options.scale)), size
                ).commits
                commits = middle(timings[size, "sagas"]).commits
                print(
                    f"{'':>11}  {commits:.3f} transactions a saga, "
                    f"{commits / well:.2f} of those of a saga that completes"
                )


if __name__ == "__main__":
    sys.exit(main())
