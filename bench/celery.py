#!/usr/bin/env python3
"""Time sagas of three empty steps on Celery's workers against a Celery chain of three empty tasks.

    PYTHONPATH=python/src python3 bench/celery.py [--turns N] [--count N] [--open 64]
        [--workers 2] [--broker redis|rabbitmq] [--store URL]

Both use the same broker and workers in one run. 64 are open at once: when one has ended, the next
one starts. The chain has no result backend either: its last task pushes a value to a list in Redis,
and this program waits for it. The store is a SQLite file, which the worker shares, or the
PostgreSQL database of `--store`. The program starts the broker and the worker in a temporary
folder. Redis writes nothing to the disk, which is its default. The turns alternate, so that a
slower moment of the machine affects both. The table has the medians. The program needs Redis, and
RabbitMQ for `--broker rabbitmq`.
"""

from __future__ import annotations

import sys

sys.path.pop(0)  # this file has the name of the package that it times

import argparse
import asyncio
import contextlib
import os
import pathlib
import statistics
import tempfile
import time
from collections.abc import Iterator
from typing import Any

import celery
import redis

import sagas
import sagas.celery

TOP = pathlib.Path(__file__).resolve().parent.parent
sys.path.append(str(TOP / "python" / "tests"))
sys.path.append(str(TOP / "bench"))

from brokers import Program, broker_at  # noqa: E402

APP = """
import os
import celery, redis, sagas, sagas.celery

app = celery.Celery("app", broker=os.environ["BENCH_BROKER"])
app.conf.update(sagas_store=os.environ["BENCH_STORE"], worker_prefetch_multiplier=16)
done = redis.Redis(unix_socket_path=os.environ["BENCH_DONE"])
queue = sagas.celery.Queue(app, "bench")
three = sagas.Saga("three")
a = three.step(name="a", queue=queue)(lambda task: None)
b = three.step(name="b", needs=[a], queue=queue)(lambda task: None)
three.step(name="c", needs=[b], queue=queue)(lambda task: None)
late = {"queue": "bench", "ignore_result": True, "acks_late": True}

@app.task(name="empty", **late)
def empty(): pass

@app.task(name="last", **late)
def last(): done.lpush("done", "1")
"""


async def chains(app: Any, done: redis.Redis[bytes], count: int, together: int) -> float:
    """Return the seconds that `count` chains take."""

    def work() -> None:
        whole = celery.chain(
            app.tasks["empty"].si(), app.tasks["empty"].si(), app.tasks["last"].si()
        )
        for number in range(count):
            if number >= together:
                done.brpop("done", 60)
            whole.apply_async()
        for _ in range(min(together, count)):
            done.brpop("done", 60)

    began = time.perf_counter()
    await asyncio.to_thread(work)
    return time.perf_counter() - began


async def of_sagas(
    store: sagas.Store, saga: sagas.Saga, turn: int, count: int, together: int
) -> float:
    """Return the seconds that `count` sagas take."""
    numbers = iter(range(count))

    async def one_after_another() -> None:
        for number in numbers:
            await (await store.start(saga, f"{turn}-{number}")).wait()

    began = time.perf_counter()
    await asyncio.gather(*(one_after_another() for _ in range(together)))
    return time.perf_counter() - began


@contextlib.contextmanager
def running(options: argparse.Namespace, folder: pathlib.Path) -> Iterator[Any]:
    """Start the broker, a list in Redis and a worker, and yield the module of the app."""
    for name in ("done", "broker"):
        (folder / name).mkdir()
    with broker_at("redis", folder / "done", False) as done, broker_at(
        options.broker, folder / "broker", False
    ) as broker:
        (folder / "bench_app.py").write_text(APP)
        settings = {
            "BENCH_BROKER": broker.url,
            "BENCH_STORE": options.store or str(folder / "store.db"),
            "BENCH_DONE": done.url.removeprefix("redis+socket://"),
        }
        os.environ.update(settings)
        sys.path.insert(0, str(folder))
        import bench_app  # type: ignore[import]

        path = f"{TOP / 'python' / 'src'}{os.pathsep}{folder}"
        start = [
            sys.executable,
            "-m",
            "celery",
            "-A",
            "bench_app",
            "worker",
            "-Q",
            "bench",
            "-c",
            str(options.workers),
            "-l",
            "INFO",
        ]
        worker = Program(
            [*start, "--without-gossip", "--without-mingle"],
            folder,
            os.environ | {"PYTHONPATH": path, "PYTHONUNBUFFERED": "1"},
            "worker.log",
        )
        try:
            worker.wait_for(r" ready\.")
            yield bench_app
        finally:
            worker.kill()


async def main(options: argparse.Namespace, module: Any) -> None:
    """Run the turns, and print their table."""
    rates_by_way: dict[str, list[float]] = {"chains": [], "sagas": []}
    name = options.store or module.app.conf.sagas_store
    async with sagas.open(name, [module.three], concurrency=options.open * 2) as store:
        for turn in range(options.turns + 1):
            count = options.count if turn else options.open  # the first turn warms both up
            took = await chains(module.app, module.done, count, options.open)
            taken = await of_sagas(store, module.three, time.time_ns(), count, options.open)
            if turn:
                rates_by_way["chains"].append(count / took)
                rates_by_way["sagas"].append(count / taken)
                print(
                    f"turn {turn}: {count / took:.0f} chains a second, "
                    f"{count / taken:.0f} sagas a second",
                    flush=True,
                )
    middle = {way: statistics.median(rates) for way, rates in rates_by_way.items()}
    print(
        f"median of {options.turns}, {options.open} open, "
        f"{options.workers} processes of a worker, {options.broker}:"
    )
    ratio = middle["sagas"] / middle["chains"]
    print(
        f"  chains {middle['chains']:.0f} a second, sagas {middle['sagas']:.0f} a second: "
        f"ratio {ratio:.2f}"
    )


if __name__ == "__main__":
    parser = argparse.ArgumentParser(
        description=__doc__, formatter_class=argparse.RawDescriptionHelpFormatter
    )
    parser.add_argument("--turns", type=int, default=5)
    parser.add_argument("--count", type=int, default=1000)
    parser.add_argument("--open", type=int, default=64)
    parser.add_argument("--workers", type=int, default=2)
    parser.add_argument("--broker", default="redis", choices=("redis", "rabbitmq"))
    parser.add_argument("--store", default=None)
    arguments = parser.parse_args()
    with tempfile.TemporaryDirectory(prefix="sagas-bench-") as name:
        with running(arguments, pathlib.Path(name)) as module:
            asyncio.run(main(arguments, module))
