#!/usr/bin/env python3
"""Time the workers of all languages against the same service.

    PYTHONPATH=python/src:python/tests:clients/contract python3 bench/clients.py
        [--store sqlite|postgresql] [--count N] [--concurrency N] [--turns N] [--languages ...]

Each turn starts `sagas serve` with its durable defaults, and N sagas of one step. Then one worker
process does all tasks. Its function returns at once. The rate is by the time from the worker's
start to the last saga's end. The worker is the driver of the contract suite (clients/contract), so
it does what users' workers do. The table has tasks a second, and the microseconds of the processor
for one task, of the worker and of the service. `TMPDIR=/dev/shm` puts SQLite's files into memory.
"""

from __future__ import annotations

import argparse
import contextlib
import os
import pathlib
import statistics
import tempfile
import time
from concurrent.futures import ThreadPoolExecutor
from typing import NamedTuple

import httpx
from harness import QUICK, Driver, commands, languages
from server import Server, serving
from serving import Served, served

DEFINITIONS = {"one.toml": 'format = 2\nname = "one"\n[[step]]\nname = "a"\nundo = "never"\n'}
STARTERS = 16
"""The number of concurrent starts, which share commits."""
TICKS = os.sysconf("SC_CLK_TCK")


class Figure(NamedTuple):
    """Tasks a second, and microseconds of the processor for a task."""

    rate: float
    worker: float
    service: float


def spent(process: int) -> float:
    """Return the processor time of a process and its threads, in seconds."""
    fields = pathlib.Path(f"/proc/{process}/stat").read_text().rpartition(")")[2].split()
    return (int(fields[11]) + int(fields[12])) / TICKS


def fill(service: Served, count: int) -> None:
    """Start `count` sagas, which wait for their tasks."""
    with httpx.Client(
        base_url=service.url, trust_env=False, timeout=60
    ) as client, ThreadPoolExecutor(STARTERS) as pool:

        def start(number: int) -> None:
            body = {"definition": "one", "key": f"k{number}", "input": {"script": {}}}
            assert client.post("/v1/sagas", json=body).status_code == 201

        list(pool.map(start, range(count)))


def timed(command: list[str], service: Served, count: int, concurrency: int) -> Figure:
    """Run one worker until all sagas have ended."""
    fill(service, count)
    assert service.process
    driver = Driver(command)
    try:
        driver.ask("open", url=service.url, token=None)
        processes = driver.process.pid, service.process.pid
        before, began = [spent(process) for process in processes], time.perf_counter()
        settings = {"url": service.url, "token": None, "steps": ["one/a"], "lease": 60, "wait": 1}
        driver.ask("worker", worker="w", concurrency=concurrency, quiet=True, **settings)
        with httpx.Client(base_url=service.url, trust_env=False, timeout=60) as client:
            while (
                client.get("/v1/definitions").json()["definitions"][0]["sagas"].get("completed", 0)
                < count
            ):
                time.sleep(0.05)
        seconds = time.perf_counter() - began
        costs = [1e6 * (spent(pid) - old) / count for pid, old in zip(processes, before)]
        driver.ask("stop", worker="w")
        driver.end()
        return Figure(count / seconds, *costs)
    finally:
        driver.kill()


def turn(command: list[str], server: Server | None, count: int, concurrency: int) -> Figure:
    """Run one language with its own service. A JVM has its defaults, as that of a user."""
    command = [word for word in command if word not in QUICK]
    with tempfile.TemporaryDirectory(prefix="sagas-bench-") as folder:
        url = server.create() if server else None
        with served(pathlib.Path(folder), DEFINITIONS, store=url) as service:
            return timed(command, service, count, concurrency)


def main() -> None:
    """Run the command."""
    parser = argparse.ArgumentParser(
        description=__doc__, formatter_class=argparse.RawDescriptionHelpFormatter
    )
    parser.add_argument("--store", choices=("sqlite", "postgresql"), default="sqlite")
    parser.add_argument("--count", type=int, default=3000)
    parser.add_argument("--concurrency", type=int, default=4)
    parser.add_argument("--turns", type=int, default=3)
    parser.add_argument("--languages", nargs="*", default=languages())
    options = parser.parse_args()
    figures: dict[str, list[Figure]] = {language: [] for language in options.languages}
    with contextlib.ExitStack() as stack:
        server = (
            stack.enter_context(serving({"fsync": "on"})) if options.store == "postgresql" else None
        )
        command = stack.enter_context(commands())
        for _ in range(options.turns):
            for language in options.languages:
                figures[language].append(
                    turn(command(language), server, options.count, options.concurrency)
                )
    print(
        f"{options.store}, {options.count} tasks, {options.concurrency} at once, "
        f"{options.turns} turns"
    )
    print(f"{'':10}{'tasks/s':>10}{'from':>8}{'to':>8}{'worker us':>12}{'service us':>12}")
    for language, turns in figures.items():
        rates = [figure.rate for figure in turns]
        worker = statistics.median(figure.worker for figure in turns)
        service = statistics.median(figure.service for figure in turns)
        print(
            f"{language:10}{statistics.median(rates):10.0f}{min(rates):8.0f}{max(rates):8.0f}"
            f"{worker:12.0f}{service:12.0f}"
        )


if __name__ == "__main__":
    main()
