#!/usr/bin/env python3
"""Count the changes of module on the ways that a saga takes through the Python package.

    PYTHONPATH=python/src:python/tests /usr/bin/python3 bench/ways.py [--long] [--runs N]

Three ways are counted. The first is a saga of one step over SQLite, from `start` to its result. The
second is the report of an external step over PostgreSQL, from `complete` to the result of the saga.
The third is a claim at `sagas serve` over SQLite with its report, in the process of the service.

What is counted: in each thread, calls of functions of the package, one after the other. A change is
a call whose module is another one than that of the call before it. Returns, comprehensions,
generators that continue, and calls outside of the package do not count. A number is the median of
the runs. With `--long`, the calls of the median run follow, by thread.
"""

from __future__ import annotations

import argparse
import asyncio
import collections
import http.client
import json
import os
import pathlib
import runpy
import signal
import statistics
import subprocess
import sys
import tempfile
import threading
from collections.abc import AsyncIterator, Awaitable, Callable
from types import FrameType
from typing import Any

from server import serving

import sagas

DEFINITION = 'format = 2\nname = "one"\n[[step]]\nname = "a"\nundo = "never"\n'
SETTLED = 0.2
"""Seconds after which nothing of a request is under way any more."""
SOURCE = str(pathlib.Path(sagas.__file__).parent) + "/"
Calls = dict[str, list[tuple[str, str]]]


class Tracer:
    """Record the calls of the package's functions, by thread, while it is on."""

    def __init__(self) -> None:
        self.calls: Calls = collections.defaultdict(list)
        self.is_on = False
        threading.setprofile(self._record)
        sys.setprofile(self._record)

    def _record(self, frame: FrameType, event: str, argument: Any) -> None:
        code = frame.f_code
        if not self.is_on or event != "call" or not code.co_filename.startswith(SOURCE):
            return
        is_resumed = code.co_flags & 0x2A0 and frame.f_lasti > 0  # of generators and coroutines
        if is_resumed or code.co_name.startswith("<"):
            return
        module = code.co_filename.removeprefix(SOURCE).removesuffix(".py")
        self.calls[threading.current_thread().name].append((module, code.co_qualname))

    async def trace(self, way: Callable[[], Awaitable[object]]) -> Calls:
        """Return the calls while a coroutine runs."""
        self.start()
        await way()
        return self.stop()

    def start(self) -> None:
        """Record calls from now on."""
        self.calls.clear()
        self.is_on = True

    def stop(self) -> Calls:
        """Return the calls since `start`."""
        self.is_on = False
        return {name: list(calls) for name, calls in self.calls.items()}


def changes(calls: Calls) -> int:
    """Return how many calls are of another module than the call before them in their thread."""
    pairs = (pair for some in calls.values() for pair in zip(some, some[1:]))
    return sum(before[0] != after[0] for before, after in pairs)


async def sqlite_ways(tracer: Tracer, runs: int) -> AsyncIterator[Calls]:
    """Yield the calls of sagas of one step over SQLite."""
    saga = sagas.Saga("one")

    @saga.step
    async def work(task: sagas.Task[object]) -> int:
        return 1

    with tempfile.TemporaryDirectory() as folder:
        async with sagas.open(f"{folder}/ways.db", [saga]) as store:
            for number in range(runs + 1):

                async def way() -> None:
                    run = await store.start(saga, f"k{number}", {"n": number})
                    await run.wait()

                calls = await tracer.trace(way)
                if number:  # the first one begins a shard
                    yield calls


async def postgresql_ways(tracer: Tracer, runs: int) -> AsyncIterator[Calls]:
    """Yield the calls of reports over PostgreSQL."""
    saga = sagas.Saga("reported")
    saga.step(external=True, name="work")
    with serving() as server:
        async with sagas.open(server.create(), [saga]) as store:
            for number in range(runs + 1):
                run = await store.start(saga, f"k{number}", {"n": number})
                while not any(attempt.waits for attempt in store.active_attempts(f"k{number}")):
                    await asyncio.sleep(0.05)
                await asyncio.sleep(0.2)  # the suspension is stored, too

                async def way() -> None:
                    await store.complete(f"k{number}", "work", 1)
                    await run.wait()

                calls = await tracer.trace(way)
                if number:
                    yield calls


def serve(runs_file: str, arguments: list[str]) -> None:
    """Run `sagas serve`. A signal turns the tracer on and off; the runs are written at the end."""
    tracer, runs = Tracer(), list[Calls]()

    def turn(*_: object) -> None:
        if tracer.is_on:
            runs.append(tracer.stop())
        else:
            tracer.start()

    signal.signal(signal.SIGUSR1, turn)
    sys.argv = ["sagas", "serve", *arguments]
    try:
        runpy.run_module("sagas", run_name="__main__")
    finally:
        pathlib.Path(runs_file).write_text(json.dumps(runs))


def ask(link: http.client.HTTPConnection, path: str, body: object) -> Any:
    """Return the answer of a POST."""
    link.request("POST", path, json.dumps(body), {"Content-Type": "application/json"})
    answer = link.getresponse()
    text = answer.read()
    assert answer.status < 300, text
    return json.loads(text)


async def claim_ways(tracer: Tracer, runs: int) -> AsyncIterator[Calls]:
    """Yield the calls of claims at the service, with their reports."""
    with tempfile.TemporaryDirectory() as name:
        folder = pathlib.Path(name)
        (folder / "one.toml").write_text(DEFINITION)
        command = [sys.executable, __file__, "--within", f"{folder}/runs", f"{folder}/store.db"]
        command += ["--definitions", str(folder), "--listen", "127.0.0.1:0", "--log-level", "error"]
        with subprocess.Popen(command, stdout=subprocess.PIPE, text=True) as process:
            assert process.stdout
            address = process.stdout.readline().split("//")[1].strip().strip("/")
            link = http.client.HTTPConnection(address)
            for number in range(runs + 1):
                ask(link, "/v1/sagas", {"definition": "one", "key": f"k{number}", "input": 1})
                await asyncio.sleep(SETTLED)
                os.kill(process.pid, signal.SIGUSR1)
                await asyncio.sleep(SETTLED)
                wanted = {"steps": ["one/a"], "limit": 1, "wait": 10, "lease": 600}
                (task,) = ask(link, "/v1/tasks/claim", wanted)["tasks"]
                report = {"lease": task["lease"], "result": None}
                ask(link, f"/v1/tasks/{task['attempt_id']}/complete", report)
                os.kill(process.pid, signal.SIGUSR1)
                await asyncio.sleep(SETTLED)
            process.send_signal(signal.SIGTERM)
        for calls in json.loads((folder / "runs").read_text())[1:]:
            yield calls


async def main() -> None:
    """Print the numbers."""
    parser = argparse.ArgumentParser(description=__doc__.splitlines()[0])
    parser.add_argument("--long", action="store_true", help="list the calls, too")
    parser.add_argument("--runs", type=int, default=9, help="runs of each way (default: 9)")
    options = parser.parse_args()
    tracer = Tracer()
    ways = {
        "a saga of one step over SQLite": sqlite_ways,
        "a report over PostgreSQL": postgresql_ways,
        "a claim over HTTP": claim_ways,
    }
    for name, way in ways.items():
        runs = [calls async for calls in way(tracer, options.runs)]
        middle = sorted(runs, key=changes)[len(runs) // 2]
        calls = statistics.median(sum(map(len, some.values())) for some in runs)
        modules = {module for some in middle.values() for module, _ in some}
        print(f"{name},{changes(middle)},changes of module")
        print(f"{name},{calls:.0f},calls")
        print(f"{name},{len(modules)},modules")
        for thread, some in middle.items() if options.long else ():
            print(f"  {thread}")
            print(*(f"    {module}: {function}" for module, function in some), sep="\n")


if __name__ == "__main__":
    if sys.argv[1:2] == ["--within"]:
        serve(sys.argv[2], sys.argv[3:])
    else:
        asyncio.run(main())
