#!/usr/bin/env python3
"""Count the instructions of a node for a saga, and of the service for a claim.

    PYTHONPATH=python/src:python/tests /usr/bin/python3 bench/instructions.py
        [--sagas N] [--runs N] [--part NAME ...]

Instructions depend on the load of the machine less than times do. Needs valgrind, under which a
program takes 40 times as long. So work that is repeated by time would count 40 times: a program
without sagas is run for ten seconds first, and its rate is subtracted. Batches differ, so compare
two commits at the same time, with the same options, on an idle machine. A value is the median of
the runs. The engine process and the database server are not counted.

The parts are `sqlite-1`, `sqlite-16` and `postgresql-16` (sagas of three steps, 1 or 16 open at
once) and `claim`: a claim of one task at `sagas serve` over SQLite, with its report.
"""

from __future__ import annotations

import argparse
import asyncio
import contextlib
import http.client
import json
import os
import pathlib
import re
import signal
import statistics
import subprocess
import sys
import tempfile
import time
from collections.abc import Iterator

from server import Server, serving

import sagas

VALGRIND = ["valgrind", "--tool=callgrind", "--instr-atstart=no"]
PARTS = ("sqlite-1", "sqlite-16", "postgresql-16", "claim")
WARM = 64
IDLE = 10.0
"""Seconds for which a program without sagas is counted."""
DEFINITION = 'format = 2\nname = "one"\n[[step]]\nname = "a"\nundo = "never"\n'


def saga_of_three() -> sagas.Saga:
    """Return a saga of three steps in a row, which do nothing."""
    saga = sagas.Saga("three")

    async def work(task: sagas.Task[object]) -> dict[str, int]:
        return {"id": 17}

    first = saga.step(name="a")(work)
    second = saga.step(name="b", needs=[first])(work)
    saga.step(name="c", needs=[second])(work)
    return saga


def control(*arguments: str) -> None:
    """Command the callgrind of a process."""
    subprocess.run(["callgrind_control", *arguments], check=True, stdout=subprocess.DEVNULL)


async def run_sagas(url: str, at_once: int, count: int) -> None:
    """Run sagas under callgrind; it counts after the first ones. Print how long it counted.

    Without sagas, it counts for `IDLE` seconds.
    """
    saga = saga_of_three()
    async with sagas.open(url, [saga], concurrency=max(16, at_once)) as store:

        async def some(name: str, number: int) -> None:
            for index in range(number):
                result = await (await store.start(saga, f"{name}-{index}", {"n": 1})).wait()
                assert result.ok, result

        async def all_of(name: str, number: int) -> None:
            lanes = (some(f"{name}-{lane}", number // at_once) for lane in range(at_once))
            await asyncio.gather(*lanes)

        await all_of("warm", WARM)
        control("-i", "on", str(os.getpid()))
        begin = time.monotonic()
        await (all_of("saga", count) if count else asyncio.sleep(IDLE))
        print(time.monotonic() - begin)
        control("-i", "off", str(os.getpid()))


def collected(text: str) -> int:
    """Return the instructions that callgrind reports at the end of a program."""
    match = re.search(r"Collected : (\d+)", text)
    if match is None:
        sys.exit(f"instructions: valgrind reports no count:\n{text}")
    return int(match[1])


def of_sagas(part: str, count: int, server: Server | None) -> float:
    """Return the instructions of a node for a saga."""
    instructions, seconds = counted(part, count, server)
    idle, idle_seconds = counted(part, 0, server)
    return (instructions - seconds * idle / idle_seconds) / count


def counted(part: str, count: int, server: Server | None) -> tuple[int, float]:
    """Return the instructions of a node that runs sagas, and its seconds."""
    with tempfile.TemporaryDirectory() as folder:
        url = server.create() if server else f"{folder}/store.db"
        inside = [sys.executable, __file__, "--within", url, part.rpartition("-")[2], str(count)]
        done = subprocess.run(
            [*VALGRIND, f"--callgrind-out-file={folder}/out", *inside],
            env=os.environ | {"PYTHONHASHSEED": "0"},
            stdout=subprocess.PIPE,
            stderr=subprocess.PIPE,
            text=True,
            check=True,
        )
        return collected(done.stderr), float(done.stdout)


@contextlib.contextmanager
def service(folder: pathlib.Path) -> Iterator[tuple[subprocess.Popen[str], str]]:
    """Start `sagas serve` under callgrind, and yield the process and its address."""
    (folder / "one.toml").write_text(DEFINITION)
    command = [*VALGRIND, f"--callgrind-out-file={folder}/out", sys.executable, "-m", "sagas"]
    command += ["serve", str(folder / "store.db"), "--definitions", str(folder)]
    command += ["--listen", "127.0.0.1:0", "--rate", "1000000", "--log-level", "error"]
    environment = os.environ | {"PYTHONHASHSEED": "0"}
    with subprocess.Popen(
        command, env=environment, stdout=subprocess.PIPE, stderr=subprocess.PIPE, text=True
    ) as process:
        assert process.stdout
        line = process.stdout.readline()
        yield process, line.split("//")[1].strip().strip("/")
        process.send_signal(signal.SIGTERM)


def ask(link: http.client.HTTPConnection, path: str, body: object) -> dict[str, object]:
    """Return the answer of a POST."""
    link.request("POST", path, json.dumps(body), {"Content-Type": "application/json"})
    answer = link.getresponse()
    text = answer.read()
    assert answer.status < 300, text
    value: dict[str, object] = json.loads(text)
    return value


def of_claims(count: int) -> float:
    """Return the instructions of the service for a claim and its report."""
    instructions, seconds = counted_claims(count)
    idle, idle_seconds = counted_claims(0)
    return (instructions - seconds * idle / idle_seconds) / count


def counted_claims(count: int) -> tuple[int, float]:
    """Return the instructions of a service that answers claims and reports, and its seconds."""
    with tempfile.TemporaryDirectory() as name, service(pathlib.Path(name)) as (process, address):
        link = http.client.HTTPConnection(address, timeout=600)
        for number in range(count + WARM):
            ask(link, "/v1/sagas", {"definition": "one", "key": f"k{number}", "input": 1})

        def claim(number: int) -> None:
            wanted = {"steps": ["one/a"], "limit": 1, "wait": 10, "lease": 600}
            for _ in range(number):
                answer = ask(link, "/v1/tasks/claim", wanted)
                (task,) = answer["tasks"]  # type: ignore[misc]
                report = {"lease": task["lease"], "result": None}
                ask(link, f"/v1/tasks/{task['attempt_id']}/complete", report)

        claim(WARM)
        control("-i", "on", str(process.pid))
        begin = time.monotonic()
        claim(count)
        if not count:
            time.sleep(IDLE)
        seconds = time.monotonic() - begin
        control("-i", "off", str(process.pid))
        process.send_signal(signal.SIGTERM)
        _, text = process.communicate()
        return collected(text), seconds


def main() -> None:
    """Print a line for each part."""
    parser = argparse.ArgumentParser(
        description=__doc__, formatter_class=argparse.RawDescriptionHelpFormatter
    )
    parser.add_argument("--sagas", type=int, default=2000, help="sagas of a run (default: 2000)")
    parser.add_argument("--runs", type=int, default=5, help="runs of each part (default: 5)")
    parser.add_argument("--part", choices=PARTS, action="append", help="default: all")
    parser.add_argument("--within", nargs=3, help=argparse.SUPPRESS)
    options = parser.parse_args()
    if options.within:
        url, at_once, count = options.within
        asyncio.run(run_sagas(url, int(at_once), int(count)))
        return
    print("measurement,condition,median,low,high,unit")
    with contextlib.ExitStack() as stack:
        server = None
        for part in options.part or PARTS:
            if part.startswith("postgresql") and server is None:
                server = stack.enter_context(serving({"fsync": "off"}))
            values = [
                of_claims(options.sagas)
                if part == "claim"
                else of_sagas(part, options.sagas, server if part.startswith("post") else None)
                for _ in range(options.runs)
            ]
            numbers = (statistics.median(values), min(values), max(values))
            texts = ",".join(f"{number / 1000:.1f}" for number in numbers)
            print(f"instructions,{part},{texts},thousand", flush=True)


if __name__ == "__main__":
    main()
