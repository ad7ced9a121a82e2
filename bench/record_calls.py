#!/usr/bin/env python3
"""Count the instructions that the record of a node takes, of those of the node.

    PYTHONPATH=python/src python3 bench/record_calls.py [--at 1,16] [--sagas N]

A program over PostgreSQL runs sagas of three steps, N at once, with a record, and keeps what the
node calls of its record. Then it makes the same calls again without a node, and as many calls of an
empty function. The difference of their instructions is what the record alone takes. A second value
has what it takes to make the calls, too. Needs valgrind.
"""

from __future__ import annotations

import argparse
import asyncio
import gc
import os
import pathlib
import re
import subprocess
import sys
import tempfile
from collections.abc import Callable
from typing import Any

TOP = pathlib.Path(__file__).resolve().parent.parent
sys.path.insert(0, str(TOP / "python" / "tests"))

from server import serving  # noqa: E402

import sagas  # noqa: E402
from sagas.runtime.acknowledgements import Acknowledgements  # noqa: E402
from sagas.storage.record_file import Commit, RecordFile  # noqa: E402

SLOWER = 40
"""The factor by which counting its instructions slows a program."""
SHORT = 1.5
"""Delays below this number of seconds are `SLOWER` times as long, so that commits are as large."""
Call = tuple[type, str, tuple[Any, ...]]


class Journal:
    """The calls of a node to its record, in order."""

    def __init__(self) -> None:
        self.calls: list[Call] = []
        self._is_inside = False
        self._originals: list[tuple[type, str, Any]] = []
        for owner in (Acknowledgements, RecordFile):
            for name, value in list(vars(owner).items()):
                is_part = name.startswith("_") or name in ("open", "close", "session")
                if callable(value) and not is_part:
                    self._originals.append((owner, name, value))
                    setattr(owner, name, self._kept(owner, name, value))
        setattr(RecordFile, "commit", property(lambda record: vars(record)["sent"], self._put))

    def _kept(self, owner: type, name: str, function: Callable[..., Any]) -> Callable[..., Any]:
        def call(this: Any, *arguments: Any) -> Any:
            if self._is_inside:
                return function(this, *arguments)
            self.calls.append((owner, name, arguments))
            self._is_inside = True
            try:
                return function(this, *arguments)
            finally:
                self._is_inside = False

        return call

    def _put(self, record: RecordFile, commit: Commit | None) -> None:
        vars(record)["sent"] = commit
        if not self._is_inside and commit is not None:
            self.calls.append((RecordFile, "commit", (commit,)))

    def end(self) -> None:
        """Stop, and restore the functions."""
        delattr(RecordFile, "commit")
        for owner, name, value in self._originals:
            setattr(owner, name, value)

    def again(self, record: RecordFile) -> list[tuple[Callable[..., Any], tuple[Any, ...]]]:
        """Return the same calls for another record."""
        owners = {RecordFile: record, Acknowledgements: Acknowledgements(record)}

        def put(commit: Commit) -> None:
            record.commit = commit

        return [
            (put if name == "commit" else getattr(owners[owner], name), arguments)
            for owner, name, arguments in self.calls
        ]


def three() -> sagas.Saga:
    """Make a saga of three steps in a row, which do nothing."""
    kind = sagas.Saga("three")

    async def work(task: sagas.Task[object]) -> dict[str, int]:
        return {"id": 17}

    first = kind.step(name="a")(work)
    second = kind.step(name="b", needs=[first])(work)
    kind.step(name="c", needs=[second])(work)
    return kind


async def some(store: sagas.Store, kind: sagas.Saga, name: str, at: int, count: int) -> None:
    """Run `count` sagas, `at` at once."""

    async def run_lane(lane: int) -> None:
        for number in range(count // at):
            assert (await (await store.start(kind, f"{name}-{lane}-{number}", {"n": 1})).wait()).ok

    await asyncio.gather(*(run_lane(lane) for lane in range(at)))


def counted(work: Callable[[], object]) -> None:
    """Count the instructions of a function as a separate part."""
    os.umask(0o077)  # where callgrind begins to count
    work()
    os.getpriority(os.PRIO_PROCESS, 0)  # where it writes the count


async def count(url: str, folder: str, at: int, number: int) -> None:
    """Run sagas, and make the calls again; each is a part."""
    loop, journal, kind = asyncio.get_running_loop(), Journal(), three()
    later = loop.call_later
    setattr(
        loop,
        "call_later",
        lambda delay, *arguments, **more: later(
            delay * SLOWER if 0 < delay < SHORT else delay, *arguments, **more
        ),
    )
    settings = {"concurrency": max(16, at), "lease": 600, "record": f"{folder}/record"}
    async with sagas.open(url, [kind], **settings) as store:
        await some(store, kind, "warm", at, max(40, 4 * at))
        gc.collect()
        warm = len(journal.calls)
        subprocess.run(["callgrind_control", "-i", "on", str(os.getpid())], check=True)
        os.umask(0o077)
        await some(store, kind, "saga", at, number)
        os.getpriority(os.PRIO_PROCESS, 0)
        last = len(journal.calls)
    journal.end()
    gc.disable()
    record = RecordFile(f"{folder}/again", "0123456789abcdef")
    record.open()
    calls = journal.again(record)
    for function, arguments in calls[:warm]:
        function(*arguments)
    part = calls[warm:last]

    def empty(*arguments: Any) -> None:
        ...

    def made(calls: list[tuple[Callable[..., Any], tuple[Any, ...]]]) -> None:
        for function, arguments in calls:
            function(*arguments)

    def passed() -> None:
        for _, _ in part:
            pass

    others = [(empty, arguments) for _, arguments in part]
    counted(lambda: made(part))
    counted(lambda: made(others))
    counted(passed)
    print(len(part) / number)


def parts(folder: str) -> list[int]:
    """Return the instructions of each part, in order."""
    files = [path for path in pathlib.Path(folder).glob("count.*")]
    files.sort(key=lambda path: int(path.suffix[1:]))
    texts = [path.read_text(errors="replace") for path in files]
    return [
        int(total[1])
        for text in texts
        if "--dump-before" in text
        and (total := re.search(r"^(?:summary|totals): (\d+)", text, re.M))
    ]


def main() -> None:
    """Run the command."""
    parser = argparse.ArgumentParser(
        description=__doc__, formatter_class=argparse.RawDescriptionHelpFormatter
    )
    parser.add_argument("--at", default="1,16")
    parser.add_argument("--sagas", type=int, default=96)
    parser.add_argument("--within", nargs=2, metavar=("URL", "FOLDER"), help=argparse.SUPPRESS)
    options = parser.parse_args()
    if options.within:
        asyncio.run(count(*options.within, int(options.at), options.sagas))
        return
    with serving({"fsync": "off"}) as server:
        print("measurement,condition,median,low,high,unit")
        for at in map(int, options.at.split(",")):
            with tempfile.TemporaryDirectory() as folder:
                under = [
                    "valgrind",
                    "--tool=callgrind",
                    "--instr-atstart=no",
                    "--zero-before=umask",
                    "--dump-before=getpriority",
                    f"--callgrind-out-file={folder}/count",
                    sys.executable,
                    __file__,
                    "--at",
                    str(at),
                    "--sagas",
                    str(options.sagas),
                    "--within",
                    server.create(),
                    folder,
                ]
                done = subprocess.run(
                    under, env=os.environ | {"PYTHONHASHSEED": "0"}, capture_output=True, text=True
                )
                totals = parts(folder)
                if done.returncode or len(totals) != 4:
                    sys.exit(f"record_calls: {totals} {done.stdout}{done.stderr}")
            node, made, empty, passed = (total / options.sagas / 1000 for total in totals)
            print(f"instructions of a node,{at} open; on,{node:.1f},,,thousand a saga")
            print(
                f"instructions of the record alone,{at} open,{made - empty:.1f},,,thousand a saga"
            )
            print(f"the same with its calls,{at} open,{made - passed:.1f},,,thousand a saga")
            print(
                f"calls of the record,{at} open,{float(done.stdout.split()[-1]):.2f},,,a saga",
                flush=True,
            )


if __name__ == "__main__":
    main()
