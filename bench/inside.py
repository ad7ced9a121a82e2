#!/usr/bin/env python3
"""Compare the engine as a process with the engine inside the program, by the C library.

    PYTHONPATH=python/src /usr/bin/python3 bench/inside.py [--turns N] [--at 1,16,256]

The package speaks with a `sagas drive` process for each shard. This trial answers the same requests
in the program itself, by `sagas_answer`. It adds no definitions, and a fault of the engine would
end the program. A saga has three steps that do nothing, over SQLite in memory (`/dev/shm`), so the
disk is left out. Turns of both ways alternate, each in a program of its own. The table has the
median rates, and the median of the ratios of neighboring turns.
"""

from __future__ import annotations

import argparse
import asyncio
import ctypes
import os
import statistics
import subprocess
import sys
import tempfile
import time
from collections.abc import Sequence

import sagas
from sagas.definition.capacity import HEADER
from sagas.engine import library
from sagas.engine.process import EngineAnswer, Listener
from sagas.runtime import shard_runner

COUNTS = {1: 300, 16: 3_200, 256: 7_680}
"""The number of timed sagas, by concurrency."""
BUFFER = 1 << 20


class Coordinator(ctypes.Structure):
    """As `struct sagas_coordinator`."""

    _fields_ = [
        ("session", ctypes.c_void_p),
        ("definitions", ctypes.c_void_p),
        ("open", ctypes.c_uint32),
    ]


class Span(ctypes.Structure):
    """As `struct sagas_span`."""

    _fields_ = [("start", ctypes.c_size_t), ("end", ctypes.c_size_t)]


class Unstarted:
    """Replaces the process, which does not exist."""

    def kill(self) -> None:
        """Do nothing."""


class EngineInside:
    """An engine in this program, with the methods of `EngineProcess`."""

    def __init__(
        self, program: str, definitions: Sequence[str], text: str, listener: Listener
    ) -> None:
        path = library.path()
        assert path
        self._library, self._listener = ctypes.CDLL(str(path)), listener
        self._loop = asyncio.get_running_loop()
        self.unanswered, self.is_dead, self.process = 0, False, Unstarted()
        self.reaped: asyncio.Future[None] = self._loop.create_future()
        self._buffer = ctypes.create_string_buffer(BUFFER)
        self._bytes = memoryview(self._buffer).cast("B")
        self._used, self._lines = ctypes.c_size_t(), ctypes.c_size_t()
        self._coordinator = Coordinator(None, None, 0)
        self._answer: EngineAnswer | None = None
        self._open([definition.encode() for definition in definitions], text)
        answer = self._library.sagas_answer
        answer.argtypes = [
            ctypes.c_void_p,
            ctypes.c_char_p,
            ctypes.c_size_t,
            ctypes.c_void_p,
            ctypes.c_size_t,
            ctypes.c_void_p,
            ctypes.c_void_p,
        ]
        self._call = answer

    def _open(self, definitions: Sequence[bytes], text: str) -> None:
        spans, end = (Span * len(definitions))(), 0
        for span, definition in zip(spans, definitions):
            span.start, end = end, end + len(definition)
            span.end = end
        log, joined = (HEADER + text).encode() if text else b"", b"".join(definitions)
        status = self._library.sagas_open(
            ctypes.byref(self._coordinator),
            joined,
            ctypes.c_size_t(len(joined)),
            spans,
            ctypes.c_size_t(len(definitions)),
            log,
            ctypes.c_size_t(len(log)),
            ctypes.byref(self._lines),
            self._buffer,
            ctypes.c_size_t(BUFFER),
            ctypes.byref(self._used),
        )
        assert status == library.OK, status

    def ask(self, requests: Sequence[str]) -> None:
        """Answer all requests now. The listener gets the replies in the next turn of the loop."""
        replies, logged = [], []
        coordinator, buffer = ctypes.addressof(self._coordinator), ctypes.addressof(self._buffer)
        used, lines = ctypes.addressof(self._used), ctypes.addressof(self._lines)
        for request in map(str.encode, requests):
            status = self._call(coordinator, request, len(request), buffer, BUFFER, used, lines)
            assert status == library.OK, (status, request)
            end = self._lines.value
            if end:
                logged.append(str(self._bytes[:end], "ascii"))
            replies.append(str(self._bytes[end : self._used.value], "ascii").rstrip("\n"))
        self._answer = replies, "".join(logged).removeprefix(HEADER)
        self.unanswered = len(requests)
        self._loop.call_soon(self._answered)

    def _answered(self) -> None:
        answer = self.wait()
        if answer and not self.is_dead:
            self._listener.answered(*answer)

    def wait(self) -> EngineAnswer | None:
        """Return the replies."""
        answer, self._answer = self._answer, None
        if answer:
            self.unanswered = 0
        return answer

    def has_refused(self) -> bool:
        """Whether it refused its event log. It would have raised."""
        return False

    def is_hung(self, now: float) -> bool:
        """Whether its replies are overdue. They are never."""
        return False

    def stop(self) -> None:
        """Free its memory."""
        if not self.is_dead:
            self.is_dead = True
            self._library.sagas_close(ctypes.byref(self._coordinator))
            self.reaped.set_result(None)


async def rate_of(at_once: int, count: int) -> float:
    """Run sagas, `at_once` at a time, and return how many ended in a second."""
    saga = sagas.Saga("three")

    async def work(task: sagas.Task[object]) -> dict[str, int]:
        return {"id": 17}

    first = saga.step(name="a")(work)
    second = saga.step(name="b", needs=[first])(work)
    saga.step(name="c", needs=[second])(work)
    with tempfile.TemporaryDirectory(dir="/dev/shm") as folder:
        path = f"{folder}/store.db"
        async with sagas.open(path, [saga], concurrency=max(16, at_once)) as store:

            async def lane(name: str, number: int) -> None:
                for index in range(number):
                    result = await (await store.start(saga, f"{name}-{index}", {"n": 1})).wait()
                    assert result.ok, result

            async def all_of(name: str, number: int) -> None:
                await asyncio.gather(
                    *(lane(f"{name}-{index}", number // at_once) for index in range(at_once))
                )

            await all_of("warm", at_once)
            begin = time.monotonic()
            await all_of("saga", count)
            return count // at_once * at_once / (time.monotonic() - begin)


def measured(is_inside: bool, at_once: int) -> float:
    """Return the rate of a program of its own."""
    way = "inside" if is_inside else "process"
    command = [sys.executable, __file__, "--within", way, str(at_once)]
    return float(subprocess.run(command, check=True, stdout=subprocess.PIPE, env=os.environ).stdout)


def main() -> None:
    """Measure both ways in turns, and print the table."""
    parser = argparse.ArgumentParser(description="Compare both ways to run the engine.")
    parser.add_argument("--turns", type=int, default=5)
    parser.add_argument("--at", default="1,16,256")
    parser.add_argument("--within", nargs=2, help=argparse.SUPPRESS)
    options = parser.parse_args()
    if options.within:
        way, at_once = options.within[0], int(options.within[1])
        if way == "inside":
            setattr(shard_runner, "EngineProcess", EngineInside)
        print(asyncio.run(rate_of(at_once, COUNTS[at_once])))
        return
    print(f"{'open':>5} {'process':>9} {'inside':>9} {'ratio':>6} {'lowest':>7} {'highest':>8}")
    for at_once in map(int, options.at.split(",")):
        pairs = [(measured(False, at_once), measured(True, at_once)) for _ in range(options.turns)]
        ratios = sorted(inside / process for process, inside in pairs)
        processes, insides = zip(*pairs)
        print(
            f"{at_once:5} {statistics.median(processes):9,.0f} {statistics.median(insides):9,.0f}"
            f" {statistics.median(ratios):6.2f} {ratios[0]:7.2f} {ratios[-1]:8.2f}",
            flush=True,
        )


if __name__ == "__main__":
    main()
