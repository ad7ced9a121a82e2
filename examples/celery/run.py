#!/usr/bin/env python3
"""Two trips on Celery's workers: one trip completes, and the other one cancels its car.

    PYTHONPATH=python/src python3 examples/celery/run.py

The program starts a broker and a worker, and stops them at its end. All files are in a temporary
folder. It needs Celery and Redis: apt-get install python3-celery python3-redis redis-server.
"""

from __future__ import annotations

import asyncio
import os
import pathlib
import subprocess
import sys
import tempfile
import threading

import sagas

HERE = pathlib.Path(__file__).resolve().parent
PACKAGES = "python3-celery python3-redis redis-server"


class Program:
    """A child process, and the lines that it prints."""

    def __init__(self, *command: str) -> None:
        self.lines: list[str] = []
        self._command = command

    def _read(self) -> None:
        assert self.process.stdout
        for line in self.process.stdout:
            self.lines.append(line.rstrip())
            if self._ready in line:
                self._is_ready.set()
        self._is_ready.set()

    def start(self, ready: str) -> None:
        """Start the process, and wait until it prints a text."""
        self._ready, self._is_ready = ready, threading.Event()
        folders = filter(None, os.environ.get("PYTHONPATH", "").split(os.pathsep))
        path = os.pathsep.join([str(HERE), *map(os.path.abspath, folders)])
        try:
            self.process = subprocess.Popen(
                self._command,
                env=os.environ | {"PYTHONPATH": path},
                stdout=subprocess.PIPE,
                stderr=subprocess.STDOUT,
                text=True,
                start_new_session=True,
            )
        except FileNotFoundError:
            raise SystemExit(f"{self._command[0]} is missing: apt-get install {PACKAGES}") from None
        self._thread = threading.Thread(target=self._read)
        self._thread.start()
        self._is_ready.wait()
        if not any(ready in line for line in self.lines):
            raise SystemExit("\n".join([f"{self._command[0]} did not start:", *self.lines]))

    def stop(self) -> None:
        """Stop the process, and wait for its end."""
        self.process.terminate()
        self.process.wait()
        self._thread.join()


async def book(store: sagas.Store, key: str, wish: str = "") -> None:
    """Book a trip, and print its result and its plan."""
    import shop

    run = await store.start(shop.trip, key, shop.Order("Rome", wish))
    print(await run.wait())
    print(await run.plan() or "all went well")


async def main(store: str) -> None:
    """Open the store and book two trips. Workers execute their steps."""
    import shop

    async with sagas.open(store, [shop.trip]) as opened:
        await book(opened, "order-1")
        await book(opened, "order-2", "a tour that is full")


def run(folder: str) -> None:
    """Start a broker and a worker, book the trips, and print the worker's lines."""
    os.environ |= {"BROKER": f"redis+socket://{folder}/socket", "STORE": f"{folder}/trips.db"}
    broker = Program(
        "redis-server", "--port", "0", "--unixsocket", f"{folder}/socket", "--save", ""
    )
    worker = Program(
        sys.executable,
        "-m",
        "celery",
        "-A",
        "shop",
        "worker",
        "-Q",
        "flights,cars",
        "-c",
        "2",
        "-l",
        "INFO",
    )
    broker.start("ready to accept")
    try:
        worker.start(" ready.")
        try:
            asyncio.run(main(os.environ["STORE"]))
        finally:
            worker.stop()
    finally:
        broker.stop()
    print("what the worker did:")
    for line in worker.lines:
        if "WARNING/" in line:  # Celery logs the output of tasks so
            print(" ", line.partition("] ")[2])


if __name__ == "__main__":
    with tempfile.TemporaryDirectory(prefix="sagas-celery-") as name:
        run(name)
