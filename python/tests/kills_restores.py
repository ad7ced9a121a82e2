"""Restore backups under running nodes, which are killed at random moments, and judge the result.

    python3 tests/kills_restores.py [--rounds N] [--sagas N] [--restores N] [--seed S]

Two programs start the same sagas, and wait for them; one that a restore has lost is started again.
Concurrently both are killed with SIGKILL and started again, and a backup by `pg_dump` replaces the
database. A witness outside keeps each call of a function and each end that a caller got. At the
end:

- Each saga has ended, as the last caller saw after the last restore. No end that a caller saw
  before the backup or after the restore is missing.
- Sagas that had ended before the backup are not called again.
- No idempotency key is of two sagas.
- No event log has a gap, and audit and record pass.
"""

from __future__ import annotations

import argparse
import asyncio
import contextlib
import json
import pathlib
import random
import shutil
import subprocess
import sys
import tempfile
import threading
import time
from collections import defaultdict
from dataclasses import dataclass, field
from typing import Any

if __name__ == "__main__":
    sys.path.insert(0, str(pathlib.Path(__file__).resolve().parent.parent / "src"))

import records
from server import Server, serving
from witness import Witness, witness_at

import sagas
from sagas.cli import store_command

LEASE, LONG = 2.0, 300.0
MARGIN = 2.0
"""Seconds that a reply of the database may take until the witness has it."""
Json = dict[str, Any]


def pair(witness: Witness, draw: random.Random) -> sagas.Saga:
    """Return two steps; the second fails now and then, so that the first is undone."""
    saga = sagas.Saga("pair")

    async def called(task: sagas.Task[Any], word: str) -> None:
        await asyncio.sleep(draw.uniform(0, 0.2))
        witness.note(
            what="called", key=task.key, step=word, token=task.idempotency_key, at=time.time()
        )

    @saga.step(undo=1, keep=5)
    async def a(task: sagas.Task[Any]) -> None:
        await called(task, "a")

    @a.compensation
    async def back(task: sagas.Task[Any]) -> None:
        await called(task, "back")

    @saga.step(needs=[a], skip=0, tries=1)
    async def b(task: sagas.Task[Any]) -> None:
        await called(task, "b")
        if task.key.endswith("3"):
            raise sagas.Fail("sold out")

    return saga


async def call(store: sagas.Store, saga: sagas.Saga, key: str, witness: Witness) -> None:
    """Start a saga, and repeat that until its result is known."""
    while True:
        try:
            end = await (await store.start(saga, key)).wait(timeout=20)
        except (sagas.TemporaryError, sagas.NoSuchSaga, TimeoutError):
            await asyncio.sleep(0.05)
            continue
        witness.note(what="told", key=key, phase=end.phase, at=time.time())
        return


async def node(url: str, socket: str, name: str, count: int) -> None:
    """Run a program until it has the results of all sagas."""
    witness, draw = Witness(socket), random.Random(name)
    saga = pair(witness, draw)
    async with sagas.open(
        url, [saga], node=name, lease=LEASE, concurrency=32, shutdown_timeout=5
    ) as store:
        print("open", flush=True)
        for first in range(0, count, 10):
            await asyncio.gather(
                *(
                    call(store, saga, f"k{number}", witness)
                    for number in range(first, min(count, first + 10))
                )
            )


@dataclass
class Program:
    """A node that is started again until it has the results of all sagas."""

    command: list[str]
    draw: random.Random
    errors: pathlib.Path
    kills: int = 0
    over: bool = False
    quiet: bool = False
    is_open: threading.Event = field(default_factory=threading.Event)

    def run(self) -> None:
        """Kill it at random moments."""
        end = time.monotonic() + LONG
        while not self.over and time.monotonic() < end:
            with open(self.errors, "ab") as errors:
                process = subprocess.Popen(self.command, stdout=subprocess.PIPE, stderr=errors)
            assert process.stdout
            process.stdout.readline()
            self.is_open.set()
            with contextlib.suppress(subprocess.TimeoutExpired):
                process.wait(LONG if self.quiet else self.draw.uniform(0.2, 4))
            process.stdout.close()
            if process.poll() is None:
                process.kill()
                process.wait()
                self.kills += 1
            self.over = process.returncode == 0


@dataclass
class Restored:
    """The times at which the restored backup was started, and its restore was finished
    (wall time).
    """

    backup: float
    done: float


@dataclass
class Round:
    """The result of a round. `again`: the number of sagas that were executed again."""

    faults: list[str] = field(default_factory=list)
    kills: int = 0
    again: int = 0

    def judge(self, url: str, notes: list[Json], restores: list[Restored], count: int) -> None:
        """Compare the witness's notes with the database."""
        rows, last = records.read(url), restores[-1]
        # a restore before it has lost the replies until then
        since = restores[-2].done + MARGIN if len(restores) > 1 else 0.0
        ends, calls, keys = (
            defaultdict[str, list[Json]](list),
            defaultdict[str, list[Json]](list),
            defaultdict[str, set[str]](set),
        )
        for note in notes:
            (ends if note["what"] == "told" else calls)[note["key"]].append(note)
            if note["what"] == "called":
                keys[note["token"]].add(note["key"])
        self.faults += [
            f"an idempotency key of {sorted(of)}" for of in keys.values() if len(of) > 1
        ]
        for number in range(count):
            key = f"k{number}"
            row = rows.sagas.get(key)
            before = [note for note in ends[key] if since < note["at"] < last.backup]
            if row is None or row.phase is None:
                safe = [note for note in ends[key] if note["at"] > last.done + MARGIN] or before
                self.faults += (
                    [f"{key} was acknowledged, and is {'open' if row else 'gone'}"] if safe else []
                )
            if before and any(note["at"] > last.done + MARGIN for note in calls[key]):
                self.faults.append(f"{key} had ended before the backup, and was called again")
            if len({note["phase"] for note in ends[key]}) > 1:
                self.faults.append(f"{key} got two different ends")
            self.again += len([note for note in calls[key] if note["step"] == "a"]) > 1
        for log in rows.logs.values():
            events = 0
            for first, text in log.chunks:
                self.faults += [f"shard {log.log} has a gap at {events}"] if first != events else []
                events = first + text.count("\n")
        for word in ("audit", "record"):
            if store_command.main([url, word]) != 0:
                self.faults.append(f"sagas store {word} says no")


def play(seed: int, count: int, restores: int, server: Server) -> Round:
    """Play one round: a database, its restores and the verdict. The files stay."""
    draw, played = random.Random(seed), Round()
    folder, url = pathlib.Path(tempfile.mkdtemp(prefix="sagas-restores-")), server.create()
    socket, done = str(folder / "socket"), list[Restored]()
    with witness_at(folder / "socket", folder / "notes"):
        command = [sys.executable, __file__, "--node", url, socket]
        programs = [
            Program([*command, name, str(count)], random.Random(f"{seed}{name}"), folder / name)
            for name in ("one", "two")
        ]
        threads = [threading.Thread(target=program.run) for program in programs]
        for thread in threads:
            thread.start()
        for program in programs:
            program.is_open.wait(LONG)
        for _ in range(restores):
            time.sleep(draw.uniform(0.5, 2))
            begun, backup = time.time(), server.back_up(url)
            time.sleep(draw.uniform(0.2, 2))
            server.restore(url, backup)
            done.append(Restored(begun, time.time()))
        for program in programs:
            program.quiet = True
        for thread in threads:
            thread.join(LONG)
    played.kills = sum(program.kills for program in programs)
    played.faults += [
        f"node {program.command[-2]} did not get all results"
        for program in programs
        if not program.over
    ]
    notes = [json.loads(line) for line in (folder / "notes").read_text().splitlines()]
    finish(url, server, folder)
    played.judge(url, notes, done, count)
    if not played.faults:
        server.drop(url)
        shutil.rmtree(folder)
    else:
        played.faults.append(f"see {folder}")
    return played


def finish(url: str, server: Server, folder: pathlib.Path) -> None:
    """Let a node end what a restore has reopened, for which no caller waits any more."""

    async def main() -> None:
        with witness_at(folder / "last", folder / "last-notes"):
            saga = pair(Witness(str(folder / "last")), random.Random(0))
            async with sagas.open(url, [saga], node="last", lease=LEASE) as store:
                async with asyncio.timeout(LONG):
                    while await store.list(phase="open", limit=1):
                        await asyncio.sleep(0.1)

    asyncio.run(main())


def main() -> int:
    """Play some rounds; the status is 1 if there are faults."""
    parser = argparse.ArgumentParser(
        description=__doc__, formatter_class=argparse.RawDescriptionHelpFormatter
    )
    parser.add_argument("--rounds", type=int, default=3)
    parser.add_argument("--sagas", type=int, default=400)
    parser.add_argument("--restores", type=int, default=3)
    parser.add_argument("--seed", type=int, default=1)
    options = parser.parse_args()
    faults = 0
    with serving() as server:
        for number in range(options.rounds):
            played = play(options.seed + number, options.sagas, options.restores, server)
            counts = (
                f"{played.kills} kills, {played.again} sagas called again,"
                f" {len(played.faults)} faults"
            )
            print(
                f"round {options.seed + number}: {counts}",
                *played.faults[:8],
                sep="\n  ",
                flush=True,
            )
            faults += len(played.faults)
    return 1 if faults else 0


if __name__ == "__main__":
    if sys.argv[1:2] == ["--node"]:
        asyncio.run(node(*sys.argv[2:5], int(sys.argv[5])))  # type: ignore[arg-type]
    else:
        sys.exit(main())
