"""Kill, freeze and restore databases of a store while its map grows, and judge the result.

    python3 tests/kills_databases.py [--rounds N] [--sagas N] [--seed S]

Clients with the list of two databases and clients with the list of three start the same keys.
Concurrently `map add` adds the third database, and is killed with SIGKILL until it is done. Nodes
and clients are killed and started again. A database is frozen, or stopped as if its machine had
failed, and started again. A witness outside keeps each call of a function and each start that a
client got. At the end:

- No key is in two databases, and no step of a key was called with two idempotency keys.
- Each start that a client got is in one database, and has ended.
- The audit of each database passes.

Then one of the old databases is replaced by its backup from before the map grew. A program that
runs, and one that opens the store, have to see that and to name the database. After `map repair`
the store is used again.
"""

from __future__ import annotations

import argparse
import asyncio
import contextlib
import json
import os
import pathlib
import random
import shutil
import signal
import subprocess
import sys
import tempfile
import threading
import time
from collections import defaultdict
from collections.abc import Iterator
from dataclasses import dataclass, field
from typing import Any

if __name__ == "__main__":
    sys.path.insert(0, str(pathlib.Path(__file__).resolve().parent.parent / "src"))

import psycopg
from server import Server, serving
from witness import Witness, witness_at

import sagas
from sagas.cli import store_command

LEASE, LONG = 3.0, 900.0
MAX_KILLS = 4
"""How often a program is killed in a round, so that a slow machine gets on."""
Json = dict[str, Any]
KEYS = "SELECT key FROM sagas.sagas UNION ALL SELECT key FROM sagas.pending_starts"
OPEN = "SELECT count(*) FROM sagas.sagas WHERE phase IS NULL"


def pair(witness: Witness | None) -> sagas.Saga[Any]:
    """Return two steps. Each call of a function is a note of the witness."""
    saga = sagas.Saga("pair")

    async def called(task: sagas.Task[Any], step: str) -> None:
        if witness is not None:
            token = task.idempotency_key
            await asyncio.to_thread(witness.note, what="called", key=task.key, step=step, of=token)

    @saga.step
    async def first(task: sagas.Task[Any]) -> None:
        await called(task, "first")

    @saga.step(needs=[first])
    async def second(task: sagas.Task[Any]) -> None:
        await called(task, "second")

    return saga


# -- the programs


async def node(urls: list[str], socket: str, name: str) -> None:
    """Execute sagas until killed."""
    async with sagas.open(urls, [pair(Witness(socket))], node=name, lease=LEASE) as store:
        print("open", flush=True)
        await store.serve()


async def client(urls: list[str], socket: str, name: str, count: int) -> None:
    """Start all keys, in an order of its own. Keys that moved are left out by an old list."""
    witness, saga = Witness(socket), pair(None)
    numbers = [*range(count)]
    random.Random(name).shuffle(numbers)
    async with sagas.Client(urls) as caller:
        print("open", flush=True)
        for first in range(0, count, 8):
            keys = [f"k{number}" for number in numbers[first : first + 8]]
            await asyncio.gather(*(start(caller, saga, key, witness, name) for key in keys))


async def start(
    caller: sagas.Client, saga: sagas.Saga[Any], key: str, witness: Witness, name: str
) -> None:
    """Start a key, and repeat that until it is acknowledged, or refused because it moved."""
    while True:
        try:
            await caller.start(saga, key)
        except sagas.StoreUnavailable as error:
            if "opened without it" in str(error):
                return
            await asyncio.sleep(0.1)
            continue
        await asyncio.to_thread(witness.note, what="started", key=key, by=name)
        return


@dataclass
class Program:
    """A program that is killed at random moments, and started again until it ends by itself."""

    command: list[str]
    draw: random.Random
    errors: pathlib.Path
    seconds: tuple[float, float]
    kills: int = 0
    is_over: bool = False
    stop: threading.Event = field(default_factory=threading.Event)
    is_quiet: threading.Event = field(default_factory=threading.Event)

    def run(self) -> None:
        """Start it again and again."""
        end = time.monotonic() + LONG
        while not (self.is_over or self.stop.is_set()) and time.monotonic() < end:
            with open(self.errors, "ab") as errors:
                process = subprocess.Popen(self.command, stdout=subprocess.PIPE, stderr=errors)
            assert process.stdout
            process.stdout.readline()  # it begins now, however long its imports took
            until = time.monotonic() + self.draw.uniform(*self.seconds)
            while process.poll() is None and not self.stop.wait(0.05):
                is_spared = self.is_quiet.is_set() or self.kills >= MAX_KILLS
                if time.monotonic() > until and not is_spared:
                    break
            if process.poll() is None:
                process.kill()
                self.kills += 1
            process.wait()
            process.stdout.close()
            self.is_over = process.returncode == 0


# -- the databases


def processes_of(server: Server) -> list[int]:
    """Return the processes of a server: its first one, and its children."""
    first = int((server.folder / "data" / "postmaster.pid").read_text().split()[0])
    children = pathlib.Path(f"/proc/{first}/task/{first}/children").read_text().split()
    return [first, *map(int, children)]


def freeze(server: Server, seconds: float) -> None:
    """Stop all processes of a server for a time, as if its machine did not get on."""
    stopped = processes_of(server)
    for process in stopped:
        with contextlib.suppress(ProcessLookupError):
            os.kill(process, signal.SIGSTOP)
    time.sleep(seconds)
    for process in stopped:
        with contextlib.suppress(ProcessLookupError):
            os.kill(process, signal.SIGCONT)


def disturb(servers: list[Server], draw: random.Random, over: threading.Event) -> int:
    """Freeze or stop one server after the other, until the round is over. Return how often."""
    turns = 0
    while not over.wait(draw.uniform(3, 9) + turns):
        server = draw.choice(servers)
        if draw.random() < 0.5:
            freeze(server, draw.uniform(0.5, 7))
        else:
            server.stop("immediate")
            time.sleep(draw.uniform(0, 2))
            server.start()
        turns += 1
    return turns


def rows(url: str, query: str) -> list[Any]:
    """Return the first column of a query."""
    with psycopg.connect(url) as link:
        return [row[0] for row in link.execute(query)]  # type: ignore[call-overload]


# -- a round


@dataclass
class Round:
    """The result of a round."""

    faults: list[str] = field(default_factory=list)
    kills: int = 0
    changes: int = 0
    turns: int = 0

    def judge(self, urls: list[str], notes: list[Json], count: int) -> None:
        """Compare the witness's notes with the databases."""
        numbers: dict[str, list[int]] = defaultdict(list)
        for number, url in enumerate(urls, 1):
            for key in rows(url, KEYS):
                numbers[key].append(number)
        self.faults += [f"{key} is in databases {of}" for key, of in numbers.items() if len(of) > 1]
        tokens: dict[tuple[str, str], set[str]] = defaultdict(set)
        started = {note["key"] for note in notes if note["what"] == "started"}
        for note in notes:
            if note["what"] == "called":
                tokens[note["key"], note["step"]].add(note["of"])
        self.faults += [
            f"{key}, step {step}: called with {len(of)} idempotency keys"
            for (key, step), of in tokens.items()
            if len(of) > 1
        ]
        self.faults += [f"{key} was acknowledged, and is gone" for key in started - {*numbers}]
        self.faults += [f"k{n} was not started" for n in range(count) if f"k{n}" not in started]
        for number, url in enumerate(urls, 1):
            if rows(url, OPEN) != [0]:
                self.faults.append(f"database {number} has open sagas")
        if store_command.main([",".join(urls), "audit"]) != 0:
            self.faults.append("sagas store audit says no")


@contextlib.contextmanager
def running(programs: list[Program]) -> Iterator[None]:
    """Run programs until the block ends."""
    threads = [threading.Thread(target=program.run) for program in programs]
    for thread in threads:
        thread.start()
    try:
        yield
    finally:
        for program in programs:
            program.stop.set()
        for thread in threads:
            thread.join(LONG)


def play(seed: int, count: int, servers: list[Server]) -> Round:
    """Play one round. Its files stay if there are faults."""
    draw, played = random.Random(seed), Round()
    folder = pathlib.Path(tempfile.mkdtemp(prefix="sagas-databases-"))
    urls, socket = [server.create() for server in servers], str(folder / "socket")
    two, three = ",".join(urls[:2]), ",".join(urls)
    me, over = [sys.executable, __file__], threading.Event()
    assert store_command.main([two, "init"]) == 0
    backup = servers[1].back_up(urls[1])

    def program(seconds: tuple[float, float], name: str, *command: str) -> Program:
        return Program([*command], random.Random(f"{seed}{name}"), folder / name, seconds)

    nodes = [
        program((8, 30), name, *me, "--node", of, socket, name)
        for name, of in (("old-node", two), ("one", three))
    ]
    clients = [
        program((5, 20), name, *me, "--client", of, socket, name, str(count))
        for name, of in (("old", two), ("new", three))
    ]
    change = program((0, 2), "change", *me, "--add", two, urls[2])
    turns: list[int] = []
    with witness_at(folder / "socket", folder / "notes"):
        disturbing = threading.Thread(
            target=lambda: turns.append(disturb(servers, random.Random(f"{seed}d"), over))
        )
        with running([*nodes, *clients]):
            time.sleep(draw.uniform(2, 6))
            disturbing.start()
            with running([change]):
                until(lambda: change.is_over)
            time.sleep(draw.uniform(5, 15))
            over.set()
            disturbing.join(LONG)
            for each in (*nodes, *clients):
                each.is_quiet.set()
            until(lambda: clients[1].is_over)
            until(lambda: all(rows(url, OPEN) == [0] for url in urls))
            until(lambda: not any(rows(url, "SELECT 1 FROM sagas.pending_starts") for url in urls))
    played.kills = sum(each.kills for each in (*nodes, *clients))
    played.changes, played.turns = change.kills, sum(turns)
    notes = [json.loads(line) for line in (folder / "notes").read_text().splitlines()]
    played.judge(urls, notes, count)
    asyncio.run(go_back(played, servers[1], urls, backup))
    if not played.faults:
        for server, url in zip(servers, urls):
            server.drop(url)
        shutil.rmtree(folder)
    else:
        played.faults.append(f"see {folder}")
    return played


def until(is_true: Any) -> None:
    """Wait until something is true, for at most `LONG` seconds."""
    end = time.monotonic() + LONG
    while True:
        with contextlib.suppress(psycopg.OperationalError):
            if is_true():
                return
        if time.monotonic() > end:
            raise TimeoutError("the round does not end")
        time.sleep(0.2)


async def go_back(played: Round, server: Server, urls: list[str], backup: pathlib.Path) -> None:
    """Restore a backup from before the map grew: that is seen, and repaired."""
    saga, name = pair(None), urls[1].rpartition("/")[2]
    async with sagas.Client(urls) as caller:
        key = next(key for n in range(1000) if caller.map.positions(key := f"again-{n}") == (1,))
        await asyncio.to_thread(server.restore, urls[1], backup)
        end = time.monotonic() + 60
        while not any("older backup" in fault for fault in caller.unavailable.values()):
            if time.monotonic() > end:
                played.faults.append(f"a client does not see that: {caller.unavailable}")
                break
            await asyncio.sleep(0.1)
        try:
            await caller.start(saga, key)
            played.faults.append("a client starts a key in a database that went back")
        except sagas.StoreUnavailable as error:
            if name not in str(error):
                played.faults.append(f"the database is not named: {error}")
    try:
        async with sagas.Client(urls):
            played.faults.append("a client opens a store with a database that went back")
    except sagas.InvalidStore as error:
        if name not in str(error):
            played.faults.append(f"the database is not named: {error}")
    if store_command.main([",".join(urls), "map", "repair"]) != 0:
        played.faults.append("map repair does not succeed")
    async with sagas.Client(urls) as caller:
        if not (await caller.start(saga, key)).new:
            played.faults.append(f"{key} was started before the repair")


def main() -> int:
    """Play some rounds; the status is 1 if there are faults."""
    parser = argparse.ArgumentParser(
        description=__doc__, formatter_class=argparse.RawDescriptionHelpFormatter
    )
    parser.add_argument("--rounds", type=int, default=3)
    parser.add_argument("--sagas", type=int, default=300)
    parser.add_argument("--seed", type=int, default=1)
    options = parser.parse_args()
    faults = 0
    with serving() as first, serving() as second, serving() as third:
        for number in range(options.rounds):
            played = play(options.seed + number, options.sagas, [first, second, third])
            counts = f"{played.kills} kills, {played.changes} of `map add`"
            counts += f", {played.turns} of databases, {len(played.faults)} faults"
            print(f"round {options.seed + number}: {counts}", *played.faults[:8], sep="\n  ")
            sys.stdout.flush()
            faults += len(played.faults)
    return 1 if faults else 0


if __name__ == "__main__":
    if sys.argv[1:2] == ["--node"]:
        asyncio.run(node(sys.argv[2].split(","), *sys.argv[3:5]))
    elif sys.argv[1:2] == ["--add"]:
        print("open", flush=True)
        sys.exit(store_command.main([sys.argv[2], "map", "add", sys.argv[3]]))
    elif sys.argv[1:2] == ["--client"]:
        asyncio.run(client(sys.argv[2].split(","), *sys.argv[3:5], int(sys.argv[5])))
    else:
        sys.exit(main())
