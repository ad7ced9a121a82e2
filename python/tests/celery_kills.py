"""Strike brokers, Celery's workers and the program that has the store at random moments.

A verdict follows when all sagas are over.

    python3 tests/celery_kills.py [--rounds N] [--broker redis|rabbitmq] [--kinds KINDS]
        [--store sqlite|postgresql] [--sagas N] [--seed S] [--jobs N]

A round is one store and one queue; the broker is the same for all rounds of a job. In each round
some messages are duplicated and some are delayed. The kinds are:

- `child` kills processes of the worker's pool with SIGKILL.
- `worker` kills the worker itself, and starts another one.
- `broker` kills the broker, and starts it with its messages or without.
- `owner` kills the program that has the store, or asks it to close, while messages are out.
- `nodes` has two programs over one database (PostgreSQL only), and kills one, asks it to close, or
  stops it past its lease: the other one takes over the messages that are out.
- `store` makes the store unwritable for a while: its file is locked, or its server stopped as if
  its machine had failed.
- `older` has a worker of an older definition take messages.
- `all` does any of these.

Every process that is signalled here was started here, and is named by its number.
"""

from __future__ import annotations

import argparse
import concurrent.futures
import contextlib
import os
import pathlib
import random
import shutil
import signal
import sqlite3
import sys
import tempfile
import time
from collections import Counter
from dataclasses import dataclass, field

if __name__ == "__main__":
    sys.path.insert(0, str(pathlib.Path(__file__).resolve().parent.parent / "src"))

import fleet
from brokers import BROKERS, Broker, Program, broker_at
from driving import program
from judge import judge
from kills import Round, children
from server import Server, serving
from witness import witness_at

HERE = pathlib.Path(__file__).resolve().parent
KINDS = ("child", "worker", "broker", "owner", "store", "older", "all")
NODES = "nodes"
LEASE = 1.5
"""Seconds: the lease of each of two nodes."""
READY = r" ready\."


def worker_command(queue: str, name: str) -> list[str]:
    """Return the arguments that start a worker, without the options that are of no use here."""
    command = [
        sys.executable,
        "-m",
        "celery",
        "-A",
        "celery_world",
        "worker",
        "-Q",
        queue,
        "-c",
        "2",
        "-n",
        f"{name}@%h",
        "-l",
        "INFO",
    ]
    return [*command, "--without-gossip", "--without-mingle", "--without-heartbeat"]


@dataclass
class Strikes:
    """The programs of one store: they get faults, and start again, until all sagas are over."""

    folder: pathlib.Path
    kind: str
    draw: random.Random
    broker: Broker
    server: Server | None
    sagas: int
    time_limit: float
    quiet: int
    wrong: str | None = None
    kills: Counter[str] = field(default_factory=Counter)
    began: float = field(default_factory=time.monotonic)
    worker: Program | None = None
    owners: dict[str, Program] = field(default_factory=dict)
    older: Program | None = None
    workers: int = 0

    def __post_init__(self) -> None:
        self.queue = f"q{self.draw.randrange(10**9)}"
        path = f"{HERE.parent / 'src'}{os.pathsep}{HERE}"
        self.names = ("one", "two") if self.kind == NODES else ("owner",)
        self.store = self.server.create() if self.server else str(self.folder / "store.db")
        variables = {
            "STORE": self.store,
            "SOCKET": self.folder / "socket",
            "BROKER": self.broker.url,
            "QUEUE": self.queue,
        }
        self.environment = os.environ | {
            f"SAGAS_TEST_{word}": str(value) for word, value in variables.items()
        }
        self.environment |= {
            "PYTHONPATH": path,
            "SAGAS_PROGRAM": program(),
            "PYTHONUNBUFFERED": "1",
            "SAGAS_RECORD": str(self.folder / "record"),
        } | ({} if self.wrong is None else {"SAGAS_TEST_PLAIN": "1"})

    @property
    def is_late(self) -> bool:
        return time.monotonic() - self.began > self.time_limit

    def start_owner(self, name: str) -> Program:
        variables = {"SAGAS_TEST_NODE": name} | (
            {"SAGAS_TEST_LEASE": str(LEASE)} if self.kind == NODES else {}
        )
        command = [sys.executable, str(HERE / "celery_world.py"), str(self.sagas)]
        self.owners[name] = Program(command, self.folder, self.environment | variables, "owner.log")
        return self.owners[name]

    def start_worker(self) -> Program:
        self.workers += 1
        command = [
            *worker_command(self.queue, f"w{self.workers}"),
            *(["-P", "solo"] if self.wrong is not None else []),
        ]
        self.worker = Program(
            command,
            self.folder,
            self.environment | ({"SAGAS_TEST_WRONG": self.wrong} if self.wrong else {}),
            "worker.log",
        )
        return self.worker

    def until_over(self) -> str | None:
        """Run until all sagas are over; return the problems of the programs themselves."""
        try:
            self.start_worker()
            for name in self.names:
                self.start_owner(name)
            return self._until_over()
        finally:
            for process in (*self.owners.values(), self.worker, self.older):
                if process:
                    process.kill()

    def _until_over(self) -> str | None:
        assert self.worker
        self.worker.wait_for(READY)
        left = dict.fromkeys(self.names)
        for owner in self.owners.values():
            owner.wait_for("^open")
        while not self.is_late:
            striking = sum(self.kills.values()) < self.quiet
            name = self.draw.choice(list(left))
            owner = self.owners[name]
            with contextlib.suppress(TimeoutError):
                owner.wait_for(
                    "^(done|closing)", seconds=self.draw.uniform(0.05, 0.8) if striking else 5
                )
            if not owner.runs or owner.has_printed("^(done|closing)"):
                owner.process.wait(60)
                if owner.has_printed("^done"):
                    del left[name]
                    if not left:
                        return None
                elif owner.process.returncode:
                    return f"the program ended with {owner.process.returncode}"
                else:
                    self.start_owner(name)
            elif striking:
                kind = self.draw.choice(KINDS[:-1]) if self.kind == "all" else self.kind
                getattr(self, f"_{kind}")(*([name] if kind in ("owner", NODES) else []))
        return f"not over after {self.time_limit:.0f} s"

    # -- faults

    def _child(self) -> None:
        assert self.worker
        pids = children(self.worker.pid)
        if pids:
            with contextlib.suppress(ProcessLookupError):
                os.kill(self.draw.choice(pids), signal.SIGKILL)
                self.kills["a pool's child"] += 1

    def _worker(self) -> None:
        assert self.worker
        # its children notice it themselves, when they have ended their tasks
        if self.draw.random() < 0.5:
            os.kill(self.worker.pid, signal.SIGKILL)
            self.worker.process.wait(60)
        self.worker.kill()
        self.kills["a worker"] += 1
        self.start_worker().wait_for(READY)

    def _broker(self) -> None:
        self.broker.stop()
        lost = self.draw.random() < 0.5
        if lost:
            self.broker.forget()
        self.kills["the broker's messages" if lost else "the broker"] += 1
        time.sleep(self.draw.uniform(0, 0.5))  # the time for which it is stopped
        self.broker.start()

    def _owner(self, name: str) -> None:
        owner = self.owners[name]
        if self.draw.random() < 0.3:
            owner.process.terminate()
            self.kills["the program asked to close"] += 1
            with contextlib.suppress(TimeoutError):
                owner.wait_for("^closing", seconds=self.draw.uniform(0, 1))
            if owner.has_printed("^(done|closing)"):
                return
        owner.kill()
        self.kills["the program"] += 1
        if len(self.names) > 1 and self.draw.random() < 0.5:
            time.sleep(2 * LEASE)  # the other node has all of it by then
        with contextlib.suppress(TimeoutError):
            self.start_owner(name).wait_for("^open", seconds=self.draw.choice((0.3, 60)))

    def _nodes(self, name: str) -> None:
        if self.draw.random() < 0.4:
            process = self.owners[name].process
            process.send_signal(signal.SIGSTOP)
            # the other node takes over, and this one continues as if nothing had happened
            time.sleep(self.draw.uniform(LEASE, 2 * LEASE))
            process.send_signal(signal.SIGCONT)
            self.kills["a node stood still"] += 1
        else:
            self._owner(name)

    def _store(self) -> None:
        if self.server:
            self.server.stop()
            self.kills["the store's server"] += 1
            time.sleep(self.draw.choice((0.1, 2)))  # the time for which it is unavailable
            self.server.start()
            return
        with contextlib.closing(
            sqlite3.connect(self.folder / "store.db", isolation_level=None, timeout=10)
        ) as db:
            db.execute("BEGIN EXCLUSIVE")
            self.kills["the store locked"] += 1
            time.sleep(self.draw.choice((0.3, 2.5)))  # the time for which it is unavailable
            db.execute("ROLLBACK")

    def _older(self) -> None:
        if self.older:
            self.older.kill()
        command = worker_command(self.queue, f"o{self.kills['an older worker']}")
        self.older = Program(
            command, self.folder, self.environment | {"SAGAS_TEST_OLD": "1"}, "older.log"
        )
        self.older.wait_for(READY)
        self.kills["an older worker"] += 1


def play(
    kind: str,
    seed: int,
    broker: Broker,
    sagas: int,
    *,
    server: Server | None = None,
    time_limit: float = 150,
    quiet: int = 6,
    wrong: str | None = None,
) -> Round:
    """Play one round: a store, its faults and the verdict.

    The files stay if there are faults. With `wrong` nothing is random; the worker is one of
    `wrong_workers`, or a right one if that is empty.
    """
    folder = pathlib.Path(tempfile.mkdtemp(prefix="sagas-celery-"))
    strikes = Strikes(
        folder, kind, random.Random(seed), broker, server, sagas, time_limit, quiet, wrong
    )
    with witness_at(folder / "socket", folder / "notes"):
        trouble = strikes.until_over()
    verdict = judge(strikes.store, folder / "notes", sagas)
    if server:
        verdict.faults += fleet.judged(strikes.store, [folder / "record"])[1]
    if trouble:
        verdict.fault("not-over", trouble)
    if "Traceback" in (folder / "owner.log").read_text(errors="replace"):
        verdict.faults.append("traceback: in owner.log")
    if verdict.faults:
        return Round(kind, seed, verdict, strikes.kills, folder)
    shutil.rmtree(folder)
    if server:
        server.drop(strikes.store)
    return Round(kind, seed, verdict, strikes.kills)


def _job(broker: str, store: str, kinds: list[str], seeds: list[int], sagas: int) -> list[Round]:
    """Play rounds over one broker."""
    folder = pathlib.Path(tempfile.mkdtemp(prefix="sagas-broker-"))
    try:
        with broker_at(broker, folder) as running, contextlib.ExitStack() as stack:
            server = (
                stack.enter_context(serving({"fsync": "on"})) if store == "postgresql" else None
            )
            rounds = []
            for seed in seeds:
                rounds.append(
                    played := play(kinds[seed % len(kinds)], seed, running, sagas, server=server)
                )
                print(
                    (
                        f"{broker} {store} {played.kind} {seed}:"
                        f" {dict(played.kills)} {played.problems[:5]} {played.folder or ''}"
                    ),
                    flush=True,
                )
            return rounds
    finally:
        shutil.rmtree(folder, ignore_errors=True)


def main() -> int:
    """Run the command."""
    parser = argparse.ArgumentParser(
        description=__doc__, formatter_class=argparse.RawDescriptionHelpFormatter
    )
    parser.add_argument("--rounds", type=int, default=20)
    parser.add_argument("--broker", default="redis", choices=sorted(BROKERS))
    parser.add_argument("--store", default="sqlite", choices=("sqlite", "postgresql"))
    parser.add_argument("--kinds", default=",".join(KINDS))
    parser.add_argument("--sagas", type=int, default=40)
    parser.add_argument("--seed", type=int, default=random.randrange(10**6))
    parser.add_argument("--jobs", type=int, default=1)
    options = parser.parse_args()
    if NODES in options.kinds and options.store != "postgresql":
        parser.error("two nodes are over PostgreSQL: --store postgresql")
    seeds = range(options.seed, options.seed + options.rounds)
    began = time.monotonic()
    with concurrent.futures.ProcessPoolExecutor(options.jobs) as pool:
        jobs = [
            pool.submit(
                _job,
                options.broker,
                options.store,
                options.kinds.split(","),
                list(seeds[job :: options.jobs]),
                options.sagas,
            )
            for job in range(options.jobs)
        ]
        rounds = [played for job in jobs for played in job.result()]
    kills, figures = Counter[str](), Counter[str]()
    for played in rounds:
        kills += played.kills
        figures += played.verdict.figures
    bad = sum(bool(played.problems) for played in rounds)
    print(
        f"{len(rounds)} rounds over {options.broker} and {options.store}, {bad} bad,"
        f" seed {options.seed},"
        f" {time.monotonic() - began:.0f} s"
    )
    for title, counted in (("strikes", kills), ("figures", figures)):
        print(
            f"{title}: " + ", ".join(f"{name} {number}" for name, number in sorted(counted.items()))
        )
    return 1 if bad else 0


if __name__ == "__main__":
    sys.exit(main())
