"""Strike two nodes over one database at random moments, and judge the store at the end.

    python3 tests/kills_nodes.py [--rounds N] [--kinds nodes,children,closing]
        [--sagas N] [--seed S]

Both nodes start the same sagas, and each is started again until it has the results of all. They
reach their server through a relay. The kinds are:

- `nodes` kills them with SIGKILL, also while they start.
- `children` kills their engine processes.
- `closing` asks them to close, and mostly kills them then.
- `sleep` stops them past their lease, and continues them.
- `names` does as `nodes`, and both have one name.
- `server` stops the server at once, as if its machine had failed, and starts it.
- `relay` delays data and cuts connections, also between a statement or a commit and its reply.
- `sessions` has the server end the nodes' sessions.
- `lock` locks tables for a while.

Each node has a worker, which gets tasks of the sagas of both. Some sagas are aborted while one of
their outcomes is unknown. Each node records its replies and acknowledgements; these records are
compared only with the database.
"""

from __future__ import annotations

import argparse
import contextlib
import pathlib
import random
import shutil
import signal
import subprocess
import sys
import tempfile
import threading
import time
from collections import Counter
from dataclasses import dataclass

if __name__ == "__main__":
    sys.path.insert(0, str(pathlib.Path(__file__).resolve().parent.parent / "src"))

import fleet
import psycopg
from judge import judge
from kills import Round, Striker
from relay import Relay, relaying
from server import Server, serving
from witness import witness_at

KINDS = ("nodes", "children", "closing", "sleep", "names", "server", "relay", "sessions", "lock")
LEASE = 1.5
BOOK = """
CREATE TABLE kinds(kind text PRIMARY KEY); INSERT INTO kinds VALUES ('good');
CREATE TABLE book(token text, note text, kind text REFERENCES kinds DEFERRABLE INITIALLY DEFERRED);
"""
"""The table in which steps inside have their effects."""
TABLES = ("nodes", "shards", "event_log", "sagas", "attempts", "suspensions")


@dataclass
class NodeStriker(Striker):
    """One of the nodes, and its faults."""

    server: Server | None = None
    relay: Relay | None = None
    url: str = ""
    name: str = "one"

    def __post_init__(self) -> None:
        super().__post_init__()
        assert self.server and self.relay
        through = self.server.url(self.url.rpartition("/")[2], port=self.relay.port)
        self.command[2] = through
        self.environment["SAGAS_RECORD"] = str(self.folder / "record")
        self.command += [
            "--reader",
            self.url,
            "--node",
            "same" if self.kind == "names" else self.name,
            "--lease",
            str(LEASE),
        ]

    def _strike(self, process: subprocess.Popen[bytes]) -> None:
        if self.strikes >= self.quiet:
            return
        if self.kind in ("nodes", "names", "children", "closing"):
            word = {"nodes": "program", "names": "program", "children": "child"}.get(
                self.kind, self.kind
            )
            old, self.kind = self.kind, word
            try:
                super()._strike(process)
            finally:
                self.kind = old
            return
        assert process.stdout
        process.stdout.readline()  # it is open
        while self.strikes < self.quiet and self._wait(process, self.draw.uniform(0, 0.3)):
            getattr(self, "_" + self.kind)(process)

    def _sleep(self, process: subprocess.Popen[bytes]) -> None:
        process.send_signal(signal.SIGSTOP)
        time.sleep(self.draw.uniform(LEASE * 0.5, LEASE * 2))
        process.send_signal(signal.SIGCONT)
        self.kills["sleeps"] += 1

    def _server(self, process: subprocess.Popen[bytes]) -> None:
        if self.name != "one":
            self.quiet = 0
            return
        assert self.server
        self.server.stop("immediate")
        time.sleep(self.draw.uniform(0, 0.5))
        self.server.start()
        self.kills["the server"] += 4  # each takes a while: three a round

    def _relay(self, process: subprocess.Popen[bytes]) -> None:
        assert self.relay
        self.relay.before, self.relay.after, self.relay.delay = (
            self.draw.uniform(0, 0.05),
            self.draw.uniform(0, 0.1),
            0.2,
        )
        self._wait(process, self.draw.uniform(0.1, 0.6))
        self.relay.before = self.relay.after = self.relay.delay = 0.0
        if self.draw.random() < 0.5:
            self.relay.cut()
        self.kills["cuts"] += 1

    def _sessions(self, process: subprocess.Popen[bytes]) -> None:
        with psycopg.connect(self.url, autocommit=True) as link:
            link.execute(
                "SELECT pg_terminate_backend(pid) FROM pg_stat_activity WHERE datname ="
                " current_database() AND pid <> pg_backend_pid() AND application_name LIKE 'sagas%'"
            )
        self.kills["sessions"] += 1

    def _lock(self, process: subprocess.Popen[bytes]) -> None:
        # A statement that waits without limit could block everything: a reader that waits for it in
        # its node's loop, and so an earlier transaction of that node.
        with psycopg.connect(self.url, options="-c lock_timeout=2s") as link, contextlib.suppress(
            psycopg.errors.LockNotAvailable
        ):
            link.execute(f"LOCK TABLE sagas.{self.draw.choice(TABLES)} IN ACCESS EXCLUSIVE MODE")
            self._wait(process, self.draw.uniform(0.1, 2 * LEASE))
        self.kills["locks"] += 2


def noted(url: str, notes: pathlib.Path) -> list[str]:
    """Report the effects of steps inside to the witness's notes; return the tokens that occur
    twice.
    """
    with psycopg.connect(url) as link, open(notes, "a", encoding="utf-8") as file:
        rows = link.execute("SELECT token, note FROM book").fetchall()
        file.writelines(f"{note}\n" for _, note in rows)
    return [token for token, count in Counter(token for token, _ in rows).items() if count > 1]


def play(
    kind: str,
    seed: int,
    sagas: int,
    server: Server,
    *,
    time_limit: float = 180,
    wrong: str | None = None,
    quiet: int = 6,
) -> Round:
    """Play one round: a database, its faults and the verdict.

    The files stay if there are faults.
    """
    draw = random.Random(seed)
    folder = pathlib.Path(tempfile.mkdtemp(prefix="sagas-kills-"))
    concurrency, small = draw.choice((4, 16, 64)), wrong is None and draw.random() < 0.5
    url = server.create()
    with psycopg.connect(url) as link:
        link.execute(BOOK)
    with witness_at(folder / "socket", folder / "notes"), relaying(server.port, seed) as relay:
        strikers = []
        for name in ("one", "two"):
            (folder / name).mkdir()
            (folder / name / "socket").symlink_to(folder / "socket")
            strikers.append(
                NodeStriker(
                    folder / name,
                    kind,
                    random.Random(f"{seed}{name}"),
                    sagas,
                    concurrency,
                    time_limit,
                    wrong,
                    quiet,
                    small,
                    server=server,
                    relay=relay,
                    url=url,
                    name=name,
                )
            )
        troubles: list[str | None] = []

        def strike(striker: NodeStriker) -> None:
            troubles.append(striker.until_over())

        threads = [threading.Thread(target=strike, args=(striker,)) for striker in strikers]
        for thread in threads:
            thread.start()
        for thread in threads:
            thread.join()
    twice = noted(url, folder / "notes")
    verdict = judge(url, folder / "notes", sagas)
    for files in ([striker.folder / "record" for striker in strikers], []):
        shards, faults = fleet.judged(url, files)
        verdict.faults += faults
        verdict.figures["records" if files else "records of the database alone"] += len(shards)
        verdict.figures["recorded events"] += sum(shard.events for shard in shards)
    for token in twice:
        verdict.faults.append(f"inside-twice: {token}")
    for trouble in troubles:
        if trouble:
            verdict.fault("not-over", trouble)
    for each in strikers:
        errors = (each.folder / "errors").read_text(errors="replace")
        if "Traceback" in errors and not wrong:
            verdict.faults.append("traceback: " + errors[errors.index("Traceback") :][:3000])
    kills = strikers[0].kills + strikers[1].kills
    if verdict.faults:
        return Round(kind, seed, verdict, kills, folder)
    server.drop(url)
    shutil.rmtree(folder)
    return Round(kind, seed, verdict, kills)


def main() -> int:
    """Run the command."""
    parser = argparse.ArgumentParser(
        description=__doc__, formatter_class=argparse.RawDescriptionHelpFormatter
    )
    parser.add_argument("--rounds", type=int, default=20)
    parser.add_argument("--kinds", default=",".join(KINDS))
    parser.add_argument("--sagas", type=int, default=40)
    parser.add_argument("--seed", type=int, default=random.randrange(10**6))
    options = parser.parse_args()
    kinds = options.kinds.split(",")
    kills: Counter[str] = Counter()
    figures: Counter[str] = Counter()
    bad, began = 0, time.monotonic()
    with serving({"fsync": "on"}) as server:
        for number in range(options.rounds):
            played = play(kinds[number % len(kinds)], options.seed + number, options.sagas, server)
            kills += played.kills
            figures += played.verdict.figures
            bad += bool(played.problems)
            for fault in played.problems[:5]:
                print(f"\n{played.kind} {played.seed} {played.folder}: {fault}")
            print(
                f"{number + 1} of {options.rounds} rounds,"
                f" {sum(kills.values())} faults, {bad} bad",
                flush=True,
            )
    print(f"seed {options.seed}, {time.monotonic() - began:.0f} s")
    for title, counted in (("strikes", kills), ("figures", figures)):
        print(
            f"{title}: " + ", ".join(f"{name} {number}" for name, number in sorted(counted.items()))
        )
    return 1 if bad else 0


if __name__ == "__main__":
    sys.exit(main())
