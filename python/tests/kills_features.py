"""Random faults over the features together: rounds of eight features each, with a deploy in each.

    python3 tests/kills_features.py [--rounds N] [--store sqlite|postgresql|databases] [--sagas N]
        [--strikes N] [--seed S] [--options a,b,c] [--deploy added|renamed|typed] [--pooler]
        [--wrong NAME|all]

Forty rounds have each pair of features together. A round is one store, over SQLite with one node
and over PostgreSQL with three. `databases` is three databases, each of its own server. In half of
the rounds the third one joins with the deploy. With `--pooler` nodes open their store through
PgBouncer, which pools transactions, and listen at the server itself.

Callers start sagas, abort some, and report steps early; operators resolve what needs attention.
Concurrently nodes

- are killed with SIGKILL, and started again;
- are asked to end, and started again;
- are stopped, also past their leases, and continued;
- lose their engine processes;
- over PostgreSQL, lose their database, or one of several, which is stopped as if its machine had
  failed.

Halfway, each node is started with the next release of its program. At the end the verifier judges
the store. `--wrong` passes the nodes a fault that the verifier must find; `all` tries each such
variant.

Every process that is signalled here was started here, and is named by its number.
"""

from __future__ import annotations

import argparse
import contextlib
import dataclasses
import http.server
import json
import os
import pathlib
import random
import shutil
import signal
import sys
import tempfile
import threading
import time
import types
from collections import Counter
from collections.abc import Iterator, Mapping, Sequence
from typing import Any

if __name__ == "__main__":
    sys.path.insert(0, str(pathlib.Path(__file__).resolve().parent.parent / "src"))

import features_wrong
import fleet
from brokers import Broker, Program, broker_at
from celery_kills import worker_command
from driving import program
from features_judge import FeatureVerdict, judge, rows_of
from features_options import SERVED, STORES, options_of
from features_shop import DEPLOYS, Settings
from kills import children
from poolers import pooled
from server import Server, serving
from witness import Witness, witness_at

from sagas.cli import store_command

HERE = pathlib.Path(__file__).resolve().parent
LEASE = 1.5
PATIENCE = 20.0
"""Seconds without faults after which the operator reports what nothing else reports."""
APART = 1_000_000
"""The distance between the numbers of shards of two databases."""
RETRY = "server_login_retry = 1"
"""A setting of PgBouncer: the seconds after which it connects to a failed server again."""
KINDS = ("kill", "kill", "term", "stop", "engine")
SERVED_KINDS = (*KINDS, "kill", "database")
Json = dict[str, Any]


class Receiver:
    """The receiver of webhooks. It refuses some posts at first."""

    def __init__(self, notes: pathlib.Path, socket: pathlib.Path, draw: random.Random) -> None:
        witness = Witness(str(socket))

        class Handler(http.server.BaseHTTPRequestHandler):
            def do_POST(self) -> None:
                body = json.loads(self.rfile.read(int(self.headers["content-length"])))
                is_refused = draw.random() < 0.1
                if not is_refused:
                    id, data = self.headers["webhook-id"], body["data"]
                    witness.note(what="posted", id=id, type=body["type"], key=data["key"])
                self.send_response(503 if is_refused else 204)
                self.send_header("content-length", "0")
                self.end_headers()

            def log_message(self, *arguments: Any) -> None:
                ...

        class Server(http.server.ThreadingHTTPServer):
            def handle_error(self, *arguments: Any) -> None:
                """Ignore that a killed node reads no response."""

        self.server = Server(("127.0.0.1", 0), Handler)
        threading.Thread(target=self.server.serve_forever, args=(0.05,), daemon=True).start()

    @property
    def url(self) -> str:
        """Return its address."""
        return f"http://127.0.0.1:{self.server.server_address[1]}/hook"

    def close(self) -> None:
        """Stop listening."""
        self.server.shutdown()
        self.server.server_close()


@contextlib.contextmanager
def delay_noted(witness: Witness) -> Iterator[None]:
    """Note the longest delay of this process by other ones, at the end."""
    ended, longest, pause = threading.Event(), 0.0, 0.02

    def measure() -> None:
        nonlocal longest
        begin = time.monotonic()
        while not ended.wait(pause):
            begin, last = time.monotonic(), begin
            longest = max(longest, begin - last - pause)

    thread = threading.Thread(target=measure, daemon=True)
    thread.start()
    try:
        yield
    finally:
        ended.set()
        thread.join()
        witness.note(what="delayed", seconds=longest)


@dataclasses.dataclass
class Node:
    """A node, which runs one program after the other."""

    name: str
    settings: pathlib.Path
    release: int = 1
    program: Program | None = None

    def start(self) -> None:
        """Start its program."""
        command = [sys.executable, str(HERE / "features_world.py"), str(self.settings), self.name]
        path = f"{HERE.parent / 'src'}{os.pathsep}{HERE}"
        record = self.settings.parent / f"record-{self.name}"
        environment = os.environ | {
            "PYTHONPATH": path,
            "SAGAS_PROGRAM": program(),
            "PYTHONUNBUFFERED": "1",
            "SAGAS_RECORD": str(record),
        }
        log, release = f"log-{self.name}", str(self.release)
        self.program = Program([*command, release], self.settings.parent, environment, log)

    @property
    def running(self) -> Program:
        """Return its program."""
        assert self.program
        return self.program

    @property
    def is_open(self) -> bool:
        """Return whether it has its store open."""
        return self.running.runs and self.running.has_printed("^open")

    @property
    def is_done(self) -> bool:
        """Return whether its callers have all results."""
        return self.running.has_printed("^done")

    def end(self, seconds: float = 60) -> int:
        """Ask its program to end, and return its status."""
        self.running.process.terminate()
        return self.running.process.wait(seconds)


class Round:
    """One store, its nodes, and their faults."""

    def __init__(
        self,
        folder: pathlib.Path,
        seed: int,
        count: int,
        strikes: int,
        servers: Sequence[Server],
        broker: Broker | None = None,
        options: Sequence[str] | None = None,
        deploy: str | None = None,
        wrong: str = "",
        time_limit: float = 180,
        nodes: int = 3,
        seconds: float = 0.0,
        poolers: Mapping[int, int] = types.MappingProxyType({}),
    ) -> None:
        self.poolers = poolers
        self.folder, self.draw = folder, random.Random(seed)
        self.servers, self.broker = servers, broker
        self.strikes, self.time_limit, self.seconds = strikes, time_limit, seconds
        self.kills = Counter[str]()
        store = STORES[min(len(servers), 2)]
        chosen = list(options_of(store, seed) if options is None else options)
        deploy = self.draw.choice(DEPLOYS) if deploy is None else deploy
        self.added: str | None = None
        if len(servers) > 1:
            self.url = self._made(chosen, deploy)
        else:
            self.url = servers[0].create() if servers else str(folder / "store.db")
        self.settings = Settings(
            chosen,
            self.url,
            self.url,
            str(folder),
            str(folder / "socket"),
            deploy,
            count,
            seed,
            LEASE,
            wrong=wrong,
            pooled=self._pooled(),
        )
        names = ("one", "two", "three")[:nodes] if servers else ("one",)
        self.nodes = [Node(name, folder / "settings.json") for name in names]
        self.worker: Program | None = None
        self.is_exact = not servers or self.draw.random() < 0.5
        kinds = SERVED_KINDS if servers else KINDS
        is_limited = bool(servers) and "concurrency_by" in chosen
        self.kinds = [
            kind
            for kind in kinds
            if not (is_limited and self.is_exact and kind in ("stop", "database"))
        ]
        self.began, self.is_paused = time.monotonic(), False
        self.faults: list[str] = []

    def _made(self, options: Sequence[str], deploy: str) -> str:
        """Make several databases, whose shards have different numbers, and return their URLs.

        The last one may join with the deploy. Celery's workers are not started again then.
        """
        urls = [server.create() for server in self.servers]
        if deploy and "celery" not in options and self.draw.random() < 0.5:
            self.added = urls.pop()
        for names in [",".join(urls), *([self.added] if self.added else [])]:
            assert store_command.main([names, "init"]) == 0
        for number, url in enumerate([*urls, *([self.added] if self.added else [])]):
            rows_of(url, f"ALTER SEQUENCE shard_numbers RESTART WITH {number * APART}")
        return ",".join(urls)

    def _pooled(self) -> str:
        """Return the store's URLs with the ports of the poolers, if there are any."""
        pooled = self.url if self.poolers else ""
        for port, pooler in self.poolers.items():
            pooled = pooled.replace(f":{port}/", f":{pooler}/")
        return pooled

    def play(self) -> FeatureVerdict:
        """Run until all is over; then judge it."""
        notes = self.folder / "notes"
        with contextlib.ExitStack() as stack:
            stack.enter_context(witness_at(self.folder / "socket", notes))
            self.witness = Witness(self.settings.socket)
            stack.enter_context(delay_noted(self.witness))
            receiver = Receiver(notes, self.folder / "socket", random.Random(self.settings.seed))
            stack.callback(receiver.close)
            self.settings = dataclasses.replace(self.settings, hook=receiver.url)
            if "celery" in self.settings.options:
                stack.enter_context(self._celery())
            self.settings.write(self.folder / "settings.json")
            try:
                for node in self.nodes:
                    node.start()
                self._run()
            except TimeoutError as error:
                self.faults.append(f"not-over: {error}")
            finally:
                for node in self.nodes:
                    if node.program:
                        node.program.kill()
        verdict = judge(self.settings, notes, self.kills, self.is_exact)
        verdict.faults[:0] = self.faults
        if self.servers and "retention" not in self.settings.options and not self.settings.wrong:
            urls = self.settings.urls
            for number, url in enumerate(urls, 1):
                end = f".{number}" if len(urls) > 1 else ""
                records = [self.folder / f"record-{node.name}{end}" for node in self.nodes]
                verdict.faults += fleet.judged(url, records)[1]
        for node in self.nodes:
            text = (self.folder / f"log-{node.name}").read_text(errors="replace")
            if "Traceback" in text and not self.settings.wrong:
                verdict.faults.append("traceback: " + text[text.index("Traceback") :][:3000])
            if "commit_failed" in text and not self.servers:
                verdict.faults.append("log: " + text[text.index("commit_failed") :][:300])
        return verdict

    @contextlib.contextmanager
    def _celery(self) -> Iterator[None]:
        """Run a worker of the round's own queue."""
        assert self.broker
        queue = f"q{self.draw.randrange(10**9)}"
        self.settings = dataclasses.replace(self.settings, broker=self.broker.url, queue=queue)
        self.settings.write(self.folder / "settings.json")
        path = f"{HERE.parent / 'src'}{os.pathsep}{HERE}"
        environment = os.environ | {
            "PYTHONPATH": path,
            "SAGAS_PROGRAM": program(),
            "PYTHONUNBUFFERED": "1",
            "SAGAS_FEATURES": str(self.folder / "settings.json"),
        }
        command = [
            word.replace("celery_world", "features_celery") for word in worker_command(queue, "w")
        ]
        worker = Program([*command, "-P", "threads"], self.folder, environment, "worker.log")
        try:
            worker.wait_for(r" ready\.")
            yield
        finally:
            worker.kill()

    # -- until all is over

    @property
    def struck(self) -> int:
        """Return the number of faults."""
        return sum(self.kills.values())

    def _check_time(self) -> None:
        if time.monotonic() - self.began > self.time_limit:
            raise TimeoutError(f"not over after {self.time_limit:.0f} s: {self._left()}")

    def _keep_up(self) -> None:
        """Start the nodes again that have ended."""
        self._check_time()
        for node in self.nodes:
            if not node.running.runs:
                code = node.running.process.returncode
                if code not in (0, -signal.SIGKILL):
                    raise TimeoutError(f"node {node.name} ended with status {code}")
                node.start()

    def _wait(self, seconds: float) -> None:
        end = time.monotonic() + seconds
        while time.monotonic() < end:
            self._check_time()
            time.sleep(0.02)

    def _until_open(self, node: Node) -> None:
        while not node.is_open:
            self._keep_up()
            time.sleep(0.02)

    def _run(self) -> None:
        for node in self.nodes:
            self._until_open(node)
        while self.struck < self.strikes // 2:
            self._strike()
        self._deploy()
        while self.struck < self.strikes:
            self._strike()
        self._wait(self.seconds)
        quiet = time.monotonic() + (3.0 if self.settings.wrong else PATIENCE)
        while not (all(node.is_done for node in self.nodes) and self._is_over()):
            self._keep_up()
            if time.monotonic() > quiet:
                (self.folder / "quiet").touch()
            time.sleep(0.1)
        for node in self.nodes:
            if code := node.end():
                self.faults.append(f"not-over: node {node.name} closed with status {code}")

    def _deploy(self) -> None:
        """Start each node with the next release, one after the other."""
        if self.added is not None:
            for node in self.nodes:  # one that opens later needs the longer list
                self._until_open(node)
            while store_command.main([self.url, "map", "add", self.added]) != 0:
                self._keep_up()
            self.url = f"{self.url},{self.added}"
            self.settings = dataclasses.replace(
                self.settings, store=self.url, direct=self.url, pooled=self._pooled()
            )
            self.settings.write(self.folder / "settings.json")
        for node in self.nodes if self.settings.deploy else []:
            self._wait(self.draw.uniform(0.1, 0.6))
            if self.draw.random() < 0.5 and node.is_open:
                node.end()
            node.running.kill()
            node.release = 2
            node.start()
            self._until_open(node)
        self.witness.note(what="deployed")

    def _left(self) -> list[Any]:
        """Return what is not over yet, as the database has it."""
        open_sagas = rows_of(self.url, "SELECT key FROM sagas WHERE phase IS NULL LIMIT 5")
        calls = "SELECT id FROM suspensions WHERE step = -1 LIMIT 5"
        posts = "SELECT id FROM webhook_deliveries WHERE state = 'pending' LIMIT 5"
        return [*open_sagas, *rows_of(self.url, calls), *rows_of(self.url, posts)]

    def _is_over(self) -> bool:
        """Return whether no work is left. The schedule ends with that."""
        if "schedule" in self.settings.options and not self.is_paused:
            rows_of(self.url, "UPDATE schedules SET paused = 1")
            self.is_paused = True
            self._wait(0.5)
        attention = "SELECT key FROM sagas WHERE note IS NULL AND (phase = 'stuck' OR undo_failed)"
        if self.servers:
            attention = attention.replace("undo_failed", "(recovered AND undo_failed)")
        return not self._left() and not rows_of(self.url, attention)

    # -- faults

    def _strike(self) -> None:
        self._wait(self.draw.uniform(0.05, 0.7))
        self._keep_up()
        node, kind = self.draw.choice(self.nodes), self.draw.choice(self.kinds)
        if not node.is_open and self.draw.random() < 0.7:
            self._until_open(node)
        getattr(self, f"_{kind}")(node)

    def _kill(self, node: Node) -> None:
        node.running.process.kill()
        node.running.process.wait(60)
        self.witness.note(what="killed", victim=node.running.pid)
        self.kills["a node"] += 1
        if len(self.nodes) > 1 and self.draw.random() < 0.5:
            self._wait(1.5 * LEASE)  # the others take over its sagas
        node.running.kill()
        node.start()

    def _term(self, node: Node) -> None:
        if node.is_open:
            node.end()
            self.kills["a node asked to end"] += 1
            node.running.kill()
            node.start()

    def _stop(self, node: Node) -> None:
        process, since = node.running.process, time.time()
        process.send_signal(signal.SIGSTOP)
        self._wait(self.draw.uniform(0.5, 2.0) * LEASE)
        process.send_signal(signal.SIGCONT)
        self.witness.note(what="stood", since=since, until=time.time())
        self.kills["a node stood still"] += 1

    def _engine(self, node: Node) -> None:
        for child in children(node.running.pid):
            with contextlib.suppress(ProcessLookupError):
                os.kill(child, signal.SIGKILL)
                self.kills["an engine"] += 1
                break

    def _database(self, node: Node) -> None:
        server, since = self.draw.choice(self.servers), time.time()
        server.stop("immediate")
        self._wait(self.draw.uniform(0.0, 0.5))
        server.start()
        self.witness.note(what="stood", since=since, until=time.time())
        self.kills["the database"] += 1


@dataclasses.dataclass
class Played:
    """The result of a round."""

    options: list[str]
    deploy: str
    verdict: FeatureVerdict
    kills: Counter[str]
    folder: pathlib.Path | None
    """The folder of its files, if there are faults."""

    @property
    def names(self) -> set[str]:
        """Return the names of the faults."""
        return {fault.split(":", 1)[0] for fault in self.verdict.faults}


def play(
    seed: int,
    count: int,
    strikes: int,
    *servers: Server,
    keeps: bool = True,
    **round_options: Any,
) -> Played:
    """Play one round: a store, its faults and the verdict."""
    folder = pathlib.Path(tempfile.mkdtemp(prefix="sagas-features-"))
    game = Round(folder, seed, count, strikes, servers, **round_options)
    verdict = game.play()
    is_bad = keeps and bool(verdict.faults)
    if not is_bad:
        shutil.rmtree(folder)
        for server, url in zip(servers, game.settings.urls):
            server.drop(url)
    of = game.settings
    return Played(of.options, of.deploy, verdict, game.kills, folder if is_bad else None)


def try_wrong(name: str, *servers: Server) -> Played:
    """Play a round of a wrong variant, without faults."""
    variant = features_wrong.VARIANTS[name]
    settings = {"options": variant.options, "deploy": variant.deploy, "seconds": variant.seconds}
    return play(1, variant.count, 0, *servers, time_limit=60, wrong=name, keeps=False, **settings)


def main() -> int:
    """Run the command."""
    parser = argparse.ArgumentParser(
        description=__doc__, formatter_class=argparse.RawDescriptionHelpFormatter
    )
    parser.add_argument("--rounds", type=int, default=5)
    parser.add_argument("--store", choices=STORES, default="sqlite")
    parser.add_argument("--sagas", type=int, default=40)
    parser.add_argument("--strikes", type=int, default=10)
    parser.add_argument("--seed", type=int, default=random.randrange(10**6))
    parser.add_argument("--options", help="in place of those of the seed, with commas between")
    parser.add_argument("--deploy", choices=DEPLOYS, help="in place of that of the seed")
    parser.add_argument("--wrong", help="a wrong variant, or all")
    parser.add_argument("--pooler", action="store_true", help="nodes use PgBouncer")
    options = parser.parse_args()
    if options.pooler and options.store == "sqlite":
        parser.error("--pooler needs PostgreSQL: --store postgresql or --store databases")
    if options.wrong:
        return wrong(options.wrong)
    kills, figures = Counter[str](), Counter[str]()
    bad, began = 0, time.monotonic()
    features = options.options.split(",") if options.options else None
    with contextlib.ExitStack() as stack:
        broker = None
        count = {"sqlite": 0, "postgresql": 1, "databases": 3}[options.store]
        servers = [stack.enter_context(serving({"fsync": "on"})) for _ in range(count)]
        poolers = {
            server.port: stack.enter_context(pooled(server, "transaction", RETRY))
            for server in servers
            if options.pooler
        }
        if servers:
            folder = pathlib.Path(stack.enter_context(tempfile.TemporaryDirectory()))
            broker = stack.enter_context(broker_at("redis", folder))
        for number in range(options.rounds):
            seed = options.seed + number
            played = play(
                seed,
                options.sagas,
                options.strikes,
                *servers,
                broker=broker,
                options=features,
                deploy=options.deploy,
                poolers=poolers,
            )
            kills += played.kills
            figures += played.verdict.figures
            bad += bool(played.verdict.faults)
            for fault in played.verdict.faults[:8]:
                print(f"{seed} {played.folder}: {fault}")
            summary = f"{seed}: {','.join(played.options)}; {played.deploy}"
            strikes = sum(kills.values())
            print(
                f"{summary}; {number + 1} of {options.rounds} rounds, {strikes} faults, {bad} bad",
                flush=True,
            )
    print(f"seed {options.seed}, {time.monotonic() - began:.0f} s")
    for title, counted in (("strikes", kills), ("figures", figures)):
        print(
            f"{title}: " + ", ".join(f"{name} {count}" for name, count in sorted(counted.items()))
        )
    return 1 if bad else 0


def is_served_only(name: str) -> bool:
    """Return whether a wrong variant needs PostgreSQL."""
    return bool({*features_wrong.VARIANTS[name].options} & {*SERVED})


def wrong(name: str) -> int:
    """Try wrong variants; the status is 1 if one is not found by the name of its fault."""
    missed = 0
    for variant in sorted(features_wrong.VARIANTS) if name == "all" else [name]:
        finds, is_served = features_wrong.VARIANTS[variant].finds, is_served_only(variant)
        with serving({"fsync": "on"}) if is_served else contextlib.nullcontext() as server:
            played = try_wrong(variant, *([server] if server else []))
        is_detected = finds in played.names
        missed += not is_detected
        print(
            f"{variant}: {'found by' if is_detected else 'NOT found by'} {finds};"
            f" {sorted(played.names)}",
            flush=True,
        )
    return 1 if missed else 0


if __name__ == "__main__":
    sys.exit(main())
