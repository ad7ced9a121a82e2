"""An operator's day: events, the steps that an operator takes, and what must follow.

`operator.sh` starts this. Each event is a method of `Day` named after it. `do` is a step of the
operator: a command of `sagas store`. `wait` looks until a condition holds, and is not a step.
"""

from __future__ import annotations

import contextlib
import json
import pathlib
import subprocess
import sys
import tempfile
import time
from collections.abc import Callable, Iterator
from typing import Any

import httpx
from server import Server, folder_of_programs, serving
from serving import Served, environment

PATIENCE = 90.0  # seconds
SHOP = """import datetime
import pathlib
import sagas

HERE = pathlib.Path(__file__).parent.parent


def is_on(name):
    return (HERE / name).exists()


order = sagas.Saga("order", tries=1, max_unknown=1)

@order.step(keep=sagas.NEVER)
def charge(task):
    if is_on("card-declined"):
        raise sagas.Fail("the card was declined")
    if is_on("answer-lost"):
        raise sagas.Unknown("the bank did not answer")
    return 40

@charge.compensation(tries=1)
def refund(task):
    if is_on("bank-closed"):
        raise sagas.Fail("the bank is closed")

@order.step(needs=[charge], undo=sagas.NEVER)
def send(task):
    if is_on("no-address"):
        raise sagas.Fail("no address")

@order.on_end
def tell(task):
    pass

slow = sagas.Saga("slow")

@slow.wait(until=datetime.timedelta(seconds=3))
def pause(task):
    pass

all = [order, slow]
if is_on("release-2"):
    gift = sagas.Saga("gift")

    @gift.approval
    def review(task):
        pass

    @gift.step(needs=[review], undo=sagas.NEVER)
    def wrap(task):
        pass

    all.append(gift)
"""
FILES = {"note.toml": 'format = 2\nname = "note"\n[[step]]\nname = "write"\n'}
Json = dict[str, Any]


class Day:
    """Two services over a database, and the operator."""

    def __init__(self, folder: pathlib.Path, server: Server) -> None:
        self.folder, self.server = folder, server
        self.store, self.steps = server.create(), 0
        self.nodes = {name: self.node(name) for name in ("north", "south")}
        for node in self.nodes.values():
            node.start()

    def node(self, name: str) -> Served:
        """Return a service that is not started."""
        folder = self.folder / name
        folder.mkdir(exist_ok=True)
        (folder / "shop.py").write_text(SHOP)
        options = ["--app", "shop:all", "--node", name, "--lease", "2"]
        return Served(folder, FILES, *options, store=self.store)

    def close(self) -> None:
        """Stop the services."""
        for node in self.nodes.values():
            node.stop()

    # -- the operator

    def do(self, *arguments: str, status: int = 0) -> str:
        """Run a command of the store, print it, and return what it prints."""
        self.steps += 1
        print(f"    sagas store STORE {' '.join(arguments)}", flush=True)
        done = self.command(*arguments)
        assert done.returncode == status, (arguments, done.stdout, done.stderr)
        return done.stdout

    def command(self, *arguments: str) -> subprocess.CompletedProcess[str]:
        """Run a command of the store."""
        command = [sys.executable, "-m", "sagas", "store", self.store, *arguments]
        return subprocess.run(command, capture_output=True, text=True, env=environment())

    def other_step(self, text: str) -> None:
        """Count and print a step that is not a command of the store."""
        self.steps += 1
        print(f"    {text}", flush=True)

    # -- looks that are no steps

    def ask(self, path: str, node: str = "north") -> Json:
        """Return the answer of a service."""
        with self.nodes[node].client() as client:
            answer = client.get(path)
            value: Json = answer.json()
            return value

    def start(self, definition: str, key: str, node: str = "north") -> int:
        """Start a saga as a caller does, and return the status."""
        with self.nodes[node].client() as client:
            body = {"definition": definition, "key": key, "input": {"name": "Ada Lovelace"}}
            return client.post("/v1/sagas", json=body).status_code

    def attention(self, *options: str) -> list[Json]:
        """Return what needs an operator."""
        done = self.command("attention", "--json", *options)
        value = json.loads(done.stdout)
        entries: list[Json] = value["entries"] if isinstance(value, dict) else value
        return entries

    def wait(self, condition: Callable[[], bool], text: str) -> None:
        """Look until a condition holds."""
        deadline = time.monotonic() + PATIENCE
        while not condition():
            if time.monotonic() > deadline:
                print(self.command("nodes").stdout, self.command("pending").stdout)
                raise AssertionError(f"never: {text}")
            time.sleep(0.1)

    def is_phase(self, key: str, phase: str, node: str = "north") -> bool:
        """Return whether a saga has this phase."""
        with contextlib.suppress(httpx.HTTPError):
            return bool(self.ask(f"/v1/sagas/{key}", node).get("phase") == phase)
        return False

    @contextlib.contextmanager
    def trouble(self, name: str) -> Iterator[None]:
        """Let the functions of the program have a trouble for a while."""
        (self.folder / name).touch()
        yield
        (self.folder / name).unlink()

    # -- events

    def stuck(self) -> None:
        """Refunds failed permanently: the bank was closed. The operator retries them."""
        with self.trouble("no-address"), self.trouble("bank-closed"):
            for number in range(5):
                self.start("order", f"stuck-{number}", ("north", "south")[number % 2])
            self.wait(lambda: len(self.attention()) == 5, "five wait for a person")
        text = self.do("attention")
        assert "the bank is closed" in text, text
        self.do("retry", "--all", "--saga", "order", "--yes", "--note", "bank is open")
        self.wait(lambda: not self.attention(), "nothing needs an operator")
        for number in range(5):
            self.wait(lambda: self.is_phase(f"stuck-{number}", "recovered"), "recovered")

    def unknown(self) -> None:
        """The bank did not answer. The operator looks there, and reports what happened."""
        with self.trouble("answer-lost"):
            self.start("order", "lost-1")
            self.wait(lambda: len(self.attention()) == 1, "it waits for a person")
        assert "unknown" in self.do("attention")
        assert "the bank did not answer" in self.do("show", "lost-1")
        self.do("complete", "lost-1", "charge", "--result", "40", "--note", "seen at the bank")
        self.wait(lambda: self.is_phase("lost-1", "completed"), "completed")

    def rollback(self) -> None:
        """Release 2 is taken back while its sagas are open. Its sagas are seen, and continue."""
        with self.trouble("release-2"):
            self.restart()
            assert self.start("gift", "gift-1") == 201
        self.restart()
        for number in range(10):  # other sagas run on
            self.start("order", f"beside-{number}", ("north", "south")[number % 2])
        for number in range(10):
            self.wait(lambda: self.is_phase(f"beside-{number}", "completed"), "completed")
        self.command("complete", "gift-1", "review")
        self.wait(lambda: len(self.attention()) == 1, "the gift is seen")
        text = self.do("attention")
        assert "gift-1" in text and "saga gift (version 1)" in text, text
        with self.trouble("release-2"):
            self.other_step("deploy release 2 again")
            self.restart()
            self.wait(lambda: self.is_phase("gift-1", "completed"), "completed")
        self.restart()
        assert not self.attention()

    def restart(self) -> None:
        """Deploy: start each node again."""
        for node in self.nodes.values():
            node.stop()
            node.start()

    def drain(self) -> None:
        """A node is emptied before its machine is repaired."""
        for number in range(6):
            self.start("slow", f"slow-{number}", ("north", "south")[number % 2])
        self.do("drain", "south", "--note", "new memory")
        self.wait(lambda: self.shards("south") == 0, "south has no shard")
        self.do("nodes")
        self.other_step("stop south, repair its machine, start it")
        self.nodes["south"].stop()
        for number in range(6):
            self.wait(lambda: self.is_phase(f"slow-{number}", "completed"), "completed")
        self.nodes["south"].start()
        self.do("undrain", "south")
        self.start("slow", "slow-again", "south")
        self.wait(lambda: self.shards("south") > 0, "south has a shard again")
        self.wait(lambda: self.is_phase("slow-again", "completed"), "completed")

    def shards(self, node: str) -> int:
        """Return the number of shards of a node."""
        nodes = json.loads(self.command("nodes", "--json").stdout)
        rows = nodes["nodes"] if isinstance(nodes, dict) else nodes
        return sum(int(row["shards"]) for row in rows if row["name"] == node)

    def outage(self) -> None:
        """The database is away. Callers are refused, and nothing needs an operator afterwards."""
        for number in range(6):
            self.start("slow", f"outage-{number}", ("north", "south")[number % 2])
        self.server.stop()
        assert self.start("order", "refused") == 503
        with self.nodes["north"].client() as client:
            assert client.get("/health/ready").status_code == 503
            assert "sagas_store_up 0" in client.get("/metrics").text
        self.other_step("start the database")
        self.server.start()
        for number in range(6):
            self.wait(lambda: self.is_phase(f"outage-{number}", "completed"), "completed")
        assert not self.attention()

    def restore(self) -> None:
        """The database is lost, and restored from a backup. Callers start again what was lost."""
        self.start("order", "kept")
        self.wait(lambda: self.is_phase("kept", "completed"), "completed")
        dump = self.folder / "backup"
        self.server_program("pg_dump", "-Fc", "-f", str(dump), self.store)
        self.start("order", "later")
        self.wait(lambda: self.is_phase("later", "completed"), "completed")
        self.other_step("stop the nodes")
        self.close()
        self.other_step("restore the backup into an empty database")
        old, self.store = self.store, self.server.create()
        self.server_program("pg_restore", "-d", self.store, "--no-owner", str(dump))
        self.other_step("start the nodes with its URL")
        self.nodes = {name: self.node(name) for name in self.nodes}
        for node in self.nodes.values():
            node.start()
        assert old != self.store and self.is_phase("kept", "completed")
        with self.nodes["north"].client() as client:
            assert client.get("/v1/sagas/later").status_code == 404
        assert self.start("order", "later") == 201
        self.wait(lambda: self.is_phase("later", "completed"), "completed")
        assert self.do("audit")

    def server_program(self, name: str, *arguments: str) -> None:
        """Run a program of PostgreSQL."""
        subprocess.run([str(folder_of_programs() / name), *arguments], check=True)

    def erase(self) -> None:
        """A customer asks that the data about her is erased."""
        self.start("order", "ada-1")
        self.wait(lambda: self.is_phase("ada-1", "completed"), "completed")
        assert "Lovelace" in self.command("export", "ada-1").stdout
        self.do("erase", "ada-1", "--yes", "--by", "ann")
        assert "Lovelace" not in self.do("export", "ada-1")
        assert "erase" in self.do("decisions", "--key", "ada-1")


EVENTS = ("stuck", "unknown", "rollback", "drain", "outage", "restore", "erase")


def main() -> None:
    """Run events, and print the number of steps of each."""
    names = sys.argv[1:] or list(EVENTS)
    for name in names:
        if name not in EVENTS:
            sys.exit(f"operator: no event {name}; there are {', '.join(EVENTS)}")
    steps = {}
    with tempfile.TemporaryDirectory() as folder, serving() as server:
        day = Day(pathlib.Path(folder), server)
        try:
            for name in names:
                print(f"{name}: {getattr(Day, name).__doc__}", flush=True)
                day.steps, begin = 0, time.monotonic()
                getattr(day, name)()
                steps[name] = day.steps
                print(f"    {day.steps} steps, {time.monotonic() - begin:.0f} s", flush=True)
        finally:
            day.close()
    print(", ".join(f"{name} {number}" for name, number in steps.items()))


if __name__ == "__main__":
    main()
