#!/usr/bin/env python3
"""Time the service against a bare FastAPI route that inserts one row a request.

    PYTHONPATH=python/src:python/tests python3 bench/service.py [--store sqlite|postgresql]
        [--services N] [--processes N] [--turns N] [--count N] [--clients N]

The route uses the same kind of database, with one commit a request. Each turn starts the route, and
then `sagas serve` with its durable defaults. Over SQLite the route is an async function, and a
plain one in FastAPI's threads, and the faster one counts. Over PostgreSQL it is an async function
over a pool, and there are N services, among which the clients are divided.

Clients keep their connections, and send the next request after each reply. They claim and report
tasks in four ways: each by itself, each with the report of the previous one (`next`), ten at a
time, and ten with the report of the last of ten, as `sagas.Worker` claims short ones. Last comes
the list of the dashboard over 100,000 sagas. The client is a separate process on the same machine.
The table also has the processor time of the server for a request, with all its threads.

With `--processes N` over PostgreSQL, each turn measures `sagas serve --processes N` and a service
of one process in turn. The last two columns are the rate, and the processor time for a request, as
multiples of those of one process. Before it is measured, each service gets requests of the kinds
that are measured, because a new process compiles and imports for some time.

`TMPDIR=/dev/shm` puts SQLite's files into memory. Then a commit does not wait for a disk, and the
route is at its fastest.
"""

from __future__ import annotations

import argparse
import asyncio
import contextlib
import json
import os
import pathlib
import statistics
import subprocess
import sys
import tempfile
import time
from collections.abc import Callable, Coroutine
from typing import Any

from server import Server, serving
from serving import Served, environment, host, served
from test_service_page import fill

DEFINITION = 'format = 2\nname = "one"\n[[step]]\nname = "a"\nundo = "never"\n'
BARE = """
import sqlite3, sys, threading
import fastapi, pydantic, uvicorn
class Row(pydantic.BaseModel):
    key: str
    input: dict
app, lock = fastapi.FastAPI(), threading.Lock()
db = sqlite3.connect(sys.argv[1], isolation_level=None, check_same_thread=False)
db.execute("PRAGMA journal_mode=WAL"); db.execute("PRAGMA synchronous=FULL")
db.execute("CREATE TABLE IF NOT EXISTS rows(key TEXT PRIMARY KEY, input TEXT)")
def insert(row):
    with lock:
        db.execute("INSERT INTO rows VALUES(?, ?)", (row.key, str(row.input)))
    return {"key": row.key}
if sys.argv[2] == "async":
    @app.post("/row", status_code=201)
    async def one(row: Row): return insert(row)
else:
    @app.post("/row", status_code=201)
    def one(row: Row): return insert(row)
uvicorn.run(
    app, host=sys.argv[3], port=int(sys.argv[4]),
    log_level="warning", access_log=False, loop="asyncio",
)
"""
BARE_SERVER = """
import sys
import fastapi, psycopg_pool, pydantic, uvicorn
class Row(pydantic.BaseModel):
    key: str
    input: dict
app = fastapi.FastAPI()
pool = psycopg_pool.AsyncConnectionPool(
    sys.argv[1], min_size=4, max_size=16, open=False, kwargs={"autocommit": True}
)
@app.on_event("startup")
async def up():
    await pool.open(wait=True)
    async with pool.connection() as link:
        await link.execute("CREATE TABLE rows(key text PRIMARY KEY, input text)")
@app.post("/row", status_code=201)
async def one(row: Row):
    async with pool.connection() as link:
        await link.execute("INSERT INTO rows VALUES(%s, %s)", (row.key, str(row.input)))
    return {"key": row.key}
uvicorn.run(
    app, host=sys.argv[3], port=int(sys.argv[4]),
    log_level="warning", access_log=False, loop="asyncio",
)
"""
Done = tuple[int, float]
"""A number of requests, and their seconds."""
Figure = tuple[float, float]
"""Requests a second, and microseconds of the processor for each."""


class Client:
    """A persistent connection."""

    def __init__(self, address: str) -> None:
        self.host, _, port = address.rpartition(":")
        self.port = int(port)

    async def open(self) -> None:
        self.reader, self.writer = await asyncio.open_connection(self.host, self.port)

    async def ask(self, method: str, path: str, body: Any = None) -> tuple[int, bytes]:
        data = b"" if body is None else json.dumps(body).encode()
        head = (
            f"{method} {path} HTTP/1.1\r\nHost: 127.0.0.1\r\nContent-Type: application/json\r\n"
            f"Content-Length: {len(data)}\r\n\r\n"
        )
        self.writer.write(head.encode() + data)
        lines = (await self.reader.readuntil(b"\r\n\r\n")).lower()
        size = int(lines.split(b"content-length: ")[1].split(b"\r\n")[0])
        return int(lines[9:12]), await self.reader.readexactly(size)


async def clients(addresses: str, count: int) -> list[Client]:
    """Return `count` open clients, divided among the addresses."""
    urls = addresses.split()
    opened = [Client(urls[number % len(urls)]) for number in range(count)]
    for client in opened:
        await client.open()
    return opened


async def starts(
    address: str, path: str, count: int, together: int, body: Callable[[int], Any]
) -> Done:
    """Send `count` requests, with `together` clients."""
    left = iter(range(count))

    async def work(client: Client) -> None:
        for number in left:
            status, text = await client.ask("POST", path, body(number))
            assert status == 201, text

    some = await clients(address, together)
    began = time.perf_counter()
    await asyncio.gather(*(work(client) for client in some))
    return count, time.perf_counter() - began


async def tasks(address: str, count: int, together: int, limit: int) -> Done:
    """Claim and report at least `count` tasks, up to `limit` in a claim."""
    done = 0

    async def work(client: Client) -> None:
        nonlocal done
        while done < count:
            _, text = await client.ask(
                "POST",
                "/v1/tasks/claim",
                {"steps": ["one/a"], "limit": limit, "wait": 1, "lease": 600},
            )
            for task in json.loads(text)["tasks"]:
                status, text = await client.ask(
                    "POST",
                    f"/v1/tasks/{task['attempt_id']}/complete",
                    {"lease": task["lease"], "result": None},
                )
                assert status == 200, text
                done += 1

    some = await clients(address, together)
    began = time.perf_counter()
    await asyncio.gather(*(work(client) for client in some))
    return done, time.perf_counter() - began


async def chained(address: str, count: int, together: int, limit: int) -> Done:
    """Claim and report tasks: the report of the last task of a claim is the next claim."""
    done = 0
    claim = {"steps": ["one/a"], "lease": 600, "limit": limit}

    async def work(client: Client) -> None:
        nonlocal done
        tasks: list[Any] = []
        while done < count or tasks:
            if not tasks:
                _, text = await client.ask("POST", "/v1/tasks/claim", {**claim, "wait": 1})
            else:
                task = tasks.pop(0)
                more = {} if tasks or done + 1 >= count else {"next": claim}
                status, text = await client.ask(
                    "POST",
                    f"/v1/tasks/{task['attempt_id']}/complete",
                    {"lease": task["lease"], "result": None, **more},
                )
                assert status == 200, text
                done += 1
            reply = json.loads(text)
            tasks += (reply.get("next") or reply).get("tasks", [])

    some = await clients(address, together)
    began = time.perf_counter()
    await asyncio.gather(*(work(client) for client in some))
    return done, time.perf_counter() - began


async def page(address: str) -> float:
    """Return the median milliseconds of the list's first page, over twenty requests."""
    (client,) = await clients(address, 1)
    times = []
    for path in ["/ui/sagas"] * 20:
        began = time.perf_counter()
        status, text = await client.ask("GET", path)
        assert status == 200 and b"old-099999" in text
        times.append(1000 * (time.perf_counter() - began))
    return statistics.median(times)


WARM = 2.0
"""Seconds after which a new process does only what it is asked for."""
OF_SEVERAL = ", several"
"""What the names of the figures of several processes end with."""


def processor(pids: list[int]) -> float:
    """Return the processor time of some processes in seconds."""
    parts = [
        pathlib.Path(f"/proc/{pid}/stat").read_text().rpartition(")")[2].split() for pid in pids
    ]
    return sum(int(part[11]) + int(part[12]) for part in parts) / os.sysconf("SC_CLK_TCK")


def measured(pids: list[int], work: Coroutine[Any, Any, Done]) -> Figure:
    """Return the requests a second, and the processor time of the processes for each."""
    before = processor(pids)
    done, seconds = asyncio.run(work)
    return done / seconds, 1e6 * (processor(pids) - before) / done


def bare(
    folder: pathlib.Path, manner: str, count: int, together: int, server: Server | None
) -> Figure:
    """Measure the bare route."""
    (folder / "bare.py").write_text(BARE_SERVER if server else BARE)
    address = f"{host()}:8099"
    database = server.create() if server else str(folder / f"{manner}.db")
    process = subprocess.Popen(
        [sys.executable, str(folder / "bare.py"), database, manner, *address.split(":")]
    )
    try:
        while True:
            try:
                asyncio.run(clients(address, 1))
                break
            except OSError:
                time.sleep(0.1)
        return measured(
            [process.pid],
            starts(
                address,
                "/row",
                count,
                together,
                lambda number: {"key": f"k{number}", "input": {"n": number}},
            ),
        )
    finally:
        process.kill()
        process.wait()


def turn(
    folder: pathlib.Path,
    count: int,
    together: int,
    server: Server | None,
    services: int,
    processes: int,
) -> dict[str, Figure]:
    """Measure everything once."""
    figures = {
        f"bare, {manner}": bare(folder, manner, count, together, server)
        for manner in (("async",) if server else ("async", "plain"))
    }
    figures |= services_turn(folder, count, together, server, services, 1)
    if processes > 1:
        several = services_turn(folder / "several", count, together, server, 1, processes)
        figures |= {f"{name}{OF_SEVERAL}": figure for name, figure in several.items()}
    return figures


def pids_of(service: Served) -> list[int]:
    """Return the processes that serve: those of the command, or itself."""
    assert service.process
    pid = service.process.pid
    if "--processes" not in service.arguments:
        return [pid]
    return [int(it) for it in pathlib.Path(f"/proc/{pid}/task/{pid}/children").read_text().split()]


async def warmed(
    addresses: str,
    count: int,
    together: int,
    begin: Callable[[str, int], Coroutine[Any, Any, Done]],
) -> None:
    """Use each route before it is measured: a new process has work of its own for a second."""
    await begin("w", count + 4 * together)
    await chained(addresses, count // 2, together, 1)
    await tasks(addresses, count // 2, together, 1)
    await asyncio.sleep(WARM)


def services_turn(
    folder: pathlib.Path,
    count: int,
    together: int,
    server: Server | None,
    services: int,
    processes: int,
) -> dict[str, Figure]:
    """Measure the service once."""
    figures: dict[str, Figure] = {}
    url = server.create() if server else None
    with contextlib.ExitStack() as stack:
        running = []
        for number in range(services):
            (folder / str(number)).mkdir(parents=True)
            more = ("--node", str(number)) if url else ()
            more += ("--processes", str(processes)) if processes > 1 else ()
            running.append(
                stack.enter_context(
                    served(
                        folder / str(number),
                        {"one.toml": DEFINITION},
                        "--log-level",
                        "error",
                        "--rate",
                        "1000000",
                        *more,
                        store=url,
                    )
                )
            )
        addresses = " ".join(service.address for service in running)
        pids = [pid for service in running for pid in pids_of(service)]

        def begin(name: str, count: int) -> Coroutine[Any, Any, Done]:
            return starts(
                addresses,
                "/v1/sagas",
                count,
                together,
                lambda number: {
                    "definition": "one",
                    "key": f"{name}{number}",
                    "input": {"n": number},
                },
            )

        asyncio.run(warmed(addresses, count // 4, together, begin))
        figures["POST /v1/sagas"] = measured(pids, begin("k", count))
        manners: dict[
            str, tuple[Callable[[str, int, int, int], Coroutine[Any, Any, Done]], int]
        ] = {
            "each by itself": (tasks, 1),
            "with the report": (chained, 1),
            "ten at a time": (tasks, 10),
            "as sagas.Worker takes short ones": (chained, 10),
        }
        for name, (work, limit) in manners.items():
            # There are enough sagas for the claims before the last report.
            asyncio.run(begin(name, count // 2 + 2 * limit * together))
            figures[f"tasks, {name}"] = measured(pids, work(addresses, count // 2, together, limit))
    return figures


def listed(folder: pathlib.Path) -> float:
    """Return the milliseconds of the list over 100,000 sagas."""
    service = Served(folder, {"one.toml": DEFINITION})
    service.start()
    asyncio.run(
        starts(
            service.address,
            "/v1/sagas",
            1,
            1,
            lambda number: {"definition": "one", "key": "first", "input": None},
        )
    )
    service.stop()
    fill(pathlib.Path(service.store), 100_000)
    service.start()
    try:
        return asyncio.run(page(service.address))
    finally:
        service.stop()


def main() -> None:
    """Run the command."""
    parser = argparse.ArgumentParser(
        description=__doc__, formatter_class=argparse.RawDescriptionHelpFormatter
    )
    parser.add_argument("--store", choices=("sqlite", "postgresql"), default="sqlite")
    parser.add_argument("--services", type=int, default=1)
    parser.add_argument("--processes", type=int, default=1)
    parser.add_argument("--turns", type=int, default=3)
    parser.add_argument("--count", type=int, default=4000)
    parser.add_argument("--clients", type=int, default=50)
    options = parser.parse_args()
    assert environment()
    turns = []
    with contextlib.ExitStack() as stack:
        server = (
            stack.enter_context(serving({"fsync": "on"})) if options.store == "postgresql" else None
        )
        for _ in range(options.turns):
            with tempfile.TemporaryDirectory() as name:
                turns.append(
                    turn(
                        pathlib.Path(name),
                        options.count,
                        options.clients,
                        server,
                        options.services if server else 1,
                        options.processes if server else 1,
                    )
                )
    middle = {
        name: [statistics.median(values) for values in zip(*(figures[name] for figures in turns))]
        for name in turns[0]
    }
    base = max(rate for name, (rate, _) in middle.items() if name.startswith("bare"))
    for name, (rate, time_each) in middle.items():
        ratios = ""
        if name.endswith(OF_SEVERAL):
            single = middle[name.removesuffix(OF_SEVERAL)]
            ratios = f"  {rate / single[0]:5.2f} {time_each / single[1]:5.2f}"
        print(
            f"{name:39} {rate:8.0f} a second  {rate / base:5.2f}  "
            f"{time_each:6.0f} us of the processor{ratios}"
        )
    if server is None:
        with tempfile.TemporaryDirectory() as name:
            print(f"{'list of 100,000':39} {listed(pathlib.Path(name)):8.1f} ms")


if __name__ == "__main__":
    main()
