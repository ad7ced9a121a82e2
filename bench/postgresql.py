"""Measure the package over PostgreSQL, compared with coordinators by hand.

    /usr/bin/python3 bench/postgresql.py [PART ...] [--turns N] [--scale F] [--at 1,16,256]

The parts are:

- `speed`: sagas a second. `failing`: the same for sagas that are undone.
- `nodes`: sagas a second of several nodes.
- `size`: the rows, bytes, commits and processor time of a saga.
- `idle`: the statements of a node whose sagas only wait.
- `takeover`: the time until another node continues the sagas of a killed node.
- `opening`: the time until a program continues its sagas after a start.
- `prune`: the time that starts take while ended sagas are deleted.

It needs the package's program (`SAGAS_PROGRAM`, or dist/sagas), psycopg, and Debian's postgresql,
and starts its own server. Sagas have three trivial steps with small results. The server has
`synchronous_commit=on` and `fsync=on`. A value is the median of the turns, each over an empty
database.
"""

from __future__ import annotations

import argparse
import asyncio
import collections
import contextlib
import logging
import os
import pathlib
import random
import resource
import signal
import statistics
import subprocess
import sys
import threading
import time
from collections.abc import AsyncIterator, Awaitable, Callable

HERE = pathlib.Path(__file__).resolve().parent
sys.path[:0] = [
    str(HERE.parent / "python" / "src"),
    str(HERE.parent / "python" / "tests"),
    str(HERE),
]

import psycopg  # noqa: E402

import by_hand  # noqa: E402
import sagas  # noqa: E402
from server import Server, serving  # noqa: E402

Links = asyncio.Queue[psycopg.AsyncConnection[tuple[object, ...]]]
"""Connections that are not in use."""
SIZES = {1: 100, 16: 800, 256: 3000, 1000: 5000}
"""Sagas of a turn, by the number of concurrent ones."""
LEASE = 3.0


def trip(
    inside: bool = False, gate: asyncio.Event | None = None, called: list[float] | None = None
) -> sagas.Saga:
    """Return a saga of three steps in a row. The second one waits for `gate`, if any."""
    saga = sagas.Saga("trip")

    @saga.step(transaction=inside)
    async def first(task: sagas.Task[object]) -> int:
        return 1

    @saga.step(needs=[first], transaction=inside)
    async def second(task: sagas.Task[object]) -> int:
        if called is not None:
            called.append(time.time())
        if gate:
            await gate.wait()
        return 2

    @saga.step(needs=[second], transaction=inside)
    async def third(task: sagas.Task[object]) -> int:
        return 3

    return saga


def failing() -> sagas.Saga:
    """Return a saga whose third step fails permanently, so that the others are undone."""
    saga = sagas.Saga("back")

    @saga.step(keep=2)
    async def first(task: sagas.Task[object]) -> int:
        return 1

    @saga.step(needs=[first], keep=2)
    async def second(task: sagas.Task[object]) -> int:
        return 2

    @saga.step(needs=[second])
    async def third(task: sagas.Task[object]) -> None:
        raise sagas.Fail("sold out")

    async def undo(task: sagas.Task[object]) -> None:
        ...

    first.compensation(undo)
    second.compensation(undo)
    return saga


ROW = "INSERT INTO book VALUES(%s, %s)"


def booking(links: Links | None = None) -> sagas.Saga:
    """Return a saga of three steps in a row, which write one row each.

    They write it in their own transaction, or over one of the connections of the caller.
    """
    saga = sagas.Saga("booking")

    async def book(task: sagas.Task[object]) -> int:
        if links is None:
            await task.connection.execute(ROW, (task.key, task.step))
            return 1
        link = await links.get()
        await link.execute(ROW, (task.key, task.step))
        await link.commit()
        links.put_nowait(link)
        return 1

    first = saga.step(name="first", transaction=links is None)(book)
    second = saga.step(name="second", transaction=links is None, needs=[first])(book)
    saga.step(name="third", transaction=links is None, needs=[second])(book)
    return saga


async def rate(go: Callable[[int], Awaitable[object]], count: int, together: int) -> float:
    """Return the calls of a function a second, with `together` concurrent calls."""
    numbers = iter(range(count))

    async def worker() -> None:
        for number in numbers:
            await go(number)

    began = time.perf_counter()
    await asyncio.gather(*(worker() for _ in range(together)))
    return count / (time.perf_counter() - began)


async def timed_package(
    url: str, saga: sagas.Saga, count: int, together: int, concurrency: int
) -> float:
    """Return the sagas a second of the package."""
    async with sagas.open(url, [saga], concurrency=concurrency) as store:

        async def go(number: int) -> None:
            await (
                await store.start(saga, f"{together}-{number}-{random.random()}", {"n": number})
            ).wait()

        await rate(go, 20, 4)
        return await rate(go, count, together)


async def ours(url: str, count: int, together: int, inside: bool = False) -> float:
    """Time steps that do nothing."""
    return await timed_package(url, trip(inside), count, together, max(16, together))


async def ours_with_rows(url: str, count: int, together: int, inside: bool) -> float:
    """Time steps that write a row each, in their own transaction (`inside`) or by the caller."""
    async with resting(url) as links:
        link = links.get_nowait()
        await link.execute("CREATE TABLE book(key text, step text)")
        await link.commit()
        links.put_nowait(link)
        return await timed_package(url, booking(None if inside else links), count, together, 16)


@contextlib.asynccontextmanager
async def resting(url: str) -> AsyncIterator[Links]:
    """Yield sixteen connections of psycopg."""
    every = [await psycopg.AsyncConnection.connect(url) for _ in range(16)]
    links: Links = asyncio.Queue()
    for link in every:
        links.put_nowait(link)
    try:
        yield links
    finally:
        for link in every:
            await link.close()


async def hand(store: by_hand.Each, count: int, together: int, fails: bool = False) -> float:
    """Time sagas by hand. With `fails` the third step fails, and the others are undone."""

    async def step(saga_input: object) -> int:
        return 1

    async def sold_out(saga_input: object) -> int:
        raise LookupError("sold out")

    await store.open()
    machine = by_hand.Machine(store, [step, step, sold_out if fails else step])

    async def go(number: int) -> None:
        await machine.run(f"{together}-{number}-{random.random()}", {"n": number})

    await rate(go, 20, 4)
    try:
        return await rate(go, count, together)
    finally:
        await store.close()


async def bare(url: str, count: int, together: int) -> float:
    """Time psycopg alone: three transactions for each saga, with one row and its record each."""
    async with resting(url) as links:
        link = links.get_nowait()
        await link.execute("CREATE TABLE book(key text, step text)")
        await link.execute(
            "CREATE TABLE record(key text, step text, value text, PRIMARY KEY(key, step))"
        )
        await link.commit()
        links.put_nowait(link)

        async def go(number: int) -> None:
            for step in ("first", "second", "third"):
                link = await links.get()
                await link.execute(ROW, (str(number), step))
                await link.execute(
                    "INSERT INTO record VALUES(%s, %s, %s)", (str(number), step, "1")
                )
                await link.commit()
                links.put_nowait(link)

        return await rate(go, count, together)


WAYS: dict[str, Callable[[str, int, int], Awaitable[float]]] = {
    "sagas": ours,
    "sagas, steps inside that do nothing there": lambda url, count, together: ours(
        url, count, together, True
    ),
    "sagas, steps inside, a row each": lambda url, count, together: ours_with_rows(
        url, count, together, True
    ),
    "sagas, steps that write the same row over their own connection": lambda url, count, together: (
        ours_with_rows(url, count, together, False)
    ),
    "psycopg alone, three transactions of two rows each": bare,
    "by hand, a commit a change": lambda url, count, together: hand(
        by_hand.Each(url), count, together
    ),
    "by hand, commits shared": lambda url, count, together: hand(
        by_hand.Shared(url), count, together
    ),
}


FAILING: dict[str, Callable[[str, int, int], Awaitable[float]]] = {
    "sagas, the third step fails": lambda url, count, together: timed_package(
        url, failing(), count, together, max(16, together)
    ),
    "by hand, commits shared, the third step fails": lambda url, count, together: hand(
        by_hand.Shared(url), count, together, True
    ),
}


def undone(server: Server, options: argparse.Namespace) -> None:
    """Measure sagas a second that are undone."""
    speed(server, options, FAILING)


def speed(
    server: Server,
    options: argparse.Namespace,
    ways: dict[str, Callable[[str, int, int], Awaitable[float]]] = WAYS,
) -> None:
    """Measure sagas a second, at four concurrencies.

    The ways take turns, so that a slow minute of the machine affects each of them. Every second
    turn has the opposite order, since the state of the disk depends on the previous way.
    """
    turns: dict[tuple[str, int], list[float]] = collections.defaultdict(list)
    for together in options.at:
        for turn in range(options.turns):
            for name, way in [*ways.items()][:: -1 if turn % 2 else 1]:
                url = server.create()
                count = max(20, int(SIZES[together] * options.scale))
                value: float = asyncio.run(way(url, count, together))  # type: ignore[arg-type]
                turns[name, together].append(value)
                server.drop(url)
    print("| sagas a second, by concurrency |", " | ".join(map(str, options.at)), "|")
    for name in ways:
        medians = [f"{statistics.median(turns[name, together]):.0f}" for together in options.at]
        print(f"| {name} | {' | '.join(medians)} |", flush=True)


def child(url: str, count: int, name: str) -> subprocess.Popen[str]:
    """Start this file as a node in its own process."""
    return subprocess.Popen(
        [sys.executable, __file__, "child", url, str(count), name],
        stdout=subprocess.PIPE,
        stdin=subprocess.PIPE,
        text=True,
    )


def be_child(url: str, count: int, name: str) -> None:
    """Run a node that starts sagas after a line of input, or whose sagas wait."""

    async def main() -> None:
        if name.startswith("waits"):
            called: list[float] = []
            saga = trip(gate=asyncio.Event(), called=called)
            async with sagas.open(
                url, [saga], node=name, lease=LEASE if name == "waits" else 10.0, concurrency=count
            ) as store:
                await asyncio.gather(*(store.start(saga, f"k{number}") for number in range(count)))
                while len(called) < count:
                    await asyncio.sleep(0.01)
                print("ready", flush=True)
                await asyncio.Event().wait()
        saga = trip()
        async with sagas.open(url, [saga], node=name, concurrency=256) as store:
            print("ready", flush=True)
            await asyncio.to_thread(sys.stdin.readline)

            async def go(number: int) -> None:
                await (await store.start(saga, f"{name}-{number}")).wait()

            print(await rate(go, count, 256), flush=True)

    asyncio.run(main())


def nodes(server: Server, options: argparse.Namespace) -> None:
    """Measure sagas a second of one, two and four nodes, with 256 concurrent ones at each."""
    for many in (1, 2, 4):
        turns = []
        for _ in range(options.turns):
            url = server.create()
            with psycopg.connect(url):
                pass
            processes = [
                child(url, int(2000 * options.scale), f"n{number}") for number in range(many)
            ]
            for process in processes:
                assert process.stdout and process.stdout.readline() == "ready\n"
            for process in processes:
                assert process.stdin
                process.stdin.write("go\n")
                process.stdin.flush()
            outputs = [process.stdout for process in processes if process.stdout]
            turns.append(sum(float(output.readline()) for output in outputs))
            for process in processes:
                process.wait()
            server.drop(url)
        print(f"{many} nodes: {statistics.median(turns):.0f} sagas a second", flush=True)


def idle(server: Server, options: argparse.Namespace) -> None:
    """Measure the statements a second of a node with 1,000 open sagas that wait."""

    def statements(lines: list[str]) -> list[str]:
        return [line for line in lines if "execute" in line or "statement:" in line]

    with serving({"log_statement": "all", "log_min_messages": "log"}) as talking:
        process = child(talking.create(), 1000, "waits idle")
        assert process.stdout and process.stdout.readline() == "ready\n"
        time.sleep(8)
        log_file = talking.folder / "output"
        before = len(statements(log_file.read_text().splitlines()))
        time.sleep(20)
        after = len(statements(log_file.read_text().splitlines()))
        process.kill()
        process.wait()
    print(f"idle, lease 10 s: {(after - before) / 20:.2f} statements a second", flush=True)


def spent_by(server: Server) -> float:
    """Return the processor time of a server and all its processes, ended ones too, in seconds."""
    pid = int((server.folder / "data" / "postmaster.pid").read_text().split()[0])

    def fields(pid: int) -> list[int]:
        text = pathlib.Path(f"/proc/{pid}/stat").read_text().rpartition(")")[2]
        return [int(field) for field in text.split()[11:15]]

    ticks = sum(fields(pid))
    for process in pathlib.Path(f"/proc/{pid}/task/{pid}/children").read_text().split():
        with contextlib.suppress(OSError):
            ticks += sum(fields(int(process))[:2])
    return ticks / os.sysconf("SC_CLK_TCK")


TABLES = (
    "sagas",
    "attempts",
    "event_log",
    "shards",
    "definitions",
    "shard_definitions",
    "suspensions",
    "operator_commands",
    "pending_starts",
)


def size(server: Server, options: argparse.Namespace) -> None:
    """Measure the rows, bytes, commits and processor time of a saga, alone and among others."""

    async def fill(url: str, count: int, together: int) -> int:
        saga = trip()
        async with sagas.open(url, [saga], concurrency=together) as store:

            async def go(number: int) -> None:
                await (await store.start(saga, f"order-{number:08}", {"n": number})).wait()

            await rate(go, count, together)
            return store._commits

    def spent() -> tuple[float, float, float]:
        program_time, children = (
            resource.getrusage(usage) for usage in (resource.RUSAGE_SELF, resource.RUSAGE_CHILDREN)
        )
        return (
            program_time.ru_utime + program_time.ru_stime,
            children.ru_utime + children.ru_stime,
            spent_by(server),
        )

    print(
        "| a saga, by concurrency | commits | rows | bytes in the tables | bytes of WAL "
        "| ms of processor: program | its children | server |"
    )
    for together, count in ((1, 300), (16, 2000), (256, 5000)):
        url, count = server.create(), max(100, int(count * options.scale))
        with psycopg.connect(url, autocommit=True) as link:

            def number(text: str) -> int:
                return int((link.execute(text).fetchone() or (0,))[0])  # type: ignore[arg-type]

            wal = number("SELECT pg_current_wal_lsn() - '0/0'")
            before = spent()
            commits = asyncio.run(fill(url, count, together))
            times = " | ".join(
                f"{1000 * (now - was) / count:.2f}" for was, now in zip(before, spent())
            )
            rows = sum(number(f"SELECT count(*) FROM sagas.{table}") for table in TABLES)
            wal = number("SELECT pg_current_wal_lsn() - '0/0'") - wal
            link.execute("VACUUM")
            of = {
                table: number(f"SELECT pg_total_relation_size('sagas.{table}')") for table in TABLES
            }
            print(
                f"| {together} | {commits / count:.2f} | {rows / count:.2f} "
                f"| {sum(of.values()) / count:.0f} | {wal / count:.0f} | {times} |",
                flush=True,
            )
        print({table: round(bytes / count) for table, bytes in of.items() if bytes / count >= 1})
        server.drop(url)


COPY = """
INSERT INTO sagas.shards(shard, name, owner, epoch, closed, audit)
    SELECT {to}, name || '-{to}', NULL, epoch, closed, audit
    FROM sagas.shards WHERE shard = {log};
INSERT INTO sagas.shard_definitions
    SELECT {to}, place, definition FROM sagas.shard_definitions WHERE shard = {log};
INSERT INTO sagas.event_log
    SELECT {to}, first_seq, committed_at, text, epoch FROM sagas.event_log WHERE shard = {log};
INSERT INTO sagas.sagas(
        id, key, saga, definition_index, input, at, phase, outcome, ended, note
    )
    SELECT id + ({to} - {log}) * 1000, key || '-{to}', saga, definition_index, input, at, phase,
        outcome, ended, note
    FROM sagas.sagas WHERE id / 1000 = {log};
INSERT INTO sagas.attempts
    SELECT id + ({to} - {log}) * 1000, step, action, number, event, value, at
    FROM sagas.attempts WHERE id / 1000 = {log};
"""


async def ended(url: str, logs: int) -> None:
    """Make closed shards of a thousand ended sagas each: one that was run, and copies of it."""
    saga = trip()
    async with sagas.open(url, [saga], concurrency=256) as store:

        async def go(number: int) -> None:
            await (await store.start(saga, f"old-{number}")).wait()

        await rate(go, 1000, 256)
        database = store._access.coordinator_here().store
        while not any(
            is_closed for (is_closed,) in await database.read("SELECT closed FROM shards")
        ):
            await asyncio.sleep(0.05)
    with psycopg.connect(url, autocommit=True) as link:
        ((log,),) = link.execute("SELECT shard FROM sagas.shards WHERE closed = 1").fetchall()
        for _ in range(logs - 1):
            ((to,),) = link.execute("SELECT nextval('sagas.shard_numbers')").fetchall()
            link.execute(COPY.format(log=log, to=to))  # type: ignore[arg-type]
        link.execute("UPDATE sagas.sagas SET ended = ended - 40 * 86400 WHERE ended IS NOT NULL")
        link.execute("VACUUM ANALYZE")


def opening(server: Server, options: argparse.Namespace) -> None:
    """Measure the time from a start on 100,000 ended and 1,000 open sagas until their steps run.

    The open sagas are in one shard, and in a hundred.
    """
    import sagas.definition.registry

    async def opened(url: str) -> float:
        called: list[float] = []
        saga = trip(gate=asyncio.Event(), called=called)
        async with sagas.open(url, [saga], concurrency=1000, shutdown_timeout=0.0) as store:
            if not store._access.coordinator_here().shards.runners:
                for first in range(0, 1000, 100):
                    await asyncio.gather(
                        *(
                            store.start(saga, f"open-{number}")
                            for number in range(first, first + 100)
                        )
                    )
            while len(called) < 1000:
                await asyncio.sleep(0.005)
        return max(called)

    for room in (1000, 10):
        setattr(sagas.definition.registry, "SHARD_CAPACITY", 1000)
        url = server.create()
        asyncio.run(ended(url, max(2, int(100 * options.scale))))
        setattr(sagas.definition.registry, "SHARD_CAPACITY", room)
        asyncio.run(opened(url))
        times = []
        for _ in range(options.turns):
            began = time.time()
            times.append(asyncio.run(opened(url)) - began)
        print(
            f"opening: {int(100_000 * options.scale)} ended, 1,000 open sagas in {1000 // room} "
            f"shards: {statistics.median(times):.2f} s until all are called",
            flush=True,
        )
        server.drop(url)
        setattr(sagas.definition.registry, "SHARD_CAPACITY", 1000)


def prune(server: Server, options: argparse.Namespace) -> None:
    """Measure the time of a start while shards are deleted and without that, and of a deletion."""
    from sagas.runtime import retention

    async def starts(url: str, until: Callable[[], bool]) -> list[float]:
        saga, waits = trip(gate=asyncio.Event()), []
        async with sagas.open(url, [saga], concurrency=16, shutdown_timeout=0.0) as store:
            while not until():
                began = time.perf_counter()
                await store.start(saga, f"new-{random.random()}")
                waits.append(time.perf_counter() - began)
        return waits

    url, logs = server.create(), max(5, int(100 * options.scale))
    asyncio.run(ended(url, logs))
    for name in ("alone", "during deletions"):
        done, began = threading.Event(), time.monotonic()
        gone = retention.Pruned()

        def work() -> None:
            nonlocal gone
            if name == "alone":
                time.sleep(3)
            else:
                gone = retention.prune(url, 30 * 86400.0)
            done.set()

        thread = threading.Thread(target=work)
        thread.start()
        waits = sorted(asyncio.run(starts(url, done.is_set)))
        thread.join()
        count = max(1, len(gone.logs))
        took = 1000 * (time.monotonic() - began) / count / 2
        deleted = f", {took:.0f} ms a shard of {gone.sagas // count} sagas" if gone.logs else ""
        print(
            f"starts {name}: median {1000 * waits[len(waits) // 2]:.1f} ms, "
            f"99 of 100 {1000 * waits[len(waits) * 99 // 100]:.1f} ms, "
            f"maximum {1000 * waits[-1]:.1f} ms{deleted}",
            flush=True,
        )


def takeover(server: Server, options: argparse.Namespace) -> None:
    """Measure the time from the kill of a node until another one has called its steps."""

    async def main(url: str) -> tuple[float, float]:
        called: list[float] = []
        gate = asyncio.Event()
        saga = trip(gate=gate, called=called)
        async with sagas.open(url, [saga], lease=LEASE, concurrency=1000, shutdown_timeout=0.0):
            process = child(url, 1000, "waits")
            assert process.stdout
            await asyncio.to_thread(process.stdout.readline)
            await asyncio.sleep(random.random() * LEASE)
            killed = time.time()
            process.send_signal(signal.SIGKILL)
            process.wait()
            while len(called) < 1000:
                await asyncio.sleep(0.005)
            return min(called) - killed, max(called) - killed

    for _ in range(options.turns):
        first, last = asyncio.run(main(server.create()))
        print(
            f"takeover, lease {LEASE:.0f} s: the first step is called again {first:.2f} s after "
            f"the kill, the last {last:.2f} s",
            flush=True,
        )


def main() -> None:
    """Run the command."""
    if sys.argv[1:2] == ["child"]:
        be_child(sys.argv[2], int(sys.argv[3]), sys.argv[4])
        return
    parts = {
        "speed": speed,
        "failing": undone,
        "nodes": nodes,
        "size": size,
        "idle": idle,
        "takeover": takeover,
        "opening": opening,
        "prune": prune,
    }
    parser = argparse.ArgumentParser(
        description=__doc__, formatter_class=argparse.RawDescriptionHelpFormatter
    )
    parser.add_argument("parts", nargs="*", choices=[*parts, []], default=[])
    parser.add_argument("--turns", type=int, default=3)
    parser.add_argument("--scale", type=float, default=1.0)
    parser.add_argument(
        "--at",
        type=lambda text: [int(number) for number in text.split(",")],
        default=[*SIZES],
        help="the concurrencies of `speed` and `failing`, for example 1,16",
    )
    options = parser.parse_args()
    logging.basicConfig(filename=os.devnull)  # the log is written, and not read
    print(f"{os.cpu_count()} processors, load {os.getloadavg()[0]:.1f}")
    with serving({"fsync": "on", "synchronous_commit": "on", "shared_buffers": "256MB"}) as server:
        for part in options.parts or list(parts):
            parts[part](server, options)


if __name__ == "__main__":
    main()
