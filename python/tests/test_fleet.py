"""Limits and rates of a step over all nodes.

They are never exceeded, dead nodes release their slots, and no other step waits.
"""

from __future__ import annotations

import asyncio
import contextlib
import os
import pathlib
import signal
import sqlite3
import subprocess
import sys
import textwrap
import time
from collections import Counter
from typing import Any

import psycopg
import pytest
from cases import QUICK, Task, ended, run, simple, until
from driving import program

import sagas
from sagas.core.shard.batch import Grant
from sagas.definition.call_options import Bounds
from sagas.runtime import fleet_limits
from sagas.storage.postgresql.limit_slots import LimitSlots

HERE = pathlib.Path(__file__).resolve().parent


class Count:
    """How many calls are inside at once, and in all."""

    def __init__(self) -> None:
        self.now = self.highest = 0
        self.least = 0  # a call inside stays until this many are at once
        self.by: Counter[str] = Counter()
        self.at: list[float] = []

    async def inside(self, name: str, seconds: float = 0.005) -> None:
        """Stay inside for this time."""
        self.at.append(time.monotonic())
        self.now += 1
        self.by[name] += 1
        self.highest = max(self.highest, self.now)
        while self.highest < self.least:
            await asyncio.sleep(0.001)
        await asyncio.sleep(seconds)
        self.now -= 1


def counted(count: Count, name: str = "here", seconds: float = 0.005, **options: Any) -> sagas.Saga:
    """Return a step that is counted while it runs."""

    async def step(task: Task) -> None:
        await count.inside(name, seconds)

    return simple(step, **options)


def test_no_more_than_its_limit_at_once(location: str) -> None:
    """Of one program, in a file and in a database; all slots are used, and each call gets one in
    the end.
    """
    count = Count()
    kind = counted(count, fleet_concurrency=3)

    async def main() -> None:
        async with sagas.open(location, [kind], concurrency=16) as store:
            ends = await asyncio.gather(*(ended(store, kind, f"k{number}") for number in range(40)))
            assert all(end.ok for end in ends)

    run(main())
    assert count.highest == 3 and sum(count.by.values()) == 40


def test_a_limit_holds_over_all_nodes(url: str) -> None:
    """Three nodes have more work than slots: together no more than the limit run, all slots are
    used, and each node has its turns.
    """
    count = Count()
    count.least = 4
    kinds = [counted(count, f"n{number}", fleet_concurrency=4) for number in range(3)]

    async def main() -> None:
        async with contextlib.AsyncExitStack() as stack:
            nodes = [
                await stack.enter_async_context(sagas.open(url, [kind], node=f"n{number}"))
                for number, kind in enumerate(kinds)
            ]
            await asyncio.gather(
                *(
                    ended(node, kind, f"{at}-{number}")
                    for at, (node, kind) in enumerate(zip(nodes, kinds))
                    for number in range(20)
                )
            )

    run(main())
    assert count.highest == 4 and count.by == {f"n{number}": 20 for number in range(3)}


def test_a_step_at_its_fleet_limit_takes_no_slot(location: str) -> None:
    """Attempts that wait for a slot of the limit take no slot of the program: another step runs
    past them with the only other one.
    """
    gate = asyncio.Event()

    async def wait(task: Task) -> None:
        await gate.wait()

    slow, quick = simple(wait, fleet_concurrency=1), sagas.Saga("quick")
    quick.step(name="a")(lambda task: 1)

    async def main() -> None:
        async with sagas.open(location, [slow, quick], concurrency=2) as store:
            held = [await store.start(slow, f"slow-{number}") for number in range(10)]
            await asyncio.gather(*(ended(store, quick, f"quick-{number}") for number in range(10)))
            assert await held[9].abort() and (await held[9].wait()).aborted  # it was never called
            gate.set()
            assert all(end.ok for end in await asyncio.gather(*(wait.wait() for wait in held[:9])))

    run(main())


NODE = """
    import asyncio, sagas
    saga = sagas.Saga("simple")
    @saga.step(name="a", fleet_concurrency=1)
    async def a(task):
        print("called", flush=True)
        await asyncio.sleep(3600)
    async def main():
        async with sagas.open({url!r}, [saga], lease=1.5) as store:
            await store.start(saga, "theirs")
            await store.serve()
    asyncio.run(main())
"""


def test_a_killed_nodes_slots_are_free_after_its_lease(url: str, tmp_path: pathlib.Path) -> None:
    """While the node lives its slot is its own; when it is killed, another node's step has it."""
    script = tmp_path / "node.py"
    script.write_text(textwrap.dedent(NODE.format(url=url)))
    environment = os.environ | {"PYTHONPATH": str(HERE.parent / "src"), "SAGAS_PROGRAM": program()}
    process = subprocess.Popen(
        [sys.executable, "-u", str(script)], stdout=subprocess.PIPE, text=True, env=environment
    )
    kind = simple(lambda task: 1, fleet_concurrency=1)

    async def main() -> None:
        assert process.stdout and await asyncio.to_thread(process.stdout.readline) == "called\n"
        async with sagas.open(url, [kind], lease=1.5) as store:
            waiting = asyncio.create_task(ended(store, kind, "mine"))
            await asyncio.sleep(0.7)
            assert not waiting.done()
            process.send_signal(signal.SIGKILL)
            assert (await waiting).ok and (await store.wait("theirs")).ok

    try:
        run(main())
    finally:
        process.kill()
        process.wait()
        assert process.stdout
        process.stdout.close()


PERIOD = 0.6


def test_no_more_than_its_rate(location: str) -> None:
    """In any period no more calls start than its rate, including retries and a restart of the
    program.
    """
    count = Count()

    async def step(task: Task) -> None:
        await count.inside("here")
        if task.attempt == 1:
            raise sagas.Retry("again")

    kind = simple(step, rate_limit=(4, PERIOD), tries=2, backoff=QUICK)

    async def main() -> None:
        async with sagas.open(location, [kind]) as store:
            await asyncio.gather(*(ended(store, kind, f"k{number}") for number in range(2)))
        async with sagas.open(location, [kind]) as store:
            await asyncio.gather(*(ended(store, kind, f"more-{number}") for number in range(4)))

    began = time.monotonic()
    run(main())
    assert len(count.at) == 12 and time.monotonic() - began >= 2 * PERIOD
    for first, fifth in zip(count.at, count.at[4:]):
        # counted when the slot is granted, before the call; the delay depends on the machine's load
        assert fifth - first > PERIOD / 2, count.at


def test_a_rate_holds_over_all_nodes(url: str) -> None:
    """Two nodes, and a limit with it."""
    count = Count()
    kinds = [
        counted(count, f"n{number}", seconds=0.05, rate_limit=(6, PERIOD), fleet_concurrency=2)
        for number in range(2)
    ]

    async def main() -> None:
        async with sagas.open(url, [kinds[0]], node="one") as first, sagas.open(
            url, [kinds[1]], node="other"
        ) as other:
            await asyncio.gather(
                *(
                    ended(node, kind, f"{at}-{number}")
                    for at, (node, kind) in enumerate(zip((first, other), kinds))
                    for number in range(10)
                )
            )

    began = time.monotonic()
    run(main())
    assert sum(count.by.values()) == 20 and count.highest <= 2
    # three of them by the server's clock, which may be adjusted a little in the meantime
    assert time.monotonic() - began >= 2.75 * PERIOD


def test_a_clock_that_jumped_back_stops_no_rate(location: str) -> None:
    """Slots that are taken until a time beyond any period are free."""
    kind = counted(Count(), rate_limit=(2, 3.0))

    async def main() -> None:
        async with sagas.open(location, [kind]) as store:
            await asyncio.gather(*(ended(store, kind, f"k{number}") for number in range(2)))
            statement = "UPDATE limit_slots SET until = until + 86400 WHERE kind = 'rate'"
            if location.startswith("postgresql:"):
                with psycopg.connect(location, options="-csearch_path=sagas") as link:
                    link.execute(statement)
            else:
                with contextlib.closing(sqlite3.connect(location)) as db:
                    db.execute(statement)
                    db.commit()
            async with asyncio.timeout(2.5):
                await ended(store, kind, "next")

    run(main())


def test_slots_are_not_lost_with_their_replies(url: str, monkeypatch: pytest.MonkeyPatch) -> None:
    """Statements are done and their replies lost: the limit holds, all sagas end, and each slot is
    free again.
    """
    count, turns = Count(), iter(range(1000))
    kind = counted(count, fleet_concurrency=2)
    right = LimitSlots.take

    async def take(self: LimitSlots, *arguments: Any) -> Grant:
        grant = await right(self, *arguments)
        if next(turns) in (0, 4, 9):
            raise sagas.StoreUnavailable("the answer is lost")
        return grant

    monkeypatch.setattr(LimitSlots, "take", take)

    def taken() -> int:
        with psycopg.connect(url) as link:
            return len(
                link.execute("SELECT 1 FROM sagas.limit_slots WHERE node IS NOT NULL").fetchall()
            )

    async def main() -> None:
        async with sagas.open(url, [kind]) as store:
            ends = await asyncio.gather(*(ended(store, kind, f"k{number}") for number in range(12)))
            assert all(end.ok for end in ends) and next(turns) > 10
            await until(lambda: taken() == 0)

    run(main())
    assert count.highest <= 2


def test_a_lost_reply_is_resolved_by_its_own_gate(
    url: str, monkeypatch: pytest.MonkeyPatch
) -> None:
    """The reply for a key is lost, and other keys come in the meantime: a later report of it
    releases no slot of the key's next call.
    """
    monkeypatch.setattr(fleet_limits, "MAX_GATES", 1)
    monkeypatch.setattr(fleet_limits, "LOOK", 0.05)
    monkeypatch.setattr(fleet_limits, "DOUBT", 1.0)
    takes: list[tuple[str, int]] = []
    right = LimitSlots.take

    async def take(self: LimitSlots, name: str, bounds: Bounds, want: int, *more: Any) -> Grant:
        grant = await right(self, name, bounds, want, *more)
        takes.append((name, want))
        if len(takes) == 1:
            raise sagas.StoreUnavailable("the answer is lost")
        return grant

    monkeypatch.setattr(LimitSlots, "take", take)

    def is_taken() -> bool:
        with psycopg.connect(url) as link:
            return (
                link.execute("SELECT 1 FROM sagas.limit_slots WHERE node IS NOT NULL").fetchone()
                is not None
            )

    async def step(task: Task) -> None:
        if task.key == "second":
            begun = len(takes)
            await until(lambda: (takes[0][0], 0) in takes[begun:], 30)
            assert is_taken()

    kind = simple(step, fleet_concurrency=1, concurrency_by=lambda key: key)

    async def main() -> None:
        async with sagas.open(url, [kind]) as store:
            assert (await ended(store, kind, "first", "one")).ok
            assert (await ended(store, kind, "other", "two")).ok
            assert (await ended(store, kind, "second", "one")).ok

    run(main())


def test_invalid_limits_are_refused() -> None:
    """The error has the step, and the allowed values."""
    for options, message in (
        ({"fleet_concurrency": 0}, "fleet_concurrency=0"),
        ({"fleet_concurrency": True}, "fleet_concurrency=True"),
        ({"rate_limit": (10, 0)}, "rate_limit="),
        ({"rate_limit": 5}, "rate_limit=5"),
        ({"rate_limit": (10_001, 60)}, "10,000 calls"),
    ):
        with pytest.raises(sagas.DefinitionError, match=message):
            simple(lambda task: 1, **options)
    saga = sagas.Saga("elsewhere")
    with pytest.raises(
        sagas.DefinitionError, match="step is external.* Remove fleet_concurrency and rate_limit"
    ):
        saga.step(external=True, name="a", fleet_concurrency=2)  # type: ignore[call-overload]
