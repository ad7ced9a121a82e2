"""Slow functions of definitions run in threads, and block nothing else."""

from __future__ import annotations

import asyncio
import datetime
import threading
from collections.abc import Callable
from typing import Any

import pytest
from cases import Task, run, until

import sagas
from sagas.runtime import declared_calls
from sagas.runtime.declared_calls import FunctionThreads

NOW = datetime.timedelta(0)


class Gate:
    """Functions that wait until it is opened, and the threads that are in them."""

    def __init__(self) -> None:
        self.opened, self.inside = threading.Event(), list[str]()

    def holding(self, value: Any) -> Callable[..., Any]:
        """Return a function that waits and returns this."""

        def function(*_: Any) -> Any:
            self.inside.append(threading.current_thread().name)
            assert self.opened.wait(60)
            return value

        return function


def nothing(task: Task) -> None:
    """A step without work."""


def quick() -> sagas.Saga:
    """Return another saga of the same node."""
    saga = sagas.Saga("quick")
    saga.step(name="a", when=lambda input: True)(nothing)
    return saga


def shop(gate: Gate) -> list[sagas.Saga]:
    """Return a saga for each function that a definition can have."""

    def saga_of(name: str, fair_by: Any = None, **options: Any) -> sagas.Saga:
        saga = sagas.Saga(name, fair_by=fair_by)
        saga.step(name="a", undo=0, **options)(nothing)
        return saga

    waits, parent, outer = sagas.Saga("until"), sagas.Saga("child"), sagas.Saga("include")
    waits.wait(name="a", until=gate.holding(NOW))(nothing)
    kid = saga_of("kid")
    parent.child(kid, name="a", input=gate.holding({}))
    outer.include(saga_of("inner"), name="i", input=gate.holding({}))
    return [
        kid,
        waits,
        parent,
        outer,
        saga_of("when", when=gate.holding(True)),
        saga_of("for_each", for_each=gate.holding([1])),
        saga_of("cost", keep=gate.holding(3)),
        saga_of("key", concurrency=1, concurrency_by=gate.holding("k")),
        saga_of("fair", fair_by=gate.holding("k")),
    ]


def test_slow_functions_block_nothing_else(location: str) -> None:
    """All of them wait at once, and other sagas continue."""
    gate, other = Gate(), quick()
    kid, *slow = shop(gate)

    async def main() -> None:
        async with sagas.open(location, [other, kid, *slow]) as store:
            starts = [asyncio.create_task(store.start(saga, saga.name, {})) for saga in slow]
            await until(lambda: len(gate.inside) == len(slow))
            for number in range(3):
                ended = await (await store.start(other, f"k{number}", {})).wait(timeout=60)
                assert ended.ok
            assert not gate.opened.is_set() and all("declared" in name for name in gate.inside)
            assert await store.waits_for("until") == ["a waits for until="]
            gate.opened.set()
            for start in starts:
                assert (await (await start).wait(timeout=60)).ok
        assert len(gate.inside) == len(slow)  # each was called once

    run(main())


def test_schedules_and_starts_of_clients(url: str) -> None:
    """A client computes the steps while it makes other calls, and a node takes other starts at the
    same time.
    """
    gate, other = Gate(), quick()
    saga = shop(gate)[4]
    gate.opened.set()

    async def main() -> None:
        async with sagas.open(url, [other, saga]):
            pass
        async with sagas.Client(url) as client:
            await client.start(saga, "k", {})
            gate.opened.clear()
            start = asyncio.create_task(client.start(saga, "another", {}))
            await until(lambda: len(gate.inside) == 2)
            await client.start(other, "first", {})
            async with sagas.open(url, [other, saga]) as store:
                await until(lambda: len(gate.inside) == 3)
                await client.start(other, "second", {})
                put = store.schedule("s", saga, {}, every=datetime.timedelta(days=1))
                schedule = asyncio.create_task(put)
                for key in ("first", "second"):
                    assert (await client.wait(key, timeout=60)).ok
                assert not (gate.opened.is_set() or schedule.done() or start.done())
                gate.opened.set()
                await schedule
                await start
                assert (await client.wait("k", timeout=60)).ok
                assert (await client.wait("another", timeout=60)).ok

    run(main())


@pytest.mark.parametrize("timeout", [None, 0])
def test_a_store_that_is_closed_during_calls(location: str, timeout: float | None) -> None:
    """It waits for them, as it does for steps; a later program asks again."""
    gate, other = Gate(), quick()
    slow = {saga.name: saga for saga in shop(gate)}
    sagas_of = [other, *slow.values()]

    async def main() -> None:
        async with sagas.open(location, sagas_of) as store:
            for name in ("until", "key", "child"):
                await store.start(slow[name], name, {})
            start = asyncio.create_task(store.start(slow["when"], "when", {}))
            await until(lambda: len(gate.inside) == 4)
            closing = asyncio.create_task(store.close(timeout))
            if timeout is None:
                await asyncio.wait([closing], timeout=0.1)
                assert not closing.done()
                gate.opened.set()
            await closing
            gate.opened.set()
            with pytest.raises(sagas.Closed):
                await start
        async with sagas.open(location, sagas_of) as store:
            for name in ("until", "key", "child"):
                assert (await store.wait(name, timeout=60)).ok
            assert await store.get("when") is None

    run(main())


def test_an_abort_during_a_call(location: str) -> None:
    """Their return values are not used, and no function of a step is called."""
    gate, other = Gate(), quick()
    slow = {saga.name: saga for saga in shop(gate)}
    called: list[str] = []
    for name in ("until", "key"):
        slow[name].steps[0].run.function = lambda task: called.append(task.key)

    async def main() -> None:
        async with sagas.open(location, [other, *slow.values()]) as store:
            for name in ("until", "key"):
                await store.start(slow[name], name, {})
            await until(lambda: len(gate.inside) == 2)
            assert await store.abort("until") and await store.abort("key")
            gate.opened.set()
            for name in ("until", "key"):
                assert (await store.wait(name, timeout=60)).phase == "recovered"
        assert not called

    run(main())


def test_threads_of_functions() -> None:
    """Short calls share a thread; a slow one has a thread for itself, and one name half of them."""
    gate, threads = Gate(), FunctionThreads(4, "test")
    slow = gate.holding(1)

    def stops() -> None:
        raise SystemExit("stop")

    async def main() -> None:
        names = await asyncio.gather(
            *[threads.call("a", lambda: threading.current_thread().name) for _ in range(100)]
        )
        assert len(set(names)) <= 2
        with pytest.raises(RuntimeError, match="SystemExit: stop"):
            await threads.call("a", stops)
        with pytest.raises(KeyError):
            await threads.call("a", lambda: {}["k"])
        held = [asyncio.create_task(threads.call("a", slow)) for _ in range(5)]
        await until(lambda: len(gate.inside) == 2)
        assert await threads.call("b", lambda: 2) == 2
        await threads.end(0.05)
        assert len(gate.inside) == 2
        held.pop().cancel()
        gate.opened.set()
        assert await asyncio.gather(*held) == [1] * 4
        await threads.end(None)
        assert len(gate.inside) == 4  # the one whose caller has left was not called
        threads.close()
        assert await threads.call("a", lambda: 3) == 3
        threads.close()

    run(main())
    assert not any(t.name.startswith("test") for t in threading.enumerate())


def test_a_loop_that_is_closed_during_calls() -> None:
    """Its threads end anyway."""
    gate, threads = Gate(), FunctionThreads(2, "test")
    job: Any = None

    async def main() -> None:
        nonlocal job
        job = asyncio.create_task(threads.call("a", gate.holding(1)))
        await until(lambda: gate.inside)
        job.cancel()

    asyncio.run(main())
    gate.opened.set()
    threads.close()
    assert job.cancelled() and declared_calls.FORKED == 70
