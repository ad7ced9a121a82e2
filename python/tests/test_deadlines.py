"""Sagas that are aborted when their time is over, whichever node drives them then."""

from __future__ import annotations

import asyncio
import datetime
import gc
import os
import pathlib
import signal
import time
from typing import Any

import pytest
from cases import Task, run, until
from test_command import Shell
from test_schedules import Clock

import sagas
import sagas.testing
from sagas.core.attempt.instance import SagaInstance
from sagas.runtime import instances

SOON = datetime.timedelta(seconds=0.3)
UTC = datetime.timezone.utc


def slow(**options: Any) -> sagas.Saga:
    """Return a saga with a step that is undone, and an approval that never comes."""
    saga = sagas.Saga("slow", **options)

    @saga.step(keep=9, undo=1)
    def hold(task: Task) -> float:
        assert task.deadline is not None and task.deadline.tzinfo is UTC
        return task.deadline.timestamp()

    @hold.compensation
    def release(task: Task) -> None:
        assert task.deadline and task.deadline.timestamp() == task.result

    @saga.approval(needs=[hold])
    def sign(task: Task) -> None:
        ...

    return saga


def at(location: str, kind: sagas.Saga, events: list[str]) -> Any:
    """Open a store, and collect its events."""
    return sagas.open(
        location, [kind], node="one", lease=2, on_event=lambda event: events.append(event.name)
    )


def test_a_saga_that_is_over_is_not_kept_for_its_deadline(
    tmp_path: pathlib.Path, monkeypatch: pytest.MonkeyPatch
) -> None:
    """A deadline is days away, and sagas end at once: the program keeps few of them.

    Open sagas are aborted in time.
    """
    monkeypatch.setattr(instances, "MAX_ENTRIES", 4)
    kind, clock = slow(deadline=datetime.timedelta(days=1)), Clock()

    def count() -> int:
        gc.collect()
        return len([item for item in gc.get_objects() if isinstance(item, SagaInstance)])

    async def main() -> None:
        before = count()  # of other tests
        async with sagas.open(
            tmp_path / "store.db", [kind], settings=sagas.Settings(clock=clock)
        ) as store:
            for number in range(20):
                run = await store.start(kind, f"k{number}")
                if number % 4:
                    await until(lambda: [a for a in store.active_attempts(run.key) if a.waits])
                    await run.complete("sign")
                    assert (await run.wait()).ok
            assert count() - before < 15
            clock.now += 2 * 86400
            for number in range(0, 20, 4):
                assert (await store.wait(f"k{number}", 60)).aborted

    run(main())


@pytest.mark.parametrize("way", ["timedelta", "datetime", "definition"])
def test_it_is_aborted_in_time(location: str, way: str) -> None:
    """Its steps know when; a saga that ended before, and one without a deadline, continue."""
    kind, events = slow(deadline=SOON if way == "definition" else None), list[str]()

    async def main() -> None:
        async with at(location, kind, events) as store:
            late: Any = {"timedelta": SOON, "datetime": datetime.datetime.now(UTC) + SOON}.get(way)
            run = await store.start(kind, "k", deadline=late)
            done = await store.start(kind, "done", deadline=3600)
            await until(lambda: [a for a in store.active_attempts("done") if a.waits == "approval"])
            await store.complete("done", "sign")
            assert (await done.wait(60)).ok
            end = await run.wait(60)
            assert end.aborted and end.states == {"hold": "undone", "sign": "waiting"}
            await asyncio.sleep(1.2)
            assert events.count("saga_overdue") == events.count("saga_aborted") == 1

    run(main())


def test_over_a_kill(location: str) -> None:
    """It is stored with the saga: the next program aborts one whose time is over."""
    kind = slow()
    child = os.fork()
    if child == 0:

        async def first() -> None:
            async with at(location, kind, []) as store:
                await store.start(kind, "k", deadline=1.5)
                os.kill(os.getpid(), signal.SIGKILL)

        asyncio.run(first())
    assert os.waitstatus_to_exitcode(os.waitpid(child, 0)[1]) == -signal.SIGKILL
    events = list[str]()

    async def second() -> None:
        async with at(location, kind, events) as store:
            assert (again := await store.start(kind, "k", deadline=3600)) and not again.new
            assert (await again.wait(60)).states == {"hold": "undone", "sign": "waiting"}

    run(second())
    assert "saga_overdue" in events


def test_the_command_shows_it(location: str, capsys: pytest.CaptureFixture[str]) -> None:
    """A person sees a time, programs a number; a saga without a deadline has none."""
    kind, shell = slow(), Shell(location, capsys)

    async def fill() -> float:
        async with at(location, kind, []) as store:
            await store.start(kind, "k", deadline=3600)
            await store.start(kind, "none", deadline=None)
            late = {summary.key: summary.deadline for summary in await store.list()}
            assert late["none"] is None and late["k"]
            return late["k"]

    when = run(fill())
    shown = datetime.datetime.fromtimestamp(when, UTC).strftime("%Y-%m-%d %H:%M:%SZ")
    assert f"\ndeadline {shown}\n" in shell("show", "k") and "\ndeadline " not in shell(
        "show", "none"
    )
    assert shell.json("show", "k")["deadline"] == when
    assert [row["deadline"] for row in shell.json("list")] == [when, None]


def test_from_a_client(url: str) -> None:
    """The time counts from the start of the client, though no node has taken it yet."""
    kind, events = slow(), list[str]()

    async def main() -> None:
        async with at(url, kind, []):
            pass
        async with sagas.Client(url) as client:
            started = await client.start(kind, "k", deadline=SOON)
            await asyncio.sleep(0.4)
            async with at(url, kind, events):
                assert (await started.wait(60)).aborted

    run(main())
    assert events.count("saga_overdue") == 1


def test_of_another_node(url: str) -> None:
    """A node that takes a shard over has the deadlines of its sagas."""
    kind, events = slow(), list[str]()

    async def main() -> None:
        first = sagas.open(url, [kind], node="one", lease=1)
        async with first as store:
            await store.start(kind, "k", deadline=1.5)
        second = sagas.open(
            url, [kind], node="two", lease=1, on_event=lambda event: events.append(event.name)
        )
        async with second as store:
            assert (await store.wait("k", 60)).aborted

    run(main())
    assert events.count("saga_overdue") == 1


def chain(
    clock: Clock, late: str = "", dies: str = ""
) -> tuple[sagas.Saga, list[tuple[str, str | None]]]:
    """Return steps in a row that note an abort, and a clock that passes the deadline in one of
    them.
    """
    saga, calls = sagas.Saga("chain"), list[tuple[str, str | None]]()

    def each(task: Task) -> None:
        calls.append((task.step, task.cancelled.reason))
        if task.step == late:
            clock.now += 3600
        if task.step == dies:
            os.kill(os.getpid(), signal.SIGKILL)

    before: list[Any] = []
    for name in "abc":
        step = saga.step(name=name, needs=before, keep=9, undo=1)(each)
        step.compensation(lambda task: None)
        before = [step]
    return saga, calls


def test_nothing_starts_of_a_late_start(location: str) -> None:
    """It is started and aborted at once: also with other starts, with steps that come from the
    input, and encoded. The same start again is the same saga.
    """
    kind, calls = chain(Clock())
    each = sagas.Saga("each")
    item = each.step(name="item", for_each=lambda input: input["items"])(
        lambda task: calls.append(("item", None))
    )
    each.step(name="last", needs=[item])(lambda task: None)
    events = list[tuple[str, str]]()

    class Codec:
        def encode(self, data: bytes) -> bytes:
            return data[::-1]

        decode = encode

    async def main() -> None:
        past = datetime.datetime.now(UTC) - datetime.timedelta(days=30)
        heard = lambda event: events.append((event.key, event.name))
        async with sagas.open(location, [kind, each], codec=Codec(), on_event=heard) as store:
            starts = [
                store.start(kind, f"late{n}", labels={"n": str(n)}, deadline=past) for n in range(3)
            ]
            starts += [
                store.start(kind, "soon", deadline=3600),
                store.start(kind, "zero", deadline=0),
            ]
            starts += [
                store.start(each, "each", {"items": [1, 2]}, deadline=past),
                store.start(kind, "none"),
            ]
            runs = await asyncio.gather(*starts)
            assert all(run.new for run in runs)
            ends = {run.key: await run.wait(60) for run in runs}
            assert {key for key, end in ends.items() if end.aborted} == {
                run.key for run in runs
            } - {"soon", "none"}
            assert {*ends["each"].states.values()} == {*ends["zero"].states.values()} == {"waiting"}
            assert sorted(calls) == sorted((step, None) for step in "abc" for _ in range(2))
            again = await store.start(kind, "late0", deadline=3600)
            assert not again.new and (await again.wait(60)).aborted and len(calls) == 6
            assert [event.event for event in await store.log("late1")] == [
                "open",
                "abort",
                "start_plan",
                "adopt",
            ]
            with pytest.raises(sagas.KeyConflict):
                await store.start(kind, "late0", {"another": 1}, deadline=past)
            assert all(verdict.startswith("yes") for verdict in (await store.audit()).values())
        first = [name for key, name in events if key == "zero"]
        assert first == [
            "saga_started",
            "saga_overdue",
            "saga_aborted",
            "plan_adopted",
            "saga_ended",
        ]

    run(main())


def test_nothing_starts_after_the_deadline_of_a_recovered_saga(location: str) -> None:
    """Its program died in a step, which may have had its effect.

    The step is called again, is notified of the abort, and is undone. No other step starts: in the
    next program of a file, and at the node that takes a shard over.
    """
    if (child := os.fork()) == 0:
        kind, _ = chain(Clock(), dies="a")

        async def first() -> None:
            async with sagas.open(location, [kind], node="one", lease=1) as store:
                await (await store.start(kind, "k", deadline=60)).wait()

        try:
            asyncio.run(first())
        finally:
            os._exit(1)
    assert os.waitstatus_to_exitcode(os.waitpid(child, 0)[1]) == -signal.SIGKILL
    clock, events = Clock(), list[str]()
    clock.now = time.time() + 61
    kind, calls = chain(clock)

    async def second() -> None:
        heard = lambda event: events.append(event.name)
        async with sagas.open(
            location,
            [kind],
            node="two",
            lease=1,
            settings=sagas.Settings(clock=clock),
            on_event=heard,
        ) as store:
            end = await until(lambda: store.get("k")) and await store.wait("k", 60)
            assert end.aborted and end.states == {"a": "undone", "b": "waiting", "c": "waiting"}
            assert calls == [("a", "aborted")]
            assert all(verdict.startswith("yes") for verdict in (await store.audit()).values())

    run(second())
    assert events.count("saga_overdue") == events.count("saga_aborted") == 1


def test_no_step_starts_after_a_deadline(location: str) -> None:
    """It passes while a step runs: the next one does not start, though no program has looked at the
    time since.
    """
    clock = Clock()
    clock.now = time.time()
    kind, calls = chain(clock, late="b")

    async def main() -> None:
        async with sagas.open(location, [kind], settings=sagas.Settings(clock=clock)) as store:
            end = await (await store.start(kind, "k", deadline=60)).wait(60)
            assert end.aborted and end.states == {"a": "undone", "b": "undone", "c": "waiting"}
            assert calls == [("a", None), ("b", None)]

    run(main())


def test_a_client_that_is_late(url: str) -> None:
    """Its start is taken by a node, and aborted at once."""
    kind, calls = chain(Clock())

    async def main() -> None:
        async with sagas.open(url, [kind]), sagas.Client(url) as client:
            started = await client.start(kind, "k", deadline=datetime.datetime.now(UTC) - SOON)
            end = await started.wait(60)
            assert started.new and end.aborted and calls == []

    run(main())


def test_in_a_simulation() -> None:
    """The clock advances to it, and no further than needed."""
    kind = sagas.Saga("days")

    @kind.wait(until=datetime.timedelta(days=3))
    def later(task: Task) -> None:
        ...

    ended = sagas.testing.run(kind, deadline=datetime.timedelta(days=1))
    assert ended.aborted and ended.seconds == 86400 and ended.states == {"later": "waiting"}
    assert sagas.testing.run(kind, deadline=datetime.timedelta(days=4)).ok
    chained, calls = chain(Clock())
    past = datetime.datetime(1971, 1, 1, tzinfo=UTC)
    for deadline in (0, past):
        ended = sagas.testing.run(chained, deadline=deadline)
        assert ended.aborted and ended.seconds == 0 and calls == []


@pytest.mark.parametrize(
    ("deadline", "error"),
    [
        ("soon", TypeError),
        (-1, ValueError),
        (float("nan"), ValueError),
        (datetime.timedelta.max, ValueError),
        (datetime.datetime(2030, 1, 1), TypeError),
    ],
)
def test_invalid_times(tmp_path: pathlib.Path, deadline: Any, error: type[Exception]) -> None:
    kind = slow()
    with sagas.open_sync(tmp_path / "store.db", [kind]) as store:
        with pytest.raises(error, match="deadline="):
            store.start(kind, "k", deadline=deadline)
        assert store.get("k") is None
    if not isinstance(deadline, (datetime.datetime, datetime.timedelta)):
        with pytest.raises(sagas.DefinitionError, match="deadline="):
            slow(deadline=deadline)
