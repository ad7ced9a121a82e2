"""The promises of a store: keys, results, aborts, held steps, logs and definitions, and its reads.
"""

from __future__ import annotations

import asyncio
import contextlib
import contextvars
import dataclasses
import datetime
import logging
import os
import pathlib
import signal
import sqlite3
import subprocess
import threading
import time
from collections import Counter
from collections.abc import Iterator, Sequence
from typing import Any

import psycopg
import pytest
import records
from cases import (
    HOUR,
    QUICK,
    Task,
    attempts_to_report,
    ended,
    hears,
    run,
    simple,
    stuck_keys,
    unknown_attempts,
    until,
)
from kills import children

import sagas
import sagas.testing
from sagas.core import protocol
from sagas.definition.capacity import HEADER
from sagas.engine import process
from sagas.base import program
from sagas.runtime import calls as calls_module
from sagas.storage import admin
from sagas.storage.sqlite import writer as writer_module


def row(gate: asyncio.Event | None = None) -> sagas.Saga:
    """Return three steps in a row, and the last fails if the input says so."""
    row = sagas.Saga("row")

    @row.step
    async def a(task: Task) -> str:
        if gate:
            await gate.wait()
        return "A"

    @a.compensation
    async def not_a(task: Task) -> None:
        ...

    @row.step(needs=[a])
    async def b(task: Task) -> str:
        return task.result_of(a) + "B"

    @b.compensation
    async def not_b(task: Task) -> None:
        ...

    @row.step(needs=[b])
    async def c(task: Task) -> dict[str, Any]:
        if task.input == "fails":
            raise sagas.Fail("no")
        return task.results

    return row


# -- keys and results


def test_start_with_an_existing_key(location: str) -> None:
    """It returns the existing saga, whatever its state; another saga or another input is
    KeyConflict.
    """
    kinds = [row(), simple(lambda task: 1)]

    async def main() -> None:
        async with sagas.open(location, kinds) as store:
            first = await ended(store, kinds[0], value={"a": 1, "b": [2]})
            assert await ended(store, kinds[0], value={"b": [2], "a": 1}) == first
            for saga, value in ((kinds[0], {"a": 2}), (kinds[1], {"a": 1, "b": [2]})):
                with pytest.raises(sagas.KeyConflict):
                    await store.start(saga, key="k", input=value)
            starts = [
                store.start(kinds[0], key="k", input=value)
                for value in ({"a": 2}, {"a": 1, "b": [2]})
            ]
            results = await asyncio.gather(
                *starts, store.wait("k"), store.abort("k"), return_exceptions=True
            )
            assert (
                isinstance(results[0], sagas.KeyConflict)
                and not results[1].new
                and results[2:] == [first, False]
            )
            same = await asyncio.gather(*(ended(store, kinds[0], "many") for _ in range(20)))
            assert len({end.key for end in same}) == 1
        async with sagas.open(location, kinds) as store:
            assert await ended(store, kinds[0], value={"a": 1, "b": [2]}) == first
            with pytest.raises(sagas.KeyConflict):
                await store.start(kinds[1], key="k")
            with pytest.raises(sagas.NotSerializable):
                await store.start(kinds[0], key="new", input=object())

    run(main())
    assert len(records.read(location).sagas) == 2


def test_an_invalid_key(location: str) -> None:
    """They are a name of the package's own, and a text that is too long."""
    saga = simple(lambda task: 1)

    async def main() -> None:
        async with sagas.open(location, [saga]) as store:
            for key in (17, "", "a\n", "k" * 3000, None):
                with pytest.raises(
                    sagas.InvalidKey,
                    match="^key=.*: must be a text of 1 to 512 printable characters$",
                ) as error:
                    await store.start(saga, key)  # type: ignore[arg-type]
                assert (
                    isinstance(error.value, sagas.NotSerializable) and len(str(error.value)) < 180
                )
            for value, text in (
                ({"a": {1, object()}}, r'input\["a"\]: object is not JSON'),
                ([0.0, float("nan")], r"input\[1\]: NaN"),
            ):
                with pytest.raises(sagas.NotSerializable, match=text):
                    await store.start(saga, "k", value)

    run(main())


@dataclasses.dataclass
class Line:
    """A part of an input."""

    item: str
    count: int = 1


@dataclasses.dataclass
class Order:
    """The input of the first step."""

    amount: int
    lines: list[Line] = dataclasses.field(default_factory=list)


@pytest.mark.parametrize(
    "value, text",
    [
        (None, "input: Order requires an object$"),
        ({}, "input: missing 'amount', which Order requires$"),
        (
            {"amuont": 4},
            "input: missing 'amount', which Order requires; it has 'amuont', which Order does not",
        ),
        (
            {"amount": 4, "lines": [{"item": "a"}, {"count": 2}]},
            r"input\.lines\[1\]: missing 'item', which Line requires$",
        ),
    ],
)
def test_an_input_that_the_first_step_cannot_read(location: str, value: Any, text: str) -> None:
    """The error has its location, and no saga is started; an existing saga is found by its key
    anyway.
    """
    loose, strict = sagas.Saga("order"), sagas.Saga("order")
    loose.step(name="charge")(lambda task: None)

    @strict.step
    def charge(task: sagas.Task[Order]) -> int:
        return task.input.amount

    async def main() -> None:
        async with sagas.open(location, [loose]) as store:
            assert (await ended(store, loose, "old", value)).ok
        async with sagas.open(location, [strict]) as store:
            with pytest.raises(sagas.InvalidInput, match=f"saga 'order', step 'charge': {text}"):
                await store.start(strict, "new", value)
            assert await store.get("new") is None and (await ended(store, strict, "old", value)).ok
            for well in (Order(4), {"amount": 4, "more": 1}):
                assert (await ended(store, strict, f"well-{type(well)}", well)).results == {
                    "charge": 4
                }

    run(main())
    with pytest.raises(sagas.InvalidInput, match=text):
        sagas.testing.run(strict, value)


def test_results(location: str) -> None:
    """`task.results` are of all steps that a step needs, directly or not; `end.results` of the
    steps that are kept.
    """
    saga = row()

    async def main() -> None:
        async with sagas.open(location, [saga]) as store:
            assert (await ended(store, saga, "good")).results == {
                "a": "A",
                "b": "AB",
                "c": {"a": "A", "b": "AB"},
            }
            end = await ended(store, saga, "bad", "fails")
            assert (
                end.results == {}
                and end.states == {"a": "undone", "b": "undone", "c": "failed"}
                and end.cost == 0
            )

    run(main())


# -- aborts and held steps


def test_abort(location: str) -> None:
    """No step starts any more; running ones end, and the plan says which are undone.

    False if it is over or was aborted.
    """
    gate = asyncio.Event()
    saga = row(gate)

    async def main() -> None:
        async with sagas.open(location, [saga]) as store:
            going = await store.start(saga, key="k")
            assert await going.abort() is True and await going.abort() is False
            gate.set()
            end = await going.wait()
            assert (
                end.aborted
                and end.phase == "recovered"
                and end.states == {"a": "undone", "b": "waiting", "c": "waiting"}
            )
            assert await going.abort() is False
            at_once = asyncio.create_task(store.start(saga, key="new"))
            await asyncio.sleep(0)
            assert await store.abort("new") is True  # it has no number yet
            assert (await (await at_once).wait()).aborted
            with pytest.raises(sagas.NoSuchSaga):
                await store.abort("none")

    run(main())


@pytest.mark.parametrize("error", [sagas.Retry, TimeoutError], ids=["backoff", "unknown"])
def test_a_held_step_takes_no_slot_and_keeps_nothing_from_draining(
    location: str, error: type[Exception]
) -> None:
    """While a step waits an hour for its next try, or is called again then, another saga runs at
    concurrency 1; an abort does not wait for it.
    """
    calls: list[str] = []

    def fails(task: Task) -> int:
        calls.append(task.key)
        if calls == ["slow"]:
            raise error("later")
        return 1

    saga = simple(fails, tries=3, backoff=HOUR)

    async def main() -> None:
        async with sagas.open(location, [saga], concurrency=1) as store:
            slow = await store.start(saga, key="slow", input=1)

            async def is_held() -> bool:
                missed = any(event.event == "missed" for event in await slow.log())
                return missed or bool(await unknown_attempts(store))

            await until(is_held)
            assert (await ended(store, saga, "quick")).ok
            assert await slow.abort()
            end = await slow.wait()
            assert (
                end.aborted
                and end.phase == "recovered"
                and calls == ["slow", "quick"] + ["slow"] * (error is TimeoutError)
            )

    run(main())


def test_functions_know_nothing_of_each_other(location: str) -> None:
    """Whether they wait or not: each has the context in which the store was opened, and a task,
    which it may even cancel at its end.
    """
    var = contextvars.ContextVar("var", default="opened")
    saga = sagas.Saga("row")

    @saga.step
    async def a(task: Task) -> str:
        was, number = var.get(), int(task.key)
        var.set(task.key)
        async with asyncio.timeout(60):
            if number % 3 == 0:
                await asyncio.sleep(0.001)
        current = asyncio.current_task()
        assert current and var.get() == task.key
        if number % 5 == 0:
            current.cancel()
        return was

    @saga.step(needs=[a])
    async def b(task: Task) -> None:
        with pytest.raises(TimeoutError):
            async with asyncio.timeout(0.001):
                await asyncio.sleep(60)

    async def main() -> None:
        async with sagas.open(location, [saga]) as store:
            var.set("started")
            ends = await asyncio.gather(*(ended(store, saga, str(number)) for number in range(30)))
            assert all(end.ok and end.results["a"] == "opened" for end in ends)

    run(main())


def test_no_more_than_its_concurrency(location: str) -> None:
    """Over all steps and sagas, in the loop and in threads; and all its slots are used."""
    inside, highest = set[str](), 0
    gate = threading.Event()
    first, other = sagas.Saga("one"), sagas.Saga("other")

    def enter(task: Task) -> None:
        nonlocal highest
        inside.add(task.key)
        highest = max(highest, len(inside))

    @first.step
    async def a(task: Task) -> None:
        enter(task)
        while not gate.is_set():
            await asyncio.sleep(0.005)
        inside.discard(task.key)

    @other.step
    def b(task: Task) -> None:
        enter(task)
        gate.wait()
        inside.discard(task.key)

    async def main() -> None:
        async with sagas.open(location, [first, other], concurrency=3) as store:
            work = [
                asyncio.create_task(ended(store, (first, other)[number % 2], f"k{number}"))
                for number in range(12)
            ]
            await until(lambda: len(inside) == 3)
            await asyncio.sleep(0.1)  # a fourth would be here by now
            gate.set()
            assert all(end.ok for end in await asyncio.gather(*work))

    run(main())
    assert highest == 3


def test_a_limit_does_not_delay_other_steps(location: str) -> None:
    """At most two of the slow step run at once, over all sagas; the quick ones run past them."""
    running, highest, gate = Counter[str](), Counter[str](), asyncio.Event()
    slow, quick = sagas.Saga("slow"), sagas.Saga("quick")

    @slow.step(concurrency=2)
    async def a(task: Task) -> None:
        running["a"] += 1
        highest["a"] = max(highest["a"], running["a"])
        await gate.wait()
        running["a"] -= 1

    @quick.step
    async def b(task: Task) -> None:
        ...

    async def main() -> None:
        async with sagas.open(location, [slow, quick], concurrency=8) as store:
            held = [await store.start(slow, key=f"s{number}") for number in range(6)]
            await asyncio.gather(*(ended(store, quick, f"q{number}") for number in range(20)))
            assert running["a"] == 2
            gate.set()
            await asyncio.gather(*(wait.wait() for wait in held))

    run(main())
    assert highest["a"] == 2


# -- waits, approvals, external work


@pytest.mark.parametrize("how", ["timedelta", "datetime", "function"])
def test_wait(location: str, how: str) -> None:
    """Its function is called when the time has come, and not before."""
    soon = datetime.timedelta(seconds=0.3)
    at = datetime.datetime.now(datetime.timezone.utc) + soon
    times = {
        "timedelta": soon,
        "datetime": at,
        "function": lambda task: datetime.timedelta(seconds=task.input),
    }
    saga = sagas.Saga("late")

    @saga.wait(until=times[how])  # type: ignore[arg-type]
    def wait(task: Task) -> float:
        return time.time()

    async def main() -> None:
        async with sagas.open(location, [saga]) as store:
            began = time.time()
            end = await ended(store, saga, value=0.3)
            assert (
                end.results["wait"] >= (at.timestamp() if how == "datetime" else began + 0.3) - 0.01
            )

    run(main())


def test_a_wait_without_a_time(location: str) -> None:
    """Its attempt waits as a bug of the program, and the next program computes the time again."""
    computed: list[str] = []
    times: list[float] = []
    called: list[float] = []
    saga, fixed = sagas.Saga("late"), asyncio.Event()

    def when(task: Task) -> Any:
        computed.append(task.key)
        if task.key == "never" or not fixed.is_set():
            return task.input
        times.append(time.time())
        return datetime.timedelta(seconds=0.2)

    @saga.wait(until=when)
    def wait(task: Task) -> None:
        called.append(time.time())

    async def needing(store: sagas.Store) -> list[str]:
        entries = await store.attention()
        assert all(entry.why == "program_error" for entry in entries)
        return sorted(entry.key for entry in entries)

    async def is_needing(store: sagas.Store, *keys: str) -> bool:
        return await needing(store) == [*keys]

    async def first() -> None:
        async with sagas.open(location, [saga]) as store:
            await store.start(saga, "never", "2030-01-01T00:00:00+00:00")
            await store.start(saga, "later")
            await until(lambda: is_needing(store, "later", "never"))

    async def second() -> None:
        fixed.set()
        async with sagas.open(location, [saga]) as store:
            assert (await store.wait("later")).ok
            await until(lambda: computed.count("never") == 2)
            await until(lambda: is_needing(store, "never"))

    run(first())
    run(second())
    assert len(called) == 1 and called[0] >= times[0] + 0.19


def test_a_wait_does_not_repeat_after_its_time(location: str) -> None:
    """The outcome of its function was unknown, then it failed, and then another program recovered
    it: it is called, and does not wait again.
    """
    computed: list[int] = []
    calls: list[int] = []
    saga = sagas.Saga("late")

    def when(task: Task) -> datetime.timedelta:
        computed.append(task.attempt)
        return datetime.timedelta(seconds=0.05 if len(computed) == 1 else 3600)

    @saga.wait(until=when, backoff=sagas.Backoff(initial=0.2, maximum=0.2))
    def wait(task: Task) -> int:
        calls.append(task.attempt)
        if len(calls) < 3:
            raise sagas.Unknown("?") if len(calls) == 1 else sagas.Retry("no")
        return 1

    async def first() -> None:
        async with sagas.open(location, [saga]) as store:
            await store.start(saga, "k")
            await until(lambda: len(calls) == 2)

    async def second() -> None:
        async with sagas.open(location, [saga]) as store:
            assert (await store.wait("k")).ok
            assert held(location) == []

    run(first())
    run(second())
    assert computed == [1] and calls == [1, 1, 2]


@pytest.mark.parametrize("how", ["undone", "permanently"])
def test_a_saga_that_is_over_waits_for_nothing(location: str, how: str) -> None:
    """The stored row of its wait is gone: its saga was undone in the meantime, or its function
    failed, and the remaining tries were given up.
    """
    saga = sagas.Saga("late")

    @saga.wait(until=datetime.timedelta(seconds=0 if how == "permanently" else 3600))
    def wait(task: Task) -> None:
        raise sagas.Fail("no")

    @saga.step(tries=2, backoff=QUICK)
    def fails(task: Task) -> None:
        if how == "undone":
            raise sagas.Retry("no")

    async def main() -> None:
        async with sagas.open(location, [saga]) as store:
            assert (await ended(store, saga)).states["wait"] == (
                "failed" if how == "permanently" else "waiting"
            )
            assert held(location) == []

    run(main())


@pytest.mark.parametrize("answer", ["yes", "no", "nothing"])
def test_approval(location: str, answer: str) -> None:
    """An operator, or another program, reports success or failure; without a report in time it has
    failed. It outlives the program.
    """
    keys: list[str] = []
    saga = sagas.Saga("signed")

    @saga.approval(timeout=datetime.timedelta(seconds=0.2) if answer == "nothing" else None)
    def sign(task: Task) -> None:
        keys.append(task.key)

    @saga.step(needs=[sign])
    def go(task: Task) -> Any:
        return task.result_of(sign)

    async def first() -> None:
        async with sagas.open(location, [saga]) as store:
            await store.start(saga, key="k")
            await until(lambda: keys)
            with pytest.raises(sagas.StepNotWaiting):
                await store.complete("k", go, 1)

    async def second() -> sagas.SagaResult:
        async with sagas.open(location, [saga]) as store:
            if answer == "yes":
                await store.complete("k", sign, {"by": "Ada"})
            elif answer == "no":
                await store.fail("k", sign, "too expensive")
            return await store.wait("k")

    run(first())
    end = run(second())
    assert keys == ["k"]
    assert end.results == ({"sign": {"by": "Ada"}, "go": {"by": "Ada"}} if answer == "yes" else {})
    assert end.states["sign"] == ("committed" if answer == "yes" else "failed")


def test_an_answer_that_comes_at_once(location: str) -> None:
    """The caller answers before the function that asked has returned: the answer is not lost."""
    saga = sagas.Saga("signed")
    answers: list[asyncio.Task[None]] = []

    async def asks(task: Task) -> None:
        answers.append(asyncio.create_task(stores[0].complete(task.key, "sign", "at once")))
        await asyncio.sleep(0.05)

    saga.approval(name="sign")(asks)
    stores: list[sagas.Store] = []

    async def case() -> None:
        async with sagas.open(location, [saga]) as store:
            stores.append(store)
            assert (await ended(store, saga)).results == {"sign": "at once"}
            await answers[0]

    run(case())


def test_a_step_that_is_done_elsewhere(location: str) -> None:
    """`external=True`: it has no function here; an external worker reports, for the compensation
    too.
    """
    saga = sagas.Saga("far")
    print_it = saga.step(external=True, name="print")
    print_it.compensation(external=True)

    @saga.step(needs=[print_it])
    def check(task: Task) -> None:
        raise sagas.Fail(f"{task.result_of(print_it)} is torn")

    async def finish(store: sagas.Store, **options: Any) -> None:
        while True:
            try:
                return await store.complete("k", print_it, **options)
            except sagas.StepNotWaiting:
                await asyncio.sleep(0.01)

    async def main() -> sagas.SagaResult:
        async with sagas.open(location, [saga]) as store:
            going = await store.start(saga, key="k")
            await finish(store, result="page 1")
            await finish(store, undo=True)
            return await going.wait()

    assert run(main()).states == {"print": "undone", "check": "failed"}


def test_a_compensation_with_an_unknown_outcome(location: str) -> None:
    """An operator reports its outcome, by `undo=True`; without that the call is an error."""
    saga = sagas.Saga("row")

    @saga.step
    async def a(task: Task) -> int:
        return 1

    @a.compensation(max_unknown=1)
    async def not_a(task: Task) -> None:
        raise sagas.Unknown("was it undone?")

    @saga.step(needs=[a])
    async def b(task: Task) -> None:
        raise sagas.Fail("no")

    async def main() -> sagas.SagaResult:
        async with sagas.open(location, [saga]) as store:
            going = await store.start(saga, key="k")
            await until(lambda: attempts_to_report(store))
            with pytest.raises(TimeoutError, match="with undo=True"):
                await going.wait(timeout=0.01)
            with pytest.raises(sagas.StepNotWaiting, match="undo=True"):
                await going.complete(a)
            await going.complete(a, undo=True)
            return await going.wait()

    assert run(main()).states == {"a": "undone", "b": "failed"}


# -- logs and definitions


def test_full_logs_are_audited_and_closed(location: str, monkeypatch: pytest.MonkeyPatch) -> None:
    """New sagas go to the newest log until it is full; a finished one is audited once and marked
    closed, and then never again.
    """
    monkeypatch.setattr("sagas.definition.registry.SHARD_CAPACITY", 15)
    saga, right, audits = row(), program.run, Counter[str]()

    def counting(
        command: str, texts: Sequence[str], sagas_file: str | None = None
    ) -> subprocess.CompletedProcess[str]:
        if command == "audit":
            audits[texts[0]] += 1
        return right(command, texts, sagas_file)

    monkeypatch.setattr("sagas.base.program.run", counting)

    async def again() -> None:
        async with sagas.open(location, [saga]) as store:
            assert (await ended(store, saga, "again")).ok

    async def main() -> None:
        async with sagas.open(location, [saga]) as store:
            await asyncio.gather(
                *(
                    ended(store, saga, f"k{number}", "fails" if number % 3 else None)
                    for number in range(120)
                )
            )
            path = location
            await until(
                lambda: sum(log.closed for log in records.read(path).logs.values())
                >= len(records.read(path).logs) - 1
            )

    run(main())
    closed = [
        HEADER + "".join(text for _, text in log.chunks)
        for log in records.read(location).logs.values()
        if log.closed
    ]
    run(again())
    assert [audits[text] for text in closed] == [1] * len(closed)
    kept = records.read(location)
    assert len(kept.logs) > 3 and len(kept.sagas) == 121


def test_definitions_change(location: str) -> None:
    """Open sagas continue by their original definition; new ones start a new log; the old one is
    closed once it is finished.
    """
    gates = [asyncio.Event(), asyncio.Event()]

    def version(number: int) -> sagas.Saga:
        saga = sagas.Saga("trip")

        @saga.step
        async def a(task: Task) -> int:
            await gates[number].wait()
            return number

        if number:

            @saga.step(needs=[a])
            async def b(task: Task) -> int:
                return 2

        return saga

    async def first(saga: sagas.Saga) -> None:
        async with sagas.open(location, [saga], shutdown_timeout=0.0) as store:
            await store.start(saga, key="old")

    async def second(saga: sagas.Saga) -> None:
        gates[1].set()
        async with sagas.open(location, [saga]) as store:
            assert (await store.wait("old")).results == {"a": 1}
            assert (await ended(store, saga, "new")).results == {"a": 1, "b": 2}
            await until(lambda: records.read(location).logs[0].closed)

    run(first(version(0)))
    run(second(version(1)))
    assert len(records.read(location).logs) == 2


def test_functions_and_times_change_at_any_start(location: str) -> None:
    """Another function, timeout and back-off of a step, and another order of the sagas: it is the
    same log, and open sagas continue with them.
    """
    tokens: list[str] = []

    def kinds(number: int) -> list[sagas.Saga]:
        first, second = sagas.Saga("first"), sagas.Saga("second")

        @first.step(
            name="a",
            tries=2,
            timeout=60.0 if number else None,
            backoff=sagas.Backoff(initial=number),
            concurrency=number or None,
        )
        async def a(task: Task) -> int:
            tokens.append(task.attempt_id)
            if number == 0:
                await asyncio.sleep(3600)
            return number

        second.step(name="b")(lambda task: number)
        return [second, first] if number else [first, second]

    async def begin(old: list[sagas.Saga]) -> None:
        async with sagas.open(location, old, shutdown_timeout=0.0) as store:
            await store.start(old[0], "k")
            await until(lambda: tokens)

    async def go_on(new: list[sagas.Saga]) -> None:
        async with sagas.open(location, new) as store:
            assert (await store.wait("k")).results == {"a": 1}
            assert (await ended(store, new[0], "new")).results == {"b": 1}

    run(begin(kinds(0)))
    run(go_on(kinds(1)))
    (texts,) = {tuple(log.texts) for log in records.read(location).logs.values()}
    assert len(tokens) == 2 and len(set(tokens)) == 1 and len(texts) == 2


def test_versions(location: str) -> None:
    """A definition's meaning changes by a version: both are passed to open, and each saga continues
    by its own.
    """
    gate = asyncio.Event()

    def version(number: int) -> sagas.Saga:
        saga = sagas.Saga("trip", version=number)

        @saga.step
        async def a(task: Task) -> int:
            await gate.wait()
            return number

        return saga

    old, new = version(1), version(2)

    async def first() -> None:
        async with sagas.open(location, [old], shutdown_timeout=0.0) as store:
            await store.start(old, key="old")

    async def second() -> None:
        gate.set()
        async with sagas.open(location, [old, new]) as store:
            assert (await store.wait("old")).results == {"a": 1}
            assert (await ended(store, new, "new")).results == {"a": 2}

    run(first())
    run(second())


def test_a_removed_function(location: str) -> None:
    """Opening is an error that names the step; the older program finishes it with accept_new=False,
    and takes no new sagas.
    """
    gate = asyncio.Event()
    old, new = sagas.Saga("trip"), sagas.Saga("trip")

    @old.step
    async def a(task: Task) -> None:
        await gate.wait()

    @new.step
    async def b(task: Task) -> None:
        ...

    async def first() -> None:
        async with sagas.open(location, [old], shutdown_timeout=0.0) as store:
            await store.start(old, key="k")
        # another node may have it: this one leaves the saga alone
        if location.startswith("postgresql:"):
            async with sagas.open(location, [new]) as store:
                assert (await store.list(phase="open"))[0].key == "k"
            return
        listed = r"; open sagas: 1; `sagas store .* list --phase open` lists them"
        with pytest.raises(sagas.MissingStep, match=f"'a'.*{listed}"):
            async with sagas.open(location, [new]):
                pass
        with pytest.raises(sagas.MissingStep, match="'trip' .* not open the store with that saga"):
            async with sagas.open(location, [row()]):
                pass

    async def second() -> None:
        gate.set()
        async with sagas.open(location, [old], accept_new=False) as store:
            with pytest.raises(sagas.SagasError):
                await store.start(old, key="another")
            await store.wait_idle()
        async with sagas.open(location, [new]) as store:
            assert (await ended(store, new, "new")).ok

    run(first())
    run(second())


def test_a_removed_compensation(tmp_path: pathlib.Path) -> None:
    """If it may still be called, opening is an error that names its step."""
    old, new = sagas.Saga("trip"), sagas.Saga("trip")

    async def a(task: Task) -> None:
        await asyncio.sleep(3600)

    old.step(a).compensation(lambda task: None)
    new.step(a)

    async def main() -> None:
        async with sagas.open(tmp_path / "store.db", [old], shutdown_timeout=0.0) as store:
            await store.start(old, key="k")
        with pytest.raises(sagas.MissingStep, match="step 'a' has no compensation"):
            async with sagas.open(tmp_path / "store.db", [new], shutdown_timeout=0.0):
                pass

    run(main())


def test_a_log_with_waiting_sagas_frees_its_engine(location: str) -> None:
    """It is started again when one is due."""
    saga = sagas.Saga("late")

    @saga.wait(until=datetime.timedelta(seconds=1.5))
    def wait(task: Task) -> int:
        return 1

    others = set(children(os.getpid()))  # servers that other tests use

    async def main() -> None:
        async with sagas.open(location, [saga], settings=sagas.Settings(idle=0.1)) as store:
            going = await store.start(saga, key="k")
            assert len(set(children(os.getpid())) - others) == 1
            await until(lambda: not set(children(os.getpid())) - others)
            assert (await going.wait()).results == {"wait": 1}

    run(main())


def lives(pid: int) -> bool:
    """Return whether a process is neither dead nor killed and about to be."""
    try:
        status = dict(
            line.split(":\t", 1)
            for line in pathlib.Path(f"/proc/{pid}/status").read_text().splitlines()
            if ":\t" in line
        )
    except OSError:
        return False
    return status["State"][0] not in "ZX" and not int(status["ShdPnd"], 16) & 1 << 8


def test_few_children_for_many_logs(location: str, monkeypatch: pytest.MonkeyPatch) -> None:
    """Sagas in many logs share two engines, also after a restart."""
    monkeypatch.setattr("sagas.definition.registry.SHARD_CAPACITY", 7)
    gate, highest = asyncio.Event(), 0
    saga = row(gate)
    others = set(children(os.getpid()))  # servers that other tests use

    def look() -> None:
        nonlocal highest
        highest = max(highest, sum(map(lives, set(children(os.getpid())) - others)))

    async def watched(work: Any) -> Any:
        task = asyncio.ensure_future(work)
        while not task.done():
            look()
            await asyncio.wait([task], timeout=0.005)
        return await task

    async def first() -> None:
        async with sagas.open(
            location, [saga], settings=sagas.Settings(engine_processes=2), shutdown_timeout=0.0
        ) as store:
            await watched(
                asyncio.gather(*(store.start(saga, key=f"k{number}") for number in range(60)))
            )

    async def second() -> None:
        gate.set()
        async with sagas.open(
            location, [saga], settings=sagas.Settings(engine_processes=2)
        ) as store:
            ends = await watched(
                asyncio.gather(*(store.wait(f"k{number}") for number in range(60)))
            )
            assert all(end.ok for end in ends)

    run(first())
    assert len(records.read(location).logs) > 4
    run(second())
    assert 1 <= highest <= 3  # two that drive, and one that audits


def test_one_slot_for_many_logs(location: str, monkeypatch: pytest.MonkeyPatch) -> None:
    """Logs that find no slot are served when one is released unused, too: nothing hangs."""
    monkeypatch.setattr("sagas.definition.registry.SHARD_CAPACITY", 4)
    saga = sagas.Saga("pair")

    @saga.step
    async def a(task: Task) -> int:
        return 1

    @saga.step(needs=[a])
    async def b(task: Task) -> int:
        return 2

    async def main() -> None:
        async with sagas.open(
            location, [saga], concurrency=1, settings=sagas.Settings(engine_processes=2)
        ) as store:
            for turn in range(6):
                ends = await asyncio.gather(
                    *(ended(store, saga, f"k{turn}-{number}") for number in range(30))
                )
                assert all(end.ok for end in ends)

    run(main())


# -- writes


@contextlib.contextmanager
def locked(location: str) -> Iterator[None]:
    """Lock the store's lines against writes."""
    if location.startswith("postgresql:"):
        with psycopg.connect(location) as link:
            link.execute("LOCK TABLE sagas.event_log IN EXCLUSIVE MODE")
            yield
    else:
        with contextlib.closing(sqlite3.connect(location, isolation_level=None)) as db:
            db.execute("BEGIN IMMEDIATE")
            yield


def test_one_transaction_takes_what_all_logs_have(
    location: str, monkeypatch: pytest.MonkeyPatch
) -> None:
    """Steps end in eight logs while a commit is in progress: one more holds all of it."""
    monkeypatch.setattr("sagas.definition.registry.SHARD_CAPACITY", 2)
    gate, far = asyncio.Event(), sagas.Saga("far")
    far.step(external=True, name="b")  # it stays open, so that no log is closed in the meantime
    calls: list[str] = []

    async def a(task: Task) -> None:
        calls.append(task.key)
        await gate.wait()

    saga = simple(a)

    async def main() -> None:
        async with sagas.open(location, [saga, far]) as store:
            runs = []
            for number in range(8):
                await store.start(far, f"far-{number}")
                runs.append(await store.start(saga, f"k{number}"))
            await until(lambda: len(calls) == 8)
            assert store._coordinator
            runners = store._coordinator.shards.runners.values()
            await until(
                lambda: len(runners) == 8
                and not any(runner.driver.commits_in_flight for runner in runners)
            )
            before = store._commits
            with locked(location):
                gate.set()
                await until(lambda: all(runner.driver.commits_in_flight for runner in runners))
            assert all(end.ok for end in await asyncio.gather(*(run.wait() for run in runs)))
            assert store._commits - before <= 2

    run(main())


def test_a_file_is_synced_at_each_commit(tmp_path: pathlib.Path) -> None:
    """It has a WAL, and each commit is on the disk before any acknowledgement."""
    saga = simple(lambda task: 1)

    async def main() -> None:
        async with sagas.open(tmp_path / "store.db", [saga]) as store:
            assert (await ended(store, saga)).ok
            inside: Any = store._coordinator
            assert inside.store._db.execute("PRAGMA journal_mode").fetchone() == ("wal",)
            assert inside.store._db.execute("PRAGMA synchronous").fetchone() == (2,)  # FULL

    run(main())


@pytest.mark.parametrize("at_once", [0.0, 60.0])
def test_commits_in_the_loop_and_in_the_thread(
    tmp_path: pathlib.Path, monkeypatch: pytest.MonkeyPatch, at_once: float
) -> None:
    """All commits are made in the thread, or most of them at their requests: the same is
    stored, and the WAL is moved into the file now and then.
    """
    monkeypatch.setattr(writer_module, "AT_ONCE", at_once)
    saga, highest = row(), 0

    async def main() -> None:
        nonlocal highest
        async with sagas.open(tmp_path / "store.db", [saga], concurrency=600) as store:
            ends = await asyncio.gather(
                *(
                    ended(store, saga, f"k{number}")
                    for number in range(2 * protocol.MAX_REPORTS + 100)
                )
            )
            for number in range(400):
                ends.append(await ended(store, saga, f"one-{number}"))
                highest = max(highest, (tmp_path / "store.db-wal").stat().st_size)
            assert all(end.ok for end in ends)
            assert all(verdict.startswith("yes") for verdict in (await store.audit()).values())

    run(main())
    assert highest < 16 << 20


@pytest.mark.parametrize("wait", [0, 50])
def test_answers_that_are_waited_for_and_others(
    location: str, monkeypatch: pytest.MonkeyPatch, wait: int
) -> None:
    """A reply that does not come in time comes by the loop, and for a while none is waited for."""
    monkeypatch.setattr(process, "WAIT", wait)
    monkeypatch.setattr(process, "AGAIN", 3)
    saga = row()

    async def main() -> None:
        async with sagas.open(location, [saga]) as store:
            for number in range(12):
                value = "fails" if number % 4 == 3 else None
                end = await ended(store, saga, f"k{number}", value)
                assert (
                    end.ok == (value is None)
                    and not (await store.start(saga, f"k{number}", value)).new
                )
            ends = await asyncio.gather(
                *(ended(store, saga, f"more-{number}") for number in range(40))
            )
            assert all(end.ok for end in ends)
            assert all(verdict.startswith("yes") for verdict in (await store.audit()).values())

    run(main())


@dataclasses.dataclass
class Popped:
    """A type that changes the value that it is made of."""

    data: dict[str, Any]

    def __post_init__(self) -> None:
        self.kind = self.data.pop("kind")


def test_each_type_is_tried_with_an_input_of_its_own(location: str) -> None:
    """Two first steps read the same type, which changes its argument: neither sees the other's
    changes.
    """
    saga = sagas.Saga("two")

    @saga.step
    async def a(task: sagas.Task[Popped]) -> str:
        return str(task.input.kind)

    @saga.step
    async def b(task: sagas.Task[Popped]) -> str:
        return str(task.input.kind)

    @saga.step
    async def c(task: sagas.Task[dict[str, Any]]) -> int:
        return len(task.input)

    async def main() -> None:
        async with sagas.open(location, [saga]) as store:
            assert (await ended(store, saga, value={"data": {"kind": "x"}})).results == {
                "a": "x",
                "b": "x",
                "c": 1,
            }

    run(main())


def test_a_late_reply_locks_no_rows(tmp_path: pathlib.Path) -> None:
    """An engine does not respond: other programs write the file in the meantime."""
    path, saga = str(tmp_path / "store.db"), row()
    others = set(children(os.getpid()))

    async def main() -> None:
        async with sagas.open(path, [saga]) as store:
            assert (await ended(store, saga)).ok
            (pid,) = set(children(os.getpid())) - others
            os.kill(pid, signal.SIGSTOP)
            going = asyncio.ensure_future(ended(store, saga, "late"))
            assert store._coordinator
            (runner,) = store._coordinator.shards.runners.values()
            await until(lambda: runner.engine and runner.engine.unanswered)
            with contextlib.closing(sqlite3.connect(path, timeout=0)) as db:
                db.execute("BEGIN IMMEDIATE")
                assert db.execute("SELECT count(*) FROM sagas").fetchone() == (1,)
            os.kill(pid, signal.SIGCONT)
            assert (await going).ok

    run(main())


@pytest.mark.parametrize("turn", [0.0, calls_module.TURN])
def test_steps_give_the_loop_a_turn(
    location: str, monkeypatch: pytest.MonkeyPatch, turn: float
) -> None:
    """Commits and replies may come at once: other work of the loop has its turn after `TURN`, and
    is not delayed by a saga of many steps.
    """
    monkeypatch.setattr(calls_module, "TURN", turn)
    saga, turns, seen = sagas.Saga("long"), 0, []
    for number in range(30):

        async def step(task: Task) -> None:
            seen.append(turns)

        saga.step(name=f"s{number}", needs=saga.steps[-1:])(step)

    async def main() -> None:
        nonlocal turns
        async with sagas.open(location, [saga]) as store:
            going = asyncio.ensure_future(ended(store, saga))
            while not going.done():
                turns += 1
                await asyncio.sleep(0)
            assert going.result().ok

    run(main())
    assert len(set(seen)) == 30 if turn == 0.0 else len(set(seen)) > 1


def test_tasks_of_a_reply() -> None:
    """They are read without a parser, unless there is a plan among them."""
    run_line = '{"attempt":1,"name":"hotel","saga":0,"step":1,"task":"run"}'
    undo_line = '{"attempt":12,"name":"a-b_c","saga":999,"step":65535,"task":"undo"}'
    plan = '{"answer":{"cost":1,"kept":[],"kind":"plan"},"phase":"going","saga":0,"task":"plan"}'
    expected = [(0, 1, "run", 1), (999, 65535, "undo", 12)]
    assert protocol.tasks_in(f'{{"tasks":[{run_line}]}}') == expected[:1]
    assert protocol.tasks_in(f'{{"tasks":[{run_line},{undo_line}]}}') == expected
    assert protocol.tasks_in('{"settled":true,"tasks":[]}') == []
    assert protocol.tasks_in(f'{{"settled":false,"tasks":[{undo_line}]}}') == expected[1:]
    for other in (
        f'{{"tasks":[{run_line},{plan}]}}',
        f'{{"tasks":[{plan}]}}',
    ):
        assert protocol.tasks_in(other) is None


def test_a_commit_in_the_loop_does_not_block(
    tmp_path: pathlib.Path, monkeypatch: pytest.MonkeyPatch
) -> None:
    """While another program writes the file, the loop continues, and the commit is made when that
    is over.
    """
    monkeypatch.setattr(writer_module, "AT_ONCE", 60.0)
    saga = simple(lambda task: 1)

    async def main() -> None:
        async with sagas.open(tmp_path / "store.db", [saga]) as store:
            for number in range(3):
                await ended(store, saga, f"k{number}")
            with locked(str(tmp_path / "store.db")):
                going = asyncio.ensure_future(ended(store, saga, "more"))
                before = time.perf_counter()
                done, _ = await asyncio.wait([going], timeout=0.3)
                assert not done and time.perf_counter() - before < 30
            assert (await going).ok

    run(main())


TEXTS = [
    "'; DROP TABLE sagas; --",
    '"',
    "%",
    "%s %(key)s",
    "{rows}",
    "{}",
    "\\",
    "?",
    "$1",
    ":a",
    "é💩",
]
ODD = "\0\ud800'; DROP TABLE sagas; --"


def test_texts_are_no_statements(location: str, caplog: pytest.LogCaptureFixture) -> None:
    """Keys, inputs, results, exceptions and notes have text that a database could take for
    something else.
    """
    caplog.set_level(logging.CRITICAL, "sagas")  # the tests' runner takes no halves of pairs
    saga, hazy, must = sagas.Saga("plain"), sagas.Saga("hazy"), sagas.Saga("must")

    @saga.step
    async def a(task: Task) -> Any:
        return task.input

    @hazy.step(max_unknown=1)
    async def b(task: Task) -> None:
        raise sagas.Unknown(task.input)

    @must.step(skip=sagas.NEVER)
    async def c(task: Task) -> None:
        raise sagas.Fail(task.input)

    async def main() -> None:
        async with sagas.open(location, [saga, hazy, must]) as store:
            for text in TEXTS:
                assert (await ended(store, saga, text, {text: ODD})).results == {"a": {text: ODD}}
                with pytest.raises(sagas.KeyConflict):
                    await store.start(saga, text, ODD)
                events = await store.log(text)
                assert await store.list(saga=text) == []
                assert [event.value for event in events if event.event == "commit"] == [{text: ODD}]
            assert [summary.key for summary in await store.list()] == TEXTS
            await store.start(hazy, "hazy", ODD)
            (held,) = await until(lambda: unknown_attempts(store))
            assert "DROP TABLE" in str(held)
            await store.complete("hazy", "b", ODD, by=ODD, note=ODD)
            assert (await store.wait("hazy")).results == {"b": ODD}
            assert (await ended(store, must, "must", ODD)).errors == {"c": f"sagas.Fail: {ODD}"}
            await store.resolve("must", ODD)
            assert [summary.key for summary in await store.list(phase="resolved")] == ["must"]

    run(main())
    assert set(records.read(location).sagas) == {*TEXTS, "hazy", "must"}


# -- reads


def test_questions(location: str) -> None:
    """get, list, stuck, resolve, log, audit and draw."""
    good, bad = row(), sagas.Saga("must")

    @bad.step(skip=sagas.NEVER)
    def must(task: Task) -> None:
        raise sagas.Fail("never")

    async def main() -> None:
        async with sagas.open(location, [good, bad]) as store:
            for number in range(5):
                await ended(store, good, f"g{number}", "fails" if number == 1 else None)
            end = await ended(store, bad, "b")
            assert end.phase == "stuck" and end.blocking_steps == ["must"]
            assert await store.get("none") is None and await store.get("b") is not None
            listed = await store.list(phase="completed", saga=good)
            assert [summary.key for summary in listed] == ["g0", "g2", "g3", "g4"]
            (planned,) = await store.list(phase="recovered")
            assert (planned.key, planned.phase) == ("g1", "recovered")
            assert [summary.phase == "recovered" for summary in await store.list()] == [
                False,
                True,
            ] + [False] * 4
            page = await store.list(limit=2)
            assert [summary.key for summary in await store.list(limit=2, after=page[-1].id)] == [
                "g2",
                "g3",
            ]
            wrong: list[Any] = [{"after": "g1"}, {"limit": "all"}, {"limit": 0}, {"phase": "over"}]
            for options in wrong:
                with pytest.raises((TypeError, ValueError), match=f"{[*options][0]}="):
                    await store.list(**options)
            assert await stuck_keys(store) == ["b"]
            for note in ("", " ", None):
                with pytest.raises((TypeError, ValueError), match="what was done about it"):
                    await store.resolve("b", note)  # type: ignore[arg-type]
            with pytest.raises(TypeError, match="why it failed"):
                await store.fail("b", "a", 5)  # type: ignore[arg-type]
            await store.resolve("b", "seen to")
            (resolved,) = await store.list(phase="resolved")
            assert await stuck_keys(store) == [] and resolved.note == "seen to"
            events = await store.log("g1")
            options = [event.event for event in events]
            assert (
                options[:2] == ["open", "start_run"]
                and options.count("undone") == 2
                and "adopt" in options
            )
            assert [event.value for event in events if event.event == "commit"] == ["A", "AB"]
            assert all(0 <= time.time() - event.at < 60 for event in events)
            assert list((await store.audit()).values())[0].startswith("yes sagas 6 ended 5 stuck 1")
            assert (await store.draw("g1")).startswith("digraph")

    run(main())


def test_events_and_logging(location: str, caplog: pytest.LogCaptureFixture) -> None:
    """Hooks for metrics and traces, and structured logging under `sagas`; a hook that raises stops
    no saga.
    """
    events: list[sagas.Event] = []

    def hook(event: sagas.Event) -> None:
        events.append(event)
        raise RuntimeError("the metrics are down")

    saga = row()

    async def main() -> None:
        async with sagas.open(location, [saga], on_event=hook) as store:
            await ended(store, saga, value="fails")

    with caplog.at_level(logging.INFO, "sagas"):
        run(main())
    names = Counter(event.name for event in events)
    assert (
        names["saga_started"]
        == names["saga_ended"]
        == names["plan_adopted"]
        == names["step_failed"]
        == 1
    )
    assert names["step_started"] == 5 and names["step_succeeded"] == 4
    assert all(
        (event.seconds is not None)
        == (event.name in ("step_succeeded", "step_failed", "saga_ended", "saga_stuck"))
        for event in events
    )
    kept = [
        record
        for record in caplog.records
        if record.name == "sagas" and getattr(record, "sagas", {}).get("name") == "step_failed"
    ]
    assert kept and getattr(kept[0], "sagas")["key"] == "k"


@pytest.mark.parametrize("how", ["refused", "late", "permanently"])
def test_a_final_failure_is_reported_once(location: str, how: str) -> None:
    """It is `step_failed`, though the step had tries left; these are not reported."""
    events: list[tuple[str, str | None]] = []
    saga = sagas.Saga("signed")

    if how == "permanently":

        @saga.step(tries=9)
        def sign(task: Task) -> None:
            raise sagas.Fail("too expensive")

    else:

        @saga.approval(timeout=datetime.timedelta(seconds=0.01) if how == "late" else None)
        def sign(task: Task) -> None:
            ...

    def hook(event: sagas.Event) -> None:
        if event.name in ("step_retrying", "step_failed", "step_succeeded"):
            events.append((event.name, event.detail))

    async def main() -> None:
        async with sagas.open(location, [saga], on_event=hook) as store:
            run = await store.start(saga, "k")
            if how == "refused":
                while not await store.waits_for("k"):
                    await asyncio.sleep(0.005)
                await run.fail(sign, "too expensive")
            assert (await run.wait()).states == {"sign": "failed"}

    run(main())
    assert events == [
        (
            "step_failed",
            {
                "refused": "too expensive",
                "late": "it was not approved in time",
                "permanently": "sagas.Fail: too expensive",
            }[how],
        )
    ]


def test_a_log_line_is_one_line(location: str, caplog: pytest.LogCaptureFixture) -> None:
    """Keys and details are quoted unless they are one plain word; line ends in them are escaped."""

    def fails(task: Task) -> None:
        raise sagas.Retry('a "b"\nc\x85=ü')

    saga = simple(fails, tries=1)

    async def main() -> None:
        async with sagas.open(location, [saga]) as store:
            await ended(store, saga, "order/2026 ü")
            await ended(store, saga, "order-1")

    with caplog.at_level(logging.WARNING, "sagas"):
        run(main())
    detail = r'"sagas.Retry: a \"b\"\nc\u0085=ü"'
    assert [record.getMessage() for record in caplog.records if record.name == "sagas"] == [
        f"step_failed key={key} saga=simple step=a attempt=1 detail={detail}"
        for key in ('"order/2026 ü"', "order-1")
    ]


def test_without_async(location: str) -> None:
    """`open_sync`: a thread has the loop."""
    saga = row()
    with sagas.open_sync(location, [saga]) as store:
        assert store.start(saga, key="good").wait(30).ok and not store.start(saga, key="good").new
        assert store.start(saga, key="bad", input="fails").wait(30).states["a"] == "undone"
        ends: list[sagas.SagaResult] = []
        threads = [
            threading.Thread(target=lambda: ends.append(store.start(saga, key="one").wait(30)))
            for _ in range(4)
        ]
        for thread in threads:
            thread.start()
        for thread in threads:
            thread.join()
        assert len(ends) == 4 and len({end.key for end in ends}) == 1
        assert [summary.key for summary in store.list()] == ["good", "bad", "one"] and store.get(
            "none"
        ) is None
        assert all(verdict.startswith("yes") for verdict in store.audit().values())
    with pytest.raises(sagas.Closed):
        store.start(saga, key="late")


def test_a_wait_that_takes_too_long(location: str) -> None:
    """The error says what the saga waits for, as far as this program knows."""
    saga, gate = sagas.Saga("signed"), threading.Event()

    @saga.step
    def send(task: Task) -> None:
        gate.wait(60)

    @saga.approval(needs=[send])
    def sign(task: Task) -> None:
        ...

    with sagas.open_sync(location, [saga]) as store:
        run = store.start(saga, "k")
        hears(lambda: run.wait(0.01), "'k' is still open after 0.01 s: send runs")
        gate.set()
        hears(
            lambda: store.wait("k", timeout=0.01),
            "'k' is still open after 0.01 s: sign waits for an approval",
        )
        with pytest.raises(TimeoutError, match="still open after 0.01 s"):
            store.wait_idle(0.01)
        run.complete(sign)
        assert run.wait(60).ok

    async def main() -> None:
        async with sagas.open(location, [saga]) as store:
            run = await store.start(saga, "two")
            with pytest.raises(TimeoutError, match="'two' is still open after 0.01 s"):
                await run.wait(timeout=0.01)
            while not any("approval" in wait for wait in await store.waits_for("two")):
                await asyncio.sleep(0.005)
            await run.complete(sign)
            assert (await run.wait(timeout=60)).ok

    asyncio.run(main())


def test_another_loop(tmp_path: pathlib.Path) -> None:
    """A store belongs to its loop: another one, in a thread, gets the error at once."""
    saga = row()

    async def main() -> None:
        async with sagas.open(tmp_path / "store.db", [saga]) as store:
            calls: list[Any] = [
                store.start(saga, "k"),
                store.wait("k"),
                store.abort("k"),
                store.complete("k", "a"),
            ]
            for call in calls:
                with pytest.raises(RuntimeError, match="sagas.open_sync"):
                    await asyncio.to_thread(asyncio.run, call)
            assert await store.list() == []

    run(main())


def test_a_step_calls_a_store_without_async(tmp_path: pathlib.Path) -> None:
    """A plain function may, since it runs in a thread; an async one would block the loop that it
    waits for, and gets an error.
    """
    saga, other = simple(
        lambda task: store.start(inner, "inner").wait(60).results["a"]
    ), sagas.Saga("other")
    inner = sagas.Saga("inner")
    inner.step(name="a")(lambda task: 1)

    @other.step(max_unknown=1)
    async def a(task: Task) -> None:
        store.list()

    with sagas.open_sync(tmp_path / "store.db", [saga, inner, other]) as store:
        assert store.start(saga, "outer").wait(60).results == {"a": 1}
        store.start(other, "k")
        (held,) = run(until(store.attention))
        assert held.why == "unknown"
        assert "Make the function a plain def" in (held.detail or "")


def held(location: str) -> list[tuple[Any, ...]]:
    """Return what a store keeps of attempts that are held."""
    with contextlib.closing(admin.connect(location)) as link:
        return link.ask("SELECT id, step, action, number, reason FROM suspensions")


@pytest.mark.parametrize("reopened", [False, True])
def test_nothing_is_kept_of_a_wait_after_its_sagas_end(location: str, reopened: bool) -> None:
    """A wait's function raises as another step fails permanently: it is not retried, and its time,
    which was kept for that try, is deleted with the saga's end.
    """
    saga, inside = sagas.Saga("two"), list[str]()
    gate = asyncio.Event()

    async def comes(task: Task) -> None:
        inside.append(task.step)
        await gate.wait()

    @saga.wait(until=datetime.timedelta(seconds=0.01), tries=3, backoff=QUICK)
    async def late(task: Task) -> None:
        await comes(task)
        raise sagas.Retry("not yet")

    @saga.step(tries=1)
    async def bad(task: Task) -> None:
        await until(lambda: "late" in inside)
        await comes(task)
        raise sagas.Fail("no")

    async def main() -> None:
        if reopened:
            async with sagas.open(location, [saga], shutdown_timeout=0.0) as store:
                await store.start(saga, "k")
                await until(lambda: len(inside) == 2)
            inside.clear()
        async with sagas.open(location, [saga]) as store:
            run = await store.start(saga, "k")
            await until(lambda: len(inside) == 2)
            assert held(location)
            gate.set()
            end = await run.wait()
            assert end.states == {"late": "waiting", "bad": "failed"}

    run(main())
    assert held(location) == []


def test_callers_that_gave_up_are_not_kept(tmp_path: pathlib.Path) -> None:
    """Callers wait for a saga again and again, each time for a moment: few of these waits are kept,
    and a waiting caller gets its end.
    """
    kind = sagas.Saga("outside")
    kind.step(name="a", external=True)

    async def main() -> None:
        async with sagas.open(tmp_path / "store.db", [kind]) as store:
            running = await store.start(kind, "k")
            waits = asyncio.create_task(running.wait())
            for _ in range(300):
                with pytest.raises(TimeoutError):
                    await running.wait(0)
            (callers,) = store._coordinator.sagas.ends.futures.values()
            assert len(callers) < 100
            await running.complete("a")
            assert (await waits).ok

    run(main())


def test_keys_that_are_no_texts(location: str) -> None:
    """No saga has one; a caller with another key, at the same moment or later, is not affected."""
    kind, wrong = simple(lambda task: 1), [42, None, b"k", 1.5]

    async def main() -> None:
        async with sagas.open(location, [kind]) as store:
            assert (await ended(store, kind)).ok
            async with asyncio.timeout(60):
                keys: list[Any] = [*wrong, "k", "other"]
                results = await asyncio.gather(*(store.get(key) for key in keys))
                assert [result is not None for result in results] == [False] * 4 + [True, False]
                for call in (store.wait, store.abort, store.log):
                    with pytest.raises(sagas.NoSuchSaga, match="no saga has the key 42"):
                        await call(42)  # type: ignore[arg-type]
                assert (await store.wait("k")).ok
        if location.startswith("postgresql"):
            async with sagas.Client(location) as client:
                assert await client.get(42) is None  # type: ignore[arg-type]
                with pytest.raises(sagas.NoSuchSaga, match="no saga has the key 42"):
                    await client.wait(42)  # type: ignore[arg-type]

    run(main())
