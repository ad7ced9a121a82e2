"""An answer that is given twice is one; a different one gets the error that the first counts."""

from __future__ import annotations

import asyncio
import contextlib
import signal
from collections.abc import AsyncIterator, Awaitable, Callable, Iterator
from contextlib import AsyncExitStack
from typing import Any

import psycopg
import pytest
from cases import QUICK, Task, pairs, run, until

import sagas

Say = Callable[..., Any]


def signed() -> sagas.Saga:
    """Return a saga with an external step, an approval with tries, and one more approval, which
    keeps it open.
    """
    saga = sagas.Saga("signed")
    first = saga.step(external=True, name="print")
    sign = saga.approval(name="sign", needs=[first], backoff=QUICK)(lambda task: None)
    saga.approval(name="last", needs=[sign], backoff=QUICK)(lambda task: None)
    return saga


def has_begun(store: sagas.Store, step: str) -> bool:
    waits = ("approval", "worker")
    return any(
        attempt.step == step and attempt.waits in waits for attempt in store.active_attempts("k")
    )


async def waiting_for_report(store: sagas.Store, step: str) -> None:
    """Wait until the step needs a report."""
    await until(lambda: has_begun(store, step))


by_each_caller = pytest.mark.parametrize(
    ("location", "caller"),
    [("sqlite", "store"), *(("postgresql", caller) for caller in ("store", "node", "client"))],
    indirect=["location"],
)
"""The caller: the program that has the saga, another one, or a client; a file is one program's."""


async def teller(stack: AsyncExitStack, caller: str, location: str, store: sagas.Store) -> Say:
    if caller == "store":
        return saying(store)
    if caller == "client":
        return saying(await stack.enter_async_context(sagas.Client(location)))
    node = sagas.open(location, [signed()], node="other")
    return saying(await stack.enter_async_context(node))


def saying(caller: sagas.Store | sagas.Client) -> Say:
    """Report by `complete`, or by `fail` if there is a reason."""

    async def say(
        key: str, step: str, *result: Any, error: str | None = None, early: bool = True
    ) -> None:
        if error is None:
            await caller.complete(key, step, *result, early=early)
        else:
            await caller.fail(key, step, error, early=early)

    return say


@by_each_caller
def test_the_same_again_is_one(location: str, caller: str) -> None:
    """Concurrently, while the saga continues, and when it is over; success or failure."""
    saga = signed()

    async def differs(say: Say, step: str, message: str, *arguments: Any, **more: Any) -> None:
        with pytest.raises(
            sagas.ConflictingReport, match=f"'{step}': {message}. This is a different outcome"
        ) as error:
            await say("k", step, *arguments, **more)
        assert isinstance(error.value, sagas.StepNotWaiting) and "secret" not in str(error.value)

    async def main() -> None:
        async with AsyncExitStack() as stack:
            store = await stack.enter_async_context(sagas.open(location, [saga]))
            await store.start(saga, "k")
            await waiting_for_report(store, "print")
            say = await teller(stack, caller, location, store)
            twice = await asyncio.gather(*(say("k", "print", {"page": 1}) for _ in range(3)))
            assert twice == [None] * 3
            await waiting_for_report(store, "sign")
            await say("k", "print", {"page": 1})
            await differs(say, "print", "it has succeeded", {"page": "secret"})
            await differs(say, "print", "it has succeeded", error="secret")
            with pytest.raises(sagas.StepNotWaiting, match="it has not started"):
                await say("k", "last", early=False)
            twice = await asyncio.gather(*(say("k", "sign", error="no") for _ in range(2)))
            assert twice == [None] * 2
            await say("k", "sign", error="no")
            end = await store.wait("k")
            assert end.states["sign"] == "failed" and end.errors["sign"] == "no"
            await say("k", "print", {"page": 1})
            await say("k", "sign", error="no")
            await differs(say, "sign", "it has failed", "secret")
            await differs(say, "sign", "it has failed", error="secret")
            with pytest.raises(sagas.StepNotWaiting, match="has ended"):
                await say("k", "last")

    run(main())


@by_each_caller
def test_two_answers_at_once(location: str, caller: str) -> None:
    """One of them counts, and the other one gets that as its error."""
    saga = signed()

    async def main() -> None:
        async with AsyncExitStack() as stack:
            store = await stack.enter_async_context(sagas.open(location, [saga]))
            await store.start(saga, "k")
            await waiting_for_report(store, "print")
            say = await teller(stack, caller, location, store)
            both = await asyncio.gather(
                *(say("k", "print", n) for n in range(2)), return_exceptions=True
            )
            assert sorted(type(outcome).__name__ for outcome in both) == [
                "ConflictingReport",
                "NoneType",
            ]

    run(main())


def is_stopped(url: str) -> bool:
    """Return whether a statement waits for a lock."""
    asks = "SELECT 1 FROM pg_stat_activity WHERE wait_event_type = 'Lock' AND datname = "
    with psycopg.connect(url) as link:
        return bool(link.execute(asks + "current_database()").fetchall())


def is_kept(url: str, step: int) -> bool:
    """Return whether the store has the outcome of a step, or an early report of it."""
    asks = (
        "SELECT FROM sagas.attempts WHERE step = %(step)s UNION ALL "
        "SELECT FROM sagas.suspensions WHERE step = %(step)s AND number = 0"
    )
    with psycopg.connect(url) as link:
        return bool(link.execute(asks, {"step": step}).fetchall())


@contextlib.contextmanager
def held(url: str, *, lost: bool = False) -> Iterator[Callable[[], Awaitable[None]]]:
    """Store nothing of any shard until the block ends; then the shards are `lost`: another node had
    them, and has left them. The returned function waits until a statement stores something.
    """
    raised = "epoch = epoch + 1, owner = NULL" if lost else "epoch = epoch"
    with psycopg.connect(url) as stranger:
        stranger.execute(f"UPDATE sagas.shards SET {raised}")
        yield lambda: until(lambda: asyncio.to_thread(is_stopped, url))


@contextlib.asynccontextmanager
async def busy(store: sagas.Store, saga: sagas.Saga) -> AsyncIterator[None]:
    """Stop the engine of the one shard until the block ends, without new questions."""
    [runner] = store._access.coordinator.shards.runners.values()
    assert runner.engine
    process = runner.engine.process
    process.send_signal(signal.SIGSTOP)
    try:
        other = asyncio.create_task(store.start(saga, "other"))
        await until(lambda: runner.engine and runner.engine.unanswered)
        yield
    finally:
        process.send_signal(signal.SIGCONT)
    await other


@pytest.mark.parametrize(
    "step, reader, lost", pairs(("print", "sign"), ("store", "engine"), (False, True))
)
def test_the_second_of_two_is_answered_once_the_first_is_stored(
    url: str, step: str, reader: str, lost: bool
) -> None:
    """It holds also if the shard moves before that, with the first one in progress to the store, or
    to the engine: then both are repeated at its new node.
    """
    saga, numbers = signed(), {"print": 0, "sign": 1}

    async def main() -> None:
        async with sagas.open(url, [saga], lease=2) as store:
            await store.start(saga, "k")
            await waiting_for_report(store, "print")
            if step == "sign":
                await store.complete("k", "print", 1)
                await waiting_for_report(store, "sign")

            async def say() -> bool:
                await store.complete("k", step, "yes")
                return is_kept(url, numbers[step])

            async with AsyncExitStack() as stack:
                if reader == "engine":
                    await stack.enter_async_context(busy(store, saga))
                reached = stack.enter_context(held(url, lost=lost))
                first = asyncio.create_task(say())
                if reader == "store":
                    await reached()
                second = asyncio.create_task(say())
                done, _ = await asyncio.wait([first, second], timeout=0.3)
                assert not done
            assert await asyncio.wait_for(asyncio.gather(first, second), 60) == [True, True]

    run(main())


@pytest.mark.parametrize("same", [True, False], ids=["same", "other"])
def test_a_report_waits_for_the_stored_outcome_of_the_function(url: str, same: bool) -> None:
    """A report that comes while the step's function runs waits for it, and the function decides."""
    saga, gate, calls = sagas.Saga("asks"), asyncio.Event(), list[str]()

    @saga.approval(name="sign")
    async def sign(task: Task) -> sagas.Approved:
        calls.append(task.attempt_id)
        await gate.wait()
        return sagas.Approved("yes")

    async def main() -> None:
        async with sagas.open(url, [saga]) as store:
            await store.start(saga, "k")
            await until(lambda: calls)
            says = asyncio.create_task(store.complete("k", "sign", "yes" if same else "no"))
            await asyncio.sleep(0.1)
            with held(url) as reached:
                gate.set()
                await reached()
                done, _ = await asyncio.wait([says], timeout=0.3)
                assert not done
            if same:
                await says
            else:
                with pytest.raises(sagas.ConflictingReport, match="it has succeeded"):
                    await says
            assert is_kept(url, 0) and (await store.wait("k")).results["sign"] == "yes"

    run(main())


def test_a_refusal_waits_until_its_reason_is_stored(url: str) -> None:
    """The step does not start any more, because another one failed."""
    saga, gate, calls = sagas.Saga("fails"), asyncio.Event(), list[str]()

    @saga.step(skip=9, tries=1)
    async def first(task: Task) -> None:
        calls.append(task.attempt_id)
        await gate.wait()
        raise sagas.Fail("permanently")

    saga.approval(name="sign", needs=[first])(lambda task: None)

    async def main() -> None:
        async with sagas.open(url, [saga]) as store:
            await store.start(saga, "k")
            await until(lambda: calls)
            with held(url) as reached:
                gate.set()
                await reached()
                says = asyncio.create_task(store.complete("k", "sign", "yes"))
                done, _ = await asyncio.wait([says], timeout=0.3)
                assert not done
            with pytest.raises(sagas.StepNotWaiting):
                await says

    run(main())


@pytest.mark.parametrize("on_its_way", ["retry", "failure"])
def test_a_retry_follows_its_shard(url: str, on_its_way: str) -> None:
    """It was in progress to the store when the shard moved, or waited for the failure before it."""
    saga, calls, may_fail = sagas.Saga("retried"), list[str](), asyncio.Event()

    @saga.step(on_exhausted="ask", tries=1)
    async def call(task: Task) -> str:
        calls.append(task.attempt_id)
        if len(calls) == 1:
            await may_fail.wait()
            raise sagas.Retry("fails")
        return "done"

    async def main() -> None:
        async with sagas.open(url, [saga], lease=2) as store:
            await store.start(saga, "k")
            await until(lambda: bool(calls))
            if on_its_way == "retry":
                may_fail.set()
                while not await store.attention():
                    await asyncio.sleep(0.01)
            with held(url, lost=True) as reached:
                may_fail.set()
                await until(lambda: has_waited(store))
                says = asyncio.create_task(store.retry("k", "call"))
                await reached()
            if on_its_way == "retry":
                await asyncio.wait_for(says, 60)
            else:  # the store has no failure
                with pytest.raises(sagas.StepNotWaiting):
                    await asyncio.wait_for(says, 60)
            assert (await store.wait("k", 60)).results["call"] == "done"

    def has_waited(store: sagas.Store) -> bool:
        return any(
            attempt.waits and attempt.waits != "worker" for attempt in store.active_attempts("k")
        )

    run(main())


@pytest.mark.parametrize("size", [1, 100_000])
def test_a_retry_is_called_once_its_row_is_stored(url: str, size: int) -> None:
    """Then the tenant of its saga is computed, and the input is read for that."""
    waiting_for_report, calls = list[str](), list[int]()

    def tenant(value: dict[str, str]) -> str:
        waiting_for_report.append(value["of"])
        return value["of"]

    saga = sagas.Saga("retried", fair_by=tenant)

    @saga.step(on_exhausted="ask", tries=1)
    async def call(task: Task) -> str:
        calls.append(task.attempt)
        if len(calls) == 1:
            raise sagas.Retry("fails")
        return "done"

    async def main() -> None:
        async with sagas.open(url, [saga]) as store:
            await store.start(saga, "k", {"of": "a", "fill": "x" * size})
            while not await store.attention():
                await asyncio.sleep(0.01)
        waiting_for_report.clear()
        async with sagas.open(url, [saga]) as store:
            with held(url) as reached:
                says = asyncio.create_task(store.retry("k", "call"))
                await reached()
                await asyncio.sleep(0.1)
                assert not waiting_for_report and calls == [1]
            await asyncio.wait_for(says, 60)
            assert (await store.wait("k", 60)).results["call"] == "done"

    run(main())
    assert waiting_for_report and calls == [1, 1]
