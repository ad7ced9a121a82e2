"""Attempts of workers, of sagas that are being undone: which node withdraws which of them.

An attempt that a worker may have done is not withdrawn.
"""

from __future__ import annotations

import asyncio
import contextlib
import logging
import sqlite3
from collections.abc import AsyncIterator
from typing import Any

import psycopg
import pytest
from cases import (
    HOUR,
    run,
    unknown_attempts,
    until,
)
from relay import Relay, relaying
from server import Server

import sagas
from sagas.base.events import Event
from sagas.core.shard.batch import Batch, Withdrawal
from sagas.definition.capacity import SHARD_CAPACITY
from sagas.runtime import external_queue
from sagas.storage.postgresql import commit_statement
from sagas.storage.postgresql.commit_statement import Commit

PAY, HOLD = [("trip", "pay", "run")], [("trip", "hold", "run")]
ROWS = (
    "SELECT attempt, outcome, lease FROM sagas.external_attempts WHERE attempt LIKE '%-pay-run-1'"
)


def trip(**pay: Any) -> sagas.Saga:
    """Return a saga of two parallel steps that workers do."""
    saga = sagas.Saga("trip")
    saga.step(name="pay", external=True, undo=sagas.NEVER, **{"tries": 1, **pay})
    saga.step(name="hold", external=True, undo=sagas.NEVER)
    return saga


def opened(
    location: str,
    saga: sagas.Saga,
    node: str | None = None,
    events: list[Event] | None = None,
    **more: Any,
) -> sagas.Store:
    """Open a store that serves workers."""
    names = {"node": node} if node else {}
    store = sagas.open(
        location, [saga], on_event=None if events is None else events.append, **names, **more
    )
    store.leased = True
    return store


def rows_of(url: str, text: str) -> list[tuple[Any, ...]]:
    """Return the rows of a statement."""
    with psycopg.connect(url, autocommit=True) as link:
        cursor = link.execute(text)  # type: ignore[arg-type]
        return cursor.fetchall() if cursor.description else []


@contextlib.asynccontextmanager
async def two(
    postgresql: Server, url: str, saga: sagas.Saga, relay: Relay, lease: float
) -> AsyncIterator[tuple[sagas.Store, sagas.Store, list[Event]]]:
    """Return a node that reaches its server through a relay, another one, and the events of the
    first.
    """
    events: list[Event] = []
    far = postgresql.url(url.rpartition("/")[2], port=relay.port)
    async with opened(url, saga, "other", lease=lease) as other, opened(
        far, saga, "slow", events, lease=lease
    ) as slow:
        yield slow, other, events


def has_offered(store: sagas.Store) -> bool:
    """Return whether a node has taken the saga over, and its offers are in the store."""
    inside = store._coordinator
    return any(saga.busy for saga in inside.sagas.by_key.values()) and not inside.external._offering


def test_a_node_that_lost_its_shard_takes_nothing_back(postgresql: Server, url: str) -> None:
    """An abort is stored, and its reply comes after the node's lease, as another node has offered
    the task again: a worker still gets it.
    """
    saga = trip()

    async def main(relay: Relay) -> None:
        async with two(postgresql, url, saga, relay, lease=2.0) as (slow, other, events):
            running = await slow.start(saga, "k")
            await until(lambda: rows_of(url, ROWS))
            relay.unanswered = b'"event":"abort"'
            aborting = asyncio.create_task(running.abort())
            await until(relay.owes.is_set)
            await until(
                lambda: b"abort"
                in rows_of(url, "SELECT string_agg(text, '') FROM sagas.event_log")[0][0].encode()
            )
            relay.hold()
            await until(lambda: has_offered(other))
            relay.answer()
            relay.go_on()
            await until(lambda: [event for event in events if event.name == "shard_lost"])
            await asyncio.gather(aborting, return_exceptions=True)
            await asyncio.sleep(1)  # time for the node's reaction to the abort
            for tasks in (PAY, HOLD):
                (task,) = await other.workers.claim(tasks, wait=60, lease=600)
                assert await other.workers.report(task.attempt_id, task.lease, 5)
            end = await other.wait("k", 60)
            assert end.aborted and end.states["pay"] == "committed"

    with relaying(postgresql.port) as relay:
        run(main(relay))


def test_the_reply_to_a_withdrawal_counts_only_under_its_epoch(
    postgresql: Server, url: str
) -> None:
    """It comes late, when the shard was loaded again, because its engine died, and the attempt was
    offered again. A worker that claimed it keeps it.
    """
    saga = sagas.Saga("trip")
    saga.step(name="pay", external=True, undo=sagas.NEVER, tries=1)

    async def main(relay: Relay) -> None:
        async with two(postgresql, url, saga, relay, lease=30.0) as (slow, other, events):
            for key in ("warm", "k"):  # the first one prepares the statements
                running = await slow.start(saga, key)
                (row,) = await until(lambda: [row for row in rows_of(url, ROWS) if row[1] is None])
                if key == "warm":
                    assert await running.abort() and (await running.wait(60)).aborted
            relay.unanswered = row[0].encode()
            assert await running.abort()
            await until(relay.owes.is_set)
            await until(lambda: (row[0], "withdrawn", None) in rows_of(url, ROWS))
            relay.still = b"SET outcome = 'withdrawn'"  # a second one would come before the worker
            claiming = asyncio.create_task(other.workers.claim(PAY, wait=60, lease=600))
            for runner in slow._coordinator.shards.runners.values():
                if runner.engine:
                    runner.engine.process.kill()
            await until(lambda: [event for event in events if event.name == "engine_died"])
            # time for a node that continues without the reply
            await asyncio.wait([claiming], timeout=2)
            relay.answer()
            relay.go_on()
            ending = asyncio.create_task(slow.wait("k", 60))
            await asyncio.wait([claiming, ending], return_when=asyncio.FIRST_COMPLETED)
            if claiming.done():
                await asyncio.wait([ending], timeout=1)  # time for the node's reaction to the reply
                (task,) = claiming.result()
                assert await other.workers.report(task.attempt_id, task.lease, 5)
            claiming.cancel()
            assert (await ending).states["pay"] == (
                "committed" if claiming.done() and not claiming.cancelled() else "failed"
            )

    with relaying(postgresql.port) as relay:
        run(main(relay))


@pytest.mark.parametrize("cause", ["abort", "sibling"])
@pytest.mark.parametrize("waits", ["backoff", "person"])
def test_an_unknown_attempt_is_not_given_up(url: str, cause: str, waits: str) -> None:
    """Its worker got it from a node that does not drive the saga.

    It may be done, so that it is called again, or an operator reports its outcome.
    """
    saga = trip(tries=2, backoff=HOUR, max_unknown=9 if waits == "backoff" else 1)

    async def main() -> None:
        async with opened(url, saga, "one") as first, opened(url, saga, "other") as other:
            running = await first.start(saga, "k")
            (task,) = await other.workers.claim(PAY, wait=60, lease=600)
            assert await other.workers.report(
                task.attempt_id, task.lease, unknown="the line was cut"
            )
            await until(lambda: _is_unknown(first))
            if cause == "abort":
                assert await running.abort()
            else:
                (hold,) = await other.workers.claim(HOLD, wait=60, lease=600)
                assert await other.workers.report(
                    hold.attempt_id, hold.lease, error="full", final=True
                )
            if waits == "backoff":
                (again,) = await other.workers.claim(PAY, wait=60, lease=600)
                assert again.attempt_id == task.attempt_id
                assert await other.workers.report(again.attempt_id, again.lease, 5)
            else:
                await other.complete("k", "pay", 5)
            end = await running.wait(60)
            assert end.states["pay"] == "committed" and end.results["pay"] == 5

    run(main())


async def _is_unknown(store: sagas.Store) -> bool:
    return any(attempt.step == "pay" for attempt in await unknown_attempts(store))


@pytest.mark.parametrize(
    ("kinds_of_change", "last"),
    [
        (("offers", "suspended"), "suspended"),
        (("suspended", "suspended"), "suspended"),
        (("offers", "withdrawn"), "withdrawn"),
        (("withdrawn", "settled"), "settled"),
        (("settled", "suspended"), "settled"),
        (("settled", "offers"), "settled"),
    ],
)
def test_a_commit_changes_a_row_once(kinds_of_change: tuple[str, ...], last: str) -> None:
    """The server changes a row once per statement, in an order of the parts that is not defined;
    and a saga that is to be undone changes no row that another part has changed.
    """
    attempt, shard, saga = "ab-3-pay-run-1", 5, 5 * SHARD_CAPACITY + 3
    rows: dict[str, Any] = {
        "offers": (attempt, shard, saga, 0, "run", 1, "trip/pay/run", None, None, 1.0, None),
        "suspended": (attempt, shard, "suspended"),
        "withdrawn": Withdrawal(attempt, shard),
        "settled": (attempt, shard, None),
    }
    batches = [Batch(shard, 1.0, epoch=1) for _ in kinds_of_change]
    for batch, word in zip(batches, kinds_of_change):
        getattr(batch.rare_rows, word).append(rows[word])
    batches[0].rare_rows.cancelled.append(("aborted", saga))
    parts = Commit(batches, lambda log: 0, {}).parts
    assert {part for part in parts if part != "cancelled"} == {last} and len(parts[last]) == 1
    assert parts["cancelled"] == [("aborted", saga, '{"ab-3-pay-run-1"}')]


@pytest.mark.parametrize("reverse", [False, True])
def test_the_order_of_a_commit_s_parts_is_nothing(
    url: str, reverse: bool, monkeypatch: pytest.MonkeyPatch
) -> None:
    """An operator reports that a step failed: its row is finished, and the others are notified of
    the end, whichever part the server does first.
    """
    saga = trip()
    monkeypatch.setattr(
        commit_statement, "sorted", lambda parts: sorted(parts, reverse=reverse), raising=False
    )
    commit_statement.statement.cache_clear()

    async def main() -> None:
        async with opened(url, saga, "one") as store:
            running = await store.start(saga, "k")
            (task,) = await store.workers.claim(HOLD, wait=60, lease=600)
            await until(lambda: rows_of(url, ROWS))
            await store.fail("k", "pay", "the bank is closed")
            text = "SELECT outcome, cancelled FROM sagas.external_attempts ORDER BY step"
            assert rows_of(url, text) == [("settled", None), (None, "failed")]
            assert (
                await store.workers.heartbeat(task.attempt_id, task.lease)
            ).cancelled == "failed"
            assert await store.workers.report(task.attempt_id, task.lease, 5)
            assert (await running.wait(60)).states == {"pay": "failed", "hold": "committed"}

    run(main())


@pytest.mark.parametrize("change", ["DELETE FROM {}", "UPDATE {} SET outcome = 'withdrawn'"])
def test_a_damaged_offer_is_repeated(
    location: str, change: str, caplog: pytest.LogCaptureFixture, monkeypatch: pytest.MonkeyPatch
) -> None:
    """Its row was damaged: that is found, and logged as a warning."""
    saga, events = trip(), list[Event]()
    monkeypatch.setattr(external_queue, "CHECK_INTERVAL", 0.2)

    async def main() -> None:
        async with opened(location, saga, events=events) as store:
            running = await store.start(saga, "k")
            await until(lambda: _ready(store))
            changed(location, change)
            for tasks in (PAY, HOLD):
                (task,) = await store.workers.claim(tasks, wait=60, lease=600)
                assert await store.workers.report(task.attempt_id, task.lease, 5)
            assert (await running.wait(60)).ok

    with caplog.at_level(logging.WARNING, logger="sagas"):
        run(main())
    offered = [event for event in events if event.name == "step_offered_again"]
    assert {event.step for event in offered} == {"pay", "hold"}
    assert "step_offered_again key=k saga=trip step=pay attempt=1" in caplog.text


def changed(location: str, change: str) -> None:
    """Change the table by hand."""
    if "://" in location:
        rows_of(location, change.format("sagas.external_attempts"))
        return
    with contextlib.closing(sqlite3.connect(location, isolation_level=None, timeout=60)) as link:
        link.execute(change.format("external_attempts"))


async def _ready(store: sagas.Store) -> bool:
    return sum(queue.ready for queue in await store.workers.queues()) == 2


def test_nothing_of_a_drain_is_done_before_its_commit(postgresql: Server, url: str) -> None:
    """An operator reports that a step failed.

    Until that is stored, a parallel function is not notified, and no waiting attempt is given up.
    """
    saga, tasks, gate = sagas.Saga("trip"), list[sagas.Task[Any]](), asyncio.Event()
    saga.approval(name="review")(lambda task: None)
    saga.step(name="pay", external=True, undo=sagas.NEVER, tries=1)

    @saga.step(undo=sagas.NEVER)
    async def watch(task: sagas.Task[Any]) -> None:
        tasks.append(task)
        await gate.wait()

    async def main(relay: Relay) -> None:
        far = postgresql.url(url.rpartition("/")[2], port=relay.port)
        async with sagas.open(far, [saga], node="one", lease=60) as store:
            running = await store.start(saga, "k")
            await until(
                lambda: tasks
                and {attempt.waits for attempt in store.active_attempts("k")}
                == {"", "worker", "approval"}
            )
            relay.unanswered = b"the bank is closed"
            failing = asyncio.create_task(store.fail("k", "pay", "the bank is closed"))
            await until(relay.owes.is_set)
            await asyncio.sleep(0.3)  # time for what is done too early
            early = tasks[0].cancelled.is_set(), {
                attempt.waits for attempt in store.active_attempts("k")
            }
            relay.answer()
            await failing
            assert early == (False, {"", "approval"})
            await until(tasks[0].cancelled.is_set)
            gate.set()
            assert (await running.wait(60)).states["pay"] == "failed"

    with relaying(postgresql.port) as relay:
        run(main(relay))
