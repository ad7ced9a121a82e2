"""Pauses: what starts no attempts until an operator resumes it."""

from __future__ import annotations

import asyncio
import contextlib
import datetime
import pathlib
import sqlite3
from collections.abc import Callable
from typing import Any

import pytest
from cases import QUICK, Task, run, until
from server import Server

import sagas
from sagas.storage import admin
from sagas.storage.postgresql import schema

Calls = list[tuple[str, str]]


def shop(calls: Calls, gate: asyncio.Event | None = None) -> list[sagas.Saga]:
    """Return a saga of two steps and a child, and the child. They record their calls."""
    room = sagas.Saga("room")

    @room.step(undo=sagas.NOTHING)
    def book(task: Task) -> None:
        calls.append(("book", task.key))

    pay = sagas.Saga("pay")

    @pay.step(undo=1, keep=9, backoff=QUICK)
    async def charge(task: Task) -> int:
        calls.append(("charge", task.key))
        if gate is not None:
            await gate.wait()
        return 1

    @charge.compensation(backoff=QUICK)
    def refund(task: Task) -> None:
        calls.append(("refund", task.key))

    @pay.step(needs=[charge], undo=sagas.NOTHING, tries=1)
    def send(task: Task) -> None:
        calls.append(("send", task.key))
        if task.input == "bad":
            raise sagas.Fail("no")

    pay.child(room, name="stay", input=lambda task: None, needs=[charge])
    return [pay, room]


async def paused(store: sagas.Store, key: str, *steps: str) -> None:
    """Wait until these steps of a saga are held, and nothing else of it is active."""

    def is_so() -> bool:
        active = store.active_attempts(key)
        return {attempt.step for attempt in active if attempt.waits == "paused"} == {*steps} and (
            len(active) == len(steps)
        )

    await until(is_so)


def test_a_pause_holds_a_step_and_only_that(location: str) -> None:
    """The other steps run, the saga says why it waits, and a resume continues it."""
    calls: Calls = []
    pay, room = shop(calls)

    async def main() -> None:
        async with sagas.open(location, [pay, room]) as store:
            await store.pause(pay, "send", note="the bank is down", by="ada")
            run = await store.start(pay, "a")
            await paused(store, "a", "send")
            assert calls == [("charge", "a"), ("book", "a/:stay")]
            (attempt,) = store.active_attempts("a")
            assert attempt.paused == "the bank is down by ada"
            assert await store.waits_for("a") == ["send is paused: the bank is down by ada"]
            with pytest.raises(TimeoutError, match="send is paused: the bank is down by ada"):
                await run.wait(0.05)
            assert [*await store.pauses()] == [
                sagas.Pause("pay", "send", None, False, False, "the bank is down", "ada", at)
                for at in [(await store.pauses())[0].at]
            ]
            await store.resume("pay", "send")
            assert (await run.wait(60)).ok and calls[2:] == [("send", "a")]
            assert await store.pauses() == []
            assert all(text.startswith("yes") for text in (await store.audit()).values())

    run(main())


def test_a_pause_of_everything_survives_a_restart(location: str) -> None:
    """What runs ends; children, retries and new sagas wait, and start in the next program."""
    calls: Calls = []

    async def main() -> None:
        gate = asyncio.Event()
        async with sagas.open(location, shop(calls, gate)) as store:
            pay = store.sagas[0]
            await store.start(pay, "runs")
            await until(lambda: calls)
            await store.pause(note="fire")
            gate.set()
            await store.start(pay, "waits")
            await paused(store, "runs", "send", "stay")
            await paused(store, "waits", "charge")
            await store.pause(note="still fire", by="bo")  # it replaces the first one
            assert [pause.text for pause in await store.pauses()] == ["still fire by bo"]
        assert calls == [("charge", "runs")]
        async with sagas.open(location, shop(calls)) as store:
            await paused(store, "waits", "charge")
            await paused(store, "runs", "send", "stay")
            assert calls == [("charge", "runs")]
            await store.resume()
            for key in ("runs", "waits"):
                assert (await store.wait(key, 60)).ok
        assert sorted(calls) == sorted(
            [(step, key) for key in ("runs", "waits") for step in ("charge", "send")]
            + [("book", f"{key}/:stay") for key in ("runs", "waits")]
        )

    run(main())


@pytest.mark.parametrize("forward_only", [False, True])
def test_an_abort_is_taken_during_a_pause(location: str, forward_only: bool) -> None:
    """Its compensations wait for the end of the pause, unless only forward work is paused."""
    calls: Calls = []
    pay, room = shop(calls)

    async def main() -> None:
        async with sagas.open(location, [pay, room]) as store:
            await store.pause("pay", "send", note="an outage")
            run = await store.start(pay, "a")
            await paused(store, "a", "send")
            await store.pause(note="fire", forward_only=forward_only)
            del calls[:]
            assert await run.abort() and not await run.abort()
            if forward_only:
                assert (await run.wait(60)).phase == "recovered"
            else:
                await paused(store, "a", "stay")
                assert calls == []
                await store.resume()
                assert (await run.wait(60)).phase == "recovered"
            assert calls == [("refund", "a")]

    run(main())


def test_a_failed_saga_undoes_after_the_pause(location: str) -> None:
    calls: Calls = []
    pay, room = shop(calls)

    async def main() -> None:
        async with sagas.open(location, [pay, room]) as store:
            run = await store.start(pay, "a", "bad")
            await store.pause("pay", "charge", note="no refunds today")
            with contextlib.suppress(TimeoutError):
                assert (await run.wait(0.3)).phase == "recovered"  # it was faster than the pause
                return
            await paused(store, "a", "charge")
            await store.resume("pay", "charge")
            assert (await run.wait(60)).phase == "recovered" and calls[-1] == ("refund", "a")

    run(main())


def test_attempts_that_wait_for_a_slot_or_a_limit_are_held(location: str) -> None:
    """They take no slot, and others get it."""
    calls: Calls = []

    async def main() -> None:
        gate, narrow, free = asyncio.Event(), sagas.Saga("narrow"), sagas.Saga("free")

        @narrow.step(undo=sagas.NOTHING, concurrency=1)
        async def slow(task: Task) -> None:
            calls.append(("slow", task.key))
            await gate.wait()

        @narrow.step(undo=sagas.NOTHING, fleet_concurrency=1)
        async def far(task: Task) -> None:
            calls.append(("far", task.key))
            await gate.wait()

        @free.step(undo=sagas.NOTHING)
        async def quick(task: Task) -> None:
            calls.append(("quick", task.key))

        async with sagas.open(location, [narrow, free], concurrency=3) as store:
            runs = [await store.start(narrow, f"n{number}") for number in range(4)]
            await until(lambda: len(calls) >= 2)
            await store.pause("narrow", note="too slow")
            for key in [run.key for run in runs]:
                await until(
                    lambda: all(
                        attempt.waits in ("paused", "") for attempt in store.active_attempts(key)
                    )
                )
            gate.set()
            assert (await (await store.start(free, "f")).wait(60)).ok
            held = [entry for run in runs for entry in store.active_attempts(run.key)]
            await until(lambda: not store._coordinator.slots.running)
            assert {entry.waits for entry in held} <= {"paused", ""}
            started = len(calls)
            await store.resume(narrow)
            for run in runs:
                assert (await run.wait(60)).ok
            assert started < len(calls) == 9

    run(main())


def test_what_a_pause_does_not_know(location: str) -> None:
    """A misspelled name pauses nothing, and starts are refused only if that was requested."""
    calls: Calls = []
    pay, room = shop(calls)

    async def main() -> None:
        async with sagas.open(location, [pay, room]) as store:
            for arguments, options, text in [
                (("pai",), {}, "no definition 'pai' is known here; did you mean 'pay'"),
                (("pay", "sendd"), {}, "has no step 'sendd'; did you mean 'send'"),
                ((None, "send"), {}, "the step 'send' needs its definition"),
                (("pay",), {"queue": "q"}, "the queue 'q' has no definition"),
                (("pay", "send"), {"refuse_starts": True}, "has no starts of its own"),
                ((), {"note": " "}, "note"),
            ]:
                with pytest.raises(ValueError, match=text):
                    await store.pause(*arguments, **{"note": "why", **options})  # type: ignore
            with pytest.raises(sagas.NoSuchPause, match="everything is not paused"):
                await store.resume()
            assert await store.pauses() == []
            first = await store.start(pay, "a")
            assert (await first.wait(60)).ok
            await store.pause(pay, note="full", by="ada", refuse_starts=True)
            with pytest.raises(sagas.StartsPaused, match="'pay' is paused: full by ada"):
                await store.start(pay, "b")
            assert not (await store.start(pay, "a")).new  # it exists
            await store.resume(pay)
            assert (await (await store.start(pay, "b")).wait(60)).ok

    run(main())


def test_timers_approvals_and_deadlines_continue(location: str) -> None:
    """A caller may report what waits, and what follows is held."""
    calls: Calls = []
    slow = sagas.Saga("slow")

    @slow.approval
    def sign(task: Task) -> None:
        calls.append(("sign", task.key))

    @slow.step(undo=sagas.NOTHING, needs=[sign])
    def after(task: Task) -> None:
        calls.append(("after", task.key))

    async def main() -> None:
        async with sagas.open(location, [slow]) as store:
            first = await store.start(slow, "a")
            await until(
                lambda: [entry.waits for entry in store.active_attempts("a")] == ["approval"]
            )
            await store.pause(note="fire")
            late = await store.start(slow, "late", deadline=datetime.timedelta(seconds=0.2))
            await store.complete("a", "sign", True)
            await paused(store, "a", "after")
            assert (await late.wait(60)).phase == "recovered"
            assert calls == [("sign", "a")]
            await store.resume()
            assert (await first.wait(60)).ok

    run(main())


def test_schedules_pause_with_their_definition(location: str) -> None:
    calls: Calls = []
    saga = sagas.Saga("tick")

    @saga.step(undo=sagas.NOTHING)
    def once(task: Task) -> None:
        calls.append(("once", task.key))

    async def main() -> None:
        async with sagas.open(location, [saga]) as store:
            await store.pause(saga, note="no ticks")
            every = datetime.timedelta(seconds=1)
            await store.schedule("s", saga, None, every=every, catch_up="skip")
            await asyncio.sleep(1.5)
            assert await store.count() == 0
            await store.resume(saga)
            await until(lambda: calls)

    run(main())


def test_workers_claim_nothing_that_is_paused(location: str) -> None:
    """A task that a worker has is reported, and the others wait."""
    far = sagas.Saga("far")
    far.step(name="a", external=True, undo=sagas.NOTHING)
    near = sagas.Saga("near")
    near.include(far, name="inner")
    TASKS = [("far", "a", "run"), ("near", "inner/a", "run")]

    async def main() -> None:
        store = sagas.open(location, [far, near])
        store.leased = True
        async with store:
            for saga, key in ((far, "f1"), (far, "f2"), (near, "n")):
                await store.start(saga, key)
            claim: Callable[..., Any] = store.workers.claim
            (task,) = await claim(TASKS[:1], limit=1, wait=30)
            await store.pause("far", note="down")
            assert await claim(TASKS, limit=9, wait=0.2) == []
            other = ({"f1", "f2"} - {task.task.key}).pop()
            assert await store.waits_for(other) == ["a is paused: down"]
            waiting = asyncio.create_task(claim(TASKS, limit=9, wait=30))
            await store.workers.report(task.attempt_id, task.lease, "done")
            assert (await store.wait(task.task.key, 60)).ok
            await store.resume("far")
            tasks = await waiting
            for left in tasks + await claim(TASKS, limit=9, wait=0.2):
                await store.workers.report(left.attempt_id, left.lease, "done")
            for key in ("f1", "f2", "n"):
                assert (await store.wait(key, 60)).ok

    run(main())


def test_each_node_obeys_a_client(url: str) -> None:
    """A pause that a client sets holds the sagas of each node within a second."""
    calls: Calls = []

    async def main() -> None:
        async with contextlib.AsyncExitStack() as stack:
            nodes = [
                await stack.enter_async_context(sagas.open(url, shop(calls), node=name))
                for name in ("one", "two")
            ]
            client = await stack.enter_async_context(sagas.Client(url))
            await client.pause("pay", "send", note="down", by="ada")
            async with asyncio.timeout(2):
                for node in nodes:
                    await until(lambda: node._coordinator.pauses.pauses)
            for number in range(4):
                node = nodes[number % 2]
                await node.start(node.sagas[0], str(number))
            for number in range(4):
                await paused(nodes[number % 2], str(number), "send")
            assert [pause.by for pause in await nodes[0].pauses()] == ["ada"]
            await client.resume("pay", "send")
            for number in range(4):
                assert (await client.wait(str(number), 60)).ok

    run(main())


def test_stores_of_an_older_release_get_the_table(tmp_path: pathlib.Path, url: str) -> None:
    path = str(tmp_path / "store.db")
    for location in (path, url):
        with sagas.open_sync(location, shop([])):
            pass
    with contextlib.closing(sqlite3.connect(path)) as file:
        file.execute("DROP TABLE pauses")
    with contextlib.closing(admin.connect(url, "rw")) as link:
        link.changed("DROP TABLE pauses")
    for location in (path, url):
        with sagas.open_sync(location, shop([])) as store:
            store.pause(note="fire", by="ada")
            assert [pause.by for pause in store.pauses()] == ["ada"]
            store.resume()


def test_a_role_has_the_rights_on_a_new_table(postgresql: Server, prepared: str) -> None:
    url = postgresql.create(template=prepared)
    with contextlib.closing(admin.connect(url, "rw")) as link:
        link.changed("DROP TABLE pauses")
        schema.migrate(link.connection, "store")  # type: ignore[attr-defined]
    with sagas.open_sync(postgresql.url(url.rpartition("/")[2], user="app"), shop([])) as store:
        store.pause(note="fire")
    postgresql.drop(url)
