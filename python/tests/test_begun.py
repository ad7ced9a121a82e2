"""Attempts that have started and are not being called.

The program that has the saga knows what they wait for. The command, which has only the store,
reports that they have started.
"""

from __future__ import annotations

import asyncio
import contextlib
import datetime
import json
import pathlib
from typing import Any

import pytest
from cases import HOUR, Task, run, until

import sagas
from sagas.cli import store_command
from sagas.inspection.views import SagaView, Waits, with_active_attempts
from sagas.core.history import Stretch
from sagas.inspection import lists, saga as one_saga
from sagas.inspection.question import StoreReader

BOUNDS: dict[str, dict[str, Any]] = {
    "concurrency": {"concurrency": 1},
    "fleet_concurrency": {"fleet_concurrency": 1},
    "rate_limit": {"rate_limit": (1, 3600)},
}


def kinds(gate: asyncio.Event) -> dict[str, sagas.Saga]:
    """Return a saga for each reason to wait, whose step is called until its gate opens."""

    async def wait(task: Task) -> None:
        await gate.wait()

    async def fail(task: Task) -> None:
        raise sagas.Retry("not now")

    sagas_by_reason = {word: sagas.Saga(word) for word in (*BOUNDS, "backoff", "worker")}
    for word, options in BOUNDS.items():
        sagas_by_reason[word].step(name="a", **options)(wait)
    sagas_by_reason["backoff"].step(name="a", tries=2, backoff=HOUR)(fail)
    sagas_by_reason["worker"].step(name="a", external=True)
    return sagas_by_reason


def test_without_async(tmp_path: pathlib.Path) -> None:
    """The same without async."""
    saga = sagas.Saga("one")
    saga.step(name="a", external=True)
    with sagas.open_sync(tmp_path / "x.db", [saga]) as store:
        store.start(saga, "k")
        run(until(lambda: [attempt.waits for attempt in store.active_attempts("k")] == ["worker"]))
        store.complete("k", "a")


def test_a_call_after_a_wait_is_not_listed_as_waiting(location: str) -> None:
    """Once the time has come, no list reports the wait any more."""
    gate, late = asyncio.Event(), sagas.Saga("late")

    @late.wait(until=datetime.timedelta(seconds=0.05))
    async def then(task: Task) -> None:
        await gate.wait()

    async def main() -> None:
        async with sagas.open(location, [late], shutdown_timeout=0.0) as store:
            with contextlib.closing(StoreReader(store._reader())) as looks:
                await store.start(late, "k")
                await until(
                    lambda: [attempt.waits for attempt in store.active_attempts("k")] == [""]
                )
                view = looks.ask(one_saga.view("k"))
                assert view and view.held == [] and looks.ask(lists.waits(person=False)) == []
                state = with_active_attempts(view, store.active_attempts("k"), store._now())
                assert state.running == {("then", False)} and state.held == []

    run(main())


def test_the_store_and_its_program_together() -> None:
    """A lease that has expired does not count.

    The program's report replaces an older row, and is left out if it is of another attempt.
    """

    def held(why: str, until: float | None, detail: str | None = None, attempt: int = 1) -> Waits:
        return Waits(1, "k", "s", "a", False, attempt, why, 2, 5.0, until, detail)

    def state_of(
        rows: list[Waits], *begun: sagas.ActiveAttempt
    ) -> tuple[list[tuple[str, str | None]], bool]:
        summary = sagas.Summary(1, "k", "s", "open", 0.0, None, None)
        stretch = Stretch("a", False, 1, 3.0, None, None)
        view = SagaView(
            summary, False, None, None, {}, [], None, rows, [], [], [stretch], [], [], "", "x-1"
        )
        state = with_active_attempts(view, begun, 100.0)
        return [(wait.why, wait.detail) for wait in state.held], ("a", False) in state.running

    def begun(waits: str, attempt: int = 1) -> sagas.ActiveAttempt:
        return sagas.ActiveAttempt("a", False, attempt, waits, None)

    assert (
        state_of([]) == ([], False)
        and state_of([], begun("")) == ([], True)
        and state_of([], begun("", 2)) == ([], False)
    )
    assert state_of([], begun("concurrency")) == ([("concurrency", None)], False)
    assert state_of([held("external", 101.0, "w")]) == ([("external", "w")], True)
    lapsed = [("worker", "the lease of w expired")], False
    assert (
        state_of([held("external", 99.0, "w")])
        == state_of([held("external", 99.0, "w")], begun("worker"))
        == lapsed
    )
    assert state_of([held("unknown", 99.0, "odd")], begun("")) == ([], True)
    assert state_of([held("unknown", 99.0, "odd")], begun("concurrency")) == (
        [("concurrency", None)],
        False,
    )
    assert state_of([held("unknown", None, "odd")], begun("unknown")) == (
        [("unknown", "odd")],
        False,
    )


def test_started_attempts_have_a_reason_to_wait(
    location: str, capsys: pytest.CaptureFixture[str]
) -> None:
    """The reasons are its limit, its rate, a back-off, or an external worker.

    The program reports attempts that are being called; the command reports both as started.
    """

    async def shown(key: str, *arguments: str) -> str:
        assert await asyncio.to_thread(store_command.main, [location, "show", key, *arguments]) == 0
        return capsys.readouterr().out

    async def main() -> None:
        gate = asyncio.Event()
        there = kinds(gate)
        async with sagas.open(location, there.values(), shutdown_timeout=0.0) as store:

            def waits(key: str) -> list[str]:
                return [attempt.waits for attempt in store.active_attempts(key)]

            for word, kind in there.items():
                if word in BOUNDS:
                    await store.start(kind, f"{word}-1")
                    await until(lambda: waits(f"{word}-1") == [""])
                await store.start(kind, f"{word}-2")
                await until(lambda: waits(f"{word}-2") == [word])
                for key in [f"{word}-1", f"{word}-2"] if word in BOUNDS else [f"{word}-2"]:
                    assert " begun " in await shown(key) and [
                        step["state"] for step in json.loads(await shown(key, "--json"))["steps"]
                    ] == ["begun"]
            ((backoff,),) = [store.active_attempts("backoff-2")]
            assert (
                (backoff.step, backoff.undo, backoff.attempt) == ("a", False, 2)
                and backoff.until is not None
                and backoff.until > store._now() + 3000
            )
            assert store.active_attempts("nobody") == []
            for key, says in (
                ("concurrency-1", "it runs now"),
                ("concurrency-2", "it waits for a slot of its concurrency"),
                ("backoff-2", "it waits for its next attempt"),
            ):
                with pytest.raises(
                    sagas.StepNotWaiting, match=f"does not wait for a report: {says}"
                ):
                    await store.complete(key, "a")
            gate.set()
            assert (await store.wait("concurrency-2")).ok and store.active_attempts(
                "concurrency-2"
            ) == []

    run(main())
