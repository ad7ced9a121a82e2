"""The calls of an attempt after a retry of an operator: number, time, outcome and node."""

from __future__ import annotations

import asyncio
import datetime
from typing import Any

import pytest
from cases import QUICK, Task, run, until
from test_command import Shell

import sagas
from sagas.cli.snapshot import Snapshot
from sagas.inspection import calls, saga as one_saga
from sagas.inspection.question import StoreReader
from sagas.server import json_views, table_rows


def shop(numbers: list[int]) -> sagas.Saga[Any]:
    """Return a saga whose step fails twice, and whose next step has an unknown outcome."""
    saga = sagas.Saga[Any]("shop")

    @saga.step(undo=sagas.NOTHING, on_exhausted="ask", tries=1)
    def charge(task: Task) -> int:
        numbers.append(len(numbers) + 1)
        if len(numbers) < 3:
            raise sagas.Retry(f"busy {len(numbers)}")
        return len(numbers)

    @saga.step(undo=sagas.NOTHING, needs=[charge], max_unknown=1, backoff=QUICK)
    def ship(task: Task) -> None:
        numbers.append(0)
        if numbers.count(0) == 1:
            raise ConnectionError("lost")

    return saga


def test_a_retry_is_followed_by_its_call(location: str, capsys: pytest.CaptureFixture[str]) -> None:
    """In the history, the timeline and the page, and in `show` and `log` of the command."""
    saga, shell = shop([]), Shell(location, capsys)
    node = {"node": "n"} if location.startswith("postgresql") else {}

    async def main() -> None:
        async with sagas.open(location, [saga], **node) as store:
            await store.start(saga, "k")
            for step in ("charge", "charge", "ship"):
                await until(lambda: parked(store, step))
                await store.retry("k", step, by="ada")
                await until(lambda: not parked(store, step) or step == "charge")
            assert (await store.wait("k", 60)).ok
            reader = StoreReader(store._reader())
            try:
                view = reader.ask(one_saga.view("k"))
            finally:
                reader.close()
        assert view is not None
        name = node.get("node")
        listed = [
            (call.step, call.attempt, call.number, call.outcome, call.error, call.node)
            for call in calls.of(view, 0.0)
        ]
        assert listed == [
            ("charge", 1, 1, "failed", "sagas.Retry: busy 1", name),
            ("charge", 1, 2, "failed", "sagas.Retry: busy 2", name),
            ("charge", 1, 3, "succeeded", None, name),
            ("ship", 1, 1, "unknown", "ConnectionError: lost", name),
            ("ship", 1, 2, "succeeded", None, name),
        ]
        timeline = json_views.timeline(view, 0.0)["calls"]
        assert [call["number"] for call in timeline] == [1, 2, 3, 1, 2]
        assert all(call["began"] <= call["ended"] for call in timeline)
        history = [entry for entry in json_views.log(view, 0.0) if entry["event"] == "call"]
        assert [(entry["step"], entry["value"]["number"]) for entry in history] == [
            ("charge", 2),
            ("charge", 3),
            ("ship", 2),
        ]
        rows = table_rows.event_rows(calls.history(view, 0.0), {})
        on = f", on {name}" if name else ""
        texts = [row.value for row in rows if row.event == "call"]
        assert texts[0] == f"call 2: failed, sagas.Retry: busy 2{on}"
        notes = [entry["event"] for entry in json_views.log(view, 0.0)]
        assert notes.index("note") < notes.index("call")

    run(main())
    shown = shell("show", "k")
    assert "CALL" in shown and "busy 2" in shown and ("n" in node.values()) is (" n " in shown)
    assert "call 3: succeeded" in shell("log", "k")
    assert [call["number"] for call in shell.json("show", "k")["calls"]] == [1, 2, 3, 1, 2]


def parked(store: sagas.Store, step: str) -> bool:
    """Return whether a step waits for an operator."""
    waits = ("exhausted", "unknown")
    return any(entry.step == step and entry.waits in waits for entry in store.active_attempts("k"))


def test_each_wait_has_its_own_word(location: str) -> None:
    """A pause is not a queue for a slot, and a rate limit is not a limit of concurrency."""
    limited = sagas.Saga[Any]("limited")
    second = datetime.timedelta(seconds=1.5)
    limited.step(undo=sagas.NOTHING, rate_limit=(1, second), name="mail")(lambda task: None)

    async def main() -> None:
        async with sagas.open(location, [limited]) as store:
            for number in range(2):
                await store.start(limited, f"l{number}")
            await until(lambda: wait_names(store, "l1") == ["rate_limit"])
            await store.wait("l1", 60)
            await store.pause("limited", note="drill")
            await store.start(limited, "paused")
            await until(lambda: wait_names(store, "paused") == ["paused"])
            await store.resume("limited")
            await store.wait("paused", 60)
        reasons = {key: await asyncio.to_thread(reasons_of, location, key) for key in KEYS}
        assert "rate_limit" in reasons["l1"] and "fleet_limit" not in reasons["l1"]
        assert reasons["paused"][0] == "paused" and "fleet_limit" not in reasons["paused"]

    run(main())


KEYS = ("l1", "paused")


def reasons_of(location: str, key: str) -> list[str]:
    """Return why the attempts of a saga waited, by its timeline."""
    with Snapshot(location) as store:
        attempts = json_views.timeline(store.saga(key), 0.0)["attempts"]
    return [span["why"] for attempt in attempts for span in attempt["spans"] if span["why"]]


def wait_names(store: sagas.Store, key: str) -> list[str]:
    """Return what the attempts of a saga wait for."""
    return [entry.waits for entry in store.active_attempts(key)]
