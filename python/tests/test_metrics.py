"""The metrics of a service, by the events that it gets."""

from __future__ import annotations

import asyncio
import pathlib
import time
from typing import Any, cast

import pytest
from prometheus_client import generate_latest
from serving import report, served, start, take

import sagas
from sagas.base.events import Event
from sagas.server import metrics


def seconds(figures: metrics.Metrics) -> str:
    """Return how many steps' times were counted."""
    only = figures.registry.restricted_registry(["sagas_step_seconds_count"])
    return str(generate_latest(only).decode())  # type: ignore[arg-type]


def test_times_are_counted_whatever_else_began(monkeypatch: pytest.MonkeyPatch) -> None:
    """The ends of attempts at other nodes are never reported here: the oldest attempts
    are dropped.
    """
    monkeypatch.setattr(metrics, "MAX_BEGUN", 3)
    figures = metrics.Metrics(cast(Any, None))

    def report(name: str, key: str, at: float) -> None:
        figures.event(Event(name, at, key=key, saga="s", step="a", attempt=1))

    for number in range(10):
        report("step_started", f"elsewhere {number}", number)
    for number in range(5):
        report("step_started", f"here {number}", 20.0 + number)
        report("step_succeeded", f"here {number}", 20.5 + number)
    report("step_succeeded", "elsewhere 0", 30.0)
    assert 'sagas_step_seconds_count{action="run",saga="s"} 5.0' in seconds(figures)
    assert len(figures._began) <= 3


STEP = """
[[step]]
name = "step{0}"
undo = {1}
"""


def test_the_number_of_series_is_bounded(tmp_path: pathlib.Path) -> None:
    """Six definitions of six steps are fewer than 1,200 lines, after each step was done by a worker
    and some failed: without the times of creation, and with eight buckets.
    """
    steps = "".join(STEP.format(step, '"never"' if step % 2 else 1) for step in range(6))
    files = {
        f"kind{kind}.toml": f'format = 2\nname = "kind{kind}"\n[defaults]\ntries = 1\n{steps}'
        for kind in range(6)
    }
    with served(tmp_path, files) as service, service.client() as client:
        for kind in range(6):
            for key in ("good", "failed"):
                start(client, f"kind{kind}", f"{kind}-{key}")
            for step in range(6):
                for task in take(client, f"kind{kind}/step{step}", limit=2):
                    is_failure = step == 5 and task["key"].endswith("failed")
                    outcome = {"error": "no"} if is_failure else {"result": 1}
                    report(client, task, "fail" if is_failure else "complete", **outcome)
        client.get("/v1/sagas/5-good/wait?seconds=60")
        text = client.get("/metrics").text
    assert 'sagas_ended_total{phase="completed",saga="kind5"} 1.0' in text
    assert 'sagas_task_wait_seconds_count{saga="kind0"} 12.0' in text
    assert "_created" not in text
    buckets = [line for line in text.splitlines() if line.startswith("sagas_seconds_bucket")]
    assert len([line for line in buckets if 'phase="completed",saga="kind5"' in line]) == 8
    assert all("step=" not in line for line in text.splitlines() if "_bucket" in line)
    assert 600 < len(text.splitlines()) < 1200, len(text.splitlines())


def test_a_saga_that_another_program_started_has_its_duration(location: str) -> None:
    """The start of a saga is read with its shard."""
    waiting = sagas.Saga("waiting")

    @waiting.approval
    def review(task: sagas.Task) -> None:
        ...

    events: list[Event] = []

    async def begin() -> None:
        async with sagas.open(location, [waiting]) as store:
            await store.start(waiting, "k")

    async def finish() -> None:
        async with sagas.open(location, [waiting], on_event=events.append) as store:
            await store.complete("k", "review", None)
            await store.wait("k")

    asyncio.run(begin())
    time.sleep(0.3)
    asyncio.run(finish())
    (ended,) = [event for event in events if event.name == "saga_ended"]
    assert ended.seconds is not None and 0.3 < ended.seconds < 60
