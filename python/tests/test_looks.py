"""Reads of a store, and the record of who did what: the same over both databases."""

from __future__ import annotations

import asyncio
import pathlib
import time
from typing import Any

import records
from cases import QUICK, Task, run, until

import sagas
from sagas.inspection import lists, pages, saga as one_saga, store_figures, what_if
from sagas.inspection.question import StoreReader
from sagas.server import json_views


def asking() -> sagas.Saga:
    """Return a saga with a step, and then an approval."""
    asking = sagas.Saga("asking")

    @asking.step
    async def a(task: Task) -> str:
        return "A"

    @a.compensation
    async def not_a(task: Task) -> None:
        ...

    @asking.approval(needs=[a])
    async def agreed(task: Task) -> None:
        ...

    return asking


def test_reads_and_the_record_of_operators(location: str) -> None:
    """Check counts, pages, a search, what needs an operator, one saga, and the notes of an abort
    and of a finish.
    """
    kind = asking()

    async def main() -> None:
        async with sagas.open(location, [kind]) as store:
            looks = StoreReader(store._reader())
            try:
                for key in ("one", "two", "t_ree"):
                    await store.start(kind, key=key, input={"n": key})
                await until(lambda: looks.ask(store_figures.attention_counts())["approval"] == 3)
                assert looks.ask(lists.counts()) == {
                    "asking": {"open": 3, "completed": 0, "recovered": 0, "stuck": 0, "resolved": 0}
                }
                assert [wait.step for wait in looks.ask(lists.waits())] == ["agreed"] * 3
                await store.complete("one", "agreed", {"yes": True}, by="ann", note="seen")
                assert await store.abort("two", by="bob", note="no more")
                assert ((await store.wait("one")).phase, (await store.wait("two")).phase) == (
                    "completed",
                    "recovered",
                )
                assert not await store.abort("two", by="bob")
                noted: list[Any] = [
                    (note.what, note.arguments["by"], note.arguments["note"], note.answer)
                    for key in ("one", "two")
                    for note in looks.ask(one_saga.notes(key))
                ]
                assert noted == [
                    ("complete", "ann", "seen", True),
                    ("abort", "bob", "no more", True),
                ]
                assert [row.key for row in looks.ask(pages.page(phase="completed"))] == ["one"]
                assert [row.key for row in looks.ask(pages.page(search="t_"))] == ["t_ree"]
                assert looks.ask(lists.stuck()) == []
                view = looks.ask(one_saga.view("two"))
                assert (
                    view
                    and view.aborted
                    and view.phase == "recovered"
                    and {step.name for step in view.steps} == {"a", "agreed"}
                )
                assert looks.ask(one_saga.view("none")) is None
                await store.abort("t_ree")
                await store.wait_idle()
            finally:
                looks.close()

    run(main())


class Clock:
    """A clock that can be set forward and back."""

    by = 0.0

    def __call__(self) -> float:
        return time.time() + self.by


def test_events_keep_the_order_of_their_log(location: str) -> None:
    """Its times go back when a clock is set back.

    Its events keep the order of the log, each with its effects, and an action of an operator comes
    before its effects.
    """
    kind, clock = sagas.Saga("order"), Clock()

    @kind.step(tries=3, backoff=QUICK)
    async def a(task: Task) -> int:
        clock.by -= 1
        if task.attempt < 3:
            raise sagas.Retry(f"try {task.attempt}")
        return task.attempt

    @kind.approval(needs=[a])
    async def agreed(task: Task) -> None:
        ...

    @kind.step(needs=[agreed])
    async def b(task: Task) -> None:
        clock.by -= 60

    async def main() -> None:
        async with sagas.open(location, [kind], settings=sagas.Settings(clock=clock)) as store:
            run = await store.start(kind, "k")
            looks = StoreReader(store._reader())
            try:
                await until(lambda: looks.ask(store_figures.attention_counts())["approval"])
                clock.by += 30
                await store.complete("k", "agreed", "yes", by="ann")
                assert (await run.wait()).ok
                view = looks.ask(one_saga.view("k"))
            finally:
                looks.close()
            assert view
            names = [step.name for step in kind.steps]
            (kept,) = records.read(location).logs.values()
            steps = [names[event["step"]] if "step" in event else None for event in kept.events]
            wanted = [*zip([event["event"] for event in kept.events], steps)]
            times = [event.at for event in view.events]
            assert times != sorted(times) and times[-1] < times[0]
            assert [(event.event, event.step) for event in await store.log("k")] == wanted
            ordered = [(event["event"], event["step"]) for event in json_views.log(view, clock())]
            note = ordered.index(("note", "agreed"))
            assert ordered[note - 1] == ("start_run", "agreed")
            assert ordered[note + 1] == ("commit", "agreed")
            assert ordered[:note] + ordered[note + 1 :] == wanted
            for events in (await store.log("k"), view.events):
                errors = [event.value["error"] for event in events if event.event == "missed"]
                assert errors == ["sagas.Retry: try 1", "sagas.Retry: try 2"]

    run(main())


class Counting:
    """A reader that counts the characters that it read."""

    def __init__(self, reader: Any) -> None:
        self._reader, self.read = reader, 0

    def rows(self, query: str, *parameters: Any) -> list[tuple[Any, ...]]:
        rows_read: list[tuple[Any, ...]] = self._reader.rows(query, *parameters)
        self.read += sum(len(cell) for row in rows_read for cell in row if isinstance(cell, str))
        return rows_read

    def close(self) -> None:
        self._reader.close()


def test_one_saga_of_a_long_shard(location: str) -> None:
    """Only the parts of the shard's event log that name the saga are read."""
    kind = sagas.Saga("short")

    @kind.step
    async def a(task: Task) -> None:
        ...

    async def main() -> None:
        async with sagas.open(location, [kind]) as store:
            for number in range(100):
                assert (await (await store.start(kind, f"k{number}")).wait()).ok
            counting = Counting(store._reader())
            looks = StoreReader(counting)
            try:
                view = looks.ask(one_saga.view("k50"))
            finally:
                looks.close()
            assert view and [event.event for event in view.events] == [
                "open",
                "start_run",
                "commit",
            ]
            (kept,) = records.read(location).logs.values()
            whole = sum(len(text) for _, text in kept.chunks)
            assert counting.read < whole / 5

    run(main())


def test_what_if_a_step_has_failed_permanently(tmp_path: pathlib.Path) -> None:
    """While the saga waits for others, such a step is not reported as one to run, nor its
    compensation: the answers are what then happens to the saga.
    """
    run_fails, undo_fails = sagas.Saga("run"), sagas.Saga("undo")
    gate = asyncio.Event()

    async def fails(task: Task) -> None:
        await gate.wait()
        raise sagas.Fail("refused for ever")

    run_fails.step(name="car", external=True, skip=3)
    run_fails.step(name="visa", tries=2, undo=sagas.NEVER, skip=sagas.NEVER)(fails)
    take = undo_fails.step(name="take", undo=1, keep=7)(lambda task: 1)
    take.compensation(tries=2, on_exhausted="fail")(fails)
    undo_fails.step(name="car", external=True, skip=3)
    for kind in (run_fails, undo_fails):
        hotel = kind.step(name="hotel", external=True, undo=2, keep=9)
        hotel.compensation(external=True)

    async def main() -> None:
        async with sagas.open(tmp_path / "store.db", [run_fails, undo_fails]) as store:
            looks = StoreReader(store._reader())

            def view(key: str) -> Any:
                return looks.ask(one_saga.view(key))

            async def has(key: str, step: str, state: str) -> None:
                await until(
                    lambda: {step.name: step.state for step in view(key).steps}[step] == state
                )

            async def missed(key: str, outcome: str) -> None:
                await until(
                    lambda: any(attempt.outcome == outcome for attempt in view(key).attempts)
                )

            try:
                for kind in (run_fails, undo_fails):
                    await store.start(kind, key=kind.name)
                await has("undo", "take", "committed")
                await store.complete("undo", "hotel", 1)
                await has("undo", "hotel", "committed")
                for key in ("run", "undo"):
                    await store.fail(key, "car", "none left")
                await has("run", "car", "failed")
                await has("undo", "take", "undoing")
                await has("undo", "hotel", "undoing")
                await store.abort("undo")
                gate.set()
                await missed("run", "missed")
                await missed("undo", "undo_missed")
                assert (
                    what_if.describe_completion(view("run"), "hotel")
                    == "It would be stuck, because of visa"
                )
                assert (
                    what_if.describe_failure(view("run"), "hotel")
                    == "It would be stuck, because of visa"
                )
                supposed = what_if.of(view("undo"), done="hotel").plan
                assert (supposed.cost, supposed.choices[0].decision) == (10, "stands")
                await store.complete("run", "hotel", 1)
                for key in ("run", "undo"):
                    await has(key, "hotel", "undoing")
                    await store.complete(key, "hotel", undo=True)
                ends = [await store.wait(key) for key in ("run", "undo")]
                assert [end.phase for end in ends] == ["stuck", "recovered"]
                assert ends[1].states == {"take": "undo_failed", "car": "failed", "hotel": "undone"}
                assert ends[1].cost == supposed.cost
            finally:
                looks.close()

    run(main())
