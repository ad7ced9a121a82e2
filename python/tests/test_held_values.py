"""Large values of open sagas are held only while a function may read them.

They are read from the store when a function needs them.
"""

from __future__ import annotations

import asyncio
import pathlib
from typing import Any

import pytest
from cases import Task, run, until
from test_codec import KNOWN

import sagas
from sagas.core.attempt.declared_values import OptionCalls
from sagas.core.states import AttemptState
from sagas.definition.payloads import ABSENT, LARGE_VALUE

BIG = "b" * (4 * LARGE_VALUE)
INPUT = {"who": "ann", "big": BIG, "parcels": {"x": BIG, "y": "small"}}


def kinds() -> list[sagas.Saga]:
    """Return sagas whose functions read large values after others of them have waited."""
    inner, shaped = sagas.Saga("inner"), sagas.Saga("shaped")
    inner.step(lambda task: task.input, name="echo", undo=0)

    made = sagas.Saga("made", fair_by=lambda input: input["who"])
    first = made.step(lambda task: [task.input["big"]], name="first", undo=1, keep=9)

    @first.compensation
    async def undo(task: Task) -> None:
        assert task.result == [BIG] and task.input == INPUT

    ok = made.approval(lambda task: None, name="ok", needs=[first], skip=9)
    work = made.step(external=True, name="work", needs=[ok], undo=0)
    child = made.child(
        inner, name="child", needs=[work], input=lambda task: task.result_of("first")
    )

    @made.step(needs=[child], undo=0)
    async def last(task: Task) -> Any:
        assert task.input == INPUT and task.result_of(work) == {"big": BIG}
        return [task.result_of(first), task.result_of(child)["results"]["echo"]]

    late = shaped.approval(lambda task: None, name="late")
    shaped.step(lambda task: task.item, name="send", for_each="parcels", needs=[late], undo=0)
    return [inner, made, shaped]


def held(store: sagas.Store) -> list[str]:
    """Return the values that the program holds of its sagas."""
    held_values = []
    for saga in store._access.coordinator.sagas.by_key.values():
        held_values += [saga.text, saga.options.shape or "", *saga.results.values()]
        for attempt in saga.busy.values():
            held_values += attempt.results.values()
    return held_values


@pytest.mark.parametrize("codec", [None, KNOWN], ids=["plain", "codec"])
@pytest.mark.parametrize("has_blobs", [False, True], ids=["rows", "blobs"])
def test_values_are_read_when_they_are_needed(
    location: str, codec: Any, has_blobs: bool, tmp_path: pathlib.Path
) -> None:
    """This holds also for the next program, which loads none of them."""
    inner, made, shaped = kinds()
    blobs = sagas.FolderBlobStore(tmp_path / "blobs") if has_blobs else None
    options: dict[str, Any] = {"codec": codec, "blobs": blobs, "blob_threshold": 1000}

    def opened() -> sagas.Store:
        store = sagas.open(location, [inner, made, shaped], **options)
        store.leased = True
        return store

    async def waits(store: sagas.Store, key: str, why: str) -> None:
        await until(
            lambda: [attempt for attempt in store.active_attempts(key) if attempt.waits == why]
        )

    def nothing_held(store: sagas.Store) -> None:
        texts = held(store)
        assert ABSENT in texts and max(map(len, texts)) <= LARGE_VALUE

    async def first() -> None:
        async with opened() as store:
            for saga, key in ((made, "k"), (made, "undone"), (shaped, "s")):
                assert (await store.start(saga, key, INPUT)).new
                await waits(store, key, "approval")
            nothing_held(store)
            for saga, key in ((made, "k"), (shaped, "s")):
                assert not (await store.start(saga, key, INPUT)).new
                with pytest.raises(sagas.KeyConflict, match="another input"):
                    await store.start(saga, key, INPUT | {"big": "other"})
            await store.fail("undone", "ok", "no")
            end = await store.wait("undone")
            assert end.states["first"] == "undone" and not await store.attention()

    async def second() -> None:
        async with opened() as store:
            nothing_held(store)
            await store.complete("k", "ok")
            (task,) = await until(
                lambda: store.workers.claim([("made", "work", "run")], holder="w")
            )
            assert task.task.input == INPUT and task.task.result_of("first") == [BIG]
            nothing_held(store)
            await store.workers.report(task.attempt_id, task.lease, {"big": BIG}, holder="w")
            await store.complete("s", "late")
            for _ in range(2):
                assert (await store.wait("k", 60)).results["last"] == [[BIG], [BIG]]
                end = await store.wait("s", 60)
                assert end.ok and {*end.results.values()} == {BIG, None, "small"}

    run(first())
    run(second())


def test_a_queue_holds_nothing(tmp_path: pathlib.Path) -> None:
    """An attempt that waits for a slot has its values read when it has one; an abort in between
    works as usual.
    """
    made, gate = sagas.Saga("made"), asyncio.Event()

    @made.step(undo=0)
    async def slow(task: Task) -> int:
        await gate.wait()
        return len(task.input)

    @made.step(needs=[slow], undo=0)
    def plain(task: Task) -> int:
        return len(task.input)

    async def main() -> None:
        async with sagas.open(tmp_path / "store.db", [made], concurrency=2) as store:
            for number in range(12):
                await store.start(made, f"k{number}", BIG)
            whole = [text for text in held(store) if len(text) > LARGE_VALUE]
            assert len(whole) == 2 and ABSENT in held(store)
            assert await store.abort("k7")
            gate.set()
            for number in range(12):
                end = await store.wait(f"k{number}", 60)
                assert end.results == ({} if number == 7 else {"slow": len(BIG), "plain": len(BIG)})

    run(main())


def test_one_claim_has_a_budget(url: str, monkeypatch: pytest.MonkeyPatch) -> None:
    """Tasks beyond it are returned at once; one that is larger alone is passed on."""
    from sagas.runtime import external_queue

    monkeypatch.setattr(external_queue, "BUDGET", 5 * len(BIG) // 2)
    made = sagas.Saga("made")
    made.step(external=True, name="a", undo=0)

    async def main() -> None:
        store = sagas.open(url, [made])
        store.leased = True
        async with store:
            for number in range(7):
                await store.start(made, f"k{number}", BIG if number < 6 else 4 * BIG)
            seen: set[str] = set()
            while len(seen) < 7:
                options = {"limit": 10, "wait": 30.0, "holder": "w"}
                tasks = await store.workers.claim([("made", "a", "run")], **options)
                assert sum(len(task.task.input) for task in tasks) <= 5 * len(BIG) // 2 or (
                    len(tasks) <= 2 and len(tasks[-1].task.input) == 4 * len(BIG)
                )
                seen |= {task.task.key for task in tasks}
            assert len(seen) == 7

    run(main())


def test_an_attempt_that_has_changed_does_not_continue(tmp_path: pathlib.Path) -> None:
    """What it asked for before counts no more, even if the work for it starts only later."""
    saga = sagas.Saga("one")
    running, may_end = asyncio.Event(), asyncio.Event()

    @saga.step(backoff=sagas.Backoff(initial=0.2))
    async def work(task: Task) -> int:
        if not is_lost:
            is_lost.append(True)
            raise sagas.Unknown("lost")
        running.set()
        await may_end.wait()
        return 1

    is_lost: list[bool] = []

    async def main() -> None:
        async with sagas.open(str(tmp_path / "s.db"), [saga]) as store:
            started = await store.start(saga, "k")
            coordinator = store._access.coordinator
            instance = coordinator.sagas.by_key["k"]
            await until(
                lambda: [a for a in instance.busy.values() if a.state is AttemptState.SUSPENDED]
            )
            (attempt,) = instance.busy.values()
            executor, seen = coordinator.executor, list[Any]()
            guard, questions = attempt.pause_guard(), OptionCalls({})
            read = executor.values.then(attempt, seen.append)
            answering = executor._answer_question(attempt, questions, guard, seen.append)
            await running.wait()
            await read
            await answering
            assert seen == []
            may_end.set()
            assert (await started.wait(60)).ok

    run(main())
