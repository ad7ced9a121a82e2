"""Successes that were reported before their steps began, and that their sagas did not use: none is
lost.
"""

from __future__ import annotations

import asyncio
import json
import os
import signal
from typing import Any

import pytest
from cases import QUICK, Task, run, until
from test_command import Shell

import sagas
from sagas.core.attention import AttentionReason
from sagas.storage.folder_blobs import FolderBlobStore

RESULT = {"euros": 40}


def order(
    calls: list[Any], gate: asyncio.Event | None = None, faults: int = 0, **options: Any
) -> sagas.Saga:
    """Return a saga with a payment that is reported while the step that it needs runs."""
    saga, left = sagas.Saga("order"), [faults]

    @saga.step(keep=9)
    async def reserve(task: Task) -> int:
        if gate is not None:
            await gate.wait()
        return 7

    reserve.compensation(lambda task: calls.append("release"))
    pay = saga.step(name="pay", external=True, needs=[reserve], keep=9, **options)

    @pay.compensation(tries=3, backoff=QUICK)
    def refund(task: Task) -> None:
        if left[0]:
            left[0] -= 1
            raise sagas.Retry("not now")
        calls.append(
            (
                "refund",
                task.key,
                task.step,
                task.result,
                task.input,
                task.is_compensation,
                task.original_idempotency_key,
            )
        )

    saga.step(name="other", external=True, needs=[reserve], undo=0)
    saga.approval(name="sign", needs=[reserve])(lambda task: None)
    return saga


async def aborted(store: Any, saga: sagas.Saga, gate: asyncio.Event, key: str = "k") -> Any:
    """Return a saga that has ended without a report that was accepted."""
    gate.clear()
    begun = await store.start(saga, key, {"n": 1})
    await until(
        lambda: [attempt for attempt in store.active_attempts(key) if attempt.step == "reserve"]
    )
    await store.complete(key, "pay", RESULT, by="ada")
    await store.fail(key, "other", "no")
    await store.complete(key, "sign", True)
    assert await store.abort(key)
    with pytest.raises(sagas.StepNotWaiting):
        await store.compensate(key, "pay")  # it has not ended
    gate.set()
    end = await begun.wait(60)
    assert end.states["pay"] == "waiting"
    return end


def test_an_operator_has_it_compensated(location: str, capsys: pytest.CaptureFixture[str]) -> None:
    """It is in attention, with its result and its reporter.

    Its compensation is called with it, once, though the call is repeated. The same report again is
    still one, and another one conflicts. An unused failure or approval needs no operator.
    """
    calls, gate, shell, events = list[Any](), asyncio.Event(), Shell(location, capsys), list[str]()
    saga = order(calls, gate, faults=2)

    async def main() -> None:
        heard = lambda event: events.append(event.name)
        async with sagas.open(location, [saga], on_event=heard) as store:
            await aborted(store, saga, gate)
            (entry,) = await store.attention()
            assert (entry.key, entry.why, entry.step, entry.undo, entry.by) == (
                "k",
                AttentionReason.UNUSED_REPORT,
                "pay",
                False,
                "ada",
            )
            assert (
                json.loads(entry.detail or "") == RESULT and events.count("saga_unused_report") == 1
            )
            output = await asyncio.to_thread(shell, "attention")
            assert "unused report" in output and '{"euros":40} by ada' in output
            assert (await asyncio.to_thread(shell.json, "stats"))["unused_report"] == 1
            assert "unused   report of pay" in await asyncio.to_thread(shell, "show", "k")
            for step, why in (
                ("other", "no unused"),
                ("reserve", "no unused"),
                ("sign", "no unused"),
                ("payy", "did you mean 'pay'"),
            ):
                with pytest.raises(sagas.StepNotWaiting, match=why):
                    await store.compensate("k", step)
            await asyncio.gather(
                *(store.compensate("k", "pay", by="bob", note="so") for _ in range(3))
            )
            assert (await store.wait("k/:pay:undo", 60)).ok
            await store.compensate("k", sagas_step := saga.steps[1])
            assert sagas_step.name == "pay" and await store.attention() == []
            assert calls[0] == "release" and len(calls) == 2
            key = calls[1][-1]
            assert calls[1] == ("refund", "k", "pay", RESULT, {"n": 1}, True, key) and key.endswith(
                "-pay-run"
            )
            await store.complete("k", "pay", RESULT)
            with pytest.raises(sagas.ConflictingReport):
                await store.complete("k", "pay", {"euros": 41})
            with pytest.raises(sagas.StepNotWaiting, match="need to be resolved"):
                await store.resolve("k", "by hand")
            assert all(verdict.startswith("yes") for verdict in (await store.audit()).values())
        notes = [
            event
            for event in await asyncio.to_thread(shell.json, "log", "k")
            if event["event"] == "note"
        ]
        assert any("compensate" in str(note) and "bob" in str(note) for note in notes)

    run(main())
    assert "child    k/:pay:undo (completed)" in shell("show", "k")


def test_an_operator_resolves_it(location: str, capsys: pytest.CaptureFixture[str]) -> None:
    """By the store and by the command; no compensation is called from then on.

    Retention keeps the saga until then.
    """
    calls, gate, shell = list[Any](), asyncio.Event(), Shell(location, capsys)
    saga = order(calls, gate)

    async def main() -> None:
        async with sagas.open(location, [saga]) as store:
            for key in ("k", "l", "m"):
                await aborted(store, saga, gate, key)
            assert len(await store.list(phase="recovered")) == 3
            await store.resolve("k", "paid back", by="bob")
            await store.resolve("k", "paid back")
            with pytest.raises(sagas.StepNotWaiting, match="resolved already"):
                await store.compensate("k", "pay")
            assert "l: resolved" in await asyncio.to_thread(shell, "resolve", "l", "--note", "too")
            assert [entry.key for entry in await store.attention()] == ["m"]
            assert (await store.resolve_all("all")).done == ["m"]
            assert {summary.key for summary in await store.list(phase="resolved")} == {
                "k",
                "l",
                "m",
            }
            assert await store.attention() == [] and calls == ["release"] * 3

    run(main())


def test_compensation_without_an_operator_over_a_kill(location: str) -> None:
    """`early_unused="compensate"`: the program dies when the saga has ended, and the next one, or
    another node, calls it. Once.
    """
    if (child := os.fork()) == 0:
        try:
            gate = asyncio.Event()
            saga = order([], gate, early_unused="compensate")

            def heard(event: Any) -> None:
                if event.name == "saga_unused_report":
                    os.kill(os.getpid(), signal.SIGKILL)

            async def first() -> None:
                async with sagas.open(
                    location, [saga], node="one", lease=1, on_event=heard
                ) as store:
                    await aborted(store, saga, gate)

            asyncio.run(first())
        finally:
            os._exit(1)
    assert os.waitstatus_to_exitcode(os.waitpid(child, 0)[1]) == -signal.SIGKILL
    calls = list[Any]()
    saga = order(calls, early_unused="compensate")

    async def second() -> None:
        for _ in range(2):
            async with sagas.open(location, [saga], node="two", lease=1) as store:
                await until(lambda: store.get("k/:pay:undo"))
                assert (await store.wait("k/:pay:undo", 60)).ok
                await until_none(store)
                assert [call[:4] for call in calls] == [("refund", "k", "pay", RESULT)]

    run(second())


async def until_none(store: Any) -> None:
    """Wait until nothing needs an operator."""

    async def is_empty() -> bool:
        return not await store.attention()

    await until(is_empty)


def test_over_a_kill_between_the_start_and_the_acknowledgement(location: str) -> None:
    """The saga that compensates is started, and its program dies before its reply: the report is
    still in attention, and a repeated request calls nothing again.
    """
    calls, gate = list[Any](), asyncio.Event()
    saga = order(calls, gate)
    if (child := os.fork()) == 0:
        try:

            async def first() -> None:
                async with sagas.open(location, [saga], node="one", lease=1) as store:
                    await aborted(store, saga, gate)
                    inside = store._access.coordinator

                    async def kept(batch: Any) -> None:
                        os.kill(os.getpid(), signal.SIGKILL)

                    inside.kept = kept
                    await store.compensate("k", "pay")

            asyncio.run(first())
        finally:
            os._exit(1)
    assert os.waitstatus_to_exitcode(os.waitpid(child, 0)[1]) == -signal.SIGKILL

    async def second() -> None:
        async with sagas.open(location, [saga], node="two", lease=1) as store:
            await until(lambda: store.get("k/:pay:undo"))
            assert (await store.wait("k/:pay:undo", 60)).ok
            done = [*calls]
            assert [entry.step for entry in await store.attention()] == ["pay"]
            await store.compensate("k", "pay")
            assert await store.attention() == [] and calls == done and len(calls) <= 1

    run(second())


def test_with_items_a_codec_and_blobs(location: str, tmp_path: Any) -> None:
    """A step of an item, whose result and input are large and encoded: the compensation gets both.

    A program without the codec shows no result.
    """
    calls, gate, large = list[Any](), asyncio.Event(), "x" * 5000

    class Codec:
        def encode(self, data: bytes) -> bytes:
            return data[::-1]

        decode = encode

    saga = sagas.Saga("each")

    @saga.step(keep=9)
    async def first(task: Task) -> str:
        await gate.wait()
        return "done"

    first.compensation(lambda task: None)
    pay = saga.step(name="pay", for_each="items", external=True, needs=[first], keep=9)
    pay.compensation(
        lambda task: calls.append(
            (task.step, task.item, task.index, task.result, task.result_of(first))
        )
    )

    async def main() -> None:
        options: dict[str, Any] = {
            "codec": Codec(),
            "blobs": FolderBlobStore(tmp_path / "blobs"),
            "blob_threshold": 1024,
        }
        async with sagas.open(location, [saga], **options) as store:
            begun = await store.start(saga, "k", {"items": ["a", large]})
            await until(lambda: store.active_attempts("k"))
            await store.complete("k", "pay-1", large)
            await store.abort("k")
            gate.set()
            await begun.wait(60)
            (entry,) = await store.attention()
            assert (entry.step, entry.by, json.loads(entry.detail or "")) == ("pay-1", None, large)
            ((stored,),) = await store._access.coordinator.store.read(
                "SELECT detail FROM suspensions WHERE number = 0"
            )
            assert large not in stored
            await store.compensate("k", "pay-1")
            assert (await store.wait("k/:pay-1:undo", 60)).ok
            assert calls == [("pay-1", large, 1, large, "done")]

    run(main())


def test_a_worker_compensates_an_item_of_an_included_saga(location: str) -> None:
    """The task has the item, its key, the input, the arguments of the included saga, and the
    results, as any compensation has.
    """
    inner, outer = sagas.Saga("inner"), sagas.Saga("outer")
    sign = inner.approval(name="sign")(lambda task: None)
    pay = inner.step(name="pay", for_each="items", external=True, needs=[sign], keep=9)
    pay.compensation(external=True)
    first = outer.step(name="first", keep=9)(lambda task: "done")
    first.compensation(lambda task: None)
    outer.include(inner, name="part", needs=[first], given=lambda task: task.result_of(first))

    async def main() -> None:
        store = sagas.open(location, [outer])
        store.leased = True
        async with store:
            begun = await store.start(outer, "k", {"items": {"a": 1, "b": 2}})
            await until(
                lambda: [
                    attempt for attempt in store.active_attempts("k") if attempt.waits == "approval"
                ]
            )
            await store.complete("k", "part-pay-1", RESULT)
            await store.abort("k")
            await begun.wait(60)
            await store.compensate("k", "part-pay-1")
            (leased,) = await store.workers.claim([("outer", "part/pay", "undo")], wait=60)
            task = leased.task
            assert (task.key, task.step, task.item, task.index, task.result) == (
                "k",
                "part-pay-1",
                2,
                "b",
                RESULT,
            )
            assert (task.input, json.loads(leased.given)) == ({"items": {"a": 1, "b": 2}}, "done")
            fields = task._plain
            assert (fields["item"], fields["item_key"], fields["shape"]["saga"]) == (
                2,
                "b",
                "inner",
            )
            await store.workers.report(leased.attempt_id, leased.lease)
            assert (await store.wait("k/:part-pay-1:undo", 60)).ok

    run(main())


def test_a_compensation_of_an_unused_report_fails(location: str) -> None:
    """It needs an operator, as any other; and a step without a compensation is not listed as
    compensated.
    """
    gate = asyncio.Event()
    saga = sagas.Saga("plain")

    @saga.step
    async def hold(task: Task) -> None:
        await gate.wait()

    pay = saga.step(name="pay", external=True, needs=[hold], keep=9)
    pay.compensation(tries=1, no_effect=(ZeroDivisionError,))(lambda task: 1 / 0)
    saga.step(name="ship", external=True, needs=[hold])

    async def main() -> None:
        async with sagas.open(location, [saga]) as store:
            begun = await store.start(saga, "k")
            await until(lambda: store.active_attempts("k"))
            await store.complete("k", "pay", 1)
            await store.complete("k", "ship", 2)
            await store.abort("k")
            gate.set()
            await begun.wait(60)
            with pytest.raises(sagas.StepNotWaiting, match="no compensation. Undo it by hand"):
                await store.compensate("k", "ship")
            await store.compensate("k", "pay")
            await until(
                lambda: [
                    attempt
                    for attempt in store.active_attempts("k/:pay:undo")
                    if attempt.waits == "exhausted"
                ]
            )

            async def asks() -> bool:
                entries = {
                    (entry.key, entry.step, entry.why.value) for entry in await store.attention()
                }
                return entries == {
                    ("k", "ship", "unused_report"),
                    ("k/:pay:undo", "pay", "exhausted"),
                }

            await until(asks)
            await store.complete("k/:pay:undo", "pay")
            await store.resolve("k", "shipped back")

    run(main())


def test_from_elsewhere(url: str, capsys: pytest.CaptureFixture[str]) -> None:
    """A client and the command request it, and a node that has the definition does it; a node
    without it leaves that to the others.
    """
    calls, gate, shell = list[Any](), asyncio.Event(), Shell(url, capsys)
    saga = order(calls, gate)

    async def main() -> None:
        async with sagas.open(url, [saga], node="one") as store:
            for key in ("k", "l"):
                await aborted(store, saga, gate, key)
        output = await asyncio.to_thread(shell, "compensate", "l", "pay", "--timeout", "0")
        assert "requested" in output
        async with sagas.open(url, [saga], node="two") as store, sagas.Client(url) as client:
            assert {entry.key for entry in await client.attention()} >= {"k"}
            await client.compensate("k", "pay", by="cleo")
            await client.compensate("k", "pay", by="cleo")
            await until(lambda: store.get("l/:pay:undo"))
            for key in ("k", "l"):
                assert (await store.wait(f"{key}/:pay:undo", 60)).ok
            await until_none(store)
            with pytest.raises(sagas.StepNotWaiting):
                await client.compensate("k", "other")
        assert sorted(call[1] for call in calls if call != "release") == ["k", "l"]

    run(main())


def test_of_a_node_without_the_definition(url: str) -> None:
    """The request goes to such a node, or comes while only it has the shard: the nodes that have
    the definition execute it.
    """
    calls, gate, other = list[Any](), asyncio.Event(), sagas.Saga("other")
    saga = order(calls, gate)
    other.step(name="only")(lambda task: None)

    async def main() -> None:
        async with sagas.open(url, [saga], node="one") as store:
            for key in ("k", "l"):
                await aborted(store, saga, gate, key)
        async with sagas.open(url, [other], node="two") as store, sagas.Client(url) as client:
            requests_made = [
                asyncio.ensure_future(of.compensate(key, "pay", by="cleo"))
                for of, key in ((store, "k"), (client, "l"))
            ]
            await until(lambda: requests(store, 2))
            async with sagas.open(url, [saga], node="three") as third:
                await asyncio.gather(*requests_made)
                for key in ("k", "l"):
                    assert (await third.wait(f"{key}/:pay:undo", 60)).ok
            await until_none(store)
        assert sorted(call[1] for call in calls if call != "release") == ["k", "l"]

    async def requests(store: Any, count: int) -> bool:
        ((pending,),) = await store._access.coordinator.store.read(
            "SELECT count(*) FROM operator_commands WHERE answer IS NULL AND command = 'compensate'"
        )
        return bool(pending == count)

    run(main())


def test_invalid_options() -> None:
    """Each error has the step, and what to do."""
    saga = sagas.Saga("s")
    with pytest.raises(sagas.DefinitionError, match="early_unused='no': must be ask or compensate"):
        saga.step(name="a", external=True, early_unused="no")  # type: ignore[call-overload]
    with pytest.raises(sagas.DefinitionError, match="only external steps"):
        saga.step(name="b", early_unused="compensate")(lambda task: None)
    other = sagas.Saga("t")
    other.step(name="a", external=True, early_unused="compensate")
    with pytest.raises(sagas.DefinitionError, match="needs a compensation"):
        other.toml()
