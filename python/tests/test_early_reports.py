"""Reports that come before their step starts: stored, used once, and kept over any crash."""

from __future__ import annotations

import asyncio
import os
import signal
from typing import Any

import pytest
from cases import QUICK, Task, run, until
from test_command import Shell

import sagas
import sagas.testing


def visit(calls: list[str] | None = None) -> sagas.Saga:
    """Return a saga with an approval that opens the others: one more, and an external step."""
    saga, called = sagas.Saga("visit"), [] if calls is None else calls

    opened = saga.approval(name="open", backoff=QUICK)(lambda task: None)

    @saga.approval(name="visa", needs=[opened], backoff=QUICK)
    def visa(task: Task) -> None:
        called.append("visa")

    flight = saga.step(name="flight", needs=[opened], external=True, tries=3)

    @saga.step(name="pack", needs=[visa, flight])
    def pack(task: Task) -> list[Any]:
        return [task.results["visa"], task.results["flight"]]

    return saga


async def asks(store: sagas.Store, step: str = "open") -> None:
    """Wait until the step needs a report."""
    waits = ("approval", "worker")
    await until(
        lambda: [
            a for a in store.active_attempts("k") if (a.step, a.waits in waits) == (step, True)
        ]
    )


def test_it_is_stored_and_used(location: str, capsys: pytest.CaptureFixture[str]) -> None:
    """An approval whose function is not called, and a step that no worker gets.

    The report is listed before, and gone afterwards. The same report again is one, and another one
    conflicts, also at the same time.
    """
    calls, shell = list[str](), Shell(location, capsys)
    saga = visit(calls)

    async def wrong(message: str, *arguments: Any, **more: Any) -> None:
        with pytest.raises(sagas.StepNotWaiting, match=message) as error:
            await store.complete("k", *arguments, **more)
        assert "secret" not in str(error.value)

    async def rows() -> list[Any]:
        inside = store._access.coordinator
        return await inside.store.read("SELECT step, number, reason FROM suspensions ORDER BY step")

    async def main() -> None:
        nonlocal store
        async with sagas.open(location, [saga]) as store:
            trip = await store.start(saga, "k")
            await asks(store)
            await wrong("it has not started. Report", "visa", early=False)
            await wrong("nor external", "pack")
            await wrong("it has not started. Report", "open", undo=True)
            await wrong("has no step 'vis'; did you mean 'visa'", "vis")
            both = (store.complete("k", "visa", n) for n in (1, 2, 1))
            outcomes = await asyncio.gather(*both, return_exceptions=True)
            kinds = [type(outcome).__name__ for outcome in outcomes]
            assert kinds == ["NoneType", "ConflictingReport", "NoneType"]
            await trip.complete("visa", 1)
            await wrong("a report of it is stored", "visa", "secret")
            with pytest.raises(sagas.ConflictingReport, match="a report of it is stored"):
                await trip.fail("visa", "secret")
            await store.complete("k", "flight", "LH1", by="ada")
            assert await rows() == [
                (0, 1, "approval"),
                (1, 0, "early_result"),
                (2, 0, "early_result"),
            ]
            assert "visa    waiting" in (output := await asyncio.to_thread(shell, "show", "k"))
            assert output.count("reported early: complete") == 2
            steps = (await asyncio.to_thread(shell.json, "show", "k"))["steps"]
            assert [step["early"] for step in steps] == [None, "complete", "complete", None]
            assert len(await asyncio.to_thread(shell.json, "pending")) == 1
            assert await store.waits_for("k") == ["open waits for an approval"]
            await store.complete("k", "open")
            end = await trip.wait(60)
            assert end.ok and end.results["pack"] == [1, "LH1"] and calls == []
            assert await rows() == []
            await store.complete("k", "visa", 1)
            await wrong("it has succeeded|a different outcome", "visa", 2)

    store: Any = None
    run(main())


def test_a_failure_ends_it(location: str) -> None:
    """A failure is permanent: no other attempt is made."""
    saga = visit()

    async def main() -> None:
        async with sagas.open(location, [saga]) as store:
            run = await store.start(saga, "k")
            await asks(store)
            await store.fail("k", "flight", "no seat")
            await store.complete("k", "open")
            end = await run.wait(60)
            assert end.states["flight"] == "failed" and end.errors["flight"] == "no seat"
            assert end.states["open"] == "undone"
            read = store._access.coordinator.store.read
            assert await read("SELECT 1 FROM suspensions") == []

    run(main())


def test_an_unused_report_stays_known(location: str, capsys: pytest.CaptureFixture[str]) -> None:
    """A saga that is undone takes no report of another step.

    The same report again is not an error, and another one conflicts. This holds while it is undone
    and once it is over, by Python and by the command.
    """
    shell, gate, saga = Shell(location, capsys), asyncio.Event(), sagas.Saga("held")

    @saga.step
    async def hold(task: Task) -> None:
        await gate.wait()

    saga.approval(name="visa", needs=[hold])(lambda task: None)
    saga.approval(name="other", needs=[hold])(lambda task: None)

    async def again(store: sagas.Store) -> None:
        await store.complete("k", "visa", "same")
        with pytest.raises(sagas.ConflictingReport, match="a report of it"):
            await store.complete("k", "visa", "another")
        with pytest.raises(sagas.ConflictingReport):
            await store.fail("k", "visa", "same")
        with pytest.raises(sagas.StepNotWaiting):
            await store.complete("k", "other", "same")

    async def main() -> None:
        async with sagas.open(location, [saga]) as store:
            run = await store.start(saga, "k")
            await store.complete("k", "visa", "same")
            assert await store.abort("k")
            await again(store)
            gate.set()
            assert (await run.wait(60)).aborted
            await again(store)
            steps = (await asyncio.to_thread(shell.json, "show", "k"))["steps"]
            assert [step["early"] for step in steps] == [None] * 3
            if "://" in location:
                async with sagas.Client(location) as client:
                    await client.complete("k", "visa", "same")
                    with pytest.raises(sagas.ConflictingReport):
                        await client.complete("k", "visa", "another")

    run(main())
    shell("complete", "k", "visa", "--result", '"same"')
    shell("complete", "k", "visa", "--result", '"another"', status=1)
    shell("complete", "k", "other", status=1)
    shell("complete", "k", "hold")


def test_it_outlives_a_kill(location: str, capsys: pytest.CaptureFixture[str]) -> None:
    """The next program, or another node, has it; so it is with a report by the command."""
    saga, shell = visit(), Shell(location, capsys)
    if (child := os.fork()) == 0:

        async def first() -> None:
            async with sagas.open(location, [saga], node="one", lease=1) as store:
                await store.start(saga, "k")
                await store.complete("k", "visa", {"by": "ada"})
                os.kill(os.getpid(), signal.SIGKILL)

        asyncio.run(first())
    assert os.waitstatus_to_exitcode(os.waitpid(child, 0)[1]) == -signal.SIGKILL
    assert "requested" in shell("complete", "k", "flight", "--result", '"LH1"', "--timeout", "0")

    async def second() -> None:
        async with sagas.open(location, [saga], node="two", lease=1) as store:
            await until(lambda: store.active_attempts("k"))
            arguments = ("complete", "k", "flight", "--result", '"LH2"', "--no-early")
            output = await asyncio.to_thread(shell, *arguments, status=1)
            assert output == ""  # refused: the first one is stored, or it has not started
            await store.complete("k", "open")
            assert (await store.wait("k", 60)).results["pack"] == [{"by": "ada"}, "LH1"]

    run(second())


def test_with_a_codec(location: str) -> None:
    """The stored report is encoded; a program that cannot decode it leaves the attempt to another
    one.
    """

    class Codec:
        def __init__(self, reads: bool = True) -> None:
            self.reads = reads

        def encode(self, data: bytes) -> bytes:
            return data[::-1]

        def decode(self, data: bytes) -> bytes:
            if not self.reads:
                raise ValueError("secret")
            return data[::-1]

    saga = visit()

    async def parts(codec: Codec, part: int) -> None:
        async with sagas.open(location, [saga], codec=codec, node="one") as store:
            if part == 0:
                await store.start(saga, "k")
                await asks(store)
                await store.complete("k", "visa", "secret")
                read = store._access.coordinator.store.read
                ((text,),) = await read("SELECT detail FROM suspensions WHERE number = 0")
                assert text.startswith('{"$codec":"') and "secret" not in text
                return
            if part == 1:
                await until(lambda: store.active_attempts("k"))
                await store.complete("k", "open")
                (entry,) = await until(lambda: store.attention())
                assert (entry.step, entry.why) == ("visa", "cannot_decode")
                return
            await store.complete("k", "flight")
            assert (await store.wait("k", 60)).results["pack"] == ["secret", None]

    run(parts(codec := Codec(), 0))
    run(parts(Codec(reads=False), 1))
    run(parts(codec, 2))


def test_reports_during_the_start_of_their_step(location: str) -> None:
    """Reports come while their steps start: each counts once, whatever the state of its step."""
    saga = visit()

    async def main() -> None:
        async with sagas.open(location, [saga]) as store:

            async def report_late(key: str, pause: int) -> None:
                await store.complete(key, "open")
                for _ in range(pause):
                    await asyncio.sleep(0)
                says = (store.complete(key, step, key) for step in ("visa", "flight"))
                await asyncio.gather(*says, store.complete(key, "visa", key))

            keys = [f"k{n}" for n in range(40)]
            await asyncio.gather(*(store.start(saga, key) for key in keys))
            await asyncio.gather(*(report_late(key, 3 * n) for n, key in enumerate(keys)))
            ends = await asyncio.gather(*(store.wait(key, 60) for key in keys))
            assert [end.results["pack"] for end in ends] == [[key, key] for key in keys]

    run(main())


def test_from_elsewhere(url: str) -> None:
    """A client's report, before a node has started its saga, and another node's."""
    saga = visit()

    async def main() -> None:
        async with sagas.open(url, [saga]):
            pass
        async with sagas.Client(url) as client:
            trip = await client.start(saga, "k")
            left = asyncio.create_task(trip.complete("visa", "early"))
            async with (
                sagas.open(url, [saga], node="one") as first,
                sagas.open(url, [saga], node="two") as second,
            ):
                await left
                with pytest.raises(sagas.StepNotWaiting, match="it has not started"):
                    await trip.complete("flight", early=False)
                has = first if first.active_attempts("k") else second
                other = second if has is first else first
                await other.complete("k", "flight", "LH1", by="ada")
                await trip.complete("visa", "early")
                with pytest.raises(sagas.ConflictingReport):
                    await trip.fail("visa", "no")
                assert await client.waits_for("k") == ["open waits for an approval"]
                await trip.complete("open")
                assert (await trip.wait(60)).results["pack"] == ["early", "LH1"]

    run(main())


def test_in_a_simulation() -> None:
    """`early` of `sagas.testing`: its function is not called."""
    saga = visit(calls := list[str]())
    reports: dict[str, Any] = {"open": None, "visa": "yes", "flight": 1}
    trial = sagas.testing.run(saga, early=reports)
    assert trial.results["pack"] == ["yes", 1] and calls == []
    trial = sagas.testing.run(saga, answers=reports, early={"flight": sagas.Fail("full")})
    assert trial.states["flight"] == "failed" and trial.states["open"] == "undone"
    with pytest.raises(ValueError, match="neither an approval nor external"):
        sagas.testing.run(saga, early={"pack": 1})


@pytest.mark.parametrize("way", ["abort", "failure"])
def test_an_early_report_is_committed_before_a_recovery(location: str, way: str) -> None:
    """No slot is free for it, and its saga is aborted, or a step fails: it is undone as any other.

    So is one that needs it.
    """
    saga, calls, gate = sagas.Saga("order"), list[Any](), asyncio.Event()

    @saga.step(keep=9)
    def reserve(task: Task) -> None:
        ...

    reserve.compensation(lambda task: calls.append("release"))

    @saga.step(name="check", needs=[reserve], undo=0)
    async def check(task: Task) -> None:
        await gate.wait()
        if way == "failure":
            raise sagas.Fail("no")

    pay = saga.step(name="pay", external=True, needs=[reserve], keep=9)
    ship = saga.step(name="ship", external=True, needs=[pay], keep=9)
    for step in (pay, ship):
        step.compensation(lambda task: calls.append((task.step, task.result, task.attempt)))

    async def main() -> None:
        async with sagas.open(location, [saga], concurrency=1) as store:
            run = await store.start(saga, "k")
            await until(
                lambda: [
                    attempt for attempt in store.active_attempts("k") if attempt.step == "check"
                ]
            )
            await store.complete("k", "ship", "boxed")
            await store.complete("k", "pay", {"euros": 40})
            if way == "abort":
                asyncio.get_running_loop().call_later(0.05, gate.set)
                assert await run.abort()
            gate.set()
            end = await run.wait(60)
            check_ends = "failed" if way == "failure" else "undone"
            assert end.states == {
                "reserve": "undone",
                "check": check_ends,
                "pay": "undone",
                "ship": "undone",
            }
            assert calls == [("ship", "boxed", 1), ("pay", {"euros": 40}, 1), "release"]
            assert await store._access.coordinator.store.read("SELECT 1 FROM suspensions") == []
            assert all(verdict.startswith("yes") for verdict in (await store.audit()).values())

    run(main())
