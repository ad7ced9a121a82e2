"""Exhausted attempts: they fail, need an operator or continue, over restarts and kills."""

from __future__ import annotations

import asyncio
import contextlib
import json
import os
import pathlib
import signal
import subprocess
import sys
import time
from collections.abc import Callable
from typing import Any

import pytest
from cases import HOUR, STORE_KINDS, QUICK, Task, ended, pairs, run, until
from serving import environment

import sagas
import sagas.testing
from sagas.cli import store_command
from sagas.core.attention import AttentionReason
from sagas.storage import admin

ASKS = AttentionReason.EXHAUSTED


class Notes:
    """A witness outside of the store: a file with a line for each call, and the steps that still
    fail.
    """

    def __init__(self, folder: pathlib.Path) -> None:
        self.path, self.broken = folder / "calls", folder / "broken"
        self.broken.touch()
        self.strike = 0
        """the call in which this process is killed"""

    def called(self, task: Task) -> None:
        """Note the call before anything else; it fails as long as the step is broken."""
        with open(self.path, "a") as file:
            file.write(f"{task.idempotency_key} {task.attempt}\n")
        if len(self.lines) == self.strike:
            os.kill(os.getpid(), signal.SIGKILL)
        if self.broken.exists():
            raise sagas.Retry("the bank is closed")

    @property
    def lines(self) -> list[str]:
        """Return the calls."""
        return self.path.read_text().splitlines() if self.path.exists() else []


def order(notes: Notes, **options: Any) -> sagas.Saga:
    """Return a saga that charges and sends, with defaults; the send fails, and then the refund."""
    order = sagas.Saga("order")

    @order.step(keep=sagas.NEVER)
    def charge(task: Task) -> int:
        return 40

    @charge.compensation(backoff=QUICK, **{"tries": 1} | options)
    def refund(task: Task) -> None:
        notes.called(task)

    @order.step(needs=[charge])
    def send(task: Task) -> None:
        raise sagas.Fail("sold out")

    return order


def alone(notes: Notes, **options: Any) -> sagas.Saga:
    """Return a saga of one step, which fails as long as it is broken."""
    saga = sagas.Saga("alone")

    @saga.step(name="a", undo=0, **{"backoff": QUICK, "tries": 1} | options)
    def call(task: Task) -> Any:
        notes.called(task)
        return "done"

    return saga


def killed(location: str, kind: sagas.Saga, keys: list[str]) -> None:
    """Start sagas in a process that one of their functions kills."""
    child = os.fork()
    if child == 0:
        try:

            async def main() -> None:
                async with sagas.open(location, [kind], node="one", lease=2) as store:
                    await asyncio.gather(*(ended(store, kind, key) for key in keys))

            asyncio.run(main())
        finally:
            os._exit(0)
    assert os.waitstatus_to_exitcode(os.waitpid(child, 0)[1]) == -signal.SIGKILL


async def exhausted_attempts(store: sagas.Store) -> list[sagas.Attention]:
    """Return the attempts that need an operator."""
    return [entry for entry in await store.attention() if entry.why is ASKS]


def opened(
    location: str, kind: sagas.Saga, hook: Callable[[sagas.Event], object] | None = None
) -> Any:
    """Open the next program: by its name it has its shards at once, and a case may block
    its loop.
    """
    return sagas.open(location, [kind], node="one", lease=60, on_event=hook)


def interrupted(notes: Notes) -> sagas.Saga:
    """Return a saga whose step fails, is called again, and is killed after its effect.

    The saga is aborted during the call.
    """
    saga = sagas.Saga("interrupted")
    effect, aborted = notes.path.with_name("effect"), notes.path.with_name("aborted")

    @saga.step(name="a", backoff=QUICK, tries=1, on_exhausted="retry")
    def call(task: Task) -> str:
        with open(notes.path, "a") as file:
            file.write(f"{task.idempotency_key} {task.attempt}\n")
        if len(notes.lines) == 1:
            raise sagas.Retry("the bank is closed")
        effect.touch()
        if notes.strike:
            deadline = time.monotonic() + 60
            while not aborted.exists() and time.monotonic() < deadline:
                time.sleep(0.01)
            os.kill(os.getpid(), signal.SIGKILL)
        return "done"

    @call.compensation(backoff=QUICK)
    def undo(task: Task) -> None:
        effect.unlink(missing_ok=True)

    return saga


@pytest.mark.parametrize("location", STORE_KINDS, indirect=True)
def test_a_repeated_call_that_was_killed_is_made_again_in_an_aborted_saga(
    location: str, tmp_path: pathlib.Path
) -> None:
    """Its effect may exist, so the failure before it does not count."""
    notes = Notes(tmp_path)
    notes.strike = 1
    kind, effect, aborted = interrupted(notes), tmp_path / "effect", tmp_path / "aborted"

    async def first() -> None:
        async with sagas.open(location, [kind], node="one", lease=2) as store:
            await store.start(kind, "k")
            await until(effect.exists)
            assert await store.abort("k")
            aborted.touch()
            await store.wait("k")

    child = os.fork()
    if child == 0:
        try:
            asyncio.run(first())
        finally:
            os._exit(0)
    assert os.waitstatus_to_exitcode(os.waitpid(child, 0)[1]) == -signal.SIGKILL
    assert effect.exists()
    notes.strike = 0

    async def second() -> None:
        async with opened(location, kind) as store:
            end = await store.wait("k", 60)
            assert end.states == {"a": "undone"}

    run(second())
    assert not effect.exists() and len(notes.lines) == 3
    assert len({line.split()[0] for line in notes.lines}) == 1


@pytest.mark.parametrize(
    "location, answer, strike",
    pairs(STORE_KINDS, ("retry", "complete", "fail"), (1, 0)),
    indirect=["location"],
)
def test_a_refund_that_fails_asks(
    location: str, tmp_path: pathlib.Path, answer: str, strike: int
) -> None:
    """With defaults, it is in the inbox and reported, also if the program was killed during the
    call. A restart does not call it again; one answer counts, and the same answer again is one.
    """
    notes, events = Notes(tmp_path), list[str]()
    notes.strike = strike
    kind = order(notes)
    if strike:
        killed(location, kind, ["k"])
    notes.strike = 0

    async def first() -> None:
        async with opened(location, kind, lambda event: events.append(event.name)) as store:
            await store.start(kind, "k")
            (exhausted,) = await until(lambda: exhausted_attempts(store))
            entry = (
                exhausted.key,
                exhausted.saga,
                exhausted.step,
                exhausted.undo,
                exhausted.detail,
            )
            assert entry == ("k", "order", "charge", True, "sagas.Retry: the bank is closed")
            with pytest.raises(TimeoutError, match="retry, complete or fail with undo=True"):
                await store.wait("k", 0.05)

    async def second() -> None:
        async with opened(location, kind) as store:
            count = len(notes.lines)
            (entry,) = await until(lambda: exhausted_attempts(store))
            with pytest.raises(sagas.StepNotWaiting, match="'send' cannot be retried"):
                await store.retry("k", "send")
            assert len(notes.lines) == count
            notes.broken.unlink()
            if answer == "retry":
                await store.retry("k", "charge", undo=True, by="ann", note="it opened")
            elif answer == "complete":
                await store.complete("k", "charge", undo=True, by="ann")
                await store.complete("k", "charge", undo=True)
            else:
                await store.fail("k", "charge", "lost", undo=True, by="ann")
            end = await store.wait("k", 60)
            assert end.states["charge"] == ("undo_failed" if answer == "fail" else "undone")
            assert len(notes.lines) == count + (answer == "retry")
            assert not await exhausted_attempts(store)
            with pytest.raises(sagas.StepNotWaiting):
                await store.retry("k", "charge", undo=True)

    run(first())
    run(second())
    assert events.count("step_exhausted") == 1
    assert len({line.split()[0] for line in notes.lines}) == 1


def test_a_step_that_asks_an_operator(location: str, tmp_path: pathlib.Path) -> None:
    """Each waits by itself, and is answered by itself or with all of a filter.

    `Fail` asks no operator; an attempt whose saga is aborted has failed.
    """
    notes = Notes(tmp_path)
    kind = alone(notes, on_exhausted="ask", tries=2)
    keys = ["a", "b", "c", "d"]

    async def main() -> None:
        async with opened(location, kind) as store:

            async def counted(count: int) -> bool:
                return len(await exhausted_attempts(store)) == count

            runs = [await store.start(kind, key) for key in keys]
            await until(lambda: counted(4))
            assert len(notes.lines) == 8
            assert await store.abort("d") and (await runs[3].wait()).states == {"a": "failed"}
            assert await store.retry_all(saga="other") == 0 == await store.retry_all(step="b")
            await store.complete("c", "a", "by hand")
            assert (await runs[2].wait()).results == {"a": "by hand"}
            # it fails twice, and needs an operator again
            assert await store.retry_all(limit=1) == 1
            await until(lambda: len(notes.lines) == 10)
            await until(lambda: counted(2))
            assert await store.fail_all("no", saga="alone", step="a") == 2
            assert [(await runs[n].wait()).states["a"] for n in (0, 1)] == ["failed"] * 2

    run(main())


def test_a_step_that_asks_is_not_failed_by_another(location: str, tmp_path: pathlib.Path) -> None:
    """An operator was asked, and may do it by hand: its effect is undone.

    A step that is retried automatically has failed.
    """
    notes, undone, kind = Notes(tmp_path), list[str](), sagas.Saga("three")
    asks = kind.step(notes.called, name="asks", tries=2, keep=9, on_exhausted="ask", backoff=QUICK)
    asks.compensation(lambda task: undone.append(task.result))
    repeats = {"on_exhausted": "retry", "backoff": HOUR, "undo": sagas.NEVER}
    kind.step(notes.called, name="repeats", tries=1, **repeats)  # type: ignore[call-overload]
    kind.step(name="other", external=True, undo=sagas.NEVER)

    async def main() -> None:
        async with opened(location, kind) as store:
            await store.start(kind, "k")
            await until(lambda: exhausted_attempts(store))
            await until(lambda: len(notes.lines) == 3)
            await store.fail("k", "other", "full")
        async with opened(location, kind) as store:
            assert [entry.step for entry in await until(lambda: exhausted_attempts(store))] == [
                "asks"
            ]
            await store.complete("k", "asks", "by hand")
            end = await store.wait("k", 60)
            assert end.states == {"asks": "undone", "repeats": "failed", "other": "failed"}
            assert undone == ["by hand"]

    run(main())


def test_a_limit_counts_the_steps_that_are_meant(location: str) -> None:
    """Other steps that have waited longer do not count."""
    kind, opens = sagas.Saga("two"), set[str]()

    def once(task: Task) -> None:
        if task.step not in opens:
            raise sagas.Retry("closed")

    options: Any = {"on_exhausted": "ask", "backoff": QUICK, "tries": 1}
    first = kind.step(once, name="a", **options)
    kind.step(once, name="b", needs=[first], **options)

    async def main() -> None:
        async with opened(location, kind) as store:
            await store.start(kind, "older")
            (entry,) = await until(lambda: exhausted_attempts(store))
            opens.add("a")
            run = await store.start(kind, "newer")
            await until(lambda: has_count(store, 2))
            opens.add("b")
            assert await store.retry_all(step="b", limit=1) == 1
            assert (await run.wait()).ok and [entry] == await exhausted_attempts(store)

    async def has_count(store: sagas.Store, count: int) -> bool:
        return len(await exhausted_attempts(store)) == count

    run(main())


def test_how_often_it_failed(location: str, capsys: pytest.CaptureFixture[str]) -> None:
    """Each failure is counted, and none of those before an operator's retry."""
    kind, pauses = sagas.Saga("often"), iter((0.01, 3600.0, 3600.0))

    @kind.step(tries=2, on_exhausted="retry")
    def a(task: Task) -> None:
        raise sagas.RetryAfter(next(pauses))

    def has_failed(times: str) -> bool:
        assert store_command.main([location, "show", "k"]) == 0
        return f"its next attempt: it failed ({times})" in capsys.readouterr().out

    async def main() -> None:
        async with opened(location, kind) as store:
            await store.start(kind, "k")
            await until(lambda: has_failed("2 times"))
            await store.retry("k", "a")
            await until(lambda: has_failed("1 time"))

    run(main())


@pytest.mark.parametrize(
    "more, attempts",
    [({"tries": 12}, {1, 2}), ({"tries": 3, "on_exhausted": "retry"}, {1, 2, 3})],
)
def test_more_attempts_than_a_definition_has(
    location: str, tmp_path: pathlib.Path, more: dict[str, Any], attempts: set[int]
) -> None:
    """They are counted over a kill.

    The interrupted call is made again, and the one before it is not counted if its row was being
    written.
    """
    notes = Notes(tmp_path)
    notes.strike = 11 if more["tries"] == 12 else 6
    kind = alone(notes, **more)
    killed(location, kind, ["k"])
    notes.strike = 0

    async def main() -> None:
        async with opened(location, kind) as store:
            started = await store.start(kind, "k")
            if more["tries"] == 12:
                end = await started.wait(60)
                assert end.states == {"a": "failed"} and len(notes.lines) in (12, 13, 14)
                return
            await until(lambda: len(notes.lines) > 20)
            notes.broken.unlink()
            assert (await started.wait(60)).ok

    run(main())
    assert {int(line.split()[1]) for line in notes.lines} == attempts


def test_a_function_requests_the_time_of_its_retry(location: str, tmp_path: pathlib.Path) -> None:
    """`RetryAfter` precedes the back-off, in attempts of the definition and after them, and before
    one of an earlier program.
    """
    pauses = [0.01, 0.02, 0.03]
    saga, seen = sagas.Saga("soon"), list[float]()

    @saga.step(undo=0, backoff=HOUR, tries=2, on_exhausted="retry")
    def a(task: Task) -> int:
        seen.append(task.attempt)
        if len(seen) <= 3:
            raise sagas.RetryAfter(pauses[len(seen) - 1] if len(seen) < 3 else 0.4, "too many")
        return len(seen)

    async def main(is_last: bool) -> None:
        async with opened(location, saga) as store:
            started = await store.start(saga, "k")
            if is_last:
                assert (await started.wait(60)).results == {"a": 4}
            else:
                await until(lambda: len(seen) == 3)
                await until(lambda: store.active_attempts("k")[0].waits == "retry")

    run(main(False))
    run(main(True))
    assert seen == [1, 2, 2, 2] and str(sagas.RetryAfter(2)) == "in 2 s"


def test_work_of_a_worker(location: str) -> None:
    """An external worker's failure also needs an operator, and is offered again."""
    saga = sagas.Saga("far")
    saga.step(name="a", external=True, undo=0, on_exhausted="ask", tries=1)
    word = [("far", "a", "run")]

    async def main() -> None:
        store = opened(location, saga)
        store.leased = True
        async with store:
            started = await store.start(saga, "k")
            (task,) = await store.workers.claim(word, wait=30)
            assert await store.workers.report(task.attempt_id, task.lease, error="no")
            assert not await store.workers.report(task.attempt_id, task.lease, error="no")
            await until(lambda: exhausted_attempts(store))
            assert await store.workers.claim(word) == []
            await store.retry("k", "a")
            (again,) = await store.workers.claim(word, wait=30)
            assert again.attempt_id == task.attempt_id and again.lease != task.lease
            with pytest.raises(sagas.LeaseLost):
                await store.workers.report(task.attempt_id, task.lease, error="late")
            assert await store.workers.report(again.attempt_id, again.lease, 5)
            assert (await started.wait(60)).results == {"a": 5}

    run(main())


def test_from_elsewhere(url: str, tmp_path: pathlib.Path) -> None:
    """A client retries, and the node that has the saga does it."""
    notes = Notes(tmp_path)
    kind = alone(notes, on_exhausted="ask")

    async def main() -> None:
        async with opened(url, kind) as store, sagas.Client(url) as client:
            started = await store.start(kind, "k")
            await until(lambda: exhausted_attempts(store))
            assert [entry.why for entry in await client.attention()] == [ASKS]
            with pytest.raises(sagas.StepNotWaiting, match="no step 'b'"):
                await client.retry("k", "b")
            notes.broken.unlink()
            await client.retry("k", kind.steps[0])
            assert (await started.wait(60)).ok
            with pytest.raises(sagas.StepNotWaiting, match="saga 'k' has ended"):
                await client.retry("k", "a")

    run(main())


def test_the_command(tmp_path: pathlib.Path, capsys: pytest.CaptureFixture[str]) -> None:
    """Waiting attempts are listed, and retried one by one or all of a name."""
    notes, location = Notes(tmp_path), str(tmp_path / "store.db")
    kind = alone(notes, on_exhausted="ask")

    def run_command(*arguments: str) -> str:
        assert store_command.main([location, *arguments]) == 0
        return capsys.readouterr().out

    async def main() -> None:
        async with opened(location, kind) as store:
            runs = [await store.start(kind, key) for key in ("a", "b")]

            async def are_waiting() -> bool:
                return len(await exhausted_attempts(store)) == 2

            await until(are_waiting)
            assert "attempts used up" in run_command(
                "attention"
            ) and "an operator: its" in run_command("pending")
            assert '"exhausted"' in run_command("pending", "--json")
            notes.broken.unlink()
            done = await asyncio.to_thread(run_command, "retry", "a", "a")
            assert done == "a: a is attempted again\n" and (await runs[0].wait()).ok
            every = "retry", "--all", "--saga", "alone"
            assert (
                run_command(*every)
                == "1 step: --yes retries it\n"
                == run_command(*every, "--step", "a")
            )
            assert (
                run_command(*every, "--step", "b")
                == run_command("retry", "--all", "--label", "x=1")
                == "0 steps\n"
            )
            done = await asyncio.to_thread(run_command, *every, "--yes")
            assert done == "b: a is attempted again\n" and (await runs[1].wait()).ok
            assert await asyncio.to_thread(run_command, "retry", "--all", "--yes") == ""

    run(main())
    for arguments in (
        ["retry"],
        ["retry", "a"],
        ["retry", "a", "a", "--all"],
        ["retry", "a", "a", "--yes"],
        ["complete", "a"],
        ["complete", "--all", "--undo"],
        ["complete", "a", "a", "--step", "a"],
        ["fail", "a", "a"],
        ["fail", "--all"],
        ["fail", "a", "a", "no", "--error", "no"],
    ):
        assert store_command.main([location, *arguments]) == 2


def wait_for_commands(location: str, count: int) -> None:
    """Wait, in the thread of the program, until this many commands are in the store."""
    end = time.monotonic() + 60
    with contextlib.closing(admin.connect(location)) as link:
        while link.ask("SELECT count(*) FROM operator_commands WHERE answer IS NULL") != [(count,)]:
            assert time.monotonic() < end, "they are not asked at once"
            time.sleep(0.01)


def test_the_command_reports_all(
    location: str, tmp_path: pathlib.Path, capsys: pytest.CaptureFixture[str]
) -> None:
    """A count comes first; then each attempt of the filter has the result, or has failed."""
    notes = Notes(tmp_path)
    kind, outcomes = alone(notes, on_exhausted="ask"), {"x": "done", "y": "failed", "z": "left"}

    def run_command(*arguments: str) -> str:
        assert store_command.main([location, *arguments]) == 0
        return capsys.readouterr().out

    async def main() -> None:
        async with opened(location, kind) as store:
            runs = {
                f"{outcome}-{number}": await store.start(
                    kind, f"{outcome}-{number}", labels={"lot": outcome}
                )
                for outcome in outcomes
                for number in range(2)
            }

            async def are_waiting() -> bool:
                return len(await exhausted_attempts(store)) == 6

            await until(are_waiting)
            done = "complete", "--all", "--label", "lot=x", "--result", "7"
            assert run_command(*done) == "2 steps: --yes completes them\n"
            assert json.loads(run_command(*done, "--json")) == {"count": 2}
            failed = "fail", "--all", "--label", "lot=y", "--error", "it is down"
            assert (
                run_command(*failed) == "2 steps: --yes fails them\n"
                and len(await exhausted_attempts(store)) == 6
            )
            arguments = [*done, "--yes", "--note", "seen", "--timeout", "60"]
            job = asyncio.create_task(asyncio.to_thread(run_command, *arguments))
            await asyncio.sleep(0)
            # while no command here can be answered: no step waits for another one's answer
            wait_for_commands(location, 2)
            assert sorted((await job).splitlines()) == ["x-0: a succeeded", "x-1: a succeeded"]
            failed_reports = json.loads(
                await asyncio.to_thread(run_command, *failed, "--yes", "--json")
            )
            entry = {"step": "a", "kind": "run", "asked": "fail", "answer": True}
            assert sorted(failed_reports, key=lambda failed_report: failed_report["key"]) == [
                {"key": key} | entry for key in ("y-0", "y-1")
            ]
            assert (
                json.loads(await asyncio.to_thread(run_command, *failed, "--yes", "--json")) == []
            )
            for number in range(2):
                assert (await runs[f"x-{number}"].wait()).results == {"a": 7}
                assert (await runs[f"y-{number}"].wait()).errors == {"a": "it is down"}
            assert sorted({entry.key for entry in await exhausted_attempts(store)}) == [
                "z-0",
                "z-1",
            ]
            rest = ["--all", "--yes", "--json", "--timeout", "60"]
            job = asyncio.create_task(asyncio.to_thread(run_command, "complete", *rest))
            await asyncio.sleep(0)
            wait_for_commands(location, 2)
            arguments = [
                sys.executable,
                "-m",
                "sagas",
                "store",
                location,
                "fail",
                *rest,
                "--error",
                "no",
            ]
            with subprocess.Popen(arguments, stdout=subprocess.PIPE, env=environment()) as late:
                wait_for_commands(location, 4)
                answers = [row["answer"] for row in json.loads(await job)]
                out = await asyncio.to_thread(late.communicate)
            refused = [row["answer"] for row in json.loads(out[0])]
            assert answers == [True, True] and late.returncode == 1
            assert all("it has succeeded. This is a different outcome" in text for text in refused)

    run(main())


def test_in_a_simulation() -> None:
    """A test sends the operator's answer; without one, the error says what to give."""
    saga = sagas.Saga("order")

    @saga.step(keep=sagas.NEVER)
    def charge(task: Task) -> int:
        return 40

    @charge.compensation
    def refund(task: Task) -> None:
        ...

    @saga.step(needs=[charge], tries=12)
    def send(task: Task) -> None:
        ...

    fails: dict[str, Any] = {"fail": {"send": 12}, "fail_undo": {"charge": 10}}
    with pytest.raises(LookupError, match="the compensation of step 'charge' has used up"):
        sagas.testing.run(saga, **fails)
    trial = sagas.testing.run(saga, **fails, answers={"charge": None})
    assert trial.states == {"charge": "undone", "send": "failed"}
    assert len([call for call in trial.calls if call.step == "send"]) == 12
    assert sagas.testing.run(saga, fail={"send": 11}).ok


@pytest.mark.parametrize(
    ("options", "message"),
    [
        (
            {"on_exhausted": "again"},
            "on_exhausted='again' of its function: must be one of fail, ask",
        ),
        ({"tries": 0}, "tries=0 of its function: must be an integer from 1 to 1,000"),
        ({"max_unknown": 0}, "max_unknown=0 .*: must be an integer >= 1, a timedelta, or None"),
    ],
)
def test_invalid_options_of_retries(
    options: dict[str, Any], message: str, tmp_path: pathlib.Path
) -> None:
    with pytest.raises(sagas.DefinitionError, match=message):
        alone(Notes(tmp_path), **options)
