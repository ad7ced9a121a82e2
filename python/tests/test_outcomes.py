"""The outcomes of functions, their effects, and the tokens that functions get."""

from __future__ import annotations

import asyncio
import contextlib
import copy
import dataclasses
import datetime
import logging
import pathlib
import pickle
import threading
import time
import xml.etree.ElementTree
from typing import Any

import pytest
import records
from cases import (
    HOUR,
    STORE_KINDS,
    QUICK,
    Task,
    attempts_to_report,
    ended,
    pairs,
    run,
    simple,
    stuck_keys,
    unknown_attempts,
    until,
)

import sagas
import sagas.testing
from sagas.cli.snapshot import Snapshot
from sagas.core import outcomes
from sagas.core.states import OutcomeKind
from sagas.definition.call_options import Manner
from sagas.definition.task_data import TaskSnapshot


def test_returns(location: str) -> None:
    """The step is done, and its result is JSON."""

    async def main() -> sagas.SagaResult:
        saga = simple(lambda task: {"id": 7, "days": [1, 2]})
        async with sagas.open(location, [saga]) as store:
            return await ended(store, saga)

    end = run(main())
    assert end.ok and end.results == {"a": {"id": 7, "days": [1, 2]}} and end.cost is None


def test_an_end_is_the_same_at_each_way_to_it(tmp_path: pathlib.Path) -> None:
    """Results are read at the first access to them: by a copy, a comparison or a representation,
    in a thread, and of a saga that another program has ended.
    """

    async def main() -> list[sagas.SagaResult]:
        ends = []
        for _ in range(5):
            saga = simple(lambda task: {"id": 7})
            async with sagas.open(tmp_path / "store.db", [saga]) as store:
                ends.append(await ended(store, saga))
        return ends

    first, second, third, fourth, fifth = run(main())
    assert first.ok and pickle.loads(pickle.dumps(first)) == first
    assert second == first and copy.copy(second).results == {"a": {"id": 7}}
    assert repr(third) == repr(first) and "'id': 7" in repr(third)
    values: list[Any] = []
    threads = [
        threading.Thread(target=lambda: values.append((fourth.states, fourth.results)))
        for _ in range(8)
    ]
    for thread in threads:
        thread.start()
    for thread in threads:
        thread.join()
    assert values == [({"a": "committed"}, {"a": {"id": 7}})] * 8
    assert dataclasses.replace(fifth, note="n").results == first.results
    with pytest.raises(AttributeError, match="no attribute 'nothing'"):
        fifth.nothing  # type: ignore[attr-defined]


def test_returns_a_value_that_is_not_json(location: str, caplog: pytest.LogCaptureFixture) -> None:
    """The effect exists and is not lost: the result is kept as unstorable, with a warning."""

    async def main() -> sagas.SagaResult:
        saga = simple(lambda task: object())
        async with sagas.open(location, [saga]) as store:
            return await ended(store, saga)

    with caplog.at_level(logging.WARNING, "sagas"):
        end = run(main())
    assert end.ok and "unstorable" in end.results["a"]
    assert "result_unstorable key=k saga=simple step=a" in caplog.text


HOWS = {"alone": {}, "in time": {"timeout": 60}, "in turn": {"concurrency": 1}}


@pytest.mark.parametrize("how", HOWS)
@pytest.mark.parametrize("waits", [False, True])
def test_a_forgotten_await(tmp_path: pathlib.Path, how: str, waits: bool) -> None:
    """An awaitable that a function returns is awaited, as if the function had done it: its effect
    exists, its exceptions count, and so does its time.
    """
    attempts: list[int] = []

    async def book(task: Task) -> Any:
        if waits:
            await asyncio.sleep(0)
        attempts.append(task.attempt)
        if task.input == "fails":
            raise sagas.Retry("no")
        return {"id": 7}

    async def charge(task: Task) -> Any:
        if waits:
            await asyncio.sleep(0)
        return asyncio.ensure_future(book(task)) if task.input == "task" else book(task)

    saga = simple(charge, tries=2, **HOWS[how])

    async def main() -> None:
        async with sagas.open(tmp_path / "store.db", [saga]) as store:
            ends = [
                await ended(store, saga, f"{value}{number}", value)
                for value in ("well", "task")
                for number in range(3)
            ]
            assert all(
                end.ok and end.results == {"a": {"id": 7}} for end in ends
            ) and attempts == 6 * [1]
            end = await ended(store, saga, "bad", "fails")
            assert (
                end.states == {"a": "failed"}
                and end.errors == {"a": "sagas.Retry: no"}
                and attempts[6:] == [1, 2]
            )

    run(main())


@pytest.mark.parametrize("plain", [False, True])
def test_a_forgotten_await_has_its_time(tmp_path: pathlib.Path, plain: bool) -> None:
    """A call that takes longer has an unknown outcome, also if another coroutine awaits it."""

    async def slow(task: Task) -> None:
        await asyncio.sleep(60)

    async def charge(task: Task) -> Any:
        return slow(task)

    saga = simple((lambda task: slow(task)) if plain else charge, timeout=0.05, max_unknown=1)

    async def main() -> None:
        async with sagas.open(tmp_path / "store.db", [saga]) as store:
            await store.start(saga, "k")
            (held,) = await until(lambda: unknown_attempts(store))
            assert "took longer than 0.05 s" in str(held)
            await store.complete("k", "a")

    run(main())


@dataclasses.dataclass
class Seat:
    """The type of a result."""

    row: int


def test_a_result_that_could_not_be_stored(location: str) -> None:
    """It is never taken for a stored one: a later step and the caller get a named error; a
    compensation, which must continue, sees what is kept.
    """
    saga, errors = sagas.Saga("odd"), list[str]()

    @saga.step
    def send(task: Task) -> set[object]:
        return {object()}

    @send.compensation
    def unsend(task: Task) -> None:
        assert set(task.result) == {"unstorable"}

    @saga.step(needs=[send])
    def look(task: Task) -> None:
        assert set(task.results["send"]) == {"unstorable"}
        ways: tuple[Any, ...] = (send, "send")
        for step in ways:
            try:
                task.result_of(step)
            except sagas.NotSerializable as error:
                errors.append(f"{type(error).__name__}: {error}")
        if task.input:
            raise sagas.Fail("no")

    async def main() -> None:
        async with sagas.open(location, [saga]) as store:
            end = await ended(store, saga, "well")
            assert end.ok
            ways: tuple[Any, ...] = (send, "send")
            for step in ways:
                with pytest.raises(
                    sagas.ResultNotSerializable,
                    match="step 'send' returned a value that is not JSON: object is not JSON",
                ):
                    end.result_of(step)
            with pytest.raises(KeyError, match="unknown step 'sent': the steps are send, look"):
                end.result_of("sent")
            end = await ended(store, saga, "ill", True)
            assert end.states["send"] == "undone"
            with pytest.raises(KeyError, match="step 'send' is not committed: it is undone"):
                end.result_of("send")

    run(main())
    assert len(errors) == 4 and errors[0].startswith(
        "ResultNotSerializable: step 'send' returned a value that is not JSON"
    )


def test_a_set_crosses(location: str) -> None:
    """A set is stored as a list, which the hint makes a set again; `of` takes a step's
    name, too.
    """
    saga = sagas.Saga("sets")

    @saga.step
    def seats(task: sagas.Task[dict[int, str]]) -> set[int]:
        return {*task.input}

    @saga.step(needs=[seats])
    def send(task: Task) -> bool:
        return task.result_of(seats) == {1, 2} == task.result_of("seats") and isinstance(
            task.result_of("seats"), set
        )

    async def main() -> sagas.SagaResult:
        async with sagas.open(location, [saga]) as store:
            return await ended(store, saga, value={1: "a", 2: "b"})

    end = run(main())
    assert end.result_of(send) is True and end.result_of("seats") == {1, 2}


def test_a_result_that_is_not_of_its_type(location: str) -> None:
    """An unstorable result is returned as it is kept: a caller that waits, or lists stuck sagas,
    gets it anyway. An operator's is refused.
    """
    saga = sagas.Saga("typed")

    @saga.step
    def book(task: Task) -> Seat:
        return object()  # type: ignore[return-value]

    @saga.step(needs=[book], max_unknown=1)
    def pay(task: Task) -> Seat:
        raise sagas.Unknown("?")

    @saga.step(needs=[pay], skip=sagas.NEVER)
    def must(task: Task) -> None:
        raise sagas.Fail("no")

    well = sagas.Saga("well")
    well.step(name="book")(book.run.function or print)

    async def main() -> None:
        async with sagas.open(location, [saga, well]) as store:
            assert "unstorable" in (await ended(store, well, "w")).results["book"]
            going = await store.start(saga, "k")
            await until(lambda: unknown_attempts(store))
            with pytest.raises(sagas.InvalidResult, match="result: Seat requires an object"):
                await store.complete("k", pay, "by hand")
            await store.complete("k", pay, {"row": 3})
            end = await going.wait()
            assert "unstorable" in end.results["book"] and end.results["pay"] == Seat(3)
            assert await stuck_keys(store) == ["k"]
        async with sagas.open(location, [saga, well]) as store:
            assert await store.wait("k") == end

    run(main())


def test_raises(location: str, caplog: pytest.LogCaptureFixture) -> None:
    """It has had no effect: after all its tries it has failed.

    Each failed attempt is a warning, the last one with the function's traceback.
    """
    attempts: list[int] = []

    def fails(task: Task) -> None:
        attempts.append(task.attempt)
        raise sagas.Retry("no")

    async def main() -> sagas.SagaResult:
        saga = simple(fails, tries=3)
        async with sagas.open(location, [saga]) as store:
            return await ended(store, saga)

    end = run(main())
    assert end.phase == "recovered" and end.states == {"a": "failed"} and attempts == [1, 2, 3]
    assert end.errors == {"a": "sagas.Retry: no"} and str(end).endswith(
        "failed    a: sagas.Retry: no"
    )
    assert run(main()) == end  # it is over: the reply is read from the store
    logged = [record for record in caplog.records if record.name == "sagas"]
    assert [record.levelname for record in logged] == 3 * ["WARNING"]
    assert [record.exc_info is None for record in logged] == [True, True, False]
    info = logged[2].exc_info
    assert info and info[2] and info[2].tb_frame.f_code.co_name == "fails"


@pytest.mark.parametrize("group", [False, True], ids=["alone", "in a group"])
def test_raises_fail(location: str, group: bool) -> None:
    """There are no more tries: the remaining ones are reported without a call."""
    attempts: list[int] = []

    async def fails(task: Task) -> None:
        attempts.append(task.attempt)
        async with asyncio.TaskGroup() if group else contextlib.nullcontext():
            raise sagas.Fail("permanently")

    async def main() -> sagas.SagaResult:
        saga = simple(fails, tries=9, backoff=sagas.Backoff(initial=3600))
        async with sagas.open(location, [saga]) as store:
            return await ended(store, saga)

    end = run(main())
    assert (
        end.states == {"a": "failed"}
        and end.errors == {"a": "sagas.Fail: permanently"}
        and attempts == [1]
    )
    outcomes = [result.outcome for result in records.read(location).results.values()]
    assert sorted(outcomes) == ["fail"] + 8 * ["missed"]


GROUP = ExceptionGroup(
    "unhandled errors in a TaskGroup",
    [ValueError("no"), ExceptionGroup("within", [TimeoutError("?"), sagas.Fail("permanently")])],
)


@pytest.mark.parametrize(
    "error",
    [sagas.Unknown("?"), TimeoutError("?"), KeyError("?"), SystemExit("?"), GROUP],
    ids=lambda error: type(error).__name__,
)
def test_raises_unknown(location: str, error: BaseException) -> None:
    """The outcome is unknown: the same attempt runs again, with the same token, and nothing is
    reported. The log has the number.
    """
    tokens: list[str] = []
    details: list[str] = []

    def lost(task: Task) -> int:
        tokens.append(task.attempt_id)
        if len(tokens) < 3:
            raise error
        return 1

    async def main() -> sagas.SagaResult:
        saga = simple(lost)
        async with sagas.open(
            location,
            [saga],
            on_event=lambda event: (
                details.append(event.detail or "") if event.name == "step_unknown" else None
            ),
        ) as store:
            return await ended(store, saga)

    assert run(main()).ok and len(tokens) == 3 and len(set(tokens)) == 1
    assert len(details) == 2 and details[1] == f"{details[0]}; 2 times so far"
    assert len(records.read(location).results) == 1


class Refused(Exception):
    """An exception of a client that could not connect."""


BUGS = (
    NameError("carier"),
    UnboundLocalError("x"),
    ModuleNotFoundError("no module"),
    SyntaxError("not Python"),
    sagas.ProgramError("no needs"),
    sagas.WouldWaitForever("for itself"),
)
UNKNOWN, FAILED = OutcomeKind.UNKNOWN, OutcomeKind.FAILED
PERMANENT, BUG = OutcomeKind.FAILED_PERMANENTLY, OutcomeKind.PROGRAM_ERROR


@pytest.mark.parametrize(
    ("error", "comes", "rolled_back"),
    [
        (sagas.Fail("no"), PERMANENT, PERMANENT),
        (sagas.Retry("later"), FAILED, FAILED),
        (sagas.RetryAfter(1), FAILED, FAILED),
        (sagas.Unknown("?"), UNKNOWN, UNKNOWN),
        (Refused("closed"), FAILED, FAILED),
        (ConnectionRefusedError("?"), UNKNOWN, FAILED),
        (TimeoutError("?"), UNKNOWN, FAILED),
        (AttributeError("?"), UNKNOWN, FAILED),
        (TypeError("?"), UNKNOWN, FAILED),
        (xml.etree.ElementTree.ParseError("?"), UNKNOWN, FAILED),
        (SystemExit(1), UNKNOWN, FAILED),
        (asyncio.CancelledError(), UNKNOWN, FAILED),
        *((bug, BUG, BUG) for bug in BUGS),
        (GROUP, UNKNOWN, PERMANENT),
        (BaseExceptionGroup("g", [sagas.Fail("no"), NameError("x"), OSError()]), BUG, BUG),
        (ExceptionGroup("g", [sagas.Retry("no"), Refused("no")]), FAILED, FAILED),
        (ExceptionGroup("g", [sagas.Retry("no"), sagas.Fail("no")]), PERMANENT, PERMANENT),
        (ExceptionGroup("g", [Refused("no"), ValueError("?")]), UNKNOWN, FAILED),
    ],
    ids=lambda value: type(value).__name__ if isinstance(value, BaseException) else str(value),
)
def test_what_an_exception_means(
    error: BaseException, comes: OutcomeKind, rolled_back: OutcomeKind
) -> None:
    """Each row of the table, with `no_effect=(Refused,)`, and in a transaction."""
    assert outcomes.classify(error, (Refused,)) is comes
    assert outcomes.classify(error, (Refused,), is_rolled_back=True) is rolled_back


def test_raises_fail_while_the_saga_drains(location: str) -> None:
    """For the engine the step did not run, and an operator sees what it raised nevertheless."""
    saga, drains = sagas.Saga("two"), asyncio.Event()

    @saga.step
    async def first(task: Task) -> None:
        raise sagas.Fail("sold out")

    @saga.step
    async def second(task: Task) -> None:
        await task.cancelled
        drains.set()
        raise sagas.Fail("too late")

    async def main() -> None:
        async with sagas.open(location, [saga]) as store:
            end = await ended(store, saga)
            assert drains.is_set() and end.states == {"first": "failed", "second": "waiting"}
            assert end.errors == {"first": "sagas.Fail: sold out", "second": "sagas.Fail: too late"}
            assert "not run   second: sagas.Fail: too late" in str(end)
        async with sagas.open(location, [saga]) as store:
            assert (await store.wait("k")).errors == end.errors
        with Snapshot(location) as snapshot:
            assert [step.raised for step in snapshot.saga("k").steps] == [*end.errors.values()]

    run(main())


def test_a_bug_is_named_with_its_line() -> None:
    """The frame is that of the user's code, also if this package or the import raised."""

    def asks(task: Any) -> Any:
        return task.context

    def imports(task: Any) -> Any:
        import there_is_no_such_module  # type: ignore[import-not-found]

        return there_is_no_such_module

    for function in (asks, imports):
        try:
            function(sagas.Task(TaskSnapshot("s", "k", "a", False, 1, "t-0", "1", {}, None)))
        except Exception as error:
            outcome = outcomes.raised(error, Manner(function))
        line = function.__code__.co_firstlineno + 1
        assert outcome.kind is BUG
        assert outcome.value.endswith(f"({__file__}:{line} in {function.__name__})")


def test_a_function_that_holds_the_loop(
    tmp_path: pathlib.Path, caplog: pytest.LogCaptureFixture, monkeypatch: pytest.MonkeyPatch
) -> None:
    """It is named in the log, once: it returned, raised or waited after that.

    A function in a thread blocks nothing, nor does one that waits.
    """
    monkeypatch.setattr("sagas.runtime.calls.LONG", 0.1)
    saga = sagas.Saga("shop")

    @saga.step
    async def returns(task: Task) -> None:
        time.sleep(0.12)

    @saga.step(needs=[returns])
    async def waits(task: Task) -> None:
        time.sleep(task.input)
        await asyncio.sleep(0)

    @saga.step(needs=[waits])
    async def sleeps(task: Task) -> None:
        await asyncio.sleep(task.input)

    @saga.step(needs=[sleeps])
    def threaded(task: Task) -> None:
        time.sleep(task.input)

    @saga.step(needs=[threaded])
    async def raises(task: Task) -> None:
        time.sleep(task.input)
        raise sagas.Fail("no")

    async def main() -> None:
        async with sagas.open(tmp_path / "store.db", [saga]) as store:
            await ended(store, saga, "one", 0.12)
            await ended(store, saga, "two", 0)

    run(main())
    messages = [
        record.getMessage().split(" blocked the event loop for ")
        for record in caplog.records
        if "blocked the event loop" in record.getMessage()
    ]
    assert [owner for owner, _ in messages] == [
        "saga 'shop': step 'returns'",
        "saga 'shop': step 'waits'",
        "saga 'shop': step 'raises'",
    ]
    assert all(
        rest.endswith(" s. Make it a plain function (def), which runs in a thread")
        for _, rest in messages
    )


def test_unknown_waits_for_its_back_off(location: str) -> None:
    """The same attempt is made again once that is over, also if another program has the store by
    then.
    """
    clock = sagas.testing.Clock(datetime.datetime.now(datetime.timezone.utc))
    tokens: list[str] = []

    def lost(task: Task) -> int:
        tokens.append(task.attempt_id)
        if len(tokens) < 2:
            raise sagas.Unknown("?")
        return 1

    saga = simple(lost, backoff=HOUR)

    async def first() -> None:
        async with sagas.open(location, [saga], settings=sagas.Settings(clock=clock)) as store:
            await store.start(saga, key="k")
            (held,) = await until(lambda: unknown_attempts(store))
            assert held.until == clock() + 3600 and not held.asks

    async def second() -> None:
        async with sagas.open(location, [saga], settings=sagas.Settings(clock=clock)) as store:
            assert (await store.wait("k")).ok

    run(first())
    clock.advance(3600)
    assert len(tokens) == 1
    run(second())
    assert len(tokens) == 2 and len(set(tokens)) == 1


def test_takes_longer_than_its_time(location: str) -> None:
    """A timeout is not a failure: its effect could be lost. The same attempt is made again."""
    tokens: list[str] = []

    async def slow(task: Task) -> int:
        tokens.append(task.attempt_id)
        await asyncio.sleep(0 if len(tokens) > 1 else 60)
        return 1

    async def main() -> sagas.SagaResult:
        saga = simple(slow, timeout=0.05)
        async with sagas.open(location, [saga]) as store:
            return await ended(store, saga)

    assert run(main()).ok and len(tokens) == 2 and len(set(tokens)) == 1


@pytest.mark.parametrize(
    "location, max_unknown, done",
    pairs(STORE_KINDS, (3, datetime.timedelta(seconds=0.05)), (True, False)),
    indirect=["location"],
)
def test_unknown_for_too_long_waits_for_a_person(
    location: str, max_unknown: Any, done: bool
) -> None:
    """`max_unknown` bounds it; then an operator is asked, and reports success or failure, also
    after a restart.
    """
    calls: list[str] = []

    def lost(task: Task) -> None:
        calls.append(task.attempt_id)
        raise ConnectionError("no answer")

    saga = simple(lost, max_unknown=max_unknown)

    async def first() -> None:
        async with sagas.open(location, [saga]) as store:
            await store.start(saga, key="k")
            await until(lambda: attempts_to_report(store))

    async def second() -> sagas.SagaResult:
        before = len(calls)
        async with sagas.open(location, [saga]) as store:
            (held,) = await unknown_attempts(store)
            assert (held.key, held.step, held.asks) == ("k", "a", True)
            assert "no answer" in str(held)
            if done:
                await store.complete("k", "a", "it was done")
            else:
                await store.fail("k", "a", "it was not")
            end = await store.wait("k")
            assert await unknown_attempts(store) == [] and len(calls) == before
            return end

    run(first())
    assert len(set(calls)) == 1 and (
        len(calls) == max_unknown if max_unknown == 3 else len(calls) >= 2
    )
    assert run(second()).states == {"a": "committed" if done else "failed"}


def test_ends_well_after_its_time_in_a_thread(location: str) -> None:
    """It is done; the log reports that it is late, and how long it took."""
    calls: list[str] = []
    events: list[sagas.Event] = []

    def late(task: Task) -> int:
        calls.append(task.attempt_id)
        threading.Event().wait(0.2)
        return 7

    async def main() -> sagas.SagaResult:
        saga = simple(late, timeout=0.05)
        async with sagas.open(location, [saga], on_event=events.append) as store:
            return await ended(store, saga)

    assert run(main()).results == {"a": 7} and len(calls) == 1
    assert [
        (event.name, event.key, event.step) for event in events if event.name == "step_overdue"
    ] == [("step_overdue", "k", "a")]
    (done,) = (event for event in events if event.name == "step_succeeded")
    assert done.seconds is not None and 0.19 < done.seconds < 60


def test_plain_functions_run_in_threads(tmp_path: pathlib.Path) -> None:
    """Two of them wait for each other."""
    both = threading.Barrier(2, timeout=60)

    def meet(task: Task) -> bool:
        both.wait()
        return threading.current_thread() is not threading.main_thread()

    async def main() -> None:
        saga = simple(meet)
        async with sagas.open(tmp_path / "store.db", [saga]) as store:
            claimed, two = await asyncio.gather(
                ended(store, saga, "one"), ended(store, saga, "two")
            )
            assert claimed.results == two.results == {"a": True}

    run(main())


def test_tokens(location: str) -> None:
    """The effect token is the same over all tries, the token is not; a compensation has its own,
    and that of the action that it undoes.
    """
    tasks: list[Task] = []
    saga = sagas.Saga("row")

    @saga.step
    async def a(task: Task) -> str:
        tasks.append(task)
        return "A"

    @a.compensation(tries=2, backoff=QUICK)
    async def not_a(task: Task) -> None:
        tasks.append(task)
        if task.attempt == 1:
            raise sagas.Retry("again")

    @saga.step(needs=[a], tries=2, backoff=QUICK)
    def b(task: Task) -> None:
        tasks.append(task)
        raise sagas.Retry("no")

    async def main() -> sagas.SagaResult:
        async with sagas.open(location, [saga]) as store:
            return await ended(store, saga)

    assert run(main()).states == {"a": "undone", "b": "failed"}
    done, first, second, undo, undo_again = tasks
    assert first.idempotency_key == second.idempotency_key and first.attempt_id != second.attempt_id
    assert (
        undo.idempotency_key == undo_again.idempotency_key
        and undo.attempt_id != undo_again.attempt_id
    )
    assert undo.original_idempotency_key == done.idempotency_key != undo.idempotency_key
    assert undo.is_compensation and undo.result == "A" and not done.is_compensation
    assert len({task.attempt_id for task in tasks}) == 5
    name = next(iter(records.read(location).logs.values())).name
    assert all(task.attempt_id.startswith(f"{name}-0-") for task in tasks)
    for copied in (
        *map(copy.deepcopy, tasks),
        *(pickle.loads(pickle.dumps(task)) for task in tasks),
    ):
        (task,) = [task for task in tasks if task.attempt_id == copied.attempt_id]
        assert (copied.key, copied.results, copied.result, copied.attempt) == (
            task.key,
            task.results,
            task.result,
            task.attempt,
        )


def test_a_logs_name_is_used_once(tmp_path: pathlib.Path) -> None:
    """Two stores, and so two programs on copies, have no token in common."""
    tokens: list[str] = []
    saga = simple(lambda task: tokens.append(task.idempotency_key))

    async def main(name: str) -> None:
        async with sagas.open(tmp_path / name, [saga]) as store:
            await ended(store, saga)

    run(main("one.db"))
    run(main("two.db"))
    assert len(set(tokens)) == 2
