"""Functions of steps that wait for sagas: a wait that cannot end is refused by name."""

from __future__ import annotations

import asyncio
import threading
from collections.abc import Callable
from typing import Any

import pytest
from cases import QUICK, Task, run, simple, until

import sagas
import sagas.testing

FOR_EVER = sagas.WouldWaitForever


def chain(first: Callable[[Task], Any], **options: Any) -> sagas.Saga:
    """Return a saga of one step with that function, by the name `parent`."""
    saga = sagas.Saga("parent")
    saga.step(name="p", backoff=QUICK, **options)(first)
    return saga


async def heard(location: str, act: Callable[[Any, Task], Any], key: str, **options: Any) -> str:
    """Return the error that a step's function gets if it does this with its store."""
    errors: list[str] = []
    stores: list[Any] = []

    async def p(task: Task) -> None:
        try:
            await act(stores[0], task)
        except FOR_EVER as error:
            errors.append(str(error))

    saga = chain(p, **options)
    async with sagas.open(location, [saga]) as store:
        stores.append(store)
        assert (await (await store.start(saga, key)).wait(timeout=60)).ok
    return errors[0]


@pytest.mark.parametrize("options", [{}, {"timeout": 50}, {"concurrency": 2}])
def test_its_own_saga(location: str, options: dict[str, Any]) -> None:
    """However the function is called."""

    async def main() -> None:
        async def wait(store: sagas.Store, task: Task) -> None:
            await store.wait(task.key)

        async def later(store: sagas.Store, task: Task) -> None:
            await asyncio.sleep(0.01)
            run = await store.get(task.key)
            assert run
            await run.wait()

        async def settled(store: sagas.Store, task: Task) -> None:
            await store.wait_idle()

        errors = [
            await heard(location, act, f"k{n}", **options) for n, act in enumerate((wait, later))
        ]
        assert errors == [
            f"step 'p' of saga 'k{n}' waits for its own saga, which ends only after it. "
            "Wait for it outside of the saga's steps"
            for n in range(2)
        ]
        error = await heard(location, settled, "k2", **options)
        assert "waits until no saga is open, but its own is" in error

    run(main())


def test_waits_that_can_end(location: str) -> None:
    """A wait for its own saga in a separate task, or with a time limit; and for another saga of the
    same key in another store.
    """
    ends: list[sagas.SagaResult] = []
    stores: list[sagas.Store] = []
    jobs: list[asyncio.Task[Any]] = []

    async def p(task: Task) -> None:
        async def note() -> None:
            ends.append(await stores[0].wait(task.key))

        jobs.append(asyncio.create_task(note()))
        await asyncio.sleep(0.01)
        with pytest.raises(TimeoutError):
            await stores[0].wait(task.key, timeout=0.01)

    saga = chain(p)

    async def main() -> None:
        async with sagas.open(location, [saga]) as store:
            stores.append(store)
            assert (await (await store.start(saga, "k")).wait(timeout=60)).ok
            await jobs[0]
            assert ends[0].ok

    run(main())


def test_a_plain_function_and_its_own_saga(location: str) -> None:
    """In its thread; a wait in another thread that it starts is allowed."""
    errors: list[str] = []
    ends: list[sagas.SagaResult] = []
    stores: list[sagas.SyncStore] = []
    threads: list[threading.Thread] = []

    def p(task: Task) -> None:
        parallel = threading.Thread(target=lambda: ends.append(stores[0].wait(task.key)))
        parallel.start()
        threads.append(parallel)
        with pytest.raises(FOR_EVER) as error:
            stores[0].wait(task.key)
        errors.append(str(error.value))
        with pytest.raises(TimeoutError):
            stores[0].wait(task.key, timeout=0.01)

    saga = chain(p)
    with sagas.open_sync(location, [saga], shutdown_timeout=1) as store:
        stores.append(store)
        assert store.start(saga, "k").wait(timeout=60).ok
        threads[0].join(60)
    assert "waits for its own saga" in errors[0] and ends[0].ok


def test_sagas_that_wait_for_each_other(location: str) -> None:
    """The one that closes the cycle gets the error; the others continue."""
    errors: list[str] = []
    stores: list[sagas.Store] = []

    async def p(task: Task) -> None:
        other = {"a": "b", "b": "c", "c": "a"}[task.key]
        try:
            await stores[0].wait(other)
        except FOR_EVER as error:
            errors.append(str(error))

    saga = chain(p)

    async def main() -> None:
        async with sagas.open(location, [saga]) as store:
            stores.append(store)
            runs = [await store.start(saga, key) for key in "abc"]
            assert all([(await run.wait(timeout=60)).ok for run in runs])

    run(main())
    assert len(errors) == 1 and errors[0].count("which waits for saga") == 2


@pytest.mark.parametrize("plain", [False, True])
def test_parents_that_take_all_slots(location: str, plain: bool) -> None:
    """Each waits for a child that has no slot: one gets the error, and is called again once there
    are slots, so that all end.
    """
    errors: list[str] = []
    stores: list[Any] = []
    child = sagas.Saga("child")

    @child.step(name="c")
    async def c(task: Task) -> None:
        await asyncio.sleep(0.001)

    def begin(task: Task) -> Any:
        return stores[0].start(child, f"{task.key}-child")

    async def p(task: Task) -> None:
        try:
            await (await begin(task)).wait()
        except sagas.SlotsTaken as error:
            errors.append(str(error))
            raise

    def q(task: Task) -> None:
        try:
            begin(task).wait()
        except sagas.SlotsTaken as error:
            errors.append(str(error))
            raise

    parent = chain(q if plain else p)

    async def main() -> None:
        async with sagas.open(
            location,
            [parent, child],
            concurrency=2,
            settings=sagas.Settings(idle=0.1),
            shutdown_timeout=1,
        ) as store:
            stores.append(store)
            runs = [await store.start(parent, f"p{number}") for number in range(4)]
            assert all([(await run.wait(timeout=60)).ok for run in runs])

    def plainly() -> None:
        with sagas.open_sync(
            location,
            [parent, child],
            concurrency=2,
            settings=sagas.Settings(idle=0.1),
            shutdown_timeout=1,
        ) as store:
            stores.append(store)
            runs = [store.start(parent, f"p{number}") for number in range(4)]
            assert all(run.wait(timeout=60).ok for run in runs)

    plainly() if plain else run(main())
    assert errors and "all 2 slots of the store's concurrency are taken" in errors[0]


def test_parents_of_children_that_need_no_slot(location: str) -> None:
    """A child that waits for a worker, an approval or a time may end without a slot: no function
    gets an error.
    """
    stores: list[sagas.Store] = []
    faults: list[BaseException] = []
    child = sagas.Saga("child")
    child.step(external=True, name="c")

    async def p(task: Task) -> None:
        try:
            await (await stores[0].start(child, f"{task.key}-child")).wait()
        except BaseException as error:
            faults.append(error)
            raise

    parent = chain(p)

    async def main() -> None:
        async with sagas.open(
            location,
            [parent, child],
            concurrency=2,
            settings=sagas.Settings(idle=0.1),
            shutdown_timeout=1,
        ) as store:
            stores.append(store)
            await store.start(child, "p0-child")
            await until(lambda: store.active_attempts("p0-child"))
            run = await store.start(parent, "p0")
            with pytest.raises(TimeoutError):
                await run.wait(timeout=0.5)  # some looks
            await store.complete("p0-child", "c")
            assert (await run.wait(timeout=60)).ok and not faults

    run(main())


# -- approvals that decide themselves


def asking(function: Callable[[Task], Any]) -> sagas.Saga:
    saga = sagas.Saga("asking")
    saga.approval(name="ok", backoff=QUICK)(function)
    return saga


def small(task: Task) -> Any:
    """Approve small inputs."""
    if task.input == "small":
        return sagas.Approved({"by": "rule"})
    return sagas.Rejected("too expensive") if task.input == "expensive" else None


async def small_async(task: Task) -> Any:
    await asyncio.sleep(0)
    return small(task)


def small_later(task: Task) -> Any:
    """A plain function whose result is to be awaited: a decorator that is not async, for
    example.
    """
    return small_async(task)


@pytest.mark.parametrize("function", [small, small_async, small_later])
def test_an_approval_that_decides_itself(location: str, function: Callable[[Task], Any]) -> None:
    """It is over at once, done or failed permanently; else an operator is asked, as before."""
    saga = asking(function)

    async def main() -> None:
        async with sagas.open(location, [saga]) as store:
            end = await (await store.start(saga, "small", "small")).wait(timeout=60)
            assert end.ok and end.results == {"ok": {"by": "rule"}}
            refused = await (await store.start(saga, "expensive", "expensive")).wait(timeout=60)
            assert refused.states == {"ok": "failed"} and refused.errors == {"ok": "too expensive"}
            started = await store.start(saga, "asked")
            await until(
                lambda: [
                    attempt
                    for attempt in store.active_attempts("asked")
                    if attempt.waits == "approval"
                ]
            )
            await started.complete("ok", "yes")
            assert (await started.wait(timeout=60)).results == {"ok": "yes"}

    run(main())
    assert sagas.testing.run(saga, "small").results == {"ok": {"by": "rule"}}
    assert sagas.testing.run(saga, "expensive").states == {"ok": "failed"}
    assert sagas.testing.run(saga, answers={"ok": 1}).results == {"ok": 1}


def test_an_approval_that_finishes_itself(location: str) -> None:
    """It would wait until it is asked: the error says what to return. In a thread, too."""
    errors: list[str] = []
    stores: list[Any] = []

    async def ask(task: Task) -> None:
        with pytest.raises(FOR_EVER) as error:
            await stores[0].complete(task.key, task.step)
        errors.append(str(error.value))

    def ask_plainly(task: Task) -> None:
        with pytest.raises(FOR_EVER) as error:
            stores[-1].complete(task.key, task.step)
        errors.append(str(error.value))

    async def main() -> None:
        saga = asking(ask)
        async with sagas.open(location, [saga]) as store:
            stores.append(store)
            run = await store.start(saga, "k")
            await run.complete("ok")
            assert (await run.wait(timeout=60)).ok

    run(main())
    saga = asking(ask_plainly)
    with sagas.open_sync(location, [saga], shutdown_timeout=1) as store:
        stores.append(store)
        plain_run = store.start(saga, "plain")
        plain_run.complete("ok")
        assert plain_run.wait(timeout=60).ok
    assert len(errors) == 2 and all(
        "Return sagas.Approved(result) or sagas.Rejected(why)" in text for text in errors
    )


def test_an_answer_of_a_step_that_is_not_an_approval(location: str) -> None:
    """It is a result that is not JSON: the step is done, and the result is not kept."""
    saga = simple(lambda task: sagas.Approved(1))

    async def main() -> None:
        async with sagas.open(location, [saga]) as store:
            end = await (await store.start(saga, "k")).wait(timeout=60)
            assert end.ok and "Approved is not JSON" in end.results["a"]["unstorable"]

    run(main())
    with pytest.raises(TypeError, match="the reason must be a text"):
        sagas.Rejected(1)  # type: ignore[arg-type]
