"""`context=` of a store: which functions get it, when it is entered and left, and its errors."""

from __future__ import annotations

import asyncio
import contextlib
import datetime
import pathlib
import pickle
from collections.abc import AsyncIterator, Callable, Iterator
from typing import Any

import pytest
from cases import HOUR, Task, ended, run, until
from serving import served, start
from test_service_workers import working

import sagas
import sagas.testing
from sagas.definition.task_data import TaskSnapshot


class Clients:
    """An object that functions share; it notes each use."""

    def __init__(self) -> None:
        self.uses: list[str] = []
        self.is_open = True

    def use(self, task: Task) -> None:
        assert self.is_open
        self.uses.append(f"{task.step}{' undo' if task.is_compensation else ''}")


def shop(inside: bool) -> sagas.Saga:
    """Return a saga with each way in which a function is called."""
    shop = sagas.Saga("shop")

    @shop.step(undo=1, keep=5)
    async def simple(task: Task) -> None:
        task.context.use(task)

    @simple.compensation
    def back(task: Task) -> None:
        task.context.use(task)

    @shop.step(needs=[simple], undo=0)
    def plain(task: Task) -> None:
        task.context.use(task)

    @shop.step(needs=[plain], undo=0, timeout=60)
    async def timed(task: Task) -> None:
        await asyncio.sleep(0)
        task.context.use(task)

    @shop.step(needs=[timed], undo=0, transaction=inside)
    async def within(task: Task) -> None:
        task.context.use(task)

    def at(task: Task) -> Any:
        task.context.use(task)
        return datetime.timedelta(0)

    @shop.wait(until=at, needs=[within])
    def pause(task: Task) -> None:
        task.context.use(task)

    @shop.approval(needs=[pause])
    def ask(task: Task) -> object:
        task.context.use(task)
        return sagas.Rejected("no")

    return shop


USES = ["simple", "plain", "timed", "within", "pause", "pause", "ask", "simple undo"]


def factories(clients: Clients) -> dict[str, Any]:
    """Return each form of a context."""

    @contextlib.asynccontextmanager
    async def later() -> AsyncIterator[Clients]:
        async with asyncio.TaskGroup(), asyncio.timeout(60):  # [later()] both request one task
            yield clients
        clients.is_open = False

    @contextlib.contextmanager
    def plain() -> Iterator[Clients]:
        yield clients
        clients.is_open = False

    class Made:
        def __enter__(self) -> Clients:
            return clients

        def __exit__(self, *_: object) -> None:
            clients.is_open = False

    return {"object": clients, "async": later, "plain": plain, "class": Made}


@pytest.mark.parametrize("form", ["object", "async", "plain", "class"])
def test_each_function_gets_the_context(location: str, form: str) -> None:
    """However it is called: plain, in a thread, in its time, in a transaction, as a
    compensation.
    """
    clients = Clients()
    saga, context = shop(inside=location.startswith("postgresql")), factories(clients)[form]

    async def main() -> None:
        async with sagas.open(location, [saga], context=context) as store:
            assert (await ended(store, saga)).phase == "recovered"
            assert clients.is_open
        assert clients.is_open is (form == "object")

    run(main())
    assert clients.uses == USES
    clients = Clients()
    trial = sagas.testing.run(
        saga if form == "object" else shop(False), context=factories(clients)[form]
    )
    assert trial.phase == "recovered" and clients.uses == USES


def test_a_store_without_async_opens_and_closes_it_in_one_task(location: str) -> None:
    """Its calls come from other tasks of the loop; a task group would refuse that."""
    clients = Clients()
    saga = shop(inside=False)
    with sagas.open_sync(location, [saga], context=factories(clients)["async"]) as store:
        assert store.start(saga, "k").wait(60).phase == "recovered"
    assert not clients.is_open and clients.uses == USES


def test_the_context_is_entered_again_after_a_restart(location: str) -> None:
    """It exists before the first function of a recovered saga is called, and while
    functions end.
    """
    saga, steps = sagas.Saga("again"), list[str]()

    @contextlib.asynccontextmanager
    async def made() -> AsyncIterator[list[str]]:
        steps.append("enter")
        yield steps
        steps.append("leave")

    @saga.step(tries=2, backoff=HOUR)
    async def slow(task: Task) -> None:
        task.context.append("begin")
        await asyncio.sleep(0.05 if len(steps) < 4 else 0)
        task.context.append("end")

    async def main() -> None:
        async with sagas.open(location, [saga], context=made) as store:
            await store.start(saga, "k")
            await until(lambda: "begin" in steps)
        async with sagas.open(location, [saga], context=made) as store:
            await store.wait("k")
            await ended(store, saga, "again")

    run(main())
    assert steps == ["enter", "begin", "end", "leave", "enter", "begin", "end", "leave"]


def bad_factories() -> dict[str, tuple[Callable[[], Any], type[Exception], str]]:
    """Return wrong factories."""

    async def forgot() -> None:
        ...

    @contextlib.asynccontextmanager
    async def fails() -> AsyncIterator[None]:
        raise ConnectionError("no pool")
        yield

    manager = "Return a context manager"
    return {
        "a dict": (lambda: {}, TypeError, f"returned dict. {manager}"),
        "a coroutine": (forgot, TypeError, f"returned coroutine. {manager}"),
        "fails": (fails, ConnectionError, "no pool"),
    }


@pytest.mark.parametrize("factory_name", bad_factories())
def test_an_error_of_the_context_prevents_opening(location: str, factory_name: str) -> None:
    """The error is the factory's own, and no process has the store afterwards."""
    factory, error, text = bad_factories()[factory_name]
    saga = shop(inside=False)

    async def main() -> None:
        with pytest.raises(error, match=text):
            async with sagas.open(location, [saga], context=factory):
                raise AssertionError
        async with sagas.open(location, [saga], context=Clients()) as store:
            assert (await ended(store, saga)).phase == "recovered"

    run(main())


def test_close_raises_the_error_of_the_context(tmp_path: pathlib.Path) -> None:
    """The store is closed anyway."""
    saga = shop(inside=False)

    @contextlib.contextmanager
    def made() -> Iterator[Clients]:
        yield Clients()
        raise ConnectionError("left")

    async def main() -> None:
        with pytest.raises(ConnectionError, match="left"):
            async with sagas.open(tmp_path / "store.db", [saga], context=made) as store:
                await ended(store, saga)
        async with sagas.open(tmp_path / "store.db", [saga], context=Clients()) as store:
            assert (await store.wait("k")).phase == "recovered"

    run(main())


def test_a_store_without_a_context(tmp_path: pathlib.Path) -> None:
    """So does a copy in another process, which never gets the object itself."""
    saga = sagas.Saga("none")

    @saga.step
    async def asks(task: Task) -> Any:
        return task.context

    text = "the store was opened without a context. Open it with sagas.open"
    with pytest.raises(sagas.ProgramError, match=text):
        sagas.testing.run(saga)
    copied = pickle.loads(
        pickle.dumps(sagas.Task(TaskSnapshot("s", "k", "a", False, 1, "t-0", "1", {}, None)))
    )
    with pytest.raises(sagas.ProgramError, match="a copy of a task in another process"):
        copied.context


def test_a_worker_has_its_own(tmp_path: pathlib.Path) -> None:
    """It is entered before the first task and left after the last; an async one is refused."""
    definition = 'format = 2\nname = "one"\n[[step]]\nname = "a"\nundo = "never"\n'
    clients = Clients()

    def a(task: Task) -> None:
        task.context.use(task)

    with served(tmp_path, {"one.toml": definition}) as service, service.client() as client:
        context = factories(clients)["plain"]
        worker = sagas.Worker(service.url, wait=1.0, context=context)
        worker.step("one", "a")(a)
        start(client, "one", "k")
        with working(worker):
            assert client.get("/v1/sagas/k/wait?seconds=60").json()["phase"] == "completed"
    assert clients.uses == ["a"] and not clients.is_open
    worker = sagas.Worker("http://127.0.0.1:1", context=factories(clients)["async"])
    worker.step("one", "a")(a)
    with pytest.raises(TypeError, match="a worker has no event loop"):
        worker.run()
