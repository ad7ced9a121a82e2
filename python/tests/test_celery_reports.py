"""A worker's *done* is not overwritten by an operator who reports at the same time that it failed.
"""

from __future__ import annotations

import asyncio
import contextlib
import pathlib
import sqlite3
import time
from collections.abc import AsyncIterator, Callable, Iterator
from concurrent.futures import ThreadPoolExecutor
from typing import Any

import celery
import psycopg
import pytest
from brokers import Broker, broker_at
from cases import QUICK, Task, attempts_to_report, ended, run, simple, until
from celery.exceptions import Reject, SoftTimeLimitExceeded
from psycopg.rows import dict_row
from test_definition_sets import rows
from test_faults import full

import sagas
import sagas.celery
from sagas.cli import store_command
from sagas.core import outcomes
from sagas.core.outcomes import Outcome
from sagas.core.attempt.external_work import Order
from sagas.runtime import retention
from sagas.storage.factory import open_worker_session
from sagas.storage.postgresql import worker_session


@pytest.fixture(scope="module")
def broker(tmp_path_factory: pytest.TempPathFactory) -> Iterator[Broker]:
    """Return a Redis of this process's own."""
    with broker_at("redis", tmp_path_factory.mktemp("redis")) as running:
        yield running


class Late:
    """A step whose message is lost, so that an operator has to report its outcome.

    Its worker has the message anyway.
    """

    def __init__(self, broker: Broker, location: str) -> None:
        self.location, self.orders = location, list[Order]()
        app = celery.Celery("late", broker=broker.url)
        app.conf.sagas_store = location
        queue = sagas.celery.Queue(app, "late", timeout=0.5)
        queue.send = self._lose  # type: ignore[method-assign]
        self.saga = sagas.Saga("late")

        @self.saga.step(queue=queue, max_unknown=1, backoff=QUICK)
        def once(task: Task) -> str:
            return "never called here"

    async def _lose(self, order: Order) -> None:
        self.orders.append(order)

    @contextlib.asynccontextmanager
    async def held(self) -> AsyncIterator[sagas.Store]:
        """Run the store, with the step held for an operator."""
        async with sagas.open(self.location, [self.saga]) as store:
            await store.start(self.saga, "k")
            await until(lambda: attempts_to_report(store), 30)
            external = store._coordinator.external
            await until(lambda: not (external._is_looking or external._unread))
            yield store

    @property
    def parameters(self) -> dict[str, Any]:
        """Return the report of its worker's transaction."""
        order = self.orders[0]
        return {"attempt": order.token, "lease": order.lease, "value": '"by the worker"'}


@pytest.fixture
def late(broker: Broker, location: str, monkeypatch: pytest.MonkeyPatch) -> Late:
    """Return a late report over each database; the program is not notified of reports."""
    monkeypatch.setattr("sagas.runtime.external_queue.LOOK", 3600.0)
    monkeypatch.setattr("sagas.runtime.external_queue.LOOK_AT_FILE", 3600.0)
    monkeypatch.setattr("sagas.storage.postgresql.worker_session.NOTIFY_REPORTED", "SELECT 1")
    return Late(broker, location)


@pytest.mark.parametrize("by", ["program", "command"])
def test_done_was_reported_before(late: Late, by: str, capsys: pytest.CaptureFixture[str]) -> None:
    """The operator reports before the program has read the worker's report, which counts anyway."""

    async def main() -> None:
        async with late.held() as store:
            open_worker_session(late.location).report(
                late.orders[0], Outcome(outcomes.SUCCEEDED, '"by the worker"')
            )
            if by == "program":
                with pytest.raises(sagas.StepNotWaiting, match="its worker has reported"):
                    await store.fail("k", "once", "I gave up")
            else:
                arguments = [late.location, "fail", "k", "once", "I gave up"]
                assert await asyncio.to_thread(store_command.main, arguments) == 1
                errors = capsys.readouterr().err  # or the program has read the report by then
                arguments = "its worker has reported success", "k has ended", "a different outcome"
                assert any(word in errors for word in arguments)
            end = await store.wait("k", 60)
            assert end.ok and end.results == {"once": "by the worker"}

    run(main())


def test_a_failure_that_was_reported_before(late: Late) -> None:
    """The operator's report counts: the step had no effect."""

    async def main() -> None:
        async with late.held() as store:
            report = Outcome(outcomes.FAILED, '{"error": "no", "final": false, "called": true}')
            open_worker_session(late.location).report(late.orders[0], report)
            await store.complete("k", "once", "by hand")
            assert (await store.wait("k", 60)).results == {"once": "by hand"}

    run(main())


@pytest.fixture
def inside(broker: Broker, url: str, monkeypatch: pytest.MonkeyPatch) -> Late:
    """Return a late report over PostgreSQL."""
    monkeypatch.setattr("sagas.runtime.external_queue.LOOK", 3600.0)
    return Late(broker, url)


@pytest.mark.parametrize("commits", [True, False])
def test_its_transaction_is_open(inside: Late, commits: bool) -> None:
    """The operator's report waits for the worker's transaction, and counts if that is
    rolled back.
    """

    async def main() -> None:
        link = await psycopg.AsyncConnection.connect(inside.location)
        async with inside.held() as store, link:
            await link.execute("CREATE TABLE public.book(key text)")
            await link.commit()
            await link.execute("INSERT INTO public.book VALUES ('k')")
            assert await (await link.execute(worker_session.RECORD, inside.parameters)).fetchall()
            failing = asyncio.create_task(store.fail("k", "once", "I gave up"))
            await until(lambda: blocked(inside.location) or failing.done(), 30)
            await (link.commit() if commits else link.rollback())
            if commits:
                with pytest.raises(sagas.StepNotWaiting, match="its worker has reported"):
                    await failing
            else:
                await failing
            end = await store.wait("k", 60)
            rows = await (await link.execute("SELECT key FROM public.book")).fetchall()
            assert end.ok is commits and rows == [("k",)] * commits

    run(main())


def test_the_operator_was_first(inside: Late) -> None:
    """The worker's transaction is rolled back."""

    async def main() -> None:
        link = await psycopg.AsyncConnection.connect(inside.location)
        async with inside.held() as store, link:
            await store.fail("k", "once", "I gave up")
            assert not (await store.wait("k", 60)).ok
            recorded = await link.execute(worker_session.RECORD, inside.parameters)
            assert not await recorded.fetchall()

    run(main())


def blocked(url: str) -> bool:
    """Return whether a statement waits for a lock."""
    with psycopg.connect(url) as link:
        return link.execute("SELECT 1 FROM pg_locks WHERE NOT granted").fetchone() is not None


def test_a_program_that_comes_back_takes_a_report(late: Late) -> None:
    """The report came while no program had the store, of a step that needs an operator."""

    async def main() -> None:
        async with late.held():
            pass
        open_worker_session(late.location).report(
            late.orders[0], Outcome(outcomes.SUCCEEDED, '"by the worker"')
        )
        async with sagas.open(late.location, [late.saga]) as store:
            assert (await store.wait("k", 60)).results == {"once": "by the worker"}

    run(main())


def test_a_start_that_is_not_kept(
    broker: Broker, tmp_path: pathlib.Path, caplog: pytest.LogCaptureFixture
) -> None:
    """The disk is full as its saga is to be opened.

    No message was sent, so none is withdrawn, and its log is recovered as usual.
    """
    late, before = Late(broker, str(tmp_path / "store.db")), simple(lambda task: 1)

    async def main() -> None:
        async with sagas.open(late.location, [before, late.saga]) as store:
            await ended(store, before, "before")  # there is an engine
            with full():
                with pytest.raises(sagas.StoreUnavailable):
                    await store.start(late.saga, "k")
            await until(lambda: started(store, late.saga))
            await until(lambda: late.orders)
            await until(lambda: attempts_to_report(store), 30)
            await store.complete("k", "once", "by hand")
            assert (await store.wait("k", 60)).ok

    run(main())
    assert "could not be parsed" not in caplog.text


async def started(store: sagas.Store, kind: sagas.Saga) -> bool:
    """Return whether it could be started by now."""
    try:
        await store.start(kind, "k")
    except sagas.StoreUnavailable:
        return False
    return True


def test_a_message_that_comes_after_its_saga_was_deleted(late: Late) -> None:
    """It is refused, and the error names this cause too."""

    more, closed = simple(lambda task: 1), "SELECT 1 FROM shards WHERE closed = 1"

    async def main() -> None:
        async with late.held() as store:
            await store.complete("k", "once", "by hand")
            assert (await store.wait("k", 60)).ok
        async with sagas.open(
            late.location, [late.saga, more]
        ) as store:  # another one has its shard
            await ended(store, more, "more")
            await until(lambda: rows(late.location, closed), 30)

    run(main())
    pruned = retention.prune(late.location, -3600.0)
    assert len(pruned.logs) == 1 and pruned.sagas == 2
    with pytest.raises(sagas.WrongStore, match="saga 'k' .* late: the saga has been deleted"):
        open_worker_session(late.location).begin(late.orders[0])


def test_a_message_that_comes_after_its_saga_was_deleted_from_its_shard(late: Late) -> None:
    """It is late: the shard remains, and the attempt is closed."""

    async def main() -> None:
        async with late.held() as store:
            await store.complete("k", "once", "by hand")
            assert (await store.wait("k", 60)).ok
            pruned = await asyncio.to_thread(retention.prune, late.location, -3600.0)
            assert pruned.families == 1 and not pruned.logs
            assert open_worker_session(late.location).begin(late.orders[0]) is None

    run(main())


class Here:
    """A step whose messages come to a worker in this process, in its own thread."""

    def __init__(
        self, broker: Broker, location: str, function: Callable[[Task], Any], **options: Any
    ):
        self.location, self.orders = location, list[Order]()
        app = celery.Celery("here", broker=broker.url)
        app.conf.sagas_store = location
        self.queue = sagas.celery.Queue(app, "here", patience=30)
        self.queue.send = self._send  # type: ignore[method-assign]
        self.saga = sagas.Saga("here")
        self.saga.step(name="once", queue=self.queue, **options)(function)
        self.task = app.tasks["sagas.here.once.run"]
        self.thread = ThreadPoolExecutor(1)
        self.is_there = True

    async def _send(self, order: Order) -> None:
        self.orders.append(order)
        if self.is_there:
            await asyncio.wrap_future(self.thread.submit(self.task, order.written()))

    def ordered(self) -> dict[str, Any]:
        """Return a message that no worker takes while the store is open."""

        async def main() -> None:
            async with sagas.open(self.location, [self.saga], shutdown_timeout=0) as store:
                await store.start(self.saga, "k")
                await until(lambda: self.orders, 30)

        self.is_there = False
        run(main())
        return self.orders[0].written()


SETTINGS = "SELECT current_setting('search_path'), current_setting('lock_timeout')"


def test_a_function_leaves_no_settings(broker: Broker, url: str) -> None:
    """A setting of its connection is reset for the next function of its worker."""
    seen: list[Any] = []

    def once(task: Task) -> None:
        if task.key == "0":
            return  # without a statement only its report is left
        seen.append(task.connection.execute(SETTINGS).fetchone())
        if task.key == "1":
            task.connection.execute("DEALLOCATE ALL")
            task.connection.execute("SET search_path = other")
            task.connection.execute("SELECT set_config('lock_timeout', '7s', false)")
            task.connection.row_factory = dict_row

    here = Here(broker, url, once, transaction=True)

    async def main() -> None:
        async with sagas.open(url, [here.saga]) as store:
            for number in range(3):
                assert (await ended(store, here.saga, f"{number}")).ok

    run(main())
    assert seen[0] == seen[1]


@pytest.mark.parametrize("in_loop", [False, True])
def test_a_function_commits_nothing_by_itself(broker: Broker, url: str, in_loop: bool) -> None:
    """As in a program: psycopg's calls and statements for it raise, and the attempt is parked."""
    seen: list[str] = []

    def once(task: Task) -> None:
        with pytest.raises(psycopg.ProgrammingError, match="forbidden") as error:
            task.connection.commit()
        seen.append(str(error.value))
        task.connection.execute("COMMIT")

    async def later(task: Task) -> None:
        with pytest.raises(psycopg.ProgrammingError, match="forbidden") as error:
            await task.connection.commit()
        seen.append(str(error.value))
        await task.connection.execute("SELECT 1")
        await task.connection.execute("COMMIT")

    here = Here(broker, url, later if in_loop else once, transaction=True, tries=1)

    async def main() -> None:
        async with sagas.open(url, [here.saga]) as store:
            await store.start(here.saga, "k")
            await until(store.attention)
            (held,) = await store.attention()
            assert held.why == "program_error" and len(seen) == 1
            assert "the transaction was over before its step" in (held.detail or "")

    run(main())


class Soft:
    """A replacement for the pause of a worker that cannot reach the store.

    Celery raises its soft limit, and the store is available again.
    """

    def __init__(self, location: str) -> None:
        self.link = sqlite3.connect(location, isolation_level=None)

    def lock(self, whom: str) -> None:
        """Lock the store for writers, or also for readers."""
        self.link.execute(f"PRAGMA locking_mode = {'EXCLUSIVE' if whom == 'all' else 'NORMAL'}")
        self.link.execute("BEGIN EXCLUSIVE")

    def __call__(self, seconds: float) -> None:
        self.link.close()
        raise SoftTimeLimitExceeded()


@pytest.mark.parametrize("locked", ["report", "begin"])
def test_a_soft_time_limit_while_the_store_is_away(
    broker: Broker, tmp_path: pathlib.Path, monkeypatch: pytest.MonkeyPatch, locked: str
) -> None:
    """A returned result is reported anyway; a message whose function was not called goes back."""
    path, calls = str(tmp_path / "store.db"), list[str]()

    def once(task: Task) -> str:
        calls.append(task.key)
        if locked == "report":
            soft.lock("writers")
        return "done"

    here = Here(broker, path, once)
    message, soft = here.ordered(), Soft(path)
    monkeypatch.setattr(time, "sleep", soft)
    if locked == "begin":
        soft.lock("all")
        with pytest.raises(Reject) as error:
            here.task(message)
        assert error.value.requeue and not calls
    here.task(message)
    monkeypatch.undo()
    assert calls == ["k"]
    assert open_worker_session(path).begin(here.orders[0]) is None  # it is reported
