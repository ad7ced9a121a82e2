"""Steps on Celery's workers: their declarations, their messages and their reports.

Over Redis; RabbitMQ is in test_celery_kills.py.
"""

from __future__ import annotations

import asyncio
import contextlib
import pathlib
import sqlite3
import tempfile
from collections.abc import Coroutine, Iterator
from typing import Any, TypeVar

import celery
import psycopg
import pytest
from brokers import Broker, broker_at
from cases import ended, unknown_attempts, until
from celery_shop import BIG, Seat, Shop, Trip, shop_in

import sagas
import sagas.celery
import sagas.testing
from sagas.core.outcomes import SUCCEEDED, Outcome, failure, unknown
from sagas.core.attempt.external_work import Order
from sagas.core.states import AttemptState
from sagas.runtime.remote_steps import MAX_CARRIED
from sagas.storage.factory import open_worker_session

T = TypeVar("T")


def run(main: Coroutine[Any, Any, T]) -> T:
    """Run a case, for at most three minutes: workers start slowly on a busy machine."""
    return asyncio.run(asyncio.wait_for(main, 180))


@pytest.fixture(scope="module")
def broker(tmp_path_factory: pytest.TempPathFactory) -> Iterator[Broker]:
    """Return a Redis of this process's own."""
    with broker_at("redis", tmp_path_factory.mktemp("redis")) as running:
        yield running


@pytest.fixture
def shop(broker: Broker, tmp_path: pathlib.Path) -> Shop:
    """Return a shop over a file."""
    return shop_in(broker, tmp_path)


@pytest.fixture
def either(broker: Broker, tmp_path: pathlib.Path, location: str) -> Shop:
    """Return a shop over a file, and one over PostgreSQL."""
    return shop_in(broker, tmp_path, location)


def order(log: str, number: int = 0, attempt: int = 1, lease: int = 5) -> Order:
    return Order("slow", 1, "k", log, number, "once", "run", attempt, lease, "null", {}, None)


def done(value: str) -> Outcome:
    return Outcome(SUCCEEDED, f'"{value}"')


# -- how a step is declared


def test_tasks_have_names_and_late_acknowledgement(shop: Shop) -> None:
    """The names carry saga, version and step; Celery's own options pass through."""
    names = {name for name in shop.app.tasks if name.startswith("sagas.")}
    assert {
        "sagas.trip@2.flight.run",
        "sagas.trip@2.flight.undo",
        "sagas.trip@2.meal.undo",
        "sagas.large.first.run",
        "sagas.odd.long.run",
    } <= names
    assert "sagas.trip@2.meal.run" not in names
    for name in names:
        task = shop.app.tasks[name]
        assert (
            task.acks_late
            and task.reject_on_worker_lost
            and task.ignore_result
            and task.queue == shop.settings["queue"]
        )
    long = shop.app.tasks["sagas.odd.long.run"]
    assert (long.soft_time_limit, long.time_limit, long.priority) == (1, 60, 3)


def test_the_functions_are_still_functions(shop: Shop) -> None:
    """A test calls a step directly, and whole sagas run in memory, without a broker."""
    trial = sagas.testing.run(shop.trip, Trip("Rome"))
    assert trial.phase == "completed" and trial.results["tour"] == {"seat": "Rome"}


def test_invalid_declarations(shop: Shop, tmp_path: pathlib.Path) -> None:
    """No store, another store, two steps of one task, an external step."""
    path = str(tmp_path / "store.db")

    async def refused(app: Any, saga: sagas.Saga, error: type[Exception], text: str) -> None:
        with pytest.raises(error, match=text):
            async with sagas.open(path, [saga]):
                pass

    def saga(app: Any, **options: Any) -> sagas.Saga:
        saga = sagas.Saga("one")
        saga.step(name="a", queue=sagas.celery.Queue(app, "q", **options))(lambda task: None)
        return saga

    broker = shop.settings["broker"]
    app = celery.Celery("no", broker=broker)
    run(refused(app, saga(app), sagas.DefinitionError, "sagas_store"))
    run(
        refused(
            app,
            saga(celery.Celery("a", broker=broker), store=str(tmp_path / "other.db")),
            sagas.WrongStore,
            "other.db",
        )
    )
    run(
        refused(
            app,
            saga(celery.Celery("b", broker=broker), store="postgresql://nowhere/x"),
            sagas.WrongStore,
            "PostgreSQL|postgresql",
        )
    )
    app = celery.Celery("c", broker=broker)
    saga(app, store=path)
    run(refused(app, saga(app, store=path), sagas.DefinitionError, "another step has its task"))
    with pytest.raises(sagas.DefinitionError, match="external=True"):
        options: dict[str, Any] = {"external": True, "queue": shop.queue}
        sagas.Saga("two").step(name="a", **options)


def test_a_message_shows_its_attempt() -> None:
    """Its id is the token, and its arguments include key and attempt, which flower and the broker's
    pages show. Priority and routes are Celery's.
    """
    app = celery.Celery("routed", broker="memory://")
    app.conf.update(
        sagas_store="unused.db", task_routes={"sagas.slow.once.run": {"queue": "there"}}
    )
    queue = sagas.celery.Queue(app, priority=7, expires=900)
    sagas.Saga("slow").step(name="once", queue=queue)(lambda task: None)
    sent = order("0" * 16)
    run(queue.send(sent))
    with app.connection_for_read() as link, contextlib.closing(link.SimpleQueue("there")) as there:
        message = there.get(timeout=10)
    assert message.headers["id"] == sent.token and message.headers["task"] == "sagas.slow.once.run"
    assert message.headers["argsrepr"] == "('k', attempt 1)" and message.headers["expires"]
    assert message.properties["priority"] == 7


def test_a_paused_queue_gets_no_message() -> None:
    """Its attempts wait, and the message is sent when the queue is resumed."""
    app = celery.Celery("paused", broker="memory://")
    saga = sagas.Saga("parcel")

    async def main(folder: pathlib.Path) -> None:
        path = str(folder / "store.db")
        queue = sagas.celery.Queue(app, "vans", store=path)
        saga.step(name="ship", queue=queue, undo=sagas.NOTHING)(lambda task: None)
        async with sagas.open(path, [saga]) as store:
            await store.pause(queue="vans", note="the vans are in repair", by="ada")
            await store.start(saga, "k")
            await until(
                lambda: [attempt.waits for attempt in store.active_attempts("k")] == ["paused"]
            )
            assert await store.waits_for("k") == ["ship is paused: the vans are in repair by ada"]
            with app.connection_for_read() as link:
                with contextlib.closing(link.SimpleQueue("vans")) as there:
                    assert there.qsize() == 0
                    await store.resume(queue="vans")
                    await until(lambda: there.qsize() == 1)
            assert [attempt.waits for attempt in store.active_attempts("k")] == ["ordered"]
            await store.close(0)

    with tempfile.TemporaryDirectory() as folder:
        run(main(pathlib.Path(folder)))


# -- what a worker does


def test_a_saga_on_workers(either: Shop, tmp_path: pathlib.Path) -> None:
    """It has inputs and results by type hints, both ways; async functions and plain ones; failed
    attempts, failures, compensations; and unknown outcomes.
    """
    worker = either.worker(tmp_path)
    try:
        run(_a_saga(either))
    finally:
        worker.kill()


async def _a_saga(shop: Shop) -> None:
    async with shop.open() as store:
        good = await ended(store, shop.trip, "good", Trip("Rome"))
        assert good.results == {
            "flight": Seat(12, "Rome"),
            "meal": "soup",
            "tour": {"seat": "Rome"},
        }
        assert good.phase == "completed" and good.cost is None
        full = await ended(store, shop.trip, "full", Trip("Rome", "full"))
        assert full.states == {"flight": "undone", "meal": "undone", "tour": "failed"}
        never = await ended(store, shop.trip, "never", Trip("Rome", "never"))
        assert never.states["tour"] == "failed"
        lost = await ended(store, shop.trip, "lost", Trip("Rome", "lost"))
        assert lost.phase == "completed" and lost.states["tour"] == "committed"
        assert {call["deadline"] for call in shop.calls()} == {None}
        timed = await store.start(shop.trip, "timed", Trip("Rome", "never"), deadline=3600)
        assert (await timed.wait(60)).phase == "recovered"
        (summary,) = [summary for summary in await store.list() if summary.key == "timed"]
        deadlines = {(call["step"], call["undo"]): call["deadline"] for call in shop.calls("timed")}
        assert len(deadlines) == 5 and [*deadlines.values()] == pytest.approx(
            [summary.deadline] * 5, abs=1e-3
        )
        assert all(verdict.startswith("yes") for verdict in (await store.audit()).values())
    meal_processes = {call["pid"] for call in shop.calls("good") if call["step"] == "meal"}
    assert meal_processes.isdisjoint(call["pid"] for call in shop.calls() if call["step"] != "meal")
    tours = [call for call in shop.calls("full") if call["step"] == "tour"]
    assert [call["attempt"] for call in tours] == [1, 2, 3] and len(
        {call["effect"] for call in tours}
    ) == 1
    undone = {call["step"]: call for call in shop.calls("full") if call["undo"]}
    assert (
        undone["flight"]["row"] == 12
        and undone["flight"]["of"].endswith("-flight-run")
        and undone["meal"]["result"] == "soup"
    )
    assert undone["meal"]["pid"] not in meal_processes
    assert [call["attempt"] for call in shop.calls("never") if call["step"] == "tour"] == [1]
    tours = [call for call in shop.calls("lost") if call["step"] == "tour"]
    assert len(tours) == 3 and len({call["token"] for call in tours}) == 1


def test_large_texts_are_fetched(either: Shop, tmp_path: pathlib.Path) -> None:
    """A message carries no more than 64 KiB; the worker fetches the rest from the store.

    A result that is not JSON is stored as unstorable.
    """
    sent: list[Order] = []
    send = either.queue.send

    async def seen(order: Order) -> None:
        sent.append(order)
        await send(order)

    either.queue.send = seen  # type: ignore[method-assign]
    worker = either.worker(tmp_path)
    try:
        for fail in (False, True):
            end = run(_large(either, fail))
            assert end.states["second"] == ("failed" if fail else "committed")
    finally:
        worker.kill()
    assert end.states["first"] == "undone"
    for call in either.calls():
        assert (call["size"], call["input"]) == (BIG, BIG)
    assert [call["letter"] for call in either.calls() if not call["undo"]] == ["x", "x"]
    assert len(sent) == 5 and max(len(repr(order.written())) for order in sent) < MAX_CARRIED


async def _large(shop: Shop, fail: bool) -> sagas.SagaResult:
    async with shop.open() as store:
        end = await ended(
            store, shop.large, f"large-{fail}", {"letter": "x", "more": "m" * BIG, "fail": fail}
        )
        if not fail:
            assert end.results["first"] == "x" * BIG and "unstorable" in end.results["second"]
        return end


def test_a_soft_time_limit_is_unknown(shop: Shop, tmp_path: pathlib.Path) -> None:
    """A call that takes too long may have had its effect: an operator reports the outcome."""
    worker = shop.worker(tmp_path)
    try:
        run(_soft(shop))
    finally:
        worker.kill()


async def _soft(shop: Shop) -> None:
    async with shop.open() as store:
        going = await store.start(shop.odd, "k")
        (held,) = await until(lambda: unknown_attempts(store), 60)
        assert "SoftTimeLimitExceeded" in str(held)
        await store.complete("k", "long", "by hand")
        assert (await going.wait()).results == {"long": "by hand"}


def test_a_message_that_no_worker_took_in_time(either: Shop, tmp_path: pathlib.Path) -> None:
    """It is unknown and needs an operator, and the late report is the answer."""
    run(_late(either, tmp_path))


async def _late(shop: Shop, tmp_path: pathlib.Path) -> None:
    async with shop.open() as store:
        going = await store.start(shop.slow, "k")
        (held,) = await until(lambda: unknown_attempts(store), 60)
        assert f"no report within 1 s from {shop.queue!r}" in str(held) and held.until is None
        worker = await asyncio.to_thread(shop.worker, tmp_path)
        try:
            assert (await asyncio.wait_for(going.wait(), 60)).results == {"once": "late"}
        finally:
            await asyncio.to_thread(worker.kill)
    assert len(shop.calls("k")) == 1


def test_a_message_is_sent_again(either: Shop, tmp_path: pathlib.Path) -> None:
    """The broker lost it: after the step's time it is sent again, with the same token.

    A later duplicate is not called any more.
    """
    orders: list[Order] = []
    send = either.queue.send

    async def lost(order: Order) -> None:
        orders.append(order)
        if len(orders) > 2:
            await send(order)

    either.queue.send = lost  # type: ignore[method-assign]
    either.slow.steps[0].run.max_unknown = None
    worker = either.worker(tmp_path)
    try:
        run(_again(either, orders))
        worker.wait_for("a late or repeated message", 2)
    finally:
        worker.kill()
    assert (
        len({order.token for order in orders}) == 1
        and len({order.lease for order in orders}) == len(orders) >= 3
    )
    assert len(either.calls("k")) == 1


async def _again(shop: Shop, orders: list[Order]) -> None:
    async with shop.open() as store:
        assert (await ended(store, shop.slow)).results == {"once": "late"}
        for late in orders[:2]:
            await sagas.celery.Queue.send(shop.queue, late)


def test_a_worker_of_an_older_definition(shop: Shop, tmp_path: pathlib.Path) -> None:
    """It drops the message of a step that it does not know; a worker that knows it gets it after
    the step's time, with the same token.
    """
    shop.slow.steps[0].run.max_unknown = None
    older = shop.worker(tmp_path, name="older", lacks="sagas.slow.once.run")

    async def main() -> None:
        async with shop.open() as store:
            going = await store.start(shop.slow, "k")
            await asyncio.to_thread(older.wait_for, "unregistered task")
            await asyncio.to_thread(older.kill)
            newer = await asyncio.to_thread(shop.worker, tmp_path)
            try:
                assert (await asyncio.wait_for(going.wait(), 60)).results == {"once": "late"}
            finally:
                await asyncio.to_thread(newer.kill)

    try:
        run(main())
    finally:
        older.kill()
    assert {call["attempt"] for call in shop.calls("k")} == {1}


def test_a_program_that_comes_back_finds_the_report(either: Shop, tmp_path: pathlib.Path) -> None:
    """The worker reports while no program has the store; no function is called again."""
    worker = either.worker(tmp_path)

    async def sent() -> None:
        async with either.open(shutdown_timeout=0) as store:
            await store.start(either.slow, "k")
            await until(lambda: store.log("k"), 60)
            either.queue.send = held  # type: ignore[method-assign]
            await until(lambda: orders, 60)
            assert [attempt.waits for attempt in store.active_attempts("k")] == ["ordered"]

    async def held(order: Order) -> None:
        orders.append(order)

    async def back() -> None:
        async with either.open() as store:
            assert (await asyncio.wait_for(store.wait("k"), 60)).results == {"once": "late"}

    orders: list[Order] = []
    either.slow.steps[0].run.timeout = 60.0
    either.queue.send = held  # type: ignore[method-assign]
    try:
        run(sent())
        run(sagas.celery.Queue.send(either.queue, orders[0]))
        worker.wait_for("succeeded")
        run(back())
    finally:
        worker.kill()
    assert len(either.calls("k")) == len(orders) == 1


def test_a_worker_that_cannot_report_lets_the_message_go_back(
    broker: Broker, tmp_path: pathlib.Path
) -> None:
    """The store is locked for longer than the queue waits; then the message comes again, and is
    done.
    """
    shop = shop_in(broker, tmp_path, patience=0.2)
    shop.slow.steps[0].run.timeout = 120.0
    worker = shop.worker(tmp_path)

    async def locked() -> None:
        async with shop.open() as store:
            with sqlite3.connect(tmp_path / "store.db", isolation_level=None) as db:
                going = await store.start(shop.slow, "k")
                await until(lambda: store.log("k"), 60)
                db.execute("BEGIN EXCLUSIVE")
                try:
                    await asyncio.to_thread(worker.wait_for, "message returns to the queue")
                finally:
                    db.execute("ROLLBACK")
            assert (await asyncio.wait_for(going.wait(), 60)).results == {"once": "late"}

    try:
        run(locked())
    finally:
        worker.kill()
    assert len({call["token"] for call in shop.calls()}) == 1


def test_workers_with_another_file(shop: Shop, tmp_path: pathlib.Path) -> None:
    """Over SQLite `open` finds a worker that has another file under the name."""
    worker = shop.worker(tmp_path, store=str(tmp_path / "elsewhere.db"), name="wrong")

    async def opened() -> None:
        # a worker on a busy machine may not reply in time: then the store is opened again
        while True:
            async with shop.open():
                pass

    try:
        with pytest.raises(sagas.WrongStore, match="wrong@.*elsewhere.db"):
            run(opened())
    finally:
        worker.kill()


def test_a_function_that_is_a_transaction(broker: Broker, tmp_path: pathlib.Path, url: str) -> None:
    """Each message comes three times; the function's row and its report are written once, together,
    and a failure leaves neither.
    """
    with psycopg.connect(url, autocommit=True) as link:
        link.execute("CREATE TABLE book(key text, step text, token text)")
    shop = shop_in(broker, tmp_path, url)
    send = shop.queue.send

    async def thrice(order: Order) -> None:
        for _ in range(3):
            await send(order)

    shop.queue.send = thrice  # type: ignore[method-assign]
    worker = shop.worker(tmp_path, "-c", "4")
    try:
        run(_booked(shop))
        worker.wait_for("succeeded", 3 * 5)
    finally:
        worker.kill()
    with psycopg.connect(url) as link:
        rows = link.execute("SELECT key, step FROM book ORDER BY key, step").fetchall()
    assert rows == [("fails", "book"), ("fails", "unbook"), ("good", "book"), ("once", "book")]
    assert len(shop.calls("good")) > 1, "no message was started twice: nothing was tried"


async def _booked(shop: Shop) -> None:
    assert shop.bank
    async with shop.open() as store:
        good, once, fails = await asyncio.gather(
            *(ended(store, shop.bank, key, key) for key in ("good", "once", "fails"))
        )
        assert good.results["book"] == once.results["book"] == "booked"
        assert fails.states == {"book": "undone", "check": "failed"}


# -- reports


def row(store: str, token: str) -> tuple[str, str]:
    """Return a report, as the store has it."""
    query = "SELECT outcome, value FROM external_attempts WHERE attempt = "
    if store.startswith("postgresql:"):
        with psycopg.connect(store, options="-csearch_path=sagas") as link:
            return link.execute(query + "%s", (token,)).fetchone()  # type: ignore[return-value]
    with sqlite3.connect(store) as db:
        return db.execute(query + "?", (token,)).fetchone()  # type: ignore[no-any-return]


def offer(store: str, token: str) -> None:
    """Insert the row of an attempt that was sent under lease 5."""
    values = "(?, 0, 5, 0, 'run', 1, '', 0.0, 5)"
    query = (
        "INSERT INTO external_attempts(attempt, shard, id, step, action, number, task, offered_at,"
        f" lease) VALUES {values}"
    )
    if store.startswith("postgresql:"):
        with psycopg.connect(store, options="-csearch_path=sagas") as link:
            link.execute(query.replace("?", "%s"), (token,))  # type: ignore[arg-type]
    else:
        with sqlite3.connect(store) as db:
            db.execute(query, (token,))


def test_equal_reports(either: Shop, location: str) -> None:
    """The first one stays.

    Success replaces a failure and an unknown outcome. Failures count only under the newest lease,
    and no report counts under a lease that was never issued. Once the attempt is finished no report
    is taken.
    """
    run(_equal(either, location))


async def _equal(shop: Shop, location: str) -> None:
    orders: list[Order] = []

    async def held(order: Order) -> None:
        orders.append(order)

    shop.queue.send = held  # type: ignore[method-assign]
    shop.slow.steps[0].run.timeout = 60.0
    session = open_worker_session(location)
    async with shop.open(concurrency=1, shutdown_timeout=0) as store:
        going = await store.start(shop.slow, "k")
        await until(lambda: orders, 60)
        log = orders[0].log

        def reported(outcome: Outcome, attempt: int, lease: int = 5) -> tuple[str, str]:
            message = order(log, 5, attempt, lease)
            session.report(message, outcome)
            return row(location, message.token)

        for attempt in (7, 8, 9, 10):
            offer(location, order(log, 5, attempt).token)
        for late in (done("a"), done("b"), failure("no"), unknown("x")):
            assert reported(late, 7) == ("succeeded", '"a"')
        assert (
            reported(failure("no"), 8)[0]
            == reported(failure("other", final=True), 8)[0]
            == reported(unknown("x"), 8)[0]
            == "failed"
        )
        assert reported(done("c"), 8) == reported(failure("no"), 8) == ("succeeded", '"c"')
        assert (
            reported(unknown("x"), 9)
            == reported(unknown("y"), 9)
            == reported(failure("no"), 9)
            == ("unknown", "x")
        )
        assert reported(done("d"), 9) == ("succeeded", '"d"')
        for late, lease in ((failure("no"), 4), (failure("no"), 6), (done("e"), 6)):
            assert reported(late, 10, lease) == (None, None)
        assert reported(done("f"), 10, 4) == ("succeeded", '"f"')
        session.report(order(log, 5, 11), done("g"))
        assert row(location, order(log, 5, 11).token) is None
        session.report(orders[0], done("first"))
        assert (await going.wait()).results == {"once": "first"}
        session.report(orders[0], done("second"))
        assert session.begin(orders[0]) is None and row(location, orders[0].token) == (
            "settled",
            None,
        )
        with pytest.raises(sagas.WrongStore, match="another store"):
            session.begin(order("0" * 16))
    session.close()


def test_a_missing_file(tmp_path: pathlib.Path) -> None:
    """A worker creates no store."""
    with pytest.raises(sagas.WrongStore, match="does not exist"):
        open_worker_session(str(tmp_path / "none.db")).begin(order("0" * 16))
    assert not (tmp_path / "none.db").exists()


def test_reports_go_with_their_log(shop: Shop, tmp_path: pathlib.Path) -> None:
    """A log that is closed has no reports, and takes none."""
    path = str(tmp_path / "store.db")
    orders: list[Order] = []

    async def answered(order: Order) -> None:
        orders.append(order)
        session.report(order, done("x"))

    async def first() -> None:
        async with shop.open() as store:
            await ended(store, shop.slow)

    async def other() -> None:
        more = sagas.Saga("more")
        more.step(name="a")(lambda task: None)
        async with sagas.open(path, [*shop.sagas, more]) as store:
            with sqlite3.connect(path) as db:
                await until(
                    lambda: db.execute("SELECT closed FROM shards").fetchall() == [(1,)], 60
                )
                await ended(store, more, "m")

    shop.queue.send = answered  # type: ignore[method-assign]
    session = open_worker_session(path)
    run(first())
    run(other())
    with sqlite3.connect(path) as db:
        assert db.execute("SELECT DISTINCT outcome, value FROM external_attempts").fetchall() == [
            ("settled", None)
        ]
    assert session.begin(orders[0]) is None
    session.report(orders[0], done("y"))
    with sqlite3.connect(path) as db:
        assert db.execute("SELECT DISTINCT outcome, value FROM external_attempts").fetchall() == [
            ("settled", None)
        ]
    session.close()


def seat(name: str) -> dict[str, Any]:
    return {"row": 1, "name": name}


def test_steps_of_items(either: Shop, tmp_path: pathlib.Path) -> None:
    """A worker gets the item of its step, also in an included saga, and reads all results of a
    fan-out; all items share one task name.
    """
    worker = either.worker(tmp_path)

    async def main() -> None:
        async with either.open() as store:
            some = await store.start(
                either.order, key="list", input={"parcels": [seat("rome"), seat("oslo")]}
            )
            keyed = await store.start(
                either.order, key="keyed", input={"parcels": {"a b": seat("rome")}}
            )
            wrong = await store.start(
                either.order, key="wrong", input={"parcels": [seat("rome"), seat("nowhere")]}
            )
            stalls = [
                {"parcels": [seat("bern")]},
                {"parcels": []},
                {"parcels": [seat("kiel"), seat("linz")]},
            ]
            fair = await store.start(either.fair, key="fair", input={"stalls": stalls})
            assert (await some.wait()).results["mail"] == ["ROME", "OSLO"]
            assert (await keyed.wait()).results["mail"] == ["ROME"]
            assert (await wrong.wait()).phase == "recovered"
            end = await fair.wait()
            assert [end.results[f"stall-{number}-mail"] for number in range(3)] == [
                ["BERN"],
                [],
                ["KIEL", "LINZ"],
            ]

    try:
        run(main())
    finally:
        worker.kill()
    assert [call["index"] for call in either.calls("keyed") if "index" in call] == ["a b"]
    declared = {call["declared"] for call in either.calls("fair") if "declared" in call}
    assert declared == {"stall/ship"} and {call["step"] for call in either.calls("list")} == {
        "ship-0",
        "ship-1",
    }


def test_a_database_slower_than_a_back_off(url: str) -> None:
    """An attempt is unknown, and its back-off is over, while a commit is in progress.

    Its suspension and its next message are two commits, and nothing is refused.
    """
    app = celery.Celery("slow", broker="memory://")
    app.conf.sagas_store = url
    kind, side, events = sagas.Saga("kind"), sagas.Saga("side"), list[str]()
    queue = sagas.celery.Queue(app, "nobody", timeout=1.0)
    kind.step(name="a", queue=queue, undo=sagas.NEVER, backoff=sagas.Backoff(initial=0.05))(
        lambda task: None
    )
    side.step(name="a", undo=sagas.NEVER)(lambda task: None)
    leases = "SELECT coalesce(max(lease), 0) FROM sagas.external_attempts"

    async def main() -> None:
        async with sagas.open(
            url,
            [kind, side],
            on_event=lambda event: events.append(event.name),
            shutdown_timeout=0.1,
        ) as store:
            await store.start(kind, "k")
            (attempt,) = await until(
                lambda: [
                    attempt
                    for saga in store._coordinator.sagas.by_key.values()
                    for attempt in saga.busy.values()
                ]
            )
            async with await psycopg.AsyncConnection.connect(url) as link:
                ((before,),) = await (await link.execute(leases)).fetchall()
                await link.execute("SELECT * FROM sagas.shards FOR UPDATE")
                starting = asyncio.create_task(store.start(side, "side"))  # its commit waits
                await until(
                    lambda: "step_unknown" in events and attempt.state is AttemptState.RUNNING
                )
                await asyncio.sleep(0.1)  # time for the node's reaction to it
                await link.rollback()
                await starting
                await until(lambda: _greater(link, leases, before))
            assert "commit_failed" not in events
            await store.abort("k")

    run(main())


async def _greater(link: psycopg.AsyncConnection[Any], leases: str, before: int) -> bool:
    ((lease,),) = await (await link.execute(leases)).fetchall()
    await link.rollback()
    return bool(lease > before)
