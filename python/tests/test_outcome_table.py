"""What follows from each exception of a function, until its saga ends or an operator is asked.

`test_outcomes.py` has the classification itself.
"""

from __future__ import annotations

import contextlib
import http.server
import pathlib
import threading
from collections.abc import Iterator
from typing import Any

import httpx
import psycopg
import pytest
from cases import QUICK, Task, ended, run, simple, until
from serving import served

import sagas
import sagas.testing

BUG, UNKNOWN = sagas.AttentionReason.PROGRAM_ERROR, sagas.AttentionReason.UNKNOWN


async def bugs(store: sagas.Store) -> list[sagas.Attention]:
    """Return the attempts whose functions have a bug."""
    return [entry for entry in await store.attention() if entry.why is BUG]


class LateBank(http.server.BaseHTTPRequestHandler):
    """Takes a charge, and answers the first two only after their clients have left."""

    taken: list[str] = []
    released = threading.Event()

    def do_POST(self) -> None:
        self.taken.append(self.headers["Idempotency-Key"])
        if len(self.taken) < 3:
            self.released.wait(60)
        with contextlib.suppress(OSError):
            self.send_response(200)
            self.end_headers()

    def log_message(self, *arguments: Any) -> None:
        """Log nothing."""


@pytest.fixture
def bank() -> Iterator[str]:
    """Return the address of a late bank."""
    LateBank.taken, LateBank.released = [], threading.Event()
    server = http.server.ThreadingHTTPServer(("127.0.0.1", 0), LateBank)
    threading.Thread(target=server.serve_forever, args=(0.02,), daemon=True).start()
    yield f"http://127.0.0.1:{server.server_port}/"
    LateBank.released.set()
    server.shutdown()
    server.server_close()


def test_a_charge_with_a_lost_answer_is_not_rolled_back(location: str, bank: str) -> None:
    """It is sent again with the same key until the bank answers, and nothing is refunded."""
    order, refunded = sagas.Saga("order"), list[str]()

    @order.step(backoff=QUICK)
    def charge(task: Task) -> None:
        headers = {"Idempotency-Key": task.idempotency_key}
        httpx.post(bank, headers=headers, timeout=0.2).raise_for_status()

    @charge.compensation
    def refund(task: Task) -> None:
        refunded.append(task.key)

    async def main() -> None:
        async with sagas.open(location, [order]) as store:
            assert (await ended(store, order)).ok

    run(main())
    assert len(LateBank.taken) == 3 and len(set(LateBank.taken)) == 1 and not refunded


def declared(calls: list[str], bug: type[BaseException] | None) -> sagas.Saga:
    """Return an order whose last step and whose refund may have a bug."""
    order = sagas.Saga("order")

    @order.step(backoff=QUICK)
    def charge(task: Task) -> int:
        return 40

    @charge.compensation
    def refund(task: Task) -> None:
        calls.append("refund")
        if bug:
            raise bug("broken")

    @order.step(needs=[charge], undo=0, backoff=QUICK)
    def ship(task: Task) -> str:
        calls.append(task.idempotency_key)
        if bug and task.input != "refuse":
            raise bug("broken")
        if task.input == "refuse":
            raise sagas.Fail("sold out")
        return "shipped"

    return order


def test_a_bug_of_a_deploy_refunds_no_order(location: str) -> None:
    """The orders are parked, and listed with the line; the next program completes them."""
    calls, events = list[str](), list[sagas.Event]()

    async def broken() -> None:
        async with sagas.open(
            location, [kind := declared(calls, NameError)], on_event=events.append
        ) as store:
            for number in range(10):
                await store.start(kind, f"o{number}")
            await store.start(kind, "refused", "refuse")

            async def are_parked() -> bool:
                return len(await bugs(store)) == 11

            await until(are_parked)
            assert {entry.step for entry in await store.attention()} == {"ship", "charge"}
            for entry in await store.attention():
                text = entry.detail or ""
                assert text.startswith("NameError: broken (") and "test_outcome_table.py:" in text
            assert store.active_attempts("o1")[0].waits == "program_error"
            with pytest.raises(TimeoutError, match="a program without the error, or a retry"):
                await store.wait("o1", timeout=0.01)

    async def mended() -> None:
        async with sagas.open(location, [declared(calls, None)]) as store:
            for number in range(10):
                assert (await store.wait(f"o{number}")).ok
            assert (await store.wait("refused")).states == {"charge": "undone", "ship": "failed"}
            assert await store.attention() == []

    run(broken())
    assert len(calls) == 12 and calls.count("refund") == 1  # and none is called twice
    assert sum(event.name == "step_program_error" for event in events) == 11
    run(mended())
    keys = [call for call in calls if call != "refund"]
    assert len(keys) == 21 and len(set(keys)) == 11


@pytest.mark.parametrize("word", ["retry", "complete", "fail", "abort"])
def test_an_operator_answers_a_bug(location: str, word: str) -> None:
    """The answer counts at once, without another program."""
    calls = list[str]()
    order, is_broken = sagas.Saga("order"), [True]

    @order.step(undo=0)
    async def ship(task: Task) -> str:
        calls.append(task.attempt_id)
        if is_broken[0]:
            import there_is_no_such_module  # type: ignore[import-not-found] # noqa: F401
        return "shipped"

    async def main() -> None:
        async with sagas.open(location, [order]) as store:
            started = await store.start(order, "k")
            await until(lambda: bugs(store))
            is_broken[0] = False
            if word == "complete":
                await store.complete("k", ship, "by hand")
            elif word == "retry":
                await store.retry("k", ship)
            else:
                await (store.fail("k", ship, "no") if word == "fail" else store.abort("k"))
            if word == "abort":  # it may have had its effect
                assert [entry.why for entry in await store.attention()] == [BUG]
                await store.complete("k", ship, "by hand")
            end = await started.wait(60)
            assert end.states["ship"] == {"fail": "failed", "abort": "undone"}.get(
                word, "committed"
            )
            assert len(set(calls)) == 1 and len(calls) == (2 if word == "retry" else 1)

    run(main())


@pytest.mark.parametrize("is_undo", [False, True])
def test_an_operator_is_asked_after_ten_unknown_calls(
    tmp_path: pathlib.Path, is_undo: bool
) -> None:
    """Steps and compensations have the same default; another number means that many calls."""

    def raises(task: Task) -> None:
        raise ValueError("who knows")

    def order(**options: Any) -> sagas.Saga:
        kind = sagas.Saga("order")
        first = kind.step(name="a", **{} if is_undo else options)(
            (lambda task: None) if is_undo else raises
        )
        first.compensation(**options if is_undo else {})(raises)
        if is_undo:

            @kind.step(needs=[first], undo=0)
            def b(task: Task) -> None:
                raise sagas.Fail("no")

        return kind

    for options, count in (({}, 10), ({"max_unknown": 1}, 1), ({"max_unknown": 3}, 3)):
        times = f"{count} calls" if count > 1 else "1 call"
        with pytest.raises(LookupError, match=f"unknown outcome after {times}, the last one: Val"):
            sagas.testing.run(order(**options))
    trial = sagas.testing.run(order(), answers={"a": None})
    calls = [call for call in trial.calls if call.outcome == "unknown"]
    assert len(calls) == 10 and len({call.attempt_id for call in calls}) == 1
    pauses = [later.at - call.at for call, later in zip(calls, calls[1:])]
    assert pauses == [1, 2, 4, 8, 16, 32, 60, 60, 60]
    with pytest.raises(RuntimeError, match="If an outcome stays unknown, set max_unknown"):
        sagas.testing.run(order(max_unknown=None))


def test_attempts_without_an_effect_are_ten_by_default() -> None:
    """Those of a compensation, too; then the step fails, and an operator is asked."""
    order = sagas.Saga("order")
    charge = order.step(name="charge")(lambda task: 1)
    charge.compensation(lambda task: None)
    order.step(name="ship", needs=[charge], undo=0)(lambda task: None)
    assert sagas.testing.run(order, fail={"ship": 9}).ok
    trial = sagas.testing.run(order, fail={"ship": 10}, fail_undo={"charge": 9})
    assert trial.states == {"charge": "undone", "ship": "failed"}
    assert [call.attempt for call in trial.calls if call.step == "ship"] == [1, *[2] * 9]
    with pytest.raises(LookupError, match="the compensation of step 'charge' has used up"):
        sagas.testing.run(order, fail={"ship": 10}, fail_undo={"charge": 10})
    fails = {"fail": {"ship": sagas.Fail("sold out")}, "fail_undo": {"charge": sagas.Fail("no")}}
    with pytest.raises(LookupError, match="the compensation of step 'charge' has used up"):
        sagas.testing.run(order, **fails)


def test_a_thousand_attempts(location: str) -> None:
    """The definition has two of them, and the package counts the others."""
    kind = simple(lambda task: None, tries=1000)
    assert "tries = 2\n" in kind.toml()
    assert sagas.testing.run(kind, fail={"a": 999}).ok
    for tries in (0, 1001, 2.0, True):
        with pytest.raises(sagas.DefinitionError, match="an integer from 1 to 1,000"):
            simple(lambda task: None, tries=tries)
    calls = list[int]()

    def fails(task: Task) -> None:
        calls.append(task.attempt)
        raise sagas.Retry("closed")

    async def main() -> None:
        instant = sagas.Backoff(initial=0)
        async with sagas.open(
            location, [kind := simple(fails, tries=12, backoff=instant)]
        ) as store:
            assert (await ended(store, kind)).errors == {"a": "sagas.Retry: closed"}

    run(main())
    assert calls == [1, *[2] * 11]


def test_exceptions_that_mean_no_effect(location: str) -> None:
    """They count as attempts, also for the compensation, which may have others."""
    order, calls = sagas.Saga("order"), list[tuple[str, int]]()

    @order.step(no_effect=(ConnectionRefusedError,), tries=2, backoff=QUICK)
    async def charge(task: Task) -> None:
        calls.append(("charge", task.attempt))
        if len(calls) < 2:
            raise ConnectionRefusedError("closed")

    @charge.compensation
    def refund(task: Task) -> None:
        calls.append(("refund", task.attempt))
        if len(calls) < 4:
            raise ConnectionRefusedError("closed")

    @order.step(needs=[charge], undo=0, tries=1, no_effect=(LookupError,))
    def ship(task: Task) -> None:
        raise KeyError("sold out")

    async def main() -> None:
        async with sagas.open(location, [order]) as store:
            assert (await ended(store, order)).states == {"charge": "undone", "ship": "failed"}

    run(main())
    assert calls == [("charge", 1), ("charge", 2), ("refund", 1), ("refund", 2)]


def test_an_exception_in_a_transaction_is_another_attempt(url: str) -> None:
    """The rollback shows that there was no effect; a bug is parked nevertheless."""
    with psycopg.connect(url) as link:
        link.execute("CREATE TABLE book(attempt int)")
    order, is_broken = sagas.Saga("order"), [True]

    @order.step(transaction=True, backoff=QUICK, tries=4)
    async def book(task: Task) -> int:
        await task.connection.execute("INSERT INTO book VALUES(%s)", [task.attempt])
        if task.attempt < 4:
            raise (ValueError("no"), TimeoutError("late"), SystemExit(1))[task.attempt - 1]
        if is_broken[0]:
            raise UnboundLocalError("x")
        return task.attempt

    async def main() -> None:
        async with sagas.open(url, [order]) as store:
            started = await store.start(order, "k")
            await until(lambda: bugs(store))
            is_broken[0] = False
            await store.retry("k", book)
            assert (await started.wait(60)).results == {"book": 4}

    run(main())
    with psycopg.connect(url) as link:
        assert link.execute("SELECT attempt FROM book").fetchall() == [(4,)]


def test_a_bug_of_a_worker_waits_for_a_retry(tmp_path: pathlib.Path) -> None:
    """The service shows it, and the worker gets the task again after a retry only."""
    text = 'format = 2\nname = "one"\n[[step]]\nname = "a"\nundo = "never"\n'
    with served(tmp_path, {"one.toml": text}) as service, service.client() as client:
        calls = list[str]()
        worker = sagas.Worker(service.url, wait=0.2)

        @worker.step("one", "a", no_effect=(ConnectionRefusedError,))
        def a(task: Task) -> int:
            calls.append(task.attempt_id)
            if len(calls) == 1:
                raise ConnectionRefusedError("closed")
            if len(calls) == 2:
                raise NameError("carier")
            if len(calls) == 3:
                raise ValueError("who knows")
            return 7

        thread = threading.Thread(target=worker.run)
        thread.start()
        try:
            client.post("/v1/sagas", json={"definition": "one", "key": "k"}).raise_for_status()

            async def parked() -> Any:
                entries = client.get("/v1/attention?kind=program_error").json()["entries"]
                return entries

            (entry,) = run(until(parked))
            assert entry["calls"] == ["retry", "complete", "fail", "abort"]
            assert entry["detail"].startswith("NameError: carier (") and __file__ in entry["detail"]
            assert len(calls) == 2
            client.post("/v1/sagas/k/steps/a/retry", json={}).raise_for_status()

            async def over() -> bool:
                return client.get("/v1/sagas/k").json()["phase"] == "completed"

            run(until(over))
            assert len(calls) == 4 and len(set(calls)) == 2 and len(set(calls[1:])) == 1
        finally:
            worker.stop()
            thread.join()
