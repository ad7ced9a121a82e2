"""Steps whose effect in the database and its record are one transaction.

Each has its effect exactly once, even if connections are cut and programs killed.
"""

from __future__ import annotations

import asyncio
import contextlib
import logging
import os
import pathlib
import subprocess
import sys
import textwrap
import threading
import time
from collections import Counter
from typing import Any

import psycopg
import pytest
import records
from cases import QUICK, Task, ended, run, simple, surely_ended, until
from driving import program
from relay import relaying
from server import Server
from test_store import ODD, TEXTS

import sagas
from sagas.storage.postgresql.step_pool import Pool


def bank(in_thread: bool) -> sagas.Saga:
    """Return a saga that books an amount, by an async function or a plain one; the second step
    fails if the input says so.
    """
    bank = sagas.Saga("bank")
    text = "INSERT INTO book(key, step, token) VALUES(%s, %s, %s)"

    if in_thread:

        @bank.step(transaction=True, tries=3, backoff=QUICK)
        def book(task: Task) -> str:
            task.connection.execute(text, (task.key, "book", task.idempotency_key))
            if task.input == "once" and task.attempt == 1:
                raise ValueError("the first try fails after its row")
            return "booked"

        @book.compensation(tries=2, backoff=QUICK)
        def unbook(task: Task) -> None:
            task.connection.execute(text, (task.key, "unbook", task.idempotency_key))

    else:

        @bank.step(transaction=True, tries=3, backoff=QUICK)
        async def book(task: Task) -> str:
            await task.connection.execute(text, (task.key, "book", task.idempotency_key))
            if task.input == "once" and task.attempt == 1:
                raise ValueError("the first try fails after its row")
            return "booked"

        @book.compensation(tries=2, backoff=QUICK)
        async def unbook(task: Task) -> None:
            await task.connection.execute(text, (task.key, "unbook", task.idempotency_key))

    @bank.step(needs=bank.steps[:1])
    async def check(task: Task) -> str:
        if task.input == "fails":
            raise sagas.Fail("no")
        return str(task.results["book"])

    return bank


def prepare(url: str) -> None:
    """Make tables of the user's own; the commit checks that an item is of an order."""
    with psycopg.connect(url) as link:
        link.execute("CREATE TABLE book(key text, step text, token text)")
        link.execute("CREATE TABLE orders(key text PRIMARY KEY)")
        link.execute("CREATE TABLE items(key text REFERENCES orders DEFERRABLE INITIALLY DEFERRED)")


def booked(url: str) -> Counter[tuple[str, str]]:
    """Return its rows."""
    with psycopg.connect(url) as link:
        return Counter(
            (key, step) for key, step in link.execute("SELECT key, step FROM book").fetchall()
        )


@pytest.mark.parametrize("in_thread", [False, True])
def test_effect_and_result_are_one(url: str, in_thread: bool) -> None:
    """There is a row for each effect; a call that raised is rolled back; the compensation
    the same.
    """
    prepare(url)
    kind = bank(in_thread)

    async def main() -> None:
        async with sagas.open(url, [kind]) as store:
            assert (await ended(store, kind, "good")).results == {
                "book": "booked",
                "check": "booked",
            }
            assert (await ended(store, kind, "again", "once")).ok
            assert (await ended(store, kind, "bad", "fails")).states == {
                "book": "undone",
                "check": "failed",
            }
            assert all(verdict.startswith("yes") for verdict in (await store.audit()).values())

    run(main())
    assert booked(url) == {
        ("good", "book"): 1,
        ("again", "book"): 1,
        ("bad", "book"): 1,
        ("bad", "unbook"): 1,
    }
    assert {result.outcome for result in records.read(url).results.values()} == {
        "commit",
        "missed",
        "fail",
        "undone",
    }


@pytest.mark.parametrize("in_thread", [False, True])
def test_exactly_once_while_connections_are_cut(
    postgresql: Server, url: str, in_thread: bool
) -> None:
    """Statements are cut in transit, and replies, also those of commits: each effect
    occurs once.
    """
    prepare(url)
    kind = bank(in_thread)

    async def main() -> None:
        with relaying(postgresql.port, 7) as relay:
            async with sagas.open(
                postgresql.url(url.rpartition("/")[2], port=relay.port), [kind], lease=30
            ) as store:
                relay.before = relay.after = 0.02
                ends = await asyncio.gather(
                    *(
                        surely_ended(
                            store, kind, f"k{number}", "fails" if number % 3 == 0 else None
                        )
                        for number in range(40)
                    )
                )
                relay.before = relay.after = 0.0
                assert all(end.phase in ("completed", "recovered") for end in ends)
            assert relay.cuts["after"] > 0 and relay.cuts["before"] > 0

    run(main())
    wanted = Counter({(f"k{number}", "book"): 1 for number in range(40)}) + Counter(
        {(f"k{number}", "unbook"): 1 for number in range(0, 40, 3)}
    )
    assert booked(url) == wanted


@pytest.mark.parametrize("way", ["alone", "among others", "in a thread"])
def test_texts_of_steps_inside_are_no_statements(
    url: str, caplog: pytest.LogCaptureFixture, way: str
) -> None:
    """Keys, inputs, results, exceptions and the node's name have text that a database could take
    for something else: all are read back unchanged.
    """
    caplog.set_level(logging.CRITICAL, "sagas")  # the tests' runner takes no halves of pairs
    prepare(url)
    good, bad = sagas.Saga("good"), sagas.Saga("bad")
    row = "INSERT INTO book(key, step, token) VALUES(%s, 'book', '')"

    def came(task: Task) -> Any:
        if task.saga == "bad":
            raise sagas.Fail(task.input)
        return task.input

    async def book(task: Task) -> Any:
        await task.connection.execute(row, (task.key,))
        return came(task)

    def book_in_thread(task: Task) -> Any:
        task.connection.execute(row, (task.key,))
        return came(task)

    for kind in (good, bad):
        kind.step(name="a", transaction=True)(book_in_thread if way == "in a thread" else book)

    async def main() -> None:
        async with sagas.open(url, [good, bad], node="".join(TEXTS)) as store:

            async def each(text: str) -> None:
                assert (await ended(store, good, text, text)).results == {"a": text}
                assert (await ended(store, good, f"odd {text}", {text: ODD})).results == {
                    "a": {text: ODD}
                }
                assert (await ended(store, bad, f"bad {text}", ODD + text)).errors == {
                    "a": f"sagas.Fail: {ODD}{text}"
                }

            if way == "among others":
                await asyncio.gather(*map(each, TEXTS))
            else:
                for text in TEXTS:
                    await each(text)
            assert all(verdict.startswith("yes") for verdict in (await store.audit()).values())

    run(main())
    assert booked(url) == {(f"{word}{text}", "book"): 1 for text in TEXTS for word in ("", "odd ")}


def test_a_step_of_a_lost_log_is_rolled_back(url: str) -> None:
    """Two nodes of one name are at the same step: the one that has the log commits, and nothing
    stays of the other's.
    """
    prepare(url)
    gates = asyncio.Event(), asyncio.Event()
    inside: list[int] = []

    def kind_of(number: int) -> sagas.Saga:
        kind = sagas.Saga("one")

        @kind.step(transaction=True)
        async def book(task: Task) -> int:
            await task.connection.execute(
                "INSERT INTO book(key, step, token) VALUES(%s, 'book', %s)", (task.key, str(number))
            )
            inside.append(number)
            await gates[number].wait()
            return number

        return kind

    async def main() -> None:
        kinds = [kind_of(0), kind_of(1)]
        async with sagas.open(url, [kinds[0]], node="same", lease=600) as first:
            await first.start(kinds[0], "k")
            await until(lambda: inside == [0])
            async with sagas.open(
                url, [kinds[1]], node="same", lease=600, shutdown_timeout=0.0
            ) as second:
                await until(lambda: inside == [0, 1])
                gates[0].set()
                await until(lambda: first._coordinator and not first._coordinator.shards.runners)
                assert booked(url) == {} and not records.read(url).results
                gates[1].set()
                assert (
                    (await first.wait("k")).results
                    == {"book": 1}
                    == (await second.wait("k")).results
                )
                assert all(verdict.startswith("yes") for verdict in (await second.audit()).values())

    run(main())
    assert booked(url) == {("k", "book"): 1}


@pytest.mark.parametrize("in_thread", [False, True])
def test_no_node_takes_a_log_during_a_step_commit(url: str, in_thread: bool) -> None:
    """Its commit waits for a lock after the check of the log's owner: until that is over the log's
    row is locked.
    """
    prepare(url)
    kind, text = sagas.Saga("shop"), "INSERT INTO items VALUES (%s)"

    async def item(task: Task) -> None:
        await task.connection.execute(text, (task.key,))

    def item_in_thread(task: Task) -> None:
        task.connection.execute(text, (task.key,))

    kind.step(name="item", transaction=True)(item_in_thread if in_thread else item)

    async def main() -> None:
        async with sagas.open(url, [kind]) as store:
            with psycopg.connect(url) as stranger, psycopg.connect(
                url, autocommit=True
            ) as observer:
                observer.execute("INSERT INTO orders VALUES ('k')")
                stranger.execute("SELECT 1 FROM orders FOR UPDATE")
                going = await store.start(kind, "k")
                await until(
                    lambda: observer.execute(
                        "SELECT 1 FROM pg_stat_activity WHERE datname = current_database() AND"
                        " wait_event_type = 'Lock'"
                    ).fetchall()
                )
                assert (
                    observer.execute("SELECT 1 FROM sagas.shards FOR UPDATE SKIP LOCKED").fetchall()
                    == []
                )
            assert (await going.wait()).ok

    run(main())


@pytest.mark.parametrize("in_thread", [False, True])
def test_a_forgotten_await_in_a_transaction(url: str, in_thread: bool) -> None:
    """An awaitable that an async function returns is awaited within its transaction.

    A plain function that returns one has a bug: it cannot be awaited there.
    """
    prepare(url)
    kind = sagas.Saga("one")

    async def book(task: Task) -> str:
        await task.connection.execute(
            "INSERT INTO book(key, step, token) VALUES(%s, 'book', '')", (task.key,)
        )
        return "booked"

    async def charge(task: Task) -> Any:
        return book(task)

    kind.step(name="charge", transaction=True)((lambda task: book(task)) if in_thread else charge)

    async def main() -> None:
        async with sagas.open(url, [kind]) as store:
            started = await store.start(kind, "k")
            if not in_thread:
                assert (await started.wait()).results == {"charge": "booked"}
                return
            (entry,) = await until(store.attention)
            assert entry.why == "program_error"
            assert "Declare it with async def" in (entry.detail or "")

    run(main())
    assert booked(url) == ({} if in_thread else {("k", "book"): 1})


KILLED = """
    import asyncio, os, sagas
    from sagas.runtime.executor import Executor
    saga = sagas.Saga("one")
    @saga.step(transaction=True)
    async def book(task):
        row = task.key, task.attempt_id
        statement = "INSERT INTO book(key, step, token) VALUES(%s, 'book', %s)"
        await task.connection.execute(statement, row)
        return "booked"
    Executor.ended = lambda self, attempt, outcome, at_once: os._exit(9)
    async def main():
        async with sagas.open({url!r}, [saga], node="killed") as store:
            await (await store.start(saga, "k")).wait()
    asyncio.run(main())
"""


def test_a_kill_between_the_transaction_and_its_report(url: str, tmp_path: pathlib.Path) -> None:
    """The result exists without its event: the next node reports it, and does not call the step
    again.
    """
    prepare(url)
    script = tmp_path / "killed.py"
    script.write_text(textwrap.dedent(KILLED.format(url=url)))
    environment = os.environ | {
        "PYTHONPATH": str(pathlib.Path(__file__).resolve().parents[1] / "src"),
        "SAGAS_PROGRAM": program(),
    }
    assert (
        subprocess.run([sys.executable, str(script)], env=environment, check=False).returncode == 9
    )
    assert [row.outcome for row in records.read(url).results.values()] == ["ok"] and booked(
        url
    ) == {("k", "book"): 1}
    calls: list[str] = []
    kind = sagas.Saga("one")

    @kind.step(transaction=True)
    async def book(task: Task) -> str:
        calls.append(task.attempt_id)
        return "called again"

    async def main() -> None:
        async with sagas.open(url, [kind], node="killed") as store:
            assert (await store.wait("k")).results == {"book": "booked"}
            assert all(verdict.startswith("yes") for verdict in (await store.audit()).values())

    run(main())
    assert not calls and booked(url) == {("k", "book"): 1}


def test_a_file_has_no_transactions(tmp_path: pathlib.Path) -> None:
    """Such a step is refused by name; a step without one has no connection."""
    kind, plain = bank(False), sagas.Saga("plain")
    refused: list[str] = []

    @plain.step
    def a(task: Task) -> Any:
        with pytest.raises(sagas.ProgramError, match="transaction=True"):
            task.connection
        refused.append("a")

    async def main() -> None:
        with pytest.raises(sagas.DefinitionError, match="'book'"):
            async with sagas.open(tmp_path / "store.db", [kind]):
                pass
        async with sagas.open(tmp_path / "store.db", [plain]) as store:
            await ended(store, plain)

    run(main())
    assert refused == ["a"]


@pytest.mark.parametrize("in_thread", [False, True])
def test_a_refusal_of_the_server_is_a_failed_attempt(url: str, in_thread: bool) -> None:
    """A constraint that the commit checks, a failed statement that the function ignores, and its
    own commit: rolled back, and tried again.
    """
    prepare(url)
    shop = sagas.Saga("shop")
    text = "INSERT INTO items VALUES (%s)"

    if in_thread:

        @shop.step(transaction=True, tries=4, backoff=QUICK)
        def item(task: Task) -> None:
            task.connection.execute(text, (task.input if task.attempt == 4 else "none",))
            if task.attempt == 2:
                task.connection.commit()
            if task.attempt == 3:
                with contextlib.suppress(psycopg.Error):
                    task.connection.execute("SELECT 1 / 0")

    else:

        @shop.step(name="item", transaction=True, tries=4, backoff=QUICK)
        async def item_in_loop(task: Task) -> None:
            await task.connection.execute(text, (task.input if task.attempt == 4 else "none",))
            if task.attempt == 2:
                await task.connection.commit()
            if task.attempt == 3:
                with contextlib.suppress(psycopg.Error):
                    await task.connection.execute("SELECT 1 / 0")

    async def main() -> None:
        details: list[str] = []
        async with sagas.open(
            url,
            [shop],
            on_event=lambda event: (
                details.append(event.detail or "") if event.name == "step_retrying" else None
            ),
        ) as store:
            with psycopg.connect(url) as link:
                link.execute("INSERT INTO orders VALUES ('k')")
            run = await store.start(shop, "k", "k")
            assert (await asyncio.wait_for(run.wait(), 60)).ok
        assert [
            next(word for word in ("ForeignKey", "commit()", "InFailedSql") if word in detail)
            for detail in details
        ] == ["ForeignKey", "commit()", "InFailedSql"]

    run(main())
    with psycopg.connect(url) as link:
        assert link.execute("TABLE items").fetchall() == [("k",)]


@pytest.mark.parametrize("in_thread", [False, True])
def test_the_function_cannot_end_its_transaction(url: str, in_thread: bool) -> None:
    """A nested block, as its first statement, is not a commit; nor are psycopg's calls for one."""
    prepare(url)
    kind = sagas.Saga("one")
    text = "INSERT INTO book(key, step, token) VALUES(%s, 'book', '')"

    if in_thread:

        @kind.step(transaction=True, tries=3, backoff=QUICK)
        def book(task: Task) -> None:
            if task.attempt == 2:
                task.connection.autocommit = True
            with task.connection.transaction():
                task.connection.execute(text, (task.key,))
            if task.attempt == 1:
                raise ValueError("after its block")

    else:

        @kind.step(name="book", transaction=True, tries=3, backoff=QUICK)
        async def book_in_loop(task: Task) -> None:
            if task.attempt == 2:
                await task.connection.set_autocommit(True)
            async with task.connection.transaction():
                await task.connection.execute(text, (task.key,))
            if task.attempt == 1:
                raise ValueError("after its block")

    async def main() -> None:
        async with sagas.open(url, [kind]) as store:
            assert (await ended(store, kind, "k")).ok

    run(main())
    assert booked(url) == {("k", "book"): 1}
    assert Counter(result.outcome for result in records.read(url).results.values()) == {
        "missed": 2,
        "commit": 1,
    }


@pytest.mark.parametrize("in_thread", [False, True])
def test_a_transaction_that_is_over_before_its_step(url: str, in_thread: bool) -> None:
    """It ends by a statement of the function's, by the connection's end, or by the server's:
    nothing of it is stored, that is counted, and other sagas continue.
    """
    prepare(url)
    kind, other, calls = sagas.Saga("one"), simple(lambda task: 1), Counter[int]()
    text, rests = (
        "INSERT INTO book(key, step, token) VALUES(%s, 'book', '')",
        "SET LOCAL idle_in_transaction_session_timeout = 50",
    )

    if in_thread:

        @kind.step(transaction=True, tries=3, backoff=QUICK)
        def book(task: Task) -> None:
            calls[task.attempt] += 1
            link = task.connection
            link.execute(text, (task.key,))
            if calls[1] == 1:
                link.execute("ROLLBACK")
            if calls[1] == 2 and task.attempt == 1:
                link.close()
            if calls[2] == 1:
                link.execute(rests)
                time.sleep(0.5)
            if calls[2] == 2:
                link.pgconn.finish()

    else:

        @kind.step(name="book", transaction=True, tries=3, backoff=QUICK)
        async def book_in_loop(task: Task) -> None:
            calls[task.attempt] += 1
            link = task.connection
            await link.execute(text, (task.key,))
            if calls[1] == 1:
                await link.execute("ROLLBACK")
            if calls[1] == 2 and task.attempt == 1:
                await link.close()
            if calls[2] == 1:
                await link.execute(rests)
                await asyncio.sleep(0.5)
            if calls[2] == 2:
                link.pgconn.finish()

    events: list[tuple[str, str]] = []

    async def main() -> None:
        async with sagas.open(
            url,
            [kind, other],
            on_event=lambda event: events.append((event.name, event.detail or "")),
        ) as store:
            going = await store.start(kind, "k")
            for number in range(5):
                assert (await ended(store, other, f"k{number}")).ok
            await until(store.attention)
            await store.retry("k", "book")  # by an operator, since a program error parks it
            assert (await going.wait()).ok

    run(main())
    assert calls == {1: 2, 2: 3} and booked(url) == {("k", "book"): 1}
    details = [
        detail
        for name, detail in events
        if name in ("step_program_error", "step_retrying", "step_unknown", "commit_failed")
    ]
    assert [
        next(
            word
            for word in (
                "no statement of the function",
                "close()",
                "server closed",
                "it is closed",
                "?",
            )
            if word in f"{detail}?"
        )
        for detail in details
    ] == [
        "no statement of the function",
        "close()",
        "server closed",
        "it is closed",
    ]


def test_a_step_inside_without_a_statement(url: str) -> None:
    """It has no transaction, and waits for no other: neither in the loop nor in a thread."""
    kind = sagas.Saga("one")

    @kind.step(transaction=True)
    async def in_loop(task: Task) -> str:
        return str(task.connection.info.transaction_status.name)

    @kind.step(transaction=True, needs=[in_loop])
    def in_thread(task: Task) -> str:
        return str(task.connection.info.transaction_status.name)

    async def main() -> None:
        async with sagas.open(url, [kind]) as store:
            assert (await ended(store, kind, "k")).results == {
                "in_loop": "IDLE",
                "in_thread": "IDLE",
            }

    run(main())


@pytest.mark.parametrize("in_thread", [False, True])
def test_a_first_statement_that_fails(url: str, in_thread: bool) -> None:
    """It goes to the server together with the begin.

    A statement that psycopg refuses leaves the transaction usable, one that the server refuses ends
    it.
    """
    prepare(url)
    text, states = "INSERT INTO book(key, step, token) VALUES(%s, 'book', %s)", []
    kind = sagas.Saga("one")

    if in_thread:

        @kind.step(transaction=True, tries=4, backoff=QUICK)
        def book(task: Task) -> None:
            link = task.connection
            if task.attempt == 1:
                with pytest.raises(psycopg.ProgrammingError):
                    link.execute(text, (task.key,))
                states.append(link.info.transaction_status.name)
                raise ValueError("again")
            if task.attempt == 2:
                with pytest.raises(psycopg.errors.DivisionByZero):
                    link.execute("SELECT 1 / %s::int", (0,))
                states.append(link.info.transaction_status.name)
                with pytest.raises(psycopg.errors.InFailedSqlTransaction):
                    link.execute(text, (task.key, "second"))
            if task.attempt == 3:
                # an operational error, and the connection works
                with pytest.raises(psycopg.errors.QueryCanceled):
                    link.execute(
                        "SELECT set_config('statement_timeout', '20', true), %s::int", (1,)
                    )
                    link.execute("SELECT pg_sleep(%s)", (60,))
                states.append(link.info.transaction_status.name)
                raise ValueError("again")
            if task.attempt == 4:
                states.append(
                    str(link.execute("SELECT %(a)s::int + %(b)s", {"a": 1, "b": 2}).fetchall())
                )
                link.execute(text, (task.key, "fourth"))

    else:

        @kind.step(name="book", transaction=True, tries=4, backoff=QUICK)
        async def book_in_loop(task: Task) -> None:
            link = task.connection
            if task.attempt == 1:
                with pytest.raises(psycopg.ProgrammingError):
                    await link.execute(text, (task.key,))
                states.append(link.info.transaction_status.name)
                raise ValueError("again")
            if task.attempt == 2:
                with pytest.raises(psycopg.errors.DivisionByZero):
                    await link.execute("SELECT 1 / %s::int", (0,))
                states.append(link.info.transaction_status.name)
                with pytest.raises(psycopg.errors.InFailedSqlTransaction):
                    await link.execute(text, (task.key, "second"))
            if task.attempt == 3:
                with pytest.raises(psycopg.errors.QueryCanceled):
                    await link.execute(
                        "SELECT set_config('statement_timeout', '20', true), %s::int", (1,)
                    )
                    await link.execute("SELECT pg_sleep(%s)", (60,))
                states.append(link.info.transaction_status.name)
                raise ValueError("again")
            if task.attempt == 4:
                states.append(
                    str(
                        await (
                            await link.execute("SELECT %(a)s::int + %(b)s", {"a": 1, "b": 2})
                        ).fetchall()
                    )
                )
                await link.execute(text, (task.key, "fourth"))

    async def main() -> None:
        async with sagas.open(url, [kind]) as store:
            assert (await asyncio.wait_for(ended(store, kind, "k"), 60)).ok

    run(main())
    assert states == ["INTRANS", "INERROR", "INERROR", "[(3,)]"]
    assert booked(url) == {("k", "book"): 1}


def test_a_first_statement_that_is_abandoned(url: str) -> None:
    """The function does not wait for it, and continues: its connection is of no use any more,
    nothing of it is stored, and it is called again.
    """
    prepare(url)
    kind, calls = sagas.Saga("one"), []

    @kind.step(transaction=True, backoff=QUICK)
    async def book(task: Task) -> None:
        calls.append(task.attempt_id)
        if len(calls) == 1:
            with contextlib.suppress(TimeoutError):
                async with asyncio.timeout(0.05):
                    await task.connection.execute("SELECT pg_sleep(%s)", (60,))
        await task.connection.execute(
            "INSERT INTO book(key, step, token) VALUES(%s, 'book', '')", (task.key,)
        )

    async def main() -> None:
        async with sagas.open(url, [kind]) as store:
            assert (await asyncio.wait_for(ended(store, kind, "k"), 30)).ok

    run(main())
    assert len(calls) == 2 and len(set(calls)) == 1
    assert booked(url) == {("k", "book"): 1}


def test_connections_are_passed_on(postgresql: Server, url: str) -> None:
    """There is a limit; a waiting caller gets the next one; one that broke while it was idle is not
    passed out; a caller that gave up has none.
    """

    async def main() -> None:
        pool = Pool(url, 2)
        assert pool.try_acquire() is None
        first, second = await asyncio.gather(pool.acquire(), pool.acquire())
        given_up, third = asyncio.create_task(pool.acquire()), asyncio.create_task(pool.acquire())
        await asyncio.sleep(0)
        given_up.cancel()
        pool.release(first)
        assert await third is first
        pool.release(first)
        pool.release(second)
        await second.execute("SELECT 1")
        await second.rollback()
        with psycopg.connect(url, autocommit=True) as link:
            link.execute(
                "SELECT pg_terminate_backend(pid) FROM pg_stat_activity WHERE datname ="
                " current_database() AND pid <> pg_backend_pid()"
            )
        await until(lambda: not first.is_there() and not second.is_there())
        assert pool.try_acquire() is None
        fourth = await pool.acquire()
        assert fourth not in (first, second)
        await fourth.execute("SELECT 1")
        pool.release(fourth)  # during a transaction: it is not passed out again
        assert fourth.closed or pool.try_acquire() is None
        last = asyncio.create_task(pool.acquire())
        await last
        waits = [asyncio.create_task(pool.acquire()) for _ in range(2)]
        await waits[0]
        await pool.close()
        with pytest.raises(psycopg.OperationalError):
            await waits[1]
        pool.release(last.result())
        assert last.result() and pool.try_acquire() is None
        with pytest.raises(psycopg.OperationalError):
            await pool.acquire()

    run(main())


def test_connections_are_reserved(url: str) -> None:
    """An idle one is reserved for a possible user, and is free as soon as it is not used; one that
    breaks in the meantime is dropped.
    """

    async def main() -> None:
        pool = Pool(url, 2)
        assert not pool.has_idle()
        with pytest.raises(psycopg.OperationalError, match="broke"):
            pool.acquire_now()
        await pool.reserve()
        assert not pool.has_idle() and pool.try_acquire() is None
        first = pool.acquire_reserved()
        pool.release(first)
        assert pool.has_idle()
        await pool.reserve()
        second = await pool.acquire()
        assert second is not first
        waits = asyncio.create_task(pool.acquire())
        await asyncio.sleep(0)
        pool.release_reserved()
        assert await waits is first
        pool.release(first)
        assert pool.acquire_now() is first
        pool.release(first)
        await pool.reserve()
        with psycopg.connect(url, autocommit=True) as link:
            link.execute(
                "SELECT pg_terminate_backend(pid) FROM pg_stat_activity WHERE datname ="
                " current_database() AND pid <> pg_backend_pid()"
            )
        await until(lambda: first.closed)
        with pytest.raises(psycopg.OperationalError, match="broke"):
            pool.acquire_reserved()
        pool.release_reserved()
        assert not pool.has_idle()
        await pool.reserve()
        third = pool.acquire_reserved()
        await third.execute("SELECT 1")
        await third.rollback()
        pool.release(third)
        pool.release(second)
        await pool.close()

    run(main())


def test_a_connection_that_is_lent_comes_back_once(url: str) -> None:
    """Whether its function is over before its caller continues, after that, or never starts."""

    async def main() -> None:
        pool = Pool(url, 1)
        waits = asyncio.create_task(pool.lend())
        first = await waits
        link = await asyncio.to_thread(first.begin)
        link.execute("SELECT 1")
        link.leave()
        await asyncio.to_thread(first.end)
        assert not pool.has_idle()
        first.leave()
        assert pool.has_idle()

        second = await pool.lend()
        assert await asyncio.to_thread(second.begin) is link
        second.leave()  # no caller waits for it any more
        assert not pool.has_idle()
        await asyncio.to_thread(second.end)
        await until(pool.has_idle)

        third = await pool.lend()
        third.leave()
        assert pool.has_idle()
        with pytest.raises(psycopg.OperationalError, match="closed"):
            third.begin()
        other = await pool.acquire()
        assert other.pgconn is link.pgconn and not pool.has_idle()
        await other.execute("SELECT 1")
        await other.rollback()
        pool.release(other)
        await pool.close()
        assert other.closed

    run(main())


def test_a_function_that_asks_late(url: str) -> None:
    """It waits for something before it requests its connection, which it gets; a function that
    requests one after its end gets none.
    """
    prepare(url)
    kind, left = sagas.Saga("one"), []

    @kind.step(transaction=True)
    async def book(task: Task) -> None:
        async def follow() -> None:
            await asyncio.sleep(0.05)
            with pytest.raises(sagas.ProgramError, match="no transaction"):
                task.connection
            left.append(task.key)

        if task.input == "leaves":
            left.append(asyncio.create_task(follow()))
            return
        await asyncio.sleep(0.05)
        await task.connection.execute(
            "INSERT INTO book(key, step, token) VALUES(%s, 'book', '')", (task.key,)
        )

    async def main() -> None:
        async with sagas.open(url, [kind], concurrency=2) as store:
            ends = await asyncio.gather(
                *(ended(store, kind, f"k{number}") for number in range(5)),
                ended(store, kind, "left", "leaves"),
            )
            assert all(end.ok for end in ends)
            await left[0]

    run(main())
    assert left[1] == "left" and booked(url) == {(f"k{number}", "book"): 1 for number in range(5)}


def test_a_short_function_returns_its_connection(url: str) -> None:
    """A function that requests its connection and does nothing there, raises, or returns an
    awaitable: many of each, over two connections.
    """
    prepare(url)
    kind = sagas.Saga("one")

    @kind.step(transaction=True, skip=0)
    async def book(task: Task) -> Any:
        async def row() -> str:
            await task.connection.execute(
                "INSERT INTO book(key, step, token) VALUES(%s, 'book', '')", (task.key,)
            )
            return "late"

        if task.input == "asks":
            assert not task.connection.closed
        elif task.input == "raises":
            raise sagas.Fail("at once")
        elif task.input == "asks and raises":
            raise sagas.Fail(str(task.connection.closed))
        elif task.input == "returns":
            return row()
        return task.input

    async def main() -> None:
        async with sagas.open(url, [kind], concurrency=2) as store:
            for way in ("asks", "raises", "asks and raises", "nothing", "returns"):
                ends = await asyncio.gather(
                    *(ended(store, kind, f"{way} {number}", way) for number in range(20))
                )
                states = {end.states["book"] for end in ends}
                assert states == ({"failed"} if "raises" in way else {"committed"}), way
                assert way != "returns" or {end.result_of(book) for end in ends} == {"late"}

    run(main())
    assert booked(url) == {(f"returns {number}", "book"): 1 for number in range(20)}


NODE, OTHERS = 7, "other"
"""Connections of a node, in addition to those of its steps; the name of those that are not a
node's.
"""


class Count:
    """The most connections of an application that the server had at once."""

    def __init__(self, url: str, name: str) -> None:
        self.highest = self.looks = 0
        self._url, self._name = f"{url}?application_name={OTHERS}", name
        self._is_over = threading.Event()
        self._thread = threading.Thread(target=self._look)

    def __enter__(self) -> Count:
        self._thread.start()
        return self

    def _look(self) -> None:
        text = (
            "SELECT count(*) FROM pg_stat_activity "
            "WHERE datname = current_database() AND starts_with(application_name, %s)"
        )
        with psycopg.connect(self._url, autocommit=True) as link:
            while not self._is_over.wait(0.002):
                ((count,),) = link.execute(text, (self._name,)).fetchall()
                self.highest, self.looks = max(self.highest, count), self.looks + 1

    def __exit__(self, *_: object) -> None:
        self._is_over.set()
        self._thread.join()


def test_how_many_connections_a_node_has(url: str) -> None:
    """Steps inside, by async and plain functions, with limits over all nodes; reads; starts and
    requests of clients; logs that are taken over: it has at most `concurrency` and seven.
    """
    concurrency, gate = 16, asyncio.Event()

    def kinds() -> list[sagas.Saga]:
        mixed = sagas.Saga("mixed")

        @mixed.step(transaction=True)
        async def a(task: Task) -> None:
            await task.connection.execute("SELECT pg_sleep(0.02)")

        @mixed.step(transaction=True)
        def b(task: Task) -> None:
            task.connection.execute("SELECT pg_sleep(0.02)")

        @mixed.step(needs=[a], transaction=True, fleet_concurrency=6, rate_limit=(1000, 1))
        async def c(task: Task) -> None:
            await task.connection.execute("SELECT 1")

        @mixed.step(needs=[b], transaction=True, tries=2, backoff=QUICK)
        def d(task: Task) -> None:
            task.connection.execute("SELECT 1")
            if task.attempt == 1:
                task.connection.execute("SET work_mem = '1MB'")
                raise ValueError("rolled back")

        held = sagas.Saga("held")

        @held.step
        async def waits(task: Task) -> None:
            await gate.wait()

        @held.approval(needs=[waits])
        def approved(task: Task) -> None:
            ...

        return [mixed, held]

    def named(name: str) -> str:
        return f"{url}?application_name={name}"

    async def main() -> None:
        first, (mixed, held) = kinds(), kinds()
        async with sagas.open(named("first"), first, node="same", shutdown_timeout=0.0) as before:
            for number in range(8):
                await before.start(first[1], f"held {number}")
            with Count(url, "second") as count:
                async with contextlib.AsyncExitStack() as stack:
                    second = sagas.open(
                        named("second"), [mixed, held], node="same", concurrency=concurrency
                    )
                    store = await stack.enter_async_context(second)
                    client = await stack.enter_async_context(sagas.Client(named(OTHERS)))
                    runs = await asyncio.gather(
                        *(store.start(mixed, f"k{number}") for number in range(60)),
                        *(client.start(mixed, f"c{number}") for number in range(60)),
                    )
                    gate.set()
                    reads = (store.list, store.attention) * 30
                    logs = [store.log(f"k{number}") for number in range(20)]
                    await asyncio.gather(*(ask() for ask in reads), *logs)
                    ends = await asyncio.gather(*(run.wait() for run in runs))
                    assert all(end.ok for end in ends)
                    keys = [f"held {number}" for number in range(8)]
                    await asyncio.gather(*(surely_finished(client, key) for key in keys))
        assert concurrency < count.highest <= concurrency + NODE and count.looks > 20

    run(main())


async def surely_finished(client: sagas.Client, key: str) -> None:
    """Approve it, once that is requested."""
    while True:
        try:
            await client.complete(key, "approved", True)
        except sagas.StepNotWaiting:
            await asyncio.sleep(0.02)
        else:
            assert (await client.wait(key)).ok
            return


@pytest.mark.parametrize("first", ["async", "plain"])
def test_one_budget_for_both_kinds_of_functions(url: str, first: str) -> None:
    """Async functions get the connections of plain ones, and the other way round: no more are made,
    and both know the statements that psycopg has prepared over one.
    """
    processes = set[int]()
    kinds = {name: sagas.Saga(name) for name in ("async", "plain")}
    look = "SELECT pg_backend_pid(), pg_sleep(%s)"  # psycopg prepares it at its sixth use

    @kinds["async"].step(name="a", transaction=True)
    async def looks(task: Task) -> None:
        for _ in range(4):
            rows = await (await task.connection.execute(look, (0.002,))).fetchall()
            processes.add(rows[0][0])

    @kinds["plain"].step(name="a", transaction=True)
    def looks_in_thread(task: Task) -> None:
        for _ in range(4):
            processes.add(task.connection.execute(look, (0.002,)).fetchall()[0][0])

    async def main() -> None:
        async with sagas.open(url, [*kinds.values()], concurrency=4) as store:
            for turn in range(6):
                kind = kinds[first if turn % 2 else ({*kinds} - {first}).pop()]
                ends = [ended(store, kind, f"{turn}, {number}") for number in range(12)]
                assert all(end.ok for end in await asyncio.gather(*ends))
            each = [(kind, number) for number in range(12) for kind in kinds.values()]
            both = [ended(store, kind, f"{kind.name} {number}") for kind, number in each]
            assert all(end.ok for end in await asyncio.gather(*both))

    run(main())
    assert 1 < len(processes) <= 4
