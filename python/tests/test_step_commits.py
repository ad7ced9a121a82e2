"""The commit of a step inside the database: its row and the record of its result.

Statements are refused, connections cut and programs killed.
"""

from __future__ import annotations

import asyncio
import contextlib
import os
import pathlib
import signal
import subprocess
import sys
import textwrap
import time
from collections import Counter
from collections.abc import AsyncIterator
from typing import Any

import psycopg
import pytest
import records
from cases import QUICK, Task, ended, run, simple, surely_ended, until
from driving import program
from psycopg.rows import dict_row
from relay import relaying
from server import Server, paired, serving

import sagas
from sagas.storage.postgresql.step_connections import Prepares

BOOK = "INSERT INTO book(key, step, token) VALUES(%s, %s, %s)"
ORDERS = (
    "CREATE TABLE orders(key text PRIMARY KEY)",
    "CREATE TABLE items(key text REFERENCES orders DEFERRABLE INITIALLY DEFERRED)",
)
"""The rule that the commit checks."""


def prepare(url: str, *more: str) -> None:
    """Make a table of the user's own, and the rules of a case."""
    with psycopg.connect(url) as link:
        for text in ("CREATE TABLE book(key text, step text, token text)", *more):
            link.execute(text)  # type: ignore[arg-type]


def booked(url: str) -> Counter[tuple[str, str]]:
    """Return its rows."""
    with psycopg.connect(url) as link:
        return Counter(
            (key, step) for key, step in link.execute("SELECT key, step FROM book").fetchall()
        )


def waits(url: str) -> bool:
    """Return whether such a commit waits for a lock."""
    text = (
        "SELECT 1 FROM pg_stat_activity WHERE datname = current_database() AND wait_event_type ="
        " 'Lock' AND query LIKE 'EXECUTE sagas_record%'"
    )
    with psycopg.connect(url) as link:
        return bool(link.execute(text).fetchall())


async def write(task: Task, name: str) -> str:
    """Write a row over the step's connection."""
    await task.connection.execute(BOOK, (task.key, name, task.idempotency_key))
    return f"{name} is booked"


def three(timeout: float | None = None) -> sagas.Saga:
    """Return three steps inside, in a row, and the last fails if the input says so; each can
    be undone.
    """
    kind, last = sagas.Saga("three"), None
    for name in ("one", "two", "three"):

        async def book(task: Task) -> str:
            result = await write(task, task.step)
            if task.input == task.step:
                raise sagas.Fail("no")
            return result

        async def unbook(task: Task) -> None:
            await write(task, f"un{task.step}")

        last = kind.step(
            name=name, needs=[last] if last else [], transaction=True, timeout=timeout
        )(book)
        last.compensation(unbook)
    return kind


async def audited(store: sagas.Store) -> None:
    """Check that all of its logs are allowed."""
    assert all(verdict.startswith("yes") for verdict in (await store.audit()).values())


def test_among_others_each_commits_by_itself(url: str) -> None:
    """Their transactions run in parallel, and their outcomes are in one commit."""
    prepare(url)
    kind = three()

    async def main() -> None:
        async with sagas.open(url, [kind], concurrency=8) as store:
            ends = await asyncio.gather(
                *(
                    ended(store, kind, f"k{number}", "three" if number % 2 else None)
                    for number in range(20)
                )
            )
            assert all(end.phase in ("completed", "recovered") for end in ends)
            await audited(store)

    run(main())
    names = ("one", "two", "three")
    wanted = Counter({(f"k{number}", name): 1 for number in range(0, 20, 2) for name in names})
    wanted += Counter(
        {
            (f"k{number}", name): 1
            for number in range(1, 20, 2)
            for name in ("one", "two", "unone", "untwo")
        }
    )
    assert booked(url) == wanted


def test_a_constraint_refuses_the_commit(url: str) -> None:
    """The commit checks it: the step has failed, though its end was reported to the log's engine,
    and the kept steps are undone.
    """
    prepare(url, *ORDERS)
    kind, events = sagas.Saga("shop"), []

    @kind.step(transaction=True)
    async def reserve(task: Task) -> str:
        return await write(task, "reserve")

    @reserve.compensation
    async def release(task: Task) -> None:
        await write(task, "release")

    @kind.step(needs=[reserve], transaction=True, tries=3, backoff=QUICK)
    async def item(task: Task) -> int:
        await task.connection.execute(
            "INSERT INTO items VALUES (%s)", (task.key if task.input == task.attempt else "none",)
        )
        return task.attempt

    async def main() -> None:
        async with sagas.open(url, [kind], on_event=lambda event: events.append(event)) as store:
            with psycopg.connect(url) as link:
                link.execute("INSERT INTO orders VALUES ('third')")
            assert (await ended(store, kind, "third", 3)).results == {
                "reserve": "reserve is booked",
                "item": 3,
            }
            end = await ended(store, kind, "never", 4)
            assert (
                end.states == {"reserve": "undone", "item": "failed"}
                and "ForeignKeyViolation" in end.errors["item"]
            )
            await audited(store)

    run(main())
    assert [event.name for event in events if event.name in ("step_retrying", "step_failed")] == [
        "step_retrying"
    ] * 4 + ["step_failed"]
    assert not [event for event in events if event.name == "commit_failed"]
    assert booked(url) == {
        ("third", "reserve"): 1,
        ("never", "reserve"): 1,
        ("never", "release"): 1,
    }
    with psycopg.connect(url) as link:
        assert link.execute("TABLE items").fetchall() == [("third",)]


def test_the_answer_to_the_commit_is_lost(postgresql: Server, url: str) -> None:
    """Its row and its record exist: the step is not called again, and the saga continues."""
    prepare(url)
    kind, calls = sagas.Saga("three"), []

    async def book(task: Task) -> str:
        calls.append(task.attempt_id)
        return await write(task, task.step)

    first_step = kind.step(name="one", transaction=True)(book)
    two = kind.step(name="two", transaction=True, needs=[first_step])(book)
    kind.step(name="three", transaction=True, needs=[two])(book)

    async def main() -> None:
        with relaying(postgresql.port) as relay:
            async with sagas.open(
                postgresql.url(url.rpartition("/")[2], port=relay.port), [kind], lease=30
            ) as store:
                relay.mark = b"EXECUTE sagas_record("
                assert (await ended(store, kind)).ok and relay.cuts["marked"] == 1
                await audited(store)

    run(main())
    assert booked(url) == {("k", name): 1 for name in ("one", "two", "three")}
    assert len(calls) == len(set(calls)) == 3


def test_lone_sagas_while_connections_are_cut(postgresql: Server, url: str) -> None:
    """They run one after the other: each effect occurs once."""
    prepare(url)
    kind = three()

    async def main() -> None:
        with relaying(postgresql.port, 3) as relay:
            async with sagas.open(
                postgresql.url(url.rpartition("/")[2], port=relay.port), [kind], lease=30
            ) as store:
                relay.before = relay.after = 0.03
                for number in range(15):
                    assert (
                        await surely_ended(
                            store, kind, f"k{number}", "three" if number % 3 == 0 else None
                        )
                    ).phase in ("completed", "recovered")
                relay.before = relay.after = 0.0
                await audited(store)
            assert relay.cuts["after"] > 0 and relay.cuts["before"] > 0

    run(main())
    names = {0: ("one", "two", "unone", "untwo"), 1: ("one", "two", "three")}
    assert booked(url) == {
        (f"k{number}", name): 1 for number in range(15) for name in names[min(1, number % 3)]
    }


def test_a_limit_is_released_after_the_commit(url: str) -> None:
    """Steps with a limit commit by themselves: the next one starts after the commit, and sees its
    writes.
    """
    prepare(url)
    kind, seen = sagas.Saga("one"), []

    @kind.step(transaction=True, concurrency=1)
    async def book(task: Task) -> None:
        seen.extend(await (await task.connection.execute("SELECT count(*) FROM book")).fetchall())
        await write(task, "book")

    async def main() -> None:
        async with sagas.open(url, [kind]) as store:
            await asyncio.gather(*(ended(store, kind, f"k{number}") for number in range(6)))
            await audited(store)

    run(main())
    assert seen == [(number,) for number in range(6)]


def test_the_child_dies_as_the_step_is_over(url: str) -> None:
    """Its record is reported to the next engine.

    If the log was loaded before the record was written, the step has no effect, and it is called
    again, as the same attempt.
    """
    prepare(url)
    kind, calls = sagas.Saga("one"), []
    stores: list[sagas.Store] = []

    @kind.step(transaction=True)
    async def book(task: Task) -> str:
        calls.append(task.attempt_id)
        (runner,) = stores[0]._coordinator.shards.runners.values()  # type: ignore[union-attr]
        result = await write(task, "book")
        assert runner.engine
        os.kill(runner.engine.process.pid, signal.SIGKILL)
        os.waitid(os.P_PID, runner.engine.process.pid, os.WEXITED | os.WNOWAIT)
        return result

    async def main() -> None:
        async with sagas.open(url, [kind]) as store:
            stores.append(store)
            assert (await ended(store, kind)).results == {"book": "book is booked"}
            await audited(store)

    run(main())
    assert booked(url) == {("k", "book"): 1} and len({*calls}) == 1


def test_a_lock_is_not_waited_for_by_all(url: str) -> None:
    """Another transaction has a lock that the commit needs: only that commit waits, and the other
    sagas of the node continue.
    """
    prepare(url, *ORDERS, "INSERT INTO orders VALUES ('k')")
    kind, other, calls = sagas.Saga("one"), simple(lambda task: 1), []

    @kind.step(transaction=True)
    async def item(task: Task) -> None:
        calls.append(task.attempt_id)
        await task.connection.execute("INSERT INTO items VALUES (%s)", ("k",))

    async def main() -> None:
        async with sagas.open(url, [kind, other]) as store:
            async with await psycopg.AsyncConnection.connect(url) as link:
                await link.execute("SELECT 1 FROM orders FOR UPDATE")
                going = await store.start(kind, "k")
                await until(lambda: waits(url))
                assert (await asyncio.wait_for(ended(store, other, "other"), 60)).ok
            assert (await going.wait()).ok
            await audited(store)

    run(main())
    assert len(calls) == 1
    with psycopg.connect(url) as link:
        assert link.execute("TABLE items").fetchall() == [("k",)]


def test_a_record_needs_no_setting(url: str) -> None:
    """It names its tables in full: the commit sees the function's settings, and its
    triggers too.
    """
    look = (
        "CREATE FUNCTION look() RETURNS trigger LANGUAGE plpgsql AS $$ BEGIN INSERT INTO mine.saw"
        " VALUES (current_setting('search_path')); RETURN NULL; END $$"
    )
    trigger = (
        "CREATE CONSTRAINT TRIGGER looks AFTER INSERT ON book DEFERRABLE INITIALLY DEFERRED FOR"
        " EACH ROW EXECUTE FUNCTION look()"
    )
    prepare(url, "CREATE SCHEMA mine", "CREATE TABLE mine.saw(said text)", look, trigger)
    kind = sagas.Saga("two")

    @kind.step(name="one", transaction=True)
    async def first(task: Task) -> None:
        await task.connection.execute("SET search_path = mine, public")
        await write(task, "one")

    @kind.step(transaction=True, needs=[first])
    async def two(task: Task) -> None:
        await write(task, "two")

    async def main() -> None:
        async with sagas.open(url, [kind]) as store:
            assert (await ended(store, kind)).ok

    run(main())
    with psycopg.connect(url) as link:
        assert link.execute("TABLE mine.saw").fetchall() == [
            ("mine, public",),
            ('"$user", public',),
        ]


@pytest.mark.parametrize(
    "setting",
    [
        "SET statement_timeout = 777",
        "SELECT set_config('statement_timeout', '777', false)",
        "SELECT 1; SET statement_timeout = 777",
    ],
)
@pytest.mark.parametrize("in_thread", [False, True])
def test_a_step_cannot_spoil_its_connection(url: str, in_thread: bool, setting: str) -> None:
    """The next one has a fresh connection; a step that ends its transaction and continues in
    another one is parked at once: each call would commit again.
    """
    prepare(url)
    kind, seen = sagas.Saga("one"), list[Any]()
    look = "SELECT pg_backend_pid() AS process, current_setting('statement_timeout') AS timeout"

    def before(task: Task) -> list[str]:
        if task.input == "sets":
            task.connection.row_factory = dict_row
        return {"sets": [setting, "SELECT 1"], "chains": ["COMMIT AND CHAIN"]}.get(task.input, [])

    if in_thread:

        @kind.step(transaction=True, tries=1)
        def book(task: Task) -> None:
            for text in before(task):
                task.connection.execute(text)
            seen.append(task.connection.execute(look).fetchone())

    else:

        @kind.step(name="book", transaction=True, tries=1)
        async def book_in_loop(task: Task) -> None:
            for text in before(task):
                await task.connection.execute(text)
            seen.append(await (await task.connection.execute(look)).fetchone())

    async def main() -> None:
        async with sagas.open(url, [kind]) as store:
            for value in ("", "sets", ""):
                assert (await ended(store, kind, f"k{len(seen)}", value)).ok
            await store.start(kind, "chains", "chains")
            await until(store.attention)
            (held,) = await store.attention()
            assert held.why == "program_error" and "may end it" in (held.detail or "")
            await store.fail("chains", "book", "it was undone by hand")
            assert (await ended(store, kind, "behind", "")).ok

    run(main())
    first, sets, second, third = seen
    assert sets == {"process": first[0], "timeout": "777ms"}
    assert first == second and first[1] == third[1] == "0" and first[0] != third[0]


def test_idle_connections_are_closed() -> None:
    """The server has none left for the store itself, which lost its own."""
    kind, barrier = sagas.Saga("one"), asyncio.Barrier(4)

    @kind.step(transaction=True)
    async def book(task: Task) -> None:
        await write(task, "book")
        if task.input == "together":
            await barrier.wait()

    async def main(url: str) -> None:
        async with sagas.open(url, [kind], lease=60) as store:
            assert all(
                end.ok
                for end in await asyncio.gather(
                    *(ended(store, kind, f"k{number}", "together") for number in range(4))
                )
            )
            coordinator = store._coordinator
            with contextlib.ExitStack() as strangers:
                while coordinator:
                    try:
                        strangers.enter_context(psycopg.connect(url))
                    except psycopg.OperationalError:
                        if coordinator.store._writer._wire is None:  # type: ignore[attr-defined]
                            break
                        coordinator.store._writer.cut()  # type: ignore[attr-defined]
                        await asyncio.sleep(0.1)  # the server frees it, and another program has it
                assert (await asyncio.wait_for(surely_ended(store, kind, "behind"), 60)).ok

    with serving(
        {"max_connections": "20", "superuser_reserved_connections": "0", "max_wal_senders": "0"}
    ) as server:
        url = server.create()
        prepare(url)
        run(main(url))


def test_few_statements_are_kept(url: str, monkeypatch: pytest.MonkeyPatch) -> None:
    """Commits of many forms continue over one connection, which frees its prepared statements
    before they are too many for the server.
    """
    monkeypatch.setattr("sagas.storage.postgresql.wire.MAX_PREPARED", 3)
    prepare(url)
    kind = three()

    async def main() -> None:
        async with sagas.open(url, [kind]) as store:
            for number in range(6):
                ends = await asyncio.gather(
                    *(
                        ended(store, kind, f"k{number}-{index}", "three" if index % 2 else None)
                        for index in range(number)
                    )
                )
                assert all(end.phase in ("completed", "recovered") for end in ends)
            coordinator = store._coordinator
            assert coordinator
            names = coordinator.store._writer._wire._names  # type: ignore[attr-defined]
            assert 0 < len(names) <= 3
            await audited(store)

    run(main())


@pytest.mark.parametrize("text", ["DEALLOCATE ALL", "SELECT 1; DEALLOCATE ALL"])
@pytest.mark.parametrize("in_thread", [False, True])
def test_prepared_statements_are_gone(url: str, in_thread: bool, text: str) -> None:
    """The function deallocates all of its connection's statements: all works without them, and no
    log is loaded again. If that was not visible, the server reports it, and the function is called
    again.
    """
    prepare(url)
    kind, calls, event_names = sagas.Saga("one"), [], list[str]()

    if in_thread:

        @kind.step(name="book", transaction=True, tries=1)
        def book_in_thread(task: Task) -> None:
            calls.append(task.attempt_id)
            task.connection.execute(text)
            task.connection.execute(BOOK, (task.key, "book", "it's"))

    else:

        @kind.step(transaction=True, tries=1)
        async def book(task: Task) -> str:
            calls.append(task.attempt_id)
            await task.connection.execute(text)
            await write(task, "book")
            return "it's \\ ä"

    async def main() -> None:
        async with sagas.open(
            url, [kind], on_event=lambda event: event_names.append(event.name)
        ) as store:
            for number in range(3):
                end = await ended(store, kind, f"k{number}")
                assert end.results == {"book": None if in_thread else "it's \\ ä"}
            ends = (ended(store, kind, f"k{number}") for number in range(3, 6))
            assert all(end.ok for end in await asyncio.gather(*ends))
            await audited(store)

    run(main())
    assert booked(url) == {(f"k{number}", "book"): 1 for number in range(6)}
    assert "commit_failed" not in event_names
    assert len(calls) == 6 + (text != "DEALLOCATE ALL") and len({*calls}) == 6


def test_prepared_statements_are_reused() -> None:
    """At first it pauses for a second, and for ten minutes at most, if servers do not know it."""
    prepares, pauses = Prepares(""), list[float]()
    assert prepares.works
    for _ in range(12):
        prepares.refused()
        assert not prepares.works
        pauses.append(round(prepares.until - time.monotonic()))
    assert pauses == [1, 2, 4, 8, 16, 32, 64, 128, 256, 512, 600, 600]
    prepares.until = time.monotonic()
    assert prepares.works


class Undone(Exception):
    """Rolls back a part of a step."""


KNOWN = "SELECT count(*) FROM pg_prepared_statements WHERE name LIKE %s"
"""How many of a connection's statements have such a name. psycopg prepares it at its sixth use."""


@pytest.mark.parametrize("way", ["rolls back", "a part rolls back", "drops"])
@pytest.mark.parametrize("in_thread", [False, True])
def test_a_rollback_with_prepared_statements(url: str, in_thread: bool, way: str) -> None:
    """After a rollback, or a DROP, psycopg deallocates all prepared statements, if it has prepared
    one itself. The record of the step is written anyway, once, no log is loaded again, and the next
    step has it prepared.
    """
    prepare(url)
    kind, calls, prepared, event_names = sagas.Saga("one"), list[str](), list[int](), list[str]()
    drops = "CREATE TABLE gone()", "DROP TABLE gone"

    if in_thread:

        @kind.step(name="book", transaction=True, tries=1)
        def book_in_thread(task: Task) -> None:
            calls.append(task.key)
            for _ in range(8):
                prepared.append(task.connection.execute(KNOWN, ("sagas%",)).fetchall()[0][0])
            task.connection.execute(BOOK, (task.key, "book", ""))
            if task.input == "rolls back":
                raise Undone
            if task.input == "a part rolls back":
                with contextlib.suppress(Undone), task.connection.transaction():
                    raise Undone
            for text in drops if task.input == "drops" else ():
                task.connection.execute(text)

    else:

        @kind.step(transaction=True, tries=1)
        async def book(task: Task) -> None:
            calls.append(task.key)
            for _ in range(8):
                rows = await (await task.connection.execute(KNOWN, ("sagas%",))).fetchall()
                prepared.append(rows[0][0])
            await write(task, "book")
            if task.input == "rolls back":
                raise Undone
            if task.input == "a part rolls back":
                with contextlib.suppress(Undone):
                    async with task.connection.transaction():
                        raise Undone
            for text in drops if task.input == "drops" else ():
                await task.connection.execute(text)

    async def main() -> None:
        async with sagas.open(
            url, [kind], on_event=lambda event: event_names.append(event.name)
        ) as store:
            for number, value in enumerate((None, way, None, way, None)):
                end = await ended(store, kind, f"k{number}", value)
                assert end.ok is not (value == "rolls back")
            for key in ("first", "second"):  # in parallel with another one, each commits by itself
                values = {0: None, 1: way, 2: None}
                ends = [ended(store, kind, f"{key} {at}", value) for at, value in values.items()]
                await asyncio.gather(*ends)
            await audited(store)

    run(main())
    gone = {"k1", "k3", "first 1", "second 1"} if way == "rolls back" else set()
    assert not {"commit_failed", "engine_died", "shard_lost"} & {*event_names}
    assert len(calls) == len({*calls}) == 11 and {*prepared} == {1}
    assert booked(url) == {(key, "book"): 1 for key in {*calls} - gone}


KILLED = """
    import asyncio, os, sagas
    from sagas.{module} import {owner}
    saga = sagas.Saga("two")
    @saga.step(transaction=True)
    async def one(task):
        row = task.key, "one", task.attempt_id
        await task.connection.execute("INSERT INTO book(key, step, token) VALUES(%s, %s, %s)", row)
        return "booked"
    @saga.step(transaction=True, needs=[one])
    async def two(task):
        {owner}.{method} = lambda self, *words: os._exit(9)
        row = task.key, "two", task.attempt_id
        await task.connection.execute("INSERT INTO book(key, step, token) VALUES(%s, %s, %s)", row)
        return "booked"
    async def main():
        async with sagas.open({url!r}, [saga], node="killed") as store:
            await (await store.start(saga, "k")).wait()
    asyncio.run(main())
"""


@pytest.mark.parametrize(
    "method, is_there",
    [
        ("storage.postgresql.step_connections.AsyncStepLink.end", False),
        ("runtime.shard_runner.ShardRunner.committed", True),
    ],
)
def test_a_kill_at_the_commit(
    url: str, tmp_path: pathlib.Path, method: str, is_there: bool
) -> None:
    """Before it was sent, nothing has an effect; after its report, all of it has, and nothing is
    called again.
    """
    prepare(url)
    script = tmp_path / "killed.py"
    module, owner, name = method.rsplit(".", 2)
    script.write_text(
        textwrap.dedent(KILLED.format(url=url, module=module, owner=owner, method=name))
    )
    environment = os.environ | {
        "PYTHONPATH": str(pathlib.Path(__file__).resolve().parents[1] / "src"),
        "SAGAS_PROGRAM": program(),
    }
    assert (
        subprocess.run([sys.executable, str(script)], env=environment, check=False).returncode == 9
    )
    assert booked(url) == {("k", name): 1 for name in (("one", "two") if is_there else ("one",))}
    assert [row.outcome for row in records.read(url).results.values()] == ["commit"] * (
        2 if is_there else 1
    )
    calls: list[str] = []
    kind = sagas.Saga("two")

    async def again(task: Task) -> str:
        calls.append(task.step)
        return await write(task, task.step)

    first_step = kind.step(name="one", transaction=True)(again)
    kind.step(name="two", transaction=True, needs=[first_step])(again)

    async def main() -> None:
        async with sagas.open(url, [kind], node="killed") as store:
            assert (await store.wait("k")).phase == "completed"
            await audited(store)

    run(main())
    assert calls == ([] if is_there else ["two"]) and booked(url) == {
        ("k", "one"): 1,
        ("k", "two"): 1,
    }


def gated(gate: asyncio.Event) -> sagas.Saga:
    """As `three`, with a second step that waits for a gate after its row."""
    kind = sagas.Saga("three")

    async def book(task: Task) -> str:
        result = await write(task, task.step)
        if task.step == "two":
            await gate.wait()
        return result

    async def unbook(task: Task) -> None:
        await write(task, f"un{task.step}")

    first_step = kind.step(name="one", transaction=True)(book)
    first_step.compensation(unbook)
    two = kind.step(name="two", transaction=True, needs=[first_step])(book)
    two.compensation(unbook)
    kind.step(name="three", transaction=True, needs=[two])(book)
    return kind


@contextlib.asynccontextmanager
async def under_way(
    url: str,
) -> AsyncIterator[tuple[sagas.Saga, sagas.Store, sagas.Run, psycopg.Connection[Any]]]:
    """Run a saga in a store whose first step's commit waits for a lock of this connection, to be
    rolled back.
    """
    prepare(url)
    gate = asyncio.Event()
    kind = gated(gate)
    async with sagas.open(url, [kind]) as store:
        going = await store.start(kind, "k")
        await until(
            lambda: [row.outcome for row in records.read(url).results.values()] == ["commit"]
        )
        with psycopg.connect(url) as link:
            link.execute("LOCK TABLE sagas.attempts IN EXCLUSIVE MODE")
            gate.set()
            await until(lambda: waits(url))
            yield kind, store, going, link


def test_a_store_closes_while_it_is_under_way(url: str) -> None:
    """It waits for the commit's reply, and stores the outcome."""

    async def main() -> None:
        async with under_way(url) as (kind, store, _, link):
            closing = asyncio.create_task(store.close())
            await asyncio.sleep(0.1)
            assert not closing.done()
            link.rollback()
            await asyncio.wait_for(closing, 60)
        assert booked(url) == {("k", "one"): 1, ("k", "two"): 1}
        assert [row.outcome for row in records.read(url).results.values()] == ["commit", "commit"]
        async with sagas.open(url, [kind]) as store:
            assert (await store.wait("k")).ok
            await audited(store)

    run(main())
    assert booked(url) == {("k", name): 1 for name in ("one", "two", "three")}


def test_a_standby_takes_over() -> None:
    """It does so after a step's row: that is lost with its server, the step is called again at the
    other one, and acknowledged results stay.
    """
    gate = asyncio.Event()
    kind = gated(gate)

    async def main(url: str) -> None:
        async with sagas.open(url, [kind], lease=60) as store:
            going = await store.start(kind, "k")
            await until(lambda: ("k", "one") in booked(url))
            await asyncio.to_thread(pair.fail_over)
            gate.set()
            assert (await going.wait()).ok
            await audited(store)

    with paired(synchronous=True) as pair:
        url = pair.url(pair.primary.create().rpartition("/")[2])
        prepare(url)
        run(main(url))
        assert booked(url) == {("k", name): 1 for name in ("one", "two", "three")}


def test_an_end_of_another_saga_comes_with_the_report(url: str) -> None:
    """With one slot: the plan of a saga that was aborted in the meantime comes with the reply to
    the report. It is written as its own.
    """
    prepare(url)
    kind, gate, reached = sagas.Saga("one"), asyncio.Event(), asyncio.Event()

    @kind.step(transaction=True)
    async def first(task: Task) -> str:
        result = await write(task, "first")
        if task.key == "a":
            reached.set()
            await gate.wait()
        return result

    async def main() -> None:
        async with sagas.open(url, [kind], concurrency=1) as store:
            a = await store.start(kind, key="a")
            await reached.wait()
            b = await store.start(kind, key="b")
            assert await b.abort()
            gate.set()
            ends = [await run.wait(20) for run in (a, b)]
            assert (
                [end.aborted for end in ends] == [False, True]
                and ends[0].ok
                and ends[1].states == {"first": "waiting"}
            )
            await audited(store)

    run(main())
    assert booked(url) == {("a", "first"): 1}


def test_plans_for_small_tables_are_not_kept(url: str) -> None:
    """The server has counted few rows as a connection prepares the statements of a step's end:
    later rows are looked up by their keys anyway.
    """
    prepare(url)
    kind = sagas.Saga("one")

    @kind.step(transaction=True)
    async def book(task: Task) -> str:
        return await write(task, "book")

    def scans() -> int:
        with psycopg.connect(url, autocommit=True) as link:
            link.execute("SELECT pg_stat_force_next_flush()")
            ((count,),) = link.execute(
                "SELECT sum(seq_scan) FROM pg_stat_user_tables WHERE schemaname = 'sagas' AND"
                " relname IN ('sagas', 'shards')"
            ).fetchall()
            return int(count)

    def sessions() -> bool:
        """Return whether any is left: each adds its counts at its end."""
        with psycopg.connect(url, autocommit=True) as link:
            text = "SELECT 1 FROM pg_stat_activity WHERE application_name LIKE 'sagas/%'"
            return bool(link.execute(f"{text} AND datname = current_database()").fetchall())

    async def main() -> None:
        async with sagas.open(url, [kind]) as store:
            for number in range(20):
                await ended(store, kind, f"few {number}")
            with psycopg.connect(url, autocommit=True) as link:
                link.execute(
                    "VACUUM ANALYZE sagas.sagas, sagas.shards, sagas.attempts, sagas.event_log"
                )
        await until(lambda: not sessions())
        async with sagas.open(url, [kind]) as store:
            for number in range(10):  # the server plans the first ones for themselves
                await ended(store, kind, f"first {number}")
            before = scans()
            for number in range(200):
                await ended(store, kind, f"k{number}")
        assert scans() - before < 100

    run(main())
    assert len(booked(url)) == 230
