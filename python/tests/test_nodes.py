"""Several nodes over one database: ownership, takeover, handover and fencing."""

from __future__ import annotations

import asyncio
import contextlib
import os
import pathlib
import signal
import subprocess
import sys
import textwrap
import threading
import time
from collections import Counter
from collections.abc import AsyncIterator, Awaitable, Callable, Iterator
from typing import Any

import psycopg
import pytest
import records
from cases import (
    QUICK,
    Task,
    ended,
    run,
    simple,
    surely_ended,
    unknown_attempts,
    until,
)
from driving import program
from relay import relaying
from server import Server

import sagas
from sagas.core.states import ShardState
from sagas.storage.postgresql import commit_statement, connections, node_lease, notifications
from sagas.storage.postgresql.application_name import Purpose

HERE = pathlib.Path(__file__).resolve().parent


def pair(
    gate: asyncio.Event | None = None,
    calls: list[str] | None = None,
    name: str = "pair",
    tokens: list[tuple[str, str]] | None = None,
) -> sagas.Saga:
    """Return a saga of two steps.

    The second waits for a gate, and each call of it is noted, with its token.
    """
    pair = sagas.Saga(name)

    @pair.step
    async def a(task: Task) -> int:
        return 1

    @a.compensation
    async def not_a(task: Task) -> None:
        ...

    @pair.step(needs=[a])
    async def b(task: Task) -> int:
        if calls is not None:
            calls.append(task.key)
        if tokens is not None:
            tokens.append((task.key, task.idempotency_key))
        if gate:
            await gate.wait()
        return task.result_of(a) + 1

    return pair


NODE = """
    import asyncio, sys, sagas
    pair = sagas.Saga("pair")
    @pair.step
    async def a(task): return 1
    @a.compensation
    async def not_a(task): pass
    @pair.step(needs=[a])
    async def b(task):
        print("called", task.key, task.idempotency_key, flush=True)
        await asyncio.sleep({seconds})
        return task.result_of(a) + 1
    async def main():
        async with sagas.open({url!r}, [pair], node={name!r}, lease={lease}) as store:
            for number in range({count}):
                await store.start(pair, f"{name}-{{number}}")
            print("open", flush=True)
            await store.serve()
        print("closed", flush=True)
    asyncio.run(main())
"""


@contextlib.contextmanager
def node(
    path: pathlib.Path,
    url: str,
    name: str,
    count: int,
    *,
    lease: float = 2.0,
    seconds: float = 3600,
) -> Iterator[subprocess.Popen[str]]:
    """Return a node in its own process, with sagas whose second step waits."""
    file = path / f"{name}.py"
    file.write_text(
        textwrap.dedent(NODE.format(url=url, name=name, count=count, lease=lease, seconds=seconds))
    )
    environment = os.environ | {"PYTHONPATH": str(HERE.parent / "src"), "SAGAS_PROGRAM": program()}
    process = subprocess.Popen(
        [sys.executable, "-u", str(file)], stdout=subprocess.PIPE, text=True, env=environment
    )
    try:
        yield process
    finally:
        process.send_signal(signal.SIGCONT)
        process.kill()
        process.wait()
        assert process.stdout
        process.stdout.close()


async def is_open(process: subprocess.Popen[str], called: int = 0) -> dict[str, str]:
    """Wait until it has started its sagas, and `called` second steps run; return their tokens."""
    assert process.stdout
    opened, tokens = False, dict[str, str]()
    while line := await asyncio.to_thread(process.stdout.readline):
        word, *fields = line.split()
        if word == "called":
            tokens[fields[0]] = fields[1]
        opened = opened or word == "open"
        if opened and len(tokens) >= called:
            return tokens
    raise AssertionError("it ended")


# -- keys


def test_a_key_is_unique_over_all_nodes(url: str) -> None:
    """Three nodes start the same keys at once: each saga exists once, and all three get its end."""
    kind = pair()

    async def main() -> None:
        async with contextlib.AsyncExitStack() as stack:
            nodes = [
                await stack.enter_async_context(sagas.open(url, [kind], node=f"n{number}"))
                for number in range(3)
            ]
            ends = await asyncio.gather(
                *(ended(node, kind, f"k{number}", number) for number in range(60) for node in nodes)
            )
            assert {end.phase for end in ends} <= {"completed", "recovered"} and len(ends) == 180
            for other in nodes:
                with pytest.raises(sagas.KeyConflict):
                    await other.start(kind, "k1", "another input")

    run(main())
    kept = records.read(url)
    assert set(kept.sagas) == {f"k{number}" for number in range(60)}


def test_a_caller_at_another_node_gets_the_end(url: str) -> None:
    """`wait`, `abort` and `finish` work at a node that does not have the saga."""
    gate = asyncio.Event()
    kind = pair(gate)
    signed = sagas.Saga("signed")

    @signed.approval()
    def sign(task: Task) -> None:
        ...

    async def main() -> None:
        async with sagas.open(url, [kind, signed]) as first, sagas.open(
            url, [kind, signed]
        ) as other:
            await first.start(kind, "k")
            waiting = asyncio.create_task(other.wait("k"))
            await first.start(kind, "gone")
            assert await other.abort("gone") is True and await other.abort("gone") is False
            await first.start(signed, "s")
            await until(lambda: records.read(url).sagas["s"])
            await other.complete("s", sign, {"by": "Ada"})
            assert (await other.wait("s")).results == {"sign": {"by": "Ada"}}
            with pytest.raises(sagas.StepNotWaiting):
                await other.complete("s", sign)
            with pytest.raises(sagas.NoSuchSaga):
                await other.abort("none")
            gate.set()
            assert (await waiting).results == {"a": 1, "b": 2}
            assert (await other.wait("gone")).aborted

    run(main())


# -- takeover


def test_a_killed_nodes_sagas_continue(tmp_path: pathlib.Path, url: str) -> None:
    """After its lease another node calls its open steps again, with the same tokens."""
    calls: list[str] = []
    tokens: list[tuple[str, str]] = []

    async def main() -> dict[str, str]:
        with node(tmp_path, url, "first", 20) as process:
            before = await is_open(process, called=16)  # as many as run at once
            async with sagas.open(url, [pair(calls=calls, tokens=tokens)], lease=2.0) as store:
                assert calls == []
                process.kill()
                ends = await asyncio.gather(
                    *(store.wait(f"first-{number}") for number in range(20))
                )
                assert all(end.ok for end in ends)
            return before

    before = run(main())
    assert Counter(calls) == Counter(f"first-{number}" for number in range(20))
    assert before.items() <= dict(tokens).items() and len({token for _, token in tokens}) == 20


def test_a_node_that_slept_past_its_lease_writes_nothing(tmp_path: pathlib.Path, url: str) -> None:
    """It is stopped while its steps run; another node ends them.

    When it continues, its results are not recorded.
    """

    async def main() -> None:
        with node(tmp_path, url, "sleeper", 5, lease=1.5, seconds=1.0) as process:
            await is_open(process)
            process.send_signal(signal.SIGSTOP)
            async with sagas.open(url, [pair()], lease=1.5) as store:
                ends = await asyncio.gather(
                    *(store.wait(f"sleeper-{number}") for number in range(5))
                )
                assert all(end.ok for end in ends)
                before = records.read(url)
                process.send_signal(signal.SIGCONT)
                await ended(store, pair_of(store), "after")
                process.send_signal(signal.SIGTERM)
                assert await asyncio.to_thread(process.wait, 120) == 0
                after = records.read(url)
                assert {
                    key: row for key, row in after.sagas.items() if key != "after"
                } == before.sagas
                assert all(verdict.startswith("yes") for verdict in (await store.audit()).values())

    run(main())


def pair_of(store: sagas.Store) -> sagas.Saga:
    """Return the saga that a store was opened with."""
    return next(iter(store._registry.sagas.values()))


def test_sigterm_hands_over_at_once(tmp_path: pathlib.Path, url: str) -> None:
    """No attempt starts, running ones end and are stored, and another node has the logs long before
    the lease's end.
    """
    calls: list[str] = []

    async def main() -> None:
        with node(tmp_path, url, "leaving", 3, lease=600, seconds=1.0) as process:
            await is_open(process, called=3)
            async with sagas.open(url, [pair(calls=calls)], lease=600) as store:
                process.send_signal(signal.SIGTERM)
                assert await asyncio.to_thread(process.wait, 120) == 0
                await until(
                    lambda: all(row.phase == "ended" for row in records.read(url).sagas.values())
                )
                await ended(store, pair_of(store), "one more")

    run(main())
    assert calls == ["one more"]


def test_an_old_name_has_its_logs_at_once(url: str, tmp_path: pathlib.Path) -> None:
    """A node that is started again under its name does not wait for the lease of its
    earlier run.
    """

    async def main() -> None:
        with node(tmp_path, url, "web", 3, lease=600) as process:
            await is_open(process)
            process.kill()
            process.wait()
            async with sagas.open(url, [pair()], node="web", lease=600) as store:
                assert all(
                    end.ok
                    for end in await asyncio.gather(
                        *(store.wait(f"web-{number}") for number in range(3))
                    )
                )

    run(main())


def test_a_node_that_opens_keeps_its_lease(url: str, tmp_path: pathlib.Path) -> None:
    """Its context takes longer than a lease: no other node takes the shards that it has
    just taken.
    """
    event_names, collect = list[str](), lambda event: event_names.append(event.name)

    async def main() -> None:
        with node(tmp_path, url, "web", 1, lease=600) as process:
            await is_open(process, called=1)
            process.kill()
            process.wait()
            async with sagas.open(
                url, [pair()], node="other", lease=2.0, on_event=collect
            ) as other:
                beats = other._coordinator.store.lease  # type: ignore[attr-defined]

                @contextlib.asynccontextmanager
                async def slow() -> AsyncIterator[None]:
                    since = beats._until
                    await until(lambda: beats._until > since + 4.0)
                    yield

                async with sagas.open(
                    url, [pair()], node="web", lease=2.0, context=slow, on_event=collect
                ) as store:
                    assert (await store.wait("web-0")).ok

    run(main())
    assert not {"lease_expired", "shard_taken", "shard_lost"} & {*event_names}


def test_two_nodes_of_one_name(url: str) -> None:
    """The second has the first one's logs; both continue, and neither does anything twice."""
    gate = asyncio.Event()
    calls: list[list[str]] = [[], []]
    kinds = [pair(gate, calls[0]), pair(gate, calls[1])]

    async def main() -> None:
        async with sagas.open(url, [kinds[0]], node="same", lease=2.0) as first:
            await asyncio.gather(*(first.start(kinds[0], f"k{number}") for number in range(5)))
            await until(lambda: len(calls[0]) == 5)
            async with sagas.open(url, [kinds[1]], node="same", lease=2.0) as second:
                await until(lambda: len(calls[1]) == 5)
                gate.set()
                ends = await asyncio.gather(
                    *(store.wait(f"k{number}") for number in range(5) for store in (first, second))
                )
                assert all(end.ok for end in ends)
                assert (await ended(first, kinds[0], "new")).ok and (
                    await ended(second, kinds[1], "newer")
                ).ok

    run(main())
    assert all(row.phase == "ended" for row in records.read(url).sagas.values())


def test_a_log_that_another_node_wrote_in_the_meantime(
    url: str, caplog: pytest.LogCaptureFixture
) -> None:
    """A node reports into a log that another one has ended in the meantime: it finds that the log
    is not its own, before it asks its engine anything.
    """
    gates = asyncio.Event(), asyncio.Event()
    calls: list[list[str]] = [[], []]
    kinds = [pair(gate, of) for gate, of in zip(gates, calls)]

    async def main() -> None:
        async with sagas.open(
            url, [kinds[0]], node="same", lease=600, settings=sagas.Settings(idle=0.01)
        ) as first:
            await first.start(kinds[0], "k")
            await until(lambda: calls[0])
            assert first._coordinator
            (runner,) = first._coordinator.shards.runners.values()
            await until(lambda: runner.driver.state is ShardState.IDLE)
            async with sagas.open(url, [kinds[1]], node="same", lease=600) as second:
                gates[1].set()
                assert (await second.wait("k")).ok
                gates[0].set()
                assert (await first.wait("k")).ok
                await until(lambda: runner.driver.state is ShardState.CLOSED)

    run(main())
    assert calls == [["k"], ["k"]] and not caplog.records


def test_a_log_that_a_node_has_no_functions_for_is_left(url: str) -> None:
    """It is listed by name, and executed by the node that has the functions, as in a
    rolling deploy.
    """
    gate = asyncio.Event()
    calls: list[str] = []
    old, new = pair(gate, calls), simple(lambda task: 1)

    async def main() -> None:
        async with sagas.open(url, [old], shutdown_timeout=0.0) as store:
            await store.start(old, "old")
            await until(lambda: calls)
        async with sagas.open(url, [new], lease=2.0) as store:
            assert (await ended(store, new, "new")).ok
            assert records.read(url).sagas["old"].phase is None
            gate.set()
            async with sagas.open(url, [old], lease=2.0):
                assert (await store.wait("old")).ok

    run(main())


def test_a_log_is_taken_for_one_of_its_sagas(url: str, caplog: pytest.LogCaptureFixture) -> None:
    """This node lacks the functions of another saga in it, which a later node ends. Once that node
    is gone, this one drives the shard again.
    """
    gates, calls = {name: asyncio.Event() for name in ("goes", "stays")}, list[str]()
    goes, stays = (pair(gate, calls, name) for name, gate in gates.items())

    async def main() -> None:
        async with sagas.open(url, [goes, stays], shutdown_timeout=0.0) as both:
            for kind in (goes, stays):
                await both.start(kind, kind.name)
            await until(lambda: len(calls) == 2)
        async with sagas.open(url, [stays], lease=2.0) as store:
            lease = store._coordinator.store.lease  # type: ignore[attr-defined]
            assert len(records.read(url).logs) == 1 and not lease.left
            await until(lambda: calls.count("stays") == 2)
            async with sagas.open(url, [goes, stays], shutdown_timeout=0.0) as both:
                gates["goes"].set()
                assert (await both.wait("goes")).ok
            gates["stays"].set()
            assert (await asyncio.wait_for(store.wait("stays"), 30)).ok
            assert not lease.left

    run(main())
    assert not [record for record in caplog.records if "no node executes" in record.getMessage()]


def test_sagas_without_a_driving_node_are_reported(
    url: str, caplog: pytest.LogCaptureFixture
) -> None:
    """A node without the functions of open sagas reports once which they are and how many, as soon
    as no node has executed them for a lease. To find that out it does not give up its own shards,
    even if a table is locked. The report of a log that was left is dropped once it is closed.
    """
    gate, calls, events = asyncio.Event(), list[str](), list[sagas.Event]()
    old, new = pair(gate, calls), simple(lambda task: 1)
    says = (
        f"/{url.rpartition('/')[2]}: no node executes 1 shard, because none has the functions of"
        " their open sagas: pair (version 1): 3 sagas in 1 shard. Start a program that has them"
    )

    def warnings() -> list[str]:
        return [
            record.getMessage()
            for record in caplog.records
            if "no node executes" in record.getMessage()
        ]

    async def main() -> None:
        async with sagas.open(url, [old], shutdown_timeout=0.0) as store:
            for number in range(3):
                await store.start(old, f"old {number}")
            await until(lambda: len(calls) == 3)
        async with sagas.open(url, [new], lease=6.0, on_event=events.append) as store:
            lease = store._coordinator.store.lease  # type: ignore[attr-defined]
            (log,) = lease.left
            with psycopg.connect(url) as stranger:
                stranger.execute("LOCK TABLE sagas.sagas IN ACCESS EXCLUSIVE MODE")
                since = lease._until
                await until(lambda: asyncio.to_thread(waits_in, url))
                await until(lambda: lease._until > since + 2.5)
                assert not warnings()
                stranger.rollback()
            await until(warnings)
            turn = lease._turn
            await until(lambda: lease._turn > turn + 4)
            assert len(warnings()) == 1 and says in warnings()[0]
            gate.set()
            async with sagas.open(url, [old], lease=1.0):
                for number in range(3):
                    assert (await store.wait(f"old {number}")).ok
                await until(lambda: records.read(url).logs[log].closed)
            await until(lambda: not lease.left)
            assert len(warnings()) == 1

    run(main())
    assert "lease_expired" not in {event.name for event in events}


class Nowhere:
    """A queue of a broker without a worker."""

    timeout = 0.05

    def declare(self, step: Any, kind: str, manner: Any) -> None:
        ...

    async def check(self, database: Any, steps: Any) -> None:
        ...

    async def send(self, order: Any) -> None:
        ...


def test_nothing_is_kept_of_reports_that_another_node_waits_for(url: str) -> None:
    """Attempts whose messages are out, and attempts with an unknown outcome, go to another node."""

    def kind_of() -> sagas.Saga:
        kind, patient = sagas.Saga("ordered"), Nowhere()
        patient.timeout = 600.0

        @kind.step(queue=Nowhere(), backoff=sagas.Backoff(initial=60, maximum=60))
        def a(task: Task) -> None:
            ...

        @kind.step(queue=patient)
        def b(task: Task) -> None:
            ...

        return kind

    async def main() -> None:
        first, second = kind_of(), kind_of()
        async with sagas.open(url, [first], node="same", shutdown_timeout=0.0) as store:
            for number in range(3):
                await store.start(first, f"k{number}")
            waiting = store._coordinator.external._reports
            await until(lambda: all_reported_unknown(store, 3))
            await until(lambda: len(waiting) == 3)
            attempts = await unknown_attempts(store)
            async with sagas.open(url, [second], node="same", shutdown_timeout=0.0) as other:
                await until(lambda: not store._coordinator.sagas.by_key)
                await until(lambda: not waiting)
                assert await unknown_attempts(other) == attempts

    run(main())


async def all_reported_unknown(store: sagas.Store, count: int) -> bool:
    """Return whether `count` attempts are recorded as unknown."""
    return len(await unknown_attempts(store)) == count


def test_a_lost_connection_is_not_reported_as_a_dead_engine(postgresql: Server, url: str) -> None:
    """The server cannot be reached as logs are to be loaded: the error names the database."""
    gate, calls, events = asyncio.Event(), list[str](), list[sagas.Event]()
    kind = pair(gate, calls)

    def not_taken_up() -> int:
        return sum("is not open yet" in (event.detail or "") for event in events)

    async def main() -> None:
        with relaying(postgresql.port) as relay:
            location = postgresql.url(url.rpartition("/")[2], port=relay.port)
            async with sagas.open(location, [kind], lease=60, on_event=events.append) as store:
                await store.start(kind, "k")
                await until(lambda: calls)
                relay.before = 1.0
                relay.cut()
                gate.set()
                await until(lambda: not_taken_up() > 2)
                relay.before = 0.0
                assert (await store.wait("k")).ok

    run(main())
    assert "engine_died" not in {event.name for event in events}
    assert "commit_failed" in {event.name for event in events}


def test_a_rolling_deploy_of_a_changed_definition(url: str) -> None:
    """Sagas of the old definition continue with the old functions while their node is up, and then
    by that definition with the new ones.
    """
    gates = {"stays": asyncio.Event(), "leaves": asyncio.Event()}
    called: list[str] = []

    def release(word: str) -> sagas.Saga:
        kind = sagas.Saga("pair")

        @kind.step
        async def a(task: Task) -> str:
            return word

        @kind.step(needs=[a])
        async def b(task: Task) -> str:
            called.append(task.key)
            if word == "old":
                await gates[task.key].wait()
            return word

        if word == "new":

            @kind.step(needs=[b])
            async def c(task: Task) -> str:
                return word

        return kind

    async def main() -> None:
        old, new = release("old"), release("new")
        async with sagas.open(url, [old], node="old", shutdown_timeout=0.0) as first:
            for key in gates:
                await first.start(old, key)
            await until(lambda: len(called) == 2)
            async with sagas.open(url, [new], node="new") as second:
                assert (await ended(second, new, "begun")).results == {
                    "a": "new",
                    "b": "new",
                    "c": "new",
                }
                gates["stays"].set()
                assert (await second.wait("stays")).results == {"a": "old", "b": "old"}
                await first.close()
                assert (await second.wait("leaves")).results == {"a": "old", "b": "new"}

    run(main())
    assert len(records.read(url).logs) == 2


def test_a_large_commit_is_taken_apart_piece_by_piece(
    url: str, monkeypatch: pytest.MonkeyPatch
) -> None:
    """A commit with more rows than PostgreSQL can unnest at once uses the other form of the
    statement, with the same result.
    """
    monkeypatch.setattr(commit_statement, "MAX_PARSED", 0)
    kind = simple(lambda task: 1)

    async def main() -> None:
        async with sagas.open(url, [kind]) as store:
            assert (await ended(store, kind, "k")).ok
            assert all(verdict.startswith("yes") for verdict in (await store.audit()).values())

    run(main())


def test_a_lease_is_over_before_its_end() -> None:
    """A node uses its own clock, and keeps a tenth of the lease as a margin for its last work."""
    lease = node_lease.Lease(None, "n", 10.0, "")  # type: ignore[arg-type]
    for left, held in ((10.0, True), (1.5, True), (0.9, False), (-1.0, False)):
        lease._until = node_lease.now() + left
        assert lease.holds() is held
    assert not lease.fresh


def test_no_function_starts_after_the_lease(url: str) -> None:
    """A node cannot renew its lease: its sagas pause, and no call starts until it has renewed it
    and looked at its logs.
    """
    gate, calls = asyncio.Event(), list[str]()
    kind = sagas.Saga("pair")

    @kind.step
    async def a(task: Task) -> None:
        calls.append("a")
        await gate.wait()

    @kind.step(needs=[a])
    async def b(task: Task) -> None:
        calls.append("b")

    async def main() -> None:
        async with sagas.open(url, [kind], lease=1.5) as store:
            await store.start(kind, "k")
            await until(lambda: calls)
            with psycopg.connect(url) as stranger:
                stranger.execute("LOCK TABLE sagas.nodes IN EXCLUSIVE MODE")
                assert store._coordinator
                holds = store._coordinator.store.holds
                await until(lambda: not holds())
                gate.set()
                await until(
                    lambda: [row.outcome for row in records.read(url).results.values()]
                    == ["commit"]
                )
                await asyncio.sleep(0.2)
                assert calls == ["a"]
            assert (await store.wait("k")).ok

    run(main())
    assert calls == ["a", "b"]


OTHER = (
    "INSERT INTO sagas.nodes(node, name, version, since, lease) VALUES ('other', 'other', '',"
    " now(), now() + interval '1 hour')"
)
TAKEN = (
    "UPDATE sagas.shards SET owner = 'other', epoch = epoch + 1 WHERE shard = (SELECT id / 1000"
    " FROM sagas.sagas WHERE key = 'taken') RETURNING name"
)


def test_a_node_past_its_lease_keeps_its_own_logs(
    url: str, monkeypatch: pytest.MonkeyPatch
) -> None:
    """Another node has taken one of its two logs in the meantime: it ends the engines of both,
    releases that one, and continues with the other.
    """
    monkeypatch.setattr("sagas.definition.registry.SHARD_CAPACITY", 1)
    gate, calls, events = asyncio.Event(), list[str](), list[tuple[str, str | None]]()
    kind = pair(gate, calls)

    async def main() -> None:
        async with sagas.open(
            url,
            [kind],
            lease=1.5,
            shutdown_timeout=0.0,
            on_event=lambda event: events.append((event.name, event.detail)),
        ) as store:
            for key in ("kept", "taken"):
                await store.start(kind, key)
            await until(lambda: len(calls) == 2)
            inside = store._coordinator
            assert inside
            before = {runner.engine for runner in inside.shards.runners.values()}
            with psycopg.connect(url) as stranger:
                stranger.execute("LOCK TABLE sagas.nodes IN EXCLUSIVE MODE")
                await until(lambda: not inside.store.holds())
                stranger.execute(OTHER)
                taken = stranger.execute(TAKEN).fetchall()
            await until(lambda: "shard_lost" in dict(events))
            assert [(detail,) for name, detail in events if name == "shard_lost"] == taken and (
                "lease_expired",
                None,
            ) in events
            assert len(before) == 2
            await until(lambda: all(child and child.reaped.done() for child in before))
            gate.set()
            assert (await store.wait("kept")).ok
            assert (
                records.read(url).sagas["taken"].phase is None
                and "taken" not in inside.sagas.by_key
            )
            with psycopg.connect(url) as stranger:
                stranger.execute("DELETE FROM sagas.nodes WHERE node = 'other'")
            assert (await store.wait("taken")).ok

    run(main())
    assert calls == ["kept", "taken", "taken"]


def test_new_sagas_go_to_a_log_of_the_nodes_own(url: str) -> None:
    """Those of two nodes are in separate logs.

    If one has taken over the logs of the other, its new ones are still in its own logs.
    """
    gate = asyncio.Event()
    kind = pair(gate)

    def owners(*keys: str) -> set[str]:
        text = (
            "SELECT owner FROM sagas.shards JOIN sagas.sagas ON shard = id / 1000 WHERE key ="
            " ANY(%s)"
        )
        with psycopg.connect(url) as link:
            return {str(owner) for (owner,) in link.execute(text, (list(keys),)).fetchall()}

    async def main() -> None:
        async with sagas.open(url, [kind], node="one", lease=600) as first:
            async with sagas.open(
                url, [kind], node="two", lease=600, shutdown_timeout=0.0
            ) as second:
                for number in range(3):
                    await asyncio.gather(
                        first.start(kind, f"one {number}"), second.start(kind, f"two {number}")
                    )
                mine, others = [
                    owners(*(f"{name} {number}" for number in range(3))) for name in ("one", "two")
                ]
                assert [owner.partition("/")[0] for of in (mine, others) for owner in of] == [
                    "one",
                    "two",
                ]
            await until(lambda: owners("two 0") == mine)
            await asyncio.gather(*(first.start(kind, f"later {number}") for number in range(3)))
            assert owners("later 0", "later 1", "later 2") == mine
            gate.set()
            assert all(
                end.ok
                for end in await asyncio.gather(
                    *(
                        first.wait(f"{name} {number}")
                        for name in ("one", "two", "later")
                        for number in range(3)
                    )
                )
            )

    run(main())


def test_takeover_in_batches_skips_a_locked_log(url: str, monkeypatch: pytest.MonkeyPatch) -> None:
    """There are more logs than a batch takes; a locked one is left, and taken later."""
    monkeypatch.setattr("sagas.definition.registry.SHARD_CAPACITY", 1)
    calls: list[str] = []

    async def main() -> None:
        gate = asyncio.Event()
        async with sagas.open(
            url, [pair(gate, calls)], concurrency=80, shutdown_timeout=0.0
        ) as store:
            await asyncio.gather(
                *(store.start(pair_of(store), f"k{number}") for number in range(60))
            )
            await until(lambda: len(calls) == 60)
        calls.clear()
        with psycopg.connect(url) as stranger:
            row = stranger.execute(
                "SELECT key FROM sagas.sagas WHERE id / 1000 = (SELECT min(shard) FROM"
                " sagas.shards)"
            ).fetchone()
            stranger.execute("SELECT 1 FROM sagas.shards ORDER BY shard LIMIT 1 FOR UPDATE")
            assert row
            async with sagas.open(url, [pair(calls=calls)], concurrency=80) as store:
                await until(lambda: len(calls) == 59)
                assert row[0] not in calls
                stranger.rollback()
                assert (await store.wait(row[0])).ok

    run(main())
    assert Counter(calls) == Counter(f"k{number}" for number in range(60))


def test_a_node_renews_its_lease_between_batches(url: str, monkeypatch: pytest.MonkeyPatch) -> None:
    """It takes over the shards of another node, and has the functions of some: one batch for each
    heartbeat.
    """
    monkeypatch.setattr("sagas.definition.registry.SHARD_CAPACITY", 1)
    monkeypatch.setattr(
        node_lease,
        "CANDIDATES",
        node_lease.CANDIDATES.replace(f"LIMIT {node_lease.TAKEOVER_BATCH}", "LIMIT 1"),
    )
    gate, calls, turns = asyncio.Event(), list[str](), list[int]()
    mine, others = pair(gate, calls), pair(gate, calls, "others")

    async def main() -> None:
        take = node_lease.Lease.take

        async def noted(self: node_lease.Lease, *arguments: Any) -> Any:
            turns.append(self._turn)
            return await take(self, *arguments)

        async with sagas.open(url, [mine]) as store:
            async with sagas.open(url, [mine, others], shutdown_timeout=0.0) as both:
                for number in range(3):
                    await both.start(mine, f"k{number}")
                    await both.start(others, f"other{number}")
                await until(lambda: len(calls) == 6)
                monkeypatch.setattr(node_lease.Lease, "take", noted)
            gate.set()
            assert all(
                end.ok
                for end in await asyncio.gather(*(store.wait(f"k{number}") for number in range(3)))
            )
            lease = store._coordinator.store.lease  # type: ignore[attr-defined]
            await until(lambda: len(lease.left) == 3)

    run(main())
    assert len(turns) >= 6 and len({*turns}) == len(turns)


WAITS = """
CREATE FUNCTION sagas.waits() RETURNS boolean LANGUAGE plpgsql AS
    'BEGIN PERFORM pg_advisory_xact_lock(1); RETURN true; END'
"""


@contextlib.contextmanager
def as_it_takes(url: str, patch: pytest.MonkeyPatch) -> Iterator[psycopg.Connection[Any]]:
    """Wait until a takeover has started; it continues once this connection's lock is released."""
    patch.setattr(
        node_lease,
        "TAKE",
        node_lease.TAKE.replace("ORDER BY l.shard FOR", "AND sagas.waits() ORDER BY l.shard FOR"),
    )
    with psycopg.connect(url, autocommit=True) as link:
        link.execute(WAITS)
        link.execute("SELECT pg_advisory_lock(1)")
        yield link


@pytest.mark.parametrize("lacks", [False, True])
def test_the_last_commit_before_a_takeover_counts(
    url: str, monkeypatch: pytest.MonkeyPatch, lacks: bool
) -> None:
    """A node that is taken for dead opens a saga while its log, without open sagas, is taken over:
    the new owner then drives that one too, if it has the functions.
    """
    gate, calls = asyncio.Event(), list[str]()
    before, now = pair(gate, calls), pair(calls=calls)
    other = pair(calls=calls, name="other")

    async def main() -> None:
        async with contextlib.AsyncExitStack() as stack:
            old = await stack.enter_async_context(
                sagas.open(url, [before, other], node="n", shutdown_timeout=0.0)
            )
            await ended(old, other, "early")
            with as_it_takes(url, monkeypatch) as link:
                opening = asyncio.create_task(
                    stack.enter_async_context(
                        sagas.open(url, [other] if lacks else [now, other], node="n")
                    )
                )
                await until(
                    lambda: link.execute(
                        "SELECT 1 FROM pg_locks WHERE locktype = 'advisory' AND NOT granted"
                    ).fetchone()
                )
                await old.start(before, "late")
            await opening
            gate.set()
            assert (await asyncio.wait_for(old.wait("late"), 20)).ok

    run(main())
    assert calls.count("late") >= 1


@pytest.mark.parametrize("is_born", [True, False], ids=["into a log", "with its log"])
def test_a_start_that_comes_late(postgresql: Server, url: str, is_born: bool) -> None:
    """Its statement waits at the server while its connection is cut.

    The caller gets an unknown outcome, and starts it again: the saga exists once, and is executed,
    whether the first statement is done later or not.
    """
    calls: list[str] = []
    kind = simple(lambda task: calls.append(task.key))
    waits = (
        "SELECT pid FROM pg_stat_activity WHERE datname = current_database() AND wait_event_type ="
        " 'Lock'"
    )
    name = url.rpartition("/")[2]

    async def main() -> None:
        with relaying(postgresql.port) as relay:
            async with sagas.open(
                postgresql.url(name, port=relay.port), [kind], lease=600, shutdown_timeout=0.0
            ) as store:
                for number in range(2):
                    assert (await ended(store, kind, f"k{number}")).ok
                inside = store._coordinator
                assert inside
                if not is_born:
                    inside.shards.placement.current.clear()
                with psycopg.connect(url) as stranger, psycopg.connect(
                    url, autocommit=True
                ) as observer:
                    stranger.execute("LOCK TABLE sagas.sagas IN EXCLUSIVE MODE")
                    start = asyncio.create_task(store.start(kind, "late"))
                    ((late,),) = await until(lambda: observer.execute(waits).fetchall())
                    relay.cut()
                    with pytest.raises(
                        sagas.StoreUnavailable, match="with the same key|Nothing was started"
                    ):
                        await start
                    again = asyncio.create_task(surely_ended(store, kind, "late"))
                    stranger.rollback()
                    await until(
                        lambda: not observer.execute(
                            "SELECT 1 FROM pg_stat_activity WHERE pid = %s", (late,)
                        ).fetchall()
                    )
                    assert (await asyncio.wait_for(again, 60)).ok
                    await until(
                        lambda: observer.execute(
                            "SELECT count(*), count(phase) FROM sagas.sagas"
                        ).fetchone()
                        == (3, 3)
                    )
                    owners = (
                        "SELECT count(*) FROM sagas.shards WHERE closed = 0 AND shard <> ALL(%s)"
                    )
                    assert observer.execute(owners, (inside.logs(),)).fetchone() == (0,)
                assert all(verdict.startswith("yes") for verdict in (await store.audit()).values())

    run(main())
    assert sorted(set(calls)) == ["k0", "k1", "late"]


def test_a_log_that_could_not_be_returned(url: str, monkeypatch: pytest.MonkeyPatch) -> None:
    """A node lacks a function of a log that it just took, and the server does not answer as it
    releases it: it is released the next time.
    """
    ask, is_lost = connections.Asker.ask, True

    async def loses(self: connections.Asker, text: str, **options: Any) -> list[Any]:
        nonlocal is_lost
        if text == node_lease.LEAVE and is_lost:
            is_lost = False
            raise sagas.StoreUnavailable("it does not answer")
        return await ask(self, text, **options)

    async def main() -> None:
        gate, calls = asyncio.Event(), list[str]()
        kind, reasons = pair(gate, calls), iter([None, "it lacks b", "it lacks b"])
        async with sagas.open(url, [kind], shutdown_timeout=0.0) as store:
            await store.start(kind, "k")
            await until(lambda: calls)
        monkeypatch.setattr(connections.Asker, "ask", loses)
        asker = connections.Asker(url, url, 1, Purpose.LEASE)
        await asker.open()
        lease = node_lease.Lease(asker, "n", 10.0, "")
        await lease.begin()
        with pytest.raises(sagas.StoreUnavailable):
            await lease.take(lambda *_: next(reasons), [])
        owner = "SELECT owner FROM sagas.shards WHERE closed = 0"
        assert await asker.ask(owner) == [(lease.node,)] and not lease.left
        assert await lease.take(lambda *_: next(reasons), []) == []
        assert await asker.ask(owner) == [(None,)] and lease.left
        await asker.close()

    run(main())


def test_notifications_of_events(url: str, monkeypatch: pytest.MonkeyPatch) -> None:
    """A client's start that is taken, a reply, an end: a waiting caller is notified.

    Without that it would look only minutes later.
    """
    monkeypatch.setattr(notifications, "FIRST_LOOK", 600.0)
    monkeypatch.setattr(notifications, "MAX_LOOK", 600.0)
    gate = asyncio.Event()
    kind = pair(gate)

    async def main() -> None:
        async with sagas.open(url, [kind]) as first, sagas.open(url, [kind]) as other, sagas.Client(
            url
        ) as client:
            async with asyncio.timeout(100):
                await first.start(kind, "k")
                waiting = [
                    asyncio.create_task(other.wait("k")),
                    asyncio.create_task(client.wait("k")),
                ]
                started = await client.start(kind, "of a client")
                await first.start(kind, "gone")
                assert await other.abort("gone")
                gate.set()
                assert (
                    all(end.ok for end in await asyncio.gather(*waiting))
                    and (await started.wait()).ok
                )

    run(main())


def test_notifications_before_a_reconnect_do_not_count(url: str) -> None:
    """Another server may have taken over, at which a saga is open that had ended: a caller that
    waits for it pauses between two looks.
    """

    async def main() -> None:
        looks, sent = asyncio.Queue[str](), asyncio.Event()
        listener = notifications.Notifications(url, looks.put_nowait)
        await looks.get()
        listener.say(["ended 17", "look"], sent.set)
        assert await looks.get() == "look"
        await asyncio.wait_for(listener.of(17, 16), 5)
        with psycopg.connect(url, autocommit=True) as stranger:
            stranger.execute(
                "SELECT pg_terminate_backend(pid) FROM pg_stat_activity WHERE datname ="
                " current_database() AND pid <> pg_backend_pid()"
            )
        assert await looks.get() == ""
        waiting = asyncio.create_task(listener.of(17, 16))
        await asyncio.sleep(0.1)
        assert not waiting.done()
        listener.say(["ended 17"], sent.set)
        await waiting
        await listener.close()

    run(main())


def test_an_end_is_noticed_without_a_notification(
    url: str, monkeypatch: pytest.MonkeyPatch
) -> None:
    """A notification of the database may be lost: waiting callers look by themselves, at growing
    intervals.
    """
    monkeypatch.setattr(
        "sagas.storage.postgresql.notifications.Announcer.say", lambda self, messages: None
    )
    monkeypatch.setattr(notifications, "FIRST_LOOK", 0.01)
    gate = asyncio.Event()
    kind = pair(gate)
    right, turns = notifications.Notifications.of, list[int]()

    async def of(self: notifications.Notifications, id: int, turn: int) -> None:
        turns.append(turn)
        await right(self, id, turn)

    monkeypatch.setattr(notifications.Notifications, "of", of)

    async def main() -> None:
        async with sagas.open(url, [kind], node="one") as first, sagas.open(
            url, [kind], node="other"
        ) as other:
            await first.start(kind, "k")
            waiting = asyncio.create_task(other.wait("k"))
            await asyncio.sleep(1.0)
            # with one look per second, it would be a hundred
            assert turns == [*range(len(turns))] and 3 <= len(turns) <= 10
            gate.set()
            assert (await waiting).ok

    run(main())


# -- the server


def test_the_server_is_stopped_and_started(postgresql: Server, tmp_path: pathlib.Path) -> None:
    """Steps that run then keep their results until it is back; a node that was not killed calls no
    function twice.
    """
    from server import serving

    calls: Counter[str] = Counter()

    async def slow(task: Task) -> int:
        calls[task.attempt_id] += 1
        await asyncio.sleep(0.3)
        return 1

    kind = simple(slow)

    async def main(server: Server) -> None:
        url = server.create()
        async with sagas.open(url, [kind], concurrency=50, lease=60) as store:
            runs = [await store.start(kind, f"k{number}") for number in range(20)]
            await until(lambda: len(calls) == 20)
            await asyncio.to_thread(server.stop, "immediate")
            await asyncio.sleep(0.5)
            await asyncio.to_thread(server.start)
            assert all(end.ok for end in await asyncio.gather(*(run.wait() for run in runs)))

    with serving({"fsync": "on"}) as server:
        run(main(server))
    assert set(calls.values()) == {1} and len(calls) == 20


def test_a_start_without_a_server_is_refused(url: str, monkeypatch: pytest.MonkeyPatch) -> None:
    """No number of a log is reserved, and none can be requested: the start fails as it does without
    a server, and no caller waits forever.
    """
    monkeypatch.setattr("sagas.definition.registry.SHARD_CAPACITY", 1)
    kind = pair()

    async def main() -> None:
        async with sagas.open(url, [kind]) as store:
            results = await asyncio.gather(
                *(ended(store, kind, f"k{number}") for number in range(200)), return_exceptions=True
            )
            refused = [
                number
                for number, result in enumerate(results)
                if isinstance(result, sagas.StoreUnavailable)
            ]
            assert (
                refused
                and len(refused) + sum(isinstance(result, sagas.SagaResult) for result in results)
                == 200
            )
            assert (await surely_ended(store, kind, f"k{refused[0]}")).ok

    run(main())


def test_a_look_for_a_key_ends_when_the_store_closes(
    postgresql: Server, url: str, monkeypatch: pytest.MonkeyPatch
) -> None:
    """The server does not respond: a caller that waits for it does not wait longer than the store
    is open.
    """
    kind, silent = pair(), threading.Event()

    async def main() -> None:
        with relaying(postgresql.port) as relay:
            location = postgresql.url(url.rpartition("/")[2], port=relay.port)
            async with sagas.open(location, [kind]) as store:
                keys = store._coordinator.store._keys  # type: ignore[attr-defined]
                relay.cut()
                await until(lambda: not keys._connection.is_open)
                relay._loop.call_soon_threadsafe(silent.wait)
                requests = [asyncio.create_task(store.get("k"))]
                await until(lambda: keys.pending_lookups == 1)
                requests += [
                    asyncio.create_task(work) for work in (store.get("k"), store.wait("other"))
                ]
                await until(lambda: keys.pending_lookups == 3)
                monkeypatch.setattr(connections, "CONNECT", 0.1)
                closing = asyncio.create_task(store.close())
                await asyncio.wait(requests, timeout=10)
                silent.set()
                await closing
                assert {
                    type(request.exception()) if request.done() else None for request in requests
                } == {sagas.Closed}

    run(main())


def test_the_answer_to_a_withdrawal_is_lost(postgresql: Server, url: str) -> None:
    """A task that no worker has is withdrawn as its saga is aborted.

    The connection breaks before the reply: the withdrawal is repeated, and the saga ends.
    """
    kind = sagas.Saga("outside")
    kind.step(name="a", external=True)

    async def main() -> None:
        with relaying(postgresql.port) as relay:
            store = sagas.open(postgresql.url(url.rpartition("/")[2], port=relay.port), [kind])
            store.leased = True
            async with store:
                running = await store.start(kind, "k")
                with psycopg.connect(url, autocommit=True) as link:
                    await until(
                        lambda: link.execute("SELECT 1 FROM sagas.external_attempts").fetchall()
                    )
                relay.mark = b"SET outcome = 'withdrawn'"
                assert await running.abort()
                assert (await running.wait(60)).aborted
                assert relay.cuts["marked"] == 1

    run(main())


def test_a_node_is_gone_during_a_claim(
    postgresql: Server, url: str, monkeypatch: pytest.MonkeyPatch
) -> None:
    """The server does not notice it, as when a machine loses its power: others wait for its locks
    no longer than a statement may take.
    """
    kind, task_names = sagas.Saga("outside"), [("outside", "a", "run")]
    kind.step(name="a", external=True, concurrency=1)

    async def claimed(store: sagas.Store) -> bool:
        with contextlib.suppress(sagas.StoreUnavailable):
            return bool(await store.workers.claim(task_names))
        return False

    async def main() -> None:
        with relaying(postgresql.port) as relay:
            gone = sagas.open(
                postgresql.url(url.rpartition("/")[2], port=relay.port), [kind], node="gone"
            )
            store = sagas.open(url, [kind], node="here")
            gone.leased = store.leased = True
            async with store:
                monkeypatch.setattr(
                    connections, "ABANDONED", connections.ABANDONED.replace("20s", "3s")
                )
                async with gone:
                    await store.start(kind, "k")
                    with psycopg.connect(url, autocommit=True) as link:
                        await until(
                            lambda: link.execute("SELECT 1 FROM sagas.external_attempts").fetchall()
                        )
                    relay.still = b"candidates AS MATERIALIZED"  # after the lock
                    claiming = asyncio.create_task(claimed(gone))
                    await until(relay.stands.is_set)
                    await until(lambda: claimed(store), 15)
                    relay.go_on()
                    assert not await claiming

    run(main())


def test_sessions_are_ended_by_the_server(url: str) -> None:
    """Each session of the node is ended, again and again: all sagas end."""
    kind = pair()

    async def main() -> None:
        with psycopg.connect(url, autocommit=True) as stranger:
            async with sagas.open(url, [kind], lease=60) as store:
                work = [
                    asyncio.create_task(surely_ended(store, kind, f"k{number}"))
                    for number in range(40)
                ]
                for _ in range(4):
                    await asyncio.sleep(0.05)
                    stranger.execute(
                        "SELECT pg_terminate_backend(pid) FROM pg_stat_activity WHERE datname ="
                        " current_database() AND pid <> pg_backend_pid()"
                    )
                assert all(end.ok for end in await asyncio.gather(*work))

    run(main())
    assert len(records.read(url).sagas) == 40


def test_a_stranger_locks_a_table(url: str) -> None:
    """It lasts ten seconds: nothing is lost while no row can be written; a lease that expires in
    the meantime costs only time.
    """
    kind = pair()

    async def main() -> None:
        async with sagas.open(url, [kind], lease=1.5) as store:
            assert (await ended(store, kind, "before")).ok
            with psycopg.connect(url) as stranger:
                stranger.execute("LOCK TABLE sagas.attempts, sagas.nodes IN ACCESS EXCLUSIVE MODE")
                work = asyncio.create_task(surely_ended(store, kind, "meanwhile"))
                await asyncio.sleep(10.0)
                assert not work.done()
                stranger.rollback()
            assert (await work).ok

    run(main())


def starved() -> float:
    """Return for how many seconds this process's threads were ready and had no processor."""
    total = 0
    for thread in pathlib.Path("/proc/self/task").iterdir():
        with contextlib.suppress(OSError):
            total += int((thread / "schedstat").read_text().split()[1])
    return total / 1e9


class Turns:
    """The longest turn of the event loop, without the time that other processes had the
    processors.
    """

    def __init__(self) -> None:
        self.longest = 0.0

    async def __aenter__(self) -> Turns:
        self._job = asyncio.create_task(self._look())
        return self

    async def _look(self) -> None:
        last = time.monotonic() - starved()
        while True:
            await asyncio.sleep(0.01)
            now = time.monotonic() - starved()
            self.longest, last = max(self.longest, now - last), now

    async def __aexit__(self, *_: object) -> None:
        self._job.cancel()


def waits_in(url: str) -> bool:
    """Return whether a statement waits for a lock in this database."""
    text = (
        "SELECT 1 FROM pg_stat_activity "
        "WHERE datname = current_database() AND wait_event_type = 'Lock'"
    )
    with psycopg.connect(url) as link:
        return bool(link.execute(text).fetchall())


READS: dict[str, Callable[[sagas.Store], Awaitable[Any]]] = {
    "get": lambda store: store.get("k"),
    "list": lambda store: store.list(),
    "log": lambda store: store.log("k"),
    "plan": lambda store: store.plan("k"),
    "draw": lambda store: store.draw("k"),
    "attention": lambda store: store.attention(),
    "wait": lambda store: store.wait("other's"),
    "audit": lambda store: store.audit(),
    "log of a run": lambda store: sagas.Run(store, "k").log(),
    "plan of a run": lambda store: sagas.Run(store, "k").plan(),
}
"""All reads."""
FREE = {"attempts": ["audit"], "suspensions": ["audit", "draw"]}
"""A read that does not wait for a locked table, and starts a program, which blocks the loop for a
while.
"""


@pytest.mark.parametrize("table", ["sagas", "event_log", "attempts", "suspensions", "definitions"])
def test_reads_do_not_block_the_loop(url: str, table: str) -> None:
    """Another program locks a table for longer than a lease.

    The loop continues while the store reads, the node keeps its lease, and each reply comes once
    the table is free.
    """
    kind, event_names = pair(), list[str]()

    async def main() -> None:
        async with sagas.open(url, [kind], node="other") as other:
            assert (await ended(other, kind, "other's")).ok
        lease, collect = 1.5, lambda event: event_names.append(event.name)
        async with sagas.open(url, [kind], lease=lease, on_event=collect) as store:
            assert (await ended(store, kind, "k")).ok
            await until(lambda: "shard_closed" in event_names)
            node = store._coordinator.store.lease  # type: ignore[attr-defined]
            with psycopg.connect(url) as stranger:
                stranger.execute(f"LOCK TABLE sagas.{table} IN ACCESS EXCLUSIVE MODE")
                free = FREE.get(table, ())
                reads = {name: ask for name, ask in READS.items() if name not in free}
                async with Turns() as turns:
                    answers = asyncio.gather(*(ask(store) for ask in reads.values()))
                    await until(lambda: asyncio.to_thread(waits_in, url))
                    since = node._until
                    await until(lambda: node._until > since + lease + 0.5)
                    assert store._holds() and not answers.done()
                assert turns.longest < lease
                stranger.rollback()
                results = dict(zip(reads, await answers))
        assert results["get"] and {summary.key for summary in results["list"]} == {"k", "other's"}
        assert results["log"] == results["log of a run"] and results["wait"].ok
        assert results["plan"] is results["plan of a run"] is None
        assert results["attention"] == []

    run(main())
    assert "lease_expired" not in event_names and "commit_failed" not in event_names


def test_the_ends_of_many_sagas_at_once(postgresql: Server, url: str) -> None:
    """They ended at another node: each waiting caller gets the end of its own, also if connections
    are cut in the meantime; a saga that is deleted then is gone.
    """
    kind = simple(echo)
    keys = [f"k{number}" for number in range(600)]

    async def main() -> None:
        async with sagas.open(url, [kind], node="other") as other:
            await asyncio.gather(*(ended(other, kind, key, {"of": key}) for key in keys))
        with relaying(postgresql.port, 3) as relay:
            location = postgresql.url(url.rpartition("/")[2], port=relay.port)
            async with sagas.open(location, [kind], lease=60) as store:
                for chance in (0.0, 0.2):
                    relay.before = relay.after = chance
                    ends = await asyncio.gather(*(store.wait(key) for key in keys))
                    assert [end.results["a"] for end in ends] == [{"of": key} for key in keys]
                relay.before = relay.after = 0.0
                row = await store._coordinator.store.find("k0")
                assert row
                with pytest.raises(sagas.NoSuchSaga, match="'k0' was deleted while"):
                    await store._coordinator.store.known(row._replace(id=row.id + 990))
                waits = [asyncio.ensure_future(store.wait(key)) for key in keys]
                await asyncio.sleep(0)
            over = await asyncio.wait_for(asyncio.gather(*waits, return_exceptions=True), 60)
            assert {type(error) for error in over} <= {
                sagas.SagaResult,
                sagas.Closed,
                sagas.StoreUnavailable,
            }

    run(main())


async def echo(task: Task) -> Any:
    """Return the input of the step."""
    return task.input


def test_an_audit_in_the_background_blocks_nothing(url: str) -> None:
    """A finished log is to be audited, and another program locks the table of its lines for longer
    than a lease: the loop continues, the lease is kept, and the log is closed once the table is
    free.
    """
    kind, event_names = pair(), list[str]()

    def collect(event: sagas.Event) -> None:
        event_names.append(event.name)

    async def main() -> None:
        async with sagas.open(url, [kind]) as store:
            assert (await ended(store, kind, "k")).ok
        lease = 1.5
        with psycopg.connect(url) as stranger:
            stranger.execute("LOCK TABLE sagas.event_log IN ACCESS EXCLUSIVE MODE")
            async with Turns() as turns:
                async with sagas.open(url, [kind], lease=lease, on_event=collect) as store:
                    node = store._coordinator.store.lease  # type: ignore[attr-defined]
                    await until(lambda: asyncio.to_thread(waits_in, url))
                    since = node._until
                    await until(lambda: node._until > since + lease + 0.5)
                    assert not event_names and turns.longest < lease
                    stranger.rollback()
                    await until(lambda: "shard_closed" in event_names)

    run(main())
    assert event_names == ["shard_closed"]


# -- clocks


def test_clocks_a_minute_apart_that_jump(url: str) -> None:
    """Two nodes' clocks are two minutes apart and jump by a minute at each call: no live node's log
    is taken, and a log that is passed on continues.
    """
    clocks = {"late": -60.0, "early": 60.0}
    calls: Counter[str] = Counter()
    by: dict[str, str] = {}
    gate = asyncio.Event()

    def kind_of(name: str) -> sagas.Saga:
        kind = sagas.Saga("clocked")

        @kind.step(tries=3, backoff=QUICK)
        async def a(task: Task) -> str:
            clocks[name] += 60.0 if calls.total() % 2 else -60.0
            calls[task.attempt_id] += 1
            assert by.setdefault(task.key, name) == name
            if task.attempt < 3:
                raise sagas.Retry("again")
            return name

        @kind.step(needs=[a])
        async def b(task: Task) -> str:
            calls[task.attempt_id] += 1
            await gate.wait()
            return name

        return kind

    async def main() -> None:
        late, early = kind_of("late"), kind_of("early")
        async with sagas.open(
            url,
            [early],
            node="early",
            settings=sagas.Settings(clock=lambda: time.time() + clocks["early"]),
            lease=1.5,
            concurrency=64,
        ) as other:
            async with sagas.open(
                url,
                [late],
                node="late",
                settings=sagas.Settings(clock=lambda: time.time() + clocks["late"]),
                lease=1.5,
                concurrency=64,
                shutdown_timeout=0.0,
            ) as store:
                await asyncio.gather(
                    *(store.start(late, f"l{number}") for number in range(10)),
                    *(other.start(early, f"e{number}") for number in range(10)),
                )
                await until(lambda: sum("-b-run-" in token for token in calls) == 20)
                assert set(calls.values()) == {1}
            gate.set()
            ends = await asyncio.gather(
                *(other.wait(f"{letter}{number}") for letter in "le" for number in range(10))
            )
            assert {(end.results["a"], end.results["b"]) for end in ends} == {
                ("late", "early"),
                ("early", "early"),
            }
            assert all(verdict.startswith("yes") for verdict in (await other.audit()).values())

    run(main())
    assert all(count == 1 or "-b-run-" in token for token, count in calls.items())
