"""Failures of the database's server: a standby takes over, its connections are used up, its disk is
full.
"""

from __future__ import annotations

import asyncio
import contextlib
import os
import pathlib
import secrets
import shlex
import shutil
import socket
import subprocess
import tempfile
from collections import Counter, defaultdict
from collections.abc import AsyncIterator, Callable, Coroutine, Iterator, Sequence
from typing import Any, LiteralString

import fleet
import psycopg
import pytest
from cases import Task, ended, run, simple, surely_ended, until
from judge import judge
from moments import Node
from server import Pair, Server, free_port, paired, serving
from serving import LONG, served
from witness import Witness, witness_at

import sagas
from sagas.base import program
from sagas.cli import store_command
from sagas.storage import admin, trends
from sagas.storage.postgresql import connections


def test_a_synchronous_standby_takes_over(tmp_path: pathlib.Path) -> None:
    """The primary fails while sagas are in progress, and its standby is promoted: no acknowledged
    result is lost, by witness, verifier and record.
    """
    record = tmp_path / "record"

    async def main(url: str) -> None:
        node = Node(Witness(str(tmp_path / "socket")), url, gates=True)
        async with sagas.open(url, node.sagas, concurrency=64, lease=60, record=record) as store:
            work = [asyncio.create_task(node.run_saga(store, number)) for number in range(40)]
            await until(lambda: len(node.called) == 40)
            # some are over, some at their second step, some at their first
            for number in range(20):
                node.gates[f"k{number}", "a"].set()
            for number in range(10):
                node.gates[f"k{number}", "b"].set()
            await until(lambda: sum(coroutine.done() for coroutine in work) == 10)
            await asyncio.to_thread(pair.fail_over)
            node.open_all()
            await asyncio.gather(*work)
            # this program was not killed
            assert Counter(node.called) == {
                (f"k{number}", step): 1 for number in range(40) for step in "ab"
            }

    with paired(synchronous=True) as pair:
        url = pair.url(pair.primary.create().rpartition("/")[2])
        with witness_at(tmp_path / "socket", tmp_path / "notes"):
            run(main(url))
        verdict = judge(url, tmp_path / "notes", 40)
        assert not verdict.faults, verdict.faults[:5]
        assert fleet.judged(url, [record], sync=True)[1] == []
        assert "\nmoved " in "".join(fleet.texts(url, [record], sync=True))


def test_large_values_go_to_the_server_that_takes_writes() -> None:
    """The standby comes first in the address; then again after it has taken over."""
    with paired(synchronous=False) as pair:
        hosts = f"127.0.0.1:{pair.standby.port},127.0.0.1:{pair.primary.port}"
        with contextlib.closing(
            sagas.PostgresBlobStore(f"postgresql://owner@{hosts}/postgres")
        ) as blobs:
            blobs.put("a", b"one")
            pair.hold_back()
            pair.fail_over()
            assert blobs.get("a") == b"one"
            blobs.put("b", b"two")
            assert blobs.get("b") == b"two"


@pytest.mark.parametrize("room", [1, 1000])
def test_an_asynchronous_standby_may_lack_the_last_commits(
    monkeypatch: pytest.MonkeyPatch, tmp_path: pathlib.Path, room: int
) -> None:
    """A saga that the standby has goes back to its state there, and its step is called again with
    its token; a saga that it lacks does not exist, and is started again. The store continues, also
    if a whole log is missing, and assigns no saga another's tokens. The node's record is allowed,
    and has what was acknowledged and lost; it is not allowed if a synchronous standby is claimed.
    """
    record = tmp_path / "record"
    monkeypatch.setattr("sagas.definition.registry.SHARD_CAPACITY", room)
    calls: Counter[tuple[str, str]] = Counter()
    keys_of: dict[str, set[str]] = defaultdict(set)
    late = asyncio.Event()
    held = HeldAudits(tmp_path) if room == 1 else None
    if held:  # so that no full shard is closed before the standby takes over
        monkeypatch.setenv("SAGAS_PROGRAM", str(held.program))
    kind = sagas.Saga("pair")

    @kind.step
    async def a(task: Task) -> str:
        calls[task.key, "a"] += 1
        keys_of[task.idempotency_key].add(task.key)
        if task.key == "there":
            await late.wait()
        return task.idempotency_key

    @kind.step(needs=[a])
    async def b(task: Task) -> str:
        return task.result_of(a)

    async def main(url: str) -> None:
        async with sagas.open(url, [kind], lease=60, record=record) as store:
            await store.start(kind, "there")
            await until(lambda: calls["there", "a"])
            await asyncio.to_thread(pair.hold_back)
            late.set()
            before = await store.wait("there")
            assert before.ok and (await ended(store, kind, "lacking")).ok
            if held:
                await until(held.request_file.exists)
            await asyncio.to_thread(pair.fail_over)
            if held:
                await asyncio.to_thread(held.let_go)
            after = await store.wait("there")
            assert after == before and calls["there", "a"] == 2
            assert (await started_again(store, kind, "another")).ok
            again = await started_again(store, kind, "lacking")
            assert again.ok and calls["lacking", "a"] == 2
            assert all(
                (
                    await asyncio.gather(
                        *(ended(store, kind, f"new-{number}") for number in range(5))
                    )
                )
            )
            assert all(verdict.startswith("yes") for verdict in (await store.audit()).values())
            assert all(len(keys) == 1 for keys in keys_of.values()), keys_of

    with paired(synchronous=False) as pair:
        url = pair.url(pair.primary.create().rpartition("/")[2])
        run(main(url))
        check_losses(url, record, room)


def check_losses(url: str, record: pathlib.Path, room: int) -> None:
    """Check that by its record, the saga `there` continues after its first commit, and `lacking`
    starts again.
    """
    shards, faults = fleet.judged(url, [record])
    assert all(shard.good for shard in shards) and len(faults) == sum(
        len(shard.losses) for shard in shards
    )
    lost = [
        (loss.chunk_count, {telling.edge for telling in loss.acknowledgements})
        for shard in shards
        for loss in shard.losses
    ]
    assert lost == [(1, {"call", "wake"})] + [(0, {"call", "wake"})] * (room == 1)
    assert fleet.reasons(fleet.judged(url, [record], sync=True)[1]) == {"FewerThanShipped"}


def test_a_log_that_is_about_to_be_closed(
    monkeypatch: pytest.MonkeyPatch, tmp_path: pathlib.Path
) -> None:
    """An asynchronous standby takes over while a finished log is audited.

    The saga in it, which is open on that server, continues; the log is closed once that saga is
    over there too.
    """
    monkeypatch.setattr("sagas.definition.registry.SHARD_CAPACITY", 1)
    held = HeldAudits(tmp_path)
    monkeypatch.setenv("SAGAS_PROGRAM", str(held.program))
    calls: list[str] = []
    may_end = asyncio.Event()
    kind = sagas.Saga("one")

    @kind.step
    async def a(task: Task) -> None:
        calls.append(task.key)
        await may_end.wait()

    async def main(url: str) -> None:
        async with sagas.open(url, [kind], lease=60) as store:
            await store.start(kind, "there")
            await until(lambda: calls)
            await asyncio.to_thread(pair.hold_back)
            may_end.set()
            assert (await store.wait("there")).ok
            await until(held.request_file.exists)
            await asyncio.to_thread(pair.fail_over)
            await asyncio.to_thread(held.let_go)
            assert (await store.wait("there")).ok and calls == ["there"] * 2
            while [row async for row in rows(url, "SELECT closed FROM sagas.shards")] != [(1,)]:
                await asyncio.sleep(0.02)

    with paired(synchronous=False) as pair:
        run(main(pair.url(pair.primary.create().rpartition("/")[2])))


@pytest.mark.parametrize("bounds", [{"fleet_concurrency": 2}, {"rate_limit": (100, 1)}], ids=str)
def test_a_limit_holds_at_an_asynchronous_standby(bounds: dict[str, Any]) -> None:
    """Its slots were made on the former server, and the new one lacks them: they are made again,
    without a restart of a node.
    """
    begun = Counter[str]()
    highest = 0

    async def step(task: Task) -> str:
        nonlocal highest
        begun[task.key] += 1
        highest = max(highest, sum(begun.values()) - len(ends))
        await asyncio.sleep(0.01)
        ends.append(task.key)
        return "done"

    kind, ends = simple(step, **bounds), list[str]()

    async def main(url: str) -> None:
        async with sagas.open(url, [kind], lease=60) as store:
            await asyncio.to_thread(pair.hold_back)
            assert (await ended(store, kind, "before")).ok
            await asyncio.to_thread(pair.fail_over)
            async with asyncio.timeout(60):
                keys = [f"k{number}" for number in range(6)]
                assert all(await asyncio.gather(*(started_again(store, kind, key) for key in keys)))
        assert highest <= bounds.get("fleet_concurrency", 6)

    with paired(synchronous=False) as pair:
        run(main(pair.url(pair.primary.create().rpartition("/")[2])))


class HeldAudits:
    """The program, whose audits wait until they are released."""

    def __init__(self, folder: pathlib.Path) -> None:
        self.program, self.request_file = folder / "held", folder / "asked"
        self._gate, self._free = folder / "gate", folder / "free"
        os.mkfifo(self._gate)
        free, requested, gate = (
            shlex.quote(str(path)) for path in (self._free, self.request_file, self._gate)
        )
        self.program.write_text(
            "#!/bin/sh\n"
            f'if [ "$1" = audit ] && ! [ -e {free} ]; then : >{requested}; read -r _ <{gate}; fi\n'
            f'exec {shlex.quote(program.path())} "$@"\n'
        )
        self.program.chmod(0o755)

    def let_go(self) -> None:
        """Let the waiting audit continue; later ones do not wait."""
        self._free.touch()
        self._gate.write_text("on\n")


async def rows(url: str, text: LiteralString) -> AsyncIterator[tuple[object, ...]]:
    """Return the rows of a statement."""
    async with await psycopg.AsyncConnection.connect(url) as link:
        for row in await (await link.execute(text)).fetchall():
            yield row


async def started_again(store: sagas.Store, kind: sagas.Saga, key: str) -> sagas.SagaResult:
    """Start it until the store can be written, and wait for its end."""
    while True:
        try:
            return await ended(store, kind, key)
        except (sagas.StoreUnavailable, sagas.NoSuchSaga):
            await asyncio.sleep(0.02)


class Parted:
    """A saga of three steps, and a server and its standby, which takes over while the server still
    runs. Two steps wait for their gates; the second is inside, by an async function or a plain one.
    """

    def __init__(self, pair: Pair, in_thread: bool) -> None:
        self.pair, self.database = pair, pair.primary.create().rpartition("/")[2]
        self.gates: dict[str, asyncio.Event] = defaultdict(asyncio.Event)
        self.calls: list[str] = []
        self.event_names: list[str] = []
        self.ask(pair.primary, "CREATE TABLE book(key text)")
        self.kind, text = sagas.Saga("booking"), "INSERT INTO public.book VALUES (%s)"

        async def passes(step: str) -> None:
            await self.gates[step].wait()

        @self.kind.step
        async def a(task: Task) -> None:
            self.calls.append("a")
            await passes("a")

        async def b(task: Task) -> None:
            self.calls.append("b")
            await task.connection.execute(text, (task.key,))
            await passes("b")

        def b_in_thread(task: Task) -> None:
            self.calls.append("b")
            task.connection.execute(text, (task.key,))
            asyncio.run_coroutine_threadsafe(passes("b"), self.loop).result()

        step_b = self.kind.step(name="b", transaction=True, needs=[a])
        needed = step_b(b_in_thread if in_thread else b)

        @self.kind.step(needs=[needed])
        async def c(task: Task) -> None:
            self.calls.append("c")

    def ask(self, server: Server, text: str) -> list[tuple[Any, ...]]:
        """Execute a statement at one of the two."""
        with psycopg.connect(server.url(self.database), autocommit=True) as link:
            cursor = link.execute(text)  # type: ignore[arg-type]
            return cursor.fetchall() if cursor.description else []

    def part(self) -> None:
        """Let the standby take over: existing connections stay at the primary, and new ones go to
        the other server.
        """
        self.pair.hold_back()
        self.pair.standby.promote()
        self.ask(
            self.pair.primary,
            f"ALTER DATABASE {self.database} SET default_transaction_read_only = on",
        )

    def end_sessions(self, but: Sequence[int] = ()) -> None:
        """Let the primary end the sessions of the node."""
        kept = f"pid <> pg_backend_pid() AND pid <> ALL(ARRAY{[*but]}::int[])"
        self.ask(
            self.pair.primary,
            (
                "SELECT pg_terminate_backend(pid) FROM pg_stat_activity WHERE datname ="
                f" current_database() AND {kept}"
            ),
        )

    async def play(self, moment: Callable[[Parted], Coroutine[Any, Any, None]]) -> None:
        """Run a node over both."""
        self.loop = asyncio.get_running_loop()
        async with sagas.open(
            self.pair.url(self.database),
            [self.kind],
            lease=600,
            on_event=lambda event: self.event_names.append(event.name),
        ) as store:
            going = await store.start(self.kind, "k")
            await moment(self)
            assert (await going.wait()).ok
            assert all(verdict.startswith("yes") for verdict in (await store.audit()).values())
        assert self.ask(self.pair.standby, "SELECT key FROM book") == [("k",)]
        assert self.calls.count("c") == 1 and self.calls[-1] == "c" and self.calls.count("b") >= 2


@pytest.mark.parametrize("in_thread", [False, True])
def test_a_step_inside_ends_at_a_server_that_took_over(in_thread: bool) -> None:
    """Its node does not know that server yet, which lacks the node's last writes: nothing is stored
    there before the node has recovered from it.
    """

    async def moment(parted: Parted) -> None:
        await until(lambda: parted.calls)
        await asyncio.to_thread(parted.part)
        for step in "ab":
            parted.gates[step].set()
        await until(
            lambda: "commit_failed" in parted.event_names or "saga_ended" in parted.event_names
        )
        assert (
            parted.ask(
                parted.pair.standby,
                "SELECT key FROM book UNION ALL SELECT value FROM sagas.attempts",
            )
            == []
        )
        parted.end_sessions()

    with paired(synchronous=False) as pair:
        parted = Parted(pair, in_thread)
        run(parted.play(moment))
        assert parted.calls.count("a") == 2


def test_a_lone_step_inside_ends_at_the_former_server() -> None:
    """Its commit is done there when its node has recovered from the new server, which does not have
    it: it is called again there.
    """
    with paired(synchronous=False) as pair:
        parted = Parted(pair, in_thread=False)
        run(parted.play(ends_at_the_one_before))
        assert parted.calls.count("a") == 1


async def ends_at_the_one_before(parted: Parted) -> None:
    """Let the commit wait for a lock while the node changes servers; the former server ends once it
    is done.
    """
    parted.gates["a"].set()
    await until(lambda: "b" in parted.calls)
    await asyncio.to_thread(parted.part)
    with psycopg.connect(
        parted.pair.primary.url(parted.database), options="-c default_transaction_read_only=off"
    ) as stranger:
        stranger.execute("LOCK TABLE sagas.attempts IN EXCLUSIVE MODE")
        parted.gates["b"].set()
        waits = (
            "SELECT pid FROM pg_stat_activity WHERE datname = current_database() AND"
            " wait_event_type = 'Lock'"
        )
        ((process,),) = await until(lambda: parted.ask(parted.pair.primary, waits))
        parted.end_sessions(but=[process, stranger.info.backend_pid])
        await until(lambda: "lease_expired" in parted.event_names)
    await until(lambda: parted.ask(parted.pair.primary, "SELECT key FROM book"))
    await asyncio.to_thread(parted.pair.primary.stop)


class Lacking:
    """Two sagas in one log; the standby lacks the second one when it takes over.

    Their step is inside, one at a time: the second one's starts once the first one's is over.
    """

    def __init__(self, pair: Pair, in_thread: bool) -> None:
        self.pair, self.database = pair, pair.primary.create().rpartition("/")[2]
        self.gates: dict[str, asyncio.Event] = defaultdict(asyncio.Event)
        self.calls: list[str] = []
        self.over: list[str] = []
        self.lost: list[str] = []
        self.names: list[str] = []
        self.kind, text = sagas.Saga("booking"), "INSERT INTO public.book VALUES (%s)"

        async def passes(key: str) -> None:
            await self.gates[key].wait()

        async def book(task: Task) -> None:
            if task.key == "there":
                self.calls.append(task.key)
                await passes(task.key)
            await task.connection.execute(text, (task.key,))
            if task.key == "lacking":
                self.calls.append(task.key)
                await passes(task.key)
                self.over.append(task.key)

        def book_in_thread(task: Task) -> None:
            if task.key == "there":
                self.calls.append(task.key)
                asyncio.run_coroutine_threadsafe(passes(task.key), self.loop).result()
            task.connection.execute(text, (task.key,))
            if task.key == "lacking":
                self.calls.append(task.key)
                asyncio.run_coroutine_threadsafe(passes(task.key), self.loop).result()
                self.over.append(task.key)

        quick = sagas.Backoff(initial=0.01, maximum=0.02)
        step = self.kind.step(name="book", transaction=True, concurrency=1, backoff=quick)
        step(book_in_thread if in_thread else book)
        self.ask(pair.primary, "CREATE TABLE book(key text)")

    def ask(self, server: Server, text: str) -> list[tuple[Any, ...]]:
        """Execute a statement at one of the two."""
        with psycopg.connect(server.url(self.database), autocommit=True) as link:
            cursor = link.execute(text.encode())
            return cursor.fetchall() if cursor.description else []

    def heard(self, event: sagas.Event) -> None:
        """Note an event of the node."""
        self.names.append(event.name)
        if event.name == "commit_failed" and event.key:
            self.lost.append(event.key)

    def booked(self) -> list[str]:
        """Return the effects at the new server."""
        return [key for (key,) in self.ask(self.pair.standby, "SELECT key FROM book ORDER BY key")]

    def rests(self) -> bool:
        """Return whether nothing is in progress at the new server."""
        busy = "datname = current_database() AND pid <> pg_backend_pid() AND state <> 'idle'"
        return not self.ask(self.pair.standby, f"SELECT 1 FROM pg_stat_activity WHERE {busy}")

    def is_decided(self, taken_up: bool, in_thread: bool) -> bool:
        """Return whether the outcome of the second one's step is known."""
        over = taken_up and (bool(self.over) or not in_thread) and self.rests()
        return bool("lacking" in self.booked() or self.lost or over)

    async def part(self, store: sagas.Store) -> None:
        """Start both, and let the standby take over, which has the log and the first one
        of them.
        """
        self.loop = asyncio.get_running_loop()
        await store.start(self.kind, "there")
        await until(lambda: self.calls == ["there"], 60)
        await asyncio.to_thread(self.pair.hold_back)
        await store.start(self.kind, "lacking")
        await until(
            lambda: [attempt.waits for attempt in store.active_attempts("lacking")]
            == ["concurrency"],
            60,
        )
        await asyncio.to_thread(self.pair.standby.promote)
        text = f"ALTER DATABASE {self.database} SET default_transaction_read_only = on"
        self.ask(self.pair.primary, text)

    async def goes_over(self) -> None:
        """Let the node find the other server, where the second saga's step starts."""
        mine = "datname = current_database() AND pid <> pg_backend_pid()"
        text = f"SELECT pg_terminate_backend(pid) FROM pg_stat_activity WHERE {mine}"
        self.ask(self.pair.primary, text)
        await until(lambda: "lease_expired" in self.names, 60)
        self.gates["there"].set()
        await until(lambda: "lacking" in self.calls, 60)


@pytest.mark.parametrize("taken_up", [False, True])
@pytest.mark.parametrize("in_thread", [False, True])
def test_a_step_inside_of_a_saga_that_the_new_server_lacks(in_thread: bool, taken_up: bool) -> None:
    """Its node knows that another server has taken over, and loads the log from there only then, or
    in the meantime: nothing of a saga is written that the server lacks.
    """

    async def main(lacking: Lacking) -> None:
        url, hook = lacking.pair.url(lacking.database), lacking.heard
        async with sagas.open(
            url, [lacking.kind], lease=600, on_event=hook, shutdown_timeout=1
        ) as store:
            await lacking.part(store)
            held = await psycopg.AsyncConnection.connect(lacking.pair.standby.url(lacking.database))
            async with held:
                await held.execute("LOCK TABLE sagas.shards IN SHARE MODE")  # none is loaded
                await lacking.goes_over()
                if taken_up:
                    await held.commit()
                    await until(lambda: not store.active_attempts("lacking"), 60)
                lacking.gates["lacking"].set()
                await until(lambda: lacking.is_decided(taken_up, in_thread), 60)
                assert "lacking" not in lacking.booked()
            assert (await store.wait("there")).ok
            assert (await started_again(store, lacking.kind, "lacking")).ok
        assert lacking.booked() == ["lacking", "there"]

    with paired(synchronous=False) as pair:
        run(main(Lacking(pair, in_thread)))


def test_a_standby_that_has_no_tables(caplog: pytest.LogCaptureFixture) -> None:
    """It was copied before the store was made, and takes over: the node makes its tables there, and
    runs sagas that are started from then on.
    """
    kind = simple(lambda task: "done")

    async def main(url: str) -> None:
        async with sagas.open(url, [kind], lease=600) as store:
            assert (await ended(store, kind, "before")).ok
            await asyncio.to_thread(pair.fail_over)
            async with asyncio.timeout(120):
                assert (await surely_ended(store, kind, "after")).ok
            assert await store.get("before") is None and (await store.get("after")) is not None

    with paired(synchronous=False) as pair:
        primary = pair.primary.create()
        pair.hold_back()
        run(main(pair.url(primary.rpartition("/")[2])))
    assert "made the tables, which this server did not have" in caplog.text


def test_tables_that_are_gone(url: str, caplog: pytest.LogCaptureFixture) -> None:
    """At the server that had them nothing is made: the node reports that, once."""
    kind = simple(lambda task: "done")

    async def main() -> None:
        async with sagas.open(url, [kind], lease=600) as store:
            assert (await ended(store, kind, "k")).ok
            with psycopg.connect(url, autocommit=True) as link:
                link.execute("DROP SCHEMA sagas CASCADE")
                with pytest.raises(sagas.InvalidStore, match="the tables of the store are gone"):
                    await store.serve()
                await asyncio.sleep(2.5)  # further heartbeats
                assert link.execute("SELECT to_regclass('sagas.sagas')").fetchone() == (None,)

    run(main())
    assert caplog.text.count("the tables of the store are gone") == 1


def test_a_program_ends_if_its_tables_are_gone(url: str, tmp_path: pathlib.Path) -> None:
    """A program without async does, and so does the service."""
    with served(tmp_path, store=url) as service:
        with sagas.open_sync(url, [simple(lambda task: "done")]) as store:
            with psycopg.connect(url, autocommit=True) as link:
                link.execute("DROP SCHEMA sagas CASCADE")
            with pytest.raises(sagas.InvalidStore, match="the tables of the store are gone"):
                store.serve()
        assert service.process and service.process.wait(LONG) == 4
        assert "sagas serve: postgresql://" in service.log_text()
        assert "the tables of the store are gone" in service.log_text().splitlines()[-1]


@pytest.mark.parametrize("is_over", [True, False])
def test_a_start_that_the_standby_has_as_taken(is_over: bool) -> None:
    """A node has taken a client's start, and its saga has started, or is over, which the standby
    does not know: there the start is still that node's, which starts it again.
    """
    calls = Counter[str]()
    gate = asyncio.Event()

    async def step(task: Task) -> str:
        calls[task.key] += 1
        await gate.wait()
        return "done"

    kind = simple(step)

    async def main(url: str, primary: str) -> None:
        stranger = await psycopg.AsyncConnection.connect(primary)
        async with sagas.open(url, [kind], lease=600) as store, sagas.Client(url) as client:
            assert store._holds()
            async with stranger:
                await stranger.execute("LOCK TABLE sagas.event_log IN EXCLUSIVE MODE")
                going = await client.start(kind, "k")
                text = "SELECT 1 FROM sagas.pending_starts WHERE node IS NOT NULL"
                async with asyncio.timeout(60):
                    while not await (await stranger.execute(text)).fetchall():
                        await asyncio.sleep(0.01)
                await asyncio.to_thread(pair.hold_back)
            await until(lambda: calls["k"] == 1)
            if is_over:
                gate.set()
                assert (await going.wait()).ok
            await asyncio.to_thread(pair.fail_over)
            await until(lambda: calls["k"] == 2, 30)
            gate.set()
            assert (await going.wait()).ok

    with paired(synchronous=False) as pair:
        primary = pair.primary.create()
        run(main(pair.url(primary.rpartition("/")[2]), primary))


def test_all_connections_are_taken() -> None:
    """Other programs have all that the server has: open sagas continue or wait, an opening is
    refused by name, and no function is called twice.
    """
    calls: Counter[str] = Counter()

    async def step(task: Task) -> str:
        calls[task.attempt_id] += 1
        return "done"

    kind = simple(step)

    async def main(url: str) -> None:
        async with sagas.open(url, [kind], lease=60) as store:
            assert (await ended(store, kind, "before")).ok
            with contextlib.ExitStack() as strangers:
                with contextlib.suppress(psycopg.OperationalError):
                    while True:
                        strangers.enter_context(psycopg.connect(url))
                work = [
                    asyncio.create_task(started_again(store, kind, f"k{number}"))
                    for number in range(10)
                ]
                with pytest.raises(sagas.StoreUnavailable):
                    async with sagas.open(url, [kind]):
                        pass
                with pytest.raises(sagas.StoreUnavailable):
                    async with sagas.Client(url):
                        pass
            assert all(end.ok for end in await asyncio.gather(*work))
            async with sagas.Client(url) as client:
                assert (await client.wait("k1")).ok

    with serving(
        {"max_connections": "12", "superuser_reserved_connections": "0", "max_wal_senders": "0"}
    ) as server:
        run(main(server.create()))
    assert set(calls.values()) == {1} and len(calls) == 11


@contextlib.contextmanager
def small_disk(size: str) -> Iterator[pathlib.Path]:
    """Mount a file system of this test's own, in memory."""
    folder = pathlib.Path(tempfile.mkdtemp(prefix="sagas-disk-", dir="/tmp"))
    try:
        done = subprocess.run(
            ["mount", "-t", "tmpfs", "-o", f"size={size},mode=755", "tmpfs", str(folder)],
            capture_output=True,
            text=True,
            check=False,
        )
        if done.returncode:
            pytest.fail(
                "no file system can be mounted: run the tests as root, in a container with"
                f" --cap-add SYS_ADMIN ({done.stderr.strip()})"
            )
        try:
            yield folder
        finally:
            subprocess.run(["umount", "-l", str(folder)], check=True)
    finally:
        folder.rmdir()


def fill(path: pathlib.Path) -> None:
    """Write a file until the disk is full."""
    with open(path, "wb", buffering=0) as file:
        block = bytes(1 << 16)
        while block:
            try:
                file.write(block)
            except OSError:
                block = block[: len(block) // 2]


def test_the_databases_disk_is_full() -> None:
    """`start` raises StoreUnavailable and nothing was started; results wait for space; this program
    calls no function twice.
    """
    calls: Counter[str] = Counter()
    gate = asyncio.Event()
    large = [secrets.token_hex(20_000) for _ in range(20)]

    async def hold(task: Task) -> str:
        calls[task.attempt_id] += 1
        await gate.wait()
        return large[int(task.key[1:])]

    kind = simple(hold)

    async def main(url: str, ballast: pathlib.Path) -> None:
        async with sagas.open(url, [kind], concurrency=64, lease=600) as store:
            first = [await store.start(kind, f"k{number}") for number in range(19)]
            fill(ballast)
            gate.set()
            with pytest.raises(sagas.StoreUnavailable):
                await store.start(kind, "k19", large)
            ballast.unlink()
            ends = await asyncio.gather(*(run.wait() for run in first))
            assert [end.results["a"] for end in ends] == large[:19]
            assert (await started_again(store, kind, "k19")).ok
            assert all(verdict.startswith("yes") for verdict in (await store.audit()).values())

    with small_disk("160m") as disk, serving(inside=disk) as server:
        run(main(server.create(), disk / "ballast"))
    assert set(calls.values()) == {1} and len(calls) == 20


@pytest.mark.parametrize("by", ["node", "client", "late"])
def test_a_primary_that_was_replaced_and_lives(by: str, monkeypatch: pytest.MonkeyPatch) -> None:
    """Its standby was promoted, and it still reports that it takes writes: its commits wait for
    that standby. Once one took too long, the node uses the server of the highest timeline, and
    keeps to it. `late`: commits wait before there is such a server, and later statements wait for
    the first of them.
    """
    monkeypatch.setattr(connections, "PATIENCE", 2.0)
    monkeypatch.setattr(connections, "LIMITED", "SET statement_timeout = '1s'")
    calls, looks = Counter[str](), list[str]()

    async def step(task: Task) -> str:
        calls[task.key] += 1
        return "done"

    kind = simple(step)

    async def main(url: str, other: str) -> None:
        async with sagas.open(url, [kind], node="n", lease=60) as store, sagas.Client(
            url
        ) as client:
            assert (await ended(store, kind, "before")).ok
            assert (await (await client.start(kind, "too")).wait()).ok
            if by == "late":
                monkeypatch.setattr(
                    connections, "timeline_of_host", noted(looks, connections.timeline_of_host)
                )
                await asyncio.to_thread(pair.hold_back)
                await until(lambda: looks)
            await asyncio.to_thread(pair.standby.promote)
            async with asyncio.timeout(60):
                if by != "client":
                    assert (await started_again(store, kind, "after")).ok
                    assert store._coordinator.store.timeline == "00000002"
                while True:
                    with contextlib.suppress(sagas.StoreUnavailable):
                        run = await client.start(kind, "client's")
                        break
                assert (await run.wait()).ok
            assert [
                row
                async for row in rows(other, "SELECT key FROM sagas.sagas WHERE key = 'client''s'")
            ]
            assert pair.ask("SELECT pg_is_in_recovery()") == [(False,)]
        assert calls["before"] == calls["too"] == 1

    with paired(synchronous=True) as pair:
        name = pair.primary.create().rpartition("/")[2]
        run(main(pair.url(name), pair.standby.url(name)))


def test_a_thread_does_not_wait_for_ever_for_a_standby(monkeypatch: pytest.MonkeyPatch) -> None:
    """The server has no timeout for a commit that waits for one. A node writes its charts so."""
    with paired(synchronous=True) as pair:
        url = pair.primary.create()
        assert store_command.main([url, "init"]) == 0
        pair.hold_back()
        monkeypatch.setattr(connections, "PATIENCE", 3.0)
        monkeypatch.setattr(connections, "GRACE", 1.0)
        with pytest.raises(admin.Trouble, match="no answer in 4 s"):
            with admin.writing(url) as connection:
                trends.add(connection, [(60, 0, "order", "started", 1)], 0.0)


def noted(calls: list[str], function: Callable[..., Any]) -> Callable[..., Any]:
    """Return a function that notes its calls."""

    async def called(*arguments: Any) -> Any:
        calls.append("called")
        return await function(*arguments)

    return called
