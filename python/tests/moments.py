"""Moments at which a store over PostgreSQL must do right, each brought about deliberately.

No strike is random, and a busy machine changes nothing. A moment is two nodes in one process, with
the witness and the verifier of the kill tests. Each call of a step waits for its gate.
"""

from __future__ import annotations

import asyncio
import contextlib
import importlib
import pathlib
import tempfile
from collections import defaultdict
from collections.abc import AsyncIterator, Awaitable, Callable, Iterator, Sequence
from typing import Any

import fleet
import psycopg
from cases import until
from judge import judge
from kills_nodes import BOOK, noted
from relay import Relay, relaying
from server import Server
from witness import Witness, witness_at
from world import ROW, OutsideReader, World, started

import sagas
from sagas.runtime.coordinator import Coordinator
from sagas.storage.postgresql import (
    commit_statement,
    connections,
    node_lease,
    shard_loader,
    step_commit,
    step_connections,
    storage,
)

TAKEOVER = connections.TAKEOVER.format(node="node", last="last_seq(shard)", taken="mine")
COMMIT = b'"event":"commit"'  # as a whole word: there is one row of each kind
"""A part of the statement that stores a step's end."""


class Node(World):
    """The sagas of one node: two steps in a row.

    Each call is reported to the witness and then waits for its gate. Those `inside` are
    transactions, of async functions or, in the second saga, of plain ones.
    """

    def __init__(self, witness: Witness, url: str, gates: bool, inside: bool = False) -> None:
        self.called: list[tuple[str, str]] = []
        self.gates: dict[tuple[str, str], asyncio.Event] = defaultdict(asyncio.Event)
        self.gated, self.loop = gates, asyncio.get_running_loop()
        self.refused: set[tuple[str, str]] = set()
        super().__init__(witness, OutsideReader(url))
        self.sagas = [self.pair(inside), self.plain()] if inside else [self.pair(inside)]

    def pair(self, inside: bool) -> sagas.Saga:
        """Two steps."""

        async def call(task: Any) -> Any:
            self.called.append((task.key, task.step))
            if inside and (task.key, task.step) in self.refused:
                self.refused.discard((task.key, task.step))
                await task.connection.execute(ROW, (*self.row(task, 0.0)[:2], "bad"))
            value = await self.write(task, 0.0) if inside else self.act(task, 0.0)
            await self.passes(task)
            return value

        return in_a_row("pair", call, inside)

    def plain(self) -> sagas.Saga:
        """Two steps inside, each in a thread."""

        def call(task: Any) -> Any:
            self.called.append((task.key, task.step))
            value = self.write_in_thread(task, 0.0)
            asyncio.run_coroutine_threadsafe(self.passes(task), self.loop).result()
            return value

        return in_a_row("plain", call, True)

    async def passes(self, task: Any) -> None:
        """Wait for its gate."""
        if self.gated:
            await self.gates[task.key, task.step].wait()

    def open_all(self) -> None:
        """Open all gates, so that no call waits any more."""
        self.gated = False
        for gate in self.gates.values():
            gate.set()

    async def run_saga(self, store: sagas.Store, number: int, saga: int = 0) -> None:
        """Run a saga to its end; report both replies to the witness once they arrive here."""
        key, note, reader = f"k{number}", self.witness.note, self.reader
        run = await started(store, self.sagas[saga], key, {"i": number})
        note(what="started", key=key, there=reader.phase(key)[0])
        end = await run.wait()
        end_note = {
            "phase": end.phase,
            "states": end.states,
            "results": end.results,
            "cost": end.cost,
            "aborted": end.aborted,
        }
        note(what="over", key=key, there=reader.phase(key)[1], **end_note)


def in_a_row(name: str, call: Callable[[Any], Any], inside: bool) -> sagas.Saga:
    """Return a saga of two steps."""
    saga = sagas.Saga(name)
    saga.step(name="b", transaction=inside, needs=[saga.step(name="a", transaction=inside)(call)])(
        call
    )
    return saga


class Stage:
    """The setting of a moment: a database, its server and a witness.

    The store may be a mutant, which may never get to an end.
    """

    def __init__(self, server: Server, url: str, socket: pathlib.Path, wrong: bool) -> None:
        self.server, self.url, self.wrong = server, url, wrong
        self._socket, self.record = str(socket), socket.parent / "record"
        self.fault_names: set[str] = set()

    @contextlib.asynccontextmanager
    async def node(
        self,
        name: str,
        *,
        gates: bool = True,
        url: str | None = None,
        inside: bool = False,
        room: int | None = None,
    ) -> AsyncIterator[tuple[Node, sagas.Store]]:
        """Open a node until the block ends. `room`: the number of sagas that it puts into a log."""
        node = Node(Witness(self._socket), self.url, gates, inside)
        store = sagas.open(
            url or self.url,
            node.sagas,
            node=name,
            lease=600,
            settings=sagas.Settings(idle=600),
            record=self.record,
        )
        await store.__aenter__()
        if room:
            inner(store).registry.room = room
        try:
            yield node, store
        finally:
            node.open_all()
            with contextlib.suppress(TimeoutError):
                async with asyncio.timeout(3 if self.wrong else 60):
                    await store.close()

    async def over(self, *work: Awaitable[object]) -> None:
        """Wait until the moment is over; a wrong store may not get there."""
        _, late = await asyncio.wait(
            [asyncio.ensure_future(coroutine) for coroutine in work],
            timeout=3 if self.wrong else 60,
        )
        for task in late:
            task.cancel()

    async def happens(self, condition: Callable[[], Any]) -> None:
        """Wait for a condition; with a wrong store it may never hold."""
        with contextlib.suppress(TimeoutError if self.wrong else ()):
            await until(condition, 3 if self.wrong else 60)

    def ask(self, text: str) -> list[tuple[Any, ...]]:
        """Return the rows of a query."""
        with psycopg.connect(self.url, options="-csearch_path=sagas") as link:
            return link.execute(text).fetchall()  # type: ignore[arg-type]

    def waiting(self) -> list[tuple[Any, ...]]:
        """Return the server's processes whose statements wait for a lock."""
        return self.ask(
            "SELECT pid FROM pg_stat_activity WHERE datname = current_database() AND"
            " wait_event_type = 'Lock'"
        )

    async def gone(self, processes: list[tuple[Any, ...]]) -> None:
        """Wait until they have ended, with their work done."""
        await until(lambda: not {*processes} & {*self.ask("SELECT pid FROM pg_stat_activity")})

    def give(self, key: str, name: str) -> None:
        """Make another node the owner of a saga's log.

        The new owner is notified; the former one is not.
        """
        of = "shard = (SELECT id / 1000 FROM sagas.sagas WHERE key = %s)"
        with psycopg.connect(self.url) as link:
            link.execute("SET search_path = sagas")
            taken = link.execute(
                (
                    "WITH mine AS (UPDATE shards SET owner = n.node, epoch = epoch + 1 FROM nodes"
                    f" n WHERE {of} AND n.name = %s RETURNING shard, epoch, n.node) {TAKEOVER}"
                ),
                (key, name),
            )
            assert taken.rowcount == 1
            link.execute("NOTIFY sagas_nodes, 'logs'")

    @contextlib.contextmanager
    def locked(self, table: str) -> Iterator[None]:
        """Lock a table against writes; reads stay allowed."""
        with psycopg.connect(self.url) as link:
            link.execute(f"LOCK TABLE sagas.{table} IN EXCLUSIVE MODE")  # type: ignore[arg-type]
            yield


def inner(store: sagas.Store) -> Coordinator:
    """Return the inside of a store."""
    assert store._coordinator
    return store._coordinator


async def nothing_happens(stage: Stage) -> int:
    """Four sagas in sequence, without any error."""
    async with stage.node("one", gates=False) as (node, store):
        for number in range(4):
            await stage.over(node.run_saga(store, number))
    return 4


async def another_node_has_the_log(stage: Stage) -> int:
    """A node reports into a log that another one has.

    The other node, which calls its steps too, continues both sagas.
    """
    async with stage.node("same") as (first, store):
        work = [asyncio.create_task(first.run_saga(store, number)) for number in range(2)]
        await until(lambda: len(first.called) == 2)
        async with stage.node("same") as (second, other):
            await until(lambda: len(second.called) == 2)
            first.gates["k0", "a"].set()
            await stage.happens(
                lambda: ("k0", "b") in first.called or not inner(store).shards.runners
            )
            for key in ("k0", "k1"):
                second.gates[key, "a"].set()
            await stage.happens(lambda: len(second.called) == 4)
            second.open_all()
            await stage.happens(
                lambda: all(phase for (phase,) in stage.ask("SELECT phase FROM sagas"))
            )
            first.open_all()
            await stage.over(*work)
    return 2


async def in_one_commit(
    stage: Stage, node: Node, store: sagas.Store, keys: Sequence[str], number: int
) -> asyncio.Task[None]:
    """Let the first steps of these sagas, each of another log, end while a further saga is being
    started. Their outcomes are then one commit, after the start.
    """
    with stage.locked("sagas"):
        work = asyncio.create_task(node.run_saga(store, number))
        await until(stage.waiting)
        for key in keys:
            node.gates[key, "a"].set()
        await until(lambda: len(inner(store).commits._queue) == len(keys))
    return work


async def another_node_has_one_of_two_logs(stage: Stage) -> int:
    """A node reports into both by one commit.

    Nothing is written of the log that another node has, and all of the other one.
    """
    async with stage.node("one", room=1) as (first, store), stage.node("two") as (second, _):
        work = [asyncio.create_task(first.run_saga(store, number)) for number in range(2)]
        await until(lambda: len(first.called) == 2)
        stage.give("k1", "two")
        await until(lambda: second.called)
        before = store._commits
        work.append(await in_one_commit(stage, first, store, ("k0", "k1"), 2))
        await until(lambda: ("k0", "b") in first.called)
        await until(lambda: ("k1", "b") in first.called or len(inner(store).shards.runners) == 2)
        assert store._commits == before + 2
        if stage.ask("SELECT 1 FROM attempts JOIN sagas USING (id) WHERE key = 'k1'"):
            stage.fault_names.add("not-its-own")
        second.open_all()
        first.open_all()
        await stage.over(*work)
    return 3


async def another_node_has_the_only_log(stage: Stage) -> int:
    """A node reports into a log that another one has taken over and not written since.

    Its lines join on, so that their primary key refuses nothing; still nothing may be written.
    """
    async with stage.node("one") as (first, store), stage.node("two") as (second, _):
        work = asyncio.create_task(first.run_saga(store, 0))
        await until(lambda: first.called)
        stage.give("k0", "two")
        await until(lambda: second.called)
        first.gates["k0", "a"].set()
        await until(lambda: ("k0", "b") in first.called or not inner(store).shards.runners)
        if stage.ask("SELECT 1 FROM attempts"):
            stage.fault_names.add("not-its-own")
        second.open_all()
        first.open_all()
        await stage.over(work)
    return 1


async def a_commit_of_two_logs_comes_late(stage: Stage) -> int:
    """The server executes it when its connection is cut, and its logs have other epochs, as after a
    takeover by the same node.
    """
    with relaying(stage.server.port) as relay:
        async with stage.node("one", url=through(stage, relay), room=1) as (node, store):
            work = [asyncio.create_task(node.run_saga(store, number)) for number in range(4)]
            await until(lambda: len(node.called) == 4)
            # the statement is prepared after it, and not being parsed when it is cut
            work.append(await in_one_commit(stage, node, store, ("k0", "k1"), 4))
            await until(lambda: len(node.called) == 7)
            with stage.locked("attempts"):
                work.append(await in_one_commit(stage, node, store, ("k2", "k3"), 5))
                late = await until(lambda: not inner(store).commits._queue and stage.waiting())
                relay.before = 1.0
                relay.cut()
                with psycopg.connect(stage.url, options="-csearch_path=sagas") as link:
                    link.execute(
                        "WITH mine AS (UPDATE shards SET epoch = epoch + 1 RETURNING shard, epoch,"
                        f" owner AS node) {TAKEOVER}"
                    )
            await stage.gone(late)
            if stage.ask("SELECT 1 FROM attempts JOIN sagas USING (id) WHERE key IN ('k2', 'k3')"):
                stage.fault_names.add("came-late")
            relay.before = 0.0
            node.open_all()
            await stage.over(*work)
    return 6


async def a_refused_start_comes_late(stage: Stage) -> int:
    """The server executes it when its connection is cut, its log is taken over again, and the
    caller has the reply that nothing was started.
    """
    with relaying(stage.server.port) as relay:
        async with stage.node("one", gates=False, url=through(stage, relay)) as (node, store):
            for number in range(2):
                await node.run_saga(store, number)
            with stage.locked("sagas"):
                start = asyncio.create_task(store.start(node.sagas[0], key="late", input={}))
                late = await until(stage.waiting)
                relay.cut()
                with contextlib.suppress(sagas.StoreUnavailable):
                    await start
                    stage.fault_names.add("not-refused")
                await until(lambda: stage.ask("SELECT epoch FROM shards") > [(1,)])
            await stage.gone(late)
    return 2


async def the_answer_to_a_commit_is_lost(
    stage: Stage, mark: bytes = COMMIT, inside: bool = False
) -> int:
    """The statement that stores a step's end is done, and its connection is cut before
    the reply.
    """
    with relaying(stage.server.port) as relay:
        async with stage.node("one", url=through(stage, relay), inside=inside) as (node, store):
            work = asyncio.create_task(node.run_saga(store, 0))
            await until(lambda: node.called)
            relay.mark = mark
            node.gates["k0", "a"].set()
            await until(lambda: relay.cuts["marked"])
            node.open_all()
            await stage.over(work)
            if not stage.wrong:
                assert node.called == [("k0", "a"), ("k0", "b")]
    return 1


def through(stage: Stage, relay: Relay) -> str:
    """Return the database's address through a relay."""
    return stage.server.url(stage.url.rpartition("/")[2], port=relay.port)


async def the_commit_takes_long(stage: Stage) -> int:
    """No node can write lines while a saga is started, and while its step ends."""
    async with stage.node("one") as (node, store):
        first = asyncio.create_task(node.run_saga(store, 0))
        await until(lambda: node.called)
        with stage.locked("event_log"):
            second = asyncio.create_task(node.run_saga(store, 1))
            node.gates["k0", "a"].set()
            await until(stage.waiting)
            await asyncio.sleep(0.05)  # a reply that came before the commit has arrived by now
        node.open_all()
        await stage.over(first, second)
    return 2


async def two_nodes_start_a_key_at_once(stage: Stage) -> int:
    """Both have looked for it, and neither has written it."""
    return await at_once(stage, looks=True)


async def two_nodes_guess_a_key_at_once(stage: Stage) -> int:
    """Neither has looked for it, nor written it."""
    return await at_once(stage, looks=False)


async def at_once(stage: Stage, looks: bool) -> int:
    """Let two nodes whose starts of one key wait for the same table start it."""
    async with stage.node("one", gates=False) as (first, store), stage.node("two", gates=False) as (
        second,
        other,
    ):
        for node_store in (store, other):
            # so that its next keys are looked for, or are not
            node_store._lookup.guessing.record_start(was_there=looks)
        with stage.locked("sagas"):
            work = [
                asyncio.create_task(first.run_saga(store, 0)),
                asyncio.create_task(second.run_saga(other, 0)),
            ]
            await until(lambda: len(stage.waiting()) == 2)
        await stage.over(*work)
    return 1


async def a_node_lives(stage: Stage) -> int:
    """Another node looks for shards without an owner, three times: the calls of this one are its
    own.
    """
    async with stage.node("one") as (first, store):
        work = asyncio.create_task(first.run_saga(store, 0))
        await until(lambda: first.called)
        async with stage.node("two") as (second, other):
            beats: set[object] = set()
            await until(
                lambda: beats.update(stage.ask("SELECT lease FROM nodes WHERE name = 'two'"))
                or len(beats) > 3
                or second.called
            )
            if second.called:
                stage.fault_names.add("called-again")
            first.open_all()
            second.open_all()
            await stage.over(work)
    return 1


async def steps_are_inside(stage: Stage) -> int:
    """As `nothing_happens`, of steps inside the database."""
    async with stage.node("one", gates=False, inside=True) as (node, store):
        for number in range(4):
            await stage.over(node.run_saga(store, number))
    return 4


async def another_node_has_the_log_of_a_step_inside(stage: Stage) -> int:
    """A step inside ends when its log is another node's, which has called it too."""
    async with stage.node("same", inside=True) as (first, store):
        work = asyncio.create_task(first.run_saga(store, 0))
        await until(lambda: first.called)
        async with stage.node("same", inside=True) as (second, other):
            await until(lambda: second.called)
            first.gates["k0", "a"].set()
            await stage.happens(
                lambda: ("k0", "b") in first.called or not inner(store).shards.runners
            )
            second.open_all()
            await stage.happens(
                lambda: all(phase for (phase,) in stage.ask("SELECT phase FROM sagas"))
            )
            first.open_all()
            await stage.over(work)
    return 1


async def another_node_has_the_logs_of_steps_inside(stage: Stage) -> int:
    """Two steps inside, and one in a thread, end at once.

    Their logs are another node's, which has called them too: each ends by its own record.
    """
    async with stage.node("same", inside=True, room=1) as (first, store):
        work = [
            asyncio.create_task(first.run_saga(store, number, number // 2)) for number in range(3)
        ]
        await until(lambda: len(first.called) == 3)
        async with stage.node("same", inside=True) as (second, _):
            await until(lambda: len(second.called) == 3)
            for number in range(3):
                first.gates[f"k{number}", "a"].set()
            await until(lambda: not inner(store).shards.runners)
            if stage.ask("SELECT id FROM attempts UNION ALL SELECT 0 FROM public.book"):
                stage.fault_names.add("not-its-own")
            second.open_all()
            first.open_all()
            await stage.over(*work)
    return 3


async def the_commit_of_a_step_inside_is_refused(stage: Stage) -> int:
    """A constraint that is checked in the commit refuses it, at the first try."""
    async with stage.node("one", gates=False, inside=True) as (node, store):
        node.refused.add(("k0", "a"))
        await stage.over(node.run_saga(store, 0))
    return 1


async def the_answer_to_a_step_inside_is_lost(stage: Stage) -> int:
    """As `the_answer_to_a_commit_is_lost`, of a step's own transaction."""
    return await the_answer_to_a_commit_is_lost(stage, b"EXECUTE sagas_record(", inside=True)


MOMENTS = {
    moment.__name__: moment
    for moment in (
        nothing_happens,
        another_node_has_the_log,
        another_node_has_one_of_two_logs,
        another_node_has_the_only_log,
        a_commit_of_two_logs_comes_late,
        a_refused_start_comes_late,
        the_answer_to_a_commit_is_lost,
        the_commit_takes_long,
        two_nodes_start_a_key_at_once,
        two_nodes_guess_a_key_at_once,
        a_node_lives,
        steps_are_inside,
        another_node_has_the_log_of_a_step_inside,
        another_node_has_the_logs_of_steps_inside,
        the_commit_of_a_step_inside_is_refused,
        the_answer_to_a_step_inside_is_lost,
    )
}


@contextlib.contextmanager
def applied(name: str | None) -> Iterator[None]:
    """Replace the right store by a wrong one until the block ends."""
    owners: list[Any] = [
        storage,
        storage.PostgreSQL,
        commit_statement,
        commit_statement.Commit,
        node_lease,
        shard_loader,
        step_commit,
        step_connections.AsyncStepLink,
    ]
    before = [dict(vars(owner)) for owner in owners]
    parts = dict(commit_statement.PARTS)
    commit_statement.statement.cache_clear()
    if name:
        importlib.import_module(f"wrong_stores.{name}").apply()
    try:
        yield
    finally:
        for owner, was in zip(owners, before):
            for word in [word for word, value in vars(owner).items() if was.get(word) is not value]:
                if word in was:
                    setattr(owner, word, was[word])
                else:  # as a warning leaves marks in the module that issued it
                    delattr(owner, word)
        commit_statement.PARTS.clear()
        commit_statement.PARTS.update(parts)
        commit_statement.statement.cache_clear()


def play(server: Server, name: str, wrong: str | None = None) -> tuple[set[str], list[str]]:
    """Play a moment over its own database; return the names of the faults, and the faults."""
    url = server.create()
    with psycopg.connect(url) as link:
        link.execute(BOOK)
    with tempfile.TemporaryDirectory() as folder, applied(wrong):
        socket, notes = pathlib.Path(folder) / "socket", pathlib.Path(folder) / "notes"
        with witness_at(socket, notes):
            stage = Stage(server, url, socket, wrong is not None)
            count = asyncio.run(asyncio.wait_for(MOMENTS[name](stage), 120))
        if noted(url, notes):
            stage.fault_names.add("inside-twice")
        verdict = judge(url, notes, count)
        _, faults = fleet.judged(url, [stage.record])
    server.drop(url)
    record_faults = {"record"} if faults else set[str]()
    return verdict.names | stage.fault_names | record_faults, verdict.faults + faults
