"""Claims over several nodes: whose tasks they take, in which order, and who is woken for them."""

from __future__ import annotations

import asyncio
import contextlib
import json
from collections.abc import AsyncIterator, Sequence

import psycopg
import pytest
from cases import run, until

import sagas
from sagas.runtime import external_queue
from sagas.runtime.leased_tasks import LeasedTask
from sagas.runtime.task_waits import TaskWaits
from sagas.storage.postgresql import notifications, peer_calls
from sagas.storage.postgresql.peer_calls import PostgreSQLPeers
from sagas.storage.ready_attempts import ReadyAttempts

STEP = [("far", "a", "run")]
LONG = 60.0


def far(concurrency: int | None = None) -> sagas.Saga:
    """Return a saga of one step, which workers do."""
    saga = sagas.Saga("far")
    saga.step(name="a", external=True, undo=sagas.NOTHING, concurrency=concurrency)
    return saga


@contextlib.asynccontextmanager
async def nodes(
    url: str, names: str = "ab", concurrency: int | None = None
) -> AsyncIterator[list[sagas.Store]]:
    """Open nodes that serve workers."""
    async with contextlib.AsyncExitStack() as stack:
        opened = []
        for name in names:
            store = sagas.open(url, [far(concurrency)], node=name)
            store.leased = True
            opened.append(await stack.enter_async_context(store))
        yield opened


async def begin(store: sagas.Store, key: str) -> sagas.Run:
    """Start a saga at a node."""
    (saga,) = store._coordinator.registry.sagas.values()
    return await store.start(saga, key)


async def starts(store: sagas.Store, *keys: str) -> None:
    """Start sagas at a node, and wait until their tasks are offered."""
    for key in keys:
        await begin(store, key)


def offered(url: str, times: dict[str, float]) -> None:
    """Set for how many seconds the tasks of these sagas have waited."""
    with psycopg.connect(url, autocommit=True) as link:
        for key, seconds in times.items():
            link.execute(
                "UPDATE sagas.external_attempts e SET offered_at = "
                "extract(epoch FROM now())::float8 - %s FROM sagas.sagas s "
                "WHERE s.id = e.id AND s.key = %s",
                (seconds, key),
            )


def rows(url: str) -> int:
    """Return how many tasks are offered."""
    with psycopg.connect(url, autocommit=True) as link:
        row = link.execute("SELECT count(*) FROM sagas.external_attempts").fetchone()
    assert row
    return int(row[0])


async def all_offered(url: str, count: int) -> None:
    await until(lambda: rows(url) == count)


async def taken(store: sagas.Store, limit: int = 1, wait: float = 0.0) -> list[LeasedTask]:
    return await store.workers.claim(STEP, limit=limit, wait=wait, lease=600)


def keys(tasks: Sequence[LeasedTask]) -> list[str]:
    return [task.task.key for task in tasks]


# -- the order of claims


def test_a_claim_prefers_the_tasks_of_its_node(url: str) -> None:
    """If none of its own is left, it takes those of others at once."""

    async def main() -> None:
        async with nodes(url) as (a, b):
            await starts(a, "a1", "a2")
            await starts(b, "b1", "b2")
            await all_offered(url, 4)
            offered(url, {"b1": 9.9, "a1": 9.6, "b2": 9.4, "a2": 9.2})
            assert keys(await taken(a)) == ["a1"]
            assert keys(await taken(a)) == ["a2"]
            assert keys(await taken(a)) == ["b1"]
            assert keys(await taken(a)) == ["b2"]
            assert not await taken(a) and not await taken(b)

    run(main())


def test_no_task_waits_much_longer_than_another(url: str) -> None:
    """If it has waited for a second longer and for a quarter longer, it is claimed first."""

    async def main() -> None:
        async with nodes(url) as (a, b):
            await starts(a, "a1", "a2", "a3")
            await starts(b, "b1", "b2", "b3")
            await all_offered(url, 6)
            offered(url, {"b1": 1000, "b2": 950, "a1": 780, "a2": 770, "b3": 400, "a3": 390})
            assert keys(await taken(a)) == ["b1"]  # a quarter more than 780 is 975
            assert keys(await taken(a, limit=2)) == ["a1", "a2"]
            offered(url, {"b2": 5, "b3": 3, "a3": 3.5})
            assert keys(await taken(a)) == ["b2"]
            assert keys(await taken(a)) == ["a3"]
            assert keys(await taken(a)) == ["b3"]

    run(main())


def test_a_batch_has_the_oldest_of_others_too(url: str) -> None:
    async def main() -> None:
        async with nodes(url) as (a, b):
            await starts(a, "a1", "a2", "a3")
            await starts(b, "b1", "b2", "b3")
            await all_offered(url, 6)
            offered(url, {"b1": 20, "b2": 19, "b3": 9.3, "a1": 10, "a2": 9.5, "a3": 9.4})
            assert keys(await taken(a, limit=3)) == ["b1", "b2", "a1"]
            assert keys(await taken(a, limit=10)) == ["a2", "a3", "b3"]

    run(main())


def test_a_constant_flow_of_own_tasks_starves_no_other(url: str) -> None:
    """The task of a node without workers is claimed, though tasks of the own node always wait."""

    async def main() -> None:
        async with nodes(url) as (a, b):
            await starts(b, "b")
            claimed: list[str] = []
            for number in range(10_000):
                await starts(a, f"a{number}", f"more{number}")
                claimed += keys(await taken(a))
                if "b" in claimed:
                    break
            assert claimed[-1] == "b"

    run(main())


def test_tasks_with_a_limit_are_claimed_in_the_order_of_their_offers(url: str) -> None:
    """The limit holds over all nodes."""

    async def main() -> None:
        async with nodes(url, concurrency=2) as (a, b):
            await starts(a, "a1", "a2")
            await starts(b, "b1")
            await all_offered(url, 3)
            offered(url, {"b1": 9.9, "a1": 9.6, "a2": 9.4})
            (first,) = await taken(a)
            assert first.task.key == "b1" and keys(await taken(a, limit=9)) == ["a1"]
            assert not await taken(a) and not await taken(b)
            assert await b.workers.report(first.attempt_id, first.lease)
            assert keys(await taken(b)) == ["a2"]

    run(main())


def test_a_released_task_is_claimed_again(url: str) -> None:
    """So is one whose lease has ended, at each node."""

    async def main() -> None:
        async with nodes(url) as (a, b):
            await starts(a, "k")
            for store in (a, b, a):
                (task,) = await taken(store, wait=LONG)
                await store.workers.give_back([task])
            (task,) = await a.workers.claim(STEP, lease=0.5, wait=LONG)
            (again,) = await taken(b, wait=LONG)
            assert again.task.key == "k"
            with pytest.raises(sagas.LeaseLost):
                await a.workers.heartbeat(task.attempt_id, task.lease)

    run(main())


def test_two_nodes_that_claim_at_once_share_the_tasks(url: str) -> None:
    """Each task is claimed once, whichever node has offered it."""

    async def main() -> None:
        async with nodes(url, "abc") as stores:
            for store, name in zip(stores, "abc"):
                await starts(store, *(f"{name}{number}" for number in range(20)))
            await all_offered(url, 60)
            claims = [taken(stores[number % 2], limit=3, wait=LONG) for number in range(20)]
            claimed = [key for tasks in await asyncio.gather(*claims) for key in keys(tasks)]
            claimed += [key for _ in range(20) for key in keys(await taken(stores[0], limit=9))]
            assert len(claimed) == len(set(claimed)) == 60

    run(main())


# -- notifications


@pytest.fixture
def no_looks(monkeypatch: pytest.MonkeyPatch) -> None:
    """Let nodes look by themselves, and send what no program waits for, only after a minute."""
    monkeypatch.setattr(external_queue, "LOOK", LONG)
    monkeypatch.setattr(notifications, "UNFOLLOWED", LONG)


async def no_more_looks(stores: Sequence[sagas.Store]) -> None:
    """Wait until the looks that began with another pause are over."""
    await asyncio.gather(*(taken(store) for store in stores))


def test_a_waiting_claim_gets_the_task_of_another_node(url: str, no_looks: None) -> None:
    async def main() -> None:
        async with nodes(url) as (a, b):
            await no_more_looks([a, b])
            for number in range(3):
                claim = asyncio.create_task(taken(a, wait=LONG / 2))
                await until(lambda: bool(a._coordinator.external.waits))
                await starts(b, f"k{number}")
                async with asyncio.timeout(LONG / 4):
                    assert keys(await claim) == [f"k{number}"]

    run(main())


def test_a_report_at_another_node_reaches_the_saga(url: str, no_looks: None) -> None:
    async def main() -> None:
        async with nodes(url, "abc") as (a, b, c):
            await no_more_looks([a, b, c])
            saga = await begin(b, "k")
            (task,) = await taken(a)
            async with asyncio.timeout(LONG / 4):
                assert await c.workers.report(task.attempt_id, task.lease, 7)
                assert (await saga.wait()).ok
            assert not await a.workers.report(task.attempt_id, task.lease, 7)
            with pytest.raises(sagas.ConflictingReport):
                await c.workers.report(task.attempt_id, task.lease, 8)

    run(main())


def test_a_caller_at_another_node_gets_the_end(url: str, no_looks: None) -> None:
    """Its node looks by itself only after a pause, which grows."""

    async def main() -> None:
        async with nodes(url) as (a, b):
            await no_more_looks([a, b])
            await begin(b, "k")
            saga = await begin(a, "k")
            waiting = asyncio.create_task(saga.wait())
            await asyncio.sleep(4)  # its next look is later than the end
            (task,) = await taken(b)
            assert await b.workers.report(task.attempt_id, task.lease)
            async with asyncio.timeout(LONG / 4):
                assert (await waiting).ok

    run(main())


def test_a_claim_that_is_cancelled_wakes_another() -> None:
    async def main() -> None:
        waits = TaskWaits(asyncio.get_running_loop())
        first, second = (asyncio.create_task(waits.wait(["x"], LONG)) for _ in range(2))
        await asyncio.sleep(0)
        assert waits and waits.suffice(["x", "x"]) and not waits.suffice(["x", "x", "x"])
        assert not waits.suffice(["x", "y"])
        waits.wake("x")
        assert waits.suffice(["x"]) and not waits.suffice(["x", "x"])
        first.cancel()
        async with asyncio.timeout(LONG / 4):
            await second
        with pytest.raises(asyncio.CancelledError):
            await first
        assert not waits

    run(main())


# -- what a node remembers of its offers


def test_ready_attempts() -> None:
    ready = ReadyAttempts()
    for task, attempt in [("x", "1"), ("y", "2"), ("x", "3"), ("y", "4"), ("x", "1")]:
        ready.add(task, attempt)
    assert ready.first(["x"], 9) == ["1", "3"] and ready.first(["x"], 1) == ["1"]
    assert ready.first(["y", "x", "z"], 3) == ["1", "2", "3"]
    ready.discard(["x", "z"], ["1", "2"])
    assert ready.first(["x", "y"], 9) == ["2", "3", "4"]
    ready.discard(["x"], ["3"])
    assert not ready.first(["x", "z"], 9)


# -- messages between services


def test_messages_are_joined(url: str) -> None:
    """Each message arrives once, in order, and no notification is too long."""

    async def main() -> None:
        received: list[int] = []
        async with contextlib.AsyncExitStack() as stack:
            peers = []
            for store in await stack.enter_async_context(nodes(url)):
                peer = store.workers.peers()
                assert isinstance(peer, PostgreSQLPeers)
                await peer.open()
                stack.push_async_callback(peer.close)
                peers.append(peer)
            sender, receiver = peers
            receiver.on_message = lambda message: received.append(message["number"])
            await until(lambda: bool(sender.others and receiver.others))
            for number in range(500):
                assert sender.broadcast({"number": number, "text": 'a "b" \\ é' * (number % 50)})
            assert not sender.broadcast("x" * 8000)
            texts = sender._notifications(sender._unsent)
            assert len(texts) > 5 and max(map(len, texts)) <= peer_calls.MAX_MESSAGE
            assert sum(len(json.loads(text)[2]) for text in texts) == 500
            await until(lambda: len(received) == 500)
            assert received == list(range(500))

    run(main())


def test_a_node_that_follows_gets_messages_at_once(
    url: str, monkeypatch: pytest.MonkeyPatch
) -> None:
    monkeypatch.setattr(peer_calls, "UNFOLLOWED", LONG)

    async def main() -> None:
        received: list[str] = []
        async with contextlib.AsyncExitStack() as stack:
            peers = []
            for store in await stack.enter_async_context(nodes(url)):
                peer = store.workers.peers()
                assert isinstance(peer, PostgreSQLPeers)
                await peer.open()
                stack.push_async_callback(peer.close)
                peers.append(peer)
            sender, receiver = peers
            receiver.on_message = received.append
            await until(lambda: bool(sender.others and receiver.others))
            sender.broadcast("first")
            await until(lambda: received == ["first"])
            sender.broadcast("second")
            sender.broadcast("third")
            await asyncio.sleep(0.3)
            assert received == ["first"]
            receiver.follow()
            await until(lambda: received == ["first", "second", "third"])

    run(main())
