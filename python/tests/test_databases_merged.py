"""A store over several databases: merged lists with tokens, and a database that does not answer."""

from __future__ import annotations

import asyncio
import contextlib
import datetime
from collections.abc import Iterator
from typing import Any

import psycopg
import pytest
from cases import Task, run
from server import Server, serving
from test_databases import keys_at, moving

import sagas
from sagas.core import page_tokens
from sagas.core.merged_lists import page_of
from sagas.storage.postgresql import map_changes


@pytest.fixture(scope="module")
def servers() -> Iterator[list[Server]]:
    """Return two servers."""
    with serving() as first, serving() as second:
        yield [first, second]


@pytest.fixture
def urls(servers: list[Server]) -> Iterator[list[str]]:
    """Return an empty database of each server."""
    urls = [server.create() for server in servers]
    yield urls
    for server, url in zip(servers, urls):
        server.drop(url)


def shop() -> sagas.Saga[Any]:
    """Return a saga that fails, is stuck, waits for an operator, or completes, by its input."""
    shop = sagas.Saga("shop")

    @shop.step
    async def reserve(task: Task) -> str:
        return "reserved"

    @reserve.compensation(on_exhausted="ask", tries=1)
    async def release(task: Task) -> None:
        if task.input == "stays":
            raise sagas.Retry("not now")

    @shop.step(needs=[reserve])
    async def charge(task: Task) -> str:
        if task.input in ("fails", "stays"):
            raise sagas.Fail("no")
        return "charged"

    return shop


async def until_true(ask: Any, seconds: float = 60) -> None:
    """Ask until the answer is true."""
    async with asyncio.timeout(seconds):
        while not await ask():
            await asyncio.sleep(0.1)


def test_pages_are_in_order_and_continue_after_a_restart(urls: list[str]) -> None:
    """A token has a position for each database, so a new program continues the list."""
    saga = shop()
    keys = [f"order-{number}" for number in range(25)]

    async def pages(limit: int, by_summary: bool) -> list[str]:
        rows: list[sagas.Summary] = []
        after: Any = None
        while True:
            async with sagas.Client(urls) as client:  # a new program for each page
                page = await client.list(limit=limit, after=after)
            assert isinstance(page, sagas.MergedList) and not page.unavailable
            rows += page
            after = page[-1] if by_summary and page else page.next
            if page.next is None:
                break
        assert [row.started for row in rows] == sorted(row.started for row in rows)
        return [row.key for row in rows]

    async def main() -> None:
        async with sagas.open(urls, [saga]) as store:
            for key in keys:
                await (await store.start(saga, key, labels={"n": key[-1]})).wait(timeout=60)
            for limit in (1, 4, 25, 100):
                assert await pages(limit, by_summary=False) == keys
            assert await pages(4, by_summary=True) == keys
            assert [row.key for row in await store.list(labels={"n": "3"})] == keys[3::10]
            assert await store.count(phase="completed") == 25
            ((count),) = await store.definitions()
            assert (count.saga, count.total, count.open) == ("shop", 25, 0)
            with pytest.raises(ValueError, match="of a page of this list"):
                await store.list(after="x")
            with pytest.raises(TypeError):
                await store.list(after=7)
            with pytest.raises(ValueError):
                await store.decisions(after=(await store.list(limit=1)).next)

    run(main())


def test_a_token_of_fewer_databases_continues_with_more() -> None:
    """A database that joined since begins with its first row; a token of more is refused."""
    token = page_tokens.written("sagas", [[1.5, 7], None])
    read = page_tokens.start_and_id
    assert page_tokens.positions_of("sagas", token, 3, read) == [(1.5, 7), None, None]
    for kind, text, count in (("sagas", token, 1), ("decisions", token, 3), ("sagas", "é", 3)):
        with pytest.raises(ValueError):
            page_tokens.positions_of(kind, text, count, read)
    for forged in (5, [1.5], [1.5, "7"], [float("inf"), 7], [1.5, 1 << 63], [True, 7], {"a": 1}):
        with pytest.raises(ValueError):
            page_tokens.positions_of("sagas", page_tokens.written("sagas", [forged]), 3, read)


def test_a_page_keeps_the_position_of_a_database_that_is_away() -> None:
    """When the database is back, the list continues where it was."""
    position = {0: 5, 1: 9}
    page = page_of("l", {0: [6, 8]}, int, [*position.values()], int, 2, {"b": "away"})
    assert [*page] == [6, 8] and page.unavailable == {"b": "away"} and page.next
    assert page_tokens.positions_of("l", page.next, 2, page_tokens.number) == [8, 9]
    last = page_of("l", {0: [6], 1: []}, int, [5, 9], int, 2, {})
    assert last.next is None


def test_operators_see_all_databases(urls: list[str]) -> None:
    """Attention, decisions, pauses, nodes and bulk commands are merged."""
    saga = shop()
    keys = [*keys_at(0, 2, 3), *keys_at(1, 2, 3)]

    async def main() -> None:
        async with sagas.open(urls, [saga], node="one") as store:
            for key in keys:
                await store.start(saga, key, "stays")

            async def waiting() -> bool:
                return len(await store.attention()) == 6

            await until_true(waiting)
            rows = await store.attention(limit=4)
            assert [row.since for row in rows] == sorted(row.since for row in rows)
            assert {node.database for node in await store.nodes()} == set(store.path.split(", "))
            await store.pause(saga, note="maintenance")
            assert [pause.saga for pause in await store.pauses()] == ["shop"]
            await store.resume(saga)
            with pytest.raises(sagas.NoSuchPause):
                await store.resume(saga)
            assert await store.pauses() == []
            assert await store.complete_all(None, by="me", note="done") == 6
            for key in keys:
                assert (await store.wait(key, 60)).phase == "recovered"
            entries = await store.decisions(limit=3)
            assert entries.next is not None
            more = await store.decisions(after=entries.next, limit=100)
            assert [entry.at for entry in [*entries, *more]] == sorted(
                (entry.at for entry in [*entries, *more]), reverse=True
            )
            await store.drain("one", note="replaced")
            await store.undrain("one")
            with pytest.raises(sagas.NoSuchNode):
                await store.drain("none", note="x")
            restarted = [await store.restart(key, f"{key}-again") for key in keys]
            for again in restarted:
                assert again.new
                await store.abort(again.key)
            assert not (await store.restart(keys[0], f"{keys[0]}-again")).new
            verdicts = await store.audit()
            assert verdicts and all(text.startswith("yes") for text in verdicts.values())

    run(main())


def test_a_restart_goes_to_the_database_of_its_key(urls: list[str]) -> None:
    """A client asks a node of the old saga, and the new one is where its key belongs."""
    saga = shop()
    (old,), new = keys_at(0, 2, 1), keys_at(1, 2, 1, "again")[0]

    async def main() -> None:
        async with sagas.open(urls, [saga]) as store, sagas.Client(urls) as client:
            await (await store.start(saga, old, "fails", labels={"a": "b"})).wait(60)
            again = await client.restart(old, new, by="me")
            assert again.new and (await again.wait(60)).phase == "recovered"
            assert not (await client.restart(old, new)).new
            assert await client.database_of(new) == urls[1]
            assert [row.labels for row in await client.list()] == [{"a": "b"}] * 2
            entries = await client.decisions(key=old)
            assert {entry.command for entry in entries} == {"restart"}

    run(main())


def test_a_schedule_and_its_sagas_are_in_one_database(urls: list[str]) -> None:
    """They move to a new database with their name, and no time is started twice."""
    saga = shop()
    (name,) = moving(1, 0, 1, "nightly")
    second = datetime.timedelta(seconds=1)

    async def main() -> None:
        async with sagas.open(urls[:1], [saga]) as store:
            await store.schedule(name, saga, every=second, catch_up="all")
            await until_true(lambda: _has_started(store, 2))
            await asyncio.to_thread(map_changes.add, urls[:1], urls[1], print)
        async with sagas.open(urls, [saga]) as store:
            first = await store.count()
            assert [row.name for row in await store.schedules()] == [name]
            await until_true(lambda: _has_started(store, first + 2))
            await store.remove_schedule(name)
            rows = await store.list()
            assert len({row.key for row in rows}) == len(rows)
            assert {row.database for row in rows} == set(store.path.split(", "))
            times = sorted(row.key for row in rows)
            at = [datetime.datetime.fromisoformat(key.partition("@")[2]) for key in times]
            assert all(later - before == second for before, later in zip(at, at[1:]))

    run(main())


async def _has_started(store: sagas.Store, count: int) -> bool:
    return await store.count() >= count


def test_one_database_away(servers: list[Server], urls: list[str]) -> None:
    """The other databases are used, and keys of that one are refused by its name.

    The program may also be opened without it, and takes it when it answers.
    """
    saga = shop()
    (here, *others), (away, later) = keys_at(0, 2, 3), keys_at(1, 2, 2)

    async def refused(store: Any, key: str) -> None:
        with pytest.raises(sagas.StoreUnavailable, match=str(servers[1].port)):
            await store.start(saga, key)

    async def is_away(store: Any) -> bool:
        return bool(store.unavailable)

    async def is_back(store: Any) -> bool:
        return not store.unavailable

    async def main() -> None:
        async with sagas.open(urls, [saga]) as store, sagas.Client(urls) as client:
            for key in (here, away):
                await (await store.start(saga, key)).wait(60)
            servers[1].stop()
            await refused(store, later)
            for member in (store, client):
                await until_true(lambda: is_away(member))
                page = await member.list()
                assert [row.key for row in page] == [here]
                assert [*page.unavailable] == [*member.unavailable]
                with pytest.raises(sagas.StoreUnavailable):
                    await member.count()
            assert (await (await store.start(saga, others[0])).wait(60)).ok
            assert (await (await client.start(saga, others[1])).wait(60)).ok
            result = await store.abort_all(labels={"a": "b"})
            assert [*result.unavailable] == [*store.unavailable]
        async with sagas.open(urls, [saga]) as store, sagas.Client(urls) as client:
            assert store.unavailable and client.unavailable
            await refused(store, later)
            assert (await store.wait(here, 60)).ok
            await asyncio.to_thread(servers[1].start)
            for member in (store, client):
                await until_true(lambda: is_back(member))
                assert (await (await member.start(saga, later)).wait(60)).ok
            assert await store.count() == 5

    try:
        run(main())
    finally:
        with contextlib.suppress(RuntimeError):
            servers[1].start()


def test_without_async(urls: list[str]) -> None:
    """`open_sync` and `SyncClient` take a list as well, also with a caller's connection."""
    saga = shop()
    keys = [*keys_at(0, 2, 1), *keys_at(1, 2, 1)]
    with sagas.open_sync(urls, [saga]) as store, sagas.SyncClient(urls) as client:
        for key in keys:
            with psycopg.connect(client.database_of(key)) as link:
                client.start(saga, key, connection=link)
        for key in keys:
            assert store.wait(key, 60).ok and client.wait(key, 60).ok
            assert store.get(key) and client.get(key)
        store.wait_idle(60)
        assert store.count() == client.count() == 2
        with psycopg.connect(store.database_of("more")) as link:
            assert store.start(saga, "more", connection=link).new
        assert store.wait("more", 60).ok
