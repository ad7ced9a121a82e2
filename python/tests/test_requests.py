"""A request is executed for the saga that it was made for, and for no later one of its key."""

from __future__ import annotations

import asyncio
from collections.abc import Iterator
from pathlib import Path
from typing import Any

import psycopg
import pytest
from cases import Task, pairs, run, until

import sagas
from sagas.cli import store_command

BLOCKED = "SELECT count(*) FROM pg_locks WHERE NOT granted"
WAITS_FOR_ROW = (
    "SELECT count(*) FROM pg_stat_activity WHERE wait_event_type = 'Lock' "
    "AND wait_event IN ('transactionid', 'tuple')"
)


def signed() -> sagas.Saga:
    """Return a saga of one step, which waits for an approval."""
    signed = sagas.Saga("signed")

    @signed.approval
    def sign(task: Task) -> None:
        ...

    return signed


@pytest.fixture
def kind(url: str) -> sagas.Saga:
    """Return a saga whose store has its tables, and no node."""

    async def made() -> None:
        async with sagas.open(url, [kind]):
            pass

    kind = signed()
    run(made())
    return kind


@pytest.fixture
def link(url: str) -> Iterator[psycopg.Connection[Any]]:
    """Return a connection outside of the package, which commits each statement."""
    with psycopg.connect(url, autocommit=True, options="-c search_path=sagas") as link:
        yield link


def first_cell(link: psycopg.Connection[Any], text: str) -> Any:
    """Return the single value of a query."""
    row = link.execute(text.encode()).fetchone()
    assert row
    return row[0]


def pending_requests(link: psycopg.Connection[Any]) -> int:
    """Return how many requests have no reply."""
    of_sagas = "SELECT count(*) FROM operator_commands WHERE answer IS NULL"
    of_starts = "SELECT coalesce(sum(jsonb_array_length(commands)), 0) FROM pending_starts"
    return int(first_cell(link, of_sagas) + first_cell(link, of_starts))


async def waits_for_a_person(url: str, store: sagas.Store, key: str) -> None:
    """Check that the saga waits for its approval, and that no earlier request is executed
    for it.
    """
    await until(lambda: [held.waits for held in store.active_attempts(key)] == ["approval"], 30)
    await store.complete(key, "sign", "by hand")
    end = await store.wait(key)
    assert end.ok and end.results == {"sign": "by hand"} and not end.aborted


@pytest.mark.parametrize(
    "by, command, same", pairs(("client", "node"), ("complete", "abort"), (True, False))
)
def test_a_request_of_a_cancelled_caller_is_for_no_other_saga(
    url: str, link: psycopg.Connection[Any], kind: sagas.Saga, by: str, command: str, same: bool
) -> None:
    """A request for a start is in transit to the server; the start is withdrawn, the caller is
    cancelled, and another start has the key: the request is not executed for that one.
    """
    other = sagas.Saga("other")

    @other.step
    def x(task: Task) -> int:
        return 1

    async def ask(caller: sagas.Client | sagas.Store) -> None:
        await (
            caller.complete("k", "sign", "asked before")
            if command == "complete"
            else caller.abort("k")
        )

    async def main() -> None:
        stranger = await psycopg.AsyncConnection.connect(url, options="-c search_path=sagas")
        async with sagas.Client(url) as client, sagas.open(url, [other]) as store, stranger:
            await client.start(kind, "k", "first")
            # it is not withdrawn
            link.execute("UPDATE pending_starts SET node = (SELECT node FROM nodes)")
            await stranger.execute("LOCK TABLE operator_commands, pending_starts IN EXCLUSIVE MODE")
            asking = asyncio.create_task(ask(client if by == "client" else store))
            await until(lambda: first_cell(link, BLOCKED))
            await stranger.execute("DELETE FROM pending_starts")
            await client.start(kind, "k", "first" if same else "second", connection=stranger)
            asking.cancel()
            await asyncio.wait([asking])
            await stranger.commit()
            async with sagas.open(url, [kind]) as node:
                await until(lambda: first_cell(link, "SELECT count(*) FROM sagas"), 30)
                await waits_for_a_person(url, node, "k")
        assert pending_requests(link) == 0

    run(main())


def test_a_start_of_the_same_key_is_not_taken_back(
    url: str, link: psycopg.Connection[Any], kind: sagas.Saga
) -> None:
    """An abort waits for the node that has taken the start.

    That start is deleted, and another one has the key, which no node has taken: it stays.
    """

    async def main() -> None:
        async with sagas.Client(url) as client:
            await client.start(kind, "k", "first")
            link.execute("UPDATE pending_starts SET node = 'gone'")
            abort = asyncio.create_task(client.abort("k"))
            await until(lambda: pending_requests(link))
            async with await psycopg.AsyncConnection.connect(url) as stranger:
                await stranger.execute("DELETE FROM sagas.pending_starts")
                await client.start(kind, "k", "second", connection=stranger)
            with pytest.raises(sagas.NoSuchSaga):
                async with asyncio.timeout(60):
                    await abort
            assert first_cell(link, "SELECT input FROM pending_starts") == '"second"'

    run(main())


@pytest.mark.parametrize("command", ["complete", "abort"])
def test_a_request_for_a_start_is_for_its_saga(
    url: str, link: psycopg.Connection[Any], kind: sagas.Saga, command: str
) -> None:
    """The caller is gone before a node comes; the request is executed anyway, once."""

    async def main() -> None:
        async with sagas.Client(url) as client:
            await client.start(kind, "k")
            link.execute("UPDATE pending_starts SET node = 'gone'")
            done = (
                client.complete("k", "sign", "yes") if command == "complete" else client.abort("k")
            )
            asking = asyncio.create_task(done)
            await until(lambda: pending_requests(link))
            asking.cancel()
            async with sagas.open(url, [kind]) as store, asyncio.timeout(60):
                end = await store.wait("k")
                assert end.aborted if command == "abort" else end.results == {"sign": "yes"}
        assert (
            pending_requests(link) == 0
            and first_cell(link, "SELECT count(*) FROM operator_commands") == 1
        )

    run(main())


def test_a_request_during_the_opening_of_a_start(
    url: str, link: psycopg.Connection[Any], kind: sagas.Saga
) -> None:
    """A node's commit opens the saga, and a request that comes in the meantime waits for that
    commit: it is made for the saga, and gets its reply.
    """

    async def main() -> None:
        async with sagas.Client(url) as client, sagas.open(url, [kind]) as store:
            stranger = await psycopg.AsyncConnection.connect(url, options="-c search_path=sagas")
            async with stranger:
                await stranger.execute("LOCK TABLE event_log IN EXCLUSIVE MODE")  # of the commit
                await client.start(kind, "k")
                await until(lambda: first_cell(link, BLOCKED))
                finish = asyncio.create_task(client.complete("k", "sign", "yes"))
                await until(lambda: finish.done() or pending_requests(link))
                await stranger.commit()
                async with asyncio.timeout(60):
                    await finish
            assert (await store.wait("k")).results == {"sign": "yes"}

    run(main())


def test_a_request_for_a_deleted_saga(
    url: str, link: psycopg.Connection[Any], kind: sagas.Saga
) -> None:
    """It is executed for no other saga of its key, and deleted with its own."""
    text = (
        "INSERT INTO operator_commands(key, command, value, at, saga) VALUES ('k', 'abort', 'null',"
        " 0, 5000)"
    )

    async def main() -> None:
        async with sagas.open(url, [kind]) as store:
            await store.start(kind, "k")
            link.execute(text)
            # the nodes are notified
            await asyncio.to_thread(store_command.main, [url, "abort", "nobody"])
            await waits_for_a_person(url, store, "k")
            with pytest.raises(sagas.NoSuchSaga):
                await store._commands.abort("k", None, of=5000)
            with pytest.raises(sagas.NoSuchSaga):
                await store._commands.report(
                    "k", "sign", sagas.core.outcomes.succeeded("x"), False, None, of=5000
                )

    run(main())


def test_a_request_during_the_deletion_of_its_saga(
    url: str, link: psycopg.Connection[Any], kind: sagas.Saga
) -> None:
    """The saga is deleted while a request is made: nothing is left of it, and a saga that has the
    key by then does not get it.
    """

    async def main() -> None:
        async with sagas.open(url, [kind]) as store:
            await store.start(kind, "k")
        async with sagas.Client(url) as client:
            stranger = await psycopg.AsyncConnection.connect(url, options="-c search_path=sagas")
            async with stranger:
                await stranger.execute("DELETE FROM shards")
                finish = asyncio.create_task(client.complete("k", "sign", "yes"))
                await until(lambda: first_cell(link, BLOCKED))
                await stranger.execute("DELETE FROM operator_commands")
                await stranger.execute("DELETE FROM sagas")
                await client.start(kind, "k", "second", connection=stranger)
                finish.cancel()
                await asyncio.wait([finish])
                await stranger.commit()
            async with sagas.open(url, [kind]) as other:
                await until(lambda: first_cell(link, "SELECT count(*) FROM sagas"))
                await waits_for_a_person(url, other, "k")
        assert pending_requests(link) == 0

    run(main())


@pytest.mark.parametrize("by, command", pairs(("client", "node"), ("complete", "abort", "fail")))
def test_a_request_during_the_opening_of_a_large_start(
    url: str, link: psycopg.Connection[Any], kind: sagas.Saga, by: str, command: str, tmp_path: Path
) -> None:
    """The commit that opens the saga, whose input is then a blob, comes between the caller's look
    and its request: the request is made for the saga.
    """
    blobs, other = sagas.FolderBlobStore(tmp_path / "blobs"), sagas.Saga("other")
    other.step(lambda task: None, name="x")

    async def ask(caller: sagas.Client | sagas.Store) -> Any:
        if command == "abort":
            return await caller.abort("k")
        return await (
            caller.complete("k", "sign", "yes")
            if command == "complete"
            else caller.fail("k", "sign", "no")
        )

    async def main() -> None:
        settings = {"blobs": blobs, "blob_threshold": 256}
        commits = await psycopg.AsyncConnection.connect(url, options="-c search_path=sagas")
        holds = await psycopg.AsyncConnection.connect(url, options="-c search_path=sagas")
        async with sagas.Client(url, blobs=blobs) as client, sagas.open(
            url, [other], **settings
        ) as store:
            async with sagas.open(url, [kind], **settings) as node, commits, holds:
                await commits.execute("LOCK TABLE event_log IN EXCLUSIVE MODE")
                await client.start(kind, "k", "large" * 100)
                await until(
                    lambda: first_cell(
                        link, "SELECT count(*) FROM pending_starts WHERE node IS NOT NULL"
                    )
                )
                await until(lambda: first_cell(link, BLOCKED))
                await holds.execute("SELECT 1 FROM pending_starts FOR UPDATE")
                await commits.commit()
                await until(lambda: first_cell(link, WAITS_FOR_ROW) == 1)  # the node's commit
                asking = asyncio.create_task(ask(client if by == "client" else store))
                await until(lambda: first_cell(link, WAITS_FOR_ROW) == 2)
                await holds.commit()
                async with asyncio.timeout(60):
                    assert await asking is (True if command == "abort" else None)
                    end = await node.wait("k")
                assert (
                    end.aborted
                    if command == "abort"
                    else end.states["sign"] == ("failed" if command == "fail" else "committed")
                )
                assert first_cell(link, "SELECT input FROM sagas").startswith('{"$blob"')
        assert pending_requests(link) == 0

    run(main())
