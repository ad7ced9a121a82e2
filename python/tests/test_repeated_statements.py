"""The connection that repeats prepared statements: its end, and its renewal."""

from __future__ import annotations

import asyncio
import contextlib

import psycopg
import pytest
from cases import run, until
from server import serving

import sagas
from sagas.storage.postgresql.application_name import Purpose
from sagas.storage.postgresql.connections import Asker
from sagas.storage.postgresql.wire import ReconnectingWire, array, numbered

SLOW = "SELECT pg_sleep(0.3)::text || $1::text"


OTHERS = """
SELECT 1 FROM pg_stat_activity WHERE datname = current_database() AND query LIKE 'SET plan_cache%%'
"""


async def are_gone(asker: Asker) -> bool:
    """Return whether no connection of this kind is open."""
    return not await asker.ask(OTHERS)


async def opened(url: str) -> tuple[Asker, ReconnectingWire]:
    """Return a pool, and a connection that is attached to it."""
    asker = Asker(url, "here", 2, Purpose.LEASE)
    kept = ReconnectingWire(url, "here", Purpose.CLAIM)
    asker.attach(kept)
    await asker.open()
    return asker, kept


def test_statements_in_progress_end_before_the_close(url: str) -> None:
    """Later statements are refused."""

    async def main() -> None:
        asker, kept = await opened(url)
        await kept.open()
        requests = [asyncio.create_task(kept.ask(SLOW, word)) for word in (b"a", b"b")]
        await asyncio.sleep(0)
        await asker.close()
        assert await asyncio.gather(*requests) == [[(b"a",)], [(b"b",)]]
        with pytest.raises(sagas.StoreUnavailable, match="closed"):
            await kept.ask(SLOW, b"c")

    run(main())


def test_one_that_is_closed_while_it_connects(url: str) -> None:
    """It is of no use any more, and does not stay open."""

    async def main() -> None:
        asker, kept = await opened(url)
        request = asyncio.create_task(kept.ask(SLOW, b"a"))
        await asyncio.sleep(0)  # it connects now
        kept.close()
        with pytest.raises(sagas.StoreUnavailable, match="closed"):
            await request
        assert await until(lambda: are_gone(asker))
        await asker.close()

    run(main())


def test_another_server_has_taken_over(url: str) -> None:
    """Statements in progress fail at once. The next statement connects again."""

    async def main() -> None:
        asker, kept = await opened(url)
        await kept.open()
        request = asyncio.create_task(kept.ask(SLOW, b"a"))
        await asyncio.sleep(0)
        await asker.renew()
        with pytest.raises(sagas.StoreUnavailable):
            await request
        assert await kept.ask(SLOW, b"b") == [(b"b",)]
        await asker.close()

    run(main())


def test_a_connection_that_the_server_ends(url: str) -> None:
    """It is noticed between statements, so the next one does not fail."""

    async def main() -> None:
        asker, kept = await opened(url)
        ((number,),) = await kept.ask("SELECT pg_backend_pid()")
        await asker.ask("SELECT pg_terminate_backend(%(pid)s)", pid=int(number or b""))
        wire = kept._wire
        assert wire
        await until(lambda: wire.closed)
        assert await kept.ask(SLOW, b"b") == [(b"b",)]
        await asker.close()

    run(main())


def test_parameters_of_statements(url: str) -> None:
    """Any text comes back unchanged."""
    texts = ["", "NULL", "a,b", "{}", '"', "\\", '\\\\"', "\n\t ", "\u00e9\U0001f600", "'"]
    assert numbered("%(b)s %(a)s %(b)s", "a", "b") == "$2 $1 $2"

    async def main() -> None:
        asker, kept = await opened(url)
        rows = await kept.ask("SELECT unnest($1::text[])", array(texts))
        assert [(row[0] or b"").decode() for row in rows] == texts
        assert await kept.ask("SELECT cardinality($1::text[])", array([])) == [(b"0",)]
        await asker.close()

    run(main())


def test_workers_continue_while_the_server_has_no_connection_to_spare() -> None:
    """Claims and reports use a connection that the node has. Later they have their own again."""
    kind = sagas.Saga("trip")
    for name in ("car", "tour"):
        kind.step(name=name, external=True)

    async def claimed(store: sagas.Store, step: str) -> sagas.LeasedTask:
        (task,) = await store.workers.claim([("trip", step, "run")], wait=60)
        return task

    async def main(url: str) -> None:
        async with sagas.open(url, [kind], lease=60) as store:
            coordinator = store._coordinator
            assert coordinator
            begun = await store.start(kind, "k", None)
            with contextlib.ExitStack() as strangers:
                with contextlib.suppress(psycopg.OperationalError):
                    while True:
                        strangers.enter_context(psycopg.connect(url))
                task = await claimed(store, "car")
                assert not coordinator.store.external._own_wire.is_open
                assert await store.workers.report(task.attempt_id, task.lease, "car")
                assert not coordinator.store.external._own_wire.is_open
            task = await claimed(store, "tour")
            assert coordinator.store.external._own_wire.is_open
            assert await store.workers.report(task.attempt_id, task.lease, "tour")
            assert (await begun.wait()).results == {"car": "car", "tour": "tour"}

    settings = {"max_connections": "14", "superuser_reserved_connections": "0"}
    with serving(settings | {"max_wal_senders": "0"}) as server:
        run(main(server.create()))
