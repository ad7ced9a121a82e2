"""A step's limit in one program, while running calls are being released."""

from __future__ import annotations

import asyncio
import threading

import psycopg
import pytest
from cases import Task, run, simple, until

import sagas

OTHER = """
INSERT INTO sagas.nodes(node, name, version, since, lease)
VALUES ('other/1', 'other', '', now(), now() + interval '1 hour')
"""
TAKEN = "UPDATE sagas.shards SET owner = 'other/1', epoch = epoch + 1"


@pytest.mark.parametrize("in_thread", [False, True])
def test_a_released_call_keeps_its_slot_until_it_ends(url: str, in_thread: bool) -> None:
    """A log goes to another node while one of its functions runs here, and cannot be stopped, or
    takes time to end: no other call starts before.
    """
    begun: list[str] = []
    gate, opened = threading.Event(), asyncio.Event()

    def in_a_thread(task: Task) -> None:
        begun.append(task.key)
        if task.key == "first":
            gate.wait(60)

    async def in_the_loop(task: Task) -> None:
        begun.append(task.key)
        if task.key == "first":
            try:
                await asyncio.sleep(60)
            finally:
                await opened.wait()

    kind = simple(in_a_thread if in_thread else in_the_loop, concurrency=1)

    async def main() -> None:
        async with sagas.open(url, [kind], lease=600) as store:
            await store.start(kind, "first")
            await until(lambda: begun == ["first"], 30)
            with psycopg.connect(url) as link:
                link.execute(OTHER)
                link.execute(TAKEN)
            # its commit shows which node has the log
            abort = asyncio.create_task(store.abort("first"))
            await until(lambda: not store.active_attempts("first"), 30)
            second = await store.start(kind, "second")
            await until(lambda: store.active_attempts("second"), 30)
            (attempt,) = store.active_attempts("second")
            assert attempt.waits == "concurrency" and begun == ["first"]
            gate.set()
            opened.set()
            assert (await second.wait(30)).ok and begun == ["first", "second"]
            abort.cancel()

    run(main())
