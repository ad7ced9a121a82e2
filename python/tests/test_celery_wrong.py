"""Mutants of workers, each found by name: by the verifier, or by a look at the broker.

Nothing in these tests is random.
"""

from __future__ import annotations

import asyncio
import contextlib
import importlib
import json
import pathlib
import pkgutil
import shutil
import sqlite3
from collections.abc import Iterator

import pytest
import redis
import wrong_workers
from brokers import Broker, Program, broker_at
from cases import run, until
from celery_kills import play
from celery_shop import Shop, shop_in

NAMES = sorted(module.name for module in pkgutil.iter_modules(wrong_workers.__path__))
OF = {name: importlib.import_module(f"wrong_workers.{name}") for name in NAMES}
SAGAS = 16


@pytest.fixture(scope="module")
def broker(tmp_path_factory: pytest.TempPathFactory) -> Iterator[Broker]:
    """Return a Redis of this process's own."""
    with broker_at("redis", tmp_path_factory.mktemp("redis")) as running:
        yield running


def test_there_are_enough() -> None:
    """At least eight are needed."""
    assert len(NAMES) >= 8


@pytest.mark.parametrize("name", [None, *(name for name in NAMES if OF[name].STRIKES == "run")])
def test_in_a_run(broker: Broker, name: str | None) -> None:
    """Sagas run without faults; a right worker has no fault."""
    played = play("none", 1, broker, SAGAS, quiet=0, time_limit=60, wrong=name or "")
    if played.folder is not None:
        shutil.rmtree(played.folder)
    assert (
        (OF[name].FINDS in played.verdict.names) if name else not played.problems
    ), played.problems[:5]


def messages(broker: Broker, shop: Shop) -> int:
    """Return the shop's messages that the broker has now.

    They include those that a worker has not acknowledged.

    A message in transit from a queue to a worker is in neither place, for a moment.
    """
    queue = str(shop.settings["queue"])
    with redis.Redis(
        unix_socket_path=str(broker.folder / "socket")
    ) as link, link.pipeline() as both:
        waiting, taken = both.llen(queue).hvals("unacked").execute()
    return int(waiting) + sum(json.loads(task)[2] == queue for task in taken)


@contextlib.contextmanager
def worker(shop: Shop, folder: pathlib.Path, name: str | None) -> Iterator[Program]:
    started = shop.worker(folder, wrong=name)
    try:
        yield started
    finally:
        started.kill()


@pytest.mark.parametrize("name", [None, *(name for name in NAMES if OF[name].STRIKES == "call")])
def test_while_the_function_runs(broker: Broker, tmp_path: pathlib.Path, name: str | None) -> None:
    """The broker still has the message, so that another worker gets it if this one is lost.

    Celery's own tools show the attempt by its token.
    """
    shop = shop_in(broker, tmp_path)
    faults: set[str] = set()

    async def look() -> None:
        async with shop.open() as store:
            going = await store.start(shop.held, "k")
            await until(lambda: shop.calls("k"), 60)
            if name:  # the acknowledgement is in transit
                await until(lambda: not messages(broker, shop), 30)
            if not messages(broker, shop):
                faults.add("acknowledged-early")
            if not name:
                # repeats it each second, until a worker answers
                running_tasks = await until(lambda: shop.app.control.inspect().active(), 60)
                assert [(task["id"], task["name"]) for task in sum(running_tasks.values(), [])] == [
                    (shop.calls("k")[0]["token"], "sagas.held.once.run")
                ]
            shop.release()
            assert (await going.wait()).phase == "completed"

    with worker(shop, tmp_path, name):
        run(look())
    assert faults == ({OF[name].FINDS} if name else set())


@pytest.mark.parametrize("name", [name for name in NAMES if OF[name].STRIKES == "store"])
def test_when_the_store_cannot_be_written(
    broker: Broker, tmp_path: pathlib.Path, name: str
) -> None:
    """The store is locked for longer than the queue waits: the broker has the message no more.

    With a right worker it has (test_celery.py).
    """
    shop = shop_in(broker, tmp_path, patience=0.2)

    async def look(started: Program) -> None:
        async with shop.open(shutdown_timeout=0) as store:
            await store.start(shop.held, "k")
            await until(lambda: shop.calls("k"), 60)
            with contextlib.closing(
                sqlite3.connect(tmp_path / "store.db", isolation_level=None)
            ) as db:
                db.execute("BEGIN EXCLUSIVE")
                try:
                    shop.release()
                    await asyncio.to_thread(started.wait_for, "message returns to the queue")
                    await asyncio.to_thread(started.wait_for, "succeeded")
                    await until(lambda: not messages(broker, shop), 30)
                finally:
                    db.execute("ROLLBACK")

    with worker(shop, tmp_path, name) as started:
        run(look(started))
    assert OF[name].FINDS == "report-lost"
