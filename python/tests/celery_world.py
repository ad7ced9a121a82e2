"""The program of `celery_kills.py`: sagas whose steps run on Celery's workers.

Each call is reported to a witness outside.

    python3 tests/celery_world.py COUNT                the program that has the store
    python3 -m celery -A celery_world worker            its workers

Both take from the environment SAGAS_TEST_STORE, SAGAS_TEST_SOCKET (of the witness),
SAGAS_TEST_BROKER and SAGAS_TEST_QUEUE. With SAGAS_TEST_OLD a worker has an older definition,
without one step. With SAGAS_TEST_WRONG=NAME it has the fault of that module of `wrong_workers`.
SAGAS_TEST_NODE and SAGAS_TEST_LEASE name the program if there are two over PostgreSQL. Messages are
duplicated or delayed at random, some outcomes are unknown at random, and some calls have a bug.
With SAGAS_TEST_PLAIN nothing is random.
"""

from __future__ import annotations

import asyncio
import datetime
import importlib
import logging
import os
import random
import signal
import sys
import time
from typing import Any

import celery
import psycopg
from witness import Witness
from world import (
    QUICK,
    OutsideReader,
    Refused,
    World,
    chance,
    is_unexpected,
    retry_bugs,
    start_and_wait,
)

import sagas
import sagas.celery
from sagas.core.attempt.external_work import Order

PAUSE = 0.001
TIMEOUT = 4.0
LEASE = float(os.environ.get("SAGAS_TEST_LEASE", 5.0))


class Doubling(sagas.celery.Queue):
    """Send some messages twice, and some again after a while."""

    async def send(self, order: Order) -> None:
        """Send an order, perhaps more than once."""
        await super().send(order)
        draw = random.random()
        if draw < 0.2:
            await super().send(order)
        elif draw < 0.35:
            asyncio.get_running_loop().call_later(random.uniform(0.2, 4), self._late, order)

    def _late(self, order: Order) -> None:
        asyncio.get_running_loop().create_task(self._again(order))

    async def _again(self, order: Order) -> None:
        try:
            await super().send(order)
        except sagas.SagasError:
            pass


class OutsideServerReader(OutsideReader):
    """A reader of PostgreSQL outside of the program; it repeats a query until it succeeds."""

    def _ask(self, text: str, *parameters: Any) -> list[tuple[Any, ...]]:
        query = text.replace("%", "%%").replace("?", "%s")
        while True:
            try:
                return self._look(query, parameters)
            except psycopg.OperationalError:
                time.sleep(0.1)


class Remote(World):
    """The sagas, over a witness to which each process of a worker has its own connection."""

    has_bugs = "SAGAS_TEST_PLAIN" not in os.environ

    def __init__(self, queue: sagas.celery.Queue, store: str, socket: str, old: bool) -> None:
        reader_class = OutsideServerReader if store.startswith("postgresql:") else OutsideReader
        self.queue, self.reader, self._socket, self._old = queue, reader_class(store), socket, old
        self._line: tuple[int, Witness] | None = None
        self.sagas = [self.chain(), self.trip(), self.must(), self.mixed()]

    @property
    def witness(self) -> Witness:  # type: ignore[override]
        """Return this process's connection to the witness."""
        if self._line is None or self._line[0] != os.getpid():
            self._line = os.getpid(), Witness(self._socket)
        return self._line[1]

    def is_hazy(self, call: dict[str, Any], unknown: float) -> bool:
        """Return whether the outcome is unknown; with SAGAS_TEST_PLAIN, of each second first
        attempt.
        """
        if "SAGAS_TEST_PLAIN" not in os.environ:
            return super().is_hazy(call, unknown)
        name = f"hazy-{call['key']}-{call['step']}-{call['kind']}-{call['attempt']}"
        if not unknown or chance(name) < 0.5 or os.path.exists(name):
            return False
        with open(name, "x", encoding="ascii"):
            return True

    def chain(self) -> sagas.Saga:
        """Three steps in a row, with failures and compensations."""
        chain, there = sagas.Saga("chain"), self.queue

        @chain.step(
            tries=1,
            no_effect=(Refused,),
            keep=9,
            undo=1,
            queue=there,
            timeout=TIMEOUT,
            backoff=QUICK,
        )
        async def reserve(task: Any) -> Any:
            await asyncio.sleep(PAUSE)
            return self.act(task, 0.05)

        @reserve.compensation(tries=3, backoff=QUICK, timeout=TIMEOUT, on_exhausted="fail")
        async def release(task: Any) -> None:
            self.act(task, 0.3)

        @chain.step(
            no_effect=(Refused,),
            needs=[reserve],
            tries=3,
            backoff=QUICK,
            keep=9,
            undo=1,
            queue=there,
            timeout=TIMEOUT,
        )
        def charge(task: Any) -> Any:
            return self.act(task, 0.3, unknown=0.1)

        @charge.compensation(tries=1, backoff=QUICK, timeout=TIMEOUT, on_exhausted="fail")
        def refund(task: Any) -> None:
            self.act(task, 0.05, unknown=0.1)

        if not self._old:

            @chain.step(
                no_effect=(Refused,),
                needs=[charge],
                tries=2,
                backoff=QUICK,
                queue=there,
                timeout=TIMEOUT,
            )
            def ship(task: Any) -> Any:
                return self.act(task, 0.4)

        return chain

    def trip(self) -> sagas.Saga:
        """A diamond with costs."""
        trip, there = sagas.Saga("trip"), self.queue

        @trip.step(tries=1, no_effect=(Refused,), queue=there, timeout=TIMEOUT, backoff=QUICK)
        def flight(task: Any) -> Any:
            return self.act(task, 0.1)

        @trip.step(
            tries=1,
            no_effect=(Refused,),
            needs=[flight],
            keep=8,
            undo=2,
            backoff=QUICK,
            queue=there,
            timeout=TIMEOUT,
        )
        def hotel(task: Any) -> Any:
            return self.act(task, 0.2, unknown=0.1)

        @hotel.compensation(tries=1, timeout=TIMEOUT, on_exhausted="fail")
        def cancel_hotel(task: Any) -> None:
            self.act(task, 0.0)

        @trip.step(
            no_effect=(Refused,),
            needs=[flight],
            keep=8,
            undo=5,
            tries=2,
            backoff=QUICK,
            queue=there,
            timeout=TIMEOUT,
        )
        def car(task: Any) -> Any:
            return self.act(task, 0.2)

        @car.compensation(tries=1, timeout=TIMEOUT, on_exhausted="fail")
        def cancel_car(task: Any) -> None:
            self.act(task, 0.1)

        @trip.step(
            tries=1,
            no_effect=(Refused,),
            needs=[hotel, car],
            skip=3,
            queue=there,
            timeout=TIMEOUT,
            backoff=QUICK,
        )
        def tour(task: Any) -> Any:
            return self.act(task, 0.3)

        return trip

    def must(self) -> sagas.Saga:
        """A saga that may be stuck."""
        must, there = sagas.Saga("must"), self.queue

        @must.step(
            no_effect=(Refused,),
            skip=sagas.NEVER,
            tries=2,
            backoff=QUICK,
            queue=there,
            timeout=TIMEOUT,
        )
        def machine(task: Any) -> Any:
            return self.act(task, 0.4)

        @must.step(tries=1, no_effect=(Refused,), needs=[machine], skip=sagas.NEVER)
        async def licence(task: Any) -> Any:
            return self.act(task, 0.1)

        return must

    def mixed(self) -> sagas.Saga:
        """Steps in this process and on workers."""
        mixed, there = sagas.Saga("mixed"), self.queue

        @mixed.step(tries=1, no_effect=(Refused,), keep=9, undo=1, backoff=QUICK)
        async def order(task: Any) -> Any:
            return self.act(task, 0.05, unknown=0.1)

        @order.compensation(
            tries=2, backoff=QUICK, queue=there, timeout=TIMEOUT, on_exhausted="fail"
        )
        def cancel_order(task: Any) -> None:
            self.act(task, 0.2)

        @mixed.wait(needs=[order], until=datetime.timedelta(seconds=0.05), backoff=QUICK)
        async def pause(task: Any) -> Any:
            return self.act(task, 0.1)

        @mixed.step(
            tries=1,
            no_effect=(Refused,),
            needs=[pause],
            concurrency=2,
            queue=there,
            timeout=TIMEOUT,
            backoff=QUICK,
        )
        async def go(task: Any) -> Any:
            return self.act(task, 0.3)

        return mixed


def make() -> tuple[Any, Remote]:
    """Make the app and the sagas from the environment."""
    settings = {
        word: os.environ[f"SAGAS_TEST_{word.upper()}"]
        for word in ("store", "socket", "broker", "queue")
    }
    app = celery.Celery("world", broker=settings["broker"])
    app.conf.update(
        sagas_store=settings["store"],
        worker_prefetch_multiplier=4,
        broker_connection_retry_on_startup=True,
        broker_connection_max_retries=None,
    )
    if name := os.environ.get("SAGAS_TEST_WRONG"):
        importlib.import_module(f"wrong_workers.{name}").apply()
    kind = sagas.celery.Queue if "SAGAS_TEST_PLAIN" in os.environ else Doubling
    queue = kind(app, settings["queue"], patience=1.0)
    return app, Remote(
        queue, settings["store"], settings["socket"], bool(os.environ.get("SAGAS_TEST_OLD"))
    )


async def surely(world: World, store: sagas.Store, number: int) -> None:
    """Run a saga to its end; repeat the calls while the store is unavailable."""
    while True:
        try:
            return await start_and_wait(world, store, number)
        except sagas.StoreUnavailable:
            await asyncio.sleep(0.1)


async def main(world: World, store: str, count: int) -> None:
    """Open the store, and repeat that while it is unavailable."""
    while True:
        opened = sagas.open(
            store,
            world.sagas,
            concurrency=32,
            settings=sagas.Settings(engine_processes=4),
            shutdown_timeout=0.5,
            node=os.environ.get("SAGAS_TEST_NODE", "owner"),
            lease=LEASE,
        )
        try:
            await opened.__aenter__()
        except sagas.StoreUnavailable:
            await asyncio.sleep(0.1)
            continue
        try:
            return await work_on(world, opened, count)
        finally:
            await opened.close()
            # a loop that closes would complain of one that comes now
            asyncio.get_running_loop().remove_signal_handler(signal.SIGTERM)


async def work_on(world: World, opened: sagas.Store, count: int) -> None:
    """Start the sagas that do not exist, and wait for all; retry the attempts that had a bug."""
    print("open", flush=True)
    retrying = asyncio.create_task(retry_bugs(opened))
    work = asyncio.gather(*(surely(world, opened, number) for number in range(count)))
    asyncio.get_running_loop().add_signal_handler(signal.SIGTERM, work.cancel)
    try:
        await work
        print("done", flush=True)
    except asyncio.CancelledError:
        print("closing", flush=True)
    finally:
        retrying.cancel()


if "SAGAS_TEST_STORE" in os.environ:
    app, world = make()
    if __name__ == "__main__":
        logging.basicConfig(level=logging.WARNING, format="%(asctime)s %(name)s %(message)s")
        logging.getLogger("sagas").addFilter(is_unexpected)
        asyncio.run(main(world, os.environ["SAGAS_TEST_STORE"], int(sys.argv[1])))
