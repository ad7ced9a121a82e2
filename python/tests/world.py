"""The program that the kill tests kill: five sagas, each of whose calls is reported to a witness.

    python3 tests/world.py STORE SOCKET COUNT [--concurrency N] [--small] [--wrong NAME]
        [--reader URL] [--node NAME] [--lease SECONDS]

Over PostgreSQL there are a sixth saga whose steps are inside, and a seventh whose steps workers do:
each node has one worker, which gets tasks of the sagas of all nodes.

Whether an attempt fails is drawn from the key, the step and the attempt only, so that it is the
same whenever that attempt is made again. With `--small` a log takes few sagas, and two children
share many logs. The program reports each reply (a saga is started, aborted, over) to the witness,
with the content of the database's file at that moment.
"""

from __future__ import annotations

import argparse
import asyncio
import contextlib
import datetime
import importlib
import json
import logging
import random
import re
import signal
import sqlite3
import time
from collections.abc import Callable
from typing import Any

import psycopg
from cases import unknown_attempts
from witness import Witness

import sagas
import sagas.definition.registry
from sagas.core import states

states.Check.is_on = True
QUICK = sagas.Backoff(initial=0.01, maximum=0.05)
ROW = "INSERT INTO public.book(token, note, kind) VALUES(%s, %s, %s)"
SILENT = {("approve", "run"), ("approve", "undo"), ("pause", "undo")}
"""Steps without an effect that the witness sees."""


def chance(seed: str) -> float:
    """Return a number from 0 to 1, the same for the same text."""
    return random.Random(seed).random()


def expected(key: str, step: str) -> Any:
    """Return the result of a step of a saga."""
    return None if chance(f"{key}/{step}/none") < 0.3 else {"of": [key, step]}


class OutsideReader:
    """A reader of the store outside of the program."""

    def __init__(self, store: str) -> None:
        self.store = store
        self._idle: list[psycopg.Connection[tuple[Any, ...]]] = []
        """connections that are not in use at this moment"""

    def _ask(self, text: str, *parameters: Any) -> list[tuple[Any, ...]]:
        if self.store.startswith("postgresql:"):
            return self._ask_server(text.replace("%", "%%").replace("?", "%s"), parameters)
        db = sqlite3.connect(f"file:{self.store}?mode=ro", uri=True, timeout=10)
        try:
            return db.execute(text, parameters).fetchall()
        finally:
            db.close()

    def _ask_server(self, text: str, parameters: tuple[Any, ...]) -> list[tuple[Any, ...]]:
        """Repeat a query while the server is down: what it does not answer cannot be judged."""
        until = time.monotonic() + 120
        while True:
            try:
                return self._look(text, parameters)
            except psycopg.OperationalError:
                if time.monotonic() > until:
                    raise
                time.sleep(0.05)

    def _look(self, text: str, parameters: tuple[Any, ...]) -> list[tuple[Any, ...]]:
        """Execute a query once, through a connection that is used again if the query succeeds."""
        try:
            link = self._idle.pop()
        except IndexError:
            link = psycopg.connect(
                self.store,
                options="-csearch_path=sagas",
                connect_timeout=10,
                autocommit=True,
            )
        try:
            rows = link.execute(text, parameters or None).fetchall()
        except BaseException:
            link.close()
            raise
        self._idle.append(link)
        return rows

    def phase(self, key: str) -> tuple[bool, str | None]:
        """Return whether a key exists, and its phase."""
        rows = self._ask("SELECT phase FROM sagas WHERE key = ?", key)
        return (True, rows[0][0]) if rows else (False, None)

    def begins(self, name: str, saga: int, step: int, kind: str) -> int:
        """Return how often the lines of a log start a step's action or compensation."""
        line = f'{{"event":"start_{kind}","saga":{saga},"step":{step}}}\n'
        rows = self._ask(
            "SELECT text FROM event_log JOIN shards USING (shard) WHERE name = ?", name
        )
        return sum(text.count(line) for (text,) in rows)

    def awaiting_approval(self) -> list[str]:
        """Return the keys of the sagas that wait for an approval."""
        return [
            key
            for (key,) in self._ask(
                "SELECT key FROM suspensions JOIN sagas USING (id) WHERE reason = 'approval'"
            )
        ]

    def finished(self, key: str, value: Any) -> bool:
        """Return whether a result exists."""
        query = (
            "SELECT value FROM attempts JOIN sagas USING (id) WHERE key = ? AND event = 'commit'"
        )
        return json.dumps(value, separators=(",", ":"), sort_keys=True) in {
            text for (text,) in self._ask(query, key)
        }

    def aborts(self, key: str) -> bool:
        """Return whether the lines abort the saga of a key."""
        rows = self._ask(
            "SELECT id % 1000, text FROM sagas JOIN event_log ON shard = id / 1000 WHERE key = ?",
            key,
        )
        return any(f'{{"event":"abort","saga":{number}}}\n' in text for number, text in rows)


class Refused(Exception):
    """An exception that the steps declare to mean that there was no effect."""


UNKNOWN_ERRORS = (
    ConnectionError,
    TimeoutError,
    ValueError,
    KeyError,
    sagas.Unknown,
    SystemExit,
    asyncio.CancelledError,
)
"""Exceptions with which the outcome of a call is unknown."""


def unknown_error() -> BaseException:
    """Return an exception with which the outcome of a call is unknown."""
    return random.choice(UNKNOWN_ERRORS)("outcome unknown")


def failure(is_final: bool) -> Exception:
    """Return an exception with which a call had no effect."""
    if is_final:
        return sagas.Fail("permanently")
    return random.choice((sagas.Retry("fails"), sagas.RetryAfter(0.01), Refused("fails")))


class World:
    """The sagas, over a witness and a reader of the store.

    Attributes:
        has_bugs: Whether some calls have a bug of the program after their effect.
    """

    has_bugs = False

    def __init__(self, witness: Witness, reader: OutsideReader, inside: bool = False) -> None:
        self.witness, self.reader = witness, reader
        self.sagas = [
            self.chain(),
            self.trip(),
            self.must(),
            self.late(),
            self.order(),
            *([self.desk(), self.far()] if inside else []),
        ]

    def act(self, task: Any, failing: float, unknown: float = 0.0) -> Any:
        """Make a call: it starts, fails or has its effect, and its outcome may be unknown."""
        call = self.begins(task)
        if chance(self.named(task)) < failing:
            self.fail(task, failing)
        self.witness.note(what="effect", **call, **self.handed(task))
        if self.is_hazy(call, unknown):
            is_bug = self.has_bugs and random.random() < 0.2
            raise NameError("a bug") if is_bug else unknown_error()
        return expected(task.key, task.step)

    async def write(self, task: Any, failing: float) -> Any:
        """As `act`, of a step inside: its effect is a row.

        The server refuses half of its failures in the commit.
        """
        await task.connection.execute(ROW, self.row(task, failing))
        return expected(task.key, task.step)

    def write_in_thread(self, task: Any, failing: float) -> Any:
        """As `write`, of a plain function."""
        task.connection.execute(ROW, self.row(task, failing))
        return expected(task.key, task.step)

    def row(self, task: Any, failing: float) -> tuple[str, str, str]:
        """Return the row that it writes, if it does not fail before."""
        call = self.begins(task)
        fails = chance(self.named(task)) < failing
        if fails and chance(f"{self.named(task)}/where") < 0.5:
            self.fail(task, failing)
        return (
            task.attempt_id,
            json.dumps({"what": "effect", **call, **self.handed(task)}),
            "bad" if fails else "good",
        )

    def begins(self, task: Any) -> dict[str, Any]:
        """Report the start of a call."""
        kind = "undo" if task.is_compensation else "run"
        call = {
            "key": task.key,
            "step": task.step,
            "kind": kind,
            "attempt": task.attempt,
            "token": task.attempt_id,
        }
        name, number, _ = task.attempt_id.split("-", 2)
        begins = self.reader.begins(name, int(number), self.steps(task).index(task.step), kind)
        self.witness.note(
            what="begin",
            input=task.input,
            begun=begins,
            idempotency_key=task.idempotency_key,
            **call,
        )
        return call

    def steps(self, task: Any) -> list[str]:
        """Return the names of the saga's steps in order.

        If they come from its input, the input has them.
        """
        # also if no world was made
        at, names = (task.saga, task.input["i"]), self.__dict__.setdefault("names", {})
        if at not in names:
            saga = next(saga for saga in self.sagas if saga.name == task.saga)
            names[at] = re.findall(r'^name = "(.*)"$', saga.toml(task.input), re.M)[1:]
        step_names: list[str] = names[at]
        return step_names

    def named(self, task: Any) -> str:
        """Return the text that the draws of an attempt come from."""
        return f"{task.key}/{task.step}/{'undo' if task.is_compensation else 'run'}/{task.attempt}"

    def fail(self, task: Any, failing: float) -> None:
        """Fail a call, sometimes permanently."""
        raise failure(chance(self.named(task)) < failing / 4)

    def handed(self, task: Any) -> dict[str, Any]:
        """Return the arguments of a call."""
        # of an included saga
        prefix = task.step.removesuffix(task.declared_step.rpartition("/")[2])
        more: dict[str, Any] = {
            "results": {
                (prefix if "/" in task.declared_step else "") + name: value
                for name, value in task.results.items()
            }
        }
        if task.is_compensation:
            more |= {"of": task.original_idempotency_key, "result": task.result}
        return more

    def is_hazy(self, call: dict[str, Any], unknown: float) -> bool:
        """Return whether the outcome of this call is unknown to the caller, this time."""
        return random.random() < unknown

    def chain(self) -> sagas.Saga:
        """Three steps in a row, with threads, failures and times."""
        chain = sagas.Saga("chain")

        @chain.step(tries=1, no_effect=(Refused,), keep=9, undo=1)
        async def reserve(task: Any) -> Any:
            await asyncio.sleep(0.001)
            return self.act(task, 0.05)

        @reserve.compensation(tries=3, backoff=QUICK, on_exhausted="fail")
        async def release(task: Any) -> None:
            self.act(task, 0.3)

        @chain.step(no_effect=(Refused,), needs=[reserve], tries=3, backoff=QUICK, keep=9, undo=1)
        def charge(task: Any) -> Any:
            return self.act(task, 0.3, unknown=0.1)

        @charge.compensation(tries=1, backoff=QUICK, on_exhausted="fail")
        def refund(task: Any) -> None:
            self.act(task, 0.05, unknown=0.1)

        @chain.step(no_effect=(Refused,), needs=[charge], tries=2, timeout=5, backoff=QUICK)
        async def ship(task: Any) -> Any:
            return self.act(task, 0.4)

        return chain

    def trip(self) -> sagas.Saga:
        """A diamond with costs: some of it is worth keeping."""
        trip = sagas.Saga("trip")

        @trip.step(no_effect=(Refused,), tries=1)
        async def flight(task: Any) -> Any:
            return self.act(task, 0.1)

        @trip.step(tries=1, no_effect=(Refused,), needs=[flight], keep=8, undo=2, backoff=QUICK)
        async def hotel(task: Any) -> Any:
            return self.act(task, 0.2, unknown=0.1)

        @hotel.compensation(tries=1, on_exhausted="fail")
        async def cancel_hotel(task: Any) -> None:
            self.act(task, 0.0)

        @trip.step(no_effect=(Refused,), needs=[flight], keep=8, undo=5, tries=2, backoff=QUICK)
        def car(task: Any) -> Any:
            return self.act(task, 0.2)

        @car.compensation(tries=1, on_exhausted="fail")
        def cancel_car(task: Any) -> None:
            self.act(task, 0.1)

        @trip.step(tries=1, no_effect=(Refused,), needs=[hotel, car], skip=3)
        async def tour(task: Any) -> Any:
            return self.act(task, 0.3)

        return trip

    def must(self) -> sagas.Saga:
        """A saga that may be stuck."""
        must = sagas.Saga("must")

        @must.step(no_effect=(Refused,), skip=sagas.NEVER, tries=2, backoff=QUICK)
        async def machine(task: Any) -> Any:
            return self.act(task, 0.4)

        @must.step(tries=1, no_effect=(Refused,), needs=[machine], skip=sagas.NEVER)
        async def licence(task: Any) -> Any:
            return self.act(task, 0.1)

        return must

    def late(self) -> sagas.Saga:
        """A saga with a wait, an approval, and a step with two running at once."""
        late = sagas.Saga("late")

        @late.step(tries=1, no_effect=(Refused,), concurrency=2, keep=9, undo=1)
        async def order(task: Any) -> Any:
            return self.act(task, 0.05, unknown=0.1)

        @order.compensation(tries=2, backoff=QUICK, on_exhausted="fail")
        async def cancel_order(task: Any) -> None:
            self.act(task, 0.2)

        @late.wait(needs=[order], until=datetime.timedelta(seconds=0.05), backoff=QUICK)
        async def pause(task: Any) -> Any:
            return self.act(task, 0.1)

        @late.approval(needs=[pause], backoff=QUICK)
        async def approve(task: Any) -> None:
            self.witness.note(what="asked", key=task.key)

        @late.step(tries=1, no_effect=(Refused,), needs=[approve])
        def go(task: Any) -> Any:
            return self.act(task, 0.3)

        return late

    def order(self) -> sagas.Saga:
        """A saga whose steps and costs come from its input: most have their own definition.

        Two sagas are included, one of them for each item.
        """
        order, box = sagas.Saga("order"), self.box()

        @order.step(tries=1, no_effect=(Refused,), keep=9, undo=1)
        async def collect(task: Any) -> Any:
            return self.act(task, 0.05)

        @collect.compensation(tries=3, backoff=QUICK, on_exhausted="fail")
        async def put_back(task: Any) -> None:
            self.act(task, 0.2)

        @order.step(
            no_effect=(Refused,),
            for_each=lambda input: {f"p {n}/": {"worth": n} for n in range(input["i"] % 4)},
            needs=[collect],
            tries=2,
            backoff=QUICK,
            undo=3,
            keep=lambda item: item["worth"] * 2,
            skip=lambda item: item["worth"],
        )
        def send(task: Any) -> Any:
            assert (
                task.index == f"p {task.item['worth']}/"
                and task.step == f"send-{task.item['worth']}"
            )
            return self.act(task, 0.15, unknown=0.1)

        @send.compensation(tries=1, backoff=QUICK, on_exhausted="fail")
        def call_back(task: Any) -> None:
            assert task.step == f"send-{task.item['worth']}"
            self.act(task, 0.1)

        first = order.include(box, name="box", needs=[send], when=lambda input: input["i"] % 3)

        @order.step(tries=1, no_effect=(Refused,), needs=[first], skip=lambda input: input["i"])
        async def mail(task: Any) -> Any:
            assert list(task.result_of(send)) == [f"p {n}/" for n in range(task.input["i"] % 4)]
            return self.act(task, 0.1)

        return order

    def box(self) -> sagas.Saga:
        """A saga that is included: within it another one, for each item."""
        box, lid = sagas.Saga("box"), sagas.Saga("lid")

        @lid.step(tries=1, no_effect=(Refused,), undo=2, keep=1)
        async def close(task: Any) -> Any:
            return self.act(task, 0.05)

        @close.compensation(tries=1, on_exhausted="fail")
        async def open(task: Any) -> None:
            self.act(task, 0.05)

        @box.step(tries=1, no_effect=(Refused,), undo=0)
        async def fold(task: Any) -> Any:
            return self.act(task, 0.05)

        box.include(
            lid, for_each=lambda input: [{"i": input["i"]}] * (input["i"] % 3), needs=[fold]
        )
        return box

    def desk(self) -> sagas.Saga:
        """Three steps inside the database, in a row; the second has plain functions."""
        desk = sagas.Saga("desk")

        @desk.step(no_effect=(Refused,), transaction=True, tries=2, backoff=QUICK, keep=9, undo=1)
        async def enter(task: Any) -> Any:
            return await self.write(task, 0.2)

        @enter.compensation(tries=3, backoff=QUICK, on_exhausted="fail")
        async def strike(task: Any) -> None:
            await self.write(task, 0.2)

        @desk.step(
            no_effect=(Refused,),
            transaction=True,
            needs=[enter],
            tries=3,
            backoff=QUICK,
            keep=9,
            undo=1,
        )
        def stamp(task: Any) -> Any:
            return self.write_in_thread(task, 0.3)

        @stamp.compensation(tries=1, backoff=QUICK, on_exhausted="fail")
        def unstamp(task: Any) -> None:
            self.write_in_thread(task, 0.05)

        @desk.step(
            no_effect=(Refused,),
            transaction=True,
            needs=[stamp],
            tries=2,
            timeout=30,
            backoff=QUICK,
        )
        async def file(task: Any) -> Any:
            return await self.write(task, 0.4)

        return desk

    def far(self) -> sagas.Saga:
        """Two parallel steps that workers do, and a third after them.

        An unknown outcome waits for a while, during which the saga may be aborted.
        """
        far = sagas.Saga("far")
        pause = sagas.Backoff(initial=0.4, maximum=0.4)
        pay = far.step(name="pay", external=True, tries=2, backoff=pause, keep=9, undo=1)
        pay.compensation(external=True, tries=3, backoff=QUICK, on_exhausted="fail")
        hold = far.step(tries=1, name="hold", external=True, backoff=QUICK, undo=sagas.NEVER)
        far.step(
            tries=1, name="send", needs=[pay, hold], external=True, backoff=QUICK, undo=sagas.NEVER
        )
        return far


FAR = {
    ("pay", "run"): (0.1, 0.4),
    ("pay", "undo"): (0.1, 0.0),
    ("hold", "run"): (0.3, 0.0),
    ("send", "run"): (0.2, 0.0),
}
"""The chance that a worker's call fails, and the chance that its outcome is unknown."""
LEASE = 1.0


async def work(world: World, store: sagas.Store) -> None:
    """Work on the tasks of this node, whichever node drives their sagas."""
    tasks = [("far", step, kind) for step, kind in FAR]
    while True:
        # the store is unavailable, or the lease is lost: another worker does it again
        with contextlib.suppress(sagas.SagasError):
            for leased in await store.workers.claim(tasks, limit=2, wait=0.2, lease=LEASE):
                report = await asyncio.to_thread(done, world, leased.task)
                await store.workers.report(leased.attempt_id, leased.lease, **report)
        await asyncio.sleep(0.01)


def done(world: World, task: Any) -> dict[str, Any]:
    """Return a worker's report of a task."""
    failing, unknown = FAR[task.step, "undo" if task.is_compensation else "run"]
    return reported(lambda: world.act(task, failing, unknown))


def reported(call: Callable[[], Any]) -> dict[str, Any]:
    """Return a worker's report of a call: its result, or what its exception means."""
    try:
        return {"result": call()}
    except (sagas.Fail, sagas.Retry, Refused) as error:
        return {"error": str(error), "final": isinstance(error, sagas.Fail)}
    except NameError as error:
        return {"unknown": str(error), "program_error": True}
    except BaseException as error:
        return {"unknown": str(error)}


async def abort_unknown(world: World, store: sagas.Store, run: sagas.Run) -> None:
    """Abort a saga as soon as one of its outcomes is unknown, if one is."""
    while True:
        with contextlib.suppress(sagas.StoreUnavailable):
            if any(attempt.key == run.key for attempt in await unknown_attempts(store)):
                if await run.abort():
                    world.witness.note(
                        what="aborted", key=run.key, there=world.reader.aborts(run.key)
                    )
                return
        await asyncio.sleep(0.02)


async def approve_all(world: World, store: sagas.Store) -> None:
    """Approve every request."""
    while True:
        for key in world.reader.awaiting_approval():
            value = expected(key, "approve")
            with contextlib.suppress(sagas.SagasError):
                await store.complete(key, "approve", value)
                world.witness.note(
                    what="finished", key=key, there=world.reader.finished(key, value)
                )
        await asyncio.sleep(0.05)


async def retry_bugs(store: sagas.Store) -> None:
    """Retry each attempt whose function had a bug, as after a deploy."""
    while True:
        with contextlib.suppress(sagas.SagasError):
            for entry in await store.attention():
                if entry.why is sagas.AttentionReason.PROGRAM_ERROR and entry.step:
                    await store.retry(entry.key, entry.step, undo=entry.undo)
        await asyncio.sleep(0.05)


async def started(store: sagas.Store, saga: sagas.Saga, key: str, value: Any) -> sagas.Run:
    """Start a saga; repeat that while the store is unavailable."""
    while True:
        try:
            return await store.start(saga, key=key, input=value)
        except sagas.StoreUnavailable:
            await asyncio.sleep(0.05)


async def start_and_wait(world: World, store: sagas.Store, number: int) -> None:
    """Run a saga to its end, and report each reply to the witness once the program has it."""
    key, note, reader = f"k{number}", world.witness.note, world.reader
    run = await started(store, world.sagas[number % len(world.sagas)], key, {"i": number})
    note(what="started", key=key, there=reader.phase(key)[0])
    if number % 17 == 0:
        await asyncio.sleep(0.01)
        with contextlib.suppress(sagas.StoreUnavailable):
            if await run.abort():
                note(what="aborted", key=key, there=reader.aborts(key))
    aborting = (
        asyncio.create_task(abort_unknown(world, store, run))
        if number % 2 and number % len(world.sagas) == 6
        else None
    )
    try:
        end = await run.wait()
    finally:
        if aborting:
            aborting.cancel()
    end_note = {
        "phase": end.phase,
        "states": end.states,
        "results": end.results,
        "cost": end.cost,
        "aborted": end.aborted,
    }
    note(what="over", key=key, there=reader.phase(key)[1], **end_note)


async def every(world: World, store: sagas.Store, count: int) -> None:
    """Run all sagas at once.

    Those with steps inside run before the others or after them, one by one, so that they are alone
    as well.
    """
    inside = [number for number in range(count) if number % len(world.sagas) == 5]
    others = [number for number in range(count) if number not in inside]
    is_first = random.random() < 0.5
    if not is_first:
        await asyncio.gather(*(start_and_wait(world, store, number) for number in others))
    for number in inside:
        await start_and_wait(world, store, number)
    if is_first:
        await asyncio.gather(*(start_and_wait(world, store, number) for number in others))


async def opened(stack: contextlib.AsyncExitStack, make: Callable[[], sagas.Store]) -> sagas.Store:
    """Open a store; repeat that while its server is down."""
    while True:
        try:
            return await stack.enter_async_context(make())
        except sagas.StoreUnavailable:
            if not make().path.startswith("PostgreSQL"):
                raise
            await asyncio.sleep(0.05)


async def main(options: argparse.Namespace) -> None:
    """Start the sagas that do not exist, wait for all, and close. SIGTERM closes it earlier."""
    world = World(
        Witness(options.socket),
        OutsideReader(options.reader or options.store),
        inside=options.node is not None,
    )
    world.has_bugs = True
    if options.wrong:
        package = "wrong_stores" if options.node else "wrong"
        importlib.import_module(f"{package}.{options.wrong}").apply()
    if options.small:
        setattr(sagas.definition.registry, "SHARD_CAPACITY", 10)
    children = 2 if options.small else 16
    async with contextlib.AsyncExitStack() as stack:

        def make() -> sagas.Store:
            store = sagas.open(
                options.store,
                world.sagas,
                concurrency=options.concurrency,
                settings=sagas.Settings(engine_processes=children),
                node=options.node,
                lease=options.lease,
            )
            store.leased = options.node is not None
            return store

        store = await opened(stack, make)
        others = [
            asyncio.create_task(approve_all(world, store)),
            asyncio.create_task(retry_bugs(store)),
            *([asyncio.create_task(work(world, store))] if options.node else []),
        ]
        starting = asyncio.create_task(every(world, store, options.count))
        asyncio.get_running_loop().add_signal_handler(signal.SIGTERM, starting.cancel)
        print("open", flush=True)
        try:
            await starting
            print("done", flush=True)
        except asyncio.CancelledError:
            print("closing", flush=True)
        for other in others:
            other.cancel()
    # a loop that closes would complain of one that comes now
    asyncio.get_running_loop().remove_signal_handler(signal.SIGTERM)


def is_unexpected(record: logging.LogRecord) -> bool:
    """Return whether a record is not of an error that the functions here raise deliberately.

    A traceback would be the package's own.
    """
    return getattr(record, "sagas", {}).get("name") not in (
        "step_retrying",
        "step_failed",
        "step_unknown",
        "step_program_error",
    )


if __name__ == "__main__":
    parser = argparse.ArgumentParser(description=__doc__)
    parser.add_argument("store")
    parser.add_argument("socket")
    parser.add_argument("count", type=int)
    parser.add_argument("--concurrency", type=int, default=16)
    parser.add_argument("--small", action="store_true")
    parser.add_argument("--wrong")
    parser.add_argument("--reader")
    parser.add_argument("--node")
    parser.add_argument("--lease", type=float, default=10.0)
    logging.basicConfig(level=logging.WARNING, format="%(asctime)s %(name)s %(message)s")
    logging.getLogger("sagas").addFilter(is_unexpected)
    asyncio.run(main(parser.parse_args()))
