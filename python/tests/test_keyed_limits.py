"""`concurrency_by=`, a limit for each key, and `fair_by=`, slots that tenants share."""

from __future__ import annotations

import asyncio
import contextlib
import dataclasses
import json
import os
import pathlib
import signal
import subprocess
import sys
import threading
import time
from collections import Counter, defaultdict
from collections.abc import Iterator
from typing import Any

import psycopg
import pytest
from cases import STORE_KINDS, Task, pairs, run, until
from driving import program
from test_codec import OLD, Encryption
from witness import notes_of, witness_at

import sagas
from sagas.runtime import fleet_limits


@dataclasses.dataclass
class Order:
    """An input with a type."""

    account: str
    number: int = 0


class Inside:
    """The calls inside a function, by account, and the most at once.

    The first ones wait until the allowed number is inside.
    """

    def __init__(self, accounts: int) -> None:
        self.accounts, self.until = accounts, time.monotonic() + 60
        self.now: Counter[str] = Counter()
        self.highest: Counter[str] = Counter()
        self.all = 0
        self.lock = threading.Lock()

    def is_first(self) -> bool:
        """Return whether other calls are expected before one leaves."""
        return self.all < self.accounts and time.monotonic() < self.until

    @contextlib.contextmanager
    def call(self, account: str) -> Iterator[None]:
        with self.lock:
            self.now[account] += 1
            self.highest[account] = max(self.highest[account], self.now[account])
            self.all = max(self.all, sum(self.now.values()))
        try:
            yield
        finally:
            with self.lock:
                self.now[account] -= 1


def bank(inside: Inside, in_thread: bool, **limits: Any) -> sagas.Saga:
    """Return a saga with a step that is called once at a time for each account."""
    saga = sagas.Saga("bank")

    def wait(task: sagas.Task[Order]) -> None:
        with inside.call(task.input.account):
            time.sleep(0.01)
            while inside.is_first():
                time.sleep(0.005)

    async def later(task: sagas.Task[Order]) -> None:
        with inside.call(task.input.account):
            await asyncio.sleep(0.01)
            while inside.is_first():
                await asyncio.sleep(0.005)

    saga.step(name="move", concurrency_by=lambda order: order.account, **limits)(
        wait if in_thread else later
    )
    return saga


@pytest.mark.parametrize(
    "location, limit, in_thread",
    pairs(STORE_KINDS, ("concurrency", "fleet_concurrency"), (False, True)),
    indirect=["location"],
)
def test_a_limit_holds_for_each_key_by_itself(location: str, limit: str, in_thread: bool) -> None:
    """Calls of one account run one after the other, and those of others in parallel; no state of a
    key is kept after it.
    """
    inside = Inside(3)
    saga = bank(inside, in_thread, **{limit: 1})

    async def main() -> None:
        async with sagas.open(location, [saga], concurrency=8) as store:
            runs = [await store.start(saga, f"k{n}", Order(f"a{n % 3}", n)) for n in range(12)]
            for saga_run in runs:
                assert (await saga_run.wait()).ok
            coordinator = store._coordinator
            assert not coordinator.slots._limits
            gates = coordinator.executor.fleet._gates
            await until(lambda: not any(gate.is_used() for gate in gates.values()))

    run(main())
    assert set(inside.highest.values()) == {1} and inside.all == 3, inside.highest
    if location.startswith("postgresql") and limit == "fleet_concurrency":
        with psycopg.connect(location) as link:
            assert link.execute("SELECT count(*) FROM sagas.limit_slots").fetchone() == (0,)


def rows_of(url: str) -> list[tuple[str, str | None]]:
    with psycopg.connect(url) as link:
        return link.execute(
            "SELECT name, node FROM sagas.limit_slots WHERE name NOT LIKE 'plain/%'"
        ).fetchall()


def test_rows_of_keys_are_those_of_calls(url: str) -> None:
    """A key of any length has a row for each call, under a digest, and none after it.

    The opening deletes the rows of a dead node and of an older release; a limit of the step itself
    keeps its rows.
    """
    keys = [1, "IBAN DE89", "x" * 9000, ["\ud800", None]]
    inside, opened = Counter[str](), asyncio.Event()
    saga, plain = sagas.Saga("bank"), sagas.Saga("plain")
    plain.step(lambda task: None, name="a", fleet_concurrency=2)

    @saga.step(fleet_concurrency=3, concurrency_by=lambda value: value)
    async def move(task: Task) -> None:
        inside[str(task.input)[:20]] += 1
        await opened.wait()

    async def main() -> None:
        async with sagas.open(url, [saga, plain], concurrency=32) as store:
            await (await store.start(plain, "plain")).wait()
            runs = [
                await store.start(saga, f"k{at}-{n}", key)
                for at, key in enumerate(keys)
                for n in range(4)
            ]
            await until(lambda: len(inside) == 4 and set(inside.values()) == {3})
            names = Counter(name for name, node in rows_of(url) if node)
            assert len(rows_of(url)) == 12 and set(names.values()) == {3}
            assert not any("DE89" in name or len(name) > 60 for name in names)
            opened.set()
            for saga_run in runs:
                assert (await saga_run.wait()).ok
            await until(lambda: rows_of(url) == [])
            with psycopg.connect(url) as link:
                for slot, node in ((2, None), (3, "gone/1")):
                    link.execute(
                        "INSERT INTO sagas.limit_slots VALUES('bank/move/\"x\"', 'limit', %s, %s)",
                        [slot, node],
                    )
        async with sagas.open(url, [saga, plain]):
            assert rows_of(url) == []
            with psycopg.connect(url) as link:
                assert link.execute("SELECT count(*) FROM sagas.limit_slots").fetchone() == (2,)

    run(main())


def test_a_slot_of_a_dead_node_is_taken(url: str) -> None:
    """Its rows do not block a key."""
    inside = Inside(1)
    saga = bank(inside, False, fleet_concurrency=2)

    async def main() -> None:
        async with sagas.open(url, [saga]) as store:
            name = f"bank/move/{fleet_limits.digest_of('bank/move', json.dumps('a'))}"
            with psycopg.connect(url) as link:
                for slot in (1, 2):
                    link.execute(
                        "INSERT INTO sagas.limit_slots VALUES(%s, 'limit', %s, 'gone/1')",
                        [name, slot],
                    )
            assert (await (await store.start(saga, "k", Order("a"))).wait()).ok
            await until(lambda: rows_of(url) == [(name, "gone/1")])

    run(main())


def test_a_key_is_of_all_nodes(url: str) -> None:
    """Two nodes never call two steps of one account at the same time."""
    inside = Inside(2)
    first_bank, second_bank = bank(inside, False, fleet_concurrency=1), bank(
        inside, False, fleet_concurrency=1
    )

    async def main() -> None:
        async with sagas.open(url, [first_bank], node="one") as first, sagas.open(
            url, [second_bank], node="two"
        ) as second:
            runs = [await first.start(first_bank, f"one-{n}", Order(f"a{n % 2}")) for n in range(6)]
            runs += [
                await second.start(second_bank, f"two-{n}", Order(f"a{n % 2}")) for n in range(6)
            ]
            for each in runs:
                assert (await each.wait()).ok

    run(main())
    assert set(inside.highest.values()) == {1} and inside.all == 2


def test_an_error_in_the_key_of_a_limit_fails_the_step(location: str) -> None:
    """Its function is not called; a key is JSON."""

    def account(value: Any) -> Any:
        if value == "odd":
            return object()
        return value["account"]

    saga = sagas.Saga("odd")

    @saga.step(concurrency=1, concurrency_by=account)
    async def move(task: Task) -> None:
        assert task.input == {"account": None}

    async def main() -> None:
        async with sagas.open(location, [saga]) as store:
            errors = []
            for number, value in enumerate([{}, "odd", {"account": None}]):
                end = await (await store.start(saga, f"k{number}", value)).wait()
                errors.append(end.errors.get("move", "done"))
            assert (
                errors[0] == "KeyError: 'account'"
                and errors[1].startswith("NotSerializable: ")
                and errors[2] == "done"
            )

    run(main())


def test_invalid_limits_with_a_key_are_refused() -> None:
    """Each error says what to do."""
    saga = sagas.Saga("s")

    async def move(task: Task) -> None:
        ...

    def by(value: Any) -> Any:
        ...

    for options, text in [
        ({"concurrency_by": "account", "concurrency": 1}, "a plain function of the input"),
        ({"concurrency_by": move, "concurrency": 1}, "a plain function of the input"),
        ({"concurrency_by": by}, "Set concurrency or fleet_concurrency"),
        (
            {"concurrency_by": by, "fleet_concurrency": 1, "rate_limit": (1, 1)},
            "cannot be combined with rate_limit",
        ),
    ]:
        with pytest.raises(sagas.DefinitionError, match=text):
            sagas.Saga("s").step(name="a", **options)(move)  # type: ignore[call-overload]
    with pytest.raises(sagas.DefinitionError, match="needs a function in this program"):
        wrong: dict[str, Any] = {"external": True, "concurrency": 1, "concurrency_by": by}
        saga.step(name="b", **wrong)
    with pytest.raises(sagas.DefinitionError, match="fair_by=1: must be a plain function"):
        sagas.Saga("s", fair_by=1)  # type: ignore[arg-type]


@pytest.mark.parametrize(
    "location, again, codec",
    pairs(STORE_KINDS, (False, True), (None, Encryption(a=OLD))),
    indirect=["location"],
)
def test_a_small_tenant_does_not_wait_for_a_large_one(
    location: str, again: bool, codec: Encryption | None
) -> None:
    """This holds also after a restart with running attempts.

    Sagas of one tenant run in their order.
    """
    called: list[str] = []
    opened = asyncio.Event()
    saga = sagas.Saga("shop", fair_by=lambda value: value["tenant"])

    @saga.step
    async def work(task: Task) -> None:
        called.append(task.input["tenant"])
        await opened.wait()

    @saga.step(needs=[work])
    def more(task: Task) -> None:
        called.append(task.input["tenant"])

    async def start(store: sagas.Store) -> None:
        for number in range(10):
            await store.start(saga, f"large-{number}", {"tenant": "large"})
        await store.start(saga, "small", {"tenant": "small"})

    async def main() -> None:
        nonlocal opened
        if again:
            async with sagas.open(
                location, [saga], concurrency=1, shutdown_timeout=0, codec=codec
            ) as store:
                await start(store)
                await until(lambda: called)
            called.clear()
        async with sagas.open(location, [saga], concurrency=1, codec=codec) as store:
            if not again:
                await start(store)
            await until(lambda: called and len(store._coordinator.slots._queued) == 10)
            opened.set()
            await store.wait_idle()
            assert (await store.wait("small")).ok and called.index("small") <= 2, called
            assert called.count("small") == 2 and len(called) == 22

    run(main())


def test_the_tenant_of_a_saga_cannot_be_computed(
    tmp_path: pathlib.Path, caplog: pytest.LogCaptureFixture
) -> None:
    """Then the saga has no tenant; the log reports that without the input."""
    saga = sagas.Saga("shop", fair_by=lambda value: value["tenant"])

    @saga.step
    async def work(task: Task) -> None:
        ...

    async def main() -> None:
        async with sagas.open(tmp_path / "store.db", [saga]) as store:
            assert (await (await store.start(saga, "k", {"secret": 7})).wait()).ok

    run(main())
    assert (
        caplog.text.count("fair_by raised KeyError. Such sagas share one tenant") == 1
        and "secret" not in caplog.text
    )


KILLED = """
import asyncio, sys
import sagas
from witness import Witness
witness = Witness(sys.argv[2])
saga = sagas.Saga("bank", fair_by=lambda given: given["account"])
@saga.step(concurrency=1, fleet_concurrency=1, concurrency_by=lambda given: given["account"])
async def move(task):
    witness.note(what="begin", key=task.key, account=task.input["account"])
    await asyncio.sleep(0.02)
    witness.note(what="end", key=task.key, account=task.input["account"])
async def main():
    witness.note(what="open")
    async with sagas.open(sys.argv[1], [saga], node="one", concurrency=4) as store:
        for number in range(24):
            await store.start(saga, f"k{number}", {"account": number % 3})
        await store.wait_idle()
        assert all([(await store.wait(f"k{number}")).ok for number in range(24)])
asyncio.run(main())
"""


def test_a_program_that_is_killed_while_keys_are_taken(
    location: str, tmp_path: pathlib.Path
) -> None:
    """No key stays taken, and in each run of the program one saga of an account is called at a
    time.
    """
    here = pathlib.Path(__file__).parent
    environment = os.environ | {
        "PYTHONPATH": f"{here.parent / 'src'}{os.pathsep}{here}",
        "SAGAS_PROGRAM": program(),
    }
    notes = tmp_path / "notes"

    async def main() -> None:
        for kill in (3, 9, None):
            command = [sys.executable, "-c", KILLED, location, str(tmp_path / "witness")]
            process = subprocess.Popen(command, env=environment)
            if kill:
                await until(lambda: sum(note["what"] == "end" for note in notes_of(notes)) >= kill)
                process.send_signal(signal.SIGKILL)
            assert (await asyncio.to_thread(process.wait, 120) == 0) is (kill is None)

    with witness_at(tmp_path / "witness", notes):
        run(main())
    busy: dict[int, str] = {}
    ended = defaultdict(int)
    for note in notes_of(notes):
        if note["what"] == "open":
            busy.clear()
        elif note["what"] == "begin":
            assert note["account"] not in busy, note
            busy[note["account"]] = note["key"]
        else:
            assert busy.pop(note["account"]) == note["key"]
            ended[note["key"]] += 1
    assert len(ended) == 24 and sum(ended.values()) <= 24 + 2 * 3
