"""Inputs and results whose types have changed under open sagas.

A program does not execute what it cannot read, and no step fails because of that.
"""

from __future__ import annotations

import asyncio
import dataclasses
import datetime
import decimal
import enum
import logging
from collections.abc import Callable
from typing import Any, Optional

import pytest
from cases import QUICK, Task, run, until

import sagas
from sagas.definition import decoders
from sagas.definition.call_options import Manner
from sagas.definition.task_data import TaskSnapshot


@dataclasses.dataclass
class Old:
    """An order of the earlier release."""

    amount: int


@dataclasses.dataclass
class Wants:
    """The order of a program that does not know earlier orders."""

    amount: int
    address: str


@dataclasses.dataclass
class Mended:
    """The order with the field added as it should be."""

    amount: int
    address: str = "unknown"


class Color(enum.Enum):
    """A result of the earlier release."""

    RED = "red"


class Fewer(enum.Enum):
    """A result without one field."""

    BLUE = "blue"


class Shop:
    """A saga of charge, an approval, and ship; with the types that ship and the refund read.

    The class keeps what each call did.
    """

    def __init__(
        self, ship_as: Any, refund_as: Any = None, gives: Any = Color, fails: bool = False
    ) -> None:
        self.calls: list[str] = []
        self.fails = fails
        self.saga = saga = sagas.Saga("shop")
        charge = saga.step(name="charge", keep=9, undo=0, backoff=QUICK)(self.charging(gives))
        charge.compensation(self.refunding(refund_as))
        ok = saga.approval(name="ok", needs=[charge])(lambda task: None)
        ship = saga.step(
            name="ship", needs=[ok, charge], tries=2, backoff=QUICK, no_effect=(TypeError,)
        )
        ship(self.shipping(ship_as))

    def charging(self, gives: Any) -> Callable[[Task], Any]:
        async def charge(task: Task) -> Any:
            self.calls.append("charge")
            return "red"

        charge.__annotations__["return"] = gives
        return charge

    def refunding(self, hint: Any) -> Callable[[Task], Any]:
        async def refund(task: Task) -> None:
            self.calls.append(f"refund {getattr(task.input, 'amount', None)}")

        if hint:
            refund.__annotations__["task"] = sagas.Task[hint]
        return refund

    def shipping(self, hint: Any) -> Callable[[Task], Any]:
        def ship(task: Task) -> None:
            amount, _ = task.input.amount, task.result_of("charge")
            self.calls.append(f"ship {amount}")
            if self.fails:
                raise TypeError("the application's own")

        ship.__annotations__["task"] = sagas.Task[hint]
        return ship


async def opened_at(location: str, shop: Shop, *keys: str) -> None:
    """Leave sagas that wait for an approval, as a program does that closes."""
    async with sagas.open(location, [shop.saga]) as store:
        for key in keys:
            await store.start(shop.saga, key, {"amount": 314159})
        await until(
            lambda: sum(
                any(attempt.waits == "approval" for attempt in store.active_attempts(key))
                for key in keys
            )
            == len(keys)
        )


async def parked(store: sagas.Store, key: str = "k") -> list[sagas.Attention]:
    """Return what needs an operator, once the saga waits for another program."""
    await until(
        lambda: any(attempt.waits == "cannot_decode" for attempt in store.active_attempts(key))
    )
    while not (entries := await store.attention()):  # its row is being written
        await asyncio.sleep(0.005)
    return entries


@pytest.mark.parametrize(
    "change, why",
    [
        (
            {"ship_as": Wants},
            "saga 'shop', step 'ship': input: missing 'address', which Wants requires",
        ),
        (
            {"ship_as": Old, "gives": Fewer},
            "saga 'shop', step 'ship': result of 'charge': not a value of Fewer",
        ),
        (
            {"ship_as": Optional[Wants]},
            "saga 'shop', step 'ship': input: missing 'address', which Wants requires",
        ),
    ],
)
def test_a_type_that_changed_parks_the_attempt(
    location: str, change: dict[str, Any], why: str, caplog: pytest.LogCaptureFixture
) -> None:
    """It waits, is listed, and continues in a program that can read it: no step fails, none is
    compensated, no try is used up.
    """
    new, mended = Shop(**change), Shop(Mended)
    events: list[sagas.Event] = []

    async def main() -> None:
        await opened_at(location, Shop(Old), "k")
        async with sagas.open(location, [new.saga], on_event=events.append) as store:
            warning = "this program cannot read 1 open saga"
            assert warning in caplog.text and "314159" not in caplog.text
            await store.complete("k", "ok")
            (entry,) = await parked(store)
            assert (entry.key, entry.why, entry.step, entry.undo, entry.detail) == (
                "k",
                "cannot_decode",
                "ship",
                False,
                why,
            )
            assert entry.why is sagas.AttentionReason.CANNOT_DECODE
            with pytest.raises(
                TimeoutError, match="ship waits for a program that can read its stored values"
            ):
                await store.wait("k", timeout=0.05)
        async with sagas.open(location, [new.saga]) as store:  # it is so again
            assert len(await parked(store)) == 1 and new.calls == []
        async with sagas.open(location, [mended.saga]) as store:
            assert (
                (await store.wait("k")).ok
                and mended.calls == ["ship 314159"]
                and await store.attention() == []
            )

    with caplog.at_level(logging.WARNING):
        run(main())
    assert [event.detail for event in events if event.name == "step_cannot_decode"] == [why]
    assert not [
        event for event in events if event.name in ("step_retrying", "step_failed", "plan_adopted")
    ]


def test_a_compensation_that_cannot_read_waits(location: str) -> None:
    """It waits as an action does: it has not failed, and the saga ends undone in a program that can
    read it.
    """
    new, mended = Shop(Old, refund_as=Wants, fails=True), Shop(Old, refund_as=Mended)

    async def main() -> None:
        await opened_at(location, Shop(Old), "k")
        async with sagas.open(location, [new.saga]) as store:
            await store.complete("k", "ok")
            (entry,) = await parked(store)
            assert (entry.step, entry.undo, entry.why) == ("charge", True, "cannot_decode")
            assert "the compensation of step 'charge'" in str(entry.detail)
            assert new.calls == ["ship 314159", "ship 314159"]
        async with sagas.open(location, [mended.saga]) as store:
            end = await store.wait("k")
            assert end.states == {"charge": "undone", "ok": "undone", "ship": "failed"}
            assert mended.calls == ["refund 314159"]

    run(main())


def test_a_person_may_say_how_it_ended(location: str) -> None:
    """If no program will read it any more, `finish` reports its outcome, and the saga continues
    with that.
    """
    new = Shop(Wants, refund_as=Old)

    async def main() -> None:
        await opened_at(location, Shop(Old), "k")
        async with sagas.open(location, [new.saga]) as store:
            await store.complete("k", "ok")
            await parked(store)
            # does not wait for what is parked: nothing starts any more
            assert await store.abort("k")
            await store.fail("k", "ship", "it was never shipped")
            end = await store.wait("k")
            assert (
                end.aborted and end.states["charge"] == "undone" and new.calls == ["refund 314159"]
            )
            assert await store.attention() == []

    run(main())


def waits(hint: Any, calls: list[str]) -> sagas.Saga:
    """Return a wait that notes when its time is computed, and when its function is called."""
    saga = sagas.Saga("waits")

    def pause(task: Task) -> None:
        calls.append(f"{task.input.amount}")

    def soon(task: Task) -> datetime.timedelta:
        calls.append("until")
        return datetime.timedelta(seconds=0.01)

    pause.__annotations__["task"] = sagas.Task[hint]
    first = saga.approval(name="first")(lambda task: None)
    saga.wait(name="pause", until=soon, needs=[first])(pause)
    return saga


def test_a_wait_that_is_over_is_over(location: str) -> None:
    """A wait whose function cannot read its input is not waited for again by the next program."""
    calls: list[str] = []
    old, strict, mended = (waits(hint, calls) for hint in (Old, Wants, Mended))

    async def main() -> None:
        async with sagas.open(location, [old]) as store:
            await store.start(old, "k", {"amount": 1})
        async with sagas.open(location, [strict]) as store:
            await store.complete("k", "first")
            await parked(store)
        async with sagas.open(location, [mended]) as store:
            assert (await store.wait("k")).ok

    run(main())
    assert calls == ["until", "1"]


def test_another_node_has_it(url: str) -> None:
    """A log with an unreadable value goes once to another node that opens.

    If no other node can read it, this node runs all but that attempt.
    """
    old, new = Shop(Old), Shop(Wants)

    async def main() -> None:
        await opened_at(url, Shop(Old), "k", "other")
        async with sagas.open(url, [new.saga], node="new") as store:
            await store.complete("k", "ok")
            await parked(store)
            async with sagas.open(url, [old.saga], node="old") as older:
                assert (await older.wait("k", timeout=60)).ok and old.calls == ["ship 314159"]
                await store.complete("other", "ok")
                assert (await store.wait("other", timeout=60)).ok
        assert new.calls == []

    run(main())


def test_two_nodes_that_cannot_read_a_value(url: str) -> None:
    """Each leaves it for the other, and one has it in the end: the readable sagas continue."""
    first, second = Shop(Wants), Shop(Wants)

    async def main() -> None:
        await opened_at(url, Shop(Old), "k", "fresh")
        async with sagas.open(url, [first.saga], node="one") as here, sagas.open(
            url, [second.saga], node="two"
        ):
            await asyncio.wait_for(here.complete("k", "ok"), 60)
            entries: list[sagas.Attention] = []
            while not entries:
                entries = await here.attention()
                await asyncio.sleep(0.05)
            assert entries[0].why == "cannot_decode"
            await here.abort("fresh")  # which is undone, since its refund reads nothing
            assert (await here.wait("fresh", timeout=60)).aborted

    run(main())


def test_a_worker_of_celery_that_cannot_read_its_order() -> None:
    """The outcome is unknown there, so that it is sent again, perhaps to another worker; no try is
    used up.
    """
    worker = pytest.importorskip("sagas.celery.worker")

    def reads(task: sagas.Task[Wants]) -> None:
        assert task.input

    hint = decoders.input_decoder(reads)
    about = TaskSnapshot(
        "shop", "k", "ship", False, 1, "log-0", '{"amount":314159}', {}, None, hint
    )
    outcome = worker._call(reads, Manner(reads), sagas.Task(about))
    detail = "saga 'shop', step 'ship': input: missing 'address', which Wants requires"
    assert (outcome.kind, outcome.value) == ("unknown", detail)


def test_a_worker_of_celery_that_reads_the_result_of_a_child() -> None:
    """The return type of a child step's function is the type of the child's input."""
    worker = pytest.importorskip("sagas.celery.worker")
    app = pytest.importorskip("celery").Celery("app")
    queue = pytest.importorskip("sagas.celery").Queue(app, "q", store="nowhere.db")
    child, parent = sagas.Saga("child"), sagas.Saga("parent")
    child.step(name="room", undo=0)(lambda task: None)

    @parent.child(child)
    def stay(task: sagas.Task[Wants]) -> Wants:
        return task.input

    @parent.step
    def price(task: sagas.Task[Wants]) -> decimal.Decimal:
        return decimal.Decimal(1)

    @parent.step(needs=[stay, price], queue=queue)
    def tour(task: sagas.Task[Wants]) -> Any:
        ...

    work = worker.Work(queue, tour, "run", tour.run)
    assert [*work.decoders] == ["price"]


def steps(*names: str, calls: list[str], version: int = 1) -> sagas.Saga:
    """Return a saga: an approval, and then steps in a row, and each notes that it was called,
    and by which version.
    """
    saga = sagas.Saga("steps", version=version)
    last = saga.approval(name="ok")(lambda task: None)
    for name in names:

        def act(task: Task) -> None:
            calls.append(f"{task.step} v{version}")

        last = saga.step(name=name, needs=[last], undo=0)(act)
    return saga


async def left_open(location: str, saga: sagas.Saga) -> None:
    """Leave a saga that waits for an approval, as a program does."""
    async with sagas.open(location, [saga]) as store:
        await store.start(saga, "old")
        await until(
            lambda: any(attempt.waits == "approval" for attempt in store.active_attempts("old"))
        )


def test_a_step_that_was_added(location: str) -> None:
    """An open saga continues by its original definition, and with the current functions; a new one
    has the step.
    """
    calls: list[str] = []
    before, after = steps("a", calls=calls), steps("a", "b", calls=calls)

    async def main() -> None:
        await left_open(location, before)
        async with sagas.open(location, [after]) as store:
            await store.complete("old", "ok")
            assert (await store.wait("old", timeout=60)).states == {
                "ok": "committed",
                "a": "committed",
            }
            run = await store.start(after, "new")
            await until(
                lambda: any(attempt.waits == "approval" for attempt in store.active_attempts("new"))
            )
            await run.complete("ok")
            assert list((await run.wait(timeout=60)).states) == ["ok", "a", "b"]

    run(main())
    assert calls == ["a v1", "a v1", "b v1"]


def test_a_step_that_is_gone_or_renamed(location: str) -> None:
    """A file is not opened, and the error names the step; over PostgreSQL the log is left, until a
    node has the step again.
    """
    calls: list[str] = []
    before, after = steps("a", "b", calls=calls), steps("a", "c", calls=calls)

    async def main() -> None:
        await left_open(location, before)
        if location.startswith("postgresql"):
            async with sagas.open(location, [after]) as store:
                with pytest.raises(TimeoutError):
                    await store.wait("old", timeout=0.2)
        else:
            with pytest.raises(sagas.MissingStep, match="step 'b' has no function"):
                async with sagas.open(location, [after]):
                    pass
        async with sagas.open(location, [before]) as store:
            await store.complete("old", "ok")
            assert (await store.wait("old", timeout=60)).ok

    run(main())


def test_both_versions(location: str) -> None:
    """Sagas of the older version continue with its functions, and new ones with those of the newer
    one.
    """
    calls: list[str] = []
    first, second = steps("a", calls=calls), steps("b", calls=calls, version=2)

    async def main() -> None:
        await left_open(location, first)
        async with sagas.open(location, [first, second]) as store:
            await store.complete("old", "ok")
            assert (await store.wait("old", timeout=60)).ok
            run = await store.start(second, "new")
            await until(
                lambda: any(attempt.waits == "approval" for attempt in store.active_attempts("new"))
            )
            await run.complete("ok")
            assert (await run.wait(timeout=60)).ok

    run(main())
    assert calls == ["a v1", "b v2"]


def test_a_field_that_is_gone_and_a_result_that_has_more(location: str) -> None:
    """A field that a type does not name is not read; a missing field has its default."""

    @dataclasses.dataclass
    class Less:
        color: str = "none"

    new = Shop(Less)
    new.saga.steps[2].run.function = lambda task: new.calls.append(f"ship {task.input.color}")
    new.saga.steps[2].run.function.__annotations__["task"] = sagas.Task[Less]

    async def main() -> None:
        await opened_at(location, Shop(Old), "k")
        async with sagas.open(location, [new.saga]) as store:
            await store.complete("k", "ok")
            assert (await store.wait("k", timeout=60)).ok and new.calls == ["ship none"]

    run(main())
