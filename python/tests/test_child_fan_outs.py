"""Children from a result: one for each item of a list that a step computes."""

from __future__ import annotations

import asyncio
import dataclasses
import pathlib
import re
import zlib
from collections.abc import Callable
from typing import Any

import pytest
from cases import QUICK, Task, run, until
from test_children import until_survived
from test_command import Shell

import sagas
import sagas.testing

ItemTask = sagas.ItemTask[Any, Any]


class Shop:
    """An order that ships each parcel of a result. Its last step fails if the input says so.

    A parcel `bad` fails, `slow` waits for an approval, and `kept` is not undone at first.
    """

    def __init__(self, collects: bool = False, **options: Any) -> None:
        self.done: list[str] = []
        self.parcel, self.order = sagas.Saga("parcel"), sagas.Saga("order")
        self.sagas = [self.order, self.parcel]
        done, mended = self.done, set[str]()
        self.mended = mended

        @self.parcel.approval
        def sign(task: Task) -> Any:
            return None if task.input["id"] == "slow" else sagas.Approved()

        @self.parcel.step(needs=[sign], keep=9)
        def book(task: Task) -> str:
            if task.input["id"] == "bad" and "bad" not in mended:
                raise sagas.Fail("no such street")
            done.append(f"book {task.key}")
            return f"T-{task.input['id']}-{task.input['number']}"

        @book.compensation(tries=1, backoff=QUICK)
        def unbook(task: Task) -> None:
            if task.input["id"] == "kept" and "kept" not in mended:
                raise sagas.Retry("not yet")
            done.append(f"undo {task.key} {task.result}")

        @self.order.step(undo=sagas.NOTHING)
        def split(task: Task) -> list[str]:
            return list(task.input["ids"])

        @self.order.child(
            self.parcel, needs=[split], for_each=lambda task: task.result_of(split), **options
        )
        def ship(task: ItemTask) -> Any:
            return {"id": task.item, "number": task.index, "of": task.key}

        @self.order.step(needs=[sagas.collect(ship) if collects else ship], undo=sagas.NOTHING)
        def invoice(task: Task) -> Any:
            if task.input.get("fail"):
                raise sagas.Fail("no credit")
            if collects:
                collected = task.result_of(sagas.collect(ship))
                errors = [error is not None for error in task.failure_of(ship)]
                return [sorted(collected.results), sorted(collected.errors), errors]
            assert task.failure_of(ship) == [None] * len(task.input["ids"])
            return [result["results"]["book"] for result in task.result_of(ship)]

        self.ship, self.book = ship, book

    def undone(self) -> list[str]:
        """Return what was undone, in order."""
        return sorted(text for text in self.done if text.startswith("undo"))

    def remains(self) -> set[str]:
        """Return the keys of the parcels that were booked and not undone."""
        undone = {text.split()[1] for text in self.undone()}
        return {text.split()[1] for text in self.done if text.startswith("book")} - undone


def test_each_item_has_a_child(location: str, capsys: pytest.CaptureFixture[str]) -> None:
    """They are undone as one child is, and the page of the order shows how many there are."""
    shop, shell = Shop(), Shell(location, capsys)

    async def main() -> None:
        async with sagas.open(location, shop.sagas) as store:
            inputs = [
                {"ids": ["x", "y"]},
                {"ids": ["x", "y"], "fail": True},
                {"ids": ["x", "bad", "z"]},
                {"ids": []},
            ]
            labels = {"shop": "berlin"}
            starts = [
                await store.start(shop.order, key, value, labels=labels)
                for key, value in zip("abcd", inputs)
            ]
            a, b, c, d = [await started.wait(60) for started in starts]
            assert a.ok and a.results["invoice"] == ["T-x-0", "T-y-1"]
            keys = [entry["key"] for entry in a.results["ship"]]
            assert keys == ["a/:ship/:ship-0", "a/:ship/:ship-1"]
            assert b.states == {"split": "undone", "ship": "undone", "invoice": "failed"}
            assert c.states["ship"] == "failed" and "no such street" in c.errors["ship"]
            assert d.ok and d.results["ship"] == d.results["invoice"] == []
            assert shop.remains() == {*keys}
            assert "undo b/:ship/:ship-1 T-y-1" in shop.undone()
            below = await store.list(labels=labels)
            assert {summary.saga for summary in below} > {"order", "order-ship-each", "parcel"}
            for saga in (shop.order.steps[1].child, shop.ship.starter.saga):
                with pytest.raises(sagas.DefinitionError, match="only that step starts it"):
                    await store.start(saga, "e", {"items": []})  # type: ignore[arg-type]

    run(main())
    assert "b/:ship (completed, 2 children)\n" in shell("show", "b")
    each = shell("show", "b/:ship")
    assert re.search(r"parent +b\nchild +b/:ship/:ship-0 \(completed\)\nchild ", each), each


def test_an_abort_reaches_each_child(location: str) -> None:
    """Those that wait end, those that have completed are undone, and none is left open."""
    shop = Shop()

    async def main() -> None:
        async with sagas.open(location, shop.sagas) as store:
            run = await store.start(shop.order, "a", {"ids": ["x", "slow", "y", "slow"]})
            await until(lambda: len(store.active_attempts("a/:ship/:ship-3")) == 1)
            await until(lambda: len(shop.done) == 2)
            await store.abort("a")
            end = await run.wait(60)
            assert end.aborted and end.states["ship"] == "failed"
            assert await store.count(phase="open") == 0

    run(main())
    assert shop.undone() == ["undo a/:ship/:ship-0 T-x-0", "undo a/:ship/:ship-2 T-y-2"]


@pytest.mark.parametrize("fails", [False, True])
def test_collected_children_may_fail(location: str, fails: bool) -> None:
    """The order continues without those that failed, and undoes the others."""
    shop = Shop(collects=True)

    async def main() -> None:
        async with sagas.open(location, shop.sagas) as store:
            value = {"ids": ["x", "bad", "y", "bad"], "fail": fails}
            end = await (await store.start(shop.order, "a", value)).wait(60)
            each = await store.wait("a/:ship", 60)
            assert [*each.states.values()] == ["committed", "failed"] * 2
            assert {*each.errors} == {"ship-1", "ship-3"}
            assert end.states["ship"] == ("undone" if fails else "committed")
            if not fails:
                assert end.results["invoice"] == [[0, 2], [1, 3], [False, True] * 2]
            none = await store.start(shop.order, "b", {"ids": ["bad"], "fail": fails})
            assert (await none.wait(60)).states["ship"] == end.states["ship"]

    run(main())
    assert len(shop.remains()) == (0 if fails else 2)


def test_a_person_decides_about_one_child(location: str) -> None:
    """A failed child, and one that could not be undone, wait for a person, each by itself."""
    shop = Shop(on_exhausted="ask")

    async def main() -> None:
        async with sagas.open(location, shop.sagas) as store:
            run = await store.start(shop.order, "a", {"ids": ["x", "bad", "kept"], "fail": True})

            async def asks(key: str) -> bool:
                return [held.key for held in await store.attention()] == [key]

            await until(lambda: asks("a/:ship"))
            shop.mended.add("bad")
            await store.retry("a/:ship", "ship-1")
            await until(lambda: asks("a/:ship:undo/:ship-2"))
            shop.mended.add("kept")
            await store.retry("a/:ship:undo/:ship-2", "book")
            assert (await run.wait(60)).states["ship"] == "undone"

    run(main())
    assert not shop.remains() and "undo a/:ship/:ship-1/2 T-bad-1" in shop.undone()


WRONG = [
    ({"ids": []}, "this is not a list"),
    ([7], "entry 0: this is not the result of a child"),
    ([{"key": "b/:ship/:ship-0", "phase": "completed", "results": {}}], "not that of a child"),
    ([{"key": None, "phase": "completed", "results": {"x": 1}}], "a step that the child does not"),
    ([], "is open"),
]


def test_the_step_is_completed_by_hand(location: str) -> None:
    """With a list of children, which may be empty. What a child left in place is undone later."""
    shop = Shop()
    ship = shop.ship
    ship.run.on_exhausted = "ask"

    async def main() -> None:
        async with sagas.open(location, shop.sagas) as store:
            run = await store.start(shop.order, "a", {"ids": ["x", "slow"], "fail": True})
            await until(lambda: shop.done == ["book a/:ship/:ship-0"])
            for wrong, problem in WRONG:
                with pytest.raises(sagas.SagasError) as error:
                    await store.complete("a", "ship", wrong)
                is_open = isinstance(error.value, sagas.StepNotWaiting)
                assert is_open or problem in str(error.value), str(error.value)
            await store.fail("a/:ship/:ship-1", "sign", "no")
            await until(lambda: [a for a in store.active_attempts("a") if a.waits == "exhausted"])
            for wrong, problem in WRONG[:-1]:
                with pytest.raises(sagas.InvalidResult, match=problem):
                    await store.complete("a", "ship", wrong)
            await store.complete("a", "ship", [])
            assert (await run.wait(60)).states["ship"] == "undone"

    run(main())
    assert not shop.remains()


@dataclasses.dataclass
class Parcel:
    """An item with a type."""

    id: str


@dataclasses.dataclass
class Order:
    """An input with a type."""

    parcels: list[Parcel]


ITEMS: list[tuple[Any, str | None]] = [
    ("parcels", None),
    (lambda task: task.input.parcels, None),
    (lambda task: ({"id": parcel.id} for parcel in task.input.parcels), None),
    (lambda task: None, "program_error"),
    (lambda task: {"a": 1}, "program_error"),
    (lambda task: "text", "program_error"),
    (lambda task: missing, "program_error"),  # type: ignore[name-defined]  # noqa: F821
    (lambda task: [{"id": 3}], "cannot_decode"),
    (lambda task: [Parcel("a")] * 1_001, "TooLarge: saga 'order', step 'ship': for_each returned "),
    (lambda task: [Parcel("b" * 10)] * 2, "InvalidInput"),
]


@pytest.mark.parametrize("codec", [None, "zlib"])
def test_what_the_items_may_be(location: str, codec: str | None) -> None:
    """A list, or the name of one, with the type of the hint. A bug parks the step."""

    class Codec:
        def encode(self, text: bytes) -> bytes:
            return zlib.compress(text)

        def decode(self, text: bytes) -> bytes:
            return zlib.decompress(text)

    parcel, known, seen = sagas.Saga("parcel"), [], []

    @parcel.step(undo=sagas.NOTHING)
    def book(task: sagas.Task[Parcel]) -> str:
        return task.input.id

    for number, (items, _) in enumerate(ITEMS):
        order = sagas.Saga(f"order{number or ''}", input=Order)

        @order.child(parcel, for_each=items, needs=[])
        def ship(task: sagas.ItemTask[Order, Parcel]) -> Any:
            seen.append(task.item)
            return {"id": 7} if task.item.id == "b" * 10 else task.item

        known.append(order)

    async def main() -> None:
        options: Any = {"codec": Codec()} if codec else {}
        async with sagas.open(location, [*known, parcel], **options) as store:
            for order, (_, problem) in zip(known, ITEMS):
                run = await store.start(order, order.name, Order([Parcel("a"), Parcel("c")]))
                if problem in ("program_error", "cannot_decode"):

                    async def asks() -> bool:
                        return problem in [
                            held.why for held in await store.attention() if held.key == order.name
                        ]

                    await until(asks)
                    continue
                end = await run.wait(60)
                if problem is None:
                    ids = [entry["results"]["book"] for entry in end.results["ship"]]
                    assert end.ok and ids == ["a", "c"]
                else:
                    assert problem.replace("'order'", repr(order.name)) in end.errors["ship"]
            assert {type(item) for item in seen} == {Parcel}

    run(main())


def test_kills_at_any_event(location: str, tmp_path: pathlib.Path) -> None:
    """Each item has one child, and each of them is undone, however often the program dies."""
    file, shop = tmp_path / "done", Shop()
    function = shop.book.run.function

    def noted(task: Task) -> Any:
        with file.open("a") as out:
            out.write(f"{task.key} {task.idempotency_key}\n")
        return function(task) if function else None

    shop.book.run.function = noted
    split = shop.order.steps[0]
    split.run.function = lambda task: ["x", "y"]

    def open_store(die: Callable[[sagas.Event], None]) -> sagas.Store:
        return sagas.open(location, shop.sagas, node="one", lease=2, on_event=die)

    async def main(store: sagas.Store) -> None:
        run = await store.start(shop.order, "a", {"fail": True})
        assert (await run.wait(60)).states["ship"] == "undone"

    killed = until_survived(open_store, main)

    async def look() -> None:
        async with open_store(lambda event: None) as store:
            assert await store.count() == 2 * 2 + 3 and await store.count(phase="open") == 0
            assert (await store.wait("a/:ship:undo", 60)).ok

    run(look())
    assert killed >= 3 and len({*file.read_text().splitlines()}) == 2


def test_a_deploy_while_children_may_be_undone(location: str) -> None:
    """No program without their compensation takes the order, and the check of a program says so."""
    old, new = Shop(), Shop()
    new.parcel.steps[1].undo = type(new.parcel.steps[1].undo)()

    async def main() -> None:
        signed = old.order.approval(name="hold", needs=[old.ship])(lambda task: None)
        new.order.approval(name="hold", needs=[new.ship])(lambda task: None)
        async with sagas.open(location, old.sagas) as store:
            await store.start(old.order, "a", {"ids": ["x", "y"]})
            await until(lambda: [a for a in store.active_attempts("a") if a.step == signed.name])
        checked = await asyncio.to_thread(sagas.testing.check_upgrade, location, new.sagas)
        assert "'book' has no compensation" in str(checked), checked
        good = await asyncio.to_thread(sagas.testing.check_upgrade, location, old.sagas)
        assert good.ok, good
        if not location.startswith("postgresql"):
            with pytest.raises(sagas.MissingStep, match="child of saga 'parcel'"):
                await sagas.open(location, new.sagas).__aenter__()
        async with sagas.open(location, old.sagas) as store:
            await store.fail("a", "hold", "no")
            assert (await store.wait("a", 60)).states["ship"] == "undone"

    run(main())
    assert not old.remains()


def test_in_a_simulation() -> None:
    """A path names a step of one child, or of each."""
    shop = Shop()
    good = sagas.testing.run(shop.order, {"ids": ["x", "y"]})
    assert good.ok and good.result_of(shop.order.steps[2]) == ["T-x-0", "T-y-1"]
    undone = sagas.testing.run(shop.order, {"ids": ["x", "y"], "fail": True})
    assert undone.states["ship"] == "undone" and len(shop.undone()) == 2
    assert "test/:ship:undo/:ship-1" in undone.children
    for step in ("ship/ship-1", "ship/book", shop.book):
        fail: Any = {step: sagas.Fail("no")}
        failed = sagas.testing.run(shop.order, {"ids": ["x", "y"]}, fail=fail)
        assert failed.states["ship"] == "failed" and "sagas.Fail: no" in failed.errors["ship"]
        assert ("ship-0" in failed.errors["ship"]) == (step != "ship/ship-1")
    many = sagas.testing.run(shop.order, {"ids": ["x"] * 1_001})
    assert "may return at most 1,000" in many.errors["ship"]
    assert sagas.testing.run(shop.order, {"ids": []}).ok
    collecting = Shop(collects=True)
    trial = sagas.testing.run(collecting.order, {"ids": ["x", "bad"]})
    assert trial.ok and trial.results["invoice"] == [[0], [1], [False, True]]


def test_declarations_that_cannot_be() -> None:
    """Each error says what to do. A step that reads what it does not need is warned about."""
    shop = Shop()
    child = shop.parcel
    for options, problem in [
        ({"for_each": 7}, "must be a plain function of the task"),
        ({"for_each": "parcel"}, "Order has no field 'parcel'; did you mean 'parcels'"),
        ({"for_each": "parcels", "name": "n" * 28}, "it may have at most 27"),
        ({"for_each": "parcels", "concurrency": 7}, "unexpected keyword argument 'concurrency'"),
    ]:
        order = sagas.Saga("order", input=Order)
        with pytest.raises((sagas.DefinitionError, TypeError), match=problem):
            order.child(child, input=lambda task: task.item, **{"name": "x", **options})
    with pytest.raises(sagas.DefinitionError, match=r"missing. .*open\(..., \[order, parcel\]\)"):
        sagas.open("x.db", [shop.order])
    taken = sagas.Saga("order-ship-each")
    taken.step(name="a")(lambda task: None)
    with pytest.raises(sagas.DefinitionError, match="the saga that starts the children of step"):
        sagas.open("x.db", [*shop.sagas, taken])
    loose = sagas.Saga("loose")
    first = loose.step(name="first", undo=sagas.NOTHING)(lambda task: [])
    loose.child(
        child, name="each", input=lambda task: 1, for_each=lambda task: task.result_of(first)
    )
    assert "it reads the result of 'first' and does not need it" in loose.warnings()[0]
    items = sagas.Saga("items")
    items.step(name="a", for_each="list", undo=sagas.NOTHING)(lambda task: None)
    with pytest.raises(sagas.DefinitionError, match="its costs as a child are not known"):
        loose = sagas.Saga("loose")
        loose.child(items, input=lambda task: 1, for_each="x")
        sagas.open("x.db", [loose, items])
    fixed = sagas.Saga("fixed")
    fixed.child(items, input=lambda task: {"list": [1]}, for_each="x", undo=sagas.NEVER, keep=0)
    assert sagas.testing.run(fixed, {"x": [1, 2]}).ok
