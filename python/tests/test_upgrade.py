"""What a deployment changes for open sagas: each row of the table in the guide, and its check."""

from __future__ import annotations

import contextlib
import dataclasses
import enum
import functools

import pathlib
import re
from collections.abc import Callable
from typing import Any

import pytest
from cases import QUICK, Task, run, until
from test_command import Shell

import sagas
import sagas.testing
from sagas.definition import definition_text, result_reads
from sagas.inspection.upgrade import UpgradeReport

PAGE = pathlib.Path(__file__).parents[2] / "docs" / "guides" / "upgrade.md"
UNSET: Any = object()


@dataclasses.dataclass
class Order:
    """The input of the earlier program."""

    amount: int


@dataclasses.dataclass
class WithDefault:
    """The input with a field that has a default."""

    amount: int
    currency: str = "EUR"


@dataclasses.dataclass
class WithField:
    """The input with a field that earlier orders do not have."""

    amount: int
    currency: str


@dataclasses.dataclass
class WithFraction:
    """The input with another type of its field."""

    amount: float


class Color(enum.Enum):
    """A result of the earlier program."""

    BLUE = "blue"
    RED = "red"


class Fewer(enum.Enum):
    """The result without that value."""

    BLUE = "azure"


class Shop:
    """A program: `reserve`, an approval and `charge`. It keeps the calls of its functions."""

    def __init__(
        self,
        *,
        body: str = "1",
        added: bool = False,
        reads: str = "",
        left_out: bool = False,
        undo: Any = UNSET,
        compensated: bool = True,
        reads_as: Any = Order,
        returns: Any = Color,
        fails: bool = False,
        **options: Any,
    ) -> None:
        self.calls, self.body, self.fails = list[str](), body, fails
        self.saga = saga = sagas.Saga("order")
        needs = list[Any]()

        def reserve(task: Task) -> Any:
            return returns.BLUE

        def charge(task: Task) -> str:
            return read(task)

        reserve.__annotations__["return"] = returns
        charge.__annotations__["task"] = sagas.Task[reads_as]
        if not left_out:
            costs: dict[str, Any] = {} if undo is UNSET else {"undo": undo}
            needs = [saga.step(reserve, name="reserve", keep=9, **costs)]
            if compensated:
                needs[0].compensation(lambda task: self.calls.append("release"))
        if added:
            fraud = saga.step(lambda task: 0.5, name="fraud", undo=sagas.NOTHING, needs=needs)
            needs = [fraud, *needs]
        ok = saga.approval(name="ok", needs=needs)(lambda task: None)

        def required(task: Task) -> str:
            task.result_of(fraud)
            return self.charge(task)

        def optional(task: Task) -> str:
            return self.charge(task, task.result_of(fraud, default="no score"))

        read = {"": self.charge, "required": required, "optional": optional}[reads]
        saga.step(charge, needs=[ok, *needs], **options)

    def charge(self, task: Task, *details: Any) -> str:
        """The action of the last step."""
        task.results
        if self.fails:
            raise sagas.Fail("no")
        parts = [task.input.amount, *details, getattr(task.input, "currency", "")]
        self.calls.append(" ".join(["charge", self.body, *map(str, parts)]).strip())
        return "done"


@dataclasses.dataclass
class Row:
    """A row of the table: the programs before and after, and what follows.

    Attributes:
        old: The program that starts the saga.
        new: The program that is deployed.
        opens: Whether an open saga `completed`, is `recovered`, is `parked`, or is `left`: the new
            program has no function for it.
        problems: What the check reports.
        calls: What the new program calls for the open saga.
        repaired: A program that continues a parked saga.
        states: The steps of the new saga, if they differ from those of the open one.
    """

    new: Callable[[], Shop]
    opens: str = "completed"
    problems: tuple[str, ...] = ()
    calls: tuple[str, ...] = ("charge 1 5",)
    old: Callable[[], Shop] = Shop
    repaired: Callable[[], Shop] | None = None
    states: str = "reserve ok charge"


ROWS = {
    "a function's body, `timeout`, `backoff`, a limit": Row(
        lambda: Shop(body="2", timeout=60, backoff=QUICK, concurrency=2),
        calls=("charge 2 5",),
    ),
    "costs, needs, `tries`": Row(lambda: Shop(tries=3, keep=4, run=2)),
    "add a step": Row(lambda: Shop(added=True), states="reserve fraud ok charge"),
    "add a step, and read its result": Row(
        lambda: Shop(added=True, reads="required"),
        "parked",
        ("missing_result",),
        ("charge 1 5 no score",),
        repaired=lambda: Shop(added=True, reads="optional"),
        states="reserve fraud ok charge",
    ),
    "add a step, and read its result with `default=`": Row(
        lambda: Shop(added=True, reads="optional"),
        calls=("charge 1 5 no score",),
        states="reserve fraud ok charge",
    ),
    "remove or rename a step": Row(
        lambda: Shop(left_out=True), "left", ("missing_step",), states="ok charge"
    ),
    "remove a compensation": Row(
        lambda: Shop(compensated=False), "left", ("missing_compensation",)
    ),
    "remove a compensation, with `undo=0` or `undo=sagas.NOTHING`": Row(
        lambda: Shop(compensated=False, undo=sagas.NOTHING), "left", ("missing_compensation",)
    ),
    "add a compensation": Row(
        lambda: Shop(fails=True),
        "recovered",
        calls=("release",),
        old=lambda: Shop(compensated=False, undo=sagas.NOTHING),
    ),
    "remove `undo=sagas.NOTHING`": Row(
        lambda: Shop(compensated=False, fails=True),
        "recovered",
        calls=(),
        old=lambda: Shop(compensated=False, undo=sagas.NOTHING),
    ),
    "add a field with a default to an input or result": Row(
        lambda: Shop(reads_as=WithDefault), calls=("charge 1 5 EUR",)
    ),
    "change a [type](types.md#change-a-type)": Row(
        lambda: Shop(reads_as=WithFraction), calls=("charge 1 5.0",)
    ),
    "add a required field, remove an enum value": Row(
        lambda: Shop(reads_as=WithField, returns=Fewer),
        "parked",
        ("cannot_decode", "cannot_decode"),
        ("charge 1 5 EUR",),
        repaired=lambda: Shop(reads_as=WithDefault),
    ),
}


def test_the_table_is_that_of_the_guide() -> None:
    """Each row of the page is tried, and each row that is tried is on the page."""
    lines = PAGE.read_text(encoding="utf-8").partition("| You change |")[2].splitlines()[2:]
    rows = lines[: next(at for at, line in enumerate(lines) if not line.startswith("|"))]
    assert [row.split("|")[1].strip() for row in rows] == [*ROWS]


async def started(location: str, shop: Shop) -> None:
    """Start a saga in a program that ends while the approval waits."""
    async with sagas.open(location, [shop.saga]) as store:
        await store.start(shop.saga, "old", {"amount": 5})
        await until(lambda: [attempt for attempt in store.active_attempts("old") if attempt.waits])


async def continued(store: sagas.Store) -> sagas.SagaResult:
    """Approve, and return the result."""
    with contextlib.suppress(sagas.StepNotWaiting):  # it was approved in the program before
        await store.complete("old", "ok", True)
    return await store.wait("old", 60)


@pytest.mark.parametrize("row", ROWS.values(), ids=list(ROWS))
def test_a_row(location: str, row: Row) -> None:
    """The check says what the deployed program does, and new sagas have what the row says."""
    old, new = row.old(), row.new()

    async def main() -> None:
        await started(location, old)
        report = sagas.testing.check_upgrade(location, [new.saga])
        assert tuple(finding.kind for finding in report.findings) == row.problems, report
        assert (report.sagas, report.blocked) == (1, 1 if row.problems else 0)
        if row.opens == "left":
            await left(location, old, new)
        elif row.opens == "parked":
            await parked(location, new)
        else:
            async with sagas.open(location, [new.saga]) as store:
                result = await continued(store)
                assert result.phase == row.opens
                assert [*result.states] == [step.name for step in old.saga.steps]
                assert tuple(new.calls) == row.calls
        if row.repaired is not None:
            repaired = row.repaired()
            assert sagas.testing.check_upgrade(location, [repaired.saga]).ok
            async with sagas.open(location, [repaired.saga]) as store:
                assert (await continued(store)).ok and tuple(repaired.calls) == row.calls
        again = row.new()
        order_input = {"amount": 6, "currency": "USD"}
        async with sagas.open(location, [again.saga]) as store:
            await store.start(again.saga, "new", order_input)
            await until(
                lambda: [attempt for attempt in store.active_attempts("new") if attempt.waits]
            )
            await store.complete("new", "ok", True)
            assert [*(await store.wait("new", 60)).states] == row.states.split()

    run(main())


async def left(location: str, old: Shop, new: Shop) -> None:
    """Try a program that has no function for the open saga: it does not execute the saga."""
    if not location.startswith("postgresql:"):
        with pytest.raises(sagas.MissingStep, match="step 'reserve' has no"):
            async with sagas.open(location, [new.saga]):
                pass
        async with sagas.open(location, [old.saga], accept_new=False) as store:
            assert (await continued(store)).ok
        return
    async with sagas.open(location, [new.saga]) as store:
        assert (await store.get("old")) is not None and not store.active_attempts("old")
        async with sagas.open(location, [old.saga], node="older") as older:
            await until(lambda: older.active_attempts("old"))
            assert (await continued(older)).ok
    assert new.calls == []


async def parked(location: str, new: Shop) -> None:
    """Try a program that cannot continue: the attempt waits, and nothing is compensated."""
    async with sagas.open(location, [new.saga]) as store:
        await store.complete("old", "ok", True)
        await until(
            lambda: [
                attempt for attempt in store.active_attempts("old") if attempt.step == "charge"
            ]
        )
        (entry,) = await until(store.attention)
        assert (entry.key, entry.step) == ("old", "charge")
        assert (await store.get("old")) is not None
    assert not [call for call in new.calls if call in ("release", "charge")]


# -- what a check looks at


class Codes:
    """A codec that only this program has."""

    def encode(self, data: bytes) -> bytes:
        return data[::-1]

    def decode(self, data: bytes) -> bytes:
        return data[::-1]


class Values:
    """A blob store, plain or async."""

    def __init__(self, is_async: bool) -> None:
        self.values: dict[str, bytes] = {}
        if is_async:
            self.get = self.get_later  # type: ignore[method-assign,assignment]

    def put(self, key: str, data: bytes) -> None:
        self.values[key] = data

    def get(self, key: str) -> bytes:
        return self.values[key]

    async def get_later(self, key: str) -> bytes:
        return self.values[key]

    def delete(self, key: str) -> None:
        self.values.pop(key, None)

    def keys(self, prefix: str, before: float) -> list[str]:
        return [key for key in self.values if key.startswith(prefix)]


def kinds(report: UpgradeReport) -> dict[str, int]:
    """Return the numbers of sagas by the kind of problem, and check that `ok` fits."""
    assert report.ok == (not report.findings)
    return {finding.kind: finding.count for finding in report.findings}


@pytest.mark.parametrize("is_async", [False, True])
def test_encoded_and_large_values(location: str, is_async: bool) -> None:
    """Without the codec or the blob store, the check says that it did not look."""
    codec, blobs = Codes(), Values(is_async)
    stored: dict[str, Any] = {"codec": codec, "blobs": blobs, "blob_threshold": 256}
    old = Shop()

    async def start() -> None:
        async with sagas.open(location, [old.saga], **stored) as store:
            for count, text in enumerate(("short", "x" * 999)):
                await store.start(old.saga, f"k{count}", {"amount": 5, "text": text})
            await until(lambda: len(store.active_attempts("k0") + store.active_attempts("k1")) == 2)

    run(start())
    for shop, problems in ((Shop(), {}), (Shop(reads_as=WithField), {"cannot_decode": 2})):
        report = sagas.testing.check_upgrade(location, [shop.saga], codec=codec, blobs=blobs)
        assert kinds(report) == problems
    assert kinds(sagas.testing.check_upgrade(location, [old.saga], codec=codec)) == {
        "not_checked": 1
    }
    report = sagas.testing.check_upgrade(location, [Shop(reads_as=WithField).saga], codec=codec)
    assert kinds(report) == {"cannot_decode": 1, "not_checked": 1}
    report = sagas.testing.check_upgrade(location, [old.saga], blobs=blobs)
    assert [(finding.kind, finding.first_key, finding.count) for finding in report.findings] == [
        ("not_checked", "k0", 2),
        ("not_checked", "k0", 2),
    ]
    assert "x" * 9 not in str(report) and "encoded, and no codec was given" in str(report)


def items(reads: bool = False, field: bool = False) -> list[sagas.Saga]:
    """Return a saga with items and an included saga, and the included one."""
    hotel, trip = sagas.Saga("hotel"), sagas.Saga("trip")
    order: Any = WithField if field else Order

    def book(task: Any) -> int:
        return int(task.input.amount)

    def ship(task: Any) -> str:
        return str(task.item.amount)

    def label(task: Task) -> Any:
        extra = task.result_of(gift) if task.input.get("gift") else None
        return [task.result_of(ship_step.each), task.result_of(inside[room]), extra]

    def all_of(task: Task) -> Any:
        return [task.result_of(sagas.collect(ship_step)), task.result_of(added) if reads else 0]

    def plain(task: Task) -> Any:
        return task.result_of(sagas.collect(ship_step))

    book.__annotations__["task"] = sagas.Task[order]
    ship.__annotations__["task"] = sagas.ItemTask[Any, order]
    room = hotel.step(book, name="room")
    ok = trip.approval(name="ok")(lambda task: None)
    inside = trip.include(hotel, needs=[ok], input="hotel")
    ship_step: Any = trip.step(ship, name="ship", for_each="parcels", needs=[ok])
    gift = trip.step(lambda task: 1, name="gift", needs=[ok], when=lambda input: "gift" in input)
    trip.step(label, name="label", for_each="parcels", needs=[ship_step.each, inside, gift])
    added = trip.step(lambda task: 1, name="added", needs=[ok]) if reads else gift
    needs = [sagas.collect(ship_step), *[added] * reads]
    trip.step(all_of if reads else plain, name="end", needs=needs)
    return [trip, hotel]


def test_items_and_included_sagas(location: str, caplog: pytest.LogCaptureFixture) -> None:
    """Each function is compared with its own input, its own item and the steps of its own saga, by
    the check and by `open`.
    """

    async def start() -> None:
        async with sagas.open(location, items()) as store:
            for key in ("k0", "k1"):
                order_input = {"hotel": {"amount": 1}, "parcels": [{"amount": 2}] * 3}
                await store.start(store.sagas[0], key, order_input)
                await until(lambda: store.active_attempts(key))

    async def open_again() -> None:
        async with sagas.open(location, items()) as store:
            await until(lambda: store.active_attempts("k0") and store.active_attempts("k1"))

    run(start())
    run(open_again())
    assert "cannot read" not in caplog.text
    assert kinds(sagas.testing.check_upgrade(location, items())) == {}
    report = sagas.testing.check_upgrade(location, items(field=True))
    assert [(finding.kind, finding.step, finding.count) for finding in report.findings] == [
        ("cannot_decode", "hotel/room", 2),
        ("cannot_decode", "ship", 2),
    ]
    later = sagas.Saga("trip")
    later.wait(name="ok", until=lambda task: task.result_of("gone"))(lambda task: None)
    kinds_of_later = kinds(sagas.testing.check_upgrade(location, [later]))
    assert kinds_of_later["missing_result"] == 2 and "missing_step" in kinds_of_later
    (finding,) = sagas.testing.check_upgrade(location, items(reads=True)).findings
    assert (finding.kind, finding.step, finding.count) == ("missing_result", "end", 2)
    assert "started before 'added' was a need of 'end'" in finding.detail
    other = sagas.Saga("hotel", version=2)
    other.step(lambda task: 1, name="room")
    trip = sagas.Saga("trip")
    trip.include(other, name="hotel")
    assert kinds(sagas.testing.check_upgrade(location, [trip, other])) == {"missing_step": 2}


def family(compensated: bool = True, reads: bool = False, fails: bool = False) -> list[sagas.Saga]:
    """Return a parent with a child that completes before an approval."""
    child, parent = sagas.Saga("child"), sagas.Saga("parent")

    def release(task: Task) -> None:
        if reads:
            task.result_of(before)

    before = child.step(lambda task: 1, name="before", undo=sagas.NOTHING) if reads else None
    options: dict[str, Any] = {} if compensated else {"undo": sagas.NOTHING}
    room = child.step(lambda task: 1, name="room", keep=9, needs=[before] * reads, **options)
    if compensated:
        room.compensation(release)
    stay = parent.child(child, name="stay", input=lambda task: {"amount": 1})
    ok = parent.approval(name="ok", needs=[stay])(lambda task: None)
    parent.step(lambda task: 1, name="end", needs=[ok])
    return [parent, child]


def waiting(store: sagas.Store, key: str) -> list[sagas.ActiveAttempt]:
    """Return the approval of a parent once its child has completed."""
    return [attempt for attempt in store.active_attempts(key) if attempt.step == "ok"]


def test_children_that_may_be_undone(location: str) -> None:
    """The check sees their compensations as long as a saga above them is open."""

    async def main() -> None:
        async with sagas.open(location, family()) as store:
            for key in ("k0", "k1"):
                await store.start(store.sagas[0], key, {"amount": 1})
            for key in ("k0", "k1"):
                await until(lambda: waiting(store, key))
            for shape in ({}, {"compensated": False}, {"reads": True}):
                reports.append(sagas.testing.check_upgrade(location, family(**shape)))
            await store.complete("k0", "ok", True)
            assert (await store.wait("k0", 60)).ok
            reports.append(sagas.testing.check_upgrade(location, family(compensated=False)))
            await store.complete("k1", "ok", True)
            assert (await store.wait("k1", 60)).ok
            reports.append(sagas.testing.check_upgrade(location, family(compensated=False)))

    reports = list[UpgradeReport]()
    run(main())
    assert [report.sagas for report in reports] == [2, 2, 2, 1, 0]
    assert [kinds(report) for report in reports] == [
        {},
        {"missing_compensation": 2},
        {"missing_result": 2},
        {"missing_compensation": 1},
        {},
    ]
    first = reports[1].findings[0]
    assert (first.saga, first.step, first.first_key) == ("child", "room", "k0/:stay")


def test_a_child_without_its_step_that_had_nothing_to_undo(location: str) -> None:
    """A step with `undo=NOTHING` may leave the program: the child is undone without it."""
    sent = sagas.Saga("child")
    sent.step(lambda task: 1, name="mail", undo=sagas.NOTHING)

    async def main() -> None:
        with_step, without = family(reads=True), family()
        async with sagas.open(location, with_step) as store:
            await store.start(with_step[0], "k", {"amount": 1})
            await until(lambda: waiting(store, "k"))
        assert sagas.testing.check_upgrade(location, without).ok
        async with sagas.open(location, without) as store:
            await store.fail("k", "ok", "no")
            assert (await store.wait("k", 60)).states["stay"] == "undone"

    run(main())


def test_the_command(location: str, tmp_path: pathlib.Path, capsys: Any, monkeypatch: Any) -> None:
    """It prints each problem with the first key and the count, and its status is for a pipeline."""
    monkeypatch.syspath_prepend(str(tmp_path))
    name = f"deployed_{location.partition(':')[0].replace('/', '_')}_{tmp_path.name}"[:60]
    name = "".join(letter if letter.isalnum() else "_" for letter in name)
    (tmp_path / f"{name}.py").write_text(
        "import sagas, test_upgrade\n"
        "GOOD = test_upgrade.Shop().saga\n"
        "BAD = [test_upgrade.Shop(compensated=False).saga]\n"
        "NONE, FAULTY = [], sagas.Saga('empty')\n"
        "STORE = sagas.open('x.db', BAD)\n"
        "SYNC = sagas.open_sync('x.db', [GOOD])\n"
    )
    shop, shell = Shop(), Shell(location, capsys)

    async def main() -> str:
        async with sagas.open(location, [shop.saga]) as store:
            for key in ("a", "b"):
                await store.start(shop.saga, key, {"amount": 5})
                await until(
                    lambda: [attempt for attempt in store.active_attempts(key) if attempt.waits]
                )
            for good in ("GOOD", "SYNC"):  # while the program has it open
                text = shell("check", "--app", f"{name}:{good}")
                assert text.endswith("the program can continue 2 open sagas\n")
            return shell("check", "--app", f"{name}:BAD", status=1)

    lines = run(main()).splitlines()
    assert lines[1].split(None, 4) == [
        "missing_compensation",
        "order",
        "2",
        "a",
        "step 'reserve' has no compensation in this program",
    ]
    assert lines[2].endswith("2 of 2 open sagas cannot continue")
    report = shell.json("check", "--app", f"{name}:STORE", status=1)
    assert not report["ok"] and report["findings"][0]["first_key"] == "a"
    for wrong in ("NONE", "FAULTY", "missing"):
        assert shell("check", "--app", f"{name}:{wrong}", status=2) == ""
    export = shell.json("export", "a")
    assert sagas.testing.check_upgrade(export, [shop.saga]).ok
    report_of_export = sagas.testing.check_upgrade([export], [Shop(reads_as=WithField).saga])
    assert (
        kinds(report_of_export) == {"cannot_decode": 1}
        and report_of_export.findings[0].first_key == "a"
    )
    with pytest.raises(sagas.InvalidStore):
        sagas.testing.check_upgrade(tmp_path / "missing.db", [shop.saga])


# -- what the source shows


def passes_on(task: Task) -> Any:
    """A function that passes the task to another one."""
    return helper(1, task)


def helper(count: int, task: Task) -> Any:
    """The other one, which passes it back."""
    return [task.result_of("c"), count and passes_on(task)]


class Steps:
    """Functions as methods."""

    step = "d"

    def run(self, task: Task) -> Any:
        return [task.result_of(self.step), self.more(task)]

    def more(self, task: Task) -> Any:
        return task.result_of("e")

    @staticmethod
    def fixed(task: Task) -> Any:
        return task.result_of("f")

    def __call__(self, task: Task) -> Any:
        return Steps.fixed(task)


def test_reads_of_functions() -> None:
    """The source shows the steps that a function reads; none is called."""
    local = "b"

    def plain(task: Task) -> Any:
        other: Any = task
        name = "x"
        return [
            task.result_of("a"),
            task.result_of(local),
            task.result_of("y", default=None),
            task.result_of(name),
            other.result_of("z"),
        ]

    cases: list[tuple[Any, list[str] | None]] = [
        (plain, ["a", "b"]),
        (passes_on, ["c"]),
        (Steps().run, ["d", "e"]),
        (Steps(), ["f"]),
        (functools.partial(helper, 1), ["c"]),
        (lambda task: task.result_of("g"), ["g"]),
        *zip([lambda task: None, lambda task: task.result_of(local)], ([], ["b"])),
        (eval("lambda task: task.result_of('h')"), None),
        (print, None),
    ]
    for function, names in cases:
        reads = result_reads.reads_of(function)
        assert (reads if reads is None else [read.step for read in reads]) == names
        assert all(read.location.startswith(f"{__file__}:") for read in reads or ())


# -- what has nothing to undo


def test_nothing_to_undo_is_not_a_cost() -> None:
    """The definition says which steps have nothing to undo, and older definitions are readable."""
    saga = sagas.Saga("s")
    mail = saga.step(lambda task: 1, name="mail", undo=sagas.NOTHING)
    paid = saga.step(lambda task: 1, name="paid", undo=0)
    paid.compensation(lambda task: None)
    saga.step(lambda task: 1, name="bare", undo=0)
    saga.approval(name="ok")(lambda task: None)
    (warning,) = saga.warnings()
    assert "step 'bare': undo=0 is the cost of a compensation, and it has none" in warning
    listed = definition_text.listed_steps(saga.toml())
    assert [(step.name, step.undo, step.has_nothing, step.is_compensated) for step in listed] == [
        ("mail", 0, True, False),
        ("paid", 0, False, True),
        ("bare", 0, False, False),
        ("ok", 0, False, False),
    ]
    older = re.sub("# (compensated|nothing to undo)\n", "", saga.toml())
    assert [step.undo for step in definition_text.listed_steps(older)] == [0] * 4
    assert mail.cost("undo") == 0 and repr(sagas.NOTHING) == "sagas.NOTHING"
    with pytest.raises(sagas.DefinitionError, match="undo=NOTHING says that there is nothing"):
        mail.compensation(lambda task: None)
    parent = sagas.Saga("parent")
    parent.child(saga, name="kid", input=lambda task: 1, undo=sagas.NOTHING)  # type: ignore
    with pytest.raises(sagas.DefinitionError, match="undo=NOTHING of a child"):
        parent.check()
