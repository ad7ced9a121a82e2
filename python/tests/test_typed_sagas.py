"""Sagas with the type of their input: what a type checker sees, and what a start refuses."""

from __future__ import annotations

import dataclasses
import datetime
import os
import pathlib
import subprocess
import sys
from collections.abc import Callable
from typing import Any, NotRequired, Optional, TypedDict

import pydantic
import pytest
from cases import QUICK, attempts_to_report, run, types_in, until

import sagas
import sagas.testing
from sagas.definition import decoders

SECRET = "4242-secret"
TYPED = """
import dataclasses
import decimal
from typing import Any
import psycopg
import sagas
import sagas.testing

@dataclasses.dataclass
class Order:
    item: str
    parcels: list[str] = dataclasses.field(default_factory=list)

order = sagas.Saga("order", input=Order)
plain = sagas.Saga("plain")
reveal_type(order)
reveal_type(plain)

@order.step
def charge(task: sagas.Task[Order]) -> decimal.Decimal:
    reveal_type(task.input)
    return decimal.Decimal(1)

@charge.compensation
def refund(task: sagas.CompensationTask[Order, decimal.Decimal]) -> None:
    reveal_type(task.result)

@charge.compensation                                        # wrong
def refund_text(task: sagas.CompensationTask[Order, str]) -> None:
    ...

@order.step(for_each="parcels")
def ship(task: sagas.ItemTask[Order, str]) -> int:
    return 1

@ship.compensation(timeout=3)
def call_back(task: sagas.CompensationTask[Order, int]) -> None:
    reveal_type(task.result)

@order.step(transaction=True)
async def book(task: sagas.TransactionTask[Order, psycopg.AsyncConnection[Any]]) -> None:
    reveal_type(task.connection)

async def start(
    store: sagas.Store, client: sagas.Client, here: sagas.SyncStore, there: sagas.SyncClient
) -> None:
    await store.start(order, "k", Order("a"))
    await store.start(plain, "k", {"item": "a"})
    await store.start(order, "k", "a")                      # wrong
    await store.schedule("n", order, {"item": "a"})         # wrong
    await client.start(order, "k", {"item": "a"})           # wrong
    here.start(order, "k", 1)                               # wrong
    there.start(order, "k", None)                           # wrong
    sagas.testing.run(order, Order)                         # wrong
"""


def test_a_type_checker_refuses_a_wrong_input(tmp_path: pathlib.Path) -> None:
    path, source = tmp_path / "typed.py", pathlib.Path(__file__).resolve().parents[1] / "src"
    path.write_text(TYPED)
    command = [sys.executable, "-m", "mypy", "--strict", "--cache-dir", types_in(tmp_path)]
    environment = os.environ | {"MYPYPATH": str(source)}
    done = subprocess.run(
        [*command, str(path)], capture_output=True, text=True, env=environment, check=False
    )
    lines = [line for line in done.stdout.splitlines() if line.startswith(str(path))]
    seen = [line.split("Revealed type is ")[1].strip('"') for line in lines if "Revealed" in line]
    assert seen == [
        "sagas.definition.saga.Saga[typed.Order]",
        "sagas.definition.saga.Saga[Any]",
        "typed.Order",
        "_decimal.Decimal",
        "builtins.int",
        "psycopg.connection_async.AsyncConnection[Any]",
    ]
    errors = [int(line.split(":")[1]) for line in lines if ": error: " in line]
    wrong = [n for n, line in enumerate(TYPED.splitlines(), 1) if line.endswith("# wrong")]
    assert errors == wrong, done.stdout


@dataclasses.dataclass
class Parcel:
    to: str
    weight: int = 1


@dataclasses.dataclass
class Order:
    amount: int
    parcels: list[Parcel] = dataclasses.field(default_factory=list)


class OrderDict(TypedDict):
    amount: int
    parcels: NotRequired[dict[str, Parcel]]


class OrderModel(pydantic.BaseModel):
    amount: int
    parcels: list[Parcel] = []
    next: Optional[OrderModel] = None

    @pydantic.validator("amount")
    def is_small(cls, amount: int) -> int:
        if amount > 100:
            raise ValueError(f"{amount} is too much")
        return amount


OrderModel.update_forward_refs()
TYPES = [Order, OrderDict, OrderModel]


@pytest.mark.parametrize("hint", TYPES)
@pytest.mark.parametrize(
    "is_declared", [True, False], ids=["type of the saga", "type of a function"]
)
def test_for_each_names_a_field_of_the_input(hint: Any, is_declared: bool) -> None:
    """A name that the type does not have is refused: at the declaration, if the saga has the type,
    else when the saga is opened.
    """
    for name, why in [
        ("parcel", f"{hint.__name__} has no field 'parcel'; did you mean 'parcels'?"),
        ("amount", "'amount' is of type int, which is not a list or a dict"),
        ("parcels", None),
    ]:
        saga = sagas.Saga("order", input=hint) if is_declared else sagas.Saga("order")

        def ship(task: Any) -> None:
            ...

        ship.__annotations__["task"] = sagas.ItemTask[hint, Parcel]  # type: ignore[valid-type]
        if why is None:
            saga.step(for_each=name)(ship)
            saga.check()
            continue
        with pytest.raises(sagas.DefinitionError) as error:
            saga.step(for_each=name)(ship)
            assert not is_declared
            saga.check()
        assert f"saga 'order', step 'ship': for_each={name!r}: {why}" in str(error.value)


def late_reader(hint: Any) -> sagas.Saga[Any]:
    """Return a saga whose last compensation is the only function with a type."""
    saga = sagas.Saga("late")
    first = saga.step(name="first", undo=0)(lambda task: None)
    last = saga.step(name="last", needs=[first])(lambda task: None)

    def undo(task: Any) -> None:
        ...

    undo.__annotations__["task"] = sagas.Task[hint]
    last.compensation(undo)
    return saga


@pytest.mark.parametrize("hint", TYPES)
def test_every_start_decodes_the_whole_input(hint: Any, url: str) -> None:
    """Whichever function reads it, and by whichever door it comes: nothing is started. The error
    has the path and what was expected, and never the value.
    """
    saga = late_reader(hint)
    wrong = [{"amount": SECRET}, {"parcels": SECRET}, SECRET, {"amount": 1, "parcels": [SECRET]}]

    async def main() -> None:
        async with sagas.open(url, [saga]) as store, sagas.Client(url) as client:
            starts: list[Callable[[Any], Any]] = [
                lambda value: store.start(saga, "k", value),
                lambda value: store.schedule("n", saga, value, every=datetime.timedelta(1)),
                lambda value: client.start(saga, "k", value),
                lambda value: client.schedule("n", saga, value, every=datetime.timedelta(1)),
                lambda value: sagas.testing.run_async(saga, value),
            ]
            for start in starts:
                for value in wrong:
                    with pytest.raises(sagas.InvalidInput, match="step 'last': input") as error:
                        await start(value)
                    assert SECRET not in str(error.value)
            assert await store.count() == 0 and await store.schedules() == []

    run(main())
    without_steps: sagas.Saga[Any] = sagas.Saga("late", input=hint)
    with sagas.SyncClient(url) as sync_client:
        for named in (saga, without_steps):
            with pytest.raises(sagas.InvalidInput, match="saga 'late'.*: input"):
                sync_client.start(named, "k", wrong[0])


def test_a_client_without_types(url: str) -> None:
    """It cannot know that the input does not fit: the attempt that reads it waits."""
    saga = sagas.Saga("order", input=Order)

    @saga.step
    def charge(task: sagas.Task[Order]) -> None:
        raise AssertionError(f"{task.input} must not be read")

    async def main() -> None:
        async with sagas.open(url, [saga]) as store, sagas.Client(url) as client:
            await client.start(sagas.Saga("order"), "k", {"amount": SECRET})
            await until(store.attention)
            (entry,) = await store.attention()
            assert (entry.key, entry.step, entry.why) == ("k", "charge", "cannot_decode")
            assert SECRET not in str(entry)

    run(main())


@pytest.mark.parametrize(
    "value, text",
    [
        ({}, ".amount: field required"),
        ({"amount": SECRET}, ".amount: value is not a valid integer"),
        ({"amount": 4242}, ".amount: a validator of the model rejects it"),
        ({"amount": 1, "next": {"amount": SECRET}}, ".next.amount: value is not a valid integer"),
    ],
)
def test_the_words_of_pydantic(value: Any, text: str) -> None:
    """Its own messages are in the error. Those of the model's validators may have the value."""
    saga = sagas.Saga("order", input=OrderModel)
    saga.step(name="a")(lambda task: None)
    with pytest.raises(sagas.InvalidInput) as error:
        sagas.testing.run(saga, value)
    assert str(error.value) == f"saga 'order': input{text}"


class Failure(Exception):
    """An error of the form of pydantic 2."""

    def __init__(self, **entry: Any) -> None:
        self.entry = {"loc": ("a",), "ctx": {}} | entry

    def errors(self) -> list[dict[str, Any]]:
        return [self.entry]


Failure.__module__ = "pydantic_core._pydantic_core"


@pytest.mark.parametrize(
    "entry, text",
    [
        ({"type": "missing", "msg": "Field required"}, "Field required"),
        ({"type": "value_error", "msg": f"Value error, {SECRET}"}, "a validator of the model"),
        ({"type": "of_a_user", "msg": SECRET}, "a validator of the model rejects it"),
        (
            {
                "type": "date_parsing",
                "msg": "Input should be a valid date, invalid character 4",
                "ctx": {"error": "invalid character 4"},
            },
            "Input should be a valid date",
        ),
    ],
)
def test_the_words_of_pydantic_2(
    entry: dict[str, Any], text: str, monkeypatch: pytest.MonkeyPatch
) -> None:
    """The list of its errors says which messages are its own."""
    core = type(sys)("pydantic_core")
    types = ("missing", "value_error", "date_parsing")
    core.list_all_errors = lambda: [{"type": name} for name in types]  # type: ignore[attr-defined]
    monkeypatch.setitem(sys.modules, "pydantic_core", core)

    class Model:
        @staticmethod
        def model_validate(value: Any) -> Any:
            raise Failure(**entry)

    decode = decoders.decoder(Model)
    assert decode is not None
    with pytest.raises(TypeError, match=f"^.a: {text}"):
        decode({})


def test_items_and_included_sagas_are_decoded_at_the_start() -> None:
    """Each item has the type that its step names, and the input of an included saga each type that
    its functions name.
    """
    outer = sagas.Saga("outer")

    @outer.step(for_each="parcels")
    def ship(task: sagas.ItemTask[dict[str, Any], Parcel]) -> str:
        return task.item.to

    outer.include(late_reader(Order), for_each="orders", name="inner")
    ok = {"to": "Rome"}
    for parcels, orders, text in [
        ([ok, {"to": 4242}], [], "step 'ship': item 1.to: must be a text, not an integer"),
        (
            [ok],
            [{"amount": 1}, {"amount": "4242"}],
            "inclusion 'inner': input.amount: must be an integer",
        ),
    ]:
        with pytest.raises(sagas.InvalidInput, match=text) as error:
            sagas.testing.run(outer, {"parcels": parcels, "orders": orders})
        assert "4242" not in str(error.value)
    end = sagas.testing.run(outer, {"parcels": [ok], "orders": [{"amount": 1}]})
    assert end.ok and end.result_of(ship) == ["Rome"]


def test_a_child_gets_no_wrong_input(location: str) -> None:
    """The step that starts it fails at once, before any step of the child is called."""
    child, parent = late_reader(Order), sagas.Saga("parent")
    parent.child(child, name="kid", input=lambda task: {"amount": SECRET}, undo=0)

    async def main() -> None:
        async with sagas.open(location, [parent, child]) as store:
            end = await (await store.start(parent, "k")).wait(timeout=60)
            assert end.states == {"kid": "failed"}
            assert "step 'last': input.amount: must be an integer" in end.errors["kid"]
            assert SECRET not in str(end) and await store.count() == 1

    run(main())


@dataclasses.dataclass
class Decision:
    limit: int


def decided(seen: list[Any]) -> sagas.Saga[Any]:
    """Return a saga whose steps are reported by hand, with types of their results."""
    saga = sagas.Saga("decided")

    @saga.approval
    def review(task: Any) -> sagas.Approved[Decision] | None:
        ...

    @saga.step(max_unknown=1, backoff=QUICK)
    def charge(task: Any) -> int:
        raise sagas.Unknown("no answer")

    pick = saga.step(external=True, name="pick", needs=[charge])

    @pick.compensation
    def unpick(task: sagas.CompensationTask[Any, Decision]) -> None:
        seen.append(task.result)

    @saga.step(needs=[review, charge, pick])
    def last(task: Any) -> None:
        seen.append((task.result_of(review), task.result_of(charge), task.result_of(pick)))
        raise sagas.Fail("undo it")

    return saga


def test_a_report_by_hand_has_the_type_of_its_step(location: str) -> None:
    """A result that no step could read is refused, and nothing is stored: of an approval, of an
    external step that has not started, whose compensation names the type, and of a step with an
    unknown outcome.
    """
    seen: list[Any] = []
    saga = decided(seen)

    async def main() -> None:
        async with sagas.open(location, [saga]) as store:
            run = await store.start(saga, "k")
            await until(lambda: attempts_to_report(store))
            for step, wrong, right in [
                ("review", {"limit": SECRET}, {"limit": 3}),
                ("pick", [SECRET], {"limit": 4}),
                ("charge", None, 5),
            ]:
                with pytest.raises(sagas.InvalidResult, match=f"step '{step}': result") as error:
                    await store.complete("k", step, wrong)
                assert SECRET not in str(error.value) and "Nothing was stored" in str(error.value)
                await store.complete("k", step, right)
            await run.wait(timeout=60)

    run(main())
    assert seen == [(Decision(3), 5, Decision(4)), Decision(4)]


def test_a_worker_that_reports_another_type(location: str) -> None:
    """Its effect is there, so the report counts. The step that reads the result waits for a program
    that can, and nothing is compensated.
    """
    seen: list[Any] = []
    saga = decided(seen)

    async def main() -> None:
        async with sagas.open(location, [saga]) as store:
            await store.start(saga, "k")
            await until(lambda: attempts_to_report(store))
            await store.complete("k", "charge", 5)
            await store.complete("k", "review")
            (task,) = await store.workers.claim([("decided", "pick", "run")], wait=60)
            await store.workers.report(task.attempt_id, task.lease, result=[SECRET])
            await until(store.attention)
            (entry,) = await store.attention()
            assert (entry.why, entry.step) == ("cannot_decode", "last")
            assert "result of 'pick': Decision requires an object" in str(entry.detail)
            assert SECRET not in str(entry) and seen == []

    run(main())
