"""The checks of an input by `start`: whether it has its type, and whether it is that of the key.

No value is in any text.
"""

from __future__ import annotations

import collections
import dataclasses
import datetime
import decimal
import enum
import logging
import uuid
from typing import Any, Literal, NamedTuple, Optional, Union

import pytest
from cases import Task, run, simple, until

import sagas
import sagas.testing
from sagas.definition import arguments

SECRET = "4242-secret"


class Color(enum.Enum):
    RED = "red"


@dataclasses.dataclass
class Item:
    """A part of an order."""

    name: str
    price: Union[int, decimal.Decimal]
    count: int = 1


@dataclasses.dataclass
class Order:
    """Fields of each kind."""

    amount: int
    weight: float = 0.5
    paid: bool = False
    items: list[Item] = dataclasses.field(default_factory=list)
    by_name: dict[str, Item] = dataclasses.field(default_factory=dict)
    color: Optional[Color] = None
    at: Optional[datetime.datetime] = None
    id: uuid.UUID = uuid.UUID(int=0)
    way: Literal["sea", "air"] = "sea"
    gift: Union[Item, str, None] = None
    pair: tuple[int, str] = (1, "a")
    numbers: list[Union[int, None]] = dataclasses.field(default_factory=list)
    note: str = None  # type: ignore[assignment]
    more: Any = None
    parent: Optional[Order] = None


def reads(hint: Any) -> sagas.Saga:
    """Return a saga whose first step reads its input as this type."""

    async def a(task: Task) -> None:
        assert task.input is not None

    a.__annotations__["task"] = sagas.Task[hint]
    return simple(a)


WRONG: list[tuple[dict[str, Any], str]] = [
    ({"amount": SECRET}, ".amount: must be an integer, not a text"),
    ({"amount": 1.5}, ".amount: must be an integer, not a number"),
    ({"amount": True}, ".amount: must be an integer, not true or false"),
    ({"weight": SECRET}, ".weight: must be a number, not a text"),
    ({"paid": 1}, ".paid: must be true or false, not an integer"),
    (
        {"items": [{"name": "a", "price": 1}, {"name": 2, "price": 1}]},
        ".items[1].name: must be a text, not an integer",
    ),
    ({"items": [{"name": "a", "price": SECRET}]}, ".items[0].price: matches none of its types"),
    ({"items": [{"name": "a"}]}, ".items[0]: missing 'price', which Item requires"),
    ({"items": SECRET}, ".items: must be a list"),
    (
        {"by_name": {"x y": {"name": "a", "price": 1, "count": "2"}}},
        '.by_name["x y"].count: must be an integer, not a text',
    ),
    ({"color": SECRET}, ".color: not a value of Color"),
    ({"at": SECRET}, ".at: cannot be read as datetime"),
    ({"id": SECRET}, ".id: cannot be read as UUID"),
    ({"way": SECRET}, ".way: must be one of 'sea', 'air'"),
    ({"gift": {"name": "a"}}, ".gift: missing 'price', which Item requires"),
    ({"pair": [1, 2]}, ".pair[1]: must be a text, not an integer"),
    ({"numbers": [1, None, SECRET]}, ".numbers[2]: must be an integer or null, not a text"),
    ({"note": 7}, ".note: must be a text, not an integer"),
    (
        {"parent": {"amount": 1, "parent": {"amount": SECRET}}},
        ".parent.parent.amount: must be an integer",
    ),
]
WELL: list[Any] = [
    {"amount": 1, "weight": 2, "note": None, "more": [SECRET], "strange": 1},
    {"amount": 1, "items": [{"name": "a", "price": "2.50"}], "color": "red", "gift": "a ring"},
    {"amount": 1, "at": "2026-01-02T03:04:05+00:00", "gift": {"name": "a", "price": 1}},
    Order(1, items=[Item("a", decimal.Decimal("2.5"))], color=Color.RED, parent=Order(2)),
    Order(1, at=datetime.datetime(2026, 1, 2), pair=(2, "b"), by_name={"a": Item("a", 1)}),
]


def test_the_types_of_fields(location: str, caplog: pytest.LogCaptureFixture) -> None:
    """Nested, optional, in lists and dicts, of unions, enums and times: each error has its
    location, and no saga is started.
    """
    saga = reads(Order)

    async def main() -> None:
        async with sagas.open(location, [saga]) as store:
            for number, (value, text) in enumerate(WRONG):
                with pytest.raises(sagas.InvalidInput) as error:
                    await store.start(saga, f"wrong-{number}", {"amount": 1} | value)
                assert f"saga 'simple', step 'a': input{text}" in str(error.value)
                assert SECRET not in str(error.value)
                assert await store.get(f"wrong-{number}") is None
            for number, value in enumerate(WELL):
                assert (
                    await (await store.start(saga, f"well-{number}", value)).wait(timeout=60)
                ).ok
            with pytest.raises(sagas.InvalidInput, match=r"input\.amount: must be an integer"):
                await store.start(saga, "k", Order("1"))  # type: ignore[arg-type]

    with caplog.at_level(logging.DEBUG):
        run(main())
    assert SECRET not in caplog.text.replace(repr(WELL[0]["more"]), "")


@dataclasses.dataclass
class Other:
    """An input that looks like an order, and cannot become one."""

    amount: int
    color: str


class Pair(NamedTuple):
    """A value that is not an object in JSON."""

    amount: int


@pytest.mark.parametrize(
    "value",
    [
        Color.RED,
        datetime.date(2026, 1, 2),
        {1},
        Pair(1),
        collections.OrderedDict(weight=1),
        Other(1, "blue"),
        Order(1, color="blue"),  # type: ignore[arg-type]
    ],
    ids=lambda value: type(value).__name__,
)
def test_an_input_of_another_type(location: str, value: Any) -> None:
    """Whatever it is in Python: an input that the first step could not read is refused, and no saga
    is started.
    """
    saga = reads(Order)

    async def main() -> None:
        async with sagas.open(location, [saga]) as store:
            with pytest.raises(sagas.InvalidInput, match="saga 'simple', step 'a': input"):
                await store.start(saga, "k", value)
            assert await store.get("k") is None

    run(main())
    with pytest.raises(sagas.InvalidInput, match="saga 'simple', step 'a': input"):
        sagas.testing.run(saga, value)


@dataclasses.dataclass
class Newer:
    """As `Item`, with a field that was added."""

    name: str
    price: Union[int, decimal.Decimal]
    count: int = 1
    color: Optional[str] = None


@pytest.mark.parametrize(
    ("location", "client"),
    [("sqlite", False), ("postgresql", False), ("postgresql", True)],
    indirect=["location"],
)
def test_an_optional_field_that_was_added(location: str, client: bool) -> None:
    """The same start again is the same saga.

    Another value is another input, in fields that the type knows and in others.
    """
    before, after = reads(Item), reads(Newer)
    raw = sagas.Saga("simple")
    raw.step(name="a")(after.steps[0].run.function)  # type: ignore[arg-type]
    raw.step(name="b")(lambda task: None)
    value = {"name": "a", "price": 1}

    async def main() -> None:
        async with sagas.open(location, [before]) as store:
            assert (await (await store.start(before, "k", Item("a", 1))).wait(timeout=60)).ok
            await store.start(before, "bare", value)
        async with sagas.open(location, [after]) as store:
            starter: Any = store
            if client:
                starter = await sagas.Client(location).__aenter__()
            for key in ("k", "bare"):
                for same in (Newer("a", 1), value, {**value, "count": 1}, Item("a", 1)):
                    assert not (await starter.start(after, key, same)).new
                for other, at in (
                    (Newer("a", 1, color=SECRET), ".color"),
                    (Newer(SECRET, 2), ".name, .price"),
                ):
                    with pytest.raises(sagas.KeyConflict) as error:
                        await starter.start(after, key, other)
                    message = (
                        f"key {key!r} belongs to a saga with another input, which differs at {at}"
                    )
                    assert str(error.value) == f"{message}. Use another key"
            if client:
                await starter.close()

    run(main())


def test_fields_count_for_a_reader_without_a_type(location: str) -> None:
    """If a step reads the input without a type, a field that no type knows is a part of it."""
    saga = sagas.Saga("both")

    @saga.step
    def typed(task: sagas.Task[Item]) -> None:
        ...

    @saga.step
    def plain(task: Task) -> None:
        ...

    async def main() -> None:
        async with sagas.open(location, [saga]) as store:
            await store.start(saga, "k", {"name": "a", "price": 1, "x": [1, {"y": SECRET}]})
            same = {"name": "a", "price": 1, "count": 1, "x": [1, {"y": SECRET}]}
            assert not (await store.start(saga, "k", same)).new
            with pytest.raises(sagas.KeyConflict) as error:
                await store.start(saga, "k", {"name": "a", "price": 1, "x": [1, {"y": 2}, 3]})
            assert (
                str(error.value)
                == "key 'k' belongs to a saga with another input, which differs at .x[1].y, .x[2]."
                " Use another key"
            )
            await store.start(saga, "whole", {"name": "a", "price": 1})
            with pytest.raises(sagas.KeyConflict, match=r"differs at \.name"):
                await store.start(saga, "whole", {"name": SECRET, "price": 1})

    run(main())


def test_conflicts_show_no_values(location: str) -> None:
    """The whole input, one of many parts, and names that are not words."""
    saga = simple(lambda task: None)
    for_many = {f"f{number}": number for number in range(9)}
    conflicts: list[tuple[Any, Any, str]] = [
        (SECRET, {"a": SECRET}, "the top level"),
        ({"a b": SECRET, "c": [SECRET]}, {"a b": 1, "c": []}, '["a b"], .c[0]'),
        (for_many, {name: SECRET for name in for_many}, ".f0, .f1, .f2, .f3, .f4 and 4 more"),
        ({"a": 1}, {"a": True}, ".a"),
    ]

    async def main() -> None:
        async with sagas.open(location, [saga]) as store:
            for number, (first, other, at) in enumerate(conflicts):
                await store.start(saga, f"k{number}", first)
                with pytest.raises(sagas.KeyConflict) as error:
                    await store.start(saga, f"k{number}", other)
                message = (
                    f"key 'k{number}' belongs to a saga with another input, which differs at {at}"
                )
                assert str(error.value) == f"{message}. Use another key"

    run(main())


def test_the_reported_length_of_a_value() -> None:
    """Its own letters, without the quotation marks of Python."""
    with pytest.raises(sagas.InvalidKey, match=r"\(513 characters\): must be a text of 1 to 512"):
        arguments.key("k" * 513)
    assert arguments.shown(["k" * 513]).endswith("..") and "characters" not in arguments.shown(
        ["k" * 513]
    )


def test_the_value_of_a_wait_is_not_reported(
    location: str, caplog: pytest.LogCaptureFixture
) -> None:
    """`until` may return what it read of the input."""
    saga = sagas.Saga("waits")
    saga.wait(name="w", until=lambda task: task.input, tries=1)(lambda task: None)

    async def main() -> None:
        async with sagas.open(location, [saga]) as store:
            await store.start(saga, "k", SECRET)
            (entry,) = await until(store.attention, 60)
            assert entry.why == "program_error" and SECRET not in str(entry)
            assert "until returned str: it must be a timedelta" in entry.detail
            with pytest.raises(TypeError, match="failed=list: must be a text"):
                await store.fail("k", "w", [SECRET])  # type: ignore[arg-type]

    with caplog.at_level(logging.DEBUG):
        run(main())
    assert SECRET not in caplog.text
