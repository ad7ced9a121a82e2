"""The table of `docs/guides/types.md`: what open sagas read after a type has changed."""

from __future__ import annotations

import dataclasses
import datetime
import decimal
import enum
import json
import logging
import pathlib
from decimal import Decimal
from typing import Any, Literal, NamedTuple, TypedDict

import pydantic
import pytest
from cases import run, until

import sagas

PAGE = pathlib.Path(__file__).resolve().parents[2] / "docs" / "guides" / "types.md"
HEAD = "| It was | Stored as | It is now | A function gets |"
WAITS = "waits"


class Color(enum.Enum):
    RED = "red"


@dataclasses.dataclass
class Money:
    amount: int


@dataclasses.dataclass
class MoneyWithDefault:
    amount: int
    currency: str = "EUR"


@dataclasses.dataclass
class MoneyWithCurrency:
    amount: int
    currency: str


class MoneyModel(pydantic.BaseModel):
    amount: int


class MoneyDict(TypedDict):
    amount: int


NAMES: dict[str, Any] = {
    "Color": Color,
    "Decimal": decimal.Decimal,
    "Literal": Literal,
    "Money": Money,
    "MoneyModel": MoneyModel,
    "MoneyWithDefault": MoneyWithDefault,
    "date": datetime.date,
    "datetime": datetime.datetime,
}


HINTS: dict[str, Any] = {
    "`Color`, with the value": Color,
    "`Color`, without the value": Color,
    "`Money`, with a required field more": MoneyWithCurrency,
    "`Money`, with a default more": MoneyWithDefault,
    "`Money`, without a field": Money,
    "`MoneyModel`, of pydantic": MoneyModel,
    "`MoneyDict`, a `TypedDict`": MoneyDict,
}
"""The types that the page describes."""


class Change(NamedTuple):
    """A row of the table."""

    stored: Any
    hint: Any
    expected: Any
    text: str


def changes() -> list[Change]:
    """Return the rows of the table on the page."""
    lines = PAGE.read_text().split(HEAD)[1].splitlines()[2:]
    rows = []
    for line in lines:
        if not line.startswith("|"):
            break
        cells = [cell.strip() for cell in line.replace(r"\|", "or").strip("|").split("|")]
        _, stored, now, got = (cell.replace(" or ", " | ") for cell in cells)
        hint = HINTS.get(now) or eval(now.strip("`"), NAMES)
        expected = WAITS if got == WAITS else eval(got.strip("`"), NAMES)
        rows.append(Change(json.loads(stored.strip("`")), hint, expected, line))
    return rows


class Backwards:
    """A codec."""

    def encode(self, data: bytes) -> bytes:
        return data[::-1]

    def decode(self, data: bytes) -> bytes:
        return data[::-1]


def saga_of(name: str, hint: Any, seen: dict[str, Any]) -> sagas.Saga[Any]:
    """Return a saga of a charge, an approval, and a step that reads a value of this type.

    The value is a field of the input, the result of the charge, or an item, by the name's letter.
    """
    saga, kind = sagas.Saga(name), name[0]
    order: Any = dataclasses.make_dataclass("Order", [("field", hint)])

    def charge(task: Any) -> Any:
        return task.input["field"]

    def refund(task: Any) -> None:
        raise AssertionError("it must not be compensated")

    def ship(task: Any) -> None:
        values = {"i": lambda: task.input.field, "r": lambda: task.result_of(paid)}
        seen[name] = values.get(kind, lambda: task.item)()

    if kind == "r":
        charge.__annotations__["return"] = hint
    if kind == "i":
        ship.__annotations__["task"] = sagas.Task[order]
    if kind == "t":
        ship.__annotations__["task"] = sagas.ItemTask[Any, hint]  # type: ignore[valid-type]
    paid = saga.step(name="charge")(charge)
    paid.compensation(refund)
    review = saga.approval(name="review", needs=[paid])(lambda task: None)
    options: dict[str, Any] = {"for_each": "items"} if kind == "t" else {}
    saga.step(name="ship", needs=[review], **options)(ship)
    return saga


async def _are_listed(store: sagas.Store, count: int) -> bool:
    return len(await store.attention(limit=1000)) >= count


def test_the_rows_of_the_page(location: str) -> None:
    """Each row holds for a field of the input, a result and an item: a function gets the right
    value, or the saga waits, is listed, and nothing is compensated.
    """
    rows, seen = changes(), dict[str, Any]()
    assert len(rows) > 20
    names = [f"{kind}{row}" for kind in "irt" for row in range(len(rows))]
    codec = Backwards() if location.startswith("postgresql") else None

    def row_of(name: str) -> Change:
        return rows[int(name[1:])]

    async def main() -> None:
        old = {name: saga_of(name, Any, seen) for name in names}
        new = {name: saga_of(name, row_of(name).hint, seen) for name in names}
        async with sagas.open(location, [*old.values()], codec=codec) as store:
            for name, saga in old.items():
                value = row_of(name).stored
                await store.start(saga, name, {"field": value, "items": [value]})
            for name in names:
                await until(
                    lambda: any(at.waits == "approval" for at in store.active_attempts(name))
                )
        waiting = {name for name in names if row_of(name).expected == WAITS}
        async with sagas.open(location, [*new.values()], codec=codec) as store:
            for name in names:
                await store.complete(name, "review")
            for name in new.keys() - waiting:
                assert (await store.wait(name, timeout=60)).ok, row_of(name).text
            await until(lambda: _are_listed(store, len(waiting)))
            attention = await store.attention(limit=1000)
            assert {entry.key: entry.why for entry in attention} == dict.fromkeys(
                waiting, sagas.AttentionReason.CANNOT_DECODE
            )
            assert {entry.step for entry in attention} == {"ship", "ship-0"}

    run(main())
    assert seen.keys() == {name for name in names if row_of(name).expected != WAITS}
    for name, value in seen.items():
        change = row_of(name)
        assert (value, type(value)) == (change.expected, type(change.expected)), change.text


def trip(hotel: Any) -> sagas.Saga[Any]:
    """Return a saga that includes another one, whose input has this type."""
    inner, outer = sagas.Saga("hotel"), sagas.Saga("trip", input=dict[str, Any])

    def room(task: Any) -> None:
        raise AssertionError("it must not be called")

    room.__annotations__["task"] = sagas.Task[hotel]
    inner.step(name="room")(room)
    review = outer.approval(name="review")(lambda task: None)
    outer.include(inner, for_each="hotels", needs=[review])
    return outer


def test_open_warns_of_the_inputs_of_included_sagas(
    location: str, caplog: pytest.LogCaptureFixture
) -> None:
    """Each input is decoded with the types of its own saga: a program warns if it cannot read one,
    and only then.
    """

    async def main() -> None:
        for hint in (Money, Money, MoneyWithCurrency):
            saga = trip(hint)
            async with sagas.open(location, [saga]) as store:
                texts.append(caplog.text)
                caplog.clear()
                await store.start(saga, "k", {"hotels": [{"amount": 5}]})

    texts: list[str] = []
    with caplog.at_level(logging.WARNING):
        run(main())
    assert ["this program cannot read" in text for text in texts] == [False, False, True]
    assert "step 'room': input: missing 'currency', which MoneyWithCurrency requires" in texts[2]
