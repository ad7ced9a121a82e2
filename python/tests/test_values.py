"""Values as JSON, both ways, by type hints."""

from __future__ import annotations

import collections
import collections.abc
import dataclasses
import datetime
import decimal
import enum
import functools
import json
import math
import typing
import uuid
from typing import Any, Generic, Mapping, NamedTuple, NewType, Optional, Sequence, TypeVar, Union

import pytest
from cases import run, simple
from hypothesis import given, strategies as st

import sagas
from sagas.definition import decoders, serialization
from sagas.definition.type_checks import Mismatch

JSON = st.recursive(
    st.none()
    | st.booleans()
    | st.integers()
    | st.floats(allow_nan=False, allow_infinity=False)
    | st.text(),
    lambda inner: st.lists(inner, max_size=4) | st.dictionaries(st.text(), inner, max_size=4),
    max_leaves=12,
)


class Colour(enum.Enum):
    RED = "red"


class Size(enum.IntEnum):
    LARGE = 3


@dataclasses.dataclass
class Seat:
    row: int
    colour: Colour
    price: decimal.Decimal = decimal.Decimal("1.50")


@dataclasses.dataclass
class Flight:
    id: uuid.UUID
    at: datetime.datetime
    seats: list[Seat]
    names: dict[str, Seat]
    next: Optional[Flight] = None
    span: tuple[int, ...] = ()


class Model:
    """A model like pydantic's: `model_dump` and `model_validate`."""

    def __init__(self, word: str) -> None:
        self.word = word

    def model_dump(self, mode: str) -> dict[str, str]:
        return {"word": self.word, "mode": mode}

    @classmethod
    def model_validate(cls, fields: dict[str, str]) -> Model:
        return cls(fields["word"])


class OldModel:
    """A model like pydantic 1's."""

    __fields__ = {"word": str}

    def __init__(self, word: str) -> None:
        self.word = word

    def json(self) -> str:
        return json.dumps({"word": self.word})

    @classmethod
    def parse_obj(cls, fields: dict[str, str]) -> OldModel:
        return cls(fields["word"])


class Pair(NamedTuple):
    """A type that is stored as a list."""

    seat: Seat
    row: int


class Route(enum.Enum):
    """Values that JSON has in another form."""

    SHORT = (1, (2, 3))
    LONG = datetime.date(2026, 1, 2)


T = TypeVar("T")
K = TypeVar("K")
Ts = typing.TypeVarTuple("Ts")


@dataclasses.dataclass
class Box(Generic[T]):
    inside: T
    more: list[T] = dataclasses.field(default_factory=list)
    spare: Optional[T] = None


@dataclasses.dataclass
class Boxes(Box[list[T]], Generic[K, T]):
    """A class whose variable is another type in the class that it inherits from."""

    last: Optional[T] = None
    names: dict[K, Box[T]] = dataclasses.field(default_factory=dict)


@dataclasses.dataclass
class SeatBox(Box[Seat]):
    number: int = 0


@dataclasses.dataclass
class Columns(Generic[typing.Unpack[Ts]]):
    """A class whose variable has several types."""

    rows: list[tuple[typing.Unpack[Ts]]]


Row = NewType("Row", int)
Day = NewType("Day", datetime.date)
SEAT, DAY = Seat(1, Colour.RED), datetime.date(2026, 1, 2)


def there_and_back(value: Any, hint: Any) -> Any:
    return serialization.read(serialization.write(value), decoders.decoder(hint))


@given(JSON)
def test_json_is_written_as_the_standard_library_does(value: Any) -> None:
    assert serialization.write(value) == json.dumps(
        value, sort_keys=True, separators=(",", ":"), allow_nan=False
    )
    assert serialization.read(serialization.write(value)) == value


def test_canonical() -> None:
    assert (
        serialization.write({"b": 1, "a": [True, None, "é\ud800"]})
        == '{"a":[true,null,"\\u00e9\\ud800"],"b":1}'
    )


class Broken:
    """A value that fails when its JSON is requested."""

    def model_dump(self, mode: str) -> Any:
        return {"mode": mode}["none"]


@pytest.mark.parametrize(
    "value",
    [
        math.nan,
        math.inf,
        object(),
        {1, object()},
        {math.nan},
        {"a": object()},
        {(1, 2): 3},
        b"bytes",
        Broken(),
        [Broken()],
        [object.__new__(Seat)],
    ],
)
def test_values_that_are_not_json(value: Any) -> None:
    with pytest.raises(sagas.NotSerializable):
        serialization.write(value)


def test_invalid_concurrency_of_waits() -> None:
    value: list[Any] = []
    value.append(value)
    with pytest.raises(sagas.NotSerializable):
        serialization.write(value)


def test_dataclasses() -> None:
    seat = Seat(1, Colour.RED)
    time = datetime.datetime(2026, 1, 2, 3, 4, tzinfo=datetime.timezone.utc)
    flight = Flight(
        uuid.UUID(int=7), time, [seat], {"a": seat}, Flight(uuid.UUID(int=8), time, [], {}), (1, 2)
    )
    assert there_and_back(flight, Flight) == flight


@pytest.mark.parametrize(
    "value, hint",
    [
        (None, Optional[Seat]),
        (Seat(1, Colour.RED), Optional[Seat]),
        (Seat(1, Colour.RED), Union[int, Seat]),
        (7, Seat | int),
        ((1, Colour.RED), tuple[int, Colour]),
        (datetime.date(2026, 1, 2), datetime.date),
        (datetime.time(1, 2), datetime.time),
        ({"a": [1]}, dict[str, list[int]]),
        ([Colour.RED], list[Colour]),
        ("text", str),
        (Pair(Seat(1, Colour.RED), 2), Pair),
        ({3, 1, 2}, set[int]),
        (frozenset({"b", "a"}), frozenset[str]),
        ({Colour.RED}, set[Colour]),
        ({"a": {(1, 2), (1, 10)}}, dict[str, set[tuple[int, int]]]),
        ({frozenset({1}), frozenset({2})}, set[frozenset[int]]),
        ({1: 2, 10: 3}, dict[int, int]),
        ({1.5: [Colour.RED]}, dict[float, list[Colour]]),
        ({True: 1, False: 0}, dict[bool, int]),
        ({Size.LARGE: 1}, dict[Size, int]),
        ([SEAT], Sequence[Seat]),
        ([SEAT], collections.abc.Iterable[Seat]),
        ({"a": [SEAT]}, Mapping[str, collections.abc.Collection[Seat]]),
        ({Colour.RED}, collections.abc.Set[Colour]),
        (DAY, Day),
        ([DAY], Optional[list[Day]]),
        ({7: 1}, dict[Row, int]),
        (Route.SHORT, Route),
        ({"a": Route.LONG}, dict[str, Route]),
        (Box(SEAT, [SEAT], SEAT), Box[Seat]),
        (Box([Box(DAY)]), Box[list[Box[datetime.date]]]),
        (Boxes([DAY], [[DAY]], None, DAY, {7: Box(DAY)}), Boxes[int, datetime.date]),
        (SeatBox(SEAT, [SEAT], None, 4), SeatBox),
        (Box(3), Box),
        (Columns([[1, "a"]]), Columns[int, str]),
        (Columns([[1, "a"]]), Columns),
        ([1], typing.List),
        ({"a": 1}, typing.Dict),
        ((1, 2), typing.Tuple),
        ((), typing.Tuple[()]),
        ({1, 2}, Optional[typing.Set]),
        ({"a": [1]}, Mapping[str, Sequence]),
        ([1], Sequence),
    ],
)
def test_types(value: Any, hint: Any) -> None:
    """A value is the same after it was stored."""
    assert there_and_back(value, hint) == value


class Sku(str):
    """A class that is stored as a text."""


class Span(NamedTuple):
    """A field of it was added."""

    first: int
    last: int = 9


WRONG = object()


@pytest.mark.parametrize(
    "value, hint, expected",
    [
        (5, float, 5.0),
        (5, Optional[float], 5.0),
        (5, int | float, 5),
        (5.5, int | float, 5.5),
        (5.0, int, 5),
        (5.5, int, WRONG),
        (2**60, float, 2.0**60),
        (2**60 + 1, float, WRONG),
        (10**400, float, WRONG),
        (1e300, int, WRONG),
        (True, int, WRONG),
        (True, int | str, WRONG),
        (1, bool, WRONG),
        (0, None, WRONG),
        ("5", int | None, WRONG),
        ("5", decimal.Decimal | str, decimal.Decimal("5")),
        ("x", decimal.Decimal | str, "x"),
        ("red", typing.Literal[Colour.RED], Colour.RED),
        (1, typing.Literal[True], WRONG),
        (3, Size, Size.LARGE),
        (3.0, Size, WRONG),
        ([1], Span, Span(1)),
        ([], Span, WRONG),
        ("x", Sku, Sku("x")),
        (5, Sku, WRONG),
        ("x", bytes, WRONG),
        ({"a": 1}, collections.OrderedDict, collections.OrderedDict(a=1)),
        ({"a": 1}, collections.defaultdict[str, int], {"a": 1}),
        ({"a": "1"}, collections.defaultdict[str, int], WRONG),
        ([["a", 1]], dict[str, int], WRONG),
        ({"1": 1}, list[int], WRONG),
        ([1, 2, 3], tuple[int, int], WRONG),
        ([[1]], set[Any], WRONG),
        ("2026-01-02", datetime.datetime, WRONG),
        ("2026-01-02T03:04", datetime.date, WRONG),
        (5, uuid.UUID, WRONG),
        (5, Any, 5),
        (5, object, 5),
        (5, collections.abc.Hashable, 5),
    ],
)
def test_a_value_is_read_as_another_type_only_if_nothing_is_lost(
    value: Any, hint: Any, expected: Any
) -> None:
    if expected is WRONG:
        with pytest.raises(Mismatch):
            there_and_back(value, hint)
    else:
        read = there_and_back(value, hint)
        assert read == expected and isinstance(read, type(expected))


def test_a_decimal_is_the_number_that_is_written() -> None:
    """This holds for a number of JSON, too; other texts are refused, and a union keeps its own
    floats.
    """
    decoder = decoders.decoder(decimal.Decimal)
    assert decoder
    assert [decoder(value) for value in ("19.90", 19.99, 7)] == [
        decimal.Decimal(text) for text in ("19.90", "19.99", "7")
    ]
    for wrong in (True, [0, [1], 0], "x", None):
        with pytest.raises(Mismatch, match=": cannot be read as Decimal"):
            decoder(wrong)
    either = decoders.decoder(decimal.Decimal | float)
    assert either and repr([either(1.5), either("1.5")]) == "[1.5, Decimal('1.5')]"


@dataclasses.dataclass
class Card:
    number: str


@dataclasses.dataclass
class Voucher:
    number: str
    value: int = 0


@pytest.mark.parametrize("hint", [Union[Card, Voucher], Union[Voucher, Card]])
def test_a_union_of_classes(hint: Any) -> None:
    """The class that has all fields is used; a field that no class has any more is dropped."""
    assert there_and_back(Voucher("7", 10), hint) == Voucher("7", 10)
    assert serialization.read('{"number":"7","gone":1}', decoders.decoder(hint)).number == "7"


def test_another_input_of_a_union_is_another_start(location: str) -> None:
    """This holds also if another class of the union would read it."""

    def pay(task: sagas.Task[Union[Card, Voucher]]) -> int:
        assert isinstance(task.input, Voucher)
        return task.input.value

    kind = simple(pay)

    async def main() -> None:
        async with sagas.open(location, [kind]) as store:
            assert (await (await store.start(kind, "k", Voucher("7", 10))).wait(60)).results == {
                "a": 10
            }
            with pytest.raises(sagas.KeyConflict):
                await store.start(kind, "k", Voucher("7", 99))

    run(main())


@pytest.mark.parametrize("hint", [int, float, bool, Colour, datetime.date, typing.Literal["a"]])
def test_a_key_that_is_not_of_its_hint(hint: Any) -> None:
    """The path of the error names the key."""
    with pytest.raises(Mismatch, match=r"\.seven: "):
        there_and_back({"seven": 1}, dict[hint, int])


def test_models() -> None:
    assert serialization.write(Model("a")) == '{"mode":"json","word":"a"}'
    assert there_and_back(Model("a"), Model).word == "a"
    assert there_and_back([Model("a")], list[Model])[0].word == "a"
    assert (
        serialization.write(OldModel("a")) == '{"word":"a"}'
        and there_and_back([OldModel("a")], list[OldModel])[0].word == "a"
    )


def test_the_error_of_an_invalid_value() -> None:
    """Keys of a dict that cannot be sorted, and a value that is not an object."""
    with pytest.raises(sagas.NotSerializable, match="keys of a dict"):
        serialization.write({1: 2, "a": 3})
    with pytest.raises(TypeError, match="Seat requires an object"):
        there_and_back(None, Seat)


def test_sets_are_written_in_one_order() -> None:
    """They are lists: numbers and texts in their order, all others by their JSON; the text is the
    same each time.
    """
    assert (
        serialization.write({10, 9, 1.5}) == "[1.5,9,10]"
        and serialization.write(frozenset({"b", "a"})) == '["a","b"]'
        and serialization.write(set()) == "[]"
    )
    assert (
        serialization.write({2, "a", None}) == '["a",2,null]'
        and serialization.write({(2, 1), (1, 2)}) == "[[1,2],[2,1]]"
    )


@pytest.mark.parametrize(
    "value, text",
    [
        ({"a": {1, 2, object()}}, r'input\["a"\]: object is not JSON'),
        (
            [1, {"b": Seat(1, math.nan)}],
            r'input\[1\]\["b"\]\.colour: NaN and infinity are not JSON',
        ),
        ({3: b""}, r"input\[3\]: bytes is not JSON"),
        (object(), "input: object is not JSON"),
    ],
)
def test_the_path_of_a_value_that_is_not_json(value: Any, text: str) -> None:
    """The path to it, as it would be written in Python."""
    with pytest.raises(sagas.NotSerializable, match=f"^{text}"):
        serialization.write(value, "input")


def test_hints_of_functions() -> None:
    def function(task: sagas.Task[Seat]) -> Colour:
        ...  # type: ignore[empty-body]

    async def plain(task):
        ...  # type: ignore[no-untyped-def]

    def nowhere(task: NoSuchName) -> int:
        ...  # type: ignore[name-defined,empty-body]

    decode_input, returned = decoders.input_decoder(function), decoders.result_decoder(function)
    assert (
        decode_input
        and returned
        and decode_input({"row": 1, "colour": "red"}) == Seat(1, Colour.RED)
        and returned("red") is Colour.RED
    )
    for untyped in (plain, nowhere):
        assert decoders.input_decoder(untyped) is None is decoders.result_decoder(untyped)


def test_hints_of_callable_objects() -> None:
    """Of a partial function with values before and after its task, and of an object."""

    def function(row: list[int], task: sagas.Task[Seat], *, size: Size) -> Colour:
        ...  # type: ignore[empty-body]

    class Charge:
        def __call__(self, task: sagas.Task[Seat]) -> Colour:
            ...  # type: ignore[empty-body]

        def method(self, task: sagas.Task[Seat]) -> Colour:
            ...  # type: ignore[empty-body]

    part = functools.partial(function, [1], size=Size.LARGE)
    for function_kind in (
        part,
        functools.partial(part),
        Charge(),
        Charge().method,
        functools.partial(Charge()),
    ):
        decode_input = decoders.input_decoder(function_kind)
        returned = decoders.result_decoder(function_kind)
        assert (
            decode_input
            and returned
            and decode_input({"row": 1, "colour": "red"}) == SEAT
            and returned("red") is Colour.RED
        )
