"""The fields of inputs that approvals show, and labels, for those who decide."""

from __future__ import annotations

import decimal
import json
import re
from collections.abc import Callable, Iterable, Mapping, Sequence
from typing import Any, NamedTuple, Union

from sagas.definition.compiled import CompiledDefinition
from sagas.definition.layout import Scope, ShapeValues
from sagas.definition.saga import Saga
from sagas.inspection.question import Query, Question
from sagas.storage.queries import LABELS, labels_of

MANY = 500
"""How many sagas one query fetches."""
MAX_LENGTH = 1000
"""Maximum characters of a shown value as JSON. The rest of a longer one is left out."""
STORED = f"""SELECT s.id, {LABELS}, s.input, (SELECT p.shape FROM shapes p WHERE p.id = s.id)
FROM sagas s WHERE s.id IN """
LABELED = f"SELECT s.id, {LABELS} FROM sagas s WHERE s.id IN "
NUMBER = re.compile(r"-?[0-9]{1,30}(\.[0-9]{1,30})?")
"""A text that is sorted as a number: amounts are often stored as texts."""


class StepFields(NamedTuple):
    """The fields that one step shows, and the included saga that has the input, if any."""

    paths: tuple[str, ...]
    scope: Scope


class StoredSaga(NamedTuple):
    """What is stored of a saga: its labels, and its input and shape as stored texts."""

    labels: dict[str, str]
    input: str | None = None
    shape: str | None = None


Fields = Mapping[str, StepFields]
"""The fields that the approvals of a definition show, by the names of the steps."""


def fields_of(definition: str, saga: Saga[Any]) -> Fields:
    """Return the fields that the approvals of a stored definition show.

    `saga` is the saga that the definition belongs to.
    """
    kind = CompiledDefinition(definition, saga)
    fields: dict[str, StepFields] = {}
    for name, step in zip(kind.names, kind.steps):
        if step is not None and step.shown_fields:
            scope = () if kind.layout is None else kind.layout.origins[name].scope
            fields[name] = StepFields(step.shown_fields, scope)
    return fields


def stored_sagas(ids: Iterable[int], with_inputs: Iterable[int]) -> Question[dict[int, StoredSaga]]:
    """Return what is stored of sagas with these ids, of some of them with their inputs.

    A saga that was deleted concurrently is left out.
    """
    has_input = {*with_inputs}
    result: dict[int, StoredSaga] = {}
    for query, wanted in ((STORED, has_input), (LABELED, {*ids} - has_input)):
        listed = sorted(wanted)
        for start in range(0, len(listed), MANY):
            batch = listed[start : start + MANY]
            rows = yield Query(f"{query}({', '.join('?' * len(batch))})", (*batch,), is_long=True)
            result |= {int(id): StoredSaga(labels_of(labels), *more) for id, labels, *more in rows}
    return result


def values_of(
    fields: StepFields, stored: StoredSaga, decode: Callable[[str], str]
) -> dict[str, Any]:
    """Return the shown fields of a saga's input, each by its path. A missing one is None.

    `decode` returns the JSON of a stored text. Its errors pass through.
    """
    if fields.scope:
        text = ShapeValues.read(decode(stored.shape or "{}")).input(fields.scope)
    else:
        text = decode(stored.input or "null")
    input = json.loads(text)
    return {path: _shortened(_at(input, path)) for path in fields.paths}


def _at(value: Any, path: str) -> Any:
    for name in path.split("."):
        value = value.get(name) if isinstance(value, dict) else None
    return value


def _shortened(value: Any) -> Any:
    """Return a value, or the beginning of its JSON if that is too long."""
    if value is None or isinstance(value, (bool, int, float)):
        return value
    text = value if isinstance(value, str) else json.dumps(value, ensure_ascii=False)
    return value if len(text) <= MAX_LENGTH else f"{text[: MAX_LENGTH - 3]}..."


Rank = tuple[int, Union[decimal.Decimal, str]]


def rank_of(value: Any) -> Rank:
    """Return the rank of a shown value in an order: numbers, then texts, then others.

    A text that is a number counts as a number.
    """
    if isinstance(value, (int, float)) and not isinstance(value, bool):
        return 0, decimal.Decimal(repr(value))
    if isinstance(value, str):
        if NUMBER.fullmatch(value) is not None:
            return 0, decimal.Decimal(value)
        return 1, value.casefold()
    return 2, json.dumps(value, sort_keys=True)


def all_paths(shown: Sequence[Mapping[str, Any]]) -> list[str]:
    """Return the paths of all shown fields, in the order of their first occurrence."""
    return list(dict.fromkeys(path for values in shown for path in values))
