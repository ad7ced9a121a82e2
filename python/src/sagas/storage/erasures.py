"""Erases the data of one saga, and keeps its key, its events and its plan."""

from __future__ import annotations

import dataclasses
import json
from collections.abc import Sequence
from typing import Any

from sagas.base.errors import NoSuchSaga, NotErasable
from sagas.core.decisions import request_fields, request_text
from sagas.core.history import FAILURE_EVENTS
from sagas.core.states import EarlyReason
from sagas.definition import serialization
from sagas.definition.arguments import BELOW, root_of
from sagas.definition.erasure import ERASED_TEXT, Erasure, erasure_of
from sagas.definition.layout import ShapeValues
from sagas.definition.payloads import RESERVED, Reference
from sagas.storage.admin import Source
from sagas.storage.queries import RESOLVABLE

TREE = f"""
WITH RECURSIVE tree(id) AS (
  SELECT id FROM sagas WHERE id = ? UNION
  SELECT c.id FROM children c JOIN tree ON c.parent = tree.id)
SELECT s.id, s.key, s.phase, CASE WHEN s.note IS NULL AND {RESOLVABLE} THEN 1 ELSE 0 END,
  CASE WHEN EXISTS (
    SELECT 1 FROM suspensions h WHERE h.id = s.id AND h.step = -1 AND h.reason = 'end_call'
  ) THEN 1 ELSE 0 END
FROM tree JOIN sagas s ON s.id = tree.id ORDER BY s.id
"""
"""A saga and the sagas below it: its children and those that undo them, and so on."""
BLANK_SAGA = """
UPDATE sagas SET input = ?, note = CASE WHEN note IS NULL THEN note ELSE ? END
WHERE id = ? AND phase IS NOT NULL AND input = ?
"""
BLANK_ATTEMPT = """
UPDATE attempts SET value = ? WHERE id = ? AND step = ? AND action = ? AND number = ?
"""
BLANK_SUSPENSION = """
UPDATE suspensions SET detail = ? WHERE id = ? AND step = ? AND action = ? AND number = ?
"""
BLANK_SPANS = """
UPDATE attempt_spans SET spans = ?
WHERE id = ? AND step = ? AND action = ? AND number = ? AND at = ?
"""
BLANK_SHAPE = "UPDATE shapes SET shape = ? WHERE id = ?"
BLANK_PROGRESS = "UPDATE progress SET detail = NULL WHERE id = ?"
BLANK_REPORTS = "UPDATE external_attempts SET value = NULL WHERE id = ?"
BLANK_COMMAND = "UPDATE operator_commands SET value = ? WHERE id = ?"
DROP_LABELS = "DELETE FROM labels WHERE id = ? AND substr(name, 1, 1) <> '='"
NOTED = """
INSERT INTO operator_commands(key, command, value, at, answer) VALUES(?, 'erase', ?, ?, 'true')
"""
TEXTS = ("result", "error", "note")
"""What a command to a saga says about it."""


@dataclasses.dataclass(slots=True)
class Erased:
    """What an erasure has changed.

    Attributes:
        keys: The sagas whose data is erased, with those that were erased before.
        is_new: Whether this erasure changed something.
        blobs: The keys of large values outside of the database that no row refers to any more.
    """

    keys: list[str]
    is_new: bool = False
    blobs: list[str] = dataclasses.field(default_factory=list)


def erase(connection: Source, key: str, by: str | None) -> Erased:
    """Erase the data of an ended saga, and of the sagas below it.

    Its key, its events, its plan and the times stay. A second call changes nothing.

    Raises:
        NoSuchSaga: No saga has the key.
        NotErasable: The saga, or one below it, is open, needs an operator, or its `on_end` function
            was not called yet; or it is a child.
    """
    connection.overwrite_deleted()
    erased = connection.atomically(lambda: _erase_all(connection, key, by))
    connection.drop_journal()
    return erased


def _erase_all(connection: Source, key: str, by: str | None) -> Erased:
    rows = _tree(connection, key)
    erased = Erased([str(row_key) for _, row_key, *_ in rows])
    erasure = Erasure(connection.now(), by)
    for id, row_key, *_ in rows:
        if _erase_one(connection, int(id), str(row_key), erasure, erased.blobs):
            value = request_text(request_fields(by, None))
            connection.changed(NOTED, row_key, value, erasure.at)
            erased.is_new = True
    return erased


def _tree(connection: Source, key: str) -> Sequence[tuple[Any, ...]]:
    """Return the rows of a saga and of those below it. Raises as `erase`."""
    ids = connection.ask("SELECT id FROM sagas WHERE key = ?", key)
    if not ids:
        raise NoSuchSaga(f"no saga has the key {key!r}")
    if BELOW in key:
        raise NotErasable(f"saga {key!r} is a child. Erase {root_of(key)!r}, with all below it")
    rows = connection.ask(TREE, ids[0][0])
    for _, row_key, phase, needs_operator, has_end_call in rows:
        if phase is None:
            raise NotErasable(f"saga {row_key!r} is open. Erase {key!r} after it has ended")
        if needs_operator:
            raise NotErasable(
                f"saga {row_key!r} needs an operator, who reads its data. Resolve it, and then "
                f"erase {key!r}"
            )
        if has_end_call:
            raise NotErasable(
                f"the on_end function of saga {row_key!r} has not been called yet, and reads its "
                f"data. Erase {key!r} after the call"
            )
    return rows


def _erase_one(connection: Source, id: int, key: str, erasure: Erasure, blobs: list[str]) -> bool:
    """Erase the data of one saga; return False if it was erased before, or is now.

    Raises:
        NoSuchSaga: The saga was deleted in this moment.
    """
    texts = [text for (text,) in connection.ask("SELECT input FROM sagas WHERE id = ?", id)]
    if not texts:
        raise NoSuchSaga(f"saga {key!r} was deleted. Nothing was erased")
    mark = erasure.stored
    if erasure_of(texts[0]) or not connection.changed(BLANK_SAGA, mark, ERASED_TEXT, id, *texts):
        return False
    query = "SELECT step, action, number, event, value FROM attempts WHERE id = ?"
    for *attempt, event, value in connection.ask(query, id):
        texts.append(value)
        connection.changed(BLANK_ATTEMPT, _blank_value(event, value, mark), id, *attempt)
    query = "SELECT step, action, number, reason FROM suspensions WHERE id = ?"
    for *attempt, reason in connection.ask(query, id):
        is_result = reason in (EarlyReason.RESULT, EarlyReason.UNDONE)
        detail = mark if is_result else _failure({}) if reason == EarlyReason.ERROR else None
        connection.changed(BLANK_SUSPENSION, detail, id, *attempt)
    query = "SELECT step, action, number, at, spans FROM attempt_spans WHERE id = ?"
    for *span, spans in connection.ask(query, id):
        blank = [
            [word, at, error and ERASED_TEXT, *more] for word, at, error, *more in json.loads(spans)
        ]
        connection.changed(BLANK_SPANS, json.dumps(blank), id, *span)
    for (shape,) in connection.ask("SELECT shape FROM shapes WHERE id = ?", id):
        texts.append(shape)
        connection.changed(BLANK_SHAPE, _blank_shape(shape), id)
    connection.changed(BLANK_PROGRESS, id)
    connection.changed(BLANK_REPORTS, id)
    connection.changed(DROP_LABELS, id)
    _blank_commands(connection, id)
    references = (Reference.of(value) for value in texts if value)
    blobs += [reference.key for reference in references if reference is not None]
    return True


def _blank_value(event: str, value: str | None, mark: str) -> str | None:
    """Return what is left of a result or an error: that there was one, and its kind."""
    if value is None or value == "null":
        return value
    if event in FAILURE_EVENTS:
        return _failure(json.loads(value))
    if value.startswith(serialization.FAILED_HEAD):
        return json.dumps({serialization.FAILED: ERASED_TEXT}, separators=(",", ":"))
    return mark


def _failure(parts: dict[str, Any]) -> str:
    return json.dumps(parts | {"error": ERASED_TEXT}, separators=(",", ":"))


def _blank_shape(text: str) -> str:
    """Return the shape with only the numbers of its items, if they can be read."""
    if text.startswith(RESERVED):
        return "{}"
    numbering = ShapeValues.read(text).numbering(())
    return ShapeValues.of_numbering({**numbering, "keys": {}}).text()


def _blank_commands(connection: Source, id: int) -> None:
    """Drop what operators wrote about a saga; who did what and when stays."""
    query = """
    SELECT r.id, r.value FROM operator_commands r JOIN sagas s ON s.key = r.key WHERE s.id = ?
    """
    for number, value in connection.ask(query, id):
        details = json.loads(value or "null")
        if isinstance(details, dict):
            left = {name: part for name, part in details.items() if name not in TEXTS}
            connection.changed(BLANK_COMMAND, serialization.write(left), number)
