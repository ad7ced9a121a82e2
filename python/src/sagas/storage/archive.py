"""A closed shard as a folder that `sagas audit` verifies."""

from __future__ import annotations

import fcntl
import json
import os
import pathlib
import shutil
from collections.abc import Iterable, Iterator, Sequence
from contextlib import contextmanager
from typing import Any

import tomllib

from sagas.core.history import Projection
from sagas.core.states import saga_phase
from sagas.definition.capacity import HEADER, SHARD_CAPACITY
from sagas.definition.child_sagas import parent_of
from sagas.storage import queries
from sagas.storage.admin import Row, Source

Json = dict[str, Any]
COLUMNS = ", ".join(f"s.{name}" for name in queries.SAGA.split(", "))
SAGAS = f"""
SELECT {COLUMNS}, s.recovered, s.deadline, c.parent, {queries.LABELS}
FROM sagas s LEFT JOIN children c ON c.id = s.id WHERE {{ids}} ORDER BY s.id
"""
RESULTS = """
SELECT s.id, s.step, s.action, s.number, s.event, s.value, s.at FROM attempts s
WHERE {ids} ORDER BY s.id, s.at, s.step, s.action, s.number
"""
REQUESTS = """
SELECT s.id, r.command, r.value, r.at, r.answer
FROM sagas s JOIN operator_commands r USING (key) WHERE {ids} ORDER BY r.id
"""
IS_WITHIN = "s.id >= ? AND s.id < ?"
"""The condition for the sagas of a shard, with the parameters of `queries.bounds`."""
DELETED = """
SELECT id, definition_index, phase, recovered, ended, deleted_at FROM deleted_sagas
WHERE id >= ? AND id < ? ORDER BY id
"""
SHARD = "SELECT name, audit FROM shards WHERE shard = ?"
NAMES = {
    "results": ("step", "kind", "attempt", "outcome", "value", "at"),
    "requests": ("what", "value", "at", "answer"),
}


def write(connection: Source, shard: int, folder: pathlib.Path) -> pathlib.Path | None:
    """Write a shard into its own subfolder, and sync it.

    The subfolder has the name of the shard. An existing one is replaced. If the store no longer has
    the shard, nothing is written, and an existing subfolder stays: another program has deleted the
    shard.

    - `log`, `definition-00.toml` and so on: what `sagas audit log definition-*.toml` reads.
      `about.json` has the verdict of the audit when the shard was closed.
    - `sagas.jsonl`: one line for each saga: its number in the shard, its key, the key of its
      parent, input, times, deadline, outcome, results and requests. The line of a saga that
      retention has deleted before has its number, definition, phase and times.
    - `plans.jsonl`: one line for each adopted plan: the case and the answer with its certificate,
      as `sagas check` reads them.

    Returns:
        The subfolder, or None if nothing was written.

    Raises:
        OSError: The subfolder could not be written. Then no complete one has that name.
    """
    folder.mkdir(parents=True, exist_ok=True)
    with locked(folder) as held:  # before the read, so that no older state overwrites a newer one
        read = _read(connection, shard)
        if read is None:
            return None
        name, files = read
        partial, final = folder / f".{name}.part", folder / name
        for old in (partial, final):
            shutil.rmtree(old, ignore_errors=True)
        partial.mkdir()
        for name, text in files.items():
            write_synced(partial / name, text)
        _sync(partial)
        partial.rename(final)
        os.fsync(held)
    return final


def _read(connection: Source, shard: int) -> tuple[str, dict[str, str]] | None:
    """Return a shard's name and its files, of one moment; None if the shard is gone."""
    connection.begin()
    try:
        rows = connection.ask(SHARD, shard)
        return (str(rows[0][0]), _files(connection, shard, *rows[0])) if rows else None
    finally:
        connection.end()


def _files(connection: Source, shard: int, shard_name: str, audit: str | None) -> dict[str, str]:
    lines = "".join(
        text
        for (text,) in connection.ask(
            "SELECT text FROM event_log WHERE shard = ? ORDER BY first_seq", shard
        )
    )
    within = queries.bounds(shard)
    rows = connection.ask(SAGAS.format(ids=IS_WITHIN), *within)
    deleted = connection.ask(DELETED, *within) if connection.has_table("deleted_sagas") else []
    definitions = [text for _, text in connection.ask(queries.TEXTS, shard, shard)]
    files = {
        "log": HEADER + lines,
        "about.json": json.dumps(
            {
                "log": shard,
                "name": shard_name,
                "sagas": len(rows),
                "deleted": len(deleted),
                "audit": audit,
            }
        )
        + "\n",
        "sagas.jsonl": _jsonl(
            sorted(
                [*saga_fields(connection, rows, IS_WITHIN, within), *_deleted_fields(deleted)],
                key=lambda fields: int(fields["number"]),
            )
        ),
        "plans.jsonl": _plans_of(lines, rows, definitions),
    }
    return files | {f"definition-{index:02}.toml": text for index, text in enumerate(definitions)}


def _deleted_fields(rows: list[Row]) -> Iterator[Json]:
    """Yield the fields of the sagas that retention has deleted before."""
    for id, index, phase, recovered, ended, deleted_at in rows:
        yield {
            "number": id % SHARD_CAPACITY,
            "definition": index,
            "phase": saga_phase(phase, bool(recovered), None).value,
            "ended": ended,
            "deleted": deleted_at,
        }


def saga_fields(
    connection: Source, rows: list[Row], condition: str, parameters: Sequence[Any]
) -> Iterator[Json]:
    """Yield the fields of sagas.

    Args:
        connection: The connection.
        rows: The rows of `SAGAS`.
        condition: The condition on their ids.
        parameters: The parameters of the condition.
    """
    details: dict[str, dict[int, list[Json]]] = {}
    for partial, query in (("results", RESULTS), ("requests", REQUESTS)):
        by_saga: dict[int, list[Json]] = details.setdefault(partial, {})
        for id, *columns in connection.ask(query.format(ids=condition), *parameters):
            by_saga.setdefault(id, []).append(_parsed(dict(zip(NAMES[partial], columns))))
    for id, key, saga, index, text, at, phase, end, ended, note, *others in rows:
        recovered, deadline, parent, labels = others
        fields = {
            "number": id % SHARD_CAPACITY,
            "key": key,
            "parent": None if parent is None else parent_of(key),
            "saga": saga,
            "definition": index,
            "input": json.loads(text),
            "started": at,
            "deadline": deadline,
            "phase": saga_phase(phase, bool(recovered), note).value,
            "ended": ended,
            "note": note,
            "labels": queries.labels_of(labels),
        }
        parsed = None if end is None else json.loads(end)  # an open saga of a damaged shard
        yield fields | {"end": parsed} | {
            partial: by_saga.get(id, []) for partial, by_saga in details.items()
        }


def _parsed(fields: Json) -> Json:
    """Parse the values that are stored as JSON."""
    return {
        name: json.loads(value) if name in ("value", "answer") and value is not None else value
        for name, value in fields.items()
    }


def plans(lines: str, rows: list[Row], texts: list[str]) -> Iterator[Json]:
    """Yield the adopted plans of sagas of a shard.

    Args:
        lines: The event log of the shard.
        rows: The rows of `SAGAS`. The events of other sagas are left out.
        texts: The definitions of the shard.
    """
    names = [[step["name"] for step in tomllib.loads(text)["step"]] for text in texts]
    keys = {id % SHARD_CAPACITY: (key, index) for id, key, _, index, *_ in rows}
    histories = {number: Projection(names[index]) for number, (_, index) in keys.items()}
    for event in map(json.loads, lines.splitlines()):
        number = event["saga"]
        if number not in keys:
            continue
        (key, index), history = keys[number], histories[number]
        history.add(0.0, event)
        if event["event"] == "adopt" and history.adopted:
            case, answer = history.adopted
            fields = {"number": number, "key": key, "definition": index}
            yield fields | {"case": case, "answer": answer}


def _plans_of(lines: str, rows: list[Row], texts: list[str]) -> str:
    """Return the plans; none of a log that cannot be read, as of a damaged shard."""
    try:
        return _jsonl(plans(lines, rows, texts))
    except (ValueError, LookupError, TypeError):
        return ""


def _jsonl(rows: Iterable[Json]) -> str:
    return "".join(json.dumps(row, ensure_ascii=False) + "\n" for row in rows)


@contextmanager
def locked(folder: pathlib.Path) -> Iterator[int]:
    """Lock a folder: one program at a time writes into it."""
    held = os.open(folder, os.O_RDONLY | os.O_DIRECTORY | os.O_CLOEXEC)
    try:
        fcntl.flock(held, fcntl.LOCK_EX)
        yield held
    finally:
        fcntl.flock(held, fcntl.LOCK_UN)  # a forked process may still have it open
        os.close(held)


def write_synced(path: pathlib.Path, text: str) -> None:
    """Write a file, and sync it."""
    with open(path, "w", encoding="utf-8") as file:
        file.write(text)
        file.flush()
        os.fsync(file.fileno())


def _sync(folder: pathlib.Path) -> None:
    opened = os.open(folder, os.O_RDONLY | os.O_DIRECTORY)
    try:
        os.fsync(opened)
    finally:
        os.close(opened)
