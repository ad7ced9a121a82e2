"""Deleted families as lines of a file, one file for each day."""

from __future__ import annotations

import datetime
import json
import os
import pathlib
from collections.abc import Iterator, Sequence
from typing import Any

from sagas.core.states import EnginePhase
from sagas.definition.capacity import SHARD_CAPACITY
from sagas.storage import archive, families, queries
from sagas.storage.admin import Row, Source

Json = dict[str, Any]
FOLDER = "families"
"""The subfolder of the archive directory."""
IDS = f"s.id {families.IN_IDS}"
SHARDS = "SELECT name FROM shards WHERE shard = ?"
DEFINITIONS = """
SELECT definition, text FROM shard_definitions JOIN definitions USING (definition)
WHERE shard = ? ORDER BY place
"""


def append(connection: Source, ids: Sequence[int], folder: pathlib.Path) -> pathlib.Path | None:
    """Append sagas to the file of this day, and sync it.

    The day is that of the store's clock, in UTC. A file has a JSON object in each line: the fields
    of `sagas.jsonl` of a shard, the number and the name of the shard, the digest of the definition,
    and the adopted plans, each with its case and its answer. `definition-DIGEST.toml` next to it
    has the definition.

    A program that ends before the deletion leaves lines of sagas that the next one appends again.

    Returns:
        The file, or None if the store has none of the sagas.

    Raises:
        OSError: The file could not be written.
    """
    folder = folder / FOLDER
    folder.mkdir(parents=True, exist_ok=True)
    with archive.locked(folder) as held:
        lines, definitions = _read(connection, ids)
        if not lines:
            return None
        for digest, text in definitions.items():
            _put_definition(folder / f"definition-{digest}.toml", text)
        day = datetime.datetime.fromtimestamp(connection.now(), datetime.UTC).date()
        path = folder / f"families-{day.isoformat()}.jsonl"
        _append(path, lines)
        os.fsync(held)
    return path


def _read(connection: Source, ids: Sequence[int]) -> tuple[str, dict[str, str]]:
    """Return the lines of sagas, and the definitions by their digests, as of one moment."""
    connection.begin()
    try:
        lines, definitions = list[str](), dict[str, str]()
        shard_sagas: dict[int, list[int]] = {}
        for id in ids:
            shard_sagas.setdefault(id // SHARD_CAPACITY, []).append(id)
        for shard, numbers in shard_sagas.items():
            texts = connection.ask(DEFINITIONS, shard)
            for fields in _saga_fields(connection, shard, numbers, texts):
                lines.append(json.dumps(fields, ensure_ascii=False) + "\n")
                definitions[fields["digest"]] = texts[fields["definition"]][1]
        return "".join(lines), definitions
    finally:
        connection.end()


def _saga_fields(
    connection: Source, shard: int, ids: Sequence[int], texts: Sequence[Row]
) -> Iterator[Json]:
    """Yield the fields of sagas of a shard."""
    ((name,),) = connection.ask(SHARDS, shard)
    for chunk in families.chunks(ids):
        rows = connection.ask(archive.SAGAS.format(ids=IDS), *chunk)
        plans: dict[int, list[Json]] = {}
        if any(row[10] or row[6] == EnginePhase.STUCK for row in rows):  # they may have plans
            log, _ = queries.joined(connection.ask(queries.LINES, shard))
            for plan in archive.plans(log, rows, [text for _, text in texts]):
                fields = {"case": plan["case"], "answer": plan["answer"]}
                plans.setdefault(plan["number"], []).append(fields)
        for fields in archive.saga_fields(connection, rows, IDS, chunk):
            digest, _ = texts[fields["definition"]]
            of_shard = {"shard": shard, "name": name, "digest": digest}
            yield of_shard | fields | {"plans": plans.get(fields["number"], [])}


def _put_definition(path: pathlib.Path, text: str) -> None:
    """Write a definition, unless the file exists."""
    if not path.exists():
        partial = path.with_name(f".{path.name}.part")
        archive.write_synced(partial, text)
        partial.rename(path)


def _append(path: pathlib.Path, lines: str) -> None:
    """Append lines, after the last whole line: a program may have ended while it appended."""
    with open(path, "a+b") as file:
        if size := file.seek(0, os.SEEK_END):
            file.seek(size - 1)
            if file.read(1) != b"\n":
                file.seek(0)
                file.truncate(file.read().rfind(b"\n") + 1)
        file.write(lines.encode())
        file.flush()
        os.fsync(file.fileno())
