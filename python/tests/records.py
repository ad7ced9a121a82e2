"""The content of a store, read without the package."""

from __future__ import annotations

import contextlib
import json
import pathlib
import re
import sqlite3
from collections.abc import Callable, Iterator
from dataclasses import dataclass, field
from typing import Any

import psycopg
import tomllib

Json = dict[str, Any]
ROOM = 1000


@dataclass(frozen=True)
class SagaRow:
    """A saga as the database has it."""

    id: int
    key: str
    definition_index: int
    input: Any
    phase: str | None
    end: Json | None

    @property
    def log(self) -> int:
        return self.id // ROOM

    @property
    def number(self) -> int:
        return self.id % ROOM


@dataclass
class LogRows:
    """A log: its name, the texts of its definitions, and its lines in the chunks of its commits."""

    log: int
    name: str
    closed: bool
    texts: list[str]
    chunks: list[tuple[int, str]] = field(default_factory=list)

    @property
    def lines(self) -> list[str]:
        return [line for _, text in self.chunks for line in text.splitlines()]

    @property
    def events(self) -> list[Json]:
        return [json.loads(line) for line in self.lines]

    def steps(self, definition_index: int) -> list[str]:
        """Return the names of the steps of a definition."""
        return [step["name"] for step in tomllib.loads(self.texts[definition_index])["step"]]


@dataclass(frozen=True)
class Outcome:
    """A result row."""

    outcome: str
    value: Any


@dataclass
class Records:
    """All of a store."""

    logs: dict[int, LogRows]
    sagas: dict[str, SagaRow]
    results: dict[tuple[int, int, str, int], Outcome]
    deleted: dict[int, str] = field(default_factory=dict)
    """The phases of the deleted sagas whose logs remain, by their ids."""


def _lite(store: pathlib.Path | str) -> Iterator[Callable[[str], list[Any]]]:
    with contextlib.closing(sqlite3.connect(f"file:{store}?mode=ro", uri=True, timeout=10)) as db:
        db.execute("BEGIN")
        yield lambda query: db.execute(query).fetchall()


def _server(store: pathlib.Path | str) -> Iterator[Callable[[str], list[Any]]]:
    with psycopg.connect(str(store), options="-csearch_path=sagas") as link:
        link.isolation_level = psycopg.IsolationLevel.REPEATABLE_READ
        yield lambda query: link.execute(query).fetchall()


def urls_of(store: pathlib.Path | str) -> list[str]:
    """Return the databases of a store: `URL,URL`, or one, or a file."""
    return re.split(",(?=postgresql:)", str(store))


def read(store: pathlib.Path | str) -> Records:
    """Read a store, even while a program runs on it.

    If it has several databases, their shards have different numbers.
    """
    if len(urls := urls_of(store)) > 1:
        parts = [read(url) for url in urls]
        merged = Records({}, {}, {}, {})
        for part in parts:
            assert not {*merged.logs} & {*part.logs} and not {*merged.sagas} & {*part.sagas}
            merged.logs |= part.logs
            merged.sagas |= part.sagas
            merged.results |= part.results
            merged.deleted |= part.deleted
        return merged
    rows = contextlib.contextmanager(_server if str(store).startswith("postgresql:") else _lite)
    with rows(store) as ask:
        logs = {
            log: LogRows(log, name, bool(closed), [])
            for log, name, closed in ask("SELECT shard, name, closed FROM shards ORDER BY shard")
        }
        for log, text in ask(
            "SELECT shard, text FROM shard_definitions JOIN definitions USING (definition) "
            "ORDER BY shard, place"
        ):
            logs[log].texts.append(text)
        for log, first, text in ask(
            "SELECT shard, first_seq, text FROM event_log ORDER BY shard, first_seq"
        ):
            logs[log].chunks.append((first, text))
        sagas = {
            key: SagaRow(
                id, key, definition_index, json.loads(text), phase, json.loads(end) if end else None
            )
            for id, key, definition_index, text, phase, end in ask(
                "SELECT id, key, definition_index, input, phase, outcome FROM sagas"
            )
        }
        results = {
            (id, step, kind, attempt): Outcome(outcome, json.loads(value) if value else None)
            for id, step, kind, attempt, outcome, value in ask(
                "SELECT id, step, action, number, event, value FROM attempts"
            )
        }
        deleted = {id: phase for id, phase in ask("SELECT id, phase FROM deleted_sagas")}
        return Records(logs, sagas, results, deleted)


def integrity(store: pathlib.Path) -> str:
    """Return SQLite's integrity report on the file."""
    db = sqlite3.connect(store)
    try:
        return str(db.execute("PRAGMA integrity_check").fetchone()[0])
    finally:
        db.close()
