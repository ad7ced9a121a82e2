"""The store of a round of `kills_features.py` and its archives, read without the package.

It returns each saga with its definition, its values and its part of the log.
"""

from __future__ import annotations

import base64
import contextlib
import json
import pathlib
import re
import sqlite3
from collections.abc import Iterable, Iterator
from dataclasses import dataclass, field
from typing import Any

import psycopg
import records
import tomllib
from features_shop import Scramble, Settings
from judge import Event, ends_of
from records import LogRows

Json = dict[str, Any]
Row = tuple[Any, ...]
STEP = re.compile(r'^name = "(.*)"\n(?:# of (.*)\n)?', re.M)
VERSION = re.compile(r"^# version (\d+)$", re.M)
CHILDREN = {"stay": "hotel", "rest": "spa", "parts": "parcel"}
"""Steps that start children, and the sagas of these."""
SILENT = {"paper", "sign"}
"""Steps without a function."""
NOT_UNDONE = {"paper", "pause", "sign"}
"""Steps without a compensation."""
FAMILIES = "families"
"""The folder of an archive directory that has no shard, but families of shards that remained."""
GOOD = ("commit", "undone")
FAILED = "$failed"
"""The only name in the stored result of an optional step that failed."""
ERASED = "$erased"
"""The only name in a stored value that was erased."""
ERASED_TEXT = "erased"
"""What is left of an erased error."""
PIVOT_HEAD = re.compile(r"^# pivot (\S+)$", re.M)


def rows_of(url: str, query: str) -> list[tuple[Any, ...]]:
    """Return the rows of a query, of all databases of a store; execute a change."""
    if len(urls := records.urls_of(url)) > 1:
        return [row for each in urls for row in rows_of(each, query)]
    if url.startswith("postgresql:"):
        with psycopg.connect(url, options="-csearch_path=sagas", autocommit=True) as link:
            cursor = link.execute(query)  # type: ignore[arg-type]
            return cursor.fetchall() if cursor.description else []
    with contextlib.closing(sqlite3.connect(url, timeout=30, isolation_level=None)) as db:
        return db.execute(query).fetchall()


@dataclass
class Instance:
    """A saga. Its key may have become free again, and be another saga's, too."""

    log: LogRows
    number: int
    key: str
    saga: str
    text: str
    input: Any
    phase: str | None
    end: Json | None
    note: str | None
    labels: dict[str, str]
    deadline: float | None
    values: dict[tuple[str, str, int], tuple[str, Any]]
    """By step, `run` or `undo`, and attempt: the event, and the value."""
    is_archived: bool = False
    started: float = 0.0
    ended: float | None = None
    events: list[tuple[float | None, Json]] = field(default_factory=list)

    def __post_init__(self) -> None:
        self.token = f"{self.log.name}-{self.number}"
        tables = tomllib.loads(self.text)["step"]
        self.steps = [step["name"] for step in tables]
        self.needs = {step["name"]: step.get("needs", []) for step in tables}
        headers = STEP.findall(self.text[self.text.index("[[step]]") :])
        self.declared = {name: re.sub(r"\[\d+\]", "", of) or name for name, of in headers}
        version = VERSION.search(self.text)
        self.version = int(version[1]) if version else 1
        self.ends: list[Event] = list(ends_of(self.log, self.steps, self.number))
        self.failures = {
            step: value[FAILED]
            for (step, _, _), (event, value) in self.values.items()
            if event == "commit" and isinstance(value, dict) and [*value] == [FAILED]
        }
        """The errors of optional steps that failed: they are void in the log."""
        self.good = {
            (end.step, end.kind): end
            for end in self.ends
            if end.word in GOOD and end.step not in self.failures
        }

    @property
    def states(self) -> dict[str, str]:
        """Return the state of each step at its end, as callers see it."""
        states = dict(zip(self.steps, self.end["states"])) if self.end else {}
        return states | {step: "failed" for step in self.failures if states}

    @property
    def is_erased(self) -> bool:
        """Return whether the data of the saga was erased."""
        return isinstance(self.input, dict) and [*self.input] == [ERASED]

    @property
    def pivot(self) -> str | None:
        """Return the name of its pivot."""
        match = PIVOT_HEAD.search(self.text)
        return match[1] if match else None

    def needed_by(self, steps: Iterable[str]) -> set[str]:
        """Return what some steps need, directly or not."""
        reached, left = set[str](), [*steps]
        while left:
            fresh = {*self.needs[left.pop()]} - reached
            reached |= fresh
            left += fresh
        return reached

    @property
    def is_undo(self) -> bool:
        """Return whether the saga undoes a child."""
        return self.saga.endswith("-undo")

    @property
    def seen_phase(self) -> str:
        """Return the phase that callers see until an operator resolves the saga."""
        if self.phase == "stuck":
            return "stuck"
        is_planned = self.end and (self.end["answer"] or {}).get("kind") == "plan"
        return "recovered" if is_planned else "completed"


class Values:
    """A reader of stored values."""

    def __init__(self, settings: Settings) -> None:
        self.settings, self.codec = settings, Scramble()
        self.lost: list[str] = []
        self.blobs = dict[str, bytes]()
        folder = pathlib.Path(settings.folder, "blobs")
        for path in folder.rglob("*") if folder.exists() else ():
            if path.is_file():
                self.blobs[str(path.relative_to(folder))] = path.read_bytes()
        if "blobs" in settings.options and settings.is_served and settings.seed % 2:
            there = "SELECT 1 FROM pg_tables WHERE tablename = 'sagas_blobs'"
            url = settings.urls[0]
            if rows_of(url, there):
                rows = rows_of(url, "SELECT key, data FROM public.sagas_blobs")
                self.blobs = {key: bytes(data) for key, data in rows}

    def read(self, value: Any) -> Any:
        """Return a value in its form before the store encoded it."""
        if isinstance(value, dict) and "$blob" in value:
            data = self.blobs.get(value["$blob"])
            if data is None:
                self.lost.append(value["$blob"])
                return value
            value = json.loads(data)
        if isinstance(value, dict) and [*value] == ["$codec"]:
            value = json.loads(self.codec.decode(base64.b64decode(value["$codec"])))
        elif isinstance(value, dict) and [*value] == ["$plain"]:
            value = value["$plain"]
        return value


class FeatureStore:
    """All sagas of a round, including those of its archives."""

    def __init__(self, settings: Settings) -> None:
        self.settings, self.values = settings, Values(settings)
        self.records = records.read(settings.direct)
        self.undefined: list[str] = []
        self.archived_logs: dict[str, LogRows] = {}
        self.instances = [*self._stored(), *self._archived()]
        self.instances += self._of_families({instance.token for instance in self.instances})
        self.by_token = {instance.token: instance for instance in self.instances}
        self.by_key: dict[str, list[Instance]] = {}
        for instance in self.instances:
            self.by_key.setdefault(instance.key, []).append(instance)
        self.undoes: dict[str, list[Instance]] = {}
        for instance in self.instances:
            for token in self._undone_by(instance) if instance.is_undo else ():
                self.undoes.setdefault(token, []).append(instance)

    def _undone_by(self, instance: Instance) -> list[str]:
        """Return the tokens of the children that a saga undoes.

        They are in its input. If the input was in the blob store and the saga is in an archive,
        the child is found by its key: it is the last one that ended before.
        """
        if isinstance(instance.input, dict) and "token" in instance.input:
            return [instance.input["token"]]
        child = re.sub(r":undo(?:/\d+)?", "", instance.key)
        ends = {other.ended or 0.0: other.token for other in self.of(child)}
        before = [end for end in ends if end <= instance.started]
        return [ends[max(before)]] if before else [*ends.values()]

    def of(self, key: str) -> list[Instance]:
        """Return the sagas that have, or had, a key."""
        return self.by_key.get(key, [])

    def rows(self, query: str) -> list[tuple[Any, ...]]:
        """Return the rows of a query."""
        return rows_of(self.settings.direct, query)

    def _stored(self) -> Iterator[Instance]:
        stored, more = self.records, dict[int, Row]()
        for id, *columns in self.rows("SELECT id, deadline, note, at, ended FROM sagas"):
            more[id] = (*columns,)
        labels: dict[int, dict[str, str]] = {}
        for id, name, value in self.rows("SELECT id, name, value FROM labels"):
            labels.setdefault(id, {})[name] = value
        values: dict[int, list[tuple[int, str, int, str, Any]]] = {}
        for (id, step, kind, number), outcome in stored.results.items():
            values.setdefault(id, []).append((step, kind, number, outcome.outcome, outcome.value))
        times: dict[int, dict[int, list[tuple[float | None, Json]]]] = {}
        query = "SELECT shard, committed_at, text FROM event_log ORDER BY shard, first_seq"
        for shard, at, text in self.rows(query):
            for event in map(json.loads, text.splitlines()):
                times.setdefault(shard, {}).setdefault(event["saga"], []).append((at, event))
        names = {log: self._texts(rows) for log, rows in stored.logs.items()}
        for row in stored.sagas.values():
            log = stored.logs[row.log]
            if row.definition_index >= len(log.texts):
                self.undefined.append(row.key)
                continue
            text = log.texts[row.definition_index]
            saga, steps = names[row.log][row.definition_index]
            deadline, note, started, ended = more.get(row.id, (None, None, 0.0, None))
            outcomes = {
                (steps[step], kind, number): (event, self.values.read(value))
                for step, kind, number, event, value in values.get(row.id, [])
            }
            yield Instance(
                log,
                row.number,
                row.key,
                saga,
                text,
                self.values.read(row.input),
                row.phase,
                row.end,
                note,
                labels.get(row.id, {}),
                deadline,
                outcomes,
                started=started,
                ended=ended,
                events=times.get(row.log, {}).get(row.number, []),
            )

    @staticmethod
    def _texts(log: LogRows) -> list[tuple[str, list[str]]]:
        """Return the name of the saga of each definition, and its steps."""
        tables = [tomllib.loads(text) for text in log.texts]
        return [(table["name"], [step["name"] for step in table["step"]]) for table in tables]

    def _archived(self) -> Iterator[Instance]:
        there = {log.name for log in self.records.logs.values()}
        archive = pathlib.Path(self.settings.folder, "archive")
        for folder in sorted(archive.glob("[!.]*/about.json")):
            folder = folder.parent
            name = json.loads((folder / "about.json").read_text())["name"]
            if name in there:
                continue
            texts = [path.read_text() for path in sorted(folder.glob("definition-*.toml"))]
            lines = (folder / "log").read_text().partition("\n")[2]
            log = self.archived_logs[name] = LogRows(-1, name, True, texts, [(0, lines)])
            for line in (folder / "sagas.jsonl").read_text().splitlines():
                if "deleted" not in (entry := json.loads(line)):
                    yield self._archived_saga(log, entry)

    def _of_families(self, known: set[str]) -> Iterator[Instance]:
        """Yield the deleted sagas of shards that remained: each once, if it is not known."""
        logs = {log.name: log for log in self.records.logs.values()} | self.archived_logs
        folder = pathlib.Path(self.settings.folder, "archive", FAMILIES)
        for path in sorted(folder.glob("families-*.jsonl")):
            for entry in map(json.loads, path.read_text().splitlines()):
                token = f"{entry['name']}-{entry['number']}"
                if token not in known and entry["name"] in logs:
                    known.add(token)
                    yield self._archived_saga(logs[entry["name"]], entry)

    def _archived_saga(self, log: LogRows, entry: Json) -> Instance:
        values = {
            (result["step"], result["kind"], result["attempt"]): (
                result["outcome"],
                result["value"],
            )
            for result in entry["results"]
        }
        text = log.texts[entry["definition"]]
        steps = [step["name"] for step in tomllib.loads(text)["step"]]
        phase = "stuck" if entry["phase"] == "stuck" else "ended"
        if entry["phase"] == "resolved":
            is_planned = (entry["end"]["answer"] or {}).get("kind") == "plan"
            phase = "ended" if is_planned else "stuck"
        is_whole = "blobs" not in self.settings.options
        read = self.values.read if is_whole else (lambda value: value)
        return Instance(
            log,
            entry["number"],
            entry["key"],
            entry["saga"],
            text,
            read(entry["input"]),
            phase,
            entry["end"],
            entry["note"],
            entry["labels"],
            None,
            {
                (steps[step], *rest): (event, read(value))
                for (step, *rest), (event, value) in values.items()
            },
            is_archived=True,
            started=entry["started"],
            ended=entry["ended"],
            events=[(None, event) for event in log.events if event["saga"] == entry["number"]],
        )
