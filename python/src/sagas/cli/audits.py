"""`audit`: verifies the event log of each shard, and compares it with the rows."""

from __future__ import annotations

import argparse
import contextlib
import dataclasses
import json
import subprocess
from collections.abc import Collection, Sequence
from typing import Any

from sagas.base import program
from sagas.base.wording import escaped, number
from sagas.cli.formatting import CANNOT, GOOD, NO, Progress, show_json, table
from sagas.cli.snapshot import Snapshot
from sagas.core import protocol
from sagas.core.history import START_EVENTS
from sagas.core.states import EVENT_STATES, UNDO_FAILED, EnginePhase, saga_phase, stored_event
from sagas.definition.capacity import HEADER
from sagas.engine.process import REPLY
from sagas.inspection.names import step_names
from sagas.inspection.question import Row
from sagas.storage import queries
from sagas.storage.admin import Trouble

Attempt = tuple[int, int, str, int]
"""id, step, action, number"""
Standing = tuple[str | None, Any, bool, bool]
"""The phase, outcome, recovered and undo_failed columns of a saga's row."""
SHARDS = "SELECT shard, name, closed FROM shards ORDER BY shard"
SAGAS = """
SELECT id, key, definition_index, phase, outcome, recovered, undo_failed FROM sagas
WHERE id >= ? AND id < ? ORDER BY id
"""
ATTEMPTS = "SELECT id, step, action, number, event FROM attempts WHERE id >= ? AND id < ?"
TRANSACTION = "ok"
"""The event of a row that a step's own transaction wrote, until the shard has the event."""
MAX_SHOWN = 8


class Events:
    """The content of a shard's event log.

    Attributes:
        first: The id of its first saga.
        definition_indexes: The index of each saga's definition, by the saga's id.
        attempts: The event that ended each attempt.
        under_way: The attempts that have started and have not ended.
        standings: The state of each saga according to the engine, by id.
    """

    def __init__(self, log: int, text: str) -> None:
        self.first = queries.bounds(log)[0]
        self.definition_indexes: dict[int, int] = {}
        self.attempts: dict[Attempt, str] = {}
        self.standings: dict[int, Standing] = {}
        counts: dict[tuple[int, int, str], int] = {}
        running: dict[tuple[int, int], Attempt] = {}
        for event in json.loads(f"[{','.join(text.splitlines())}]"):
            name, id = event["event"], self.first + event["saga"]
            if name == "open":
                self.definition_indexes[id] = event["def"]
            elif name in START_EVENTS:
                key = id, event["step"], "undo" if START_EVENTS[name] else "run"
                counts[key] = counts.get(key, 0) + 1
                running[key[:2]] = *key, counts[key]
            elif name in EVENT_STATES:
                self.attempts[running.pop((id, event["step"]))] = stored_event(name)
        self.under_way = {*running.values()}

    def forget_attempts(self, sagas: Collection[int]) -> None:
        """Forget the attempts of sagas without rows."""
        self.attempts = {key: end for key, end in self.attempts.items() if key[0] not in sagas}

    def ask(self, texts: program.TextFiles) -> None:
        """Ask the engine for the state of each saga after these events. Raises `Trouble`."""
        if not self.definition_indexes:
            return
        log, *definitions = texts.paths
        requests = "".join(
            f"{protocol.show_line(id - self.first)}\n" for id in self.definition_indexes
        )
        done = ran(["drive", "--lines", "--from", log, *definitions], texts, requests)
        replies = [line for line in done.stdout.splitlines() if line.startswith(REPLY)]
        if done.returncode != GOOD or len(replies) != len(self.definition_indexes):
            raise Trouble(f"sagas drive: {(done.stderr or done.stdout).strip()}", CANNOT)
        self.standings = dict(zip(self.definition_indexes, map(standing, replies)))


def standing(reply: str) -> Standing:
    """Return the state of a saga from the engine's reply to `show`, as a row has it."""
    phase, text = protocol.phase_and_end(reply)
    if not EnginePhase(phase).is_over:
        return None, None, False, False
    outcome = json.loads(text)
    recovered = phase == EnginePhase.ENDED and (outcome["answer"] or {}).get("kind") == "plan"
    return phase, outcome, recovered, recovered and UNDO_FAILED in outcome["states"]


def ran(
    arguments: list[str], texts: program.TextFiles, requests: str = ""
) -> subprocess.CompletedProcess[str]:
    """Run the program over texts that are passed as files."""
    return subprocess.run(
        [program.path(), *arguments],
        input=requests,
        capture_output=True,
        text=True,
        check=False,
        pass_fds=texts.files,
    )


@dataclasses.dataclass
class ShardAudit:
    """The audit of a shard.

    Attributes:
        output: What `sagas audit` prints about its events.
        is_allowed: Whether it accepts them.
        differences: Where the rows of the shard differ from its events.
    """

    output: str
    is_allowed: bool
    differences: list[str] = dataclasses.field(default_factory=list)

    @property
    def is_good(self) -> bool:
        return self.is_allowed and not self.differences


def audit_shard(store: Snapshot, log: int) -> ShardAudit:
    """Verify the events of a shard, and compare its rows with them. Raises `Trouble`."""
    texts = [text for _, text in store.rows(queries.TEXTS, log, log)]
    lines, _ = queries.joined(store.rows(queries.LINES, log))
    with contextlib.closing(program.TextFiles([HEADER + lines, *texts])) as opened:
        done = ran(["audit", *opened.paths], opened)
        result = ShardAudit((done.stdout or done.stderr).strip(), done.returncode == GOOD)
        if not result.is_allowed:
            return result
        events = Events(log, lines)
        events.ask(opened)
    rows = store.rows(SAGAS, *queries.bounds(log))
    has_marks = store.has_table("deleted_sagas")  # a store of an older release has none
    marks = store.rows(queries.MARKS, *queries.bounds(log)) if has_marks else []
    keys: dict[int, str] = {id: key for id, key, *_ in rows}
    deleted = {id for id, *_ in marks}
    result.differences += compare_sagas(rows, events)
    result.differences += [
        f"saga {id}: has events but no row"
        for id in events.definition_indexes
        if id not in keys and id not in deleted
    ]
    result.differences += compare_marks(marks, events, keys)
    events.forget_attempts(deleted - keys.keys())
    result.differences += compare_attempts(store, log, events, keys, texts)
    return result


def compare_marks(marks: Sequence[Row], events: Events, keys: dict[int, str]) -> list[str]:
    """Return where marks of deleted sagas differ from the events, or from the rows.

    Only an ended saga is deleted, and its row with it.
    """
    differences = []
    for id, index, phase, recovered, undo_failed in marks:
        if id in keys:
            differences.append(f"{keys[id]}: has a row, and is marked as deleted")
        elif id not in events.definition_indexes:
            differences.append(f"saga {id}: is marked as deleted, and has no events")
        elif index != events.definition_indexes[id]:
            differences.append(
                f"saga {id}: the mark of its deletion has definition {index}, the events "
                f"{events.definition_indexes[id]}"
            )
        else:
            of_events = events.standings[id]
            mark: Standing = (phase, of_events[1], bool(recovered), bool(undo_failed))
            if mark != of_events:
                differences.append(
                    f"saga {id}: is marked as deleted after it was {phase_of(mark)}, the events "
                    f"say {phase_of(of_events)}"
                )
    return differences


def compare_sagas(rows: Sequence[Row], events: Events) -> list[str]:
    """Return where rows of sagas differ from the events: definition, phase and outcome."""
    differences = []
    for id, key, index, phase, outcome, recovered, undo_failed in rows:
        if id not in events.definition_indexes:
            differences.append(f"{key}: has a row but no events")
            continue
        if index != events.definition_indexes[id]:
            differences.append(
                f"{key}: the row has definition {index}, the events {events.definition_indexes[id]}"
            )
        row = phase, parsed(outcome), bool(recovered), bool(undo_failed)
        standing_of_events = events.standings[id]
        if row != standing_of_events:
            says = f"{key}: the row says {phase_of(row)}"
            is_other_phase = phase_of(row) != phase_of(standing_of_events)
            differences.append(
                f"{says}, the events say {phase_of(standing_of_events)}"
                if is_other_phase
                else f"{says} with another outcome than the events"
            )
    return differences


def parsed(outcome: str | None) -> Any:
    """Return a parsed outcome, or its text if it is not JSON."""
    try:
        return None if outcome is None else json.loads(outcome)
    except ValueError:
        return outcome


def phase_of(saga: Standing) -> str:
    """Return the phase of a saga, in the words of `list`."""
    phase, _, recovered, _ = saga
    is_known = phase in (None, EnginePhase.ENDED, EnginePhase.STUCK)
    return saga_phase(phase, recovered, None).value if is_known else repr(phase)


def compare_attempts(
    store: Snapshot, log: int, events: Events, keys: dict[int, str], texts: list[str]
) -> list[str]:
    """Return where rows of attempts differ from the events: which have ended, and how."""
    rows: dict[Attempt, str] = {
        (id, step, action, count): event
        for id, step, action, count, event in store.rows(ATTEMPTS, *queries.bounds(log))
        if event != TRANSACTION or (id, step, action, count) not in events.under_way
    }
    if rows == events.attempts:
        return []
    names = [step_names(text) for text in texts]
    differences = []
    for attempt in sorted(rows.keys() | events.attempts.keys(), key=in_order):
        row, event_of_log = rows.get(attempt), events.attempts.get(attempt)
        if row != event_of_log:
            id, step, action, count = attempt
            listed = dict(
                enumerate(
                    names[events.definition_indexes[id]] if id in events.definition_indexes else ()
                )
            )
            location = f"{keys.get(id, f'saga {id}')}: {listed.get(step, step)}, {action} {count}"
            differences.append(
                f"{location}: the row says {row or 'nothing'}, "
                f"the events {event_of_log or 'nothing'}"
            )
    return differences


def in_order(attempt: Attempt) -> tuple[int, list[str]]:
    """Return the sort key of an attempt. Rows may hold values of any type."""
    return attempt[0], [str(part).zfill(4) for part in attempt[1:]]


def audit(path: str, options: argparse.Namespace) -> int:
    """Verify every event of every shard, and compare the events with the rows.

    The rows must have the same definition, phase and outcome of each saga, and the same end of each
    attempt. Inputs, results and errors are only in the rows.
    """
    reports = []
    with Snapshot(path) as store:
        logs = store.rows(SHARDS)
        progress = Progress("shards", len(logs))
        for done, (log, name, closed) in enumerate(logs, 1):
            result = audit_shard(store, log)
            reports.append(
                {
                    "shard": log,
                    "name": name,
                    "closed": bool(closed),
                    "good": result.is_good,
                    "audit": result.output,
                    "differences": result.differences,
                }
            )
            progress.at(done)
    if options.json:
        show_json(reports)
    else:
        show(reports)
    return GOOD if all(result["good"] for result in reports) else NO


def show(reports: list[dict[str, Any]]) -> None:
    """Print the results of an audit."""
    heads = ["SHARD", "NAME", "CLOSED", "GOOD", "AUDIT"]
    rows = [
        (
            report["shard"],
            report["name"],
            "yes" if report["closed"] else "no",
            "yes" if report["good"] else "NO",
            report["audit"],
        )
        for report in reports
    ]
    print(table(heads, rows))
    for report in reports:
        for line in report["differences"][:MAX_SHOWN]:
            print(escaped(f"shard {report['shard']}: {line}"))
        if (more := len(report["differences"]) - MAX_SHOWN) > 0:
            print(f"shard {report['shard']}: {number(more, 'more difference')}; --json lists all")
