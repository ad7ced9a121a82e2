"""Questions about one saga, its parent and its children."""

from __future__ import annotations

import json
from collections import Counter
from collections.abc import Callable, Container, Mapping
from typing import Any

from sagas.base.errors import NoSuchSaga
from sagas.core import states as states_module
from sagas.core.shard.batch import SagaRow
from sagas.core.history import (
    EFFECT_STATES,
    AttemptEnd,
    Projection,
    attempts_of,
    events_of,
    is_error_shown,
    last_failures,
    last_values,
    optional_failures_of,
    results_of,
    saga_events,
    was_called,
)
from sagas.core.results import HistoryEvent, Summary
from sagas.core.states import EarlyReason, SagaPhase, StepState
from sagas.definition import definition_text, tokens
from sagas.definition.arguments import BELOW
from sagas.definition.capacity import SHARD_CAPACITY
from sagas.definition.erasure import erasure_of
from sagas.definition.labels import RESTART, restart_value, restarted
from sagas.definition.task_data import Progress
from sagas.engine.plan import Plan
from sagas.inspection.lists import waits, without_node
from sagas.inspection.names import step_names
from sagas.inspection.question import Query, Question
from sagas.inspection.views import (
    EndCall,
    Note,
    Noted,
    Relative,
    Relatives,
    RestartLink,
    SagaView,
    StepView,
)
from sagas.storage import queries

Read = Callable[[str], Any]
MAX_HELD = 10_000
SAGA = f"""
SELECT {queries.SAGA}, recovered, undo_failed, {queries.LABELS}, deadline
FROM sagas s WHERE key = ?
"""
PROGRESS = "SELECT step, action, number, fraction, detail FROM progress WHERE id = ?"
SPANS = "SELECT step, action, number, spans FROM attempt_spans WHERE id = ? ORDER BY at"
ELSEWHERE = """
SELECT step, action, number, offered_at, since, worker, lease FROM external_attempts WHERE id = ?
"""
OWNERS = f"SELECT t.node, t.at FROM {queries.TAKEOVERS} t WHERE t.shard = ? ORDER BY t.id"
EARLY = "SELECT step, reason FROM suspensions WHERE id = ? AND number = 0 AND step >= 0"
END_DUE = "SELECT detail FROM suspensions WHERE id = ? AND step = -1 AND reason = 'end_call'"
EARLY_COMMANDS = {
    EarlyReason.RESULT: "complete",
    EarlyReason.ERROR: "fail",
    EarlyReason.UNDONE: "complete",
}
NOTES = (
    "SELECT key, command, at, value, answer FROM operator_commands WHERE key = ? ORDER BY at, id"
)


def find(key: str) -> Question[SagaRow | None]:
    """Return the row of the saga with this key, or None."""
    rows = yield Query(queries.FIND, (key,))
    return SagaRow(*rows[0]) if rows and rows[0][1] == key else None


def there(key: str) -> Question[SagaRow]:
    """Return the row of the saga with this key. Raises `NoSuchSaga`."""
    row = yield from find(key)
    if row is None:
        raise NoSuchSaga(f"no saga has the key {key!r}")
    return row


def definition(id: int) -> Question[str]:
    """Return the text of a saga's definition.

    Raises `NoSuchSaga` if the saga was deleted concurrently.
    """
    rows = yield Query(queries.DEFINITION, (id,))
    if not rows:
        raise NoSuchSaga(f"saga {id} is no longer stored")
    return str(rows[0][0])


def to_restart(key: str) -> Question[tuple[SagaRow, str, int]]:
    """Return the row of a saga, its phase, and the version of its definition.

    Raises `NoSuchSaga`.
    """
    row = yield from there(key)
    text = yield from definition(row.id)
    phases = yield Query(f"SELECT {queries.PHASE} FROM sagas s WHERE s.id = ?", (row.id,))
    if not phases:
        raise NoSuchSaga(f"no saga has the key {key!r}")
    return row, str(phases[0][0]), definition_text.version_of(text)


def version(key: str) -> Question[int | None]:
    """Return the version of a saga's definition, or None if no saga has the key."""
    rows = yield Query(f"SELECT {queries.HEAD} FROM sagas s WHERE key = ?", (key,))
    return definition_text.version_of(rows[0][0]) if rows and rows[0][0] is not None else None


def _token(id: int) -> Question[str]:
    rows = yield Query("SELECT name FROM shards WHERE shard = ?", (id // SHARD_CAPACITY,))
    if not rows:
        raise NoSuchSaga(f"saga {id} is no longer stored")
    return tokens.saga_token(rows[0][0], id % SHARD_CAPACITY)


class _Kept:
    """The stored parts of a saga, parsed: its definition, attempts and events."""

    def __init__(self, row: SagaRow, rows: list[tuple[Any, ...]], read: Read) -> None:
        stored = queries.known(rows, row.key)
        self.row, self.definition, self.shape = row, stored.definition, stored.shape
        self.names = step_names(stored.definition)
        self.lines = saga_events(stored.chunks, row.id % SHARD_CAPACITY)
        self.attempts = attempts_of(self.names, stored.results, read)
        self.failed = optional_failures_of(self.attempts)
        self.history = Projection(self.names, self.lines, self.failed)

    @property
    def events(self) -> list[HistoryEvent]:
        return events_of(self.names, self.lines, self.attempts)

    @property
    def plan(self) -> Plan | None:
        if self.history.adopted is None:
            return None
        adopted = self.history.adopted
        return Plan(self.row.saga, self.row.key, self.definition, *adopted, self.failed)


def _kept(row: SagaRow, read: Read = json.loads) -> Question[_Kept]:
    """Read the stored parts of a saga.

    Raises `NoSuchSaga` if the saga was deleted after its row was read.
    """
    text, *parameters = queries.known_query(row.id, history=True)
    return _Kept(row, (yield Query(text, (*parameters,), is_long=True)), read)


def plan(row: SagaRow) -> Question[Plan | None]:
    """Return the last plan that a saga adopted, with the states at that time."""
    return (yield from _kept(row)).plan


def log(row: SagaRow, read: Read) -> Question[list[HistoryEvent]]:
    """Return the events of a saga, each with its result or error. `read` is as in `view`."""
    return (yield from _kept(row, read)).events


def notes(key: str, read: Read = json.loads) -> Question[list[Note]]:
    """Return the operator commands for a saga, in the order of time. `read` is as in `view`."""
    rows = yield Query(NOTES, (key,))
    return [
        Note(key, command, at, _command_details(value, read), answer and json.loads(answer))
        for key, command, at, value, answer in rows
    ]


def _command_details(value: str | None, read: Read) -> dict[str, Any]:
    """Return the details of a command, without its way, with the reported result decoded."""
    details: dict[str, Any] = json.loads(value or "null") or {}
    details.pop("bulk", None)
    details.pop("via", None)
    if "result" in details:
        details["result"] = read(json.dumps(details["result"], separators=(",", ":")))
    return details


def view(key: str, read: Read = json.loads) -> Question[SagaView | None]:
    """Return the saga with this key, or None. `read` decodes the JSON of its input and results."""
    while rows := (yield Query(SAGA, (key,))):
        (*columns, recovered, undo_failed, labels, deadline) = rows[0]
        row = SagaRow(*columns)
        try:
            result = yield from _view(
                row, bool(recovered), bool(undo_failed), labels, deadline, read
            )
        except NoSuchSaga:  # it was deleted: another saga may have the key
            continue
        if (
            yield Query("SELECT 1 FROM sagas WHERE id = ?", (row.id,))
        ):  # so all parts belong to it
            return result
    return None


def _view(
    row: SagaRow,
    recovered: bool,
    undo_failed: bool,
    labels: str | None,
    deadline: float | None,
    read: Read,
) -> Question[SagaView]:
    """Return a saga's view. Raises `NoSuchSaga` if the saga is deleted concurrently."""
    kept = yield from _kept(row, read)
    held = yield from waits(MAX_HELD, person=False, key=row.key)
    if row.phase is None:
        held += yield from without_node(1, key=row.key)
    done = yield from notes(row.key, read)
    token = yield from _token(row.id)
    history, results = kept.history, results_of(kept.attempts)
    progress = {row[:3]: Progress(*row[3:]) for row in (yield Query(PROGRESS, (row.id,)))}
    spans = yield Query(SPANS, (row.id,))
    elsewhere = yield Query(ELSEWHERE, (row.id,))
    owners = yield Query(OWNERS, (row.id // SHARD_CAPACITY,))
    early_rows = yield Query(EARLY, (row.id,))
    early = {
        step: EARLY_COMMANDS[EarlyReason(why)] for step, why in early_rows if row.phase is None
    }
    left = sorted(step for step, why in early_rows if row.phase and why == EarlyReason.RESULT)
    states = zip(kept.names, history.states)
    parent, children = yield from relatives(row.id, row.key)
    end_call = yield from end_call_of(row.id)
    old, restarts = yield from restart_links(row, json.loads(labels or "{}").get(RESTART))
    return SagaView(
        summary=Summary(
            row.id,
            row.key,
            row.saga,
            states_module.saga_phase(row.phase, recovered, row.note).value,
            row.at,
            row.ended,
            row.note,
            undo_failed,
            queries.labels_of(labels),
            deadline,
            definition_text.version_of(kept.definition),
        ),
        aborted=history.aborted,
        input=read(row.input),
        end=_shown_end(row.end, kept),
        results={n: results[n] for n, state in states if state in EFFECT_STATES and n in results},
        steps=steps_of(kept.definition, history, kept.attempts, progress, early, kept.failed),
        plan=kept.plan,
        held=held,
        events=kept.events,
        lines=kept.lines,
        stretches=history.stretches(),
        attempts=kept.attempts,
        notes=done,
        definition=kept.definition,
        token=token,
        noted=Noted(spans, elsewhere, [(str(node), float(at)) for node, at in owners]),
        relatives=Relatives(parent, children, old, restarts),
        end_call=end_call,
        shape=kept.shape,
        unused=[kept.names[step] for step in left],
        erased=erasure_of(row.input),
    )


def _shown_end(text: str | None, kept: _Kept) -> dict[str, Any] | None:
    """Return a saga's stored outcome, in which steps with an optional failure are failed."""
    if text is None:
        return None
    end: dict[str, Any] = json.loads(text)
    failed = {index for index, name in enumerate(kept.names) if name in kept.failed}
    for index in failed:
        end["states"][index] = StepState.FAILED.value
    return end | {"kept": [index for index in end["kept"] if index not in failed]}


def steps_of(
    definition: str,
    history: Projection,
    attempts: list[AttemptEnd],
    progress: Mapping[tuple[Any, ...], Progress],
    early: Mapping[int, str],
    failed: Container[str],
) -> list[StepView]:
    """Return the steps of a saga in their current states.

    `progress` is by step, action and attempt. `early` are reports of steps that have not started.
    `failed` are the steps with an optional failure.
    """
    now = {
        (entry.step, entry.undo): entry.attempt
        for entry in history.stretches()
        if entry.ended is None
    }
    last, done, failures = last_values(attempts), results_of(attempts), last_failures(attempts)
    skipped = Counter(
        entry.step
        for entry in attempts
        if not entry.undo and not was_called(entry.outcome, entry.value)
    )
    steps = []
    for index, step in enumerate(definition_text.listed_steps(definition)):
        name, state = step.name, history.states[index].value
        steps.append(
            StepView(
                name,
                list(step.needs),
                state,
                history.attempts[index] - skipped[name],
                (done if state in EFFECT_STATES else last).get(name),
                history.began.get(index),
                history.ended.get(index),
                _error_of(state, failures.get(name)),
                progress.get((index, "run", now.get((name, False), 0)))
                or progress.get((index, "undo", now.get((name, True), 0))),
                early.get(index) if state == StepState.WAITING else None,
                history.engine_states[index].value if name in failed else None,
            )
        )
    return steps


def _error_of(state: str, failure: dict[str, Any] | None) -> str | None:
    """Return the error that is shown with a step's state, given its last failed attempt."""
    if failure is None or not is_error_shown(state, failure):
        return None
    return str(failure.get("error", ""))


PARENT = f"""
SELECT s.key, s.saga, {queries.PHASE} FROM children c JOIN sagas s ON s.id = c.parent WHERE c.id = ?
"""
CHILDREN = f"""
SELECT s.key, s.saga, {queries.PHASE}, (SELECT count(*) FROM children b WHERE b.parent = c.id)
FROM children c JOIN sagas s ON s.id = c.id
WHERE c.parent = ? AND NOT {queries.CALLS_END} ORDER BY s.at, s.id LIMIT {{limit}}
"""
END_CALL = f"""
SELECT s.key, {queries.PHASE},
  EXISTS (SELECT 1 FROM suspensions WHERE id = s.id AND {queries.HELD_BADLY})
FROM children c JOIN sagas s ON s.id = c.id WHERE c.parent = ? AND {queries.CALLS_END}
"""
MAX_CHILDREN = 1024
"""How many children of a saga are listed."""


def relatives(id: int, key: str) -> Question[tuple[Relative | None, list[Relative]]]:
    """Return the parent of a saga, or None, and its children in the order of their starts."""
    above = yield Query(PARENT, (id,))
    below = yield Query(CHILDREN.format(limit=MAX_CHILDREN), (id,))
    parent = [
        Relative(relative, saga, phase, key[len(relative + BELOW) :])
        for relative, saga, phase in above
    ]
    children = [
        Relative(relative, saga, phase, relative[len(key + BELOW) :], count)
        for relative, saga, phase, count in below
    ]
    return parent[0] if parent else None, children


def end_call_of(id: int) -> Question[EndCall | None]:
    """Return the call of the `on_end` function of a saga, or None if there is none."""
    for key, phase, waits_for_person in (yield Query(END_CALL, (id,))):
        if phase == SagaPhase.OPEN:
            return EndCall("person" if waits_for_person else "running", key)
        return EndCall("done" if phase != SagaPhase.STUCK else "person", key)
    for (detail,) in (yield Query(END_DUE, (id,))):
        return EndCall("due" if detail is None else "blocked", None, detail)
    return None


OLD = f"SELECT s.key, s.saga, {queries.PHASE} FROM sagas s WHERE s.id = ? AND s.key = ?"
RESTARTS = f"""
SELECT s.key, s.saga, {queries.PHASE} FROM labels b JOIN sagas s ON s.id = b.id
WHERE b.name = '{RESTART}' AND b.value = ? ORDER BY s.at, s.id LIMIT {MAX_CHILDREN}
"""


def restart_links(
    row: SagaRow, value: str | None
) -> Question[tuple[RestartLink | None, list[RestartLink]]]:
    """Return the saga that a saga restarts, and those that restart it, in the order of starts.

    `value` is the value of its hidden label, or None.
    """
    old = None
    if value is not None:
        id, key = restarted(value)
        rows = yield Query(OLD, (id, key))
        old = RestartLink(*rows[0]) if rows else RestartLink(key, row.saga, None)
    below = yield Query(RESTARTS, (restart_value(row.id, row.key),))
    return old, [RestartLink(*link) for link in below]
