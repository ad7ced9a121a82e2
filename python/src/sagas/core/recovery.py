"""Recovery of a shard from the rows of the store.

A shard is recovered when a program takes it over, when its engine process died, and when a commit
was refused or its answer was lost. By then each earlier commit is stored, or never will be. The
rows of the store and the replies of the engine define the state. Of this program's own state, only
the attempts that run are kept.

A finished attempt stays finished: it is reported again, unless the store does not have its result
any more. Then a new attempt replaces it, as if an earlier program had started it.
"""

from __future__ import annotations

import dataclasses
import json
import re
from collections.abc import Iterator, Mapping, Sequence
from typing import Any

from sagas.core import protocol
from sagas.core.shard.batch import LoadedShard, OpenSagaRow, StoredSuspension
from sagas.core.effects import Abort, Effects
from sagas.core.attempt.model import Attempt, FINISHED, RUNNING
from sagas.core.attempt.instance import SagaInstance
from sagas.core.outcomes import SUCCEEDED, Outcome, failure
from sagas.core.protocol import ReplyReader
from sagas.core.reports import EARLY_ATTEMPT
from sagas.core.shard.driver import ShardDriver
from sagas.core.states import (
    AFTER_FAILURE,
    NEEDS_PROGRAM,
    PARKED,
    EarlyReason,
    EnginePhase,
    OutcomeKind,
    RowState,
    Suspension,
)
from sagas.definition.capacity import SHARD_CAPACITY
from sagas.definition.serialization import FAILED_HEAD
from sagas.definition.start_options import StartOptions

DEVIATION_EVENTS = re.compile(
    r'"event":"(?:void|missed|fail|start_undo|undone|undo_missed|undo_fail|abort|adopt)",'
    r'"saga":(\d+)'
)
"""The events by which a saga deviates from success."""
AttemptsUnderWay = dict[tuple[int, int, str, int], Attempt]
"""The attempts of this program, by saga, step, action and number."""


@dataclasses.dataclass(eq=False, slots=True)
class Recovery:
    """The result of a recovery, which the runtime carries out.

    Attributes:
        effects: The ends of sagas that the store does not have; its batch is committed as usual.
        restored: The open sagas.
        replaced: Sagas that this program wanted to open elsewhere, each with the saga of this
            shard that has its key.
        gone: Sagas that are not open any more: their ends were stored and the answer was lost, or
            another server took over that may not have them.
        resumed: The attempts that continue (`AttemptMachine.resume`).
        forgotten: Attempts that the store does not have as under way: they never started, or
            their reports are stored.
        aborted: Abort requests that are answered, each with `done`.
        draining: Sagas that drain (`AttemptMachine.drain`) after their attempts continue.
    """

    effects: Effects
    restored: list[SagaInstance] = dataclasses.field(default_factory=list)
    replaced: list[tuple[SagaInstance, SagaInstance]] = dataclasses.field(default_factory=list)
    gone: list[SagaInstance] = dataclasses.field(default_factory=list)
    resumed: list[Attempt] = dataclasses.field(default_factory=list)
    forgotten: list[Attempt] = dataclasses.field(default_factory=list)
    aborted: list[Abort] = dataclasses.field(default_factory=list)
    draining: list[SagaInstance] = dataclasses.field(default_factory=list)


def damage_of(rows: LoadedShard, driver: ShardDriver) -> str | None:
    """Return what is wrong with a shard's rows, before an engine reads them; None if nothing."""
    count = len(driver.identity.definitions.kinds)
    if undefined := [
        key for _, key, definition_index, *_ in rows.open if definition_index >= count
    ]:
        return f"the definition of its saga {undefined[0]!r} cannot be read"
    return rows.damage


def overdue(rows: LoadedShard, now: float) -> list[int]:
    """Return the numbers of the open sagas whose deadlines have passed."""
    overdue_ids = (row[0] for row in rows.open if row[4] is not None and row[4] <= now)
    return [id % SHARD_CAPACITY for id in overdue_ids]


def requests(rows: LoadedShard, overdue: Sequence[int] = ()) -> list[str]:
    """Return the requests to an engine that was started on a shard's event log.

    `overdue`: the numbers of the sagas to abort first.
    """
    aborts = map(protocol.abort_line, overdue)
    return [*aborts, protocol.BUSY, *map(protocol.show_line, _deviating(rows, overdue))]


def _deviating(rows: LoadedShard, overdue: Sequence[int]) -> list[int]:
    """Return the open sagas that have deviated from success: a failure, a retry or an abort."""
    odd = {int(number) for number in DEVIATION_EVENTS.findall(rows.text)}.union(overdue)
    return [id % SHARD_CAPACITY for id, *_ in rows.open if id % SHARD_CAPACITY in odd]


def take_unopened(
    driver: ShardDriver, rows: LoadedShard | None, known: Mapping[str, SagaInstance]
) -> tuple[list[SagaInstance], list[SagaInstance]]:
    """Remove the sagas that a shard should open and that the store does not have.

    Args:
        driver: The shard as this program knew it.
        rows: The stored rows of the shard; None if they cannot be read.
        known: The program's sagas by key.

    Returns:
        The sagas that the engine was requested to open, and the others. They are opened again, or
        refused. A saga whose key has another saga by now is in neither list.
    """
    stored_keys = {key for _, key, *_ in rows.open} if rows else set()
    sent = [
        saga
        for saga in driver.opens_sent
        if not saga.committed and saga.key not in stored_keys and known.get(saga.key) is saga
    ]
    for saga in sent:
        for attempt in saga.busy.values():  # it never started: the store did not have the saga
            attempt.forget()
        saga.forget()
        saga.number, saga.shard = -1, None
    new = [*driver.opens]
    driver.clear_opens()
    return sent, new


def recover(
    rows: LoadedShard,
    replies: Sequence[str],
    now: float,
    previous: ShardDriver,
    known: Mapping[str, SagaInstance],
    supports_nodes: bool = False,
    overdue: Sequence[int] = (),
    log_text: str = "",
) -> Recovery:
    """Set a shard's driver to the state of the store, and continue the started attempts.

    Args:
        rows: The shard's rows.
        replies: The engine's replies to `requests(rows, overdue)`.
        now: Wall time in seconds.
        previous: The driver as this program knew it. It is `LOADING`, and becomes `ACTIVE`.
        known: The program's sagas by key.
        supports_nodes: Whether other nodes have shards in the store: then a key that the program
            wanted to open elsewhere may belong to another saga.
        overdue: The numbers of the sagas that the engine was requested to abort.
        log_text: The event log's new lines, which are the aborts.

    Returns:
        The recovery, to carry out in this order: `replaced`, `gone`, `restored`, `forgotten` and
        `aborted`; the commit of `effects`; `resumed`; `draining`.
    """
    driver, previous_sagas, under_way = previous, previous.sagas, _under_way(previous)
    epoch, timeline = previous.fence
    aborts = driver.aborts_sent + driver.aborts
    driver.restart(rows)
    recovery = Recovery(driver.effects(now))
    for row in rows.open:
        _restore(recovery, driver, row, known, supports_nodes)
    recovery.gone = [
        saga
        for saga in previous_sagas.values()
        if saga.committed and saga.number not in driver.sagas and known.get(saga.key) is saga
    ]
    _apply_rows(driver, rows)
    unread = iter(replies)
    _apply_aborts(recovery.effects, driver, overdue, unread, log_text)
    busy = json.loads(next(unread))["busy"]
    for number, reply in zip(_deviating(rows, overdue), unread, strict=True):
        _apply_shown(recovery.effects, driver, number, reply)
    is_ours = rows.epoch <= epoch + 1 and rows.timeline == timeline
    _resume(recovery, driver, rows, under_way, busy, is_ours)
    for abort in aborts:
        _abort_again(recovery, driver, abort)
    late = recovery.effects.rare.overdue  # they drain once their aborts are durable
    recovery.draining = [
        saga for saga in driver.sagas.values() if saga.draining and saga not in late
    ]
    return recovery


def _apply_aborts(
    effects: Effects,
    driver: ShardDriver,
    overdue: Sequence[int],
    replies: Iterator[str],
    log_text: str,
) -> None:
    """Apply the aborts of sagas whose deadlines have passed, before their attempts continue."""
    if overdue:
        batch = effects.batch
        batch.text, batch.lines = log_text, log_text.count("\n")
        driver.events += batch.lines
        ReplyReader(driver, effects).overdue([driver.sagas[number] for number in overdue], replies)
        for saga in effects.rare.overdue:
            saga.rare.may_cancel_work = (
                True  # the store has its deadline, so running functions are cancelled
            )


def _under_way(driver: ShardDriver) -> AttemptsUnderWay:
    attempts = [attempt for saga in driver.sagas.values() for attempt in saga.busy.values()]
    attempts += driver.unstored_reports()
    return {
        (attempt.instance.number, attempt.step, attempt.kind, attempt.attempt): attempt
        for attempt in attempts
    }


def _restore(
    recovery: Recovery,
    driver: ShardDriver,
    row: OpenSagaRow,
    known: Mapping[str, SagaInstance],
    supports_nodes: bool,
) -> None:
    """Restore an open saga of the store, with this program's object if it is the same saga."""
    id, key, definition_index, text, deadline, traceparent, shape, started_at = row
    saga = known.get(key)
    if saga is not None and (saga.shard is driver or not supports_nodes):
        saga.forget()
    else:
        options = StartOptions(deadline=deadline, shape=shape, traceparent=traceparent)
        kind = driver.identity.definitions.kinds[definition_index]
        other, saga = saga, SagaInstance(key, text, kind, definition_index, options)
        if other is not None:
            recovery.replaced.append((other, saga))
    saga.number, saga.shard = id % SHARD_CAPACITY, driver
    saga.committed, saga.has_unchecked_key, saga.started_at = True, False, started_at
    if saga.kind.missing_function is not None:
        saga.rare.missing_function = saga.kind.missing_function
    driver.sagas[saga.number] = saga
    recovery.restored.append(saga)


def _apply_rows(driver: ShardDriver, rows: LoadedShard) -> None:
    """Apply the stored results and suspensions to the sagas."""
    for id, step, kind, _, outcome, value, at in rows.results:
        _apply_result(driver.sagas[id % SHARD_CAPACITY], step, kind, outcome, value or "null", at)
    for id, step, kind, number, why, _, _, until, text in rows.held:
        if number == EARLY_ATTEMPT:
            early = driver.sagas[id % SHARD_CAPACITY].rare.early_reports
            early[step, kind] = (EarlyReason(why), text or "")
            continue
        reason = Suspension.stored(why, until)
        if reason in NEEDS_PROGRAM and until is None:
            continue  # it may be a wait whose end could not be computed
        extras = driver.sagas[id % SHARD_CAPACITY].rare
        if reason is Suspension.WAIT_OVER or reason in PARKED:
            extras.end_wait((step, kind))
        elif reason is Suspension.TIMER and until is not None:
            if (step, kind) not in extras.waits_over:
                extras.wait_ends[step, kind] = min(until, extras.wait_ends.get((step, kind), until))


def _apply_result(
    saga: SagaInstance, step: int, kind: str, outcome: str, value: str, at: float
) -> None:
    if outcome == "commit":
        saga.put_result(step, value)
    elif outcome == "undone":
        dropped = saga.results.pop(step, "")
        if dropped.startswith(FAILED_HEAD):
            saga.rare.failed[step] = dropped
        saga.has_deviated = True
    elif outcome != "ok":
        saga.has_deviated = True
        detail = json.loads(value)
        was_called = detail.get("called", True)
        saga.note_error(step, value, was_called)
        if was_called:
            saga.note_failure((step, kind), at, detail)
        if detail.get("final"):
            saga.rare.final.add((step, kind))


def _apply_shown(effects: Effects, driver: ShardDriver, number: int, reply: str) -> None:
    saga, state = driver.sagas[number], json.loads(reply)
    saga.has_deviated, saga.aborted, saga.answer = True, state["aborted"], state.get("answer")
    saga.draining = state["phase"] in (EnginePhase.DRAINING, EnginePhase.PLANNING)
    ReplyReader(driver, effects).shown(number, reply)


def _resume(
    recovery: Recovery,
    driver: ShardDriver,
    rows: LoadedShard,
    old: AttemptsUnderWay,
    busy: list[dict[str, Any]],
    is_ours: bool,
) -> None:
    """Resume the attempts that were started and not reported, here or by an earlier program.

    `is_ours`: no other node had the shard since this program knew it, and the server is the same.
    """
    suspensions = {row[:4]: row for row in rows.held}
    stored_results = {row[:4]: row for row in rows.results if row[4] == "ok"}
    """The results of transactions whose reports are not stored."""
    for task in busy:
        saga = driver.sagas[task["saga"]]
        key = task["step"], task["task"], task["attempt"]
        attempt = old.pop((saga.number, *key), None)
        row = (driver.number * SHARD_CAPACITY + saga.number, *key)
        if attempt is not None and attempt.is_recorded and row not in stored_results:
            recovery.forgotten.append(attempt)  # an earlier server had its result
            attempt = Attempt(saga, *key, is_uncalled=False)
        elif attempt is None or _is_doubtful(attempt, is_ours):
            if attempt is not None:
                recovery.forgotten.append(attempt)
            attempt = _restored_attempt(saga, key, attempt, is_ours)
            if row in suspensions:
                _apply_suspension(attempt, suspensions[row])
        attempt.instance = saga
        saga.busy[attempt.action_key] = attempt
        if row in stored_results and attempt.state is not FINISHED:
            *_, value, at = stored_results[row]
            attempt.finish(Outcome(SUCCEEDED, value or "null", encoded=True), at)
            attempt.is_recorded = True  # so that a server without the row makes it again
        recovery.resumed.append(attempt)
    recovery.forgotten += old.values()


def _is_doubtful(attempt: Attempt, is_ours: bool) -> bool:
    """Whether this program's state of an attempt may be out of date.

    It was given up without a call; or it waits, and another node may have had the shard and called
    it.
    """
    if attempt.state is FINISHED:
        return attempt.outcome is not None and not attempt.outcome.called
    return not is_ours and attempt.state is not RUNNING


def _restored_attempt(
    saga: SagaInstance, key: tuple[int, str, int], previous: Attempt | None, is_ours: bool
) -> Attempt:
    """Return a new attempt that replaces one of an earlier program or a given-up one."""
    attempt = Attempt(saga, *key, is_uncalled=previous is not None and is_ours)
    if (
        attempt.is_uncalled
        and attempt.missing_function is None
        and attempt.manner.external
        and attempt.action_key not in saga.rare.final
    ):
        attempt.reason = Suspension.EXTERNAL  # its row says whether a worker has it
    return attempt


def _apply_suspension(attempt: Attempt, row: StoredSuspension) -> None:
    """Apply the stored suspension to an attempt."""
    _, _, _, _, why, count, since, until, error = row
    reason = Suspension.stored(why, until)
    attempt.reason, attempt.waiting_since, attempt.until = reason, since, until or None
    attempt.row_state = RowState.STORED
    attempt.rare.notes.last = why
    if reason in AFTER_FAILURE:
        attempt.rare.failures, attempt.outcome = count, failure(error or "")
        attempt.rare.has_unknown_call = reason is Suspension.RETRY
        return
    if reason is Suspension.CHILD:
        attempt.rare.failures = count
    elif count:
        attempt.rare.count = count
    if reason in PARKED:
        attempt.outcome = Outcome(OutcomeKind(reason.value), error or "")


def _abort_again(recovery: Recovery, driver: ShardDriver, abort: Abort) -> None:
    """Repeat or answer an abort request.

    It is repeated if its saga is open and not aborted. Of the requests for an aborted saga, the
    first one without an answer counts, unless another one aborted the saga before.
    """
    if abort.saga.aborted or abort.saga.number not in driver.sagas:
        is_first = not any(other.saga is abort.saga for other in recovery.aborted)
        abort.done = abort.saga.aborted and is_first and not abort.is_repeated
        recovery.aborted.append(abort)
    else:
        driver.abort(abort)
