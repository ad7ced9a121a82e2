"""Operator commands of an open store: abort, retry, report, resolve and compensate."""

from __future__ import annotations

import asyncio
import contextlib
from collections.abc import Awaitable, Callable, Iterable, Sequence
from typing import Any

from sagas.api.store_access import SagaLookup, Starter, StoreAccess
from sagas.base.errors import (
    Closed,
    KeyConflict,
    NoSuchSaga,
    SagaMoved,
    SagasError,
    StepNotWaiting,
    WouldWaitForever,
)
from sagas.base.logger import logger
from sagas.core import attention, reports
from sagas.core.attempt import machine as attempt_machine, waits
from sagas.core.decisions import request_fields
from sagas.core.shard.batch import AnsweredRequest, Batch, RequestRef, SagaRow, StoredSaga
from sagas.core.reports import EarlyReport, Refusal
from sagas.core.attempt.model import Attempt
from sagas.core.attempt.instance import SagaInstance
from sagas.core.outcomes import SUCCEEDED, Outcome
from sagas.core.states import Action, EarlyReason
from sagas.definition import child_sagas, serialization, tokens, undo_sagas
from sagas.definition.capacity import SHARD_CAPACITY
from sagas.definition.compiled import ActionKey, CompiledDefinition
from sagas.definition.payloads import Payloads
from sagas.definition.layout import ShapeValues
from sagas.definition.start_options import StartOptions
from sagas.definition.task import Task
from sagas.definition.task_data import TaskSnapshot
from sagas.definition.arguments import meant
from sagas.runtime import (
    invocation,
    leased_tasks,
    operator_commands,
    stored_values,
)
from sagas.runtime.coordinator import Coordinator
from sagas.storage import operator_requests, queries
from sagas.storage.queries import PHASE

CHILDREN = reports.CHILDREN_QUERY.format(PHASE)
PAUSE = 30.0
"""Seconds between checks for reports that another node left without a notification."""
UNUSED = """
SELECT s.key, s.id, h.step FROM suspensions h JOIN sagas s ON s.id = h.id
WHERE h.number = 0 AND h.reason = 'early_result' AND s.phase IS NOT NULL AND s.note IS NULL
"""
SHARD_NAME = "SELECT name FROM shards WHERE shard = ?"
Read = Callable[..., Awaitable[Sequence[tuple[Any, ...]]]]


class Commands:
    """Executes commands for sagas of this node, and hands others over to their nodes.

    In its methods, `of` is the id of the saga, if a later saga with the same key is not meant.
    """

    def __init__(self, access: StoreAccess, lookup: SagaLookup) -> None:
        self._access, self._lookup = access, lookup

    def command_row(
        self, key: str, command: str, by: str | None, note: str | None, **arguments: Any
    ) -> AnsweredRequest | None:
        """Return the stored row of a command; None if no requester is named."""
        if by is None:
            return None
        text = serialization.write({**request_fields(by, note), **arguments})
        return key, command, text, self._access.coordinator.clock()

    async def abort(self, key: str, request: RequestRef, of: int | None = None) -> bool:
        """Abort a saga; return False if it has ended, or was aborted before.

        Raises `NotAbortable`.
        """
        while True:
            coordinator = self._access.coordinator
            live = await self._lookup.live(key)
            if live is None and key in self._lookup.finding:
                await asyncio.shield(self._lookup.finding[key])
                continue
            if live is None:
                row = await self._lookup.row(key, of)
                if row.phase is not None:
                    return False
                child_sagas.check_abortable(key)
                if key in coordinator.sagas.by_key:
                    continue
                return bool(await self.hand_over(row, "abort", None, request))
            try:
                await coordinator.sagas.started(live)
            except KeyConflict:  # another saga has the key
                continue
            _check_is(live, of)
            is_here = coordinator.sagas.by_key.get(key) is live  # its end is not stored yet
            if live.shard is None or (live.over and not is_here):
                if live.over or is_here:
                    return False
                continue
            if not live.over:
                child_sagas.check_abortable(key)
            try:
                return await coordinator.shards.abort(live, request)
            except SagaMoved:
                continue

    async def hand_over(
        self, row: SagaRow, command: str, arguments: Any, request: RequestRef
    ) -> Any:
        """Ask the node that has the saga.

        That node itself executes a stored command.
        """
        if isinstance(request, int):
            raise SagaMoved(f"saga {row.key!r}")
        value = serialization.write(arguments) if request is None else request[2]
        coordinator = self._access.coordinator
        answer = await coordinator.store.ask(row, command, value, coordinator.registry.payloads)
        return operator_requests.checked_answer(answer)

    async def report(
        self,
        key: str,
        step: str,
        outcome: Outcome,
        undo: bool,
        request: RequestRef,
        of: int | None = None,
        early: bool = True,
    ) -> None:
        """Report the outcome of a step or of its compensation.

        With `early`, steps that have not started are included.
        """
        kind = "undo" if undo else "run"
        while True:
            coordinator = self._access.coordinator
            live = await self._lookup.live(key)
            if live is None:
                row = await self._lookup.row(key, of)
                if row.phase is not None:
                    await self._check_kept(row, step, kind, outcome)
                    return
                if key not in self._access.coordinator.sagas.by_key:
                    payloads = coordinator.registry.payloads
                    command, arguments = operator_commands.report_command(
                        step, kind, outcome, early, payloads
                    )
                    await self.hand_over(row, command, arguments, request)
                    return
                continue
            if of is not None and not live.committed:
                with contextlib.suppress(SagasError):  # its start raises that
                    await coordinator.sagas.started(live)
                continue
            _check_is(live, of)
            try:
                attempt = await self._reported_attempt(coordinator, live, step, kind, outcome)
                if isinstance(attempt, Attempt):
                    await self._report_here(coordinator, attempt, outcome, request)
                elif attempt is not None:
                    await self._report_early(live, attempt, outcome, request, early)
                return
            except SagaMoved:
                continue

    async def retry(
        self, key: str, step: str, undo: bool, request: RequestRef, of: int | None = None
    ) -> None:
        """Retry an attempt that waits for an operator, or for its next time."""
        kind = "undo" if undo else "run"
        while True:
            live = await self._lookup.live(key)
            if live is None:
                row = await self._lookup.row(key, of)
                if row.phase is not None:
                    raise reports.ended_error(row)
                if key not in self._access.coordinator.sagas.by_key:
                    await self.hand_over(row, "retry", {"step": step, "kind": kind}, request)
                    return
                continue
            _check_is(live, of)
            names = live.kind.names
            if step not in names:
                raise StepNotWaiting(f"saga {key!r} has no step {step!r}{meant(step, names)}")
            attempt = live.busy.get((names.index(step), kind))
            while attempt is not None and attempt.pending_row:
                await self._access.coordinator.executor.changes.wait(attempt)
                self._access.coordinator  # raises if it was closed in the meantime
            if self._access.coordinator.sagas.by_key.get(key) is not live:
                continue  # its shard was lost in the meantime
            if attempt is not None and live.busy.get(attempt.action_key) is not attempt:
                continue
            if attempt is None or not attempt_machine.may_retry(attempt):
                why = "it has no failed attempt that waits for a retry"
                if attempt is not None:
                    why = waits.describe_attempt(attempt, self._access.coordinator.clock())
                raise StepNotWaiting(f"saga {key!r}, step {step!r} cannot be retried: {why}")
            try:
                await self._access.coordinator.executor.retry(attempt, request)
                return
            except SagaMoved:
                continue

    async def _report_here(
        self, coordinator: Coordinator, attempt: Attempt, outcome: Outcome, request: RequestRef
    ) -> None:
        """Report an attempt that is in progress here.

        Raises `SagaMoved` if it has ended, or is not here any more. The reply never relies on a
        state that may not be stored.
        """
        key, step = attempt.instance.key, attempt.action.name
        is_checked = not is_of_child(attempt, outcome)
        while not (is_checked and attempt_machine.is_reportable(attempt)):
            if attempt_machine.is_reportable(attempt):
                await check_child_report(coordinator.store.read, attempt, outcome)
                is_checked = True
                continue
            is_over = await coordinator.executor.until_kept(attempt)
            is_here = attempt.instance.busy.get(attempt.action_key) is attempt
            if is_over or not is_here or coordinator.sagas.by_key.get(key) is not attempt.instance:
                raise SagaMoved(f"saga {key!r}")  # the stored outcome counts
            if attempt is invocation.waiter(
                coordinator.executor.calls.running
            ) and attempt_machine.becomes_reportable(attempt):
                raise WouldWaitForever(
                    f"step {step!r} of saga {key!r} reports itself before it waits for a report. "
                    "Return sagas.Approved(result) or sagas.Rejected(why) instead"
                )
            if not attempt_machine.becomes_reportable(attempt):
                why = waits.describe_attempt(attempt, coordinator.clock())
                raise StepNotWaiting(
                    f"saga {key!r}, step {step!r} does not wait for a report: {why}"
                )
            await coordinator.executor.changes.wait(attempt)
            self._access.coordinator  # raises if it was closed in the meantime
        decoders = attempt.instance.kind.decoders
        if step in decoders and not attempt.undo:
            reports.check_result_type(key, step, outcome, decoders)
        if request is not None:
            attempt.rare.request = request
        kept = coordinator.executor.kept.wait(attempt)
        coordinator.executor.finish(attempt, outcome)
        await kept

    async def _reported_attempt(
        self, coordinator: Coordinator, live: SagaInstance, step: str, kind: str, outcome: Outcome
    ) -> Attempt | ActionKey | None:
        """Return the attempt to report; the key of the action if none has started.

        Returns None if the same outcome was reported before. Raises `SagaMoved` if its end is being
        stored.
        """
        if step not in live.kind.names:
            raise StepNotWaiting(
                f"saga {live.key!r} has no step {step!r}{meant(step, live.kind.names)}"
            )
        word = live.kind.names.index(step), kind
        attempt = live.busy.get(word)
        if attempt is not None and (live.extras is None or word not in live.extras.final):
            return attempt
        is_there = live.shard is not None and live.committed
        rows = await coordinator.store.read(reports.RESULTS_QUERY, live.id) if is_there else []
        self._access.coordinator  # raises if it was closed in the meantime
        first = reports.first_outcome(rows, *word)
        if first is None and attempt is not None:
            return attempt
        over = _over(live, rows, word)
        if first is not None:
            reports.check_same_outcome(live.key, step, first, outcome, over, live.kind.payloads)
            return None
        if over is not None:
            raise StepNotWaiting(f"saga {live.key!r}, step {step!r}: {over}")
        await self._check_not_begun(live, word)
        return word

    async def _check_not_begun(self, live: SagaInstance, word: ActionKey) -> None:
        """Raise `SagaMoved` if an attempt has started since the store was read.

        That includes an attempt whose report is being stored.
        """
        coordinator = self._access.coordinator
        unkept = live.shard.unstored_reports() if live.shard else ()
        attempt = next(
            (other for other in unkept if other.instance is live and other.action_key == word), None
        )
        if attempt is not None:
            await coordinator.executor.until_kept(attempt)
        is_known = word[0] in live.results or word in live.busy or word in live.rare.final
        is_here = coordinator.sagas.by_key.get(live.key) is live
        if attempt is not None or not is_here or (is_known and word[1] == Action.RUN):
            raise SagaMoved(f"saga {live.key!r}")

    async def _report_early(
        self,
        live: SagaInstance,
        word: ActionKey,
        outcome: Outcome,
        request: RequestRef,
        early: bool,
    ) -> None:
        """Store a report of a step that has not started.

        Raises `StepNotWaiting`, or `SagaMoved` if the caller has to check again.
        """
        coordinator, key, step = self._access.coordinator, live.key, live.kind.names[word[0]]
        first = reports.stored_report(live, word)
        why = reports.refusal_reason(live, *word) if early else reports.NOT_STARTED_TEXT
        if why is not None and first is None:
            if live.shard is not None and live.committed:
                await coordinator.executor.early.put(Refusal(live))
            raise StepNotWaiting(f"saga {key!r}, step {step!r}: {why}")
        if first is not None:
            if (kept := coordinator.executor.early.waiting(live, word)) is not None:
                await asyncio.shield(kept)
            reason, payloads = reports.STORED_TEXT, live.kind.payloads
            reports.check_same_outcome(key, step, first, outcome, reason, payloads)
        elif live.shard is None or not live.committed:
            with contextlib.suppress(KeyConflict):  # another saga has the key
                await coordinator.sagas.started(live)
            raise SagaMoved(f"saga {key!r}")
        else:
            if word[1] == Action.RUN:
                reports.check_result_type(key, step, outcome, live.kind.decoders)
            await coordinator.executor.early.put(EarlyReport(live, word, outcome, request))

    async def resolve(self, key: str, note: str, by: str | None) -> None:
        """Mark a saga as resolved by an operator."""
        coordinator, row = self._access.coordinator, await self._lookup.row(key)
        note = serialization.clean(note)
        unused = await coordinator.store.read(attention.UNUSED_REPORTS, row.id)
        if not attention.is_to_resolve(row, note, bool(unused)):
            return
        batch, value = Batch(-1, coordinator.clock()), serialization.write(request_fields(by, note))
        batch.rare_rows.notes.append((note, row.id))
        batch.answer((key, "resolve", value, coordinator.clock()), "true")
        await coordinator.kept(batch)
        coordinator.executor.children.look()

    async def _check_kept(self, row: SagaRow, step: str, kind: str, outcome: Outcome) -> None:
        """Check a report of a saga that has ended, by the reported outcome.

        Raises `StepNotWaiting` and `ConflictingReport`.
        """
        coordinator = self._access.coordinator
        names = coordinator.registry.kind((await coordinator.store.known(row)).definition).names
        payloads = coordinator.registry.payloads
        await check_repeated_report(
            coordinator.store.read, row, names, (step, kind), outcome, payloads
        )


def _over(live: SagaInstance, rows: Iterable[tuple[Any, ...]], word: ActionKey) -> str | None:
    """Return how a step without a running attempt ended; None if it has not ended."""
    over = reports.end_text(rows, *word)
    undo = live.busy.get((word[0], "undo")) if over and word[1] == "run" else None
    if over and undo and attempt_machine.is_reportable(undo):
        over += "; its compensation waits for a report (undo=True, or --undo)"
    return over


def _check_is(live: SagaInstance, of: int | None) -> None:
    """Raise `NoSuchSaga` if a command was for another saga with the same key."""
    if of is not None and (live.shard is None or live.id != of):
        raise NoSuchSaga(
            f"the saga with the key {live.key!r} that this request was for does not exist any more"
        )


def is_of_child(attempt: Attempt, outcome: Outcome) -> bool:
    """Return whether an operator reports that the child of an attempt has succeeded.

    The result of an attempt that undoes a child is never read, so such attempts do not count.
    """
    starts_child = attempt.child is not None and not attempt.undo
    is_done = outcome.kind is SUCCEEDED
    return starts_child and is_done and not child_sagas.undoes_child(attempt.key)


async def check_child_report(read: Read, attempt: Attempt, outcome: Outcome) -> None:
    """Raise `InvalidResult` if no child of this step can have the reported result."""
    child, check = attempt.child, reports.check_child_result
    if child is not None and child.starts_for is not None:
        child, check = child_sagas.child_of_items(child), reports.check_children_result
    steps = None if child is None or child.is_shaped else [step.name for step in child.steps]
    rows = await read(CHILDREN, attempt.instance.id)
    result = serialization.read(outcome.value)
    phases = [(str(key), str(phase)) for key, phase in rows]
    check(attempt.key, attempt.name, result, phases, steps)


async def check_repeated_report(
    read: Read,
    row: SagaRow,
    names: Sequence[str],
    action: tuple[str, str],
    outcome: Outcome,
    payloads: Payloads,
) -> None:
    """Compare a report of a saga that has ended with the reported outcome.

    Raises:
        StepNotWaiting: No outcome was reported before.
        ConflictingReport: Another outcome was reported before.
    """
    step, kind = action
    if step not in names:
        raise reports.ended_error(row)
    step_index = names.index(step)
    first, why = (
        reports.first_outcome(await read(reports.RESULTS_QUERY, row.id), step_index, kind),
        None,
    )
    if first is None:
        why = reports.UNUSED_TEXT
        first = reports.early_outcome(await read(reports.EARLY_QUERY, row.id, step_index, kind))
    if first is None:
        raise reports.ended_error(row)
    reports.check_same_outcome(row.key, step, first, outcome, why, payloads)


class UnusedReports:
    """Starts sagas that compensate unused reports.

    Such a saga is started before its report counts as undone. If that mark is not stored, the saga
    is started again, and its key identifies one saga. So a compensation that has succeeded is not
    called again.
    """

    def __init__(
        self, access: StoreAccess, lookup: SagaLookup, starter: Starter, commands: Commands
    ) -> None:
        self._access, self._lookup = access, lookup
        self._starter, self._commands = starter, commands
        self._changed = asyncio.Event()

    async def compensate(
        self, key: str, step: str, request: RequestRef, of: int | None = None
    ) -> None:
        """Have the compensation called for a step whose report was not used."""
        row = await self._ended(key, of)
        coordinator = self._access.coordinator
        known = await coordinator.store.known(row)
        kind = coordinator.registry.kind(known.definition)
        if step not in kind.names:
            raise StepNotWaiting(f"saga {key!r} has no step {step!r}{meant(step, kind.names)}")
        number = kind.names.index(step)
        rows = await coordinator.store.read(reports.EARLY_QUERY, row.id, number, Action.RUN.value)
        reason, text = rows[0] if rows else (None, None)
        if reason == EarlyReason.UNDONE and undo_sagas.report_fault(kind.steps[number]) is None:
            return
        subject = f"saga {key!r}, step {step!r}"
        if reason != EarlyReason.RESULT:
            raise StepNotWaiting(f"{subject}: there is no unused report of it")
        if row.note is not None:
            raise StepNotWaiting(f"{subject}: the saga is resolved already")
        declared = kind.steps[number]
        if kind.saga is None or declared is None:
            if coordinator.store.supports_nodes:
                await self._commands.hand_over(row, "compensate", {"step": step}, request)
                return
            raise StepNotWaiting(
                f"{subject}: this program does not have the definition. Ask one that has it, or "
                "undo the step by hand, and resolve the saga"
            )
        if fault := undo_sagas.report_fault(declared):
            raise StepNotWaiting(f"{subject}: {fault}. Undo it by hand, and resolve the saga")
        saga = coordinator.registry.report_undo(kind.saga, declared)
        input = await self._input(row, known, kind, number, text or "null")
        labels = queries.visible_labels(await coordinator.store.read(queries.LABELS_OF, row.id))
        options = StartOptions(labels, parent=row.id)
        await self._starter.start_child(
            saga, child_sagas.key_of(key, step, undo=True), input, options
        )
        batch = Batch(-1, coordinator.clock())
        batch.rare_rows.undone.append((row.id, number))
        batch.answer(request, "true")
        await coordinator.kept(batch)

    async def _ended(self, key: str, of: int | None) -> SagaRow:
        """Return the row of a saga. Raises `StepNotWaiting` if it has not ended."""
        row = await self._lookup.row_with_end(key, of)
        if row.phase is None:
            raise StepNotWaiting(
                f"saga {key!r} has not ended. Reports that it does not use are undone after its "
                "end"
            )
        return row

    async def _input(
        self, row: SagaRow, known: StoredSaga, kind: CompiledDefinition, step: int, text: str
    ) -> dict[str, Any]:
        """Return the input of the saga that undoes a report. All nodes compute the same."""
        decode, name = kind.payloads.decode, kind.names[step]
        store = self._access.coordinator.store
        ((shard,),) = await store.read(SHARD_NAME, row.id // SHARD_CAPACITY)
        token = tokens.saga_token(shard, row.id % SHARD_CAPACITY)
        saga_input = decode(await stored_values.input_of(store, row.id, row.input))
        values = ShapeValues() if known.shape is None else ShapeValues.read(decode(known.shape))
        location = kind.location(name, values, saga_input)
        committed = {
            index: value for index, _, _, event, value, _ in known.results if event == "commit"
        }
        needed = [index for index in kind.below[step] if index in committed]
        results = {kind.names[index]: decode(committed[index] or "null") for index in needed}
        task: Task[Any] = Task(
            TaskSnapshot(
                kind.name,
                row.key,
                name,
                True,
                1,
                token,
                location.input if location else saga_input,
                results,
                decode(text),
                location=location,
            )
        )
        fields_of_task = task._plain
        location_data = None
        if location is not None:
            fields = ("shape", "declared_step", "index", "item_key", "item")
            location_data = {field: fields_of_task[field] for field in fields} | {"step": name}
            location_data["given"] = serialization.read(leased_tasks.given_text(task))
        return {
            "key": row.key,
            "token": token,
            "saga": task.saga,
            "step": name,
            "input": fields_of_task["input"],
            "results": fields_of_task["results"] | {name: fields_of_task["result"]},
            "place": location_data,
        }

    # -- in the background

    def look(self) -> None:
        """Check for unused reports, because a saga has ended with one."""
        self._changed.set()

    async def run(self) -> None:
        """Undo reports of steps with `early_unused="compensate"`, until the store closes."""
        coordinator = self._access.coordinator
        while not coordinator.closed:
            self._changed.clear()
            with contextlib.suppress(SagasError):  # the next check finds them
                await self._undo_all()
            with contextlib.suppress(TimeoutError):
                async with asyncio.timeout(PAUSE):
                    await self._changed.wait()

    async def _undo_all(self) -> None:
        coordinator = self._access.coordinator
        for key, id, number in await coordinator.store.read(UNUSED):
            try:
                row = await self._lookup.row(str(key), int(id))
                kind = coordinator.registry.kind((await coordinator.store.known(row)).definition)
                declared = kind.steps[int(number)]
                if declared is not None and declared.early_unused == "compensate":
                    await self.compensate(row.key, kind.names[int(number)], None, row.id)
            except Closed:
                raise
            except NoSuchSaga:
                continue
            except Exception as error:  # `attention` lists it for operators
                logger.warning("a report of saga %r is not undone yet: %s", key, error)
