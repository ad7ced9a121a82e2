"""The calls that open stores and clients share: for many sagas, for schedules and pauses."""

from __future__ import annotations

import asyncio
import builtins
import contextlib
import dataclasses
import datetime
import json
import threading
import time
from collections.abc import Callable, Iterable
from typing import Any, TypeVar

from sagas.base.errors import (
    ConflictingReport,
    InvalidResult,
    NoSuchSaga,
    StepNotWaiting,
    StoreUnavailable,
)
from sagas.base.logger import logger
from sagas.core.attention import Attention
from sagas.core import pauses as pauses_module
from sagas.core.outcomes import Outcome, reported_outcome
from sagas.core.decisions import DecisionEntry, bulk_by, decision_named, request_fields
from sagas.core.nodes import NodeStatus
from sagas.core.pauses import Pause
from sagas.core.results import DefinitionCount, Summary
from sagas.core.states import Suspension
from sagas.definition import arguments, serialization, timing, waits
from sagas.definition.labels import Labels, checked, selecting
from sagas.definition.payloads import Payloads
from sagas.definition.saga import Saga
from sagas.definition.start_options import I, NO_INPUT
from sagas.definition.step import Step
from sagas.inspection import decision_questions, lists, names as names_module
from sagas.inspection import nodes as node_questions, pages
from sagas.inspection import pauses as pause_questions
from sagas.inspection.decision_questions import DecisionFilter
from sagas.inspection.question import Question
from sagas.inspection.views import Waits
from sagas.storage import admin, drains, erasures, pauses as pause_rows
from sagas.storage.batches import Batch, BatchResult
from sagas.storage.filters import Filter
from sagas.storage.schedules import Schedule, Schedules

T = TypeVar("T")


def definition_name(saga: Saga[Any] | str | None) -> str | None:
    """Return the name of a definition."""
    return saga.name if isinstance(saga, Saga) else saga


def declared_names(sagas: Iterable[Saga[Any]]) -> dict[str, builtins.list[str]]:
    """Return the names of definitions, each with the declared names of its steps."""
    names: dict[str, builtins.list[str]] = {}
    for saga in sagas:
        names.setdefault(saga.name, []).extend(name for name, _ in saga.declared_steps)
    return names


def _page(
    filter: Filter, after: Summary | int | None, limit: int
) -> Question[builtins.list[Summary]]:
    after_position = yield from pages.position(after)
    return (yield from pages.page(of=filter, after=after_position, newest=False, limit=limit))


async def over_own_connection(name: str, work: Callable[[admin.Source], T]) -> T:
    """Run a function over a separate connection to the store, in a thread.

    Raises:
        StoreUnavailable: It cannot be written.
    """

    def run() -> T:
        try:
            with contextlib.closing(admin.connect(name, "rw")) as link:
                return work(link)
        except admin.Trouble as trouble:
            raise StoreUnavailable(str(trouble)) from trouble

    return await asyncio.to_thread(run)


class SharedCalls:
    """The calls that stores and clients share: for many sagas, for schedules and pauses."""

    async def _answer(self, question: Question[T]) -> T:
        raise NotImplementedError

    def _stored(self) -> Payloads:
        """Return how inputs are stored."""
        raise NotImplementedError

    def _location(self) -> str:
        """Return the store's file or URL. Raises `Closed` if it is not open."""
        raise NotImplementedError

    async def _settle(self, wait: Waits, outcome: Outcome | None, details: dict[str, Any]) -> None:
        """Retry an attempt that waits for an operator, or report its outcome.

        `details` are `by`, `note`, and `result` or `error`.
        """
        raise NotImplementedError

    def _declared(self) -> dict[str, builtins.list[str]]:
        """Return the definitions of this program, each with the declared names of its steps."""
        raise NotImplementedError

    def _step_names(self) -> builtins.list[str]:
        """Return the names of steps that this program declares, for warnings."""
        return [name for names in self._declared().values() for name in names]

    async def _look_at_pauses(self) -> None:
        """Obey a change of the pauses, if this program executes sagas."""

    def _now(self) -> float:
        """Return the wall time, in seconds since 1970."""
        return time.time()

    async def _check_input(self, saga: Saga[Any], text: str) -> None:
        """Raise what a start of the saga with this input would raise, if known here."""

    # -- many sagas

    async def list(
        self,
        *,
        phase: str | None = None,
        saga: Saga[Any] | str | None = None,
        labels: Labels | None = None,
        after: Summary | int | None = None,
        limit: int = 100,
    ) -> builtins.list[Summary]:
        """Return a page of sagas, ordered by their starts, the oldest first.

        Pages do not repeat a saga, and contain each saga that existed when the first page was
        requested. A saga that starts later may be listed before `after`, because the clocks of
        nodes differ. To learn of new sagas, use `on_event` in place of `after`. Starts of clients
        that no node has opened are left out.

        Args:
            phase: `open`, `completed`, `recovered`, `stuck` or `resolved`; or `undo_failed`, for
                recovered sagas with a compensation that failed permanently (default: all).
            saga: A definition, or its name (default: all).
            labels: Labels that the sagas have, all of these (default: any).
            after: The last saga of the previous page, which may be deleted by now; or its `id`,
                while the store has the saga (default: from the start).
            limit: Maximum number of sagas (default: 100).

        Raises:
            ValueError: The phase or the limit is not valid, or no saga has the id.
            TypeError: `after` is neither a saga of a list nor an id.
            InvalidLabel: A label is not valid.
            StoreUnavailable: The database does not answer.
            Closed: The store is closed.
        """
        pages.check(phase, after, limit)
        filter = Filter(phase, definition_name(saga), checked(labels))
        return await self._answer(_page(filter, after, limit))

    async def count(
        self,
        *,
        phase: str | None = None,
        saga: Saga[Any] | str | None = None,
        labels: Labels | None = None,
    ) -> int:
        """Return how many sagas there are.

        Args:
            phase: As for `list`.
            saga: As for `list`.
            labels: As for `list`.

        Raises:
            ValueError: The phase is not valid.
            InvalidLabel: A label is not valid.
            StoreUnavailable: The database does not answer.
            Closed: The store is closed.
        """
        pages.check(phase, None, 1)
        return await self._answer(
            lists.count(Filter(phase, definition_name(saga), checked(labels)))
        )

    async def definitions(self) -> builtins.list[DefinitionCount]:
        """Return how many sagas there are of each version of each definition.

        Raises:
            StoreUnavailable: The database does not answer.
            Closed: The store is closed.
        """
        return await self._answer(lists.definitions())

    async def attention(self, *, limit: int = 100) -> builtins.list[Attention]:
        """Return what needs an operator, the oldest first.

        The list contains:

        - stuck sagas, and sagas with a compensation that failed permanently, until an operator
        resolves them;
        - successes that were reported before their steps started, and that their sagas did not use;
        - steps and compensations whose attempts are exhausted (`on_exhausted="ask"`);
        - attempts with an unknown outcome that are not retried;
        - attempts that an error of the program stopped;
        - attempts with stored values that no program could read.

        Args:
            limit: Maximum number of entries (default: 100).

        Raises:
            ValueError: The limit is not valid.
            StoreUnavailable: The database does not answer.
            Closed: The store is closed.
        """
        arguments.count("limit", limit)
        return await self._answer(lists.attention(limit, self._stored().decode))

    async def abort_all(
        self,
        *,
        saga: Saga[Any] | str | None = None,
        labels: Labels | None = None,
        by: str | None = None,
        note: str | None = None,
        timeout: float | None = None,
    ) -> BatchResult:
        """Abort every open saga of a filter, and wait for the replies of their nodes.

        The commands are durable, at most 1,000 in a transaction. A node that is down executes its
        commands when it is back. If the call is interrupted, repeat it for the rest. A client's
        start that no node has opened is withdrawn.

        Args:
            saga: A definition, or its name (default: all).
            labels: Labels that the sagas have, all of these (default: any).
            by: The person or program that requests it. The store keeps it with `note` and the time.
            note: The reason.
            timeout: Seconds to wait for replies (default: until all running nodes have replied).

        Returns:
            The keys of the sagas, by outcome. If the filter selects nothing, `warnings` says which
                labels no saga has.

        Raises:
            InvalidLabel: A label is not valid, or `labels` is empty, which would mean every saga.
            StoreUnavailable: The database does not answer. Commands that are stored are executed.
            Closed: The store is closed.
        """
        command = request_fields(bulk_by(by), note)
        selection = Filter(saga=definition_name(saga), labels=selecting(labels))
        return await self._run(selection, lambda batch: batch.abort(command, timeout))

    async def resolve_all(
        self,
        note: str,
        *,
        saga: Saga[Any] | str | None = None,
        labels: Labels | None = None,
        by: str | None = None,
    ) -> BatchResult:
        """Mark every saga of a filter as resolved. See `Store.resolve`.

        The call applies to stuck sagas, and to sagas with a failed compensation, that are not
        resolved.

        Args:
            saga: A definition, or its name (default: all).
            labels: Labels that the sagas have, all of these (default: any).

        Returns:
            The keys of the sagas, as `done`; `warnings` as for `abort_all`.

        Raises:
            InvalidLabel: As for `abort_all`.
        """
        arguments.text("note", note, "what was done about it")
        selection = Filter(saga=definition_name(saga), labels=selecting(labels))
        return await self._run(selection, lambda batch: batch.resolve(note, bulk_by(by)))

    async def _run(self, filter: Filter, work: Callable[[Batch], BatchResult]) -> BatchResult:
        """Run a batch in a thread; if the caller is cancelled, stop after a transaction."""
        stop = threading.Event()
        job = asyncio.ensure_future(
            over_own_connection(self._location(), lambda link: work(Batch(link, filter, stop)))
        )
        try:
            result = await asyncio.shield(job)
        except asyncio.CancelledError:
            stop.set()
            await asyncio.wait([job])
            raise
        if not (result.done or result.refused or result.waiting):
            result.warnings = await self._unmatched(filter)
        return result

    async def _unmatched(
        self, filter: Filter, step: str | None = None, names: Iterable[str] = ()
    ) -> builtins.list[str]:
        """Return and log warnings about labels and steps of a filter that do not exist."""
        warnings = await self._answer(names_module.unmatched_warnings(filter, step, names))
        for warning in warnings:
            logger.warning("%s", warning)
        return warnings

    # -- attempts that wait for an operator

    async def retry_all(
        self,
        *,
        saga: Saga[Any] | str | None = None,
        step: str | None = None,
        labels: Labels | None = None,
        limit: int = 1000,
        by: str | None = None,
        note: str | None = None,
    ) -> int:
        """Attempt again each step whose attempts are exhausted. See `Store.retry`.

        `complete_all` and `fail_all` report them instead.

        Args:
            saga: Only sagas of this definition, or name (default: all).
            step: Only this step, and its compensation (default: all). The name of a step with items
                means all of them, and `hotel/room` a step of an included saga.
            labels: Only sagas with all of these labels (default: all).
            limit: Maximum number of attempts, those first that have waited longest (default:
                1,000).
            by: The person or program that requests it.
            note: The reason.

        Returns:
            The number of attempts, without those that another command has handled in the meantime.
                If no saga has a label, or no definition the step, a warning is logged.

        Raises:
            InvalidLabel: As for `abort_all`.
        """
        waits = await self._exhausted(saga, step, labels, limit)
        return await self._each(waits, None, {"by": bulk_by(by), "note": note})

    async def complete_all(
        self,
        result: Any = None,
        *,
        saga: Saga[Any] | str | None = None,
        step: str | None = None,
        labels: Labels | None = None,
        limit: int = 1000,
        by: str | None = None,
        note: str | None = None,
    ) -> int:
        """Report that each step succeeded whose attempts are exhausted.

        Args:
            result: The result of each step (default: None).

        See `Store.retry_all` for the others.

        Raises:
            NotSerializable: The result is not JSON.
            InvalidResult: A result does not have the type of its step. The others are
                reported.
        """
        details = {"by": bulk_by(by), "note": note, "result": result}
        waits = await self._exhausted(saga, step, labels, limit)
        return await self._each(waits, reported_outcome(result, None), details)

    async def fail_all(
        self,
        error: str,
        *,
        saga: Saga[Any] | str | None = None,
        step: str | None = None,
        labels: Labels | None = None,
        limit: int = 1000,
        by: str | None = None,
        note: str | None = None,
    ) -> int:
        """Report that each step failed permanently whose attempts are exhausted.

        Args:
            error: The reason.

        See `Store.retry_all` for the others.

        Raises:
            TypeError: `error` is not a text.
        """
        details = {"by": bulk_by(by), "note": note, "error": error}
        waits = await self._exhausted(saga, step, labels, limit)
        return await self._each(waits, reported_outcome(None, error), details)

    async def _each(
        self,
        waits: builtins.list[Waits],
        outcome: Outcome | None,
        details: dict[str, Any],
    ) -> int:
        """Retry the waiting attempts, or report an outcome for each; return how many."""
        count, invalid = 0, None
        for wait in waits:
            try:
                await self._settle(wait, outcome, details)
                count += 1
            except (StepNotWaiting, ConflictingReport, NoSuchSaga):  # another command was first
                continue
            except InvalidResult as error:
                invalid = invalid or error
        if invalid is not None:
            raise invalid
        return count

    async def _exhausted(
        self, saga: Saga[Any] | str | None, step: str | None, labels: Labels | None, limit: int
    ) -> builtins.list[Waits]:
        arguments.count("limit", limit)
        within = Filter(saga=definition_name(saga), labels=selecting(labels))
        waits = lists.waits(limit, why=Suspension.EXHAUSTED.value, within=within, step=step)
        if not (waiting := await self._answer(waits)):
            await self._unmatched(within, step, self._step_names())
        return waiting

    # -- one saga

    async def erase(self, key: str, *, by: str | None = None) -> bool:
        """Erase the data of an ended saga, and of all sagas below it.

        Its input, results, errors, labels and what operators wrote about it are erased. Its key
        stays used, and its events, its plan, the times and the names of operators stay. A result
        that is read later has `erased`. This cannot be undone. Backups, archives and records of
        nodes still have the data.

        Args:
            key: The saga's key.
            by: The person or program that requests it, which the store keeps with the time.

        Returns:
            False if all of it was erased before.

        Raises:
            NotErasable: The saga, or one below it, is open, needs an operator, or its `on_end`
                function was not called yet; or it is a child.
            NoSuchSaga: No saga has the key.
            StoreUnavailable: The database does not answer.
            Closed: The store is closed.
        """
        location = self._location()
        erased = await over_own_connection(location, lambda link: erasures.erase(link, key, by))
        await self._delete_blobs(erased.blobs)
        return erased.is_new

    async def _delete_blobs(self, keys: builtins.list[str]) -> None:
        """Delete values of the blob store, if this program has it."""

    # -- pauses

    async def pause(
        self,
        saga: Saga[Any] | str | None = None,
        step: Step[Any] | str | None = None,
        *,
        queue: str | None = None,
        note: str,
        by: str | None = None,
        forward_only: bool = False,
        refuse_starts: bool = False,
    ) -> None:
        """Start no more attempts of a definition, a step or a queue, or of everything.

        Attempts that run end as usual. Others wait until the scope is resumed: also those of
        external workers and of Celery queues, children, and schedules of a paused definition.
        Deadlines, timers and approvals continue, and reports are taken. When the call returns,
        the pause is durable, and this program obeys it. Other nodes obey within a second. A
        second pause of the same scope replaces the note and the options of the first one.

        Args:
            saga: A definition, or its name; it includes all versions (default: everything).
            step: Only this step of the definition, or its name: `hotel/room` is a step of an
                included saga (default: all steps).
            queue: The name of a Celery queue, in place of a definition (default: none).
            note: Why, for operators.
            by: The person or program that pauses it.
            forward_only: Whether compensations start nevertheless (default: False).
            refuse_starts: Whether new sagas of a definition, or of all, are refused with
                `StartsPaused` (default: False: they are started, and their attempts wait).

        Raises:
            ValueError: The note is empty, no definition or step has the name, or the scope is not
                valid: a step needs its definition, and a queue has none.
            TypeError: The note is not a text.
            StoreUnavailable: The database does not answer.
            Closed: The store is closed.
        """
        arguments.text("note", note, "why it is paused")
        name = step if isinstance(step, str) or step is None else step.name
        scope = pauses_module.scope_of(definition_name(saga), name, queue)
        if refuse_starts and (step is not None or queue is not None):
            raise ValueError(f"{scope.text} has no starts of its own: pass refuse_starts=False")
        location, declared = self._location(), self._declared()
        about = serialization.clean(note), None if by is None else str(by), self._now()
        pause = Pause(*scope, forward_only, refuse_starts, *about)

        def put(link: admin.Source) -> None:
            pause_questions.check_names(link, scope, declared)
            pause_rows.put(link, pause, by)

        await over_own_connection(location, put)
        await self._look_at_pauses()

    async def resume(
        self,
        saga: Saga[Any] | str | None = None,
        step: Step[Any] | str | None = None,
        *,
        queue: str | None = None,
        by: str | None = None,
    ) -> None:
        """End a pause: its attempts start again. See `Store.pause`.

        Other pauses that cover the same attempts stay in effect.

        Args:
            saga: As for the pause (default: the pause of everything).
            step: As for the pause.
            queue: As for the pause.
            by: The person or program that resumes it.

        Raises:
            NoSuchPause: The scope is not paused.
            ValueError: The scope is not valid.
            StoreUnavailable: The database does not answer.
            Closed: The store is closed.
        """
        name = step if isinstance(step, str) or step is None else step.name
        scope = pauses_module.scope_of(definition_name(saga), name, queue)
        location, now = self._location(), self._now()
        await over_own_connection(location, lambda link: pause_rows.remove(link, scope, now, by))
        await self._look_at_pauses()

    async def pauses(self) -> builtins.list[Pause]:
        """Return the pauses, the oldest first.

        Raises:
            StoreUnavailable: The database does not answer.
            Closed: The store is closed.
        """
        return await self._answer(pause_questions.pauses())

    # -- nodes

    async def nodes(self) -> builtins.list[NodeStatus]:
        """Return the nodes of the store, by name.

        Those that have ended are returned while they have shards or are drained. A file has one.

        Raises:
            StoreUnavailable: The database does not answer.
            Closed: The store is closed.
        """
        return await self._answer(node_questions.nodes())

    async def drain(self, node: str, *, note: str, by: str | None = None) -> None:
        """Have a node take no more shards, and move its shards to other nodes.

        A shard moves when none of its functions runs at the node. New sagas are started by other
        nodes. When the call returns, the drain is durable, and the node obeys within a second. It
        remains in effect when the node is started again under its name, until `undrain`, or until
        the node has been gone for a day. While no other node runs that is not drained, it has no
        effect. A second drain replaces the note of the first one.

        Args:
            node: The name of the node.
            note: Why, for operators.
            by: The person or program that drains it.

        Raises:
            NoSuchNode: No node has the name, or the store is a file.
            ValueError: The note is empty.
            TypeError: The note is not a text.
            StoreUnavailable: The database does not answer.
            Closed: The store is closed.
        """
        arguments.text("note", note, "why it is drained")
        text = serialization.clean(note)
        await over_own_connection(self._location(), lambda link: drains.put(link, node, text, by))

    async def undrain(self, node: str, *, note: str | None = None, by: str | None = None) -> None:
        """Have a drained node take shards again. See `Store.drain`.

        Args:
            node: The name of the node.
            note: Why, for operators (default: none).
            by: The person or program that decides it.

        Raises:
            NoSuchNode: The node is not drained.
            StoreUnavailable: The database does not answer.
            Closed: The store is closed.
        """
        text = None if note is None else serialization.clean(note)
        await over_own_connection(
            self._location(), lambda link: drains.remove(link, node, text, by)
        )

    # -- decisions

    async def decisions(
        self,
        *,
        key: str | None = None,
        saga: Saga[Any] | str | None = None,
        decision: str | None = None,
        after: DecisionEntry | int | None = None,
        limit: int = 100,
    ) -> builtins.list[DecisionEntry]:
        """Return a page of decisions of operators and approvers, the newest first.

        A decision on many sagas is one entry. Decisions are deleted with their sagas. A pause and a
        resume are decisions, too.

        Args:
            key: Only decisions on the saga with this key.
            saga: Only decisions on sagas of this definition, or of its name.
            decision: Only decisions of this kind, for example `retry`.
            after: The last entry of the previous page, or its `number` (default: the first page).
            limit: Maximum number of entries (default: 100).

        Raises:
            ValueError: The kind is unknown, or the limit is not valid.
            StoreUnavailable: The database does not answer.
            Closed: The store is closed.
        """
        arguments.count("limit", limit)
        kind = None if decision is None else decision_named(decision).value
        before = after.number if isinstance(after, DecisionEntry) else after
        of = DecisionFilter(key, definition_name(saga), kind)
        return await self._answer(decision_questions.listed(of, before, limit))

    # -- schedules

    async def schedule(
        self,
        name: str,
        saga: Saga[I],
        input: I = NO_INPUT,
        *,
        cron: str | None = None,
        every: datetime.timedelta | None = None,
        timezone: str = "UTC",
        catch_up: str = "last",
        max: int = timing.MAX_MISSED,
        overlap: str = "allow",
        labels: Labels | None = None,
    ) -> None:
        """Start a saga at certain times, once over all nodes.

        The saga of a time has the key `NAME@TIME`, for example `nightly@2026-03-01T02:00:00Z`. A
        node that has the definition starts it. The call is idempotent: make it whenever the program
        starts. It changes an existing schedule. If nothing differs, the schedule stays unchanged,
        also if it is paused. A start that is in progress keeps the previous input.

        Args:
            name: The schedule's name: 1 to 128 printable characters, without `@` and `/:`.
            saga: The definition.
            input: What its steps read as `task.input` (default: None).
            cron: Minute, hour, day of month, month and day of week, for example `0 2 * * *`.
            every: The interval between two times, in place of `cron`. The times are multiples of it
                since 1970, in UTC.
            timezone: The time zone of `cron` (default: UTC).
            catch_up: How to handle times at which no node ran: `last` starts the last one, `all`
                starts each, in order, `skip` starts none (default: `last`).
            max: How many missed times are started at most, the last ones; the event
                `schedule_missed` has the others (default: 100).
            overlap: How to handle a time while the saga of the previous time is open: `allow`
                starts it, `skip` does not, `queue` starts it once that saga has ended. With
                `queue`, `catch_up` applies to the times that wait (default: `allow`).
            labels: As for `Store.start`.

        Raises:
            InvalidSchedule: The name, the times or the time zone are not valid.
            InvalidInput: The input does not have a type that the saga or its functions name.
            InvalidLabel: A label is not valid.
            NotSerializable: The input is not JSON.
            DefinitionError: The store was not opened with the saga.
            StoreUnavailable: The database does not answer.
            Closed: The store is closed.
        """
        timing.check_name(name)
        waits.check_is_saga(saga)
        times = timing.timing(cron, every, timezone, catch_up, max, overlap)
        labels_text = json.dumps(dict(checked(labels)))
        location, text = self._location(), serialization.write_value(input, "input")
        await self._check_input(saga, text)
        declared = (saga.name, saga.version), text, labels_text, times, self._now(), self._stored()
        await over_own_connection(location, lambda link: Schedules(link).put(name, *declared))

    async def schedules(self) -> builtins.list[Schedule]:
        """Return the schedules, by name.

        Raises:
            StoreUnavailable: The database does not answer.
            Closed: The store is closed.
        """
        stored, decode = await self._answer(lists.schedules()), self._stored().decode_value
        return [dataclasses.replace(schedule, input=decode(schedule.input)) for schedule in stored]

    async def pause_schedule(self, name: str) -> None:
        """Start no more sagas of a schedule, until it is resumed.

        A start that is in progress is finished: at most one saga at each node. Times that were
        missed before are not started: `error` of the schedule says how many, and so does a warning
        in the log.

        Args:
            name: The schedule's name.

        Raises:
            NoSuchSchedule: No schedule has the name.
            StoreUnavailable: The database does not answer.
            Closed: The store is closed.
        """
        now = self._now()
        message = await over_own_connection(
            self._location(), lambda link: Schedules(link).pause(name, now)
        )
        if message is not None:
            logger.warning("schedule %r: %s", name, message)

    async def resume_schedule(self, name: str) -> None:
        """Start sagas of a paused schedule again. See `Store.pause_schedule`.

        It continues with the next time. Times during the pause are not started.
        """
        now = self._now()
        await over_own_connection(self._location(), lambda link: Schedules(link).resume(name, now))

    async def remove_schedule(self, name: str) -> None:
        """Delete a schedule. Its sagas stay. See `Store.pause_schedule`."""
        await over_own_connection(self._location(), lambda link: Schedules(link).remove(name))
