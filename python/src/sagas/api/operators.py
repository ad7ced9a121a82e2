"""The operator calls of an open store, for one saga or all sagas of a filter."""

from __future__ import annotations

import builtins
import json
from typing import Any

from sagas.api.commands import Commands, UnusedReports
from sagas.api.end_calls import EndCalls
from sagas.api.questions import Questions
from sagas.api.restarts import Restarts
from sagas.api.shared_calls import declared_names
from sagas.api.store_access import SagaLookup, Starter, StoreAccess
from sagas.core.decisions import request_fields
from sagas.core.outcomes import Outcome, reported_outcome
from sagas.core.shard.batch import AnsweredRequest
from sagas.definition import arguments, serialization
from sagas.definition.payloads import Payloads
from sagas.definition.registry import DefinitionRegistry
from sagas.definition.step import Step
from sagas.inspection.views import Waits
from sagas.runtime import operator_commands


class Operators(Questions):
    """The calls by which operators change what a saga does."""

    def __init__(
        self, access: StoreAccess, name: str, registry: DefinitionRegistry, accept_new: bool
    ) -> None:
        super().__init__(access)
        self._name = name
        self._lookup = SagaLookup(access)
        self._starter = Starter(access, self._lookup, registry, accept_new)
        self._commands = Commands(access, self._lookup)
        self._reports = UnusedReports(access, self._lookup, self._starter, self._commands)
        self._end_calls = EndCalls(self._lookup, self._starter)
        self._restarts = Restarts(access, self._lookup, self._starter, self._commands)

    def _stored(self) -> Payloads:
        return self._access.coordinator.registry.payloads

    def _location(self) -> str:
        self._access.coordinator_here()
        return self._name

    async def abort(self, key: str, *, by: str | None = None, note: str | None = None) -> bool:
        """Abort a saga: start no more of its steps, and undo by a least-cost plan.

        A client's start that no node has opened is withdrawn.

        Args:
            key: The saga's key.
            by: The person or program that requests it. If given, the store keeps the command with
                `note` and the time.
            note: The reason.

        Returns:
            False if the saga had ended, or was aborted before.

        Raises:
            NotAbortable: The saga undoes a child, and is open.
            NoSuchSaga: No saga has the key.
            OwnerUnavailable: The node that executes the saga does not answer.
            StoreUnavailable: The database does not answer.
            Closed: The store is closed.
        """
        self._access.coordinator_here()
        return await self._commands.abort(key, self._commands.command_row(key, "abort", by, note))

    async def complete(
        self,
        key: str,
        step: Step[Any] | str,
        result: Any = None,
        *,
        undo: bool = False,
        early: bool = True,
        by: str | None = None,
        note: str | None = None,
    ) -> None:
        """Report that a step succeeded: an approval, an external or an unknown one.

        When it returns, the report is durable. The same report again is not an error, also after
        the saga has ended. If an approval or an external step has not started, its report is
        stored. The step takes it when it starts, and calls no function. If the saga ends without
        the step, the report is in `attention` (see `compensate`).

        A step that starts a child is completed with a `ChildResult`: `{"key": "t/:stay", "phase":
        "completed", "results": {"room": 7}}`. The key is that of a child which this step started
        and which has ended. A compensation undoes what remains of that child. With None as the key,
        the step has no child, and nothing to undo.

        Args:
            key: The saga's key.
            step: The step, or its name.
            result: The step's result, as JSON (default: None).
            undo: Whether the step's compensation is meant (default: False). A compensation is
                reported after it has started.
            early: Whether a step may be reported before it starts (default: True).
            by: The person or program that reports it. If given, the store keeps the command with
                `note` and the time.
            note: The reason.

        Raises:
            ConflictingReport: Another outcome was reported first, and that one counts.
            StepNotWaiting: The step does not wait for a report. Or it has not started, and `early`
                is False, the step is neither an approval nor external, or the saga is being undone.
            InvalidResult: The result does not have the type that the step's function declares, or,
                if the step starts a child, is not the result of one.
            NoSuchSaga: No saga has the key.
            NotSerializable: The result is not JSON.
            WouldWaitForever: An approval's function reports its own approval.
            OwnerUnavailable: The node that executes the saga does not answer.
            StoreUnavailable: The database does not answer.
            Closed: The store is closed.
        """
        payloads = self._access.coordinator_here().registry.payloads
        outcome, name = reported_outcome(result, None), step if isinstance(step, str) else step.name
        kept = payloads.encode_value(json.loads(outcome.value))
        command = None
        if by is not None:
            command = self._report_row(key, "complete", by, note, name, undo, early, result=kept)
        await self._commands.report(key, name, outcome, undo, command, early=early)

    async def fail(
        self,
        key: str,
        step: Step[Any] | str,
        error: str,
        *,
        undo: bool = False,
        early: bool = True,
        by: str | None = None,
        note: str | None = None,
    ) -> None:
        """Report that a step failed permanently. See `Store.complete`.

        It had no effect, and is not attempted again.

        Args:
            error: Why it failed.

        Raises:
            TypeError: `error` is not a text.
        """
        self._access.coordinator_here()
        outcome, name = reported_outcome(None, error), step if isinstance(step, str) else step.name
        command = None
        if by is not None:
            command = self._report_row(key, "fail", by, note, name, undo, early, error=error)
        await self._commands.report(key, name, outcome, undo, command, early=early)

    def _report_row(
        self,
        key: str,
        command: str,
        by: str,
        note: str | None,
        step: str,
        undo: bool,
        early: bool,
        **details: Any,
    ) -> AnsweredRequest | None:
        """Return the stored row of a report by a named requester."""
        fields = operator_commands.step_arguments(step, "undo" if undo else "run", early)
        return self._commands.command_row(key, command, by, note, **fields, **details)

    async def compensate(
        self, key: str, step: Step[Any] | str, *, by: str | None = None, note: str | None = None
    ) -> None:
        """Have a step compensated that was reported before it started, and not used.

        Such a report is in `attention` as `unused_report`. A saga with the key `KEY/:STEP:undo`
        calls the compensation with the result that was reported. When this call returns, that saga
        is durable: its compensation is retried until it succeeds, and is not called again after
        that. The same call again is not an error.

        Args:
            key: The saga's key.
            step: The step, or its name.
            by: The person or program that requests it. The store keeps the command with `note` and
                the time.
            note: The reason.

        Raises:
            NoSuchSaga: No saga has the key.
            StepNotWaiting: The saga has no unused report of the step, is open, or is resolved. Or
                the step has no compensation that a saga can call.
            InvalidKey: The key of that saga would be too long.
            CannotDecode: The codec cannot read what is stored.
            StoreUnavailable: The database does not answer.
            Closed: The store is closed.
        """
        self._access.coordinator_here()
        name = step if isinstance(step, str) else step.name
        value = serialization.write({**request_fields(by, note), "step": name})
        command = key, "compensate", value, self._access.coordinator.clock()
        await self._reports.compensate(key, name, command)

    async def resolve(self, key: str, note: str, *, by: str | None = None) -> None:
        """Mark a saga as resolved: stuck, with a failed compensation or unused report.

        It runs and undoes nothing. The store keeps the note with the time. The same note again is
        not an error.

        Args:
            key: The saga's key.
            note: What the operator has done about it.
            by: The operator.

        Raises:
            NoSuchSaga: No saga has the key.
            StepNotWaiting: The saga needs no operator, or is resolved with another note.
            ValueError: The note is empty.
            TypeError: The note is not a text.
            StoreUnavailable: The database does not answer.
            Closed: The store is closed.
        """
        arguments.text("note", note, "what was done about it")
        await self._commands.resolve(key, note, by)

    # -- attempts that wait for an operator

    async def retry(
        self,
        key: str,
        step: Step[Any] | str,
        *,
        undo: bool = False,
        by: str | None = None,
        note: str | None = None,
    ) -> None:
        """Attempt a step again that is exhausted, or whose outcome is unknown.

        The same attempt is made at once, with its idempotency key, and the count of its attempts
        starts from zero. When the call returns, the command is durable.

        Args:
            key: The saga's key.
            step: The step, or its name.
            undo: Whether the step's compensation is meant (default: False).
            by: The person or program that requests it. If given, the store keeps the command with
                `note` and the time.
            note: The reason.

        Raises:
            StepNotWaiting: The step does not wait for a retry.
            NoSuchSaga: No saga has the key.
            OwnerUnavailable: The node that executes the saga does not answer.
            StoreUnavailable: The database does not answer.
            Closed: The store is closed.
        """
        self._access.coordinator_here()
        name, kind = step if isinstance(step, str) else step.name, "undo" if undo else "run"
        command = self._commands.command_row(key, "retry", by, note, step=name, kind=kind)
        await self._commands.retry(key, name, undo, command)

    async def _settle(self, wait: Waits, outcome: Outcome | None, details: dict[str, Any]) -> None:
        command = "retry" if outcome is None else "fail" if "error" in details else "complete"
        kind = "undo" if wait.undo else "run"
        request = self._commands.command_row(
            wait.key, command, **details, step=wait.step, kind=kind
        )
        about = wait.key, wait.step
        if outcome is None:
            await self._commands.retry(*about, wait.undo, request, wait.id)
        else:
            await self._commands.report(*about, outcome, wait.undo, request, wait.id, early=False)

    def _declared(self) -> dict[str, builtins.list[str]]:
        sagas = self._access.coordinator.registry.sagas.values()
        return declared_names(sagas)

    async def _delete_blobs(self, keys: builtins.list[str]) -> None:
        if (blobs := self._access.coordinator.store.blobs) is not None:
            await blobs.delete(keys)

    async def _look_at_pauses(self) -> None:
        await self._access.coordinator.pauses.refresh()
