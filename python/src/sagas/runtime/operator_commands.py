"""Executes operator commands that were written into the store."""

from __future__ import annotations

import asyncio
import functools
import json
from typing import TYPE_CHECKING, Any, Protocol

from sagas.base.errors import Closed, SagaMoved, SagasError, StoreUnavailable
from sagas.base.logger import logger
from sagas.core.shard.batch import Batch, PendingRequest, RequestRef
from sagas.core.outcomes import Outcome, reported_outcome
from sagas.core.states import OutcomeKind
from sagas.definition.payloads import Payloads

if TYPE_CHECKING:
    from sagas.runtime.coordinator import Coordinator


MAX_REQUESTS, PAUSE = 1000, 0.5
"""Maximum number of requests of one read, and seconds until the next read if that many are in
progress.
"""


class CommandExecutor(Protocol):
    """Executes commands on sagas, by key.

    In its methods, `request` is the number of the command, and `of` the id of the saga that is
    meant.
    """

    async def abort(self, key: str, request: RequestRef, of: int | None = None) -> bool:
        """See `Store.abort`."""

    async def report(
        self,
        key: str,
        step: str,
        outcome: Outcome,
        undo: bool,
        request: RequestRef,
        of: int | None = None,
        early: bool = True,
    ) -> None:
        """See `Store.complete` and `Store.fail`."""

    async def retry(
        self, key: str, step: str, undo: bool, request: RequestRef, of: int | None = None
    ) -> None:
        """See `Store.retry`."""


class ReportCompensator(Protocol):
    """Has unused reports compensated."""

    async def compensate(
        self, key: str, step: str, request: RequestRef, of: int | None = None
    ) -> None:
        """See `Store.compensate`."""


class Restarter(Protocol):
    """Restarts ended sagas."""

    async def restart(
        self, key: str, new_key: str, request: RequestRef, of: int | None = None
    ) -> bool:
        """See `Store.restart`."""


def report_command(
    step: str, kind: str, outcome: Outcome, early: bool, payloads: Payloads
) -> tuple[str, dict[str, Any]]:
    """Return the command that reports the outcome of a step, and its stored arguments."""
    arguments, value = step_arguments(step, kind, early), json.loads(outcome.value)
    if outcome.kind is OutcomeKind.SUCCEEDED:
        return "complete", arguments | {"result": payloads.encode_value(value)}
    return "fail", arguments | {"error": value["error"]}


def step_arguments(step: str, kind: str, early: bool) -> dict[str, Any]:
    """Return the arguments of a command about a step.

    `early` is included only if it is false.
    """
    arguments: dict[str, Any] = {"step": step, "kind": kind}
    return arguments if early else arguments | {"early": False}


class RequestExecutor:
    """Executes requests of the store, and replies in the commit that has their events."""

    def __init__(
        self,
        coordinator: Coordinator,
        executor: CommandExecutor,
        compensator: ReportCompensator,
        restarter: Restarter,
    ) -> None:
        self._coordinator, self._executor, self._compensator = coordinator, executor, compensator
        self._restarter = restarter
        self._loop = asyncio.get_running_loop()
        self._doing: dict[int, asyncio.Task[None]] = {}
        self._looking: asyncio.Task[None] | None = None
        self._again = False

    def stop(self) -> None:
        """Stop. The next program executes the requests without a reply."""
        for job in (*self._doing.values(), *([self._looking] if self._looking else [])):
            job.cancel()

    def look(self) -> None:
        """Read requests, because there may be some."""
        if self._looking is None or self._looking.done():
            self._looking = self._loop.create_task(self._look())
        else:
            self._again = True

    async def _look(self) -> None:
        while True:
            self._again = False
            after: int | None = -1
            while after is not None:
                try:
                    rows = await self._coordinator.store.requests(after, MAX_REQUESTS)
                except StoreUnavailable:
                    return
                for row in rows:
                    self._begin(row)
                after = rows[-1][0] if len(rows) == MAX_REQUESTS else None
                if len(self._doing) >= MAX_REQUESTS:  # reports may wait for a long time
                    await asyncio.wait(self._doing.values(), timeout=PAUSE)
            if not self._again:
                return

    def _begin(self, row: PendingRequest) -> None:
        if row[0] not in self._doing:
            job = self._doing[row[0]] = self._loop.create_task(self._do(*row))
            job.add_done_callback(functools.partial(self._done, row[0]))

    def _done(self, id: int, job: asyncio.Task[None]) -> None:
        self._doing.pop(id, None)
        if not job.cancelled() and job.exception():
            logger.error("request %d: %r", id, job.exception())

    async def _do(self, id: int, key: str, command: str, value: str | None, of: int | None) -> None:
        try:
            answer = await self._ask(id, key, command, json.loads(value or "null"), of)
        except (Closed, SagaMoved):  # the next program, or the node that has the saga, replies
            return
        except SagasError as error:
            answer = {"error": f"{type(error).__name__}: {error}"}
        except (TypeError, ValueError, KeyError, RecursionError) as error:
            answer = {"error": f"invalid request: {error}"}
        batch = Batch(-1, self._coordinator.clock())
        batch.rare_rows.answers.append((json.dumps(answer), id))
        self._coordinator.commits.put_alone(batch)

    async def _ask(self, id: int, key: str, command: str, arguments: Any, of: int | None) -> Any:
        if command == "abort":
            return await self._executor.abort(key, id, of)
        if command in ("complete", "fail"):
            error = str(arguments["error"]) if command == "fail" else None
            result = self._coordinator.registry.payloads.decode_value(arguments.get("result"))
            outcome = reported_outcome(result, error)
            undo, early = arguments.get("kind") == "undo", arguments.get("early") is not False
            await self._executor.report(key, arguments["step"], outcome, undo, id, of, early)
            return True
        if command == "retry":
            await self._executor.retry(
                key, arguments["step"], arguments.get("kind") == "undo", id, of
            )
            return True
        if command == "compensate":
            await self._compensator.compensate(key, arguments["step"], id, of)
            return True
        if command == "restart":
            await self._restarter.restart(key, arguments["new_key"], id, of)
            return True
        raise ValueError(command)
