"""Starts child sagas, waits until they end, and aborts them with their parents."""

from __future__ import annotations

import asyncio
from collections.abc import Iterator, Mapping
from typing import TYPE_CHECKING, Any, NamedTuple, Protocol

from sagas.base.errors import (
    CannotDecode,
    Closed,
    Fail,
    InvalidResult,
    KeyConflict,
    MissingStep,
    NoSuchSaga,
    ProgramError,
    Retry,
    SagaMoved,
    SagasError,
    TemporaryError,
    Unknown,
)
from sagas.base.logger import logger
from sagas.core import outcomes
from sagas.core.attempt import child_attempts
from sagas.core.attempt.model import Attempt, SUSPENDED
from sagas.core.outcomes import SUCCEEDED, Outcome
from sagas.definition.saga_result import SagaResult
from sagas.core.states import Suspension
from sagas.definition import child_sagas as child_keys, tokens
from sagas.definition.arguments import BELOW
from sagas.definition.capacity import SHARD_CAPACITY
from sagas.definition.compiled import CompiledDefinition
from sagas.definition.parts import SagaParts
from sagas.definition.start_options import StartOptions, deadline_at
from sagas.runtime import stored_values
from sagas.runtime.stored_values import ValueReader
from sagas.storage import queries

if TYPE_CHECKING:
    from sagas.runtime.coordinator import Coordinator
    from sagas.runtime.executor import Executor

RETRY_DELAY = 1.0
"""Seconds until a failed operation of the store is tried again."""
STUCK_POLL = 5.0
"""Seconds between checks of a stuck child, which another node may have resolved."""
PARENTS = "SELECT s.id, c.parent, s.key FROM sagas s LEFT JOIN children c ON c.id = s.id"
PARENT = f"{PARENTS} WHERE s.key = ?"
CHILD = f"{PARENTS} WHERE s.key IN (?, ?)"
NAME = "SELECT name FROM shards WHERE shard = ?"


class ChildEnd(NamedTuple):
    """How a child ended, and what the store has of it.

    That is its id, its definition, its input and the results of its steps. The input is as it is
    stored, and may be a reference to a blob.
    """

    end: SagaResult
    id: int
    kind: CompiledDefinition
    text: str
    results: Mapping[int, str]


class SagaOperations(Protocol):
    """Starts, finds and aborts sagas by their keys, on any node."""

    async def start(
        self, saga: SagaParts | CompiledDefinition, key: str, input: Any, options: StartOptions
    ) -> bool:
        """Start a saga; return False if the key is used.

        A store that accepts no new sagas starts it too.
        """

    async def end(self, key: str) -> ChildEnd:
        """Wait until a saga has ended."""

    async def abort(self, key: str, by: str) -> None:
        """Abort a saga, unless it has ended."""

    async def is_dropped(self, key: str, id: int, step: int) -> bool:
        """Return whether a plan would undo a step if all running attempts succeed."""


class Children:
    """The attempts of this program that wait for child sagas.

    All operations are idempotent, also across programs. The key of a child identifies one saga, and
    the store records which attempt started it. A missing child is started even if its parent is
    aborted, and is then aborted. Otherwise, an earlier or slower program could start the child
    after the parent has ended.
    """

    def __init__(self, coordinator: Coordinator, executor: Executor, values: ValueReader) -> None:
        self._coordinator, self._executor, self._values = coordinator, executor, values
        self.operations: SagaOperations | None = None
        self._jobs: dict[Attempt, asyncio.Task[None]] = {}
        self._aborts: dict[Attempt, asyncio.Task[None]] = {}
        self._drops: dict[Attempt, asyncio.Task[None]] = {}
        self._stored_keys: dict[Attempt, str] = {}  # keys of children that exist in the store
        self._changed, self._is_open = asyncio.Event(), asyncio.Event()

    def open(self) -> None:
        """Allow lookups: all shards of this program are loaded."""
        self._is_open.set()

    # -- calls by the executor

    def follow(self, attempt: Attempt) -> None:
        """Start the child of an attempt, and report the attempt when the child ends.

        If the saga of the attempt is aborted, the child is aborted too.
        """
        if attempt not in self._jobs:
            self._jobs[attempt] = self._coordinator.spawn(self._follow(attempt))
        self._abort_if_due(attempt)

    def gone(self, attempt: Attempt) -> None:
        """Stop following the child of an attempt that is reported, or no longer here."""
        self._stored_keys.pop(attempt, None)
        for jobs in (self._jobs, self._aborts, self._drops):
            job = jobs.pop(attempt, None)
            if job is not None and job is not asyncio.current_task():
                job.cancel()

    def look(self) -> None:
        """Check stuck children again, which may have been resolved."""
        self._changed.set()

    # -- start and wait

    async def _follow(self, attempt: Attempt) -> None:
        await self._is_open.wait()
        while True:
            try:
                outcome = await self._outcome(attempt)
                break
            except Closed:
                return
            except (CannotDecode, MissingStep) as error:
                outcome = outcomes.parked(str(error))
                break
            except (TemporaryError, SagaMoved, NoSuchSaga) as error:
                logger.info("retrying the child of %r: %s", attempt.key, error)
                await asyncio.sleep(RETRY_DELAY)
            except Exception as error:  # otherwise the attempt would never be reported
                logger.error("retrying the child of %r after an error", attempt.key, exc_info=error)
                await asyncio.sleep(RETRY_DELAY)
        self.gone(attempt)
        is_here = attempt.instance.busy.get(attempt.action_key) is attempt
        if is_here and attempt.state is SUSPENDED and attempt.reason is Suspension.CHILD:
            self._executor.ended(attempt, outcome)

    async def _outcome(self, attempt: Attempt) -> Outcome:
        """Start the child if it does not exist, and return the outcome of the attempt."""
        try:
            key_or_outcome = await self._begun(attempt)
        except (TemporaryError, SagaMoved, NoSuchSaga):
            raise
        except (CannotDecode, MissingStep):
            raise
        except SagasError as error:
            return outcomes.failure(f"{type(error).__name__}: {error}", final=True)
        if isinstance(key_or_outcome, Outcome):
            return key_or_outcome
        self._stored_keys[attempt] = key_or_outcome
        self._abort_if_due(attempt)
        while True:
            self._changed.clear()
            ended = await self._operations.end(key_or_outcome)
            outcome = child_attempts.child_outcome(ended.end, ended.kind, ended.results)
            if outcome is not None:
                if attempt.undo and outcome.kind is SUCCEEDED:
                    return Outcome(SUCCEEDED, "null")
                return outcome
            try:
                async with asyncio.timeout(STUCK_POLL):
                    await self._changed.wait()
            except TimeoutError:
                pass

    @property
    def _operations(self) -> SagaOperations:
        assert self.operations
        return self.operations

    async def _begun(self, attempt: Attempt) -> str | Outcome:
        """Start the child if needed; return its key, or an outcome without a child.

        Raises:
            KeyConflict: Another saga has the key.
            SagasError: The child cannot be started.
        """
        key = child_attempts.key_of(attempt)
        while (stored_key := await self._stored_key(attempt, key)) is None:
            await self._values.fill(attempt)
            try:
                saga, input = await self._new(attempt)
            except (Fail, Retry, Unknown, ProgramError) as error:  # of the step's function
                return outcomes.raised(error, attempt.manner)
            except SagasError:
                raise
            except Exception as error:
                return outcomes.raised(error, attempt.manner)
            finally:
                attempt.instance.release()
            if saga is None:
                return Outcome(SUCCEEDED, "null")  # no compensation has to be called
            if isinstance(saga, SagaParts) and child_attempts.has_no_items(saga, input):
                return Outcome(SUCCEEDED, "[]")
            if await self._operations.start(saga, key, input, await self._options(attempt, saga)):
                return key
        return stored_key

    async def _stored_key(self, attempt: Attempt, key: str) -> str | None:
        """Return the key of a stored child, or None. Raises `KeyConflict`.

        Children that an earlier release started have keys in another format.
        """
        earlier = f"{attempt.key}/{key[len(attempt.key) + len(BELOW) :]}"
        for id, parent, stored_key in await self._coordinator.store.read(CHILD, key, earlier):
            if parent == attempt.instance.id:
                return str(stored_key)
            if stored_key == key:
                raise KeyConflict(
                    f"key {key!r} belongs to saga {id}, which is not the child of saga "
                    f"{attempt.key!r}. Use other keys for sagas that are not children"
                )
        return None

    async def _new(self, attempt: Attempt) -> tuple[SagaParts | CompiledDefinition | None, Any]:
        """Return the definition and the input of the child to start.

        The definition is None if there is nothing to undo. A saga that undoes a child is made from
        the definition that the child ran with.

        Raises:
            MissingStep: This program has no function for a compensation.
        """
        undone = await self._child_to_undo(attempt)
        if undone is None:
            call = child_attempts.child_input(attempt)
            input = await self._coordinator.declared.call(attempt.instance.kind.name, call)
            return attempt.declared.child, input
        ended = await self._operations.end(undone)
        kind = self._coordinator.registry.undo_kind(ended.kind)
        if kind is None:
            return None, None
        text = await stored_values.input_of(self._coordinator.store, ended.id, ended.text)
        ((name,),) = await self._coordinator.store.read(NAME, ended.id // SHARD_CAPACITY)
        token = tokens.saga_token(name, ended.id % SHARD_CAPACITY)
        earlier = await self._earlier(attempt)
        before = [(await self._operations.end(earlier_key)).end.states for earlier_key in earlier]
        done = child_attempts.undone_steps(ended.end.states, before)
        return kind, child_attempts.undo_input(
            undone, token, ended.kind, text, ended.results, done, earlier
        )

    async def _child_to_undo(self, attempt: Attempt) -> str | None:
        """Return the key of the child that an attempt undoes; None if it starts one.

        Raises `InvalidResult` if the result of the step names no child. That can happen if an
        operator entered the result in an earlier release.
        """
        if not attempt.undo:
            return child_attempts.undone_key(attempt)
        key = child_attempts.child_key(attempt.task().result)
        if key is not None:
            is_child_key = child_keys.is_of_step(key, attempt.key, attempt.name) or BELOW not in key
            rows = await self._coordinator.store.read(PARENT, key) if is_child_key else ()
            if any(parent == attempt.instance.id for _, parent, _ in rows):
                return key
        raise InvalidResult(
            "the result of the step has no key of a child that it started, so there is no child to "
            "undo. Undo its effects by hand, and complete the compensation"
        )

    async def _earlier(self, attempt: Attempt) -> list[str]:
        """Return the keys of sagas that have undone a part of the same child, in order."""
        keys = []
        if child_keys.undoes_child(attempt.key):
            undone_child = attempt.task().input
            for before in undone_child.get("earlier", ()):
                number = 1
                while await self._is_known(key := child_keys.key_of(before, attempt.name, number)):
                    keys.append(key)
                    number += 1
        for number in range(1, child_attempts.number_of(attempt)):
            key = child_keys.key_of(attempt.key, attempt.name, number, attempt.undo)
            if (stored_key := await self._stored_key(attempt, key)) is not None:
                keys.append(stored_key)
        return keys

    async def _is_known(self, key: str) -> bool:
        """Return whether a saga has the key."""
        return bool(await self._coordinator.store.read(PARENT, key))

    async def _options(
        self, attempt: Attempt, saga: SagaParts | CompiledDefinition
    ) -> StartOptions:
        """Return labels, trace context and deadline of a child.

        Labels and trace context are those of the parent. The deadline is the earlier one of parent
        and child. A saga that undoes a child has no deadline.
        """
        parent, now = attempt.instance, self._coordinator.clock()
        rows = await self._coordinator.store.read(queries.LABELS_OF, parent.id)
        labels = queries.visible_labels(rows)
        deadline = None
        if isinstance(saga, SagaParts):
            times = parent.options.deadline, deadline_at(saga.deadline, now)
            deadline = min((at for at in times if at is not None), default=None)
        return StartOptions(labels, deadline, parent.id, traceparent=parent.options.traceparent)

    # -- abort

    def _abort_if_due(self, attempt: Attempt) -> None:
        """Abort the child with its saga, or if the next plan would undo the child."""
        undoes = attempt.undo or child_keys.undoes_child(attempt.key)
        if undoes or attempt not in self._stored_keys:
            return
        if not attempt.instance.may_cancel_work:
            return
        if attempt.instance.aborted and attempt not in self._aborts:
            self._aborts[attempt] = self._coordinator.spawn(self._abort(attempt))
        elif attempt not in self._drops:
            self._drops[attempt] = self._coordinator.spawn(self._abort_if_dropped(attempt))

    async def _abort(self, attempt: Attempt) -> None:
        key = self._stored_keys[attempt]
        while True:
            try:
                await self._operations.abort(key, f"the abort of saga {attempt.key}")
                return
            except Closed:
                return
            except (TemporaryError, SagaMoved, NoSuchSaga) as error:
                logger.info("retrying the abort of child %r: %s", key, error)
                await asyncio.sleep(RETRY_DELAY)

    async def _abort_if_dropped(self, attempt: Attempt) -> None:
        """Wait for the other attempts, then abort the child if a plan would undo it.

        The saga is planned only after its children have ended.
        """
        while True:
            try:
                await self._others_ended(attempt)
                if await self._operations.is_dropped(
                    attempt.key, attempt.instance.id, attempt.step
                ):
                    await self._abort(attempt)
                return
            except (Closed, NoSuchSaga, CannotDecode):
                return
            except (TemporaryError, SagaMoved) as error:
                logger.info("retrying the child of %r: %s", attempt.key, error)
                await asyncio.sleep(RETRY_DELAY)

    async def _others_ended(self, attempt: Attempt) -> None:
        """Wait until the other attempts of the saga have stored outcomes.

        Attempts that wait for children are not awaited.
        """
        while others := list(_others(attempt)):
            await self._executor.kept.wait(others[0])


def _others(attempt: Attempt) -> Iterator[Attempt]:
    """Yield the other attempts of the saga that have no stored outcome.

    Attempts that wait for children are left out.
    """
    instance = attempt.instance
    assert instance.shard
    for other in (*instance.busy.values(), *instance.shard.unstored_reports()):
        is_child = other.state is SUSPENDED and other.reason is Suspension.CHILD
        if other.instance is instance and not is_child:
            yield other
