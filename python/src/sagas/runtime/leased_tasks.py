"""Tasks of external steps as workers get them, and the queues of these tasks."""

from __future__ import annotations

import dataclasses
from typing import Any

from sagas.base.errors import Fail, NoSuchTask
from sagas.core import outcomes
from sagas.core.outcomes import Outcome
from sagas.definition import serialization
from sagas.definition.compiled import CompiledDefinition
from sagas.definition.layout import ShapeValues
from sagas.definition.registry import DefinitionRegistry
from sagas.definition.task import Task
from sagas.definition.task_data import TaskSnapshot
from sagas.storage.external import Claim, SagaTexts
from sagas.storage.interface import Database

Word = tuple[str, str, str]
"""The name of a saga, the name of a step, and `run` or `undo`."""


@dataclasses.dataclass(frozen=True, slots=True)
class LeasedTask:
    """Hold a task that a worker has claimed.

    Attributes:
        attempt_id: The id of the attempt, under which it is reported.
        lease: The lease under which it is reported.
        until: When the lease ends, in seconds since 1970.
        task: What the step's function is called with.
        given: `task.given` as JSON.
    """

    attempt_id: str
    lease: str
    until: float
    task: Task[Any]
    given: str = "null"

    @property
    def size(self) -> int:
        """Number of characters of its values, as JSON."""
        texts = self.task._portable
        own_texts = (self.given, texts["input"], texts["result"] or "")
        return sum(map(len, own_texts)) + sum(map(len, texts["results"].values()))


@dataclasses.dataclass(frozen=True, slots=True)
class Heartbeat:
    """Answer a worker's heartbeat.

    Attributes:
        until: When the lease ends, in seconds since 1970.
        cancelled: Why the saga is being undone, as `task.cancelled.reason` says it: `aborted` or
            `failed`; None while it is not.
    """

    until: float
    cancelled: str | None


@dataclasses.dataclass(frozen=True, slots=True)
class Queue:
    """Count the tasks of one step that are for workers.

    Attributes:
        saga: The saga's name.
        step: The step's name.
        undo: Whether the step's compensation is meant.
        ready: How many tasks no worker has.
        oldest: Since when the oldest of them waits, in seconds since 1970, or None.
        claimed: How many tasks workers have.
    """

    saga: str
    step: str
    undo: bool
    ready: int
    oldest: float | None
    claimed: int


class DeclarationMissing(LookupError):
    """This program does not have the function that `given=` names."""


def given_text(task: Task[Any]) -> str:
    """Return `task.given` as JSON. It is computed at each claim.

    Raises:
        DeclarationMissing: The program does not have this version of the saga.
        Exception: What the function raises.
    """
    if task.lacks_given:
        raise DeclarationMissing(
            f"step {task.step!r} of saga {task.saga!r} cannot be claimed here, because this "
            "program does not have the version that the saga was started with. Claim it at a node "
            "that has the version"
        )
    return serialization.write_value(task.given, "what given= returned")


def given_failure(error: Exception) -> Outcome:
    """Return the outcome of an attempt whose `given=` function raised."""
    message = f"given= raised {outcomes.describe_error(error)}"
    return outcomes.failure(message, final=isinstance(error, Fail))


async def stored_task(
    store: Database, registry: DefinitionRegistry, claim: Claim
) -> tuple[CompiledDefinition, Task[Any]]:
    """Return definition and task of an attempt that another node executes."""
    undo, texts = claim.action == "undo", await store.external.texts(claim.id)
    if texts is None:
        raise NoSuchTask(f"the saga of the attempt {claim.attempt!r} was deleted")
    if store.blobs is not None:
        (fields,) = await store.blobs.rows([texts[:-1]])
        texts = SagaTexts._make((*fields, await store.blobs.rows(texts.results)))
    key, deadline, traceparent, shape = texts.key, texts.deadline, texts.traceparent, texts.shape
    kind: CompiledDefinition = registry.kind(texts.definition)
    decode, text = kind.payloads.decode, kind.payloads.decode(texts.input)
    results: dict[int, str] = {step: decode(value or "null") for step, value in texts.results}
    token, _, number = claim.attempt.rpartition("-")
    name = kind.names[claim.step]
    values = ShapeValues() if shape is None else ShapeValues.read(decode(shape))
    location = kind.location(name, values, text)
    hint = kind.actions[claim.action][claim.step].hint
    data = TaskSnapshot(
        kind.name,
        key,
        name,
        undo,
        int(number),
        token.removesuffix(f"-{name}-{claim.action}"),
        location.input if location else text,
        {kind.names[step]: results.get(step) or "null" for step in kind.below[claim.step]},
        results.get(claim.step) if undo else None,
        hint,
        kind.decoders,
        deadline,
        kind.actions[claim.action][claim.step].context,
        traceparent=traceparent,
        location=location,
    )
    return kind, Task(data)
