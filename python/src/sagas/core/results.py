"""What callers read of sagas besides their results: summaries, counts, attempts and events."""

from __future__ import annotations

import dataclasses
from typing import Any


@dataclasses.dataclass(frozen=True, slots=True)
class Summary:
    """Describe a saga in a list. `list(after=...)` takes it for the next page.

    Attributes:
        id: Its number in the store.
        key: The saga's key.
        saga: The saga's name.
        phase: `open`, `completed`, `recovered`, `stuck` or `resolved`.
        started: Wall time, in seconds since 1970.
        ended: Wall time, in seconds since 1970, or None.
        note: What the person wrote who resolved it, or None.
        undo_failed: Whether it ended by a plan, and a compensation failed permanently.
        labels: Its labels.
        deadline: When it is aborted if it has not ended: wall time, in seconds since 1970, or None.
        version: The version of its definition, or None if a damaged shard has lost the definition.
        database: The database that has it, if the store has several; else None.
    """

    id: int
    key: str
    saga: str
    phase: str
    started: float
    ended: float | None
    note: str | None
    undo_failed: bool = False
    labels: dict[str, str] = dataclasses.field(default_factory=dict)
    deadline: float | None = None
    version: int | None = None
    database: str | None = None


@dataclasses.dataclass(frozen=True, slots=True)
class DefinitionCount:
    """Count the sagas of a definition in a store.

    Attributes:
        saga: The definition's name.
        version: The definition's version.
        open: How many of its sagas are open.
        total: How many of its sagas the store has.
        undoable: How many have completed as children, and may be undone, because a saga above them
            is open. If none is open or undoable, programs can do without the version.
    """

    saga: str
    version: int
    open: int
    total: int
    undoable: int = 0


@dataclasses.dataclass(frozen=True, slots=True)
class ActiveAttempt:
    """Describe an attempt that has started, in the program that executes its saga.

    Attributes:
        step: The step's name.
        undo: Whether it is the step's compensation.
        attempt: The attempt's number, from 1.
        waits: For what it waits; empty while its function runs. `concurrency`, `fleet_concurrency`
            or `rate_limit` of its step; `slot` (of the store's `concurrency`); `backoff`; `worker`
            (no worker has it yet); `external` (a worker has it); `ordered` (it is in its Celery
            queue, or a worker has it); `wait` (for its time); `approval`; `unknown`; `child` (for
            the end of its child saga); `paused` (until an operator resumes it).
        until: When that ends, in seconds since 1970, or None.
        progress: The fraction that its function reported last (`Task.progress`), or None.
        detail: The text that it reported with it, or None.
        paused: If it is paused: the note of the pause, and who set it; else None.
    """

    step: str
    undo: bool
    attempt: int
    waits: str
    until: float | None
    progress: float | None = None
    detail: str | None = None
    paused: str | None = None


@dataclasses.dataclass(frozen=True, slots=True)
class HistoryEvent:
    """Describe an event of a saga's log.

    Attributes:
        event: The event's word, as in the file format of logs.
        at: When it was committed, in seconds since 1970.
        step: The step's name, or None.
        value: The result, or `{"error": ...}`; of `adopt`, the plan.
    """

    event: str
    at: float
    step: str | None
    value: Any
