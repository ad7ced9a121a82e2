"""Every set of states, its transitions and its words; attempts have `core.attempt.table`.

`FINISHED` is final. If a report is refused, or a commit is lost, recovery makes new attempts from
the rows of the store.

Some words of the proved program (docs/FORMATS.md) differ from those of the package:
`step_state` translates them.
"""

from __future__ import annotations

import enum
import json
import sys
from collections.abc import Mapping
from typing import TypeVar

S = TypeVar("S", bound=enum.Enum)
Table = Mapping[S, frozenset[S]]
"""The states that may follow each state."""


class IllegalTransition(RuntimeError):
    """A state was followed by one that its table does not allow: an error of this package."""


class Action(enum.StrEnum):
    """What an attempt does for its step."""

    RUN = "run"
    COMPENSATE = "undo"


class AttemptState(enum.Enum):
    """The state of an attempt in this program."""

    CLAIMED = "claimed"
    """The shard's event log has it as started; nothing is decided yet."""
    SUSPENDED = "suspended"
    """It takes no slot; its `Suspension` says what it waits for."""
    QUEUED = "queued"
    """It waits for a slot of the store's concurrency, or has one and waits for its limits."""
    RUNNING = "running"
    """Its function is called, or is about to be."""
    FINISHED = "finished"
    """Its outcome is known."""


class Suspension(enum.StrEnum):
    """Why an attempt is suspended; the text is stored."""

    BACKOFF = "backoff"
    UNKNOWN = "unknown"
    """The outcome of its last call is unknown."""
    RETRY = "retry"
    """It failed as the last attempt of its definition, and is called again."""
    EXHAUSTED = "exhausted"
    """It failed, its attempts are used up, and an operator decides."""
    CANNOT_DECODE = "cannot_decode"
    """This program cannot read what the store has for it."""
    PROGRAM_ERROR = "program_error"
    """Its function has a bug, so this program does not call it again by itself."""
    NO_DEFINITION = "no_definition"
    """This program does not have all functions of its saga."""
    TIMER = "wait"
    WAIT_OVER = "wait_over"
    """Its time has come, and it is called when that is stored: as `TIMER`, with the time 0."""
    APPROVAL = "approval"
    EXTERNAL = "external"
    """An external worker does it, or will."""
    CHILD = "child"
    """Another saga does it, or will."""
    STEP_LIMIT = "limit"
    FLEET_LIMIT = "fleet"
    PAUSED = "paused"
    """An operator has paused its step."""

    @classmethod
    def stored(cls, text: str, until: float | None) -> Suspension:
        """Return the reason of a stored row, from its text and its time."""
        reason = cls(text)
        return cls.WAIT_OVER if reason is cls.TIMER and until == 0 else reason

    @property
    def text(self) -> str:
        """The text that is stored and shown."""
        return Suspension.TIMER.value if self is Suspension.WAIT_OVER else self.value


class RowState(enum.Enum):
    """What the store has of an attempt's suspension."""

    ABSENT = "absent"
    """It has no row."""
    PENDING = "pending"
    """A row is being stored."""
    STORED = "stored"
    """It has a row, of this attempt or, for a wait, of an earlier one."""


AFTER_FAILURE = frozenset({Suspension.RETRY, Suspension.EXHAUSTED})
"""Suspensions of an attempt whose last call had no effect."""
COUNTS_FAILURES = AFTER_FAILURE | {Suspension.CHILD}
"""Suspensions whose row counts failures; others count unknown outcomes."""
UNCERTAIN = frozenset({Suspension.UNKNOWN, Suspension.PROGRAM_ERROR})
"""Suspensions of an attempt whose last call may have had its effect."""
RETRYABLE = AFTER_FAILURE | UNCERTAIN
"""Suspensions of an attempt that an operator may retry at once."""
NEEDS_PROGRAM = frozenset(
    {Suspension.CANNOT_DECODE, Suspension.PROGRAM_ERROR, Suspension.NO_DEFINITION}
)
"""Suspensions of an attempt that continues when the next program opens the store."""
PARKED = RETRYABLE | NEEDS_PROGRAM
"""Suspensions of an attempt that was called and will be called again."""


class EarlyReason(enum.StrEnum):
    """The kind of an early report; the text is stored as the reason of attempt 0."""

    RESULT = "early_result"
    ERROR = "early_error"
    UNDONE = "early_undone"
    """It succeeded, its saga ended without it, and another saga undoes its effect, if any."""


END_CALL = "end_call"
"""The reason of the row by which the `on_end` call of an ended saga is due. Its step is -1."""


class OutcomeKind(enum.StrEnum):
    """The kind of outcome of a call."""

    SUCCEEDED = "succeeded"
    FAILED = "failed"
    """It had no effect, and may be retried."""
    FAILED_PERMANENTLY = "failed_permanently"
    """It had no effect, and is not retried."""
    UNKNOWN = "unknown"
    """It may have had its effect."""
    CANNOT_DECODE = "cannot_decode"
    """It was not called: this program cannot read what the store has for it."""
    NO_DEFINITION = "no_definition"
    """It was not called: this program does not have all functions of its saga."""
    PROGRAM_ERROR = "program_error"
    """Its function has a bug: it may have had its effect, and this program cannot complete it."""
    ANSWERED = "answered"
    """The function of an approval decided it, so no operator is asked."""


PARKING = frozenset(
    {OutcomeKind.CANNOT_DECODE, OutcomeKind.PROGRAM_ERROR, OutcomeKind.NO_DEFINITION}
)
"""Outcomes after which an attempt waits for another program: the `NEEDS_PROGRAM` of the same name.
"""


class StepState(enum.StrEnum):
    """The state of a step of a saga."""

    WAITING = "waiting"
    RUNNING = "running"
    COMMITTED = "committed"
    VOID = "void"
    """It ended without an effect, as an optional step that failed: it costs nothing in a plan."""
    FAILED = "failed"
    COMPENSATING = "undoing"
    COMPENSATED = "undone"
    COMPENSATION_FAILED = "undo_failed"
    """Its compensation failed permanently: the step's effect remains."""


class SagaPhase(enum.StrEnum):
    """The phase of a saga, for its callers."""

    OPEN = "open"
    COMPLETED = "completed"
    """Each step is done."""
    RECOVERED = "recovered"
    """It ended by a plan."""
    STUCK = "stuck"
    """No plan is feasible: an operator has to resolve it."""
    RESOLVED = "resolved"
    """An operator has resolved it."""


class EnginePhase(enum.StrEnum):
    """The phase of a saga in the replies of the engine."""

    GOING = "going"
    DRAINING = "draining"
    """A step failed, or the saga was aborted: it is planned after its running attempts."""
    PLANNING = "planning"
    ENDED = "ended"
    STUCK = "stuck"

    @property
    def is_over(self) -> bool:
        """Whether nothing of the saga runs any more."""
        return self in (EnginePhase.ENDED, EnginePhase.STUCK)


class ShardState(enum.Enum):
    """The state of a shard in the program that owns it."""

    STALE = "stale"
    """This program's state of it differs from the store."""
    LOADING = "loading"
    """It is read from the store."""
    IDLE = "idle"
    """It has no engine process."""
    STARTING = "starting"
    """Its engine process is started."""
    ACTIVE = "active"
    CLOSED = "closed"


STEP_TRANSITIONS: Table[StepState] = {
    StepState.WAITING: frozenset({StepState.RUNNING}),
    # WAITING: it failed, and is retried
    StepState.RUNNING: frozenset(
        {StepState.COMMITTED, StepState.VOID, StepState.WAITING, StepState.FAILED}
    ),
    StepState.COMMITTED: frozenset({StepState.COMPENSATING}),
    StepState.VOID: frozenset({StepState.COMPENSATING}),
    # COMMITTED: the compensation failed, and is retried
    StepState.COMPENSATING: frozenset(
        {StepState.COMPENSATED, StepState.COMMITTED, StepState.COMPENSATION_FAILED}
    ),
    StepState.FAILED: frozenset(),
    StepState.COMPENSATED: frozenset(),
    StepState.COMPENSATION_FAILED: frozenset(),
}
SAGA_TRANSITIONS: Table[SagaPhase] = {
    SagaPhase.OPEN: frozenset({SagaPhase.COMPLETED, SagaPhase.RECOVERED, SagaPhase.STUCK}),
    SagaPhase.COMPLETED: frozenset(),
    SagaPhase.RECOVERED: frozenset({SagaPhase.RESOLVED}),
    SagaPhase.STUCK: frozenset({SagaPhase.RESOLVED}),
    SagaPhase.RESOLVED: frozenset({SagaPhase.RESOLVED}),
}
ENGINE_TRANSITIONS: Table[EnginePhase] = {
    EnginePhase.GOING: frozenset({EnginePhase.DRAINING, EnginePhase.ENDED}),
    EnginePhase.DRAINING: frozenset({EnginePhase.PLANNING}),
    # DRAINING: it was aborted in the meantime
    EnginePhase.PLANNING: frozenset(
        {EnginePhase.GOING, EnginePhase.DRAINING, EnginePhase.ENDED, EnginePhase.STUCK}
    ),
    EnginePhase.ENDED: frozenset(),
    EnginePhase.STUCK: frozenset(),
}
SHARD_TRANSITIONS: Table[ShardState] = {
    ShardState.STALE: frozenset({ShardState.LOADING, ShardState.CLOSED}),
    ShardState.LOADING: frozenset({ShardState.ACTIVE, ShardState.STALE, ShardState.CLOSED}),
    ShardState.IDLE: frozenset({ShardState.STARTING, ShardState.STALE, ShardState.CLOSED}),
    ShardState.STARTING: frozenset({ShardState.ACTIVE, ShardState.STALE, ShardState.CLOSED}),
    ShardState.ACTIVE: frozenset({ShardState.IDLE, ShardState.STALE, ShardState.CLOSED}),
    ShardState.CLOSED: frozenset({ShardState.CLOSED}),
}

VOID_EVENT = "void"
"""The engine's event for a step that ended without an effect."""
EVENT_STATES: Mapping[str, StepState] = {
    "start_run": StepState.RUNNING,
    "commit": StepState.COMMITTED,
    VOID_EVENT: StepState.VOID,
    "missed": StepState.WAITING,
    "fail": StepState.FAILED,
    "start_undo": StepState.COMPENSATING,
    "undone": StepState.COMPENSATED,
    "undo_missed": StepState.COMMITTED,
    "undo_fail": StepState.COMPENSATION_FAILED,
}
"""The state of a step after each of its events."""

WAITS_FOR: Mapping[str, str] = {
    Suspension.BACKOFF: "its next attempt",
    Suspension.UNKNOWN: "its next call, because its outcome is unknown",
    Suspension.RETRY: "its next attempt",
    Suspension.EXHAUSTED: "a person, because its attempts are used up",
    Suspension.CANNOT_DECODE: "a program that can read its stored values",
    Suspension.PROGRAM_ERROR: "a program without the error, or a retry",
    Suspension.NO_DEFINITION: "a node that has its definition",
    Suspension.TIMER: "its time",
    Suspension.APPROVAL: "an approval",
    Suspension.EXTERNAL: "an external worker",
    Suspension.CHILD: "the end of its child saga",
    Suspension.STEP_LIMIT: "a slot of its concurrency",
    Suspension.FLEET_LIMIT: "its fleet_concurrency or its rate_limit",
    Suspension.PAUSED: "the end of a pause",
    "concurrency": "a slot of its concurrency",
    "fleet_concurrency": "a slot of its fleet_concurrency",
    "rate_limit": "its rate_limit",
    "slot": "a slot of the program's concurrency",
    "worker": "an external worker",
    "ordered": "a worker of its queue",
}
"""For what an attempt waits, by its `Suspension` or by `ActiveAttempt.waits`."""


class Check:
    """Whether each transition is checked: in development mode and in this package's tests."""

    is_on = sys.flags.dev_mode


def check(table: Table[S], before: S, after: S) -> None:
    """Raise `IllegalTransition` if one state does not follow another."""
    if after not in table[before]:
        raise IllegalTransition(f"{type(before).__name__}: {before.name} -> {after.name}")


UNDO_FAILED = "fixed"
"""The proved program's word for `StepState.COMPENSATION_FAILED`."""


def step_state(text: str) -> StepState:
    """Return a step's state by the proved program's word for it."""
    return StepState.COMPENSATION_FAILED if text == UNDO_FAILED else StepState(text)


def program_word(state: StepState) -> str:
    """Return the proved program's word for a step's state."""
    return UNDO_FAILED if state is StepState.COMPENSATION_FAILED else state.value


def stored_event(event: str) -> str:
    """Return the event that the row of an attempt has: `commit` also for a void step.

    The value of that row says that the step failed.
    """
    return "commit" if event == VOID_EVENT else event


def undo_failures(end: str) -> list[int]:
    """Return the steps whose compensations failed permanently, from a saga's stored end."""
    states = json.loads(end)["states"] if UNDO_FAILED in end else ()
    return [step for step, text in enumerate(states) if text == UNDO_FAILED]


def known_state(state: str) -> str:
    """Return a step's state as the store alone shows it.

    The store does not show whether a started attempt is called or waits.
    """
    return "begun" if state == StepState.RUNNING else state


def saga_phase(phase: str | None, recovered: bool, note: str | None) -> SagaPhase:
    """Return a saga's phase from its stored columns.

    Args:
        phase: The proved program's word; None if the saga is open.
        recovered: Whether it ended by a plan.
        note: The note of the operator who resolved it, or None.
    """
    if phase is None:
        return SagaPhase.OPEN
    if note is not None:
        return SagaPhase.RESOLVED
    if phase == EnginePhase.STUCK:
        return SagaPhase.STUCK
    return SagaPhase.RECOVERED if recovered else SagaPhase.COMPLETED
