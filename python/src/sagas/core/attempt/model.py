"""`Attempt`: the state of an attempt of an open saga.

The runtime keeps the objects of its event loop (futures, timers, tasks) separately.
"""

from __future__ import annotations

import dataclasses
import enum
import json
from collections.abc import Callable, Sequence
from typing import TYPE_CHECKING, Any, Protocol

from sagas.base.errors import CannotDecode, ShardLost
from sagas.core.shard.batch import RequestRef, SpansRow
from sagas.core.outcomes import Outcome
from sagas.core.attempt.instance import SagaInstance
from sagas.core.attempt.table import (
    ATTEMPT_TRANSITIONS,
    WITHOUT_ROW,
    AttemptEvent,
    Condition,
    rule,
)
from sagas.core.spans import (
    CALLED_BEFORE,
    FLEET_CONCURRENCY_WORD,
    PERSON_WORD,
    QUEUED_WORD,
    RATE_LIMIT_WORD,
    RUNNING_WORD,
    Notes,
)
from sagas.core.states import Action, AttemptState, Check, RowState, Suspension, check
from sagas.definition.task_data import Context, Control
from sagas.definition import child_fan_outs, serialization, tokens
from sagas.definition.compiled import ActionKey
from sagas.definition.serialization import Decoder
from sagas.definition.payloads import ABSENT
from sagas.definition.step_location import StepLocation
from sagas.definition.task import Task
from sagas.definition.call_options import Manner
from sagas.definition.parts import SagaParts
from sagas.definition.step import Step
from sagas.definition.task_data import snapshot

if TYPE_CHECKING:
    from sagas.core.pauses import Pause

CLAIMED, SUSPENDED, QUEUED = AttemptState.CLAIMED, AttemptState.SUSPENDED, AttemptState.QUEUED
RUNNING, FINISHED = AttemptState.RUNNING, AttemptState.FINISHED
NO_ROW = RowState.ABSENT


@dataclasses.dataclass(slots=True)
class Lease:
    """The lease of an external worker, until a wall time.

    Each lease of a task has a greater number than the earlier ones.
    """

    number: int
    worker: str
    since: float
    until: float


@dataclasses.dataclass(frozen=True, slots=True)
class SuspensionRow:
    """A row to store. The attempt continues only after it is stored.

    Attributes:
        reason: Why the attempt is suspended.
        until: Until when; None if a caller reports it, or if its wait is over.
        error: The text of the error, if there is one.
        is_wait_over: Whether the time of its wait has come, for each reason.
    """

    reason: Suspension
    until: float | None = None
    error: str | None = None
    is_wait_over: bool = False

    @property
    def stored(self) -> tuple[str, float | None]:
        """The text and the time of the row. The time 0 says that a wait is over."""
        is_over = self.is_wait_over or self.reason is Suspension.WAIT_OVER
        return self.reason.text, 0.0 if is_over else self.until


class FunctionOption(enum.Enum):
    """The options of a definition that are functions of an attempt."""

    UNTIL = "until"
    LIMIT_KEY = "concurrency_by"
    TENANT = "fair_by"


@dataclasses.dataclass(frozen=True, slots=True)
class FunctionResult:
    """The value that such a function returned, or the error that it raised."""

    value: Any = None
    error: Exception | None = None

    def get(self) -> Any:
        """Return the value, or raise the error."""
        if self.error is not None:
            raise self.error
        return self.value


@dataclasses.dataclass(slots=True)
class AttemptExtras:
    """State of an attempt that waits, fails or is reported by hand."""

    count: int = 0
    """How often its outcome was unknown."""
    failures: int = 0
    """How often it failed and was called again, or will be."""
    pause: float = 0.0
    """Seconds until it is called again."""
    has_unknown_call: bool = False
    """Whether an earlier program may have called it again after its last stored failure."""
    gave_way: bool = False
    """Whether its wait for another saga was given up, so that others get its slot."""
    lease: Lease | None = None
    """The newest lease of an external worker that this program knows of."""
    offered: int | None = None
    """See `Attempt.offered`."""
    limit_key: str | None = None
    """The key by which the limits of its step count it, as JSON."""
    called_options: str = ""
    """The options whose functions are called now, for messages."""
    returned: dict[FunctionOption, FunctionResult] = dataclasses.field(default_factory=dict)
    """The results of these functions, until they are used."""
    control: Control | None = None
    """The cancellation and the progress of its function, created at the first use."""
    request: RequestRef = None
    """The operator's command that finished it."""
    pause_note: str | None = None
    """Why it is paused, and by whom."""
    is_held: bool = False
    """Whether the pause keeps it from its call."""
    notes: Notes = dataclasses.field(default_factory=Notes)
    """What it did, for its history."""


class StepRecord(Protocol):
    """The state of the transaction in which an attempt is called."""

    @property
    def done(self) -> bool:
        """Whether it was committed, with the attempt's result."""

    @property
    def again(self) -> bool:
        """Whether it was rolled back without an error of the function, which is called again."""

    def lost(self) -> ShardLost | None:
        """Return the exception to raise if it is unknown whether it was committed."""

    def judged(self, error: Any) -> Exception:
        """Return the exception to report for the function if the server refused a statement."""


class AcknowledgedAttempt:
    """What a program with a record has of an attempt. Without a record it is not set.

    Attributes:
        rest: What the acknowledgement of its start rests on. When its report is decided and a
            caller waits for it: what the acknowledgement of the report rests on.
    """

    __slots__ = ("rest",)
    rest: tuple[Any, int] | None


class Attempt(AcknowledgedAttempt):
    """One attempt of a step's action or compensation, which its shard's log has as started.

    Only its methods, `start_all` and `finish_all` write its state.

    Attributes:
        instance: Its saga.
        step: The index of its step.
        kind: `run` or `undo`.
        attempt: Its number, from 1.
        action: The step's compiled action, the same for all its attempts.
        state: Its state.
        reason: Why it is suspended, or was suspended last.
        until: When its suspension ends; None if only an event ends it, for example a report.
        waiting_since: When it started to wait, or its outcome became unknown; else 0.
        is_uncalled: Whether no program can have called it.
        outcome: Its outcome.
        finished_at: When it finished.
        call_seconds: Seconds that its last call took.
        event: The event of the engine that its report led to.
        row_state: What the store has of its suspension.
        pending_row: The row that is being stored.
        record: The state of the transaction in which it is called.
        is_recorded: Whether its transaction has stored its result.
        results: The results of the committed steps when it starts.
        extras: State that only some attempts have.
    """

    __slots__ = (
        "instance",
        "step",
        "kind",
        "attempt",
        "action",
        "state",
        "reason",
        "until",
        "waiting_since",
        "is_uncalled",
        "outcome",
        "finished_at",
        "call_seconds",
        "event",
        "row_state",
        "pending_row",
        "record",
        "is_recorded",
        "results",
        "extras",
    )

    def __init__(
        self, instance: SagaInstance, step: int, kind: str, attempt: int, is_uncalled: bool
    ) -> None:
        self.instance = instance
        self.step = step
        self.attempt = attempt
        self.is_uncalled = is_uncalled
        action = self.action = instance.kind.actions[kind][step]
        self.kind = action.kind
        self.state = CLAIMED
        self.reason: Suspension | None = None
        self.until: float | None = None
        self.outcome: Outcome | None = None
        self.finished_at = self.waiting_since = 0.0
        self.call_seconds: float | None = None
        self.event = ""
        self.row_state = NO_ROW
        self.pending_row: SuspensionRow | None = None
        self.record: StepRecord | None = None
        self.is_recorded = False
        self.results = instance.results
        self.extras: AttemptExtras | None = None

    # -- its state

    @property
    def condition(self) -> Condition:
        """What the table of transitions distinguishes of it."""
        state = self.state
        reason = self.reason if state is SUSPENDED or state is CLAIMED else None
        return Condition(state, reason, self.row_state is RowState.PENDING)

    def _set_state(self, state: AttemptState, event: AttemptEvent | None = None) -> None:
        if Check.is_on:
            if event is not None:
                rule(event, self.condition)
            check(ATTEMPT_TRANSITIONS, self.state, state)
        self.state = state

    def suspend(self, reason: Suspension, until: float | None = None) -> None:
        """Suspend it without a slot, until a time or until a caller reports it."""
        self._set_state(SUSPENDED)
        self.reason, self.until = reason, until

    def limit(self, reason: Suspension) -> None:
        """Suspend it until a limit allows its call."""
        self._set_state(SUSPENDED, AttemptEvent.LIMIT_REACHED)
        self.reason, self.until = reason, None

    def pause(self, pause: Pause) -> None:
        """Hold it until an operator resumes its step.

        An attempt that waits for its next call keeps its reason, because a caller may report it.
        """
        self.rare.pause_note, self.rare.is_held = pause.text, True
        if self.state is not SUSPENDED or self.reason in WITHOUT_ROW:
            self._set_state(SUSPENDED, AttemptEvent.PAUSED)
            self.reason, self.until = Suspension.PAUSED, None

    def end_pause(self) -> None:
        """Note that its step is resumed, before it continues."""
        if self.extras is not None:
            self.extras.pause_note, self.extras.is_held = None, False

    @property
    def is_held(self) -> bool:
        """Whether a pause keeps it from its call."""
        return self.extras is not None and self.extras.is_held

    @property
    def pause_note(self) -> str | None:
        """Why it is paused, and by whom; None if it is not."""
        return self.extras.pause_note if self.extras else None

    def queue(self) -> None:
        """Let it wait for a slot."""
        self._set_state(QUEUED, AttemptEvent.SLOT_REQUESTED)

    def start(self) -> None:
        """Call its function now, as far as is known."""
        self._set_state(RUNNING, AttemptEvent.CALLED)
        self.is_uncalled, self.call_seconds = False, None

    def claim(self) -> None:
        """Return it to `CLAIMED`: its call did nothing, or its shard is being recovered."""
        self._set_state(CLAIMED, AttemptEvent.CALL_UNDONE)

    def finish(self, outcome: Outcome, at: float) -> None:
        """Set its outcome: only its report is left."""
        self._set_state(FINISHED)
        self.outcome, self.finished_at = outcome, at

    def forget(self) -> None:
        """Finish an attempt that the store does not have: it has no outcome and no row."""
        if self.state is not FINISHED:
            self._set_state(FINISHED, AttemptEvent.FORGOTTEN)
        self.take_row()

    # -- its row

    def expect_row(self, row: SuspensionRow) -> None:
        """Note that a row is being stored."""
        self.row_state, self.pending_row = RowState.PENDING, row

    def take_row(self) -> SuspensionRow | None:
        """Return the row that was being stored, if any, and note that it is stored."""
        row, self.pending_row = self.pending_row, None
        if row is not None:
            self.row_state = RowState.STORED
        return row

    def keep_row(self) -> None:
        """Note that the store has a row, also if an earlier attempt stored it."""
        if self.row_state is NO_ROW:
            self.row_state = RowState.STORED

    def pause_guard(self) -> Callable[[], bool]:
        """Return a callable that says after a pause whether its state is unchanged.

        Its row may have been stored in the meantime.
        """
        before, row = (self.state, self.reason, self.until), self.pending_row

        def is_same() -> bool:
            is_there = self.instance.busy.get(self.action_key) is self
            is_row = self.pending_row is None or self.pending_row is row
            return is_there and is_row and (self.state, self.reason, self.until) == before

        return is_same

    @property
    def rare(self) -> AttemptExtras:
        """The extras, created at the first use, to write to."""
        if self.extras is None:
            self.extras = AttemptExtras()
        return self.extras

    @property
    def count(self) -> int:
        """How often its outcome was unknown."""
        return self.extras.count if self.extras else 0

    @property
    def failures(self) -> int:
        """How often it failed and was called again; below 0 after a retry by an operator."""
        return self.extras.failures if self.extras else 0

    @property
    def lease(self) -> Lease | None:
        """The newest lease of an external worker."""
        return self.extras.lease if self.extras else None

    @property
    def request(self) -> RequestRef:
        """The operator's command that finished it."""
        return self.extras.request if self.extras else None

    def take_returned(self, subject: FunctionOption) -> FunctionResult | None:
        """Remove and return the result of a function of its definition, which is used once."""
        return self.extras.returned.pop(subject, None) if self.extras else None

    @property
    def is_report_unstored(self) -> bool:
        """Whether its report may not be stored yet."""
        saga = self.instance
        is_reported = saga.shard is not None and self in saga.shard.unstored_reports()
        return is_reported or saga.busy.get(self.action_key) is self

    # -- notes for its history (`core.spans`)

    @property
    def fleet_limit_word(self) -> str:
        """Which limit over all nodes it waits for."""
        bounds = self.declared.bounds
        return FLEET_CONCURRENCY_WORD if bounds and bounds.concurrency else RATE_LIMIT_WORD

    def note(self, now: float, error: str | None = None) -> None:
        """Note what it does now, if that has changed."""
        word = QUEUED_WORD if self.state is QUEUED else RUNNING_WORD
        if self.state is SUSPENDED and self.reason is not None:
            needs_operator = self.reason is Suspension.UNKNOWN and self.until is None
            word = PERSON_WORD if needs_operator else self.reason.text
            if self.reason is Suspension.FLEET_LIMIT:
                word = self.fleet_limit_word
        self.rare.notes.add(word, now, error)

    def note_again(self, now: float) -> None:
        """Note what it does now, if it has notes already."""
        if self.extras is not None and self.extras.notes.last and self.state in (QUEUED, RUNNING):
            self.note(now)

    def note_earlier_call(self) -> None:
        """Note that an earlier program may have called it."""
        self.rare.notes.last = CALLED_BEFORE

    def take_notes(self) -> list[SpansRow]:
        """Return the row of the notes since the last row, if any."""
        if self.extras is None or not self.extras.notes.spans:
            return []
        spans = self.extras.notes.take(self.state is SUSPENDED, self.finished_at)
        return [(*self.row, spans[0][1], json.dumps(spans))] if spans else []

    # -- what it is

    @property
    def action_key(self) -> ActionKey:
        """The index of its step, and `run` or `undo`."""
        return self.action.word

    @property
    def name(self) -> str:
        return self.action.name

    @property
    def row(self) -> tuple[int, int, str, int]:
        """Its primary key in the store: saga id, step, action and number."""
        return self.instance.id, self.step, self.kind, self.attempt

    @property
    def declared_name(self) -> str:
        """The name with which its step was declared: `ship` of `ship-0`."""
        return self.instance.kind.declared_name(self.step)

    @property
    def index(self) -> int | str | None:
        """The number of its item, or the item's key in a dict; None if it has no item.

        If the stored items cannot be read, it is the number.
        """
        layout = self.instance.kind.layout
        if layout is None:
            return None
        spot = layout.origins[self.name]
        try:
            return self.instance.numbering.key(spot)
        except CannotDecode:
            return spot.number

    @property
    def limit_name(self) -> tuple[str, str]:
        """The saga and the step whose limits count it.

        The limits cover all items, and all sagas that include the step's saga. An attempt that
        undoes a step of a child counts with that step.
        """
        kind = self.instance.kind
        if kind.layout is None:
            child = kind.saga.undoes if kind.saga else None
            return child.name if child else kind.name, self.action.name
        return self.declared.saga.name, self.declared.name

    @property
    def missing_function(self) -> str | None:
        """Which function of its saga this program does not have; None if it has all."""
        extras = self.instance.extras
        return extras.missing_function if extras is not None else None

    @property
    def declared(self) -> Step[Any]:
        """Its step, as the program declares it today."""
        step = self.instance.kind.steps[self.step]
        assert step is not None  # sagas without it are parked
        return step

    @property
    def child(self) -> SagaParts | None:
        """The saga that its step starts; None if it starts none, or is not declared here."""
        step = self.instance.kind.steps[self.step]
        return None if step is None else step.child

    @property
    def manner(self) -> Manner:
        """The options with which its function is called."""
        return self.declared.manner(self.kind)

    @property
    def is_wait(self) -> bool:
        """Whether its function is called at a certain time."""
        step = self.instance.kind.steps[self.step]
        return step is not None and step.kind == "wait" and self.kind == Action.RUN

    @property
    def is_wait_over(self) -> bool:
        """Whether the time of its wait has come, for this attempt or an earlier one."""
        return self.is_wait and self.action_key in self.instance.rare.waits_over

    @property
    def is_child(self) -> bool:
        """Whether a child saga performs it."""
        step = self.instance.kind.steps[self.step]
        return step is not None and step.starts_child(self.kind)

    @property
    def is_remote(self) -> bool:
        """Whether its function is called by a worker of a queue."""
        return self.action.is_remote

    @property
    def is_external(self) -> bool:
        """Whether others perform it: workers of a queue or over HTTP, or an operator."""
        return self.action.is_external

    @property
    def offered(self) -> int | None:
        """The lease under which the commit that started it offered it.

        It is 0 if no worker has a lease yet, and None if that commit did not offer it.
        """
        return self.extras.offered if self.extras else None

    def idempotency_key(self) -> str:
        """Return the idempotency key of its effect, the same for all attempts."""
        return tokens.idempotency_key(self.saga_token, self.action.name, self.kind)

    def token(self) -> str:
        """Return the id of this attempt."""
        return tokens.attempt_id(self.idempotency_key(), self.attempt)

    # -- the values of its function's task (`task.About`)

    @property
    def saga(self) -> str:
        return self.instance.kind.name

    @property
    def key(self) -> str:
        return self.instance.key

    @property
    def undo(self) -> bool:
        return self.action.undo

    @property
    def saga_token(self) -> str:
        """The shard's name and the saga's number, as a token.

        It is cached when the store has the saga: a saga whose commit is refused is opened again in
        another shard.
        """
        instance = self.instance
        if instance.token is not None:
            return instance.token
        assert instance.shard
        token = tokens.saga_token(instance.shard.identity.name, instance.number)
        if instance.committed:
            instance.token = token
        return token

    @property
    def location(self) -> StepLocation | None:
        kind = self.instance.kind
        if kind.layout is None:
            return None
        text = kind.payloads.decode(self.instance.text)
        return kind.location(self.action.name, self.instance.shape, text)

    @property
    def input(self) -> str:
        location = self.location
        if location is not None:
            return location.input
        return self.instance.kind.payloads.decode(self.instance.text)

    @property
    def needed_results(self) -> dict[str, str]:
        decode = self.instance.kind.payloads.decode
        needed = self.action.needed_results
        return {name: decode(self.results.get(number, "null")) for number, name in needed}

    @property
    def deadline(self) -> float | None:
        return self.instance.options.deadline

    @property
    def traceparent(self) -> str | None:
        return self.instance.options.traceparent

    @property
    def own_result(self) -> str | None:
        text = self.results.get(self.step) if self.action.undo else None
        return None if text is None else self.instance.kind.payloads.decode(text)

    @property
    def hint(self) -> Decoder | None:
        return self.action.hint

    @property
    def decoders(self) -> dict[str, Decoder]:
        return self.instance.kind.decoders

    @property
    def context(self) -> Context:
        return self.action.context

    @property
    def control(self) -> Control:
        """The cancellation and the progress of its function.

        If it is called again in a draining saga, it is cancelled from its start.
        """
        extras = self.rare
        if extras.control is None:
            extras.control = Control()
            if self.instance.may_cancel_work and not self.undo:
                extras.control.cancelled.set(self.instance.drain_reason)
        return extras.control

    def lacks_values(self) -> bool:
        """Whether its function may read a value that is not held."""
        instance = self.instance
        if not instance.is_partial:
            return False
        needed = [self.results.get(number) for number, _ in self.action.needed_results]
        if self.action.undo:
            needed.append(self.results.get(self.step))
        return ABSENT in (instance.text, instance.options.shape, *needed)

    def task(self) -> Task[Any]:
        """Return its task with the current values, to use outside of this attempt."""
        return Task(snapshot(self))


def start_all(attempts: Sequence[Attempt]) -> None:
    """Start many attempts, as `Attempt.start`."""
    if Check.is_on:
        for attempt in attempts:
            rule(AttemptEvent.CALLED, attempt.condition)
    for attempt in attempts:
        attempt.state, attempt.is_uncalled, attempt.call_seconds = RUNNING, False, None


def finish_all(attempts: Sequence[Attempt], at: float) -> list[Attempt]:
    """Finish and return the attempts that still run, whose outcomes are set."""
    finished = [attempt for attempt in attempts if attempt.state is RUNNING]
    for attempt in finished:
        attempt.state, attempt.finished_at = FINISHED, at
    return finished


def has_nothing_to_undo(attempt: Attempt) -> bool:
    """Whether an attempt is a compensation without an effect to undo.

    Its step has an optional failure, was completed without a child, or, in a saga that undoes a
    child, is undone already.
    """
    if not attempt.undo:
        return _undoes_child(attempt) and attempt.name in _undone_before(attempt)
    if undoes_failure(attempt):
        return True
    if attempt.child is None:
        return False
    try:
        stored_result = attempt.own_result
    except CannotDecode:  # the attempt is suspended for that when its values are read
        return False
    return stored_result is not None and _has_no_child(serialization.read(stored_result))


def undoes_failure(attempt: Attempt) -> bool:
    """Whether an attempt is a compensation of a step that has an optional failure."""
    result = attempt.results.get(attempt.step, "") if attempt.undo else ""
    return result.startswith(serialization.FAILED_HEAD)


def needs_stored_value(attempt: Attempt) -> bool:
    """Whether `has_nothing_to_undo` needs a value that is not held."""
    if not attempt.undo:
        return _undoes_child(attempt) and attempt.instance.text == ABSENT
    kind, step = attempt.instance.kind, attempt.step
    may_be = step in kind.optional or step in kind.collected or attempt.child is not None
    return may_be and attempt.results.get(step) == ABSENT


def _undoes_child(attempt: Attempt) -> bool:
    """Whether its saga undoes a child."""
    saga = attempt.instance.kind.saga
    return saga is not None and saga.undoes is not None


def _undone_before(attempt: Attempt) -> Sequence[str]:
    """Return the steps of the child that are undone already, from the input of its saga."""
    instance = attempt.instance
    try:
        saga_input = serialization.read(instance.kind.payloads.decode(instance.text))
    except CannotDecode:  # the attempt is suspended for that when its values are read
        return ()
    undone: Sequence[str] = saga_input.get("undone", ()) if isinstance(saga_input, dict) else ()
    return undone


def _has_no_child(result: Any) -> bool:
    """Whether a step that starts a child was completed without one: there is nothing to undo.

    So it is for a list of children in which none has completed.
    """
    if isinstance(result, list):
        return child_fan_outs.made_key(result) is None
    return isinstance(result, dict) and result.get("key", "") is None
