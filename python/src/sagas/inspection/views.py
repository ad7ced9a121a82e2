"""The view of one saga: its parts, and the active attempts that its node reports."""

from __future__ import annotations

import dataclasses
from collections import deque
from collections.abc import Iterable, Sequence
from typing import Any, NamedTuple

from sagas.core.attention import AttentionReason
from sagas.core.history import AttemptEnd, EventLine, Stretch
from sagas.core.results import ActiveAttempt, HistoryEvent, Summary
from sagas.core.states import NEEDS_PROGRAM, known_state
from sagas.definition import tokens
from sagas.definition.erasure import Erasure
from sagas.definition.task_data import Progress
from sagas.engine.plan import Plan
from sagas.storage.filters import Scope

Json = dict[str, Any]


@dataclasses.dataclass(frozen=True, slots=True)
class Waits:
    """A suspended attempt.

    Attributes:
        step: The step; empty if the saga as a whole waits.
        why: `unknown`, `retry`, `exhausted`, `cannot_decode`, `program_error`, `approval`, `wait`,
            `child`, `external` (a worker has it), or `no_node` (no node executes the saga). A
            service adds reasons that only its memory has (`sagas.ActiveAttempt`).
        count: How often it failed or had an unknown outcome since an operator last retried it.
        until: When the wait ends, in seconds of wall time, or None.
        detail: The last error, or the worker's name.
    """

    id: int
    key: str
    saga: str
    step: str
    undo: bool
    attempt: int
    why: str
    count: int
    since: float
    until: float | None
    detail: str | None

    @property
    def asks(self) -> bool:
        """Return whether an operator must decide or report something."""
        is_parked = self.why == AttentionReason.UNKNOWN and self.until is None
        return is_parked or self.why in ("approval", "exhausted", *NEEDS_PROGRAM)


@dataclasses.dataclass(frozen=True, slots=True)
class Note:
    """An operator's command to a saga.

    Attributes:
        what: The command.
        arguments: Its arguments, with `by` and `note`.
        answer: The answer, or None.
    """

    key: str
    what: str
    at: float
    arguments: Json
    answer: Any

    @property
    def event(self) -> HistoryEvent:
        """Return the command as an event of the saga's history."""
        value = {"what": self.what, **self.arguments, "answer": self.answer}
        return HistoryEvent("note", self.at, self.arguments.get("step"), value)


@dataclasses.dataclass(frozen=True, slots=True)
class Relative:
    """A parent or a child of a saga.

    `step` is the part of the child's key after the parent's key. It begins with the step's
    name. `children` is the number of sagas that this one started.
    """

    key: str
    saga: str
    phase: str
    step: str
    children: int = 0


END_CALLS = {
    "due": "due",
    "blocked": "not started",
    "running": "running",
    "person": "waits for a person",
    "done": "called",
}
"""The states of the call of an `on_end` function, for people."""


@dataclasses.dataclass(frozen=True, slots=True)
class EndCall:
    """The call of an `on_end` function after the end of a saga.

    Attributes:
        state: `due`: it is about to start; `blocked`: no program could start it; `running`;
            `person`: it waits for a person, or has failed; `done`.
        key: The key of the saga that calls the function, or None if it is not started.
        detail: Why no program could start it, or None.
    """

    state: str
    key: str | None = None
    detail: str | None = None

    @property
    def text(self) -> str:
        """The call for people."""
        detail = f": {self.detail}" if self.detail else ""
        key = f" ({self.key})" if self.key else ""
        return f"{END_CALLS[self.state]}{detail}{key}"


@dataclasses.dataclass(frozen=True, slots=True)
class RestartLink:
    """The other one of a saga and its restart. `phase` is None if it was deleted."""

    key: str
    saga: str
    phase: str | None


@dataclasses.dataclass(frozen=True, slots=True)
class StepView:
    """A step in its current state.

    Attributes:
        attempts: How often its action was started.
        detail: Its last result or error.
        raised: The last error, if it or its compensation failed, or as of `SagaResult.errors`.
        progress: The progress that its function last reported, if it is running.
        early: `complete` or `fail` if this was reported before the step began.
        state_of_failed: If it has an optional failure, its state as the engine has it; else None.
    """

    name: str
    needs: list[str]
    state: str
    attempts: int
    detail: Any
    began: float | None
    ended: float | None
    raised: str | None = None
    progress: Progress | None = None
    early: str | None = None
    state_of_failed: str | None = None

    @property
    def engine_state(self) -> str:
        """Return its state as the engine has it."""
        return self.state_of_failed or self.state

    @property
    def is_optional_failure(self) -> bool:
        """Whether it has failed, and the saga continues without it."""
        return self.state_of_failed is not None


class Noted(NamedTuple):
    """Recorded times of attempts: `spans` of those that were not simply called, `elsewhere` of
    those that workers executed, and `owners`: the nodes that had the shard, each with the time.
    """

    spans: Sequence[tuple[Any, ...]] = ()
    elsewhere: Sequence[tuple[Any, ...]] = ()
    owners: Sequence[tuple[str, float]] = ()


class Relatives(NamedTuple):
    """The other sagas that belong to a saga.

    Attributes:
        parent: The saga that started it.
        children: The sagas that it started.
        restart_of: The saga that it restarts.
        restarts: The sagas that restart it.
    """

    parent: Relative | None = None
    children: Sequence[Relative] = ()
    restart_of: RestartLink | None = None
    restarts: Sequence[RestartLink] = ()


@dataclasses.dataclass(frozen=True, slots=True)
class SagaView:
    """All of a saga, at one moment.

    Attributes:
        plan: The last plan that it adopted.
        token: Derived from its shard's name and its number in that shard.
        end: Its stored outcome.
        relatives: The sagas that belong to it.
        running: Steps, and whether their compensations, that are known to run now. The store alone
            does not know it.
        noted: Recorded times, for `inspection.timeline`.
        shape: Its stored shape, if its steps depend on its input.
        unused: The steps with a reported success that the saga did not use.
        end_call: The call of its `on_end` function, or None if there is none.
        erased: When its data was erased, and by whom, or None.
    """

    summary: Summary
    aborted: bool
    input: Any
    end: Json | None
    results: Json
    steps: list[StepView]
    plan: Plan | None
    held: list[Waits]
    events: list[HistoryEvent]
    lines: list[EventLine]
    stretches: list[Stretch]
    attempts: list[AttemptEnd]
    notes: list[Note]
    definition: str
    token: str
    running: frozenset[tuple[str, bool]] = frozenset()
    noted: Noted = Noted()
    relatives: Relatives = Relatives()
    shape: str | None = None
    unused: list[str] = dataclasses.field(default_factory=list)
    end_call: EndCall | None = None
    erased: Erasure | None = None

    @property
    def id(self) -> int:
        return self.summary.id

    @property
    def key(self) -> str:
        return self.summary.key

    @property
    def saga(self) -> str:
        return self.summary.saga

    @property
    def parent(self) -> Relative | None:
        """As of `Relatives`."""
        return self.relatives.parent

    @property
    def children(self) -> Sequence[Relative]:
        """As of `Relatives`."""
        return self.relatives.children

    @property
    def restart_of(self) -> RestartLink | None:
        """As of `Relatives`."""
        return self.relatives.restart_of

    @property
    def restarts(self) -> Sequence[RestartLink]:
        """As of `Relatives`."""
        return self.relatives.restarts

    @property
    def phase(self) -> str:
        """Return open, completed, recovered, stuck or resolved."""
        return self.summary.phase

    @property
    def started(self) -> float:
        return self.summary.started

    @property
    def ended(self) -> float | None:
        return self.summary.ended

    @property
    def note(self) -> str | None:
        return self.summary.note

    @property
    def history(self) -> list[HistoryEvent]:
        """Return the events in the order of the log, with operator commands in between."""
        result, notes = list[HistoryEvent](), deque(self.notes)
        for event in self.events:
            while notes and notes[0].at < event.at:
                result.append(notes.popleft().event)
            result.append(event)
        return result + [note.event for note in notes]

    @property
    def resolution(self) -> Note | None:
        """Return the command that resolved it, or None."""
        return next((note for note in self.notes if note.what == "resolve"), None)

    def idempotency_key(self, step: str, undo: bool) -> str:
        """Return the key that a step's action, or its compensation, passes to other services."""
        return tokens.idempotency_key(self.token, step, "undo" if undo else "run")


BEGUN = ("running", "undoing")
"""The states of a step that has an active attempt."""


def with_active_attempts(view: SagaView, active: Iterable[ActiveAttempt], now: float) -> SagaView:
    """Return a saga's view with the active attempts that its node reports.

    A worker whose lease has expired no longer has the task.
    """
    begun = {(entry.step, entry.undo): entry for entry in view.stretches if entry.ended is None}
    waiting: dict[tuple[str, bool], Waits] = {
        (entry.step, entry.undo): entry
        for entry in view.held
        if entry.why != "external" or (entry.until or 0.0) > now
    }
    gone: dict[tuple[str, bool], Waits] = {
        (entry.step, entry.undo): entry
        for entry in view.held
        if (entry.step, entry.undo) not in waiting
    }
    running = {at for at, entry in waiting.items() if entry.why == "external"}
    for entry in active:
        at = entry.step, entry.undo
        stretch = begun.get(at)
        if stretch is None or stretch.attempt != entry.attempt:  # it has changed since
            continue
        if not entry.waits:
            running.add(at)
            waiting.pop(at, None)  # its previous wait
        elif (
            at in waiting
            and waiting[at].why == "external"
            and entry.waits in ("external", "worker", "paused")
        ):
            pass  # another node offered it
        elif entry.waits != "external" and (at not in waiting or waiting[at].why != entry.waits):
            waiting[at] = _waits_without_row(view, entry, stretch.began, gone.pop(at, None))
    for at, lease in gone.items():
        waiting[at] = dataclasses.replace(lease, why="worker", until=None, detail=_lease_of(lease))
    held = sorted(waiting.values(), key=lambda entry: float(entry.since))
    return dataclasses.replace(view, held=held, running=frozenset(running))


def _waits_without_row(
    view: SagaView, attempt: ActiveAttempt, since: float, lease: Waits | None
) -> Waits:
    """Return a waiting attempt for which the store has no row, or only an expired lease."""
    detail, count = (_lease_of(lease), lease.count) if lease else (attempt.paused, 0)
    return Waits(
        view.id,
        view.key,
        view.saga,
        attempt.step,
        attempt.undo,
        attempt.attempt,
        attempt.waits,
        count,
        since,
        attempt.until,
        detail,
    )


def _lease_of(held: Waits) -> str:
    return f"the lease of {held.detail} expired"


def state_of(view: SagaView, step: StepView) -> str:
    """Return a step's state: `running` if its attempt is known to run, else `begun`."""
    return step.state if (step.name, False) in view.running else known_state(step.state)


def seen_by(view: SagaView, scope: Scope) -> SagaView:
    """Return a saga's view with only the relatives and restarts that are in a scope."""
    children = [child for child in view.children if scope.has_saga(child.saga, child.key)]
    restarts = [link for link in view.restarts if scope.has_saga(link.saga, link.key)]
    parent, old = view.parent, view.restart_of
    if parent and not scope.has_saga(parent.saga, parent.key):
        parent = None
    if old and not scope.has_saga(old.saga, old.key):
        old = None
    return dataclasses.replace(view, relatives=Relatives(parent, children, old, restarts))
