"""The transition table of attempts: the rule for each event in each condition.

`AttemptMachine` looks up the rule, and has the handler that the rule names. A pair of an event and
a condition that has no rule is illegal.
"""

from __future__ import annotations

import dataclasses
import enum
from collections.abc import Iterable, Mapping, Sequence
from typing import NamedTuple

from sagas.core.states import (
    NEEDS_PROGRAM,
    PARKED,
    RETRYABLE,
    UNCERTAIN,
    AttemptState,
    IllegalTransition,
    OutcomeKind,
    Suspension,
    Table,
)

CLAIMED, SUSPENDED, QUEUED = AttemptState.CLAIMED, AttemptState.SUSPENDED, AttemptState.QUEUED
RUNNING, FINISHED = AttemptState.RUNNING, AttemptState.FINISHED


class AttemptEvent(enum.Enum):
    """What happens to an attempt."""

    BEGUN = enum.auto()
    """The store has it as started."""
    CONTINUED = enum.auto()
    """The values that `BEGUN` or a timer needed are read, or the functions are called."""
    RESUMED = enum.auto()
    """Its shard was recovered."""
    ROW_STORED = enum.auto()
    TIMER_FIRED = enum.auto()
    CALL_DECIDED = enum.auto()
    """It may be called as soon as its limits allow it."""
    VALUES_UNAVAILABLE = enum.auto()
    """The blob store does not return its values."""
    SUCCEEDED = enum.auto()
    """Its function, its worker or its child ended with this outcome; also the next six."""
    FAILED = enum.auto()
    FAILED_PERMANENTLY = enum.auto()
    UNKNOWN = enum.auto()
    CANNOT_DECODE = enum.auto()
    PROGRAM_ERROR = enum.auto()
    ANSWERED = enum.auto()
    REPORTED = enum.auto()
    """A caller reported its final outcome."""
    RETRIED = enum.auto()
    """An operator lets it be called again at once."""
    DRAINED = enum.auto()
    """Its saga drains, and it was called or has to be called."""
    DRAINED_UNCALLED = enum.auto()
    """Its saga drains, and it may be given up: it was not called."""
    DRAINED_UNDOING = enum.auto()
    """Its saga drains, and it is a compensation."""
    OFFER_WITHDRAWN = enum.auto()
    """No worker has it, and none will get it."""
    SLOT_REQUESTED = enum.auto()
    """Its limits allow it, and it waits for a slot."""
    LIMIT_REACHED = enum.auto()
    """The limit of its step or of the fleet does not allow it now."""
    PAUSED = enum.auto()
    """An operator has paused its step before it was called."""
    CALLED = enum.auto()
    CALL_UNDONE = enum.auto()
    """Its call did nothing, or it is unknown whether its transaction is committed."""
    FORGOTTEN = enum.auto()
    """The store does not have it as open."""


OUTCOME_EVENTS: Mapping[OutcomeKind, AttemptEvent] = {
    OutcomeKind.SUCCEEDED: AttemptEvent.SUCCEEDED,
    OutcomeKind.FAILED: AttemptEvent.FAILED,
    OutcomeKind.FAILED_PERMANENTLY: AttemptEvent.FAILED_PERMANENTLY,
    OutcomeKind.UNKNOWN: AttemptEvent.UNKNOWN,
    OutcomeKind.CANNOT_DECODE: AttemptEvent.CANNOT_DECODE,
    OutcomeKind.PROGRAM_ERROR: AttemptEvent.PROGRAM_ERROR,
    OutcomeKind.ANSWERED: AttemptEvent.ANSWERED,
}
"""The event of an attempt that ended with an outcome of this kind."""


class Handler(enum.Enum):
    """The decision that a rule names; `AttemptMachine` has a method for each."""

    NONE = enum.auto()
    """Nothing is to be done."""
    SET_STATE = enum.auto()
    """The method of `Attempt` for this event sets the state; there is nothing to decide."""
    # it begins
    BEGIN = enum.auto()
    START = enum.auto()
    """Let it wait, or call it."""
    CALL = enum.auto()
    CALL_AGAIN = enum.auto()
    """Call it, offer it, or start its child again."""
    DECIDE_LIMITS = enum.auto()
    # its shard was recovered
    REPORT_AGAIN = enum.auto()
    STORE_AGAIN = enum.auto()
    STORE_REMOTE_AGAIN = enum.auto()
    """Store the row again if a worker of a queue calls it."""
    SUSPEND_AGAIN = enum.auto()
    """Suspend it by the row that may not be stored, and store that row again."""
    SUSPEND_BY_ROW = enum.auto()
    """Suspend it as its stored row says."""
    WAIT_BY_ROW = enum.auto()
    """Suspend it as its stored row says: it was not called yet."""
    OFFER_AGAIN = enum.auto()
    FOLLOW_BY_ROW = enum.auto()
    # its row is stored
    ANNOUNCE = enum.auto()
    """Emit that it is suspended."""
    ANNOUNCE_WAIT = enum.auto()
    """Emit that it is suspended, and set its timer."""
    ANNOUNCE_CHILD = enum.auto()
    """Emit that it is suspended, and start its child."""
    # its timer fired
    END_WAIT = enum.auto()
    EXPIRE_APPROVAL = enum.auto()
    READ_AGAIN = enum.auto()
    # its outcome
    COMPLETE = enum.auto()
    FAIL = enum.auto()
    CALL_LATER = enum.auto()
    """Call it again after a pause, or wait until an operator reports it."""
    PARK = enum.auto()
    ANSWER = enum.auto()
    FINISH = enum.auto()
    RETRY = enum.auto()
    # its saga drains
    GIVE_UP = enum.auto()
    WITHDRAW = enum.auto()
    FOLLOW = enum.auto()
    END_FAILED = enum.auto()
    """Its last failure counts, unless an earlier program may have called it again."""
    END_EXHAUSTED = enum.auto()
    """As `END_FAILED` if the saga is aborted; otherwise an operator still decides."""
    CALL_NOW = enum.auto()
    """Call it again now, unless an operator has to report it."""


class Condition(NamedTuple):
    """What distinguishes attempts for the table.

    Attributes:
        state: The state of the attempt.
        reason: Why it is suspended. Of a claimed attempt: what its row says, or why it was
            suspended before a call that did nothing. None in the other states.
        is_row_pending: Whether its row is being stored.
    """

    state: AttemptState
    reason: Suspension | None
    is_row_pending: bool


Standing = tuple[AttemptState, Suspension | None]
"""The state and the reason of a condition."""


@dataclasses.dataclass(frozen=True, slots=True)
class Rule:
    """The entry of the table for an event in a condition.

    Attributes:
        handler: The decision.
        following: The states and reasons that may follow.
        stays: Whether it may also keep its state and reason.
    """

    handler: Handler
    following: frozenset[Standing] = frozenset()
    stays: bool = False

    def allows(self, before: Condition, after: Condition) -> bool:
        """Whether a condition may follow another."""
        return after[:2] in self.following or (self.stays and after[:2] == before[:2])


# -- conditions, as the table below names them

REASONS: frozenset[Suspension] = frozenset(Suspension)
SETTLED, PENDING = frozenset({False}), frozenset({True})
"""No row is being stored; a row is being stored."""
BOTH = SETTLED | PENDING
Reasons = Iterable[Suspension | None]
Rows = frozenset[bool]


def _in(state: AttemptState, reasons: Reasons = (None,), rows: Rows = BOTH) -> frozenset[Condition]:
    return frozenset(Condition(state, reason, row) for reason in reasons for row in rows)


def _claimed(reasons: Reasons = (None, *Suspension), rows: Rows = BOTH) -> frozenset[Condition]:
    return _in(CLAIMED, reasons, rows)


def _suspended(reasons: Reasons = REASONS, rows: Rows = BOTH) -> frozenset[Condition]:
    return _in(SUSPENDED, reasons, rows)


def _to(*reasons: Suspension, state: AttemptState | None = None) -> frozenset[Standing]:
    """Return the suspensions that may follow, and a state."""
    states: frozenset[Standing] = frozenset() if state is None else frozenset({(state, None)})
    return states | {(SUSPENDED, reason) for reason in reasons}


S = Suspension
LIMITED = frozenset({S.STEP_LIMIT, S.FLEET_LIMIT, S.PAUSED})
STORED_ROWS = REASONS - {S.BACKOFF, S.EXTERNAL, *LIMITED}
"""Reasons that rows have."""
BETWEEN_CALLS = frozenset({S.BACKOFF, S.UNKNOWN, S.RETRY, S.CANNOT_DECODE})
"""Reasons of an attempt that may be called before its row is stored."""
CALLABLE = _suspended({*BETWEEN_CALLS, S.PAUSED}) | _suspended((S.WAIT_OVER,), SETTLED)
"""Conditions of a suspended attempt that is called without a further event."""
NOT_CALLED = REASONS - {S.EXTERNAL, S.CHILD, S.RETRY, S.EXHAUSTED}
"""Reasons of an attempt that is suspended here and may not have been called."""
WITHOUT_ROW = frozenset({S.BACKOFF, *LIMITED})
"""Reasons that no row has."""
CLAIMED_ALL = _claimed(rows=SETTLED) | _claimed(BETWEEN_CALLS | LIMITED, PENDING)
ALL = CLAIMED_ALL | _suspended() | _in(QUEUED) | _in(RUNNING) | _in(FINISHED)
"""Each condition that there is."""
UNDOING = ALL - _suspended((S.TIMER, S.WAIT_OVER, S.APPROVAL))
UNDOING -= _claimed((S.TIMER, S.WAIT_OVER, S.APPROVAL))
"""Conditions of a compensation."""
BEGINS_AGAIN = (None, S.BACKOFF, *NEEDS_PROGRAM, *LIMITED)
"""Reasons of a claimed attempt that begins as if it were new."""
AT_WORK = _in(RUNNING) | _suspended((S.EXTERNAL, S.CHILD, S.PAUSED), SETTLED)
"""Conditions of an attempt whose function, worker or child ends.

The worker of a queue may have a paused attempt from an earlier program.
"""
DOUBTED = _suspended(UNCERTAIN, SETTLED)
"""A worker may still report an attempt whose outcome is unknown."""

# -- the states that may follow

BEGINNING = _to(S.BACKOFF, S.TIMER, S.EXTERNAL, S.CHILD, S.PAUSED, *NEEDS_PROGRAM, state=FINISHED)
STARTING = _to(
    S.TIMER, S.EXTERNAL, S.CHILD, S.PAUSED, *NEEDS_PROGRAM - {S.NO_DEFINITION}, state=FINISHED
)
CALLING = _to(S.EXTERNAL, S.CHILD)
ENDED = _to(state=FINISHED)
CLAIMED_AGAIN = frozenset((CLAIMED, reason) for reason in (None, *Suspension))

E, H = AttemptEvent, Handler
Lines = Sequence[tuple[frozenset[Condition], Rule]]
NO_CHANGE = Rule(H.NONE, stays=True)


def _otherwise(lines: Lines, rule: Rule = NO_CHANGE) -> Lines:
    """Add a rule for the conditions that the lines do not name."""
    named = frozenset[Condition]().union(*(conditions for conditions, _ in lines))
    return [*lines, (ALL - named, rule)]


LINES: Mapping[AttemptEvent, Lines] = {
    E.BEGUN: [(_claimed((None,), SETTLED), Rule(H.BEGIN, BEGINNING, stays=True))],
    E.CONTINUED: [
        (_claimed(BEGINS_AGAIN, SETTLED), Rule(H.BEGIN, BEGINNING, stays=True)),
        (
            _suspended((S.BACKOFF, S.CANNOT_DECODE, S.PAUSED)),
            Rule(H.BEGIN, BEGINNING, stays=True),
        ),
    ],
    E.RESUMED: _otherwise(
        [
            (_in(FINISHED), Rule(H.REPORT_AGAIN, stays=True)),
            (_in(QUEUED, rows=PENDING), Rule(H.STORE_AGAIN, stays=True)),
            (_in(RUNNING, rows=PENDING), Rule(H.STORE_REMOTE_AGAIN, stays=True)),
            (_suspended(rows=PENDING), Rule(H.SUSPEND_AGAIN, _to(*STORED_ROWS))),
            (
                _claimed(BETWEEN_CALLS | LIMITED, PENDING),
                Rule(H.SUSPEND_AGAIN, _to(*BETWEEN_CALLS - {S.BACKOFF})),
            ),
            (_suspended((S.EXTERNAL,), SETTLED), Rule(H.OFFER_AGAIN, _to(S.EXTERNAL))),
            (_claimed((S.EXTERNAL,), SETTLED), Rule(H.OFFER_AGAIN, _to(S.EXTERNAL))),
            *(
                (_claimed((reason,), SETTLED), Rule(H.SUSPEND_BY_ROW, _to(reason)))
                for reason in RETRYABLE - NEEDS_PROGRAM
            ),
            (_claimed((S.TIMER,), SETTLED), Rule(H.WAIT_BY_ROW, _to(S.TIMER))),
            (_claimed((S.APPROVAL,), SETTLED), Rule(H.WAIT_BY_ROW, _to(S.APPROVAL))),
            (_claimed((S.WAIT_OVER,), SETTLED), Rule(H.CALL, stays=True)),
            (_claimed((S.CHILD,), SETTLED), Rule(H.FOLLOW_BY_ROW, _to(S.CHILD))),
            (_claimed(BEGINS_AGAIN, SETTLED), Rule(H.BEGIN, BEGINNING, stays=True)),
        ]
    ),
    E.ROW_STORED: _otherwise(
        [
            (
                _suspended((S.TIMER, S.APPROVAL, S.RETRY), PENDING),
                Rule(H.ANNOUNCE_WAIT, stays=True),
            ),
            (_suspended((S.WAIT_OVER,), PENDING), Rule(H.CALL, stays=True)),
            (_suspended((S.CHILD,), PENDING), Rule(H.ANNOUNCE_CHILD, stays=True)),
            (
                _suspended({*PARKED - {S.RETRY}, *LIMITED, S.BACKOFF, S.EXTERNAL}, PENDING),
                Rule(H.ANNOUNCE, stays=True),
            ),
        ]
    ),
    E.TIMER_FIRED: _otherwise(
        [
            (_suspended((S.BACKOFF,)), Rule(H.START, STARTING, stays=True)),
            (_suspended((S.UNKNOWN, S.RETRY)), Rule(H.CALL_AGAIN, CALLING, stays=True)),
            (
                _suspended((S.CANNOT_DECODE,)),
                Rule(H.READ_AGAIN, STARTING - _to(S.PAUSED), stays=True),
            ),
            (_suspended((S.TIMER,)), Rule(H.END_WAIT, _to(S.WAIT_OVER), stays=True)),
            (_suspended((S.APPROVAL,)), Rule(H.EXPIRE_APPROVAL, ENDED, stays=True)),
        ]
    ),
    E.CALL_DECIDED: [
        (
            CLAIMED_ALL | CALLABLE,
            Rule(H.DECIDE_LIMITS, _to(S.PAUSED, *NEEDS_PROGRAM, state=FINISHED), stays=True),
        ),
    ],
    E.VALUES_UNAVAILABLE: [
        (CLAIMED_ALL | CALLABLE, Rule(H.PARK, _to(S.CANNOT_DECODE))),
    ],
    E.SUCCEEDED: [
        (
            AT_WORK | _suspended(RETRYABLE, SETTLED),
            Rule(H.COMPLETE, _to(S.APPROVAL, state=FINISHED)),
        ),
    ],
    E.FAILED: [
        (AT_WORK | DOUBTED, Rule(H.FAIL, _to(S.RETRY, S.EXHAUSTED, state=FINISHED))),
    ],
    E.FAILED_PERMANENTLY: [
        (AT_WORK | DOUBTED, Rule(H.FAIL, _to(S.EXHAUSTED, state=FINISHED))),
    ],
    E.UNKNOWN: [(AT_WORK, Rule(H.CALL_LATER, _to(S.UNKNOWN)))],
    E.CANNOT_DECODE: [(AT_WORK | DOUBTED, Rule(H.PARK, _to(S.CANNOT_DECODE)))],
    E.PROGRAM_ERROR: [(AT_WORK | DOUBTED, Rule(H.PARK, _to(S.PROGRAM_ERROR)))],
    E.ANSWERED: [(AT_WORK | DOUBTED, Rule(H.ANSWER, ENDED))],
    E.REPORTED: [
        (
            _suspended({*PARKED, S.TIMER, S.WAIT_OVER, S.APPROVAL, S.EXTERNAL}, SETTLED),
            Rule(H.FINISH, ENDED),
        ),
    ],
    E.RETRIED: [
        (_suspended(UNCERTAIN, SETTLED), Rule(H.RETRY, _to(S.UNKNOWN))),
        (_suspended((S.RETRY, S.EXHAUSTED), SETTLED), Rule(H.RETRY, _to(S.RETRY))),
    ],
    E.DRAINED_UNCALLED: [
        (_suspended((S.EXTERNAL,)), Rule(H.WITHDRAW, stays=True)),
        (_suspended(NOT_CALLED) | _suspended((S.CHILD,), PENDING), Rule(H.GIVE_UP, ENDED)),
        (_in(QUEUED), Rule(H.GIVE_UP, ENDED)),
        (_claimed((S.CHILD,), SETTLED), Rule(H.FOLLOW, stays=True)),
        (
            _claimed((None, S.EXTERNAL, *NOT_CALLED - WITHOUT_ROW), SETTLED) | _in(FINISHED),
            NO_CHANGE,
        ),
    ],
    E.DRAINED_UNDOING: [
        (_suspended((S.CHILD,), SETTLED), Rule(H.FOLLOW, stays=True)),
        (_claimed((S.CHILD,), SETTLED), Rule(H.FOLLOW, stays=True)),
        (UNDOING - _suspended((S.CHILD,), SETTLED) - _claimed((S.CHILD,), SETTLED), NO_CHANGE),
    ],
    E.DRAINED: _otherwise(
        [
            (_suspended((S.CHILD,), SETTLED), Rule(H.FOLLOW, stays=True)),
            (_claimed((S.CHILD,), SETTLED), Rule(H.FOLLOW, stays=True)),
            (_suspended((S.RETRY,)), Rule(H.END_FAILED, ENDED | _to(S.EXTERNAL), stays=True)),
            (_suspended((S.EXHAUSTED,)), Rule(H.END_EXHAUSTED, ENDED, stays=True)),
            (_suspended((S.UNKNOWN,)), Rule(H.CALL_NOW, CALLING, stays=True)),
            (_suspended((S.BACKOFF,)), Rule(H.START, STARTING, stays=True)),
        ]
    ),
    E.OFFER_WITHDRAWN: _otherwise([(_suspended((S.EXTERNAL,)), Rule(H.GIVE_UP, ENDED))]),
    E.SLOT_REQUESTED: [
        (
            CLAIMED_ALL | CALLABLE | _suspended(LIMITED),
            Rule(H.SET_STATE, _to(state=QUEUED)),
        ),
    ],
    E.LIMIT_REACHED: [
        (
            CLAIMED_ALL | CALLABLE | _suspended((S.FLEET_LIMIT,)) | _in(QUEUED),
            Rule(H.SET_STATE, _to(S.STEP_LIMIT, S.FLEET_LIMIT)),
        ),
    ],
    E.PAUSED: [
        (
            CLAIMED_ALL | _suspended(WITHOUT_ROW) | _in(QUEUED),
            Rule(H.SET_STATE, _to(S.PAUSED)),
        ),
    ],
    E.CALLED: [
        (_claimed((None,), SETTLED) | _in(QUEUED), Rule(H.SET_STATE, _to(state=RUNNING))),
    ],
    E.CALL_UNDONE: [(_in(RUNNING), Rule(H.SET_STATE, CLAIMED_AGAIN))],
    E.FORGOTTEN: _otherwise(
        [(_in(FINISHED), Rule(H.SET_STATE, stays=True))], Rule(H.SET_STATE, ENDED)
    ),
}
"""The conditions of each event with their rules. Each condition has one rule at most."""


def _table(lines: Mapping[AttemptEvent, Lines]) -> dict[AttemptEvent, dict[Condition, Rule]]:
    table: dict[AttemptEvent, dict[Condition, Rule]] = {event: {} for event in lines}
    for event, entries in lines.items():
        for conditions, rule in entries:
            if table[event].keys() & conditions:
                raise ValueError(f"two rules for {event.name}: {table[event].keys() & conditions}")
            table[event] |= dict.fromkeys(conditions, rule)
    return table


RULES: Mapping[AttemptEvent, Mapping[Condition, Rule]] = _table(LINES)
"""The table: the rule for each event in each condition. A pair that is absent is illegal."""

ATTEMPT_TRANSITIONS: Table[AttemptState] = {
    state: frozenset(
        following
        for rules in RULES.values()
        for condition, rule in rules.items()
        if condition.state is state
        for following, _ in rule.following
    )
    for state in AttemptState
}
"""The states that may follow each state by any event."""


def rule(event: AttemptEvent, condition: Condition) -> Rule:
    """Return the rule for an event in a condition.

    Raises:
        IllegalTransition: The table has none.
    """
    match = RULES[event].get(condition)
    if match is None:
        raise IllegalTransition(f"{event.name} in {_text(condition)}")
    return match


def check_following(event: AttemptEvent, before: Condition, after: Condition) -> None:
    """Raise `IllegalTransition` if the rule does not let a condition follow another."""
    if not rule(event, before).allows(before, after):
        raise IllegalTransition(f"{event.name} in {_text(before)} -> {_text(after)}")


def _text(condition: Condition) -> str:
    reason = f" ({condition.reason.name})" if condition.reason else ""
    return f"{condition.state.name}{reason}{', row pending' if condition.is_row_pending else ''}"
