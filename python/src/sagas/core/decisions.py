"""What an operator can decide, and the words for it: one list for dashboard, command and pages."""

from __future__ import annotations

import dataclasses
import enum
import json
import secrets
from typing import Any

from sagas.core.attention import AttentionReason
from sagas.definition.arguments import BELOW, meant

APPROVAL = "approval"
"""The reason of a step that waits for an approver."""


class Decision(enum.StrEnum):
    """What an operator decides: the word of the command and of the API."""

    RETRY = "retry"
    COMPLETE = "complete"
    FAIL = "fail"
    ABORT = "abort"
    RESOLVE = "resolve"
    COMPENSATE = "compensate"
    RESTART = "restart"
    ERASE = "erase"
    DRAIN = "drain"
    UNDRAIN = "undrain"
    PAUSE = "pause"
    RESUME = "resume"


def decision_named(name: str) -> Decision:
    """Return the decision with a name. Raises `ValueError`."""
    try:
        return Decision(name)
    except ValueError:
        names = [decision.value for decision in Decision]
        remedy = meant(name, names) or f". Pass one of {', '.join(names)}"
        raise ValueError(f"unknown decision {name!r}{remedy}") from None


OF_STORE = BELOW
"""The beginning of the key of a decision on the store. No saga has such a key."""


def subject_key(subject: str) -> str:
    """Return the key under which a decision on the store is stored."""
    return OF_STORE + subject


@dataclasses.dataclass(frozen=True, slots=True)
class DecidedSaga:
    """Describe one saga of a decision.

    Attributes:
        key: Its key.
        saga: The name of its definition.
        step: The step, or None if the saga is meant.
        undo: Whether the compensation of the step is meant.
        answer: `done`, `refused` or `waiting`.
    """

    key: str
    saga: str
    step: str | None
    undo: bool
    answer: str


@dataclasses.dataclass(frozen=True, slots=True)
class DecisionEntry:
    """Describe a decision, or a bulk of decisions. `Store.decisions` returns them.

    Attributes:
        number: Its position in the list: later decisions have larger numbers.
        command: What was decided.
        at: The time of the first one, in seconds since 1970.
        by: The person or program that decided, or None if a program did not say.
        via: The way: `dashboard`, `http`, `command` or `program`.
        note: The reason, or None.
        is_bulk: Whether it was one decision on several sagas.
        subject: On what it was, if on no saga: `everything`, `saga:NAME`, `step:NAME/STEP`,
            `queue:NAME` or `node:NAME`; else None.
        sagas: The sagas, in the order of the decisions.
    """

    number: int
    command: str
    at: float
    by: str | None
    via: str
    note: str | None
    is_bulk: bool
    subject: str | None
    sagas: list[DecidedSaga]

    @property
    def counts(self) -> dict[str, int]:
        """Return the number of sagas by answer."""
        answers = [saga.answer for saga in self.sagas]
        return {answer: answers.count(answer) for answer in ("done", "refused", "waiting")}


@dataclasses.dataclass(frozen=True, slots=True)
class DecisionText:
    """How the dashboard and the pages call a decision.

    Attributes:
        button: The text of its button.
        meaning: What it means, in one sentence without its end.
    """

    button: str
    meaning: str


TEXTS = {
    Decision.RETRY: DecisionText("Retry", "call it again, with the same idempotency key"),
    Decision.COMPLETE: DecisionText("Complete", "report that its effect exists"),
    Decision.FAIL: DecisionText("Fail", "report that it had no effect, and fails permanently"),
    Decision.ABORT: DecisionText(
        "Abort", "undo or keep the steps that are done, at the least cost"
    ),
    Decision.RESOLVE: DecisionText(
        "Resolve", "record that the saga was repaired by hand; runs no step"
    ),
    Decision.COMPENSATE: DecisionText(
        "Compensate", "undo the effect of a report that was not used"
    ),
    Decision.RESTART: DecisionText("Restart", "start an ended saga again, under a new key"),
    Decision.ERASE: DecisionText("Erase", "erase the data of an ended saga, and keep its events"),
    Decision.DRAIN: DecisionText("Drain", "move the shards of a node to other nodes"),
    Decision.UNDRAIN: DecisionText("Undrain", "have a drained node take shards again"),
    Decision.PAUSE: DecisionText("Pause", "start no more attempts"),
    Decision.RESUME: DecisionText("Resume", "start attempts again"),
}
OF_APPROVALS = {
    Decision.COMPLETE: DecisionText("Approve", "the saga continues"),
    Decision.FAIL: DecisionText("Refuse", "the step fails permanently"),
}
"""The words for the decisions of an approver. They are the same calls."""
_REPORTS = (Decision.COMPLETE, Decision.FAIL, Decision.ABORT)
CHOICES: dict[str, tuple[Decision, ...]] = {
    AttentionReason.STUCK: (Decision.RESOLVE,),
    AttentionReason.UNDO_FAILED: (Decision.RESOLVE,),
    AttentionReason.UNUSED_REPORT: (Decision.COMPENSATE, Decision.RESOLVE),
    AttentionReason.UNKNOWN: (Decision.RETRY, *_REPORTS),
    AttentionReason.EXHAUSTED: (Decision.RETRY, *_REPORTS),
    AttentionReason.CANNOT_DECODE: _REPORTS,
    AttentionReason.PROGRAM_ERROR: (Decision.RETRY, *_REPORTS),
    AttentionReason.ON_END: (),
    AttentionReason.NO_DEFINITION: _REPORTS,
    AttentionReason.NO_NODE: (),
    AttentionReason.DAMAGED: (),
    APPROVAL: _REPORTS,
}
"""The decisions by the reason why an operator must decide, in the order of the buttons."""


class Way(enum.StrEnum):
    """The way by which a decision came."""

    DASHBOARD = "dashboard"
    HTTP = "http"
    COMMAND = "command"
    PROGRAM = "program"


class Requester(str):
    """The name of who decides, with the way of the decision.

    Attributes:
        way: The way.
        bulk: The id that the decisions of one bulk share, or None.
    """

    way: Way
    bulk: str | None

    def __new__(cls, name: str, way: Way, bulk: str | None = None) -> Requester:
        requester = super().__new__(cls, name)
        requester.way, requester.bulk = way, bulk
        return requester


def new_bulk() -> str:
    """Return an id for a bulk."""
    return secrets.token_hex(BULK_LENGTH // 2)


BULK_LENGTH = 16
"""The number of characters of the id of a bulk."""


def bulk_by(by: str | None, way: Way = Way.PROGRAM) -> str | None:
    """Return the requester of a bulk; None if no name is given."""
    return by if by is None or isinstance(by, Requester) else Requester(by, way, new_bulk())


def request_fields(by: str | None, note: str | None) -> dict[str, Any]:
    """Return what is stored of a requester: the name, the note, the way and the bulk."""
    fields: dict[str, Any] = {"by": None if by is None else str(by), "note": note}
    if by is None:
        return fields
    if not isinstance(by, Requester):
        return fields | {"via": Way.PROGRAM.value}
    bulk = {} if by.bulk is None else {"bulk": by.bulk}
    return bulk | fields | {"via": by.way.value}


def request_text(fields: Any) -> str:
    """Return the stored text of a command.

    The keys are sorted, so that it begins with the bulk or with the name. Queries rely on that.
    """
    return json.dumps(fields, separators=(",", ":"), sort_keys=True)


def text_of(decision: Decision, reason: str) -> DecisionText:
    """Return the words for a decision about an entry with this reason."""
    of_approval = OF_APPROVALS if reason == APPROVAL else {}
    return of_approval.get(decision, TEXTS[decision])


def is_primary(decision: Decision, reason: str) -> bool:
    """Return whether the button of a decision is the primary one: the first, and no report.

    A report must be true, so no button suggests one. An approval is a decision.
    """
    is_report = decision in _REPORTS and reason != APPROVAL
    return decision is CHOICES[reason][0] and not is_report
