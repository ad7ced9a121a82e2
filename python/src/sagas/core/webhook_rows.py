"""Deliveries of webhooks: rows that are written in the commit of their cause.

If a definition has no webhook, no row is made.
"""

from __future__ import annotations

import datetime
import hashlib
import json
from collections.abc import Iterable
from typing import TYPE_CHECKING, Any

from sagas.core.shard.batch import DeliveryRow
from sagas.core.states import NEEDS_PROGRAM, EnginePhase, Suspension, undo_failures
from sagas.definition.serialization import optional_failures

if TYPE_CHECKING:
    from sagas.core.attempt.model import Attempt
    from sagas.core.attempt.instance import SagaInstance
    from sagas.core.attempt.model import SuspensionRow

COMPLETED, RECOVERED = "saga.completed", "saga.recovered"
STUCK, ATTENTION = "saga.stuck", "saga.attention"
ENDS = (COMPLETED, RECOVERED, STUCK)
TYPES = (*ENDS, ATTENTION)
"""The types of webhook events. `ENDS` has those that report the end of a saga."""
NEEDS_OPERATOR = NEEDS_PROGRAM | {Suspension.APPROVAL, Suspension.EXHAUSTED}
"""Suspensions that always need an operator. `UNKNOWN` also does if it has no time."""


def end_deliveries(
    saga: SagaInstance,
    id: int,
    phase: str,
    recovered: bool,
    at: float,
    unused: Iterable[int],
) -> list[DeliveryRow]:
    """Return the deliveries of a saga's end.

    They report how it ended, each compensation that failed permanently, and each unused report
    that an operator has to handle. `unused`: the steps with unused reports.
    """
    type = RECOVERED if recovered else COMPLETED
    failed = optional_failures(saga.results | saga.dropped_failures)
    names = {"optional_failures": [saga.kind.names[step] for step in sorted(failed)]}
    type = STUCK if phase == EnginePhase.STUCK else type
    deliveries = _rows(saga, id, type, names if failed else {}, at, "end")
    for step in undo_failures(saga.end) if recovered and saga.kind.hooks.get(ATTENTION) else ():
        data = {"kind": "undo_failed", "step": saga.kind.names[step], "undo": True}
        deliveries += _rows(saga, id, ATTENTION, data, at, f"undo_failed {step}")
    for step in unused:
        declared = saga.kind.steps[step]
        if declared is None or declared.early_unused == "ask":
            data = {"kind": "unused_report", "step": saga.kind.names[step], "undo": False}
            deliveries += _rows(saga, id, ATTENTION, data, at, f"unused_report {step}")
    return deliveries


def suspension_deliveries(attempt: Attempt, row: SuspensionRow, at: float) -> list[DeliveryRow]:
    """Return the deliveries of a suspended attempt, if it needs an operator."""
    is_parked = row.reason is Suspension.UNKNOWN and row.until is None and not attempt.is_remote
    if not is_parked and row.reason not in NEEDS_OPERATOR:
        return []
    data = {"kind": row.reason.value, "step": attempt.name, "undo": attempt.undo}
    name = f"{attempt.token()} {row.reason} {at}"
    return _rows(attempt.instance, attempt.instance.id, ATTENTION, data, at, name)


def _rows(
    saga: SagaInstance, id: int, type: str, data: dict[str, Any], at: float, name: str
) -> list[DeliveryRow]:
    """Return a row for each webhook of this type. `name`: names the cause within the saga."""
    hooks = saga.kind.hooks.get(type, ())
    if not hooks:
        return []
    timestamp = datetime.datetime.fromtimestamp(at, datetime.timezone.utc)
    payload = {
        "type": type,
        "timestamp": timestamp.isoformat(timespec="milliseconds").replace("+00:00", "Z"),
        "data": {"key": saga.key, "definition": saga.kind.name, **data},
    }
    body, shard = json.dumps(payload), saga.shard.name if saga.shard else ""
    deliveries = []
    for hook in hooks:
        digest = hashlib.sha256(f"{hook}\n{shard}\n{id}\n{type}\n{name}".encode()).hexdigest()
        deliveries.append((f"msg_{digest[:24]}", hook, type, id, saga.key, body, at))
    return deliveries
