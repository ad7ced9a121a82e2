"""Questions about deliveries of webhooks."""

from __future__ import annotations

import dataclasses
from typing import Any

from sagas.inspection.question import Query, Question

COLUMNS = "id, webhook, type, key, at, state, attempts, status, error, due"


@dataclasses.dataclass(frozen=True, slots=True)
class Delivery:
    """One event that is posted to one webhook.

    Attributes:
        id: The same for all attempts.
        webhook: The webhook's name.
        type: The type of the event.
        key: The saga's key.
        at: When the event happened, in seconds since 1970.
        state: `pending`, `delivered` or `failed`.
        attempts: How many attempts were started.
        status: The status of the last answer, or None.
        error: Why there was no answer, or None.
        due: When the next attempt is due, or None.
    """

    id: str
    webhook: str
    type: str
    key: str
    at: float
    state: str
    attempts: int
    status: int | None
    error: str | None
    due: float | None


def listed(state: str | None, webhook: str | None, limit: int) -> Question[list[Delivery]]:
    """Return the latest deliveries, newest first."""
    conditions, parameters = ["1 = 1"], list[object]()
    for name, wanted in (("state", state), ("webhook", webhook)):
        if wanted is not None:
            conditions.append(f"{name} = ?")
            parameters.append(wanted)
    text = f"SELECT {COLUMNS} FROM webhook_deliveries WHERE {' AND '.join(conditions)}"
    rows = yield Query(f"{text} ORDER BY at DESC, id LIMIT ?", (*parameters, limit))
    return [_of(*row) for row in rows]


def _of(*row: Any) -> Delivery:
    delivery = Delivery(*row)
    return dataclasses.replace(
        delivery, due=(delivery.due or delivery.at) if delivery.state == "pending" else None
    )


def delivery(id: str) -> Question[Delivery | None]:
    """Return the delivery with this id, or None."""
    rows = yield Query(f"SELECT {COLUMNS} FROM webhook_deliveries WHERE id = ?", (id,))
    return _of(*rows[0]) if rows else None
