"""The table `webhook_deliveries`: posts to webhooks, and their results.

A row is written in the commit of the event that it reports (core/webhook_rows.py). A program
claims a delivery before it posts it. No other program claims it until `due`. So if the program
ends, the delivery is posted again. The result of a post is written only under the newest claim.
"""

from __future__ import annotations

import enum
from collections.abc import Awaitable, Callable
from typing import Any, NamedTuple, Optional, Protocol

from sagas.core.shard.batch import Batch


class DeliveryState(enum.StrEnum):
    """The state of a delivery."""

    PENDING = "pending"
    DELIVERED = "delivered"
    FAILED = "failed"
    """No attempt is left, or the receiver wants none."""


class Claimed(NamedTuple):
    """A delivery to be posted now. `attempts` includes this one."""

    id: str
    type: str
    key: str
    body: str
    attempts: int
    saga: int


class Posted(NamedTuple):
    """The result of a post.

    It has the new state of the delivery, the status of the response, the error if there was none,
    and the seconds until the next attempt, or None.
    """

    state: DeliveryState
    status: Optional[int]
    error: Optional[str]
    pause: Optional[float]


CLAIM = """
UPDATE webhook_deliveries SET attempts = attempts + 1, due = {now} + :lease
WHERE id IN (SELECT id FROM webhook_deliveries
  WHERE webhook = :webhook AND state = 'pending' AND due <= {now}
  ORDER BY due, at LIMIT :most{locked})
RETURNING id, type, key, body, attempts, saga
"""
SETTLE = """
UPDATE webhook_deliveries SET state = :state, status = :status, error = :error,
  due = {now} + :pause
WHERE id = :id AND attempts = :attempts AND state = 'pending' RETURNING 1
"""
NEXT = """
SELECT min(due) - {now} FROM webhook_deliveries WHERE webhook = :webhook AND state = 'pending'
"""
REDELIVER = """
UPDATE webhook_deliveries SET state = 'pending', attempts = 0, due = 0, status = NULL, error = NULL
WHERE id = :id RETURNING 1
"""
FORGET = """
DELETE FROM webhook_deliveries WHERE state = 'delivered' AND at < {now} - :delivered
  OR state = 'failed' AND at < {now} - :failed RETURNING 1
"""
COLUMNS = "id, webhook, type, saga, key, body, at"


class Deliveries(Protocol):
    """The table, for a program that has the store open.

    All methods raise `StoreUnavailable`.
    """

    def begin(self, write: Callable[[Batch], Awaitable[None]], clock: Callable[[], float]) -> None:
        """Start the use of the table. `write` adds a batch to the next transaction."""

    async def change(self, text: str, **parameters: Any) -> list[tuple[Any, ...]]:
        """Execute one of these statements in its own transaction, and return its rows."""

    async def ask(self, text: str, **parameters: Any) -> list[tuple[Any, ...]]:
        """Return the rows of a statement that changes nothing."""
