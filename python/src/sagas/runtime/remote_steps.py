"""Messages to workers of a queue: an attempt as an order, and how it is sent.

Workers of a queue call the functions of these steps. The report returns through the store.
"""

from __future__ import annotations

import asyncio
from collections.abc import Iterable
from typing import TYPE_CHECKING, Any

from sagas.base.errors import SagasError
from sagas.base.pauses import doubling_pauses
from sagas.core.attempt.external_work import Declared, Order, Position
from sagas.definition.payloads import ABSENT

if TYPE_CHECKING:
    from sagas.core.attempt.model import Attempt
    from sagas.definition.saga import Saga
    from sagas.definition.call_options import RemoteQueue
    from sagas.definition.step import Step
    from sagas.storage.interface import Database

MAX_CARRIED = 64 << 10
"""Maximum bytes of input and results in an order. The worker reads larger values from the store."""
FIRST_PAUSE, MAX_PAUSE = 0.05, 2.0  # seconds between two tries to send


class Unsent(SagasError):
    """The order was not sent, or it is unknown whether it was. It is sent again."""


def order_of(attempt: Attempt, lease: int) -> Order:
    """Return the order of an attempt, with at most `MAX_CARRIED` bytes of values."""
    saga, kind = attempt.instance, attempt.instance.kind
    assert saga.shard
    left = MAX_CARRIED

    def carry(text: str) -> bool:
        nonlocal left
        fits = len(text) <= left and text != ABSENT
        left -= len(text) if fits else 0
        return fits

    decode = kind.payloads.decode
    input = decode(saga.text) if carry(saga.text) else None
    own_result: str | Position | None = None
    if attempt.kind == "undo":
        text = saga.results.get(attempt.step, "null")
        own_result = decode(text) if carry(text) else Position(attempt.step)
    results: dict[str, str | Position] = {}
    for step in kind.below[attempt.step]:
        text = saga.results.get(step, "null")
        results[kind.names[step]] = decode(text) if carry(text) else Position(step)
    return Order(
        kind.name,
        kind.version,
        saga.key,
        saga.shard.name,
        saga.number,
        attempt.name,
        attempt.kind,
        attempt.attempt,
        lease,
        input,
        results,
        own_result,
        saga.options.deadline,
        saga.options.traceparent,
        _declared(attempt),
    )


def _declared(attempt: Attempt) -> Declared | None:
    if attempt.instance.kind.layout is None:
        return None
    step = attempt.declared
    return Declared(step.saga.name, step.saga.version, step.name)


async def check(database: Database, sagas: Iterable[Saga[Any]]) -> None:
    """Check that reports of queue workers can reach this database.

    Raises `WrongStore` and `DefinitionError`.
    """
    queues: dict[int, tuple[RemoteQueue, list[tuple[Step[Any], str]]]] = {}
    for saga in sagas:
        for step in saga.all_steps:
            for kind in ("run", "undo"):
                queue = step.manner(kind).queue
                if queue is not None:
                    queues.setdefault(id(queue), (queue, []))[1].append((step, kind))
    for queue, steps in queues.values():
        await queue.check(database, steps)


async def send(queue: RemoteQueue, order: Order) -> None:
    """Send an order, with retries until it is sent. The caller limits the time."""
    pauses = doubling_pauses(FIRST_PAUSE, MAX_PAUSE)
    while True:
        try:
            await queue.send(order)
            return
        except Unsent:
            await asyncio.sleep(next(pauses))
