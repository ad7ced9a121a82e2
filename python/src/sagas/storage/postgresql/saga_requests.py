"""Commands and starts that were left for a node, in PostgreSQL."""

from __future__ import annotations

import contextlib
import json
from collections.abc import Sequence
from typing import Any

from sagas.base.errors import NoSuchSaga, StoreUnavailable
from sagas.core.shard.batch import NewStart, PendingRequest, PendingStart, SagaRow
from sagas.core.attempt.waits import check_refused
from sagas.definition.capacity import SHARD_CAPACITY
from sagas.definition.payloads import Payloads
from sagas.definition.serialization import clean
from sagas.storage import operator_requests, queries
from sagas.storage.postgresql import connections, notifications
from sagas.storage.postgresql.lookups import FIND_ONE
from sagas.storage.postgresql.node_lease import UNTAKEN

MINE = f"""
JOIN shards l ON l.shard = s.id / {SHARD_CAPACITY}
  AND (l.owner = %(node)s OR l.closed <> 0 OR r.command IN ('compensate', 'restart'))"""
"""A compensation and a restart are for any node that has the definition."""
REQUESTS = f"""
SELECT r.id, r.key, r.command, r.value, s.id FROM operator_commands r JOIN sagas s ON s.id = r.saga
{MINE}
WHERE r.answer IS NULL AND r.id > %(after)s ORDER BY 1 LIMIT %(most)s
"""
STARTS = f"""
WITH batch AS MATERIALIZED (
  SELECT id FROM pending_starts i
  WHERE (%(takes)s AND {UNTAKEN}
      OR i.node = %(node)s AND i.id <> ALL(%(mine)s::bigint[]) AND i.refused IS NULL)
    AND i.id <> ALL(%(left)s::bigint[])
    AND saga || '/' || version || coalesce('/' || digest, '') = ANY(%(sagas)s::text[])
  ORDER BY id LIMIT %(most)s FOR UPDATE SKIP LOCKED)
UPDATE pending_starts SET node = %(node)s FROM batch WHERE pending_starts.id = batch.id RETURNING
pending_starts.id, key, saga, version, input, labels, deadline, traceparent
"""
"""Takes starts.

As a part of an OR, the condition of untaken starts is checked again for a row that another node
took concurrently. As a join it would not be.
"""
LEAVE = """
INSERT INTO pending_starts(key, saga, version, input, digest, labels, deadline, traceparent, at)
SELECT %(key)s::text, %(saga)s::text, %(version)s::integer, %(input)s::text, %(digest)s::text,
  %(labels)s::jsonb, %(deadline)s::double precision, %(traceparent)s::text,
  extract(epoch FROM clock_timestamp())
WHERE EXISTS (SELECT 1 FROM nodes n WHERE n.node <> %(node)s AND n.lease > now()
  AND NOT n.stopping AND NOT EXISTS (SELECT 1 FROM drains d WHERE d.name = n.name)
  AND %(kind)s = ANY(n.kinds))
ON CONFLICT (key) DO NOTHING RETURNING id
"""
RETRACT = "DELETE FROM pending_starts WHERE id = %(id)s AND node IS NULL RETURNING id"
"""Deletes a start that was left, if no node has taken it."""
GIVE_BACK = """
UPDATE pending_starts SET node = NULL, refused = %(reason)s::text,
  at = CASE WHEN %(reason)s::text IS NULL THEN at ELSE extract(epoch FROM clock_timestamp()) END
WHERE id = %(id)s AND node = %(node)s RETURNING id
"""
ANSWER = queries.named(operator_requests.ANSWER, "id", "start")
ASK = queries.named(operator_requests.ASK, "command", "value", "id")
ASK_START = queries.named(operator_requests.ASK_START, "command", "value", "id")
WITHDRAW = queries.named(operator_requests.WITHDRAW_START, "id")
FIND_NOW = queries.named(FIND_ONE.replace("$1", "?"), "key", "key")


async def pending_requests(
    asker: connections.Asker, node: str, after: int, limit: int
) -> list[PendingRequest]:
    """Return the unanswered requests of a node's shards, and those for any node.

    See `Database.requests`.
    """
    parameters = {"node": node, "after": after, "most": limit}
    return await asker.read(REQUESTS, **parameters)  # type: ignore[return-value]


async def take_starts(
    asker: connections.Asker,
    node: str,
    sagas: Sequence[str],
    limit: int,
    under_way: Sequence[int] | None,
    left: Sequence[int],
    takes: bool,
) -> list[PendingStart]:
    """Take starts of these sagas that clients added, for a node to open.

    Without `takes`, only those are returned that the node had taken before.
    """
    mine = None if under_way is None else list(under_way)
    of_node = {"node": node, "sagas": [*sagas], "mine": mine, "left": [*left], "takes": takes}
    return await asker.ask(STARTS, **of_node, **{"most": limit})  # type: ignore[return-value]


async def leave_start(asker: connections.Asker, node: str, start: NewStart) -> bool:
    """Store a start for other nodes. See `Database.leave_start`."""
    labels = json.dumps(start.labels)
    kind = f"{start.saga}/{start.version}/{start.digest}"
    fields = {**start._asdict(), "labels": labels, "input": clean(start.input), "kind": kind}
    rows = await asker.ask(LEAVE, node=node, **fields)
    if not rows:
        return False
    # after the row, so that no start of the same key at another node is missed
    if any(int(row[0]) >= 0 for row in await asker.read(FIND_NOW, key=start.key)):
        await asker.ask(RETRACT, id=rows[0][0])
        return False
    await _notify(asker, [notifications.STARTS])
    return True


async def give_back(asker: connections.Asker, node: str, start: int, reason: str | None) -> None:
    """Release a start that this node took. See `Database.give_back`."""
    if await asker.ask(
        GIVE_BACK, id=start, reason=None if reason is None else clean(reason), node=node
    ):
        await _notify(asker, [notifications.STARTS])


async def ask(
    asker: connections.Asker,
    listening: notifications.Notifications,
    row: SagaRow,
    command: str,
    value: str,
    payloads: Payloads,
) -> Any:
    """Add a request for this saga or start, notify the nodes, and return the answer.

    An abort of a start that no node has taken withdraws it instead.

    `payloads` encodes inputs. By its input a start is recognized as a saga.

    Raises `NoSuchSaga`, and `InvalidInput` if the start was refused.
    """
    if command != "abort":
        check_refused(row)
    if command == "abort" and row.id < 0 and await _withdraw(asker, -row.id):
        return True
    row, id = await _add_request(asker, row, command, value, payloads)
    await asker.ask(notifications.NOTIFY, messages=["requests"])
    start, turn = -row.id if row.id < 0 else None, 0
    while True:
        ((has_saga, answer, has_start, is_untaken),) = await asker.read(ANSWER, id=id, start=start)
        if answer is not None:
            return json.loads(answer)
        if start and command == "abort" and is_untaken and await _withdraw(asker, start):
            return True  # the node that had taken it is gone
        if not has_saga and not has_start:  # there will be no answer
            raise _gone(row)
        await listening.wait("answered", id, turn)
        turn += 1


def _gone(row: SagaRow) -> NoSuchSaga:
    return NoSuchSaga(f"no saga has the key {row.key!r}")


async def _add_request(
    asker: connections.Asker, row: SagaRow, command: str, value: str, payloads: Payloads
) -> tuple[SagaRow, int]:
    """Add a request for a saga or a start. Return its target and its id.

    A start that is gone may have become a saga a moment before. So the key is looked up again, and
    the saga is the target if it has the same name and input. Raises `NoSuchSaga`.
    """
    while True:
        text, id = (ASK, row.id) if row.id >= 0 else (ASK_START, -row.id)
        rows = await asker.ask(text, command=command, value=value, id=id)
        if rows:
            return row, int(rows[0][0])
        rows_of_key = [SagaRow(*saga) for saga in await asker.read(FIND_NOW, key=row.key)]
        current = max(rows_of_key, key=lambda saga: saga.id, default=row)
        is_same = current.saga == row.saga and payloads.is_same(row.input, current.input)
        if row.id >= 0 or current is row or not is_same:
            raise _gone(row)
        row = current


async def _withdraw(asker: connections.Asker, start: int) -> bool:
    """Withdraw a client's start.

    Return False if it is gone, or if a node has taken it.
    """
    messages = [message for (message,) in await asker.ask(WITHDRAW, id=start)]
    await _notify(asker, messages)
    return bool(messages)


async def _notify(asker: connections.Asker, messages: Sequence[str]) -> None:
    """Notify the other nodes, which look by themselves as well."""
    if messages:
        with contextlib.suppress(StoreUnavailable):
            await asker.ask(notifications.NOTIFY, messages=list(messages))
