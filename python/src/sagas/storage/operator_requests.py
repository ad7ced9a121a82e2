"""Statements that add requests of operators, and the errors of their answers.

The program that drives a saga executes the requests for it.
"""

from __future__ import annotations

from typing import Any

from sagas.base import errors
from sagas.base.errors import SagasError
from sagas.definition.capacity import SHARD_CAPACITY

WITHDRAW = """
WITH gone AS (DELETE FROM pending_starts WHERE key = ? AND node IS NULL RETURNING id, commands)
SELECT 'begun ' || id FROM gone
UNION ALL
SELECT 'answered ' || (request ->> 0) FROM gone, jsonb_array_elements(commands) request
"""
"""Withdraw a client's start, with the requests for it.

The rows are the messages to send afterwards (`notifications.NOTIFY`). They wake the callers that
wait for the start or for a request. No row is returned if no start has the key, or if a node has
taken it.

If a node has taken the start, its saga may be in a shard a moment later, even if the node does not
answer any more. Such a saga is aborted as a saga.
"""
WITHDRAW_START = WITHDRAW.replace("key = ?", "id = ?")
"""The same for the start with this id."""
ASK = f"""
INSERT INTO operator_commands(key, command, value, at, saga)
SELECT s.key, ?, ?, extract(epoch FROM now()), s.id
FROM sagas s JOIN shards l ON l.shard = s.id / {SHARD_CAPACITY}
WHERE s.id = ? FOR KEY SHARE OF l, s RETURNING id
"""
"""Add a request for a saga. No row is returned if the saga is gone.

A program that deletes a shard deletes the row of the shard first, and then the requests. One that
deletes a saga of a remaining shard locks the row of the saga first. This statement locks both rows
in the order of their names in the clause.
"""
ASK_START = """
UPDATE pending_starts SET commands = commands || jsonb_build_array(
  jsonb_build_array(nextval('operator_commands_id_seq'), ?::text, ?::text,
    extract(epoch FROM now())))
WHERE id = ? RETURNING (commands -> -1 ->> 0)::bigint
"""
"""Add a request for a client's start, in the row of the start.

No row is returned if the start is gone, or has become a saga.
"""
ANSWER = """
SELECT r.id IS NOT NULL, r.answer, i.id IS NOT NULL, i.id IS NOT NULL AND i.node IS NULL
FROM (SELECT) one LEFT JOIN operator_commands r ON r.id = ? LEFT JOIN pending_starts i ON i.id = ?
"""
"""For a request's id and the id of its start: the state of the request.

The columns are: whether the request is one for a saga, its answer, whether the start still exists,
and whether no node has taken it. All are of one moment.
"""
ERRORS = {
    error_type.__name__: error_type
    for error_type in vars(errors).values()
    if isinstance(error_type, type) and issubclass(error_type, SagasError)
}
"""The errors that an answer may name.

An answer of a later release may name another one.
"""


def checked_answer(answer: Any) -> Any:
    """Return the answer to a request, or raise the error that it names."""
    if isinstance(answer, dict) and "error" in answer:
        name = str(answer["error"]).partition(": ")[0]
        raise ERRORS.get(name, SagasError)(reason(answer))
    return answer


def reason(answer: dict[str, Any]) -> str:
    """Return why a request was refused, without the error's name."""
    name, _, text = str(answer["error"]).partition(": ")
    return text or name
