"""Decisions on the store itself, such as pauses."""

from __future__ import annotations

from sagas.core.decisions import Decision, request_fields, request_text, subject_key
from sagas.storage.admin import Source

NOTED = """
INSERT INTO operator_commands(key, command, value, at, answer) VALUES(?, ?, ?, ?, 'true')
"""
OLD = "DELETE FROM operator_commands WHERE substr(key, 1, 2) = '/:' AND at < ?"
"""No saga has such a key, so no deletion of sagas deletes these decisions."""


def put(
    connection: Source,
    decision: Decision,
    subject: str,
    at: float,
    by: str | None,
    note: str | None = None,
) -> None:
    """Store a decision on the store, which has been carried out.

    Args:
        decision: What was decided.
        subject: On what, for example the name of a pause's scope.
        at: When, in seconds since 1970.
        by: The person or program that decided, or None.
        note: The reason, or None.
    """
    value = request_text(request_fields(by, note))
    connection.changed(NOTED, subject_key(subject), decision.value, value, at)


def drop_old(connection: Source, before: float) -> int:
    """Delete the decisions on the store before a time, and return how many there were."""
    return connection.changed(OLD, before)
