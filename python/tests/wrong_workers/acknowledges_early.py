"""A message is acknowledged when it is taken: if its worker is killed, it is lost."""

from __future__ import annotations

from sagas import celery

FINDS = "acknowledged-early"
STRIKES = "call"


def apply() -> None:
    """Acknowledge as Celery does by default."""
    celery.LATE["acks_late"] = False
