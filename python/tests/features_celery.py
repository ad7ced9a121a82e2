"""The Celery workers of a round of `kills_features.py`, by the file that SAGAS_FEATURES names.

    python3 -m celery -A features_celery worker
"""

from __future__ import annotations

import os
from typing import Any

import celery
from features_shop import Settings, Shop

import sagas.celery

WORD = "SAGAS_FEATURES"


def queue_of(settings: Settings) -> Any:
    """Return the queue of a round; None if it has no Celery workers."""
    if not settings.broker:
        return None
    app = celery.Celery("features", broker=settings.broker)
    app.conf.update(
        sagas_store=settings.direct,
        worker_prefetch_multiplier=4,
        broker_connection_retry_on_startup=True,
        broker_connection_max_retries=None,
    )
    return sagas.celery.Queue(app, settings.queue, patience=1.0)


if WORD in os.environ:
    queue = queue_of(Settings.read(os.environ[WORD]))
    app = queue.app
    shop = Shop(Settings.read(os.environ[WORD]), 2, queue)
