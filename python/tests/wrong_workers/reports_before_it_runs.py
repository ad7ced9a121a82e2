"""The result of a function is reported before it is called."""

from __future__ import annotations

import contextlib
from typing import Any

from world import expected

from sagas.celery.worker import Work
from sagas.core import outcomes
from sagas.core.attempt.external_work import Order

FINDS = "no-effect"
STRIKES = "run"


def apply() -> None:
    """Report first."""

    def perform(self: Work, message: dict[str, Any]) -> None:
        order, function = Order.read(message), self.manner.function
        session = self.queue.session()
        begun = session.begin(order)
        if begun and function:
            session.report(
                order,
                outcomes.succeeded(
                    expected(order.key, order.step) if order.kind == "run" else None
                ),
            )
            with contextlib.suppress(Exception):
                function(self._task(order, begun))

    setattr(Work, "perform", perform)
