"""The server's reply to a step's own commit is ignored."""

from __future__ import annotations

from collections.abc import Callable
import contextlib

import psycopg

from sagas.storage.postgresql.step_connections import AsyncStepLink

FINDS = {"no-effect"}
MOMENT = "the_commit_of_a_step_inside_is_refused"
UNRECORDED = "a step's own transaction has no event, so no record has it"


def apply() -> None:
    """Report each as committed."""
    right = AsyncStepLink.end

    async def end(self: AsyncStepLink, text: str, then: Callable[[], object]) -> None:
        with contextlib.suppress(psycopg.Error):
            await right(self, text, then)

    setattr(AsyncStepLink, "end", end)
