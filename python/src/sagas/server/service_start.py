"""The start of a service: its store is opened at once, or when its database answers.

While the service waits for its database, it answers its health checks. Any other request gets the
problem `Starting`.
"""

from __future__ import annotations

import asyncio
import contextlib
import logging

from starlette.responses import Response

from sagas.base.errors import InvalidStore, SagasError, StoreUnavailable
from sagas.base.pauses import doubling_pauses
from sagas.server.json_bodies import Json
from sagas.server.middleware import Guard, Receive, Scope, Send, answer_of
from sagas.server.operations import headers_of
from sagas.server.problems import HEADERS, Problem
from sagas.server.service import Service

FIRST_PAUSE, MAX_PAUSE = 0.1, 5.0  # seconds
LIVE, READY = "/health/live", "/health/ready"
WAITING = "waiting for the database"
"""The reason why the service is not ready."""
NO_RIGHT = "42501"
"""The SQLSTATE of a role without a right."""
logger = logging.getLogger("sagas.server")


def may_change(error: SagasError) -> bool:
    """Return whether a database may be usable later.

    It is, once it answers, and once its owner has made the tables that this role may not make.
    """
    is_denied = getattr(error.__cause__, "sqlstate", None) == NO_RIGHT
    return isinstance(error, StoreUnavailable) or is_denied


async def answer_waiting(scope: Scope, receive: Receive, send: Send) -> None:
    """Answer a request while the service waits for its database."""
    answer = _answer(scope)
    if scope["method"] == "HEAD":
        answer = headers_of(answer)
    await answer(scope, receive, send)


def _answer(scope: Scope) -> Response:
    if scope["method"] in ("GET", "HEAD") and scope["path"] == LIVE:
        return Json({"alive": True})
    if scope["method"] in ("GET", "HEAD") and scope["path"] == READY:
        return Json({"ready": False, "reason": WAITING}, 503, HEADERS[503])
    problem = Problem("Starting", f"the service is {WAITING}. Retry the same request later")
    answer = answer_of(scope, problem)
    answer.headers["connection"] = "close"  # the body of the request is not read
    return answer


class ServiceStart:
    """Opens a service.

    Attributes:
        is_open: Whether the service is open, and has to be ended.
    """

    def __init__(self, guard: Guard, service: Service) -> None:
        self._guard, self._service = guard, service
        self.is_open = False

    async def open(self) -> None:
        """Open the service. Raises the errors of `Store`."""
        await self._service.begin()
        self.is_open = True

    async def wait(self) -> bool:
        """Open the service when its database answers.

        Return False if the service was stopped before.

        Raises:
            StoreUnavailable: The database did not answer within the seconds of `Settings.wait`.
            InvalidStore: It has no tables by then, and this role may not make them.
            SagasError: Another error of `Store`, at once.
        """
        app, self._guard.app = self._guard.app, answer_waiting
        opening = asyncio.ensure_future(self._open_later())
        try:
            ends = (opening, self._service.stopping)
            await asyncio.wait(ends, return_when=asyncio.FIRST_COMPLETED)
            if not opening.done():
                return False
            opening.result()
        finally:
            opening.cancel()
            with contextlib.suppress(Exception, asyncio.CancelledError):
                await opening
        self._guard.app = app
        return True

    async def _open_later(self) -> None:
        loop, settings, reason = asyncio.get_running_loop(), self._service.settings, ""
        until, pauses = loop.time() + settings.wait, doubling_pauses(FIRST_PAUSE, MAX_PAUSE)
        is_stopped = self._service.stopping.done
        while not is_stopped():  # a connection attempt may swallow the cancellation
            try:
                await self._service.reach()
                if not is_stopped():
                    await self.open()
                return
            except (StoreUnavailable, InvalidStore) as error:
                left = until - loop.time()
                if left <= 0 or not may_change(error):
                    raise
                if str(error) != reason:
                    reason = str(error)
                    logger.warning("%s (--wait %g): %s", WAITING, settings.wait, reason)
            await asyncio.sleep(min(next(pauses), left))
