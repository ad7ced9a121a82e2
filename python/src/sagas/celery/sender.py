"""Messages to the broker, sent by one thread so that the event loop never blocks."""

from __future__ import annotations

import asyncio
import contextlib
import os
import queue
import threading
from typing import Any, NamedTuple

from sagas.base.logger import logger
from sagas.celery.store_check import unreached
from sagas.runtime.remote_steps import Unsent

POLICY = {"max_retries": 1, "interval_start": 0, "interval_step": 0, "interval_max": 0}
"""A broken connection is opened again once. Further retries are up to the caller."""


class _Message(NamedTuple):
    task: str
    order: dict[str, Any]
    token: str
    shown: str
    loop: asyncio.AbstractEventLoop
    sent: asyncio.Future[None]


class Sender:
    """Send messages in the order of the calls."""

    def __init__(self, app: Any) -> None:
        self._app = app
        self._messages: queue.SimpleQueue[_Message] = queue.SimpleQueue()
        self._thread: threading.Thread | None = None
        self._pid = 0

    async def send(self, task: str, order: dict[str, Any], token: str, shown: str) -> None:
        """Send a message whose id is the token.

        Raises:
            Unsent: The broker did not confirm the message, which it may still have received.
        """
        if self._thread is None or self._pid != os.getpid():
            self._pid, self._messages = os.getpid(), queue.SimpleQueue()
            self._thread = threading.Thread(
                target=self._run, args=(self._messages,), name="sagas-celery", daemon=True
            )
            self._thread.start()
        loop = asyncio.get_running_loop()
        message = _Message(task, order, token, shown, loop, loop.create_future())
        self._messages.put(message)
        await message.sent

    def _run(self, messages: queue.SimpleQueue[_Message]) -> None:
        while True:
            message = messages.get()
            fault: Unsent | None = None
            if not message.sent.cancelled():
                try:
                    self._send(message)
                except Exception as error:  # whatever the broker's client raises
                    logger.warning(
                        "%s: the message could not be sent: %s. Retrying",
                        message.token,
                        unreached(self._app, error),
                    )
                    fault = Unsent(f"{type(error).__name__}: {error}")
            with contextlib.suppress(RuntimeError):  # the loop is closed
                message.loop.call_soon_threadsafe(_resolve, message.sent, fault)

    def _send(self, message: _Message) -> None:
        task = self._app.tasks[message.task]
        task.apply_async(
            (message.order,),
            task_id=message.token,
            argsrepr=message.shown,
            kwargsrepr="{}",
            retry=True,
            retry_policy=POLICY,
        )


def _resolve(sent: asyncio.Future[None], fault: Unsent | None) -> None:
    if not sent.done():
        sent.set_exception(fault) if fault else sent.set_result(None)
