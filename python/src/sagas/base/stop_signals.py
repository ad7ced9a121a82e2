"""The signals that ask a program to end."""

from __future__ import annotations

import asyncio
import signal
from typing import Any


async def until_stopped(refusal: asyncio.Future[Any]) -> None:
    """Wait for SIGTERM or SIGINT, or until nothing can be executed any more."""
    loop = asyncio.get_running_loop()
    stop: asyncio.Future[None] = loop.create_future()

    def request_stop() -> None:
        if not stop.done():
            stop.set_result(None)

    for number in (signal.SIGTERM, signal.SIGINT):
        loop.add_signal_handler(number, request_stop)
    try:
        ends: list[asyncio.Future[Any]] = [stop, refusal]
        await asyncio.wait(ends, return_when=asyncio.FIRST_COMPLETED)
    finally:
        for number in (signal.SIGTERM, signal.SIGINT):
            loop.remove_signal_handler(number)
