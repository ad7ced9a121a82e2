"""Server-sent events, with a bounded queue for each listener."""

from __future__ import annotations

import asyncio
import contextlib
import dataclasses
import json
import secrets
import time
from collections import deque
from collections.abc import AsyncIterator, Callable
from typing import Any

from starlette.responses import StreamingResponse

from sagas.base.events import Event
from sagas.server.middleware import FOLLOWED, Receive, Scope, Send

KEPT = 2000
MAX_WAITING = 1000
KEEPALIVE = 15.0  # seconds after which a comment shows that the stream is open
CHECK_INTERVAL = 2.0  # seconds between two looks whether its token still counts
MISSED = "event: missed\ndata: {}\n\n"


@dataclasses.dataclass(eq=False, slots=True)
class Listener:
    """One stream of the events that its client may see.

    It is `lost` if the client did not read what was sent.
    """

    key: str | None
    saga: str | None
    sees: Callable[[Event], bool]
    queue: deque[tuple[int, str]] = dataclasses.field(default_factory=deque)
    awake: asyncio.Event = dataclasses.field(default_factory=asyncio.Event)
    lost: bool = False

    def wants(self, event: Event) -> bool:
        is_selected = (self.key is None or event.key == self.key) and (
            self.saga is None or event.saga == self.saga
        )
        return is_selected and self.sees(event)


class Hub:
    """Numbers events from the program's start on.

    An interrupted stream resumes after the last event that it saw, if the hub still has that
    event.
    """

    def __init__(self) -> None:
        self.boot = secrets.token_hex(4)
        self.count = 0
        self.closed = False
        self._kept: deque[tuple[int, Event]] = deque(maxlen=KEPT)
        self._listeners: dict[Listener, None] = {}
        self.opened: Callable[[], object] = lambda: None
        """Called when a stream is opened."""

    @property
    def listeners(self) -> int:
        return len(self._listeners)

    @property
    def now(self) -> str:
        """Return the id of the last event. A stream that resumes after it has everything that
        follows.
        """
        return f"{self.boot}-{self.count}"

    def publish(self, event: Event) -> None:
        """Send an event to each listener that wants it."""
        self.count += 1
        self._kept.append((self.count, event))
        text: str | None = None
        for listener in list(self._listeners):
            if listener.wants(event):
                text = text or written(event)
                self._send(listener, text)

    def missed(self) -> None:
        """Report that events of other services may be lost.

        Each stream gets this report, including one that later resumes after an earlier event.
        """
        self.count += 1
        self._kept.clear()
        for listener in list(self._listeners):
            self._send(listener, MISSED)

    def _send(self, listener: Listener, text: str) -> None:
        if len(listener.queue) >= MAX_WAITING:
            listener.lost = True
            self._listeners.pop(listener, None)
        else:
            listener.queue.append((self.count, text))
        listener.awake.set()

    def close(self) -> None:
        """End all streams."""
        self.closed = True
        for listener in self._listeners:
            listener.awake.set()

    def events_after(self, last: str | None) -> tuple[list[tuple[int, Event]], bool]:
        """Return the events after an id, and whether some of them are no longer stored."""
        if last is None:
            return [], False
        boot, _, number = last.partition("-")
        if (
            boot != self.boot
            or not number.isdigit()
            or len(number) > 15
            or int(number) > self.count
        ):
            return [], True
        first = self._kept[0][0] if self._kept else self.count + 1
        return [(count, event) for count, event in self._kept if count > int(number)], int(
            number
        ) + 1 < first

    async def stream(
        self, listener: Listener, last: str | None, still: Callable[[], bool]
    ) -> AsyncIterator[str]:
        """Yield server-sent events while `still()` is true.

        An event `missed` says that some were lost: the client should read the sagas themselves.
        """
        self._listeners[listener] = None
        self.opened()
        last_sent = time.monotonic()
        try:
            events, missed = self.events_after(last)
            yield (
                "retry: 2000\nid: "
                f"{self.boot}-{self.count if missed or last is None else last.partition('-')[2]}\n"
            )
            yield MISSED if missed else ": open\n\n"
            for count, event in events:
                if listener.wants(event):
                    yield f"id: {self.boot}-{count}\n{written(event)}"
            while not self.closed:
                while listener.queue and still():
                    count, text = listener.queue.popleft()
                    yield f"id: {self.boot}-{count}\n{text}"
                    last_sent = time.monotonic()
                if listener.lost:
                    yield MISSED
                    return
                listener.awake.clear()
                with contextlib.suppress(TimeoutError):
                    async with asyncio.timeout(CHECK_INTERVAL):
                        await listener.awake.wait()
                if not still():
                    return
                if time.monotonic() >= last_sent + KEEPALIVE:
                    yield ": \n\n"
                    last_sent = time.monotonic()
        finally:
            self._listeners.pop(listener, None)


def written(event: Event) -> str:
    """Return an event as a stream sends it, without its id."""
    fields = {name: value for name, value in dataclasses.asdict(event).items() if value is not None}
    return f"event: {event.name}\ndata: {json.dumps(fields)}\n\n"


class Stream(StreamingResponse):
    """A streaming response that frees its slot when it ends."""

    def __init__(self, content: Any, leave: Callable[[], None]) -> None:
        super().__init__(
            content, media_type="text/event-stream", headers={"X-Accel-Buffering": "no"}
        )
        self._leave = leave

    async def __call__(self, scope: Scope, receive: Receive, send: Send) -> None:
        """Send the stream until the client sends something after its request."""
        sending = asyncio.ensure_future(super().__call__(scope, receive, send))
        try:
            await asyncio.wait({sending, scope[FOLLOWED]}, return_when=asyncio.FIRST_COMPLETED)
        finally:
            if not sending.done():
                sending.cancel()
            with contextlib.suppress(asyncio.CancelledError):
                await sending
            self._leave()
