"""A relay between a node and its server.

It delays data, cuts connections, and cuts them between a statement and its reply.
"""

from __future__ import annotations

import asyncio
import contextlib
import random
import threading
from collections import Counter
from collections.abc import Iterator


class Relay:
    """A relay that listens on its own port, in its own thread.

    The chances may be changed at any time.
    """

    def __init__(self, target: int, seed: int = 0, host: str = "127.0.0.1") -> None:
        self.host, self.target, self.port = host, target, 0
        self.before = self.after = self.delay = 0.0
        """Chances: that a statement is lost; that its reply is lost, once it was done; that either
        is late.
        """
        self.mark: bytes | None = None
        """The next statement that holds this is done, and its connection cut before the reply; then
        it is None.
        """
        self.still: bytes | None = None
        """Once this text passes, in either direction, the relay stops: it holds that and all other
        data, and connections stay open, until `go_on`.
        """
        self.stands = threading.Event()
        self.unanswered: bytes | None = None
        """The next statement that holds this is done, and the data from its connection's server is
        held until `answer`; then it is None.
        """
        self.owes = threading.Event()
        """Such a statement was passed on."""
        self.cuts: Counter[str] = Counter()
        self._draw = random.Random(seed)
        self._ready = threading.Event()
        self._loop = asyncio.new_event_loop()
        self._thread = threading.Thread(target=self._run, daemon=True)
        self._links: set[asyncio.StreamWriter] = set()
        self._passes = asyncio.Event()
        self._passes.set()
        self._answers = asyncio.Event()

    def start(self) -> None:
        """Listen."""
        self._thread.start()
        self._ready.wait(60)

    def stop(self) -> None:
        """Cut all connections, and end."""
        self._loop.call_soon_threadsafe(self._end)
        self._thread.join(60)

    def cut(self) -> None:
        """Cut all connections."""
        self._loop.call_soon_threadsafe(self._cut_all)

    def go_on(self) -> None:
        """Pass on the data that was held."""
        self.still = None
        self._loop.call_soon_threadsafe(self._passes.set)

    def hold(self) -> None:
        """Hold all data, until `go_on`."""
        self._loop.call_soon_threadsafe(self._passes.clear)

    def answer(self) -> None:
        """Pass on the replies that were held."""
        self._loop.call_soon_threadsafe(self._answers.set)

    def _cut_all(self) -> None:
        self.cuts["all"] += 1
        for link in list(self._links):
            link.close()

    def _end(self) -> None:
        self._cut_all()
        self._loop.stop()

    def _run(self) -> None:
        asyncio.set_event_loop(self._loop)
        server = self._loop.run_until_complete(asyncio.start_server(self._serve, "127.0.0.1", 0))
        self.port = server.sockets[0].getsockname()[1]
        self._ready.set()
        self._loop.run_forever()
        for task in asyncio.all_tasks(self._loop):
            task.cancel()
        self._loop.run_until_complete(asyncio.sleep(0))
        self._loop.close()

    async def _serve(self, reader: asyncio.StreamReader, writer: asyncio.StreamWriter) -> None:
        with contextlib.suppress(OSError):
            back, forth = await asyncio.open_connection(self.host, self.target)
            self._links |= {writer, forth}
            marked, owes = asyncio.Event(), asyncio.Event()
            both = [
                asyncio.create_task(self._pass(reader, forth, "before", marked, owes)),
                asyncio.create_task(self._pass(back, writer, "after", marked, owes)),
            ]
            await asyncio.wait(both, return_when=asyncio.FIRST_COMPLETED)
            # the client has sent everything, and still receives what is held
            if both[0].done() and not self._passes.is_set():
                forth.write_eof()
                await both[1]
            self._links -= {writer, forth}
            for task in both:
                task.cancel()
            writer.close()
            forth.close()

    async def _pass(
        self,
        reader: asyncio.StreamReader,
        writer: asyncio.StreamWriter,
        way: str,
        marked: asyncio.Event,
        owes: asyncio.Event,
    ) -> None:
        with contextlib.suppress(OSError):
            while data := await reader.read(1 << 16):
                if way == "before" and self.mark and self.mark in data:
                    self.mark = None
                    marked.set()
                elif way == "after" and marked.is_set():
                    self.cuts["marked"] += 1
                    return
                if self.still and self.still in data:
                    self._passes.clear()
                    self.stands.set()
                await self._passes.wait()
                if way == "before" and self.unanswered and self.unanswered in data:
                    self.unanswered = None
                    owes.set()
                    self.owes.set()
                elif way == "after" and owes.is_set():
                    await self._answers.wait()
                if self._draw.random() < self.delay:
                    await asyncio.sleep(self._draw.uniform(0.0, 0.05))
                if self._draw.random() < getattr(self, way):
                    self.cuts[way] += 1
                    return
                writer.write(data)
                await writer.drain()


@contextlib.contextmanager
def relaying(target: int, seed: int = 0, host: str = "127.0.0.1") -> Iterator[Relay]:
    """Run a relay until the block ends."""
    relay = Relay(target, seed, host)
    relay.start()
    try:
        yield relay
    finally:
        relay.stop()
