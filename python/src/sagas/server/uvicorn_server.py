"""Runs the application under uvicorn: its settings, and a prompt stop.

docs/dev/adr lists what is used of uvicorn and of Starlette.
"""

from __future__ import annotations

import asyncio
import contextlib
import functools
import logging
import resource
import signal
import socket
import threading
from collections.abc import Callable
from typing import Any, NamedTuple

import uvicorn  # type: ignore[import]
from uvicorn.protocols.http.auto import AutoHTTPProtocol  # type: ignore[import]

from sagas.server.app import application
from sagas.server.connections import SPARE, Connection, Connections
from sagas.server.service import Service
from sagas.server.service_start import ServiceStart
from sagas.server.settings import Settings

FOR_STORE = 200  # descriptors that connections leave to the store and its children
FOR_REQUESTS = 10.0  # seconds that requests at work have, once it is asked to stop
FOR_CLOSE = 15.0  # seconds that a stop may take in addition to requests and functions
STARTED = 0.005  # seconds between two looks whether uvicorn has started: it makes no event of it
SIGNALS = signal.SIGTERM, signal.SIGINT
logger = logging.getLogger("sagas.server")


def protocol(connections: Connections) -> type[asyncio.Protocol]:
    """Return uvicorn's protocol, wrapped in a `Connection`."""

    class Counted(Connection):
        def __init__(self, **options: Any) -> None:
            super().__init__(AutoHTTPProtocol(**options), connections)

    return Counted


def allowed_connections(wanted: int) -> int:
    """Return how many of the wanted connections the descriptor limit allows.

    The limit is raised as far as possible.
    """
    soft, hard = resource.getrlimit(resource.RLIMIT_NOFILE)
    need = wanted + SPARE + FOR_STORE
    if soft != resource.RLIM_INFINITY and soft < need:
        soft = need if hard == resource.RLIM_INFINITY else min(need, hard)
        resource.setrlimit(resource.RLIMIT_NOFILE, (soft, hard))
    if soft == resource.RLIM_INFINITY:
        return wanted
    return max(16, min(wanted, soft - SPARE - FOR_STORE))


def config_of(app: Any, connections: Connections) -> uvicorn.Config:
    """Return the settings of uvicorn. It logs nothing, because the application reports errors."""
    return uvicorn.Config(
        app,
        http=protocol(connections),
        loop="asyncio",
        ws="none",
        lifespan="off",
        access_log=False,
        log_config=None,
        log_level="critical",
        server_header=False,
        timeout_keep_alive=15,
        backlog=2048,
        proxy_headers=False,
    )


class StartCallbacks(NamedTuple):
    """What is called when the server answers: with its store open, or before."""

    opened: Callable[[], None]
    waits: Callable[[], None]


class Serving:
    """A running server. When it is stopped, it ends streams and long waits."""

    def __init__(
        self,
        server: uvicorn.Server,
        service: Service,
        connections: Connections,
        overdue: Callable[[], None] | None,
        hung_up: Callable[[], None] | None,
    ) -> None:
        self._server, self._service, self._connections = server, service, connections
        self._hung_up = hung_up
        self._overdue, self._deadline = overdue, list[asyncio.TimerHandle]()

    async def run(
        self,
        listening: socket.socket,
        start: ServiceStart,
        callbacks: StartCallbacks,
        until: asyncio.Future[None] | None,
    ) -> None:
        """Serve until a signal, or until this future is done. Raises the errors of `Store`."""
        work = asyncio.ensure_future(self._server.serve(sockets=[listening]))
        try:
            while not self._server.started and not work.done():
                await asyncio.sleep(STARTED)
            if until is not None:
                until.add_done_callback(lambda _: self.stop("its program ends it"))
            with self._signals() if until is None else contextlib.nullcontext():
                if not start.is_open:
                    callbacks.waits()
                if start.is_open or await start.wait():
                    await self._opened(work, callbacks)
                else:
                    await work
        finally:
            for timer in self._deadline:
                timer.cancel()
            work.cancel()
            with contextlib.suppress(asyncio.CancelledError):
                await work

    async def _opened(self, work: asyncio.Future[None], callbacks: StartCallbacks) -> None:
        """Serve with an open store. Raises `InvalidStore` if the database refuses this node."""
        refusal = self._service.store._refusal
        refusal.add_done_callback(lambda _: self.stop("the database refuses this node"))
        callbacks.opened()
        await work
        if refusal.done():
            raise refusal.result()

    @contextlib.contextmanager
    def _signals(self) -> Any:
        """Handle signals in place of uvicorn's own handlers."""
        loop = asyncio.get_running_loop()
        is_main = threading.current_thread() is threading.main_thread()
        handlers: dict[signal.Signals, Callable[[], None]]
        handlers = {number: functools.partial(self.stop, number.name) for number in SIGNALS}
        if self._hung_up:
            handlers[signal.SIGHUP] = self._hung_up
        for number, handler in handlers.items() if is_main else ():
            loop.add_signal_handler(number, handler)
        if self._server.should_exit:
            self.stop("a signal during the start")
        try:
            yield
        finally:
            for number in handlers if is_main else ():
                loop.remove_signal_handler(number)

    def stop(self, reason: str) -> None:
        """Accept no further requests, and end those that wait.

        Active requests get some time. A second call aborts them at once.
        """
        is_first = not self._service.stopping.done()
        logger.info("service stops: %s%s", reason, "" if is_first else ", at once")
        self._server.should_exit = True
        self._service.stop()
        self._connections.stop()
        if not is_first:
            self._abort()
            return
        settings = self._service.settings
        loop = asyncio.get_running_loop()
        self._deadline.append(loop.call_later(FOR_REQUESTS, self._abort))
        if self._overdue:
            seconds = FOR_REQUESTS + settings.shutdown_timeout + FOR_CLOSE
            last = threading.Timer(seconds, self._overdue)
            last.daemon = True
            last.start()

    def _abort(self) -> None:
        """Abort each request and its connection."""
        self._server.force_exit = True
        self._connections.abort()


async def run(
    settings: Settings,
    listening: socket.socket,
    opened: Callable[[], None],
    overdue: Callable[[], None] | None = None,
    hung_up: Callable[[], None] | None = None,
    until: asyncio.Future[None] | None = None,
    waits: Callable[[], None] = lambda: None,
) -> None:
    """Serve at a socket until the server is stopped. Raises the errors of `Store`.

    Args:
        settings: The settings of the service.
        listening: The socket.
        opened: It is called when the server answers, with its store open.
        overdue: It is called in a thread if the stop takes too long (default: none).
        hung_up: It is called at `SIGHUP` (default: `SIGHUP` ends the process).
        until: The server stops when this future is done (default: at `SIGTERM` or `SIGINT`).
        waits: It is called when the server answers, and waits for its database.
    """
    connections = Connections(
        allowed_connections(settings.concurrency.connections),
        settings.head_time,
        settings.send_time,
        settings.concurrency,
        settings.trusted_proxies,
    )
    guard, service = application(settings, connections)
    service.prepare()
    start, siblings = ServiceStart(guard, service), settings.siblings
    if siblings:
        await siblings.open()
    try:
        if not settings.wait:
            await start.open()
        server = uvicorn.Server(config_of(guard, connections))
        serving = Serving(server, service, connections, overdue, hung_up)
        await serving.run(listening, start, StartCallbacks(opened, waits), until)
    finally:
        if start.is_open:
            await service.end()
        if siblings:
            await siblings.close()
