"""The command `sagas demo`: a service with a worker and two hundred sagas, to look at.

All of it is in this process and in a temporary folder, so its end leaves nothing.
"""

from __future__ import annotations

import argparse
import asyncio
import errno
import logging
import os
import pathlib
import signal
import socket
import sys
import tempfile
import threading
import webbrowser
from collections.abc import Callable

from sagas.api.service_client import ServiceClient
from sagas.base.errors import SagasError
from sagas.server import demo_orders, log_format
from sagas.server.command import (
    CANNOT,
    GOOD,
    INTERRUPTED,
    USAGE,
    Trouble,
    listen_of,
    missing_packages,
)
from sagas.server.demo_orders import Shop
from sagas.server.settings import Settings, is_loopback

AT_ONCE = 160
"""The number of sagas that are started first. The others follow one by one, so the dashboard has
something to show by itself.
"""
PAUSE = 0.5
"""Seconds between the starts of these others."""
FOR_CREW = 3.0
"""Seconds that the worker, and the program that starts sagas, have to end."""
SIGNALS = signal.SIGINT, signal.SIGTERM, signal.SIGHUP
ENDING = """\
Example:
  sagas demo --no-browser

Exit status:
  0    stopped by SIGTERM or Ctrl-C
  2    invalid arguments, the address is in use, or sagas[server] is not installed
  4    the temporary folder or the engine cannot be used
  130  interrupted while it starts"""
TEXT = """\
sagas demo: {url}
{count} sagas start, and a worker fails at times. No token is needed. Ctrl-C stops the demo, and
removes its files."""


def parser() -> argparse.ArgumentParser:
    """Return the parser of `sagas demo`."""
    result = argparse.ArgumentParser(
        prog="sagas demo",
        description="Show the dashboard with two hundred sagas, and a worker that fails at times. "
        "The demo is in a temporary folder, which its end removes.",
        epilog=ENDING,
        formatter_class=argparse.RawDescriptionHelpFormatter,
    )
    result.add_argument(
        "--no-browser",
        action="store_true",
        help="only print the address (default: also open it, if there is a graphical browser)",
    )
    result.add_argument(
        "--listen",
        default="127.0.0.1:0",
        metavar="HOST:PORT",
        help="loopback address to listen on (default: 127.0.0.1, on a free port)",
    )
    return result


def has_display() -> bool:
    """Return whether a browser can open a window. A browser in the terminal would occupy it."""
    if sys.platform == "darwin":
        return True
    return bool(os.environ.get("DISPLAY") or os.environ.get("WAYLAND_DISPLAY"))


class Crew:
    """The worker of a demo, and the program that starts its sagas, each in a thread.

    `on_fault` is called in a thread if one of them fails.
    """

    def __init__(self, url: str, on_fault: Callable[[], object]) -> None:
        self._on_fault, self._stopping = on_fault, threading.Event()
        self._fault: BaseException | None = None
        self._starts = [*demo_orders.starts()]
        self._client = ServiceClient(url)
        fates = {start.key: start.fate for start in self._starts}
        self._worker = Shop(fates, self._stopping).worker(url)
        self._threads = [
            threading.Thread(target=self._live, args=(work,), daemon=True)
            for work in (self._worker.run, self._start_all)
        ]

    def begin(self) -> None:
        """Start both."""
        for thread in self._threads:
            thread.start()

    def _live(self, work: Callable[[], None]) -> None:
        try:
            work()
        except Exception as error:
            self._fault = self._fault or error
            self._on_fault()

    def _start_all(self) -> None:
        for number, start in enumerate(self._starts):
            if self._stopping.wait(PAUSE if number >= AT_ONCE else 0):
                return
            city = start.input.get("city")
            labels = {"city": str(city)} if city else None
            self._client.start(start.definition, start.key, start.input, labels=labels)

    async def stop(self) -> None:
        """Stop both, and wait for them; at most a few seconds, because the service may be down.

        Raises the error of the first one that failed.
        """
        self._stopping.set()
        self._worker.stop()
        for thread in self._threads:
            await asyncio.to_thread(thread.join, FOR_CREW)
        self._client.close()
        if self._fault:
            raise self._fault


async def show(listening: socket.socket, path: str, is_browser_wanted: bool) -> None:
    """Show the demo until a signal. Raises the errors of `Store`, `OSError`."""
    from sagas.server.uvicorn_server import run

    loop = asyncio.get_running_loop()
    interrupted, until, opened = (loop.create_future() for _ in range(3))

    def interrupt() -> None:
        if not interrupted.done():
            interrupted.set_result(None)

    def handle_signals() -> None:
        for number in SIGNALS:
            loop.add_signal_handler(number, interrupt)

    def is_open() -> None:
        handle_signals()  # in place of uvicorn's own handlers
        opened.set_result(None)

    handle_signals()  # until the loop is closed, so that the folder is removed in any case
    host, port = listening.getsockname()[:2]
    url = f"http://{f'[{host}]' if ':' in host else host}:{port}"
    with tempfile.TemporaryDirectory(prefix="sagas-demo-", dir=path) as folder:
        store = str(pathlib.Path(folder) / "demo.db")
        settings = Settings(store, demo_orders.definitions(), host, port)
        serving = asyncio.ensure_future(run(settings, listening, is_open, until=until))
        await asyncio.wait((serving, opened), return_when=asyncio.FIRST_COMPLETED)
        try:
            if opened.done():
                crew = Crew(url, lambda: loop.call_soon_threadsafe(interrupt))
                crew.begin()
                print(TEXT.format(url=f"{url}/", count=demo_orders.COUNT), flush=True)
                if is_browser_wanted and has_display():
                    threading.Thread(target=webbrowser.open, args=(f"{url}/",), daemon=True).start()
                await asyncio.wait((serving, interrupted), return_when=asyncio.FIRST_COMPLETED)
                await crew.stop()
        finally:
            until.set_result(None)
            await serving


def demo(options: argparse.Namespace) -> int:
    """Show the demo. Raises `Trouble`, and the errors of `show`."""
    host, port = listen_of(options.listen)
    if not is_loopback(host):
        raise Trouble(
            f"--listen {options.listen}: the demo has no token, so only a loopback address is "
            f"allowed; use 127.0.0.1:{port}"
        )
    log_format.begin("text", "error", sys.stderr)
    logging.getLogger("sagas").setLevel(logging.CRITICAL)  # failures of steps are its purpose
    logging.getLogger("sagas.server").setLevel(logging.ERROR)
    family = socket.AF_INET6 if ":" in host else socket.AF_INET
    with socket.socket(family, socket.SOCK_STREAM, socket.IPPROTO_TCP) as listening:
        listening.setsockopt(socket.SOL_SOCKET, socket.SO_REUSEADDR, 1)
        try:
            listening.bind((host, port))
        except OSError as error:
            remedy = "; leave --listen out" if error.errno == errno.EADDRINUSE else ""
            raise Trouble(f"cannot listen on {options.listen}: {error.strerror}{remedy}") from error
        listening.listen()
        asyncio.run(show(listening, tempfile.gettempdir(), not options.no_browser))
    return GOOD


def main(argv: list[str]) -> int:
    """Run `sagas demo` and return its exit status. `ENDING` lists the statuses."""
    try:
        options = parser().parse_args(argv)
        with missing_packages():
            from sagas.server import uvicorn_server as _
        return demo(options)
    except Trouble as trouble:
        print(f"sagas demo: {trouble}", file=sys.stderr)
        return USAGE
    except (SagasError, OSError) as error:
        print(f"sagas demo: {error}", file=sys.stderr)
        return CANNOT
    except KeyboardInterrupt:
        print("sagas demo: interrupted", file=sys.stderr)
        return INTERRUPTED
