"""The functions of the kill tests' workers in other languages.

Each call is a line at a socket, and is reported to the witness as a Python worker's is.
"""

from __future__ import annotations

import contextlib
import json
import pathlib
import socketserver
import subprocess
import threading
from collections.abc import Iterator
from types import SimpleNamespace
from typing import Any, BinaryIO

from service_worker import RATES, Bare
from serving import environment
from witness import Witness
from world import OutsideReader, Refused

import sagas


class _Handler(socketserver.StreamRequestHandler):
    server: _Actor

    def handle(self) -> None:
        with contextlib.suppress(OSError, ValueError):  # the worker was killed
            request = json.loads(self.rfile.readline())
            self.wfile.write(json.dumps(self.server.act(request)).encode() + b"\n")


class _Actor(socketserver.ThreadingUnixStreamServer):
    daemon_threads = True
    request_queue_size = 64

    def __init__(self, address: str, world: Bare) -> None:
        self.world = world
        super().__init__(address, _Handler)

    def act(self, request: dict[str, Any]) -> dict[str, Any]:
        """Make one call; return how it ended."""
        kind = "undo" if request.pop("undo") else "run"
        failing, unknown = RATES[request["saga"], request["step"], kind]
        try:
            more = {"is_compensation": kind == "undo", "declared_step": request["step"]}
            task = SimpleNamespace(**request, **more)
            return {"do": "ok", "value": self.world.act(task, failing, unknown)}
        except sagas.Fail:
            return {"do": "fail", "value": None}
        except (sagas.Retry, Refused):
            return {"do": "retry", "value": None}
        except BaseException:
            return {"do": "unknown", "value": None}


@contextlib.contextmanager
def acting(
    address: pathlib.Path, socket: pathlib.Path, store: str, definitions: pathlib.Path
) -> Iterator[None]:
    """Serve functions at an address until the block ends."""
    server = _Actor(str(address), Bare(Witness(str(socket)), OutsideReader(store), definitions))
    thread = threading.Thread(target=server.serve_forever, args=(0.05,), daemon=True)
    thread.start()
    try:
        yield
    finally:
        server.shutdown()
        thread.join()
        server.server_close()


def worker(
    command: list[str], url: str, address: pathlib.Path, lease: float, errors: BinaryIO
) -> subprocess.Popen[bytes]:
    """Start a worker in another language: the driver of the contract suite, whose functions are at
    the address.
    """
    process = subprocess.Popen(
        command, env=environment(), stdin=subprocess.PIPE, stdout=subprocess.DEVNULL, stderr=errors
    )
    steps = [f"{saga}/{step}{'/undo' if kind == 'undo' else ''}" for saga, step, kind in RATES]
    request = {"id": 1, "do": "worker", "worker": "w", "url": url, "token": None, "steps": steps}
    line = json.dumps({**request, "concurrency": 3, "lease": lease, "wait": 5, "act": str(address)})
    assert process.stdin
    process.stdin.write(line.encode() + b"\n")
    process.stdin.flush()
    return process
