"""A witness outside of the program under test.

Each note that it gets is a line in a file, synced before it replies. It takes the part of the
services that steps call. The program under test can be killed, and its disk can be full, without
the witness losing a line.
"""

from __future__ import annotations

import contextlib
import json
import os
import pathlib
import socket
import socketserver
import threading
from collections.abc import Iterator
from typing import Any

Json = dict[str, Any]


class _Handler(socketserver.StreamRequestHandler):
    server: _Server

    def handle(self) -> None:
        with contextlib.suppress(OSError):  # the program was killed
            for line in self.rfile:
                if not line.endswith(b"\n"):
                    return  # within a line: the witness got no note
                self.server.keep(line)
                self.wfile.write(b"\n")


class _Server(socketserver.ThreadingUnixStreamServer):
    daemon_threads = True
    request_queue_size = 64

    def __init__(self, address: str, notes: pathlib.Path) -> None:
        self.fd = os.open(notes, os.O_WRONLY | os.O_CREAT | os.O_APPEND, 0o644)
        self.lock = threading.Lock()
        super().__init__(address, _Handler)

    def keep(self, line: bytes) -> None:
        with self.lock:
            os.write(self.fd, line)
            os.fsync(self.fd)

    def server_close(self) -> None:
        super().server_close()
        os.close(self.fd)


@contextlib.contextmanager
def witness_at(address: pathlib.Path, notes: pathlib.Path) -> Iterator[None]:
    """Run a witness at a socket, in a thread of this process, until the block ends."""
    server = _Server(str(address), notes)
    thread = threading.Thread(target=server.serve_forever, args=(0.05,), daemon=True)
    thread.start()
    try:
        yield
    finally:
        server.shutdown()
        thread.join()
        server.server_close()


class Witness:
    """The program's connection to its witness. Threads share it; each note waits for its reply."""

    def __init__(self, address: str) -> None:
        self.socket = socket.socket(socket.AF_UNIX, socket.SOCK_STREAM)
        self.socket.connect(address)
        self.lock = threading.Lock()

    def note(self, **fields: Any) -> None:
        """Report a note to the witness, and wait until the witness has stored it."""
        with self.lock:
            self.socket.sendall((json.dumps(fields) + "\n").encode())
            if not self.socket.recv(1):
                raise ConnectionError("the witness is gone")


def notes_of(path: pathlib.Path) -> list[Json]:
    """Return the lines that a witness has kept."""
    return [json.loads(line) for line in path.read_bytes().splitlines()] if path.exists() else []
