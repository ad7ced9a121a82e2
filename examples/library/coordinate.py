"""A coordinator in Python, with ctypes.

It answers requests on standard input as `sagas drive --lines` does:

python3 examples/library/coordinate.py examples/trip.toml <examples/trip.requests
"""

from __future__ import annotations

import ctypes
import pathlib
import sys

DIST = pathlib.Path(__file__).resolve().parents[2] / "dist"
OK, BUFFER_TOO_SMALL = 0, 5
size_t = ctypes.c_size_t


class Inner(ctypes.Structure):
    """struct sagas_coordinator"""

    _fields_ = [
        ("session", ctypes.c_void_p),
        ("definitions", ctypes.c_void_p),
        ("open", ctypes.c_uint32),
    ]


class Span(ctypes.Structure):
    """struct sagas_span"""

    _fields_ = [("start", size_t), ("end", size_t)]


class Coordinator:
    """Run the sagas of one definition. Use it from one thread at a time, and close it."""

    def __init__(self, definition: bytes, log: bytes = b"") -> None:
        self._library = ctypes.CDLL(str(DIST / "libsagas.so"))
        self._inner, self._size = Inner(), 4096
        log_used, used, span = size_t(), size_t(), Span(0, len(definition))
        status = BUFFER_TOO_SMALL
        while status == BUFFER_TOO_SMALL:  # it is still closed: call again
            self._size = max(self._size, used.value)
            buffer = ctypes.create_string_buffer(self._size)
            status = self._library.sagas_open(
                ctypes.byref(self._inner),
                definition,
                size_t(len(definition)),
                ctypes.byref(span),
                size_t(1),
                log,
                size_t(len(log)),
                ctypes.byref(log_used),
                buffer,
                size_t(self._size),
                ctypes.byref(used),
            )
        text = ctypes.string_at(buffer, used.value)
        if status != OK:
            raise ValueError(text.decode().strip() or f"status {status}")
        self.lines = text  # append them to the log

    def answer(self, request: bytes) -> tuple[bytes, bytes]:
        """Execute a request once. Append the lines to the log before you act on the reply."""
        used, lines = size_t(), size_t()
        buffer = ctypes.create_string_buffer(self._size)
        rest = ctypes.byref(used), ctypes.byref(lines)
        inner = ctypes.byref(self._inner)
        status = self._library.sagas_answer(
            inner, request, size_t(len(request)), buffer, size_t(self._size), *rest
        )
        while status == BUFFER_TOO_SMALL:  # it was executed, and its reply is kept
            self._size = used.value
            buffer = ctypes.create_string_buffer(self._size)
            status = self._library.sagas_reply(inner, buffer, size_t(self._size), *rest)
        if status != OK:
            raise RuntimeError("the coordinator is closed")
        text = ctypes.string_at(buffer, used.value)
        return text[: lines.value], text[lines.value :]

    def close(self) -> None:
        """Free the memory of the coordinator."""
        self._library.sagas_close(ctypes.byref(self._inner))


def marked(lines: bytes) -> bytes:
    """Return the lines, each after a plus sign."""
    return b"".join(b"+" + line for line in lines.splitlines(keepends=True))


def main() -> None:
    coordinator = Coordinator(pathlib.Path(sys.argv[1]).read_bytes())
    out = sys.stdout.buffer
    out.write(marked(coordinator.lines))
    for request in sys.stdin.buffer:
        lines, reply = coordinator.answer(request.rstrip(b"\n"))
        out.write(marked(lines) + reply)
    coordinator.close()


main()
