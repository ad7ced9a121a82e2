"""Finds where each request of a connection ends, before any other program reads it.

Input that two programs could read differently is refused: folded headers, lines without a
carriage return, two lengths, transfer codings other than `chunked`, and HTTP/0.9. Otherwise, a
proxy could see other requests than the server.
"""

from __future__ import annotations

import re
from collections.abc import Callable

MAX_HEAD = 1 << 14
"""Maximum bytes of a head, or of the trailer after the last chunk."""
MAX_CHUNK_LINE = 256
TOKEN = rb"[!#$%&'*+.^_`|~0-9A-Za-z-]+"
REQUEST_LINE = re.compile(rb"%b [!-~]+ HTTP/1\.([01])" % TOKEN)
FIELD = re.compile(rb"(%b):[ \t]*([\t -~\x80-\xff]*)" % TOKEN)
BARE = re.compile(rb"(?<!\r)\n")
LENGTH = re.compile(rb"[0-9]{1,15}")
CHUNK = re.compile(rb"([0-9A-Fa-f]{1,8})(?:[ \t]*;[\t -~\x80-\xff]*)?")


class Malformed(Exception):
    """The input is not a request that every program reads alike."""


class RequestFraming:
    """Divides a client's input into requests.

    Attributes:
        is_between: Whether the last request is complete, so that another one follows.
    """

    def __init__(self) -> None:
        self._buffer = bytearray()
        self._left = self._trailer = 0
        self._searched = 0  # bytes of a head in which its end is not
        self._read: Callable[[], int] = self._head
        self.is_between = True

    def __len__(self) -> int:
        """How many bytes have come that were not taken."""
        return len(self._buffer)

    def feed(self, data: bytes) -> None:
        """Add input."""
        self._buffer += data

    def take(self) -> bytes:
        """Return the available input of one request: its whole head, and a part of its body.

        The result is empty if more input is needed first.

        Raises:
            Malformed: The input cannot be read, or can be read in two ways.
        """
        parts = []
        while self._buffer:
            size = self._read()
            if not size:
                break
            parts.append(bytes(self._buffer[:size]))
            del self._buffer[:size]
            if self.is_between:
                break
        return b"".join(parts)

    def _head(self) -> int:
        while self._buffer.startswith(b"\r\n"):  # some clients end a body with a line
            del self._buffer[:2]
        begin = max(0, self._searched - 3)
        end = self._buffer.find(b"\r\n\r\n", begin, MAX_HEAD)
        if end < 0:
            if len(self._buffer) >= MAX_HEAD:
                raise Malformed(f"its head has more than {MAX_HEAD} bytes")
            if BARE.search(self._buffer, begin):
                raise Malformed("a line of its head does not end with CR and LF")
            self._searched = len(self._buffer)
            return 0
        self._searched = 0
        first, *lines = bytes(self._buffer[:end]).split(b"\r\n")
        request = REQUEST_LINE.fullmatch(first)
        if not request:
            raise Malformed("its first line is not METHOD TARGET HTTP/1.1")
        self._begin_body(_fields(lines), is_old=request[1] == b"0")
        return end + 4

    def _begin_body(self, fields: list[tuple[bytes, bytes]], is_old: bool) -> None:
        lengths = [value for name, value in fields if name == b"content-length"]
        codings = [value.lower() for name, value in fields if name == b"transfer-encoding"]
        if codings:
            if codings != [b"chunked"] or lengths or is_old:
                raise Malformed("its Transfer-Encoding is not the one coding chunked")
            self._read, self.is_between = self._chunk_line, False
            return
        if len(lengths) > 1 or not all(map(LENGTH.fullmatch, lengths)):
            raise Malformed("its Content-Length is not one number")
        self._left = int(lengths[0]) if lengths else 0
        self._read, self.is_between = self._body, False
        if not self._left:
            self._end()

    def _end(self) -> None:
        self._read, self.is_between = self._head, True

    def _body(self) -> int:
        size = min(self._left, len(self._buffer))
        self._left -= size
        if not self._left:
            self._end()
        return size

    def _chunk_line(self) -> int:
        line = self._line(MAX_CHUNK_LINE)
        if line is None:
            return 0
        chunk = CHUNK.fullmatch(line)
        if not chunk:
            raise Malformed("a chunk does not begin with its size")
        self._left = int(chunk[1], 16)
        self._trailer = 0
        self._read = self._chunk if self._left else self._trailer_line
        return len(line) + 2

    def _chunk(self) -> int:
        if self._left:
            size = min(self._left, len(self._buffer))
            self._left -= size
            return size
        if len(self._buffer) < 2:
            return 0
        if not self._buffer.startswith(b"\r\n"):
            raise Malformed("a chunk is longer than its size")
        self._read = self._chunk_line
        return 2

    def _trailer_line(self) -> int:
        line = self._line(MAX_HEAD - self._trailer)
        if line is None:
            return 0
        self._trailer += len(line) + 2
        if line:
            _fields([line])
        else:
            self._end()
        return len(line) + 2

    def _line(self, limit: int) -> bytes | None:
        """Return the next line without its end, or None if it is incomplete."""
        end = self._buffer.find(b"\n", 0, max(0, limit) + 2)
        if end < 0:
            if len(self._buffer) > limit:
                raise Malformed("a line of its body is too long")
            return None
        if end == 0 or self._buffer[end - 1] != 13:
            raise Malformed("a line of its body does not end with CR and LF")
        return bytes(self._buffer[: end - 1])


def _fields(lines: list[bytes]) -> list[tuple[bytes, bytes]]:
    """Return header names in lower case, and stripped values. Raises `Malformed`."""
    fields = []
    for line in lines:
        field = FIELD.fullmatch(line)
        if not field:
            raise Malformed("a header is not NAME: VALUE on one line")
        fields.append((field[1].lower(), field[2].strip(b" \t")))
    return fields
