"""The other processes of a service that `sagas serve --processes` has started.

A process speaks with the command that started it, over a socket, in lines of JSON. The command
passes questions on to the other processes. If the command ends, so does the process.
"""

from __future__ import annotations

import asyncio
import base64
import contextlib
import enum
import hmac
import json
import logging
import os
import secrets
import signal
import socket
import time
from collections.abc import Callable, Mapping
from typing import Any, NamedTuple

from sagas.server.auth import Principal, Session, Sessions, digest_of

VARIABLE = "SAGAS_SERVE_PROCESS"
"""Names the descriptors of the listening socket and of the command's socket."""
LINE = 64 << 20
"""Maximum bytes of a line: the metrics of a process, or of all."""
PATIENCE = 5.0
"""Seconds for the answers of the other processes."""
MAX_ENDED = 10_000
"""Maximum number of ended sessions that are kept one by one."""
logger = logging.getLogger("sagas.server")


class State(enum.Enum):
    """What a process reports of itself."""

    WAITS = "waits"
    OPEN = "open"


class ProcessQuestion(enum.Enum):
    """What one process asks the others."""

    METRICS = "metrics"
    END_CLAIMS = "end_claims"
    END_SESSIONS = "end_sessions"


class Position(NamedTuple):
    """The position of a process among those of its command.

    Attributes:
        number: Its number, from 1.
        node: The node's name, if the options have none. Each process adds its number.
        secret: The secret of sessions.
    """

    number: int
    node: str
    secret: str


def sockets_of_process() -> tuple[socket.socket, socket.socket] | None:
    """Return the sockets that the command passed on: for requests, and its own. None: it is alone.

    The programs that this process starts do not get them.
    """
    numbers = os.environ.pop(VARIABLE, "").split()
    if not numbers:
        return None
    listening, channel = (socket.socket(fileno=int(number)) for number in numbers)
    for inherited in (listening, channel):
        inherited.set_inheritable(False)
    return listening, channel


class Siblings:
    """The connection to the command, and through it to the other processes.

    Attributes:
        position: The position of this process.
        answers: The functions that answer questions of the others, by their names.
    """

    def __init__(self, channel: socket.socket) -> None:
        self._channel = channel
        self.position = self._read_position()
        self.answers: dict[ProcessQuestion, Callable[[Any], Any]] = {}
        self._requests: dict[int, asyncio.Future[list[Any]]] = {}
        self._writer: asyncio.StreamWriter | None = None
        self._reading: asyncio.Task[None] | None = None

    def _read_position(self) -> Position:
        """Return the first line of the command. Raises `EOFError` if it has ended."""
        line = b""
        while not line.endswith(b"\n"):
            part = self._channel.recv(1)
            if not part:
                raise EOFError("the command that started this process has ended")
            line += part
        return Position(*json.loads(line))

    async def open(self) -> None:
        """Answer the others from now on."""
        reader, self._writer = await asyncio.open_connection(sock=self._channel, limit=LINE)
        self._reading = asyncio.get_running_loop().create_task(self._read(reader))

    async def close(self) -> None:
        """Answer no more."""
        if self._reading and self._writer:
            self._reading.cancel()
            with contextlib.suppress(asyncio.CancelledError):
                await self._reading
            self._writer.close()

    def report(self, state: State) -> None:
        """Report the state of this process."""
        self._write({"state": state.value})

    def _write(self, message: dict[str, Any]) -> None:
        if self._writer:
            self._writer.write(json.dumps(message).encode() + b"\n")

    async def ask(self, question: ProcessQuestion, argument: Any = None) -> list[Any]:
        """Return the answers of the others. Raises `TimeoutError` if the command does not answer.

        The metrics are those of all processes, also of this one and of those that have ended.
        """
        number = secrets.randbits(48)
        answer = self._requests[number] = asyncio.get_running_loop().create_future()
        try:
            async with asyncio.timeout(PATIENCE):
                self._write({"ask": number, "question": question.value, "argument": argument})
                values: list[Any] = await answer
                return values
        finally:
            del self._requests[number]

    def announce(self, question: ProcessQuestion, argument: Any) -> None:
        """Ask the others, and await no answer."""
        self._write({"ask": None, "question": question.value, "argument": argument})

    async def _read(self, reader: asyncio.StreamReader) -> None:
        with contextlib.suppress(OSError, ValueError):
            while line := await reader.readline():
                self._read_line(json.loads(line))
        logger.error("the command that started this process has ended: it stops")
        os.kill(os.getpid(), signal.SIGTERM)

    def _read_line(self, message: dict[str, Any]) -> None:
        if "answer" in message:
            answer = self._requests.get(message["answer"])
            if answer and not answer.done():
                answer.set_result(message["values"])
            return
        answering = self.answers.get(ProcessQuestion(message["question"]))
        value = answering(message["argument"]) if answering else None
        self._write({"done": message["do"], "value": value})


class EndedSessions:
    """The sessions that were ended before their time.

    If there are too many, the oldest sessions end, too, and not only those that were ended.
    """

    def __init__(self) -> None:
        self._until: dict[str, float] = {}
        self._oldest = 0.0

    def add(self, until: Mapping[str, float], oldest: float = 0.0) -> None:
        """Add sessions.

        Args:
            until: The time until which a session would have lasted, by its digest.
            oldest: All sessions end that would have lasted until this time or less.
        """
        self._until |= until
        self._oldest = max(self._oldest, oldest)
        if len(self._until) > MAX_ENDED:
            latest = sorted(self._until.items(), key=lambda item: item[1])
            dropped, kept = latest[: -MAX_ENDED // 2], latest[-MAX_ENDED // 2 :]
            self._oldest, self._until = max(self._oldest, dropped[-1][1]), dict(kept)

    def has(self, digest: str, until: float) -> bool:
        """Return whether a session was ended."""
        return until <= self._oldest or digest in self._until

    def arguments(self) -> tuple[dict[str, float], float]:
        """Return the arguments of `add` for another process."""
        return self._until, self._oldest


class SharedSessions(Sessions):
    """Sessions that each process knows, since a cookie holds its session, signed.

    Its end is announced to the others.
    """

    def __init__(self, seconds: float, siblings: Siblings) -> None:
        super().__init__(seconds)
        self._key, self._siblings = siblings.position.secret.encode(), siblings
        self._ended = EndedSessions()
        siblings.answers[ProcessQuestion.END_SESSIONS] = lambda ended: self._ended.add(*ended)

    def _sign(self, purpose: str, text: str) -> str:
        return hmac.digest(self._key, f"{purpose} {text}".encode(), "sha256").hex()

    def begin(self, principal: Principal) -> tuple[str, Session]:
        """Start a session. Returns the cookie's value and the session."""
        until = time.time() + self.seconds
        fields = [secrets.token_urlsafe(16), until, principal.digest]
        text = base64.urlsafe_b64encode(json.dumps(fields).encode()).decode().rstrip("=")
        name = f"{text}.{self._sign('session', text)}"
        return name, Session(principal, self._sign("form", text), until)

    def find(self, name: str) -> Session | None:
        """Return the session of a cookie, or None."""
        text, _, signature = name.partition(".")
        expected = self._sign("session", text)
        if not hmac.compare_digest(signature.encode(errors="replace"), expected.encode()):
            return None
        _, until, digest = json.loads(base64.urlsafe_b64decode(text + "=="))
        if until < time.time() or self._ended.has(digest_of(name), until):
            return None
        return Session(Principal("", frozenset(), digest), self._sign("form", text), until)

    def end(self, name: str) -> None:
        """End a session, in all processes."""
        if session := self.find(name):
            ended = {digest_of(name): session.until}
            self._ended.add(ended)
            self._siblings.announce(ProcessQuestion.END_SESSIONS, [ended])
