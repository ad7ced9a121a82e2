"""The connection of a client or a worker to one or more services over one database."""

from __future__ import annotations

import contextlib
import dataclasses
import http.client
import json
import logging
import os
import random
import socket
import threading
import time
import urllib.parse
import weakref
from collections import deque
from collections.abc import Callable, Mapping, Sequence
from typing import Any, TypeVar

from sagas.base.errors import Closed, SagasError, ServiceUnavailable
from sagas.base.pauses import doubling_pauses
from sagas.definition import serialization

T = TypeVar("T")

logger = logging.getLogger("sagas.worker")
NO_HEADERS: Mapping[str, str] = {}
REPEAT = 408, 429, 500, 502, 503, 504
"""HTTP statuses after which a request is repeated."""
FIRST_PAUSE, MAX_PAUSE = 0.1, 5.0  # seconds between tries to reach the service


class ServiceRefused(SagasError):
    """The service refuses this worker, or this call.

    Check address, token, names and values.

    Attributes:
        status: The HTTP status.
        name: The name of the problem, as in docs/reference/http-errors.md.
        field: The parameter, or the part of the body, that is not valid; or None.
    """

    def __init__(self, status: int, text: str, name: str = "", field: str | None = None) -> None:
        super().__init__(text)
        self.status, self.name, self.field = status, name, field


@dataclasses.dataclass(frozen=True, slots=True)
class OpenAnswer:
    """A reply that is read as it arrives, with its connection."""

    link: http.client.HTTPConnection
    channel: socket.socket
    response: http.client.HTTPResponse

    def close(self) -> None:
        """Close the connection. Call it in the reading thread; other threads call `end`."""
        self.response.close()
        self.link.close()


class ServiceConnection:
    """Sends requests to a service, or to the next one if it does not answer.

    It begins with a random one of several services, and stays there while that one answers. Any
    thread may send requests. Connections are kept for later requests.

    Attributes:
        has_answered: Whether a service has answered.
    """

    def __init__(
        self, url: str | Sequence[str], token: str | None, patience: float, stop: threading.Event
    ) -> None:
        self._urls = deque(
            address_of(address) for address in ([url] if isinstance(url, str) else url)
        )
        if not self._urls:
            raise ValueError("no service is given. Write, for example, http://127.0.0.1:8080")
        if token and not (token.isascii() and token.isprintable()):
            raise ValueError(
                "the token has an invalid character: a token consists of printable ASCII "
                "characters. Copy it again"
            )
        self._urls.rotate(random.randrange(len(self._urls)))  # many clients spread over them
        self._headers = {"Authorization": f"Bearer {token}"} if token else {}
        self._patience, self._stop = patience, stop
        self._lock = threading.Lock()
        self._idle: list[tuple[tuple[str, int], http.client.HTTPConnection]] = []
        self._all: weakref.WeakSet[http.client.HTTPConnection] = weakref.WeakSet()
        self._is_unreachable = self.has_answered = self._ended = False
        self._unknown_steps: set[str] = set()  # steps that were warned of

    @property
    def url(self) -> str:
        """The service that is asked now."""
        return self._urls[0]

    def turn_from(self, url: str) -> None:
        """Switch to the next service, unless another thread already did."""
        with self._lock:
            if self._urls[0] == url:
                self._urls.rotate(-1)

    def ask_until_answered(
        self, path: str, body: dict[str, Any], seconds: float | None = None, giving_up: bool = False
    ) -> dict[str, Any] | None:
        """Repeat a request until a service answers; return None if the worker was stopped.

        A service may be restarting. One try takes at most `seconds` (default: the patience of this
        connection). Raises `ServiceRefused`.
        """
        pauses, within = doubling_pauses(FIRST_PAUSE, MAX_PAUSE), seconds or self._patience
        while True:
            url = self.url
            try:
                reply = self.ask(url, path, body, within)
                self._is_unreachable, self.has_answered = False, True
                for step in (reply.get("next") or reply).get("unknown_steps", ()):
                    self._warn_unknown(url, step)
                return reply
            except ServiceRefused as refusal:
                if refusal.status not in REPEAT:
                    raise
                text = str(refusal)
            except (OSError, ValueError) as error:
                text = str(error)
                if isinstance(error, TimeoutError):  # a large request, or a slow network
                    within = max(within, min(2 * within, self._patience))
            self.turn_from(url)
            if giving_up and self._stop.is_set():
                return None
            if not self._is_unreachable:
                logger.warning("%s does not answer: %s. Retrying", url, text)
            self._is_unreachable = True
            logger.info("%s: %s", path, text)
            time.sleep(next(pauses) * random.uniform(0.5, 1.0))

    def try_once(self, path: str, body: dict[str, Any], seconds: float) -> bool:
        """Send a request once; return False if the service refuses it permanently."""
        try:
            self.ask(self.url, path, body, seconds)
        except ServiceRefused as refusal:
            return refusal.status in REPEAT
        except (OSError, ValueError):
            pass
        return True

    def repeated(
        self, call: Callable[[str, float], T], patience: float, stop: threading.Event
    ) -> T:
        """Repeat a call until a service answers.

        The call gets the service's address and the remaining seconds. Raises `ServiceRefused`;
        `ServiceUnavailable` if no service answers in time; and `Closed` if the client was closed.
        """
        until, pauses = time.monotonic() + patience, doubling_pauses(FIRST_PAUSE, MAX_PAUSE)
        while not stop.is_set():
            url = self.url
            try:
                return call(url, max(0.001, until - time.monotonic()))
            except ServiceRefused as refusal:
                if refusal.status not in REPEAT:
                    raise
                error: Exception = refusal
            except (OSError, ValueError) as failed:
                error = failed
            if stop.is_set():
                break
            self.turn_from(url)
            rest = next(pauses) * random.uniform(0.5, 1.0)
            if time.monotonic() + rest >= until:
                raise ServiceUnavailable(
                    f"{url} does not answer within {patience:g} s: {error}. The request may have "
                    "been carried out. Repeat it"
                ) from error
            stop.wait(rest)
        raise Closed("the client is closed. Make another one")

    def ask(
        self,
        url: str,
        path: str,
        body: dict[str, Any] | None,
        seconds: float,
        headers: Mapping[str, str] = NO_HEADERS,
    ) -> dict[str, Any]:
        """Send one request: a POST if there is a body, otherwise a GET.

        It uses an idle connection. If the service has closed that, the request is sent over a new
        one. Raises `ServiceRefused`, or `OSError` or `ValueError` if there was no reply.
        """
        data = None if body is None else serialization.write(body).encode()
        link, path = self._link(url, seconds), urllib.parse.urlsplit(url).path + path
        was_open = link.sock is not None
        kind = {} if data is None else {"Content-Type": "application/json"}
        all_headers = {**self._headers, **kind, **headers}
        try:
            try:
                status, text = self._answer(link, path, data, all_headers)
            except ConnectionError:
                if not was_open:
                    raise
                link.close()
                status, text = self._answer(link, path, data, all_headers)
        except Exception as error:
            link.close()
            if isinstance(error, (OSError, ValueError)):
                raise
            raise ConnectionError(
                f"{type(error).__name__}: {error}"
            ) from error  # an error of http.client, for example a partial reply
        with self._lock:
            self._idle.append(((url, os.getpid()), link))
        if status >= 300:
            raise refusal_of(status, text)
        reply: dict[str, Any] = json.loads(text)
        return reply

    def opened(self, url: str, path: str, headers: dict[str, str], seconds: float) -> OpenAnswer:
        """Open a reply that is read later, over a separate connection. Raises as `ask`."""
        link, path = self._new(url, seconds), urllib.parse.urlsplit(url).path + path
        try:
            link.connect()
            channel: socket.socket = link.sock
            link.request("GET", path, headers=self._headers | headers)
            answer = link.getresponse()
            if answer.status == 200:
                return OpenAnswer(link, channel, answer)
            refusal = refusal_of(answer.status, answer.read())
        except http.client.HTTPException as error:
            link.close()
            raise ConnectionError(f"{type(error).__name__}: {error}") from error
        except BaseException:
            link.close()
            raise
        link.close()
        raise refusal

    def close(self) -> None:
        """Close all connections, also those over which a reply is awaited."""
        self._ended = True
        self.close_idle()
        with self._lock:
            links = list(self._all)
        for link in links:
            end(link.sock)

    def close_idle(self) -> None:
        """Close the connections over which no reply is awaited."""
        with self._lock:
            idle, self._idle = self._idle, []
        for _, link in idle:
            link.close()

    def _warn_unknown(self, url: str, step: str) -> None:
        """Warn once for each step that no definition of the service has."""
        with self._lock:
            new = step not in self._unknown_steps
            self._unknown_steps.add(step)
        if new:
            logger.warning(
                "%s: no definition of the service has step %s. Check its name and that of "
                "its saga here, or add the definition there",
                url,
                step,
            )

    def _link(self, url: str, seconds: float) -> http.client.HTTPConnection:
        """Return an idle connection to the service, or a new one."""
        mine = url, os.getpid()  # a forked process does not use its parent's connections
        with self._lock:
            while self._idle:
                owner, link = self._idle.pop()
                if owner == mine:
                    break
                link.close()
            else:
                link = self._new(url, seconds)
                self._all.add(link)
        link.timeout = seconds
        if link.sock is not None:
            link.sock.settimeout(seconds)
        return link

    def _answer(
        self,
        link: http.client.HTTPConnection,
        path: str,
        data: bytes | None,
        headers: dict[str, str],
    ) -> tuple[int, bytes]:
        """Send a request, and read the whole reply, so that the connection can be reused."""
        if link.sock is None:
            link.connect()
        if self._ended:  # checked after connecting, because `close` ends only open connections
            raise ConnectionAbortedError("the client is closed")
        link.request("GET" if data is None else "POST", path, data, headers)
        answer = link.getresponse()
        return answer.status, answer.read()

    @staticmethod
    def _new(url: str, seconds: float) -> http.client.HTTPConnection:
        parts = urllib.parse.urlsplit(url)
        is_secure = parts.scheme == "https"
        kind: type[http.client.HTTPConnection] = (
            http.client.HTTPSConnection if is_secure else http.client.HTTPConnection
        )
        return kind(parts.hostname or "", parts.port, timeout=seconds)


def address_of(text: str) -> str:
    """Return the address of a service. Raises `ValueError`, which shows no password."""
    _, at, host = text.rpartition("@")
    if not text.startswith(("http://", "https://")):
        shown = f"...@{host}" if at else text
        raise ValueError(
            f"{shown!r} is not the address of a service. Write, for example, http://127.0.0.1:8080"
        )
    if "@" in urllib.parse.urlsplit(text).netloc:
        raise ValueError(
            f"the address ...@{host} has a user or a password, which is not sent. Leave it out, "
            "and pass a token"
        )
    return text.rstrip("/")


def is_final(refusal: ServiceRefused) -> bool:
    """Return whether the worker itself is refused, and not only one of its tasks."""
    return refusal.status in (401, 403) and refusal.name != "InvalidLease"


def refusal_of(status: int, text: bytes) -> ServiceRefused:
    """Return the exception of a reply: problem details, or the text of a proxy."""
    shown = text[:10_000].decode(errors="replace")
    try:
        problem = json.loads(text)
        name = str(problem["type"]).rpartition(":")[2]
        text_of = f"{status} {name}: {problem['detail']}"
        return ServiceRefused(status, text_of, name, problem.get("field"))
    except (ValueError, KeyError, TypeError):
        return ServiceRefused(status, f"{status}: {shown}")


def end(channel: socket.socket | None) -> None:
    """End a connection, also for a thread that reads from it."""
    if channel is not None:
        with contextlib.suppress(OSError):
            channel.shutdown(socket.SHUT_RDWR)
