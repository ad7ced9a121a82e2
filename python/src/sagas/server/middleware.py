"""Limits and headers of every request: path, size, time and origin."""

from __future__ import annotations

import asyncio
import functools
import logging
import re
import secrets
import time
from collections.abc import Awaitable, Callable, MutableMapping
from typing import TYPE_CHECKING, Any
from urllib.parse import unquote_to_bytes, urlsplit

from starlette.requests import ClientDisconnect
from starlette.responses import HTMLResponse, Response

from sagas.server import problems, renderer
from sagas.server.connections import Connection, Connections
from sagas.server.problems import Problem
from sagas.server.settings import Network, is_address, is_among, is_loopback

if TYPE_CHECKING:
    from sagas.server.service import Service

Scope = MutableMapping[str, Any]
Message = MutableMapping[str, Any]
Receive = Callable[[], Awaitable[Message]]
Send = Callable[[Message], Awaitable[None]]
App = Callable[[Scope, Receive, Send], Awaitable[None]]

SLASH = "\ue02f"
"""Replaces a slash within a part of a path. It is not printable, so no key contains it."""
SERVICE = "sagas.service"
"""In a scope: the `Service`."""
GONE = "sagas.gone"
"""In a scope: a future that is done when the client is gone."""
FOLLOWED = "sagas.followed"
"""In a scope: a future that is done when the client has sent something after the request. Requests
that wait are then answered, because they would hide another request or the end of the
connection.
"""
REQUEST_ID = "sagas.request"
"""In a scope: the id of the request, for its answer, its problem and the log."""
CROWDING = "sagas.crowding"
"""In a scope: why only health checks and operators are answered now, or None."""
LEAVE = "sagas.leave"
"""In a scope: functions that are called when the request ends."""
CONTENT = (
    "default-src 'none'; style-src 'self'; script-src 'self'; img-src 'self'; connect-src 'self'; "
    "form-action 'self'; frame-ancestors 'none'; base-uri 'none'"
)
HEADERS = [
    (b"content-security-policy", CONTENT.encode()),
    (b"x-content-type-options", b"nosniff"),
    (
        b"referrer-policy",
        b"same-origin",
    ),  # with none, a browser would send its own forms without an origin
    (b"x-frame-options", b"DENY"),
    (b"cross-origin-opener-policy", b"same-origin"),
    (b"cross-origin-resource-policy", b"same-origin"),
    (b"cache-control", b"no-store"),
]
"""Headers that an answer gets unless it has its own."""
logger = logging.getLogger("sagas.http")


REQUEST_ID_HEADER = b"x-request-id"
WELL_FORMED_ID = re.compile(r"[A-Za-z0-9._+/=:@-]{1,128}")
"""An id that is taken from a request. Another one is replaced, so that no log line is forged."""
TOKEN = re.compile(rb"[!#$%&'*+.^_`|~0-9A-Za-z-]+")
"""A valid header name."""
ONCE = (b"host", b"content-length", b"transfer-encoding", b"authorization")
"""Headers that a request may have only once. A proxy may have used another one of two."""
DASHBOARD = "/ui"
LOGIN = "/ui/login"
MAX_LOGIN = 4096
"""Maximum bytes of the login form, which needs no session."""
MAX_SHOWN = 200
"""Maximum characters of a header that a message quotes."""


class Refusal(Exception):
    """The body is too long or too slow, and this was answered. The application's answer is
    dropped.
    """


def check_headers(scope: Scope) -> None:
    """Raise `ValueError` if another program could read the request's head differently."""
    names = [name.lower() for name, _ in scope["headers"]]
    if not all(TOKEN.fullmatch(name) for name in names) or any(
        names.count(name) > 1 for name in ONCE
    ):
        raise ValueError("headers")
    if b"content-length" in names and b"transfer-encoding" in names:
        raise ValueError("two lengths")
    if b"host" not in names and scope.get("http_version") == "1.1":
        raise ValueError("no host")


def forwarded(scope: Scope, trusted: tuple[Network, ...]) -> None:
    """Use the client and scheme that a trusted proxy reports.

    The client is the last address that is not a trusted proxy.
    """
    client = scope.get("client")
    if not client or not is_among(client[0], trusted):
        return
    values = [
        value.decode("latin-1") for name, value in scope["headers"] if name == b"x-forwarded-for"
    ]
    for host in reversed([address.strip() for address in ",".join(values).split(",")]):
        if not is_address(host):
            break
        scope["client"] = host, 0
        if not is_among(host, trusted):
            break
    scheme = headers(scope).get(b"x-forwarded-proto", "").strip().lower()
    if scheme in ("http", "https"):
        scope["scheme"] = scheme


def headers(scope: Scope) -> dict[bytes, str]:
    """Return the headers' values. For duplicates, the first one counts."""
    return {name: value.decode("latin-1") for name, value in reversed(scope["headers"])}


@functools.lru_cache(16)  # few: a header may be long
def names_loopback(host: str) -> bool:
    """Return whether a `Host` header names this machine's loopback. Raises `ValueError`."""
    return is_loopback(urlsplit(f"//{host}").hostname or "")


def parted(raw: bytes) -> str | None:
    """Return a path with each part decoded separately, or None if one is not UTF-8."""
    try:
        if b"%" not in raw:
            return raw.decode("utf-8")
        parts = [unquote_to_bytes(part).decode("utf-8") for part in raw.split(b"/")]
    except UnicodeDecodeError:
        return None
    return "/".join(part.replace("/", SLASH) for part in parts)


def foreign(fields: dict[bytes, str], host: str) -> str | None:
    """Return which headers show that a request comes from a page of another site, or None.

    Raises `ValueError`.
    """
    origin, site = fields.get(b"origin"), fields.get(b"sec-fetch-site")
    if origin is not None and urlsplit(origin).netloc != host:
        return (
            f"the request has the Origin {origin[:MAX_SHOWN]!r} and the Host "
            f"{host[:MAX_SHOWN]!r}. A proxy must forward the browser's Host header, "
            "with its port"
        )
    if site in ("cross-site", "same-site"):
        return f"the request has the Sec-Fetch-Site {site!r}"
    return None


def request_id(scope: Scope) -> str:
    """Return the id of a request: that of its header if it has one, else a new one."""
    ids: list[bytes] = [
        value for name, value in scope["headers"] if name.lower() == REQUEST_ID_HEADER
    ]
    text = ids[0].decode("latin-1") if len(ids) == 1 else ""
    return text if WELL_FORMED_ID.fullmatch(text) else secrets.token_hex(8)


def answer_of(scope: Scope, problem: Problem) -> Response:
    """Return the answer that refuses a request. For the dashboard, it is a page."""
    if scope["path"] != DASHBOARD and not scope["path"].startswith(f"{DASHBOARD}/"):
        return problems.response(problem, scope[REQUEST_ID])
    values = {"title": problem.kind.title, "text": f"{problem}.", "back": DASHBOARD}
    page = renderer.render("fault.html", {**values, "session": None, "here": ""})
    headers = problems.HEADERS.get(problem.kind.status, {}) | problem.headers
    return HTMLResponse(renderer.encoded(page), problem.kind.status, headers)


class Guard:
    """The outermost layer of the application."""

    def __init__(self, app: App, service: Service, connections: Connections | None) -> None:
        self.app, self.service, self.settings = app, service, service.settings
        self.connections = connections

    async def __call__(self, scope: Scope, receive: Receive, send: Send) -> None:
        if scope["type"] != "http":
            await self.app(scope, receive, send)
            return
        scope[SERVICE], scope[REQUEST_ID] = self.service, request_id(scope)
        connection = self.connections.of(scope.get("client")) if self.connections else None
        if connection and connection.is_over:  # what followed its head was no HTTP
            connection.leave()
        loop = asyncio.get_running_loop()
        scope[GONE] = connection.gone if connection else loop.create_future()
        scope[FOLLOWED] = connection.followed if connection else loop.create_future()
        scope[LEAVE] = []
        await Passage(self, scope, receive, send, connection).run()

    def refusal(self, scope: Scope) -> Problem | None:
        """Return why a request is refused before it is routed, or None.

        Raises `ValueError` if its head cannot be read.
        """
        check_headers(scope)
        fields = headers(scope)
        if b"x-forwarded-for" in fields or b"x-forwarded-proto" in fields:
            forwarded(scope, self.settings.trusted_proxies)
        path = parted(scope.get("raw_path") or scope["path"].encode())
        if path is None:
            return Problem("MalformedRequest", "the path is not valid UTF-8")
        scope["path"] = path
        host = fields.get(b"host", "")
        if self.settings.tokens is None and not names_loopback(host):
            return Problem(
                "UnknownHost", "without a token file, the Host must be a name of the loopback"
            )
        if scope["method"] not in ("GET", "HEAD", "OPTIONS"):
            if why := foreign(fields, host):
                return Problem(
                    "CrossOrigin", f"requests from pages of other sites are refused: {why}"
                )
        length, limit = fields.get(b"content-length"), self.max_body(scope)
        if length is not None and (not length.isdigit() or len(length) > 12 or int(length) > limit):
            return too_large(limit)
        return None

    def max_body(self, scope: Scope) -> int:
        """Return the maximum bytes of a request's body."""
        return (
            min(MAX_LOGIN, self.settings.max_body)
            if scope["path"] == LOGIN
            else self.settings.max_body
        )


def too_large(limit: int) -> Problem:
    """Return the problem for a body that exceeds the limit."""
    return Problem("BodyTooLarge", f"the body must have at most {limit} bytes")


def has_body(scope: Scope) -> bool:
    """Return whether a body may follow the head."""
    for name, value in scope["headers"]:
        if name == b"transfer-encoding" or (name == b"content-length" and value != b"0"):
            return True
    return False


class Passage:
    """The processing of one request."""

    def __init__(
        self, guard: Guard, scope: Scope, receive: Receive, send: Send, by: Connection | None
    ) -> None:
        self.guard, self.settings, self.scope = guard, guard.settings, scope
        self._receive, self._send, self._connection = receive, send, by
        self._size, self._refused = 0, False
        self._whole = self._is_read = not has_body(scope)
        self.status, self.began = 0, time.monotonic()
        self._until = asyncio.get_running_loop().time() + self.settings.body_time

    async def run(self) -> None:
        if self._connection:
            self._connection.starts(self._whole)
        connections, task = self.guard.connections, asyncio.current_task()
        self.scope[CROWDING] = connections and connections.crowding(self._connection)
        refusal = self._refusal()
        if connections and task:
            connections.requests.add(task)
            self.scope[LEAVE].append(functools.partial(connections.requests.discard, task))
        try:
            if refusal:
                await self._refuse(refusal)
            else:
                await self._through()
            if self.scope[GONE].done() and not self.status:
                await self._lost()
        finally:
            for leave in self.scope[LEAVE]:
                leave()
            if self._connection:
                self._connection.ends()
            self.guard.service.request(self.scope, self.status, time.monotonic() - self.began)

    async def _lost(self) -> None:
        """Wait until the connection is lost.

        Earlier, uvicorn would treat a request without an answer as an error, and answer by
        itself.
        """
        if self._connection:
            await self._connection.lost
            return
        while (await self._receive())["type"] != "http.disconnect":
            pass

    def _refusal(self) -> Problem | None:
        try:
            refusal = self.guard.refusal(self.scope)
            self._occupy(self.scope.get("client"))
            return refusal
        except Problem as problem:
            return problem
        except ValueError:
            return Problem("MalformedRequest", "a header of the request is malformed or duplicated")

    def _occupy(self, client: Any) -> None:
        """Count a forwarded request as one of its own address. Raises `Problem`."""
        peer = self._connection and self._connection.peer
        if self.guard.connections and client and peer and client[0] != peer[0]:
            self.scope[LEAVE].append(self.guard.connections.occupy(client[0]))

    async def _through(self) -> None:
        try:
            await self.guard.app(self.scope, self.receive, self.send)
        except ClientDisconnect:  # while its body was read
            return
        except Exception:
            if self._refused:
                return
            fields = {"path": self.scope["path"], "request_id": self.scope[REQUEST_ID]}
            logger.exception("a request failed", extra={"sagas": fields})
            if not self.status:
                await self._refuse(
                    Problem(
                        "InternalError",
                        "the service has an internal error; its log has the details",
                    )
                )

    async def receive(self) -> Message:
        """Return the next part of the body, within the limits of size and time.

        After the body, it returns that the client is gone.
        """
        if self._is_read:
            return await self._receive()
        message = await self._in_time()
        if message["type"] == "http.request":
            self._size += len(message.get("body", b""))
            self._is_read = not message.get("more_body", False)
            if self._size > (limit := self.guard.max_body(self.scope)):
                await self._refuse(too_large(limit))
                raise Refusal
            if self._is_read and self._connection:
                self._connection.is_whole()
        return message

    async def _in_time(self) -> Message:
        """Return the next part of a body. All parts share one deadline."""
        try:
            async with asyncio.timeout_at(self._until):
                return await self._receive()
        except TimeoutError:
            await self._refuse(Problem("RequestTimeout", "the body did not arrive in time"))
            raise Refusal from None

    async def send(self, message: Message) -> None:
        """Send what the application answers."""
        if not self._refused and not self.scope[GONE].done():
            await self._say(message)

    async def _say(self, message: Message) -> None:
        """Send a message, with the headers of every answer."""
        if message["type"] == "http.response.start":
            self.status = message["status"]
            present = {name.lower() for name, _ in message["headers"]}
            missing = [pair for pair in HEADERS if pair[0] not in present]
            own_id = (REQUEST_ID_HEADER, self.scope[REQUEST_ID].encode())
            message["headers"] = [*message["headers"], *missing, own_id]
            if self.guard.service.is_stopping and b"connection" not in present:
                message["headers"].append((b"connection", b"close"))
            if self._connection and b"content-length" in present:  # its body follows at once
                self._connection.outlet.hold()
            await self._send(message)
            return
        await self._send(message)
        if self._connection:
            self._connection.outlet.flush()

    async def _refuse(self, problem: Problem) -> None:
        if self.status or self.scope[GONE].done():
            return
        answer = answer_of(self.scope, problem)
        answer.headers["connection"] = "close"
        self._refused = True
        head = {"status": answer.status_code, "headers": answer.raw_headers}
        await self._say({"type": "http.response.start", **head})
        await self._say({"type": "http.response.body", "body": answer.body})
