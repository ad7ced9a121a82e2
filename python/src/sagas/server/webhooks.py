"""Webhooks: signed posts of events, with retries, as in Standard Webhooks.

A delivery is stored in the same commit as its event. So it is posted at least once, if
necessary by the next program.

The webhook file says who receives what. One post is resolved, connected, sent and answered within
one deadline.
"""

from __future__ import annotations

import asyncio
import base64
import binascii
import contextlib
import dataclasses
import hashlib
import hmac
import ipaddress
import logging
import pathlib
import random
import re
import socket
import ssl
import threading
import time
import tomllib
from collections.abc import Callable
from typing import Any
from urllib.parse import SplitResult, urlsplit

from sagas.api.claims import Deliveries
from sagas.base.errors import Closed, SagasError
from sagas.base.events import Event
from sagas.core.webhook_rows import TYPES
from sagas.definition.compiled import Hooks
from sagas.server import auth
from sagas.storage.webhook_deliveries import Claimed, DeliveryState, Posted

KEYS = ("name", "url", "secret", "types", "definitions")
PREFIX = "whsec_"
LEAST_SECRET = 24  # bytes
SENT = re.compile("[!-~]+")
"""Valid characters of a request's host, path and query."""


class WebhookFault(Exception):
    """The file cannot be read. The text says where and why."""


@dataclasses.dataclass(frozen=True, slots=True)
class Webhook:
    """Where events of some types are posted. `definitions`: only events of these. None: of all."""

    name: str
    url: str
    secret: bytes
    types: frozenset[str]
    definitions: frozenset[str] | None

    def wants(self, kind: str, saga: str) -> bool:
        """Return whether an event is posted to it."""
        return kind in self.types and (self.definitions is None or saga in self.definitions)


def is_local(host: str) -> bool:
    """Return whether an address, or `localhost`, is this machine or on its link.

    Other names are resolved when something is posted.
    """
    try:
        address = ipaddress.ip_address(host.partition("%")[0])
    except ValueError:
        return host == "localhost" or host.endswith(".localhost")
    if isinstance(address, ipaddress.IPv6Address) and address.ipv4_mapped:
        address = address.ipv4_mapped
    return address.is_loopback or address.is_link_local or address.is_unspecified


def read_file(path: pathlib.Path, allow_local: bool = False) -> list[Webhook]:
    """Read the tables `[[webhook]]` of a file. Raises `WebhookFault`.

    `allow_local`: whether they may post to this machine.
    """
    try:
        auth.check_mode(path)
        document = tomllib.loads(path.read_text(encoding="utf-8"))
    except (OSError, UnicodeDecodeError, tomllib.TOMLDecodeError) as error:
        raise WebhookFault(f"{path}: cannot be read: {error}") from error
    except RecursionError:
        raise WebhookFault(f"{path}: cannot be read: too many lists in one another") from None
    entries = document.get("webhook", [])
    if set(document) - {"webhook"} or not isinstance(entries, list):
        raise WebhookFault(f"{path}: only [[webhook]] tables are allowed")
    hooks: dict[str, Webhook] = {}
    for number, entry in enumerate(entries, 1):
        try:
            hook = _read_webhook(entry, allow_local)
        except ValueError as error:
            raise WebhookFault(f"{path}: webhook {number}: {error}") from None
        if hook.name in hooks:
            raise WebhookFault(f"{path}: webhook {number}: duplicate name {hook.name!r}")
        hooks[hook.name] = hook
    return list(hooks.values())


def _read_webhook(entry: Any, allow_local: bool) -> Webhook:
    """Return the webhook of a table. Raises `ValueError`."""
    unknown = sorted(set(entry) - set(KEYS)) if isinstance(entry, dict) else ["?"]
    if unknown:
        raise ValueError(f"unknown key {unknown[0]!r}; the keys are {', '.join(KEYS)}")
    name = entry.get("name")
    if not (isinstance(name, str) and 0 < len(name) <= 64 and name.isprintable()):
        raise ValueError("name must be a text of 1 to 64 printable characters")
    url = _url(entry.get("url"))
    if not allow_local and is_local(urlsplit(url).hostname or ""):
        raise ValueError(
            "url must not be an address of this machine or its link; start the service with "
            "--local-webhooks if it is meant"
        )
    types = _texts(entry.get("types", list(TYPES)), "types")
    if unknown_types := sorted(types - set(TYPES)):
        raise ValueError(f"unknown type {unknown_types[0]!r}; the types are {', '.join(TYPES)}")
    definitions = entry.get("definitions")
    return Webhook(
        name,
        url,
        _secret(entry.get("secret")),
        types,
        None if definitions is None else _texts(definitions, "definitions"),
    )


def _url(value: Any) -> str:
    """Return a valid URL. Error messages contain no part of it."""
    fault = ValueError(
        "url must be an http or https address with a valid host and port and a percent-encoded "
        "path, for example https://example.org/hook"
    )
    if not isinstance(value, str):
        raise fault
    try:
        parts = urlsplit(value)
        host, _ = (parts.hostname or "").encode("idna").decode(), parts.port
    except ValueError:
        raise fault from None
    is_sent = SENT.fullmatch(f"{host}{parts.path}{parts.query}")
    if parts.scheme not in ("http", "https") or not host or not is_sent:
        raise fault
    if parts.username or parts.password:
        raise ValueError("url must not contain a user or a password; receivers check the signature")
    return value


def _texts(value: Any, key: str) -> frozenset[str]:
    if not isinstance(value, list) or not value or not all(isinstance(text, str) for text in value):
        raise ValueError(f"{key} must be a list of one or more texts")
    return frozenset(value)


def _secret(value: Any) -> bytes:
    """Return the bytes of a secret in the format of Standard Webhooks."""
    hint = f"secret must be {PREFIX} followed by at least {LEAST_SECRET} random bytes in base64"
    if not isinstance(value, str) or not value.startswith(PREFIX):
        raise ValueError(hint)
    try:
        secret = base64.b64decode(value.removeprefix(PREFIX), validate=True)
    except binascii.Error:
        raise ValueError(hint) from None
    if len(secret) < LEAST_SECRET:
        raise ValueError(hint)
    return secret


# -- one post


MAX_ANSWER = 1 << 16
"""Maximum bytes of an answer's head. The body is not read."""
STATUS = re.compile(rb"HTTP/1\.[01] ([1-5][0-9]{2})(?: |\r?\n)")


class InvalidAnswer(Exception):
    """The receiver's answer does not begin as HTTP. The message does not contain its bytes."""


class LocalReceiver(Exception):
    """The receiver's name resolves to this machine or its link."""


def signed(secret: bytes, id: str, at: int, body: bytes) -> str:
    """Return the signature of a post: `v1,` and an HMAC in base64."""
    code = hmac.new(secret, f"{id}.{at}.".encode() + body, hashlib.sha256).digest()
    return f"v1,{base64.b64encode(code).decode()}"


def request_of(hook: Webhook, parts: SplitResult, delivery: Claimed) -> bytes:
    """Return the bytes of a post."""
    at, body = int(time.time()), delivery.body.encode()
    host = (parts.hostname or "").encode("idna").decode()
    host = f"[{host}]" if ":" in host else host
    lines = [
        f"POST {parts.path or '/'}{'?' + parts.query if parts.query else ''} HTTP/1.1",
        f"Host: {host}{f':{parts.port}' if parts.port else ''}",
        "Content-Type: application/json",
        f"Content-Length: {len(body)}",
        "User-Agent: sagas",
        "Connection: close",
        f"webhook-id: {delivery.id}",
        f"webhook-timestamp: {at}",
        f"webhook-signature: {signed(hook.secret, delivery.id, at, body)}",
    ]
    return "\r\n".join(lines).encode() + b"\r\n\r\n" + body


async def post(hook: Webhook, delivery: Claimed, seconds: float, allow_local: bool) -> int:
    """Post once, and return the status. Redirects are not followed.

    Raises:
        TimeoutError: The whole of it took longer than `seconds`.
        LocalReceiver: The receiver is this machine, and that is not allowed.
        InvalidAnswer: What came back is not HTTP.
        OSError: The receiver cannot be reached.
    """
    async with asyncio.timeout(seconds):
        parts = urlsplit(hook.url)
        is_secure = parts.scheme == "https"
        port = parts.port or (443 if is_secure else 80)
        address = await _address_of(parts.hostname or "", port, allow_local)
        security = {}
        if is_secure:
            security = {"ssl": ssl.create_default_context(), "server_hostname": parts.hostname}
        reader, writer = await asyncio.open_connection(
            address, port, limit=MAX_ANSWER, **security  # type: ignore[arg-type]
        )
        try:
            writer.write(request_of(hook, parts, delivery))
            await writer.drain()
            return await _status(reader)
        finally:
            writer.transport.abort()


async def _status(reader: asyncio.StreamReader) -> int:
    """Return the status of the answer, after any informational (1xx) answers."""
    left, is_first = MAX_ANSWER, True
    while True:
        try:
            line = await reader.readline()
        except ValueError:  # it is longer than the limit
            raise InvalidAnswer("its answer has too many bytes") from None
        left -= len(line)
        if left < 0:
            raise InvalidAnswer("its answer has too many bytes")
        if is_first:
            status = STATUS.match(line)
            if not status:
                raise InvalidAnswer("its answer is not HTTP" if line else "it sent no answer")
            if status[1][0] != ord("1"):
                return int(status[1])
        is_first = not line.strip()  # the empty line ends the head of an answer in between


async def _address_of(host: str, port: int, allow_local: bool) -> str:
    """Return the first address of a host that may be posted to."""
    addresses = await _resolved(host, port)
    for address in addresses:
        if allow_local or not is_local(address):
            return address
    raise LocalReceiver(f"{addresses[0]} is local: start the service with --local-webhooks")


async def _resolved(host: str, port: int) -> list[str]:
    """Return the addresses of a host.

    The thread is a daemon, so a name server that does not answer delays neither others nor a
    stop.
    """
    try:
        return [str(ipaddress.ip_address(host))]
    except ValueError:
        pass
    loop = asyncio.get_running_loop()
    answer: asyncio.Future[list[str]] = loop.create_future()

    def settle(result: list[str] | OSError) -> None:
        if not answer.done():
            if isinstance(result, OSError):
                answer.set_exception(result)
            else:
                answer.set_result(result)

    def ask() -> None:
        result: list[str] | OSError
        try:
            rows = socket.getaddrinfo(host, port, type=socket.SOCK_STREAM)
            result = [str(address[0]) for *_, address in rows]
        except OSError as error:
            result = error
        try:
            loop.call_soon_threadsafe(settle, result)
        except RuntimeError:  # the loop is closed: no caller waits
            pass

    threading.Thread(target=ask, name="sagas-resolve", daemon=True).start()
    return await answer


# -- deliveries


AT_ONCE, PATIENCE = 4, 10.0
"""Concurrent posts to a webhook, and the seconds of each, from name resolution to the status of
the answer.
"""
LEASE = 3 * PATIENCE
"""Seconds after which a delivery of a program that has ended is posted again."""
PAUSES = (1.0, 5.0, 25.0, 125.0, 600.0, 600.0, 600.0, 600.0, 600.0)
"""Maximum seconds before each further attempt. The minimum is half of that."""
POLL_INTERVAL = 5.0
"""Seconds between two checks for deliveries of other programs."""
HOUR, KEPT, KEPT_FAILED = 3600.0, 7 * 86400.0, 30 * 86400.0
"""Seconds between two deletions, and the seconds for which deliveries are stored."""
GONE = 410
"""The status by which a receiver declines further attempts of a delivery."""
MAX_ERROR = 200
POSTING_EVENTS = (
    "saga_ended",
    "saga_stuck",
    "saga_undo_failed",
    "saga_unused_report",
    "step_suspended",
    "step_exhausted",
    "step_unknown",
    "step_cannot_decode",
    "step_program_error",
)
"""Events whose commits may contain something to post."""
logger = logging.getLogger("sagas.webhooks")


class Webhooks:
    """Posts the deliveries of a store.

    Each webhook has its own posts, so that one that does not answer delays no other.
    """

    def __init__(
        self,
        hooks: list[Webhook],
        deliveries: Deliveries,
        allow_local: bool = False,
        on_posted: Callable[[str, DeliveryState], object] = lambda webhook, state: None,
    ) -> None:
        self._hooks, self._deliveries, self._allow_local = hooks, deliveries, allow_local
        self._on_posted = on_posted
        self._lanes: list[asyncio.Task[None]] = []
        self._awake: list[asyncio.Event] = []
        if hooks:
            deliveries.announce(self._subscribers)

    def _subscribers(self, saga: str) -> Hooks:
        """Return the webhooks that receive events of a definition, by type."""
        names_by_type = {
            kind: tuple(hook.name for hook in self._hooks if hook.wants(kind, saga))
            for kind in TYPES
        }
        return {kind: names for kind, names in names_by_type.items() if names}

    def names(self) -> list[str]:
        """Return the names of the webhooks."""
        return [hook.name for hook in self._hooks]

    def begin(self) -> None:
        """Start to post. The store must be open."""
        if not self._hooks:
            return
        loop = asyncio.get_running_loop()
        self._awake = [asyncio.Event() for _ in self._hooks]
        self._lanes = [
            loop.create_task(self._lane(hook, awake))
            for hook, awake in zip(self._hooks, self._awake)
        ]

    async def end(self) -> None:
        """Stop posting. The next program repeats what was under way."""
        for lane in self._lanes:
            lane.cancel()
        if self._lanes:
            await asyncio.wait(self._lanes)

    def event(self, event: Event) -> None:
        """Check for deliveries after an event of a saga that this service executes."""
        if self._awake and event.name in POSTING_EVENTS:
            self.look()

    def look(self) -> None:
        """Check for deliveries."""
        for awake in self._awake:
            awake.set()

    async def _lane(self, hook: Webhook, awake: asyncio.Event) -> None:
        """Post to one webhook until it is cancelled."""
        forgets, loop = 0.0, asyncio.get_running_loop()
        while True:
            awake.clear()
            pause = POLL_INTERVAL
            try:
                if loop.time() >= forgets:
                    forgets = loop.time() + HOUR
                    await self._deliveries.forget(KEPT, KEPT_FAILED)
                claimed = await self._deliveries.claim(hook.name, AT_ONCE, LEASE)
                if claimed:
                    await asyncio.gather(*(self._deliver(hook, delivery) for delivery in claimed))
                    continue
                due = await self._deliveries.due(hook.name)
                pause = POLL_INTERVAL if due is None else min(POLL_INTERVAL, max(0.05, due))
            except Closed:
                return
            except SagasError as error:  # the store does not answer: the next look asks again
                logger.warning("webhook %s: %s", hook.name, type(error).__name__)
            except Exception:
                logger.exception("webhook %s failed", hook.name)
            with contextlib.suppress(TimeoutError):
                async with asyncio.timeout(pause):
                    await awake.wait()

    async def _deliver(self, hook: Webhook, delivery: Claimed) -> None:
        """Post one delivery, and store the outcome. Raises `StoreUnavailable`, `Closed`."""
        status, error = None, None
        try:
            status = await post(hook, delivery, PATIENCE, self._allow_local)
        except TimeoutError:
            error = f"TimeoutError: it did not answer within {PATIENCE:g} s"
        except Exception as fault:
            error = f"{type(fault).__name__}: {fault}"[:MAX_ERROR]
        posted = outcome(status, error, delivery.attempts)
        self._on_posted(hook.name, posted.state)
        is_kept = await self._deliveries.settle(delivery.id, delivery.attempts, posted)
        if is_kept and posted.state is DeliveryState.FAILED:
            message = "webhook %s: %s not delivered, attempt %d was the last"
            logger.error(message, hook.name, delivery.id, delivery.attempts)


def outcome(status: int | None, error: str | None, attempts: int) -> Posted:
    """Return what becomes of a delivery after an attempt."""
    if status is not None and 200 <= status < 300:
        return Posted(DeliveryState.DELIVERED, status, None, None)
    if status == GONE or attempts > len(PAUSES):
        return Posted(DeliveryState.FAILED, status, error, None)
    pause = PAUSES[attempts - 1] * random.uniform(0.5, 1.0)
    return Posted(DeliveryState.PENDING, status, error, pause)
