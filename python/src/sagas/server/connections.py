"""Connections of clients: how many there may be, how long each may be silent, and which one is
closed.

This wraps the server's protocol. It uses only the interface of `asyncio.Protocol`.
"""

from __future__ import annotations

import asyncio
import contextlib
import functools
import json
from collections import Counter, OrderedDict
from collections.abc import Callable
from typing import Any

from sagas.server.problems import Problem, body
from sagas.server.request_framing import Malformed, RequestFraming
from sagas.server.settings import LOOPBACK, Network, ConcurrencySettings, is_among

Peer = tuple[str, int]
"""The client's end of a connection. It is unique among open connections."""
MAX_AHEAD = 1 << 16
"""Bytes that are buffered after an active request. Then reading pauses."""
LINGER = 1.0
"""Seconds for which input is read and dropped after a final answer."""
TURNS = 4
"""Turns of the event loop in which a new connection is not closed in favor of others. By then,
what its client had sent is read, however many connections came with it.
"""
SPARE = 200
"""Connections above the maximum. They are only answered that there are too many."""


def refusal(error: Malformed) -> bytes:
    """Return the answer to malformed input."""
    return answer("400 Bad Request", Problem("MalformedRequest", f"{error}: send HTTP/1.1"))


def answer(status: str, problem: Problem) -> bytes:
    """Return an answer that ends the connection, without the application."""
    text = json.dumps(body(problem)).encode() + b"\n"
    more = "Retry-After: 1\r\n" if problem.kind.status == 503 else ""
    head = (
        f"HTTP/1.1 {status}\r\nContent-Type: application/problem+json\r\n{more}"
        f"Content-Length: {len(text)}\r\nConnection: close\r\n\r\n"
    )
    return head.encode() + text


class Outlet:
    """A transport that can hold back output, to send it together.

    Each part that is sent alone costs a system call and wakes the client.

    Attributes:
        has_written: Whether something was written since the last request began.
    """

    def __init__(self, connection: Connection) -> None:
        self._connection, self._transport = connection, connection.transport
        self._held: list[bytes] | None = None
        self.has_written = False

    def __getattr__(self, name: str) -> Any:
        return getattr(self._transport, name)

    def is_closing(self) -> bool:
        return self._connection.is_over or self._transport.is_closing()

    def pause_reading(self) -> None:
        self._connection.pause("server")

    def resume_reading(self) -> None:
        self._connection.resume("server")

    def write(self, data: bytes) -> None:
        if self._connection.is_over:
            return
        self.has_written = True
        if self._held is None:
            self._transport.write(data)
        else:
            self._held.append(data)

    def hold(self) -> None:
        """Hold back output until `flush`."""
        if self._held is None:
            self._held = []

    def flush(self) -> None:
        """Send the held output."""
        held, self._held = self._held, None
        if held:
            self._transport.write(b"".join(held))

    def close(self) -> None:
        self.flush()
        self._connection.close()


class Connection(asyncio.Protocol):
    """One connection. `inner` is the server's protocol, which gets one request at a time.

    Attributes:
        gone: Done when the client is gone, or nothing more is sent to it.
        lost: Done when the server's protocol knows that, too.
        followed: Done when something has arrived after the active request.
        outlet: The transport for the server's protocol.
        is_unread: Whether more output is pending than the client reads.
        crowding: Why this connection only gets answers for health checks and operators.
        is_over: Whether nothing more is read or written.
    """

    transport: asyncio.Transport
    outlet: Outlet

    def __init__(self, inner: Any, connections: Connections) -> None:
        self._inner, self._connections = inner, connections
        self._loop = asyncio.get_running_loop()
        self.gone: asyncio.Future[None] = self._loop.create_future()
        self.lost: asyncio.Future[None] = self._loop.create_future()
        self.followed: asyncio.Future[None] = self._loop.create_future()
        self.peer: Peer | None = None
        self.at_work = self.is_over = self.is_unread = False
        self.crowding: str | None = None
        self._framing, self._is_open = RequestFraming(), False
        self._paused: set[str] = set()
        self._turns = TURNS
        self._unread: asyncio.TimerHandle | None = None

    def connection_made(self, transport: asyncio.BaseTransport) -> None:
        assert isinstance(transport, asyncio.Transport)
        self.transport = transport
        self.outlet = Outlet(self)
        name = transport.get_extra_info("peername")
        self.peer = (str(name[0]), int(name[1])) if isinstance(name, tuple) else None
        self._loop.call_soon(self._age)
        self._inner.connection_made(self.outlet)
        self._connections.came(self)

    def connection_lost(self, error: Exception | None) -> None:
        self.is_over = True
        self._connections.went(self)
        self._reads()
        self.leave()
        self._inner.connection_lost(error)
        if not self.lost.done():
            self.lost.set_result(None)

    def data_received(self, data: bytes) -> None:
        if self.is_over:  # it is read to its end, so that the client gets the answer
            return
        self._framing.feed(data)
        self._advance()
        if self.is_over:
            self.leave()
        elif not self.at_work and not self._is_open:
            self._connections.begins(self)

    def _advance(self) -> None:
        """Pass on input of the next request, unless another request is active."""
        try:
            while not self.is_over:
                begins = self._framing.is_between
                part = b"" if begins and self._is_open else self._framing.take()
                if not part:
                    break
                if begins:
                    self._is_open, self.outlet.has_written = True, False
                self._inner.data_received(part)
        except Malformed as error:
            has_begun = self._is_open and self.outlet.has_written
            self.finish(None if has_begun else refusal(error))
        except Exception:  # it is not HTTP, and its answer has started already
            self.close()
        ahead = len(self._framing) if self._is_open and self._framing.is_between else 0
        if ahead and not self.followed.done():
            self.followed.set_result(None)
        (self.pause if ahead > MAX_AHEAD else self.resume)("ahead")

    def eof_received(self) -> bool | None:
        stays_open: bool | None = self._inner.eof_received()
        if not stays_open:  # the transport closes: what is written from now on is dropped
            self.is_over = True
            self.leave()
        return stays_open

    def pause_writing(self) -> None:
        self._inner.pause_writing()
        self.is_unread = True
        self._connections.unread(self)
        self._wait_for_reader()

    def resume_writing(self) -> None:
        self._inner.resume_writing()
        self.is_unread = False
        if self.at_work:
            self._connections.works(self)
        self._reads()

    def pause(self, reason: str) -> None:
        """Stop reading until each reason to pause has been removed."""
        self._paused.add(reason)
        self.transport.pause_reading()

    def resume(self, reason: str) -> None:
        """Remove a reason to pause."""
        if reason in self._paused:
            self._paused.discard(reason)
            if not self._paused and not self.transport.is_closing():
                self.transport.resume_reading()

    def leave(self) -> None:
        """Mark the client as gone."""
        if not self.gone.done():
            self.gone.set_result(None)

    def close(self) -> None:
        """Send pending output, and close."""
        self.is_over = True
        self.transport.close()

    def finish(self, text: bytes | None) -> None:
        """Send this answer and close.

        Input is still read for a moment. Otherwise, the client would get a connection reset
        instead of the answer.
        """
        self.is_over = True
        self.leave()
        if text is not None and not self.transport.is_closing():
            self.transport.write(text)
        self._paused.clear()
        with contextlib.suppress(OSError, RuntimeError):
            self.transport.resume_reading()
            self.transport.write_eof()
        self._loop.call_later(LINGER, self.transport.close)

    # -- its requests

    def is_new(self) -> bool:
        """Return whether the connection is so new that its first request may not have been read
        yet.
        """
        return self._turns > 0

    def _age(self) -> None:
        self._turns -= 1
        if self._turns:
            self._loop.call_soon(self._age)

    def starts(self, is_whole: bool) -> None:
        """Record that a request's head is complete. `is_whole`: its body is complete, too."""
        self.at_work = True
        if is_whole:
            self._connections.works(self)
        else:
            self._connections.owes(self)

    def is_whole(self) -> None:
        """Record that the rest of the body has arrived."""
        self._connections.works(self)

    def ends(self) -> None:
        """Record that the request is answered."""
        self.outlet.flush()
        self.at_work = self._is_open = False
        if self.followed.done():
            self.followed = self._loop.create_future()
        self._connections.owes(self)
        if not self.is_over and not self.transport.is_closing():
            self._advance()

    # -- what it does not read

    def _wait_for_reader(self, before: int | None = None) -> None:
        """Abort the connection if the client does not read for too long."""
        left = self.transport.get_write_buffer_size()
        if before is not None and left >= before:
            self.transport.abort()
        else:
            self._unread = self._loop.call_later(
                self._connections.send_time, self._wait_for_reader, left
            )

    def _reads(self) -> None:
        if self._unread:
            self._unread.cancel()
            self._unread = None


class Connections:
    """All connections, and in `requests` the tasks that answer.

    If there are too many connections, one is closed that has no complete request, or whose
    client does not read its answer: the one for which this has lasted longest. If there is
    none, the new connection is refused.

    A request's head must arrive within `head_time`. A client that reads nothing of its answer
    for `send_time` is disconnected. `concurrency` limits the connections of one address, except
    for `trusted` proxies, and reserves some for health checks and operators.
    """

    def __init__(
        self,
        max_connections: int,
        head_time: float,
        send_time: float,
        concurrency: ConcurrencySettings = ConcurrencySettings(),
        trusted: tuple[Network, ...] = LOOPBACK,
    ) -> None:
        self.max_connections, self.head_time, self.send_time = max_connections, head_time, send_time
        self.all: dict[Connection, None] = {}
        self._max_per_address, self._trusted = concurrency.connections_of_address, trusted
        self._kept = min(concurrency.kept, max_connections // 4)
        self._addresses: Counter[str] = Counter()
        self._of: dict[Peer, Connection] = {}
        self._owing: OrderedDict[Connection, None] = OrderedDict()
        self._due: OrderedDict[Connection, float] = OrderedDict()  # the earliest first
        self._at_work: set[Connection] = set()
        self.requests: set[asyncio.Task[Any]] = set()
        self._timer: asyncio.TimerHandle | None = None
        self._is_stopping = False

    def of(self, peer: Any) -> Connection | None:
        """Return the connection of a client, by its address and port."""
        return self._of.get((peer[0], peer[1])) if peer else None

    def crowding(self, connection: Connection | None) -> str | None:
        """Return why only health checks and operators are answered, or None.

        The request already counts as active.
        """
        if connection is not None and connection.crowding:
            return connection.crowding
        limit = self.max_connections - self._kept
        if len(self._at_work) > limit:
            return f"the service is processing {limit} requests"
        return None

    def occupy(self, address: str) -> Callable[[], None]:
        """Count a request that a trusted proxy forwards for an address.

        Returns a function that ends it. Raises `Problem` if the address has too many.
        """
        if self._addresses[address] >= self._max_per_address:
            why = f"your address has {self._max_per_address} connections: retry later"
            raise Problem("TooManyConnections", why)
        self._addresses[address] += 1
        return functools.partial(self._forget, address)

    def came(self, connection: Connection) -> None:
        """Add a connection. If there are too many, close another one or refuse this one."""
        self.all[connection] = None
        if connection.peer:
            self._of[connection.peer] = connection
            self._count(connection, connection.peer[0])
        if self._is_stopping:
            connection.close()
            return
        if len(self.all) > self.max_connections:
            self._make_room(connection)
        if connection in self.all:
            self.begins(connection)

    def _count(self, connection: Connection, address: str) -> None:
        if is_among(address, self._trusted):
            return
        self._addresses[address] += 1
        if self._addresses[address] > self._max_per_address:
            connection.crowding = f"your address has {self._max_per_address} connections"

    def _make_room(self, connection: Connection) -> None:
        other = next(iter(self._owing), None)
        if other is None or other.crowding or other.is_new():
            other = None
            connection.crowding = (
                connection.crowding or f"there are {self.max_connections} connections"
            )
            if len(self.all) > self.max_connections + SPARE:
                other = next(iter(self._owing), None)
                if other is None:
                    why = f"{connection.crowding}: retry later"
                    problem = Problem("TooManyConnections", why)
                    connection.finish(answer("503 Service Unavailable", problem))
        if other is not None:
            self.went(other)
            other.transport.abort()

    def begins(self, connection: Connection) -> None:
        """Record that a request's head must arrive in time."""
        self._owing.setdefault(connection, None)
        if connection not in self._due:
            self._due[connection] = asyncio.get_running_loop().time() + self.head_time
            self._look_later()

    def owes(self, connection: Connection) -> None:
        """Record that a request is answered, or that its body is incomplete.

        Other timers cover both cases.
        """
        self._due.pop(connection, None)
        (self._at_work.add if connection.at_work else self._at_work.discard)(connection)
        if connection in self.all:
            self._owing.setdefault(connection, None)
            if self._is_stopping and not connection.at_work:
                connection.close()

    def works(self, connection: Connection) -> None:
        """Record that a request is complete and not answered yet."""
        self._due.pop(connection, None)
        if connection.is_unread:
            self.unread(connection)
            return
        self._owing.pop(connection, None)
        if connection in self.all:
            self._at_work.add(connection)

    def unread(self, connection: Connection) -> None:
        """Record that the client does not read: the connection may be closed like an idle one."""
        self._at_work.discard(connection)
        if connection in self.all:
            self._owing.setdefault(connection, None)

    def went(self, connection: Connection) -> None:
        """Remove a connection."""
        self._due.pop(connection, None)
        self._owing.pop(connection, None)
        self._at_work.discard(connection)
        if connection in self.all and connection.peer:
            self._forget(connection.peer[0])
        self.all.pop(connection, None)
        if connection.peer and self._of.get(connection.peer) is connection:
            del self._of[connection.peer]

    def _forget(self, address: str) -> None:
        if address in self._addresses:
            self._addresses[address] -= 1
            if not self._addresses[address]:
                del self._addresses[address]

    def stop(self) -> None:
        """Close idle connections, and each other one after its answer."""
        self._is_stopping = True
        for connection in list(self.all):
            if not connection.at_work:
                connection.close()

    def abort(self) -> None:
        """Close all connections at once."""
        for connection in list(self.all):
            connection.leave()
            connection.transport.abort()
        for request in list(self.requests):
            request.cancel()

    def _look_later(self) -> None:
        if self._timer is None and self._due:
            first = next(iter(self._due.values()))
            self._timer = asyncio.get_running_loop().call_at(first, self._look)

    def _look(self) -> None:
        """Abort connections whose request head did not arrive in time."""
        self._timer, now = None, asyncio.get_running_loop().time()
        while self._due and next(iter(self._due.values())) <= now + 0.01:
            connection, _ = self._due.popitem(last=False)
            self._owing.pop(connection, None)
            with contextlib.suppress(OSError):
                connection.transport.abort()
        self._look_later()
