"""One token or one address does not block the service for others.

Waits, claims, streams and connections have limits, and a request ends with its connection.
"""

from __future__ import annotations

import asyncio
import contextlib
import dataclasses
import json
import pathlib
import re
import socket
import struct
import sys
import time
from collections.abc import AsyncIterator
from typing import Any

import pytest
from driving import program
from hypothesis import given, strategies as st
from serving import DEFINITIONS, LONG, Served, served, start, token
from test_service_denial import inside

from sagas.server import command, uvicorn_server
from sagas.server.request_framing import Malformed, RequestFraming
from sagas.server.settings import ConcurrencySettings

RESET = struct.pack("ii", 1, 0)
WAIT = "GET /v1/sagas/k/wait?seconds=60 HTTP/1.1"
CLAIM = "POST /v1/tasks/claim HTTP/1.1"
LIVE = "GET /health/live HTTP/1.1"
FOREVER = '{"steps":["trip/tour"],"wait":30}'


def text(line: str, token: str = "", body: str = "") -> bytes:
    """Return the text of a request."""
    lines = [line, "Host: 127.0.0.1"]
    lines += [f"Authorization: Bearer {token}"] if token else []
    lines += ["Content-Type: application/json", f"Content-Length: {len(body)}"] if body else []
    return ("\r\n".join(lines) + "\r\n\r\n" + body).encode()


@dataclasses.dataclass
class Reply:
    """A response: its status, its headers and the name of its problem."""

    status: int
    headers: dict[str, str]
    problem: str


async def reply_of(back: asyncio.StreamReader) -> Reply:
    head = (await back.readuntil(b"\r\n\r\n")).decode().split("\r\n")
    headers = dict(line.lower().split(": ", 1) for line in head[1:] if line)
    body = await back.readexactly(int(headers.get("content-length", 0)))
    problem = json.loads(body) if "problem" in headers.get("content-type", "") else {}
    return Reply(int(head[0].split()[1]), headers, problem.get("type", "").rpartition(":")[2])


class Callers:
    """Connections to a service, which end with it."""

    def __init__(self, address: tuple[str, int]) -> None:
        self.address = address
        self.open: list[tuple[asyncio.StreamReader, asyncio.StreamWriter]] = []

    async def send(self, *requests: bytes) -> asyncio.StreamReader:
        """Open a connection and send these requests; return what comes back."""
        back, there = await asyncio.open_connection(*self.address)
        there.write(b"".join(requests))
        self.open.append((back, there))
        return back

    async def ask(self, *requests: bytes) -> Reply:
        """Return the first response on a separate connection."""
        return await reply_of(await self.send(*requests))

    async def held(self, count: int, request: bytes) -> None:
        """Open `count` connections with requests that get no response yet."""
        for _ in range(count):
            await self.send(request)

    async def end(self) -> None:
        for _, there in self.open:
            there.close()
        self.open.clear()


@contextlib.asynccontextmanager
async def callers(address: tuple[str, int]) -> AsyncIterator[Callers]:
    some = Callers(address)
    try:
        yield some
    finally:
        await some.end()


@pytest.fixture
def tokens(tmp_path: pathlib.Path, monkeypatch: pytest.MonkeyPatch) -> dict[str, str]:
    monkeypatch.setenv("SAGAS_PROGRAM", program())
    roles = {"evil": ("caller", "worker"), "other": ("caller", "worker"), "op": ("operator",)}
    return {name: token(tmp_path, name, *some) for name, some in roles.items()}


def started(token: str) -> bytes:
    return text("POST /v1/sagas HTTP/1.1", token, '{"definition":"trip","key":"k"}')


@pytest.mark.parametrize("line, body", [(WAIT, ""), (CLAIM, FOREVER)], ids=["waits", "claims"])
def test_waits_and_claims_of_a_token(
    tmp_path: pathlib.Path, tokens: dict[str, str], line: str, body: str
) -> None:
    """One more than it may have is 503, with the time after which to retry.

    Another token waits as before; one that ends frees its slot. No connection is reset.
    """

    async def ask(address: tuple[str, int]) -> None:
        async with callers(address) as evil, callers(address) as others:
            assert (await others.ask(started(tokens["other"]))).status == 201
            await evil.held(5, text(line, tokens["evil"], body))
            reply = await others.ask(text(line, tokens["evil"], body))
            assert (reply.status, reply.problem, reply.headers["retry-after"]) == (
                503,
                "TooManyWaits",
                "1",
            )
            await others.held(5, text(line, tokens["other"], body))
            await evil.end()
            waiting = others.send(text(line, tokens["evil"], body))
            with pytest.raises(TimeoutError):
                async with asyncio.timeout(1.0):
                    await reply_of(await waiting)

    concurrency = ConcurrencySettings(waits=5, claims=5)
    inside(tmp_path, ask, tokens=tmp_path / "tokens.toml", concurrency=concurrency)


def test_a_report_counts_when_no_claim_may_follow(
    tmp_path: pathlib.Path, tokens: dict[str, str]
) -> None:
    """If a token has as many claims as it may have, a report with a following claim is stored and
    answered at once.
    """

    async def ask(address: tuple[str, int]) -> None:
        async with callers(address) as evil, callers(address) as others:
            assert (await others.ask(started(tokens["other"]))).status == 201
            back = await evil.send(
                text(CLAIM, tokens["evil"], '{"steps":["trip/flight"],"wait":9}')
            )
            head = await back.readuntil(b"\r\n\r\n")
            size = int(re.search(rb"content-length: (\d+)", head.lower())[1])  # type: ignore[index]
            (task,) = json.loads(await back.readexactly(size))["tasks"]
            await evil.held(2, text(CLAIM, tokens["evil"], FOREVER))
            report = {"lease": task["lease"], "next": {"steps": ["trip/tour"], "wait": 30}}
            line = f"POST /v1/tasks/{task['attempt_id']}/complete HTTP/1.1"
            async with asyncio.timeout(20):
                assert (
                    await evil.ask(text(line, tokens["evil"], json.dumps(report)))
                ).status == 200

    inside(
        tmp_path, ask, tokens=tmp_path / "tokens.toml", concurrency=ConcurrencySettings(claims=2)
    )


def test_connections_of_a_token(tmp_path: pathlib.Path, tokens: dict[str, str]) -> None:
    """They count while a request is in progress."""

    async def ask(address: tuple[str, int]) -> None:
        async with callers(address) as evil, callers(address) as others:
            assert (await others.ask(started(tokens["other"]))).status == 201
            await evil.held(6, text(WAIT, tokens["evil"]))
            list_sagas = text("GET /v1/sagas HTTP/1.1", tokens["evil"])
            reply = await others.ask(list_sagas)
            assert (reply.status, reply.problem) == (503, "TooManyConnections")
            assert reply.headers["retry-after"] == "1"
            assert (await others.ask(text("GET /v1/sagas HTTP/1.1", tokens["other"]))).status == 200
            await evil.end()
            while (await others.ask(list_sagas)).status != 200:
                await asyncio.sleep(0.05)

    concurrency = ConcurrencySettings(connections_of_token=6)
    inside(tmp_path, ask, tokens=tmp_path / "tokens.toml", concurrency=concurrency)


@pytest.mark.parametrize("is_proxied", [False, True])
def test_connections_of_an_address(
    tmp_path: pathlib.Path, tokens: dict[str, str], is_proxied: bool
) -> None:
    """Each one above the limit gets the error, on its own connection; health checks and operators
    are answered. For a trusted proxy the forwarded address counts.
    """
    proxied = "\r\nX-Forwarded-For: 192.0.2.7" if is_proxied else ""
    wait = text(WAIT + "\r\nX: y" + proxied, tokens["evil"])
    once = text("GET /v1/sagas HTTP/1.1" + proxied, tokens["evil"])

    async def ask(address: tuple[str, int]) -> None:
        async with callers(address) as evil, callers(address) as others:
            assert (await others.ask(started(tokens["other"]))).status == 201
            await others.end()
            await asyncio.sleep(0.2)
            await evil.held(6, wait)
            reply = await others.ask(once)
            assert (reply.status, reply.problem) == (503, "TooManyConnections")
            assert reply.headers["retry-after"] == "1"
            if not is_proxied:
                for request in (text(LIVE), text("GET /v1/attention HTTP/1.1", tokens["op"])):
                    assert (await others.ask(request)).status == 200
            else:
                assert (
                    await others.ask(text("GET /v1/sagas HTTP/1.1", tokens["op"]))
                ).status == 200
            await evil.end()
            await others.end()
            while (await others.ask(once)).status != 200:
                await asyncio.sleep(0.05)
                await others.end()

    options: dict[str, Any] = {} if is_proxied else {"trusted_proxies": ()}
    concurrency = ConcurrencySettings(connections_of_address=6)
    inside(tmp_path, ask, tokens=tmp_path / "tokens.toml", concurrency=concurrency, **options)


def test_connections_for_health_and_operators(
    tmp_path: pathlib.Path, tokens: dict[str, str]
) -> None:
    """When all others are taken, and above: each request is answered, and not reset."""

    async def ask(address: tuple[str, int]) -> None:
        async with callers(address) as evil, callers(address) as others:
            assert (await others.ask(started(tokens["other"]))).status == 201
            await others.end()
            await evil.held(40, text(WAIT, tokens["evil"]))  # 30 of them may wait
            op = text("GET /v1/attention HTTP/1.1", tokens["op"])
            some = [text(LIVE), op, text("GET /health/ready HTTP/1.1")]
            for _ in range(20):
                assert [(await others.ask(item)).status for item in some] == [200] * 3
                reply = await others.ask(text("GET /v1/sagas HTTP/1.1", tokens["other"]))
                assert (reply.status, reply.problem) == (503, "TooManyConnections")
                assert reply.headers["retry-after"] == "1"
                assert (await others.ask(text("GET /openapi.json HTTP/1.1"))).status == 503

    concurrency = ConcurrencySettings(connections=40, waits=100, kept=10)
    inside(tmp_path, ask, tokens=tmp_path / "tokens.toml", concurrency=concurrency)


def test_clients_that_read_nothing_give_way(tmp_path: pathlib.Path, tokens: dict[str, str]) -> None:
    """More clients than there may be connections, without a token, request much and read nothing:
    each new one is answered.
    """

    async def ask(address: tuple[str, int]) -> None:
        async with callers(address) as evil, callers(address) as others:
            assert (await others.ask(started(tokens["other"]))).status == 201
            for _ in range(60):
                back = await evil.send(*[text("GET /openapi.json HTTP/1.1")] * 60)
                back._transport.pause_reading()  # type: ignore[attr-defined]
            for _ in range(20):
                reply = await others.ask(text("GET /v1/sagas HTTP/1.1", tokens["other"]))
                assert reply.status == 200
                assert (await others.ask(text(LIVE))).status == 200

    concurrency = ConcurrencySettings(connections=40, kept=10)
    inside(tmp_path, ask, tokens=tmp_path / "tokens.toml", concurrency=concurrency)


@pytest.mark.parametrize("parser", ["h11", "httptools"])
def test_data_after_a_wait_ends_it(
    tmp_path: pathlib.Path, tokens: dict[str, str], parser: str, monkeypatch: pytest.MonkeyPatch
) -> None:
    """Data that is sent after a wait, a claim or a stream ends it; so does the client's end, at
    once, whatever it has sent.
    """
    if parser == "httptools":
        pytest.importorskip("httptools")
    else:
        from uvicorn.protocols.http.h11_impl import H11Protocol  # type: ignore[import]

        monkeypatch.setattr(uvicorn_server, "AutoHTTPProtocol", H11Protocol)
    counted: list[Any] = []
    serving = uvicorn_server.Serving

    def seen(server: Any, service: Any, connections: Any, *more: Any) -> Any:
        counted.append(connections)
        return serving(server, service, connections, *more)

    monkeypatch.setattr(uvicorn_server, "Serving", seen)

    async def ask(address: tuple[str, int]) -> None:
        async with callers(address) as some:
            evil = tokens["evil"]
            assert (await some.ask(started(evil))).status == 201
            for line, body in ((WAIT, ""), (CLAIM, FOREVER)):
                back = await some.send(text(line, evil, body), text(LIVE))
                async with asyncio.timeout(20):
                    replies = [await reply_of(back), await reply_of(back)]
                assert [reply.status for reply in replies] == [200, 200], line
            back = await some.send(text("GET /v1/events HTTP/1.1", evil))
            await back.readuntil(b"\r\n\r\n")
            some.open[-1][1].write(text(LIVE))
            async with asyncio.timeout(20):
                await back.read()
            await some.end()
            for line, body in ((WAIT, ""), (CLAIM, FOREVER), (LIVE, "")):
                for is_reset in (False, True):
                    back = await some.send(text(line, evil, body), *[text(LIVE)] * 20)
                    if is_reset:
                        link = some.open[-1][1].get_extra_info("socket")
                        link.setsockopt(socket.SOL_SOCKET, socket.SO_LINGER, RESET)
                    await some.end()
            for line, body in ((WAIT, ""), (CLAIM, FOREVER)):
                await some.send(text(line, evil, body))
                await asyncio.sleep(0.1)
                await some.end()
            async with asyncio.timeout(20):
                while counted[0].all or counted[0].requests:
                    await asyncio.sleep(0.05)

    inside(tmp_path, ask, tokens=tmp_path / "tokens.toml")


def test_a_stop_after_pipelined_requests(tmp_path: pathlib.Path) -> None:
    """SIGTERM ends the service, whatever requests clients have left."""
    with served(tmp_path, DEFINITIONS) as service:
        name, _, port = service.address.rpartition(":")
        with service.client() as client:
            start(client, "trip", "k")
        claim = text(CLAIM, body=FOREVER) + text(LIVE)
        wait = text(WAIT) + text(LIVE)
        for request in (text("GET /openapi.json HTTP/1.1") * 30, claim, wait) * 7:
            with socket.create_connection((name, int(port)), timeout=LONG) as connection:
                connection.sendall(request)
                time.sleep(0.01)
                connection.setsockopt(socket.SOL_SOCKET, socket.SO_LINGER, RESET)
        began = time.monotonic()
        assert service.stop() == 0 and time.monotonic() - began < 30


def test_a_stop_has_a_deadline(
    tmp_path: pathlib.Path, tokens: dict[str, str], monkeypatch: pytest.MonkeyPatch
) -> None:
    """A client that reads nothing of a long response delays it only for a moment."""
    monkeypatch.setattr(uvicorn_server, "FOR_REQUESTS", 0.5)
    servers: list[Any] = []
    serving = uvicorn_server.Serving

    def seen(server: Any, service: Any, connections: Any, *more: Any) -> Any:
        servers.append(serving(server, service, connections, *more))
        return servers[-1]

    monkeypatch.setattr(uvicorn_server, "Serving", seen)

    async def ask(address: tuple[str, int]) -> None:
        large = json.dumps({"definition": "trip", "key": "k", "input": "x" * 900_000})
        async with callers(address) as some:
            request = text("POST /v1/sagas HTTP/1.1", tokens["evil"], large)
            assert (await some.ask(request)).status == 201
            for _ in range(5):
                back = await some.send(*[text("GET /v1/sagas/k HTTP/1.1", tokens["evil"])] * 9)
                back._transport.pause_reading()  # type: ignore[attr-defined]
            await asyncio.sleep(0.5)
            servers[0].stop("of a test")
            async with asyncio.timeout(30):
                while servers[0]._connections.all or servers[0]._connections.requests:
                    await asyncio.sleep(0.05)

    inside(tmp_path, ask, tokens=tmp_path / "tokens.toml")


HEAD = b"POST /x HTTP/1.1\r\nHost: h\r\n"
CHUNKED = HEAD + b"Transfer-Encoding: chunked\r\n\r\n"
GOOD = [
    b"GET / HTTP/1.1\r\nHost: h\r\n\r\n",
    b"GET / HTTP/1.0\r\nA:b\r\nC: \xff \r\n\r\n",
    HEAD + b"Content-Length: 5\r\n\r\nabc\r\n",
    HEAD + b"Content-Length: 0\r\n\r\n",
    CHUNKED + b"2\r\n{}\r\n0\r\n\r\n",
    CHUNKED + b"2;a=b\r\n{}\r\n001\r\n\n\r\n0\r\nTrailer: x\r\n\r\n",
]
BAD = [
    b"GET /\r\n\r\n",
    b"GET / HTTP/2.0\r\n\r\n",
    b"GET / HTTP/1.1\nHost: h\n\n",
    b"GET / HTTP/1.1\r\nHost: h\nX: y\r\n\r\n",
    b"GET / HTTP/1.1\r\nHost: h\r\n X: folded\r\n\r\n",
    b"GET / HTTP/1.1\r\nX:\r\n folded\r\n\r\n",
    b"GET / HTTP/1.1\r\nX: a\rb\r\n\r\n",
    b"GET / HTTP/1.1\r\nX : a\r\n\r\n",
    b"GET / HTTP/1.1\r\nX: a\0\r\n\r\n",
    b"GET  / HTTP/1.1\r\n\r\n",
    HEAD + b"Transfer-Encoding: gzip, chunked\r\n\r\n",
    HEAD + b"Transfer-Encoding: identity\r\n\r\n",
    HEAD + b"Transfer-Encoding: chunked\r\nTransfer-Encoding: chunked\r\n\r\n",
    HEAD + b"Transfer-Encoding: chunked\r\nContent-Length: 2\r\n\r\n",
    HEAD.replace(b"1.1", b"1.0") + b"Transfer-Encoding: chunked\r\n\r\n",
    HEAD + b"Content-Length: 2\r\nContent-Length: 2\r\n\r\n",
    HEAD + b"Content-Length: +2\r\n\r\n",
    HEAD + b"Content-Length: \r\n\r\n",
    HEAD + b"Content-Length: 2, 2\r\n\r\n",
    CHUNKED + b"2;a\nb\r\n{}\r\n",
    CHUNKED + b"2\n{}\n0\n\n",
    CHUNKED + b"0x2\r\n{}\r\n",
    CHUNKED + b"2\r\n{}0\r\n\r\n",
    CHUNKED + b"fffffffff\r\n",
    CHUNKED + b";\r\n",
    CHUNKED + b"1" * 300,
    CHUNKED + b"0\r\nA : b\r\n",
    b"GET / HTTP/1.1\r\nX: " + b"a" * 20_000 + b"\r\n\r\n",
    b"G" * 20_000,
]


@given(st.lists(st.sampled_from(GOOD), min_size=1, max_size=4), st.data())
def test_requests_are_divided(requests: list[bytes], data: st.DataObject) -> None:
    """However they arrive, each is parsed by itself, byte for byte."""
    stream, framing = b"".join(requests), RequestFraming()
    cuts = data.draw(st.lists(st.integers(0, len(stream)), max_size=6))
    edges, parts = [0, *sorted(cuts), len(stream)], [b""]
    for begin, end in zip(edges, edges[1:]):
        framing.feed(stream[begin:end])
        while part := framing.take():
            parts[-1] += part
            if framing.is_between:
                parts.append(b"")
    assert parts == [*requests, b""] and framing.is_between and not len(framing)


@pytest.mark.parametrize("request_text", BAD, ids=range(len(BAD)))
@pytest.mark.parametrize("size", [1, 7, 1 << 20])
def test_requests_that_may_be_read_in_two_ways(request_text: bytes, size: int) -> None:
    """They are refused, whichever part arrives first."""
    framing = RequestFraming()
    with pytest.raises(Malformed):
        for begin in range(0, len(request_text), size):
            framing.feed(request_text[begin : begin + size])
            while framing.take():
                ...


def test_malformed_requests_are_refused(tmp_path: pathlib.Path) -> None:
    """The response says so; also after a request that was answered.

    Its connection ends, and what the client still sends does not reset it.
    """
    with served(tmp_path, DEFINITIONS) as service:
        name, _, port = service.address.rpartition(":")
        for request_text in BAD:
            for before in (b"", text(LIVE)):
                with socket.create_connection((name, int(port)), timeout=LONG) as connection:
                    connection.sendall(before + request_text + b"\r\n" * 1000)
                    received = b""
                    while part := connection.recv(65536):
                        received += part
                statuses = re.findall(rb"HTTP/1\.1 (\d+) ", received)
                assert statuses == ([b"200"] if before else []) + [b"400"], (request_text, received)
                assert b"urn:sagas:problem:MalformedRequest" in received
    assert '"level": "error"' not in service.log_text()


STUCK = """
import pathlib
import threading
import sagas

saga = sagas.Saga("stuck")

@saga.step
def waits(task: sagas.Task) -> None:
    pathlib.Path("called").touch()
    threading.Event().wait()

SAGAS = [saga]
"""
QUICK = """
import dataclasses
import sys
from sagas.__main__ import main
from sagas.server import command, uvicorn_server
uvicorn_server.FOR_REQUESTS = uvicorn_server.FOR_CLOSE = 0.2
settings_of = command.settings_of
command.settings_of = lambda *given: dataclasses.replace(settings_of(*given), shutdown_timeout=0.1)
sys.exit(main(sys.argv[1:]))
"""


class Quick(Served):
    """A service whose stop has little time."""

    def command(self) -> list[str]:
        _, module, sagas, *arguments = super().command()
        assert (module, sagas) == ("-m", "sagas")
        return [sys.executable, "-c", QUICK, *arguments]


def until_there(path: pathlib.Path) -> None:
    """Wait for a file."""
    deadline = time.monotonic() + LONG
    while not path.exists():
        assert time.monotonic() < deadline
        time.sleep(0.02)


def test_a_stop_that_hangs_ends_the_process(tmp_path: pathlib.Path) -> None:
    """A function that never returns blocks it: the process ends, and reports that."""
    (tmp_path / "stuck.py").write_text(STUCK)
    service = Quick(tmp_path, DEFINITIONS, "--app", "stuck:SAGAS")
    try:
        service.start()
        with service.client() as client:
            start(client, "stuck", "k")
        until_there(tmp_path / "called")
        assert service.stop() == command.OVERDUE
        assert "the stop has taken too long" in service.log_text()
    finally:
        service.kill()
