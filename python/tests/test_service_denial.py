"""Clients without a token do not block the service: slow bodies, heads only, endless streams."""

from __future__ import annotations

import asyncio
import contextlib
import json
import pathlib
import socket
import threading
import time
from collections.abc import Awaitable, Callable, Iterator
from typing import Any

import httpx
import pytest
from driving import program
from serving import DEFINITIONS, LONG, Served, host, served, start, token

from sagas.definition import definition_files
from sagas.server import uvicorn_server
from sagas.server.settings import Settings, StreamSettings

MAX_CONNECTIONS = 60


class Trickler(threading.Thread):
    """A client that sends an endless body, over and over."""

    def __init__(self, service: Served, head: bytes, part: bytes) -> None:
        super().__init__(daemon=True)
        name, _, port = service.address.rpartition(":")
        self.address, self.head, self.part = (name, int(port)), head, part
        self.begun, self.over = threading.Event(), threading.Event()

    def run(self) -> None:
        while not self.over.is_set():
            with contextlib.suppress(OSError), socket.create_connection(
                self.address, timeout=LONG
            ) as connection:
                connection.sendall(self.head)
                self.begun.set()
                while not self.over.wait(0.2):
                    connection.sendall(self.part)


@contextlib.contextmanager
def trickling(service: Served, count: int, head: str, part: bytes) -> Iterator[None]:
    """Run `count` of them, each with at least its head sent, until the block ends."""
    text = "\r\n".join([head, f"Host: {service.address}", "Content-Type: application/json", "", ""])
    some = [Trickler(service, text.encode(), part) for _ in range(count)]
    for item in some:
        item.start()
    try:
        assert all(item.begun.wait(LONG) for item in some)
        yield
    finally:
        for item in some:
            item.over.set()
        for item in some:
            item.join(LONG)


HEADS = [
    ("POST /v1/sagas HTTP/1.1\r\nContent-Length: 1000000", b" "),
    ("POST /v1/sagas HTTP/1.1\r\nTransfer-Encoding: chunked", b"1\r\n \r\n"),
    ("POST /ui/login HTTP/1.1\r\nContent-Length: 4000", b"a"),
    ("GET /health/live HTTP/1.1\r\nContent-Length: 1000000", b" "),
    ("GET /health/live HTTP/1.1\r\nX-Slow: a", b""),
]


@pytest.fixture(scope="module", params=[False, True], ids=["without tokens", "with tokens"])
def limited(
    request: pytest.FixtureRequest, tmp_path_factory: pytest.TempPathFactory
) -> Iterator[Served]:
    """Return a service that takes few connections."""
    folder = tmp_path_factory.mktemp("limited")
    options = ["--most-connections", str(MAX_CONNECTIONS)]
    if request.param:
        token(folder, "a", "caller")
        options += ["--token-file", str(folder / "tokens.toml")]
    with served(folder, DEFINITIONS, *options) as service:
        yield service


@pytest.mark.parametrize(
    "head, part",
    HEADS,
    ids=["a length", "chunks", "the login", "an answer that has come", "a head alone"],
)
def test_bodies_that_trickle(limited: Served, head: str, part: bytes) -> None:
    """There are more of them than connections: each request of another client is answered
    at once.
    """
    with trickling(limited, MAX_CONNECTIONS + 1, head, part):
        for _ in range(25):
            with limited.client() as client:
                assert client.get("/health/live").json() == {"alive": True}
            time.sleep(0.05)


@contextlib.contextmanager
def raw(service: Served) -> Iterator[socket.socket]:
    name, _, port = service.address.rpartition(":")
    with socket.create_connection((name, int(port)), timeout=LONG) as connection:
        yield connection


def answered(connection: socket.socket) -> tuple[int, str]:
    """Return the status of the next response, and the name of its error."""
    text = b""
    while b"\r\n\r\n" not in text:
        text += connection.recv(65536)
    head, _, body = text.partition(b"\r\n\r\n")
    length = int(
        next(line for line in head.lower().split(b"\r\n") if line.startswith(b"content-length"))[
            15:
        ]
    )
    while len(body) < length:
        body += connection.recv(65536)
    problem = json.loads(body) if body.startswith(b"{") else {}
    return int(head.split(b" ")[1]), problem.get("type", "").rpartition(":")[2]


def test_a_client_that_goes_before_its_body_is_whole(tmp_path: pathlib.Path) -> None:
    """It is not an error of the service, whose log says that the request got no response."""
    with served(tmp_path, DEFINITIONS, "--log", "json") as service:
        with raw(service) as connection:
            connection.sendall(
                f"POST /v1/sagas/k/abort HTTP/1.1\r\nHost: {service.address}\r\nContent-Type: "
                "application/json\r\nContent-Length: 20\r\n\r\n{".encode()
            )
        deadline = time.monotonic() + LONG
        while not (
            logged := [line for line in service.log_text().splitlines() if "/k/abort" in line]
        ):
            assert time.monotonic() < deadline
            time.sleep(0.05)
    (line,) = map(json.loads, logged)
    assert (line["logger"], line["status"]) == ("sagas.http", 0)


POSTS = (
    "/v1/sagas",
    "/v1/tasks/claim",
    "/v1/sagas/x/steps/y/complete",
    "/v1/sagas/x/abort",
    "/v1/tasks/x/complete",
)
REFUSED: list[tuple[str, str | None, set[int]]] = [
    *((path, name, {401, 429}) for path in POSTS for name in (None, "wrong")),
    ("/v1/sagas", "worker", {403}),
    ("/v1/tasks/claim", "caller", {403}),
    ("/v1/sagas/x/steps/y/complete", "caller", {403}),
    ("/v1/sagas/x/abort", "approver", {403}),
    ("/v1/sagas/x/resolve", "approver", {403}),
    ("/ui/start", None, {403}),
]


@pytest.fixture(scope="module")
def guarded(tmp_path_factory: pytest.TempPathFactory) -> Iterator[tuple[Served, dict[str, str]]]:
    """Return a service with tokens, by their roles."""
    folder = tmp_path_factory.mktemp("heads")
    tokens = {role: token(folder, role, role) for role in ("caller", "worker", "approver")}
    with served(folder, DEFINITIONS, "--token-file", str(folder / "tokens.toml")) as service:
        yield service, tokens


def test_a_refusal_needs_only_the_head(guarded: tuple[Served, dict[str, str]]) -> None:
    """The response comes before a byte of the body; the body is discarded, and the connection stays
    usable.
    """
    service, tokens = guarded
    for path, name, statuses in REFUSED:
        form = "x-www-form-urlencoded" if path.startswith("/ui") else "json"
        head = f"POST {path} HTTP/1.1\r\nHost: {service.address}\r\n"
        head += f"Content-Type: application/{form}\r\n"
        if name is not None:
            head += f"Authorization: Bearer {tokens.get(name, name)}\r\n"
        with raw(service) as connection:
            began = time.monotonic()
            connection.sendall(f"{head}Content-Length: 100000\r\n\r\n".encode())
            status, error = answered(connection)
            assert status in statuses and time.monotonic() - began < 30, (path, name, error)
            connection.sendall(b"[" * 100_000)  # not JSON, and deep: it is never read
            connection.sendall(
                f"GET /health/live HTTP/1.1\r\nHost: {service.address}\r\n\r\n".encode()
            )
            assert answered(connection) == (200, "")


def test_a_body_is_checked_after_the_token(guarded: tuple[Served, dict[str, str]]) -> None:
    """A body that is not JSON is reported only to clients that may send it."""
    service, tokens = guarded
    for role, status in (("worker", 403), ("approver", 403), ("caller", 400)):
        with service.client(tokens[role]) as client:
            headers = {"content-type": "application/json"}
            assert client.post("/v1/sagas", content=b"{", headers=headers).status_code == status


Ask = Callable[[tuple[str, int]], Awaitable[None]]


def inside(folder: pathlib.Path, ask: Ask, **more: object) -> None:
    """Request a service in this program, with settings for which a process would take too long."""
    Served(folder)
    some = definition_files.read(folder / "definitions")
    settings = Settings(str(folder / "store.db"), some, **more)  # type: ignore[arg-type]

    async def main() -> None:
        opened = asyncio.Event()
        with socket.create_server((host(), 0)) as listening:
            at_work = asyncio.create_task(uvicorn_server.run(settings, listening, opened.set))
            await opened.wait()
            try:
                await ask(listening.getsockname())
            finally:
                at_work.cancel()
                await asyncio.wait([at_work])

    asyncio.run(asyncio.wait_for(main(), LONG))


def test_a_body_has_one_time_limit(tmp_path: pathlib.Path, monkeypatch: pytest.MonkeyPatch) -> None:
    """Whatever bytes come in between: then it is 408, and the connection ends."""
    monkeypatch.setenv("SAGAS_PROGRAM", program())

    async def ask(address: tuple[str, int]) -> None:
        for length, part in (
            ("Content-Length: 1000", b" "),
            ("Transfer-Encoding: chunked", b"1\r\n \r\n"),
        ):
            back, there = await asyncio.open_connection(*address)
            there.write(
                "POST /v1/sagas HTTP/1.1\r\nHost: 127.0.0.1\r\n"
                f"Content-Type: application/json\r\n{length}\r\n\r\n".encode()
            )
            began, answer = time.monotonic(), asyncio.ensure_future(back.readuntil(b"\r\n\r\n"))
            while not answer.done():
                assert time.monotonic() < began + 20
                there.write(part)
                await asyncio.sleep(0.1)
            assert (await answer).startswith(b"HTTP/1.1 408 ") and time.monotonic() > began + 0.9
            there.close()

    inside(tmp_path, ask, body_time=1.0)


class Browsing:
    """Clients of a service: one for each token, and a browser that is logged in by the first."""

    def __init__(self, address: tuple[str, int], tokens: dict[str, str]) -> None:
        self.tokens = tokens
        options: dict[str, Any] = {"trust_env": False, "verify": False, "timeout": LONG}
        options["base_url"] = f"http://{address[0]}:{address[1]}"
        self.clients = {
            name: httpx.AsyncClient(headers={"Authorization": f"Bearer {text}"}, **options)
            for name, text in tokens.items()
        }
        self.clients["page"] = httpx.AsyncClient(**options)
        self.there: list[httpx.Response] = []

    async def log_in(self) -> None:
        await self.clients["page"].post(
            "/ui/login", data={"token": next(iter(self.tokens.values()))}
        )

    async def stream(self, name: str) -> tuple[int, str]:
        """Open a stream; return its status, and the error if it was refused."""
        path = "/ui/events" if name == "page" else "/v1/events"
        client = self.clients[name]
        answer = await client.send(client.build_request("GET", path), stream=True)
        self.there.append(answer)
        return (
            answer.status_code,
            "" if answer.status_code == 200 else (await answer.aread()).decode(),
        )

    async def close(self) -> None:
        for answer in self.there:
            await answer.aclose()
        for client in self.clients.values():
            await client.aclose()


def test_streams_are_shared(tmp_path: pathlib.Path, monkeypatch: pytest.MonkeyPatch) -> None:
    """A token has a limited number, and all tokens leave some to the dashboard; a stream that ends
    frees its slot.
    """
    monkeypatch.setenv("SAGAS_PROGRAM", program())
    tokens = {name: token(tmp_path, name, "operator") for name in "abc"}

    async def ask(address: tuple[str, int]) -> None:
        some = Browsing(address, tokens)
        await some.log_in()
        assert [(await some.stream("a"))[0] for _ in range(3)] == [200] * 3
        status, detail = await some.stream("a")
        assert status == 503 and "you have 3 event streams: close some" in detail
        assert [(await some.stream("b"))[0] for _ in range(2)] == [200] * 2
        for name in "bc":
            status, detail = await some.stream(name)
            assert status == 503 and "there are 5 event streams" in detail
        # the dashboard has its own, though its token has all the others that it may have
        assert [(await some.stream("page"))[0] for _ in range(3)] == [200, 200, 503]
        await some.there[0].aclose()
        while (await some.stream("c"))[0] != 200:
            await asyncio.sleep(0.05)
        await some.close()

    few = StreamSettings(maximum=7, max_each=3, kept=2)
    inside(tmp_path, ask, tokens=tmp_path / "tokens.toml", streams=few)


def test_idle_ones_give_way_before_those_at_work(tmp_path: pathlib.Path) -> None:
    """A request that waits for its response stays, however many come; connections with their
    response are closed, the oldest first.
    """
    with served(
        tmp_path, DEFINITIONS, "--most-connections", "16"
    ) as service, contextlib.ExitStack() as stack:
        with service.client() as client:
            start(client, "trip", "slow")
        works = stack.enter_context(raw(service))
        works.sendall(
            "GET /v1/sagas/slow/wait?seconds=5 HTTP/1.1\r\n"
            f"Host: {service.address}\r\n\r\n".encode()
        )
        idle = [stack.enter_context(raw(service)) for _ in range(15)]
        for connection in idle:
            connection.sendall(
                f"GET /health/live HTTP/1.1\r\nHost: {service.address}\r\n\r\n".encode()
            )
            assert answered(connection) == (200, "")
        for _ in range(3):
            connection = stack.enter_context(raw(service))
            connection.sendall(
                f"GET /health/live HTTP/1.1\r\nHost: {service.address}\r\n\r\n".encode()
            )
            assert answered(connection) == (200, "")
        assert [is_over(connection) for connection in idle] == [True] * 3 + [False] * 12
        assert answered(works) == (200, "")


def is_over(connection: socket.socket) -> bool:
    """Return whether the service has ended this connection."""
    connection.settimeout(0.2)
    try:
        return connection.recv(1) == b""
    except ConnectionResetError:
        return True
    except TimeoutError:
        return False
