"""Hostile clients: any JSON by the schema and against it, bytes, long bodies, idle connections.

Some clients never read.
"""

from __future__ import annotations

import asyncio
import contextlib
import json
import pathlib
import re
import resource
import socket
from collections.abc import Iterator
from typing import Any
from urllib.parse import quote, urlencode

import httpx
import pytest
import uvicorn
from driving import program
from hypothesis import HealthCheck, given, settings, strategies as st
from serving import DEFINITIONS, LONG, Served, host, served, start, take
from uvicorn.server import ServerState

from sagas.definition import definition_files
from sagas.server import uvicorn_server
from sagas.server.connections import Connections
from sagas.server.settings import Settings

MANY = settings(max_examples=120, deadline=None, suppress_health_check=list(HealthCheck))
MEGA = 1 << 20


@pytest.fixture(scope="module")
def service(tmp_path_factory: pytest.TempPathFactory) -> Iterator[Served]:
    with served(tmp_path_factory.mktemp("hostile"), DEFINITIONS, "--log-level", "error") as service:
        with service.client() as client:
            start(client, "trip", "there", {"a": [1, None]})
            start(client, "order", "ordered")
        yield service


def memory(service: Served) -> int:
    """Return the most memory that the service has had, in bytes."""
    assert service.process
    match = re.search(
        r"VmHWM:\s+(\d+) kB", pathlib.Path(f"/proc/{service.process.pid}/status").read_text()
    )
    assert match
    return int(match[1]) * 1024


def is_well(service: Served) -> None:
    """Check that it answers, and has no internal error."""
    with service.client() as client:
        assert client.get("/health/live").json() == {"alive": True}
        assert client.get("/v1/sagas/there").json()["key"] == "there"
    assert (
        "Traceback" not in service.log_text() and '"trace"' not in service.log_text()
    ), service.log_text()[-3000:]


TEXT = st.one_of(
    st.text(max_size=20),
    st.sampled_from(
        [
            "there",
            "ordered",
            "trip",
            "order",
            "tour",
            "review",
            "trip/flight",
            "order/send/undo",
            "..",
            "\ud800",
            "0" * 700,
        ]
    ),
)
VALUES = st.recursive(
    st.one_of(
        st.none(),
        st.booleans(),
        st.integers(-(2**70), 2**70),
        st.floats(allow_nan=False, allow_infinity=False),
        TEXT,
    ),
    lambda inner: st.one_of(st.lists(inner, max_size=3), st.dictionaries(TEXT, inner, max_size=3)),
    max_leaves=8,
)


def of_schema(schema: dict[str, Any], whole: dict[str, Any]) -> st.SearchStrategy[Any]:
    """Draw values of a schema, mostly."""
    if "$ref" in schema:
        return of_schema(whole["components"]["schemas"][schema["$ref"].rsplit("/", 1)[1]], whole)
    if "enum" in schema:
        return st.sampled_from(schema["enum"])
    kind = schema.get("type")
    if kind == "object":
        needed = {
            name: of_schema(part, whole)
            for name, part in schema.get("properties", {}).items()
            if name in schema.get("required", ())
        }
        more = {
            name: of_schema(part, whole)
            for name, part in schema.get("properties", {}).items()
            if name not in needed
        }
        return st.fixed_dictionaries(needed, optional=more)
    if kind == "array":
        return st.lists(
            of_schema(schema.get("items", {}), whole),
            min_size=schema.get("minItems", 0),
            max_size=3,
        )
    if kind in ("integer", "number"):
        low, high = int(schema.get("minimum", 0)), int(min(schema.get("maximum", 1000), 2**62))
        return st.integers(low, high)
    if kind == "boolean":
        return st.booleans()
    return TEXT if kind == "string" else VALUES


@st.composite
def requests(draw: st.DrawFn, schema: dict[str, Any]) -> tuple[str, str, bytes, str]:
    """Draw a request of a path of the schema: right, nearly right, or not at all."""
    path = draw(st.sampled_from(sorted(set(schema["paths"]) - {"/v1/events"})))
    method, operation = draw(st.sampled_from(sorted(schema["paths"][path].items())))
    query = {}
    for word in operation.get("parameters", ()):
        if word["in"] == "path":
            path = path.replace(
                f"{{{word['name']}}}", quote(draw(TEXT).encode("utf-8", "surrogatepass"), safe="")
            )
        elif draw(st.booleans()):
            query[word["name"]] = draw(st.one_of(of_schema(word["schema"], schema), TEXT))
    query = {name: str(value).encode("utf-8", "surrogatepass") for name, value in query.items()} | (
        {"seconds": b"0"} if path.endswith("/wait") else {}
    )
    body = b""
    if "requestBody" in operation:
        of = operation["requestBody"]["content"]["application/json"]["schema"]
        value = draw(st.one_of(of_schema(of, schema), of_schema(of, schema), VALUES))
        if isinstance(value, dict) and path == "/v1/tasks/claim":
            value = value | {"wait": 0}
        body = (
            draw(st.one_of(st.just(json.dumps(value).encode()), st.binary(max_size=30)))
            if draw(st.integers(0, 9)) == 0
            else json.dumps(value).encode()
        )
    return (
        method.upper(),
        f"{path}?{urlencode(query)}" if query else path,
        body,
        draw(
            st.sampled_from(
                ["application/json"] * 5 + ["text/plain", "application/x-www-form-urlencoded", "x"]
            )
        ),
    )


def send_any_json(service: Served, profile: settings) -> None:
    """Each request, by the schema or nearly, gets a response in JSON that is not an
    internal error.
    """
    with service.client() as client:
        schema = client.get("/openapi.json").json()

        @profile
        @given(requests(schema))
        def holds(request: tuple[str, str, bytes, str]) -> None:
            method, path, body, kind = request
            answer = client.request(method, path, content=body, headers={"content-type": kind})
            assert answer.status_code < 500, (answer.status_code, answer.text)
            if answer.status_code >= 400:
                assert {"type", "title", "status", "detail"} <= set(answer.json()), answer.text

        holds()


ODD = ("%00", "a%00b", "%ED%A0%80", "%FF", "%F0%9F%92%A9", "%", "_", "'%22%3B--", "%5C", "9" * 40)


def send_odd_texts(service: Served) -> None:
    """Send zeros, halves of surrogate pairs and invalid UTF-8 in each place of a text."""
    with service.client() as client:
        for odd in ODD:
            for path in (
                f"/v1/sagas?search={odd}",
                f"/v1/sagas?definition={odd}",
                f"/v1/sagas?after={odd}",
                f"/v1/sagas/{odd}",
                f"/v1/sagas/{odd}/log",
                f"/v1/sagas/{odd}/wait?seconds=0",
            ):
                assert client.get(path).status_code < 500, path
            for path in (
                f"/ui/sagas?search={odd}",
                f"/ui/sagas?definition={odd}",
                f"/ui/sagas/{odd}",
            ):
                assert client.get(path).status_code < 500, path
            for path in (
                f"/v1/sagas/{odd}/abort",
                f"/v1/sagas/there/steps/{odd}/complete",
                f"/v1/sagas/{odd}/resolve",
            ):
                assert client.post(path, json={"note": odd}).status_code < 500, path
            assert client.post(f"/v1/tasks/{odd}/complete", json={"lease": 1}).status_code < 500
        for text in ("\0", "\ud800", "a\0b"):
            body = json.dumps(
                {"definition": "order", "key": f"odd-{text!r}", "input": {text: [text]}}
            ).encode()
            assert (
                client.post(
                    "/v1/sagas", content=body, headers={"content-type": "application/json"}
                ).status_code
                == 201
            )
            key = quote(f"odd-{text!r}", safe="")
            for path in (f"/v1/sagas/{key}/steps/review/complete", f"/v1/sagas/{key}/abort"):
                more = {"result": text} if "steps" in path else {}
                body = json.dumps({**more, "note": f"x{text}"}).encode()
                assert (
                    client.post(
                        path, content=body, headers={"content-type": "application/json"}
                    ).status_code
                    < 500
                ), path
            assert client.get(f"/v1/sagas/{key}").json()["input"] == {text: [text]}
            for path in (
                f"/ui/sagas/{key}",
                f"/v1/sagas/{key}/log",
                f"/v1/sagas/{key}/picture.svg",
                "/ui/sagas",
                "/ui",
            ):
                assert client.get(path).status_code == 200, path


def test_any_json(service: Served) -> None:
    send_any_json(service, MANY)
    is_well(service)


def test_odd_texts(service: Served) -> None:
    send_odd_texts(service)
    is_well(service)


DEEP = b'{"definition":"trip","key":"deep","input":' + b"[" * 5000 + b"]" * 5000 + b"}"
BODIES = [b"[" * 200_000, DEEP, b"1" * 50_000, b'"\xff"', b'{"a":1e999}', b"\x00" * 100]


def test_invalid_bodies(service: Served) -> None:
    with service.client() as client:
        for body in BODIES:
            answer = client.post(
                "/v1/sagas", content=body, headers={"content-type": "application/json"}
            )
            assert 400 <= answer.status_code < 500 and "type" in answer.json(), body[:20]
    is_well(service)


PARTS = [
    b"GET / HTTP/1.1\r\nHost: 127.0.0.1\r\n",
    b"POST /v1/sagas HTTP/1.1\r\n",
    b"Content-Length: 10\r\n",
    b"Transfer-Encoding: chunked\r\n",
    b"\r\n",
    b"GET /\xff\xfe HTTP/1.1\r\n",
    b"Host: [\r\n\r\n",
]


@MANY
@given(st.lists(st.one_of(st.binary(max_size=200), st.sampled_from(PARTS)), max_size=6))
def send_any_bytes(service: Served, parts: list[bytes]) -> None:
    """A request that is not HTTP is refused, or closed."""
    with connection(service) as raw:
        with contextlib.suppress(OSError):
            raw.sendall(b"".join(parts))
            raw.shutdown(socket.SHUT_WR)
            while raw.recv(65536):
                pass


@contextlib.contextmanager
def connection(service: Served) -> Iterator[socket.socket]:
    host, _, port = service.address.rpartition(":")
    with socket.create_connection((host, int(port)), timeout=LONG) as connection:
        yield connection


def test_any_bytes_leave_it_well(service: Served) -> None:
    send_any_bytes(service)
    is_well(service)


@pytest.mark.parametrize("path", ["/", "/health/live", "/v1/events"])
def test_a_body_that_is_not_http(service: Served, path: str) -> None:
    """It follows a request that needs none, at once and once its response has started: the
    connection ends, without an internal error.
    """
    head = f"GET {path} HTTP/1.1\r\nHost: 127.0.0.1\r\nTransfer-Encoding: chunked\r\n\r\n".encode()
    with connection(service) as raw:
        raw.sendall(head + b"no chunk\r\n")
        assert raw.recv(65536).startswith(b"HTTP/1.1 400 ")
        while raw.recv(65536):
            pass
    with connection(service) as raw:  # read only once the request before it is answered
        raw.sendall(
            b"GET /health/live HTTP/1.1\r\nHost: 127.0.0.1\r\n\r\n" + head + b"no chunk\r\n"
        )
        while raw.recv(65536):
            pass
    with connection(service) as raw:
        raw.sendall(head)
        assert raw.recv(65536).startswith(b"HTTP/1.1 ")
        raw.sendall(b"no chunk\r\n")
        with contextlib.suppress(ConnectionResetError):
            while raw.recv(65536):
                pass
    is_well(service)


def pieces(count: int, size: int) -> Iterator[bytes]:
    for _ in range(count):
        yield b"x" * size


def is_refused(service: Served, path: str, content: Any) -> None:
    """Check that it is refused as too long: 413, or the connection ends while it is sent."""
    with service.client() as client, contextlib.suppress(httpx.TransportError):
        assert (
            client.post(
                path, content=content, headers={"content-type": "application/json"}
            ).status_code
            == 413
        )


def test_long_bodies(service: Served) -> None:
    """A body of 100 MB is refused, with its length or without, and is never in memory."""
    before = memory(service)
    with connection(service) as raw:
        raw.sendall(
            b"POST /v1/sagas HTTP/1.1\r\nHost: 127.0.0.1\r\nContent-Type:"
            b" application/json\r\nContent-Length: 104857600\r\n\r\n"
        )
        assert raw.recv(4096).startswith(b"HTTP/1.1 413 ")
    for _ in range(3):
        is_refused(service, "/v1/sagas", pieces(100, MEGA))
    assert memory(service) - before < 50 * MEGA
    with service.client() as client:
        assert start(client, "trip", "large", "x" * (MEGA - 1000)).status_code == 201
        assert len(client.get("/v1/sagas/large").json()["input"]) == MEGA - 1000
        (task,) = [task for task in take(client, "trip/flight", limit=10) if task["key"] == "large"]
        is_refused(
            service,
            f"/v1/tasks/{task['attempt_id']}/complete",
            json.dumps({"lease": task["lease"], "result": "y" * MEGA}).encode(),
        )
    is_well(service)


def test_ten_thousand_idle_connections(service: Served) -> None:
    """They are closed for new clients, and memory is bounded."""
    soft, hard = resource.getrlimit(resource.RLIMIT_NOFILE)
    resource.setrlimit(resource.RLIMIT_NOFILE, (hard, hard))
    before, open = memory(service), []
    host, _, port = service.address.rpartition(":")
    try:
        for number in range(min(10_000, hard - 500)):
            raw = socket.socket()
            raw.setblocking(False)
            raw.connect_ex((host, int(port)))
            open.append(raw)
            if number % 1000 == 999:
                with service.client() as client:
                    assert client.get("/health/live").status_code == 200
        with service.client() as client:
            assert client.get("/v1/sagas/there").status_code == 200
        assert memory(service) - before < 150 * MEGA
    finally:
        for raw in open:
            raw.close()
        resource.setrlimit(resource.RLIMIT_NOFILE, (soft, hard))
    is_well(service)


def test_clients_that_never_read(service: Served) -> None:
    """Long responses and streams that no client reads block no other, and memory is bounded."""
    with service.client() as client:
        start(client, "order", "long", "z" * (MEGA - 1000))
    before = memory(service)
    with contextlib.ExitStack() as stack:
        for path in ["/v1/sagas/long"] * 30 + ["/v1/events"] * 30:
            raw = stack.enter_context(connection(service))
            raw.setsockopt(socket.SOL_SOCKET, socket.SO_RCVBUF, 4096)
            raw.sendall(f"GET {path} HTTP/1.1\r\nHost: 127.0.0.1\r\n\r\n".encode())
        with service.client() as client:
            for number in range(100):
                assert start(client, "order", f"meanwhile-{number}").status_code in (200, 201)
            assert client.get("/v1/sagas/there").status_code == 200
    assert memory(service) - before < 200 * MEGA
    is_well(service)


def test_a_client_that_does_not_read_is_cut_off() -> None:
    """A connection ends if its client reads nothing of its response for too long; one that reads
    slowly gets all of it.
    """

    async def long(scope: Any, receive: Any, send: Any) -> None:
        if connection := counted.of(scope["client"]):
            connection.starts(is_whole=True)
        await send(
            {
                "type": "http.response.start",
                "status": 200,
                "headers": [(b"content-length", str(32 * MEGA).encode())],
            }
        )
        await send({"type": "http.response.body", "body": bytes(32 * MEGA)})
        if connection:
            connection.ends()

    counted = Connections(10, LONG, 1.0)

    async def main() -> None:
        config = uvicorn.Config(
            long,
            http=uvicorn_server.protocol(counted),
            timeout_keep_alive=int(LONG),
            log_config=None,
            log_level="error",
        )
        config.load()
        state = ServerState()
        listening = await asyncio.get_running_loop().create_server(
            lambda: config.http_protocol_class(config=config, server_state=state), host(), 0
        )
        address = listening.sockets[0].getsockname()[:2]
        (slow, ask), (_, stands) = await asyncio.open_connection(
            *address, limit=MEGA
        ), await asyncio.open_connection(*address)
        for text in (ask, stands):
            text.write(b"GET / HTTP/1.1\r\nHost: 127.0.0.1\r\n\r\n")
        assert (await slow.readuntil(b"\r\n\r\n")).startswith(b"HTTP/1.1 200 ")
        for _ in range(64):
            await slow.readexactly(MEGA // 2)
            await asyncio.sleep(0.04)
        while len(counted.all) > 1:
            await asyncio.sleep(0.1)
        ask.write(b"GET / HTTP/1.1\r\nHost: 127.0.0.1\r\n\r\n")
        assert (await slow.readuntil(b"\r\n\r\n")).startswith(b"HTTP/1.1 200 ")
        for text in (ask, stands):
            text.close()
        listening.close()

    asyncio.run(asyncio.wait_for(main(), LONG))


def test_a_half_closed_client_counts_as_gone() -> None:
    """It is closed, and counts as gone from then on, before the connection is lost: no task goes to
    it in the meantime.
    """
    gone: list[bool] = []

    async def waits(scope: Any, receive: Any, send: Any) -> None:
        while (await receive())["type"] != "http.disconnect":
            pass

    async def main() -> None:
        counted = Connections(10, LONG, LONG)

        class Seen(uvicorn_server.protocol(counted)):  # type: ignore[misc]
            def eof_received(self) -> bool | None:
                result: bool | None = super().eof_received()
                gone.append(self.gone.done())
                return result

        config = uvicorn.Config(waits, http=Seen, log_config=None, log_level="critical")
        config.load()
        state = ServerState()
        listening = await asyncio.get_running_loop().create_server(
            lambda: Seen(config=config, server_state=state), host(), 0
        )
        back, there = await asyncio.open_connection(*listening.sockets[0].getsockname()[:2])
        there.write(b"GET / HTTP/1.1\r\nHost: 127.0.0.1\r\n\r\n")
        there.write_eof()
        await back.read()
        there.close()
        listening.close()

    asyncio.run(asyncio.wait_for(main(), LONG))
    assert gone == [True]


def test_a_body_that_does_not_come(tmp_path: pathlib.Path, monkeypatch: pytest.MonkeyPatch) -> None:
    """Once its time has passed the response is 408, and the connection ends; a body that comes in
    parts is accepted.
    """
    monkeypatch.setenv("SAGAS_PROGRAM", program())
    Served(tmp_path)
    settings = Settings(
        str(tmp_path / "store.db"), definition_files.read(tmp_path / "definitions"), body_time=1.0
    )
    body = json.dumps({"definition": "trip", "key": "parted"}).encode()
    head = (
        "POST /v1/sagas HTTP/1.1\r\nHost: 127.0.0.1\r\nContent-Type:"
        f" application/json\r\nContent-Length: {len(body)}\r\n\r\n".encode()
    )

    async def answer_of(address: tuple[str, int], *parts: bytes) -> bytes:
        back, there = await asyncio.open_connection(*address)
        for part in parts:
            there.write(part)
            await asyncio.sleep(0.05)
        answer = await back.readuntil(b"\r\n\r\n")
        if answer.startswith(b"HTTP/1.1 408 "):
            assert b"RequestTimeout" in await back.read()  # to the connection's end
        there.close()
        return answer[:13]

    async def main() -> None:
        opened = asyncio.Event()
        with socket.create_server((host(), 0)) as listening:
            at_work = asyncio.create_task(uvicorn_server.run(settings, listening, opened.set))
            await opened.wait()
            address = listening.getsockname()
            assert await answer_of(address, head) == b"HTTP/1.1 408 "
            assert await answer_of(address, head, body[:-1]) == b"HTTP/1.1 408 "
            assert (
                await answer_of(address, head + body[:5], body[5:20], body[20:]) == b"HTTP/1.1 201 "
            )
            assert await answer_of(address, head + body) == b"HTTP/1.1 200 "
            at_work.cancel()
            await asyncio.wait([at_work])

    asyncio.run(asyncio.wait_for(main(), LONG))
