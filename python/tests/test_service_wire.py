"""Heads and texts of requests: what they may be, which address is believed, and what the log has of
them.
"""

from __future__ import annotations

import ipaddress
import json
import logging
import pathlib
import socket
import subprocess
import time
from collections.abc import Iterator
from typing import Any

import pytest
from serving import DEFINITIONS, LONG, Served, environment, error_of, served, token

from sagas.server import log_format, middleware


@pytest.fixture(scope="module")
def service(tmp_path_factory: pytest.TempPathFactory) -> Iterator[Served]:
    with served(tmp_path_factory.mktemp("wire"), DEFINITIONS, "--log", "text") as service:
        yield service


def status_of(service: Served, head: str, body: bytes = b"") -> int:
    """Return the service's status for these bytes."""
    name, _, port = service.address.rpartition(":")
    with socket.create_connection((name, int(port)), timeout=LONG) as connection:
        connection.sendall(
            head.replace("\n", "\r\n").replace("@", service.address).encode("latin-1")
            + b"\r\n\r\n"
            + body
        )
        return int(connection.recv(65536).split(b" ")[1])


HEADS = [
    ("POST /v1/sagas HTTP/1.1\nHost: @\nTransfer-Encoding : chunked", b"0\r\n\r\n"),
    ("POST /v1/sagas HTTP/1.1\nHost: @\nTransfer-Encoding\t: chunked", b"0\r\n\r\n"),
    ("POST /v1/sagas HTTP/1.1\nHost : @\nContent-Length: 2", b"{}"),
    ("GET /health/live HTTP/1.1\nHost: @\nHost: @", b""),
    ("GET /health/live HTTP/1.1\nHost: @\nHOST: elsewhere.example", b""),
    ("GET /health/live HTTP/1.1", b""),
    (
        "POST /v1/sagas HTTP/1.1\nHost: @\nContent-Length: 5\nTransfer-Encoding: chunked",
        b"0\r\n\r\n",
    ),
    ("POST /v1/sagas HTTP/1.1\nHost: @\nContent-Length: 2\nContent-Length: 3", b"{} "),
    ("POST /v1/sagas HTTP/1.1\nHost: @\nContent-Length: +2", b"{}"),
    ("POST /v1/sagas HTTP/1.1\nHost: @\nContent-Length: 2, 3", b"{} "),
    (
        "POST /v1/sagas HTTP/1.1\nHost: @\nTransfer-Encoding: chunked\nTransfer-Encoding: chunked",
        b"0\r\n\r\n",
    ),
    ("GET /health/live HTTP/1.1\nHost: @\nAuthorization: Bearer a\nAuthorization: Bearer b", b""),
    ("GET /health/live HTTP/1.1\nHost: @\nX Y: z", b""),
]


@pytest.mark.parametrize("head, body", HEADS)
def test_heads_that_may_be_read_in_two_ways(service: Served, head: str, body: bytes) -> None:
    """A proxy before the service may have read another request: it is refused."""
    assert status_of(service, head, body) == 400
    assert status_of(service, "GET /health/live HTTP/1.1\nHost: @") == 200


@pytest.mark.parametrize(
    "headers",
    [
        [(b"transfer-encoding ", b"chunked")],
        [(b"host", b"a"), (b"host", b"a")],
        [(b"", b"")],
        [(b"x\n", b"y")],
        [],
    ],
)
def test_whatever_reads_them(headers: list[tuple[bytes, bytes]]) -> None:
    """This holds also if the server that parses the request has let them pass."""
    with pytest.raises(ValueError):
        middleware.check_headers({"headers": headers, "http_version": "1.1"})


BODIES: list[tuple[str, dict[str, Any]]] = [
    ("/v1/sagas", {"definition": "trip", "key": 5}),
    ("/v1/sagas", {"definition": "trip", "key": True}),
    ("/v1/sagas", {"definition": "trip", "key": None}),
    ("/v1/sagas", {"definition": "trip", "key": 1.5}),
    ("/v1/sagas", {"definition": "trip", "key": ["k"]}),
    ("/v1/sagas", {"definition": 5, "key": "k"}),
    ("/v1/sagas/k/abort", {"note": 5}),
    ("/v1/sagas/k/resolve", {"note": 5}),
    ("/v1/sagas/k/steps/s/fail", {"error": 5}),
    ("/v1/tasks/claim", {"steps": [5], "wait": 0}),
    ("/v1/tasks/claim", {"steps": ["trip/car"], "wait": 0, "worker": 5}),
    ("/v1/tasks/x/fail", {"lease": "1", "error": 5}),
    ("/v1/tasks/x/fail", {"lease": "1", "error": "x", "final": "no"}),
    ("/v1/tasks/x/complete", {"lease": 1}),
]


@pytest.mark.parametrize("path, body", BODIES)
def test_texts_are_texts(service: Served, path: str, body: dict[str, Any]) -> None:
    """A number is not a key, nor any other text."""
    with service.client() as client:
        answer = client.post(path, json=body)
        assert (answer.status_code, error_of(answer)) == (422, "InvalidRequest"), answer.text
        assert (
            client.get("/v1/sagas/5").status_code == client.get("/v1/sagas/True").status_code == 404
        )


def test_a_path_makes_no_line_of_the_log(service: Served) -> None:
    """Its control characters are logged as numbers, so that each line is the service's own."""
    forged = "2026-01-01 00:00:00.000Z ERROR sagas: the store is lost"
    with service.client() as client:
        for path in (
            f"/x%0A{forged}",
            f"/x%0D%0A{forged}",
            f"/x%1B[2K%C2%85%E2%80%A8%E2%80%AE{forged}",
            f"/v1/sagas/a%2Fb%0A{forged}",
        ):
            assert client.get(path).status_code == 404
    deadline = time.monotonic() + LONG
    while service.log_text().count(forged) < 4:
        assert time.monotonic() < deadline
    lines = [line for line in service.log_text().splitlines() if "the store is lost" in line]
    assert len(lines) == 4 and not any(line.startswith(forged) for line in lines), lines
    assert (
        "GET /x\\n2026" in lines[0]
        and "GET /x\\r\\n2026" in lines[1]
        and "/x\\x1b[2K\\x85\\u2028\\u202e" in lines[2]
        and "/v1/sagas/a%2Fb\\n" in lines[3]
    )


def test_a_traceback_is_set_in() -> None:
    """An exception may have lines, and none of them starts like one of the log."""
    try:
        raise ValueError("x\n2026-01-01 00:00:00.000Z ERROR sagas: forged\x1b[2K")
    except ValueError as error:
        record = logging.LogRecord(
            "sagas",
            logging.ERROR,
            "",
            0,
            "failed: %s",
            ("a\nb",),
            (type(error), error, error.__traceback__),
        )
    first, *lines = (
        log_format.Text("%(asctime)s %(levelname)s %(name)s: %(message)s")
        .format(record)
        .split("\n")
    )
    assert (
        first.endswith("ERROR sagas: failed: a\\nb")
        and len(lines) > 3
        and all(line.startswith("    ") for line in lines)
    )
    assert lines[-1] == "    2026-01-01 00:00:00.000Z ERROR sagas: forged\\x1b[2K"


PROXIES = tuple(ipaddress.ip_network(text) for text in ("10.0.0.0/8", "2001:db8::/32"))
CHAINS = [
    ("10.0.0.1", ["192.0.2.7"], "192.0.2.7"),
    # the entries before the last are the client's own
    ("10.0.0.1", ["198.51.100.1, 192.0.2.7"], "192.0.2.7"),
    ("10.0.0.1", ["192.0.2.7, 10.9.9.9"], "192.0.2.7"),
    ("10.0.0.1", ["192.0.2.7", "10.9.9.9,10.8.8.8"], "192.0.2.7"),
    ("10.0.0.1", ["10.9.9.9"], "10.9.9.9"),
    ("10.0.0.1", ["192.0.2.7, unknown"], "10.0.0.1"),
    ("10.0.0.1", ["192.0.2.7, evil\n10.9.9.9, 10.8.8.8"], "10.8.8.8"),
    ("10.0.0.1", [""], "10.0.0.1"),
    ("10.0.0.1", [], "10.0.0.1"),
    ("127.0.0.1", ["192.0.2.7"], "127.0.0.1"),
    ("192.0.2.9", ["192.0.2.7"], "192.0.2.9"),
    ("2001:db8::1", ["2001:db9::7"], "2001:db9::7"),
    ("::ffff:10.0.0.1", ["192.0.2.7"], "192.0.2.7"),
]


@pytest.mark.parametrize("peer, forwarded_for, client", CHAINS)
def test_the_client_of_a_request(peer: str, forwarded_for: list[str], client: str) -> None:
    """The last address that is not a trusted proxy's; the header of any other address is
    ignored.
    """
    headers = [(b"x-forwarded-for", address.encode()) for address in forwarded_for] + [
        (b"x-forwarded-proto", b"https")
    ]
    scope: dict[str, Any] = {"client": (peer, 5), "headers": headers, "scheme": "http"}
    middleware.forwarded(scope, PROXIES)
    trusted = middleware.is_among(peer, PROXIES)
    assert scope["client"][0] == client and scope["scheme"] == ("https" if trusted else "http")


def test_trusted_proxies(tmp_path: pathlib.Path) -> None:
    """By default the loopback; with the option the given ones, or none."""
    operator = token(tmp_path, "o", "operator")
    headers = {"X-Forwarded-For": "192.0.2.7", "X-Forwarded-Proto": "https"}
    for name, options, believed in (
        ("a", (), True),
        ("b", ("--trusted-proxies", "10.0.0.0/8"), False),
        ("c", ("--trusted-proxies", "127.0.0.0/8,::1"), True),
        ("d", ("--trusted-proxies", ""), False),
    ):
        (tmp_path / name).mkdir()
        with served(
            tmp_path / name, DEFINITIONS, "--token-file", str(tmp_path / "tokens.toml"), *options
        ) as service, service.client() as client:
            cookie = client.post("/ui/login", data={"token": operator}, headers=headers).headers[
                "set-cookie"
            ]
            assert ("Secure" in cookie) is believed
            deadline = time.monotonic() + LONG
            while '"/ui/login"' not in service.log_text():
                assert time.monotonic() < deadline
            (line,) = [
                json.loads(line)
                for line in service.log_text().splitlines()
                if '"/ui/login"' in line
            ]
            assert line["from"] == ("192.0.2.7" if believed else "127.0.0.1")
    refused = Served(tmp_path, DEFINITIONS, "--trusted-proxies", "here")
    done = subprocess.run(
        refused.command(),
        env=environment(),
        capture_output=True,
        text=True,
        timeout=LONG,
        cwd=tmp_path,
    )
    assert (
        done.returncode == 2
        and "use networks or addresses, for example 10.0.0.0/8,192.0.2.7" in done.stderr
    )
