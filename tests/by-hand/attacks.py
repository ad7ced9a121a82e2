"""Attacks on a service with tokens: `tests/by-hand/attacks.sh` runs this.

Each attack prints the replies that others get during it. The results without limits were:

waits: one token opens 2,050 waits. Without limits every client, and /health, got a reset for a
minute.
unread: 2,050 connections without a token send many requests, pipelined, and read nothing. Without
limits no client got a reply for 30 seconds and more.
stop: 20 clients reset their connections with 30 requests, a claim or a wait pipelined on each, and
then comes SIGTERM. With httptools the process never ended.
deep: 20 inputs of 968 levels, and 50 others for one worker. Without limits the starts got 201, and
each claim with one of these inputs got 500 and kept its leases.
"""

from __future__ import annotations

import http.client
import json
import os
import pathlib
import resource
import signal
import socket
import struct
import subprocess
import sys
import tempfile
import time
from collections import Counter
from collections.abc import Callable
from typing import Any

DEFINITION = 'format = 2\nname = "one"\n[[step]]\nname = "a"\nundo = "never"\n'
RESET = struct.pack("ii", 1, 0)
MANY = 2050


class Service:
    """A service with tokens of four roles."""

    def __init__(self, folder: pathlib.Path) -> None:
        (folder / "definitions").mkdir()
        (folder / "definitions" / "one.toml").write_text(DEFINITION)
        sagas = [sys.executable, "-m", "sagas"]
        self.tokens = {}
        for name, role in (
            ("evil", "caller"),
            ("caller", "caller"),
            ("worker", "worker"),
            ("operator", "operator"),
        ):
            done = subprocess.run(
                [*sagas, "token", "tokens.toml", name, role],
                cwd=folder,
                stdout=subprocess.PIPE,
                check=True,
            )
            self.tokens[name] = done.stdout.decode().strip()
        options = [
            "serve",
            "s.db",
            "--definitions",
            "definitions",
            "--token-file",
            "tokens.toml",
            "--listen",
            "127.0.0.1:0",
        ]
        self.process = subprocess.Popen(
            [*sagas, *options, "--log-level", "error"],
            cwd=folder,
            stderr=subprocess.DEVNULL,
            stdout=subprocess.PIPE,
        )
        assert self.process.stdout
        host, _, port = (
            self.process.stdout.readline().decode().split("//")[1].strip().strip("/").partition(":")
        )
        self.address = host, int(port)

    def ask(
        self, role: str | None, method: str, path: str, body: Any = None, timeout: float = 60
    ) -> tuple[int, Any]:
        """Return the status and the body of a reply."""
        link = http.client.HTTPConnection(*self.address, timeout=timeout)
        headers = {"Authorization": f"Bearer {self.tokens[role]}"} if role else {}
        data = (
            body if isinstance(body, bytes) else None if body is None else json.dumps(body).encode()
        )
        link.request(
            method, path, data, headers | ({"Content-Type": "application/json"} if data else {})
        )
        answer = link.getresponse()
        reply = answer.read()
        link.close()
        return answer.status, json.loads(reply) if reply.startswith((b"{", b"[")) else reply

    def tried(self, role: str | None, path: str) -> str:
        """Return the outcome of a request, and its seconds."""
        began = time.monotonic()
        try:
            outcomes: object = self.ask(role, "GET", path, timeout=20)[0]
        except OSError as error:
            outcomes = type(error).__name__
        return f"{outcomes} in {time.monotonic() - began:.1f} s"

    def open(self, text: bytes, buffer: int | None = None) -> socket.socket:
        """Return a new connection on which these bytes were sent."""
        link = socket.socket()
        if buffer:
            link.setsockopt(socket.SOL_SOCKET, socket.SO_RCVBUF, buffer)
        link.settimeout(20)
        link.connect(self.address)
        link.sendall(text)
        return link

    def head(self, line: str, role: str | None = None, more: str = "") -> bytes:
        """Return a request without a body."""
        right = f"Authorization: Bearer {self.tokens[role]}\r\n" if role else ""
        return f"{line} HTTP/1.1\r\nHost: h\r\n{right}{more}\r\n".encode()

    def others(self) -> None:
        """Print the outcomes for health, another caller and an operator."""
        for role, path in (
            (None, "/health/live"),
            ("caller", "/v1/sagas?limit=1"),
            ("operator", "/v1/attention"),
        ):
            print(f"  {role or 'health'}: {self.tried(role, path)}", flush=True)


def waits(service: Service) -> None:
    service.ask("caller", "POST", "/v1/sagas", {"definition": "one", "key": "k"})
    wait = service.head("GET /v1/sagas/k/wait?seconds=60", "evil")
    held = [service.open(wait) for _ in range(MANY)]
    for _ in range(3):
        time.sleep(3)
        service.others()
    outcomes: Counter[str] = Counter()
    for link in held:
        link.settimeout(0.01)
        try:
            outcomes[link.recv(12).decode() or "closed"] += 1
        except TimeoutError:
            outcomes["waits"] += 1
        except OSError as error:
            outcomes[type(error).__name__] += 1
        link.close()
    print(f"  of the waits: {dict(outcomes)}")


def unread(service: Service) -> None:
    text = service.head("GET /openapi.json") * 20
    held = [service.open(text, 2048) for _ in range(MANY)]
    for _ in range(3):
        time.sleep(3)
        service.others()
    for link in held:
        link.close()


def stop(service: Service) -> None:
    body = b'{"steps":["one/a"],"wait":30}'
    more = f"Content-Type: application/json\r\nContent-Length: {len(body)}\r\n"
    live = service.head("GET /health/live")
    claim = service.head("POST /v1/tasks/claim", "worker", more) + body + live
    service.ask("caller", "POST", "/v1/sagas", {"definition": "one", "key": "k"})
    wait = service.head("GET /v1/sagas/k/wait?seconds=60", "caller") + live
    for text in (service.head("GET /openapi.json") * 30, claim, wait) * 7:
        link = service.open(text)
        time.sleep(0.01)
        link.setsockopt(socket.SOL_SOCKET, socket.SO_LINGER, RESET)
        link.close()
    began = time.monotonic()
    service.process.send_signal(signal.SIGTERM)
    try:
        print(f"  status {service.process.wait(60)} after {time.monotonic() - began:.1f} s")
    except subprocess.TimeoutExpired:
        print("  STILL ALIVE after 60 s")


def deep(service: Service) -> None:
    levels = b"[" * 968 + b"]" * 968
    outcomes = Counter(
        service.ask(
            "evil",
            "POST",
            "/v1/sagas",
            b'{"definition":"one","key":"p%d","input":%b}' % (number, levels),
        )[0]
        for number in range(20)
    )
    for number in range(50):
        service.ask("caller", "POST", "/v1/sagas", {"definition": "one", "key": f"g{number}"})
    claims: Counter[int] = Counter()
    done, end = 0, time.monotonic() + 30
    while done < 50 and time.monotonic() < end:
        status, reply = service.ask(
            "worker", "POST", "/v1/tasks/claim", {"steps": ["one/a"], "limit": 10, "wait": 1}
        )
        claims[status] += 1
        for task in reply.get("tasks", ()):
            path = f"/v1/tasks/{task['attempt_id']}/complete"
            done += (
                service.ask("worker", "POST", path, {"lease": task["lease"], "result": 1})[0] == 200
            )
    print(f"  starts {dict(outcomes)}; claims {dict(claims)}; {done} of 50 tasks were done")


KINDS: dict[str, Callable[[Service], None]] = {
    "waits": waits,
    "unread": unread,
    "stop": stop,
    "deep": deep,
}


def main(names: list[str]) -> int:
    """Run the attacks, and return the status."""
    hard = resource.getrlimit(resource.RLIMIT_NOFILE)[1]
    resource.setrlimit(resource.RLIMIT_NOFILE, (min(hard, 8192) if hard > 0 else 8192, hard))
    for name in names or KINDS:
        print(name, flush=True)
        with tempfile.TemporaryDirectory() as room:
            service = Service(pathlib.Path(room))
            try:
                KINDS[name](service)
            finally:
                service.process.kill()
                service.process.wait()
    return 0


if __name__ == "__main__":
    os.environ.setdefault("PYTHONUNBUFFERED", "1")
    sys.exit(main(sys.argv[1:]))
