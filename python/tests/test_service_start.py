"""A service that is started before its database: it waits, and then serves or ends."""

from __future__ import annotations

import contextlib
import pathlib
import signal
import socket
from collections.abc import Iterator

import pytest
from server import Server, free_port, serving
from serving import DEFINITIONS, LONG, Served, command, error_of, start

from sagas.cli import store_command

WAITS = "waits for the database"


@contextlib.contextmanager
def started(folder: pathlib.Path, url: str, wait: float) -> Iterator[Served]:
    """Run a service that waits for its database."""
    service = Served(folder, DEFINITIONS, "--wait", str(wait), store=url)
    service.start()
    try:
        yield service
    finally:
        service.kill()


def next_line(service: Served) -> str:
    """Return the next line of its standard output."""
    assert service.process and service.process.stdout
    return service.process.stdout.readline().decode()


def ended(service: Served) -> int:
    """Wait until it ends by itself; return its status."""
    assert service.process
    return service.process.wait(LONG)


def test_a_database_that_starts_late(tmp_path: pathlib.Path) -> None:
    """The service is alive and not ready, and refuses requests until the database answers."""
    with serving() as server:
        url = server.create()
        server.stop("fast")
        with started(tmp_path, url, 600) as service, service.client() as client:
            assert client.get("/health/live").json() == {"alive": True}
            ready = client.get("/health/ready")
            assert ready.status_code == 503 and ready.headers["retry-after"] == "1"
            assert ready.json() == {"ready": False, "reason": "waiting for the database"}
            assert client.head("/health/ready").status_code == 503
            for answer in (
                client.get("/v1/sagas"),
                client.get("/no/such/path"),
                client.post("/health/live"),
                start(client, "trip", "k"),
            ):
                assert (answer.status_code, error_of(answer)) == (503, "Starting")
                assert answer.headers["retry-after"] == "1"
            page = client.get("/ui")
            assert page.status_code == 503 and "waits for its database" in page.text
            server.start()
            assert WAITS not in next_line(service)
            assert client.get("/health/ready").json()["ready"] is True
            assert start(client, "trip", "k").status_code == 201
            assert client.get("/metrics").status_code == 200
            assert service.stop() == 0
    assert "waiting for the database (--wait 600): " in service.log_text()


def test_a_database_that_never_comes(tmp_path: pathlib.Path) -> None:
    """After the time, the service ends as it does without the option."""
    url = f"postgresql://owner@127.0.0.1:{free_port()}/shop"
    with started(tmp_path, url, 0.5) as service:
        assert ended(service) == 4
    line = service.log_text().splitlines()[-1]
    assert line.startswith("sagas serve: postgresql://owner@127.0.0.1:") and "refused" in line


@pytest.mark.parametrize("database", ["refuses", "is silent", "goes away"])
def test_a_stop_ends_the_wait(tmp_path: pathlib.Path, database: str) -> None:
    """SIGTERM ends it, also at the moment at which a connection attempt fails."""
    with socket.create_server(("127.0.0.1", 0)) as accepting:
        port = free_port() if database == "refuses" else accepting.getsockname()[1]
        with started(tmp_path, f"postgresql://owner@127.0.0.1:{port}/shop", 600) as service:
            assert service.process
            with contextlib.ExitStack() as connections:
                if database != "refuses":
                    connections.enter_context(accepting.accept()[0])
                service.process.send_signal(signal.SIGTERM)
                if database == "goes away":
                    connections.close()
                assert ended(service) == 0
            assert next_line(service) == ""


def test_tables_that_are_made_late(postgresql: Server, url: str, tmp_path: pathlib.Path) -> None:
    """A role that may make no tables waits until the owner has made them."""
    as_app = postgresql.as_user(postgresql.create()).rpartition("/")[0]  # makes the role
    there = f"{as_app}/{url.rpartition('/')[2]}"
    with started(tmp_path, there, 600) as service, service.client() as client:
        while "init --role" not in service.log_text():
            assert client.get("/health/ready").status_code == 503
        assert store_command.main([url, "init", "--role", "app"]) == 0
        assert WAITS not in next_line(service)
        assert start(client, "trip", "k").status_code == 201
        assert service.stop() == 0


def test_what_never_changes_is_not_waited_for(postgresql: Server, tmp_path: pathlib.Path) -> None:
    """A database that does not exist ends the service at once, and a file needs no wait."""
    with started(tmp_path, postgresql.url("nowhere"), 600) as service:
        assert ended(service) == 4
    assert "does not exist" in service.log_text()
    folder = str(tmp_path / "definitions")
    file = command("serve", str(tmp_path / "s.db"), "--definitions", folder, "--wait", "1")
    assert file.returncode == 2 and "--wait requires a postgresql:// URL" in file.stderr
