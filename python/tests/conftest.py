"""Stores for the tests: a file, and a database on a server that each worker starts for itself."""

from __future__ import annotations

import logging
import os
import pathlib
from collections.abc import Iterator

import hypothesis
import pytest
from server import Server, serving

from sagas.core import states

states.Check.is_on = True

hypothesis.settings.register_profile("repeatable", derandomize=True)
if not os.environ.get("SAGAS_EXPLORE"):
    hypothesis.settings.load_profile("repeatable")

LEVELS = {name: logging.getLogger(name).level for name in ("", "sagas")}


@pytest.fixture(autouse=True)
def log_levels() -> Iterator[None]:
    """Begin each test with the log levels of a new process, whatever the last one has set."""
    for name, level in LEVELS.items():
        logging.getLogger(name).setLevel(level)
    yield


@pytest.fixture(scope="session")
def postgresql() -> Iterator[Server]:
    """Return a server of this worker's own."""
    with serving() as server:
        yield server


@pytest.fixture
def url(postgresql: Server) -> Iterator[str]:
    """Return an empty database."""
    url = postgresql.create()
    yield url
    postgresql.drop(url)


@pytest.fixture(scope="session")
def prepared(postgresql: Server) -> str:
    """Return the name of a database that others are copied from.

    It has the tables, and a user who has the least rights on them.
    """
    return postgresql.as_user(postgresql.create()).rpartition("/")[2]


@pytest.fixture(params=["sqlite", "postgresql"])
def location(request: pytest.FixtureRequest, tmp_path: pathlib.Path) -> Iterator[str]:
    """Return the address of a new store, over each kind of database in turn.

    Over PostgreSQL its user has the least rights.
    """
    if request.param == "sqlite":
        yield str(tmp_path / "store.db")
        return
    server: Server = request.getfixturevalue("postgresql")
    url = server.create(template=request.getfixturevalue("prepared"))
    yield server.url(url.rpartition("/")[2], user="app")
    server.drop(url)


@pytest.fixture(scope="module", params=["sqlite", "postgresql"])
def store(request: pytest.FixtureRequest) -> Iterator[str | None]:
    """Return a store for all cases of a file: None for a file in the test's folder, then a
    database.
    """
    if request.param == "sqlite":
        yield None
        return
    server: Server = request.getfixturevalue("postgresql")
    url = server.create()
    yield url
    server.drop(url)
