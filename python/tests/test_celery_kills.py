"""Random faults over Redis and RabbitMQ, SQLite and PostgreSQL, in pairs.

All sagas end, and the verifier finds no fault. `tests/celery_kills.py --rounds N` makes N rounds.
"""

from __future__ import annotations

import pathlib
from collections.abc import Iterator

import pytest
from brokers import Broker, broker_at
from celery_kills import KINDS, NODES, play
from server import Server

SAGAS = 24
STRIKES = 3
"""Sagas of a round: each start of a worker takes its time."""
SERVED = ("worker", "owner", "store", "all")
"""Kinds that get faults over PostgreSQL if Redis is the broker, and over SQLite if RabbitMQ is.

The others get faults the other way round. So each kind meets each broker and each database, and
each broker meets each database.
"""


@pytest.fixture(scope="module")
def redis(tmp_path_factory: pytest.TempPathFactory) -> Iterator[Broker]:
    """Return a Redis of this process's own."""
    with broker_at("redis", tmp_path_factory.mktemp("redis")) as running:
        yield running


def struck(
    kind: str, number: int, broker: Broker, server: Server | None, strikes: int = STRIKES
) -> None:
    """Check that a round has no fault."""
    seed = number + [*KINDS, NODES].index(kind)
    played = play(kind, seed, broker, SAGAS, server=server, quiet=strikes)
    assert not played.problems, f"{kind}: {played.folder}: {played.problems[:5]}"


@pytest.mark.parametrize("kind", [kind for kind in KINDS if kind not in SERVED])
def test_over_redis(redis: Broker, kind: str) -> None:
    """Workers, the broker and older workers get faults; messages are duplicated or delayed."""
    struck(kind, 1000, redis, None)


@pytest.mark.parametrize("kind", [*SERVED, NODES])
def test_over_redis_and_postgresql(redis: Broker, postgresql: Server, kind: str) -> None:
    """Reports come by `NOTIFY`, or are found if the notification was lost.

    There are two nodes; one takes over the messages that the other one had sent.
    """
    struck(kind, 3000, redis, postgresql)


def test_over_rabbitmq(tmp_path: pathlib.Path, postgresql: Server) -> None:
    """The same over RabbitMQ and the other database. RabbitMQ starts slowly, so it starts once."""
    with broker_at("rabbitmq", tmp_path) as running:
        for kind in KINDS:
            server = None if kind in SERVED else postgresql
            struck(kind, 2000, running, server, 1 if kind in ("broker", "all") else STRIKES)
