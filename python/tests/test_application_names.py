"""The names of connections at the server: which node they are of, and what they are for."""

from __future__ import annotations

import asyncio
import pathlib

import psycopg
from cases import Task, run
from serving import DEFINITIONS, report, served, start, take

import sagas
from sagas.storage.postgresql import connections
from sagas.storage.postgresql.application_name import MAX_BYTES, Purpose, application_name

NAMES = (
    "SELECT DISTINCT application_name FROM pg_stat_activity "
    "WHERE datname = current_database() AND pid <> pg_backend_pid()"
)


def names_at(url: str) -> set[str]:
    """Return the names of all connections to a database."""
    with psycopg.connect(url, autocommit=True) as link:
        return {str(name) for (name,) in link.execute(NAMES)}


def test_a_service_names_its_connections(url: str, tmp_path: pathlib.Path) -> None:
    """Each connection of a service names the node, also those of its workers' claims."""
    with served(tmp_path, DEFINITIONS, "--node", "shop-1", store=url) as service:
        with service.client() as client:
            assert start(client, "trip", "k").status_code == 201
            (task,) = take(client, "trip/flight")
            assert report(client, task, result=1).status_code == 200
            assert client.get("/v1/sagas").status_code == 200
            names = names_at(url)
    purposes = {name.rpartition(" ")[2] for name in names}
    assert {name.rpartition(" ")[0] for name in names} == {"sagas/shop-1"}, names
    assert purposes >= {"lease", "commit", "keys", "listen", "reads", "claim"}, names


def test_a_node_and_a_client_name_their_connections(url: str) -> None:
    """A name in the URL comes first. A client has no node."""
    kind, names = sagas.Saga("kind"), set[str]()

    @kind.step(transaction=True)
    async def books(task: Task) -> None:
        rows = await task.connection.execute("SELECT current_setting('application_name')")
        names.update(name for (name,) in await rows.fetchall())

    async def main() -> None:
        async with sagas.open(url, [kind], node="one"):
            async with sagas.Client(f"{url}?application_name=till") as client:
                assert (await (await client.start(kind, "k")).wait()).ok
                while "till listen" not in names:  # it is made in the background
                    names.update(await asyncio.to_thread(names_at, url))

    run(main())
    assert names >= {"sagas/one step", "sagas/one lease", "till client", "till listen"}, names
    assert all(name.startswith(("sagas/one ", "till ")) for name in names), names


def test_a_long_name_keeps_its_purpose() -> None:
    """The server cuts a name of more than 63 bytes at its end, and replaces other letters."""
    name = application_name("shop", "n" * 200, Purpose.COMMIT)
    assert len(name) == MAX_BYTES and name.startswith("shop/nnn") and name.endswith(" commit")
    assert application_name(None, "café", Purpose.STEP) == "sagas/caf? step"
    assert application_name(None, None, Purpose.ADMIN) == "sagas admin"
    url = connections.hosts_of("postgresql://h/d?application_name=shop", "one")
    assert "application_name='shop/one reads'" in connections.address(url, Purpose.READS)
