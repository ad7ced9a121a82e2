"""Tables of each version, who may use them, and the output of `sagas store` about nodes."""

from __future__ import annotations

import asyncio
import contextlib
import json
import pathlib
import socket
import sqlite3
import threading
import time
import urllib.parse
from collections.abc import Iterator
from typing import Any

import psycopg
import pytest
from cases import Task, ended, run, simple, until
from server import Server

import sagas
from sagas.cli import store_command
from sagas.storage.postgresql import connections
from sagas.storage.postgresql.application_name import Purpose


def test_a_program_that_is_older_than_the_tables(
    location: str, capsys: pytest.CaptureFixture[str]
) -> None:
    """It refuses by name and changes nothing; so does the command."""
    saga = simple(lambda task: 7)

    async def main() -> None:
        async with sagas.open(location, [saga]) as store:
            assert (await ended(store, saga)).ok
        if location.startswith("postgresql:"):
            with psycopg.connect(location.replace("app@", "owner@")) as link:
                link.execute("UPDATE sagas.store SET version = 99")
            with pytest.raises(sagas.StoreSchemaTooNew, match="99"):
                async with sagas.Client(location):
                    pass
        else:
            db = sqlite3.connect(location)
            db.execute("PRAGMA user_version = 99")
            db.close()
        with pytest.raises(sagas.StoreSchemaTooNew, match="99"):
            async with sagas.open(location, [saga]):
                pass

    run(main())
    assert (
        store_command.main([location, "list"]) == 4
        and "tables of version 99" in capsys.readouterr().err
    )
    assert store_command.main([location, "migrate"]) == 4


def test_the_version_of_a_saga_is_shown(location: str, capsys: pytest.CaptureFixture[str]) -> None:
    """A list, a saga and its export have it. A key keeps the version with which it started."""
    kinds = [sagas.Saga("lease", version=version) for version in (1, 2)]
    for kind in kinds:
        kind.step(name="sign", external=True)

    async def main() -> None:
        async with sagas.open(location, kinds, shutdown_timeout=0.0) as store:
            for kind in kinds:
                await store.start(kind, f"k{kind.version}")
            assert not (await store.start(kinds[1], "k1")).new
            assert [saga.version for saga in await store.list()] == [1, 2]

    def shown(*options: str) -> Any:
        assert store_command.main([location, *options, "--json"]) == 0
        return json.loads(capsys.readouterr().out)

    run(main())
    assert [row["version"] for row in shown("list")] == [1, 2]
    for word in ("show", "export"):
        assert [shown(word, key)["version"] for key in ("k1", "k2")] == [1, 2]


def test_two_programs_migrate_at_once(url: str) -> None:
    """They take an advisory lock: the tables are made once."""
    saga = simple(lambda task: 7)

    async def start_and_wait(number: int) -> None:
        async with sagas.open(url, [saga]) as store:
            assert (await ended(store, saga, f"k{number}")).ok

    async def main() -> None:
        await asyncio.gather(*(start_and_wait(number) for number in range(4)))

    run(main())


def is_approval_pending(url: str) -> bool:
    """Return whether an approval is waited for."""
    with psycopg.connect(url) as link:
        return (
            link.execute("SELECT 1 FROM sagas.suspensions WHERE reason = 'approval'").fetchone()
            is not None
        )


def test_least_rights(postgresql: Server, url: str, capsys: pytest.CaptureFixture[str]) -> None:
    """`init --role` grants a role the rights of a node, a client and the command; it can make no
    tables, and before the grant it gets an error.
    """
    saga = simple(lambda task: 7, fleet_concurrency=2, rate_limit=(100, 1))
    inside = sagas.Saga("inside")

    @inside.step(transaction=True)
    async def a(task: Task) -> int:
        await task.connection.execute("SELECT 1")
        return 1

    @inside.approval(needs=[a])
    async def b(task: Task) -> None:
        ...

    role = f"app_{url[-8:]}"
    with psycopg.connect(url, autocommit=True) as link:
        link.execute(f"CREATE ROLE {role} LOGIN")
    theirs = postgresql.url(url.rpartition("/")[2], user=role)

    async def refused() -> None:
        with pytest.raises(sagas.InvalidStore, match=f"init --role {role}"):
            async with sagas.open(theirs, [saga, inside]):
                pass

    async def main() -> None:
        async with sagas.open(theirs, [saga, inside]) as store, sagas.Client(theirs) as client:
            assert (await ended(store, saga)).ok
            await store.start(inside, "i")
            await until(lambda: is_approval_pending(url))
            await client.complete("i", "b", "yes")
            assert (await store.wait("i")).results == {"a": 1, "b": "yes"}
            assert (await (await client.start(saga, "c")).wait()).ok
            assert await client.abort("c") is False
            assert all(verdict.startswith("yes") for verdict in (await store.audit()).values())

    run(refused())
    with pytest.raises(
        sagas.InvalidStore, match="no tables yet.*sagas store URL init"
    ), sagas.SyncClient(theirs):
        pass
    assert store_command.main([url, "init"]) == 0
    with pytest.raises(
        sagas.StoreUnavailable, match="sagas store URL init --role NAME"
    ), sagas.SyncClient(theirs):
        pass
    assert (
        store_command.main([theirs, "list"]) == 4 and "init --role NAME" in capsys.readouterr().err
    )
    assert store_command.main([url, "init", "--role", role]) == 0
    assert role in capsys.readouterr().out
    run(main())
    assert (
        store_command.main([theirs, "list"]) == 0
        and store_command.main([theirs, "nodes"]) == 0
        and store_command.main([theirs, "stats"]) == 0
    )
    assert (
        store_command.main([theirs, "prune", "--older-than", "1d"]) == 0
        and store_command.main([theirs, "audit"]) == 0
    )
    with psycopg.connect(theirs) as link, pytest.raises(psycopg.errors.InsufficientPrivilege):
        link.execute("DROP TABLE sagas.event_log")
    with psycopg.connect(url, autocommit=True) as link:
        link.execute(f"CREATE ROLE {role}_2")
    assert (
        store_command.main([theirs, "init", "--role", f"{role}_2"]) == 4
        and "cannot grant" in capsys.readouterr().err
    )


@pytest.mark.parametrize(
    "name, why",
    [
        ("postgres:/a:geheim@b/c", "two slashes"),
        ("postgresql://a:ge%heim@b/c", "two hex digits"),
        ("postgresql://a:geheim@b/c?x=1", '"x"'),
        ("psql://a:geheim@b/c", "psql://"),
        ("postgresql+psycopg://a:geheim@b/c", "postgresql\\+psycopg://"),
        ("host=b user=a password=geheim dbname=c", "words"),
        ("postgresql://a:x@geheim@b/c", "@ or /"),
        ("postgresql://a:x/geheim@b/c", "@ or /"),
        ("postgresql://a:x@y/geheim@b/c", "@ or /"),
        ("postgresql://a:1/geheim@b/c", "@ or /"),
        ("postgresql://a:x/y?geheim=1@b/c", "quote"),
        ("postgresql://a:geheim/c", "not a number"),
    ],
)
def test_invalid_urls(name: str, why: str, capsys: pytest.CaptureFixture[str]) -> None:
    """An invalid URL is refused by node, client and command, with the reason, and without its
    password.
    """

    async def main() -> None:
        async with sagas.open(name, [simple(lambda task: 1)]):
            pass

    with pytest.raises(sagas.InvalidStore, match=why) as error:
        run(main())
    with pytest.raises(sagas.InvalidStore) as client:
        sagas.SyncClient(name)
    assert store_command.main([name, "list"]) == 4 and store_command.main([name, "nodes"]) in (2, 4)
    for text in (str(error.value), str(client.value), capsys.readouterr().err):
        assert "postgresql://user@host/database" in text and "geheim" not in text


@pytest.mark.parametrize(
    "password", ["ge?heim", "ge#heim", "ge:heim", "ge[heim]", 'ge"he im', "ge%40heim", "ge%2Fheim"]
)
def test_a_password_that_can_be_read_is_in_no_name(password: str) -> None:
    """Some characters may be in it unescaped; an @ after a question mark is a parameter's."""
    for more in ("", "?application_name=a@b"):
        url = f"postgresql://a:{password}@b:5432,c/d{more}"
        assert connections.named(url) == "postgresql://a@b:5432,c/d" and connections.read(url)[
            "password"
        ] == urllib.parse.unquote(password)


def test_a_password_is_in_nothing_that_the_command_prints(
    url: str, capsys: pytest.CaptureFixture[str]
) -> None:
    """Also in the suggested next command, and in an error of a write."""
    saga = sagas.Saga("fails")

    @saga.step
    def a(task: Task) -> None:
        ...

    @a.compensation(on_exhausted="fail")
    def undo(task: Task) -> None:
        raise sagas.Fail("no")

    @saga.step(needs=[a])
    def b(task: Task) -> None:
        raise sagas.Fail("no")

    async def main() -> None:
        async with sagas.open(url, [saga]) as store:
            await (await store.start(saga, "k")).wait()

    run(main())
    theirs = url.replace("owner@", "owner:geheim@")
    for name in ("stats", "stuck", "list"):
        assert store_command.main([theirs, name]) == 0
    with psycopg.connect(url, autocommit=True) as link:
        link.execute("ALTER TABLE sagas.operator_commands RENAME TO others")
    assert store_command.main([theirs, "abort", "none"]) in (1, 4)
    with psycopg.connect(url, autocommit=True) as link:
        link.execute("UPDATE sagas.sagas SET phase = NULL")
    assert store_command.main([theirs, "abort", "k"]) == 4
    printed = capsys.readouterr()
    assert "list --phase" in printed.out and "cannot write postgresql://owner@" in printed.err
    assert "geheim" not in printed.out + printed.err


def test_an_unreachable_server(monkeypatch: pytest.MonkeyPatch) -> None:
    """The client reports why it cannot connect, as the node does, once it has tried for a while."""
    monkeypatch.setattr(connections, "CONNECT", 0.1)
    with socket.socket() as connection:
        connection.bind(("127.0.0.1", 0))
        url = f"postgresql://a@127.0.0.1:{connection.getsockname()[1]}/c"
        with pytest.raises(sagas.StoreUnavailable, match="[Rr]efused"), sagas.SyncClient(url):
            pass


@contextlib.contextmanager
def lets_in(server: Server, entries: str) -> Iterator[None]:
    """Put these entries of `pg_hba.conf` before the server's own."""
    file = server.folder / "data" / "pg_hba.conf"
    before = file.read_text()
    file.write_text(f"{entries}\n{before}")
    reload(server)
    try:
        yield
    finally:
        file.write_text(before)
        reload(server)


def reload(server: Server) -> None:
    """Let the server read its files again, and wait until it has."""
    loaded = ""
    for turn in range(200):
        with psycopg.connect(server.url("postgres"), autocommit=True) as link:
            (now,) = link.execute("SELECT pg_conf_load_time()::text").fetchone() or ("",)
            if turn == 0:
                loaded = now
                link.execute("SELECT pg_reload_conf()")
            elif now != loaded:
                return
        time.sleep(0.02)
    raise TimeoutError("the server did not read its files again")


def test_a_client_that_is_never_let_in(postgresql: Server, url: str) -> None:
    """A permanent error of the server is reported at once."""
    with psycopg.connect(url, autocommit=True) as link:
        link.execute("CREATE ROLE keyed LOGIN PASSWORD 'right'")
        link.execute("CREATE ROLE idle")
    is_approval_pending = [
        (url.replace("owner", "keyed:wrong"), "password authentication failed"),
        (url.replace("owner", "keyed"), "no password supplied"),
        (f"{url}_none", 'database ".*" does not exist'),
        (url.replace("owner", "nobody"), 'role "nobody" does not exist'),
        (url.replace("owner", "idle"), "not permitted to log in"),
    ]
    with lets_in(postgresql, "host all keyed 127.0.0.1/32 scram-sha-256"):
        for name, text in is_approval_pending:
            for opened in (sagas.SyncClient(name), sagas.open_sync(name, [simple(print)])):
                begun = time.monotonic()
                with pytest.raises(sagas.InvalidStore, match=text) as error, opened:
                    pass
                assert time.monotonic() - begun < 2 * connections.CONNECT
                assert "wrong" not in str(error.value)
        with pytest.raises(sagas.InvalidStore, match="no tables yet"), sagas.SyncClient(
            url.replace("owner", "keyed:right")
        ):
            pass


def test_a_client_tries_until_the_server_is_there(postgresql: Server, url: str) -> None:
    """While it does not answer, or is starting, no error is final."""
    assert store_command.main([url, "init"]) == 0
    postgresql.stop("fast")
    starting = threading.Timer(0.5, postgresql.start)
    starting.start()
    try:
        with sagas.SyncClient(url) as client:
            assert client.list() == []
    finally:
        starting.join()


@pytest.mark.parametrize("setting", ["off", "local"])
def test_commits_wait_for_the_disk(url: str, setting: str) -> None:
    """Whatever the database's setting, the commits of the store are on the disk before any
    acknowledgement.
    """
    with psycopg.connect(url, autocommit=True) as link:
        name = url.rpartition("/")[2]
        link.execute(f"ALTER DATABASE {name} SET synchronous_commit = {setting}".encode())

    async def settings_of_commits() -> list[str]:
        async with connections.pool(url, 1, Purpose.LEASE) as some, some.connection() as pooled:
            own_connection = await connections.connect(url, Purpose.LEASE)
            shown = [
                await (await link.execute("SHOW synchronous_commit")).fetchone()
                for link in (pooled, own_connection)
            ]
            await own_connection.close()
        with connections.connect_now(url, Purpose.ADMIN) as now:
            shown.append(now.execute("SHOW synchronous_commit").fetchone())
        return [str(row[0]) for row in shown if row]

    assert run(settings_of_commits()) == ["on"] * 3


def test_nodes_are_shown(
    url: str, tmp_path: pathlib.Path, capsys: pytest.CaptureFixture[str]
) -> None:
    """Each with its lease, logs and open sagas; and the logs that none drives, by the names of
    their sagas.
    """
    gate = asyncio.Event()

    async def wait(task: Task) -> None:
        await gate.wait()

    old, new = simple(wait), sagas.Saga("other")
    new.step(name="x")(lambda task: 1)

    async def main() -> None:
        async with sagas.open(url, [old], node="first", shutdown_timeout=0.0) as store:
            await store.start(old, "k")
            assert await asyncio.to_thread(store_command.main, [url, "nodes", "--json"]) == 0
            listed = json.loads(capsys.readouterr().out)
            (shown,) = listed["nodes"]
            assert (shown["name"], shown["shards"], shown["open"], shown["definitions"]) == (
                "first",
                1,
                1,
                store._registry.digest,
            )
            assert 0 < shown["lease"] <= 10 and listed["shards_without_node"] == []
        async with sagas.open(url, [new], node="second"):
            assert await asyncio.to_thread(store_command.main, [url, "nodes"]) == 0
            output = capsys.readouterr().out
            assert (
                "second" in output
                and "No node executes:" in output
                and "simple (version 1)" in output
            )
        async with sagas.open(url, [old], node="first") as store:
            gate.set()
            assert (await store.wait("k")).ok
        async with sagas.open(url, [new], node="second"):
            assert await asyncio.to_thread(store_command.main, [url, "nodes"]) == 0
            # that log has no open saga any more
            assert "No node executes:" not in capsys.readouterr().out

    run(main())
    assert store_command.main([str(tmp_path / "x.db"), "nodes"]) == 2
