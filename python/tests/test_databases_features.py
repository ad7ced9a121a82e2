"""A store over several databases, with what it meets: values, roles, poolers, Celery, webhooks."""

from __future__ import annotations

import asyncio
import base64
import datetime
import pathlib
from collections.abc import Iterator
from typing import Any

import psycopg
import pytest
from brokers import Broker, broker_at
from cases import Task, run, until
from celery_shop import Shop, Trip
from features_shop import Scramble
from poolers import pooled
from server import Server
from serving import DEFINITIONS, all_done, command, error_of, served, start
from test_databases import keys_at, moving
from test_service_webhooks import Receiver, table, written

import sagas
from sagas.cli import store_command
from sagas.storage.postgresql import map_changes

LARGE = "x" * 5_000
SECRET = "secret-of-a-customer"


@pytest.fixture
def urls(postgresql: Server) -> Iterator[list[str]]:
    """Return two empty databases."""
    urls = [postgresql.create() for _ in range(2)]
    yield urls
    for url in urls:
        postgresql.drop(url)


@pytest.fixture(scope="module")
def broker(tmp_path_factory: pytest.TempPathFactory) -> Iterator[Broker]:
    """Return a Redis of this module."""
    with broker_at("redis", tmp_path_factory.mktemp("redis")) as running:
        yield running


def both(number: int, prefix: str = "order") -> list[str]:
    """Return keys of both databases."""
    return [*keys_at(0, 2, number, prefix), *keys_at(1, 2, number, prefix)]


def shop() -> list[sagas.Saga[Any]]:
    """Return an order whose items are children, with large and secret values."""
    parcel: sagas.Saga[Any] = sagas.Saga("parcel")

    @parcel.step
    async def send(task: Task) -> str:
        return f"{task.input} {LARGE}"

    order: sagas.Saga[Any] = sagas.Saga("order")

    @order.step
    async def split(task: Task) -> list[str]:
        return [f"{SECRET} {number}" for number in range(3)]

    @order.child(parcel, needs=[split], for_each=lambda task: task.result_of(split))
    def ship(task: Any) -> str:
        return str(task.item)

    @order.step(needs=[ship])
    async def bill(task: Task) -> int:
        return len(task.result_of(ship))

    return [order, parcel]


def texts_of(url: str) -> str:
    """Return all rows of a database as text."""
    with psycopg.connect(url) as link:
        tables = link.execute(
            "SELECT tablename FROM pg_tables WHERE schemaname = 'sagas'"
        ).fetchall()
        rows = [
            row
            for (name,) in tables
            for row in link.execute(f"SELECT t::text FROM sagas.{name} t".encode()).fetchall()
        ]
        return "\n".join(str(row) for row in rows)


@pytest.mark.parametrize("kind", ["folder", "table"])
def test_blobs_codec_items_and_labels(
    urls: list[str], tmp_path: pathlib.Path, kind: str, capsys: pytest.CaptureFixture[str]
) -> None:
    """Children are where their order is, and no database has a value in plain text."""
    order, parcel = shop()
    keys, folder = both(2), tmp_path / "blobs"

    def blobs() -> Any:
        is_table = kind == "table"
        return sagas.PostgresBlobStore(urls[0]) if is_table else sagas.FolderBlobStore(folder)

    async def main() -> None:
        options: dict[str, Any] = {"codec": Scramble(), "blobs": blobs()}
        async with sagas.open(urls, [order, parcel], blob_threshold=4096, **options) as store:
            more: dict[str, Any] = {"codec": Scramble(), "blobs": blobs()}
            async with sagas.Client(urls, **more) as client:
                for key in keys:
                    labels = {"of": key}
                    started = await client.start(order, key, SECRET + LARGE, labels=labels)
                    assert started.new
                for key in keys:
                    result = await client.wait(key, 60)
                    assert result.ok and result.results["bill"] == 3
                    (row,) = await client.list(labels={"of": key}, saga="order")
                    assert row.key == key
                    child = f"{key}/:ship/:ship-0"
                    assert await client.database_of(child) == await client.database_of(key)
                    assert (await store.wait(child, 60)).results["send"].endswith(LARGE)
                assert len(await client.list(saga="parcel")) == 12

    run(main())
    assert not any(SECRET in texts_of(url) for url in urls)
    assert store_command.main([",".join(urls), "audit"]) == 0
    assert capsys.readouterr().out.count("postgresql://") == 2


def test_retention_and_an_archive(urls: list[str], tmp_path: pathlib.Path) -> None:
    """Each database archives its own sagas into one folder, and its keys are free again."""
    order, parcel = shop()
    keys, archive = both(2), tmp_path / "archive"

    async def main() -> None:
        options: dict[str, Any] = {"retention": datetime.timedelta(0), "archive_dir": archive}
        async with sagas.open(urls, [order, parcel], **options) as store:
            for key in keys:
                await (await store.start(order, key)).wait(60)

            async def is_empty() -> bool:
                return await store.count() == 0

            async with asyncio.timeout(60):
                while not await is_empty():
                    await asyncio.sleep(0.1)
            for key in keys:
                assert (await store.start(order, key)).new
                assert (await store.wait(key, 60)).ok

    run(main())
    text = "".join(path.read_text() for path in archive.rglob("*.jsonl"))
    assert all(f'"{key}"' in text for key in keys)


def test_a_restricted_role(urls: list[str], postgresql: Server) -> None:
    """The owner makes the tables and changes the map. The role runs nodes, and changes no map."""
    order, parcel = shop()
    added = postgresql.create()
    with psycopg.connect(urls[0], autocommit=True) as link:
        link.execute("DROP ROLE IF EXISTS shop_app")
        link.execute("CREATE ROLE shop_app LOGIN")
    as_role = [url.replace("owner@", "shop_app@") for url in [*urls, added]]
    assert as_role[0] != urls[0]
    assert store_command.main([",".join(urls), "init", "--role", "shop_app"]) == 0

    async def main() -> None:
        async with sagas.open(as_role[:2], [order, parcel]) as store:
            async with sagas.Client(as_role[:2]) as client:
                for key in both(1):
                    assert (await (await client.start(order, key)).wait(60)).ok
                with pytest.raises(psycopg.errors.InsufficientPrivilege):
                    with psycopg.connect(as_role[0]) as link:
                        link.execute("UPDATE sagas.database_map SET generation = 9")
                assert store_command.main([",".join(as_role[:2]), "map", "add", as_role[2]]) == 4
                assert store_command.main([added, "init", "--role", "shop_app"]) == 0
                names = [",".join(urls), "map", "add", added]
                assert await asyncio.to_thread(store_command.main, names) == 0
                moved = moving(2, 0, 1, "moved")[0]
                for member in (store, client):
                    with pytest.raises(sagas.StoreUnavailable, match="generation 2"):
                        await member.start(order, moved)
        async with sagas.open(as_role, [order, parcel]) as store:
            assert (await (await store.start(order, moved)).wait(60)).ok
            assert await store.database_of(moved) == as_role[2]

    run(main())
    postgresql.drop(added)


def test_poolers_of_transactions(urls: list[str], postgresql: Server) -> None:
    """`direct_url` has a URL for each database, for stores, clients and the service."""
    order, parcel = shop()
    with pooled(postgresql, "transaction") as port:
        through = [postgresql.url(url.rpartition("/")[2], port=port) for url in urls]

        async def main() -> None:
            for direct in (urls[:1], urls[0]):
                with pytest.raises(ValueError, match="direct_url: must have 2 URLs"):
                    sagas.open(through, [order, parcel], direct_url=direct)
            async with sagas.open(through, [order, parcel], direct_url=urls) as store:
                async with sagas.Client(through, direct_url=urls) as client:
                    for key in both(2):
                        assert (await (await client.start(order, key)).wait(60)).ok
                    assert await store.count(saga="order") == 4
            with pytest.raises(sagas.InvalidStore, match="named as"):
                async with sagas.Client(through[::-1], direct_url=urls[::-1]):
                    pass

        run(main())


def test_a_service_over_poolers(
    urls: list[str], postgresql: Server, tmp_path: pathlib.Path
) -> None:
    """`--direct-url URL,URL` goes with `sagas serve URL,URL`. Another number is refused."""
    with pooled(postgresql, "transaction") as port:
        through = [postgresql.url(url.rpartition("/")[2], port=port) for url in urls]
        options = ("--direct-url", ",".join(urls))
        refused = command("serve", ",".join(through), "--direct-url", urls[0], "--demo")
        assert refused.returncode == 2, refused
        with served(tmp_path, DEFINITIONS, *options, store=",".join(through)) as service:
            with service.client() as client:
                for key in both(1):
                    assert start(client, "order", key).status_code == 201
                assert len(client.get("/v1/sagas").json()["sagas"]) == 2


def test_celery_workers(urls: list[str], broker: Broker, tmp_path: pathlib.Path) -> None:
    """A worker with the list of URLs reports to the database of each task."""
    shop = Shop(broker.url, ",".join(urls), str(tmp_path / "calls"), queue="several")
    keys, wanted = both(2, "trip"), shop.sagas

    async def main() -> None:
        alone = Shop(broker.url, urls[0], str(tmp_path / "calls"), queue="alone")
        with pytest.raises(sagas.WrongStore, match="other numbers of databases"):
            async with sagas.open(urls, alone.sagas):
                pass
        async with sagas.open(urls, wanted) as store:
            for key in keys:
                await store.start(shop.trip, key, Trip("Rome"))
                await store.start(shop.trip, f"{key}-never", Trip("Rome", "never"))
            for key in keys:
                assert (await store.wait(key, 120)).results["tour"] == {"seat": "Rome"}
                assert (await store.wait(f"{key}-never", 120)).phase == "recovered"

    worker = shop.worker(tmp_path)
    try:
        run(asyncio.wait_for(main(), 180))
    finally:
        worker.kill()
    called = {(call["key"], call["step"]) for call in shop.calls() if not call["undo"]}
    assert {(key, step) for key in keys for step in ("flight", "meal", "tour")} <= called


def test_webhooks_of_both_databases(urls: list[str], tmp_path: pathlib.Path) -> None:
    """Ends of both are posted. The list has them, and one is posted again from where it is."""
    receiver = Receiver()
    options = ("--local-webhooks", "--webhooks", written(tmp_path, table(receiver.url)))
    with served(tmp_path, DEFINITIONS, *options, store=",".join(urls)) as service:
        with service.client() as client:
            keys = both(1, "trip")
            for key in keys:
                assert start(client, "trip", key).status_code == 201
                all_done(client, "trip/flight", "trip/car", "trip/tour")
            assert {post["data"]["key"] for post in receiver.wait(2)} == {*keys}

            def delivered() -> list[Any]:
                path = "/v1/webhooks/deliveries?state=delivered"
                rows: list[Any] = client.get(path).json()["deliveries"]
                return rows

            run(until(lambda: len(delivered()) == 2))
            assert [row["key"] for row in delivered()] == keys[::-1]
            for row in delivered():
                path = f"/v1/webhooks/deliveries/{row['id']}/redeliver"
                assert client.post(path, json={}).json()["state"] == "pending"
            assert len(receiver.wait(4)) == 4
            missing = client.post("/v1/webhooks/deliveries/msg_none/redeliver", json={})
            assert error_of(missing) == "NoSuchDelivery"
    receiver.server.shutdown()


def test_values_of_another_encoding_are_refused(urls: list[str]) -> None:
    """A client without the codec is refused, as over one database."""
    order, parcel = shop()
    encoded = base64.b64encode(b"x").decode()

    async def main() -> None:
        async with sagas.open(urls, [order, parcel], codec=Scramble()) as store:
            await (await store.start(order, both(1)[0], encoded)).wait(60)
            with pytest.raises(sagas.InvalidStore):
                async with sagas.Client(urls):
                    pass

    run(main())
    assert map_changes.create(urls, print).generation == 1
