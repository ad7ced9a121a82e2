"""Lists are in the order of the starts, over any number of shards.

This holds in the store, in the command, in the service and in its dashboard.
"""

from __future__ import annotations

import contextlib
import random
import re
import sqlite3
from collections.abc import Iterator
from typing import Any

import httpx
import psycopg
import pytest
from cases import ended, run, simple
from serving import served, start
from test_command import Shell
from test_service_workers import ONE_STEP

import sagas
from sagas.cli import store_command
from sagas.storage import admin

COUNT = 9
KEYS = [f"k{number}" for number in range(COUNT)]


def kinds() -> list[sagas.Saga]:
    """Return a saga whose steps come from its input, so that it has its own shard, and fixed ones:
    one of these is stuck, and one has an undo that fails.
    """
    many, fixed = sagas.Saga("many"), sagas.Saga("fixed")
    stuck, kept = sagas.Saga("stuck"), sagas.Saga("kept")
    many_stuck, many_kept = sagas.Saga("many-stuck"), sagas.Saga("many-kept")
    many.step(name="a", external=True, for_each="items", undo=0)
    fixed.step(name="a", external=True)

    def fails(task: Any) -> None:
        raise sagas.Fail("never")

    stuck.step(name="a", undo=sagas.NEVER, skip=sagas.NEVER)(fails)
    many_stuck.step(name="a", for_each="items", undo=sagas.NEVER, skip=sagas.NEVER)(fails)
    for kind, options in ((kept, {}), (many_kept, {"for_each": "items"})):
        first = kind.step(name="a", undo=1, keep=9, **options)(lambda task: 1)
        first.compensation(on_exhausted="fail")(fails)
        kind.step(name="b", needs=[first], undo=0)(fails)
    return [many, fixed, stuck, many_stuck, kept, many_kept]


def of_both(location: str) -> Any:
    """Return the ids in the order of the starts."""
    with contextlib.closing(admin.connect(location)) as link:
        return [id for (id,) in link.ask("SELECT id FROM sagas ORDER BY at")]


async def begin(store: sagas.Store, some: list[sagas.Saga]) -> None:
    """Start sagas of two shards alternately."""
    for number, key in enumerate(KEYS):
        labels = {"half": str(number % 2), "all": "yes"}
        await store.start(some[number % 2], key, {"items": [1]}, labels=labels)


def test_a_store_lists_by_the_start(location: str, capsys: pytest.CaptureFixture[str]) -> None:
    """Pages start after a saga, or an id, of any filter; so it is with the command."""

    async def main() -> None:
        async with sagas.open(location, some := kinds()) as store:
            await begin(store, some)
            filters: list[dict[str, Any]] = [
                {},
                {"phase": "open"},
                {"labels": {"all": "yes"}},
                {"phase": "open", "labels": {"all": "yes"}},
                {"saga": "many"},
                {"labels": {"half": "1"}},
                {"phase": "stuck"},
            ]
            for filter_options in filters:
                wanted = (
                    KEYS[0::2]
                    if "saga" in filter_options
                    else KEYS[1::2]
                    if filter_options.get("labels") == {"half": "1"}
                    else []
                    if filter_options.get("phase") == "stuck"
                    else KEYS
                )
                assert [summary.key for summary in await store.list(**filter_options)] == wanted
                for by_id in (True, False):
                    listed, page = list[str](), await store.list(**filter_options, limit=2)
                    while page:
                        listed += [summary.key for summary in page]
                        last: Any = page[-1].id if by_id else page[-1]
                        page = await store.list(**filter_options, after=last, limit=2)
                    assert listed == wanted

    run(main())
    ids = of_both(location)
    assert len(ids) == COUNT and ids != sorted(ids)  # else this shows nothing
    shell = Shell(location, capsys)

    def keys(*arguments: str) -> list[str]:
        return [row["key"] for row in shell.json("list", *arguments)]

    assert keys() == KEYS and keys("--newest") == KEYS[::-1] and keys("--limit", "0") == KEYS
    assert keys("--after", "k3", "--limit", "2") == KEYS[4:6]
    assert keys("--newest", "--after", "k3", "--limit", "2") == [KEYS[2], KEYS[1]]
    assert keys("--saga", "many", "--newest", "--after", "k3") == [KEYS[2], KEYS[0]]


def test_pages_continue_when_their_last_saga_is_deleted(location: str) -> None:
    """Pages continue from the saga itself; the position of its id is unknown."""

    async def main() -> None:
        async with sagas.open(location, some := kinds()) as store:
            await begin(store, some)
            page = await store.list(limit=4)
            with contextlib.closing(admin.connect(location, "rw")) as link, link.transaction():
                link.changed("DELETE FROM sagas WHERE key = ?", page[-1].key)
            await store.start(some[0], "late", {"items": [1]})
            rest = await store.list(after=page[-1])
            assert [summary.key for summary in (*page, *rest)] == [*KEYS, "late"]
            for id in (page[-1].id, 1 << 70, -1):
                with pytest.raises(ValueError, match=r"after=.*no saga.*list\(after=page\[-1\]\)"):
                    await store.list(after=id)
            for wrong in ("k3", True, 0.5):
                with pytest.raises(TypeError, match=r"list\(after=page\[-1\]\)"):
                    await store.list(after=wrong)  # type: ignore[arg-type]

    run(main())


def test_two_nodes_and_a_client_list_alike(url: str) -> None:
    """Each node has its own shard."""
    kind = sagas.Saga("kind")
    kind.step(name="a", external=True)

    async def main() -> None:
        async with (
            sagas.open(url, [kind], node="one") as first,
            sagas.open(url, [kind], node="two") as second,
            sagas.Client(url) as client,
        ):
            for number, key in enumerate(KEYS):
                await (first, second)[number % 2].start(kind, key)
            for store in (first, second, client):
                assert [summary.key for summary in await store.list()] == KEYS
                page = await store.list(limit=5)
                rest = await store.list(after=page[-1], limit=5)
                assert [summary.key for summary in (*page, *rest)] == KEYS

    run(main())
    assert (ids := of_both(url)) != sorted(ids)


def test_attention_is_ordered_by_age(location: str) -> None:
    """A limit returns the oldest ones: stuck sagas, and failed compensations."""

    async def main() -> None:
        async with sagas.open(location, some := kinds()) as store:
            for number, key in enumerate(KEYS):
                await ended(store, some[2 + number % 2], key, {"items": [1]})
            assert [entry.key for entry in await store.attention(limit=4)] == KEYS[:4]
            await store.resolve_all("done")
            for number, key in enumerate(KEYS):
                await ended(store, some[4 + number % 2], f"u{key}", {"items": [1]})
            entries = await store.attention(limit=4)
            assert [entry.key for entry in entries] == [f"u{key}" for key in KEYS[:4]]

    run(main())


OPEN = [f"saga-{number}" for number in range(COUNT)]
SHOP = """
import sagas
many = sagas.Saga("many")
many.step(external=True, name="a", for_each="items", undo=0)
def fails(task):
    raise sagas.Fail("never")
stuck, many_stuck = sagas.Saga("stuck"), sagas.Saga("many-stuck")
stuck.step(name="a", undo=sagas.NEVER, skip=sagas.NEVER)(fails)
many_stuck.step(name="a", for_each="items", undo=sagas.NEVER, skip=sagas.NEVER)(fails)
store = sagas.open("unused.db", [many, stuck, many_stuck])
"""


@pytest.fixture(scope="module")
def client(tmp_path_factory: pytest.TempPathFactory) -> Iterator[httpx.Client]:
    """Return a client of a service with sagas of two shards, alternately; some are stuck."""
    folder = tmp_path_factory.mktemp("order")
    (folder / "shop.py").write_text(SHOP)
    with served(folder, {"one.toml": ONE_STEP}, "--app", "shop:store") as service:
        with service.client() as client:
            for number in range(COUNT):
                start(client, ("many", "one")[number % 2], OPEN[number], {"items": [1]})
                key = f"stuck-{number}"
                start(client, ("stuck", "many-stuck")[number % 2], key, {"items": [1]})
                assert client.get(f"/v1/sagas/{key}/wait").json()["phase"] == "stuck"
            yield client


def pages(client: httpx.Client, path: str, name: str) -> list[str]:
    """Return the keys of all pages."""
    keys, after = list[str](), ""
    while True:
        page = client.get(f"{path}&limit=2{after}").json()
        keys += [row["key"] for row in page[name]]
        if page["next"] is None:
            return keys
        after = f"&after={page['next']}"


@pytest.mark.parametrize(
    "query", ["search=saga-", "phase=open", "search=saga-&phase=open", "error=never"]
)
def test_the_service_lists_the_newest_first(client: httpx.Client, query: str) -> None:
    """This holds for any shards, also while other sagas start."""
    wanted = [f"stuck-{n}" for n in range(COUNT)] if "error" in query else OPEN
    assert [*reversed(pages(client, f"/v1/sagas?{query}", "sagas"))] == wanted
    first = client.get("/v1/sagas?search=saga-&phase=open&limit=4").json()
    start(client, "many", other := f"other-{len(query)}", {"items": [1]})
    path = f"/v1/sagas?search=saga-&phase=open&after={first['next']}"
    rest = client.get(path).json()
    assert [row["key"] for row in (*first["sagas"], *rest["sagas"])] == OPEN[::-1]
    client.post(f"/v1/sagas/{other}/abort", json={})
    assert client.get(f"/v1/sagas/{other}/wait").json()["phase"] == "recovered"


def test_attention_is_by_age(client: httpx.Client) -> None:
    """It works in either order, and by pages."""
    keys = [f"stuck-{number}" for number in range(COUNT)]
    assert pages(client, "/v1/attention?kind=stuck", "entries") == keys
    assert pages(client, "/v1/attention?kind=stuck&order=newest", "entries") == keys[::-1]
    counted = client.post("/v1/bulk/resolve", json={"filter": {"kind": "stuck"}, "note": "x"})
    assert counted.json()["keys"] == keys
    counted = client.post("/v1/bulk/abort", json={"filter": {"search": "saga-"}})
    assert counted.json()["keys"] == OPEN


@pytest.mark.parametrize("path", ["/v1/sagas", "/v1/attention"])
def test_an_invalid_cursor(client: httpx.Client, path: str) -> None:
    """It gets the same error as any invalid parameter of a query."""
    kind = "" if path == "/v1/sagas" else "stuck."
    step = kind and ".-1"
    for cursor in ("7", "x", "1e3-7", "1.5", "1.5-", "-7", "1.5-x", "1.5-7-", "nan-7", "inf-7"):
        answer = client.get(f"{path}?after={kind}{cursor}{step}")
        assert (answer.status_code, answer.json()["field"]) == (422, "after"), cursor
        assert "must " in answer.json()["detail"]
    for cursor in ("1.5-7", "0-0", f"{'9' * 40}-{'9' * 20}"):
        assert client.get(f"{path}?after={kind}{cursor}{step}").status_code == 200, cursor


def test_the_dashboard_lists_the_newest_first(client: httpx.Client) -> None:
    """Its links lead to the older ones, and back."""
    for number in range(60):
        start(client, ("many", "one")[number % 2], f"page-{number:02}", {"items": [1]})
    wanted = [f"page-{number:02}" for number in reversed(range(60))]

    def shown(path: str) -> tuple[list[str], dict[str, str]]:
        text = client.get(path).text
        links = dict(re.findall(r'rel="(prev|next)" href="([^"]+)"', text))
        keys = dict.fromkeys(re.findall(r"page-\d\d", text))
        return [*keys], {rel: link.replace("&amp;", "&") for rel, link in links.items()}

    keys, links = shown("/ui/sagas?search=page-")
    assert [*links] == ["next"] and keys == wanted[: len(keys)] and 10 < len(keys) < 60
    more, links = shown(links["next"])
    assert [*links] == ["prev"] and keys + more == wanted
    again, links = shown(links["prev"])
    assert again == keys and [*links] == ["next"]
    assert client.get("/ui/sagas?before=7").status_code == 422


def has_index(location: str) -> bool:
    """Return whether the store has the index of the starts."""
    if location.startswith("postgresql:"):
        with psycopg.connect(location) as link:
            cursor = link.execute("SELECT to_regclass('sagas.sagas_started') IS NOT NULL")
            return cursor.fetchone() == (True,)
    with contextlib.closing(sqlite3.connect(location)) as db:
        return bool(
            db.execute("SELECT 1 FROM sqlite_schema WHERE name = 'sagas_started'").fetchall()
        )


def test_an_older_store_gets_the_index(location: str, capsys: pytest.CaptureFixture[str]) -> None:
    """It gets it when a program opens a file for writing; over PostgreSQL, when the owner does.

    A user without rights opens it anyway.
    """
    kind = simple(lambda task: 7)

    async def once(location: str, key: str) -> None:
        async with sagas.open(location, [kind]) as store:
            assert (await ended(store, kind, key)).ok
            assert key in [summary.key for summary in await store.list()]

    run(once(location, "a"))
    assert has_index(location)
    is_database = location.startswith("postgresql:")
    owner = location.replace("app@", "owner@")
    if is_database:
        with psycopg.connect(owner) as link:
            link.execute("DROP INDEX sagas.sagas_started")
    else:
        with contextlib.closing(sqlite3.connect(location)) as db:
            db.execute("DROP INDEX sagas_started")
    assert [row["key"] for row in Shell(location, capsys).json("list")] == ["a"]
    assert not has_index(location)
    run(once(location, "b"))
    assert has_index(location) is not is_database
    if not is_database:
        return
    assert store_command.main([owner, "init"]) == 0 and has_index(owner)
    with psycopg.connect(owner) as link:
        link.execute("DROP INDEX sagas.sagas_started")
    run(once(owner, "c"))
    assert has_index(owner)


def test_starts_round_trip(location: str) -> None:
    """A start is read exactly as written: else pages would repeat sagas."""
    times = sorted(random.Random(7).uniform(1e9, 4e9) for _ in range(50))

    async def main() -> None:
        async with sagas.open(location, some := kinds()) as store:
            for number, at in enumerate(times):
                await store.start(some[1], f"t{number:02}")
            with contextlib.closing(admin.connect(location, "rw")) as link, link.transaction():
                for number, at in enumerate(times):
                    link.changed("UPDATE sagas SET at = ? WHERE key = ?", at, f"t{number:02}")
            listed, page = list[sagas.Summary](), await store.list(limit=1)
            while page:
                listed += page
                page = await store.list(limit=1, after=page[-1])
            assert [summary.started for summary in listed] == times

    run(main())


def test_the_index_does_not_wait_long(url: str, caplog: pytest.LogCaptureFixture) -> None:
    """A transaction of another program blocks it: the store opens without it, and reports that."""
    kind = simple(lambda task: 7)

    async def once(key: str) -> None:
        async with sagas.open(url, [kind]) as store:
            assert (await ended(store, kind, key)).ok and await store.list()

    run(once("a"))
    with psycopg.connect(url) as stranger:
        stranger.execute("DROP INDEX sagas.sagas_started")
        stranger.commit()
        stranger.execute("LOCK TABLE sagas.sagas IN ROW EXCLUSIVE MODE")
        run(once("b"))
        assert "CREATE INDEX CONCURRENTLY sagas_started" in caplog.text and not has_index(url)
    run(once("c"))
    assert has_index(url)
