"""A shard whose stored data is damaged is set aside, and the others are served."""

from __future__ import annotations

import asyncio
import contextlib
import json
import pathlib
import sqlite3
import time
from typing import Any

import httpx
import psycopg
import pytest
from cases import Task, run, until
from serving import served, start

import sagas
from sagas.cli import store_command

DAMAGES = {
    "gap": (
        (
            "DELETE FROM event_log WHERE shard = 0 AND first_seq = (SELECT min(first_seq) FROM"
            " event_log WHERE shard = 0 AND first_seq > 0)"
        ),
        "its event log has a gap",
    ),
    "log": (
        "UPDATE event_log SET text = replace(text, 'commit', 'no event') WHERE shard = 0",
        "sagas drive: log: line 4",
    ),
    "definition": (
        "DELETE FROM shard_definitions WHERE shard = 0",
        "the definition of its saga 'k0' cannot be read",
    ),
    "contradiction": (
        "UPDATE sagas SET phase = 'ended', outcome = '{}' WHERE key = 'k0'",
        "its data could not be parsed",
    ),
}
SAVE = [
    "CREATE TABLE saved_log AS SELECT * FROM event_log WHERE shard = 0",
    "CREATE TABLE saved_definitions AS SELECT * FROM shard_definitions WHERE shard = 0",
]
REPAIR = [
    "DELETE FROM event_log WHERE shard = 0",
    "INSERT INTO event_log SELECT * FROM saved_log",
    "DELETE FROM shard_definitions WHERE shard = 0",
    "INSERT INTO shard_definitions SELECT * FROM saved_definitions",
    "UPDATE sagas SET phase = NULL, outcome = NULL WHERE key = 'k0'",
]


def write(location: str, *statements: str) -> None:
    """Change a store, even while a program has it open."""
    if location.startswith("postgresql:"):
        with psycopg.connect(
            location.replace("//app@", "//owner@"), options="-csearch_path=sagas"
        ) as link:
            for text in statements:
                link.execute(text.encode())
    else:
        with contextlib.closing(sqlite3.connect(location, timeout=10)) as db, db:
            for text in statements:
                db.execute(text)


def signed() -> sagas.Saga:
    """Return a saga that waits for an operator after its first step."""
    saga = sagas.Saga("signed")

    @saga.step
    async def write(task: Task) -> str:
        return str(task.key)

    @saga.approval(needs=[write])
    async def sign(task: Task) -> None:
        ...

    return saga


@pytest.mark.parametrize("damage", DAMAGES)
def test_a_damaged_shard_is_set_aside(
    location: str, damage: str, monkeypatch: pytest.MonkeyPatch, caplog: pytest.LogCaptureFixture
) -> None:
    """`open` reports it once, however often it tries, and lists its sagas; the other shards are
    served, and new sagas are started. Once it is repaired, its sagas continue, if the program has
    their definitions; else after the next opening.
    """
    monkeypatch.setattr("sagas.definition.registry.SHARD_CAPACITY", 2)
    monkeypatch.setattr("sagas.runtime.shard_runner.PAUSE_ASIDE", 0.3)
    kind, names = signed(), list[str]()
    text, why = DAMAGES[damage]

    async def before() -> None:
        async with sagas.open(
            location, [kind], on_event=lambda event: names.append(event.name)
        ) as store:
            for number in range(4):
                await store.start(kind, f"k{number}")
                await until(lambda number=number: names.count("step_suspended") == number + 1)

    async def after() -> None:
        names.clear()
        async with sagas.open(
            location, [kind], on_event=lambda event: names.append(event.name)
        ) as store:
            tries = counted(store)
            await store.complete("k2", "sign", None)
            assert (await store.wait("k2")).ok
            await store.start(kind, "new")
            await store.complete("new", "sign", None)
            assert (await store.wait("new")).ok
            await until(lambda: len(tries) > 2)
            entries: list[sagas.Attention] = await until(store.attention)
            assert {entry.key for entry in entries} >= {"k1"} and all(
                entry.why == "damaged" and why in str(entry.detail) for entry in entries
            )
            await until(lambda: names.count("shard_damaged"))
            assert names.count("shard_damaged") == 1
            waits = asyncio.create_task(store.wait("k1"))
            with pytest.raises(TimeoutError):
                await (await store.get("k1")).wait(timeout=0.1)
            write(location, *REPAIR)
            if damage == "definition":  # a program reads definitions as it takes a shard over
                waits.cancel()
                return
            await until(lambda: is_whole(store))
            await store.complete("k1", "sign", None)
            assert (await waits).ok

    async def again() -> None:
        async with sagas.open(location, [kind]) as store:
            await store.complete("k0", "sign", None)
            assert (await store.wait("k0")).ok
            await until(lambda: is_whole(store))

    run(before())
    write(location, *SAVE, text)
    run(after())
    run(again())
    errors = [record.message for record in caplog.records if record.levelname == "ERROR"]
    assert len(errors) == 1 and why in errors[0] and "shard 0" in errors[0], errors


async def is_whole(store: sagas.Store) -> bool:
    """Return whether no shard of it is set aside."""
    return not await store.attention()


def counted(store: sagas.Store) -> list[int]:
    """Count the shards that are loaded from now on."""
    database: Any = store._coordinator.store
    loads, load = list[int](), database.load

    def noted(log: int, *arguments: Any) -> Any:
        loads.append(log)
        return load(log, *arguments)

    database.load = noted
    return loads


@pytest.mark.parametrize("damage", ["gap", "log"])
def test_a_damaged_shard_is_deleted(
    location: str,
    damage: str,
    tmp_path: pathlib.Path,
    monkeypatch: pytest.MonkeyPatch,
    capsys: pytest.CaptureFixture[str],
) -> None:
    """It is exported before, while a program has the store open, and its keys are free again; a
    sound shard is not deleted.
    """
    monkeypatch.setattr("sagas.definition.registry.SHARD_CAPACITY", 2)
    monkeypatch.setattr("sagas.runtime.shard_runner.PAUSE_ASIDE", 0.3)
    kind, names, owner = signed(), list[str](), location.replace("//app@", "//owner@")

    async def begun(store: sagas.Store, *keys: str) -> None:
        for key in keys:
            await store.start(kind, key)
            await until(lambda: names.count("step_suspended") > 0)
            names.clear()

    async def before() -> None:
        async with sagas.open(
            location, [kind], on_event=lambda event: names.append(event.name)
        ) as store:
            await begun(store, "k0", "k1", "k2", "k3")

    async def after() -> None:
        async with sagas.open(
            location, [kind], on_event=lambda event: names.append(event.name)
        ) as store:
            await until(store.attention)
            assert command(owner, "prune", "--damaged-shard", "1") == 1
            assert (
                command(owner, "attention")
                == command(owner, "stats")
                == command(owner, "export", "k1")
                == 0
            )
            if location != owner:
                assert command(owner, "nodes") == 0
            assert (
                command(owner, "prune", "--damaged-shard", "0", "--export", str(tmp_path / "out"))
                == 0
            )
            await until(lambda: is_whole(store))
            await begun(store, "k0")
            for key in ("k0", "k2"):
                await store.complete(key, "sign", None)
                assert (await store.wait(key)).ok
            assert await store.get("k1") is None

    run(before())
    write(location, DAMAGES[damage][0])
    run(after())
    out = capsys.readouterr()
    assert (
        "shard 1 is not damaged" in out.err and "deleted 2 sagas of shard 0, exported to" in out.out
    )
    assert "2 in damaged shards" in out.out and (
        location == owner or "because their data is damaged" in out.out
    )
    (folder,) = (path for path in (tmp_path / "out").iterdir() if path.is_dir())
    assert [
        json.loads(line)["key"] for line in (folder / "sagas.jsonl").read_text().splitlines()
    ] == ["k0", "k1"]
    assert command(owner, "audit") == 0
    if location != owner:
        assert command(owner, "record") == 0


def command(store: str, word: str, *arguments: str) -> int:
    """Return the status of a command over a store."""
    return store_command.main([store, word, *arguments])


def test_a_service_shows_damaged_shards(location: str, tmp_path: pathlib.Path) -> None:
    """It answers, lists the sagas of the shard in the inbox, the API and the metrics, and logs the
    shard once as an error.
    """
    with served(tmp_path, store=location) as service:
        with service.client() as client:
            for key in ("k0", "k1"):
                assert start(client, "order", key).status_code == 201
        service.kill()
        write(
            location, "UPDATE event_log SET text = replace(text, 'open', 'nothing') WHERE shard = 0"
        )
        service.start()
        with service.client() as client:
            assert start(client, "order", "new").status_code == 201
            page = when_listed(client)
            assert [entry["key"] for entry in page["entries"]] == ["k0", "k1"]
            (first, _) = page["entries"]
            assert (
                first["calls"] == []
                and first["step"] is None
                and "sagas drive: log: line 2" in first["detail"]
            )
            inbox = client.get("/ui?kind=damaged").text
            assert (
                "The stored data of their shard is damaged" in inbox
                and "sagas drive: log: line" in inbox
                and "With what is selected" not in inbox
            )
            assert client.get("/ui/sagas/k0").status_code == 200
            figure = 'sagas_attention_required{reason="damaged",saga="order"} 2.0'
            assert figure in client.get("/metrics").text
        assert (
            service.log_text().count('"name":"shard_damaged"')
            + service.log_text().count('"name": "shard_damaged"')
            == 1
        ), service.log_text()


def when_listed(client: httpx.Client) -> Any:
    """Return what needs an operator, once the shard is noted and counted."""
    end = time.monotonic() + 120
    while True:
        page = client.get("/v1/attention?kind=damaged").json()
        if page["counts"]["damaged"] == 2 and page["entries"]:  # which come with two requests
            return page
        assert time.monotonic() < end, page
        time.sleep(0.05)
