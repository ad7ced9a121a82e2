"""The owner of the values in a blob store, and values that a blob store does not return."""

from __future__ import annotations

import asyncio
import contextlib
import datetime
import json
import os
import pathlib
import shutil
import sqlite3
from typing import Any

import psycopg
import pytest
from cases import run, until
from serving import command
from test_blobs import LARGE, THRESHOLD, Memory, at, copy, values_in

import sagas
from sagas.core.attempt import machine as attempt_machine
from sagas.definition.payloads import PLAIN
from sagas.storage import blob_layer

OLD = datetime.timedelta(days=3).total_seconds()


def wait_for_name(store: sagas.Store) -> Any:
    """Return the blobs of a store, once their owner is known."""
    return until(lambda: blobs_of(store).prefix and blobs_of(store))


def blobs_of(store: sagas.Store) -> Any:
    return store._access.coordinator.store.blobs


async def approval_requested(store: sagas.Store, key: str) -> None:
    """Wait until a saga waits for its approval."""
    await until(
        lambda: [attempt for attempt in store.active_attempts(key) if attempt.waits == "approval"]
    )


async def swept(store: sagas.Store) -> int:
    database: Any = store._access.coordinator.store
    return int(await database.swept())


def copied(location: str, tmp_path: pathlib.Path) -> str:
    """Return a copy of a store, as a backup has it."""
    if not location.startswith("postgresql"):
        copy = str(tmp_path / "copy.db")
        with contextlib.closing(sqlite3.connect(location)) as db, contextlib.closing(
            sqlite3.connect(copy)
        ) as to:
            db.backup(to)
        return copy
    base, _, name = location.rpartition("/")
    owner = base.replace("app@", "owner@")
    with psycopg.connect(f"{owner}/postgres", autocommit=True) as link:
        link.execute(f"CREATE DATABASE copy_{name} TEMPLATE {name}")
    return f"{base}/copy_{name}"


def make_older(folder: pathlib.Path) -> None:
    """Change the times as if all had been put some days ago."""
    for path in values_in(folder):
        before = path.stat().st_mtime - OLD
        os.utime(path, (before, before))


def test_a_copy_deletes_nothing_of_the_original(
    location: str, tmp_path: pathlib.Path, caplog: pytest.LogCaptureFixture
) -> None:
    """Neither its sweep nor its retention does, and the original does not delete the copy's own
    blobs. The copy logs that. It may replace the original once an operator says so: then it
    deletes.
    """
    saga, folder = copy(), tmp_path / "blobs"
    blobs, nothing = sagas.FolderBlobStore(folder), datetime.timedelta(0)

    async def original() -> None:
        async with at(location, blobs, saga) as store:
            await store.start(saga, "k", LARGE)
            await store.fail("k", "sign", "no")
            await store.wait("k", 60)

    async def later() -> None:
        async with at(location, blobs, saga) as store:
            await store.start(saga, "later", LARGE)
            await until(lambda: len(values_in(folder)) == 4)

    async def of_copy() -> None:
        async with at(other, blobs, saga, retention=nothing) as store:
            assert (await wait_for_name(store)).other is not None
            await store.start(saga, "own", LARGE)
            await until(lambda: len(values_in(folder)) == 6)
            make_older(folder)
            assert await swept(store) == 0
            await until(lambda: gone(store))
            await until(lambda: "this store is a copy of it" in caplog.text)

    async def gone(store: sagas.Store) -> bool:
        return [summary.key for summary in await store.list()] == ["own"]

    async def again() -> None:
        async with at(location, blobs, saga) as store:
            assert (await wait_for_name(store)).other is None
            make_older(folder)
            assert await swept(store) == 0
            await store.complete("later", "sign")
            assert (await store.wait("later", 60)).results["second"] == f"{LARGE}12"

    async def replaced() -> None:
        async with at(other, blobs, saga) as store:
            assert (await wait_for_name(store)).other is None
            make_older(folder)
            await swept(store)  # unless the sweep of the opening was faster
            assert len(values_in(folder)) == 2
            await store.complete("own", "sign")
            assert (await store.wait("own", 60)).results["second"] == f"{LARGE}12"

    run(original())
    other = copied(location, tmp_path)
    run(later())
    run(of_copy())
    assert len(values_in(folder)) == 6
    run(again())
    done = command("store", other, "own-blobs", "--blobs", str(folder))
    assert done.returncode == 0 and "owns the values in" in done.stdout, done
    run(replaced())
    assert "No value is deleted" in caplog.text and LARGE not in caplog.text


def test_an_exact_copy_at_the_same_path(tmp_path: pathlib.Path) -> None:
    """A backup that replaces the store has an older token.

    It takes over a separate folder without marks at once. If two open stores each take over the
    values, neither deletes any.
    """
    saga, folder, location = copy(), tmp_path / "blobs", str(tmp_path / "store.db")
    blobs = sagas.FolderBlobStore(folder)

    async def opened(blobs: Any, key: str) -> str | None:
        async with at(location, blobs, saga) as store:
            await store.start(saga, key, LARGE)
            other = (await wait_for_name(store)).other
            return None if other is None else str(other.name)

    assert run(opened(blobs, "a")) is None
    backup = pathlib.Path(location).read_bytes()
    assert run(opened(blobs, "b")) is None
    with open(location, "r+b") as file:  # the same file, with other contents
        file.truncate(0)
        file.write(backup)
    assert run(opened(blobs, "c")) == location
    shutil.copytree(folder, tmp_path / "more")
    for path in (tmp_path / "more").rglob("*"):
        if path.is_file() and len(path.relative_to(tmp_path / "more").parts) == 2:
            path.unlink()
    assert run(opened(sagas.FolderBlobStore(tmp_path / "more"), "d")) is None

    async def both() -> None:
        more = blob_layer.Blobs(
            sagas.FolderBlobStore(tmp_path / "more"), THRESHOLD, PLAIN, location
        )
        with contextlib.closing(sqlite3.connect(location)) as db:
            ((secret,),) = db.execute("SELECT value FROM secrets WHERE name = 'leases'").fetchall()
        mine = more.mark(location, bytes.fromhex(secret))
        assert await mine.renew() is None
        (mark,) = [
            path
            for path in (tmp_path / "more").rglob("*")
            if path.is_file() and b'"id"' in path.read_bytes()
        ]
        theirs = mark.with_name("0" * 32)
        mark.rename(theirs)  # as a store does that has this one's token
        assert (await mine.renew()) == blob_layer.Location.read(
            theirs.read_bytes()
        ) and mark.exists()
        theirs.unlink()
        assert await mine.renew() is None and not mark.exists()

    run(both())


def test_two_nodes_have_the_same_values(url: str, tmp_path: pathlib.Path) -> None:
    """Each changes the marks, and neither takes the other's marks for those of another store."""
    saga, blobs = copy(), sagas.FolderBlobStore(tmp_path / "blobs")

    async def main() -> None:
        async with at(url, blobs, saga, node="one") as first, at(
            url, blobs, saga, node="two"
        ) as second:
            here, there = await wait_for_name(first), await wait_for_name(second)
            for _ in range(3):
                assert all(await asyncio.gather(here.is_own(), there.is_own()))
            assert here.prefix == there.prefix

    run(main())


def test_own_blobs_refused(tmp_path: pathlib.Path) -> None:
    """It refuses an object that is not a blob store, and a store that never had one."""
    location = str(tmp_path / "store.db")

    async def main() -> None:
        async with sagas.open(location, [copy()]):
            pass

    run(main())
    for blobs, status, text in [
        (location, 2, "this is a file"),
        ("json:dumps", 2, "must have the functions"),
        (str(tmp_path / "blobs"), 4, "no program has opened this store with a blob store"),
    ]:
        done = command("store", location, "own-blobs", "--blobs", blobs)
        assert (done.returncode, text in done.stderr) == (status, True), done


class Flaky(Memory):
    """A blob store that does not return some values."""

    def __init__(self) -> None:
        super().__init__()
        self.lacks: set[str] = set()
        self.gets = 0

    async def get(self, key: str) -> bytes:
        self.gets += key.count("/") == 2
        if key in self.lacks:
            raise OSError(self.there[key].decode())
        return self.there[key]


def test_a_missing_value_parks_only_its_attempt(
    location: str, caplog: pytest.LogCaptureFixture, monkeypatch: pytest.MonkeyPatch
) -> None:
    """Opening reads no value.

    Sagas whose values exist continue in parallel. Parked sagas continue by themselves once their
    values are returned, and an abort ends one without them.
    """
    saga, flaky = copy(), Flaky()
    monkeypatch.setattr(blob_layer, "PAUSES", (0.001,))
    monkeypatch.setattr(attempt_machine, "LEAST_UNREAD", 0.0005)  # shorter than a commit
    bad = [f"bad-{number}" for number in range(6)]  # more than are read at a time

    async def main() -> None:
        async with at(location, flaky, saga) as store:
            for key in [*bad, "good"]:
                await store.start(saga, key, LARGE)
                await approval_requested(store, key)
            prefixes = await store._access.coordinator.store.read_stored(
                (
                    "SELECT a.value FROM attempts a JOIN sagas s ON s.id = a.id WHERE s.key <> ?"
                    " AND a.step = 0"
                ),
                "good",
            )
            flaky.lacks = {json.loads(text)["$blob"] for (text,) in prefixes}
        assert len(flaky.lacks) == len(bad)
        flaky.gets = 0
        async with at(location, flaky, saga) as store:
            await until(lambda: all(store.active_attempts(key) for key in [*bad, "good"]))
            await wait_for_name(store)
            assert flaky.gets == 0
            for key in [*bad, "good"]:
                await store.complete(key, "sign")
            assert (await store.wait("good", 60)).results["second"] == f"{LARGE}12"
            parked = await until(lambda: all_parked(store))
            assert {entry.why for entry in parked} == {"cannot_decode"}
            assert all("the blob store raised OSError" in str(entry.detail) for entry in parked)
            await store.start(saga, "new", LARGE)
            run_of = await store.get(bad[0])
            assert run_of is not None and await run_of.abort()
            flaky.lacks.clear()
            for key in bad[1:]:
                assert (await store.wait(key, 60)).results["second"] == f"{LARGE}12"
            assert (await store.wait(bad[0], 60)).aborted
            assert await store.attention() == []
        assert caplog.text.count("step_cannot_decode") == len(bad)
        assert LARGE not in caplog.text

    async def all_parked(store: sagas.Store) -> list[sagas.Attention]:
        parked = await store.attention()
        return parked if len(parked) == len(bad) else []

    run(main())


def test_a_worker_gets_tasks_with_readable_values(
    tmp_path: pathlib.Path, monkeypatch: pytest.MonkeyPatch
) -> None:
    """The task whose input is missing is set aside, and is claimed later."""
    monkeypatch.setattr(blob_layer, "PAUSES", (0.001,))
    monkeypatch.setattr(attempt_machine, "LEAST_UNREAD", 0.05)
    flaky, saga = Flaky(), sagas.Saga("done")
    sign = saga.approval(name="sign")(lambda task: None)
    saga.step(external=True, name="work", needs=[sign], undo=0)

    async def main() -> None:
        store = at(str(tmp_path / "store.db"), flaky, saga)
        store.leased = True
        async with store:
            for key in ("bad", "good"):
                await store.start(saga, key, f"{key} {LARGE}")
                await approval_requested(store, key)
            flaky.lacks = {key for key, value in flaky.there.items() if value.startswith(b'"bad')}
            assert len(flaky.lacks) == 1
            for key in ("bad", "good"):
                await store.complete(key, "sign")
            (task,) = await store.workers.claim([("done", "work", "run")], wait=60, worker="w")
            assert task.task.key == "good"
            await until(lambda: store.attention())
            flaky.lacks.clear()
            (task,) = await store.workers.claim([("done", "work", "run")], wait=60, worker="w")
            assert task.task.input == f"bad {LARGE}"

    run(main())


def test_a_start_of_a_key_compares_its_digest(location: str) -> None:
    """The input of the existing saga is not read, unless it may be the same under other types."""
    saga, flaky = copy(), Flaky()

    async def main() -> None:
        async with at(location, flaky, saga) as store:
            await store.start(saga, "k", LARGE)
            await approval_requested(store, "k")
        async with at(location, flaky, saga) as store:
            await wait_for_name(store)
            flaky.lacks = {*flaky.there}
            assert not (await store.start(saga, "k", LARGE)).new
            assert await store.get("k")
            with pytest.raises(sagas.StoreUnavailable) as error:
                await store.start(saga, "k", LARGE + "!")
            assert LARGE not in str(error.value)
            flaky.lacks.clear()
            with pytest.raises(sagas.KeyConflict):
                await store.start(saga, "k", LARGE + "!")

    run(main())
