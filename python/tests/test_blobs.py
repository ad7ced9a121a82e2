"""Large values in a blob store: put before their rows, deleted after them, over both databases."""

from __future__ import annotations

import asyncio
import contextlib
import datetime
import os
import pathlib
import signal
import subprocess
import sys
import time
from collections.abc import Iterable
from typing import Any

import psycopg
import pytest
import serving
from cases import QUICK, Task, run, until
from driving import program
from serving import FEW, report, served, start, take

import sagas
from sagas.definition.payloads import Reference
from sagas.storage import blob_layer
from sagas.storage.postgresql import connections

LARGE, SMALL = "x" * 5000, "y" * 100
THRESHOLD = 1000


class Memory:
    """A blob store with coroutines, in the memory of this program."""

    def __init__(self) -> None:
        self.there: dict[str, bytes] = {}
        self.fails = False

    async def put(self, key: str, data: bytes) -> None:
        if self.fails:
            raise OSError(data.decode())
        self.there[key] = data

    async def get(self, key: str) -> bytes:
        return self.there[key]

    async def delete(self, key: str) -> None:
        self.there.pop(key, None)

    async def keys(self, prefix: str, before: float) -> Iterable[str]:
        return [key for key in self.there if key.startswith(prefix)]


class Reverse:
    """A codec."""

    def encode(self, data: bytes) -> bytes:
        return data[::-1]

    def decode(self, data: bytes) -> bytes:
        return data[::-1]


def copy(undone: list[Any] | None = None) -> sagas.Saga:
    """Return a saga with large results, and each step reads the one before; and a
    waiting one.
    """
    saga = sagas.Saga("copy")

    @saga.step(undo=1, keep=9, backoff=QUICK)
    def first(task: Task) -> str:
        return str(task.input) + "1"

    @first.compensation
    def back(task: Task) -> None:
        (undone if undone is not None else []).append(task.result)

    sign = saga.approval(name="sign", needs=[first], backoff=QUICK)(lambda task: None)

    @saga.step(needs=[sign], backoff=QUICK)
    def second(task: Task) -> str:
        return str(task.results["first"]) + "2"

    return saga


def at(location: str, blobs: Any, *saga: sagas.Saga, **options: Any) -> sagas.Store:
    options = {"node": "one", "blob_threshold": THRESHOLD, **options}
    return sagas.open(location, saga, blobs=blobs, **options)


async def texts(store: sagas.Store) -> list[str]:
    """Return the stored texts, without the blob store."""
    database: Any = store._access.coordinator.store
    inner = getattr(database, "_inner", database)
    query = "SELECT input FROM sagas UNION ALL SELECT value FROM attempts WHERE event = 'commit'"
    return [text for (text,) in await inner.read(query)]


def values_in(folder: pathlib.Path) -> list[pathlib.Path]:
    """Return the values of a folder, without the marks of the store."""
    listing = os.walk(folder)  # which skips blobs that are being deleted
    paths = (pathlib.Path(directory, name) for directory, _, names in listing for name in names)
    whole = [path for path in paths if path.suffix != ".part"]
    return [path for path in whole if len(path.relative_to(folder).parts) == 3]


@pytest.fixture(params=["memory", "folder", "table"])
def blobs(request: pytest.FixtureRequest, tmp_path: pathlib.Path) -> Any:
    if request.param == "memory":
        return Memory()
    if request.param == "folder":
        return sagas.FolderBlobStore(tmp_path / "blobs")
    server = request.getfixturevalue("postgresql")
    return sagas.PostgresBlobStore(request.getfixturevalue("url") if server else "")


async def called(result: Any) -> Any:
    return await result if asyncio.iscoroutine(result) else result


def test_a_blob_store_by_itself(blobs: Any) -> None:
    """Values are put twice, read, listed and deleted; a missing one is a `KeyError`."""

    async def main() -> None:
        for _ in range(2):
            await called(blobs.put("ab/1/c", b"one"))
        await called(blobs.put("ab/1/d", b"two"))
        assert await called(blobs.get("ab/1/c")) == b"one"
        assert sorted(await called(blobs.keys("ab/", time.time() + 60))) == ["ab/1/c", "ab/1/d"]
        assert list(await called(blobs.keys("cd/", time.time() + 60))) == []
        for _ in range(2):
            await called(blobs.delete("ab/1/c"))
        with pytest.raises(KeyError):
            await called(blobs.get("ab/1/c"))
        if not isinstance(blobs, Memory):
            assert list(await called(blobs.keys("ab/", time.time() - 600))) == []

    run(main())


def test_a_table_is_durable(url: str, monkeypatch: pytest.MonkeyPatch) -> None:
    """This holds whatever the database's own setting is."""
    made, whole = list[psycopg.Connection[Any]](), connections.connect_now
    with psycopg.connect(url, autocommit=True) as link:
        name = url.rpartition("/")[2]
        link.execute(f"ALTER DATABASE {name} SET synchronous_commit = off".encode())
    monkeypatch.setattr(connections, "connect_now", lambda *a: made.append(whole(*a)) or made[0])
    with contextlib.closing(sagas.PostgresBlobStore(url)) as blobs:
        blobs.put("a", b"one")
        assert made[0].execute("SHOW synchronous_commit").fetchone() == ("on",)


@pytest.mark.parametrize("codec", [None, Reverse()], ids=["plain", "codec"])
def test_large_values_are_outside(
    location: str, tmp_path: pathlib.Path, codec: Any, monkeypatch: pytest.MonkeyPatch
) -> None:
    """Rows refer to them.

    Functions, results, histories and other starts of the key have them, also in the next program. A
    program without the blob store parks them. The compensation has its step's result, and retention
    deletes all of them after the rows.
    """
    undone, folder = list[Any](), tmp_path / "blobs"
    saga, blobs = copy(undone), sagas.FolderBlobStore(folder)

    def files() -> list[pathlib.Path]:
        return values_in(folder)

    async def main() -> None:
        async with at(location, blobs, saga, codec=codec) as store:
            large = await store.start(saga, "large", LARGE)
            await (await store.start(saga, "small", SMALL)).complete("sign")
            assert (await store.wait("small", 60)).results["second"] == f"{SMALL}12"
            await until(lambda: [a for a in store.active_attempts("large") if a.step == "sign"])
            again = await store.start(saga, "large", LARGE)
            assert not again.new
            with pytest.raises(sagas.KeyConflict):
                await store.start(saga, "large", LARGE + "!")
            rows = await texts(store)
            references = [reference for text in rows if (reference := Reference.of(text))]
            assert len(references) == 2 and all(len(text) < THRESHOLD for text in rows)
            assert len(files()) == 2 and LARGE not in "".join(rows)
            data = blobs.get(references[0].key).decode()
            assert (LARGE in data) is (codec is None) and len(data) == references[0].size
        async with at(location, None, saga, codec=codec) as store:
            (entry,) = await until(lambda: parked(store, "large"))
            assert "blob" in str(entry.detail)
        async with at(location, blobs, saga, codec=codec) as store:
            await store.complete("large", "sign")
            end = await store.wait("large", 60)
            assert end.results["second"] == f"{LARGE}12" == (await large_again(store))
            failed = await store.start(saga, "failed", LARGE)
            await store.fail("failed", "sign", "no")
            assert (await failed.wait(60)).states["first"] == "undone" and undone == [f"{LARGE}1"]
            values = [event.value for event in await store.log("large")]
            assert f"{LARGE}12" in values
            with pytest.raises(sagas.KeyConflict):
                await store.start(saga, "large", LARGE + "!")
            assert not (await store.start(saga, "large", LARGE)).new
            orphan = f"{prefix(store)}/1/0a"
            blobs.put(orphan, b"an orphan")
            blobs.put("0123456789abcdef/1/0a", b"another store's")
            monkeypatch.setattr(blob_layer, "AGE", -60.0)
            # the orphan, and the values of starts that were refused; unless the sweep of the
            # opening was slow, and deleted them
            await store._access.coordinator.store.swept()  # type: ignore[attr-defined]
            with pytest.raises(KeyError):
                blobs.get(orphan)
            assert len(files()) == 6
        del large
        nothing = datetime.timedelta(0)
        async with at(location, blobs, saga, codec=codec, retention=nothing) as store:
            await until(lambda: len(files()) == 1)
            assert await store.list() == []

    async def large_again(store: sagas.Store) -> Any:
        return (await store.wait("large", 60)).results["second"]

    async def parked(store: sagas.Store, key: str) -> list[sagas.Attention]:
        await store.complete(key, "sign")
        return await store.attention()

    def prefix(store: sagas.Store) -> str:
        blob_store = store._access.coordinator.store.blobs
        assert blob_store is not None
        return blob_store.prefix

    run(main())


def basket() -> sagas.Saga:
    """Return a saga of large items, with a waiting step before them."""
    saga = sagas.Saga("basket")
    sign = saga.approval(name="sign", backoff=QUICK)(lambda task: None)

    @saga.step(for_each="parcels", needs=[sign], undo=0, backoff=QUICK)
    def weigh(task: sagas.ItemTask[Any, str]) -> list[Any]:
        return [task.index, len(task.item)]

    @saga.step(needs=[weigh], undo=0)
    def total(task: Task) -> int:
        return sum(weight for _, weight in task.result_of(weigh).values())

    return saga


@pytest.mark.parametrize("codec", [None, Reverse()], ids=["plain", "codec"])
def test_large_items_are_outside(location: str, tmp_path: pathlib.Path, codec: Any) -> None:
    """They are kept outside of the database as inputs are, and read by later programs.

    Without the blob store the attempts that need them are parked. Retention deletes them after the
    rows.
    """
    saga, folder = basket(), tmp_path / "blobs"
    blobs = sagas.FolderBlobStore(folder)
    value = {"parcels": {f"key {number}": "x" * THRESHOLD for number in range(3)}}

    def files() -> int:
        return len(values_in(folder))

    async def shapes(store: sagas.Store) -> list[str]:
        inner: Any = store._access.coordinator.store._inner  # type: ignore[attr-defined]
        return [text for (text,) in await inner.read("SELECT shape FROM shapes")]

    async def main() -> None:
        async with at(location, blobs, saga, codec=codec) as store:
            await store.start(saga, "large", value)
            await store.start(saga, "small", {"parcels": {"a": "b"}})
            stored = await shapes(store)
            assert sum(Reference.of(text) is not None for text in stored) == 1 and files() == 2
            assert max(map(len, stored)) < THRESHOLD and "xxx" not in "".join(stored)
        async with at(location, None, saga, codec=codec) as store:
            await store.complete("large", "sign")
            waits = await until(lambda: parked(store))
            assert {wait.step for wait in waits} == {"weigh-0", "weigh-1", "weigh-2"}
        async with at(location, blobs, saga, codec=codec) as store:
            end = await store.wait("large", 60)
            assert end.results["total"] == 3 * THRESHOLD
            assert end.each("weigh") == {f"key {n}": [f"key {n}", THRESHOLD] for n in range(3)}
            assert await store._access.coordinator.store.swept() == 0  # type: ignore[attr-defined]
            await store.complete("small", "sign")
            await store.wait("small", 60)
        async with at(location, blobs, saga, codec=codec) as store:
            assert (await store.wait("large")).each("weigh")["key 1"] == ["key 1", THRESHOLD]
        nothing = datetime.timedelta(0)
        async with at(location, blobs, saga, codec=codec, retention=nothing):
            await until(lambda: files() == 0)

    async def parked(store: sagas.Store) -> list[sagas.Attention]:
        entries = [entry for entry in await store.attention() if entry.step != "sign"]
        return entries if len(entries) == 3 else []

    run(main())


@pytest.mark.parametrize("codec", [None, Reverse()], ids=["plain", "codec"])
def test_a_child_with_large_values_is_undone(
    location: str, tmp_path: pathlib.Path, codec: Any
) -> None:
    """Its compensations get its input and its results, in the program and at a worker."""
    undone, leaf, trip = list[Any](), sagas.Saga("leaf"), sagas.Saga("trip")
    room = leaf.step(name="room", keep=9)(lambda task: task.input + "1")
    room.compensation(lambda task: undone.append((task.input, task.result)))
    car = leaf.step(name="car", needs=[room], keep=9)(lambda task: task.input + "2")
    car.compensation(external=True)
    trip.child(leaf, name="stay", input=lambda task: LARGE)

    @trip.step(needs=trip.steps)
    def tour(task: Task) -> None:
        raise sagas.Fail("sold out")

    async def main() -> None:
        store = at(location, sagas.FolderBlobStore(tmp_path / "blobs"), trip, leaf, codec=codec)
        store.leased = True
        async with store:
            begun = await store.start(trip, "k")
            (leased,) = await store.workers.claim([("leaf", "car", "undo")], wait=60)
            assert (leased.task.input, leased.task.result) == (LARGE, LARGE + "2")
            assert await store.workers.report(leased.attempt_id, leased.lease)
            assert (await begun.wait(60)).states["stay"] == "undone"
            assert undone == [(LARGE, LARGE + "1")]

    run(main())


def test_an_unavailable_blob_store(location: str) -> None:
    """A start raises an error, and writes nothing; a result waits until the blob store is available
    again. If a value that was put is missing, the attempt is parked. An input that looks like a
    reference is data.
    """
    memory, saga = Memory(), copy()
    forged = {"$blob": "ab/1/c", "bytes": 1, "digest": "0" * 64}

    async def main() -> None:
        async with at(location, memory, saga) as store:
            memory.fails = True
            with pytest.raises(sagas.StoreUnavailable) as error:
                await store.start(saga, "k", LARGE)
            assert LARGE not in str(error.value)
            await store.start(saga, "small", SMALL)
            memory.fails = False
            assert (await store.start(saga, "k", LARGE)).new
            await store.complete("k", "sign")
            assert (await store.wait("k", 60)).results["second"] == f"{LARGE}12"
            assert (await store.start(saga, "like", forged)).new
            assert not (await store.start(saga, "like", forged)).new
            gone = await store.start(saga, "gone", LARGE)
            await until(lambda: [a for a in store.active_attempts("gone") if a.step == "sign"])
            assert gone.new
        memory.there.clear()
        async with at(location, memory, saga) as store:
            await store.complete("gone", "sign")
            (entry,) = await until(lambda: store.attention())
            assert (entry.key, entry.why) == ("gone", "cannot_decode")

    run(main())


def test_a_client_reads_them(url: str) -> None:
    """It needs the same blob store; without it, the read is an error."""
    memory, saga = Memory(), copy()

    async def main() -> None:
        async with at(url, memory, saga) as store:
            async with sagas.Client(url, blobs=memory) as client, sagas.Client(url) as plain:
                started = await client.start(saga, "k", LARGE)
                await started.complete("sign")
                assert (await started.wait(60)).results["second"] == f"{LARGE}12"
                assert not (await client.start(saga, "k", LARGE)).new
                with pytest.raises(sagas.KeyConflict):
                    await plain.start(saga, "k", LARGE + "!")
                with pytest.raises(sagas.CannotDecode, match="blob store"):
                    await plain.wait("k", 60)
                assert (await store.wait("k")).ok

    run(main())


def test_a_service_has_them(tmp_path: pathlib.Path) -> None:
    """They come with its options, with a codec of a module.

    A worker gets the whole input, and its result is stored outside. An invalid codec is refused.
    """
    (tmp_path / "coded.py").write_text(
        "class Reverse:\n"
        "    def encode(self, data): return data[::-1]\n"
        "    def decode(self, data): return data[::-1]\n"
        "codec = Reverse()\n"
    )
    options = ["--blobs", "large", "--blob-threshold", "1000", "--codec", "coded:codec"]
    files = {"few.toml": FEW, "few.service.toml": ""}
    with served(tmp_path, files, *options) as service, service.client() as client:
        start(client, "few", "k", LARGE)
        (task,) = take(client, "few/a")
        assert task["input"] == LARGE
        assert report(client, task, result=LARGE + "1").status_code == 200
        (task,) = take(client, "few/b")
        assert task["results"] == {"a": LARGE + "1"}
        assert report(client, task, result=None).status_code == 200
        assert client.get("/v1/sagas/k/wait?seconds=60").json()["phase"] == "completed"
        kept = [path.read_bytes() for path in values_in(tmp_path / "large")]
        assert len(kept) == 2 and not any(LARGE.encode() in data for data in kept)
    for wrong in (["--codec", "os:sep"], ["--codec", "os"], ["--blobs", "os:sep"]):
        command = [sys.executable, "-m", "sagas", "serve", "x.db", "--definitions", "definitions"]
        done = subprocess.run(
            [*command, *wrong], env=serving.environment(), cwd=tmp_path, capture_output=True
        )
        assert done.returncode == 2 and wrong[0].strip("-") in done.stderr.decode()


def test_invalid_blob_options(location: str) -> None:
    for options in ({"blobs": object()}, {"blob_threshold": "1"}, {"blob_threshold": True}):
        with pytest.raises(TypeError):
            sagas.open(location, [copy()], **options)  # type: ignore[arg-type]
    with pytest.raises(ValueError):
        sagas.open(location, [copy()], blob_threshold=1)
    with pytest.raises(ValueError):
        sagas.FolderBlobStore(".").get("../x")


KILLED = """
import asyncio, os, sys
import sagas, test_blobs
async def main():
    blobs = sagas.FolderBlobStore(sys.argv[2])
    saga = test_blobs.copy()
    async with test_blobs.at(sys.argv[1], blobs, saga) as store:
        async def one(key):
            await store.start(saga, key, key * 2000)
            print(key, flush=True)
            await store.complete(key, "sign")
            print(key, "signed", flush=True)
            await store.wait(key)
        for lot in range(100):
            await asyncio.gather(*(one(f"k{lot}-{n}") for n in range(8)))
asyncio.run(main())
"""


def test_acknowledged_starts_survive_a_kill(location: str, tmp_path: pathlib.Path) -> None:
    """A program is killed during its starts, three times.

    The next one runs each acknowledged saga to its end, with its values.
    """
    here, folder, saga = pathlib.Path(__file__).parent, tmp_path / "blobs", copy()
    environment = os.environ | {
        "PYTHONPATH": f"{here.parent / 'src'}{os.pathsep}{here}",
        "SAGAS_PROGRAM": program(),
    }
    acknowledged = list[str]()
    for kills in range(3):
        command = [
            sys.executable,
            "-c",
            KILLED.replace('f"k', f'f"k{kills}-'),
            location,
            str(folder),
        ]
        with subprocess.Popen(command, env=environment, stdout=subprocess.PIPE, text=True) as child:
            assert child.stdout
            for _ in range(12 + 7 * kills):
                acknowledged.append(child.stdout.readline().split()[0])
            child.send_signal(signal.SIGKILL)
            acknowledged += [line.split()[0] for line in child.stdout]
    keys = sorted(set(acknowledged))
    assert len(keys) >= 20

    async def main() -> None:
        async with at(location, sagas.FolderBlobStore(folder), saga) as store:
            for key in keys:
                await store.complete(key, "sign")
                end = await store.wait(key, 120)
                assert end.ok and end.results["second"] == f"{key * 2000}12"

    run(main())
