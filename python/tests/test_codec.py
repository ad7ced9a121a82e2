"""A codec of inputs and results, over both kinds of database."""

from __future__ import annotations

import asyncio
import contextlib
import dataclasses
import datetime
import json
import os
import pathlib
import subprocess
import sys
import textwrap
from typing import Any

import pytest
from cases import QUICK, Task, run, simple, until
from cryptography.fernet import Fernet
from driving import program
from test_transactions import KILLED, prepare

import sagas
from sagas.cli import store_command
from sagas.runtime import client_starts
from sagas.storage import admin, codec_note

HERE = pathlib.Path(__file__).resolve().parent
SECRET = "4111-1111"
OLD, NEW = Fernet.generate_key(), Fernet.generate_key()


class Encryption:
    """Encrypt with the newest of its keys, whose id is stored with the data."""

    def __init__(self, **keys: bytes) -> None:
        self.keys, self.newest = keys, max(keys)

    def encode(self, data: bytes) -> bytes:
        return self.newest.encode() + b":" + Fernet(self.keys[self.newest]).encrypt(data)

    def decode(self, data: bytes) -> bytes:
        key, _, token = data.partition(b":")
        return Fernet(self.keys[key.decode()]).decrypt(token)


class Identity:
    """A codec that reads any data."""

    def encode(self, data: bytes) -> bytes:
        return data

    decode = encode


class Wrong:
    """A codec that fails, with the value in its text."""

    def __init__(self, fails: bool = True) -> None:
        self.fails = fails

    def encode(self, data: bytes) -> bytes:
        if self.fails:
            raise ValueError(data.decode())
        return data

    def decode(self, data: bytes) -> bytes:
        raise ValueError(data.decode())


KNOWN = Encryption(a=OLD, b=NEW)
"""The codec of `--app test_codec:KNOWN`."""


@dataclasses.dataclass
class Card:
    number: str


def shop() -> sagas.Saga:
    """Return a saga with the secret in its input, in each result and in an operator's report."""
    made = sagas.Saga("shop")

    @made.step(undo=1, keep=5)
    async def pay(task: sagas.Task[Card]) -> Card:
        assert task.input.number == SECRET
        return Card(task.input.number)

    @pay.compensation
    async def pay_back(task: sagas.Task[Card]) -> str:
        assert task.result.number == task.input.number == SECRET
        return SECRET

    @made.approval(needs=[pay], skip=9)
    async def check(task: Task) -> None:
        assert task.result_of(pay) == Card(SECRET)

    @made.step(needs=[check], skip=1, backoff=QUICK)
    def send(task: Task) -> Any:
        assert task.result_of(check) == {"card": SECRET} and task.input == {"number": SECRET}
        return [SECRET]

    return made


def holds_secret(location: str) -> list[str]:
    """Return the tables that have the secret in them somewhere."""
    tables = "sagas attempts suspensions operator_commands external_attempts event_log schedules"
    names = tables.split() + (["pending_starts"] if location.startswith("postgresql:") else [])
    with contextlib.closing(admin.connect(location)) as link:
        return [name for name in names if SECRET in repr(link.ask(f"SELECT * FROM {name}"))]


def test_nothing_of_a_value_is_stored(location: str, capsys: pytest.CaptureFixture[str]) -> None:
    """This holds across restarts.

    A newer key reads the data of an older one; callers and steps see values.
    """

    async def main() -> None:
        kind = shop()
        async with sagas.open(location, [kind], codec=Encryption(a=OLD)) as store:
            for key in ("well", "fails"):
                await store.start(kind, key, Card(SECRET))
            await until(lambda: approvals_pending(location) == 2)
        async with sagas.open(location, [kind], codec=Encryption(a=OLD, b=NEW)) as store:
            assert not (await store.start(kind, "well", Card(SECRET))).new
            with pytest.raises(sagas.KeyConflict):
                await store.start(kind, "well", Card("another"))
            await store.fail("fails", "check", "no", by="ann")
            for _ in range(2):  # the same report is one
                await store.complete("well", "check", {"card": SECRET}, by="ann")
            end = await store.wait("well")
            assert (
                end.ok and end.results["send"] == [SECRET] and end.result_of("pay") == Card(SECRET)
            )
            assert (await store.wait("fails")).states["pay"] == "undone"
            values = [event.value for event in await store.log("well") if event.event == "commit"]
            assert values == [{"number": SECRET}, {"card": SECRET}, [SECRET]]
            with pytest.raises(sagas.ConflictingReport):
                await store.complete("well", "check", {"card": "another"})
            hour = datetime.timedelta(hours=1)
            await store.schedule("n", kind, {"number": SECRET}, every=hour)
            assert [schedule.input for schedule in await store.schedules()] == [{"number": SECRET}]
        async with sagas.open(location, [kind], codec=Encryption(a=OLD, b=NEW)) as store:
            assert (await store.wait("well")).results["send"] == [SECRET]

    run(main())
    assert holds_secret(location) == []
    for word in ("show", "log", "export"):
        assert store_command.main([location, word, "well"]) == 4
        assert store_command.main([location, word, "well", "--app", "test_codec:KNOWN"]) == 0
        assert SECRET in capsys.readouterr().out
    for arguments in (["list"], ["plan", "fails"], ["draw", "well"], ["stats"], ["schedules"]):
        assert store_command.main([location, *arguments]) == 0  # they show no value
    assert SECRET not in capsys.readouterr().out


LOOKALIKES: list[Any] = [
    {"$codec": "AAAA"},
    {"$codec": "eyJhIjoxfQ=="},
    {"$plain": {"$codec": "AAAA"}},
    {"$blob": "00/1/ab", "bytes": 3, "digest": "0" * 64},
]
"""Values from outside that look like encoded ones."""


@pytest.mark.parametrize("codec", [None, Encryption(a=OLD)], ids=["plain", "codec"])
def test_a_value_that_looks_encoded_is_data(
    location: str, codec: Encryption | None, capsys: pytest.CaptureFixture[str]
) -> None:
    """This holds for each way in; also once the store has another codec, which could read it."""
    made = sagas.Saga("made")
    a = made.step(lambda task: task.input, name="a", undo=0)
    b = made.step(external=True, name="b", needs=[a], undo=0)
    early = made.approval(lambda task: None, name="early", needs=[b])
    late = made.approval(lambda task: None, name="late", needs=[early])
    made.step(
        lambda task: [task.result_of(step) for step in "a b early late".split()],
        needs=[late],
        name="all",
    )

    async def main() -> None:
        store = sagas.open(location, [made], codec=codec)
        store.leased = True
        hour = datetime.timedelta(hours=1)
        async with store:
            for number, value in enumerate(LOOKALIKES):
                assert (await store.start(made, key := f"k{number}", value)).new
                assert not (await store.start(made, key, value)).new
                await store.schedule("n", made, value, every=hour)
                assert [schedule.input for schedule in await store.schedules()] == [value]
                await store.complete(key, "early", value)
                (task,) = await until(
                    lambda: store.workers.claim([("made", "b", "run")], holder="w")
                )
                assert task.task.input == value and task.task.result_of("a") == value
                await store.workers.report(task.attempt_id, task.lease, value, holder="w")
                await until(lambda: approvals_pending(location) == number + 1)
        for value, key in zip(LOOKALIKES, ("k0", "k1")):
            arguments = [
                "--result",
                json.dumps(value),
                *(["--app", "test_codec:KNOWN"] if codec else []),
            ]
            assert store_command.main([location, "complete", key, "late", *arguments]) == 0
        async with sagas.open(location, [made], codec=codec or Identity()) as store:
            for number, value in enumerate(LOOKALIKES):
                await store.complete(f"k{number}", "late", value)
                end = await store.wait(f"k{number}")
                assert end.results["all"] == [value] * 4 and not await store.attention()
                values = [
                    event.value for event in await store.log(end.key) if event.event == "commit"
                ]
                assert values[:4] == [value] * 4

    run(main())
    capsys.readouterr()


def approvals_pending(location: str) -> int:
    with contextlib.closing(admin.connect(location)) as link:
        return len(link.ask("SELECT 1 FROM suspensions WHERE reason = 'approval'"))


def test_a_store_without_a_codec_before(location: str) -> None:
    """Values that were written without a codec can be read with one."""

    async def main() -> None:
        kind = shop()
        async with sagas.open(location, [kind]) as store:
            await store.start(kind, "k", Card(SECRET))
            await until(lambda: approvals_pending(location))
        async with sagas.open(location, [kind], codec=Encryption(a=OLD)) as store:
            assert not (await store.start(kind, "k", Card(SECRET))).new
            await store.complete("k", "check", {"card": SECRET})
            assert (await store.wait("k")).results["send"] == [SECRET]

    run(main())


def forget(location: str) -> None:
    """Remove the store's note that its values are encoded."""
    with contextlib.closing(admin.connect(location, "rw")) as link:
        assert link.changed("DELETE FROM secrets WHERE name = 'codec'") == 1


def test_a_forgotten_codec(location: str, capsys: pytest.CaptureFixture[str]) -> None:
    """The store is neither opened nor written. In a store without the note, an attempt waits."""
    made = sagas.Saga("made")
    ok = made.approval(lambda task: None, name="ok")
    calls = []

    @made.step(needs=[ok], undo=0)
    def mail(task: Task) -> None:
        calls.append(task.input)

    async def main() -> None:
        async with sagas.open(location, [made], codec=KNOWN) as store:
            for key in ("k", "gone"):
                await store.start(made, key, SECRET)
            await until(lambda: approvals_pending(location) == 2)
        with pytest.raises(sagas.MissingCodec, match="are encoded, and this program has no codec"):
            async with sagas.open(location, [made]):
                pass
        assert store_command.main([location, "complete", "k", "ok"]) == 4
        assert "encoded" in capsys.readouterr().err
        assert store_command.main([location, "abort", "gone"]) == 0  # it writes no value
        if location.startswith("postgresql:"):
            with pytest.raises(sagas.MissingCodec):
                async with sagas.Client(location):
                    pass
        forget(location)
        async with sagas.open(location, [made]) as store:
            assert (await store.wait("gone")).phase == "recovered"
            await store.complete("k", "ok")
            (entry,) = await until(store.attention)
            assert entry.why is sagas.AttentionReason.CANNOT_DECODE and entry.step == "mail"
            with pytest.raises(sagas.CannotDecode, match="no codec"):
                await store.start(made, "k", SECRET)
        assert calls == []
        async with sagas.open(location, [made], codec=KNOWN) as store:
            assert (await store.wait("k", 60)).ok and calls == [SECRET]

    run(main())


def test_nodes_and_clients_agree(url: str, caplog: pytest.LogCaptureFixture) -> None:
    """No program with a codec joins nodes without one, and no program without one stays."""
    kind = simple(lambda task: task.input)
    outside = sagas.Saga("outside")
    outside.approval(lambda task: None, name="ok")
    kinds = [kind, outside]

    async def main() -> None:
        async with sagas.open(url, kinds, node="plain", lease=2.0) as store:
            for opened in (sagas.open(url, kinds, codec=KNOWN), sagas.Client(url, codec=KNOWN)):
                with pytest.raises(
                    sagas.StoreLocked,
                    match="node plain .* without a codec, or is of an earlier release",
                ):
                    async with opened:
                        pass
            await store.start(outside, "o")
        async with sagas.Client(url) as plain:
            async with sagas.open(url, kinds, codec=KNOWN), sagas.Client(
                url, codec=KNOWN
            ) as client:
                for write in (
                    plain.start(kind, "k", SECRET),
                    plain.complete("o", "ok", SECRET),
                    plain.schedule("n", kind, SECRET, every=datetime.timedelta(hours=1)),
                ):
                    with pytest.raises(sagas.MissingCodec):
                        await write
                assert left(url) == [] and await plain.schedules() == []
                assert (await (await client.start(kind, "k", SECRET)).wait(60)).ok
                await client.complete("o", "ok", SECRET)
        forget(url)
        async with sagas.open(url, kinds, node="paused", lease=2.0) as store:
            # while it slept, for example
            with contextlib.closing(admin.connect(url, "rw")) as link:
                link.changed(codec_note.NOTE)
            await until(lambda: "This node does nothing more" in caplog.text)
            await until(lambda: not store._holds())

    run(main())
    assert holds_secret(url) == []


def test_a_missing_encryption_key(location: str, caplog: pytest.LogCaptureFixture) -> None:
    """The attempt waits and does not count as failed; it continues with the key."""

    async def main() -> None:
        kind = shop()
        async with sagas.open(location, [kind], codec=Encryption(a=OLD)) as store:
            await store.start(kind, "k", Card(SECRET))
            await until(lambda: approvals_pending(location))
        async with sagas.open(location, [kind], codec=Encryption(b=NEW)) as store:
            with pytest.raises(sagas.CannotDecode, match="the codec could not decode it: KeyError"):
                await store.start(kind, "k", Card(SECRET))
            await store.complete("k", "check", {"card": SECRET})
            (entry,) = await until(store.attention)
            assert entry.why is sagas.AttentionReason.CANNOT_DECODE and entry.step == "send"
        async with sagas.open(location, [kind], codec=Encryption(a=OLD, b=NEW)) as store:
            assert (await store.wait("k", 60)).ok

    run(main())
    assert SECRET not in caplog.text


def test_a_codec_that_fails(tmp_path: pathlib.Path, caplog: pytest.LogCaptureFixture) -> None:
    """No saga is started; a result that cannot be encoded is kept as one that is not JSON."""
    codec = Wrong()

    async def main() -> None:
        async with sagas.open(tmp_path / "store.db", [kind], codec=codec) as store:
            with pytest.raises(sagas.NotSerializable, match="could not encode it: ValueError$"):
                await store.start(kind, "k", SECRET)
            assert await store.count() == 0
            codec.fails = False
            await store.start(kind, "k", None)

    def a(task: Task) -> str:
        codec.fails = True
        return SECRET

    kind = simple(a)
    run(main())
    assert SECRET not in caplog.text
    for wrong in ("aes", object()):
        with pytest.raises(TypeError, match="codec="):
            sagas.open("x.db", [kind], codec=wrong)  # type: ignore[arg-type]


def test_a_client_and_a_worker(url: str) -> None:
    """A client has the codec, too; workers over HTTP exchange plain values."""
    made = sagas.Saga("made")
    step = made.step(external=True, name="a")
    step.compensation(external=True)

    async def main() -> None:
        codec = Encryption(a=OLD)
        async with sagas.open(url, [made]):
            pass
        async with sagas.Client(url, codec=codec) as client:
            for new in (True, False):
                assert (await client.start(made, "k", {"card": SECRET})).new is new
            assert holds_secret(url) == []
            store = sagas.open(url, [made], codec=codec)
            store.leased = True
            async with store:
                (task,) = await until(
                    lambda: store.workers.claim([("made", "a", "run")], holder="w")
                )
                assert task.task.input == {"card": SECRET}
                await store.workers.report(task.attempt_id, task.lease, [SECRET], holder="w")
                assert (await client.wait("k")).results == {"a": [SECRET]}
                assert (await store.wait("k")).result_of(step) == [SECRET]

    run(main())
    assert holds_secret(url) == []


def test_a_result_of_a_worker_is_never_plain(location: str) -> None:
    """It is not plain in the store's table before its node takes it over, nor in a file after that.

    The same report again is one, and another one is refused.
    """
    made = sagas.Saga("made")
    made.step(external=True, name="a", undo=0)

    async def main() -> None:
        store = sagas.open(location, [made], codec=Encryption(a=OLD))
        store.leased = True
        async with store:
            await store.start(made, "k", None)
            (task,) = await until(lambda: store.workers.claim([("made", "a", "run")], holder="w"))

            async def report(result: Any) -> bool:
                return await store.workers.report(task.attempt_id, task.lease, result, holder="w")

            table: Any = store._access.coordinator.store.external
            seen, keep = list[str](), table.report

            async def kept(token: str, lease: int, outcome: str, value: str) -> Any:
                seen.append(value)
                shard = await keep(token, lease, outcome, value)
                if len(seen) == 1:  # the node does not take it over yet
                    assert not await report([SECRET])
                    with pytest.raises(sagas.ConflictingReport):
                        await report(["another"])
                return shard

            table.report = kept
            assert await report([SECRET])
            assert (await store.wait("k")).results == {"a": [SECRET]}
            assert not await report([SECRET])
            assert len(seen) == 4 and SECRET not in "".join(seen)

    run(main())
    assert holds_secret(location) == []
    if not location.startswith("postgresql:"):
        for path in pathlib.Path(location).parent.glob("store.db*"):
            assert SECRET.encode() not in path.read_bytes()


def test_a_start_that_a_node_cannot_decode(url: str, monkeypatch: pytest.MonkeyPatch) -> None:
    """It is left to a node that can: it blocks no other start, and can be aborted."""
    monkeypatch.setattr(client_starts, "MANY", 2)
    kind = simple(lambda task: task.input)
    whole = Encryption(a=OLD, b=NEW)

    async def main() -> None:
        async with sagas.open(url, [kind], codec=Encryption(a=OLD)) as store:
            async with sagas.Client(url, codec=whole) as client:
                for key in ("k0", "k1", "k2"):
                    await client.start(kind, key, SECRET)
                async with sagas.Client(url, codec=Encryption(a=OLD)) as older:
                    assert (await (await older.start(kind, "old", 1)).wait(30)).ok
                async with asyncio.timeout(30):
                    assert await client.abort("k2")
                    waits = [key for key, *_ in await asyncio.to_thread(left, url)]
                    assert waits == ["k0", "k1"] and not await store.attention()
                async with sagas.open(url, [kind], codec=whole):
                    for key in ("k0", "k1"):
                        assert (await client.wait(key, 60)).results == {"a": SECRET}

    run(main())


def left(url: str) -> list[tuple[Any, ...]]:
    """Return the starts that no node has."""
    with contextlib.closing(admin.connect(url)) as link:
        return link.starts()


def test_in_a_test_without_a_store() -> None:
    """The simulation encodes and decodes as a store does."""
    codec = Encryption(a=OLD)
    trial = sagas.testing.run(
        shop(), Card(SECRET), answers={"check": {"card": SECRET}}, codec=codec
    )
    assert trial.ok and trial.results["send"] == [SECRET]
    with pytest.raises(sagas.NotSerializable):
        sagas.testing.run(shop(), Card(SECRET), codec=Wrong())


def test_a_result_of_a_transaction_is_encoded_once(url: str, tmp_path: pathlib.Path) -> None:
    """This holds also if its program was killed before it reported the step."""
    prepare(url)
    script = KILLED.format(url=url).replace(
        'node="killed"', f'node="killed", codec=test_codec.Encryption(a={OLD!r})'
    )
    (file := tmp_path / "killed.py").write_text("import test_codec\n" + textwrap.dedent(script))
    path = f"{HERE.parent / 'src'}:{HERE}"
    environment = {**os.environ, "PYTHONPATH": path, "SAGAS_PROGRAM": program()}
    killed = subprocess.run([sys.executable, str(file)], env=environment, check=False)
    assert killed.returncode == 9
    kind = sagas.Saga("one")

    @kind.step(transaction=True)
    async def book(task: Task) -> None:
        raise sagas.Fail("it is called again")

    async def main() -> None:
        async with sagas.open(url, [kind], node="killed", codec=Encryption(a=OLD)) as store:
            assert (await store.wait("k")).results == {"book": "booked"}

    run(main())


DRIVER = """
    import asyncio, sagas, test_codec
    async def main():
        kind, codec = test_codec.shop(), test_codec.Encryption(a={key!r})
        async with sagas.open({path!r}, [kind], codec=codec, lease=2.0) as store:
            for number in range(99):
                await store.start(kind, f"k{{number}}", test_codec.Card(test_codec.SECRET))
                print("began", flush=True)
    asyncio.run(main())
"""


def test_a_killed_programs_values_are_read(location: str, tmp_path: pathlib.Path) -> None:
    """Whatever was in progress, each started saga has its input and its results."""
    (file := tmp_path / "driver.py").write_text(
        textwrap.dedent(DRIVER.format(path=location, key=OLD))
    )
    path = f"{HERE.parent / 'src'}:{HERE}"
    environment = {**os.environ, "PYTHONPATH": path, "SAGAS_PROGRAM": program()}
    with subprocess.Popen(
        [sys.executable, "-u", str(file)], stdout=subprocess.PIPE, text=True, env=environment
    ) as process:
        assert process.stdout
        for _ in range(30):
            assert process.stdout.readline() == "began\n"
        process.kill()

    async def main() -> None:
        async with sagas.open(location, [shop()], codec=Encryption(a=OLD), lease=2.0) as store:
            listed = await store.list(limit=200)
            assert len(listed) >= 30
            for summary in listed:
                await store.complete(summary.key, "check", {"card": SECRET})
            for summary in listed:
                assert (await store.wait(summary.key)).results["send"] == [SECRET]

    run(main())
    assert holds_secret(location) == []
