"""Restarts of ended sagas, under new keys: what the new saga has, how the two refer to each other,
and which program executes the command.
"""

from __future__ import annotations

import asyncio
import datetime
import getpass
import pathlib
from typing import Any

import pytest
from cases import Task, run, until
from test_command import Shell

import sagas
from sagas.cli.snapshot import Snapshot
from sagas.inspection.views import RestartLink
from sagas.storage import queries
from sagas.storage.folder_blobs import FolderBlobStore

LABELS = {"customer": "7", "shop": "north"}


def shop(calls: list[Any], version: int = 1, step: str = "charge") -> list[sagas.Saga[Any]]:
    """Return a saga that recovers or completes by its input, and its child."""
    part, saga = sagas.Saga("part"), sagas.Saga("order", version=version)
    part.step(name="pack")(lambda task: None)

    def charge(task: Task) -> str:
        calls.append((step, task.key, task.input, task.idempotency_key))
        return "paid"

    paid = saga.step(name=step, undo=1, keep=9)(charge)
    paid.compensation(lambda task: None)
    box = saga.child(part, name="box", input=lambda task: None)

    @saga.step(needs=[paid, box])
    def send(task: Task) -> None:
        if task.input["end"] == "recovered":
            raise sagas.Fail("sold out")

    return [saga, part]


def licence(gate: asyncio.Event | None = None, inputs: list[Any] | None = None) -> sagas.Saga[Any]:
    """Return a saga that is stuck once a gate is open."""
    saga = sagas.Saga("licence")
    server = saga.step(name="server", undo=sagas.NEVER, skip=sagas.NEVER)(lambda task: 1)

    @saga.step(needs=[server], undo=sagas.NEVER, skip=sagas.NEVER)
    async def key(task: Task) -> None:
        if gate is not None:
            await gate.wait()
        if inputs is not None:
            inputs.append(task.input)
        raise sagas.Fail("no")

    return saga


async def ended(store: Any, saga: sagas.Saga[Any], key: str, end: str, **options: Any) -> None:
    """Start a saga and wait for its end."""
    begun = await store.start(saga, key, {"end": end}, **options)
    assert (await begun.wait(60)).phase == end


def test_the_new_saga_has_the_input_and_labels_of_the_old_one(
    location: str, capsys: pytest.CaptureFixture[str]
) -> None:
    """The pages of both refer to the other. Calls at once, and repeated ones, are one saga."""
    calls, shell = list[Any](), Shell(location, capsys)
    (saga, part), gate = shop(calls), asyncio.Event()
    other = licence(gate)

    async def main() -> None:
        async with sagas.open(location, [saga, part, other], shutdown_timeout=1) as store:
            await ended(store, saga, "k", "recovered", labels=LABELS)
            runs = await asyncio.gather(
                *(store.restart("k", "k-2", by="ada", note="in stock") for _ in range(3))
            )
            assert sorted(begun.new for begun in runs) == [False, False, True]
            assert (await runs[0].wait(60)).phase == "recovered"
            assert (await store.restart("k", "k-2")).new is False
            (first, second) = [call for call in calls if call[0] == "charge"]
            assert second[:3] == ("charge", "k-2", {"end": "recovered"}) and first[3] != second[3]
            assert (await store.restart("k-2", "k-3")).new  # a restart of a restart
            assert (await store.wait("k-3", 60)).phase == "recovered"
            assert (await store.restart("k", "k-b")).new  # one more of the first saga
            listed = {entry.key: entry.labels for entry in await store.list(limit=20)}
            assert listed["k-2"] == listed["k-2/:box"] == listed["k"] == LABELS
            # what cannot be restarted, and keys that are taken
            await ended(store, saga, "good", "completed")
            await ended(store, saga, "same", "recovered")
            await store.start(other, "open", None)
            for key, new_key, error, text in (
                ("good", "x", sagas.NotRestartable, "has completed. Start a new saga"),
                ("open", "x", sagas.NotRestartable, "is open. Wait for its end, or abort it"),
                ("k/:box", "x", sagas.NotRestartable, "Restart 'k' instead"),
                ("none", "x", sagas.NoSuchSaga, "no saga has the key"),
                ("k", "same", sagas.KeyConflict, "not a restart of 'k'"),
                ("k", "k", sagas.KeyConflict, "not a restart of 'k'"),
                ("same", "k-2", sagas.KeyConflict, "not a restart of 'same'"),
                ("k", "good", sagas.KeyConflict, "with another input"),
                ("k", "open", sagas.KeyConflict, "belongs to a saga 'licence'"),
                ("k", "a/:b", sagas.InvalidKey, "only keys of child sagas"),
            ):
                with pytest.raises(error, match=text):
                    await store.restart(key, new_key)
            gate.set()
            assert (await store.wait("open", 60)).phase == "stuck"
            assert (await store.restart("open", "stuck-2")).new
            assert (await store.wait("stuck-2", 60)).phase == "stuck"
            await store.resolve("open", "by hand")
            assert (await store.restart("open", "resolved-2")).new
            assert (await store.wait("resolved-2", 60)).phase == "stuck"
            assert all(verdict.startswith("yes") for verdict in (await store.audit()).values())

    run(main())
    old, new = shell.json("show", "k"), shell.json("show", "k-2")
    assert (old["restart_of"], new["restart_of"]) == (None, "k")
    assert [link["key"] for link in old["restarts"]] == ["k-2", "k-b"]
    assert new["restarts"] == [{"key": "k-3", "saga": "order", "phase": "recovered"}]
    assert new["labels"] == LABELS and "restarts k\nrestart  k-3 (recovered)" in shell(
        "show", "k-2"
    )
    (note, _) = [event["value"] for event in shell.json("log", "k") if event["event"] == "note"]
    assert "restart as k-2 by ada: in stock" in shell("log", "k")
    expected = {"what": "restart", "by": "ada", "note": "in stock", "new_key": "k-2"}
    assert note == expected | {"answer": True}
    assert "=restart" not in shell("list", "--label", "custmer=7", "--json")


def test_the_definition_is_the_one_of_today(location: str) -> None:
    """That of the same name and version. Without it, the saga is not restarted."""
    calls = list[Any]()
    first, changed, later = shop(calls), shop(calls, step="pay"), shop(calls, version=2)

    async def main() -> None:
        async with sagas.open(location, first) as store:
            await ended(store, first[0], "k", "recovered")
        async with sagas.open(location, changed) as store:
            await (await store.restart("k", "k-2")).wait(60)
            assert calls[-1][:2] == ("pay", "k-2")
        async with sagas.open(location, later) as store:
            with pytest.raises(sagas.DefinitionError, match="has 'order' of version 1"):
                await store.restart("k", "k-3")
            assert await store.get("k-3") is None
        async with sagas.open(location, first, accept_new=False) as store:
            with pytest.raises(sagas.Closed):
                await store.restart("k", "k-3")

    run(main())


class Reverse:
    """A codec."""

    def encode(self, data: bytes) -> bytes:
        return data[::-1]

    decode = encode


def test_a_deleted_saga_leaves_its_restart(location: str, tmp_path: pathlib.Path) -> None:
    """The input was encoded again, as another blob. The free key of the old one means another."""
    inputs, large = list[Any](), {"text": "x" * 3000}
    saga, folder = licence(None, inputs), FolderBlobStore(tmp_path / "blobs")
    nothing = datetime.timedelta(0)
    options: dict[str, Any] = {"codec": Reverse(), "blobs": folder, "blob_threshold": 1000}

    async def main() -> None:
        async with sagas.open(location, [saga], **options) as store:
            assert (await (await store.start(saga, "k", large)).wait(60)).phase == "stuck"
            await store.resolve("k", "by hand")
        async with sagas.open(location, [saga], **options) as store:
            assert (await (await store.restart("k", "k-2")).wait(60)).phase == "stuck"
        async with sagas.open(location, [saga], retention=nothing, **options) as store:
            await until(lambda: is_deleted(store))
            await (await store.start(saga, "k", large)).wait(60)
            with pytest.raises(sagas.KeyConflict, match="not a restart"):
                await store.restart("k", "k-2")
            assert (await store.restart("k-2", "k-3")).new  # its own input is still there
            await store.wait("k-3", 60)
        assert inputs == [large] * 4

    async def is_deleted(store: sagas.Store) -> bool:
        return await store.get("k") is None

    run(main())
    with Snapshot(location, lambda text: None) as snapshot:
        new, old = snapshot.saga("k-2"), snapshot.saga("k")
    assert (new.restart_of, old.restarts) == (RestartLink("k", "licence", None), [])


def test_a_saga_that_is_erased_during_its_restart(
    location: str, monkeypatch: pytest.MonkeyPatch
) -> None:
    """Its input was read before, and its labels are gone: nothing is started without them."""
    definitions = shop([])

    async def main() -> None:
        async with sagas.open(location, definitions) as store:
            await ended(store, definitions[0], "k", "recovered", labels=LABELS)
            database = store._access.coordinator.store
            read = database.read

            async def overtaken(query: str, *parameters: Any) -> list[tuple[Any, ...]]:
                if query == queries.LABELS_OF:
                    await store.erase("k")
                return await read(query, *parameters)

            monkeypatch.setattr(database, "read", overtaken)
            with pytest.raises(sagas.NotRestartable, match="'k' was erased"):
                await store.restart("k", "k-2")
            assert await store.get("k-2") is None

    run(main())


def test_a_command_waits_for_a_program(location: str, capsys: pytest.CaptureFixture[str]) -> None:
    """`sagas store STORE restart` is executed by the next program that has the definition."""
    calls, shell = list[Any](), Shell(location, capsys)
    definitions = shop(calls)

    async def main() -> None:
        async with sagas.open(location, definitions) as store:
            await ended(store, definitions[0], "k", "recovered")
            await ended(store, definitions[0], "good", "completed")
        output = await asyncio.to_thread(shell, "restart", "k", "k-2", "--note", "again")
        assert "k: requested; it takes effect when a program has the store open" in output
        for arguments, status in (
            (("none", "x"), 1),
            (("good", "x"), 1),
            (("k/:box", "x"), 1),
            (("k", "a/:b"), 2),
        ):
            await asyncio.to_thread(shell, "restart", *arguments, status=status)
        async with sagas.open(location, definitions) as store:
            await until(lambda: store.get("k-2"))
            assert (await store.wait("k-2", 60)).phase == "recovered"
            output = await asyncio.to_thread(shell, "restart", "k", "k-2")
            assert output == "k: restarted as k-2\n"
            await asyncio.to_thread(shell, "restart", "k", "good", status=1)
            # a program that died before the command was stored: the repeated call stores it
            await store.restart("k", "k-3", by="ada")
            await store.restart("k", "k-3", by="bob")
        notes = [event["value"] for event in shell.json("log", "k") if event["event"] == "note"]
        restarts = [(note["new_key"], note.get("by"), note["answer"]) for note in notes]
        assert restarts.count(("k-3", "ada", True)) == 1 and len(restarts) == 4
        assert restarts[0] == ("k-2", getpass.getuser(), True) and notes[0]["note"] == "again"

    run(main())


def test_a_node_that_has_the_definition_executes_it(url: str) -> None:
    """Clients ask the nodes. Without such a node, the call is refused and starts nothing."""
    calls = list[Any]()
    saga, part = shop(calls)

    async def main() -> None:
        async with sagas.open(url, [licence()], node="other") as other:
            async with sagas.open(url, [saga, part], node="owner") as owner:
                await ended(owner, saga, "k", "recovered", labels=LABELS)
                async with sagas.Client(url) as client:
                    begun = await client.restart("k", "k-2", by="ada")
                    assert begun.new and (await begun.wait(60)).phase == "recovered"
                    assert not (await client.restart("k", "k-2")).new
                    for key, error in (
                        ("none", sagas.NoSuchSaga),
                        ("k/:box", sagas.NotRestartable),
                    ):
                        with pytest.raises(error):
                            await client.restart(key, "x")
                    await client.start(sagas.Saga("absent"), "pending")
                    with pytest.raises(sagas.NotRestartable, match="is open"):
                        await client.restart("pending", "x")
                    with pytest.raises(sagas.KeyConflict):
                        await client.restart("k", "pending")
                assert (await other.restart("k", "k-3")).new
                assert (await other.wait("k-3", 60)).phase == "recovered"
                await asyncio.to_thread(in_thread)
            with pytest.raises(sagas.DefinitionError, match="no program that has the store open"):
                await other.restart("k", "k-4")
            async with sagas.Client(url) as client:
                with pytest.raises(sagas.DefinitionError):
                    await client.restart("k", "k-4")
                assert await client.get("k-4") is None

    def in_thread() -> None:
        with sagas.SyncClient(url) as client:
            assert client.restart("k", "k-5").wait(60).phase == "recovered"

    run(main())
    assert sorted(call[1] for call in calls) == ["k", "k-2", "k-3", "k-5"]


def test_without_async(tmp_path: pathlib.Path) -> None:
    """`open_sync` has the same call."""
    saga = licence()
    with sagas.open_sync(tmp_path / "store.db", [saga]) as store:
        assert store.start(saga, "k").wait(60).phase == "stuck"
        assert store.restart("k", "k-2", by="ada").wait(60).phase == "stuck"
