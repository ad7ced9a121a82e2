"""Erasing the data of one saga, over both kinds of database."""

from __future__ import annotations

import asyncio
import contextlib
import json
import pathlib
from collections.abc import Callable
from typing import Any

import pytest
from cases import QUICK, Task, run, until
from test_codec import NEW, Encryption
from test_command import Shell

import sagas
from sagas.core.shard.batch import SagaRow
from sagas.storage import admin
from sagas.storage.folder_blobs import FolderBlobStore

SECRET = "jane-doe-4711"
TABLES = (
    *("sagas", "attempts", "labels", "shapes", "suspensions", "attempt_spans", "progress"),
    *("operator_commands", "external_attempts", "children", "event_log", "definitions"),
)


def shop() -> list[sagas.Saga]:
    """Return a saga whose every value has the secret, and its child."""
    room = sagas.Saga("room")

    @room.step(undo=1, keep=9)
    def book(task: Task) -> Any:
        return {"for": task.input}

    @book.compensation
    def cancel(task: Task) -> None:
        return None

    pay = sagas.Saga("pay")

    @pay.step(undo=1, keep=9, tries=2, backoff=QUICK)
    def charge(task: Task) -> Any:
        if task.attempt == 1:
            raise sagas.Retry(f"busy: {task.input['name']}")
        return {"card": task.input["name"]}

    @charge.compensation
    def refund(task: Task) -> None:
        return None

    @pay.step(undo=sagas.NOTHING, optional=True, tries=1)
    def thank(task: Task) -> None:
        raise sagas.Fail(f"no mail for {task.input['name']}")

    pay.child(room, name="stay", input=lambda task: task.input["name"], needs=[charge])

    @pay.step(undo=sagas.NOTHING, needs=[charge], for_each=lambda input: input["items"], tries=1)
    def ship(task: Task) -> Any:
        if task.item == "bad":
            raise sagas.Fail(f"sold out: {SECRET}")
        return task.item

    return [pay, room]


def order(*items: str) -> dict[str, Any]:
    return {
        "name": SECRET,
        "items": {f"{SECRET}-{number}": item for number, item in enumerate(items)},
    }


def rows_with(location: str, text: str) -> list[str]:
    """Return the tables that have a text in a row."""
    tables = []
    with contextlib.closing(admin.connect(location)) as link:
        for table in TABLES:
            if any(text in str(row) for row in link.ask(f"SELECT * FROM {table}")):
                tables.append(table)
    return tables


@pytest.mark.parametrize("how", ["completed", "recovered", "encrypted", "blobs"])
def test_nothing_of_a_saga_is_left(location: str, tmp_path: pathlib.Path, how: str) -> None:
    """Its children are erased, too; its events, its plan and who did what stay."""
    options: dict[str, Any] = {"codec": Encryption(a=NEW)} if how == "encrypted" else {}
    if how == "blobs":
        options |= {"blobs": sagas.FolderBlobStore(tmp_path / "blobs"), "blob_threshold": 256}
    value = order("a", "bad") if how == "recovered" else order("a", "b" * 400)

    async def main() -> None:
        async with sagas.open(location, shop(), **options) as store:
            pay = store.sagas[0]
            kept = await (
                await store.start(pay, "kept", {"name": "bo", "items": {"x": "y"}})
            ).wait()
            first = await store.start(pay, "k", value, labels={"name": SECRET})
            before = await first.wait(60)
            assert before.erased is None and rows_with(location, SECRET)
            plan = await store.plan("k")
            with pytest.raises(sagas.NotErasable, match="is a child. Erase 'k'"):
                await store.erase("k/:stay")
            with pytest.raises(sagas.NoSuchSaga):
                await store.erase("other")
            assert await store.erase("k", by="ada") and not await store.erase("k", by="bo")
            for path in (tmp_path / "blobs").rglob("*"):
                assert not path.is_file() or SECRET.encode() not in path.read_bytes()
            after = await store.wait("k")
            assert after.erased and after.erased.by == "ada" and "by ada" in after.erased.text
            assert (after.phase, after.states, after.results) == (before.phase, before.states, {})
            assert set(after.errors) == set(before.errors)
            assert {*after.errors.values()} <= {"erased"}
            assert rows_with(location, SECRET) == []
            assert (await store.plan("k") is None) is (plan is None)
            events = [event.event for event in await store.log("k")]
            assert "commit" in events and "note" not in events
            assert (await store.wait("k/:stay")).erased
            assert (await store.wait("kept")).results == kept.results
            with pytest.raises(sagas.KeyConflict, match="whose data was erased"):
                await store.start(pay, "k", value)
            with pytest.raises(sagas.NotRestartable):
                await store.restart("k", "again")
            assert await store.list(labels={"name": SECRET}) == []
            assert all(text.startswith("yes") for text in (await store.audit()).values())
        async with sagas.open(location, shop(), **options) as store:
            assert (await store.wait("k")).erased and (await store.wait("kept")).ok

    run(main())
    if not location.startswith("postgresql"):
        for part in ("", "-wal", "-shm"):
            path = pathlib.Path(location + part)
            assert not path.exists() or SECRET.encode() not in path.read_bytes(), part


def test_what_is_not_erased(location: str) -> None:
    """Open sagas, and those whose data an operator still reads."""
    stuck = sagas.Saga("stuck")

    @stuck.step(undo=sagas.NEVER)
    def first(task: Task) -> None:
        return None

    @stuck.step(needs=[first], undo=sagas.NEVER, skip=sagas.NEVER, tries=1)
    def second(task: Task) -> None:
        raise sagas.Fail(SECRET)

    slow = sagas.Saga("slow")

    @slow.approval
    def sign(task: Task) -> None:
        return None

    async def main() -> None:
        async with sagas.open(location, [stuck, slow]) as store:
            await store.start(slow, "open")
            with pytest.raises(sagas.NotErasable, match="is open"):
                await store.erase("open")
            assert (await (await store.start(stuck, "s")).wait(60)).phase == "stuck"
            with pytest.raises(sagas.NotErasable, match="needs an operator"):
                await store.erase("s")
            await store.resolve("s", f"called {SECRET}", by="ada")
            assert await store.erase("s")
            end = await store.wait("s")
            assert (end.phase, end.note, end.errors) == ("resolved", "erased", {"second": "erased"})
            assert rows_with(location, SECRET) == []
            await store.abort("open")

    run(main())


def test_an_end_that_is_read_during_an_erasure_is_erased(location: str) -> None:
    """Its row is read before, and its results after: no result is a mark."""

    async def main() -> None:
        async with sagas.open(location, shop()) as store:
            pay = store.sagas[0]
            await (await store.start(pay, "k", order("a"))).wait(60)
            row = await store._lookup.whole("k")
            assert isinstance(row, SagaRow)
            assert await store.erase("k", by="ada")
            end = await store._lookup._end_of(row)
            assert end.erased and end.erased.by == "ada" and end.results == {}

    run(main())


class ErasedDuringRead(FolderBlobStore):
    """A blob store in which a saga is erased before its first value is read."""

    erase: Callable[[], Any] | None = None

    def get(self, key: str, /) -> bytes:
        """As of `FolderBlobStore`, after the erasure."""
        erase, self.erase = self.erase, None
        if erase is not None:
            erase()
        return super().get(key)


def test_an_end_is_erased_if_its_blobs_are_during_the_read(
    location: str, tmp_path: pathlib.Path
) -> None:
    """Its results are read before, and their blobs after."""
    blobs = ErasedDuringRead(tmp_path / "blobs")

    async def main() -> None:
        options = {"blobs": blobs, "blob_threshold": 256}
        async with sagas.open(location, shop(), **options) as store:
            large = order("a") | {"name": SECRET * 30}
            await (await store.start(store.sagas[0], "k", large)).wait(60)
            row = await store._lookup.row("k")
            loop = asyncio.get_running_loop()

            def erase() -> None:
                asyncio.run_coroutine_threadsafe(store.erase("k", by="ada"), loop).result(60)

            blobs.erase = erase
            end = await store._lookup._end_of(row)
            assert blobs.erase is None
            assert end.erased and end.erased.by == "ada" and end.results == {}

    run(main())


def test_two_operators_erase_at_once(location: str) -> None:
    """One of them erases it, and there is one decision."""

    async def main() -> None:
        async with sagas.open(location, shop()) as store:
            for number in range(4):
                await (await store.start(store.sagas[0], f"k{number}", order("a"))).wait(60)
            works = [store.erase(f"k{number}", by="ada") for number in range(4) for _ in "12"]
            done = await asyncio.gather(*works)
            assert [sum(done[at : at + 2]) for at in range(0, 8, 2)] == [1, 1, 1, 1]
        with contextlib.closing(admin.connect(location)) as link:
            query = "SELECT key FROM operator_commands WHERE command = 'erase' ORDER BY key"
            keys = [key for (key,) in link.ask(query)]
            assert keys == [f"k{number}{below}" for number in range(4) for below in ("", "/:stay")]

    run(main())


def test_a_value_that_looks_erased_is_plain(location: str) -> None:
    value = {"$erased": {"at": 1, "by": "bo"}}

    async def main() -> None:
        saga = sagas.Saga("same")

        @saga.step(undo=sagas.NOTHING)
        def same(task: Task) -> Any:
            return task.input

        async with sagas.open(location, [saga]) as store:
            end = await (await store.start(saga, "k", value)).wait(60)
            assert end.results == {"same": value}
            assert (await store.wait("k")).results == {"same": value}
            assert not (await store.start(saga, "k", value)).new

    run(main())


def test_the_command_erases(location: str, capsys: pytest.CaptureFixture[str]) -> None:
    """Also while no program has the store open. It asks before."""
    with sagas.open_sync(location, shop()) as store:
        assert store.start(store.sagas[0], "k", order("a")).wait(60).ok
    shell = Shell(location, capsys)
    shell("erase", "k", status=1)
    shell("erase", "none", "--yes", status=1)
    assert SECRET in shell("show", "k")
    done = shell.json("erase", "k", "--yes", "--by", "ada")
    assert done == {"key": "k", "erased": ["k", "k/:stay"], "new": True}
    assert shell("erase", "k", "--yes") == "k: was erased before\n"
    shown = shell("show", "k") + shell("log", "k") + shell("export", "k")
    assert SECRET not in shown and "erased" in shown and "ada" in shown
    shell("audit")
    assert json.loads(shell("export", "k"))["input"] == {
        "$erased": {"at": pytest.approx(0, abs=4e9), "by": "ada"}
    }
    with sagas.open_sync(location, shop()) as store:
        assert store.wait("k").erased
