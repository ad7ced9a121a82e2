"""Ended sagas are deleted from shards that remain, with all sagas below them, over both kinds of
database.
"""

from __future__ import annotations

import asyncio
import contextlib
import datetime
import json
import os
import pathlib
import signal
import subprocess
import sys
import textwrap
from typing import Any

import pytest
from cases import Task, ended, run, until
from driving import audit as audit_of, program
from test_codec import NEW, Encryption
from test_command import Shell
from kills import children
from test_retention import HERE, MONTH, change

import sagas
from sagas.base.errors import NoSuchSaga
from sagas.cli import store_command
from sagas.runtime import retention
from sagas.storage import admin, archive, families, family_archive
from sagas.storage.folder_blobs import FolderBlobStore

Json = dict[str, Any]
DAY = 86400.0
ROWS = ("sagas", "labels", "attempts", "suspensions", "shapes", "children", "operator_commands")
"""The tables of rows that a deletion of sagas leaves empty."""
WAITS = "SELECT 1 FROM pg_stat_activity WHERE wait_event_type = 'Lock'"
"""Whether a statement waits for a lock of a row."""


def review(calls: list[str] | None = None) -> sagas.Saga:
    """Return a saga that waits for an approval if its input says so."""
    saga = sagas.Saga("review")

    @saga.step(undo=1, keep=9)
    async def take(task: Task) -> Any:
        if calls is not None:
            calls.append(task.key)
        return {"of": task.key}

    @take.compensation
    async def give(task: Task) -> None:
        return None

    @saga.approval(needs=[take], when=lambda input: input == "wait")
    def sign(task: Task) -> None:
        return None

    @saga.step(needs=[take], undo=sagas.NOTHING)
    async def pay(task: Task) -> int:
        if task.input == "fails":
            raise sagas.Fail("refused")
        return 1

    return saga


def trip() -> list[sagas.Saga]:
    """Return a saga with a child and a grandchild, which undoes them if its input is true."""
    room, hotel, trip = sagas.Saga("room"), sagas.Saga("hotel"), sagas.Saga("trip")
    key = room.step(name="key", keep=9)(lambda task: "key")
    key.compensation(lambda task: None)
    hotel.child(room, name="room", input=lambda task: None)
    stay = trip.child(hotel, name="stay", input=lambda task: None)

    @trip.step(needs=[stay])
    def tour(task: Task) -> None:
        if task.input == "fails":
            raise sagas.Fail("sold out")

    trip.approval(name="sign", needs=[stay], when=lambda input: input == "wait")(lambda task: None)
    return [trip, hotel, room]


def age(location: str, *keys: str, days: int = 40) -> None:
    """Set the time at which all ended sagas ended, or those whose keys begin with one of these."""
    condition = " OR ".join(f"key LIKE '{key}%'" for key in keys) or "1 = 1"
    change(location, f"UPDATE sagas SET ended = ended - {days} * 86400.0 WHERE {condition}")


def rows(location: str, query: str) -> list[tuple[Any, ...]]:
    """Return the rows of a query."""
    with contextlib.closing(admin.connect(location)) as link:
        return [tuple(row) for row in link.ask(query)]


def keys(location: str) -> set[str]:
    """Return the keys of the store."""
    return {key for (key,) in rows(location, "SELECT key FROM sagas")}


def marks(location: str) -> set[int]:
    """Return the ids of the sagas that are marked as deleted."""
    return {id for (id,) in rows(location, "SELECT id FROM deleted_sagas")}


def is_good(location: str, capsys: pytest.CaptureFixture[str]) -> bool:
    """Return whether the audit of each shard is good."""
    capsys.readouterr()
    status = store_command.main([location, "audit", "--json"])
    reports = json.loads(capsys.readouterr().out)
    assert status == (0 if all(report["good"] for report in reports) else 1)
    return status == 0


def differences(location: str, capsys: pytest.CaptureFixture[str]) -> list[str]:
    """Return the differences that an audit lists."""
    capsys.readouterr()
    assert store_command.main([location, "audit", "--json"]) == 1
    reports = json.loads(capsys.readouterr().out)
    return [line for report in reports for line in report["differences"]]


@pytest.mark.parametrize("is_open", [True, False])
def test_one_saga_that_waits_keeps_no_other(
    location: str, is_open: bool, capsys: pytest.CaptureFixture[str]
) -> None:
    """An approval waits, and a hundred others have ended: these are deleted, while the store is
    open or closed. The shard accepts more sagas, is loaded again, and the approval continues.
    """
    calls = list[str]()
    kind = review(calls)
    count = 100

    async def prune() -> retention.Pruned:
        age(location)
        return await asyncio.to_thread(retention.prune, location, MONTH)

    async def main() -> None:
        async with sagas.open(location, [kind]) as store:
            await store.start(kind, "w", "wait")
            await asyncio.gather(
                *(
                    ended(store, kind, f"k{number}", "fails" if number % 10 == 0 else None)
                    for number in range(count)
                )
            )
            if is_open:
                assert (await prune()).families == count
                assert keys(location) == {"w"} and len(marks(location)) == count
                await ended(store, kind, "more")
        if not is_open:
            assert (await prune()).families == count
        assert is_good(location, capsys)
        async with sagas.open(location, [kind]) as store:
            assert (await ended(store, kind, "k1", "fails")).phase == "recovered"
            with pytest.raises(NoSuchSaga):
                await store.wait("k2")
            await store.complete("w", "sign", True)
            assert (await store.wait("w", 60)).ok
            assert all(text.startswith("yes") for text in (await store.audit()).values())
        assert calls.count("w") == 1 and calls.count("k1") == 2

    run(main())
    assert is_good(location, capsys)
    assert keys(location) == {"w", "k1"} | ({"more"} if is_open else set())
    assert retention.prune(location, 0.0).sagas == 2 + is_open
    assert not any(rows(location, f"SELECT 1 FROM {table}") for table in ROWS)


def test_a_family_is_deleted_as_a_whole(location: str, capsys: pytest.CaptureFixture[str]) -> None:
    """A root stays with all below it until each of them is due."""
    kinds = trip()

    async def main() -> None:
        async with sagas.open(location, kinds) as store:
            await store.start(kinds[0], "w", "wait")
            for key, value in (("a", None), ("b", "fails")):
                await ended(store, kinds[0], key, value)
            await store.wait("w/:stay/:room", 60)

    run(main())
    age(location, "a", "w", "b")
    before = keys(location)
    assert {"w/:stay/:room", "a/:stay/:room", "b/:stay/:room"} < before
    assert any(key.startswith("b/:stay:undo") for key in before)
    change(location, f"UPDATE sagas SET ended = ended + {39 * DAY} WHERE key = 'a/:stay/:room'")
    pruned = retention.prune(location, MONTH)
    of_b = {key for key in before if key.startswith("b")}
    assert (pruned.families, pruned.family_sagas) == (1, len(of_b))
    assert keys(location) == before - of_b and is_good(location, capsys)
    age(location, "a/:stay/:room")
    assert retention.prune(location, MONTH).family_sagas == 3
    assert keys(location) == {key for key in before if key.startswith("w")}
    assert is_good(location, capsys)

    async def again() -> None:
        async with sagas.open(location, kinds) as store:
            assert (await ended(store, kinds[0], "a", "fails")).phase == "recovered"
            assert (await ended(store, kinds[0], "b")).ok
            await store.complete("w", "sign", True)
            assert (await store.wait("w", 60)).ok

    run(again())
    assert is_good(location, capsys)


def test_a_large_family_is_deleted_from_its_descendants_up(
    location: str, monkeypatch: pytest.MonkeyPatch, capsys: pytest.CaptureFixture[str]
) -> None:
    """It takes several transactions, and a run that ends in between leaves no child without its
    parent.
    """
    monkeypatch.setattr(families, "MAX_SAGAS", 2)
    kinds = trip()

    async def main() -> None:
        async with sagas.open(location, kinds) as store:
            await ended(store, kinds[0], "a")
            await store.start(kinds[0], "w", "wait")

    run(main())
    age(location, "a")
    pruned = retention.prune(location, MONTH, max_sagas=2)
    assert pruned.more and (pruned.sagas, pruned.families) == (2, 0)
    assert "a" in keys(location) and "a/:stay" not in keys(location)
    assert is_good(location, capsys)
    pruned = retention.prune(location, MONTH, max_sagas=2)
    assert (pruned.sagas, pruned.families) == (1, 1) and "a" not in keys(location)


def test_what_is_needed_stays(location: str) -> None:
    """A stuck saga stays until it is resolved, and so does one whose `on_end` call is due, that has
    an unused report, an unanswered request, a worker's attempt or a pending delivery.
    """
    kind = review()
    webhook = (
        "INSERT INTO webhook_deliveries(id, webhook, type, saga, key, body, at) "
        "SELECT 'd', 'hook', 'saga.completed', id, key, '', 1 FROM sagas WHERE key = 'k'"
    )
    attempt = (
        "INSERT INTO external_attempts(attempt, shard, id, step, action, number, task, offered_at"
        "{0}) SELECT 'x', id / 1000, id, 0, 'run', 1, 'review/take/run', 1{1} FROM sagas "
        "WHERE key = 'k'"
    )
    held = (
        "INSERT INTO suspensions(id, step, action, number, reason, count, since) "
        "SELECT id, {0}, 'run', 0, '{1}', 0, 1 FROM sagas WHERE key = 'k'"
    )
    needs = {
        "UPDATE sagas SET phase = 'stuck'": "UPDATE sagas SET note = 'seen to' WHERE key = 'k'",
        held.format(-1, "end_call"): "DELETE FROM suspensions",
        held.format(0, "early_result"): "UPDATE suspensions SET reason = 'early_undone'",
        "INSERT INTO operator_commands(id, key, command, at) VALUES(7, 'k', 'abort', 1)": (
            "UPDATE operator_commands SET answer = 'false'"
        ),
        attempt.format("", ""): "UPDATE external_attempts SET outcome = 'settled'",
        attempt.format(", outcome", ", 'succeeded'"): "DELETE FROM external_attempts",
        webhook: "UPDATE webhook_deliveries SET state = 'failed'",
        "UPDATE shards SET audit = 'damaged'": "UPDATE shards SET audit = NULL",
    }

    async def fill() -> None:
        async with sagas.open(location, [kind]) as store:
            await ended(store, kind, "k")
            await store.start(kind, "w", "wait")

    for need, over in needs.items():
        run(fill())
        age(location, "k")
        if location.startswith("postgresql:"):
            need = need.replace("VALUES(7", "OVERRIDING SYSTEM VALUE VALUES(7")
        change(location, need.replace("'stuck'", "'stuck' WHERE key = 'k'"))
        assert retention.prune(location, MONTH).sagas == 0, need
        change(location, over)
        assert retention.prune(location, MONTH).sagas == 1, need
        assert keys(location) == {"w"}
    change(location, "UPDATE sagas SET phase = NULL, note = NULL WHERE key = 'w'")


def test_the_audit_finds_lost_sagas_among_deleted_ones(
    location: str, capsys: pytest.CaptureFixture[str]
) -> None:
    """A row that is missing without a mark, a mark with a row, and a mark of an open saga are
    differences.
    """
    kind = review()

    async def main() -> None:
        async with sagas.open(location, [kind]) as store:
            await store.start(kind, "w", "wait")
            for key in "abc":
                await ended(store, kind, key, "fails" if key == "c" else None)
            await until(lambda: rows(location, "SELECT 1 FROM suspensions"))

    run(main())
    age(location, "a")
    assert retention.prune(location, MONTH).families == 1 and is_good(location, capsys)
    ((id,),) = rows(location, "SELECT id FROM sagas WHERE key = 'b'")
    mark = (
        "INSERT INTO deleted_sagas(id, definition_index, phase, recovered, undo_failed, ended, "
        "deleted_at) SELECT id, definition_index, {}, {}, undo_failed, 1, 2 FROM sagas "
        "WHERE key = '{}'"
    )
    change(location, mark.format("phase", "recovered", "b"))
    assert differences(location, capsys) == ["b: has a row, and is marked as deleted"]
    change(location, f"DELETE FROM attempts WHERE id = {id}")
    change(location, "DELETE FROM sagas WHERE key = 'b'")
    assert is_good(location, capsys)
    change(location, f"DELETE FROM deleted_sagas WHERE id = {id}")
    lost = differences(location, capsys)
    assert lost[0] == f"saga {id}: has events but no row" and len(lost) == 3
    other = "NOT recovered"
    change(location, mark.format("phase", other, "c"))
    change(location, "DELETE FROM attempts WHERE id = (SELECT id FROM sagas WHERE key = 'c')")
    change(location, "DELETE FROM sagas WHERE key = 'c'")
    text = "is marked as deleted after it was completed, the events say recovered"
    assert any(text in line for line in differences(location, capsys))
    change(location, mark.format("'ended'", "recovered", "w"))
    for table in ("attempts", "suspensions"):
        change(location, f"DELETE FROM {table} WHERE id = (SELECT id FROM sagas WHERE key = 'w')")
    change(location, "DELETE FROM sagas WHERE key = 'w'")
    text = "is marked as deleted after it was completed, the events say open"
    assert any(text in line for line in differences(location, capsys))


def test_a_shard_is_loaded_with_the_number_of_all_its_sagas(
    location: str, caplog: pytest.LogCaptureFixture, capsys: pytest.CaptureFixture[str]
) -> None:
    """Its engine dies after a deletion: the next sagas of the shard have new numbers."""
    kind = review()

    async def main() -> None:
        async with sagas.open(location, [kind]) as store:
            await store.start(kind, "w", "wait")
            for key in "abc":
                await ended(store, kind, key)
            age(location)
            assert (await asyncio.to_thread(retention.prune, location, MONTH)).families == 3
            for engine in children(os.getpid()):
                with contextlib.suppress(ProcessLookupError):
                    os.kill(engine, signal.SIGKILL)
            for key in "def":
                await ended(store, kind, key)

    run(main())
    ids = [id for (id,) in rows(location, "SELECT id FROM sagas ORDER BY id")]
    assert [id % 1000 for id in ids] == [0, 4, 5, 6] and is_good(location, capsys)
    assert "was to be opened" not in caplog.text


@pytest.fixture
def small(monkeypatch: pytest.MonkeyPatch) -> None:
    """Make shards of two sagas."""
    monkeypatch.setattr("sagas.definition.registry.SHARD_CAPACITY", 2)


async def closed_trips(location: str, count: int) -> None:
    """Run trips to their ends, in shards of two sagas: each has sagas in two shards."""
    kinds = trip()
    async with sagas.open(location, kinds) as store:
        for number in range(count):
            await ended(store, kinds[0], f"k{number}")
        query = "SELECT count(*) FROM shards WHERE closed = 1"
        await until(lambda: rows(location, query) >= [(count,)])


@pytest.mark.usefixtures("small")
def test_a_shard_of_children_is_deleted_before_that_of_their_parents(
    location: str, capsys: pytest.CaptureFixture[str]
) -> None:
    """A run that ends in between leaves a root without descendants, and no descendant without its
    root.
    """
    run(closed_trips(location, 3))
    age(location)
    with admin.writing(location) as link:
        ordered = retention._due_shards(link, 4e9)
    parents = {
        (id // 1000, parent // 1000)
        for id, parent in rows(location, "SELECT id, parent FROM children")
        if id // 1000 != parent // 1000 and id // 1000 in ordered
    }
    assert parents
    assert all(ordered.index(child) < ordered.index(parent) for child, parent in parents)
    for _ in range(6):
        retention.prune(location, MONTH, max_sagas=3)
        existing = keys(location)
        assert all(key.partition("/:")[0] in existing for key in existing)
        assert is_good(location, capsys)
    assert not existing


@pytest.mark.usefixtures("small")
def test_families_are_deleted_from_shards_that_have_no_order(location: str) -> None:
    """A family has sagas in a closed shard and in one that stays: both stay until it is gone."""
    run(closed_trips(location, 2))
    ((first, last),) = rows(location, "SELECT min(id) / 1000, max(id) / 1000 FROM sagas")
    age(location, "k0")
    pruned = retention.prune(location, MONTH)
    assert pruned.families + len(pruned.logs) > 0 and pruned.sagas == 3
    assert {key.partition("/:")[0] for key in keys(location)} == {"k1"} and first < last
    # two shards that each have a child of the other one
    change(location, "DELETE FROM children")
    ids = [id for (id,) in rows(location, "SELECT id FROM sagas ORDER BY id")]
    pairs = ((ids[0], ids[-1]), (ids[-1], ids[0])) if ids[0] // 1000 != ids[-1] // 1000 else ()
    for id, parent in pairs:
        change(location, f"INSERT INTO children(id, parent) VALUES({id}, {parent})")
    with admin.writing(location) as link:
        assert pairs and not {id // 1000 for id, _ in pairs} & {*retention._due_shards(link, 4e9)}


def test_another_node_takes_a_part_deleted_shard_over(
    url: str, tmp_path: pathlib.Path, capsys: pytest.CaptureFixture[str]
) -> None:
    """It continues the saga that waits, and the records of both nodes are good."""
    kind, other = review(), review()

    async def main() -> None:
        node = sagas.open(url, [kind], node="one", lease=2, record=tmp_path / "one")
        async with node as store:
            await store.start(kind, "w", "wait")
            for key in "abc":
                await ended(store, kind, key, "fails" if key == "c" else None)
            age(url)
            assert (await asyncio.to_thread(retention.prune, url, MONTH)).families == 3
            second = sagas.open(url, [other], node="two", lease=2, record=tmp_path / "two")
            async with second as successor:
                await store.close()
                await successor.complete("w", "sign", True)
                assert (await successor.wait("w", 60)).ok
                for key in "ade":
                    assert (await ended(successor, other, key)).ok

    run(main())
    assert is_good(url, capsys) and keys(url) == {*"wade"}
    records = [str(tmp_path / name) for name in ("one", "two")]
    assert store_command.main([url, "record", *records, "--json"]) == 0
    shards = json.loads(capsys.readouterr().out)
    assert shards and all(shard["good"] and not shard["ends_lost"] for shard in shards)


def test_a_family_in_the_shards_of_two_nodes(url: str, capsys: pytest.CaptureFixture[str]) -> None:
    """A node took the shard of the root over, and started the child in its own shard. Both shards
    keep other sagas.
    """
    room, trip = sagas.Saga("room"), sagas.Saga("trip")
    room.step(name="key", keep=9)(lambda task: "key").compensation(lambda task: None)
    sign = trip.approval(name="sign")(lambda task: None)
    trip.child(room, name="stay", input=lambda task: None, needs=[sign])

    async def main() -> None:
        async with sagas.open(url, [trip, room], node="one", lease=2) as first:
            for key in ("f", "w"):
                await first.start(trip, key)
            async with sagas.open(url, [trip, room], node="two", lease=2) as second:
                await first.close()
                await second.complete("f", "sign", True)
                assert (await second.wait("f", 60)).ok
                await second.start(trip, "x")
                age(url, "f")
                shards = rows(url, "SELECT id / 1000 FROM sagas WHERE key IN ('f', 'f/:stay')")
                assert len({*shards}) == 2
                pruned = await asyncio.to_thread(retention.prune, url, MONTH)
                assert (pruned.families, pruned.family_sagas) == (1, 2)
                assert {(id // 1000,) for id in marks(url)} == {*shards}
                for key in "wx":
                    await second.complete(key, "sign", True)
                    assert (await second.wait(key, 60)).ok

    run(main())
    assert is_good(url, capsys)
    assert keys(url) == {"w", "w/:stay", "x", "x/:stay"}


@pytest.mark.parametrize("is_deleted", [True, False])
@pytest.mark.parametrize("starter", ["node", "client"])
def test_a_start_during_the_deletion(
    url: str, starter: str, is_deleted: bool, capsys: pytest.CaptureFixture[str]
) -> None:
    """The key is used again before the deletion is committed: the start returns the old saga, which
    may be gone a moment later, or starts another one. A start of another key does not wait.
    """
    calls = list[str]()
    kind = review(calls)

    async def main() -> None:
        async with sagas.open(url, [kind]) as store, sagas.Client(url) as client:
            await store.start(kind, "w", "wait")
            await ended(store, kind, "k", 1)
            age(url)
            starting: asyncio.Future[Any]
            with contextlib.suppress(ZeroDivisionError), admin.writing(url) as link:
                with link.transaction():
                    ((id,),) = link.ask("SELECT id FROM sagas WHERE key = 'k'")
                    batch = families.Batch([[id]], 1)
                    assert families.delete(link, batch, 4e9, None) == batch
                    call = store.start if starter == "node" else client.start
                    starting = asyncio.ensure_future(call(kind, "k", 1))
                    for number in range(5):
                        assert (await ended(store, kind, f"new-{number}")).ok
                    if not is_deleted:
                        raise ZeroDivisionError
            await starting
            with contextlib.suppress(*[sagas.NoSuchSaga] * is_deleted):
                assert (await client.wait("k", 60)).ok
            assert (await ended(store, kind, "k", 1)).ok
            new = [id for (id,) in rows(url, "SELECT id FROM sagas WHERE key = 'k'")]
            assert (new == [id]) is not is_deleted

    run(main())
    assert calls.count("k") == 1 + is_deleted and is_good(url, capsys)


def test_a_request_during_the_deletion(url: str) -> None:
    """The caller of a request is notified that the saga is gone, and no request is left."""
    kind = review()

    async def main() -> None:
        async with sagas.open(url, [kind]) as store, sagas.Client(url) as client:
            await store.start(kind, "w", "wait")
            await ended(store, kind, "k", "fails")
            age(url)
            with admin.writing(url) as link:
                with link.transaction():
                    ((id,),) = link.ask("SELECT id FROM sagas WHERE key = 'k'")
                    assert families.delete(link, families.Batch([[id]], 1), 4e9, None).groups
                    asking = asyncio.ensure_future(client.restart("k", "again"))
                    await until(lambda: rows(url, WAITS))
                with pytest.raises(sagas.NoSuchSaga):
                    await asking

    run(main())
    assert not rows(url, "SELECT 1 FROM operator_commands")


def test_an_export_precedes_the_deletion(
    location: str, tmp_path: pathlib.Path, capsys: pytest.CaptureFixture[str]
) -> None:
    """It has the fields of an archive, the plans with their certificates, and the definitions; a
    part-deleted shard is archived with its whole log, and lists what was deleted.
    """
    kind, folder = review(), tmp_path / "archive"

    async def main() -> None:
        async with sagas.open(location, [kind]) as store:
            for key in ("a", "b"):
                await ended(store, kind, key, "fails" if key == "b" else {"n": key})
            run = await store.start(kind, "w", "wait", labels={"by": "test"})
            age(location, "a", "b")
            await asyncio.to_thread(retention.prune, location, MONTH, folder)
            await store.complete("w", "sign", True)
            assert (await run.wait(60)).ok

    run(main())
    (path,) = (folder / family_archive.FOLDER).glob("families-*.jsonl")
    lines = [json.loads(line) for line in path.read_text().splitlines()]
    assert [(line["key"], line["phase"]) for line in lines] == [
        ("a", "completed"),
        ("b", "recovered"),
    ]
    a, b = lines
    assert a["input"] == {"n": "a"} and a["results"][0]["value"] == {"of": "a"} and not a["plans"]
    definition = path.with_name(f"definition-{b['digest']}.toml")
    (tmp_path / "case.json").write_text(json.dumps(b["plans"][0]["case"]))
    (tmp_path / "answer.json").write_text(json.dumps(b["plans"][0]["answer"]))
    command = [program(), "check", str(definition)]
    command += [str(tmp_path / name) for name in ("case.json", "answer.json")]
    assert subprocess.run(command, capture_output=True, text=True).stdout.startswith("least ")
    with admin.writing(location) as link:
        written = archive.write(link, a["shard"], tmp_path / "shards")
    assert written and written.name == a["name"]
    assert audit_of(written / "log", sorted(written.glob("*.toml"))).startswith("yes sagas 3")
    entries = [json.loads(line) for line in (written / "sagas.jsonl").read_text().splitlines()]
    assert [entry["number"] for entry in entries] == [0, 1, 2]
    assert {*entries[0]} == {"number", "definition", "phase", "ended", "deleted"}
    assert (entries[1]["phase"], entries[2]["key"]) == ("recovered", "w")
    about = json.loads((written / "about.json").read_text())
    assert (about["sagas"], about["deleted"]) == (1, 2)


KILLED = """
    import os, sys
    from sagas.runtime import retention
    from sagas.storage import admin
    kind = admin.DatabaseSource if sys.argv[1].startswith("postgresql:") else admin.FileSource
    right, count = kind.changed, 0
    def changed(self, text, *words):
        global count
        if count == int(sys.argv[3]):
            os.kill(os.getpid(), 9)
        count += 1
        return right(self, text, *words)
    kind.changed = changed
    print(retention.prune(sys.argv[1], 30 * 86400.0, sys.argv[2]).sagas)
"""


def test_a_run_that_is_killed(
    location: str, tmp_path: pathlib.Path, capsys: pytest.CaptureFixture[str]
) -> None:
    """It is killed before each statement: each family exists as a whole or is gone as a whole, and
    what is gone is in the export.
    """
    kinds, folder = trip(), tmp_path / "archive"

    async def main() -> None:
        async with sagas.open(location, kinds) as store:
            await store.start(kinds[0], "w", "wait")
            for number in range(3):
                await ended(store, kinds[0], f"k{number}", "fails" if number else None)
            await store.wait("w/:stay/:room", 60)

    run(main())
    age(location, "k")
    before = keys(location)
    script = tmp_path / "killed.py"
    script.write_text(textwrap.dedent(KILLED))
    paths = f"{HERE.parent / 'src'}{os.pathsep}{HERE}"
    environment = os.environ | {"PYTHONPATH": paths, "SAGAS_PROGRAM": program()}
    command = [sys.executable, str(script), location, str(folder)]
    last = len(families.OF_IDS) + 1
    for point in range(last):
        done = subprocess.run(
            [*command, str(point)], env=environment, capture_output=True, text=True
        )
        assert done.returncode == -9, (point, done.stderr)
        assert keys(location) == before and not marks(location)
        assert is_good(location, capsys)
    done = subprocess.run([*command, "1000"], env=environment, capture_output=True, text=True)
    gone = {key for key in before if key.startswith("k")}
    assert done.stdout == f"{len(gone)}\n", done.stderr
    assert keys(location) == before - gone and is_good(location, capsys)
    (path,) = (folder / family_archive.FOLDER).glob("families-*.jsonl")
    exported = [json.loads(line)["key"] for line in path.read_text().splitlines()]
    assert {*exported} == gone and len(exported) > len(gone)


def test_an_incomplete_last_line_is_replaced(tmp_path: pathlib.Path) -> None:
    """A program ended while it appended: its line is cut off, and whole lines stay."""
    path = tmp_path / "families.jsonl"
    for before, after in (("", ""), ("{}\n", "{}\n"), ('{}\n{"a', "{}\n"), ('{"a', "")):
        path.write_text(before)
        family_archive._append(path, '{"b": 1}\n')
        assert path.read_text() == after + '{"b": 1}\n'


def test_values_outside_of_the_database_are_deleted(location: str, tmp_path: pathlib.Path) -> None:
    """Those of deleted sagas are gone after the run, and no other one is."""
    kind, folder = review(), tmp_path / "blobs"
    events = list[sagas.Event]()

    def opened(**options: Any) -> sagas.Store:
        blobs = FolderBlobStore(folder)
        return sagas.open(
            location, [kind], blobs=blobs, blob_threshold=300, codec=Encryption(new=NEW), **options
        )

    async def main() -> None:
        async with opened() as store:
            await ended(store, kind, "a", "x" * 1000)
            of_a = {*folder.glob("*/*/*")}
            await ended(store, kind, "b", "y" * 1000)
            of_b = {*folder.glob("*/*/*")} - of_a
        age(location, "a")
        month = datetime.timedelta(days=30)
        async with opened(retention=month, on_event=events.append) as store:
            await until(lambda: any(event.name == "sagas_pruned" for event in events))
            assert of_a and of_b and {*folder.glob("*/*/*")} == of_b
            assert (await store.wait("b")).ok

    run(main())
    assert [event.detail for event in events if event.name == "sagas_pruned"] == [
        "1 family, 1 saga"
    ]


def test_erased_and_restarted_sagas_are_deleted(
    location: str, capsys: pytest.CaptureFixture[str]
) -> None:
    """An erased saga is deleted as another one; a saga that restarted a deleted one stays, and the
    deleted one cannot be restarted.
    """
    kind = review()

    async def main() -> None:
        async with sagas.open(location, [kind]) as store:
            await store.start(kind, "w", "wait")
            for key in ("a", "b"):
                await ended(store, kind, key, "fails")
            await (await store.restart("b", "b2")).wait(60)
            assert await store.erase("a", by="ada")
            age(location, "a", "b")
            age(location, "b2", days=-40)
            pruned = await asyncio.to_thread(retention.prune, location, MONTH)
            assert pruned.families == 2 and keys(location) == {"w", "b2"}
            with pytest.raises(sagas.NoSuchSaga):
                await store.restart("b", "b3")
            assert "b2" in Shell(location, capsys)("show", "b2")

    run(main())
    assert is_good(location, capsys)


def test_the_command_prints_both_counts(
    location: str, capsys: pytest.CaptureFixture[str], tmp_path: pathlib.Path
) -> None:
    """A clock that is set forward deletes nothing."""
    kind, shell = review(), Shell(location, capsys)

    async def main() -> None:
        async with sagas.open(location, [kind]) as store:
            await store.start(kind, "w", "wait")
            for key in "abc":
                await ended(store, kind, key)

    run(main())
    assert retention.prune(location, MONTH, clock=lambda: 4e9).sagas == 0
    age(location, "a", "b")
    text = shell("prune", "--older-than", "30d")
    assert text == "deleted 2 sagas (0 shards, and 2 families of other shards)\n"
    assert shell.json("prune", "--older-than", "0s") == {
        "shards": [],
        "sagas": 1,
        "families": 1,
        "family_sagas": 1,
        "refused_starts": 0,
        "more": False,
    }


def test_a_file_of_an_older_release(tmp_path: pathlib.Path, capsys: Any) -> None:
    """It has no table of marks: its audit is the same, and a run creates the table."""
    kind, location = review(), str(tmp_path / "store.db")

    async def main() -> None:
        async with sagas.open(location, [kind]) as store:
            await store.start(kind, "w", "wait")
            await ended(store, kind, "a")

    run(main())
    change(location, "DROP TABLE deleted_sagas")
    assert is_good(location, capsys)
    age(location, "a")
    assert retention.prune(location, MONTH).sagas == 1 and is_good(location, capsys)
    run(main())
    change(location, "PRAGMA user_version = 99")
    with pytest.raises(admin.Trouble, match="version 99"):
        retention.prune(location, MONTH)


def test_a_database_of_an_older_release(url: str, capsys: pytest.CaptureFixture[str]) -> None:
    """The same, over PostgreSQL."""
    kind = review()

    async def main() -> None:
        async with sagas.open(url, [kind]) as store:
            await store.start(kind, "w", "wait")
            await ended(store, kind, "a")

    run(main())
    change(url, "DROP TABLE deleted_sagas")
    assert is_good(url, capsys)
    age(url, "a")
    assert retention.prune(url, MONTH).sagas == 1 and is_good(url, capsys)
    run(main())
    assert keys(url) == {"a", "w"} and is_good(url, capsys)


def plan_of(link: admin.Source, query: str, *parameters: Any) -> str:
    """Return the plan of a query."""
    explain = "EXPLAIN" if isinstance(link, admin.DatabaseSource) else "EXPLAIN QUERY PLAN"
    return "\n".join(str(row[-1]) for row in link.ask(f"{explain} {query}", *parameters))


def test_no_query_scans_the_whole_store(location: str) -> None:
    """Each one has a range of ids, or ids, by an index."""
    kind = review()

    async def main() -> None:
        async with sagas.open(location, [kind]) as store:
            await ended(store, kind, "a")

    run(main())
    ids = [0] * families.IDS
    with contextlib.closing(admin.connect(location)) as link:
        for query, parameters in (
            (families.PAGE_END, (-1, families.PAGE)),
            (families.ROOTS, (-1, 100, 1.0)),
            (families.TREES, (*ids, 1.0)),
            (families.STILL_DUE, (*ids, 1.0)),
            (families.CHILDREN, (*ids,)),
        ):
            plan = plan_of(link, query, *parameters)
            assert "Seq Scan" not in plan, plan
            scans = [line for line in plan.splitlines() if line.startswith("SCAN ")]
            assert not [
                line for line in scans if line.split()[1] in ("s", "sagas", "c", "children")
            ]
