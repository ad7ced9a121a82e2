"""Ended sagas are deleted with their log, exported before if requested, over both kinds of
database.
"""

from __future__ import annotations

import asyncio
import contextlib
import datetime
import fcntl
import json
import os
import pathlib
import sqlite3
import subprocess
import sys
import textwrap
from collections.abc import Callable
from typing import Any

import psycopg
import pytest
import records
from cases import Task, ended, run, until
from driving import audit, program

import sagas
from sagas.cli import store_command
from sagas.inspection import saga as one_saga
from sagas.inspection.question import StoreReader
from sagas.runtime import retention
from sagas.storage import admin, archive

HERE = pathlib.Path(__file__).resolve().parent
ROOM = 4
"""Sagas of a log, in these cases."""
MONTH = 30 * 86400.0


@pytest.fixture(autouse=True)
def small(monkeypatch: pytest.MonkeyPatch) -> None:
    """Make logs of four sagas, so that some are full and closed."""
    monkeypatch.setattr("sagas.definition.registry.SHARD_CAPACITY", ROOM)


def shop() -> sagas.Saga:
    """Return a saga that ends well, is undone or is stuck, by its input."""
    shop = sagas.Saga("shop")

    @shop.step(undo=1, keep=5)
    async def take(task: Task) -> Any:
        return {"of": task.key}

    @take.compensation
    async def give(task: Task) -> None:
        if task.input == "stuck":
            raise sagas.Fail("no")

    @shop.step(needs=[take], skip=2)
    async def pay(task: Task) -> int:
        if task.input:
            raise sagas.Fail("refused")
        return 1

    return shop


def must() -> sagas.Saga:
    """Return a saga that is stuck if its input says so: a step that cannot be undone must not be
    kept.
    """
    must = sagas.Saga("must")

    @must.step(undo=1, keep=sagas.NEVER)
    async def take(task: Task) -> int:
        return 1

    @take.compensation(on_exhausted="fail")
    async def give(task: Task) -> None:
        raise sagas.Fail("no")

    @must.step(needs=[take])
    async def pay(task: Task) -> None:
        if task.input:
            raise sagas.Fail("refused")

    return must


def change(location: str, statement: str) -> None:
    """Change rows, as only a test does."""
    if location.startswith("postgresql:"):
        with psycopg.connect(location, options="-csearch_path=sagas") as link:
            link.execute(statement)
    else:
        with contextlib.closing(sqlite3.connect(location)) as db:
            db.execute(statement)
            db.commit()


def age(location: str, *logs: int, days: int = 40) -> None:
    """Set the time at which the sagas of these logs ended."""
    for log in logs:
        change(
            location,
            (
                f"UPDATE sagas SET ended = ended - {days} * 86400.0 WHERE id >= {1000 * log} AND id"
                f" < {1000 * (log + 1)}"
            ),
        )


async def fill(
    location: str,
    kind: sagas.Saga,
    count: int,
    input_of: Callable[[int], Any] = lambda number: None,
) -> list[int]:
    """Run sagas to their end, in logs that are closed except for the last; return the numbers of
    the closed ones.
    """
    async with sagas.open(location, [kind]) as store:
        for number in range(count):
            await ended(store, kind, f"k{number}", input_of(number))
        await until(
            lambda: sum(log.closed for log in records.read(location).logs.values()) == count // ROOM
        )
    return sorted(log.log for log in records.read(location).logs.values() if log.closed)


def tables(location: str) -> dict[str, int]:
    """Return how many rows each table has."""
    with contextlib.closing(admin.connect(location)) as link:
        return {
            table: link.ask(f"SELECT count(*) FROM {table}")[0][0]
            for table in (
                "shards",
                "event_log",
                "sagas",
                "deleted_sagas",
                "attempts",
                "suspensions",
                "operator_commands",
                "external_attempts",
            )
        }


def test_old_logs_are_deleted_as_a_whole(location: str, capsys: pytest.CaptureFixture[str]) -> None:
    """Logs with younger sagas and open logs stay, without their old sagas; nothing is left of a
    deleted log; a free key takes another input.
    """
    kind = shop()
    first, second, third = run(fill(location, kind, 3 * ROOM + 2))
    open = max(records.read(location).logs)
    age(location, first, second, open)
    # one of its sagas is younger
    change(location, f"UPDATE sagas SET ended = ended + 86400 * 39 WHERE id = {1000 * second}")
    change(
        location,
        (
            "INSERT INTO operator_commands(key, command, value, at, answer) VALUES('k0', 'abort',"
            " 'null', 1, 'false')"
        ),
    )
    before = tables(location)
    assert store_command.main([location, "prune", "--older-than", "30d", "--json"]) == 0
    report = json.loads(capsys.readouterr().out)
    kept = records.read(location)
    families = ROOM + 1
    assert (report["sagas"], report["families"]) == (ROOM + families, families)
    assert len(report["shards"]) == 1 and not report["more"]
    assert sorted(kept.logs) == [second, third, open] and set(kept.sagas) == {
        f"k{number}" for number in (ROOM, *range(2 * ROOM, 3 * ROOM))
    }
    after = tables(location)
    assert {table: before[table] - after[table] for table in before} == {
        "shards": 1,
        "event_log": before["event_log"] - after["event_log"],
        "sagas": ROOM + families,
        "deleted_sagas": -families,
        "attempts": 2 * (ROOM + families),
        "suspensions": 0,
        "operator_commands": 1,
        "external_attempts": 0,
    }
    assert not any(row // 1000 == first for row in {id for id, _, _, _ in kept.results})

    async def again() -> None:
        async with sagas.open(location, [kind]) as store:
            with pytest.raises(sagas.NoSuchSaga):
                await store.wait("k0")
            assert (await ended(store, kind, "k0", "another")).states["pay"] == "failed"
            with pytest.raises(sagas.KeyConflict):
                await store.start(kind, f"k{ROOM}", "another")
            assert all(verdict.startswith("yes") for verdict in (await store.audit()).values())
            await until(lambda: is_closed(open))

    def is_closed(log: int) -> bool:
        with contextlib.closing(admin.connect(location)) as link:
            return [
                tuple(row) for row in link.ask(f"SELECT closed FROM shards WHERE shard = {log}")
            ] == [(1,)]

    run(again())
    assert store_command.main([location, "prune", "--older-than", "0s"]) == 0
    text = f"deleted {ROOM + 2} sagas (3 shards, and 1 family of other shards)"
    assert text in capsys.readouterr().out
    after = tables(location)
    assert (after["shards"], after["sagas"], after["deleted_sagas"]) == (1, 0, 1)


def test_sagas_that_need_an_operator_stay(location: str) -> None:
    """They are a log with a stuck saga that is not resolved, and one whose audit failed."""
    kind = must()

    async def main() -> None:
        first, second = await fill(
            location, kind, 2 * ROOM, lambda number: "stuck" if number == 1 else None
        )
        change(location, f"UPDATE shards SET closed = 2 WHERE shard = {second}")
        age(location, first, second)
        gone = retention.prune(location, MONTH)
        assert gone.logs == [] and gone.families == ROOM - 1
        async with sagas.open(location, [kind]) as store:
            await store.resolve("k1", "seen to")
        gone = retention.prune(location, MONTH)
        assert gone.sagas == 1 and set(records.read(location).logs) == {second}
        assert tables(location)["sagas"] == ROOM

    run(main())


def test_a_compensation_that_failed_stays(location: str) -> None:
    """Its log is kept until an operator has resolved it, as one with a stuck saga is."""
    kind = sagas.Saga("row")
    take = kind.step(name="take", keep=9, undo=0)(lambda task: None)

    @take.compensation(on_exhausted="fail")
    def give(task: Task) -> None:
        raise sagas.Fail("it is gone")

    @kind.step(needs=[take])
    def send(task: Task) -> None:
        raise sagas.Fail("no")

    async def main() -> None:
        (log,) = await fill(location, kind, ROOM, lambda number: None)
        age(location, log)
        assert retention.prune(location, MONTH).logs == []
        async with sagas.open(location, [kind]) as store:
            for number in range(ROOM):
                await store.resolve(f"k{number}", "seen to")
        assert retention.prune(location, MONTH).sagas == ROOM

    run(main())


def test_an_export_has_the_input_of_the_audit(location: str, tmp_path: pathlib.Path) -> None:
    """It has log and definitions, keys with inputs and results, and each plan with its certificate,
    as the program judges them.
    """
    kind, folder = shop(), tmp_path / "archive"
    logs = run(fill(location, kind, ROOM, lambda number: "fails" if number % 2 else None))
    age(location, *logs)
    before = records.read(location)
    (name,) = retention.prune(location, MONTH, folder).logs
    whole = folder / name
    assert [path.name for path in folder.iterdir()] == [name] and records.read(location).logs == {}
    about = json.loads((whole / "about.json").read_text())
    assert audit(whole / "log", [whole / "definition-00.toml"]) == about["audit"] and about[
        "audit"
    ].startswith(f"yes sagas {ROOM}")
    entries = {
        row["key"]: row for row in map(json.loads, (whole / "sagas.jsonl").read_text().splitlines())
    }
    for key, row in before.sagas.items():
        plans = key in ("k1", "k3")
        assert (
            entries[key]["number"],
            entries[key]["input"],
            entries[key]["phase"],
            entries[key]["end"],
        ) == (
            row.number,
            row.input,
            "recovered" if plans else "completed",
            row.end,
        )
        assert [
            result["value"] for result in entries[key]["results"] if result["outcome"] == "commit"
        ][0] == {"of": key}
    plans = [json.loads(line) for line in (whole / "plans.jsonl").read_text().splitlines()]
    assert {plan["key"] for plan in plans} == {"k1", "k3"}
    for plan in plans:
        (tmp_path / "case.json").write_text(json.dumps(plan["case"]))
        (tmp_path / "answer.json").write_text(json.dumps(plan["answer"]))
        command = [
            program(),
            "check",
            str(whole / "definition-00.toml"),
            str(tmp_path / "case.json"),
            str(tmp_path / "answer.json"),
        ]
        assert subprocess.run(command, capture_output=True, text=True).stdout.startswith("least ")


def test_nothing_is_deleted_that_cannot_be_exported(
    location: str, tmp_path: pathlib.Path, capsys: pytest.CaptureFixture[str]
) -> None:
    """The folder cannot be made: the command reports that, and the log stays."""
    logs = run(fill(location, shop(), ROOM))
    age(location, *logs)
    (tmp_path / "file").touch()
    assert (
        store_command.main(
            [location, "prune", "--older-than", "30d", "--export", str(tmp_path / "file")]
        )
        == 4
    )
    assert "cannot write to" in capsys.readouterr().err and set(records.read(location).logs) == set(
        logs
    )
    with pytest.raises(SystemExit):
        store_command.main([location, "prune", "--older-than", "soon"])


KILLED = """
    import os, sys
    from sagas.runtime import retention
    from sagas.storage import admin, archive
    point = int(sys.argv[3])
    kind = admin.DatabaseSource if sys.argv[1].startswith("postgresql:") else admin.FileSource
    right, count = kind.changed, 0
    def changed(self, text, *words):
        global count
        if count == point:
            os._exit(9)
        count += 1
        return right(self, text, *words)
    kind.changed = changed
    synced, files = archive.write_synced, 0
    def written(path, text):
        global files
        files += 1
        if point < 0 and files == 3:
            os._exit(9)
        return synced(path, text)
    archive.write_synced = written
    print(retention.prune(sys.argv[1], 30 * 86400.0, sys.argv[2]).sagas)
"""


def test_a_run_that_is_killed(location: str, tmp_path: pathlib.Path) -> None:
    """It is killed during the export, or before each statement: the whole log exists until it is
    deleted as a whole, and then the export is complete.
    """
    logs = run(fill(location, shop(), ROOM))
    age(location, *logs)
    before, rows = records.read(location), tables(location)
    script = tmp_path / "killed.py"
    script.write_text(textwrap.dedent(KILLED))
    environment = os.environ | {"PYTHONPATH": str(HERE.parent / "src"), "SAGAS_PROGRAM": program()}
    command = [sys.executable, str(script), location, str(tmp_path / "archive")]
    last = 1 + len(retention.OF_SAGAS) + len(retention.OF_LOG)
    for point in (-1, 0, 1, last // 2, last - 1):
        done = subprocess.run(
            [*command, str(point)], env=environment, capture_output=True, text=True
        )
        assert done.returncode == 9, done.stderr
        assert records.read(location) == before and tables(location) == rows
    done = subprocess.run([*command, "1000"], env=environment, capture_output=True, text=True)
    assert done.stdout == f"{ROOM}\n", done.stderr
    assert records.read(location).logs == {}
    (folder,) = (tmp_path / "archive").iterdir()
    assert audit(folder / "log", [folder / "definition-00.toml"]).startswith(f"yes sagas {ROOM}")
    assert tables(location)["sagas"] == 0


def files(folder: pathlib.Path) -> dict[str, str]:
    """Return the files of a folder."""
    return {
        str(path.relative_to(folder)): path.read_text()
        for path in folder.rglob("*")
        if path.is_file()
    }


def test_one_run_at_a_time(
    location: str, tmp_path: pathlib.Path, capsys: pytest.CaptureFixture[str]
) -> None:
    """While one is running another one reports that, and deletes and writes nothing; afterwards it
    does.
    """
    logs = run(fill(location, shop(), ROOM))
    age(location, *logs)
    arguments = [location, "prune", "--older-than", "30d", "--export", str(tmp_path / "archive")]
    before = tables(location)
    with admin.writing(location) as link:
        assert link.take_prune_lock() and link.take_prune_lock()
        assert store_command.main(arguments) == 1
        assert "another program is deleting ended sagas of this store" in capsys.readouterr().err
        assert tables(location) == before and not (tmp_path / "archive").exists()
    assert store_command.main(arguments) == 0 and tables(location)["sagas"] == 0
    assert len([*(tmp_path / "archive").iterdir()]) == 1


def test_a_log_is_deleted_during_its_export(location: str, tmp_path: pathlib.Path) -> None:
    """The export is of one moment: all of the log.

    A later export has nothing, and the first one stays.
    """
    (log,) = run(fill(location, shop(), ROOM))
    kind = admin.DatabaseSource if location.startswith("postgresql:") else admin.FileSource
    overtaken, ask, folder = kind(location, "rw"), kind.ask, tmp_path / "archive"

    def overtaking(text: str, *parameters: Any) -> list[admin.Row]:
        rows = ask(overtaken, text, *parameters)
        if text == archive.SHARD:
            with admin.writing(location) as other:
                retention._delete(other, log, None)
        return rows

    with contextlib.closing(overtaken):
        overtaken.ask = overtaking  # type: ignore[method-assign]
        whole = archive.write(overtaken, log, folder)
        assert whole and tables(location)["sagas"] == 0
        before = files(folder)
        entries = [json.loads(line) for line in (whole / "sagas.jsonl").read_text().splitlines()]
        assert [len(entry["results"]) for entry in entries] == [2] * ROOM
        assert audit(whole / "log", [whole / "definition-00.toml"]).startswith(f"yes sagas {ROOM}")
        assert archive.write(overtaken, log, folder) is None and files(folder) == before


def test_a_forked_child_keeps_no_archive(tmp_path: pathlib.Path) -> None:
    """A process that forks while a log is written does not block a later one."""
    reader, writer = os.pipe()
    with archive.locked(tmp_path):
        child = os.fork()
        if child == 0:
            os.close(writer)
            os.read(reader, 1)  # until the test ends
            os._exit(0)
    held = os.open(tmp_path, os.O_RDONLY)
    try:
        fcntl.flock(held, fcntl.LOCK_EX | fcntl.LOCK_NB)
    finally:
        for fd in (held, writer, reader):
            os.close(fd)
        os.waitpid(child, 0)


def test_a_run_has_a_limit(location: str) -> None:
    """It goes in order of the logs' numbers, and the rest follows in further runs; the default is
    100,000 sagas.
    """
    assert retention.MAX_SAGAS == 100_000
    logs = run(fill(location, shop(), 3 * ROOM))
    age(location, *logs)
    gone = retention.prune(location, MONTH, max_sagas=2 * ROOM)
    assert gone.sagas == 2 * ROOM and gone.more and set(records.read(location).logs) == {logs[-1]}
    gone = retention.prune(location, MONTH, max_sagas=2 * ROOM)
    assert gone.sagas == ROOM and not gone.more


def test_a_clock_set_forward_deletes_nothing(location: str) -> None:
    """The earlier one of two clocks counts."""
    logs = run(fill(location, shop(), ROOM))
    later = records.read(location)
    assert (
        retention.prune(location, MONTH, clock=lambda: 4e9).logs == []
        and records.read(location) == later
    )
    age(location, *logs)
    assert retention.prune(location, MONTH, clock=lambda: 0.0).logs == []


def test_an_open_store_prunes(location: str, tmp_path: pathlib.Path) -> None:
    """`retention` and `archive_dir` work while sagas are started: a node reports what was
    deleted.
    """
    kind = shop()
    events: list[sagas.Event] = []

    async def main() -> None:
        logs = await fill(location, kind, 2 * ROOM)
        age(location, *logs)
        month = datetime.timedelta(days=30)
        async with sagas.open(
            location,
            [kind],
            retention=month,
            archive_dir=tmp_path / "archive",
            on_event=events.append,
        ) as store:
            await asyncio.gather(*(ended(store, kind, f"new-{number}") for number in range(10)))
            await until(lambda: any(event.name == "shards_pruned" for event in events))
            assert (await ended(store, kind, "k0", "fails")).states["pay"] == "failed"
        assert not set(logs) & set(records.read(location).logs)

    run(main())
    assert [event.detail for event in events if event.name == "shards_pruned"] == [
        f"2 shards, {2 * ROOM} sagas"
    ]
    assert len(list((tmp_path / "archive").iterdir())) == 2
    with pytest.raises(TypeError, match="timedelta"):
        sagas.open(location, [kind], retention=30)  # type: ignore[arg-type]


def test_a_start_feels_no_lock_of_it(url: str) -> None:
    """A log is being deleted, and that is not committed: sagas are started and end; another run
    skips it.
    """
    kind = shop()

    async def main() -> None:
        (log,) = await fill(url, kind, ROOM)
        age(url, log)
        with admin.writing(url) as link:
            assert link.take_prune_lock()
            async with sagas.open(url, [kind]) as store:
                with link.transaction():
                    assert retention._delete(link, log, None)
                    async with asyncio.timeout(10):
                        await asyncio.gather(
                            *(ended(store, kind, f"new-{number}") for number in range(10))
                        )
                    assert retention.prune(url, MONTH).other
            assert log not in records.read(url).logs

    run(main())


def waits_for_a_lock(url: str) -> bool:
    """Return whether a statement waits for a lock in this database."""
    text = (
        "SELECT 1 FROM pg_locks JOIN pg_database d ON d.oid = database "
        "WHERE NOT granted AND datname = current_database()"
    )
    with psycopg.connect(url) as link:
        return bool(link.execute(text).fetchall())


ASKS: dict[str, Callable[[Any], Any]] = {
    "wait": lambda reader: reader.wait("k0"),
    "log": lambda reader: reader.log("k0"),
    "plan": lambda reader: reader.plan("k0"),
}
"""The reads of a saga."""


class ClosedMeanwhile(os.PathLike[str]):
    """A folder for archives: a shard is closed before the first one is written."""

    def __init__(self, folder: pathlib.Path, close: Callable[[], None]) -> None:
        self.folder, self.close = folder, close
        self.is_closed = False

    def __fspath__(self) -> str:
        if not self.is_closed:
            self.is_closed = True
            self.close()
        return str(self.folder)


def test_a_child_stays_whose_shard_is_closed_during_the_run(
    location: str, tmp_path: pathlib.Path
) -> None:
    """Its parent is open, and may have to undo it."""
    plain, parent = shop(), sagas.Saga("parent")

    @parent.child(plain)
    def made(task: Task) -> None:
        return None

    @parent.approval(needs=[made])
    def review(task: Task) -> None:
        return None

    async def main() -> None:
        async with sagas.open(location, [plain, parent]) as store:
            for number in range(2 * ROOM - 1):
                await ended(store, plain, f"k{number}", None)
            await store.start(parent, "p", None)  # the last one of its shard
            await until(lambda: shard_of("p/:made"))
            await store.wait("p/:made", timeout=60)
            for number in range(2 * ROOM, 3 * ROOM - 1):
                await ended(store, plain, f"k{number}", None)
            await until(lambda: records.read(location).logs[shard_of("p/:made")].closed)

    def shard_of(key: str) -> int:
        with contextlib.closing(admin.connect(location)) as link:
            return sum(id for (id,) in link.ask("SELECT id FROM sagas WHERE key = ?", key)) // 1000

    run(main())
    first, last = shard_of("k0"), shard_of("p/:made")
    assert first < shard_of("p") < last
    age(location, first, last)
    change(location, f"UPDATE shards SET closed = 0 WHERE shard = {last}")
    closed = f"UPDATE shards SET closed = 1 WHERE shard = {last}"
    folder = ClosedMeanwhile(tmp_path / "archive", lambda: change(location, closed))
    gone = retention.prune(location, MONTH, folder)
    assert (gone.sagas, gone.families) == (2 * ROOM - 1, ROOM - 1) and folder.is_closed
    assert shard_of("p/:made") == last
    assert retention.prune(location, MONTH).sagas == 0


@pytest.mark.parametrize(
    "table, ask",
    [("attempts", "wait"), ("attempts", "log"), ("event_log", "log"), ("event_log", "plan")],
)
@pytest.mark.parametrize("reader_kind", ["client", "node"])
def test_a_saga_that_is_deleted_during_a_read(
    url: str, reader_kind: str, table: str, ask: str
) -> None:
    """Its row was read, and its log is deleted before the rest is: the error says that it is gone.

    It is never returned with results of None, without events or without its plan.
    """
    kind = shop()

    async def main() -> None:
        (log,) = await fill(url, kind, ROOM, lambda number: "fails" if ask == "plan" else None)
        age(url, log)
        async with sagas.Client(url) if reader_kind == "client" else sagas.open(
            url, [kind]
        ) as reader:
            with admin.writing(url) as link:
                with link.transaction():
                    link.changed(f"LOCK TABLE {table} IN ACCESS EXCLUSIVE MODE")
                    reading = asyncio.ensure_future(ASKS[ask](reader))
                    await until(lambda: waits_for_a_lock(url))
                    assert retention._delete(link, log, None)
                with pytest.raises(sagas.NoSuchSaga, match="'k0' was deleted while"):
                    await reading

    run(main())


AS_BEFORE = """
INSERT INTO sagas(id, key, saga, definition_index, input, at, phase, outcome, ended, note)
SELECT {id}, 'k0', saga, definition_index, input, at, phase, outcome, ended, note
FROM sagas WHERE key = 'k1'
"""


def test_a_saga_that_is_deleted_during_a_look(url: str) -> None:
    """The same holds for all of its data; another saga that has the key by then is returned."""
    kind = shop()

    async def main() -> None:
        (log,) = await fill(url, kind, ROOM)
        age(url, log)
        async with sagas.open(url, [kind]) as store:
            for other in (False, True):
                looks = StoreReader(store._reader())
                with contextlib.closing(looks), admin.writing(url) as link:
                    with link.transaction():
                        link.changed("LOCK TABLE attempts IN ACCESS EXCLUSIVE MODE")
                        reading = asyncio.ensure_future(
                            asyncio.to_thread(lambda: looks.ask(one_saga.view("k0")))
                        )
                        await until(lambda: waits_for_a_lock(url))
                        link.changed("DELETE FROM sagas WHERE key = ?", "k0")
                        if other:
                            link.changed("UPDATE sagas SET key = 'k0' WHERE key = 'k1'")
                    view = await reading
                assert (view is None) is not other
                if view:
                    assert view.results == {"take": {"of": "k1"}, "pay": 1}
                else:
                    change(url, AS_BEFORE.format(id=1000 * log))

    run(main())
