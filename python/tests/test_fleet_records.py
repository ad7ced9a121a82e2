"""Records of nodes, services and clients, and how `sagas store URL record` judges them."""

from __future__ import annotations

import asyncio
import datetime
import json
import pathlib
import re
from collections.abc import Callable
from typing import Any

import fleet
from features_store import rows_of
import psycopg
import pytest
from cases import Task, ended, run, simple, until
from serving import DEFINITIONS, all_done, served, start
from test_service_webhooks import Receiver, receiver, table, written

import sagas
from sagas.cli import store_command
from sagas.server import command
from sagas.storage.record_file import RecordFile

__all__ = ["receiver"]
Json = dict[str, Any]


async def done(task: Task) -> str:
    return "done"


def fields_of(path: pathlib.Path) -> list[list[str]]:
    """Return the lines of a record, each split into its fields."""
    return [line.split(" ") for line in path.read_text().splitlines()]


def edges_of(path: pathlib.Path) -> set[str]:
    """Return the edges at which something was acknowledged."""
    return {fields[-1] for fields in fields_of(path) if fields[0] in ("told", "seen")}


@pytest.fixture
def store(url: str, tmp_path: pathlib.Path) -> str:
    """Return a store in which two sagas are over; its node's record is `node`."""

    async def main() -> None:
        kind = simple(done)
        async with sagas.open(url, [kind], record=tmp_path / "node") as store:
            for key in ("secret-1", "secret-2"):
                assert (await ended(store, kind, key, {"is": "secret"})).ok

    run(main())
    return url


@pytest.fixture
def judge(
    store: str, tmp_path: pathlib.Path, capsys: pytest.CaptureFixture[str]
) -> Callable[..., list[Json]]:
    """Return the command over that store, with its output for programs."""

    def call(*arguments: str, status: int = 0) -> list[Json]:
        capsys.readouterr()
        assert store_command.main([store, "record", "--json", *arguments]) == status
        shards: list[Json] = json.loads(capsys.readouterr().out)
        return shards

    return call


def test_the_program_judges_records() -> None:
    """So that every record of these tests is judged by the program, and not only by the model."""
    assert fleet.has_program()


def test_a_record_is_judged(
    store: str, judge: Callable[..., list[Json]], tmp_path: pathlib.Path
) -> None:
    """With and without it; and it has no key, no input and no result."""
    path = tmp_path / "node"
    (shard,) = judge(str(path), "--save", str(tmp_path / "saved"))
    assert (
        shard["good"]
        and shard["answer"].startswith("yes sessions ")
        and shard["losses"] == shard["ends_lost"] == []
    )
    assert "told" in (tmp_path / "saved" / "0.record").read_text()
    (alone,) = judge()
    assert alone["good"] and alone["events"] < shard["events"]
    assert (
        edges_of(path) == {"call", "wake"}
        and "secret" not in path.read_text()
        and "done" not in path.read_text()
    )


def change(url: str, text: str) -> None:
    with psycopg.connect(url, options="-csearch_path=sagas", autocommit=True) as link:
        link.execute(text.encode())


@pytest.mark.parametrize(
    "text",
    [
        "DELETE FROM event_log WHERE first_seq = (SELECT max(first_seq) FROM event_log)",
        "UPDATE event_log SET text = replace(text, 'commit', 'missed')",
        "UPDATE event_log SET epoch = 2",
        "UPDATE takeovers SET epoch = 2 WHERE epoch = 1",
        "DELETE FROM takeovers",
        "DELETE FROM event_log; DELETE FROM shards",
    ],
)
def test_a_database_that_differs(
    store: str, judge: Callable[..., list[Json]], tmp_path: pathlib.Path, text: str
) -> None:
    """A commit is missing, is another one, or has another epoch; or takeovers, or the shard."""
    change(store, text)
    (shard,) = judge(str(tmp_path / "node"), status=1)
    assert not shard["good"] and shard["answer"].startswith("no line ")


@pytest.mark.parametrize(
    ("text", "gap"),
    [
        (
            "DELETE FROM event_log WHERE first_seq = 0",
            "a commit follows event .*, and the previous one ends at 0",
        ),
        (
            (
                "DELETE FROM event_log WHERE first_seq = (SELECT min(first_seq) FROM event_log"
                " WHERE first_seq > 0)"
            ),
            "a commit follows event .*",
        ),
        (
            "UPDATE event_log SET first_seq = first_seq - 1 WHERE first_seq > 0",
            "a commit follows event .*",
        ),
    ],
)
def test_a_log_with_a_gap(
    store: str,
    judge: Callable[..., list[Json]],
    capsys: pytest.CaptureFixture[str],
    text: str,
    gap: str,
) -> None:
    """This holds without files, too: each commit has the number of events before it."""
    assert judge()[0]["gaps"] == []
    change(store, text)
    (shard,) = judge(status=1)
    assert (
        not shard["good"]
        and re.fullmatch(gap, shard["gaps"][0])
        and shard["answer"].startswith("yes ")
    )
    assert store_command.main([store, "record"]) == 1
    shown = capsys.readouterr().out
    assert "  NO    yes sessions " in shown and f"shard 0: gap: {shard['gaps'][0]}" in shown


def test_an_acknowledged_end_that_is_missing(
    store: str,
    judge: Callable[..., list[Json]],
    tmp_path: pathlib.Path,
    capsys: pytest.CaptureFixture[str],
) -> None:
    """A client got it, whose record has the number of the saga."""

    async def main() -> None:
        async with sagas.Client(store, record=tmp_path / "client") as client:
            assert (await client.wait("secret-2")).ok

    run(main())
    files = [str(tmp_path / "node"), str(tmp_path / "client")]
    assert judge(*files)[0]["good"] and fields_of(tmp_path / "client")[1][2:] == ["1", "client"]
    change(store, "UPDATE sagas SET phase = NULL WHERE key = 'secret-2'")
    (shard,) = judge(*files, status=1)
    assert shard["good"] and shard["ends_lost"] == [1]
    assert store_command.main([store, "record", *files]) == 1
    assert "shard 0: lost: the acknowledged ends of the sagas 1" in capsys.readouterr().out


def test_acknowledgements_of_a_service(
    url: str, tmp_path: pathlib.Path, receiver: Receiver
) -> None:
    """Starts by its replies, ends by its webhooks, and to waiting callers."""
    options = [
        "--local-webhooks",
        "--webhooks",
        written(tmp_path, table(receiver.url)),
        "--record",
        str(tmp_path / "record"),
    ]
    with served(tmp_path, DEFINITIONS, *options, store=url) as service, service.client() as client:
        assert start(client, "trip", "t").status_code == 201
        all_done(client, "trip/flight", "trip/car", "trip/tour")
        assert client.get("/v1/sagas/t/wait").json()["over"]
        receiver.wait(1)
    shards, faults = fleet.judged(url, [tmp_path / "record"])
    assert len(shards) == 1 and faults == []
    assert {"wake", "reply", "webhook"} <= edges_of(tmp_path / "record")


def test_a_shard_that_was_deleted_is_not_judged(url: str, tmp_path: pathlib.Path) -> None:
    """It was closed before, as its node noted."""

    async def main() -> None:
        kind, soon = simple(done), datetime.timedelta(milliseconds=1)
        async with sagas.open(url, [kind], record=tmp_path / "record") as store:
            assert (await ended(store, kind)).ok
        async with sagas.open(url, [kind], record=tmp_path / "record", retention=soon) as store:
            await until(lambda: not rows_of(url, "SELECT 1 FROM shards"))
            assert await store.get("k") is None

    run(main())
    assert any(fields[0] == "closed" for fields in fields_of(tmp_path / "record"))
    assert fleet.judged(url, [tmp_path / "record"]) == ([], [])


def test_a_record_that_cannot_be_written(url: str, caplog: pytest.LogCaptureFixture) -> None:
    """The error is logged once, and blocks no saga."""

    async def main() -> None:
        kind = simple(done)
        async with sagas.open(url, [kind], record="/dev/full") as store:
            assert (await ended(store, kind)).ok and (await ended(store, kind, "other")).ok

    run(main())
    assert sum("the record /dev/full ends here" in line.message for line in caplog.records) == 1


def test_records_that_cannot_be(
    url: str, tmp_path: pathlib.Path, monkeypatch: pytest.MonkeyPatch
) -> None:
    """Each error says what to do. The environment is only for stores over PostgreSQL."""
    kind, file, missing = simple(done), tmp_path / "store.db", tmp_path / "missing" / "record"

    async def opens(path: str | pathlib.Path, record: Any) -> None:
        async with sagas.open(path, [kind], record=record) as store:
            assert (await ended(store, kind, "k")).ok

    with pytest.raises(TypeError, match="must be the path of a file"):
        sagas.open(url, [kind], record=5)  # type: ignore[arg-type]
    with pytest.raises(ValueError, match="must not be empty"):
        sagas.Client(url, record="")
    with pytest.raises(sagas.InvalidStore, match="is a SQLite file"):
        run(opens(file, tmp_path / "record"))
    with pytest.raises(sagas.InvalidStore, match="No such file or directory"):
        run(opens(url, missing))
    monkeypatch.setenv("SAGAS_RECORD", str(tmp_path / "record"))
    run(opens(file, None))
    assert not (tmp_path / "record").exists()
    run(opens(url, None))
    assert (tmp_path / "record").stat().st_mode & 0o777 == 0o600


@pytest.mark.parametrize(
    ("text", "edges_of"),
    [
        (None, "No such file or directory. Pass the file of a record"),
        (
            "sagas-record 1 a\nwhat\n",
            "line 2: it is not an event. Pass a file that a program wrote",
        ),
        ("sagas-record 2 a\n", "line 1: its format is not 1"),
    ],
)
def test_invalid_files(
    store: str,
    tmp_path: pathlib.Path,
    capsys: pytest.CaptureFixture[str],
    text: str | None,
    edges_of: str,
) -> None:
    path = tmp_path / "other"
    if text is not None:
        path.write_text(text)
    assert store_command.main([store, "record", str(path)]) == 4
    assert edges_of in capsys.readouterr().err


def test_a_last_line_that_is_not_whole(
    judge: Callable[..., list[Json]], tmp_path: pathlib.Path
) -> None:
    """Its program may be writing it."""
    with open(tmp_path / "node", "a", encoding="utf-8") as file:
        file.write("told 1f")
    assert judge(str(tmp_path / "node"))[0]["good"]


def test_a_file_has_no_record(tmp_path: pathlib.Path, capsys: pytest.CaptureFixture[str]) -> None:
    assert store_command.main([str(tmp_path / "store.db"), "record"]) == 2
    assert "needs a PostgreSQL store" in capsys.readouterr().err
    (tmp_path / "one.toml").write_text('format = 2\nname = "one"\n[[step]]\nname = "a"\n')
    assert (
        command.main(
            [str(tmp_path / "store.db"), "--definitions", str(tmp_path), "--record", "record"]
        )
        == 2
    )
    assert "--record requires a postgresql:// URL" in capsys.readouterr().err


def test_a_folder_that_cannot_be_written(
    store: str, tmp_path: pathlib.Path, capsys: pytest.CaptureFixture[str]
) -> None:
    assert store_command.main([store, "record", "--save", str(tmp_path / "node" / "below")]) == 4
    assert "Not a directory. Pass a writable folder to --save" in capsys.readouterr().err


def test_a_node_that_takes_over_shards(url: str, tmp_path: pathlib.Path) -> None:
    """The node continues after it, so that the epochs of one record are in the other one."""
    gate, calls = asyncio.Event(), list[str]()

    async def waits(task: Task) -> None:
        calls.append(task.attempt_id)
        await gate.wait()

    async def main() -> None:
        kind = simple(waits)
        async with sagas.open(url, [kind], record=tmp_path / "one", shutdown_timeout=0) as store:
            await store.start(kind, "k")
            await until(lambda: calls)
        gate.set()
        async with sagas.open(url, [kind], record=tmp_path / "two") as store:
            assert (await store.wait("k")).ok

    run(main())
    shards, faults = fleet.judged(url, [tmp_path / "one", tmp_path / "two"])
    assert len(shards) == 1 and faults == [] and shards[0].answer == ""
    assert fleet.judged(url, [tmp_path / "two"])[1] == []


@pytest.mark.parametrize("ends", [False, True])
def test_an_abort_is_answered_after_the_commit_of_its_reason(
    url: str, tmp_path: pathlib.Path, ends: bool
) -> None:
    """An abort that comes too late writes nothing.

    Its reply comes once the store has its reason.
    """
    gate, calls = asyncio.Event(), list[str]()

    async def waits(task: Task) -> None:
        calls.append(task.attempt_id)
        await gate.wait()

    def stopped() -> bool:
        with psycopg.connect(url) as link:
            return bool(
                link.execute(
                    "SELECT 1 FROM pg_stat_activity WHERE datname = current_database() "
                    "AND wait_event_type = 'Lock'"
                ).fetchall()
            )

    async def main() -> None:
        kind = simple(waits)
        async with sagas.open(url, [kind], record=tmp_path / "record") as store:
            saga = await store.start(kind, "k")
            await until(lambda: calls)
            with psycopg.connect(url) as stranger:
                stranger.execute("LOCK TABLE sagas.event_log IN EXCLUSIVE MODE")
                if ends:
                    gate.set()
                    first = asyncio.create_task(saga.wait())
                else:
                    first = asyncio.create_task(saga.abort())
                await until(lambda: asyncio.to_thread(stopped))
                second = asyncio.create_task(saga.abort())
                done, _ = await asyncio.wait([second], timeout=1)
                assert not done
            gate.set()
            assert await first and not await second
            assert (await saga.wait()).aborted != ends

    run(main())
    shards, faults = fleet.judged(url, [tmp_path / "record"])
    assert len(shards) == 1 and faults == []


def test_an_answer_of_an_older_epoch_that_comes_late(tmp_path: pathlib.Path) -> None:
    """It is not a takeover, and neither is a later read."""
    record = RecordFile(str(tmp_path / "record"), "run")
    record.open()
    line = "00000001"
    record.took((7, 9, line), 1, "a\n")
    record.took((7, 10, line), 1, "a\n")
    record.read((7, 9, line), 1, "a\n")
    record.read((7, 10, line), 2, "a\nb\n")
    record.read((7, 10, "00000002"), 2, "a\nb\n")  # of another server: its session is not known
    record.close()
    edges = [fields for fields in fields_of(tmp_path / "record") if fields[0] in ("took", "told")]
    assert [(fields[0], fields[3], fields[4]) for fields in edges] == [
        ("took", "9", line),
        ("took", "10", line),
        ("told", "9", line),
        ("told", "10", line),
        ("took", "10", "00000002"),
    ]
