"""Labels of sagas, and commands to all sagas of a filter, over both kinds of database."""

from __future__ import annotations

import asyncio
import contextlib
import json
import os
import pathlib
import subprocess
import sys
import textwrap
from subprocess import PIPE
from typing import Any

import pytest
from cases import Task, run, until
from driving import program
from test_command import Shell, signed

import sagas
from sagas.runtime import operator_commands, retention
from sagas.storage import admin, batches

HERE = pathlib.Path(__file__).resolve().parent
CUSTOMER = {"customer": "7"}


def must() -> sagas.Saga:
    """Return a saga that gets stuck: a step that cannot be undone must not be kept."""
    must = sagas.Saga("must")

    @must.step(undo=sagas.NEVER, keep=sagas.NEVER)
    async def take(task: Task) -> int:
        return 1

    @must.step(needs=[take], skip=2)
    async def pay(task: Task) -> int:
        raise sagas.Fail("refused")

    return must


def rows(path: str, query: str) -> list[tuple[Any, ...]]:
    """Return rows of a store, read without its programs."""
    with contextlib.closing(admin.connect(path)) as link:
        return link.ask(query)


def aborts(path: str) -> dict[str, int]:
    """Return how often the event log of each saga has an abort."""
    counts = {key: 0 for (key,) in rows(path, "SELECT key FROM sagas")}
    keys = {id: key for id, key in rows(path, "SELECT id, key FROM sagas")}
    for shard, text in rows(path, "SELECT shard, text FROM event_log"):
        for event in map(json.loads, text.splitlines()):
            counts[keys[shard * 1000 + event["saga"]]] += event["event"] == "abort"
    return counts


def test_sagas_are_listed_by_their_labels(location: str) -> None:
    """This holds also after a restart; a second start of a key keeps the labels of the first."""

    async def main() -> None:
        async with sagas.open(location, [kind := signed()]) as store:
            await store.start(kind, "a", labels=CUSTOMER | {"region": "north"})
            await store.start(kind, "b", labels=CUSTOMER)
            await store.start(kind, "c", labels={"customer": "70", "a b": "q\"'%;?"})
            await store.start(kind, "d")
            assert not (await store.start(kind, "b", labels={"customer": "8"})).new
        async with sagas.open(location, [kind]) as store:
            listed = await store.list(labels=CUSTOMER)
            assert [(summary.key, summary.labels) for summary in listed] == [
                ("a", CUSTOMER | {"region": "north"}),
                ("b", CUSTOMER),
            ]
            assert [summary.key for summary in await store.list(labels={"a b": "q\"'%;?"})] == ["c"]
            assert [summary.labels for summary in await store.list(after=listed[-1].id, limit=5)][
                1:
            ] == [{}]
            assert await store.count(labels=CUSTOMER, phase="open", saga="signed") == 2
            for none in (CUSTOMER | {"region": "south"}, {"Customer": "7"}):
                assert await store.count(labels=none) == 0
            assert await store.count(saga="another") == 0 and await store.count() == 4

    run(main())


@pytest.mark.parametrize(
    "labels, text",
    [
        (["customer"], "labels=['customer']: labels must be up to 16 texts by name"),
        ({"": "7"}, "label name ''"),
        ({"a=b": "7"}, "label name 'a=b'"),
        ({"n" * 65: "7"}, "label name "),
        ({7: "7"}, "label name 7"),
        ({"customer": 7}, "label 'customer': 7: labels must be"),
        ({"customer": ""}, "label 'customer': ''"),
        ({"customer": "a\nb"}, "label 'customer': 'a\\nb'"),
        ({"customer": "\ud800"}, "label 'customer'"),
        ({"customer": "v" * 257}, "label 'customer'"),
        ({str(number): "7" for number in range(17)}, "17 labels"),
    ],
)
def test_invalid_labels(tmp_path: pathlib.Path, labels: Any, text: str) -> None:
    """No saga is started, and no filter accepts them."""

    async def main() -> None:
        async with sagas.open(tmp_path / "store.db", [kind := signed()]) as store:
            with pytest.raises(sagas.InvalidLabel) as caught:
                await store.start(kind, "a", labels=labels)
            assert text in str(caught.value)
            with pytest.raises(sagas.InvalidLabel):
                await store.abort_all(labels=labels)
            assert await store.count() == 0

    run(main())


def test_labels_leave_with_their_sagas(
    tmp_path: pathlib.Path, monkeypatch: pytest.MonkeyPatch
) -> None:
    """Their shard is exported with them before."""
    monkeypatch.setattr("sagas.definition.registry.SHARD_CAPACITY", 2)
    path = str(tmp_path / "store.db")

    async def main() -> None:
        async with sagas.open(path, [kind := must(), other := signed()]) as store:
            await store.start(kind, "a", labels=CUSTOMER)
            await store.start(kind, "b", labels=CUSTOMER)
            for key in ("a", "b"):
                await store.wait(key)
            await store.resolve_all("seen", by="ann")
            await store.start(other, "c", labels={"customer": "8"})
            await until(lambda: rows(path, "SELECT 1 FROM shards WHERE closed = 1"))

    run(main())
    assert retention.prune(path, 0, tmp_path / "old").sagas == 2
    assert rows(path, "SELECT name, value FROM labels") == [("customer", "8")]
    (file,) = (tmp_path / "old").glob("*/sagas.jsonl")
    assert [json.loads(line)["labels"] for line in file.read_text().splitlines()] == [CUSTOMER] * 2


def test_all_sagas_of_a_filter_are_aborted_and_resolved(
    location: str, monkeypatch: pytest.MonkeyPatch
) -> None:
    """It takes several transactions; other sagas do not change, and the operator is recorded."""
    monkeypatch.setattr(batches, "MAX_SAGAS", 4)
    monkeypatch.setattr(operator_commands, "MAX_REQUESTS", 3)

    async def main() -> None:
        async with sagas.open(location, [kind := signed(), stuck := must()]) as store:
            for number in range(11):
                await store.start(kind, f"k{number}", labels=CUSTOMER)
                await store.start(stuck, f"s{number}", labels=CUSTOMER if number % 2 else None)
            await store.start(kind, "other", labels={"customer": "8"})
            for number in range(11):
                await store.wait(f"s{number}")
            assert not (await store.abort_all(labels={"customer": "9"})).done
            outcome = await store.abort_all(saga=kind, labels=CUSTOMER, by="ann", note="fraud")
            assert sorted(outcome.done) == sorted(f"k{number}" for number in range(11))
            assert not outcome.refused and not outcome.waiting
            for key in outcome.done:
                assert (await store.wait(key)).aborted
            assert [summary.key for summary in await store.list(phase="open")] == ["other"]
            with pytest.raises(ValueError):
                await store.resolve_all(" ")
            outcome = await store.resolve_all("called them", labels=CUSTOMER, by="ann")
            assert sorted(outcome.done) == ["s1", "s3", "s5", "s7", "s9"]
            assert (
                await store.count(phase="stuck") == 6 and await store.count(phase="resolved") == 5
            )
            assert (await store.resolve_all("again", labels=CUSTOMER)).done == []

    run(main())
    query = "SELECT key, command, value, answer FROM operator_commands ORDER BY id"
    stored = [
        (key, command, json.loads(value), answer)
        for key, command, value, answer in rows(location, query)
    ]
    bulks = [value.pop("bulk") for _, _, value, _ in stored]
    assert len({*bulks[:11]}) == 1 and len({*bulks[11:16]}) == 1 and len({*bulks}) == 2
    note = {"by": "ann", "note": "fraud", "via": "program"}
    assert stored[:11] == [(f"k{number}", "abort", note, "true") for number in range(11)]
    note = {"by": "ann", "note": "called them", "via": "program"}
    assert stored[11:] == [(f"s{number}", "resolve", note, "true") for number in (1, 3, 5, 7, 9)]


def test_the_command_counts_first(location: str, capsys: pytest.CaptureFixture[str]) -> None:
    """A command that comes while no program has the store is executed by the next one."""
    shell = Shell(location, capsys)

    async def fill() -> None:
        async with sagas.open(location, [kind := signed(), stuck := must()]) as store:
            for key in ("a", "b"):
                await store.start(kind, key, labels=CUSTOMER)
            await store.start(kind, "c")
            await (await store.start(stuck, "s", labels=CUSTOMER)).wait()

    async def rest() -> None:
        async with sagas.open(location, [signed(), must()]) as store:
            assert [(await store.wait(key)).aborted for key in ("a", "b")] == [True] * 2

    run(fill())
    label = ["--label", "customer=7"]
    lines = shell("list", *label).splitlines()
    assert [line.split()[0] for line in lines] == ["KEY", "a", "b", "s"] and lines[1].endswith(
        "customer=7"
    )
    assert (
        shell.json("list", *label, "--saga", "must")[0]["labels"]
        == CUSTOMER
        == shell.json("show", "a")["labels"]
    )
    assert "labels   customer=7\n" in shell("show", "a")
    assert shell("abort", "--all", *label) == "2 sagas: --yes aborts them\n"
    assert (
        shell.json("abort", "--all") == {"count": 3} and shell.json("list", "--phase", "open") != []
    )
    assert shell("abort", "--all", *label, "--yes", "--note", "fraud") == "".join(
        f"{key}: requested; it takes effect when its program handles it\n" for key in "ab"
    )
    assert (
        shell("abort", "--all", *label) == "0 sagas\n"
        and shell.json("abort", "--all", *label, "--yes") == []
    )
    run(rest())
    assert (
        shell("resolve", "--all", *label, "--note", "seen", "--count")
        == "1 saga: without --count resolves it\n"
    )
    assert shell("resolve", "--all", *label, "--note", "seen") == "s: resolved\n"
    for arguments in ([], ["a", "--all"], ["a", *label], ["--all", "--label", "customer"]):
        shell("abort", *arguments, status=2)
    shell("abort", "--all", *label, "--label", "customer=8", status=2)
    shell("list", "--label", "=8", status=2)


def test_a_clients_start_has_its_labels(url: str) -> None:
    """They come from its own row until a node opens it.

    A start that no node has taken is withdrawn by them.
    """

    async def main() -> None:
        async with sagas.Client(url) as client:
            for key in ("a", "b"):
                assert (await client.start(kind, key, labels=CUSTOMER)).new
            await client.start(kind, "c", labels={"customer": "8"})
            assert (await client.abort_all(saga="another", labels=CUSTOMER)).done == []
            assert sorted((await client.abort_all(labels=CUSTOMER)).done) == ["a", "b"]
            async with sagas.open(url, [kind]) as store:
                await until(lambda: rows(url, "SELECT 1 FROM sagas"))
                assert [(summary.key, summary.labels) for summary in await client.list()] == [
                    ("c", {"customer": "8"})
                ]
                assert await client.count(labels={"customer": "8"}) == 1
                outcome = await client.abort_all(by="ann")
                assert outcome.done == ["c"] and (await store.wait("c")).aborted

    kind = signed()
    asyncio.run(sagas_of(url))
    run(main())


async def sagas_of(url: str) -> None:
    """Make the tables."""
    async with sagas.open(url, [signed()]):
        pass


def test_without_async(location: str) -> None:
    """The same calls work in a thread."""
    with sagas.open_sync(location, [kind := signed()]) as store:
        store.start(kind, "a", labels=CUSTOMER)
        assert [summary.key for summary in store.list(labels=CUSTOMER)] == ["a"] and store.count(
            labels=CUSTOMER
        ) == 1
        assert (
            store.abort_all(labels=CUSTOMER, timeout=60).done == ["a"]
            and store.resolve_all("x").done == []
        )


BATCH = """
    import sys, sagas.cli.store_command
    from sagas.storage import admin, batches
    batches.MAX_SAGAS = 4
    def notify(self, message):  # after each transaction
        print("asked", flush=True)
        sys.stdin.readline()
    admin.FileSource.notify = admin.DatabaseSource.notify = notify
    words = ["--label", "customer=7", "--yes", "--timeout", "0"]
    sagas.cli.store_command.main([{path!r}, "abort", "--all", *words])
"""
DRIVER = """
    import asyncio, sagas, sagas.definition.registry
    from test_command import signed
    async def main():
        async with sagas.open({path!r}, [kind := signed()], lease=2.0) as store:
            for number in range({count}):
                await store.start(kind, f"k{{number}}", labels={{"customer": "7"}})
                print("began", f"k{{number}}", flush=True)
            await store.serve()
    asyncio.run(main())
"""


def child(file: pathlib.Path, text: str, **fields: Any) -> subprocess.Popen[str]:
    """Start a separate program."""
    file.write_text(textwrap.dedent(text.format(**fields)))
    environment = os.environ | {
        "PYTHONPATH": f"{HERE.parent / 'src'}:{HERE}",
        "SAGAS_PROGRAM": program(),
    }
    return subprocess.Popen(
        [sys.executable, "-u", str(file)], stdin=PIPE, stdout=PIPE, text=True, env=environment
    )


def heard(process: subprocess.Popen[str], count: int) -> list[str]:
    """Return `count` lines of its output; then kill it."""
    assert process.stdout and process.stdin
    lines = []
    for _ in range(count):
        lines.append(process.stdout.readline().rstrip())
        with contextlib.suppress(OSError):
            process.stdin.write("\n") if len(lines) < count else None
            process.stdin.flush()
    process.kill()
    process.wait()
    process.stdout.close()
    with contextlib.suppress(OSError):
        process.stdin.close()
    return lines


def test_a_killed_batch_continues(location: str, tmp_path: pathlib.Path) -> None:
    """The program that starts sagas, the command after its second transaction, and the program that
    executes it are killed: no label is lost, and each saga is aborted once.
    """
    count = 18
    began = heard(child(tmp_path / "driver.py", DRIVER, path=location, count=99), count)
    having = "SELECT key FROM sagas JOIN labels USING (id) WHERE name = 'customer' AND value = '7'"
    with_labels = [key for (key,) in rows(location, having)]
    keys = [f"k{number}" for number in range(count)]
    assert began == [f"began {key}" for key in keys] and {*keys} <= {*with_labels}
    for table in ("sagas", "labels"):
        assert rows(location, f"SELECT count(*) FROM {table}") == [(len(with_labels),)]
    assert heard(child(tmp_path / "batch.py", BATCH, path=location), 2) == ["asked"] * 2
    assert rows(location, "SELECT count(*) FROM operator_commands") == [(8,)]
    killed = child(tmp_path / "driver.py", DRIVER, path=location, count=0)
    while sum(aborts(location).values()) < 3:
        assert killed.poll() is None
    heard(killed, 0)

    async def main() -> None:
        async with sagas.open(location, [signed()], lease=2.0) as store:
            outcome = await store.abort_all(labels=CUSTOMER)
            assert not outcome.refused and len(outcome.done) == len(with_labels) - 8
            await store.wait_idle()

    run(main())
    assert aborts(location) == dict.fromkeys(with_labels, 1)
