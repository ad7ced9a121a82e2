"""`sagas store`: what operators see and do, with a running program and without one."""

from __future__ import annotations

import asyncio
import contextlib
import datetime
import functools
import getpass
import io
import json
import logging
import os
import pathlib
import re
import shlex
import sqlite3
import subprocess
import sys
from typing import Any

import pytest
from cases import Task, ended, run, simple, until
from serving import environment

import sagas
from sagas.cli import audits, formatting, store_command
from sagas.cli.snapshot import Snapshot
from sagas.base import program, wording
from sagas.inspection import saga as one_saga, wording as value_wording
from sagas.inspection.question import StoreReader
from sagas.server import log_format
from sagas.storage import admin

Json = dict[str, Any]


class Shell:
    """Run the command on a store, and return its output."""

    def __init__(self, path: str | pathlib.Path, capsys: pytest.CaptureFixture[str]) -> None:
        self.path, self.capsys = path, capsys

    def __call__(self, *arguments: str, status: int = 0) -> str:
        self.capsys.readouterr()
        assert store_command.main([str(self.path), *arguments]) == status
        return self.capsys.readouterr().out

    def json(self, *arguments: str, status: int = 0) -> Any:
        """Return its output for programs."""
        return json.loads(self(*arguments, "--json", status=status))


class Screen(io.StringIO):
    """A terminal."""

    def isatty(self) -> bool:
        return True


def shop() -> sagas.Saga:
    """Return a saga that ends well, is stuck, or waits, by its input."""
    shop = sagas.Saga("shop")

    @shop.step
    def reserve(task: Task) -> Json:
        return {"place": 17}

    @reserve.compensation
    def release(task: Task) -> None:
        ...

    @shop.step(
        needs=[reserve],
        skip=sagas.NEVER,
        tries=2,
        backoff=sagas.Backoff(initial=0.01),
        max_unknown=1,
    )
    def charge(task: Task) -> str:
        if task.input == "fails":
            raise sagas.Retry("the card is refused")
        if task.input == "outcome unknown":
            raise ConnectionError("no answer")
        return "charged"

    @charge.compensation
    def refund(task: Task) -> None:
        ...

    return shop


def signed() -> sagas.Saga:
    """Return a saga that waits for an operator."""
    signed = sagas.Saga("signed")

    @signed.step
    def write(task: Task) -> str:
        return "letter"

    @write.compensation
    def tear(task: Task) -> None:
        ...

    @signed.approval(needs=[write])
    def sign(task: Task) -> None:
        ...

    return signed


def held(path: str) -> list[tuple[Any, ...]]:
    """Return what the store holds for an operator: keys and reasons."""
    with contextlib.closing(admin.connect(path)) as link:
        return link.ask(
            "SELECT key, reason FROM suspensions JOIN sagas USING (id) WHERE reason = 'approval' OR"
            " reason = 'unknown' AND until IS NULL"
        )


async def filled(path: str, store: sagas.Store, sagas_: list[sagas.Saga]) -> None:
    """Start one saga for each result, and wait until each has it."""
    shop, signed = sagas_
    for key, value in (("good", None), ("bad", "fails"), ("odd", "outcome unknown")):
        await store.start(shop, key=key, input=value)
    for key in ("letter-1", "letter-2"):
        await store.start(signed, key=key)
    for key in ("good", "bad"):
        await store.wait(key)
    await until(lambda: len(held(path)) == 3)


@pytest.fixture(scope="module", params=["sqlite", "postgresql"])
def path(request: pytest.FixtureRequest, tmp_path_factory: pytest.TempPathFactory) -> str:
    """Return a store that no program has open, over either database."""
    in_file = request.param == "sqlite"
    path = (
        str(tmp_path_factory.mktemp("store") / "store.db")
        if in_file
        else request.getfixturevalue("postgresql").create()
    )
    kinds = [shop(), signed()]

    async def main() -> None:
        async with sagas.open(path, kinds) as store:
            await filled(path, store, kinds)

    asyncio.run(main())
    return str(path)


@pytest.fixture
def shell(path: str, capsys: pytest.CaptureFixture[str]) -> Shell:
    """Return the command on that store."""
    return Shell(path, capsys)


def test_list(shell: Shell) -> None:
    """It lists sagas in order of their starts, by phase, by name, and page by page."""
    text = shell("list")
    assert text.splitlines()[0].split() == ["KEY", "SAGA", "VERSION", "PHASE", "STARTED", "ENDED"]
    assert [line.split()[:4] for line in text.splitlines()[1:3]] == [
        ["good", "shop", "1", "completed"],
        ["bad", "shop", "1", "stuck"],
    ]
    assert [row["key"] for row in shell.json("list")] == [
        "good",
        "bad",
        "odd",
        "letter-1",
        "letter-2",
    ]
    assert [row["key"] for row in shell.json("list", "--phase", "open", "--saga", "signed")] == [
        "letter-1",
        "letter-2",
    ]
    assert [row["key"] for row in shell.json("list", "--after", "bad", "--limit", "1")] == ["odd"]
    assert [row["key"] for row in shell.json("list", "--newest", "--limit", "2")] == [
        "letter-2",
        "letter-1",
    ]
    assert [row["key"] for row in shell.json("list", "--newest", "--after", "odd")] == [
        "bad",
        "good",
    ]


def test_show(shell: Shell) -> None:
    """It shows a saga's steps, its plan and what it waits for."""
    text = shell("show", "bad")
    assert (
        "phase    stuck" in text
        and "no plan is feasible, because of charge" in text
        and "the card is refused" in text
    )
    assert shell("draw", "bad").startswith("digraph") and shell("draw", "good").startswith(
        "digraph"
    )
    assert shell("draw", "bad", "--svg").startswith("<svg") and shell.json("draw", "bad", "--svg")[
        "svg"
    ].endswith("</svg>")
    reply = shell.json("show", "good")
    assert [(step["step"], step["state"], step["result"]) for step in reply["steps"]] == [
        ("reserve", "committed", {"place": 17}),
        ("charge", "committed", "charged"),
    ]
    assert "an approval" in shell("show", "letter-1")
    assert [step["attempts"] for step in shell.json("show", "bad")["steps"]] == [1, 2]
    assert re.search(r"^STEP +STATE +TRIES +STARTED +ENDED +DETAIL$", text, re.M)
    # of the saga, and of its steps
    assert len(re.findall(r" \d{4}-\d\d-\d\d \d\d:\d\d:\d\dZ", text)) == 2 + 2 * 2
    reserve, charge = reply["steps"]
    assert (
        reply["at"]
        <= reserve["started"]
        <= reserve["ended"]
        <= charge["started"]
        <= charge["ended"]
        <= reply["ended"]
    )


def test_log_and_plan(shell: Shell) -> None:
    """They are as the store has them: the events with their times and effects, and the last plan
    with its certificate.
    """
    events = shell.json("log", "bad")
    assert [(event["event"], event["step"]) for event in events[:3]] == [
        ("open", None),
        ("start_run", "reserve"),
        ("commit", "reserve"),
    ]
    assert events[2]["value"] == {"place": 17} and all(
        a["at"] <= b["at"] for a, b in zip(events, events[1:])
    )
    text = shell("log", "bad")
    assert text.splitlines()[0].split() == ["TIME", "EVENT", "STEP", "DETAIL"] and re.search(
        r"Z  fail +charge +.*the card is refused", text
    )
    assert "no plan is feasible, because of charge" in shell("plan", "bad")
    assert (
        set(shell.json("plan", "bad")) == {"definition", "case", "answer"}
        and shell.json("plan", "good") is None
    )
    assert shell("plan", "good", status=1) == ""


def test_counts_stuck_and_waiting(shell: Shell) -> None:
    """They show how many there are, which are stuck and why, and what needs an operator."""
    assert shell.json("stats") == {
        "sagas": {
            "shop": {"open": 1, "completed": 1, "recovered": 0, "stuck": 1, "resolved": 0},
            "signed": {"open": 2, "completed": 0, "recovered": 0, "stuck": 0, "resolved": 0},
        },
        "undo_failed": 0,
        "attention_required": 3,
        "unused_report": 0,
        "on_end": 0,
        "damaged": 0,
    }
    assert "3 wait for an operator" in shell("stats")
    assert [(row["key"], row["blocking_steps"]) for row in shell.json("stuck")] == [
        ("bad", ["charge"])
    ]
    assert {(row["key"], row["step"], row["why"]) for row in shell.json("pending")} == {
        ("odd", "charge", "unknown"),
        ("letter-1", "sign", "approval"),
        ("letter-2", "sign", "approval"),
    }
    assert "an operator: unknown outcome (1 time)" in shell("pending")
    assert [row["count"] for row in shell.json("pending") if row["key"] == "odd"] == [1]


def test_audit_and_export(
    shell: Shell, path: str, tmp_path: pathlib.Path, capsys: pytest.CaptureFixture[str]
) -> None:
    """Each log is audited; a saga is exported with its events; a changed line is found."""
    assert all(log["good"] for log in shell.json("audit"))
    exported = shell.json("export", "bad")
    assert [event["event"] for event in exported["events"]][:3] == ["open", "start_run", "commit"]
    assert [result["outcome"] for result in exported["results"]] == [
        "commit",
        "missed",
        "fail",
    ] and exported["definition"].startswith("format")
    if path.startswith("postgresql:"):
        return
    spoilt = tmp_path / "spoilt.db"
    source, copy = sqlite3.connect(path), sqlite3.connect(spoilt)
    source.backup(copy)
    copy.execute(
        """UPDATE event_log SET text = replace(text, '"event":"fail"', '"event":"commit"')"""
    )
    copy.commit()
    for link in (source, copy):
        link.close()
    assert "NO" in Shell(spoilt, capsys)("audit", status=1)


def test_progress_on_a_terminal(path: str, monkeypatch: pytest.MonkeyPatch) -> None:
    """A long command prints its progress to a terminal."""

    screen = Screen()
    monkeypatch.setattr("sys.stderr", screen)
    assert store_command.main([path, "audit"]) == 0
    assert re.findall(r"shards: \d+ of \d+", screen.getvalue())[-1] == "shards: 1 of 1"


def test_missing_keys_and_files(
    shell: Shell, tmp_path: pathlib.Path, capsys: pytest.CaptureFixture[str]
) -> None:
    """Keys and files that do not exist, arguments that are not text, and files that are not a store
    change nothing.
    """
    for arguments in (
        ["show", "none"],
        ["show", "\udcff"],
        ["resolve", "\udcff", "--note", "\udcff"],
        ["abort", "none"],
        ["export", "none"],
        ["resolve", "none", "--note", "x"],
        ["resolve", "good", "--note", "x"],
    ):
        shell(*arguments, status=1)
    none = tmp_path / "none.db"
    assert Shell(none, capsys)("list", status=4) == "" and not none.exists()
    none.write_text("no store")
    Shell(none, capsys)("stats", status=4)
    for path in (tmp_path, pathlib.Path(":memory:")):
        Shell(path, capsys)("stats", status=4)
    with pytest.raises(SystemExit) as usage:
        shell("burn")
    assert usage.value.code == 2


def test_show_has_the_error(tmp_path: pathlib.Path, capsys: pytest.CaptureFixture[str]) -> None:
    """It shows the error of a step, and not that the later tries were given up.

    For a step that is kept since its compensation failed, it shows both.
    """
    must = sagas.Saga("must")

    @must.step(keep=sagas.NEVER)
    def take(task: Task) -> Json:
        return {"called": False}

    @take.compensation(tries=3, on_exhausted="fail")
    def give(task: Task) -> None:
        raise sagas.Fail("it is gone")

    @must.step(needs=[take], tries=3)
    def send(task: Task) -> None:
        raise sagas.Fail("no address")

    path = tmp_path / "must.db"

    async def main() -> None:
        async with sagas.open(path, [must]) as store:
            assert (await (await store.start(must, "k")).wait()).phase == "stuck"

    run(main())
    output = (shell := Shell(path, capsys))("show", "k")
    for arguments in (
        ["abort", "k"],
        ["complete", "k", "take", "--undo"],
        ["fail", "k", "send", "x"],
    ):
        assert store_command.main([str(path), *arguments]) == 1
        assert "k is stuck" in (errors := capsys.readouterr().err) and "run `resolve`" in errors
    text = shell("plan", "k", "--text")
    checked = subprocess.run([program.path()], input=text, capture_output=True, text=True)
    assert (checked.stdout, checked.returncode) == ("blocked\n", 0)
    assert re.search(
        (
            r'take  undo failed +1  .*Z  .*Z  \{"called": false\}; its compensation: \{"error":'
            r' "sagas.Fail: it is gone"'
        ),
        output,
    ), output
    assert re.search(
        r'send  failed +1  .*Z  .*Z  \{"error": "sagas.Fail: no address"', output
    ), output
    assert [step["state"] for step in Shell(path, capsys).json("show", "k")["steps"]] == [
        "undo_failed",
        "failed",
    ]


def test_texts_that_the_output_has_no_characters_for(
    location: str, capsys: pytest.CaptureFixture[str], caplog: pytest.LogCaptureFixture
) -> None:
    """Halves of surrogate pairs are printed escaped, and so are characters beyond ASCII if the
    output is ASCII; JSON has them all.
    """
    caplog.set_level(logging.CRITICAL, "sagas")  # the tests' runner takes no halves of pairs
    odd = "half \ud800 of a pair, \N{PILE OF POO} and \xe9"
    saga, letter = sagas.Saga("odd"), signed()

    @saga.step
    def give(task: Task) -> str:
        return odd

    @give.compensation(tries=1)
    def take(task: Task) -> None:
        raise sagas.Retry(odd)

    @saga.step(needs=[give], skip=sagas.NEVER)
    def fail(task: Task) -> None:
        raise sagas.Fail(odd)

    async def main() -> None:
        async with sagas.open(location, [saga, letter]) as store:
            assert (await (await store.start(saga, "k", odd)).wait()).phase == "stuck"
            await store.start(letter, "l", odd)
            await until(lambda: held(location))

    run(main())
    shell = Shell(location, capsys)
    shell("resolve", "k", "--note", odd)
    for arguments in (
        ["show", "k"],
        ["log", "k"],
        ["plan", "k"],
        ["export", "k"],
        ["draw", "k", "--svg"],
        ["show", "l"],
    ):
        output = shell(*arguments)
        assert arguments[0] in ("plan", "draw") or "\\ud800 of" in output, output
        shell.json(*arguments)
    for arguments in (["list"], ["pending"], ["stats"], ["stuck"]):
        shell(*arguments)
    assert shell.json("show", "k")["input"] == odd
    assert (
        store_command.main([location, "complete", "l", odd]) == 1
        and "\\ud800 of" in capsys.readouterr().err
    )
    plain = io.TextIOWrapper(io.BytesIO(), encoding="ascii")
    with contextlib.redirect_stdout(plain):
        assert (
            store_command.main([location, "show", "k"]) == 0
            and store_command.main([location, "show", "k", "--json"]) == 0
        )
    plain.seek(0)
    text, _, rest = plain.read().partition("\n{")
    assert "\\xe9" in text and json.loads("{" + rest)["input"] == odd


def test_no_text_adds_a_line_or_moves_a_cursor(
    tmp_path: pathlib.Path, capsys: pytest.CaptureFixture[str]
) -> None:
    """Texts come from callers, workers, functions and operators.

    A terminal executes none of them, each table has one line per row, and JSON has the text
    unchanged.
    """
    odd = "part\n40\x1b[1A\x1b[2K\x1b]0;x\x07\x7f\x9b31m\u202e"
    far, letter, location = sagas.Saga("far"), signed(), str(tmp_path / "store.db")
    far.step(name="car", external=True, undo=0)

    @far.step(tries=1, on_exhausted="ask")
    def pay(task: Task) -> None:
        raise sagas.Retry(odd)

    must = simple(lambda task: odd if task.input is None else failed(), skip=sagas.NEVER)

    def failed() -> None:
        raise sagas.Fail(odd)

    async def main() -> None:
        store = sagas.open(location, [far, letter, must])
        store.leased = True
        async with store:
            await store.start(far, "far", odd)
            (task,) = await store.workers.claim(
                [("far", "car", "run")], wait=30, lease=3600, worker=odd
            )
            await store.workers.heartbeat(
                task.attempt_id, task.lease, 3600, progress=0.4, detail=odd
            )
            await store.start(letter, "letter")
            assert (await ended(store, must, "good")).ok and (
                await ended(store, must, "bad", 1)
            ).phase == "stuck"
            await store.resolve("bad", odd, by=odd)
            assert (await ended(store, must, "worse", 1)).phase == "stuck"
            await until(lambda: len(shell.json("pending")) == 3)
            with pytest.raises(sagas.StepNotWaiting):
                await store.fail("letter", "none", odd, by=odd, note=odd)
            await store.fail("letter", "sign", odd, by=odd, note=odd)
            await store.wait("letter")

    shell = Shell(location, capsys)
    run(main())

    def printed(*arguments: str) -> str:
        output = shell(*arguments)
        assert all(line.isprintable() for line in output.split("\n")), (arguments, output)
        return output

    for arguments in (
        ["pending"],
        ["attention"],
        ["log", "letter"],
        ["log", "bad"],
        ["log", "good"],
    ):
        output = printed(*arguments)
        assert (
            output.count("\n") == 1 + len(json.loads(printed(*arguments, "--json")))
            and "\\x1b[2K" in output
        ), output
    for arguments in (["show", "far"], ["show", "bad"], ["show", "good"], ["draw", "far", "--svg"]):
        assert "\\x1b[2K" in printed(*arguments) and printed(*arguments, "--json")
    assert "\nnote     part 40\\x1b[1A" in printed("show", "bad") and printed("export", "bad")
    shown, exported = shell.json("show", "far"), shell.json("export", "far")
    assert (
        shown["input"] == odd
        and shown["steps"][0]["detail"] == odd
        and shell.json("show", "bad")["note"] == odd
    )
    assert shown.pop("plan") is None and shown.items() <= exported.items()
    assert store_command.main([location, "show", "a\nb \x1b[2K"]) == 1
    assert capsys.readouterr().err == "sagas store: no saga has the key a b \\x1b[2K\n"


def test_a_compensation_that_failed_is_seen(
    location: str, capsys: pytest.CaptureFixture[str]
) -> None:
    """Such sagas are listed and counted, and shown as `undo failed`, with the error; programs get
    the word of the rules.
    """
    row = sagas.Saga("row")

    @row.step(keep=5)
    def take(task: Task) -> int:
        return 1

    @take.compensation(on_exhausted="fail")
    def give(task: Task) -> None:
        if task.input == "gone":
            raise sagas.Fail("it is gone")

    @row.step(needs=[take])
    def send(task: Task) -> None:
        raise sagas.Fail("no address")

    async def main() -> None:
        async with sagas.open(location, [row]) as store:
            end = await (await store.start(row, "bad", "gone")).wait()
            assert end.states["take"] == "undo_failed"
            lines = "\n  undo failed take: sagas.Fail: it is gone\n  failed      send:"
            assert lines in str(end)
            assert re.search(r"take  undo failed +5 +never  stands", str(await store.plan("bad")))
            await (await store.start(row, "undone")).wait()
            listed = [
                (summary.key, summary.phase, summary.undo_failed) for summary in await store.list()
            ]
            assert listed == [("bad", "recovered", True), ("undone", "recovered", False)]
            assert [summary.key for summary in await store.list(phase="undo_failed")] == ["bad"]

    run(main())
    shell = Shell(location, capsys)
    assert [
        (row["key"], row["undo_failed"]) for row in shell.json("list", "--phase", "undo_failed")
    ] == [("bad", True)]
    assert "recovered, undo failed" in shell("list")
    counts = shell.json("stats")
    assert counts["undo_failed"] == 1 and "list --phase undo_failed" in shell("stats")
    assert shell.json("stuck") == [] and "1 ended with a permanently failed compensation" in shell(
        "stuck"
    )
    assert "phase    recovered, undo failed\n" in shell(
        "show", "bad"
    ) and "phase    recovered\n" in shell("show", "undone")
    shell("resolve", "bad", "--note", "it was found")
    for key, phase in (("undone", "recovered"), ("bad", "resolved")):
        assert store_command.main([location, "abort", key]) == 1
        assert (
            capsys.readouterr().err
            == f"sagas store: {key} has ended ({phase}), so there is nothing to abort\n"
        )


def test_the_log_names_operators_and_their_reasons(
    location: str, capsys: pytest.CaptureFixture[str], monkeypatch: pytest.MonkeyPatch
) -> None:
    """It has each action of an operator, also a refused one; only a terminal cuts the texts."""
    kind, why, shell = (
        signed(),
        f"the customer {'who is well known ' * 9}called",
        Shell(location, capsys),
    )

    async def main() -> None:
        async with sagas.open(location, [kind]) as store:
            for key in ("agreed", "not", "twice"):
                await store.start(kind, key)
            await until(lambda: len(held(location)) == 3)
            await store.complete("agreed", "sign", {"long": why}, by="ann", note="known customer")
            await asyncio.to_thread(shell, "fail", "not", "sign", why, "--by", "bob")
            await asyncio.to_thread(
                shell,
                "complete",
                "twice",
                "write",
                "--undo",
                "--note",
                "no letter",
                "--by",
                "bob",
                status=1,
            )
            for key in ("agreed", "not"):
                await store.wait(key)

    run(main())
    shell("complete", "twice", "sign", "--note", "as agreed")
    for key, line in (
        ("agreed", "complete by ann: known customer"),
        ("agreed", f'{{"long": "{why}"}}'),
        ("not", f"fail by bob: {why}"),
        (
            "twice",
            (
                r"complete (undo) by bob: no letter (refused: saga 'twice', step 'write': it has"
                r" not started. Report it after it starts)"
            ),
        ),
        ("twice", f"complete by {getpass.getuser()}: as agreed (no answer yet)"),
    ):
        assert f"  {line}\n" in shell("log", key)
    monkeypatch.setattr("sys.stdout", screen := Screen())
    assert store_command.main([location, "log", "not"]) == 0
    assert (
        re.search(r"Z  note +sign +fail by bob: the customer who .*\.\.\.\n", screen.getvalue())
        and why not in screen.getvalue()
    )


def test_a_far_time_hides_nothing(
    tmp_path: pathlib.Path, capsys: pytest.CaptureFixture[str]
) -> None:
    """An approval may wait for longer than any calendar has days."""
    kind, location = sagas.Saga("patient"), str(tmp_path / "store.db")
    kind.approval(name="sign", timeout=datetime.timedelta.max)(lambda task: None)

    async def main() -> None:
        async with sagas.open(location, [kind, soon := signed()]) as store:
            await store.start(kind, "far")
            await store.start(soon, "near")
            await until(lambda: len(held(location)) == 2)

    run(main())
    shell = Shell(location, capsys)
    assert {line.split()[0] for line in shell("pending").splitlines()} == {"KEY", "far", "near"}
    assert "an approval" in shell("show", "far") and shell.json("pending")[0]["until"] > 1e12


def test_invalid_arguments_of_lists(location: str, capsys: pytest.CaptureFixture[str]) -> None:
    """The status is 2, with one line; the arguments for the next page are quoted for a shell."""
    kind = simple(lambda task: None)

    async def main() -> None:
        async with sagas.open(location, [kind]) as store:
            for key in ("a b", "-c"):
                await ended(store, kind, key)

    run(main())
    for command in ("list", "attention", "deliveries"):
        assert store_command.main([location, command, "--limit", "0"]) == 0
        for value in ("-1", "9" * 20, "x"):
            with pytest.raises(SystemExit) as usage:
                store_command.main([location, command, "--limit", value])
            assert (
                usage.value.code == 2
                and f"argument --limit: invalid value '{value}': use an integer from 0 to"
                in capsys.readouterr().err
            )
    assert store_command.main([location, "list", "--label", "x="]) == 2
    assert capsys.readouterr().err.startswith("sagas store: --label: label 'x': '': ")
    with pytest.raises(SystemExit):
        store_command.main([location, "abort", "a b", "--timeout", "nan"])
    assert "argument --timeout: invalid value 'nan'" in capsys.readouterr().err
    arguments, keys = ["--limit", "1"], list[str]()
    for _ in range(2):
        assert store_command.main([location, "list", "--json", *arguments]) == 0
        printed = capsys.readouterr()
        keys += [row["key"] for row in json.loads(printed.out)]
        line = printed.err.removeprefix("there may be more: continue with ")
        arguments = [*shlex.split(line), "--limit", "1"]
    assert (
        keys == ["a b", "-c"]
        and line == "--after=-c\n"
        and store_command.main([location, "list", *arguments]) == 0
    )


FULL = "sagas store: cannot write the output or a temporary file: No space left on device\n"


def test_an_output_that_takes_nothing(tmp_path: pathlib.Path) -> None:
    """The status is 4, with a line for a full disk; for a pipe whose reader has ended there is
    none.
    """
    with sagas.open_sync(
        location := str(tmp_path / "store.db"), [kind := simple(lambda task: None)]
    ) as store:
        store.start(kind, "k").wait()
    there, pipe = os.pipe()
    os.close(there)
    with open("/dev/full", "wb") as full, open(pipe, "wb") as broken:
        for output, arguments, line in (
            (full, ["list"], FULL),
            (full, ["export", "k"], FULL),
            (broken, ["list", "--json"], ""),
        ):
            command = [sys.executable, "-m", "sagas", "store", location, *arguments]
            done = subprocess.run(
                command, stdout=output, stderr=subprocess.PIPE, text=True, env=environment()
            )
            assert (done.returncode, done.stderr) == (4, line)


def test_errors_with_a_closed_standard_error(
    path: str, capsys: pytest.CaptureFixture[str], monkeypatch: pytest.MonkeyPatch
) -> None:
    """If standard error is closed, only the status reports the error: it is not printed between the
    output.
    """
    for arguments, status in (["audit"], 0), (["show", "none"], 1), (["list", "--limit", "1"], 0):
        monkeypatch.setattr("sys.stderr", None)
        assert store_command.main([path, *arguments, "--json"]) == status
        output = capsys.readouterr().out
        assert bool(json.loads(output) if output else None) == (status == 0)


def test_commands_while_the_program_runs(location: str, capsys: pytest.CaptureFixture[str]) -> None:
    """abort, finish and resolve while the program has the store open: it executes them, and the
    command says so.
    """
    path, kinds = location, [shop(), signed()]
    shell = Shell(path, capsys)

    async def main() -> None:
        async with sagas.open(path, kinds) as store:
            await filled(path, store, kinds)

            async def concurrently(*arguments: str, status: int = 0) -> str:
                return await asyncio.to_thread(shell, *arguments, status=status)

            assert "aborted" in await concurrently("abort", "letter-1", "--note", "written twice")
            end = await store.wait("letter-1")
            assert end.aborted and end.states["write"] == "undone"
            assert "phase    recovered, aborted" in await concurrently("show", "letter-1")
            with contextlib.closing(StoreReader(store._reader())) as looks:
                assert [
                    (note.what, note.arguments, note.answer)
                    for note in looks.ask(one_saga.notes("letter-1"))
                ] == [("abort", {"by": getpass.getuser(), "note": "written twice"}, True)]
            # it is over, and needs no operator
            assert await concurrently("abort", "letter-1", status=1) == ""
            assert "succeeded" in await concurrently(
                "complete", "letter-2", "sign", "--result", '"signed"'
            )
            assert (await store.wait("letter-2")).results["sign"] == "signed"
            assert "failed" in await concurrently("fail", "odd", "charge", "it was not charged")
            await concurrently("complete", "good", "charge", status=1)
            assert "resolved" in await concurrently("resolve", "bad", "--note", "paid in cash")
            assert await concurrently(
                "stuck"
            ) == "KEY  SAGA  STUCK SINCE  BECAUSE\n" or "bad" not in await concurrently("stuck")

    run(main())


def test_errors_of_finish(location: str, capsys: pytest.CaptureFixture[str]) -> None:
    """It reports on standard error, without an error's name: a step that has not started, a
    finished one, a misspelt name, a text that is not JSON.
    """
    path, kinds = location, [shop(), signed()]

    def finish(*arguments: str, status: int = 1) -> str:
        assert store_command.main([path, "complete", *arguments]) == status
        printed = capsys.readouterr()
        assert printed.out == ""
        return printed.err

    async def main() -> None:
        async with sagas.open(path, kinds) as store:
            await filled(path, store, kinds)
            finish_in_thread = functools.partial(asyncio.to_thread, finish)
            over = "it has succeeded. This is a different outcome, and the first one counts"
            wrong = await finish_in_thread("letter-1", "write")
            assert wrong == f"sagas store: saga 'letter-1', step 'write': {over}\n"
            assert (
                await finish_in_thread("letter-1", "write", "--undo")
                == "sagas store: saga 'letter-1', step 'write': it has not started. Report it after"
                " it starts\n"
            )
            with pytest.raises(
                sagas.StepNotWaiting,
                match="saga 'letter-1' has no step 'sing'; did you mean 'sign'",
            ):
                await store.complete("letter-1", "sing")

    run(main())
    # also while no program runs
    assert (
        finish("letter-1", "sing")
        == "sagas store: saga 'letter-1' has no step 'sing'; did you mean 'sign'?\n"
    )
    assert "not JSON" in finish("letter-1", "sign", "--result", "yes", status=2)
    store_command.main([path, "complete", "letter-1", "sign", "--result", "yes"])
    assert """Quote a string: '"yes"'""" in capsys.readouterr().err
    for command, message in ("complete", "to approve it"), (
        "retry",
        "\n  1    no saga or step has the name, or",
    ):
        with pytest.raises(SystemExit):
            store_command.main([path, command, "--help"])
        assert message in capsys.readouterr().out


def test_many_stuck_sagas_are_resolved_at_once(
    location: str, capsys: pytest.CaptureFixture[str]
) -> None:
    """They are given by their keys, or all unresolved ones.

    Sagas that are not stuck are reported, and the others are resolved anyway.
    """
    shell = Shell(location, capsys)

    async def main() -> None:
        async with sagas.open(location, [kind := shop()]) as store:
            for number in range(5):
                await store.start(kind, key=f"bad-{number}", input="fails")
            await store.start(kind, key="good")
            for key in ("good", *(f"bad-{number}" for number in range(5))):
                await store.wait(key)

    asyncio.run(main())
    assert (
        shell("resolve", "bad-0", "good", "bad-1", "--note", "paid in cash", status=1)
        == "bad-0: resolved\nbad-1: resolved\n"
    )
    assert shell("resolve", "--all", "--note", " ", status=2) == ""
    assert shell("resolve", "--all", "--saga", "another", "--note", "x") == ""
    assert shell.json(
        "resolve", "--all", "--saga", "shop", "--note", "the terminal was broken"
    ) == [{"key": f"bad-{number}", "note": "the terminal was broken"} for number in (2, 3, 4)]
    assert shell.json("stats")["sagas"]["shop"] == {
        "open": 0,
        "completed": 1,
        "recovered": 0,
        "stuck": 0,
        "resolved": 5,
    }
    assert "paid in cash" in shell("show", "bad-0")
    for arguments in ([], ["bad-0", "--all"], ["good", "--count"]):
        shell("resolve", *arguments, "--note", "x", status=2)


def test_without_a_program(location: str, capsys: pytest.CaptureFixture[str]) -> None:
    """Requests that come while no program has the store open are executed by the next one."""
    path, kinds = location, [shop(), signed()]
    shell = Shell(path, capsys)

    async def first() -> None:
        async with sagas.open(path, kinds) as store:
            await filled(path, store, kinds)

    async def second() -> None:
        async with sagas.open(path, kinds) as store:
            assert (await store.wait("letter-1")).aborted
            assert (await store.wait("letter-2")).results["sign"] is None

    run(first())
    assert "when a program has the store open" in shell("abort", "letter-1")
    assert "when a program has the store open" in shell("complete", "letter-2", "sign")
    run(second())
    assert (
        sum(shell.json("stats")["sagas"]["signed"][phase] for phase in ("completed", "recovered"))
        == 2
    )


def test_times_and_counts_in_words() -> None:
    """Times are in UTC, in the same form in the command, on the page and in the service's log; a
    count of one has the singular.
    """
    record = logging.LogRecord("sagas", logging.INFO, "", 0, "said", None, None)
    record.created, record.msecs = 86400.0, 7
    assert formatting.moment(86400.0) == value_wording.clock(86400.0) == "1970-01-02 00:00:00Z"
    assert formatting.moment(1e15) == value_wording.clock(1e15) and formatting.moment(None) == ""
    assert (
        log_format.Text("%(asctime)s %(message)s").format(record) == "1970-01-02 00:00:00.007Z said"
    )
    assert [wording.number(count, "saga") for count in (0, 1, 2)] == [
        "0 sagas",
        "1 saga",
        "2 sagas",
    ]
    assert (
        repr(sagas.Saga("none")) == "<saga none, version 1, 0 steps>"
        and repr(signed()) == "<saga signed, version 1, 2 steps>"
    )


FORGED = {
    "UPDATE sagas SET phase = CASE key WHEN 'good' THEN 'stuck' ELSE 'ended' END"
    " WHERE key IN ('good', 'bad')": [
        "good: the row says stuck, the events say completed",
        "bad: the row says completed, the events say stuck",
    ],
    "UPDATE sagas SET phase = 'ended',"
    " outcome = (SELECT outcome FROM sagas WHERE key = 'good') WHERE key = 'bad'": [
        "bad: the row says completed, the events say stuck"
    ],
    "UPDATE sagas SET outcome = replace(outcome, 'committed', 'undone') WHERE key = 'good'": [
        "good: the row says completed with another outcome than the events"
    ],
    "UPDATE sagas SET recovered = 1 WHERE key = 'good'": [
        "good: the row says recovered, the events say completed"
    ],
    "UPDATE sagas SET phase = 'ended', outcome = '' WHERE key = 'odd'": [
        "odd: the row says completed, the events say open"
    ],
    "UPDATE sagas SET definition_index = 7 WHERE key = 'odd'": [
        "odd: the row has definition 7, the events 0"
    ],
    "UPDATE attempts SET event = 'missed'"
    " WHERE id = (SELECT id FROM sagas WHERE key = 'bad') AND event = 'fail'": [
        "bad: charge, run 2: the row says missed, the events fail"
    ],
    "DELETE FROM attempts WHERE id = (SELECT id FROM sagas WHERE key = 'good')": [
        "good: reserve, run 1: the row says nothing, the events commit",
        "good: charge, run 1: the row says nothing, the events commit",
    ],
    "INSERT INTO attempts SELECT id, 1, 'undo', 1, 'undone', NULL, 0 FROM sagas"
    " WHERE key = 'good'": ["good: charge, undo 1: the row says undone, the events nothing"],
    "DELETE FROM sagas WHERE key = 'letter-1'": ["saga 3: has events but no row"],
    "INSERT INTO attempts SELECT id, 1, 'undo', 1, 'ok', NULL, 0 FROM sagas WHERE key = 'good'": [
        "good: charge, undo 1: the row says ok, the events nothing"
    ],
    # as of a transaction that no program has reported
    "INSERT INTO attempts SELECT id, 1, 'run', 1, 'ok', NULL, 0 FROM sagas WHERE key = 'odd'": [],
    "UPDATE attempts SET value = 'null'": [],
}
"""Changes of the rows of a store, and the audit's report of each."""


def test_rows_that_differ_from_the_events(
    path: str, tmp_path: pathlib.Path, capsys: pytest.CaptureFixture[str]
) -> None:
    """The audit names each saga and each attempt whose rows differ; a value is only in the rows."""
    if path.startswith("postgresql:"):
        return
    for number, (statement, differences) in enumerate(FORGED.items()):
        copy = tmp_path / f"{number}.db"
        with contextlib.closing(sqlite3.connect(path)) as source, contextlib.closing(
            sqlite3.connect(copy)
        ) as forged:
            source.backup(forged)
            forged.execute(statement)
            forged.commit()
        (log,) = (forger := Shell(copy, capsys)).json("audit", status=1 if differences else 0)
        assert log["differences"] == differences and log["audit"].startswith("yes"), statement
        assert forger("audit", status=1 if differences else 0).splitlines()[2:] == [
            f"shard 0: {line}" for line in differences
        ]


def test_an_audit_during_writes(location: str) -> None:
    """Rows and events are of the same moment, at each of them."""
    kind = shop()

    def differences() -> list[audits.ShardAudit]:
        with Snapshot(location) as store:
            judged = [audits.audit_shard(store, log) for log, _, _ in store.rows(audits.SHARDS)]
        return [verdict for verdict in judged if not verdict.is_good]

    async def main() -> None:
        async with sagas.open(location, [kind]) as store:
            work = asyncio.gather(
                *(
                    ended(store, kind, f"k{number}", "fails" if number % 3 else None)
                    for number in range(60)
                )
            )
            while not work.done():
                assert await asyncio.to_thread(differences) == []
            await work
        assert differences() == []

    run(main())
