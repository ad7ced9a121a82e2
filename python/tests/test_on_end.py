"""Calls of `on_end` functions: at least once after each end, with its result, whatever happens."""

from __future__ import annotations

import asyncio
import contextlib
import datetime
import json
import os
import pathlib
import signal
import subprocess
import sys
from typing import Any

import pytest
from cases import QUICK, Task, run, until
from test_command import Shell

import sagas
import sagas.testing
from sagas.api import end_calls
from sagas.core.attention import AttentionReason
from sagas.runtime import retention
from sagas.storage.folder_blobs import FolderBlobStore

HERE = pathlib.Path(__file__).resolve().parent
Calls = list[tuple[str, str, dict[str, str]]]


class Reversing:
    """A codec that stores each value in reverse."""

    def encode(self, data: bytes) -> bytes:
        return data[::-1]

    decode = encode


def order(calls: Calls, gate: asyncio.Event | None = None, **options: Any) -> list[sagas.Saga[Any]]:
    """Return a saga whose input says how it ends, and its child. Both have an `on_end`."""
    part, saga = sagas.Saga("part"), sagas.Saga("order")
    part.step(name="pack", undo=1)(lambda task: 7).saga  # its child's result

    @part.steps[0].compensation
    def unpack(task: Task) -> None:
        ...

    @saga.step(keep=9)
    async def charge(task: Task) -> dict[str, str]:
        if gate is not None:
            await gate.wait()
        return {"id": "x" * task.input.get("size", 1)}

    @charge.compensation
    def refund(task: Task) -> None:
        if task.input["end"] == "stuck":
            raise sagas.Fail("no")

    box = saga.child(part, name="box", needs=[charge], input=lambda task: task.input)

    @saga.step(needs=[box])
    def send(task: Task) -> str:
        if task.input["end"] != "completed":
            raise sagas.Fail("sold out")
        return "sent"

    @part.on_end
    async def note(task: sagas.EndTask[dict[str, Any]]) -> None:
        calls.append((task.key, task.end.phase, task.end.states))

    @saga.on_end(backoff=QUICK, **options)
    def mail(task: sagas.EndTask[dict[str, Any]]) -> str:
        assert (task.saga, task.step, task.key) == ("order", "on_end", task.end.key)
        assert task.end.ok == (task.input["end"] == "completed")
        if task.end.ok:
            assert task.result_of(charge) == {"id": "x" * task.input.get("size", 1)}
        calls.append((task.key, task.end.phase, task.end.states))
        return "mailed"

    return [saga, part]


def licence(calls: Calls) -> sagas.Saga[Any]:
    """Return a saga that is stuck."""
    saga = sagas.Saga("licence")
    server = saga.step(name="server", undo=sagas.NEVER, skip=sagas.NEVER)(lambda task: 1)

    @saga.step(needs=[server], undo=sagas.NEVER, skip=sagas.NEVER)
    def key(task: Task) -> None:
        raise sagas.Fail("no")

    saga.on_end(lambda task: calls.append((task.key, task.end.phase, task.end.states)))
    return saga


@pytest.mark.parametrize("kind", ["plain", "codec", "blobs"])
def test_each_end_is_followed_by_a_call(
    kind: str, location: str, tmp_path: pathlib.Path, capsys: pytest.CaptureFixture[str]
) -> None:
    """Of sagas that complete, recover, are aborted or are stuck, and of children.

    The call is a saga of its own, with the labels of the saga that has ended. No caller starts,
    aborts or restarts it.
    """
    calls, gate, shell = Calls(), asyncio.Event(), Shell(location, capsys)
    declared, stuck = order(calls, gate), licence(calls)
    options: dict[str, Any] = {}
    if kind == "codec":
        options["codec"] = Reversing()
    if kind == "blobs":
        options |= {"blobs": FolderBlobStore(tmp_path / "blobs"), "blob_threshold": 256}

    async def main() -> None:
        async with sagas.open(location, [*declared, stuck], **options) as store:
            for key, end in (("a", "completed"), ("b", "recovered"), ("c", "aborted")):
                labels = {"customer": key}
                await store.start(declared[0], key, {"end": end, "size": 300}, labels=labels)
            await until(lambda: len(store.active_attempts("c")) == 1)
            assert await store.abort("c")
            gate.set()
            await store.start(stuck, "d", None)
            ends = {key: await store.wait(key, 60) for key in "abcd"}
            await store.wait_idle()
            phases = {key: end.phase for key, end in ends.items()}
            assert phases == {"a": "completed", "b": "recovered", "c": "recovered", "d": "stuck"}
            assert sorted((key, phase) for key, phase, _ in calls) == [
                ("a", "completed"),
                ("a/:box", "completed"),
                ("b", "recovered"),
                ("b/:box", "completed"),
                ("c", "recovered"),
                ("d", "stuck"),
            ]
            states = {key: states for key, _, states in calls}
            assert all(states[key] == ends[key].states for key in ends)
            assert (await store.wait("a/::end", 60)).results == {"on_end": "mailed"}
            assert (await store.wait("b/:box/::end", 60)).saga == "part-end"
            listed = {summary.key: summary.labels for summary in await store.list(limit=50)}
            assert listed["a/::end"] == listed["a/:box/::end"] == {"customer": "a"}
            assert [entry.key for entry in await store.attention()] == ["d"]
            await store.resolve("d", "by hand")
            assert len(calls) == 6  # a resolution does not end it
            with pytest.raises(sagas.NotRestartable, match="Restart 'a' instead"):
                await store.restart("a/::end", "n")
            end_saga = declared[0].end_saga
            assert end_saga is not None
            with pytest.raises(sagas.DefinitionError, match="only the store starts it"):
                await store.start(end_saga, "n", None)
            assert all(verdict.startswith("yes") for verdict in (await store.audit()).values())

    run(main())
    if kind == "plain":
        shown = shell.json("show", "a")
        assert shown["end_call"] == {"state": "done", "key": "a/::end", "detail": None}
        assert [child["key"] for child in shown["children"]] == ["a/:box"]
        assert "on_end   called (a/::end)" in shell("show", "a")
        assert {"order-end", "part-end"} <= {count["saga"] for count in shell.json("definitions")}


def test_a_call_that_fails_waits_for_an_operator(
    location: str, capsys: pytest.CaptureFixture[str]
) -> None:
    """It is retried first, with one idempotency key, and is not aborted."""
    saga, shell, keys = sagas.Saga("order"), Shell(location, capsys), list[str]()
    saga.step(name="pay")(lambda task: 1)
    left = [sagas.Retry("not now"), OSError("lost"), sagas.Fail("no such address"), None]

    @saga.on_end(backoff=QUICK)
    def mail(task: sagas.EndTask[Any]) -> None:
        keys.append(task.idempotency_key)
        if error := left.pop(0):
            raise error

    async def main() -> None:
        async with sagas.open(location, [saga]) as store:
            assert (await (await store.start(saga, "k", None)).wait(60)).ok

            async def waiting() -> list[sagas.Attention]:
                return await store.attention()

            while not (entries := await waiting()):
                await asyncio.sleep(0.01)
            (entry,) = entries
            assert (entry.key, entry.saga, entry.why) == (
                "k/::end",
                "order-end",
                AttentionReason.EXHAUSTED,
            )
            assert entry.detail is not None and "no such address" in entry.detail
            shown = await asyncio.to_thread(shell.json, "show", "k")
            assert shown["end_call"]["state"] == "person"
            with pytest.raises(sagas.NotAbortable, match="calls the on_end function of saga 'k'"):
                await store.abort("k/::end")
            assert (await store.abort_all(saga="order-end")).undoing == ["k/::end"]
            await store.retry("k/::end", "on_end")
            assert (await store.wait("k/::end", 60)).ok and await store.attention() == []
            assert len(keys) == 4 and len({*keys}) == 1

    run(main())


PROGRAM = """
import asyncio, os, signal, sys
sys.path[:0] = {paths!r}
import sagas
from test_on_end import killed

location, moment, witness = sys.argv[1:]
asyncio.run(killed(location, moment, witness))
"""


def witnessed(witness: str, kills: bool = False) -> sagas.Saga[Any]:
    """Return a saga whose `on_end` writes a line to a file. With `kills`, it then kills itself."""
    saga = sagas.Saga("order")
    saga.step(name="pay")(lambda task: "paid")

    @saga.on_end
    def mail(task: sagas.EndTask[Any]) -> None:
        with open(witness, "a") as file:
            print(task.key, task.end.phase, task.idempotency_key, file=file, flush=True)
        if kills:
            os.kill(os.getpid(), signal.SIGKILL)

    return saga


async def killed(location: str, moment: str, witness: str) -> None:
    """Run a saga until this program is killed, at a moment after its end."""

    def on_event(event: sagas.Event) -> None:
        at = {"ended": ("saga_ended", "k"), "started": ("saga_started", "k/::end")}.get(moment)
        if (event.name, event.key) == at:
            os.kill(os.getpid(), signal.SIGKILL)

    saga = witnessed(witness, moment == "called")
    async with sagas.open(location, [saga], node="n", on_event=on_event) as store:
        await store.start(saga, "k", {"n": 1})
        await store.wait_idle()
        raise AssertionError("it was to be killed")


def kill(location: str, moment: str, witness: pathlib.Path) -> None:
    """Run a saga in a program that is killed at a moment."""
    paths = [str(HERE), str(HERE.parent / "src")]
    text = PROGRAM.format(paths=paths)
    arguments = [sys.executable, "-c", text, location, moment, str(witness)]
    assert subprocess.run(arguments, timeout=120).returncode == -signal.SIGKILL


def lines_of(witness: pathlib.Path) -> list[str]:
    return witness.read_text().splitlines() if witness.exists() else []


@pytest.mark.parametrize("moment", ["ended", "started", "called"])
def test_a_kill_loses_no_call(
    moment: str, location: str, tmp_path: pathlib.Path, capsys: pytest.CaptureFixture[str]
) -> None:
    """Between the commit of the end and the start of the call, after the start, in the call."""
    witness, shell = tmp_path / "witness", Shell(location, capsys)
    kill(location, moment, witness)
    before = lines_of(witness)
    assert len(before) <= (1 if moment != "ended" else 0)
    expected = {"ended": "due", "started": "running", "called": "running"}[moment]
    assert shell.json("show", "k")["end_call"]["state"] == expected

    async def main() -> None:
        saga = witnessed(str(witness))
        async with sagas.open(location, [saga], node="n") as store:
            await store.wait_idle()
            assert (await store.wait("k/::end", 60)).ok
            assert len(await store.list(saga="order-end")) == 1

    run(main())
    lines = lines_of(witness)
    assert len(lines) >= 1 + (moment == "called") and len({*lines}) == 1
    assert lines[0].startswith("k completed ")
    assert shell.json("show", "k")["end_call"]["state"] == "done"


def test_a_deploy_without_the_function_loses_no_call(
    location: str,
    tmp_path: pathlib.Path,
    capsys: pytest.CaptureFixture[str],
    monkeypatch: pytest.MonkeyPatch,
) -> None:
    """The call waits, is shown, and keeps its saga from deletion; a program that has it calls.

    A saga that was open when the function was added is followed by a call.
    """
    monkeypatch.setattr("sagas.definition.registry.SHARD_CAPACITY", 1)
    monkeypatch.setattr(end_calls, "PAUSE", 0.2)
    witness, shell = tmp_path / "witness", Shell(location, capsys)
    kill(location, "ended", witness)
    without = sagas.Saga("order")
    without.step(name="pay")(lambda task: "paid")

    (finding,) = sagas.testing.check_upgrade(location, [without]).findings
    assert str(finding) == (
        "missing_step: 1 saga of order, the first is 'k': this program has no on_end function of "
        "saga 'order'"
    )

    async def main() -> None:
        async with sagas.open(location, [without], node="n") as store:
            await until(lambda: not store._access.coordinator.sagas.due_ends)
            (entry,) = await store.attention()
            assert (entry.key, entry.why, entry.step) == ("k", AttentionReason.ON_END, None)
            assert "MissingStep: this program has no on_end function" in (entry.detail or "")
            assert await asyncio.to_thread(shell.json, "stats") | {"on_end": 1}
            shown = await asyncio.to_thread(shell, "show", "k")
            assert "on_end   not started: MissingStep" in shown
            with pytest.raises(sagas.NotErasable, match="'k' has not been called yet"):
                await store.erase("k")
            with contextlib.suppress(sagas.SagasError):
                await store.restart("k", "other")  # a further saga closes the shard
            await store.start(without, "next", None)
            await store.wait("next", 60)
            pruned = await asyncio.to_thread(retention.prune, location, 0.0)
            assert "k" in {summary.key for summary in await store.list()}, pruned
        saga = witnessed(str(witness))
        async with sagas.open(location, [saga], node="n") as store:
            await store.wait_idle()
            assert (await store.wait("k/::end", 60)).ok and await store.attention() == []
        assert len(lines_of(witness)) == 1
        # the key is free after the deletion, and its next saga has a call of its own
        async with sagas.open(location, [saga], node="n") as store:
            await store.start(saga, "more", None)  # closes the shard of the call
            await store.wait_idle()

    run(main())


def test_a_program_with_the_function_calls_for_sagas_that_were_open(location: str) -> None:
    """Sagas that had ended before are not called."""
    calls, gate = Calls(), asyncio.Event()

    def saga_of(has_call: bool) -> sagas.Saga[Any]:
        saga = sagas.Saga("order")

        @saga.step
        async def pay(task: Task) -> str:
            if task.key == "open":
                await gate.wait()
            return "paid"

        if has_call:
            saga.on_end(lambda task: calls.append((task.key, task.end.phase, task.end.states)))
        return saga

    async def main() -> None:
        async with sagas.open(location, [saga := saga_of(False)], shutdown_timeout=0) as store:
            await store.start(saga, "over", None)
            await store.wait("over", 60)
            await store.start(saga, "open", None)
        gate.set()
        async with sagas.open(location, [saga_of(True)]) as store:
            await store.wait("open", 60)
            await store.wait_idle()
            assert await store.wait("open/::end", 60)
        assert calls == [("open", "completed", {"pay": "committed"})]

    run(main())


def test_another_node_makes_the_call_of_a_node_that_is_gone(
    url: str, tmp_path: pathlib.Path, monkeypatch: pytest.MonkeyPatch
) -> None:
    """It looks for calls that are due. A node without the function leaves them to one that has."""
    monkeypatch.setattr(end_calls, "PAUSE", 0.2)
    witness, without = tmp_path / "witness", sagas.Saga("order")
    without.step(name="pay")(lambda task: "paid")

    async def main() -> None:
        saga = witnessed(str(witness))
        async with sagas.open(url, [without], node="old") as old:
            async with sagas.open(url, [saga], node="new") as new:
                await asyncio.to_thread(kill, url, "ended", witness)
                while not lines_of(witness):
                    await asyncio.sleep(0.05)
                assert (await new.wait("k/::end", 60)).ok
                assert (await old.wait("k/::end", 60)).saga == "order-end"
                assert await old.attention() == []
        assert len(lines_of(witness)) == 1

    run(main())


def test_a_key_that_is_used_again_has_a_call_of_its_own(
    location: str, monkeypatch: pytest.MonkeyPatch
) -> None:
    """Retention keeps the earlier saga, and its key, until its call has ended."""
    monkeypatch.setattr("sagas.definition.registry.SHARD_CAPACITY", 1)
    saga, gate, calls = sagas.Saga("order"), asyncio.Event(), list[Any]()
    saga.step(name="pay")(lambda task: task.input)

    @saga.on_end
    async def mail(task: sagas.EndTask[int]) -> None:
        if task.input == 1:
            await gate.wait()
        calls.append(task.result_of("pay"))

    async def main() -> None:
        async with sagas.open(location, [saga]) as store:
            await (await store.start(saga, "k", 1)).wait(60)
            await until(lambda: not store._access.coordinator.sagas.due_ends)
            assert not (await asyncio.to_thread(retention.prune, location, 0.0)).sagas
            gate.set()
            assert (await store.wait("k/::end", 60)).ok and calls == [1]
            while not (await asyncio.to_thread(retention.prune, location, 0.0)).sagas:
                await asyncio.sleep(0.05)
            await (await store.start(saga, "k", 2)).wait(60)
            await until(lambda: not store._access.coordinator.sagas.due_ends)
            assert (await store.wait("k/::end", 60)).ok and calls == [1, 2]

    run(main())


def test_a_key_of_full_length_has_a_call(location: str) -> None:
    saga = sagas.Saga("order")
    saga.step(name="pay")(lambda task: 1)
    saga.on_end(lambda task: None)

    async def main() -> None:
        async with sagas.open(location, [saga]) as store:
            key = "k" * 512
            await (await store.start(saga, key, None)).wait(60)
            await store.wait_idle()
            assert (await store.wait(f"{key}/::end", 60)).ok

    run(main())


def test_a_transaction_commits_with_the_call(url: str, postgresql: Any) -> None:
    """A row that is written by `task.connection` exists once, though the call is repeated."""
    saga, left = sagas.Saga("order"), [sagas.Retry("not now"), None]
    saga.step(name="pay")(lambda task: 1)

    @saga.on_end(transaction=True, backoff=QUICK)
    def note(task: sagas.EndTask[Any]) -> None:
        task.connection.execute("INSERT INTO ends VALUES (%s, %s)", (task.key, task.end.phase))
        if error := left.pop(0):
            raise error

    async def main() -> list[Any]:
        import psycopg

        with psycopg.connect(url, autocommit=True) as connection:
            connection.execute("CREATE TABLE ends (key text, phase text)")
            async with sagas.open(url, [saga]) as store:
                await (await store.start(saga, "k", None)).wait(60)
                await store.wait_idle()
                assert (await store.wait("k/::end", 60)).ok
            return connection.execute("SELECT * FROM ends").fetchall()

    assert run(main()) == [("k", "completed")]


def test_simulations_call_it() -> None:
    """`Trial.end_call` has its result; scripts name it `on_end`."""
    calls = Calls()
    saga, _ = order(calls)
    trial = sagas.testing.run(
        saga, {"end": "recovered"}, fail={"on_end": 2}, unknown={"box/on_end": 1}
    )
    assert trial.phase == "recovered" and trial.end_call is not None and trial.end_call.ok
    assert [call.outcome for call in trial.end_call.calls] == ["failed", "failed", "succeeded"]
    assert [key for key, _, _ in calls] == ["test/:box", "test/:box", "test"]
    assert trial.children["test/:box/::end"].ok
    with pytest.raises(LookupError, match="answers={'on_end': ...}"):
        sagas.testing.run(saga, {"end": "completed"}, fail={"on_end": sagas.Fail})
    answered = sagas.testing.run(
        saga, {"end": "completed"}, fail={"on_end": sagas.Fail}, answers={"on_end": "by hand"}
    )
    assert answered.end_call is not None and answered.end_call.results == {"on_end": "by hand"}


@pytest.mark.parametrize(
    "options, message",
    [
        ({"on_exhausted": "fail"}, "saga 'x', on_end: on_exhausted='fail' would give the call up"),
        ({"tries": 0}, "saga 'x-end', step 'on_end': tries=0 of its function"),
        ({"needs": ["a"]}, "has no option 'needs': the function is called after the end"),
        ({"trie": 1}, "unexpected keyword argument 'trie'; did you mean 'tries'?"),
    ],
)
def test_an_invalid_option_is_refused(options: dict[str, Any], message: str) -> None:
    with pytest.raises((sagas.DefinitionError, TypeError)) as caught:
        sagas.Saga("x").on_end(**options)(lambda task: None)
    assert message in str(caught.value)


def test_a_saga_has_one_function_and_its_name_is_free(tmp_path: pathlib.Path) -> None:
    saga, other = sagas.Saga("x"), sagas.Saga("x-end")
    for each in (saga, other):
        each.step(name="a")(lambda task: None)
    saga.on_end(lambda task: None)
    with pytest.raises(sagas.DefinitionError, match="has two on_end functions"):
        saga.on_end(lambda task: None)
    with pytest.raises(sagas.DefinitionError, match="the saga that calls on_end of 'x'"):
        sagas.open(tmp_path / "s.db", [saga, other])
