"""`task.cancelled`, `cancel_on_abort=`, `task.progress`, and the location of a slow plain function.
"""

from __future__ import annotations

import asyncio
import json
import os
import pathlib
import pickle
import signal
import subprocess
import sys
import threading
from typing import Any

import pytest
from cases import STORE_KINDS, QUICK, Task, pairs, run, simple, until
from driving import program
from serving import report, served, start, take
from test_command import Shell
from test_service_workers import working
from witness import notes_of, witness_at

import sagas
import sagas.testing
from sagas.definition.task_data import Control


def pair(long: Any, fails: Any, **options: Any) -> sagas.Saga:
    """Return a saga with a step that takes as long as the test wants, and a parallel one."""
    saga = sagas.Saga("pair")
    saga.step(name="long", undo=sagas.NOTHING, keep=5, tries=1, backoff=QUICK, **options)(long)
    saga.step(name="other", undo=sagas.NOTHING)(fails)
    return saga


def hear_plain(task: Task) -> None:
    task.progress(0.5)
    assert task.cancelled.wait(60)
    raise sagas.Fail(str(task.cancelled.reason))


async def hear(task: Task) -> None:
    task.progress(0.5)
    raise sagas.Fail(await task.cancelled)


@pytest.mark.parametrize(
    "location, function, why",
    pairs(STORE_KINDS, (hear, hear_plain), ("aborted", "failed")),
    indirect=["location"],
)
def test_a_function_is_notified_of_its_cancellation(location: str, function: Any, why: str) -> None:
    """The function decides how it ends; the saga is planned as soon as it has."""
    begun = asyncio.Event()

    async def fails(task: Task) -> None:
        await begun.wait()
        if why == "failed":
            raise sagas.Fail("no")

    async def main() -> None:
        saga = pair(function, fails)
        async with sagas.open(location, [saga]) as store:
            started = await store.start(saga, "k")
            active = await until(
                lambda: [
                    attempt
                    for attempt in store.active_attempts("k")
                    if attempt.progress is not None
                ]
            )
            assert (active[0].step, active[0].progress) == ("long", 0.5)
            begun.set()
            if why == "aborted":
                await started.abort()
            end = await started.wait()
            assert end.errors["long"] == f"sagas.Fail: {why}" and end.aborted is (why == "aborted")

    run(main())


def test_a_function_cancelled_by_closing_continues_later(location: str) -> None:
    """It reports an unknown outcome, and the next program calls it again with its key."""
    keys: list[str] = []

    async def long(task: Task) -> int:
        keys.append(task.attempt_id)
        if len(keys) == 1:
            raise sagas.Unknown(await task.cancelled)
        assert not task.cancelled.is_set()
        return 7

    async def main() -> None:
        saga = simple(long)
        async with sagas.open(location, [saga]) as store:
            await store.start(saga, "k")
            await until(lambda: keys)
        async with sagas.open(location, [saga]) as store:
            assert (await store.wait("k")).results == {"a": 7}

    run(main())
    assert keys == [keys[0]] * 2


@pytest.mark.parametrize(
    "location, says, timeout",
    pairs(STORE_KINDS, ("nothing", "fail", "result"), (None, 60)),
    indirect=["location"],
)
def test_a_function_that_is_cancelled_with_its_saga(
    location: str, says: str, timeout: float | None
) -> None:
    """The exception that it raises then counts.

    If it returns no outcome, that is unknown: it is called again, and not cancelled again.
    """
    calls: list[str] = []

    async def long(task: Task) -> str:
        calls.append(f"call {task.attempt_id[-1]} {task.cancelled.is_set()}")
        if len(calls) > 1:
            await asyncio.sleep(0.02)
            return "again"
        try:
            await asyncio.sleep(60)
        except asyncio.CancelledError:
            calls.append("cancelled")
            if says == "fail":
                raise sagas.Fail("stopped") from None
            if says == "result":
                return "done"
            raise
        return "never"

    async def other(task: Task) -> None:
        ...

    async def main() -> None:
        saga = pair(long, other, cancel_on_abort=True, timeout=timeout)
        async with sagas.open(location, [saga]) as store:
            started = await store.start(saga, "k")
            await until(lambda: calls)
            assert await started.abort()
            end = await started.wait()
            assert end.states["long"] == ("failed" if says == "fail" else "undone"), end

    run(main())
    again = ["call 1 True"] if says == "nothing" else []
    assert calls == ["call 1 False", "cancelled", *again]


def test_steps_that_cannot_be_cancelled_are_refused() -> None:
    """The error says what to do instead."""
    saga = sagas.Saga("s")

    async def later(task: Task) -> None:
        ...

    for options, text in [
        ({"cancel_on_abort": 1}, "must be True or False"),
        ({"cancel_on_abort": True, "transaction": True}, "a transaction cannot be cancelled"),
    ]:
        with pytest.raises(sagas.DefinitionError, match=text):
            saga.step(**options)(later)  # type: ignore[call-overload]
    with pytest.raises(
        sagas.DefinitionError, match="Declare it with async def, or check task.cancelled in it"
    ):
        saga.step(cancel_on_abort=True, name="b")(lambda task: None)


def test_invalid_progress_raises_in_the_function() -> None:
    """A copy in another process reports to no store, and is never cancelled."""
    control = Control()
    for arguments, error in [
        ((2,), ValueError),
        ((True,), TypeError),
        (("1",), TypeError),
        ((0.5, 7), TypeError),
    ]:
        with pytest.raises(error):
            control.set_progress(*arguments)  # type: ignore[arg-type]
    control.set_progress(0.25, "x" * 300)
    assert control.progress == (0.25, "x" * 200) and str(control.progress).startswith("25% xx")
    assert pickle.loads(pickle.dumps(control)).progress is None

    async def blocks(task: Task) -> None:
        task.progress(0.75, "half")
        if task.input:
            task.cancelled.wait()

    assert sagas.testing.run(simple(blocks)).calls[0].progress == (0.75, "half")
    with pytest.raises(sagas.ProgramError, match="In an async function, write: await"):
        sagas.testing.run(simple(blocks), True)


def test_the_command_shows_progress(location: str, capsys: pytest.CaptureFixture[str]) -> None:
    """It shows the progress of a running function, within some seconds, and nothing of a finished
    one.
    """
    goes_on = threading.Event()

    def long(task: Task) -> str:
        task.progress(0.25)
        task.progress(0.4, "uploaded \0 3")
        goes_on.wait(60)
        return "done"

    async def main() -> None:
        saga, shell = simple(long, undo=0), Shell(location, capsys)
        async with sagas.open(location, [saga]) as store:
            await store.start(saga, "k")
            step = await until(
                lambda: (step := shell.json("show", "k")["steps"][0])["progress"] and step
            )
            assert (step["progress"], step["detail"]) == (0.4, "uploaded \\0 3")
            assert "40% uploaded" in shell("show", "k")
            goes_on.set()
            await store.wait("k")
            assert shell.json("show", "k")["steps"][0]["progress"] is None

    run(main())


def test_a_plain_function_past_its_time_is_named_with_where_it_is(tmp_path: pathlib.Path) -> None:
    """The innermost call comes first, out to the step's function, and no line of the package."""
    events: list[sagas.Event] = []
    goes_on = threading.Event()

    def deeper(count: int) -> None:
        deeper(count - 1) if count else goes_on.wait(60)

    def long(task: Task) -> None:
        deeper(20)

    async def main() -> None:
        saga = simple(long, timeout=0.05)
        async with sagas.open(tmp_path / "store.db", [saga], on_event=events.append) as store:
            started = await store.start(saga, "k")
            (event,) = await until(
                lambda: [event for event in events if event.name == "step_overdue"]
            )
            goes_on.set()
            await started.wait()
            frames = str(event.detail).split(" < ")
            assert len(frames) == 13 and frames[6] == "..." and "threading.py" in frames[0]
            assert frames[-1].startswith(f"{__file__}:") and frames[-1].endswith(".long")

    run(main())


KILLED = """
import asyncio, sys
import sagas
from witness import Witness
witness = Witness(sys.argv[2])
saga = sagas.Saga("killed")
@saga.step(
    undo=sagas.NOTHING, keep=5, tries=1, cancel_on_abort=True, backoff=sagas.Backoff(initial=0.01)
)
async def long(task):
    witness.note(what="call", key=task.attempt_id, cancelled=task.cancelled.is_set())
    task.progress(0.5, "half")
    if sys.argv[3] == "second":
        raise sagas.Fail("stopped")
    try:
        await asyncio.sleep(600)
    except asyncio.CancelledError:
        witness.note(what="cancelled")
        await asyncio.sleep(600)
async def main():
    async with sagas.open(sys.argv[1], [saga], node="one") as store:
        run = await store.start(saga, "k")
        while sys.argv[3] == "first":
            await asyncio.sleep(0.01)
            if any(one.progress for one in store.active_attempts("k")):
                await run.abort()
                break
        end = await run.wait()
        witness.note(what="end", states=end.states, aborted=end.aborted)
asyncio.run(main())
"""


def test_a_program_that_is_killed_while_a_function_is_cancelled(
    location: str, tmp_path: pathlib.Path
) -> None:
    """The abort is stored: the next program calls the same attempt again, cancelled from its
    beginning.
    """
    here = pathlib.Path(__file__).parent
    path = f"{here.parent / 'src'}{os.pathsep}{here}"
    environment = os.environ | {"PYTHONPATH": path, "SAGAS_PROGRAM": program()}
    notes = tmp_path / "notes"

    def play(which: str) -> subprocess.Popen[bytes]:
        command = [sys.executable, "-c", KILLED, location, str(tmp_path / "witness"), which]
        return subprocess.Popen(command, env=environment)

    async def main() -> None:
        first = play("first")
        await until(lambda: any(note["what"] == "cancelled" for note in notes_of(notes)))
        first.send_signal(signal.SIGKILL)
        first.wait()
        second = play("second")
        assert await asyncio.to_thread(second.wait, 60) == 0

    with witness_at(tmp_path / "witness", notes):
        run(main())
    noted = notes_of(notes)
    keys = [note["key"] for note in noted if note["what"] == "call"]
    assert [note["what"] for note in noted] == ["call", "cancelled", "call", "end"], json.dumps(
        noted
    )
    assert len({*keys}) == 1 and [
        note["cancelled"] for note in noted if note["what"] == "call"
    ] == [False, True]
    assert noted[-1]["aborted"] and noted[-1]["states"] == {"long": "failed"}


def test_a_worker_reports_progress_with_its_heartbeat(
    store: str | None, tmp_path: pathlib.Path
) -> None:
    """The service, its dashboard and the command show it.

    Invalid progress is refused, and stores nothing.
    """
    definition = 'format = 2\nname = "one"\n[[step]]\nname = "a"\nundo = "never"\n'
    goes_on = threading.Event()
    with served(
        tmp_path, {"one.toml": definition}, store=store
    ) as service, service.client() as client:
        worker = sagas.Worker(service.url, wait=1.0, lease=1.5)

        @worker.step("one", "a")
        def a(task: Task) -> None:
            task.progress(0.4, "uploaded")
            goes_on.wait(60)

        start(client, "one", "k")
        with working(worker):

            async def shown() -> Any:
                return await until(lambda: client.get("/v1/sagas/k").json()["progress"])

            assert run(shown()) == [{"step": "a", "fraction": 0.4, "detail": "uploaded"}]
            assert "40% uploaded" in client.get("/ui/sagas/k").text
            goes_on.set()
            assert client.get("/v1/sagas/k/wait?seconds=60").json()["phase"] == "completed"
        assert client.get("/v1/sagas/k").json()["progress"] == []
        start(client, "one", "other")
        (task,) = take(client, "one/a")
        path, lease = f"/v1/tasks/{task['attempt_id']}/heartbeat", task["lease"]
        for wrong in ({"progress": 2}, {"progress": "x"}, {"progress": 0.1, "detail": 7}):
            assert client.post(path, json={"lease": lease, **wrong}).status_code == 422, wrong
        assert client.post(path, json={"lease": "1.c0ffee", "progress": 0.5}).status_code == 403
        assert client.get("/v1/sagas/other").json()["progress"] == []


TWO = """format = 2
name = "two"
[[step]]
name = "a"
undo = 1
keep = 5
tries = 1
[[step]]
name = "b"
undo = 1
keep = 5
"""


def test_a_worker_is_notified_of_a_cancellation(store: str | None, tmp_path: pathlib.Path) -> None:
    """The heartbeat reports it, and so does a later claim.

    An async function is cancelled once if it asks for that; a worker that lost its lease is
    notified, too.
    """
    heard, calls = list[Any](), list[Any]()
    with served(tmp_path, {"two.toml": TWO}, store=store) as service, service.client() as client:

        def beat(task: Any) -> Any:
            path = f"/v1/tasks/{task['attempt_id']}/heartbeat"
            return client.post(path, json={"lease": task["lease"]}).json().get("cancelled", "gone")

        start(client, "two", "fails")
        (a,), (b,) = take(client, "two/a"), take(client, "two/b")
        assert a["cancelled"] is None and beat(a) is None
        assert report(client, b, "fail", error="no", final=True).status_code == 200
        run(until(lambda: beat(a) == "failed"))  # the saga gets it in the next look
        client.post("/v1/sagas/fails/abort", json={})
        assert beat(a) == "aborted"
        assert report(client, a, "unknown", error="gone").status_code == 200
        (again,) = take(client, "two/a")
        assert again["attempt_id"] == a["attempt_id"] and again["cancelled"] == "aborted"
        assert beat(a) == "gone" and report(client, again, result=1).status_code == 200
        (undo,) = take(client, "two/a/undo")
        assert undo["cancelled"] is None and beat(undo) is None
        assert report(client, undo, result=None).status_code == 200
        worker = sagas.Worker(service.url, wait=1.0, lease=6)

        @worker.step("two", "a")
        def plain(task: Task) -> None:
            calls.append("a")
            assert task.cancelled.wait(60)
            heard.append(task.cancelled.reason)
            raise sagas.Fail("stopped")

        @worker.step("two", "b", cancel_on_abort=True)
        async def stops(task: Task) -> str:
            calls.append(str(task.cancelled.reason))
            if task.cancelled.is_set():
                return "done"
            await asyncio.Event().wait()
            return "never"

        with pytest.raises(sagas.DefinitionError, match="needs an async function"):
            worker.step("two", "c", cancel_on_abort=True)(plain)
        worker.compensation("two", "b")(lambda task: None)
        assert start(client, "two", "hears").status_code == 201
        with working(worker):
            run(until(lambda: len(calls) == 2))
            client.post("/v1/sagas/hears/abort", json={})
            end = client.get("/v1/sagas/hears/wait?seconds=60").json()
        assert heard == ["aborted"] and sorted(calls) == ["None", "a", "aborted"]
        assert end["states"] == {"a": "failed", "b": "undone"}
