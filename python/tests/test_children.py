"""Child sagas: started once each, aborted with their parents, and undone by their own
compensations.
"""

from __future__ import annotations

import asyncio
import itertools
import os
import pathlib
import signal
from collections.abc import Callable, Coroutine
from typing import Any

import celery
import pytest
from cases import Task, run, until
from test_command import Shell

import sagas
import sagas.celery
import sagas.testing
from sagas.cli.snapshot import Snapshot
from sagas.definition.start_options import StartOptions
from sagas.inspection import lists, views as views_module
from sagas.runtime import retention
from sagas.server import json_views
from sagas.storage.filters import NOTHING, Filter, Scope


class Trip:
    """A trip with a hotel, and the calls of its functions."""

    def __init__(self) -> None:
        self.done = list[str]()
        self.hotel, self.trip = sagas.Saga("hotel"), sagas.Saga("trip")
        hotel, trip = self.hotel, self.trip

        @hotel.step(keep=9)
        def room(task: Task) -> Any:
            self.done.append(f"room {task.key}")
            return {"nights": task.input["nights"]}

        @room.compensation
        def cancel(task: Task) -> None:
            self.done.append(f"cancel {task.key} {task.result['nights']}")

        @hotel.step(needs=[room], keep=9)
        async def breakfast(task: Task) -> Any:
            if task.input["nights"] > 7:
                raise sagas.Fail("too long")
            return task.result_of(room)["nights"]

        @breakfast.compensation
        async def fast(task: Task) -> None:
            assert task.results == {"room": {"nights": task.input["nights"]}}
            self.done.append(f"fast {task.result}")

        @trip.step(keep=9)
        def flight(task: Task) -> Any:
            return task.input["days"]

        @flight.compensation
        def back(task: Task) -> None:
            self.done.append("back")

        @trip.child(hotel, needs=[flight])
        def stay(task: Task) -> Any:
            return {"nights": task.result_of(flight) - 1}

        @trip.step(needs=[stay])
        def tour(task: Task) -> Any:
            result = task.result_of(stay)
            if task.input["days"] > 5:
                raise sagas.Fail("sold out")
            return result

    def open(self, location: str, **options: Any) -> sagas.Store:
        return sagas.open(location, [self.trip, self.hotel], **options)


class Backwards:
    """A codec without a key."""

    def encode(self, data: bytes) -> bytes:
        return data[::-1]

    def decode(self, data: bytes) -> bytes:
        return data[::-1]


CODEC, APP = Backwards(), ("--app", "test_children:CODEC")


def test_a_child_completes(location: str) -> None:
    """Its results are the step's result."""
    world = Trip()

    async def main() -> None:
        async with world.open(location) as store:
            end = await (await store.start(world.trip, "t", {"days": 4})).wait(60)
            assert end.ok
            child_results = {
                "key": "t/:stay",
                "phase": "completed",
                "results": {"room": {"nights": 3}, "breakfast": 3},
            }
            assert end.results == {"flight": 4, "stay": child_results, "tour": child_results}
            assert (await store.wait("t/:stay", 60)).ok

    run(main())
    assert world.done == ["room t/:stay"]


def test_a_completed_child_is_undone(location: str, capsys: pytest.CaptureFixture[str]) -> None:
    """Its own compensations undo it, in their order, also with a codec.

    The command and the API show the parent and the child.
    """
    world, shell = Trip(), Shell(location, capsys)

    async def main() -> None:
        async with world.open(location, codec=Backwards()) as store:
            end = await (await store.start(world.trip, "t", {"days": 6})).wait(60)
            assert end.states == {"flight": "undone", "stay": "undone", "tour": "failed"}
            assert (await store.wait("t/:stay:undo", 60)).ok

    run(main())
    assert world.done == ["room t/:stay", "fast 5", "cancel t/:stay 5", "back"]
    assert "\nchild    t/:stay (completed)\nchild    t/:stay:undo (completed)\n" in shell(
        "show", "t", *APP
    )
    assert (
        "\nparent   t\n" in shell("show", "t/:stay:undo", *APP)
        and shell.json("show", "t/:stay", *APP)["parent"] == "t"
    )
    with Snapshot(location) as store:
        for keys, count in ({"t"}, 3), ({"t*"}, 3), ({"t/*"}, 0), ({"T*", "s"}, 0), ({"x", "t"}, 3):
            scope = Scope(keys=frozenset(keys))
            assert store.ask(lists.count(Filter(scope=scope))) == count
            held = [key for key in ("t", "t/:stay", "t/:stay:undo") if scope.has_key(key)]
            assert len(held) == count
        views = [store.saga(key) for key in ("t", "t/:stay")]
    answers = [json_views.saga(view) for view in views]
    assert [(child["step"], child["definition"]) for child in answers[0]["children"]] == [
        ("stay", "hotel"),
        ("stay:undo", "hotel-undo"),
    ]
    assert (
        answers[0]["parent"] is None
        and answers[1]["parent"]["key"] == "t"
        and answers[1]["children"] == []
    )
    seen = views_module.seen_by(views[0], Scope(frozenset({"hotel"})))
    assert [child.key for child in seen.children] == ["t/:stay", "t/:stay:undo"]
    assert (
        views_module.seen_by(views[0], NOTHING).children == []
        and views_module.seen_by(views[1], NOTHING).parent is None
    )


def test_a_child_fails(location: str) -> None:
    """Then the step fails, with the reason."""
    world = Trip()

    async def main() -> None:
        async with world.open(location) as store:
            end = await (await store.start(world.trip, "t", {"days": 10})).wait(60)
            assert end.states == {"flight": "undone", "stay": "failed", "tour": "waiting"}
            assert "'t/:stay' has not completed: recovered" in end.errors["stay"]

    run(main())
    assert world.done == ["room t/:stay", "cancel t/:stay 9", "back"]


class Slow:
    """A child that waits for an operator, next to a step that may fail, and below a grandchild."""

    def __init__(self, **costs: int) -> None:
        self.done = list[str]()
        self.sub, self.child, self.top = sagas.Saga("sub"), sagas.Saga("child"), sagas.Saga("top")

        @self.sub.step(keep=9)
        def deep(task: Task) -> Any:
            return [task.key, task.input]

        @deep.compensation
        def undeep(task: Task) -> None:
            assert task.result == [task.key, task.input] == ["t/:stay/:below", "x"]
            self.done.append(f"undeep {task.key}")

        @self.child.child(self.sub)
        def below(task: Task) -> Any:
            return task.input

        @self.child.approval(needs=[below])
        def sign(task: Task) -> None:
            ...

        self.top.child(self.child, name="stay", input=lambda task: "x", **costs)

        self.top.step(external=True, name="parallel", tries=1)
        self.all = [self.top, self.child, self.sub]

    async def started(self, store: sagas.Store, **options: Any) -> sagas.Run:
        """Start one whose child waits for its approval."""
        run = await store.start(self.top, "t", **options)

        async def asks() -> bool:
            return bool(
                [
                    attempt
                    for attempt in store.active_attempts("t/:stay")
                    if attempt.waits == "approval"
                ]
            )

        await until(asks)
        assert await store.waits_for("t") == [
            "stay waits for the end of its child saga",
            "parallel waits for an external worker",
        ]
        return run


def test_an_abort_goes_down(location: str, capsys: pytest.CaptureFixture[str]) -> None:
    """The child is aborted, and undoes its own child, before the parent ends."""
    world, shell = Slow(), Shell(location, capsys)

    async def main() -> None:
        async with sagas.open(location, world.all, concurrency=1) as store:
            top = await world.started(store, labels={"customer": "7"}, deadline=3600)
            waits = {
                line.split()[0]: line
                for line in (await asyncio.to_thread(shell, "pending")).splitlines()
            }
            assert "the end of its child saga" in waits["t"] and "an approval" in waits["t/:stay"]
            below = await store.list(labels={"customer": "7"})
            assert {child.key for child in below} == {"t", "t/:stay", "t/:stay/:below"}
            assert len({child.deadline for child in below}) == 1
            await store.abort("t")
            await store.fail("t", "parallel", "not needed")
            end = await top.wait(60)
            assert end.aborted and end.states == {"stay": "failed", "parallel": "failed"}
            child = await store.wait("t/:stay", 60)
            assert child.aborted and child.states == {"below": "undone", "sign": "waiting"}

    run(main())
    assert world.done == ["undeep t/:stay/:below"]


@pytest.mark.parametrize("stays", [True, False])
def test_a_plan_that_drops_the_child(location: str, stays: bool) -> None:
    """If a step fails, the child continues if the plan would keep it; else it is aborted."""
    world = Slow(undo=3, keep=0) if stays else Slow()

    async def main() -> None:
        async with sagas.open(location, world.all) as store:
            top = await world.started(store)
            await store.fail("t", "parallel", "sold out")
            if stays:
                await store.complete("t/:stay", "sign")
            end = await top.wait(60)
            assert end.states == {"stay": "committed" if stays else "failed", "parallel": "failed"}
            assert (await store.wait("t/:stay", 60)).aborted != stays

    run(main())
    assert len(world.done) != stays


def test_another_child_after_a_failed_one(location: str) -> None:
    """An operator may request that; its key shows it. A stuck child is resolved first."""
    failing, calls = sagas.Saga("failing"), list[str]()

    @failing.step(skip=sagas.NEVER)
    def must(task: Task) -> Any:
        calls.append(task.key)
        if len(calls) < 3:
            raise sagas.Fail("not yet")

    top = sagas.Saga("top")
    top.child(failing, input=lambda task: None, on_exhausted="ask", keep=9)

    async def main() -> None:
        async with sagas.open(location, [top, failing]) as store:
            started = await store.start(top, "t")
            for key in ("t/:failing", "t/:failing/2"):
                assert (await until(lambda: store.get(key))) and (
                    await store.wait(key, 60)
                ).phase == "stuck"
                await store.resolve(key, "seen to", by="ann")
                await until(
                    lambda: [
                        attempt
                        for attempt in store.active_attempts("t")
                        if attempt.waits == "exhausted"
                    ]
                )
                await store.retry("t", "failing")
            end = await started.wait(60)
            assert end.ok and end.results["failing"]["key"] == "t/:failing/3"

    run(main())
    assert calls == ["t/:failing", "t/:failing/2", "t/:failing/3"]


def test_definitions_that_cannot_be() -> None:
    """Each error says what to do."""
    hotel, trip = sagas.Saga("hotel"), sagas.Saga("trip")
    hotel.step(name="room")(lambda task: None)
    trip.child(hotel, input=lambda task: None)
    with pytest.raises(
        sagas.DefinitionError,
        match=r"'hotel' \(version 1, .* is missing.*open\(\.\.\., \[trip, hotel\]\)",
    ):
        sagas.open("x.db", [trip])
    queue = sagas.celery.Queue(celery.Celery("app", broker="memory://"), "shop")
    hotel.steps[0].compensation(queue=queue)(lambda task: None)
    with pytest.raises(sagas.DefinitionError, match="workers of a queue call its compensation"):
        sagas.open("x.db", [trip, hotel])
    with pytest.raises(sagas.DefinitionError, match="would be its own child"):
        hotel.child(trip, input=lambda task: None)
    with pytest.raises(sagas.DefinitionError, match="would be its own child"):
        trip.child(trip, name="again", input=lambda task: None)
    with pytest.raises(sagas.DefinitionError, match="must be a plain function"):

        @trip.child(sagas.Saga("other"))
        async def later(task: Task) -> None:
            ...

    with pytest.raises(sagas.DefinitionError, match="on_exhausted='retry'"):
        wrong: dict[str, Any] = {"on_exhausted": "retry"}
        trip.child(sagas.Saga("other"), name="c", input=lambda task: None, **wrong)
    with pytest.raises(sagas.DefinitionError, match="expected a sagas.Saga"):
        trip.child("hotel", input=lambda task: None)  # type: ignore[call-overload]


def test_keys_and_inputs_that_cannot_be(location: str) -> None:
    """A key that is too long for a child's key is refused at the start; the others fail
    the step.
    """
    world = Trip()

    @world.trip.child(world.hotel, keep=0)
    def bad(task: Task) -> Any:
        if task.input["days"] == 4:
            raise sagas.Fail("no nights")
        return {2: object(), 3: {"nights": 1}}[task.input["days"]]

    async def main() -> None:
        async with world.open(location) as store:
            with pytest.raises(sagas.InvalidKey, match="must have at most 497 characters"):
                await store.start(world.trip, "x" * 502, {"days": 3})
            for taken in ("t/:stay", "/:", "t/:stay:undo", "t/:whatever"):
                with pytest.raises(sagas.InvalidKey, match="only keys of child sagas have '/:'"):
                    await store.start(world.hotel, taken, {"nights": 1})
            await store._starter.start_child(world.hotel, "t/:stay", {"nights": 1}, StartOptions())
            other = await store.get("t/:stay")
            assert other
            ends = [
                await (await store.start(world.trip, key, {"days": days})).wait(60)
                for key, days in (("t", 3), ("u", 2), ("v", 4))
            ]
            assert (await other.wait(60)).ok
        assert "key 't/:stay' belongs to saga" in ends[0].errors["stay"]
        assert [end.errors["bad"].partition(":")[0] for end in ends[1:]] == [
            "NotSerializable",
            "sagas.Fail",
        ]

    run(main())


def test_in_a_simulation() -> None:
    """Children are run as well; a path names their steps."""
    world = Trip()
    ok = sagas.testing.run(world.trip, {"days": 4})
    assert ok.ok and ok.results["tour"] == {
        "key": "test/:stay",
        "phase": "completed",
        "results": {"room": {"nights": 3}, "breakfast": 3},
    }
    undone = sagas.testing.run(world.trip, {"days": 6})
    assert undone.states == {"flight": "undone", "stay": "undone", "tour": "failed"}
    assert [(key, end.phase) for key, end in undone.children.items()] == [
        ("test/:stay", "completed"),
        ("test/:stay:undo", "completed"),
    ]
    room = undone.children["test/:stay"].calls[0].attempt_id
    assert undone.children["test/:stay:undo"].calls[-1].attempt_id != room.replace("run", "undo")
    failed = sagas.testing.run(world.trip, {"days": 4}, fail={"stay/breakfast": sagas.Fail})
    assert failed.states["stay"] == "failed" and "breakfast: sagas.Fail" in failed.errors["stay"]
    (room_step, breakfast) = world.hotel.steps
    left = sagas.testing.run(
        world.trip,
        {"days": 6},
        fail_undo={breakfast: sagas.Fail("no")},
        answers={breakfast: RuntimeError("left")},
    )
    assert left.states["stay"] == "undo_failed" and left.children["test/:stay:undo"].states == {
        "breakfast": "failed",
        "room": "waiting",
    }
    with pytest.raises(KeyError, match="no child step 'stya'; did you mean 'stay'"):
        sagas.testing.run(world.trip, {"days": 4}, fail={"stya/room": 1})
    with pytest.raises(KeyError, match="saga 'hotel' has no step 'rom'"):
        sagas.testing.run(world.trip, {"days": 4}, fail={"stay/rom": 1})
    slow = Slow()
    trial = sagas.testing.run(slow.top, key="t", answers={"stay/sign": "by Ann", "parallel": None})
    assert trial.ok and trial.results["stay"]["results"]["sign"] == "by Ann"
    trial = sagas.testing.run(
        slow.top, key="t", answers={"stay/sign": "by Ann"}, fail={"parallel": sagas.Fail("no")}
    )
    assert trial.states == {"stay": "undone", "parallel": "failed"} and slow.done == [
        "undeep t/:stay/:below"
    ]


def until_survived(
    open_store: Callable[[Callable[[sagas.Event], None]], sagas.Store],
    work: Callable[[sagas.Store], Coroutine[Any, Any, None]],
) -> int:
    """Run a program that is killed at its first event, then at its fourth, and so on, until it
    survives; return how often it was killed.
    """
    for count in itertools.count(1, 3):
        child = os.fork()
        if child == 0:
            left = itertools.count(count, -1)

            def die(event: sagas.Event) -> None:
                if next(left) == 1:
                    os.kill(os.getpid(), signal.SIGKILL)

            async def main() -> None:
                async with open_store(die) as store:
                    await work(store)

            os._exit(asyncio.run(main()) is not None)
        status = os.waitstatus_to_exitcode(os.waitpid(child, 0)[1])
        if status == 0:
            return count // 3
        assert status == -signal.SIGKILL
    raise AssertionError


@pytest.mark.parametrize("way", ["undone", "aborted"])
def test_kills_at_any_event(location: str, tmp_path: pathlib.Path, way: str) -> None:
    """Each child is started once, and none stays open after its parent, however often the program
    dies.
    """
    file, world, slow = tmp_path / "done", Trip(), Slow()

    def note(step: sagas.Step[Any]) -> None:
        """Its calls report their keys to the test."""
        function = step.run.function
        assert function

        def noted_call(task: Task) -> Any:
            with file.open("a") as out:
                out.write(f"{task.key} {task.step} {task.idempotency_key}\n")
            return function(task)

        step.run.function = noted_call

    note(world.hotel.steps[0])
    note(slow.sub.steps[0])

    def open_store(die: Callable[[sagas.Event], None]) -> sagas.Store:
        return sagas.open(
            location, [world.trip, world.hotel, *slow.all], node="one", lease=2, on_event=die
        )

    async def undone(store: sagas.Store) -> None:
        end = await (await store.start(world.trip, "t", {"days": 6})).wait(60)
        assert end.states == {"flight": "undone", "stay": "undone", "tour": "failed"}

    async def aborted(store: sagas.Store) -> None:
        run = await store.start(slow.top, "t")
        asks = asyncio.ensure_future(
            until(
                lambda: [
                    attempt
                    for attempt in store.active_attempts("t/:stay")
                    if attempt.waits == "approval"
                ]
            )
        )
        await asyncio.wait(
            [asks, ending := asyncio.ensure_future(run.wait(60))],
            return_when=asyncio.FIRST_COMPLETED,
        )
        asks.cancel()
        if not ending.done():
            await store.abort("t")
            try:
                await store.fail("t", "parallel", "no")
            except sagas.StepNotWaiting:
                pass
        assert (await ending).aborted

    killed = until_survived(open_store, undone if way == "undone" else aborted)

    async def look() -> None:
        async with open_store(lambda event: None) as store:
            assert await store.count(phase="open") == 0
            keys = [summary.key for summary in await store.list()]
            below = (
                ["t/:stay", "t/:stay:undo"]
                if way == "undone"
                else ["t/:stay", "t/:stay/:below", "t/:stay/:below:undo"]
            )
            assert sorted(keys) == ["t", *below]

    run(look())
    assert killed >= 3 and len({line.split()[2] for line in file.read_text().splitlines()}) == 1


def test_a_child_of_another_node(url: str) -> None:
    """A slow node has started the child in the meantime: it is that child, and an abort reaches it
    there.
    """
    child, top, gate = sagas.Saga("child"), sagas.Saga("top"), asyncio.Event()
    child.approval(name="sign")(lambda task: None)

    @top.step(undo=0)
    async def first(task: Task) -> None:
        await gate.wait()

    top.child(child, needs=[first], input=lambda task: "another input")

    async def main() -> None:
        async with sagas.open(url, [top, child], node="one") as first, sagas.open(
            url, [top, child], node="two"
        ) as second:
            started = await first.start(top, "t")
            (listed,) = await first.list()
            assert await second._starter.start_child(
                child, "t/:child", "x", StartOptions(parent=listed.id)
            )
            gate.set()
            await until(lambda: [a for a in first.active_attempts("t") if a.waits == "child"])
            await until(
                lambda: [a for a in second.active_attempts("t/:child") if a.waits == "approval"]
            )
            await first.abort("t")
            end = await started.wait(60)
            assert end.aborted and end.states["child"] == "failed"
            assert (await first.wait("t/:child", 60)).aborted and await first.count() == 2

    run(main())


def test_children_stay_with_their_parents(location: str, monkeypatch: pytest.MonkeyPatch) -> None:
    """A finished child is not deleted as long as its parent is open."""
    monkeypatch.setattr("sagas.definition.registry.SHARD_CAPACITY", 1)
    world = Slow(keep=0, undo=3)

    async def closed(store: sagas.Store, count: int) -> None:
        """Wait until this many shards are closed."""

        async def are() -> bool:
            return (
                len(await store._coordinator.store.read("SELECT 1 FROM shards WHERE closed = 1"))
                == count
            )

        await until(are)

    async def main() -> None:
        async with sagas.open(location, world.all) as store:
            await world.started(store)
            await store.complete("t/:stay", "sign")
            await store.wait("t/:stay", 60)
            await closed(store, 2)
        assert retention.prune(location, -3600.0).sagas == 0
        async with sagas.open(location, world.all) as store:
            await store.complete("t", "parallel")
            assert (await store.wait("t", 60)).ok
            await closed(store, 3)
        assert retention.prune(location, -3600.0).sagas == 3

    run(main())
