"""Children are undone by the definitions that they ran with, whatever the program declares now."""

from __future__ import annotations

import asyncio
import contextlib
import pathlib
import sqlite3
from typing import Any

import pytest
from cases import QUICK, Task, run, until
from test_command import Shell

import sagas
import sagas.testing
from sagas.api import worker
from sagas.cli import listings
from sagas.definition import definition_text, saga as saga_module, undo_sagas
from sagas.definition.task_data import Context
from sagas.definition.registry import DefinitionRegistry
from sagas.definition.start_options import StartOptions
from sagas.server import json_views


class World:
    """A parent with a child, declared again for each program, and the calls of their functions."""

    def __init__(self) -> None:
        self.done = list[str]()

    def child(self, *steps: str, version: int = 1, **costs: int) -> sagas.Saga:
        """Return a child with steps in this order, and each needs the one before; `x-` has no
        compensation.
        """
        saga, before = sagas.Saga("child", version=version), list[Any]()
        for name in steps:
            undo = {"undo": 0} if name.endswith("-") else {}
            step = saga.step(self.do, name=name.rstrip("-"), needs=before, keep=9, **undo)
            before = [step]
            if not undo:
                step.compensation(tries=costs.get(name, 1), backoff=QUICK)(self.undo)
        return saga

    def do(self, task: Task) -> str:
        """The action of each step."""
        self.done.append(task.step)
        return f"done {task.step}"

    def undo(self, task: Task) -> None:
        """The compensation of each step."""
        assert (
            task.result == f"done {task.step}"
            and task.key.endswith("/:stay")
            and task.saga == "child"
        )
        self.done.append(f"undo {task.step} {' '.join(task.results)}".strip())

    def parent(self, child: sagas.Saga, **options: Any) -> list[sagas.Saga]:
        """Return a parent whose child completes, and which an operator lets fail."""
        parent = sagas.Saga("parent")
        stay = parent.child(child, name="stay", input=lambda task: None, **options)
        signed = parent.approval(name="sign", needs=[stay])(lambda task: None)
        parent.step(name="end", needs=[signed])(lambda task: None)
        return [parent, child]

    async def started(self, location: str, known: list[sagas.Saga], key: str = "t") -> None:
        """Start one in a program that ends once the child has completed."""
        async with sagas.open(location, known) as store:
            await store.start(known[0], key)
            await until(
                lambda: [
                    attempt for attempt in store.active_attempts(key) if attempt.waits == "approval"
                ]
            )

    async def failed(self, store: sagas.Store, key: str = "t") -> dict[str, str]:
        """Return the states of its steps once it has ended."""
        await store.fail(key, "sign", "no")
        return (await store.wait(key, 60)).states


UNDONE = {"stay": "undone", "sign": "failed", "end": "waiting"}
ONES_UNDONE = ["undo y x", "undo x"]


@pytest.mark.parametrize("steps, lacks", [(("x2", "y"), "x"), (("x", "y-"), "y")])
def test_a_removed_compensation(location: str, steps: tuple[str, ...], lacks: str) -> None:
    """Its step was renamed or removed, or only the compensation was.

    No program without it opens the file, and over PostgreSQL no node without it has the shard.
    """
    world = World()
    old, new = world.parent(world.child("x", "y")), world.parent(world.child(*steps))
    why = (
        "saga 'parent' (version 1) has open sagas that may undo a child of saga 'child' (version"
        f" 1), but step '{lacks}' has no compensation in this program"
    )

    async def main() -> None:
        await world.started(location, old)
        async with contextlib.AsyncExitStack() as stack:
            if location.startswith("postgresql"):
                lacking = await stack.enter_async_context(sagas.open(location, new, node="new"))
                left = lacking._coordinator.store.lease.left  # type: ignore[attr-defined]
                assert len(left) == 1 and not lacking.active_attempts("t")
            else:
                with pytest.raises(sagas.MissingStep) as error:
                    await stack.enter_async_context(sagas.open(location, new))
                assert why in str(error.value)
            async with sagas.open(location, old, node="old") as store:
                assert await world.failed(store) == UNDONE
        async with sagas.open(
            location, new, node="new"
        ) as store:  # nothing is to be undone any more
            assert await store.count() == 3 and await store.attention() == []

    run(main())
    assert world.done == ["x", "y", *ONES_UNDONE]


@pytest.mark.parametrize("steps", [("x", "y", "z"), ("y", "x"), ("z", "y", "x")])
def test_other_steps_and_another_order(location: str, steps: tuple[str, ...]) -> None:
    """A step that never ran is not undone; the others are, in the order in which they ran, with
    their results.
    """
    world = World()
    old, new = world.parent(world.child("x", "y")), world.parent(world.child(*steps))

    async def main() -> None:
        await world.started(location, old)
        async with sagas.open(location, new) as store:
            assert await world.failed(store) == UNDONE
            end = await store.wait("t/:stay:undo", 60)
            assert end.states == {"y": "committed", "x": "committed"}

    run(main())
    assert world.done == ["x", "y", *ONES_UNDONE]


def test_the_program_changes_while_a_child_is_undone(location: str) -> None:
    """The saga that undoes it continues by its own definition, and needs the functions of that
    definition.
    """
    world, broken = World(), [True]

    def undo(task: Task) -> None:
        if task.step == "x" and broken[0]:
            raise sagas.Retry("not yet")
        world.done.append(f"undo {task.step} {' '.join(task.results)}".strip())

    world.undo = undo  # type: ignore[method-assign]
    old, new, less = (
        world.parent(world.child(*steps)) for steps in (("x", "y"), ("z", "y", "x"), ("x-", "y"))
    )

    async def main() -> None:
        await world.started(location, old)
        async with sagas.open(location, new) as store:
            await store.fail("t", "sign", "no")
            await until(
                lambda: [
                    attempt
                    for attempt in store.active_attempts("t/:stay:undo")
                    if attempt.waits == "exhausted"
                ]
            )
        if not location.startswith("postgresql"):
            with pytest.raises(
                sagas.MissingStep, match="but step 'x' has no compensation in this program"
            ):
                await sagas.open(location, less).__aenter__()
        broken[0] = False
        async with sagas.open(location, new) as store:
            await store.retry("t/:stay:undo", "x")
            assert (await store.wait("t", 60)).states == UNDONE

    run(main())
    assert world.done == ["x", "y", *ONES_UNDONE]


def test_functions_that_undo_a_child(tmp_path: pathlib.Path) -> None:
    """A parent that never undoes it, or does so by its own function, needs none of its
    compensations. Nor does one whose version the program has twice.
    """
    location, new = str(tmp_path / "store.db"), World()

    async def main() -> None:
        for number, options in enumerate(({"undo": sagas.NEVER}, {}, {"undo": 3})):
            world, at = World(), f"{location}.{number}"
            own_sagas, now = world.parent(world.child("x"), **options), new.parent(
                new.child("x2"), **options
            )
            if not options:
                for pair in own_sagas, now:
                    pair[0].steps[0].compensation(
                        lambda task: world.done.append(task.result["key"])
                    )
            await world.started(at, own_sagas)
            if number < 2:
                async with sagas.open(at, now) as store:
                    states = await new.failed(store)
                assert (
                    states["stay"] == ("committed" if number == 0 else "undone")
                    and world.done[1:] == ["t/:stay"] * number
                )
            else:
                with pytest.raises(sagas.MissingStep):
                    await sagas.open(at, now).__aenter__()
                second = new.child("x2", version=2)
                # the parent starts version 2 from now on
                async with sagas.open(at, [*new.parent(second), own_sagas[1]]) as store:
                    assert (await new.failed(store))["stay"] == "undone"
                assert world.done == ["x", "undo x"]

    run(main())


def family(world: World, leaf: str) -> list[sagas.Saga]:
    """Return a parent whose child has a child of one step."""
    below = sagas.Saga("below")
    below.step(lambda task: world.done.append(task.key), name=leaf, keep=9).compensation(
        lambda task: world.done.append(f"undo {task.key}")
    )
    child = sagas.Saga("child")
    child.child(below, input=lambda task: None)
    return [*world.parent(child), below]


def test_a_child_of_a_child(location: str, capsys: pytest.CaptureFixture[str]) -> None:
    """The opening checks it, too, and it is undone by its own definition.

    Operators see how many there are.
    """
    world, shell = World(), Shell(location, capsys)
    old, new, more = family(world, "x"), family(world, "x2"), family(world, "x")
    more[2].step(lambda task: None, name="z", keep=1).compensation(
        lambda task: world.done.append("undo z")
    )

    async def main() -> None:
        await world.started(location, old)
        counts = [
            row.split() for row in (await asyncio.to_thread(shell, "definitions")).splitlines()
        ]
        assert counts[0] == ["SAGA", "VERSION", "OPEN", "UNDOABLE", "TOTAL"]
        assert counts[1:] == [
            ["below", "1", "0", "1", "1"],
            ["child", "1", "0", "1", "1"],
            ["parent", "1", "1", "0", "1"],
        ]
        if not location.startswith("postgresql"):
            with pytest.raises(
                sagas.MissingStep,
                match=(
                    "open sagas may undo a child of saga 'below' .version 1., but step 'x' has no"
                    " comp"
                ),
            ):
                await sagas.open(location, new).__aenter__()
        async with sagas.open(location, more) as store:
            assert await world.failed(store) == UNDONE
            assert sum(definition.undoable for definition in await store.definitions()) == 0

    run(main())
    assert world.done == ["t/:stay/:below", "undo t/:stay/:below"]


def test_the_definitions_of_an_open_store_are_those_of_another(location: str) -> None:
    """They exclude the sagas that undo their children, which the other store makes itself."""
    known = family(World(), "x")
    store = sagas.open(location, known)
    assert store.sagas == known and len(DefinitionRegistry(store.sagas).sagas) == 5


def test_a_node_that_cannot_undo_a_child_leaves_it(url: str) -> None:
    """Another node did the child after this one took over the parent: the undo waits for a program
    that can do it, and that node gets it.
    """
    world, gate = World(), asyncio.Event()
    old, new = world.child("x"), world.child("x2")

    def parent(child: sagas.Saga) -> list[sagas.Saga]:
        saga = sagas.Saga("parent")

        @saga.step(undo=0)
        async def first(task: Task) -> None:
            await gate.wait()

        stay = saga.child(child, name="stay", needs=[first], input=lambda task: None)
        saga.step(name="end", needs=[stay], external=True)
        return [saga, child]

    async def main() -> None:
        known, events = parent(new), list[sagas.Event]()
        async with sagas.open(url, known, node="new", on_event=events.append) as first:
            started = await first.start(known[0], "t")
            (listed,) = await first.list()
            async with sagas.open(url, parent(old), node="old") as second:
                assert await second._starter.start_child(
                    old, "t/:stay", None, StartOptions(parent=listed.id)
                )
                await second.wait("t/:stay", 60)
            gate.set()
            await until(lambda: [a for a in first.active_attempts("t") if a.step == "end"])
            await first.fail("t", "end", "no")
            (need,) = await until(first.attention)
            assert (need.why, need.step, need.undo) == ("cannot_decode", "stay", True)
            assert (
                need.detail
                and "a child of saga 'child' (version 1) is to be undone, but step 'x' has no comp"
                in need.detail
            )
            async with sagas.open(url, parent(old), node="old"):
                assert (await started.wait(60)).states["stay"] == "undone"
        assert [event.name for event in events if event.name == "step_cannot_decode"]

    run(main())
    assert world.done == ["x", "undo x"]


# -- what a definition says


def test_a_compensation_is_in_the_definition(location: str) -> None:
    """So its removal is noticed even if a step has nothing to undo now; a definition of an older
    release does not have it.
    """
    had, has = World().child("x"), World().child("x-")
    assert (
        "\n# compensated\n" in had.toml()
        and "# compensated" not in has.toml()
        and saga_module.declared_text(had) == had.toml()
    )
    older = had.toml().replace("# compensated\n", "")
    assert (
        undo_sagas.lacks(has, older) is None
        and undo_sagas.lacks(has, had.toml()) == "step 'x' has no compensation in this program"
    )
    shaped = sagas.Saga("shaped")
    shaped.step(name="x", for_each="items", undo=0)(lambda task: None)
    without = shaped.toml({"items": [1, 2]})
    shaped.steps[0].compensation(tries=1)(lambda task: None)
    text = shaped.toml({"items": [1, 2]})
    assert [step.is_compensated for step in definition_text.listed_steps(text)] == [
        True,
        True,
    ] and text.replace("# compensated\n", "") == without
    saga, plain = sagas.Saga("plain"), sagas.Saga("plain")
    for each in saga, plain:
        approved = each.approval(
            lambda task: None,
            name="a",
            needs=[each.step(name="x", keep=9, undo=0)(lambda task: None)],
        )
        each.step(name="end", needs=[approved])(lambda task: None)
    saga.steps[0].compensation(tries=1)(lambda task: None)

    async def main() -> None:
        async with sagas.open(location, [saga]) as store:
            await store.start(saga, "t")
            await until(
                lambda: [
                    attempt for attempt in store.active_attempts("t") if attempt.waits == "approval"
                ]
            )
        if not location.startswith("postgresql"):
            with pytest.raises(
                sagas.MissingStep,
                match="saga 'plain' .version 1. has open sagas, but step 'x' has no compensation",
            ):
                await sagas.open(location, [plain]).__aenter__()

    run(main())


def test_definitions_that_undo_children() -> None:
    """Their text names the child that they undo, and the results that each compensation may read; a
    text of an older release has neither.
    """
    world = World()
    child = world.child("x", "y", "z-", version=3)
    saga = undo_sagas.undo_saga(child)
    assert (
        saga
        and saga.toml()
        == '# version 3\n# undoes child\nformat = 2\nname = "child-undo"\n\n[[step]]\nname = "y"\n#'
        ' sees x\nundo = "never"\nskip = 9\n\n[[step]]\nname = "x"\n# sees\nneeds = ["y"]\nundo'
        ' = "never"\nskip = 9\n'
    )
    steps = definition_text.read_compensations(saga.toml())
    assert (
        definition_text.write_undo_definition("child", 3, steps) == saga.toml()
        and definition_text.child_of(child.toml()) is None
    )
    older = "".join(
        line
        for line in saga.toml().splitlines(keepends=True)
        if not line.startswith(("# undoes", "# sees"))
    )
    kind = DefinitionRegistry(world.parent(child)).kind(older)
    assert (
        kind.undoes == "child"
        and kind.lacks() is None
        and kind.saga
        and kind.saga.undo_text == older
    )
    other = sagas.Saga("child-undo", version=3)
    other.step(lambda task: None, name="x")
    assert (
        DefinitionRegistry([other]).kind(saga.toml()).lacks()
        == "this program did not open the store with that saga"
    )
    less = DefinitionRegistry(world.parent(world.child("x", version=3))).kind(saga.toml())
    assert less.lacks() == "step 'y' has no compensation in this program"
    assert [
        (step.name, step.sees, step.tries) for step in definition_text.read_compensations(older)
    ] == [
        ("y", (), 1),
        ("x", (), 1),
    ]


def test_a_child_without_compensations(caplog: pytest.LogCaptureFixture) -> None:
    """A number as `undo` is then probably a mistake."""
    child = World().child("x")
    child.step(name="held", needs=child.steps)(lambda task: None)
    (warning,) = World().parent(child, undo=1, keep=9)[0].warnings()
    assert (
        "undo=1, but nothing of its child saga 'child' can be undone, because 'held' cannot be"
        in warning
    )
    assert (
        not World().parent(child, undo=sagas.NEVER)[0].warnings()
        and not World().parent(World().child("x"), undo=1, keep=9)[0].warnings()
    )
    assert not World().parent(World().child("x-"), undo=1, keep=9)[0].warnings()


# -- done elsewhere


def leaf() -> list[sagas.Saga]:
    """Return a parent whose child is done and undone by workers."""
    child = sagas.Saga("leaf")
    plan = child.step(lambda task: {"rooms": 2}, name="plan", undo=0)
    child.step(external=True, name="room", needs=[plan], keep=9, undo=0).compensation(external=True)
    return World().parent(child)


def opened(location: str, node: str, **options: Any) -> sagas.Store:
    """Open a store that serves workers."""
    store = sagas.open(
        location, leaf(), node=node if location.startswith("postgresql") else None, **options
    )
    store.leased = True
    return store


class Backwards:
    """A codec without a key."""

    def encode(self, data: bytes) -> bytes:
        return data[::-1]

    def decode(self, data: bytes) -> bytes:
        return data[::-1]


def test_workers_undo_a_child(
    location: str, capsys: pytest.CaptureFixture[str], monkeypatch: pytest.MonkeyPatch
) -> None:
    """The worker of the child's step gets its compensation, as of the child, also by another node;
    until a worker claims it, it is listed.
    """
    monkeypatch.setattr(listings, "UNCLAIMED", -1.0)
    shell, codec = Shell(location, capsys), Backwards()

    async def main() -> None:
        async with contextlib.AsyncExitStack() as stack:
            first = await stack.enter_async_context(opened(location, "one", codec=codec))
            other = (
                await stack.enter_async_context(opened(location, "other", codec=codec))
                if location.startswith("postgresql")
                else first
            )
            started = await first.start(first.sagas[0], "t")
            (task,) = await other.workers.claim([("leaf", "room", "run")], wait=60, lease=60)
            await other.workers.report(task.attempt_id, task.lease, result="R-7")
            await until(lambda: [a for a in first.active_attempts("t") if a.waits == "approval"])
            await first.fail("t", "sign", "no")
            assert not await other.workers.claim([("leaf-undo", "room", "run")], wait=0, lease=60)
            ready = await until(other.workers.queues)
            assert [(q.saga, q.step, q.undo, q.ready) for q in ready] == [("leaf", "room", True, 1)]
            listed = {
                row[0]: row
                for row in map(str.split, (await asyncio.to_thread(shell, "pending")).splitlines())
            }
            assert (
                "a worker: none has claimed it for" in " ".join(listed["t/:stay:undo"])
                and "child" in listed["t"]
            )
            (undo,) = await other.workers.claim([("leaf", "room", "undo")], wait=60, lease=60)
            leased = undo.task
            assert (
                leased.saga,
                leased.key,
                leased.step,
                leased.is_compensation,
                leased.attempt,
            ) == (
                "leaf",
                "t/:stay",
                "room",
                True,
                1,
            )
            assert (leased.result, leased.results, leased.input) == (
                "R-7",
                {"plan": {"rooms": 2}},
                None,
            )
            assert leased.original_idempotency_key == task.task.idempotency_key
            assert leased.idempotency_key == task.task.idempotency_key.replace("-run", "-undo")
            # as a `Worker` gets it
            received = worker.task_of(json_views.task(undo, first._now()), Context())
            assert worker.step_name(received) == "leaf/room/undo" and (
                received.result,
                received.key,
            ) == (
                leased.result,
                leased.key,
            )
            assert (
                received.idempotency_key == leased.idempotency_key
                and received.attempt_id != undo.attempt_id
            )
            await other.workers.report(undo.attempt_id, undo.lease, result=None)
            assert (await started.wait(60)).states == UNDONE
            assert (await first.wait("t/:stay:undo", 60)).ok

    run(main())


def test_a_task_that_an_older_release_offered(tmp_path: pathlib.Path) -> None:
    """It was offered under a name that no worker claims: it is offered again."""
    location = str(tmp_path / "store.db")

    async def main() -> None:
        async with opened(location, "") as store:
            await store.start(store.sagas[0], "t")
            (task,) = await store.workers.claim([("leaf", "room", "run")], wait=60, lease=60)
            await store.workers.report(task.attempt_id, task.lease, result="R-7")
            await until(lambda: [a for a in store.active_attempts("t") if a.waits == "approval"])
            await store.fail("t", "sign", "no")
            await until(store.workers.queues)
            database = store._coordinator.store._writer._db  # type: ignore[attr-defined]
            database.execute(
                "UPDATE external_attempts SET task = 'leaf-undo/room/run' WHERE outcome IS NULL"
            )
        async with opened(location, "") as store:
            (undo,) = await store.workers.claim([("leaf", "room", "undo")], wait=60, lease=60)
            await store.workers.report(undo.attempt_id, undo.lease, result=None)
            assert (await store.wait("t", 60)).states == UNDONE

    run(main())


@pytest.mark.parametrize("is_aborted", [False, True])
def test_children_of_an_earlier_release(tmp_path: pathlib.Path, is_aborted: bool) -> None:
    """A child in progress, with its own child, and a saga that undoes one keep their keys, and no
    other is started.
    """
    location, calls = str(tmp_path / "store.db"), list[str]()
    leaf, middle, top = sagas.Saga("leaf"), sagas.Saga("middle"), sagas.Saga("top")
    room = leaf.step(name="room", keep=9)(lambda task: calls.append("room"))
    room.compensation(on_exhausted="ask", external=True)
    sign = leaf.approval(name="sign", needs=[room])(lambda task: None)
    middle.child(leaf, name="stay", input=lambda task: None)
    end = middle.approval(name="end", needs=middle.steps)(lambda task: None)
    top.child(middle, name="trip", input=lambda task: None)
    known = [top, middle, leaf]

    async def main() -> None:
        async with sagas.open(location, known) as store:
            await store.start(top, "t")
            await store.start(middle, "u")
            for key in ("u/:stay", "t/:trip/:stay"):
                await until(lambda: store.active_attempts(key))
                await until(
                    lambda: [
                        attempt
                        for attempt in store.active_attempts(key)
                        if attempt.waits == "approval"
                    ]
                )
            await store.complete("u/:stay", sign.name)
            await until(
                lambda: [
                    attempt for attempt in store.active_attempts("u") if attempt.waits == "approval"
                ]
            )
            await store.fail("u", end.name, "no")
            await until(lambda: store.active_attempts("u/:stay:undo"))
        with contextlib.closing(sqlite3.connect(location)) as link, link:
            link.execute("UPDATE sagas SET key = replace(key, '/:', '/')")
            link.execute("UPDATE attempts SET value = replace(value, '/:', '/')")
        store = sagas.open(location, known)
        store.leased = True
        async with store:
            if is_aborted:
                await store.abort("t")
            else:
                await store.complete("t/trip/stay", sign.name)
                await until(
                    lambda: [
                        attempt
                        for attempt in store.active_attempts("t/trip")
                        if attempt.waits == "approval"
                    ]
                )
                await store.complete("t/trip", end.name)
            for _ in range(2 if is_aborted else 1):
                (undo,) = await store.workers.claim([("leaf", "room", "undo")], wait=60)
                await store.workers.report(undo.attempt_id, undo.lease)
            assert (await store.wait("t", 60)).ok is not is_aborted
            assert (await store.wait("u", 60)).states["stay"] == "undone"
            keys = {summary.key for summary in await store.list()}
            assert (
                keys == {"t", "t/trip", "t/trip/stay", "u", "u/stay", "u/stay:undo"}
                and calls == ["room"] * 2
            )

    run(main())


# -- many children, and children that do not complete


def test_children_of_items(location: str) -> None:
    """Each item has its own child, which is undone with its own key and input."""
    world, group, top = World(), sagas.Saga("group"), sagas.Saga("top")
    child = sagas.Saga("child")
    child.step(lambda task: task.input, name="x", keep=9).compensation(
        lambda task: world.done.append(f"{task.key} {task.result}")
    )
    group.child(child, name="stay", input=lambda task: task.input)
    trips = top.include(group, name="trip", for_each="items")

    @top.step(needs=[trips])
    def end(task: Task) -> None:
        assert [step["results"] for step in task.result_of(trips[group.steps[0]])] == [
            {"x": 5},
            {"x": 7},
        ]
        raise sagas.Fail("no")

    async def main() -> None:
        async with sagas.open(location, [top, group, child]) as store:
            states = (await (await store.start(top, "t", {"items": [5, 7]})).wait(60)).states
            assert states == {"trip-0-stay": "undone", "trip-1-stay": "undone", "end": "failed"}

    run(main())
    assert sorted(world.done) == ["t/:trip-0-stay 5", "t/:trip-1-stay 7"]


def test_a_child_with_items(location: str) -> None:
    """No saga undoes it, so the parent's own function does."""
    world, child = World(), sagas.Saga("child")
    child.step(lambda task: task.item, name="x", for_each="items", undo=0)
    with pytest.raises(
        sagas.DefinitionError,
        match="its steps come from its input, so its costs as a child are not known",
    ):
        sagas.open(location, world.parent(child))
    known = world.parent(child, keep=9, undo=1)
    known[0].steps[0].run.function = lambda task: {"items": [5, 7]}
    known[0].steps[0].compensation(lambda task: world.done.append(task.result["results"]))

    async def main() -> None:
        await world.started(location, known)
        async with sagas.open(location, known) as store:
            assert await world.failed(store) == UNDONE

    run(main())
    assert world.done == [{"x-0": 5, "x-1": 7}]


def test_the_second_child_is_undone(location: str) -> None:
    """If only the last one completed, that one is undone, by its own definition; a stuck one is
    resolved before.
    """
    world = World()

    def known(*steps: str) -> list[sagas.Saga]:
        child, do = world.child(*steps), world.do

        @child.step(name="must", needs=[child.steps[-1]], skip=sagas.NEVER, undo=0)
        def must(task: Task) -> None:
            if task.key == "t/:stay":
                raise sagas.Fail("not yet")

        child.steps[0].run.function = lambda task: do(task)
        return world.parent(child, on_exhausted="ask", keep=9, undo=0)

    setattr(world, "undo", lambda task: world.done.append(f"undo {task.step} of {task.key}"))
    old, new = known("x"), known("x", "z")

    async def main() -> None:
        async with sagas.open(location, old) as store:
            await store.start(old[0], "t")
            await until(lambda: store.get("t/:stay"))
            assert (await store.wait("t/:stay", 60)).phase == "stuck" and len(
                await store.attention()
            ) == 1
            await store.resolve("t/:stay", "seen to")
            await until(
                lambda: [
                    attempt
                    for attempt in store.active_attempts("t")
                    if attempt.waits == "exhausted"
                ]
            )
            await store.retry("t", "stay")
            await until(
                lambda: [
                    attempt for attempt in store.active_attempts("t") if attempt.waits == "approval"
                ]
            )
        if not location.startswith("postgresql"):
            with pytest.raises(sagas.MissingStep, match="step 'x' has no compensation"):
                await sagas.open(location, known("x2")).__aenter__()
        async with sagas.open(location, new) as store:
            assert await world.failed(store) == UNDONE

    run(main())
    assert [call for call in world.done if call.startswith("undo")] == ["undo x of t/:stay/2"]
