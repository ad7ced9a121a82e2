"""Failed items and optional steps are void for the engine: they cost nothing in a plan.

Here they meet other features: attempts, costs, pivots, children, inclusion, operators, aborts,
early reports, other nodes, stores of earlier releases, exports and the service.
"""

from __future__ import annotations

import contextlib
import json
import pathlib
import sqlite3
from collections.abc import Callable
from typing import Any

import psycopg
import pytest
from cases import QUICK, Task, run, until
from serving import report, served, start, take

import sagas
import sagas.testing
from sagas.base import program
from sagas.cli import store_command

NO = sagas.Fail("no")


def fail(task: Task) -> None:
    """Fail permanently."""
    raise sagas.Fail("mailbox full")


def act(task: Task) -> None:
    """Succeed."""


def done(location: str, change: str) -> None:
    """Change the tables by hand, while no program has the store open."""
    if "://" in location:
        with psycopg.connect(location, autocommit=True) as link:
            link.execute(change.format("sagas."))  # type: ignore[arg-type]
        return
    with contextlib.closing(sqlite3.connect(location, isolation_level=None)) as file:
        file.execute(change.format(""))


# -- plans


Declared = Callable[[sagas.Saga, list[str]], Any]
"""Declares steps of a saga, and returns what its last step needs. The list is of compensations."""


def items(**options: Any) -> Declared:
    """Return a declaration of a step whose items fail if they are 0."""

    def declare(saga: sagas.Saga, undone: list[str]) -> Any:
        costs = {"for_each": "items", "keep": 100, "undo": 30, "backoff": QUICK} | options
        failing = sagas.Retry("closed") if "tries" in options else sagas.Fail("mailbox full")

        @saga.step(**costs)
        def ship(task: sagas.ItemTask[Any, int]) -> int:
            if not task.item:
                raise failing
            return task.item

        if costs["undo"] is not sagas.NEVER:
            ship.compensation(lambda task: undone.append(task.step))
        return ship if options.get("optional") else sagas.collect(ship)

    return declare


def optional(**options: Any) -> Declared:
    """Return a declaration of an optional step that fails, between two steps."""

    def declare(saga: sagas.Saga, undone: list[str]) -> Any:
        before = saga.step(name="before", undo=5, keep=50)(act)
        mail = saga.step(name="mail", needs=[before], optional=True, **options)(fail)
        after = saga.step(name="after", needs=[mail], undo=5, keep=50)(act)
        for step in (before, mail, after):
            step.compensation(lambda task: undone.append(task.step))
        return after

    return declare


def included(saga: sagas.Saga, undone: list[str]) -> Any:
    """Include a saga whose optional step fails."""
    inner = sagas.Saga("inner")
    optional(keep=100, undo=30)(inner, undone)
    return saga.include(inner, name="in")


def child(saga: sagas.Saga, undone: list[str]) -> Any:
    """Start a child whose optional step fails. It completes, and another saga undoes it."""
    inner = sagas.Saga("inner")
    optional(keep=100, undo=30)(inner, undone)
    return saga.child(inner, input=lambda task: None, name="in", undo=7, keep=50)


ITEMS = {"ship-0": "undone", "ship-1": "failed", "ship-2": "undone"}
MAIL = {"before": "undone", "mail": "failed", "after": "undone"}
PLANS: dict[str, tuple[Declared, list[int], int, dict[str, str], list[str]]] = {
    "item": (items(), [1, 0, 2], 60, ITEMS, ["ship-0", "ship-2"]),
    "optional item": (items(optional=True), [1, 0, 2], 60, ITEMS, ["ship-0", "ship-2"]),
    "item after attempts": (items(tries=3), [1, 0, 2], 60, ITEMS, ["ship-0", "ship-2"]),
    "all items": (items(), [0, 0], 0, {"ship-0": "failed", "ship-1": "failed"}, []),
    "no items": (items(), [], 0, {}, []),
    "items that stay": (
        items(skip=sagas.NEVER),
        [1, 0],
        100,
        {"ship-0": "committed", "ship-1": "failed"},
        [],
    ),
    "items that cannot be undone": (
        items(undo=sagas.NEVER, keep=3),
        [1, 0],
        3,
        {"ship-0": "committed", "ship-1": "failed"},
        [],
    ),
    "expensive to skip": (items(skip=1000), [0, 0], 0, {"ship-0": "failed"}, []),
    "on a condition": (items(when=lambda order: True), [0, 0], 0, {"ship-0": "failed"}, []),
    "between two steps": (optional(keep=100, undo=30), [], 10, MAIL, ["after", "before"]),
    "left out by its input": (
        optional(when=lambda order: False),
        [],
        10,
        {"before": "undone", "after": "undone"},
        ["after", "before"],
    ),
    "included": (
        included,
        [],
        10,
        {f"in-{name}": state for name, state in MAIL.items()},
        ["in-after", "in-before"],
    ),
    "child": (child, [], 7, {"in": "undone"}, ["after", "before"]),
}
"""By name: the steps, the items, the cost of the plan after the last step has failed, the states of
steps, and the compensations in their order."""


@pytest.mark.parametrize("name", PLANS)
def test_a_plan_does_not_count_it(name: str, location: str) -> None:
    """In a simulation and over both databases; and its compensation is not called."""
    declare, values, cost, states, compensations = PLANS[name]
    undone = list[str]()
    saga = sagas.Saga("plans")
    saga.step(name="last", needs=[declare(saga, undone)])(fail)
    failed = [step for step, state in states.items() if state == "failed"]
    order = {"items": values}
    children = [step.child for step in saga.steps if step.child is not None]
    trial = sagas.testing.run(saga, order, concurrency=1)
    seen = {step: trial.states[step] for step in states}
    assert (trial.phase, trial.cost, seen) == ("recovered", cost, states), trial
    assert (sorted(undone), len(undone)) == (sorted(compensations), len(compensations))
    undone.clear()

    async def main() -> None:
        async with sagas.open(location, [saga, *children]) as store:
            end = await (await store.start(saga, "k", order)).wait(60)
            seen = {step: end.states[step] for step in states}
            assert (end.phase, end.cost, seen) == ("recovered", cost, states), end
            assert {*failed} <= {*end.optional_failures}
            plan = await store.plan("k")
            assert plan is not None and plan.check() == f"least {cost}"
            choices = {choice.step: choice for choice in plan.choices}
            for step in failed:
                assert choices[step].cost_to_keep == 0 and choices[step].is_optional_failure
        async with sagas.open(location, [saga, *children]) as store:
            assert await store.wait("k") == end

    run(main())
    assert (sorted(undone), len(undone)) == (sorted(compensations), len(compensations))
    if "before" in {step.rpartition("-")[2] for step in compensations}:
        assert undone == compensations
    assert store_command.main([location, "audit"]) == 0


PIVOTS = {"charge": "uxx-", "send": "+x+x", "": "+x++"}
"""The states of both items, the pivot and the step after it, by the step that fails."""


@pytest.mark.parametrize("fails", PIVOTS)
def test_a_pivot(fails: str) -> None:
    """An item that fails before the pivot is neither kept nor undone, whatever follows."""
    saga = sagas.Saga("pivot")

    @saga.step(for_each="items")
    def ship(task: sagas.ItemTask[Any, int]) -> None:
        if not task.item:
            raise sagas.Fail("mailbox full")

    ship.compensation(act)
    charge = saga.step(name="charge", needs=[sagas.collect(ship)], pivot=True)(act)
    saga.step(name="send", needs=[charge])(act)
    trial = sagas.testing.run(saga, {"items": [1, 0]}, fail={fails: NO} if fails else {})
    short = {"committed": "+", "failed": "x", "undone": "u", "waiting": "-"}
    steps = ("ship-0", "ship-1", "charge", "send")
    assert "".join(short[trial.states[step]] for step in steps) == PIVOTS[fails], trial


# -- operators, aborts and reports


def test_an_operator_decides(location: str) -> None:
    """A person lets it be attempted again, and then reports that it failed."""
    saga, calls = sagas.Saga("asked", order="declared"), list[int]()

    @saga.step(optional=True, keep=100, undo=30, tries=1, on_exhausted="ask")
    def mail(task: Task) -> None:
        calls.append(task.attempt)
        raise sagas.Retry("closed")

    mail.compensation(fail)
    saga.step(name="last")(fail)

    async def main() -> None:
        async with sagas.open(location, [saga]) as store:
            await store.start(saga, "k")
            for count in (1, 2):
                await until(lambda: len(calls) == count)
                await until(lambda: asks(store))
                if count == 1:
                    await store.retry("k", "mail")
            await store.fail("k", "mail", "it stays closed")
            end = await store.wait("k", 60)
            assert (end.phase, end.cost, end.optional_failures) == ("recovered", 0, ["mail"])
            assert end.errors["mail"] == "it stays closed" and len(calls) == 2
            with pytest.raises(sagas.StepNotWaiting):
                await store.retry("k", "mail")
            with pytest.raises(sagas.ConflictingReport):
                await store.complete("k", "mail", 1)

    run(main())
    assert store_command.main([location, "audit"]) == 0


async def asks(store: sagas.Store) -> bool:
    """Return whether an operator is asked about a step."""
    return bool(await store.attention())


@pytest.mark.parametrize("moment", ["before", "after"])
def test_an_abort(location: str, moment: str) -> None:
    """After the failure of an item it undoes the others. An item that fails after it has failed."""
    saga, started = sagas.Saga("aborted"), list[str]()

    @saga.step(for_each="items", keep=100, undo=30, skip=2, tries=1)
    async def ship(task: sagas.ItemTask[Any, int]) -> None:
        started.append(task.step)
        if not task.item:
            if moment == "before":
                await task.cancelled
            raise sagas.Fail("mailbox full")

    ship.compensation(lambda task: None)
    review = saga.approval(name="review", needs=[sagas.collect(ship)])(act)
    saga.step(name="last", needs=[review])(act)

    async def main() -> None:
        async with sagas.open(location, [saga]) as store:
            await store.start(saga, "k", {"items": [1, 0]})
            if moment == "before":
                await until(lambda: len(started) == 2)
            else:
                await until(lambda: "review" in waiting(store))
            await store.abort("k")
            end = await store.wait("k", 60)
            assert end.states["ship-0"] == "undone" and end.states["ship-1"] == "failed", end
            is_void = moment == "after"  # the other one is left out for 2
            assert (end.phase, end.cost) == ("recovered", 32 if is_void else 34), end
            assert end.optional_failures == (["ship-1"] if is_void else [])

    run(main())
    assert store_command.main([location, "audit"]) == 0


def waiting(store: sagas.Store, key: str = "k") -> list[str]:
    """Return the steps of a saga that are under way."""
    return [attempt.step for attempt in store.active_attempts(key)]


def test_an_early_report_of_a_failure(location: str) -> None:
    """A failure and a success are reported before their steps, and another node applies them."""
    saga, undone = sagas.Saga("early", order="declared"), list[str]()
    saga.step(name="first", external=True, undo=sagas.NOTHING)
    mail = saga.step(name="mail", external=True, optional=True, keep=100, undo=30)
    paid = saga.step(name="paid", external=True, keep=50, undo=4)
    for step in (mail, paid):
        step.compensation(lambda task: undone.append(f"{task.step} {task.result}"))
    saga.step(name="last")(fail)

    async def main() -> None:
        async with sagas.open(location, [saga]) as store:
            await store.start(saga, "k")
            await store.fail("k", "mail", "full")
            await store.complete("k", "paid", 2)
        async with sagas.open(location, [saga]) as store:
            await store.complete("k", "first", 1)
            end = await store.wait("k", 60)
            assert (end.phase, end.cost, end.optional_failures) == ("recovered", 4, ["mail"])
            assert end.states["paid"] == "undone" and end.errors["mail"] == "full", end

    run(main())
    assert undone == ["paid 2"]
    assert store_command.main([location, "audit"]) == 0


# -- other nodes, and stores of earlier releases


def parcels(undone: list[str]) -> sagas.Saga:
    """Return a saga in which an item fails, then one waits for a person, and the last step fails.

    The compensation of `pack` asks an operator.
    """
    saga = sagas.Saga("parcels")
    reserve = saga.step(name="reserve", undo=5, keep=50)(act)
    reserve.compensation(lambda task: undone.append(task.step))

    @saga.step(for_each="items", needs=[reserve], keep=100, undo=30)
    def ship(task: sagas.ItemTask[Any, int]) -> None:
        if not task.item:
            raise sagas.Fail('"' * 4000)

    ship.compensation(lambda task: undone.append(task.step))
    pack = saga.step(name="pack", needs=[sagas.collect(ship)], undo=6, keep=60)(act)

    @pack.compensation(tries=1, on_exhausted="ask")
    def unpack(task: Task) -> None:
        undone.append(task.step)
        raise sagas.Retry("closed")

    review = saga.approval(name="review", needs=[pack])(act)

    @saga.step(needs=[review], undo=0)
    def last(task: Task) -> None:
        if task.input["last"] == "fails":
            raise sagas.Fail("no")

    return saga


@pytest.mark.parametrize("last", ["fails", "works"])
def test_other_nodes_continue(location: str, last: str) -> None:
    """One after the failure, and one during the compensations. They come in the right order."""
    undone = list[str]()
    saga = parcels(undone)

    async def main() -> None:
        async with sagas.open(location, [saga], node="one") as store:
            await store.start(saga, "k", {"items": [1, 0], "last": last})
            await until(lambda: "review" in waiting(store))
        async with sagas.open(location, [saga], node="two") as store:
            await store.complete("k", "review", None)
            if last == "fails":
                await until(lambda: asks(store))
                assert undone == ["pack"]
        async with sagas.open(location, [saga], node="three") as store:
            if last == "fails":
                await store.complete("k", "pack", None, undo=True)
            end = await store.wait("k", 60)
            assert end.optional_failures == ["ship-1"] and end.states["ship-1"] == "failed", end
            assert set(end.errors["ship-1"]) == {*'sagas.Fail: "'}, "also a text of many escapes"
            if last == "works":
                assert end.ok and end.phase == "completed", end
            else:
                assert (end.phase, end.cost) == ("recovered", 41), end
        async with sagas.open(location, [saga]) as store:
            assert await store.wait("k") == end

    run(main())
    assert undone == (["pack", "ship-0", "reserve"] if last == "fails" else [])
    assert store_command.main([location, "audit"]) == 0


OLDER = (
    """UPDATE {}event_log SET text = replace(text, '"event":"void"', '"event":"commit"')""",
    """UPDATE {}sagas SET outcome = replace(outcome, '"void"', '"committed"')
    WHERE outcome IS NOT NULL""",
)
"""What an earlier release stored of a failed item."""


def test_a_store_of_an_earlier_release(location: str, capsys: pytest.CaptureFixture[str]) -> None:
    """Its failed items are committed for the engine, and failed for users. New ones are void."""
    undone, owner = list[str](), location.replace("//app@", "//owner@")
    saga = parcels(undone)

    async def main() -> None:
        async with sagas.open(location, [saga]) as store:
            for key, last in (("open", "fails"), ("ended", "works")):
                await store.start(saga, key, {"items": [1, 0], "last": last})
            for key in ("open", "ended"):
                await until(lambda: "review" in waiting(store, key))
            await store.complete("ended", "review", None)
            assert (await store.wait("ended", 60)).ok
        for change in OLDER:
            done(owner, change)
        assert store_command.main([location, "audit"]) == 0
        async with sagas.open(location, [saga]) as store:
            end = await store.wait("ended")
            assert end.ok and end.optional_failures == ["ship-1"], end
            await store.complete("open", "review", None)
            await until(lambda: asks(store))
            await store.complete("open", "pack", None, undo=True)
            end = await store.wait("open", 60)
            assert (end.phase, end.optional_failures) == ("recovered", ["ship-1"])
            assert end.cost == 71 and end.states["ship-1"] == "failed", "its undo= counts"
            plan = await store.plan("open")
            assert plan is not None and plan.case["states"][2] == "committed", plan
            new = await store.start(saga, "new", {"items": [0, 0], "last": "works"})
            await until(lambda: "review" in waiting(store, "new"))
            await store.complete("new", "review", None)
            assert (await new.wait(60)).optional_failures == ["ship-0", "ship-1"]

    run(main())
    assert undone == ["pack", "ship-0", "reserve"]
    assert store_command.main([location, "audit"]) == 0
    capsys.readouterr()
    assert store_command.main([location, "export", "new"]) == 0
    exported = json.loads(capsys.readouterr().out)
    events = [event["event"] for event in exported["events"]]
    assert events.count("void") == 2 and exported["end"]["states"][1:3] == ["failed", "failed"]


# -- exports and the service


def test_an_export_is_verified(tmp_path: pathlib.Path, capsys: pytest.CaptureFixture[str]) -> None:
    """Its events are those of the engine, so `sagas audit` and the planner page read them."""
    location, saga = str(tmp_path / "store.db"), sagas.Saga("exported")
    collected = items()(saga, [])
    saga.step(name="last", needs=[collected])(fail)

    async def main() -> None:
        async with sagas.open(location, [saga]) as store:
            end = await (await store.start(saga, "k", {"items": [1, 0]})).wait(60)
            assert end.cost == 30

    run(main())
    assert store_command.main([location, "export", "k"]) == 0
    exported = json.loads(capsys.readouterr().out)
    lines = [
        {key: value for key, value in line.items() if key != "at"} for line in exported["events"]
    ]
    log = "".join(f"{json.dumps(line)}\n" for line in [{"format": 2}, *lines])
    assert '"event": "void"' in log
    audited = program.run("audit", [log, exported["definition"]])
    assert audited.stdout.startswith("yes sagas 1 ended 1 stuck 0"), audited


TOML = """format = 2
name = "shop"
[[step]]
name = "mail"
undo = 30
keep = 100
[[step]]
name = "send"
needs = ["mail"]
undo = 2
keep = 50
"""
FILES = {"shop.toml": TOML, "shop.service.toml": "[step.mail]\noptional = true\n"}


def test_a_service_plans_without_it(tmp_path: pathlib.Path) -> None:
    """The forecast of an abort, the page, and the plan: none of them counts its costs."""
    with served(tmp_path, FILES) as service, service.client() as client:
        assert start(client, "shop", "k").status_code == 201
        (task,) = take(client, "shop/mail")
        assert report(client, task, "fail", error="full", final=True).status_code == 200
        (task,) = take(client, "shop/send")
        forecast = client.post("/v1/sagas/k/what-if", json={"abort": True}).json()
        assert "certificate" in forecast, forecast
        case = forecast["certificate"]["case"]
        assert (forecast["cost"], case["states"][0]) == (2, "void"), forecast
        steps = {step["step"]: step for step in forecast["plan"]["steps"]}
        assert steps["mail"]["found"] == "failed" and steps["mail"]["decision"] == "is left out"
        page = client.get("/ui/sagas/k").text
        assert "failed, optional" in page and "void" not in page
        assert report(client, task, "fail", error="closed", final=True).status_code == 200
        saga = client.get("/v1/sagas/k/wait").json()
        assert (saga["phase"], saga["plan"]["cost"]) == ("recovered", 0), saga
        assert saga["states"] == {"mail": "failed", "send": "failed"}
        export = client.get("/v1/sagas/k/export").json()
        assert [event["event"] for event in export["events"]].count("void") == 1
        assert "void" not in json.dumps(export["saga"]) + json.dumps(export["history"])
