"""Optional steps: their failure is their outcome, in each view, and the saga continues."""

from __future__ import annotations

import datetime
import json
import pathlib
from collections.abc import Callable
from typing import Any

import pytest
from cases import QUICK, Task, run, until
from serving import Served, report, served, start, take

import sagas
import sagas.testing
from sagas.cli import store_command

FULL = "sagas.Fail: mailbox full"
APP = ("--app", f"{__name__}:CODEC")
"""The codec, for commands that show values."""


def fail(task: Task) -> None:
    """Fail permanently."""
    raise sagas.Fail("mailbox full")


def order_of(mail: Callable[[sagas.Saga], sagas.Step[Any]], calls: list[str]) -> sagas.Saga:
    """Return a saga that reserves, mails, asks for a review, and sends, each after the other."""
    order = sagas.Saga("order", order="declared")

    @order.step(keep=9)
    def reserve(task: Task) -> str:
        return "R-1"

    @reserve.compensation
    def release(task: Task) -> None:
        calls.append(f"release {task.result}")

    mailed = mail(order)

    @mailed.compensation
    def unsend(task: Task) -> None:
        calls.append("unsend")

    @order.approval
    def review(task: Task) -> None:
        calls.append(f"review {task.failure_of(mailed)}")

    @order.step
    def send(task: Task) -> str:
        with pytest.raises(sagas.StepFailed, match="mailbox full"):
            task.result_of(mailed)
        if task.input["send"] == "fails":
            raise sagas.Fail("sold out")
        return str(task.failure_of(mailed))

    return order


def optional_mail(order: sagas.Saga) -> sagas.Step[Any]:
    """Declare the mail as a step that fails."""
    return order.step(name="mail", optional=True, tries=2, backoff=QUICK)(fail)


class Reversed:
    """A codec."""

    def encode(self, data: bytes) -> bytes:
        return data[::-1]

    decode = encode


CODEC = Reversed()


def shown(location: str, capsys: pytest.CaptureFixture[str], *arguments: str) -> str:
    """Return what a command of the store prints."""
    capsys.readouterr()
    assert store_command.main([location, *arguments]) == 0
    return capsys.readouterr().out


@pytest.mark.parametrize("send", ["works", "fails"])
def test_each_view_says_failed(
    location: str, send: str, capsys: pytest.CaptureFixture[str]
) -> None:
    """Before and after a restart, with a codec, and after a plan."""
    calls, events = list[str](), list[sagas.Event]()
    order = order_of(optional_mail, calls)

    async def main() -> sagas.SagaResult:
        options: Any = {"codec": CODEC, "on_event": events.append}
        async with sagas.open(location, [order], **options) as store:
            await store.start(order, "k", {"send": send})
            await until(lambda: calls)
        open_view = shown(location, capsys, "show", "k", *APP)
        assert any(
            line.split()[:4] == ["mail", "failed,", "optional", "1"] and FULL in line
            for line in open_view.splitlines()
        ), open_view
        async with sagas.open(location, [order], **options) as store:
            await store.complete("k", "review", None)
            end = await store.wait("k")
            assert (await store.wait("k")).states == end.states
            plan, log = await store.plan("k"), await store.log("k")
            mailed = [(event.event, event.value) for event in log if event.step == "mail"]
            assert mailed == [("start_run", None), ("fail", {"error": FULL, "optional": True})]
            if plan is not None:
                line = next(line for line in str(plan).splitlines() if " mail " in line)
                assert "failed, optional" in line and line.endswith("is left out"), plan
                assert plan.check().startswith("least")
        async with sagas.open(location, [order], codec=CODEC) as store:
            assert (await store.wait("k")) == end  # from the rows
        return end

    end = run(main())
    mails = [event for event in events if event.step == "mail"]
    assert [(event.name, event.optional) for event in mails if event.name != "step_started"] == [
        ("step_failed", True)
    ]
    assert end.errors["mail"] == FULL and end.optional_failures == ["mail"]
    assert "mail" not in end.results and "mail" not in end.kept
    works = send == "works"
    assert end.ok is works and end.phase == ("completed" if works else "recovered")
    assert list(end.states.values()) == (
        ["committed", "failed", "committed", "committed"]
        if works
        else ["undone", "failed", "undone", "failed"]
    )
    assert calls == [f"review {FULL}", *([] if works else ["release R-1"])]
    with pytest.raises(sagas.StepFailed):
        end.result_of("mail")
    assert "failed, optional mail: sagas.Fail: mailbox full" in str(end)
    assert "<title>mail: failed, optional</title>" in shown(location, capsys, "draw", "k", "--svg")
    log = shown(location, capsys, "log", "k", *APP)
    lines = [line.split(None, 2)[2] for line in log.splitlines() if "  mail" in line]
    assert [line.split() for line in lines] == [
        ["start_run", "mail"],
        ["fail", "mail", "optional:", *FULL.split()],
    ], log
    view = json.loads(shown(location, capsys, "show", "k", "--json", *APP))
    mail = view["steps"][1]
    assert (mail["state"], mail["optional_failure"]) == ("failed", True)
    assert view["end"]["states"][1] == "failed" and 1 not in view["end"]["kept"]


# -- each kind of step, and each way to fail


def approval(saga: sagas.Saga) -> sagas.Step[Any]:
    def ask(task: Task) -> None:
        ...

    return saga.approval(name="a", optional=True)(ask)


def approval_in_time(saga: sagas.Saga) -> sagas.Step[Any]:
    def ask(task: Task) -> None:
        ...

    return saga.approval(name="a", optional=True, timeout=60)(ask)


def child(saga: sagas.Saga) -> sagas.Step[Any]:
    inner = sagas.Saga("inner")
    inner.step(name="b", undo=0)(fail)
    return saga.child(inner, input=lambda task: None, name="a", optional=True)


def wait(saga: sagas.Saga) -> sagas.Step[Any]:
    return saga.wait(name="a", until=datetime.timedelta(1), tries=1, optional=True)(fail)


def external(saga: sagas.Saga) -> sagas.Step[Any]:
    return saga.step(name="a", external=True, optional=True)


def exhausted(saga: sagas.Saga) -> sagas.Step[Any]:
    def broken(task: Task) -> None:
        raise sagas.Retry("closed")

    options: Any = {"tries": 2, "on_exhausted": "ask", "optional": True}
    return saga.step(name="a", backoff=QUICK, **options)(broken)


def items(saga: sagas.Saga) -> sagas.Step[Any]:
    def half(task: Any) -> Any:
        if not task.item:
            raise sagas.Fail("mailbox full")

    return saga.step(name="a", for_each="items", optional=True)(half)


ANSWER = {"a": sagas.Fail("mailbox full")}
KINDS: list[tuple[Any, dict[str, Any], str]] = [
    (approval, ANSWER, "Fail: mailbox full"),
    (approval_in_time, {}, "it was not approved in time"),
    (child, {}, "child saga 'test/:a' has not completed: recovered. b: " + FULL),
    (wait, {}, FULL),
    (external, ANSWER, "Fail: mailbox full"),
    (exhausted, ANSWER, "Fail: mailbox full"),
    (items, {}, FULL),
]


@pytest.mark.parametrize("declare, answers, error", KINDS, ids=[kind[0].__name__ for kind in KINDS])
def test_each_kind_of_step(declare: Any, answers: dict[str, Any], error: str) -> None:
    """It fails, the step that needs it runs, and a later failure undoes nothing of it."""
    saga, is_fan_out = sagas.Saga("kinds"), declare is items
    step = declare(saga)
    name = "a-1" if is_fan_out else "a"

    @saga.step(needs=[step], undo=0)
    def after(task: Task) -> Any:
        return task.failure_of(step)

    @saga.step(needs=[after])
    def last(task: Task) -> None:
        if task.input["last"] == "fails":
            raise sagas.Fail("no")

    for fails in ("works", "fails"):
        order = {"items": [1, 0], "last": fails}
        trial = sagas.testing.run(saga, order, answers=answers)
        assert trial.states[name] == "failed" and trial.errors[name] == error, trial
        assert trial.optional_failures == [name]
        assert all(call.step != name for call in trial.undone)
        if fails == "works":
            assert trial.ok and trial.phase == "completed", trial
            assert trial.result_of(after) == ([None, error] if is_fan_out else error)
        else:
            assert not trial.ok and trial.states["after"] == "undone", trial


def test_a_report_of_a_failure(location: str) -> None:
    """A report that comes early or twice is accepted; a different one conflicts."""
    saga = sagas.Saga("reports")
    first = saga.step(name="first", external=True)
    mail = saga.step(name="mail", external=True, optional=True, needs=[first])
    saga.step(name="last", external=True, needs=[mail])

    async def main() -> None:
        async with sagas.open(location, [saga]) as store:
            await store.start(saga, "k")
            await store.fail("k", "mail", "full")
            await store.fail("k", "mail", "full")
            await store.complete("k", "first", 1)
            await store.complete("k", "last", 2)
            end = await store.wait("k")
            assert end.ok and end.errors == {"mail": "full"}, end
            await store.fail("k", "mail", "full")
            for report in (store.fail("k", "mail", "other"), store.complete("k", "mail", 3)):
                with pytest.raises(sagas.ConflictingReport, match="it has failed"):
                    await report

    run(main())


# -- a saga that is about to be planned, and a deploy


def test_it_fails_while_the_saga_is_being_undone(location: str) -> None:
    """Its failure stays an outcome, so that the next step can run. After an abort it does not."""
    saga = sagas.Saga("parallel")
    started = list[str]()

    @saga.step(pivot=True)
    async def charge(task: Task) -> None:
        ...

    @saga.step(needs=[charge])
    async def gift(task: Task) -> None:
        await until(lambda: started)
        if task.key == "aborted":
            await task.cancelled
        raise sagas.Fail("sold out")

    @saga.step(needs=[charge], optional=True)
    async def mail(task: Task) -> None:
        started.append("mail")
        await task.cancelled
        raise sagas.Fail("mailbox full")

    @saga.step(needs=[mail])
    async def ship(task: Task) -> str:
        return str(task.failure_of(mail))

    async def main() -> None:
        async with sagas.open(location, [saga]) as store:
            end = await (await store.start(saga, "k")).wait()
            assert end.results == {"charge": None, "ship": FULL}, end
            assert end.optional_failures == ["mail"] and end.cost is None
            started.clear()
            await store.start(saga, "aborted")
            await until(lambda: started)
            await store.abort("aborted")
            end = await store.wait("aborted")
            assert end.states["charge"] == "committed" and end.optional_failures == [], end
            assert end.states["mail"] in ("failed", "waiting"), end

    run(main())


# -- plans


def parcels_of(*, optional: bool) -> sagas.Saga:
    """Return a saga whose second parcel fails, and then its last step."""
    saga = sagas.Saga("parcels", order="declared")

    @saga.step(for_each="parcels", optional=optional, keep=100, undo=30)
    def ship(task: sagas.ItemTask[Any, int]) -> int:
        if task.item == 2:
            raise sagas.Fail("mailbox full")
        return task.item

    @ship.compensation
    def fetch(task: sagas.ItemTask[Any, int]) -> None:
        assert task.item != 2

    needs = [ship] if optional else [sagas.collect(ship)]

    @saga.step(needs=needs)
    def last(task: Task) -> None:
        raise sagas.Fail("closed")

    return saga


@pytest.mark.parametrize("optional", [True, False], ids=["optional", "collected"])
def test_a_failure_costs_nothing_in_a_plan(optional: bool, location: str) -> None:
    """Neither `keep` nor `undo` of it counts, and the events say that it had no effect."""
    saga = parcels_of(optional=optional)

    async def main() -> None:
        async with sagas.open(location, [saga]) as store:
            end = await (await store.start(saga, "k", {"parcels": [1, 2, 3]})).wait()
            assert (end.phase, end.cost, end.optional_failures) == ("recovered", 60, ["ship-1"])
            assert end.states == {
                "ship-0": "undone",
                "ship-1": "failed",
                "ship-2": "undone",
                "last": "failed",
            }
            plan = await store.plan("k")
            assert plan.cost == 60 and plan.case["states"][1] == "void", plan
            choice = plan.choices[1]
            assert (choice.cost_to_keep, choice.cost_to_drop) == (0, 0), choice
            assert (choice.decision, choice.is_optional_failure) == ("is left out", True)
            assert [event.event for event in await store.log("k") if event.step == "ship-1"] == [
                "start_run",
                "fail",
            ]

    run(main())
    assert store_command.main([location, "audit"]) == 0
    assert sagas.testing.run(saga, {"parcels": [1, 2, 3]}).cost == 60


def test_a_failure_is_kept_through_a_restart(location: str) -> None:
    """The node that continues the saga counts the failure as nothing, too."""
    saga = sagas.Saga("parcels", order="declared")
    saga.step(name="mail", optional=True, keep=100, undo=30)(fail).compensation(lambda task: None)
    saga.step(name="ship", keep=9)(lambda task: None).compensation(lambda task: None)
    saga.approval(name="review")(lambda task: None)
    saga.step(name="last")(fail)

    async def main() -> None:
        async with sagas.open(location, [saga], node="one") as store:
            await store.start(saga, "k")
            await until(
                lambda: "review" in (attempt.step for attempt in store.active_attempts("k"))
            )
        async with sagas.open(location, [saga], node="two") as store:
            await store.complete("k", "review", None)
            end = await store.wait("k")
            assert (end.phase, end.cost, end.optional_failures) == ("recovered", 0, ["mail"])
            assert end.states["ship"] == "undone"

    run(main())
    assert store_command.main([location, "audit"]) == 0


def test_a_deploy_changes_the_option(tmp_path: pathlib.Path) -> None:
    """A saga keeps what its definition said at its start."""

    def declared(optional: bool) -> sagas.Saga:
        saga = sagas.Saga("deployed", order="declared")
        saga.approval(name="review")(lambda task: None)
        saga.step(name="mail", optional=optional, undo=0)(fail)
        saga.step(name="last")(lambda task: None)
        return saga

    async def main(first: bool, key: str) -> sagas.SagaResult:
        location = str(tmp_path / f"{key}.db")
        saga = declared(first)
        async with sagas.open(location, [saga]) as store:
            await store.start(saga, key)
        async with sagas.open(location, [declared(not first)]) as store:
            await store.complete(key, "review", None)
            return await store.wait(key)

    assert run(main(True, "was")).ok
    end = run(main(False, "new"))
    assert end.phase == "recovered" and end.optional_failures == []


# -- errors of declarations


def declared(**options: Any) -> Callable[[], object]:
    """Return a call that declares an optional step."""
    return lambda: sagas.Saga("s").step(name="mail", optional=True, **options)(fail)


def child_that_stays() -> object:
    inner, saga = sagas.Saga("inner"), sagas.Saga("s")
    inner.step(name="b")(fail)
    saga.child(inner, input=lambda task: None, optional=True)
    return saga.toml()


ODD: Any = {"optional": 1}
WRONG = {
    "skip=sagas.NEVER says that it is mandatory": declared(skip=sagas.NEVER),
    "it is optional, and cannot be undone": declared(undo=sagas.NEVER),
    "so it cannot be optional": declared(pivot=True),
    "its child saga cannot be undone": child_that_stays,
    "optional=1: must be True or False": lambda: sagas.Saga("s").step(**ODD)(fail),
}


@pytest.mark.parametrize("error", WRONG)
def test_a_contradiction_is_refused(error: str) -> None:
    with pytest.raises(sagas.DefinitionError, match=error):
        WRONG[error]()


def test_a_cost_that_is_computed_may_not_be_never() -> None:
    saga = sagas.Saga("s")
    saga.step(name="mail", optional=True, skip=lambda order: sagas.NEVER)(fail)
    with pytest.raises(sagas.InvalidInput, match="but the step is optional"):
        sagas.testing.run(saga)


# -- a service


TOML = """format = 2
name = "shop"
[[step]]
name = "mail"
[[step]]
name = "send"
needs = ["mail"]
undo = "never"
"""
FILES = {"shop.toml": TOML, "shop.service.toml": "[step.mail]\noptional = true\n"}


def test_a_service_says_failed(tmp_path: pathlib.Path) -> None:
    """The API, the page, the metrics, and the task of the next step."""
    with served(tmp_path, FILES) as service, service.client() as client:
        (listed,) = client.get("/v1/definitions").json()["definitions"]
        assert [step["optional"] for step in listed["steps"]] == [True, False]
        assert start(client, "shop", "k").status_code == 201
        (task,) = take(client, "shop/mail")
        assert report(client, task, "fail", error="full", final=True).status_code == 200
        (task,) = take(client, "shop/send")
        assert task["results"] == {"mail": {"$failed": "full"}}
        assert report(client, task, result=1).status_code == 200
        saga = client.get("/v1/sagas/k/wait").json()
        assert saga["phase"] == "completed" and saga["optional_failures"] == ["mail"], saga
        assert saga["states"] == {"mail": "failed", "send": "committed"}
        assert saga["errors"] == {"mail": "full"} and saga["results"] == {"send": 1}
        page = client.get("/ui/sagas/k").text
        assert "failed, optional" in page and "failed, and is optional" in page
        assert "optional" in client.get("/ui/definitions/shop").text
        metrics = client.get("/metrics").text
        assert 'action="run",outcome="failed",saga="shop",step="mail"} 1.0' in metrics
        with sagas.ServiceClient(service.url) as remote:
            end = remote.get("k")
            assert end.ok and end.optional_failures == ["mail"]


def test_a_result_that_looks_like_a_failure(location: str) -> None:
    """A result with the reserved key is a result in each view."""
    saga = sagas.Saga("alike")
    value = {"$failed": "no"}
    saga.step(name="a")(lambda task: value)

    async def main() -> None:
        async with sagas.open(location, [saga]) as store:
            end = await (await store.start(saga, "k")).wait()
            assert end.ok and end.states == {"a": "committed"} and end.results == {"a": value}
        async with sagas.open(location, [saga]) as store:
            assert (await store.wait("k")).states == {"a": "committed"}

    run(main())
