"""Steps of items, and of included sagas, outside of the store: tasks over HTTP, events, metrics."""

from __future__ import annotations

import asyncio
import pathlib
from typing import Any

import pytest
from serving import error_of, report, served, start, take, token
from test_service_workers import ONE_STEP, working

import sagas


def module(folder: pathlib.Path) -> None:
    (folder / "shop.py").write_text(
        "import sagas\n"
        'order = sagas.Saga("order")\n'
        'ship = order.step(external=True, name="ship", for_each="parcels", undo=1)\n'
        "ship.compensation(external=True)\n"
        'order.step(external=True, name="mail", needs=[ship])\n'
        'fair = sagas.Saga("fair")\n'
        'fair.include(order, name="stall", for_each="stalls")\n'
        'store = sagas.open("unused.db", [order, fair])\n'
    )


def test_tasks_of_items(tmp_path: pathlib.Path) -> None:
    """A task has its declared step and its item; a list has numbers, an object also keys.

    The metrics count by the declared step.
    """
    module(tmp_path)
    with served(
        tmp_path, {"one.toml": ONE_STEP}, "--app", "shop:store"
    ) as service, service.client() as client:
        start(client, "order", "list", {"parcels": ["book", "lamp"]})
        claimed = {
            task["index"]: task for task in (take(client, "order/ship")[0] for _ in range(2))
        }
        assert [
            (claimed[at]["step"], claimed[at]["item"], claimed[at]["item_key"]) for at in (0, 1)
        ] == [
            ("ship-0", "book", None),
            ("ship-1", "lamp", None),
        ]
        assert {task["declared_step"] for task in claimed.values()} == {"ship"}
        assert {task["name"] for task in claimed.values()} == {"order/ship"}
        for at in (1, 0):
            assert report(client, claimed[at], result=at).status_code == 200
        (mail,) = take(client, "order/mail")
        assert mail["results"] == {"ship-0": 0, "ship-1": 1, "ship": [0, 1]}
        assert (mail["index"], mail["item"], mail["declared_step"]) == (None, None, "mail")
        report(client, mail)
        start(client, "order", "keyed", {"parcels": {"a b": 1, "c/d": 2}})
        keyed = [take(client, "order/ship")[0] for _ in range(2)]
        assert sorted((task["index"], task["item_key"], task["item"]) for task in keyed) == [
            (0, "a b", 1),
            (1, "c/d", 2),
        ]
        for task in keyed:
            report(client, task, result=task["item_key"])
        (mail,) = take(client, "order/mail")
        assert mail["results"]["ship"] == {"a b": "a b", "c/d": "c/d"}
        report(client, mail)
        start(client, "order", "none", {"parcels": []})
        (mail,) = take(client, "order/mail")
        assert mail["results"] == {"ship": []}
        report(client, mail)
        text = client.get("/metrics").text
        assert (
            'sagas_steps_total{action="run",outcome="succeeded",saga="order",step="ship"} 4.0'
            in text
        )
        assert "ship-0" not in text


def test_tasks_of_included_sagas(tmp_path: pathlib.Path) -> None:
    """They are claimed by the path of their names, and see the results of their own saga."""
    module(tmp_path)
    with served(
        tmp_path, {"one.toml": ONE_STEP}, "--app", "shop:store"
    ) as service, service.client() as client:
        start(client, "fair", "f", {"stalls": [{"parcels": ["book"]}]})
        answer = client.post(
            "/v1/tasks/claim",
            json={"steps": ["fair/stall/ship", "fair/nobody/ship"], "wait": 30, "worker": "w"},
        )
        (task,) = answer.json()["tasks"]
        assert answer.json()["unknown_steps"] == ["fair/nobody/ship"]
        assert (task["name"], task["step"], task["declared_step"]) == (
            "fair/stall/ship",
            "stall-0-ship-0",
            "stall/ship",
        )
        assert (task["input"], task["item"]) == ({"parcels": ["book"]}, "book")
        report(client, task, result=7)
        (mail,) = take(client, "fair/stall/mail")
        assert mail["results"] == {"ship-0": 7, "ship": [7]}
        queues = client.get("/v1/queues").json()["queues"]
        assert [(queue["definition"], queue["step"], queue["undo"]) for queue in queues] == [
            ("fair", "stall/mail", False)
        ]


def test_a_worker_s_function_reads_its_item(tmp_path: pathlib.Path) -> None:
    """`task.item`, `task.index` and `task.result_of` are as in a store."""
    module(tmp_path)
    calls: list[Any] = []
    with served(
        tmp_path, {"one.toml": ONE_STEP}, "--app", "shop:store"
    ) as service, service.client() as client:
        worker = sagas.Worker(service.url, wait=1.0)

        @worker.step("order", "ship")
        def ship(task: sagas.Task[Any]) -> str:
            calls.append((task.step, task.declared_step, task.index, task.item, task.has_item))
            return f"{task.index}!"

        @worker.step("order", "mail")
        def mail(task: sagas.Task[Any]) -> Any:
            with pytest.raises(sagas.ProgramError, match="no item"):
                task.item
            return task.result_of("ship")

        with working(worker):
            start(client, "order", "k", {"parcels": {"x y": {"to": "Rome"}}})
            saga = client.get("/v1/sagas/k/wait?seconds=60").json()
        assert saga["results"]["mail"] == {"x y": "x y!"}
        assert calls == [("ship-0", "ship", "x y", {"to": "Rome"}, True)]


def test_events_of_items(tmp_path: pathlib.Path) -> None:
    """They name the declared step, with the number or key of the item."""
    order = sagas.Saga("order")

    @order.step(for_each="parcels")
    def ship(task: sagas.ItemTask[dict[str, Any], str]) -> None:
        if task.item == "bad":
            raise sagas.Fail("no")

    @order.step
    def bill(task: sagas.Task[Any]) -> None:
        ...

    events: list[sagas.Event] = []

    async def main() -> None:
        async with sagas.open(tmp_path / "store.db", [order], on_event=events.append) as store:
            await (
                await store.start(order, key="k", input={"parcels": {"a": "good", "b": "bad"}})
            ).wait()

    asyncio.run(main())
    steps_seen = {
        (event.step, event.index)
        for event in events
        if event.name in ("step_succeeded", "step_failed")
    }
    assert steps_seen == {("ship", "a"), ("ship", "b"), ("bill", None)}


GIVING = """
import sagas
order = sagas.Saga("order")
ship = order.step(external=True, name="ship", for_each="parcels", tries=2, undo=1, skip=1,
                  backoff=sagas.Backoff(initial=0.01))
ship.compensation(external=True)
trip = sagas.Saga("trip")

@trip.step(undo=0)
def flight(task):
    return {"number": task.input["flight"]}

def given(task):
    if task.input["flight"] == "bad":
        raise ValueError("no given here")
    if task.input["flight"] == "never":
        raise sagas.Fail("nothing to give")
    return object() if task.input["flight"] == "none" else task.result_of(flight)

trip.include(order, name="box", needs=[flight], given=given)
outer = sagas.Saga("outer")
outer.include(trip, name="inner", for_each="trips")
store = sagas.open("unused.db", [order, trip, outer])
"""


def test_given_arguments_at_a_worker(tmp_path: pathlib.Path) -> None:
    """`given=` is computed when a task is offered, also for a compensation, and two deep; if it
    raises, the attempt fails, as with a function that raises.
    """
    (tmp_path / "shop.py").write_text(GIVING)
    with served(
        tmp_path, {"one.toml": ONE_STEP}, "--app", "shop:store"
    ) as service, service.client() as client:
        start(client, "order", "plain", {"parcels": ["p"]})
        (task,) = take(client, "order/ship")
        assert task["given"] is None
        report(client, task)
        start(client, "trip", "good", {"flight": "LH1", "parcels": ["a", "b"]})
        tasks = [take(client, "trip/box/ship")[0] for _ in range(2)]
        assert [task["given"] for task in tasks] == [{"number": "LH1"}] * 2
        report(client, tasks[0], result=1)
        report(client, tasks[1], "fail", error="no", final=True)
        assert client.get("/v1/sagas/good/wait?seconds=60").json()["over"]
        for flight, message in (
            ("bad", "ValueError: no given here"),
            ("never", "sagas.Fail: nothing to give"),
            ("none", "NotSerializable"),
        ):
            start(client, "trip", flight, {"flight": flight, "parcels": ["a"]})
            assert (
                client.post(
                    "/v1/tasks/claim", json={"steps": ["trip/box/ship"], "wait": 2, "worker": "w"}
                ).json()["tasks"]
                == []
            )
            end = client.get(f"/v1/sagas/{flight}/wait?seconds=60").json()
            assert end["phase"] == "recovered" and "given= raised" in end["errors"]["box-ship-0"]
            assert message in end["errors"]["box-ship-0"]
        attempts = [
            attempt
            for attempt in client.get("/v1/sagas/bad/timeline").json()["attempts"]
            if attempt["step"] == "box-ship-0"
        ]
        assert len(attempts) == 2
        start(client, "outer", "deep", {"trips": [{"flight": "X", "parcels": {"k": 1}}]})
        worker = sagas.Worker(service.url, wait=1.0)
        seen: list[Any] = []

        @worker.step("outer", "inner/box/ship")
        def ship(task: sagas.Task[Any]) -> Any:
            seen.append((task.given, task.given is task.given, task.item, task.index))
            return None

        with working(worker):
            assert client.get("/v1/sagas/deep/wait?seconds=60").json()["phase"] == "completed"
        assert seen == [({"number": "X"}, False, 1, "k")]


ASKING = """
import sagas
booking = sagas.Saga("booking")
booking.step(external=True, name="pay")
@booking.approval
def review(task): ...
order = sagas.Saga("order")
@order.approval(for_each="parcels")
def check(task): ...
ship = order.step(external=True, name="ship", for_each="parcels")
@order.approval(needs=[ship], for_each="parcels")
def sign(task): ...
@order.approval(for_each="legs", name="hotel-pay")
def leg(task): ...
order.include(booking, name="hotel")
store = sagas.open("unused.db", [order])
"""


def test_approvals_of_items_and_of_included_sagas(tmp_path: pathlib.Path) -> None:
    """An approver decides them, and no other step: not even one with the name under which an
    approval of items is declared.
    """
    (tmp_path / "shop.py").write_text(ASKING)
    approver, operator = (token(tmp_path, role, role) for role in ("approver", "operator"))
    options = ("--token-file", str(tmp_path / "tokens.toml"))
    with served(tmp_path, {"one.toml": ONE_STEP}, "--app", "shop:store", *options) as service:
        with service.client(approver) as client, service.client(operator) as boss:
            start(boss, "order", "k", {"parcels": [1, 2], "legs": []})
            for step, status in (
                ("check-0", 200),
                ("hotel-review", 200),
                ("sign-1", 200),
                ("hotel-pay", 403),
                ("ship-0", 403),
                ("sign", 403),
            ):
                answer = client.post(f"/v1/sagas/k/steps/{step}/complete", json={"result": 1})
                assert answer.status_code == status, (step, answer.text)
            assert answer.json()["detail"].startswith(
                "approver is an approver: 'sign' is not an approval"
            )
        with service.client() as page:
            page.post("/ui/login", data={"token": operator})
            assert "/steps/sign-0/done" in page.get("/ui/sagas/k?unfold=*").text
            assert "Approve step sign-0?" in page.get("/ui/sagas/k/steps/sign-0/done").text


def test_an_approval_of_a_definition_that_is_elsewhere(tmp_path: pathlib.Path, url: str) -> None:
    """A service without the definition does not know that it is one: it reports that to an
    approver.
    """
    (tmp_path / "shop.py").write_text(ASKING)
    approver, operator = (token(tmp_path, role, role) for role in ("approver", "operator"))
    options = ("--token-file", str(tmp_path / "tokens.toml"))
    (tmp_path / "other").mkdir()
    with served(
        tmp_path, {"one.toml": ONE_STEP}, "--app", "shop:store", *options, store=url
    ) as service:
        with service.client(operator) as boss:
            start(boss, "order", "k", {"parcels": [1], "legs": []})
    with served(tmp_path / "other", {"one.toml": ONE_STEP}, *options, store=url) as other:
        with other.client(approver) as client:
            answer = client.post("/v1/sagas/k/steps/check-0/complete", json={"result": 1})
            assert (answer.status_code, error_of(answer)) == (403, "Forbidden")
            assert (
                "this service does not have the definition 'order' of version 1"
                in answer.json()["detail"]
            )


READING = """
import sagas
booking = sagas.Saga("booking")
room = booking.step(external=True, name="room")
key = booking.step(external=True, name="key", needs=[room])
trip = sagas.Saga("trip")
near = trip.step(external=True, name="room")
ship = trip.step(external=True, name="ship", for_each="parcels", tries=1, undo=1, skip=9)
ship.compensation(external=True)
label = trip.step(external=True, name="label", for_each="parcels", needs=[ship.each])
tag = trip.step(external=True, name="tag", for_each="parcels", needs=[sagas.collect(ship)])
hotel = trip.include(booking, name="hotel", for_each="stays", needs=[near])
tour = trip.step(external=True, name="tour", needs=[hotel, sagas.collect(ship)])
store = sagas.open("unused.db", [trip])
"""


@pytest.mark.parametrize("parcels", [["bad"], ["p", "bad", "q"], {"a b": "p", "c/d": "bad"}, []])
def test_a_worker_asks_for_results_as_in_a_store(tmp_path: pathlib.Path, parcels: Any) -> None:
    """Of the same item, of all items, of those that were collected, and of an included saga."""
    (tmp_path / "shop.py").write_text(READING)
    names: dict[str, Any] = {}
    exec(READING, names)
    room, ship, hotel, sure = (names[name] for name in ("room", "ship", "hotel", "near"))
    wrong: list[str] = []

    def result_or_error(task: sagas.Task[Any], step: Any, **default: Any) -> Any:
        try:
            return task.result_of(step, **default)
        except (sagas.ProgramError, sagas.StepFailed, sagas.ResultNotSerializable) as error:
            wrong.append(str(error))
            return type(error).__name__

    with served(
        tmp_path, {"one.toml": ONE_STEP}, "--app", "shop:store"
    ) as service, service.client() as client:
        worker = sagas.Worker(service.url, wait=1.0)

        @worker.step("trip", "ship")
        def _ship(task: sagas.Task[Any]) -> Any:
            if task.item == "bad":
                raise sagas.Fail("no")
            return f"{task.item}!"

        @worker.step("trip", "label")
        def _label(task: sagas.Task[Any]) -> Any:
            return result_or_error(task, ship.each)

        @worker.step("trip", "tag")
        def _tag(task: sagas.Task[Any]) -> Any:
            return [
                repr(result_or_error(task, selector))
                for selector in (ship.each, ship, "ship", sagas.collect(ship))
            ]

        @worker.step("trip", "room")
        def _near(task: sagas.Task[Any]) -> Any:
            return "near" if parcels else object()

        @worker.step("trip", "hotel/room")
        def _room(task: sagas.Task[Any]) -> Any:
            return task.input

        @worker.step("trip", "hotel/key")
        def _key(task: sagas.Task[Any]) -> Any:
            return [result_or_error(task, room), result_or_error(task, sure)]

        @worker.step("trip", "tour")
        def _tour(task: sagas.Task[Any]) -> Any:
            steps = [
                hotel[room],
                sure,
                "room",
                "hotel-0-room",
                ship.each,
                room,
                sagas.collect(ship),
            ]
            results = [repr(result_or_error(task, step)) for step in steps]
            return [*results, result_or_error(task, ship.each, default="hidden")]

        with working(worker):
            start(client, "trip", "k", {"parcels": parcels, "stays": ["x", "y"]})
            saga = client.get("/v1/sagas/k/wait?seconds=60").json()
    assert saga["phase"] == "completed", saga["errors"]
    results = saga["results"]
    keys = [*parcels] if isinstance(parcels, dict) else [*range(len(parcels))]
    good = {key: f"{parcels[key]}!" for key in keys if parcels[key] != "bad"}
    collected = repr(
        sagas.Collected(good, {key: "sagas.Fail: no" for key in keys if key not in good})
    )
    for number, key in enumerate(keys):
        each = good.get(key, "StepFailed")
        assert results[f"label-{number}"] == each
        assert results[f"tag-{number}"] == [repr(each), "'StepFailed'", "'StepFailed'", collected]
    near = "near" if parcels else "ResultNotSerializable"
    assert results["tour"] == [
        "['x', 'y']",
        repr(near),
        repr(near),
        "'x'",
        "'ProgramError'",
        "'ProgramError'",
        collected,
        "ProgramError",
    ]
    assert [results[f"hotel-{number}-key"] for number in (0, 1)] == [
        ["x", "ProgramError"],
        ["y", "ProgramError"],
    ]
    assert any("is a step of saga" in text and "booking" in text for text in wrong)


UNDOING = """
import sagas
order = sagas.Saga("order")
ship = order.step(external=True, name="ship", for_each="parcels", undo=1, keep=9)
ship.compensation(external=True)
fair = sagas.Saga("fair")
stall = fair.include(order, name="stall")
fair.step(external=True, name="pay", needs=[stall], tries=1)
store = sagas.open("unused.db", [order, fair])
"""


def test_a_worker_asks_for_the_result_that_it_undoes(tmp_path: pathlib.Path) -> None:
    """By its step, as in a store: also in an included saga."""
    (tmp_path / "shop.py").write_text(UNDOING)
    exec(UNDOING, names := dict[str, Any]())
    seen: list[Any] = []
    with served(
        tmp_path, {"one.toml": ONE_STEP}, "--app", "shop:store"
    ) as service, service.client() as client:
        worker = sagas.Worker(service.url, wait=1.0)
        worker.step("fair", "stall/ship")(lambda task: task.item * 2)

        @worker.compensation("fair", "stall/ship")
        def unship(task: sagas.Task[Any]) -> None:
            seen.append((task.result, task.result_of(names["ship"].each)))

        @worker.step("fair", "pay")
        def pay(task: sagas.Task[Any]) -> None:
            raise sagas.Fail("no")

        with working(worker):
            start(client, "fair", "k", {"parcels": [1, 2]})
            end = client.get("/v1/sagas/k/wait?seconds=60").json()
        assert end["phase"] == "recovered", end
    assert sorted(seen) == [(2, 2), (4, 4)], (end["states"], end["plan"], end["errors"])
