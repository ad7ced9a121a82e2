"""A worker's token reports only the tasks of that worker.

Over a file and a database, at the service that drives the saga and at another.
"""

from __future__ import annotations

import contextlib
import pathlib
import re
import time
from collections.abc import Iterator
from typing import Any

import httpx
import pytest
from serving import DEFINITIONS, LONG, Served, error_of, report, start, take, token

from sagas.inspection import saga as one_saga
from sagas.inspection.question import StoreReader
from sagas.storage.postgresql.storage import PostgreSQL
from sagas.storage.sqlite.storage import Reader

PAUSE = """format = 2
name = "pause"
[[step]]
name = "rest"
[[step]]
name = "after"
needs = ["rest"]
"""
FILES = DEFINITIONS | {
    "pause.toml": PAUSE,
    "pause.service.toml": '[step.rest]\nkind = "wait"\nuntil = 3600\n',
}
SHOP = """import threading, sagas
shop = sagas.Saga("shop")

@shop.step
def price(task):
    threading.Event().wait()
"""
ROLES = {"ada": "worker", "bob": "worker", "caller": "caller", "operator": "operator"}
REPORTS: list[tuple[str, dict[str, Any]]] = [
    ("complete", {"result": "forged"}),
    ("fail", {"error": "forged", "final": True}),
    ("fail", {"error": "forged"}),
    ("unknown", {"error": "forged"}),
    ("heartbeat", {"seconds": 600}),
]


class World:
    """Services over one store, with a client of each for each token."""

    looks: StoreReader

    def __init__(
        self, folder: pathlib.Path, store: str | None, stack: contextlib.ExitStack
    ) -> None:
        tokens = {name: token(folder, name, role) for name, role in ROLES.items()}
        self.clients: dict[str, list[httpx.Client]] = {name: [] for name in ROLES}
        for name in ("one", "two") if store else ("one",):
            (folder / name).mkdir()
            (folder / name / "shop.py").write_text(SHOP)
            options = [
                "--token-file",
                str(folder / "tokens.toml"),
                "--app",
                "shop:shop",
                "--node",
                name,
                "--lease",
                "5",
            ]
            service = Served(folder / name, FILES, *options, store=store)
            stack.callback(service.kill)
            service.start()
            for user, text in tokens.items():
                self.clients[user].append(stack.enter_context(service.client(text)))
        self.ada, self.caller, self.operator = (
            self.clients[name][0] for name in ("ada", "caller", "operator")
        )

    def start(self, definition: str, key: str) -> str:
        """Start a saga; return the prefix of its tokens.

        Each worker that had a task of the same log knows it.
        """
        assert start(self.caller, definition, key).status_code == 201
        deadline = time.monotonic() + LONG
        while (view := self.looks.ask(one_saga.view(key))) is None:
            assert time.monotonic() < deadline
        return view.token

    def saga(self, key: str) -> Any:
        return self.operator.get(f"/v1/sagas/{key}").json()

    def waits(self, key: str, why: str) -> None:
        """Wait until the saga waits for that."""
        deadline = time.monotonic() + LONG
        while why not in [wait["why"] for wait in self.saga(key)["waits"]]:
            assert time.monotonic() < deadline, self.saga(key)

    def forged(
        self, task: str, lease: Any, by: str = "bob", verbs: Any = REPORTS
    ) -> set[tuple[int, str]]:
        """Return the responses to reports of this task, by each verb at each service."""
        statuses = set()
        for client in self.clients[by]:
            for verb, body in verbs:
                answer = client.post(f"/v1/tasks/{task}/{verb}", json={"lease": lease, **body})
                statuses.add((answer.status_code, error_of(answer) if answer.is_error else ""))
        return statuses


@pytest.fixture(scope="module")
def world(tmp_path_factory: pytest.TempPathFactory, store: str | None) -> Iterator[World]:
    folder = tmp_path_factory.mktemp("forgeries")
    with contextlib.ExitStack() as stack:
        services = World(folder, store, stack)
        services.looks = StoreReader(
            PostgreSQL(store).reader() if store else Reader(str(folder / "one" / "store.db"))
        )
        stack.callback(services.looks.close)
        yield services


INVALID = {(403, "InvalidLease")}


def guesses(world: World) -> list[str]:
    """Return leases that were not issued for the task: well-formed ones, odd ones, and one that
    this worker has for its own task.
    """
    assert start(world.caller, "licence", f"own-{time.monotonic_ns()}").status_code == 201
    (own_task,) = take(world.clients["bob"][0], "licence/server")
    number, _, signed = own_task["lease"].partition(".")
    assert re.fullmatch(r"\d+\.[0-9a-f]{32}", own_task["lease"])
    near = [
        f"{number}.",
        number,
        f"0.{signed}",
        f"{int(number) + 1}.{signed}",
        f"{number}.{'0' * 32}",
    ]
    return [
        own_task["lease"],
        "0",
        "1",
        "",
        *near,
        f"{number}.{signed.upper()}",
        f"{own_task['lease']}\n",
        "1.\u0660" * 9,
    ]


def is_unmoved(world: World, key: str, before: Any) -> None:
    fields, after = ("phase", "results", "errors", "states"), world.saga(key)
    assert {word: after[word] for word in fields} == {word: before[word] for word in fields}
    waits = [
        [(wait["step"], wait["why"], wait["attempt"]) for wait in state["waits"]]
        for state in (before, after)
    ]
    assert waits[0] == waits[1]


@pytest.mark.parametrize(
    "definition, step, why",
    [
        ("trip", "flight", "worker"),
        ("order", "review", "approval"),
        ("pause", "rest", "wait"),
        ("shop", "price", None),
    ],
    ids=["a task that no worker took", "an approval", "a timer", "a function of the program"],
)
def test_reports_of_unclaimed_tasks(
    world: World, definition: str, step: str, why: str | None
) -> None:
    """No report of it counts, whatever the lease: nothing changes, and the response says nothing
    about the task.
    """
    key = f"forged-{definition}"
    begin = world.start(definition, key)
    if why:
        world.waits(key, why)
    before = world.saga(key)
    assert world.forged(f"{begin}-{step}-run-1", 0) == {(422, "InvalidRequest")}
    is_unmoved(world, key, before)
    for guess in guesses(world):
        assert world.forged(f"{begin}-{step}-run-1", guess) == INVALID, guess
    for none in (
        f"{begin}-{step}-run-7",
        f"{begin}-{step}-undo-1",
        f"{begin}-none-run-1",
        f"{begin}9-{step}-run-1",
        "x",
    ):
        assert world.forged(none, guess, verbs=REPORTS[:1]) == INVALID, none
    is_unmoved(world, key, before)
    if definition == "trip":
        (task,) = take(world.clients["ada"][-1], "trip/flight")
        assert task["key"] == key and report(world.ada, task, result=1).json() == {
            "kept": True,
            "repeated": False,
            "next": None,
        }
    # its further tasks are not another test's
    assert world.caller.post(f"/v1/sagas/{key}/abort", json={}).status_code == 200


def test_another_worker_s_task(world: World) -> None:
    """Not under a lease of another task, nor under the right lease by another's token; its own
    worker reports it at any service, once.
    """
    begin = world.start("few", "forged-other")
    (task,) = take(world.ada, "few/a")
    assert task["attempt_id"] == f"{begin}-a-run-1"
    before = world.saga("forged-other")
    for guess in [*guesses(world), task["lease"]]:
        assert world.forged(task["attempt_id"], guess) == INVALID, guess
    # an operator may do what workers do, with its own tasks
    assert world.forged(task["attempt_id"], task["lease"], by="operator") == INVALID
    is_unmoved(world, "forged-other", before)
    assert report(world.clients["ada"][-1], task, "fail", error="full").json() == {
        "kept": True,
        "repeated": False,
        "next": None,
    }
    (again,) = take(world.ada, "few/a/undo", "few/a", wait=1) or [None]
    assert again is None or again["attempt_id"] != task["attempt_id"]
    # a reported task is visible only to its worker; no response shows whether a guess is right
    for guess in [
        *guesses(world),
        task["lease"],
    ]:
        assert (
            world.forged(
                task["attempt_id"],
                guess,
                verbs=[("complete", {"result": None}), ("fail", {"error": "full"})],
            )
            == INVALID
        )


def test_a_lease_is_of_one_attempt(world: World) -> None:
    """The next try has its own token, and the lease of the one before is not valid for it."""
    world.start("trip", "forged-attempt")
    (flight,) = take(world.ada, "trip/flight")
    report(world.ada, flight, result=1)
    (car,) = take(world.ada, "trip/car")
    report(world.ada, car, result=1)
    (first,) = take(world.ada, "trip/tour")
    report(world.ada, first, "fail", error="not yet")
    (second,) = take(world.ada, "trip/tour")
    assert second["attempt_id"] != first["attempt_id"]
    for lease in (first["lease"], car["lease"], flight["lease"]):
        assert world.forged(second["attempt_id"], lease, by="ada") == INVALID
    assert report(world.ada, second, result=5).json()["kept"] is True
    assert (
        world.operator.get("/v1/sagas/forged-attempt/wait?seconds=60").json()["results"]["tour"]
        == 5
    )


def test_a_lease_cannot_report_an_attempt_that_needs_an_operator(world: World) -> None:
    """Neither a forged lease nor the one under which it was issued reports the outcome: only an
    operator does.
    """
    world.start("trip", "forged-unknown")
    for step in ("trip/flight", "trip/car"):
        (task,) = take(world.ada, step)
        report(world.ada, task, result=1)
    (tour,) = take(world.ada, "trip/tour")
    assert report(world.ada, tour, "unknown", error="the line went dead").status_code == 200
    world.waits("forged-unknown", "unknown")
    before = world.saga("forged-unknown")
    assert [wait["person"] for wait in before["waits"]] == [True]
    for guess in [*guesses(world), tour["lease"]]:
        assert world.forged(tour["attempt_id"], guess) == INVALID, guess
    late = world.forged(tour["attempt_id"], tour["lease"], by="ada", verbs=[REPORTS[0], REPORTS[4]])
    assert late == {(409, "LeaseLost")}
    assert world.forged(tour["attempt_id"], tour["lease"], by="ada", verbs=REPORTS[1:3]) == {
        (409, "ConflictingReport")
    }
    is_unmoved(world, "forged-unknown", before)
    assert (
        world.operator.post(
            "/v1/sagas/forged-unknown/steps/tour/complete", json={"result": "it is there"}
        ).status_code
        == 200
    )
    assert (
        world.operator.get("/v1/sagas/forged-unknown/wait?seconds=60").json()["results"]["tour"]
        == "it is there"
    )
