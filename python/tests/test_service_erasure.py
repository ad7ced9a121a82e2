"""Erasing a saga over HTTP and in the dashboard, over both kinds of database."""

from __future__ import annotations

import re
import time
from collections.abc import Iterator

import pytest
from serving import DEFINITIONS, LONG, error_of, served, start, take, token
from test_service_tokens import World

SECRET = "jane-doe-4711"
TOKENS: dict[str, tuple[str, ...]] = {
    "operator": ("operator",),
    "of-order": ("operator", "--definition", "order"),
    "caller": ("caller",),
    "worker": ("worker",),
}


@pytest.fixture(scope="module")
def world(tmp_path_factory: pytest.TempPathFactory, store: str | None) -> Iterator[World]:
    folder = tmp_path_factory.mktemp("erasure")
    tokens = {name: token(folder, name, *options) for name, options in TOKENS.items()}
    arguments = "--token-file", str(folder / "tokens.toml")
    with served(folder, DEFINITIONS, *arguments, store=store) as service:
        services = World(service, tokens)
        yield services
        for client in services.clients.values():
            client.close()


def ends(world: World, key: str, *, is_late: bool = False) -> None:
    """Run a saga of two steps to its end, with the secret in its input and its results.

    `is_late`: the lease of the first worker ends before it reports.
    """
    caller, worker = world["caller"], world["worker"]
    body = {"definition": "few", "key": key, "input": SECRET, "labels": {"name": SECRET}}
    assert caller.post("/v1/sagas", json=body).status_code == 201
    if is_late:
        assert len(take(worker, "few/a", lease=1)) == 1  # the next claim waits for its end
    for step in ("few/a", "few/b"):
        (task,) = take(worker, step)
        report = {"lease": task["lease"], "result": SECRET}
        assert worker.post(f"/v1/tasks/{task['attempt_id']}/complete", json=report).is_success
    deadline = time.monotonic() + LONG
    while caller.get(f"/v1/sagas/{key}").json()["phase"] != "completed":
        assert time.monotonic() < deadline
        time.sleep(0.05)


def test_an_operator_erases_a_saga(world: World) -> None:
    operator, caller = world["operator"], world["caller"]
    ends(world, "k", is_late=True)
    assert start(caller, "few", "open").status_code == 201
    for client, key, status, name in [
        (caller, "k", 403, "Forbidden"),
        (world["of-order"], "k", 404, "NoSuchSaga"),
        (operator, "none", 404, "NoSuchSaga"),
        (operator, "open", 409, "NotErasable"),
    ]:
        answer = client.post(f"/v1/sagas/{key}/erase", json={})
        assert (answer.status_code, error_of(answer)) == (status, name), answer.text
    before = operator.get("/v1/sagas/k").json()
    assert before["erased"] is None and before["input"] == SECRET
    for is_new in (True, False):
        answer = operator.post("/v1/sagas/k/erase", json={})
        assert answer.json() == {"key": "k", "erased": True, "new": is_new}
    after = operator.get("/v1/sagas/k").json()
    assert after["erased_by"] == "operator" and after["erased"] and after["labels"] == {}
    assert after["states"] == before["states"]
    for path in ("/v1/sagas/k", "/v1/sagas/k/log", "/v1/sagas/k/timeline", "/v1/sagas"):
        assert SECRET not in operator.get(path).text, path
    again = caller.post("/v1/sagas", json={"definition": "few", "key": "k", "input": SECRET})
    assert (again.status_code, error_of(again)) == (409, "KeyConflict")
    (decision,) = operator.get("/v1/sagas/k/timeline").json()["decisions"]
    assert (decision["command"], decision["by"]) == ("erase", "operator")
    assert operator.post("/v1/sagas/open/abort", json={}).is_success


def test_the_dashboard_asks_before_it_erases(world: World) -> None:
    ends(world, "page")
    page, other = world.page("operator"), world.page("of-order")
    text = page.get("/ui/sagas/page").text
    assert 'href="/ui/sagas/page/erase"' in text and SECRET in text
    question = page.get("/ui/sagas/page/erase").text
    assert "Erase the data of this saga?" in question and "cannot be undone" in question
    csrf = re.search(r'name="csrf" value="([^"]+)"', question)
    theirs = re.search(r'name="csrf" value="([^"]+)"', other.get("/ui").text)
    assert csrf and theirs
    assert page.post("/ui/sagas/page/erase", data={"csrf": "x"}).status_code == 403
    answer = other.post("/ui/sagas/page/erase", data={"csrf": theirs[1]})
    assert answer.status_code == 409 and "no saga has the key" in answer.text
    assert page.post("/ui/sagas/page/erase", data={"csrf": csrf[1]}).status_code == 303
    text = page.get("/ui/sagas/page").text
    assert SECRET not in text and "Erased" in text and "/erase" not in text
