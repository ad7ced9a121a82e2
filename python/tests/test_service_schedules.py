"""Schedules and labels over HTTP and in the dashboard, over both kinds of database."""

from __future__ import annotations

import contextlib
import json
import re
import time
from collections.abc import Iterator
from typing import Any

import httpx
import pytest
from serving import DEFINITIONS, LONG, Served, error_of, served, start, token
from test_service_tokens import World

from sagas.definition.timing import timing
from sagas.storage import admin
from sagas.storage.schedules import Schedules

TOKENS: dict[str, tuple[str, ...]] = {
    "operator": ("operator",),
    "of-order": ("operator", "--definition", "order"),
    "caller": ("caller",),
}


@pytest.fixture(scope="module")
def world(tmp_path_factory: pytest.TempPathFactory, store: str | None) -> Iterator[World]:
    folder = tmp_path_factory.mktemp("schedules")
    tokens = {name: token(folder, name, *options) for name, options in TOKENS.items()}
    options = "--token-file", str(folder / "tokens.toml")
    with served(folder, DEFINITIONS, *options, store=store) as service:
        services = World(service, tokens)
        yield services
        for client in services.clients.values():
            client.close()


def declare(service: Served, name: str, saga: str, seconds: float, *policy: Any) -> None:
    """Declare a schedule, as a program does while the service runs."""
    when = timing(None, seconds, "UTC", *(policy or ("last",)))
    with contextlib.closing(admin.connect(service.store, "rw")) as link:
        labels = json.dumps({"by": name})
        Schedules(link).put(name, (saga, 1), '{"n":1}', labels, when, time.time())


def names(client: httpx.Client) -> list[str]:
    return [schedule["name"] for schedule in client.get("/v1/schedules").json()["schedules"]]


def sagas_with(client: httpx.Client, label: str) -> list[dict[str, Any]]:
    """Wait for sagas with a label."""
    deadline = time.monotonic() + LONG
    while not (listed := client.get("/v1/sagas", params={"label": label}).json()["sagas"]):
        assert time.monotonic() < deadline
        time.sleep(0.05)
    return list(listed)


def test_the_service_starts_and_changes_schedules(world: World) -> None:
    """They are of definitions that the token may see; for others the response is that of unknown
    ones.
    """
    operator, of_order, caller = world["operator"], world["of-order"], world["caller"]
    declare(world.service, "tick", "order", 1.0)
    declare(world.service, "trips a/b", "trip", 3600.0)
    (row, *_) = sagas_with(operator, "by=tick")
    assert row["key"].startswith("tick@20") and row["definition"] == "order"
    assert names(operator) == names(caller) == ["tick", "trips a/b"] and names(of_order) == ["tick"]
    (schedule,) = of_order.get("/v1/schedules").json()["schedules"]
    assert (schedule["every"], schedule["cron"], schedule["labels"]) == (1.0, None, {"by": "tick"})
    path = "/v1/schedules/trips%20a%2Fb"
    for call in (
        of_order.post(f"{path}/pause"),
        of_order.delete(path),
        operator.delete(f"{path}x"),
    ):
        assert (call.status_code, error_of(call)) == (404, "NoSuchSchedule")
    assert caller.delete("/v1/schedules/tick").status_code == 403
    assert operator.post(f"{path}/pause").json() == {"name": "trips a/b", "done": "paused"}
    (_, schedule) = operator.get("/v1/schedules").json()["schedules"]
    assert schedule["paused"] is True and schedule["next"] is None
    assert operator.post(f"{path}/resume").json()["done"] == "resumed"
    assert operator.delete(path).json()["done"] == "removed" and names(operator) == ["tick"]
    assert "operator has removed the schedule 'trips a/b'" in world.service.log_text()
    assert operator.delete("/v1/schedules/tick").status_code == 200


def test_the_dashboard_has_schedules_and_labels(world: World) -> None:
    """It has a page with forms, which need the session's token, and ask before they remove one; and
    a filter of the list.
    """
    page = world.page("operator")
    declare(world.service, "<b>night", "trip", 86400.0, "all", 7, "queue")
    text = page.get("/ui/schedules").text
    assert "one saga at a time (queue), up to 7 missed times" in text
    assert "&lt;b&gt;night" in text and "<b>night" not in text and "every 1 d" in text
    assert "night" not in world.page("of-order").get("/ui/schedules").text
    csrf = re.search(r'name="csrf" value="([^"]+)"', text)
    assert csrf
    path = "/ui/schedules/%3Cb%3Enight"
    assert page.post(f"{path}/pause", data={"csrf": "x"}).status_code == 403
    other = world.page("of-order")
    theirs = re.search(r'name="csrf" value="([^"]+)"', other.get("/ui").text)
    assert theirs and other.post(f"{path}/remove", data={"csrf": theirs[1]}).status_code == 409
    assert page.post(f"{path}/pause", data={"csrf": csrf[1]}).status_code == 303
    text = page.get("/ui/schedules").text
    assert "paused" in text and f'href="{path}/remove"' in text and 'remove"><input' not in text
    question = page.get(f"{path}/remove").text
    assert "Remove the schedule &lt;b&gt;night?" in question and "<textarea" not in question
    assert other.get(f"{path}/remove").status_code == page.get(f"{path}x/remove").status_code == 404
    assert page.post(f"{path}/remove", data={"csrf": csrf[1]}).status_code == 303
    assert "There is no schedule" in page.get("/ui/schedules").text
    body = {"definition": "order", "key": "labeled", "labels": {"customer": "7"}}
    assert world["caller"].post("/v1/sagas", json=body).status_code == 201
    assert start(world["caller"], "order", "other-1").status_code == 201
    text = page.get("/ui/sagas", params={"label": "customer=7"}).text
    assert "labeled" in text and "other-1" not in text and 'value="customer=7"' in text
    wrong = page.get("/ui/sagas", params={"label": "nothing"})
    assert "a label must be NAME=VALUE" in wrong.text and "labeled" not in wrong.text
    text = page.get("/ui/sagas").text
    assert "labeled" in text and "other-1" in text
