"""Deliveries of webhooks, in the dashboard and by `sagas store STORE deliveries`.

The tests check who may see them and repeat them, over both kinds of database.
"""

from __future__ import annotations

import html
import json
import pathlib
import re
import subprocess
import sys
import time
from collections.abc import Iterator
from typing import Any

import httpx
import pytest
from serving import DEFINITIONS, LONG, command, environment, served, start, token
from test_service_tokens import World
from test_service_webhooks import Receiver, table, written

TOKENS: dict[str, tuple[str, ...]] = {
    "operator": ("operator",),
    "of-order": ("operator", "--definition", "order"),
    "caller": ("caller",),
}


@pytest.fixture(scope="module")
def receiver() -> Iterator[Receiver]:
    """Return a receiver that refuses the first post permanently, and takes the others."""
    receiver = Receiver(410)
    yield receiver
    receiver.server.shutdown()


@pytest.fixture(scope="module")
def world(
    tmp_path_factory: pytest.TempPathFactory, receiver: Receiver, store: str | None
) -> Iterator[World]:
    """Return a service with a delivery that was given up, and one that succeeded."""
    folder = tmp_path_factory.mktemp("deliveries")
    tokens = {name: token(folder, name, *options) for name, options in TOKENS.items()}
    hooks = written(folder, table(receiver.url))
    options = "--token-file", str(folder / "tokens.toml"), "--local-webhooks", "--webhooks", hooks
    receiver.got.clear()
    receiver.left[:] = [410]
    with served(folder, DEFINITIONS, *options, store=store) as service:
        services = World(service, tokens)
        for key in ("<b>given-up", "came"):
            assert start(services["caller"], "order", key).status_code == 201
            settled(services["operator"], key)
        yield services
        for client in services.clients.values():
            client.close()


def settled(operator: httpx.Client, key: str, attempts: int = 1) -> dict[str, Any]:
    """Return the delivery of a saga, once it is over."""
    deadline = time.monotonic() + LONG
    while True:
        deliveries = operator.get("/v1/webhooks/deliveries").json()["deliveries"]
        for delivery in deliveries:
            if (
                delivery["key"] == key
                and delivery["state"] != "pending"
                and delivery["attempts"] == attempts
            ):
                return dict(delivery)
        assert time.monotonic() < deadline, deliveries
        time.sleep(0.05)


def rows(text: str) -> list[list[str]]:
    """Return the first words of the rows of a page's table."""
    body = re.search(r"<tbody>(.*?)</tbody>", text, re.S)
    parts = re.findall(r"<tr>(.*?)</tr>", body[1], re.S) if body else []
    cells = [re.findall(r"<t[hd][^>]*>(.*?)</t[hd]>", row, re.S) for row in parts]
    return [[html.unescape(re.sub(r"<[^>]*>", "", cell)).strip() for cell in row] for row in cells]


def csrf_of(text: str) -> str:
    match = re.search(r'name="csrf" value="([^"]+)"', text)
    assert match
    return match[1]


def test_the_page_lists_them(world: World, receiver: Receiver) -> None:
    """The newest comes first, by state and by webhook; texts are escaped, and no secret
    is shown.
    """
    page = world.page("operator")
    text = page.get("/ui/webhooks").text
    assert [row[:4] for row in rows(text)] == [
        ["came", "Delivered", "saga.attention", "one"],
        ["<b>given-up", "Failed", "saga.attention", "one"],
    ]
    assert [row[6] for row in rows(text)] == ["204", "410"] and "<b>given-up" not in text
    assert "whsec_" not in text and receiver.url not in text
    for query, keys in (
        ("state=failed", ["<b>given-up"]),
        ("state=delivered&webhook=one", ["came"]),
        ("state=pending", []),
        ("webhook=two", []),
    ):
        assert [row[0] for row in rows(page.get(f"/ui/webhooks?{query}").text)] == keys, query
    assert "There is no such delivery" in page.get("/ui/webhooks?state=pending").text
    assert page.get("/ui/webhooks?state=lost").status_code == 422


def test_the_right_to_see_and_repeat_deliveries(world: World, receiver: Receiver) -> None:
    """Operators that see all definitions may, by a form of their own session."""
    delivery = settled(world["operator"], "<b>given-up")
    again = f"/ui/webhooks/{delivery['id']}/redeliver"
    kept = world.page("of-order")
    for answer in (
        kept.get("/ui/webhooks"),
        kept.post(again, data={"csrf": csrf_of(kept.get("/ui").text)}),
        world["caller"].post(again, data={"csrf": "x"}),
        world.page("operator").post(again, data={"csrf": csrf_of(kept.get("/ui").text)}),
    ):
        assert answer.status_code == 403, answer.text
    with world.service.client() as stranger:
        assert stranger.get("/ui/webhooks").headers["location"].startswith("/ui/login?next=")
        assert stranger.post(again, data={"csrf": "x"}).status_code == 403
    assert settled(world["operator"], "<b>given-up")["status"] == 410
    page = world.page("operator")
    form = {"csrf": csrf_of(page.get("/ui/webhooks").text), "state": "failed", "webhook": ""}
    missing = page.post("/ui/webhooks/msg_none/redeliver", data=form)
    assert missing.status_code == 404 and "no delivery has the id" in missing.text
    count = len(receiver.got)
    answer = page.post(again, data=form)
    assert (answer.status_code, answer.headers["location"]) == (303, "/ui/webhooks?state=failed")
    receiver.wait(count + 1)
    assert settled(world["operator"], "<b>given-up")["status"] == 204
    assert f"operator has the delivery {delivery['id']} posted again" in world.service.log_text()
    assert rows(page.get("/ui/webhooks?state=failed").text) == []


def started(store: str, *arguments: str) -> str:
    """Return the output of `sagas store STORE deliveries` as a separate program, while the service
    has the store.
    """
    command_line = [sys.executable, "-m", "sagas", "store", store, "deliveries", *arguments]
    done = subprocess.run(
        command_line, env=environment(), capture_output=True, text=True, check=True
    )
    return done.stdout


def test_the_command(world: World, receiver: Receiver) -> None:
    """It lists them, as a table and as JSON, and lets the service repeat one."""
    store = str(world.service.store)
    output = started(store, "--json")
    deliveries = {row["key"]: row for row in json.loads(output)}
    assert {*deliveries} == {"came", "<b>given-up"} and deliveries["came"]["state"] == "delivered"
    assert "body" not in deliveries["came"] and "whsec_" not in output
    arguments = ["--state", "delivered", "--webhook", "one", "--limit", "1"]
    lines = command("store", store, "deliveries", *arguments).stdout
    head, line = lines.splitlines()
    assert head.split() == "ID WEBHOOK TYPE KEY AT STATE ATTEMPTS ANSWER".split()
    assert line.startswith("msg_") and line.split()[-3:] == ["delivered", "1", "204"]
    count, id = len(receiver.got), deliveries["came"]["id"]
    assert started(store, "redeliver", id) == f"{id}: pending\n"
    receiver.wait(count + 1)
    assert receiver.got[-1][0]["webhook-id"] == id
    settled(world["operator"], "came")
    for arguments, status, text in (
        (("redeliver", "msg_none"), 1, "no delivery has the id 'msg_none'"),
        (("redeliver",), 2, "pass the id"),
        (("--limit", "-1"), 2, "argument --limit: invalid value '-1'"),
        (("--state", "lost"), 2, "invalid choice: 'lost'"),
    ):
        done = command("store", store, "deliveries", *arguments)
        assert (done.returncode, done.stdout) == (status, "") and text in done.stderr, arguments


def test_a_file_that_is_not_a_store(tmp_path: pathlib.Path) -> None:
    done = command("store", str(tmp_path / "none.db"), "deliveries")
    assert done.returncode == 4 and "the file does not exist" in done.stderr
