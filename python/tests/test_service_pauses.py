"""Pauses over HTTP, in the dashboard and by the command, over both kinds of database."""

from __future__ import annotations

import json
import re
import time
from collections.abc import Iterator

import httpx
import pytest
from serving import DEFINITIONS, LONG, command, error_of, served, start, take, token
from test_service_tokens import World

from sagas.__main__ import main

TOKENS: dict[str, tuple[str, ...]] = {
    "operator": ("operator",),
    "of-order": ("operator", "--definition", "order"),
    "caller": ("caller",),
    "worker": ("worker",),
}


@pytest.fixture(scope="module")
def world(tmp_path_factory: pytest.TempPathFactory, store: str | None) -> Iterator[World]:
    folder = tmp_path_factory.mktemp("pauses")
    tokens = {name: token(folder, name, *options) for name, options in TOKENS.items()}
    arguments = "--token-file", str(folder / "tokens.toml")
    with served(folder, DEFINITIONS, *arguments, store=store) as service:
        services = World(service, tokens)
        yield services
        for client in services.clients.values():
            client.close()


def scopes(client: httpx.Client) -> list[tuple[str | None, str | None]]:
    return [
        (pause["definition"], pause["step"]) for pause in client.get("/v1/pauses").json()["pauses"]
    ]


def test_a_pause_over_http(world: World) -> None:
    """A token pauses what it may see; starts are refused if that was requested."""
    operator, of_order, caller = world["operator"], world["of-order"], world["caller"]
    body = {"definition": "trip", "step": "flight", "note": "the airline is down"}
    for client, fields, status, name in [
        (caller, body, 403, "Forbidden"),
        (of_order, body, 403, "Forbidden"),
        (of_order, {"note": "all"}, 403, "Forbidden"),
        (of_order, {"queue": "q", "note": "all"}, 403, "Forbidden"),
        (operator, {**body, "note": " "}, 422, "InvalidRequest"),
        (operator, {**body, "step": "flights"}, 422, "InvalidRequest"),
        (operator, {"step": "flight", "note": "x"}, 422, "InvalidRequest"),
        (operator, {**body, "refuse_starts": True}, 422, "InvalidRequest"),
    ]:
        answer = client.post("/v1/pauses", json=fields)
        assert (answer.status_code, error_of(answer)) == (status, name), answer.text
    assert scopes(operator) == []
    (pause,) = operator.post("/v1/pauses", json=body).json()["pauses"]
    assert (pause["by"], pause["note"], pause["queue"]) == ("operator", body["note"], None)
    assert start(caller, "trip", "t").status_code == 201
    assert take(world["worker"], "trip/flight", wait=0.5) == []
    deadline = time.monotonic() + LONG
    while True:
        waits = caller.get("/v1/sagas/t").json()["waits"]
        if [(wait["step"], wait["why"], wait["detail"]) for wait in waits] == [
            ("flight", "paused", "the airline is down by operator")
        ]:
            break
        assert time.monotonic() < deadline, waits
        time.sleep(0.05)
    text = world.page("operator").get("/ui/sagas/t").text
    assert "paused" in text and "the airline is down" in text
    assert 'sagas_paused{queue="",saga="trip",step="flight"} 1.0' in operator.get("/metrics").text
    assert scopes(caller) == [("trip", "flight")] and scopes(of_order) == []
    answer = operator.delete("/v1/pauses", params={"definition": "trip"})
    assert (answer.status_code, error_of(answer)) == (404, "NoSuchPause")
    answer = operator.delete("/v1/pauses", params={"definition": "trip", "step": "flight"})
    assert answer.json() == {"pauses": []}
    assert len(take(world["worker"], "trip/flight", wait=30)) == 1
    assert of_order.post(
        "/v1/pauses", json={"definition": "order", "note": "full", "refuse_starts": True}
    ).is_success
    refused = start(caller, "order", "o")
    assert (refused.status_code, error_of(refused)) == (503, "StartsPaused")
    assert refused.headers["retry-after"] and "full by of-order" in refused.json()["detail"]
    assert of_order.delete("/v1/pauses", params={"definition": "order"}).is_success
    assert start(caller, "order", "o").status_code == 201


def test_a_pause_in_the_dashboard(world: World) -> None:
    """Each page shows it to those who may see it; the form is that of the session."""
    page, other = world.page("operator"), world.page("of-order")
    text = page.get("/ui/pauses").text
    assert "Nothing is paused" in text and "Everything" in text
    assert "Everything" not in other.get("/ui/pauses").text
    csrf = re.search(r'name="csrf" value="([^"]+)"', text)
    theirs = re.search(r'name="csrf" value="([^"]+)"', other.get("/ui").text)
    assert csrf and theirs
    form = {"definition": "*", "note": "<b>fire", "csrf": csrf[1], "forward_only": "on"}
    assert page.post("/ui/pauses", data={**form, "csrf": "x"}).status_code == 403
    for changes, options in [
        ({"definition": ""}, "choose a definition"),
        ({"definition": "trip", "step": "flights"}, "did you mean &#39;flight&#39;"),
        ({"note": " "}, "note"),
    ]:
        answer = page.post("/ui/pauses", data={**form, **changes})
        assert answer.status_code == 422 and options in answer.text
    answer = other.post("/ui/pauses", data={**form, "csrf": theirs[1]})
    assert answer.status_code == 403 and "has no right to pause everything" in answer.text
    assert page.post("/ui/pauses", data=form).status_code == 303
    for path in ("/ui", "/ui/sagas", "/ui/definitions", "/ui/workers", "/ui/pauses"):
        for browser in (page, other):
            text = browser.get(path).text
            assert "<b>Paused:</b> everything, by operator: &lt;b&gt;fire" in text
    assert "Resume everything" not in other.get("/ui/pauses").text
    assert 'sagas_paused{queue="",saga="",step=""} 1.0' in world["operator"].get("/metrics").text
    assert "operator has paused everything" in world.service.log_text()
    resumed = page.post("/ui/pauses/resume", data={"definition": "*", "csrf": csrf[1]})
    assert resumed.status_code == 303 and "Nothing is paused" in page.get("/ui/pauses").text
    answer = page.post("/ui/pauses/resume", data={"definition": "*", "csrf": csrf[1]})
    assert answer.status_code == 404 and "everything is not paused" in answer.text


def test_a_pause_by_the_command(world: World, capsys: pytest.CaptureFixture[str]) -> None:
    """The service obeys it within a second."""
    operator = world["operator"]
    assert main(["store", world.service.store, "pauses"]) == 0
    assert capsys.readouterr().out == "SCOPE  SINCE  BY  OPTIONS  NOTE\n"
    for options, status, complaint in [
        (["pause", "--note", "x"], 2, "pass SAGA, --queue NAME or --everything"),
        (["pause", "trip", "--everything", "--note", "x"], 2, "pass SAGA, --queue NAME"),
        (["pause", "trip", "--note", " "], 2, "--note must not be empty"),
        (["pause", "trip", "flight", "--refuse-starts", "--note", "x"], 2, "no starts of its own"),
        (["pause", "tripp", "--note", "x"], 1, "did you mean 'trip'"),
        (["resume", "trip"], 1, "the definition 'trip' is not paused"),
    ]:
        assert main(["store", world.service.store, *options]) == status, options
        assert complaint in capsys.readouterr().err
    done = command(
        "store",
        world.service.store,
        "pause",
        "--everything",
        "--note",
        "fire",
        "--by",
        "ada",
        "--json",
    )
    assert (done.returncode, json.loads(done.stdout)["by"]) == (0, "ada"), done.stderr
    deadline = time.monotonic() + LONG
    while "sagas_paused{" not in operator.get("/metrics").text:
        assert time.monotonic() < deadline
        time.sleep(0.05)
    assert start(world["caller"], "few", "f").status_code == 201
    assert take(world["worker"], "few/a", wait=0.3) == []
    assert main(["store", world.service.store, "pauses"]) == 0
    assert "everything" in (out := capsys.readouterr().out) and "ada" in out and "fire" in out
    assert (
        command("store", world.service.store, "resume", "--everything").stdout
        == "everything is resumed\n"
    )
    assert len(take(world["worker"], "few/a", wait=30)) == 1
