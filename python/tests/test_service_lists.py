"""The list of the dashboard and its form: times, labels, waits, keys to copy, and starts."""

from __future__ import annotations

import datetime
import re
import time
from collections.abc import Iterator

import httpx
import pytest
from serving import DEFINITIONS, LONG, report, served, start, stuck, take, token
from test_service_tokens import World

TOKENS: dict[str, tuple[str, ...]] = {
    "operator": ("operator",),
    "of-trip": ("operator", "--definition", "trip"),
    "caller": ("caller",),
}
PARTS = [f"part-{number}" for number in range(1, 7)]
WIDE = {
    "wide.toml": 'format = 2\nname = "wide"\n'
    + "".join(f'[[step]]\nname = "{part}"\nundo = "never"\n' for part in PARTS),
    "wide.service.toml": "".join(f"[step.{part}]\nmax_unknown = 1\n" for part in PARTS),
}


@pytest.fixture(scope="module")
def world(tmp_path_factory: pytest.TempPathFactory, store: str | None) -> Iterator[World]:
    folder = tmp_path_factory.mktemp("lists")
    tokens = {name: token(folder, name, *options) for name, options in TOKENS.items()}
    arguments = "--token-file", str(folder / "tokens.toml")
    with served(folder, DEFINITIONS | WIDE, *arguments, store=store) as service:
        services = World(service, tokens)
        body = {"definition": "trip", "key": "a", "labels": {"city": "Rome", "vip": "<yes>"}}
        assert services["caller"].post("/v1/sagas", json=body).status_code == 201
        start(services["caller"], "order", "b")
        stuck(services["operator"], "c")
        services.waits("b", "approval")
        yield services
        for client in services.clients.values():
            client.close()


def row_of(page: str, key: str) -> str:
    """Return the row of a saga as text."""
    (row,) = [row for row in page.split("<tr>") if f'data-copy="{key}"' in row]
    return re.sub(r"<[^>]+>", " ", row)


def keys_in(page: str) -> list[str]:
    return re.findall(r'data-copy="([^"]+)"', page)


def form_fields(page: httpx.Client, **fields: str) -> dict[str, str]:
    """Return the fields of the form that starts a saga."""
    text = page.get("/ui/start").text
    (csrf,) = re.findall(r'name="csrf" value="([^"]+)"', text)[:1]
    return {"csrf": csrf, "definition": "trip", "input": "null", **fields}


def test_rows_have_labels_and_what_the_saga_waits_for(world: World) -> None:
    page = world.page("operator").get("/ui/sagas").text
    assert keys_in(page) == ["c", "b", "a"]
    first = row_of(page, "a")
    assert "city=Rome" in first and "vip=&lt;yes&gt;" in first and "Open" in first
    assert "a worker" in first
    second = row_of(page, "b")
    assert "a decision" in second and "For an operator" in second
    assert "Stuck" in row_of(page, "c")


def test_sagas_for_an_operator_are_apart(world: World) -> None:
    page = world.page("operator").get("/ui/sagas?phase=operator").text
    assert keys_in(page) == ["b"]
    assert re.search(r'aria-current="true">For an operator <span class="pill">1<', page)
    assert keys_in(world.page("operator").get("/ui/sagas?phase=open").text) == ["b", "a"]
    for query in ("phase=operator&search=x", "phase=operator&definition=trip"):
        assert keys_in(world.page("operator").get(f"/ui/sagas?{query}").text) == []
    of_trip = world.page("of-trip").get("/ui/sagas?phase=operator").text
    assert keys_in(of_trip) == [] and 'For an operator <span class="pill">0<' in of_trip


def test_times_have_minutes(world: World) -> None:
    page = world.page("operator")
    started = datetime.datetime.fromtimestamp(
        world["operator"].get("/v1/sagas/a").json()["started"], datetime.timezone.utc
    )
    minute, day = started.strftime("%Y-%m-%dT%H:%M"), started.strftime("%Y-%m-%d")
    later = (started + datetime.timedelta(minutes=2)).strftime("%Y-%m-%dT%H:%M")
    earlier = (started - datetime.timedelta(minutes=1)).strftime("%Y-%m-%dT%H:%M")
    for query, is_listed in [
        (f"since={minute}", True),
        (f"since={later}", False),
        (f"until={minute}", True),
        (f"until={earlier}", False),
        (f"since={day}&until={day}", True),
    ]:
        assert ("a" in keys_in(page.get(f"/ui/sagas?{query}").text)) is is_listed, query
    text = page.get(f"/ui/sagas?since={minute}&until={day}").text
    assert f'name="since" value="{minute}"' in text
    assert f'name="until" value="{day}T23:59"' in text
    for wrong in ("yesterday", "2026-13-01T00:00"):
        assert "since must be a time" in page.get(f"/ui/sagas?since={wrong}").text


def test_a_saga_is_started_with_labels_and_a_deadline(world: World) -> None:
    page = world.page("operator")
    fields = form_fields(page, key="d", labels="city=Oslo\n\n note = a=b ", deadline="2h")
    answer = page.post("/ui/start", data=fields)
    assert (answer.status_code, answer.headers["location"]) == (303, "/ui/sagas/d")
    saga = world["operator"].get("/v1/sagas/d").json()
    assert saga["labels"] == {"city": "Oslo", "note": "a=b"}
    assert saga["deadline"] - saga["started"] == pytest.approx(7200, abs=5)
    for wrong, text in [
        ({"labels": "Oslo"}, "a label must be NAME=VALUE"),
        ({"labels": "city=Oslo\ncity=Rome"}, "a label occurs twice"),
        ({"labels": "=Oslo"}, "label name"),
        ({"deadline": "soon"}, "the deadline must be"),
        ({"deadline": "999999999w"}, "the deadline must be"),
    ]:
        answer = page.post("/ui/start", data=form_fields(page, key="e", **wrong))
        assert answer.status_code in (409, 422) and text in answer.text, wrong
    assert world["operator"].get("/v1/sagas/e").status_code == 404
    foreign = form_fields(world.page("of-trip"), key="e", definition="order")
    assert world.page("of-trip").post("/ui/start", data=foreign).status_code == 403


def test_a_saga_has_its_key_to_copy_and_an_export(world: World) -> None:
    text = world.page("operator").get("/ui/sagas/a").text
    assert 'data-copy="a"' in text and 'href="/ui/sagas/a/export"' in text
    assert world.page("operator").get("/ui/sagas/a/export").json()["saga"]["key"] == "a"


def test_a_worker_may_ask_for_compensations_that_no_step_has(world: World) -> None:
    """Only steps that no definition has are marked."""
    steps = ["trip/tour", "trip/tour/undo", "trip/none", "trip/none/undo"]
    body = {"steps": steps, "wait": 0, "lease": 60, "worker": "odd"}
    assert world["operator"].post("/v1/tasks/claim", json=body).status_code == 200
    page = world.page("operator").get("/ui/workers").text
    assert '<span class="bad">no definition has trip/none, trip/none/undo</span>' in page


def test_days_without_a_recovery_are_left_out(world: World) -> None:
    page = world.page("operator").get("/ui/definitions/trip").text
    assert "No saga was recovered in the last two weeks." in page


def test_steps_with_one_error_are_answered_together(world: World) -> None:
    """The page of the saga has one question, whose link leads to their group in the inbox."""
    operator, page = world["operator"], world.page("operator")
    start(operator, "wide", "f")
    for number, part in enumerate(PARTS):
        (task,) = take(operator, f"wide/{part}")
        error = "another" if number == 5 else f"timeout after {number} s"
        assert report(operator, task, "unknown", error=error).status_code == 200
    world.waits("f", "unknown")
    text = until_text(page, "/ui/sagas/f", "The outcomes of 5 steps are unknown")
    assert text.count('<section class="ask unknown"') == 2 and "“another”" in text
    assert 'aria-label="Complete… part-3"' in text
    (link,) = re.findall(r'href="([^"]+)">Answer together', text)
    inbox = page.get(link.replace("&amp;", "&")).text
    assert "part-1, part-2, part-3 and 2 more steps: timeout after … s" in inbox
    assert "Steps: part-1, part-2, part-3, part-4, part-5<" in inbox
    assert inbox.count('name="group"') == 2


def until_text(page: httpx.Client, path: str, wanted: str) -> str:
    """Return a page once it has a text."""
    deadline = time.monotonic() + LONG
    while wanted not in (text := page.get(path).text):
        assert time.monotonic() < deadline, f"{path} has no {wanted!r}"
    return text
