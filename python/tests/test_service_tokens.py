"""The restrictions of a token: definitions, steps of workers, and a time.

Over a file and a database.
"""

from __future__ import annotations

import contextlib
import datetime
import pathlib
import re
import resource
import subprocess
import sys
import threading
import time
from collections.abc import Iterator
from typing import Any
from urllib.parse import quote

import httpx
import pytest
from cases import run, until
from serving import (
    error_of,
    DEFINITIONS,
    LONG,
    Served,
    command,
    environment,
    report,
    served,
    start,
    stuck,
    take,
    token,
)

from sagas.server import auth

TOKENS: dict[str, tuple[str, ...]] = {
    "caller": ("caller",),
    "operator": ("operator",),
    "worker": ("worker",),
    "of-trip": ("caller", "--definition", "trip", "--definition", "few"),
    "of-order": ("operator", "--definition", "order"),
    "approves-trip": ("approver", "--definition", "trip"),
    "approves-order": ("approver", "--definition", "order"),
    "team-a": ("caller", "approver", "--key", "team-a-*", "--key", "shared", "--key", "b/*"),
    "flies": ("worker", "--step", "trip/flight", "--step", "trip/car/undo"),
    "sends": ("worker", "--definition", "order"),
    "both": ("worker", "--definition", "order", "--step", "trip/flight", "--step", "order/send"),
}


class World:
    """A service with these tokens."""

    def __init__(self, service: Served, tokens: dict[str, str]) -> None:
        self.service, self.tokens = service, tokens
        self.clients: dict[str, httpx.Client] = {}

    def __getitem__(self, name: str) -> httpx.Client:
        if name not in self.clients:
            self.clients[name] = self.service.client(self.tokens[name])
        return self.clients[name]

    def page(self, name: str) -> httpx.Client:
        """Return a browser, logged in by this token."""
        if f"page {name}" not in self.clients:
            client = self.clients[f"page {name}"] = self.service.client()
            answer = client.post("/ui/login", data={"token": self.tokens[name]})
            assert (answer.status_code, answer.headers.get("location")) == (303, "/ui")
        return self.clients[f"page {name}"]

    def waits(self, key: str, why: str) -> None:
        deadline = time.monotonic() + LONG
        while why not in [
            wait["why"]
            for wait in self["operator"].get(f"/v1/sagas/{quote(key, safe='')}").json()["waits"]
        ]:
            assert time.monotonic() < deadline


@pytest.fixture(scope="module")
def world(tmp_path_factory: pytest.TempPathFactory, store: str | None) -> Iterator[World]:
    folder = tmp_path_factory.mktemp("tokens")
    tokens = {name: token(folder, name, *roles) for name, roles in TOKENS.items()}
    with served(
        folder, DEFINITIONS, "--token-file", str(folder / "tokens.toml"), store=store
    ) as service:
        services = World(service, tokens)
        for definition in ("trip", "order"):
            assert (
                start(
                    services["caller"],
                    definition,
                    f"a-{definition}",
                    {"secret": f"of {definition}"},
                ).status_code
                == 201
            )
        services.waits("a-order", "approval")
        stuck(services["operator"], "a-licence")
        yield services
        for client in services.clients.values():
            client.close()


def status_name_and_detail(answer: httpx.Response) -> tuple[int, str, str]:
    body = answer.json()
    return answer.status_code, error_of(answer), body["detail"]


def test_a_caller_starts_its_definitions(world: World) -> None:
    """Any other is refused by name, whether it exists or not; for a key of another definition's
    saga the response says only that it is taken.
    """
    client = world["of-trip"]
    assert start(client, "trip", "t-1").status_code == 201
    for name in ("order", "nothing"):
        assert status_name_and_detail(start(client, name, "o-1")) == (
            403,
            "Forbidden",
            f"of-trip has no right to the definition '{name}'",
        )
    assert (
        status_name_and_detail(
            client.post("/v1/sagas", json={"definition": "trip", "key": "x", "version": 7})
        )[2]
        == "the service has no definition 'trip' of version 7. It has: few, trip"
    )
    status, name, text = status_name_and_detail(
        start(client, "trip", "a-order", {"secret": "of order"})
    )
    assert (status, name, text) == (
        409,
        "KeyConflict",
        "the key 'a-order' belongs to another saga: use another key",
    )
    assert error_of(start(client, "few", "t-1")) == "KeyConflict"
    assert start(client, "trip", "a-trip", {"secret": "of trip"}).json() == {
        "key": "a-trip",
        "definition": "trip",
        "version": 1,
        "new": False,
    }
    assert world["operator"].get("/v1/sagas/o-1").status_code == 404


def test_a_caller_sees_its_definitions(world: World) -> None:
    """This holds in the list, whatever its filter."""
    client = world["of-trip"]
    for query in ("", "?search=a-", "?phase=open", "?phase=stuck", "?limit=1000"):
        listed = client.get(f"/v1/sagas{query}").json()["sagas"]
        assert {summary["definition"] for summary in listed} <= {"trip", "few"}, query
    assert [saga["key"] for saga in client.get("/v1/sagas?search=a-").json()["sagas"]] == ["a-trip"]
    assert client.get("/v1/sagas?definition=trip&search=a-").json()["sagas"][0]["key"] == "a-trip"
    assert status_name_and_detail(client.get("/v1/sagas?definition=order")) == (
        403,
        "Forbidden",
        "of-trip has no right to the definition 'order'",
    )
    assert {
        saga["definition"] for saga in world["caller"].get("/v1/sagas?search=a-").json()["sagas"]
    } == {"trip", "order", "licence"}


BY_KEY: list[tuple[str, str, str, Any]] = [
    ("of-trip", "GET", "/v1/sagas/KEY", None),
    ("of-trip", "GET", "/v1/sagas/KEY/log", None),
    ("of-trip", "GET", "/v1/sagas/KEY/wait?seconds=0", None),
    ("of-trip", "GET", "/v1/sagas/KEY/wait?seconds=20", None),
    ("of-trip", "GET", "/v1/sagas/KEY/picture.svg", None),
    ("of-trip", "GET", "/v1/sagas/KEY/certificate", None),
    ("of-trip", "GET", "/v1/sagas/KEY/export", None),
    ("of-trip", "POST", "/v1/sagas/KEY/abort", {"note": "x"}),
    ("approves-trip", "GET", "/v1/sagas/KEY", None),
    ("approves-trip", "POST", "/v1/sagas/KEY/steps/review/complete", {"result": 1}),
    ("approves-trip", "POST", "/v1/sagas/KEY/steps/review/fail", {"error": "x"}),
]


def without_id(text: str) -> str:
    """Return a problem without the id of its request, which differs each time."""
    without, count = re.subn(r',"request_id":"[0-9a-f]{16}"', "", text)
    assert count == 1, text
    return without


def test_a_saga_of_another_definition_looks_unknown(world: World) -> None:
    """For its key the response is that of an unknown key, word for word; and nothing is done."""
    before = world["operator"].get("/v1/sagas/a-order").json()
    for name, method, path, body in BY_KEY:
        answers = []
        for key in ("a-order", "no-order", "a-licence"):
            began = time.monotonic()
            answer = world[name].request(method, path.replace("KEY", key), json=body)
            assert answer.status_code == 404 and time.monotonic() - began < 18, (path, answer.text)
            answers.append(without_id(answer.text).replace(key, "KEY"))
        assert len(set(answers)) == 1, answers
    for path, body in (
        ("abort", {}),
        ("steps/review/complete", {"result": 1}),
        ("steps/flight/fail", {"error": "x"}),
        ("resolve", {"note": "x"}),
    ):
        for key in ("a-trip", "no-trip"):
            answer = world["of-order"].post(f"/v1/sagas/{key}/{path}", json=body)
            assert (answer.status_code, error_of(answer)) == (404, "NoSuchSaga")
    assert world["operator"].get("/v1/sagas/a-order").json() == before
    assert world["operator"].get("/v1/sagas/a-trip").json()["aborted"] is False
    assert status_name_and_detail(world["of-order"].get("/metrics"))[:2] == (403, "Forbidden")


def test_an_approver_of_a_definition(world: World) -> None:
    start(world["caller"], "order", "to-approve")
    world.waits("to-approve", "approval")
    assert (
        world["approves-trip"]
        .post("/v1/sagas/to-approve/steps/review/complete", json={"result": 1})
        .status_code
        == 404
    )
    assert world["approves-order"].get("/v1/sagas/to-approve").status_code == 200
    assert (
        world["approves-order"]
        .post("/v1/sagas/to-approve/steps/review/complete", json={"result": 1})
        .status_code
        == 200
    )
    world["operator"].post("/v1/sagas/to-approve/abort", json={})


def test_a_token_of_some_keys(world: World) -> None:
    """It starts, sees and decides sagas with these keys, and their children, and no others."""
    client, other = world["team-a"], world["caller"]
    assert start(client, "order", "team-a-1").status_code == 201
    for key in ("team-b-1", "team-a", "b", "shared-2"):
        assert status_name_and_detail(start(client, "order", key)) == (
            403,
            "Forbidden",
            f"team-a has no right to the key {key!r}",
        )
    for name in ("team-a", "caller"):
        refused = start(world[name], "order", "team-a-1/:sub")
        assert (refused.status_code, error_of(refused)) == (422, "InvalidKey"), refused.text
    for key in ("team-b-1", "b", "b/1", "shared", "TEAM-A-2"):
        assert start(other, "order", key).status_code == 201
        world.waits(key, "approval")
    world.waits("team-a-1", "approval")
    mine = {"team-a-1", "shared", "b/1"}
    assert {saga["key"] for saga in client.get("/v1/sagas").json()["sagas"]} == mine
    entries = client.get("/v1/attention?reason=approval").json()
    assert "team-b-1" not in str(entries)
    counts = {
        definition["name"]: definition["sagas"]
        for definition in client.get("/v1/definitions").json()["definitions"]
    }
    assert (counts["order"]["open"], sum(counts["trip"].values())) == (3, 0)
    for _, method, path, body in BY_KEY:
        if "of-trip" != _:
            continue
        texts = [
            client.request(method, path.replace("KEY", key), json=body) for key in ("b", "none-b")
        ]
        assert {text.status_code for text in texts} == {404}
        first, second = (without_id(text.text) for text in texts)
        assert first == second.replace("none-b", "b")
    for key, status in (("team-b-1", 404), ("team-a-1", 200)):
        path = f"/v1/sagas/{key}/steps/review/complete"
        assert client.post(path, json={"result": 1}).status_code == status
    with client.stream("GET", "/v1/events") as stream:
        lines = stream.iter_lines()
        assert next(lines).startswith("retry")
        for key in ("team-b-1", "team-a-1"):
            assert other.post(f"/v1/sagas/{key}/abort", json={}).status_code == 200
        seen = next(line for line in lines if line.startswith("data:"))
        assert '"team-a-1"' in seen


def listened(world: World, path: str, ready: threading.Barrier, events: list[str]) -> None:
    """Collect the events of a stream, until it has that of the abort of its own saga."""
    client = world.service.client(world.tokens["of-trip"])
    with client, client.stream("GET", path) as stream:
        lines = stream.iter_lines()
        assert next(lines).startswith("retry")
        ready.wait(LONG)
        for line in lines:
            if line.startswith("data:"):
                events.append(line[5:])
                if '"saga_aborted"' in line:
                    return


def test_a_stream_has_its_definitions(world: World) -> None:
    """The events of other definitions are not in it; events without a definition are for tokens
    that see all.
    """
    paths = ["/v1/events", "/v1/events?definition=trip"]
    events: dict[str, list[str]] = {path: [] for path in paths}
    ready = threading.Barrier(len(paths) + 1)
    threads = [
        threading.Thread(target=listened, args=(world, path, ready, events[path])) for path in paths
    ]
    for thread in threads:
        thread.start()
    ready.wait(LONG)
    start(world["caller"], "order", "streamed-order")
    start(world["caller"], "trip", "streamed-trip")
    world["caller"].post("/v1/sagas/streamed-trip/abort", json={})
    for thread in threads:
        thread.join(LONG)
    for path in paths:
        assert events[path] and all('"saga": "trip"' in text for text in events[path]), events


def test_a_stream_of_another_s_saga_has_nothing(world: World) -> None:
    """By its definition it is refused; by its key it is one of an unknown key, also after an id."""
    assert status_name_and_detail(world["of-trip"].get("/v1/events?definition=order"))[:2] == (
        403,
        "Forbidden",
    )
    start(world["caller"], "order", "behind-an-id")
    headers = {"Last-Event-ID": last_id(world)}
    with world["of-trip"].stream("GET", "/v1/events?key=behind-an-id", headers=headers) as stream:
        lines = stream.iter_lines()
        assert [next(lines).strip() for _ in range(3)][2] == ": open"
        start(world["caller"], "order", "behind-it")
        # the comment of a stream without events
        quiet = next(line for line in lines if line.strip())
        assert quiet.startswith(":")


def last_id(world: World) -> str:
    """Return the id of the first event that a stream of all would have."""
    with world["operator"].stream("GET", "/v1/events") as stream:
        id = next(line for line in stream.iter_lines() if line.startswith("id:"))[3:].strip()
    return f"{id.partition('-')[0]}-0"


def test_a_worker_takes_its_steps(world: World) -> None:
    """Steps beyond them are named in the error; a report claims no others with it."""
    start(world["caller"], "order", "stepped")
    world.waits("stepped", "approval")
    world["approves-order"].post("/v1/sagas/stepped/steps/review/complete", json={"result": 1})
    for name, steps, beyond in (
        ("flies", ["trip/flight", "trip/car"], "trip/car"),
        (
            "flies",
            ["trip/flight/undo", "order/send", "trip/flight"],
            "order/send, trip/flight/undo",
        ),
        ("sends", ["order/send", "trip/flight"], "trip/flight"),
        ("both", ["order/send", "trip/flight"], "trip/flight"),
        ("both", ["order/review"], "order/review"),
    ):
        answer = world[name].post("/v1/tasks/claim", json={"steps": steps, "wait": 0})
        assert status_name_and_detail(answer) == (
            403,
            "Forbidden",
            f"{name} has no right to the steps {beyond}",
        )
    assert (
        world["flies"].post("/v1/tasks/claim", json={"steps": ["flight"], "wait": 0}).status_code
        == 422
    )
    assert {queue["step"] for queue in world["flies"].get("/v1/queues").json()["queues"]} == {
        "flight"
    }
    assert {queue["definition"] for queue in world["sends"].get("/v1/queues").json()["queues"]} == {
        "order"
    }
    (sent,) = [
        task for task in take(world["both"], "order/send", limit=10) if task["key"] == "stepped"
    ]
    forbidden = report(world["both"], sent, result=1, next={"steps": ["trip/flight"]})
    assert (forbidden.status_code, error_of(forbidden)) == (403, "Forbidden")
    # refused before anything was stored
    assert world["operator"].get("/v1/sagas/stepped").json()["states"]["send"] == "running"
    assert report(world["both"], sent, result=1).status_code == 200


def test_a_worker_ends_its_own_claims(world: World) -> None:
    """Its token and its name end them, and no other token does. They are answered at once."""
    claimed: list[Any] = []
    claims = threading.Thread(target=lambda: claimed.extend(take(world["sends"], "order/pay/undo")))
    claims.start()
    path, ends = "/v1/tasks/claim/end", {"worker": "w"}
    for name in ("caller", "approves-trip"):
        assert world[name].post(path, json=ends).status_code == 403
    for name, body in (
        ("worker", ends),
        ("operator", ends),
        ("sends", {"worker": "x"}),
        ("sends", {}),
    ):
        assert world[name].post(path, json=body).json() == {"ended": 0}
    until_ended = time.monotonic() + LONG  # until the claim has arrived there
    other = world.service.client(world.tokens["sends"])
    while other.post(path, json=ends).json() == {"ended": 0}:
        assert claims.is_alive() and time.monotonic() < until_ended
    claims.join(20)  # it would wait for 30 seconds
    assert not claims.is_alive() and claimed == []


def csrf_of(client: httpx.Client, path: str) -> str:
    match = re.search(r'name="csrf" value="([^"]+)"', client.get(path).text)
    assert match
    return match[1]


OTHERS = ("a-trip", "a-licence", "trip/", ">trip<", ">licence<")
"""Texts that are not on a page of an operator who is restricted to another definition."""


def test_the_dashboard_has_its_definitions(world: World) -> None:
    """Its operator sees no other's sagas, figures, queues and workers."""
    page, all_of_it = world.page("of-order"), world.page("operator")
    take(world["worker"], "trip/none", wait=0)
    queries = ("", "?search=a-", "?definition=trip", "?phase=stuck")
    for path in ("/ui", "/ui/workers", "/ui/start", *(f"/ui/sagas{query}" for query in queries)):
        text = page.get(path).text
        assert not [word for word in OTHERS if word in text], path
    for path in ("/ui?kind=approval", "/ui/sagas"):
        assert "a-order" in page.get(path).text
    assert "a-licence" in all_of_it.get("/ui?kind=stuck").text
    others = dict(re.findall(r'name="(group)" value="(\w+)"', all_of_it.get("/ui?kind=stuck").text))
    assert others and 'name="group"' not in page.get("/ui?kind=stuck").text
    csrf = re.search(r'name="csrf" value="([^"]+)"', page.get("/ui").text)
    assert csrf is not None
    form = {
        "csrf": csrf[1],
        "kind": "stuck",
        "verb": "resolve",
        "sure": "1",
        "count": "1",
        "note": "x",
    }
    refused = page.post("/ui/inbox", data={**form, **others})
    assert refused.status_code == 422 and "Nothing is selected" in refused.text
    assert world["operator"].get("/v1/sagas/a-licence").json()["phase"] == "stuck"
    assert page.get("/ui/definitions/licence").status_code == 404
    assert "a-trip" in all_of_it.get("/ui/sagas?search=a-").text
    assert "trip/none" in all_of_it.get("/ui/workers").text
    status_name_and_detail = r"Stuck 0\s*Undo failed 0\s*Unknown 0\s*Exhausted 0\s*Approvals [1-9]"
    for client, counts in (
        (page, status_name_and_detail),
        (all_of_it, "Stuck 1"),
    ):  # which are counted once a second
        run(until(lambda: re.search(counts, re.sub("<[^>]+>", "", client.get("/ui").text)), LONG))


FORMS: list[tuple[str, dict[str, str]]] = [
    ("abort", {}),
    ("steps/flight/done", {"result": "1"}),
    ("steps/flight/failed", {"failed": "x"}),
    ("resolve", {"note": "x"}),
]


def test_the_dashboard_does_nothing_to_others(world: World) -> None:
    """Another definition's saga looks like an unknown one, also for its forms."""
    page = world.page("of-order")
    csrf = csrf_of(page, "/ui/sagas/a-order/abort")
    for key in ("a-trip", "no-trip"):
        missing = page.get(f"/ui/sagas/{key}")
        assert missing.status_code == 404 and f"No saga has the key {key}" in missing.text
        assert page.get(f"/ui/sagas/{key}/certificate").status_code == 404
        assert page.get(f"/ui/sagas/{key}/export").status_code == 404
        for path, form in FORMS:
            answer = page.post(f"/ui/sagas/{key}/{path}", data={"csrf": csrf, **form})
            assert answer.status_code == 409
            assert f"no saga has the key &#39;{key}&#39;" in answer.text
    assert world["operator"].get("/v1/sagas/a-trip").json()["aborted"] is False
    with page.stream("GET", "/ui/events?key=a-trip") as stream:
        assert stream.status_code == 200


def test_the_dashboard_starts_its_definitions(world: World) -> None:
    """It starts no others; a key of another definition's saga is only reported as taken.

    For its own definition everything works.
    """
    page = world.page("of-order")
    csrf = csrf_of(page, "/ui/sagas/a-order/abort")
    other = {"csrf": csrf, "definition": "trip", "key": "by-page"}
    assert page.post("/ui/start", data=other).status_code == 403
    taken = page.post("/ui/start", data={"csrf": csrf, "definition": "order", "key": "a-trip"})
    assert taken.status_code == 409 and "belongs to another saga" in taken.text
    assert "secret" not in taken.text
    form = "/ui/sagas/a-order/steps/review/failed"
    sent = dict(re.findall(r'name="(csrf|waits)" value="([^"]+)"', page.get(form).text))
    assert page.post(form, data={**sent, "failed": "no"}).status_code == 303


def soon(seconds: float) -> str:
    return (
        datetime.datetime.now(datetime.timezone.utc) + datetime.timedelta(seconds=seconds)
    ).isoformat()


def test_a_token_that_expires(tmp_path: pathlib.Path) -> None:
    """The response is 401 from then on, with the reason; its stream and its session end without a
    restart.
    """
    expires = 10.0
    old = token(tmp_path, "old", "operator", "--expires", soon(-1))
    later = token(tmp_path, "later", "operator", "--expires", "2999-01-01T00:00:00+02:00")
    with served(tmp_path, DEFINITIONS, "--token-file", str(tmp_path / "tokens.toml")) as service:
        with service.client(old) as client, service.client() as page, service.client(later) as good:
            assert status_name_and_detail(client.get("/v1/sagas")) == (
                401,
                "Unauthorized",
                (
                    "the token has expired. Create another one with `sagas token`. "
                    "Send it as Authorization: Bearer TOKEN"
                ),
            )
            assert page.post("/ui/login", data={"token": old}).status_code == 403
            assert good.get("/v1/sagas").status_code == 200
        began = time.monotonic()
        short = token(tmp_path, "short", "operator", "--expires", soon(expires))
        with service.client(short) as client, service.client() as page:
            deadline = began + expires
            while client.get("/v1/sagas").status_code != 200:
                assert time.monotonic() < deadline
                time.sleep(0.1)
            page.post("/ui/login", data={"token": short})
            assert page.get("/ui").status_code == 200
            with client.stream("GET", "/v1/events") as stream, page.stream(
                "GET", "/ui/events"
            ) as shown:
                for response in (stream, shown):
                    for _ in response.iter_lines():
                        pass  # to its end
            assert time.monotonic() - began >= expires - 1
            assert client.get("/v1/sagas").status_code == 401 and page.get("/ui").status_code == 303
            assert page.get("/ui/events").status_code == 403


def test_a_stream_ends_with_its_token(tmp_path: pathlib.Path) -> None:
    """It is removed from the file, or restricted further: soon the stream has no more events, and
    its session's stream has none once that is logged out.
    """
    tokens = {name: token(tmp_path, name, "operator") for name in ("gone", "less", "stays")}
    file = tmp_path / "tokens.toml"
    with served(
        tmp_path, DEFINITIONS, "--token-file", str(file)
    ) as service, contextlib.ExitStack() as stack:
        streams = {}
        for name, text in tokens.items():
            streams[name] = stack.enter_context(
                stack.enter_context(service.client(text)).stream("GET", "/v1/events")
            )
        page = stack.enter_context(service.client())
        page.post("/ui/login", data={"token": tokens["stays"]})
        shown = stack.enter_context(page.stream("GET", "/ui/events"))
        blocks = file.read_text().split("[[token]]\n")
        less = blocks[2].replace(
            'roles = ["operator"]', 'roles = ["operator"]\ndefinitions = ["order"]'
        )
        file.write_text("[[token]]\n" + less + "[[token]]\n" + blocks[3])
        for name in ("gone", "less"):
            for _ in streams[name].iter_lines():
                pass
        other = stack.enter_context(service.client())
        other.cookies = page.cookies
        assert (
            other.post("/ui/logout", data={"csrf": csrf_of(other, "/ui/sagas/x/abort")}).status_code
            == 303
        )
        for _ in shown.iter_lines():
            pass
        lines = streams["stays"].iter_lines()
        start(stack.enter_context(service.client(tokens["stays"])), "trip", "told")
        assert any('"told"' in line for line in lines)


def test_a_file_that_was_unreadable_once(
    tmp_path: pathlib.Path, monkeypatch: pytest.MonkeyPatch
) -> None:
    """A later look reads it though it has not changed, as after a `chown`; the log
    reports it once.
    """
    gone, stays = (token(tmp_path, name, "operator") for name in ("gone", "stays"))
    file, warnings = tmp_path / "tokens.toml", list[str]()
    tokens = auth.Tokens(file, warnings.append)
    monkeypatch.setattr(auth, "RELOAD_INTERVAL", -1.0)  # each request is a look
    file.write_text("[[token]]" + file.read_text().rpartition("[[token]]")[2])
    soft, hard = resource.getrlimit(resource.RLIMIT_NOFILE)
    resource.setrlimit(resource.RLIMIT_NOFILE, (0, hard))  # it can be looked at, and not be opened
    try:
        assert tokens.find(gone) and tokens.find(gone)
    finally:
        resource.setrlimit(resource.RLIMIT_NOFILE, (soft, hard))
    assert tokens.find(gone) is None and tokens.find(stays)
    (line,) = warnings
    assert "Too many open files" in line and line.endswith(
        "; the previous tokens stay valid until it is fixed"
    )


def test_waiting_requests_end_with_their_token(tmp_path: pathlib.Path) -> None:
    """A long request is refused once its token is removed, or evaluated again once it is
    restricted; a later task goes to another worker.
    """
    tokens = {name: token(tmp_path, name, "operator") for name in ("gone", "less", "stays")}
    file, statuses = tmp_path / "tokens.toml", dict[str, tuple[int, str]]()
    with served(tmp_path, DEFINITIONS, "--token-file", str(file)) as service:
        with service.client(tokens["stays"]) as client:
            start(client, "trip", "waits")

            def ask(name: str, path: str, body: Any) -> None:
                with service.client(tokens[name]) as other:
                    answer = other.request("POST" if body else "GET", path, json=body)
                    statuses[f"{name} {path}"] = answer.status_code, error_of(answer)

            wanted = {"steps": ["order/send", "licence/server"], "wait": 30}
            requests = [("/v1/tasks/claim", wanted), ("/v1/sagas/waits/wait?seconds=60", None)]
            some = [(name, *call) for name in ("gone", "less") for call in requests]
            threads = [threading.Thread(target=ask, args=item) for item in some]
            for thread in threads:
                thread.start()
            page = service.client()
            page.post("/ui/login", data={"token": tokens["stays"]})
            while not all(f"{name}</" in page.get("/ui/workers").text for name in ("gone", "less")):
                time.sleep(0.1)
            page.close()
            began, blocks = time.monotonic(), file.read_text().split("[[token]]\n")
            less = blocks[2].replace("sha256", 'definitions = ["order"]\nsha256')
            file.write_text("[[token]]\n" + less + "[[token]]\n" + blocks[3])
            for thread in threads:
                thread.join(LONG)
            assert time.monotonic() - began < 25
            assert set(statuses.values()) == {
                (401, "Unauthorized"),
                (503, "RightsChanged"),
            }, statuses
            assert {key: value for key, value in statuses.items() if key.startswith("gone")} == {
                f"gone {path}": (401, "Unauthorized") for path, _ in requests
            }
            start(client, "licence", "comes")
            assert [task["key"] for task in take(client, "licence/server")] == ["comes"]


DIGEST = "0" * 64
FAULTS = [
    ('definitions = "trip"', "definitions must be a list of one or more names of definitions"),
    ("definitions = []", "definitions must be a list of one or more names of definitions"),
    ('definitions = ["Trip!"]', "definitions must be a list of one or more names of definitions"),
    (
        'steps = ["car"]',
        "steps must be a list of one or more DEFINITION/STEP or DEFINITION/STEP/undo",
    ),
    (
        'steps = ["trip/car/done"]',
        "steps must be a list of one or more DEFINITION/STEP or DEFINITION/STEP/undo",
    ),
    ("steps = [1]", "steps must be a list of one or more DEFINITION/STEP or DEFINITION/STEP/undo"),
    (
        "expires = 2027-01-01T00:00:00",
        "expires must be a time with an offset, for example 2027-01-01T00:00:00Z",
    ),
    (
        "expires = 2027-01-01",
        "expires must be a time with an offset, for example 2027-01-01T00:00:00Z",
    ),
    (
        "keys = []",
        (
            "keys must be a list of one or more keys, or beginnings of keys with * at the end, "
            "without /:"
        ),
    ),
    (
        'keys = ["a*b"]',
        (
            "keys must be a list of one or more keys, or beginnings of keys with * at the end, "
            "without /:"
        ),
    ),
    ('keys = ["a*"]', "keys can only restrict a token with the roles caller, approver and reader"),
    (
        'expires = "tomorrow"',
        "expires must be a time with an offset, for example 2027-01-01T00:00:00Z",
    ),
    ("expires = 5", "expires must be a time with an offset, for example 2027-01-01T00:00:00Z"),
    (
        'definition = ["trip"]',
        (
            "unknown key 'definition'; the keys are name, roles, sha256, definitions, keys, steps,"
            " expires, open_sagas, open_bytes"
        ),
    ),
    (
        'Steps = ["trip/car"]',
        (
            "unknown key 'Steps'; the keys are name, roles, sha256, definitions, keys, steps,"
            " expires, open_sagas, open_bytes"
        ),
    ),
]


@pytest.mark.parametrize("line, says", FAULTS)
def test_faults_of_the_file(tmp_path: pathlib.Path, line: str, says: str) -> None:
    """Each error has the token and the reason: none of them makes a token with more rights than
    intended.
    """
    file = tmp_path / "tokens.toml"
    good = f'[[token]]\nname = "a"\nroles = ["worker"]\nsha256 = "{DIGEST}"\n'
    file.write_text(f"{good}\n{good}{line}\n")
    with pytest.raises(auth.TokenFault) as fault:
        auth.read(file)
    assert str(fault.value) == f"{file}: token 2: {says}"


def test_other_faults_of_the_file(tmp_path: pathlib.Path) -> None:
    """Limits of roles that have none; and keys next to the tokens."""
    file, good = (
        tmp_path / "tokens.toml",
        f'[[token]]\nname = "a"\nroles = ["ROLE"]\nsha256 = "{DIGEST}"\n',
    )
    for role, line, says in (
        (
            "caller",
            'steps = ["trip/car"]',
            "token 1: steps requires the role worker or operator",
        ),
        (
            "metrics",
            'definitions = ["trip"]',
            (
                "token 1: definitions cannot restrict a token with the role metrics, "
                "because metrics cover all definitions"
            ),
        ),
        (
            "approvers",
            "",
            (
                "token 1: roles must be a list of one or more of caller, approver, worker,"
                " operator, metrics"
            ),
        ),
        ("worker", '[tokens]\nname = "b"', "only [[token]] tables are allowed"),
    ):
        file.write_text(f"{good.replace('ROLE', role)}{line}\n")
        with pytest.raises(auth.TokenFault, match=re.escape(says)):
            auth.read(file)


def test_the_command(tmp_path: pathlib.Path) -> None:
    """It writes its arguments, as they are read again; and reports what it cannot write."""
    file = tmp_path / "tokens.toml"
    command_line = [sys.executable, "-m", "sagas", "token", str(file), "w", "worker"]
    command_line += ["--step", "trip/car", "--step", "trip/car/undo", "--definition", "trip"]
    command_line += ["--expires", "2030-05-06T07:08:09Z"]
    done = subprocess.run(
        command_line, env=environment(), capture_output=True, text=True, check=True
    )
    assert done.stderr == ""
    (entry,) = auth.read(file).values()
    assert entry.limits.steps == {"trip/car", "trip/car/undo"} and entry.definitions == {"trip"}
    assert entry.limits.expires == datetime.datetime(
        2030, 5, 6, 7, 8, 9, tzinfo=datetime.timezone.utc
    )
    for more, says in (
        (("w", "worker", "--step", "car"), "steps must be a list of"),
        (("w", "caller", "--step", "trip/car"), "steps requires the role worker"),
        (("w", "caller", "--expires", "2030-05-06"), "expires must be a time with an offset"),
        (("w", "caller", "--definition", ""), "definitions must be a list of"),
    ):
        refused = command("token", str(file), *more)
        assert refused.returncode == 2
        assert refused.stderr.startswith(f"sagas token: {says}"), refused.stderr
    assert len(auth.read(file)) == 1
    file.write_text(file.read_text().rstrip())  # as an editor may leave it
    token(tmp_path, "second", "caller")
    assert len(auth.read(file)) == 2
    file.write_text(before := "token = []\n")  # to which no table can be added
    refused = command("token", str(file), "w", "caller")
    assert (refused.returncode, refused.stdout, file.read_text()) == (4, "", before)
