"""A service over several databases: calls by key, merged lists, workers, and one database away."""

from __future__ import annotations

import base64
import contextlib
import itertools
import json
import pathlib
import re
import threading
import time
from collections.abc import Callable, Iterator
from typing import Any

import httpx
import pytest
from server import Server, serving
from serving import DEFINITIONS, Served, all_done, error_of, report, served, start, stuck, take

import sagas
from sagas.core.database_map import position_of


@pytest.fixture(scope="module")
def servers() -> Iterator[list[Server]]:
    """Return two servers."""
    with serving() as first, serving() as second:
        yield [first, second]


@pytest.fixture(scope="module")
def urls(servers: list[Server]) -> list[str]:
    """Return a database of each server."""
    return [server.create() for server in servers]


@pytest.fixture(scope="module")
def service(tmp_path_factory: pytest.TempPathFactory, urls: list[str]) -> Iterator[Served]:
    """Return a service over both."""
    folder = tmp_path_factory.mktemp("several")
    with served(folder, DEFINITIONS, "--node", "one", store=",".join(urls)) as running:
        yield running


@pytest.fixture
def client(service: Served) -> Iterator[httpx.Client]:
    """Return a client of the service."""
    with service.client() as client:
        yield client


def keys_at(position: int, number: int, prefix: str) -> list[str]:
    """Return keys that one of two databases has."""
    names = (f"{prefix}-{index}" for index in itertools.count())
    return list(itertools.islice((key for key in names if position_of(key, 2) == position), number))


def both(prefix: str, number: int = 2) -> list[str]:
    """Return keys of both databases, in turn."""
    pairs = zip(keys_at(0, number, prefix), keys_at(1, number, prefix))
    return [key for pair in pairs for key in pair]


def get(client: httpx.Client, path: str, **query: Any) -> Any:
    """Return the answer to a request."""
    answer = client.get(path, params=query)
    assert answer.status_code == 200, answer.text
    return answer.json()


def until(ask: Callable[[], Any], seconds: float = 60) -> Any:
    """Ask until the answer is true, and return it."""
    end = time.monotonic() + seconds
    while not (value := ask()):
        assert time.monotonic() < end
        time.sleep(0.1)
    return value


def test_workers_have_the_tasks_of_both_databases(client: httpx.Client) -> None:
    """A worker claims from either, and its reports find the database of the task."""
    keys = both("trip")
    for key in keys:
        assert start(client, "trip", key).status_code == 201
        assert start(client, "trip", key).status_code == 200
    (queue,) = [row for row in get(client, "/v1/queues")["queues"] if row["ready"]]
    assert (queue["step"], queue["ready"]) == ("flight", 4)
    tasks = take(client, "trip/flight", limit=10)
    tasks += take(client, "trip/flight", limit=10) if len(tasks) < 4 else []
    assert sorted(task["key"] for task in tasks) == sorted(keys)
    for task in tasks:
        beat = client.post(
            f"/v1/tasks/{task['attempt_id']}/heartbeat", json={"lease": task["lease"]}
        )
        assert beat.status_code == 200, beat.text
        assert report(client, task, result=1).status_code == 200
    for _ in keys:
        all_done(client, "trip/car", "trip/tour")
    for key in keys:
        assert get(client, f"/v1/sagas/{key}/wait")["phase"] == "completed"
    answer = client.post("/v1/tasks/c0ffee-1-car-run-1/heartbeat", json={"lease": "1.c0ffee"})
    assert error_of(answer) in ("NoSuchTask", "InvalidLease")


def test_a_claim_that_waits_gets_a_task_of_either_database(
    client: httpx.Client, service: Served
) -> None:
    """It waits at both, and the first task ends the wait."""
    for key in both("wait", 1):
        with service.client() as other:
            later = threading.Timer(0.5, lambda: start(other, "trip", key))
            later.start()
            (task,) = take(client, "trip/flight", wait=20)
            later.join()
        assert task["key"] == key
        assert report(client, task, "fail", error="no", final=True).status_code == 200


def test_lists_are_merged_in_pages(client: httpx.Client) -> None:
    """Pages have the sagas of both databases in order, and each saga once."""
    keys = both("listed", 4)
    for key in keys:
        assert start(client, "order", key).status_code == 201
    for limit in (1, 3, 100):
        rows, after = [], None
        while True:
            query = {"search": "listed", "limit": limit} | ({"after": after} if after else {})
            page = get(client, "/v1/sagas", **query)
            rows += page["sagas"]
            assert page["unavailable"] == {}
            after = page["next"]
            if after is None:
                break
        assert [row["key"] for row in rows] == keys[::-1]
    answer = client.get("/v1/sagas", params={"after": "bad"})
    assert error_of(answer) == "InvalidRequest"
    answer = client.get(
        "/v1/attention", params={"after": get(client, "/v1/sagas", limit=1)["next"]}
    )
    assert error_of(answer) == "InvalidRequest"

    def open_orders() -> int:
        rows = get(client, "/v1/definitions")["definitions"]
        return sum(row["sagas"]["open"] for row in rows if row["name"] == "order")

    until(lambda: open_orders() == 8)  # counts are kept for a moment
    assert get(client, "/v1/trends")["total"]["started"] >= 0
    nodes = get(client, "/v1/nodes")["nodes"]
    assert [row["name"] for row in nodes] == ["one", "one"]
    assert len({row["database"] for row in nodes}) == 2


def test_operators_act_in_both_databases(client: httpx.Client) -> None:
    """Attention has pages, and a bulk command counts and acts in both."""
    keys = both("stuck")
    for key in keys:
        stuck(client, key)
    entries, after = [], None
    while True:
        page = get(
            client, "/v1/attention", kind="stuck", limit=3, **({"after": after} if after else {})
        )
        entries += page["entries"]
        after = page["next"]
        if after is None:
            break
    assert [entry["key"] for entry in entries] == keys
    body: dict[str, Any] = {"filter": {"kind": "stuck"}, "note": "by hand"}
    dry = client.post("/v1/bulk/resolve", json=body).json()
    assert (dry["count"], dry["done"], dry["left"]) == (4, 0, 4)
    wrong = client.post("/v1/bulk/resolve", json={**body, "dry_run": False, "count": 3})
    assert error_of(wrong) == "CountChanged"
    done = client.post("/v1/bulk/resolve", json={**body, "dry_run": False, "count": 4, "limit": 3})
    assert (done.json()["done"], done.json()["left"]) == (3, 1)
    rest = client.post("/v1/bulk/resolve", json={**body, "dry_run": False, "count": 1}).json()
    assert (rest["done"], rest["left"]) == (1, 0)
    decisions, after = [], None
    while True:
        query = {"decision": "resolve", "limit": 1} | ({"after": after} if after else {})
        page = get(client, "/v1/decisions", **query)
        decisions += page["decisions"]
        after = page["next"]
        if after is None:
            break
    assert {saga["key"] for entry in decisions for saga in entry["sagas"]} == {*keys}
    for key in keys:
        again = client.post(f"/v1/sagas/{key}/restart", json={"key": f"{key}-2"})
        assert again.status_code == 201, again.text
        assert client.post(f"/v1/sagas/{key}-2/abort", json={}).status_code == 200


def test_a_pause_holds_in_both_databases(client: httpx.Client) -> None:
    """It is listed once, and its end is that of both."""
    answer = client.post("/v1/pauses", json={"definition": "few", "note": "maintenance"})
    assert [pause["definition"] for pause in answer.json()["pauses"]] == ["few"]
    for key in both("paused", 1):
        assert start(client, "few", key).status_code == 201
    assert take(client, "few/a", wait=0) == []
    assert client.delete("/v1/pauses", params={"definition": "few"}).json()["pauses"] == []
    assert error_of(client.delete("/v1/pauses", params={"definition": "few"})) == "NoSuchPause"
    assert len(take(client, "few/a", limit=2) + take(client, "few/a", wait=2, limit=2)) == 2
    drained = client.post("/v1/nodes/one/drain", json={"note": "replaced"}).json()["nodes"]
    assert [row["drain"]["note"] for row in drained] == ["replaced"] * 2
    assert client.post("/v1/nodes/one/undrain", json={}).status_code == 200
    assert error_of(client.post("/v1/nodes/x/undrain", json={})) == "NoSuchNode"


def test_a_service_client_needs_no_change(service: Served, client: httpx.Client) -> None:
    """It starts, lists and waits as over one database."""
    keys = both("client")
    with sagas.ServiceClient(service.url) as caller:
        for key in keys:
            assert caller.start("trip", key).new
        listed = caller.list(search="client")
        assert [row.key for row in listed] == keys[::-1]
        for _ in keys:
            all_done(client, "trip/flight", "trip/car", "trip/tour")
        assert all(caller.wait(key, timeout=60).ok for key in keys)


def links(page: str, prefix: str) -> list[str]:
    """Return the keys that a page links to, in their order, each once."""
    keys = re.findall(rf'href="/ui/sagas/({prefix}-[^"/?]*)"', page)
    return list(dict.fromkeys(keys))


def test_the_dashboard_lists_all_databases(service: Served) -> None:
    """Pages have the sagas of both in order, to both sides, and a form starts in either."""
    keys = both("shown", 30)
    with service.client(follow_redirects=True) as browser:
        for key in keys:
            assert start(browser, "order", key).status_code == 201
        newest = keys[::-1]
        first = browser.get("/ui/sagas", params={"search": "shown"}).text
        assert links(first, "shown") == newest[:50] and "Incomplete" not in first
        older = re.search(r'rel="next" href="([^"]+)"', first)
        assert older
        second = browser.get(older[1].replace("&amp;", "&")).text
        assert links(second, "shown") == newest[50:]
        newer = re.search(r'rel="prev" href="([^"]+)"', second)
        assert newer
        assert links(browser.get(newer[1].replace("&amp;", "&")).text, "shown") == newest[:50]
        for key in keys[:2]:
            assert browser.get(f"/ui/sagas/{key}").status_code == 200
        form = browser.get("/ui/start").text
        for key in both("form", 1):
            fields = {"csrf": csrf_of(form), "definition": "order", "key": key}
            answer = browser.post("/ui/start", data=fields, headers={"Origin": service.url})
            assert answer.status_code == 200 and key in str(answer.url)
        nodes = browser.get("/ui/nodes").text
        assert len(re.findall(r'data-title="Database">(\d)<', nodes)) == 2
        for page in ("workers", "definitions", "definitions/order", "schedules", "webhooks"):
            assert browser.get(f"/ui/{page}").status_code == 200, page


def csrf_of(page: str) -> str:
    """Return the token of a form."""
    token = re.search(r'name="csrf" value="([^"]+)"', page)
    assert token
    return token[1]


def test_the_inbox_acts_in_both_databases(service: Served) -> None:
    """Entries of both are one group, and an action on the group or on one is done where it is."""
    keys = both("repaired")
    with service.client(follow_redirects=True) as browser:
        for key in keys:
            stuck(browser, key)
        page = browser.get("/ui", params={"kind": "stuck", "search": "repaired"}).text
        assert sorted(links(page, "repaired")) == sorted(keys)
        ids = re.findall(r'name="one" value="([^"]+)"', page)
        assert len({*ids}) == 4 and {id.partition(".")[0] for id in ids} == {"0", "1"}
        headers = {"Origin": service.url}
        fields = {"csrf": csrf_of(page), "kind": "stuck", "verb": "resolve", "search": "repaired"}

        def act(selection: dict[str, str]) -> str:
            confirm = browser.post("/ui/inbox", data=fields | selection, headers=headers).text
            (waits,) = re.findall(r'name="waits" value="([^"]+)"', confirm)
            more = {"waits": waits, "note": "by hand"}
            return browser.post("/ui/inbox", data=fields | more, headers=headers).text

        act({"one": ids[0]})
        states = [get(browser, f"/v1/sagas/{key}")["phase"] for key in keys]
        assert sorted(states) == ["resolved", "stuck", "stuck", "stuck"]
        act({"all": "1"})
        assert {get(browser, f"/v1/sagas/{key}")["phase"] for key in keys} == {"resolved"}
        entries = browser.get("/ui/decisions", params={"decision": "resolve"}).text
        assert {*keys} <= {*links(entries, "repaired")}


def test_a_pause_and_a_drain_of_the_dashboard_are_of_both(service: Served) -> None:
    """They are listed once, and end in both."""
    headers = {"Origin": service.url}
    with service.client(follow_redirects=True) as browser:
        csrf = csrf_of(browser.get("/ui/pauses").text)
        fields = {"csrf": csrf, "definition": "few", "note": "the bank is down"}
        page = browser.post("/ui/pauses", data=fields, headers=headers).text
        assert page.count("Undo the pause") + page.count(">Resume<") == 1, page
        assert len(get(browser, "/v1/pauses")["pauses"]) == 1
        browser.post("/ui/pauses/resume", data=fields, headers=headers)
        assert get(browser, "/v1/pauses")["pauses"] == []
        fields = {"csrf": csrf, "node": "one", "note": "replaced"}
        assert browser.post("/ui/nodes", data=fields, headers=headers).status_code == 200
        drains = [row["drain"] is not None for row in get(browser, "/v1/nodes")["nodes"]]
        assert drains == [True, True]
        browser.post("/ui/nodes", data={**fields, "undrain": "on"}, headers=headers)
        assert [row["drain"] for row in get(browser, "/v1/nodes")["nodes"]] == [None, None]


def token_of(*values: Any) -> str:
    """Return a page token that the service has not made."""
    return base64.urlsafe_b64encode(json.dumps(values).encode()).decode().rstrip("=")


@pytest.mark.parametrize("path", ["sagas", "decisions", "attention"])
def test_a_forged_page_token_is_refused(client: httpx.Client, path: str) -> None:
    """Positions of another shape are invalid, and are no error of the service."""
    forged: list[Any] = [5, "x", {"a": 1}, [1], [1, 2, 3], ["a", 1], [1.5, True], [1.5, 1 << 70]]
    forged += [[1e400, 1], [None, 1], -1, True, 1 << 70, "stuck.1-1.1; DROP TABLE", [[]], 1.5]
    wrong = {"sagas": [7, "stuck.1.5-3.-1"], "decisions": [[1.5, 1]], "attention": [[1.5, 1], 7]}
    valid = {"decisions": (5,), "sagas": (), "attention": ()}[path]
    texts = [
        token_of(1, path, position) for position in forged + wrong[path] if position not in valid
    ]
    texts += [token_of(1, path, None, None, None), token_of(2, path), token_of(1, "x", None)]
    texts += ["A", "W", base64.urlsafe_b64encode(b"[" * 2000).decode().rstrip("=")]
    for text in texts:
        answer = client.get(f"/v1/{path}", params={"after": text})
        assert error_of(answer) == "InvalidRequest", (text, answer.text)


def test_metrics_are_sums(client: httpx.Client) -> None:
    """Counters and gauges cover both databases, and each has its own gauge."""
    text = client.get("/metrics").text
    started = re.search(r'sagas_started_total\{saga="trip"\} ([0-9.]+)', text)
    assert started and float(started[1]) >= 4
    assert text.count("sagas_database_up{") == 2 and "sagas_store_up 1.0" in text
    assert "sagas_generation 1.0" in text
    assert len(re.findall("^process_cpu_seconds_total ", text, re.M)) == 1


def test_one_database_away(client: httpx.Client, servers: list[Server]) -> None:
    """The service stays ready, says what is missing, and refuses only the keys of that one."""
    (here,), (away,) = keys_at(0, 1, "away"), keys_at(1, 1, "away")
    ready = get(client, "/health/ready")
    assert (ready["ready"], ready["unavailable"]) == (True, {})
    servers[1].stop()
    try:
        until(lambda: get(client, "/health/ready")["unavailable"])
        assert start(client, "order", here).status_code == 201
        refused = start(client, "order", away)
        assert refused.status_code == 503
        assert refused.json()["detail"].startswith("database 2 of the store cannot")
        page = get(client, "/v1/sagas", limit=5)
        assert page["sagas"] and [*page["unavailable"]] == ["2"]
        metrics = client.get("/metrics").text
        assert "sagas_store_up 0.0" in metrics
        assert 'sagas_database_up{database="2"} 0.0' in metrics
        for path in ("", "/sagas", "/nodes", "/definitions", "/workers", "/decisions", "/pauses"):
            page = client.get(f"/ui{path}", follow_redirects=True)
            assert page.status_code == 200, path
            assert "database 2 of the store does not answer" in page.text, path
        for path in ("trends", "queues", "nodes", "definitions", "pauses", "schedules"):
            assert [*get(client, f"/v1/{path}")["unavailable"]] == ["2"], path
        assert client.post("/v1/schedules/none/pause").status_code == 503
    finally:
        with contextlib.suppress(RuntimeError):
            servers[1].start()
    until(lambda: not get(client, "/health/ready")["unavailable"])
    assert until(lambda: start(client, "order", away).status_code in (200, 201))


def test_several_processes(tmp_path: pathlib.Path, servers: list[Server]) -> None:
    """Each process has a node in each database."""
    urls = [server.create() for server in servers]
    store = ",".join(urls)
    with served(tmp_path, DEFINITIONS, "--processes", "2", "--node", "n", store=store) as running:
        with running.client() as client:
            for key in both("process", 3):
                assert start(client, "order", key).status_code == 201
            names = [row["name"] for row in get(client, "/v1/nodes")["nodes"]]
            assert names == ["n-1", "n-1", "n-2", "n-2"]
            metrics = client.get("/metrics").text
            assert "sagas_processes 2.0" in metrics
            assert 'sagas_started_total{saga="order"} 6.0' in metrics
