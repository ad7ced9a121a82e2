"""Pages of what needs an operator, and actions on many sagas by a filter, over both databases."""

from __future__ import annotations

import time
from collections.abc import Iterator
from typing import Any

import httpx
import pytest
from serving import DEFINITIONS, FEW, LONG, Served, all_done, error_of, report, served, start, take

PAIR = """format = 2
name = "pair"
[defaults]
tries = 1
[[step]]
name = "a"
skip = "never"
[[step]]
name = "b"
skip = "never"
"""
FILES = {
    **DEFINITIONS,
    "pair.toml": PAIR,
    "asks.toml": FEW.replace('"few"', '"asks"'),
    "asks.service.toml": '[step.a]\non_exhausted = "ask"\n',
}


@pytest.fixture(scope="module")
def service(tmp_path_factory: pytest.TempPathFactory, store: str | None) -> Iterator[Served]:
    with served(tmp_path_factory.mktemp("attention"), FILES, store=store) as service:
        yield service


@pytest.fixture
def client(service: Served) -> Iterator[httpx.Client]:
    with service.client() as client:
        yield client


def test_attention_and_many(client: httpx.Client) -> None:
    """What needs an operator is paged and filtered; actions on many are counted first, and report
    the refused ones.
    """
    for number in range(5):
        start_body = {
            "definition": "licence",
            "key": f"many-{number}",
            "labels": {"of": str(number % 2)},
        }
        assert client.post("/v1/sagas", json=start_body).status_code == 201
    for number in range(3):
        start(client, "order", f"asked-{number}")
    for _ in range(5):
        (task,) = take(client, "licence/server")
        report(client, task)
        (task,) = take(client, "licence/licence")
        report(client, task, "fail", error=f"no licence {task['key'][-1]}", final=True)
    for number in range(5):
        client.get(f"/v1/sagas/many-{number}/wait")
    keys, after = [], ""
    while after is not None:
        page = client.get(f"/v1/attention?kind=stuck&limit=2{after}").json()
        keys += [entry["key"] for entry in page["entries"]]
        after = page["next"] and f"&after={page['next']}"
    assert keys == [f"many-{number}" for number in range(5)]
    (first, *_) = client.get("/v1/attention?kind=stuck&order=newest").json()["entries"]
    assert (first["key"], first["calls"]) == ("many-4", ["resolve"])
    assert first["detail"] == "because of licence: no licence 4"
    assert [
        entry["key"] for entry in client.get("/v1/attention?error=licence%203").json()["entries"]
    ] == ["many-3"]
    assert [saga["key"] for saga in client.get("/v1/sagas?error=licence%203").json()["sagas"]] == [
        "many-3"
    ]
    for path, name in (("/v1/attention?kind=stuck", "entries"), ("/v1/sagas?", "sagas")):
        listed = client.get(f"{path}&label=of=1&search=many-").json()[name]
        assert sorted(summary["key"] for summary in listed) == ["many-1", "many-3"], path
    assert client.get("/v1/sagas?label=of").status_code == 422
    now = client.get("/v1/sagas/many-2").json()
    assert now["labels"] == {"of": "0"}
    for query, count in (
        (f"started_after={now['started_at']}", 3),
        (f"started_before={now['started']}", 2),
    ):
        listed = client.get(f"/v1/sagas?search=many-&{query}").json()["sagas"]
        assert len(listed) == count, query
    assert {entry["kind"] for entry in client.get("/v1/attention").json()["entries"]} >= {
        "stuck",
        "approval",
    }
    wanted: dict[str, Any] = {"filter": {"kind": "stuck", "error": "no licence"}, "note": "bought"}
    counted = client.post("/v1/bulk/resolve", json=wanted).json()
    assert (counted["count"], counted["dry_run"], counted["done"]) == (5, True, 0)
    assert client.post("/v1/bulk/resolve", json={**wanted, "dry_run": False}).status_code == 422
    wrong = client.post("/v1/bulk/resolve", json={**wanted, "dry_run": False, "count": 4})
    assert (
        error_of(wrong) == "CountChanged"
        and client.get("/v1/sagas/many-0").json()["phase"] == "stuck"
    )
    done = client.post(
        "/v1/bulk/resolve", json={**wanted, "dry_run": False, "count": 5, "limit": 3}
    ).json()
    assert (done["done"], done["left"], done["refused"]) == (3, 2, [])
    action: dict[str, Any] = {
        "filter": {"kind": "approval", "step": "review", "search": "asked-"},
        "result": 1,
    }
    assert client.post("/v1/bulk/complete", json=action).json()["count"] == 3
    labeled = {**wanted, "filter": {"kind": "stuck", "labels": {"of": "1"}}}
    assert client.post("/v1/bulk/resolve", json=labeled).json()["count"] == 1
    assert (
        client.post("/v1/bulk/complete", json={**action, "dry_run": False, "count": 3}).json()[
            "done"
        ]
        == 3
    )
    open_ones: dict[str, Any] = {
        "filter": {"definition": "order", "search": "asked-"},
        "note": "no",
    }
    counted = client.post("/v1/bulk/abort", json=open_ones).json()
    assert counted["count"] == 3 and sorted(counted["keys"]) == [
        f"asked-{number}" for number in range(3)
    ]
    assert (
        client.post("/v1/bulk/abort", json={**open_ones, "dry_run": False, "count": 3}).json()[
            "done"
        ]
        == 3
    )
    log = client.get("/v1/sagas/asked-0/log").json()["events"]
    notes = [
        (event["value"]["what"], event["value"]["by"]) for event in log if event["event"] == "note"
    ]
    assert notes == [("complete", "local"), ("abort", "local")]


def test_an_abort_of_many_gets_on(client: httpx.Client) -> None:
    """Each call aborts the next sagas: those that were aborted before are open until they are
    undone, and are not counted again.
    """
    late = {"definition": "few", "key": "gets-on-late", "deadline": 0.1}
    assert client.post("/v1/sagas", json=late).status_code == 201
    take(client, "few/a")  # so its abort has to wait
    for number in range(3):
        start(client, "few", f"gets-on-{number}")
        all_done(client, "few/a")
    until = time.monotonic() + LONG
    while not client.get("/v1/sagas/gets-on-late").json()["aborted"]:
        assert time.monotonic() < until
    outcomes, some = [], {"filter": {"search": "gets-on-"}, "limit": 1}
    for count in (4, 3, 2, 1, 0):
        assert client.post("/v1/bulk/abort", json=some).json()["count"] == count
        outcome = client.post(
            "/v1/bulk/abort", json={**some, "dry_run": False, "count": count}
        ).json()
        assert outcome["left"] == max(0, count - 1)
        outcomes.append(
            (
                outcome["done"],
                [(text["key"], text["problem"]["detail"]) for text in outcome["refused"]],
            )
        )
    detail = "saga 'gets-on-late' has ended, or was aborted before"
    assert outcomes == [(0, [("gets-on-late", detail)]), (1, []), (1, []), (1, []), (0, [])]
    sagas = client.get("/v1/sagas?search=gets-on-&phase=open").json()["sagas"]
    assert len(sagas) == 4 and all(
        client.get(f"/v1/sagas/{saga['key']}").json()["aborted"] for saga in sagas
    )


def test_reports_of_many_are_of_the_step(client: httpx.Client) -> None:
    """Its compensation is meant if `undo` says so; in the inbox it is in its own group."""
    for key in ("asks-a", "asks-undo"):
        start(client, "asks", key)
    for task in take(client, "asks/a", limit=2):
        if task["key"] == "asks-a":
            report(client, task, "fail", error="timeout")
        else:
            report(client, task)
    all_done(client, "asks/b", failing=["asks/b"])
    (undo,) = take(client, "asks/a/undo")
    report(client, undo, "fail", error="timeout")
    until = time.monotonic() + LONG
    while len(client.get("/v1/attention?kind=exhausted&step=a").json()["entries"]) < 2:
        assert time.monotonic() < until
    for more, key in (({}, "asks-a"), ({"undo": False}, "asks-a"), ({"undo": True}, "asks-undo")):
        some = {"filter": {"kind": "exhausted", "step": "a", **more}, "result": 1}
        outcome = client.post("/v1/bulk/complete", json=some).json()
        assert (outcome["count"], outcome["keys"]) == (1, [key]), more
    page = client.get("/ui?kind=exhausted&definition=asks").text
    assert page.count('name="group"') == 2 and "· undoing a: timeout" in page
    outcome = client.post("/v1/bulk/complete", json={**some, "dry_run": False, "count": 1}).json()
    assert (outcome["done"], outcome["left"]) == (1, 0)
    assert client.get("/v1/sagas/asks-undo/wait").json()["states"]["a"] == "undone"
    assert client.get("/v1/sagas/asks-a").json()["states"]["a"] == "begun"


def test_a_filter_that_selects_nothing_by_mistake(client: httpx.Client) -> None:
    """Empty labels are refused, and names that nothing has are reported."""
    start_body = {"definition": "order", "key": "labeled", "labels": {"customer": "7"}}
    assert client.post("/v1/sagas", json=start_body).status_code == 201
    answer = client.post("/v1/bulk/abort", json={"filter": {"labels": {}}})
    assert (
        answer.status_code == 422
        and "filter.labels: an empty object selects every saga" in answer.text
    )
    for labels, text in (
        ({"custmer": "7"}, "no saga has a label 'custmer'; did you mean 'customer'?"),
        ({"customer": "8"}, "no saga has the label customer='8'"),
    ):
        answer = client.post("/v1/bulk/abort", json={"filter": {"labels": labels}})
        assert answer.json()["count"] == 0 and answer.json()["warnings"] == [text]
    some = {"filter": {"kind": "exhausted", "step": "reviev"}}
    answer = client.post("/v1/bulk/retry", json=some)
    assert "no definition has a step 'reviev'; did you mean 'review'?" in answer.json()["warnings"]


def test_the_cause_is_the_first_failure(client: httpx.Client) -> None:
    """Of two failed steps it is the earlier one, whatever their order in the definition."""
    for key, order in (("two-ab", "ab"), ("two-ba", "ba")):
        start(client, "pair", key)
        tasks = {task["step"]: task for step in "ab" for task in take(client, f"pair/{step}")}
        for step in order:
            report(client, tasks[step], "fail", error=f"no {step}", final=True)
        client.get(f"/v1/sagas/{key}/wait")
        (entry,) = client.get(f"/v1/attention?kind=stuck&search={key}").json()["entries"]
        assert entry["detail"].endswith(f": no {order[0]}"), entry
