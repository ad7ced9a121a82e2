"""Early reports that a saga did not use, by the service: who sees them, and who lets them be
compensated.
"""

from __future__ import annotations

import re
import time
from collections.abc import Iterator
from typing import Any

import httpx
import pytest
from serving import LONG, Served, error_of, report, served, start, take

SHOP = """format = 2
name = "{}"
[[step]]
name = "reserve"
undo = "never"
[[step]]
name = "pay"
needs = ["reserve"]
keep = 9
undo = 1
"""
FILES = {
    "shop.toml": SHOP.format("shop"),
    "auto.toml": SHOP.format("auto"),
    "auto.service.toml": '[step.pay]\nearly_unused = "compensate"\n',
}


@pytest.fixture(scope="module")
def service(tmp_path_factory: pytest.TempPathFactory, store: str | None) -> Iterator[Served]:
    with served(tmp_path_factory.mktemp("unused"), FILES, store=store) as service:
        yield service


@pytest.fixture
def client(service: Served) -> Iterator[httpx.Client]:
    with service.client() as client:
        yield client


def unused(client: httpx.Client, definition: str, key: str) -> None:
    """Make a saga that has ended without a payment that was reported."""
    assert start(client, definition, key, {"n": 1}).status_code == 201
    (task,) = take(client, f"{definition}/reserve")
    early = client.post(f"/v1/sagas/{key}/steps/pay/complete", json={"result": {"euros": 40}})
    assert early.status_code == 200
    assert client.post(f"/v1/sagas/{key}/abort", json={}).json()["aborted"]
    late = client.post(f"/v1/sagas/{key}/steps/pay/complete", json={"result": {"euros": 41}})
    assert error_of(late) == "ConflictingReport"
    assert report(client, task, result=1).status_code == 200
    assert client.get(f"/v1/sagas/{key}/wait").json()["phase"] == "recovered"


def refunded(client: httpx.Client, definition: str, key: str) -> None:
    """Check that a worker gets the compensation, with the result."""
    (task,) = take(client, f"{definition}/pay/undo")
    fields = [task[word] for word in ("definition", "key", "step", "undo", "result", "input")]
    assert fields == [definition, key, "pay", True, {"euros": 40}, {"n": 1}]
    assert task["original_idempotency_key"].endswith("-pay-run")
    assert report(client, task, result=None).status_code == 200
    assert client.get(f"/v1/sagas/{key}%2F:pay:undo/wait").json()["phase"] == "completed"


def entries(client: httpx.Client) -> list[dict[str, Any]]:
    """Return the entries that need attention for this reason."""
    listed: list[dict[str, Any]] = client.get("/v1/attention?kind=unused_report").json()["entries"]
    return listed


def test_it_is_listed_and_compensated(client: httpx.Client) -> None:
    """The entry has its result and its reporter; the worker of the compensation gets it."""
    unused(client, "shop", "k")
    (entry,) = entries(client)
    assert (entry["key"], entry["step"], entry["detail"]) == ("k", "pay", '{"euros":40}') and entry[
        "by"
    ]
    assert entry["calls"] == ["compensate", "resolve"] and entry["undo"] is False
    until = time.monotonic() + LONG  # it is counted once a second
    while client.get("/v1/attention").json()["counts"]["unused_report"] != 1:
        assert time.monotonic() < until
    figure = 'sagas_attention_required{reason="unused_report",saga="shop"} 1.0'
    assert figure in client.get("/metrics").text
    wrong = client.post("/v1/sagas/k/steps/reserve/compensate", json={})
    assert (wrong.status_code, error_of(wrong)) == (409, "StepNotWaiting")
    for _ in range(2):
        answer = client.post("/v1/sagas/k/steps/pay/compensate", json={"note": "so"})
        assert answer.json() == {"key": "k", "step": "pay", "undo": "k/:pay:undo"}
    assert entries(client) == []
    refunded(client, "shop", "k")


def test_it_is_resolved(client: httpx.Client) -> None:
    """One, and those of a filter."""
    for key in ("one", "more"):
        unused(client, "shop", key)
    assert client.post("/v1/sagas/one/resolve", json={"note": "paid back"}).json()["resolved"]
    wanted = {"filter": {"kind": "unused_report"}, "note": "all"}
    assert client.post("/v1/bulk/resolve", json=wanted).json()["count"] == 1
    done = client.post("/v1/bulk/resolve", json={**wanted, "dry_run": False, "count": 1}).json()
    assert (done["done"], entries(client)) == (1, [])
    assert client.get("/v1/sagas/more").json()["phase"] == "resolved"


def test_compensation_without_an_operator(client: httpx.Client) -> None:
    """`early_unused` of the definition file."""
    unused(client, "auto", "a")
    refunded(client, "auto", "a")
    until = time.monotonic() + LONG
    while entries(client):
        assert time.monotonic() < until


def test_on_the_dashboard(client: httpx.Client) -> None:
    """The inbox and the page of the saga have both actions."""
    for key in ("d", "e"):
        unused(client, "shop", key)
    page = client.get("/ui?kind=unused_report").text
    assert "A success was reported before the step began" in page and "Compensate…" in page
    page = client.get("/ui/sagas/d").text
    assert "A report was not used" in page and "/ui/sagas/d/steps/pay/compensate" in page
    form = client.get("/ui/sagas/d/steps/pay/compensate").text
    match = re.search(r'name="csrf" value="([^"]+)"', form)
    assert match and "Compensate step pay?" in form
    sent = {"csrf": match[1], "note": "so"}
    assert client.post("/ui/sagas/d/steps/pay/compensate", data=sent).status_code == 303
    again = client.post("/ui/sagas/e/steps/reserve/compensate", data=sent)
    assert again.status_code == 409 and "no unused report" in again.text
    assert [entry["key"] for entry in entries(client)] == ["e"]
    refunded(client, "shop", "d")
    assert client.post("/v1/sagas/e/resolve", json={"note": "x"}).status_code == 200
    assert "A report was not used, and it is resolved" in client.get("/ui/sagas/e").text
