"""The list of decisions: who decided what, by which way, over both databases."""

from __future__ import annotations

import asyncio
import contextlib
import json
import pathlib
from collections.abc import Iterator
from typing import Any

import httpx
import pytest
from server import serving
from serving import DEFINITIONS, Served, command, start
from test_service_inbox import csrf_of, hidden, waits

import sagas
from sagas.server import auth

TOKENS = {"Ada": ("operator", {}), "Ola": ("caller", {"definitions": ["order"]})}
Json = dict[str, Any]


@pytest.fixture(scope="module", params=["sqlite", "postgresql"])
def service(
    request: pytest.FixtureRequest, tmp_path_factory: pytest.TempPathFactory
) -> Iterator[Served]:
    folder = tmp_path_factory.mktemp("service")
    for name, (role, limits) in TOKENS.items():
        made = auth.make(folder / "tokens.toml", name, [role], auth.limits_of([role], limits))
        (folder / name).write_text(made)
    with contextlib.ExitStack() as stack:
        url = None
        if request.param == "postgresql":
            url = stack.enter_context(serving()).create()
        service = Served(
            folder, DEFINITIONS, "--token-file", str(folder / "tokens.toml"), store=url
        )
        service.start()
        stack.callback(service.kill)
        yield service


@contextlib.contextmanager
def client_of(service: Served, name: str) -> Iterator[httpx.Client]:
    with service.client((service.folder / name).read_text()) as client:
        yield client


def decisions(client: httpx.Client, **query: Any) -> list[Json]:
    reply = client.get("/v1/decisions", params=query)
    assert reply.status_code == 200, reply.text
    listed: list[Json] = reply.json()["decisions"]
    return listed


def store(service: Served, *arguments: str) -> str:
    done = command("store", service.store, *arguments)
    assert done.returncode == 0, done.stderr
    return done.stdout


def summary(entry: Json) -> tuple[Any, ...]:
    """Return the parts of a decision that are the same at each run."""
    keys = [saga["key"] for saga in entry["sagas"]]
    return entry["decision"], entry["by"], entry["via"], entry["note"], keys


def test_each_way_is_in_the_list(service: Served) -> None:
    """One entry for each decision, also of a bulk; each caller sees those on its sagas."""
    with client_of(service, "Ada") as ada, client_of(service, "Ola") as ola:
        for number in range(6):
            start(ada, "order", f"order-{number}")
            waits(ada, f"order-{number}", "approval")
        start(ada, "trip", "trip-1")
        path = "/v1/sagas/order-0/steps/review/complete"
        assert ada.post(path, json={"result": 1, "note": "known"}).status_code == 200
        # a bulk over HTTP: both are one entry
        bulk: Json = {"filter": {"definition": "order", "search": "order-1"}, "note": "twice"}
        count = ada.post("/v1/bulk/abort", json=bulk).json()["count"]
        reply = ada.post("/v1/bulk/abort", json=bulk | {"dry_run": False, "count": count})
        assert reply.json()["done"] == 1
        store(service, "abort", "trip-1", "--by", "Bob", "--note", "left")
        store(service, "complete", "order-2", "review", "--note", '\u0000 {"by":"Eve"}')
        on_page(service, ada, "order-3", "order-4")
        listed = decisions(ada)
        login = listed[1]["by"]
        assert [*map(summary, listed)] == [
            ("complete", "Ada", "dashboard", "both", ["order-3", "order-4"]),
            ("complete", login, "command", '\u0000 {"by":"Eve"}', ["order-2"]),
            ("abort", "Bob", "command", "left", ["trip-1"]),
            ("abort", "Ada", "http", "twice", ["order-1"]),
            ("complete", "Ada", "http", "known", ["order-0"]),
        ]
        assert login and [entry["bulk"] for entry in listed] == [True, False, False, True, False]
        assert [entry["done"] for entry in listed] == [2, 1, 1, 1, 1]
        assert [saga["step"] for saga in listed[0]["sagas"]] == ["review", "review"]
        seen = decisions(ola)
        assert [*map(summary, seen)] == [
            summary(entry) for entry in listed if entry["sagas"][0]["definition"] == "order"
        ]
        assert decisions(ola, key="trip-1") == [] == decisions(ola, definition="trip")
        assert len(decisions(ada, decision="abort")) == 2
        assert client_pages(ada) == listed
        page = ada.get("/ui/decisions", follow_redirects=True)
        assert page.url.path == "/ui/login"  # a token is not a session
        assert '"decision": "done"' in service.log_text() and '"done": 2' in service.log_text()


def test_pauses_are_in_the_list(service: Served) -> None:
    """Each with its scope. A caller sees those on its definitions, on queues and on everything."""
    with client_of(service, "Ada") as ada, client_of(service, "Ola") as ola:
        before = len(decisions(ada, decision="pause"))
        for scope in ({"definition": "trip"}, {"definition": "order", "step": "review"}, {}):
            reply = ada.post("/v1/pauses", json={**scope, "note": "secret reason"})
            assert reply.status_code == 200, reply.text
            assert ada.delete("/v1/pauses", params=scope).status_code == 200
        store(service, "pause", "--queue", "mail", "--by", "Bob", "--note", "down")
        store(service, "resume", "--queue", "mail", "--by", "Eve")
        listed = decisions(ada, limit=8)
        scopes = ["queue:mail", "everything", "step:order/review", "saga:trip"]
        assert [entry["subject"] for entry in listed] == [name for name in scopes for _ in "12"]
        assert {entry["decision"] for entry in listed[::2]} == {"resume"}
        assert [(entry["by"], entry["via"]) for entry in listed[:3]] == [
            ("Eve", "command"),
            ("Bob", "command"),
            ("Ada", "http"),
        ]
        assert listed[3]["note"] == "secret reason" and listed[3]["sagas"] == []
        assert len(decisions(ada, decision="pause")) == before + 4
        seen = [entry["subject"] for entry in decisions(ola, decision="pause", limit=3)]
        assert seen == ["queue:mail", "everything", "step:order/review"]
        assert [entry["subject"] for entry in decisions(ada, definition="trip", limit=1)] == [
            "saga:trip"
        ]
        assert all(entry["subject"] is None for entry in decisions(ada, key="order-0"))
        assert "secret reason" not in service.log_text()
        assert "queue:mail" in store(service, "decisions", "--limit", "2")


def test_clients_list_decisions(service: Served) -> None:
    """Page by page, with the filters of the call; also a client of the store."""
    token = (service.folder / "Ada").read_text()
    with client_of(service, "Ada") as ada:
        start(ada, "order", "listed")
        waits(ada, "listed", "approval")
        body = {"error": "no", "note": "private note"}
        assert ada.post("/v1/sagas/listed/steps/review/fail", json=body).status_code == 200
        listed = decisions(ada)
    with sagas.ServiceClient(service.url, token) as client:
        entries = [*client.decisions(page_size=1)]
        assert [entry.number for entry in entries] == [entry["number"] for entry in listed]
        (entry,) = client.decisions(key="listed", decision="fail", saga="order")
        assert (entry.by, entry.via, entry.note) == ("Ada", "http", "private note")
        assert entry.sagas == [sagas.DecidedSaga("listed", "order", "review", False, "done")]
        with pytest.raises(ValueError, match="did you mean 'fail'"):
            client.decisions(decision="fails")

    async def main() -> None:
        async with sagas.AsyncServiceClient(service.url, token) as client:
            assert [entry async for entry in client.decisions(key="listed")] == [entry]
        if service.store.startswith("postgresql"):
            async with sagas.Client(service.store) as direct:
                assert await direct.decisions(key="listed") == [entry]
                first = await direct.decisions(limit=1)
                assert first == entries[:1]
                assert await direct.decisions(after=first[0], limit=1) == entries[1:2]

    asyncio.run(main())
    lines = [line for line in service.log_text().splitlines() if '"decision": "fail"' in line]
    assert lines and '"by": "Ada"' in lines[-1] and '"done": 1' in lines[-1]
    assert "private note" not in service.log_text()


def client_pages(client: httpx.Client) -> list[Json]:
    """Return all decisions, page by page."""
    result: list[Json] = []
    after: Json = {}
    while True:
        page = client.get("/v1/decisions", params={"limit": 1, **after}).json()
        result += page["decisions"]
        if page["next"] is None:
            return result
        after = {"after": page["next"]}


def on_page(service: Served, ada: httpx.Client, *keys: str) -> None:
    """Approve sagas in the inbox, and look at the page of decisions."""
    with service.client() as page:
        login = page.get("/ui/login").text
        form = {"token": (service.folder / "Ada").read_text(), "next": "/ui"}
        if 'name="csrf"' in login:
            form["csrf"] = login.split('name="csrf" value="')[1].split('"')[0]
        assert page.post("/ui/login", data=form).status_code == 303
        text = page.get("/ui", params={"kind": "approval"}).text
        chosen = [
            part.split('"')[0]
            for part in text.split('name="one" value="')[1:]
            if any(f'aria-label="Select {key}"' in part[:200] for key in keys)
        ]
        fields: Json = {"csrf": csrf_of(page), "kind": "approval", "verb": "done", "one": chosen}
        question = page.post("/ui/inbox", data=fields)
        done = page.post("/ui/inbox", data=hidden(question.text) | {"note": "both"})
        assert "2 done" in done.text, done.text
        shown = page.get("/ui/decisions").text
        assert "both" in shown and ">order-3<" in shown and "the dashboard" in shown
        assert "order-3" not in page.get("/ui/decisions?decision=abort").text
        assert page.get("/ui/decisions?decision=none").status_code == 422


def test_an_acknowledged_decision_is_in_the_list(service: Served) -> None:
    """Also after a kill right after the answer; the command exports each as a line."""
    with client_of(service, "Ada") as ada:
        for key in ("kept", "order-5", "order-6"):
            start(ada, "order", key)
            waits(ada, key, "approval")
        body = {"error": "no", "note": "too late"}
        assert ada.post("/v1/sagas/kept/steps/review/fail", json=body).status_code == 200
        service.kill()
        exported = [
            json.loads(line) for line in store(service, "decisions", "--export").split("\n") if line
        ]
        assert (exported[0]["command"], exported[0]["note"]) == ("fail", "too late")
        assert exported[0]["sagas"][0]["key"] == "kept"
        assert json.loads(store(service, "decisions", "--json", "--limit", "1")) == exported[:1]
        text = store(service, "decisions", "--key", "kept").splitlines()
        assert text[0].split() == ["TIME", "BY", "DECISION", "SAGAS", "VIA", "ANSWER", "NOTE"]
        assert "Ada" in text[1] and "fail review" in text[1] and len(text) == 2
        # a command without a program: it waits, and is in the list at once
        start_of = ["retry", "order-5", "review", "--by", "Bob"]
        store(service, *start_of)
        (entry,) = json.loads(store(service, "decisions", "--json", "--key", "order-5"))
        assert (entry["by"], entry["counts"]["waiting"]) == ("Bob", 1)
        store(service, "abort", "--all", "--saga", "order", "--yes", "--timeout", "0")
        (entry,) = json.loads(store(service, "decisions", "--json", "--limit", "1"))
        assert (entry["command"], entry["is_bulk"], entry["via"]) == ("abort", True, "command")
        assert len(entry["sagas"]) == entry["counts"]["waiting"] > 1
        service.start()
    with client_of(service, "Ada") as ada:
        assert summary(decisions(ada, key="kept")[-1])[1:4] == ("Ada", "http", "too late")
