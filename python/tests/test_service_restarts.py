"""Restarts of ended sagas by the service: who may, what is refused, and what the pages show."""

from __future__ import annotations

import asyncio
import re
from collections.abc import Iterator

import httpx
import pytest
from serving import DEFINITIONS, all_done, error_of, served, start, stuck, token
from test_service_tokens import World

import sagas

TOKENS: dict[str, tuple[str, ...]] = {
    "operator": ("operator",),
    "approver": ("approver",),
    "worker": ("worker",),
    "caller": ("caller", "--definition", "licence"),
    "stranger": ("caller", "--definition", "few"),
    "keyed": ("caller", "--key", "mine-*"),
    "full": ("caller", "--open-sagas", "0"),
}
STEPS = "licence/server", "licence/licence"


@pytest.fixture(scope="module")
def world(tmp_path_factory: pytest.TempPathFactory, store: str | None) -> Iterator[World]:
    """Return a service with a stuck saga and its restart."""
    folder = tmp_path_factory.mktemp("restarts")
    tokens = {name: token(folder, name, *options) for name, options in TOKENS.items()}
    file = str(folder / "tokens.toml")
    with served(folder, DEFINITIONS, "--token-file", file, store=store) as service:
        world = World(service, tokens)
        stuck(world["operator"], "mine-1")
        yield world
        for client in world.clients.values():
            client.close()


def restart(client: httpx.Client, key: str, new_key: str) -> httpx.Response:
    return client.post(f"/v1/sagas/{key}/restart", json={"key": new_key, "note": "so"})


def test_callers_restart_what_they_may_see_and_start(world: World) -> None:
    """The same request again has the same answer. Others are refused, and start nothing."""
    for name, new_key, status, problem in (
        ("approver", "x", 403, "Forbidden"),
        ("worker", "x", 403, "Forbidden"),
        ("stranger", "x", 404, "NoSuchSaga"),
        ("keyed", "x", 403, "Forbidden"),
        ("full", "x", 429, "QuotaExceeded"),
        ("caller", "..", 422, "InvalidKey"),
        ("caller", "a/:b", 422, "InvalidKey"),
        ("caller", "mine-1", 409, "KeyConflict"),
    ):
        answer = restart(world[name], "mine-1", new_key)
        assert (answer.status_code, error_of(answer)) == (status, problem), name
    with world.service.client("wrong") as wrong:
        assert restart(wrong, "mine-1", "x").status_code == 401
    assert world["operator"].get("/v1/sagas/x").status_code == 404
    for status, is_new in ((201, True), (200, False)):
        answer = restart(world["caller"], "mine-1", "new")
        fields = {"key": "new", "definition": "licence", "version": 1, "new": is_new}
        assert (answer.status_code, answer.json()) == (status, fields)
        assert answer.headers["location"] == "/v1/sagas/new"
    assert error_of(restart(world["operator"], "new", "x")) == "NotRestartable"
    assert restart(world["keyed"], "mine-1", "mine-2").status_code == 201
    old, new = (world["operator"].get(f"/v1/sagas/{key}").json() for key in ("mine-1", "new"))
    assert new["restart_of"] == {"key": "mine-1", "definition": "licence", "phase": "stuck"}
    assert [link["key"] for link in old["restarts"]] == ["new", "mine-2"] and new["labels"] == {}
    # a token sees only the links to sagas that it may see
    seen = [{"key": "mine-2", "definition": "licence", "phase": "open"}]
    assert world["keyed"].get("/v1/sagas/mine-1").json()["restarts"] == seen
    assert world["keyed"].get("/v1/sagas/mine-1/export").json()["saga"]["restarts"] == seen
    log = world["operator"].get("/v1/sagas/mine-1/log").json()["events"]
    notes = [event["value"] for event in log if event["event"] == "note"]
    assert [(note["by"], note["new_key"]) for note in notes] == [
        ("caller", "new"),
        ("keyed", "mine-2"),
    ]
    all_done(world["operator"], *STEPS, *STEPS)
    assert world["operator"].get("/v1/sagas/new/wait").json()["phase"] == "completed"


def test_a_client_of_the_service(world: World) -> None:
    """`ServiceClient.restart` raises the exceptions of a store."""
    stuck(world["operator"], "c")
    url, secret = world.service.url, world.tokens["caller"]
    with sagas.ServiceClient(url, secret) as client:
        begun = client.restart("c", "c-2", note="again")
        assert (begun.key, begun.saga, begun.new) == ("c-2", "licence", True)
        assert not client.restart("c", "c-2").new
        for key, new_key, error in (
            ("c-2", "x", sagas.NotRestartable),
            ("none", "x", sagas.NoSuchSaga),
            ("c", "c", sagas.KeyConflict),
            ("c", "a/:b", sagas.InvalidKey),
        ):
            with pytest.raises(error):
                client.restart(key, new_key)
        assert client.abort("c-2")

    async def main() -> None:
        async with sagas.AsyncServiceClient(url, secret) as client:
            assert not (await client.restart("c", "c-2")).new

    asyncio.run(main())


def test_on_the_dashboard(world: World) -> None:
    """Each page links to the other. The form proposes a key, and keeps what was entered."""
    stuck(world["operator"], "d")
    assert start(world["operator"], "licence", "open").status_code == 201
    page = world.page("operator")
    assert "/restart" not in page.get("/ui/sagas/open").text
    assert "/ui/sagas/d/restart" in page.get("/ui/sagas/d").text
    form = page.get("/ui/sagas/d/restart").text
    match = re.search(r'name="csrf" value="([^"]+)"', form)
    assert match and "Restart this saga?" in form and 'name="key" required' in form
    assert 'value="d-2"' in form
    sent = {"csrf": match[1], "key": "d-2", "note": "so"}
    for key, status, text in (("", 422, "Enter a key"), ("open", 409, "Use another key")):
        answer = page.post("/ui/sagas/d/restart", data=sent | {"key": key})
        assert (
            answer.status_code == status and text in answer.text and "so</textarea>" in answer.text
        )
    answer = page.post("/ui/sagas/d/restart", data=sent)
    assert (answer.status_code, answer.headers["location"]) == (303, "/ui/sagas/d-2")
    new, old = page.get("/ui/sagas/d-2").text, page.get("/ui/sagas/d").text
    assert "Restart of" in new and 'href="/ui/sagas/d"' in new
    assert (
        "Restarted as" in old
        and 'href="/ui/sagas/d-2"' in old
        and "restarted the saga: <b>d-2</b>" in old
    )
    form = page.get("/ui/sagas/d/restart").text
    assert 'value="d-3"' in form and "in addition to d-2" in form
