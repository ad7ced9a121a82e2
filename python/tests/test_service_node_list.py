"""The nodes over HTTP and in the dashboard: the list, drains, and who may see them."""

from __future__ import annotations

import contextlib
import pathlib
import re
import time
from collections.abc import Callable, Iterator

import httpx
import pytest
from serving import DEFINITIONS, LONG, Served, command, error_of, served, start, token
from test_service_tokens import World

TOKENS: dict[str, tuple[str, ...]] = {
    "operator": ("operator",),
    "of-order": ("operator", "--definition", "order"),
    "of-keys": ("caller", "--key", "a-*"),
    "caller": ("caller",),
    "worker": ("worker",),
    "metrics": ("metrics",),
}
PATHS = (
    ("GET", "/v1/nodes", None),
    ("POST", "/v1/nodes/one/drain", {"note": "no"}),
    ("POST", "/v1/nodes/one/undrain", {}),
)


def soon(condition: Callable[[], object]) -> None:
    """Wait for a condition."""
    deadline = time.monotonic() + LONG
    while not condition():
        assert time.monotonic() < deadline
        time.sleep(0.05)


@contextlib.contextmanager
def worlds(folder: pathlib.Path, url: str | None, *names: str) -> Iterator[list[World]]:
    """Run services over one database, or one over a file, with the same tokens."""
    tokens = {name: token(folder, name, *options) for name, options in TOKENS.items()}
    with contextlib.ExitStack() as stack:
        services = []
        for name in names:
            (folder / name).mkdir()
            arguments = ["--token-file", str(folder / "tokens.toml")]
            if url is not None:
                arguments += ["--node", name, "--lease", "3"]
            service = Served(folder / name, DEFINITIONS, *arguments, store=url)
            stack.callback(service.kill)
            service.start()
            services.append(World(service, tokens))
        yield services
        for world in services:
            for client in world.clients.values():
                client.close()


def check_rights(world: World) -> None:
    """Only operators who see all sagas may list and drain nodes."""
    for method, path, body in PATHS:
        for name in ("caller", "worker", "metrics", "of-order", "of-keys"):
            answer = world[name].request(method, path, json=body)
            assert (answer.status_code, error_of(answer)) == (403, "Forbidden"), (name, path)
        with world.service.client() as unowned:
            assert unowned.request(method, path, json=body).status_code == 401
    page = world.page("of-order")
    assert page.get("/ui/nodes").status_code == 403
    assert "/ui/nodes" not in page.get("/ui").text
    form = {"csrf": csrf(page, "/ui/pauses"), "node": "one", "note": "no"}
    assert page.post("/ui/nodes", data=form).status_code == 403
    assert world.page("operator").post("/ui/nodes", data={"node": "one"}).status_code == 403


def csrf(page: httpx.Client, path: str) -> str:
    match = re.search(r'name="csrf" value="([^"]+)"', page.get(path).text)
    assert match
    return match[1]


def states(client: httpx.Client) -> dict[str, str]:
    return {node["name"]: node["state"] for node in client.get("/v1/nodes").json()["nodes"]}


def test_nodes_of_a_database(
    url: str, tmp_path: pathlib.Path, capsys: pytest.CaptureFixture[str]
) -> None:
    """Two services: one is drained over HTTP, the other on its page, and then by the command."""
    with worlds(tmp_path, url, "one", "two") as (first, second):
        check_rights(first)
        operator, page = first["operator"], first.page("operator")
        assert start(first["caller"], "trip", "a").status_code == 201
        nodes = {node["name"]: node for node in operator.get("/v1/nodes").json()["nodes"]}
        assert [node["open_sagas"] for node in nodes.values()] == [1, 0]
        first_node = nodes["one"]
        assert (first_node["state"], first_node["shards"], first_node["drain"]) == (
            "running",
            1,
            None,
        )
        assert first_node["since"] < time.time() + 1 and first_node["since_at"].endswith("Z")
        assert (
            0 <= first_node["heartbeat_seconds"] < LONG
            and first_node["release"]
            and first_node["run"]
        )
        assert {"trip", "order"} <= {entry["name"] for entry in first_node["definitions"]}
        soon(lambda: operator.get("/v1/nodes").json()["nodes"][0]["concurrency"])
        for path, body, status, name in [
            ("/v1/nodes/one/drain", {}, 422, "InvalidRequest"),
            ("/v1/nodes/one/drain", {"note": " "}, 422, "InvalidRequest"),
            ("/v1/nodes/three/drain", {"note": "x"}, 404, "NoSuchNode"),
            ("/v1/nodes/one/undrain", {}, 404, "NoSuchNode"),
        ]:
            answer = operator.post(path, json=body)
            assert (answer.status_code, error_of(answer)) == (status, name), answer.text
        answer = operator.post("/v1/nodes/one/drain", json={"note": "a new machine"})
        drain = answer.json()["nodes"][0]["drain"]
        assert (drain["note"], drain["by"]) == ("a new machine", "operator")
        soon(lambda: states(operator) == {"one": "drained", "two": "running"})
        assert operator.get("/v1/nodes").json()["nodes"][1]["open_sagas"] == 1
        assert "a new machine" in page.get("/ui/nodes").text
        soon(lambda: "sagas_nodes_drained 1.0" in operator.get("/metrics").text)
        for world in (first, second):  # the other one starts it
            assert start(first["caller"], "order", "b").status_code in (200, 201)
            assert world["caller"].get("/v1/sagas/b").json()["phase"] == "open"
        assert operator.get("/v1/nodes").json()["nodes"][1]["open_sagas"] == 2
        assert operator.post("/v1/nodes/one/undrain", json={"note": "it runs"}).status_code == 200
        fields = {"csrf": csrf(page, "/ui/nodes"), "node": "two"}
        assert page.post("/ui/nodes", data=fields).status_code == 422
        answer = page.post("/ui/nodes", data={**fields, "note": "its turn"})
        assert answer.status_code == 303
        answer = page.post("/ui/nodes", data={**fields, "node": "three", "note": "x"})
        assert answer.status_code == 404 and "no node has the name" in answer.text
        soon(lambda: states(operator) == {"one": "running", "two": "drained"})
        assert page.post("/ui/nodes", data={**fields, "undrain": "on"}).status_code == 303
        soon(lambda: states(operator) == {"one": "running", "two": "running"})
        assert command("store", url, "drain", "two", "--note", "by hand", "--by", "Eve").stdout == (
            "node two is drained\n"
        )
        listed = command("store", url, "nodes").stdout
        assert "by Eve: by hand" in listed
        assert command("store", url, "undrain", "two", "--json").stdout
        assert command("store", url, "undrain", "two").returncode == 1
        assert command("store", url, "drain", "two", "--note", " ").returncode == 2
        decisions = operator.get("/v1/decisions").json()["decisions"]
        assert [
            (entry["decision"], entry["subject"], entry["by"], entry["via"], entry["note"])
            for entry in decisions[1:]
        ] == [
            ("drain", "node:two", "Eve", "command", "by hand"),
            ("undrain", "node:two", "operator", "dashboard", None),
            ("drain", "node:two", "operator", "dashboard", "its turn"),
            ("undrain", "node:one", "operator", "http", "it runs"),
            ("drain", "node:one", "operator", "http", "a new machine"),
        ]
        for name in ("of-order", "of-keys"):
            assert first[name].get("/v1/decisions").json()["decisions"] == []
        assert "node:two" in page.get("/ui/decisions").text
        (entry,) = operator.get("/v1/decisions?decision=drain&limit=1").json()["decisions"]
        assert (entry["sagas"], entry["count"]) == ([], 0)
        assert "node:two" in command("store", url, "decisions").stdout


def test_the_node_of_a_file(tmp_path: pathlib.Path) -> None:
    """It is listed, and cannot be drained: no other node takes its shards."""
    with worlds(tmp_path, None, "one") as (world,):
        check_rights(world)
        operator = world["operator"]
        assert start(world["caller"], "trip", "a").status_code == 201
        (node,) = operator.get("/v1/nodes").json()["nodes"]
        assert (node["state"], node["open_sagas"], node["lease_seconds"]) == ("running", 1, None)
        assert node["shards"] == 1 and node["concurrency"] > 0 and len(node["definitions"]) == 4
        assert node["name"] in world.page("operator").get("/ui/nodes").text
        answer = operator.post(f"/v1/nodes/{node['name']}/drain", json={"note": "x"})
        assert (answer.status_code, error_of(answer)) == (404, "NoSuchNode")
        store = str(tmp_path / "one" / "store.db")
        assert command("store", store, "drain", "one", "--note", "x").returncode == 2
