"""Values of too many levels: each way in refuses them, and stored ones do no harm."""

from __future__ import annotations

import contextlib
import json
import pathlib
import sqlite3
from collections.abc import Iterator
from typing import Any

import httpx
import psycopg
import pytest
from cases import Task, run, simple
from hypothesis import given, strategies as st
from serving import DEFINITIONS, LONG, Served, command, error_of, report, served, start, take

import sagas
from sagas.definition import serialization
from sagas.definition.serialization import MAX_LEVELS, is_deeper

LEVELS = (MAX_LEVELS + 1, 300, 967, 970, 2000, 100_000)
"""Depths above the limit: also those at which a parser of Python fails, and those just below."""


def nested(levels: int) -> str:
    """Return the text of a list of this many levels."""
    return "[" * levels + "]" * levels


def value_of(levels: int) -> Any:
    """Return it as a value, which nothing had to parse."""
    value: Any = []
    for _ in range(levels - 1):
        value = [value]
    return value


def depth(value: Any) -> int:
    """Return the levels of a small value."""
    some = value.values() if isinstance(value, dict) else value
    return 1 + max(map(depth, some), default=0) if isinstance(value, (dict, list)) else 0


JSON = st.recursive(
    st.none() | st.integers() | st.text('"\\[]{}é', max_size=3),
    lambda inner: st.lists(inner, max_size=3) | st.dictionaries(st.text('"\\[]{}'), inner),
    max_leaves=20,
)


@given(JSON, st.integers(0, 8), st.booleans())
def test_levels(value: Any, levels: int, ascii: bool) -> None:
    """Brackets in texts are not levels."""
    assert is_deeper(json.dumps(value, ensure_ascii=ascii), levels) == (depth(value) > levels)


def test_the_limit() -> None:
    """That many levels are a value, in lists and objects; one more is not, wherever it is."""
    fits: Any = {}
    for _ in range(MAX_LEVELS - 1):
        fits = {"a": [1, fits]} if depth(fits) < MAX_LEVELS - 1 else [fits]
        if depth(fits) == MAX_LEVELS:
            break
    assert serialization.read(serialization.write_value(fits)) == fits
    for value in ([fits], {"a": fits}, *map(value_of, LEVELS)):
        with pytest.raises(sagas.NotSerializable, match="input: it has more than 64 levels of li"):
            serialization.write_value(value, "input")
    endless: list[Any] = []
    endless.append(endless)
    with pytest.raises(sagas.NotSerializable, match="more than 64 levels.* contain itself"):
        serialization.write_value(endless)


def test_by_a_store(location: str) -> None:
    """Inputs, schedules and reports are refused; a function's result is kept as unstorable."""
    saga = sagas.Saga("deep")

    @saga.step
    def gives(task: Task) -> Any:
        return value_of(task.input)

    @saga.approval(needs=[gives])
    def sign(task: Task) -> None:
        ...

    async def main() -> None:
        async with sagas.open(location, [saga]) as store:
            for levels in LEVELS[:3]:
                with pytest.raises(sagas.NotSerializable, match="input: it has more than 64"):
                    await store.start(saga, "k", value_of(levels))
                with pytest.raises(sagas.NotSerializable, match="input: it has more than 64"):
                    await store.schedule("s", saga, every=60, input=value_of(levels))
            begun = await store.start(saga, "k", 967)
            with pytest.raises(sagas.NotSerializable, match="more than 64 levels"):
                await store.complete("k", sign, value_of(65))
            await store.complete("k", sign, value_of(64))
            end = await begun.wait()
            assert end.ok and end.results["sign"] == value_of(64)
            with pytest.raises(sagas.ResultNotSerializable, match="more than 64 levels"):
                end.result_of(gives)

    run(main())


def test_by_a_client(url: str) -> None:
    """A client writes no such start and no such report."""
    saga = simple(lambda task: None)

    async def main() -> None:
        async with sagas.open(url, [saga]), sagas.Client(url) as client:
            for levels in LEVELS[:3]:
                with pytest.raises(sagas.NotSerializable, match="input: it has more than 64"):
                    await client.start(saga, "k", value_of(levels))
                with pytest.raises(sagas.NotSerializable, match="more than 64 levels"):
                    await client.complete("k", "a", value_of(levels))

    run(main())


@pytest.fixture(scope="module")
def service(tmp_path_factory: pytest.TempPathFactory) -> Iterator[Served]:
    with served(tmp_path_factory.mktemp("deep"), DEFINITIONS) as service:
        yield service


def post(service: Served, path: str, text: str) -> tuple[int, str, str]:
    """Return the response to a JSON text: its status, the name of its problem and its detail."""
    with service.client() as client:
        answer = client.post(path, content=text, headers={"content-type": "application/json"})
        problem = answer.json()
    return (
        answer.status_code,
        error_of(answer) if "type" in problem else "",
        problem.get("detail", ""),
    )


@pytest.mark.parametrize("levels", LEVELS)
def test_by_http(service: Served, levels: int) -> None:
    """Starts and reports of workers and people get 422 or 400, with the number of levels allowed.

    Nothing is stored, and a worker's task can still be reported.
    """
    deep, key = nested(levels), f"k{levels}"
    with service.client() as client:
        start(client, "few", key)
        start(client, "order", f"o{levels}")
        (task,) = take(client, "few/a")
        whole = {"lease": task["lease"], "attempt_id": task["attempt_id"], "outcome": "complete"}
        ways = (
            ("/v1/sagas", '{"definition":"few","key":"none","input":%s}'),
            (
                f"/v1/tasks/{task['attempt_id']}/complete",
                f'{{"lease":"{task["lease"]}","result":%s}}',
            ),
            (f"/v1/sagas/o{levels}/steps/review/complete", '{"result":%s}'),
            ("/v1/tasks/claim", '{"steps":%s}'),
        )
        for path, text in ways:
            status, name, detail = post(service, path, text % deep)
            assert status in (400, 422), (path, status, name, detail)
            assert "more than 64 levels" in detail or path.endswith("/claim"), (path, detail)
        if levels < 900:
            body = json.dumps({"reports": [whole | {"result": value_of(levels)}]})
            status, _, _ = post(service, "/v1/tasks/report", body)
            assert status == 200
        assert client.get("/v1/sagas/none").status_code == 404
        assert report(client, task, result=value_of(MAX_LEVELS)).status_code == 200
        (task,) = take(client, "few/b")
        assert task["results"]["a"] == value_of(MAX_LEVELS)
        assert report(client, task).status_code == 200
    assert '"level": "error"' not in service.log_text()


def test_by_a_form(service: Served) -> None:
    """The dashboard says it, too."""
    with service.client() as client:
        page = client.get("/ui/start?definition=few").text
        csrf = page.split('name="csrf" value="')[1].split('"')[0]
        for levels in LEVELS:
            form = {"csrf": csrf, "key": "f", "definition": "few", "input": nested(levels)}
            answer = client.post("/ui/start", data=form)
            assert answer.status_code in (409, 422), levels
            assert "more than 64 levels" in answer.text


def test_by_a_command_and_by_files(service: Served, tmp_path: pathlib.Path) -> None:
    """A report by a command; files of definitions, tokens and webhooks."""
    deep = nested(2000)
    for levels in LEVELS[:5]:
        done = command("store", service.store, "complete", "k", "a", "--result", nested(levels))
        assert done.returncode == 2 and "more than 64 levels" in done.stderr, done.stderr
    (tmp_path / "one.toml").write_text('format = 2\nname = "one"\n[[step]]\nname = "a"\n')
    (tmp_path / "one.service.toml").write_text(f"a = {deep}\n")
    folder = ("--definitions", str(tmp_path))
    done = command("serve", str(tmp_path / "s.db"), *folder)
    assert done.returncode == 1 and "too many lists in one another" in done.stderr
    (tmp_path / "one.service.toml").unlink()
    for option in ("--token-file", "--webhooks"):
        (tmp_path / "file").write_text(f"a = {deep}\n")
        (tmp_path / "file").chmod(0o600)
        done = command("serve", str(tmp_path / "s.db"), *folder, option, str(tmp_path / "file"))
        assert done.returncode == 4 and "too many lists in one another" in done.stderr


def far() -> sagas.Saga:
    """Return a saga of two steps, which workers do."""
    saga = sagas.Saga("far")
    saga.step(name="a", external=True, undo=0)
    return saga


def put(location: str, key: str, text: str) -> None:
    """Store a value as an earlier release took it."""
    if location.startswith("postgresql"):
        with psycopg.connect(location.replace("app@", "owner@"), autocommit=True) as link:
            link.execute("UPDATE sagas.sagas SET input = %s WHERE key = %s", (text, key))
    else:
        with contextlib.closing(sqlite3.connect(location)) as file, file:
            file.execute("UPDATE sagas SET input = ? WHERE key = ?", (text, key))


@pytest.mark.parametrize("levels", [600, 967])
def test_stored_deep_values(location: str, tmp_path: pathlib.Path, levels: int) -> None:
    """A claim has the other tasks.

    The one that fits no reply needs an operator, at the node that executes its saga too, and can be
    reported.
    """
    saga = far()

    async def begun() -> None:
        async with sagas.open(location, [saga], node="one") as store:
            for key in ("x", "deep", "y"):
                await store.start(saga, key, {"key": key})

    run(begun())
    put(location, "deep", nested(levels))
    files = {"far.toml": saga.toml()}
    with served(
        tmp_path, files, "--log", "json", store=location
    ) as service, service.client() as client:
        done: set[str] = set()
        while len(done) < 2:
            for task in take(client, "far/a", wait=10, limit=100):
                done.add(task["key"])
                assert report(client, task).status_code == 200
        assert done == {"x", "y"}
        answer = client.get("/v1/attention?kind=cannot_decode").json()["entries"]
        while not answer:
            answer = client.get("/v1/attention?kind=cannot_decode").json()["entries"]
        assert [(row["key"], row["step"]) for row in answer] == [("deep", "a")]
        assert take(client, "far/a", wait=0, limit=100) == []
        assert client.post("/v1/sagas/deep/steps/a/complete", json={"result": 1}).status_code == 200
    with served(tmp_path, files, "--log", "json", store=location) as service:
        for path in ("wait", "log", "timeline", "picture.svg"):  # an answer may be as deep
            httpx.get(f"{service.url}/v1/sagas/deep/{path}", trust_env=False, timeout=LONG)
    assert "RecursionError" not in service.log_text() and "Traceback" not in service.log_text()


def test_a_claim_at_another_node(url: str, tmp_path: pathlib.Path) -> None:
    """The node that executes the saga is notified, and sets the task aside."""
    files = {"far.toml": far().toml()}
    for name in ("one", "two"):
        (tmp_path / name).mkdir()
    with served(tmp_path / "one", files, "--node", "one", store=url) as service:
        with served(tmp_path / "two", files, "--node", "two", store=url) as two:
            with service.client() as here, two.client() as there:
                for key in ("deep", "x"):
                    assert start(here, "far", key).status_code == 201
                put(url, "deep", nested(967))
                (task,) = take(there, "far/a", limit=100)
                assert task["key"] == "x"
                while not (entries := here.get("/v1/attention").json()["entries"]):
                    assert there.get("/health/live").status_code == 200
                assert [(entry["key"], entry["kind"]) for entry in entries] == [
                    ("deep", "cannot_decode")
                ]
                assert take(there, "far/a", wait=0, limit=100) == []
                assert report(there, task).status_code == 200
