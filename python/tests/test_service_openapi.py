"""The OpenAPI document is true, and complete.

It serves clients in other languages, and a generated one that is type-checked. (tests/contract.py
compares each response of all tests with it.)
"""

from __future__ import annotations

import json
import pathlib
import re
import shutil
import subprocess
import sys
import threading
from collections.abc import Iterator
from typing import Any

import contract
import httpx
import jsonschema
import pytest
from cases import types_in
from serving import (
    DEFINITIONS,
    LONG,
    Served,
    all_done,
    environment,
    error_of,
    served,
    start,
    token,
)

from sagas.server import openapi, problems, shapes

HERE = pathlib.Path(__file__).resolve().parent
LANGUAGES = HERE / "other_languages"
REFERENCE = HERE.parents[1] / "docs" / "reference"


@pytest.fixture(scope="module")
def service(tmp_path_factory: pytest.TempPathFactory) -> Iterator[Served]:
    folder = tmp_path_factory.mktemp("openapi")
    token(folder, "operator", "operator")
    with served(folder, DEFINITIONS, "--token-file", str(folder / "tokens.toml")) as service:
        yield service


@pytest.fixture(scope="module")
def operator(service: Served) -> str:
    return token(service.folder, "second", "operator")


@pytest.fixture
def client(service: Served, operator: str) -> Iterator[httpx.Client]:
    with service.client(operator) as client:
        yield client


def test_the_file_is_the_program_s() -> None:
    """The file of the repository is generated from the operations."""
    remedy = f"print it again: python3 -m sagas.server.openapi > {contract.PATH}"
    assert contract.PATH.read_text() == openapi.text(), remedy


def references(value_or_object: Any) -> Iterator[str]:
    if isinstance(value_or_object, dict):
        for name, value in value_or_object.items():
            if name == "$ref":
                yield value
            yield from references(value)
    elif isinstance(value_or_object, list):
        for value in value_or_object:
            yield from references(value)


def test_the_document_is_valid() -> None:
    """By the rules of OpenAPI 3.1 that matter to generators: ids are unique, parameters of paths
    are declared, references lead to objects, schemas are valid, examples fit.
    """
    document = contract.DOCUMENT
    assert document["openapi"] == "3.1.0" and {"title", "version"} <= set(document["info"])
    for reference in set(references(document)):
        assert contract.resolved({"$ref": reference}), reference
    for name, schema in document["components"]["schemas"].items():
        jsonschema.Draft202012Validator.check_schema(schema)
        for example in schema.get("examples", ()):
            contract.validator(json.dumps(schema)).validate(example)
    ids, tags = [], {tag["name"] for tag in document["tags"]}
    for path, methods in document["paths"].items():
        for method, operation in methods.items():
            ids.append(operation["operationId"])
            assert method in ("get", "post", "delete") and set(operation["tags"]) <= tags
            assert operation["summary"] and operation["responses"], path
            declared = {
                parameter["name"]
                for parameter in operation.get("parameters", ())
                if parameter["in"] == "path"
            }
            assert declared == set(re.findall(r"{(\w+)}", path)), path
            for parameter in operation.get("parameters", ()):
                jsonschema.Draft202012Validator.check_schema(parameter["schema"])
            needs_token = operation["security"] == [{"token": []}]
            assert needs_token is bool(operation.get("x-roles")), path
            for part in [
                operation.get("requestBody", {}),
                *map(contract.resolved, operation["responses"].values()),
            ]:
                for content in part.get("content", {}).values():
                    for example in content.get("examples", {}).values():
                        contract.validator(json.dumps(content["schema"])).validate(example["value"])
    assert len(ids) == len(set(ids))


def test_each_problem_is_described() -> None:
    """The page has each problem with its status, and no other."""
    page = (REFERENCE / "http-errors.md").read_text()
    rows = re.findall(r"^\| (\d{3}) \| ((?:`\w+`(?:, )?)+) \|", page, re.M)
    statuses = {
        name: int(status) for status, names in rows for name in re.findall(r"`(\w+)`", names)
    }
    assert statuses == {name: kind.status for name, kind in problems.PROBLEMS.items()}


def test_heads_and_methods(client: httpx.Client) -> None:
    """HEAD responds as GET, without a body; for another method the response lists those
    that exist.
    """
    for path in (
        "/v1/sagas",
        "/health/live",
        "/v1/definitions",
        "/openapi.json",
        "/ui/login",
        "/v1/events",
    ):
        answer = client.head(path)
        assert (answer.status_code, answer.content) == (200, b""), path
    for method, path, allowed in (
        ("DELETE", "/v1/sagas", "GET, HEAD, POST"),
        ("GET", "/v1/tasks/claim", "POST"),
        ("PUT", "/ui/start", "GET, HEAD, POST"),
    ):
        answer = client.request(method, path)
        assert (answer.status_code, answer.headers["allow"]) == (405, allowed)


def test_a_saga_has_a_url_and_a_tag(client: httpx.Client) -> None:
    """It has its URL from its start on; the tag changes only with the saga."""
    answer = start(client, "order", "a/b ü")
    assert answer.headers["location"] == "/v1/sagas/a%2Fb%20%C3%BC"
    got = client.get(answer.headers["location"])
    tag = got.headers["etag"]
    assert got.headers["cache-control"] == "private, no-cache"
    for header, status in ((tag, 304), (f'W/{tag}, "x"', 304), ("*", 304), ('"x"', 200)):
        again = client.get(answer.headers["location"], headers={"If-None-Match": header})
        assert again.status_code == status and again.headers["etag"] == tag
    client.post(f"{answer.headers['location']}/abort", json={})
    assert client.get(answer.headers["location"], headers={"If-None-Match": tag}).status_code == 200


def test_bodies_and_parameters(client: httpx.Client) -> None:
    """A misspelt field, or one of another type, is named by its location."""
    for path, body, field in (
        ("/v1/sagas", {"definition": "trip", "key": 5}, "key"),
        ("/v1/sagas", {"definition": "trip"}, "key"),
        ("/v1/sagas", {"definition": "trip", "key": "k", "inputs": 1}, "inputs"),
        ("/v1/tasks/claim", {"steps": ["trip/car", 5]}, "steps.1"),
        ("/v1/tasks/claim", {"steps": ["trip"]}, "steps.0"),
        ("/v1/tasks/x/complete", {"lease": "1", "next": {"steps": ["no"]}}, "next.steps.0"),
        ("/v1/tasks/claim", {"steps": ["trip/car"], "limit": True}, "limit"),
        ("/v1/bulk/abort", {"filter": {"started_after": "yesterday"}}, "filter.started_after"),
    ):
        answer = client.post(path, json=body)
        assert (answer.status_code, answer.json()["field"]) == (422, field), answer.text
    for query in (
        "most=2",
        "limit=0",
        "limit=x",
        "limit=1&limit=2",
        "phase=none",
        "after=-1",
        "after=12",
        "started_after=x",
    ):
        answer = client.get(f"/v1/sagas?{query}")
        assert (answer.status_code, answer.json()["field"]) == (422, query.partition("=")[0])
    answer = client.post("/v1/sagas", content=b"{}", headers={"content-type": "text/plain"})
    assert (answer.status_code, error_of(answer)) == (415, "UnsupportedMediaType")
    assert client.post("/v1/sagas/nobody/abort").status_code == 404  # the body may be omitted


def test_definitions(client: httpx.Client) -> None:
    """They have their steps with costs, and who does them."""
    definitions = {
        definition["name"]: definition
        for definition in client.get("/v1/definitions").json()["definitions"]
    }
    assert [*definitions] == ["few", "licence", "order", "trip"]
    car = definitions["trip"]["steps"][1]
    assert (car["name"], car["needs"], car["undo"], car["keep"]) == ("car", ["flight"], 5, 30)
    assert (
        definitions["trip"]["steps"][0]["undo"] is None
        and definitions["order"]["steps"][0]["kind"] == "approval"
    )


def test_what_if(client: httpx.Client) -> None:
    """It returns a plan that `sagas check` accepts; the saga has not changed."""
    start(client, "trip", "suppose")
    all_done(client, "trip/flight", "trip/car")
    before = client.get("/v1/sagas/suppose/log").json()
    plan = client.post("/v1/sagas/suppose/what-if", json={"abort": True}).json()
    assert plan["cost"] == 15 and plan["assumed"] == {"tour": "waiting"}
    failed = client.post("/v1/sagas/suppose/what-if", json={"fail": "tour"}).json()
    assert (failed["cost"], failed["assumed"]) == (15, {"tour": "failed"})
    states = {step["step"]: step["decision"] for step in failed["plan"]["steps"]}
    assert states == {"flight": "stands", "car": "is undone", "tour": "is left out"}
    text = "\n---\n".join(
        part if isinstance(part, str) else json.dumps(part)
        for part in failed["certificate"].values()
    )
    judged = subprocess.run(
        [environment()["SAGAS_PROGRAM"]],
        input=text.replace("\n\n---", "\n---"),
        capture_output=True,
        text=True,
        check=False,
    )
    assert judged.stdout == "least 15\n", judged
    assert client.get("/v1/sagas/suppose/log").json() == before
    for body in ({}, {"abort": True, "fail": "car"}, {"fail": "flight"}, {"fail": "none"}):
        assert client.post("/v1/sagas/suppose/what-if", json=body).status_code == 422, body
    all_done(client, "trip/tour")
    client.get("/v1/sagas/suppose/wait")
    assert error_of(client.post("/v1/sagas/suppose/what-if", json={"abort": True})) == "SagaOver"


def generated() -> str:
    """Return a typed client in Python, made of the document only."""
    document, lines = contract.DOCUMENT, ["from typing import Any, Literal, NotRequired, TypedDict"]
    lines.append("def ask(method: str, path: str, body: Any) -> Any: ...")

    def kind(schema: dict[str, Any]) -> str:
        if "$ref" in schema:
            return f'"{schema["$ref"].rpartition("/")[2]}"'
        if "oneOf" in schema:
            return "Any"
        if "enum" in schema:
            return f"Literal[{', '.join(map(repr, schema['enum']))}]"
        names = schema.get("type", "any")
        if isinstance(names, list):
            return f"({kind({**schema, 'type': names[0]})} | None)"
        if names == "array":
            return f"list[{kind(schema.get('items', {}))}]"
        if names == "object":
            return f"dict[str, {kind(schema.get('additionalProperties', {}))}]"
        return {"string": "str", "integer": "int", "number": "float", "boolean": "bool"}.get(
            names, "Any"
        )

    for name, schema in document["components"]["schemas"].items():
        fields = []
        for field, of in schema["properties"].items():
            type_text = kind(of)
            is_there = field in schema.get("required", ())
            fields.append(f"{field!r}: {type_text if is_there else f'NotRequired[{type_text}]'}")
        lines.append(f"{name} = TypedDict({name!r}, {{{', '.join(fields)}}})")
    for path, methods in document["paths"].items():
        for method, operation in methods.items():
            content = next(iter(operation["responses"].values())).get("content", {})
            answer = kind(content.get("application/json", {}).get("schema", {}))
            parameters = [f"{name}: str" for name in re.findall(r"{(\w+)}", path)]
            body = "None"
            if "requestBody" in operation:
                sent = operation["requestBody"]["content"]["application/json"]
                parameters.append(f"body: {kind(sent['schema'])}")
                body = "body"
            lines.append(f"def {operation['operationId']}({', '.join(parameters)}) -> {answer}:")
            lines.append(
                f"    found: {answer} = ask({method!r}, f{path!r}, {body})\n    return found"
            )
    return "\n".join(lines) + "\n"


USE = """
def use() -> None:
    started = startSaga({"definition": "trip", "key": "k"})
    new: bool = started["new"]
    saga = getSaga("k")
    phase: Literal["open", "completed", "recovered", "stuck", "resolved"] = saga["phase"]
    claimed = claimTasks({"steps": ["trip/car"]})
    lease: str = claimed["tasks"][0]["lease"]
    completeTask(claimed["tasks"][0]["attempt_id"], {"lease": lease, "result": {"id": 7}})
"""


def test_a_generated_client_is_typed(tmp_path: pathlib.Path) -> None:
    """`mypy --strict` accepts it and its use, and refuses a misuse."""
    for name, more, status in (
        ("good", "", 0),
        ("bad", '\nwrong: int = getSaga("k")["phase"]\n', 1),
    ):
        file = tmp_path / f"{name}.py"
        file.write_text(generated() + USE + more)
        command = [
            sys.executable,
            "-m",
            "mypy",
            "--strict",
            "--cache-dir",
            types_in(tmp_path / "types"),
            str(file),
        ]
        done = subprocess.run(command, capture_output=True, text=True, check=False)
        assert done.returncode == status, done.stdout[-2000:]


def test_other_languages(
    service: Served, operator: str, client: httpx.Client, tmp_path: pathlib.Path
) -> None:
    """A worker in Go whose task outlives its lease, a caller in Node, and one in Java."""
    go = shutil.which("go")
    assert go is not None
    variables = environment() | {
        "GOCACHE": str(tmp_path / "cache"),
        "GOFLAGS": "-mod=mod",
        "GO111MODULE": "off",
        "HOME": str(tmp_path),
    }
    program = tmp_path / "worker"
    subprocess.run(
        [go, "build", "-o", str(program), str(LANGUAGES / "worker.go")],
        env=variables,
        check=True,
        timeout=240,
    )
    working = subprocess.Popen(
        [str(program), service.url, operator], stdout=subprocess.PIPE, text=True
    )
    try:
        outputs: list[str] = []
        command = ["node", str(LANGUAGES / "caller.mjs"), service.url, operator, "node/1"]
        calling = threading.Thread(
            target=lambda: outputs.append(
                subprocess.run(command, capture_output=True, text=True, timeout=120).stdout
            )
        )
        calling.start()
        all_done(client, "trip/flight", "trip/tour")
        calling.join(120)
        got = json.loads(outputs[0])
        assert got["statuses"] == [201, 200, 409, 409] and got["phase"] == "completed"
        assert got["car"] == {"by": "go", "after": {"of": "flight"}}
        assert [name.rpartition(":")[2] for name in got["types"]] == ["KeyConflict", "SagaOver"]
        assert working.stdout and working.stdout.readline() == "trip/car 200\n"
    finally:
        working.kill()
        working.wait(LONG)
    command = ["java", str(LANGUAGES / "Caller.java"), service.url, operator, "java-1"]
    done = subprocess.run(command, capture_output=True, text=True, timeout=120, check=False)
    assert done.stdout == "201 /v1/sagas/java-1\n200\n200\nrecovered\n", done


@pytest.mark.parametrize(
    "shape, value, detail",
    [
        (shapes.Number(minimum=0), -1, "must be at least 0"),
        (shapes.Number(maximum=9), 10, "must be at most 9"),
        (shapes.Number(1, 9), 10, "must be from 1 to 9"),
        (shapes.Several(shapes.Number(), min_items=1), [], "must have at least 1 entries"),
        (shapes.Several(shapes.Number(), max_items=1), [1, 2], "must have from 0 to 1 entries"),
    ],
)
def test_bounds_are_in_words(shape: shapes.Shape, value: object, detail: str) -> None:
    with pytest.raises(shapes.Invalid, match=detail):
        shape.read(value, "count")
