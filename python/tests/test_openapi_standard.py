"""openapi.json conforms to the OpenAPI specification: each field of each object, and the rules in
its prose.
"""

from __future__ import annotations

import copy
import importlib
import importlib.util
import re
from collections.abc import Iterator
from typing import Any

import contract
import openapi_objects
import pytest
from openapi_objects import Checker, Of

DOCUMENT = contract.DOCUMENT
METHODS = ("get", "put", "post", "delete", "options", "head", "patch", "trace")


def structure(document: Any) -> list[str]:
    """Return the errors in the fields of a document."""
    return [*Checker().faults(document, Of("OpenAPI"), "")]


def operations(document: Any) -> Iterator[tuple[str, dict[str, Any]]]:
    for path, item in document["paths"].items():
        for method in METHODS:
            if method in item:
                yield f"{method} {path}", item[method]


def prose(document: Any) -> Iterator[str]:
    """Return the errors by the rules that the specification has in prose."""
    components = document["components"]
    ids, templates = list[str](), list[str]()
    tags = [tag["name"] for tag in document["tags"]]
    if len(tags) != len({*tags}):
        yield "tags: a name is there twice"
    if not re.fullmatch(r"3\.1\.\d+", document["openapi"]):
        yield "openapi: it is not a version of 3.1"
    for kind in components:
        for name in components[kind]:
            if not re.fullmatch(r"[a-zA-Z0-9._-]+", name):
                yield f"components/{kind}: {name} is not a name"
    templates = [re.sub(r"{\w+}", "{}", path) for path in document["paths"]]
    if len(templates) != len({*templates}):
        yield "paths: two differ in the names of their parameters alone"
    for location, operation in operations(document):
        ids.append(operation.get("operationId", location))
        for need in operation.get("security", document["security"]):
            for name in need:
                if name not in components["securitySchemes"]:
                    yield f"{location}: unknown security scheme {name}"
        some = [contract.resolved(parameter) for parameter in operation.get("parameters", ())]
        names = [(item["name"], item["in"]) for item in some]
        if len(names) != len({*names}):
            yield f"{location}: a parameter is there twice"
        if {name for name, part in names if part == "path"} != {*re.findall(r"{(\w+)}", location)}:
            yield f"{location}: its path has other parameters"
        for item in some:
            if item["in"] not in ("query", "header", "path", "cookie"):
                yield f"{location}: {item['name']} is in {item['in']}"
            if item["in"] == "path" and item.get("required") is not True:
                yield f"{location}: {item['name']} must be required"
            if item["in"] == "header" and item["name"].lower() in (
                "accept",
                "content-type",
                "authorization",
            ):
                yield f"{location}: {item['name']} is ignored as a parameter"
            if ("schema" in item) is ("content" in item) or (
                "example" in item and "examples" in item
            ):
                yield f"{location}: {item['name']} has both of an excluding pair, or neither"
        if not operation["responses"]:
            yield f"{location}: it has no response"
        for content in contents(operation):
            if "example" in content and "examples" in content:
                yield f"{location}: example and examples exclude each other"
    if len(ids) != len({*ids}):
        yield "paths: an operationId is there twice"


def contents(operation: dict[str, Any]) -> Iterator[dict[str, Any]]:
    for part in (operation.get("requestBody", {}), *operation["responses"].values()):
        yield from contract.resolved(part).get("content", {}).values()


def test_the_rules_are_those_of_the_specification() -> None:
    """The tables are read whole: all objects, with their fields, and the required ones."""
    assert openapi_objects.TEXT.is_file(), "install it: apt-get install openapi-specification"
    rules = openapi_objects.read()
    assert len(rules) == 30 and {*rules["Info"].required} == {"title", "version"}
    assert rules["OpenAPI"].required.keys() == {"openapi", "info"}
    assert rules["Components"].fields["schemas"] == Of("map", (Of("Schema"),))
    either = Of("or", (Of("Parameter"), Of("Reference")))
    assert rules["Operation"].fields["parameters"] == Of("list", (either,))
    assert rules["Security Scheme"].required == {
        "type": "",
        "name": "apiKey",
        "in": "apiKey",
        "scheme": "http",
        "flows": "oauth2",
        "openIdConnectUrl": "openIdConnect",
    }
    assert (
        rules["Paths"].patterns == {"/.*": Of("Path Item")} and "name" not in rules["Header"].fields
    )


def test_the_document_is_strictly_valid() -> None:
    """Nothing of it is skipped: each operation, response and schema is checked."""
    checker = Checker()
    assert [*checker.faults(DOCUMENT, Of("OpenAPI"), "")] == []
    assert [*prose(DOCUMENT)] == []
    assert checker.seen["Operation"] == sum(1 for _ in operations(DOCUMENT)) > 30
    assert checker.seen["Schema"] > 100 and checker.seen["Reference"] > 30


def test_the_official_validator_where_it_is_installed() -> None:
    """`openapi-spec-validator` is not a package of Debian's; if it is installed, it agrees."""
    if importlib.util.find_spec("openapi_spec_validator") is None:
        assert structure(DOCUMENT) == []  # the checks that work without it
        return
    module = importlib.import_module("openapi_spec_validator")
    (getattr(module, "validate", None) or module.validate_spec)(DOCUMENT)


WRONG: dict[str, tuple[str, Any, str]] = {
    "a field that no object has": ("info/licence", "x", "/info: unknown field licence"),
    "a field of another type": ("paths/~/get/tags", "sagas", "tags: it is not a list"),
    "a value that is not a text": ("info/title", 5, "/info/title: it is not a string"),
    "a required field": ("components/securitySchemes/token/scheme", None, "scheme is missing"),
    "an invalid status": ("paths/~/get/responses/2", {"description": ""}, "unknown field 2"),
    "an unknown keyword": ("components/schemas/Saga/requierd", [], "unknown keyword requierd"),
    "an invalid schema": ("components/schemas/Saga/type", "objekt", "objekt"),
    "a path without a slash": ("paths/v1", {}, "/paths: unknown field v1"),
    "a missing scheme": ("paths/~/get/security", [{"oauth": []}], "scheme oauth"),
    "a tag twice": ("tags", [{"name": "a"}, {"name": "a"}], "a name is there twice"),
    "an id twice": ("paths/~/get/operationId", "startSaga", "an operationId is there twice"),
    "a parameter of no path": (
        "paths/~/get/parameters",
        [{"name": "id", "in": "path", "required": True, "schema": {}}],
        "other parameters",
    ),
    "a parameter without a schema": (
        "paths/~/get/parameters",
        [{"name": "id", "in": "query"}],
        "id has both of an excluding pair, or neither",
    ),
}


@pytest.mark.parametrize("violation", WRONG)
def test_rule_violations_are_found(violation: str) -> None:
    """Each rule finds a document that breaks it."""
    location, value, text = WRONG[violation]
    document = copy.deepcopy(DOCUMENT)
    *parts, last = [part.replace("~", "/v1/sagas") for part in location.split("/")]
    inner = document
    for part in parts:
        inner = inner[part]
    if value is None:
        del inner[last]
    else:
        inner[last] = value
    faults = structure(document)
    faults += [*prose(document)] if not faults else []
    assert any(text in fault for fault in faults), faults[:3]
