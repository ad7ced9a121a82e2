"""Check that each response of a service in the tests conforms to the OpenAPI document of the
repository.
"""

from __future__ import annotations

import datetime
import functools
import json
import pathlib
import re
from typing import Any

import httpx
import jsonschema

from sagas.server import problems

PATH = pathlib.Path(__file__).resolve().parents[1] / "src" / "sagas" / "server" / "openapi.json"
DOCUMENT: dict[str, Any] = json.loads(PATH.read_text())
ANYWHERE = {
    "MalformedRequest",
    "NotFound",
    "MethodNotAllowed",
    "UnknownHost",
    "CrossOrigin",
    "BodyTooLarge",
    "RequestTimeout",
    "TooManyRequests",
    "InternalError",
    "TooManyConnections",
}
"""Problems that a request has before its path counts."""
seen: dict[str, set[str]] = {}
"""The statuses of each operation that this program has met."""
FORMATS = jsonschema.FormatChecker(formats=())


@FORMATS.checks("date-time", raises=ValueError)
def is_time(text: Any) -> bool:
    return not isinstance(text, str) or (
        datetime.datetime.fromisoformat(text).tzinfo is not None and text.endswith("Z")
    )


@functools.cache
def patterns() -> list[tuple[re.Pattern[str], dict[str, Any]]]:
    """Return the paths, those without parameters first."""
    expressions = []
    for path in sorted(DOCUMENT["paths"], key=lambda path: ("{" in path, path)):
        text = re.sub(r"\\{\w+\\}", "[^/]+", re.escape(path))
        expressions.append((re.compile(text), DOCUMENT["paths"][path]))
    return expressions


def operation(method: str, path: str) -> dict[str, Any] | None:
    """Return the operation of a request; HEAD has that of GET."""
    for pattern, methods in patterns():
        if pattern.fullmatch(path):
            matched: dict[str, Any] | None = methods.get(
                {"HEAD": "get"}.get(method, method.lower())
            )
            return matched
    return None


def resolved(reference: dict[str, Any]) -> dict[str, Any]:
    """Return the object that a reference leads to."""
    while "$ref" in reference:
        target: Any = DOCUMENT
        for part in reference["$ref"].removeprefix("#/").split("/"):
            target = target[part]
        reference = target
    return reference


@functools.cache
def validator(text: str) -> Any:
    """Return a validator of a schema of the document."""
    schema = json.loads(text)
    resolver = jsonschema.RefResolver("", DOCUMENT)
    return jsonschema.Draft202012Validator(schema, resolver=resolver, format_checker=FORMATS)


def check(answer: httpx.Response) -> None:
    """Raise `AssertionError` if a response is not as the document describes it."""
    assert answer.headers.get("x-request-id"), f"{answer.request.method} {answer.request.url}"
    request = answer.request
    raw = request.url.raw_path.decode().partition("?")[0]
    kind = answer.headers.get("content-type", "").partition(";")[0]
    if raw.startswith("/ui") or raw in ("/", "/favicon.ico") or kind == "text/event-stream":
        return
    call = f"{request.method} {raw} {answer.status_code}"
    described = operation(request.method, raw)
    body = answer.read()
    if answer.status_code >= 400 and kind == problems.MEDIA_TYPE and request.method != "HEAD":
        document = json.loads(body)
        schema = {"$ref": "#/components/schemas/Problem"}
        validator(json.dumps(schema)).validate(document)
        name = document["type"].removeprefix(problems.PREFIX)
        assert document["status"] == answer.status_code == problems.PROBLEMS[name].status, call
        if described is None or name in ANYWHERE:
            return
        names = resolved(described["responses"].get(str(answer.status_code), {})).get(
            "description", ""
        )
        assert f"`{name}`" in names, f"{call}: the document does not have {name}"
    assert described is not None, f"{call}: the document has no such operation"
    status = str(answer.status_code)
    seen.setdefault(described["operationId"], set()).add(status)
    assert status in described["responses"], f"{call}: not in the document"
    content = resolved(described["responses"][status]).get("content")
    if content is None or request.method == "HEAD":
        return
    assert kind in content, call
    if kind in ("application/json", problems.MEDIA_TYPE):
        problem = next(
            validator(json.dumps(content[kind]["schema"])).iter_errors(json.loads(body)), None
        )
        assert problem is None, f"{call}: {problem.message} at {list(problem.absolute_path)}"
