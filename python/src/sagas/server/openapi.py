"""The OpenAPI document of the API, generated from its operations.

`python3 -m sagas.server.openapi` prints it. The repository has it as `openapi.json` next to
this module, and the service serves that file.
"""

from __future__ import annotations

import functools
import hashlib
import json
import pathlib
import re
from collections.abc import Iterable
from typing import Any

from starlette.responses import Response

from sagas.server import answers
from sagas.server.auth import ROLES
from sagas.server.json_bodies import has_tag
from sagas.server.middleware import WELL_FORMED_ID
from sagas.server.operations import Answer, Call, Operation, Routes
from sagas.server.problems import MEDIA_TYPE, PREFIX, PROBLEMS
from sagas.server.shapes import Record, records

PATH = pathlib.Path(__file__).resolve().parent / "openapi.json"
TITLE, VERSION = "sagas", "1"
TAGS = {
    "sagas": "Start sagas, wait for them, and decide approvals.",
    "workers": "Claim tasks and report them.",
    "operators": "What needs an operator, bulk actions, health and metrics.",
    "definitions": "The definitions that the service has.",
}
ALWAYS = (
    "MalformedRequest",
    "NotFound",
    "TooManyRequests",
    "InternalError",
    "TooManyConnections",
    "Starting",
    "InvalidRequest",
)
"""Problems that any call may have."""
WITH_TOKEN = ("Unauthorized", "Forbidden", "Closed", "StoreUnavailable")
WITH_BODY = (
    "InvalidJson",
    "RequestTimeout",
    "BodyTooLarge",
    "UnsupportedMediaType",
    "CrossOrigin",
)
routes = Routes("definitions")


@routes.get(
    "/openapi.json",
    "getOpenApi",
    answers={
        200: Answer(
            "The document.",
            media_type="application/json",
            headers={"ETag": "changes with the document"},
        )
    },
)
async def openapi(call: Call) -> Response:
    """Get this document."""
    text, tag = _file()
    if has_tag(call.request.headers.get("if-none-match", ""), tag):
        return Response(status_code=304, headers={"etag": tag})
    headers = {"etag": tag, "cache-control": "no-cache"}
    return Response(text, media_type="application/json", headers=headers)


@functools.cache
def _file() -> tuple[bytes, str]:
    text = PATH.read_bytes()
    return text, f'"{hashlib.sha256(text).hexdigest()[:32]}"'


REQUEST_ID_NAME = "X-Request-Id"
REQUEST_ID_PARAMETER = {
    "name": REQUEST_ID_NAME,
    "in": "header",
    "description": "an id for the log; if it is missing or has another form, the service makes one",
    "required": False,
    "schema": {"type": "string", "pattern": f"^{WELL_FORMED_ID.pattern}$"},
}
REQUEST_ID_ANSWER = {
    "description": "the id of the request: in the log and in problems, it is `request_id`",
    "schema": {"type": "string"},
}
EACH_ANSWER = {REQUEST_ID_NAME: {"$ref": f"#/components/headers/{REQUEST_ID_NAME}"}}
"""The headers that each answer has."""


def problems_of(operation: Operation) -> dict[int, list[str]]:
    """Return the problems of an operation, by status."""
    names = [*ALWAYS, *operation.problems]
    names += WITH_TOKEN if operation.permission else ()
    names += WITH_BODY if operation.body else ()
    result: dict[int, list[str]] = {}
    for name in sorted(set(names)):
        result.setdefault(PROBLEMS[name].status, []).append(name)
    return dict(sorted(result.items()))


def answer_of(answer: Answer) -> dict[str, Any]:
    """Return a response object of the document."""
    result: dict[str, Any] = {"description": answer.description}
    result["headers"] = {
        **{
            name: {"description": text, "schema": {"type": "string"}}
            for name, text in answer.headers.items()
        },
        **EACH_ANSWER,
    }
    content: dict[str, Any] = {"schema": answer.shape.schema() if answer.shape else {}}
    if answer.media_type not in ("application/json", "image/svg+xml"):
        content = {"schema": {"type": "string"}}
    if answer.example is not None:
        content["examples"] = {"example": {"value": answer.example}}
    result["content"] = {answer.media_type: content}
    if answer.or_text:
        result["content"]["text/plain"] = {"schema": {"type": "string"}}
    return result


def title_of(names: list[str]) -> str:
    """Return the name of a response with one of several problems."""
    return ".".join(names)


def problem_of(status: int, names: list[str]) -> dict[str, Any]:
    """Return the response object for the problems of one status."""
    first = names[0]
    example = {
        "type": PREFIX + first,
        "title": PROBLEMS[first].title,
        "status": status,
        "detail": "what happened, and what to do",
    }
    return {
        "description": "; ".join(f"`{name}`: {PROBLEMS[name].title}" for name in names),
        "headers": EACH_ANSWER,
        "content": {
            MEDIA_TYPE: {
                "schema": answers.PROBLEM.schema(),
                "examples": {first: {"value": example}},
            }
        },
    }


def parameters_of(operation: Operation) -> list[dict[str, Any]]:
    """Return the parameters of an operation, those of its path first."""
    parameters: list[dict[str, Any]] = [
        {
            "name": name,
            "in": "path",
            "required": True,
            "schema": {"type": "string"},
            "example": {"key": "order-1", "step": "car"}.get(name, "a1-car-run-1"),
        }
        for name in re.findall(r"{(\w+)}", operation.path)
    ]
    for location, fields in (("query", operation.query), ("header", operation.headers)):
        for name, field in fields.items():
            schema = dict(field.schema())
            parameter = {"name": name, "in": location, "description": schema.pop("description", "")}
            parameters.append({**parameter, "required": field.is_required, "schema": schema})
    return [*parameters, REQUEST_ID_PARAMETER]


def operation_of(operation: Operation) -> dict[str, Any]:
    """Return an operation object of the document."""
    summary, more = operation.documentation
    result: dict[str, Any] = {"operationId": operation.name, "tags": [operation.tag]}
    result["summary"] = summary
    if more:
        result["description"] = more
    if operation.permission:
        roles = [role for role, may in ROLES.items() if operation.permission in may]
        result["x-roles"] = roles
        result["security"] = [{"token": []}]
    else:
        result["security"] = []
    result["parameters"] = parameters_of(operation)
    if operation.body:
        content: dict[str, Any] = {"schema": operation.body.schema()}
        if operation.body.example is not None:
            content["examples"] = {"example": {"value": operation.body.example}}
        result["requestBody"] = {
            "required": not operation.body.is_optional,
            "content": {"application/json": content},
        }
    responses = {str(status): answer_of(answer) for status, answer in operation.answers.items()}
    for status, names in problems_of(operation).items():
        responses.setdefault(str(status), {"$ref": f"#/components/responses/{title_of(names)}"})
    if any(answer.headers.get("ETag") for answer in operation.answers.values()):
        text = "Nothing has changed since `If-None-Match`."
        responses["304"] = {"description": text, "headers": EACH_ANSWER}
    result["responses"] = dict(sorted(responses.items()))
    return result


def document(operations: Iterable[Operation]) -> dict[str, Any]:
    """Return the document."""
    paths: dict[str, Any] = {}
    records_by_name: dict[str, Record] = {answers.PROBLEM.name: answers.PROBLEM}
    shared: dict[str, Any] = {}
    for operation in operations:
        paths.setdefault(operation.path, {})[operation.method.lower()] = operation_of(operation)
        for shape in [operation.body, *(answer.shape for answer in operation.answers.values())]:
            records_by_name |= records(shape) if shape else {}
        for status, names in problems_of(operation).items():
            shared[title_of(names)] = problem_of(status, names)
    return {
        "openapi": "3.1.0",
        "info": {
            "title": TITLE,
            "version": VERSION,
            "summary": "Start sagas, claim tasks, and see what needs an operator.",
            "description": "Each time is in seconds since 1970, and as RFC 3339 text.",
            "license": {"name": "Apache-2.0", "identifier": "Apache-2.0"},
        },
        "jsonSchemaDialect": "https://json-schema.org/draft/2020-12/schema",
        "servers": [{"url": "/"}],
        "tags": [{"name": name, "description": description} for name, description in TAGS.items()],
        "security": [{"token": []}],
        "paths": dict(sorted(paths.items())),
        "components": {
            "schemas": {
                name: operation.whole() for name, operation in sorted(records_by_name.items())
            },
            "responses": dict(sorted(shared.items())),
            "headers": {REQUEST_ID_NAME: REQUEST_ID_ANSWER},
            "securitySchemes": {
                "token": {
                    "type": "http",
                    "scheme": "bearer",
                    "description": "`sagas token` creates one.",
                }
            },
        },
    }


def text() -> str:
    """Return the content of the file."""
    from sagas.server.app import operations

    return json.dumps(document(operations()), indent=1, ensure_ascii=False) + "\n"


if __name__ == "__main__":
    print(text(), end="")
