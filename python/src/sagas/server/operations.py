"""Operations of the API: what each takes and answers, and how a request becomes a call."""

from __future__ import annotations

import dataclasses
import functools
import json
import logging
from collections.abc import Awaitable, Callable, Mapping
from typing import Any

from starlette.requests import Request
from starlette.responses import Response
from starlette.routing import Route

from sagas.base.errors import SagasError
from sagas.definition.arguments import meant
from sagas.server import json_bodies, problems
from sagas.server.access import (
    authorize,
    body_of,
    check_capacity,
    current_session,
    enter,
    is_operator_session,
    service_of,
    unslashed,
)
from sagas.server.auth import ANONYMOUS, Permission, Principal
from sagas.server.middleware import Receive, Scope, Send
from sagas.server.problems import Problem
from sagas.server.service import Service
from sagas.server.shapes import (
    MAX_SHOWN,
    REQUIRED,
    Field,
    Invalid,
    Record,
    Several,
    Shape,
    read_fields,
)
from sagas.server.threads import LARGE

logger = logging.getLogger("sagas.server")


@dataclasses.dataclass(slots=True)
class Call:
    """An authorized and parsed request."""

    request: Request
    principal: Principal
    path: Mapping[str, Any]
    query: Mapping[str, Any]
    body: Any

    @property
    def service(self) -> Service:
        """Return the service."""
        return service_of(self.request)

    @property
    def key(self) -> str:
        """Return the key of the saga that the path names."""
        key: str = self.path["key"]
        return key


Handler = Callable[[Call], Awaitable[Response]]
Refuse = Callable[[Request, Problem], Response]


@dataclasses.dataclass(frozen=True)
class Answer:
    """A response of an operation: JSON of a shape, or another media type.

    `or_text`: a parameter can select plain text instead.
    """

    description: str
    shape: Shape | None = None
    media_type: str = "application/json"
    example: Any = None
    headers: Mapping[str, str] = dataclasses.field(default_factory=dict)
    or_text: bool = False


@dataclasses.dataclass(frozen=True)
class Operation:
    """One method of one path.

    Attributes:
        headers: The request headers that its handler reads.
        problems: The problems of this operation, in addition to those of every operation.
        permission: What the token must permit, on a page that of the session. None: no token is
            needed.
    """

    method: str
    path: str
    name: str
    tag: str
    handler: Handler
    permission: Permission | None = None
    parts: Mapping[str, Shape] = dataclasses.field(default_factory=dict)
    query: Mapping[str, Field] = dataclasses.field(default_factory=dict)
    headers: Mapping[str, Field] = dataclasses.field(default_factory=dict)
    body: Record | None = None
    answers: Mapping[int, Answer] = dataclasses.field(default_factory=dict)
    problems: tuple[str, ...] = ()
    streams: bool = False

    @property
    def documentation(self) -> tuple[str, str]:
        """Return its summary and its description."""
        summary, _, more = (self.handler.__doc__ or "").partition("\n\n")
        return " ".join(summary.split()).rstrip("."), " ".join(more.split())

    async def call(self, request: Request, principal: Principal, is_open: bool) -> Call:
        """Parse a request. Raises `Problem`."""
        path = {name: unslashed(text) for name, text in request.path_params.items()}
        try:
            for name, shape in self.parts.items():
                path[name] = shape.of_text(path[name], name)
        except Invalid:
            raise path_not_found() from None
        query = read_query(self.query, request, is_open)
        body = None if self.body is None else await read_body(self.body, request)
        return Call(request, principal, path, query, body)


def path_not_found() -> Problem:
    """Return the problem for a path that does not exist."""
    return Problem("NotFound", "the path does not exist; /openapi.json lists all paths")


def read_query(fields: Mapping[str, Field], request: Request, is_open: bool) -> dict[str, Any]:
    """Parse the parameters of a query. Raises `Problem`.

    `is_open`: unknown parameters are ignored, as on pages.
    """
    values = {name: field.default for name, field in fields.items()}
    seen: set[str] = set()
    try:
        for name, text in request.query_params.multi_items():
            shape = fields[name].shape if name in fields else None
            if isinstance(shape, Several):
                texts = [*(values[name] or ()), shape.of.of_text(text, name)]
                values[name] = shape.read(texts, name)
            elif name in fields and name not in seen and (text or not is_open):
                values[name] = fields[name].shape.of_text(text, name)
            elif name in seen:
                raise Invalid(name, "must occur only once")
            elif name not in fields and not is_open:
                shown = name[:MAX_SHOWN]
                raise Invalid(shown, f"unknown parameter{meant(shown, [*fields])}")
            seen.add(name)
        for name, value in values.items():
            if value is REQUIRED:
                raise Invalid(name, "is required")
    except Invalid as error:
        raise invalid(error) from None
    return values


async def read_body(shape: Record, request: Request) -> dict[str, Any]:
    """Parse the body by its shape. Raises `Problem`."""
    sent = request.headers.get("content-type", "").partition(";")[0].strip().lower()
    is_empty = shape.is_optional and not sent
    if not is_empty and sent != "application/json" and not sent.endswith("+json"):
        shown = f"as {sent[:MAX_SHOWN]!r}" if sent else "without a Content-Type"
        raise Problem(
            "UnsupportedMediaType",
            f"the body was sent {shown}: send it with Content-Type: application/json",
            headers={"Accept": "application/json"},
        )
    text = await body_of(request)
    if is_empty and not text:
        return read_fields(shape.fields, {}, "")
    read = functools.partial(json_bodies.read_bytes, text)
    try:
        value = read() if len(text) < LARGE else await service_of(request).threads.answers.do(read)
    except json.JSONDecodeError as error:
        why = f"the body is not valid JSON (line {error.lineno}): send an object"
        raise Problem("InvalidJson", why) from None
    except UnicodeDecodeError:
        raise Problem("InvalidJson", "the body is not UTF-8: send an object as JSON") from None
    except ValueError as error:
        raise Problem("InvalidJson", f"the body is not accepted as JSON: {error}") from None
    try:
        return shape.read(value, "")
    except Invalid as error:
        raise invalid(error) from None


def invalid(error: Invalid) -> Problem:
    """Return the problem for a part of the request that does not match its shape."""
    return Problem("InvalidRequest", f"{error.field or 'the body'}: {error}", error.field or None)


class Resource:
    """The operations of one path, as an ASGI application.

    `refuse` answers a problem. `is_page`: whether it belongs to the dashboard.
    """

    def __init__(self, path: str, is_page: bool, refuse: Refuse) -> None:
        self.path, self._is_page, self._refuse = path, is_page, refuse
        self.operations: dict[str, Operation] = {}

    @property
    def allowed(self) -> str:
        """Return the value of the `Allow` header."""
        names = {*self.operations} | ({"HEAD"} if "GET" in self.operations else set())
        return ", ".join(sorted(names))

    async def __call__(self, scope: Scope, receive: Receive, send: Send) -> None:
        request = Request(scope, receive)
        answer = await self._answer(request)
        if scope["method"] == "HEAD":
            answer = headers_of(answer)
        await answer(scope, receive, send)

    async def _answer(self, request: Request) -> Response:
        try:
            return await self._carried_out(request)
        except Problem as problem:
            return self._refuse(request, problem)
        except SagasError as error:
            return self._refuse(request, problems.of(error))
        except RecursionError:
            why = "a stored value has too many levels of lists and objects to be shown"
            return self._refuse(request, Problem("InternalError", why))

    async def _carried_out(self, request: Request) -> Response:
        """Return the answer.

        Without permission, a request is refused before its body is read. Raises `Problem`, and
        errors of the package.
        """
        method = request.method
        operation = self.operations.get("GET" if method == "HEAD" else method)
        if operation is None:
            raise Problem(
                "MethodNotAllowed",
                f"this path supports only {self.allowed}",
                headers={"Allow": self.allowed},
            )
        principal = self._principal(request, operation.permission)
        call = await operation.call(request, principal, self._is_page)
        if method == "HEAD" and operation.streams:
            return Response(media_type="text/event-stream")
        return await call.service.carry_out(operation, call)

    def _principal(self, request: Request, permission: Permission | None) -> Principal:
        """Return the principal of a request: of a page by its session, else by its token.

        Raises `Problem` if it does not have the permission.
        """
        if permission is not None:
            return enter(request, permission) if self._is_page else authorize(request, permission)
        session = current_session(request) if self._is_page else None
        check_capacity(request, is_operator=is_operator_session(session))
        return ANONYMOUS


def headers_of(answer: Response) -> Response:
    """Return an answer without its body."""
    head = Response(status_code=answer.status_code)
    head.raw_headers = answer.raw_headers
    return head


class Routes:
    """Operations with a common path prefix, declared by decorators."""

    def __init__(self, tag: str, prefix: str = "", is_page: bool = False) -> None:
        self.tag, self.prefix, self.is_page = tag, prefix, is_page
        self.operations: list[Operation] = []

    def get(self, path: str, name: str = "", **options: Any) -> Callable[[Handler], Handler]:
        """Declare the handler of `GET`."""
        return self._declare("GET", path, name, options)

    def post(self, path: str, name: str = "", **options: Any) -> Callable[[Handler], Handler]:
        """Declare the handler of `POST`."""
        return self._declare("POST", path, name, options)

    def delete(self, path: str, name: str = "", **options: Any) -> Callable[[Handler], Handler]:
        """Declare the handler of `DELETE`."""
        return self._declare("DELETE", path, name, options)

    def _declare(
        self, method: str, path: str, name: str, options: dict[str, Any]
    ) -> Callable[[Handler], Handler]:
        def declare(handler: Handler) -> Handler:
            self.operations.append(
                Operation(method, self.prefix + path, name, self.tag, handler, **options)
            )
            return handler

        return declare


def resources(groups: list[Routes], refuse: Refuse, refuse_page: Refuse) -> list[Route]:
    """Return the routes of a router, one for each path."""
    result: dict[str, Resource] = {}
    for routes in groups:
        for operation in routes.operations:
            shown = refuse_page if routes.is_page else refuse
            resource = result.setdefault(
                operation.path, Resource(operation.path, routes.is_page, shown)
            )
            resource.operations[operation.method] = operation
    return [Route(path, resource) for path, resource in result.items()]
