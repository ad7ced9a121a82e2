"""Pages and forms of the dashboard: templates, login redirects and fields."""

from __future__ import annotations

import functools
import string
from typing import Any
from urllib.parse import parse_qsl, quote, urlencode

from starlette.requests import Request
from starlette.responses import HTMLResponse, RedirectResponse, Response

from sagas.server import problems, renderer
from sagas.server.access import (
    SESSION,
    begin_session,
    body_of,
    current_session,
    expired_form,
    service_of,
)
from sagas.server.auth import LOCAL_PRINCIPAL, Session
from sagas.server.database_reads import MISSING
from sagas.server.problems import Problem

EVENTS = "/ui/events"
"""The stream of events that update the pages."""


def address_of(key: str) -> str:
    """Return the page of a saga."""
    return f"/ui/sagas/{quote(key, safe='')}"


def page(
    request: Request, template: str, session: Session | None, status: int = 200, **values: Any
) -> HTMLResponse:
    """Return a page of this template."""
    service = service_of(request)
    defaults: dict[str, Any] = {"here": "", "tokens": service.tokens is not None}
    defaults["missing"] = sorted({**service.missing, **request.scope.get(MISSING, {})})
    if session is not None:
        defaults["paused"] = service.pauses_of(session.principal)
        defaults["can"] = functools.partial(service.may_open, session.principal)
    all_values = {**defaults, "session": session, **values}
    return renderer.Page(service.threads.pages.do, template, all_values, status)


def login_first(request: Request) -> Response:
    """Redirect to the login, and from there back to the requested address.

    A decoded part of the path may contain `#`, `?` or `%`, so the raw path is used.
    """
    target: bytes = request.scope["raw_path"]
    if query := request.scope["query_string"]:
        target += b"?" + query
    parameters = {"next": quote(target, safe=string.punctuation)}
    return RedirectResponse(f"/ui/login?{urlencode(parameters)}", 303)


def show_page(request: Request, template: str, status: int = 200, **values: Any) -> Response:
    """Return a page for the user that `enter` has let in.

    Without tokens, every local user is logged in.
    """
    session: Session | None = request.scope[SESSION]
    if session is not None:
        return page(request, template, session, status, **values)
    response = Response()
    session = begin_session(request, response, LOCAL_PRINCIPAL)
    shown_page = page(request, template, session, status, **values)
    shown_page.headers["set-cookie"] = response.headers["set-cookie"]
    return shown_page


async def form_of(request: Request) -> dict[str, str]:
    """Return the fields of a form. Raises `Problem`."""
    return dict(await fields_of(request, 20))


async def fields_of(request: Request, max_fields: int) -> list[tuple[str, str]]:
    """Return the fields of a form in their order. A name may occur more than once. Raises
    `Problem`.
    """
    kind = request.headers.get("content-type", "").partition(";")[0].strip()
    if kind != "application/x-www-form-urlencoded":
        raise Problem(
            "UnsupportedMediaType", "a form must be sent as application/x-www-form-urlencoded"
        )
    try:
        text = (await body_of(request)).decode("utf-8")
        return parse_qsl(text, keep_blank_values=True, max_num_fields=max_fields)
    except ValueError:
        raise Problem("MalformedRequest", "the form cannot be read") from None


async def session_and_form(request: Request) -> tuple[Session, dict[str, str]]:
    """Return the session of a form, and its fields. Raises the same as `session_and_fields`."""
    session, fields = await session_and_fields(request, 20)
    return session, dict(fields)


async def session_and_fields(
    request: Request, max_fields: int
) -> tuple[Session, list[tuple[str, str]]]:
    """Return the session of a form, and its fields in order.

    Raises `Problem` if the form does not belong to the session. Without a session, the form is
    not read.
    """
    session: Session | None = request.scope[SESSION]
    fields = await fields_of(request, max_fields) if session else []
    if session is None or not session.owns_form(dict(fields).get("csrf", "")):
        raise expired_form()
    return session, fields


def refused(request: Request, problem: Problem) -> Response:
    """Return a page that says why a request was not carried out.

    Without a session, it is a redirect to the login, except for the stream of events.
    """
    if problem.name == "NoSession" and request.scope["path"] != EVENTS:
        return login_first(request)
    session = request.scope[SESSION] if SESSION in request.scope else current_session(request)
    values = {"title": problem.kind.title, "text": f"{problem}.", "back": "/ui"}
    answer = page(request, "fault.html", session, problem.kind.status, **values)
    answer.headers.update(problems.HEADERS.get(problem.kind.status, {}) | problem.headers)
    return answer
