"""The sender of a request, and what it may do: tokens, sessions, roles and rates.

`Resource` checks the headers first: a request without permission is answered before a byte of
its body is read. A request that waits ends with its client, its token or the service.
"""

from __future__ import annotations

import asyncio
import contextlib
import functools
from collections.abc import Iterator, Mapping
from typing import Any

from starlette.requests import Request
from starlette.responses import Response

from sagas.core.decisions import Requester, Way
from sagas.server.auth import LOCAL_PRINCIPAL, Permission, Principal, Session, roles_with
from sagas.server.event_stream import CHECK_INTERVAL
from sagas.server.limits import RequestKind
from sagas.server.middleware import CROWDING, FOLLOWED, GONE, LEAVE, LOGIN, SERVICE, SLASH
from sagas.server.problems import Problem
from sagas.server.service import Service
from sagas.server.threads import CURRENT_CLIENT

PRINCIPAL_NAME = "sagas.who"
"""In a scope: the name of the principal, for the log."""
PRINCIPAL = "sagas.owner"
"""In a scope: the `Principal`, once the request is authorized."""
SESSION = "sagas.session"
"""In a scope: the `Session` of a page, or None without tokens as long as there is none."""
SIZE = "sagas.size"
"""In a scope: the number of bytes of the body, once it was read."""
HAS_SLOT = "sagas.place"
"""In a scope: whether the request occupies one of its token's slots."""
ANY_TIME = ("/health/", "/ui/static/", LOGIN)
"""Paths that are answered regardless of the number of connections: they are fast and need no
token.
"""
RIGHTS_CHECK = "sagas.check"
"""In a scope: a function that raises `Problem` if the principal has lost the permission."""
COOKIE = "sagas_session"
"""The name of the session's cookie, before the port."""


def service_of(request: Request) -> Service:
    service: Service = request.scope[SERVICE]
    return service


def address(request: Request) -> str:
    return request.client.host if request.client else "?"


def authenticate(request: Request) -> Principal:
    """Return the principal of the request's bearer token. Raises `Problem`."""
    service = service_of(request)
    if service.tokens is None:
        return LOCAL_PRINCIPAL
    kind, _, token = request.headers.get("authorization", "").partition(" ")
    bearer = token.strip() if kind.lower() == "bearer" else ""
    principal = service.tokens.find(bearer) if bearer else None
    if principal is None:
        if not service.refusals.take(address(request)):
            raise Problem(
                "TooManyRequests", "too many requests without a valid token from this address"
            )
        raise Problem(
            "Unauthorized", f"{_why_not(service, bearer)}. Send it as Authorization: Bearer TOKEN"
        )
    return principal


def _why_not(service: Service, token: str) -> str:
    if not token:
        return "this request requires a token"
    if service.tokens is not None and service.tokens.has_expired(token):
        return "the token has expired. Create another one with `sagas token`"
    return "the token is not in the token file. Create one with `sagas token`"


def count_request(request: Request, principal: Principal) -> None:
    """Count the request. Raises `Problem` if its client exceeds the rate."""
    if not service_of(request).rates.take(client_key(request, principal)):
        raise Problem("TooManyRequests", "too many requests: retry in a second")


def client_key(request: Request, principal: Principal) -> str:
    """Return what requests and streams are counted by: the token, or without tokens the address."""
    return principal.digest or address(request)


def occupy(request: Request, principal: Principal) -> None:
    """Take one of the token's slots until the request ends. Raises `Problem`."""
    CURRENT_CLIENT.set(client_key(request, principal))
    if HAS_SLOT not in request.scope:
        leave = service_of(request).concurrency.take(
            client_key(request, principal), RequestKind.CONNECTION
        )
        request.scope[HAS_SLOT] = True
        request.scope[LEAVE].append(leave)


@contextlib.contextmanager
def waiting(request: Request, principal: Principal, kind: RequestKind) -> Iterator[None]:
    """Count the request as waiting. Raises `Problem` if too many of the token wait."""
    leave = service_of(request).concurrency.take(client_key(request, principal), kind)
    try:
        yield
    finally:
        leave()


def check_capacity(request: Request, is_operator: bool) -> None:
    """Raise `Problem` if the remaining connections are reserved for health checks and operators."""
    why = request.scope[CROWDING]
    if why and not is_operator and not request.scope["path"].startswith(ANY_TIME):
        raise Problem("TooManyConnections", f"{why}: retry later", headers={"Connection": "close"})


def authorize(request: Request, permission: Permission) -> Principal:
    """Return the principal of a request.

    Raises `Problem` if its headers do not prove the permission.
    """
    principal = authenticate(request)
    request.scope[PRINCIPAL_NAME] = principal.name
    check_permission(principal, permission)
    has_tokens = service_of(request).tokens is not None
    check_capacity(request, is_operator=has_tokens and principal.has_permission(Permission.OPERATE))
    count_request(request, principal)
    occupy(request, principal)
    request.scope[PRINCIPAL] = principal
    request.scope[RIGHTS_CHECK] = functools.partial(check_unchanged, request, principal)
    return principal


def check_permission(principal: Principal, permission: Permission) -> None:
    """Raise `Problem` if none of the principal's roles has the permission."""
    if not principal.has_permission(permission):
        owner = f"{principal.name} ({', '.join(sorted(principal.roles))})"
        reason = f"{owner} is not permitted to {permission.value}"
        roles = " or ".join(roles_with(permission))
        raise Problem("Forbidden", f"{reason}: use a token with the role {roles}")


async def body_of(request: Request) -> bytes:
    """Return the whole body.

    Each route reads its body by this function. A body may take long to arrive, so this raises
    `Problem` if the principal has lost its permission since.
    """
    body = b"".join([part async for part in request.stream()])  # the request would keep it
    request.scope[SIZE] = len(body)
    if RIGHTS_CHECK in request.scope:
        request.scope[RIGHTS_CHECK]()
    return body


def is_unchanged(request: Request, principal: Principal) -> bool:
    """Return whether the token file still has the same entry for the token, and it has not
    expired.
    """
    tokens = service_of(request).tokens
    return tokens is None or tokens.of(principal.digest) == principal


def check_unchanged(request: Request, principal: Principal) -> None:
    """Raise `Problem` if the token has expired or changed since the request was authorized."""
    if not is_unchanged(request, principal):
        authenticate(request)  # raises if the token is not valid any more
        raise rights_changed()


def rights_changed() -> Problem:
    """Return the problem for a token whose rights have changed."""
    return Problem("RightsChanged", "the rights of your token have changed. Send the request again")


def over_http(principal: Principal) -> Requester:
    """Return who decides by a call of the API."""
    return Requester(principal.name, Way.HTTP)


def on_page(principal: Principal) -> Requester:
    """Return who decides on a page of the dashboard."""
    return Requester(principal.name, Way.DASHBOARD)


def check_definition(principal: Principal, definition: str | None, starts: bool = True) -> None:
    """Raise `Problem` if the token has no right to sagas of this definition.

    `starts`: whether sagas are to be started. No caller starts sagas that undo children.
    """
    sees = principal.sees if starts else principal.scope.may_have
    if definition is not None and not sees(definition):
        raise Problem(
            "Forbidden", f"{principal.name} has no right to the definition {definition[:64]!r}"
        )


def check_key(principal: Principal, key: str) -> None:
    """Raise `Problem` if the token may not start sagas with this key."""
    if not principal.scope.has_key(key):
        raise Problem("Forbidden", f"{principal.name} has no right to the key {key[:64]!r}")


def check_steps(principal: Principal, steps: list[str], ended: Mapping[str, str]) -> None:
    """Raise `Problem` if the token may not claim tasks of some of these steps.

    `ended` is as of `Principal.does`.
    """
    forbidden = sorted({step for step in steps if not principal.does(step, ended)})
    if forbidden:
        listed = ", ".join(forbidden[:10]) + (" ..." if forbidden[10:] else "")
        raise Problem("Forbidden", f"{principal.name} has no right to the steps {listed}")


def unslashed(text: str) -> str:
    """Return a part of a path with its own slashes."""
    return text.replace(SLASH, "/")


# -- waits that end with their client


async def wait_for(
    request: Request,
    principal: Principal,
    work: "asyncio.Future[Any]",
    seconds: float,
    *ends: "asyncio.Future[None]",
) -> bool:
    """Wait for work until the client, its token or the service ends.

    The wait also ends when one of the `ends` is done, or the client sends something else.
    Returns whether the work is done. Otherwise, it is cancelled and awaited. Raises `Problem`
    if the token has expired or changed.
    """
    service, loop = service_of(request), asyncio.get_running_loop()
    futures = {work, request.scope[GONE], request.scope[FOLLOWED], service.stopping, *ends}
    slice = seconds if service.tokens is None else min(seconds, CHECK_INTERVAL)
    until = loop.time() + seconds
    try:
        while not await _any_done(futures, min(slice, until - loop.time())):
            check_unchanged(request, principal)
            if loop.time() >= until:
                return False
        return work.done()
    finally:
        if not work.done():
            work.cancel()
            with contextlib.suppress(asyncio.CancelledError, Exception):
                await work


async def _any_done(futures: "set[asyncio.Future[Any]]", seconds: float) -> bool:
    """Return whether one of the futures is done within a time."""
    done, _ = await asyncio.wait(
        futures, timeout=max(0.0, seconds), return_when=asyncio.FIRST_COMPLETED
    )
    return bool(done)


# -- sessions of the dashboard


def cookie_of(request: Request) -> str:
    """Return the cookie's name, with the port that the browser uses.

    Browsers send the cookies of a host to all of its ports, and another service may use one of
    them.
    """
    port = request.headers.get("host", "").rpartition("]")[2].partition(":")[2]
    return f"{COOKIE}_{port}" if port.isascii() and port.isdigit() and len(port) < 6 else COOKIE


def enter(request: Request, permission: Permission) -> Principal:
    """Return the principal of a page's session, with the current rights of its token.

    Without tokens, every local user is logged in. Raises `Problem` without a session, or
    the session's token does not have the permission.
    """
    session = request.scope[SESSION] = current_session(request)
    check_capacity(request, is_operator=is_operator_session(session))
    if session is None and service_of(request).tokens is not None:
        is_form = request.method == "POST"
        raise expired_form() if is_form else Problem("NoSession", "log in first")
    principal = request.scope[PRINCIPAL] = LOCAL_PRINCIPAL if session is None else session.principal
    request.scope[PRINCIPAL_NAME] = principal.name
    if session is not None:
        check = functools.partial(check_session_unchanged, request, principal)
        request.scope[RIGHTS_CHECK] = check
        count_request(request, principal)
        occupy(request, principal)
    check_permission(principal, permission)
    return principal


def is_operator_session(session: Session | None) -> bool:
    """Return whether a session is that of an operator."""
    return session is not None and session.principal.has_permission(Permission.OPERATE)


def current_session(request: Request) -> Session | None:
    """Return the session of the request's cookie, with the current rights of its token, or None."""
    service = service_of(request)
    session = service.sessions.find(request.cookies.get(cookie_of(request), ""))
    if session is None:
        return None
    principal = (
        LOCAL_PRINCIPAL if service.tokens is None else service.tokens.of(session.principal.digest)
    )
    if principal is None or not principal.has_permission(Permission.LOG_IN):
        return None  # its token is not in the file any more, or has expired
    session.principal = principal
    return session


def check_session_unchanged(request: Request, principal: Principal) -> None:
    """Raise `Problem` if the session has ended since the request was authorized, or its token
    changed.
    """
    session = current_session(request)
    if session is None:
        raise expired_form()
    if session.principal != principal:
        raise rights_changed()


def expired_form() -> Problem:
    """Return the problem for a form that does not belong to the session."""
    return Problem(
        "ExpiredForm",
        "this form does not belong to your session: go back, reload the page, and send it again",
    )


def viewer_of(request: Request) -> Principal:
    """Return the principal that `enter` has let see a page."""
    principal: Principal = request.scope[PRINCIPAL]
    return principal


def begin_session(request: Request, response: Response, principal: Principal) -> Session:
    """Start a session and set its cookie."""
    name, session = service_of(request).sessions.begin(principal)
    response.set_cookie(
        cookie_of(request),
        name,
        path="/ui",
        httponly=True,
        samesite="lax",
        secure=request.url.scheme == "https",
        max_age=int(service_of(request).settings.session_time),
    )
    return session
