"""The application: its routes, and how problems are answered."""

from __future__ import annotations

from starlette.requests import Request
from starlette.responses import Response
from starlette.routing import Route, Router

from sagas.server import openapi, problems
from sagas.server.auth import Permission
from sagas.server.connections import Connections
from sagas.server.dashboard import refused
from sagas.server.middleware import DASHBOARD, LOGIN, REQUEST_ID, Guard, Receive, Scope, Send
from sagas.server.operations import Operation, path_not_found, resources
from sagas.server.problems import Problem
from sagas.server.routes import (
    attention,
    decisions,
    definitions,
    deliveries,
    inbox,
    nodes,
    operators,
    page_forms,
    pages,
    pauses,
    saga_pages,
    sagas,
    schedules,
    tasks,
    trends,
)
from sagas.server.service import Service
from sagas.server.service_set import ServiceSet
from sagas.server.settings import Settings
from sagas.storage.store_name import urls_of

API = [
    tasks.routes,
    sagas.routes,
    attention.routes,
    definitions.routes,
    trends.routes,
    schedules.routes,
    pauses.routes,
    nodes.routes,
    operators.routes,
    decisions.routes,
    deliveries.routes,
    openapi.routes,
]
PAGES = [
    inbox.routes,
    definitions.page_routes,
    pages.routes,
    saga_pages.routes,
    page_forms.routes,
    schedules.page_routes,
    pauses.page_routes,
    nodes.page_routes,
    decisions.page_routes,
    deliveries.page_routes,
]


def operations() -> list[Operation]:
    """Return all operations of the API."""
    return [operation for routes in API for operation in routes.operations]


def answered(request: Request, problem: Problem) -> Response:
    """Return the response for a problem of an API call."""
    return problems.response(problem, request.scope.get(REQUEST_ID))


class Paths:
    """A router that looks up fixed paths directly.

    The wrapped router would compare a request with each path in turn.
    """

    def __init__(self, routes: list[Route]) -> None:
        self._router = Router(routes, redirect_slashes=False, default=no_such_path)
        self._exact = {route.path: route.app for route in routes if not route.param_convertors}

    async def __call__(self, scope: Scope, receive: Receive, send: Send) -> None:
        app = self._exact.get(scope["path"]) if scope["type"] == "http" else None
        if app is None:
            await self._router(scope, receive, send)
            return
        scope["path_params"] = {}
        await app(scope, receive, send)


async def no_such_path(scope: Scope, receive: Receive, send: Send) -> None:
    """Answer that the path does not exist."""
    await problems.response(path_not_found(), scope.get(REQUEST_ID))(scope, receive, send)


def application(
    settings: Settings, connections: Connections | None = None
) -> tuple[Guard, Service]:
    """Return the application over a store. The server opens and closes the store."""
    service = ServiceSet(settings) if len(urls_of(settings.path)) > 1 else Service(settings)
    routes = resources([*API, *PAGES], answered, refused)
    service.pages = {route.path: route.path_regex for route in routes if is_shown(route)}
    service.page_permissions = permissions_of_pages()
    return Guard(Paths(routes), service, connections), service


def permissions_of_pages() -> dict[tuple[str, str], Permission | None]:
    """Return what each route of the dashboard requires, by its method and path."""
    return {
        (operation.method, operation.path): operation.permission
        for routes in PAGES
        for operation in routes.operations
    }


def is_shown(route: Route) -> bool:
    """Return whether a route is a page that users visit."""
    is_page = route.path == DASHBOARD or route.path.startswith(f"{DASHBOARD}/")
    is_aside = route.path in (LOGIN, f"{DASHBOARD}/events", f"{DASHBOARD}/static/{{name}}")
    return is_page and not is_aside and "GET" in getattr(route.app, "operations", ())
