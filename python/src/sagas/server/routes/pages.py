"""Pages of the dashboard: login, list of sagas, workers, static files and events."""

from __future__ import annotations

import datetime
import logging
import re
import time
from typing import Any
from urllib.parse import urlencode

from starlette.requests import Request
from starlette.responses import RedirectResponse, Response

from sagas.base.errors import SagasError
from sagas.core.results import Summary
from sagas.inspection import lists, page_waits, pages as pages_module, wording
from sagas.inspection.lists import COUNTED
from sagas.inspection.page_waits import PageWait
from sagas.inspection.question import Question
from sagas.server import renderer
from sagas.server.access import (
    SESSION,
    address,
    begin_session,
    cookie_of,
    current_session,
    service_of,
)
from sagas.server.auth import Permission, Principal, roles_with
from sagas.server.dashboard import form_of, page, session_and_form, show_page
from sagas.server.database_reads import of_each, replies_to
from sagas.server.event_stream import Listener
from sagas.server.figures import Phases
from sagas.server.operations import Call, Routes
from sagas.server.problems import Problem
from sagas.server.routes import filters
from sagas.server.routes.filters import PAGE_CURSOR, bound_of
from sagas.server.routes.sagas import stream
from sagas.server.service import Service
from sagas.server.shapes import Field, Text
from sagas.server.table_rows import FEW, folded
from sagas.storage.filters import NOTHING, Filter, Scope

routes = Routes("pages", is_page=True)
logger = logging.getLogger("sagas.server")
LISTED, MAX_CLAIMED = 50, 100
FOR_OPERATOR = "operator"
"""The tab of open sagas that wait for an operator."""
TABS = ("open", FOR_OPERATOR, "stuck", "completed", "recovered", "undo_failed", "resolved")
DAY = re.compile(r"\d{4}-\d\d-\d\d")
RECENTLY = 300.0  # seconds since a worker asked; one that is at a long task asks for none


@routes.get("/")
async def top(call: Call) -> Response:
    return RedirectResponse("/ui", 303)


@routes.get("/favicon.ico")
async def icon(call: Call) -> Response:
    return file(call.request, "icon.svg")


@routes.get("/ui/static/{name}")
async def static(call: Call) -> Response:
    """Return a style sheet, a script or an icon."""
    return file(call.request, call.path["name"])


def file(request: Request, name: str) -> Response:
    """Return a static file."""
    static_file = renderer.STATIC.get(name)
    if static_file is None:
        raise Problem("NotFound", "the file does not exist")
    kind, data, tag = static_file
    headers = {
        "etag": tag,
        "cache-control": "max-age=300",
        "content-security-policy": "default-src 'none'; style-src 'unsafe-inline'",
    }
    if request.headers.get("if-none-match") == tag:
        return Response(status_code=304, headers=headers)
    return Response(data, media_type=kind, headers=headers)


@routes.get("/ui/login", query={"next": Field(Text(), default="/ui")})
async def login_page(call: Call) -> Response:
    if call.service.tokens is None:
        return RedirectResponse("/ui", 303)
    return page(call.request, "login.html", None, next=call.query["next"], fault=None)


@routes.post("/ui/login")
async def login(call: Call) -> Response:
    """Start a session with the token of a person."""
    request = call.request
    service, form = service_of(request), await form_of(request)
    if service.tokens is None:
        return RedirectResponse("/ui", 303)
    principal = service.tokens.find(form.get("token", "").strip())
    wanted = form.get("next", "/ui")
    if principal is None or not principal.has_permission(Permission.LOG_IN):
        fault = (
            f"This token does not have the role {' or '.join(roles_with(Permission.LOG_IN))}."
            if service.refusals.take(address(request))
            else "Too many invalid tokens from this address. Try again later."
        )
        return page(request, "login.html", None, 403, next=wanted, fault=fault)
    target = wanted if service.is_page(wanted, principal) else "/ui"
    response = RedirectResponse(target, 303)
    begin_session(request, response, principal)
    logger.info("%s has logged in", principal.name)
    return response


@routes.post("/ui/logout", permission=Permission.LOG_IN)
async def logout(call: Call) -> Response:
    request = call.request
    await session_and_form(request)
    cookie = cookie_of(request)
    service_of(request).sessions.end(request.cookies.get(cookie, ""))
    response = RedirectResponse("/ui/login", 303)
    response.delete_cookie(cookie, path="/ui")
    return response


TEXT = Field(Text(max_length=512), default=None)
FILTERED = ("phase", "search", "definition", "label", "error", "since", "until")
LIST = {name: TEXT for name in FILTERED} | {
    name: Field(PAGE_CURSOR, default=None) for name in ("before", "after")
}


@routes.get("/ui/sagas", permission=Permission.BROWSE, query=LIST)
async def listed(call: Call) -> Response:
    """Show a page of the list, newest first."""
    request = call.request
    service, principal = call.service, call.principal
    since, before, after = service.hub.now, call.query["before"], call.query["after"]
    parameters = {name: call.query[name] for name in FILTERED}
    if parameters["phase"] not in (*wording.PHASES, FOR_OPERATOR):
        parameters["phase"] = None
    fault = None
    counts, needing = await service.figures.of(principal.scope)
    try:
        selected = filter_of(parameters, principal)
    except (ValueError, SagasError) as error:
        fault, selected = f"{error}.", Filter(scope=NOTHING)
    placed = await page_of(call, selected, before, after)
    more, placed = len(placed) > LISTED, placed[:LISTED]
    if after is not None:
        placed.reverse()
    waits, for_operator = await waits_of(call, placed)
    cursors = [
        filters.page_cursor(pages_module.position_of(summary), index)
        for index, summary in placed[:1] + placed[-1:]
    ]
    newer = cursors[0] if cursors and (more if after is not None else before is not None) else None
    older = cursors[-1] if cursors and (more or after is not None) else None

    def url(**change: Any) -> str:
        query = {
            name: value
            for name, value in {**parameters, **change}.items()
            if value not in (None, "")
        }
        return f"/ui/sagas?{urlencode(query)}" if query else "/ui/sagas"

    is_first = before is None and after is None
    return show_page(
        request,
        "list.html",
        here="sagas",
        tabs=tabs_of(counts, needing, for_operator),
        parameters=parameters,
        moments={name: moment_text(parameters[name], name) for name in ("since", "until")},
        fault=fault,
        counts=counts,
        sagas=[summary for _, summary in placed],
        waits=waits,
        newer=newer,
        older=older,
        url=url,
        since=since,
        live="/ui/events" if is_first else None,
    )


Placed = tuple[int, Summary]
"""The index of a database, and one of its sagas."""


async def page_of(
    call: Call, selected: Filter, before: str | None, after: str | None
) -> list[Placed]:
    """Return the sagas next to a cursor, and one more than a page has, from all databases.

    The newest come first, or those next to `after`.
    """

    async def part(service: Service, index: int) -> list[Summary]:
        bounds: dict[str, Any] = {
            "before": bound_of(before, index, is_newer=False),
            "after": bound_of(after, index, is_newer=True),
        }
        return await service.look(pages_module.page(of=selected, limit=LISTED + 1, **bounds))

    parts = await of_each(call, part)
    placed = [(index, summary) for index, part in parts.items() for summary in part]
    placed.sort(key=lambda pair: (pair[1].started, pair[1].id, -pair[0]), reverse=after is None)
    return placed[: LISTED + 1]


def tabs_of(
    counts: Phases, needing: dict[str, int], for_operator: int
) -> list[tuple[str | None, str, int]]:
    """Return the tabs of the list: the phase, the title and the number of each."""
    total = {name: sum(phases[name] for phases in counts.values()) for name in COUNTED}
    shown = {**total, FOR_OPERATOR: for_operator, "undo_failed": needing["undo_failed"]}
    titles = {**wording.PHASES, FOR_OPERATOR: "For an operator"}
    return [
        (None, "All", sum(total.values())),
        *((name, titles[name], shown[name]) for name in TABS),
    ]


async def waits_of(call: Call, placed: list[Placed]) -> tuple[dict[str, list[PageWait]], int]:
    """Return what these sagas wait for, by key, and how many of all wait for an operator."""

    def question(
        sagas: list[Summary], scope: Scope
    ) -> Question[tuple[dict[int, list[PageWait]], int]]:
        waits = yield from page_waits.page_waits(sagas)
        return waits, (yield from page_waits.for_operator(scope))

    async def part(service: Service, index: int) -> tuple[dict[str, list[PageWait]], int]:
        keys = {summary.id: summary.key for of, summary in placed if of == index}
        sagas = [summary for of, summary in placed if of == index]
        waits, number = await service.look(question(sagas, call.principal.scope))
        return {keys[id]: of_saga for id, of_saga in waits.items()}, number

    parts = (await of_each(call, part)).values()
    return {key: waits for of, _ in parts for key, waits in of.items()}, sum(n for _, n in parts)


def moment_text(text: str | None, name: str) -> str:
    """Return a time for its field. A day without a time begins or ends there."""
    if text and DAY.fullmatch(text):
        return f"{text}T{'00:00' if name == 'since' else '23:59'}"
    return text or ""


def moment_of(parameters: dict[str, Any], name: str) -> float | None:
    """Return a time in seconds. The last minute belongs to the range. Raises `ValueError`."""
    text = moment_text(parameters[name], name)
    if not text:
        return None
    try:
        moment = datetime.datetime.fromisoformat(text).replace(tzinfo=datetime.timezone.utc)
    except ValueError:
        raise ValueError(
            f"{name} must be a time, for example 2027-01-31T12:00 or 2027-01-31"
        ) from None
    return moment.timestamp() + (60 if name == "until" else 0)


def filter_of(parameters: dict[str, Any], principal: Principal) -> Filter:
    """Return the filter of the list. Raises `ValueError`, `InvalidLabel`."""
    is_for_operator = parameters["phase"] == FOR_OPERATOR
    return Filter(
        phase="open" if is_for_operator else parameters["phase"],
        saga=parameters["definition"],
        labels=filters.label_filter(parameters["label"]),
        search=parameters["search"],
        scope=principal.scope,
        started_after=moment_of(parameters, "since"),
        started_before=moment_of(parameters, "until"),
        error=parameters["error"],
        is_for_operator=is_for_operator,
    )


@routes.get("/ui/workers", permission=Permission.BROWSE)
async def workers(call: Call) -> Response:
    """Show the tasks that wait for workers, and the workers."""
    request = call.request
    service, principal = call.service, call.principal
    since = service.hub.now
    claimed_of = await replies_to(
        call,
        lambda: lists.waits(MAX_CLAIMED, person=False, why="external", scope=principal.scope),
    )
    claimed = sorted((wait for part in claimed_of for wait in part), key=lambda wait: wait.since)
    now, seen = time.time(), (await service.seen(principal))[:200]
    queues = []
    for queue in await service.queues(principal):
        task_name = f"{queue.saga}/{queue.step}" + ("/undo" if queue.undo else "")
        capable = [worker for worker in seen if task_name in worker.steps]
        queues.append(
            (queue, [worker.name for worker in capable if now - worker.at < RECENTLY], capable[:1])
        )
    known = service.task_names()
    known |= {f"{name}/undo" for name in known}  # a worker may ask for what no step has to undo
    unknown_steps = {
        worker.name: [step for step in worker.steps if step not in known] for worker in seen
    }
    return show_page(
        request,
        "workers.html",
        here="workers",
        live="/ui/events",
        since=since,
        queues=folded(queues, lambda row: (not row[0].ready, bool(row[1]), -row[0].ready)),
        workers=seen,
        strange=unknown_steps,
        claimed=claimed[:MAX_CLAIMED],
        max_claimed=MAX_CLAIMED,
        few=FEW,
        now=now,
    )


@routes.get(
    "/ui/events",
    permission=Permission.LOG_IN,
    streams=True,
    query={"key": TEXT, "since": Field(Text(max_length=40), default=None)},
)
async def events(call: Call) -> Response:
    """Stream the events that update a page, from the moment `since` at which it was requested."""
    request, key, since = call.request, call.query["key"], call.query["since"]
    session = request.scope[SESSION]
    if session is None:
        raise Problem("NoSession", "log in first")
    principal = session.principal

    def still() -> bool:
        now = current_session(request)
        return now is not None and now.principal == principal

    return stream(
        request, principal, Listener(key, None, principal.sees_event), since, still, dashboard=True
    )
