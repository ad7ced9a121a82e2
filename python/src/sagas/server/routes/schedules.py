"""Routes and pages of schedules."""

from __future__ import annotations

import dataclasses
import logging
from collections.abc import Awaitable, Callable
from typing import Any

from starlette.responses import RedirectResponse, Response

from sagas.base.errors import NoSuchSchedule, SagasError
from sagas.definition.payloads import unescaped_value
from sagas.definition.timing import key_of
from sagas.inspection import lists
from sagas.server import answers, json_views, problems
from sagas.server.auth import Permission
from sagas.server.dashboard import session_and_form, show_page
from sagas.server.database_reads import replies_to, unavailable_of
from sagas.server.json_bodies import Json
from sagas.server.operations import Answer, Call, Handler, Routes
from sagas.server.shapes import Choice, Text
from sagas.storage.schedules import Schedule

logger = logging.getLogger("sagas.server")
routes = Routes("operators", "/v1/schedules")
NAME = Text(max_length=128, min_length=1)
DONE = {"pause": "paused", "resume": "resumed", "remove": "removed"}


async def seen(call: Call) -> list[Schedule]:
    """Return the schedules that the principal may see, of all databases, by name."""
    principal, parts = call.principal, await replies_to(call, lists.schedules)
    stored = sorted((row for part in parts for row in part), key=lambda row: row.name)
    return [
        dataclasses.replace(schedule, input=unescaped_value(schedule.input))
        for schedule in stored
        if principal.sees(schedule.saga) and principal.scope.has_key(key_of(schedule.name, 0.0))
    ]


async def check_seen(call: Call, name: str) -> None:
    """Raise `NoSuchSchedule` if there is no schedule of a name that the principal may see.

    Raises `Problem` if a database that does not answer may have it.
    """
    if name not in {schedule.name for schedule in await seen(call)}:
        call.service.check_complete()
        raise NoSuchSchedule(f"no schedule has the name {name!r}")


async def change(call: Call, name: str, verb: str) -> None:
    """Pause, resume or remove a schedule. Raises the same as `check_seen`."""
    await check_seen(call, name)
    store = call.service.store
    changes: dict[str, Callable[[str], Awaitable[None]]] = {
        "pause": store.pause_schedule,
        "resume": store.resume_schedule,
        "remove": store.remove_schedule,
    }
    await changes[verb](name)
    logger.info("%s has %s the schedule %r", call.principal.name, DONE[verb], name)


@routes.get(
    "",
    "listSchedules",
    permission=Permission.LOOK,
    answers={200: Answer("The schedules, by name.", answers.SCHEDULES)},
)
async def listed(call: Call) -> Response:
    """List schedules.

    Returns those of the definitions that the token may see, with their last and next times.
    """
    rows = [json_views.schedule(schedule) for schedule in await seen(call)]
    return Json({"schedules": rows} | unavailable_of(call))


def declare(verb: str, description: str) -> Handler:
    """Declare the route of a change."""

    async def handler(call: Call) -> Response:
        await change(call, call.path["name"], verb)
        return Json({"name": call.path["name"], "done": DONE[verb]})

    handler.__doc__ = description
    path, method = f"/{{name}}/{verb}", routes.post
    if verb == "remove":
        path, method = "/{name}", routes.delete
    return method(
        path,
        f"{verb}Schedule",
        permission=Permission.OPERATE,
        parts={"name": NAME},
        answers={200: Answer("The schedule is changed.", answers.SCHEDULE_CHANGED)},
        problems=("NoSuchSchedule",),
    )(handler)


pause = declare("pause", "Pause a schedule.\n\nIt starts no more sagas until it is resumed.")
resume = declare("resume", "Resume a schedule.\n\nIt continues with its next time.")
remove = declare("remove", "Remove a schedule.\n\nSagas that it started remain.")


# -- pages


page_routes = Routes("pages", is_page=True)
REMOVE: dict[str, Any] = {
    "verb": "Remove it",
    "danger": True,
    "text": (
        "It starts no more sagas. Sagas that it started remain. This cannot be undone. The "
        "service's log records your name and the time."
    ),
}


@page_routes.get("/ui/schedules", permission=Permission.BROWSE)
async def schedules_page(call: Call) -> Response:
    """Show the schedules, by name."""
    return await shown_schedules(call)


async def shown_schedules(call: Call, status: int = 200, fault: str | None = None) -> Response:
    values = {"schedules": await seen(call), "fault": fault}
    return show_page(call.request, "schedules.html", status, here="schedules", **values)


@page_routes.get(
    "/ui/schedules/{name}/{change}",
    permission=Permission.OPERATE,
    parts={"change": Choice(("remove",))},
)
async def remove_page(call: Call) -> Response:
    """Ask for confirmation before a schedule is removed, because this cannot be undone."""
    name = call.path["name"]
    await check_seen(call, name)
    values: dict[str, Any] = {"title": f"Remove the schedule {name}?", **REMOVE}
    crumbs = [("/ui/schedules", "Schedules")]
    return show_page(call.request, "confirm.html", here="schedules", crumbs=crumbs, **values)


@page_routes.post(
    "/ui/schedules/{name}/{change}",
    permission=Permission.OPERATE,
    parts={"change": Choice((*DONE,))},
)
async def schedule_changed(call: Call) -> Response:
    await session_and_form(call.request)
    try:
        await change(call, call.path["name"], call.path["change"])
    except SagasError as error:
        return await shown_schedules(call, 409, str(problems.of(error)))
    return RedirectResponse("/ui/schedules", 303)
