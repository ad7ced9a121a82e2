"""Routes and the page of pauses."""

from __future__ import annotations

import logging
from collections.abc import Mapping
from typing import Any

from starlette.responses import RedirectResponse, Response

from sagas.base.errors import SagasError
from sagas.core.decisions import Requester
from sagas.core.pauses import Pause, PauseScope, scope_of
from sagas.inspection import pauses as questions
from sagas.server import answers, problems
from sagas.server.access import on_page, over_http
from sagas.server.auth import Permission, Principal
from sagas.server.dashboard import session_and_form, show_page
from sagas.server.database_reads import replies_to, unavailable_of
from sagas.server.json_bodies import Json, times
from sagas.server.operations import Answer, Call, Routes
from sagas.server.problems import Problem
from sagas.server.service import Service
from sagas.server.shapes import Field, Flag, Nullable, Record, Text

logger = logging.getLogger("sagas.server")
routes = Routes("operators", "/v1/pauses")
EVERYTHING = "*"
"""The choice of everything in the form of the dashboard."""
NAME = Nullable(Text(max_length=128, min_length=1))
SCOPE = {
    "definition": Field(NAME, "the name of the definition, of all its versions", default=None),
    "step": Field(NAME, "only this step of the definition", default=None),
    "queue": Field(NAME, "the name of a Celery queue, instead of a definition", default=None),
}
"""What a pause covers. Without any of them, that is everything."""
NOTE = Text(max_length=2000, min_length=1, strip=True)
PAUSE = Record(
    "PauseRequest",
    {
        **SCOPE,
        "note": Field(NOTE, "why; stored with the name of the token and the time"),
        "forward_only": Field(Flag(), "start compensations nevertheless", default=False),
        "refuse_starts": Field(
            Flag(), "answer 503 to starts; default: the sagas start, and wait", default=False
        ),
    },
    "Without `definition` and `queue`, everything is paused.",
    {"definition": "pay", "step": "charge", "note": "the bank is down"},
)


def pause_json(pause: Pause) -> dict[str, Any]:
    """Return a pause as JSON values."""
    scope = {"definition": pause.saga, "step": pause.step, "queue": pause.queue}
    flags = {"forward_only": pause.forward_only, "refuse_starts": pause.refuse_starts}
    return {**scope, **flags, "note": pause.note, "by": pause.by, **times(at=pause.at)}


def may_change(principal: Principal, scope: PauseScope) -> bool:
    """Return whether a principal may pause a scope: all its sagas are in that of the principal."""
    return principal.scope.keys is None and principal.sees(scope.saga)


def scope_in(principal: Principal, fields: Mapping[str, Any]) -> PauseScope:
    """Return the scope that a request names. Raises `Problem`."""
    try:
        scope = scope_of(fields["definition"], fields["step"], fields["queue"])
    except ValueError:
        why = "pass `step` only with `definition`, and `queue` without them"
        raise Problem("InvalidRequest", why) from None
    if not may_change(principal, scope):
        raise Problem("Forbidden", f"{principal.name} has no right to pause {scope.text}")
    return scope


async def seen(call: Call) -> list[Pause]:
    """Return the pauses that may hold sagas which the principal may see, the oldest first.

    A pause is in all databases.
    """
    parts, principal = await replies_to(call, questions.pauses), call.principal
    stored = sorted((pause for part in parts for pause in part), key=lambda pause: pause.at)
    scopes = {pause.scope: pause for pause in reversed(stored)}
    return [
        pause
        for pause in stored
        if scopes[pause.scope] is pause and (pause.saga is None or principal.sees(pause.saga))
    ]


async def pause_scope(
    service: Service, principal: Principal, by: Requester, fields: Mapping[str, Any]
) -> None:
    """Pause a scope. Raises `Problem`."""
    scope = scope_in(principal, fields)
    flags = {name: fields[name] for name in ("forward_only", "refuse_starts")}
    options = {"queue": scope.queue, "note": fields["note"], "by": by, **flags}
    try:
        await service.store.pause(scope.saga, scope.step, **options)
    except ValueError as error:
        raise Problem("InvalidRequest", str(error)) from None
    logger.info("%s has paused %s", principal.name, scope.text)


async def resume_scope(
    service: Service, principal: Principal, by: Requester, fields: Mapping[str, Any]
) -> None:
    """Resume a scope. Raises `NoSuchPause` and `Problem`."""
    scope = scope_in(principal, fields)
    await service.store.resume(scope.saga, scope.step, queue=scope.queue, by=by)
    logger.info("%s has resumed %s", principal.name, scope.text)


@routes.get(
    "",
    "listPauses",
    permission=Permission.LOOK,
    answers={200: Answer("The pauses, the oldest first.", answers.PAUSES)},
)
async def listed(call: Call) -> Response:
    """List pauses.

    Returns those that may hold sagas which the token may see.
    """
    rows = [pause_json(pause) for pause in await seen(call)]
    return Json({"pauses": rows} | unavailable_of(call))


@routes.post(
    "",
    "pause",
    permission=Permission.OPERATE,
    body=PAUSE,
    answers={200: Answer("The scope is paused.", answers.PAUSES)},
)
async def pause(call: Call) -> Response:
    """Pause a definition, a step, a queue or everything.

    No attempt of it starts until it is resumed; attempts that run end as usual. A second pause of
    the same scope replaces the first one. Returns all pauses.
    """
    await pause_scope(call.service, call.principal, over_http(call.principal), call.body)
    return await listed(call)


@routes.delete(
    "",
    "resume",
    permission=Permission.OPERATE,
    query=SCOPE,
    answers={200: Answer("The scope is resumed.", answers.PAUSES)},
    problems=("NoSuchPause",),
)
async def resume(call: Call) -> Response:
    """Resume what is paused.

    Without parameters, it ends the pause of everything. Other pauses that cover the same attempts
    stay in effect. Returns all pauses.
    """
    await resume_scope(call.service, call.principal, over_http(call.principal), call.query)
    return await listed(call)


# -- the page


page_routes = Routes("pages", is_page=True)


@page_routes.get("/ui/pauses", permission=Permission.BROWSE)
async def pauses_page(call: Call) -> Response:
    """Show the pauses, and a form to pause more."""
    return await shown_pauses(call, {})


async def shown_pauses(
    call: Call, form: Mapping[str, Any], status: int = 200, fault: str | None = None
) -> Response:
    principal, visible = call.principal, await seen(call)
    names = sorted({saga.name for saga in call.service.store.sagas if principal.sees(saga.name)})
    values = {
        "pauses": [(pause, may_change(principal, pause.scope)) for pause in visible],
        "names": names,
        "everything": may_change(principal, PauseScope()),
        "form": form,
        "fault": fault,
    }
    return show_page(call.request, "pauses.html", status, here="pauses", **values)


def fields_of_form(form: Mapping[str, str]) -> dict[str, Any]:
    """Return the fields of a pause. Raises `Problem` if the form names nothing."""
    definition, queue = form.get("definition", ""), form.get("queue", "").strip()
    if not definition and not queue:
        raise Problem("InvalidRequest", "choose a definition, everything, or a queue")
    return {
        "definition": None if definition in ("", EVERYTHING) else definition,
        "step": form.get("step", "").strip() or None,
        "queue": queue or None,
        "note": form.get("note", "").strip()[:2000],
        "forward_only": form.get("forward_only") == "on",
        "refuse_starts": form.get("refuse_starts") == "on",
    }


@page_routes.post("/ui/pauses", permission=Permission.OPERATE)
async def paused(call: Call) -> Response:
    """Pause what the form names."""
    return await _changed(call, pause_scope)


@page_routes.post("/ui/pauses/resume", permission=Permission.OPERATE)
async def resumed(call: Call) -> Response:
    """Resume what the form names."""
    return await _changed(call, resume_scope)


async def _changed(call: Call, change: Any) -> Response:
    session, form = await session_and_form(call.request)
    try:
        principal = session.principal
        await change(call.service, principal, on_page(principal), fields_of_form(form))
    except (Problem, SagasError) as error:
        problem = error if isinstance(error, Problem) else problems.of(error)
        return await shown_pauses(call, form, problem.kind.status, str(problem))
    return RedirectResponse("/ui/pauses", 303)
