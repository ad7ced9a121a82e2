"""The page of a saga, and its certificate."""

from __future__ import annotations

import asyncio
import base64
import contextlib
import functools
import json
import re
import time
from collections.abc import Callable
from typing import Any
from urllib.parse import quote, urlencode

from starlette.responses import Response

from sagas.api.restarts import is_restartable
from sagas.base.errors import DefinitionError, NoSuchSaga
from sagas.base.program import planner_page
from sagas.core.decisions import APPROVAL, Decision
from sagas.definition import child_sagas
from sagas.definition.arguments import BELOW
from sagas.definition.drawing import Groups
from sagas.engine.plan import certificate_text
from sagas.inspection import calls, names, picture, timeline, views, what_if
from sagas.inspection.attention_pages import NUMBERS
from sagas.inspection.views import END_CALLS, SagaView, StepView, Waits
from sagas.server import buttons, json_views
from sagas.server.dashboard import address_of, show_page
from sagas.server.auth import Permission, Principal
from sagas.server.operations import Call, Routes
from sagas.server.routes.sagas import kept_of
from sagas.server.table_rows import (
    FEW,
    UNFOLD,
    StepTable,
    Unfolding,
    attempt_rows,
    event_rows,
    folded,
)

routes = Routes("pages", is_page=True)
MAX_EVENTS = 500
MAX_DRAWN = 1024  # steps
MAX_LINK = 100_000  # letters of a log in an address
MIN_GROUPED = 4
"""From this number on, steps with the same error are shown together."""
MAX_EFFECTS = 5
"""Maximum number of questions whose effects are computed. Each needs a plan."""


@routes.get("/ui/sagas/{key}", permission=Permission.BROWSE, query={"unfold": UNFOLD})
async def saga(call: Call) -> Response:
    """Show a saga."""
    request, key = call.request, call.key
    service = call.service
    since, view = service.hub.now, None
    with contextlib.suppress(NoSuchSaga):
        await service.check_sees(call.principal, key)
        view = await service.saga(key, is_page=True)
        view = view and views.seen_by(view, call.principal.scope)
    if view is None:
        values: dict[str, Any] = {"title": "Unknown saga", "back": "/ui/sagas"}
        return show_page(request, "fault.html", 404, text=f"No saga has the key {key}.", **values)
    work = functools.partial(
        template_values,
        view,
        call.principal,
        service.approvals,
        time.time(),
        call.query["unfold"],
    )
    values = await service.threads.pages.do(work)
    return show_page(request, "saga.html", since=since, **values)


def template_values(
    view: SagaView,
    principal: Principal,
    approvals_of: Callable[[str, str], set[str]],
    now: float,
    unfold: str | None,
) -> dict[str, Any]:
    """Return the template values of a saga, with the buttons that the principal may use.

    `approvals_of` returns the approvals of a saga's name and definition.
    """
    drawn, displays = len(view.steps) <= MAX_DRAWN, picture.displays_of(view)
    asks = ask_groups([wait for wait in view.held if wait.asks])
    attempts = timeline.of(view, now)
    groups, base = Groups.read(view.definition), address_of(view.key)
    unfolding = Unfolding(groups, unfold, base)
    choices = {choice.step: choice for choice in view.plan.choices} if view.plan else {}
    items = names.item_texts(groups.origins, [step.name for step in view.steps], view.shape)
    has_costs = view.plan is None or view.plan.pivot is None
    table = StepTable(unfolding, view.steps, displays, choices, items, has_costs)
    titles = table.titles()
    svg = functools.partial(
        picture.svg,
        view,
        displays=displays,
        groups=groups,
        unfold=unfolding.names,
        link=unfolding.link,
    )
    events = event_rows(calls.history(view, now), titles)
    return {
        "here": "sagas",
        "now": now,
        "live": f"/ui/events?{urlencode({'key': view.key})}" if view.phase == "open" else None,
        "saga": view,
        "undoes": child_sagas.undoes_child(view.key) or child_sagas.calls_end(view.key),
        "may_restart": is_restartable(view.key, view.phase) and not view.erased,
        "may_erase": view.phase != "open" and BELOW not in view.key and not view.erased,
        "base": base,
        "end_calls": END_CALLS,
        "unfolding": unfolding,
        "asks": asks,
        "buttons_of": functools.partial(buttons.of_step, principal=principal),
        "may_report": principal.may_decide(Decision.COMPLETE, "external"),
        "helds": {wait.step: wait for wait in view.held},
        "early": early_approvals(view, principal, approvals_of),
        "choices": choices,
        "has_costs": has_costs,
        "failures": failures_of(view),
        "rows": table.rows(),
        "picture": svg() if drawn else "",
        "timeline": timeline.drawn(attempts, view.started, now, titles),
        "attempts": folded(attempt_rows(attempts, titles, now), lambda row: (row.urgency,)),
        "unused": unused_of(view),
        "undo_failed": [step for step in view.steps if step.state == "undo_failed"],
        "icons": picture.ICONS,
        "replay": replay_of(view),
        "done": sum(step.state in ("committed", "undo_failed") for step in view.steps),
        "events": events[-MAX_EVENTS:],
        "few": FEW,
        "all_events": len(events),
        "abort": effect(view, abort=True),
        "effects": effects(view, singles_of(asks)[:MAX_EFFECTS]),
    }


def early_approvals(
    view: SagaView, principal: Principal, approvals_of: Callable[[str, str], set[str]]
) -> set[str]:
    """Return the approvals that have not started, and that the principal may decide already."""
    may_approve = principal.may_decide(Decision.COMPLETE, APPROVAL)
    if not may_approve or view.phase != "open" or view.aborted or view.plan is not None:
        return set()
    try:
        approvals = approvals_of(view.saga, view.definition)
    except DefinitionError:  # another service has it
        return set()
    waiting = [step for step in view.steps if step.state == "waiting" and not step.early]
    return {step.name for step in waiting if step.name in approvals}


def ask_groups(asks: list[Waits]) -> list[list[Waits]]:
    """Group what waits for an operator by its error, in the order of the first of each group.

    Approvals, and errors of a few steps, are groups of one.
    """
    by_error: dict[Any, list[Waits]] = {}
    for wait in asks:
        error = NUMBERS.sub("", wait.detail or "")
        by_error.setdefault((wait.why, wait.undo, error or wait.step), []).append(wait)
    groups: list[list[Waits]] = []
    for group in by_error.values():
        groups += [group] if len(group) >= MIN_GROUPED else [[wait] for wait in group]
    return groups


def singles_of(groups: list[list[Waits]]) -> list[tuple[str, bool]]:
    """Return the steps that are alone in their group, and whether they are undone."""
    return [(group[0].step, group[0].undo) for group in groups if len(group) == 1]


def unused_of(view: SagaView) -> list[str]:
    """Return the steps of an ended saga whose reported success was not used."""
    if view.phase not in ("recovered", "stuck"):
        return []
    return list(view.unused)


def effect(view: SagaView, *, abort: bool = False, **step: str) -> str | None:
    """Describe what an abort, or the end of a step (`done=`, `failed=`), would lead to.

    Returns None if it would not be accepted.
    """
    is_fixed = child_sagas.undoes_child(view.key) or child_sagas.calls_end(view.key)
    is_refused = abort and (view.aborted or is_fixed)
    if view.phase != "open" or is_refused:
        return None
    for name in step.values():
        if any((entry.name, entry.state) == (name, "waiting") for entry in view.steps):
            return f"Store this answer, and use it when {name} starts"
    try:
        if abort:
            return what_if.describe(what_if.of(view, abort=True))
        if "done" in step:
            return what_if.describe_completion(view, step["done"])
        return what_if.describe(what_if.of(view, failed=step["failed"]))
    except (ValueError, KeyError):
        return None


def effects(view: SagaView, steps: list[tuple[str, bool]]) -> dict[tuple[str, bool], Any]:
    """Describe the effect of each answer to a question, by step and whether it is undone."""
    return {
        (step, undo): {
            "done": effect(view, done=step),
            "failed": effect(view, failed=step),
            "retry": f"Call {step} again, with the same idempotency key",
        }
        for step, undo in steps
    }


def failures_of(view: SagaView) -> list[StepView]:
    """Return the blocking steps that failed with an error."""
    chain = view.plan.blocking_steps if view.plan else []
    return [
        step
        for step in view.steps
        if step.name in chain and step.state == "failed" and step.detail is not None
    ]


def replay_of(view: SagaView) -> str:
    """Return the address of the planner page at the last moment of a saga.

    The part after `#` has the log, and a browser sends it to no server. If it is long, the address
    has no log, and the planner page takes an export.
    """
    text = json.dumps(json_views.replayed(view), separators=(",", ":"))
    letters = base64.urlsafe_b64encode(text.encode()).decode().rstrip("=")
    return f"/ui/planner#replay={letters}" if len(letters) <= MAX_LINK else "/ui/planner#replay="


@routes.get("/ui/sagas/{key}/export", permission=Permission.BROWSE)
async def export(call: Call) -> Response:
    """Download all that is stored of a saga, as JSON."""
    view = views.seen_by(
        await kept_of(call.service, call.principal, call.key), call.principal.scope
    )
    name, now = quote(view.key, safe=""), call.service.store._now()
    headers = {"content-disposition": f"attachment; filename*=UTF-8''{name}.json"}
    data = await call.service.threads.pages.do(
        lambda: json.dumps(json_views.export(view, now), ensure_ascii=False, indent=1).encode()
    )
    return Response(data, media_type="application/json", headers=headers)


@routes.get("/ui/planner")
async def planner(call: Call) -> Response:
    """Show the planner page, which sends nothing. It needs no session: it has no data."""
    page = await asyncio.to_thread(planner_page)
    policy = re.search(rb'http-equiv="Content-Security-Policy" content="([^"]*)"', page)
    headers = {"content-security-policy": policy[1].decode() if policy else "default-src 'none'"}
    return Response(page, media_type="text/html; charset=utf-8", headers=headers)


@routes.get("/ui/sagas/{key}/certificate", permission=Permission.BROWSE)
async def certificate(call: Call) -> Response:
    """Return the plan's certificate, in the format of `sagas check`."""
    view = await kept_of(call.service, call.principal, call.key)
    if view.plan is None:
        raise NoSuchSaga(f"saga {view.key!r} has no plan")
    return Response(certificate_text(view.plan), media_type="text/plain; charset=utf-8")
