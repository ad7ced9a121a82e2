"""Forms of the dashboard by which operators start sagas and act on them."""

from __future__ import annotations

import argparse
import contextlib
import functools
import json
import time
from typing import Any

from starlette.requests import Request
from starlette.responses import RedirectResponse, Response

from sagas.base import options
from sagas.base.errors import DefinitionError, NoSuchSaga, SagasError
from sagas.core.decisions import Decision
from sagas.definition import child_sagas
from sagas.definition.labels import checked
from sagas.inspection import views, wording
from sagas.inspection.views import SagaView, Waits
from sagas.server import json_bodies, problems
from sagas.server.access import (
    check_definition,
    check_key,
    check_permission,
    on_page,
    service_of,
    viewer_of,
)
from sagas.server.auth import DECISIONS, Permission, Principal
from sagas.server.dashboard import address_of, session_and_form, show_page
from sagas.server.decision_log import log_decision
from sagas.server.operations import Call, Routes
from sagas.server.problems import Problem
from sagas.server.routes import saga_pages
from sagas.server.routes.sagas import MAX_DEADLINE, check_reports, kept_of
from sagas.server.shapes import Choice, Field, Flag, Text


routes = Routes("pages", is_page=True)
OUTCOME = Choice(("done", "failed", "retry"))
OUTCOME_DECISIONS = {"done": Decision.COMPLETE, "failed": Decision.FAIL, "retry": Decision.RETRY}
UNDO = {"undo": Field(Flag(), default=False)}
ABORT = {
    "title": "Abort this saga?",
    "verb": "Abort it",
    "danger": True,
    "note_title": "Why (a note)",
    "text": (
        "No further step of it starts. Steps that are done are undone or kept, whichever costs "
        "least. This cannot be undone."
    ),
}
FAULTS = {
    "json": "The result is not valid JSON. Write a text in quotation marks, or choose “a text”.",
    "number": "The result is not a number.",
    "yes": "The result must be yes or no.",
}
NO_CHILD = (
    "The result is that of its child: enter what other steps read of it. If there is nothing to "
    "undo, enter null as the key."
)
RESOLVE = {
    "title": "Resolve this saga?",
    "verb": "Resolve it",
    "note_title": "What was done about it (a note)",
    "note_needed": True,
    "text": (
        "No step runs because of this. It records that an operator repaired what the saga could "
        "not, and removes the saga from the inbox."
    ),
}
COMPENSATE: dict[str, Any] = {
    "verb": "Compensate it",
    "note_title": "A note",
    "text": (
        "Another saga calls the compensation, with the result that was reported before the step "
        "began. This cannot be undone."
    ),
}


ERASE: dict[str, Any] = {
    "title": "Erase the data of this saga?",
    "verb": "Erase it",
    "danger": True,
    "text": (
        "Its input, results, errors, labels and notes are erased, also of all sagas below it. Its "
        "key stays used, and its events and its plan stay. Backups and archives still have the "
        "data. This cannot be undone. It is recorded with your name and the time."
    ),
}
RESTART: dict[str, Any] = {
    "title": "Restart this saga?",
    "verb": "Restart it",
    "asks_key": True,
    "note_title": "Why (a note)",
    "text": (
        "A new saga starts, with the same definition, input and labels. It repeats every effect, "
        "with new idempotency keys. First repair what this saga has left."
    ),
}


def confirmation_page(
    request: Request, key: str, question: dict[str, Any], status: int = 200, **more: Any
) -> Response:
    """Return the confirmation page for an action on a saga."""
    crumbs, here = [("/ui/sagas", "Sagas"), (address_of(key), key)], "sagas"
    if not viewer_of(request).has_permission(Permission.BROWSE):
        crumbs, here = [("/ui", "Inbox")], "inbox"
    values = {"here": here, "crumbs": crumbs, **question, **more}
    return show_page(request, "confirm.html", status, **values)


async def seen(call: Call) -> SagaView | None:
    """Return the stored view of a saga, or None if the user may not see it."""
    with contextlib.suppress(NoSuchSaga):
        return await kept_of(call.service, call.principal, call.key)
    return None


async def is_approval(call: Call, view: SagaView, step: str, undo: bool) -> bool:
    """Return whether a step waits for an approval, or will do so when it begins."""
    if any((entry.step, entry.undo, entry.why) == (step, undo, "approval") for entry in view.held):
        return True
    if undo or not any((entry.name, entry.state) == (step, "waiting") for entry in view.steps):
        return False
    with contextlib.suppress(NoSuchSaga, DefinitionError):
        return await call.service.is_approval(call.key, step)
    return False


def step_question(step: str, outcome: str, undo: bool, approval: bool) -> dict[str, Any]:
    """Return the question before a step's end is reported."""
    attempt = f"undoing {step}" if undo else f"step {step}"
    if outcome == "retry":
        return {
            "title": f"Retry {attempt}?",
            "verb": "Retry it",
            "note_title": "What was repaired (a note)",
            "text": "It is called at once, with the same idempotency key.",
        }
    if approval:
        return approval_question(step, outcome)
    if outcome == "done":
        return {
            "title": f"Complete {attempt}?",
            "verb": "Complete it",
            "note_title": "A note",
            "asks_result": not undo,
            "text": (
                "It reports that the step is done, and the saga continues. Report this only if its "
                "effect exists: sagas cannot check it."
            ),
        }
    failed_text = (
        "It reports that the step had no effect. The step fails permanently, and the saga follows "
        "a plan of least cost. Report this only if it is true: no compensation undoes an effect "
        "that you deny."
    )
    undo_failed_text = (
        f"The compensation fails permanently, and the effect of {step} stays until an "
        "operator repairs it. This cannot be undone."
    )
    return {
        "title": f"Fail {attempt}?",
        "verb": "Fail it",
        "danger": True,
        "note_title": "A note",
        "asks_why": True,
        "text": undo_failed_text if undo else failed_text,
    }


def approval_question(step: str, outcome: str) -> dict[str, Any]:
    """Return the question before an approval is decided."""
    if outcome == "done":
        return {
            "title": f"Approve step {step}?",
            "verb": "Approve it",
            "note_title": "A note",
            "asks_result": True,
            "text": "The saga continues. Steps that need this one get its result.",
        }
    return {
        "title": f"Refuse step {step}?",
        "verb": "Refuse it",
        "danger": True,
        "note_title": "A note",
        "asks_why": True,
        "text": (
            "The step fails permanently, and the saga follows a plan of least cost. This "
            "cannot be undone."
        ),
    }


@routes.get("/ui/sagas/{key}/abort", permission=DECISIONS[Decision.ABORT])
async def abort_page(call: Call) -> Response:
    effect = await effect_of(call, abort=True)
    return confirmation_page(call.request, call.key, ABORT, effect=effect)


async def effect_of(call: Call, **event: Any) -> str | None:
    """Describe what an abort, or the end of a step, would do now."""
    with contextlib.suppress(NoSuchSaga):
        await call.service.check_sees(call.principal, call.key)
        view = await call.service.saga(call.key)
        if view is not None:
            compute = functools.partial(saga_pages.effect, view, **event)
            return await call.service.threads.pages.do(compute)
    return None


@routes.post("/ui/sagas/{key}/abort", permission=DECISIONS[Decision.ABORT])
async def abort(call: Call) -> Response:
    request, key = call.request, call.key
    session, form = await session_and_form(request)
    try:
        service = service_of(request)
        await service.check_sees(session.principal, key)
        done = await service.in_time(
            service.store.abort(key, by=on_page(session.principal), note=form.get("note") or None)
        )
    except SagasError as error:
        return confirmation_page(
            request, key, ABORT, 409, fault=str(problems.of(error)), note=form.get("note")
        )
    log_decision(session.principal.name, Decision.ABORT, int(done), int(not done))
    return back(request, key)


@routes.get("/ui/sagas/{key}/resolve", permission=DECISIONS[Decision.RESOLVE])
async def resolve_page(call: Call) -> Response:
    return confirmation_page(call.request, call.key, RESOLVE)


@routes.post("/ui/sagas/{key}/resolve", permission=DECISIONS[Decision.RESOLVE])
async def resolve(call: Call) -> Response:
    request, key = call.request, call.key
    session, form = await session_and_form(request)
    note = form.get("note", "").strip()[:2000]
    if not note:
        return confirmation_page(request, key, RESOLVE, 422, fault="Describe what was done.")
    try:
        await service_of(request).check_sees(session.principal, key)
        await service_of(request).store.resolve(key, note, by=on_page(session.principal))
    except SagasError as error:
        return confirmation_page(
            request, key, RESOLVE, 409, fault=str(problems.of(error)), note=note
        )
    log_decision(session.principal.name, Decision.RESOLVE)
    return back(request, key)


@routes.get("/ui/sagas/{key}/restart", permission=DECISIONS[Decision.RESTART])
async def restart_page(call: Call) -> Response:
    view = await seen(call)
    view = view and views.seen_by(view, call.principal.scope)
    more: dict[str, Any] = {"new_key": proposed_key(view)} if view else {}
    if view and view.restarts:
        keys = ", ".join(link.key for link in view.restarts)
        more["effect"] = f"Start one more saga, in addition to {keys}"
    return confirmation_page(call.request, call.key, RESTART, **more)


def proposed_key(view: SagaView) -> str:
    """Return a key for the restart of a saga: operators at the same time get the same one."""
    return f"{view.key}-{len(view.restarts) + 2}"


@routes.post("/ui/sagas/{key}/restart", permission=DECISIONS[Decision.RESTART])
async def restart(call: Call) -> Response:
    """Restart the saga, and redirect to the new one."""
    request, service = call.request, call.service
    session, form = await session_and_form(request)
    new_key, note = form.get("key", "").strip(), form.get("note", "").strip()[:2000] or None
    ask_again = functools.partial(
        confirmation_page, request, call.key, RESTART, new_key=new_key, note=note
    )
    if not 0 < len(new_key) <= 512 or new_key in (".", ".."):
        return ask_again(422, fault="Enter a key of 1 to 512 characters.")
    try:
        check_key(session.principal, new_key)
        await service.restart(
            session.principal, call.key, new_key, on_page(session.principal), note
        )
    except (SagasError, Problem) as error:
        shown = error if isinstance(error, Problem) else problems.of(error)
        return ask_again(409, fault=str(shown))
    log_decision(session.principal.name, Decision.RESTART)
    return back(request, new_key)


@routes.get("/ui/sagas/{key}/erase", permission=DECISIONS[Decision.ERASE])
async def erase_page(call: Call) -> Response:
    """Ask for confirmation before the data of a saga is erased, because this cannot be undone."""
    return confirmation_page(call.request, call.key, ERASE)


@routes.post("/ui/sagas/{key}/erase", permission=DECISIONS[Decision.ERASE])
async def erase(call: Call) -> Response:
    """Erase the data of the saga."""
    request, service = call.request, call.service
    session, _ = await session_and_form(request)
    try:
        await service.check_sees(session.principal, call.key)
        await service.store.erase(call.key, by=on_page(session.principal))
    except SagasError as error:
        return confirmation_page(request, call.key, ERASE, 409, fault=str(problems.of(error)))
    log_decision(session.principal.name, Decision.ERASE)
    service.figures.forget()
    return back(request, call.key)


@routes.get("/ui/sagas/{key}/steps/{step}/compensate", permission=DECISIONS[Decision.COMPENSATE])
async def compensate_page(call: Call) -> Response:
    return confirmation_page(call.request, call.key, compensation_question(call))


@routes.post("/ui/sagas/{key}/steps/{step}/compensate", permission=DECISIONS[Decision.COMPENSATE])
async def compensate(call: Call) -> Response:
    request, key, question = call.request, call.key, compensation_question(call)
    session, form = await session_and_form(request)
    note = form.get("note", "").strip()[:2000] or None
    try:
        service = service_of(request)
        await service.check_sees(session.principal, key)
        step = call.path["step"]
        await service.in_time(
            service.store.compensate(key, step, by=on_page(session.principal), note=note)
        )
    except SagasError as error:
        return confirmation_page(
            request, key, question, 409, fault=str(problems.of(error)), note=note
        )
    log_decision(session.principal.name, Decision.COMPENSATE)
    return back(request, key)


def compensation_question(call: Call) -> dict[str, Any]:
    """Return the confirmation before a step is compensated."""
    return COMPENSATE | {"title": f"Compensate step {call.path['step']}?"}


@routes.get(
    "/ui/sagas/{key}/steps/{step}/{outcome}",
    permission=Permission.APPROVE,
    parts={"outcome": OUTCOME},
    query=UNDO,
)
async def step_page(call: Call) -> Response:
    await check_outcome(call)
    return await step_confirmation(call, await seen(call))


async def check_outcome(call: Call) -> None:
    """Raise `Problem` if the principal may not report this outcome of the step.

    The rules are those of the routes of the API.
    """
    if call.path["outcome"] == "retry":
        check_permission(call.principal, DECISIONS[Decision.RETRY])
    if not call.principal.has_permission(Permission.OPERATE):
        await check_reports(call, call.key, call.path["step"], call.query["undo"])


async def step_confirmation(
    call: Call, view: SagaView | None, status: int = 200, **more: Any
) -> Response:
    """Return the confirmation of a step's end.

    It shows the saga's input and results, and what the answer would do. The form identifies the
    wait that it answers.
    """
    name, outcome, undo = call.path["step"], call.path["outcome"], call.query["undo"]
    approval = view is not None and await is_approval(call, view, name, undo)
    question = step_question(name, outcome, undo, approval)
    if view is not None:
        question["given"] = await shown_of(call, view)
        question["waits"] = wait_name_of(view, name, undo)
        if outcome == "done" and not undo and (child := child_of(view, name)):
            question["result"], question["text"] = (
                child_result(child),
                f"{question['text']} {NO_CHILD}",
            )
    if outcome != "retry":
        question["effect"] = await effect_of(call, **{outcome: name})
    return confirmation_page(call.request, call.key, question, status, **more)


async def shown_of(call: Call, view: SagaView) -> list[tuple[str, Any]]:
    """Return what the page of a step's end shows of the saga, each with its title.

    Users who may not see the saga see only the fields that the approval shows.
    """
    shown = await call.service.shown_fields.of_step(view, call.path["step"])
    parts: list[tuple[str, Any]] = [("Shown fields", shown)] if shown else []
    if call.principal.has_permission(Permission.BROWSE):
        parts += [("Input", view.input), ("Results in effect", view.results)]
    return parts


def child_of(view: SagaView, step: str) -> str | None:
    """Return the key of the last child that a step of a saga started."""
    keys = [
        child.key for child in view.children if child_sagas.is_of_step(child.key, view.key, step)
    ]
    return None if child_sagas.undoes_child(view.key) else next(reversed(keys), None)


def child_result(key: str) -> str:
    """Return the proposed result of a step that starts a child."""
    return json.dumps({"key": key, "phase": "completed", "results": {}}, ensure_ascii=False)


def result_of(form: dict[str, str]) -> Any:
    """Return the result that a form has, by its type. Raises `ValueError`."""
    text, kind = form.get("result", ""), form.get("type", "json")
    if kind == "text":
        return text
    if kind == "number":
        value = json_bodies.read_text(text)
        if isinstance(value, bool) or not isinstance(value, (int, float)):
            raise ValueError(text)
        return value
    if kind == "yes":
        return {"yes": True, "true": True, "no": False, "false": False}[text.strip().lower()]
    return json_bodies.read_text(text or "null")


@routes.post(
    "/ui/sagas/{key}/steps/{step}/{outcome}",
    permission=Permission.APPROVE,
    parts={"outcome": OUTCOME},
    query=UNDO,
)
async def report_step(call: Call) -> Response:
    session, form = await session_and_form(call.request)
    await check_outcome(call)
    view = await seen(call)
    ask_again = functools.partial(
        step_confirmation,
        call,
        view,
        **{name: form.get(name) for name in ("type", "note", "result", "failed")},
    )
    if view is not None and (fault := why_outdated(call, view, form.get("waits", ""))):
        return await ask_again(409, fault=fault)
    if call.path["outcome"] == "failed" and not form.get("failed", "").strip():
        return await ask_again(422, fault="Enter a reason.")
    try:
        result = result_of(form)
    except (ValueError, KeyError):
        return await ask_again(422, fault=FAULTS.get(form.get("type", ""), FAULTS["json"]))
    try:
        await report(call, session.principal, form, result)
    except SagasError as error:
        return await ask_again(409, fault=str(problems.of(error)))
    return back(call.request, call.key)


def why_outdated(call: Call, view: SagaView, answered: str) -> str | None:
    """Return why a form is shown again, if the step now waits for something else.

    If no attempt is active, the store checks the report.
    """
    step, undo = call.path["step"], call.query["undo"]
    if wait_name_of(view, step, undo) in ("", answered):
        return None
    now = wait_description_of(view, step, undo, time.time())
    return f"The step has changed since you opened this form: {now}. Check it again."


async def report(call: Call, principal: Principal, form: dict[str, str], result: Any) -> None:
    """Report the outcome that a form has. Raises the errors of the store."""
    service, step, outcome = call.service, call.path["step"], call.path["outcome"]
    await service.check_sees(principal, call.key)
    note = form.get("note") or None
    options: dict[str, Any] = {"undo": call.query["undo"], "by": on_page(principal), "note": note}
    if outcome == "retry":
        work = service.store.retry(call.key, step, **options)
    elif outcome == "done":
        work = service.store.complete(call.key, step, result, **options)
    else:
        work = service.store.fail(call.key, step, form["failed"].strip()[:2000], **options)
    await service.in_time(work)
    log_decision(principal.name, OUTCOME_DECISIONS[outcome])


def back(request: Request, key: str) -> Response:
    """Redirect to the saga, or to the inbox if the user may not see it. Drop the cached figures."""
    service_of(request).figures.forget()
    may_see = viewer_of(request).has_permission(Permission.BROWSE)
    return RedirectResponse(address_of(key) if may_see else "/ui", 303)


# -- what a step waits for


REASONS = {
    "unknown": "its outcome is unknown again",
    "exhausted": "its attempts are used up again",
    "approval": "it waits for a decision now",
    "cannot_decode": "its stored value cannot be read",
    "program_error": "its program has the error again",
    "no_definition": "its node does not have its definition",
}


def wait_name_of(view: SagaView, step: str, undo: bool) -> str:
    """Return an identifier of what a step's attempt waits for, or "" if no attempt is active.

    It changes with a later attempt, when a worker claims the attempt, and when it waits again.
    """
    if view.phase != "open":
        return ""
    at = step, undo, None
    begun = next(
        (
            stretch
            for stretch in view.stretches
            if (stretch.step, stretch.undo, stretch.ended) == at
        ),
        None,
    )
    if begun is None:
        return ""
    held = _held(view, step, undo)
    return f"{begun.attempt}" + (f".{held.why}.{held.count}.{held.since!r}" if held else "")


def wait_description_of(view: SagaView, step: str, undo: bool, now: float) -> str:
    """Describe what an active attempt waits for."""
    held = _held(view, step, undo)
    if held is None or (held.why in ("unknown", "retry") and held.until is not None):
        return "it is being called again, or will be soon"
    if held.why == "external":
        return f"the worker {held.detail} claimed it {wording.ago(now - held.since)}"
    return REASONS.get(held.why, "it waits for something else")


def _held(view: SagaView, step: str, undo: bool) -> Waits | None:
    return next((wait for wait in view.held if (wait.step, wait.undo) == (step, undo)), None)


# -- the form that starts a saga


def start_form_page(
    request: Request, form: dict[str, str], fault: str | None = None, status: int = 200
) -> Response:
    """Return the form with its values, and why it was not accepted."""
    names = service_of(request).names(viewer_of(request))
    return show_page(
        request, "start.html", status, here="sagas", names=names, form=form, fault=fault
    )


@routes.get(
    "/ui/start",
    permission=Permission.START,
    query={"definition": Field(Text(max_length=64), default="")},
)
async def start_page(call: Call) -> Response:
    return start_form_page(call.request, {"definition": call.query["definition"]})


def labels_in(text: str) -> dict[str, str] | None:
    """Return the labels of a form, one on each line. Raises `ValueError`."""
    lines = [line.strip() for line in text.splitlines() if line.strip()]
    if any("=" not in line for line in lines):
        raise ValueError("a label must be NAME=VALUE, for example customer=7, each on its own line")
    labels = {name.strip(): value.strip() for name, _, value in (a.partition("=") for a in lines)}
    if len(labels) < len(lines):
        raise ValueError("a label occurs twice: give each name once")
    return labels or None


def deadline_in(text: str) -> float | None:
    """Return the seconds until a saga is aborted; None for those of its definition.

    Raises `ValueError`.
    """
    if not text.strip():
        return None
    with contextlib.suppress(argparse.ArgumentTypeError):
        if (seconds := options.age(text.strip())) <= MAX_DEADLINE:
            return seconds
    raise ValueError(
        "the deadline must be an integer and a unit s, m, h, d or w, for example 30m, and at most "
        "100 years"
    )


@routes.post("/ui/start", permission=Permission.START)
async def start(call: Call) -> Response:
    """Start the saga, and redirect to it. It may exist already with the same input."""
    request = call.request
    session, form = await session_and_form(request)
    service, key = service_of(request), form.get("key", "").strip()
    if not 0 < len(key) <= 512 or key in (".", ".."):
        return start_form_page(
            request,
            form,
            "Enter a key of 1 to 512 characters, for example an order number.",
            422,
        )
    try:
        size = len(form.get("input", ""))
        input = json_bodies.read_text(form.get("input") or "null")
    except ValueError as error:
        return start_form_page(
            request,
            form,
            f"The input is not valid JSON: {error}. Write a text in quotation marks.",
            422,
        )
    try:
        labels, deadline = labels_in(form.get("labels", "")), deadline_in(form.get("deadline", ""))
    except ValueError as error:
        return start_form_page(request, form, f"{error}.", 422)
    definition = form.get("definition", "")
    check_definition(session.principal, definition)
    try:
        saga = service.saga_named(session.principal, definition, None)
        await service.start(session.principal, size, saga, key, input, checked(labels), deadline)
    except SagasError as error:
        return start_form_page(request, form, str(problems.of(error)), 409)
    return back(request, key)
