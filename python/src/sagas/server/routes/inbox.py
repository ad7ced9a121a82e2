"""The inbox: what requires an operator, by kind and cause, and actions on many at once."""

from __future__ import annotations

import dataclasses
import functools
import hashlib
import json
import time
from typing import Any
from urllib.parse import urlencode

from starlette.requests import Request
from starlette.responses import Response

from sagas.base.errors import SagasError
from sagas.core.decisions import CHOICES, Decision, Requester, Way, new_bulk
from sagas.inspection import attention_pages
from sagas.inspection.attention_pages import APPROVAL, KINDS, Entry, Group
from sagas.inspection.question import Question
from sagas.runtime.leased_tasks import Queue
from sagas.server import buttons, json_bodies
from sagas.server.auth import Permission, Principal
from sagas.server.dashboard import session_and_fields, show_page
from sagas.server.database_reads import of_each, replies_to
from sagas.server.decision_log import log_decision
from sagas.server.figures import Phases
from sagas.server.operations import Call, Routes
from sagas.server.problems import Problem
from sagas.server.routes import approvals, filters, operators, trends
from sagas.server.routes.operators import Target
from sagas.server.service import Service
from sagas.server.shapes import Choice, Field, Number, Text
from sagas.storage.filters import NOTHING, Filter

routes = Routes("pages", is_page=True)
TITLES = {
    "stuck": "Stuck",
    "undo_failed": "Undo failed",
    "unused_report": "Unused",
    "unknown": "Unknown",
    "exhausted": "Exhausted",
    "cannot_decode": "Unreadable",
    "program_error": "Program errors",
    "on_end": "On end",
    "no_definition": "No definition",
    "no_node": "No node",
    "damaged": "Damaged",
    "approval": "Approvals",
}
EXPLANATIONS = {
    "stuck": "No plan is feasible. Repair by hand what is needed, then resolve them.",
    "undo_failed": "A compensation failed permanently, and the effect of its step still exists.",
    "unused_report": "A success was reported before the step began, and its saga ended without it. "
    "Its effect still exists.",
    "unknown": "The outcome of the step is unknown. Check the external system, then report it.",
    "exhausted": "The attempts of the step are used up. Fix the cause, then retry it.",
    "cannot_decode": "No program can read a stored value. Open the store with a program that can.",
    "program_error": "A function has a bug. Open the store with a program without it, or retry "
    "them.",
    "on_end": "They have ended, and no program could start the call of their on_end function. Open "
    "the store with a program that has it.",
    "no_definition": "The node that has them does not have all of their functions. Start a node "
    "with their definition: it takes them over.",
    "no_node": "No node has their shard. Start a node with their definition.",
    "damaged": "The stored data of their shard is damaged. Repair the shard, or delete it.",
    "approval": "The step waits for a decision.",
}
WHOLE = ("resolve", "abort")
"""Actions on whole sagas, not on steps."""
FAILS = "Each step fails permanently, and its saga follows a plan of least cost."


@dataclasses.dataclass(frozen=True, slots=True)
class Confirmation:
    """The confirmation of a bulk action.

    `title` has a placeholder for the count. `button`: for one target, and for several.
    """

    title: str
    button: tuple[str, str]
    text: str

    def of(self, targets: list[Target], verb: str) -> dict[str, str]:
        """Return the texts for these targets."""
        is_one = len(targets) == 1
        title = self.title.format(many(targets, verb))
        return {"title": title, "button": self.button[not is_one], "text": self.text}


CONFIRMATIONS = {
    "resolve": Confirmation(
        "Resolve {}?",
        ("Resolve it", "Resolve them"),
        "It records that they were repaired by hand. No step runs because of this.",
    ),
    "compensate": Confirmation(
        "Compensate {}?",
        ("Compensate it", "Compensate them"),
        "Another saga calls the compensation of each, with the result that was reported. This "
        "cannot be undone.",
    ),
    "retry": Confirmation(
        "Retry {}?",
        ("Retry it", "Retry them"),
        "Each is called at once, with the same idempotency key.",
    ),
    "done": Confirmation(
        "Complete {}?",
        ("Complete it", "Complete them"),
        "It reports that they are done, and the sagas continue. Report this only of effects that "
        "exist: sagas cannot check it.",
    ),
    "failed": Confirmation(
        "Fail {}?",
        ("Fail it", "Fail them"),
        f"It reports that they had no effect. {FAILS} Report this only if it is true: no "
        "compensation undoes an effect that you deny.",
    ),
    "abort": Confirmation(
        "Abort {}?",
        ("Abort it", "Abort them"),
        "No further step starts. Steps that are done are undone or kept, whichever costs least. "
        "This cannot be undone.",
    ),
}
OF_APPROVALS = {
    "done": Confirmation(
        "Approve {}?",
        ("Approve it", "Approve them"),
        "The sagas continue. Steps that need these get the result.",
    ),
    "failed": Confirmation(
        "Refuse {}?", ("Refuse it", "Refuse them"), f"{FAILS} This cannot be undone."
    ),
}
OF_COMPENSATIONS = {
    "failed": Confirmation(
        "Fail {}?",
        ("Fail it", "Fail them"),
        "It reports that they had no effect. Each compensation fails permanently, and the effect "
        "of its step stays until an operator repairs it. This cannot be undone.",
    ),
}


def confirmation_of(kind: str, verb: str, targets: list[Target]) -> Confirmation:
    """Return the confirmation for an action on entries of a kind."""
    special = OF_COMPENSATIONS if is_undo(targets) else OF_APPROVALS if kind == "approval" else {}
    return special.get(verb, CONFIRMATIONS[verb])


def is_undo(targets: list[Target]) -> bool:
    """Return whether all targets are compensations."""
    return all(undo for _, _, undo in targets)


def many(targets: list[Target], verb: str) -> str:
    """Describe how many targets there are: sagas, steps or compensations."""
    sagas = counted(len({key for key, _, _ in targets}), "saga")
    if verb in WHOLE:
        return sagas
    undoing = "undoing " if is_undo(targets) else ""
    return f"{undoing}{counted(len(targets), 'step')} of {sagas}"


def counted(count: int, noun: str) -> str:
    """Return a number with its noun."""
    return f"{count:,} {noun}{'' if count == 1 else 's'}"


# -- the entries that a form selects


Fields = list[tuple[str, str]]


def id_of(group: Group) -> str:
    """Return the identifier of a group in forms and addresses."""
    return hashlib.sha256(f"{group.saga}\n{group.cause}".encode()).hexdigest()[:16]


def id_of_entry(entry: Entry) -> str:
    """Return the identifier of an entry in forms."""
    return f"{entry.database}.{entry.id}.{entry.step_index}.{'undo' if entry.undo else 'run'}"


def wait_of(entry: Entry) -> str:
    """Return the identifier of what an entry waits for. It changes if the same step waits again."""
    wait = entry.database, entry.id, entry.step_index, entry.undo, entry.since
    return hashlib.sha256(json.dumps(wait).encode()).hexdigest()[:16]


@dataclasses.dataclass(frozen=True, slots=True)
class Selection:
    """Entries of one kind.

    Attributes:
        waits: The identifiers of what they wait for, as a form has them.
        left: How many entries were selected in addition, and are left out.
    """

    entries: list[Entry]
    waits: str
    left: int = 0

    @classmethod
    def of(cls, entries: list[Entry]) -> Selection:
        """Return a new selection. Of approvals, it has at most as many as one action changes."""
        is_listed = bool(entries) and entries[0].kind == APPROVAL
        chosen = entries[: operators.MAX_TARGETS] if is_listed else entries
        return cls(chosen, " ".join(map(wait_of, chosen)), len(entries) - len(chosen))

    def targets(self, verb: str) -> list[Target]:
        """Return the targets of an action: steps, or each saga once."""
        is_whole = verb in WHOLE
        return list(
            dict.fromkeys(
                (entry.key, "", False) if is_whole else (entry.key, entry.step or "", entry.undo)
                for entry in self.entries
            )
        )


def selected(entries: list[Entry], fields: Fields) -> Selection:
    """Return the selected entries: all of them, whole groups, and single ones."""
    if ("all", "1") in fields:
        return Selection.of(entries)
    groups = {value for name, value in fields if name == "group"}
    ids = {value for name, value in fields if name == "one"}
    chosen = []
    for group in attention_pages.groups(entries):
        is_chosen = id_of(group) in groups
        chosen += [entry for entry in group.entries if is_chosen or id_of_entry(entry) in ids]
    return Selection.of(chosen)


def seen(entries: list[Entry], waits: str) -> Selection:
    """Return the entries that the user saw, without later entries and those that wait again."""
    names = set(waits.split())
    return Selection([entry for entry in entries if wait_of(entry) in names], waits)


# -- the page and its form


SHOWN, MEMBERS, LISTED = 12, 5, 50
"""Groups on a page, sagas of each, and sagas on a page of one group or of approvals."""
MAX_GROUPED = 2000
"""Maximum number of entries that are grouped."""
MAX_FIELDS = 1000
AGES = {"1h": 3600.0, "4h": 14_400.0, "1d": 86_400.0, "7d": 604_800.0}
"""Choices of how long entries have waited at least, in seconds."""
AGE_TEXTS = {"1h": "an hour", "4h": "4 hours", "1d": "a day", "7d": "a week"}
KIND = Field(Choice(KINDS), default=None)
QUERY = {
    "kind": KIND,
    "definition": Field(Text(max_length=64), default=None),
    "search": Field(Text(max_length=512), default=None),
    "step": Field(Text(max_length=128), default=None),
    "label": Field(Text(max_length=400), default=None),
    "age": Field(Choice((*AGES,)), default=None),
    "order": Field(Text(max_length=140, pattern=approvals.ORDER), default="oldest"),
    "group": Field(Text(max_length=16, pattern="[0-9a-f]+"), default=None),
    "page": Field(Number(1, 10_000, whole=True), default=1),
    "range": trends.RANGE,
}
FILTERED = ("definition", "search", "step", "label", "age")
"""The parameters that select entries of a kind."""
KEPT = ("kind", *FILTERED, "order", "group", "range")
"""The parameters that links keep."""


@dataclasses.dataclass(frozen=True, slots=True)
class Wanted:
    """The entries that a page or a form is about.

    Attributes:
        sagas: The filter of sagas, within the scope of the user.
        step: Only entries of this step.
        order: `oldest`, `newest`, or a shown field of approvals.
        since_before: Only entries that wait since before this time.
    """

    sagas: Filter
    step: str | None
    order: str
    since_before: float | None

    def entries(self, kind: str) -> Question[list[Entry]]:
        """Return the question for its entries of a kind."""
        options: dict[str, Any] = {"newest": self.order == "newest", "limit": MAX_GROUPED}
        options["since_before"] = self.since_before
        return attention_pages.entries(kind, self.sagas, self.step, **options)

    def counts(self) -> Question[dict[str, int]]:
        """Count its entries of each kind."""
        counts = dict[str, int]()
        for kind in KINDS:
            counts[kind] = yield from attention_pages.count(
                kind, self.sagas, self.step, since_before=self.since_before
            )
        return counts


def wanted_of(principal: Principal, fields: dict[str, Any]) -> Wanted:
    """Return what the fields of a form or of an address select. Raises `ValueError`,
    `InvalidLabel`.
    """
    age = AGES.get(fields.get("age") or "")
    return Wanted(
        Filter(
            saga=fields.get("definition") or None,
            search=fields.get("search") or None,
            labels=filters.label_filter(fields.get("label")),
            scope=principal.scope,
        ),
        fields.get("step") or None,
        fields.get("order") or "oldest",
        None if age is None else time.time() - age,
    )


async def entries_of(call: Call, wanted: Wanted, kind: str) -> list[Entry]:
    """Return the entries of a kind of all databases, by the starts of their sagas."""

    async def part(service: Service, index: int) -> list[Entry]:
        listed = await service.look(wanted.entries(kind))
        return [dataclasses.replace(entry, database=index) for entry in listed] if index else listed

    parts = await of_each(call, part)
    sign = -1 if wanted.order == "newest" else 1
    entries = [entry for _, part in sorted(parts.items()) for entry in part]
    if len(parts) > 1:
        entries.sort(key=lambda entry: (sign * entry.started, entry.database))
    return entries[:MAX_GROUPED]


def kinds_of(principal: Principal) -> tuple[str, ...]:
    """Return the kinds of entries that a user sees: who may not browse sagas sees approvals."""
    return KINDS if principal.has_permission(Permission.BROWSE) else (APPROVAL,)


def check_kind(principal: Principal, kind: str) -> None:
    """Raise `Problem` if a user may not see entries of a kind."""
    if kind not in kinds_of(principal):
        raise Problem("Forbidden", f"{principal.name} may only see approvals in the inbox")


def work_of(queues: list[Queue]) -> dict[str, Any]:
    """Return totals of the tasks that wait for workers."""
    now, ready = time.time(), [queue for queue in queues if queue.ready]
    oldest = max((now - queue.oldest for queue in ready if queue.oldest), default=0.0)
    claimed = sum(queue.claimed for queue in queues)
    return {"ready": sum(queue.ready for queue in ready), "claimed": claimed, "oldest": oldest}


def address(parameters: dict[str, Any], **change: Any) -> str:
    """Return the inbox's address with these parameters. Defaults are left out."""
    query = {
        name: value
        for name, value in {**parameters, **change}.items()
        if value not in (None, "") and value != QUERY[name].default
    }
    return f"/ui?{urlencode(query)}" if query else "/ui"


def listed(entries: list[Entry], group: str | None, page: int) -> dict[str, Any]:
    """Return the template values for entries: groups, or the entries of one group.

    Approvals are entries of a table, and not groups.
    """
    groups = attention_pages.groups(entries)
    chosen = (
        next((candidate for candidate in groups if id_of(candidate) == group), None)
        if group
        else None
    )
    is_table = bool(entries) and entries[0].kind == APPROVAL
    size = LISTED if chosen or is_table else SHOWN
    shown: list[Any] = [*groups] if not is_table else [*entries]
    if chosen is not None:
        shown = [*chosen.entries]
    return {
        "group": chosen,
        "groups": groups[:SHOWN],
        "page": page,
        "all": len(shown),
        "more": len(shown) > page * size,
        "shown": shown[(page - 1) * size : page * size],
    }


def totals_of(counts: Phases) -> dict[str, int]:
    """Return the numbers of sagas of all definitions, by phase."""
    names = ("open", "completed", "recovered", "resolved")
    return {name: sum(phases[name] for phases in counts.values()) for name in names}


@routes.get("/ui", permission=Permission.LOG_IN, query=QUERY)
async def inbox(call: Call) -> Response:
    """Show what needs an operator: the requested kind, or the first kind that has entries."""
    service, principal, query = call.service, call.principal, dict(call.query)
    since, kinds, fault = service.hub.now, kinds_of(principal), None
    check_kind(principal, query["kind"] or APPROVAL)
    try:
        wanted = wanted_of(principal, query)
    except (ValueError, SagasError) as error:
        wanted, fault = Wanted(Filter(scope=NOTHING), None, "oldest", None), f"{error}."
    counts, needed = await service.figures.of(principal.scope)
    is_filtered = any(query[name] for name in FILTERED)
    if is_filtered:
        parts = await replies_to(call, wanted.counts)
        needed = {kind: sum(part[kind] for part in parts) for kind in KINDS}
    kind = query["kind"] or next((kind for kind in kinds if needed[kind]), kinds[0])
    entries = await entries_of(call, wanted, kind)
    parameters = {name: query[name] for name in KEPT}

    def url(**change: Any) -> str:
        return address(parameters, **change)

    values: dict[str, Any] = {
        "counts": needed,
        "asked_all": sum(needed[kind] for kind in kinds),
        "totals": totals_of(counts),
        "query": query,
        "fault": fault,
    }
    values |= {"is_filtered": is_filtered, "table": None}
    if kind == APPROVAL:
        entries = await approvals.ordered(service, entries, wanted.order)
    work = functools.partial(listed, entries, query["group"], query["page"])
    values |= await service.threads.pages.do(work)
    if kind == APPROVAL:
        values["table"] = await approvals.table_of(service, values["shown"])
    values |= work_of(await service.queues(principal)) | {
        "again": service.figures.lag(principal.scope)
    }
    may_act = service.may_open(principal, "/ui/inbox", "POST")
    values |= {
        "kind": kind,
        "titles": {kind: TITLES[kind] for kind in TITLES if kind in kinds},
        "explanation": EXPLANATIONS[kind],
        "verbs": buttons.of(kind, principal) if may_act else {},
        "url": url,
        "ages": AGE_TEXTS,
    }
    values |= {"id_of": id_of, "id_of_entry": id_of_entry, "names": counts}
    values |= {"cut": needed[kind] if len(entries) >= MAX_GROUPED else None}
    values |= {"grouped": MAX_GROUPED, "members": MEMBERS, "kept": (*FILTERED, "order", "range")}
    if principal.has_permission(Permission.BROWSE):
        values |= await trends.page_values(
            call, principal, query["definition"], lambda name: url(range=name)
        )
    return show_page(
        call.request, "inbox.html", here="inbox", live="/ui/events", since=since, **values
    )


@routes.post("/ui/inbox", permission=Permission.APPROVE)
async def act(call: Call) -> Response:
    """Ask for confirmation with the count. Then act on each confirmed entry that still waits, and
    show the results.
    """
    session, fields = await session_and_fields(call.request, MAX_FIELDS)
    form = dict(fields)
    kind, verb, waits = form.get("kind", ""), form.get("verb", ""), form.get("waits")
    if (decision := buttons.DECISIONS.get(verb)) not in CHOICES.get(kind, ()) or decision is None:
        text = "Select sagas in the inbox, then select an action."
        return not_acted(call.request, "No action selected", text, "/ui")
    check_decision(call.principal, kind, decision)
    try:
        wanted = wanted_of(call.principal, form)
    except (ValueError, SagasError) as error:
        return not_acted(call.request, "No action selected", f"{error}.", "/ui")
    entries = await entries_of(call, wanted, kind)
    if kind == APPROVAL:
        entries = await approvals.ordered(call.service, entries, wanted.order)
    choose = functools.partial(selected, entries, fields)
    if waits is not None:
        choose = functools.partial(seen, entries, waits)
    selection = await call.service.threads.pages.do(choose)
    if not selection.entries:
        text = "Nothing was selected, or all of it has changed since. Select groups or sagas."
        return not_acted(call.request, "Nothing is selected", text, back_of(form))
    if waits is None:
        return await confirmation_page(call, form, selection)
    if fault := fault_of(form):
        return await confirmation_page(call, form, selection, fault)
    user = Requester(session.principal.name, Way.DASHBOARD, new_bulk())
    options = {"by": user, "note": form.get("note", "").strip()[:2000] or None}
    result = json_bodies.read_text(form.get("result") or "null")
    error_text = form.get("failed", "").strip()[:2000]
    work = operators.action_of(call.service, verb, options, result, error_text)
    targets = selection.targets(verb)
    done, refused = await operators.act_on_each(
        call.service, targets[: operators.MAX_TARGETS], work
    )
    log_decision(user, verb, done, len(refused))
    values: dict[str, Any] = {
        "done": done,
        "refused": len(refused),
        "shown": refused[:LISTED],
        "left": len(targets) - operators.MAX_TARGETS,
        "changed": len(waits.split()) - len(selection.entries),
        "back": back_of(form),
    }
    return show_page(call.request, "inbox_done.html", here="inbox", kind=kind, **values)


def back_of(form: dict[str, str]) -> str:
    """Return the address of the inbox with the filter of a form."""
    return address({name: form.get(name) for name in ("kind", *FILTERED, "order")})


def check_decision(principal: Principal, kind: str, decision: Decision) -> None:
    """Raise `Problem` if a user may not make a decision on entries of a kind."""
    check_kind(principal, kind)
    if not principal.may_decide(decision, kind):
        why = f"{principal.name} has no right to {decision.value} what is {TITLES[kind].lower()}"
        raise Problem("Forbidden", why)


def not_acted(request: Request, title: str, text: str, back: str) -> Response:
    """Return a page that says why nothing was done."""
    return show_page(request, "fault.html", 422, title=title, back=back, text=text)


async def confirmation_page(
    call: Call, form: dict[str, str], selection: Selection, fault: str | None = None
) -> Response:
    """Return the confirmation page, with the selection and the form's values.

    It lists each approval with what its saga shows, because each is a decision.
    """
    kind, verb = form["kind"], form["verb"]
    targets = selection.targets(verb)
    values: dict[str, Any] = {"form": form, "targets": targets, "verb": verb, "kind": kind}
    values |= confirmation_of(kind, verb, targets).of(targets, verb)
    values |= {"waits": selection.waits, "fault": fault, "left": selection.left}
    values |= {"kept": (*FILTERED, "order"), "table": None, "back": back_of(form)}
    if kind == APPROVAL:
        values["table"] = await approvals.table_of(call.service, selection.entries)
    status = 422 if fault else 200
    return show_page(call.request, "inbox_confirm.html", status, here="inbox", **values)


def fault_of(form: dict[str, str]) -> str | None:
    """Return what is wrong with a form, or None."""
    if form["verb"] == "resolve" and not form.get("note", "").strip():
        return "Describe what was done."
    if form["verb"] == "failed" and not form.get("failed", "").strip():
        return "Enter a reason."
    try:
        json_bodies.read_text(form.get("result") or "null")
    except ValueError:
        return "The result is not valid JSON. Write a text in quotation marks."
    return None
