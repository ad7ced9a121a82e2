"""Routes and pages of definitions: their steps, and the state of their sagas."""

from __future__ import annotations

import dataclasses
import functools
import time
from typing import Any
from urllib.parse import quote

from starlette.responses import Response

from sagas.api.explanation import reads_input
from sagas.base.errors import InvalidInput
from sagas.definition.drawing import Block, Groups
from sagas.definition.pivot import pivot_of
from sagas.definition.saga import Saga
from sagas.inspection import definitions, picture
from sagas.inspection.definitions import AtStep
from sagas.inspection.failure_cases import Moment
from sagas.inspection.picture import Box, StepDisplay
from sagas.inspection.lists import COUNTED
from sagas.inspection.question import Question
from sagas.server import answers, declared_steps, explanations, figures
from sagas.server.auth import Permission
from sagas.server.dashboard import show_page
from sagas.server.database_reads import of_each, replies_to, unavailable_of
from sagas.server.declared_steps import COMPUTED, DeclaredStep
from sagas.server.json_bodies import Json
from sagas.server.operations import Answer, Call, Routes
from sagas.server.routes import trends
from sagas.server.shapes import Choice, Field, Text
from sagas.server.table_rows import UNFOLD, Unfolding, folded

routes = Routes("definitions", "/v1")
KINDS = {"approval": "approval", "wait": "wait", "child": "child"}


def definition_json(saga: Saga[Any], counts: dict[str, int]) -> dict[str, Any]:
    """Return a definition with its steps."""
    has_pivot = pivot_of(saga) is not None
    steps = [step_of(step, has_pivot) for step in declared_steps.of(saga)]
    return {"name": saga.name, "version": saga.version, "steps": steps, "sagas": counts}


def step_of(declared: DeclaredStep, has_pivot: bool) -> dict[str, Any]:
    """Return a step with its costs. `has_pivot`: its saga has one, which determines them."""
    step, costs = declared.step, declared.costs
    if has_pivot:
        costs = dict.fromkeys(costs, COMPUTED)
    kind = KINDS.get(step.kind) or ("worker" if step.run.external else "function")
    return {
        "name": declared.name,
        "kind": kind,
        "needs": declared.needs,
        **{name: None if cost == COMPUTED else cost for name, cost in costs.items()},
        "computed": [name for name, cost in costs.items() if cost == COMPUTED],
        "for_each": declared.for_each,
        "conditional": declared.conditional,
        "optional": step.is_optional,
        "pivot": step.is_pivot,
        "tries": step.run.tries,
        "undo_tries": step.undo.tries,
    }


@routes.get(
    "/definitions",
    "listDefinitions",
    permission=Permission.LOOK,
    answers={200: Answer("Each version of each definition.", answers.DEFINITIONS)},
)
async def listed(call: Call) -> Response:
    """List definitions.

    Returns those that the token may see, with their steps and the number of their sagas.
    """
    scope = call.principal.scope
    parts = await of_each(call, lambda service, _: service.figures.of(scope))
    counts, _ = figures.summed([*parts.values()])
    no_counts = dict.fromkeys(COUNTED, 0)
    visible = [saga for saga in call.service.settings.sagas if call.principal.sees(saga.name)]
    visible.sort(key=lambda saga: (saga.name, saga.version))
    listed_definitions = [
        definition_json(saga, counts.get(saga.name, no_counts)) for saga in visible
    ]
    return Json({"definitions": listed_definitions} | unavailable_of(call))


# -- pages


page_routes = Routes("pages", is_page=True)


@page_routes.get("/ui/definitions", permission=Permission.BROWSE)
async def definitions_page(call: Call) -> Response:
    """Show all definitions with counts of their sagas."""
    service, principal = call.service, call.principal
    since = service.hub.now
    counts, _ = await service.figures.of(principal.scope)
    no_counts = dict.fromkeys(COUNTED, 0)
    counts_by_name = {
        name: counts.get(name, no_counts) for name in sorted({*counts, *service.names(principal)})
    }
    return show_page(
        call.request,
        "definitions.html",
        here="definitions",
        live="/ui/events",
        since=since,
        counts=counts_by_name,
    )


FAILS = Field(Text(max_length=64), "the step whose failure is drawn", default=None)
MOMENT = Field(
    Choice((Moment.LATE.value, Moment.EARLY.value)),
    "how far the other steps are when it fails",
    default=Moment.LATE.value,
)


DEFINITION = {"unfold": UNFOLD, "fails": FAILS, "when": MOMENT, "range": trends.RANGE}


@page_routes.get("/ui/definitions/{name}", permission=Permission.BROWSE, query=DEFINITION)
async def definition_page(call: Call) -> Response:
    """Show a definition: its steps with their attempts, durations, and the costs of recoveries.

    If only another service has it, or none any more, only its sagas are shown.
    """
    request, name = call.request, call.path["name"]
    service, principal = call.service, call.principal
    versions = [
        saga for saga in service.settings.sagas if saga.name == name and principal.sees(name)
    ]
    since = service.hub.now
    counts, _ = await service.figures.of(principal.scope)
    if not versions and name not in counts:
        values: dict[str, Any] = {"title": "Unknown definition", "back": "/ui/definitions"}
        return show_page(
            request, "fault.html", 404, text=f"No definition is named {name}.", **values
        )

    at, costs = await figures_of(call, name)
    phases = counts.get(name, dict.fromkeys(COUNTED, 0))
    over = phases["completed"] + phases["recovered"] + phases["resolved"] + phases["stuck"]
    more: dict[str, Any] = {"name": name, "saga": None, "of": phases, "costs": costs}
    more |= {"share": (over - phases["completed"]) / over if over else None}
    more |= {"most": max((cost for _, _, cost in costs), default=0)}
    if versions:
        more |= await step_values(call, max(versions, key=lambda saga: saga.version), at)
    more |= await trends.page_values(
        call, principal, name, lambda value: f"/ui/definitions/{quote(name)}?range={value}"
    )
    return show_page(
        request, "definition.html", here="definitions", live="/ui/events", since=since, **more
    )


async def figures_of(
    call: Call, name: str
) -> tuple[dict[str, AtStep], list[tuple[float, int, int]]]:
    """Return what is at each step of a definition, and the costs of each day, of all databases."""
    now, scope = time.time(), call.principal.scope

    def question() -> Question[tuple[dict[str, AtStep], list[tuple[float, int, int]]]]:
        at_steps = yield from definitions.at_steps(name, scope)
        return at_steps, (yield from definitions.costs(name, now, scope))

    parts = await replies_to(call, question)
    steps = dict.fromkeys(step for at_steps, _ in parts for step in at_steps)
    at = {step: total([part.get(step, AtStep()) for part, _ in parts]) for step in steps}
    days = zip(*(costs for _, costs in parts))
    sums = [(day[0][0], sum(n for _, n, _ in day), sum(cost for *_, cost in day)) for day in days]
    return at, sums


async def step_values(call: Call, saga: Saga[Any], at: dict[str, AtStep]) -> dict[str, Any]:
    """Return the template values of the steps."""
    declared = declared_steps.of(saga)
    groups = Groups([step.origin for step in declared])
    unfolding = Unfolding(groups, call.query["unfold"], f"/ui/definitions/{saga.name}")
    steps = rows_of(call, saga, declared, at, unfolding)
    picture = functools.partial(drawn, saga, declared, steps)
    return {
        "saga": saga,
        "pivot": pivot_of(saga),
        "unfolding": unfolding,
        "rows": folded(steps, lambda row: (-row.at.person, -row.at.failed, -row.at.open)),
        "picture": await call.service.threads.pages.do(picture),
        "failures": await failure_values(call, saga),
    }


async def failure_values(call: Call, saga: Saga[Any]) -> dict[str, Any]:
    """Return the template values of the failures of the steps."""
    service = call.service
    values: dict[str, Any] = {"needs_input": True, "table": None, "picture": None}
    if reads_input(saga):
        return values
    try:
        text = await service.threads.pages.do(saga.toml)
    except InvalidInput:  # an included saga has a type for its input
        return values
    step, moment = call.query["fails"], call.query["when"]
    if step is not None:
        picture = functools.partial(explanations.drawn, text, step, moment)
        values |= {"step": step, "when": moment}
        values["picture"] = await service.threads.pages.do(picture)
    return values | {"needs_input": False, "table": await service.explanations.table(text)}


@dataclasses.dataclass(frozen=True, slots=True)
class Row:
    """A step of a definition, or an included saga that is folded.

    Attributes:
        title: The declared name, or the group's title.
        steps: The numbers of the steps.
        needs: The names of what it needs.
        at: Counts of its attempts.
        step: The step. None for a group.
        href: The target of a click on a group.
        durations: Of the action, and of the compensation.
    """

    title: str
    steps: list[int]
    needs: list[str]
    at: AtStep
    step: DeclaredStep | None = None
    href: str | None = None
    durations: tuple[Any, Any] = (None, None)


def rows_of(
    call: Call,
    saga: Saga[Any],
    declared: list[DeclaredStep],
    at: dict[str, AtStep],
    unfolding: Unfolding,
) -> list[Row]:
    """Return the rows of the table, which are also the boxes of the picture."""
    blocks = unfolding.groups.blocks(len(declared), unfolding.names)
    name_of = {
        declared[step].name: block.group.name if block.group else declared[step].name
        for block in blocks
        for step in block.steps
    }

    def row(block: Block) -> Row:
        steps = [declared[step] for step in block.steps]
        own_names = {name_of[step.name] for step in steps}
        needed = dict.fromkeys(name_of[need] for step in steps for need in step.needs)
        needs = [name for name in needed if name not in own_names]
        tally = total([at.get(step.name, AtStep()) for step in steps])
        if block.group is not None:
            href = unfolding.link(block.group)
            return Row(block.group.title, block.steps, needs, tally, href=href)
        times = durations_of(call, saga, steps[0].name)
        return Row(steps[0].name, block.steps, needs, tally, steps[0], durations=times)

    return [row(block) for block in blocks]


def total(tallies: list[AtStep]) -> AtStep:
    """Add up the counts of several steps."""
    return AtStep(*map(sum, zip(*map(dataclasses.astuple, tallies))))


def durations_of(call: Call, saga: Saga[Any], step: str) -> tuple[Any, Any]:
    """Return the durations of a step's action and of its compensation."""
    durations = call.service.metrics.durations
    return durations.of((saga.name, step, False)), durations.of((saga.name, step, True))


def drawn(saga: Saga[Any], declared: list[DeclaredStep], rows: list[Row]) -> str:
    """Draw the steps with the counts of their attempts."""
    boxes = []
    for row in rows:
        tally = row.at
        state = f"{tally.open:,} open" if tally.open else "none open"
        state += f", {tally.waits:,} wait" if tally.waits else ""
        counts = ((tally.person, "for an operator"), (tally.failed, "failed"))
        note = row.step.note if row.step else ""
        why = ", ".join([f"{count:,} {label}" for count, label in counts if count] or [note])
        tone = "person" if tally.person else "failed" if tally.failed else ""
        icon = "running" if tally.open else "waiting"
        display = StepDisplay(state, why, False, tone or icon, icon)
        boxes.append(Box(row.title, display, row.steps, row.href, row.step is None))
    needs = [(step.name, step.needs) for step in declared]
    return picture.drawn(needs, boxes, f"{saga.name}: its steps, and what is at each")
