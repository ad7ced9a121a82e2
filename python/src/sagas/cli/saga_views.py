"""`list`, `show`, `log`, `plan`, `draw` and `export`."""

from __future__ import annotations

import argparse
import dataclasses
import shlex
import sys
import time
from collections.abc import Sequence
from typing import Any

from sagas.base import program
from sagas.base.wording import escaped
from sagas.cli.formatting import GOOD, lines, moment, short, show_json, table
from sagas.cli.listings import held_json, show_held
from sagas.cli.options import filter_of, read_by
from sagas.cli.snapshot import Snapshot
from sagas.core.history import FAILURE_EVENTS, was_called
from sagas.core.results import HistoryEvent, Summary
from sagas.core.states import known_state
from sagas.definition import drawing
from sagas.definition.saga_result import state_text
from sagas.engine.plan import certificate_text
from sagas.inspection import calls, pages, picture
from sagas.inspection.calls import CallTimes
from sagas.inspection.views import Relative, SagaView, StepView
from sagas.inspection.wording import call_text, one_line
from sagas.storage.admin import Trouble
from sagas.storage.operator_requests import reason

Json = dict[str, Any]


def phase_of(summary: Summary) -> str:
    """Return a saga's phase, with a remark if a compensation failed."""
    return f"{summary.phase}, undo failed" if summary.undo_failed else summary.phase


def labels_text(summary: Summary) -> str:
    """Return a saga's labels as text."""
    return ", ".join(f"{name}={value}" for name, value in summary.labels.items())


def summary_json(summary: Summary) -> Json:
    """Return a saga of a list as JSON."""
    fields = dataclasses.asdict(summary)
    fields["at"] = fields.pop("started")
    order = "id key saga version phase at ended note undo_failed labels deadline"
    return {name: fields[name] for name in order.split()}


def list_sagas(path: str, options: argparse.Namespace) -> int:
    """List sagas by phase and name, the oldest first."""
    with Snapshot(path) as store:
        last = pages.position_of(store.saga(options.after).summary) if options.after else None
        listed = store.ask(
            pages.page(
                phase=options.phase,
                saga=options.saga or None,
                labels=filter_of(options).labels,
                after=None if options.newest else last,
                before=last if options.newest else None,
                newest=options.newest,
                limit=options.limit or None,
            )
        )
    if options.json:
        show_json(
            [{w: v for w, v in summary_json(summary).items() if w != "id"} for summary in listed]
        )
    else:
        heads = ["KEY", "SAGA", "VERSION", "PHASE", "STARTED", "ENDED"]
        cells = [
            [
                summary.key,
                summary.saga,
                summary.version or "",
                phase_of(summary),
                moment(summary.started),
                moment(summary.ended),
            ]
            for summary in listed
        ]
        if any(summary.labels for summary in listed):
            heads.append("LABELS")
            cells = [[*row, labels_text(summary)] for row, summary in zip(cells, listed)]
        print(table(heads, cells))
    if options.limit and len(listed) == options.limit:
        newest, key = "--newest " if options.newest else "", listed[-1].key
        after = (
            f"--after={shlex.quote(key)}" if key.startswith("-") else f"--after {shlex.quote(key)}"
        )
        print(f"there may be more: continue with {newest}{after}", file=sys.stderr)
    return GOOD


def show(path: str, options: argparse.Namespace) -> int:
    """Show the state of a saga, its steps, its last plan and what it waits for.

    A step in state `begun` runs or waits. Only the program that executes the saga knows which.
    """
    with Snapshot(path, read_by(options)) as store:
        view = store.saga(options.key)
    if options.json:
        show_json(view_json(view) | {"plan": view.plan.answer if view.plan else None})
        return GOOD
    facts = [
        ("key", view.key),
        ("saga", view.saga),
        ("version", str(view.summary.version or "")),
        ("phase", f"{phase_of(view.summary)}{', aborted' if view.aborted else ''}"),
        ("started", moment(view.started)),
        ("ended", moment(view.ended)),
        ("deadline", moment(view.summary.deadline)),
        ("labels", labels_text(view.summary)),
        ("parent", view.parent.key if view.parent else ""),
        *(("child", child_text(entry)) for entry in view.children),
        ("on_end", view.end_call.text if view.end_call else ""),
        ("restarts", restarted_text(view)),
        *(("restart", f"{link.key} ({link.phase})") for link in view.restarts),
        ("input", short(view.input, 200)),
        ("unused", "" if view.note else ", ".join(f"report of {entry}" for entry in view.unused)),
        ("resolved", resolved_text(view)),
        ("note", one_line(view.note)),
    ]
    print("\n".join(f"{name:8} {escaped(text)}" for name, text in facts if text))
    print()
    show_steps(view)
    show_calls(calls.repeated(view, time.time()))
    if view.plan:
        print(f"\n{view.plan}")
    if view.held:
        print()
        show_held([held_json(entry) for entry in view.held])
    return GOOD


def child_text(child: Relative) -> str:
    """Return a child of a saga with its phase, and how many children it has."""
    count = child.children
    below = f", {count:,} {'child' if count == 1 else 'children'}" if count else ""
    return f"{child.key} ({child.phase}{below})"


def view_json(view: SagaView) -> Json:
    """Return the state of a saga as JSON."""
    return summary_json(view.summary) | {
        "aborted": view.aborted,
        "input": view.input,
        "parent": view.parent and view.parent.key,
        "children": [dataclasses.asdict(entry) for entry in view.children],
        "end_call": view.end_call and dataclasses.asdict(view.end_call),
        "restart_of": view.restart_of and view.restart_of.key,
        "restarts": [dataclasses.asdict(link) for link in view.restarts],
        "end": view.end,
        "steps": [step_json(step) for step in view.steps],
        "calls": [call_json(call) for call in calls.of(view, time.time())],
        "held": [held_json(entry) for entry in view.held],
    }


def restarted_text(view: SagaView) -> str:
    """Return the key of the saga that a saga restarts, and whether that one was deleted."""
    old = view.restart_of
    return old.key + ("" if old.phase else " (deleted)") if old else ""


def resolved_text(view: SagaView) -> str:
    """Return when a saga was resolved, and by whom if this is known."""
    if (note := view.resolution) is None:
        return ""
    return moment(note.at) + (f" by {note.arguments['by']}" if note.arguments.get("by") else "")


def step_json(step: StepView) -> Json:
    """Return a step of a saga as JSON."""
    return {
        "step": step.name,
        "state": known_state(step.state),
        "optional_failure": step.is_optional_failure,
        "attempts": step.attempts,
        "started": step.began,
        "ended": step.ended,
        "result": step.detail,
        "progress": step.progress and step.progress.fraction,
        "detail": step.progress and step.progress.detail,
        "early": step.early,
    }


def show_steps(view: SagaView) -> None:
    """Print the steps of a saga, with the error of a permanently failed compensation."""
    undos = {
        attempt.step: f"its compensation: {short(attempt.value)}"
        for attempt in view.attempts
        if attempt.outcome in FAILURE_EVENTS and was_called(attempt.outcome, attempt.value)
    }
    heads = ["STEP", "STATE", "TRIES", "STARTED", "ENDED", "DETAIL"]
    cells = []
    for step in view.steps:
        undo = undos.get(step.name) if step.state == "undo_failed" else None
        early = f"reported early: {step.early}" if step.early else None
        detail = "; ".join(
            filter(None, [short(str(step.progress or "") or step.detail), undo, early])
        )
        times = moment(step.began), moment(step.ended)
        is_over, is_optional = view.phase != "open", step.is_optional_failure
        state = state_text(step.state, is_over, is_optional)
        cells.append((step.name, state, step.attempts, *times, detail))
    print(table(heads, cells))


def show_calls(repeated: Sequence[CallTimes]) -> None:
    """Print the calls of attempts that were called more than once."""
    if not repeated:
        return
    heads = ["STEP", "CALL", "BEGAN", "ENDED", "OUTCOME", "NODE OR WORKER", "ERROR"]
    cells = [
        (
            f"{call.step} (undo)" if call.undo else call.step,
            call.number,
            moment(call.began),
            moment(call.ended),
            call.outcome or "",
            call.worker or call.node or "",
            short(call.error or ""),
        )
        for call in repeated
    ]
    print()
    print(table(heads, cells))


def call_json(call: CallTimes) -> Json:
    """Return a call as JSON."""
    fields = dataclasses.asdict(call)
    fields["kind"] = "undo" if fields.pop("undo") else "run"
    return {name: value for name, value in fields.items() if name != "is_repeated"}


def log(path: str, options: argparse.Namespace) -> int:
    """Print the events of a saga.

    Commands of operators are `note` events, and repeated calls of an attempt are `call` events.
    """
    with Snapshot(path, read_by(options)) as store:
        events = calls.history(store.saga(options.key), time.time())
    if options.json:
        show_json([dataclasses.asdict(event) for event in events])
    else:
        rows = [
            (moment(event.at), event.event, event.step or "", detail_of(event)) for event in events
        ]
        print(table(["TIME", "EVENT", "STEP", "DETAIL"], rows))
    return GOOD


def detail_of(event: HistoryEvent) -> str:
    """Return the result of an event on one line; for a command, who sent it and why."""
    if event.event == "fail" and (event.value or {}).get("optional") is True:
        return short(f"optional: {event.value['error']}")
    if event.event == calls.CALL:
        return short(call_text(event.value))
    if event.event != "note":
        return short(event.value)
    command: Json = event.value
    answer = command["answer"]
    action = f"{command['what']} (undo)" if command.get("kind") == "undo" else command["what"]
    if "new_key" in command:
        action += f" as {command['new_key']}"
    by = f" by {command['by']}" if command.get("by") else ""
    why = "; ".join(filter(None, [command.get("note"), command.get("error")]))
    outcome = ""
    if answer is None:
        outcome = " (no answer yet)"
    elif answer is not True:
        outcome = f" (refused{f': {reason(answer)}' if answer else ''})"
    return short(f"{action}{by}{f': {why}' if why else ''}{outcome}")


def plan(path: str, options: argparse.Namespace) -> int:
    """Print the last plan of a saga, with the costs of both choices for each step.

    With --json, print its definition, case and answer. With --text, print them in the format
    that `sagas check` reads.
    """
    with Snapshot(path) as store:
        last = store.saga(options.key).plan
    if options.json:
        parts = ("definition", "case", "answer")
        show_json({part: getattr(last, part) for part in parts} if last else None)
    elif last:
        print(certificate_text(last).rstrip("\n") if options.text else last)
    else:
        raise Trouble(f"{options.key} has no plan: no step has failed, and it was not aborted")
    return GOOD


def draw(path: str, options: argparse.Namespace) -> int:
    """Print the last plan of a saga, or its definition, for Graphviz.

    The items of a step, and the steps of an included saga, are one node.
    """
    with Snapshot(path) as store:
        view = store.saga(options.key)
    if options.svg:
        text = picture.document(view, options.unfold)
    elif view.plan:
        text = view.plan.draw(unfold=options.unfold)
    else:
        whole = program.draw(view.definition)
        text = drawing.fold(whole, view.definition, options.unfold)
    if options.json:
        show_json({"key": options.key, "svg" if options.svg else "dot": text})
    else:
        print(lines(text.rstrip("\n")))
    return GOOD


def export(path: str, options: argparse.Namespace) -> int:
    """Print everything that is stored of a saga, as JSON."""
    read = read_by(options)
    with Snapshot(path, read) as store:
        view = store.saga(options.key)
    show_json(
        view_json(view)
        | {
            "definition": view.definition,
            "shape": None if view.shape is None else read(view.shape),
            "events": [{"at": at, **event} for at, event in view.lines],
            "results": results_json(view),
            "notes": [dataclasses.asdict(note.event) for note in view.notes],
        }
    )
    return GOOD


def results_json(view: SagaView) -> Sequence[Json]:
    """Return how each attempt of a saga ended, in the order of time, as JSON."""
    return [
        {
            "step": attempt.step,
            "kind": "undo" if attempt.undo else "run",
            "attempt": attempt.attempt,
            "outcome": attempt.outcome,
            "value": attempt.value,
            "at": attempt.at,
        }
        for attempt in sorted(view.attempts, key=lambda attempt: attempt.at)
    ]
