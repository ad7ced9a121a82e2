"""Sagas as JSON."""

from __future__ import annotations

import dataclasses
from collections.abc import Mapping
from typing import Any

from sagas.core.decisions import CHOICES
from sagas.core.results import Summary
from sagas.definition import serialization
from sagas.engine.plan import Plan
from sagas.inspection import calls, timeline as timeline_module
from sagas.inspection.calls import CallTimes
from sagas.inspection.views import Relative, RestartLink, SagaView, Waits, state_of
from sagas.inspection.attention_pages import Entry
from sagas.inspection.timeline import AttemptTimes
from sagas.inspection.what_if import WhatIf
from sagas.runtime.leased_tasks import LeasedTask, Queue
from sagas.server.json_bodies import times
from sagas.storage.schedules import Schedule


def summary(saga_summary: Summary) -> dict[str, Any]:
    """Return a saga of a list."""
    return {
        "key": saga_summary.key,
        "definition": saga_summary.saga,
        "version": saga_summary.version,
        "phase": saga_summary.phase,
        **times(
            started=saga_summary.started, ended=saga_summary.ended, deadline=saga_summary.deadline
        ),
        "undo_failed": saga_summary.undo_failed,
        "labels": saga_summary.labels,
        "note": saga_summary.note,
    }


def plan(shown_plan: Plan | None) -> dict[str, Any] | None:
    """Return what a plan does with each step, and the costs to keep and drop it."""
    if shown_plan is None:
        return None
    steps = [
        {
            "step": choice.step,
            "found": choice.state,
            "cost_to_keep": choice.cost_to_keep,
            "cost_to_drop": choice.cost_to_drop,
            "decision": choice.decision if shown_plan.cost is not None else "stuck",
        }
        for choice in shown_plan.choices
    ]
    return {
        "cost": shown_plan.cost,
        "pivot": shown_plan.pivot,
        "blocking_steps": shown_plan.blocking_steps,
        "steps": steps,
    }


def held(wait: Waits) -> dict[str, Any]:
    """Return what an attempt waits for."""
    return {
        "step": wait.step or None,
        "undo": wait.undo,
        "attempt": wait.attempt,
        "why": wait.why,
        **times(since=wait.since, until=wait.until),
        "detail": wait.detail,
        "person": wait.asks,
    }


def relative(related: Relative) -> dict[str, Any]:
    """Return a saga's parent, or one of its children."""
    return {
        "key": related.key,
        "definition": related.saga,
        "phase": related.phase,
        "step": related.step,
        "children": related.children,
    }


def restart(link: RestartLink) -> dict[str, Any]:
    """Return the saga that a saga restarts, or one that restarts it."""
    return {"key": link.key, "definition": link.saga, "phase": link.phase}


def saga(view: SagaView) -> dict[str, Any]:
    """Return a saga with its steps."""
    return {
        "key": view.key,
        "definition": view.saga,
        "version": view.summary.version,
        "phase": view.phase,
        "over": view.phase != "open",
        **times(started=view.started, ended=view.ended, deadline=view.summary.deadline),
        "aborted": view.aborted,
        "note": view.note,
        **times(erased=view.erased.at if view.erased else None),
        "erased_by": view.erased.by if view.erased else None,
        "labels": view.summary.labels,
        "parent": view.parent and relative(view.parent),
        "children": [relative(child) for child in view.children],
        "end_call": view.end_call and dataclasses.asdict(view.end_call),
        "restart_of": view.restart_of and restart(view.restart_of),
        "restarts": [restart(link) for link in view.restarts],
        "input": view.input,
        "states": {step.name: state_of(view, step) for step in view.steps},
        "results": view.results,
        "errors": {step.name: step.raised for step in view.steps if step.raised is not None},
        "optional_failures": [step.name for step in view.steps if step.is_optional_failure],
        "plan": plan(view.plan),
        "waits": [held(child) for child in view.held],
        "progress": [
            {"step": step.name, "fraction": step.progress.fraction, "detail": step.progress.detail}
            for step in view.steps
            if step.progress
        ],
        "early": {step.name: step.early for step in view.steps if step.early},
    }


def log(view: SagaView, now: float) -> list[dict[str, Any]]:
    """Return a saga's events in the order of its log, with commands and repeated calls."""
    history = calls.history(view, now)
    return [event(entry.event, entry.at, entry.step, entry.value) for entry in history]


def export(view: SagaView, now: float) -> dict[str, Any]:
    """Return all that is stored of a saga. The planner page replays it."""
    return {**replayed(view), "saga": saga(view), "history": log(view, now)}


def replayed(view: SagaView) -> dict[str, Any]:
    """Return what the planner page needs to replay a saga: no input, result or error."""
    return {
        "definition": view.definition,
        "events": [{**times(at=at), **line} for at, line in view.lines],
    }


def event(name: str, at: float, step: str | None, value: Any) -> dict[str, Any]:
    """Return an event of a saga."""
    return {"event": name, **times(at=at), "step": step, "value": value}


def timeline(view: SagaView, now: float) -> dict[str, Any]:
    """Return what each attempt did, and the operator commands."""
    return {
        "attempts": [attempt_times(entry) for entry in timeline_module.of(view, now)],
        "calls": [call_times(entry) for entry in calls.of(view, now)],
        "decisions": [
            {**entry, **times(at=entry["at"])} for entry in timeline_module.decisions(view)
        ],
    }


def call_times(call: CallTimes) -> dict[str, Any]:
    """Return a call of a function."""
    return {
        "step": call.step,
        "undo": call.undo,
        "attempt": call.attempt,
        "number": call.number,
        **times(began=call.began, ended=call.ended),
        "outcome": call.outcome,
        "error": call.error,
        "worker": call.worker,
        "node": call.node,
    }


def attempt_times(attempt: AttemptTimes) -> dict[str, Any]:
    """Return an attempt with its spans."""
    note = attempt.decision
    return {
        "step": attempt.step,
        "undo": attempt.undo,
        "attempt": attempt.attempt,
        **times(ready=attempt.ready, began=attempt.began, ended=attempt.ended),
        "outcome": attempt.outcome,
        "error": attempt.error,
        "unknown_outcomes": attempt.unknowns,
        "spans": [
            {
                "state": span.state,
                "why": span.why,
                **times(began=span.began, ended=span.ended),
                "worker": span.worker,
                "lease": span.lease,
                "detail": span.detail,
            }
            for span in attempt.spans
        ],
        "decision": note
        and {
            "command": note.what,
            **times(at=note.at),
            "by": note.arguments.get("by"),
            "note": note.arguments.get("note"),
        },
    }


def certificate(certified: Plan) -> dict[str, Any]:
    """Return what `sagas check` needs to verify a plan."""
    return {"definition": certified.definition, "case": certified.case, "answer": certified.answer}


def what_if(forecast: WhatIf) -> dict[str, Any]:
    """Return a hypothetical plan with its certificate."""
    fields = {
        "cost": forecast.plan.cost,
        "plan": plan(forecast.plan),
        "certificate": certificate(forecast.plan),
    }
    return {**fields, "assumed": forecast.assumed}


def task(leased: LeasedTask, now: float) -> dict[str, Any]:
    """Return a task as a worker gets it."""
    task = leased.task
    deadline = task.deadline.timestamp() if task.deadline else None
    return {
        "name": name_of(task.saga, task.declared_step, task.is_compensation),
        "attempt_id": leased.attempt_id,
        "lease": leased.lease,
        "seconds": round(max(0.0, leased.until - now), 3),
        **times(until=leased.until, deadline=deadline),
        "cancelled": task.cancelled.reason,
        "definition": task.saga,
        "key": task.key,
        "step": task.step,
        "undo": task.is_compensation,
        "attempt": task.attempt,
        "idempotency_key": task.idempotency_key,
        "original_idempotency_key": task.original_idempotency_key,
        "traceparent": task.traceparent,
        **task._plain,
        "given": serialization.read(leased.given),
    }


def name_of(saga: str, step: str, undo: bool) -> str:
    """Return the task name that a worker requests: `trip/car`, or `trip/car/undo`."""
    return f"{saga}/{step}{'/undo' if undo else ''}"


def schedule(stored: Schedule) -> dict[str, Any]:
    """Return a schedule with its last and next times."""
    return {
        "name": stored.name,
        "definition": stored.saga,
        "version": stored.version,
        "input": stored.input,
        "labels": stored.labels,
        "cron": stored.cron,
        "every": stored.every,
        "timezone": stored.timezone,
        "catch_up": stored.catch_up,
        "max": stored.max,
        "overlap": stored.overlap,
        "paused": stored.paused,
        "error": stored.error,
        **times(next=None if stored.paused else stored.next_at, last=stored.last_at),
    }


def queue(waiting: Queue) -> dict[str, Any]:
    """Return the tasks of a step that wait for workers."""
    fields = {
        "definition": waiting.saga,
        "step": waiting.step,
        "undo": waiting.undo,
        "ready": waiting.ready,
    }
    return {**fields, "claimed": waiting.claimed, **times(oldest=waiting.oldest)}


WAITS_FOR = {
    "stuck": "an operator who repairs it by hand and resolves it",
    "undo_failed": "an operator who undoes the step by hand and resolves the saga",
    "unused_report": "an operator who compensates the step or resolves the saga",
    "unknown": "an operator who finds out whether the step had its effect and reports it",
    "exhausted": "an operator who retries it or reports it",
    "cannot_decode": "a program that can read the stored value, or an operator's report",
    "program_error": "a program without the error, or an operator who retries it or reports it",
    "on_end": "a program that has the on_end function, and can read the stored values",
    "no_definition": "a node that has its definition, or an operator's report",
    "no_node": "a node that has its definition",
    "damaged": "an operator who repairs or deletes the damaged shard of the saga",
    "approval": "an approver's decision",
}


def entry(attention: Entry, shown: Mapping[str, Any]) -> dict[str, Any]:
    """Return an entry that needs an operator. `shown`: the fields that an approval shows."""
    because = f"because of {' and '.join(attention.blocking)}" if attention.blocking else ""
    return {
        "kind": attention.kind,
        "key": attention.key,
        "definition": attention.saga,
        "step": attention.step,
        "undo": attention.undo,
        "detail": ": ".join(part for part in (because, attention.detail) if part) or None,
        "by": attention.by,
        "shown": shown,
        "waits_for": WAITS_FOR[attention.kind],
        "calls": [decision.value for decision in CHOICES[attention.kind]],
        **times(since=attention.since, until=attention.until),
    }
