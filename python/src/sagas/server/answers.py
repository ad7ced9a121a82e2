"""Shapes of the API's responses, as in the OpenAPI document."""

from __future__ import annotations

from sagas.core.nodes import NodeState
from sagas.definition.call_options import COST_NAMES
from sagas.inspection.views import END_CALLS
from sagas.server import problems
from sagas.server.auth import DEFINITION
from sagas.server.json_bodies import name_of_text
from sagas.server.shapes import (
    Anything,
    Choice,
    Either,
    Field,
    Flag,
    Mapped,
    Nullable,
    Number,
    Record,
    Several,
    Shape,
    Text,
)

TASK_SHAPE = Record(
    "TaskShape",
    {
        "saga": Field(Text(), "the saga in which the step is declared, also if it is included"),
        "counts": Field(
            Mapped(Number(minimum=0, whole=True)),
            "how many items there are of each step, and of each inclusion: `ship`, `hotel[1]/room`",
        ),
        "keys": Field(
            Mapped(Several(Text())),
            "the keys of items that are those of an object, by the same names",
        ),
    },
    "Describes how results of items form the result of a declared step.",
)


PHASES = "open", "completed", "recovered", "stuck", "resolved"
STATES = (
    "waiting",
    "begun",
    "running",
    "committed",
    "failed",
    "undoing",
    "undone",
    "undo_failed",
)
KINDS = (
    "stuck",
    "undo_failed",
    "unused_report",
    "unknown",
    "exhausted",
    "cannot_decode",
    "program_error",
    "on_end",
    "no_definition",
    "no_node",
    "damaged",
    "approval",
)
"""What needs an operator."""
NAME = Text(max_length=32, pattern=DEFINITION.pattern)
COUNT = Number(minimum=0, whole=True)
SECONDS = Number()
COST = Nullable(COUNT)
MAYBE = Nullable(Text())


def time(name: str, description: str, nullable: bool = False) -> dict[str, Field]:
    """Return two fields for a time: in seconds, and as text."""
    seconds: Shape = Nullable(SECONDS) if nullable else SECONDS
    text: Shape = Nullable(Text(form="date-time")) if nullable else Text(form="date-time")
    return {
        name: Field(seconds, f"{description}, in seconds since 1970"),
        name_of_text(name): Field(text, f"{description}, as RFC 3339"),
    }


DEADLINE = time("deadline", "when the saga is aborted if it has not ended", nullable=True)
UNAVAILABLE = {
    "unavailable": Field(
        Mapped(Text()),
        "why databases are missing, by their numbers; only if the store has several",
        default=None,
    )
}
PROBLEM = Record(
    "Problem",
    {
        "type": Field(
            Choice(tuple(problems.PREFIX + name for name in problems.PROBLEMS)),
            "the stable name of the problem",
        ),
        "title": Field(Text(), "a short description of the problem"),
        "status": Field(Number(400, 599, whole=True), "the HTTP status"),
        "detail": Field(Text(), "what happened, and what to do"),
        "field": Field(Text(), "the parameter, or the path in the body", default=None),
        "request_id": Field(Text(), "the id of the request, also in `X-Request-Id`", default=None),
    },
    "Problem details (RFC 9457).",
    {
        "type": "urn:sagas:problem:KeyConflict",
        "title": "The key is already used with another saga, version or input",
        "status": 409,
        "detail": "the key 'order-1' has another input: use another key",
    },
)
STARTED = Record(
    "Started",
    {
        "key": Field(Text()),
        "definition": Field(NAME),
        "version": Field(COUNT, "the version of the definition"),
        "new": Field(Flag(), "false: the key already had this saga"),
    },
    example={"key": "order-1", "definition": "trip", "version": 1, "new": True},
)
SUMMARY = Record(
    "SagaSummary",
    {
        "key": Field(Text()),
        "definition": Field(NAME),
        "version": Field(
            Nullable(COUNT), "of its definition; null: a damaged shard has lost the definition"
        ),
        "phase": Field(Choice(PHASES)),
        **time("started", "when it was started"),
        **time("ended", "when it ended, or got stuck", nullable=True),
        **DEADLINE,
        "undo_failed": Field(Flag(), "a compensation failed permanently"),
        "labels": Field(Mapped(Text())),
        "note": Field(MAYBE, "the note with which it was resolved"),
    },
)
PAGE = Record(
    "SagaPage",
    {
        "sagas": Field(Several(SUMMARY)),
        "next": Field(MAYBE, "`after` for the next page; null: this is the last page"),
        **UNAVAILABLE,
    },
)
PLANNED = Record(
    "PlannedStep",
    {
        "step": Field(NAME),
        "found": Field(Choice(STATES), "the state that the plan found"),
        "cost_to_keep": Field(COST, "null: not possible"),
        "cost_to_drop": Field(COST, "null: not possible"),
        "decision": Field(
            Choice(("stands", "is run", "is undone", "is left out", "stuck")), "what is done"
        ),
    },
)
PLAN = Record(
    "Plan",
    {
        "cost": Field(COST, "null: no plan is feasible"),
        "pivot": Field(
            Nullable(NAME),
            "the pivot, if there is one: then the costs have no meaning of their own",
        ),
        "blocking_steps": Field(Several(NAME), "the steps that make every plan infeasible"),
        "steps": Field(Several(PLANNED)),
    },
)
WAITING = Record(
    "Waiting",
    {
        "step": Field(MAYBE, "null: no node executes the saga"),
        "undo": Field(Flag(), "whether it is the compensation"),
        "attempt": Field(COUNT),
        "why": Field(Text(), "what it waits for"),
        **time("since", "since when"),
        **time("until", "until when", nullable=True),
        "detail": Field(MAYBE, "the last error, the name of the worker, or the note of a pause"),
        "person": Field(Flag(), "an operator must report something"),
    },
)
PROGRESS = Record(
    "Progress",
    {
        "step": Field(NAME),
        "fraction": Field(
            Number(minimum=0, maximum=1), "the progress of its function, from 0 to 1"
        ),
        "detail": Field(MAYBE, "a text from the function"),
    },
)
RELATIVE = Record(
    "Relative",
    {
        "key": Field(Text()),
        "definition": Field(NAME),
        "phase": Field(Choice(PHASES)),
        "step": Field(Text(), "the step that started the child; `STEP:undo`: the child undoes it"),
        "children": Field(COUNT, "how many sagas it started itself; 0 of a parent"),
    },
)
END_CALL = Record(
    "EndCall",
    {
        "state": Field(
            Choice(tuple(END_CALLS)),
            "blocked: no program could start it; person: it waits for a person, or has failed",
        ),
        "key": Field(MAYBE, "of the saga that calls the function; null: it is not started"),
        "detail": Field(MAYBE, "why no program could start it"),
    },
)
RESTART = Record(
    "RestartLink",
    {
        "key": Field(Text()),
        "definition": Field(NAME),
        "phase": Field(Nullable(Choice(PHASES)), "null: it was deleted"),
    },
)
SAGA = Record(
    "Saga",
    {
        "key": Field(Text()),
        "definition": Field(NAME),
        "version": Field(COUNT, "of its definition"),
        "phase": Field(Choice(PHASES)),
        "over": Field(Flag(), "it is not open"),
        **time("started", "when it was started"),
        **time("ended", "when it ended, or got stuck", nullable=True),
        **DEADLINE,
        "aborted": Field(Flag()),
        "note": Field(MAYBE, "the note with which it was resolved"),
        **time("erased", "when its data was erased", nullable=True),
        "erased_by": Field(MAYBE, "who erased its data"),
        "labels": Field(Mapped(Text())),
        "parent": Field(Nullable(RELATIVE), "the saga that started it"),
        "children": Field(Several(RELATIVE), "the sagas that it started, at most 1,024"),
        "end_call": Field(Nullable(END_CALL), "the call of its on_end function"),
        "restart_of": Field(Nullable(RESTART), "the saga that it restarts"),
        "restarts": Field(Several(RESTART), "the sagas that restart it, at most 1,024"),
        "input": Field(Anything()),
        "states": Field(Mapped(Choice(STATES)), "of each step"),
        "results": Field(Mapped(Anything()), "of the steps that are in effect"),
        "errors": Field(Mapped(Text()), "the last error of each failed step"),
        "optional_failures": Field(
            Several(NAME), "the failed steps without which the saga continued"
        ),
        "plan": Field(Nullable(PLAN), "the last plan; null: nothing has failed"),
        "waits": Field(Several(WAITING), "the attempts that wait"),
        "progress": Field(Several(PROGRESS), "the last reported progress of running functions"),
        "early": Field(
            Mapped(Choice(("complete", "fail"))),
            "stored reports of steps that have not started",
        ),
    },
)
EVENT = Record(
    "SagaEvent",
    {
        "event": Field(
            Text(), "the event's name; `note`: a command of an operator; `call`: a repeated call"
        ),
        **time("at", "when"),
        "step": Field(MAYBE),
        "value": Field(Anything(), "its result or error"),
    },
)
DECISION_ENTRY = Record(
    "DecisionEntry",
    {
        "number": Field(COUNT, "its position: a later decision has a larger number"),
        "decision": Field(Text(), "what was decided, for example `retry`"),
        **time("at", "when; of several sagas, the first time"),
        "by": Field(MAYBE, "who decided; null: a program that did not say"),
        "via": Field(Choice(("dashboard", "http", "command", "program")), "by which way"),
        "note": Field(MAYBE, "the reason"),
        "bulk": Field(Flag(), "it was one decision on several sagas"),
        "subject": Field(MAYBE, "of a pause: its scope; of a drain: node:NAME; null: on sagas"),
        "count": Field(COUNT, "the number of sagas and steps"),
        "done": Field(COUNT, "how many were changed"),
        "refused": Field(COUNT, "how many refused it"),
        "waiting": Field(COUNT, "how many have not answered"),
        "sagas": Field(
            Several(
                Record(
                    "DecidedSaga",
                    {
                        "key": Field(Text()),
                        "definition": Field(NAME),
                        "step": Field(MAYBE, "null: the saga is meant"),
                        "undo": Field(Flag(), "whether the compensation is meant"),
                        "answer": Field(Choice(("done", "refused", "waiting"))),
                    },
                )
            ),
            "at most 1,000",
        ),
    },
)
DECISIONS = Record(
    "DecisionPage",
    {
        "decisions": Field(Several(DECISION_ENTRY)),
        "next": Field(
            Nullable(Either(COUNT, Text())),
            "`after` for the next page; null: this is the last page",
        ),
        **UNAVAILABLE,
    },
)
HISTORY = Record("History", {"events": Field(Several(EVENT))})
EXPORT = Record(
    "SagaExport",
    {
        "definition": Field(Text(), "in TOML"),
        "events": Field(Several(Mapped(Anything())), "of its log, each with its time"),
        "saga": Field(SAGA),
        "history": Field(Several(EVENT), "the events with results, errors and operator commands"),
    },
    "All that is stored of a saga. The planner page replays it.",
)
CERTIFICATE = Record(
    "Certificate",
    {
        "definition": Field(Text(), "in TOML"),
        "case": Field(Mapped(Anything()), "the states that the plan found"),
        "answer": Field(Mapped(Anything()), "the plan with its certificate"),
    },
    "What `sagas check` needs to verify a plan.",
)
WHAT_IF = Record(
    "WhatIf",
    {
        "cost": Field(COST, "null: no plan is feasible, so the saga would be stuck"),
        "plan": Field(PLAN),
        "certificate": Field(CERTIFICATE),
        "assumed": Field(
            Mapped(Choice(("waiting", "committed", "failed", "undone", "undo_failed"))),
            "the assumed states of active steps; waiting: given up",
        ),
    },
    "A plan that is not executed.",
)
ERASED = Record(
    "Erased",
    {
        "key": Field(Text()),
        "erased": Field(Flag()),
        "new": Field(Flag(), "false: all of it was erased before"),
    },
)
ABORTED = Record(
    "Aborted",
    {"key": Field(Text()), "aborted": Field(Flag(), "false: it is over, or was already aborted")},
)
COMPENSATED = Record(
    "Compensated",
    {
        "key": Field(Text()),
        "step": Field(NAME),
        "undo": Field(Text(), "the key of the saga that calls the compensation"),
    },
)
RESOLVED = Record("Resolved", {"key": Field(Text()), "resolved": Field(Flag())})
DECIDED = Record(
    "Decided", {"key": Field(Text()), "step": Field(NAME), "kept": Field(Flag(), "it is stored")}
)
WHY = Nullable(Choice(("aborted", "failed")))
CANCELLED = {"cancelled": Field(WHY, "why the saga is being undone; null: it is not being undone")}
TASK = Record(
    "Task",
    {
        "name": Field(Text(), "the requested step: `trip/car`, or `trip/car/undo`"),
        "attempt_id": Field(Text(), "the task's name, for heartbeats and the report"),
        "lease": Field(Text(), "the right to report it, for heartbeats and the report"),
        "seconds": Field(Number(minimum=0), "for how long the lease holds from now"),
        **time("until", "when the lease expires"),
        **DEADLINE,
        **CANCELLED,
        "definition": Field(NAME),
        "key": Field(Text(), "of the saga"),
        "step": Field(NAME, "its name; for a step with items, with the item's number: `ship-2`"),
        "declared_step": Field(Text(), "the declared name of the step: `ship`, `hotel/room`"),
        "index": Field(
            Nullable(COUNT), "the index of the step's item, from 0; null: the step has no items"
        ),
        "item_key": Field(MAYBE, "the key of the item, if the items are those of an object"),
        "item": Field(Anything(), "the step's item; null: the step has no items"),
        "shape": Field(Nullable(TASK_SHAPE), "null: the saga's steps do not depend on its input"),
        "undo": Field(Flag(), "whether it is the compensation"),
        "attempt": Field(COUNT, "1 for the first"),
        "idempotency_key": Field(Text(), "to pass to other services: the same for all attempts"),
        "original_idempotency_key": Field(
            MAYBE, "for a compensation: the idempotency key of its step"
        ),
        "traceparent": Field(MAYBE, "the W3C trace context of the saga's start"),
        "input": Field(Anything(), "of the saga"),
        "given": Field(Anything(), "the input from the including saga, or null"),
        "results": Field(
            Mapped(Anything()), "results of the steps that it needs, by declared step"
        ),
        "result": Field(Anything(), "for a compensation: the result to undo"),
    },
)
CLAIMED = Record(
    "Claimed",
    {
        "tasks": Field(Several(TASK)),
        "heartbeat_seconds": Field(Number(minimum=0), "how often to send heartbeats"),
        "repeat_statuses": Field(
            Several(Number(400, 599, whole=True)),
            "repeat requests that are answered with these statuses",
        ),
        "unknown_steps": Field(Several(Text()), "requested steps that no definition has"),
    },
)
HELD = Record(
    "HeartbeatAnswer",
    {
        **time("until", "when the lease expires now"),
        **CANCELLED,
    },
)
REPORTED = Record(
    "Reported",
    {
        "kept": Field(Flag(), "it is stored"),
        "repeated": Field(Flag(), "the same report was stored before"),
        "next": Field(Nullable(CLAIMED), "what was claimed with the report"),
    },
)
REPORTED_TASK = Record(
    "ReportedTask",
    {
        "attempt_id": Field(Text()),
        "kept": Field(Flag(), "it is stored"),
        "repeated": Field(Flag(), "the same report was stored before"),
        "problem": Field(Nullable(PROBLEM), "why it is not stored"),
    },
)
REPORTED_TASKS = Record(
    "ReportedTasks",
    {
        "reports": Field(Several(REPORTED_TASK), "in the order of the request"),
        "next": Field(Nullable(CLAIMED), "what was claimed with the reports"),
    },
)
QUEUE = Record(
    "Queue",
    {
        "definition": Field(NAME),
        "step": Field(Text(), "the declared name: `car`, `hotel/room`"),
        "undo": Field(Flag()),
        "ready": Field(COUNT, "tasks that wait for a worker"),
        "claimed": Field(COUNT, "tasks that workers have claimed"),
        **time("oldest", "since when the oldest one waits", nullable=True),
    },
)
QUEUES = Record("Queues", {"queues": Field(Several(QUEUE)), **UNAVAILABLE})
STEP = Record(
    "StepDefinition",
    {
        "name": Field(Text(), "the declared name: `car`, `hotel/room`"),
        "kind": Field(
            Choice(("worker", "approval", "wait", "child", "function")), "what executes it"
        ),
        "needs": Field(Several(Text())),
        **{word: Field(COST, "null: not possible, or computed") for word in COST_NAMES},
        "computed": Field(
            Several(Choice(COST_NAMES)),
            "the costs that are computed from the input, or all of them if there is a pivot",
        ),
        "for_each": Field(Flag(), "whether it exists once for each item of the input"),
        "conditional": Field(Flag(), "whether it exists only for some inputs"),
        "optional": Field(Flag(), "whether the saga continues without it if it fails"),
        "pivot": Field(Flag(), "whether it is the pivot, which determines all costs"),
        "tries": Field(COUNT),
        "undo_tries": Field(COUNT),
    },
)
DEFINED = Record(
    "Definition",
    {
        "name": Field(NAME),
        "version": Field(COUNT),
        "steps": Field(Several(STEP)),
        "sagas": Field(Mapped(COUNT), "how many sagas there are in each phase, of all versions"),
    },
)
DEFINITIONS = Record("Definitions", {"definitions": Field(Several(DEFINED)), **UNAVAILABLE})
ATTENTION_ENTRY = Record(
    "AttentionEntry",
    {
        "kind": Field(Choice(KINDS)),
        "key": Field(Text()),
        "definition": Field(NAME),
        "step": Field(Nullable(NAME), "null: the whole saga"),
        "undo": Field(Flag(), "whether it is the compensation"),
        "detail": Field(
            MAYBE, "the error, or what cannot be read; of an unused report, its result as JSON"
        ),
        "by": Field(MAYBE, "of an unused report, who reported it"),
        "shown": Field(
            Mapped(Anything()), "of an approval, the fields of the input that its definition shows"
        ),
        "waits_for": Field(Text(), "what it waits for, in words"),
        "calls": Field(
            Several(Choice(("compensate", "resolve", "retry", "complete", "fail", "abort"))),
            "the calls that apply",
        ),
        **time("since", "since when"),
        **time("until", "until when it can be decided", nullable=True),
    },
)
ATTENTION = Record(
    "Attention",
    {
        "counts": Field(Mapped(COUNT), "of each kind, without the other filters"),
        "entries": Field(Several(ATTENTION_ENTRY)),
        "next": Field(MAYBE, "`after` for the next page; null: this is the last page"),
        **UNAVAILABLE,
    },
)
REFUSED_KEY = Record("RefusedKey", {"key": Field(Text()), "problem": Field(PROBLEM)})
BULK = Record(
    "BulkAnswer",
    {
        "count": Field(COUNT, "how many the filter selects"),
        "dry_run": Field(Flag(), "nothing was changed"),
        "keys": Field(Several(Text()), "the first of them"),
        "done": Field(COUNT, "how many were changed"),
        "refused": Field(Several(REFUSED_KEY), "those that were refused, and why"),
        "left": Field(COUNT, "how many are left for a further call"),
        "undoing": Field(COUNT, "how many an abort leaves out: they undo children, or call on_end"),
        "warnings": Field(
            Several(Text()), "labels and steps that do not exist, if the filter selects nothing"
        ),
        **UNAVAILABLE,
    },
)
SCHEDULE = Record(
    "Schedule",
    {
        "name": Field(Text(), "its name, with which the keys of its sagas begin"),
        "definition": Field(NAME),
        "version": Field(COUNT),
        "input": Field(Anything(), "of its sagas"),
        "labels": Field(Mapped(Text()), "of its sagas"),
        "cron": Field(MAYBE, "the cron expression; null: `every` is used"),
        "every": Field(Nullable(SECONDS), "seconds between two times"),
        "timezone": Field(Text(), "of the expression"),
        "catch_up": Field(Choice(("last", "all", "skip")), "what happens to missed times"),
        "max": Field(COUNT, "maximum number of missed times that are started"),
        "overlap": Field(
            Choice(("allow", "skip", "queue")), "what happens while the last saga is open"
        ),
        "paused": Field(Flag(), "whether it is paused"),
        "error": Field(MAYBE, "why its last saga could not be started, or what was not started"),
        **time("next", "the next time", nullable=True),
        **time("last", "the last time", nullable=True),
    },
)
PAUSE = Record(
    "Pause",
    {
        "definition": Field(Nullable(NAME), "the definition; null: any"),
        "step": Field(Nullable(Text()), "its step; null: all"),
        "queue": Field(MAYBE, "the Celery queue; without it and a definition: everything"),
        "forward_only": Field(Flag(), "whether compensations start nevertheless"),
        "refuse_starts": Field(Flag(), "whether new sagas are refused"),
        "note": Field(Text(), "why"),
        "by": Field(MAYBE, "who paused it"),
        **time("at", "since when"),
    },
)
PAUSES = Record("Pauses", {"pauses": Field(Several(PAUSE)), **UNAVAILABLE})
DRAIN = Record(
    "Drain",
    {
        "note": Field(Text(), "why"),
        "by": Field(MAYBE, "who drained it"),
        **time("at", "since when"),
    },
)
NODE_DEFINITION = Record(
    "NodeDefinition",
    {
        "name": Field(NAME),
        "version": Field(COUNT),
        "digest": Field(Text(), "it differs if the declarations differ"),
    },
)
NODE = Record(
    "Node",
    {
        "name": Field(Text()),
        "run": Field(MAYBE, "this run of the node; null: it has ended"),
        "state": Field(
            Choice((*NodeState,)), "`draining`: it is drained, and still has open sagas"
        ),
        "release": Field(MAYBE, "the release of its package"),
        "definitions": Field(Several(NODE_DEFINITION)),
        **time("since", "when it started", nullable=True),
        "lease_seconds": Field(Nullable(SECONDS), "until its lease ends; negative after that"),
        "heartbeat_seconds": Field(Nullable(SECONDS), "since its last heartbeat; null: unknown"),
        "shards": Field(COUNT, "its open shards"),
        "open_sagas": Field(COUNT),
        "running": Field(Nullable(COUNT), "the functions that run; null: unknown"),
        "concurrency": Field(Nullable(COUNT), "how many functions may run; null: unknown"),
        "drain": Field(Nullable(DRAIN), "null: it is not drained"),
        "database": Field(
            COST,
            "the number of the database that it is a node of, if there are several",
            default=None,
        ),
    },
)
NODES = Record("Nodes", {"nodes": Field(Several(NODE)), **UNAVAILABLE})
SCHEDULES = Record("Schedules", {"schedules": Field(Several(SCHEDULE)), **UNAVAILABLE})
SCHEDULE_CHANGED = Record(
    "ScheduleChanged",
    {"name": Field(Text()), "done": Field(Choice(("paused", "resumed", "removed")))},
)
DELIVERY = Record(
    "Delivery",
    {
        "id": Field(Text(), "the value of the header `webhook-id`: the same for all attempts"),
        "webhook": Field(Text(), "its name"),
        "type": Field(Text()),
        "key": Field(Text(), "of the saga"),
        **time("at", "when it happened"),
        "state": Field(Choice(("pending", "delivered", "failed"))),
        "attempts": Field(COUNT),
        "status": Field(Nullable(COUNT), "of the last answer"),
        "error": Field(MAYBE, "why there was no answer"),
        **time("due", "when the next attempt is due", nullable=True),
    },
)
DELIVERIES = Record("Deliveries", {"deliveries": Field(Several(DELIVERY)), **UNAVAILABLE})
HEALTH = Record("Health", {"alive": Field(Flag())})
READY = Record("Ready", {"ready": Field(Flag()), "reason": Field(MAYBE), **UNAVAILABLE})


# -- the timeline of a saga


SPAN = Record(
    "Span",
    {
        "state": Field(Choice(("queued", "running", "waiting", "backoff"))),
        "why": Field(
            MAYBE,
            "why it was queued (`slot`, `concurrency`, `fleet_limit`, `rate_limit`, `paused`) or "
            "waited "
            "(`approval`, `wait`, `child`, `worker`, `unknown`, `person`, `exhausted`, "
            "`cannot_decode`, `program_error`); `worker` if it ran at a worker",
        ),
        **time("began", "since when"),
        **time("ended", "until when; null: it has not ended", nullable=True),
        "worker": Field(MAYBE, "the worker that had it"),
        "lease": Field(Nullable(COUNT), "the number of that worker's lease"),
        "detail": Field(MAYBE, "the error before this span"),
    },
    "A part of an attempt. Spans follow one another without gaps.",
)
DECISION = Record(
    "Decision",
    {
        "command": Field(Choice(("complete", "fail", "retry"))),
        **time("at", "when"),
        "by": Field(MAYBE, "the name of the operator's token"),
        "note": Field(MAYBE, "the reason"),
    },
)
ATTEMPT_TIMES = Record(
    "AttemptTimes",
    {
        "step": Field(NAME),
        "undo": Field(Flag(), "whether it is the compensation"),
        "attempt": Field(COUNT, "1 for the first"),
        **time("ready", "since when it could begin"),
        **time("began", "when it began"),
        **time("ended", "when it ended", nullable=True),
        "outcome": Field(
            Nullable(Choice(("succeeded", "failed", "retried", "not_called"))),
            "`retried`: another attempt follows; `not_called`: it was given up; null: it has not "
            "ended",
        ),
        "error": Field(MAYBE, "the error"),
        "unknown_outcomes": Field(COUNT, "how often its outcome was unknown"),
        "spans": Field(Several(SPAN)),
        "decision": Field(Nullable(DECISION), "the decision of an operator"),
    },
)
DEED = Record(
    "PersonsCommand",
    {
        "command": Field(
            Text(), "`abort`, `complete`, `fail`, `retry`, `compensate`, `restart` or `resolve`"
        ),
        **time("at", "when"),
        "step": Field(Nullable(NAME)),
        "undo": Field(Flag(), "whether it is about the compensation"),
        "by": Field(MAYBE, "the name of the operator's token"),
        "note": Field(MAYBE, "the reason"),
        "accepted": Field(Nullable(Flag()), "null: not answered yet"),
    },
)
CALL_TIMES = Record(
    "CallTimes",
    {
        "step": Field(NAME),
        "undo": Field(Flag(), "whether it is the compensation"),
        "attempt": Field(COUNT, "1 for the first"),
        "number": Field(COUNT, "of the call, over all attempts; 1 for the first"),
        **time("began", "when it began"),
        **time("ended", "when it ended", nullable=True),
        "outcome": Field(
            Nullable(Choice(("succeeded", "failed", "retried", "not_called", "unknown"))),
            "`retried`: another attempt follows; null: it has not ended",
        ),
        "error": Field(MAYBE, "the error"),
        "worker": Field(MAYBE, "the worker that had it"),
        "node": Field(MAYBE, "the node that executed the saga then; null in a file"),
    },
)
TIMELINE = Record(
    "Timeline",
    {
        "attempts": Field(Several(ATTEMPT_TIMES)),
        "calls": Field(Several(CALL_TIMES)),
        "decisions": Field(Several(DEED)),
    },
)
TREND_BUCKET = Record(
    "TrendBucket",
    {
        **time("at", "when it begins"),
        "started": Field(COUNT, "sagas that were started"),
        "completed": Field(COUNT, "sagas that ended because each step is done"),
        "recovered": Field(COUNT, "sagas that a plan ended"),
        "stuck": Field(COUNT, "sagas that got stuck"),
        "failed_steps": Field(COUNT, "attempts that failed permanently"),
        "durations": Field(
            Nullable(
                Record(
                    "TrendDurations",
                    {f"p{percent}": Field(SECONDS) for percent in (50, 95, 99)},
                    "Percentiles in seconds, each wrong by less than 26 percent.",
                )
            ),
            "of sagas that ended, from the start to the end; null: none ended",
        ),
        "oldest_task": Field(
            Nullable(COUNT),
            "the greatest age of a task that waited for a worker, in seconds; null: none waited",
        ),
    },
)
TRENDS = Record(
    "Trends",
    {
        "definition": Field(Nullable(NAME), "as requested; null: all that the token may see"),
        "range": Field(Choice(("hour", "day", "week"))),
        "bucket_seconds": Field(COUNT, "the width of a bucket in seconds"),
        "total": Field(TREND_BUCKET, "the whole range"),
        "buckets": Field(Several(TREND_BUCKET), "in the order of time; the last one has now"),
        **UNAVAILABLE,
    },
    "Counts that each node stores once a minute. A kill loses those of the last minute.",
)
