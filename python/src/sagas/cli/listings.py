"""`stats`, `definitions`, `stuck`, `attention`, `pending`, `schedules` and `deliveries`."""

from __future__ import annotations

import argparse
import contextlib
import dataclasses
import shlex
import sys
import time
from collections.abc import Callable, Sequence
from typing import Any

from sagas.base.errors import NoSuchSchedule
from sagas.base.wording import number
from sagas.cli.formatting import GOOD, complain, moment, short, show_json, table
from sagas.cli.options import (
    add_app_option,
    add_filter_options,
    add_limit_option,
    filter_of,
    read_by,
)
from sagas.cli.snapshot import Snapshot
from sagas.core.attention import Attention, AttentionReason
from sagas.core.states import WAITS_FOR
from sagas.definition.serialization import write as written
from sagas.inspection import delivery_questions as delivery_questions, lists, store_figures
from sagas.inspection.delivery_questions import Delivery
from sagas.inspection.lists import COUNTED
from sagas.inspection.views import Waits
from sagas.inspection.wording import span
from sagas.storage import admin
from sagas.storage.admin import Trouble
from sagas.storage.webhook_deliveries import REDELIVER, DeliveryState
from sagas.storage.filters import Filter
from sagas.storage.schedules import Schedule, Schedules

Json = dict[str, Any]
UNCLAIMED = 60.0
"""Seconds after which an unclaimed task is listed. Usually, a worker polls within this time."""
NEEDS = {
    AttentionReason.STUCK: "stuck",
    AttentionReason.UNDO_FAILED: "undo failed",
    AttentionReason.UNKNOWN: "unknown outcome",
    AttentionReason.EXHAUSTED: "attempts used up",
    AttentionReason.CANNOT_DECODE: "cannot be decoded",
    AttentionReason.PROGRAM_ERROR: "error in its program",
    AttentionReason.UNUSED_REPORT: "unused report",
    AttentionReason.ON_END: "on_end not called",
    AttentionReason.NO_DEFINITION: "no definition",
    AttentionReason.NO_NODE: "no node",
    AttentionReason.DAMAGED: "damaged shard",
}
"""Why a saga needs an operator, in words."""


def held_json(wait: Waits) -> Json:
    """Return a suspended attempt as JSON."""
    is_leased = wait.why == "external"
    return {
        "key": wait.key,
        "step": wait.step or None,
        "kind": ("undo" if wait.undo else "run") if wait.step else "saga",
        "attempt": wait.attempt or None,
        "why": wait.why,
        "count": wait.count,
        "since": wait.since,
        "until": wait.until,
        "error": None if is_leased else wait.detail,
        "worker": wait.detail if is_leased else None,
    }


def start_json(key: str, saga: str, version: int, at: float) -> Json:
    """Return a client's start that no node has accepted, as JSON."""
    start: Json = {"key": key, "step": None, "kind": "start", "attempt": None, "why": "node"}
    start |= {"count": 0, "since": at, "until": None, "error": None, "worker": None}
    return start | {"saga": saga, "version": version}


def show_held(held: Sequence[Json]) -> None:
    """Print suspended attempts as a table."""
    heads = ["KEY", "STEP", "KIND", "ATTEMPT", "WAITS FOR", "SINCE", "UNTIL", "DETAIL"]
    cells = []
    for entry in held:
        columns = entry["key"], entry["step"] or "", entry["kind"], entry["attempt"] or ""
        times = moment(entry["since"]), moment(entry["until"])
        cells.append((*columns, waits_for(entry), *times, short(entry["error"])))
    print(table(heads, cells))


def waits_for(entry: Json) -> str:
    """Describe what a suspended attempt waits for."""
    why, until = entry["why"], entry["until"]
    if why == "unknown":
        times = f" ({number(entry['count'], 'time')})"
        if until is None:
            return f"an operator: unknown outcome{times}"
        return f"its next attempt: unknown outcome{times}"
    if why == AttentionReason.EXHAUSTED:
        return "an operator: its attempts are used up"
    if why == "retry":
        return f"its next attempt: it failed ({number(entry['count'], 'time')})"
    if why == AttentionReason.CANNOT_DECODE:
        return "a program that can read its stored values"
    if why == AttentionReason.PROGRAM_ERROR:
        return "an operator, or the next program: this one has an error"
    if why in (AttentionReason.NO_DEFINITION, AttentionReason.NO_NODE):
        return "a node that has its definition"
    if why == "external":
        if until > time.time():
            return f"a worker: {entry['worker']} has it"
        return f"a worker: the lease of {entry['worker']} ended"
    if why == "worker":
        return f"a worker: none has claimed it for {span(time.time() - entry['since'])}"
    if why == "node":
        return f"a node with {entry['saga']} version {entry['version']}"
    return WAITS_FOR.get(why, why)


def stats(path: str, options: argparse.Namespace) -> int:
    """Count sagas by name and phase."""
    with Snapshot(path) as store:
        name, counted = store.link.name, store.ask(lists.counts())
        needed = store.ask(store_figures.attention_counts())
    undo_failed = needed["undo_failed"]
    asks = ("unknown", "exhausted", "cannot_decode", "program_error", "no_definition", "approval")
    persons = sum(needed[why] for why in asks)
    if options.json:
        counts = {"undo_failed": undo_failed, "attention_required": persons}
        counts |= {"unused_report": needed["unused_report"], "on_end": needed["on_end"]}
        show_json({"sagas": counted, **counts, "damaged": needed["damaged"]})
        return GOOD
    rows = [(saga, *phases.values()) for saga, phases in counted.items()]
    print(table(["SAGA", *map(str.upper, COUNTED)], rows))
    command, notes = f"sagas store {name}", []
    if undo_failed:
        notes.append(
            f"{undo_failed} with a permanently failed compensation: {command} list "
            "--phase undo_failed"
        )
    if unused := needed["unused_report"]:
        notes.append(f"{unused} with a report that was not used: {command} attention")
    if not_called := needed["on_end"]:
        notes.append(f"{not_called} with an on_end that is not called: {command} attention")
    if persons:
        wait = "waits" if persons == 1 else "wait"
        notes.append(f"{persons} {wait} for an operator: {command} pending")
    if damaged := needed["damaged"]:
        notes.append(f"{damaged} in damaged shards: {command} attention")
    if notes:
        print("\n" + "\n".join(notes))
    return GOOD


def definitions(path: str, options: argparse.Namespace) -> int:
    """Count the sagas of each version of each definition.

    UNDOABLE sagas have completed as children, and an open saga may undo them.
    """
    with Snapshot(path) as store:
        counts = store.ask(lists.definitions())
    if options.json:
        show_json([dataclasses.asdict(count) for count in counts])
    else:
        rows = [
            (count.saga, count.version, count.open, count.undoable, count.total) for count in counts
        ]
        print(table(["SAGA", "VERSION", "OPEN", "UNDOABLE", "TOTAL"], rows))
    return GOOD


def stuck(path: str, options: argparse.Namespace) -> int:
    """List the unresolved stuck sagas."""
    with Snapshot(path) as store:
        name, listed = store.link.name, store.ask(lists.stuck(lists.ALL))
        undo_failed = store.ask(lists.count(Filter("undo_failed")))
    if options.json:
        show_json(
            [
                {"key": saga.key, "saga": saga.saga, "ended": saga.ended, "blocking_steps": chain}
                for saga, chain in listed
            ]
        )
        return GOOD
    rows = [(saga.key, saga.saga, moment(saga.ended), " needs ".join(c)) for saga, c in listed]
    print(table(["KEY", "SAGA", "STUCK SINCE", "BECAUSE"], rows))
    if undo_failed:
        print(
            f"\n{undo_failed} ended with a permanently failed compensation: sagas store "
            f"{name} attention"
        )
    return GOOD


def attention(path: str, options: argparse.Namespace) -> int:
    """List what needs an operator.

    These are stuck sagas, failed compensations, unused reports, steps whose attempts are used
    up, unknown outcomes that are not retried, errors of the program, stored values that no program
    could read, on_end calls that no program could start, sagas that no node executes, and sagas of
    damaged shards.
    """
    with Snapshot(path) as store:
        sagas = dataclasses.replace(filter_of(options), search=options.search, error=options.error)
        listed = [
            entry
            for entry in store.ask(lists.attention(lists.ALL, sagas=sagas))
            if options.kind in (None, entry.why) and options.step in (None, entry.step)
        ]
    entries, is_last = _page(listed, options.after, options.limit)
    if options.json:
        show_json([dataclasses.asdict(entry) for entry in entries])
    else:
        _show_attention(entries)
    more = "" if is_last else _continued(entries[-1].key)
    plural = "entry" if len(listed) == 1 else "entries"
    print(f"{len(entries)} of {len(listed)} {plural}{more}", file=sys.stderr)
    return GOOD


def _page(listed: list[Attention], after: str | None, limit: int) -> tuple[list[Attention], bool]:
    """Return a page of entries after those of a saga, and whether it is the last one.

    The entries of a saga follow one another, and are on one page. Raises `Trouble` if the saga has
    none.
    """
    by_key = dict[str, list[Attention]]()
    for entry in listed:
        by_key.setdefault(entry.key, []).append(entry)
    keys = [*by_key]
    if after is not None and after not in by_key:
        raise Trouble(f"--after {after}: no entry of this saga is listed. List them again")
    page = list[Attention]()
    rest = keys if after is None else keys[keys.index(after) + 1 :]
    for key in rest:
        if limit and len(page) >= limit:
            return page, False
        page += by_key[key]
    return page, True


def _continued(key: str) -> str:
    """Return how to list the entries that follow."""
    text = shlex.quote(key)
    return f": continue with --after{'=' if key.startswith('-') else ' '}{text}"


def add_attention_options(part: argparse.ArgumentParser) -> None:
    """Add the options of `attention`: the filters of the inbox."""
    kinds = [reason.value for reason in AttentionReason]
    part.add_argument("--kind", choices=kinds, help="only entries of this kind")
    add_filter_options(part, "")
    part.add_argument("--step", metavar="NAME", help="only entries of this step")
    part.add_argument("--search", metavar="TEXT", help="only sagas whose keys contain this text")
    part.add_argument("--error", metavar="TEXT", help="only sagas with an error that contains this")
    part.add_argument("--after", metavar="KEY", help="continue after the entries of this saga")
    add_limit_option(part, "entries")


def _show_attention(entries: Sequence[Attention]) -> None:
    """Print entries as a table."""
    cells = [
        (
            entry.key,
            entry.saga,
            NEEDS[entry.why],
            _step_text(entry),
            moment(entry.since),
            short(_detail(entry)),
        )
        for entry in entries
    ]
    print(table(["KEY", "SAGA", "WHY", "STEP", "SINCE", "DETAIL"], cells))


def _detail(entry: Attention) -> str | None:
    """Return the detail of an entry; for an unused report, its result and reporter."""
    if entry.why is not AttentionReason.UNUSED_REPORT:
        return entry.detail
    return f"{entry.detail} by {entry.by}" if entry.by else entry.detail


def _step_text(entry: Attention) -> str:
    """Return the step's name, with `(undo)` for its compensation."""
    return "" if entry.step is None else f"{entry.step} (undo)" if entry.undo else entry.step


def pending(path: str, options: argparse.Namespace) -> int:
    """List what waits for an operator, a worker, a time, a child saga or a node.

    Failed attempts that will be retried are not listed. A task for workers is listed if a
    worker has claimed it, or none has for a minute.
    """
    with Snapshot(path) as store:
        waits = lists.waits(lists.ALL, person=False, offered_before=time.time() - UNCLAIMED)
        held = [held_json(wait) for wait in store.ask(waits)]
        held += [held_json(wait) for wait in store.ask(lists.without_node(lists.ALL))]
        held += [start_json(*row) for row in store.link.starts()]
    if options.json:
        show_json(held)
    else:
        show_held(held)
    return GOOD


CHANGES: dict[str, tuple[str, Callable[[Schedules, str], str | None]]] = {
    "pause": ("paused", Schedules.pause),
    "resume": ("resumed", lambda store, name: store.resume(name, time.time())),
    "remove": ("removed", Schedules.remove),
}


def add_schedules_options(part: argparse.ArgumentParser) -> None:
    """Add the options of `schedules`."""
    part.add_argument("change", nargs="?", choices=[*CHANGES], help="what to do with NAME")
    part.add_argument("name", metavar="NAME", nargs="?", help="the schedule's name")
    add_app_option(part)


def schedules(path: str, options: argparse.Namespace) -> int:
    """List the schedules, or pause, resume or remove one."""
    if (options.change is None) != (options.name is None):
        raise Trouble(f"schedules {options.change}: pass the name of the schedule", 2)
    if options.change:
        done, change = CHANGES[options.change]
        with contextlib.closing(admin.connect(path, "rw")) as link:
            try:
                warning = change(Schedules(link), options.name)
            except NoSuchSchedule as error:
                raise Trouble(str(error)) from error
        if warning is not None:
            complain(f"{options.name}: {warning}")
        change_made = {"name": options.name, "done": done}
        show_json(change_made) if options.json else print(f"{options.name}: {done}")
        return GOOD
    with Snapshot(path) as store:
        listed = store.ask(lists.schedules())
    if options.json:
        read = read_by(options)
        listed = [
            dataclasses.replace(schedule, input=read(written(schedule.input)))
            for schedule in listed
        ]
        show_json([dataclasses.asdict(schedule) for schedule in listed])
    else:
        rows = [
            (
                schedule.name,
                schedule.saga,
                times_of(schedule),
                *last_and_next(schedule),
                schedule.error or "",
            )
            for schedule in listed
        ]
        print(table(["NAME", "SAGA", "TIMES", "LAST", "NEXT", "ERROR"], rows))
    return GOOD


def times_of(schedule: Schedule) -> str:
    """Return the times of a schedule in words."""
    return (
        f"{schedule.cron} {schedule.timezone}" if schedule.cron else f"every {schedule.every:g} s"
    )


def last_and_next(schedule: Schedule) -> tuple[str, str]:
    """Return the last and the next time of a schedule."""
    return moment(schedule.last_at), "paused" if schedule.paused else moment(schedule.next_at)


def add_deliveries_options(part: argparse.ArgumentParser) -> None:
    """Add the options of `deliveries`."""
    part.add_argument("change", nargs="?", choices=["redeliver"], help="what to do with ID")
    part.add_argument("id", metavar="ID", nargs="?", help="the delivery's id")
    states = [state.value for state in DeliveryState]
    part.add_argument("--state", choices=states, help="only deliveries in this state")
    part.add_argument("--webhook", metavar="NAME", help="only deliveries to this webhook")
    add_limit_option(part, "deliveries, the newest first")


def deliveries(path: str, options: argparse.Namespace) -> int:
    """List the deliveries of webhooks, or post one again.

    A service with this webhook posts it within seconds, with all its attempts.
    """
    if (options.change is None) != (options.id is None):
        raise Trouble("deliveries redeliver: pass the id of the delivery", 2)
    if options.change:
        with contextlib.closing(admin.connect(path, "rw")) as link:
            if not link.ask(REDELIVER.replace(":id", "?"), options.id):
                raise Trouble(f"no delivery has the id {options.id!r}")
        change = {"id": options.id, "state": DeliveryState.PENDING.value}
        show_json(change) if options.json else print(f"{options.id}: {change['state']}")
        return GOOD
    with Snapshot(path) as store:
        listed = store.ask(
            delivery_questions.listed(options.state, options.webhook, options.limit or lists.ALL)
        )
    if options.json:
        show_json([dataclasses.asdict(delivery) for delivery in listed])
        return GOOD
    rows = [delivery_row(delivery) for delivery in listed]
    print(table(["ID", "WEBHOOK", "TYPE", "KEY", "AT", "STATE", "ATTEMPTS", "ANSWER"], rows))
    return GOOD


def delivery_row(delivery: Delivery) -> tuple[object, ...]:
    """Return the table row of a delivery."""
    answer = short(delivery.error) if delivery.error else delivery.status or ""
    at = moment(delivery.at)
    return (
        delivery.id,
        delivery.webhook,
        delivery.type,
        delivery.key,
        at,
        delivery.state,
        delivery.attempts,
        str(answer),
    )
