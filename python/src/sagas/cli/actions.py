"""Requests to the program that has the store, and `resolve`."""

from __future__ import annotations

import argparse
import getpass
import json
import os
import time
from collections.abc import Sequence
from typing import Any

from sagas.api.restarts import check_restartable
from sagas.base.errors import (
    CannotDecode,
    ConflictingReport,
    InvalidKey,
    InvalidResult,
    NoSuchSaga,
    NotAbortable,
    NotErasable,
    NotRestartable,
)
from sagas.base.wording import escaped, number
from sagas.cli.formatting import GOOD, NO, complain, show_json
from sagas.cli.options import check_keys, filter_of, payloads_of
from sagas.cli.snapshot import Snapshot
from sagas.core import reports
from sagas.core.decisions import Requester, Way, new_bulk, request_fields, request_text
from sagas.core.outcomes import reported_outcome
from sagas.core.states import Suspension
from sagas.definition import arguments, child_sagas
from sagas.definition.payloads import ENVELOPE
from sagas.definition.serialization import TOO_DEEP, clean, is_deeper
from sagas.definition.arguments import meant
from sagas.inspection import lists
from sagas.inspection.names import step_names, unmatched_warnings
from sagas.inspection.views import SagaView, Waits
from sagas.runtime.operator_commands import step_arguments
from sagas.storage import admin, codec_note, erasures, store_name
from sagas.storage.admin import Trouble
from sagas.storage.batches import Batch, resolve_one
from sagas.storage.filters import Filter
from sagas.storage.operator_requests import reason
from sagas.storage.queries import DEFINITION, PHASE

Json = dict[str, Any]
VERBS = {"complete": "completes", "fail": "fails", "retry": "retries"}
WAITS = "requested; it takes effect when its program handles it"
LEFT_OUT = "skipped, because it undoes a child or calls on_end"
WITHDRAWN = "withdrawn"
"""The answer to an abort of a start that no node had accepted."""
SAGA = f"SELECT id, {PHASE} FROM sagas s WHERE key = ?"
CHILDREN = reports.CHILDREN_QUERY.format(PHASE)


def ask(path: str, key: str, command: str, value: Any, timeout: float) -> tuple[Any, bool]:
    """Store a request for the program that executes the saga.

    Returns its answer, or None if there is none yet, and whether a program has the store open.
    """
    with admin.writing(path) as link:
        if command in ("complete", "fail") and is_repeated(link, key, command, value):
            return True, True
        saga_id = target_of(link, key, command, value)
        if saga_id is None:
            return WITHDRAWN, True
        number = link.add_request(saga_id, command, request_text(value))
        if number is None and saga_id < 0:  # it is a saga by now
            saga_id = target_of(link, key, command, value) or saga_id
            number = link.add_request(saga_id, command, request_text(value))
        if number is None:
            raise gone(key)
        link.notify("requests")
        is_executed = link.is_driven()
        until = time.monotonic() + (timeout if is_executed else 0.0)
        while True:
            is_there, answer = link.answer(number, saga_id)
            if not is_there:
                raise gone(key)
            if answer is not None or time.monotonic() >= until:
                return answer and json.loads(answer), is_executed
            time.sleep(0.02)  # SQLite has no notifications


def gone(key: str) -> Trouble:
    """Return the error for a saga that is deleted while a request to it is stored."""
    return Trouble(f"saga {key} was deleted concurrently")


def target_of(link: admin.Source, key: str, command: str, value: Any) -> int | None:
    """Return the id of the saga that a request is for.

    The id of a client's start is negative. None: the start, which no node had accepted, is
    withdrawn. Raises `Trouble` if the saga cannot take the request.
    """
    rows = link.ask(SAGA, key)
    if not rows and command == "abort":
        if link.withdraw(key):
            return None
        start = link.start_of(key)  # its node executes the request once it has started
        rows = link.ask(SAGA, key) or ([(-start, "open")] if start else [])
    if not rows:
        raise link.missing_saga_error(key)
    ((id, phase),) = rows
    if command == "restart":
        try:
            check_restartable(key, phase)
        except NotRestartable as error:
            raise Trouble(str(error)) from None
        return int(id)
    if command == "compensate":
        if phase == "open":
            raise Trouble(f"{key} has not ended, so there is nothing to compensate")
        check_step(link, key, id, value["step"])
        return int(id)
    if phase == "stuck":
        raise Trouble(
            f"{key} is stuck, so there is nothing to {command}. After the repair, run `resolve`"
        )
    if phase != "open":
        raise Trouble(f"{key} has ended ({phase}), so there is nothing to {command}")
    if command == "abort":
        check_abortable(key)
    if command in ("complete", "fail", "retry"):
        check_step(link, key, id, value["step"])
    return int(id)


def is_repeated(link: admin.Source, key: str, command: str, value: Any) -> bool:
    """Return whether a saga has ended and already has this report of its step.

    Raises `Trouble` if another outcome was reported.
    """
    for id, phase in link.ask(SAGA, key):
        names = step_names(str(link.ask(DEFINITION, id)[0][0]))
        if phase == "open" or value["step"] not in names:
            return False
        index, kind = names.index(value["step"]), value["kind"]
        first = reports.first_outcome(link.ask(reports.RESULTS_QUERY, id), index, kind)
        first = first or reports.early_outcome(link.ask(reports.EARLY_QUERY, id, index, kind))
        if first is None or ENVELOPE.match(first.value):  # it cannot be compared here
            return False
        outcome = reported_outcome(
            value.get("result"), value["error"] if command == "fail" else None
        )
        try:
            reports.check_same_outcome(key, value["step"], first, outcome)
        except ConflictingReport as error:
            if phase == "stuck":  # which says what to do
                return False
            raise Trouble(str(error)) from None
        except CannotDecode:
            return False
        return True
    return False


def check_abortable(key: str) -> None:
    """Raise `Trouble` if the saga undoes a child or calls `on_end`: no program would abort it."""
    try:
        child_sagas.check_abortable(key)
    except NotAbortable as error:
        raise Trouble(str(error)) from None


def check_child(link: admin.Source, key: str, step: str, result: Any) -> None:
    """Raise `Trouble` if a step that has started a child is completed with an invalid result."""
    for id, phase in link.ask(SAGA, key):
        rows = [(str(key), str(phase)) for key, phase in link.ask(CHILDREN, id)]
        is_child = any(child_sagas.is_of_step(child, key, step) for child, _ in rows)
        if phase != "open" or not is_child or child_sagas.undoes_child(key):
            return
        try:
            reports.check_child_result(key, step, result, rows, None)
        except InvalidResult as error:
            raise Trouble(str(error)) from None


def check_step(link: admin.Source, key: str, id: int, step: str) -> None:
    """Raise `Trouble` if the saga's definition has no such step."""
    names = step_names(str(link.ask(DEFINITION, id)[0][0]))
    if step not in names:
        raise Trouble(f"saga {key!r} has no step {step!r}{meant(step, names)}")


def request(
    path: str, options: argparse.Namespace, command: str, value: Any, done: str, refused: str
) -> int:
    """Send a request and print its result."""
    answer, is_executed = ask(path, options.key, command, value, options.timeout)
    is_accepted = answer is None or answer is True or answer == WITHDRAWN
    if options.json:
        show_json({"key": options.key, "asked": command, "answer": answer})
    elif answer is None:
        when = (
            "a node executes the saga (run `sagas store URL nodes`)"
            if store_name.supports_nodes(path)
            else "the program handles it"
        )
        print(
            f"{options.key}: requested; it takes effect when "
            f"{when if is_executed else 'a program has the store open'}"
        )
    elif answer == WITHDRAWN:
        print(f"{options.key}: start withdrawn; no node had accepted it, and nothing has started")
    elif is_accepted:
        print(f"{options.key}: {done}")
    else:
        complain(reason(answer) if isinstance(answer, dict) else f"{options.key}: {refused}")
    return GOOD if is_accepted else NO


def abort(path: str, options: argparse.Namespace) -> int:
    """Abort sagas, and undo them by least-cost plans.

    No further step starts. With --all, abort each open saga of a filter. A client's start that
    no node has accepted is withdrawn.
    """
    check_keys(options, bool(options.key))
    if options.all:
        return abort_all(path, options)
    return request(
        path,
        options,
        "abort",
        requester_of(options),
        "aborted",
        "not aborted: it has ended, or was aborted before",
    )


def complete(path: str, options: argparse.Namespace) -> int:
    """Report that a step succeeded, for example to approve it.

    The program that executes the saga handles the report, now or when it opens the store. With
    --all, report each step whose attempts are used up.
    """
    if is_deeper(options.result):
        raise Trouble(f"--result: {TOO_DEEP}", 2)
    try:
        result = json.loads(options.result)
    except ValueError as error:
        message = f"--result is not JSON ({error}). Quote a string: '\"yes\"'"
        raise Trouble(message, 2) from error
    check_steps(options, "complete")
    payloads = payloads_of(options)
    with admin.writing(path) as link:
        codec_note.check(link, payloads)
        if options.key and not options.undo:
            check_child(link, options.key, options.step, result)
    kept = {"result": payloads.encode_value(result)}
    return answer(path, options, "complete", kept, "succeeded", "not reported")


def fail(path: str, options: argparse.Namespace) -> int:
    """Report that a step failed permanently, for example to reject an approval.

    The program that executes the saga handles the report, now or when it opens the store. With
    --all, report each step whose attempts are used up.
    """
    check_steps(options, "fail")
    if (options.why is None) == options.all or (options.error is None) != options.all:
        raise Trouble("fail requires KEY, STEP and ERROR, or --all and --error TEXT", 2)
    report = {"error": options.why if options.all else options.error}
    return answer(path, options, "fail", report, "failed", "not reported")


def retry(path: str, options: argparse.Namespace) -> int:
    """Retry a step whose attempts are used up, or whose outcome is unknown."""
    check_steps(options, "retry")
    return answer(path, options, "retry", {}, "is attempted again", "not retried")


def compensate(path: str, options: argparse.Namespace) -> int:
    """Compensate a step whose early report was not used.

    `attention` lists such reports. A program that has the saga's definition starts a saga that
    calls the compensation, now or when it opens the store.
    """
    value = {"step": options.step} | requester_of(options)
    undo = child_sagas.key_of(options.key, options.step, undo=True)
    done = f"{options.step} is compensated, by the saga {undo}"
    return request(path, options, "compensate", value, done, "not compensated")


def restart(path: str, options: argparse.Namespace) -> int:
    """Start an ended saga again, under a new key.

    The saga is stuck, recovered or resolved, and stays unchanged. The new one has the same
    definition, input and labels. A program that has the definition starts it, now or when it opens
    the store.
    """
    try:
        arguments.key(options.new_key)
    except InvalidKey as error:
        raise Trouble(str(error), 2) from None
    value = {"new_key": options.new_key} | requester_of(options)
    done = f"restarted as {options.new_key}"
    return request(path, options, "restart", value, done, "not restarted")


def check_steps(options: argparse.Namespace, command: str) -> None:
    """Raise `Trouble` unless the options select steps in exactly one way."""
    check_keys(options, bool(options.key))
    if options.key and not options.step:
        raise Trouble(f"{command} requires KEY and STEP", 2)
    if options.all and options.undo:
        raise Trouble("--undo requires KEY and STEP; --all includes compensations", 2)
    if options.key and (options.only or options.yes):
        raise Trouble("--step and --yes require --all", 2)


def answer(
    path: str, options: argparse.Namespace, command: str, report: Json, done: str, refused: str
) -> int:
    """Report a step, or with --all each step of the filter whose attempts are used up.

    All requests are stored before the first answer is waited for.
    """
    if not options.all:
        return request(
            path, options, command, report_of(options) | report, f"{options.step} {done}", refused
        )
    why = Suspension.EXHAUSTED.value
    sagas = filter_of(options)
    with Snapshot(path) as store:
        waits = store.ask(lists.waits(lists.ALL, why=why, within=sagas, step=options.only))
    warn_of(path, sagas, is_needed=not waits, step=options.only)
    if not options.yes:
        return show_count(options, len(waits), f"--yes {VERBS[command]}", "step")
    requests = []
    for wait in waits:
        options.step, options.undo = wait.step, wait.undo
        requests.append((wait.id, report_of(options) | report))
    with admin.writing(path) as link:
        answers = Batch(link, sagas).ask(command, requests, options.timeout)
    return show_answers(options, command, waits, answers, done)


def show_answers(
    options: argparse.Namespace, command: str, waits: Sequence[Waits], answers: list[Any], done: str
) -> int:
    """Print the result of the request for each step."""
    outcomes = [
        reason(entry)
        if isinstance(entry, dict)
        else str(gone(step.key))
        if entry is False
        else entry
        for step, entry in zip(waits, answers)
    ]
    if options.json:
        steps = [
            {"key": entry.key, "step": entry.step, "kind": kind_of(entry.undo)} for entry in waits
        ]
        show_json(
            [entry | {"asked": command, "answer": text} for entry, text in zip(steps, outcomes)]
        )
    for entry, text in zip(waits, outcomes) if not options.json else ():
        if isinstance(text, str):  # another request was faster
            complain(text)
        else:
            print(f"{entry.key}: {entry.step}{f' {done}' if text else f': {WAITS}'}")
    return NO if any(isinstance(text, str) for text in outcomes) else GOOD


def kind_of(undo: bool) -> str:
    """Return the kind of an attempt: `undo` or `run`."""
    return "undo" if undo else "run"


def report_of(options: argparse.Namespace) -> Json:
    """Return the common fields of a report: the step, who reports it, and the note."""
    early = getattr(options, "early", True) and not options.all  # those of --all are under way
    value = step_arguments(options.step, kind_of(options.undo), early)
    return value | requester_of(options)


def requester_of(options: argparse.Namespace) -> Json:
    """Return what is stored of the user of the command."""
    return request_fields(user_of(options), options.note or None)


def user_of(options: argparse.Namespace) -> Requester:
    """Return the user of the command: the name of `--by`, or the login name."""
    is_bulk = getattr(options, "all", False) or isinstance(options.key, list) and options.key[1:]
    if is_bulk and not hasattr(options, "bulk"):
        options.bulk = new_bulk()  # all decisions of one command share it
    name = clean(options.by or login_name())
    return Requester(name, Way.COMMAND, getattr(options, "bulk", None))


def login_name() -> str:
    """Return the login name, or the number of the user if the system has no name for it."""
    try:
        return getpass.getuser()
    except (KeyError, OSError):
        return f"user {os.getuid()}"


def abort_all(path: str, options: argparse.Namespace) -> int:
    """Count the sagas of the filter; with --yes, abort them."""
    with admin.writing(path) as link:
        batch = Batch(link, sagas := filter_of(options))
        if not options.yes:
            count, left_out = batch.abort_count(), batch.undoing_count()
            warn_of(path, sagas, is_needed=not count + left_out)
            return show_count(options, count, "--yes aborts", left_out=left_out)
        result = batch.abort(requester_of(options), options.timeout)
    warn_of(path, sagas, is_needed=not (result.done or result.refused or result.waiting))
    answers: dict[str, object] = dict.fromkeys(result.done, True)
    answers |= dict.fromkeys(result.waiting) | result.refused
    answers |= dict.fromkeys(result.undoing, LEFT_OUT)
    if options.json:
        show_json(
            [{"key": key, "asked": "abort", "answer": answer} for key, answer in answers.items()]
        )
    else:
        lines = dict.fromkeys(result.done, "aborted") | dict.fromkeys(result.waiting, WAITS)
        lines |= result.refused | dict.fromkeys(result.undoing, LEFT_OUT)
        for key, text in lines.items():
            print(f"{key}: {escaped(text)}")
    return NO if result.refused else GOOD


def warn_of(path: str, sagas: Filter, is_needed: bool, step: str | None = None) -> None:
    """Warn about labels and steps that nothing has, if the filter selects nothing."""
    if is_needed and (sagas.labels or step):
        with Snapshot(path) as store:
            for warning in store.ask(unmatched_warnings(sagas, step)):
                complain(warning)


def show_count(
    options: argparse.Namespace, count: int, remedy: str, noun: str = "saga", left_out: int = 0
) -> int:
    """Print how many sagas or steps are selected, and the option that changes them.

    `left_out`: how many sagas are excluded because they undo children or call `on_end`.
    """
    if options.json:
        show_json({"count": count} | ({"undoing": left_out} if left_out else {}))
    else:
        pronoun = "it" if count == 1 else "them"
        print(f"{number(count, noun)}" + (f": {remedy} {pronoun}" if count else ""))
        if left_out:
            undoes = "it undoes a child or calls" if left_out == 1 else "they undo children or call"
            print(f"{number(left_out, 'saga')} skipped, because {undoes} on_end")
    return GOOD


def resolve(path: str, options: argparse.Namespace) -> int:
    """Mark stuck sagas, failed compensations and unused reports as resolved."""
    check_keys(options, bool(options.key))
    if options.key and options.count:
        raise Trouble("--count requires --all", 2)
    if not options.note.strip():
        raise Trouble("--note must not be empty. Describe what was done", 2)
    with admin.writing(path) as link:
        if options.all:
            batch = Batch(link, sagas := filter_of(options))
            if options.count:
                count = batch.resolve_count()
                warn_of(path, sagas, is_needed=not count)
                return show_count(options, count, "without --count resolves")
            done = batch.resolve(options.note, user_of(options)).done
            warn_of(path, sagas, is_needed=not done)
        else:
            note, user = options.note, user_of(options)
            done = link.atomically(
                lambda: [key for key in options.key if resolve_one(link, key, note, user)]
            )
    if options.json:
        entries = [{"key": key, "note": options.note} for key in done]
        show_json(entries[0] if len(options.key) == 1 and entries else entries)
    else:
        for key in done:
            print(f"{key}: resolved")
    if not options.all and (rest := [key for key in options.key if key not in done]):
        check_same(path, rest, options.note)
    return GOOD


def erase(path: str, options: argparse.Namespace) -> int:
    """Erase the data of an ended saga, and of all sagas below it.

    Its input, results, errors and labels are erased, and what operators wrote about it. Its key
    stays used, and its events and its plan stay. This cannot be undone. Large values outside of the
    database are deleted by a program that has the blob store, within a day.
    """
    if not options.yes:
        complain(f"this cannot be undone. Repeat it with --yes to erase the data of {options.key}")
        return NO
    with admin.writing(path) as link:
        try:
            erased = erasures.erase(link, options.key, user_of(options))
        except (NoSuchSaga, NotErasable) as error:
            raise Trouble(str(error)) from None
    if options.json:
        show_json({"key": options.key, "erased": erased.keys, "new": erased.is_new})
    elif not erased.is_new:
        print(f"{options.key}: was erased before")
    else:
        print(f"{options.key}: erased ({number(len(erased.keys), 'saga')})")
    return GOOD


def check_same(path: str, keys: list[str], note: str) -> None:
    """Raise `Trouble` for sagas that cannot be resolved, except those resolved with this note."""
    with Snapshot(path) as store:
        different = [view for key in keys if (view := store.saga(key)).note != clean(note)]
    if different:
        raise Trouble("; ".join(map(why_not, different)))


def why_not(view: SagaView) -> str:
    """Return why a saga cannot be resolved."""
    if view.note is not None:
        return f"{view.key} is already resolved; its first note is kept"
    return f"{view.key} does not need to be resolved: it is {view.phase}"
