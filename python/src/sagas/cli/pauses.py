"""`pause`, `resume` and `pauses`."""

from __future__ import annotations

import argparse
import dataclasses
from collections.abc import Callable
from typing import Any

from sagas.base.errors import NoSuchPause
from sagas.cli.actions import login_name
from sagas.cli.formatting import GOOD, moment, show_json, table
from sagas.cli.snapshot import Snapshot
from sagas.core.decisions import Requester, Way
from sagas.core.pauses import Pause, PauseScope, scope_of
from sagas.definition.serialization import clean
from sagas.inspection import pauses as questions
from sagas.storage import admin, pauses as pause_rows
from sagas.storage.admin import Trouble

Add = Callable[..., argparse.ArgumentParser]


def add_pauses(add: Add) -> None:
    """Add the commands that pause, resume and list pauses."""
    part = add("pause", pause)
    _add_scope(part)
    part.add_argument("--note", required=True, metavar="TEXT", help="why, for operators")
    part.add_argument(
        "--by", metavar="NAME", help="the person who pauses it (default: the user of this process)"
    )
    part.add_argument(
        "--forward-only", action="store_true", help="start compensations nevertheless"
    )
    part.add_argument(
        "--refuse-starts",
        action="store_true",
        help="refuse new sagas (default: they are started, and their attempts wait)",
    )
    part = add("resume", resume)
    _add_scope(part)
    part.add_argument(
        "--by", metavar="NAME", help="the person who resumes it (default: the user of this process)"
    )
    add("pauses", pauses)


def _add_scope(part: argparse.ArgumentParser) -> None:
    part.add_argument("saga", metavar="SAGA", nargs="?", help="the name of the definition")
    part.add_argument("step", metavar="STEP", nargs="?", help="only this step of the definition")
    part.add_argument("--queue", metavar="NAME", help="the Celery queue, instead of SAGA")
    part.add_argument("--everything", action="store_true", help="everything, instead of SAGA")


def _scope(options: argparse.Namespace) -> PauseScope:
    """Return the scope that the options name. Raises `Trouble`."""
    named = [options.saga is not None, options.queue is not None, options.everything]
    if sum(named) != 1:
        raise Trouble(f"{options.command}: pass SAGA, --queue NAME or --everything", 2)
    return scope_of(options.saga, options.step, options.queue)


def pause(path: str, options: argparse.Namespace) -> int:
    """Start no more attempts of a definition, a step or a queue, or of everything.

    Attempts that run end as usual, and the others wait until `resume`. Each program that has the
    store open obeys within a second. A second pause of the same scope replaces the first one.
    """
    scope, note = _scope(options), clean(options.note)
    if not note.strip():
        raise Trouble("--note must not be empty. Describe why it is paused", 2)
    if options.refuse_starts and (options.step or options.queue):
        raise Trouble(f"--refuse-starts: {scope.text} has no starts of its own", 2)
    by = Requester(options.by or login_name(), Way.COMMAND)
    with admin.writing(path) as link:
        try:
            questions.check_names(link, scope, {})
        except ValueError as error:
            raise Trouble(str(error)) from None
        flags = options.forward_only, options.refuse_starts
        set_pause = Pause(*scope, *flags, note, str(by), link.now())
        pause_rows.put(link, set_pause, by)
        is_executed = link.is_driven()
    later = "" if is_executed else "; no program has the store open"
    show_json(written(set_pause)) if options.json else print(f"{scope.text} is paused{later}")
    return GOOD


def resume(path: str, options: argparse.Namespace) -> int:
    """End a pause: its attempts start again.

    Other pauses that cover the same attempts stay in effect.
    """
    scope, by = _scope(options), Requester(options.by or login_name(), Way.COMMAND)
    with admin.writing(path) as link:
        try:
            pause_rows.remove(link, scope, link.now(), by)
        except NoSuchPause as error:
            raise Trouble(str(error)) from None
    done = {**scope._asdict(), "done": "resumed"}
    show_json(done) if options.json else print(f"{scope.text} is resumed")
    return GOOD


def pauses(path: str, options: argparse.Namespace) -> int:
    """List the pauses, the oldest first."""
    with Snapshot(path) as store:
        listed = store.ask(questions.pauses())
    if options.json:
        show_json([written(entry) for entry in listed])
        return GOOD
    rows = [
        (entry.scope.name, moment(entry.at), entry.by or "", _options(entry), entry.note)
        for entry in listed
    ]
    print(table(["SCOPE", "SINCE", "BY", "OPTIONS", "NOTE"], rows))
    return GOOD


def written(entry: Pause) -> dict[str, Any]:
    """Return a pause as JSON values."""
    return dataclasses.asdict(entry)


def _options(entry: Pause) -> str:
    flags = {"forward only": entry.forward_only, "refuses starts": entry.refuse_starts}
    return ", ".join(name for name, is_set in flags.items() if is_set)
