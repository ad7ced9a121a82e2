"""`decisions`: who decided what, on which sagas or on which node."""

from __future__ import annotations

import argparse
import dataclasses
import json
from typing import Any

from sagas.cli.formatting import GOOD, lines, moment, short, show_json, table
from sagas.cli.options import add_limit_option
from sagas.cli.snapshot import Snapshot
from sagas.core.decisions import Decision, DecisionEntry
from sagas.inspection import decision_questions, lists
from sagas.inspection.decision_questions import DecisionFilter

SHOWN = 3
"""How many keys a row of the table has."""


def add_decisions_options(part: argparse.ArgumentParser) -> None:
    """Add the options of `decisions`."""
    part.add_argument("--key", metavar="KEY", help="only decisions on this saga")
    part.add_argument("--saga", metavar="NAME", help="only decisions on sagas with this name")
    part.add_argument("--decision", choices=[*Decision], help="only decisions of this kind")
    part.add_argument(
        "--export",
        action="store_true",
        help="print all decisions with all keys, one JSON object for each line",
    )
    add_limit_option(part, "decisions, the newest first")


def decisions(path: str, options: argparse.Namespace) -> int:
    """List who decided what, when, on which sagas or on which node, and why.

    A decision on many sagas at once is one entry. Decisions are deleted with their sagas.
    """
    of = DecisionFilter(options.key, options.saga, options.decision)
    limit = lists.ALL if options.export else options.limit or lists.ALL
    with Snapshot(path) as store:
        entries = store.ask(decision_questions.listed(of, limit=limit))
    if options.export:
        for entry in entries:
            print(lines(json.dumps(entry_json(entry))))
    elif options.json:
        show_json([entry_json(entry) for entry in entries])
    else:
        cells = [entry_row(entry) for entry in entries]
        print(table(["TIME", "BY", "DECISION", "SAGAS", "VIA", "ANSWER", "NOTE"], cells))
    return GOOD


def entry_json(entry: DecisionEntry) -> dict[str, Any]:
    """Return an entry with all its keys as JSON."""
    return dataclasses.asdict(entry) | {"counts": entry.counts}


def entry_row(entry: DecisionEntry) -> tuple[object, ...]:
    """Return an entry as a row of the table."""
    steps = {saga.step for saga in entry.sagas}
    (step,) = steps if len(steps) == 1 else (None,)
    keys = [saga.key for saga in entry.sagas[:SHOWN]]
    more = len(entry.sagas) - SHOWN
    answers = ", ".join(
        answer if len(entry.sagas) == 1 else f"{count} {answer}"
        for answer, count in entry.counts.items()
        if count
    )
    return (
        moment(entry.at),
        short(entry.by or ""),
        f"{entry.command} {step}" if step else entry.command,
        entry.subject or short(", ".join(keys)) + (f" and {more} more" if more > 0 else ""),
        entry.via,
        "done" if entry.subject else answers,
        short(entry.note),
    )
