"""`sagas store STORE COMMAND`: its arguments and its errors.

Commands that only inspect the store change nothing. `abort`, `complete`, `fail`, `retry`,
`compensate` and `restart` store a request. The program that has the store open handles it, or the
next one that opens it. `resolve` marks sagas as resolved by an operator. `pause` and `resume` are
obeyed by each program that has the store open.
"""

from __future__ import annotations

import argparse
import inspect
import sys
from collections.abc import Callable

from sagas.base.errors import SagasError
from sagas.base.options import not_negative
from sagas.cli.actions import abort, compensate, complete, erase, fail, resolve, restart, retry
from sagas.cli.audits import audit
from sagas.cli.database_map import add_map_options, map_command, run
from sagas.cli.decisions import add_decisions_options, decisions
from sagas.cli.formatting import CANNOT, INTERRUPTED, complain, drop_output, escape
from sagas.cli.listings import (
    add_deliveries_options,
    add_schedules_options,
    add_attention_options,
    attention,
    definitions,
    deliveries,
    pending,
    schedules,
    stats,
    stuck,
)
from sagas.cli.maintenance import (
    add_blobs_option,
    add_prune_options,
    add_role_option,
    init,
    migrate,
    own_blobs,
    prune,
)
from sagas.cli.nodes import add_drains, nodes
from sagas.cli.options import add_app_option, add_filter_options, add_limit_option
from sagas.cli.pauses import add_pauses
from sagas.cli.records import record
from sagas.cli.saga_views import draw, export, list_sagas, log, plan, show
from sagas.cli.upgrade import add_check_options, check
from sagas.storage.admin import Trouble
from sagas.storage.queries import PHASES
from sagas.storage.store_name import urls_of

Command = Callable[[str, argparse.Namespace], int]
Add = Callable[..., argparse.ArgumentParser]
CANNOT_USE = "the store cannot be read or written, or the output cannot be written"


EXAMPLES = {
    "list": "list --phase open --limit 10",
    "show": "show order-1",
    "log": "log order-1",
    "plan": "plan order-1",
    "draw": "draw order-1 | dot -Tsvg > order-1.svg",
    "decisions": "decisions --key order-1",
    "abort": 'abort order-1 --note "customer left"',
    "complete": "complete order-1 review --result '\"yes\"'",
    "fail": 'fail order-1 review "unknown customer"',
    "retry": "retry order-1 charge",
    "compensate": "compensate order-1 charge",
    "restart": "restart order-1 order-1-2",
    "resolve": 'resolve order-1 --note "sent by courier"',
    "erase": "erase order-1 --yes",
    "export": "export order-1 > order-1.json",
    "check": "check --app shop:SAGAS",
    "schedules": "schedules pause nightly",
    "pause": 'pause pay charge --note "the bank is down"',
    "resume": "resume pay charge",
    "drain": 'drain web-1 --note "its machine is replaced"',
    "undrain": "undrain web-1",
    "deliveries": "deliveries --state failed",
    "prune": "prune --older-than 30d",
    "init": "init --role shop",
    "own-blobs": "own-blobs --blobs /var/lib/shop/blobs",
    "record": "record node-1.record node-2.record",
    "map": "map add postgresql:///shop2",
}
"""The arguments of an example. For other commands, the name is enough."""
REFUSED = {
    "list": "no saga has the key of --after",
    **dict.fromkeys(("show", "log", "draw", "export"), "no saga has the key"),
    "plan": "no saga has the key, or the saga has no plan",
    "abort": "no saga has the key, or the saga has ended or was aborted before",
    **dict.fromkeys(
        ("complete", "fail"), "no saga or step has the name, or the report is rejected"
    ),
    "retry": "no saga or step has the name, or the step cannot be attempted again",
    "compensate": "no saga or step has the name, or no report of the step is unused",
    "restart": "no saga has the key, it cannot be restarted, or the new key has another saga",
    "resolve": "a saga does not exist, or does not need to be resolved",
    "erase": "no saga has the key, it cannot be erased, or --yes is missing",
    "check": "an open saga cannot continue, or could not be checked",
    "audit": "a shard has an event that was not allowed, or differs from the rows",
    "record": "a record is not allowed, or something that was acknowledged is missing",
    "schedules": "no schedule has the name",
    "pause": "no definition or step has the name",
    "resume": "the scope is not paused",
    "drain": "no node has the name",
    "undrain": "the node is not drained",
    "deliveries": "no delivery has the id",
    "prune": "another program is deleting ended sagas of this store",
    "map": "the store has no map, because it has one database",
}
"""The meaning of status 1, for each command that can return it."""


def ending(name: str) -> str:
    """Return an example of a command, and its exit statuses."""
    is_database = name in ("init", "nodes", "record", "drain", "undrain", "map")
    store = "postgresql:///shop" if is_database else "shop.db"
    usage = "invalid arguments" + ("" if store == "shop.db" else ", or the store is a file")
    statuses = {0: "done", 1: REFUSED.get(name), 2: usage, 4: CANNOT_USE, 130: "interrupted"}
    lines = [f"  {status:<3}  {meaning}" for status, meaning in statuses.items() if meaning]
    example = f"Example:\n  sagas store {store} {EXAMPLES.get(name, name)}"
    return "\n".join([example, "", "Exit status:", *lines])


def parser() -> argparse.ArgumentParser:
    """Return the parser of the command."""
    description = (
        "Inspect and change the sagas of a store, even while a program has it open. "
        "Times are in UTC."
    )
    top = argparse.ArgumentParser(prog="sagas store", description=description)
    top.add_argument(
        "path",
        metavar="STORE",
        help="the store's file, or the URL of its database; of several databases: URL,URL",
    )
    parts = top.add_subparsers(dest="command", required=True, metavar="COMMAND")

    def add(name: str, command: Command, key: bool = False) -> argparse.ArgumentParser:
        description = inspect.getdoc(command) or ""
        part = parts.add_parser(
            name,
            help=description.partition("\n")[0].rstrip("."),
            description=description,
            epilog=ending(name),
            formatter_class=argparse.RawDescriptionHelpFormatter,
        )
        part.set_defaults(do=command)
        part.add_argument("--json", action="store_true", help="print JSON")
        if key:
            part.add_argument("key", metavar="KEY", help="the saga's key")
        return part

    add_looks(add)
    add_asks(add)
    add_pauses(add)
    add_schedules_options(add("schedules", schedules))
    add_deliveries_options(add("deliveries", deliveries))
    add_check_options(add("check", check))
    add("audit", audit)
    add_files(add("record", record))
    add("nodes", nodes)
    add_drains(add)
    add("migrate", migrate)
    add_role_option(add("init", init))
    add_app_option(add("export", export, key=True))
    add_prune_options(add("prune", prune))
    add_blobs_option(add("own-blobs", own_blobs))
    add_map_options(add("map", map_command))
    return top


def add_looks(add: Add) -> None:
    """Add the commands that only inspect the store."""
    part = add("list", list_sagas)
    part.add_argument(
        "--phase",
        choices=[*PHASES],
        help=(
            "only sagas in this phase; undo_failed: recovered ones with a permanently "
            "failed compensation"
        ),
    )
    add_filter_options(part, "")
    part.add_argument("--after", metavar="KEY", help="continue after the saga with this key")
    part.add_argument("--newest", action="store_true", help="list the newest first")
    add_limit_option(part, "sagas")
    add_app_option(add("show", show, key=True))
    add_app_option(add("log", log, key=True))
    add("plan", plan, key=True).add_argument(
        "--text", action="store_true", help="print it in the format that `sagas check` reads"
    )
    part = add("draw", draw, key=True)
    part.add_argument(
        "--svg",
        action="store_true",
        help="print the saga's state as an SVG picture, as the dashboard shows it",
    )
    part.add_argument(
        "--unfold",
        action="append",
        default=[],
        metavar="STEP",
        help=(
            "draw each item of this step, or each step of this included saga; * is all "
            "(default: each is one node; repeat it for more)"
        ),
    )
    add("stats", stats)
    add("definitions", definitions)
    add("stuck", stuck)
    add_attention_options(add("attention", attention))
    add("pending", pending)
    add_decisions_options(add("decisions", decisions))


def add_asks(add: Add) -> None:
    """Add the commands that change sagas."""
    part = add("abort", abort)
    part.add_argument("key", metavar="KEY", nargs="?", help="the saga's key")
    part.add_argument("--all", action="store_true", help="every open saga, instead of KEY")
    add_filter_options(part, "with --all: ")
    part.add_argument(
        "--yes", action="store_true", help="with --all: abort them (default: only count them)"
    )
    add_note(part)
    add_timeout(part)
    part = add_app_option(add("complete", complete))
    add_steps(part, "complete")
    add_early(part)
    part.add_argument(
        "--result",
        default="null",
        metavar="JSON",
        help="the step's result; write a text as '\"yes\"' (default: null)",
    )
    part = add("fail", fail)
    add_steps(part, "fail")
    part.add_argument(
        "error", metavar="ERROR", nargs="?", help="why it had no effect, or why it is rejected"
    )
    part.add_argument("--error", metavar="TEXT", dest="why", help="with --all: why they failed")
    add_early(part)
    add_steps(add("retry", retry), "retry")
    part = add("compensate", compensate, key=True)
    part.add_argument("step", metavar="STEP", help="the step's name")
    add_note(part)
    add_timeout(part)
    part = add("restart", restart, key=True)
    part.add_argument("new_key", metavar="NEW_KEY", help="the key of the new saga")
    add_note(part)
    add_timeout(part)
    part = add("resolve", resolve)
    part.add_argument("key", metavar="KEY", nargs="*", help="the sagas' keys")
    part.add_argument("--all", action="store_true", help="every unresolved saga, instead of KEYs")
    add_filter_options(part, "with --all: ")
    part.add_argument("--count", action="store_true", help="with --all: only count them")
    part.add_argument("--note", required=True, metavar="TEXT", help="what was done")
    add_by(part)
    part = add("erase", erase, key=True)
    part.add_argument("--yes", action="store_true", help="erase it (default: only ask)")
    add_by(part)


def add_steps(part: argparse.ArgumentParser, verb: str) -> None:
    """Add the step or the filter that a report is for, and the options of a report."""
    part.add_argument("key", metavar="KEY", nargs="?", help="the saga's key")
    part.add_argument("step", metavar="STEP", nargs="?", help="the step's name")
    part.add_argument(
        "--all", action="store_true", help="each step whose attempts are used up, without KEY"
    )
    add_filter_options(part, "with --all: ")
    part.add_argument("--step", metavar="NAME", dest="only", help="with --all: only this step")
    part.add_argument(
        "--yes", action="store_true", help=f"with --all: {verb} them (default: only count them)"
    )
    part.add_argument("--undo", action="store_true", help="apply to the step's compensation")
    add_note(part)
    add_timeout(part)


def add_files(part: argparse.ArgumentParser) -> None:
    """Add the files of records, and the options of `record`."""
    part.add_argument(
        "files",
        nargs="*",
        metavar="FILE",
        help="a file that a node or client wrote for SAGAS_RECORD",
    )
    part.add_argument(
        "--sync",
        action="store_true",
        help="assume that each standby that may take over has every acknowledged commit",
    )
    part.add_argument(
        "--save", metavar="DIR", help="write the record of each shard into this folder"
    )


def add_early(part: argparse.ArgumentParser) -> None:
    """Add the option that rejects reports of steps that have not started."""
    part.add_argument(
        "--no-early",
        dest="early",
        action="store_false",
        help="refuse a step that has not begun (default: the report is stored until it begins)",
    )


def add_note(part: argparse.ArgumentParser) -> None:
    """Add the option for a note."""
    part.add_argument("--note", metavar="TEXT", help="the reason, stored with the time")
    add_by(part)


def add_by(part: argparse.ArgumentParser) -> None:
    """Add the option for who decides."""
    part.add_argument(
        "--by", metavar="NAME", help="who decides, for `decisions` (default: the login name)"
    )


def add_timeout(part: argparse.ArgumentParser) -> None:
    """Add the option for the time to wait for an answer."""
    part.add_argument(
        "--timeout",
        type=not_negative,
        default=5.0,
        metavar="SECONDS",
        help="seconds to wait for the program's answer (default: 5)",
    )


def main(arguments: list[str] | None = None) -> int:
    """Run `sagas store` and return its exit status.

    0: done, 1: refused, 2: invalid arguments, 4: the store or the output cannot be used, 130:
    interrupted.
    """
    escape()
    options = parser().parse_args(arguments)
    try:
        status = status_of(options)
        sys.stdout.flush()  # at exit, an error would not be reported
        return status
    except BrokenPipeError:  # as of `| head`, which has what it wants
        drop_output()
        return CANNOT
    except OSError as error:
        drop_output()
        location = error.filename or "cannot write the output or a temporary file"
        complain(f"{location}: {error.strerror or error}")
        return CANNOT


def status_of(options: argparse.Namespace) -> int:
    """Run the command, and print why it was refused. Raises `OSError`."""
    command: Command = options.do
    try:
        if command is not map_command and len(urls_of(options.path)) > 1:
            return run(command, options.path, options)
        return command(options.path, options)
    except Trouble as trouble:
        complain(str(trouble))
        return trouble.status
    except SagasError as error:
        complain(str(error))
        return CANNOT
    except KeyboardInterrupt:
        complain("interrupted; changes made before are kept")
        return INTERRUPTED
