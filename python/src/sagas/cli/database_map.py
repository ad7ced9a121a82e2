"""Commands over several databases: `map`, and other commands in the databases that they are for."""

from __future__ import annotations

import argparse
import contextlib
import dataclasses
import io
import json
import sys
from collections.abc import Callable
from typing import TYPE_CHECKING, Any

from sagas.base.errors import SagasError, StoreUnavailable
from sagas.base.wording import number
from sagas.cli.formatting import CANNOT, GOOD, complain, show_json, table
from sagas.storage import admin, store_name
from sagas.storage.admin import Trouble
from sagas.storage.store_name import urls_of

if TYPE_CHECKING:
    from sagas.core.database_map import DatabaseMap, MapState
    from sagas.storage.postgresql.map_changes import GenerationCount

HAS_KEY = """
SELECT EXISTS (SELECT 1 FROM sagas WHERE key = ?)
  OR EXISTS (SELECT 1 FROM pending_starts WHERE key = ?)
"""
Command = Callable[[str, argparse.Namespace], int]


def add_map_options(part: argparse.ArgumentParser) -> None:
    """Add what is done with the map."""
    part.add_argument(
        "change",
        nargs="?",
        choices=("add", "retire", "repair"),
        help=(
            "add: begin a generation with one more database; retire: forget the oldest generations "
            "if they have no saga; repair: write the map into databases that lost it (default: "
            "only show the map)"
        ),
    )
    part.add_argument("url", nargs="?", metavar="URL", help="with add: the new database")


def map_command(path: str, options: argparse.Namespace) -> int:
    """Show or change the map of a store over several databases.

    Name the databases in the order of the map, with commas between them. `add` can be interrupted,
    and continues if it is run again.
    """
    if (options.change == "add") != (options.url is not None):
        raise Trouble("a URL is needed after `map add`, and only there", 2)
    changes, urls = _changes(path), urls_of(path)

    def notify(line: str) -> None:
        print(line, file=sys.stderr)

    if options.change == "add":
        _check_url(options.url)
        changes.add(urls, options.url, notify)
        urls.append(options.url)
    elif options.change is not None:
        getattr(changes, options.change)(urls, notify)
    return _show(changes, urls, options.json)


def _changes(path: str) -> Any:
    for url in urls_of(path):
        _check_url(url)
    try:
        from sagas.storage.postgresql import map_changes
    except ImportError as error:
        raise Trouble(str(store_name.missing_client(error)), CANNOT) from error
    return map_changes


def _check_url(url: str) -> None:
    if not store_name.supports_nodes(url):
        raise Trouble(f"only a PostgreSQL store has a map: name it by {store_name.FORM}", 2)


def _show(changes: Any, urls: list[str], is_json: bool) -> int:
    """Print the map, the databases that do not answer, and the sagas of each generation."""
    state, away = _state(changes, urls)
    counts: list[GenerationCount] = [] if away else changes.counts(urls, state.map)
    if is_json:
        show_json(_fields(state, away, counts))
    else:
        rows = [
            (index + 1, name, "does not answer" if name in away else "")
            for index, name in enumerate(state.map.names)
        ]
        print(table(["NUMBER", "DATABASE", ""], rows))
        print()
        heads = ["GENERATION", "DATABASES", "OPEN SAGAS", "SAGAS"]
        generations = counts or _without_counts(state.map)
        print(table(heads, [_generation_cells(row, bool(counts)) for row in generations]))
        if not state.is_complete and not away:
            again = "init" if state.map.generation == 1 else "map add"
            print(f"\na change of the map was interrupted: run `{again}` again")
    for reason in away.values():
        complain(reason)
    return CANNOT if away else GOOD


def _state(changes: Any, urls: list[str]) -> tuple[MapState, dict[str, str]]:
    from sagas.core.database_map import state_of

    names = changes.named(urls)
    reads = changes.read_all(urls, names)
    state = state_of(reads, names)
    if state is None:
        raise Trouble(f"{names[0]}: the store has no map: it has one database", 1)
    away = {
        name: str(read) for name, read in zip(names, reads) if isinstance(read, StoreUnavailable)
    }
    return state, away


def _without_counts(of_store: DatabaseMap) -> list[GenerationCount]:
    from sagas.storage.postgresql.map_changes import GenerationCount

    return [
        GenerationCount(generation, databases, None, None)
        for generation, databases in of_store.generations()
    ]


def _generation_cells(row: GenerationCount, is_counted: bool) -> list[object]:
    if row.sagas is None:
        rest = ["all others", "all others"] if is_counted else ["unknown", "unknown"]
        return [row.generation, row.databases, *rest]
    return [row.generation, row.databases, str(row.open), str(row.sagas)]


def _fields(state: MapState, away: dict[str, str], counts: list[GenerationCount]) -> dict[str, Any]:
    return {
        "store": state.map.store,
        "generation": state.map.generation,
        "complete": state.is_complete,
        "databases": [
            {"number": index + 1, "name": name, "error": away.get(name)}
            for index, name in enumerate(state.map.names)
        ],
        "generations": [dataclasses.asdict(row) for row in counts or _without_counts(state.map)],
    }


# -- other commands


def run(command: Command, path: str, options: argparse.Namespace) -> int:
    """Run a command in the database of its key, or in each database."""
    urls, changes = urls_of(path), _changes(path)
    if options.command in ("init", "migrate"):
        statuses = [command(url, options) for url in urls]
        of_store = changes.create(urls, lambda line: print(line, file=sys.stderr))
        print(f"map of generation {of_store.generation}: {number(of_store.count, 'database')}")
        return max(statuses)
    state, away = _state(changes, urls)
    key = getattr(options, "key", None)
    if options.command == "resolve" and key:
        return max(
            command(_database(urls, state.map, name), _with(options, key=[name])) for name in key
        )
    if isinstance(key, str) and options.command != "decisions":
        return command(_database(urls, state.map, key), options)
    if options.command == "schedules" and options.name is not None:
        return command(urls[state.map.positions(options.name)[0]], options)
    return _each(command, urls, changes.named(urls), away, options)


def _with(options: argparse.Namespace, **values: Any) -> argparse.Namespace:
    return argparse.Namespace(**{**vars(options), **values})


def _database(urls: list[str], of_store: DatabaseMap, key: str) -> str:
    """Return the URL of the database that has a key."""
    newest, *older = of_store.positions(key)
    for position in older:
        with contextlib.closing(admin.connect(urls[position], "ro")) as link:
            if link.ask(HAS_KEY, key, key)[0][0]:
                return urls[position]
    return urls[newest]


def _each(
    command: Command,
    urls: list[str],
    names: list[str],
    away: dict[str, str],
    options: argparse.Namespace,
) -> int:
    """Run a command in each database, one after the other, each under its name."""
    statuses, values = [], dict[str, Any]()
    for url, name in zip(urls, names):
        if name in away:
            complain(away[name])
            statuses.append(CANNOT)
            continue
        if not options.json:
            print(f"{name}:")
        output = io.StringIO()
        try:
            with contextlib.redirect_stdout(output) if options.json else contextlib.nullcontext():
                statuses.append(command(url, options))
        except Trouble as trouble:
            complain(str(trouble))
            statuses.append(trouble.status)
        except SagasError as error:
            complain(str(error))
            statuses.append(CANNOT)
        if options.json:
            values[name] = _parsed(output.getvalue())
    if options.json:
        show_json(values)
    return max(statuses)


def _parsed(text: str) -> Any:
    """Return what a command printed as JSON; its lines, if there are several values."""
    try:
        return json.loads(text)
    except ValueError:
        return text.splitlines() or None
