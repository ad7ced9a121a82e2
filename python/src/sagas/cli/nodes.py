"""`nodes`, `drain` and `undrain`: the nodes of a PostgreSQL store, and what no node executes."""

from __future__ import annotations

import argparse
import dataclasses
import json
from collections.abc import Callable
from typing import Any

from sagas.base.errors import NoSuchNode
from sagas.cli.actions import login_name
from sagas.cli.formatting import GOOD, moment, show_json, table
from sagas.cli.snapshot import Snapshot
from sagas.core.decisions import Requester, Way
from sagas.core.nodes import NodeStatus
from sagas.definition.definition_text import name_of, version_of
from sagas.definition.serialization import clean
from sagas.inspection import nodes as node_questions
from sagas.inspection.nodes import OPEN
from sagas.storage import admin, queries, store_name
from sagas.storage.admin import Source, Trouble
from sagas.storage.drains import put, remove

Add = Callable[..., argparse.ArgumentParser]

LEFT = f"""
SELECT l.shard, l.name, count(s.id), (
  SELECT json_agg(text ORDER BY place)::text
  FROM shard_definitions d JOIN definitions USING (definition) WHERE d.shard = l.shard)
FROM shards l LEFT JOIN sagas s ON {OPEN}
WHERE l.closed = 0 AND NOT EXISTS (SELECT 1 FROM nodes n WHERE n.node = l.owner AND n.lease > now())
GROUP BY l.shard, l.name HAVING count(s.id) > 0 ORDER BY l.shard
"""
"""Shards without a live node. A shard without open sagas is not listed: the next node closes it."""
DAMAGED = f"""
SELECT l.shard, l.name, count(s.id), l.audit FROM shards l LEFT JOIN sagas s ON {OPEN}
WHERE l.closed = 0 AND l.audit IS NOT NULL GROUP BY l.shard, l.name, l.audit ORDER BY l.shard
"""
"""The shards that no node can open, and why."""
STARTS = f"""
SELECT saga, version, digest, count(*), extract(epoch FROM now()) - min(at), fits, others
FROM (SELECT i.*, {queries.FITS} AS fits, {queries.OTHERS} AS others FROM pending_starts i
  WHERE i.refused IS NULL
  AND NOT EXISTS (SELECT 1 FROM nodes n WHERE n.node = i.node AND n.lease > now())) i
GROUP BY saga, version, digest, fits, others ORDER BY saga, version, digest
"""


def check_database(name: str) -> None:
    """Raise `Trouble` if the store is a file."""
    store_name.check_name(name)
    if not store_name.supports_nodes(name):
        raise Trouble(f"{name} is a SQLite file. This command needs a PostgreSQL store", 2)


def nodes_report(name: str) -> dict[str, Any]:
    """Return the nodes, and the shards and starts that no node has."""
    check_database(name)
    with Snapshot(name) as store:
        left = []
        for log, log_name, open, texts in store.link.ask(LEFT):
            kinds = sorted(
                {
                    f"{name_of(text)} (version {version_of(text)})"
                    for text in json.loads(texts or "[]")
                }
            )
            left.append({"shard": log, "name": log_name, "sagas": kinds, "open": open})
        damaged = [
            dict(zip(("shard", "name", "open", "reason"), row)) for row in store.link.ask(DAMAGED)
        ]
        return {
            "nodes": [node_json(node) for node in store.ask(node_questions.nodes())],
            "shards_without_node": left,
            "damaged_shards": damaged,
            "starts_without_node": _starts(store.link),
        }


def node_json(node: NodeStatus) -> dict[str, Any]:
    """Return a node as JSON values."""
    return {
        "name": node.name,
        "run": node.run,
        "state": node.state.value,
        "release": node.release,
        "definitions": node.version,
        "sagas": [*node.definitions],
        "since": node.since,
        "lease": node.lease,
        "heartbeat_age": node.heartbeat_age,
        "shards": node.shards,
        "open": node.open_sagas,
        "running": node.running,
        "concurrency": node.concurrency,
        "drain": None if node.drain is None else dataclasses.asdict(node.drain),
    }


def _starts(link: Source) -> list[dict[str, Any]]:
    """Return the starts that no node has accepted, by definition.

    `nodes`: those that skip them, because they have another definition of that saga and
    version.
    """
    rows = link.ask(STARTS)
    return [
        {
            "saga": f"{saga} (version {version})",
            "definition": digest,
            "starts": count,
            "seconds": float(seconds),
            "fits": fits,
            "nodes": others,
        }
        for saga, version, digest, count, seconds, fits, others in rows
    ]


def nodes(path: str, options: argparse.Namespace) -> int:
    """List the nodes of a PostgreSQL store, and what no node executes."""
    report = nodes_report(path)
    if options.json:
        show_json(report)
        return GOOD
    heads = ["NODE", "RUN", "STATE", "DEFINITIONS", "SINCE", "LEASE", "LOAD", "SHARDS", "OPEN"]
    print(table(heads, [_cells(row) for row in report["nodes"]]))
    for row in report["nodes"]:
        if drain := row["drain"]:
            by = "" if drain["by"] is None else f" by {drain['by']}"
            print(f"{row['name']} is drained since {moment(drain['at'])}{by}: {drain['note']}")
    left = report["shards_without_node"]
    if left:
        print("\nNo node executes:")
        print(
            table(
                ["SHARD", "OPEN", "SAGAS"],
                [(row["name"], row["open"], ", ".join(row["sagas"])) for row in left],
            )
        )
    if report["damaged_shards"]:
        print("\nNo node can open these shards, because their data is damaged:")
        heads = ["shard", "name", "open", "reason"]
        damaged = [[row[head] for head in heads] for row in report["damaged_shards"]]
        print(table([head.upper() for head in heads], damaged))
    if report["starts_without_node"]:
        print("\nNo node has accepted these starts:")
        rows = [
            (
                row["saga"],
                row["definition"] or "-",
                row["starts"],
                f"{row['seconds']:.1f} s",
                wait_reason(row),
            )
            for row in report["starts_without_node"]
        ]
        print(table(["SAGA", "DEFINITION", "STARTS", "WAITING", "FOR"], rows))
    return GOOD


def _cells(row: dict[str, Any]) -> tuple[object, ...]:
    """Return a node as a row of the table."""
    lease, concurrency = row["lease"], row["concurrency"]
    return (
        row["name"],
        row["run"] or "-",
        row["state"],
        row["definitions"] or "-",
        "-" if row["since"] is None else moment(row["since"]),
        "-" if lease is None else f"{lease:.1f} s" if lease > 0 else "ended",
        f"{row['running']}/{concurrency}" if concurrency else "-",
        row["shards"],
        row["open"],
    )


# -- drains


def add_drains(add: Add) -> None:
    """Add the commands that drain a node, and that end a drain."""
    part = add("drain", drain)
    part.add_argument("node", metavar="NODE", help="the name of the node")
    part.add_argument("--note", required=True, metavar="TEXT", help="why, for operators")
    _add_by(part)
    part = add("undrain", undrain)
    part.add_argument("node", metavar="NODE", help="the name of the node")
    part.add_argument("--note", metavar="TEXT", help="why, for operators")
    _add_by(part)


def _add_by(part: argparse.ArgumentParser) -> None:
    part.add_argument(
        "--by", metavar="NAME", help="who decides, for `decisions` (default: the login name)"
    )


def drain(path: str, options: argparse.Namespace) -> int:
    """Have a node take no more shards, and move its shards to other nodes.

    A shard moves when none of its functions runs at the node. The drain remains in effect until
    `undrain`, or until the node has been gone for a day.
    """
    note = clean(options.note)
    if not note.strip():
        raise Trouble("--note must not be empty. Describe why it is drained", 2)
    return _change(path, options, "drained", lambda link, by: put(link, options.node, note, by))


def undrain(path: str, options: argparse.Namespace) -> int:
    """Have a drained node take shards again."""
    note = None if options.note is None else clean(options.note)
    return _change(
        path,
        options,
        "not drained any more",
        lambda link, by: remove(link, options.node, note, by),
    )


def _change(
    path: str, options: argparse.Namespace, done: str, change: Callable[[Source, str], None]
) -> int:
    check_database(path)
    by = Requester(options.by or login_name(), Way.COMMAND)
    with admin.writing(path) as link:
        try:
            change(link, by)
        except NoSuchNode as error:
            raise Trouble(str(error)) from None
    answer = {"node": options.node, "done": done}
    if options.json:
        show_json(answer)
    else:
        print(f"node {options.node} is {done}")
    return GOOD


def wait_reason(start: dict[str, Any]) -> str:
    """Return what a start that no node has accepted waits for."""
    if start["nodes"]:
        return f"a node with this definition: {', '.join(start['nodes'])} has another one"
    return "its turn" if start["fits"] else "a node with this saga"
