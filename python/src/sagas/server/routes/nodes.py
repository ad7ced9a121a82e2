"""Routes and the page of the nodes of a store."""

from __future__ import annotations

import dataclasses
import logging
from collections.abc import Mapping
from typing import Any

from starlette.responses import RedirectResponse, Response

from sagas.base.errors import NoSuchNode, SagasError
from sagas.core.nodes import NodeStatus
from sagas.server import answers, problems
from sagas.server.access import on_page, over_http
from sagas.server.auth import Permission, Principal
from sagas.server.dashboard import session_and_form, show_page
from sagas.server.database_reads import of_each, unavailable_of
from sagas.server.json_bodies import Json, times
from sagas.server.operations import Answer, Call, Routes
from sagas.server.problems import Problem
from sagas.server.shapes import Field, Nullable, Record, Text

logger = logging.getLogger("sagas.server")
routes = Routes("operators", "/v1/nodes")
NODE = {"node": Text(max_length=512, min_length=1)}
NOTE = Text(max_length=2000, min_length=1, strip=True)
DRAIN = Record(
    "DrainRequest",
    {"note": Field(NOTE, "why; stored with the name of the token and the time")},
    "",
    {"note": "its machine is replaced"},
)
UNDRAIN = Record(
    "UndrainRequest",
    {"note": Field(Nullable(NOTE), "why", default=None)},
    "The body may be left out.",
    {"note": "the machine is back"},
)


def check_unlimited(principal: Principal) -> None:
    """Raise `Problem` if a principal may not see all sagas: a node has sagas of all definitions."""
    if not principal.is_unlimited:
        raise Problem(
            "Forbidden",
            f"{principal.name} is restricted to some sagas, and nodes have all: use a token "
            "without such a restriction",
        )


def node_json(node: NodeStatus) -> dict[str, Any]:
    """Return a node as JSON values."""
    definitions = [
        dict(zip(("name", "version", "digest"), (name, int(version), digest)))
        for name, version, digest in (kind.split("/") for kind in node.definitions)
    ]
    drain = node.drain
    return {
        "name": node.name,
        "run": node.run,
        "state": node.state.value,
        "release": node.release,
        "definitions": definitions,
        **times(since=node.since),
        "lease_seconds": node.lease,
        "heartbeat_seconds": node.heartbeat_age,
        "shards": node.shards,
        "open_sagas": node.open_sagas,
        "running": node.running,
        "concurrency": node.concurrency,
        "drain": None
        if drain is None
        else {"note": drain.note, "by": drain.by, **times(at=drain.at)},
    }


@routes.get(
    "",
    "listNodes",
    permission=Permission.OPERATE,
    answers={200: Answer("The nodes, by name.", answers.NODES)},
)
async def listed(call: Call) -> Response:
    """List the nodes of the store.

    Nodes that have ended are listed while they have shards or are drained. A token that is
    restricted to some sagas cannot list them.
    """
    check_unlimited(call.principal)
    rows = [
        node_json(node) | ({"database": index + 1} if call.service.database_count > 1 else {})
        for index, node in await placed(call)
    ]
    return Json({"nodes": rows} | unavailable_of(call))


async def placed(call: Call) -> list[tuple[int, NodeStatus]]:
    """Return the nodes of each database by name, with the index of the database.

    A program is a node of each database, and is listed for each.
    """
    parts = await of_each(call, lambda service, _: service.store.nodes())
    rows = [(index, node) for index, part in parts.items() for node in part]
    return sorted(rows, key=lambda row: (row[1].name, row[0]))


@routes.post(
    "/{node}/drain",
    "drainNode",
    permission=Permission.OPERATE,
    parts=NODE,
    body=DRAIN,
    answers={200: Answer("The node is drained.", answers.NODES)},
    problems=("NoSuchNode",),
)
async def drain(call: Call) -> Response:
    """Drain a node.

    It takes no more shards, and its shards move to other nodes when none of their functions runs.
    Other nodes start new sagas. It remains in effect until `undrainNode`, also if the node is
    started again. Returns all nodes.
    """
    check_unlimited(call.principal)
    name, by = call.path["node"], over_http(call.principal)
    await call.service.store.drain(name, note=call.body["note"], by=by)
    logger.info("%s has drained node %s", call.principal.name, name)
    return await listed(call)


@routes.post(
    "/{node}/undrain",
    "undrainNode",
    permission=Permission.OPERATE,
    parts=NODE,
    body=UNDRAIN,
    answers={200: Answer("The node is not drained any more.", answers.NODES)},
    problems=("NoSuchNode",),
)
async def undrain(call: Call) -> Response:
    """End the drain of a node.

    It takes shards again. Returns all nodes.
    """
    check_unlimited(call.principal)
    name, by = call.path["node"], over_http(call.principal)
    await call.service.store.undrain(name, note=call.body["note"], by=by)
    logger.info("%s has ended the drain of node %s", call.principal.name, name)
    return await listed(call)


# -- the page


page_routes = Routes("pages", is_page=True)


@page_routes.get("/ui/nodes", permission=Permission.BROWSE)
async def nodes_page(call: Call) -> Response:
    """Show the nodes, and a form to drain one."""
    return await shown_nodes(call, {})


async def shown_nodes(
    call: Call, form: Mapping[str, Any], status: int = 200, fault: str | None = None
) -> Response:
    check_unlimited(call.principal)
    nodes = [
        dataclasses.replace(node, database=str(index + 1)) for index, node in await placed(call)
    ]
    programs = {node.name: node for node in reversed(nodes)}
    values: dict[str, Any] = {
        "nodes": nodes,
        "form": form,
        "fault": fault,
        "programs": sorted(programs.items()),
    }
    values["has_several"] = call.service.database_count > 1
    return show_page(call.request, "nodes.html", status, here="nodes", **values)


@page_routes.post("/ui/nodes", permission=Permission.OPERATE)
async def drained(call: Call) -> Response:
    """Drain the node that the form names, or end its drain."""
    session, form = await session_and_form(call.request)
    check_unlimited(session.principal)
    store, by = call.service.store, on_page(session.principal)
    name, note = form.get("node", ""), form.get("note", "").strip()[:2000]
    try:
        if form.get("undrain") == "on":
            await store.undrain(name, note=note or None, by=by)
        elif not note:
            raise Problem("InvalidRequest", "write why the node is drained")
        else:
            await store.drain(name, note=note, by=by)
    except (Problem, SagasError) as error:
        if not isinstance(error, (Problem, NoSuchNode)):
            raise
        problem = error if isinstance(error, Problem) else problems.of(error)
        return await shown_nodes(call, form, problem.kind.status, str(problem))
    logger.info("%s has changed the drain of node %s", session.principal.name, name)
    return RedirectResponse("/ui/nodes", 303)
