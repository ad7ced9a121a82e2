#!/usr/bin/env python3
"""A server is provisioned: approved by a person, set up, watched for three days, and then billed.

    PYTHONPATH=python/src python3 examples/python/provisioning.py

Three days are half a second here. The first request is approved, and completes. The second one is
refused, and its address is released. The third one cannot be billed after its three days: the
server is removed, and then its address is released, since the server needs the address.

If the command has a path as its argument, for example `servers.db`, the store remains. An operator
lists its sagas with `python3 -m sagas store servers.db list`, also while the program runs, and
completes a step that waits with `python3 -m sagas store servers.db complete KEY approve`.
"""

from __future__ import annotations

import asyncio
import datetime
import pathlib
import sys
import tempfile
from typing import Any

import sagas

Request = dict[str, Any]
DAYS = datetime.timedelta(seconds=0.5)
provisioning = sagas.Saga("provisioning")


@provisioning.step
async def address(task: sagas.Task[Request]) -> str:
    """Take an address for the server."""
    print(f"  {task.key}: take an address")
    return "192.0.2.17"


@address.compensation
async def free_address(task: sagas.Task[Request]) -> None:
    """Release the address."""
    print(f"  {task.key}: give {task.result} back")


@provisioning.approval(needs=[address], timeout=datetime.timedelta(days=7))
async def approve(task: sagas.Task[Request]) -> None:
    """Ask the manager, who calls `store.complete(key, "approve", result)`, by a queue."""
    mailbox.put_nowait((task.key, task.input["size"]))


@provisioning.step(needs=[approve, address], tries=3, timeout=60)
async def server(task: sagas.Task[Request]) -> str:
    """Start the server at its address."""
    size, location = task.input["size"], task.result_of(address)
    approved_by = task.results["approve"]
    print(f"  {task.key}: start a {size} server at {location}, approved by {approved_by}")
    return "server 4"


@server.compensation(tries=5)
async def remove_server(task: sagas.Task[Request]) -> None:
    """Remove the server."""
    print(f"  {task.key}: remove {task.result}")


@provisioning.wait(needs=[server], until=DAYS)
async def watch(task: sagas.Task[Request]) -> str:
    """Return after three days. While the saga waits, it does not count as running."""
    return "quiet"


@provisioning.step(needs=[watch])
async def bill(task: sagas.Task[Request]) -> None:
    """Bill the server."""
    if task.input["account"] == "closed":
        raise sagas.Fail("the account is closed")
    print(f"  {task.key}: bill it")


mailbox: asyncio.Queue[tuple[str, str]] = asyncio.Queue()


async def manager(store: sagas.Store) -> None:
    """Approve all requests except those for a huge server."""
    while True:
        key, size = await mailbox.get()
        if size == "huge":
            await store.fail(key, approve, "too expensive")
        else:
            await store.complete(key, approve, "Ada")


async def main(path: pathlib.Path) -> None:
    """Make three requests."""
    requests = {
        "request-1": {"size": "small", "account": "open"},
        "request-2": {"size": "huge", "account": "open"},
        "request-3": {"size": "large", "account": "closed"},
    }
    async with sagas.open(path, [provisioning]) as store:
        answers = asyncio.create_task(manager(store))
        for key, request in requests.items():
            print(key)
            run = await store.start(provisioning, key=key, input=request)
            end = await run.wait()
            print(
                f"  {end.phase}: "
                + ", ".join(f"{step} {state}" for step, state in end.states.items())
            )
        answers.cancel()


if __name__ == "__main__":
    with tempfile.TemporaryDirectory() as folder:
        asyncio.run(
            main(pathlib.Path(sys.argv[1] if len(sys.argv) > 1 else f"{folder}/servers.db"))
        )
