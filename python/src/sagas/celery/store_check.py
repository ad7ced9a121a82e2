"""The check that the workers of a queue report into the open store.

Over SQLite, the workers must use the same file.
"""

from __future__ import annotations

import asyncio
import os
import pathlib
import platform
import time
from typing import TYPE_CHECKING, Any

from celery.worker.control import inspect_command

from sagas.base.errors import WrongStore
from sagas.base.logger import logger
from sagas.storage.store_name import shown_name, supports_nodes, urls_of

if TYPE_CHECKING:
    from sagas.celery import Queue
    from sagas.storage.interface import Database

COMMAND = "sagas_store"
REPLY_TIMEOUT = 1.0
"""Seconds in which the workers must reply."""
REPLY_AGE = 1.0
"""Seconds for which the replies of all workers of an app are used again, for other queues."""


def file_of(path: str) -> list[Any] | None:
    """Return the identity of a file until the machine reboots, or None."""
    try:
        status = os.stat(path)
    except OSError:
        return None
    boot = pathlib.Path("/proc/sys/kernel/random/boot_id")
    return [
        boot.read_text().strip() if boot.exists() else platform.node(),
        status.st_dev,
        status.st_ino,
    ]


def declare(app: Any, queue: Queue) -> None:
    """Register a queue, so that the app's workers can reply to which file it reports."""
    queues = app.__dict__.setdefault("sagas_queues", [])
    queues.append(queue)


def _reply(state: Any) -> list[Any]:
    """Return the files to which the queues of this worker report."""
    files = []
    for queue in state.app.__dict__.get("sagas_queues", ()):
        store = queue.store
        if not supports_nodes(store):
            files.append([queue.name, os.path.abspath(store), file_of(store)])
    return files


inspect_command(name=COMMAND)(_reply)


async def check(queue: Queue, database: Database) -> None:
    """Check that the workers of a queue report into a store.

    It checks the queue's own store, and over SQLite the replies of the workers that are running.

    Raises:
        WrongStore: The workers report into another store.
    """
    store, has_nodes = queue.store, database.supports_nodes
    if supports_nodes(store) != has_nodes:
        name = shown_name(store)
        raise WrongStore(
            f"{queue!r}: its workers report to {name}, "
            f"but the open store is {database.path}. Give both the same store"
        )
    if has_nodes:
        if (len(urls_of(store)) > 1) != database.is_member:
            raise WrongStore(
                f"{queue!r}: its workers and the open store have other numbers of databases. Give "
                "both one list"
            )
        return
    file = file_of(database.path)
    if file != file_of(store):
        raise WrongStore(
            f"{queue!r}: its workers report to {os.path.abspath(store)}, but the open "
            f"store is {os.path.abspath(database.path)}. Give both the same file"
        )
    for worker, reply in await asyncio.to_thread(_ask, queue):
        for queue_name, path, worker_file in reply:
            if queue_name == queue.name and worker_file != file:
                raise WrongStore(
                    f"{queue!r}: worker {worker} has another file at {path}. Over SQLite, workers "
                    f"and store must share the file {os.path.abspath(database.path)} on one "
                    "machine. Otherwise use PostgreSQL"
                )


def unreached(app: Any, error: Exception) -> str:
    """Return a broker's error with its URL, without the password, for a log line."""
    try:
        return f"{app.connection_for_write().as_uri()}: {error}"
    except Exception:  # a URL that it does not understand
        return str(error)


def _ask(queue: Queue) -> list[tuple[str, list[Any]]]:
    """Return the replies of the running workers, by the name of the worker."""
    replies: list[tuple[str, list[Any]]]
    at, replies = queue.app.__dict__.get("sagas_answers", (0.0, []))
    if time.monotonic() < at + REPLY_AGE:
        return replies
    replies = []
    try:
        control = queue.app.control
        for reply in control.broadcast(COMMAND, reply=True, timeout=REPLY_TIMEOUT) or ():
            replies += [(name, files) for name, files in reply.items() if isinstance(files, list)]
    except Exception as error:  # then the first message to a worker shows a wrong store
        logger.warning(
            "%r: the broker cannot be reached: %s. Messages are sent when it can",
            queue,
            unreached(queue.app, error),
        )
    queue.app.__dict__["sagas_answers"] = time.monotonic(), replies
    return replies
