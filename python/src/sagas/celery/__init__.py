"""Steps on Celery workers: `@trip.step(queue=sagas.celery.Queue(app, "flights"))`.

The function becomes a task of the app, and you start workers as usual. The program with the store
sends a message for each attempt. The worker calls the function, and writes the outcome into the
store itself. Celery needs no result backend.
"""

from __future__ import annotations

import os
import threading
from collections.abc import Iterable, Sequence
from typing import TYPE_CHECKING, Any

from sagas.base.errors import DefinitionError, WrongStore
from sagas.celery import store_check, worker
from sagas.celery.sender import Sender
from sagas.core.attempt.external_work import Order
from sagas.definition.saga import Saga
from sagas.definition.step import Declare, Step
from sagas.definition.call_options import Manner
from sagas.storage.factory import open_worker_session
from sagas.storage.worker_session import WorkerSession

if TYPE_CHECKING:
    from sagas.storage.interface import Database

__all__ = ["Queue", "step"]

LATE = {
    "acks_late": True,
    "reject_on_worker_lost": True,
    "ignore_result": True,
    "typing": False,
    "shared": False,
}
"""The options of the tasks.

A message is acknowledged after its report is in the store. If its worker is lost, it returns to the
queue.
"""


def task_name(step: Step[Any], kind: str) -> str:
    """Return the name of the task of a step: `sagas.trip.flight.run`.

    It ends with `.undo` for the compensation, and has `trip@2` if the saga's version is 2.
    """
    saga = step.saga
    saga_name = saga.name if saga.version == 1 else f"{saga.name}@{saga.version}"
    return f"sagas.{saga_name}.{step.name}.{kind}"


class Queue:
    """Name the Celery workers that call a step: those of an app and a queue.

    A function over its `soft_time_limit` has an unknown outcome.

    Args:
        app: The Celery app.
        name: The queue's name; None: where the app's routes send the task (default: None).
        store: The URL or the file with which the workers reach the store. It must be the store
            that is opened. For several databases, a list of URLs in the order of the map (default:
            `app.conf.sagas_store`).
        timeout: Seconds after which a message without a report is sent again, with the same
            idempotency key, if the step has no `timeout` (default: 300).
        patience: Seconds that a worker tries to report while the store cannot be written. Then the
            message returns to the queue (default: 60).
        options: Celery's options of the task, for example `priority` or `soft_time_limit`.

    Attributes:
        app: The Celery app.
        name: The queue's name, or None.
        timeout: As given.
        patience: As given.
    """

    def __init__(
        self,
        app: Any,
        name: str | None = None,
        *,
        store: str | os.PathLike[str] | Sequence[str] | None = None,
        timeout: float = 300.0,
        patience: float = 60.0,
        **options: Any,
    ) -> None:
        self.app, self.name, self.timeout, self.patience = app, name, timeout, patience
        self._store = store
        self._options = LATE | ({"queue": name} if name else {}) | options
        self._sessions = threading.local()
        self._sender = Sender(app)
        store_check.declare(app, self)

    @property
    def store(self) -> str:
        """The URL or the file to which the workers report; of several databases `URL,URL`.

        Raises:
            DefinitionError: Neither `store` nor `app.conf.sagas_store` is given.
        """
        store = self._store or self.app.conf.get("sagas_store")
        if not store:
            raise DefinitionError(
                f"{self!r} has no store to report to. Set store=..., or app.conf.sagas_store"
            )
        return os.fspath(store) if isinstance(store, (str, os.PathLike)) else ",".join(store)

    def declare(self, step: Step[Any], kind: str, manner: Manner) -> None:
        """Register a step's function as a task of the app.

        Args:
            step: The step.
            kind: `run`, or `undo` for the compensation.
            manner: How the function is called.
        """

        work = worker.Work(self, step, kind, manner)

        def attempt(order: dict[str, Any]) -> None:
            work.perform(order)

        attempt.__doc__ = getattr(manner.function, "__doc__", None)
        attempt.__module__ = getattr(manner.function, "__module__", __name__)
        self.app.task(name=task_name(step, kind), sagas_step=step, **self._options)(attempt)

    def session(self) -> WorkerSession:
        """Return this thread's connection to the store.

        Raises:
            DefinitionError: As `store`.
            StoreUnavailable: The store does not answer.
        """
        cached = getattr(self._sessions, "of_process", None)
        if cached is None or cached[0] != os.getpid():
            cached = self._sessions.of_process = os.getpid(), open_worker_session(self.store)
        session: WorkerSession = cached[1]
        return session

    async def check(self, database: Database, steps: Iterable[tuple[Step[Any], str]]) -> None:
        """Check that the workers report into this store.

        Args:
            database: The store's database.
            steps: The steps that run in this queue, each with `run` or `undo`.

        Raises:
            WrongStore: The workers report into another store.
            DefinitionError: Another step has the name of the task in this app.
        """
        for step, kind in steps:
            task = self.app.tasks.get(task_name(step, kind))
            if getattr(task, "sagas_step", None) is not step:
                raise DefinitionError(
                    f"{step.where}: saga {step.saga.name!r}, step {step.name!r}: another step has "
                    f"its task name {task_name(step, kind)!r} in this app. Rename one of them"
                )
        await store_check.check(self, database)

    async def send(self, order: Order) -> None:
        """Send a message for an attempt.

        Args:
            order: The message.
        """
        shown = f"({order.key!r}, attempt {order.attempt})"
        await self._sender.send(f"sagas.{order.task}", order.written(), order.token, shown)

    def __repr__(self) -> str:
        return f"<queue {self.name or 'by routes'} of app {self.app.main}>"


def step(
    app: Any,
    saga: Saga[Any],
    name: str,
    *,
    queue: str | None = None,
    store: str | os.PathLike[str] | Sequence[str] | None = None,
    **options: Any,
) -> Declare:
    """Declare a step that runs on an app's workers: `@step(app, saga, "name")`.

    Args:
        app: The Celery app.
        saga: The saga.
        name: The step's name.
        queue: The Celery queue; None: where the app's routes send the task (default: None).
        store: As of `Queue`.
        options: The other options of `Saga.step`.

    Returns:
        A decorator that returns the `Step`.

    Raises:
        DefinitionError: An argument is not valid.
    """
    declare: Declare = saga.step(name=name, queue=Queue(app, queue, store=store), **options)
    return declare
