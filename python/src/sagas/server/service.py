"""The service: its store, limits, figures and peers, which the routes share."""

from __future__ import annotations

import asyncio
import contextlib
import dataclasses
import functools
import importlib
import logging
import re
import time
from collections import OrderedDict
from collections.abc import Awaitable, Callable, Iterator
from typing import TYPE_CHECKING, Any, TypeVar

from sagas.api import store
from sagas.api.restarts import check_restartable
from sagas.api.run import Run
from sagas.api.store import Store
from sagas.base.errors import (
    Closed,
    DefinitionError,
    KeyConflict,
    NoSuchSaga,
    OwnerUnavailable,
    SagasError,
    StoreUnavailable,
)
from sagas.base.events import Event
from sagas.core.pauses import Pause
from sagas.core.results import ActiveAttempt
from sagas.core.decisions import Requester
from sagas.definition import tokens
from sagas.definition.definition_text import version_of
from sagas.definition.labels import Labels
from sagas.definition.saga import Saga
from sagas.inspection import saga as one_saga, views
from sagas.inspection.question import Question
from sagas.inspection.wording import stored
from sagas.inspection.views import SagaView
from sagas.runtime.leased_tasks import Queue
from sagas.server import auth, declared_steps, webhooks
from sagas.server.auth import Permission, Principal, Sessions, Tokens
from sagas.server.event_stream import Hub
from sagas.server.explanations import Explanations
from sagas.server.figures import Figures
from sagas.server.limits import ConcurrencyLimits, Quotas, Rates, StreamLimits
from sagas.server.metrics import Durations, Metrics
from sagas.server.middleware import REQUEST_ID, SLASH, parted
from sagas.server.settings import Settings
from sagas.server.shown_fields import ShownFields
from sagas.server.siblings import ProcessQuestion, SharedSessions
from sagas.server.threads import Threads
from sagas.server.webhooks import Webhooks
from sagas.storage import factory, store_name

if TYPE_CHECKING:
    from starlette.responses import Response

    from sagas.server.operations import Call, Operation
    from sagas.server.service_set import ServiceSet
    from sagas.storage.interface import Peers

T = TypeVar("T")
logger, http = logging.getLogger("sagas.server"), logging.getLogger("sagas.http")
MAX_WORKERS = MAX_THERE = 1000
SHARED = 200
"""Maximum number of workers that one service reports to another."""
FAILED_COMMIT = 5.0
"""Seconds for which a failed commit makes the service not ready, unless a later commit succeeds.
After that, new requests have to show whether commits succeed.
"""
PEER_ANSWER_KEPT = 1.0
"""Seconds for which another service's answer about a saga is reused."""
SHOWN_OPTIONS = ("concurrency", "retention", "archive_dir", "lease", "record", "blob_threshold")
"""The options of the store that the log has at the start."""
FREQUENT = ("/v1/tasks/claim", "/heartbeat")
"""The ends of paths whose requests change no saga."""
EVENT_FIELDS = [field.name for field in dataclasses.fields(Event)]
MAX_DETAIL = 500
"""Maximum characters of an event's detail that other services receive."""


@dataclasses.dataclass(slots=True)
class Seen:
    """A worker: when it last polled, and for which steps."""

    name: str
    at: float
    steps: list[str]


class WaitingClaims:
    """Waiting claims by worker.

    Two workers may share a name: then both claims are answered, and the other worker claims
    again.
    """

    def __init__(self) -> None:
        self._ends: dict[str, set[asyncio.Future[None]]] = {}

    @contextlib.contextmanager
    def waiting(self, worker: str) -> Iterator[asyncio.Future[None]]:
        """Register a waiting claim. Yields a future: when it is done, answer the claim."""
        end = asyncio.get_running_loop().create_future()
        claims = self._ends.setdefault(worker, set())
        claims.add(end)
        try:
            yield end
        finally:
            claims.discard(end)
            if not claims:
                del self._ends[worker]

    def end(self, worker: str) -> int:
        """End the claims of a worker. Returns how many there were."""
        ends = [end for end in self._ends.get(worker, ()) if not end.done()]
        for end in ends:
            end.set_result(None)
        return len(ends)


def sessions_of(settings: Settings) -> Sessions:
    """Return the sessions of this process, or those of all processes of its command."""
    if settings.siblings is None:
        return Sessions(settings.session_time)
    return SharedSessions(settings.session_time, settings.siblings)


class Shared:
    """What the services of one process share, if the store has several databases."""

    def __init__(self, settings: Settings) -> None:
        self.hub = Hub()
        self.tokens = Tokens(settings.tokens, logger.error) if settings.tokens else None
        self.sessions = sessions_of(settings)
        self.rates, self.refusals = Rates(settings.rate), Rates(5.0)
        self.durations = Durations()
        self.concurrency = ConcurrencyLimits(settings.concurrency)
        streams = settings.streams
        self.streams = StreamLimits(streams.maximum, streams.max_each, streams.kept)
        self.workers: OrderedDict[str, Seen] = OrderedDict()
        self.claims = WaitingClaims()
        self.group: ServiceSet | None = None


class Service:
    """A served store. Use the other methods only between `begin` and `end`."""

    def __init__(self, settings: Settings, shared: Shared | None = None) -> None:
        self.settings = settings
        self.share(shared or Shared(settings))
        self.metrics = Metrics(self, settings.sagas, self.shared.durations)
        self.quotas = Quotas(settings.quota, self.look)
        self.store: Store = store.open(
            settings.path,
            settings.sagas,
            on_event=self._event,
            **settings.store.options,
        )
        self.store.leased = True
        for path in (settings.tokens, settings.webhooks.file):
            if warning := path and auth.mode_warning(path):
                logger.warning("%s", warning)
        file, allow = settings.webhooks.file, settings.webhooks.allow_local
        hooks = webhooks.read_file(file, allow) if file else []
        self.metrics.begin_webhooks(hook.name for hook in hooks)
        self.webhooks = Webhooks(hooks, self.store.deliveries, allow, self.metrics.posted)
        self._peers: Peers | None = None
        self._peer_attempts: dict[
            str, tuple[float, list[ActiveAttempt]]
        ] = {}  # attempts that other nodes reported, and until when these are valid
        self.pages: dict[str, re.Pattern[str]] = {}
        """The pages that users visit, by the paths of their routes."""
        self.page_permissions: dict[tuple[str, str], Permission | None] = {}
        """What the routes of the dashboard require, by their methods and paths."""
        self.unwritten: float | None = None
        self.figures: Figures = Figures(self.hub, self.look)
        self.explanations = Explanations()
        self.shown_fields = ShownFields(self)
        if settings.siblings:
            settings.siblings.answers[ProcessQuestion.METRICS] = lambda _: self.metrics.dump()
            settings.siblings.answers[ProcessQuestion.END_CLAIMS] = self.claims.end

    def share(self, shared: Shared) -> None:
        """Use what services share."""
        self.shared, self.hub = shared, shared.hub
        self.tokens, self.sessions, self.rates = shared.tokens, shared.sessions, shared.rates
        self.concurrency, self.streams = shared.concurrency, shared.streams

    @property
    def refusals(self) -> Rates:
        """The rates of requests without a valid token, by address."""
        return self.shared.refusals

    @property
    def workers(self) -> OrderedDict[str, Seen]:
        """The workers that polled, by name."""
        return self.shared.workers

    @property
    def claims(self) -> WaitingClaims:
        """The claims that wait."""
        return self.shared.claims

    async def carry_out(self, operation: Operation, call: Call) -> Response:
        """Return the answer to a call. Raises `Problem`, and errors of the package."""
        return await operation.handler(call)

    @property
    def unavailable(self) -> dict[str, str] | None:
        """Why databases cannot be used, by their numbers; None if the store has only one."""
        return None

    @property
    def missing(self) -> dict[str, str]:
        """Why databases of the store cannot be used, by their numbers."""
        return (self.shared.group or self).unavailable or {}

    async def each(
        self, work: Callable[[Service, int], Awaitable[T]]
    ) -> tuple[dict[int, T], dict[str, str]]:
        """Await what reads a database, for each database of the store that answers.

        Returns:
            The results by the index of the database, and why others have none, by number.
        """
        return {0: await work(self, 0)}, {}

    @property
    def in_use(self) -> list[Service]:
        """The services of the databases that can be used: this one, if the store has only one."""
        return [self]

    @property
    def database_count(self) -> int:
        """The number of databases of the store that this service was started with."""
        return 1

    def check_complete(self) -> None:
        """Raise `Problem` if a database of the store does not answer, and may have something."""

    async def service_of(self, key: str) -> Service:
        """Return the service of the database that has a key, or that a start of it goes to."""
        return self if self.shared.group is None else await self.shared.group.service_of(key)

    async def reach(self) -> None:
        """Find out whether the database answers. See `factory.reach`."""
        options = self.settings.store.options
        await factory.reach(options.get("direct_url") or self.settings.path)

    # -- life

    def prepare(self) -> None:
        """Prepare for requests and for a stop. Call it in the event loop, before `begin`."""
        self.stopping: asyncio.Future[None] = asyncio.get_running_loop().create_future()

    async def begin(self) -> None:
        """Open the store. Raises the errors of `Store`; then it can be called again."""
        await self.store.__aenter__()
        try:
            self.store.workers.observe_claims(self.metrics.claimed)
            await self._meet()
        except BaseException:
            await self.store.close(0.0)
            raise
        self.webhooks.begin()
        self.threads: Threads = Threads(self.store._reader)
        self.figures.prime()
        fields = self._description()
        message = "service started: sagas %s, store %s, node %s"
        names = (fields["version"], fields["store"], fields["node"])
        logger.info(message, *names, extra={"sagas": fields})

    def _description(self) -> dict[str, Any]:
        """Return what the log has of the service at its start, without secrets."""
        settings, options = self.settings, self.settings.store.options
        shown = {name: options[name] for name in SHOWN_OPTIONS if options.get(name) is not None}
        return {
            "version": importlib.import_module("sagas").__version__,
            "store": self.store.path,
            "node": store_name.node_name(options.get("node")),
            "definitions": [f"{saga.name} (version {saga.version})" for saga in settings.sagas],
            "listen": f"{settings.host}:{settings.port}",
            "tokens": settings.tokens is not None,
            "webhooks": self.webhooks.names(),
            "rate": settings.rate,
            "connections": settings.concurrency.connections,
            "shutdown_timeout": settings.shutdown_timeout,
            **{name: str(value) for name, value in shown.items()},
            **{name: options.get(name) is not None for name in ("codec", "blobs", "context")},
        }

    @property
    def is_stopping(self) -> bool:
        """Return whether it accepts no further requests."""
        return self.stopping.done()

    def stop(self) -> None:
        """End long waits: streams and claims."""
        if not self.stopping.done():
            self.stopping.set_result(None)
        self.hub.close()

    async def end(self) -> None:
        """Close the store."""
        self.stop()
        await self.webhooks.end()
        await self.figures.rest()
        await self.quotas.rest()
        if self._peers:
            await self._peers.close()
        began = time.monotonic()
        await self.store.close(self.settings.shutdown_timeout)
        self.threads.close()
        self.explanations.close()
        logger.info("service stopped: its store was closed in %.1f s", time.monotonic() - began)

    async def _meet(self) -> None:
        """Exchange events and workers with other services of the same PostgreSQL database."""
        peers = self.store.workers.peers()
        if peers:
            peers.on_message, peers.missed = self._heard, self.hub.missed
            peers.follows, self.hub.opened = lambda: self.hub.listeners > 0, peers.follow
            peers.answers |= {"workers": self._workers, "begun": self._begun}
            await peers.open()
            self._peers = peers

    def _heard(self, fields: Any) -> None:
        self.hub.publish(Event(**fields))

    async def _workers(self, argument: None) -> list[Any]:
        return [
            [worker.name, worker.at, worker.steps]
            for worker in list(self.workers.values())[-SHARED:]
        ]

    async def _begun(self, key: str) -> list[Any]:
        return [dataclasses.astuple(attempt) for attempt in self.store.active_attempts(key)]

    def _event(self, event: Event) -> None:
        if event.name == "commit_failed":
            self.unwritten = time.monotonic()
        elif event.name in ("saga_started", "step_succeeded", "saga_ended"):
            self.unwritten = None
        self.metrics.event(event)
        self.webhooks.event(event)
        self.hub.publish(event)
        if (
            self._peers
            and self._peers.others
            and not self._peers.broadcast(fields := event_fields(event))
        ):
            self._peers.broadcast({**fields, "detail": None})
        if (hook := self.settings.store.on_event) is not None:
            hook(event)

    def ready(self) -> str | None:
        """Return None if it accepts requests, else the reason why not."""
        if self.stopping.done():
            return "the service is stopping"
        if self.unwritten is not None and time.monotonic() < self.unwritten + FAILED_COMMIT:
            return "the store could not be written"
        if not self.store._holds():
            return "the store cannot be reached"
        return None

    async def in_time(self, work: Awaitable[T]) -> T:
        """Await work that another node may have to answer.

        Raises `OwnerUnavailable` if it takes too long. The work may still be done.
        """
        try:
            async with asyncio.timeout(self.settings.patience):
                return await work
        except TimeoutError:
            raise OwnerUnavailable(
                "the node that executes the saga has not answered yet. Read the saga, then retry"
            ) from None

    # -- looks

    async def look(self, question: Question[T]) -> T:
        """Ask the store a question in a thread."""
        return await self.threads.reads.ask(question)

    async def kept(self, key: str, *, is_page: bool = False) -> SagaView | None:
        """Return the stored view of a saga. Large values stay in their stored form.

        `is_page`: it is for a page of the dashboard.
        """
        pool = self.threads.pages if is_page else self.threads.reads
        return await pool.ask(one_saga.view(key, stored))

    async def saga(self, key: str, *, is_page: bool = False) -> SagaView | None:
        """Return the view of a saga with the active attempts that its node reports."""
        view = await self.kept(key, is_page=is_page)
        if view is None or not any(step.state in views.BEGUN for step in view.steps):
            return view
        return views.with_active_attempts(
            view,
            self.store.active_attempts(key) or await self._begun_there(view),
            self.store._now(),
        )

    async def _begun_there(self, view: SagaView) -> list[ActiveAttempt]:
        """Return the active attempts that another node reports; none if it does not answer."""
        if self._peers is None:
            return []
        until, attempts = self._peer_attempts.get(view.key, (0.0, list[ActiveAttempt]()))
        if until > time.monotonic():  # callers ask again and again
            return attempts
        try:
            node = await self._peers.owner(tokens.shard_of(view.token))
            is_other = node and node != self._peers.node
            rows = await self._peers.call(node, "begun", view.key) if node and is_other else []
            attempts = [ActiveAttempt(*row) for row in rows]
        except (SagasError, TypeError):  # it does not answer, or is of another release
            attempts = []
        if len(self._peer_attempts) >= MAX_THERE:
            self._peer_attempts.clear()
        self._peer_attempts[view.key] = time.monotonic() + PEER_ANSWER_KEPT, attempts
        return attempts

    def pauses_of(self, principal: Principal) -> list[Pause]:
        """Return the pauses that this node obeys, and that a principal may see."""
        try:
            pauses = self.store._pauses
        except Closed:
            return []
        return [pause for pause in pauses if pause.saga is None or principal.sees(pause.saga)]

    async def queues(self, principal: Principal) -> list[Queue]:
        """Return the queues of all nodes that a principal may see.

        They count the tasks of all keys, so a principal that is restricted to keys sees none.
        """
        if principal.scope.keys is not None:
            return []
        all_queues = await self.store.workers.queues()
        return [
            queue
            for queue in all_queues
            if principal.does(
                f"{queue.saga}/{queue.step}{'/undo' if queue.undo else ''}", self.ended_definitions
            )
        ]

    async def seen(self, principal: Principal) -> list[Seen]:
        """Return the workers that polled recently, at any node, the latest first.

        Each has only the steps that the principal may see.
        """
        replies = await self._peers.call_all("workers") if self._peers else []
        others = [Seen(*worker) for reply in replies for worker in reply]
        latest: dict[str, Seen] = {}
        for worker in sorted([*self.workers.values(), *others], key=lambda worker: worker.at):
            steps = (
                worker.steps
                if principal.definitions is None
                else [step for step in worker.steps if principal.does(step, self.ended_definitions)]
            )
            latest.pop(worker.name, None)
            if steps:
                latest[worker.name] = Seen(worker.name, worker.at, steps)
        return list(reversed(latest.values()))

    # -- what is whose to see

    async def check_sees(self, principal: Principal, key: str) -> None:
        """Raise `NoSuchSaga` if a principal may not see a saga.

        The message is the same as for a key that no saga has.
        """
        if not principal.scope.has_key(key):
            raise NoSuchSaga(f"no saga has the key {key!r}")
        if principal.definitions is not None:
            row = await self.look(one_saga.find(key))
            if row is None or not principal.scope.has_saga(row.saga, key):
                raise NoSuchSaga(f"no saga has the key {key!r}")

    async def is_approval(self, key: str, step: str) -> bool:
        """Return whether a saga's step is an approval.

        Raises `NoSuchSaga`, and `DefinitionError` if this service does not have its definition.
        """

        def question() -> Question[bool]:
            row = yield from one_saga.there(key)
            text = yield from one_saga.definition(row.id)
            return step in self.approvals(row.saga, text)

        return await self.look(question())

    def approvals(self, name: str, definition: str) -> set[str]:
        """Return the approval steps of a saga's definition.

        Raises `DefinitionError` if this service does not have it.
        """
        for saga in self.settings.sagas:
            if (saga.name, saga.version) == (name, version_of(definition)):
                return declared_steps.approvals(saga, definition)
        raise DefinitionError(
            f"this service does not have the definition {name!r} of version "
            f"{version_of(definition)}, so it does not know which steps are approvals"
        )

    async def start(
        self,
        principal: Principal,
        size: int,
        saga: Saga[Any],
        key: str,
        input: Any,
        labels: Labels | None = None,
        deadline: float | None = None,
        traceparent: str | None = None,
    ) -> Run:
        """Start a saga. `size` is the number of bytes that the client sent.

        Raises:
            StoreUnavailable: The store does not confirm the start in time.
            KeyConflict: The key has another saga. Its details are hidden from principals that
                may not see it.
            Problem: The token has too many open sagas.
        """
        return await self._started(
            principal,
            size,
            key,
            lambda token: self.store._start(token, saga, key, input, labels, deadline, traceparent),
        )

    async def restart(
        self, principal: Principal, key: str, new_key: str, by: Requester, note: str | None
    ) -> tuple[Saga[Any], Run]:
        """Start an ended saga again, under a new key. Return its definition and the new saga.

        Raises `NoSuchSaga`, `NotRestartable`, and the errors of `start`.
        """
        await self.check_sees(principal, key)
        row, phase, version = await self.look(one_saga.to_restart(key))
        check_restartable(key, phase)
        saga = self.saga_named(principal, row.saga, version)
        there = await self.service_of(new_key)
        run = await there._started(
            principal,
            len(row.input),
            new_key,
            lambda token: self.store._restart(token, key, new_key, by, note),
        )
        return saga, run

    async def _started(
        self,
        principal: Principal,
        size: int,
        key: str,
        work: Callable[[str | None], Awaitable[Run]],
    ) -> Run:
        """Start a saga within the quota of a token. See `start`.

        `work` starts it, given the name of the token or None.
        """
        token = None if self.tokens is None else principal.name
        pending = token and await self.quotas.take(principal, size, lambda: self._is_there(key))
        is_new = False
        try:
            async with asyncio.timeout(self.settings.patience):
                run = await work(token)
            is_new = run.new
            self.store._replies(key)
            return run
        except TimeoutError:
            raise StoreUnavailable(
                f"the store has not confirmed the start of {key!r} within "
                f"{self.settings.patience:g} s, and may still store it. Retry the same request"
            ) from None
        except KeyConflict:
            if principal.definitions is None:
                raise
            try:
                await self.check_sees(principal, key)
            except NoSuchSaga:
                raise KeyConflict(
                    f"the key {key!r} belongs to another saga: use another key"
                ) from None
            raise
        finally:
            if pending:
                self.quotas.done(pending, is_new)

    async def version_of(self, key: str, default: int) -> int:
        """Return the version of a stored saga; `default` if it was deleted concurrently."""
        version = await self.look(one_saga.version(key))
        return default if version is None else version

    async def _is_there(self, key: str) -> bool:
        return await self.look(one_saga.find(key)) is not None

    # -- names

    def is_page(self, address: str, principal: Principal) -> bool:
        """Return whether an address is a page of the dashboard that a principal may open."""
        path = address.partition("#")[0].partition("?")[0]
        if not address.isascii() or not address.isprintable() or "\\" in address:
            return False
        name = parted(path.encode())
        return name is not None and any(
            page.fullmatch(name) and self.may_open(principal, path)
            for path, page in self.pages.items()
        )

    def may_open(self, principal: Principal, path: str, method: str = "GET") -> bool:
        """Return whether a principal may open a page or send a form, given its route."""
        permission = self.page_permissions[method, path]
        return permission is None or principal.has_permission(permission)

    def saga_named(self, principal: Principal, name: str, version: int | None) -> Saga[Any]:
        """Return the definition with a name; without a version, the newest one.

        Raises `DefinitionError`, which lists the definitions that the principal may see.
        """
        matches = [
            saga
            for saga in self.settings.sagas
            if saga.name == name and version in (None, saga.version)
        ]
        if not matches:
            names = ", ".join(self.names(principal))
            of_version = "" if version is None else f" of version {version}"
            raise DefinitionError(
                f"the service has no definition {name!r}{of_version}. "
                f"It has: {names[:400] or 'none'}"
            )
        return max(matches, key=lambda saga: saga.version)

    def names(self, principal: Principal) -> list[str]:
        """Return the definitions that a principal may see."""
        return sorted({saga.name for saga in self.settings.sagas if principal.sees(saga.name)})

    def task_names(self) -> set[str]:
        """Return the names of all tasks that workers may claim."""
        return self._task_names

    @functools.cached_property
    def _task_names(self) -> set[str]:
        result = set()
        for saga in self.settings.sagas:
            for name, step in saga.declared_steps:
                result.add(f"{saga.name}/{name}")
                if step.has_compensation:
                    result.add(f"{saga.name}/{name}/undo")
            if saga.end_saga is not None:
                result |= {f"{saga.end_saga.name}/{step.name}" for step in saga.end_saga.steps}
        return result

    @functools.cached_property
    def ended_definitions(self) -> dict[str, str]:
        """The definitions with an `on_end` function, by the names of those that call it."""
        sagas = self.settings.sagas
        return {saga.end_saga.name: saga.name for saga in sagas if saga.end_saga is not None}

    def saw(self, worker: str, steps: list[str]) -> None:
        """Record that a worker polled for tasks."""
        self.workers.pop(worker, None)
        self.workers[worker] = Seen(worker, time.time(), steps)
        if len(self.workers) > MAX_WORKERS:
            self.workers.popitem(last=False)

    def request(self, scope: Any, status: int, seconds: float) -> None:
        """Count and log a finished request."""
        path = scope["path"].replace(SLASH, "%2F")
        waits = path.endswith(("/wait", "/claim", "/events"))
        self.metrics.request(scope["method"], status, seconds, waits)
        level = level_of(scope["method"], path, status)
        if http.isEnabledFor(level):
            fields = {
                "method": scope["method"],
                "path": path,
                "status": status,
                "ms": round(seconds * 1000, 1),
                "from": (scope.get("client") or ["?"])[0],
                "request_id": scope[REQUEST_ID],
            }
            if "sagas.who" in scope:
                fields["who"] = scope["sagas.who"]
            http.log(level, "%s %s %d", scope["method"], path, status, extra={"sagas": fields})


def level_of(method: str, path: str, status: int) -> int:
    """Return the level of a finished request in the log.

    Requests that change no saga are many: reads, and claims and heartbeats of workers. They are
    logged if they fail.
    """
    if status >= 500:
        return logging.ERROR
    is_read = method in ("GET", "HEAD", "OPTIONS") or path.endswith(FREQUENT)
    return logging.DEBUG if is_read and 0 < status < 400 else logging.INFO


def event_fields(event: Event) -> dict[str, Any]:
    """Return an event as it is sent to other services."""
    fields = {name: getattr(event, name) for name in EVENT_FIELDS}
    fields = {name: value for name, value in fields.items() if value is not None}
    if event.detail is not None:
        fields["detail"] = event.detail[:MAX_DETAIL]
    return fields
