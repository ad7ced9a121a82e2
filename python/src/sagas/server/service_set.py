"""The service of a store over several databases: a service of each, at one address.

A call with a key is carried out by the service of its database. Other calls, and pages of the
dashboard, read all databases: see `database_reads.py` and `routes/merged.py`.
"""

from __future__ import annotations

import asyncio
import dataclasses
import functools
import logging
from collections.abc import Awaitable, Callable, Iterable, Iterator, Sequence
from typing import TYPE_CHECKING, Any, TypeVar, cast

from prometheus_client.core import GaugeMetricFamily, Metric
from starlette.requests import Request

from sagas.api.store_set import StoreSet
from sagas.base.errors import StoreUnavailable
from sagas.core.pauses import Pause
from sagas.inspection.question import Question
from sagas.server import metric_sums
from sagas.server.auth import Principal
from sagas.server.explanations import Explanations
from sagas.server.figures import Counts, Figures, summed
from sagas.server.metrics import PROCESSES, Metrics, dump_of, metric_of, of_processes, text_of
from sagas.server.middleware import SERVICE
from sagas.server.operations import Call, Operation
from sagas.server.problems import Problem
from sagas.server.service import Seen, Service, Shared
from sagas.server.settings import Settings, StoreSettings
from sagas.server.shown_fields import NO_DETAILS, Details, ShownFields
from sagas.server.siblings import ProcessQuestion
from sagas.storage.filters import Scope
from sagas.storage.store_name import urls_of

if TYPE_CHECKING:
    from starlette.responses import Response

    from sagas.api.database_set import DatabaseSet
    from sagas.api.run import Run
    from sagas.api.store import Store
    from sagas.definition.saga import Saga
    from sagas.inspection.attention_pages import Entry

T = TypeVar("T")
logger = logging.getLogger("sagas.server")
NO_ANSWER = "the database does not answer"
NOT_NAMED = "the service was started without this database"
UNAVAILABLE = (
    "{subject} cannot be read or written at the moment. Retry the same request later; the log of "
    "the service has the cause"
)
OF_PROCESS = ("process_", "sagas_start_time", "sagas_build")
"""The beginnings of the names of metrics that a process has once."""


def settings_of_each(settings: Settings) -> Iterator[Settings]:
    """Yield the settings of the service of each database."""
    urls, options = urls_of(settings.path), settings.store.options
    direct = options.get("direct_url")
    servers: list[str | None] = [None] * len(urls)
    if direct:  # a store of `--app` may have a list
        servers = [*urls_of(direct)] if isinstance(direct, str) else [*direct]
    for number, (url, server) in enumerate(zip(urls, servers), 1):
        more: dict[str, Any] = {"direct_url": server} if server else {}
        if options.get("record") is not None:
            more["record"] = f"{options['record']}.{number}"
        store = StoreSettings({**options, **more}, settings.store.on_event)
        yield dataclasses.replace(settings, path=url, store=store)


class ServiceSet(Service):
    """The services of all databases of a store. Each is a `Service`, and they share a hub, tokens,
    sessions and limits.
    """

    def __init__(self, settings: Settings) -> None:
        self.settings = settings
        shared = Shared(settings)
        self.share(shared)
        self.members = [Service(each, shared) for each in settings_of_each(settings)]
        stores = [member.store for member in self.members]
        direct = [member.settings.store.options.get("direct_url") for member in self.members]
        self.store = self._stores = StoreSet.over(urls_of(settings.path), stores, direct)
        self._of_store: dict[Store, Service] = dict(zip(stores, self.members))
        self.member_set.enter = lambda store: self._of_store[store].begin()
        self.member_set.leave = lambda store: self._of_store[store].end()
        self.metrics = cast(Metrics, MetricSet(self))
        self.figures = cast(Figures, FigureSet(self))
        self.shown_fields = cast(ShownFields, ShownFieldSet(self))
        self.explanations = Explanations()
        if settings.siblings:
            settings.siblings.answers[ProcessQuestion.METRICS] = lambda _: self.metrics.dump()
            settings.siblings.answers[ProcessQuestion.END_CLAIMS] = self.claims.end
        shared.group = self

    @property
    def member_set(self) -> DatabaseSet[Store]:
        """The databases."""
        return self._stores._set

    # -- life

    def prepare(self) -> None:
        """See `Service.prepare`."""
        super().prepare()
        for member in self.members:
            member.stopping = self.stopping
            member.pages, member.page_permissions = self.pages, self.page_permissions

    async def begin(self) -> None:
        """Open each database that answers. Raises the errors of `StoreSet`."""
        await self._stores.__aenter__()
        self.threads = self.front.threads

    async def end(self) -> None:
        """Close the store."""
        self.stop()
        await self._stores.close()
        self.explanations.close()

    async def reach(self) -> None:
        """Do nothing: `begin` finds out which databases answer."""

    @property
    def front(self) -> Service:
        """The service of a database that is open, for what concerns no database."""
        return self._of_store[self.member_set.opened()[0]]

    def ready(self) -> str | None:
        """Return None if it accepts requests for one database or more, else the reason why not."""
        if self.stopping.done():
            return "the service is stopping"
        reasons = [self._of_store[store].ready() for store in self.member_set.in_use()]
        return None if None in reasons else "no database of the store can be used"

    @property
    def unavailable(self) -> dict[str, str] | None:
        """Why each database that cannot be used cannot be used, by its number in the store."""
        if not self.member_set.is_open:
            return {}
        in_use = self.member_set.in_use()
        faults = {
            store: NO_ANSWER if store not in in_use else self._of_store[store].ready()
            for store in self.member_set.members
        }
        numbers = enumerate(self.member_set.members, 1)
        missing = {str(number): faults[store] for number, store in numbers}
        count = self.member_set.map.count
        unknown = range(len(self.members) + 1, count + 1)
        return {number: fault for number, fault in missing.items() if fault is not None} | {
            str(number): NOT_NAMED for number in unknown
        }

    def numbered(self, missing: Iterable[str]) -> dict[str, str]:
        """Return why databases are missing, by their numbers, for answers.

        The names and the reasons are for the log: callers learn nothing of the servers.
        """
        names = self.member_set.all_names
        numbers = sorted(names.index(name) + 1 for name in missing)
        return {
            str(number): NO_ANSWER if number <= len(self.members) else NOT_NAMED
            for number in numbers
        }

    def refused(self, missing: Iterable[str]) -> Problem:
        """Return the problem of a call that needs databases which do not answer."""
        return _unavailable(self.numbered(missing))

    def check_complete(self) -> None:
        """See `Service.check_complete`."""
        if missing := self.unavailable:
            raise _unavailable(missing)

    def pauses_of(self, principal: Principal) -> list[Pause]:
        """See `Service.pauses_of`. A pause is in all databases."""
        return self.front.pauses_of(principal)

    @functools.cached_property
    def _task_names(self) -> set[str]:
        return self.members[0].task_names()

    @functools.cached_property
    def ended_definitions(self) -> dict[str, str]:
        """See `Service.ended_definitions`."""
        return self.members[0].ended_definitions

    # -- calls

    async def look(self, question: Question[T]) -> T:
        """Refuse to ask one of the databases. See `each`, and `database_reads.py`."""
        raise TypeError("a store over several databases has no single one to ask")

    async def each(
        self, work: Callable[[Service, int], Awaitable[T]]
    ) -> tuple[dict[int, T], dict[str, str]]:
        """See `Service.each`. Raises `Problem` if no database answers."""
        parts, missing = await self.member_set.each(
            lambda store, index: work(self.chosen(store), index)
        )
        if not parts:
            raise self.refused(missing)
        return parts, self.numbered(missing)

    @property
    def in_use(self) -> list[Service]:
        """See `Service.in_use`."""
        return [self.chosen(store) for store in self.member_set.in_use()]

    @property
    def database_count(self) -> int:
        """See `Service.database_count`."""
        return len(self.members)

    async def service_of(self, key: str) -> Service:
        """See `Service.service_of`. Raises `StoreUnavailable`."""
        return self.chosen(await self.member_set.of(key))

    async def carry_out(self, operation: Operation, call: Call) -> Response:
        """Return the answer to a call: of one database, or of all of them."""
        from sagas.server.routes import merged

        if "key" in call.path:
            return await self.of_key(operation, call, call.key)
        try:
            if (work := merged.MERGED.get(operation.name)) is not None:
                return await work(self, operation, call)
            return await operation.handler(call)
        except StoreUnavailable as error:
            logger.info("%s: %s", operation.name or operation.path, error)
            raise self.refused(self.member_set.unavailable) from error

    async def of_key(self, operation: Operation, call: Call, key: str) -> Response:
        """Return the answer of the database that has a key. See `DatabaseSet.call`."""
        try:
            return await self.member_set.call(
                key, lambda store: operation.handler(of_service(call, self.chosen(store)))
            )
        except StoreUnavailable as error:
            logger.info("%s: %s", operation.name or operation.path, error)
            raise self.refused(self._of(key)) from error

    def _of(self, key: str) -> list[str]:
        """Return the names of the databases that may have a key."""
        names = self.member_set.all_names
        return [names[position] for position in self.member_set.map.positions(key)]

    async def start(
        self, principal: Principal, size: int, saga: Saga[Any], key: str, *options: Any
    ) -> Run:
        """Start a saga in the database of its key. See `Service.start`."""
        return await self.member_set.call(
            key, lambda store: self.chosen(store).start(principal, size, saga, key, *options)
        )

    def chosen(self, store: Store) -> Service:
        """Return the service of a database."""
        return self._of_store[store]

    async def seen(self, principal: Principal) -> list[Seen]:
        """See `Service.seen`."""
        parts, _ = await self.each(lambda service, _: service.seen(principal))
        latest: dict[str, Seen] = {}
        for worker in sorted((row for part in parts.values() for row in part), key=seen_at):
            latest[worker.name] = worker
        return sorted(latest.values(), key=seen_at, reverse=True)


def _unavailable(numbers: Iterable[str]) -> Problem:
    """Return the problem of a call that needs databases with these numbers."""
    text = ", ".join(numbers)
    subject = f"database {text} of the store" if text else "the store"
    return Problem("StoreUnavailable", UNAVAILABLE.format(subject=subject))


def seen_at(worker: Seen) -> float:
    """Return when a worker polled last."""
    return worker.at


def of_service(call: Call, service: Service) -> Call:
    """Return a call of another service."""
    scope = dict(call.request.scope)
    scope[SERVICE] = service
    return dataclasses.replace(call, request=Request(scope, call.request.receive))


class FigureSet:
    """The sums of the figures of all databases that answer. See `Figures`."""

    def __init__(self, services: ServiceSet) -> None:
        self._services = services

    async def of(self, scope: Scope) -> Counts:
        """Return the figures of a scope."""
        parts, _ = await self._services.each(lambda service, _: service.figures.of(scope))
        return summed([*parts.values()])

    def lag(self, scope: Scope) -> float | None:
        """Return the seconds until the last of them is counted again; None if all are current."""
        lags = [service.figures.lag(scope) for service in self._services.in_use]
        return max((lag for lag in lags if lag is not None), default=None)

    def forget(self) -> None:
        """Drop all figures."""
        for service in self._services.members:
            service.figures.forget()


class ShownFieldSet:
    """What the inputs of sagas show, in the databases that have them. See `ShownFields`."""

    def __init__(self, services: ServiceSet) -> None:
        self._services = services

    async def of(self, entries: Sequence[Entry], with_labels: bool = False) -> list[Details]:
        """Return the details of entries, in their order. See `ShownFields.of`.

        Raises:
            StoreUnavailable: A database of the entries does not answer.
        """
        result = [NO_DETAILS] * len(entries)

        async def fill(database: int) -> None:
            numbers = [number for number, row in enumerate(entries) if row.database == database]
            service = self._services.chosen(self._services.member_set.used(database))
            rows = [entries[number] for number in numbers]
            for number, details in zip(numbers, await service.shown_fields.of(rows, with_labels)):
                result[number] = details

        await asyncio.gather(*map(fill, {entry.database for entry in entries}))
        return result


class MetricSet:
    """The metrics of all databases."""

    def __init__(self, services: ServiceSet) -> None:
        self._services = services
        self.request = services.members[0].metrics.request
        self.durations = services.shared.durations

    def _opened(self) -> list[Service]:
        services = self._services
        return [services.chosen(store) for store in services.member_set.opened()]

    def dump(self) -> list[Any]:
        """Return what this process counts, as JSON."""
        dumps = [dump_of(member.metrics.of_process()) for member in self._opened()]
        first, *others = dumps or [[]]
        rest = [[family for family in dump if not _is_of_process(family[0])] for dump in others]
        return metric_sums.dumped(metric_sums.summed([first, *rest]))

    async def text(self) -> bytes:
        """Return all metrics in Prometheus's text format. Gauges are sums over the databases."""
        services = self._services
        stores = await asyncio.gather(
            *(services.chosen(store).metrics.of_store() for store in services.member_set.in_use())
        )
        number, counted = 1, [metric_of(*family) for family in self.dump()]
        if services.settings.siblings:
            number, counted = await of_processes(services.settings.siblings)
        counted.append(GaugeMetricFamily("sagas_processes", PROCESSES, number))
        dumps = [dump_of(metrics) for metrics in stores]
        summed = metric_sums.dumped(metric_sums.summed(dumps))
        of_stores = [metric_of(*family) for family in summed if family[0] != "sagas_store_up"]
        return text_of([*counted, *of_stores, *self._of_databases()])

    def _of_databases(self) -> Iterator[Metric]:
        missing = self._services.unavailable or {}
        up = "Whether all databases of the store answered; if not, gauges have those that did"
        yield GaugeMetricFamily("sagas_store_up", up, int(not missing))
        each = GaugeMetricFamily(
            "sagas_database_up", "Whether a database of the store can be used", labels=["database"]
        )
        for number in range(1, self._services.member_set.map.count + 1):
            each.add_metric([str(number)], int(str(number) not in missing))
        yield each
        generation = self._services.member_set.map.generation
        yield GaugeMetricFamily("sagas_generation", "The generation of the map", generation)


def _is_of_process(name: str) -> bool:
    return name.startswith(OF_PROCESS)
