"""Prometheus metrics, and durations of the latest attempts."""

from __future__ import annotations

import functools
import importlib
import itertools
import math
import platform
import time
from collections import OrderedDict, deque
from collections.abc import Callable, Iterable, Iterator, Sequence
from typing import TYPE_CHECKING, Any, Optional, Union

from prometheus_client import CollectorRegistry, Counter, Gauge, Histogram, ProcessCollector
from prometheus_client.core import CounterMetricFamily, GaugeMetricFamily, Metric
from prometheus_client.exposition import CONTENT_TYPE_LATEST, generate_latest

from sagas.base.events import Event
from sagas.core.states import SagaPhase
from sagas.definition import undo_sagas
from sagas.definition.saga import Saga
from sagas.server import gauges as store_gauges
from sagas.server.gauges import StoreGauges
from sagas.server.problems import Problem
from sagas.server.siblings import ProcessQuestion, Siblings
from sagas.storage.webhook_deliveries import DeliveryState

if TYPE_CHECKING:
    from sagas.server.service import Service

KEPT_DURATIONS, MAX_STEPS = 500, 5000
MeasuredStep = tuple[str, str, bool]
"""A saga's name, a step's name, and whether it is the compensation."""


class Durations:
    """The latest durations of each step."""

    def __init__(self) -> None:
        self._durations: OrderedDict[MeasuredStep, deque[float]] = OrderedDict()

    def add(self, step: MeasuredStep, seconds: float) -> None:
        """Record the duration of an attempt."""
        if step not in self._durations and len(self._durations) >= MAX_STEPS:
            self._durations.popitem(last=False)
        self._durations.setdefault(step, deque(maxlen=KEPT_DURATIONS)).append(seconds)

    def of(self, step: MeasuredStep) -> tuple[int, float, float] | None:
        """Return the number of durations, their median and their 95th percentile, or None."""
        durations = sorted(self._durations.get(step, ()))
        if not durations:
            return None
        return (
            len(durations),
            durations[(len(durations) - 1) // 2],
            durations[math.ceil(0.95 * len(durations)) - 1],
        )


CALL_SECONDS = (0.01, 0.1, 1, 10, 60, 600, 3600)
SAGA_SECONDS = (0.1, 1, 10, 60, 600, 3600, 86400)
REQUEST_SECONDS = (0.005, 0.025, 0.1, 0.25, 1, 5, 30)
"""The upper bounds of histograms in seconds. With that without a bound, each has eight buckets."""
POST_OUTCOMES = {
    DeliveryState.DELIVERED: "delivered",
    DeliveryState.PENDING: "retrying",
    DeliveryState.FAILED: "failed",
}
"""What became of a delivery after a post."""
OUTCOMES = {
    "step_succeeded": "succeeded",
    "step_retrying": "retrying",
    "step_failed": "failed",
    "step_unknown": "unknown",
    "step_exhausted": "exhausted",
    "step_cannot_decode": "cannot_decode",
    "step_program_error": "program_error",
}
ENDS = (SagaPhase.COMPLETED.value, SagaPhase.RECOVERED.value, SagaPhase.STUCK.value)
"""How a saga may end, or get stuck."""
INTERNAL_ERRORS = (
    "engine_died",
    "shard_damaged",
    "commit_failed",
    "audit_failed",
    "lease_expired",
    "shard_lost",
)
TYPE = CONTENT_TYPE_LATEST
PROCESSES = "Processes of this service that answered"
MAX_BEGUN = 100_000
"""Maximum number of attempts whose start time is remembered."""
Begun = tuple[Optional[str], Optional[str], Union[int, str, None], bool, Optional[int]]
"""key, step, index, undo, attempt"""


def _attempt(event: Event) -> Begun:
    """Return the attempt that an event belongs to."""
    return event.key, event.step, event.index, event.undo, event.attempt


class Metrics:
    """Counts the events of a store. Gauges are read from the store when metrics are requested.

    Counters of a closed set begin at 0: Prometheus does not see an increase in the first value of a
    new series.
    """

    def __init__(
        self,
        service: Service,
        sagas: Iterable[Saga[Any]] = (),
        durations: Durations | None = None,
    ) -> None:
        self.registry = CollectorRegistry()
        self._service = service
        declared = {(saga.name, saga.version): saga for saga in sagas}
        self._sagas = [*undo_sagas.with_undo_sagas(declared).values()]
        self._names = sorted({saga.name for saga in self._sagas})
        self.durations = durations or Durations()
        self._began: OrderedDict[Begun, float] = OrderedDict()
        self.started = self._counter("sagas_started", "Sagas that were started", "saga")
        self.ended = self._counter("sagas_ended", "Sagas that ended, by phase", "saga", "phase")
        self.aborted = self._counter("sagas_aborted", "Sagas that were aborted", "saga")
        self.plans = self._counter("sagas_plans", "Plans that were adopted", "saga")
        self.steps = self._counter(
            "sagas_steps",
            "Outcomes of attempts; another attempt follows `retrying`",
            "saga",
            "step",
            "action",
            "outcome",
        )
        self.posts = self._counter(
            "sagas_webhook_posts",
            "Posts to webhooks, by what became of the delivery",
            "webhook",
            "outcome",
        )
        self.internal_errors = self._counter(
            "sagas_internal_errors",
            f"Internal errors: {', '.join(INTERNAL_ERRORS)}",
            "kind",
        )
        self.shards_taken_over = Counter(
            "sagas_shards_taken_over",
            "Shards of other nodes that this one took over",
            registry=self.registry,
        )
        self.requests = self._counter(
            "sagas_http_requests", "Requests, by method and status", "method", "status"
        )
        self._make_histograms()
        self._describe_process()
        self._begin_counters()

    def _make_histograms(self) -> None:
        self.saga_seconds = self._histogram(
            "sagas_seconds", "Seconds from a saga's start to its end", SAGA_SECONDS, "saga", "phase"
        )
        self.step_seconds = self._histogram(
            "sagas_step_seconds",
            "Seconds from the start of an attempt to its report",
            CALL_SECONDS,
            "saga",
            "action",
        )
        self.task_wait_seconds = self._histogram(
            "sagas_task_wait_seconds",
            "Seconds for which a task waited until a worker claimed it",
            CALL_SECONDS,
            "saga",
        )
        self.request_seconds = self._histogram(
            "sagas_http_request_seconds",
            "Seconds of requests; long waits are counted separately",
            REQUEST_SECONDS,
            "waits",
        )

    def _describe_process(self) -> None:
        self.up = Gauge(
            "sagas_start_time_seconds", "When this service was started", registry=self.registry
        )
        self.up.set(time.time())
        labels = {
            "version": importlib.import_module("sagas").__version__,
            "python": platform.python_version(),
        }
        build = Gauge(
            "sagas_build_info", "Versions of the program", [*labels], registry=self.registry
        )
        build.labels(**labels).set(1)
        ProcessCollector(registry=self.registry)

    def _begin_counters(self) -> None:
        """Make the series of each definition, step and error with the value 0."""
        for kind in INTERNAL_ERRORS:
            self.internal_errors(kind)
        for method, status in itertools.product(("GET", "POST"), ("500", "503")):
            self.requests(method, status)
        for saga in self._sagas:
            for counter in (self.started, self.aborted, self.plans):
                counter(saga.name)
            for phase in ENDS:
                self.ended(saga.name, phase)
            for name, step in saga.declared_steps:
                for action in ("run", "undo") if step.has_compensation else ("run",):
                    for outcome in OUTCOMES.values():
                        self.steps(saga.name, name, action, outcome)

    def _counter(self, name: str, description: str, *labels: str) -> Callable[..., Counter]:
        """Return a counter's children by their labels, cached."""
        return functools.cache(Counter(name, description, labels, registry=self.registry).labels)

    def _histogram(
        self, name: str, description: str, bounds: Sequence[float], *labels: str
    ) -> Callable[..., Histogram]:
        """Return a histogram's children by their labels, cached."""
        histogram = Histogram(name, description, labels, buckets=bounds, registry=self.registry)
        return functools.cache(histogram.labels)

    def begin_webhooks(self, names: Iterable[str]) -> None:
        """Make the series of webhooks with the value 0."""
        for name, outcome in itertools.product(names, POST_OUTCOMES.values()):
            self.posts(name, outcome)

    def posted(self, webhook: str, state: DeliveryState) -> None:
        """Count a post to a webhook, and what became of the delivery."""
        self.posts(webhook, POST_OUTCOMES[state]).inc()

    def claimed(self, saga: str, seconds: float) -> None:
        """Count a task that a worker has claimed, by the time for which it waited."""
        self.task_wait_seconds(saga).observe(max(0.0, seconds))

    def event(self, event: Event) -> None:
        """Count an event."""
        saga, outcome = event.saga or "", OUTCOMES.get(event.name)
        if event.name == "saga_started":
            self.started(saga).inc()
        elif event.name in ("saga_ended", "saga_stuck"):
            phase = "stuck" if event.name == "saga_stuck" else event.detail or ""
            self.ended(saga, phase).inc()
            self.saga_seconds(saga, phase).observe(event.seconds or 0.0)
        elif event.name == "saga_aborted":
            self.aborted(saga).inc()
        elif event.name == "plan_adopted":
            self.plans(saga).inc()
        elif event.name in INTERNAL_ERRORS:
            self.internal_errors(event.name).inc()
        elif event.name == "shard_taken":
            self.shards_taken_over.inc()
        elif event.name == "step_started":
            self._began[_attempt(event)] = event.at
            if len(self._began) > MAX_BEGUN:  # the first of them may have ended at other nodes
                self._began.popitem(last=False)
        elif outcome:
            kind = "undo" if event.undo else "run"
            self.steps(saga, event.step, kind, outcome).inc()
            began = self._began.pop(_attempt(event), None)
            if began is not None:
                seconds = max(0.0, event.at - began)
                self.step_seconds(saga, kind).observe(seconds)
                self.durations.add((saga, event.step or "", event.undo), seconds)

    def request(self, method: str, status: int, seconds: float, waits: bool) -> None:
        """Count a finished request."""
        known = method if method in ("GET", "POST", "HEAD") else "other"
        self.requests(known, str(status)).inc()
        self.request_seconds("yes" if waits else "no").observe(seconds)

    async def text(self) -> bytes:
        """Return all metrics in Prometheus's text format.

        If the store does not answer, its gauges are left out.
        """
        of_store = await self.of_store()
        siblings = self._service.settings.siblings
        number, counted = 1, [*self.of_process()]
        if siblings:
            number, counted = await of_processes(siblings)
        counted.append(GaugeMetricFamily("sagas_processes", PROCESSES, number))
        return text_of([*counted, *of_store])

    async def of_store(self) -> list[Metric]:
        """Return the gauges of the store. If it does not answer, most are left out."""
        return [*self._of_store(await store_gauges.read(self._service))]

    def _of_store(self, gauges: StoreGauges | None) -> Iterator[Metric]:
        """Yield the gauges of the store."""
        up = "Whether the store answered; if not, its gauges are left out"
        yield GaugeMetricFamily("sagas_store_up", up, int(gauges is not None))
        if gauges is not None:
            yield from store_gauges.families(gauges, self._names, time.time())
            yield store_gauges.paused(self._service.store._pauses)

    def dump(self) -> list[Any]:
        """Return what this process counts, as JSON."""
        return dump_of(self.of_process())

    def of_process(self) -> Iterator[Metric]:
        """Yield what this process counts."""
        yield from WithoutCreated(self.registry).collect()
        yield CounterMetricFamily(
            "sagas_tasks_reclaimed",
            "Tasks claimed by another worker after their lease expired",
            self._service.store.workers.takeovers,
        )
        yield CounterMetricFamily(
            "sagas_commits", "Transactions of the store", self._service.store._commits
        )
        yield GaugeMetricFamily(
            "sagas_event_streams", "Open event streams", self._service.hub.listeners
        )


async def of_processes(siblings: Siblings) -> tuple[int, list[Metric]]:
    """Return how many processes answered, and what all of the command count.

    Raises `Problem`.
    """
    try:
        number, dump = await siblings.ask(ProcessQuestion.METRICS)
    except TimeoutError:
        raise Problem(
            "Closed",
            "the command that started this process has not answered. It may be stopping; "
            "retry the same request",
        ) from None
    return number, [metric_of(*family) for family in dump]


def text_of(metrics: list[Metric]) -> bytes:
    """Return metrics in Prometheus's text format."""
    return generate_latest(Families(metrics))  # type: ignore[arg-type]


def dump_of(metrics: Iterable[Metric]) -> list[Any]:
    """Return metrics as JSON."""
    return [
        [
            metric.name,
            metric.type,
            metric.documentation,
            [[sample.name, sample.labels, sample.value] for sample in metric.samples],
        ]
        for metric in metrics
    ]


class Families:
    """Metrics that were collected."""

    def __init__(self, metrics: list[Metric]) -> None:
        self._metrics = metrics

    def collect(self) -> list[Metric]:
        return self._metrics


def metric_of(name: str, kind: str, description: str, samples: list[Any]) -> Metric:
    """Return a metric of a dump."""
    metric = Metric(name, description, kind)
    for sample, labels, value in samples:
        metric.add_sample(sample, labels, value)
    return metric


class WithoutCreated:
    """A registry without the series that say when a counter was created."""

    def __init__(self, registry: CollectorRegistry) -> None:
        self._registry = registry

    def collect(self) -> Iterator[Metric]:
        for metric in self._registry.collect():
            metric.samples = [
                sample for sample in metric.samples if not sample.name.endswith("_created")
            ]
            yield metric
