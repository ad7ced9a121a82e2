"""The gauges of the store, which are read when metrics are requested."""

from __future__ import annotations

import asyncio
import dataclasses
import logging
from collections.abc import Callable, Iterable, Iterator
from typing import TYPE_CHECKING

from prometheus_client.core import GaugeMetricFamily, Metric

from sagas.base.errors import SagasError
from sagas.core.pauses import Pause
from sagas.inspection import store_figures
from sagas.inspection.store_figures import REASONS, AttentionFigures, NodeFigures
from sagas.runtime.leased_tasks import Queue
from sagas.server.figures import Phases
from sagas.storage import store_name
from sagas.storage.filters import EVERYTHING

if TYPE_CHECKING:
    from sagas.server.service import Service

STORE_TIME = 5.0
"""Seconds for which the store may take. The default of Prometheus is to wait for 10 seconds."""
logger = logging.getLogger("sagas.server")


@dataclasses.dataclass(frozen=True, slots=True)
class StoreGauges:
    """What the store answered."""

    phases: Phases
    attention: AttentionFigures
    queues: list[Queue]
    nodes: NodeFigures


async def read(service: Service) -> StoreGauges | None:
    """Read the gauges; None if the store does not answer in time."""
    try:
        async with asyncio.timeout(STORE_TIME):
            supports_nodes = store_name.supports_nodes(service.settings.path)
            nodes = await service.look(store_figures.nodes(supports_nodes))
            queues = await service.store.workers.queues()
            figures = await service.figures.current(EVERYTHING)
            return StoreGauges(figures.phases, figures.attention, queues, nodes)
    except (SagasError, TimeoutError) as error:
        logger.debug("metrics without those of the store: %s", type(error).__name__)
        return None


def families(gauges: StoreGauges, sagas: Iterable[str], now: float) -> Iterator[Metric]:
    """Yield the metrics of what the store answered. `sagas`: the definitions of the service."""
    current = GaugeMetricFamily(
        "sagas_current", "Sagas, by definition and phase", labels=["saga", "phase"]
    )
    for saga, phases in gauges.phases.items():
        for phase, count in phases.items():
            current.add_metric([saga, phase], count)
    yield current
    yield from _attention(gauges.attention, sagas, now)
    yield from _queues(gauges.queues, now)
    yield GaugeMetricFamily("sagas_nodes", "Nodes of the store", gauges.nodes.nodes)
    yield GaugeMetricFamily(
        "sagas_shards_without_node",
        "Shards with open sagas that no node has",
        gauges.nodes.shards_without_node,
    )
    yield GaugeMetricFamily(
        "sagas_nodes_drained", "Nodes that run and are drained", gauges.nodes.drained
    )


def paused(pauses: Iterable[Pause]) -> Metric:
    """Return the metric of the pauses."""
    gauge = GaugeMetricFamily(
        "sagas_paused",
        "Pauses, by definition, step and queue; without any of them, everything is paused",
        labels=["saga", "step", "queue"],
    )
    for pause in pauses:
        gauge.add_metric([pause.saga or "", pause.step or "", pause.queue or ""], 1)
    return gauge


def _attention(figures: AttentionFigures, sagas: Iterable[str], now: float) -> Iterator[Metric]:
    needed = GaugeMetricFamily(
        "sagas_attention_required",
        "What requires an operator, by definition and reason",
        labels=["saga", "reason"],
    )
    oldest = GaugeMetricFamily(
        "sagas_attention_oldest_seconds",
        "Seconds for which the oldest of them has required an operator",
        labels=["saga", "reason"],
    )
    counts = {(saga, reason): 0 for saga in sagas for reason in REASONS}
    counts |= {labels: figure.number for labels, figure in figures.items()}
    for labels, count in counts.items():
        needed.add_metric([*labels], count)
    for labels, figure in figures.items():
        oldest.add_metric([*labels], max(0.0, now - figure.since))
    yield needed
    yield oldest


def _queues(queues: list[Queue], now: float) -> Iterator[Metric]:
    """Yield the metrics of tasks that wait for workers."""
    metrics: list[tuple[str, str, Callable[[Queue], float]]] = [
        ("sagas_tasks_ready", "Tasks that wait for a worker", lambda queue: queue.ready),
        ("sagas_tasks_claimed", "Tasks that workers have claimed", lambda queue: queue.claimed),
        (
            "sagas_tasks_oldest_seconds",
            "Seconds for which the oldest task has waited for a worker",
            lambda queue: now - queue.oldest if queue.oldest else 0.0,
        ),
    ]
    for name, description, value in metrics:
        family = GaugeMetricFamily(name, description, labels=["saga", "step", "action"])
        for queue in queues:
            family.add_metric(
                [queue.saga, queue.step, "undo" if queue.undo else "run"], max(0.0, value(queue))
            )
        yield family
