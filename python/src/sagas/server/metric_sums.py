"""Sums of metrics over the processes of a service, as plain JSON."""

from __future__ import annotations

from collections.abc import Iterable
from typing import Any

Sample = tuple[str, dict[str, str], float]
"""A name, labels and a value."""
LOWEST = ("sagas_start_time_seconds", "process_start_time_seconds", "sagas_store_up")
HIGHEST = (
    "sagas_build_info",
    "sagas_attention_oldest_seconds",
    "sagas_tasks_oldest_seconds",
    "sagas_paused",
)
"""Metrics that are not summed."""


class Family:
    """A metric: its type, its description, and its samples by their names and labels."""

    def __init__(self, kind: str, description: str) -> None:
        self.kind, self.description = kind, description
        self.samples: dict[tuple[str, tuple[tuple[str, str], ...]], float] = {}

    def add(self, name: str, labels: dict[str, str], value: float) -> None:
        """Add a sample of one more process."""
        key = name, tuple(sorted(labels.items()))
        before = self.samples.get(key)
        if before is None:
            self.samples[key] = value
        elif name in LOWEST:
            self.samples[key] = min(before, value)
        elif name in HIGHEST:
            self.samples[key] = max(before, value)
        else:
            self.samples[key] = before + value


def summed(dumps: Iterable[Any], *, only_counters: bool = False) -> dict[str, Family]:
    """Return the sums of dumps, by the name of the metric.

    Args:
        dumps: Each is a list of name, type, description and samples.
        only_counters: Leave gauges out, because their process has ended.
    """
    families: dict[str, Family] = {}
    for dump in dumps:
        for name, kind, description, samples in dump:
            if only_counters and kind not in ("counter", "histogram"):
                continue
            family = families.setdefault(name, Family(kind, description))
            for sample in samples:
                family.add(*sample)
    return families


def dumped(families: dict[str, Family]) -> list[Any]:
    """Return sums as a dump."""
    return [
        [
            name,
            family.kind,
            family.description,
            [[sample, dict(labels), value] for (sample, labels), value in family.samples.items()],
        ]
        for name, family in families.items()
    ]
