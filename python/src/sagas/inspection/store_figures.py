"""Figures of a store for metrics: what requires an operator, and the nodes."""

from __future__ import annotations

from typing import NamedTuple

from sagas.inspection.lists import END_FAULT, UNUSED_REPORT
from sagas.inspection.question import Query, Question
from sagas.storage.filters import EVERYTHING, Scope
from sagas.storage.queries import (
    DAMAGED,
    DAMAGED_SINCE,
    NODE_FIGURES,
    NO_NODE,
    PERSON,
    PHASES,
    WITHOUT_NODE_SINCE,
)

REASONS = (
    "stuck",
    "undo_failed",
    "unused_report",
    "unknown",
    "exhausted",
    "cannot_decode",
    "program_error",
    "on_end",
    "no_definition",
    "no_node",
    "approval",
    "damaged",
)
"""Why something requires an operator, for counts."""
HELD = f"""
SELECT s.saga, h.reason, count(*), min(h.since)
FROM suspensions h JOIN sagas s ON s.id = h.id WHERE {PERSON} AND {{0}} GROUP BY 1, 2
"""
OF_PHASE = """
SELECT s.saga, '{1}', count(*), min(s.ended) FROM sagas s WHERE {2} AND {0} GROUP BY 1
"""
UNUSED = f"""
SELECT s.saga, 'unused_report', count(*), min(h.since)
FROM suspensions h JOIN sagas s ON s.id = h.id WHERE {UNUSED_REPORT} AND {{0}} GROUP BY 1
"""
END_FAULTS = f"""
SELECT s.saga, 'on_end', count(*), min(h.since)
FROM suspensions h JOIN sagas s ON s.id = h.id WHERE {END_FAULT} AND {{0}} GROUP BY 1
"""
IN_DAMAGED = f"""
SELECT s.saga, 'damaged', count(*), min({DAMAGED_SINCE}) {DAMAGED} AND {{0}} GROUP BY 1
"""
WITHOUT_NODE = f"""
SELECT s.saga, 'no_node', count(*), min({WITHOUT_NODE_SINCE}) {NO_NODE} AND {{0}} GROUP BY 1
"""
QUERIES = (
    HELD,
    *(OF_PHASE.format("{0}", phase, PHASES[phase]) for phase in ("stuck", "undo_failed")),
    UNUSED,
    END_FAULTS,
    IN_DAMAGED,
    WITHOUT_NODE,
)


class Figure(NamedTuple):
    """How many sagas or attempts require an operator for a reason, and since when the oldest."""

    number: int
    since: float


AttentionFigures = dict[tuple[str, str], Figure]
"""The figures by the name of the definition and the reason. What has none is left out."""


class NodeFigures(NamedTuple):
    """The number of nodes, of shards with open sagas that no node has, and of drained nodes."""

    nodes: int
    shards_without_node: int
    drained: int = 0


def attention(scope: Scope = EVERYTHING) -> Question[AttentionFigures]:
    """Count what requires an operator, by definition and reason."""
    condition, parameters = scope.condition()
    result: AttentionFigures = {}
    for query in QUERIES:
        for saga, reason, count, since in (yield Query(query.format(condition), (*parameters,))):
            result[str(saga), str(reason)] = Figure(int(count), float(since or 0.0))
    return result


def totals(figures: AttentionFigures) -> dict[str, int]:
    """Return the counts by reason. Each reason is among them."""
    result = dict.fromkeys(REASONS, 0)
    for (_, reason), figure in figures.items():
        result[reason] += figure.number
    return result


def attention_counts(scope: Scope = EVERYTHING) -> Question[dict[str, int]]:
    """Count what requires an operator, by reason."""
    return totals((yield from attention(scope)))


def nodes(supports_nodes: bool) -> Question[NodeFigures]:
    """Count the nodes. A file has one, which asks."""
    if not supports_nodes:
        yield Query("SELECT 1", ())
        return NodeFigures(1, 0)
    rows = yield Query(NODE_FIGURES, ())
    return NodeFigures(*map(int, rows[0]))
