"""Rates of failure, what they mean for a saga, and its steps in another order."""

from __future__ import annotations

import dataclasses
from collections.abc import Collection, Mapping

from sagas.definition.definition_text import ListedStep
from sagas.definition.step import MAX_NEEDS
from sagas.engine.planner import Answer, Case, Planner
from sagas.inspection.failure_cases import Moment, StepGraph

Rates = Mapping[int, float]
"""The probability that a step fails permanently, by the number of the step."""
MAX_ORDERED = 128
"""The maximum number of steps of a definition for which other orders are compared."""
MAX_TRIED, MAX_COMPARED, MAX_ORDERS = 512, 8, 3
"""How many orders are estimated, how many of them are planned, and how many are returned."""
LEAST_GAIN = 0.01
"""The part of the expected cost that another order has to save."""


@dataclasses.dataclass(frozen=True, slots=True)
class ExpectedCost:
    """Describe how sagas end on average, given rates of failure. Made by `explain`.

    The first failure of a saga counts. The rate of a step counts if no step before it has failed,
    in the order of the definition.

    Attributes:
        moment: As of `FailureCase`: `late`, or `early`.
        completed: The share of sagas without a failure.
        recovered: The share of sagas that end by a plan.
        stuck: The share of sagas that are stuck.
        cost: The expected cost of a saga, in which a stuck saga counts 0; None with a pivot.
    """

    moment: str
    completed: float
    recovered: float
    stuck: float
    cost: float | None


@dataclasses.dataclass(frozen=True, slots=True)
class BetterOrder:
    """Describe a need that would lower the expected cost. Made by `explain`.

    Attributes:
        step: The name of the step that should start later.
        after: The name of the step that it should need.
        cost: The expected cost with this need, at the moment `late`.
        cost_before: The expected cost without it.
    """

    step: str
    after: str
    cost: float
    cost_before: float


def first_failures(graph: StepGraph, rates: Rates) -> dict[int, float]:
    """Return the probability that each step is the first one that fails.

    Optional steps are not listed, because their failures change nothing.
    """
    result, no_failure = {}, 1.0
    for number in graph.order:
        rate = 0.0 if graph.steps[number].is_optional else rates.get(number, 0.0)
        if rate:
            result[number] = no_failure * rate
            no_failure *= 1.0 - rate
    return result


def expected(
    moment: Moment, shares: Mapping[int, float], answers: Mapping[int, Answer], has_pivot: bool
) -> ExpectedCost:
    """Return how sagas end.

    Args:
        moment: When the steps fail.
        shares: The probability that each step is the first one that fails.
        answers: The answer of the planner to each of these failures.
        has_pivot: Whether costs have no meaning.
    """
    stuck = sum(share for number, share in shares.items() if answers[number].cost is None)
    cost = sum(share * (answers[number].cost or 0) for number, share in shares.items())
    failed = sum(shares.values())
    return ExpectedCost(
        moment.value, 1.0 - failed, failed - stuck, stuck, None if has_pivot else cost
    )


# -- another order of independent steps


def better_orders(
    graph: StepGraph, rates: Rates, planner: Planner, items: Collection[int] = ()
) -> list[BetterOrder]:
    """Return the needs between independent steps that lower the expected cost most.

    Each is planned with a definition that has this need, and no more sagas may be stuck.

    Args:
        graph: The steps.
        rates: The rates of failure.
        planner: The planner of the definition.
        items: The steps that exist once for each item, which have no needs of their own.
    """
    has_room = sum(map(len, graph.needs)) < MAX_NEEDS
    if len(graph.steps) > MAX_ORDERED or not has_room:
        return []
    before = _late_cost(graph, rates, planner)
    if not before.cost:
        return []
    orders = []
    for first, second in _promising(graph, rates, planner, items)[:MAX_COMPARED]:
        steps = [*graph.steps]
        steps[second] = _with_need(steps[second], steps[first].name)
        after = _late_cost(StepGraph(steps), rates, Planner(steps, planner.threads))
        gain = before.cost - (after.cost or 0.0)
        if after.stuck <= before.stuck and gain >= LEAST_GAIN * before.cost:
            names = steps[second].name, steps[first].name
            orders.append(BetterOrder(*names, after.cost or 0.0, before.cost))
    return sorted(orders, key=lambda order: order.cost)[:MAX_ORDERS]


def _late_cost(graph: StepGraph, rates: Rates, planner: Planner) -> ExpectedCost:
    shares = first_failures(graph, rates)
    cases = [graph.case([number], Moment.LATE) for number in shares]
    answers = dict(zip(shares, planner.plan(cases)))
    return expected(Moment.LATE, shares, answers, False)


def _promising(
    graph: StepGraph, rates: Rates, planner: Planner, items: Collection[int]
) -> list[tuple[int, int]]:
    """Return pairs of independent steps, where the failure of the first costs less if the second
    has not started.
    """
    shares = first_failures(graph, rates)
    late = {number: graph.case([number], Moment.LATE) for number in shares}
    costs = {number: answer.cost for number, answer in zip(shares, planner.plan([*late.values()]))}
    tried: dict[tuple[int, int], Case] = {}
    single = [number for number in graph.failing if number not in items]
    for first in sorted(shares, key=lambda number: -shares[number] * (costs[number] or 0)):
        for second in single if costs[first] and first not in items else ():
            if graph.are_independent(first, second) and len(tried) < MAX_TRIED:
                tried[first, second] = _not_started(graph, late[first], second)
    gains = {}
    for (first, second), answer in zip(tried, planner.plan([*tried.values()])):
        if answer.cost is not None:
            gains[first, second] = shares[first] * ((costs[first] or 0) - answer.cost)
    promising = [pair for pair, gain in gains.items() if gain > 0]
    return sorted(promising, key=lambda pair: -gains[pair])


def _not_started(graph: StepGraph, case: Case, step: int) -> Case:
    """Return a case in which a step, and those that need it, have not started."""
    left = graph.after[step] | 1 << step
    return case._replace(committed=case.committed & ~left)


def _with_need(step: ListedStep, need: str) -> ListedStep:
    return dataclasses.replace(step, needs=(*step.needs, need))
