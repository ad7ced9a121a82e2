"""`Explanation`: what the failure of each step of a definition leads to."""

from __future__ import annotations

import dataclasses
from collections.abc import Collection, Iterable, Mapping
from itertools import compress
from typing import Any

from sagas.definition import definition_text, drawing
from sagas.definition.arguments import meant, shown
from sagas.definition.drawing import Groups
from sagas.engine.planner import Answer, Case, Planner
from sagas.inspection import explanation_picture, explanation_text, expected_cost
from sagas.inspection.expected_cost import BetterOrder, ExpectedCost, Rates
from sagas.inspection.failure_cases import (
    MAX_PAIRED,
    CaseReader,
    FailureCase,
    Moment,
    StepGraph,
)
from sagas.inspection.picture import STYLE

Failures = dict[tuple[int, ...], dict[Moment, Answer]]
"""The answers of the planner to failures, by the numbers of the failed steps and by the moment."""


@dataclasses.dataclass(frozen=True)
class Explanation:
    """Hold what each failure of a saga would lead to. Made by `explain`.

    `str` is the text that `sagas explain` prints.

    Attributes:
        saga: The saga's name.
        version: Its version.
        definition: The definition's text.
        steps: The names of its steps, without those that only join others.
        pivot: The name of its pivot, or None.
        failures: The failures of one step: one or two for each step, in the order of the steps.
        pairs: The failures of two independent steps; empty for more than 64 steps.
        never_undone: The names of the steps that no plan ever undoes once they have committed,
            also after an abort.
        point_of_no_return: Those of them that need no other of them.
        rates: The rates of failure, by the name of the step; empty without rates.
        learned_from: The number of ended sagas whose history has some of the rates; else None.
        expected: How sagas end on average at each moment; empty without rates.
        orders: Needs between independent steps that would lower the expected cost.
    """

    saga: str
    version: int
    definition: str = dataclasses.field(repr=False)
    steps: tuple[str, ...]
    pivot: str | None
    failures: tuple[FailureCase, ...] = dataclasses.field(repr=False)
    pairs: tuple[FailureCase, ...] = dataclasses.field(repr=False)
    never_undone: tuple[str, ...]
    point_of_no_return: tuple[str, ...]
    rates: Mapping[str, float] = dataclasses.field(default_factory=dict)
    learned_from: int | None = None
    expected: tuple[ExpectedCost, ...] = ()
    orders: tuple[BetterOrder, ...] = ()

    @property
    def stuck(self) -> list[FailureCase]:
        """The failures after which the saga is stuck."""
        return [case for case in (*self.failures, *self.pairs) if case.is_stuck]

    @property
    def worst(self) -> FailureCase | None:
        """The failure with the most expensive plan; None without costs."""
        worst: FailureCase | None = None
        for case in (*self.failures, *self.pairs):
            if case.cost is not None and (worst is None or case.cost > (worst.cost or 0)):
                worst = case
        return worst

    def failure(self, *steps: Any, moment: str = "late") -> FailureCase:
        """Return the failure of a step, or of two independent steps together.

        Args:
            steps: The steps or their names.
            moment: `late` or `early`, as of `FailureCase` (default: `late`).

        Raises:
            KeyError: The failure is unknown.
        """
        names = {step if isinstance(step, str) else step.name for step in steps}
        for case in (*self.failures, *self.pairs):
            if {*case.steps} == names and case.moment in (moment, Moment.ANY):
                return case
        unknown = next((name for name in names if name not in self.steps), None)
        if unknown is not None:
            near = meant(unknown, self.steps)
            raise KeyError(f"saga {self.saga!r} has no step {unknown!r}{near}")
        raise KeyError(f"no failure of {' and '.join(sorted(names))} at the moment {moment!r}")

    def json(self) -> dict[str, Any]:
        """Return all of it as values for JSON; see the guide for the keys."""
        return explanation_text.document(self)

    def markdown(self) -> str:
        """Return the failures as a table in Markdown."""
        return explanation_text.markdown(self)

    def draw(self, step: Any, *, moment: str = "late", unfold: Iterable[str] = ()) -> str:
        """Return the plan after the failure of a step, as text for Graphviz.

        Args:
            step: The step or its name.
            moment: As of `failure` (default: `late`).
            unfold: As of `Saga.draw` (default: none).

        Raises:
            KeyError: The failure is unknown.
            ValueError: The step is optional, and its failure needs no plan.
            EngineError: The program `sagas` cannot be run.
        """
        case = self.failure(step, moment=moment)
        if (plan := case.plan) is None:
            name = case.steps[0]
            raise ValueError(f"step {name!r} is optional, and its failure needs no plan")
        return plan.draw(unfold=unfold)

    def svg(self, step: Any = None, *, moment: str = "late", unfold: Collection[str] = ()) -> str:
        """Return a picture of the steps as an SVG document.

        Args:
            step: The step that fails, or its name. The color of each other step says what the plan
                does with it (default: None: it says what may happen to each step).
            moment: As of `failure` (default: `late`).
            unfold: As of `Saga.draw` (default: none).

        Raises:
            KeyError: The failure is unknown.
        """
        case = None if step is None else self.failure(step, moment=moment)
        if case is None:
            return explanation_picture.overview_svg(self, STYLE, {*unfold})
        return explanation_picture.failure_svg(self.definition, case, STYLE, {*unfold})

    def __str__(self) -> str:
        return explanation_text.text(self)


def of_definition(
    text: str,
    *,
    rates: Mapping[str, float] | None = None,
    learned_from: int | None = None,
    pairs: bool = True,
    planner: Planner | None = None,
) -> Explanation:
    """Return the explanation of a valid definition. Blocks until all failures are planned.

    Args:
        text: The definition's text.
        rates: The rates of failure, by the name or the declared name of a step.
        learned_from: As of `Explanation`.
        pairs: Whether two failures together are planned, for up to 64 steps.
        planner: The planner of the definition (default: a new one).

    Raises:
        KeyError: The step is unknown.
        ValueError: A rate is not a number from 0 to 1.
        EngineError: Neither the library nor the program `sagas` can be run here.
    """
    return _Explainer(text, planner).explanation(rates or {}, learned_from, pairs)


def failure_of(text: str, step: str, moment: str) -> FailureCase | None:
    """Return one failure of a valid definition; None if there is none.

    Args:
        text: The definition's text.
        step: The name of the step that fails.
        moment: `late` or `early`. Another one means `late`.
    """
    graph = StepGraph.read(text)
    number = graph.numbers.get(step)
    if number is None or number not in graph.failing or graph.steps[number].is_optional:
        return None
    at = Moment.EARLY if moment == Moment.EARLY else Moment.LATE
    name, pivot = definition_text.name_of(text), definition_text.pivot_of(text)
    case = graph.case([number], at)
    (answer,) = Planner(graph.steps, 1).plan([case])
    return CaseReader(name, text, graph, pivot).failure([number], at, case, answer)


class _Explainer:
    """Makes the explanation of one definition."""

    def __init__(self, text: str, planner: Planner | None) -> None:
        self._text, self._saga = text, definition_text.name_of(text)
        self._graph = StepGraph.read(text)
        self._planner = planner or Planner(self._graph.steps)
        self._pivot = definition_text.pivot_of(text)
        self._reader = CaseReader(self._saga, text, self._graph, self._pivot)

    def explanation(
        self, rates: Mapping[str, float], learned_from: int | None, has_pairs: bool
    ) -> Explanation:
        graph, steps = self._graph, self._graph.steps
        rate_of = self._checked(rates)
        singles = [(number,) for number in graph.failing if not steps[number].is_optional]
        paired = has_pairs and len(graph.failing) <= MAX_PAIRED
        answers = self._answers([*singles, *(graph.independent_pairs() if paired else ())])
        cases = {failed: self._cases(failed, by) for failed, by in answers.items()}
        failures = [
            case
            for number in graph.failing
            for case in cases.get((number,), None) or [self._reader.optional_failure(number)]
        ]
        pairs = [case for failed, listed in cases.items() if len(failed) == 2 for case in listed]
        never = self._never_undone([*failures, *pairs])
        point = [
            number for number in never if not any(self._needs(number, other) for other in never)
        ]
        expected = self._expected(rate_of, answers) if rates else []
        has_costs = bool(expected) and self._pivot is None
        return Explanation(
            self._saga,
            definition_text.version_of(self._text),
            self._text,
            tuple(steps[number].name for number in graph.failing),
            self._pivot,
            tuple(failures),
            tuple(pairs),
            self._names(never),
            self._names(point),
            {steps[number].name: rate for number, rate in sorted(rate_of.items())},
            learned_from,
            tuple(expected),
            tuple(
                expected_cost.better_orders(graph, rate_of, self._planner, self._items())
                if has_costs
                else ()
            ),
        )

    def _answers(self, failures: Collection[tuple[int, ...]]) -> Failures:
        """Return the answers to failures, at both moments."""
        moments = (Moment.LATE, Moment.EARLY)
        cases = [
            (failed, moment, self._graph.case(failed, moment))
            for failed in failures
            for moment in moments
        ]
        result: Failures = {failed: {} for failed in failures}
        for (failed, moment, _), answer in zip(
            cases, self._planner.plan(case for _, _, case in cases)
        ):
            result[failed][moment] = answer
        return result

    def _cases(self, failed: tuple[int, ...], by: Mapping[Moment, Answer]) -> list[FailureCase]:
        """Return one failure for each moment that differs."""
        states = {moment: self._graph.case(failed, moment) for moment in by}
        if states[Moment.LATE] == states[Moment.EARLY]:
            by, states[Moment.ANY] = {Moment.ANY: by[Moment.LATE]}, states[Moment.LATE]
        return [
            self._reader.failure(failed, moment, states[moment], answer)
            for moment, answer in by.items()
        ]

    def _never_undone(self, cases: Iterable[FailureCase]) -> list[int]:
        """Return the steps that no plan undoes.

        A plan keeps no more steps if fewer can be kept. So of all states in which a step has
        committed, that of `committed_before_abort` has the plan that keeps the fewest steps. It
        also keeps no step that is undone when all others have committed.
        """
        graph = self._graph
        undone = {graph.numbers[name] for case in cases for name in case.undone}
        whole = Case(len(graph.steps), graph.all, is_aborted=True)
        (answer,) = self._planner.plan([whole])
        if answer.cost is not None:
            undone |= {number for number in graph.failing if not answer.kept >> number & 1}
        certain = [number for number in graph.failing if self._is_certain(number)]
        left = [number for number in graph.failing if number not in {*certain, *undone}]
        states = [(number, graph.committed_before_abort(number)) for number in left]
        is_kept = self._planner.keep_after_abort(states)
        return sorted([*certain, *compress(left, is_kept)])

    def _is_certain(self, number: int) -> bool:
        """Return whether no plan can undo a step, because it has no compensation, or because each
        saga in which it has committed is completed or stuck.
        """
        is_over = self._graph.committed_before_abort(number) == self._graph.all
        return is_over or self._graph.steps[number].undo == "never"

    def _items(self) -> set[int]:
        """Return the steps that exist once for each item."""
        origins = enumerate(Groups.read(self._text).origins)
        return {
            number
            for number, origin in origins
            if any(item is not None for _, item in (*origin.scope, (origin.name, origin.number)))
        }

    def _needs(self, step: int, other: int) -> bool:
        return bool(self._graph.before[step] >> other & 1)

    def _names(self, numbers: Iterable[int]) -> tuple[str, ...]:
        return tuple(self._graph.steps[number].name for number in numbers)

    def _expected(self, rates: Rates, answers: Failures) -> list[ExpectedCost]:
        shares = expected_cost.first_failures(self._graph, rates)
        return [
            expected_cost.expected(
                moment,
                shares,
                {number: answers[number,][moment] for number in shares},
                self._pivot is not None,
            )
            for moment in (Moment.LATE, Moment.EARLY)
        ]

    def _checked(self, rates: Mapping[str, float]) -> dict[int, float]:
        """Return the rates by number. The declared name of a step means all of its items."""
        origins = Groups.read(self._text).origins
        named: dict[str, list[int]] = {}
        for number in self._graph.failing:
            name = self._graph.steps[number].name
            declared = origins[number].declared if origins else name
            for key in {name, declared}:
                named.setdefault(key, []).append(number)
        result = dict[int, float]()
        for name, rate in rates.items():
            if name not in named:
                raise KeyError(f"saga {self._saga!r} has no step {name!r}{meant(name, named)}")
            is_number = isinstance(rate, (int, float)) and not isinstance(rate, bool)
            if not is_number or not 0 <= rate <= 1:
                raise ValueError(f"rate of step {name!r}: {shown(rate)} must be from 0 to 1")
            result |= dict.fromkeys(named[name], float(rate))
        return result
