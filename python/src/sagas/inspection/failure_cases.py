"""Failures of steps as cases for the planner, and what its answers mean for each step."""

from __future__ import annotations

import dataclasses
import enum
import heapq
import json
from collections.abc import Callable, Iterable, Iterator, Sequence
from typing import NamedTuple

from sagas.definition import definition_text
from sagas.definition.definition_text import ListedStep
from sagas.definition.layout import JOIN_ENDING
from sagas.engine.plan import Plan
from sagas.engine.planner import Answer, Case, members


MAX_PAIRED = 64
"""The maximum number of steps of a definition for which pairs of failures are planned."""


class Moment(enum.StrEnum):
    """How far the other steps are when a step fails."""

    LATE = "late"
    """Each step that does not depend on the failed one has committed."""
    EARLY = "early"
    """Only the steps that the failed one needs have committed."""
    ANY = "any"
    """Both are the same, because each other step needs it or is needed by it."""


class PlanSource(NamedTuple):
    """The texts of a plan, which is made of them only if a caller asks for it."""

    saga: str
    title: str
    definition: str
    case: Case
    answer: str

    @property
    def plan(self) -> Plan:
        """The plan."""
        case, answer = self.case.document, json.loads(self.answer)
        return Plan(self.saga, self.title, self.definition, case, answer)


@dataclasses.dataclass(frozen=True, slots=True)
class FailureCase:
    """Describe what a plan does if steps fail permanently. Made by `explain`.

    `str` is a sentence, for example "undo car, keep flight, skip tour".

    Attributes:
        steps: The names of the failed steps: one, or two that fail together.
        moment: `late`: each step that does not depend on a failed one has committed. `early`: only
            the steps that they need have committed. `any`: both are the same.
        cost: The cost of the plan; None without a plan, and if the saga has a pivot.
        undone: The names of the steps whose compensations are called.
        kept: The names of the committed steps that stay in effect.
        run: The names of the steps that the plan still runs.
        skipped: The names of the other steps that do not run. The failed ones are not listed.
        reason: Why no plan is feasible, in words; else None.
    """

    steps: tuple[str, ...]
    moment: str
    cost: int | None
    undone: tuple[str, ...]
    kept: tuple[str, ...]
    run: tuple[str, ...]
    skipped: tuple[str, ...]
    reason: str | None = None
    _source: PlanSource | None = dataclasses.field(default=None, repr=False)

    @property
    def plan(self) -> Plan | None:
        """The plan with its certificate; None if the failed step is optional."""
        return self._source.plan if self._source else None

    @property
    def is_optional(self) -> bool:
        """Whether the failed step is optional, so that the saga continues without it."""
        return self._source is None

    @property
    def is_stuck(self) -> bool:
        """Whether the saga is stuck, because no plan is feasible."""
        return self.reason is not None

    @property
    def blocking_steps(self) -> list[str]:
        """The steps that show why no plan is feasible; else an empty list."""
        plan = self.plan if self.is_stuck else None
        return plan.blocking_steps if plan else []

    def __str__(self) -> str:
        return self.described(lambda names: " and ".join(names))

    def described(self, listed: Callable[[Sequence[str]], str]) -> str:
        """Return the sentence of `str`.

        Args:
            listed: Returns the names of steps as a part of a sentence.
        """
        if self.reason is not None:
            return f"stuck: {self.reason}"
        if self.is_optional:
            return "the saga continues without it"
        parts = (
            ("undo", self.undone),
            ("keep", self.kept),
            ("run", self.run),
            ("skip", self.skipped),
        )
        texts = [f"{verb} {listed(names)}" for verb, names in parts if names]
        return ", ".join(texts) or "there is nothing to do"


class StepGraph:
    """The steps of a definition and their dependencies.

    Sets of steps are integers: bit N is step N.

    Attributes:
        steps: The steps, in the order of the definition.
        numbers: The number of each step, by name.
        needs: The numbers of the steps that each step needs.
        failing: The numbers of the steps that may fail: all except joining steps.
        before: The steps that each step needs, directly or not.
        after: The steps that need each step, directly or not.
        all: All steps.
        required: The steps that each plan keeps, because one of them must not be left out.
        order: The numbers of the steps, so that each follows the steps that it needs.
    """

    def __init__(self, steps: Sequence[ListedStep]) -> None:
        self.steps, self._names = steps, [step.name for step in steps]
        self.numbers = {step.name: number for number, step in enumerate(steps)}
        self.needs = [[self.numbers[need] for need in step.needs] for step in steps]
        self.failing = [
            number for number, step in enumerate(steps) if not step.name.endswith(JOIN_ENDING)
        ]
        self._joins = sum(1 << n for n, step in enumerate(steps) if n not in {*self.failing})
        self.order = [*self._sorted()]
        self.all = (1 << len(steps)) - 1
        self.before, self.after, self.required = [0] * len(steps), [0] * len(steps), 0
        for number in self.order:
            for need in self.needs[number]:
                self.before[number] |= self.before[need] | 1 << need
            if steps[number].skip == "never":
                self.required |= self.before[number] | 1 << number
        for number in reversed(self.order):
            for need in self.needs[number]:
                self.after[need] |= self.after[number] | 1 << number

    @classmethod
    def read(cls, text: str) -> StepGraph:
        """Return the graph of a valid definition."""
        return cls(definition_text.listed_steps(text))

    def _sorted(self) -> Iterator[int]:
        """Yield each step after its needs, and otherwise in the order of the definition."""
        needed_by: list[list[int]] = [[] for _ in self.steps]
        missing = [len(needed) for needed in self.needs]
        for number, needed in enumerate(self.needs):
            for need in needed:
                needed_by[need].append(number)
        ready = [number for number, count in enumerate(missing) if not count]
        while ready:
            number = heapq.heappop(ready)
            yield number
            for other in needed_by[number]:
                missing[other] -= 1
                if not missing[other]:
                    heapq.heappush(ready, other)

    def names_of(self, steps: int) -> tuple[str, ...]:
        """Return the names of the steps in a set, except joining steps."""
        return tuple(members(steps & ~self._joins, self._names))

    def are_independent(self, first: int, second: int) -> bool:
        """Return whether neither of two steps depends on the other."""
        related = self.before[first] | self.after[first] | 1 << first
        return not related >> second & 1

    def independent_pairs(self) -> Iterator[tuple[int, int]]:
        """Yield each two independent steps whose failures both make the saga recover."""
        numbers = [number for number in self.failing if not self.steps[number].is_optional]
        for index, first in enumerate(numbers):
            for second in numbers[index + 1 :]:
                if self.are_independent(first, second):
                    yield first, second

    def case(self, failed: Iterable[int], moment: Moment) -> Case:
        """Return the case in which steps have failed at a moment other than `ANY`."""
        before = after = failures = 0
        for number in failed:
            before |= self.before[number]
            after |= self.after[number]
            failures |= 1 << number
        committed = before if moment is Moment.EARLY else self.all & ~(after | failures)
        return Case(len(self.steps), committed, tuple(failed))

    def committed_before_abort(self, step: int) -> int:
        """Return a step and as little else as possible, as the steps that committed before an
        abort.

        Steps that must not be left out have committed too: without them, no plan is feasible.
        """
        return self.before[step] | 1 << step | self.required


Names = tuple[str, ...]
Decided = tuple[Names, Names, Names, Names]
"""The steps that are undone, kept, run and skipped."""


@dataclasses.dataclass(frozen=True, slots=True)
class CaseReader:
    """Reads the answers of the planner for one definition.

    Attributes:
        saga: The saga's name.
        definition: The definition's text.
        graph: Its steps.
        pivot: The name of its pivot, or None.
    """

    saga: str
    definition: str
    graph: StepGraph
    pivot: str | None

    def failure(
        self, failed: Sequence[int], moment: Moment, case: Case, answer: Answer
    ) -> FailureCase:
        """Return what an answer of the planner decides."""
        names = tuple(self.graph.steps[number].name for number in failed)
        title = f"if {' and '.join(names)} {'fails' if len(names) == 1 else 'fail'}"
        is_stuck = answer.cost is None
        nothing: Decided = ((), (), (), ())
        undone, kept, run, skipped = nothing if is_stuck else self._decided(case, answer)
        return FailureCase(
            steps=names,
            moment=moment.value,
            cost=None if self.pivot else answer.cost,
            undone=undone,
            kept=kept,
            run=run,
            skipped=skipped,
            reason=self._reason(case, answer) if is_stuck else None,
            _source=PlanSource(self.saga, title, self.definition, case, answer.text),
        )

    def _decided(self, case: Case, answer: Answer) -> Decided:
        """Return the steps that are undone, kept, run and skipped."""
        graph, committed, kept = self.graph, case.committed, answer.kept
        others = graph.all & ~committed
        for number in case.failed:
            others &= ~(1 << number)
        undone, stays = committed & ~kept, committed & kept
        return (
            graph.names_of(undone),
            graph.names_of(stays),
            graph.names_of(others & kept),
            graph.names_of(others & ~kept),
        )

    def optional_failure(self, number: int) -> FailureCase:
        """Return that the saga continues after the failure of an optional step."""
        names = (self.graph.steps[number].name,)
        return FailureCase(names, Moment.ANY.value, None, (), (), (), ())

    def _reason(self, case: Case, answer: Answer) -> str:
        """Return why a chain leaves no plan."""
        first, last = answer.chain[0], answer.chain[-1]
        step, has_committed = self.graph.steps[first], case.committed >> first & 1
        must = (
            "cannot be undone" if has_committed and step.undo == "never" else "must not be left out"
        )
        if first == last:
            return f"{step.name} {self._fate(last, case)} and {must}"
        needs = [self.graph.steps[number].name for number in answer.chain[1:]]
        path = "".join(f", which needs {name}" for name in needs[1:])
        return f"{step.name} {must} and needs {needs[0]}{path}, which {self._fate(last, case)}"

    def _fate(self, number: int, case: Case) -> str:
        """Return why a step cannot be kept."""
        if number in case.failed:
            return "failed"
        if self.graph.steps[number].keep == "never":
            return "must not remain in effect"
        return "cannot run any more" if case.is_aborted else "must not run in a recovery"
