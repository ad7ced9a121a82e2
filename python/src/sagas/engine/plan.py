"""An adopted plan: its decisions and the costs of both choices."""

from __future__ import annotations

import dataclasses
import json
from collections.abc import Iterable
from typing import Any

from sagas.base import program
from sagas.base.errors import EngineError
from sagas.core.states import step_state
from sagas.definition import definition_text, drawing
from sagas.definition.definition_text import ListedStep
from sagas.definition.saga_result import state_text

Cost = int | None
"""A cost; None is never."""


@dataclasses.dataclass(frozen=True, slots=True)
class Choice:
    """Describe what a plan does with a step, and what either choice costs.

    Attributes:
        step: The step's name.
        state: The state in which the plan found it.
        cost_to_keep: Cost if its effect stays; None: this is not allowed.
        cost_to_drop: Cost if it is undone or skipped; None: this is not allowed.
        kept: Whether the plan keeps it.
        needed_by: If dropping it alone were not more expensive: the first kept step that needs it;
            else None.
        is_optional_failure: Whether it has failed, and the saga continued without it. It costs
            nothing, because there is nothing to keep or to undo.
    """

    step: str
    state: str
    cost_to_keep: Cost
    cost_to_drop: Cost
    kept: bool
    needed_by: str | None = None
    is_optional_failure: bool = False

    @property
    def decision(self) -> str:
        """`stands`, `is run`, `is undone` or `is left out`."""
        if self.is_optional_failure:
            return "is left out"
        if self.kept:
            return "is run" if self.state == "waiting" else "stands"
        return "is undone" if self.state == "committed" else "is left out"

    @property
    def detail(self) -> str:
        """The decision, and the step that is the reason for it."""
        return f"{self.decision}: {self.needed_by} needs it" if self.needed_by else self.decision


@dataclasses.dataclass(frozen=True, slots=True)
class Plan:
    """Hold the plan of a saga with its certificate. Made by `Store.plan`.

    `str` shows a table of all steps, with both costs and the decision. If the saga has a pivot, the
    package has computed the costs, and the table does not show them.

    Attributes:
        saga: The saga's name.
        key: The saga's key.
        definition: The definition's text.
        case: The state of each step that the plan started from, as JSON.
        answer: The plan with its certificate, as JSON.
        optional_failures: The names of the failed steps without which the saga continued.

    Example:
        >>> with sagas.open_sync("orders.db", [order]) as store:
        ...     end = store.start(order, "order-3", {"amount": 40}).wait(timeout=60)
        ...     plan = store.plan("order-3")
        refund 40
        >>> plan.cost, plan.check()
        (4, 'least 4')
        >>> print(plan)
        plan of order order-3: cost 4
          step    found      cost to keep  cost to drop  decision
          charge  committed             9             0  is undone
          send    failed            never             4  is left out
    """

    saga: str
    key: str
    definition: str
    case: dict[str, Any]
    answer: dict[str, Any]
    optional_failures: frozenset[str] = frozenset()

    @property
    def pivot(self) -> str | None:
        """The pivot of the saga, or None. With a pivot, costs alone have no meaning."""
        return definition_text.pivot_of(self.definition)

    @property
    def cost(self) -> int | None:
        """Its cost: no allowed plan costs less. None if no plan is feasible."""
        cost: int | None = self.answer.get("cost")
        return cost

    @property
    def blocking_steps(self) -> list[str]:
        """If no plan is feasible, the steps that show why; else an empty list."""
        steps = definition_text.listed_steps(self.definition)
        return [steps[index].name for index in self.answer.get("chain", ())]

    @property
    def choices(self) -> list[Choice]:
        """A `Choice` for each step, in the order of the definition."""
        kept = set(self.answer.get("kept", ()))
        steps = definition_text.listed_steps(self.definition)
        needed = {
            need: steps[index].name
            for index in sorted(kept, reverse=True)
            for need in steps[index].needs
        }
        return [
            self._choice(step, step_state(state_word).value, index in kept, needed.get(step.name))
            for index, (step, state_word) in enumerate(zip(steps, self.case["states"]))
        ]

    def _costs(self, step: ListedStep, state: str) -> tuple[Cost, Cost]:
        """Return the costs to keep a step, and to drop it. None: not allowed."""
        run, undo, skip, keep = map(_cost, (step.run, step.undo, step.skip, step.keep))
        match state:
            case "waiting":
                return None if self.case.get("aborted") else _sum(run, keep), skip
            case "committed":
                return keep, _sum(undo, skip)
            case "void":
                return 0, None if skip is None else 0
            case "undo_failed":
                return keep, None
        return None, skip

    def _choice(self, step: ListedStep, state: str, kept: bool, needed: str | None) -> Choice:
        keep_cost, drop_cost = self._costs(step, state)
        may_be_dropped = (
            state == "committed"
            and drop_cost is not None
            and (keep_cost is None or keep_cost >= drop_cost)
        )  # if nothing needs it
        is_failure = step.name in self.optional_failures
        return Choice(
            step.name,
            "failed" if is_failure else state,
            keep_cost,
            drop_cost,
            kept,
            needed if kept and may_be_dropped and not is_failure else None,
            is_failure,
        )

    def check(self) -> str:
        """Verify the plan by `sagas check`, which does not trust the planner.

        Returns:
            `least N`, or `blocked` if no plan is feasible.

        Raises:
            EngineError: The plan is wrong, or the program `sagas` cannot be run.
        """
        process = program.run(
            "check", [self.definition, json.dumps(self.case), json.dumps(self.answer)]
        )
        if process.returncode != 0:
            raise EngineError((process.stdout + process.stderr).strip())
        return process.stdout.strip()

    def draw(self, *, unfold: Iterable[str] = ()) -> str:
        """Return the plan as text for Graphviz, for example for `dot -Tsvg`.

        Args:
            unfold: As of `Saga.draw` (default: none).

        Raises:
            EngineError: The program `sagas` cannot be run.
        """
        whole = program.draw(self.definition, json.dumps(self.case), json.dumps(self.answer))
        return drawing.fold(whole, self.definition, {*unfold})

    def __str__(self) -> str:
        choices = self.choices
        wide = max(4, *(len(choice.step) for choice in choices))
        states = [
            state_text(choice.state, is_optional=choice.is_optional_failure) for choice in choices
        ]
        width = max(9, *map(len, states))
        has_costs = self.pivot is None
        head = f"plan of {self.saga} {self.key}"
        if self.cost is None:
            head += f": no plan is feasible, because of {' and '.join(self.blocking_steps)}"
        elif has_costs:
            head += f": cost {self.cost}"
        else:
            head += f": decided by the pivot {self.pivot}"
        costs = "  cost to keep  cost to drop" if has_costs else ""
        lines = [head, f"  {'step':{wide}}  {'found':{width}}{costs}  decision"]
        for choice, state in zip(choices, states):
            decision = choice.detail if self.cost is not None else "stuck"
            if has_costs:
                texts = _cost_text(choice.cost_to_keep), _cost_text(choice.cost_to_drop)
                costs = f"  {texts[0]:>12}  {texts[1]:>12}"
            lines.append(f"  {choice.step:{wide}}  {state:{width}}{costs}  {decision}")
        return "\n".join(lines)


def _cost(value: int | str) -> Cost:
    return value if isinstance(value, int) else None


def certificate_text(plan: Plan) -> str:
    """Return a plan as `sagas check` reads it from its standard input."""
    return f"{plan.definition}---\n{json.dumps(plan.case)}\n---\n{json.dumps(plan.answer)}\n"


def _sum(a: Cost, b: Cost) -> Cost:
    return None if a is None or b is None else a + b


def _cost_text(cost: Cost) -> str:
    return "never" if cost is None else str(cost)
