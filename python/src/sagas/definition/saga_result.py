"""`SagaResult`: how a saga ended, for its callers and for its `on_end` function."""

from __future__ import annotations

import dataclasses
import functools
from collections.abc import Callable
from typing import TYPE_CHECKING, Any, Protocol, TypeVar, overload

from sagas.base.errors import StepFailed
from sagas.definition import serialization
from sagas.definition.erasure import Erasure
from sagas.definition.step import Collection, collected_of
from sagas.definition.step_location import FIXED, Fan

if TYPE_CHECKING:
    from sagas.definition.step import FanOut
    from sagas.definition.step import Selection

R = TypeVar("R")
MAX_ERROR = 120
ENDED = ("completed", "recovered")


def state_text(state: str, is_over: bool = False, is_optional: bool = False) -> str:
    """Return a step's state for people.

    A step that an ended saga never started is `not run`, and one that has started is `begun`.
    `is_optional`: its failure is optional.
    """
    if is_optional and state == "failed":
        return "failed, optional"
    if is_over and state == "waiting":
        return "not run"
    return {"undo_failed": "undo failed", "running": "begun"}.get(state, state)


class SagaEnd(Protocol):
    """The end of a saga, in a store or in a test."""

    @property
    def saga(self) -> str:
        ...

    @property
    def key(self) -> str:
        ...

    @property
    def phase(self) -> str:
        ...

    @property
    def states(self) -> dict[str, str]:
        ...

    @property
    def results(self) -> dict[str, Any]:
        ...

    @property
    def cost(self) -> int | None:
        ...

    @property
    def blocking_steps(self) -> list[str]:
        ...

    @property
    def aborted(self) -> bool:
        ...

    @property
    def errors(self) -> dict[str, str]:
        ...

    @property
    def optional_failures(self) -> list[str]:
        ...

    @property
    def fan(self) -> Fan:
        ...


def _result(end: SagaEnd, name: str) -> Any:
    """Return the result of one step by its full name."""
    if name in end.optional_failures:
        raise StepFailed(name, end.errors[name])
    if name not in end.results:
        is_declared = name in end.states
        raise KeyError(
            f"step {name!r} is not committed: it is {end.states[name]}"
            if is_declared
            else f"unknown step {name!r}: the steps are {', '.join(end.states)}"
        )
    return serialization.stored(end.results[name], name)


def _compensations(steps: list[str]) -> str:
    """Return a text that names the compensations of these steps."""
    is_single = len(steps) == 1
    return f"the {'compensation' if is_single else 'compensations'} of {' and '.join(steps)}"


class EndQueries:
    """The methods that all ends of sagas share."""

    __slots__ = ()

    @property
    def ok(self: SagaEnd) -> bool:
        """Whether every step is committed, except for optional failures."""
        if self.phase not in ENDED:
            return False
        return all(map("committed".__eq__, self.states.values())) or all(
            state == "committed" or step in self.optional_failures
            for step, state in self.states.items()
        )

    @overload
    def result_of(self: SagaEnd, step: Selection[R]) -> R:
        ...

    @overload
    def result_of(self: SagaEnd, step: str) -> Any:
        ...

    def result_of(self: SagaEnd, step: Selection[Any] | str) -> Any:
        """Return the result of a committed step.

        Args:
            step: The step, or its name. Of a fan-out: a list, or a dict by the keys of its items;
                `hotel[room]`: that of an included saga's step.

        Raises:
            KeyError: The step is not committed, or does not exist.
            ResultNotSerializable: The result could not be stored.
            StepFailed: It is an optional failure: the step is optional, or an item that is
                collected, and has failed.
        """
        result_of = functools.partial(_result, self)
        if isinstance(step, Collection):
            return collected_of(self.fan.gather(step, str), result_of)
        return self.fan.gather(step, result_of)

    def each(self: SagaEnd, step: FanOut[Any, R]) -> dict[int | str, R]:
        """Return the results of the items of a fan-out that succeeded, and remain.

        Args:
            step: The step.

        Returns:
            The results, by the numbers of the items, or by their keys in a dict.
        """
        names = self.fan.gather(step, lambda name: name)
        items = names.items() if isinstance(names, dict) else enumerate(names)
        return {
            key: serialization.stored(self.results[name], name)
            for key, name in items
            if name in self.results
        }

    def __str__(self: SagaEnd) -> str:
        """Return a summary line and a line for each step, with the first line of its error."""
        undo_failed = [step for step, state in self.states.items() if state == "undo_failed"]
        cost = "" if self.cost is None else f", plan of cost {self.cost}"
        if undo_failed and self.phase == "recovered":  # its cost is not known
            cost = f", but {_compensations(undo_failed)} failed permanently"
        blocking_steps = (
            f", because of {' and '.join(self.blocking_steps)}" if self.blocking_steps else ""
        )
        error_lines = {
            step: f": {error.strip().splitlines()[0][:MAX_ERROR]}"
            for step, error in self.errors.items()
            if error.strip()
        }
        head = (
            f"{self.saga} {self.key}: "
            f"{self.phase}{' (aborted)' if self.aborted else ''}{cost}{blocking_steps}"
        )
        states = {
            step: state_text(state, is_over=True, is_optional=step in self.optional_failures)
            for step, state in self.states.items()
        }
        width = max(9, *map(len, states.values()))
        return "\n".join(
            [
                head,
                *(
                    f"  {state:{width}} {step}{error_lines.get(step, '')}"
                    for step, state in states.items()
                ),
            ]
        )


@dataclasses.dataclass(frozen=True, init=False)
class SagaResult(EndQueries):
    """Tell how a saga ended. Made by `Run.wait` and `Store.wait`.

    `str` shows a line for each step.

    Attributes:
        key: The saga's key.
        saga: The saga's name.
        phase: `completed`; `recovered`, if it ended by a plan; `stuck`, if no plan was feasible; or
            `resolved`, if a person resolved a stuck one.
        states: By step: `waiting`, `committed`, `failed`, `undone` or `undo_failed` (its
            compensation failed permanently, and its effect is still there).
        results: The results of the committed steps.
        cost: Of the last plan; None if there was none, or if the saga has a pivot.
        blocking_steps: If it is stuck, the steps that show why no plan was feasible.
        kept: The steps that the plan keeps.
        aborted: Whether it was aborted.
        note: What the person wrote who resolved it, or None.
        errors: What the failed and undo_failed steps raised last, by step. So it is for a step that
            raised `Fail` when the saga was about to be undone already: its state is `waiting`.
        optional_failures: The failed steps without which the saga continued: optional steps, and
            items that `collect` needs. There is nothing to undo for them.
        fan: The expansion of declared steps.
        erased: When its data was erased, and by whom, so that it has no results; else None.

    Example:
        >>> with sagas.open_sync("orders.db", [order]) as store:
        ...     end = store.start(order, "order-2", {"amount": 40}).wait(timeout=60)
        refund 40
        >>> end.ok, end.phase, end.cost
        (False, 'recovered', 4)
        >>> end.errors
        {'send': 'sagas.Fail: sold out'}
    """

    key: str
    saga: str
    phase: str
    states: dict[str, str]
    results: dict[str, Any]
    cost: int | None
    blocking_steps: list[str]
    kept: list[str]
    aborted: bool
    note: str | None
    errors: dict[str, str]
    fan: Fan = dataclasses.field(default=FIXED, repr=False, compare=False)
    optional_failures: list[str] = dataclasses.field(default_factory=list)
    erased: Erasure | None = dataclasses.field(default_factory=lambda: None)

    def __init__(
        self,
        key: str,
        saga: str,
        phase: str,
        states: dict[str, str],
        results: dict[str, Any],
        cost: int | None,
        blocking_steps: list[str],
        kept: list[str],
        aborted: bool,
        note: str | None = None,
        errors: dict[str, str] | None = None,
        fan: Fan = FIXED,
        optional_failures: list[str] | None = None,
        erased: Erasure | None = None,
    ) -> None:
        # all at once: the generated constructor takes three times as long, and each saga calls it
        vars(self).update(
            key=key,
            saga=saga,
            phase=phase,
            states=states,
            results=results,
            cost=cost,
            blocking_steps=blocking_steps,
            kept=kept,
            aborted=aborted,
            note=note,
            errors=errors or {},
            fan=fan,
            optional_failures=optional_failures or [],
            erased=erased,
        )

    @classmethod
    def later(cls, read: Callable[[], SagaResult]) -> SagaResult:
        """Make a result that is read at the first access to an attribute.

        Args:
            read: Returns the result.
        """
        end = object.__new__(cls)
        vars(end)["_read"] = read
        return end

    def read_results_later(self, read: Callable[[], dict[str, Any]]) -> None:
        """Let `results` be read at the first access to it.

        Args:
            read: Returns the results.
        """
        values = vars(self)
        values["_read_results"] = read
        del values["results"]

    def __getattr__(self, name: str) -> Any:
        """Read the result at the first access. (If two threads read it, both get the same.)"""
        values = vars(self)
        if (read := values.get("_read")) is not None:
            values.update({**vars(read()), **values})
            values.pop("_read", None)
        if name == "results" and (read_results := values.get("_read_results")) is not None:
            values.setdefault(name, read_results())
            values.pop("_read_results", None)
        if name not in values:
            raise AttributeError(
                f"{type(self).__name__!r} object has no attribute {name!r}", name=name, obj=self
            )
        return values[name]

    def __getstate__(self) -> dict[str, Any]:
        """Return all fields, for a copy or another process."""
        return {field.name: getattr(self, field.name) for field in dataclasses.fields(self)}
