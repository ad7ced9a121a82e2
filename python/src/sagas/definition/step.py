"""`Step`, and what else `needs=` can name: fan-outs, included sagas, collections."""

from __future__ import annotations

import dataclasses
import datetime
import inspect
import sys
from collections.abc import Awaitable, Callable, Iterable, Mapping, Sequence
from typing import (
    Any,
    Generic,
    Protocol,
    TYPE_CHECKING,
    TypeVar,
    Union,
    Unpack,
    overload,
)

from sagas.base.errors import DefinitionError, StepFailed
from sagas.definition import definition_text
from sagas.definition.call_options import (
    Bounds,
    CompensationOptions,
    Cost,
    CostOf,
    EarlyUnused,
    Manner,
    NEVER,
    NOTHING,
    Undo,
    compensation_defaults,
    function_faults,
    option_faults,
    seconds,
    with_defaults,
)

if TYPE_CHECKING:
    from sagas.definition.parts import SagaParts
    from sagas.definition.task import ItemTask, Task, UndoTask

MAX_STEPS, MAX_NEEDS = 1024, 8192
R_co = TypeVar("R_co", covariant=True)
R = TypeVar("R")
C = TypeVar("C")
T = TypeVar("T")
Until = Union[
    datetime.timedelta,
    datetime.datetime,
    Callable[["Task[Any]"], Union[datetime.timedelta, datetime.datetime]],
]
"""The time of a wait: after its needs are committed, at a time, or by a function of the task."""


class Selection(Generic[R_co]):
    """Select steps of a saga whose results together are an `R`.

    Attributes:
        saga: The saga with the steps.
    """

    saga: SagaParts

    @property
    def path(self) -> tuple[str, ...]:
        """The names of the inclusions around the step, and of the step."""
        raise NotImplementedError

    @property
    def is_own(self) -> bool:
        """Whether only the step of the same item is selected."""
        return False


class Decorator:
    """A decorator that `saga.step(...)` or a similar call returned, not yet applied.

    Attributes:
        where: File and line of the call.
        call: The called function, for messages: `order.step`.
        name: The name of the step, if the call names it.
    """

    def __init__(
        self, saga: SagaParts, call: str, name: str | None, declare: Callable[[Any], Any]
    ) -> None:
        self.where, self.call, self.name = caller(3), call, name
        self._declare, self._saga = declare, saga
        saga.decorators.append(self)

    def __call__(self, function: Callable[[Any], Any]) -> Any:
        if self in self._saga.decorators:
            self._saga.decorators.remove(self)
        return self._declare(function)


class Step(Selection[R]):
    """Hold a step of a saga, whose function returns `R`.

    Made by `Saga.step`, `Saga.wait`, `Saga.approval` and `Saga.child`. Call it with a task to call
    its function in a test.

    Attributes:
        saga: The `Saga`.
        name: The step's name.
        where: File and line of the declaration.
        kind: `step`, `wait`, `approval` or `child`.
        run: How the function is called.
        undo: How the compensation is called.
        concurrency: As given to `Saga.step`.
        concurrency_by: As given to `Saga.step`.
        bounds: `fleet_concurrency` and `rate_limit`, as given to `Saga.step`.
        until: As given to `Saga.wait`.
        approval_timeout: The `timeout` of `Saga.approval`.
        shown_fields: The fields of the input that `Saga.approval` shows, as dotted paths.
        child: The definition of `Saga.child`, or None.
        early_unused: As given to `Saga.step`.
        has_nothing: Whether it was declared with `undo=NOTHING`.
        is_collected: Whether a step needs it by `collect`.
        is_optional: As given to `Saga.step`.
        is_pivot: As given to `Saga.step`.
        for_each: As given to `Saga.step`.
        when: As given to `Saga.step`.
    """

    def __init__(
        self,
        saga: SagaParts,
        name: str,
        location: str,
        kind: str,
        needs: tuple[Need, ...],
        costs: Mapping[str, Undo | None],
        run: Manner,
        for_each: ForEach | None = None,
        when: Callable[[Any], Any] | None = None,
    ) -> None:
        self.saga, self.name, self.where, self.kind = saga, name, location, kind
        self.run, self.undo = run, Manner()
        self.concurrency: int | None = None
        self.concurrency_by: Callable[[Any], Any] | None = None
        self.bounds: Bounds | None = None
        self.until: Until | None = None
        self.approval_timeout: datetime.timedelta | None = None
        self.shown_fields: tuple[str, ...] = ()
        self.child: SagaParts | None = None
        self.early_unused: EarlyUnused = "ask"
        self.is_collected = self.is_optional = self.is_pivot = False
        self.for_each, self.when = for_each, when
        self.has_nothing = costs["undo"] is NOTHING
        self._costs: dict[str, CostOf | None] = {
            word: 0 if cost is NOTHING else cost for word, cost in costs.items()
        }
        self._needs = needs

    @property
    def path(self) -> tuple[str, ...]:
        """As of `Selection`."""
        return (self.name,)

    @property
    def needs(self) -> list[str]:
        """The names of the steps that it needs."""
        return [need_name(need) for need in self._needs]

    @property
    def has_compensation(self) -> bool:
        """Whether it can be undone, by a function of this program or elsewhere."""
        return self.undo.function is not None or self.undo.external

    def cost(self, word: str) -> Cost:
        """Return one of the step's costs, with its default, or as the pivot determines.

        Args:
            word: `run`, `undo`, `skip` or `keep`.

        Raises:
            DefinitionError: The cost is a function of the input.
        """
        return self.saga.cost_of(self, word)

    def own_cost(self, word: str) -> Cost:
        """Return one of the step's costs, with its default. No pivot counts.

        Args:
            word: As of `cost`.

        Raises:
            DefinitionError: As of `cost`.
        """
        cost = self._costs[word]
        if callable(cost):
            raise step_error(self, f"{word}= is a function, so it comes from the input")
        if cost is not None:
            return cost
        if self.child is not None and (word == "keep" or self.undo.implied):
            return self.child.total_cost(word)
        return 0 if self.has_compensation else NEVER

    def declared_cost(self, word: str) -> CostOf | None:
        """Return one of the step's costs without its default: None if it is not declared.

        Args:
            word: As of `cost`.
        """
        return self._costs[word]

    def manner(self, kind: str) -> Manner:
        """Return the call options of its function, or of its compensation.

        Args:
            kind: `run`, or `undo` for the compensation.
        """
        return self.run if kind == "run" else self.undo

    def starts_child(self, kind: str) -> bool:
        """Return whether a child saga performs it, or its compensation.

        Args:
            kind: `run`, or `undo` for the compensation.
        """
        return self.child is not None and (kind == "run" or self.undo.implied)

    @overload
    def compensation(  # type: ignore[misc]  # a fan-out: the result is that of one item
        self: FanOut[Any, T], function: Callable[[UndoTask[T]], Any], /
    ) -> Callable[[Any], Any]:
        ...

    @overload
    def compensation(self, function: Callable[[UndoTask[R]], Any], /) -> Callable[[Any], Any]:
        ...

    @overload
    def compensation(  # type: ignore[misc]
        self: FanOut[Any, T],
        function: None = None,
        /,
        *,
        external: bool = False,
        **options: Unpack[CompensationOptions],
    ) -> Callable[[Callable[[UndoTask[T]], Any]], Callable[[Any], Any]]:
        ...

    @overload
    def compensation(
        self,
        function: None = None,
        /,
        *,
        external: bool = False,
        **options: Unpack[CompensationOptions],
    ) -> Callable[[Callable[[UndoTask[R]], Any]], Callable[[Any], Any]]:
        ...

    def compensation(
        self,
        function: Callable[[Any], Any] | None = None,
        /,
        *,
        external: bool = False,
        **options: Unpack[CompensationOptions],
    ) -> Any:
        """Declare the function that undoes this step, by `@step.compensation`.

        Its task has the step's result as `task.result`, with its type if the function names it:
        `task: CompensationTask[Order, Receipt]`. Like a step's function it may be called
        again. If its last attempt fails, the saga waits for a person: see `Store.attention`.

        Args:
            function: The function, if no option is given.
            external: It is done elsewhere: call `step.compensation(external=True)` (default:
                False).
            options: `tries`, `timeout` and `max_unknown`, with the same defaults as a step's: those
                of the saga, if it has them. The defaults of `backoff`, `no_effect`, `transaction`
                and `queue` are the step's own. See `StepOptions`.
                `on_exhausted` is what follows the last attempt, or `Fail`: `ask` waits for
                `Store.retry`, `Store.complete` or `Store.fail`. `retry` repeats without end, but
                asks after a `Fail`. `fail` leaves the effect in place (default: that of the
                saga, but not `fail`; else `ask`).

        Returns:
            The function, or a decorator that returns it.

        Raises:
            DefinitionError: The step has a compensation already or `undo=NEVER`, or an argument is
                not valid.
            TypeError: An option does not exist.

        Example:
            >>> trip = sagas.Saga("trip")
            >>> @trip.step(keep=9)
            ... def flight(task):
            ...     return {"booking": "B-7"}
            >>> @flight.compensation(tries=5)
            ... def cancel(task):
            ...     print("cancel", task.result["booking"], "with", task.idempotency_key[-11:])
            >>> @trip.step(needs=[flight])
            ... def hotel(task): ...
            >>> sagas.testing.run(trip, fail={hotel: sagas.Fail}).states
            cancel B-7 with flight-undo
            {'flight': 'undone', 'hotel': 'failed'}
        """

        defaults = compensation_defaults(self.run, self.saga.defaults, external)
        chosen = with_defaults("Step.compensation", options, defaults)
        timeout = chosen["timeout"]

        def declare(function: Callable[[Any], Any] | None) -> Callable[[Any], Any] | None:
            location = location_of(function) or caller(3)
            if self.has_compensation and not self.undo.implied:
                raise step_error(
                    self,
                    "has two compensations, but one must undo everything. Call both from one "
                    "function, or remove one",
                    location,
                )
            if self.is_pivot:
                raise step_error(
                    self,
                    "is the pivot, which is never undone, so it cannot have a compensation. Remove "
                    "one of them",
                    location,
                )
            if self._costs["undo"] is NEVER:
                raise step_error(
                    self,
                    "has a compensation, but undo=NEVER says that it is never called. Remove one "
                    "of them",
                    location,
                )
            if self.has_nothing:
                raise step_error(
                    self,
                    "has a compensation, but undo=NOTHING says that there is nothing to undo. "
                    "Remove one of them",
                    location,
                )
            self.undo = Manner(
                function,
                chosen["tries"],
                timeout if timeout is None else seconds(timeout),
                chosen["backoff"],
                chosen["no_effect"],
                chosen["max_unknown"],
                function is None,
                chosen["transaction"] if function else False,
                queue=chosen["queue"] if function else None,
                on_exhausted=chosen["on_exhausted"],
            )
            check_manner(self, self.undo, "compensation", location)
            if self.undo.queue:
                self.undo.queue.declare(self, "undo", self.undo)
            return function

        if function is not None or external:
            return declare(function)
        return Decorator(self.saga, f"{self.name}.compensation", None, declare)

    def __call__(self, task: Any) -> Any:
        """Call the step's function, for tests of the function."""
        if self.run.function is None:
            raise step_error(self, "has no function in this program")
        return self.run.function(task)

    def __repr__(self) -> str:
        return f"<step {self.name} of saga {self.saga.name}>"


class Declare(Protocol):
    """The type of `saga.step(...)`: a decorator that makes a step of a function."""

    @overload
    def __call__(self, function: Callable[[Any], Awaitable[R]], /) -> Step[R]:
        ...

    @overload
    def __call__(self, function: Callable[[Any], R], /) -> Step[R]:
        ...


# -- collections


@dataclasses.dataclass(frozen=True, slots=True)
class Collected(Generic[R]):
    """Hold the outcomes of the items of a fan-out. Made by `Task.result_of`.

    Attributes:
        results: The results of the items that succeeded, by their numbers, or by their keys.
        errors: The errors of the other items, by their numbers, or by their keys.
    """

    results: dict[int | str, R]
    errors: dict[int | str, str]


class Collection(Selection[Collected[R]]):
    """The items of a fan-out, whether they succeeded or failed. Made by `collect`."""

    def __init__(self, step: Collectable[Any, R]) -> None:
        self.step, self.saga = step, step.saga
        self.name: str = step.name

    @property
    def path(self) -> tuple[str, ...]:
        """As of `Selection`."""
        return self.step.path

    def __repr__(self) -> str:
        return f"<collected {self.name} of saga {self.saga.name}>"


def collect(step: Collectable[Any, R]) -> Collection[R]:
    """Need the items of a fan-out whether they succeed or fail.

    Write `needs=[sagas.collect(ship)]`. The failure of an item is then a result: the saga
    continues, and the compensation of the item is not called. `task.result_of(sagas.collect(ship))`
    is a `Collected`. For an item that failed, `task.result_of(ship.each)` raises `StepFailed`.

    Args:
        step: A step with `for_each=`, also one of `Saga.child`.

    Returns:
        A need for `needs=`, and the argument of `Task.result_of`.

    Raises:
        DefinitionError: The step has no `for_each=`.

    Example:
        >>> batch = sagas.Saga("batch")
        >>> @batch.step(for_each="numbers", undo=sagas.NOTHING)
        ... def invert(task):
        ...     if task.item == 0:
        ...         raise sagas.Fail("no inverse")
        ...     return 1 / task.item
        >>> @batch.step(needs=[sagas.collect(invert)])
        ... def report(task):
        ...     collected = task.result_of(sagas.collect(invert))
        ...     return [collected.results, collected.errors]
        >>> sagas.testing.run(batch, {"numbers": [2, 0]}).result_of(report)
        [{'0': 0.5}, {'1': 'sagas.Fail: no inverse'}]
    """
    if not isinstance(step, Collectable):
        remedy = ". Declare it with optional=True, and call task.failure_of"
        raise DefinitionError(
            f"{caller(2)}: collect({step!r}): must be a step with for_each="
            f"{remedy if isinstance(step, Step) else ''}"
        )
    return Collection(step)


def mark_collected(needs: Iterable[object]) -> None:
    """Mark the steps that `collect` needs: failures of their items are results."""
    for need in needs:
        if isinstance(need, Collection):
            need.step.collect_failures()


def collected_of(names: Any, result_of: Callable[[str], Any]) -> Collected[Any]:
    """Return the outcomes of the steps with these names.

    Args:
        names: The names, in a list, or in a dict by the keys of the items.
        result_of: Returns the result of a step, or raises `StepFailed`.
    """
    collected: Collected[Any] = Collected({}, {})
    for key, name in names.items() if isinstance(names, dict) else enumerate(names):
        try:
            collected.results[key] = result_of(name)
        except StepFailed as error:
            collected.errors[key] = error.detail
    return collected


# -- fan-outs and included sagas


ForEach = Union[str, Callable[[Any], Union[Sequence[Any], Mapping[str, Any]]]]
"""The items: the name of a list or a dict in the input, or a function that returns one."""


class Each(Selection[R]):
    """The step, or the included saga, of the same item: `ship.each`."""

    def __init__(self, part: FanOut[Any, R] | Inclusion) -> None:
        self.part, self.saga = part, part.saga

    @property
    def name(self) -> str:
        """The name of the step, or of the inclusion."""
        return self.part.name

    @property
    def path(self) -> tuple[str, ...]:
        """As of `Selection`."""
        return (self.part.name,)

    @property
    def is_own(self) -> bool:
        """Whether only the step of the same item is selected: always."""
        return True

    def __repr__(self) -> str:
        return f"<{self.part.name}.each of saga {self.saga.name}>"


class Collectable(Step[C], Generic[C, R]):
    """A step with items: each may succeed or fail, with a result of its own."""

    def collect_failures(self) -> None:
        """Let failures of its items be results: a step needs them by `collect`."""
        self.is_collected = True


class FanOut(Collectable[C, R], Generic[C, R]):
    """Hold a step that exists once for each item, whose function returns `R`.

    Made by `Saga.step` and its like with `for_each=`. Its results are a `C`: a list, or a dict by
    the keys of the items.
    """

    @property
    def each(self) -> Each[R]:
        """In `needs=`, and in `Task.result_of`: the step of the same item."""
        return Each(self)


class Within(Selection[R]):
    """A step of an included saga: `hotel[reserve]`."""

    def __init__(self, inclusion: Inclusion, inner: Selection[R]) -> None:
        self.inclusion, self.inner, self.saga = inclusion, inner, inclusion.saga

    @property
    def path(self) -> tuple[str, ...]:
        """As of `Selection`."""
        return (self.inclusion.name, *self.inner.path)

    def __repr__(self) -> str:
        return f"<{'/'.join(self.path)} of saga {self.saga.name}>"


class Inclusion:
    """Hold the steps of another saga within this one's. Made by `Saga.include`.

    It can be needed as a step can. Write `hotel[reserve]` for a step of it.

    Attributes:
        saga: The saga that includes.
        inner: The saga that is included.
        name: The inclusion's name.
        where: File and line of the declaration.
        input: The included saga's input, as given to `Saga.include`.
        given: As given to `Saga.include`.
        for_each: As given to `Saga.include`.
        when: As given to `Saga.include`.
    """

    kind = "include"

    def __init__(
        self,
        saga: SagaParts,
        inner: SagaParts,
        name: str,
        location: str,
        needs: tuple[Need, ...],
        input: str | Callable[[Any], Any] | None,
        given: Callable[[Any], Any] | None,
        for_each: ForEach | None,
        when: Callable[[Any], Any] | None,
    ) -> None:
        self.saga, self.inner, self.name, self.where = saga, inner, name, location
        self.input, self.given, self.for_each, self.when = input, given, for_each, when
        self._needs = needs

    @property
    def needs(self) -> list[str]:
        """The names of the steps and inclusions that it needs."""
        return [need_name(need) for need in self._needs]

    def __getitem__(self, step: Selection[R]) -> Selection[R]:
        """Return a step of the included saga, to ask for its result.

        Args:
            step: The step, as the included saga knows it.
        """
        return Within(self, step)

    def __repr__(self) -> str:
        return f"<{self.inner.name} as {self.name} of saga {self.saga.name}>"


class FanOutInclusion(Inclusion):
    """Hold the steps of another saga within this one's, once for each item.

    Made by `Saga.include` with `for_each=`. For all else see `Inclusion`.
    """

    @property
    def each(self) -> Each[Any]:
        """In `needs=`: the included saga of the same item."""
        return Each(self)

    def __getitem__(self, step: Selection[R]) -> Selection[Any]:
        """Return a step of all these sagas, whose result is a list or a dict.

        Args:
            step: The step, as the included saga knows it.
        """
        return Within(self, step)


class DeclareEach(Protocol[T]):
    """The type of `saga.step(for_each=...)` over a list: a decorator."""

    @overload
    def __call__(
        self, function: Callable[[ItemTask[Any, T]], Awaitable[R]], /
    ) -> FanOut[list[R], R]:
        ...

    @overload
    def __call__(self, function: Callable[[ItemTask[Any, T]], R], /) -> FanOut[list[R], R]:
        ...


class DeclareKeyed(Protocol[T]):
    """The type of `saga.step(for_each=...)` over a dict: a decorator."""

    @overload
    def __call__(
        self, function: Callable[[ItemTask[Any, T]], Awaitable[R]], /
    ) -> FanOut[dict[str, R], R]:
        ...

    @overload
    def __call__(self, function: Callable[[ItemTask[Any, T]], R], /) -> FanOut[dict[str, R], R]:
        ...


class StepName(str):
    """A needed step in a definition that is a text: it may be declared later."""


Part = Union[Step[Any], Inclusion]
Need = Union[Step[Any], Each[Any], Inclusion, Collection[Any], StepName]
"""An entry of `needs=`: a step, an inclusion, either of the same item, or a collection."""


# -- what a declaration says


def starts_children(step: object) -> bool:
    """Return whether a step starts a child saga for each of its items."""
    return isinstance(step, Collectable) and step.child is not None and step.for_each is None


def is_compensated(step: Step[Any]) -> bool:
    """Return whether a compensation is declared for a step."""
    return step.has_compensation and not step.undo.implied


def mark_lines(step: Step[Any]) -> list[str]:
    """Return what the text of a definition says of a step apart from its needs and costs."""
    marks = [definition_text.COMPENSATED] if is_compensated(step) else []
    if step.has_nothing:
        marks = [definition_text.NOTHING]
    return [*marks, definition_text.OPTIONAL] if step.is_optional else marks


def is_each(need: object) -> bool:
    """Return whether a need means only the step of the same item."""
    return isinstance(need, Each)


def need_name(need: Any) -> str:
    """Return the name of the needed part."""
    return need if isinstance(need, str) else str(need.name)


def is_shaped_step(step: Step[Any]) -> bool:
    """Return whether a step's existence or its costs depend on the input."""
    return step.for_each is not None or step.when is not None or has_computed_costs(step)


def has_computed_costs(step: Step[Any]) -> bool:
    """Return whether functions compute costs of a step."""
    return any(map(callable, step._costs.values()))


# -- errors of declarations


def location_of(function: Any) -> str | None:
    """Return the file and the line of a function, or None if it has no code."""
    code = getattr(inspect.unwrap(function), "__code__", None) if callable(function) else None
    return f"{code.co_filename}:{code.co_firstlineno}" if code else None


def caller(depth: int) -> str:
    """Return the file and the line of the call `depth` frames up."""
    frame = sys._getframe(depth)
    return f"{frame.f_code.co_filename}:{frame.f_lineno}"


def saga_error(saga: SagaParts, text: str) -> DefinitionError:
    """Return an error of a saga's declaration, with its file and line."""
    return DefinitionError(f"{saga.where}: saga {saga.name!r}: {text}")


def step_error(step: Part, text: str, location: str | None = None) -> DefinitionError:
    """Return an error of a step's declaration, with its file and line."""
    return DefinitionError(
        f"{location or step.where}: saga {step.saga.name!r}, step {step.name!r}: {text}"
    )


def check_manner(step: Step[Any], manner: Manner, role: str, location: str) -> None:
    """Raise `DefinitionError` if a function or an option of its calls is not valid.

    Args:
        step: The step.
        manner: The function and its options.
        role: `function` or `compensation`, for the message.
        location: File and line of the declaration.
    """
    for text in (*option_faults(manner, role), *function_faults(manner, role)):
        raise step_error(step, text, location)
