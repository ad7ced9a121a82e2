"""`Saga`, and the texts of its definition."""

from __future__ import annotations

import hashlib
import sys
from collections.abc import Awaitable, Callable, Iterable, Mapping, Sequence
from typing import Any, Generic, Literal, TypeVar, Unpack, overload

from sagas.base import program
from sagas.base.errors import DefinitionError
from sagas.base.wording import number
from sagas.definition import (
    definition_text,
    drawing,
    end_calls,
    pivot,
    serialization,
    shape,
    validation,
)
from sagas.definition.call_options import (
    Bounds,
    Cost,
    Manner,
    NEVER,
    SagaOptions,
    Seconds,
    Undo,
    nothing,
    rate_limit_of,
    seconds,
    with_defaults,
)
from sagas.definition.parts import Order, SagaParts
from sagas.definition.step import (
    Declare,
    DeclareEach,
    DeclareKeyed,
    Decorator,
    FanOut,
    FanOutInclusion,
    ForEach,
    Inclusion,
    Need,
    Part,
    R,
    Step,
    caller,
    location_of,
    mark_collected,
    mark_lines,
)
from sagas.definition.step_options import (
    EndOptions,
    ExternalOptions,
    FunctionOptions,
    StepOptions,
    step_defaults,
)
from sagas.definition.waits import WaitSteps, check_is_saga

I = TypeVar("I")
T = TypeVar("T")


class Saga(WaitSteps, Generic[I]):
    """Declare a type of saga: a name, a version, and its steps in order.

    Open sagas of an older version continue with its functions, as long as `open` gets both
    versions.

    Args:
        name: 1 to 32 characters a-z, 0-9, `_` or `-`, the first one a letter.
        version: A whole number from 1 (default: 1). Raise it if the definition's meaning changes.
        deadline: Seconds, or a timedelta, from the start of a saga, after which it is aborted if it
            has not ended (default: none). `Store.start` may set another one.
        fair_by: A function of the input as a JSON value, whose result names a tenant. The slots of
            `open(concurrency=...)` are shared among tenants in turn (default: None).
        input: The type of the input: a dataclass, a `TypedDict`, a pydantic model or another type.
            `start` decodes the input with it, and a type checker refuses an input of another type.
            Functions that compute steps and costs get it (default: the hint of the first step that
            has one).
        order: `needs`: steps that do not need one another run in parallel. `declared`: each step
            also needs the step, or the included saga, that is declared before it (default:
            `needs`).
        defaults: `tries`, `backoff`, `timeout`, `no_effect`, `max_unknown`, `on_exhausted` and
            `queue` of all its steps and their compensations, for those that do not have their own.
            See `StepOptions`. Waits, approvals and steps done elsewhere take those that they can
            have. For an approval, `timeout` is that of its function. Child sagas and included sagas
            have their own. With `on_exhausted="fail"`, a compensation asks nevertheless.

    Attributes:
        name: The name.
        version: The version.
        deadline: The deadline.
        where: File and line of the declaration.
        fair_by: The function that names the tenant, or None.
        input_type: As given.
        order: As given.
        defaults: As given, by name.
        parts: The steps and the inclusions, in the order of their declaration.
        steps: The steps.
        outers: The sagas that include it.
        decorators: Decorators that no function has yet.
        has_children: Whether a step of it, or of a saga that it includes, starts another saga.
        end_saga: The saga that calls its `on_end` function, or None.

    Raises:
        DefinitionError: The name, the version, the deadline or a default is not valid.
        TypeError: An option does not exist.

    Example:
        >>> import sagas, sagas.testing
        >>> order = sagas.Saga("order")
        >>> @order.step(keep=9)
        ... def charge(task):
        ...     return task.input["amount"]
        >>> @charge.compensation
        ... def refund(task):
        ...     print("refund", task.result)
        >>> @order.step(needs=[charge], skip=4)
        ... def send(task):
        ...     raise sagas.Fail("sold out")
    """

    @overload
    def __init__(
        self: Saga[Any],
        name: str,
        *,
        version: int = 1,
        deadline: Seconds | None = None,
        fair_by: Callable[[Any], Any] | None = None,
        input: None = None,
        **defaults: Unpack[SagaOptions],
    ) -> None:
        ...

    @overload
    def __init__(
        self,
        name: str,
        *,
        input: type[I],
        version: int = 1,
        deadline: Seconds | None = None,
        fair_by: Callable[[Any], Any] | None = None,
        **defaults: Unpack[SagaOptions],
    ) -> None:
        ...

    @overload
    def __init__(
        self: Saga[Any],
        name: str,
        *,
        input: Any,
        version: int = 1,
        deadline: Seconds | None = None,
        fair_by: Callable[[Any], Any] | None = None,
        **defaults: Unpack[SagaOptions],
    ) -> None:
        ...

    def __init__(
        self,
        name: str,
        *,
        version: int = 1,
        deadline: Seconds | None = None,
        fair_by: Callable[[Any], Any] | None = None,
        input: Any = None,
        order: Order = "needs",
        **defaults: Unpack[SagaOptions],
    ) -> None:
        self.name, self.version, self.where = name, version, caller(2)
        self.deadline, self.fair_by = deadline, fair_by
        self.input_type, self.order, self.defaults = input, order, defaults
        self._roles: tuple[int, Mapping[str, pivot.Role]] = (0, {})
        self.parts: list[Part] = []
        self.steps: list[Step[Any]] = []
        self.outers: list[SagaParts] = []
        self.decorators: list[Decorator] = []
        validation.check_name(self)
        validation.check_key(fair_by, f"{self.where}: saga {name!r}: fair_by")
        validation.check_order(self)
        validation.check_defaults(self)

    @overload
    def step(self, function: Callable[[Any], Awaitable[R]], /) -> Step[R]:
        ...

    @overload
    def step(self, function: Callable[[Any], R], /) -> Step[R]:
        ...

    @overload
    def step(
        self,
        function: None = None,
        /,
        *,
        external: Literal[True],
        for_each: None = None,
        **options: Unpack[ExternalOptions],
    ) -> Step[Any]:
        ...

    @overload
    def step(
        self,
        function: None = None,
        /,
        *,
        external: Literal[True],
        for_each: ForEach,
        **options: Unpack[ExternalOptions],
    ) -> FanOut[Any, Any]:
        ...

    @overload
    def step(
        self,
        function: None = None,
        /,
        *,
        for_each: Callable[[Any], Mapping[str, T]],
        **options: Unpack[FunctionOptions],
    ) -> DeclareKeyed[T]:
        ...

    @overload
    def step(
        self, function: None = None, /, *, for_each: str, **options: Unpack[FunctionOptions]
    ) -> DeclareEach[Any]:
        ...

    @overload
    def step(
        self,
        function: None = None,
        /,
        *,
        for_each: Callable[[Any], Sequence[T]],
        **options: Unpack[FunctionOptions],
    ) -> DeclareEach[T]:
        ...

    @overload
    def step(self, function: None = None, /, **options: Unpack[FunctionOptions]) -> Declare:
        ...

    def step(
        self, function: Callable[[Any], Any] | None = None, /, **options: Unpack[StepOptions]
    ) -> Any:
        """Declare a function as a step, by `@saga.step` or `@saga.step(...)`.

        The function gets a `Task`. It may be called again, for example after a crash: send
        `task.idempotency_key` to services. Its result is stored as JSON before a step that needs it
        starts. If it raises, its effect may have happened, and the same attempt repeats. `Fail`
        means that it had no effect and never will; `Retry`, and the exceptions in `no_effect`, that
        it had none now. Plain functions run in threads; async ones run in the event loop, and must
        not block it.

        Args:
            function: The function, if no option is given.
            options: See `StepOptions`.

        Returns:
            The `Step`, or a decorator that returns it.

        Raises:
            DefinitionError: An argument is not valid. The message has the file and the line.
            TypeError: An option does not exist.
        """
        external = options.get("external", False)
        if not isinstance(external, bool):
            raise DefinitionError(
                f"{caller(2)}: saga {self.name!r}: external={external!r}: must be " "True or False"
            )
        chosen = with_defaults("Saga.step", options, step_defaults(self.defaults, external))
        timeout = chosen["timeout"]

        def declare(function: Callable[[Any], Any] | None) -> Step[Any]:
            manner = Manner(
                function,
                chosen["tries"],
                timeout if timeout is None else seconds(timeout),
                chosen["backoff"],
                chosen["no_effect"],
                chosen["max_unknown"],
                function is None,
                chosen["transaction"],
                queue=chosen["queue"],
                on_exhausted=chosen["on_exhausted"],
                cancel_on_abort=chosen["cancel_on_abort"],
            )
            step = self._add(
                function,
                chosen["name"],
                "step",
                chosen["needs"],
                {
                    "run": chosen["run"],
                    "undo": chosen["undo"],
                    "skip": chosen["skip"],
                    "keep": chosen["keep"],
                },
                manner,
                chosen["concurrency"],
                chosen["for_each"],
                chosen["when"],
                chosen["optional"],
                chosen["pivot"],
            )
            step.concurrency_by = chosen["concurrency_by"]
            step.early_unused = chosen["early_unused"]
            validation.check_early_unused(step)
            if chosen["fleet_concurrency"] is not None or chosen["rate_limit"] is not None:
                rate, is_keyed = (
                    rate_limit_of(chosen["rate_limit"]),
                    step.concurrency_by is not None,
                )
                step.bounds = Bounds(chosen["fleet_concurrency"], rate, is_keyed)
                validation.check_bounds(step, step.bounds)
            validation.check_concurrency_by(step)
            return step

        return (
            declare(function)
            if function is not None or external
            else Decorator(self, f"{self.name}.step", chosen["name"], declare)
        )

    def _add(
        self,
        function: Callable[[Any], Any] | None,
        name: str | None,
        kind: str,
        needs: Iterable[Need],
        costs: Mapping[str, Undo | None],
        manner: Manner,
        concurrency: int | None,
        for_each: ForEach | None = None,
        when: Callable[[Any], Any] | None = None,
        is_optional: bool = False,
        is_pivot: bool = False,
        make: type[Step[Any]] | None = None,
    ) -> Step[Any]:
        location = location_of(function) or caller(4)
        step_name = name or str(getattr(function, "__name__", "?"))
        needed = self._ordered_needs(validation.listed_needs(needs, self, step_name, location))
        make = make or (Step if for_each is None else FanOut)
        step = make(self, step_name, location, kind, needed, costs, manner, for_each, when)
        step.concurrency, step.is_optional, step.is_pivot = concurrency, is_optional, is_pivot
        undo = 0 if is_optional and costs["undo"] is None else step.declared_cost("undo")
        if undo is not NEVER and not is_pivot and (kind != "step" or undo == 0):
            step.undo = Manner(nothing, implied=True)
        validation.check_step(step)
        mark_collected(needed)
        self.steps.append(step)
        self.parts.append(step)
        if manner.queue:
            manner.queue.declare(step, "run", manner)
        return step

    @overload
    def include(
        self,
        saga: Saga[Any],
        *,
        name: str | None = None,
        needs: Iterable[Need] = (),
        input: str | Callable[[Any], Any] | None = None,
        given: Callable[[Any], Any] | None = None,
        when: Callable[[Any], Any] | None = None,
        for_each: None = None,
    ) -> Inclusion:
        ...

    @overload
    def include(
        self,
        saga: Saga[Any],
        *,
        for_each: ForEach,
        name: str | None = None,
        needs: Iterable[Need] = (),
        input: str | Callable[[Any], Any] | None = None,
        given: Callable[[Any], Any] | None = None,
        when: Callable[[Any], Any] | None = None,
    ) -> FanOutInclusion:
        ...

    def include(
        self,
        saga: Saga[Any],
        *,
        name: str | None = None,
        needs: Iterable[Need] = (),
        input: str | Callable[[Any], Any] | None = None,
        given: Callable[[Any], Any] | None = None,
        when: Callable[[Any], Any] | None = None,
        for_each: ForEach | None = None,
    ) -> Inclusion:
        """Include the steps of another saga in this one, under one plan.

        The step `room` of an inclusion `hotel` has the name `hotel-room`. The functions of the
        included saga see only its own input and its own steps.

        Args:
            saga: The saga, which may include others. It can also be started on its own.
            name: The inclusion's name (default: the saga's).
            needs: As of `Saga.step`: what commits before any step of the included saga.
            input: Of the included saga: the name of a part of the input, or a function of the
                input; with `for_each` of the item (default: the input itself, or the item).
            given: A plain function of the task that a step here would get. The functions of the
                included saga read its result as `task.given` (default: None).
            when: As of `Saga.step` (default: it is always there).
            for_each: As of `Saga.step`: the saga is included once for each item (default: once).

        Returns:
            The `Inclusion`. It can be needed as a step can; `hotel[room]` is a step of it.

        Raises:
            DefinitionError: An argument is not valid.
        """
        check_is_saga(saga)
        location = caller(2)
        inclusion_name = saga.name if name is None else name
        needed = self._ordered_needs(validation.listed_needs(needs, self, inclusion_name, location))
        make = Inclusion if for_each is None else FanOutInclusion
        inclusion = make(self, saga, inclusion_name, location, needed, input, given, for_each, when)
        validation.check_inclusion(inclusion)
        mark_collected(needed)
        self.parts.append(inclusion)
        saga.outers.append(self)
        self.has_children = self.has_children or saga.has_children
        return inclusion

    def _ordered_needs(self, needs: tuple[Any, ...]) -> tuple[Any, ...]:
        """Return the needs of the next part, with the part before it if the order says so."""
        if self.order == "needs" or not self.parts:
            return needs
        previous = self.parts[-1]
        is_needed = any(previous.name == getattr(need, "name", need) for need in needs)
        return needs if is_needed else (*needs, previous)

    @overload
    def on_end(self, function: Callable[[Any], T], /) -> Callable[[Any], T]:
        ...

    @overload
    def on_end(
        self, function: None = None, /, *, external: Literal[True], **options: Unpack[EndOptions]
    ) -> None:
        ...

    @overload
    def on_end(
        self,
        function: None = None,
        /,
        *,
        external: Literal[False] = False,
        **options: Unpack[EndOptions],
    ) -> Callable[[Callable[[Any], T]], Callable[[Any], T]]:
        ...

    def on_end(
        self,
        function: Callable[[Any], Any] | None = None,
        /,
        *,
        external: bool = False,
        **options: Unpack[EndOptions],
    ) -> Any:
        """Declare the function to call after each end of a saga, by `@saga.on_end`.

        It is called at least once, however the saga ends: `completed`, `recovered` or `stuck`. That
        includes sagas that are aborted, and those that another saga starts as children. The call is
        due with the commit of the end, and survives a crash. It is a saga of its own, with the key
        `KEY/::end` and the name `NAME-end`, and never changes how the first saga ended.

        The function gets an `EndTask`: `task.end` is the `SagaResult`. It is called as the function
        of a step is: what it raises has the same meaning, and it may be called again. After its
        last attempt, or if it raises `Fail`, it waits for a person: see `Store.attention`.

        Args:
            function: The function, if no option is given.
            external: A `Worker` calls it, or another program reports it: call
                `saga.on_end(external=True)` (default: False).
            options: `tries`, `timeout`, `backoff`, `no_effect`, `max_unknown`, `queue` and
                `on_exhausted`, whose defaults are those of the saga, and `transaction`,
                `concurrency`, `fleet_concurrency` and `rate_limit`. See `StepOptions`.
                `on_exhausted` is `ask` or `retry` (default: `ask`).

        Returns:
            The function, or a decorator that returns it.

        Raises:
            DefinitionError: The saga has such a function already, or an argument is not valid.
            TypeError: The option is unknown.

        Example:
            >>> parcel = sagas.Saga("parcel")
            >>> @parcel.step
            ... def send(task):
            ...     raise sagas.Fail("sold out")
            >>> @parcel.on_end(tries=5)
            ... def apologize(task):
            ...     if not task.end.ok:
            ...         print("sorry:", task.end.errors["send"])
            >>> trial = sagas.testing.run(parcel)
            sorry: sagas.Fail: sold out
        """
        chosen = end_calls.options_of(options, self.defaults, external)

        def declare(function: Callable[[Any], Any] | None) -> Callable[[Any], Any] | None:
            location = location_of(function) or caller(3)
            if self.end_saga is not None:
                end_calls.refuse_second(self, location)
            end_calls.check_options(self, chosen, location)
            end_saga = Saga[Any](definition_text.end_name_of(self.name), version=self.version)
            end_saga.where, end_saga.ends = location, self
            end_saga.fair_by = end_calls.of_ended_input(self.fair_by)
            step_options: Any = {"name": end_calls.STEP, "undo": NEVER, "skip": NEVER, **chosen}
            step: Step[Any] = (
                end_saga.step(external=True, **step_options)
                if function is None
                else end_saga.step(**step_options)(function)
            )
            step.where = location
            if function is not None:
                step.run.function = end_calls.wrapped(function, self)
            self.end_saga = end_saga
            return function

        if function is not None or external:
            return declare(function)
        return Decorator(self, f"{self.name}.on_end", None, declare)

    def cost_of(self, step: Step[Any], word: str) -> Cost:
        """Return one of the costs of a step, as `Step.cost` does.

        Args:
            step: A step of this saga.
            word: `run`, `undo`, `skip` or `keep`.
        """
        count, roles = self._roles
        if count != len(self.parts):
            roles = pivot.roles_of(self)
            self._roles = len(self.parts), roles
        role = roles.get(step.name)
        return step.own_cost(word) if role is None else pivot.cost_of(step, word, role)

    def check(self) -> None:
        """Check the whole definition, as `toml` and `open` do.

        Raises:
            DefinitionError: The first error that only the whole definition shows.
        """
        validation.check_saga(self)

    def warnings(self) -> list[str]:
        """Return warnings about valid but unlikely options; `open` logs them.

        For example, a compensation that can never be called, or a type hint that cannot be read.
        """
        return validation.warnings_of(self)

    def toml(self, input: Any = None) -> str:
        """Return the definition in the format of a definition file.

        Args:
            input: The input, for a saga whose steps or costs come from it (default: None).

        Raises:
            DefinitionError: As `check`.
            InvalidInput: The steps cannot be computed from the input.
            TooLarge: The saga has too many steps or needs for the input.
            NotSerializable: The input is not JSON.
        """
        if not self.is_shaped:
            return validation.checked_text(self)
        self.check()
        text = serialization.write_value(input, "input")
        return shape.write_definition(shape.Shape(self, text))

    def draw(self, input: Any = None, *, unfold: Iterable[str] = ()) -> str:
        """Return the saga as text for Graphviz, for example for `dot -Tsvg`.

        Args:
            input: As of `toml` (default: None).
            unfold: The declared names, such as `hotel/room`, of the steps with items and of the
                included sagas whose parts are drawn as single nodes; `"*"`: all (default: none).

        Raises:
            DefinitionError: As `check`. For other exceptions see `toml`.
            EngineError: The program `sagas` cannot be run.
        """
        text = self.toml(input)
        return drawing.fold(program.draw(text), text, {*unfold})

    def __repr__(self) -> str:
        return f"<saga {self.name}, version {self.version}, {number(len(self.steps), 'step')}>"


# -- texts


def declared_text(saga: SagaParts) -> str:
    """Return a text that differs if the declaration differs.

    It is the definition. If the steps come from the input, it lists the declared parts instead.
    """
    if not saga.is_shaped:
        return validation.checked_text(saga)
    validation.check_saga(saga)
    lines = [f"# version {saga.version}", *pivot.pivot_lines(saga), f'name = "{saga.name}"']
    for part in saga.parts:
        needs = [repr(need) for need in part._needs]
        lines += [f'[{part.kind}] "{part.name}"', f"needs = {needs}"]
        lines += [f"{word} = {_option_text(getattr(part, word))}" for word in ("for_each", "when")]
        inner = getattr(part, "inner", None)
        if inner is not None:
            lines.append(f"of = {hashlib.sha256(declared_text(inner).encode()).hexdigest()}")
            continue
        step: Any = part
        lines += [f"{word} = {_option_text(cost)}" for word, cost in step._costs.items()]
        lines.append(f"tries = {step.run.engine_tries}, {step.undo.engine_tries}")
        lines += mark_lines(step)
    return "\n".join(lines) + "\n"


def _option_text(value: object) -> str:
    return "function" if callable(value) else repr(value)


if sys.version_info < (3, 11):  # pragma: no cover
    raise ImportError("sagas needs Python 3.11 or later")
