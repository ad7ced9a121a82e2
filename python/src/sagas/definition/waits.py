"""Steps that wait: for the end of a child saga, for a time, or for the decision of a person."""

from __future__ import annotations

import datetime
import inspect
import json
import re
from collections.abc import Awaitable, Callable, Iterable, Mapping
from typing import Any, Generic, Literal, TypeVar, Unpack, overload

from sagas.base.errors import DefinitionError, NotSerializable
from sagas.definition import awaitables, serialization, type_hints
from sagas.definition.arguments import shown
from sagas.definition.call_options import (
    Cost,
    CostOf,
    ENGINE_TRIES,
    Manner,
    Undo,
    seconds,
    with_defaults,
)
from sagas.definition.child_fan_outs import ChildFanOut, ChildItems, starting_saga
from sagas.definition.child_sagas import ChildResult, descendants
from sagas.definition.parts import SagaParts
from sagas.definition.step import Declare, Decorator, ForEach, Need, Step, Until, step_error
from sagas.definition.step_options import (
    ApprovalOptions,
    CHILD_DEFAULTS,
    ChildOptions,
    WaitOptions,
    approval_defaults,
    wait_defaults,
)

MAX_ITEM_NAME = 27
"""Limit of the name of a step that starts children for items, in characters."""
MAX_WITHIN = 1e11
"""Limit of the timeout of an approval, in seconds."""
MAX_SHOWN_FIELDS = 16
"""The maximum number of fields of the input that an approval shows."""
FIELD_PATH = re.compile(r"(?=.{1,128}\Z)[A-Za-z0-9_-]+(?:\.[A-Za-z0-9_-]+)*")
"""The path of a field of an input: names of letters, digits, `_` and `-`."""


class ChildSteps(SagaParts):
    """The part of `Saga` that declares child sagas."""

    @overload
    def child(
        self,
        saga: SagaParts,
        *,
        for_each: ChildItems,
        input: Callable[[Any], Any],
        **options: Unpack[ChildOptions],
    ) -> ChildFanOut:
        ...

    @overload
    def child(
        self,
        saga: SagaParts,
        *,
        for_each: ChildItems,
        input: None = None,
        **options: Unpack[ChildOptions],
    ) -> Callable[[Callable[[Any], Any]], ChildFanOut]:
        ...

    @overload
    def child(
        self,
        saga: SagaParts,
        *,
        for_each: None = None,
        input: Callable[[Any], Any],
        **options: Unpack[ChildOptions],
    ) -> Step[ChildResult]:
        ...

    @overload
    def child(
        self,
        saga: SagaParts,
        *,
        for_each: None = None,
        input: None = None,
        **options: Unpack[ChildOptions],
    ) -> Callable[[Callable[[Any], Any]], Step[ChildResult]]:
        ...

    def child(
        self,
        saga: SagaParts,
        *,
        for_each: ChildItems | None = None,
        input: Callable[[Any], Any] | None = None,
        **options: Unpack[ChildOptions],
    ) -> Any:
        """Declare a step that starts another saga, and waits for its end.

        The function returns the child's input. It may be called again: the first child that is
        started counts. The child's key is `KEY/:STEP`, by the saga's own key and the step's name.
        The step succeeds with a `ChildResult` once the child has completed. If the child ends
        otherwise, the step fails. An abort of the saga aborts the child. The compensation starts a
        saga of the child's compensations, with the key `KEY/:STEP:undo`. Its steps, needs and costs
        are those of the definition that the child ran with.

        Args:
            saga: The child's definition, which the store must have, too.
            for_each: A function of the task that returns a list, for example `lambda task:
                task.result_of(split)`, or the name of a list in the input: a child is started for
                each of up to 1,000 items (default: one child). The function gets an `ItemTask`, and
                its children have the keys `KEY/:STEP/:STEP-0`, `KEY/:STEP/:STEP-1` and so on. The
                result is the list of their results. `undo`, `keep` and the two options of failures
                are those of each child.
            input: The function, if the step is declared without a decorator.
            options: `name`: the step's name (default: the decorated function's, else the child's).
                `undo`: cost of undoing the child (default: the sum of its own; `NEVER` if one is).
                With another number, child steps that cannot be undone stay in place.
                `keep`: cost of leaving the completed child in place (default: the sum of its own).
                `on_exhausted`: what follows if the child does not complete: `fail`, or `ask` (wait
                for `Store.retry`, which starts another child with the key `KEY/:STEP/2`,
                `Store.complete` or `Store.fail`). An input that the child cannot have fails the
                step in any case (default: `fail`).
                `undo_on_exhausted`: what follows if the child cannot be undone as a whole: `fail`
                leaves the rest in place, or `ask` (wait for `Store.retry`, which undoes the rest in
                another saga with the key `KEY/:STEP:undo/2`, `Store.complete` or `Store.fail`)
                (default: `ask`). A compensation of its own has its own option.
                `needs`, `skip` and `optional`: see `StepOptions`. A child that is optional can be
                undone.

        Returns:
            The `Step`, or without `input` a decorator that returns it.

        Raises:
            DefinitionError: An argument is not valid, or the saga would be its own child.

        Example:
            >>> hotel = sagas.Saga("hotel")
            >>> @hotel.step(keep=9)
            ... def room(task):
            ...     return task.input["nights"]
            >>> @room.compensation
            ... def cancel(task):
            ...     print("cancel", task.result, "nights of", task.key)
            >>> trip = sagas.Saga("trip")
            >>> @trip.child(hotel)
            ... def stay(task):
            ...     return {"nights": task.input["days"] - 1}
            >>> @trip.step(needs=[stay])
            ... def tour(task):
            ...     return task.result_of(stay)["results"]["room"]
            >>> sagas.testing.run(trip, {"days": 4}).results["tour"]
            3
            >>> sagas.testing.run(trip, {"days": 4}, fail={tour: sagas.Fail}).states
            cancel 3 nights of test/:stay
            {'stay': 'undone', 'tour': 'failed'}
        """

        chosen = with_defaults("Saga.child", options, CHILD_DEFAULTS)
        name, undo_on_exhausted = chosen["name"], chosen["undo_on_exhausted"]

        def declare(function: Callable[[Any], Any]) -> Step[Any]:
            manner = Manner(function, on_exhausted=chosen["on_exhausted"])
            step = self._add(
                function,
                name or (None if input is None else getattr(saga, "name", None)),
                "child",
                chosen["needs"],
                {"run": 0, "undo": chosen["undo"], "skip": chosen["skip"], "keep": chosen["keep"]},
                manner,
                None,
                is_optional=chosen["optional"],
                make=Step if for_each is None else ChildFanOut,
            )
            step.child = saga
            self.has_children = True
            _check_child(step, saga)
            if undo_on_exhausted not in ("fail", "ask"):
                rule = f"undo_on_exhausted={undo_on_exhausted!r}: must be fail or ask"
                raise step_error(step, rule)
            step.undo.on_exhausted = undo_on_exhausted
            if isinstance(step, ChildFanOut):
                step.items = _checked_items(step, for_each)
                step.child = starting_saga(step, saga, undo_on_exhausted)
            return step

        check_is_saga(saga)
        if input is not None:
            return declare(input)
        return Decorator(self, f"{self.name}.child", name, declare)

    def _add(
        self,
        function: Callable[[Any], Any] | None,
        name: str | None,
        kind: str,
        needs: Iterable[Need],
        costs: Mapping[str, Undo | None],
        manner: Manner,
        concurrency: int | None,
        for_each: ForEach | None = None,
        when: Callable[[Any], Any] | None = None,
        is_optional: bool = False,
        is_pivot: bool = False,
        make: type[Step[Any]] | None = None,
    ) -> Step[Any]:
        raise NotImplementedError


class WaitSteps(ChildSteps):
    """The part of `Saga` that declares steps that wait."""

    def wait(self, *, until: Until, **options: Unpack[WaitOptions]) -> Declare:
        """Declare a function that is called at a time, by `@saga.wait(...)`.

        Until then the step takes no slot. If the saga is undone before the time, it does not wait
        for it.

        Args:
            until: A timedelta from when the needs are committed, a datetime with a time zone, or a
                plain function of the task that returns either, called in a thread.
            options: `name`, `needs`, `skip`, `keep`, `timeout`, `backoff`, `concurrency`,
                `for_each`, `when` and `optional`. See `StepOptions`.
                `undo` (default: `NOTHING`): with `NEVER` its function's effect cannot be undone.
                `tries` (default: 10): an undo during the wait uses one of them.

        Returns:
            A decorator that returns the `Step`.

        Raises:
            DefinitionError: An argument is not valid.
        """

        chosen = with_defaults("Saga.wait", options, wait_defaults(self.defaults))
        timeout, name = chosen["timeout"], chosen["name"]

        def declare(function: Callable[[Any], Any]) -> Step[Any]:
            time = timeout if timeout is None else seconds(timeout)
            manner = Manner(
                function,
                chosen["tries"],
                time,
                chosen["backoff"],
                spare_tries=ENGINE_TRIES,  # an undo during the wait uses one
            )
            step = self._add(
                function,
                name,
                "wait",
                chosen["needs"],
                {"run": 0, "undo": chosen["undo"], "skip": chosen["skip"], "keep": chosen["keep"]},
                manner,
                chosen["concurrency"],
                chosen["for_each"],
                chosen["when"],
                chosen["optional"],
            )
            step.until = until
            check_until(step, until)
            return step

        return Decorator(self, f"{self.name}.wait", name, declare)

    @overload
    def approval(self, function: Callable[[Any], Any], /) -> Step[Any]:
        ...

    @overload
    def approval(
        self, function: None = None, /, **options: Unpack[ApprovalOptions]
    ) -> Callable[[Callable[[Any], Any]], Step[Any]]:
        ...

    def approval(
        self, function: Callable[[Any], Any] | None = None, /, **options: Unpack[ApprovalOptions]
    ) -> Any:
        """Declare a step that a person decides, by `@saga.approval`.

        The function asks for the decision, for example by mail, and returns None. `Store.complete`
        or `Store.fail` reports the decision. The function can also return it at once, as
        `Approved` or `Rejected`.

        Args:
            function: The function, if no option is given.
            options: `name`, `needs`, `skip`, `backoff`, `for_each`, `when` and `optional`. See
                `StepOptions`.
                `undo` (default: `NOTHING`): with `NEVER` the approval cannot be revoked.
                `timeout`: seconds, or a timedelta, after which the step has failed (default: none).
                `tries` (default: 10): an undo during the wait uses one of them.
                `call_timeout`: as a step's `timeout`, for the function itself (default: none).
                `show`: up to 16 fields of the input that the service shows to those who decide, for
                example `["amount", "customer.name"]` (default: none). A path has names of fields,
                separated by dots. Each field must exist in the type of the input, if it has one.

        Returns:
            The `Step`, or a decorator that returns it.

        Raises:
            DefinitionError: An argument is not valid.
        """

        chosen = with_defaults("Saga.approval", options, approval_defaults(self.defaults))
        call_timeout, name = chosen["call_timeout"], chosen["name"]

        def declare(function: Callable[[Any], Any]) -> Step[Any]:
            time = None if call_timeout is None else seconds(call_timeout)
            manner = Manner(
                function,
                chosen["tries"],
                time,
                chosen["backoff"],
                spare_tries=ENGINE_TRIES,  # an undo during the wait uses one
            )
            manner.asks = True
            step = self._add(
                function,
                name,
                "approval",
                chosen["needs"],
                {"run": 0, "undo": chosen["undo"], "skip": chosen["skip"], "keep": 0},
                manner,
                None,
                chosen["for_each"],
                chosen["when"],
                chosen["optional"],
            )
            step.approval_timeout = approval_timeout(step, chosen["timeout"])
            step.shown_fields = _checked_fields(step, chosen["show"])
            return step

        return (
            Decorator(self, f"{self.name}.approval", name, declare)
            if function is None
            else declare(function)
        )


# -- errors


def check_is_saga(saga: object) -> None:
    """Raise `DefinitionError` if an argument is not a saga."""
    if not isinstance(saga, ChildSteps):
        raise DefinitionError(f"expected a sagas.Saga, got {saga!r}")


def _check_child(step: Step[Any], child: SagaParts) -> None:
    """Raise `DefinitionError` if a step cannot start this child."""
    function = step.run.function
    if inspect.iscoroutinefunction(function):
        raise step_error(
            step,
            "its function is async, but the function of a child's input must be a plain function. "
            "Compute the input in a step that this one needs",
        )
    if step.run.on_exhausted == "retry":
        rule = "must be fail or ask, because a child is not repeated without end"
        raise step_error(step, f"on_exhausted='retry': {rule}")
    if step.saga is child or step.saga in descendants(child):
        raise step_error(
            step, f"saga {step.saga.name!r} would be its own child. Declare another saga"
        )


def _checked_items(step: Step[Any], items: Any) -> ChildItems:
    """Return `for_each` of a step that starts children. Raises `DefinitionError`."""
    if not isinstance(items, str) and (
        not callable(items) or inspect.iscoroutinefunction(items) or isinstance(items, Step)
    ):
        rule = "must be a plain function of the task: lambda task: task.result_of(split)"
        raise step_error(step, f"for_each={items!r}: {rule}, or the name of a list in the input")
    if isinstance(items, str) and (hint := step.saga.input_type) is not None:
        if fault := type_hints.items_fault(hint, items):
            raise step_error(step, f"for_each={items!r}: {fault}")
    if len(step.name) > MAX_ITEM_NAME:
        raise step_error(
            step,
            f"its name has {len(step.name)} characters, and with for_each it may have at most "
            f"{MAX_ITEM_NAME}, because the number of the item follows it. Set another name=",
        )
    return items  # type: ignore[no-any-return]


def check_until(step: Step[Any], until: object) -> None:
    """Raise `DefinitionError` if the time of a wait is not valid."""
    if isinstance(until, datetime.datetime):
        if until.tzinfo is None:
            raise step_error(
                step,
                f"until={until!r}: it has no time zone. Set one, for example "
                "datetime.timezone.utc",
            )
    elif not isinstance(until, datetime.timedelta) and (
        not callable(until) or inspect.iscoroutinefunction(until)
    ):
        raise step_error(
            step,
            f"until={until!r}: must be a timedelta, a datetime, or a plain function of "
            "the task that returns one",
        )


def approval_timeout(step: Step[Any], timeout: object) -> datetime.timedelta | None:
    """Return the timeout of an approval as a timedelta.

    Raises:
        DefinitionError: It is not valid.
    """
    time = (
        datetime.timedelta(seconds=timeout)
        if isinstance(timeout, (int, float))
        and not isinstance(timeout, bool)
        and abs(timeout) < MAX_WITHIN
        else timeout
    )
    if time is not None and not (
        isinstance(time, datetime.timedelta) and time > datetime.timedelta(0)
    ):
        raise step_error(step, f"timeout={timeout!r}: must be seconds or a timedelta, > 0")
    return time


def _checked_fields(step: Step[Any], show: Any) -> tuple[str, ...]:
    """Return the fields that an approval shows. Raises `DefinitionError`."""
    is_list = isinstance(show, (list, tuple)) and len(show) <= MAX_SHOWN_FIELDS
    if not is_list or not all(
        isinstance(path, str) and FIELD_PATH.fullmatch(path) for path in show
    ):
        rule = f"must be a list of up to {MAX_SHOWN_FIELDS} fields of the input"
        raise step_error(
            step, f"show={shown(show)}: {rule}, for example ['amount', 'customer.name']"
        )
    if len({*show}) < len(show):
        raise step_error(step, f"show={shown(show)}: must name each field only once")
    function_hint = type_hints.input_hint(step.run.function) if step.run.function else None
    for hint in (step.saga.input_type, function_hint):
        for path in show if hint is not None else ():
            if fault := type_hints.field_fault(hint, path):
                raise step_error(step, f"show={shown(show)}: {fault}")
    return (*show,)


# -- decisions


R = TypeVar("R")


class Approved(Generic[R]):
    """Return this from an approval's function to approve at once.

    Args:
        result: The step's result (default: None).

    Attributes:
        result: The step's result.

    Example:
        >>> trip = sagas.Saga("trip")
        >>> @trip.approval
        ... def review(task):
        ...     if task.input["amount"] < 100:
        ...         return sagas.Approved("small")
        >>> sagas.testing.run(trip, {"amount": 99}).results
        {'review': 'small'}
        >>> sagas.testing.run(trip, {"amount": 500}, answers={review: "by Ann"}).results
        {'review': 'by Ann'}
    """

    __slots__ = ("result",)

    def __init__(self, result: R | None = None) -> None:
        self.result = result

    def __repr__(self) -> str:
        return "<approved>"


class Rejected:
    """Return this from an approval's function to reject at once, permanently.

    Args:
        why: The reason.

    Attributes:
        why: The reason.

    Raises:
        TypeError: The reason is not a text.
    """

    __slots__ = ("why",)

    def __init__(self, why: str) -> None:
        if not isinstance(why, str):
            raise TypeError(f"Rejected({type(why).__name__}): the reason must be a text")
        self.why = why

    def __repr__(self) -> str:
        return f"<rejected: {self.why}>"


class Answer:
    """An `Approved` or `Rejected` that the function of an approval returned."""

    def __init__(self, decision: Approved[Any] | Rejected) -> None:
        self.decision = decision

    def written(self) -> str:
        """Return the decision as JSON.

        If the result cannot be written as JSON, the text has the error instead.
        """
        if isinstance(self.decision, Rejected):
            return json.dumps({"rejected": self.decision.why})
        try:
            return f'{{"approved":{serialization.write_value(self.decision.result)}}}'
        except NotSerializable as error:
            return json.dumps({"approved": {serialization.UNSTORABLE: str(error)}})


def answering(function: Callable[[Any], Any]) -> Callable[[Any], Any]:
    """Wrap the function of an approval: a returned decision becomes an `Answer`."""
    if inspect.iscoroutinefunction(function):

        async def act(task: Any) -> Any:
            return _answer(await function(task))

        return act

    def answer(task: Any) -> Any:
        value = function(task)
        return _awaited(value) if inspect.isawaitable(value) else _answer(value)

    return answer


async def _awaited(value: Awaitable[Any]) -> Any:
    return _answer(await awaitables.awaited(value))


def _answer(value: Any) -> Any:
    return Answer(value) if isinstance(value, (Approved, Rejected)) else value
