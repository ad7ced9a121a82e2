"""`Task`: the argument of a step's function, and its location in a saga."""

from __future__ import annotations

import datetime
import inspect
from collections.abc import Callable, Mapping
from typing import Any, Generic, TYPE_CHECKING, TypeVar, overload

from sagas.base.errors import (
    CannotDecode,
    MissingResult,
    ProgramError,
    ResultNotSerializable,
    StepFailed,
)
from sagas.definition import serialization, tokens, type_checks
from sagas.definition.parts import needed_parts
from sagas.definition.step import (
    Collectable,
    Collected,
    Collection,
    Selection,
    collected_of,
    starts_children,
)
from sagas.definition.task_data import (
    Cancellation,
    NO_ITEM,
    Progress,
    TaskData,
    TaskSnapshot,
    snapshot,
)

if TYPE_CHECKING:
    from sagas.definition.step_location import StepLocation

C = TypeVar("C")
I = TypeVar("I")
R = TypeVar("R")
T = TypeVar("T")
D = TypeVar("D")
REQUIRED: Any = object()
"""The default of a result that must exist."""


class Task(Generic[I]):
    """Describe one attempt of a step, or of its compensation, to its function.

    Made by the store for each call. Write `task: Task[Order]` to get the input as an `Order`. A
    copy for another process has all of it, except the connection.

    Example:
        >>> hello = sagas.Saga("hello")
        >>> @hello.step
        ... def greet(task):
        ...     return f"{task.saga} {task.key} {task.step} {task.attempt} {task.input['to']}"
        >>> sagas.testing.run(hello, {"to": "you"}, key="h-1").results
        {'greet': 'hello h-1 greet 1 you'}
    """

    __slots__ = ("_data", "_needed_results", "_connection", "_take")

    def __init__(self, data: TaskData) -> None:
        self._data = data
        self._needed_results: Mapping[str, str] | None = None
        self._connection: Any = None
        self._take: Callable[[], Any] | None = None

    @property
    def saga(self) -> str:
        """The saga's name."""
        return self._data.saga

    @property
    def key(self) -> str:
        """The saga's key."""
        return self._data.key

    @property
    def step(self) -> str:
        """The step's name."""
        return self._data.name

    @property
    def is_compensation(self) -> bool:
        """Whether this is an attempt of the step's compensation."""
        return self._data.undo

    @property
    def attempt(self) -> int:
        """The attempt's number, from 1."""
        return self._data.attempt

    @property
    def deadline(self) -> datetime.datetime | None:
        """When the saga is aborted if it has not ended, or None. It has a time zone."""
        at = self._data.deadline
        return None if at is None else datetime.datetime.fromtimestamp(at, datetime.timezone.utc)

    @property
    def traceparent(self) -> str | None:
        """The W3C trace context that the saga was started in, or None.

        Send it to services as the header `traceparent`. If `opentelemetry-api` is installed, the
        span of this attempt is a child of it, and is current while the function runs.
        """
        return self._data.traceparent

    def __reduce__(self) -> tuple[type[Task[Any]], tuple[TaskSnapshot]]:
        """Copy the data of the task, without its connection and its context.

        The copy is never cancelled, and its progress is not stored.
        """
        return Task, (snapshot(self._data),)

    @property
    def _texts(self) -> Mapping[str, str]:
        """The results that the function may read, by step; cached, since it may read many."""
        if self._needed_results is None:
            self._needed_results = self._data.needed_results
        return self._needed_results

    def _enter(self, connection: Any) -> None:
        """Set the connection of a step with `transaction=True`.

        Args:
            connection: The connection.
        """
        self._connection = connection

    def _enter_by(self, take: Callable[[], Any]) -> None:
        """Set the function that returns the connection when `connection` is read.

        Args:
            take: Returns the connection.
        """
        self._take = take

    def _leave(self) -> Any:
        """End the use of the connection, and return it if it was read, else None."""
        self._take = None
        return self._connection

    @property
    def connection(self) -> Any:
        """The psycopg connection of a step with `transaction=True`.

        The step's result commits in its transaction. Do not commit it or roll it back. An async
        function gets a `psycopg.AsyncConnection`. `TransactionTask` has its type.

        Raises:
            ProgramError: The step has no transaction.
            StoreUnavailable: The server does not answer.
        """
        if self._connection is None:
            if self._take is None:
                raise ProgramError(
                    f"step {self.step!r} has no transaction. Declare it with transaction=True"
                )
            self._connection = self._take()
        return self._connection

    @property
    def context(self) -> Any:
        """Return the value of `context=` of the open store, or what its factory made.

        Raises:
            ProgramError: The context is missing.
        """
        return self._data.context.get()

    @property
    def cancelled(self) -> Cancellation:
        """Return an event that is set when the function should stop.

        A function that stops raises `Fail` if it had no effect, and `Unknown` if it may have had
        one.

        Returns:
            A `Cancellation`: `is_set()`, `wait(timeout)` in a plain function, `await` in an async
            one, and `reason`.
        """
        return self._data.control.cancelled

    def progress(self, fraction: float, detail: str | None = None) -> None:
        """Report how far the function is, for people.

        It does not block. The last one is written about once a second. It is not encoded by a
        codec.

        Args:
            fraction: A number from 0 to 1.
            detail: A text for people, cut to 200 characters (default: None).

        Raises:
            TypeError: The fraction is not a number, or the detail is not a text.
            ValueError: The fraction is not from 0 to 1.
        """
        self._data.control.set_progress(fraction, detail)

    def _take_progress(self) -> Progress | None:
        """Return the progress if it is new since the last call, else None."""
        return self._data.control.take_progress()

    @property
    def idempotency_key(self) -> str:
        """The key to send to services: the same for all attempts, and after a crash.

        It differs between a step and its compensation.
        """
        kind = "undo" if self.is_compensation else "run"
        return tokens.idempotency_key(self._data.saga_token, self.step, kind)

    @property
    def attempt_id(self) -> str:
        """The idempotency key and the attempt's number, which differs for each attempt.

        Use it with a service that remembers a refusal under its key. The last attempt may be made
        again with the same id: with more than 9 `tries`, `on_exhausted="retry"` or `Store.retry`.
        """
        return tokens.attempt_id(self.idempotency_key, self.attempt)

    @property
    def original_idempotency_key(self) -> str:
        """The idempotency key of the action: in a compensation, of what it undoes."""
        return tokens.idempotency_key(self._data.saga_token, self.step, "run")

    @property
    def input(self) -> I:
        """The input of the saga: a new object at each access.

        Raises:
            CannotDecode: The stored input does not fit the type of the hint.
        """
        try:
            value: I = serialization.read(self._data.input, self._data.hint)
            return value
        except Exception as error:  # of the type's own code
            raise self._unread("input", error) from None

    @property
    def results(self) -> dict[str, Any]:
        """The results of all steps that this one needs, directly or not, by name.

        A result that could not be stored is `{"unstorable": why}`.

        Raises:
            CannotDecode: A stored result does not fit its step's type.
        """
        texts, location = self._texts, self._data.location
        if location is None:
            return {name: self._kept(name, text) for name, text in texts.items()}
        return {name: self._kept(step, texts[step]) for name, step in location.visible(texts)}

    def _kept(self, name: str, text: str) -> Any:
        """Return a step's result. Raises `CannotDecode`."""
        try:
            return serialization.kept(text, self._data.decoders.get(name))
        except Exception as error:  # of the type's own code
            raise self._unread(f"result of {name!r}", error) from None

    def _unread(self, value: str, error: Exception) -> CannotDecode:
        """Return the error for a stored value that cannot be decoded.

        Args:
            value: The value's name, for the message.
            error: The error of the decoder.
        """
        data = self._data
        step = "the compensation of step" if data.undo else "step"
        reason = (
            f": {error}" if isinstance(error, NameError) else str(type_checks.mismatch_of(error))
        )
        return CannotDecode(f"saga {data.saga!r}, {step} {data.name!r}: {value}{reason}")

    @property
    def result(self) -> Any:
        """In a compensation, what the step returned; in an action, None.

        `CompensationTask` has its type. A result that could not be stored is `{"unstorable": why}`.

        Raises:
            CannotDecode: The stored result does not fit the step's type.
        """
        own_result = self._data.own_result
        return None if own_result is None else self._kept(self.step, own_result)

    @property
    def _plain(self) -> dict[str, Any]:
        """`input`, `item`, `results`, `result` and the shape as JSON values.

        A worker outside of the store gets them.
        """
        data, texts, location = self._data, self._texts, self._data.location
        names = location.visible(texts) if location else ((name, name) for name in texts)
        results = {name: serialization.read(texts[step]) for name, step in names}
        return {
            "declared_step": self.declared_step,
            **(location.plain if location else NO_ITEM),
            "shape": location.shape if location else None,
            "input": serialization.read(data.input),
            "results": results | dict(location.groups(texts)) if location else results,
            "result": None if data.own_result is None else serialization.read(data.own_result),
        }

    @property
    def _portable(self) -> dict[str, Any]:
        """The data of the task with JSON texts. Another node can make the task from it."""
        data = self._data
        names = {
            "saga": data.saga,
            "key": data.key,
            "step": data.name,
            "undo": data.undo,
            "attempt": data.attempt,
            "of": data.saga_token,
        }
        return names | {"input": data.input, "results": self._texts, "result": data.own_result}

    @overload
    def result_of(self, step: Selection[R]) -> R:
        ...

    @overload
    def result_of(self, step: Selection[R], *, default: D) -> R | D:
        ...

    @overload
    def result_of(self, step: str, *, default: Any = ...) -> Any:
        ...

    def result_of(self, step: Selection[Any] | str, *, default: Any = REQUIRED) -> Any:
        """Return the result of a step that this one needs, directly or not.

        Args:
            step: The step, or its name. The result of a fan-out is a list, or a dict by the keys of
                its items. `ship.each` is the step of the same item; `hotel[room]` is a step of an
                included saga.
            default: What to return if this saga does not have the step: it was started before the
                step was declared or needed, or the step does not exist for its input (default:
                raise `MissingResult`).

        Raises:
            MissingResult: This saga does not have the step, and there is no `default`. The attempt
                waits, and nothing is compensated.
            ProgramError: `needs=` does not have the step, or `ship.each` is read by a step without
                an item, whatever the `default`.
            ResultNotSerializable: The result could not be stored.
            StepFailed: The step is optional, or an item that is collected, and has failed. See
                `failure_of`.
            CannotDecode: The stored result does not fit the step's type.
        """
        try:
            return self._gather(step)
        except KeyError:  # the saga's own definition does not have it
            missing = self._missing(step)
            if missing is None and default is not REQUIRED:
                return default
            raise missing or self._not_stored(step) from None

    def _gather(self, step: Selection[Any] | str) -> Any:
        """Return the result of a selection. Raises `KeyError` if this saga does not have it."""
        location, result_of = self._data.location, self._result
        if starts_children(step):
            result_of = self._children
        elif isinstance(step, Collection):
            if starts_children(step.step):
                result_of = self._collected_children
            elif location is not None:
                return collected_of(location.gather(step, str), self._result)
        if location is None:
            return result_of(step if isinstance(step, str) else step.path[0])
        return location.gather(step, result_of)

    def _children(self, name: str) -> list[Any]:
        """Return the results of the children of a step. Raises `KeyError` or `StepFailed`."""
        return [serialization.stored(result, name) for result in self._listed(name)]

    def _collected_children(self, name: str) -> Collected[Any]:
        """Return the results and the errors of the children of a step. Raises `KeyError`."""
        collected: Collected[Any] = Collected({}, {})
        for index, result in enumerate(self._listed(name)):
            if (error := serialization.failed(result)) is None:
                collected.results[index] = result
            else:
                collected.errors[index] = error
        return collected

    def _listed(self, name: str) -> list[Any]:
        """Return the result of a step that starts a child for each item. Raises `KeyError`."""
        result = self._result(name)
        if result is not None and not isinstance(result, list):
            raise CannotDecode(
                f"saga {self.saga!r}, step {self.step!r}: result of {name!r}: it is of one child, "
                "and the step has for_each= now"
            )
        return result or []

    def _missing(self, step: Selection[Any] | str) -> ProgramError | None:
        """Return the error for a step that `needs=` does not have today, or None if it has it.

        If a text names the step, its present declaration is not known.
        """
        if isinstance(step, str):
            return None
        location = self._data.location
        own_name = self._data.name if location is None else location.origin.name
        own_name = own_name.rpartition("/")[2]
        if step.path[0] in needed_parts(step.saga, own_name):
            own_part = step.saga.parts_by_name[own_name]
            return self._no_item() if step.is_own and own_part.for_each is None else None
        return ProgramError(
            f"saga {self.saga!r}, step {self.step!r} does not need {step.path[0]!r}. Add it to "
            "needs="
        )

    def _not_stored(self, step: Selection[Any] | str) -> MissingResult:
        """Return the error for a step that this saga does not have."""
        name = step if isinstance(step, str) else "/".join(step.path)
        reason = f"this saga was started before {name!r} was a need of {self.step!r}"
        if self._data.location is not None:
            reason += ", or it does not exist for this input"
        elif isinstance(step, str):
            reason += ", or needs= does not have it"
        return MissingResult(
            f"saga {self.saga!r}, step {self.step!r}: {reason}. To serve both, write "
            f"task.result_of({step if isinstance(step, str) else step.path[-1]}, default=None)"
        )

    @overload
    def failure_of(self, step: Collectable[Any, Any]) -> Any:
        ...

    @overload
    def failure_of(self, step: Selection[Any] | str) -> str | None:
        ...

    def failure_of(self, step: Selection[Any] | str) -> Any:
        """Return what an optional step, or a collected item, raised, or None.

        Args:
            step: As of `result_of`: a step that this one needs, directly or not.

        Returns:
            The error as a text, or None if the step has succeeded. For a fan-out a list of these,
            or a dict by the keys of its items.

        Raises:
            MissingResult: As of `result_of`.
            ProgramError: As of `result_of`.

        Example:
            >>> letters = sagas.Saga("letters")
            >>> @letters.step(optional=True)
            ... def mail(task):
            ...     raise sagas.Fail("mailbox full")
            >>> @letters.step(needs=[mail])
            ... def note(task):
            ...     return task.failure_of(mail)
            >>> sagas.testing.run(letters).result_of(note)
            'sagas.Fail: mailbox full'
        """
        location = self._data.location
        failure_of = self._failures if starts_children(step) else self._failure
        try:
            if location is None:
                return failure_of(step if isinstance(step, str) else step.path[0])
            return location.gather(step, failure_of)
        except KeyError:  # the saga's own definition does not have it
            raise self._missing(step) or self._not_stored(step) from None

    def _failure(self, name: str) -> str | None:
        """Return what one step raised, by its full name, or None."""
        return serialization.failed(serialization.read(self._needed_text(name)))

    def _failures(self, name: str) -> Any:
        """Return what each child of a step raised, or None; a text if the step itself failed."""
        result = serialization.read(self._needed_text(name))
        if not isinstance(result, list):
            return serialization.failed(result)
        return [serialization.failed(entry) for entry in result]

    def _result(self, name: str) -> Any:
        """Return the result of one step, by its full name. Raises `KeyError`."""
        text, data = self._needed_text(name), self._data
        try:
            return serialization.returned(text, data.decoders.get(name), name)
        except (ResultNotSerializable, StepFailed):
            raise
        except Exception as error:  # of the type's own code
            raise self._unread(f"result of {name!r}", error) from None

    def _needed_text(self, name: str) -> str:
        """Return the result of one step as JSON, by its full name. Raises `KeyError`."""
        data, text = self._data, self._texts.get(name)
        if text is not None:
            return text
        if data.undo and name == data.name and data.own_result is not None:
            return data.own_result
        raise KeyError(name)

    # -- of an item

    @property
    def has_item(self) -> bool:
        """Whether its step was declared with `for_each=`, and so has an item."""
        location = self._data.location
        return location is not None and location.origin.number is not None

    def _item_location(self) -> StepLocation:
        location = self._data.location
        if location is None or not self.has_item:
            raise self._no_item()
        return location

    def _no_item(self) -> ProgramError:
        """Return the error for a step that is to have an item, and has none."""
        return ProgramError(f"step {self.step!r} has no item. Declare it with for_each=")

    @property
    def item(self) -> Any:
        """The item of a step with `for_each=`: a new object at each access.

        Raises:
            ProgramError: The step has no item.
            CannotDecode: The stored item does not fit the type of the hint.
        """
        location = self._item_location()
        try:
            return location.item()
        except Exception as error:  # of the type's own code
            raise self._unread("item", error) from None

    @property
    def index(self) -> int | str:
        """The number of its item in the list, from 0, or the item's key in the dict.

        Raises:
            ProgramError: The step has no item.
        """
        index = self._item_location().index
        assert index is not None
        return index

    @property
    def declared_step(self) -> str:
        """The name with which the step was declared.

        `ship` of `ship-0`; `hotel/room` of a step of an included saga.
        """
        location = self._data.location
        return self.step if location is None else location.origin.declared

    @property
    def given(self) -> Any:
        """The result of `given=` of `Saga.include` for this task.

        None in a saga that is not included.

        Raises:
            Exception: Whatever that function raises.
        """
        location = self._data.location
        return None if location is None else location.given(self._data)

    @property
    def lacks_given(self) -> bool:
        """Whether the program does not have the function that computes `given`."""
        return self._data.location is not None and self._data.location.lacks_given

    def __repr__(self) -> str:
        return f"<task {self.attempt_id} of {self.key!r}>"


class ItemTask(Task[I], Generic[I, T]):
    """Describe one attempt of a step with `for_each=`, to its function.

    Made by the store for each call. Write `task: ItemTask[Order, Parcel]` to get the input as an
    `Order`, and the item as a `Parcel`. For all else see `Task`.

    Example:
        >>> parcels = sagas.Saga("parcels")
        >>> @parcels.step(for_each="items")
        ... def ship(task: sagas.ItemTask[dict[str, list[str]], str]) -> str:
        ...     return f"{task.index}: {task.item}"
        >>> @parcels.step(needs=[ship])
        ... def mail(task):
        ...     return task.result_of(ship)
        >>> sagas.testing.run(parcels, {"items": ["book", "lamp"]}).result_of(mail)
        ['0: book', '1: lamp']
    """

    __slots__ = ()

    @property
    def item(self) -> T:
        """As of `Task`."""
        item: T = super().item
        return item


class CompensationTask(Task[I], Generic[I, R]):
    """Describe one attempt of a compensation, to its function.

    Made by the store for each call. Write `task: CompensationTask[Order, Receipt]` to get the input
    as an `Order`, and the result of the step as a `Receipt`. It is the type of the result if the
    step's function does not declare one. For all else see `Task`.

    Example:
        >>> import decimal
        >>> shop = sagas.Saga("shop")
        >>> @shop.step(keep=9)
        ... def charge(task: sagas.Task[int]) -> decimal.Decimal:
        ...     return decimal.Decimal(task.input)
        >>> @charge.compensation
        ... def refund(task: sagas.CompensationTask[int, decimal.Decimal]) -> None:
        ...     print("refund", task.result.quantize(decimal.Decimal("0.01")))
        >>> @shop.step(needs=[charge])
        ... def send(task): ...
        >>> sagas.testing.run(shop, 40, fail={send: sagas.Fail}).states
        refund 40.00
        {'charge': 'undone', 'send': 'failed'}
    """

    __slots__ = ()

    @property
    def result(self) -> R:
        """As of `Task`."""
        result: R = super().result
        return result


class TransactionTask(Task[I], Generic[I, C]):
    """Describe one attempt of a step with `transaction=True`, to its function.

    Made by the store for each call. Write `task: TransactionTask[Order, psycopg.Connection[Any]]`,
    or with `psycopg.AsyncConnection[Any]` for an async function, to get the connection with its
    type. For all else see `Task`.
    """

    __slots__ = ()

    @property
    def connection(self) -> C:
        """As of `Task`."""
        connection: C = super().connection
        return connection


class UndoTask(CompensationTask[Any, R], ItemTask[Any, Any], TransactionTask[Any, Any]):
    """The task of a compensation as a type checker passes it: each of the others."""

    __slots__ = ()


def calling(
    function: Callable[[Any], Any], task_of: Callable[[Task[Any]], Task[Any]]
) -> Callable[[Any], Any]:
    """Return a step's function that calls another function, with a task of its own.

    Args:
        function: The function, plain or async.
        task_of: Returns its task, given that of the step.
    """
    if inspect.iscoroutinefunction(function):

        async def call_later(task: Any) -> Any:
            return await function(task_of(task))

        return call_later

    def call(task: Any) -> Any:
        return function(task_of(task))

    return call
