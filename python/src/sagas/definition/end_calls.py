"""Calls of `on_end` functions: their tasks, and the inputs of the sagas that call them."""

from __future__ import annotations

import functools
import json
from collections.abc import Callable, Iterable, Mapping
from typing import Any, NoReturn, TYPE_CHECKING, TypeVar

from sagas.base.errors import DefinitionError, MissingResult
from sagas.definition import decoders, definition_text, serialization
from sagas.definition.arguments import meant
from sagas.definition.call_options import SagaOptions
from sagas.definition.child_sagas import hints
from sagas.definition.compiled import CompiledDefinition
from sagas.definition.layout import layout_of
from sagas.definition.saga_result import SagaResult
from sagas.definition.serialization import Decoder
from sagas.definition.step_location import FIXED, Fan
from sagas.definition.step_options import END_DEFAULTS, EXTERNAL, EndOptions, STEP_DEFAULTS
from sagas.definition.task import REQUIRED, Task, calling
from sagas.definition.task_data import TaskData, TaskSnapshot, snapshot

if TYPE_CHECKING:
    from sagas.definition.saga import Saga

I = TypeVar("I")
STEP = "on_end"
"""The name of the only step of a saga that calls an `on_end` function."""
MAX_LAYOUTS = 16
FIELDS = (
    "phase",
    "states",
    "results",
    "cost",
    "blocking_steps",
    "kept",
    "aborted",
    "errors",
    "optional_failures",
)
"""The attributes of a `SagaResult` that are stored for the call."""


class EndTask(Task[I]):
    """Describe one attempt of a call after the end of a saga, to its function.

    Made by the store for each call. `saga`, `key` and `input` are those of the saga that has ended,
    and `end` says how. Write `task: EndTask[Order]` to get the input as an `Order`. The
    idempotency key is the same for all attempts of the call. For all else see `Task`.

    Example:
        >>> shop = sagas.Saga("shop")
        >>> @shop.step
        ... def charge(task):
        ...     return "R-7"
        >>> @shop.on_end
        ... def mail(task: sagas.EndTask[dict[str, str]]) -> None:
        ...     print(task.input["to"], task.end.phase, task.result_of(charge))
        >>> trial = sagas.testing.run(shop, {"to": "you@example.com"})
        you@example.com completed R-7
    """

    __slots__ = ("_end",)

    def __init__(self, data: TaskData, end: SagaResult) -> None:
        super().__init__(data)
        self._end = end

    def __reduce__(self) -> Any:
        """Copy the data of the task. See `Task`."""
        return EndTask, (snapshot(self._data), self._end)

    @property
    def end(self) -> SagaResult:
        """The end of the saga, as `Store.wait` returned it then."""
        return self._end

    @property
    def results(self) -> dict[str, Any]:
        """The results of all committed steps, by name."""
        return self._end.results

    def result_of(self, step: Any, *, default: Any = REQUIRED) -> Any:
        """Return the result of a committed step.

        Args:
            step: As of `SagaResult.result_of`.
            default: What to return if the step is not committed (default: raise `MissingResult`).

        Raises:
            MissingResult: The step is not committed, or the saga does not have it.
            ResultNotSerializable: The result could not be stored.
            StepFailed: The step is optional, or an item that is collected, and has failed.
        """
        try:
            return self._end.result_of(step)
        except KeyError as error:
            if default is not REQUIRED:
                return default
            raise MissingResult(
                f"saga {self.saga!r}, on_end: {error.args[0]}. Check task.end.states, or write "
                "task.result_of(..., default=None)"
            ) from None

    def failure_of(self, step: Any) -> Any:
        """Return what a failed step raised, or None.

        Args:
            step: As of `SagaResult.result_of`.

        Raises:
            MissingResult: The saga does not have the step.
        """
        try:
            return self._end.fan.gather(step, self._end.errors.get)
        except KeyError as error:
            raise MissingResult(f"saga {self.saga!r}, on_end: {error.args[0]}") from None


# -- declarations


def options_of(options: EndOptions, saga: SagaOptions, external: bool) -> EndOptions:
    """Return the options of a call, with the defaults of the saga.

    Raises:
        TypeError: The option is unknown, or has no meaning after the end.
    """
    for name in options:
        if name not in END_DEFAULTS and name in STEP_DEFAULTS:
            known = ", ".join(sorted(END_DEFAULTS))
            raise TypeError(
                f"Saga.on_end() has no option {name!r}: the function is called after the end "
                f"of each saga, and never undone or left out. Its options are {known}"
            )
        if name not in END_DEFAULTS:
            raise TypeError(
                f"Saga.on_end() got an unexpected keyword argument {name!r}"
                f"{meant(name, END_DEFAULTS)}"
            )
    defaults: dict[str, Any] = {**END_DEFAULTS}
    for name, value in saga.items():
        if name in END_DEFAULTS and not (external and name not in EXTERNAL):
            defaults[name] = value
    if defaults["on_exhausted"] == "fail":
        defaults["on_exhausted"] = "ask"
    chosen: Any = {**defaults, **options}
    result: EndOptions = chosen
    return result


def check_options(saga: Saga[Any], options: EndOptions, location: str) -> None:
    """Raise `DefinitionError` if the call could be given up without an operator."""
    if options["on_exhausted"] == "fail":
        raise DefinitionError(
            f"{location}: saga {saga.name!r}, on_end: on_exhausted='fail' would give the call up, "
            "and it is called at least once. Set ask or retry"
        )


def refuse_second(saga: Saga[Any], location: str) -> NoReturn:
    """Raise `DefinitionError`, because a saga has an `on_end` function already."""
    raise DefinitionError(
        f"{location}: saga {saga.name!r} has two on_end functions. Call both from one, or remove "
        "one"
    )


def of_ended_input(function: Callable[[Any], Any] | None) -> Callable[[Any], Any] | None:
    """Return a function of the input of the calling saga for one of the input of the ended saga."""
    if function is None:
        return None
    of_input = function
    return lambda call_input: of_input(call_input["input"])


def wrapped(function: Callable[[Any], Any], saga: Saga[Any]) -> Callable[[Any], Any]:
    """Return a step's function that calls an `on_end` function, plain or async, of a saga."""
    hint = decoders.input_decoder(function)
    return calling(function, lambda task: end_task(task, saga, hint))


# -- tasks


def end_task(
    task: Task[Any], saga: Saga[Any] | None = None, hint: Decoder | None = None
) -> EndTask[Any]:
    """Return the task of an `on_end` function.

    Args:
        task: The task of the step that calls it.
        saga: The saga that declares it, whose types results are decoded with.
        hint: How the input of the ended saga is read (default: as JSON).
    """
    call_input, data = task.input, task._data
    of_call: EndTask[Any] = EndTask(
        TaskSnapshot(
            saga=call_input["saga"],
            key=call_input["key"],
            name=task.step,
            undo=False,
            attempt=task.attempt,
            saga_token=data.saga_token,
            input=json.dumps(call_input["input"]),
            needed_results={},
            own_result=None,
            hint=hint,
            context=data.context,
            control=data.control,
            traceparent=data.traceparent,
        ),
        _stored_end(call_input, saga),
    )
    of_call._enter_by(lambda: task.connection)
    return of_call


def _stored_end(call_input: Mapping[str, Any], saga: Saga[Any] | None) -> SagaResult:
    """Return the end that an input has, with results of the types that a saga declares."""
    fields, shape = dict(call_input["end"]), call_input["shape"]
    by_step: Mapping[str, Decoder] = {}
    if saga is not None:
        by_step = _fixed_decoders(saga) if shape is None else _compiled(shape["of"], saga).decoders
    fields["results"] = {
        name: serialization.fitted(value, by_step.get(name))
        for name, value in fields["results"].items()
    }
    fan = FIXED
    if shape is not None:
        steps = definition_text.shaped_steps(shape["of"])
        fan = Fan(layout_of(shape["of"], steps), shape["values"])
    return SagaResult(call_input["key"], call_input["saga"], fan=fan, **fields)


def _fixed_decoders(saga: Saga[Any]) -> dict[str, Decoder]:
    by_step = {step.name: hints(step)[1] for step in saga.steps}
    return {name: decoder for name, decoder in by_step.items() if decoder is not None}


@functools.lru_cache(MAX_LAYOUTS)
def _compiled(text: str, saga: Saga[Any]) -> CompiledDefinition:
    """Return the definition of a saga whose steps come from its input."""
    return CompiledDefinition(text, saga)


# -- inputs


def input_of(
    text: str, end: SagaResult, definition: str, shape: str | None = None
) -> dict[str, Any]:
    """Return the input of the saga that calls an `on_end` function. All nodes compute the same.

    Args:
        text: The input of the ended saga, as JSON.
        end: How it ended, with its results as JSON values.
        definition: The definition that it ran with.
        shape: The values of its shape, as JSON, if its steps come from its input.
    """
    shaped = definition_text.is_shaped(definition)
    return {
        "key": end.key,
        "saga": end.saga,
        "input": serialization.read(text),
        "end": _fields(end, FIELDS),
        "shape": {"of": definition, "values": shape} if shaped else None,
    }


def _fields(end: SagaResult, names: Iterable[str]) -> dict[str, Any]:
    return {name: getattr(end, name) for name in names}
