"""Sagas that call compensations: to undo a completed child, or an unused report.

An unused report is that of a step that did not start before its saga ended. The saga that undoes it
has one step, which calls the compensation. Its input has the data of the compensation's task.
"""

from __future__ import annotations

import dataclasses
import hashlib
import json
import re
from collections.abc import Callable, Collection, Iterable, Iterator, Mapping, Sequence
from typing import Any

from sagas.base.errors import DefinitionError
from sagas.definition import child_sagas, decoders, definition_text, validation
from sagas.definition.call_options import Cost, CostOf, NEVER
from sagas.definition.definition_text import Compensation, ListedStep, MAX_NAME, undo_name_of
from sagas.definition.parts import SagaParts
from sagas.definition.saga import Saga
from sagas.definition.serialization import Decoder
from sagas.definition.step import Step, StepName, is_compensated, saga_error, step_error
from sagas.definition.step_location import RemoteStepLocation
from sagas.definition.task import Task, calling
from sagas.definition.task_data import TaskSnapshot


def undo_saga(child: SagaParts) -> Saga[Any] | None:
    """Return the saga that undoes a completed child, by its present definition.

    Its steps are the compensations of the steps that can be undone. The compensation of a step
    comes after those of the steps that need it. If one fails, its effect remains, at the step's
    cost `keep`.

    Returns:
        None if it has no compensation to call.

    Raises:
        DefinitionError: Workers of a queue call a compensation: they do not know this saga.
    """
    if child.starts_for is not None:
        return None  # it depends on the number of items
    if child.is_shaped:
        raise saga_error(
            child,
            "its steps come from its input, so no saga can undo it as a child. Give the step that "
            "starts it a compensation of its own, or undo=sagas.NEVER",
        )
    declared = declared_steps(child)
    steps = child_sagas.planned_compensations(
        definition_text.listed_steps(validation.checked_text(child)), declared
    )
    for step in (declared[compensation.name] for compensation in steps):
        if step.undo.queue:
            raise DefinitionError(
                f"{step.where}: saga {step.saga.name!r}, step {step.name!r}: workers of a queue "
                "call its compensation, so this saga cannot be undone as a child. Give the step "
                "that starts it a compensation of its own, or undo=sagas.NEVER"
            )
    return _made(child, steps, text_of(child, steps)) if steps else None


def text_of(child: SagaParts, steps: Iterable[Compensation]) -> str:
    """Return the definition of the saga that undoes a child with these steps."""
    return definition_text.write_undo_definition(child.name, child.version, steps)


def declared_steps(child: SagaParts | None, names: Iterable[str] = ()) -> dict[str, Step[Any]]:
    """Return the steps of a saga as this program declares them, by name.

    Args:
        child: The saga.
        names: The names of its steps, which count if it starts children for items.
    """
    if child is None:
        return {}
    if child.starts_for is None:
        return {step.name: step for step in child.steps}
    (step,) = child.steps
    item = re.compile(rf"{re.escape(step.name)}-\d+")
    return {name: step for name in names if item.fullmatch(name)}


def listed_and_declared(
    child: SagaParts | None, text: str
) -> tuple[Sequence[ListedStep], dict[str, Step[Any]]]:
    """Return the steps of a stored definition, and those of them that this program declares."""
    listed = definition_text.listed_steps(text)
    return listed, declared_steps(child, [step.name for step in listed])


def undo_text_of_child(child: SagaParts, text: str) -> str | None:
    """Return the definition of the saga that undoes a child of an earlier definition.

    Args:
        child: The saga as this program declares it.
        text: The definition that the child ran with.

    Returns:
        None if it has no compensation to call.
    """
    steps = child_sagas.planned_compensations(*listed_and_declared(child, text))
    return text_of(child, steps) if steps else None


def undo_saga_of_text(child: SagaParts, text: str) -> Saga[Any]:
    """Return the saga of a stored definition, with the compensations of this program.

    Args:
        child: The saga that it undoes, as this program declares it.
        text: The definition.
    """
    return _made(child, definition_text.read_compensations(text), text)


def lacks(child: SagaParts | None, text: str) -> str | None:
    """Return why this program cannot undo a completed child, or None if it can.

    The arguments are those of `missing_compensations`.
    """
    return next((reason for _, reason in missing_compensations(child, text)), None)


def missing_compensations(child: SagaParts | None, text: str) -> Iterator[tuple[str | None, str]]:
    """Yield the steps of a completed child that this program cannot undo, each with the reason.

    Args:
        child: The saga as this program declares it. Without it, the step is None.
        text: The definition that the child ran with.
    """
    if child is None:
        yield None, "this program did not open the store with that saga"
        return
    listed, declared = listed_and_declared(child, text)
    for compensation in child_sagas.planned_compensations(listed, declared):
        name = compensation.name
        if not can_undo(declared.get(name)):
            yield name, f"step {name!r} has no compensation in this program"


def can_undo(step: Step[Any] | None) -> bool:
    """Return whether the saga that undoes a child can undo one of the child's steps."""
    if step is None or step.undo.queue:
        return False
    return step.starts_child("undo") or is_compensated(step)


def _made(child: SagaParts, steps: Sequence[Compensation], text: str) -> Saga[Any]:
    """Return the saga, without the steps that this program cannot undo."""
    saga = Saga(definition_text.undo_name_of(child.name), version=child.version)
    saga.where, saga.undoes, saga.undo_text = child.where, child, text
    saga.fair_by = _of_child(child.fair_by)
    declared, added = declared_steps(child, [step.name for step in steps]), set[str]()
    sees = {compensation.name: compensation.sees for compensation in steps}
    if text and not definition_text.sees_of(text):  # of an older release
        planned = child_sagas.planned_compensations(
            definition_text.listed_steps(validation.checked_text(child)), declared
        )
        sees = {compensation.name: compensation.sees for compensation in planned}
    for compensation in steps:
        name = compensation.name
        step = declared.get(name)
        if step is not None and can_undo(step):
            needs = [StepName(need) for need in compensation.needs if need in added]
            _declare(saga, step, needs, compensation, frozenset(sees.get(name, ())))
            added.add(name)
    return saga


def _declare(
    saga: Saga[Any],
    step: Step[Any],
    needs: list[StepName],
    compensation: Compensation,
    sees: frozenset[str],
) -> None:
    """Add the step that undoes a step of the child."""
    cost, skip = _cost(compensation.cost), _cost(compensation.skip)
    if step.child is not None and step.undo.implied:
        saga.child(
            step.child,
            input=_key_of(compensation.name),
            name=compensation.name,
            needs=needs,
            undo=NEVER,
            skip=skip,
            keep=0,
            on_exhausted="ask" if step.undo.on_exhausted == "ask" else "fail",
        )
        return
    function = step.undo.function
    manner = dataclasses.replace(
        step.undo, function=function and _undoing(function, step, sees), implied=False
    )
    costs: dict[str, CostOf | None] = {
        "run": cost,
        "undo": NEVER,
        "skip": skip,
        "keep": 0,
    }
    limit = None if manner.external else step.concurrency
    undo_step = saga._add(manner.function, step.name, "step", needs, costs, manner, limit)
    undo_step.where = step.where
    if limit is not None:
        undo_step.concurrency_by = _of_child(step.concurrency_by, child_sagas.hints(step)[0])


def _of_child(
    function: Callable[[Any], Any] | None, decoder: Decoder | None = None
) -> Callable[[Any], Any] | None:
    """Return a function of the input of the saga that undoes a child.

    It calls a function of the child's input with the child's input.
    """
    if function is None:
        return None
    of_child_input = function

    def of_undo_input(undo_input: Any) -> Any:
        child_input = undo_input["input"]
        return of_child_input(decoder(child_input) if decoder else child_input)

    return of_undo_input


def _cost(listed: definition_text.ListedCost) -> Cost:
    """Return the declared cost for a cost in the text of a definition."""
    return listed if isinstance(listed, int) else NEVER


def _key_of(name: str) -> Callable[[Task[Any]], Any]:
    """Return the function that returns the key of a child's child to undo."""
    return lambda task: task.input["results"][name]["key"]


def _undoing(
    function: Callable[[Any], Any], step: Step[Any], sees: frozenset[str]
) -> Callable[[Any], Any]:
    """Return a step's function that calls a compensation with the compensation's task."""
    input_decoder, result_decoders = compensation_hints(function, step)

    def task_of(task: Any) -> Task[Any]:
        return compensation_task(task, step.saga.name, sees, input_decoder, result_decoders)

    return calling(function, task_of)


# -- of a store


def check_started(saga: SagaParts) -> None:
    """Raise `DefinitionError` if only the store starts a saga, because of others."""
    if not isinstance(saga, SagaParts):
        return
    if (ended := saga.ends) is not None:
        raise DefinitionError(
            f"saga {saga.name!r} calls on_end of {ended.name!r}, so only the store starts it. "
            f"Start {ended.name!r}, or a saga of another name"
        )
    if (starter := saga.starts_for) is not None:
        raise DefinitionError(
            f"saga {saga.name!r} starts the children of step {starter.name!r} of saga "
            f"{starter.saga.name!r}, so only that step starts it. Start {starter.saga.name!r}"
        )
    if (child := saga.undoes) is not None:
        raise DefinitionError(
            f"saga {saga.name!r} undoes {child.name!r} as a child, so only parents of such "
            f"children start it. Start {child.name!r}, or a saga of another name"
        )


def with_undo_sagas(sagas: Mapping[tuple[str, int], Saga[Any]]) -> dict[tuple[str, int], Saga[Any]]:
    """Return the sagas of a store, with those that start children of items, and undo children.

    Raises:
        DefinitionError: A child is missing, or a saga has the name of one that undoes a child.
    """
    complete = dict(sagas)
    for saga in sagas.values():
        for step, child in child_sagas.children_of(saga):
            if child.starts_for is not None and isinstance(child, Saga):
                _add_made(complete, child, f"starts the children of step {step.name!r}")
                child, step = child_sagas.child_of_items(child), child.steps[0]
            if sagas.get((child.name, child.version)) is not child:
                raise step_error(
                    step,
                    f"its child saga {child.name!r} (version {child.version}, {child.where}) is "
                    "missing. Open the store with it, too: "
                    f"open(..., [{saga.name}, {child.name}])",
                )
            if step.undo.implied and step.cost("undo") is not NEVER:
                _add(complete, child)
    return complete


def _add(sagas: dict[tuple[str, int], Saga[Any]], child: SagaParts) -> None:
    """Add the saga that undoes a child. Its steps add the child's own children."""
    saga = undo_saga(child)
    if saga is not None:
        _add_made(sagas, saga, f"undoes {child.name!r}")


def _add_made(sagas: dict[tuple[str, int], Saga[Any]], saga: Saga[Any], does: str) -> None:
    """Add a saga that the package made. Raises `DefinitionError` if its name is used."""
    name = (saga.name, saga.version)
    if name in sagas and sagas[name].where != saga.where:
        raise DefinitionError(
            f"{sagas[name].where}: saga {saga.name!r}: the saga that {does} has this name. Set "
            "another name"
        )
    sagas[name] = saga


# -- of unused reports


QUEUED = "workers of a queue call its compensation, and only its own saga can send it to them"
NO_COMPENSATION = "it has no compensation"


def report_fault(step: Step[Any] | None) -> str | None:
    """Return why no saga can call the compensation of a step, or None if one can."""
    if step is None:
        return "this program does not have the step"
    if not step.has_compensation or step.undo.implied:
        return NO_COMPENSATION
    return QUEUED if step.undo.queue else None


def is_reported(step: Step[Any]) -> bool:
    """Return whether a caller may report a step before it starts."""
    return step.kind == "approval" or step.run.external


def undo_step_name(saga: SagaParts, step: Step[Any]) -> str:
    """Return the name of the step that calls the compensation.

    It is the name of the declared step. If an included saga declares it, the name of the included
    saga precedes it.
    """
    if step.saga is saga:
        return step.name
    name = f"{step.saga.name}-{step.name}"
    if len(name) <= MAX_NAME:
        return name
    digest = hashlib.sha256(name.encode()).hexdigest()[:6]
    return f"{name[: MAX_NAME - 7]}-{digest}"


def report_undo_saga(saga: SagaParts, step: Step[Any]) -> Saga[Any]:
    """Return the saga that calls the compensation of a step, which `fault` allows.

    If the compensation fails permanently, this saga is stuck, so that an operator sees the effect
    that remains.
    """
    undo_saga = Saga(undo_name_of(saga.name), version=saga.version)
    undo_saga.where, undo_saga.undoes, undo_saga.undoes_step = step.where, saga, step
    function = step.undo.function
    manner = dataclasses.replace(
        step.undo, function=function and _undoing_report(function, step), implied=False
    )
    costs: dict[str, CostOf | None] = {"run": 0, "undo": NEVER, "skip": NEVER, "keep": 0}
    name = undo_step_name(saga, step)
    undo_step = undo_saga._add(manner.function, name, "step", [], costs, manner, None)
    undo_step.where = step.where
    return undo_saga


def declared_path(saga: SagaParts, step: Step[Any], prefix: str = "") -> str | None:
    """Return the declared name of a step in a saga, with the inclusions: `hotel/room`."""
    for part in saga.parts:
        if part is step:
            return f"{prefix}{step.name}"
        inner: SagaParts | None = getattr(part, "inner", None)
        path = declared_path(inner, step, f"{prefix}{part.name}/") if inner is not None else None
        if path is not None:
            return path
    return None


def undo_data(undo_input: Mapping[str, Any], declared: Step[Any], attempt: int) -> TaskSnapshot:
    """Return the data of a compensation's task, given the calling saga's input.

    The input of a saga that undoes a child names no step: then it is the declared one.
    """
    location, step = undo_input.get("place"), undo_input.get("step", declared.name)
    results = {name: json.dumps(value) for name, value in undo_input["results"].items()}
    return TaskSnapshot(
        saga=undo_input.get("saga", declared.saga.name),
        key=undo_input["key"],
        name=step,
        undo=True,
        attempt=attempt,
        saga_token=undo_input["token"],
        input=json.dumps(undo_input["input"]),
        needed_results={name: text for name, text in results.items() if name != step},
        own_result=results.get(step, "null"),
        location=None if location is None else RemoteStepLocation(location),
    )


def report_task(task: Task[Any], saga: SagaParts | None) -> Task[Any]:
    """Return the task for a worker: in a saga that undoes a report, of the undo."""
    if saga is None or saga.undoes_step is None:
        return task
    data = undo_data(task.input, saga.undoes_step, task.attempt)
    return Task(dataclasses.replace(data, traceparent=task.traceparent))


def _undoing_report(function: Callable[[Any], Any], step: Step[Any]) -> Callable[[Any], Any]:
    """Return a step's function that calls a compensation with the compensation's task."""
    input_decoder, result_decoders = compensation_hints(function, step)

    def task_of(task: Any) -> Task[Any]:
        data = task._data
        undo_task: Task[Any] = Task(
            dataclasses.replace(
                undo_data(task.input, step, task.attempt),
                hint=input_decoder,
                decoders=result_decoders,
                context=data.context,
                control=data.control,
                traceparent=data.traceparent,
            )
        )
        undo_task._enter_by(lambda: task.connection)
        return undo_task

    return calling(function, task_of)


# -- tasks of compensations


def compensation_task(
    task: Task[Any],
    child: str,
    sees: Collection[str],
    hint: Decoder | None = None,
    known: Mapping[str, Decoder] | None = None,
) -> Task[Any]:
    """Return the task of a compensation that a saga calls to undo a child.

    It has the key, the input, the results and the idempotency keys of the child.

    Args:
        task: The task of the step that calls it.
        child: The child's name.
        sees: The steps whose results it may read.
        hint: How the child's input is read (default: as JSON).
        known: How the results of the child's steps are read (default: as JSON).
    """
    undo_input, data = task.input, task._data
    results = {name: json.dumps(value) for name, value in undo_input["results"].items()}
    compensation: Task[Any] = Task(
        TaskSnapshot(
            saga=child,
            key=undo_input["key"],
            name=task.step,
            undo=True,
            attempt=task.attempt,
            saga_token=undo_input["token"],
            input=json.dumps(undo_input["input"]),
            needed_results={name: text for name, text in results.items() if name in sees},
            own_result=results.get(task.step, "null"),
            hint=hint,
            decoders=known or {},
            context=data.context,
            control=data.control,
            traceparent=data.traceparent,
        )
    )
    compensation._enter_by(lambda: task.connection)
    return compensation


def compensation_hints(
    function: Callable[[Any], Any], step: Step[Any]
) -> tuple[Decoder | None, dict[str, Decoder]]:
    """Return the decoders of a compensation's input and of its saga's results.

    A value without a type hint has no decoder, and is read as JSON.
    """
    input_decoder = decoders.input_decoder(function)
    result_decoders: dict[str, Decoder] = {}
    for sibling in step.saga.steps:
        _, result_decoder = child_sagas.hints(sibling)
        if result_decoder is not None:
            result_decoders[sibling.name] = result_decoder
    return input_decoder, result_decoders
