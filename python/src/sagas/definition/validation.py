"""Errors and warnings about declarations. They have the file and the line."""

from __future__ import annotations

import datetime
import inspect
import re
from collections.abc import Iterable, Iterator, Sequence
from typing import Any

from sagas.base.errors import DefinitionError
from sagas.definition import (
    arguments,
    child_sagas,
    code_reads,
    declaration,
    definition_text,
    pivot,
    shape,
    type_hints,
)
from sagas.definition.arguments import is_count, meant
from sagas.definition.call_options import (
    Bounds,
    MAX_COST,
    Manner,
    NEVER,
    SagaOptions,
    check_names,
    is_cost,
    option_faults,
    seconds,
)
from sagas.definition.definition_text import MAX_NAME
from sagas.definition.layout import JOIN_ENDING
from sagas.definition.parts import SagaParts, patterns
from sagas.definition.step import (
    Collection,
    Decorator,
    Each,
    Inclusion,
    MAX_NEEDS,
    MAX_STEPS,
    Part,
    Step,
    StepName,
    check_manner,
    is_compensated,
    is_each,
    location_of,
    need_name,
    saga_error,
    step_error,
)

NAME = re.compile(r"[a-z][a-z0-9_-]{0,31}\Z")
NAMES = "invalid name: use 1 to 32 characters a-z, 0-9, _ or -, starting with a letter"
OPTIONAL_UNDO = (
    "it is optional, and cannot be undone. If it fails, plans would leave all that it needs in "
    "place. Remove undo=sagas.NEVER: then it has nothing to undo"
)
MAX_LISTED = 8  # steps
MAX_BOUND, MAX_SECONDS = 10_000, 31 * 86400


def check_name(saga: SagaParts) -> None:
    """Raise `DefinitionError` if the name, version or deadline is not valid."""
    if not isinstance(saga.name, str) or not NAME.match(saga.name):
        raise saga_error(saga, NAMES)
    if not is_count(saga.version) or saga.version < 1:
        raise saga_error(saga, f"version={saga.version!r}: must be an integer >= 1")
    if saga.deadline is not None:
        try:
            arguments.time("deadline", saga.deadline, none=False)
        except (TypeError, ValueError) as error:
            raise saga_error(saga, str(error)) from None


def check_order(saga: SagaParts) -> None:
    """Raise `DefinitionError` if the order of a saga is not valid."""
    if saga.order not in ("needs", "declared"):
        raise saga_error(saga, f"order={saga.order!r}: must be needs or declared")


def check_endings(step: Step[Any]) -> None:
    """Raise `DefinitionError` if `optional` or `pivot` of a step is not valid."""
    for word, value in (("optional", step.is_optional), ("pivot", step.is_pivot)):
        if not isinstance(value, bool):
            raise step_error(step, f"{word}={value!r}: must be True or False")
    pivot.check_pivot(step)
    if step.is_optional and step.declared_cost("skip") is NEVER:
        raise step_error(
            step, "skip=sagas.NEVER says that it is mandatory, so it cannot be optional. Remove one"
        )
    if step.is_optional and step.declared_cost("undo") is NEVER:
        raise step_error(step, OPTIONAL_UNDO)


def check_defaults(saga: SagaParts) -> None:
    """Raise `DefinitionError` if an option for all steps of a saga is not valid.

    Raises `TypeError` if an option does not exist.
    """
    check_names("Saga", saga.defaults, SagaOptions.__annotations__)
    values: dict[str, Any] = {**saga.defaults}
    if isinstance(values.get("timeout"), datetime.timedelta):
        values["timeout"] = seconds(values["timeout"])
    for text in option_faults(Manner(**values), "steps"):
        raise saga_error(saga, text.replace(" of its steps: ", ": ", 1))


def check_step(step: Step[Any]) -> None:
    """Raise `DefinitionError` for errors that the declaration of a single step shows."""
    check_part_name(step)
    check_costs(step)
    check_part(step)
    if step.concurrency is not None and (not is_count(step.concurrency) or step.concurrency < 1):
        raise step_error(step, f"concurrency={step.concurrency!r}: must be an integer >= 1")
    check_needs(step)
    check_endings(step)
    check_manner(step, step.run, "function", step.where)


def check_early_unused(step: Step[Any]) -> None:
    """Raise `DefinitionError` if `early_unused` of a step is not valid."""
    if step.early_unused not in ("ask", "compensate"):
        raise step_error(step, f"early_unused={step.early_unused!r}: must be ask or compensate")
    if step.early_unused == "compensate" and not step.run.external:
        rule = "has no effect, because only external steps are reported before they start"
        raise step_error(step, f"early_unused='compensate' {rule}. Remove it")


def check_part_name(part: Part) -> None:
    """Raise `DefinitionError` if the name of a step or of an inclusion is not valid."""
    if not isinstance(part.name, str) or not NAME.match(part.name):
        raise step_error(part, f"{NAMES}. Set name=")
    if any(other.name == part.name for other in part.saga.parts):
        raise step_error(part, "another step has this name. Set another name=")


def check_key(function: object, beginning: str) -> None:
    """Raise `DefinitionError` if the function that returns a key is not a plain one.

    Args:
        function: The function, or None.
        beginning: The beginning of the message, which ends with the argument's name.
    """
    if function is None:
        return
    if not callable(function) or inspect.iscoroutinefunction(function):
        rule = "must be a plain function of the input: lambda input: input['account']"
        raise DefinitionError(f"{beginning}={function!r}: {rule}")


def check_concurrency_by(step: Step[Any]) -> None:
    """Raise `DefinitionError` if a step cannot have limits for each key."""
    if step.concurrency_by is None:
        return
    check_key(step.concurrency_by, f"{step.where}: step {step.name!r}: concurrency_by")
    bounds = step.bounds
    if step.run.function is None:
        raise step_error(
            step,
            "concurrency_by needs a function in this program. Remove external=True or "
            "concurrency_by=",
        )
    if step.concurrency is None and (bounds is None or bounds.concurrency is None):
        raise step_error(step, "concurrency_by has no limit. Set concurrency or fleet_concurrency")
    if bounds is not None and bounds.rate_limit is not None:
        raise step_error(
            step, "concurrency_by cannot be combined with rate_limit. Remove one of them"
        )


def check_bounds(step: Step[Any], bounds: Bounds) -> None:
    """Raise `DefinitionError` if the limits of a step over all nodes are not valid."""
    if step.run.function is None:
        raise step_error(
            step,
            "the step is external, so sagas does not call it. Remove fleet_concurrency "
            "and rate_limit, and limit the calls in the worker",
        )
    if bounds.concurrency is not None and (
        not is_count(bounds.concurrency) or not 1 <= bounds.concurrency <= MAX_BOUND
    ):
        raise step_error(
            step,
            f"fleet_concurrency={bounds.concurrency!r}: must be an integer from 1 to "
            f"{MAX_BOUND:,}",
        )
    if bounds.rate_limit is None:
        return
    has_calls = (
        isinstance(bounds.rate_limit, tuple)
        and len(bounds.rate_limit) == 2
        and is_count(bounds.rate_limit[0])
        and 1 <= bounds.rate_limit[0] <= MAX_BOUND
    )
    if (
        not has_calls
        or not isinstance(bounds.rate_limit[1], (int, float))
        or not 0 < bounds.rate_limit[1] <= MAX_SECONDS
    ):
        raise step_error(
            step,
            f"rate_limit={bounds.rate_limit!r}: must be (calls, seconds or a timedelta), "
            f"with 1 to {MAX_BOUND:,} calls in at most {MAX_SECONDS:,} seconds",
        )


def check_needs(step: Part) -> None:
    """Raise `DefinitionError` if an entry of `needs` is not valid."""
    seen = set()
    for need in step._needs:
        if isinstance(need, Decorator):
            raise step_error(
                step,
                f"needs {need.call}(...) of {need.where}, which is a decorator. Apply it to a "
                "function, and need the step that this makes",
            )
        if isinstance(need, (Step, Each, Inclusion, Collection)) and need.saga is not step.saga:
            raise step_error(
                step,
                f"needs {need.name!r} of saga {need.saga.name!r}. A step can need only steps "
                "of its own saga",
            )
        if isinstance(need, str) and not isinstance(need, StepName):
            remedy = f"Pass the step itself: needs=[{need if need.isidentifier() else '...'}]"
            raise step_error(step, f"needs {need!r}, which is a text. {remedy}")
        if not isinstance(need, (Step, Each, Inclusion, Collection, StepName)):
            remedy = f". Declare it with @{step.saga.name}.step" if inspect.isfunction(need) else ""
            raise step_error(step, f"needs {need!r}, which is not a step{remedy}")
        name = need_name(need)
        if name in seen:
            raise step_error(step, f"needs {name!r} twice. Remove one of them")
        seen.add(name)


def listed_needs(needs: object, saga: SagaParts, step: str, location: str) -> tuple[Any, ...]:
    """Return the argument `needs` as a tuple.

    Raises:
        DefinitionError: It is not a list. A text is refused, since it would be a list of letters.
    """
    if isinstance(needs, str) or not isinstance(needs, Iterable):
        raise DefinitionError(
            f"{location}: saga {saga.name!r}, step {step!r}: needs={needs!r}: must be a "
            "list: needs=[...]"
        )
    return tuple(needs)


def check_saga(saga: SagaParts) -> None:
    """Raise `DefinitionError` for errors that only the complete declaration shows."""
    if saga.is_shaped:
        check_shaped(saga)
        return
    for left in saga.decorators:
        step_text = f", step {left.name!r}" if left.name else ""
        raise DefinitionError(
            f"{left.where}: saga {saga.name!r}{step_text}: {left.call}(...) declares nothing, "
            "because it is a decorator. Apply it to a function"
        )
    if not saga.steps:
        raise saga_error(saga, f"it has no steps. Declare one, with @{saga.name}.step")
    if len(saga.steps) > MAX_STEPS:
        raise step_error(
            saga.steps[MAX_STEPS],
            f"the saga has more than {MAX_STEPS:,} steps. Split it into several sagas",
        )
    if sum(len(step.needs) for step in saga.steps) > MAX_NEEDS:
        raise saga_error(
            saga,
            f"it has more than {MAX_NEEDS:,} needs. Remove some, or split it into " "several sagas",
        )
    names = {step.name for step in saga.steps}
    for step in saga.steps:
        for need in step.needs:
            if need not in names:
                raise step_error(step, f"needs unknown step {need!r}{meant(need, names)}")
        check_compensation(step)
    check_cycles(saga.steps)
    pivot.check_saga(saga)


def checked_text(saga: SagaParts) -> str:
    """Return the definition of a saga whose steps do not come from its input.

    Raises:
        DefinitionError: As `check_saga`.
    """
    check_saga(saga)
    return shape.fixed_text(saga)


def check_compensation(step: Step[Any]) -> None:
    """Raise `DefinitionError` if a compensation that options need is missing."""
    undo = step._costs["undo"]
    is_child = step.is_optional and step.child is not None and step.undo.implied
    if is_child and step.own_cost("undo") is NEVER:
        raise step_error(
            step,
            "it is optional, and its child saga cannot be undone. If it fails, plans would leave "
            "all that it needs in place. Set undo= to a number, or declare a compensation",
        )
    if undo is not None and undo is not NEVER and not step.has_compensation:
        raise step_error(
            step,
            f"undo={undo!r}, but it has no compensation. Declare @{step.name}.compensation, or set "
            "undo=sagas.NOTHING if there is nothing to undo",
        )
    if step.has_nothing and step.child is not None:
        remedy = "A child is undone by its own compensations. Remove the option, or set NEVER"
        raise step_error(step, f"undo=NOTHING of a child. {remedy}")
    if step.early_unused == "compensate" and (not step.has_compensation or step.undo.queue):
        rule = "needs a compensation that no queue calls"
        raise step_error(
            step, f"early_unused='compensate' {rule}. Declare @{step.name}.compensation"
        )


def check_cycles(parts: Sequence[Part]) -> None:
    """Raise `DefinitionError` if a step needs itself, directly or not."""
    done: set[str] = set()
    left = list(parts)
    while left:
        still = [step for step in left if not all(need in done for need in step.needs)]
        if len(still) == len(left):
            cycle = _cycle(still)
            names = " needs ".join(step.name for step in cycle[:MAX_LISTED])
            raise step_error(
                cycle[0],
                f"is in a cycle of needs: {names}{' ...' if cycle[MAX_LISTED:] else ''}. Remove "
                "one of them",
            )
        waiting = {step.name for step in still}
        done.update(step.name for step in left if step.name not in waiting)
        left = still


def _cycle(steps: list[Part]) -> list[Part]:
    """Return a cycle of needs, from a step to the same step.

    Args:
        steps: Steps that each need another one of them.
    """
    left = {step.name: step for step in steps}
    path = [steps[0]]
    while True:
        need = next(left[need] for need in path[-1].needs if need in left)
        if need in path:
            return [*path[path.index(need) :], need]
        path.append(need)


# -- of sagas whose steps come from their input


MAX_DEPTH = 8
MANY = "-1023"
"""The longest ending that the number of an item adds to a name."""


def check_part(part: Part) -> None:
    """Raise `DefinitionError` if `when` or `for_each` of a part is not valid."""
    _check_function(part, "when", part.when)
    if part.for_each is not None and not isinstance(part.for_each, str):
        _check_function(part, "for_each", part.for_each)
    _check_items(part, part.saga.input_type)
    maximum = MAX_NAME - len(MANY if part.for_each is not None else "")
    if part.for_each is not None and len(part.name) > maximum:
        raise step_error(
            part,
            f"its name has {len(part.name)} characters, and with for_each it may have at most "
            f"{maximum}, because the number of the item follows it. Set another name=",
        )


def _check_items(part: Part, hint: Any) -> None:
    """Raise `DefinitionError` if `for_each` names what the type of the input does not have."""
    if isinstance(part.for_each, str) and hint is not None:
        if fault := type_hints.items_fault(hint, part.for_each):
            raise step_error(part, f"for_each={part.for_each!r}: {fault}")


def _check_function(part: Part, word: str, function: object) -> None:
    if function is None:
        return
    if not callable(function) or inspect.iscoroutinefunction(function):
        rule = "must be a plain function of the input: lambda order: ..."
        if word == "for_each":
            rule = "must be the name of a part of the input, or a plain function of the input"
        raise step_error(part, f"{word}={function!r}: {rule}")


def check_inclusion(inclusion: Inclusion) -> None:
    """Raise `DefinitionError` if an inclusion is not valid."""
    check_part_name(inclusion)
    check_needs(inclusion)
    check_part(inclusion)
    if not isinstance(inclusion.input, str):
        _check_function(inclusion, "input", inclusion.input)
    _check_function(inclusion, "given", inclusion.given)


def check_costs(step: Step[Any]) -> None:
    """Raise `DefinitionError` if a cost is not a valid number or plain function."""
    for word, cost in step._costs.items():
        if cost is None or is_cost(cost) or (callable(cost) and not _is_async(cost)):
            continue
        raise step_error(
            step,
            f"{word}={arguments.shown(cost)}: must be an integer from 0 to {MAX_COST:,}, "
            "sagas.NEVER, or a plain function that returns one",
        )


def _is_async(function: object) -> bool:
    return inspect.iscoroutinefunction(function)


# -- of a whole saga


def check_shaped(saga: SagaParts, depth: int = 0) -> None:
    """Raise `DefinitionError` for errors that only the whole declaration shows."""
    if depth > MAX_DEPTH:
        error = f"it includes itself, or nests included sagas more than {MAX_DEPTH} deep"
        raise saga_error(saga, f"{error}. Start a child saga instead")
    for left in saga.decorators:
        raise DefinitionError(
            f"{left.where}: saga {saga.name!r}: {left.call}(...) declares nothing, because it is "
            "a decorator. Apply it to a function"
        )
    if not saga.parts:
        raise saga_error(saga, f"it has no steps. Declare one, with @{saga.name}.step")
    hint = declaration.saga_hint(saga)
    for part in saga.parts:
        _check_items(part, hint)
        _check_shaped_needs(saga, part)
        if hasattr(part, "inner"):
            check_shaped(part.inner, depth + 1)
        else:
            check_compensation(part)
    check_cycles(saga.parts)
    pivot.check_saga(saga, is_included=depth > 0)
    if depth == 0:
        _check_names(saga)


def _check_shaped_needs(saga: SagaParts, part: Part) -> None:
    for need in part._needs:
        name = need_name(need)
        other = saga.parts_by_name.get(name)
        if other is None:
            near = arguments.meant(name, saga.parts_by_name)
            raise step_error(part, f"needs unknown step {name!r}{near}")
        if is_each(need) and (part.for_each is None or part.for_each != other.for_each):
            raise step_error(
                part,
                f"needs {name}.each, but it does not have the same items. Set the same "
                f"for_each= for both, or need {name} itself, which means all of it",
            )


def _joining_names(
    saga: SagaParts, prefix: str = "", location: str = ""
) -> Iterator[tuple[str, str]]:
    """Yield the possible names of joining steps, each with its file and line."""
    for part in saga.parts:
        outer_location = location or part.where
        if part.for_each is not None:
            yield f"{prefix}{part.name}{JOIN_ENDING}", outer_location
        if isinstance(part, Inclusion):
            name = prefix + part.name + ("" if part.for_each is None else "-#")
            yield from _joining_names(part.inner, f"{name}-", outer_location)


def _check_names(saga: SagaParts) -> None:
    """Raise `DefinitionError` if names of steps may be equal or too long."""
    names = [(pattern.name, pattern.location) for pattern in patterns(saga)] + [
        *_joining_names(saga)
    ]
    for name, location in names:
        longest = name.replace("-#", MANY)
        if len(longest) > MAX_NAME:
            raise DefinitionError(
                f"{location}: saga {saga.name!r}: a step would have the name {longest!r}, of "
                f"{len(longest)} characters, and may have at most {MAX_NAME}. Set a shorter name="
            )
    fixed = {name for name, _ in names if "#" not in name}
    seen: set[str] = set()
    for name, location in names:
        regex = re.compile(name.replace("#", r"\d+") + r"\Z")
        others = [fixed_name for fixed_name in fixed if "#" in name and regex.match(fixed_name)]
        other = name if name in seen else others[0] if others else None
        if other is not None:
            raise DefinitionError(
                f"{location}: saga {saga.name!r}: two steps may have the name "
                f"{other.replace('#', '0')!r}. Set another name="
            )
        seen.add(name)


# -- warnings


def warnings_of(saga: SagaParts) -> list[str]:
    """Return the warnings about a saga, each with the file and the line."""
    check_saga(saga)
    if saga.starts_for is not None:
        return []
    if saga.is_shaped:  # the other warnings depend on the input
        return [
            *_unneeded(saga),
            *_unread(saga),
            *_short(saga),
            *_left_out(saga),
            *_undoing_nothing(saga),
            *_without_compensation(saga),
        ]
    stays = _stays(saga)
    return [
        *_unneeded(saga),
        *_unread(saga),
        *_short(saga),
        *_never_called(saga, stays),
        *_holding(saga, stays),
        *_undoing_nothing(saga),
        *_without_compensation(saga),
    ]


def _without_compensation(saga: SagaParts) -> Iterator[str]:
    """Yield a warning for each step whose compensation has a cost and does not exist."""
    for step in saga.all_steps:
        is_implied = step.undo.implied and not step.has_nothing
        if step.kind == "step" and is_implied and step.declared_cost("undo") == 0:
            yield (
                f"{step.where}: saga {saga.name!r}, step {step.name!r}: undo=0 is the cost of a "
                "compensation, and it has none, so nothing is called to undo it. Set "
                f"undo=sagas.NOTHING if there is nothing to undo, or declare @{step.name}."
                "compensation"
            )


def _unneeded(saga: SagaParts) -> Iterator[str]:
    """Yield a warning for each step that reads the result of a step that it does not need."""
    for step, name in code_reads.unneeded_reads(saga):
        yield (
            f"{step.where}: saga {saga.name!r}, step {step.name!r}: it reads the result of "
            f"{name!r} and does not need it, so both may run at the same time. Add {name} to "
            'needs=, or set order="declared" of the saga'
        )


def _left_out(saga: SagaParts) -> Iterator[str]:
    """Yield a warning for each fan-out that a failure may end early."""
    if pivot.pivot_of(saga) is not None:
        return
    for step in saga.steps:
        run, skip = step.declared_cost("run"), step.declared_cost("skip")
        is_known = isinstance(run, int) and isinstance(skip, int)
        is_fan_out = step.for_each is not None and not (step.is_collected or step.is_optional)
        if is_fan_out and is_known and skip <= run:  # type: ignore[operator]
            yield (
                f"{step.where}: saga {saga.name!r}, step {step.name!r}: if a step fails, items "
                f"that have not started are skipped, because skip={skip} is not more than "
                f"run={run}. Their number depends on timing. Set a higher skip= to run all items, "
                "or need sagas.collect(...) to continue with those that succeed"
            )


def _short(saga: SagaParts) -> Iterator[str]:
    """Yield a warning for each initial pause that is longer than the default maximum."""
    for step in saga.all_steps:
        for role, manner in (("function", step.run), ("compensation", step.undo)):
            initial, maximum = manner.backoff.initial, manner.backoff.maximum
            if manner.tries > 1 and initial > maximum:
                yield (
                    f"{step.where}: saga {saga.name!r}, step {step.name!r}: the pauses of its "
                    f"{role} are {maximum} s, not {initial} s, because that is the default "
                    f"maximum. Set sagas.Backoff(initial={initial}, maximum={initial})"
                )


def _unread(saga: SagaParts) -> Iterator[str]:
    """Yield a warning for each function whose type hints cannot be read.

    For example, only a type checker imports a name.
    """
    for step in saga.all_steps:
        for function in (step.run.function, step.undo.function):
            unread = type_hints.unread(function) if function else None
            if unread:
                beginning = f"{location_of(function)}: saga {saga.name!r}, step {step.name!r}"
                yield (
                    f"{beginning}: its type hints cannot be read, so its values stay plain JSON: "
                    f"{unread}"
                )


def _undoing_nothing(saga: SagaParts) -> Iterator[str]:
    """Yield a warning for each step with a cost `undo` whose child cannot be undone."""
    for step, child in child_sagas.children_of(saga):
        undo = step.declared_cost("undo")
        if not isinstance(undo, int) or not step.undo.implied or child.is_shaped:
            continue
        listed = definition_text.listed_steps(checked_text(child))
        stays = [f"{listed_step.name!r}" for listed_step in listed if listed_step.undo == "never"]
        declared = {child_step.name: child_step for child_step in child.steps}
        if stays and not child_sagas.planned_compensations(listed, declared):
            yield (
                f"{step.where}: saga {saga.name!r}, step {step.name!r}: undo={undo}, but nothing "
                f"of its child saga {child.name!r} can be undone, because "
                f"{' and '.join(stays[:MAX_LISTED])} cannot be. A plan may choose that cost, and "
                "still leave all effects in place. Set undo=sagas.NEVER"
            )


def _in_order(saga: SagaParts) -> Iterator[Step[Any]]:
    """Yield the steps, each after those that it needs."""
    done: set[str] = set()
    left = list(saga.steps)
    while left:
        ready = [step for step in left if all(need in done for need in step.needs)]
        yield from ready
        done.update(step.name for step in ready)
        left = [step for step in left if step.name not in done]


def _stays(saga: SagaParts) -> dict[str, bool]:
    """Return, for each step, whether it is never undone after it has committed.

    Then it cannot be undone, or keeping it is always allowed and always costs less.
    """
    stays: dict[str, bool] = {}
    for step in _in_order(saga):
        undo, keep = step.cost("undo"), step.cost("keep")
        needs_stay = all(stays[need] for need in step.needs)
        stays[step.name] = not isinstance(undo, int) or (
            needs_stay and isinstance(keep, int) and undo > keep
        )
    return stays


def _never_called(saga: SagaParts, stays: dict[str, bool]) -> Iterator[str]:
    """Yield a warning for each step with a compensation that is never called."""
    center = pivot.pivot_of(saga)
    for step in _in_order(saga):
        undo, keep = step.cost("undo"), step.cost("keep")
        if isinstance(undo, int) and stays[step.name] and center is not None:
            if is_compensated(step):
                yield (
                    f"{step.where}: saga {saga.name!r}, step {step.name!r}: the compensation can "
                    f"never be called, because the step needs the pivot {center.name!r}. Remove it"
                )
        elif isinstance(undo, int) and stays[step.name]:
            remedy = (
                f"Set keep= to more than {undo}, or remove the compensation"
                if keep
                else "Set keep= to the cost of leaving its effect in place after a failure"
            )
            yield (
                f"{step.where}: saga {saga.name!r}, step {step.name!r}: the compensation can "
                f"never be called, because keeping the step (keep={keep}) costs less than "
                f"undoing it (undo={undo}). {remedy}"
            )


def _holding(saga: SagaParts, stays: dict[str, bool]) -> Iterator[str]:
    """Yield a warning for each step that keeps needed steps from being undone.

    It has no compensation: after it commits, the steps that it needs can never be undone. The
    warning is left out if the declaration has `undo=`, for a step that needs all others (nothing
    can fail after it), and for steps that another needed step fixes already.
    """
    by_name = {step.name: step for step in saga.steps}
    below: dict[str, set[str]] = {}
    fixed: dict[str, set[str]] = {}  # the steps that its needed steps fix
    for step in _in_order(saga):
        needs = step.needs
        below[step.name] = set(needs).union(*(below[need] for need in needs))
        fixed[step.name] = set[str]().union(
            *(fixed[need] if by_name[need].has_compensation else below[need] for need in needs)
        )
    undone = {
        step.name
        for step in saga.steps
        if step.has_compensation and not step.undo.implied and not stays[step.name]
    }
    for step in saga.steps:
        held = (below[step.name] - fixed[step.name]) & undone
        if (
            held
            and not step.has_compensation
            and not step.is_pivot
            and step._costs["undo"] is None
            and len(below[step.name]) + 1 < len(saga.steps)
        ):
            names = [f"{other.name!r}" for other in saga.steps if other.name in held]
            more = [f"{len(names) - MAX_LISTED} more"] if names[MAX_LISTED:] else []
            yield (
                f"{step.where}: saga {saga.name!r}, step {step.name!r} has no compensation, "
                f"so {' and '.join(names[:MAX_LISTED] + more)}, which it needs, can never be "
                "undone after it commits. Set undo=sagas.NOTHING if there is nothing to undo, "
                "or undo=sagas.NEVER to confirm"
            )
