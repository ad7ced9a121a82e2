"""Scripts of tests: failing attempts, unknown outcomes and answers.

The functions check the arguments of `sagas.testing.run`, and convert them for a simulation.
"""

from __future__ import annotations

from collections.abc import Callable, Iterable, Mapping
from typing import Any, TypeVar, Union

from sagas.base.errors import Retry
from sagas.core import outcomes
from sagas.core.attempt.model import Attempt
from sagas.core.outcomes import Outcome
from sagas.core.states import OutcomeKind
from sagas.definition import arguments, child_sagas, end_calls, serialization
from sagas.definition.arguments import shown
from sagas.definition.layout import Layout
from sagas.definition.parts import SagaParts, patterns, step_named
from sagas.definition.step import Selection, Step

Attempts = Union[int, Iterable[int], Exception, type[Exception]]
"""The attempts: the first N, those of a list, or all of them with an exception."""

V = TypeVar("V")
Script = Union[
    Mapping[str, Attempts], Mapping[Step[Any], Attempts], Mapping[Selection[Any], Attempts]
]
Answers = Union[Mapping[str, Any], Mapping[Step[Any], Any], Mapping[Selection[Any], Any]]
Rule = Callable[[int], Exception | None]
SCRIPTED = "the test says so"
FORMS = (
    "a number of attempts (1), a list of attempts ([2]), or an exception for all "
    '(sagas.Fail("sold out"))'
)


def for_step(attempt: Attempt, by_step: Mapping[str, V]) -> V | None:
    """Return the entry for an attempt's step, by its name, else by its declared name."""
    return by_step.get(attempt.name, by_step.get(attempt.declared_name))


def part_of(saga: SagaParts, child: str | None, argument: Mapping[Any, Any] | None) -> Any:
    """Return the entries of an argument for a saga's own steps, or for a child.

    A test names a step of a child as `stay/room`, or by the step `room` itself, and the call after
    the end as `on_end`.

    Args:
        saga: The saga.
        child: The name of the step that starts the child, `child_sagas.END` for the call after the
            end, or None for the saga's own steps.
        argument: The argument of the test, by step. It is returned unchanged if it is not a dict.
    """
    if not isinstance(argument, Mapping):
        return argument
    entries = {}
    for step, value in argument.items():
        heads, rest = _heads(saga, step)
        if child in heads or (child is None and not heads):
            entries[rest] = value
    return entries


def _heads(saga: SagaParts, step: object) -> tuple[list[str], object]:
    """Return the steps that start a step's child, and the step in the child.

    The list is empty for a step of the saga itself.
    """
    has_call = saga.end_saga is not None and step_named(saga, end_calls.STEP) is None
    if has_call and step == end_calls.STEP:
        return [child_sagas.END], step
    if saga.starts_for is not None and isinstance(step, str):
        if step_named(saga, step.partition("/")[0]) is None:  # a step of the child of each item
            return [saga.steps[0].name], step
    if isinstance(step, str) and "/" in step:
        head, _, rest = step.partition("/")
        names = [starter.name for starter, _ in child_sagas.children_of(saga)]
        if head not in names and step_named(saga, step):
            return [], step
        if head not in names:
            near = arguments.meant(head, names)
            raise KeyError(f"saga {saga.name!r} has no child step {head!r}{near}")
        return [head], rest
    if isinstance(step, Step) and step.saga is not saga:
        heads = [
            starter.name
            for starter, child in child_sagas.children_of(saga)
            if step.saga is child or step.saga in child_sagas.descendants(child)
        ]
        return heads, step
    return [], step


def name_of(saga: SagaParts, step: object) -> str:
    """Return the name of a step in an argument of a test.

    Raises:
        TypeError: It is neither a step nor a name.
        KeyError: The saga has no such step.
    """
    name = "/".join(step.path) if isinstance(step, Selection) else step
    if not isinstance(name, str):
        raise TypeError(f"{shown(step)}: must be a step of saga {saga.name!r}, or its name")
    if step_named(saga, name) is None:
        names = [pattern.path for pattern in patterns(saga)]
        raise KeyError(f"saga {saga.name!r} has no step {name!r}{arguments.meant(name, names)}")
    return name


def check_items(saga: SagaParts, layout: Layout, names: Iterable[str]) -> None:
    """Check that the input has the items that a test names.

    The name of a declared step means all of its items, which may be none.

    Raises:
        KeyError: The input does not have an item.
    """
    for name in names:
        declared = next(pattern.path for pattern in patterns(saga) if pattern.is_of(name))
        if name == declared or name in layout.origins:
            continue
        steps = [step for step, origin in layout.origins.items() if origin.declared == declared]
        items = f"{', '.join(steps[:3])}{' and others' * (len(steps) > 3)}" if steps else "none"
        raise KeyError(
            f"saga {saga.name!r} has no step {name!r} for this input: the items of step "
            f"{declared!r} are {items}. Name one of these, or {declared!r} for all of them"
        )


def _step(saga: SagaParts, name: str) -> Step[Any]:
    """Return the declared step of a name."""
    step = step_named(saga, name)
    assert step
    return step


def answers_of(
    saga: SagaParts, answers: Answers | None, argument: str = "answers"
) -> dict[str, Any]:
    """Return the answers by the names of the steps.

    Args:
        saga: The saga.
        answers: The answers by step.
        argument: The argument's name, for messages.
    """
    if answers is not None and not isinstance(answers, Mapping):
        raise TypeError(
            f"{argument}={shown(answers)}: must be a dict of answers by step: "
            f'{argument}={{"{saga.parts[-1].name}": "yes"}}'
        )
    return {name_of(saga, step): answer for step, answer in (answers or {}).items()}


def early_of(saga: SagaParts, early: Answers | None) -> dict[str, Outcome]:
    """Return the outcomes that are reported before the steps start, by step.

    An exception means a failure.
    """
    reports = {}
    for name, answer in answers_of(saga, early, "early").items():
        step = _step(saga, name)
        if step.kind != "approval" and not step.run.external:
            raise ValueError(
                f"early: step {name!r} is neither an approval nor external, so no report "
                "completes it. Remove this"
            )
        if isinstance(answer, Exception):
            text = f"{type(answer).__name__}: {answer}"
            reports[name] = outcomes.failure(text, final=True)
        else:
            text = serialization.write_value(answer, f"early[{name!r}]")
            reports[name] = Outcome(OutcomeKind.SUCCEEDED, text)
    return reports


def script(saga: SagaParts, argument: str, attempts: Script | None) -> dict[str, Rule]:
    """Return the rules of an argument, by the names of the steps.

    Args:
        saga: The saga.
        argument: The argument's name: `fail`, `fail_undo`, `unknown` or `unknown_undo`.
        attempts: The attempts by step.
    """
    if attempts is not None and not isinstance(attempts, Mapping):
        raise TypeError(
            f"{argument}={shown(attempts)}: must be a dict of attempts by step: "
            f'{argument}={{"{saga.parts[-1].name}": 1}}'
        )
    return {
        name_of(saga, step): _rule(saga, argument, name_of(saga, step), some)
        for step, some in (attempts or {}).items()
    }


def _rule(saga: SagaParts, argument: str, name: str, attempts: Any) -> Rule:
    """Return the function that returns the exception for an attempt, or None."""
    if argument.endswith("_undo"):
        _check_compensation(saga, argument, name)
    if isinstance(attempts, type) and issubclass(attempts, Exception):
        attempts = attempts()
    if isinstance(attempts, Exception):
        each = attempts
        return lambda attempt: each
    entry = f"{argument}={{{name!r}: {shown(attempts)}}}"
    if isinstance(attempts, (str, bytes, type)) or not (
        arguments.is_count(attempts) or isinstance(attempts, Iterable)
    ):
        raise TypeError(f"{entry}: must be {FORMS}")
    is_number = isinstance(attempts, int)
    chosen = range(1, attempts + 1) if is_number else [*attempts]
    checked = [attempts + 1] if is_number else chosen  # the number may be very large
    if not all(arguments.is_count(attempt) and attempt > 0 for attempt in checked):
        raise ValueError(f"{entry}: attempts are numbered from 1. It must be {FORMS}")
    error = Retry(SCRIPTED)
    return lambda attempt: error if attempt in chosen else None


def _check_compensation(saga: SagaParts, argument: str, name: str) -> None:
    step = _step(saga, name)
    if not step.has_compensation:
        raise ValueError(
            f"{argument}: step {name!r} has no compensation, so it is never undone. Declare "
            f"one with @{name}.compensation, or remove this"
        )
    if step.undo.implied and step.child is None:
        raise ValueError(
            f"{argument}: step {name!r} has no compensation, and undoing it does nothing, "
            "which cannot fail. Remove this"
        )
