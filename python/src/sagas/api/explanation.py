"""`explain`: what each failure of a saga would lead to, before it runs."""

from __future__ import annotations

from collections.abc import Mapping
from typing import Any

from sagas.base.errors import InvalidInput
from sagas.definition import waits
from sagas.definition.parts import SagaParts
from sagas.definition.saga import Saga
from sagas.definition.start_options import I, NO_INPUT
from sagas.definition.step import Inclusion, Selection, is_shaped_step
from sagas.inspection import explanation, failure_rates
from sagas.inspection.explanation import Explanation


def explain(
    saga: Saga[I],
    input: I = NO_INPUT,
    *,
    rates: Mapping[Any, float] | None = None,
    history: str | None = None,
    pairs: bool = True,
) -> Explanation:
    """Return what each failure of a saga would lead to, before it runs.

    The program `sagas` makes the plans, and no function of a step is called. It looks at the
    failure of each step at two moments: each step that does not depend on it has committed
    (`late`), or only the steps that it needs (`early`). For up to 64 steps, it also looks at each
    two steps that may fail together.

    Args:
        saga: The definition.
        input: An example of its input, if its steps or costs come from it (default: None).
        rates: The probability that a step fails permanently, from 0 to 1, by the step or its name
            (default: 0).
        history: The store whose ended sagas have the rates of the other steps: a file, or the URL
            of a database (default: none).
        pairs: Whether failures of two steps together are planned (default: True).

    Returns:
        An `Explanation`.

    Raises:
        DefinitionError: The definition is not valid.
        InvalidInput: The steps cannot be computed from the input.
        TooLarge: The saga has too many steps for the input.
        NotSerializable: The input is not JSON.
        KeyError: A step of `rates` does not exist.
        ValueError: A rate is not a number from 0 to 1.
        InvalidStore: The store of `history` cannot be read.
        EngineError: The program `sagas` cannot be run.

    Example:
        >>> explanation = sagas.explain(order, rates={"send": 0.1})
        >>> print(explanation.failure("send"))
        undo charge
        >>> explanation.worst.cost, explanation.expected[0].cost
        (4, 0.4)
    """
    waits.check_is_saga(saga)
    if input is None and reads_input(saga):
        raise InvalidInput(f"saga {saga.name!r} depends on its input. Pass an example of an input")
    text = saga.toml(input)
    learned = None if history is None else failure_rates.of_store(history, saga.name)
    named = {_name_of(step): rate for step, rate in (rates or {}).items()}
    known = {} if learned is None else learned.of_definition(text)
    return explanation.of_definition(
        text,
        rates={**known, **named},
        learned_from=None if learned is None else learned.sagas,
        pairs=pairs,
    )


def reads_input(saga: SagaParts) -> bool:
    """Return whether the input determines the steps of a saga, or their costs."""
    return any(
        part.for_each is not None or part.when is not None or reads_input(part.inner)
        if isinstance(part, Inclusion)
        else is_shaped_step(part)
        for part in saga.parts
    )


def _name_of(step: object) -> str:
    name = "/".join(step.path) if isinstance(step, Selection) else step
    if not isinstance(name, str):
        raise TypeError(f"rates: {type(step).__name__}: must be a step, or its name")
    return name
