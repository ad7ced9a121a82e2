"""Which results a function reads, as far as its code shows it."""

from __future__ import annotations

import dis
import functools
import inspect
import types
from collections.abc import Callable, Iterator, Mapping
from typing import Any

from sagas.definition.parts import SagaParts
from sagas.definition.step import Inclusion, Part, Selection, Step

READERS = ("result_of", "failure_of")
"""The methods of a task that read the result of a step."""
MAX_ARGUMENT = 12
"""The instructions after such a method that may load its argument."""
LOADS_ATTRIBUTE = ("LOAD_METHOD", "LOAD_ATTR")
CALLS = ("CALL", "PRECALL", "CALL_KW", "CALL_FUNCTION_EX")


def unneeded_reads(saga: SagaParts) -> Iterator[tuple[Part, str]]:
    """Yield each step whose code reads the result of a part that it does not need.

    Needs of needs count. Only calls such as `task.result_of(charge)` are seen, with a step that is
    a global variable, or one of an enclosing function, or with a name.

    Yields:
        The step, and the name of the part that it reads.
    """
    needs = _all_needs(saga)
    for step in saga.steps:
        read: dict[str, None] = {}
        for manner in (step.run, step.undo):
            if manner.function is not None and not manner.implied:
                read |= dict.fromkeys(_parts_read(manner.function, saga))
        if callable(items := getattr(step, "items", None)):
            read |= dict.fromkeys(_parts_read(items, saga))
        for name in read:
            if name != step.name and name not in needs[step.name]:
                yield step, name


def _all_needs(saga: SagaParts) -> Mapping[str, frozenset[str]]:
    """Return what each part needs, directly or not. Needs of unknown names do not count."""
    parts, known = saga.parts_by_name, dict[str, frozenset[str]]()
    left = [*parts.values()]
    while left:
        ready = [
            part for part in left if all(need in known or need not in parts for need in part.needs)
        ]
        for part in ready:
            needs = [need for need in part.needs if need in parts]
            known[part.name] = frozenset(needs).union(*(known[need] for need in needs))
        if not ready:  # a cycle, which the check of the saga reports
            return known | {part.name: frozenset(parts) for part in left}
        left = [part for part in left if part.name not in known]
    return known


def _parts_read(function: Callable[..., Any], saga: SagaParts) -> Iterator[str]:
    """Yield the names of the parts of a saga whose results a function reads."""
    plain = _plain(function)
    if plain is None:
        return
    closure = plain.__closure__ or ()
    names = dict(plain.__globals__)
    for name, cell in zip(plain.__code__.co_freevars, closure):
        try:
            names[name] = cell.cell_contents
        except ValueError:  # it is not assigned yet
            names.pop(name, None)
    yield from _parts_in(plain.__code__, names, saga)


def _plain(function: Any) -> types.FunctionType | None:
    """Return the function within decorators, methods and partial functions."""
    while True:
        if isinstance(function, functools.partial):
            function = function.func
        elif inspect.ismethod(function):
            function = function.__func__
        elif hasattr(function, "__wrapped__"):
            function = function.__wrapped__
        else:
            return function if isinstance(function, types.FunctionType) else None


def _parts_in(code: types.CodeType, names: Mapping[str, Any], saga: SagaParts) -> Iterator[str]:
    instructions = [*dis.get_instructions(code)]
    for index, instruction in enumerate(instructions):
        if instruction.opname in LOADS_ATTRIBUTE and instruction.argval in READERS:
            name = _argument(instructions[index + 1 : index + 1 + MAX_ARGUMENT], names, saga)
            if name is not None:
                yield name
    for constant in code.co_consts:  # comprehensions, lambdas and inner functions
        if isinstance(constant, types.CodeType):
            yield from _parts_in(constant, names, saga)


def _argument(
    instructions: list[dis.Instruction], names: Mapping[str, Any], saga: SagaParts
) -> str | None:
    """Return the name of the part that the first argument of a call selects, if it is known."""
    for number, instruction in enumerate(instructions):
        if number == 0 and instruction.opname == "LOAD_CONST":
            value = instruction.argval
            return value if isinstance(value, str) and value in saga.parts_by_name else None
        if instruction.opname.startswith(("LOAD_GLOBAL", "LOAD_DEREF", "LOAD_NAME")):
            value = names.get(str(instruction.argval))
            is_part = isinstance(value, (Step, Inclusion, Selection))
            if is_part and getattr(value, "saga", None) is saga:
                return _name_of(value)
        if instruction.opname in CALLS and number > 0:
            return None
    return None


def _name_of(value: Any) -> str:
    return str(value.name if isinstance(value, Inclusion) else value.path[0])
