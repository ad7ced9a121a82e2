"""The results that a step's function reads, as its source shows them.

Only the source is looked at: nothing is called. A read that the source does not show, for example
of a step that a local variable names, is left out.
"""

from __future__ import annotations

import ast
import builtins
import functools
import inspect
import textwrap
import types
from collections.abc import Callable, Iterator
from typing import Any, NamedTuple, Union

from sagas.definition.step import Collectable, Inclusion, Selection, Step, collect

Definition = Union[ast.FunctionDef, ast.AsyncFunctionDef, ast.Lambda]
DEFINITIONS = (ast.FunctionDef, ast.AsyncFunctionDef, ast.Lambda)
MAX_DEPTH = 8
"""Maximum number of functions that pass the task on to the next one."""
UNKNOWN = object()
"""The value of an expression that the source does not show."""


class ResultRead(NamedTuple):
    """A call of `task.result_of` without a default.

    Attributes:
        step: The step, or its name.
        location: File and line of the call.
    """

    step: Selection[Any] | str
    location: str


def reads_of(function: Callable[..., Any]) -> list[ResultRead] | None:
    """Return the results that a function reads, or None if its source cannot be read.

    Functions to which it passes the task count, too, if its source names them.
    """
    source = _source_of(function, 0)
    return None if source is None else [*_reads(source, frozenset())]


def needed_reads(step: Step[Any]) -> list[ResultRead]:
    """Return the results that a step may read by its `needs`, for a function without source."""
    return [
        ResultRead(need, step.where)
        for need in step._needs
        if isinstance(need, (Selection, str)) and not isinstance(need, Inclusion)
    ]


class _Source(NamedTuple):
    """The source of a function that gets a task.

    Attributes:
        function: The function.
        definition: Its parsed definition.
        task: The name of the parameter with the task.
        bound: The values of the parameters that are bound, by name: `self` of a method.
    """

    function: Any
    definition: Definition
    task: str
    bound: dict[str, Any]

    def line(self, node: ast.expr) -> str:
        """Return the file and the line of an expression."""
        code, first = self.function.__code__, self.definition.lineno
        if not isinstance(self.definition, ast.Lambda):  # the code begins at the first decorator
            first = min([first, *(part.lineno for part in self.definition.decorator_list)])
        return f"{code.co_filename}:{code.co_firstlineno + node.lineno - first}"


def _source_of(called: Any, position: int) -> _Source | None:
    """Return the source of a callable whose argument at a position is the task, or None."""
    owner: Any = UNKNOWN
    called = inspect.unwrap(called)
    while isinstance(called, functools.partial):
        position, called = position + len(called.args), called.func
    if not inspect.isroutine(called) and not isinstance(called, type):
        owner, called = called, getattr(type(called), "__call__", None)
    if isinstance(called, types.MethodType):
        owner, called = called.__self__, called.__func__
    if not isinstance(called, types.FunctionType):
        return None
    definition = _definition_of(called)
    if definition is None:
        return None
    names = [part.arg for part in (*definition.args.posonlyargs, *definition.args.args)]
    bound = {} if owner is UNKNOWN else {names.pop(0): owner} if names else {}
    if position >= len(names):
        return None
    return _Source(called, definition, names[position], bound)


def _definition_of(function: types.FunctionType) -> Definition | None:
    """Return the parsed definition of a function, or None without its source."""
    try:
        tree = ast.parse(textwrap.dedent(inspect.getsource(function)))
    except (OSError, TypeError, SyntaxError, ValueError):
        return None
    name, names = function.__name__, function.__code__.co_varnames
    for node in ast.walk(tree):
        if isinstance(node, DEFINITIONS) and getattr(node, "name", "<lambda>") == name:
            parameters = [part.arg for part in (*node.args.posonlyargs, *node.args.args)]
            if parameters == [*names[: len(parameters)]] and _is_of(node, function.__code__):
                return node
    return None


def _is_of(definition: Definition, code: types.CodeType) -> bool:
    """Return whether a definition has the names and constants of a function's code.

    A statement may have several lambdas. Alone, a lambda has global names for its free ones.
    """
    if not isinstance(definition, ast.Lambda):
        return True
    compiled = compile(ast.Expression(definition), "", "eval")
    lambda_code = next(part for part in compiled.co_consts if isinstance(part, types.CodeType))
    names = {*code.co_names, *code.co_freevars}
    return {*lambda_code.co_names} == names and lambda_code.co_consts == code.co_consts


def _reads(source: _Source, seen: frozenset[Any]) -> Iterator[ResultRead]:
    """Yield the reads of a function, and of those to which it passes the task."""
    seen |= {source.function}
    for node in ast.walk(source.definition):
        if not isinstance(node, ast.Call):
            continue
        called = node.func
        if isinstance(called, ast.Attribute) and _is_named(called.value, source.task):
            if called.attr == "result_of" and node.args and not node.keywords:
                step = _value_of(node.args[0], source)
                if isinstance(step, (Selection, str)):
                    yield ResultRead(step, source.line(node))
            continue
        for position, argument in enumerate(node.args):
            if _is_named(argument, source.task) and len(seen) < MAX_DEPTH:
                helper = _value_of(called, source)
                inner = _source_of(helper, position) if callable(helper) else None
                if inner is not None and inner.function not in seen:
                    yield from _reads(inner, seen)


def _is_named(node: ast.expr, name: str) -> bool:
    return isinstance(node, ast.Name) and node.id == name


def _value_of(node: ast.expr, source: _Source) -> Any:
    """Return the value that an expression names in a function; `UNKNOWN` if it is not shown."""
    if isinstance(node, ast.Constant):
        return node.value
    if isinstance(node, ast.Name):
        return _named_value(node.id, source)
    if isinstance(node, ast.Attribute):
        return _attribute(_value_of(node.value, source), node.attr)
    if isinstance(node, ast.Subscript):
        owner, inner = _value_of(node.value, source), _value_of(node.slice, source)
        is_step = isinstance(owner, Inclusion) and isinstance(inner, Selection)
        return owner[inner] if is_step else UNKNOWN
    if isinstance(node, ast.Call) and len(node.args) == 1 and not node.keywords:
        is_collect = _value_of(node.func, source) is collect
        step = _value_of(node.args[0], source) if is_collect else UNKNOWN
        return collect(step) if isinstance(step, Collectable) else UNKNOWN
    return UNKNOWN


def _attribute(owner: Any, name: str) -> Any:
    """Return an attribute without calling anything of the program."""
    if owner is UNKNOWN:
        return UNKNOWN
    if isinstance(owner, (Step, Inclusion)):
        return getattr(owner, name, UNKNOWN)  # `ship.each` is a property
    value = inspect.getattr_static(owner, name, UNKNOWN)
    if inspect.isfunction(value) and not isinstance(owner, (types.ModuleType, type)):
        return types.MethodType(value, owner)
    return value.__func__ if isinstance(value, staticmethod) else value


def _named_value(name: str, source: _Source) -> Any:
    """Return the value of a name that is not local to a function, or is bound."""
    function, code = source.function, source.function.__code__
    if name in source.bound:
        return source.bound[name]
    if name in code.co_freevars:
        cell = (function.__closure__ or ())[code.co_freevars.index(name)]
        try:
            return cell.cell_contents
        except ValueError:  # it has no value yet
            return UNKNOWN
    if name in code.co_varnames or name in code.co_cellvars:
        return UNKNOWN
    return function.__globals__.get(name, getattr(builtins, name, UNKNOWN))
