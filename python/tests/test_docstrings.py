"""Public docstrings are complete and true: parameters, attributes, exceptions and examples."""

from __future__ import annotations

import ast
import asyncio
import builtins
import doctest
import inspect
import operator
import pathlib
import re
import typing
from collections.abc import Iterator
from typing import Any

import pytest

import sagas
from sagas.base import events
from sagas.core.attempt import machine as attempt_machine

PLAIN = (BaseException, dict, list, str, tuple)
REFERENCE = pathlib.Path(__file__).resolve().parents[2] / "docs" / "reference"


def names() -> Iterator[tuple[str, Any]]:
    """Return every public name that has its own docstring, and those of its class."""
    for module in (sagas, sagas.testing, sagas.celery):
        for name in module.__all__:
            thing, full = getattr(module, name), f"{module.__name__}.{name}".removeprefix("sagas.")
            if callable(thing) and thing is not sagas.Cost:
                yield full, thing
            if inspect.isclass(thing) and not issubclass(thing, PLAIN):
                for part in dir(thing):
                    attribute = inspect.getattr_static(thing, part)
                    if part[0] != "_" and (
                        inspect.isroutine(attribute) or isinstance(attribute, property)
                    ):
                        yield f"{full}.{part}", getattr(thing, part)


def section(doc: str, word: str) -> set[str]:
    """Return the names that a section of a docstring describes."""
    match = re.search(rf"^{word}:\n((?:    .*\n|\n)+)", doc + "\n", re.M)
    return set(re.findall(r"^    (\w+):", match[1], re.M)) if match else set()


def described(thing: Any) -> set[str]:
    """Return what a docstring describes, or the docstring that it refers to."""
    doc = inspect.getdoc(thing) or ""
    if inspect.isclass(thing) and inspect.isfunction(vars(thing).get("__init__")):
        doc += "\n\n" + (inspect.getdoc(vars(thing)["__init__"]) or "")
    documented = section(doc, "Args") | section(doc, "Attributes")
    for name in re.findall(r"See `([\w.]+)`", doc):
        documented |= described(operator.attrgetter(name)(sagas))
    return documented


def declared(kind: type) -> set[str]:
    """Return the attributes of a class: its fields, and those that its functions set."""
    tree = ast.walk(ast.parse(inspect.getsource(kind)))
    sets = (it for it in tree if isinstance(it, ast.Attribute) and isinstance(it.ctx, ast.Store))
    attributes = {
        it.attr for it in sets if isinstance(it.value, ast.Name) and it.value.id == "self"
    }
    return attributes | {it.name for it in getattr(kind, "__dataclass_fields__", {}).values()}


@pytest.mark.parametrize("name, thing", names(), ids=lambda it: it if isinstance(it, str) else "")
def test_says_what_it_takes_and_raises(name: str, thing: Any) -> None:
    doc = (thing.fget.__doc__ if isinstance(thing, property) else thing.__doc__) or ""
    assert 0 < len(doc.partition("\n")[0]) <= 80, "the first line is one short sentence"
    plain = inspect.isclass(thing) and issubclass(thing, PLAIN)
    wanted = declared(thing) if inspect.isclass(thing) and not plain else set()
    if typing.is_typeddict(thing):
        wanted |= set(thing.__annotations__)
    if not (plain or isinstance(thing, property) or "Made by" in doc):
        wanted |= set(inspect.signature(thing).parameters) - {"self"}
    assert {word for word in wanted if word[0] != "_"} <= described(thing)
    for error in section(inspect.cleandoc(doc), "Raises"):
        assert issubclass(getattr(sagas, error, None) or getattr(builtins, error), Exception)


def row(word: str, page: str) -> bool:
    """Return whether a page of the reference has a table row for a name."""
    return bool(re.search(rf"^\|[^|]*`{word}`.*\|$", (REFERENCE / page).read_text(), re.M))


def test_the_reference_has_each_exception_and_event() -> None:
    public = [getattr(sagas, name) for name in sagas.__all__]
    errors = [it for it in public if inspect.isclass(it) and issubclass(it, sagas.SagasError)]
    kinds = {sagas.SagasError, sagas.TemporaryError, sagas.ConflictError, sagas.InvalidError}
    names = {it.__name__ for it in errors if it not in kinds}
    assert {name for name in names if not row(name, "exceptions.md")} == set()
    names_of_events = {*events.LEVELS, *declared(sagas.Event)}
    assert {word for word in names_of_events if not row(word, "events.md")} == set()
    doc = inspect.getdoc(sagas.Event) or ""
    assert {word for word in attempt_machine.ANNOUNCED if f"`{word}`" not in doc} == set()


def test_examples_run(tmp_path: Any, monkeypatch: pytest.MonkeyPatch) -> None:
    monkeypatch.chdir(tmp_path)
    namespace, count = {"sagas": sagas, "asyncio": asyncio}, 0
    # its order is that of the others
    for name, thing in sorted(names(), key=lambda it: it[0] != "Saga"):
        for example in doctest.DocTestFinder(recurse=False).find(thing, name, globs=namespace):
            assert not doctest.DocTestRunner().run(example, clear_globs=False).failed, name
            namespace.update(example.globs)
            count += bool(example.examples)
    assert count >= 10
