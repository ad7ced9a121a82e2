"""Attempts that child sagas perform: keys, inputs and outcomes."""

from __future__ import annotations

import functools
from collections.abc import Callable, Iterable, Iterator, Mapping, Sequence
from typing import Any, NamedTuple

from sagas.base.errors import NotSerializable
from sagas.core.attempt.model import Attempt
from sagas.core.outcomes import SUCCEEDED, Outcome, failure
from sagas.definition.saga_result import SagaEnd
from sagas.core.states import SagaPhase, StepState
from sagas.definition import (
    child_fan_outs,
    child_sagas,
    definition_text,
    serialization,
    undo_sagas,
)
from sagas.definition.child_fan_outs import ChildFanOut
from sagas.definition.compiled import CompiledDefinition
from sagas.definition.parts import SagaParts


def key_of(attempt: Attempt) -> str:
    """Return the key of the saga that an attempt starts.

    The key stays the same when the attempt continues. It changes when the attempt is called again
    after a child that did not complete.
    """
    return child_sagas.key_of(attempt.key, attempt.name, number_of(attempt), attempt.undo)


def number_of(attempt: Attempt) -> int:
    """Return the number of that saga: greater than 1 after children that did not complete."""
    return attempt.attempt + attempt.failures


def undone_key(attempt: Attempt) -> str | None:
    """Return the key of the child that an attempt undoes; None if it starts one."""
    if attempt.undo:
        return child_key(attempt.task().result)
    if attempt.instance.kind.undoes is not None:  # it undoes a child of the undone saga
        return str(child_input(attempt)())
    return None


def child_key(result: Any) -> str | None:
    """Return the key of the child, given the result of the step that started it; else None."""
    if isinstance(result, list):
        return child_fan_outs.made_key(result)
    key = result.get("key") if isinstance(result, dict) else None
    return key if isinstance(key, str) else None


def child_input(attempt: Attempt) -> Callable[[], Any]:
    """Return a callable for the input of a child, which the step's function computes.

    A thread may call it.

    Raises:
        CannotDecode: The codec failed.
    """
    step, function = attempt.declared, attempt.declared.run.function
    if isinstance(step, ChildFanOut):
        return functools.partial(child_fan_outs.input_of, step, attempt.task())
    assert function
    return functools.partial(function, attempt.task())


def has_no_items(saga: SagaParts, child_input: Any) -> bool:
    """Return whether a saga would start children for items, and its input has none."""
    return saga.starts_for is not None and not child_input[child_fan_outs.ITEMS]


def _end_text(end: Any) -> str:
    """Return a child's end as JSON.

    It nests the child's results, which may hold the ends of further children, so it may be too
    deep to store.
    """
    try:
        return serialization.write(end)
    except NotSerializable as error:
        return serialization.write({serialization.UNSTORABLE: str(error)})


def undo_input(
    key: str,
    token: str,
    kind: CompiledDefinition,
    text: str,
    results: Mapping[int, str],
    undone: Iterable[str] = (),
    earlier: Sequence[str] = (),
) -> Any:
    """Return the input of the saga that undoes a child.

    Args:
        key: The child's key.
        token: The child's token. Its idempotency keys are computed from it.
        kind: The child's definition.
        text: The child's input, as it is stored.
        results: The results of the child's steps, as they are stored, by the steps' numbers.
        undone: The steps that have nothing left to undo.
        earlier: The keys of the sagas that have undone a part of the child.
    """
    decode = kind.payloads.decode
    child_input = serialization.read(decode(text))
    child_results = {
        kind.names[step]: serialization.read(decode(value)) for step, value in results.items()
    }
    if kind.starts_each:  # keys are enough, and each of many attempts reads this input
        child_input = None
        child_results = {name: {"key": child_key(result)} for name, result in child_results.items()}
    return {
        "key": key,
        "token": token,
        "input": child_input,
        "results": child_results,
        "undone": sorted(undone),
        "earlier": [*earlier],
    }


def undone_steps(child: Mapping[str, str], earlier: Iterable[Mapping[str, str]]) -> set[str]:
    """Return the steps of a child that have nothing left to undo.

    Args:
        child: The states of its steps, by name.
        earlier: The step states of each earlier saga that undid the child.
    """
    undone = {name for name, state in child.items() if state != StepState.COMMITTED}
    for states in earlier:
        undone |= {name for name, state in states.items() if state == StepState.COMMITTED}
    return undone


def child_outcome(
    end: SagaEnd, kind: CompiledDefinition, results: Mapping[int, str]
) -> Outcome | None:
    """Return the outcome of a step whose child has ended.

    Args:
        end: How it ended.
        kind: The child's definition.
        results: As of `undo_input`.

    Returns:
        None if the child is stuck: an operator has to resolve it first.
    """
    if end.phase == SagaPhase.STUCK:
        return None
    if end.phase == SagaPhase.COMPLETED:
        decode = kind.payloads.decode
        child_results = {
            kind.names[step]: serialization.read(decode(results[step])) for step in sorted(results)
        }
        value: Any = {"key": end.key, "phase": end.phase, "results": child_results}
        if kind.starts_each:
            value = [*child_results.values()]
        return Outcome(SUCCEEDED, _end_text(value))
    aborted = " (aborted)" if end.aborted else ""
    failed = [f"{step}: {error}" for step, error in end.errors.items()]
    error_text = f". {'; '.join(failed)}" if failed else ""
    return failure(f"child saga {end.key!r} has not completed: {end.phase}{aborted}{error_text}")


# -- the compensations of completed children that open sagas may undo


class CompletedChild(NamedTuple):
    """A completed child with an open ancestor.

    Attributes:
        is_open: Whether its parent is open; else the parent has completed, too.
        parent: The definition of its parent.
        step: The parent's step that started it.
        child: Its own definition.
    """

    is_open: bool
    parent: str
    step: str
    child: str


def children_by_shard(
    rows: Iterable[tuple[Any, ...]], definitions: Iterable[tuple[Any, ...]]
) -> dict[int, list[CompletedChild]]:
    """Return completed children by the shards of the open sagas above them.

    Args:
        rows: The shard, whether the parent is open, the digest of its definition, what
            follows the parent's key in the child's, and the digest of the child's definition.
        definitions: Digests and texts of definitions.
    """
    children: dict[int, list[CompletedChild]] = {}
    texts = {digest: text for digest, text in definitions}
    for shard, is_open, parent, below, child in rows:
        if parent in texts and child in texts:  # else its shard is damaged
            step = below.partition("/")[0]
            completed = CompletedChild(bool(is_open), texts[parent], step, texts[child])
            children.setdefault(shard, []).append(completed)
    return children


class UndoableChild(NamedTuple):
    """A completed child that its parent may undo.

    Attributes:
        completed: The child.
        parent: The definition of its parent, with the functions of the program.
        child: Its own definition, with the functions of the program.
    """

    completed: CompletedChild
    parent: CompiledDefinition
    child: CompiledDefinition


def undoable_children(
    kind_of: Callable[[str], CompiledDefinition], completed: Iterable[CompletedChild]
) -> Iterator[UndoableChild]:
    """Yield those completed children that may be undone.

    The parent is open and may undo the child, or may be undone itself.

    Args:
        kind_of: Returns a definition with the functions of the program.
        completed: The children and their descendants.
    """
    left, undone = [*completed], set[str]()
    steps: dict[tuple[str, bool], set[str]] = {}
    while due := [
        completed_child
        for completed_child in left
        if completed_child.is_open or completed_child.parent in undone
    ]:
        left = [
            completed_child
            for completed_child in left
            if not completed_child.is_open and completed_child.parent not in undone
        ]
        for completed_child in due:
            parent = kind_of(completed_child.parent)
            parent_key = completed_child.parent, completed_child.is_open
            if parent_key not in steps:
                steps[parent_key] = {*_undone_by_sagas(parent, completed_child.is_open)}
            if completed_child.step in steps[parent_key]:
                yield UndoableChild(completed_child, parent, kind_of(completed_child.child))
                undone.add(completed_child.child)


def missing_compensation(
    kind_of: Callable[[str], CompiledDefinition], completed: Iterable[CompletedChild]
) -> str | None:
    """Return which compensation of completed children the program does not have; else None.

    The arguments are those of `undoable_children`.
    """
    for completed_child, parent, child in undoable_children(kind_of, completed):
        if (lacks := undo_sagas.lacks(child.saga, child.text)) is not None:
            return (
                f"saga {parent.name!r} (version {parent.version}) has open sagas that may undo "
                f"a child of saga {child.name!r} (version {child.version}), but {lacks}"
                if completed_child.is_open
                else f"open sagas may undo a child of saga {child.name!r} (version "
                f"{child.version}), but {lacks}"
            )
    return None


def _undone_by_sagas(kind: CompiledDefinition, is_open: bool) -> Iterator[str]:
    """Return the steps whose children separate sagas undo when the parent is undone."""
    listed = definition_text.listed_steps(kind.text)
    declared = {name: step for name, step in zip(kind.names, kind.steps) if step is not None}
    planned = {
        listed_step.name for listed_step in child_sagas.planned_compensations(listed, declared)
    }
    for listed_step in listed:
        is_undone = listed_step.undo != "never" if is_open else listed_step.name in planned
        step = declared.get(listed_step.name)
        if is_undone and step is not None and step.starts_child("undo"):
            yield listed_step.name
