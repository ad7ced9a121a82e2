"""Child sagas: their keys, their declared steps, and the compensations that undo them."""

from __future__ import annotations

import typing
from collections.abc import Callable, Iterable, Iterator, Mapping, Sequence
from typing import Any, TYPE_CHECKING, TypedDict

from sagas.base.errors import InvalidKey, NotAbortable
from sagas.definition import arguments, decoders, type_hints
from sagas.definition.arguments import BELOW
from sagas.definition.definition_text import Compensation, ListedStep, MAX_NAME
from sagas.definition.serialization import Decoder

if TYPE_CHECKING:
    from sagas.definition.parts import SagaParts
    from sagas.definition.step import Step

UNDO = ":undo"
"""The ending of the key of a saga that undoes a child."""
END = ":end"
"""What the key of a saga that calls `on_end` has in place of the name of a step."""
NUMBERS = 4
"""Characters of a key that are reserved for the number of a repeated child."""


class ChildResult(TypedDict):
    """The result of a step that starts a child saga.

    Attributes:
        key: The child's key.
        phase: `completed`.
        results: The results of the child's steps, by name, as JSON.
    """

    key: str
    phase: str
    results: dict[str, Any]


def children_of(saga: SagaParts) -> Iterator[tuple[Step[Any], SagaParts]]:
    """Return the steps of a saga that start children, with the child of each."""
    return ((step, step.child) for step in saga.all_steps if step.child is not None)


def descendants(saga: SagaParts) -> list[SagaParts]:
    """Return the definitions of a saga's children, and of their children."""
    seen: dict[SagaParts, None] = {}
    left = [child for _, child in children_of(saga)]
    while left:
        child = left.pop()
        if child not in seen:
            seen[child] = None
            left += [grandchild for _, grandchild in children_of(child)]
    return [*seen]


def child_of_items(saga: SagaParts) -> SagaParts:
    """Return the child of each item, given the saga that starts them."""
    ((_, child),) = children_of(saga)
    return child


def hints(step: Step[Any] | None) -> tuple[Decoder | None, Decoder | None]:
    """Return the decoders of a step's input and of its result.

    The result of a step that starts a child has none: its function returns the child's input. That
    of an approval has the type of `Approved`. Else the function says the type of the result, or the
    compensation, by the hint `CompensationTask[..., R]`.
    """
    if step is None:
        return None, None
    function, undo = step.run.function, step.undo.function
    input = decoders.input_decoder(function) if function else None
    if step.child is not None:
        return input, None
    result = None
    if function is not None:
        is_approval = step.kind == "approval"
        result = _decision_decoder(function) if is_approval else decoders.result_decoder(function)
    if result is None and undo is not None:
        result = decoders.hinted(type_hints.second_hint(undo, "CompensationTask"))
    return input, result


def _decision_decoder(function: Callable[..., Any]) -> Decoder | None:
    """Return the decoder of an approval's result: `T` of the hint `Approved[T] | None`, or null."""
    hint = type_hints.result_hint(function)
    for member in (hint, *typing.get_args(hint)):
        kind = typing.get_origin(member)
        if getattr(kind, "__name__", None) == "Approved":
            return decoders.decoder(typing.Optional[typing.get_args(member)[0]])
    return None


# -- keys


def key_of(parent: str, step: str, number: int = 1, undo: bool = False) -> str:
    """Return the key of a child, or of the saga that undoes it.

    Args:
        parent: The key of the saga that starts it.
        step: The step's name.
        number: The child's number: 1, or more if an operator retried the step.
        undo: Whether to return the key of the saga that undoes the child.
    """
    suffix = "" if number == 1 else f"/{number}"
    return f"{parent}{BELOW}{step}{UNDO if undo else ''}{suffix}"


def is_of_step(key: str, parent: str, step: str) -> bool:
    """Return whether a key is that of a child of this step.

    The keys of sagas that undo such a child do not count.
    """
    first = key_of(parent, step)
    number = key.removeprefix(f"{first}/")
    return key == first or (number != key and number.isdecimal() and number.isascii())


def end_key(key: str, number: int = 1) -> str:
    """Return the key of the saga that calls `on_end` after the end of a saga.

    Args:
        key: The key of the saga that has ended.
        number: 1, or more if an earlier saga had the same key, and was deleted before the end of
            its call.
    """
    return key_of(key, END, number)


def calls_end(key: str) -> bool:
    """Return whether a key is that of a saga that calls `on_end`."""
    return f"{BELOW}{END}" in key


def parent_of(key: str) -> str:
    """Return the key of the saga that started the child with this key."""
    return key.rpartition(BELOW)[0]


def undoes_child(key: str) -> bool:
    """Return whether a key is that of a saga that undoes a child.

    Such a saga starts further ones for the children of the child. They count, too.
    """
    return UNDO in key.partition(BELOW)[2]


def check_abortable(key: str) -> None:
    """Raise `NotAbortable` if the saga with this key undoes a child, or calls `on_end`."""
    if calls_end(key):
        raise NotAbortable(
            f"saga {key!r} calls the on_end function of saga {parent_of(key)!r}, which is called "
            "at least once, so it is not aborted. Nothing was changed. If the call waits for a "
            "person, retry, complete or fail its step"
        )
    if undoes_child(key):
        raise NotAbortable(
            f"saga {key!r} undoes a child, so it is not aborted: effects of the child would "
            "remain. Nothing was changed. If one of its steps waits for a person, retry, complete "
            "or fail the step"
        )


def room_of(saga: SagaParts) -> int:
    """Return how many characters the keys of a saga's descendants add to its own key."""
    return max(
        (
            (MAX_NAME if saga.is_shaped else len(step.name))
            + len(BELOW)
            + len(UNDO)
            + NUMBERS
            + room_of(child)
            for step, child in children_of(saga)
        ),
        default=0,
    )


def check_key(key: str, saga: SagaParts) -> None:
    """Raise `InvalidKey` if a key is too long for the keys of the saga's children."""
    room = room_of(saga)
    if len(key) + room > arguments.MAX_KEY:
        raise InvalidKey(
            f"key={arguments.shown(key)}: the keys of the saga's children begin with it, so it "
            f"must have at most {arguments.MAX_KEY - room} characters"
        )


# -- compensations


def planned_compensations(
    child: Sequence[ListedStep], declared: Mapping[str, Step[Any]]
) -> list[Compensation]:
    """Return the compensations that undo a completed child, last step first.

    A step that cannot be undone keeps its effect, and so do the steps that it needs.

    Args:
        child: The steps of the definition that the child ran with.
        declared: The steps of the child as this program declares them, by name.
    """
    below = _below(child)
    fixed = {step.name for step in child if step.undo == "never"}
    fixed = fixed.union(*(below[name] for name in fixed))
    undone = {
        step.name
        for step in child
        if step.name not in fixed and not _is_empty(step, declared.get(step.name))
    }
    above = _above(child)
    return [
        Compensation(
            step.name,
            tuple(sorted(_first_of(above, step.name, undone))),
            0 if _starts_child(declared.get(step.name)) else step.undo,
            step.keep,
            step.undo_tries,
            tuple(need.name for need in child if need.name in below[step.name]),
        )
        for step in reversed(child)
        if step.name in undone
    ]


def _is_empty(listed: ListedStep, declared: Step[Any] | None) -> bool:
    """Return whether a step has nothing to undo.

    It has no compensation in this program, and had none when the child started.
    """
    if listed.has_nothing:
        return declared is None or not declared.has_compensation or declared.undo.implied
    if declared is None or listed.is_compensated:
        return False
    return declared.undo.implied and declared.child is None


def _starts_child(declared: Step[Any] | None) -> bool:
    return declared is not None and declared.starts_child("undo")


def _above(child: Iterable[ListedStep]) -> dict[str, list[str]]:
    """Return, for each step, the steps that need it directly."""
    above: dict[str, list[str]] = {step.name: [] for step in child}
    for step in child:
        for need in step.needs:
            above[need].append(step.name)
    return above


def _below(child: Iterable[ListedStep]) -> dict[str, set[str]]:
    """Return, for each step, the steps that it needs, directly or not."""
    needs = {step.name: step.needs for step in child}
    below: dict[str, set[str]] = {}
    for name in needs:
        seen, left = set[str](), [*needs[name]]
        while left:
            if (need := left.pop()) not in seen:
                seen.add(need)
                left += needs[need]
        below[name] = seen
    return below


def _first_of(above: Mapping[str, list[str]], name: str, among: set[str]) -> set[str]:
    """Return the nearest steps among some that need the named step, directly or not."""
    nearest, seen, left = set[str](), set[str](), [*above[name]]
    while left:
        step = left.pop()
        if step in seen:
            continue
        seen.add(step)
        if step in among:
            nearest.add(step)
        else:
            left += above[step]
    return nearest
