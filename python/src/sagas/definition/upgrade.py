"""Whether a program can continue an open saga, by what is stored of it.

Nothing of the program is called, except decoders of types.
"""

from __future__ import annotations

import dataclasses
import enum
from collections.abc import Callable, Iterator, Mapping
from typing import Any, NamedTuple

from sagas.base.errors import CannotDecode, ProgramError, SagasError
from sagas.definition import child_sagas, definition_text, result_reads, serialization, type_checks
from sagas.definition.compiled import CompiledDefinition
from sagas.definition.layout import ShapeValues
from sagas.definition.payloads import ENVELOPE, Payloads, Reference
from sagas.definition.result_reads import ResultRead
from sagas.definition.serialization import Decoder
from sagas.definition.parts import SagaParts, step_named
from sagas.definition.step import Inclusion, Step
from sagas.definition.step_location import StepLocation
from sagas.definition.task import Task
from sagas.definition.task_data import TaskSnapshot
from sagas.definition.undo_sagas import (
    compensation_hints,
    declared_steps,
    listed_and_declared,
)


class Obstacle(str, enum.Enum):
    """The reason for which a program cannot continue an open saga."""

    MISSING_STEP = "missing_step"
    """The program has no function for a step, or was not given the saga."""
    MISSING_COMPENSATION = "missing_compensation"
    """The program has no compensation for a step of the saga, or of a child that it may undo."""
    CANNOT_DECODE = "cannot_decode"
    """The program cannot read a stored input, item or result."""
    MISSING_RESULT = "missing_result"
    """A function asks for the result of a step that the saga does not have."""
    NOT_CHECKED = "not_checked"
    """A stored value could not be looked at: it needs a codec or a blob store."""


class Problem(NamedTuple):
    """One reason for which a program cannot continue one saga.

    Attributes:
        obstacle: The kind of reason.
        step: The declared name of the step, or None.
        subject: What is missing or cannot be read: `function`, `input`, `result` and so on.
        detail: The whole reason, for people. It has no value.
    """

    obstacle: Obstacle
    step: str | None
    subject: str
    detail: str


@dataclasses.dataclass(frozen=True, slots=True)
class StoredState:
    """What is stored of an open saga. Texts are as the store has them.

    Attributes:
        input: Its input.
        shape: The values of its shape, or None.
        results: The results of its committed steps, by number.
        undone: The numbers of the steps whose compensations are over.
    """

    input: str
    shape: str | None = None
    results: Mapping[int, str] = dataclasses.field(default_factory=dict)
    undone: frozenset[int] = frozenset()


Fetch = Callable[[Reference], "str | None"]
"""Returns the stored text of a value in the blob store, or None without a blob store."""


class UpgradeCheck:
    """Compares stored sagas with the functions of a program.

    Args:
        payloads: How inputs and results are stored.
        fetch: Reads values of the blob store.
    """

    def __init__(self, payloads: Payloads, fetch: Fetch) -> None:
        self._payloads, self._fetch = payloads, fetch
        self._reads: dict[tuple[Step[Any], str], list[ResultRead]] = {}
        self._fixed: dict[tuple[str, int, str], list[Problem]] = {}

    def problems(self, kind: CompiledDefinition, stored: StoredState) -> Iterator[Problem]:
        """Yield why the program of a definition cannot continue a saga."""
        is_known = kind.saga is not None
        for missing in kind.missing():
            is_undo = missing.is_compensation
            yield Problem(
                Obstacle.MISSING_COMPENSATION if is_undo else Obstacle.MISSING_STEP,
                missing.step,
                "compensation" if is_undo else "function",
                missing.reason,
            )
        if is_known:
            yield from self._value_problems(kind, stored)

    # -- stored values

    def _value_problems(self, kind: CompiledDefinition, stored: StoredState) -> Iterator[Problem]:
        input = yield from self._text(None, "input", stored.input)
        shape = values = None
        if stored.shape is not None:
            shape = yield from self._text(None, "items", stored.shape)
        if kind.layout is not None:
            if shape is None or input is None:
                return
            values = ShapeValues.read(shape)
        child = kind.saga.undoes if kind.saga else None
        if child is not None:
            yield from self._undo_problems(kind, child, stored, input)
            return
        for number, text in stored.results.items():
            decoder = kind.decoders.get(kind.names[number])
            name = kind.declared_name(number)
            result = yield from self._text(name, "result", text)
            if decoder and result is not None:
                if not serialization.is_plain(serialization.read(result)):
                    yield from _fault(name, "result", result, decoder)
        for number, action in _callable_actions(kind, stored):
            yield from self._input_problems(kind, number, action, input, values)
            yield from self._read_problems(kind, number, action, input, values)

    def _text(self, step: str | None, subject: str, text: str) -> Any:
        """Return the JSON of a stored value, or None after yielding a problem."""
        reference = Reference.of(text)
        if reference is not None:
            whole = self._fetch(reference)
            if whole is None:
                reason = "its value is in a blob store, which was not given"
                yield Problem(
                    Obstacle.NOT_CHECKED, step, subject, f"{_of(step)}{subject}: {reason}"
                )
                return None
            text = whole
        if self._payloads.codec is None and ENVELOPE.match(text):
            reason = "its value is encoded, and no codec was given"
            yield Problem(Obstacle.NOT_CHECKED, step, subject, f"{_of(step)}{subject}: {reason}")
            return None
        try:
            return self._payloads.decode(text)
        except CannotDecode as error:
            detail = f"{_of(step)}{subject}: {error}"
            yield Problem(Obstacle.CANNOT_DECODE, step, subject, detail)
            return None

    def _input_problems(
        self,
        kind: CompiledDefinition,
        number: int,
        action: str,
        input: str | None,
        values: ShapeValues | None,
    ) -> Iterator[Problem]:
        """Yield why a function cannot read its input or its item."""
        name, decoder = kind.declared_name(number), kind.actions[action][number].hint
        origin = kind.layout.origins[kind.names[number]] if kind.layout else None
        input = kind.own_input(number, input, values)
        if decoder and input is not None:
            yield from _fault(name, "input", input, decoder)
        if origin is None or values is None or origin.number is None:
            return
        try:
            values.item(origin, kind.declared.item(origin))
        except Exception as error:  # of the type's own code
            detail = f"{_of(name)}item{type_checks.mismatch_of(error)}"
            yield Problem(Obstacle.CANNOT_DECODE, name, "item", detail)

    # -- results that functions read

    def _read_problems(
        self,
        kind: CompiledDefinition,
        number: int,
        action: str,
        input: str | None,
        values: ShapeValues | None,
    ) -> Iterator[Problem]:
        """Yield which results a function reads that the saga does not have."""
        step = kind.steps[number]
        key = kind.text, number, action
        if step is None or not self._reads_of(step, action):
            return
        if kind.layout is None:
            if key not in self._fixed:
                needed = [name for _, name in kind.actions[action][number].needed_results]
                self._fixed[key] = [
                    *self._unread(kind.name, kind.names[number], step, action, needed)
                ]
            yield from self._fixed[key]
        elif values is not None and input is not None:
            location = kind.location(kind.names[number], values, input)
            needed = [name for _, name in kind.actions[action][number].needed_results]
            yield from self._unread(kind.name, kind.names[number], step, action, needed, location)

    def _reads_of(self, step: Step[Any], action: str) -> list[ResultRead]:
        """Return the results that the functions of an action read."""
        if (step, action) not in self._reads:
            manner = step.manner(action)
            functions = [] if manner.implied else [manner.function]
            more = (step.until, getattr(step, "items", None)) if action == "run" else ()
            functions += [function for function in more if callable(function)]
            reads = [
                result_reads.reads_of(function) for function in functions if function is not None
            ]
            self._reads[step, action] = (
                result_reads.needed_reads(step)
                if None in reads
                else [read for each in reads for read in each or ()]
            )
        return self._reads[step, action]

    def _unread(
        self,
        saga: str,
        name: str,
        step: Step[Any],
        action: str,
        needed: list[str],
        location: StepLocation | None = None,
    ) -> Iterator[Problem]:
        """Yield which reads of a function would raise `MissingResult`."""
        is_undo = action == "undo"
        task: Task[Any] = Task(
            TaskSnapshot(
                saga=saga,
                key="",
                name=name,
                undo=is_undo,
                attempt=1,
                saga_token="",
                input="null",
                needed_results=dict.fromkeys(needed, "null"),
                own_result="null" if is_undo else None,
                location=location,
            )
        )
        for read in self._reads_of(step, action):
            try:
                task.result_of(read.step)
            except ProgramError as error:
                if location is None or not _may_be_left_out(step.saga, read):
                    declared = name if location is None else location.origin.declared
                    subject = read.step if isinstance(read.step, str) else "/".join(read.step.path)
                    detail = f"{error} ({read.location})"
                    yield Problem(Obstacle.MISSING_RESULT, declared, subject, detail)
            except SagasError:
                pass  # it exists

    # -- children

    def _undo_problems(
        self, kind: CompiledDefinition, child: SagaParts, stored: StoredState, input: str | None
    ) -> Iterator[Problem]:
        """Yield why the compensations of a saga that undoes a child cannot read their values."""
        if input is None or (kind.saga is not None and kind.saga.undoes_step is not None):
            return
        undo_input, declared = serialization.read(input), declared_steps(child, kind.names)
        sees = definition_text.sees_of(kind.text)
        results = {
            name: serialization.write(value) for name, value in undo_input["results"].items()
        }
        for number, name in enumerate(kind.names):
            step = declared.get(name)
            if step is None or number in stored.results or step.undo.function is None:
                continue
            visible = {name, *sees.get(name, results)}
            child_input = serialization.write(undo_input["input"])
            texts = {other: text for other, text in results.items() if other in visible}
            yield from self.compensation_problems(
                step, [*sees.get(name, results)], child_input, texts
            )

    def compensation_problems(
        self, step: Step[Any], sees: list[str], input: str | None, results: Mapping[str, str]
    ) -> Iterator[Problem]:
        """Yield why a compensation that undoes a child cannot read its values.

        Args:
            step: The child's step, as the program declares it.
            sees: The names of the steps whose results it may read.
            input: The child's input as JSON; None if it is not to be looked at.
            results: The results of the child as JSON, by step.
        """
        function = step.undo.function
        if function is None or step.undo.implied:
            return
        decoder, result_decoders = compensation_hints(function, step)
        if decoder and input is not None:
            yield from _fault(step.name, "input", input, decoder)
        for name, text in results.items():
            result_decoder = result_decoders.get(name)
            if result_decoder and not serialization.is_plain(serialization.read(text)):
                yield from _fault(name, "result", text, result_decoder)
        yield from self._unread(step.saga.name, step.name, step, "undo", sees)

    def child_problems(self, child: CompiledDefinition) -> Iterator[Problem]:
        """Yield which compensations of a completed child cannot undo it."""
        listed, declared = listed_and_declared(child.saga, child.text)
        for compensation in child_sagas.planned_compensations(listed, declared):
            step = declared.get(compensation.name)
            if step is not None:
                yield from self.compensation_problems(step, [*compensation.sees], None, {})


def _callable_actions(kind: CompiledDefinition, stored: StoredState) -> Iterator[tuple[int, str]]:
    """Yield the actions of a saga that may still be called: the step's number, `run` or `undo`."""
    for number, listed in enumerate(definition_text.listed_steps(kind.text)):
        if number in stored.undone:
            continue
        if number not in stored.results:
            yield number, "run"
        step = kind.steps[number]
        if listed.undo != "never" and step is not None and step.has_compensation:
            yield number, "undo"


def _may_be_left_out(saga: SagaParts, read: ResultRead) -> bool:
    """Return whether a step need not exist for each input, so that a function may ask first."""
    if isinstance(read.step, str):
        step = step_named(saga, read.step)
        return step is not None and step.when is not None
    inside: SagaParts | None = saga
    for name in read.step.path:
        part = inside.parts_by_name.get(name) if inside is not None else None
        if part is None or part.when is not None:
            return part is not None
        inside = part.inner if isinstance(part, Inclusion) else None
    return False


def _of(step: str | None) -> str:
    return "" if step is None else f"step {step!r}: "


def _fault(step: str, subject: str, text: str, decoder: Decoder) -> Iterator[Problem]:
    """Yield the problem if a decoder cannot read a value."""
    try:
        decoder(serialization.read(text))
    except NameError as error:
        yield Problem(Obstacle.CANNOT_DECODE, step, subject, f"{_of(step)}{subject}: {error}")
    except Exception as error:  # of the type's own code
        detail = f"{_of(step)}{subject}{type_checks.mismatch_of(error)}"
        yield Problem(Obstacle.CANNOT_DECODE, step, subject, detail)
