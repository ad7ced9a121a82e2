"""`Planner`: the plans of many cases of one definition."""

from __future__ import annotations

import json
import os
import sys
from collections.abc import Callable, Iterable, Iterator, Mapping, Sequence
from concurrent.futures import ThreadPoolExecutor
from itertools import compress
from typing import Any, NamedTuple, TypeVar

from sagas.base.interrupts import delayed_interrupt
from sagas.definition.definition_text import ListedStep
from sagas.engine import library

T = TypeVar("T")
V = TypeVar("V")
MAX_THREADS = 8
AFTER_KEPT = ',"kind"'
"""The key that follows the decisions in an answer. The certificate, which is long, comes later."""
STATES = (("0", '"waiting",'), ("1", '"committed",'), ("2", '"failed",'))
"""The state of a step in a case, by its digit."""
ABORTED = ',"aborted":true'
SINGLE, TWO = b"12"
BITS = bytes(range(256)).replace(b"1", b"\x01").replace(b"0", b"\x00")
"""Turns the digits 0 and 1 into the bytes 0 and 1."""
COSTS = ("run", "undo", "skip", "keep")


class Case(NamedTuple):
    """The states of a saga for which a plan is made. Sets of steps are integers: bit N is step N.

    Attributes:
        size: The number of steps.
        committed: The steps that have committed.
        failed: The numbers of the steps that have failed.
        is_aborted: Whether the saga was aborted.
    """

    size: int
    committed: int
    failed: tuple[int, ...] = ()
    is_aborted: bool = False

    @property
    def text(self) -> str:
        """The case as the planner reads it."""
        digits = bytearray(digits_of(self.committed, self.size).encode())
        for number in self.failed:
            digits[number] = TWO
        states = digits.decode()
        for digit, state in STATES:  # much faster than `str.translate`
            states = states.replace(digit, state)
        return f'{{"states":[{states[:-1]}]{ABORTED if self.is_aborted else ""}}}'

    @property
    def document(self) -> dict[str, Any]:
        """The case as values for JSON."""
        document: dict[str, Any] = json.loads(self.text)
        return document


class Answer(NamedTuple):
    """The answer of the planner to a case.

    Attributes:
        text: The plan with its certificate, or the chain that shows why none is feasible, as JSON.
        cost: The cost of the plan; None if no plan is feasible.
        kept: The set of the steps that the plan keeps or runs.
        chain: The numbers of the steps of the chain; empty for a plan.
    """

    text: str
    cost: int | None
    kept: int
    chain: tuple[int, ...]


class PlanningStopped(Exception):
    """Report that a planner was stopped, because no caller waits for its answers."""


class Planner:
    """Makes plans for one definition, in several threads. Each case is planned once.

    The library makes a plan without the interpreter's lock, so that threads use several processors.
    Without the library, each thread waits for a process of its own.
    """

    def __init__(self, steps: Sequence[ListedStep], threads: int | None = None) -> None:
        """Args:
        threads: How many threads make plans (default: one for each processor that this process
            may use, at most 8).
        """
        self.threads = threads or min(MAX_THREADS, processors())
        self._tables = planning_tables(steps)
        self._definition = planning_text(self._tables)
        self._answers: dict[Case, Answer] = {}
        self._is_stopped = False

    def stop(self) -> None:
        """Make no further plans: `plan` raises `PlanningStopped`, also in other threads."""
        self._is_stopped = True

    def plan(self, cases: Iterable[Case]) -> list[Answer]:
        """Return the answers to some cases. Blocks until all are planned.

        Raises:
            InvalidText: The definition is not valid.
            EngineError: Neither the library nor the program `sagas` can be run here.
            PlanningStopped: `stop` was called.
        """
        listed = [*cases]
        missing = [case for case in dict.fromkeys(listed) if case not in self._answers]
        self._answers |= zip(missing, self._mapped(self._answer, missing))
        return [self._answers[case] for case in listed]

    def keep_after_abort(self, cases: Iterable[tuple[int, int]]) -> list[bool]:
        """Return whether the plan of an aborted saga keeps a step. Blocks until all are planned.

        No step that waits can run after an abort, so a plan leaves it out at a cost that does not
        depend on the others. Therefore the engine decides about the committed steps alone, which it
        reads faster than the whole definition.

        Args:
            cases: A committed step, and the set of all committed steps. It has what they need, and
                each step that must not be left out.

        Raises:
            InvalidText, EngineError, PlanningStopped: As of `plan`.
        """
        return self._mapped(self._keeps_after_abort, [*cases])

    def _mapped(self, function: Callable[[V], T], values: Sequence[V]) -> list[T]:
        """Call a function for each value, in the threads. Return the results in the same order.

        After an error or Ctrl-C, no other call begins, and it ends after the calls that run.
        """
        if self.threads == 1 or len(values) < 2:
            return [function(value) for value in values]
        with (
            delayed_interrupt() as interrupt,
            ThreadPoolExecutor(min(self.threads, len(values)), "sagas-plan") as threads,
        ):

            def call(value: V) -> T:
                if interrupt.is_pending:
                    raise PlanningStopped
                return function(value)

            try:
                return [*threads.map(call, values)]
            except BaseException:
                threads.shutdown(wait=False, cancel_futures=True)
                raise

    def _answer(self, case: Case) -> Answer:
        decisions, text = self._decisions(self._definition, case)
        kept = set_of(decisions.get("kept", ()), case.size)
        return Answer(text, decisions.get("cost"), kept, tuple(decisions.get("chain", ())))

    def _keeps_after_abort(self, question: tuple[int, int]) -> bool:
        step, committed = question
        size = committed.bit_count()
        part = planning_text([*members(committed, self._tables)])
        case = Case(size, (1 << size) - 1, is_aborted=True)
        decisions, _ = self._decisions(part, case)
        number = (committed & (1 << step) - 1).bit_count()
        return "kept" not in decisions or number in decisions["kept"]

    def _decisions(self, definition: str, case: Case) -> tuple[dict[str, Any], str]:
        """Return the decisions of an answer as values, and the whole answer."""
        if self._is_stopped:
            raise PlanningStopped
        text = library.plan(definition, case.text).text
        return json.loads(text.partition(AFTER_KEPT)[0] + "}"), text


def processors() -> int:
    """Return how many processors this process may use."""
    if sys.platform == "linux":
        return len(os.sched_getaffinity(0))
    return os.cpu_count() or 1


def set_of(numbers: Iterable[int], count: int) -> int:
    """Return a set of some of `count` steps."""
    digits = bytearray(b"0" * count)
    for number in numbers:
        digits[~number] = SINGLE
    return int(digits, 2)


def digits_of(steps: int, count: int) -> str:
    """Return a set of steps as text: digit N is 1 if the set has step N."""
    return f"{steps & (1 << count) - 1:0{count}b}"[::-1]


def members(steps: int, values: Sequence[T]) -> Iterator[T]:
    """Return the values of the steps in a set.

    Args:
        steps: The set.
        values: The value of each step.
    """
    return compress(values, digits_of(steps, len(values)).encode().translate(BITS))


def planning_text(tables: Sequence[str]) -> str:
    """Return what a plan depends on, as a definition with short names, in one list of tables.

    Reading the definition takes most of the time of a plan, and a list of inline tables is read
    faster than a table for each step. An answer has numbers and no names, so it is one for each
    definition with these needs and costs.
    """
    return f'format=1\nname="s"\nstep=[{",".join(tables)}]\n'


def planning_tables(steps: Sequence[ListedStep]) -> list[str]:
    """Return each step as an inline table."""
    numbers = {step.name: number for number, step in enumerate(steps)}
    return [_table(step, numbers) for step in steps]


def _table(step: ListedStep, numbers: Mapping[str, int]) -> str:
    """Return a step as an inline table, with a short name."""
    parts = [f'name="s{numbers[step.name]:x}"']
    if step.needs:
        needs = ",".join(f'"s{numbers[need]:x}"' for need in step.needs)
        parts.append(f"needs=[{needs}]")
    for word in COSTS:
        if cost := getattr(step, word):
            parts.append(f'{word}="{cost}"' if isinstance(cost, str) else f"{word}={cost}")
    return f"{{{','.join(parts)}}}"
