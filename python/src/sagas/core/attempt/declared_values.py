"""Functions of a definition for the end of a wait, the key of a limit and a tenant."""

from __future__ import annotations

import dataclasses
import datetime
import functools
from collections.abc import Callable, Iterable, Mapping
from typing import Any

from sagas.base.errors import ProgramError
from sagas.base.logger import logger
from sagas.core.attempt.model import Attempt, FunctionOption, FunctionResult
from sagas.definition import serialization
from sagas.definition.step import Until
from sagas.definition.task import Task


@dataclasses.dataclass(frozen=True, slots=True)
class OptionCalls:
    """Functions of a definition that are called before an attempt continues.

    Attributes:
        calls: A callable for each option. A thread may call them.
    """

    calls: Mapping[FunctionOption, Callable[[], Any]]

    def answers(self) -> dict[FunctionOption, FunctionResult]:
        """Call the functions, and return their results and errors by option."""
        return {subject: _returned(call) for subject, call in self.calls.items()}

    @property
    def option_names(self) -> str:
        """The options with which the functions were declared, for messages."""
        return " and ".join(f"{subject.value}=" for subject in self.calls)


def _returned(call: Callable[[], Any]) -> FunctionResult:
    try:
        return FunctionResult(call())
    except Exception as error:
        return FunctionResult(error=error)
    except BaseException as error:  # no exception of a thread may end the program
        return FunctionResult(error=RuntimeError(f"{type(error).__name__}: {error}"))


def until_call(attempt: Attempt) -> OptionCalls:
    """Return the call that computes the end of a wait.

    Raises:
        CannotDecode: The codec failed.
    """
    until = attempt.declared.until
    assert callable(until)
    return OptionCalls({FunctionOption.UNTIL: functools.partial(until, attempt.task())})


def limit_subjects(attempt: Attempt) -> list[FunctionOption]:
    """Return the options to evaluate before the limits of a step can count an attempt.

    They are the tenant of its saga and the key of the limits.
    """
    options, instance, extras = list[FunctionOption](), attempt.instance, attempt.extras
    if instance.kind.fair_by is not None and instance.tenant is None:
        options.append(FunctionOption.TENANT)
    is_keyed = not attempt.undo and attempt.declared.concurrency_by is not None
    if is_keyed and (extras is None or extras.limit_key is None):
        options.append(FunctionOption.LIMIT_KEY)
    return options


def limit_calls(attempt: Attempt, subjects: Iterable[FunctionOption]) -> OptionCalls:
    """Return the calls that compute these options.

    Raises:
        CannotDecode: The codec failed.
    """
    calls: dict[FunctionOption, Callable[[], Any]] = {}
    instance, kind = attempt.instance, attempt.instance.kind
    if FunctionOption.TENANT in subjects:
        assert kind.fair_by
        text = kind.payloads.decode(instance.text)
        calls[FunctionOption.TENANT] = functools.partial(tenant_of, kind.fair_by, text, kind.name)
    if FunctionOption.LIMIT_KEY in subjects:
        by = attempt.declared.concurrency_by
        assert by
        calls[FunctionOption.LIMIT_KEY] = functools.partial(_limit_key, by, attempt.task())
    return OptionCalls(calls)


def _limit_key(by: Callable[[Any], Any], task: Task[Any]) -> str:
    """Return the key of a limit as JSON. Raises `NotSerializable` if it cannot be JSON."""
    return serialization.write(by(task.input), "key")


def due_time(until: Until | Any, now: float) -> float:
    """Return when a wait is over.

    Args:
        until: The value of the definition, or what its function returned.
        now: Wall time in seconds.

    Raises:
        ProgramError: The value is not a time.
    """
    if isinstance(until, datetime.timedelta):
        return now + until.total_seconds()
    if isinstance(until, datetime.datetime) and until.tzinfo:
        return until.timestamp()
    is_text, is_naive = isinstance(until, str), isinstance(until, datetime.datetime)
    remedy = ". Convert the text with datetime.datetime.fromisoformat" if is_text else ""
    description = "a datetime without a time zone" if is_naive else type(until).__name__
    rule = "it must be a timedelta or a datetime with a time zone"
    raise ProgramError(f"until returned {description}: {rule}{remedy}")


def tenant_of(by: Callable[[Any], Any], text: str, name: str) -> str:
    """Return a saga's tenant, which a function of its input computes; `null` if it raises."""
    try:
        return serialization.write(by(serialization.read(text)), "fair_by")
    except Exception as error:
        logger.warning(
            "saga %r: fair_by raised %s. Such sagas share one tenant",
            name,
            type(error).__name__,
        )
        return "null"
