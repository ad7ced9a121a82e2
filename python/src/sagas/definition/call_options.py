"""Costs, pauses, limits and all other options of the calls of a step's function."""

from __future__ import annotations

import dataclasses
import datetime
import difflib
import enum
import inspect
import random
from collections.abc import Callable, Iterable, Iterator, Mapping
from typing import Any, Literal, Protocol, TypeVar, TypedDict, Union, cast

from sagas.definition.arguments import is_count

Options = TypeVar("Options", bound=Mapping[str, object])


class _Never(enum.Enum):
    NEVER = "never"

    def __repr__(self) -> str:
        return "sagas.NEVER"


NEVER: Literal[_Never.NEVER] = _Never.NEVER
"""The cost of an operation that is not allowed."""


class _Nothing(enum.Enum):
    NOTHING = "nothing"

    def __repr__(self) -> str:
        return "sagas.NOTHING"


NOTHING: Literal[_Nothing.NOTHING] = _Nothing.NOTHING
"""The option `undo` of a step that has nothing to undo: it is undone without a call, at no cost.

`undo=0` is the cost of a compensation instead.
"""
COST_NAMES = ("run", "undo", "skip", "keep")
Cost = Union[int, Literal[_Never.NEVER]]
"""A whole number from 0 to 1,000,000,000, in any unit; or `NEVER`."""
CostOf = Union[Cost, Callable[[Any], Any]]
"""A cost, or a function of the input that returns one (with `for_each`: of the item)."""
Undo = Union[CostOf, Literal[_Nothing.NOTHING]]
"""The option `undo`: the cost of the compensation, `NEVER` or `NOTHING`."""
Function = Callable[[Any], Any]
"""The function of a step, or its compensation: it gets a `Task`."""
Exceptions = tuple[type[BaseException], ...]
MaxUnknown = Union[int, datetime.timedelta, None]
"""How many calls, or for how long calls, have an unknown outcome before an operator is asked.

None: no operator is asked.
"""
EarlyUnused = Literal["ask", "compensate"]
"""The reaction to a report of a step that does not start before its saga ends."""
OnExhausted = Literal["fail", "ask", "retry"]
"""The reaction to the failure of the last attempt of a step, or of a compensation."""
Seconds = Union[float, datetime.timedelta]
"""A duration: seconds, or a timedelta."""
DEFAULT_TRIES, MAX_TRIES = 10, 1000
DEFAULT_MAX_UNKNOWN = 10
ENGINE_TRIES = 9
"""The maximum number of attempts in a definition."""
SPARE_TRIES = 2
"""The number of attempts in a definition if a function may have more than `ENGINE_TRIES`.

The package counts those that follow. The second one is there for an attempt that was not called
when its saga began to recover: the plan may include the step. More would cost a commit each, if the
function raises `Fail`.
"""
MAX_COST = 1_000_000_000


def is_cost(value: object) -> bool:
    """Return whether a value is a valid cost: a number in the range, or `NEVER`."""
    return value is NEVER or (is_count(value) and 0 <= value <= MAX_COST)  # type: ignore[operator]


def seconds(time: Seconds) -> float:
    """Return a duration in seconds."""
    return time.total_seconds() if isinstance(time, datetime.timedelta) else time


def rate_limit_of(rate: Any) -> Any:
    """Return a rate limit with its period in seconds."""
    return (rate[0], seconds(rate[1])) if isinstance(rate, tuple) and len(rate) == 2 else rate


@dataclasses.dataclass(frozen=True, slots=True)
class Backoff:
    """Set the pauses between attempts: exponential, with a maximum.

    Args:
        initial: Seconds before the second attempt (default: 1).
        maximum: The longest pause, in seconds (default: 60).
        multiplier: The factor by which each pause is longer than the one before (default: 2).
        jitter: A fraction from 0 to 1. Each pause is shortened at random by up to this fraction, so
            that sagas that failed together do not retry together (default: 0).

    Example:
        >>> [sagas.Backoff(initial=5).after(attempt) for attempt in (1, 2, 3, 4, 5)]
        [5.0, 10.0, 20.0, 40.0, 60.0]
    """

    initial: float = 1.0
    maximum: float = 60.0
    multiplier: float = 2.0
    jitter: float = 0.0

    def after(self, attempt: int) -> float:
        """Return the seconds to wait after an attempt.

        Args:
            attempt: The attempt's number, from 1.
        """
        pause = min(self.maximum, self.initial * self.multiplier ** min(attempt - 1, 64))
        return pause * (1 - self.jitter * random.random()) if self.jitter else pause


@dataclasses.dataclass(frozen=True, slots=True)
class Bounds:
    """The limits of a step's function over all nodes.

    Attributes:
        concurrency: Maximum concurrent calls, or None.
        rate_limit: Maximum number of calls that start in a period, and the period in seconds.
    """

    concurrency: int | None = None
    rate_limit: tuple[int, float] | None = None
    is_keyed: bool = False
    """Whether the concurrency applies to each result of `concurrency_by` separately."""


class RemoteQueue(Protocol):
    """A queue whose workers call a step's function: a `sagas.celery.Queue`."""

    name: str | None
    """The name by which operators pause it; None if it has none."""
    timeout: float
    """Seconds without a report after which the outcome is unknown, if the step has no timeout."""

    def declare(self, step: Any, kind: str, manner: Manner) -> None:
        """Register a step's function (`kind` is `run`), or its compensation (`undo`)."""

    async def check(self, database: Any, steps: Iterable[tuple[Any, str]]) -> None:
        """Check that the workers report into this store.

        Raises:
            WrongStore: The workers report into another store.
            DefinitionError: A step cannot run in this queue.
        """

    async def send(self, order: Any) -> None:
        """Send a message for an attempt. It raises an exception if that failed."""


@dataclasses.dataclass(slots=True)
class Manner:
    """The options of calls of a step's function, or of its compensation."""

    function: Function | None = None
    tries: int = 1
    timeout: float | None = None
    backoff: Backoff = Backoff()
    no_effect: Exceptions = ()
    max_unknown: MaxUnknown = DEFAULT_MAX_UNKNOWN
    external: bool = False
    """Whether it has no function here: a person or another program reports the outcome."""
    transaction: bool = False
    """Whether the function runs in a transaction of the store's database, with its result."""
    asks: bool = False
    """Whether the function is that of an approval: it asks for a decision, or returns one."""
    implied: bool = False
    """Whether the compensation is not declared, and does nothing.

    Waits, approvals and steps with `undo=NOTHING` have such a compensation.
    """
    queue: RemoteQueue | None = None
    """The queue whose workers call the function; None for the program with the store."""
    cancel_on_abort: bool = False
    """Whether the function is cancelled when its saga is aborted."""
    on_exhausted: OnExhausted = "fail"
    """The reaction to the failure of the last attempt."""
    spare_tries: int = SPARE_TRIES
    """The number of attempts in the definition if `tries` exceeds `ENGINE_TRIES`."""

    @property
    def engine_tries(self) -> int:
        """The number of attempts in the definition, which the engine counts."""
        return self.tries if self.tries <= ENGINE_TRIES else self.spare_tries

    @property
    def is_simple(self) -> bool:
        """Whether it is an async function of this program without a timeout."""
        plain = self.function is not None and self.timeout is None and self.queue is None
        return plain and inspect.iscoroutinefunction(self.function)


def nothing(task: object) -> None:
    """Do nothing, as the compensation of a step without an effect."""


# -- errors


ON_EXHAUSTED = ("fail", "ask", "retry")


def option_faults(manner: Manner, role: str) -> Iterator[str]:
    """Yield the errors in the options of a function's calls."""
    if not is_count(manner.tries) or not 1 <= manner.tries <= MAX_TRIES:
        yield f"tries={manner.tries!r} of its {role}: must be an integer from 1 to {MAX_TRIES:,}"
    time = manner.timeout
    if time is not None and not (isinstance(time, (int, float)) and time > 0):
        rule = "must be seconds or a timedelta, > 0"
        yield f"timeout={time!r} of its {role}: {rule}"
    yield from _backoff_faults(manner.backoff, role)
    max_unknown = manner.max_unknown
    is_number = is_count(max_unknown) and max_unknown >= 1  # type: ignore[operator]
    if max_unknown is not None and not (isinstance(max_unknown, datetime.timedelta) or is_number):
        rule = "must be an integer >= 1, a timedelta, or None"
        yield f"max_unknown={max_unknown!r} of its {role}: {rule}"
    if not isinstance(manner.no_effect, tuple) or not all(
        isinstance(error, type) and issubclass(error, BaseException) for error in manner.no_effect
    ):
        rule = "must be a tuple of exceptions: no_effect=(ConnectionRefusedError,)"
        yield f"no_effect={manner.no_effect!r} of its {role}: {rule}"
    if manner.on_exhausted not in ON_EXHAUSTED:
        rule = f"must be one of {', '.join(ON_EXHAUSTED)}"
        yield f"on_exhausted={manner.on_exhausted!r} of its {role}: {rule}"
    if manner.queue is not None and not hasattr(manner.queue, "declare"):
        yield f"queue={manner.queue!r} of its {role}: must be a sagas.celery.Queue"
    if not isinstance(manner.transaction, bool):
        yield f"transaction={manner.transaction!r} of its {role}: must be True or False"
    yield from _cancel_faults(manner, role)


def _cancel_faults(manner: Manner, role: str) -> Iterator[str]:
    option = f"cancel_on_abort={manner.cancel_on_abort!r} of its {role}"
    if not isinstance(manner.cancel_on_abort, bool):
        yield f"{option}: must be True or False"
    elif not manner.cancel_on_abort:
        return
    elif not inspect.iscoroutinefunction(manner.function) or manner.queue:
        remedy = "Declare it with async def, or check task.cancelled in it"
        yield f"{option}: only an async function of this program can be cancelled. {remedy}"
    elif manner.transaction:
        yield f"{option}: a transaction cannot be cancelled. Remove one of the options"


def _backoff_faults(backoff: object, role: str) -> Iterator[str]:
    if not isinstance(backoff, Backoff):
        rule = "must be a sagas.Backoff, for example sagas.Backoff(initial=5)"
        yield f"backoff={backoff!r} of its {role}: {rule}"
        return
    parts = backoff.initial, backoff.maximum, backoff.multiplier, backoff.jitter
    if not all(isinstance(part, (int, float)) and part >= 0 for part in parts):
        yield f"{backoff!r} of its {role}: its numbers must be >= 0"
    elif not backoff.jitter <= 1:
        yield f"{backoff!r} of its {role}: jitter must be from 0 to 1"
    elif backoff.maximum < backoff.initial and backoff.maximum != Backoff().maximum:
        rule = "maximum is less than initial"
        yield f"{backoff!r} of its {role}: {rule}. Set maximum={backoff.initial} or more"


def function_faults(manner: Manner, role: str) -> Iterator[str]:
    """Yield the errors in a function itself."""
    function = manner.function
    if function is None:
        if manner.queue:
            rule = "so it cannot have a queue. Remove external=True or queue="
            yield f"its {role} is external, {rule}"
        return
    if not callable(function):
        yield f"its {role} is {function!r}, which cannot be called. Pass a function"
        return
    try:
        inspect.signature(function).bind(None)
    except TypeError:
        yield f"its {role} must take one argument, the task"
    if inspect.isgeneratorfunction(function) or inspect.isasyncgenfunction(function):
        rule = "which would not run. Return the result instead of yielding"
        yield f"its {role} is a generator, {rule}"


# -- options by name


class AttemptOptions(TypedDict, total=False):
    """The options of attempts."""

    tries: int
    backoff: Backoff


class ExhaustedOptions(TypedDict, total=False):
    """The reaction to the last attempt."""

    on_exhausted: OnExhausted


class TimeoutOptions(TypedDict, total=False):
    """The time limit of a call."""

    timeout: Seconds | None


class CallOptions(TypedDict, total=False):
    """The options of calls of a step's function, and of its compensation."""

    no_effect: Exceptions
    max_unknown: MaxUnknown
    queue: RemoteQueue | None


class TransactionOptions(TypedDict, total=False):
    """The options of calls within a transaction of the store's database."""

    transaction: bool


class CompensationOptions(
    AttemptOptions,
    TimeoutOptions,
    CallOptions,
    TransactionOptions,
    ExhaustedOptions,
    total=False,
):
    """The options of `Step.compensation`."""


class SagaOptions(AttemptOptions, TimeoutOptions, CallOptions, ExhaustedOptions, total=False):
    """The options that `Saga` takes for all of its steps and their compensations."""


def compensation_defaults(step: Manner, saga: SagaOptions, external: bool) -> CompensationOptions:
    """Return the defaults of a compensation: of its step, and of the saga.

    A saga's `on_exhausted="fail"` is of its steps only: a failed compensation leaves an effect in
    place, and asks.
    """
    on_exhausted = saga.get("on_exhausted", "ask")
    return CompensationOptions(
        tries=saga.get("tries", DEFAULT_TRIES),
        timeout=None if external else saga.get("timeout"),
        backoff=step.backoff,
        no_effect=step.no_effect,
        max_unknown=saga.get("max_unknown", DEFAULT_MAX_UNKNOWN),
        transaction=step.transaction,
        queue=step.queue,
        on_exhausted="ask" if on_exhausted == "fail" else on_exhausted,
    )


def with_defaults(call: str, options: Options, defaults: Options) -> Options:
    """Return the options of a call, with the defaults of those that it does not name.

    Args:
        call: The called function, for the message.
        options: As given.
        defaults: A value for each option that the call has.

    Raises:
        TypeError: The call has no such option.
    """
    check_names(call, options, defaults)
    return cast(Options, {**defaults, **options})


def check_names(call: str, options: Iterable[str], known: Iterable[str]) -> None:
    """Raise `TypeError` for a name that is none of the known ones."""
    names = [*known]
    for name in options:
        if name not in names:
            near = difflib.get_close_matches(name, names, 1)
            hint = f"; did you mean {near[0]!r}?" if near else ""
            raise TypeError(f"{call}() got an unexpected keyword argument {name!r}{hint}")
