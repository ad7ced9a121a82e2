"""`StepOptions`: each option of a step once, with its type, its default and what it means.

The other classes are the parts of it that a call takes: with a function, without one, for a step
that waits. `call_options` has the parts that concern calls. Classes that are merged share no
option, as type checkers require.
"""

from __future__ import annotations

from collections.abc import Callable, Iterable, Sequence
from typing import Any, Literal, Required, TYPE_CHECKING, TypedDict, cast

from sagas.definition.call_options import (
    AttemptOptions,
    Backoff,
    CallOptions,
    CompensationOptions,
    Cost,
    CostOf,
    DEFAULT_MAX_UNKNOWN,
    DEFAULT_TRIES,
    EarlyUnused,
    ExhaustedOptions,
    SagaOptions,
    Seconds,
    TimeoutOptions,
    TransactionOptions,
    Undo,
)

if TYPE_CHECKING:
    from sagas.definition.step import ForEach, Need

# -- groups of options that calls have in common


class PartOptions(TypedDict, total=False):
    """The options of every step that a saga declares with a function of its own."""

    needs: Iterable[Need]
    undo: Undo | None
    skip: CostOf
    when: Callable[[Any], Any] | None
    optional: bool


class WorkOptions(TypedDict, total=False):
    """The options of steps that have an effect."""

    keep: CostOf
    concurrency: int | None


class RunOptions(TypedDict, total=False):
    """The cost of running a step."""

    run: CostOf


class PivotOptions(TypedDict, total=False):
    """Whether a step determines the costs of its saga."""

    pivot: bool


class EarlyReportOptions(TypedDict, total=False):
    """The options of reports that come before their step starts."""

    early_unused: EarlyUnused


# -- the options of each call


class FunctionOptions(
    PartOptions,
    PivotOptions,
    RunOptions,
    WorkOptions,
    AttemptOptions,
    TimeoutOptions,
    CallOptions,
    TransactionOptions,
    ExhaustedOptions,
    total=False,
):
    """The options of `Saga.step` with a function."""

    name: str | None
    fleet_concurrency: int | None
    rate_limit: tuple[int, Seconds] | None
    cancel_on_abort: bool
    concurrency_by: Callable[[Any], Any] | None


class ExternalOptions(
    PartOptions,
    PivotOptions,
    RunOptions,
    WorkOptions,
    AttemptOptions,
    ExhaustedOptions,
    EarlyReportOptions,
    total=False,
):
    """The options of `Saga.step` with `external=True`."""

    name: Required[str]


class StepOptions(FunctionOptions, EarlyReportOptions, total=False):
    """Name the options of `Saga.step`, for programs that pass them on.

    Attributes:
        name: The step's name, as a saga's (default: the function's).
        needs: Steps to commit first. A step is undone before those it needs (default: none).
        run: Cost of running it, if a plan finds it not started (default: 0). Each of the costs
            may be a function of the input that returns it, when the saga is started.
        undo: Cost of undoing it (default: 0 with a compensation, else `NEVER`). With `NEVER`,
            neither this step nor the steps that it needs are undone. `NOTHING`: there is nothing to
            undo, so no function is called, and it is free. 0 is a compensation that costs nothing.
        skip: Cost of ending without it (default: 0). `NEVER`: it is mandatory.
        keep: Cost of leaving its effect in place after a failure (default: 0).
        tries: Maximum number of attempts that had no effect, 1 to 1,000 (default: 10).
        timeout: Seconds, or a timedelta, after which the outcome is unknown (default: none). A
            thread cannot be stopped: sagas waits for it.
        backoff: Pauses between attempts, and between calls with an unknown outcome (default:
            `Backoff()`, from 1 s to 60 s).
        no_effect: Exceptions that mean that there was no effect now, as `Retry` does, for
            example `(httpx.ConnectError,)` (default: none).
        max_unknown: After that many calls with an unknown outcome, or this timedelta since the
            first, wait for `Store.retry`, `Store.complete` or `Store.fail` (default: 10; None:
            repeat without end).
        concurrency: Maximum concurrent calls in this program (default: no limit).
        transaction: Over PostgreSQL, `task.connection` is a psycopg connection. Rows that you
            write there commit with the result, so exactly once. An exception rolls them back,
            so it had no effect (default: False).
        external: The work is done elsewhere (default: False). Give `name`, and no function;
            `Store.complete`, `Store.fail` or a `Worker` reports the outcome.
        queue: A `sagas.celery.Queue` whose workers call it (default: this program).
        fleet_concurrency: Maximum concurrent calls over all nodes (default: no limit).
        rate_limit: `(calls, seconds)`: the maximum number of calls that start in any such
            period, over all nodes. Retries count; compensations have neither limit (default:
            no limit).
        on_exhausted: What follows the last attempt: `fail`, `ask` (wait for `Store.retry`,
            `Store.complete` or `Store.fail`) or `retry` (retry without end, with the longest
            pause). `Fail` fails the step in any case (default: `fail`).
        concurrency_by: A function of the input. `concurrency` and `fleet_concurrency` then
            apply separately to each result, for example to each account (default: None).
        for_each: The name of a list or a dict in the input, or a function of the input that
            returns one: the step exists once for each item (default: once). `task.item` and
            `task.index` have the item, and costs may be functions of it. If another step has
            the same `for_each`, its `needs=[ship.each]` means the step of the same item. A
            type checker takes a name as that of a list.
        when: A function of the input: the step exists if it returns true (default: always).
            Otherwise steps that need this one need the steps that it needs.
        early_unused: What follows if an external step is reported as a success before it
            starts, and the saga ends without it: `ask` (wait for `Store.compensate` or
            `Store.resolve`), or `compensate` (call its compensation at once) (default: `ask`).
        optional: Whether the saga continues if the step fails: its last failure is its outcome
            (`Task.failure_of`). Without a compensation, it has nothing to undo (default: False).
        pivot: Whether a failure undoes until the step has committed, and the saga goes forward
            afterwards. The package computes all costs (default: False).
        cancel_on_abort: Whether an abort raises `asyncio.CancelledError` in the async function
            (default: False). Unhandled, the outcome is unknown, and the attempt repeats.

    Example:
        >>> often = sagas.StepOptions(tries=5, backoff=sagas.Backoff(initial=2))
        >>> mails = sagas.Saga("mails")
        >>> @mails.step(**often, skip=1)
        ... def welcome(task): ...
    """

    external: bool
    for_each: ForEach | None


class ChildOptions(TypedDict, total=False):
    """The options of `Saga.child`."""

    name: str | None
    needs: Iterable[Need]
    undo: Cost | None
    skip: Cost
    keep: Cost | None
    optional: bool
    on_exhausted: Literal["fail", "ask"]
    undo_on_exhausted: Literal["fail", "ask"]


class EndOptions(CompensationOptions, total=False):
    """The options of `Saga.on_end`."""

    concurrency: int | None
    fleet_concurrency: int | None
    rate_limit: tuple[int, Seconds] | None


class WaitOptions(PartOptions, WorkOptions, AttemptOptions, TimeoutOptions, total=False):
    """The options of `Saga.wait`."""

    name: str | None
    for_each: ForEach | None


class ApprovalOptions(PartOptions, AttemptOptions, TimeoutOptions, total=False):
    """The options of `Saga.approval`; its `timeout` is the time for the decision."""

    name: str | None
    call_timeout: Seconds | None
    for_each: ForEach | None
    show: Sequence[str]


# -- defaults

STEP_DEFAULTS = StepOptions(
    name=None,
    needs=(),
    run=0,
    undo=None,
    skip=0,
    keep=0,
    tries=DEFAULT_TRIES,
    timeout=None,
    backoff=Backoff(),
    no_effect=(),
    max_unknown=DEFAULT_MAX_UNKNOWN,
    concurrency=None,
    transaction=False,
    external=False,
    queue=None,
    fleet_concurrency=None,
    rate_limit=None,
    on_exhausted="fail",
    cancel_on_abort=False,
    concurrency_by=None,
    when=None,
    early_unused="ask",
    for_each=None,
    optional=False,
    pivot=False,
)
WAIT_DEFAULTS = WaitOptions(
    name=None,
    needs=(),
    undo=None,
    skip=0,
    keep=0,
    tries=DEFAULT_TRIES,
    timeout=None,
    backoff=Backoff(),
    concurrency=None,
    for_each=None,
    when=None,
    optional=False,
)
APPROVAL_DEFAULTS = ApprovalOptions(
    name=None,
    needs=(),
    undo=None,
    skip=0,
    timeout=None,
    tries=DEFAULT_TRIES,
    call_timeout=None,
    backoff=Backoff(),
    for_each=None,
    when=None,
    optional=False,
    show=(),
)
END_DEFAULTS = EndOptions(
    tries=DEFAULT_TRIES,
    timeout=None,
    backoff=Backoff(),
    no_effect=(),
    max_unknown=DEFAULT_MAX_UNKNOWN,
    transaction=False,
    queue=None,
    on_exhausted="ask",
    concurrency=None,
    fleet_concurrency=None,
    rate_limit=None,
)


CHILD_DEFAULTS = ChildOptions(
    name=None,
    needs=(),
    undo=None,
    skip=0,
    keep=None,
    optional=False,
    on_exhausted="fail",
    undo_on_exhausted="ask",
)
EXTERNAL = frozenset({"tries", "backoff", "max_unknown", "on_exhausted"})
"""The options of a saga that a step without a function here takes from it."""


def step_defaults(saga: SagaOptions, external: bool) -> StepOptions:
    """Return the defaults of the steps of a saga with these options."""
    defaults: dict[str, Any] = {**STEP_DEFAULTS}
    defaults |= {name: value for name, value in saga.items() if not external or name in EXTERNAL}
    return cast(StepOptions, defaults)


def wait_defaults(saga: SagaOptions) -> WaitOptions:
    """Return the defaults of the waits of a saga with these options."""
    defaults: dict[str, Any] = {**WAIT_DEFAULTS}
    defaults |= {name: value for name, value in saga.items() if name in WAIT_DEFAULTS}
    return cast(WaitOptions, defaults)


def approval_defaults(saga: SagaOptions) -> ApprovalOptions:
    """Return the defaults of the approvals of a saga with these options.

    The saga's `timeout` limits a call, and not the time for a decision.
    """
    defaults = APPROVAL_DEFAULTS.copy()
    defaults["tries"] = saga.get("tries", defaults["tries"])
    defaults["backoff"] = saga.get("backoff", defaults["backoff"])
    defaults["call_timeout"] = saga.get("timeout", defaults["call_timeout"])
    return defaults
