"""`Work`: the call of a step's function by a Celery worker, and its report."""

from __future__ import annotations

import asyncio
import functools
import inspect
import time
from collections.abc import Callable, Mapping
from typing import TYPE_CHECKING, Any, TypeVar

from celery.exceptions import Reject, SoftTimeLimitExceeded
from sagas.base.errors import StoreUnavailable
from sagas.base.logger import logger
from sagas.base.pauses import doubling_pauses
from sagas.core import outcomes
from sagas.core.attempt.external_work import AlreadyReported, AttemptTexts, Order
from sagas.core.outcomes import Outcome
from sagas.core.states import OutcomeKind
from sagas.definition import (
    awaitables,
    child_sagas,
    decoders,
    serialization,
    tokens,
    tracing,
)
from sagas.definition.compiled import CompiledDefinition
from sagas.definition.step_location import StepLocation
from sagas.definition.task import Task
from sagas.definition.layout import ShapeValues
from sagas.definition.call_options import Function, Manner
from sagas.definition.step import Step
from sagas.definition.task_data import TaskSnapshot

if TYPE_CHECKING:
    from sagas.celery import Queue

T = TypeVar("T")
Decoders = Mapping[str, serialization.Decoder]
FIRST_PAUSE, MAX_PAUSE = 0.05, 2.0  # seconds
UNKNOWN = "this worker does not know the saga {!r}. Import the module that declares it"


class Work:
    """A step's function, or its compensation, in a worker."""

    def __init__(self, queue: Queue, step: Step[Any], kind: str, manner: Manner) -> None:
        self.queue, self.step, self.kind, self.manner = queue, step, kind, manner
        self._kind: CompiledDefinition | None = None
        """The definition of the last message of a saga whose steps come from its input."""

    @functools.cached_property
    def hint(self) -> serialization.Decoder | None:
        """The decoder of the input."""
        assert self.manner.function
        return decoders.input_decoder(self.manner.function)

    @functools.cached_property
    def tracer(self) -> tracing.Tracer | None:
        """The tracer, which each process of the worker has for itself."""
        return tracing.tracer()

    @functools.cached_property
    def decoders(self) -> dict[str, serialization.Decoder]:
        """The decoders of results, by step."""
        by_step = {step.name: child_sagas.hints(step)[1] for step in self.step.saga.steps}
        return {name: decoder for name, decoder in by_step.items() if decoder}

    def perform(self, message: dict[str, Any]) -> None:
        """Process one message.

        Raises:
            Reject: The store cannot be reached, or the soft time limit came before the call of the
                function. The message returns to the queue.
        """
        order = Order.read(message)
        try:
            self._perform(order)
        except SoftTimeLimitExceeded as error:
            logger.warning(
                "%s: the soft time limit came before the function was called. The message returns "
                "to the queue",
                order.token,
            )
            raise Reject(str(error), requeue=True) from error

    def _perform(self, order: Order) -> None:
        queue = self.queue
        started = _surely(lambda: queue.session().begin(order), time.monotonic() + queue.patience)
        if started is None:
            logger.info(
                "%s: ignored a late or repeated message: the attempt has ended", order.token
            )
            return
        function = self.manner.function
        assert function
        if self.step.saga.outer(order.saga, order.version) is None:
            self._report(order, outcomes.unknown(UNKNOWN.format(order.saga)))
            return
        if self.manner.transaction:
            function = queue.session().within(order, function)
        try:
            outcome = self._outcome(function, self._task(order, started))
        except AlreadyReported:
            logger.info("%s: rolled back a repeated message", order.token)
            return
        is_reported = outcome.kind is OutcomeKind.SUCCEEDED and self.manner.transaction
        if not is_reported:
            self._report(order, outcome)

    def _report(self, order: Order, outcome: Outcome) -> None:
        """Report the outcome of a call.

        It continues after the soft time limit, which Celery raises once: the outcome is known.
        """

        def report() -> None:
            self.queue.session().report(order, outcomes.worker_report(outcome))

        deadline = time.monotonic() + self.queue.patience
        try:
            _surely(report, deadline)
        except SoftTimeLimitExceeded:
            _surely(report, deadline)

    def _outcome(self, function: Function, task: Task[Any]) -> Outcome:
        """Call the function, within a span if there is a tracer. Raises `AlreadyReported`."""
        assert self.manner.function
        tracer = self.tracer
        if tracer is None:
            return _call(function, self.manner, task)
        with tracer.attempt(task, self.manner.function) as span:
            outcome = _call(function, self.manner, task)
            span.ended(outcome.kind.value, outcomes.error_text(outcome), outcome.error)
            return outcome

    def _location(
        self, order: Order, started: AttemptTexts
    ) -> tuple[StepLocation | None, Decoders]:
        """Return the location of the step, if any, and the decoders of results."""
        if started.shape is None:
            return None, self.decoders
        text, shape = started.shape
        kind = self._kind
        if kind is None or kind.text != text:
            root = self.step.saga.outer(order.saga, order.version)
            kind = self._kind = CompiledDefinition(text, root)
        values = ShapeValues() if shape == "null" else ShapeValues.read(shape)
        return kind.location(order.step, values, started.input), kind.decoders

    def _task(self, order: Order, started: AttemptTexts) -> Task[Any]:
        """Return the task for the function."""
        undo, token = self.kind == "undo", tokens.saga_token(order.log, order.number)
        location, decoders = self._location(order, started)
        return Task(
            TaskSnapshot(
                order.saga,
                order.key,
                order.step,
                undo,
                order.attempt,
                token,
                location.input if location else started.input,
                started.results,
                started.result,
                self.hint,
                decoders,
                order.deadline,
                traceparent=order.traceparent,
                location=location,
            )
        )


def _surely(request: Callable[[], T], deadline: float) -> T:
    """Repeat a request to the store until it replies.

    Raises:
        Reject: The deadline has passed. The message returns to the queue.
    """
    pauses = doubling_pauses(FIRST_PAUSE, MAX_PAUSE)
    while True:
        try:
            return request()
        except StoreUnavailable as error:
            if time.monotonic() > deadline:
                logger.error(
                    "the store cannot be reached: %s. The message returns to the queue", error
                )
                raise Reject(str(error), requeue=True) from error
            time.sleep(next(pauses))


def _call(function: Function, manner: Manner, task: Task[Any]) -> Outcome:
    """Call the function, plain or async, and return its outcome. Raises `AlreadyReported`."""
    try:
        value = function(task)
        return outcomes.succeeded(
            asyncio.run(awaitables.awaited(value)) if inspect.isawaitable(value) else value, task
        )
    except AlreadyReported:
        raise
    except SoftTimeLimitExceeded as error:
        return outcomes.unknown(f"{type(error).__name__}: {error}")
    except BaseException as error:
        outcome = outcomes.raised(error, manner)
        if outcome.kind != outcomes.CANNOT_DECODE:
            return outcome
        logger.warning(
            "%s: %s. Another worker may be able to decode it", task.attempt_id, outcome.value
        )
        return outcomes.unknown(outcome.value)  # so that the attempt is sent again
