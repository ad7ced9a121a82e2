"""Tracing: W3C trace contexts, and spans of OpenTelemetry.

It uses only those names of `opentelemetry-api` that all of its releases since 1.0 have. If the
package is not installed, trace contexts are still stored and passed on, but there are no spans.
"""

from __future__ import annotations

import contextlib
import importlib
import re
import threading
from collections import OrderedDict
from collections.abc import Callable, Iterator
from typing import Any, TYPE_CHECKING

from sagas.base.logger import logger

if TYPE_CHECKING:
    from sagas.definition.task import Task

TRACEPARENT = re.compile(r"([0-9a-f]{2})-([0-9a-f]{32})-([0-9a-f]{16})-([0-9a-f]{2})(-.*)?\Z", re.S)
KNOWN_FLAGS = 3
"""The flags of the standard: sampled, and random trace id. Other flags are removed."""
MAX_LINKS = 10_000
"""Maximum number of effects whose last span is remembered for links."""


def read(text: str) -> str | None:
    """Return a `traceparent` header in version 00, or None if it is not valid."""
    match = TRACEPARENT.match(text.strip(" \t"))
    if match is None:
        return None
    version, trace, span, flags, more = match.groups()
    if version == "ff" or (version == "00" and more) or not (int(trace, 16) and int(span, 16)):
        return None
    return _written(trace, span, int(flags, 16))


def _written(trace: str, span: str, flags: int) -> str:
    return f"00-{trace}-{span}-{flags & KNOWN_FLAGS:02x}"


def checked(traceparent: str | None) -> str | None:
    """Return the argument `traceparent` in the form of version 00; None for None.

    Raises:
        TypeError: It is not a text.
        ValueError: It is not valid.
    """
    if traceparent is None:
        return None
    if not isinstance(traceparent, str):
        raise TypeError(f"traceparent={traceparent!r}: must be a text")
    header = read(traceparent)
    if header is None:
        raise ValueError(
            f"traceparent={traceparent[:80]!r}: must be a W3C trace context, for example "
            "00-0af7651916cd43dd8448eb211c80319c-b7ad6b7169203331-01"
        )
    return header


def of_start(tracer: Tracer | None, traceparent: str | None) -> str | None:
    """Return the trace context of a start: the argument, else of the current span.

    Raises:
        TypeError: The argument is not a text.
        ValueError: The argument is not valid.
    """
    header = checked(traceparent)
    return tracer.current() if header is None and tracer else header


def headers(tracer: Tracer | None, traceparent: str | None) -> dict[str, str]:
    """Return the headers of a request that starts a saga. Raises as `of_start`."""
    header = of_start(tracer, traceparent)
    return {} if header is None else {"traceparent": header}


class AttemptSpan:
    """The span of an attempt, while its function runs."""

    def __init__(self, trace: Any, span: Any) -> None:
        self._trace, self._span = trace, span

    def ended(self, outcome: str, fault: str, error: BaseException | None = None) -> None:
        """Set the outcome of the attempt on its span.

        Args:
            outcome: A value of `OutcomeKind`.
            fault: Why the attempt did not succeed, for people; the empty text if it succeeded.
            error: The exception that the function raised, or None.
        """
        span, trace = self._span, self._trace
        span.set_attribute("sagas.outcome", outcome)
        if not fault:
            return
        span.set_attribute("error.type", type(error).__qualname__ if error else outcome)
        if error is not None:
            span.record_exception(error)
        span.set_status(trace.Status(trace.StatusCode.ERROR, fault))


class Tracer:
    """Spans of attempts."""

    def __init__(self, trace: Any, version: str) -> None:
        """Create a tracer with the module `opentelemetry.trace`."""
        self._trace, self._tracer = trace, trace.get_tracer("sagas", version)
        self._lock, self._last = threading.Lock(), OrderedDict[str, Any]()
        self._has_failed = False

    def current(self) -> str | None:
        """Return the trace context of the span that is current here, if one is."""
        context = self._trace.get_current_span().get_span_context()
        if not context.is_valid:
            return None
        return _written(f"{context.trace_id:032x}", f"{context.span_id:016x}", context.trace_flags)

    @contextlib.contextmanager
    def attempt(self, task: Task[Any], function: Callable[..., Any]) -> Iterator[AttemptSpan]:
        """Make a span current while the function of an attempt runs."""
        span = self._start(task, function)
        try:
            with self._trace.use_span(span, record_exception=False, set_status_on_exception=False):
                yield AttemptSpan(self._trace, span)
        finally:
            self._end(span)

    def _start(self, task: Task[Any], function: Callable[..., Any]) -> Any:
        """Start the span. Errors of exporters are logged, and never reach a saga."""
        action = "undo" if task.is_compensation else "run"
        attributes = {
            "sagas.saga": task.saga,
            "sagas.key": task.key,
            "sagas.step": task.step,
            "sagas.action": action,
            "sagas.attempt": task.attempt,
            "sagas.attempt_id": task.attempt_id,
        }
        if name := getattr(function, "__qualname__", ""):
            attributes["code.function.name"] = f"{getattr(function, '__module__', '?')}.{name}"
        name = f"{action} {task.saga}/{task.step}"
        options: dict[str, Any] = {"attributes": attributes, "links": self._links(task)}
        try:
            span = self._tracer.start_span(name, self._parent(task.traceparent), **options)
        except Exception as error:
            self._failed(error)
            return self._trace.INVALID_SPAN
        with self._lock:
            self._last[task.idempotency_key] = span.get_span_context()
            self._last.move_to_end(task.idempotency_key)
            if len(self._last) > MAX_LINKS:
                self._last.popitem(last=False)
        return span

    def _end(self, span: Any) -> None:
        try:
            span.end()
        except Exception as error:
            self._failed(error)

    def _failed(self, error: Exception) -> None:
        if not self._has_failed:
            logger.warning("a span could not be written: %s: %s", type(error).__name__, error)
        self._has_failed = True

    def _links(self, task: Task[Any]) -> list[Any]:
        """Return links to the previous attempt, and from a compensation to its action.

        It knows only the attempts of this program.
        """
        keys = dict.fromkeys((task.idempotency_key, task.original_idempotency_key))
        with self._lock:
            spans = [self._last.get(key) for key in keys]
        return [self._trace.Link(span) for span in spans if span is not None and span.is_valid]

    def _parent(self, traceparent: str | None) -> Any:
        """Return the parent context of a span: that of the saga's start, or an empty one."""
        trace = self._trace
        if traceparent is None:
            return trace.set_span_in_context(trace.INVALID_SPAN)
        _, trace_id, span_id, flags = traceparent.split("-")
        options = {"is_remote": True, "trace_flags": trace.TraceFlags(int(flags, 16))}
        context = trace.SpanContext(int(trace_id, 16), int(span_id, 16), **options)
        return trace.set_span_in_context(trace.NonRecordingSpan(context))


def tracer() -> Tracer | None:
    """Return a tracer, or None if `opentelemetry-api` is not installed."""
    try:
        trace = importlib.import_module("opentelemetry.trace")
    except ImportError:
        return None
    return Tracer(trace, importlib.import_module("sagas").__version__)
