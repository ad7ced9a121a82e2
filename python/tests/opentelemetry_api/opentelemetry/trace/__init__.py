"""A stand-in for `opentelemetry.trace`, which is not a package of Debian's.

It has the names of its API that the package uses, with the signatures of the releases 1.0 and
later, over a tracer that keeps what has ended.
"""

from __future__ import annotations

import contextlib
import contextvars
import enum
import random
from collections.abc import Iterator, Mapping, Sequence
from typing import Any, Optional

Context = Mapping[str, Any]
_CURRENT: contextvars.ContextVar[Context] = contextvars.ContextVar("current", default={})
ENDED: list[Span] = []
"""The spans that have ended, in the order of their ends."""


class TraceFlags(int):
    """The flags of a context."""

    DEFAULT, SAMPLED = 0x00, 0x01


class SpanContext:
    """The identity of a span."""

    def __init__(
        self,
        trace_id: int,
        span_id: int,
        is_remote: bool,
        trace_flags: Optional[TraceFlags] = None,
        trace_state: Any = None,
    ) -> None:
        self.trace_id, self.span_id, self.is_remote = trace_id, span_id, is_remote
        self.trace_flags = TraceFlags(0) if trace_flags is None else trace_flags

    @property
    def is_valid(self) -> bool:
        return bool(self.trace_id and self.span_id)


class StatusCode(enum.Enum):
    """The result of a span."""

    UNSET, OK, ERROR = 0, 1, 2


class Status:
    """The result of a span, with its description."""

    def __init__(
        self, status_code: StatusCode = StatusCode.UNSET, description: Optional[str] = None
    ) -> None:
        self.status_code, self.description = status_code, description


class SpanKind(enum.Enum):
    """The kind of a span."""

    INTERNAL, SERVER, CLIENT, PRODUCER, CONSUMER = 0, 1, 2, 3, 4


class Link:
    """A link to another span."""

    def __init__(
        self, context: SpanContext, attributes: Optional[Mapping[str, Any]] = None
    ) -> None:
        self.context, self.attributes = context, attributes


class NonRecordingSpan:
    """A span with only a context: it is known."""

    def __init__(self, context: SpanContext) -> None:
        self._context = context

    def get_span_context(self) -> SpanContext:
        return self._context

    def set_attribute(self, key: str, value: Any) -> None:
        ...

    def record_exception(
        self,
        exception: BaseException,
        attributes: Any = None,
        timestamp: Optional[int] = None,
        escaped: bool = False,
    ) -> None:
        ...

    def set_status(self, status: Any, description: Optional[str] = None) -> None:
        ...

    def end(self, end_time: Optional[int] = None) -> None:
        ...


class Span(NonRecordingSpan):
    """A span that is kept when it ends."""

    def __init__(
        self,
        name: str,
        parent: SpanContext,
        kind: SpanKind,
        attributes: Mapping[str, Any],
        links: Sequence[Link],
    ) -> None:
        trace = parent.trace_id if parent.is_valid else random.getrandbits(128) | 1
        super().__init__(
            SpanContext(
                trace,
                random.getrandbits(64) | 1,
                False,
                TraceFlags(parent.trace_flags if parent.is_valid else 1),
            )
        )
        self.name, self.parent, self.kind, self.links = (
            name,
            parent if parent.is_valid else None,
            kind,
            list(links),
        )
        self.attributes: dict[str, Any] = {}
        for key, value in attributes.items():
            self.set_attribute(key, value)
        self.errors: list[BaseException] = []
        self.status, self.ends = Status(), 0

    def set_attribute(self, key: str, value: Any) -> None:
        assert isinstance(value, (str, bool, int, float)), (key, value)
        self.attributes[key] = value

    def record_exception(
        self,
        exception: BaseException,
        attributes: Any = None,
        timestamp: Optional[int] = None,
        escaped: bool = False,
    ) -> None:
        self.errors.append(exception)

    def set_status(self, status: Any, description: Optional[str] = None) -> None:
        assert isinstance(status, Status) and description is None
        self.status = status

    def end(self, end_time: Optional[int] = None) -> None:
        self.ends += 1
        ENDED.append(self)


INVALID_SPAN = NonRecordingSpan(SpanContext(0, 0, False))


def get_current_span(context: Optional[Context] = None) -> NonRecordingSpan:
    """Return the span of a context, or of the current one."""
    current: NonRecordingSpan = (_CURRENT.get() if context is None else context).get(
        "span", INVALID_SPAN
    )
    return current


def set_span_in_context(span: NonRecordingSpan, context: Optional[Context] = None) -> Context:
    """Return a context with the span."""
    return {**(_CURRENT.get() if context is None else context), "span": span}


@contextlib.contextmanager
def use_span(
    span: NonRecordingSpan,
    end_on_exit: bool = False,
    record_exception: bool = True,
    set_status_on_exception: bool = True,
) -> Iterator[NonRecordingSpan]:
    """Make a span the current one in the block."""
    token = _CURRENT.set(set_span_in_context(span))
    try:
        yield span
    finally:
        _CURRENT.reset(token)
        if end_on_exit:
            span.end()


class Tracer:
    """Start spans."""

    def __init__(self, module: str, version: Optional[str]) -> None:
        self.module, self.version = module, version

    def start_span(
        self,
        name: str,
        context: Optional[Context] = None,
        kind: SpanKind = SpanKind.INTERNAL,
        attributes: Optional[Mapping[str, Any]] = None,
        links: Optional[Sequence[Link]] = None,
        start_time: Optional[int] = None,
        record_exception: bool = True,
        set_status_on_exception: bool = True,
    ) -> Span:
        return Span(
            name, get_current_span(context).get_span_context(), kind, attributes or {}, links or ()
        )


def get_tracer(
    instrumenting_module_name: str,
    instrumenting_library_version: Optional[str] = None,
    tracer_provider: Any = None,
) -> Tracer:
    """Return a tracer."""
    assert instrumenting_library_version
    return Tracer(instrumenting_module_name, instrumenting_library_version)
