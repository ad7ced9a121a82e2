"""A client over HTTP: it starts sagas, waits for them, decides steps, and follows events.

    with sagas.ServiceClient("http://127.0.0.1:8080", token="...") as client:
        run = client.start("trip", "order-1", {"to": "Rome"})
        print(run.wait(timeout=30))

It needs only the standard library. Each request is safe to repeat, so each call repeats its request
until a service answers.
"""

from __future__ import annotations

import builtins
import datetime
import http.client
import json
import threading
import time
import urllib.parse
import weakref
from collections.abc import Iterator, Mapping, Sequence
from types import TracebackType
from typing import Any

from sagas.api.service_connection import (
    FIRST_PAUSE,
    NO_HEADERS,
    OpenAnswer,
    ServiceConnection,
    ServiceRefused,
    end,
)
from sagas.api.service_operators import (
    ANSWER,
    ServiceOperators,
    name_of,
    path_of,
    without_none,
)
from sagas.api.service_replies import (
    ServiceEvent,
    ServiceSaga,
    ServiceSummary,
    ServiceValues,
    error_of,
    event_of,
    saga_of,
    summary_of,
    waits_of,
)
from sagas.base.errors import Closed, NoSuchSaga
from sagas.core.attempt.waits import timeout_error
from sagas.definition import arguments, tracing
from sagas.definition.payloads import BlobStore, Codec
from sagas.definition.labels import Labels, checked
from sagas.definition.saga import Saga
from sagas.definition.start_options import Deadline, deadline_at
from sagas.definition.step import Step

MAX_WAIT = 30.0  # seconds that the service holds one request
BEYOND = 15.0  # seconds that the reply may take after that
LATE = 10.0  # minimum seconds for which a request is repeated
SILENT = 40.0
"""Seconds without even a comment after which the connection of a stream counts as dead."""


class ServiceClient(ServiceOperators):
    """Start and inspect sagas of an HTTP service, and decide steps.

    It uses only the standard library. Its calls block, and any thread may make them, also
    concurrently. Each call repeats its request until a service answers, for `timeout` seconds. A
    repeated request counts once. Use it by `with`, or call `close`.

    Each call can raise `ServiceUnavailable` if no service answers in time, `ServiceRefused` if the
    service refuses the call, for example its token, and `Closed` if the client is closed.

    Attributes:
        timeout: Seconds for which a call repeats its request.
    """

    def __init__(
        self,
        url: str | Sequence[str],
        token: str | None = None,
        *,
        timeout: float = 60.0,
        codec: Codec | None = None,
        blobs: BlobStore | None = None,
    ) -> None:
        """Make a client. It connects at its first call.

        Args:
            url: The service, or several services over one database. The client begins with a
                random one, and stays there. If one does not answer, it asks the next one.
            token: The token of a caller, an approver or an operator (default: None).
            timeout: Seconds for which a call repeats its request (default: 60).
            codec: That of the service's store: the client decodes inputs and results (default: they
                are as the service returns them, `{"$codec": ...}` if they are encoded).
            blobs: That of the service's store: the client reads large inputs and results there
                (default: they are references, `{"$blob": ...}`).

        Raises:
            TypeError: The codec or the blob store has no required function.
            ValueError: The URL is not the address of a service, or the timeout is not valid.
        """
        self.timeout = arguments.time("timeout", timeout, none=False)
        self._closed, self._tracer = threading.Event(), tracing.tracer()
        self._service = ServiceConnection(url, token, self.timeout, self._closed)
        self._values = ServiceValues(codec, blobs)
        self._streams: weakref.WeakSet[ServiceEvents] = weakref.WeakSet()

    @property
    def url(self) -> str:
        """The service that the client asks now."""
        return self._service.url

    # -- sagas

    def start(
        self,
        saga: Saga[Any] | str,
        key: str,
        input: Any = None,
        *,
        labels: Labels | None = None,
        deadline: Deadline | None = None,
        version: int | None = None,
        traceparent: str | None = None,
    ) -> ServiceRun:
        """Start a saga, or return the one with this key.

        When it returns, the saga is stored, and the service will execute it.

        Args:
            saga: The saga's name, or its definition, whose version is then meant. The service has
                to know it.
            key: Its key: the same key with the same input is one saga.
            input: What its steps get, as JSON (default: None).
            labels: Texts by name, by which lists find it (default: none).
            deadline: Seconds, a timedelta, or a datetime with a time zone, after which it is
                aborted (default: as its definition says). One that has passed aborts it at once.
            version: The version of the definition (default: the newest for a new saga, and any for
                an existing one).
            traceparent: The W3C trace context of its start (default: of the current span, if any).

        Raises:
            KeyConflict: The key belongs to a saga of another name, version or input.
            InvalidKey: The key is not valid.
            InvalidInput: The input does not have a type that the service declares.
            InvalidLabel: A label is not valid.
            NotSerializable: The input is not JSON.
            TooLarge: The saga has too many steps or needs for its input.
            ServiceRefused: The service has no such definition, or refuses the token.
            ServiceUnavailable: No service answered in time. Repeat the call.
        """
        arguments.key(key)
        if isinstance(saga, Saga) and version is None:
            version = saga.version
        body: dict[str, Any] = {"definition": name_of("saga", saga), "key": key, "input": input}
        options = {
            "labels": dict(checked(labels)) or None,
            "deadline": _seconds_to(deadline),
            "version": version,
        }
        body |= {name: value for name, value in options.items() if value is not None}
        headers = tracing.headers(self._tracer, traceparent)
        return ServiceRun(self, self._ask("/v1/sagas", body, headers=headers))

    def get(self, key: str) -> ServiceSaga | None:
        """Return the saga with this key as it is now, or None.

        Args:
            key: The saga's key.

        Raises:
            InvalidKey: The key is not valid.
            CannotDecode: The codec or the blob store of this client cannot read a value.
            ServiceRefused: The service refuses the token.
            ServiceUnavailable: No service answered in time.
        """
        try:
            return saga_of(self._values.saga(self._ask(path_of(key))))
        except NoSuchSaga:
            return None

    def wait(self, key: str, timeout: float | None = None) -> ServiceSaga:
        """Wait until a saga has ended.

        Args:
            key: The saga's key.
            timeout: Seconds (default: without limit).

        Returns:
            The saga. Look at `ok`: a saga that was compensated does not raise.

        Raises:
            TimeoutError: It has not ended in time, and continues. The message says what it waits
                for.
            NoSuchSaga: No saga has the key.
            CannotDecode: The codec or the blob store of this client cannot read a value.
            ServiceRefused: The service refuses the token.
            ServiceUnavailable: No service answered in time.
        """
        limit = float("inf") if timeout is None else arguments.time("timeout", timeout)
        until = time.monotonic() + limit
        while True:
            left = max(0.0, until - time.monotonic())
            seconds = min(MAX_WAIT, left)
            reply = self._ask(
                f"{path_of(key, 'wait')}?seconds={seconds:.3f}",
                None,
                seconds + BEYOND,
                max(LATE, min(left, self.timeout)) + seconds,
            )
            if reply["over"]:
                return saga_of(self._values.saga(reply))
            if time.monotonic() >= until:
                raise timeout_error(key, limit, waits_of(reply))

    def abort(self, key: str, *, note: str | None = None) -> bool:
        """Abort a saga: no further step starts, and what costs least is undone.

        Args:
            key: The saga's key.
            note: The reason; it is stored with the requester and the time (default: none).

        Returns:
            Whether this call aborted it. It is False if the saga has ended or was aborted before,
                also by a request of this call whose reply was lost.

        Raises:
            NoSuchSaga: No saga has the key.
            ServiceRefused: The service refuses the token.
            ServiceUnavailable: No service answered in time. Repeat the call.
        """
        done: bool = self._ask(path_of(key, "abort"), without_none(note=note))["aborted"]
        return done

    def restart(self, key: str, new_key: str, *, note: str | None = None) -> ServiceRun:
        """Start an ended saga again, under a new key. See `Store.restart`.

        Args:
            key: The key of the old saga.
            new_key: The key of the new saga.
            note: The reason; it is stored with the requester and the time (default: none).

        Raises:
            NotRestartable: The old saga is open, has completed, or is a child.
            KeyConflict: The new key belongs to a saga that is not a restart of the old one.
            InvalidInput: The functions of the present definition cannot read the input.
            NoSuchSaga: No saga has the key.
            InvalidKey: The new key is not valid.
            ServiceRefused: The service has no such definition, or refuses the token.
            ServiceUnavailable: No service answered in time. Repeat the call.
        """
        arguments.key(new_key)
        body = {"key": new_key} | without_none(note=note)
        return ServiceRun(self, self._ask(path_of(key, "restart"), body))

    def complete(
        self,
        key: str,
        step: Step[Any] | str,
        result: Any = None,
        *,
        undo: bool = False,
        early: bool = True,
        note: str | None = None,
    ) -> None:
        """Report that a step succeeded, for example that it is approved.

        An approver reports approvals, an operator also other steps. The same report again is not an
        error.

        Args:
            key: The saga's key.
            step: The step, or its name.
            result: Its result, as JSON (default: None).
            undo: Whether its compensation is meant (default: False).
            early: Whether the report is stored until the step starts (default: True).
            note: The reason; it is stored with the requester and the time (default: none).

        Raises:
            StepNotWaiting: The step does not wait for a report.
            ConflictingReport: Another outcome was reported first, and counts.
            NoSuchSaga: No saga has the key.
            NotSerializable: The result is not JSON.
            ServiceRefused: The token may not report this step.
            ServiceUnavailable: No service answered in time. Repeat the call.
        """
        self._report("complete", key, step, undo, {"result": result}, note, early)

    def fail(
        self,
        key: str,
        step: Step[Any] | str,
        error: str,
        *,
        undo: bool = False,
        early: bool = True,
        note: str | None = None,
    ) -> None:
        """Report that a step failed permanently. See `ServiceClient.complete`.

        Args:
            error: Why it failed, for people.

        Raises:
            StepNotWaiting: The step does not wait for a report.
            ConflictingReport: Another outcome was reported first, and counts.
            NoSuchSaga: No saga has the key.
            ServiceRefused: The token may not report this step.
            ServiceUnavailable: No service answered in time. Repeat the call.
        """
        arguments.text("error", error, "why it failed")
        self._report("fail", key, step, undo, {"error": error}, note, early)

    # -- questions

    def list(
        self,
        *,
        phase: str | None = None,
        saga: Saga[Any] | str | None = None,
        labels: Labels | None = None,
        search: str | None = None,
        started_after: datetime.datetime | float | None = None,
        started_before: datetime.datetime | float | None = None,
        error: str | None = None,
        page_size: int = 100,
    ) -> Iterator[ServiceSummary]:
        """List sagas, the newest first. It requests one page after another.

        Args:
            phase: `open`, `completed`, `recovered`, `stuck` or `resolved`; or `undo_failed`, for
                recovered sagas with a compensation that failed permanently (default: all).
            saga: A definition, or its name (default: all).
            labels: Labels that the sagas have, all of these (default: any).
            search: A part of their keys (default: anything).
            started_after: Only sagas that started then or later: a datetime with a time zone, or
                seconds since 1970 (default: any time).
            started_before: Only sagas that started earlier (default: any time).
            error: A part of what an attempt raised (default: anything).
            page_size: Sagas of one request, from 1 to 1,000 (default: 100).

        Raises:
            ValueError: The page size is not valid.
            TypeError: A time is not valid.
            InvalidLabel: A label is not valid.
            ServiceRefused: The service refuses the token, or the filter.
            ServiceUnavailable: No service answered in time.
        """
        query = without_none(
            limit=arguments.count("page_size", page_size),
            phase=phase,
            search=search,
            error=error,
            definition=None if saga is None else name_of("saga", saga),
            started_after=_moment("started_after", started_after),
            started_before=_moment("started_before", started_before),
        )
        pairs = [f"{name}={value}" for name, value in checked(labels).items()]
        return self._pages({**query, "label": pairs})

    def _pages(self, query: dict[str, Any]) -> Iterator[ServiceSummary]:
        while True:
            reply = self._ask(f"/v1/sagas?{urllib.parse.urlencode(query, doseq=True)}")
            yield from map(summary_of, reply["sagas"])
            if reply["next"] is None:
                return
            query["after"] = reply["next"]

    def events(
        self,
        *,
        key: str | None = None,
        saga: Saga[Any] | str | None = None,
        last_event_id: str | None = None,
    ) -> ServiceEvents:
        """Follow events, from the moment at which the stream is opened.

        Args:
            key: Only events of the saga with this key (default: of all).
            saga: Only events of sagas of this definition, or of this name (default: of all).
            last_event_id: Continue after the event with this `id` (default: from now on).

        Returns:
            A stream to loop over; use it by `with`.

        Raises:
            InvalidKey: The key is not valid.
        """
        if key is not None:
            arguments.key(key, or_child=True)
        query = without_none(key=key, definition=None if saga is None else name_of("saga", saga))
        path = f"/v1/events?{urllib.parse.urlencode(query)}"
        stream = ServiceEvents(self._service, path, last_event_id, self.timeout)
        self._streams.add(stream)
        if self._closed.is_set():
            stream.close()
        return stream

    # -- its end

    def close(self) -> None:
        """Close the connections.

        Calls in progress raise `Closed`, and loops over events end. The service may still execute a
        request in progress.
        """
        self._closed.set()
        for stream in builtins.list(self._streams):
            stream.close()
        self._service.close()

    def __enter__(self) -> ServiceClient:
        return self

    def __exit__(
        self,
        kind: type[BaseException] | None,
        error: BaseException | None,
        trace: TracebackType | None,
    ) -> None:
        self.close()

    def _ask(
        self,
        path: str,
        body: dict[str, Any] | None = None,
        seconds: float = ANSWER,
        patience: float | None = None,
        headers: Mapping[str, str] = NO_HEADERS,
    ) -> dict[str, Any]:
        """Return a reply. Raises the exception of a store that the problem names."""
        try:
            return self._service.repeated(
                lambda url, left: self._service.ask(url, path, body, min(seconds, left), headers),
                self.timeout if patience is None else patience,
                self._closed,
            )
        except ServiceRefused as refusal:
            raise error_of(refusal.name, str(refusal)) or refusal from None


def _moment(parameter: str, value: datetime.datetime | float | None) -> float | None:
    if isinstance(value, datetime.datetime):
        if value.tzinfo is None:
            raise TypeError(
                f"{parameter}={value!r}: must have a time zone, for example datetime.UTC"
            )
        return value.timestamp()
    return None if value is None else arguments.time(parameter, value)


def _seconds_to(deadline: Deadline | None) -> float | None:
    """Return the seconds until a deadline; 0 for one that has passed."""
    now = time.time() if isinstance(deadline, datetime.datetime) else 0.0
    at = deadline_at(deadline, now)
    return None if at is None else max(0.0, at - now)


class ServiceRun:
    """Follow a saga that a client of a service started. Made by `ServiceClient`.

    Attributes:
        key: The saga's key.
        saga: The saga's name.
        version: The version of its definition.
        new: Whether this call started it.
    """

    def __init__(self, client: ServiceClient, reply: dict[str, Any]) -> None:
        self._client = client
        self.key: str = reply["key"]
        self.saga: str = reply["definition"]
        self.version: int = reply["version"]
        self.new: bool = reply["new"]

    def wait(self, timeout: float | None = None) -> ServiceSaga:
        """Wait until the saga has ended. See `ServiceClient.wait`."""
        return self._client.wait(self.key, timeout)

    def get(self) -> ServiceSaga | None:
        """Return the saga as it is now. See `ServiceClient.get`."""
        return self._client.get(self.key)

    def abort(self, *, note: str | None = None) -> bool:
        """Abort the saga. See `ServiceClient.abort`."""
        return self._client.abort(self.key, note=note)

    def __repr__(self) -> str:
        return f"<run {self.key!r}>"


class ServiceEvents:
    """Follow the events of a service, in a loop. Made by `ServiceClient.events`.

    If the stream breaks, it continues after the last event. Each event of the loop is a
    `ServiceEvent`. One thread iterates; any thread may close it.

    Raises:
        ServiceUnavailable: In a loop, if no service answers. Iterate again to continue.
        ServiceRefused: In a loop, if the service refuses the stream, for example the token.
    """

    def __init__(
        self, service: ServiceConnection, path: str, last: str | None, patience: float
    ) -> None:
        self._service, self._path, self._last, self._patience = service, path, last, patience
        self._closed, self._lock = threading.Event(), threading.Lock()
        self._answer: OpenAnswer | None = None
        self._first: dict[str, str] | None = None  # read while it was opened

    @property
    def last_event_id(self) -> str | None:
        """The id of the last event, for `last_event_id` of a later stream; or None."""
        return self._last

    def open(self) -> ServiceEvents:
        """Wait until the service has opened the stream: later events are received.

        A loop opens the stream by itself.

        Returns:
            This stream.

        Raises:
            ServiceUnavailable: No service answered in time.
            ServiceRefused: The service refuses it: check token and filter.
            Closed: The stream or its client is closed.
        """
        if self._answer is None:
            try:
                self._service.repeated(self._opened, self._patience, self._closed)
            except ServiceRefused as refusal:
                raise error_of(refusal.name, str(refusal)) or refusal from None
        return self

    def close(self) -> None:
        """End the stream, also a loop over it in another thread."""
        with self._lock:
            self._closed.set()
            if self._answer is not None:
                end(self._answer.channel)

    def __iter__(self) -> ServiceEvents:
        return self

    def __next__(self) -> ServiceEvent:
        while not self._closed.is_set():
            try:
                self.open()
            except Closed:
                break
            fields, self._first = self._first or self._read(), None
            if fields is None:
                self._drop()
                self._closed.wait(FIRST_PAUSE)
            elif "event" in fields and "data" in fields:
                data = json.loads(fields["data"])
                return event_of(fields["event"], self._last or "", data, time.time())
        self._drop()
        raise StopIteration

    def _opened(self, url: str, left: float) -> None:
        """Open the stream, and read its first fields: the id after which it continues."""
        headers = {"Accept": "text/event-stream"}
        if self._last is not None:
            headers["Last-Event-ID"] = self._last
        answer = self._service.opened(url, self._path, headers, min(ANSWER, left))
        with self._lock:
            self._answer = answer
            if self._closed.is_set():
                end(answer.channel)
        answer.channel.settimeout(SILENT)
        self._first = self._read()
        if self._first is None:
            self._drop()
            raise ConnectionError("the stream ended before its first line")

    def _read(self) -> dict[str, str] | None:
        """Return the fields up to the next empty line; None if the stream has ended."""
        assert self._answer
        fields: dict[str, str] = {}
        try:
            while line := self._answer.response.readline():
                text = line.rstrip(b"\r\n").decode(errors="replace")
                if not text:
                    self._last = fields.get("id", self._last)
                    return fields
                name, _, value = text.partition(":")
                value = value.removeprefix(" ")
                fields[name] = f"{fields[name]}\n{value}" if name in fields else value
        except (OSError, ValueError, http.client.HTTPException):
            pass  # it is opened again, unless it was closed
        return None

    def _drop(self) -> None:
        with self._lock:
            answer, self._answer = self._answer, None
        if answer is not None:
            answer.close()

    def __enter__(self) -> ServiceEvents:
        return self

    def __exit__(
        self,
        kind: type[BaseException] | None,
        error: BaseException | None,
        trace: TracebackType | None,
    ) -> None:
        self.close()
        self._drop()

    def __repr__(self) -> str:
        return f"<events of {self._service.url}>"
