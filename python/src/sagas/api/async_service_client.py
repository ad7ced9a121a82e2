"""The client of a service for async programs: its calls wait in threads."""

from __future__ import annotations

import asyncio
import functools
from collections.abc import AsyncIterator, Callable, Coroutine, Sequence
from concurrent.futures import ThreadPoolExecutor
from types import TracebackType
from typing import TYPE_CHECKING, Any, Concatenate, ParamSpec, TypeVar

from sagas.api.service_client import ServiceClient, ServiceEvents, ServiceRun
from sagas.api.service_replies import ServiceEvent, ServiceSaga, ServiceSummary
from sagas.core.decisions import DecisionEntry
from sagas.definition import arguments
from sagas.definition.labels import Labels
from sagas.definition.payloads import BlobStore, Codec
from sagas.definition.saga import Saga
from sagas.definition.start_options import Deadline

P = ParamSpec("P")
T = TypeVar("T")
I = TypeVar("I")


class Offloaded:
    """The calls of a blocking client, in its own threads."""

    def __init__(self, inner: Any, threads: ThreadPoolExecutor) -> None:
        self._inner, self._threads = inner, threads

    async def _call(self, function: Callable[..., T], *args: Any, **options: Any) -> T:
        """Call a function in a thread. If the caller is cancelled, the call continues there."""
        work = functools.partial(function, *args, **options)
        return await asyncio.get_running_loop().run_in_executor(self._threads, work)


def offloaded(
    method: Callable[Concatenate[I, P], T]
) -> Callable[Concatenate[Any, P], Coroutine[Any, Any, T]]:
    """Return an async method for a blocking one. It waits in a thread."""

    @functools.wraps(method)
    async def call(self: Offloaded, /, *args: P.args, **options: P.kwargs) -> T:
        return await self._call(method, self._inner, *args, **options)

    return call


class AsyncServiceRun(Offloaded):
    """Follow a saga that a client of a service started. Made by `AsyncServiceClient`.

    Attributes:
        key: The saga's key.
        saga: The saga's name.
        version: The version of its definition.
        new: Whether this call started it.
    """

    def __init__(self, run: ServiceRun, threads: ThreadPoolExecutor) -> None:
        super().__init__(run, threads)
        self.key, self.saga, self.version, self.new = run.key, run.saga, run.version, run.new

    wait = offloaded(ServiceRun.wait)
    get = offloaded(ServiceRun.get)
    abort = offloaded(ServiceRun.abort)

    def __repr__(self) -> str:
        return f"<run {self.key!r}>"


class AsyncServiceEvents(Offloaded):
    """Follow the events of a service, by `async for`. Made by `AsyncServiceClient`.

    See `ServiceEvents`. One task iterates, and takes a thread of the client while it waits.
    """

    _inner: ServiceEvents

    @property
    def last_event_id(self) -> str | None:
        """The id of the last event, for `last_event_id` of a later stream; or None."""
        return self._inner.last_event_id

    async def open(self) -> AsyncServiceEvents:
        """Wait until the service has opened the stream. See `ServiceEvents.open`."""
        await self._call(self._inner.open)
        return self

    async def close(self) -> None:
        """End the stream, also a loop over it in another task."""
        await self._call(self._inner.close)

    def __aiter__(self) -> AsyncServiceEvents:
        return self

    async def __anext__(self) -> ServiceEvent:
        event = await self._call(lambda: next(self._inner, None))
        if event is None:
            raise StopAsyncIteration
        return event

    async def __aenter__(self) -> AsyncServiceEvents:
        return self

    async def __aexit__(
        self,
        kind: type[BaseException] | None,
        error: BaseException | None,
        trace: TracebackType | None,
    ) -> None:
        self._inner.close()

    def __repr__(self) -> str:
        return repr(self._inner)


class AsyncServiceClient(Offloaded):
    """Start and inspect sagas of an HTTP service, and decide steps, in async programs.

    Use it by `async with sagas.AsyncServiceClient("http://...") as client`. Its calls are those of
    `ServiceClient`, with the same arguments, results and exceptions. Each waits in one of `threads`
    threads, so no call blocks the event loop; more calls wait for a free thread. If a caller is
    cancelled, its request continues.

    Attributes:
        timeout: Seconds for which a call repeats its request.
    """

    _inner: ServiceClient

    def __init__(
        self,
        url: str | Sequence[str],
        token: str | None = None,
        *,
        timeout: float = 60.0,
        codec: Codec | None = None,
        blobs: BlobStore | None = None,
        threads: int = 32,
    ) -> None:
        """Make a client. It connects at its first call. See `ServiceClient`.

        Args:
            threads: Maximum number of concurrent calls, and of streams of events (default: 32).

        Raises:
            ValueError: See `ServiceClient`, or the number of threads is not valid.
        """
        arguments.count("threads", threads)
        inner = ServiceClient(url, token, timeout=timeout, codec=codec, blobs=blobs)
        super().__init__(inner, ThreadPoolExecutor(threads, "sagas-service"))
        self.timeout = inner.timeout

    @property
    def url(self) -> str:
        """The service that the client asks now."""
        return self._inner.url

    async def start(
        self,
        saga: Saga[Any] | str,
        key: str,
        input: Any = None,
        *,
        labels: Labels | None = None,
        deadline: Deadline | None = None,
        version: int | None = None,
        traceparent: str | None = None,
    ) -> AsyncServiceRun:
        """Start a saga, or return the one with this key. See `ServiceClient.start`.

        Example:
            >>> async def buy(client, key, amount):
            ...     run = await client.start("order", key, {"amount": amount})
            ...     return await run.wait(timeout=60)
        """
        options: dict[str, Any] = {"labels": labels, "deadline": deadline, "version": version}
        start = functools.partial(self._inner.start, traceparent=traceparent, **options)
        return AsyncServiceRun(await self._call(start, saga, key, input), self._threads)

    async def restart(self, key: str, new_key: str, *, note: str | None = None) -> AsyncServiceRun:
        """Start an ended saga again, under a new key. See `ServiceClient.restart`."""
        run = await self._call(self._inner.restart, key, new_key, note=note)
        return AsyncServiceRun(run, self._threads)

    get = offloaded(ServiceClient.get)
    abort = offloaded(ServiceClient.abort)
    complete = offloaded(ServiceClient.complete)
    fail = offloaded(ServiceClient.fail)
    retry = offloaded(ServiceClient.retry)
    compensate = offloaded(ServiceClient.compensate)
    resolve = offloaded(ServiceClient.resolve)
    abort_all = offloaded(ServiceClient.abort_all)
    resolve_all = offloaded(ServiceClient.resolve_all)
    retry_all = offloaded(ServiceClient.retry_all)
    complete_all = offloaded(ServiceClient.complete_all)
    fail_all = offloaded(ServiceClient.fail_all)
    attention = offloaded(ServiceClient.attention)

    async def wait(self, key: str, timeout: float | None = None) -> ServiceSaga:
        """Wait until a saga has ended. See `ServiceClient.wait`."""
        return await self._call(self._inner.wait, key, timeout)

    async def list(self, **options: Any) -> AsyncIterator[ServiceSummary]:
        """List sagas, the newest first: `async for saga in client.list(phase="stuck")`.

        Args:
            options: See `ServiceClient.list`.
        """
        pages = self._inner.list(**options)
        while (saga := await self._call(lambda: next(pages, None))) is not None:
            yield saga

    async def decisions(
        self,
        *,
        key: str | None = None,
        saga: Saga[Any] | str | None = None,
        decision: str | None = None,
        page_size: int = 100,
    ) -> AsyncIterator[DecisionEntry]:
        """List decisions, newest first: `async for entry in client.decisions(key="k")`.

        Args:
            key: Only decisions on the saga with this key.
            saga: Only decisions on sagas of this definition, or of its name.
            decision: Only decisions of this kind, for example `retry`.
            page_size: The number of entries of a request (default: 100).

        Raises:
            ValueError: The kind is unknown, or the page size is not valid.
        """
        pages = self._inner.decisions(key=key, saga=saga, decision=decision, page_size=page_size)
        while (entry := await self._call(lambda: next(pages, None))) is not None:
            yield entry

    def events(
        self,
        *,
        key: str | None = None,
        saga: Saga[Any] | str | None = None,
        last_event_id: str | None = None,
    ) -> AsyncServiceEvents:
        """Follow events, from the moment at which the stream is opened.

        See `ServiceClient.events`. A stream takes a thread while it waits.
        """
        events = self._inner.events(key=key, saga=saga, last_event_id=last_event_id)
        return AsyncServiceEvents(events, self._threads)

    async def close(self) -> None:
        """Close the connections. See `ServiceClient.close`."""
        self._inner.close()
        await asyncio.to_thread(self._threads.shutdown)

    async def __aenter__(self) -> AsyncServiceClient:
        return self

    async def __aexit__(
        self,
        kind: type[BaseException] | None,
        error: BaseException | None,
        trace: TracebackType | None,
    ) -> None:
        await self.close()

    if not TYPE_CHECKING:  # a type checker reports that itself

        def __enter__(self) -> AsyncServiceClient:
            raise TypeError(
                "a sagas.AsyncServiceClient needs `async with`. Without async, use `with "
                "sagas.ServiceClient(...)`"
            )

        def __exit__(self, *_: object) -> None:
            ...
