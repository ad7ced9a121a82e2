"""The store for programs without async code, and how it is opened."""

from __future__ import annotations

import asyncio
import builtins
import functools
import inspect
import signal
import threading
from collections.abc import Callable, Mapping
from types import TracebackType
from typing import TYPE_CHECKING, Any, ParamSpec

from sagas.api.loop_thread import Facade, Loop, blocking, blocking_plain
from sagas.api.run import Run
from sagas.api.store import Store, open
from sagas.base.errors import InvalidStore
from sagas.definition import arguments
from sagas.definition.saga_result import SagaResult
from sagas.definition.labels import Labels
from sagas.definition.payloads import Codec
from sagas.definition.saga import Saga
from sagas.definition.start_options import Deadline, I, NO_INPUT
from sagas.definition.call_options import Seconds

P = ParamSpec("P")


class SyncRun(Facade[Run]):
    """Follow a saga that was started, or found by its key. Made by `SyncStore.start`.

    Attributes:
        key: The saga's key.
        new: Whether this start created the saga.
    """

    def __init__(self, store: SyncStore, run: Run) -> None:
        super().__init__(run, store._loop)
        self._store, self.key, self.new = store, run.key, run.new

    def wait(self, timeout: float | None = None) -> SagaResult:
        """Wait until the saga has ended. See `Store.wait`."""
        return self._store.wait(self.key, timeout)

    abort = blocking(Run.abort)
    complete = blocking(Run.complete)
    fail = blocking(Run.fail)
    plan = blocking(Run.plan)
    log = blocking(Run.log)

    def __repr__(self) -> str:
        return f"<run {self.key!r}>"


class SyncStore(Facade[Store]):
    """Hold an open store, for programs without async. Made by `sagas.open_sync`.

    Use it by `with`. Its calls are those of `Store`, from any thread. In an async step, which runs
    in the store's own thread, they raise `RuntimeError`: make that step a plain function.
    """

    def __init__(self, store: Store) -> None:
        remedy = "is not open, or was closed. Use `with sagas.open_sync(...) as store`"
        super().__init__(store, Loop(store.path, "the store", remedy))

    @property
    def path(self) -> str:
        """The file of the store, or its database without the password."""
        return self._inner.path

    @property
    def sagas(self) -> builtins.list[Saga[Any]]:
        """The definitions that the store was opened with."""
        return self._inner.sagas

    @property
    def opened_with(self) -> Mapping[str, Any]:
        """The arguments of `sagas.open_sync`, by name, for `--app` of commands."""
        return self._inner.opened_with

    @property
    def codec(self) -> Codec | None:
        """The codec of values, or None."""
        return self._inner.codec

    def __enter__(self) -> SyncStore:
        self._loop.start()
        try:
            self._loop.do(self._inner.__aenter__())
        except BaseException:
            self._loop.end()
            raise
        self._loop.path = self._inner.path  # the name of the database is known now
        return self

    if not TYPE_CHECKING:  # a type checker reports that itself

        async def __aenter__(self) -> SyncStore:
            raise TypeError(
                "a store of sagas.open_sync needs `with`. With async, use `async with "
                "sagas.open(...)`"
            )

        async def __aexit__(self, *_: object) -> None:
            ...

    def __exit__(
        self,
        kind: type[BaseException] | None,
        error: BaseException | None,
        trace: TracebackType | None,
    ) -> None:
        self.close()

    def close(self, shutdown_timeout: Seconds | None = None) -> None:
        """Close the store. See `Store.close`."""
        if self._loop.runs:
            try:
                self._loop.do(self._inner.close(shutdown_timeout))
            finally:
                if self._inner._is_over:  # otherwise it must still be closed
                    self._loop.end()

    def serve(self) -> None:
        """Wait for SIGTERM or SIGINT, in the main thread. See `Store.serve`.

        Raises:
            InvalidStore: See `Store.serve`.
            RuntimeError: The call is made in another thread.
        """
        if threading.current_thread() is not threading.main_thread():
            raise RuntimeError(
                "serve() must be called in the main thread, which receives the signals"
            )
        stop = threading.Event()
        before = {
            number: signal.signal(number, lambda *_: stop.set())
            for number in (signal.SIGTERM, signal.SIGINT)
        }

        async def watch() -> asyncio.Future[InvalidStore]:
            self._inner._refusal.add_done_callback(lambda _: stop.set())
            return self._inner._refusal

        try:
            refusal = self._loop.do(watch())
            stop.wait()
            if refusal.done():
                raise refusal.result()
        finally:
            for number, handler in before.items():
                signal.signal(number, signal.SIG_DFL if handler is None else handler)

    def start(
        self,
        saga: Saga[I],
        key: str,
        input: I = NO_INPUT,
        *,
        labels: Labels | None = None,
        deadline: Deadline | None = None,
        traceparent: str | None = None,
        connection: object | None = None,
    ) -> SyncRun:
        """Start a saga, or return the one with this key. See `Store.start`.

        Args:
            connection: As for `SyncClient.start`, if the store is over PostgreSQL.

        Example:
            >>> with sagas.open_sync("orders.db", [order]) as store:
            ...     first = store.start(order, "order-4", {"amount": 40})
            ...     again = store.start(order, "order-4", {"amount": 40})
            ...     first.wait(timeout=60).phase
            refund 40
            'recovered'
            >>> first.new, again.new
            (True, False)
        """
        if connection is not None:
            arguments.key(key)
            inner = self._loop.do(self._inner._store_of(key))
            starter = inner._starter_for_callers()
            adapter = starter.take_blocking(connection, "SyncStore.start")
            request = starter.start_request(saga, key, input, labels, deadline, traceparent)
            self._loop.do(inner._check_caller_start(saga, input))
            new = starter.start_now(request, adapter, self._loop.do)
            return SyncRun(self, Run(inner, key, new))
        options: dict[str, Any] = {
            "labels": labels,
            "deadline": deadline,
            "traceparent": traceparent,
        }
        return SyncRun(self, self._loop.do(self._inner.start(saga, key, input, **options)))

    def restart(
        self, key: str, new_key: str, *, by: str | None = None, note: str | None = None
    ) -> SyncRun:
        """Start an ended saga again, under a new key. See `Store.restart`."""
        return SyncRun(self, self._loop.do(self._inner.restart(key, new_key, by=by, note=note)))

    def get(self, key: str) -> SyncRun | None:
        """Return the saga with this key, or None. See `Store.get`."""
        run = self._loop.do(self._inner.get(key))
        return SyncRun(self, run) if run else None

    def wait(self, key: str, timeout: float | None = None) -> SagaResult:
        """Wait until a saga has ended. See `Store.wait`."""
        inner = self._inner
        work = inner.wait(key) if timeout is None else inner._until_ended(key)
        return self._loop.in_time(key, work, timeout, lambda: self._inner.waits_for(key))

    def wait_idle(self, timeout: float | None = None) -> None:
        """Wait until no saga is open.

        Args:
            timeout: Seconds (default: without limit).

        Raises:
            TimeoutError: Sagas are still open.
            WouldWaitForever: The call is made in a step.
            Closed: The store is closed.
        """
        inner = self._inner
        try:
            self._loop.do(inner.wait_idle() if timeout is None else inner._until_idle(), timeout)
        except TimeoutError as error:
            raise error if timeout is None else TimeoutError(
                f"sagas are still open after {timeout:g} s. list(phase='open') returns them"
            ) from None

    abort = blocking(Store.abort)
    complete = blocking(Store.complete)
    retry = blocking(Store.retry)
    retry_all = blocking(Store.retry_all)
    complete_all = blocking(Store.complete_all)
    fail_all = blocking(Store.fail_all)
    fail = blocking(Store.fail)
    compensate = blocking(Store.compensate)
    waits_for = blocking(Store.waits_for)
    resolve = blocking(Store.resolve)
    abort_all = blocking(Store.abort_all)
    resolve_all = blocking(Store.resolve_all)
    schedule = blocking(Store.schedule)
    schedules = blocking(Store.schedules)
    erase = blocking(Store.erase)
    pause = blocking(Store.pause)
    resume = blocking(Store.resume)
    pauses = blocking(Store.pauses)
    nodes = blocking(Store.nodes)
    drain = blocking(Store.drain)
    undrain = blocking(Store.undrain)
    decisions = blocking(Store.decisions)
    pause_schedule = blocking(Store.pause_schedule)
    resume_schedule = blocking(Store.resume_schedule)
    remove_schedule = blocking(Store.remove_schedule)
    list = blocking(Store.list)
    count = blocking(Store.count)
    definitions = blocking(Store.definitions)
    attention = blocking(Store.attention)
    active_attempts = blocking_plain(Store.active_attempts)
    log = blocking(Store.log)
    plan = blocking(Store.plan)
    draw = blocking(Store.draw)
    audit = blocking(Store.audit)
    database_of = blocking(Store.database_of)


def _without_async(make: Callable[P, Store]) -> Callable[P, SyncStore]:
    @functools.wraps(make, assigned=())
    def open_sync(*args: P.args, **kwargs: P.kwargs) -> SyncStore:
        return SyncStore(make(*args, **kwargs))

    signature = inspect.signature(make)
    details = (make.__doc__ or "").partition("\n")[2].partition("Example:")[0].rstrip()
    details = details.replace("`async with`", "`with`")
    vars(open_sync)["__signature__"] = signature.replace(return_annotation="SyncStore")
    open_sync.__annotations__ = {**make.__annotations__, "return": "SyncStore"}
    open_sync.__qualname__ = "open_sync"
    summary = 'Open a store without async: `with sagas.open_sync("trips.db", [trip]) as store`.'
    open_sync.__doc__ = f"{summary}\n{details}"
    return open_sync


open_sync = _without_async(open)
"""The blocking version of `open`: the loop runs in its own thread."""
