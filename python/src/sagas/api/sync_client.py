"""The client for programs without async code."""

from __future__ import annotations

import os
from collections.abc import Sequence
from types import TracebackType
from typing import TYPE_CHECKING, Any

from sagas.api import client_start
from sagas.api.client import Client, ClientRun
from sagas.api.loop_thread import Facade, Loop, blocking
from sagas.definition import arguments
from sagas.definition.saga_result import SagaResult
from sagas.definition.payloads import BlobStore, Codec
from sagas.definition.labels import Labels
from sagas.definition.saga import Saga
from sagas.definition.start_options import Deadline, I, NO_INPUT


class SyncClientRun(Facade[ClientRun]):
    """Follow a saga that a client started, or found by its key. Made by `SyncClient`.

    Attributes:
        key: The saga's key.
        new: As for `ClientRun`.
    """

    def __init__(self, owner: SyncClient, run: ClientRun) -> None:
        super().__init__(run, owner._loop)
        self._client, self.key, self.new = owner, run.key, run.new

    def wait(self, timeout: float | None = None) -> SagaResult:
        """Wait until the saga has ended. See `ClientRun.wait`."""
        inner = self._client._inner
        return self._loop.in_time(
            self.key, self._inner.wait(), timeout, lambda: inner.waits_for(self.key)
        )

    abort = blocking(ClientRun.abort)
    complete = blocking(ClientRun.complete)
    fail = blocking(ClientRun.fail)
    plan = blocking(ClientRun.plan)
    log = blocking(ClientRun.log)

    def __repr__(self) -> str:
        return f"<run {self.key!r}>"


class SyncClient(Facade[Client]):
    """Start and inspect sagas of a PostgreSQL store, without async.

    Use it by `with sagas.SyncClient("postgresql://...") as client`. Its calls are those of
    `Client`, from any thread.
    """

    def __init__(
        self,
        url: str | Sequence[str],
        *,
        connections: int = 4,
        codec: Codec | None = None,
        blobs: BlobStore | None = None,
        record: str | os.PathLike[str] | None = None,
        direct_url: str | Sequence[str] | None = None,
    ) -> None:
        """Make a client, to be entered by `with`. See `Client`."""
        client = Client(
            url,
            connections=connections,
            codec=codec,
            blobs=blobs,
            record=record,
            direct_url=direct_url,
        )
        remedy = "is not open. Use `with sagas.SyncClient(...) as client`"
        super().__init__(client, Loop(client.path, "the client", remedy))

    @property
    def codec(self) -> Codec | None:
        """The codec of values, or None."""
        return self._inner.codec

    def __enter__(self) -> SyncClient:
        self._loop.start()
        try:
            self._loop.do(self._inner.__aenter__())
        except BaseException:
            self._loop.end()
            raise
        return self

    if not TYPE_CHECKING:  # a type checker reports that itself

        async def __aenter__(self) -> SyncClient:
            raise TypeError(
                "a sagas.SyncClient needs `with`. With async, use `async with sagas.Client(...)`"
            )

        async def __aexit__(self, *_: object) -> None:
            ...

    def __exit__(
        self,
        kind: type[BaseException] | None,
        error: BaseException | None,
        trace: TracebackType | None,
    ) -> None:
        self.close()

    def close(self) -> None:
        """Close the connections."""
        if self._loop.runs:
            try:
                self._loop.do(self._inner.close())
            finally:
                self._loop.end()

    def start(
        self,
        saga: Saga[I],
        key: str,
        input: I = NO_INPUT,
        *,
        labels: Labels | None = None,
        deadline: Deadline | None = None,
        traceparent: str | None = None,
        connection: object | None = None,
    ) -> SyncClientRun:
        """Start a saga, or return the one with this key. See `Client.start`.

        Args:
            connection: A connection to the same database, with an open transaction: a
                `psycopg.Connection`, a connection of psycopg2, SQLAlchemy's `Connection` or
                `Session`, or Django's `connection`. It is used in this thread.

        Raises:
            ValueError: The connection has no open transaction, or is to another database.
            TypeError: The connection is of another kind, for example one of an event loop.
        """
        if connection is None:
            options: dict[str, Any] = {"deadline": deadline, "traceparent": traceparent}
            start = self._inner.start(saga, key, input, labels=labels, **options)
            return SyncClientRun(self, self._loop.do(start))
        arguments.key(key)
        inner = self._loop.do(self._inner._client_of(key))
        starter = inner._starter
        adapter = starter.take_blocking(connection, "sagas.SyncClient")
        request = starter.start_request(saga, key, input, labels, deadline, traceparent)
        if (check := client_start.shape_check(saga, input)) is not None:
            check()
        new = starter.start_now(request, adapter, self._loop.do)
        return SyncClientRun(self, ClientRun(inner, key, request, new))

    def restart(
        self, key: str, new_key: str, *, by: str | None = None, note: str | None = None
    ) -> SyncClientRun:
        """Start an ended saga again, under a new key. See `Client.restart`."""
        return SyncClientRun(
            self, self._loop.do(self._inner.restart(key, new_key, by=by, note=note))
        )

    def get(self, key: str) -> SyncClientRun | None:
        """Return the saga with this key, or None. See `Client.get`."""
        run = self._loop.do(self._inner.get(key))
        return SyncClientRun(self, run) if run else None

    def wait(self, key: str, timeout: float | None = None) -> SagaResult:
        """Wait until a saga has ended. See `Client.wait`."""
        return self._loop.in_time(
            key, self._inner.wait(key), timeout, lambda: self._inner.waits_for(key)
        )

    abort = blocking(Client.abort)
    complete = blocking(Client.complete)
    retry = blocking(Client.retry)
    fail = blocking(Client.fail)
    compensate = blocking(Client.compensate)
    resolve = blocking(Client.resolve)
    retry_all = blocking(Client.retry_all)
    complete_all = blocking(Client.complete_all)
    fail_all = blocking(Client.fail_all)
    abort_all = blocking(Client.abort_all)
    resolve_all = blocking(Client.resolve_all)
    schedule = blocking(Client.schedule)
    schedules = blocking(Client.schedules)
    erase = blocking(Client.erase)
    pause = blocking(Client.pause)
    resume = blocking(Client.resume)
    pauses = blocking(Client.pauses)
    nodes = blocking(Client.nodes)
    drain = blocking(Client.drain)
    undrain = blocking(Client.undrain)
    decisions = blocking(Client.decisions)
    pause_schedule = blocking(Client.pause_schedule)
    resume_schedule = blocking(Client.resume_schedule)
    remove_schedule = blocking(Client.remove_schedule)
    list = blocking(Client.list)
    count = blocking(Client.count)
    definitions = blocking(Client.definitions)
    attention = blocking(Client.attention)
    plan = blocking(Client.plan)
    log = blocking(Client.log)
    waits_for = blocking(Client.waits_for)
    database_of = blocking(Client.database_of)
