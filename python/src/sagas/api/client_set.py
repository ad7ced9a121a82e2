"""A client of a store over several databases."""

from __future__ import annotations

import builtins
import os
from collections.abc import Sequence
from typing import Any

from sagas.api.client import Client, ClientRun
from sagas.api.database_set import DatabaseSet, checked_direct, checked_urls, numbered
from sagas.api.merged_calls import MergedCalls, of_all, routed
from sagas.definition import arguments
from sagas.definition.labels import Labels
from sagas.definition.payloads import BlobStore, Codec
from sagas.definition.saga import Saga
from sagas.definition.saga_result import SagaResult
from sagas.definition.start_options import Deadline, I, NO_INPUT


class ClientSet(MergedCalls, Client):
    """Start and inspect sagas of several databases. Made by `Client([...])`.

    Each call goes to the database that has the key. Lists are merged.
    """

    def __init__(
        self,
        url: Sequence[str],
        *,
        connections: int = 4,
        codec: Codec | None = None,
        blobs: BlobStore | None = None,
        record: str | os.PathLike[str] | None = None,
        direct_url: Sequence[str] | None = None,
    ) -> None:
        """Make a client, to be entered by `async with`. See `Client`.

        Args:
            url: The URL of each database, in the order of the map.
            connections: Maximum number of concurrent statements in each database (default: 4).
            codec: As for `Client`.
            blobs: As for `Client`.
            record: As for `Client`. Each database has its own file: the name with its number.
            direct_url: The URL of each server, as for `Client`.
        """
        urls = checked_urls(url)
        direct = checked_direct(direct_url, len(urls))
        members = []
        for index, (name, server) in enumerate(zip(urls, direct)):
            options: dict[str, Any] = {"codec": codec, "blobs": blobs, "direct_url": server}
            record_file = numbered(record, index)
            member = Client(name, connections=connections, record=record_file, **options)
            member._is_member = True
            members.append(member)
        self._set: DatabaseSet[Client] = DatabaseSet(urls, members, direct)
        self.path = ", ".join(self._set.names)

    @property
    def codec(self) -> Codec | None:
        """The codec of values, or None."""
        return self._set.members[0].codec

    async def __aenter__(self) -> ClientSet:
        """Connect to each database that answers, and check the map.

        Raises:
            InvalidStore: The databases are not those of the store, or have another order. Or the
                store has no map yet.
            StoreUnavailable: No database answers.
        """
        await self._set.open(is_node=False)
        return self

    async def close(self) -> None:
        """Close the connections."""
        await self._set.close()

    async def _client_of(self, key: str) -> Client:
        return await self._set.of(key)

    async def start(
        self,
        saga: Saga[I],
        key: str,
        input: I = NO_INPUT,
        *,
        labels: Labels | None = None,
        deadline: Deadline | None = None,
        traceparent: str | None = None,
        connection: object | None = None,
    ) -> ClientRun:
        """Start a saga in the database of its key, or return the one with this key.

        See `Client.start`.

        Args:
            connection: A connection to the database of the key: see `database_of`.
        """
        options: dict[str, Any] = {"labels": labels, "deadline": deadline}
        options |= {"traceparent": traceparent, "connection": connection}
        arguments.key(key)
        return await self._set.call(key, lambda member: member.start(saga, key, input, **options))

    async def get(self, key: str) -> ClientRun | None:
        """Return the saga with this key, or None. See `Client.get`."""
        run = await self._set.call(key, lambda member: member.get(key))
        if run is None and await self._set.refresh():
            run = await self._set.call(key, lambda member: member.get(key))
        return run

    async def wait(self, key: str, timeout: float | None = None) -> SagaResult:
        """Wait until a saga has ended. See `Client.wait`."""
        return await self._set.call(key, lambda member: member.wait(key, timeout))

    async def _wait(self, key: str, request: dict[str, Any] | None) -> SagaResult:
        return await self._set.call(key, lambda member: member._wait(key, request))

    async def restart(
        self, key: str, new_key: str, *, by: str | None = None, note: str | None = None
    ) -> ClientRun:
        """Start an ended saga again, under a new key. See `Client.restart`."""
        arguments.key(new_key)
        is_new = await self.get(new_key) is None
        await self._set.call(key, lambda member: member._request_restart(key, new_key, by, note))
        return ClientRun(await self._set.of(new_key), new_key, None, is_new)

    async def waits_for(self, key: str) -> builtins.list[str]:
        """Return what a saga waits for. See `Client.waits_for`."""
        return await self._set.call(key, lambda member: member.waits_for(key))

    abort = routed(Client.abort)
    complete = routed(Client.complete)
    fail = routed(Client.fail)
    retry = routed(Client.retry)
    compensate = routed(Client.compensate)
    resolve = routed(Client.resolve)
    erase = routed(Client.erase)
    plan = routed(Client.plan)
    log = routed(Client.log)
    retry_all = of_all(Client.retry_all)
    complete_all = of_all(Client.complete_all)
    fail_all = of_all(Client.fail_all)
