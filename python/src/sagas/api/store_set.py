"""A store over several databases: a store of each, with one set of calls."""

from __future__ import annotations

import asyncio
import builtins
from collections.abc import Coroutine, Iterable, Sequence
from typing import Any

from sagas.api.database_set import DatabaseSet, checked_direct, checked_urls, numbered
from sagas.api.merged_calls import MergedCalls, of_all, routed
from sagas.api.restarts import Restarts
from sagas.api.run import Run
from sagas.api.store import Store
from sagas.api.worker_set import WorkerSet
from sagas.base.errors import InvalidStore, StoreUnavailable
from sagas.core.results import ActiveAttempt
from sagas.definition import arguments
from sagas.definition.call_options import Seconds
from sagas.definition.labels import Labels
from sagas.definition.payloads import Codec, Payloads
from sagas.definition.saga import Saga
from sagas.definition.saga_result import SagaResult
from sagas.definition.start_options import Deadline, I, NO_INPUT


class StoreSet(MergedCalls, Store):
    """Hold an open store over several databases. Made by `sagas.open([...])`.

    A saga lives in one database, with its children. Each call goes to the database that has the
    key, and lists are merged. The program is a node of each database: limits, and the arguments of
    `sagas.open`, hold for each.

    Attributes:
        workers: The tasks for workers, of all databases.
    """

    def __init__(self, path: Sequence[str], sagas: Iterable[Saga[Any]], **options: Any) -> None:
        urls, declared = checked_urls(path), [*sagas]
        direct = checked_direct(options.pop("direct_url"), len(urls))
        record = options.pop("record")
        members = []
        for index, (url, server) in enumerate(zip(urls, direct)):
            of_server: dict[str, Any] = {"direct_url": server, "record": numbered(record, index)}
            member = Store(url, declared, **options, **of_server)
            members.append(member)
        self._compose(DatabaseSet(urls, members, direct))

    @classmethod
    def over(
        cls, urls: Sequence[str], stores: Sequence[Store], direct: Sequence[str | None]
    ) -> StoreSet:
        """Return a set of stores that the caller has made. They are not open.

        Args:
            urls: The URL of each database, in the order of the map.
            stores: The store of each.
            direct: The URL of each server, as of `DatabaseSet`.
        """
        result = cls.__new__(cls)
        result._compose(DatabaseSet(urls, stores, direct))
        return result

    def _compose(self, databases: DatabaseSet[Store]) -> None:
        self._set: DatabaseSet[Store] = databases
        self._is_leased = False
        self._refused: asyncio.Future[InvalidStore] | None = None
        self.workers = WorkerSet(databases)
        databases.joined = self._watch_refusal
        for member in databases.members:
            member._server_options["is_member"] = True
            member._restarts.route = self._restarts_of

    @property
    def path(self) -> str:
        """The databases, without passwords."""
        return ", ".join(self._set.names)

    @property
    def stores(self) -> builtins.list[Store]:
        """The store of each database, in the order of the map."""
        return [*self._set.members]

    @property
    def leased(self) -> bool:
        """Whether workers claim the tasks of external steps. See `Store`."""
        return self._is_leased

    @leased.setter
    def leased(self, value: bool) -> None:
        self._is_leased = value
        for store in self._set.members:
            store.leased = value

    @property
    def sagas(self) -> builtins.list[Saga[Any]]:
        """The definitions that the store was opened with."""
        return self._set.members[0].sagas

    @property
    def codec(self) -> Codec | None:
        """The codec of values, or None."""
        return self._set.members[0].codec

    async def _restarts_of(self, key: str) -> Restarts:
        return (await self._set.of(key))._restarts

    async def _store_of(self, key: str) -> Store:
        return await self._set.of(key)

    # -- life

    async def __aenter__(self) -> StoreSet:
        """Open the store of each database that answers. Others are opened when they answer.

        Raises:
            InvalidStore: The databases are not those of the store, or have another order.
            StoreUnavailable: No database answers. Or the databases have no map yet, and one does
                not answer.
        """
        self._refused = asyncio.get_running_loop().create_future()
        await self._set.open(is_node=True)
        return self

    async def close(self, shutdown_timeout: Seconds | None = None) -> None:
        """Close the store of each database. See `Store.close`."""
        if shutdown_timeout is not None:
            arguments.time("shutdown_timeout", shutdown_timeout)
        await self._set.close(lambda member: member.close(shutdown_timeout))

    @property
    def _is_over(self) -> bool:
        return all(store._is_over for store in self._set.members)

    @property
    def _refusal(self) -> asyncio.Future[InvalidStore]:
        """Done, with the reason, when one database can no longer be used."""
        self._set.map  # raises if the store is closed
        assert self._refused is not None
        return self._refused

    def _watch_refusal(self, member: Store) -> None:
        """Have the refusal of a database be that of the store."""
        result = self._refused

        def refuse(refusal: asyncio.Future[InvalidStore]) -> None:
            if result is not None and not refusal.cancelled() and not result.done():
                result.set_result(refusal.result())

        member._refusal.add_done_callback(refuse)

    # -- sagas

    async def start(
        self,
        saga: Saga[I],
        key: str,
        input: I = NO_INPUT,
        *,
        labels: Labels | None = None,
        deadline: Deadline | None = None,
        traceparent: str | None = None,
        connection: object | None = None,
    ) -> Run:
        """Start a saga in the database of its key, or return the one with this key.

        See `Store.start`.

        Args:
            connection: A connection to the database of the key: see `database_of`.
        """
        options: dict[str, Any] = {"labels": labels, "deadline": deadline}
        options |= {"traceparent": traceparent, "connection": connection}
        arguments.key(key)
        return await self._set.call(key, lambda member: member.start(saga, key, input, **options))

    async def _start(self, token: str | None, saga: Saga[Any], key: str, *options: Any) -> Run:
        arguments.key(key)
        return await self._set.call(key, lambda member: member._start(token, saga, key, *options))

    async def restart(
        self, key: str, new_key: str, *, by: str | None = None, note: str | None = None
    ) -> Run:
        """Start an ended saga again, in the database of the new key. See `Store.restart`."""
        return await super().restart(key, new_key, by=by, note=note)

    async def _restart(
        self, token: str | None, key: str, new_key: str, by: str | None, note: str | None
    ) -> Run:
        run = await self._set.call(
            key, lambda member: member._restart(token, key, new_key, by, note)
        )
        return Run(await self._set.of(new_key), new_key, run.new)

    async def get(self, key: str) -> Run | None:
        """Return the saga with this key; None if no node has started one. See `Store.get`."""
        run = await self._set.call(key, lambda member: member.get(key))
        if run is None and await self._set.refresh():
            run = await self._set.call(key, lambda member: member.get(key))
        return run

    async def wait(self, key: str, timeout: float | None = None) -> SagaResult:
        """Wait until a saga has ended. See `Store.wait`."""
        return await self._set.call(key, lambda member: member.wait(key, timeout))

    def _until_ended(self, key: str) -> Coroutine[Any, Any, SagaResult]:
        return self._set.call(key, lambda member: member._until_ended(key))

    async def wait_idle(self) -> None:
        """Wait until no saga is open in any database. See `Store.wait_idle`."""
        await self._set.all(lambda member, _: member.wait_idle())

    async def _until_idle(self) -> None:
        await self._set.all(lambda member, _: member._until_idle())

    async def audit(self) -> dict[str, str]:
        """Audit every shard of each database. See `Store.audit`.

        Raises:
            StoreUnavailable: A database does not answer.
        """
        verdicts = await self._set.all(lambda member, _: member.audit())
        return {name: verdict for part in verdicts.values() for name, verdict in part.items()}

    def active_attempts(self, key: str) -> builtins.list[ActiveAttempt]:
        """Return the attempts of a saga that have started. See `Store.active_attempts`."""
        for member in self._set.opened():
            if attempts := member.active_attempts(key):
                return attempts
        self._set.map  # raises if the store is closed
        return []

    def _now(self) -> float:
        return self._first._now()

    def _stored(self) -> Payloads:
        return self._first._stored()

    def _declared(self) -> dict[str, builtins.list[str]]:
        return self._first._declared()

    @property
    def _first(self) -> Store:
        """The store of a database that is open, for what is the same in all."""
        if not (members := self._set.opened()):
            self._set.map  # raises if the store is closed
            raise StoreUnavailable("; ".join(self._set.unavailable.values()))
        return members[0]

    abort = routed(Store.abort)
    complete = routed(Store.complete)
    fail = routed(Store.fail)
    retry = routed(Store.retry)
    compensate = routed(Store.compensate)
    resolve = routed(Store.resolve)
    erase = routed(Store.erase)
    plan = routed(Store.plan)
    log = routed(Store.log)
    draw = routed(Store.draw)
    waits_for = routed(Store.waits_for)
    retry_all = of_all(Store.retry_all)
    complete_all = of_all(Store.complete_all)
    fail_all = of_all(Store.fail_all)
