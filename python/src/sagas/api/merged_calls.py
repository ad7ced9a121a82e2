"""The calls for many sagas of a store over several databases: merged, or made in each database."""

from __future__ import annotations

import builtins
import dataclasses
import datetime
import functools
from collections import defaultdict
from collections.abc import Awaitable, Callable
from typing import Any, TypeVar, cast

from sagas.api.database_set import DatabaseSet
from sagas.api.shared_calls import SharedCalls, definition_name
from sagas.base.errors import NoSuchNode, NoSuchPause, NoSuchSchedule, StoreUnavailable
from sagas.core import page_tokens
from sagas.core.attention import Attention
from sagas.core.database_map import DatabaseMap, routed_part
from sagas.core.decisions import DecisionEntry
from sagas.core.merged_lists import MergedList, merged, page_of
from sagas.core.nodes import NodeStatus
from sagas.core.pauses import Pause
from sagas.core.results import DefinitionCount, Summary
from sagas.definition import arguments, timing
from sagas.definition.labels import Labels, checked
from sagas.definition.saga import Saga
from sagas.definition.start_options import I, NO_INPUT
from sagas.definition.step import Step
from sagas.inspection import pages
from sagas.storage.batches import BatchResult
from sagas.storage.filters import Filter
from sagas.storage.schedules import Schedule

F = TypeVar("F", bound=Callable[..., Any])
T = TypeVar("T")
SAGAS, DECISIONS = "sagas", "decisions"
"""The kinds of lists that have pages."""


def routed(method: F) -> F:
    """Return a method that makes the call in the database that has the key.

    Args:
        method: The method of the store or client of one database. Its first argument is the key.
    """
    name = method.__name__

    @functools.wraps(method)
    async def call(self: Any, key: str, *args: Any, **kwargs: Any) -> Any:
        return await self._set.call(key, lambda member: getattr(member, name)(key, *args, **kwargs))

    return cast(F, call)


def of_all(method: F) -> F:
    """Return a method that makes the call in all databases, and adds the numbers that it returns.

    Args:
        method: The method of the store or client of one database.
    """
    name = method.__name__

    @functools.wraps(method)
    async def call(self: Any, *args: Any, **kwargs: Any) -> int:
        counts = await self._set.all(lambda member, _: getattr(member, name)(*args, **kwargs))
        return sum(counts.values())

    return cast(F, call)


class MergedCalls(SharedCalls):
    """The calls that stores and clients over several databases share."""

    _set: DatabaseSet[Any]

    # -- the databases

    @property
    def map(self) -> DatabaseMap:
        """The map of the store: its databases and generations.

        Raises:
            Closed: The store is not open.
        """
        return self._set.map

    @property
    def unavailable(self) -> dict[str, str]:
        """Why each database that cannot be used now cannot be used, by its name.

        Raises:
            Closed: The store is not open.
        """
        return self._set.unavailable

    async def database_of(self, key: str) -> str:
        """Return the URL of the database that has a key, or that a start of it goes to.

        Args:
            key: The saga's key.

        Raises:
            StoreUnavailable: The database does not answer.
            Closed: The store is closed.
        """
        position = await self._set.position(key)
        self._set.used(position)
        return self._set.urls[position]

    async def _of_each(
        self, work: Callable[[SharedCalls, int], Awaitable[T]]
    ) -> tuple[dict[int, T], dict[str, str]]:
        return await self._set.each(work)

    async def _of_all(self, work: Callable[[SharedCalls, int], Awaitable[T]]) -> dict[int, T]:
        return await self._set.all(work)

    # -- lists

    async def list(
        self,
        *,
        phase: str | None = None,
        saga: Saga[Any] | str | None = None,
        labels: Labels | None = None,
        after: Summary | int | str | None = None,
        limit: int = 100,
    ) -> MergedList[Summary]:
        """Return a page of sagas of all databases, the oldest first. See `Store.list`.

        Args:
            phase: As for `Store.list`.
            saga: As for `Store.list`.
            labels: As for `Store.list`.
            after: `next` of the previous page, or its last saga (default: from the start).
            limit: Maximum number of sagas (default: 100).

        Raises:
            ValueError: The phase, the limit or `after` is not valid.
            TypeError: `after` is neither a text nor a saga of a list.
        """
        pages.check(phase, None, limit)
        filter = Filter(phase, definition_name(saga), checked(labels))
        positions = self._after(after)

        async def page(member: SharedCalls, index: int) -> builtins.list[Summary]:
            rows = await member._answer(
                pages.page(of=filter, after=positions[index], newest=False, limit=limit)
            )
            name = self._set.names[index]
            return [dataclasses.replace(row, database=name) for row in rows]

        parts, missing = await self._of_each(page)
        return page_of(
            SAGAS,
            parts,
            lambda row: row.started,
            positions,
            lambda row: [row.started, row.id],
            limit,
            missing,
        )

    def _after(self, after: Summary | int | str | None) -> builtins.list[pages.Position]:
        """Return the position in each database after which a page begins."""
        names = self._set.names
        if after is None:
            return [None] * len(names)
        if isinstance(after, str):
            return page_tokens.positions_of(SAGAS, after, len(names), page_tokens.start_and_id)
        if not isinstance(after, Summary) or after.database not in names:
            raise TypeError(
                f"after={arguments.shown(after)}: must be `next` of the previous page, or its last "
                "saga"
            )
        index = names.index(after.database)
        ids = [page_tokens.MAX_ID] * index + [after.id] + [-1] * (len(names) - index - 1)
        return [(after.started, id) for id in ids]

    async def count(
        self,
        *,
        phase: str | None = None,
        saga: Saga[Any] | str | None = None,
        labels: Labels | None = None,
    ) -> int:
        """Return how many sagas there are, in all databases. See `Store.count`.

        The databases count at different moments.
        """
        options: dict[str, Any] = {"phase": phase, "saga": saga, "labels": labels}
        counts = await self._of_all(lambda member, _: member.count(**options))
        return sum(counts.values())

    async def definitions(self) -> MergedList[DefinitionCount]:
        """Return how many sagas there are of each version of each definition."""
        parts, missing = await self._of_each(lambda member, _: member.definitions())
        sums: dict[tuple[str, int], builtins.list[int]] = defaultdict(lambda: [0, 0, 0])
        for row in (row for part in parts.values() for row in part):
            total = sums[row.saga, row.version]
            total[:] = [total[0] + row.open, total[1] + row.total, total[2] + row.undoable]
        rows = [DefinitionCount(*name, *total) for name, total in sorted(sums.items())]
        return MergedList(rows, None, missing)

    async def attention(self, *, limit: int = 100) -> MergedList[Attention]:
        """Return what needs an operator, the oldest first. See `Store.attention`."""
        parts, missing = await self._of_each(lambda member, _: member.attention(limit=limit))
        return merged(parts, lambda row: row.since, missing, limit)

    async def pauses(self) -> MergedList[Pause]:
        """Return the pauses, the oldest first. See `Store.pauses`.

        A pause is in all databases, and listed once.
        """
        parts, missing = await self._of_each(lambda member, _: member.pauses())
        rows = sorted((row for part in parts.values() for row in part), key=lambda row: row.at)
        scopes = {(row.saga, row.step, row.queue): row for row in reversed(rows)}
        return MergedList(sorted(scopes.values(), key=lambda row: row.at), None, missing)

    async def nodes(self) -> MergedList[NodeStatus]:
        """Return the nodes of each database, by name.

        A program is a node of each of its databases, under one name.
        """

        async def listed(member: SharedCalls, index: int) -> builtins.list[NodeStatus]:
            name = self._set.names[index]
            return [dataclasses.replace(row, database=name) for row in await member.nodes()]

        parts, missing = await self._of_each(listed)
        return merged(parts, lambda row: row.name, missing)

    async def decisions(
        self,
        *,
        key: str | None = None,
        saga: Saga[Any] | str | None = None,
        decision: str | None = None,
        after: DecisionEntry | int | str | None = None,
        limit: int = 100,
    ) -> MergedList[DecisionEntry]:
        """Return a page of decisions, the newest first. See `Store.decisions`.

        Args:
            key: As for `Store.decisions`.
            saga: As for `Store.decisions`.
            decision: As for `Store.decisions`.
            after: `next` of the previous page (default: the first page).
            limit: Maximum number of entries (default: 100).

        Raises:
            TypeError: `after` is not a text.
            ValueError: `after` is not that of a page of this list.
        """
        if after is not None and not isinstance(after, str):
            raise TypeError(f"after={arguments.shown(after)}: must be `next` of the previous page")
        count = len(self._set.names)
        positions: builtins.list[Any] = [None] * count
        if after is not None:
            positions = page_tokens.positions_of(DECISIONS, after, count, page_tokens.number)
        options: dict[str, Any] = {"key": key, "saga": saga, "decision": decision, "limit": limit}
        parts, missing = await self._of_each(
            lambda member, index: member.decisions(**options, after=positions[index])
        )
        return page_of(
            DECISIONS,
            parts,
            lambda row: -row.at,
            positions,
            lambda row: row.number,
            limit,
            missing,
        )

    # -- commands for many sagas

    async def abort_all(
        self,
        *,
        saga: Saga[Any] | str | None = None,
        labels: Labels | None = None,
        by: str | None = None,
        note: str | None = None,
        timeout: float | None = None,
    ) -> BatchResult:
        """Abort every open saga of a filter, in all databases. See `Store.abort_all`.

        `unavailable` of the result has the databases that do not answer.
        """
        options: dict[str, Any] = {"saga": saga, "labels": labels, "by": by, "note": note}
        options["timeout"] = timeout
        return await self._batch(lambda member, _: member.abort_all(**options))

    async def resolve_all(
        self,
        note: str,
        *,
        saga: Saga[Any] | str | None = None,
        labels: Labels | None = None,
        by: str | None = None,
    ) -> BatchResult:
        """Mark every saga of a filter as resolved. See `Store.resolve_all`."""
        options: dict[str, Any] = {"saga": saga, "labels": labels, "by": by}
        return await self._batch(lambda member, _: member.resolve_all(note, **options))

    async def _batch(
        self, work: Callable[[SharedCalls, int], Awaitable[BatchResult]]
    ) -> BatchResult:
        parts, missing = await self._of_each(work)
        result = BatchResult(unavailable=missing)
        for _, part in sorted(parts.items()):
            result.done += part.done
            result.refused |= part.refused
            result.waiting += part.waiting
            result.undoing += part.undoing
        if parts and all(part.warnings for part in parts.values()):  # no database has the label
            result.warnings = next(iter(parts.values())).warnings
        return result

    # -- pauses and nodes

    async def pause(
        self,
        saga: Saga[Any] | str | None = None,
        step: Step[Any] | str | None = None,
        *,
        queue: str | None = None,
        note: str,
        by: str | None = None,
        forward_only: bool = False,
        refuse_starts: bool = False,
    ) -> None:
        """Start no more attempts of a scope, in all databases. See `Store.pause`.

        Raises:
            StoreUnavailable: A database does not answer. The others have the pause: repeat it.
        """
        options: dict[str, Any] = {"queue": queue, "note": note, "by": by}
        options |= {"forward_only": forward_only, "refuse_starts": refuse_starts}
        await self._in_some(lambda member: member.pause(saga, step, **options), ValueError)

    async def resume(
        self,
        saga: Saga[Any] | str | None = None,
        step: Step[Any] | str | None = None,
        *,
        queue: str | None = None,
        by: str | None = None,
    ) -> None:
        """End a pause in all databases. See `Store.resume`."""
        await self._in_some(
            lambda member: member.resume(saga, step, queue=queue, by=by), NoSuchPause
        )

    async def drain(self, node: str, *, note: str, by: str | None = None) -> None:
        """Have a node take no more shards, in all databases. See `Store.drain`."""
        await self._in_some(lambda member: member.drain(node, note=note, by=by), NoSuchNode)

    async def undrain(self, node: str, *, note: str | None = None, by: str | None = None) -> None:
        """Have a drained node take shards again, in all databases. See `Store.undrain`."""
        await self._in_some(lambda member: member.undrain(node, note=note, by=by), NoSuchNode)

    async def _in_some(
        self, work: Callable[[SharedCalls], Awaitable[None]], unknown: type[Exception]
    ) -> None:
        """Make a call in all databases; `unknown` is raised only if all raise it."""
        done, errors, missing = await self._known_in(work, unknown)
        if errors and not done:
            raise errors[0]
        if missing:
            raise StoreUnavailable("; ".join(missing.values()))

    async def _in_one(
        self, work: Callable[[SharedCalls], Awaitable[None]], unknown: type[Exception]
    ) -> None:
        """Make a call in the database that has the subject. It may be any, during `map add`."""
        done, errors, missing = await self._known_in(work, unknown)
        if done:
            return
        if missing:
            raise StoreUnavailable("; ".join(missing.values()))
        raise errors[0]

    async def _known_in(
        self, work: Callable[[SharedCalls], Awaitable[None]], unknown: type[Exception]
    ) -> tuple[int, builtins.list[Exception], dict[str, str]]:
        """Make a call in all databases.

        Returns how many have made it, the errors of those that do not know the subject, and why
        the others have not answered.
        """
        errors: builtins.list[Exception] = []

        async def call(member: SharedCalls, _: int) -> None:
            try:
                await work(member)
            except unknown as error:
                errors.append(error)

        values, missing = await self._of_each(call)
        return len(values) - len(errors), errors, missing

    # -- schedules

    async def schedule(
        self,
        name: str,
        saga: Saga[I],
        input: I = NO_INPUT,
        *,
        cron: str | None = None,
        every: datetime.timedelta | None = None,
        timezone: str = "UTC",
        catch_up: str = "last",
        max: int = timing.MAX_MISSED,
        overlap: str = "allow",
        labels: Labels | None = None,
    ) -> None:
        """Start a saga at certain times. See `Store.schedule`.

        The schedule and its sagas are in the database of its name.
        """
        timing.check_name(name)
        options: dict[str, Any] = {"cron": cron, "every": every, "timezone": timezone}
        options |= {"catch_up": catch_up, "max": max, "overlap": overlap, "labels": labels}
        member = self._set.used(self._set.map.positions(routed_part(name))[0])
        await member.schedule(name, saga, input, **options)

    async def schedules(self) -> MergedList[Schedule]:
        """Return the schedules of all databases, by name."""
        parts, missing = await self._of_each(lambda member, _: member.schedules())
        return merged(parts, lambda row: row.name, missing)

    async def pause_schedule(self, name: str) -> None:
        """Start no more sagas of a schedule. See `Store.pause_schedule`."""
        await self._in_one(lambda member: member.pause_schedule(name), NoSuchSchedule)

    async def resume_schedule(self, name: str) -> None:
        """Start sagas of a paused schedule again. See `Store.resume_schedule`."""
        await self._in_one(lambda member: member.resume_schedule(name), NoSuchSchedule)

    async def remove_schedule(self, name: str) -> None:
        """Delete a schedule. Its sagas stay. See `Store.remove_schedule`."""
        await self._in_one(lambda member: member.remove_schedule(name), NoSuchSchedule)
