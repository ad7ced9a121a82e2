"""Limits of clients: request rates, concurrent requests, event streams, and open sagas.

A client is a token, or without tokens an address.

Quotas of open sagas survive a restart: the store records which token started each saga. So other
services of the database are counted. Between two counts, this service adds its own starts.
"""

from __future__ import annotations

import asyncio
import dataclasses
import enum
import time
from collections import Counter, OrderedDict
from collections.abc import Awaitable, Callable

from sagas.base.errors import SagasError
from sagas.inspection import lists
from sagas.inspection.question import Question
from sagas.server.auth import Principal
from sagas.server.problems import Problem
from sagas.server.settings import ConcurrencySettings, Quota


class Rates:
    """Token buckets of clients: each fills at a rate, up to two seconds' worth and at least 1."""

    def __init__(self, rate: float, max_buckets: int = 10_000) -> None:
        self.rate, self.max_buckets, self._size = rate, max_buckets, max(1.0, 2 * rate)
        self._buckets: OrderedDict[str, tuple[float, float]] = OrderedDict()

    def take(self, name: str) -> bool:
        """Return whether one more request is within the rate."""
        now = time.monotonic()
        available, at = self._buckets.pop(name, (self._size, now))
        available = min(self._size, available + (now - at) * self.rate)
        self._buckets[name] = (available - 1 if available >= 1 else available), now
        if len(self._buckets) > self.max_buckets:
            self._buckets.popitem(last=False)
        return available >= 1


class RequestKind(enum.Enum):
    """The kinds of requests that are limited."""

    CONNECTION = "connections with an active request"
    WAIT = "requests that wait for a saga"
    CLAIM = "claims"


class ConcurrencyLimits:
    """The slots of all tokens, or without tokens of all addresses."""

    def __init__(self, settings: ConcurrencySettings) -> None:
        self._limits = {
            RequestKind.CONNECTION: settings.connections_of_token,
            RequestKind.WAIT: settings.waits,
            RequestKind.CLAIM: settings.claims,
        }
        self._taken: Counter[tuple[str, RequestKind]] = Counter()

    def has_room(self, client_key: str, kind: RequestKind) -> bool:
        """Return whether one more slot is free."""
        return self._taken[client_key, kind] < self._limits[kind]

    def take(self, client_key: str, kind: RequestKind) -> Callable[[], None]:
        """Take a slot. Returns a function that frees it, to be called once.

        Raises:
            Problem: The client has used up its slots.
        """
        if not self.has_room(client_key, kind):
            name = "TooManyConnections" if kind is RequestKind.CONNECTION else "TooManyWaits"
            why = f"your token has {self._limits[kind]} {kind.value}: retry when one has ended"
            raise Problem(name, why)
        key = client_key, kind
        self._taken[key] += 1

        def leave() -> None:
            self._taken[key] -= 1
            if self._taken[key] <= 0:
                del self._taken[key]

        return leave


class StreamLimits:
    """Limits of streams: `maximum` in total, `each` per client, `kept` for the dashboard alone."""

    def __init__(self, maximum: int, each: int, kept: int) -> None:
        self.maximum, self.each, self.kept = maximum, each, kept
        self._open: Counter[tuple[str, bool]] = Counter()

    def full(self, client_key: str, dashboard: bool) -> str | None:
        """Return why a client gets no further stream, or None."""
        if self._open[client_key, dashboard] >= self.each:
            return f"you have {self.each} event streams: close some"
        limit = self.maximum if dashboard else self.maximum - self.kept
        others = sum(count for (_, shown), count in self._open.items() if not shown)
        total = self._open.total()
        if total >= self.maximum or (not dashboard and others >= limit):
            return f"there are {limit} event streams: retry later"
        return None

    def take(self, client_key: str, dashboard: bool) -> Callable[[], None]:
        """Count one more stream. Returns a function that ends it."""
        key = client_key, dashboard
        self._open[key] += 1

        def leave() -> None:
            self._open[key] -= 1
            if self._open[key] <= 0:
                del self._open[key]

        return leave


# -- quotas


MAX_COUNT_AGE = 10.0
"""Seconds after which a new count starts in the background."""
COUNT_SHARE = 10
"""At most one part in this many of a service's time is spent on counts."""
NEVER = float("-inf")
MIN_COUNT_PAUSE = 0.05
"""Minimum seconds between two counts."""


@dataclasses.dataclass(eq=False, slots=True)
class PendingStart:
    """A start that is not in any count yet.

    Attributes:
        name: The name of the token.
        size: Bytes of its input, if known.
        done_at: When it was stored, or None.
    """

    name: str
    size: int
    done_at: float | None = None


class Quotas:
    """Admits starts."""

    def __init__(
        self,
        default: Quota,
        ask: Callable[[Question[lists.OpenByToken]], Awaitable[lists.OpenByToken]],
    ) -> None:
        self._default, self._ask = default, ask
        self._counted: lists.OpenByToken = {}
        self._began = self._next = NEVER
        self._counting: asyncio.Task[None] | None = None
        self._pending: dict[PendingStart, None] = {}
        self._added: dict[str, Quota] = {}  # what these are in all, by the names of tokens

    def of(self, principal: Principal) -> Quota:
        """Return the quota of a token."""
        sagas, size = principal.limits.open_sagas, principal.limits.open_bytes
        default = self._default
        return Quota(
            default.sagas if sagas is None else sagas, default.bytes if size is None else size
        )

    async def take(
        self, principal: Principal, size: int, is_there: Callable[[], Awaitable[bool]]
    ) -> PendingStart | None:
        """Admit a start. Returns None if its saga exists already: then it needs no quota.

        Args:
            principal: The owner of the token.
            size: Bytes of the input, if known.
            is_there: Returns whether the key has a saga.

        Raises:
            Problem: The quota is used up.
        """
        now, quota = time.monotonic(), self.of(principal)
        if now > self._began + MAX_COUNT_AGE:
            counting = self._begin()
            if self._began == NEVER:
                await asyncio.shield(counting)
        if self._left(principal.name, quota, size) < 0:
            while self._began < now:
                await self._count()
            if self._left(principal.name, quota, size) < 0:
                if await is_there():
                    return None
                raise Problem(
                    "QuotaExceeded",
                    f"{principal.name} may have {quota.sagas:,} open sagas with "
                    f"{quota.bytes:,} bytes of input in all: wait until some have ended",
                )
        start = PendingStart(principal.name, size)
        self._pending[start] = None
        self._add(start, 1)
        return start

    def _add(self, start: PendingStart, sign: int) -> None:
        sagas, total = self._added.get(start.name, (0, 0))
        self._added[start.name] = Quota(sagas + sign, total + sign * start.size)

    def done(self, start: PendingStart, is_new: bool) -> None:
        """Record that a start was answered, and whether it created a saga."""
        if is_new:
            start.done_at = time.monotonic()
        elif start in self._pending:
            del self._pending[start]
            self._add(start, -1)

    def _left(self, name: str, quota: Quota, size: int) -> int:
        """Return the remaining quota after one more start. A negative value means that it is
        exceeded.
        """
        sagas, total = self._counted.get(name, (0, 0))
        added = self._added.get(name, (0, 0))
        return min(quota.sagas - sagas - added[0] - 1, quota.bytes - total - added[1] - size)

    async def _count(self) -> None:
        """Wait for a count. A start that waits for the next count shares it with others."""
        if (pause := self._next - time.monotonic()) > 0 and self._counting is None:
            await asyncio.sleep(pause)
        await asyncio.shield(self._begin())

    def _begin(self) -> asyncio.Task[None]:
        if self._counting is None:
            self._counting = asyncio.get_running_loop().create_task(self._work())
        return self._counting

    async def _work(self) -> None:
        began = time.monotonic()
        try:
            self._counted = await self._ask(lists.open_by_token())
        except SagasError:
            return  # the start says that the store does not answer
        finally:
            self._counting = None
            ended = time.monotonic()
            self._next = ended + max(MIN_COUNT_PAUSE, COUNT_SHARE * (ended - began))
            self._began = began
        uncounted = [
            pending
            for pending in self._pending
            if pending.done_at is None or pending.done_at > began
        ]
        self._pending, self._added = dict.fromkeys(uncounted), {}
        for start in uncounted:
            self._add(start, 1)

    async def rest(self) -> None:
        """Wait until no count runs."""
        if self._counting is not None:
            await asyncio.wait([self._counting])
