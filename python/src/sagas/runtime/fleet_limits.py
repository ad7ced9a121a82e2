"""Concurrency and rate limits over all nodes.

A running attempt of a limited step holds a slot in the database. An attempt that gets no slot is
suspended, uses no slot of this program, and delays no other attempt.

A slot of `fleet_concurrency` belongs to its node until the call ends or the lease of the node
expires. A slot of `rate_limit` is taken until a point in time. Each statement lists the slots of
this node, takes more, and releases the others. So the next statement repairs a lost reply.
"""

from __future__ import annotations

import asyncio
import dataclasses
import hashlib
from collections import deque
from collections.abc import Callable, Coroutine

from sagas.base.errors import StoreUnavailable
from sagas.base.logger import logger
from sagas.core.shard.batch import Grant
from sagas.core.attempt.model import Attempt, SUSPENDED
from sagas.core.states import Action, Suspension
from sagas.definition.call_options import Bounds
from sagas.storage.interface import Database

LOOK = 1.0  # seconds between checks: a node that holds slots may stop without notice
MAX_LOOK = 30.0  # seconds between checks at most: the database's clock may jump
MAX_GATES = 1000
"""Number of gates at which unused ones are dropped."""
DOUBT = 25.0  # seconds after which a statement with a lost reply has ended


def digest_of(name: str, key: str) -> str:
    """Return the name of a limit's key in the database. Each step has its own names."""
    return hashlib.sha256(f"{name} {key}".encode("utf-8", "surrogatepass")).hexdigest()[:40]


@dataclasses.dataclass(frozen=True, slots=True)
class GateContext:
    """The parts of the program that gates use.

    Attributes:
        store: Its database.
        loop: Its event loop.
        spawn: Runs a coroutine as a task of the program.
        is_closed: Returns whether the program has closed the store.
    """

    store: Database
    loop: asyncio.AbstractEventLoop
    spawn: Callable[[Coroutine[None, None, None]], object]
    is_closed: Callable[[], bool]


class Gate:
    """The limit of a step, or of one key of it.

    It has the attempts that ask for a slot, those that wait, and the slots of this node.
    """

    def __init__(
        self,
        context: GateContext,
        name: str,
        key: str,
        bounds: Bounds,
        enter: Callable[[Attempt], None],
    ) -> None:
        self.name, self.bounds = name, bounds
        # the key comes from the input: it may be long, and must not be in a log or table
        self._limit_name = f"{name}/{digest_of(name, key)}" if key else name
        self._context, self._enter = context, enter
        self._asking: list[tuple[Attempt, asyncio.Future[bool]]] = []
        self._waiting: deque[Attempt] = deque()
        self._held_slots: dict[Attempt, int] = {}
        self._is_asking = self._has_released = self._was_notified = False
        self._resends = 0  # how often this node still has to send its slots again
        self._last_error = ""  # the last logged error
        self._timer: asyncio.TimerHandle | None = None

    def is_waited_for(self) -> bool:
        """Return whether attempts wait, so that a later one must wait after them."""
        while self._waiting and not self._still_waits(self._waiting[0]):
            self._waiting.popleft()
        return bool(self._waiting)

    def is_used(self) -> bool:
        """Return whether attempts ask, wait or hold a slot, or whether a reply was lost."""
        is_busy = self._asking or self._held_slots or self._is_asking or self._resends
        return bool(is_busy or self.is_waited_for())

    def _still_waits(self, attempt: Attempt) -> bool:
        return attempt.state is SUSPENDED and attempt.reason is Suspension.FLEET_LIMIT

    def hold(self, attempt: Attempt, first: bool = False) -> None:
        """Let an attempt wait without a slot. With `first`, it waits before all others."""
        attempt.limit(Suspension.FLEET_LIMIT)
        (self._waiting.appendleft if first else self._waiting.append)(attempt)

    async def ask(self, attempt: Attempt) -> bool:
        """Ask for a slot; return whether it was granted. A cancelled attempt gets none."""
        future: asyncio.Future[bool] = self._context.loop.create_future()
        self._asking.append((attempt, future))
        self._work()
        try:
            return await future
        except asyncio.CancelledError:
            self.leave(attempt)
            return False

    def leave(self, attempt: Attempt) -> None:
        """Release the slot of an attempt, whose call is over or will not start."""
        if self._held_slots.pop(attempt, None) is not None:
            self._has_released = True
            self._work()

    def look(self) -> None:
        """Ask again, because slots may be free."""
        self._was_notified = True
        if not self._is_asking:
            self._wake(1)

    # -- the database

    def _work(self) -> None:
        if not self._is_asking:
            self._is_asking = True
            self._context.spawn(self._ask())

    async def _ask(self) -> None:
        try:
            while self._asking or self._has_released:
                asking = [
                    (attempt, future) for attempt, future in self._asking if not future.done()
                ]
                has_released, self._asking, self._has_released, self._was_notified = (
                    self._has_released,
                    [],
                    False,
                    False,
                )
                try:
                    grant = await self._context.store.admit(
                        self._limit_name, self.bounds, len(asking), list(self._held_slots.values())
                    )
                except StoreUnavailable as error:
                    if str(error) != self._last_error:
                        self._last_error = str(error)
                        logger.warning(
                            "step %s waits, because its limits cannot be read: %s",
                            self.name,
                            error,
                        )
                    grant = Grant(0, [], LOOK)
                    for pause in (LOOK, DOUBT):
                        self._resends += 1
                        self._context.loop.call_later(pause, self._resend)
                if (
                    has_released and not self._context.store.supports_nodes
                ):  # if there are other nodes, the database notifies all of them
                    self._was_notified = True
                self._distribute(asking, grant)
        finally:
            self._is_asking = False

    def _resend(self) -> None:
        """Send the slots of this node again, because a reply was lost."""
        self._resends -= 1
        if not self._context.is_closed():
            self._has_released = True
            self._work()
            self.look()

    def _distribute(self, asking: list[tuple[Attempt, asyncio.Future[bool]]], grant: Grant) -> None:
        asking = [(attempt, future) for attempt, future in asking if not future.done()]
        slots = deque(grant.slots)
        for number, (attempt, future) in enumerate(asking):
            if number < grant.calls and slots:
                self._held_slots[attempt] = slots.popleft()
            future.set_result(number < grant.calls)
        if slots:  # of attempts that were cancelled in the meantime
            self._has_released = True
        if grant.calls and grant.calls >= len(asking):
            self._context.loop.call_soon(self._wake, 2 * grant.calls)
        elif asking or self._waiting:
            self._look_later(0.0 if self._was_notified else grant.pause)

    def _look_later(self, seconds: float) -> None:
        if self._timer:
            self._timer.cancel()
        self._timer = self._context.loop.call_later(max(0.01, min(MAX_LOOK, seconds)), self.look)

    def _wake(self, count: int) -> None:
        """Let the attempts that have waited longest ask for slots."""
        while count and self.is_waited_for() and not self._context.is_closed():
            attempt = self._waiting.popleft()
            count -= 1
            self._enter(attempt)
        if self._waiting:  # a woken attempt may never ask
            self._look_later(LOOK)


class Fleet:
    """The gates of a store's steps."""

    def __init__(self, context: GateContext, enter: Callable[[Attempt], None]) -> None:
        self._context, self._enter = context, enter
        self._gates: dict[tuple[str, str, str], Gate] = {}
        self._max_gates = MAX_GATES

    def gate(self, attempt: Attempt) -> Gate | None:
        """Return the limit of a step's function, or None. A compensation has none."""
        if not attempt.instance.kind.has_bounds:
            return None
        step = attempt.instance.kind.steps[attempt.step]
        if step is None or step.bounds is None or attempt.kind == Action.COMPENSATE:
            return None
        key = attempt.extras.limit_key if attempt.extras and step.bounds.is_keyed else None
        gate_key = *attempt.limit_name, key or ""
        gate = self._gates.get(gate_key)
        if gate is None:
            if len(self._gates) >= self._max_gates:
                self._drop()
            gate = self._gates[gate_key] = Gate(
                self._context, "/".join(gate_key[:2]), gate_key[2], step.bounds, self._enter
            )
        return gate

    def _drop(self) -> None:
        """Drop unused gates, because keys come and go."""
        self._gates = {gate_key: gate for gate_key, gate in self._gates.items() if gate.is_used()}
        self._max_gates = max(MAX_GATES, 2 * len(self._gates))

    def look(self) -> None:
        """Let gates ask again, because another node released slots."""
        for gate in self._gates.values():
            gate.look()
