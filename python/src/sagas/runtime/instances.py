"""The open sagas of this program: by key, with the callers that wait and with their deadlines.

A start whose key is used is the same saga, or a conflict.
"""

from __future__ import annotations

import asyncio
import heapq
import itertools
import math
from collections.abc import Callable
from typing import TYPE_CHECKING, Generic, TypeVar

from sagas.base.errors import KeyConflict, SagasError
from sagas.base.events import EventEmitter
from sagas.core.effects import Abort
from sagas.core.attempt.instance import SagaInstance
from sagas.definition import type_checks
from sagas.definition.payloads import PLAIN, Payloads, Reference
from sagas.definition.compiled import CompiledDefinition
from sagas.definition.declaration import input_types
from sagas.definition.erasure import erasure_of
from sagas.definition.input_types import InputTypes
from sagas.definition.start_options import StartOptions
from sagas.storage.interface import Database

if TYPE_CHECKING:
    from sagas.definition.parts import SagaParts

K = TypeVar("K")
MANY = 64
"""After each such number of callers of an event, cancelled ones are dropped."""
MAX_ENTRIES = 1000
"""Number of deadlines at which those of ended sagas are dropped."""
INPUT = "SELECT input FROM sagas WHERE key = ?"


class Waiters(Generic[K]):
    """Callers that wait for one kind of event, by its subject.

    Attributes:
        futures: The futures of the callers. Only this class changes them.
        before_notify: If set, called before callers are notified of success.
    """

    def __init__(self, loop: asyncio.AbstractEventLoop) -> None:
        self._loop = loop
        self.futures: dict[K, list[asyncio.Future[None]]] = {}
        self.before_notify: Callable[[K], object] | None = None

    def __contains__(self, key: K) -> bool:
        return key in self.futures

    def wait(self, key: K) -> asyncio.Future[None]:
        """Return a future that is done when the event happens."""
        future = self._loop.create_future()
        waiting = self.futures.setdefault(key, [])
        waiting.append(future)
        if len(waiting) % MANY == 0:
            waiting[:] = [waiter for waiter in waiting if not waiter.done()]
        return future

    def notify(self, key: K, error: Exception | None = None) -> bool:
        """Notify the callers of success, or of an error; return whether there were any."""
        if not self.futures:
            return False
        waiting = self.futures.pop(key, ())
        if waiting and error is None and self.before_notify:
            self.before_notify(key)
        for future in waiting:
            if not future.done():
                if error is None:
                    future.set_result(None)
                else:
                    future.set_exception(error)
                    future.exception()  # the caller may have been cancelled
        return bool(waiting)

    def move(self, before: K, after: K) -> None:
        """Move the callers of one subject to another."""
        if waiting := self.futures.pop(before, None):
            self.futures.setdefault(after, []).extend(waiting)


class Instances:
    """The sagas that this program executes, or is about to.

    Attributes:
        by_key: The sagas.
        starts: Callers that wait until a saga is stored.
        ends: Callers that wait until the end of a saga is stored.
        on_executed: Called with each saga that is stored and executed here.
        on_unused_report: Called when a saga has ended without using an accepted report.
        due_ends: The keys of sagas that have ended, and whose `on_end` calls this program is about
            to start, by their ids.
        on_end_due: Called when there is one more.
        before_abort_answer: If set, called before a caller is notified of the outcome of an abort.
    """

    def __init__(self, loop: asyncio.AbstractEventLoop) -> None:
        self.by_key: dict[str, SagaInstance] = {}
        self.starts: Waiters[SagaInstance] = Waiters(loop)
        self.ends: Waiters[SagaInstance] = Waiters(loop)
        self.on_executed: Callable[[SagaInstance], None] = lambda saga: None
        self.on_unused_report: Callable[[], None] = lambda: None
        self.on_end_due: Callable[[], None] = lambda: None
        self.due_ends: dict[int, str] = {}
        self.before_abort_answer: Callable[[Abort], object] | None = None
        self._loop = loop
        self._aborts: dict[Abort, asyncio.Future[bool]] = {}
        self._has_notified = False
        self._empty = asyncio.Event()
        self._left: SagasError | None = None  # why open sagas are not executed any more

    def add(
        self, key: str, text: str, kind: CompiledDefinition, options: StartOptions
    ) -> SagaInstance:
        """Add a saga, which has its key from now on.

        Its index in the definitions is set when it is assigned to a shard.
        """
        saga = self.by_key[key] = SagaInstance(key, text, kind, -1, options)
        return saga

    def replace(self, before: SagaInstance, saga: SagaInstance) -> None:
        """Replace a saga by the stored one of its key, for all callers that wait."""
        self.by_key[saga.key] = saga
        self.starts.move(before, saga)
        self.ends.move(before, saga)

    def remove(self, saga: SagaInstance) -> None:
        """Remove a saga that this program no longer executes."""
        if self.by_key.get(saga.key) is saga:
            del self.by_key[saga.key]
        self._check_empty()

    def _check_empty(self) -> None:
        if not self.by_key and not self.due_ends:
            self._empty.set()

    @property
    def are_open(self) -> bool:
        """Whether there are open sagas, or ends whose `on_end` calls are not started."""
        return bool(self.by_key or self.due_ends)

    def leave(
        self, saga: SagaInstance, at_start: SagasError | None, at_end: SagasError | None
    ) -> None:
        """Remove a saga, and notify the callers that wait for its start or its end."""
        self.remove(saga)
        self.starts.notify(saga, at_start)
        self.ends.notify(saga, at_end)

    def started(self, saga: SagaInstance) -> asyncio.Future[None]:
        """Return a future that is done once a saga is stored."""
        future = self.starts.wait(saga)
        if saga.committed:
            self.starts.notify(saga)
        return future

    def notify_started(self, saga: SagaInstance) -> None:
        """Notify callers that a saga is stored."""
        self.on_executed(saga)
        self._has_notified = self.starts.notify(saga) or self._has_notified

    def notify_ended(self, saga: SagaInstance) -> None:
        """Notify callers that the end of a saga is stored."""
        if saga.kind.calls_end:
            self.due_ends[saga.id] = saga.key
            self.on_end_due()
        self.remove(saga)
        self._has_notified = self.ends.notify(saga) or self._has_notified

    def end_call_left(self, id: int) -> None:
        """Note that an `on_end` call is started, or that this program cannot start it."""
        self.due_ends.pop(id, None)
        self._check_empty()

    # -- aborts

    def aborted(self, abort: Abort) -> asyncio.Future[bool]:
        """Return a future of whether this command aborts the saga."""
        future = self._aborts[abort] = self._loop.create_future()
        return future

    def answer_abort(self, abort: Abort) -> None:
        """Notify the caller whether the saga is aborted by its command."""
        future = self._aborts.pop(abort, None)
        if future and not future.done():
            if self.before_abort_answer:
                self.before_abort_answer(abort)
            future.set_result(bool(abort.done))

    def fail_abort(self, abort: Abort, error: SagasError) -> None:
        """Raise an error in the caller of an abort, because its outcome is unknown."""
        future = self._aborts.pop(abort, None)
        if future and not future.done():
            future.set_exception(error)

    def fail_aborts(self, error: SagasError) -> None:
        """Raise an error in the callers of all aborts."""
        for abort in list(self._aborts):
            self.fail_abort(abort, error)

    # -- turns

    def must_yield(self) -> bool:
        """Return whether callers were notified since the last call.

        They get their turn before further functions are called.
        """
        has_notified, self._has_notified = self._has_notified, False
        return has_notified

    async def emptied(self) -> None:
        """Wait until the last saga is gone. Raises the error of `close`."""
        if self.are_open:
            self._empty.clear()
            await self._empty.wait()
            if self._left:
                raise self._left

    def close(self, error: SagasError) -> None:
        """Raise an error in callers that wait in `emptied`, if sagas are still open."""
        if self.are_open:
            self._left = error
            self._empty.set()


class Deadlines:
    """The deadlines of the open sagas of this program, the next one first.

    They are stored with their sagas, so each node that executes a saga knows its deadline.

    Attributes:
        next_at: Wall time of the next one; infinite if there is none.
    """

    def __init__(
        self,
        sagas: Instances,
        abort: Callable[[SagaInstance], asyncio.Future[bool]],
        teller: EventEmitter,
        clock: Callable[[], float],
    ) -> None:
        self._sagas, self._abort, self._teller, self._clock = sagas, abort, teller, clock
        self._heap: list[tuple[float, int, SagaInstance]] = []
        self._order = itertools.count()
        self._max_entries = MAX_ENTRIES
        self.next_at = math.inf

    def add(self, saga: SagaInstance) -> None:
        """Add the deadline of a saga that this program executes from now on."""
        if saga.options.deadline is not None:
            if len(self._heap) >= self._max_entries:
                self._drop()
            heapq.heappush(self._heap, (saga.options.deadline, next(self._order), saga))
            self.next_at = self._heap[0][0]

    def _drop(self) -> None:
        """Keep one entry for each open saga: most sagas end long before their deadlines."""
        by_key = self._sagas.by_key
        entries = {entry[2]: entry for entry in self._heap if by_key.get(entry[2].key) is entry[2]}
        self._heap = [*entries.values()]
        heapq.heapify(self._heap)
        self._max_entries = max(MAX_ENTRIES, 2 * len(self._heap))

    def look(self) -> None:
        """Abort the open sagas of this program whose deadlines have passed."""
        now = self._clock()
        while self._heap and self._heap[0][0] <= now:
            saga = heapq.heappop(self._heap)[2]
            is_here = self._sagas.by_key.get(saga.key) is saga
            if is_here and not saga.over and not saga.aborted:
                self._teller.emit("saga_overdue", key=saga.key, saga=saga.kind.name)
                self._abort(saga).add_done_callback(_ignore_result)
        self.next_at = self._heap[0][0] if self._heap else math.inf


def _ignore_result(aborted: asyncio.Future[bool]) -> None:
    """Ignore the result of an abort.

    Events report it, and another node aborts a saga that moved.
    """
    if not aborted.cancelled():
        aborted.exception()


def conflict(
    key: str,
    kind: CompiledDefinition | SagaParts,
    text: str,
    stored_name: str,
    stored_input: str,
    payloads: Payloads | None = None,
) -> KeyConflict | None:
    """Return the error of a start whose key is used; None if it is the same saga.

    Args:
        key: The key.
        kind: The saga of the start.
        text: The input of the start.
        stored_name: The name of the saga that has the key.
        stored_input: The input of the saga that has the key.
        payloads: How inputs are stored (default: those of `kind`).
    """
    saga = kind.name
    if stored_name != saga:
        return KeyConflict(
            f"key {key!r} belongs to a saga {stored_name!r}, not {saga!r}. Use another key"
        )
    if erasure_of(stored_input):
        return KeyConflict(
            f"key {key!r} belongs to a saga whose data was erased, so inputs cannot be "
            "compared. Use another key"
        )
    if stored_input != text:
        kind_payloads: Payloads = getattr(kind, "payloads", PLAIN)
        stored = payloads or kind_payloads
        text = stored.decode(text)
        if reference := Reference.of(stored_input):
            if reference.is_of(text):
                return None
            return KeyConflict(f"key {key!r} belongs to a saga with another input. Use another key")
        stored_input = stored.decode(stored_input)
    if stored_input != text and (differ := _types_of(kind).differences(stored_input, text)):
        paths = type_checks.joined_paths(differ)
        return KeyConflict(
            f"key {key!r} belongs to a saga with another input, which differs at {paths}. "
            "Use another key"
        )
    return None


def _types_of(kind: CompiledDefinition | SagaParts) -> InputTypes:
    return kind.input_types if isinstance(kind, CompiledDefinition) else input_types(kind)


async def conflict_with_stored(
    store: Database,
    key: str,
    kind: CompiledDefinition | SagaParts,
    text: str,
    stored_name: str,
    stored_input: str,
    payloads: Payloads | None = None,
) -> KeyConflict | None:
    """Return the error of a start whose key is used, as `conflict`.

    An input outside of the database is read if its digest differs: it may be equal with other
    types. Raises `StoreUnavailable`.
    """
    error = conflict(key, kind, text, stored_name, stored_input, payloads)
    if error and stored_name == kind.name and Reference.of(stored_input):
        for (whole,) in await store.read(INPUT, key):
            error = conflict(key, kind, text, stored_name, whole, payloads)
    return error
