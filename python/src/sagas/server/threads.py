"""The threads of a service: for reads of the store, for answers and for pages.

Work that takes longer than a moment is done in a thread, because the event loop must answer
workers in the meantime. Each kind has its own threads: a page may take seconds, and no read
waits for it.

The threads are shared fairly. Each client gets the same thread time, whatever one piece of its
work costs: the next piece is that of the client with the least time so far. A client whose work
takes long leaves a thread to the others. A client whose work computes for long has one thread of
all kinds, and rests after each piece while other clients are active, because threads that compute
slow down each other and the event loop.
"""

from __future__ import annotations

import asyncio
import contextvars
import dataclasses
import functools
import time
from collections import OrderedDict, deque
from collections.abc import Callable, Sequence
from concurrent.futures import ThreadPoolExecutor
from queue import SimpleQueue
from typing import Any, Generic, TypeVar

from sagas.inspection.question import Question, StoreReader
from sagas.server import renderer
from sagas.storage.interface import Reader

J = TypeVar("J")
CURRENT_CLIENT: contextvars.ContextVar[str] = contextvars.ContextVar("maker", default="")
"""The client that the current task works for: a token, or without tokens an address."""
LONG = 0.01
"""A client's work of this many seconds, on average, counts as long."""
WEIGHT = 0.25
"""The weight of the last piece of work in the average."""
REST = 3.0
"""Seconds of rest for each second that a piece of work computed."""
MAX_REST = 2.0
"""The longest rest, in seconds."""
RECENT = 1.0
"""Seconds for which a client counts as active after a request."""
MAX_KNOWN = 1000


class ComputingTime:
    """Share the interpreter among clients whose work computes for long, over threads of all kinds.

    One thread at a time computes for a client. After each piece of such work the client rests, if
    another client was active within the last second. A client that is alone never rests.
    """

    def __init__(self) -> None:
        self._computing = set[str]()
        self._rests: dict[str, float] = {}
        self._latest, self._previous = ("", -RECENT), ("", -RECENT)  # of two clients

    def note_request(self, name: str, now: float) -> None:
        """Record that a client is active."""
        if name != self._latest[0]:
            self._previous = self._latest
        self._latest = (name, now)

    def start(self, name: str) -> None:
        """Record that a thread starts to compute for a client."""
        self._computing.add(name)

    def finish(self, name: str, computed: float, now: float) -> None:
        """Record that a piece of work has finished, and for how many seconds it computed."""
        self._computing.discard(name)
        self._rests = {resting: until for resting, until in self._rests.items() if until > now}
        if computed >= LONG and self._has_others(name, now):
            self._rests[name] = now + min(REST * computed, MAX_REST)

    def may_start(self, name: str, now: float) -> bool:
        """Return whether a thread may compute for a client now."""
        return name not in self._computing and self.rests_until(name, now) is None

    def rests_until(self, name: str, now: float) -> float | None:
        """Return when a client's rest ends, or None if it does not rest."""
        until = self._rests.get(name, now)
        return until if until > now else None

    def _has_others(self, name: str, now: float) -> bool:
        other, at = self._latest if self._latest[0] != name else self._previous
        return other != name and now - at < RECENT


@dataclasses.dataclass(slots=True)
class _Client(Generic[J]):
    """A client that has or had work.

    Attributes:
        used: Seconds of thread time. A new client starts with the time of the others.
        mean: Average seconds of a piece of its work.
        computed: Average seconds that a piece of its work computes.
    """

    jobs: deque[J] = dataclasses.field(default_factory=deque)
    running: int = 0
    used: float = 0.0
    mean: float = 0.0
    computed: float = 0.0


class FairQueue(Generic[J]):
    """Work for a number of threads. `computing` is shared by the queues of all kinds of threads."""

    def __init__(self, threads: int, computing: ComputingTime) -> None:
        self._threads, self._computing = threads, computing
        self._known: OrderedDict[str, _Client[J]] = OrderedDict()
        self._ready: dict[str, _Client[J]] = {}  # those with work that waits
        self._running, self._floor = 0, 0.0

    def put(self, name: str, job: J, now: float) -> None:
        """Add a piece of work of a client."""
        self._computing.note_request(name, now)
        client = self._known.get(name)
        if client is None:
            client = self._known[name] = _Client()
        self._known.move_to_end(name)
        if not client.jobs and not client.running:  # an idle client does not accumulate time
            client.used = max(client.used, self._floor)
        client.jobs.append(job)
        self._ready[name] = client
        self._forget()

    def take(self, now: float) -> tuple[str, J] | None:
        """Return the next piece of work and its client, or None if nothing may start now."""
        if self._running >= self._threads:
            return None
        candidates = [item for item in self._ready.items() if self._may_run(*item, now)]
        if not candidates:
            return None
        name, client = min(candidates, key=lambda item: item[1].used)
        job = client.jobs.popleft()
        if not client.jobs:
            del self._ready[name]
        client.running += 1
        self._running += 1
        if client.computed >= LONG:
            self._computing.start(name)
        self._floor = max(self._floor, client.used)
        return name, job

    def next_take(self, now: float) -> float | None:
        """Return when the first rest ends of a client with work, or None if none of them rests."""
        rests = (self._computing.rests_until(name, now) for name in self._ready)
        return min((until for until in rests if until is not None), default=None)

    def done(self, name: str, seconds: float, computed: float, now: float) -> None:
        """Record that a piece of work took this time, and computed for a part of it."""
        self._running -= 1
        self._computing.finish(name, computed, now)
        client = self._known[name]
        client.running -= 1
        client.used += seconds
        client.mean += WEIGHT * (seconds - client.mean)
        client.computed += WEIGHT * (computed - client.computed)

    def _may_run(self, name: str, client: _Client[J], now: float) -> bool:
        """Return whether a client may use one more thread."""
        if client.computed >= LONG and not self._computing.may_start(name, now):
            return False
        return client.running < (self._threads if client.mean < LONG else max(1, self._threads - 1))

    def _forget(self) -> None:
        """If too many clients are known, forget the one that had no work for the longest time."""
        if len(self._known) > MAX_KNOWN:
            name, client = next(iter(self._known.items()))
            self._known.move_to_end(name)
            if not client.jobs and not client.running:
                del self._known[name]


# -- the threads


T = TypeVar("T")
READERS = ANSWERERS = 2
LARGE = 1 << 18
"""JSON of this many characters is parsed or serialized in a thread: that takes 10 ms or more."""


Job = tuple[Callable[[], Any], "asyncio.Future[Any]"]
"""Work, and the future of its result."""


class Timed:
    """Work that records how long it took and computed."""

    def __init__(self, work: Callable[[], Any]) -> None:
        self._work, self.seconds, self.computed = work, 0.0, 0.0

    def __call__(self) -> Any:
        began, computed = time.monotonic(), time.thread_time()
        try:
            return self._work()
        finally:
            self.seconds = time.monotonic() - began
            self.computed = time.thread_time() - computed


class Pool:
    """Threads of one kind, shared fairly among clients.

    There are as many threads as `readers`, or `count`.
    """

    def __init__(
        self,
        kind: str,
        all: list[Pool],
        computing: ComputingTime,
        readers: Sequence[Reader] = (),
        count: int = 1,
    ) -> None:
        count = len(readers) or count
        self._threads = ThreadPoolExecutor(count, f"sagas-{kind}")
        self._queue: FairQueue[Job] = FairQueue(count, computing)
        self._timer: asyncio.TimerHandle | None = None
        self._all = all
        all.append(self)
        self._readers: SimpleQueue[StoreReader] = SimpleQueue()
        for reader in readers:
            self._readers.put(StoreReader(reader))

    def begin(self, work: Callable[[], object]) -> None:
        """Run work in a thread without waiting for it."""
        self._threads.submit(work)

    async def do(self, work: Callable[[], T]) -> T:
        """Run work in a thread, on behalf of the current task's client."""
        answer: asyncio.Future[T] = asyncio.get_running_loop().create_future()
        self._queue.put(CURRENT_CLIENT.get(), (work, answer), time.monotonic())
        self._fill()
        return await answer

    def _fill(self) -> None:
        """Start the work that may run now, and look again when the next rest ends."""
        while item := self._queue.take(time.monotonic()):
            name, (work, answer) = item
            if answer.done():  # no caller waits any more
                self._queue.done(name, 0.0, 0.0, time.monotonic())
                continue
            task = Timed(work)
            doing = answer.get_loop().run_in_executor(self._threads, task)
            doing.add_done_callback(functools.partial(self._settle, name, answer, task))
        now = time.monotonic()
        if (moment := self._queue.next_take(now)) is not None and self._timer is None:
            self._timer = asyncio.get_running_loop().call_later(moment - now, self._end_rest)

    def _end_rest(self) -> None:
        self._timer = None
        self._fill()

    def _settle(
        self, name: str, answer: asyncio.Future[Any], task: Timed, doing: asyncio.Future[Any]
    ) -> None:
        self._queue.done(name, task.seconds, task.computed, time.monotonic())
        if doing.cancelled():
            answer.cancel()
        elif answer.done():
            doing.exception()  # no caller waits any more
        elif error := doing.exception():
            answer.set_exception(error)
        else:
            answer.set_result(doing.result())
        for pool in self._all:
            pool._fill()

    async def ask(self, question: Question[T]) -> T:
        """Ask the store in a thread."""
        return await self.do(lambda: self._answer(question))

    def _answer(self, question: Question[T]) -> T:
        """Answer a question. The thread keeps its connection even if no caller waits."""
        reader = self._readers.get()
        try:
            return reader.ask(question)
        finally:
            self._readers.put(reader)

    def close(self) -> None:
        """Finish the requested work, and close threads and connections."""
        if self._timer is not None:
            self._timer.cancel()
        self._threads.shutdown(wait=True)
        while not self._readers.empty():
            self._readers.get().close()


class Threads:
    """The threads of a service. `connect` opens a read-only connection.

    Attributes:
        reads: For reads of the store.
        answers: For API responses that may be large.
        pages: For pages of the dashboard, and for their reads of whole sagas.
    """

    def __init__(self, connect: Callable[[], Reader]) -> None:
        all, computing = list[Pool](), ComputingTime()
        readers = [connect() for _ in range(READERS)]
        self.reads = Pool("look", all, computing, readers)
        self.answers = Pool("answer", all, computing, count=ANSWERERS)
        self.pages = Pool("page", all, computing, [connect()])
        self.pages.begin(renderer.compile_all)

    def close(self) -> None:
        """Close all threads."""
        for pool in (self.pages, self.answers, self.reads):
            pool.close()
