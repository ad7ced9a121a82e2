"""`TaskData`: the data of a task, with its context, its cancellation and its progress."""

from __future__ import annotations

import asyncio
import contextlib
import dataclasses
import functools
import inspect
import threading
from collections.abc import Generator, Mapping
from typing import Any, NamedTuple, Protocol, TYPE_CHECKING, Union

from sagas.base.errors import ProgramError
from sagas.definition.arguments import shown
from sagas.definition.serialization import Decoder, clean

if TYPE_CHECKING:
    from sagas.definition.step_location import StepLocation

NO_ITEM = {"index": None, "item_key": None, "item": None}
"""The item of a step that has none, as a worker outside of the store gets it."""

# -- the context of a store


ContextManager = Union[
    contextlib.AbstractAsyncContextManager[Any], contextlib.AbstractContextManager[Any]
]
NOT_GIVEN = "the store was opened without a context. Open it with sagas.open(..., context=...)"
ELSEWHERE = "a copy of a task in another process, or in a worker, has no context"


class Context:
    """Hold the value of `task.context`, which the functions of a store share.

    Attributes:
        lacks: Why the value is missing; None while there is one.
    """

    def __init__(self, lacks: str = NOT_GIVEN) -> None:
        self.lacks: str | None = lacks
        self._value: Any = None

    def __reduce__(self) -> tuple[type[Context], tuple[str]]:
        """Pickle it without its value: another process has no context."""
        return Context, (ELSEWHERE,)

    def put(self, value: Any) -> None:
        """Set the value."""
        self.lacks, self._value = None, value

    def get(self) -> Any:
        """Return the value.

        Raises:
            ProgramError: The value is missing.
        """
        if self.lacks is not None:
            raise ProgramError(f"task.context: {self.lacks}")
        return self._value


def is_context_factory(context: object) -> bool:
    """Return whether the argument `context` is a function or class that makes it."""
    if isinstance(context, functools.partial):
        return True
    return inspect.isroutine(context) or inspect.isclass(context)


def context_manager(factory: Any) -> ContextManager:
    """Return the context manager that a factory makes.

    Raises:
        TypeError: The factory returned something else.
    """
    manager = factory()
    if isinstance(
        manager, (contextlib.AbstractAsyncContextManager, contextlib.AbstractContextManager)
    ):
        return manager
    if inspect.iscoroutine(manager):
        manager.close()
    raise TypeError(
        f"context={shown(factory)}: the function returned {type(manager).__name__}. Return a "
        "context manager (@contextlib.asynccontextmanager), or pass the object itself"
    )


# -- cancellation and progress


MAX_DETAIL = 200
"""Maximum length of a stored progress detail, in characters."""


class Progress(NamedTuple):
    """The progress that a function reported last."""

    fraction: float
    detail: str | None = None

    def __str__(self) -> str:
        return f"{self.fraction:.0%}{f' {self.detail}' if self.detail else ''}"


def checked_progress(fraction: float, detail: str | None) -> Progress:
    """Return a reported progress as a `Progress`.

    Raises:
        TypeError: The fraction is not a number, or the detail is not a text.
        ValueError: The fraction is not from 0 to 1.
    """
    if isinstance(fraction, bool) or not isinstance(fraction, (int, float)):
        raise TypeError(f"progress({fraction!r}): must be a number from 0 to 1")
    if not 0 <= fraction <= 1:
        raise ValueError(f"progress({fraction!r}): must be a number from 0 to 1")
    if detail is not None and not isinstance(detail, str):
        raise TypeError(f"progress(..., {type(detail).__name__}): the detail must be a text")
    return Progress(float(fraction), None if detail is None else clean(detail[:MAX_DETAIL]))


class Cancellation:
    """An event that is set when a function should stop.

    Plain functions call `is_set` and `wait`, async ones `await task.cancelled`.

    Attributes:
        reason: `aborted` (an operator or a program aborted the saga), `failed` (another step of it
            failed), `closing` (the store is closed), `lost` (another node has the saga); None
            while it is not set.
    """

    def __init__(self) -> None:
        self.reason: str | None = None
        self._lock = threading.Lock()
        self._set = threading.Event()
        self._waiting: list[tuple[asyncio.AbstractEventLoop, asyncio.Future[None]]] = []
        self._for_abort: list[tuple[asyncio.AbstractEventLoop, asyncio.Future[None]]] = []

    def is_set(self) -> bool:
        """Return whether the function should stop."""
        return self.reason is not None

    def wait(self, timeout: float | None = None) -> bool:
        """Block the thread until the event is set, and return whether it is set.

        Args:
            timeout: Maximum seconds to wait (default: no limit).

        Raises:
            ProgramError: It is called in an event loop, which it would block.
        """
        try:
            asyncio.get_running_loop()
        except RuntimeError:
            return self._set.wait(timeout)
        raise ProgramError(
            "task.cancelled.wait() would block the event loop. In an async function, write: await "
            "task.cancelled"
        )

    def __await__(self) -> Generator[Any, None, str]:
        """Wait until the event is set, and return the reason."""
        loop = asyncio.get_running_loop()
        future = loop.create_future()
        with self._lock:
            if self.reason is None:
                self._waiting.append((loop, future))
            else:
                future.set_result(None)
        yield from future
        assert self.reason
        return self.reason

    async def aborted(self) -> None:
        """Wait until the saga is aborted, whatever the first reason was."""
        loop = asyncio.get_running_loop()
        with self._lock:
            if self.reason == "aborted":
                return
            self._for_abort.append((loop, future := loop.create_future()))
        await future

    def set(self, reason: str) -> None:
        """Set the event. A later reason replaces the first one only if it is `aborted`."""
        with self._lock:
            is_abort = reason == "aborted"
            if self.reason is not None and not is_abort:
                return
            self.reason, waiting, self._waiting = reason, self._waiting, []
            if is_abort:
                waiting, self._for_abort = waiting + self._for_abort, []
        self._set.set()
        for loop, future in waiting:
            with contextlib.suppress(RuntimeError):  # the loop is closed
                loop.call_soon_threadsafe(_resolve, future)


def _resolve(future: asyncio.Future[None]) -> None:
    if not future.done():
        future.set_result(None)


class Control:
    """The signals between an attempt and its running function.

    Attributes:
        cancelled: The event that asks the function to stop.
        progress: The progress that the function reported last, or None.
        is_new: Whether that progress is not written yet.
        is_stopped: Whether the function was cancelled because the saga was aborted.
    """

    __slots__ = ("cancelled", "progress", "is_new", "is_stopped")

    def __init__(self) -> None:
        self.cancelled = Cancellation()
        self.progress: Progress | None = None
        self.is_new = self.is_stopped = False

    def __reduce__(self) -> tuple[type[Control], tuple[()]]:
        """Pickle it as a new one: nothing in another process is connected to the attempt."""
        return Control, ()

    def set_progress(self, fraction: float, detail: str | None = None) -> None:
        """Set the progress that the function reports. Raises as `checked`."""
        self.progress, self.is_new = checked_progress(fraction, detail), True

    def take_progress(self) -> Progress | None:
        """Return the progress if it is new since the last call, else None."""
        progress, self.is_new = self.progress if self.is_new else None, False
        return progress


# -- the data of a task


class TaskData(Protocol):
    """The data of a task. Inputs and results are JSON texts.

    The attributes may be computed at each access, since most functions read few of them.

    Attributes:
        saga: The saga's name.
        key: The saga's key.
        name: The step's name.
        undo: Whether the task is of a compensation.
        attempt: The number of the attempt, from 1.
        saga_token: The saga's token, with which the idempotency key begins.
        input: The saga's input.
        needed_results: The results of the steps that this one needs, by name.
        own_result: In a compensation the result of its step, else None.
        hint: The decoder of the input, or None.
        decoders: The decoders of results, by step.
        deadline: When the saga is aborted, in seconds since 1970, or None.
        traceparent: The W3C trace context, or None.
        context: The context that the functions of the store share.
        control: The cancellation and the progress of the function.
        location: The location of the step, or None.
    """

    @property
    def saga(self) -> str:
        ...

    @property
    def key(self) -> str:
        ...

    @property
    def name(self) -> str:
        ...

    @property
    def undo(self) -> bool:
        ...

    @property
    def attempt(self) -> int:
        ...

    @property
    def saga_token(self) -> str:
        ...

    @property
    def input(self) -> str:
        ...

    @property
    def needed_results(self) -> Mapping[str, str]:
        ...

    @property
    def own_result(self) -> str | None:
        ...

    @property
    def hint(self) -> Decoder | None:
        ...

    @property
    def decoders(self) -> Mapping[str, Decoder]:
        ...

    @property
    def deadline(self) -> float | None:
        ...

    @property
    def traceparent(self) -> str | None:
        ...

    @property
    def context(self) -> Context:
        ...

    @property
    def control(self) -> Control:
        ...

    @property
    def location(self) -> StepLocation | None:
        """The location of its step if the saga's steps come from its input, else None."""


@dataclasses.dataclass(slots=True)
class TaskSnapshot:
    """A copy of a task's data, for a task without an attempt in this process."""

    saga: str
    key: str
    name: str
    undo: bool
    attempt: int
    saga_token: str
    input: str
    needed_results: Mapping[str, str]
    own_result: str | None
    hint: Decoder | None = None
    decoders: Mapping[str, Decoder] = dataclasses.field(default_factory=dict)
    deadline: float | None = None
    context: Context = dataclasses.field(default_factory=lambda: Context(ELSEWHERE))
    control: Control = dataclasses.field(default_factory=Control)
    traceparent: str | None = None
    location: StepLocation | None = None


def snapshot(data: TaskData) -> TaskSnapshot:
    """Return a copy of the present data of a task."""
    return TaskSnapshot(
        data.saga,
        data.key,
        data.name,
        data.undo,
        data.attempt,
        data.saga_token,
        data.input,
        data.needed_results,
        data.own_result,
        data.hint,
        data.decoders,
        data.deadline,
        data.context,
        data.control,
        data.traceparent,
        data.location,
    )
