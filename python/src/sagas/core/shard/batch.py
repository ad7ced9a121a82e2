"""The rows that one commit writes, and the rows that a shard is loaded from."""

from __future__ import annotations

import dataclasses
from collections.abc import Callable, Sequence
from typing import Any, NamedTuple, Optional, Union

AttemptKey = tuple[int, str, int]
"""The number of a step, `run` or `undo`, and the number of the attempt."""

DefinitionRow = tuple[int, str, str]
"""index, digest, text: a definition of a shard"""
NewShard = tuple[str, Sequence[DefinitionRow]]
"""name, definitions: a shard that the store does not have yet"""
OpenedRow = tuple[int, str, str, int, str, float, Optional[float], Optional[str]]
"""id, key, saga, definition index, input, at, deadline, traceparent: an opened saga"""
ResultRow = tuple[int, int, str, int, str, Optional[str], float]
"""id, step, kind, attempt, outcome, value, at: the result of an attempt"""
EndedRow = tuple[str, str, bool, bool, float, int]
"""phase, outcome, recovered, undo_failed, ended, id: an ended saga"""
StoredSuspension = tuple[int, int, str, int, str, int, float, Optional[float], Optional[str]]
"""id, step, kind, attempt, reason, count, since, until, error: a suspended attempt"""
LabelRow = tuple[int, str, str]
"""id, name, value: a label of a saga"""
SuspensionKey = tuple[int, int, str, int]
"""id, step, kind, attempt: suspensions of the action up to this attempt are deleted"""
ProgressRow = tuple[int, int, str, int, float, Optional[str], float]
"""id, step, kind, attempt, fraction, detail, at: of `progress`"""
DeliveryRow = tuple[str, str, str, int, str, str, float]
"""id, webhook, type, saga, key, body, at: of `webhook_deliveries`"""
SpansRow = tuple[int, int, str, int, float, str]
"""id, step, kind, attempt, at, spans: of `attempt_spans`"""
OfferRow = tuple[
    str, int, int, int, str, int, str, Optional[int], Optional[int], float, Optional[str]
]
"""attempt, shard, id, step, action, number, task, concurrency, lease, offered_at, cancelled: of
`external_attempts`"""
CancelledSaga = tuple[str, int]
"""reason, id: a saga that is being undone"""


@dataclasses.dataclass(eq=False, slots=True)
class Withdrawal:
    """The withdrawal of an attempt from external workers.

    Attributes:
        attempt: Its id.
        shard: The number of its shard.
        is_done: Whether no worker has it; the commit sets this.
    """

    attempt: str
    shard: int
    is_done: bool = False


OpenSagaRow = tuple[int, str, int, str, Optional[float], Optional[str], Optional[str], float]
"""id, key, definition index, input, deadline, traceparent, shape, start: an open saga"""
ShapeRow = tuple[int, str]
"""id, shape: a saga whose steps come from its input"""
RequestAnswer = tuple[str, int]
"""answer as JSON, id of the request"""
PendingRequest = tuple[int, str, str, Optional[str], Optional[int]]
"""id, key, command, value, id of the saga or None: a request of an operator"""
PendingStart = tuple[int, str, str, int, str, dict[str, str], Optional[float], Optional[str]]
"""id, key, saga, version, input, labels, deadline, traceparent: a start of a client"""


class NewStart(NamedTuple):
    """The start of a saga that a node leaves to other nodes.

    Attributes:
        key: The key of the saga.
        saga: The name of its definition.
        version: The version of its definition.
        digest: The digest of its definition.
        input: Its input, as it is stored.
        labels: Its labels.
        deadline: When it is aborted, in seconds since 1970, or None.
        traceparent: The W3C trace context of its start, or None.
    """

    key: str
    saga: str
    version: int
    digest: str
    input: str
    labels: dict[str, str]
    deadline: float | None
    traceparent: str | None


AnsweredRequest = tuple[str, str, str, float]
"""key, command, value, at: a request that is stored together with its answer"""
RequestRef = Union[int, AnsweredRequest, None]
"""The request that gets an answer: the id of a stored request, or a request to store; None if no
request waits for it.
"""


class RareRows:
    """Rows that most batches do not have.

    The first access creates a list. A writer reads the existing lists by `vars`, since most are
    missing. The names are also the keys of the statements in `storage`.
    """

    held: list[StoredSuspension]
    freed: list[SuspensionKey]
    labels: list[LabelRow]
    shapes: list[ShapeRow]
    defined: list[DefinitionRow]
    """Further definitions of the shard."""
    children: list[tuple[int, int]]
    """Child sagas, each with the id of its parent."""
    answers: list[RequestAnswer]
    requested: list[tuple[AnsweredRequest, str]]
    """Requests that have no row yet, with their answers."""
    notes: list[tuple[str, int]]
    undone: list[tuple[int, int]]
    """Unused reports (saga, step) that have nothing left to undo, or that other sagas undo."""
    end_called: list[tuple[int]]
    """Sagas that have ended, and whose `on_end` call was started."""
    end_faults: list[tuple[str, int]]
    """Why the `on_end` call of a saga cannot be started, and the saga."""
    begun: list[tuple[int, int | None]]
    """Starts of clients (`PendingStart`) that are finished, each with the id of its saga.

    Requests for the start then apply to the saga. The id is None if another saga has the key.
    """
    offers: list[OfferRow]
    """Attempts that are offered to external workers."""
    cancelled: list[CancelledSaga]
    """Sagas that are being undone, whose workers are notified."""
    suspended: list[tuple[str, int, str]]
    """External attempts with an unknown outcome, their shard, and `suspended`, or `person` if an
    operator has to report them."""
    withdrawn: list[Withdrawal]
    """Offers that are withdrawn unless a worker has the attempt."""
    settled: list[tuple[str, int, str | None]]
    """External attempts that are over, their shard, and `succeeded` or None.

    Later reports of them are refused. If it is None, and a worker has reported a success before,
    the commit writes nothing for the shard, because the worker's effect remains.
    """
    progress: list[ProgressRow]
    deliveries: list[DeliveryRow]
    """Deliveries of webhooks."""
    spans: list[SpansRow]
    work: list[Callable[[Any], object]]
    """Callables that run in the transaction of a SQLite file, with its connection."""
    closed: tuple[int, str] | None = None
    set_aside: tuple[str | None] | None = None
    """Why no program can open the shard; (None,) if it can be opened again."""

    def __getattr__(self, part: str) -> Any:
        if part.startswith("_"):
            raise AttributeError(part)
        rows: list[Any] = []
        setattr(self, part, rows)
        return rows


class Batch:
    """The rows that one commit adds to a shard.

    Attributes:
        shard: The number of the shard.
        at: Wall time of the commit.
        first: The number of events before it.
        epoch: The fencing token of the shard's owner.
        text: The new lines of the event log.
        lines: The number of these lines.
        new_shard: The shard's own row, in its first batch.
        unchecked_keys: Keys of opened sagas that were not looked up. If one is taken, nothing of
            the batch is written, as if another node had the shard.
        rare: Rows that most batches do not have; add them to `rare_rows`.
    """

    __slots__ = (
        "shard",
        "at",
        "first",
        "epoch",
        "text",
        "lines",
        "new_shard",
        "opened",
        "results",
        "ended",
        "unchecked_keys",
        "rare",
    )

    def __init__(self, log: int, at: float, first: int = 0, epoch: int = 0) -> None:
        self.shard = log
        self.at = at
        self.first = first
        self.epoch = epoch
        self.text = ""
        self.lines = 0
        self.new_shard: NewShard | None = None
        self.opened: list[OpenedRow] = []
        self.results: list[ResultRow] = []
        self.ended: list[EndedRow] = []
        self.unchecked_keys: list[str] = []
        self.rare: RareRows | None = None

    def __bool__(self) -> bool:
        """Whether it holds anything."""
        return bool(self.text or self.opened or self.results or self.ended or self.rare)

    @property
    def rare_rows(self) -> RareRows:
        """The rare rows, created at the first use, to add to."""
        self.rare = self.rare or RareRows()
        return self.rare

    def answer(self, request: RequestRef, answer: str) -> None:
        """Add the answer to a request, as JSON."""
        if isinstance(request, int):
            self.rare_rows.answers.append((answer, request))
        elif request is not None:
            self.rare_rows.requested.append((request, answer))


@dataclasses.dataclass(slots=True)
class ShardRow:
    """A shard that is not closed. `note`: why no program could open it before."""

    shard: int
    name: str
    texts: list[str]
    opened: int
    open: int
    epoch: int = 0
    note: str | None = None


class Tail(NamedTuple):
    """The last chunk of a shard's event log. The next commit requires that it is unchanged.

    Attributes:
        first_seq: How many events the shard has before it.
        committed_at: When it was written, by the clock of the node that wrote it.
    """

    first_seq: int
    committed_at: float


@dataclasses.dataclass(slots=True)
class LoadedShard:
    """The stored rows of a shard that restore its driver.

    Attributes:
        text: The event log without its header.
        events: The number of its events.
        opened: The number of sagas that it has opened.
        open: Its open sagas.
        results: The results of their attempts.
        held: Their suspended attempts.
        epoch: The fencing token of its owner.
    """

    text: str
    events: int
    opened: int
    open: list[OpenSagaRow]
    results: list[ResultRow]
    held: list[StoredSuspension]
    epoch: int = 0
    timeline: str = ""
    """The server's timeline at the read, if the database has one."""
    definition_count: int = 0
    """The number of the shard's definitions."""
    tail: Tail | None = None
    """The last chunk, if there are events and other nodes may write the shard."""
    damage: str | None = None
    """Where its chunks do not join; None if they do."""


class StoredSaga(NamedTuple):
    """The stored data of a saga besides its row, read in one snapshot."""

    definition: str
    results: list[tuple[int, str, int, str, Optional[str], float]]
    """step, kind, attempt, outcome, value, at: for each step, its attempts and then those of its
    compensation."""
    chunks: list[tuple[float, str]]
    """at, text: the chunks of its shard's log that name it, if they were requested."""
    shape: Optional[str] = None
    """Its stored shape, if its steps come from its input."""


class Grant(NamedTuple):
    """A grant of calls under fleet limits.

    Attributes:
        calls: The number of calls of a step that may start.
        slots: Their slots, if the step has a limit.
        pause: Seconds until the next request is useful.
    """

    calls: int
    slots: list[int]
    pause: float


class SagaRow(NamedTuple):
    """The stored row of a saga."""

    id: int
    key: str
    saga: str
    definition_index: int
    input: str
    at: float
    phase: str | None
    end: str | None
    ended: float | None
    note: str | None
