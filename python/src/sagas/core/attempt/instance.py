"""`SagaInstance`: the state of an open saga, with the values that it holds.

Large values are held only while a function may read them.
"""

from __future__ import annotations

import dataclasses
from collections.abc import Iterable, Mapping
from typing import TYPE_CHECKING, Any, NamedTuple

from sagas.core.states import AttemptState, EarlyReason
from sagas.definition import start_options
from sagas.definition.capacity import SHARD_CAPACITY
from sagas.definition.compiled import ActionKey, CompiledDefinition
from sagas.definition.payloads import ABSENT, LARGE_VALUE
from sagas.definition.layout import ShapeValues
from sagas.definition.start_options import StartOptions

if TYPE_CHECKING:
    from sagas.core.attempt.model import Attempt
    from sagas.core.shard.driver import ShardDriver

RESTING = (AttemptState.SUSPENDED, AttemptState.QUEUED, AttemptState.FINISHED)
"""The states of attempts whose functions read no values now."""


@dataclasses.dataclass(slots=True)
class SagaExtras:
    """State of a saga in which a step failed or waits."""

    failed_at: dict[ActionKey, float] = dataclasses.field(default_factory=dict)
    """When the last attempt of each retried action failed."""
    retry_pauses: dict[ActionKey, float | None] = dataclasses.field(default_factory=dict)
    """The pause in seconds that the action requested after that (`RetryAfter`)."""
    final: set[ActionKey] = dataclasses.field(default_factory=set)
    """The actions that failed permanently."""
    errors: dict[int, str] = dataclasses.field(default_factory=dict)
    """The last error of each step."""
    failed: dict[int, str] = dataclasses.field(default_factory=dict)
    """The stored texts of optional failures that a plan has dropped from the results."""
    shape: ShapeValues | None = None
    """Its stored shape, after it was read."""
    numbering: ShapeValues | None = None
    """The numbers and keys of its items, after its shape was dropped."""
    wait_ends: dict[ActionKey, float] = dataclasses.field(default_factory=dict)
    """The end times of waits that are not over."""
    waits_over: set[ActionKey] = dataclasses.field(default_factory=set)
    """The waits that are over, until no attempt needs them."""
    early_reports: dict[ActionKey, tuple[EarlyReason, str]] = dataclasses.field(
        default_factory=dict
    )
    """The reports of steps that have not started: their kinds, and their texts as stored."""
    may_cancel_work: bool = False
    """See `SagaInstance.may_cancel_work`."""
    missing_function: str | None = None
    """Which function of its definition this program does not have; None if it has all."""
    tenant: str | None = None
    """Its tenant as JSON; None until `fair_by` was called."""

    def end_wait(self, action_key: ActionKey) -> None:
        """Note that a wait is over."""
        self.wait_ends.pop(action_key, None)
        self.waits_over.add(action_key)

    def drop_wait(self, action_key: ActionKey) -> None:
        """Forget a wait, which no attempt needs any more."""
        self.wait_ends.pop(action_key, None)
        self.waits_over.discard(action_key)


class StoredValues(NamedTuple):
    """The stored values of a saga: its input, its shape and its results by step."""

    text: str
    shape: str | None
    results: Mapping[int, str]


class HeldValues:
    """The values of a saga, as they are stored. One that is not held is `ABSENT`.

    Attributes:
        text: Its input, as JSON.
        options: The options of its start; if another program started it, only its deadline and
            trace context.
        results: The results of the committed steps. A compensation replaces the dict, so that
            each attempt keeps the dict with which it started.
        is_large: Whether a large value is held.
        is_partial: Whether a value may not be held.
        extras: State that only some sagas have.
    """

    __slots__ = ("text", "options", "results", "is_large", "is_partial", "extras")
    text: str
    options: StartOptions
    results: dict[int, str]
    is_large: bool
    is_partial: bool
    extras: SagaExtras | None

    def hold(self, text: str, options: StartOptions) -> None:
        """Hold the input and the shape of the saga."""
        self.text, self.options = text, options
        shape = options.shape or ""
        self.is_large = len(text) > LARGE_VALUE or len(shape) > LARGE_VALUE
        self.is_partial = ABSENT in (text, shape)

    def put_result(self, step: int, value: str) -> None:
        """Hold the result of a step."""
        self.results[step] = value
        if value == ABSENT:
            self.is_partial = True
        elif len(value) > LARGE_VALUE:
            self.is_large = True

    def drop_large(self, results: Iterable[dict[int, str]]) -> None:
        """Drop all large values. `results`: the dicts of its attempts."""
        if len(self.text) > LARGE_VALUE:
            self.text = ABSENT
        if self.options.shape is not None and len(self.options.shape) > LARGE_VALUE:
            self.options = dataclasses.replace(self.options, shape=ABSENT)
            if self.extras is not None and (shape := self.extras.shape) is not None:
                self.extras.numbering = ShapeValues.of_numbering(shape.numbering(()))
                self.extras.shape = None
        distinct = {id(some): some for some in (self.results, *results)}  # attempts share them
        for some in distinct.values():
            for step, value in some.items():
                if len(value) > LARGE_VALUE:
                    some[step] = ABSENT
        self.is_large, self.is_partial = False, True

    def fill(self, stored: StoredValues, results: dict[int, str]) -> None:
        """Hold the stored values. `results`: the dict of the attempt that is about to be called."""
        self.hold(stored.text, dataclasses.replace(self.options, shape=stored.shape))
        for step, value in stored.results.items():
            if step in results:
                results[step] = value
        self.is_large = self.is_partial = True  # others may have other results

    @property
    def is_whole(self) -> bool:
        """Whether all values are held."""
        return not self.is_partial or ABSENT not in (
            self.text,
            self.options.shape,
            *self.results.values(),
        )


class AcknowledgedSaga(HeldValues):
    """What a program with a record has of a saga. Without a record it is not set.

    Attributes:
        rest: What the acknowledgement of its start rests on; None if another program started it.
        end_rest: What the acknowledgement of its end rests on, when its end is decided.
    """

    __slots__ = ("rest", "end_rest")
    rest: tuple[Any, int] | None
    end_rest: tuple[Any, int] | None


class SagaInstance(AcknowledgedSaga):
    """A saga from its start to its end.

    Attributes:
        key: The key that the caller chose.
        kind: Its definition.
        definition_index: The index of its definition in its shard.
        number: Its number in its shard; -1 until it has one.
        busy: The attempts that were claimed and not reported.
        has_deviated: Whether something failed, was retried or was aborted.
        draining: Whether it waits until its running attempts end, and is planned then.
        answer: The last plan that was adopted.
        committed: Whether the store has it.
        started_at: When it was started, in seconds since 1970; 0 until the store has it.
        has_unchecked_key: Whether it was started without a lookup of its key and is not committed,
            so that the key may belong to another saga.
        client_start: The id of the client's pending start that created it, if any.
        phase: How it ended, as the store has it; the empty text while it is open.
        end: The end, as the store has it.
    """

    __slots__ = (
        "key",
        "kind",
        "definition_index",
        "number",
        "shard",
        "busy",
        "has_deviated",
        "aborted",
        "draining",
        "answer",
        "committed",
        "started_at",
        "has_unchecked_key",
        "client_start",
        "phase",
        "end",
        "token",
    )

    def __init__(
        self,
        key: str,
        text: str,
        kind: CompiledDefinition,
        definition_index: int,
        options: StartOptions = start_options.NONE,
    ) -> None:
        self.key = key
        self.kind = kind
        self.definition_index = definition_index
        self.hold(text, options)
        self.extras: SagaExtras | None = None
        self.number = -1
        self.shard: ShardDriver | None = None
        self.committed = self.has_unchecked_key = False
        self.started_at = 0.0
        self.client_start: int | None = None
        self.end = ""
        self.forget()

    def forget(self) -> None:
        """Reset it to the state after its opening; recovery then applies the stored rows."""
        self.token: str | None = None
        self.results: dict[int, str] = {}
        self.busy: dict[ActionKey, Attempt] = {}
        self.has_deviated = self.aborted = self.draining = False
        self.answer: dict[str, Any] | None = None
        self.phase = ""
        tenant = self.extras.tenant if self.extras is not None else None
        self.extras = None
        if tenant is not None:  # its running functions have slots of this tenant
            self.rare.tenant = tenant

    @property
    def rare(self) -> SagaExtras:
        """State that only some sagas have, created at the first use."""
        if self.extras is None:
            self.extras = SagaExtras()
        return self.extras

    @property
    def shape(self) -> ShapeValues:
        """The stored shape that its input determined. It is read once.

        Raises:
            CannotDecode: The codec failed.
        """
        if self.rare.shape is None:
            text = self.options.shape
            payloads = self.kind.payloads
            self.rare.shape = (
                ShapeValues() if text is None else ShapeValues.read(payloads.decode(text))
            )
        return self.rare.shape

    def release(self) -> None:
        """Drop large values, unless a function may read them now.

        They are read from the store when a function needs them.
        """
        if not (self.is_large and self.committed):
            return
        busy = self.busy.values()
        if all(attempt.state in RESTING for attempt in busy):
            self.drop_large([attempt.results for attempt in busy])

    @property
    def numbering(self) -> ShapeValues:
        """The numbers and keys of the items, without the other values of `shape`."""
        return self.rare.numbering or self.shape

    @property
    def tenant(self) -> str | None:
        """Its tenant, if its definition has `fair_by` and the function was called."""
        return None if self.extras is None else self.extras.tenant

    @property
    def dropped_failures(self) -> dict[int, str]:
        """The stored texts of optional failures that a plan has dropped from the results."""
        return {} if self.extras is None else self.extras.failed

    @property
    def drain_reason(self) -> str:
        """The reason with which running functions are cancelled."""
        return "aborted" if self.aborted else "failed"

    @property
    def may_cancel_work(self) -> bool:
        """Whether it drains and the reason is stored, so that its attempts may be cancelled."""
        return self.draining and self.extras is not None and self.extras.may_cancel_work

    @property
    def over(self) -> bool:
        """Whether its end is known."""
        return bool(self.phase)

    @property
    def id(self) -> int:
        """Its number in the store."""
        assert self.shard
        return self.shard.identity.number * SHARD_CAPACITY + self.number

    def note_failure(self, word: ActionKey, at: float, failure: dict[str, Any]) -> None:
        """Note when an action failed, and the pause that it requested."""
        self.rare.failed_at[word] = at
        self.rare.retry_pauses[word] = failure.get("retry_after")

    def note_error(self, step: int, value: str, called: bool) -> None:
        """Note the error of an attempt. The error of a call precedes that of a given-up attempt."""
        errors = self.rare.errors
        if called or step not in errors:
            errors[step] = value
