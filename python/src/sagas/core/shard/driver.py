"""`ShardDriver`: the requests to the engine, and the effects of its replies.

A shard is up to 1,000 sagas with one owner and one event log. Its engine process decides what
happens next, and its event log in the store is the only truth. One turn of a shard is:

    lines = driver.requests(free_slots, now)    # what is due, [] if nothing is
    effects = driver.replies(*ask(lines), now)  # `ask` is the engine: its replies, and log text
    while isinstance(effects, list):            # ends of sagas that deviated from success
        effects = driver.replies(*ask(effects), now)
    driver.begin_commit(effects)
    commit(effects.batch)                       # until it is durable
    driver.committed(effects)                   # or driver.failed(effects), if it was refused
    drain(effects.rare.draining)                # sagas with a failed step
    start(effects.dispatch)                     # and the other effects after the commit

The next request may be sent before the batch is durable, and several batches may be under way:
they become durable in the order of `replies`. After `failed`, or if the engine dies, the driver
differs from the store: its state is `STALE`, and `core.recovery` restores it from the rows of the
store.
"""

from __future__ import annotations

import dataclasses
import itertools
from collections import deque
from collections.abc import Iterable, Sequence

from sagas.core import webhook_rows, protocol
from sagas.core.attempt.model import Attempt, SuspensionRow
from sagas.core.shard.batch import Batch, DefinitionRow, LoadedShard, NewShard, Withdrawal
from sagas.core.effects import Abort, Effects
from sagas.core.attempt.external_work import offer_row
from sagas.core.protocol import EngineRequest, ReplyReader
from sagas.core.reports import EarlyReport, Refusal
from sagas.core.attempt.instance import SagaInstance
from sagas.core.states import (
    COUNTS_FAILURES,
    RETRYABLE,
    SHARD_TRANSITIONS,
    Check,
    ShardState,
    Suspension,
    check,
)
from sagas.definition.capacity import MAX_ADDED
from sagas.definition.compiled import CompiledDefinition
from sagas.definition.definition_text import digest_of

MAX_CLAIMS = 1000
"""The number of tasks that one request claims."""


# -- the constant data of a shard


class ShardDefinitions:
    """The definitions of a shard, each with its index.

    A shard of sagas whose steps come from their input gets further definitions. No definition is
    ever removed.

    Attributes:
        digest: The digest of the set, if it does not grow; else empty.
        texts: The definitions, as the engine reads them.
        kinds: The same with this program's functions.
        stored_count: The number of definitions that the store has, or will have.
        known_count: The number of definitions that the engine knows.
        has_grown: Whether the engine has learned a definition after its start: then a request that
            adds definitions also opens their sagas.
        is_fixed: Whether the engine has refused a definition: then a new engine replaces it.
    """

    __slots__ = (
        "digest",
        "texts",
        "kinds",
        "stored_count",
        "known_count",
        "has_grown",
        "is_fixed",
        "_indexes",
    )

    def __init__(self, kinds: Sequence[CompiledDefinition], digest: str = "") -> None:
        self.digest = digest
        self.kinds = [*kinds]
        self.texts = [kind.text for kind in kinds]
        self._indexes = {text: index for index, text in enumerate(self.texts)}
        self.stored_count = self.known_count = len(self.texts)
        self.has_grown = self.is_fixed = False

    def started(self) -> None:
        """Note that an engine is started with all definitions."""
        self.known_count = len(self.texts)
        self.has_grown = self.is_fixed = False

    def has_room(self, kind: CompiledDefinition) -> bool:
        """Whether it has a definition, or has capacity for it."""
        return kind.text in self._indexes or len(self.texts) < MAX_ADDED

    def definition_index(self, kind: CompiledDefinition) -> int:
        """Return the index of a definition, which is added if it is new."""
        index = self._indexes.get(kind.text)
        if index is None:
            index = self._indexes[kind.text] = len(self.texts)
            self.texts.append(kind.text)
            self.kinds.append(kind)
        return index

    @property
    def usable(self) -> int:
        """The number of definitions whose sagas the next request can open.

        The request begins with `define_lines`.
        """
        return len(self.texts) if self.has_grown and not self.is_fixed else self.known_count

    def define_lines(self) -> list[str]:
        """Return the requests that add the definitions that the engine does not know."""
        lines: list[str] = []
        for text in self.texts[self.known_count :] if not self.is_fixed else ():
            line = protocol.define_line(text)
            if line is None:
                self.is_fixed = True
                break
            lines.append(line)
        return lines

    def read_reply(self, reply: str) -> None:
        """Read the engine's reply to such a request.

        After a refused definition the engine's indexes differ, so it is not requested to open
        sagas with later definitions.
        """
        if not self.is_fixed and protocol.is_defined(reply, self.known_count):
            self.known_count += 1
            self.has_grown = True
        else:
            self.is_fixed = True

    def all(self) -> list[DefinitionRow]:
        """Return all definitions as rows."""
        return self._rows(0, len(self.texts))

    def _rows(self, first: int, end: int) -> list[DefinitionRow]:
        indexes = range(first, end)
        return [(index, digest_of(self.texts[index]), self.texts[index]) for index in indexes]

    def to_store(self, index: int) -> list[DefinitionRow]:
        """Return the rows up to an index that the store does not have, and count them as stored."""
        rows = self._rows(self.stored_count, index + 1)
        self.stored_count = max(self.stored_count, index + 1)
        return rows


@dataclasses.dataclass(frozen=True, slots=True)
class ShardIdentity:
    """The constant data of a shard.

    Attributes:
        number: Its number in the store.
        name: Its name, with which the idempotency keys of its sagas begin.
        definitions: Its definitions.
    """

    number: int
    name: str
    definitions: ShardDefinitions


# -- its sagas, requests and commits


class ShardDriver:
    """The sagas of one shard, and its pending requests and commits.

    Attributes:
        identity: Its constant data.
        state: Its state; only `set_state` writes it.
        epoch: The fencing token of its owner.
        fence: The epoch and the server's timeline of its attempts. Both fence each write of an
            attempt's own transaction.
        new_shard: The shard's own row, until it is in the store.
        sagas: Its open sagas, by number.
        opens: Sagas to open.
        reports: Finished attempts to report.
        aborts: Abort requests to send.
        opens_sent: Sagas that the engine was requested to open and that may not be stored yet.
        reports_sent: Batches of reports that were sent and may not be stored yet.
        aborts_sent: Abort requests that were sent and may not be stored yet.
        events: The number of events that the store has, or will have after pending commits.
        opened: The number of sagas that it has opened.
        reserved: The number of sagas that it has opened or will open.
        is_full: Whether it had no capacity for a saga, and opens no more.
        commits_in_flight: The number of batches that are being stored.
        may_have_tasks: Whether the engine may have tasks.
        next_claims: The number of tasks to request next time.
        unanswered: The request that the engine has not answered; None if there is none.
    """

    __slots__ = (
        "identity",
        "state",
        "epoch",
        "fence",
        "new_shard",
        "sagas",
        "opens",
        "reports",
        "aborts",
        "opens_sent",
        "reports_sent",
        "aborts_sent",
        "events",
        "opened",
        "reserved",
        "is_full",
        "commits_in_flight",
        "may_have_tasks",
        "unanswered",
        "next_claims",
    )

    def __init__(
        self, identity: ShardIdentity, state: ShardState, epoch: int = 0, opened: int = 0
    ) -> None:
        self.identity = identity
        self.state = state
        self.epoch = epoch
        self.fence: tuple[int, str] = (-1, "")
        self.new_shard: NewShard | None = None
        self.sagas: dict[int, SagaInstance] = {}
        self.opens: deque[SagaInstance] = deque()
        self.reports: dict[Attempt, None] = {}
        self.aborts: list[Abort] = []
        self.opens_sent: dict[SagaInstance, None] = {}
        self.reports_sent: deque[Sequence[Attempt]] = deque()
        self.aborts_sent: list[Abort] = []
        self.events = self.commits_in_flight = 0
        self.opened = self.reserved = opened
        self.is_full = False
        self.may_have_tasks = False
        self.unanswered: EngineRequest | None = None
        self.next_claims = 1

    @classmethod
    def created(cls, identity: ShardIdentity, timeline: str = "") -> ShardDriver:
        """Make a shard that the store does not have yet. Its first batch holds its row."""
        driver = cls(identity, ShardState.IDLE, epoch=1)
        driver.fence = (driver.epoch, timeline)
        driver.new_shard = identity.name, identity.definitions.all()
        return driver

    @property
    def number(self) -> int:
        """Its number in the store."""
        return self.identity.number

    @property
    def name(self) -> str:
        """Its name."""
        return self.identity.name

    # -- its state

    def set_state(self, state: ShardState) -> None:
        """Set the state."""
        if Check.is_on:
            check(SHARD_TRANSITIONS, self.state, state)
        self.state = state

    @property
    def is_current(self) -> bool:
        """Whether it has the state that the store has, or will have after pending commits."""
        return self.state in (ShardState.IDLE, ShardState.STARTING, ShardState.ACTIVE)

    def has_room(self, capacity: int) -> bool:
        """Whether it can open one more saga."""
        is_open = self.state is not ShardState.CLOSED and not self.is_full
        return is_open and self.reserved < capacity

    @property
    def is_over(self) -> bool:
        """Whether no saga of it is open or about to be opened."""
        is_empty = not (self.sagas or self.commits_in_flight or self.opens or self.opens_sent)
        return is_empty and self.reserved == self.opened

    def unstored_reports(self) -> Iterable[Attempt]:
        """Return the finished attempts whose reports may not be stored yet."""
        return itertools.chain(self.reports, *self.reports_sent)

    # -- pending requests

    def open(self, saga: SagaInstance) -> None:
        """Add a saga to open here; sagas are opened in the order of these calls."""
        self.reserved += 1
        self.opens.append(saga)

    @property
    def has_undefined_open(self) -> bool:
        """Whether the next saga to open has a definition that the engine does not know."""
        return (
            bool(self.opens)
            and self.opens[0].definition_index >= self.identity.definitions.known_count
        )

    @property
    def needs_new_engine(self) -> bool:
        """Whether a new engine has to be started for such a definition."""
        return self.has_undefined_open and self.identity.definitions.is_fixed

    def withdraw(self, saga: SagaInstance) -> bool:
        """Remove a saga to open. Return whether the engine was not requested to open it yet."""
        if saga not in self.opens:
            return False
        self.opens.remove(saga)
        self.reserved -= 1
        return True

    def abort(self, abort: Abort) -> None:
        """Add an abort request."""
        abort.is_repeated = abort.saga.aborted
        self.aborts.append(abort)

    def suspended(self, attempt: Attempt, row: SuspensionRow, now: float) -> Effects:
        """Return effects that store the suspension of an attempt."""
        effects = self.effects(now)
        _put_suspension(effects.batch, attempt, row, self.number)
        effects.rare_effects.suspended.append((attempt, row))
        return effects

    def offered(self, attempt: Attempt, now: float) -> Effects:
        """Return effects that offer an attempt to external workers."""
        effects = self.effects(now)
        effects.batch.rare_rows.offers.append(offer_row(attempt, self.number, now))
        effects.rare_effects.offered.append(attempt)
        return effects

    def withdrawn(self, attempt: Attempt, now: float) -> Effects:
        """Return effects that withdraw an attempt from external workers."""
        effects = self.effects(now)
        withdrawal = Withdrawal(attempt.token(), self.number)
        effects.batch.rare_rows.withdrawn.append(withdrawal)
        effects.rare_effects.withdrawn.append((attempt, withdrawal))
        return effects

    def effects(self, now: float) -> Effects:
        """Return effects with an empty batch, which follows all earlier requests."""
        batch = Batch(self.identity.number, now, self.events, self.epoch)
        batch.new_shard = self.new_shard
        return Effects(batch)

    # -- to the engine

    def requests(self, free_slots: int, now: float = 0.0) -> list[str]:
        """Return the requests that are due, and remember them in `unanswered`.

        Args:
            free_slots: How many tasks may be claimed.
            now: Wall time in seconds. Sagas whose deadlines have passed are aborted as they are
                opened, before a task of theirs is claimed.

        Returns:
            Lines for the engine; none if nothing is due.
        """
        request = protocol.write_request(self, free_slots, now)
        self.unanswered = request if request.lines else None
        return request.lines

    # -- from the engine

    def replies(self, replies: Sequence[str], log_text: str, now: float) -> Effects | list[str]:
        """Read the engine's replies to the request.

        Args:
            replies: One reply for each line, in order.
            log_text: The event log's new lines.
            now: Wall time in seconds.

        Returns:
            The effects; or further lines for the engine, whose replies are passed next.

        Raises:
            EngineDisagrees: The engine's state differs from this program's.
        """
        request = self.unanswered
        assert request
        if request.effects is not None:
            reading = ReplyReader(self, request.effects)
            for number, reply in zip(request.shown_sagas, replies, strict=True):
                reading.shown(number, reply)
            return self._answered(request, request.effects)
        effects = request.effects = self.effects(now)
        batch = effects.batch
        batch.text, batch.lines = log_text, log_text.count("\n")
        request.shown_sagas = ReplyReader(self, effects).replies(request, replies)
        if request.shown_sagas:  # their ends go into the same batch
            return [protocol.show_line(number) for number in request.shown_sagas]
        return self._answered(request, effects)

    def _answered(self, request: EngineRequest, effects: Effects) -> Effects:
        begun = len(effects.dispatch)
        effects.unclaimed = request.claim_count - begun
        self.next_claims = min(MAX_CLAIMS, 2 * begun) if self.may_have_tasks else 1
        self.events += effects.batch.lines
        self.unanswered = None
        return effects

    # -- to the store, and from there

    def begin_commit(self, effects: Effects) -> None:
        """Note that a batch is being stored, or that effects without rows follow one."""
        if effects.batch or (
            self.commits_in_flight and (effects.rare.aborted or effects.rare.early)
        ):
            effects.is_written = True
            self.commits_in_flight += 1

    def committed(self, effects: Effects) -> None:
        """Apply effects whose batch is durable or empty."""
        if effects.is_written:
            self.commits_in_flight -= 1
            self.new_shard = None
        if self.reports_sent and self.reports_sent[0] is effects.reported:
            self.reports_sent.popleft()  # batches of reports are stored in their order
        if self.aborts_sent:
            self.aborts_sent = [
                abort for abort in self.aborts_sent if abort not in effects.rare.aborted
            ]
        for saga in effects.opened:
            self.opens_sent.pop(saga, None)
            saga.committed, saga.has_unchecked_key = True, False
            saga.started_at = effects.batch.at
        for saga in effects.ended:
            self.sagas.pop(saga.number, None)

    def failed(self, effects: Effects) -> int:
        """Note that a batch may not be durable, and call `fail`."""
        if effects.is_written:
            self.commits_in_flight -= 1
        return self.fail()

    def fail(self) -> int:
        """Discard the engine's state: the shard is `STALE` until it is recovered.

        If it is being recovered already, its state does not change.

        Returns:
            The number of requested tasks that will not be answered.
        """
        if self.is_current:
            self.set_state(ShardState.STALE)
        return self.drop_request()

    # -- back from the store (`core.recovery`)

    def loaded(self, rows: LoadedShard) -> None:
        """Take the epoch of the rows that were read."""
        if rows.epoch != self.epoch:
            self.epoch, self.new_shard = rows.epoch, None

    def clear_opens(self) -> None:
        """Remove all sagas to open."""
        self.opens_sent = {}
        self.opens.clear()
        self.reserved = self.opened

    def restart(self, rows: LoadedShard) -> None:
        """Forget all sagas, and continue after the stored event log. Sagas to open are kept."""
        self.set_state(ShardState.ACTIVE)
        self.fence = (rows.epoch, rows.timeline)
        self.events, self.opened = rows.events, rows.opened
        self.identity.definitions.stored_count = rows.definition_count
        self.reserved = self.opened + len(self.opens)
        self.sagas, self.reports, self.aborts, self.aborts_sent = {}, {}, [], []
        self.reports_sent.clear()
        self.may_have_tasks, self.next_claims = True, 1

    def drop_request(self) -> int:
        """Drop the request that the engine will not answer.

        Returns:
            As `fail`.
        """
        request, self.unanswered = self.unanswered, None
        return request.claim_count if request else 0


def _put_suspension(batch: Batch, attempt: Attempt, row: SuspensionRow, shard: int) -> None:
    """Add the rows to a batch: the suspension, the notes, the offer's state and the deliveries."""
    count = attempt.failures if row.reason in COUNTS_FAILURES else attempt.count
    rows = batch.rare_rows
    text, until = row.stored
    suspension = (text, count, attempt.waiting_since, until, row.error)
    rows.held.append((*attempt.row, *suspension))
    rows.spans += attempt.take_notes()
    # if its values cannot be read now, the attempt has a time that its row does not have
    is_unread = row.reason is Suspension.CANNOT_DECODE and attempt.until is not None
    if attempt.is_external and (is_unread or row.reason in RETRYABLE):
        needs_operator = row.until is None and not is_unread and not attempt.is_remote
        state = "person" if needs_operator else "suspended"
        rows.suspended.append((attempt.token(), shard, state))
    if attempt.request is not None:
        batch.answer(attempt.request, "true")
        attempt.rare.request = None
    if attempt.instance.kind.hooks:
        rows.deliveries += webhook_rows.suspension_deliveries(attempt, row, batch.at)


def early_report_effects(driver: ShardDriver, report: EarlyReport | Refusal, now: float) -> Effects:
    """Return effects that store a report. A refusal has no row, and waits for earlier commits.

    Raises:
        NotSerializable: The codec failed.
    """
    result = driver.effects(now)
    if isinstance(report, EarlyReport):
        result.batch.rare_rows.held.append(report.row(now))
        result.batch.answer(report.request, "true")
    result.rare_effects.early.append(report)
    return result
