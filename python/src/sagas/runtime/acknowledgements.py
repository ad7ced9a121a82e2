"""Which events each acknowledgement of a program rests on, for its record.

An acknowledgement rests on the events that were decided with its cause. They are noted when they
are decided, not when they are stored. So the record shows an acknowledgement that came too early.
"""

from __future__ import annotations

from collections.abc import Collection, Mapping
from typing import TYPE_CHECKING

from sagas.core.effects import NO_RARE_EFFECTS, Abort, Effects
from sagas.core.attempt.model import Attempt
from sagas.core.attempt.instance import SagaInstance
from sagas.core.recovery import Recovery
from sagas.storage.interface import Database
from sagas.storage.record_file import BEYOND, RecordFile, Rest

if TYPE_CHECKING:
    from sagas.runtime.instances import Instances, Waiters


class Acknowledgements:
    """Records what each acknowledgement rests on.

    An acknowledgement happens when a function is called, and when a waiting caller is woken.
    """

    def __init__(self, record: RecordFile) -> None:
        self._record, self._acknowledge, self._sessions = (
            record,
            record.acknowledge,
            record.sessions,
        )
        self._aborts: dict[SagaInstance, dict[Abort, Rest]] = {}
        self._called: Rest | None = None  # what the last call rested on
        self._woken: Rest | None = None  # what the last notification rested on
        # callers that wait until a report is stored; if there are none, no report is noted
        self._report_waiters: Mapping[Attempt, object] = {}

    @classmethod
    def of(cls, store: Database) -> Acknowledgements | None:
        """Return the acknowledgements of a program, or None if it has no record."""
        return cls(store.record) if store.record else None

    def follow(self, sagas: Instances, kept: Waiters[Attempt]) -> None:
        """Have this object called before callers are notified."""
        sagas.starts.before_notify, sagas.ends.before_notify = self.started, self.ended
        sagas.before_abort_answer = self.aborted
        kept.before_notify, self._report_waiters = self.reported, kept.futures

    # -- what is decided

    def decided(self, effects: Effects, rest: Rest | None = None) -> None:
        """Note effects that the engine has decided and that are not stored yet.

        They rest on `rest`, or by default on all events up to the last one of the engine's reply.
        """
        if rest is None:
            batch = effects.batch
            session = self._sessions.get(batch.shard)
            if session is None or session.present != batch.epoch:
                session = self._record.session(batch.shard, batch.epoch)
            rest = session, batch.first + batch.lines
        for attempt in effects.dispatch:
            attempt.rest = rest
        if effects.opened:
            for saga in effects.opened:
                saga.rest = rest
        if effects.ended:
            for saga in effects.ended:
                saga.end_rest = rest
        if self._report_waiters:
            for attempt in effects.reported:
                attempt.rest = rest
        if effects.rare is not NO_RARE_EFFECTS:
            for abort in effects.rare.aborted:
                self._aborts.setdefault(abort.saga, {})[abort] = rest

    def recovered(self, recovery: Recovery) -> None:
        """Note a recovered shard: what continues rests on the events that are stored."""
        batch = recovery.effects.batch
        rest = self._record.session(batch.shard, batch.epoch), batch.first
        self.over(recovery.gone)
        self.over(recovery.restored)
        for saga in recovery.restored:
            saga.rest = rest
        for attempt in recovery.forgotten:  # its saga may be restored
            attempt.rest = None
        for attempt in recovery.resumed:
            attempt.rest = rest
        for abort in recovery.aborted:
            self._aborts.setdefault(abort.saga, {})[abort] = rest
        self.decided(recovery.effects, rest)

    def lost(self, effects: Effects) -> None:
        """Forget effects that were not stored.

        A later acknowledgement of them rests on the recovery of the shard.
        """
        for saga in effects.opened:
            saga.rest = None
        for saga in effects.ended:
            saga.end_rest = None
        for attempt in (*effects.reported, *effects.dispatch):
            attempt.rest = None
        for abort in effects.rare.aborted:
            self._aborts.get(abort.saga, {}).pop(abort, None)

    def over(self, sagas: Collection[SagaInstance]) -> None:
        """Forget sagas that this program no longer executes."""
        for saga in sagas:
            saga.rest = saga.end_rest = None
        if self._aborts:
            for saga in sagas:
                self._aborts.pop(saga, None)

    # -- what is acknowledged

    def called(self, attempt: Attempt) -> None:
        """Record that a function is about to be called.

        If nothing was decided about the attempt, or if its saga belongs to another program, the
        call rests on events that do not exist. The record shows that as an error.
        """
        try:
            rest = None if attempt.instance.rest is None else attempt.rest
        except AttributeError:  # nothing was noted
            rest = None
        if rest is None:
            if shard := attempt.instance.shard:
                self._acknowledge((self._record.session(shard.number, shard.epoch), BEYOND), "call")
        elif rest is not self._called:
            self._called = rest
            self._acknowledge(rest, "call")

    def started(self, saga: SagaInstance) -> None:
        """Record that a caller is about to be notified that a saga is started."""
        self._wake(getattr(saga, "rest", None))

    def ended(self, saga: SagaInstance) -> None:
        """Record that a caller is about to be notified that a saga has ended."""
        self._wake(getattr(saga, "end_rest", None))

    def reported(self, attempt: Attempt) -> None:
        """Record that a caller is about to be notified that a report is stored."""
        if getattr(attempt.instance, "rest", None) is not None:
            self._wake(getattr(attempt, "rest", None))

    def aborted(self, abort: Abort) -> None:
        """Record that a caller is about to be notified of the outcome of an abort."""
        self._wake(self._aborts.get(abort.saga, {}).get(abort))

    def _wake(self, rest: Rest | None) -> None:
        if rest is not None and rest is not self._woken:
            self._woken = rest
            self._acknowledge(rest, "wake")

    def replied(self, saga: SagaInstance | None) -> None:
        """Record that a service is about to reply that a saga is started.

        `saga` is None if the saga is over.
        """
        rest: Rest | None = getattr(saga, "rest", None)
        if rest is not None:
            self._acknowledge(rest, "reply")
