"""The effects of the engine's replies: what a shard stores, and what its runtime does then."""

from __future__ import annotations

import dataclasses
from collections.abc import Sequence

from sagas.core.attempt.model import Attempt, SuspensionRow
from sagas.core.shard.batch import Batch, RequestRef, Withdrawal
from sagas.core.reports import EarlyReport, Refusal
from sagas.core.attempt.instance import SagaInstance


@dataclasses.dataclass(eq=False, slots=True)
class Abort:
    """A request to abort a saga.

    Attributes:
        saga: The saga.
        command: The operator's command to answer in the commit, if any.
        done: Whether this request aborted the saga; None until that is known.
        is_repeated: Whether another request aborted the saga before.
    """

    saga: SagaInstance
    command: RequestRef = None
    done: bool | None = None
    is_repeated: bool = False


@dataclasses.dataclass(eq=False, slots=True)
class RareEffects:
    """Effects that most replies do not have.

    The runtime applies at once:
        displaced: Sagas that the full shard cannot open: another shard opens them.

    It applies after the batch is durable, in this order:
        suspended: Attempts, each with the stored row of its suspension.
        offered: Attempts that are now offered to external workers.
        withdrawn: Attempts that are not offered any more, if their withdrawal is done.
        draining: Sagas that drain because a step failed: their waiting attempts that were not
            called are given up (`AttemptMachine.drain`).
        overdue: Sagas that are aborted because their deadlines had passed when they were opened
            or recovered. If they are opened now, this follows their start.
        taken: The first attempts of steps that were reported early, committed before their sagas
            recover, each with its `event`.
        early: Early reports that are stored or refused.
        aborted: Abort requests that were answered, each with `done`.
        planned: Sagas that adopted a plan, which is their `answer`.
    """

    displaced: list[SagaInstance] = dataclasses.field(default_factory=list)
    suspended: list[tuple[Attempt, SuspensionRow]] = dataclasses.field(default_factory=list)
    offered: list[Attempt] = dataclasses.field(default_factory=list)
    withdrawn: list[tuple[Attempt, Withdrawal]] = dataclasses.field(default_factory=list)
    draining: list[SagaInstance] = dataclasses.field(default_factory=list)
    overdue: list[SagaInstance] = dataclasses.field(default_factory=list)
    taken: Sequence[Attempt] = ()
    early: list[EarlyReport | Refusal] = dataclasses.field(default_factory=list)
    aborted: list[Abort] = dataclasses.field(default_factory=list)
    planned: list[SagaInstance] = dataclasses.field(default_factory=list)


NO_RARE_EFFECTS = RareEffects()
"""The rare effects of most `Effects`. Nothing is added to this object."""


class Effects:
    """The effects of the engine's replies to one request.

    The runtime applies at once:
        unclaimed: The number of tasks that were requested but do not exist.

    It applies after the batch is durable, in this order:
        reported: Attempts whose reports are stored, each with its `event`.
        opened: Sagas that are started.
        ended: Sagas that have ended, with `phase` and `end`.
        dispatch: Attempts that start.

    Attributes:
        batch: The rows to store. It is false if there are none.
        is_written: Whether the batch was passed to the store (`ShardDriver.begin_commit`).
        rare: Further effects. Add them to `rare_effects`.
    """

    __slots__ = (
        "batch",
        "unclaimed",
        "reported",
        "opened",
        "ended",
        "dispatch",
        "is_written",
        "rare",
    )

    def __init__(self, batch: Batch) -> None:
        self.batch = batch
        self.unclaimed = 0
        self.reported: Sequence[Attempt] = ()
        self.opened: Sequence[SagaInstance] = ()
        self.ended: list[SagaInstance] = []
        self.dispatch: list[Attempt] = []
        self.is_written = False
        self.rare = NO_RARE_EFFECTS

    @property
    def rare_effects(self) -> RareEffects:
        """The rare effects, created at the first use, to add to."""
        if self.rare is NO_RARE_EFFECTS:
            self.rare = RareEffects()
        return self.rare
