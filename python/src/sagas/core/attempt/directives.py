"""`Decision`: what the runtime does with an attempt after an event."""

from __future__ import annotations

import dataclasses
import enum

from sagas.core.attempt.declared_values import OptionCalls
from sagas.core.attempt.model import SuspensionRow


class Do(enum.Enum):
    """Name what the runtime does with an attempt now."""

    NOTHING = enum.auto()
    CALL = enum.auto()
    """Call its function, within the limits."""
    READ = enum.auto()
    """Read values that are not held, then ask for the next decision. The state is unchanged."""
    ASK = enum.auto()
    """Call functions of the definition, put their results into `returned` of the attempt, and ask
    for the next decision. The state is unchanged.
    """
    OFFER = enum.auto()
    """Offer it to external workers: it is suspended until one of them reports it."""
    WITHDRAW = enum.auto()
    """Withdraw it from external workers, unless one of them has it."""
    FOLLOW = enum.auto()
    """Start its child saga unless it exists, and report the attempt when the child has ended. If
    the saga is aborted, abort the child. The runtime may follow the child already.
    """
    SUSPEND = enum.auto()
    """It is suspended: store its row and set a timer, if the decision has them."""
    REPORT = enum.auto()
    """It is finished: report it to its shard."""
    REPORT_AGAIN = enum.auto()
    """As `REPORT`, if an earlier report was not stored: its worker may have reported it, too."""


@dataclasses.dataclass(frozen=True, slots=True)
class Decision:
    """Say what the runtime does with an attempt, whose state is changed already.

    Attributes:
        do: What the runtime does.
        row: The row to store. When it is stored, the runtime calls `AttemptMachine.stored`.
        timer: Whether to set a timer now. When it fires, the runtime calls
            `AttemptMachine.timer`.
        event: The name and the detail of an event to emit.
        option_calls: The functions to call, for `ASK`.
    """

    do: Do
    row: SuspensionRow | None = None
    timer: bool = False
    event: tuple[str, str] | None = None
    option_calls: OptionCalls | None = None


NOTHING = Decision(Do.NOTHING)
CALL = Decision(Do.CALL)
OFFER = Decision(Do.OFFER)
REPORT = Decision(Do.REPORT)
REPORT_AGAIN = Decision(Do.REPORT_AGAIN)
SLEEP = Decision(Do.SUSPEND, timer=True)
HELD = Decision(Do.SUSPEND)
WITHDRAW = Decision(Do.WITHDRAW)
READ = Decision(Do.READ)
FOLLOW = Decision(Do.FOLLOW)
