"""The policy of group commit: write now, or wait for more rows.

Two commits in quick succession take the database twice the time of one, and this program as well.
But a commit does not wait for fewer rows than it has: the calls under way form at least two halves,
and one half is written while the functions of the other half are called.
"""

from __future__ import annotations

MAX_WAIT = 0.005
"""The longest wait of a commit, in seconds."""
WAIT_SHARE, SMALL_WAIT_SHARE = 0.5, 4.0
"""Shares of the time that a commit takes: it waits for rows that arrive within that share. A commit
of few rows uses the larger share, because each commit also costs this program a request to the
engine and some turns of the loop.
"""
SMALL_COMMIT = 64
"""A commit of fewer rows is small."""
MIN_SPLIT = 8
"""Fewer calls are not reported in two halves: a request to the engine and a commit cost more than
the calls.
"""
AVERAGED = 8
"""The approximate number of recent commits in the moving average."""


def first_half(ready: int) -> int:
    """Return how many of the finished calls are reported at once if no commit is under way.

    From then on the two halves take turns.
    """
    return ready if ready < MIN_SPLIT else (ready + 1) // 2


class GroupCommitPolicy:
    """Decide whether a commit waits for more rows.

    It measures how soon a function call that waits for nothing reaches a commit. Times are seconds
    of one monotonic clock.

    Attributes:
        until: When the wait of the next commit ends; None if it does not wait.
    """

    def __init__(self) -> None:
        self.until: float | None = None
        self._each = 0.0
        self._since: float | None = None
        self._count = 0

    def committed(self, calls: int, now: float) -> None:
        """Note the end of a commit, after which `calls` functions are called."""
        self._since, self._count = (now, calls) if calls else (None, 0)

    def batch_arrived(self, now: float) -> None:
        """Note that a batch arrived for the next commit."""
        if self._since is not None:
            took, self._since = now - self._since, None
            self._each += (min(took / self._count, MAX_WAIT) - self._each) / AVERAGED

    def is_soon(self, coming: int, rows: int, latency: float) -> bool:
        """Return whether the calls under way reach the commit soon enough to wait for them.

        Args:
            coming: The number of calls that are about to reach a commit.
            rows: The number of rows that the commit has.
            latency: Seconds that a commit takes.
        """
        share = SMALL_WAIT_SHARE if rows < SMALL_COMMIT else WAIT_SHARE
        return rows < coming and 0 < coming * self._each < latency * share

    def should_wait(self, coming: int, rows: int, latency: float, now: float) -> bool:
        """Return whether a commit waits. The caller asks again at `until` at the latest.

        Args:
            coming: The number of calls that are about to reach the commit.
            rows: The number of rows that it has.
            latency: Seconds that a commit takes.
            now: The time.
        """
        if self.until is not None:
            if coming and now < self.until:
                return True
            self.until = None
            return False
        if not self.is_soon(coming, rows, latency):
            return False
        self.until = now + min(2 * coming * self._each, MAX_WAIT)
        return True
