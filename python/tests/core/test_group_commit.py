"""The delay of a commit, by measured times only."""

from __future__ import annotations

import pytest

from sagas.core.shard.group_commit import SMALL_COMMIT, MAX_WAIT, GroupCommitPolicy, first_half


def taught(each: float) -> GroupCommitPolicy:
    """Return a delay that has measured this many seconds from a call to its commit."""
    policy = GroupCommitPolicy()
    for _ in range(100):
        policy.committed(1, 0.0)
        policy.batch_arrived(each)
    return policy


def test_it_waits_for_nothing_that_it_has_not_seen() -> None:
    """Before the first commit the interval of calls is unknown."""
    policy = GroupCommitPolicy()
    policy.batch_arrived(1.0)
    assert not policy.should_wait(10, 1, 1.0, 2.0) and policy.until is None


@pytest.mark.parametrize(
    ("coming", "rows", "latency", "waits"),
    [
        (9, 8, 0.01, True),
        (8, 8, 0.01, False),
        (0, 0, 0.01, False),
        (9, 8, 0.0001, False),
        (99, SMALL_COMMIT, 0.05, False),
        (99, SMALL_COMMIT, 0.25, True),
    ],
)
def test_it_waits_for_more_than_it_has_if_that_comes_soon(
    coming: int, rows: int, latency: float, waits: bool
) -> None:
    """With few rows it waits up to four times the duration of a commit, with many rows
    half of it.
    """
    assert taught(0.001).should_wait(coming, rows, latency, 7.0) is waits


def test_it_waits_no_longer_than_it_says() -> None:
    """It waits at most twice the interval of the calls, and at most `MAX_WAIT`; then the batch is
    written.
    """
    policy = taught(0.0001)
    assert policy.should_wait(9, 8, 0.01, 7.0) and policy.until == pytest.approx(7.0018, abs=1e-5)
    assert policy.should_wait(9, 8, 0.01, 7.001)
    assert not policy.should_wait(9, 8, 0.01, 7.002) and policy.until is None
    slow = taught(1.0)
    assert slow.should_wait(9, 8, 1.0, 7.0) and slow.until == 7.0 + MAX_WAIT


def test_it_is_written_once_nothing_comes_any_more() -> None:
    """The batch is written, whatever the earlier decision was."""
    policy = taught(0.001)
    assert policy.should_wait(9, 8, 0.01, 7.0)
    assert not policy.should_wait(0, 8, 0.01, 7.0001) and policy.until is None


def test_many_calls_are_reported_in_two_halves() -> None:
    """Few calls stay together."""
    assert [first_half(ready) for ready in (0, 1, 7, 8, 16, 17, 1000)] == [0, 1, 7, 4, 8, 9, 500]
