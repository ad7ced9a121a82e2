"""`schedule_times`: the times of a schedule, without a store."""

from __future__ import annotations

import datetime

from sagas.definition.timing import UTC, timing


def schedule_times(
    *,
    cron: str | None = None,
    every: datetime.timedelta | None = None,
    timezone: str = "UTC",
    after: datetime.datetime,
    count: int = 5,
) -> list[datetime.datetime]:
    """Return the next times of a schedule.

    Args:
        cron: As of `sagas.Store.schedule`.
        every: As of `sagas.Store.schedule`.
        timezone: As of `sagas.Store.schedule`.
        after: A datetime with a time zone. All returned times are later.
        count: Number of times (default: 5).

    Returns:
        The times, in UTC.

    Raises:
        InvalidSchedule: The times or the time zone are not valid.

    Example:
        >>> import datetime
        >>> start = datetime.datetime(2026, 3, 28, tzinfo=datetime.timezone.utc)
        >>> for at in sagas.testing.schedule_times(
        ...     cron="0 2 * * *", timezone="Europe/Berlin", after=start, count=2
        ... ):
        ...     print(at)
        2026-03-28 01:00:00+00:00
        2026-03-29 01:00:00+00:00
    """
    schedule, at, times = timing(cron, every, timezone, "last"), after.timestamp(), []
    for _ in range(count):
        at = schedule.next_after(at)
        times.append(datetime.datetime.fromtimestamp(at, UTC))
    return times
