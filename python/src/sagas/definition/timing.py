"""Times at which a schedule starts its sagas: of cron expressions, or at equal intervals.

The package `croniter` is not used: its maintainer abandoned it in 2024, and it does not define
what happens to hours that a clock change skips or repeats. This module defines it:

- If the expression names hours, times are those of the wall clock. A time that a clock change skips
  moves by the length of the change. A time that a clock change repeats comes once.
- If the hour is `*`, or `*/N`, a time comes whenever the wall clock shows it.
"""

from __future__ import annotations

import dataclasses
import datetime
import enum
import re
from collections.abc import Iterator
from typing import Any
from zoneinfo import ZoneInfo, ZoneInfoNotFoundError

from sagas.base.errors import InvalidSchedule
from sagas.definition.arguments import BELOW, shown

MINUTE, DAY = datetime.timedelta(minutes=1), datetime.timedelta(days=1)
MAX_DAYS = 366 * 8 + 1
"""Days in which the next time is searched: a 29th of February may be eight years away."""
MACROS = {
    "@yearly": "0 0 1 1 *",
    "@annually": "0 0 1 1 *",
    "@monthly": "0 0 1 * *",
    "@weekly": "0 0 * * 0",
    "@daily": "0 0 * * *",
    "@midnight": "0 0 * * *",
    "@hourly": "0 * * * *",
}
MONTHS = "jan feb mar apr may jun jul aug sep oct nov dec".split()
DAYS = "sun mon tue wed thu fri sat".split()
FIELDS: tuple[tuple[str, int, int, list[str]], ...] = (
    ("minute", 0, 59, []),
    ("hour", 0, 23, []),
    ("day of month", 1, 31, []),
    ("month", 1, 12, MONTHS),
    ("day of week", 0, 7, DAYS),
)
PART = re.compile(r"(\*|\w+)(?:-(\w+))?(?:/(\d+))?\Z")


def _number(field: str, text: str, low: int, high: int, names: list[str]) -> int:
    if text.lower() in names:
        return names.index(text.lower()) + low
    if not text.isdecimal() or not low <= int(text) <= high:
        raise ValueError(f"{field} {text!r}: must be from {low} to {high}")
    return int(text)


def _values(text: str, field: str, low: int, high: int, names: list[str]) -> frozenset[int]:
    """Return the numbers that a field of an expression selects."""
    numbers = set[int]()
    for part in text.split(","):
        match = PART.match(part)
        if not match or match[1] == "*" and match[2]:
            raise ValueError(f"{field} {part!r}: must be *, a number, A-B, */N or A-B/N")
        first, last = low, high
        if match[1] != "*":
            first = last = _number(field, match[1], low, high, names)
            if match[2]:
                last = _number(field, match[2], low, high, names)
            elif match[3]:
                last = high
        step = int(match[3] or 1)
        if first > last or not step:
            raise ValueError(f"{field} {part!r}: the range is empty")
        numbers.update(range(first, last + 1, step))
    return frozenset(numbers)


@dataclasses.dataclass(frozen=True)
class Cron:
    """A cron expression of five fields.

    Attributes:
        minutes, hours, days, months, weekdays: The numbers of each field; 0 is Sunday.
        is_hourly: Whether the hour is `*` or `*/N`.
        is_either: Whether it names days of the month and of the week: then either is enough.
    """

    minutes: frozenset[int]
    hours: frozenset[int]
    days: frozenset[int]
    months: frozenset[int]
    weekdays: frozenset[int]
    is_hourly: bool
    is_either: bool

    @classmethod
    def parse(cls, text: str) -> Cron:
        """Parse an expression.

        Raises:
            ValueError: The expression is not valid; the message names the field.
        """
        fields = MACROS.get(text.strip().lower(), text).split()
        if len(fields) != len(FIELDS):
            raise ValueError(
                "must have five fields: minute, hour, day of month, month, day of week"
            )
        values = [_values(part, *field) for part, field in zip(fields, FIELDS)]
        minutes, hours, days, months, weekdays = values
        is_either = not fields[2].startswith("*") and not fields[4].startswith("*")
        weekdays = frozenset(day % 7 for day in weekdays)
        is_hourly = fields[1].startswith("*")
        return cls(minutes, hours, days, months, weekdays, is_hourly, is_either)

    def _has_day(self, day: datetime.date) -> bool:
        if day.month not in self.months:
            return False
        of_month, of_week = day.day in self.days, day.isoweekday() % 7 in self.weekdays
        return of_month or of_week if self.is_either else of_month and of_week

    def next_after(self, at: datetime.datetime, zone: ZoneInfo) -> datetime.datetime | None:
        """Return the first time after an instant, in UTC; None if it is years away."""
        times = self._instants(at, zone) if self.is_hourly else self._wall_times(at, zone)
        return next(times, None)

    def _wall_times(self, at: datetime.datetime, zone: ZoneInfo) -> Iterator[datetime.datetime]:
        first = at.astimezone(zone).date() - DAY  # times that are skipped on that day come later
        for day in (first + count * DAY for count in range(MAX_DAYS)):
            if self._has_day(day):
                times = (
                    datetime.datetime.combine(day, datetime.time(hour, minute), zone)
                    for hour in self.hours
                    for minute in self.minutes
                )
                yield from sorted(utc for time in times if (utc := _utc(time)) > at)

    def _instants(self, at: datetime.datetime, zone: ZoneInfo) -> Iterator[datetime.datetime]:
        time = at.replace(second=0, microsecond=0) + MINUTE
        end = at + MAX_DAYS * DAY
        while time < end:
            local = time.astimezone(zone)
            if not self._has_day(local.date()):
                midnight = datetime.datetime.combine(local.date() + DAY, datetime.time(), zone)
                time = max(time + MINUTE, _utc(midnight))
                continue
            if local.minute in self.minutes and local.hour in self.hours:
                yield time
            time += MINUTE


def _utc(time: datetime.datetime) -> datetime.datetime:
    return time.astimezone(datetime.timezone.utc)


# -- schedules


MAX_NAME = 128
UTC = datetime.timezone.utc
APART = 60.0
"""Minimum seconds between two times of a cron expression."""
LATE = 60.0
"""Seconds by which a time may be late without being missed."""


class CatchUp(enum.StrEnum):
    """The reaction to times that were missed because no node ran."""

    LAST = "last"
    """Start the saga of the last one."""
    ALL = "all"
    """Start the saga of each one, in order."""
    SKIP = "skip"
    """Start none of their sagas."""


class Overlap(enum.StrEnum):
    """The reaction to a time while the saga of the previous time is open."""

    ALLOW = "allow"
    """Start its saga."""
    SKIP = "skip"
    """Do not start its saga."""
    QUEUE = "queue"
    """Start its saga after the open one has ended."""


MAX_MISSED = 100
"""Maximum number of missed times whose sagas are started (the default)."""


@dataclasses.dataclass(frozen=True, slots=True)
class Timing:
    """The times of a cron expression, or times at equal intervals.

    Attributes:
        cron: The expression; the empty text if there is none.
        every: Seconds of an interval; 0 with `cron`. The times are multiples of it since 1970.
        timezone: The time zone of the expression.
        catch_up: The reaction to times that were missed.
        max_missed: Maximum number of missed times whose sagas are started: the last ones.
        overlap: The reaction to a time while the saga of the previous time is open.
    """

    cron: str
    every: float
    timezone: str
    catch_up: CatchUp
    max_missed: int = MAX_MISSED
    overlap: Overlap = Overlap.ALLOW

    @property
    def policy(self) -> str:
        """The stored text of `catch_up`, `max_missed` and `overlap`, without defaults."""
        parts = [self.catch_up.value]
        parts += [f"max={self.max_missed}"] if self.max_missed != MAX_MISSED else []
        parts += [f"overlap={self.overlap}"] if self.overlap is not Overlap.ALLOW else []
        return " ".join(parts)

    def next_after(self, at: float) -> float:
        """Return the first time after another one, in seconds since 1970.

        Raises:
            InvalidSchedule: There is none, or this system does not have the time zone.
        """
        if self.every:
            return (self._passed(at) + 1) * self.every
        start = datetime.datetime.fromtimestamp(at, UTC)
        time = Cron.parse(self.cron).next_after(start, self._zone())
        if time is None:
            raise InvalidSchedule(f"cron={self.cron!r}: this day never comes")
        return time.timestamp()

    def _zone(self) -> ZoneInfo:
        try:
            return ZoneInfo(self.timezone)
        except (ZoneInfoNotFoundError, ValueError, OSError) as error:
            raise InvalidSchedule(
                f"timezone={shown(self.timezone)}: this system does not have the time zone. "
                "Install tzdata"
            ) from error

    def due(self, next_at: float, now: float, max_missed: int) -> tuple[list[float], float]:
        """Return the times whose sagas are due now, and the first time after them.

        Args:
            next_at: The first time whose saga was not started.
            now: The present time in seconds since 1970.
            max_missed: Maximum number of times. With `CatchUp.ALL`, more times may be due after
                them.
        """
        if self.catch_up is not CatchUp.ALL:
            last = self._last(next_at, now)
            is_missed = self.catch_up is CatchUp.SKIP and now - last > LATE
            return [] if is_missed else [last], self.next_after(last)
        times, at = list[float](), self.first_of(next_at, now)
        while at <= now and len(times) < max_missed:
            times.append(at)
            at = self.next_after(at)
        return times, at

    def first_of(self, next_at: float, now: float) -> float:
        """Return the first of the last `self.max_missed` times, or `next_at` if it is later.

        It does not list all times since `next_at`, which may be millions.
        """
        if self.every:
            return max(next_at, (self._passed(now) - self.max_missed + 1) * self.every)
        span = self.max_missed * APART
        while (start := now - span) > next_at:
            times, at = list[float](), self.next_after(start)
            while at <= now:
                times.append(at)
                at = self.next_after(at)
            if len(times) >= self.max_missed:
                return times[-self.max_missed]
            span *= 4
        return next_at

    def missed(self, next_at: float, now: float) -> int:
        """Return the number of times from `next_at` until now, at most `self.max_missed`."""
        count, at = 0, self.first_of(next_at, now)
        while at <= now:
            count, at = count + 1, self.next_after(at)
        return count

    def _passed(self, at: float) -> float:
        """Return the number of intervals from 1970 until a time."""
        intervals = at // self.every
        # a multiple may be rounded down, so that it is not counted yet
        return intervals + ((intervals + 1) * self.every <= at)

    def _last(self, first: float, now: float) -> float:
        """Return the last time from `first` until now.

        It does not list all times between them, which may be millions.
        """
        if self.every:
            return self._passed(now) * self.every
        low, high = first - 1, now
        while high - low > APART / 2:  # the last one is after `low`, and not after `high`
            middle = (low + high) / 2
            if self.next_after(middle) <= now:
                low = middle
            else:
                high = middle
        return self.next_after(low)


def policy_of(stored: str) -> tuple[CatchUp, int, Overlap]:
    """Return `catch_up`, `max_missed` and `overlap` from the text of `Timing.policy`."""
    catch_up, *parts = stored.split(" ")
    options = dict(part.split("=") for part in parts)
    max_missed, overlap = int(options.get("max", MAX_MISSED)), Overlap(
        options.get("overlap", "allow")
    )
    return CatchUp(catch_up), max_missed, overlap


def timing(
    cron: Any,
    every: Any,
    timezone: Any,
    catch_up: Any,
    max_missed: Any = MAX_MISSED,
    overlap: Any = Overlap.ALLOW,
) -> Timing:
    """Return the timing for the arguments of `Store.schedule`, which it checks.

    Raises:
        InvalidSchedule: An argument is not valid, or no time ever comes.
    """
    if (cron is None) == (every is None):
        raise InvalidSchedule(
            'a schedule has cron= or every=: cron="0 2 * * *", every=timedelta(hours=1)'
        )
    seconds = every.total_seconds() if isinstance(every, datetime.timedelta) else every
    if every is not None and (not isinstance(seconds, (int, float)) or not 1 <= seconds < 1e9):
        raise InvalidSchedule(f"every={shown(every)}: must be a timedelta of at least a second")
    try:
        catch_up_policy = CatchUp(catch_up)
    except ValueError:
        names = ", ".join(CatchUp)
        raise InvalidSchedule(f"catch_up={shown(catch_up)}: must be one of {names}") from None
    try:
        overlap_policy = Overlap(overlap)
    except ValueError:
        names = ", ".join(Overlap)
        raise InvalidSchedule(f"overlap={shown(overlap)}: must be one of {names}") from None
    if (
        not isinstance(max_missed, int)
        or isinstance(max_missed, bool)
        or not 1 <= max_missed <= 10_000
    ):
        raise InvalidSchedule(f"max={shown(max_missed)}: must be an integer from 1 to 10,000")
    try:
        ZoneInfo(timezone)
    except (ZoneInfoNotFoundError, ValueError, TypeError, OSError) as error:
        raise InvalidSchedule(
            f"timezone={shown(timezone)}: must be a time zone of the system, for example "
            '"Europe/Berlin"'
        ) from error
    if cron is not None:
        try:
            Cron.parse(cron)
        except (ValueError, AttributeError, TypeError) as error:
            raise InvalidSchedule(f"cron={shown(cron)}: {error}") from error
    interval = float(seconds or 0)
    checked = Timing(cron or "", interval, timezone, catch_up_policy, max_missed, overlap_policy)
    checked.next_after(0.0)
    return checked


def check_name(name: Any) -> None:
    """Raise `InvalidSchedule` if a name is not valid for a schedule."""
    is_text = isinstance(name, str) and 0 < len(name) <= MAX_NAME and name.isprintable()
    if not is_text or "@" in name or BELOW in name:
        raise InvalidSchedule(
            f"schedule {shown(name)}: a name must have 1 to {MAX_NAME} printable "
            f"characters without '@' and {BELOW!r}"
        )


def key_of(name: str, at: float) -> str:
    """Return the key of the saga that a schedule starts at a time."""
    return f"{name}@{datetime.datetime.fromtimestamp(at, UTC):%Y-%m-%dT%H:%M:%SZ}"
