"""The table `schedules`: its statements, for both databases."""

from __future__ import annotations

import dataclasses
import json
from typing import Any

from sagas.base.errors import CannotDecode, InvalidSchedule, NoSuchSchedule
from sagas.definition.payloads import PLAIN, Payloads
from sagas.definition.timing import CatchUp, Overlap, Timing, policy_of
from sagas.storage import codec_note
from sagas.storage.admin import Row, Source

COLUMNS = """
name, saga, version, input, labels, cron, every, timezone, catch_up, next_at, last_at, paused, error
"""
ALL = f"SELECT {COLUMNS} FROM schedules ORDER BY name"
DUE = f"SELECT {COLUMNS} FROM schedules WHERE paused = 0 ORDER BY next_at, name"
BY_NAME = f"SELECT {COLUMNS} FROM schedules WHERE name = ?"
SAME = "saga version input labels cron every timezone catch_up".split()
PUT = f"""
INSERT INTO schedules(name, {", ".join(SAME)}, next_at, paused)
VALUES(?, ?, ?, ?, ?, ?, ?, ?, ?, ?, 0)
ON CONFLICT(name) DO UPDATE SET {", ".join(f"{name} = excluded.{name}" for name in SAME)},
  next_at = excluded.next_at, error = NULL
WHERE {" OR ".join(f"schedules.{name} <> excluded.{name}" for name in SAME)}
"""
"""A schedule that is declared again without a change keeps its next time."""
LOCK = "UPDATE schedules SET input = input WHERE name = ? RETURNING input"
"""Returns the stored input, and locks the row until the transaction ends."""
ADVANCE = """
UPDATE schedules SET next_at = ?, last_at = coalesce(?, last_at),
  error = coalesce(?, CASE WHEN paused = 1 THEN error END)
WHERE name = ? AND next_at = ? AND cron = ? AND every = ? AND timezone = ?
"""
"""Changes the schedule only if its times are still those that were read.

Of two nodes, the second changes nothing. A change of the schedule may leave its next time
unchanged, so the other columns are compared, too.
"""


@dataclasses.dataclass(frozen=True, slots=True)
class Schedule:
    """Describe a schedule.

    Attributes:
        name: Its name, with which the keys of its sagas begin.
        saga: The name of the definition that it starts.
        version: The version of the definition.
        input: What its sagas read as `task.input`, as JSON.
        labels: The labels of its sagas.
        cron: The cron expression, or None.
        every: Seconds between two sagas, or None.
        timezone: The time zone of the expression.
        catch_up: What to do with missed times: `last`, `all` or `skip`.
        max: Maximum number of missed times that are started.
        overlap: What to do at a time while the previous saga is open: `allow`, `skip` or
            `queue`.
        next_at: Wall time of its next saga, in seconds since 1970; if paused, without meaning.
        last_at: Wall time of its last saga, or None.
        paused: Whether it starts nothing.
        error: Why its last saga could not be started, or what was not started; or None.
    """

    name: str
    saga: str
    version: int
    input: Any
    labels: dict[str, str]
    cron: str | None
    every: float | None
    timezone: str
    catch_up: str
    max: int
    overlap: str
    next_at: float
    last_at: float | None
    paused: bool
    error: str | None

    @property
    def timing(self) -> Timing:
        """The times at which it starts its sagas."""
        every, catch_up = self.every or 0.0, CatchUp(self.catch_up)
        more = self.max, Overlap(self.overlap)
        return Timing(self.cron or "", every, self.timezone, catch_up, *more)


def of_row(row: Row) -> Schedule:
    """Return the schedule of a row."""
    name, saga, version, input, labels, cron, every, *rest = row
    timezone, policy, next_at, last_at, paused, error = rest
    catch_up, max_missed, overlap = policy_of(policy)
    definition = json.loads(input), json.loads(labels), cron or None, every or None, timezone
    state = catch_up.value, max_missed, overlap.value, next_at, last_at
    return Schedule(name, saga, version, *definition, *state, bool(paused), error)


class Schedules:
    """Changes schedules, over its own connection. For a thread."""

    def __init__(self, connection: Source) -> None:
        self._connection = connection

    def put(
        self,
        name: str,
        saga: tuple[str, int],
        input: str,
        labels: str,
        timing: Timing,
        now: float,
        payloads: Payloads = PLAIN,
    ) -> None:
        """Declare a schedule, or change it. Without a change it keeps its next time.

        Raises `NotSerializable` and `MissingCodec`.
        """
        stored = payloads.encode(input)
        timing_values = timing.cron, timing.every, timing.timezone, timing.policy
        parameters = (name, *saga, stored, labels, *timing_values, timing.next_after(now))

        def write() -> None:
            codec_note.check(self._connection, payloads)
            if payloads.codec is not None:
                self._encode_again(name, input, stored, payloads)
            self._connection.changed(PUT, *parameters)

        self._connection.atomically(write)
        self._connection.notify("requests")

    def _encode_again(self, name: str, input: str, stored: str, payloads: Payloads) -> None:
        """Replace the stored text of an input with a new text of the same input.

        A codec may return another text each time, and that is not a change.
        """
        for (stored_input,) in self._connection.ask(LOCK, name):
            if _is_of(stored_input, input, payloads):
                self._connection.changed(
                    "UPDATE schedules SET input = ? WHERE name = ?", stored, name
                )

    def pause(self, name: str, now: float | None = None) -> str | None:
        """Start nothing of a schedule from now on, and return a message about missed times.

        The missed times are not started, and the schedule's `error` says so. Raises
        `NoSuchSchedule`.
        """
        pause_time = self._connection.now() if now is None else now

        def write() -> str | None:
            missed = None
            for (_,) in self._connection.ask(LOCK, name):
                schedule = of_row(self._connection.ask(BY_NAME, name)[0])
                missed = None if schedule.paused else missed_before_pause(schedule, pause_time)
            text = "UPDATE schedules SET paused = 1, error = coalesce(?, error) WHERE name = ?"
            self._changed(name, text, missed, name)
            return missed

        return self._connection.atomically(write)

    def resume(self, name: str, now: float) -> None:
        """Start its sagas again, from the next time on. Raises `NoSuchSchedule`."""
        for row in self._connection.ask(BY_NAME, name):
            next_at = of_row(row).timing.next_after(now)
            text = "UPDATE schedules SET paused = 0, next_at = ? WHERE name = ? AND paused = 1"
            self._connection.changed(text, next_at, name)
            self._connection.notify("requests")
            return
        raise _absent(name)

    def remove(self, name: str) -> None:
        """Delete a schedule. Raises `NoSuchSchedule`."""
        self._changed(name, "DELETE FROM schedules WHERE name = ?", name)

    def advance(
        self, schedule: Schedule, next_at: float, last_at: float | None, error: str | None
    ) -> None:
        """Store which time is the next one."""
        when = schedule.next_at, schedule.timing.cron, schedule.timing.every, schedule.timezone
        self._connection.changed(ADVANCE, next_at, last_at, error, schedule.name, *when)

    def _changed(self, name: str, text: str, *parameters: Any) -> None:
        if not self._connection.changed(text, *parameters):
            raise _absent(name)


def missed_before_pause(schedule: Schedule, now: float) -> str | None:
    """Return a message about the missed times of a paused schedule, if there are any."""
    if schedule.next_at > now or schedule.catch_up == CatchUp.SKIP:
        return None
    try:
        count = schedule.timing.missed(schedule.next_at, now)
    except InvalidSchedule:  # this system has no such time zone
        return None
    count = 1 if schedule.catch_up == CatchUp.LAST else count
    times = "1 missed time" if count == 1 else f"{count:,} missed times"
    return f"{times} before the pause {'was' if count == 1 else 'were'} not started"


def _is_of(stored: str, input: str, payloads: Payloads) -> bool:
    """Whether a stored text is that of an input. False if it cannot be decoded."""
    try:
        return payloads.decode(stored) == input
    except CannotDecode:
        return False


def _absent(name: str) -> NoSuchSchedule:
    return NoSuchSchedule(f"no schedule has the name {name!r}")
