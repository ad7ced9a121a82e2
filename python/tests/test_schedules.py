"""Schedules: their times, and their sagas, once each over all nodes."""

from __future__ import annotations

import asyncio
import contextlib
import datetime
import itertools
import os
import pathlib
import sqlite3
import subprocess
import sys
import textwrap
import time
from collections import Counter
from typing import Any

import pytest
from cases import Task, run, simple, until
from driving import program
from test_codec import NEW, OLD, Encryption
from test_command import Shell

import sagas
from sagas.cli import store_command
from sagas.definition import timing
from sagas.runtime import scheduler
from sagas.storage import admin
from sagas.storage.schedules import ALL, Schedules, of_row
from sagas.testing import schedule_times

HERE = pathlib.Path(__file__).resolve().parent
UTC = datetime.timezone.utc
DAY = 86400.0
START = datetime.datetime(2026, 3, 1, 12, tzinfo=UTC).timestamp()
EVERY = datetime.timedelta(hours=6)


class Clock:
    """A wall clock that the test sets."""

    def __init__(self, now: float = START) -> None:
        self.now = now

    def __call__(self) -> float:
        return self.now


def nightly(**options: Any) -> sagas.Saga:
    return simple(lambda task: task.input, **options)


def keys(path: str) -> list[str]:
    """Return the keys of all sagas, in order."""
    with contextlib.closing(admin.connect(path)) as link:
        return [key for (key,) in link.ask("SELECT key FROM sagas ORDER BY key")]


TIMES = [
    ("0 2 * * *", "UTC", "2026-03-01 12:00", ["03-02 02:00", "03-03 02:00"]),
    ("*/20 9-10 * * mon-fri", "UTC", "2026-02-27 10:30", ["02-27 10:40", "03-02 09:00"]),
    ("15,45 0 1 JAN *", "UTC", "2026-03-01 00:00", ["01-01 00:15", "01-01 00:45"]),
    ("0 0 29 2 *", "UTC", "2026-03-01 00:00", ["02-29 00:00", "02-29 00:00"]),
    ("0 0 13 * 5", "UTC", "2026-02-07 00:00", ["02-13 00:00", "02-20 00:00"]),
    ("0 0 * * 7", "UTC", "2026-02-27 00:00", ["03-01 00:00", "03-08 00:00"]),
    ("0 0 */10 * 1", "UTC", "2026-03-01 00:00", ["05-11 00:00", "06-01 00:00"]),
    ("@weekly", "UTC", "2026-02-27 00:00", ["03-01 00:00", "03-08 00:00"]),
    ("5 0 * * *", "Asia/Kathmandu", "2026-03-01 00:00", ["03-01 18:20", "03-02 18:20"]),
    # the hour from two to three is missing on the 29th of March, and occurs twice on the 25th of
    # October
    ("30 2 * * *", "Europe/Berlin", "2026-03-28 12:00", ["03-29 01:30", "03-30 00:30"]),
    ("30 2,3 * * *", "Europe/Berlin", "2026-03-29 00:00", ["03-29 01:30", "03-30 00:30"]),
    ("30 2 * * *", "Europe/Berlin", "2026-10-24 12:00", ["10-25 00:30", "10-26 01:30"]),
    ("30 * * * *", "Europe/Berlin", "2026-10-25 00:00", ["10-25 00:30", "10-25 01:30"]),
    ("30 * * * *", "Europe/Berlin", "2026-03-29 00:00", ["03-29 00:30", "03-29 01:30"]),
    ("0 */12 * * *", "Europe/Berlin", "2026-03-28 12:00", ["03-28 23:00", "03-29 10:00"]),
]


@pytest.mark.parametrize("cron, zone, after, wanted", TIMES)
def test_times_of_an_expression(cron: str, zone: str, after: str, wanted: list[str]) -> None:
    start = datetime.datetime.fromisoformat(after).replace(tzinfo=UTC)
    times = schedule_times(cron=cron, timezone=zone, after=start, count=len(wanted))
    assert [f"{at:%m-%d %H:%M}" for at in times] == wanted


@pytest.mark.parametrize("cron", [None, "* * * * *", "0 0 29 2 *", "30 2 * 3,10 *", "*/7 3 1 * 1"])
def test_times_of_many_years_are_not_gone_through(cron: str | None) -> None:
    """The last missed time, and the next one, are the same as if each had been looked at."""
    every, zone = (None if cron else datetime.timedelta(seconds=1)), "Europe/Berlin"
    when = timing.timing(cron, every, zone, "last")
    began = time.monotonic()
    for now in (START + 3 * 366 * DAY, START + 20 * 366 * DAY + 7):
        (last,), later = when.due(when.next_after(START), now, 100)
        assert last <= now < later == when.next_after(last)
        assert when.next_after(last - 1) == last
    assert time.monotonic() - began < 60


def test_times_in_equal_distances() -> None:
    """They are the same whenever the schedule is declared."""
    start = datetime.datetime(2026, 3, 1, 12, 0, tzinfo=UTC)
    times = schedule_times(every=datetime.timedelta(minutes=45), after=start, count=2)
    assert times == [start.replace(minute=45), start.replace(hour=13, minute=30)]


@pytest.mark.parametrize("seconds", [1.1, 7.3, DAY / 7])
def test_each_time_follows_the_one_before(seconds: float) -> None:
    """This holds also if the interval is not a binary fraction, so that times are rounded."""
    every = datetime.timedelta(seconds=seconds)
    each, last = (timing.timing(None, every, "UTC", catch_up) for catch_up in ("all", "last"))
    times, later = each.due(each.next_after(START), START + 60 * seconds, 50)
    assert len(times) == 50
    for at, following in itertools.pairwise([*times, later]):
        assert following - at == pytest.approx(seconds, abs=1e-6)
        assert last.due(at, at, 1) == ([at], following)


WRONG = [
    ({}, "cron= or every="),
    ({"cron": "* * * * *", "every": EVERY}, "cron= or every="),
    ({"cron": "* * * *"}, "must have five fields"),
    ({"cron": "60 * * * *"}, "minute '60': must be from 0 to 59"),
    ({"cron": "* * * * 1-0"}, "the range is empty"),
    ({"cron": "* * * foo *"}, "month 'foo': must be from 1 to 12"),
    ({"cron": "*/0 * * * *"}, "the range is empty"),
    ({"cron": "1.5 * * * *"}, "must be *, a number"),
    ({"cron": "0 0 31 2 *"}, "this day never comes"),
    ({"cron": 7}, "cron=7"),
    ({"every": datetime.timedelta(0)}, "at least a second"),
    ({"every": "1h"}, "at least a second"),
    ({"cron": "* * * * *", "timezone": "Europe/Bonn"}, "a time zone of the system"),
    ({"cron": "* * * * *", "timezone": "../../etc/passwd"}, "a time zone of the system"),
    ({"cron": "* * * * *", "catch_up": "some"}, "must be one of last, all, skip"),
    ({"name": "a@b", "every": EVERY}, "without '@'"),
    ({"name": "", "every": EVERY}, "without '@'"),
    ({"name": "a\nb", "every": EVERY}, "without '@'"),
]


def test_invalid_schedules(tmp_path: pathlib.Path) -> None:
    """They are not stored."""

    async def main() -> None:
        async with sagas.open(tmp_path / "store.db", [kind := nightly()]) as store:
            for options, text in WRONG:
                given: dict[str, Any] = {"name": "n", **options}
                with pytest.raises(sagas.InvalidSchedule) as caught:
                    await store.schedule(given.pop("name"), kind, **given)
                assert text in str(caught.value)
            with pytest.raises(sagas.DefinitionError):
                await store.schedule("n", nightly(), every=EVERY)
            with pytest.raises(sagas.NotSerializable):
                await store.schedule("n", kind, object(), every=EVERY)
            for change in (store.pause_schedule, store.resume_schedule, store.remove_schedule):
                with pytest.raises(sagas.NoSuchSchedule):
                    await change("n")
            assert await store.schedules() == []

    run(main())


def test_a_schedule_starts_sagas(location: str) -> None:
    """In real time: each time's saga has its input and labels; a removed schedule starts
    no more.
    """

    async def main() -> None:
        async with sagas.open(location, [kind := nightly()]) as store:
            second = datetime.timedelta(seconds=1)
            for _ in range(2):
                await store.schedule("tick", kind, {"n": 1}, every=second, labels={"by": "tick"})
            started = await until(lambda: store.list(labels={"by": "tick"}))
            end = await store.wait(started[0].key)
            assert end.results == {"a": {"n": 1}} and started[0].key.startswith("tick@20")
            await until(lambda: len(keys(location)) >= 2)
            (schedule,) = await store.schedules()
            assert (schedule.name, schedule.saga, schedule.every, schedule.paused) == (
                "tick",
                "simple",
                1.0,
                False,
            )
            await store.remove_schedule("tick")
            assert await store.schedules() == []

    run(main())


@pytest.mark.parametrize("catch_up", ["last", "all", "skip"])
def test_times_that_were_missed(
    location: str, catch_up: str, monkeypatch: pytest.MonkeyPatch
) -> None:
    """No program ran for two days; a paused schedule misses nothing; a changed one is new."""
    monkeypatch.setattr(scheduler, "MAX_STARTS", 3)
    clock = Clock()

    async def main() -> None:
        async with sagas.open(
            location, [kind := nightly()], settings=sagas.Settings(clock=clock)
        ) as store:
            await store.schedule("n", kind, every=EVERY, catch_up=catch_up)
            await store.schedule("p", kind, every=EVERY, catch_up="all")
            await store.pause_schedule("p")
            assert [schedule.paused for schedule in await store.schedules()] == [False, True]
        clock.now += 2 * DAY
        missed = [
            f"n@2026-03-0{day}T{hour:02}:00:00Z" for day in (1, 2, 3) for hour in (0, 6, 12, 18)
        ][3:11]
        wanted = missed if catch_up == "all" else missed[-1:]  # which is not late
        async with sagas.open(location, [kind], settings=sagas.Settings(clock=clock)) as store:
            await until(lambda: is_at(store, START + 2 * DAY))
            assert keys(location) == wanted
            await store.resume_schedule("p")
            by_name = {schedule.name: schedule for schedule in await store.schedules()}
            assert {row.next_at for row in by_name.values()} == {START + 2 * DAY + 6 * 3600}
            assert by_name["n"].last_at == START + 2 * DAY and by_name["p"].last_at is None
            await store.schedule("n", kind, cron="0 2 * * *", timezone="Europe/Berlin")
            (schedule, _) = await store.schedules()
            assert schedule.next_at == START + 2 * DAY + 13 * 3600 and schedule.every is None
        clock.now += DAY / 2 + 120
        async with sagas.open(location, [kind], settings=sagas.Settings(clock=clock)) as store:
            await store.schedule("s", kind, every=EVERY, catch_up="skip")
            await until(lambda: len(keys(location)) == len(wanted) + 2)
            await until(lambda: is_at(store, START + 2 * DAY + 12 * 3600, "p"))
            assert keys(location)[-2:] == ["p@2026-03-03T18:00:00Z", "p@2026-03-04T00:00:00Z"]

    async def is_at(store: sagas.Store, at: float, name: str = "n") -> bool:
        return any(
            (schedule.name, schedule.last_at) == (name, at) for schedule in await store.schedules()
        )

    run(main())


@pytest.mark.parametrize("command", ["pause", "remove", "change"])
def test_nothing_is_started_after_a_change(location: str, command: str) -> None:
    """Several times are due; when the first saga has started, another program changes that."""
    clock, event_names = Clock(), list[str]()

    def change(event: sagas.Event) -> None:
        if event.name == "saga_started" and not event_names:
            event_names.append(event.name)
            with contextlib.closing(admin.connect(location, "rw")) as link:
                if command == "change":
                    Schedules(link).put("n", ("simple", 1), "7", "{}", when, clock.now)
                else:
                    getattr(Schedules(link), command)("n")

    async def main() -> None:
        async with sagas.open(
            location, [kind := nightly()], settings=sagas.Settings(clock=clock)
        ) as store:
            await store.schedule("n", kind, every=EVERY, catch_up="all")
            await store.schedule("z", kind, every=EVERY)  # its turn is after that of the other one
        clock.now += 2 * DAY
        async with sagas.open(
            location, [kind], settings=sagas.Settings(clock=clock), on_event=change
        ) as store:
            await until(lambda: any(key.startswith("z@") for key in keys(location)))
            assert keys(location) == ["n@2026-03-01T18:00:00Z", "z@2026-03-03T12:00:00Z"]
            by_name = {schedule.name: schedule for schedule in await store.schedules()}
            if command == "pause":
                assert by_name["n"].paused and by_name["n"].last_at == START + DAY / 4
            elif command == "change":
                assert by_name["n"].input == 7 and by_name["n"].next_at > clock.now

    when = timing.timing(None, EVERY, "UTC", "all")
    run(main())


def test_a_time_zone_that_this_system_does_not_have(
    location: str, monkeypatch: pytest.MonkeyPatch
) -> None:
    """Its schedule is left to other nodes, which is logged; all others continue, and so does it
    once its zone exists.
    """
    monkeypatch.setattr(scheduler, "MAX_PAUSE", 0.1)
    clock, kind, details = Clock(), nightly(), list[str | None]()

    def zone(name: str) -> None:
        with contextlib.closing(admin.connect(location, "rw")) as link:
            link.changed("UPDATE schedules SET timezone = ? WHERE name = 'far'", name)
            link.notify("requests")

    def hears(event: sagas.Event) -> None:
        if event.name == "schedule_failed":
            details.append(event.detail)

    async def main() -> None:
        async with sagas.open(
            location, [kind], settings=sagas.Settings(clock=clock), on_event=hears
        ) as store:
            await store.schedule("far", kind, cron="0 * * * *")
            await store.schedule("near", kind, every=EVERY)
            zone("Mars/Utopia")
            for hours in (6, 12):
                clock.now = START + hours * 3600
                await until(
                    lambda: len([key for key in keys(location) if key.startswith("near@")])
                    == hours // 6
                )
            (detail,) = details
            assert detail and detail.startswith(
                "far: timezone='Mars/Utopia': this system does not have"
            )
            with pytest.raises(sagas.InvalidSchedule, match="this system does not have"):
                await store.pause_schedule("far")
                await store.resume_schedule("far")
            with contextlib.closing(admin.connect(location, "rw")) as link:
                link.changed("UPDATE schedules SET paused = 0")
            zone("UTC")
            await until(lambda: [key for key in keys(location) if key.startswith("far@")])

    run(main())


def test_other_times_are_not_those_that_were_read(location: str) -> None:
    """A node that read the schedule before a change does not report its next time."""
    with sagas.open_sync(location, [nightly()]):
        pass
    with contextlib.closing(admin.connect(location, "rw")) as link:
        schedules, command = Schedules(link), ("n", ("simple", 1), "null", "{}")
        long, short = (timing.timing(None, EVERY / parts, "UTC", "all") for parts in (1, 3))
        schedules.put(*command, long, START)
        read = of_row(link.ask(ALL)[0])
        schedules.put(*command, short, START + 5 * 3600)
        changed = link.ask(ALL)
        schedules.advance(read, START + 12 * 3600, read.next_at, None)
        assert read.next_at == of_row(changed[0]).next_at and link.ask(ALL) == changed


def test_a_schedule_that_is_declared_again(location: str) -> None:
    """It continues unchanged, though its input is another text with a codec, by the newest key."""
    clock, hour = Clock(), datetime.timedelta(hours=1)

    async def declare(given: object, **keys: bytes) -> float:
        codec = Encryption(**keys) if keys else None
        options: dict[str, Any] = {"accept_new": False, "codec": codec}
        options["settings"] = sagas.Settings(clock=clock)
        async with sagas.open(location, [kind := nightly()], **options) as store:
            await store.schedule("n", kind, given, every=hour)
            (schedule,) = await store.schedules()
            assert schedule.input == given
            return schedule.next_at

    async def main() -> None:
        first = await declare("a")
        clock.now += DAY
        for keys in ({"a": OLD}, {"a": OLD}, {"a": OLD, "b": NEW}, {"b": NEW}):
            assert await declare("a", **keys) == first
        assert await declare("b", b=NEW) == first + DAY
        clock.now += DAY
        # no program can find that it is the same
        assert await declare("b", a=OLD) == first + 2 * DAY

    run(main())


def test_a_saga_that_cannot_be_started(tmp_path: pathlib.Path) -> None:
    """The key has another saga: that is logged and stored, and the next time comes."""
    events: list[sagas.Event] = []
    path, clock = str(tmp_path / "store.db"), Clock()

    async def main() -> None:
        other = nightly()
        async with sagas.open(
            path, [other], settings=sagas.Settings(clock=clock), on_event=events.append
        ) as store:
            await store.start(other, "n@2026-03-01T18:00:00Z", "mine")
            await store.schedule("n", other, every=EVERY)
            clock.now += 6 * 3600
            await store.schedule("m", other, every=EVERY)  # so that the store is looked at
            (schedule,) = await until(lambda: failed(store))
            assert schedule.error and schedule.error.startswith(
                "KeyConflict: key 'n@2026-03-01T18:00:00Z'"
            )
            assert schedule.next_at == START + 12 * 3600

    async def failed(store: sagas.Store) -> list[Any]:
        return [schedule for schedule in await store.schedules() if schedule.error]

    run(main())
    assert [event.key for event in events if event.name == "schedule_failed"] == [
        "n@2026-03-01T18:00:00Z"
    ]


def test_the_command(location: str, capsys: pytest.CaptureFixture[str]) -> None:
    shell, clock = Shell(location, capsys), Clock()
    with sagas.open_sync(
        location, [kind := nightly()], settings=sagas.Settings(clock=clock)
    ) as store:
        store.schedule("night", kind, {"n": 1}, cron="0 2 * * *", timezone="Europe/Berlin")
        store.schedule("tick", kind, every=datetime.timedelta(hours=1))
    assert shell("schedules").splitlines()[1:] == [
        "night  simple  0 2 * * * Europe/Berlin        2026-03-02 01:00:00Z",
        "tick   simple  every 3600 s                   2026-03-01 13:00:00Z",
    ]
    assert shell("schedules", "pause", "tick") == "tick: paused\n"
    assert [row["paused"] for row in shell.json("schedules")] == [False, True]
    assert (
        "paused" in shell("schedules") and shell("schedules", "resume", "tick") == "tick: resumed\n"
    )
    assert shell.json("schedules", "remove", "tick") == {"name": "tick", "done": "removed"}
    shell("schedules", "remove", "tick", status=1)
    shell("schedules", "remove", status=2)


NODE = """
    import asyncio, datetime, os, sagas
    kind = sagas.Saga("simple")
    @kind.step(name="a")
    async def a(task):
        with open({notes!r}, "a") as file:
            file.write(task.key + "\\n")
    async def main():
        async with sagas.open({path!r}, [kind], lease=2.0) as store:
            second = datetime.timedelta(seconds=1)
            for name in ("n", "m"):
                await store.schedule(name, kind, every=second, catch_up="all")
            print("open", flush=True)
            await store.serve()
    asyncio.run(main())
"""


@contextlib.contextmanager
def node(file: pathlib.Path, path: str, notes: pathlib.Path) -> Any:
    """Start a program with a schedule; it is killed in the end."""
    file.write_text(textwrap.dedent(NODE.format(path=path, notes=str(notes))))
    environment = {**os.environ, "PYTHONPATH": str(HERE.parent / "src"), "SAGAS_PROGRAM": program()}
    with subprocess.Popen(
        [sys.executable, "-u", str(file)], stdout=subprocess.PIPE, text=True, env=environment
    ) as process:
        assert process.stdout and process.stdout.readline() == "open\n"
        try:
            yield process
        finally:
            process.kill()


def test_each_time_comes_once_over_killed_nodes(location: str, tmp_path: pathlib.Path) -> None:
    """Over PostgreSQL two nodes run at once.

    They are killed at random moments, one after the other; no second is left out, and none has two
    sagas. The notes are written outside of the store.
    """
    notes, files = tmp_path / "notes", [tmp_path / "a.py", tmp_path / "b.py"]
    is_shared = location.startswith("postgresql:")

    def noted() -> Counter[str]:
        return Counter(notes.read_text().split()) if notes.exists() else Counter()

    for wanted in (3, 7):
        with contextlib.ExitStack() as stack:
            for file in files if is_shared else files[:1]:
                stack.enter_context(node(file, location, notes))
            asyncio.run(until(lambda: len(noted()) >= wanted))
    with contextlib.closing(admin.connect(location, "rw")) as link:
        for name in ("n", "m"):
            Schedules(link).remove(name)

    async def rest() -> None:
        async with sagas.open(location, [nightly()], lease=2.0) as store:
            await store.wait_idle()

    run(rest())
    for name in ("n", "m"):
        times = [key.partition("@")[2] for key in keys(location) if key.startswith(f"{name}@")]
        seconds = [datetime.datetime.fromisoformat(time).timestamp() for time in times]
        assert seconds == [seconds[0] + number for number in range(len(seconds))]
    assert {*noted()} <= {*keys(location)}


SECOND = datetime.timedelta(seconds=1)


def test_how_many_missed_times_are_started(location: str) -> None:
    """Several nodes start the last ones, up to a limit; the others are logged."""
    clock, details = Clock(), list[str]()

    def listen(event: sagas.Event) -> None:
        if event.name == "schedule_missed":
            details.append(str(event.detail))

    async def main() -> None:
        async with sagas.open(
            location, [kind := nightly()], settings=sagas.Settings(clock=clock)
        ) as store:
            await store.schedule("e", kind, every=SECOND, catch_up="all", max=3)
            await store.schedule("c", kind, cron="0 * * * *", catch_up="all", max=2)
            by_name = {
                schedule.name: (schedule.catch_up, schedule.max, schedule.overlap)
                for schedule in await store.schedules()
            }
            assert by_name == {"e": ("all", 3, "allow"), "c": ("all", 2, "allow")}
        clock.now += 90 * DAY
        async with contextlib.AsyncExitStack() as nodes:
            count = 1 if "://" not in location else 10
            for _ in range(count):
                await nodes.enter_async_context(
                    sagas.open(
                        location, [kind], settings=sagas.Settings(clock=clock), on_event=listen
                    )
                )
            await until(lambda: len(keys(location)) >= 5)

    run(main())
    last = [f"e@2026-05-30T{at}Z" for at in ("11:59:58", "11:59:59", "12:00:00")]
    assert keys(location) == ["c@2026-05-30T11:00:00Z", "c@2026-05-30T12:00:00Z", *last]
    assert {
        "e: only the last 3 missed times are started",
        "c: only the last 2 missed times are started",
    } == {*details}


def test_times_that_were_missed_before_a_pause(
    location: str, capsys: pytest.CaptureFixture[str], caplog: pytest.LogCaptureFixture
) -> None:
    """They are not started; the command, the schedule and the log of a program report that."""

    async def main() -> None:
        clock = Clock()
        async with sagas.open(
            location, [kind := nightly()], settings=sagas.Settings(clock=clock)
        ) as store:
            for name, catch_up in (("a", "all"), ("l", "last"), ("s", "skip")):
                await store.schedule(name, kind, every=EVERY, catch_up=catch_up)
        assert (
            store_command.main([location, "schedules", "pause", "a"]) == 0
        )  # by the present clock
        assert "a: 100 missed times before the pause were not started" in capsys.readouterr().err
        async with (
            sagas.Client(location)
            if "://" in location
            else sagas.open(
                location, [kind], settings=sagas.Settings(clock=clock), accept_new=False
            )
        ) as store:
            clock.now += DAY
            await store.pause_schedule("l")
            await store.pause_schedule("l")
            await store.pause_schedule("s")
            await store.resume_schedule("a")
            errors = {schedule.name: schedule.error for schedule in await store.schedules()}
        assert errors == {
            "a": "100 missed times before the pause were not started",
            "l": "1 missed time before the pause was not started",
            "s": None,
        }
        assert (
            caplog.text.count("schedule 'l': 1 missed time before the pause was not started") == 1
        )
        assert keys(location) == []

    run(main())


@pytest.mark.parametrize("overlap", ["skip", "queue", "allow"])
def test_a_time_while_the_saga_before_is_open(location: str, overlap: str) -> None:
    """It is skipped, waits, or is started."""
    clock, event_names = Clock(), list[str]()
    opened = asyncio.Event()

    async def work(task: Task) -> None:
        await opened.wait()

    async def main() -> None:
        kind = simple(work)
        listen = lambda event: event_names.append(event.name)  # noqa: E731
        async with sagas.open(
            location, [kind], settings=sagas.Settings(clock=clock), on_event=listen
        ) as store:
            await store.schedule("n", kind, every=EVERY, overlap=overlap)
            for turn in (1, 2):
                clock.now += EVERY.total_seconds()
                store._coordinator.look()
                if turn == 1 or overlap == "allow":
                    await until(lambda: len(keys(location)) == turn)
                elif overlap == "skip":
                    await until(lambda: "schedule_missed" in event_names)
            if overlap == "queue":
                await asyncio.sleep(0.1)
            assert len(keys(location)) == (2 if overlap == "allow" else 1)
            opened.set()
            await store.wait_idle()
            if overlap == "queue":
                await until(lambda: len(keys(location)) == 2)
            await store.wait_idle()
        assert len(keys(location)) == (1 if overlap == "skip" else 2)

    run(main())


def test_a_program_that_lacks_the_definition(location: str) -> None:
    """It is logged once, and the schedule reports it until a program starts it."""
    clock, messages = Clock(), list[str]()
    other = sagas.Saga("other")
    other.step(name="a", undo=0)(lambda task: None)

    def listen(event: sagas.Event) -> None:
        messages.append(f"{event.name}: {event.detail}")

    async def main() -> None:
        async with sagas.open(
            location, [kind := nightly()], settings=sagas.Settings(clock=clock)
        ) as store:
            await store.schedule("n", kind, every=EVERY)
        clock.now += DAY
        async with sagas.open(
            location, [other], settings=sagas.Settings(clock=clock), on_event=listen
        ) as store:

            async def error() -> str | None:
                return (await store.schedules())[0].error

            await until(error)
            store._coordinator.look()
            await asyncio.sleep(0)
            assert await error() == "no program has its saga 'simple' (version 1)"
        assert messages == ["schedule_failed: n: no program has its saga 'simple' (version 1)"]
        async with sagas.open(location, [kind], settings=sagas.Settings(clock=clock)) as store:
            await until(lambda: keys(location))

            async def has_no_error() -> bool:
                return (await store.schedules())[0].error is None

            await until(has_no_error)

    run(main())


def test_invalid_bounds_and_overlaps() -> None:
    for options in (
        {"max": 0},
        {"max": True},
        {"max": "3"},
        {"max": 10_001},
        {"overlap": "queued"},
    ):
        max_missed, overlap = options.get("max", 100), options.get("overlap", "allow")
        with pytest.raises(sagas.InvalidSchedule, match=next(iter(options))):
            timing.timing(None, SECOND, "UTC", "all", max_missed, overlap)
    some = timing.timing(None, SECOND, "UTC", "all", 7, "queue")
    assert timing.policy_of(some.policy) == (some.catch_up, 7, some.overlap)
    assert timing.timing(None, SECOND, "UTC", "last").policy == "last"


def test_a_schedule_of_a_later_release_stops_no_other(tmp_path: pathlib.Path) -> None:
    """It has options that this release does not know: it is left to other programs, which is logged
    once, and the others start.
    """
    location, saga, event_names = str(tmp_path / "store.db"), sagas.Saga("report"), list[str]()
    saga.step(name="only")(lambda task: None)

    async def main() -> None:
        store = sagas.open(
            location,
            [saga],
            on_event=lambda event: (
                event_names.append(event.name) if event.name == "schedule_failed" else None
            ),
        )
        async with store:
            for name in ("a", "b"):
                await store.schedule(name, saga, every=datetime.timedelta(seconds=1))
            with contextlib.closing(sqlite3.connect(location)) as link, link:
                link.execute("UPDATE schedules SET catch_up = 'all overlap=wait' WHERE name = 'a'")
            before = {summary.key for summary in await store.list()}
            while not any(
                summary.key.startswith("b@") and summary.key not in before
                for summary in await store.list()
            ):
                await asyncio.sleep(0.05)
            assert event_names == ["schedule_failed"]

    asyncio.run(asyncio.wait_for(main(), 60))
