#!/usr/bin/env python3
"""Time `sagas drive` against SQLite: requests with and without a log, and a start on a long log.

The requests are only `next` and `report`, with one event each. They are sent one at a time, or
together: 64 `next`, then their 64 reports. SQLite inserts the same events into a table, through
Python, with `PRAGMA synchronous=FULL`, in its journal modes DELETE and WAL. It has one event a
transaction, or 64. An append of each event's line with an `fdatasync` is the cost of the file
system alone. All parts take turns in one folder (`--folder`), so that a ratio is of one run on one
file system.

The script prints the median of events a second, and ratios of times to those of SQLite's WAL. Then
it prints the seconds of a start on a log of 1,001,000 events (1,000 sagas of 500 steps), of an
audit of that log, and of SQLite reading as many rows, and the peak memory of the start. Last come
the milliseconds of `ready`, `list` and `status` over 1,000 sagas, and the processor time of 10,000
tasks, one by request and 64 by request. These sagas are the README's trips, and chains of 16 steps
with the first half done: a log has room for 1,000 chains of this length, and not of a greater one.

The status is 1 if requests with a log take longer than SQLite's WAL, one at a time or together, if
a start takes more than 10 s, if a `ready` over 1,000 trips takes more than 1 ms, or if tasks by 64
take longer than one by one.
"""
import argparse
import os
import pathlib
import resource
import sqlite3
import statistics
import subprocess
import sys
import tempfile
import time

import runs

TOGETHER = 64
STEPS = 512
# A log has room for the ends of four sagas of this number of steps, and refuses a fifth one.
MAX_EVENTS = 4 * 2 * STEPS
LONG_STEPS = 500
ROOT = runs.HERE.parent
NEXT = b'{"do":"next"}\n'


def options():
    """Return the options of this script."""
    parser = argparse.ArgumentParser(description=__doc__.strip().splitlines()[0])
    parser.add_argument("--turns", type=int, default=5, help="the number of turns of each part")
    parser.add_argument(
        "--events", type=int, default=1024, help="the events of a part, at most 4,096"
    )
    parser.add_argument("--sagas", type=int, default=1000, help="the sagas of the long log")
    parser.add_argument(
        "--folder", help="the folder of the files (default: the system's temporary folder)"
    )
    parser.add_argument(
        "--program", type=pathlib.Path, help="the program (default: the one that ./sagas starts)"
    )
    arguments = parser.parse_args()
    if arguments.events > MAX_EVENTS:
        parser.error(f"--events: at most {MAX_EVENTS:,}")
    return arguments


def built(arguments):
    """Return the program, which is built if its sources have changed."""
    if arguments.program:
        return arguments.program
    return pathlib.Path(
        subprocess.run(
            [ROOT / "tests" / "program"], capture_output=True, text=True, check=True
        ).stdout.strip()
    )


def definition(steps):
    """Return the text of a definition of steps without needs."""
    return 'format = 1\nname = "wide"\n' + "".join(
        f'[[step]]\nname = "s{step}"\n' for step in range(steps)
    )


def requests(events, together):
    """Return requests with this number of events, in groups that are sent together."""
    groups = []
    for first in range(0, events // 2, together):
        steps = [divmod(number, STEPS) for number in range(first, first + together)]
        reports = [b'{"do":"report","outcome":"ok","saga":%d,"step":%d}\n' % pair for pair in steps]
        groups += [[NEXT] * together, reports]
    return groups


def lines_of(events):
    """Return the lines of the same events in a log."""
    lines = []
    for number in range(events // 2):
        saga, step = divmod(number, STEPS)
        lines.append(f'{{"event":"start_run","saga":{saga},"step":{step}}}\n')
        lines.append(f'{{"event":"commit","saga":{saga},"step":{step}}}\n')
    return lines


def exchanged(child, lines):
    """Send lines together, and wait for as many replies."""
    os.write(child.stdin.fileno(), b"".join(lines))
    left = len(lines)
    while left:
        read = os.read(child.stdout.fileno(), 65536) or sys.exit("sagas drive has ended")
        left -= read.count(b"\n")


def drive(program, file, log, events, together):
    """Return the seconds that the requests take."""
    command = [program, "drive", *(["--log", log] if log else []), file]
    groups = requests(events, together)
    with subprocess.Popen(command, stdin=subprocess.PIPE, stdout=subprocess.PIPE) as child:
        exchanged(child, [b'{"def":0,"do":"open"}\n'] * -(-events // 2 // STEPS))
        begin = time.perf_counter()
        for lines in groups:
            exchanged(child, lines)
        took = time.perf_counter() - begin
        child.stdin.close()
    return took


def table(path, mode):
    """Create a table of events, and return its connection."""
    base = sqlite3.connect(path, isolation_level=None)
    base.execute(f"PRAGMA journal_mode={mode}")
    base.execute("PRAGMA synchronous=FULL")
    base.execute("CREATE TABLE events (place INTEGER PRIMARY KEY, line TEXT NOT NULL)")
    return base


def sqlite(path, mode, lines, together):
    """Return the seconds in which SQLite inserts events, `together` in a transaction."""
    base = table(path, mode)
    begin = time.perf_counter()
    for first in range(0, len(lines), together):
        base.execute("BEGIN")
        for line in lines[first : first + together]:
            base.execute("INSERT INTO events (line) VALUES (?)", (line,))
        base.execute("COMMIT")
    took = time.perf_counter() - begin
    base.close()
    return took


def bare(path, lines, together):
    """Return the seconds of appends to a file, each with an fdatasync."""
    file = os.open(path, os.O_WRONLY | os.O_CREAT | os.O_APPEND, 0o644)
    begin = time.perf_counter()
    for first in range(0, len(lines), together):
        os.write(file, "".join(lines[first : first + together]).encode())
        os.fdatasync(file)
    took = time.perf_counter() - begin
    os.close(file)
    return took


def parts(program, file, folder, events):
    """Return each part: its name, and a function that times it on a new file."""
    lines = lines_of(events)
    timings = []
    for together in [1, TOGETHER]:
        how = "one at a time" if together == 1 else f"{TOGETHER} together"
        timings += [
            (f"drive, {how}", lambda path, k=together: drive(program, file, None, events, k)),
            (
                f"drive with a log, {how}",
                lambda path, k=together: drive(program, file, path, events, k),
            ),
            (f"SQLite DELETE, {how}", lambda path, k=together: sqlite(path, "DELETE", lines, k)),
            (f"SQLite WAL, {how}", lambda path, k=together: sqlite(path, "WAL", lines, k)),
            (f"append and fdatasync, {how}", lambda path, k=together: bare(path, lines, k)),
        ]
    return timings


def medians(timed, folder, turns):
    """Return the median seconds of each part."""
    times = {name: [] for name, _ in timed}
    for turn in range(turns):
        for number, (name, part) in enumerate(timed):
            times[name].append(part(folder / f"{turn}.{number}"))
    return {name: statistics.median(values) for name, values in times.items()}


def long_log(sagas):
    """Return a log of sagas whose steps were all run and committed."""
    steps = [f',"step":{step}}}\n' for step in range(LONG_STEPS)]
    text = ['{"format":2}\n']
    for saga in range(sagas):
        text.append(f'{{"def":0,"event":"open","saga":{saga}}}\n')
        run, commit = (f'{{"event":"{word}","saga":{saga}' for word in ["start_run", "commit"])
        text += [part for step in steps for part in (run, step, commit, step)]
    return "".join(text)


def seconds(command, expected):
    """Return the seconds of the best of three runs."""
    times = []
    for _ in range(3):
        begin = time.perf_counter()
        done = subprocess.run(command, stdin=subprocess.DEVNULL, capture_output=True, check=True)
        times.append(time.perf_counter() - begin)
        if not done.stdout.startswith(expected) or done.stderr:
            sys.exit(f"{command}: {done.stdout[:80]} {done.stderr[:80]}")
    return min(times)


def selected(folder, text):
    """Return the number of lines in a table, and the seconds in which SQLite reads them."""
    base = table(folder / "long.db", "WAL")
    base.execute("BEGIN")
    base.executemany(
        "INSERT INTO events (line) VALUES (?)", ((line,) for line in text.splitlines(True))
    )
    base.execute("COMMIT")
    begin = time.perf_counter()
    rows = sum(1 for _ in base.execute("SELECT line FROM events ORDER BY place"))
    took = time.perf_counter() - begin
    base.close()
    return rows, took


def greatest_memory(command):
    """Return the peak memory of a start in bytes."""
    with subprocess.Popen(command, stdin=subprocess.PIPE, stdout=subprocess.PIPE) as child:
        exchanged(child, [b'{"do":"show","saga":0}\n'])
        status = pathlib.Path(f"/proc/{child.pid}/status").read_text(encoding="utf-8")
        child.stdin.close()
        child.stdout.read()
    return next(
        1024 * int(line.split()[1]) for line in status.splitlines() if line.startswith("VmHWM")
    )


def restart(program, folder, sagas):
    """Time a start on a long log, and return its seconds."""
    text = long_log(sagas)
    file, log = runs.put(folder, "long.toml", definition(LONG_STEPS)), runs.put(
        folder, "long.log", text
    )
    command = [program, "drive", "--log", log, file]
    start = seconds(command, b"")
    audit = seconds([program, "audit", log, file], b"yes ")
    rows, select = selected(folder, text)
    memory = greatest_memory(command)
    print(
        f"a start on {rows - 1:,} events, {len(text) / 1e6:.0f} MB: {start:.2f} s;"
        f" an audit {audit:.2f} s; SQLite reads the rows in {select:.2f} s;"
        f" peak memory {memory / 1e6:.0f} MB, {memory / (rows - 1):.0f} bytes an event"
    )
    return start


def chain(steps):
    """Return the text of a definition: each step needs the previous one."""
    needs = [""] + [f'needs = ["s{step}"]\n' for step in range(steps - 1)]
    return 'format = 1\nname = "chain"\n' + "".join(
        f'[[step]]\nname = "s{step}"\n{need}' for step, need in enumerate(needs)
    )


def halfway(sagas, steps):
    """Return the text of a log of sagas with the first half of their steps done."""
    lines = []
    for saga in range(sagas):
        lines.append(f'{{"def":0,"event":"open","saga":{saga}}}\n')
        for step in range(steps // 2):
            lines += [
                f'{{"event":"{word}","saga":{saga},"step":{step}}}\n'
                for word in ["start_run", "commit"]
            ]
    return '{"format":2}\n' + "".join(lines)


def milliseconds_of(program, file, log, question):
    """Return the median milliseconds of a hundred identical questions, sent one at a time."""
    with subprocess.Popen(
        [program, "drive", "--log", log, file], stdin=subprocess.PIPE, stdout=subprocess.PIPE
    ) as child:
        times = []
        for _ in range(100):
            begin = time.perf_counter()
            exchanged(child, [question])
            times.append(time.perf_counter() - begin)
        child.stdin.close()
    return 1000 * statistics.median(times)


def questions(program, folder):
    """Time questions over 1,000 sagas, and return the milliseconds of `ready` over trips."""
    ready = {}
    for name, text, steps in [
        ("trip", (ROOT / "examples" / "trip.toml").read_text(encoding="utf-8"), 0),
        ("chain", chain(16), 16),
    ]:
        file, log = runs.put(folder, f"{name}.toml", text), runs.put(
            folder, f"{name}.log", halfway(1000, steps)
        )
        took = {
            word: milliseconds_of(program, file, log, b'{"do":"%s"}\n' % word.encode())
            for word in ["ready", "list", "status"]
        }
        ready[name] = took["ready"]
        print(
            f"questions over 1,000 sagas, {name}: "
            + ", ".join(f"{word} {ms:.2f} ms" for word, ms in took.items()),
            flush=True,
        )
    return ready["trip"]


def seconds_of(program, file, requests):
    """Return the processor time of these requests in seconds, without a log."""
    before = resource.getrusage(resource.RUSAGE_CHILDREN)
    subprocess.run(
        [program, "drive", file], input=b"".join(requests), stdout=subprocess.DEVNULL, check=True
    )
    after = resource.getrusage(resource.RUSAGE_CHILDREN)
    return after.ru_utime + after.ru_stime - before.ru_utime - before.ru_stime


def many(program, folder, turns):
    """Time 10,000 tasks of 1,000 sagas, one by request and 64 by request, and return the ratio.

    The times do not include the start of the program and the openings.
    """
    file = runs.put(folder, "ten.toml", definition(10))
    openings = [b'{"def":0,"do":"open"}\n'] * 1000
    took = {}
    for name, requests in [
        ("none", []),
        ("one", [NEXT] * 10000),
        ("many", [b'{"do":"next","most":%d}\n' % TOGETHER] * (10000 // TOGETHER + 1)),
    ]:
        took[name] = statistics.median(
            seconds_of(program, file, openings + requests) for _ in range(turns)
        )
    single, together = took["one"] - took["none"], took["many"] - took["none"]
    print(
        f"10,000 tasks: {single:.3f} s of a processor one by one, "
        f"{together:.3f} s by {TOGETHER}: {together / single:.2f}",
        flush=True,
    )
    return together / single


def main():
    arguments = options()
    program = built(arguments)
    with tempfile.TemporaryDirectory(dir=arguments.folder) as name:
        folder = pathlib.Path(name)
        file = runs.put(folder, "wide.toml", definition(STEPS))
        events = -(-arguments.events // (2 * TOGETHER)) * 2 * TOGETHER
        middle = medians(parts(program, file, folder, events), folder, arguments.turns)
        good = True
        for part, took in middle.items():
            peer = middle["SQLite WAL, " + part.split(", ", 1)[1]]
            print(
                f"{part}: {events / took:,.0f} events a second, "
                f"{took / peer:.2f} of SQLite's time with WAL",
                flush=True,
            )
            good = good and (not part.startswith("drive with a log") or took <= peer)
        start = restart(program, folder, arguments.sagas)
        ready = questions(program, folder)
        ratio = many(program, folder, arguments.turns)
    sys.exit(0 if good and start <= 10 and ready <= 1 and ratio <= 1 else 1)


if __name__ == "__main__":
    main()
