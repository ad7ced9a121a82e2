#!/usr/bin/env python3
"""Time whole runs, by 1, 2 and 4 workers on 1, 4 and 16 shards, and the log of a run and its audit.

A run has 1,000 sagas of 64 steps, with random needs, eight a step. The steps take no time, so that
only the run itself is measured. The script prints the events per second of a run, of a run with its
log, and of reading and auditing that log, each in the best of all runs. It prints the time of a run
as a ratio to that of a book alone, which the same process executes before, since the speed of a
machine changes between processes. Then it prints the bytes per event: the growth of the peak memory
over that of a run of one saga. Last is the time of four workers as a ratio to that of one worker,
for 200 sagas whose steps take 20 microseconds each.

The status is 1 if one of these ratios is too large: of one worker on one shard to a book alone (2);
and, to one worker on one shard, of as many workers and shards as there are processors (1). On four
or more processors that are otherwise idle, the limits of four workers are 0.45 on 4 and on 16
shards, 1.3 on one shard, and 0.3 if steps take 20 microseconds.
"""
import os
import statistics
import subprocess
import sys
import tempfile

import book
import runs

SAGAS = 1000
STEPS = 64
WORKERS = [1, 2, 4]
SHARDS = [1, 4, 16]
MAX_PROCESSORS = 16
MICROS = 20
BUSY_SAGAS = 200

# The limits of the time of four workers, as a ratio to that of one worker on one shard: by the
# number of shards, and if steps take time.
LIMITS = {1: 1.3, 4: 0.45, 16: 0.45}
BUSY_LIMIT = 0.3
PARTS = ["a book alone", "run", "writing the log", "audit"]


def command(program, file, sagas, crew, logs):
    """Return the command that runs sagas by a crew, and also writes and audits the log if asked.

    A crew is a number of workers and a number of shards.
    """
    return [*program, "run", file, str(sagas), *map(str, crew), *(["log"] if logs else [])]


def seconds(program, file, crews, turns):
    """Return the events of a run, and the best seconds of each part, by crew and turn."""
    events = 0
    times_by_crew = {crew: [] for crew in crews}
    for _ in range(turns):
        for crew in crews:
            arguments = command(program, file, SAGAS, crew, True)
            done = subprocess.run(
                arguments, env=os.environ | runs.KEPT, capture_output=True, text=True, check=True
            )
            events = int(done.stdout.split()[1])
            times = [float(line) for line in done.stderr.split()]
            times_by_crew[crew].append(
                [min(times[part :: len(PARTS)]) for part in range(len(PARTS))]
            )
    return events, times_by_crew


def busy_seconds(program, file, crew):
    """Return the best seconds of a run with steps that take time."""
    arguments = [*command(program, file, BUSY_SAGAS, crew, False), str(MICROS)]
    done = subprocess.run(
        arguments, env=os.environ | runs.KEPT, capture_output=True, text=True, check=True
    )
    return min(float(line) for line in done.stderr.split()[1::2])


def ratio(turns):
    """Return the median ratio of the time of a run to that of a book alone."""
    return statistics.median(run / alone for alone, run, _, _ in turns)


def bytes_each(program, file, crew, logs, events):
    """Return the growth of the peak memory for an event, in bytes."""
    many, single = (
        book.greatest_memory(command(program, file, sagas, crew, logs)) for sagas in [SAGAS, 1]
    )
    return (many - single) / events


def shown(crew):
    """Return a text for a crew."""
    return " on ".join(
        f"{number} {name}{'' if number == 1 else 's'}"
        for number, name in zip(crew, ["worker", "shard"])
    )


def main():
    options = runs.options(__doc__)
    program = runs.built(options)
    processors = min(len(os.sched_getaffinity(0)), MAX_PROCESSORS)
    single, full = (1, 1), (processors, processors)
    crews = [(workers, shards) for workers in WORKERS for shards in SHARDS]
    crews += [] if full in crews else [full]
    with tempfile.TemporaryDirectory() as folder:
        file = runs.put(folder, "steps", book.definition(STEPS))
        events, times_by_crew = seconds(program, file, crews, options.turns)
        for crew, turns in times_by_crew.items():
            _, run, write, audit = (min(times) for times in zip(*turns))
            print(
                f"{shown(crew)}: {events} events; events a second: {events / run:,.0f},"
                f" with a log {events / (run + write):,.0f},"
                f" audit {events / audit:,.0f}; {ratio(turns):.2f} of a book's time alone",
                flush=True,
            )
        for crew in dict.fromkeys([single, full]):
            without, with_log = (
                bytes_each(program, file, crew, logs, events) for logs in [False, True]
            )
            print(
                f"{shown(crew)}: {without:.1f} bytes an event,"
                f" with a log and its audit {with_log:.1f}",
                flush=True,
            )
        alone = busy_seconds(program, file, single)
        busy = {
            shards: busy_seconds(program, file, (max(WORKERS), shards)) / alone for shards in SHARDS
        }
    gains = {crew: ratio(times_by_crew[crew]) / ratio(times_by_crew[single]) for crew in crews}
    for crew, gain in gains.items():
        print(f"{shown(crew)}: {gain:.2f} of the time of {shown(single)}")
    for shards, gain in busy.items():
        print(
            f"{shown((max(WORKERS), shards))}, {MICROS} microseconds a step: "
            f"{gain:.2f} of the time of {shown(single)}"
        )
    good = ratio(times_by_crew[single]) <= 2 and gains[full] <= 1
    if processors >= max(WORKERS):
        good = (
            good
            and all(gains[max(WORKERS), shards] <= limit for shards, limit in LIMITS.items())
            and max(busy.values()) <= BUSY_LIMIT
        )
    sys.exit(0 if good else 1)


if __name__ == "__main__":
    main()
