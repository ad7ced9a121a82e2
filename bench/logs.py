#!/usr/bin/env python3
"""Time `read_log` and `write_log` with 100,000 and 1,000,000 events, against `serde_json`.

Of ten events of a log, one is an opening, eight are events of a step, and one is an adoption. The
script prints for each size the seconds of the best of many runs, those of `serde_json` reading each
line to a value, and the ratios to these. Then it prints how much longer each takes with ten times
the events. The status is 1 if a log is not linear (more than 11 times), if reading takes longer
than `serde_json`, or if writing takes longer than half of that.

The allocator of the C library keeps the memory that a run frees. Else it would get each text above
some 32 MB from the system page by page in each run, but not the texts of the smaller log.
"""
import sys
import tempfile

import runs

SIZES = [100_000, 1_000_000]
STEPS = ["start_run", "commit", "start_run", "commit", "start_run", "fail", "start_undo", "undone"]
PARTS = ["read_log", "write_log", "values alone"]


def log(events):
    """Return a log with this number of events, ten of each saga."""
    lines = []
    for saga in range(events // 10):
        lines.append(f'{{"def":0,"event":"open","saga":{saga}}}')
        for offset, word in enumerate(STEPS):
            lines.append(f'{{"event":"{word}","saga":{saga},"step":{saga * 7 % 1000 + offset}}}')
        answer = '{"cost":3,"kept":[],"kind":"plan","leave":[1,2,0],"links":[0,0],"stand":[1,2,0]}'
        lines.append(f'{{"answer":{answer},"event":"adopt","saga":{saga}}}')
    return "\n".join(lines) + "\n"


def seconds(program, path, turns):
    """Return the best seconds of each part."""
    return runs.best_of_parts([*program, "log", path], len(PARTS), turns)[1]


def main():
    options = runs.options(__doc__)
    program = runs.built(options)
    good = True
    bests = []
    with tempfile.TemporaryDirectory() as folder:
        for events in SIZES:
            best = seconds(program, runs.put(folder, str(events), log(events)), options.turns)
            bests.append(best)
            for part, time in zip(PARTS, best):
                print(
                    f"{events} events, {part}: {time:.4f} s, ratio {time / best[2]:.2f}", flush=True
                )
            good = good and best[0] <= best[2] and best[1] <= best[2] / 2
    for part, small, great in zip(PARTS, *bests):
        print(f"{part}: {great / small:.1f} times as long at ten times the events")
    good = good and all(great <= 11 * small for small, great in zip(*bests))
    sys.exit(0 if good else 1)


if __name__ == "__main__":
    main()
