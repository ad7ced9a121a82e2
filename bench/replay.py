#!/usr/bin/env python3
"""Time `Book::replay` of histories that a book made, against `audit` of the same histories.

A replay audits the history, and then makes each event again. The definitions have random needs,
three a step. There are 1,000 sagas of 10 steps and of 500. Either every step succeeds, or the last
step of each saga fails, and a plan keeps nothing. The script prints the best time per event of both
and their ratio, and then how much longer a replay of ten times the sagas takes. The status is 1 if
a replay takes more than three times as long as the audit, or a replay of ten times the sagas more
than 12 times as long.
"""
import sys
import tempfile

import case_net
import runs

SAGAS = 1000
STEPS = [10, 500]
NEEDS = 3
PARTS = ["audit", "replay"]


def definition(steps):
    """Return a definition whose least plan keeps nothing."""
    _, pairs = case_net.made("any", steps, NEEDS * steps, 1)
    return "".join(["s waiting 0 0 0 1\n"] * steps + [f"n {step} {on}\n" for step, on in pairs])


def main():
    options = runs.options(__doc__)
    program = runs.built(options)
    good = True
    with tempfile.TemporaryDirectory() as folder:
        for steps in STEPS:
            file = runs.put(folder, str(steps), definition(steps))
            for kind, fails in [("all succeed", []), ("one failure a saga", [str(steps - 1)])]:
                events, (audit, replay) = runs.events_of(
                    program, ["replay", file, str(SAGAS), *fails], len(PARTS), options.turns
                )
                _, (_, small) = runs.events_of(
                    program, ["replay", file, str(SAGAS // 10), *fails], len(PARTS), options.turns
                )
                print(
                    f"{SAGAS} sagas of {steps} steps, {kind}: {events} events;"
                    f" audit {audit / events * 1e9:.0f} ns an event,"
                    f" replay {replay / events * 1e9:.0f}, {replay / audit:.2f} times as long;"
                    f" ten times the sagas take a replay {replay / small:.1f} times as long",
                    flush=True,
                )
                good = good and replay <= 3 * audit and replay <= 12 * small
    sys.exit(0 if good else 1)


if __name__ == "__main__":
    main()
