#!/usr/bin/env python3
"""Time the calls of a book, one task after another, against those of a plain one (peers/book.cpp).

The definitions have random needs, eight a step. Either every step succeeds, or the last step of
each saga fails, and a plan keeps nothing. The times do not include planning and verification of
plans. The script prints the median time per event of both, and the bytes per event: the growth of
the peak memory over that of a book of one saga. Then it prints the time per event of 1,000 sagas as
a ratio to that of 100. The allocator keeps the memory that a run frees.
"""
import pathlib
import subprocess
import tempfile

import case_net
import runs

LOADS = [(1000, 64), (200, 1024)]
NEEDS = 8


def definition(steps):
    """Return a definition whose least plan keeps nothing."""
    _, pairs = case_net.made("any", steps, NEEDS * steps, 1)
    return "".join(["s waiting 0 0 0 1\n"] * steps + [f"n {step} {on}\n" for step, on in pairs])


def greatest_memory(command):
    """Return the peak memory of a command in bytes, over several runs.

    A run may be so short that every sample is too early.
    """
    return max(greatest_seen(command) for _ in range(9))


def greatest_seen(command):
    """Return the greatest peak memory that the samples of one run show, in bytes."""
    greatest = 0
    with subprocess.Popen(command, stdout=subprocess.DEVNULL, stderr=subprocess.DEVNULL) as process:
        while process.poll() is None:
            try:
                status = pathlib.Path(f"/proc/{process.pid}/status").read_text(encoding="utf-8")
            except OSError:
                break
            for line in status.splitlines():
                if line.startswith("VmHWM") and process.poll() is None:
                    greatest = max(greatest, 1024 * int(line.split()[1]))
    return greatest


def main():
    options = runs.options(__doc__)
    program = runs.built(options)
    with tempfile.TemporaryDirectory() as folder:
        peer = pathlib.Path(folder) / "book"
        subprocess.run(
            ["g++", "-std=c++20", "-O2", "-o", peer, runs.HERE / "peers" / "book.cpp"], check=True
        )
        for sagas, steps in LOADS:
            file = runs.put(folder, str(steps), definition(steps))
            for kind, fails in [("all succeed", []), ("one failure a saga", [str(steps - 1)])]:
                load = [file, str(sagas), *fails]
                (ours, our_time), (theirs, their_time) = runs.timed(
                    [[*program, "book", *load], [peer, *load]], options.turns, runs.KEPT
                )
                events = int(ours[1])
                grown = greatest_memory([*program, "book", *load]) - greatest_memory(
                    [*program, "book", file, "1", *fails]
                )
                verdict = "agree" if ours == theirs else "DIFFER"
                print(
                    f"{sagas} sagas of {steps} steps, {kind}: {events} events {verdict},"
                    f" {our_time / events * 1e9:.0f} ns an event"
                    f" against {their_time / events * 1e9:.0f} ns,"
                    f" ratio {our_time / their_time:.2f}, {grown / events:.1f} bytes an event",
                    flush=True,
                )
        for kind, fails in [("all succeed", []), ("one failure a saga", ["63"])]:
            commands = [
                [*program, "book", folder + "/64", sagas, *fails] for sagas in ["100", "1000"]
            ]
            (few, few_time), (many, many_time) = runs.timed(commands, options.turns, runs.KEPT)
            ratio = many_time / int(many[1]) / (few_time / int(few[1]))
            print(
                f"from 100 to 1,000 sagas of 64 steps, {kind}: ratio {ratio:.2f} an event",
                flush=True,
            )


if __name__ == "__main__":
    main()
