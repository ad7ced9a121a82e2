#!/usr/bin/env python3
"""Time `sagas check`, the best of many runs, and the shares of its parts.

The parts are reading the definition, the case and the answer, and the verification. A part is
measured as the time of a run that ends after it, less that of a run that ends before it. A case
that is not JSON ends after the definition, an answer that is not JSON after the case, and an answer
of the wrong shape after the answer was read. The script prints one line for each size: the total
time, and each part as a share of it.
"""
import json
import os
import random
import subprocess
import sys
import tempfile
import time

HERE = os.path.dirname(os.path.abspath(__file__))
SAGAS = os.path.join(HERE, "..", "sagas")
# The program that ./sagas starts.
PROGRAM = subprocess.run(
    [os.path.join(HERE, "..", "tests", "program")], capture_output=True, text=True, check=True
).stdout.strip()
SIZES = [128, 256, 512, 1024]
NEEDS = 8
RUNS = 60


def definition(steps, seed):
    draw = random.Random(seed)
    lines = ["format = 1", 'name = "greatest"']
    needs = 0
    for step in range(steps):
        lines += ["", "[[step]]", f'name = "s{step}"', "undo = 1", "keep = 2"]
        on = sorted(draw.sample(range(step), min(step, NEEDS)))
        needs += len(on)
        lines.append("needs = [" + ", ".join(f'"s{number}"' for number in on) + "]")
    return "\n".join(lines) + "\n", needs


def case(steps):
    return json.dumps({"states": ["committed"] * (steps - 1) + ["failed"]}, separators=(",", ":"))


def answer(steps, needs):
    """Return an answer that undoes all committed steps.

    To undo a step costs 1, and to keep it 2. Each step sends a flow of 1 directly to the sink.
    """
    units = [1] * (steps - 1) + [0]
    plan = {
        "cost": steps - 1,
        "kept": [],
        "kind": "plan",
        "leave": units,
        "links": [0] * needs,
        "stand": units,
    }
    return json.dumps(plan, separators=(",", ":"))


def seconds(runs):
    """Return the best time of each run in seconds. A run is a command and its files."""
    best = [float("inf")] * len(runs)
    for _ in range(RUNS):
        for number, (command, *paths) in enumerate(runs):
            start = time.perf_counter()
            subprocess.run(
                [PROGRAM, command, *paths],
                stdout=subprocess.DEVNULL,
                stderr=subprocess.DEVNULL,
                check=False,
            )
            best[number] = min(best[number], time.perf_counter() - start)
    return best


def main():
    subprocess.run([SAGAS, "--help"], stdout=subprocess.DEVNULL, check=True)
    with tempfile.TemporaryDirectory() as work:

        def put(name, text):
            path = os.path.join(work, name)
            with open(path, "w", encoding="utf-8") as file:
                file.write(text)
            return path

        none = put("none", "x")
        for steps in SIZES:
            text, needs = definition(steps, steps)
            saga, states, plan = (
                put("saga.toml", text),
                put("case.json", case(steps)),
                put("answer.json", answer(steps, needs)),
            )
            shapeless = put(
                "shapeless.json",
                answer(steps, needs)
                .replace('"kept":[]', '"kept":[0]')
                .replace('"links":[', '"links":[0,', 1),
            )
            verdict = subprocess.run(
                [PROGRAM, "check", saga, states, plan], capture_output=True, text=True, check=False
            ).stdout
            if verdict != f"least {steps - 1}\n":
                sys.exit(f"not least: {verdict!r}")
            files = [
                [none, none, none],
                [saga, none, none],
                [saga, states, none],
                [saga, states, shapeless],
                [saga, states, plan],
            ]
            start, read, cased, answered, whole = seconds([["check", *paths] for paths in files])
            parts = {
                "start": start,
                "definition": read - start,
                "case": cased - read,
                "answer": answered - cased,
                "judging": whole - answered,
            }
            shares = ", ".join(f"{name} {100 * part / whole:.0f}%" for name, part in parts.items())
            print(f"{steps} steps, {needs} needs: {1000 * whole:.1f} ms: {shares}", flush=True)


if __name__ == "__main__":
    main()
