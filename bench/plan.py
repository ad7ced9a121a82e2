#!/usr/bin/env python3
"""Time `sagas plan`, the best of many runs, and the shares of its parts.

The parts are reading the definition and the case, building the network, the flow, and writing the
answer. Reading is measured as the time of runs that end after it: a case that is not JSON ends
after the definition, and an answer that is not JSON after the case. bench/saga_timing times
planning and its flow on the same case and its network. Planning without the flow is the network and
the answer, and the rest is writing. The cases are random, from `case_net.py`. The script prints one
line for each size: the total time, and each part as a share of it.
"""
import json
import subprocess
import sys
import tempfile

import case_net
import runs
from check import PROGRAM, SAGAS, seconds

SIZES = [(64, 512), (128, 1024), (256, 2048), (512, 4096), (1024, 8192)]


def definition(drawn, pairs):
    """Return the definition of a case in TOML."""
    needs = [[] for _ in drawn]
    for step, on in pairs:
        needs[step].append(f'"s{on}"')
    lines = ["format = 1", 'name = "random"']
    for step, (_, (run, undo, skip, keep)) in enumerate(drawn):
        lines += [
            "",
            "[[step]]",
            f'name = "s{step}"',
            f"run = {run}",
            f"undo = {undo}",
            f"skip = {skip}",
            f"keep = {keep}",
        ]
        lines.append("needs = [" + ", ".join(needs[step]) + "]")
    return "\n".join(lines) + "\n"


def case(drawn):
    """Return the states of a case in JSON."""
    return json.dumps({"states": [state for state, _ in drawn]}, separators=(",", ":"))


def least(program, command, file, turns):
    """Return the output of saga_timing, and the seconds of its best run."""
    printed, times = "", []
    for _ in range(turns):
        done = subprocess.run([*program, command, file], capture_output=True, text=True, check=True)
        printed, times = done.stdout.split(), times + [float(line) for line in done.stderr.split()]
    return printed, min(times)


def main():
    options = runs.options(__doc__)
    subprocess.run([SAGAS, "--help"], stdout=subprocess.DEVNULL, check=True)
    program = runs.built(options)
    with tempfile.TemporaryDirectory() as folder:
        none = runs.put(folder, "none", "x")
        for steps, needs in SIZES:
            drawn, pairs = case_net.made("any", steps, needs, 1)
            files = [
                runs.put(folder, "saga.toml", definition(drawn, pairs)),
                runs.put(folder, "case.json", case(drawn)),
            ]
            text = json.loads(
                subprocess.run(
                    [PROGRAM, "plan", *files], capture_output=True, text=True, check=True
                ).stdout
            )
            printed, planning = least(
                program,
                "plan",
                runs.put(folder, "case", case_net.case(drawn, pairs)),
                options.turns,
            )
            _, flow = least(
                program,
                "flow",
                runs.put(folder, "net", case_net.network(drawn, pairs)),
                options.turns,
            )
            if printed[:2] != ["cost", str(text["cost"])]:
                sys.exit(f"another cost: {printed}")
            whole, read, start, cased = seconds(
                [
                    ["plan", *files],
                    ["plan", files[0], none],
                    ["plan", none, none],
                    ["check", *files, none],
                ]
            )
            parts = {
                "start": start,
                "definition": read - start,
                "case": cased - read,
                "network and answer": planning - flow,
                "flow": flow,
                "writing": whole - cased - planning,
            }
            shares = ", ".join(f"{name} {100 * part / whole:.0f}%" for name, part in parts.items())
            print(f"{steps} steps, {needs} needs: {1000 * whole:.1f} ms: {shares}", flush=True)


if __name__ == "__main__":
    main()
