#!/usr/bin/env python3
"""Compare two programs on the same random inputs, byte for byte.

    twins.py FIRST SECOND [--count N] [--seed N] [--jobs N]

A program is a path, or a command ("qemu-aarch64-static dist/aarch64/sagas"). The script compares
the status, standard output, standard error and each written file. The inputs are plans,
verifications, drawings, audits, runs with scripts, and conversations with `drive`, half of them
with changed texts.
"""

from __future__ import annotations

import argparse
import json
import os
import random
import shlex
import subprocess
import sys
import tempfile
from collections import Counter
from concurrent.futures import ThreadPoolExecutor
from dataclasses import dataclass, field
from pathlib import Path

TOP = Path(__file__).resolve().parent.parent.parent
sys.path[:0] = [str(TOP / "tests"), str(TOP / "tests" / "library"), str(TOP / "python" / "src")]

import same  # noqa: E402


@dataclass
class Case:
    """The input of a program: its arguments, its texts by file names, and standard input."""

    arguments: list[str]
    texts: dict[str, bytes]
    stdin: bytes = b""
    written: list[str] = field(default_factory=list)


def script(chance: random.Random, count: int) -> str:
    """Return a script of outcomes of actions."""
    lines = []
    for step in range(count):
        if chance.random() < 0.4:
            lines.append(
                f"0 s{step} {chance.choice(['run', 'undo'])} "
                f"{chance.choice(['fail', 'fail', 'ok', 'unknown'])}"
            )
    if chance.random() < 0.2:
        lines.append(f"0 abort after {chance.randrange(6)}")
    return "\n".join(lines) + "\n"


def requests(chance: random.Random, count: int) -> str:
    """Return a conversation that opens sagas, requests tasks and reports them, in any order."""
    lines: list[dict[str, object]] = [{"def": 0, "do": "open"}]
    for _ in range(chance.randrange(1, 40)):
        step = chance.randrange(count)
        report = {
            "do": "report",
            "outcome": chance.choice(["ok", "ok", "ok", "fail"]),
            "saga": 0,
            "step": step,
        }
        lines.append(
            chance.choice(
                [
                    {"do": "next"},
                    {"do": "next"},
                    report,
                    report,
                    {"do": "show", "saga": 0},
                    {"do": "status"},
                    {"do": "busy"},
                    {"do": "abort", "saga": 0},
                ]
            )
        )
    return "".join(json.dumps(line, separators=(",", ":")) + "\n" for line in lines)


def case(number: int, seed: int) -> Case:
    """Return the case of a number."""
    chance = random.Random(f"{seed} {number}")
    definition, count = same.definition(chance)
    texts = {"def": definition.encode(), "case": same.case(chance, count).encode()}
    command = chance.choice(
        ["plan", "check", "draw", "audit", "run", "run", "drive", "drive", "lines"]
    )
    made = Case([command], texts)
    if command in ("plan", "check", "draw"):
        texts["answer"] = chance.choice(
            [b'{"chain":[0],"kind":"blocked"}', b'{"cost":0,"kept":[],"kind":"plan"}', b"{}"]
        )
        made.arguments += list(texts)[
            : {"plan": 2, "check": 3, "draw": chance.randrange(1, 4)}[command]
        ]
    elif command == "audit":
        texts["log"] = same.log(chance, count).encode()
        made.arguments += ["log", "def"]
    elif command == "run":
        texts["script"] = script(chance, count).encode()
        made.arguments += [
            "--script",
            "script",
            "--log",
            "out.log",
            *["def"] * chance.choice([1, 1, 3]),
        ]
    else:
        made.arguments = [
            "drive",
            *(["--lines"] if command == "lines" else ["--log", "out.log"]),
            "def",
        ]
        made.stdin = requests(chance, count).encode()
    if chance.random() < 0.5:
        name = chance.choice([*texts, "stdin"])
        if name == "stdin":
            made.stdin = same.changed(chance, made.stdin)
        else:
            texts[name] = same.changed(chance, texts[name])
    return made


def answered(program: list[str], made: Case) -> tuple[int, bytes, bytes, dict[str, bytes]]:
    """Return the reply of a program, and the files afterwards."""
    with tempfile.TemporaryDirectory(
        dir="/dev/shm" if os.path.isdir("/dev/shm") else None
    ) as folder:
        for name, text in made.texts.items():
            Path(folder, name).write_bytes(text)
        done = subprocess.run(
            [*program, *made.arguments],
            cwd=folder,
            input=made.stdin,
            capture_output=True,
            timeout=120,
            check=False,
        )
        files = {path.name: path.read_bytes() for path in sorted(Path(folder).iterdir())}
    return done.returncode, done.stdout, done.stderr, files


def command_of(text: str) -> list[str]:
    """Return the command of a program, with absolute paths."""
    return [
        str(Path(word).resolve()) if os.path.exists(word) else word for word in shlex.split(text)
    ]


def main() -> int:
    """Compare, and return the status."""
    parser = argparse.ArgumentParser(description=(__doc__ or "").splitlines()[0])
    parser.add_argument("first")
    parser.add_argument("second")
    parser.add_argument("--count", type=int, default=5000)
    parser.add_argument("--seed", type=int, default=1)
    parser.add_argument("--jobs", type=int, default=os.cpu_count())
    options = parser.parse_args()
    first, second = command_of(options.first), command_of(options.second)

    def compared(number: int) -> tuple[str, int, str]:
        made = case(number, options.seed)
        first_reply, other = answered(first, made), answered(second, made)
        return (
            made.arguments[0],
            first_reply[0],
            ""
            if first_reply == other
            else f"{number}: {made.arguments}: {first_reply} and {other}",
        )

    with ThreadPoolExecutor(options.jobs) as pool:
        results = list(pool.map(compared, range(options.count)))
    differ = [why for _, _, why in results if why]
    print("\n".join(differ[:5]), end="\n" if differ else "")
    kinds = Counter(f"{command} {status}" for command, status, _ in results)
    print(
        f"twins: {len(results)} runs, "
        f"{', '.join(f'{kind}: {count}' for kind, count in sorted(kinds.items()))}; "
        f"{len(differ)} differ"
    )
    return 1 if differ else 0


if __name__ == "__main__":
    sys.exit(main())
