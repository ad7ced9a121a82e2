#!/usr/bin/env python3
"""Run the program on hostile texts: it must print an answer, or one line that names a fault.

The first texts are each prefix of the examples' texts and of the shortest text of each kind, and
each of these texts with one byte changed to 0, to 255 and to `}`. The next ones are nested deeply,
or have long keys, many tiny lines, many steps, needs of unknown names or numbers of a thousand
digits. Each has a size and twice that size.

The program may use at most 32 times the memory of a definition, a case or an answer, 200 times if
the text consists of small tables or objects, and 8 times that of a log or a script (by
tests/refusing.c). It may not take ten times as long for twice the text. Runs are parallel, one for
each processor.
"""

from __future__ import annotations

import collections
import os
import re
import sys
import tempfile
from collections.abc import Callable, Iterator
from concurrent.futures import ProcessPoolExecutor
from dataclasses import dataclass
from pathlib import Path

from refusing import TOP, build, path_of, refused, run

# A line about a fault, which names the fault at its end.
FAULT = re.compile(
    rb"sagas: (?:definition|case|answer|log|script)(?: 0)?: "
    rb"((?:line \d+: )?[a-z]+(?:-[a-z]+)*|busy \d+|line \d+)\n"
)

# The number of positions of a text that one task tries.
POSITIONS = 64

# The limit of the memory as a multiple of the text, and the limit for texts of small tables or
# objects. Each of these takes about a thousand bytes in the trees of `toml` and `serde_json`, even
# if it is short.
TIMES = {"definition": 32, "case": 32, "answer": 32, "log": 8, "script": 8}
TIMES_OF_SMALL = 200

# The shortest text of each kind.
SHORT = {
    "definition": b'format=1\nname="a"\nstep=[{name="b"}]',
    "case": b'{"states":["failed"]}',
    "answer": b'{"chain":[],"kind":"blocked"}',
    "script": b"0 b run ok",
    "log": b'{"def":0,"event":"open","saga":0}',
}


@dataclass(frozen=True)
class Judged:
    """A text, and the arguments of the program that reads it; `{}` is the path of its file."""

    name: str
    text: bytes
    arguments: list[str]


def arguments_of(kind: str, definition: str, case: str) -> list[str]:
    """Return the arguments of the program that reads a text of a kind from the file `{}`."""
    return {
        "definition": ["plan", "{}", case],
        "case": ["plan", definition, "{}"],
        "answer": ["check", definition, case, "{}"],
        "script": ["run", "--script", "{}", definition],
        "log": ["audit", "{}", definition],
    }[kind]


def judged(short: Path) -> Iterator[Judged]:
    """Yield the texts of the examples, and the shortest ones, which are in a folder."""
    examples = TOP / "examples"
    for name in ("order", "trip", "server", "licence"):
        definition, case = f"{examples}/{name}.toml", f"{examples}/{name}.case.json"
        files = [
            ("definition", definition),
            ("case", case),
            ("answer", f"{examples}/{name}.answer.json"),
        ]
        files += [("script", str(path)) for path in sorted(examples.glob(f"{name}*.script"))]
        files += [("log", str(path)) for path in sorted(examples.glob(f"{name}*.log"))]
        for kind, path in files:
            yield Judged(
                f"{kind} {Path(path).name}",
                Path(path).read_bytes(),
                arguments_of(kind, definition, case),
            )
    for kind, text in SHORT.items():
        yield Judged(
            f"shortest {kind}",
            text,
            arguments_of(kind, str(short / "definition"), str(short / "case")),
        )


def variants(text: bytes, positions: range) -> Iterator[tuple[str, bytes]]:
    """Yield the prefixes of a text up to these positions, and the text with another byte there."""
    for position in positions:
        yield f"up to {position}", text[:position]
        if position < len(text):
            for byte in (0, 255, ord("}")):
                yield f"with {byte} at {position}", text[:position] + bytes([byte]) + text[
                    position + 1 :
                ]


def outcome(status: int, out: bytes, err: bytes) -> str | None:
    """Return the kind of a run's answer, or the name of its fault, or None for other output."""
    if status in (0, 1) and out and not err:
        return "an answer" if status == 0 else "no"
    fault = FAULT.fullmatch(err)
    return (
        fault[1].decode().split(": ")[-1].split()[0] if status == 3 and not out and fault else None
    )


def go_through(judged_text: Judged, positions: range) -> tuple[collections.Counter[str], list[str]]:
    """Run the program on variants of a text, and return the outcomes and the faults."""
    counts: collections.Counter[str] = collections.Counter()
    wrong: list[str] = []
    with tempfile.TemporaryDirectory(prefix="hostile-") as folder:
        room = Path(folder)
        text = room / "text"
        arguments = (
            str(text) if argument == "{}" else argument for argument in judged_text.arguments
        )
        command = [path_of("program"), *arguments]
        for variant, changed in variants(judged_text.text, positions):
            text.write_bytes(changed)
            ran = run(command, room)
            name = outcome(ran.status, ran.out, ran.err)
            if name is None:
                wrong.append(
                    f"{judged_text.name} {variant}: status {ran.status}: "
                    f"{ran.out[:80]!r} {ran.err[:160]!r}"
                )
            else:
                counts[name] += 1
    return counts, wrong


# ---- texts of a size, and of twice that


def numbered(count: int, form: Callable[[int], str]) -> str:
    """Return the texts of a form for 0, 1 and so on."""
    return "".join(map(form, range(count)))


NAMED = 'format = 1\nname = "a"\n'
STEPS = NAMED + "step = ["
NEEDS = NAMED + '[[step]]\nname = "b"\nneeds = ['
OPEN = '{"def":0,"event":"open","saga":'
BLOCKED = '{"kind":"blocked","chain":['

# The texts, by the number of repetitions in them.
MADE: dict[str, Callable[[int], str]] = {
    "lists in toml": lambda n: NAMED + "step = " + "[" * n,
    "tables in toml": lambda n: "format = 1\nname" + ".a" * n + " = 1\n",
    "key in toml": lambda n: "format = 1\n" + "k" * n + " = 1\n",
    "name in toml": lambda n: f'format = 1\nname = "{"n" * n}"\nstep = [{{ name = "b" }}]\n',
    "keys in toml": lambda n: "format = 1\n" + numbered(n, lambda i: f"k{i} = 1\n"),
    "lines in toml": lambda n: "\n" * n,
    "steps in toml": lambda n: STEPS + "{}," * n + "]\n",
    "named steps in toml": lambda n: STEPS + numbered(n, lambda i: f'{{name="s{i}"}},') + "]\n",
    "small tables": lambda n: STEPS + "{a=0}," * n + "]\n",
    "unknown needs": lambda n: NEEDS + numbered(n, lambda i: f'"x{i}",') + "]\n",
    "many needs": lambda n: NEEDS + '"x",' * n + "]\n",
    "digits in toml": lambda n: NAMED + f'step = [{{ name = "b", run = {"7" * n} }}]\n',
    "lists in json": lambda n: "[" * n,
    "key in json": lambda n: '{"' + "k" * n + '":1}',
    "word in json": lambda n: '{"kind":"' + "\\u0061" * n + '"}',
    "keys in json": lambda n: '{"kind":"plan"' + numbered(n, lambda i: f',"k{i}":0') + "}",
    "states in json": lambda n: '{"states":[' + '"waiting",' * n + '"failed"]}',
    "amounts in json": lambda n: '{"cost":0,"kept":[],"kind":"plan","links":[],"stand":[],"leave":['
    + "7," * n
    + "7]}",
    "chain in json": lambda n: BLOCKED + "7," * n + "7]}",
    "digits in json": lambda n: BLOCKED + "7" * n + "]}",
    "small objects": lambda n: "[" + '{"a":0},' * n + "0]",
    "objects in log": lambda n: '{"event":' * n,
    "lines in log": lambda n: "{}\n" * n,
    "digits in log": lambda n: OPEN + "7" * n + "}\n",
    "opens in log": lambda n: numbered(n, lambda i: f"{OPEN}{i}}}\n") + OPEN + "0}\n",
    "digits in script": lambda n: "7" * n + " b run ok\n",
    "lines in script": lambda n: "\n" * n + "x",
    "retries in script": lambda n: numbered(n, lambda i: f"{i} b run ok 1\n") + "x",
}

# Each text with its kind, the lesser size, and its outcome: the fault, or of a refused answer `no`
# and the reason. `{}` is the size, and `{+}` one more.
GROWN = [
    ("definition", "lists in toml", 400_000, "not-toml"),
    ("definition", "tables in toml", 200_000, "not-toml"),
    ("definition", "key in toml", 400_000, "unknown-key"),
    ("definition", "name in toml", 400_000, "bad-name"),
    ("definition", "keys in toml", 40_000, "unknown-key"),
    ("definition", "lines in toml", 500_000, "bad-format"),
    ("definition", "steps in toml", 150_000, "missing-key"),
    ("definition", "unknown needs", 4_000, "unknown-step"),
    ("definition", "many needs", 100_000, "too-many-needs"),
    ("definition", "digits in toml", 1_000, "not-toml"),
    ("definition", "digits in toml", 400_000, "not-toml"),
    ("definition", "named steps in toml", 25_000, "too-many-steps"),
    ("definition", "small tables", 80_000, "unknown-key"),
    ("case", "lists in json", 4_000_000, "not-json"),
    ("case", "key in json", 4_000_000, "unknown-key"),
    ("case", "states in json", 500_000, "wrong-length"),
    ("case", "small objects", 250_000, "kind"),
    ("answer", "lists in json", 4_000_000, "not-json"),
    ("answer", "word in json", 500_000, "kind"),
    ("answer", "keys in json", 200_000, "unknown-key"),
    ("answer", "amounts in json", 1_000_000, "no shape"),
    ("answer", "chain in json", 1_000_000, "no shape"),
    ("answer", "digits in json", 1_000, "not-json"),
    ("answer", "digits in json", 4_000_000, "not-json"),
    ("log", "objects in log", 400_000, "line 1: not-json"),
    ("log", "lines in log", 500_000, "line 1: kind"),
    ("log", "digits in log", 1_000, "line 1: not-json"),
    ("log", "digits in log", 4_000_000, "line 1: not-json"),
    ("log", "opens in log", 250_000, "no {} double-open"),
    ("script", "digits in script", 1_000, "line 1"),
    ("script", "digits in script", 400_000, "line 1"),
    ("script", "lines in script", 500_000, "line {+}"),
    ("script", "retries in script", 30_000, "line {+}"),
]

SMALL = ("small tables", "small objects", "named steps in toml")


def grow(library: Path, kind: str, name: str, count: int, comes: str) -> tuple[str, list[str]]:
    """Run the program on a text of a size and of twice that, and return its costs and faults."""
    wrong: list[str] = []
    took: list[float] = []
    with tempfile.TemporaryDirectory(prefix="hostile-") as folder:
        room = Path(folder)
        for part, text in SHORT.items():
            (room / part).write_bytes(text)
        command = [
            path_of("program"),
            *arguments_of(kind, str(room / "definition"), str(room / "case")),
        ]
        (room / "text").touch()
        for many in (count, 2 * count):
            text = MADE[name](many).encode()
            (room / "text").write_bytes(text)
            expected_text = comes.replace("{}", str(many)).replace("{+}", str(many + 1))
            expected = (
                (1, f"{expected_text}\n", "")
                if expected_text.startswith("no ")
                else (3, "", f"sagas: {kind}: {expected_text}\n")
            )
            ran, report = refused(
                library,
                None,
                [str(room / "text") if argument == "{}" else argument for argument in command],
                room,
            )
            label = f"{name}, {len(text)} bytes"
            if (
                ran.status,
                ran.out.decode(),
                ran.err.decode(),
            ) != expected:
                wrong.append(f"{label}: status {ran.status}: {ran.out[:80]!r} {ran.err[:80]!r}")
            held = report.held / len(text) if report else 0.0
            if not 0 < held <= (TIMES_OF_SMALL if name in SMALL else TIMES[kind]):
                wrong.append(f"{label}: {held:.0f} times as many held")
            took.append(ran.seconds)
    if took[1] > 10 * took[0] + 0.05:
        wrong.append(f"{name}: {took[0]:.3f} and {took[1]:.3f} seconds")
    return (
        f"{f'{kind}: {name}':32} {len(text):9} bytes {took[1]:6.3f} s, at half {took[0]:6.3f} s; "
        f"held {held:4.0f} times the text",
        wrong,
    )


def main() -> int:
    """Run all texts, and return the status."""
    path_of("program")
    texts = 0
    wrong: list[str] = []
    with tempfile.TemporaryDirectory(prefix="hostile-") as folder, ProcessPoolExecutor(
        os.cpu_count()
    ) as pool:
        for kind, text in SHORT.items():
            (Path(folder) / kind).write_bytes(text)
        library = build(Path(folder))
        all_judged = list(judged(Path(folder)))
        parts = [
            [
                pool.submit(
                    go_through,
                    judged_text,
                    range(at, min(at + POSITIONS, len(judged_text.text) + 1)),
                )
                for at in range(0, len(judged_text.text) + 1, POSITIONS)
            ]
            for judged_text in all_judged
        ]
        grown = [pool.submit(grow, library, *row) for row in GROWN]
        for judged_text, tasks in zip(all_judged, parts):
            results = [task.result() for task in tasks]
            counts: collections.Counter[str] = sum(
                (result[0] for result in results), collections.Counter()
            )
            texts += counts.total()
            wrong += [line for result in results for line in result[1]]
            outcomes = ", ".join(f"{count} {name}" for name, count in counts.most_common())
            print(f"{judged_text.name:28} {outcomes}")
        for task in grown:
            line, faults = task.result()
            texts += 2
            wrong += faults
            print(line)
    print("".join(f"wrong: {line}\n" for line in wrong), end="")
    print(f"hostile: {texts} texts, {len(wrong)} wrong")
    return 1 if wrong or texts < 10_000 else 0


if __name__ == "__main__":
    sys.exit(main())
