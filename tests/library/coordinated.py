#!/usr/bin/env python3
"""Compare the calls of a coordinator with `sagas drive --lines`.

    coordinated.py PROGRAM [COUNT [SEED]]

PROGRAM is coordinate.c, compiled. It and the program `sagas` get the conversations of
tests/rows/drive, and COUNT random ones (default: 300), each with a buffer of some size. They must
print the same. But the definitions of a coordinator are fixed: if the program adds one, PROGRAM
must print the reply that the program has without --lines. If the variable REFUSE is set, PROGRAM
was compiled to refuse memory: each growth of some conversations is refused in turn, and the output
must not change.
"""

from __future__ import annotations

import os
import random
import subprocess
import sys
import tempfile
from collections.abc import Iterator
from pathlib import Path

TOP = Path(__file__).resolve().parent.parent.parent
sys.path[:0] = [str(TOP / "tests")]

import rows  # noqa: E402

SIZES = (0, 1, 64, 200, 1 << 16)
PAIR = (
    b'format = 2\nname = "pair"\n'
    b'step = [{ name = "a", undo = 1 }, { name = "b", needs = ["a"], undo = 2, tries = 2 }]\n'
)
REQUESTS = (
    '{"def":0,"do":"open"}',
    '{"do":"next"}',
    '{"do":"next","most":3}',
    '{"do":"busy"}',
    '{"do":"status"}',
    '{"do":"list"}',
    '{"do":"ready"}',
    '{"do":"report","outcome":"done","saga":SAGA,"step":STEP}',
    '{"do":"report","outcome":"fail","saga":SAGA,"step":STEP}',
    '{"do":"report","outcome":"unknown","saga":SAGA,"step":STEP}',
    '{"do":"take","saga":SAGA,"step":STEP}',
    '{"do":"take","saga":SAGA}',
    '{"do":"show","saga":SAGA}',
    '{"do":"abort","saga":SAGA}',
    "{",
    '{"do":"fly"}',
)

Talk = tuple[str, list[bytes], bytes, bytes]
Done = subprocess.CompletedProcess[bytes]

MAX_WITHOUT_LINES = 64
DEFINE = (
    '{"definition":"format = 1\\nname = \\"more\\"\\nstep = [{ name = \\"x\\" }]\\n","do":"define"}'
)
FIXED = b'{"refused":"fixed-shelf"}\n'


def of_rows() -> Iterator[Talk]:
    """Yield the conversations of the rows: a name, definitions, a log and requests."""
    for path in sorted((rows.ROWS / "drive").glob("*.toml")):
        for row in rows.rows_of(path):
            value = row.keys.get("def")
            if (
                value is None
                or not isinstance(row.keys.get("stdin", ""), str)
                or row.keys.get("stdin", "").startswith(("/dev", "terminal", "closed"))
            ):
                continue
            definitions = [
                row.text(text) for text in (value if isinstance(value, list) else [value])
            ] * row.keys.get("times", 1)
            log = row.keys.get("log", "")
            if definitions and not isinstance(log, list):
                yield row.label, definitions, row.text(log), row.text(row.keys.get("stdin", ""))


def at_random(count: int, chance: random.Random) -> Iterator[Talk]:
    """Yield random conversations. Every second one continues the log of another, cut anywhere."""
    log = b""
    # Without memory for the second of several tasks, the reply has only the first one.
    requests_of = [
        request for request in REQUESTS if not (os.environ.get("REFUSE") and "most" in request)
    ]
    for number in range(count):
        known = [*requests_of, DEFINE, '{"def":1,"do":"open"}'] if number % 3 == 0 else requests_of
        drawn = [
            chance.choice(known)
            .replace("SAGA", str(chance.randrange(3)))
            .replace("STEP", str(chance.randrange(2)))
            for _ in range(40)
        ]
        requests = "\n".join(drawn).encode() + b"\n"
        yield f"random {number}", [PAIR], log, requests
        lines = ran([rows.program(), "drive", "--lines"], [PAIR], b"", requests).stdout
        whole = b"".join(line[1:] + b"\n" for line in lines.split(b"\n") if line.startswith(b"+"))
        log = whole[: chance.randrange(len(whole) + 1)] if number % 2 == 0 else b""


def ran(
    command: list[str], definitions: list[bytes], log: bytes, requests: bytes, **more: str
) -> Done:
    """Run either program with its arguments, a log, if any, and definitions."""
    with tempfile.TemporaryDirectory() as folder:
        paths = [Path(folder, str(number)) for number in range(len(definitions))]
        for path, text in zip(paths, definitions):
            path.write_bytes(text)
        (Path(folder) / "log").write_bytes(log)
        log_argument = (
            ["--from", f"{folder}/log"] if command[1:] == ["drive", "--lines"] and log else []
        )
        log_argument = log_argument if command[1] == "drive" else [f"{folder}/log" if log else "-"]
        return subprocess.run(
            [*command, *log_argument, *map(str, paths)],
            input=requests,
            capture_output=True,
            env={**os.environ, **more},
            check=False,
        )


def expected_of(definitions: list[bytes], log: bytes, requests: bytes) -> Done:
    """Return the expected output of a coordinator: that of --lines, with fixed definitions.

    Without --lines the definitions of the program are fixed, so it shows which requests are refused
    for that. These requests change nothing, so the replies to the others do not depend on them.
    """
    fixed, shown = [rows.program(), "drive"], [rows.program(), "drive", "--lines"]
    if b"define" not in requests:
        return ran(shown, definitions, log, requests)
    is_refused = [
        reply == FIXED
        for reply in ran(fixed, definitions[:MAX_WITHOUT_LINES], b"", requests).stdout.splitlines(
            True
        )
    ]
    others = b"".join(
        line + b"\n" for line, refused in zip(requests.split(b"\n"), is_refused) if not refused
    )
    empty, done = ran(shown, definitions, log, b""), ran(shown, definitions, log, others)
    if done.returncode == 0:
        replies = iter(with_lines(done.stdout[len(empty.stdout) :]))
        done.stdout = empty.stdout + b"".join(
            FIXED if refused else next(replies) for refused in is_refused
        )
    return done


def with_lines(printed: bytes) -> Iterator[bytes]:
    """Yield each reply with the lines of the log before it."""
    before = b""
    for line in printed.splitlines(True):
        before += line
        if not line.startswith(b"+"):
            yield before
            before = b""


def refusals(program: str, size: int, talk: Talk, expected: bytes) -> Iterator[str]:
    """Refuse each growth of memory in turn."""
    name, definitions, log, requests = talk
    growths = int(ran([program, str(size)], definitions, log, requests).stderr.split()[-2])
    for number in range(growths):
        actual = ran([program, str(size)], definitions, log, requests, REFUSED=str(number))
        if (actual.returncode, actual.stdout) != (0, expected):
            yield (
                f"{name}: growth {number} of {growths} refused: "
                f"{actual.returncode}, {actual.stderr[-200:]!r}"
            )


def main() -> int:
    """Compare all conversations, and return the status."""
    program, count, seed = (sys.argv[1:] + ["300", "1"][len(sys.argv) - 2 :])[:3]
    chance = random.Random(int(seed))
    wrong: list[str] = []
    known = list(of_rows())
    talks = (chance.sample(known, 12) if os.environ.get("REFUSE") else known) + list(
        at_random(int(count), chance)
    )
    looked = fixed = 0
    for talk in talks:
        name, definitions, log, requests = talk
        size = chance.choice(SIZES)
        expected = expected_of(definitions, log, requests)
        actual = ran([program, str(size)], definitions, log, requests)
        if os.environ.get("REFUSE"):
            if expected.returncode == 0 and len(requests) < 4096 and b"most" not in requests:
                looked += 1
                wrong += list(refusals(program, size, talk, expected.stdout))
            continue
        looked += 1
        fixed += FIXED in expected.stdout
        if (actual.returncode, actual.stdout, actual.stderr) != (
            expected.returncode,
            expected.stdout,
            expected.stderr,
        ):
            wrong.append(
                f"{name}, {size}: {actual.returncode} {actual.stderr[-200:]!r}, "
                f"expected {expected.returncode} {expected.stderr[-200:]!r}"
            )
    for line in wrong[:20]:
        print(f"wrong: {line}")
    print(
        f"coordinated: {looked} conversations, {fixed} of them with fixed definitions, "
        f"{len(wrong)} wrong"
    )
    return 1 if wrong or not looked else 0


if __name__ == "__main__":
    sys.exit(main())
