#!/usr/bin/env python3
"""Compare the bytes and statuses of the library with those of the program: same.py [COUNT [SEED]]

The texts are those of tests/rows, deeply nested ones, and those of COUNT random sagas (default:
2,000), each with a plan, a verification, drawings and an audit. Bytes of some texts are changed,
added and cut. The threads that call the library have the stack size that its header requires. The
variables SAGAS_PROGRAM and SAGAS_LIBRARY name the two; the default is dist/.
"""

from __future__ import annotations

import ctypes
import json
import os
import random
import subprocess
import sys
import tempfile
import threading
from collections import Counter
from collections.abc import Iterator
from concurrent.futures import ThreadPoolExecutor
from pathlib import Path

TOP = Path(__file__).resolve().parent.parent.parent
sys.path[:0] = [str(TOP / "tests"), str(TOP / "python" / "src")]

import making  # noqa: E402
import rows  # noqa: E402
from sagas.engine import library  # noqa: E402

Reply = tuple[int, bytes]
Question = tuple[str, list[bytes]]
PROGRAM = os.environ.get("SAGAS_PROGRAM") or str(TOP / "dist" / "sagas")
STATES = ["waiting", "committed", "failed", "undone", "fixed"]

# The stack size that sagas.h requires, in bytes.
STACK = 256 * 1024

# The command of the program for each call.
COMMANDS = {
    "plan": "plan",
    "check": "check",
    "draw": "draw",
    "draw_case": "draw",
    "draw_answer": "draw",
    "audit_all": "audit",
}


def by_program(question: Question) -> Reply:
    """Return the status and the output of the program, or with status 3 its error line."""
    call, texts = question
    with tempfile.TemporaryDirectory(
        dir="/dev/shm" if os.path.isdir("/dev/shm") else None
    ) as folder:
        paths = [Path(folder, str(number)) for number in range(len(texts))]
        for path, text in zip(paths, texts):
            path.write_bytes(text)
        done = subprocess.run(
            [PROGRAM, COMMANDS[call], *map(str, paths)],
            stdin=subprocess.DEVNULL,
            capture_output=True,
            timeout=120,
            check=False,
        )
    return done.returncode, done.stderr if done.returncode == 3 else done.stdout


def by_library(loaded: ctypes.CDLL, question: Question) -> Reply:
    """Return the status and the text of the library's reply."""
    call, texts = question
    if call != "audit_all":
        return library.call(loaded, f"sagas_{call}", texts)
    starts = [sum(map(len, texts[1 : number + 1])) for number in range(len(texts))]
    replies = [
        library.call(
            loaded,
            "sagas_audit_all",
            [texts[0], b"".join(texts[1:])],
            list(zip(starts, starts[1:])),
        )
    ]
    if len(texts) == 2:
        replies.append(library.call(loaded, "sagas_audit", texts))
    return (
        replies[-1] if len(set(replies)) == 1 else (-1, b"sagas_audit and sagas_audit_all differ")
    )


def of_rows() -> Iterator[Question]:
    """Yield the questions of tests/rows."""
    for path in sorted(rows.ROWS.glob("*/*.toml")):
        for row in rows.rows_of(path):
            keys = row.keys
            if {"args", "options", "stdin", "stdout"} & set(keys) or "def" not in keys:
                continue
            value = keys["def"] if isinstance(keys["def"], list) else [keys["def"]]
            definitions = [row.text(text) for text in value] * keys.get("times", 1)
            others = [row.text(keys[key]) for key in ("case", "answer") if key in keys]
            if row.command in ("plan", "check"):
                yield row.command, [*definitions, *others]
            elif row.command == "draw":
                yield ("draw", "draw_case", "draw_answer")[len(others)], [*definitions, *others]
            elif row.command == "audit":
                yield "audit_all", [row.text(keys["log"]), *definitions]


def definition(chance: random.Random) -> tuple[str, int]:
    """Return a definition, and its number of steps."""
    count = chance.choice([1, 2, 3, 4, 6, 10, 30])
    lines = [f"format = {chance.choice([1, 2])}", 'name = "random"']
    for step in range(count):
        lines += ["[[step]]", f'name = "s{step}"']
        needs = chance.sample(range(step), min(step, chance.choice([0, 0, 1, 1, 2, 3])))
        if needs:
            lines.append(f"needs = [{', '.join(json.dumps(f's{need}') for need in needs)}]")
        for key in ("run", "undo", "skip", "keep"):
            if chance.random() < 0.5:
                amounts = [chance.randrange(100), chance.randrange(1_000_000_001)]
                lines.append(f"{key} = {chance.choice([*amounts, json.dumps('never')])}")
    return "\n".join(lines) + "\n", count


def case(chance: random.Random, count: int) -> str:
    """Return a case of `count` steps."""
    keys: dict[str, object] = {"states": chance.choices(STATES, [3, 4, 1, 1, 1], k=count)}
    return json.dumps({**keys, "aborted": True} if chance.random() < 0.2 else keys)


def log(chance: random.Random, count: int) -> str:
    """Return a log: events of a saga, mostly in an allowed order."""
    lines: list[dict[str, object]] = [{"def": 0, "event": "open", "saga": 0}]
    for step in range(count):
        lines += [
            {"event": "start_run", "saga": 0, "step": step},
            {
                "event": chance.choice(["commit", "commit", "commit", "fail"]),
                "saga": 0,
                "step": step,
            },
        ]
    if chance.random() < 0.3:
        chance.shuffle(lines)
    return "".join(
        json.dumps(line, separators=(",", ":")) + "\n"
        for line in lines[: chance.randrange(1, len(lines) + 1)]
    )


def changed(chance: random.Random, text: bytes) -> bytes:
    """Return the text cut, with a byte changed, added or removed, or with a piece twice."""
    at = chance.randrange(len(text) + 1)
    byte = bytes([chance.choice([0, 10, 34, 44, 48, 93, 125, 195, 255, chance.randrange(256)])])
    return chance.choice(
        [
            text[:at] + byte + text[at + 1 :],
            text[:at] + byte + text[at:],
            text[:at] + text[at + 1 :],
            text[:at],
            text[:at] + text[at // 2 :],
        ]
    )


def deep() -> Iterator[Question]:
    """Yield texts with the deepest possible nesting."""
    case, chain = making.states(1024, "committed", "failed").encode(), making.chain(1024).encode()
    for text in (
        b"a=" + b"[" * 100000,
        b"a=" + b"{a=" * 100000,
        b".".join([b"a"] * 100000) + b"=1",
        b"[[a]]\n" * 50000,
        chain,
        making.backward(1024).encode(),
        making.named("s0", 8192).encode(),
    ):
        yield "plan", [text, case]
    yield "plan", [chain, b"[" * 1000000]
    yield "check", [chain, case, b'{"a":' * 200000]
    yield "audit_all", [b"[" * 1000000 + b"\n", chain]


def at_random(chance: random.Random, loaded: ctypes.CDLL) -> Iterator[Question]:
    """Yield the questions about a random saga."""
    text, count = definition(chance)
    texts = [text.encode(), case(chance, count).encode()]
    status, answer = by_library(loaded, ("plan", texts))
    texts.append(answer if status < 2 else b'{"chain":[0],"kind":"blocked"}')
    if chance.random() < 0.6:
        index = chance.randrange(3)
        texts[index] = changed(chance, texts[index])
    history = log(chance, count).encode()
    yield "plan", texts[:2]
    yield "check", texts
    yield chance.choice([("draw", texts[:1]), ("draw_case", texts[:2]), ("draw_answer", texts)])
    yield "audit_all", [
        changed(chance, history) if chance.random() < 0.3 else history,
        *texts[:1] * chance.choice([1, 1, 2]),
    ]


def main() -> int:
    """Compare, and return the status."""
    count, seed = (int(word) for word in (*sys.argv[1:], *("2000", "1")[len(sys.argv) - 1 :]))
    library_path = library.path()
    loaded = library.loaded(library_path) if library_path else None
    if loaded is None:
        sys.exit("same: dist/libsagas.so is missing, or cannot be loaded: ./release makes it")
    proved: ctypes.CDLL = loaded
    questions = [*of_rows(), *deep()]
    known = len(questions)
    for number in range(count):
        questions += at_random(random.Random(f"{seed} {number}"), loaded)
    with ThreadPoolExecutor() as pool:
        expected = list(pool.map(by_program, questions))
    threading.stack_size(STACK)
    with ThreadPoolExecutor() as pool:
        actual = list(pool.map(lambda question: by_library(proved, question), questions))
    kinds = Counter(
        (status, output.split(b" ")[0][:8] if status < 3 else output) for status, output in expected
    )
    wrong = [number for number in range(len(questions)) if actual[number] != expected[number]]
    for number in wrong[:5]:
        print(f"wrong: {questions[number]}: got {actual[number]}, expected {expected[number]}")
    print(
        f"same: {known} questions of rows and deep texts, "
        f"{len(questions) - known} at random from the seed {seed}, "
        f"{len(kinds)} kinds of reply; {len(wrong)} wrong"
    )
    return 1 if wrong else 0


if __name__ == "__main__":
    sys.exit(main())
