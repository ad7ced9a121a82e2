#!/usr/bin/env python3
"""Run the program `sagas` on rows of data: texts, and the expected output, errors and status.

    tests/rows.py [--fixed-shelf] [FOLDER[/FILE] ...]

A row is a table of a file `tests/rows/COMMAND/SUBJECT.toml`; docs/dev/changing/tests.md has its
keys. Rows run in parallel, one for each processor. The program is the one that the variable SAGAS
names, or the one that `./sagas` starts. It adds definitions while it runs, or, with
`--fixed-shelf`, adds none. The script omits rows that need the other kind of program.
"""

from __future__ import annotations

import fnmatch
import functools
import os
import subprocess
import sys
import tempfile
import tomllib
from collections.abc import Iterator, Mapping
from concurrent.futures import ThreadPoolExecutor
from dataclasses import dataclass, field
from pathlib import Path
from typing import Any

import making

TOP = Path(__file__).resolve().parent.parent
ROWS = TOP / "tests" / "rows"
SECONDS = 60

# The keys of texts. The program gets each of these texts as a file.
FILES = ("def", "case", "answer", "log", "script")
KEYS = {
    *FILES,
    "name",
    "args",
    "options",
    "status",
    "stdin",
    "stdout",
    "out",
    "has",
    "err",
    "err_has",
    "writes",
    "absent",
    "checked",
    "audited",
    "times",
    "beside",
    "defines",
    "needs",
}

# How a program handles requests to add a definition while it runs. A row may need either.
MODES = ("define", "fixed-shelf")


class BadRow(Exception):
    """A row that cannot be executed."""


@dataclass(frozen=True)
class Row:
    """A row with its label, and the texts that it may name."""

    command: str
    label: str
    keys: Mapping[str, Any]
    texts: Mapping[str, Any]

    def text(self, value: Any) -> bytes:
        """Return the bytes of a text: a string, `@NAME`, or a table `{ make = EXPRESSION }`."""
        if isinstance(value, dict):
            made: object = eval(
                value["make"], {**vars(making), "text": lambda name: self.text(f"@{name}").decode()}
            )
            return made if isinstance(made, bytes) else str(made).encode()
        if not value.startswith("@"):
            return str(value).encode()
        name = str(value[1:])
        if "/" in name:
            return (TOP / name).read_bytes()
        if name not in self.texts:
            raise BadRow(f"no text has the name {name}")
        return self.text(self.texts[name])


@dataclass
class Run:
    """The status and the output of a run, and its differences from the row."""

    status: int
    out: bytes
    err: bytes
    wrong: list[str] = field(default_factory=list)

    def compare(self, label: str, actual: bytes, expected: bytes) -> None:
        """Note a difference from the expected bytes."""
        if actual != expected:
            self.wrong.append(f"{label}: {shown(actual)}\n    expected: {shown(expected)}")

    def compare_pieces(self, label: str, actual: bytes, pieces: list[str]) -> None:
        """Note a text that does not have these pieces in this order."""
        pattern = (
            "*"
            + "*".join(
                piece.replace("[", "[[]").replace("*", "[*]").replace("?", "[?]")
                for piece in pieces
            )
            + "*"
        )
        if not fnmatch.fnmatchcase(actual.decode(errors="replace"), pattern):
            self.wrong.append(f"{label}: {shown(actual)}\n    expected pieces: {pieces}")


def shown(text: bytes) -> str:
    """Return a text as a line, shortened if it is long."""
    return repr(text[:300].decode(errors="replace")) + (
        f"... of {len(text)} bytes" if len(text) > 300 else ""
    )


def rows_of(path: Path) -> Iterator[Row]:
    """Yield the rows of a file and of its tables, in order."""
    command = path.parent.name
    common = (
        tomllib.loads((ROWS / "texts.toml").read_text()) if (ROWS / "texts.toml").exists() else {}
    )
    data = tomllib.loads(path.read_text())
    texts = {**common, **data.get("texts", {})}
    rows: list[dict[str, Any]] = list(data.get("row", []))
    for table in data.get("table", []):
        shared = {key: value for key, value in table.items() if key not in ("keys", "rows")}
        for row in table["rows"]:
            if len(row) != len(table["keys"]):
                raise BadRow(f"{path}: {len(row)} values for {table['keys']}: {row}")
            rows.append({**shared, **dict(zip(table["keys"], row))})
    names: set[str] = set()
    for row in rows:
        label = f"{command}/{path.stem}: {row.get('name', '')}"
        unknown = set(row) - KEYS
        if unknown or not row.get("name") or row["name"] in names:
            fault = f"unknown keys {sorted(unknown)}" if unknown else "it needs a unique name"
            raise BadRow(f"{label}: {fault}")
        if row.get("needs", MODES[0]) not in MODES:
            raise BadRow(f"{label}: it needs one of {', '.join(MODES)}")
        names.add(row["name"])
        yield Row(command, label, row, texts)


def write_files(row: Row, room: Path) -> dict[str, list[str]]:
    """Write the texts of a row to files, and return their paths by key."""
    paths: dict[str, list[str]] = {}
    for key in FILES:
        if key not in row.keys:
            continue
        value = row.keys[key]
        texts = value if isinstance(value, list) else [value]
        for number, text in enumerate(texts):
            path = room / (f"{key}{number}" if len(texts) > 1 else key)
            path.write_bytes(row.text(text))
            paths.setdefault(key, []).append(str(path))
    if "beside" in row.keys:
        (room / "log.definitions").write_bytes(row.text(row.keys["beside"]))
    return paths


def arguments_of(row: Row, paths: dict[str, list[str]], room: Path) -> list[str]:
    """Return the arguments of the program."""
    if "args" in row.keys:
        values = {"room": str(room), **{key: files[0] for key, files in paths.items()}}
        values |= {
            f"{key}{number}": path
            for key, files in paths.items()
            for number, path in enumerate(files)
        }
        arguments = []
        for argument in row.keys["args"]:
            more = row.keys.get("times", 1) if argument == "{def}" else 1
            arguments += [argument.format(**values) if "{" in argument else argument] * more
        return [argument.replace("\\xff", "\udcff") for argument in arguments]
    arguments = [row.command, *row.keys.get("options", [])]
    definitions = paths.get("def", []) * row.keys.get("times", 1)
    match row.command:
        case "run":
            if "script" in paths:
                arguments += ["--script", *paths["script"]]
            if "writes" in row.keys or "audited" in row.keys:
                arguments += ["--log", str(room / "log")]
            arguments += definitions
        case "drive":
            if {"log", "writes", "audited", "beside", "defines"} & set(row.keys):
                arguments += ["--log", str(room / "log")]
            arguments += definitions
        case "audit":
            arguments += paths.get("log", []) + definitions
        case _:
            arguments += [path for key in FILES for path in paths.get(key, [])]
    return arguments


@functools.cache
def program() -> str:
    """Return the path of the program."""
    return (
        os.environ.get("SAGAS")
        or subprocess.run(
            [TOP / "tests" / "program"], check=True, stdout=subprocess.PIPE, text=True
        ).stdout.strip()
    )


def sagas(arguments: list[str], stdin: Any, stdout: Any = subprocess.PIPE) -> Run:
    """Run the program on standard input, which is bytes or a file."""
    source: dict[str, Any] = {"input": stdin} if isinstance(stdin, bytes) else {"stdin": stdin}
    try:
        done = subprocess.run(
            [program(), *arguments],
            **source,
            stdout=stdout,
            stderr=subprocess.PIPE,
            cwd=TOP,
            timeout=SECONDS,
        )
    except subprocess.TimeoutExpired:
        return Run(-1, b"", b"", [f"not ended after {SECONDS} seconds"])
    return Run(done.returncode, done.stdout or b"", done.stderr)


def in_shell(redirection: str, arguments: list[str], stdin: bytes) -> Run:
    """Run the program with a stream that the shell redirects."""
    arguments = ["sh", "-c", f'exec "$@" {redirection}', "sh", program(), *arguments]
    done = subprocess.run(arguments, input=stdin, capture_output=True, cwd=TOP, timeout=SECONDS)
    return Run(done.returncode, done.stdout, done.stderr)


def in_terminal(arguments: list[str]) -> Run:
    """Run the program with a terminal on standard input."""
    leader, terminal = os.openpty()
    try:
        return sagas(arguments, terminal)
    finally:
        os.close(leader)
        os.close(terminal)


def on_path(path: str, arguments: list[str]) -> Run:
    """Run the program with a file or folder on standard input."""
    stream = os.open(path, os.O_RDONLY)
    try:
        return sagas(arguments, stream)
    finally:
        os.close(stream)


def run_row(row: Row, arguments: list[str]) -> Run:
    """Run the program with the streams of the row."""
    stdin = row.keys.get("stdin", "")
    match (stdin, row.keys.get("stdout")):
        case ("terminal", _):
            return in_terminal(arguments)
        case ("closed", _):
            return in_shell("<&-", arguments, b"")
        case (_, "full"):
            return in_shell(">/dev/full", arguments, row.text(stdin))
        case (_, "closed"):
            return in_shell(">&-", arguments, row.text(stdin))
        case (str(path), _) if path.startswith("/dev/"):
            return on_path(path, arguments)
    return sagas(arguments, row.text(stdin))


def look(row: Row, run: Run, paths: dict[str, list[str]], room: Path) -> None:
    """Compare a run with its row."""
    keys = row.keys
    if run.status != keys.get("status", 0):
        run.wrong.append(f"status {run.status}; expected: {keys.get('status', 0)}")
    if "has" in keys:
        run.compare_pieces("standard output", run.out, keys["has"])
    elif "out" in keys or "checked" not in keys:
        run.compare("standard output", run.out, row.text(keys.get("out", "")))
    if "err_has" in keys:
        run.compare_pieces("standard error", run.err, keys["err_has"])
    else:
        run.compare("standard error", run.err, row.text(keys.get("err", "")))
    log = room / "log"
    if "writes" in keys:
        run.compare("the log", log.read_bytes() if log.exists() else b"", row.text(keys["writes"]))
    if "defines" in keys:
        definitions = room / "log.definitions"
        run.compare(
            "the file of definitions",
            definitions.read_bytes() if definitions.exists() else b"",
            row.text(keys["defines"]),
        )
    if keys.get("absent") and Path(keys["absent"].format(room=room)).exists():
        run.wrong.append(f"{keys['absent']} was written")
    if "checked" in keys:
        (room / "printed").write_bytes(run.out)
        checked = sagas(["check", paths["def"][0], paths["case"][0], str(room / "printed")], b"")
        run.compare("the check of it", checked.out + checked.err, row.text(keys["checked"]))
    if "audited" in keys:
        audited = sagas(["audit", str(log), *paths["def"] * keys.get("times", 1)], b"")
        run.compare("the audit of the log", audited.out + audited.err, row.text(keys["audited"]))


def wrong(row: Row) -> str:
    """Run a row, and return its faults, or an empty text."""
    with tempfile.TemporaryDirectory(prefix="row-") as folder:
        room = Path(folder)
        try:
            paths = write_files(row, room)
            arguments = arguments_of(row, paths, room)
            run = run_row(row, arguments)
            look(row, run, paths, room)
        except (BadRow, KeyError, OSError, SyntaxError, NameError, TypeError) as error:
            return f"wrong: {row.label}: {type(error).__name__}: {error}"
        faults = "\n  ".join(run.wrong)
        return f"wrong: {row.label}\n  sagas {' '.join(arguments)}\n  {faults}" if faults else ""


def files_of(names: list[str]) -> list[Path]:
    """Return the files of rows with these names, or all files."""
    if not names:
        return sorted(ROWS.glob("*/*.toml"))
    files: list[Path] = []
    for name in names:
        path = ROWS / name
        files += sorted(path.glob("*.toml")) if path.is_dir() else [path.with_suffix(".toml")]
    return files


def main(arguments: list[str]) -> int:
    """Run the rows of the files that the arguments name, and return the status."""
    mode = "fixed-shelf" if arguments[:1] == ["--fixed-shelf"] else "define"
    try:
        every = [
            row for path in files_of(arguments[mode == "fixed-shelf" :]) for row in rows_of(path)
        ]
    except (BadRow, OSError, tomllib.TOMLDecodeError) as error:
        print(f"rows: {error}")
        return 1
    try:
        program()
    except subprocess.CalledProcessError:
        print("rows: the program is missing")
        return 1
    rows = [row for row in every if row.keys.get("needs", mode) == mode]
    with ThreadPoolExecutor(os.cpu_count()) as pool:
        faults = [line for line in pool.map(wrong, rows) if line]
    print("".join(f"{line}\n" for line in faults), end="")
    print(f"rows: {len(rows)} rows, {len(faults)} wrong")
    return 0 if rows and not faults else 1


if __name__ == "__main__":
    sys.exit(main(sys.argv[1:]))
