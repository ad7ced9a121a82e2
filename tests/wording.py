#!/usr/bin/env python3
"""Check the wording of the repository's code: tests/wording.py [--counts] [PATH ...].

Reads all Python, the OpenAPI document and the templates of the dashboard by the rules of
docs/dev/style.md: names, docstrings, comments and messages, and lines of more than 100 columns. It
prints `FILE:LINE: TEXT -> WHAT TO WRITE` and the counts of each folder. With `--counts` it prints
only the counts and does not ask Black. With paths it reads only the files there. Its status is 1 if
there is a finding, or if Black would lay out a file differently.
"""

from __future__ import annotations

import argparse
import ast
import io
import os
import re
import subprocess
import sys
import tokenize
from collections import Counter
from collections.abc import Iterator
from fnmatch import fnmatch
from pathlib import Path
from typing import NamedTuple

import avoided

HERE = Path(__file__).resolve().parent
EXCEPTIONS = HERE / "wording-exceptions.txt"
OPENAPI = "python/src/sagas/server/openapi.json"
TEMPLATES = "python/src/sagas/server/templates/"
COLUMNS = 100
NOT_SOURCES = {"out", "env", ".venv"}
"""Folders of a checkout with other files: what was built, and environments of Python."""

PART = re.compile(r"[A-Z]+(?![a-z])|[A-Z]?[a-z]+")
CODE = re.compile(r"`[^`]*`")
SQL = re.compile(
    r"\s*(?:SELECT|INSERT|UPDATE|DELETE|WITH|CREATE|ALTER|DROP|PRAGMA|COPY|VALUES|CASE)\b"
)
JSON_TEXT = re.compile(r'^\s*"(?:title|summary|description)": "(.*)",?$')
MARKUP = re.compile(
    r"<(script|style)\b.*?</\1>|\{%.*?%\}|\{\{.*?\}\}|\{#.*?#\}|<[^>]*>|&\w+;", re.S
)
LAYOUT_OFF = re.compile(r"#\s*fmt:\s*(?:skip|off)")


class Finding(NamedTuple):
    """A place of a file, what is wrong there, and what to write."""

    file: str
    line: int
    text: str
    instead: str


class Rules:
    """The words and names to avoid, and the names that are exceptions."""

    def __init__(self) -> None:
        self.prose = avoided.wordings()
        self.code = avoided.wordings(for_code=True)
        self.parts, self.whole = avoided.names()
        lines = EXCEPTIONS.read_text(encoding="utf-8").splitlines()
        rows = [line.split(maxsplit=2) for line in lines if line.strip() and line[0] != "#"]
        self.exceptions = [(name, files) for name, files, _ in rows]

    def is_exception(self, name: str, file: str) -> bool:
        """Return whether a file may have a name, or a word in its texts."""
        return any(name == other and fnmatch(file, files) for other, files in self.exceptions)

    def wordings_of(self, file: str) -> list[avoided.Avoided]:
        """Return the words that a file of code may not have."""
        names = [word.word.replace(" ", "_") for word in self.code]
        pairs = zip(self.code, names)
        return [word for word, name in pairs if not self.is_exception(name, file)]

    def instead_of(self, name: str) -> str | None:
        """Return what to write instead of a name, or None if the name is fine."""
        parts = [part.lower() for part in PART.findall(name)]
        if len(parts) == 1 and parts[0] in self.whole:
            return self.whole[parts[0]]
        return next((self.parts[part] for part in parts if part in self.parts), None)


def wrong_names(file: str, text: str, rules: Rules) -> Iterator[Finding]:
    """Yield the names of a Python file that say nothing, each once with its first line."""
    refused = rules.wordings_of(file)
    uses: Counter[str] = Counter()
    lines: dict[str, int] = {}
    for token in tokenize.generate_tokens(io.StringIO(text).readline):
        if token.type == tokenize.NAME:
            uses[token.string] += 1
            lines.setdefault(token.string, token.start[0])
    for name, line in lines.items():
        if name.startswith("test_"):  # it is a sentence
            yield from wrong_wordings(file, line, name[5:].replace("_", " "), refused)
            continue
        instead = rules.instead_of(name)
        if instead and not rules.is_exception(name, file):
            times = f", {uses[name]} times" if uses[name] > 1 else ""
            yield Finding(file, line, f"name '{name}'{times}", instead)


def wrong_wordings(
    file: str, line: int, text: str, refused: list[avoided.Avoided], last: int = sys.maxsize
) -> Iterator[Finding]:
    """Yield the words to avoid in a text that begins on a line, and ends on the last line."""
    prose = CODE.sub(lambda code: "\n" * code[0].count("\n") + "`code`", text)
    for wording in refused:
        for match in wording.pattern.finditer(prose):
            number = min(line + prose.count("\n", 0, match.start()), last)
            sentence = " ".join(prose[max(0, match.start() - 30) : match.end() + 20].split())
            yield Finding(file, number, f"'{wording.word}' in '{sentence}'", wording.instead)


def strings(tree: ast.AST) -> Iterator[tuple[int, int, str]]:
    """Yield the first line, the last line and the text of each string with a blank, but of SQL."""
    formatted = [node for node in ast.walk(tree) if isinstance(node, ast.JoinedStr)]
    pieces = {piece for node in formatted for piece in node.values}
    for node in ast.walk(tree):
        if node in pieces or not isinstance(node, (ast.JoinedStr, ast.Constant)):
            continue
        values: list[ast.expr] = [node] if isinstance(node, ast.Constant) else node.values
        texts = [piece.value if isinstance(piece, ast.Constant) else "…" for piece in values]
        text = "".join(piece for piece in texts if isinstance(piece, str))
        if " " in text.strip() and not SQL.match(text):
            yield node.lineno, node.end_lineno or node.lineno, text


def comments(text: str) -> Iterator[tuple[int, str]]:
    """Yield the comments of Python, those of successive lines as one, with the first line."""
    first = 0
    lines: list[str] = []
    for token in tokenize.generate_tokens(io.StringIO(text).readline):
        if token.type == tokenize.COMMENT:
            if lines and token.start[0] != first + len(lines):
                yield first, "\n".join(lines)
                lines = []
            first = first if lines else token.start[0]
            lines.append(token.string.lstrip("#!: "))
    if lines:
        yield first, "\n".join(lines)


def wrong_in_python(file: str, text: str, rules: Rules) -> Iterator[Finding]:
    """Yield what is wrong in a Python file."""
    for number, line in enumerate(text.splitlines(), 1):
        if len(line) > COLUMNS:
            yield Finding(file, number, f"{len(line)} columns", f"at most {COLUMNS}")
        if LAYOUT_OFF.search(line):
            yield Finding(file, number, "a part that Black does not lay out", "the comment goes")
    refused = rules.wordings_of(file)
    yield from wrong_names(file, text, rules)
    for first, last, string in strings(ast.parse(text)):
        yield from wrong_wordings(file, first, string, refused, last)
    for first, comment in comments(text):
        yield from wrong_wordings(file, first, comment, refused)


def wrong_in_openapi(file: str, text: str, rules: Rules) -> Iterator[Finding]:
    """Yield what is wrong in the titles, summaries and descriptions of the OpenAPI document."""
    for number, line in enumerate(text.splitlines(), 1):
        match = JSON_TEXT.match(line)
        if match:
            yield from wrong_wordings(file, number, match[1], rules.prose, number)


def wrong_in_template(file: str, text: str, rules: Rules) -> Iterator[Finding]:
    """Yield what is wrong in the text of a template, outside of its tags."""
    prose = MARKUP.sub(lambda markup: "\n" * markup[0].count("\n") or " ", text)
    yield from wrong_wordings(file, 1, prose, rules.prose)


def is_python(path: Path) -> bool:
    """Return whether a file is Python, by its suffix or its first line."""
    if path.suffix:
        return path.suffix == ".py"
    with path.open("rb") as file:
        return re.match(rb"#!.*\bpython", file.readline()) is not None


def tracked(top: Path) -> list[str]:
    """Return the files of a checkout."""
    listed = ["git", "ls-files", "--cached", "--others", "--exclude-standard"]
    done = subprocess.run(listed, cwd=top, capture_output=True, text=True, check=False)
    if done.returncode == 0:
        files = done.stdout.splitlines()
    else:
        files = [
            str(path.relative_to(top)) for path in top.rglob("*") if not NOT_SOURCES & {*path.parts}
        ]
    return sorted(file for file in files if (top / file).is_file())


def is_below(file: str, folders: tuple[str, ...]) -> bool:
    """Return whether a file is in one of the folders, or is one of them."""
    return any(file == folder or file.startswith(f"{folder}/") for folder in folders)


def folder_of(file: str) -> str:
    """Return the folder in whose count a file is."""
    folders = Path(file).parts[:-1]
    return "/".join(folders[: 4 if folders[:1] == ("python",) else 2]) or "."


def unformatted(top: Path, files: list[str]) -> list[str]:
    """Return the files that Black would lay out differently."""
    black = ["black", "--check", "-l", str(COLUMNS), *files]
    done = subprocess.run(black, cwd=top, capture_output=True, text=True, check=False)
    return [line for line in done.stderr.splitlines() if line.startswith(("would ", "error"))]


def wrong_in(file: str, text: str, rules: Rules) -> Iterator[Finding]:
    """Yield what is wrong in a file that is not Python."""
    if file == OPENAPI:
        yield from wrong_in_openapi(file, text, rules)
    elif file.startswith(TEMPLATES):
        yield from wrong_in_template(file, text, rules)


def main(arguments: list[str]) -> int:
    """Check the files, print what is wrong, and return the exit status."""
    parser = argparse.ArgumentParser(description=str(__doc__).partition("\n")[0])
    parser.add_argument("--counts", action="store_true", help="print only the counts")
    parser.add_argument("--root", type=Path, default=HERE.parent, help="the checkout to read")
    parser.add_argument("paths", nargs="*", help="folders and files to read (default: all)")
    options = parser.parse_args(arguments)
    top = options.root.resolve()
    folders = tuple(os.path.relpath(top / path, top) for path in options.paths)
    files = [file for file in tracked(top) if not folders or is_below(file, folders)]
    python = [file for file in files if is_python(top / file)]
    others = [file for file in files if file == OPENAPI or file.startswith(TEMPLATES)]
    rules = Rules()
    findings: list[Finding] = []
    for file in python:
        findings += wrong_in_python(file, (top / file).read_text(encoding="utf-8"), rules)
    for file in others:
        findings += wrong_in(file, (top / file).read_text(encoding="utf-8"), rules)
    unlaid = [] if options.counts else unformatted(top, python)
    shown = [] if options.counts else findings
    for file, line, text, instead in sorted(shown):
        print(f"{file}:{line}: {text} -> {instead}")
    for folder, count in sorted(Counter(folder_of(finding.file) for finding in findings).items()):
        print(f"{count:6} {folder}")
    print("".join(f"{notice}\n" for notice in unlaid), end="")
    read = len(python) + len(others)
    print(f"wording: {read} files, {len(findings)} findings")
    return 1 if findings or unlaid else 0


if __name__ == "__main__":
    sys.exit(main(sys.argv[1:]))
