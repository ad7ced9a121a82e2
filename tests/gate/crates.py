"""The crates of crates.txt, their dependencies, and the parts that a dependent crate can read."""

from __future__ import annotations

import functools
import hashlib
import re
from dataclasses import dataclass
from pathlib import Path

TOP = Path(__file__).resolve().parent.parent.parent
PARTS = ("src", "specs", "proofs")

TOKEN = re.compile(
    r"//[^\n]*|/\*.*?\*/"  # comments
    r'|r(#*)".*?"\1|"(?:\\.|[^"\\])*"'  # strings
    r"|'(?:\\(?:u\{[^}]*\}|.)|[^'\\\n])'"  # characters, but no lifetime
    r"|\w+|\s+|.",
    re.S,
)


@dataclass(frozen=True)
class Crate:
    """A line of crates.txt: a crate, and the libraries that it names, those of the kit too."""

    name: str
    line: str

    @property
    def libraries(self) -> list[str]:
        """The libraries that the line names."""
        return self.line.partition(":")[2].split()

    @property
    def is_static(self) -> bool:
        """Whether it is a static library for C."""
        return "staticlib" in self.line.partition(":")[0].split()


class Tree:
    """The crates of a checkout."""

    def __init__(self, top: Path = TOP) -> None:
        self.top = top
        self.crates: dict[str, Crate] = {}
        for text in (top / "crates.txt").read_text(encoding="utf-8").splitlines():
            line = text.partition("#")[0].strip()
            if ":" in line:
                name = line.partition(":")[0].split()[0]
                self.crates[name] = Crate(name, line)

    def folder(self, name: str) -> Path:
        """Return the folder of a crate."""
        return self.top / "crates" / name

    def is_program(self, name: str) -> bool:
        """Return whether a crate is a program, and not a library."""
        return (self.folder(name) / "src/main.rt").exists()

    def below(self, name: str) -> list[str]:
        """Return the crates of the repository that a crate depends on, lowest first."""
        lower: list[str] = []
        for library in self.crates[name].libraries:
            if library in self.crates:
                lower += [it for it in [*self.below(library), library] if it not in lower]
        return lower

    def above(self, names: set[str]) -> set[str]:
        """Return these crates, and those that depend on one of them."""
        return {name for name in self.crates if name in names or names & {*self.below(name)}}

    @functools.cache
    def digest(self, name: str, *, is_public: bool) -> str:
        """Return a digest of a crate's files, or of the parts that dependent crates cite."""
        files = hashlib.sha256()
        for part in PARTS:
            for path in sorted((self.folder(name) / part).rglob("*")):
                if not path.is_file():
                    continue
                text = path.read_text(encoding="utf-8")
                if is_public:
                    text = contracts(text) if path.suffix == ".rt" else declarations(text)
                files.update(repr((str(path.relative_to(self.top)), text)).encode())
        return files.hexdigest()


def tokens_of(text: str) -> list[str]:
    """Return the tokens of a text of Rattle, without comments and white space."""
    tokens = (match[0] for match in TOKEN.finditer(text))
    return [it for it in tokens if not it.startswith(("//", "/*")) and not it.isspace()]


def block_end(tokens: list[str], at: int) -> int:
    """Return the index after the block in braces that begins at `at`."""
    depth = 0
    while at < len(tokens):
        depth += (tokens[at] == "{") - (tokens[at] == "}")
        at += 1
        if not depth:
            break
    return at


def contracts(text: str) -> str:
    """Return a text of Rattle without comments, and with a semicolon for each function's body.

    The types, constants and contracts remain: a proof of a caller reads nothing else.
    """
    tokens, kept, at = tokens_of(text), [], 0
    while at < len(tokens):
        kept.append(tokens[at])
        is_function = tokens[at] == "fn" and re.match(r"[A-Za-z_]", tokens[at + 1])
        at += 1
        if is_function:
            at = signature_end(tokens, kept, at)
    return " ".join(kept)


def signature_end(tokens: list[str], kept: list[str], at: int) -> int:
    """Keep a function's signature and clauses, and return the index after its body."""
    depth = 0
    while tokens[at] != ";" or depth:
        depth += (tokens[at] in "([") - (tokens[at] in ")]")
        if tokens[at] != "{" or depth:
            kept.append(tokens[at])
            at += 1
        elif {"requires", "ensures"} & {*tokens[at - 2 : at]} or tokens[at - 1] == ":":
            end = block_end(tokens, at)
            kept += tokens[at:end]
            at = end
        else:
            kept.append(";")
            return block_end(tokens, at)
    return at


def declarations(text: str) -> str:
    """Return a text of definitions or lemmas without comments and blank lines."""
    lines = (re.sub(r"(^|\s)--\s.*", "", line).rstrip() for line in text.splitlines())
    return "\n".join(line for line in lines if line)
