"""Mutants that are patches: bodies and private contracts change, and a public clause refuses them.

An edit changes the body of a function, and the contract of that function refuses it. This leaves a
question open: would the *public* contract refuse a program whose private contracts are weaker, too?
A patch answers it. It is a file `crates/CRATE/mutants/NAME.patch`:

- The first line is `at: FUNCTION CLAUSE ...`: the prover must refuse this function, at each of
  these clauses and at no other goal.
- Lines `only: FUNCTION` follow. The prover must prove these functions of the patched crate, and all
  functions that it checks for them.
- The rest is a unified diff. Its paths are below the folder of the crate.

So the private functions keep their new contracts, and only the public clause is in the way. A patch
may not change the contract that it is about. Below `specs/` it only adds files, since a clause says
what the definitions in it say.
"""

from __future__ import annotations

import os
import re
import subprocess
from dataclasses import dataclass
from pathlib import Path

CHANGED = re.compile(r"^(?:---|\+\+\+) (?:[ab]/(\S+)|/dev/null)$", re.M)


class InvalidPatch(Exception):
    """A patch cannot be read, or cannot be applied."""


@dataclass(frozen=True)
class Patch:
    """A patch: the function and the clauses that refuse it, and the functions that are proved."""

    target: str
    clauses: frozenset[str]
    proved: tuple[str, ...]
    diff: str

    @property
    def files(self) -> frozenset[str]:
        """The files that it changes, adds or removes, below the folder of the crate."""
        return frozenset(name for name in CHANGED.findall(self.diff) if name)


def read_patch(text: str) -> Patch:
    """Return the patch of a text.

    Raises:
        InvalidPatch: its first lines are wrong, or no diff follows them.
    """
    first, _, rest = text.partition("\n")
    word, _, names = first.partition(": ")
    target, *clauses = names.split() or [""]
    if word != "at" or not clauses:
        raise InvalidPatch("its first line is not 'at: FUNCTION CLAUSE ...'")
    proved: list[str] = []
    while rest.startswith("only: "):
        line, _, rest = rest.partition("\n")
        proved.append(line.removeprefix("only: ").strip())
    patch = Patch(target, frozenset(clauses), tuple(proved), rest)
    if not patch.files:
        raise InvalidPatch("it has no diff with paths 'a/...' and 'b/...'")
    return patch


def apply(patch: Patch, folder: Path) -> None:
    """Change the files of a copy of the crate.

    Raises:
        InvalidPatch: the diff does not fit the files.
    """
    done = subprocess.run(
        ["git", "apply", "-"],
        cwd=folder,
        input=patch.diff,
        capture_output=True,
        encoding="utf-8",
        env={**os.environ, "GIT_CEILING_DIRECTORIES": str(folder.resolve().parent)},
    )
    if done.returncode:
        reason = done.stderr.strip().split("\n")[0]
        raise InvalidPatch(f"its diff cannot be applied: {reason}")


def definitions_changed(patch: Patch, folder: Path) -> list[str]:
    """Return the files below `specs/` that a patch changes, except the list of files itself."""
    names = sorted(it for it in patch.files if it.startswith("specs/") and it != "specs/Lib.antt")
    return [name for name in names if (folder / name).exists()]
