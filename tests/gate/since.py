"""The parts of the suite that a change needs: crates and those above, mutants, and scripts."""

from __future__ import annotations

import subprocess
from dataclasses import dataclass
from pathlib import Path

import scripts
from crates import PARTS, Tree


@dataclass(frozen=True)
class Needs:
    """The parts that a change needs, and those that are left out."""

    files: list[str]
    crates: list[str]
    scripts: list[str]
    left_crates: list[str]
    left_scripts: list[str]


def changed_files(top: Path, revision: str) -> list[str]:
    """Return the files that differ from a revision, and the files that git does not track."""
    listed: list[str] = []
    for command in (
        ["diff", "--name-only", revision],
        ["ls-files", "--others", "--exclude-standard"],
    ):
        listing = subprocess.run(
            ["git", *command], cwd=top, check=True, capture_output=True, text=True
        )
        listed += listing.stdout.splitlines()
    return sorted({*listed})


def needs_of(tree: Tree, files: list[str]) -> Needs:
    """Return the parts that a change of these files needs."""
    touched = {
        parts[1]
        for parts in (file.split("/") for file in files)
        if len(parts) > 3 and parts[0] == "crates" and parts[2] in PARTS and parts[1] in tree.crates
    }
    if "crates.txt" in files:
        touched = {*tree.crates}
    above = tree.above(touched)
    needed = scripts.concerned(tree.top, files)
    return Needs(
        files,
        [name for name in tree.crates if name in above],
        needed,
        [name for name in tree.crates if name not in above],
        [name for name in scripts.names(tree.top) if name not in needed],
    )


def tops(tree: Tree, crates: list[str]) -> list[str]:
    """Return those of some crates that none of the others depends on."""
    return [name for name in crates if tree.above({name}) & {*crates} == {name}]
