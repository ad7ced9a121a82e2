"""Resolve each name in backquotes of docs/dev against the tree: files, folders, and identifiers.

An identifier with an underscore is known if a file that is not a page has it, or if it is the name
of a file. A word in capitals within a path means any name (`crates/CRATE/mutants/NAME.edit`).
"""

from __future__ import annotations

import re
import subprocess
from collections.abc import Iterator
from pathlib import Path, PurePosixPath

BLOCK = re.compile(r"^```.*?^```[ ]*$", re.M | re.S)
CODE = re.compile(r"`([^`\n]+)`")
WORD = re.compile(r"[A-Za-z_][A-Za-z0-9_]*")
FILE = re.compile(
    r"[\w./*-]*\.(?:py|sh|rt|antt|rs|md|toml|csv|edit|twin|js|go|c|h)|[\w.*-]+(?:/[\w.*-]+)+/?"
)
ANY = re.compile(r"(?<![A-Za-z])[A-Z]{4,}(?![A-Za-z])")
ELSEWHERE = {
    "read_to_end": "of Rust",
    "remote_write": "of PostgreSQL",
}
"""Names of things outside of the tree."""
EXAMPLES = ("style.md",)
"""Pages whose names are examples."""
NOT_SOURCES = {"out", "env", ".venv"}
"""Folders of a checkout with other files: what was built, and environments of Python."""


class Tree:
    """The files of a checkout, and the identifiers in them."""

    def __init__(self, top: Path) -> None:
        listed = ["git", "ls-files", "--cached", "--others", "--exclude-standard"]
        done = subprocess.run(listed, cwd=top, capture_output=True, text=True, check=False)
        files = done.stdout.split("\n") if done.returncode == 0 else walked(top)
        self.files = [file for file in files if file and (top / file).is_file()]
        self.paths = {
            *self.files,
            *(str(folder) for file in self.files for folder in PurePosixPath(file).parents),
        }
        self.identifiers = {PurePosixPath(file).stem for file in self.files}
        for file in self.files:
            if not file.endswith(".md"):
                text = (top / file).read_bytes().decode(errors="ignore")
                self.identifiers.update(WORD.findall(text))

    def has_path(self, name: str) -> bool:
        """Return whether a path leads to a file or folder, from the top or from some folder."""
        pattern = ANY.sub("*", name.removeprefix("./").rstrip("/"))
        if "*" not in pattern:
            return pattern in self.paths or any(path.endswith(f"/{pattern}") for path in self.paths)
        return any(PurePosixPath(path).match(pattern) for path in self.paths)


def walked(top: Path) -> list[str]:
    """Return the files of a tree without git."""
    return [
        str(path.relative_to(top)) for path in top.rglob("*") if not NOT_SOURCES & {*path.parts}
    ]


def unknown(top: Path) -> Iterator[str]:
    """Yield the names in backquotes of docs/dev that the tree does not have."""
    tree = Tree(top)
    for page in sorted((top / "docs" / "dev").rglob("*.md")):
        if page.name in EXAMPLES:
            continue
        text = BLOCK.sub("", page.read_text(encoding="utf-8"))
        for code in sorted(set(CODE.findall(text))):
            if code.startswith(("/", "out/")):
                continue  # a path of the machine, a route, or a built file
            identifiers = {word for word in WORD.findall(code) if "_" in word.strip("_")}
            if FILE.fullmatch(code):
                is_known = tree.has_path(code) or identifiers and identifiers <= tree.identifiers
            else:
                is_known = identifiers <= tree.identifiers | ELSEWHERE.keys()
            if not is_known:
                yield f"{page.relative_to(top)} names `{code}`, which the tree does not have"
